#!/usr/bin/env python3
"""Records a delta discovery stream into a file that `hbone check` reads.

usage: bench/tools/record.py --id NODE_ID [--seconds N] HOST:PORT FILE

Opens one stream of Envoy's aggregated discovery service over gRPC without TLS (istiod: its port 15010), asks for all workloads and
services and for all authorization policies, acknowledges each response, and writes each one as it came, framed as gRPC frames it:
a flag byte 0, the length in four bytes, and the message. It ends when nothing has come for N seconds (5, if left out), and tells how
many responses it wrote. NODE_ID is what the control plane knows a node proxy by; istiod's form is ztunnel~ADDRESS~POD.NAMESPACE~DOMAIN.

Needs Debian's python3-grpcio: run it with /usr/bin/python3.
"""

import argparse
import pathlib
import queue
import sys
import threading

import grpc

sys.path.append(f"{pathlib.Path(__file__).resolve().parents[1]}/tables")
from spelling import ADDRESS, AUTHORIZATION, grpc as framed, span, spans, text

METHOD = "/envoy.service.discovery.v3.AggregatedDiscoveryService/DeltaAggregatedResources"


def request(node_id, type_url, nonce=b""):
    """A DeltaDiscoveryRequest: node 1 (its id 1), type_url 2, response_nonce 6. One without subscribed names asks for all."""
    return span(1, text(1, node_id)) + span(2, type_url) + text(6, nonce)


def identity(message):
    return message


def main():
    words = argparse.ArgumentParser(description=__doc__, formatter_class=argparse.RawDescriptionHelpFormatter)
    words.add_argument("--id", required=True)
    words.add_argument("--seconds", type=float, default=5)
    words.add_argument("server")
    words.add_argument("file")
    given = words.parse_args()
    requests, responses = queue.Queue(), queue.Queue()
    for type_url in (ADDRESS, AUTHORIZATION):
        requests.put(request(given.id, type_url))
    with grpc.insecure_channel(given.server, options=[("grpc.max_receive_message_length", 1 << 26)]) as channel:
        stream = channel.stream_stream(METHOD, request_serializer=identity, response_deserializer=identity)(iter(requests.get, None))

        def receive():
            try:
                for message in stream:
                    responses.put(message)
                responses.put("the server ended the stream")
            except grpc.RpcError as error:
                responses.put(f"{error.code().name}: {error.details()}")

        threading.Thread(target=receive, daemon=True).start()
        written = 0
        with open(given.file, "wb") as file:
            while True:
                try:
                    message = responses.get(timeout=given.seconds)
                except queue.Empty:
                    break
                if isinstance(message, str):
                    print(f"record: {message}")
                    break
                file.write(framed(message))
                written += 1
                # (type_url 4, nonce 5)
                fields = spans(message)
                requests.put(request(given.id, fields.get(4, b""), fields.get(5, b"")))
        requests.put(None)
        stream.cancel()
    print(f"record: {written} responses written to {given.file}")
    return 0 if written else 1


if __name__ == "__main__":
    raise SystemExit(main())
