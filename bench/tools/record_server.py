#!/usr/bin/env python3
"""A control plane that sends the responses of a file: what bench/tools/record.py is tried against.

usage: bench/tools/record_server.py PORT FILE

FILE has framed responses, as `hbone check` reads them. Of each type that a stream asks for, it sends the responses of that type in
order, each once the one before it was acknowledged by its nonce; a request with an error or another nonce ends the stream with a
fault. Needs Debian's python3-grpcio: run it with /usr/bin/python3.
"""

import sys
from concurrent.futures import ThreadPoolExecutor

import grpc

from record import METHOD, identity
from spelling import spans

# of a DeltaDiscoveryRequest and of a DeltaDiscoveryResponse
ASKED_TYPE, ANSWERED_NONCE, ERROR = 2, 6, 7
TYPE, NONCE = 4, 5


def messages_of(framed):
    while framed:
        size = int.from_bytes(framed[1:5], "big")
        yield framed[5 : 5 + size]
        framed = framed[5 + size :]


def answering(responses):
    def answer(requests, context):
        left, waits = {}, {}
        for request in requests:
            fields = spans(request)
            kind, nonce = fields.get(ASKED_TYPE), fields.get(ANSWERED_NONCE, b"")
            if nonce != waits.get(kind, b"") or ERROR in fields:
                context.abort(grpc.StatusCode.INVALID_ARGUMENT, f"{kind}: nonce {nonce}, error {fields.get(ERROR)}")
            left.setdefault(kind, [it for it in responses if spans(it).get(TYPE) == kind])
            if left[kind]:
                response = left[kind].pop(0)
                waits[kind] = spans(response).get(NONCE, b"")
                yield response

    return answer


def main():
    port, file = sys.argv[1:]
    responses = list(messages_of(open(file, "rb").read()))
    _, service, method = METHOD.split("/")
    handler = grpc.stream_stream_rpc_method_handler(answering(responses), request_deserializer=identity, response_serializer=identity)
    server = grpc.server(ThreadPoolExecutor(4))
    server.add_generic_rpc_handlers((grpc.method_handlers_generic_handler(service, {method: handler}),))
    server.add_insecure_port(f"127.0.0.1:{port}")
    server.start()
    server.wait_for_termination()


main()
