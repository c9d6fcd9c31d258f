#!/usr/bin/python3
"""A control plane for one machine: sends the workloads, services and policies of a file to each node that asks, and again what changes.

usage: examples/control_plane.py [--as FOLDER/NAME] [HOST:]PORT FILE

It speaks Envoy's delta discovery over gRPC, with Istio's two types, as docs/FORMATS.md has them under Messages: without TLS, or, with the
word --as, by mutual TLS with a certificate that examples/certificates.sh made, to clients whose certificate ca.pem signed. FILE is YAML,
as examples/mesh.yaml: the lists `workloads`, `services` and `policies`, whose members have the names of the fields there. An address is
written as text, a prefix as ADDRESS/LENGTH, a choice by its name; the services of a workload as a map, which has of each NAMESPACE/HOSTNAME
a list of ports. The file is looked at once a second: save it, and each node is sent what changed. A file that can't be read changes
nothing. A line is printed for each response and for each that a node refused.

Needs Debian's python3-grpcio and python3-yaml: run it with /usr/bin/python3.
"""

import argparse
import hashlib
import ipaddress
import pathlib
import queue
import sys
import threading
import time
from concurrent.futures import ThreadPoolExecutor

import grpc
import yaml

sys.path.append(f"{pathlib.Path(__file__).resolve().parents[1]}/bench/tables")
from spelling import ADDRESS, AUTHORIZATION, fields_of, number, resource, span, spans, text

SERVICE, METHOD = "envoy.service.discovery.v3.AggregatedDiscoveryService", "DeltaAggregatedResources"
KINDS = {ADDRESS: "address", AUTHORIZATION: "authorization"}
# of a DeltaDiscoveryRequest
ASKED_TYPE, VERSIONS, NONCE, ERROR = 2, 5, 6, 7


# How a record is spelled: of each field its number and what spells it, given both.


def named(*names):
    return lambda field, value: number(field, names.index(value))


def many(kind):
    return lambda field, values: b"".join(kind(field, value) for value in values)


def address(field, value):
    return span(field, ipaddress.ip_address(value).packed)


def prefix(field, value):
    """address 1, length 2"""
    network = ipaddress.ip_network(value)
    return span(field, span(1, network.network_address.packed) + number(2, network.prefixlen))


def presence(field, _value):
    return span(field, b"")


def spelled(fields, record):
    """The bytes of a record that is given by its fields' names."""
    strange = set(record) - set(fields)
    if strange:
        raise ValueError(f"no field {', '.join(sorted(strange))} beside {', '.join(fields)}")
    return b"".join(fields[name][1](fields[name][0], value) for name, value in record.items())


def message(fields):
    return lambda field, record: span(field, spelled(fields, record))


def lists(first, names, kind):
    """Pairs of lists under rising numbers: those that have to match, and those that mustn't."""
    pairs = [name for plain in names for name in (plain, f"not_{plain}")]
    return {name: (first + at, many(kind)) for at, name in enumerate(pairs)}


NETWORK_ADDRESS = {"network": (1, text), "address": (2, address)}
NAMESPACED_HOSTNAME = {"namespace": (1, text), "hostname": (2, text)}
GATEWAY = {"hostname": (1, message(NAMESPACED_HOSTNAME)), "address": (2, message(NETWORK_ADDRESS)), "hbone_mtls_port": (3, number)}
PORT = {"service_port": (1, number), "target_port": (2, number)}


def port_lists(field, services):
    """A map from services' names: key 1, and as value 2 a message of ports 1."""
    return b"".join(span(field, span(1, name) + span(2, many(message(PORT))(1, ports))) for name, ports in services.items())


WORKLOAD = {
    "name": (1, text),
    "namespace": (2, text),
    "addresses": (3, many(address)),
    "network": (4, text),
    "tunnel_protocol": (5, named("NONE", "HBONE")),
    "trust_domain": (6, text),
    "service_account": (7, text),
    "waypoint": (8, message(GATEWAY)),
    "node": (9, text),
    "authorization_policies": (16, many(text)),
    "status": (17, named("HEALTHY", "UNHEALTHY")),
    "uid": (20, text),
    "services": (22, port_lists),
}
ENDPOINT = {
    "name": (1, text),
    "namespace": (2, text),
    "hostname": (3, text),
    "addresses": (4, many(message(NETWORK_ADDRESS))),
    "ports": (5, many(message(PORT))),
    "waypoint": (7, message(GATEWAY)),
}
STRING = message({"exact": (1, text), "prefix": (2, text), "suffix": (3, text), "presence": (4, presence)})
MATCH = {
    **lists(1, ["namespaces", "principals"], STRING),
    **lists(5, ["source_ips", "destination_ips"], prefix),
    **lists(9, ["destination_ports"], number),
}
RULE = {"clauses": (2, many(message({"matches": (2, many(message(MATCH)))})))}
POLICY = {
    "name": (1, text),
    "namespace": (2, text),
    "scope": (3, named("GLOBAL", "NAMESPACE", "WORKLOAD_SELECTOR")),
    "action": (4, named("ALLOW", "DENY")),
    "rules": (5, many(message(RULE))),
}


def resources_of(mesh):
    """Of each type the records by their resources' names, of a mesh as the file has it."""
    addresses = {it["uid"]: span(1, spelled(WORKLOAD, it)) for it in mesh.get("workloads") or []}
    for it in mesh.get("services") or []:
        addresses[f"{it['namespace']}/{it['hostname']}"] = span(2, spelled(ENDPOINT, it))
    policies = {f"{it['namespace']}/{it['name']}": spelled(POLICY, it) for it in mesh.get("policies") or []}
    return {ADDRESS: addresses, AUTHORIZATION: policies}


# The server


def version_of(record):
    return hashlib.sha256(record).hexdigest()[:12]


def versions_in(request):
    """The versions that a first request says its node has, by name."""
    pairs = [spans(entry) for at, entry in fields_of(request) if at == VERSIONS]
    return {pair.get(1, b"").decode(): pair.get(2, b"").decode() for pair in pairs}


def identity(message_bytes):
    return message_bytes


class Plane:
    """A server at an address: `resources` has, of each type, the records by name; `waits` the nonces that no node has answered yet."""

    def __init__(self, at, tell=print, options=(), credentials=None):
        self.tell, self.lock = tell, threading.Condition()
        self.resources, self.streams, self.waits, self.refusals, self.sent = {kind: {} for kind in KINDS}, [], set(), [], 0
        self.server = grpc.server(ThreadPoolExecutor(64), options=[("grpc.so_reuseport", 0), *options])
        handler = grpc.stream_stream_rpc_method_handler(self.stream, request_deserializer=identity, response_serializer=identity)
        self.server.add_generic_rpc_handlers((grpc.method_handlers_generic_handler(SERVICE, {METHOD: handler}),))
        if not (self.server.add_secure_port(at, credentials) if credentials else self.server.add_insecure_port(at)):
            raise OSError(f"no port at {at}")
        self.server.start()

    def set(self, resources):
        """Sends what changed to each node."""
        with self.lock:
            self.resources = resources
            for events in self.streams:
                events.put(b"")

    def stop(self):
        self.server.stop(0).wait()

    def settled(self, seconds=10):
        """Whether each response was answered by then."""
        with self.lock:
            return self.lock.wait_for(lambda: self.sent >= len(KINDS) and not self.waits, seconds)

    def listen(self, requests, events):
        try:
            for request in requests:
                events.put(request)
        except grpc.RpcError:
            pass
        events.put(None)

    def stream(self, requests, _context):
        """The responses of one stream. Its events are requests, an empty one where the resources changed, and None at its end."""
        events, told = queue.Queue(), {}
        with self.lock:
            self.streams.append(events)
        threading.Thread(target=self.listen, args=(requests, events), daemon=True).start()
        nonces = set()
        try:
            for request in iter(events.get, None):
                asked = self.take(request, told, nonces)
                for kind in list(told):
                    if response := self.news(kind, told[kind], kind == asked, nonces):
                        yield response
        finally:
            with self.lock:
                self.streams.remove(events)
                self.waits -= nonces
                self.lock.notify_all()

    def take(self, request, told, nonces):
        """Takes a request, and says the type that it is the first one of, if it is."""
        fields = spans(request)
        kind, nonce = fields.get(ASKED_TYPE), fields.get(NONCE, b"").decode()
        if kind is None:
            return None
        if kind not in told:
            told[kind] = versions_in(request)
            return kind
        with self.lock:
            self.waits.discard(nonce)
            nonces.discard(nonce)
            self.lock.notify_all()
            if ERROR in fields:
                self.refusals.append(spans(fields[ERROR]).get(2, b"").decode())
                self.tell(f"control plane: {KINDS.get(kind)}: response {nonce} refused: {self.refusals[-1]}")
        return None

    def news(self, kind, told, always, nonces):
        """A response with what of a type isn't told yet, where something isn't or one is to come anyway."""
        with self.lock:
            now = self.resources.get(kind, {})
            changed = {name: version_of(record) for name, record in now.items() if told.get(name) != version_of(record)}
            removed = [name for name in told if name not in now]
            if not (changed or removed or always):
                return None
            self.sent += 1
            nonce = str(self.sent)
            self.waits.add(nonce)
        nonces.add(nonce)
        told.update(changed)
        for name in removed:
            del told[name]
        self.tell(f"control plane: {KINDS.get(kind)}: response {nonce}: {len(changed)} changed, {len(removed)} removed")
        # (resources 2, type_url 4, nonce 5, removed_resources 6)
        parts = [resource(kind, name, now[name], version=version) for name, version in changed.items()]
        return b"".join([*parts, span(4, kind), span(5, nonce), *(span(6, name) for name in removed)])


def follow(plane, file):
    """Reads the file whenever it changed, for ever."""
    seen = None
    while True:
        try:
            stamp = file.stat().st_mtime_ns
            if stamp != seen:
                seen = stamp
                plane.set(resources_of(yaml.safe_load(file.read_text()) or {}))
        except (OSError, yaml.YAMLError, ValueError, TypeError, KeyError, AttributeError) as error:
            print(f"control plane: {file}: {error}", file=sys.stderr, flush=True)
        time.sleep(1)


def credentials_of(own):
    """Mutual TLS with the certificate and key of this name, for clients that ca.pem beside them signed."""
    own = pathlib.Path(own)
    key, certificate, authority = (own.with_name(it).read_bytes() for it in (f"{own.name}.key", f"{own.name}.pem", "ca.pem"))
    return grpc.ssl_server_credentials([(key, certificate)], authority, require_client_auth=True)


def main():
    words = argparse.ArgumentParser(description=__doc__, formatter_class=argparse.RawDescriptionHelpFormatter)
    words.add_argument("--as", dest="own", type=credentials_of)
    words.add_argument("at")
    words.add_argument("file", type=pathlib.Path)
    given = words.parse_args()
    at = given.at if ":" in given.at else f"127.0.0.1:{given.at}"
    follow(Plane(at, lambda line: print(line, flush=True), credentials=given.own), given.file)


if __name__ == "__main__":
    main()
