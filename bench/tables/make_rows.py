#!/usr/bin/python3
"""Prints tests/make/made.runs: the scripts that `make` prints for one, two and three tunnels, and the reports of their runs.

The scripts are written from docs/FORMATS.md ("Made scripts") alone: frames by RFC 9113, header blocks by RFC 7541, the header of the
front by the PROXY protocol's text, messages by bench/tables/discovery.proto. The reports are counted: a tunnel has two links, tunnel i
sends i octets up and 3 down, and the update leaves the tunnels with an even number.

    python3 bench/tables/make_rows.py > tests/make/made.runs
"""
import ipaddress

from run_table import Table
from spelling import ADDRESS, AUTHORIZATION, exact, grpc, number, resource, span

HEAD = ["Scripts that `make` prints, and the reports of their runs. bench/tables/make_rows.py prints this file, from docs/FORMATS.md alone."]
PEER = "spiffe://cluster.local/ns/a/sa/c"


def frame(kind, flags, stream, payload=b""):
    return len(payload).to_bytes(3, "big") + bytes([kind, flags]) + stream.to_bytes(4, "big") + payload


def data(payload):
    return frame(0, 0, 1, payload)


def literal(index, value):
    """A header that isn't indexed, its name by its place in the static table."""
    return bytes([index, len(value)]) + value.encode()


def connect(port):
    return frame(1, 4, 1, literal(2, "CONNECT") + literal(1, f"10.0.0.7:{port}"))


def address(ip):
    return ipaddress.ip_address(ip).packed


def front(source, source_port, destination, destination_port, identity):
    more = b"\xe0" + len(identity).to_bytes(2, "big") + identity.encode()
    body = address(source) + address(destination)
    body += source_port.to_bytes(2, "big") + destination_port.to_bytes(2, "big") + more
    return b"\r\n\r\n\0\r\nQUIT\n" + b"\x21\x11" + len(body).to_bytes(2, "big") + body


def response(url, name, value, nonce, version="1"):
    return grpc(resource(url, name, value, version=version) + span(4, url) + span(5, nonce))


def named_policy(allowed):
    """The policy a/p of workloads that name it, with this match."""
    return span(1, "p") + span(2, "a") + number(3, 2) + span(5, span(2, span(2, allowed)))


SETTINGS = frame(4, 0, 0)
WORKLOAD = span(
    1,
    span(1, "web") + span(2, "a") + span(3, address("10.0.0.7")) + number(5, 1) + span(9, "n1") + span(16, "a/p") + span(20, "u1"),
)
ONE_PEER = named_policy(span(3, exact(PEER.removeprefix("spiffe://"))))
# Ports are packed; 9090 is 71 * 128 + 2.
ONE_PORT = named_policy(span(9, bytes([2 + 128, 71])))
OPENING = front("10.0.0.9", 4000, "10.0.0.7", 15008, PEER) + b"PRI * HTTP/2.0\r\n\r\nSM\r\n\r\n" + SETTINGS
WAKE = '{"wake":true}'


def piece(link, octets):
    return f'{{"bytes":"{octets.hex()}","link":{link}}}'


def base():
    return [
        '{"open":1}', WAKE,
        piece(1, SETTINGS + frame(1, 4, 1, b"\x88")), WAKE,
        piece(1, data(response(ADDRESS, "u1", WORKLOAD, "x1"))), WAKE,
        piece(1, data(response(AUTHORIZATION, "a/p", ONE_PEER, "x2"))), WAKE,
    ]


def tunnel(i):
    link, upstream = 2 * i, 2 * i + 1
    return [
        '{"accept":"inbound"}', piece(link, OPENING + connect(8080 if i % 2 else 9090)), WAKE,
        f'{{"open":{upstream}}}', WAKE,
        piece(link, data(b"a" * i)), WAKE,
        piece(upstream, b"abc"), WAKE,
    ]


def made(n):
    lines = base()
    for i in range(1, n + 1):
        lines += tunnel(i)
    return lines + [piece(1, data(response(AUTHORIZATION, "a/p", ONE_PORT, "x7", version="2"))), WAKE]


def report(n):
    revoked = sum(1 for i in range(1, n + 1) if i % 2)
    up = sum(range(1, n + 1))
    return f"total: {1 + 2 * n} links, {n} accepted, {revoked} revoked, {up} up, {3 * n} down"


PARTS = {
    "opening": OPENING.hex(), "settings": SETTINGS.hex(), "connect8080": connect(8080).hex(), "connect9090": connect(9090).hex(),
    "workload": data(response(ADDRESS, "u1", WORKLOAD, "x1")).hex(), "one_peer": data(response(AUTHORIZATION, "a/p", ONE_PEER, "x2")).hex(),
    "one_port": data(response(AUTHORIZATION, "a/p", ONE_PORT, "x7", version="2")).hex(),
}
REPLAY = "replay --node n1 --id z1 --discovery 10.0.0.1:15010 --inbound 0.0.0.0:15008 --brief"


def main():
    table = Table(HEAD, PARTS)
    for n in (1, 2, 3):
        table.begin(f"a script of {n}, printed")
        table.run(f"make {n}", 0, "\n".join(made(n)) + "\n")
    for n in (1, 3, 1000):
        table.begin(f"a script of {n}, printed and replayed")
        table.source(f"make {n}", "$")
        table.run(REPLAY, 0, report(n) + "\n")
        table.begin(f"a script of {n}, run")
        table.run(f"make {n} --run", 0, report(n) + "\n")
    table.begin("the flag in front")
    table.run("make --run 3", 0, report(3) + "\n")
    table.begin("an input, which isn't read")
    table.source("/")
    table.run("make 2", 0, "\n".join(made(2)) + "\n")
    table.print()


main()
