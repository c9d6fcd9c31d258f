#!/usr/bin/python3
"""Prints crates/hb_lives_rows/src/octets.rt: what comes and goes on links in their lives, and what a control plane tells, in octets.

The headers of the front are spelled by the PROXY protocol's text, frames by RFC 9113, header blocks by RFC 7541 (the node's is read back
by python3-hpack), requests by the rules of Protocol Buffers, and responses by spelling.py and routes.py.

    /usr/bin/python3 bench/tables/lives_rows.py > crates/hb_lives_rows/src/octets.rt
"""
import ipaddress
import struct

import hpack

import routes
from spelling import ADDRESS, AUTHORIZATION, policy, resource, span, workload

SIGNATURE = b"\x0d\x0a\x0d\x0a\x00\x0d\x0a\x51\x55\x49\x54\x0a"
PEER = b"spiffe://cluster.local/ns/a/sa/c"
PREFACE = b"PRI * HTTP/2.0\r\n\r\nSM\r\n\r\n"
PATH = b"/envoy.service.discovery.v3.AggregatedDiscoveryService/DeltaAggregatedResources"
BLOCK = (b"\x20\x83\x86\x04" + bytes([len(PATH)]) + PATH + b"\x01\x0e10.0.0.1:15010" + b"\x00\x02te\x08trailers"
         + b"\x0f\x10\x10application/grpc")
assert hpack.Decoder().decode(BLOCK) == [
    (":method", "POST"), (":scheme", "http"), (":path", PATH.decode()), (":authority", "10.0.0.1:15010"), ("te", "trailers"),
    ("content-type", "application/grpc")]


def front(identity, port):
    ends = ipaddress.ip_address("10.0.0.9").packed + ipaddress.ip_address("10.0.0.7").packed + struct.pack("!HH", 4000, port)
    tlv = b"\xe0" + len(identity).to_bytes(2, "big") + identity
    return SIGNATURE + b"\x21\x11" + len(ends + tlv).to_bytes(2, "big") + ends + tlv


def frame(kind, flags, stream, payload=b""):
    return len(payload).to_bytes(3, "big") + bytes([kind, flags]) + stream.to_bytes(4, "big") + payload


def settings(*pairs):
    return frame(4, 0, 0, b"".join(number.to_bytes(2, "big") + value.to_bytes(4, "big") for number, value in pairs))


def connect(stream):
    return frame(1, 4, stream, b"\x02\x07CONNECT" + b"\x01\x0d10.0.0.7:9090")


def message(content):
    return bytes(1) + len(content).to_bytes(4, "big") + content


def told(*messages):
    return frame(0, 0, 1, b"".join(map(message, messages)))


def first(url, **versions):
    """The first request of a kind on a link: the node, and what is held."""
    names = b"".join(span(5, span(1, name) + span(2, version)) for name, version in sorted(versions.items()))
    return span(1, span(1, "z1")) + span(2, url) + names


def answer(url):
    return span(2, url) + span(6, "n")


def response(url, *resources):
    return b"".join(resource(url, n, v) for n, v in resources) + span(4, url) + span(5, "n")


def addresses(**resources):
    return response(ADDRESS, *((name, routes.spelled(r)) for name, r in resources.items()))


def host(ip, node="n2", hbone=0, **more):
    return routes.workload(ip, net="", node=node, hbone=hbone, **more)


KNOWN = response(ADDRESS, ("u1", workload("w", "a", [[10, 0, 0, 7]], "n1", [])))
NO_POLICY = response(AUTHORIZATION)
ROWS = (
    ("INBOUND_FRONT", "the header of the front: from 10.0.0.9, with an identity, to 10.0.0.7, port 15008", front(PEER, 15008)),
    ("CAPTURED_FRONT", "the same to port 9090", front(PEER, 9090)),
    ("PREFACE", "the preface of a client", PREFACE),
    ("SETTINGS", "SETTINGS without a setting", settings()),
    ("SETTINGS_ACK", "their acknowledgement", frame(4, 1, 0)),
    ("OWN_SETTINGS", "SETTINGS 3 of 100 and 6 of 16,384", settings((3, 100), (6, 16384))),
    ("CONNECT_1", "a request for a tunnel to 10.0.0.7, port 9090, on stream 1", connect(1)),
    ("CONNECT_3", "the same on stream 3", connect(3)),
    ("CONNECT_5", "the same on stream 5", connect(5)),
    ("STATUS_200", "a response of status 200 on stream 1", frame(1, 4, 1, b"\x88")),
    ("STATUS_404", "one of status 404", frame(1, 4, 1, b"\x8d")),
    ("NODE_OPENING", "the preface, SETTINGS 2 of 0 and 6 of 16,384, and the request of a node",
        PREFACE + settings((2, 0), (6, 16384)) + frame(1, 4, 1, BLOCK)),
    ("REQUESTS", "the first request of each kind by the node z1, which holds nothing", told(first(ADDRESS), first(AUTHORIZATION))),
    ("REQUESTS_AGAIN", "the same, where it holds the workload u1", told(first(ADDRESS, u1="1"), first(AUTHORIZATION))),
    ("KNOWN_TOLD", "the response KNOWN in DATA of stream 1", told(KNOWN)),
    ("KNOWN_ANSWERED", "what it is answered", told(answer(ADDRESS))),
    ("BOTH_TOLD", "KNOWN and NO_POLICY in one DATA frame", told(KNOWN, NO_POLICY)),
    ("BOTH_ANSWERED", "what they are answered", told(answer(ADDRESS), answer(AUTHORIZATION))),
    ("KNOWN", "a workload of this node at 10.0.0.7", KNOWN),
    ("SOURCE", "a workload of this node at 10.0.0.9", addresses(u2=host("10.0.0.9", node="n1"))),
    ("TAKES_HBONE", "a workload at 10.0.0.7 that takes HBONE", addresses(u3=host("10.0.0.7", hbone=1))),
    ("SERVICE", "a service at 10.0.0.7, port 9090", addresses(s=routes.service("10.0.0.7", ports=((9090, 8080),), net=""))),
    ("ENDPOINT", "a workload at 10.0.0.8 whose port 8080 serves port 9090 of the service",
        addresses(u4=host("10.0.0.8", serves=[("a/web.a", [(9090, 8080)])]))),
    ("NO_POLICY", "no policy", NO_POLICY),
    ("ALLOWS_NONE", "a policy that allows none", response(AUTHORIZATION, ("a/n", policy("a", "n", "GLOBAL", "ALLOW", [])))),
)

print("""\
//! What comes and goes on links, and what a control plane tells. `bench/tables/lives_rows.py` prints this file.
//!
//! | Name | What it is |
//! |---|---|""")
for name, says, _ in ROWS:
    print(f"//! | {name} | {says} |")
print("""
/// A line each: a name, and octets in hexadecimal digits.
pub const OCTETS: &[u8] = b"\\""")
for name, _, octets in ROWS:
    digits = octets.hex()
    print(f"{name} \\")
    for at in range(0, len(digits), 100):
        print(digits[at : at + 100] + ("\\" if at + 100 < len(digits) else "\\n\\" if name != ROWS[-1][0] else '\\n";'))
