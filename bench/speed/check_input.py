#!/usr/bin/env python3
"""Writes a framed discovery input: responses of one resource each, of 100 distinct names over and over.

usage: check_input.py BYTES [mixed|names] > FILE      (the input has about BYTES bytes)

Without a further word each is a workload. With `names` each is a workload too, of 65,536 distinct names. With `mixed` 40 % of the resources, and of their bytes within a hundredth, are workloads with a waypoint and
a map of services, 20 % services, and 40 % policies with all ten attributes of a match.
"""

import pathlib
import sys

sys.path.append(f"{pathlib.Path(__file__).resolve().parents[1]}/tables")
from spelling import ADDRESS, AUTHORIZATION, PRESENCE, exact, grpc, number, prefix, span, suffix, varint

V6 = bytes.fromhex("20010db80000000000000000000000")


def message(i, type_url, name, record):
    """A response with this record as its resource."""
    resource = span(1, b"%d" % i) + span(2, span(1, type_url) + span(2, record)) + span(3, name)
    return grpc(span(2, resource) + span(4, type_url) + span(5, b"nonce-%d" % i))


def workload(i, more=b"", digits=3):
    number_text = b"%0*d" % (digits, i)
    name = b"cluster1//v1/Pod/default/workload-" + number_text
    fields = [
        span(1, b"workload-" + number_text),
        span(2, b"default"),
        span(3, bytes([10, 0, i // 256, i % 256])),
        number(5, 1),
        span(6, b"cluster.local"),
        span(7, b"account-" + number_text),
        span(9, b"n1"),
        span(16, b"default/allow-frontend"),
        span(20, name),
        more,
    ]
    return message(i, ADDRESS, name, span(1, b"".join(fields)))


def port(field, service_port, target_port):
    return span(field, number(1, service_port) + number(2, target_port))


def waypoint(field, i):
    """By a hostname, or by an address of a network."""
    by_hostname = span(1, span(1, b"istio-waypoints") + span(2, b"waypoint-%03d.default.svc.cluster.local" % i))
    by_address = span(2, span(1, b"network-of-the-cluster-%03d" % i) + span(2, V6 + bytes([i])))
    return span(field, (by_hostname if i % 2 else by_address) + number(3, 15008))


def entry(i):
    key = b"default/service-%03d.default.svc.cluster.local" % i
    return span(22, span(1, key) + span(2, port(1, 80, 8080) + port(1, 443, 8443)))


def workload_of_services(i):
    return workload(i, waypoint(8, i) + entry(i) + entry(i + 1))


def service(i):
    name = b"default/service-%03d.default.svc.cluster.local" % i
    address = lambda own: span(4, span(1, b"network-of-the-cluster-%03d" % i) + span(2, own))
    fields = [
        span(1, b"service-%03d" % i),
        span(2, b"default"),
        span(3, b"service-%03d.default.svc.cluster.local" % i),
        *(address(own) for own in (bytes([10, 1, 0, i]), V6 + bytes([i]), bytes([10, 2, 0, i]), V6 + bytes([i + 100]))),
        *(port(5, n, n + 8000) for n in (80, 443, 8443)),
        waypoint(7, i),
    ]
    return message(i, ADDRESS, name, span(2, b"".join(fields)))


def policy(i):
    name = b"default/policy-%03d" % i
    cidr = lambda field, own, length: span(field, span(1, own) + number(2, length))
    ports = lambda field, *numbers: span(field, b"".join(varint(n) for n in numbers))
    match = [
        *(span(1, exact(b"frontend-%03d" % (i + n))) for n in range(2)),
        span(2, prefix(b"test-")),
        *(span(3, exact(b"cluster.local/ns/frontend-%03d/sa/account-%d" % (i, n))) for n in range(3)),
        span(3, suffix(b"/sa/gateway")),
        span(4, PRESENCE),
        *(cidr(5, bytes([10, n, i, 0]), 24) for n in range(4)),
        cidr(6, V6 + bytes([i]), 64),
        cidr(7, bytes([10, 0, 0, 0]), 8),
        cidr(8, bytes([10, 0, i, 0]), 28),
        ports(9, 80, 443, 8080, 8443),
        ports(10, 15020, 15021),
    ]
    fields = [
        span(1, b"policy-%03d" % i),
        span(2, b"default"),
        number(3, i % 3),
        number(4, i % 2),
        span(5, span(2, span(2, b"".join(match)))),
    ]
    return message(i, AUTHORIZATION, name, b"".join(fields))


def mixed():
    """For each two workloads a service and two policies, 100 in all."""
    kinds = {workload_of_services: 40, service: 20, policy: 40}
    parts = {kind: [kind(i) for i in range(1, count + 1)] for kind, count in kinds.items()}
    sizes = {kind: len(b"".join(part)) for kind, part in parts.items()}
    for kind, count in kinds.items():
        share = 100 * sizes[kind] / sum(sizes.values())
        assert abs(share - count) < 1, f"{kind.__name__}: {share:.1f} % of the bytes"
    workloads, services, policies = parts.values()
    return b"".join(b"".join(workloads[2 * i : 2 * i + 2] + services[i : i + 1] + policies[2 * i : 2 * i + 2]) for i in range(20))


def block_of(kind):
    if kind == "mixed":
        return mixed()
    if kind == "names":
        return b"".join(workload(i, digits=5) for i in range(65536))
    return b"".join(workload(i) for i in range(1, 101))


def main():
    wanted = int(sys.argv[1])
    block = block_of("".join(sys.argv[2:]))
    for _ in range(max(1, wanted // len(block))):
        sys.stdout.buffer.write(block)


main()
