#!/usr/bin/env python3
"""Writes discovery responses, each behind its length in four octets.

usage: held_input.py NAMES SIZE > FILE      (NAMES resources, in responses of SIZE; at most 65,536 of them)

Of each 16 names 12 are workloads, 2 services and 2 policies. Ten workloads serve each key of a service, and the first 1,000 another one
besides. A policy is one of a namespace of 100 or one that workloads name; none is for all. The last response changes policies alone that
are for no workload, if there are more than one.
"""

import pathlib
import sys

sys.path.append(f"{pathlib.Path(__file__).resolve().parents[1]}/tables")
from spelling import ADDRESS, AUTHORIZATION, exact, number, span

NETWORK = b"network"


def address(i, second):
    return bytes([10, second + i // 65536, i // 256 % 256, i % 256])


def served(key):
    return span(22, span(1, key) + span(2, span(1, number(1, 80) + number(2, 8080))))


def workload(i):
    name = b"cluster1//v1/Pod/default/workload-%05d" % i
    namespace = b"namespace-%03d" % (i % 100)
    fields = [
        span(1, b"workload-%05d" % i),
        span(2, namespace),
        span(3, address(i, 0)),
        span(4, NETWORK),
        number(5, 1),
        span(6, b"cluster.local"),
        span(7, b"account-%05d" % i),
        span(9, b"n1"),
        span(16, b"%s/policy-%05d" % (namespace, i)),
        span(20, name),
        served(b"default/service-%05d.default.svc.cluster.local" % (i // 10)),
        served(b"default/large.default.svc.cluster.local") if i < 1000 else b"",
    ]
    return name, ADDRESS, span(1, b"".join(fields))


def service(i):
    name = b"default/service-%05d.default.svc.cluster.local" % i
    fields = [
        span(1, b"service-%05d" % i),
        span(2, b"default"),
        span(3, b"service-%05d.default.svc.cluster.local" % i),
        span(4, span(1, NETWORK) + span(2, address(i, 8))),
        span(5, number(1, 80) + number(2, 8080)),
    ]
    return name, ADDRESS, span(2, b"".join(fields))


def policy(i, namespace):
    """Every second one is for a namespace, and the others are for the workload that names them."""
    match = span(3, exact(b"cluster.local/ns/frontend/sa/account-%d" % i))
    fields = [
        span(1, b"policy-%05d" % i),
        span(2, namespace),
        number(3, 1 + i % 2),
        span(5, span(2, span(2, match))),
    ]
    return b"default/policy-%05d" % i, AUTHORIZATION, b"".join(fields)


def resource(name, type_url, record):
    return span(2, span(1, b"1") + span(2, span(1, type_url) + span(2, record)) + span(3, name))


def responses(names, size):
    workloads = [workload(i) for i in range(names * 12 // 16)]
    services = [service(i) for i in range(names * 2 // 16)]
    policies = [policy(i, b"namespace-%03d" % (i % 100)) for i in range(names - len(workloads) - len(services))]
    addresses = workloads + services
    parts = [(ADDRESS, addresses[at : at + size]) for at in range(0, len(addresses), size)]
    parts += [(AUTHORIZATION, policies[at : at + size]) for at in range(0, len(policies), size)]
    if len(parts) > 2:
        parts[-1] = (AUTHORIZATION, [policy(i, b"elsewhere") for i in range(len(policies) - len(parts[-1][1]), len(policies))])
    for type_url, part in parts:
        yield b"".join(resource(*one) for one in part) + span(4, type_url) + span(5, b"nonce")


for response in responses(int(sys.argv[1]), int(sys.argv[2])):
    sys.stdout.buffer.write(len(response).to_bytes(4, "big") + response)
