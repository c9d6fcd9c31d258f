#!/usr/bin/env python3
"""Writes a discovery response with the service that the first 1,000 workloads of held_input.py serve, behind its length in four octets.

usage: route_input.py > FILE
"""

import pathlib
import sys

sys.path.append(f"{pathlib.Path(__file__).resolve().parents[1]}/tables")
from spelling import ADDRESS, number, resource, span

SERVICE = [
    span(1, "large"),
    span(2, "default"),
    span(3, "large.default.svc.cluster.local"),
    span(4, span(1, "network") + span(2, bytes([10, 9, 0, 1]))),
    span(5, number(1, 80) + number(2, 8080)),
]

response = resource(ADDRESS, "default/large.default.svc.cluster.local", span(2, b"".join(SERVICE))) + span(4, ADDRESS)
sys.stdout.buffer.write(len(response).to_bytes(4, "big") + response)
