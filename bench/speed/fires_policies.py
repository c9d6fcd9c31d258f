#!/usr/bin/env python3
"""Writes policies of one match with 100 and 1,000 values of one attribute, of which the last or none matches, so that all are looked at.

usage: fires_policies.py FOLDER
"""

import pathlib
import sys

sys.path.append(f"{pathlib.Path(__file__).resolve().parents[1]}/tables")
from spelling import exact, prefix, span, varint

ATTRIBUTES = {
    "namespaces": lambda count: b"".join(span(1, exact(b"namespace-%d" % n)) for n in range(count)),
    "principals": lambda count: b"".join(span(3, exact(b"cluster.local/ns/a/sa/c%d" % n)) for n in range(count)),
    "suffixes": lambda count: b"".join(span(3, span(3, b"/sa/c%d" % n)) for n in range(count)),
    "prefixes": lambda count: b"".join(span(5, span(1, bytes([11, n // 256, n % 256, 0])) + b"\x10\x18") for n in range(count)),
    "ports": lambda count: span(9, b"".join(varint(10000 + n) for n in range(count))),
}

for name, values in ATTRIBUTES.items():
    for count in (100, 1000):
        policy = span(1, b"p") + span(2, b"a") + span(5, span(2, span(2, values(count))))
        (pathlib.Path(sys.argv[1]) / f"{name}-{count}.policy").write_bytes(policy)
