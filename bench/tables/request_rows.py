#!/usr/bin/python3
"""Prints crates/hb_resources_rows/src/written.rt: requests, and the bytes that Google's Protocol Buffers write of them.

    python3 bench/tables/request_rows.py > crates/hb_resources_rows/src/written.rt && (cd crates/hb_resources_rows && rt fmt)

Needs Debian's python3-protobuf and protobuf-compiler: run it with /usr/bin/python3. `protoc` makes its types from discovery.proto; what
they write is deterministic, so a map's entries stand by their keys. Names and versions that are empty aren't made here, since that
implementation writes an empty key.
"""

import importlib
import itertools
import os
import pathlib
import random
import subprocess
import sys
import tempfile
import textwrap

os.environ.setdefault("PROTOCOL_BUFFERS_PYTHON_IMPLEMENTATION", "python")
CHOICE = random.Random(5)
HERE = pathlib.Path(__file__).resolve().parent


def types():
    with tempfile.TemporaryDirectory() as room:
        subprocess.run(["protoc", f"--proto_path={HERE}", f"--python_out={room}", "discovery.proto"], check=True)
        sys.path.insert(0, room)
        sys.dont_write_bytecode = True
        return importlib.import_module("discovery_pb2")


TYPES = types()
URLS = {
    "address": ("UA", "type.googleapis.com/istio.workload.Address"),
    "authorization": ("UZ", "type.googleapis.com/istio.security.Authorization"),
}
IDS = ["", "z1", "ztunnel-x~10.0.0.1", "n"]
NAMES = ["u1", "u10", "u2", "U1", "a/p", "a", "b", "é", "z", "zz", "~", "\U0001f600", "\uff5e", "n" * 60]
VERSIONS = ["1", "2", "17", "2026-11-27", "v" * 70]


def told(text):
    """A text as the rows have it: `-` for none, and a letter, a star and a number for so many of it."""
    if len(text) > 9 and len(set(text)) == 1:
        return f"{text[0]}*{len(text)}"
    return text or "-"


def digits(content):
    """Bytes as the rows have them."""
    runs = ((f"{byte:02x}", len(list(run))) for byte, run in itertools.groupby(content))
    return [word for byte, count in runs for word in ([f"{byte}*{count}"] if count > 9 else [byte] * count)]


def row(words, request, kind):
    name, url = URLS[kind]
    left, behind = request.SerializeToString(deterministic=True).split(url.encode(), 1)
    return f"{' '.join(words)}; {' '.join(digits(left) + [name] + digits(behind))}"


def first(count):
    kind, node = CHOICE.choice(list(URLS)), CHOICE.choice(IDS)
    request = TYPES.DeltaDiscoveryRequest(type_url=URLS[kind][1])
    request.node.id = node
    request.node.SetInParent()
    words = ["first", kind, told(node)]
    for _ in range(count):
        name, version = CHOICE.choice(NAMES), CHOICE.choice(VERSIONS)
        request.initial_resource_versions[name] = version
        words.append(f"{told(name)}={told(version)}")
    return row(words, request, kind)


def answer(refused):
    kind, nonce = CHOICE.choice(list(URLS)), CHOICE.choice(["", "x5", "nonce-17", "n" * 130])
    request = TYPES.DeltaDiscoveryRequest(type_url=URLS[kind][1], response_nonce=nonce)
    words = ["answer", kind, told(nonce)]
    if refused is not None:
        request.error_detail.code = 3
        request.error_detail.message = refused
        words.append(told(refused))
    return row(words, request, kind)


def laid_out(line, end):
    """A row in lines of at most 140 columns."""
    plain = "".join(c if ord(c) < 128 else "".join(f"\\x{b:02x}" for b in c.encode()) for c in line)
    return " \\\n    ".join(textwrap.wrap(plain, 130, break_long_words=False, break_on_hyphens=False)) + end


def main():
    rows = [first(count) for count in (0, 0, 1, 1, 2, 2, 2, 3, 3, 4, 5, 6)]
    rows += [answer(refused) for refused in (None, None, None, None, "b", "", "é/p", "a/p", "r" * 140)]
    print("//! Requests, printed by bench/tables/request_rows.py: Google's Protocol Buffers wrote the bytes of each.\n")
    print('/// First requests and answers, and the bytes of each.\npub const WRITTEN: &[u8] = b"\\')
    print("\n".join(laid_out(line, "\\n\\") for line in rows[:-1]) + "\n" + laid_out(rows[-1], '";'))


main()
