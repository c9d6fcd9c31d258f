#!/usr/bin/env python3
"""Writes into a folder what a control plane and peers send to a node with inbound links: `control`, which leaves 1,025 workloads of the
node with a policy each of which all ask; `opening`, what a peer sends first; and for each update two responses, which take turns:
`one.first` and `one.second` change the workload of the first peer, `all.first` and `all.second` the policy of all, which admits each
peer before and after, and `none.first` and `none.second` a workload that no peer asks for.

usage: inbound_input.py FOLDER
"""
import pathlib
import sys

sys.path.append(f"{pathlib.Path(__file__).resolve().parents[1]}/tables")
from spelling import ADDRESS, AUTHORIZATION, exact, grpc, policy, resource, span, workload

PEER = b"cluster.local/ns/a/sa/c"
WORKLOADS = 1025
WIDE = 0x7FFF_FFFF


def frame(kind, flags, stream, payload=b""):
    return len(payload).to_bytes(3, "big") + bytes([kind, flags]) + stream.to_bytes(4, "big") + payload


def data(content):
    """DATA frames on stream 1."""
    return b"".join(frame(0, 0, 1, content[at:at + 16384]) for at in range(0, len(content), 16384))


def wide():
    """SETTINGS and WINDOW_UPDATE by which all may be sent."""
    return frame(4, 0, 0, b"\0\4" + WIDE.to_bytes(4, "big")) + frame(8, 0, 0, (WIDE - 65535).to_bytes(4, "big"))


def workload_of(at, account="x"):
    """The workload that the peer of this number means."""
    ip = [10, 100, 100 + at // 100 % 100, 100 + at % 100]
    more = span(7, account), span(20, "u%05d" % at)
    return "u%05d" % at, workload("w%05d" % at, "a", [ip], "n1", ["a/p"], *more)


def admits(more):
    """The policy of all: it admits the peer, and one more principal."""
    rules = [[[([exact(PEER), exact(more)], [])]]]
    return "a/p", policy("a", "p", "SELECTOR", "ALLOW", rules)


def updates():
    """Each update's two messages."""
    yield "one", [addresses_of([workload_of(1, account)]) for account in ("y", "z")]
    yield "none", [addresses_of([workload_of(WORKLOADS + 1, account)]) for account in ("y", "z")]
    yield "all", [policies_of([admits(more)]) for more in ("y", "z")]


def with_nonce(kind, resources):
    return grpc(b"".join(resource(kind, *one) for one in resources) + span(4, kind) + span(5, "n"))


def addresses_of(resources):
    return with_nonce(ADDRESS, resources)


def policies_of(resources):
    return with_nonce(AUTHORIZATION, resources)


def front():
    identity = b"spiffe://" + PEER
    header = bytes.fromhex("0a000009 0a646464 0fa0 3aa0 e0") + len(identity).to_bytes(2, "big") + identity
    return bytes.fromhex("0d0a0d0a000d0a515549540a 21 11") + len(header).to_bytes(2, "big") + header


def main():
    folder = pathlib.Path(sys.argv[1])
    known = data(addresses_of([workload_of(at) for at in range(1, WORKLOADS + 1)])) + data(policies_of([admits("x")]))
    (folder / "control").write_bytes(wide() + frame(1, 4, 1, b"\x88") + known)
    (folder / "opening").write_bytes(front() + b"PRI * HTTP/2.0\r\n\r\nSM\r\n\r\n" + wide())
    for name, messages in updates():
        for turn, message in zip(("first", "second"), messages):
            (folder / f"{name}.{turn}").write_bytes(data(message))


main()
