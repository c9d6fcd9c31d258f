#!/usr/bin/python3
"""Runs `serve` over sockets with each allocation failing in turn that a peer's request asks for. Where it is one for the header block the
request's connection alone is closed, as `no memory`; behind the block the request gets 500, or the run ends where its upstream can't be
dialled. Else a tunnel on another connection goes on. The status is 9 where a connection was closed, a request got 500, or the run ended.

usage: bench/tools/fail_block.py [PROGRAM]      (PROGRAM: crates/hbone/out/hbone if left out; needs gcc, and what bench/peers/run needs)
"""

import mmap
import pathlib
import struct
import subprocess
import sys
import tempfile

sys.dont_write_bytecode = True
TOP = pathlib.Path(__file__).resolve().parents[2]
sys.path.insert(0, f"{TOP}/bench/peers")
from case import payload, says
from hyperframe.frame import ContinuationFrame, HeadersFrame
from peers import HERE, Fault, Room, echo, until, wanted

MANY = 64
# No octets that Huffman's code makes shorter, so that each is kept.
MORE = [(f"x-{number}", "\\" * 40) for number in range(3)]


def whole(peer, stream):
    pass


def cut(peer, stream):
    """The request's block goes in HEADERS and CONTINUATION."""
    data = peer.conn.data_to_send()
    block = data[9:]
    first = HeadersFrame(stream, data=block[:7])
    rest = ContinuationFrame(stream, data=block[7:], flags=["END_HEADERS"])
    peer.out += first.serialize() + rest.serialize()


def tried(room, library, shared, number, cut_so):
    """What came of a request during which the allocation of this number fails: `closed`, `refused`, `taken` or `ended`, or `none` where
    no such allocation was asked for."""
    file = pathlib.Path(shared.name)
    by = [TOP / "examples/until_signal.sh", "env", f"LD_PRELOAD={library}", f"FAIL_FILE={file}"]
    room.start("--stop-on-input", by=by)
    up, other, peer = room.upstream(echo), room.peer(), room.peer().join()
    tunnel = other.tunnel(up.port)
    says(other, tunnel, payload(100))
    peer.rest(0.1)
    left = mmap.mmap(shared.fileno(), 8)
    stream = peer.request([(":method", "CONNECT"), (":authority", f"{HERE}:{up.port}"), *MORE])
    cut_so(peer, stream)
    left[:] = struct.pack("=q", number)
    until("an answer or an end", lambda: peer.step(0.05) or peer.answered(stream) or room.proxy.process.poll() is not None)
    failed = struct.unpack("=q", left[:])[0] == 0
    left[:] = struct.pack("=q", 0)
    other.rest(0.05)
    if other.over:
        wanted("the status", room.proxy.process.wait(10), 9)
        return "ended"
    says(other, tunnel, payload(1000))
    status = peer.status.get(stream)
    came = "closed" if peer.over else {500: "refused", 200: "taken"}.get(status, status) if failed else "none"
    wanted("the closes", [it.split(" ", 2)[2] for it in room.proxy.told() if it.startswith("closed ")],
           ['door=inbound cause="no memory"'] if came == "closed" else [])
    wanted("the status", (room.proxy.end(), room.proxy.printed() == []), (9, True) if came in ("closed", "refused") else (0, False))
    return came


def main():
    program = sys.argv[1] if sys.argv[1:] else f"{TOP}/crates/hbone/out/hbone"
    faults = 0
    with tempfile.TemporaryDirectory() as folder:
        library = f"{folder}/fail_alloc.so"
        subprocess.run(["gcc", "-O1", "-shared", "-fPIC", "-o", library, TOP / "bench/tools/fail_alloc.c"], check=True)
        for cut_so in whole, cut:
            came = []
            for number in range(1, MANY):
                with tempfile.NamedTemporaryFile(dir=folder) as shared, Room(program) as room:
                    shared.write(bytes(8))
                    shared.flush()
                    try:
                        came.append(tried(room, library, shared, number, cut_so))
                    except Fault as fault:
                        came.append("fault")
                        print(f"fail_block: {cut_so.__name__}, allocation {number}: {fault}")
                if came[-1] == "none":
                    break
            print(f"fail_block: {cut_so.__name__}: {', '.join(came)}")
            # (a request that asks for no memory would try nothing)
            block = came[: came.index("refused")] if "refused" in came else came
            faults += came.count("fault") + block.count("ended") + ("closed" not in block) + (block == came)
    return 1 if faults else 0


raise SystemExit(main())
