#!/usr/bin/python3
"""How long an update and an honest peer wait beside peers that flood `hbone serve` over real sockets, in milliseconds.

usage: bench/speed/run floods [PROGRAM] [KIND ..]      (crates/hbone/out/hbone, which the gate leaves; all kinds)

bench/peers/flooding.py has the kinds. There are no flooding connections, one, six and 32. Beside them, five times each: an echo of 64
octets on a tunnel that stands, the middle and the longest of 200, or of fewer within two seconds; a connection with its tunnel and
echo; and an update that refuses all flooding peers and one other, from its being handed to the control plane until the other's tunnel is
reset, and until the last upstream of the flooding ones ended. In the last row the program is stopped until all that 32 connections send
stands in the sockets, and they send no more: its echo is the first, and its longest says when that and a connection were answered. The
program is on a processor of its own, the flooding peers on others. Needs what bench/peers/run needs.
"""

import os
import pathlib
import statistics
import sys
import time

sys.dont_write_bytecode = True
TOP = pathlib.Path(__file__).resolve().parents[2]
sys.path.insert(0, f"{TOP}/bench/peers")
from flooding import KINDS, Flooding
from peers import CALLER, HERE, OTHER, Room, echo, mesh, until

COUNTS, TRIES, ECHOES = (1, 6, 32), 5, 200
THIRD = "spiffe://cluster.local/ns/a/sa/e"


def spins(peer, holds, what):
    """Goes on until something holds, and says how long that was, in milliseconds. (A poll that waits would wake later than this asks.)"""
    begun = time.perf_counter()
    while not holds():
        if peer.over or time.perf_counter() > begun + 60:
            raise SystemExit(f"floods: {what}: {'the link is over' if peer.over else 'not within 60 s'}")
        peer.step(0.001)
    return (time.perf_counter() - begun) * 1e3


def echoed(peer, stream):
    size = len(peer.came[stream]) + 64
    peer.send(stream, bytes(64))
    return spins(peer, lambda: len(peer.came[stream]) == size, "an echo")


def echoes_on(peer, stream, most):
    """So many echoes, or fewer, where they take two seconds."""
    begun, took = time.perf_counter(), []
    while len(took) < most and time.perf_counter() < begun + 2:
        took.append(echoed(peer, stream))
    return took


def connected(room, server):
    begun = time.perf_counter()
    peer = room.peer()
    stream = peer.connect(f"{HERE}:{server.port}")
    spins(peer, lambda: peer.answered(stream), "an answer")
    echoed(peer, stream)
    peer.close()
    room.things.remove(peer)
    return (time.perf_counter() - begun) * 1e3


def tried(program, kind, count, burst=False):
    """One try: an echo's middle and longest, a connection, the update at another peer, and at the flooding ones."""
    with Room(program) as room:
        room.start(resources=mesh(CALLER, OTHER, THIRD))
        os.sched_setaffinity(room.proxy.process.pid, {0})
        server = room.upstream(echo)
        peer, other = room.peer(), room.peer(identity=THIRD)
        stream, revoked = peer.tunnel(server.port), other.tunnel(server.port)
        flooding = room.add(Flooding(room, kind, count, burst)) if count else None
        if burst:
            begun = time.perf_counter()
            flooding.begin()
        echoes = echoes_on(peer, stream, 1 if burst else ECHOES)
        connection = connected(room, server)
        updated = time.perf_counter()
        room.plane.set(mesh(CALLER))
        reset = spins(other, lambda: other.closed(revoked), "a reset")
        if flooding:
            until("the flooding tunnels' ends", lambda: all(it.ended for it in flooding.drain.taken), 60)
        own = (time.perf_counter() - updated) * 1e3
        if burst:
            return [echoes[0], (time.perf_counter() - begun) * 1e3, connection, reset, own]
        return [statistics.median(echoes), max(echoes), connection, reset, own if flooding else 0]


def main():
    words = sys.argv[1:]
    program = words[0] if words else f"{TOP}/crates/hbone/out/hbone"
    kinds = words[1:] or KINDS
    os.sched_setaffinity(0, {os.cpu_count() - 1})
    print("flood: echo, its longest; connection; update at another peer, at the flooding ones (ms, the middle of five; the longest of all)")
    scenes = [("none", 0, False)] + [(kind, count, False) for kind in kinds for count in COUNTS] + [("pings", 32, True)]
    for kind, count, burst in scenes:
        tries = list(zip(*(tried(program, kind, count, burst) for _ in range(TRIES))))
        figures = [statistics.median(it) for it in tries]
        name = f"{'burst of ' if burst else ''}{kind}{f' on {count}' if count else ''}"
        print(f"{name}: " + "; ".join(f"{figure:.1f} ({max(it):.1f})" for figure, it in zip(figures, tries)), flush=True)


main()
