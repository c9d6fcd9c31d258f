"""Peers that flood while others are served and the control plane speaks."""

import time

from case import CANCEL, case, says
from flooding import KINDS, Flooding
from peers import CALLER, HERE, OTHER, Fault, echo, mesh, until, wanted

THIRD = "spiffe://cluster.local/ns/a/sa/e"


def beside(room, kind, count):
    """How long an echo, a connection with its tunnel, and an update waited beside so many flooding connections, each at most a second."""
    room.start(resources=mesh(CALLER, OTHER, THIRD))
    up, peer, other = room.upstream(echo), room.peer(), room.peer(identity=THIRD)
    stream, revoked = peer.tunnel(up.port), other.tunnel(up.port)
    flooding = room.add(Flooding(room, kind, count))
    took = []

    def timed(what, act):
        begun = time.monotonic()
        act()
        took.append((what, time.monotonic() - begun))

    def connects():
        late = room.peer()
        says(late, late.tunnel(up.port), b"hello")

    def updates():
        room.plane.set(mesh(CALLER))
        other.pump(lambda: other.closed(revoked), "a reset", 60)
        wanted("the other's tunnel", other.reset.get(revoked), CANCEL)

    timed("echo", lambda: says(peer, stream, b"hello"))
    timed("connection", connects)
    timed("update", updates)
    until("the flooding tunnels end too", lambda: all(it.ended for it in flooding.drain.taken))
    late = [what for what, seconds in took if seconds > 1]
    if late:
        raise Fault(f"{kind} on {count}: {', '.join(late)} took above a second: {took}")
    return max(seconds for _, seconds in took)


@case
def an_update_beside_a_flood(room):
    """One connection floods, of each kind: an echo, a new connection and an update that revokes it and another wait at most a second."""
    longest = 0
    for kind in KINDS:
        with room.beside() as apart:
            longest = max(longest, beside(apart, kind, 1))
    return f"the longest {longest * 1000:.0f} ms"


@case
def an_update_beside_many_floods(room):
    """32 connections flood, of each kind: the same."""
    longest = 0
    for kind in KINDS:
        with room.beside() as apart:
            longest = max(longest, beside(apart, kind, 32))
    return f"the longest {longest * 1000:.0f} ms"
