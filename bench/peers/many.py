"""Many streams, tunnels and connections, and few descriptors."""

import time

import h2.settings

from case import CANCEL, NO_ERROR, REFUSED_STREAM, answer_of, calm, case, says
from peers import HERE, OTHER, Fault, Peer, echo, mesh, silent, until, wanted

MOST_STREAMS = 100


def allow_more_streams(peer):
    """So that the client asks for more than the proxy said it takes."""
    peer.join()
    peer.conn.remote_settings[h2.settings.SettingCodes.MAX_CONCURRENT_STREAMS] = 1000
    peer.conn.remote_settings.acknowledge()


@case
def the_101st_stream(room):
    """100 streams at once, and the 101st gets REFUSED_STREAM; one more goes once one is over."""
    room.start()
    peer, up = room.peer(), room.upstream(echo)
    allow_more_streams(peer)
    streams = [peer.tunnel(up.port) for _ in range(MOST_STREAMS)]
    wanted("the 101st", answer_of(peer, peer.connect(f"{HERE}:{up.port}")), (None, REFUSED_STREAM))
    for stream in streams:
        says(peer, stream, b"%d" % stream)
    peer.send(streams[50], b"", end=True)
    peer.pump(lambda: streams[50] in peer.ended, "END_STREAM")
    says(peer, peer.tunnel(up.port), b"one more")


@case
def the_tunnels_that_may_be(room):
    """`--tunnels 3`: the fourth gets 503, also on another link; one more goes once one is over."""
    room.start("--tunnels", "3")
    peer, other, up = room.peer(), room.peer(), room.upstream(echo)
    streams = [peer.tunnel(up.port), peer.tunnel(up.port), other.tunnel(up.port)]
    wanted("the fourth", answer_of(other, other.connect(f"{HERE}:{up.port}")), (503, NO_ERROR))
    peer.send(streams[0], b"", end=True)
    peer.pump(lambda: streams[0] in peer.ended, "END_STREAM")
    says(other, other.tunnel(up.port), b"hello")


@case
def the_4097th_tunnel(room):
    """4,096 tunnels over 41 connections; the next gets 503. An update that refuses their peer resets all of them with CANCEL."""
    room.start()
    up = room.upstream(silent)
    peers = [room.peer() for _ in range(41)]
    for at, peer in enumerate(peers):
        for _ in range(min(MOST_STREAMS, 4096 - at * MOST_STREAMS)):
            peer.connect(f"{HERE}:{up.port}")
        peer.pump(lambda: all(peer.answered(it) for it in peer.came), "answers", 60)
    wanted("tunnels", sum(status == 200 for peer in peers for status in peer.status.values()), 4096)
    memory = room.proxy.memory()
    wanted("the next", answer_of(peers[-1], peers[-1].connect(f"{HERE}:{up.port}")), (503, NO_ERROR))
    begun = time.monotonic()
    room.update(mesh(OTHER))
    for peer in peers:
        peer.pump(lambda: all(peer.closed(it) for it in peer.came), "resets", 60)
    took = time.monotonic() - begun
    wanted("resets", sum(code == CANCEL for peer in peers for code in peer.reset.values()), 4096)
    return f"all reset within {took:.2f} s, memory of all tunnels {memory:.0f} MB"


@case
def a_thousand_connections(room):
    """1,000 connections with a tunnel each, all at once; each gets its own bytes back, and nothing is left of them."""
    room.start()
    up = room.upstream(echo)
    before = room.proxy.descriptors()
    peers = [room.peer() for _ in range(1000)]
    tunnels = [(peer, peer.connect(f"{HERE}:{up.port}")) for peer in peers]
    for peer, stream in tunnels:
        peer.send(stream, b"%d" % id(peer))
        peer.step(0)
    for peer, stream in tunnels:
        peer.pump(lambda: len(peer.came[stream]) == len(b"%d" % id(peer)), "its own bytes", 30)
        wanted("its own bytes", bytes(peer.came[stream]), b"%d" % id(peer))
    wanted("descriptors", room.proxy.descriptors(), before + 2000)
    memory = room.proxy.memory()
    for peer in peers:
        peer.close()
    until("all are closed", lambda: room.proxy.descriptors() == before)
    return f"memory of all {memory:.0f} MB"


def tries(room, up):
    peer = room.peer()
    try:
        return says(peer, peer.tunnel(up.port), b"hello") is None
    except Fault:
        return False


@case
def the_1025th_connection(room):
    """1,024 links may be open: the next is closed; one more goes once one is over."""
    room.start()
    up = room.upstream(echo)
    peers = [room.peer() for _ in range(1024)]
    says(peers[-1], peers[-1].tunnel(up.port), b"hello")
    late = room.peer()
    until("it is closed", lambda: late.over or late.step(0.01))
    peers[0].close()
    until("a place is free", lambda: tries(room, up))


@case
def few_descriptors(room):
    """`ulimit -n 40`: tunnels beyond get 502 or wait at the door, nothing ends or spins, and the door goes on once some are free."""
    room.start(descriptors=40)
    up = room.upstream(echo)
    peers, good = [], 0
    for _ in range(40):
        peers.append(room.peer())
        stream = peers[-1].connect(f"{HERE}:{up.port}")
        peers[-1].rest(0.05)
        good += peers[-1].status.get(stream) == 200
    if not 12 <= good <= 20:
        raise Fault(f"{good} tunnels of 40 descriptors")
    calm(room.proxy)
    for peer in peers:
        peer.close()
    until("the door goes on", lambda: tries(room, up))


@case
def links_that_come_and_go(room):
    """3,000 connections one behind the other, each with a tunnel: nothing is left of them, and memory doesn't rise."""
    room.start()
    up = room.upstream(lambda taken: (echo(taken), taken.close()))
    before = room.proxy.descriptors()
    memory = None
    for at in range(3000):
        peer = Peer(room.proxy.doors["inbound"])
        says(peer, peer.tunnel(up.port), b"hello")
        peer.close()
        up.taken.clear()
        if at == 500:
            memory = room.proxy.memory()
    until("all are closed", lambda: room.proxy.descriptors() == before)
    if room.proxy.memory() > memory + 1:
        raise Fault(f"memory rose from {memory} to {room.proxy.memory()} MB")
