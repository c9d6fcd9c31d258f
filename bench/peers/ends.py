"""How tunnels end: by either side, by a reset in each phase, and with their connections."""

import socket
import threading

from hyperframe.frame import GoAwayFrame, RstStreamFrame, SettingsFrame

from case import CANCEL, CONNECT_ERROR, case, full_server, payload, says
from peers import HERE, OTHER, Peer, echo, mesh, silent, sink, until, wanted


@case
def the_peer_ends_first(room):
    """Behind the peer's END_STREAM the upstream gets an end behind all bytes, and what it sends then still comes."""

    def answer_late(taken):
        while taken.take():
            pass
        taken.send(payload(300_000))
        taken.finish()

    room.start()
    up, peer = room.upstream(answer_late), room.peer()
    stream = peer.tunnel(up.port)
    peer.send(stream, payload(100_000), end=True)
    peer.pump(lambda: stream in peer.ended, "END_STREAM")
    wanted("at the upstream", (bytes(up.one().came) == payload(100_000), up.one().ended), (True, "end"))
    wanted("at the peer", bytes(peer.came[stream]) == payload(300_000), True)


@case
def the_upstream_ends_first(room):
    """Behind the upstream's end the peer gets END_STREAM behind all bytes, and what it sends then still goes."""

    def end_first(taken):
        taken.send(payload(300_000))
        taken.finish()
        sink(taken)

    room.start()
    up, peer = room.upstream(end_first), room.peer()
    stream = peer.tunnel(up.port)
    peer.pump(lambda: stream in peer.ended, "END_STREAM")
    wanted("at the peer", bytes(peer.came[stream]) == payload(300_000), True)
    peer.send(stream, payload(200_000), end=True)
    until("the upstream's end", lambda: up.one().ended or peer.step(0.01))
    wanted("at the upstream", (bytes(up.one().came) == payload(200_000), up.one().ended), (True, "end"))


@case
def an_end_at_a_window_below_zero(room):
    """A smaller INITIAL_WINDOW_SIZE takes a stream's window below 0: END_STREAM goes all the same, in DATA without an octet, and octets
    wait until the window is above 0."""
    room.start()
    may_go = threading.Event()
    up = room.upstream(lambda taken: (taken.send(payload(40_000)), may_go.wait(10), taken.finish()))
    longer = room.upstream(lambda taken: (taken.send(payload(20_000)), may_go.wait(10), taken.send(b"more"), taken.finish()))
    peer = room.peer(grants=False)
    stream, waits = peer.tunnel(up.port), peer.tunnel(longer.port)
    peer.pump(lambda: (len(peer.came[stream]), len(peer.came[waits])) == (40_000, 20_000), "60,000 octets")
    peer.conn.update_settings({SettingsFrame.INITIAL_WINDOW_SIZE: 1_000})
    peer.pump(lambda: peer.conn.local_settings.initial_window_size == 1_000, "SETTINGS are acknowledged")
    wanted("the windows", [peer.conn.remote_flow_control_window(it) for it in (stream, waits)], [-39_000, -19_000])
    may_go.set()
    peer.pump(lambda: stream in peer.ended, "END_STREAM")
    peer.rest(0.2)
    wanted("behind the windows", (len(peer.came[stream]), len(peer.came[waits]), waits in peer.ended), (40_000, 20_000, False))
    peer.conn.increment_flow_control_window(19_001, waits)
    peer.pump(lambda: len(peer.came[waits]) > 20_000, "an octet")
    peer.rest(0.2)
    wanted("at a window of 1", (len(peer.came[waits]), waits in peer.ended), (20_001, False))
    peer.conn.increment_flow_control_window(3, waits)
    peer.pump(lambda: waits in peer.ended, "END_STREAM")
    wanted("at the peer", bytes(peer.came[waits]), payload(20_000) + b"more")


@case
def nothing_is_sent(room):
    """CONNECT with END_STREAM, and an upstream that ends at once: both ends go through."""
    room.start()
    up, peer = room.upstream(lambda taken: (taken.take(), taken.finish())), room.peer()
    stream = peer.connect(f"{HERE}:{up.port}", end=True)
    peer.pump(lambda: stream in peer.ended, "END_STREAM")
    wanted("at the upstream", (peer.status[stream], up.one().ended), (200, "end"))


@case
def the_upstream_resets(room):
    """An upstream that resets its connection resets the stream with CONNECT_ERROR, and no other one."""
    room.start()
    up, other = room.upstream(lambda taken: (taken.take(), taken.reset())), room.upstream(echo)
    peer = room.peer()
    stream, stays = peer.tunnel(up.port), peer.tunnel(other.port)
    peer.send(stream, b"x")
    peer.pump(lambda: peer.closed(stream), "a reset")
    wanted("the stream", (peer.reset.get(stream), stream in peer.ended), (CONNECT_ERROR, False))
    says(peer, stays, b"hello")


@case
def the_upstream_ends_and_then_resets(room):
    """An upstream that resets its connection behind its own end: told to the peer at once, by a reset, and its place is free."""
    room.start("--tunnels", "1")
    may_go = threading.Event()
    up, peer = room.upstream(lambda taken: (taken.finish(), may_go.wait(10), taken.reset())), room.peer()
    stream = peer.tunnel(up.port)
    peer.pump(lambda: stream in peer.ended, "END_STREAM")
    peer.rest(0.2)
    wanted("before the reset", stream in peer.reset, False)
    may_go.set()
    peer.pump(lambda: stream in peer.reset, "a reset")
    wanted("the stream", peer.reset.get(stream), CONNECT_ERROR)
    says(peer, peer.tunnel(room.upstream(echo).port), b"hello")


@case
def the_upstream_closes(room):
    """An upstream that closes its connection while the peer sends: END_STREAM or a reset, and the link goes on."""
    room.start()
    up, peer = room.upstream(lambda taken: (taken.take(), taken.close())), room.peer()
    for _ in range(20):
        stream = peer.tunnel(up.port)
        peer.send(stream, payload(1_000_000))
        peer.pump(lambda: peer.closed(stream), "an end")
        peer.todo.pop(stream, None)
        if stream not in peer.reset:
            reset(peer, stream)
    says(peer, peer.tunnel(room.upstream(echo).port), b"hello")


@case
def the_peer_ends_its_connection(room):
    """A peer that ends its side of the connection itself, by FIN: it is closed, with its tunnels."""
    room.start()
    up, peer = room.upstream(echo), room.peer()
    says(peer, peer.tunnel(up.port), b"hello")
    peer.socket.shutdown(socket.SHUT_WR)
    until("it is closed", lambda: peer.over or peer.step(0.01))
    until("an end at the upstream", lambda: up.one().ended)


@case
def the_peer_vanishes(room):
    """A peer that closes or resets its connection: its upstreams get an end or a reset, and no other link's."""
    room.start()
    up, stays = room.upstream(echo), room.peer()
    kept = stays.tunnel(up.port)
    for at, leave in enumerate((Peer.close, Peer.abort)):
        peer = room.peer()
        says(peer, peer.tunnel(up.port), b"hello")
        leave(peer)
        until("an end at the upstream", lambda: up.one(at + 2).ended)
    says(stays, kept, b"hello")


def reset(peer, stream):
    peer.conn.reset_stream(stream, CANCEL)
    peer.flush()


@case
def reset_while_it_is_dialled(room):
    """RST_STREAM before the upstream is open: the dial is given up, and the link goes on."""
    room.start()
    full, up, peer = full_server(room), room.upstream(echo), room.peer().join()
    before = room.proxy.descriptors()
    stream = peer.connect(f"{HERE}:{full}")
    peer.flush()
    until("the dial", lambda: room.proxy.descriptors() == before + 1)
    reset(peer, stream)
    until("the dial is given up", lambda: room.proxy.descriptors() == before)
    says(peer, peer.tunnel(up.port), b"hello")


@case
def reset_while_bytes_go(room):
    """RST_STREAM amid bytes both ways: the upstream's connection is closed, and the link and its other streams go on."""
    room.start()
    up, peer = room.upstream(echo), room.peer()
    stays, stream = peer.tunnel(up.port), peer.tunnel(up.port)
    peer.send(stream, payload(5_000_000))
    peer.pump(lambda: len(peer.came[stream]) > 500_000, "bytes")
    peer.todo.pop(stream, None)
    reset(peer, stream)
    until("an end at the upstream", lambda: up.one(2).ended or peer.step(0.01))
    wanted("a front", payload(5_000_000).startswith(bytes(up.one(2).came)), True)
    says(peer, stays, payload(100_000))


@case
def reset_behind_an_end(room):
    """RST_STREAM behind the peer's own END_STREAM, and behind that of the proxy: the upstream's connection is closed."""
    room.start()
    peer, stays = room.peer(), room.upstream(echo)
    up = room.upstream(silent)
    stream = peer.tunnel(up.port)
    peer.send(stream, b"x", end=True)
    peer.flush()
    reset(peer, stream)
    until("a reset at the upstream", lambda: up.one().ended or not up.one().take() and up.one().ended)
    ends = room.upstream(lambda taken: (taken.finish(), sink(taken)))
    stream = peer.tunnel(ends.port)
    peer.pump(lambda: stream in peer.ended, "END_STREAM")
    reset(peer, stream)
    until("an end at the upstream", lambda: ends.one().ended)
    says(peer, peer.tunnel(stays.port), b"hello")


@case
def reset_of_a_stream_that_is_over(room):
    """RST_STREAM of a stream of which both sides ended is ignored; the link goes on."""
    room.start()
    peer, up = room.peer(), room.upstream(echo)
    stream = peer.tunnel(up.port)
    peer.send(stream, b"", end=True)
    peer.pump(lambda: stream in peer.ended, "END_STREAM")
    frame = RstStreamFrame(stream)
    frame.error_code = CANCEL
    peer.out += frame.serialize()
    says(peer, peer.tunnel(up.port), b"hello")


@case
def ten_thousand_resets(room):
    """10,000 streams that are reset as soon as they are asked for: none is left, and the link goes on."""
    room.start()
    peer, up = room.peer(), room.upstream(lambda taken: (sink(taken), taken.close()))
    stays = room.upstream(echo)
    before = room.proxy.descriptors()
    for _ in range(10_000):
        stream = peer.connect(f"{HERE}:{up.port}")
        peer.conn.reset_stream(stream, CANCEL)
        if len(peer.out) > 1 << 14 or stream % 100 == 1:
            peer.step(0)
    peer.flush()
    until("all are given up", lambda: room.proxy.descriptors() == before or peer.step(0.01), 30)
    says(peer, peer.tunnel(stays.port), b"hello")


@case
def a_goaway_of_the_peer(room):
    """A peer's GOAWAY: its tunnels go on to their ends."""
    room.start()
    peer, up = room.peer(), room.upstream(echo)
    stream = peer.tunnel(up.port)
    peer.out += GoAwayFrame(0, last_stream_id=0).serialize()
    says(peer, stream, payload(100_000))
    peer.send(stream, b"", end=True)
    peer.pump(lambda: stream in peer.ended, "END_STREAM")


@case
def broken_ends_are_resets(room):
    """An upload whose peer resets its stream, whose connection breaks, or that an update refuses is a RST at the workload; a whole one an
    end."""
    room.start()
    up = room.upstream(lambda taken: (sink(taken), taken.finish()))
    peers = [room.peer() for _ in range(4)]
    tunnels = []
    for peer in peers:
        tunnels.append((peer.tunnel(up.port), up.one(len(tunnels) + 1)))
        peer.send(tunnels[-1][0], b"part")
        peer.flush()
        until("it came", lambda: tunnels[-1][1].came == b"part")
    peers[0].send(tunnels[0][0], b"", end=True)
    peers[0].pump(lambda: tunnels[0][0] in peers[0].ended, "END_STREAM")
    peers[1].conn.reset_stream(tunnels[1][0], CANCEL)
    peers[1].flush()
    peers[2].abort()
    until("three ended", lambda: all(taken.ended for _, taken in tunnels[:3]))
    room.update(mesh(OTHER))
    peers[3].pump(lambda: peers[3].closed(tunnels[3][0]), "a reset")
    until("all ended", lambda: tunnels[3][1].ended)
    wanted("how each ended", [taken.ended for _, taken in tunnels], ["end", "reset", "reset", "reset"])
