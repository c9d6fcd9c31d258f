"""Bytes: many, in small pieces, in other frames, and where one side holds them up."""

import hashlib

import h2.settings
import hpack
from hyperframe.frame import ContinuationFrame, DataFrame, HeadersFrame

from case import PREFACE, SETTINGS, case, frames_of, payload, says
from peers import CALLER, HERE, Fault, echo, header, silent, wanted


@case
def bulk_up_and_down(room):
    """20 MB each way on 8 streams at once: all bytes in order, both ways."""
    room.start()
    peer, up = room.peer(), room.upstream(echo)
    size = 20_000_000 // 8
    texts = {peer.tunnel(up.port): payload(size, bytes([at])) for at in range(8)}
    for stream, text in texts.items():
        peer.send(stream, text, end=True)
    peer.pump(lambda: all(stream in peer.ended for stream in texts), "all came back", 120)
    for at, (stream, text) in enumerate(texts.items()):
        wanted(f"what came back on {stream}", hashlib.sha256(peer.came[stream]).hexdigest(), hashlib.sha256(text).hexdigest())
        wanted(f"what came on upstream {at}", hashlib.sha256(up.taken[at].came).hexdigest(), hashlib.sha256(text).hexdigest())


@case
def each_stream_gets_on(room):
    """8 streams whose upstreams send as fast as they may: of 10 MB each stream gets at least half of its part."""
    room.start()

    def pour(taken):
        while not taken.ended:
            taken.send(payload(1 << 16))

    peer, up = room.peer(), room.upstream(pour)
    streams = [peer.tunnel(up.port) for _ in range(8)]
    peer.pump(lambda: sum(len(peer.came[it]) for it in streams) > 10_000_000, "10 MB", 60)
    least = min(len(peer.came[it]) for it in streams)
    if least < 10_000_000 // 16:
        raise Fault(f"bytes by stream: {[len(peer.came[it]) for it in streams]}")


@case
def bytes_before_the_answer(room):
    """A peer that sends 65,535 bytes and an end behind its request, before it is answered: all come back."""
    room.start()
    peer, up = room.peer().join(), room.upstream(echo)
    stream = peer.connect(f"{HERE}:{up.port}")
    peer.send(stream, payload(65_535), end=True)
    peer.pump(lambda: stream in peer.ended, "END_STREAM")
    wanted("what came back", (peer.status[stream], bytes(peer.came[stream]) == payload(65_535)), (200, True))


@case
def one_octet_at_a_time(room):
    """A peer that sends an octet a packet and reads one a call, its header too: the same bytes."""
    room.start()
    peer, up = room.peer(piece=1), room.upstream(echo)
    stream = peer.tunnel(up.port)
    says(peer, stream, payload(2000))
    peer.send(stream, b"", end=True)
    peer.pump(lambda: stream in peer.ended, "END_STREAM")


@case
def a_peer_that_grants_nothing(room):
    """A peer that grants no DATA beyond the first 65,535 bytes: no more comes, and the upstream's bytes wait with it."""
    room.start()
    sent = []

    def pour(taken):
        taken.socket.settimeout(2)
        try:
            while True:
                sent.append(taken.socket.send(payload(1 << 16)))
        except OSError:
            pass

    peer, up = room.peer(grants=False), room.upstream(pour)
    stream = peer.tunnel(up.port)
    before = room.proxy.memory()
    peer.rest(3)
    wanted("what came", len(peer.came[stream]), 65_535)
    if room.proxy.memory() > before + 2:
        raise Fault(f"memory rose from {before} to {room.proxy.memory()} MB behind {sum(sent)} bytes")
    wanted("the rest is where it comes from", sum(sent) < 20_000_000, True)


@case
def an_upstream_that_reads_nothing(room):
    """An upstream that reads nothing: the peer is granted no more than its window and what fits on the way; other streams go on."""
    room.start()
    peer, dead, up = room.peer(), room.upstream(silent), room.upstream(echo)
    stream, other = peer.tunnel(dead.port), peer.tunnel(up.port)
    before = room.proxy.memory()
    peer.send(stream, payload(50_000_000))
    peer.rest(2)
    wanted("some of it waits", len(peer.todo[stream]) > 30_000_000, True)
    if room.proxy.memory() > before + 2:
        raise Fault(f"memory rose from {before} to {room.proxy.memory()} MB")
    says(peer, other, b"hello")


@case
def windows_that_change(room):
    """A peer that sets its streams' windows to 0 amid bytes, then to 1,000,000: no byte is lost, none comes beyond the windows."""
    room.start()

    def pour(taken):
        taken.send(payload(3_000_000))
        taken.finish()

    peer, up = room.peer(), room.upstream(pour)
    stream = peer.tunnel(up.port)
    for window in (0, 10, 1_000_000):
        peer.conn.update_settings({h2.settings.SettingCodes.INITIAL_WINDOW_SIZE: window})
        peer.rest(0.2)
    peer.conn.increment_flow_control_window(1_000_000)
    peer.conn.increment_flow_control_window(1_000_000, stream)
    peer.pump(lambda: stream in peer.ended, "END_STREAM")
    wanted("what came", bytes(peer.came[stream]) == payload(3_000_000), True)


@case
def frames_in_other_forms(room):
    """Padded DATA, empty DATA, HEADERS with padding, a priority and CONTINUATION, frames of unknown types: the bytes come through."""
    room.start()
    up = room.upstream(echo)
    block = hpack.Encoder().encode([(":method", "CONNECT"), (":authority", f"{HERE}:{up.port}"), ("forwarded", "for=10.0.0.1")])
    first = HeadersFrame(1, block[:5], flags=["PADDED", "PRIORITY"], pad_length=7, depends_on=0, stream_weight=5).serialize()
    rest = ContinuationFrame(1, block[5:], flags=["END_HEADERS"]).serialize()
    padded = DataFrame(1, b"hello", flags=["PADDED"], pad_length=200).serialize()
    unknown = b"\x00\x00\x03\x99\xff\x00\x00\x00\x01abc"
    last = DataFrame(1, b" there", flags=["END_STREAM"]).serialize()
    frames, _ = frames_of(room, PREFACE + SETTINGS + first + rest + unknown + padded + DataFrame(1, b"").serialize() + last, 1)
    wanted("what came back", b"".join(data for kind, _, stream, data in frames if (kind, stream) == (0, 1)), b"hello there")


@case
def more_in_the_header(room):
    """A header with other type-length-values beside the identity: they are passed over."""
    room.start()
    front = bytearray(header((HERE, 1), (HERE, 15008), CALLER) + b"\x01\x00\x02h2" + b"\x04\x00\x00" + b"\x20\x00\x05\x07\x00\x00\x00\x00")
    front[14:16] = (len(front) - 16).to_bytes(2, "big")
    up, peer = room.upstream(echo), room.peer(front=bytes(front))
    says(peer, peer.tunnel(up.port), b"hello")
