"""Peers that break rules."""

import socket

import hpack
from hyperframe.frame import DataFrame, HeadersFrame, PingFrame

from case import PREFACE, SETTINGS, case, frames_of, says
from peers import CALLER, HERE, Fault, echo, header, until, wanted


@case
def bad_headers_before_a_connection(room):
    """What is no header closes the connection at once, and nothing else; a half header waits."""
    room.start()
    good = header((HERE, 1), (HERE, 2), CALLER)
    fronts = {
        "HTTP/1": b"GET / HTTP/1.1\r\nhost: x\r\n\r\n",
        "TLS": b"\x16\x03\x01\x02\x00\x01\x00\x01\xfc\x03\x03" + bytes(200),
        "version 1": b"PROXY TCP4 127.0.0.1 127.0.0.1 1 2\r\n",
        "command LOCAL": good[:12] + b"\x20" + good[13:],
        "UDP": good[:13] + b"\x12" + good[14:],
        "a length of 4,097": good[:14] + b"\x10\x01" + good[16:],
        "a length of 11": good[:14] + b"\x00\x0b" + good[16:],
        "no identity": header((HERE, 1), (HERE, 2), "spiffe://x/ns/a"),
    }
    for what, front in fronts.items():
        peer = room.peer(front=front)
        until(f"{what}: it is closed", lambda: peer.over or peer.step(0.01))
    for cut in (0, 12, 20, len(good) - 1):
        peer = room.add(socket.create_connection((HERE, room.proxy.doors["inbound"])))
        peer.sendall(good[:cut])
        peer.settimeout(0.2)
        try:
            raise Fault(f"{cut} bytes of a header are answered by {peer.recv(10)}")
        except TimeoutError:
            pass
        peer.shutdown(socket.SHUT_WR)
        peer.settimeout(5)
        wanted(f"behind {cut} bytes and an end", peer.recv(10), b"")


@case
def connection_errors(room):
    """What breaks a connection gets GOAWAY with its code as the last frame, and the connection is closed."""
    room.start()
    connect = hpack.Encoder().encode([(":method", "CONNECT"), (":authority", f"{HERE}:1")])
    start = PREFACE + SETTINGS
    asks = {
        "no preface": (b"GET / HTTP/1.1\r\nhost: local\r\n\r\n", 1),
        "no SETTINGS": (PREFACE + PingFrame(0, b"12345678").serialize(), 1),
        "a frame of 16,385": (start + b"\x00\x40\x01\x00\x00\x00\x00\x00\x01", 6),
        "DATA on no stream": (start + DataFrame(1, b"x").serialize(), 1),
        "HEADERS on an even stream": (start + HeadersFrame(2, connect, flags=["END_HEADERS"]).serialize(), 1),
        "a block that can't be decoded": (start + HeadersFrame(1, b"\xff\xff\xff\xff\xff", flags=["END_HEADERS"]).serialize(), 9),
        "a window above 2^31": (start + b"\x00\x00\x04\x08\x00\x00\x00\x00\x00\x7f\xff\xff\xff", 3),
        "an increment of 0": (start + b"\x00\x00\x04\x08\x00\x00\x00\x00\x00\x00\x00\x00\x00", 1),
    }
    for what, (data, code) in asks.items():
        frames, ended = frames_of(room, data)
        last = frames[-1] if frames else None
        wanted(f"{what}: closed behind GOAWAY", (ended, last and last[0], last and int.from_bytes(last[3][4:8], "big")), (True, 7, code))


@case
def floods(room):
    """20,000 PING, SETTINGS and empty DATA frames: each PING and SETTINGS is answered, and the link goes on."""
    room.start()
    peer, up = room.peer(), room.upstream(echo)
    stream = peer.tunnel(up.port)
    before = room.proxy.memory()
    acknowledged = []
    for at in range(20_000):
        peer.out += PingFrame(0, at.to_bytes(8, "big")).serialize() + SETTINGS + DataFrame(stream, b"").serialize()
    take = peer.take
    peer.take = lambda event: acknowledged.append(event) if type(event).__name__ == "PingAckReceived" else take(event)
    peer.pump(lambda: len(acknowledged) == 20_000, "20,000 answers", 60)
    says(peer, stream, b"hello")
    if room.proxy.memory() > before + 2:
        raise Fault(f"memory rose from {before} to {room.proxy.memory()} MB")


@case
def floods_that_read_nothing(room):
    """A peer that floods PING and reads nothing: it is read no further once its answers have no room; others go on."""
    room.start()
    up, other = room.upstream(echo), room.peer()
    before = room.proxy.memory()
    it = room.add(socket.create_connection((HERE, room.proxy.doors["inbound"])))
    it.sendall(header((HERE, 1), (HERE, 15008), CALLER) + PREFACE + SETTINGS)
    it.settimeout(1)
    try:
        while True:
            it.send(PingFrame(0, bytes(8)).serialize() * 1000)
    except TimeoutError:
        pass
    says(other, other.tunnel(up.port), b"hello")
    if room.proxy.memory() > before + 2:
        raise Fault(f"memory rose from {before} to {room.proxy.memory()} MB")
