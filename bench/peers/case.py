"""What the cases beside this file have in common. A case is an act on a room, whose comment says what is expected."""

import hashlib
import socket
import time

from hyperframe.frame import SettingsFrame
from peers import CALLER, HERE, Fault, header, wanted

CASES = {}
NO_ERROR, PROTOCOL_ERROR, FRAME_SIZE_ERROR, REFUSED_STREAM, CANCEL, CONNECT_ERROR = 0, 1, 6, 7, 8, 10
PREFACE = b"PRI * HTTP/2.0\r\n\r\nSM\r\n\r\n"
SETTINGS = SettingsFrame().serialize()


def case(act):
    """Makes it a case, whose name is its own."""
    CASES[act.__name__.replace("_", " ")] = act
    return act


def payload(size, seed=b"x"):
    """So many bytes, that repeat nowhere."""
    return hashlib.shake_128(seed).digest(size)


def says(peer, stream, text):
    """A round trip through an echo."""
    before = len(peer.came[stream])
    peer.send(stream, text)
    peer.pump(lambda: len(peer.came[stream]) >= before + len(text), f"{len(text)} bytes come back on stream {stream}", 60)
    wanted("what came back", bytes(peer.came[stream][before:]), text)


def answer_of(peer, stream):
    """The status of an answer that refuses, and the code of the reset behind it."""
    peer.pump(lambda: peer.closed(stream), "a refusal")
    peer.rest(0.05)
    return peer.status.get(stream), peer.reset.get(stream)


def full_server(room):
    """A port at which a connection is neither taken nor refused, since its backlog is full."""
    server = room.add(socket.socket())
    server.bind((HERE, 0))
    server.listen(0)
    for _ in range(2):
        it = room.add(socket.socket())
        it.setblocking(False)
        it.connect_ex(server.getsockname())
    time.sleep(0.05)
    return server.getsockname()[1]


def frames_of(room, data, seconds=5):
    """What the proxy answers to raw bytes behind its header until it closes or is silent: type, flags, stream and payload of each frame."""
    it = room.add(socket.create_connection((HERE, room.proxy.doors["inbound"])))
    it.sendall(header((HERE, 1), (HERE, 15008), CALLER) + data)
    it.settimeout(seconds)
    came, ended = b"", False
    try:
        while part := it.recv(65536):
            came += part
        ended = True
    except TimeoutError:
        pass
    except OSError:
        ended = True
    frames = []
    while len(came) >= 9:
        size = int.from_bytes(came[:3], "big")
        frames.append((came[3], came[4], int.from_bytes(came[5:9], "big"), came[9 : 9 + size]))
        came = came[9 + size :]
    return frames, ended


def calm(proxy, seconds=1.0):
    """While nothing comes it takes next to no processor time."""
    before = proxy.cpu()
    time.sleep(seconds)
    took = proxy.cpu() - before
    if took > 0.1 * seconds:
        raise Fault(f"it took {took:.2f} s of processor time in {seconds} s in which nothing came")
