#!/usr/bin/python3
"""What `hbone serve` costs over real sockets, in microseconds of processor time, of its own and of the system's together. Beside it,
where they are to be had: a proxy on the crates h2 and tokio (h2_proxy/, of Debian's librust-h2-dev and librust-tokio-dev, built by
cargo), with one thread and windows of 65,535 octets; and haproxy, which relays TCP behind the same header, without HTTP/2.

usage: bench/speed/run serve [PROGRAM]      (crates/hbone/out/hbone, which the gate leaves)

Prints the middle one of three rounds, each proxy on a processor of its own and the rest on the others: a MB up and down on one stream
and on eight of one connection, in DATA frames of 16,384 octets, where the client grants what it took; an echo of 64 octets on one
tunnel, on 32 of one connection that ask at once, and on one beside 4,095 idle ones on 41 connections; a connection with its header,
tunnel, an octet each way and its end, one at a time and 16 at a time; a tunnel of one connection likewise, 32 at a time; and a second
in which nothing comes. The client and the upstreams are in Python, and slower than the proxies: these wait in between, so under a
heavier load each unit costs less. Needs what bench/peers/run needs.
"""

import os
import pathlib
import shutil
import socket
import statistics
import subprocess
import sys
import tempfile
import time

sys.dont_write_bytecode = True
TOP = pathlib.Path(__file__).resolve().parents[2]
sys.path.insert(0, f"{TOP}/bench/peers")
from case import payload
from peers import CALLER, HERE, Proxy, Room, echo, free_port, header, mesh, sink, until

MB, ECHOES, TUNNELS, CONNECTIONS, AT_ONCE, IDLE, ROUNDS = 200, 5000, 32, 1000, 16, 4095, 3
HAPROXY = """global
  nbthread 1
defaults
  mode tcp
  timeout connect 5s
  timeout client 60s
  timeout server 60s
frontend f
  bind 127.0.0.1:{port} accept-proxy
  default_backend b
backend b
  server s 0.0.0.0:0
"""


def pour(taken):
    """Sends as many MB as the first octet says, and ends."""
    count = taken.take()[0]
    for _ in range(count):
        taken.send(payload(1_000_000))
    taken.finish()


# Each measure prepares up to its first yield, and then does so many units as it yields.


def up(peer, room, streams):
    """All MB up, over so many streams."""
    server = room.upstream(sink)
    tunnels = [peer.tunnel(server.port) for _ in range(streams)]
    yield
    for stream in tunnels:
        peer.send(stream, payload(MB * 1_000_000 // streams), end=True)
    peer.pump(lambda: not peer.todo and not peer.out, "all is sent", 120)
    until("all came", lambda: all(it.ended for it in server.taken) or peer.step(0.01), 60)
    yield MB


def down(peer, room, streams):
    server = room.upstream(pour)
    tunnels = [peer.tunnel(server.port) for _ in range(streams)]
    yield
    for stream in tunnels:
        peer.send(stream, bytes([MB // streams]))
    peer.pump(lambda: all(it in peer.ended for it in tunnels), "all came", 120)
    yield MB


def echoes(peer, room, tunnels, server=None):
    """Rounds in which each tunnel's 64 octets come back."""
    server = server or room.upstream(echo)
    streams = [peer.tunnel(server.port) for _ in range(tunnels)]
    yield
    for at in range(1, ECHOES // tunnels + 1):
        for stream in streams:
            peer.send(stream, bytes(64))
        peer.pump(lambda: all(len(peer.came[it]) == 64 * at for it in streams), "the echoes")
    yield ECHOES // tunnels * tunnels


def echoes_beside(peer, room, idle):
    """The same on one tunnel, while so many tunnels of other connections are idle."""
    server = room.upstream(echo)
    others = [room.peer().join() for _ in range(-(-idle // 100))]
    for at in range(idle):
        others[at // 100].tunnel(server.port)
    yield from echoes(peer, room, 1, server)


def answer_once(taken):
    taken.send(taken.take())
    taken.close()


def connections(_peer, room, at_once):
    """Connections that are opened, used and closed, so many side by side."""
    server = room.upstream(answer_once)
    yield
    for _ in range(CONNECTIONS // at_once):
        peers = [room.peer() for _ in range(at_once)]
        streams = [peer.connect(f"{HERE}:{server.port}") for peer in peers]
        for peer, stream in zip(peers, streams):
            peer.pump(lambda: peer.answered(stream), "an answer")
            peer.send(stream, b"x")
        for peer, stream in zip(peers, streams):
            peer.pump(lambda: peer.came[stream], "an octet")
            peer.close()
            room.things.remove(peer)
    yield CONNECTIONS // at_once * at_once


def tunnels(peer, room, at_once):
    """Tunnels of one connection that are opened, used and ended, so many side by side."""
    server = room.upstream(answer_once)
    yield
    for _ in range(CONNECTIONS // at_once):
        streams = [peer.connect(f"{HERE}:{server.port}") for _ in range(at_once)]
        peer.pump(lambda: all(peer.answered(it) for it in streams), "the answers")
        for stream in streams:
            peer.send(stream, b"x", end=True)
        peer.pump(lambda: all(it in peer.ended for it in streams), "all ended")
    yield CONNECTIONS // at_once * at_once


def silence(_peer, _room, seconds):
    yield
    time.sleep(seconds)
    yield seconds


class Straight:
    """A connection through haproxy, which has no streams."""

    def __init__(self, room, to):
        self.socket = socket.create_connection((HERE, room.proxy.doors["inbound"]))
        self.socket.setsockopt(socket.IPPROTO_TCP, socket.TCP_NODELAY, 1)
        self.socket.sendall(header((HERE, 40000), (HERE, to), CALLER))

    def all(self):
        while self.socket.recv(1 << 18):
            pass

    def exactly(self, size):
        while size:
            size -= len(self.socket.recv(size))


def straight_up(room):
    server = room.upstream(sink)
    it = Straight(room, server.port)
    yield
    it.socket.sendall(payload(MB * 1_000_000))
    it.socket.close()
    until("all came", lambda: server.one().ended, 60)
    yield MB


def straight_down(room):
    it = Straight(room, room.upstream(pour).port)
    yield
    it.socket.sendall(bytes([MB]))
    it.all()
    yield MB


def straight_echoes(room):
    it = Straight(room, room.upstream(echo).port)
    yield
    for _ in range(ECHOES):
        it.socket.sendall(bytes(64))
        it.exactly(64)
    yield ECHOES


def straight_connections(room):
    server = room.upstream(answer_once)
    yield
    for _ in range(CONNECTIONS):
        it = Straight(room, server.port)
        it.socket.sendall(b"x")
        it.exactly(1)
        it.socket.close()
    yield CONNECTIONS


MEASURES = [
    ("a MB up, one stream", up, 1, straight_up),
    ("a MB up, eight streams", up, 8, None),
    ("a MB down, one stream", down, 1, straight_down),
    ("a MB down, eight streams", down, 8, None),
    ("an echo, one tunnel", echoes, 1, straight_echoes),
    (f"an echo, {TUNNELS} tunnels of a connection", echoes, TUNNELS, None),
    (f"an echo, one tunnel beside {IDLE} idle ones", echoes_beside, IDLE, None),
    ("a connection with a tunnel", connections, 1, straight_connections),
    (f"a connection with a tunnel, {AT_ONCE} at once", connections, AT_ONCE, None),
    (f"a tunnel of a connection, {TUNNELS} at once", tunnels, TUNNELS, None),
    ("a second in which nothing comes", silence, 1, None),
]


class Other(Proxy):
    """Another proxy, whose processor time is told."""

    def __init__(self, port, words):
        self.doors = {"inbound": port}
        self.process = subprocess.Popen(words)
        until(f"{words[0]} listens", self.listens)


def haproxy(folder):
    """haproxy, where it is installed."""
    if not shutil.which("haproxy"):
        return None
    port = free_port()
    file = pathlib.Path(folder, "haproxy.cfg")
    file.write_text(HAPROXY.format(port=port))
    return Other(port, ["haproxy", "-db", "-q", "-f", file])


def h2_proxy(folder):
    """The proxy on h2 and tokio, where cargo and Debian's crates are installed."""
    crates = pathlib.Path("/usr/share/cargo/registry")
    if not shutil.which("cargo") or not list(crates.glob("h2-*")):
        return None
    source = shutil.copytree(TOP / "bench/speed/h2_proxy", pathlib.Path(folder, "h2_proxy"))
    from_debian = ["--config", "source.crates-io.replace-with='debian'", "--config", f"source.debian.directory='{crates}'"]
    subprocess.run(["cargo", "build", "--release", "--quiet", "--offline", *from_debian], cwd=source, check=True)
    port = free_port()
    return Other(port, [source / "target/release/h2_proxy", f"{HERE}:{port}"])


def cost(room, proxy, measure):
    """Microseconds of processor time a unit, the middle one of the rounds."""
    room.proxy, costs, others = proxy, [], [*room.things]
    for _ in range(ROUNDS):
        act = measure()
        next(act)
        before = proxy.cpu()
        units = next(act)
        costs.append((proxy.cpu() - before) * 1e6 / units)
        for _ in act:
            pass
        for it in room.things[len(others):]:
            it.close()
        del room.things[len(others):]
    return statistics.median(costs)


def main():
    program = sys.argv[1] if len(sys.argv) > 1 else f"{TOP}/crates/hbone/out/hbone"
    with Room(program) as room, tempfile.TemporaryDirectory() as folder:
        room.start(resources=mesh(CALLER))
        ours, other, plain = room.proxy, h2_proxy(folder), haproxy(folder)
        for proxy in filter(None, (ours, other, plain)):
            os.sched_setaffinity(proxy.process.pid, {0})
        os.sched_setaffinity(0, set(range(1, os.cpu_count())) or {0})
        for name, act, count, straight in MEASURES:
            measure = lambda: act(room.peer().join(), room, count)
            costs = [f"{cost(room, ours, measure):.0f} us"]
            if other:
                costs.append(f"h2 {cost(room, other, measure):.0f}")
            if plain and straight:
                costs.append(f"haproxy {cost(room, plain, lambda: straight(room)):.0f}")
            print(f"{name}: {'; '.join(costs)}", flush=True)
        room.proxy = ours
        for proxy in filter(None, (other, plain)):
            proxy.end()


main()
