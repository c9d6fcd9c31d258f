#!/usr/bin/python3
"""What the way from node to node costs over real sockets: captured connections by the outbound door of one `hbone serve`, whose gateway is
the inbound door of another one, to an upstream behind that; and straight connections to the same upstream beside them.

usage: bench/speed/run path [PROGRAM]       (crates/hbone/out/hbone, which the gate leaves)

Prints the median of three rounds, each with the straight connections first: MB a second up and down over one connection and over 32, which
share a link; how long an echo of 64 octets takes on one connection, and one of each of 32 that ask at once, by the echo; and the processor
time of either program, of its own and of the system's together. No TLS stands between the programs. The client and the upstream are in
Python. Both, and the two programs, have a processor each where there are four. Needs what bench/peers/run needs.
"""

import os
import socket
import statistics
import subprocess
import sys
import threading
import time
from concurrent.futures import ThreadPoolExecutor

sys.dont_write_bytecode = True
TOP = os.path.dirname(os.path.dirname(os.path.dirname(os.path.abspath(__file__))))
sys.path.insert(0, f"{TOP}/bench/peers")
from case import payload
from nodes import two_nodes
from peers import HERE, Room, Upstream, until

MB, ECHOES, MANY, ROUNDS = 96, 4_000, 32, 3
TEXT = payload(1_000_000)


# The upstream, in a process of its own. The first octet of a connection asks for one of these; an octet back says that it is there.


def swallow(it):
    """All that comes, and an octet behind its end."""
    while it.recv(1 << 18):
        pass
    it.sendall(b".")


def pour(it):
    """As many MB as the next octet says, and an end."""
    for _ in range(it.recv(1)[0]):
        it.sendall(TEXT)
    it.shutdown(socket.SHUT_WR)


def echo(it):
    while data := it.recv(1 << 16):
        it.sendall(data)


ASKED = {b"u": swallow, b"d": pour, b"e": echo}


def serve():
    def act(taken):
        asked = ASKED[taken.socket.recv(1)]
        taken.socket.sendall(b".")
        asked(taken.socket)
        taken.close()

    print(Upstream(act).port, flush=True)
    threading.Event().wait()


# The client. Each act is done on open connections, and says how many units it was.


def together(act, connections):
    with ThreadPoolExecutor(len(connections)) as pool:
        for _ in pool.map(act, connections):
            pass


def up(connections):
    def one(it):
        for _ in range(MB // len(connections)):
            it.sendall(TEXT)
        it.shutdown(socket.SHUT_WR)
        it.recv(1)

    together(one, connections)
    return MB


def down(connections):
    def one(it):
        it.sendall(bytes([MB // len(connections)]))
        while it.recv(1 << 18):
            pass

    together(one, connections)
    return MB


def exactly(it, size):
    while size:
        size -= len(it.recv(size))


def echoes(connections):
    for _ in range(ECHOES // len(connections)):
        for it in connections:
            it.sendall(bytes(64))
        for it in connections:
            exactly(it, 64)
    return ECHOES // len(connections) * len(connections)


def megabytes(seconds):
    return f"{1 / seconds:.0f} MB/s"


def microseconds(seconds):
    return f"{seconds * 1e6:.0f} us"


MEASURES = [
    ("up, one connection", b"u", up, 1, megabytes),
    (f"up, {MANY} connections", b"u", up, MANY, megabytes),
    ("down, one connection", b"d", down, 1, megabytes),
    (f"down, {MANY} connections", b"d", down, MANY, megabytes),
    ("an echo, one connection", b"e", echoes, 1, microseconds),
    (f"an echo, {MANY} connections", b"e", echoes, MANY, microseconds),
]


def measured(connect, proxies, kind, act, count):
    """Seconds a unit: of the clock, and of each program's processor. No stream of an act before is left then."""
    idle = [it.descriptors() for it in proxies]
    connections = [connect() for _ in range(count)]
    for it in connections:
        it.sendall(kind)
        exactly(it, 1)
    before = [time.monotonic(), *(it.cpu() for it in proxies)]
    units = act(connections)
    behind = [time.monotonic(), *(it.cpu() for it in proxies)]
    for it in connections:
        it.close()
    until("the streams are over", lambda: all(it.descriptors() <= at + 1 for it, at in zip(proxies, idle)))
    return [(late - early) / units for early, late in zip(before, behind)]


def pin(*processes):
    """Gives each process a processor of its own, if there are as many."""
    processors = sorted(os.sched_getaffinity(0))
    if len(processors) < len(processes):
        print(f"not pinned: {len(processors)} processors")
        return
    for process, processor in zip(processes, processors):
        for task in os.listdir(f"/proc/{process}/task"):
            os.sched_setaffinity(int(task), {processor})


def compare(room, far, port):
    def straight():
        it = socket.create_connection((HERE, port))
        it.setsockopt(socket.IPPROTO_TCP, socket.TCP_NODELAY, 1)
        return it

    def captured():
        it = room.captured(port).socket
        it.settimeout(None)
        return it

    for name, *how, shown in MEASURES:
        rounds = [(measured(straight, [], *how), measured(captured, [room.proxy, far.proxy], *how)) for _ in range(ROUNDS)]
        plain = statistics.median(it[0] for it, _ in rounds)
        clock, near, beyond = (statistics.median(it[at] for _, it in rounds) for at in range(3))
        costs = f"near {near * 1e6:.0f} us, far {beyond * 1e6:.0f} us of processor"
        print(f"{name}: {shown(clock)}, straight {shown(plain)}; {costs}", flush=True)


def main():
    program = sys.argv[1] if len(sys.argv) > 1 else f"{TOP}/crates/hbone/out/hbone"
    upstream = subprocess.Popen([sys.executable, os.path.abspath(__file__), "--upstream"], stdout=subprocess.PIPE)
    try:
        port = int(upstream.stdout.readline())
        with Room(program) as room:
            far = two_nodes(room)
            pin(room.proxy.process.pid, far.proxy.process.pid, os.getpid(), upstream.pid)
            print("load before", *os.getloadavg())
            compare(room, far, port)
            print("load behind", *os.getloadavg())
    finally:
        upstream.kill()
        upstream.wait()


serve() if sys.argv[1:] == ["--upstream"] else main()
