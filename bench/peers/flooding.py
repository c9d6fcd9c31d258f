"""Peers that flood `hbone serve`, in processes of their own: each connection has a tunnel to an upstream that drains, and sends as much as
its socket takes.

usage: flooding.py KIND PORT TARGET COUNT      (so many connections at the inbound door of a port, until they end)

Kinds: `data`, DATA of 16,384 octets in writes of 64 KiB, as its windows let it; `octets`, DATA of one octet each, likewise; `empty`, DATA
without an octet; `pings`, PING; `settings`, SETTINGS without a setting; `continued`, HEADERS and then CONTINUATION without an octet, and
no end. Each reads what comes.
"""

import os
import select
import signal
import socket
import subprocess
import sys
import time

import hpack
from hyperframe.frame import ContinuationFrame, DataFrame, HeadersFrame, PingFrame, SettingsFrame

from case import PREFACE
from peers import HERE, OTHER, header, sink, until

KINDS = ("data", "octets", "empty", "pings", "settings", "continued")


class Flood:
    """A flooding connection. Of its frames those of DATA with octets keep to the windows that the program grants."""

    def __init__(self, kind, port, target):
        self.kind, self.socket = kind, socket.create_connection((HERE, port))
        asks = hpack.Encoder().encode([(":method", "CONNECT"), (":authority", f"{HERE}:{target}")])
        start = header((HERE, 1), (HERE, 15008), OTHER) + PREFACE + SettingsFrame().serialize()
        self.socket.sendall(start + HeadersFrame(1, asks, flags=["END_HEADERS"]).serialize())
        self.came, self.link, self.stream = b"", 65_535, 65_535
        # (a header block on stream 3 that never ends)
        self.out = HeadersFrame(3, asks).serialize() if kind == "continued" else b""
        self.piece = self.pieces()
        self.socket.setblocking(False)

    def pieces(self):
        """What it says again and again."""
        frame, count = {
            "data": (DataFrame(1, bytes(16_384)), 4),
            "octets": (DataFrame(1, b"x"), 4096),
            "empty": (DataFrame(1, b""), 8192),
            "pings": (PingFrame(0, bytes(8)), 4096),
            "settings": (SettingsFrame(), 8192),
            "continued": (ContinuationFrame(3, b""), 8192),
        }[self.kind]
        self.cost = {"data": 65_536, "octets": 4096}.get(self.kind, 0)
        self.frame, self.size = frame.serialize(), len(frame.serialize())
        return self.frame * count

    def wants(self):
        """Whether it has something to send."""
        return bool(self.out) or not self.cost or min(self.link, self.stream) > 0

    def fill(self):
        if not self.cost:
            self.out += self.piece
            return
        left = min(self.link, self.stream)
        if self.kind == "data":
            sizes = [min(16_384, left - at) for at in range(0, min(left, 65_536), 16_384)]
            self.out += b"".join(DataFrame(1, bytes(size)).serialize() for size in sizes)
            spent = sum(sizes)
        else:
            spent = min(left, 4096)
            self.out += self.frame * spent
        self.link -= spent
        self.stream -= spent

    def write(self):
        if not self.out and self.wants():
            self.fill()
        if self.out:
            self.out = self.out[self.socket.send(self.out) :]

    def read(self):
        """Whether it goes on."""
        data = self.socket.recv(1 << 18)
        self.came += data
        while len(self.came) >= 9 and len(self.came) >= 9 + (size := int.from_bytes(self.came[:3], "big")):
            if self.came[3] == 8:
                grants = int.from_bytes(self.came[9:13], "big")
                if self.came[5:9] == bytes(4):
                    self.link += grants
                else:
                    self.stream += grants
            self.came = self.came[9 + size :]
        return bool(data)


def flood(kind, port, target, count):
    """So many flooding connections, until they end or are ended."""
    links = {it.socket.fileno(): it for it in (Flood(kind, port, target) for _ in range(count))}
    poll = select.poll()
    while links:
        for number, it in links.items():
            poll.register(number, select.POLLIN | (select.POLLOUT if it.wants() else 0))
        for number, events in poll.poll(100):
            it = links[number]
            try:
                if events & select.POLLOUT:
                    it.write()
                if not events & ~select.POLLOUT or it.read():
                    continue
            except BlockingIOError:
                continue
            except OSError:
                pass
            poll.unregister(number)
            del links[number]


class Flooding:
    """Processes that flood, with so many connections in all. The program takes nothing until `begin`, where it is a burst."""

    def __init__(self, room, kind, count, burst=False):
        self.room, self.drain, self.burst = room, room.upstream(sink), burst
        shares = [share for share in (count - count // 2, count // 2) if share]
        self.all = [
            subprocess.Popen([sys.executable, __file__, kind, str(room.proxy.doors["inbound"]), str(self.drain.port), str(share)])
            for share in shares
        ]
        for at, it in enumerate(self.all):
            os.sched_setaffinity(it.pid, {1 + at % max(1, os.cpu_count() - 2)})
        until("the flooding tunnels", lambda: len(self.drain.taken) == count, 30)
        time.sleep(0.5)
        if burst:
            room.proxy.process.send_signal(signal.SIGSTOP)
            time.sleep(1)

    def begin(self):
        if self.burst:
            for it in self.all:
                it.send_signal(signal.SIGSTOP)
            self.room.proxy.process.send_signal(signal.SIGCONT)

    def close(self):
        for it in self.all:
            it.kill()
            it.wait()


if __name__ == "__main__":
    flood(sys.argv[1], *map(int, sys.argv[2:]))
