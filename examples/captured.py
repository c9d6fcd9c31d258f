#!/usr/bin/env python3
"""A captured connection, as what captures it hands it to the plain or the outbound door: pipes standard input and output.

usage: examples/captured.py [--identity IDENTITY] DOOR SOURCE DESTINATION

It connects to DOOR and writes the header that docs/FORMATS.md describes under "The header before a connection": that a connection comes
from SOURCE and meant DESTINATION. All three are IP:PORT. Behind it goes what standard input gives, and its end ends that side; what comes
back is printed. It ends with 0 where the other side ended, and with 2 where it reset the connection, as a refusal does.
"""

import argparse
import os
import select
import socket
import sys

from front import header, split


def relay(it):
    """Pipes until the other side ends. Whether it did: else it reset the connection."""
    waits, reads = b"", [0, it]
    it.setblocking(False)
    try:
        while True:
            ready, room, _ = select.select([it] if waits else reads, [it] if waits else [], [])
            if room:
                waits = waits[it.send(waits) :]
            if 0 in ready:
                waits = os.read(0, 65536)
                if not waits:
                    reads.remove(0)
                    it.shutdown(socket.SHUT_WR)
            if it in ready:
                data = it.recv(65536)
                if not data:
                    return True
                os.write(1, data)
    except OSError:
        return False


def main():
    words = argparse.ArgumentParser(description=__doc__, formatter_class=argparse.RawDescriptionHelpFormatter)
    words.add_argument("--identity")
    for name in ("door", "source", "destination"):
        words.add_argument(name, type=split)
    given = words.parse_args()
    with socket.create_connection(given.door) as it:
        it.sendall(header(given.source, given.destination, given.identity))
        if relay(it):
            return 0
    print("captured: reset", file=sys.stderr)
    return 2


if __name__ == "__main__":
    raise SystemExit(main())
