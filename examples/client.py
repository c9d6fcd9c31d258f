#!/usr/bin/python3
"""The far end of a tunnel: opens one to a target through a front, and pipes standard input and output.

usage: examples/client.py --as FOLDER/NAME HOST:PORT TARGET

It makes mutual TLS with the front at HOST:PORT, with the certificate NAME.pem that examples/certificates.sh made, speaks HTTP/2 on it, and
asks for a tunnel to TARGET, an IP:PORT, by CONNECT (RFC 9113 section 8.5). What standard input gives goes up, and its end ends that side;
what comes down is printed. It tells the answer on standard error, and ends with 0 where both sides ended, 1 where the tunnel was refused,
2 where it was reset, 3 where the connection ended before.

Needs Debian's python3-h2: run it with /usr/bin/python3.
"""

import argparse
import asyncio
import ssl
import sys

import h2.config
import h2.connection
import h2.events

from front import identity_of, split, tls

STREAM = 1


class Tunnel:
    def __init__(self, reader, writer):
        self.reader, self.writer = reader, writer
        # (python3-h2 4.1 asks for :scheme and :path, which RFC 9113 section 8.5 takes away)
        self.conn = h2.connection.H2Connection(h2.config.H2Configuration(client_side=True, validate_outbound_headers=False))
        self.answered, self.room = asyncio.Event(), asyncio.Event()
        self.status = self.result = None

    def send(self):
        self.writer.write(self.conn.data_to_send())

    def open(self, target):
        self.conn.initiate_connection()
        self.conn.send_headers(STREAM, [(":method", "CONNECT"), (":authority", target)])
        self.send()

    async def up(self, source):
        """Standard input, as far as the windows let it."""
        await self.answered.wait()
        while data := await source.read(16384):
            while data:
                self.room.clear()
                if most := min(self.conn.local_flow_control_window(STREAM), self.conn.max_outbound_frame_size):
                    self.conn.send_data(STREAM, data[:most])
                    self.send()
                    data = data[most:]
                    await self.writer.drain()
                else:
                    await self.room.wait()
        self.conn.end_stream(STREAM)
        self.send()

    def took(self, event):
        """What an event makes of the tunnel."""
        if isinstance(event, h2.events.ResponseReceived):
            self.status = int(dict(event.headers)[b":status"])
            print(f"client: {self.status}", file=sys.stderr, flush=True)
            if self.status == 200:
                self.answered.set()
            else:
                self.result = 1
        elif isinstance(event, h2.events.DataReceived):
            sys.stdout.buffer.write(event.data)
            sys.stdout.flush()
            self.conn.acknowledge_received_data(event.flow_controlled_length, STREAM)
        elif isinstance(event, h2.events.StreamReset) and self.result is None:
            print(f"client: reset with code {event.error_code.value}", file=sys.stderr, flush=True)
            self.result = 2
        elif isinstance(event, (h2.events.StreamEnded, h2.events.ConnectionTerminated)) and self.result is None:
            self.result = 0 if isinstance(event, h2.events.StreamEnded) else 3

    async def down(self):
        """All that comes, until the tunnel is over."""
        while self.result is None:
            data = await self.reader.read(65536)
            if not data:
                print("client: the connection ended", file=sys.stderr, flush=True)
                self.result = 3
            for event in self.conn.receive_data(data):
                self.took(event)
            self.room.set()
            self.send()


async def standard_input():
    reader = asyncio.StreamReader()
    await asyncio.get_running_loop().connect_read_pipe(lambda: asyncio.StreamReaderProtocol(reader), sys.stdin)
    return reader


async def run(words):
    reader, writer = await asyncio.open_connection(*split(words.at), ssl=tls(words, ssl.PROTOCOL_TLS_CLIENT))
    print(f"client: the front is {identity_of(writer.get_extra_info('peercert'))}", file=sys.stderr, flush=True)
    tunnel = Tunnel(reader, writer)
    tunnel.open(words.target)
    up = asyncio.ensure_future(tunnel.up(await standard_input()))
    await tunnel.down()
    up.cancel()
    writer.close()
    return tunnel.result


def main():
    words = argparse.ArgumentParser(description=__doc__, formatter_class=argparse.RawDescriptionHelpFormatter)
    words.add_argument("--as", dest="own", required=True)
    words.add_argument("at")
    words.add_argument("target")
    raise SystemExit(asyncio.run(run(words.parse_args())))


if __name__ == "__main__":
    main()
