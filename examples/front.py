#!/usr/bin/python3
"""A front for hbone: ends mutual TLS, and writes the header that tells the peer in front of the bytes.

usage: examples/front.py --as FOLDER/NAME [--idle SECONDS] [--connections COUNT] HOST:PORT PROXY_HOST:PROXY_PORT

It listens at HOST:PORT with the certificate NAME.pem and its key NAME.key, and takes peers whose certificate ca.pem beside them signed, as
examples/certificates.sh makes them. It takes the peer's identity from the one URI of its certificate, dials hbone's inbound door, and
writes the header that docs/FORMATS.md describes under "The header before a connection": where the connection came from, where it went to,
and the identity. Behind it bytes go both ways as they come. Where one side ends, the other one is ended.

hbone has no time limits, so the front has them: a handshake has 10 seconds, a connection on which nothing moved for --idle seconds (600)
is ended, the kernel looks for peers that vanished (TCP keep-alive), and at most --connections (1000) are open.

A short example, and no more: Python's event loop and TLS carry some hundred MB a second.
"""

import argparse
import asyncio
import pathlib
import socket
import ssl
import struct
import sys
import time
from ipaddress import ip_address

SIGNATURE = b"\r\n\r\n\0\r\nQUIT\n"
IDENTITY = 0xE0
HANDSHAKE = 10


def header(source, destination, identity=None):
    """The header of a connection between two addresses with ports, of a peer with this identity."""
    ips = [ip_address(ip) for ip, *_ in (source, destination)]
    if any(ip.version == 6 for ip in ips):
        family, octets = 0x21, [(ip if ip.version == 6 else ip_address(f"::ffff:{ip}")).packed for ip in ips]
    else:
        family, octets = 0x11, [ip.packed for ip in ips]
    part = b"".join(octets) + struct.pack("!HH", source[1], destination[1])
    if identity is not None:
        part += struct.pack("!BH", IDENTITY, len(identity)) + identity.encode()
    return SIGNATURE + struct.pack("!BBH", 0x21, family, len(part)) + part


def identity_of(certificate):
    """The one SPIFFE identity of a certificate; None where it has none, or several."""
    uris = [value for kind, value in certificate.get("subjectAltName", ()) if kind == "URI"]
    return uris[0] if len(uris) == 1 and uris[0].startswith("spiffe://") else None


def watch(writer):
    """The kernel asks a silent peer after a minute, and gives it up after another."""
    it = writer.get_extra_info("socket")
    it.setsockopt(socket.SOL_SOCKET, socket.SO_KEEPALIVE, 1)
    for option, value in ((socket.TCP_KEEPIDLE, 60), (socket.TCP_KEEPINTVL, 15), (socket.TCP_KEEPCNT, 4)):
        it.setsockopt(socket.IPPROTO_TCP, option, value)


class Relay:
    """Bytes both ways between two connections."""

    def __init__(self, idle):
        self.idle, self.moved = idle, time.monotonic()

    async def one_way(self, reader, writer):
        while data := await reader.read(65536):
            self.moved = time.monotonic()
            writer.write(data)
            await writer.drain()

    async def lapse(self):
        while (left := self.moved + self.idle - time.monotonic()) > 0:
            await asyncio.sleep(left)

    async def run(self, near, far):
        """Until one side ends or nothing moves; what came before goes out."""
        ways = [asyncio.ensure_future(it) for it in (self.one_way(near[0], far[1]), self.one_way(far[0], near[1]), self.lapse())]
        await asyncio.wait(ways, return_when=asyncio.FIRST_COMPLETED)
        for way in ways:
            way.cancel()
        await asyncio.gather(*ways, return_exceptions=True)


class Front:
    def __init__(self, words, tell):
        self.proxy, self.idle, self.left, self.tell = split(words.proxy), words.idle, words.connections, tell

    async def take(self, reader, writer):
        """One connection of a peer, whose TLS is there."""
        source, destination = (writer.get_extra_info(name)[:2] for name in ("peername", "sockname"))
        identity = identity_of(writer.get_extra_info("peercert"))
        if identity is None or not self.left:
            self.tell(f"front: {source[0]}: {'too many connections' if identity else 'no identity'}")
            return
        watch(writer)
        far_reader, far = await asyncio.open_connection(*self.proxy)
        try:
            far.write(header(source, destination, identity))
            self.tell(f"front: {source[0]} {identity} to {destination[0]}")
            await Relay(self.idle).run((reader, writer), (far_reader, far))
        finally:
            far.close()

    async def __call__(self, reader, writer):
        try:
            await self.take(reader, writer)
        except OSError as error:
            self.tell(f"front: {error}")
        finally:
            writer.close()

    async def counted(self, reader, writer):
        self.left -= 1
        try:
            await self(reader, writer)
        finally:
            self.left += 1


def split(text):
    host, _, port = text.rpartition(":")
    return host.strip("[]"), int(port)


def tls(words, side):
    """TLS 1.3 alone, with a certificate of both sides, for HTTP/2."""
    context = ssl.SSLContext(side)
    context.minimum_version = ssl.TLSVersion.TLSv1_3
    context.check_hostname = False
    context.verify_mode = ssl.CERT_REQUIRED
    context.load_cert_chain(f"{words.own}.pem", f"{words.own}.key")
    context.load_verify_locations(pathlib.Path(words.own).with_name("ca.pem"))
    context.set_alpn_protocols(["h2"])
    return context


async def serve(words):
    front = Front(words, lambda line: print(line, file=sys.stderr, flush=True))
    host, port = split(words.at)
    context = tls(words, ssl.PROTOCOL_TLS_SERVER)
    server = await asyncio.start_server(front.counted, host, port, ssl=context, ssl_handshake_timeout=HANDSHAKE, backlog=1024)
    async with server:
        await server.serve_forever()


def main():
    words = argparse.ArgumentParser(description=__doc__, formatter_class=argparse.RawDescriptionHelpFormatter)
    words.add_argument("--as", dest="own", required=True)
    words.add_argument("--idle", type=float, default=600)
    words.add_argument("--connections", type=int, default=1000)
    words.add_argument("at")
    words.add_argument("proxy")
    try:
        asyncio.run(serve(words.parse_args()))
    except KeyboardInterrupt:
        pass


if __name__ == "__main__":
    main()
