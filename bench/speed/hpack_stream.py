#!/usr/bin/env python3
"""Writes streams of blocks into the folder given, each block behind its length in two bytes: plain.blocks and huffman.blocks have
2,000 requests of one connection, made by nghttp2 where in Huffman code; the plain ones have the same entries of the tables.
indexes.blocks has a header of 4,033 bytes, and then 32,768 indexes of it."""
import ctypes
import os
import pathlib
import random
import sys

sys.path.append(f"{pathlib.Path(__file__).resolve().parents[1]}/tables")
from hpack_integer import integer

sys.argv, folder = sys.argv[:1], sys.argv[1]
lib = ctypes.CDLL("libnghttp2.so.14")
lib.nghttp2_hd_deflate_hd.restype = ctypes.c_ssize_t


class NV(ctypes.Structure):
    _fields_ = [("name", ctypes.c_char_p), ("value", ctypes.c_char_p), ("namelen", ctypes.c_size_t), ("valuelen", ctypes.c_size_t), ("flags", ctypes.c_uint8)]


rng = random.Random(1)
PATHS = [b"/api/v1/items/%d?view=full" % i for i in range(400)]


def request():
    return [
        (b":method", rng.choice([b"GET", b"POST"])), (b":scheme", b"https"), (b":path", rng.choice(PATHS)), (b":authority", b"www.example.com"),
        (b"user-agent", b"Mozilla/5.0 (X11; Linux x86_64; rv:121.0) Gecko/20100101 Firefox/121.0"), (b"accept", b"text/html,application/xhtml+xml"),
        (b"cookie", b"session=%032x" % rng.getrandbits(128)), (b"x-request-id", b"%016x" % rng.getrandbits(64))]


class Plain:
    """Literals with indexing, plain, and indexes of the dynamic table."""

    def __init__(self):
        self.table = []

    def block(self, headers):
        out = b""
        for h in headers:
            if h in self.table:
                out += integer(62 + self.table.index(h), 7, 0x80)
                continue
            out += b"\x40" + integer(len(h[0]), 7, 0) + h[0] + integer(len(h[1]), 7, 0) + h[1]
            self.table.insert(0, h)
            while sum(len(n) + len(v) + 32 for n, v in self.table) > 4096:
                self.table.pop()
        return out


deflater = ctypes.c_void_p()
assert lib.nghttp2_hd_deflate_new(ctypes.byref(deflater), ctypes.c_size_t(4096)) == 0
plain = Plain()
with open(os.path.join(folder, "plain.blocks"), "wb") as p, open(os.path.join(folder, "huffman.blocks"), "wb") as h:
    for _ in range(2000):
        headers = request()
        block = plain.block(headers)
        p.write(len(block).to_bytes(2, "big") + block)
        nvs = (NV * len(headers))(*[NV(n, v, len(n), len(v), 0) for n, v in headers])
        buf = (ctypes.c_uint8 * 65536)()
        n = lib.nghttp2_hd_deflate_hd(deflater, buf, ctypes.c_size_t(65536), nvs, ctypes.c_size_t(len(headers)))
        h.write(n.to_bytes(2, "big") + bytes(buf[:n]))
with open(os.path.join(folder, "indexes.blocks"), "wb") as file:
    for block in (Plain().block([(b"x", b"y" * 4032)]), integer(62, 7, 0x80) * 32768):
        file.write(len(block).to_bytes(2, "big") + block)
