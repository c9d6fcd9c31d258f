#!/usr/bin/env python3
"""Header blocks made by nghttp2 (libnghttp2.so.14, Debian's libnghttp2-14), and corrupted ones.

Prints the lines of crates/hb_http2_rows/src/hpack_vectors.rt:  python3 bench/tables/hpack_vectors.py > crates/hb_http2_rows/src/hpack_vectors.rt

Each block is made by nghttp2's deflater, or put together here by hand, and is read by nghttp2's inflater and by the
decoder below, which is written from RFC 7541; both must agree on the headers and on the table's size. The place and
the kind of each fault are worked out by the decoder below; nghttp2 must refuse the block too, unless the fault is one
of this project's limits.
"""
import ctypes
import random
import sys

from hpack_integer import integer

lib = ctypes.CDLL("libnghttp2.so.14")


class NV(ctypes.Structure):
    _fields_ = [("name", ctypes.c_char_p), ("value", ctypes.c_char_p), ("namelen", ctypes.c_size_t), ("valuelen", ctypes.c_size_t), ("flags", ctypes.c_uint8)]


class OutNV(ctypes.Structure):
    _fields_ = [("name", ctypes.POINTER(ctypes.c_uint8)), ("value", ctypes.POINTER(ctypes.c_uint8)), ("namelen", ctypes.c_size_t), ("valuelen", ctypes.c_size_t), ("flags", ctypes.c_uint8)]


lib.nghttp2_hd_deflate_hd.restype = ctypes.c_ssize_t
lib.nghttp2_hd_deflate_get_dynamic_table_size.restype = ctypes.c_size_t
lib.nghttp2_hd_inflate_hd2.restype = ctypes.c_ssize_t
lib.nghttp2_hd_inflate_get_dynamic_table_size.restype = ctypes.c_size_t


class Deflater:
    def __init__(self, size=4096):
        self.p = ctypes.c_void_p()
        assert lib.nghttp2_hd_deflate_new(ctypes.byref(self.p), ctypes.c_size_t(size)) == 0

    def resize(self, n):
        assert lib.nghttp2_hd_deflate_change_table_size(self.p, ctypes.c_size_t(n)) == 0

    def block(self, headers):
        nvs = (NV * len(headers))(*[NV(n, v, len(n), len(v), f) for n, v, f in headers])
        buf = (ctypes.c_uint8 * 65536)()
        n = lib.nghttp2_hd_deflate_hd(self.p, buf, ctypes.c_size_t(65536), nvs, ctypes.c_size_t(len(headers)))
        assert n >= 0
        return bytes(buf[:n])


class Inflater:
    def __init__(self):
        self.p = ctypes.c_void_p()
        assert lib.nghttp2_hd_inflate_new(ctypes.byref(self.p)) == 0

    def block(self, data):
        """The headers, or None where nghttp2 refuses the block."""
        found, at = [], 0
        while True:
            nv, flags = OutNV(), ctypes.c_int(0)
            rest = data[at:]
            buf = (ctypes.c_uint8 * max(1, len(rest))).from_buffer_copy(rest or b"\0")
            n = lib.nghttp2_hd_inflate_hd2(self.p, ctypes.byref(nv), ctypes.byref(flags), buf, ctypes.c_size_t(len(rest)), 1)
            if n < 0:
                return None
            at += n
            if flags.value & 2:
                found.append((bytes(nv.name[: nv.namelen]), bytes(nv.value[: nv.valuelen])))
            if flags.value & 1:
                lib.nghttp2_hd_inflate_end_headers(self.p)
                return found

    def table(self):
        return lib.nghttp2_hd_inflate_get_dynamic_table_size(self.p)


# ---- a decoder written from RFC 7541

STATIC = [tuple((e + " ").split(" ", 1)) for e in (
    ":authority|:method GET|:method POST|:path /|:path /index.html|:scheme http|:scheme https|:status 200|:status 204|:status 206|"
    ":status 304|:status 400|:status 404|:status 500|accept-charset|accept-encoding gzip, deflate|accept-language|accept-ranges|accept|"
    "access-control-allow-origin|age|allow|authorization|cache-control|content-disposition|content-encoding|content-language|"
    "content-length|content-location|content-range|content-type|cookie|date|etag|expect|expires|from|host|if-match|if-modified-since|"
    "if-none-match|if-range|if-unmodified-since|last-modified|link|location|max-forwards|proxy-authenticate|proxy-authorization|range|"
    "referer|refresh|retry-after|server|set-cookie|strict-transport-security|transfer-encoding|user-agent|vary|via|www-authenticate").split("|")]
STATIC = [(n.encode(), v.rstrip(" ").encode()) for n, v in STATIC]
LENGTHS = [
    13, 23, 28, 28, 28, 28, 28, 28, 28, 24, 30, 28, 28, 30, 28, 28, 28, 28, 28, 28, 28, 28, 30, 28, 28, 28, 28, 28, 28, 28, 28, 28, 6, 10, 10, 12, 13, 6, 8, 11, 10, 10, 8, 11, 8, 6, 6, 6,
    5, 5, 5, 6, 6, 6, 6, 6, 6, 6, 7, 8, 15, 6, 12, 10, 13, 6, 7, 7, 7, 7, 7, 7, 7, 7, 7, 7, 7, 7, 7, 7, 7, 7, 7, 7, 7, 7, 7, 7, 8, 7, 8, 13, 19, 13, 14, 6, 15, 5, 6, 5, 6, 5, 6, 6, 6, 5,
    7, 7, 6, 6, 6, 5, 6, 7, 6, 5, 5, 6, 7, 7, 7, 7, 7, 15, 11, 14, 13, 28, 20, 22, 20, 20, 22, 22, 22, 23, 22, 23, 23, 23, 23, 23, 24, 23, 24, 24, 22, 23, 24, 23, 23, 23, 23, 21, 22, 23,
    22, 23, 23, 24, 22, 21, 20, 22, 22, 23, 23, 21, 23, 22, 22, 24, 21, 22, 23, 23, 21, 21, 22, 21, 23, 22, 23, 23, 20, 22, 22, 22, 23, 22, 22, 23, 26, 26, 20, 19, 22, 23, 22, 25, 26, 26,
    26, 27, 27, 26, 24, 25, 19, 21, 26, 27, 27, 26, 27, 24, 21, 21, 26, 26, 28, 27, 27, 27, 20, 24, 20, 21, 22, 21, 21, 23, 22, 22, 25, 25, 24, 24, 26, 23, 26, 27, 26, 26, 27, 27, 27, 27,
    27, 28, 27, 27, 27, 27, 27, 26, 30]
WORDS, code, last = {}, 0, 0
for symbol in sorted(range(257), key=lambda s: (LENGTHS[s], s)):
    code <<= LENGTHS[symbol] - last
    last = LENGTHS[symbol]
    WORDS[format(code, "0%db" % last)] = symbol
    code += 1
assert WORDS["1" * 30] == 256


class Fault(Exception):
    pass


def huffman(data):
    bits, text, word = "".join(format(b, "08b") for b in data), bytearray(), ""
    for bit in bits:
        word += bit
        if word in WORDS:
            if WORDS[word] == 256:
                return None
            text.append(WORDS[word])
            word = ""
    return bytes(text) if len(word) <= 7 and "0" not in word else None


class Decoder:
    def __init__(self):
        self.table, self.maximum = [], 4096

    def integer(self, b, at, bits):
        if at >= len(b):
            raise Fault(len(b), "Truncated")
        value, at = b[at] & (2**bits - 1), at + 1
        if value < 2**bits - 1:
            return value, at
        for group in range(6):
            if at >= len(b):
                raise Fault(len(b), "Truncated")
            if group == 5:
                raise Fault(at, "LongInteger")
            value += (b[at] & 127) << (7 * group)
            if value > 0xFFFFFFFF:
                raise Fault(at, "LongInteger")
            at += 1
            if b[at - 1] < 128:
                return value, at

    def string(self, b, at):
        start = at
        if at >= len(b):
            raise Fault(len(b), "Truncated")
        coded = b[at] & 128
        n, at = self.integer(b, at, 7)
        if at + n > len(b):
            raise Fault(len(b), "Truncated")
        data = b[at : at + n]
        if coded:
            data = huffman(data)
            if data is None:
                raise Fault(start, "BadHuffman")
        return data, at + n

    def entry(self, i, at):
        if 1 <= i <= 61:
            return STATIC[i - 1]
        if 62 <= i < 62 + len(self.table):
            return self.table[i - 62]
        raise Fault(at - 1, "BadIndex")

    def size(self):
        return sum(len(n) + len(v) + 32 for n, v in self.table)

    def evict(self):
        while self.size() > self.maximum:
            self.table.pop()

    def block(self, b):
        at, found = 0, []
        while at < len(b):
            first = b[at]
            if first & 0x80:
                i, at = self.integer(b, at, 7)
                found.append(self.entry(i, at))
                continue
            if first & 0xE0 == 0x20:
                if found:
                    raise Fault(at, "LateSize")
                n, at = self.integer(b, at, 5)
                if n > 4096:
                    raise Fault(at - 1, "BadSize")
                self.maximum = n
                self.evict()
                continue
            i, at = self.integer(b, at, 6 if first & 0x40 else 4)
            name, at = self.string(b, at) if i == 0 else (self.entry(i, at)[0], at)
            value, at = self.string(b, at)
            found.append((name, value))
            if first & 0x40:
                self.table.insert(0, (name, value))
                self.evict()
        return found


# ---- the lines

LIMITS = {"LongInteger"}
WHYS = ["BadIndex", "LongInteger", "Truncated", "BadHuffman", "BadSize", "LateSize"]
rng = random.Random(7541)
lines = []
counts = {"reads": 0, "faults": 0}


def kept(headers):
    out, total = [], 0
    for n, v in headers:
        total += len(n) + len(v) + 32
        if total > 16384:
            break
        out.append((n, v))
    return out


def shown(text):
    return "".join(chr(b) if 33 <= b < 127 and chr(b) not in '"\\\\%|' else "%%%02x" % b for b in text)


def put_reads(block, headers, table):
    size = sum(len(n) + len(v) + 32 for n, v in headers)
    text = "".join("|" + shown(n) + "|" + shown(v) for n, v in kept(headers))
    lines.append("r %s %d %d %s" % (block.hex(), size, table, text or "-"))
    counts["reads"] += 1


def both(mine, theirs, block):
    headers = mine.block(block)
    found = theirs.block(block)
    assert found == headers, (block.hex(), found, headers)
    assert theirs.table() == mine.size(), (block.hex(), theirs.table(), mine.size())
    put_reads(block, headers, mine.size())


PATHS = [b"/", b"/index.html", b"/api/v1/pods?limit=500", b"/healthz", b"/assets/app.3f2a.js", b"/search?q=a%20b&page=2"]
AGENTS = [b"Mozilla/5.0 (X11; Linux x86_64; rv:121.0) Gecko/20100101 Firefox/121.0", b"curl/8.5.0", b"envoy/1.29"]


def request():
    headers = [
        (b":method", rng.choice([b"GET", b"POST", b"PUT", b"CONNECT"]), 0), (b":scheme", rng.choice([b"http", b"https"]), 0),
        (b":path", rng.choice(PATHS), 0), (b":authority", b"host%d.example.com" % rng.randrange(6), 0), (b"user-agent", rng.choice(AGENTS), 0)]
    if rng.random() < 0.5:
        headers.append((b"cookie", b"id=%08x; t=%d" % (rng.getrandbits(32), rng.randrange(9)), rng.choice([0, 1])))
    if rng.random() < 0.4:
        headers.append((b"authorization", b"Bearer %016x" % rng.getrandbits(64), 1))
    if rng.random() < 0.5:
        headers.append((b"x-request-%d" % rng.randrange(4), bytes(rng.randrange(256) for _ in range(rng.randrange(1, 12))), 0))
    if rng.random() < 0.3:
        headers.append((b"accept-encoding", b"gzip, deflate", 0))
    return headers


def plain(text):
    return integer(len(text), 7, 0) + text


def by_hand():
    """A block of any representations, with size updates in front."""
    out = b""
    if rng.random() < 0.3:
        out += b"".join(integer(rng.choice([0, 40, 64, 100, 4096]), 5, 0x20) for _ in range(rng.randrange(1, 3)))
    for _ in range(rng.randrange(1, 5)):
        name, value = b"n%d" % rng.randrange(5), b"v" * rng.randrange(0, 80)
        flag, bits = rng.choice([(0x40, 6), (0x40, 6), (0, 4), (0x10, 4)])
        if rng.random() < 0.5:
            out += integer(rng.randrange(1, 62), bits, flag) + plain(value)
        else:
            out += integer(0, bits, flag) + plain(name) + plain(value)
        out += integer(rng.randrange(1, 62), 7, 0x80)
    return out


for connection in range(10):
    lines.append("n")
    mine, theirs, deflater = Decoder(), Inflater(), Deflater([4096, 256, 512, 150][connection % 4])
    for turn in range(12):
        if connection % 3 == 1 and turn % 4 == 2:
            deflater.resize(0)
            if turn % 8 == 2:
                deflater.resize([4096, 256, 512, 150][connection % 4])
        both(mine, theirs, deflater.block(request()))
for connection in range(12):
    lines.append("n")
    mine, theirs = Decoder(), Inflater()
    for turn in range(8):
        both(mine, theirs, by_hand())


def corrupted(block):
    b = bytearray(block)
    kind = rng.randrange(5)
    if kind == 0:
        return bytes(b[: rng.randrange(len(b))])
    if kind == 1:
        b[rng.randrange(len(b))] = rng.randrange(256)
    elif kind == 2:
        b.insert(rng.randrange(len(b) + 1), rng.choice([0x80, 0xFF, 0x3F, 0x20, 0xBE, 0x00, 0x7F]))
    elif kind == 3:
        b += rng.choice([b"\x20", b"\x80", b"\xff\xff\xff\xff\xff\xff", b"\x00\x84\xff\xff\xff\xff\x00", b"\x3f\xe2\x1f", b"\x0f", b"\x41\x82\x1c"])
    else:
        return rng.choice([b"\x3f\xe2\x1f", b"\x3f\xe1\x1f\x3f\xff\xff\x03", b"\x20\x80", b"\x5f", b"\x7f\xff"]) + bytes(b)
    return bytes(b)


while counts["faults"] < 210:
    mine, theirs, deflater = Decoder(), Inflater(), Deflater()
    before = deflater.block(request()[:5])
    block = corrupted(deflater.block(request()) if rng.random() < 0.7 else by_hand())
    theirs.block(before)
    first = mine.block(before)
    size = mine.size()
    try:
        headers = mine.block(block)
    except Fault as fault:
        at, why = fault.args
        assert theirs.block(block) is None or why in LIMITS, (block.hex(), at, why)
        lines.append("n")
        if rng.random() < 0.15 or why == "BadIndex":
            put_reads(before, first, size)
            lines.append("f %s %d %d" % (block.hex(), at, WHYS.index(why) + 1))
            counts["faults"] += 1
            continue
        again = Decoder()
        try:
            again.block(block)
            lines.pop()
        except Fault as fault:
            lines.append("f %s %d %d" % (block.hex(), fault.args[0], WHYS.index(fault.args[1]) + 1))
            counts["faults"] += 1

parts, part = [], []
for line in lines:
    if line == "n" and sum(map(len, part)) > 9000:
        parts.append(part)
        part = []
    part.append(line)
parts.append(part)
print("//! Header blocks, printed by bench/tables/hpack_vectors.py: nghttp2 made or read each of them.")
print("//!")
print("//! `n` begins a new decoder. `r` has a block, the sizes of its list and of the table behind it, and its kept headers:")
print("//! of each `|`, the name, `|` and the value, where `%` and two digits are a byte. `f` has a block, and the offset and number of its fault.")
print("//! %d blocks are read and %d are refused." % (counts["reads"], counts["faults"]))
for i, part in enumerate(parts):
    print('\npub const PART_%d: &[u8] = b"\\\n%s";' % (i + 1, "\n".join(part)))
sys.stderr.write("%s\n" % counts)
