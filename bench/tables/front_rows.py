#!/usr/bin/python3
"""Prints crates/hb_tunnels_rows/src/front_rows.rt: bytes, and the answer to each front of them; and headers that are written.

    python3 bench/tables/front_rows.py > crates/hb_tunnels_rows/src/front_rows.rt && (cd crates/hb_tunnels_rows && rt fmt)

A second reader and writer, from the text of the PROXY protocol, version 2 (section 2.2, "Binary header format"), with the
rules of docs/FORMATS.md: only TCP, at most 4,096 bytes behind the length, and type e0 with the text of an identity.
"""

import ipaddress
import random
import re
import struct
import textwrap

CHOICE = random.Random(2013)

SIGNATURE = b"\x0d\x0a\x0d\x0a\x00\x0d\x0a\x51\x55\x49\x54\x0a"
IDENTITY = re.compile(rb"spiffe://[A-Za-z0-9._-]+/ns/[A-Za-z0-9._-]+/sa/[A-Za-z0-9._-]+")
PEER = b"spiffe://cluster.local/ns/a/sa/c"
TCP4, TCP6 = 0x11, 0x21


class Fault(Exception):
    pass


def told_end(octets, port):
    """An address and a port, as they are written; an IPv4 address mapped into IPv6 is the IPv4 address."""
    ip = ipaddress.ip_address(octets)
    ip = getattr(ip, "ipv4_mapped", None) or ip
    return f"{ip}:{port}" if ip.version == 4 else f"[{ip}]:{port}"


def tlvs_of(part):
    """The list of types and values; each has three bytes of type and length in front."""
    found = []
    while part:
        if len(part) < 3:
            raise Fault("BadLength")
        kind, size = struct.unpack_from("!BH", part)
        if len(part) < 3 + size:
            raise Fault("BadLength")
        found.append((kind, part[3 : 3 + size]))
        part = part[3 + size :]
    return found


def checked_head(data):
    """Raises the fault of the first 16 bytes, as far as they are there."""
    if not SIGNATURE.startswith(data[:12]):
        raise Fault("BadSignature")
    if data[12:13] not in (b"", b"\x21"):
        raise Fault("BadVersion")
    if data[13:14] not in (b"", b"\x11", b"\x21"):
        raise Fault("BadFamily")
    if len(data) >= 16:
        size = int.from_bytes(data[14:16], "big")
        if size > 4096:
            raise Fault("TooLong")
        if size < {TCP4: 12, TCP6: 36}[data[13]]:
            raise Fault("BadLength")


def answer(data):
    checked_head(data)
    if len(data) < 16 or len(data) < 16 + int.from_bytes(data[14:16], "big"):
        return "more"
    size = int.from_bytes(data[14:16], "big")
    part = data[16 : 16 + size]
    layout = {TCP4: "!4s4sHH", TCP6: "!16s16sHH"}[data[13]]
    source, destination, source_port, destination_port = struct.unpack_from(layout, part)
    texts = [value for kind, value in tlvs_of(part[struct.calcsize(layout) :]) if kind == 0xE0]
    if len(texts) > 1 or not all(IDENTITY.fullmatch(text) for text in texts):
        raise Fault("BadIdentity")
    text = texts[0].decode() if texts else "-"
    return f"whole {16 + size} {told_end(source, source_port)} {told_end(destination, destination_port)} {text}"


def told(data):
    try:
        return answer(data)
    except Fault as fault:
        return str(fault)


def changes(data):
    """The answers to all fronts of the bytes: from which length on, and which."""
    answers = [told(data[:n]) for n in range(len(data) + 1)]
    return ", ".join(f"{n} {a}" for n, a in enumerate(answers) if n == 0 or answers[n - 1] != a)


def tlv(kind, value=b""):
    return struct.pack("!BH", kind, len(value)) + value


def front(part, family=TCP4, version=0x21, size=None, signature=SIGNATURE):
    return signature + struct.pack("!BBH", version, family, len(part) if size is None else size) + part


def ends(source="10.0.0.9", destination="10.0.0.7", source_port=4000, destination_port=15008):
    ips = [ipaddress.ip_address(ip) for ip in (source, destination)]
    return b"".join(ip.packed for ip in ips) + struct.pack("!HH", source_port, destination_port)


FOUR, SIX = ends(), ends("2001:db8::9", "2001:db8::7")
MAPPED, BOTH_MAPPED = ends("2001:db8::9", "::ffff:10.0.0.7"), ends("::ffff:10.0.0.9", "::ffff:0.0.0.0", 0, 65535)
E0 = tlv(0xE0, PEER)


def read_rows():
    whole = front(FOUR + E0)
    yield "whole: no TLV, an identity, both families, mapped addresses, bytes behind it"
    yield from (whole, front(FOUR), front(SIX, TCP6), front(SIX + E0, TCP6), front(MAPPED + E0, TCP6), front(BOTH_MAPPED, TCP6))
    yield from (front(ends("::", "::1", 0, 0), TCP6), front(ends("::fffe:ffff:ffff", "::1:ffff:a00:7"), TCP6))
    yield whole + b"PRI * HTTP/2.0\r\n"
    yield "TLVs: the identity first, last and alone between others, without a value, of each other type near e0"
    yield from (front(FOUR + E0 + tlv(4)), front(FOUR + tlv(4) + E0), front(FOUR + tlv(3, b"\x01\x02\x03\x04") + E0 + tlv(2, b"a.example")))
    yield from (front(FOUR + tlv(4) + tlv(4)), front(FOUR + tlv(0xDF, PEER) + tlv(0xE1, b"x")))
    yield front(SIX + tlv(0x20, b"\x01" * 9) + E0, TCP6)
    yield from (front(FOUR + tlv(0, b"\xe0\x00\x01")), front(FOUR + tlv(0xFF) + E0 + tlv(1, b"h2")))
    yield "an identity that stands twice, or has no text of one"
    yield from (front(FOUR + E0 + E0), front(FOUR + E0 + tlv(0xE0, PEER + b"2")), front(FOUR + tlv(0xE0, PEER + b"2") + tlv(4) + E0))
    yield from (front(FOUR + E0 + tlv(0xE0)), front(FOUR + tlv(0xE0) + E0), front(FOUR + E0 + E0 + E0), front(SIX + E0 + E0, TCP6))
    odd = [b"", b"spiffe://", b"spiffe://td/ns//sa/b", b"spiffe://td/ns/a/sa/b/c"]
    for text in odd + [PEER + b"\n", b"SPIFFE" + PEER[6:], PEER[9:], PEER + b"\xff"]:
        yield front(FOUR + tlv(0xE0, text))
    yield "a TLV that passes the end; it goes before the identity"
    for rest in (E0[:-1], E0 + b"\x04", b"\x04\x00", b"\x04\x00\x01", b"\xe0\xff\xff" + PEER):
        yield front(FOUR + rest)
    yield from (front(FOUR + E0 + E0 + b"\x04\x00\x01"), front(FOUR + tlv(0xE0, b"x") + b"\x00"))
    yield from (front(FOUR + E0 + b"\x04\x00", size=n) for n in (12, 12 + 2, 12 + len(E0) - 1, 12 + len(E0), 12 + len(E0) + 1))
    yield front(SIX + tlv(4)[:2], TCP6)
    yield "a length with no room for addresses and ports, and one above 4,096"
    yield from (front(FOUR, size=n) for n in (0, 1, 11, 4097, 4352, 65535))
    yield from (front(SIX, TCP6, size=n) for n in (0, 12, 35, 4097))
    yield front(FOUR, TCP6)
    yield "version and command: LOCAL, version 1, another command; family: none, UDP, streams of UNIX, either of no transport"
    yield from (front(FOUR, version=v) for v in (0x20, 0x11, 0x22, 0x31, 0x00, 0xFF))
    yield from (front(FOUR, family=f) for f in (0x00, 0x10, 0x12, 0x20, 0x22, 0x31, 0x32, 0x01, 0xFF))
    yield "the earlier fault goes first"
    yield from (front(FOUR, 0x12, 0x20, 0, SIGNATURE[:-1] + b"\x0d"), front(FOUR, 0x12, 0x20, 0), front(FOUR, 0x12, 0x21, 5000))
    yield "each byte of the signature, a request of HTTP, the text of version 1"
    yield from (front(FOUR, signature=SIGNATURE[:i] + bytes([SIGNATURE[i] ^ 1]) + SIGNATURE[i + 1 :]) for i in range(12))
    yield from (b"GET / HTTP/1.1\r\n", b"PROXY TCP4 10.0.0.9 10.0.0.7 4000 15008\r\n", b"\x0d\x0a\x0d\x0a")
    yield "drawn: TLVs in any order, and a byte changed"
    for _ in range(24):
        yield drawn()


def drawn():
    """A header of random TLVs, one in two of them with a byte changed behind the signature."""
    family, part = CHOICE.choice([(TCP4, FOUR), (TCP6, SIX), (TCP6, MAPPED)])
    kinds = [E0] if CHOICE.random() < 0.6 else []
    for _ in range(CHOICE.randrange(4)):
        kinds.append(tlv(CHOICE.choice([1, 2, 3, 4, 5, 0x20, 0x30, 0xEE]), CHOICE.randbytes(CHOICE.randrange(6))))
    CHOICE.shuffle(kinds)
    data = bytearray(front(part + b"".join(kinds), family))
    if CHOICE.random() < 0.5:
        data[CHOICE.randrange(12, len(data))] ^= 1 << CHOICE.randrange(8)
    return bytes(data)


def long_rows():
    """The parts of a long header, each with how often it stands, and its bytes."""
    for parts in (
        [(front(FOUR, size=4096), 1), (struct.pack("!BH", 4, 4081), 1), (b"\x00", 4081)],
        [(front(FOUR, size=4096), 1), (tlv(4), 1349), (tlv(4, b"\x00" * 34), 1)],
        [(front(FOUR, size=4096), 1), (tlv(4), 1361), (b"\x04", 1)],
        [(front(FOUR, size=4095), 1), (tlv(4), 1361)],
        [(front(SIX, TCP6, size=4096), 1), (E0, 1), (tlv(4, b"\x01\x02\x03"), 670), (b"\x04\x00\x02ab", 1)],
        [(front(SIX, TCP6, size=4096), 1), (tlv(4, b"\x01\x02\x03"), 670), (b"\x04\x00\x02ab", 1), (E0, 1)],
        [(front(FOUR, size=4108), 1), (tlv(0x30, b"\xaa" * 13), 256)],
    ):
        yield parts


def words(data, count=1):
    """Bytes in hexadecimal digits, at most 32 a word; a part that stands several times has a star and how often."""
    if count > 1:
        return [f"{data.hex()}*{count}"]
    return [data[i : i + 32].hex() for i in range(0, len(data), 32)]


def laid_out(line):
    """A row in lines of at most 140 columns."""
    return " \\\n    ".join(textwrap.wrap(line, 130, break_long_words=False, break_on_hyphens=False))


def table(name, comment, rows):
    print(f'\n/// {comment}\npub const {name}: &str = "\\')
    print("\\n\\\n".join(laid_out(row) for row in rows) + '";')


def read_table():
    for row in read_rows():
        yield f"# {row}" if isinstance(row, str) else " ".join(words(row)) + "; " + changes(row)


def long_table():
    for parts in long_rows():
        data = b"".join(part * count for part, count in parts)
        yield " ".join(word for part, count in parts for word in words(part, count)) + "; " + changes(data)


def written(source, source_port, destination, destination_port, text):
    ips = [ipaddress.ip_address(ip) for ip in (source, destination)]
    six = any(ip.version == 6 for ip in ips)
    packed = [b"\x00" * 10 + b"\xff\xff" + ip.packed if six and ip.version == 4 else ip.packed for ip in ips]
    part = b"".join(packed) + struct.pack("!HH", source_port, destination_port)
    part += tlv(0xE0, text.encode()) if text != "-" else b""
    line = f"{source} {source_port} {destination} {destination_port} {text}"
    return f"{line}; " + " ".join(words(front(part, TCP6 if six else TCP4)))


def written_table():
    for text in ("-", PEER.decode(), "spiffe://a/ns/b/sa/c"):
        yield written("10.0.0.9", 4000, "10.0.0.7", 15008, text)
        yield written("2001:db8::9", 65535, "2001:db8::7", 1, text)
        yield written("10.0.0.9", 0, "2001:db8::7", 15008, text)
        yield written("2001:db8::9", 0, "10.0.0.7", 15008, text)
    yield written("10.0.0.9", 0, "10.0.0.7", 15008, "spiffe://" + "t" * 33 + "/ns/" + "n" * 33 + "/sa/" + "s" * 33)


def main():
    print("//! Bytes and headers, printed by bench/tables/front_rows.py: a reader and a writer in Python, from the protocol's text, tell each.")
    table("READ", "Bytes, and the answer to each front of them: from how many bytes on, and which.", list(read_table()))
    table("LONG", "The same of long headers, of which a part stands as often as behind its star.", list(long_table()))
    table("WRITTEN", "Both ends, each an address and a port, an identity, and the bytes of their header.", list(written_table()))


main()
