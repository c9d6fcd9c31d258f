#!/usr/bin/python3
"""Prints tests/replay/modelled.runs: runs of `hbone replay --inbound`, each with its status, its whole output and its error
text.

bench/tables/tunnel_model.py, which knows the pages alone, gives the answers. A row has to end the same by every choice that the pages
leave open. Behind the scripts that are written here stand some by chance, of one seed: those that take the model where no earlier row
took it, each without the events that it can do without.

    python3 bench/tables/modelled_rows.py > tests/replay/modelled.runs
"""
import random
import re
import sys

import model_rows
import replay_rows
import tunnel_model
import tunnel_rows
from run_table import Table
from spelling import ADDRESS, AUTHORIZATION, policy, response, text, workload
from tunnel_rows import FRONT, OPENING, PEER, PREFACE, SET, WAKE, came, data, frame, headers, on, padded, reset, room, single, window
from tunnel_rows import woken

WORDS = [*replay_rows.USUAL_WORDS, "--inbound", "0.0.0.0:15008"]
ACCEPT = tunnel_rows.ACCEPT + "\n"
BASE = "".join(line + "\n" for line in replay_rows.BASE)
TICK = '{"tick":true}\n'
PING = frame(6, 0, 0, b"12345678")
GOAWAY = frame(7, 0, 0, bytes(8))


# What peers write


def literal(name, value, front=0, huffman=False):
    """A header as a literal of a new name, by the octet in front: 0 not indexed, 0x10 never indexed, 0x40 put into the table."""
    return bytes([front]) + string(name, huffman) + string(value, huffman)


CODE = {symbol: (length, code) for (length, code), symbol in tunnel_model.model.HUFFMAN.items()}


def string(octets, huffman):
    if huffman:
        bits = "".join(format(code, f"0{length}b") for length, code in map(CODE.get, octets))
        bits += "1" * (-len(bits) % 8)
        octets = bytes(int(bits[at:at + 8], 2) for at in range(0, len(bits), 8))
    flag, size = (0x80 if huffman else 0), len(octets)
    rest = b"" if size < 127 else bytes([size - 127]) if size < 255 else bytes([(size - 127) & 127 | 128, (size - 127) >> 7])
    return bytes([flag | min(size, 127)]) + rest + octets


TO = b"10.0.0.7:8080"
METHOD, AUTHORITY = (b":method", b"CONNECT"), (b":authority", TO)


def block(*fields, **how):
    return b"".join(literal(*field, **how) for field in fields)


def ask(stream=1, to=TO, end=False):
    """A request in HTTP's shortest form: both names are in the static table."""
    return headers(stream, b"\x02\x07CONNECT\x01" + string(to, False), end)


def front(identity=b"spiffe://" + PEER, source="0a000009", destination="0a000007", family=0x11, more=b""):
    ends = bytes.fromhex(source + destination + "0fa03aa0")
    tlv = b"" if identity is None else b"\xe0" + len(identity).to_bytes(2, "big") + identity
    return FRONT[:12] + bytes([0x21, family]) + len(ends + more + tlv).to_bytes(2, "big") + ends + more + tlv


def settings(*pairs):
    return frame(4, 0, 0, b"".join(number.to_bytes(2, "big") + value.to_bytes(4, "big") for number, value in pairs))


# What the control plane writes: responses in DATA frames of stream 1


def told(url, *resources, removed=(), nonce="x9"):
    return data(1, response(url, resources, *(text(6, name) for name in removed), text(5, nonce)))


def policies(*resources, **more):
    return told(AUTHORIZATION, *resources, **more)


def workloads(*resources, **more):
    return told(ADDRESS, *resources, **more)


DENY = policies(("a/d", policy("a", "d", "GLOBAL", "DENY", [[]])))
ALLOW = policies(removed=["a/d"])
GONE = workloads(removed=["u1"])
BACK = workloads(("u1", workload("web", "a", [[10, 0, 0, 7]], "n1", ["a/p"])))
WELCOME = SET + headers(1, b"\x88")

# Scripts


def opened(*octets, link=2, header=FRONT):
    """A connection is accepted, and its header, preface and SETTINGS come, with more behind them."""
    return ACCEPT + woken(link, header + PREFACE + SET + b"".join(octets))


PENDING = BASE + opened(ask())
LIVE = PENDING + on("open", 3)
TWO = BASE + opened(ask() + ask(3, b"10.0.0.7:9090")) + on("open", 3) + on("open", 4)
PHASES = [("no stream", BASE + opened()), ("a request that waits", PENDING), ("a tunnel", LIVE)]
ROWS = []
# The rows that tell the trace too, if the pages say its order; and some that do so beside them, so that what is sent is compared whole.
TOLD = set()
TOLD_TOO = {
    "404: no workload", "401: denied", "401 and the peer's end", "503 and the peer's end", "400 and the peer's end",
    "400: the authority is another address", "405: GET", "malformed: a pseudo-header twice", "malformed, and others go on",
    "one place and two requests in one read", "row 22: the stream's window, of a tunnel", "the upstream refuses behind the peer's end",
    "the peer's end with its request, and the upstream's", "404 and the peer's end",
    "one place, and a request that finds none ends its side", "a dial fails behind the peer's end"}


def row(name, script, *words):
    ROWS.append((name, script, list(words)))


def fronts():
    for name, octets in [
            ("the second octet of the signature", FRONT[:1] + b"\x0e"), ("another version", FRONT[:12] + b"\x20"),
            ("another family", FRONT[:13] + b"\x12"), ("too long", FRONT[:14] + b"\x10\x01"),
            ("no room for addresses", FRONT[:14] + b"\x00\x0b"), ("no room for IPv6 addresses", FRONT[:13] + b"\x21\x00\x23"),
            ("a value that passes its end", front(more=b"\x01\x00\x09", identity=None)),
            ("a value without its length", front(more=b"\x01\x00", identity=None)),
            ("two identities", front(more=b"\xe0\x00\x20spiffe://" + PEER)), ("no text of an identity", front(b"spiffe://a/ns/b")),
            ("an empty identity", front(b"")), ("an identity of other letters", front(b"spiffe://a/ns/b/sa/c d"))]:
        row(f"front: {name}", ACCEPT + woken(2, octets))
    row("front: nothing comes before the end", ACCEPT + on("end", 2))
    row("front: it breaks", ACCEPT + woken(2, FRONT[:30]) + on("break", 2))
    row("front: whole, and nothing behind it", ACCEPT + woken(2, FRONT))
    row("front: whole, and the end behind it", ACCEPT + came(2, FRONT) + on("end", 2))
    row("front: octet by octet", BASE + ACCEPT + woken(2, *single(FRONT + PREFACE + SET + ask())))
    row("front: other values, and no identity", BASE + opened(ask(), header=front(None, more=b"\x01\x00\x02ab\x04\x00\x00")))
    row("front: no identity, where policies let it in", BASE + woken(1, policies(removed=["a/p"]))
        + opened(ask(), header=front(None)) + on("open", 3))
    mapped = "00000000000000000000ffff"
    row("front: IPv4 addresses mapped into IPv6", BASE
        + opened(ask(), header=front(source=mapped + "0a000009", destination=mapped + "0a000007", family=0x21)) + on("open", 3))
    nine, seven = "20010db8" + "0" * 23 + "9", "20010db8" + "0" * 23 + "7"
    known = BASE + woken(1, workloads(("u2", workload("six", "a", [bytes.fromhex(seven)], "n1", []))))
    row("front: IPv6 addresses", known + opened(ask(1, b"[2001:db8:0::7]:8080"), header=front(None, nine, seven, 0x21)) + on("open", 3))


def verdicts():
    for name, to in [
            ("no target", b"web:8080"), ("no port", b"10.0.0.7"), ("port 0", b"10.0.0.7:0"), ("a port above the largest",
                b"10.0.0.7:65536"),
            ("no octet", b""), ("another address", b"10.0.0.9:8080"), ("an IPv6 address", b"[2001:db8::7]:8080"),
            ("IPv4 in brackets", b"[10.0.0.7]:8080"), ("a leading zero", b"10.0.0.07:8080")]:
        row(f"400: the authority is {name}", BASE + opened(ask(1, to)))
    row("200: an authority that is mapped into IPv6", BASE + opened(ask(1, b"[::ffff:10.0.0.7]:8080")) + on("open", 3))
    row("200: a port with leading zeros", BASE + opened(ask(1, b"10.0.0.7:00080")) + on("open", 3))
    row("400 and the peer's end", BASE + opened(ask(1, b"web:8080", True)))
    base = on("open", 1) + woken(1, WELCOME)
    row("503: workloads alone came", base + woken(1, BACK) + opened(ask()))
    row("503: policies alone came", base + woken(1, DENY) + opened(ask()))
    row("200: no policy counts", base + woken(1, BACK, policies()) + opened(ask()) + on("open", 3))
    row("503 and the peer's end", opened(ask(1, TO, True)))
    row("404: no workload", base + woken(1, workloads(), policies()) + opened(ask()))
    row("404: a workload of another node", base + woken(1, workloads(("u1", workload("w", "a", [[10, 0, 0, 7]], "n2", []))), policies())
        + opened(ask()))
    row("404: the smallest name is another node's", base + woken(1, workloads(
        ("u1", workload("w", "a", [[10, 0, 0, 7]], "n1", [])), ("u0", workload("w", "a", [[10, 0, 0, 7]], "n2", []))), policies())
        + opened(ask()))
    row("404: a workload of another network", base + woken(1, BACK, policies()) + opened(ask()), "--network", "x")
    row("200: a workload of the network", base + woken(1, workloads(
        ("u1", workload("w", "a", [[10, 0, 0, 7]], "n1", [], text(4, "x")))), policies()) + opened(ask()), "--network", "x")
    row("401: denied", BASE + woken(1, DENY) + opened(ask()))
    row("401: nothing allows it", BASE + opened(ask(), header=front(b"spiffe://cluster.local/ns/a/sa/d")))
    row("401 and the peer's end", BASE + woken(1, DENY) + opened(ask(1, TO, True)))
    for name, fields in [
            ("GET", [(b":method", b"GET"), (b":scheme", b"http"), (b":path", b"/"), AUTHORITY]), ("no CONNECT but alike", [
                (b":method", b"connect"), AUTHORITY]), ("a method without octets", [(b":method", b"")])]:
        row(f"405: {name}", BASE + opened(headers(1, block(*fields))))
    for name, fields in [
            ("a header without a name", [METHOD, AUTHORITY, (b"", b"x")]), ("a letter of upper case", [METHOD, AUTHORITY, (b"x-Y", b"")]),
            ("a pseudo-header twice", [METHOD, AUTHORITY, AUTHORITY]), ("one behind others", [METHOD, (b"te", b""), AUTHORITY]),
            ("one of answers", [METHOD, AUTHORITY, (b":status", b"200")]), ("no method", [AUTHORITY]),
            ("no authority", [METHOD]), ("a scheme", [METHOD, AUTHORITY, (b":scheme", b"http")]),
            ("a path", [METHOD, AUTHORITY, (b":path", b"/")]), ("nothing", [])]:
        row(f"malformed: {name}", BASE + opened(headers(1, block(*fields))))
    row("malformed, and the peer's end", BASE + opened(headers(1, block(METHOD), True)))
    row("malformed, and others go on", BASE + opened(headers(1, block(METHOD)) + ask(3)) + on("open", 3))
    row("more headers behind a CONNECT's", BASE + opened(headers(1, block(METHOD, AUTHORITY, (b"te", b"x"), (b"x-1", b"")))))
    row("431: a header list of one octet too many", BASE
        + opened(headers(1, block(METHOD, AUTHORITY, (b"x", b"y" * 15000), (b"x", b"y" * (16384 - 46 - 55 - 15033 - 33 + 1))))))
    row("a header list of the most octets", BASE
        + opened(headers(1, block(METHOD, AUTHORITY, (b"x", b"y" * 15000), (b"x", b"y" * (16384 - 46 - 55 - 15033 - 33))))))
    row("431, though it is malformed", BASE + opened(
        headers(1, block((b"X", b"y" * 8000), (b"x", b"y" * 8400), METHOD), True)))


def blocks():
    row("a request in Huffman code", BASE + opened(headers(1, block(METHOD, AUTHORITY, huffman=True))) + on("open", 3))
    row("a request never to be indexed", BASE + opened(headers(1, block(METHOD, AUTHORITY, front=0x10))))
    table = block(METHOD, AUTHORITY, front=0x40)
    row("requests by the table", BASE + opened(headers(1, table) + headers(3, b"\xbf\xbe") + headers(5, b"\xbe\xbf")) + on("open", 4))
    row("the table is emptied", BASE + opened(headers(1, table), headers(3, b"\x20\x3f\xe1\x1f" + table), headers(5, b"\xbf\xbe")))
    row("an index of the table that was emptied", BASE + opened(headers(1, table), headers(3, b"\x20\xbf\xbe")))
    row("a refused request puts into the table", BASE + opened(
        headers(1, block((b":method", b"GET"), METHOD, AUTHORITY, front=0x40)), headers(3, b"\xbf\xbe")))
    row("a request on a stream that was reset puts into the table", BASE + opened(
        ask(1, b"web:1"), headers(1, table), headers(3, b"\xbf\xbe")))
    request = block(METHOD, AUTHORITY)
    row("a request in three frames", BASE + opened(
        frame(1, 0, 1, request[:5]) + frame(9, 0, 1, request[5:6]) + frame(9, 4, 1, request[6:])) + on("open", 3))
    row("a request in frames that have no octets", BASE + opened(frame(1, 1, 1), frame(9, 0, 1), frame(9, 4, 1, request)))
    row("a request with padding and priority", BASE + opened(frame(1, 0x2c, 1, b"\x03" + bytes(5) + request + bytes(3))))
    row("a header block of the most octets", BASE + opened(
        frame(1, 0, 1, request + literal(b"x", bytes(14000))), frame(9, 0, 1, literal(b"x", bytes(16000))), frame(9, 4, 1)))
    for name, octets in [("an index of 0", b"\x80"), ("an index above the table", b"\xbe"), ("a text that is cut", b"\x02\x07CONN"),
                         ("a size above the largest", b"\x3f\xe2\x1f"), ("a size behind a header", b"\x82\x20"),
                         ("a long integer", b"\xff\xff\xff\xff\xff\xff\x01"), ("Huffman code with its end", b"\x02\x84\xff\xff\xff\xff")]:
        row(f"a header block with {name}", BASE + opened(headers(1, octets)))


def connection_faults():
    request = block(METHOD, AUTHORITY)
    for name, octets in [
            ("row 2: a long frame", b"\x00\x40\x01" + bytes(6)), ("row 4: CONTINUATION alone", frame(9, 4, 1)),
            ("row 4: PING in a block", frame(1, 0, 9, request) + PING), ("row 4: another stream's", frame(1, 0, 9) + frame(9, 4, 11)),
            ("row 5: DATA of stream 0", data(0)), ("row 5: HEADERS of stream 0", headers(0, request)), ("row 5: RST_STREAM", reset(0, 8)),
            ("row 6: SETTINGS of a stream", frame(4, 0, 1)), ("row 6: PING of a stream", frame(6, 0, 1, bytes(8))),
            ("row 7: PUSH_PROMISE", frame(5, 4, 1, bytes(4))), ("row 8: no length of padding", frame(0, 8, 1)),
            ("row 9: padding and no room for it", frame(0, 8, 1, b"\x02a")), ("row 10: PRIORITY", frame(2, 0, 1, bytes(4))),
            ("row 10: SETTINGS", frame(4, 0, 0, bytes(5))), ("row 10: an acknowledgement", frame(4, 1, 0, bytes(6))),
            ("row 10: PING", frame(6, 0, 0, bytes(7))), ("row 10: WINDOW_UPDATE", frame(8, 0, 0, bytes(3))),
            ("row 11: setting 2 of 2", settings((2, 2))), ("row 11: setting 5 too low", settings((5, 16383))),
            ("row 12: setting 4 too high", settings((4, 2**31))), ("row 13: an increment of 0", window(0, 0)),
            ("row 14: a long block", frame(1, 0, 9, bytes(16384)) + frame(9, 0, 9, bytes(16384)) + frame(9, 0, 9, b"\0")),
            ("row 16: an even stream", ask(2)), ("row 17: DATA before its request", data(9)), ("row 17: RST_STREAM", reset(9, 8)),
            ("row 17: WINDOW_UPDATE", window(4, 1)), ("row 22: the connection's window", window(0, 2**31 - 1))]:
        phase = len(ROWS) % 3
        row(f"{name}, with {PHASES[phase][0]}", PHASES[phase][1] + woken(2, octets))
    row("row 3: PING first", ACCEPT + woken(2, FRONT + PREFACE + PING))
    row("row 3: an acknowledgement first", ACCEPT + woken(2, FRONT + PREFACE + frame(4, 1, 0)))
    row("row 2 before row 3", ACCEPT + woken(2, FRONT + PREFACE + b"\xff\xff\xff\x06" + bytes(5)))
    row("row 12: a stream's window by setting 4", LIVE + woken(2, window(1, 1) + settings((4, 2**31 - 1))))
    row("windows of the most octets", LIVE + woken(2, window(1, 2**31 - 65536) + window(0, 2**31 - 65536) + settings((4, 65535))))
    row("row 19: DATA on a stream that was passed over", BASE + opened(ask(5), data(3)))
    row("row 19: DATA on a stream that the peer reset", LIVE + woken(2, reset(1, 8) + data(1, b"a")))
    row("row 19: HEADERS on a stream that is done", PENDING + on("open", 3) + woken(2, data(1, b"", True)) + on("end", 3) + woken(2, ask()))
    row("row 19: a reset that is too long ago", BASE + opened(*[ask(n, b"", n == 1) for n in range(1, 4, 2)])
        + woken(2, b"".join(ask(n, b"x") for n in range(5, 5 + 2 * 128, 2)), data(5), data(3)))
    row("frames behind a connection error", LIVE + woken(2, data(0) + data(1, b"lost") + reset(1, 8)))
    row("a connection error with DATA that waits", LIVE + room(2, 0) + woken(3, b"abc") + woken(2, data(0)))
    row("a connection error with DATA that has begun", LIVE + room(2, 4) + woken(3, b"abc") + room(2, 100) + woken(2, data(0)))
    row("a connection error, and room for a part of its GOAWAY", LIVE + room(2, 5) + woken(2, data(0)))
    row("settings up to the one that is refused", LIVE + woken(2, settings((4, 0), (3, 1), (9, 9), (4, 2**31))))


def stream_faults():
    for name, octets in [
            ("row 20: DATA behind the peer's end", data(1, b"", True) + data(1, b"a")),
            ("row 20: HEADERS behind the peer's end", data(1, b"", True) + ask()), ("row 21: an increment of 0", window(1, 0)),
            ("row 22: the stream's window", window(1, 2**31 - 1)), ("row 25: HEADERS again", ask()),
            ("row 25: trailers", headers(1, b"", True))]:
        for phase, script in PHASES[1:]:
            row(f"{name}, of {phase}", script + woken(2, octets))
    row("row 20: in one read with its request", BASE + opened(ask(1, TO, True) + data(1, b"a")))
    row("an increment of 0 on a stream that is closed", BASE + opened(ask(1, b"")) + woken(2, window(1, 0)))
    row("frames on a stream that this end reset", BASE + opened(ask(1, b"")) + woken(2, data(1, b"a") + ask() + reset(1, 8) + window(1, 9)))
    row("a stream error, and then the rest", TWO + woken(2, window(1, 0) + data(1, b"lost") + data(3, b"kept")) + woken(4, b"b"))


def ends():
    dialled = [("before the upstream is open", PENDING), ("in a tunnel", LIVE),
               ("behind bytes each way", LIVE + woken(2, data(1, b"up")) + woken(3, b"down")),
               ("behind the peer's end", LIVE + woken(2, data(1, b"up", True))), ("behind the upstream's end", LIVE + came(3, b"d")
                   + on("end", 3)),
               ("behind the peer's end, before the upstream is open", PENDING + woken(2, data(1, b"up", True))),
               ("with bytes that wait for the upstream", LIVE + room(3, 1) + woken(2, data(1, b"abc"))),
               ("with bytes that wait for the link", LIVE + room(2, 0) + woken(3, b"abc")),
               ("inside a frame to the link", LIVE + room(2, 10) + woken(3, b"abc")),
               ("behind the upstream's end, and the last frame waits", LIVE + room(2, 0) + on("end", 3)),
               ("behind the upstream's end, inside the last frame", LIVE + room(2, 4) + on("end", 3)),
               ("with both ends, and the last frame waits", LIVE + woken(2, data(1, b"", True)) + room(2, 0) + on("end", 3)),
               ("with both ends, inside the last frame", LIVE + woken(2, data(1, b"", True)) + room(2, 4) + on("end", 3)),
               ("with both ends, and bytes that wait for the upstream", LIVE + room(3, 0) + woken(2, data(1, b"a", True)) + on("end", 3))]
    for name, script in dialled:
        waits = "wait" in name or "inside" in name
        more = room(2, 1000) + room(3, 1000) + WAKE + "\n" if waits else ""
        row(f"the upstream breaks {name}", script + on("break", 3) + more)
        row(f"the peer resets {name}", script + woken(2, reset(1, 8)) + more)
        row(f"revoked {name}", script + woken(1, DENY) + more)
        if waits or "before" in name:
            row(f"it goes on {name}", script + on("open", 3) + more)
        row(f"the link ends {name}", script + on("end", 2))
    row("the link breaks before the upstream is open", PENDING + on("break", 2))
    row("the run ends before the upstream is open", PENDING + '{"fault":"wait"}\n')
    row("the run ends in a tunnel", LIVE + '{"fault":"wait"}\n')
    row("a stop in a tunnel", LIVE + '{"stop":true}\n' + woken(2, data(1, b"lost")))
    row("the upstream refuses behind the peer's end", PENDING + woken(2, data(1, b"up", True)) + on("refuse", 3))
    row("the upstream refuses, and the peer asks again", PENDING + on("refuse", 3) + woken(2, ask(3)) + on("open", 4))
    row("dials fail, and then none does", BASE + '{"nodial":2}\n' + opened(ask() + ask(3) + ask(5)) + on("open", 3))
    row("the peer resets in one read with its request", BASE + opened(ask() + reset(1, 8)))
    row("the peer resets with another code", LIVE + woken(2, reset(1, 2**32 - 1)))
    row("the upstream ends before it is open", BASE + '{"end":3}\n' + opened(ask()) + on("open", 3) + woken(2, data(1, b"a", True)))
    row("the upstream breaks before it is open", BASE + '{"break":3}\n' + opened(ask()) + on("open", 3))
    row("the link ends with streams that are refused", BASE + opened(ask(1, b"")) + on("end", 2))
    row("the link ends with the last stream done", LIVE + woken(2, data(1, b"", True)) + on("end", 3) + on("end", 2))
    row("the link ends with one of two tunnels", TWO + woken(2, reset(1, 8)) + on("end", 2))
    row("the link breaks behind bytes", TWO + woken(2, data(1, b"a") + data(3, b"b")) + on("break", 2))
    row("both ends in one wait", LIVE + came(2, data(1, b"up", True)) + came(3, b"down") + on("end", 3))
    row("the peer's end with its request, and the upstream's", BASE + opened(ask(1, TO, True)) + on("open", 3) + came(3, b"ok")
        + on("end", 3))
    row("the peer's end octet by octet", LIVE + woken(2, *single(data(1, b"", True))) + on("end", 3))
    row("bytes from the upstream behind the peer's end", LIVE + woken(2, data(1, b"", True)) + woken(3, b"a", b"b") + on("end", 3)
        + on("end", 2))
    row("bytes to the upstream behind its end", LIVE + on("end", 3) + woken(2, data(1, b"a"), data(1, b"b", True)) + on("end", 2))
    row("GOAWAY and PING of the peer", LIVE + woken(2, GOAWAY + PING) + woken(2, ask(3)))


def windows():
    row("bytes up, and what they took is granted again", LIVE + woken(2, data(1, bytes(16384)))
        + woken(2, data(1, bytes(16383)), data(1, b"a")))
    row("as many bytes up as are granted, before the upstream is open", PENDING
        + woken(2, *[data(1, bytes(16384))] * 3, data(1, bytes(16383)))
        + on("open", 3))
    row("a byte more than the stream's window, before the upstream is open", PENDING
        + woken(2, *[data(1, bytes(16384))] * 3, data(1, bytes(16383)), data(1, b"a")))
    row("padding is granted again", LIVE + woken(2, padded(1, b"", 255) * 127, padded(1, b"", 255)))
    row("padding and bytes", LIVE + woken(2, padded(1, b"abc", 9), padded(1, b"", 0), padded(1, b"d", 255)))
    row("padding beside the end", LIVE + woken(2, frame(0, 9, 1, b"\x05abc" + bytes(5))) + on("end", 3))
    row("bytes of a stream that was reset are granted on the connection", BASE + opened(ask(1, b""))
        + woken(2, data(1, bytes(16384)), data(1, bytes(16384))))
    row("bytes wait for the upstream, then go", LIVE + room(3, 0) + woken(2, data(1, bytes(9000))) + room(3, 8999) + WAKE + "\n"
        + room(3, 9) + WAKE + "\n")
    row("no more is granted behind the peer's end", LIVE + room(3, 0) + woken(2, data(1, bytes(16384)) * 2 + data(1, b"", True))
        + room(3, 40000) + WAKE + "\n")
    small = BASE + ACCEPT + woken(2, FRONT + PREFACE + settings((4, 3)) + ask()) + on("open", 3)
    row("a small window down", small + woken(3, b"abcdefgh") + woken(2, window(1, 2), window(1, 9)))
    row("a window of 0", BASE + ACCEPT + woken(2, FRONT + PREFACE + settings((4, 0)) + ask()) + on("open", 3) + woken(3, b"ab")
        + on("end", 3) + woken(2, window(1, 1), window(1, 1)))
    row("the upstream's end and a window of 0", BASE + ACCEPT + woken(2, FRONT + PREFACE + settings((4, 0)) + ask()) + on("open", 3)
        + on("end", 3))
    row("a window below 0", small + woken(3, b"abc") + woken(2, settings((4, 0))) + woken(3, b"d") + woken(2, window(1, 3), window(1, 1)))
    row("the upstream's end and a window below 0", small + woken(3, b"abc") + woken(2, settings((4, 0))) + on("end", 3))
    row("a window that grows by another first size", small + woken(3, b"abcdef") + woken(2, settings((4, 4)), settings((4, 9))))
    row("revoked with bytes behind a small window", small + woken(3, b"abcdef") + woken(1, DENY))
    row("two tunnels and a small window each", BASE + ACCEPT + woken(2, FRONT + PREFACE + settings((4, 2)) + ask() + ask(3))
        + on("open", 3) + on("open", 4) + woken(3, b"abc") + woken(4, b"def") + woken(2, window(3, 1), window(1, 1)))
    row("the window of the connection is used up", TWO + woken(2, window(1, 65535)) + woken(3, *[bytes(4096)] * 15, bytes(4095))
        + woken(4, b"ab")
        + woken(2, window(0, 1), window(0, 1)))
    row("a DATA frame of one tunnel waits, and another's bytes", TWO + room(2, 0) + woken(3, b"ab") + woken(4, b"cd") + room(2, 1000)
        + WAKE + "\n")
    row("a DATA frame that hasn't begun is taken back, and another's goes", TWO + room(2, 0) + woken(3, b"ab") + woken(4, b"cd")
        + woken(2, reset(1, 8)) + room(2, 1000) + WAKE + "\n")
    row("bytes taken back are no part of the window", small + room(2, 0) + woken(3, b"abc") + woken(2, window(1, 2**31 - 4)))
    row("bytes that have begun are", small + room(2, 1) + woken(3, b"abc") + woken(2, window(1, 2**31 - 4)) + room(2, 100) + WAKE + "\n")
    row("a full way down, and then room", LIVE + room(2, 0) + woken(3, *[bytes(4096)] * 9) + room(2, 100000) + WAKE + "\n")
    row("the link takes an octet at a time", LIVE + room(2, 0) + woken(3, b"ab") + (room(2, 1) + WAKE + "\n") * 12)
    row("the upstream takes an octet at a time", LIVE + room(3, 0) + woken(2, data(1, b"abc", True)) + (room(3, 1) + WAKE + "\n") * 3
        + on("end", 3))


def floods():
    row("a flood of PING", LIVE + woken(2, PING * 40))
    row("a flood of PING, and no room", LIVE + room(2, 100) + woken(2, PING * 300) + room(2, 9000) + WAKE + "\n")
    row("a flood of SETTINGS", LIVE + woken(2, settings((4, 1), (4, 70000)) * 40))
    row("a flood of DATA without octets", LIVE + woken(2, data(1) * 100, data(1, b"a")))
    row("a flood of small DATA", LIVE + woken(2, data(1, b"a") * 100))
    row("a flood of requests that are reset", BASE + opened() + woken(2, b"".join(ask(n) + reset(n, 8) for n in range(1, 81, 2)))
        + woken(2, ask(81)))
    row("a flood of requests that are refused", BASE + opened() + woken(2, b"".join(ask(n, b"x") for n in range(1, 41, 2))))
    row("a flood of PRIORITY and frames without a meaning", LIVE + woken(2, frame(2, 0, 9, bytes(5)) * 20 + frame(11, 255, 7, b"ab") * 20))
    row("a flood of increments", LIVE + woken(2, (window(0, 1) + window(1, 1)) * 40) + woken(3, b"a"))
    row("a flood of CONTINUATION", BASE + opened(frame(1, 0, 1, block(METHOD, AUTHORITY)) + frame(9, 0, 1) * 100 + frame(9, 4, 1)))


def places():
    """An update, or an end, between two octets that come or go."""
    peer = FRONT + PREFACE + SET + ask() + data(1, b"hello") + data(1, b"", True)
    for at in (1, 63, 64, 86, 87, 96, 97, 128, 129, 130, 138, 141, 143, 151, 152):
        row(f"an update behind octet {at} of the peer's", BASE + ACCEPT + '{"open":3}\n' + woken(2, peer[:at]) + woken(1, DENY)
            + came(2, *[peer[at:]][:len(peer) - at]) + WAKE + "\n")
    for at in (0, 20, 21, 29, 30, 31, 41, 42, 50, 52, 53):
        begun = BASE + room(2, at) + opened(ask()) + on("open", 3) + woken(3, b"abc")
        rest = room(2, 1000) + WAKE + "\n"
        ended = begun + on("end", 3) + woken(2, data(1, b"", True))
        row(f"an update when {at} octets went", begun + woken(1, DENY) + rest)
        row(f"a reset when {at} octets went", begun + woken(2, reset(1, 8)) + rest)
        row(f"the upstream breaks behind both ends when {at} octets went", ended + on("break", 3) + rest)
        row(f"a connection error behind both ends when {at} octets went", ended + woken(2, data(0)) + rest)
    for at in (0, 1, 5, 6):
        row(f"the upstream breaks when {at} octets went", BASE + room(3, at) + opened(ask() + data(1, b"abcdef")) + on("open", 3)
            + on("break", 3) + woken(2, PING))
    for most in (1, 3):
        life = BASE + room(2, most) + room(3, most) + opened(ask()) + on("open", 3) + woken(2, data(1, b"hello")) + woken(3, b"world")
        row(f"both links take {most} octets at a time", life + woken(2, data(1, b"!", True)) + on("end", 3)
            + (room(2, most) + room(3, most) + WAKE + "\n") * (66 // most) + on("end", 2))


def cut_runs():
    """Four long runs, of which what comes on the first two links is cut by chance."""
    life = LIVE + woken(2, data(1, b"hello")) + woken(3, b"world") + woken(2, data(1, b"", True)) + on("end", 3) + on("end", 2)
    revoked = (BASE + opened(ask() + ask(3, b"10.0.0.7:9090")) + on("open", 3) + on("open", 4) + room(2, 59) + woken(3, bytes(100))
               + woken(1, tunnel_rows.UPDATE) + room(2, 1000) + WAKE + "\n" + woken(4, b"!"))
    streams = (TWO + woken(2, data(1, b"one") + data(3, b"three")) + woken(3, b"1") + woken(4, b"333")
               + woken(2, padded(1, b"more", 3) + data(3, b"", True)) + on("end", 4) + on("end", 3) + woken(2, data(1, b"", True))
                   + on("end", 2))
    resets = (LIVE + woken(2, data(1, b"ab")) + woken(3, b"xyz") + woken(2, data(1, b"cd"), reset(1, 8)) + woken(2, ask(3)) + on("open", 4)
              + woken(4, b"!"))
    return [("the whole life of a tunnel", life, []), ("a revocation", revoked, []), ("two streams", streams, []), ("a reset", resets, [])]


def updates():
    row("an update that admits it still", LIVE + woken(1, BACK) + woken(3, b"a"))
    row("an update that denies it, and one that doesn't any more", LIVE + woken(1, DENY, ALLOW) + woken(2, ask(3)) + on("open", 4))
    row("an update that takes the workload away", LIVE + woken(1, GONE))
    row("an update that gives the workload to another node", LIVE
        + woken(1, workloads(("u1", workload("w", "a", [[10, 0, 0, 7]], "n2", [])))))
    row("an update with a smaller name at the address", LIVE + woken(1, workloads(("t", workload("w", "a", [[10, 0, 0, 7]], "n2", [])))))
    row("an update that takes away what allows it", LIVE + woken(1, policies(removed=["a/p"])) + woken(3, b"a"))
    row("two updates in one piece", LIVE + woken(1, DENY + ALLOW) + woken(2, ask(3)), "--brief")
    row("an update octet by octet, and a byte between two", LIVE + woken(1, *single(GONE)[:30]) + woken(3, b"a")
        + woken(1, *single(GONE)[30:])
        + woken(3, b"b"))
    row("an update inside a frame that comes", LIVE + woken(2, data(1, b"abc")[:10]) + woken(1, DENY) + woken(2, data(1, b"abc")[10:]))
    row("an update inside the header of the front", BASE + ACCEPT + woken(2, FRONT[:20]) + woken(1, DENY) + woken(2, FRONT[20:]
        + PREFACE + SET + ask()))
    row("an update inside a header block", BASE + opened(frame(1, 0, 1, b"\x02\x07CONN")) + woken(1, DENY)
        + woken(2, frame(9, 4, 1, b"ECT\x01\x0d" + TO)))
    row("a policy of one port", TWO + woken(1, policies(("a/q", policy("a", "q", "NAMESPACE", "DENY", []) + bytes.fromhex(
        "2a08 1206 1204 4a02 8247")))) + woken(3, b"a") + woken(4, b"b"))
    other = front(b"spiffe://cluster.local/ns/b/sa/d", source="0a010203")
    both = BASE + woken(1, policies(removed=["a/p"])) + opened(ask()) + on("open", 3) + opened(ask(), link=4, header=other) + on("open", 5)
    deny_b = policies(("a/d", policy("a", "d", "GLOBAL", "DENY", [[[([b"\x12\x13cluster.local/ns/b/"], [])]]])))
    row("two links, and an update revokes one's tunnel", both + woken(1, deny_b) + woken(3, b"a") + woken(4, data(1, b"b")))
    row("two links, and an update revokes both tunnels", both + woken(1, DENY))
    row("two links, and an update revokes one that waits and one that doesn't",
        both + woken(4, ask(3)) + woken(1, deny_b))


def planes():
    row("the control plane breaks, and a request comes", BASE + on("break", 1) + opened(ask()) + on("open", 3))
    row("the control plane comes back", LIVE + on("end", 1) + TICK + on("open", 4) + woken(4, WELCOME + DENY))
    row("the control plane comes back with other resources", LIVE + on("break", 1) + TICK + on("open", 4) + woken(4, WELCOME, GONE, BACK)
        + woken(2, ask(3)) + on("open", 5))
    row("the control plane's dials fail while a tunnel goes on", LIVE + on("break", 1) + '{"nodial":1}\n' + TICK + woken(2, data(1, b"a"))
        + TICK + on("open", 4) + woken(4, WELCOME + DENY))
    row("the control plane refuses, and nothing was told", on("refuse", 1) + opened(ask()) + TICK)
    row("the control plane breaks HTTP/2", LIVE + woken(1, data(0)) + woken(3, b"a"))
    row("the control plane ends its stream", LIVE + woken(1, data(1, b"", True)) + woken(3, b"a") + TICK)
    row("a response that can't be read", LIVE + woken(1, data(1, b"\0\0\0\0\1\xff")) + woken(3, b"a"))
    row("a resource that can't be read leaves what was held", LIVE + woken(1, workloads(("u1", b"\x0a\x03\x1a\x01\x00"))) + woken(3, b"a"))
    row("a tick, and nothing to do", LIVE + TICK + woken(3, b"a"))


def several():
    row("the place of a tunnel that ended is free", LIVE + woken(2, reset(1, 8) + ask(3)), "--tunnels", "1")
    row("the place of a tunnel whose upstream failed is free", PENDING + on("refuse", 3) + woken(2, ask(3)), "--tunnels", "1")
    row("one place and two requests in one read", BASE + opened(ask() + ask(3)), "--tunnels", "1")
    row("one place and two links", PENDING + opened(ask(), link=4), "--tunnels", "1")
    row("one place, which an update frees", LIVE + woken(1, DENY, ALLOW) + woken(2, ask(3)), "--tunnels", "1")
    row("one place, which a done tunnel frees", LIVE + woken(2, data(1, b"", True)) + on("end", 3) + woken(2, ask(3)), "--tunnels", "1")
    row("one place, and a link that ends frees it", LIVE + opened(link=4) + on("end", 2) + woken(4, ask()), "--tunnels", "1")
    row("the table is full, and a policy denies", LIVE + woken(2, ask(3, b"10.0.0.7:9090")) + woken(1, DENY)
        + woken(2, ask(5)), "--tunnels", "1")
    row("two links, one of which breaks HTTP/2", LIVE + opened(ask(), link=4) + on("open", 5) + woken(2, data(0)) + woken(5, b"a"))
    row("two tunnels, each with its end", TWO + woken(2, data(1, b"a", True) + data(3, b"b")) + on("end", 4) + on("end", 3)
        + woken(2, data(3, b"c", True)))
    row("three tunnels with bytes in one wait", TWO + woken(2, ask(5)) + on("open", 5) + came(3, b"a") + came(4, b"b") + woken(5, b"c"))
    row("tunnels on two links in one wait", LIVE + opened(ask(), link=4) + on("open", 5) + came(2, data(1, b"a")) + came(4, data(1, b"b"))
        + came(3, b"c") + woken(5, b"d"))
    row("links that come one by one in one wait", ACCEPT * 3 + came(2, FRONT) + came(3, FRONT + PREFACE) + came(4, b"x") + WAKE + "\n")
    row("a link that ends, and another comes", BASE + opened() + on("end", 2) + opened(ask(), link=3) + on("open", 4))


def written():
    for rows in (fronts, verdicts, blocks, connection_faults, stream_faults, floods, planes, several, places):
        rows()
    before = len(ROWS)
    for rows in (ends, windows, updates):
        rows()
    TOLD.update(name for name, _, _ in ROWS[before::3])


# Scripts by chance

MOST_BY_CHANCE = 60


class Chance:
    """Makes a script event by event; the model tells which links there are."""

    def __init__(self, seed):
        self.random, self.events, self.streams = random.Random(seed), [BASE], {}

    def state(self):
        world = tunnel_model.World(tunnel_model.model.read_script("".join(self.events).encode()))
        world.whys = {}
        run = tunnel_model.Run(tunnel_model.model.read_words(WORDS), world, tunnel_model.USUAL)
        run.stop = lambda: None
        run.run()
        return run, world

    def frames(self, link):
        """Octets of a peer."""
        pick, chance = self.random.choice, self.random.random
        last = self.streams.setdefault(link, -1)
        stream = pick([1, 3, max(1, last)])
        content = bytes(self.random.choices(b"abc", k=self.random.randrange(6)))
        if last < 0 or chance() < 0.25:
            self.streams[link] = last = last + 2
            return ask(last, pick([TO, TO, TO, b"10.0.0.7:9090", b"web:1"]), chance() < 0.15)
        return pick([
            lambda: data(stream, content), lambda: data(stream, content), lambda: data(stream, content, True),
                lambda: padded(stream, content, 3),
            lambda: reset(stream, pick([0, 8])), lambda: window(pick([0, stream]), pick([1, 5, 100])),
                lambda: settings((4, pick([0, 2, 9, 65535]))),
            lambda: PING, lambda: window(stream, 0), lambda: data(stream, content, True), lambda: ask(stream)])()

    def event(self):
        run, world = self.state()
        pick = self.random.choice
        ups, links = [number for number in run.ups if number in run.opened], list(run.inbound)
        waits = [number for number in run.ups if number not in run.opened]
        kinds = ["accept"] * (1 if len(links) < 2 else 0) + ["frames"] * 8 * bool(links) + ["up"] * 5 * bool(ups)
        kinds += ["finish"] * 8 * bool(waits)
        kinds += ["end up"] * 2 * bool(ups) + ["room"] * 2 * bool(links) + ["update", "tick"] + ["end link"] * bool(links)
        kind = pick(kinds)
        if kind == "accept":
            self.streams[world.births + 1] = -1
            return opened(link=world.births + 1)
        if kind == "frames":
            link = pick(links)
            return woken(link, self.frames(link) + (self.frames(link) if self.random.random() < 0.3 else b""))
        if kind == "up":
            return woken(pick(ups), bytes(self.random.choices(b"xyz", k=1 + self.random.randrange(5))))
        if kind == "finish":
            return on(pick(["open"] * 6 + ["refuse"]), pick(waits))
        if kind == "end up":
            return on(pick(["end", "end", "break"]), pick(ups))
        if kind == "room":
            return room(pick(links + ups), pick([0, 1, 12, 1000])) + WAKE + "\n"
        if kind == "tick":
            return TICK
        if kind == "end link":
            return on(pick(["end", "break"]), pick(links))
        control = run.control and run.control.number
        if control is None:
            return TICK
        if control not in run.opened:
            return on("open", control) + woken(control, WELCOME)
        return pick([lambda: woken(control, pick([DENY, ALLOW, GONE, BACK])), lambda: on("break", control)])()

    def script(self, count):
        for _ in range(count):
            self.events.append(self.event())
        return self.events


def state_of(tunnel):
    waits = tuple(bool(ring) for ring in tunnel.rings.values())
    return tunnel.stage, tunnel.is_peer_ended, tunnel.is_up_ended, tunnel.is_end_put, tunnel.is_end_sent, waits


def arcs(script, words=()):
    """The steps from line to line that the model takes over a script, the states in which tunnels are seen, and what the report has."""
    seen, file = set(), tunnel_model.__file__

    def trace(place, event, _):
        if place.f_code.co_filename != file:
            return None
        last, tunnel = [None], place.f_locals.get("tunnel")
        if isinstance(tunnel, tunnel_model.Tunnel):
            seen.add((place.f_code.co_name, state_of(tunnel), str(place.f_locals.get("cause")).rstrip("0123456789")))

        def step(place, event, _):
            seen.add((place.f_code.co_name, last[0], place.f_lineno if event == "line" else event))
            last[0] = place.f_lineno
            return step
        return step

    sys.settrace(trace)
    try:
        report = tunnel_model.replay([*WORDS, *words], "".join(script).encode())[1]
    finally:
        sys.settrace(None)
    return seen | features(report)


def features(report):
    """What links, verdicts and ends a report has, whatever their numbers."""
    found = set()
    for line in report.splitlines():
        words = re.sub(r"10\.0\.0\.\d+:\d+|\d+/\d+", "", line).split()
        if words[0] == "link":
            found.add(("link", words[2], line.split("closed ")[1]))
        elif words[0] == "end":
            found.add(("end", line.split(" ", 2)[2].split(" up ")[0], words[-3] != "0", words[-1] != "0"))
        elif words[0] == "verdict":
            found.add(("verdict", words[1]))
    return frozenset(found)


def by_chance(known, wanted, seeds=400):
    """Scripts that take the model where none before took it, each without the events that it can do without."""
    found = []
    for seed in range(seeds):
        events = Chance(seed).script(14)
        new = arcs(events) - known
        if not new:
            continue
        for at in range(len(events) - 1, 0, -1):
            fewer = events[:at] + events[at + 1:]
            try:
                if new <= arcs(fewer):
                    events = fewer
            except Exception:
                continue
        if not tunnel_model.is_determined(WORDS, "".join(events).encode()):
            continue
        known |= arcs(events)
        found.append((seed, "".join(events)))
        if len(found) == wanted:
            break
    return found


def nowhere():
    """The unspecified address, which is the machine itself, with a workload there and without."""
    there, front_there = workloads(("u0", workload("zero", "a", [bytes(4)], "n1", []))), front(destination="00000000")
    row("a workload at the unspecified address", BASE + woken(1, there)
        + opened(ask(to=b"0.0.0.0:15008") + ask(3, b"0.0.0.0:8080"), header=front_there))
    row("the unspecified address, at which no workload is", BASE + opened(ask(to=b"0.0.0.0:80"), header=front_there))


def requests_that_end():
    """Requests with END_STREAM that are refused, whose stream is reset no more."""
    base = on("open", 1) + woken(1, WELCOME)
    row("404 and the peer's end", base + woken(1, workloads(), policies()) + opened(ask(1, TO, True)))
    row("one place, and a request that finds none ends its side", LIVE + woken(2, ask(3, b"10.0.0.7:9090", True)), "--tunnels", "1")
    row("one place, and a second request finds none", LIVE + woken(2, ask(3)) + woken(2, reset(1, 8)) + woken(2, ask(5)), "--tunnels", "1")
    row("a dial fails behind the peer's end", BASE + '{"nodial":1}\n' + opened(ask(1, TO, True)))
    TOLD.update(TOLD_TOO)


# The table

HEAD = ["Runs of `hbone replay --inbound`. bench/tables/modelled_rows.py prints this file: a plain model of the pages answers."]
PARTS = {**tunnel_rows.PARTS, "nine": ask(3, b"10.0.0.7:9090").hex(), "deny": DENY.hex(), "allow": ALLOW.hex(), "gone": GONE.hex(),
         "back": BACK.hex(), "address": replay_rows.PARTS["address"], "policy": replay_rows.PARTS["policy"],
         "ping": PING.hex()}


def is_told(script, words):
    """Whether the pages say the order of each entry, and the trace is short."""
    words = WORDS + words + ["--trace"]
    return len(tunnel_model.replay(words, script.encode())[1]) < 3000 and tunnel_model.is_determined(words, script.encode())


def put(table, name, script, words, cuts=0):
    assert tunnel_model.is_determined(WORDS + words, script.encode()), name
    if name in TOLD and is_told(script, words):
        words = words + ["--trace"]
    table.script(name, ["replay", *WORDS, *words], script, *tunnel_model.replay(WORDS + words, script.encode()), cuts)


def all_rows():
    written()
    known = set()
    for _, script, words in ROWS:
        known |= arcs([script], words)
    for seed, script in by_chance(known, MOST_BY_CHANCE):
        row(f"by chance, {seed}", script)
    nowhere()
    requests_that_end()
    return ROWS


def main():
    table = Table(HEAD, PARTS)
    for row_ in all_rows():
        put(table, *row_)
    for name, script, words in cut_runs():
        put(table, f"{name}, cut", script, words, model_rows.CUTS)
    table.print()


if __name__ == "__main__":
    main()
