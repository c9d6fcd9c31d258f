#!/usr/bin/python3
"""Prints tests/replay/gateways.runs: runs of `hbone replay --outbound` whose links go by gateways, each with its status, its whole
output and its error text.

bench/tables/tunnel_model.py, which knows the pages alone, gives the answers; those of the first rows are worked out by hand too. A row has
to end the same by every choice that the pages leave open.

    python3 bench/tables/gateway_rows.py > tests/replay/gateways.runs
"""
import random

import model_rows
import modelled_rows as modelled
import outbound_rows as outbound
import plain_rows as plain
import replay_rows
import routes
import tunnel_model
import tunnel_rows
from model_rows import answer
from modelled_rows import DENY, PING, TICK, ask, literal, policies, settings, workloads
from outbound_rows import ACCEPT, ADDRESSED, BASE, DOOR, GATE, MESH, NAMED, SOURCE, WAYPOINT, WAYS, Y5, front, gone, serves, service, told, workload
from run_table import Table
from spelling import span, text
from tunnel_rows import PREFACE, SET, WAKE, came, data, frame, goaway, headers, on, padded, reset, room, single, window, woken

ROWS = []
GO = WAKE + "\n"


# What gateways write


def status(code, stream=1, end=False, more=b""):
    """A response of this status, in HTTP's form of a new literal."""
    return headers(stream, literal(b":status", str(code).encode() if isinstance(code, int) else code) + more, end)


OK = headers(1, b"\x88")
CONTENT = literal(b"server", b"gate")

# Scripts


def begun(*octets, link=2, destination=GATE, **ends):
    """A connection at the outbound door whose way leads by a gateway, with more behind its header."""
    return ACCEPT + woken(link, front(destination, **ends) + b"".join(octets))


def opened(link=3, *more):
    """The connection to a gateway opens, and its SETTINGS come, with more behind them."""
    return on("open", link) + woken(link, SET + b"".join(more))


def identified(resource, domain="", space="", account=""):
    """The record of a workload with the parts of its identity."""
    return routes.spelled(resource) + span(1, text(2, space) + text(6, domain) + text(7, account))


def told_records(**records):
    return workloads(*records.items())


ASKED = BASE + begun()
WAITS = ASKED + opened()
LIVE = WAITS + woken(3, OK)
STAGES = [("while its gateway opens", ASKED), ("while the gateway answers", WAITS), ("while it lives", LIVE)]
# Two streams of one connection: links 2 and 4, streams 1 and 3
TWO = LIVE + begun(link=4) + woken(3, headers(3, b"\x88"))


def row(name, script, words=DOOR, *more, want=None):
    ROWS.append((name, script, [*words.split(), *more], want))


# Rows


def by_hand():
    link, total = tunnel_rows.link, tunnel_rows.total
    base, control = modelled.BASE, tunnel_rows.control()
    header = front("10.0.0.7", 8080, "10.0.0.7")
    life = ACCEPT + woken(2, header) + on("open", 3) + woken(3, SET + OK) + woken(2, b"hello") + woken(3, data(1, b"world")) \
        + on("end", 2) + woken(3, data(1, b"", True))
    # a header of 28 octets, the preface of 24, SETTINGS of 21, a request of 9 + 1 + 9 + 15, an acknowledgement of 9, DATA of 9 + 5 and of 9
    assert 28 + 24 + 21 + 34 + 9 + 14 + 9 == 139
    row("bytes each way, from the header to both ends", base + life, want=control + link(2, "outbound", 33, 5, "done")
        + link(3, "gateway 10.0.0.7:15008", 42, 139, "stopped")
        + "verdict 2/0 200 10.0.0.7 - 10.0.0.7:8080\nend 2/0 done up 5 down 5\n" + total(3, 1, 0, 5, 5))
    row("nothing was told yet", ACCEPT + woken(2, header), want=tunnel_rows.control(0, 0) + link(2, "outbound", 28, 0, "refused 503")
        + "verdict 2/0 503 10.0.0.7 - 10.0.0.7:8080\n" + total(2, 0))
    refused = base + ACCEPT + woken(2, header + b"lost") + on("open", 3) + woken(3, SET + headers(1, b"\x08\x03403", True))
    row("a gateway that refuses", refused, want=control + link(2, "outbound", 32, 0, "up refused 403")
        + link(3, "gateway 10.0.0.7:15008", 9 + 14, 28 + 24 + 21 + 34 + 9 + 13, "stopped")
        + "verdict 2/0 502 10.0.0.7 - 10.0.0.7:8080\n" + total(3, 0))
    asked = headers(1, b"\x20\x02\x07CONNECT\x01\x0d10.0.0.7:8080")
    octets = bytes.fromhex("0d0a0d0a000d0a515549540a 21 11 000c 0a000007 0a000007 0000 3aa0") + PREFACE \
        + frame(4, 0, 0, bytes.fromhex("000200000000 000600004000")) + asked
    moved = ["accepted 2 outbound", f"came 2 {header.hex()}", "dialled 3 10.0.0.7:15008", "opened 3", f"went 3 {octets[:28].hex()}",
             f"went 3 {octets[28:].hex()}", "broke 2", "closed 2 peer gone", f"went 3 {reset(1, 8).hex()}", "closed 1 stopped",
             "closed 3 stopped"]
    script = base + ACCEPT + woken(2, header) + on("open", 3) + on("break", 2)
    trace = "".join(entry + "\n" for entry in moved)
    begin = answer([*DOOR.split(), "--trace"], base)[1].partition("closed 1")[0]
    row("what goes to a gateway, and a link that breaks", script, f"{DOOR} --trace", want=begin + trace + control
        + link(2, "outbound", 28, 0, "peer gone") + link(3, "gateway 10.0.0.7:15008", 0, 28 + 24 + 21 + 34 + 13, "stopped") + total(3, 0))


def statuses():
    for code in (200, 201, 204, 299):
        row(f"the gateway answers {code}", WAITS + woken(3, status(code)) + woken(2, b"up") + woken(3, data(1, b"down")))
    for code in (300, 401, 403, 404, 407, 503, 599, 600, 999):
        row(f"the gateway answers {code}", WAITS + woken(3, status(code)) + woken(2, b"up"))
    for name, code in [("no digits", b"abc"), ("two digits", b"20"), ("four digits", b"2000"), ("nothing", b""), ("a blank", b" 200"),
                       ("zeros", b"000"), ("fifty", b"050"), ("ninety-nine", b"099")]:
        row(f"the gateway answers {name}", WAITS + woken(3, status(code)))
    row("the gateway answers without a status", WAITS + woken(3, headers(1, CONTENT)))
    row("the gateway answers without a header", WAITS + woken(3, headers(1, b"")))
    row("the gateway answers two statuses", WAITS + woken(3, status(200, more=literal(b":status", b"503"))))
    row("the gateway answers two statuses, the first of which is none", WAITS + woken(3, status(b"x", more=literal(b":status", b"200"))))
    row("a status behind another header", WAITS + woken(3, headers(1, CONTENT + b"\x88")) + woken(2, b"up"))
    row("a status in Huffman's code", WAITS + woken(3, headers(1, b"\x08" + modelled.string(b"200", True))) + woken(2, b"up"))
    row("a status out of the table", WAITS + woken(3, headers(1, literal(b":status", b"103", 0x40)), headers(1, b"\xbe"), OK)
        + woken(2, b"up"))
    row("a response in three frames", WAITS + woken(3, frame(1, 0, 1, b"\x88" + CONTENT[:4]), frame(9, 0, 1, CONTENT[4:6])
                                                   + frame(9, 4, 1, CONTENT[6:])) + woken(2, b"up"))
    row("a response with priority and padding", WAITS + woken(3, frame(1, 0x2c, 1, b"\x03" + bytes(5) + b"\x88" + bytes(3)))
        + woken(2, b"up"))
    long = literal(b"x", bytes(16384))
    for name, block in [("in front of", b"\x88" + long), ("behind", long + b"\x88")]:
        row(f"a status {name} more than is read", WAITS + woken(3, frame(1, 0, 1, block[:16384]) + frame(9, 4, 1, block[16384:]))
            + woken(2, b"up"))
    for code in (100, 102, 103, 199):
        row(f"{code} is passed over", WAITS + woken(3, status(code)) + woken(2, b"up") + woken(3, OK))
    row("many statuses below 200", WAITS + woken(3, status(100) * 20 + status(103) + status(403)))
    row("a status below 200, and no more", WAITS + woken(3, status(100)))
    for code in (100, 150, 200, 299, 404):
        row(f"the gateway ends with {code}", WAITS + woken(3, status(code, end=True))
            + woken(2, b"up") + on("end", 2))
    row("a status below 200 ends behind another", WAITS + woken(3, status(100), status(101, end=True)))
    row("an answer at once with the SETTINGS", ASKED + on("open", 3) + woken(3, SET + OK) + woken(2, b"up"))
    row("an answer and bytes in one read", WAITS + woken(3, OK + data(1, b"down")))
    row("an answer, bytes and an end in one read", WAITS + woken(3, OK + data(1, b"down", True)) + woken(2, b"up") + on("end", 2))
    row("an answer and a reset in one read", WAITS + woken(3, OK + data(1, b"lost") + reset(1, 5)))
    row("an answer, bytes and a connection error in one read", WAITS + woken(3, OK + data(1, b"lost") + data(0)))


def malformed():
    """What is no response, or comes behind one."""
    for name, octets in [("bytes", data(1, b"early")), ("bytes and an end", data(1, b"early", True)), ("an end", data(1, b"", True)),
                         ("padding alone", padded(1, b"", 5)), ("an empty DATA frame", data(1))]:
        row(f"{name} in front of the answer", WAITS + woken(3, octets) + woken(2, b"up"))
    row("bytes behind a status below 200", WAITS + woken(3, status(100) + data(1, b"early")))
    row("bytes in front of the answer in its read", WAITS + woken(3, data(1, b"early") + OK) + woken(2, b"up"))
    for name, octets in [("trailers", headers(1, CONTENT, True)), ("a second answer", OK), ("a status below 200", status(100)),
                         ("a second answer that refuses", status(503)), ("no header", headers(1, b""))]:
        row(f"{name} behind the answer", LIVE + woken(2, b"up") + woken(3, data(1, b"down") + octets + data(1, b"lost")))
    row("an answer and trailers in one read", WAITS + woken(3, OK + headers(1, CONTENT, True)))
    row("trailers behind the end of the link", LIVE + on("end", 2) + woken(3, headers(1, CONTENT, True)))
    row("frames behind a refusal", WAITS + woken(3, status(503)) + woken(3, data(1, b"body") + headers(1, CONTENT, True) + window(1, 5)
                                                                         + reset(1, 0)) + begun(link=4))
    row("a body behind a refusal in one read", WAITS + woken(3, status(503) + data(1, b"body", True)) + begun(link=4))


def dials():
    row("the dial of a gateway fails", BASE + '{"nodial":1}\n' + begun(b"abc"))
    row("the dial of a gateway fails, and the next one doesn't", BASE + '{"nodial":1}\n' + begun(b"abc") + begun(b"abc", link=3)
        + opened(4, OK))
    row("a gateway that refuses to open", ASKED + woken(2, b"abc") + on("refuse", 3))
    row("a gateway that refuses to open, asked by two", ASKED + begun(b"abc", link=4) + on("refuse", 3) + begun(b"again", link=5)
        + opened(6, OK))
    row("a gateway that never opens", ASKED + woken(2, b"abc") + TICK * 2)
    row("a gateway that never answers", WAITS + woken(2, b"abc") + TICK * 2)
    row("a gateway that tells nothing", ASKED + on("open", 3) + woken(2, b"abc"))
    row("a gateway of another port", BASE + begun() + opened(3, OK) + woken(2, b"up"), f"{DOOR} --hbone-port 16000")
    row("a gateway at a workload of this node", BASE + begun(destination="10.0.0.7", port=9090) + opened(3, OK) + woken(2, b"up"))
    row("a gateway at the source itself", BASE + begun(destination=SOURCE) + opened(3, OK) + woken(2, b"up"))
    row("a gateway that is the inbound door", BASE + begun(destination="10.0.0.7", port=9090), "--inbound 0.0.0.0:15008 " + DOOR)
    row("a door behind a gateway", BASE + begun(destination="10.0.0.6", port=15001) + opened(3, OK) + woken(2, b"up"))
    row("a waypoint that isn't there, and not the workload's gateway", BASE + woken(1, told(g6=workload(
        "10.0.0.6", hbone=1, waypoint=NAMED))) + begun(destination="10.0.0.6"))


def identities():
    def who(name, what, **parts):
        source = told_records(w9=identified(workload(SOURCE, node="n1", hbone=1), **parts))
        row(f"{name} {what}", BASE + woken(1, source) + begun(b"abc") + opened(3, OK) + on("break", 2), f"{DOOR} --trace")

    who("a source with", "an account", space="a", account="c")
    who("a source with", "a domain of its own", domain="td.x", space="a", account="c")
    who("a source without", "an account", space="a")
    who("a source without", "a namespace", account="c")
    who("a source with", "a blank in its account", space="a", account="c d")
    who("a source with", "a slash in its namespace", space="a/b", account="c")
    who("a source with", "another mark in its domain", domain="td:x", space="a", account="c")
    who("a source with", "every mark of the grammar", domain="A-z_0.9", space="n-_.9", account="Z")
    most = 4000 - len("spiffe://cluster.local/ns/a/sa/")
    who("a source with", "the longest identity", space="a", account="c" * most)
    who("a source with", "a longer identity", space="a", account="c" * (most + 1))
    mixed = {"w6": workload("2001:db8::9", node="n1"), "g7": workload("2001:db8::7", hbone=1)}
    for name, source, destination in [("IPv6", "2001:db8::9", "2001:db8::7"), ("IPv4 at one in IPv6", SOURCE, "2001:db8::7"),
                                      ("IPv6 at one in IPv4", "2001:db8::9", "10.0.0.6")]:
        ends = [(f"::ffff:{ip}" if "." in ip and ":" in source + destination else ip) for ip in (destination, source)]
        row(f"a source in {name}", BASE + woken(1, told(**mixed)) + begun(destination=ends[0], source=ends[1], port=443) + opened(3, OK)
            + on("break", 2), f"{DOOR} --trace")
    long = told_records(w9=identified(workload(SOURCE, node="n1"), space="a", account="c"), g7=identified(
        workload("2001:db8::7", hbone=1), space="b", account="d"))
    row("a source with an account in long addresses", BASE + woken(1, long) + begun(destination="2001:db8::7", source="::ffff:" + SOURCE)
        + opened(3, OK) + on("break", 2), f"{DOOR} --trace")


def named():
    """An identity in the header is noted, and isn't what the gateway is told."""
    row("a header with an identity", BASE + begun(b"abc", more=plain.IDENTITY) + opened(3, OK) + on("break", 2), f"{DOOR} --trace")
    row("a header with an identity, and a gateway that refuses", BASE + begun(b"abc", more=plain.IDENTITY) + opened(3, status(403, end=True)))
    row("a header with an identity, and a gateway that doesn't open", BASE + begun(b"abc", more=plain.IDENTITY) + on("refuse", 3))


def ends():
    row("the link ends first", LIVE + woken(2, b"ask") + on("end", 2) + woken(3, data(1, b"answer")) + woken(3, data(1, b"", True)))
    row("the gateway ends first", LIVE + woken(3, data(1, b"hello", True)) + woken(2, b"bye") + on("end", 2))
    row("both end at once", LIVE + woken(2, b"ab") + '{"end":2}\n' + woken(3, data(1, b"cd", True)))
    row("it ends without a byte", LIVE + on("end", 2) + woken(3, data(1, b"", True)))
    row("the link ends, and the gateway resets", LIVE + woken(2, b"ab") + on("end", 2) + woken(3, reset(1, 8)))
    row("the gateway ends, and the link breaks", LIVE + woken(3, data(1, b"ab", True)) + on("break", 2))
    row("the gateway ends, and then resets", LIVE + woken(3, data(1, b"ab", True) + reset(1, 0)))
    row("both have ended, and the gateway resets", LIVE + woken(2, b"a") + on("end", 2) + woken(3, data(1, b"b", True) + reset(1, 8)))
    row("the gateway ends with many octets and none", LIVE + woken(3, data(1, b"ab"), data(1), data(1, b"cd"), data(1, b"", True))
        + on("end", 2))
    for name, script in STAGES:
        opens = "" if "opens" not in name else opened(3, OK)
        row(f"it breaks {name}", script + woken(2, b"ab") + on("break", 2))
        row(f"it ends {name}", script + woken(2, b"ab") + on("end", 2))
        answers = woken(3, OK) if "answers" in name else ""
        row(f"it ends {name}, and then all goes its way", script + woken(2, b"ab") + on("end", 2) + opens + answers
            + woken(3, data(1, b"cd", True)))
        row(f"the run ends {name}", script + woken(2, b"ab"))
        row(f"the wait fails {name}", script + woken(2, b"ab") + '{"fault":"wait"}\n')
        if not opens:
            for code in (0, 8, 2**32 - 1):
                row(f"the gateway resets with {code} {name}", script + woken(2, b"ab") + woken(3, reset(1, code)))
            for what in ("end", "break"):
                row(f"its gateway {what}s {name}", script + woken(2, b"ab") + on(what, 3))
            row(f"a GOAWAY that leaves it out {name}", script + woken(2, b"ab") + woken(3, goaway(0, 0)) + woken(2, b"cd"))
            row(f"a GOAWAY that leaves it in {name}", script + woken(2, b"ab") + woken(3, goaway(1, 0)) + answers + woken(2, b"cd")
                + woken(3, data(1, b"ef")))
    row("the run ends before a header is whole", BASE + ACCEPT + woken(2, front(GATE)[:20]))
    row("a gateway ends that carries nothing", WAITS + woken(3, status(503)) + on("end", 3))
    row("a gateway breaks that carries nothing", WAITS + woken(3, status(503)) + on("break", 3))
    row("a gateway ends behind a tunnel that is done", LIVE + on("end", 2) + woken(3, data(1, b"", True)) + on("end", 3))
    row("a gateway ends before the last bytes are written", LIVE + on("end", 2) + room(2, 0) + woken(3, data(1, b"ab", True))
        + on("end", 3))
    row("a gateway ends with bytes that wait for the link", LIVE + room(2, 1) + woken(3, data(1, b"ab", True)) + on("end", 3))
    row("a gateway ends before it told a thing", ASKED + room(3, 0) + '{"end":3}\n' + on("open", 3))
    row("a gateway breaks as it opens", ASKED + '{"break":3}\n' + on("open", 3))
    row("a gateway ends with two tunnels", TWO + woken(2, b"a") + woken(4, b"b") + on("end", 3))
    row("a gateway breaks with two tunnels", TWO + woken(2, b"a") + woken(4, b"b") + on("break", 3))
    row("a gateway breaks with one tunnel that waits", LIVE + begun(link=4) + on("break", 3))
    swapped = BASE + ACCEPT + WAKE + "\n" + begun(b"a", link=3) + woken(2, front(GATE) + b"b") + opened(4, OK + headers(3, b"\x88"))
    row("streams in another order than their links", swapped + woken(4, data(1, b"first") + data(3, b"second")))
    row("streams in another order than their links, and the gateway ends", swapped + on("end", 4))
    row("streams in another order than their links, and the gateway breaks", swapped + on("break", 4))
    row("streams in another order than their links, and a GOAWAY", swapped + woken(4, goaway(0, 0)))
    row("streams in another order than their links, and a connection error", swapped + woken(4, data(0)))
    row("streams in another order than their links, and the run ends", swapped)
    row("streams in another order than their links, and the gateway refuses to open", BASE + ACCEPT + WAKE + "\n" + begun(b"a", link=3)
        + woken(2, front(GATE) + b"b") + on("refuse", 4))
    ended = LIVE + woken(2, b"a") + on("end", 2)
    for name, octets in [("a reset", reset(1, 8)), ("a GOAWAY", goaway(0, 0)), ("a connection error", data(0)),
                         ("DATA more", data(1, b"x")), ("an increment of 0", window(1, 0))]:
        row(f"the second end and {name} in one read", ended + woken(3, data(1, b"", True) + octets))
        row(f"bytes with the second end and {name} in one read", ended + woken(3, data(1, b"b", True) + octets))
    row("the second end, and the gateway ends", ended + came(3, data(1, b"", True)) + on("end", 3))
    row("one of two tunnels ends, the other goes on", TWO + woken(3, reset(1, 8)) + woken(4, b"b") + woken(3, data(3, b"c")))
    row("one of two links breaks, the other goes on", TWO + on("break", 2) + woken(4, b"b") + woken(3, data(3, b"c")))
    row("the second of two ends first", TWO + woken(4, b"b") + on("end", 4) + woken(3, data(3, b"c", True)) + woken(2, b"a"))


def leaving():
    """GOAWAY in the middle."""
    row("a GOAWAY between two streams", TWO + woken(3, goaway(1, 0)) + woken(2, b"a") + woken(3, data(1, b"b")))
    row("a GOAWAY, and a new connection", LIVE + woken(3, goaway(1, 0)) + begun(b"new", link=4) + opened(5, OK) + woken(2, b"old"))
    row("a GOAWAY of the most, and a new connection", LIVE + woken(3, goaway(2**31 - 1, 0)) + begun(b"new", link=4) + opened(5, OK))
    row("two GOAWAYs", TWO + begun(link=5) + woken(3, headers(5, b"\x88")) + woken(3, goaway(5, 0)) + woken(3, goaway(3, 0))
        + woken(3, goaway(0, 2)))
    row("a GOAWAY with an error and a text", TWO + woken(3, frame(7, 0, 0, (1).to_bytes(4, "big") + (11).to_bytes(4, "big") + b"calm")))
    row("a GOAWAY and an answer in one read", WAITS + woken(3, goaway(1, 0) + OK) + woken(2, b"a"))
    row("a GOAWAY that leaves all out, and the gateway ends", TWO + woken(3, goaway(0, 0)) + on("end", 3))
    row("a GOAWAY, the last tunnel ends, and the gateway ends", LIVE + woken(3, goaway(1, 0)) + on("end", 2)
        + woken(3, data(1, b"", True)) + on("end", 3))
    row("a GOAWAY before a gateway's first answer", ASKED + begun(link=4) + opened(3, goaway(1, 0) + OK) + woken(2, b"a"))
    row("a GOAWAY with bytes that wait", LIVE + room(3, 0) + woken(2, b"abc") + woken(3, goaway(0, 0)) + room(3, 1000) + GO)
    row("a GOAWAY with a frame that has begun", LIVE + room(3, 4) + woken(2, b"abc") + woken(3, goaway(0, 0)) + room(3, 1000) + GO)
    row("a GOAWAY with a request that waits", LIVE + room(3, 0) + begun(link=4) + woken(3, goaway(1, 0)) + room(3, 1000) + GO)


def limits():
    """The gateway's SETTINGS_MAX_CONCURRENT_STREAMS, and 100 streams."""
    for most in (0, 1, 5):
        limited = LIVE + woken(3, settings((3, most)))
        script, link = limited, 4
        for _ in range(max(most - 1, 0)):
            script += begun(link=link)
            link += 1
        row(f"at most {most} streams", script + begun(b"new", link=link) + opened(link + 1, OK) + woken(2, b"old"))
    row("no streams are let before the first answer", ASKED + on("open", 3) + woken(3, settings((3, 0))) + begun(b"new", link=4)
        + woken(3, OK))
    row("fewer streams than there are", TWO + woken(3, settings((3, 1))) + begun(link=5) + woken(3, reset(1, 8)) + begun(link=7))
    row("a stream is free again", LIVE + woken(3, settings((3, 1))) + on("end", 2) + woken(3, data(1, b"", True)) + begun(link=4)
        + woken(3, headers(3, b"\x88")))
    row("more streams are let", LIVE + woken(3, settings((3, 1))) + woken(3, settings((3, 2))) + begun(link=4))
    row("two numbers of streams in one frame", LIVE + woken(3, settings((3, 1), (3, 9))) + begun(link=4))
    many = "".join(begun(link=number) for number in range(4, 103))
    row("a hundred streams", LIVE + many, f"{DOOR} --brief")
    row("the hundred and first", LIVE + many + begun(b"x", link=103) + opened(104, OK))
    row("the hundred and first behind one that ended", LIVE + many + woken(3, reset(9, 8)) + begun(b"x", link=103)
        + woken(3, headers(201, b"\x88")))
    row("a hundred and one where more are let", LIVE + woken(3, settings((3, 1000))) + many + begun(b"x", link=103), f"{DOOR} --brief")
    row("a request wants room", LIVE + room(3, 0) + woken(3, *[PING * 100] * 40) + begun(b"x", link=4), f"{DOOR} --brief")
    row("a request has room again", LIVE + room(3, 0) + woken(3, *[PING * 100] * 40) + room(3, 40000) + GO + begun(b"x", link=4))


# Three endpoints with HBONE and a source more, for pools
OTHERS = BASE + woken(1, told_records(
    w9=identified(workload(SOURCE, node="n1"), space="a", account="c"),
    s8=identified(workload("10.0.0.88", node="n1"), space="a", account="c"),
    s7=identified(workload("10.0.0.77", node="n1"), space="a", account="d"))) + woken(1, told(g5=workload("10.0.0.55", hbone=1)))


def pools():
    row("two links by one connection", ASKED + begun(link=4) + opened(3, OK, headers(3, b"\x88")) + woken(2, b"a") + woken(4, b"b")
        + woken(3, data(3, b"c") + data(1, b"d")))
    row("answers in another order", ASKED + begun(link=4) + opened() + woken(3, headers(3, b"\x88")) + woken(4, b"b") + woken(3, OK)
        + woken(2, b"a"))
    row("sources of one identity have a connection each", OTHERS + begun(b"a") + begun(b"b", link=4, source="10.0.0.88")
        + begun(b"c", link=6) + begun(b"d", link=7, source="10.0.0.88"))
    row("sources of other identities have a connection each", OTHERS + begun(b"a") + begun(b"b", link=4, source="10.0.0.77")
        + begun(b"c", link=6, source="10.0.0.77"))
    row("gateways have a connection each", OTHERS + begun(b"a", destination="10.0.0.55") + begun(b"b", link=4) + begun(
        b"c", link=6, destination="10.0.0.55", port=443) + opened(3, OK, headers(3, b"\x88")) + opened(5, OK))
    row("three connections", OTHERS + begun(b"a", destination="10.0.0.55") + begun(b"b", link=4) + begun(b"c", link=6, source="10.0.0.77")
        + begun(b"d", link=8) + begun(b"e", link=9, source="10.0.0.77") + begun(b"f", link=10, destination="10.0.0.55")
        + opened(7, OK, headers(3, b"\x88")) + opened(3, OK, headers(3, b"\x88")) + opened(5, OK, headers(3, b"\x88"))
        + on("break", 5) + begun(b"g", link=11))
    row("the earliest that has room", LIVE + woken(3, settings((3, 1))) + begun(b"b", link=4) + opened(5, settings((3, 1)) + OK)
        + begun(b"c", link=6) + opened(7, OK) + on("break", 2) + begun(b"d", link=8) + begun(b"e", link=9))
    row("a connection that ended is none", LIVE + on("end", 3) + begun(b"b", link=4) + opened(5, OK))
    row("a connection that never opened is none", ASKED + on("refuse", 3) + begun(b"b", link=4) + opened(5, OK))
    row("a connection behind an error is none", LIVE + woken(3, data(0)) + begun(b"b", link=4) + opened(5, OK))
    other = told_records(w9=identified(workload(SOURCE, node="n1"), space="a", account="c"))
    row("the source gets another identity", LIVE + woken(1, other) + begun(b"b", link=4) + opened(5, OK) + woken(2, b"a"))
    row("a connection is used again", LIVE + on("end", 2) + woken(3, data(1, b"", True)) + begun(b"b", link=4)
        + woken(3, headers(3, b"\x88")) + woken(3, data(3, b"c")))
    row("a connection is used again behind a refusal", WAITS + woken(3, status(503)) + begun(b"b", link=4) + woken(3, headers(3, b"\x88")))
    three = OTHERS + woken(1, told(e5=workload("10.0.0.5", serves=serves("gate.a"), hbone=1),
                                   e7=workload("10.0.0.57", serves=serves("gate.a"))))
    row("endpoints take turns, by gateways and straight", three + "".join(begun(b"x", link=link) for link in (2, 4, 6, 8, 9, 10)))
    row("a link by a gateway is a connection until it ends", three + begun() + opened(3, status(503)) + begun(link=4))
    row("a link by a gateway is one while it lives", three + begun() + opened(3, OK) + begun(link=4))
    row("a link without room is no connection", three + '{"nodial":1}\n' + begun() + begun(link=3))


def places():
    one = f"{DOOR} --tunnels 1"
    row("the last place", ASKED + ACCEPT + GO + opened(3, OK) + on("end", 2) + woken(3, data(1, b"", True)) + begun(b"b", link=5)
        + woken(3, headers(3, b"\x88")), one)
    row("a refused link gives its place back", WAITS + woken(3, status(404)) + begun(b"b", link=4), one)
    row("a tunnel takes the last place of a link by a gateway", BASE + woken(1, policies(removed=["a/p"])) + modelled.ACCEPT
        + woken(2, tunnel_rows.OPENING + ask(to=b"10.0.0.7:9090")) + ACCEPT + woken(4, front(GATE)), f"{outbound.ALL} --tunnels 1")
    row("a link by a gateway takes the last place of a tunnel", ASKED + modelled.ACCEPT
        + woken(4, tunnel_rows.OPENING + ask(to=b"10.0.0.7:9090")), f"{outbound.ALL} --tunnels 1")


def windows():
    def small(size, *more):
        return ASKED + on("open", 3) + woken(3, settings((4, size)) + OK + b"".join(more))

    row("a small window", small(3) + woken(2, b"abcdefgh") + woken(3, window(1, 2), window(1, 9)))
    row("a window of 0", small(0) + woken(2, b"ab") + on("end", 2) + woken(3, window(1, 1), window(1, 1)))
    row("the link's end and a window of 0", small(0) + on("end", 2))
    row("a window below 0", small(3) + woken(2, b"abc") + woken(3, settings((4, 0))) + woken(2, b"d")
        + woken(3, window(1, 3), window(1, 1)))
    row("the link's end and a window below 0", small(3) + woken(2, b"abc") + woken(3, settings((4, 0))) + on("end", 2))
    row("a window that grows by another first size", small(3) + woken(2, b"abcdef") + woken(3, settings((4, 4)), settings((4, 9))))
    row("two tunnels and a small window each", small(2) + begun(link=4) + woken(3, headers(3, b"\x88")) + woken(2, b"abc")
        + woken(4, b"def") + woken(3, window(3, 1), window(1, 1)))
    row("the window of the connection is used up", TWO + woken(3, window(1, 65535)) + woken(2, *[bytes(4096)] * 15, bytes(4095))
        + woken(4, b"ab") + woken(3, window(0, 1), window(0, 1)))
    row("the window of the stream is used up", TWO + woken(3, window(0, 65535)) + woken(2, *[bytes(4096)] * 16) + woken(4, b"ab")
        + woken(3, window(1, 1), window(1, 1)))
    row("a window before the answer", ASKED + on("open", 3) + woken(3, settings((4, 3))) + woken(2, b"abcdef") + woken(3, window(1, 1), OK))
    row("bytes back, and what they took is granted again", LIVE + woken(3, data(1, bytes(16384))) + woken(3, data(1, bytes(16383)),
                                                                                                     data(1, b"a")))
    row("bytes back to two links are granted on the connection", TWO
        + woken(3, data(1, bytes(16384)) + data(3, bytes(16383)), data(3, b"a")))
    full = LIVE + room(2, 0) + woken(3, *[data(1, bytes(16384))] * 3, data(1, bytes(16383)))
    row("as many bytes back as are granted", full + room(2, 70000) + GO + woken(3, data(1, b"end", True)) + on("end", 2))
    row("a byte more back than is granted", full + woken(3, data(1, b"a")))
    row("more than the connection's window", TWO + room(2, 0) + woken(3, *[data(1, bytes(16384))] * 3 + [data(3, bytes(16384))] * 3))
    row("padding is granted again", LIVE + woken(3, padded(1, b"", 255) * 127, padded(1, b"", 255)))
    row("padding and bytes", LIVE + woken(3, padded(1, b"abc", 9), padded(1, b"", 0), padded(1, b"d", 255)))
    row("no more is granted behind the gateway's end", LIVE + room(2, 0) + woken(3, data(1, bytes(16384)) * 2 + data(1, b"", True))
        + room(2, 40000) + GO)
    row("bytes behind a refusal are granted on the connection", WAITS + woken(3, status(503)) + woken(3, data(1, bytes(16384)),
                                                                                                data(1, bytes(16384))))
    row("a flood of PING", LIVE + woken(3, PING * 40))
    row("a flood of SETTINGS", LIVE + woken(3, settings((4, 1), (4, 70000)) * 40))
    row("a flood of small DATA", LIVE + woken(3, data(1, b"a") * 100))


def rooms():
    row("the link sends before its gateway opens", ASKED + woken(2, b"a", b"bc") + opened(3, OK) + woken(2, b"d"))
    row("the link sends before its gateway answers", WAITS + woken(2, b"a", b"bc") + woken(3, OK) + woken(2, b"d"))
    row("the ring up is full before the answer", WAITS + woken(2, bytes(16384), b"more") + woken(3, OK))
    row("the ring up is full", LIVE + room(3, 0) + woken(2, bytes(4096), *[bytes(4096)] * 5) + room(3, 40000) + GO)
    row("a gateway that takes an octet at a time", LIVE + room(3, 0) + woken(2, b"ab") + (room(3, 1) + GO) * 12)
    row("a link that takes an octet at a time", LIVE + room(2, 0) + woken(3, data(1, b"hello", True)) + (room(2, 1) + GO) * 6
        + on("end", 2))
    row("the link's end waits behind the last octet", LIVE + room(3, 0) + woken(2, b"ab") + on("end", 2) + (room(3, 4) + GO) * 6
        + woken(3, data(1, b"", True)))
    row("the gateway's end comes behind that of the link, which waits", LIVE + room(3, 4) + on("end", 2) + woken(3, data(1, b"", True))
        + room(3, 5) + GO)
    row("its gateway ends inside the last frame", LIVE + room(3, 4) + on("end", 2) + woken(3, data(1, b"", True)) + on("end", 3))
    row("the link breaks inside the last frame", LIVE + room(3, 4) + on("end", 2) + woken(3, data(1, b"", True)) + on("break", 2)
        + room(3, 100) + GO)
    row("the link breaks with the last frame in wait", LIVE + room(3, 0) + on("end", 2) + on("break", 2) + room(3, 100) + GO)
    for at in (0, 1, 27, 28, 29, 51, 52, 72, 73, 80, 106, 107, 108):
        script = ASKED + room(3, at) + on("open", 3)
        row(f"the link breaks when {at} octets went to its gateway", script + on("break", 2) + room(3, 1000) + GO)
    for at in (0, 4, 9, 10, 11, 12):
        script = LIVE + room(3, at) + woken(2, b"abc")
        row(f"a reset when {at} octets of DATA went", script + woken(3, reset(1, 8)) + room(3, 1000) + GO)
        row(f"the link breaks when {at} octets of DATA went", script + on("break", 2) + room(3, 1000) + GO)
        row(f"trailers when {at} octets of DATA went", script + woken(3, headers(1, b"", True)) + room(3, 1000) + GO)
    row("DATA of one tunnel waits, and another's bytes", TWO + room(3, 0) + woken(2, b"ab") + woken(4, b"cd") + room(3, 1000) + GO)
    row("DATA that hasn't begun is taken back, and another's goes", TWO + room(3, 0) + woken(2, b"ab") + woken(4, b"cd") + on("break", 2)
        + room(3, 1000) + GO)
    row("octet by octet on two links", BASE + ACCEPT + woken(2, *single(front(GATE) + b"ab")) + on("open", 3)
        + woken(3, *single(SET + OK + data(1, b"xyz", True))))


def faults():
    """Errors that a gateway's frames make."""
    request = literal(b":status", b"200")
    for name, octets in [
            ("row 2: a long frame", b"\x00\x40\x01" + bytes(6)), ("row 4: CONTINUATION alone", frame(9, 4, 1)),
            ("row 4: PING in a block", frame(1, 0, 1, request) + PING), ("row 4: another stream's", frame(1, 0, 1) + frame(9, 4, 3)),
            ("row 5: DATA of stream 0", data(0)), ("row 6: SETTINGS of a stream", frame(4, 0, 1)),
            ("row 6: GOAWAY", frame(7, 0, 1, bytes(8))),
            ("row 7: PUSH_PROMISE", frame(5, 4, 1, bytes(4))), ("row 9: padding", frame(0, 8, 1, b"\x02a")),
            ("row 10: GOAWAY", frame(7, 0, 0, bytes(7))), ("row 11: setting 2 of 1", settings((2, 1))),
            ("row 12: setting 4 too high", settings((4, 2**31))), ("row 13: an increment of 0", window(0, 0)),
            ("row 14: a long block", frame(1, 0, 1, bytes(16384)) + frame(9, 0, 1, bytes(16384)) + frame(9, 0, 1, b"\0")),
            ("row 15: a header block", headers(1, b"\x80")), ("row 16: an even stream", headers(2, b"\x88")),
            ("row 16: a stream that wasn't begun", headers(3, b"\x88")), ("row 17: DATA", data(3)), ("row 17: RST_STREAM", reset(3, 8)),
            ("row 17: WINDOW_UPDATE", window(2, 1)), ("row 22: the connection's window", window(0, 2**31 - 1))]:
        phase, script = STAGES[1 + len(ROWS) % 2]
        row(f"{name}, {phase}", script + woken(2, b"ab") + woken(3, octets))
    row("row 3: PING first", ASKED + on("open", 3) + woken(3, PING))
    row("row 3: an answer first", ASKED + on("open", 3) + woken(3, OK))
    row("row 19: DATA behind both ends", LIVE + on("end", 2) + woken(3, data(1, b"", True)) + woken(3, data(1, b"a")))
    row("row 19: DATA behind a reset of the gateway's", LIVE + woken(3, reset(1, 8) + data(1, b"a")))
    row("a connection error with two tunnels", TWO + woken(2, b"a") + woken(3, data(0)))
    row("a connection error, and room for a part of its GOAWAY", LIVE + room(3, 5) + woken(3, data(0)))
    row("a connection error with DATA that waits", LIVE + room(3, 0) + woken(2, b"abc") + woken(3, data(0)))
    row("a connection error with DATA that has begun", LIVE + room(3, 4) + woken(2, b"abc") + room(3, 100) + woken(3, data(0)))
    row("a connection error that carries nothing", WAITS + woken(3, status(503)) + woken(3, data(0)))
    row("an answer of HTTP/1", ASKED + on("open", 3) + woken(3, b"HTTP/1.1 400 Bad Request\r\n\r\n"))
    for name, octets in [("row 20: DATA behind the gateway's end", data(1, b"", True) + data(1, b"a")),
                         ("row 20: HEADERS behind the gateway's end", data(1, b"", True) + headers(1, b"", True)),
                         ("row 21: an increment of 0", window(1, 0)), ("row 22: the stream's window", window(1, 2**31 - 1))]:
        row(name, LIVE + woken(2, b"ab") + woken(3, octets))
        if "end" not in name:
            row(f"{name}, before the answer", WAITS + woken(2, b"ab") + woken(3, octets))
    row("row 20: DATA behind an answer that ends", WAITS + woken(3, status(200, end=True) + data(1, b"a")))
    row("a stream error, and then the rest", TWO + woken(3, window(1, 0) + data(1, b"lost") + data(3, b"kept")) + woken(4, b"b"))


def updates():
    others = [("a policy denies each peer", DENY), ("its source goes", workloads(removed=["w9"])),
              ("its service and its endpoint go", workloads(removed=["gate", "g6"])),
              ("its endpoint no longer takes HBONE", told(g6=workload("10.0.0.6", serves=serves("gate.a"))))]
    for name, script in STAGES:
        for what, update in others:
            behind = {"while its gateway opens": opened(3, OK), "while the gateway answers": woken(3, OK)}.get(name, "")
            row(f"{what} {name}", script + woken(1, update) + behind + woken(2, b"more") + woken(3, data(1, b"back")))
    row("an update inside the header", BASE + ACCEPT + woken(2, front(GATE)[:20]) + woken(1, told(g6=workload(
        "10.0.0.61", hbone=1, serves=serves("gate.a")))) + woken(2, front(GATE)[20:]) + opened(3, OK))
    row("a service moves: a link stays, and the next one goes to another gateway", LIVE + woken(1, told(g6=workload(
        "10.0.0.61", hbone=1, serves=serves("gate.a")))) + begun(b"new", link=4) + opened(5, OK) + woken(2, b"old"))
    row("an endpoint takes HBONE from now on", BASE + begun(destination=outbound.WEB) + on("open", 3) + woken(1, told(e4=workload(
        "10.0.0.4", hbone=1, serves=serves("web.a")))) + begun(b"new", link=4, destination=outbound.WEB) + opened(5, OK) + woken(2, b"old"))


def mixed():
    tunnel = modelled.ACCEPT + woken(2, tunnel_rows.OPENING + ask(to=b"10.0.0.7:9090")) + on("open", 3)
    three = BASE + tunnel + plain.opened(link=4) + begun(link=6) + opened(7, OK)
    each = woken(2, data(1, b"up")) + woken(4, b"raw") + woken(6, b"out")
    row("three doors at once", three + each + woken(3, b"down") + woken(5, b"back") + woken(7, data(1, b"home")), outbound.ALL)
    row("an update ends a tunnel and a plain link, and leaves one by a gateway", three + each + woken(1, DENY) + woken(6, b"still")
        + woken(7, data(1, b"here")), outbound.ALL)
    row("the run ends with three doors and a gateway", three + each, outbound.ALL)
    row("a link straight and one by a gateway", LIVE + outbound.opened(b"straight", link=4) + woken(2, b"around") + woken(5, b"back")
        + woken(3, data(1, b"back")))
    row("the control plane breaks, and a link by a gateway goes on", LIVE + on("break", 1) + woken(2, b"still") + TICK
        + woken(3, data(1, b"here")))
    row("the control plane breaks, and a new link goes by a gateway", BASE + on("break", 1) + begun(b"in") + opened(3, OK))
    row("ticks", LIVE + TICK * 3 + woken(2, b"abc"))
    row("brief", LIVE + woken(2, b"abc"), DOOR, "--brief")


def cut_runs():
    """A whole life of which what comes on the link and from its gateway is cut by chance."""
    for seed in range(8):
        chance = random.Random(seed)

        def cut(link, octets):
            places = sorted({0, len(octets), *(chance.randrange(len(octets)) for _ in range(chance.randrange(12)))})
            pieces = [octets[at:end] for at, end in zip(places, places[1:])]
            return woken(link, *pieces) if seed % 2 else came(link, *pieces) + GO

        row(f"a life cut by chance, {seed}", BASE + ACCEPT + cut(2, front(GATE) + b"abc") + on("open", 3) + cut(3, SET + OK)
            + cut(2, b"more of it") + cut(3, data(1, b"answer") + PING + data(1, b"s", True)) + on("end", 2))


# Behind the waypoint of outbound_rows.py, which is one pod here or two, are its service `ways`, by an address, and its workload y5, by a
# hostname


def pod(*ips, **more):
    return workload(*ips, serves=serves("waypoint.a"), **more)


WAY = service(WAYPOINT, "waypoint.a", ports=())
ONE = told(way=WAY, p7=pod("10.0.0.17"))
BEHIND = BASE + woken(1, ONE)
TWO_PODS = told(way=WAY, p7=pod("10.0.0.17"), p8=pod("10.0.0.18"))
PAIR = BASE + woken(1, TWO_PODS)
THROUGH = BEHIND + begun(destination=WAYS) + opened(3, OK)
WAY_STAGES = [("while it is dialled", BEHIND + begun(destination=WAYS)), ("while it answers", BEHIND + begun(destination=WAYS) + opened()),
              ("while a tunnel lives", THROUGH)]


def waypoint_by_hand():
    link, total = tunnel_rows.link, tunnel_rows.total
    control = tunnel_rows.control(321 + len(told(**MESH)) + len(ONE), 512 + 62)
    life = begun(b"hello", destination=WAYS) + opened(3, OK) + woken(3, data(1, b"world")) + on("end", 2) + woken(3, data(1, b"", True))
    # as in the first row of this file, but that the authority is 10.1.0.4:80, which is two octets shorter
    row("bytes each way through a waypoint", BEHIND + life, want=control + link(2, "outbound", 33, 5, "done")
        + link(3, "gateway 10.0.0.17:15008", 42, 137, "stopped")
        + "verdict 2/0 200 10.0.0.9 - 10.1.0.4:80\nend 2/0 done up 5 down 5\n" + total(3, 1, 0, 5, 5))
    refused = BEHIND + begun(b"lost", destination=WAYS) + on("open", 3) + woken(3, SET + headers(1, b"\x08\x03503", True))
    row("a waypoint that answers 503", refused, want=control + link(2, "outbound", 32, 0, "up refused 503")
        + link(3, "gateway 10.0.0.17:15008", 9 + 14, 28 + 24 + 21 + 32 + 9 + 13, "stopped")
        + "verdict 2/0 502 10.0.0.9 - 10.1.0.4:80\n" + total(3, 0))


def waypoints():
    """Links through a waypoint: what is asked of it is the address that was meant."""
    waypoint_by_hand()
    row("what goes to a waypoint", BEHIND + begun(b"abc", destination=WAYS) + opened(3, OK) + on("break", 2), f"{DOOR} --trace")
    row("what goes to a waypoint of a workload", BEHIND + begun(b"abc", destination=Y5, port=443) + opened(3, OK) + on("break", 2),
        f"{DOOR} --trace")
    for code in (403, 404, 299):
        row(f"a waypoint that answers {code}", BEHIND + begun(destination=WAYS) + opened(3, status(code)) + woken(2, b"up"))
    two = PAIR + begun(b"a", destination=WAYS)
    row("two pods, to one of which a connection is open", two + opened(3, OK) + begun(b"b", link=4, destination=WAYS) + opened(5, OK)
        + woken(2, b"c") + woken(5, data(1, b"d")))
    row("two pods, and four connections", PAIR + "".join(begun(b"x", link=link, destination=WAYS) for link in (2, 4, 6, 7))
        + opened(3, OK, headers(3, b"\x88")) + opened(5, OK, headers(3, b"\x88")))
    row("two pods, of which the first gets the connection back that ended", two + opened(3, OK) + begun(b"b", link=4, destination=WAYS)
        + opened(5, OK) + on("end", 2) + woken(3, data(1, b"", True)) + begun(b"c", link=6, destination=WAYS) + woken(3, headers(3, b"\x88")))
    row("two pods, of which the first refuses", two + opened(3, status(503)) + begun(b"b", link=4, destination=WAYS))
    row("two pods, of which the first doesn't open", two + on("refuse", 3) + begun(b"b", link=4, destination=WAYS) + opened(5, OK))
    row("two pods, by a hostname and by an address", two + begun(b"b", link=4, destination=Y5) + begun(b"c", link=6, destination=Y5))
    row("two pods, one of which is also the target itself", two + begun(b"b", link=4, destination="10.0.0.17", port=22)
        + begun(b"c", link=5, destination=WAYS))
    row("two pods, the first of which is sick", BASE + woken(1, told(p7=pod("10.0.0.17", status=1), p8=pod("10.0.0.18"), way=WAY))
        + begun(destination=WAYS) + opened(3, OK) + woken(2, b"up"))
    row("two pods, the first of which gets sick", two + opened(3, OK) + woken(1, told(p7=pod("10.0.0.17", status=1)))
        + begun(b"b", link=4, destination=WAYS) + opened(5, OK) + woken(2, b"c"))
    row("a service and a workload behind one pod share a link", THROUGH + begun(b"b", link=4, destination=Y5) + woken(3, headers(3, b"\x88"))
        + woken(2, b"a") + woken(3, data(3, b"c") + data(1, b"d")))
    row("a pod that is the gateway of its own address too", THROUGH + woken(1, told(p7=pod("10.0.0.17", hbone=1)))
        + begun(b"b", link=4, destination="10.0.0.17", port=22) + woken(3, headers(3, b"\x88")) + woken(2, b"a"))
    row("two sources through one pod have a link each", OTHERS + woken(1, ONE) + begun(b"a", destination=WAYS) + begun(
        b"b", link=4, source="10.0.0.88", destination=WAYS) + opened(3, OK) + opened(5, OK))
    row("a workload that is a waypoint by its address", BASE + woken(1, told(p7=workload(WAYPOINT, "10.0.0.17"))) + begun(destination=WAYS)
        + opened(3, OK) + woken(2, b"up"))
    row("the port of a waypoint, and not that of all gateways", BEHIND + begun(destination=WAYS) + opened(3, OK) + woken(2, b"up"),
        f"{DOOR} --hbone-port 16000")
    row("the port of all gateways, where the waypoint names none", BEHIND + begun(destination=Y5) + opened(3, OK) + woken(2, b"up"),
        f"{DOOR} --hbone-port 16000")
    six = told(p7=pod("2001:db8::17"), way=WAY, x=workload("2001:db8::9", node="n1"))
    row("a waypoint in IPv6", BASE + woken(1, six) + begun(destination=WAYS) + opened(3, OK) + on("break", 2), f"{DOOR} --trace")
    row("a source in IPv6, and a waypoint in IPv4", BASE + woken(1, ONE) + woken(1, told(x=workload("2001:db8::9", node="n1"), s=service(
        "2001:db8::4", "six.a", waypoint=NAMED))) + begun(destination="2001:db8::4", source="2001:db8::9") + opened(3, OK) + on("break", 2),
        f"{DOOR} --trace")
    row("a waypoint that is the inbound door", BASE + woken(1, told(p7=workload("10.0.0.8", serves=serves("waypoint.a"))))
        + begun(destination=Y5), "--inbound 10.0.0.8:15008 " + DOOR)
    row("a door behind a waypoint", BEHIND + begun(destination=WAYS, port=15001) + opened(3, OK) + woken(2, b"up"))
    row("a port that the service hasn't, behind a waypoint", BEHIND + begun(destination=WAYS, port=81) + opened(3, OK) + woken(2, b"up"))
    row("a source that is the waypoint's pod", BEHIND + woken(1, told(p7=pod("10.0.0.17", node="n1"))) + begun(
        destination=WAYS, source="10.0.0.17") + opened(3, OK) + woken(2, b"up"))


def waypoint_updates():
    """What becomes of waypoints: links that have their way keep it."""
    updates_ = [
        ("the waypoint goes", gone("p7", "way")), ("its pod gets sick", told(p7=pod("10.0.0.17", status=1))),
        ("its pod moves", told(p7=pod("10.0.0.71"))), ("its service is behind it no longer", told(ways=service(WAYS, "web.a"))),
        ("its service gets another waypoint", told(ways=service(WAYS, "ways.a", waypoint={**NAMED, "host": "no.a"}))),
        ("its service's waypoint is of another network", told(ways=service(WAYS, "ways.a", waypoint={**ADDRESSED, "net": "x"})))]
    for name, script in WAY_STAGES:
        for what, update in updates_:
            behind = {"while it is dialled": opened(3, OK), "while it answers": woken(3, OK)}.get(name, "")
            row(f"{what} {name}", script + woken(1, update) + behind + woken(2, b"more") + woken(3, data(1, b"back")) + begun(
                b"new", link=4, destination=WAYS))
    row("the waypoint goes, and the last tunnel through it ends", THROUGH + woken(1, gone("p7", "way")) + woken(2, b"up") + on("end", 2)
        + woken(3, data(1, b"down", True)) + on("end", 3))
    row("the waypoint goes inside a header", BEHIND + ACCEPT + woken(2, front(WAYS)[:20]) + woken(1, gone("p7", "way")) + woken(2, front(WAYS)[20:]))
    row("the waypoint comes inside a header", BASE + ACCEPT + woken(2, front(WAYS)[:20]) + woken(1, ONE) + woken(2, front(WAYS)[20:])
        + opened(3, OK) + woken(2, b"up"))
    row("a waypoint before a service that had none: its link stays, and the next one goes through", BEHIND + begun(destination=GATE)
        + opened(3, OK) + woken(1, told(gate=service(GATE, "gate.a", waypoint=NAMED))) + begun(b"new", link=4) + opened(5, OK)
        + woken(2, b"old"))
    row("a policy denies each peer, and a tunnel through a waypoint goes on", THROUGH + woken(1, DENY) + woken(2, b"more")
        + woken(3, data(1, b"back")))


def traces():
    """Each fourth row whose trace is short tells that too, but for the order in which several links are closed."""
    rows = [row for row in ROWS[::4] if "another order" not in row[0] and not {"--brief", "--trace"} & {*row[2]}]
    ROWS.extend(model_rows.traced(rows, 6000, 6000))


def all_rows():
    for rows in (by_hand, statuses, malformed, dials, identities, ends, leaving, limits, pools, places, windows, rooms, faults, updates,
                 mixed, cut_runs, waypoints, waypoint_updates, traces, named):
        rows()
    assert len({name for name, *_ in ROWS}) == len(ROWS)
    return ROWS


# The table

HEAD = ["Runs of `hbone replay --outbound` by gateways. bench/tables/gateway_rows.py prints this file: a plain model answers."]
PARTS = {
    "usual": " ".join(replay_rows.USUAL_WORDS), "front": front(GATE).hex(), "set": SET.hex(), "ok": OK.hex(), "ping": PING.hex(),
    "deny": DENY.hex(), "client": tunnel_model.CLIENT.hex(),
    "tofront": tunnel_model.put_front(tunnel_model.address_of(bytes([10, 0, 0, 9])), tunnel_model.target_of("10.0.0.6:15008"), None).hex(),
    "asks1": (headers(1, b"\x20\x02\x07CONNECT\x01\x0d10.0.0.6:8080")).hex(),
    "mesh": BASE, "meshtold": outbound.PARTS["meshtold"], "told": begun() + opened(3, OK),
    "one": ONE.hex(), "pair": TWO_PODS.hex(), "ways": front(WAYS).hex(),
}


def main():
    table = Table(HEAD, PARTS)
    for each in all_rows():
        model_rows.put_row(table, *each)
    table.print()


if __name__ == "__main__":
    main()
