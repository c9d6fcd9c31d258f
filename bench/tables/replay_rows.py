#!/usr/bin/python3
"""Prints tests/replay/control.runs: runs of `hbone replay`, each with its status, its whole output and its error text.

bench/tables/replay_model.py, which knows the formats alone, gives the answers. A row has to end the same by every choice that the
rules leave open, but where it counts turns.

    /usr/bin/python3 bench/tables/replay_rows.py > tests/replay/control.runs
"""
import json

import replay_model as model
from replay_model import ADDRESS, CONTINUATION, DATA, GOAWAY, HEADERS, PING, POLICY, PRIORITY, PUSH, RESET, SETTINGS, WINDOW
from replay_model import frame, put, put_message, put_text, varint
from run_table import Table

CONTROL = "10.0.0.1:15010"
USUAL_WORDS = ["--node", "n1", "--id", "z1", "--discovery", CONTROL]
TYPES = {"UA": ADDRESS.encode().hex(), "UZ": POLICY.encode().hex(), "PT": b"cluster.local/ns/a/sa/c".hex()}


def octets(text):
    """Octets of digits, and of names between them."""
    return bytes.fromhex("".join(TYPES.get(word, word) for word in text.split()))


W = "0a03776562 120161 1a040a000007 2801 4a026e31 820103612f70 a201027531"
P = "0a0170 120161 1802 2a1f 121d 121b 1a19 0a17 PT"
# a workload u1; a policy a/p; g1 and g2 can be read and b, between them, can't; u1 is removed and added again
M1 = octets(f"000000008a 1258 0a0131 124f 0a2a UA 1221 0a1f {W} 1a027531 222a UA 2a027831")
M2 = octets(f"000000009f 1267 0a0131 125d 0a30 UZ 1229 {P} 1a03612f70 2230 UZ 2a027832")
M5 = octets("00000000e2 1239 0a0131 1230 0a2a UA 12020a00 1a026731 123a 0a0131 1232 0a2a UA 12040a021a00 1a0162 "
            "1239 0a0131 1230 0a2a UA 12020a00 1a026732 222a UA 2a027835")
M6 = octets(f"000000008e 1258 0a0131 124f 0a2a UA 1221 0a1f {W} 1a027531 222a UA 2a027836 32027531")


def data(content, flags=0, stream=1):
    return frame(DATA, flags, stream, content)


def headers(block, flags=4, stream=1):
    return frame(HEADERS, flags, stream, block)


def status(text):
    return headers(bytes([8, len(text)]) + text)


def grant(count, stream=1):
    return frame(WINDOW, 0, stream, count.to_bytes(4, "big"))


def setting(number, value):
    return frame(SETTINGS, 0, 0, number.to_bytes(2, "big") + value.to_bytes(4, "big"))


def resource(name, record=b"\x0a\0", url=ADDRESS, version="1"):
    return put_text(1, version) + put(2, put_text(1, url) + put(2, record)) + put_text(3, name)


def response(url, nonce, resources=(), removed=(), more=b""):
    parts = b"".join(put(2, r) for r in resources) + more + put_text(4, url) + put_text(5, nonce)
    return put_message(parts + b"".join(put_text(6, name) for name in removed))


SET, ACK, OK = frame(SETTINGS, 0, 0), frame(SETTINGS, 1, 0), headers(b"\x88")
PINGED, PONG = frame(PING, 0, 0, b"12345678"), frame(PING, 1, 0, b"12345678")
PADDED = data(b"\xff" + bytes(255), 8)


# Scripts


def line(**members):
    return json.dumps(members, separators=(",", ":"), sort_keys=True)


WAKE, TICK, STOP, FAULT = line(wake=True), line(tick=True), line(stop=True), line(fault="wait")


def on(word, number=1):
    return line(**{word: number})


def room(count, link=1):
    return line(link=link, room=count)


def piece(content, link=1):
    return line(bytes=content.hex(), link=link)


def came(*contents):
    """A piece each, and a wait behind it."""
    return [text for content in contents for text in (piece(content), WAKE)]


OPEN = [on("open"), WAKE]
BASE = OPEN + came(SET + OK, data(M1), data(M2))
LIVE = OPEN + came(SET + OK)
AGAIN = [TICK, on("open", 2), WAKE]


# The table

PARTS = {}
HEAD = ["Runs of `hbone replay` over scripts of a control plane. bench/tables/replay_rows.py prints this file: a plain model of the formats",
        "gives each answer."]


def name_parts():
    """Names of the texts that stand often."""
    link = model.Link(1, "z1", CONTROL, {}, model.USUAL)
    named = {"opening": link.output()}
    for name, held in [("firsts", []), ("firsts_u1", [(ADDRESS, "u1")]), ("firsts_u1_ap", [(ADDRESS, "u1"), (POLICY, "a/p")]),
                       ("firsts_ap", [(POLICY, "a/p")])]:
        held = {key: "1" for key in held}
        named[name] = data(model.first_request("z1", ADDRESS, held) + model.first_request("z1", POLICY, held))
    named.update(m1=data(M1), m2=data(M2), m5=data(M5), m6=data(M6), set=SET, ack=ACK, ok=OK, ping=PINGED, pong=PONG)
    for nonce, url in [("x1", ADDRESS), ("x2", POLICY), ("x6", ADDRESS)]:
        named["ack_" + nonce] = data(model.answer(url, nonce, None))
    named["nack_x5"] = data(model.answer(ADDRESS, "x5", "b"))
    named["address"], named["policy"] = ADDRESS.encode(), POLICY.encode()
    PARTS.update((name, content.hex()) for name, content in named.items())
    for name, lines in [("live", LIVE), ("base", BASE)]:
        PARTS[name] = "".join(text + "\n" for text in lines)
    for name, lines in [("opened", OPEN), ("lived", LIVE), ("based", BASE)]:
        out = model.replay(USUAL_WORDS + ["--trace"], "\n".join(lines).encode())[1]
        PARTS[name] = out[:out.index("closed 1 stopped")]
    PARTS.update(usual=" ".join(USUAL_WORDS), usage=model.USAGE[1:])


name_parts()
TABLE = Table(HEAD, PARTS)


def row(name, lines, *more, words=USUAL_WORDS, free=False, cuts=0):
    """A run. One that counts turns, and so is `free`, is by the usual choice."""
    script = lines if isinstance(lines, str) else "".join(text + "\n" for text in lines)
    words = [*words, *more]
    answer = model.replay(words, script.encode())
    for choice in [] if free else model.CHOICES:
        assert model.replay(words, script.encode(), choice) == answer, (name, choice)
    code, out, err = answer
    assert code != 2
    TABLE.script(name, ["replay", *words], script, code, out, err, cuts)


# The lists of words that are refused for each reason
REFUSED = {}


def refused(*words):
    code, out, err = model.replay(list(words), b"")
    assert code == 2 and not out and err.endswith(model.USAGE + "\n")
    REFUSED.setdefault(err, []).append(["replay", *words])


def rows_of_refused_words():
    """A row for each reason. Nothing is read: the input, a folder, can't be."""
    for error, lists in REFUSED.items():
        TABLE.begin(f"words that are refused: {error[len('hbone: words: '):-len(model.USAGE) - 1]}")
        TABLE.source("/")
        TABLE.wanted(2, error)
        for words in lists:
            TABLE.run(words)


def rows_of_runs():
    row("a wait fails", [FAULT])
    row("one turn and no line", "", "--turns", "1")
    row("no line", "")
    row("no line, told", "", "--trace")
    row("a wait fails, told", OPEN + [FAULT], "--trace")
    row("a link number of 0", [WAKE, on("open", 0)])
    row("the base", BASE)
    row("the base, cut", BASE, cuts=200)
    row("the base, told", BASE, "--trace")
    row("the base in brief", BASE, "--brief")
    row("told and in brief", BASE, "--trace", "--brief")
    row("the last newline is missing", "\n".join(BASE))
    row("empty rows", "\n\n".join(BASE) + "\n\n")
    row("the words that change no run of discovery alone", BASE, "--network", "x", "--hbone-port=1", "--tunnels", "1", "--trace")
    for name, words in [
            ("options with an equals sign", ["--turns=1000", "--id=z1", "--hbone-port=65535", "--tunnels=4096", "--node=a=b",
                                             f"--discovery={CONTROL}", "--network=x"]),
            ("flags in front", ["--trace", "--discovery", CONTROL, "--tunnels", "1", "--node", "n", "--network", "x", "--id",
                                "z1"]),
            ("an IPv6 address", ["--node", "n1", "--id", "id", "--discovery", "[2001:DB8:0:0::1]:65535", "--trace"]),
            ("an IPv4 address mapped into IPv6", ["--node", "n1", "--id", "z1", "--discovery", "[::ffff:10.0.0.1]:15010",
                                                  "--trace"]),
            ("a port with leading zeros", ["--node", "n1", "--id", "z1", "--discovery", "255.255.255.255:00080", "--trace"]),
            ("an inbound door", [*USUAL_WORDS, "--inbound", "0.0.0.0:15008"]),
            ("an inbound door with an equals sign", [*USUAL_WORDS, "--inbound=[::]:15008", "--tunnels", "1"]),
            ("an inbound door in front", ["--inbound", "[::1]:15008", *USUAL_WORDS, "--network=x", "--brief"]),
            ("an inbound door between, at the control plane's address",
             [*USUAL_WORDS[:4], f"--inbound={CONTROL}", "--brief", *USUAL_WORDS[4:]]),
            ("a plain door", [*USUAL_WORDS, "--plain", "0.0.0.0:15001"]),
            ("a plain door in front, and an inbound one", ["--plain=[::1]:15001", *USUAL_WORDS, "--inbound", "[::1]:15008"]),
            ("an outbound door", [*USUAL_WORDS, "--outbound", "0.0.0.0:15001"]),
            ("three doors", ["--outbound=[::1]:15001", *USUAL_WORDS, "--plain", "[::1]:15006", "--inbound=[::1]:15008"]),
            ("an id of equals signs", ["--node", "n1", "--id", "==", "--discovery", CONTROL, "--trace"])]:
        row(f"words: {name}", LIVE, words=words)
    row("a stop, and lines behind it", LIVE + [piece(data(M1)), STOP] + came(data(M2)), "--trace")
    row("a fault of a listen that nothing makes", [on("fault", "listen")] + LIVE + [on("fault", "listen"), WAKE], "--trace")
    row("connections wait at doors that don't listen", [on("accept", door) for door in ("inbound", "outbound", "plain")] + OPEN,
        "--trace")


def rows_of_turns():
    for count in (1, 2, 3, 4, 5, 6, 7, 8, 10):
        row(f"turns: {count}", LIVE + came(data(M1)), "--trace", "--turns", str(count), free=True)
    row("the most turns", LIVE, "--turns", "18446744073709551615")
    row("a stop in the last turn", [STOP], "--turns", "2")
    row("a fault in the last turn", [FAULT], "--turns", "2")
    row("a wake in the last turn", [WAKE, STOP], "--turns", "2")


def rows_of_births():
    row("a link breaks, and the second one tells what is held", BASE + [on("break"), WAKE] + AGAIN, "--trace")
    row("a link breaks, not told", BASE + [on("break"), WAKE] + AGAIN)
    row("the tick that wakes a broken link dials nothing, the next one does", BASE + [on("break"), TICK] + AGAIN, "--trace")
    row("a link is refused", [on("refuse"), WAKE, WAKE] + AGAIN, "--trace")
    row("a link is refused behind opening", [on("open"), on("refuse"), WAKE, TICK, on("refuse", 2), on("open", 2), WAKE],
        "--trace")
    row("a link is refused where it is open", LIVE + [on("refuse")] + came(data(M1)), "--trace")
    row("each link ends at once", [room(0), room(0, 2), on("end"), on("open"), WAKE, on("end", 2), TICK, on("open", 2), WAKE,
                                   TICK],
        "--trace")
    row("ticks while a link lives", [TICK, TICK] + OPEN + [TICK] + came(SET + OK) + [TICK], "--trace")
    row("two dials fail", [on("refuse"), on("nodial", 2), WAKE, TICK, TICK, TICK], "--trace")
    row("dials fail as long as the farther line says", [on("refuse"), on("nodial", 3), on("nodial", 1), WAKE] + [TICK] * 4,
        "--trace")
    row("no dial fails", [on("refuse"), on("nodial", 0), WAKE, TICK], "--trace")
    row("a link that is live takes no dial", LIVE + [on("nodial", 1), TICK, on("end"), TICK, TICK], "--trace")
    row("lines of a link that isn't born", [on("open", 2), piece(SET + OK, 2), piece(data(M2), 2), room(330, 2), on("refuse"), WAKE,
                                            TICK, WAKE, on("end", 2), WAKE, TICK, on("open", 3), WAKE])
    row("an end of a link that isn't born", [on("open", 2), piece(SET + OK, 2), piece(data(M2), 2), on("end", 2), room(0, 2),
                                             on("refuse"), WAKE, TICK, WAKE, TICK, on("open", 3), WAKE])
    many = [text for number in range(1, 13) for text in (on("refuse", number), WAKE, TICK)]
    row("twelve links are refused", many)
    row("the lines of twelve links at once", [on("refuse", number) for number in range(1, 13)] + [TICK] * 30, "--brief")
    row("the end of a run with a link that waits", [on("refuse"), TICK, TICK, STOP], "--trace")


def rows_of_ends():
    row("an end behind pieces", LIVE + [room(0), piece(data(M1)), on("end"), piece(data(M2)), WAKE] + AGAIN, "--trace")
    row("an end and a break", LIVE + [on("end"), on("break"), WAKE], "--trace")
    row("a break in front of the finish", [on("break")] + OPEN, "--trace")
    row("a break while all waits", [room(0)] + OPEN + [on("break"), WAKE] + AGAIN, "--trace")
    row("a break while an answer waits", LIVE + [room(0)] + came(data(M1)) + [on("break"), WAKE] + AGAIN, "--trace")
    row("a break behind a message", LIVE + [piece(data(M1)), on("break"), WAKE] + AGAIN, "--trace")
    row("an end while a part of the opening waits", [room(30)] + OPEN + [on("end"), WAKE] + AGAIN)
    row("an end in a message", LIVE + came(data(M1[:60])) + [on("end"), WAKE] + AGAIN, "--trace")
    row("an end in a frame", LIVE + came(data(M1)[:60]) + [on("end"), WAKE] + AGAIN)
    row("the second link goes on with a message from its start", LIVE + came(data(M1[:60])) + [on("end"), WAKE] + AGAIN
        + [piece(SET + OK, 2), WAKE, piece(data(M1[60:]), 2), WAKE, TICK])


def rows_of_answers():
    for name, content in [
            ("status 404", headers(b"\x8d")), ("status 204", headers(b"\x89")), ("status 201", status(b"201")),
            ("status 099", status(b"099")), ("no status", headers(b"\x00\x01a\x01b")), ("no header", headers(b"")),
            ("a status of two digits", status(b"20")), ("a status of four digits", status(b"2000")),
            ("a status that is no number", status(b"2 0")), ("a signed status", status(b"+20")),
            ("the end beside the status", headers(b"\x88", 5)), ("the end beside a status 100", headers(b"\x08\x03100", 5)),
            ("two statuses, 404 first", headers(b"\x8d\x88")),
            ("an end of the stream", OK + data(b"", 1)), ("a last message and the end", OK + data(M2, 1)),
            ("a message in front of another status", data(M1) + headers(b"\x8d")),
            ("trailers", OK + headers(b"\x00\x0bgrpc-status\x010", 5)),
            ("an end in front of the status", data(b"", 1)),
            ("RST_STREAM", OK + frame(RESET, 0, 1, b"\0\0\0\x08")), ("RST_STREAM at once", frame(RESET, 0, 1, bytes(4))),
            ("an increment of 0 on the stream", grant(0)), ("a stream's window above the largest", grant(2**31 - 1)),
            ("a compressed message", OK + data(M1 + b"\x01")), ("a message that is too long", OK + data(b"\0\x04\0\0\x01")),
            ("bytes that end in a field", OK + data(put_message(b"\x0a"))), ("no message at all", OK + data(put_message(b""))),
            ("another type", OK + data(response("type.googleapis.com/x", "n"))),
            ("a nonce that isn't UTF-8", OK + data(put_message(put_text(4, ADDRESS) + b"\x2a\1\xff"))),
            ("a version that isn't UTF-8", OK + data(put_message(b"\x0a\1\xff" + put_text(4, ADDRESS)))),
            ("a field number of 0", OK + data(put_message(put_text(4, ADDRESS) + b"\x02\0"))),
            ("a wire type of 3", OK + data(put_message(put_text(4, ADDRESS) + b"\x7b"))),
            ("a varint of eleven bytes", OK + data(put_message(b"\x08" + b"\xff" * 10 + b"\1")))]:
        row(name, OPEN + came(SET, content) + AGAIN)
    row("a status 404, told", OPEN + came(SET, headers(b"\x8d")) + AGAIN, "--trace")
    row("status 100, then 103, then 200", OPEN + came(SET + status(b"100"), status(b"103"), OK, data(M1)), "--trace")
    row("a status in the code of Huffman", OPEN + came(SET, headers(b"\x08\x82\x10\x01"), data(M1)) + AGAIN, "--trace")
    row("two statuses, 200 first", OPEN + came(SET, headers(b"\x88\x8d"), data(M1)), "--trace")
    row("a second header list", LIVE + came(headers(b"\x8d"), data(M1)), "--trace")
    row("messages in front of the status", OPEN + came(SET, data(M1), OK, data(M2)) + [on("end"), WAKE] + AGAIN, "--trace")
    row("GOAWAY of no stream", LIVE + came(data(M1), frame(GOAWAY, 0, 0, bytes(8))) + AGAIN, "--trace")
    row("GOAWAY of no stream with the reserved bit and a text", LIVE + came(frame(GOAWAY, 0, 0, b"\x80" + bytes(7) + b"bye"))
        + AGAIN)
    row("GOAWAY of the stream and of a later one", LIVE
        + came(*(frame(GOAWAY, 0, 0, n + bytes(4)) for n in (b"\0\0\0\1", b"\x7f" * 4)),
                                                             data(M1)), "--trace")


def rows_of_messages():
    row("a refused resource", LIVE + came(data(M5)) + [on("break"), WAKE] + AGAIN, "--trace")
    row("a name is removed and added again", LIVE + came(data(M1), data(M6)) + [on("break"), WAKE] + AGAIN, "--trace")
    row("a name is removed", BASE + came(data(response(ADDRESS, "n", removed=["u1", "u2"]))) + [on("break"), WAKE] + AGAIN,
        "--trace")
    row("a name of another kind is removed", BASE + came(data(response(POLICY, "n", removed=["u1"]))) + [on("break"), WAKE]
        + AGAIN)
    names = ["b", "a", "ab", "B", "\u00e9", "z"]
    row("names in the order of their octets", LIVE
        + came(data(response(ADDRESS, "n", [resource(n, version="v" + n) for n in names])))
        + [on("end"), WAKE] + AGAIN, "--trace")
    row("the latter of two versions", LIVE + came(data(response(ADDRESS, "n", [resource("a"), resource("a", version="22")])))
        + [on("end"), WAKE] + AGAIN, "--trace")
    row("an empty version, and no nonce", LIVE + came(data(response(ADDRESS, "", [resource("a", version="")])))
        + [on("end"), WAKE] + AGAIN,
        "--trace")
    record = octets(f"0a1f {W}")
    broken = [
        ("no name", resource("")), ("another type", resource("c", url=POLICY)), ("no type", resource("c", url="")),
        ("bytes that end in a field", resource("c", record[:-1])), ("no kind", resource("c", b"")),
        ("octets of no address", resource("c", b"\x0a\x07\x1a\x05" + bytes(5))),
        ("a name that isn't UTF-8", resource("c", b"\x0a\3\x0a\1\xff")),
        ("a waypoint without a place", resource("c", b"\x12\2\x3a\0")),
        ("an address of a network without octets", resource("c", b"\x12\2\x22\0"))]
    for name, bad in broken:
        row(f"refused: {name}", LIVE + came(data(response(ADDRESS, "n", [resource("a"), bad, resource("z", b""), resource("y")])))
            + [on("end"), WAKE] + AGAIN, "--trace")
    policies = [
        ("a scope of 3", b"\x18\3"), ("an action of 2", b"\x20\2"), ("a string match of no kind", b"\x2a\6\x12\4\x12\2\x0a\0"),
        ("a prefix without octets", b"\x2a\6\x12\4\x12\2\x2a\0"),
        ("a prefix of 33 bits", b"\x2a\x0e\x12\x0c\x12\x0a\x2a\x08\x0a\4\0\0\0\0\x10\x21")]
    for name, bad in policies:
        row(f"refused policy: {name}", LIVE
            + came(data(response(POLICY, "n", [resource("p", bad, POLICY), resource("q", b"", POLICY)])))
            + [on("end"), WAKE] + AGAIN, "--trace")
    row("a refused resource leaves what was held", LIVE
        + came(data(M1), data(response(ADDRESS, "n", [resource("u1", b"", version="2")])))
        + [on("end"), WAKE] + AGAIN, "--trace")


def rows_of_frames():
    cut = data(M1[:7]), data(M1[7:70]), data(M1[70:])
    row("a message in three frames", LIVE + came(b"".join(cut)), "--trace")
    row("a message in three frames, a wait behind each", LIVE + came(*cut), "--trace")
    row("a frame in two pieces", LIVE + came(data(M1)[:8], data(M1)[8:]), "--trace")
    row("two messages in two pieces of one wait", LIVE + [piece(data(M1)), piece(data(M2)), WAKE])
    row("two messages in two pieces of one wait, and room behind them", LIVE + [room(0), piece(data(M1)), piece(data(M2)), WAKE]
        + [room(1000), WAKE], "--trace")
    row("padded DATA", LIVE + came(data(b""), data(b"\3" + M1 + bytes(3), 8), data(b"\0", 8)), "--trace")
    row("a header block in three pieces", OPEN + came(SET, headers(b"", 0), frame(CONTINUATION, 0, 1, b""),
                                                      frame(CONTINUATION, 4, 1, b"\x88"),
                                                      data(M1)), "--trace")
    row("a header block of 32,768 bytes", LIVE
        + came(headers(b"\x88" * 16384, 0) + frame(CONTINUATION, 4, 1, b"\x88" * 16384), data(M1)))
    row("a padded header block with a priority", OPEN + came(SET, headers(b"\2" + bytes(5) + b"\x88\1\1", 0x2c), data(M1)),
        "--trace")
    row("the end of a header block in two pieces", OPEN + came(SET, headers(b"", 1), frame(CONTINUATION, 4, 1, b"\x88")) + AGAIN)
    row("what is read and says nothing", LIVE + came(frame(PRIORITY, 0, 1, bytes(5)), frame(PRIORITY, 0, 7, bytes(5)),
                                                     frame(250, 255, 77, b"what"),
                                                     frame(SETTINGS, 1, 0), frame(PING, 1, 0, bytes(8)), data(M1)), "--trace")
    row("settings of every number", OPEN
        + came(frame(SETTINGS, 0, 0, b"".join(n.to_bytes(2, "big") + v.to_bytes(4, "big") for n, v in [
        (1, 0), (2, 0), (3, 0), (4, 2**31 - 1), (4, 0), (4, 65535), (5, 16777215), (6, 0), (7, 9), (0, 1),
        (65535, 5)])) + OK, data(M1)),
        "--trace")
    row("PING is answered", LIVE + came(PINGED, SET + PINGED), "--trace")


def conn_faults():
    """A connection error each, its frames behind an acknowledged SETTINGS and an answer of 200."""
    yield "a length above 16,384, told at nine bytes", (16385).to_bytes(3, "big") + bytes(6)
    yield "an unknown frame of a length above 16,384", (16385).to_bytes(3, "big") + b"\xfa" + bytes(5)
    yield "PING in a header block", headers(b"", 0) + PINGED
    yield "HEADERS in a header block", headers(b"", 0) + OK
    yield "an unknown frame in a header block", headers(b"", 0) + frame(250, 0, 1)
    yield "CONTINUATION of another stream", headers(b"", 0) + frame(CONTINUATION, 4, 3, b"\x88")
    yield "CONTINUATION of nothing", frame(CONTINUATION, 4, 1, b"\x88")
    for name, kind in [("DATA", DATA), ("HEADERS", HEADERS), ("PRIORITY", PRIORITY), ("RST_STREAM", RESET)]:
        yield f"{name} on stream 0", frame(kind, 4 if kind == HEADERS else 0, 0, bytes({PRIORITY: 5, RESET: 4}.get(kind, 0)))
    for name, kind in [("SETTINGS", SETTINGS), ("PING", PING), ("GOAWAY", GOAWAY)]:
        yield f"{name} on stream 1", frame(kind, 0, 1, bytes({SETTINGS: 0}.get(kind, 8)))
    yield "PUSH_PROMISE", frame(PUSH, 4, 1, b"\0\0\0\2\x88")
    yield "padded DATA without a byte", data(b"", 8)
    yield "HEADERS too short for a priority", headers(bytes(4), 0x24)
    yield "HEADERS too short for a priority behind a padding", headers(bytes(5), 0x2c)
    yield "padding longer than DATA", data(b"\2a", 8)
    yield "padding longer than a header block", headers(b"\2" + bytes(5) + b"\x88", 0x2c)
    yield "PRIORITY of four bytes", frame(PRIORITY, 0, 1, bytes(4))
    yield "RST_STREAM of five bytes", frame(RESET, 0, 1, bytes(5))
    yield "PING of seven bytes", frame(PING, 0, 0, bytes(7))
    yield "a PING of nine bytes that is an answer", frame(PING, 1, 0, bytes(9))
    yield "GOAWAY of seven bytes", frame(GOAWAY, 0, 0, bytes(7))
    yield "WINDOW_UPDATE of three bytes", frame(WINDOW, 0, 1, bytes(3))
    yield "SETTINGS of five bytes", frame(SETTINGS, 0, 0, bytes(5))
    yield "an acknowledgement that isn't empty", frame(SETTINGS, 1, 0, bytes(6))
    yield "push is enabled", setting(2, 1)
    yield "push of 2", setting(2, 2)
    yield "a frame size of 16,383", setting(5, 16383)
    yield "a frame size of 16,777,216", setting(5, 16777216)
    yield "a first window above the largest", setting(4, 2**31)
    yield "a first window that takes the stream's above the largest", grant(1000) + setting(4, 2**31 - 1)
    yield "a bad frame size behind a bad window", frame(SETTINGS, 0, 0, b"\0\4\x80\0\0\0\0\5\0\0\0\0")
    yield "an increment of 0 on the connection", grant(0, 0)
    yield "a header block above 32,768 bytes", headers(bytes(16384), 0) + frame(CONTINUATION, 0, 1, bytes(16384)) + frame(
        CONTINUATION, 0, 1, b"\0")
    yield "an index of 0", headers(b"\x80")
    yield "an index of nothing", headers(b"\xbe")
    yield "a size update above the setting", headers(b"\x3f\xe2\x1f\x88")
    yield "a size update behind a header", headers(b"\x88\x20")
    yield "a padding of Huffman that isn't ones", headers(b"\x08\x82\x10\x00")
    yield "a literal that is cut", headers(b"\x08\x04200")
    yield "a broken header block of another stream", headers(b"\x80", 4, 2)
    yield "HEADERS on stream 2", headers(b"\x88", 4, 2)
    yield "HEADERS on stream 3", headers(b"\x88", 4, 3)
    yield "DATA on stream 3", data(b"x", 0, 3)
    yield "RST_STREAM on stream 2", frame(RESET, 0, 2, bytes(4))
    yield "WINDOW_UPDATE on stream 3", grant(1, 3)
    yield "an increment of 0 on stream 3", grant(0, 3)
    yield "the connection's window above the largest", grant(2**31 - 1, 0)


def rows_of_faults():
    for name, content in conn_faults():
        row(name, LIVE + came(data(M1), content) + AGAIN)
    for name, content in [("PING comes first", PINGED), ("an acknowledgement comes first", ACK), ("HEADERS come first", OK),
                          ("GOAWAY comes first", frame(GOAWAY, 0, 0, bytes(8))),
                          ("an unknown frame comes first", frame(250, 0, 0)),
                          ("a short SETTINGS comes first", frame(SETTINGS, 0, 0, bytes(5))),
                          ("PING that is too long comes first", frame(PING, 0, 0, bytes(9)))]:
        row(name, OPEN + came(content) + AGAIN)
    fault = frame(PING, 0, 0, bytes(7))
    row("a connection error, told", LIVE + came(data(M1), fault) + AGAIN, "--trace")
    row("a connection error behind answers", LIVE + came(PINGED + SET + fault + PINGED) + AGAIN, "--trace")
    row("a connection error behind a message", LIVE + came(data(M1) + fault + data(M2)) + AGAIN)
    row("a connection error, and room for three bytes", LIVE + [room(3)] + came(fault), "--trace")
    row("a connection error, and no room", LIVE + [room(0)] + came(fault) + [room(100), WAKE], "--trace")
    row("a connection error, and the write fails", LIVE + [piece(fault), on("break"), WAKE] + AGAIN, "--trace")
    row("a connection error while the requests wait", [room(len(PARTS["opening"]) // 2)] + OPEN + came(SET + fault) + AGAIN,
        "--trace")
    row("a connection error in the midst of the requests", [room(len(PARTS["opening"]) // 2 + 40)] + OPEN
        + [piece(SET + fault), room(1000), WAKE] + AGAIN)
    row("a connection error in front of the opening", [room(0)] + OPEN + came(fault) + AGAIN, "--trace")


def rows_of_windows():
    small = [room(0)] + OPEN + came(setting(4, 10) + OK) + [room(100000), WAKE]
    row("a window of ten octets", small, "--trace")
    row("a window that grows octet by octet", small + came(*[grant(1)] * 6), "--trace")
    row("a window that grows to the end of the requests and on", small + came(grant(105), grant(1), data(M1), grant(1),
                                                                              grant(47), grant(1)),
        "--trace")
    row("a window of no octet", [room(0)] + OPEN + came(setting(4, 0)) + [room(100000), WAKE]
        + came(OK, setting(4, 3), setting(4, 116)), "--trace")
    row("a window below zero", small + came(setting(4, 0), grant(9), grant(1), grant(1)), "--trace")
    row("a window grows by another first size", small + came(setting(4, 12), setting(4, 12), setting(4, 65535)), "--trace")
    row("answers wait for the window", small + came(data(M1), data(M2), PINGED, grant(200)))
    row("an answer waits at the end", small + came(data(M1)) + [on("end"), WAKE] + AGAIN, "--trace")
    row("the connection's window alone doesn't help", small + came(grant(100, 0)), "--trace")
    most = 2**31 - 1
    row("windows up to the largest", LIVE + came(grant(most - 65419), grant(most - 65419, 0), data(M1), setting(4, 65535)),
        "--trace")
    row("the stream's window one above the largest", LIVE + came(grant(most - 65419), grant(1)) + AGAIN)
    row("the connection's window one above the largest", LIVE + came(grant(most - 65419, 0), grant(1, 0)) + AGAIN)
    row("a first size one above the largest", LIVE + came(setting(4, most), grant(117)) + AGAIN)
    waiting = [room(len(PARTS["opening"]) // 2)] + OPEN + came(SET + OK)
    row("windows up to the largest while the requests wait", waiting + came(grant(most - 65535), grant(most - 65535, 0))
        + [room(10000), WAKE])
    row("the stream's window one above the largest while the requests wait", waiting + came(grant(most - 65534)) + AGAIN)
    row("the connection's window one above the largest while the requests wait", waiting + came(grant(most - 65534, 0)) + AGAIN)
    row("a first size one above the largest while the requests wait", waiting + came(grant(1), setting(4, most)) + AGAIN)
    begun = [room(len(PARTS["opening"]) // 2 + 1)] + OPEN + came(SET + OK)
    row("windows up to the largest while the requests go", begun + came(grant(most - 65419), grant(most - 65419, 0))
        + [room(10000), WAKE])
    row("the stream's window one above the largest while the requests go", begun + came(grant(most - 65418)) + AGAIN)
    long = [word if word != "z1" else "z" * 40000 for word in USUAL_WORDS]
    row("both windows are used up", OPEN, words=long)
    row("the stream's window grows, and the connection's doesn't", LIVE + came(grant(5000)), words=long)
    row("the connection's window grows, and the stream's doesn't", LIVE + came(grant(5000, 0)), words=long)
    row("both windows grow, octet by octet", LIVE + came(grant(5000), *[grant(1, 0)] * 5), words=long)
    row("both windows grow to the end", LIVE + came(grant(50000), grant(14583, 0), grant(1, 0), grant(1, 0), data(M1),
                                                    grant(10, 0)), words=long)
    big = response(ADDRESS, "n", more=b"\x7a" + varint(40000) + bytes(40000))
    frames = [data(big[at:at + 16384]) for at in range(0, len(big), 16384)]
    row("a long message, and what it took is granted again", LIVE + came(*frames))
    row("a long message in one piece", LIVE + came(b"".join(frames)))
    row("DATA of less than what is granted again", LIVE + came(*frames[:1], data(big[16384:32767])))
    row("DATA of just what is granted again", LIVE + came(*frames[:1], data(big[16384:32768])))
    row("padding of less than what is granted again", LIVE + came(PADDED * 127))
    row("padding is granted again", LIVE + came(PADDED * 127, PADDED))


def rows_of_floods():
    row("a flood of PING while writes balk", LIVE + [room(0), piece(PINGED * 5000), WAKE, WAKE, room(10**6), WAKE])
    row("a flood of SETTINGS while writes balk", LIVE + [room(0), piece(SET * 8000), WAKE, WAKE, room(10**6), WAKE])
    row("a flood of PING, and room bit by bit", LIVE + [room(0), piece(PINGED * 5000), WAKE, room(1), WAKE, room(16), WAKE,
                                                        room(20000), WAKE,
                                                      room(7), WAKE, room(64976), WAKE])
    row("a flood of both in many pieces", LIVE + [room(0)] + [piece((PINGED + SET) * 50)] * 80 + [WAKE, room(10**6), WAKE])
    row("a flood, and a message behind it", LIVE + [room(0), piece(PINGED * 5000 + data(M1)), WAKE, room(10**6), WAKE])
    row("a flood, and an end behind it", LIVE + [room(0), piece(PINGED * 5000), WAKE, room(10**6), WAKE, on("end"), WAKE] + AGAIN)
    row("a flood, and an end that isn't read", LIVE + [room(0), piece(SET + PINGED * 3836), on("end"), WAKE] + AGAIN)
    row("the last room counts", [room(1000), room(10)] + OPEN + [room(5), room(7), WAKE], "--trace")
    row("an opening that goes in parts", [room(10)] + OPEN + [room(0), WAKE, room(1), WAKE, room(1000), WAKE], "--trace")
    row("no write for a turn", OPEN + [room(0)] + came(SET + OK, data(M1), data(M2)) + [room(9), WAKE, room(6), WAKE]
        + [room(1000), WAKE])
    row("an answer octet by octet", LIVE + [room(0)] + came(data(M1)) + [room(1), WAKE] * 5 + [room(0), WAKE, room(1000), WAKE],
        "--trace")


def rows_of_lines():
    for name, text in [
            ("no JSON", "{"), ("blanks", " "), ("two values", "{} {}"), ("no object", "[]"), ("a number", "1"),
            ("no key", "{}"), ("an unknown key", '{"opens":1}'),
            ("two forms", '{"open":1,"end":1}'), ("a key too few", '{"bytes":"00"}'), ("a door of no name", '{"accept":"front"}'),
            ("a wake of false", '{"wake":false}'), ("a link of text", '{"open":"1"}'), ("a link of 1.0", '{"open":1.0}'),
            ("a link above the largest", '{"open":9223372036854775808}'),
            ("a room below 0", '{"link":1,"room":-1}'),
            ("no bytes", '{"bytes":"","link":1}'),
            ("half a byte", '{"bytes":"0","link":1}'), ("no digits", '{"bytes":"0g","link":1}'),
            ("a bad link and bad digits", '{"bytes":"0","link":0}'),
            ("a number that is no JSON", '{"open":01}'), ("a fault of no name", '{"fault":"read"}')]:
        row(f"an unreadable line: {name}", "\n".join([WAKE, "", text, "{", ""]))
    row("an unreadable line behind a stop", [STOP, "[]"], "--trace")
    row("keys twice, escapes, and blanks",
        '{"open":7,"open":1}\n { "w\\u0061ke" : true }\r\n{"link":1,"bytes":"000000040000000000"}\n{"wake":true}', "--trace")
    row("the largest numbers", [on("open", 2**63 - 1), room(2**63 - 1), on("nodial", 2**63 - 1)] + OPEN)


def rows_of_words():
    usual = {"--node": "n1", "--id": "z1", "--discovery": CONTROL}
    for name in usual:
        refused(*(word for pair in usual.items() if pair[0] != name for word in pair))
    refused()
    refused("--trace", "--brief")
    for name, value in [*usual.items(), ("--inbound", "0.0.0.0:15008"), ("--outbound", "0.0.0.0:15001"), ("--plain", "0.0.0.0:15006"),
                        ("--network", "x"), ("--hbone-port", "1"), ("--tunnels", "1"), ("--turns", "1")]:
        refused(*USUAL_WORDS, name, value, *[] if name in usual else [name, value])
        refused(*USUAL_WORDS, f"{name}={value}", *[] if name in usual else [name, value])
        rest = [word for pair in usual.items() if pair[0] != name for word in pair]
        refused(*rest, name)
        for bad in ("", "-", "-1", "--trace"):
            refused(*rest, name, bad)
            refused(*rest, f"{name}={bad}")
    for flag in ("--trace", "--brief"):
        refused(*USUAL_WORDS, flag, flag)
        refused(flag, *USUAL_WORDS, flag)
    for word in ("--", "-h", "--help", "-", "--trace=", "--trace=true", "--ticks", "--inbounds", "--in", "--outbound-", "--out", "--nod", "--Node",
                 "-node=n1", "--ticks=1", "--Inbound=0.0.0.0:15008", "-inbound=0.0.0.0:15008", "=n1"):
        refused(*USUAL_WORDS, word)
    for word in ("trace", "n1", "", "help"):
        refused(*USUAL_WORDS, word)
        refused(word, *USUAL_WORDS)
    for value in ("10.0.0.1", "10.0.0.1:0", "10.0.0.1:65536", "10.0.0.1:", "10.0.0.1:000001", "10.0.0.256:1", "10.0.0.01:1",
                  "a:1", "[::1]", "[::1]1", "::1:1", "[10.0.0.1]:1",
                  "[::1%1]:1", " 10.0.0.1:1"):
        refused(*USUAL_WORDS[:4], "--discovery", value)
    for value in ("0.0.0.0", "10.0.0.1:0", "10.0.0.1:99999", "[::]", "::1:15008", "[0.0.0.0]:15008", ":15008", "15008", "inbound"):
        refused(*USUAL_WORDS, "--inbound", value)
        refused(f"--inbound={value}", *USUAL_WORDS)
        refused(*USUAL_WORDS, f"--plain={value}")
        refused(*USUAL_WORDS, f"--outbound={value}")
    door = ["--inbound", "0.0.0.0:15008"]
    refused(*door, *USUAL_WORDS, "--inbound=[::1]:15008")
    refused(*USUAL_WORDS[:4], *door)
    refused(*door, *door)
    refused(*door, *USUAL_WORDS, "--inbound")
    refused(*door, *USUAL_WORDS, "--inbound", "0.0.0.0")
    for name, values in [("--hbone-port", ("0", "65536", "015008", "1x", "+1", "1.0", " 1", "99999999999999999999")),
                         ("--tunnels", ("0", "4097", "01", "x")),
                         ("--turns", ("0", "18446744073709551616", "007", "00", "1e3"))]:
        for value in values:
            refused(*USUAL_WORDS, name, value)


def main():
    for rows in (rows_of_runs, rows_of_turns, rows_of_births, rows_of_ends, rows_of_answers, rows_of_messages, rows_of_frames,
                 rows_of_faults,
                 rows_of_windows, rows_of_floods, rows_of_lines, rows_of_words, rows_of_refused_words):
        rows()
    TABLE.print()


if __name__ == "__main__":
    main()
