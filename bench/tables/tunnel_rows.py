#!/usr/bin/python3
"""Prints tests/replay/inbound.runs: runs of `hbone replay --inbound`, each with its status, its whole output and its error
text.

Scripts and answers are worked out by hand from the rules: frames by RFC 9113, header blocks by RFC 7541, the header of the front by the
PROXY protocol's text, answers, causes, notes and lines by docs/COMMANDS.md and docs/FORMATS.md.

    python3 bench/tables/tunnel_rows.py > tests/replay/inbound.runs
"""
import replay_rows
from run_table import Table
from spelling import ADDRESS, AUTHORIZATION

HEAD = ["Runs of `hbone replay --inbound`. bench/tables/tunnel_rows.py prints this file: each answer is worked out by hand."]
PEER = b"cluster.local/ns/a/sa/c"
CANCEL, CONNECT_ERROR, NO_ERROR, STREAM_FLOW, REFUSED_STREAM = 8, 10, 0, 3, 7


def frame(kind, flags, stream, payload=b""):
    return len(payload).to_bytes(3, "big") + bytes([kind, flags]) + stream.to_bytes(4, "big") + payload


def data(stream, payload=b"", end=False):
    return frame(0, 1 if end else 0, stream, payload)


def padded(stream, payload, pad):
    return frame(0, 8, stream, bytes([pad]) + payload + bytes(pad))


def headers(stream, block, end=False):
    return frame(1, 4 | (1 if end else 0), stream, block)


def connect(stream, authority=b"10.0.0.7:8080"):
    return headers(stream, b"\x02\x07CONNECT\x01" + bytes([len(authority)]) + authority)


def reset(stream, code):
    return frame(3, 0, stream, code.to_bytes(4, "big"))


def window(stream, count):
    return frame(8, 0, stream, count.to_bytes(4, "big"))


def goaway(last, code):
    return frame(7, 0, 0, last.to_bytes(4, "big") + code.to_bytes(4, "big"))


# In front of the first header block of the link stands the new size of the dynamic table, 0.
FIRST = b"\x20"
ADMITTED, REFUSED_401, REFUSED_503 = b"\x88", b"\x08\x03401", b"\x08\x03503"
REFUSED_400, REFUSED_404, REFUSED_502 = b"\x8c", b"\x8d", b"\x08\x03502"

FRONT = bytes.fromhex("0d0a0d0a000d0a515549540a 21 11 002f 0a000009 0a000007 0fa0 3aa0 e00020") + b"spiffe://" + PEER
PREFACE = b"PRI * HTTP/2.0\r\n\r\nSM\r\n\r\n"
SET, ACK = frame(4, 0, 0), frame(4, 1, 0)
OWN = frame(4, 0, 0, bytes.fromhex("000300000064 000600004000"))
OPENING = FRONT + PREFACE + SET
# The policy a/p admits no peer but one of the principal "x" from now on: a response, as it comes on the control plane's link, and its
# answer
UPDATE = data(1, bytes.fromhex("0000000088 1250 0a0132 1246 0a30") + AUTHORIZATION + bytes.fromhex(
    "1212 0a0170 120161 1802 2a08 1206 1204 4a028247 1a03612f70 2230") + AUTHORIZATION + bytes.fromhex("2a027837"))
ANSWER = data(1, bytes.fromhex("0000000036 1230") + AUTHORIZATION + bytes.fromhex("32027837"))

# Scripts

ACCEPT, WAKE = '{"accept":"inbound"}', '{"wake":true}'


def came(link, *pieces):
    return "".join(f'{{"bytes":"{piece.hex()}","link":{link}}}\n' for piece in pieces)


def line(text):
    return text + "\n" + WAKE + "\n"


def woken(link, *pieces):
    return "".join(came(link, piece) + WAKE + "\n" for piece in pieces)


def single(octets):
    return [octets[at:at + 1] for at in range(len(octets))]


def on(word, link):
    return line(f'{{"{word}":{link}}}')


def room(link, count):
    return f'{{"link":{link},"room":{count}}}\n'


def accepted(*requests):
    return ACCEPT + "\n" + woken(2, OPENING + b"".join(requests))


# The policy a/p is applied behind these lines, and the workload u1, 10.0.0.7.
BASE = replay_rows.PARTS["base"]
ADMIT = BASE + accepted(connect(1)) + on("open", 3)

# Answers


def link(number, what, received, sent, cause):
    return f"link {number} {what}: received {received}, sent {sent}, closed {cause}\n"


def control(received=344, sent=450):
    return link(1, "discovery 10.0.0.1:15010", received, sent, "stopped")


def inbound(received, sent, cause="stopped"):
    return link(2, "inbound", received, sent, cause)


def upstream(number, received, sent, cause, stream=1, to="10.0.0.7:8080"):
    return link(number, f"upstream {to} of 2/{stream}", received, sent, cause)


def verdict(status, stream=1, target="10.0.0.7:8080"):
    return f"verdict 2/{stream} {status} 10.0.0.9 {PEER.decode()} {target}\n"


def ended(cause, up, down, stream=1):
    return f"end 2/{stream} {cause} up {up} down {down}\n"


def total(links, accepted, revoked=0, up=0, down=0):
    return f"total: {links} links, {accepted} accepted, {revoked} revoked, {up} up, {down} down\n"


def moved(word, number, octets):
    return f"{word} {number} {octets.hex()}\n"


# The table

DOOR = "--inbound 0.0.0.0:15008"
PARTS = {"front": FRONT.hex(), "preface": PREFACE.hex(), "own": OWN.hex(), "update": UPDATE.hex(), "connect": connect(1).hex()}
PARTS.update((name, replay_rows.PARTS[name]) for name in ("usual", "m1", "m2", "set", "ok", "ack", "base", "based"))
TABLE = Table(HEAD, PARTS)


def row(name, script, status, output, *more, error="", door=DOOR):
    words = ["replay", *replay_rows.USUAL_WORDS, *door.split(), *" ".join(more).split()]
    TABLE.script(name, words, script, status, output, error)


def whole_lives():
    script = ADMIT + woken(2, data(1, b"hello")) + woken(3, b"world") + woken(2, data(1, end=True)) + on("end", 3) + on("end", 2)
    lines = control() + inbound(152, 64, "done") + upstream(3, 5, 5, "done") + verdict(200) + ended("done", 5, 5) + total(3, 1, 0, 5, 5)
    row("a tunnel from its request to its end", script, 0, lines)
    trace = "".join([
        replay_rows.PARTS["based"], "accepted 2 inbound\n", moved("came", 2, OPENING + connect(1)),
        "dialled 3 10.0.0.7:8080\n", moved("went", 2, OWN + ACK),
        "opened 3\n", moved("went", 2, headers(1, FIRST + ADMITTED)), moved("came", 2, data(1, b"hello")), moved("went", 3, b"hello"),
        moved("came", 3, b"world"), moved("went", 2, data(1, b"world")), moved("came", 2, data(1, end=True)), "shut 3\n", "ended 3\n",
        moved("went", 2, data(1, end=True)), "closed 3 done\n", "ended 2\n", "closed 2 done\n", "closed 1 stopped\n"])
    row("a tunnel from its request to its end, told", script, 0, trace + lines, "--trace")
    row("a tunnel in brief", script, 0, total(3, 1, 0, 5, 5), "--brief")
    row("one turn", script, 5, control(0, 0) + total(1, 0), "--turns 1", error="hbone: turns spent\n")
    base = on("open", 1) + woken(1, *single(SET + headers(1, ADMITTED)), *single(FIRST_RESPONSE), *single(SECOND_RESPONSE))
    start = base + ACCEPT + "\n" + woken(2, *single(OPENING + connect(1))) + on("open", 3) + woken(2, *single(data(1, b"hello")))
    end = woken(2, *single(data(1, end=True))) + on("end", 3) + on("end", 2)
    row("octet by octet on two links", start + woken(3, b"world") + end, 0, lines)
    cut = control() + inbound(152, 100, "done") + upstream(3, 5, 5, "done") + verdict(200) + ended("done", 5, 5) + total(3, 1, 0, 5, 5)
    row("octet by octet on three links", start + woken(3, *single(b"world")) + end, 0, cut)


def refusals():
    opening = OWN + ACK
    row("before the first response", accepted(connect(1)), 0,
        control(0, 0) + inbound(129, len(opening + headers(1, FIRST + REFUSED_503, True) + reset(1, NO_ERROR))) + verdict(503)
        + total(2, 0))
    row("a target with another address than the front's", accepted(connect(1, b"10.0.0.8:8080")), 0,
        control(0, 0) + inbound(129, len(opening + headers(1, FIRST + REFUSED_400, True) + reset(1, NO_ERROR)))
        + verdict(400, target="10.0.0.8:8080") + total(2, 0))
    own = opening + headers(1, FIRST + REFUSED_400, True) + reset(1, NO_ERROR)
    for name, door in [("each address", "0.0.0.0"), ("each address of both kinds", "[::]"), ("the target's address", "10.0.0.7")]:
        row(f"a target that is the inbound door, at {name}", BASE + accepted(connect(1, b"10.0.0.7:15008")), 0,
            control() + inbound(130, len(own)) + verdict(400, target="10.0.0.7:15008") + total(2, 0),
            door=f"--inbound {door}:15008")
    for name, door in [("address", "10.0.0.8:15008"), ("port", "0.0.0.0:15009")]:
        row(f"a target at the front's address and port, and the door at another {name}",
            BASE + accepted(connect(1, b"10.0.0.7:15008")) + on("open", 3), 0,
            control() + inbound(130, len(opening + headers(1, FIRST + ADMITTED))) + upstream(3, 0, 0, "stopped", to="10.0.0.7:15008")
            + verdict(200, target="10.0.0.7:15008") + ended("stopped", 0, 0) + total(3, 1), door=f"--inbound {door}")
    row("an upstream that refuses", BASE + accepted(connect(1)) + on("refuse", 3), 0,
        control() + inbound(129, len(opening + headers(1, FIRST + REFUSED_502, True) + reset(1, NO_ERROR)))
        + upstream(3, 0, 0, "up fault") + verdict(502) + total(3, 0))
    row("a dial that fails", BASE + '{"nodial":1}\n' + accepted(connect(1)), 0,
        control() + inbound(129, len(opening + headers(1, FIRST + REFUSED_502, True) + reset(1, NO_ERROR))) + verdict(502)
        + total(2, 0))
    row("the second tunnel where one is allowed", ADMIT + woken(2, connect(3, b"10.0.0.7:9090")), 0,
        control() + inbound(162, len(opening + headers(1, FIRST + ADMITTED) + headers(3, REFUSED_503, True) + reset(3, NO_ERROR)))
        + upstream(3, 0, 0, "stopped") + verdict(200) + verdict(503, 3, "10.0.0.7:9090") + ended("stopped", 0, 0) + total(3, 1),
        "--tunnels 1")
    numbers = range(1, 201, 2)
    row("100 streams, and one more", BASE + ACCEPT + "\n" + woken(2, OPENING) + "".join(woken(2, connect(n)) for n in range(1, 203, 2)), 0,
        control() + inbound(96 + 101 * 33, len(opening + reset(201, REFUSED_STREAM)))
        + "".join(upstream(3 + at, 0, 0, "stopped", n) for at, n in enumerate(numbers)) + total(102, 0))
    row("a header of the front with another signature", BASE + ACCEPT + "\n" + woken(2, b"\x0e"), 0,
        control() + inbound(1, 0, "front fault 1") + total(2, 0))
    row("a header of the front that ends early", BASE + ACCEPT + "\n" + woken(2, FRONT[:20]) + on("end", 2), 0,
        control() + inbound(20, 0, "front fault 0") + total(2, 0))
    row("a preface that differs", BASE + ACCEPT + "\n" + woken(2, FRONT + PREFACE[:-1] + b"X"), 0,
        control() + inbound(87, len(OWN + goaway(0, 1)), "conn fault 1") + total(2, 0))


def updates():
    two = accepted(connect(1), connect(3, b"10.0.0.7:9090"))
    script = BASE + two + on("open", 3) + on("open", 4) + room(2, 59) + woken(3, bytes(100)) + woken(1, UPDATE) + room(2, 1000) + WAKE + "\n"
    frames = headers(1, FIRST + ADMITTED), headers(3, ADMITTED), data(1, bytes(100)), reset(1, CANCEL), data(3, b"!")
    lines = (control(494, 518) + inbound(162, 183) + upstream(3, 100, 0, "revoked") + upstream(4, 1, 0, "stopped", 3, "10.0.0.7:9090")
             + verdict(200) + verdict(200, 3, "10.0.0.7:9090") + ended("revoked", 0, 100) + ended("stopped", 0, 1, 3)
             + total(4, 2, 1, 0, 101))
    assert len(OWN + ACK + b"".join(frames)) == 183
    row("an update inside a DATA frame", script + woken(4, b"!"), 0, lines)
    # no rule says in which order links are closed at the end of a run
    trace = "".join([
        replay_rows.PARTS["based"] + "accepted 2 inbound\n", moved("came", 2, OPENING + connect(1) + connect(3, b"10.0.0.7:9090")),
        "dialled 3 10.0.0.7:8080\ndialled 4 10.0.0.7:9090\n", moved("went", 2, OWN + ACK),
        "opened 3\n", moved("went", 2, frames[0]), "opened 4\n", moved("went", 2, frames[1]),
        moved("came", 3, bytes(100)), moved("went", 2, frames[2][:59]),
        moved("came", 1, UPDATE), "closed 3 revoked\n", moved("went", 1, ANSWER), moved("went", 2, frames[2][59:] + frames[3]),
        moved("came", 4, b"!"), moved("went", 2, frames[4]), "closed 1 stopped\nclosed 4 stopped\nclosed 2 stopped\n"])
    row("an update inside a DATA frame, told", script + woken(4, b"!"), 0, trace + lines, "--trace")
    row("an update while the upstream is dialled", BASE + accepted(connect(1)) + woken(1, UPDATE), 0,
        control(494, 518) + inbound(129, 58) + upstream(3, 0, 0, "revoked") + verdict(401) + total(3, 0, 1))
    row("a byte each way, and an update", ADMIT + woken(2, data(1, b"a")) + woken(3, b"abc") + woken(1, UPDATE), 0,
        total(3, 1, 1, 1, 3), "--brief")


def ends():
    opening = BASE + accepted(connect(1)) + room(3, 0) + on("open", 3)
    grants = window(0, 32768) + window(0, 32768)
    wanted = (upstream(3, 0, 0, "stream fault 3") + verdict(200) + ended("stream fault 3", 0, 0) + total(3, 1))
    sent = len(OWN + ACK + headers(1, FIRST + ADMITTED) + grants + reset(1, STREAM_FLOW))
    assert sent == 80
    full = [data(1, b"a" * size) for size in (16384, 16384, 16384, 16383)]
    row("a byte more than the window", opening + woken(2, *full, data(1, b"a")), 0, control() + inbound(65710, sent) + wanted)
    row("padding more than the window", opening + woken(2, *full, padded(1, b"", 0)), 0, control() + inbound(65710, sent) + wanted)
    row("an upstream that breaks", ADMIT + woken(3, b"abc") + on("break", 3), 0,
        control() + inbound(129, len(OWN + ACK + headers(1, FIRST + ADMITTED) + data(1, b"abc") + reset(1, CONNECT_ERROR)))
        + upstream(3, 3, 0, "up fault") + verdict(200) + ended("up fault", 0, 3) + total(3, 1, 0, 0, 3))
    row("an upstream that ends, and then breaks", ADMIT + woken(3, b"abc") + on("end", 3) + on("break", 3) + woken(2, data(1, b"late")), 0,
        control() + inbound(142, len(OWN + ACK + headers(1, FIRST + ADMITTED) + data(1, b"abc") + data(1, b"", True) + reset(1, CONNECT_ERROR)))
        + upstream(3, 3, 0, "up fault") + verdict(200) + ended("up fault", 0, 3) + total(3, 1, 0, 0, 3))
    row("a peer that resets its stream", ADMIT + woken(2, data(1, b"ab") + reset(1, CANCEL)), 0,
        control() + inbound(129 + 11 + 13, 41) + upstream(3, 0, 0, "peer reset 8") + verdict(200) + ended("peer reset 8", 0, 0)
        + total(3, 1))
    row("a peer's link that ends with its tunnel", ADMIT + on("end", 2), 0,
        control() + inbound(129, 41, "peer gone") + upstream(3, 0, 0, "peer gone") + verdict(200) + ended("peer gone", 0, 0) + total(3, 1))
    row("a peer's link that breaks", ADMIT + on("break", 2), 0,
        control() + inbound(129, 41, "broken") + upstream(3, 0, 0, "peer gone") + verdict(200) + ended("peer gone", 0, 0) + total(3, 1))


def doors():
    row("a listen that fails", '{"fault":"listen"}\n', 4, total(0, 0), error="hbone: world fault\n")
    row("a connection at another door", BASE + '{"accept":"outbound"}\n{"accept":"plain"}\n' + WAKE + "\n", 0, control() + total(1, 0))
    row("two connections before the control plane's link opens", ACCEPT + "\n" + ACCEPT + "\n" + WAKE + "\n" + on("open", 1), 0,
        control(0, 311) + inbound(0, 0) + link(3, "inbound", 0, 0, "stopped") + total(3, 0))
    tick = '{"tick":true}\n'
    row("the control plane's link breaks while a tunnel goes on", ADMIT + on("break", 1) + tick + woken(2, data(1, b"hello"))
        + on("open", 4) + woken(3, b"world"), 0,
        link(1, "discovery 10.0.0.1:15010", 344, 450, "broken") + inbound(143, 55) + upstream(3, 5, 5, "stopped")
        + link(4, "discovery 10.0.0.1:15010", 0, 330, "stopped") + verdict(200) + ended("stopped", 5, 5) + total(4, 1, 0, 5, 5))


W = bytes.fromhex("0a03776562 120161 1a040a000007 2801 4a026e31 820103612f70 a201027531")
P = bytes.fromhex("0a0170 120161 1802 2a1f 121d 121b 1a19 0a17") + PEER
FIRST_RESPONSE = data(1, bytes.fromhex("000000008a 1258 0a0131 124f 0a2a") + ADDRESS + bytes.fromhex("1221 0a1f") + W
                      + bytes.fromhex("1a027531 222a") + ADDRESS + bytes.fromhex("2a027831"))
SECOND_RESPONSE = data(1, bytes.fromhex("000000009f 1267 0a0131 125d 0a30") + AUTHORIZATION + bytes.fromhex("1229") + P
                       + bytes.fromhex("1a03612f70 2230") + AUTHORIZATION + bytes.fromhex("2a027832"))


def main():
    for rows in (whole_lives, refusals, updates, ends, doors):
        rows()
    TABLE.print()


if __name__ == "__main__":
    main()
