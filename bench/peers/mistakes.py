"""Mistakes at the doors and of control planes, and the lines of the log that tell them."""

import re
import socket

from case import PREFACE, case
from gateways import outbound
from peers import CALLER, HERE, free_port, header, until, wanted


def log_of(proxy):
    """The lines of its log."""
    return [line for line in proxy.told() if line.split(" ")[0] in ("listens", "control", "gateway", "closed")]


def logged(proxy, wants, seconds=10):
    """These are the lines of its log, within some seconds."""
    until(f"{len(wants)} lines of the log: {wants}, and there are: {log_of(proxy)}", lambda: len(log_of(proxy)) >= len(wants), seconds)
    wanted("the log", log_of(proxy), wants)


def begun(room, *doors):
    """The lines of the log up to an open link to the control plane."""
    listens = [f"listens door={door} at={HERE}:{room.proxy.doors[door]}" for door in doors]
    return [*listens, f"control link=1 dialled={HERE}:{room.discovery}", "control link=1 open"]


@case
def mistakes_at_the_doors(room):
    """TLS, HTTP/1, the header's version 1, its command LOCAL, no identity's text and no preface at the inbound door, half a header, and a
    connection of no workload at the outbound one: the log tells the door and the cause of each, and no octet that came."""
    room.start(inbound=free_port(), outbound=free_port())
    good = header((HERE, 1), (HERE, 2), CALLER)
    fronts = {
        b"\x16\x03\x01\x02\x00\x01\x00\x01\xfc\x03\x03" + bytes(200): "front fault 1",
        b"GET / HTTP/1.1\r\nhost: x\r\n\r\n": "front fault 1",
        b"closed link=1 door=inbound cause=done\nverdict 1/1 200": "front fault 1",
        b"PROXY TCP4 127.0.0.1 127.0.0.1 1 2\r\n": "front fault 1",
        good[:12] + b"\x20" + good[13:]: "front fault 2",
        header((HERE, 1), (HERE, 2), "spiffe://x/ns/a"): "front fault 5",
        good + b"GET / HTTP/1.1\r\nhost: local\r\n\r\n": "conn fault 1",
        good + PREFACE + b"\x00\x40\x01\x00\x00\x00\x00\x00\x01": "conn fault 6",
    }
    wants = begun(room, "inbound", "outbound")
    for link, (front, cause) in enumerate(fronts.items(), 2):
        peer = room.peer(front=front)
        until(f"it is closed for {cause}", lambda: peer.over or peer.step(0.01))
        wants.append(f'closed link={link} door=inbound cause="{cause}"')
    half = room.add(socket.create_connection((HERE, room.proxy.doors["inbound"])))
    half.sendall(good[:20])
    half.shutdown(socket.SHUT_WR)
    wanted("behind half a header", half.recv(10), b"")
    room.captured(80, source="127.0.0.99").rest()
    logged(room.proxy, [*wants, 'closed link=10 door=inbound cause="front fault 0"', 'closed link=11 door=outbound cause="no route 1"'])


@case
def many_mistakes_at_a_door(room):
    """Of 100 connections that are closed for a fault within a second 64 have lines, and the next tick tells how many more there were."""
    room.start()
    for _ in range(100):
        peer = room.peer(front=b"GET / HTTP/1.1\r\nhost: x\r\n\r\n")
        until("it is closed", lambda: peer.over or peer.step(0.01))

    def told():
        """How many are told, in lines and by ticks."""
        words = [line.split(" ") for line in log_of(room.proxy) if line.startswith("closed ")]
        counts = [int(it[1].removeprefix("more=")) for it in words if it[1].startswith("more=")]
        return len(words) - len(counts), sum(counts)

    until("all are told", lambda: sum(told()) == 100)
    lines, _ = told()
    if lines < 64:
        wanted("lines", lines, "at least 64")
    return f"{lines} lines"


@case
def a_control_plane_that_is_away(room):
    """Of attempts at a control plane that isn't there the first and the tenth are told; then it comes, and that a link is open is."""
    room.serve()
    wants = [f"listens door=inbound at={HERE}:{room.proxy.doors['inbound']}"]
    for attempt, again in ((1, ""), (10, " again=10")):
        wants += [f"control link={attempt} dialled={HERE}:{room.discovery}{again}", f"control link={attempt} closed=broken"]
    logged(room.proxy, wants, 20)
    room.control()
    room.settle()
    *told, last = log_of(room.proxy)
    wanted("the log", told, wants)
    wanted("its last line", re.fullmatch(r"control link=1[1-9] open", last) is not None, True)


def answers_http_1(taken):
    taken.take()
    taken.send(b"HTTP/1.1 400 Bad Request\r\n\r\n")
    taken.close()


@case
def a_control_plane_that_speaks_http_1(room):
    """A control plane that answers HTTP/1, or ends its connection: the log tells the cause of the close."""
    def end(taken):
        taken.close()

    for act, cause in ((answers_http_1, '"conn fault 6"'), (end, "broken")):
        plane = room.upstream(act)
        room.discovery = plane.port
        room.serve()
        wants = [*begun(room, "inbound"), f"control link=1 closed={cause}"]
        until("four lines", lambda: len(log_of(room.proxy)) >= 4)
        wanted("the log", log_of(room.proxy)[:4], wants)
        room.proxy.end()


@case
def gateways_that_take_nobody(room):
    """A gateway that isn't there, and one that answers HTTP/1: the log tells how its link, and the captured connection, were closed."""
    other, port, speaks = room.beside(), free_port(), room.upstream(answers_http_1)
    outbound(room, port)
    outbound(other, speaks.port)
    for it, at, opens, cause, why in ((room, port, [], "broken", "up fault"), (other, speaks.port, ["open"], '"conn fault 6"', "conn fault 6")):
        it.captured(80).rest()
        link = [f"gateway link=3 {fact}" for fact in (f"dialled={HERE}:{at}", *opens)]
        ends = [f'closed link=2 door=outbound cause="{why}"', f"gateway link=3 closed={cause}"]
        logged(it.proxy, [*begun(it, "outbound"), *link, *ends])
