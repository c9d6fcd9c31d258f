#!/usr/bin/env python3
"""Prints tests/route/ways.runs: messages in hexadecimal digits, connections, and the way that each takes.

    python3 bench/tables/way_rows.py > tests/route/ways.runs

The script spells the messages. Every way stands in its row and was worked out by hand from docs/FORMATS.md ("Routes"); the script ends
where routes.py beside it, a second evaluator, tells another one.
"""
import sys

import replay_model
import routes
import run_table
import tunnel_model
from routes import by_address, by_hostname
from spelling import *

# Resources, none of which has a network unless a row says so.


def at(*ips, **more):
    return routes.workload(*ips, **{"net": "", **more})


def service(*ips, host="web.a", **more):
    return routes.service(*ips, host=host, net="", **more)


def told(**resources):
    """A response with these resources, in this order."""
    return named(resources)


def named(resources):
    return addresses(*((name, routes.spelled(r)) for name, r in resources.items()))


def end(*ips, key="a/web.a", target=8080, **more):
    """A workload that serves port 80 of a service."""
    return at(*ips, serves=[(key, [(80, target)])], **more)


def pod(*ips, key="a/way.a", **more):
    """A workload of a waypoint."""
    return at(*ips, serves=[(key, [])], **more)


W9 = at("10.0.0.9", node="n1")
WEB, WAY = service("10.1.0.1"), service("10.1.0.2", host="way.a", ports=())
U1, U2, SICK1 = end("10.0.0.7"), end("10.0.0.8"), end("10.0.0.7", status=1)
P1, P2, SICK_POD = pod("10.0.0.17"), pod("10.0.0.18"), pod("10.0.0.17", status=1)
NAMED, ADDRESSED, OF_POD = by_hostname("way.a"), by_address("10.1.0.2", net=""), by_address("10.0.0.17", net="")
# In digits a workload u2 of node n1 at 10.0.0.8, in front of which is the workload that has 10.0.0.7
BEHIND = f"0000000087 1255 0a0131 124c 0a2a {ADDRESS.hex()} 121e 0a1c 0a03776562 120161 1a040a000008 4208 1206 1204 0a000007 4a026e31" \
    f" 1a027532 222a {ADDRESS.hex()} 2a027839"


def mesh(**resources):
    return [told(w9=W9, web=WEB, **resources)]


def behind(waypoint, web=None, u1=U1, **resources):
    """The service behind a waypoint, and its endpoint."""
    return [named({"w9": W9, "web": web or service("10.1.0.1", waypoint=waypoint), "u1": u1, "way": WAY, **resources})]


def alone(waypoint, **more):
    """A workload behind a waypoint, and its pods."""
    return [told(w9=W9, u1=at("10.0.0.7", waypoint=waypoint, **more), way=WAY, p1=P1, p2=P2)]


def of_name(name, **more):
    """A workload under a name."""
    return [told(w9=W9), named({name: at("10.0.0.7", **more)})]


# A workload u1 at 10.0.0.7 whose waypoint is told by a hostname and then by an address
TWO_KINDS = addresses(("u1", span(1, span(3, bytes((10, 0, 0, 7))) + span(8, span(1, span(1, "a") + span(2, "far.a")) + span(
    2, span(2, bytes((10, 0, 0, 17))))))))
TO_WEB, TO_U1 = "10.0.0.9 10.1.0.1:80", "10.0.0.9 10.0.0.7:80"
BY_U1 = "gateway 10.0.0.7:15008 authority 10.0.0.7:8080 endpoint u1"
BY_P1 = "gateway 10.0.0.17:15008 authority 10.1.0.1:80 endpoint p1"
BY_P2 = "gateway 10.0.0.18:15008 authority 10.1.0.1:80 endpoint p2"
NONE = {number: f"no route {number}: {why}" for number, why in {
    1: "unknown source", 2: "no healthy endpoint", 3: "no such port of the service", 5: "waypoint of another network",
    6: "unknown waypoint", 7: "no healthy endpoint of the waypoint"}.items()}

# Title, messages, and connections (behind `--node n1` where they name no node) with their ways.
ROWS = [
    # Without a waypoint.
    ("nothing is held", [], {TO_U1: NONE[1], "10.0.0.9 8.8.8.8:53": NONE[1]}),
    ("one workload, to itself and to what nobody has", ["WORKLOAD"], {
        "10.0.0.7 10.0.0.7:8080": "gateway 10.0.0.7:15008 authority 10.0.0.7:8080 endpoint u1", "10.0.0.7 10.0.0.30:80": "direct 10.0.0.30:80",
        "10.0.0.7 [2001:db8::7]:443": "direct [2001:db8::7]:443", "10.0.0.9 10.0.0.7:8080": NONE[1]}),
    ("sources of other nodes and networks", [told(w9=W9, x8=at("10.0.0.8", node="n2"), y6=at("10.0.0.6", node="n1", net="x"))], {
        TO_U1: "direct 10.0.0.7:80", "10.0.0.8 10.0.0.7:80": NONE[1], "10.0.0.6 10.0.0.7:80": NONE[1],
        "--node n2 10.0.0.8 10.0.0.7:80": "direct 10.0.0.7:80", "--node n2 10.0.0.9 10.0.0.7:80": NONE[1],
        "--node n1 --network x 10.0.0.6 10.0.0.7:80": "direct 10.0.0.7:80", "--network x --node n1 10.0.0.9 10.0.0.7:80": NONE[1]}),
    ("a service whose endpoint takes HBONE", mesh(u1=U1), {TO_WEB: BY_U1, "10.0.0.9 10.1.0.1:81": NONE[3]}),
    ("a service whose endpoint doesn't", mesh(u1=end("10.0.0.7", hbone=0)), {TO_WEB: "direct 10.0.0.7:8080 endpoint u1"}),
    ("of two endpoints the smaller name", mesh(u2=U2, u1=U1), {TO_WEB: BY_U1}),
    ("an endpoint that is sick gives way to another", mesh(u1=SICK1, u2=U2), {
        TO_WEB: "gateway 10.0.0.8:15008 authority 10.0.0.8:8080 endpoint u2"}),
    ("a service without a healthy endpoint", mesh(u1=SICK1), {TO_WEB: NONE[2]}),
    ("a service without an endpoint", mesh(), {TO_WEB: NONE[2]}),
    ("a service whose endpoint's port is none", mesh(u1=end("10.0.0.7", target=65536)), {TO_WEB: NONE[2]}),
    ("workloads that take HBONE and don't, healthy and sick", [told(w9=W9, g=at("10.0.0.7", status=1), h=at("10.0.0.8", hbone=0, status=1))], {
        TO_U1: "gateway 10.0.0.7:15008 authority 10.0.0.7:80 endpoint g", "10.0.0.9 10.0.0.8:80": "direct 10.0.0.8:80 endpoint h"}),
    ("a service goes before a workload at its address", mesh(u1=U1, a=at("10.1.0.1")), {TO_WEB: BY_U1}),
    ("the port of gateways", mesh(u1=U1, u2=end("10.0.0.8", key="a/no")), {
        f"--node n1 --hbone-port 16000 {TO_WEB}": "gateway 10.0.0.7:16000 authority 10.0.0.7:8080 endpoint u1",
        f"--hbone-port=1 --node=n1 {TO_WEB}": "gateway 10.0.0.7:1 authority 10.0.0.7:8080 endpoint u1",
        "10.0.0.9 --node n1 10.0.0.8:22 --hbone-port 65535": "gateway 10.0.0.8:65535 authority 10.0.0.8:22 endpoint u2"}),
    ("IPv6, and IPv4 mapped into it", [told(w9=W9, v9=at("2001:db8::9", node="n1"), six=at("2001:db8::7"), four=at("10.0.0.7"))], {
        "2001:db8::9 [2001:db8::7]:443": "gateway [2001:db8::7]:15008 authority [2001:db8::7]:443 endpoint six",
        "2001:DB8:0::9 [2001:db8:0:0::7]:00443": "gateway [2001:db8::7]:15008 authority [2001:db8::7]:443 endpoint six",
        "::ffff:10.0.0.9 [::ffff:a00:7]:80": "gateway 10.0.0.7:15008 authority 10.0.0.7:80 endpoint four",
        "10.0.0.9 [::a00:7]:80": "direct [::a00:7]:80"}),
    ("the machine itself, and the ports of doors", [told(w9=W9)], {
        "10.0.0.9 0.0.0.0:80": "direct 0.0.0.0:80", "10.0.0.9 [::]:15001": "direct [::]:15001",
        "10.0.0.9 10.0.0.9:15008": "gateway 10.0.0.9:15008 authority 10.0.0.9:15008 endpoint w9"}),
    # Through a waypoint.
    ("a workload behind another, by its address", ["WORKLOAD", "BEHIND"], {
        "10.0.0.7 10.0.0.8:80": "gateway 10.0.0.7:15008 authority 10.0.0.8:80 endpoint u1", "10.0.0.9 10.0.0.8:80": NONE[1],
        "10.0.0.8 10.0.0.8:80": "gateway 10.0.0.7:15008 authority 10.0.0.8:80 endpoint u1"}),
    ("a workload behind another that isn't there", ["BEHIND"], {
        "10.0.0.8 10.0.0.8:80": NONE[6], "10.0.0.8 10.0.0.7:80": "direct 10.0.0.7:80", "10.0.0.9 10.0.0.8:80": NONE[1]}),
    ("a service behind the two pods of a hostname", behind(NAMED, p1=P1, p2=P2), {
        TO_WEB: BY_P1, "10.0.0.9 10.1.0.1:81": "gateway 10.0.0.17:15008 authority 10.1.0.1:81 endpoint p1",
        TO_U1: "gateway 10.0.0.7:15008 authority 10.0.0.7:80 endpoint u1"}),
    ("the pods in the other order", behind(NAMED, p2=P2, p1=P1), {TO_WEB: BY_P1}),
    ("one of the pods is sick", behind(NAMED, p1=SICK_POD, p2=P2), {TO_WEB: BY_P2}),
    ("the pod is sick, though the service's endpoint isn't", behind(NAMED, p1=SICK_POD), {TO_WEB: NONE[7]}),
    ("a pod without an address", behind(NAMED, p1=pod()), {TO_WEB: NONE[7]}),
    ("a pod without an address, and another", behind(NAMED, p1=pod(), p2=P2), {TO_WEB: BY_P2}),
    ("pods of another network alone", behind(NAMED, p1=pod("10.0.0.17", net="x")), {TO_WEB: NONE[6]}),
    ("a pod that doesn't take HBONE is its gateway all the same", behind(NAMED, p1=pod("10.0.0.17", hbone=0)), {TO_WEB: BY_P1}),
    ("the first of a pod's addresses", behind(NAMED, p1=pod("10.0.0.6", "10.0.0.17")), {
        TO_WEB: "gateway 10.0.0.6:15008 authority 10.1.0.1:80 endpoint p1"}),
    ("a pod of IPv6", behind(NAMED, p1=pod("2001:db8::17")), {TO_WEB: "gateway [2001:db8::17]:15008 authority 10.1.0.1:80 endpoint p1"}),
    ("a hostname that nobody has", behind(by_hostname("far.a"), p1=P1), {TO_WEB: NONE[6]}),
    ("a hostname of another namespace", behind(by_hostname("way.a", ns="b"), p1=P1), {TO_WEB: NONE[6]}),
    ("a hostname without a namespace", behind(by_hostname("way.a", ns=""), p1=P1), {TO_WEB: NONE[6]}),
    ("a hostname whose service isn't held", [told(w9=W9, web=service("10.1.0.1", waypoint=NAMED), p1=P1)], {TO_WEB: BY_P1}),
    ("a hostname whose service is there, without a pod", behind(NAMED), {TO_WEB: NONE[6]}),
    ("the port that the waypoint names", behind(by_hostname("way.a", port=15009), p1=P1), {
        TO_WEB: "gateway 10.0.0.17:15009 authority 10.1.0.1:80 endpoint p1",
        f"--node n1 --hbone-port 16000 {TO_WEB}": "gateway 10.0.0.17:15009 authority 10.1.0.1:80 endpoint p1"}),
    ("the port of all gateways where the waypoint names none", behind(NAMED, p1=P1), {
        f"--node n1 --hbone-port 16000 {TO_WEB}": "gateway 10.0.0.17:16000 authority 10.1.0.1:80 endpoint p1"}),
    ("port 65,535", behind(by_hostname("way.a", port=65535), p1=P1), {TO_WEB: "gateway 10.0.0.17:65535 authority 10.1.0.1:80 endpoint p1"}),
    ("port 65,536", behind(by_hostname("way.a", port=65536), p1=P1), {TO_WEB: NONE[7]}),
    ("port 70,000", behind(by_hostname("way.a", port=70000), p1=P1, p2=P2), {TO_WEB: NONE[7]}),
    ("port 70,000 of a hostname that nobody has", behind(by_hostname("far.a", port=70000), p1=P1), {TO_WEB: NONE[6]}),
    ("a service by the address of another one", behind(ADDRESSED, p1=P1, p2=P2), {TO_WEB: BY_P1}),
    ("a service by the address of another one, whose pod is sick", behind(ADDRESSED, p1=SICK_POD), {TO_WEB: NONE[7]}),
    ("a service by the address of another one without a pod", behind(ADDRESSED), {TO_WEB: NONE[7]}),
    ("a service by the address of another one, which a workload has too", behind(ADDRESSED, p1=P1, a=at("10.1.0.2")), {TO_WEB: BY_P1}),
    ("a service by an address of another network", behind(by_address("10.1.0.2", net="x"), p1=P1), {TO_WEB: NONE[5]}),
    ("a service by an address of another network that nobody has", behind(by_address("10.1.0.3", net="x"), p1=P1), {TO_WEB: NONE[5]}),
    ("a service by an address that nobody has", behind(by_address("10.1.0.3", net=""), p1=P1), {TO_WEB: NONE[6]}),
    ("a service by the address of a workload", behind(OF_POD, p1=P1, p2=P2), {TO_WEB: BY_P1}),
    ("a service by the address of a workload that serves nothing", behind(OF_POD, p1=at("10.0.0.17")), {TO_WEB: BY_P1}),
    ("a service by the second address of a workload", behind(OF_POD, p1=pod("10.0.0.6", "10.0.0.17")), {TO_WEB: BY_P1}),
    ("a service by the address of a sick workload", behind(OF_POD, p1=SICK_POD, p2=P2), {TO_WEB: NONE[7]}),
    ("a service by the address of two workloads, the first of them sick", behind(OF_POD, p1=SICK_POD, q=P1), {TO_WEB: NONE[7]}),
    ("a service by the address of two workloads, the second of them sick", behind(OF_POD, p1=P1, q=SICK_POD), {TO_WEB: BY_P1}),
    ("a service by the address of a workload of another network", behind(OF_POD, p1=pod("10.0.0.17", net="x")), {TO_WEB: NONE[6]}),
    ("a service by an address, with a port", behind(by_address("10.0.0.17", net="", port=15009), p1=P1), {
        TO_WEB: "gateway 10.0.0.17:15009 authority 10.1.0.1:80 endpoint p1"}),
    ("a service by an address, with port 70,000", behind(by_address("10.0.0.17", net="", port=70000), p1=P1), {TO_WEB: NONE[7]}),
    ("a waypoint of the node's network", [named({name: {**r, "net": "x"} for name, r in {"w9": W9, "p1": P1}.items()} | {
        "web": routes.service("10.1.0.1", net="x", waypoint=by_address("10.0.0.17", net="x"))})], {
            f"--node n1 --network x {TO_WEB}": BY_P1, TO_WEB: NONE[1]}),
    ("a waypoint of no network, at a node of one", [named({name: {**r, "net": "x"} for name, r in {"w9": W9, "p1": P1}.items()} | {
        "web": routes.service("10.1.0.1", net="x", waypoint=by_address("10.0.0.17", net=""))})], {
            f"--node n1 --network x {TO_WEB}": NONE[5]}),
    ("a workload behind a hostname", alone(NAMED), {
        TO_U1: "gateway 10.0.0.17:15008 authority 10.0.0.7:80 endpoint p1",
        "10.0.0.9 10.0.0.7:65535": "gateway 10.0.0.17:15008 authority 10.0.0.7:65535 endpoint p1"}),
    ("a workload behind a service's address", alone(ADDRESSED), {TO_U1: "gateway 10.0.0.17:15008 authority 10.0.0.7:80 endpoint p1"}),
    ("a workload behind a workload's address", alone(OF_POD), {TO_U1: "gateway 10.0.0.17:15008 authority 10.0.0.7:80 endpoint p1"}),
    ("a workload behind a waypoint of another network", alone(by_address("10.0.0.17", net="x")), {TO_U1: NONE[5]}),
    ("a workload behind a waypoint that nobody is", alone(by_address("10.0.0.19", net="")), {TO_U1: NONE[6]}),
    ("a workload behind a waypoint at port 70,000", alone(by_hostname("way.a", port=70000)), {TO_U1: NONE[7]}),
    ("a workload that doesn't take HBONE, behind a waypoint", alone(NAMED, hbone=0, status=1), {
        TO_U1: "gateway 10.0.0.17:15008 authority 10.0.0.7:80 endpoint p1"}),
    ("an endpoint's own waypoint isn't asked for its service", behind(None, u1=end("10.0.0.7", waypoint=NAMED), p1=P1), {
        TO_WEB: BY_U1, TO_U1: "gateway 10.0.0.17:15008 authority 10.0.0.7:80 endpoint p1"}),
    ("a service and a workload at one address, of which the workload is behind a waypoint", [told(w9=W9, web=WEB, u1=U1, a=at(
        "10.1.0.1", waypoint=by_hostname("far.a")))], {TO_WEB: BY_U1}),
    ("a waypoint behind another one", behind(NAMED, p1=pod("10.0.0.17", waypoint=by_hostname("far.a"))), {
        TO_WEB: BY_P1, "10.0.0.9 10.0.0.17:80": NONE[6]}),
    ("a source that is the waypoint", behind(NAMED, p1=pod("10.0.0.17", node="n1")), {"10.0.0.17 10.1.0.1:80": BY_P1}),
    ("a source that isn't known, to what is behind a waypoint that nobody is", behind(by_hostname("far.a")), {"10.0.0.66 10.1.0.1:80": NONE[1]}),
    ("a service of IPv6 behind a waypoint of IPv6", [told(w9=W9, six=service("2001:db8::1", waypoint=by_address("2001:db8::17", net="")),
                                                          p=at("2001:db8::17"))], {
        "10.0.0.9 [2001:db8::1]:80": "gateway [2001:db8::17]:15008 authority [2001:db8::1]:80 endpoint p"}),
    ("a waypoint by an address of IPv4 mapped into IPv6", behind(by_address("::ffff:10.0.0.17", net=""), p1=P1), {TO_WEB: BY_P1}),
    # What the responses leave.
    ("a waypoint that goes", [*behind(NAMED, p1=P1), response(ADDRESS, [], span(6, "p1"))], {TO_WEB: NONE[6]}),
    ("a waypoint that comes", [*behind(NAMED), told(p1=P1)], {TO_WEB: BY_P1}),
    ("a service that is behind a waypoint no longer", [*behind(NAMED, p1=P1), told(web=WEB)], {TO_WEB: BY_U1}),
    ("a service that is behind a waypoint from now on", [*mesh(u1=U1, p1=P1), told(web=service("10.1.0.1", waypoint=NAMED))], {TO_WEB: BY_P1}),
    ("a waypoint to nowhere leaves the service as it was", [*mesh(u1=U1), addresses(("web", span(2, span(7, ""))))], {TO_WEB: BY_U1}),
    ("the last kind of a waypoint counts", [told(w9=W9, p1=P1), TWO_KINDS], {
        TO_U1: "gateway 10.0.0.17:15008 authority 10.0.0.7:80 endpoint p1"}),
    ("policies say nothing of a way", ["WORKLOAD", "ALLOW_ONE", "DENY_ALL"], {"10.0.0.7 10.0.0.7:80": "gateway 10.0.0.7:15008"
                                                                              " authority 10.0.0.7:80 endpoint u1"}),
    # Names.
    *((f"a name with {what}", of_name(name, hbone=hbone), {
        TO_U1: f"{'gateway 10.0.0.7:15008 authority' if hbone else 'direct'} 10.0.0.7:80 endpoint {told_}"}) for hbone, what, name, told_ in [
            (1, "a space", "a b", '"a b"'), (0, "a space alone", " ", '" "'), (1, "a quotation mark", 'a"b', r'"a\"b"'),
            (1, "a backslash", "a\\b", r'"a\\b"'), (1, "a tab", "a\tb", r'"a\tb"'), (0, "a newline", "a\nb", r'"a\nb"'),
            (1, "an escape", "a\x1bb", '"a\\u001bb"'), (1, "a delete", "a\x7f", '"a\x7f"'), (1, "an octet above 127", "\u00fc", '"\u00fc"'),
            (0, "four octets of UTF-8", "\U0001f600", '"\U0001f600"'), (1, "visible marks alone", "!#$%&'()*+,-./:;<=>?@[]^_`{|}~", None),
            (1, "slashes and colons", "Kubernetes//Pod/a/web-0", None), (0, "a dash alone", "-", None), (1, "a word of the line", "endpoint", None)]
      for told_ in [told_ or name]),
]


def octets_of(message):
    return bytes.fromhex(TEXTS[message.lower()].replace(" ", "")) if isinstance(message, str) else message


def held_by(messages):
    """What these messages leave."""
    octets, held = b"".join(map(octets_of, messages)), {}
    while octets:
        size = 5 + int.from_bytes(octets[1:5], "big")
        replay_model.apply(held, replay_model.RESPONSE.read(octets[5:size]))
        octets = octets[size:]
    return held


def whole(words):
    """The words behind the command, with the node where they name none."""
    return words if "--" in words else f"--node n1 {words}"


def evaluated(messages, words):
    """The way by the second evaluator."""
    named_, plain, left = {}, [], whole(words).split()
    while left:
        word = left.pop(0)
        name, equals, value = word[2:].partition("=")
        if word.startswith("--"):
            named_[name] = value if equals else left.pop(0)
        else:
            plain.append(word)
    asked = {**named_, "hbone-port": int(named_.get("hbone-port", 15008))}
    source, target = routes.ip_of(plain[0]), tunnel_model.target_of(plain[1])
    return routes.line(tunnel_model.way(held_by(messages), asked, {}, source, target))


# Words and inputs that have no answer: what of standard error, the status, and the words.
FORM = "(see hbone route --help)"
REFUSED = [
    ("--node is wanted behind route", ["10.0.0.9 10.0.0.7:80", "", "--network x 10.0.0.9 10.0.0.7:80"]),
    ("SOURCE is wanted behind route", ["--node n1"]),
    ("TARGET is wanted behind route", ["--node n1 10.0.0.9", "--node n1 10.0.0.7:80"]),
    ("unexpected word '10.0.0.7:80'", ["--node n1 10.0.0.9 none 10.0.0.7:80"]),
    ("SOURCE is neither an IPv4 nor an IPv6 address", ["--node n1 10.0.0.7:80 10.0.0.9", "--node n1 [::1] 10.0.0.7:80"]),
    ("TARGET has no port", ["--node n1 10.0.0.9 10.0.0.7"]),
    ("the port of TARGET is no number from 1 to 65535", ["--node n1 10.0.0.9 10.0.0.7:0", "--node n1 10.0.0.9 10.0.0.7:65536"]),
    ("the value of --hbone-port is no number from 1 to 65535", [f"--node n1 --hbone-port {port} 10.0.0.9 10.0.0.7:80"
                                                               for port in ("0", "65536", "015008", "x")]),
    ("unknown option '--explain'", ["--node n1 --explain 10.0.0.9 10.0.0.7:80"]),
    ("--hbone-port stands twice", ["--hbone-port 1 --node n1 --hbone-port 2 10.0.0.9 10.0.0.7:80"]),
]
BAD_INPUTS = [
    ("a message that is cut short", ["00"], "message 1: cut short"), ("a compressed message", ["WORKLOAD", "01"], "message 2: compressed"),
    ("a message that is too long", ["WORKLOAD", "0004000001"], "message 2: too long"),
    ("a message that is no response", ["0000000000"], "message 1: not a response")]

HEAD = ["The ways that connections take, by what the responses leave. bench/tables/way_rows.py prints this file: it spells the messages, and",
        "has each way as it was worked out by hand."]
TEXTS = {**MESSAGES, "behind": BEHIND.replace(" ", "")}


def main():
    table = run_table.Table(HEAD, TEXTS)
    for title, messages, ways in ROWS:
        table.begin(title)
        table.octets(shown(messages))
        for words, way in ways.items():
            told_ = evaluated(messages, words)
            if told_ != way:
                sys.exit(f"{title}: {words}: {told_}, and by hand {way}")
            table.run(f"route {whole(words)}", 0, way + "\n")
    for title, messages, why in BAD_INPUTS:
        table.begin(title)
        table.octets(" ".join(messages))
        table.wanted(3, f"hbone: {why}\n")
        table.run(f"route --node n1 {TO_U1}")
    table.begin("an input that can't be read")
    table.source("/")
    table.wanted(6, "hbone: read fault\n")
    table.run(f"route --node n1 {TO_U1}")
    for why, asked in REFUSED:
        table.begin(f"words: {why}")
        table.source("/")
        table.wanted(2, f"hbone: words: {why} {FORM}\n")
        for words in asked:
            table.run(f"route {words}".strip())
    table.print()


if __name__ == "__main__":
    main()
