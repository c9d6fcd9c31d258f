#!/usr/bin/python3
"""Prints tests/replay/outbound.runs: runs of `hbone replay --outbound`, each with its status, its whole output and its error text.

bench/tables/tunnel_model.py, which knows the pages alone, gives the answers; those of the first rows are worked out by hand too. A row has
to end the same by every choice that the pages leave open.

    python3 bench/tables/outbound_rows.py > tests/replay/outbound.runs
"""
import ipaddress

import model_rows
import modelled_rows as modelled
import plain_rows as plain
import replay_rows
import routes
import tunnel_rows
from model_rows import answer
from modelled_rows import ALLOW, DENY, TICK, ask, policies, workloads
from run_table import Table
from tunnel_rows import WAKE, came, data, on, room, single, woken

DOOR = "--outbound 0.0.0.0:15001"
ALL = "--inbound 0.0.0.0:15008 --plain 0.0.0.0:15006 " + DOOR
ACCEPT = '{"accept":"outbound"}\n'
NOBODY = plain.NOBODY
ROWS = []

# Resources, none of which has a network: a source; workloads without HBONE, with it, and with a waypoint; services, of which the first has
# an endpoint without HBONE.


def workload(*ips, **more):
    return routes.workload(*ips, **{"hbone": 0, "net": "", **more})


def service(ip, host, ports=((80, 8080),), **more):
    return routes.service(ip, host=host, ports=ports, net="", **more)


def serves(host, port=80, target=8080):
    return [(f"a/{host}", [(port, target)])]


SOURCE, WEB, GATE, NOBODYS, WAYS = "10.0.0.9", "10.1.0.1", "10.1.0.2", "10.1.0.3", "10.1.0.4"
# A workload y5 and a service `ways` are behind a waypoint, which isn't there yet
Y5, WAYPOINT = "10.0.0.5", "10.2.0.1"
NAMED, ADDRESSED = routes.by_hostname("waypoint.a"), routes.by_address(WAYPOINT, net="", port=15008)
MESH = {
    "w9": workload(SOURCE, node="n1", hbone=1), "p8": workload("10.0.0.8"), "g6": workload("10.0.0.6", hbone=1, serves=serves("gate.a")),
    "y5": workload(Y5, waypoint=NAMED), "e4": workload("10.0.0.4", serves=serves("web.a")),
    "web": service(WEB, "web.a"), "gate": service(GATE, "gate.a"), "nobody": service(NOBODYS, "nobody.a"),
    "ways": service(WAYS, "ways.a", waypoint=ADDRESSED)}


def told(**resources):
    """An update of these resources, as it comes on the control plane's link."""
    return workloads(*((name, routes.spelled(resource)) for name, resource in resources.items()))


def gone(*names):
    return workloads(removed=names)


# Behind the base of the plain door, which admits each peer at port 9090 of 10.0.0.7
BASE = plain.OPEN_BASE + woken(1, told(**MESH))


def front(destination=WEB, port=80, source=SOURCE, **more):
    six = ":" in destination
    ends = [ipaddress.ip_address(ip).packed.hex() for ip in (destination, source)]
    return plain.front(port, *ends, **({"family": 0x21} if six else {}), **more)


def row(name, script, words=DOOR, *more, want=None):
    ROWS.append((name, script, [*words.split(), *more], want))


def begun(*octets, link=2, header=None, **ends):
    """A connection at the outbound door whose header came, with more behind it."""
    return ACCEPT + woken(link, (header or front(**ends)) + b"".join(octets))


def opened(*octets, link=2, **how):
    return begun(*octets, link=link, **how) + on("open", link + 1)


LIVE = BASE + opened()
STAGES = [("before its header is whole", BASE + ACCEPT + woken(2, front()[:20])), ("while its upstream opens", BASE + begun(b"abc")),
          ("while it lives", LIVE + woken(2, b"abc") + woken(3, b"defg"))]


# Rows


def by_hand():
    link, total = tunnel_rows.link, tunnel_rows.total
    # what the control plane wrote, and behind its 450 octets one more answer of 62, whose type has six fewer than that of a policy
    control = tunnel_rows.control(321 + len(told(**MESH)), 512)
    row("a source that no workload has", BASE + begun(source="10.0.0.66"), want=control + link(2, "outbound", 28, 0, "no route 1")
        + "verdict 2/0 503 10.0.0.66 - 10.1.0.1:80\n" + total(2, 0))
    row("an address that nobody has, from its header to its end", BASE + begun(b"abc", destination="192.0.2.1", port=53) + on("open", 3)
        + woken(3, b"defg") + on("end", 2) + on("end", 3),
        want=control + link(2, "outbound", 31, 4, "done") + link(3, "direct 192.0.2.1:53 of 2", 4, 3, "done")
        + "verdict 2/0 200 10.0.0.9 - 192.0.2.1:53\nend 2/0 done up 3 down 4\n" + total(3, 1, 0, 3, 4))
    kept = tunnel_rows.control(321 + len(told(**MESH)) + len(DENY), 512 + 68)
    row("a service, dialled at its endpoint, and an update that denies each peer", LIVE + woken(2, b"abc") + woken(1, DENY)
        + woken(2, b"de") + woken(3, b"f"), want=kept + link(2, "outbound", 33, 1, "stopped") + link(3, "direct 10.0.0.4:8080 of 2", 1, 5, "stopped")
        + "verdict 2/0 200 10.0.0.9 - 10.1.0.1:80\nend 2/0 stopped up 5 down 1\n" + total(3, 1, 0, 5, 1))
    row("a gateway that never opens", BASE + begun(b"abc", destination="10.0.0.6"), want=control + link(2, "outbound", 31, 0, "stopped")
        + link(3, "gateway 10.0.0.6:15008", 0, 0, "stopped") + total(3, 0))


def missing():
    """No route."""
    row("a source that is a workload of another node", BASE + begun(source="10.0.0.8"))
    row("a source in IPv6 that no workload has", BASE + begun(destination="2001:db8::7", source="2001:db8::9"))
    row("a source whose smallest name is of another node", BASE + woken(1, told(a9=workload(SOURCE))) + begun())
    row("a source that went", BASE + woken(1, gone("w9")) + begun())
    row("a source that isn't known, to an address that nobody has", BASE + begun(destination="192.0.2.1", source="10.0.0.66"))
    row("a service without an endpoint", BASE + begun(destination=NOBODYS))
    row("a service whose endpoint is sick", BASE + woken(1, told(e4=workload("10.0.0.4", status=1, serves=serves("web.a")))) + begun())
    row("a service whose endpoint is in another network", BASE + woken(1, told(e4=workload("10.0.0.4", net="x", serves=serves("web.a"))))
        + begun())
    row("a service whose endpoint has no address", BASE + woken(1, told(e4=workload(serves=serves("web.a")))) + begun())
    row("a service whose endpoint's port is none", BASE + woken(1, told(e4=workload("10.0.0.4", serves=serves("web.a", target=65536))))
        + begun())
    row("a service whose endpoint serves another port", BASE + woken(1, told(e4=workload("10.0.0.4", serves=serves("web.a", port=81))))
        + begun())
    row("a port that the service hasn't", BASE + begun(port=81))
    row("a service behind a waypoint that isn't there", BASE + begun(destination=WAYS))
    row("a service behind a waypoint that isn't there, at a port that it hasn't", BASE + begun(destination=WAYS, port=81))
    row("a workload behind a waypoint that isn't there", BASE + begun(destination=Y5))
    row("bytes behind the header of a link without a route", BASE + begun(b"many more bytes", port=81))
    row("nothing is of the node's network", BASE + begun(), DOOR, "--network", "net")


def straight():
    row("a workload without HBONE", BASE + opened(b"abc", destination="10.0.0.8", port=22))
    row("an address of IPv6 that nobody has", BASE + woken(1, told(x=workload("2001:db8::9", node="n1")))
        + opened(b"six", destination="2001:db8::7", source="2001:db8::9"))
    row("an endpoint at the port that the service names", BASE + woken(1, told(e4=workload("10.0.0.4", serves=serves("web.a", target=0))))
        + opened(b"a"))
    row("an endpoint at the port that was asked for", BASE + woken(1, told(e4=workload("10.0.0.4", serves=serves("web.a", target=0)),
                                                                         web=service(WEB, "web.a", ports=[(80, 0)]))) + opened(b"a"))
    row("of two endpoints the smaller name", BASE + woken(1, told(e5=workload("10.0.0.44", serves=serves("web.a")))) + opened(b"a"))
    row("of two endpoints the smaller name, each time", BASE + woken(1, told(e3=workload("10.0.0.33", serves=serves("web.a"))))
        + opened(b"a") + opened(b"b", link=4))
    row("an endpoint that is sick gives way to another", BASE + woken(1, told(
        e4=workload("10.0.0.4", status=1, serves=serves("web.a")), e5=workload("10.0.0.44", serves=serves("web.a")))) + opened(b"a"))
    row("the first address of an endpoint", BASE + woken(1, told(e4=workload("10.0.0.45", "10.0.0.4", serves=serves("web.a"))))
        + opened(b"a"))
    row("an endpoint of IPv6", BASE + woken(1, told(e4=workload("2001:db8::4", serves=serves("web.a")))) + opened(b"a"))
    row("a service goes before a workload at its address", BASE + woken(1, told(a=workload(WEB))) + opened(b"a"))
    row("an endpoint with a waypoint of its own", BASE + woken(1, told(e4=workload("10.0.0.4", serves=serves("web.a"),
                                                                                   waypoint=NAMED))) + opened(b"a"))
    row("a source that is sick", BASE + woken(1, told(w9=workload(SOURCE, node="n1", status=1))) + opened(b"a"))
    row("a node of a named network", BASE + woken(1, told(x=workload(SOURCE, node="n1", net="net"), y=workload("10.0.0.7", net="net")))
        + opened(b"a", destination="10.0.0.7"), DOOR, "--network", "net")
    row("an identity is noted, and isn't used", BASE + opened(b"abc", header=front(more=plain.IDENTITY)))
    row("a policy that denies each peer", BASE + woken(1, DENY) + opened(b"abc"))
    row("a policy that denies each peer at an address of the node", BASE + woken(1, DENY, told(u7=workload("10.0.0.70", node="n1")))
        + opened(b"abc", destination="10.0.0.70"))


def chosen():
    """A service with three endpoints: the one with fewer connections goes first, of equal ones the one of the smaller name."""
    three = BASE + woken(1, told(e3=workload("10.0.0.33", serves=serves("web.a")), e5=workload("10.0.0.55", serves=serves("web.a"))))
    both = three + opened(b"a") + opened(b"b", link=4)
    row("the endpoint of the smaller name goes first", three + opened(b"a"))
    row("the second connection goes to the second endpoint", both)
    row("four connections to three endpoints", both + opened(b"c", link=6) + opened(b"d", link=8))
    row("a connection that ended isn't counted", both + on("end", 2) + on("end", 3) + opened(b"c", link=6))
    row("a connection that broke isn't counted", both + on("break", 5) + opened(b"c", link=6))
    row("a connection whose peer broke isn't counted", both + on("break", 2) + opened(b"c", link=6))
    row("a connection that isn't open yet is counted", three + begun(b"a") + begun(b"b", link=4))
    row("a dial that failed isn't counted", three + '{"nodial":1}\n' + begun(b"a") + opened(b"b", link=3))
    row("an upstream that didn't open isn't counted", three + begun(b"a") + on("break", 3) + opened(b"b", link=4))
    row("a connection to a workload's own address is counted", three + opened(b"a", destination="10.0.0.33", port=22)
        + opened(b"b", link=4))
    row("a connection to an address that nobody has isn't counted", three + opened(b"a", destination="192.0.2.1", port=22)
        + opened(b"b", link=4))
    row("a connection that is refused isn't counted", three + begun(port=81) + opened(b"b", link=3))
    row("one to an endpoint that is one of the node's own doors isn't counted", BASE + woken(1, told(
        e3=workload("10.0.0.4", serves=serves("web.a", target=15001)))) + begun(b"a") + begun(b"b", link=3))
    row("a count outlives its endpoint's record", both + woken(1, gone("e3")) + woken(1, told(
        e3=workload("10.0.0.33", serves=serves("web.a")))) + opened(b"c", link=6))
    row("an endpoint under another name has no connection", both + woken(1, gone("e3")) + woken(1, told(
        e2=workload("10.0.0.33", serves=serves("web.a")))) + opened(b"c", link=6))
    row("connections of two services to one endpoint are counted together", three + woken(1, told(e3=workload("10.0.0.33", serves=[
        ("a/web.a", [(80, 8080)]), ("a/nobody.a", [(80, 9090)])]))) + opened(b"a", destination=NOBODYS) + opened(b"b", link=4))
    row("many connections, the first of which end", three + "".join(opened(b"x", link=number) for number in range(2, 14, 2))
        + "".join(on("end", number) + on("end", number + 1) for number in (2, 6, 8)) + "".join(
            opened(b"y", link=number) for number in range(14, 20, 2)))


def gateways():
    row("a service whose endpoint takes HBONE", BASE + begun(destination=GATE))
    row("a workload of this node that takes HBONE", BASE + begun(destination="10.0.0.7", port=9090))
    row("the source itself, which takes HBONE", BASE + begun(destination=SOURCE))
    row("the endpoint of the smaller name takes HBONE", BASE + woken(1, told(e3=workload("10.0.0.33", hbone=1, serves=serves("web.a"))))
        + begun())
    row("an update by which an endpoint no longer takes HBONE", BASE + begun(destination=GATE) + woken(1, told(
        g6=workload("10.0.0.6", serves=serves("gate.a")))) + opened(b"now", link=4, destination=GATE))


def unsynced():
    row("nothing was told yet", NOBODY + begun())
    row("workloads alone were told", NOBODY + came(1, replay_rows.SET + replay_rows.OK, told(**MESH)) + WAKE + "\n" + begun())
    row("policies alone were told", NOBODY + came(1, replay_rows.SET + replay_rows.OK, DENY) + WAKE + "\n" + begun())
    row("a source that isn't known, and nothing was told", NOBODY + begun(source="10.0.0.66"))
    row("a header before all was told, and its last octet behind that", NOBODY + came(1, replay_rows.SET + replay_rows.OK, told(**MESH))
        + WAKE + "\n" + ACCEPT + woken(2, front()[:-1]) + woken(1, DENY) + woken(2, front()[-1:]) + on("open", 3))


def doors():
    here = "10.0.0.8"
    row("the outbound door itself", BASE + begun(destination=here, port=15001))
    row("the outbound door itself, at an address that nobody has", BASE + begun(destination="192.0.2.1", port=15001))
    row("the inbound door itself", BASE + begun(destination=here, port=15008), ALL)
    row("the plain door itself", BASE + begun(destination=here, port=15006), ALL)
    row("the outbound door at its address", BASE + begun(destination=here, port=15001), f"--outbound {here}:15001")
    row("the port of the outbound door at another address", BASE + opened(destination=here, port=15001), "--outbound 10.0.0.88:15001")
    row("the port of a door that isn't given", BASE + opened(destination=here, port=15008))
    own = told(e4=workload("10.0.0.4", serves=serves("web.a", target=15001)))
    row("an endpoint that is the outbound door", BASE + woken(1, own) + begun())
    ports = told(web=service(WEB, "web.a", ports=[(15001, 0)]), e4=workload("10.0.0.4", serves=serves("web.a", 15001, 8080)))
    row("a service's port that is the door's, and leads elsewhere", BASE + woken(1, ports) + opened(b"a", port=15001))
    row("a door behind a gateway", BASE + begun(destination="10.0.0.6", port=15001))
    row("a door, and a source that isn't known", BASE + begun(destination=here, port=15001, source="10.0.0.66"))
    row("a door, and nothing was told yet", NOBODY + begun(destination=here, port=15001))
    free = BASE + woken(1, policies(removed=["a/p"]))
    row("a link of the plain door to the outbound one", free + plain.begun(header=plain.front(15001)), ALL)
    row("a tunnel to the outbound door", free + modelled.ACCEPT + woken(2, tunnel_rows.OPENING + ask(to=b"10.0.0.7:15001")), ALL)


def headers():
    row("octet by octet", BASE + ACCEPT + woken(2, *single(front() + b"ab")) + on("open", 3) + woken(3, *single(b"xyz")))
    for name, octets in [
            ("a signature", b"GET / HTTP/1.1\r\n"), ("a version", front()[:12] + b"\x20"), ("a family", front()[:13] + b"\x12"),
            ("no room for addresses", front()[:14] + b"\x00\x0b"), ("too long a header", front()[:14] + b"\x10\x01"),
            ("an identity", front(more=b"\xe0\x00\x03abc")), ("two identities", front(more=plain.IDENTITY + plain.IDENTITY))]:
        row(f"a fault of the header: {name}", BASE + ACCEPT + woken(2, octets))
    row("nothing at all", BASE + ACCEPT + WAKE + "\n")


def dials():
    begin = BASE + begun(b"abc")
    row("a dial that fails", BASE + '{"nodial":1}\n' + begun(b"abc"))
    row("a dial that fails, and one that doesn't", BASE + '{"nodial":1}\n' + begun(b"abc") + opened(b"abc", link=3))
    row("an upstream that refuses", begin + on("refuse", 3))
    row("an upstream that never opens", begin + woken(2, b"de"))
    row("more comes before the upstream is open", begin + woken(2, b"de", b"f") + on("open", 3))
    row("the peer ends before the upstream is open", begin + on("end", 2) + on("open", 3) + woken(3, b"late") + on("end", 3))
    row("the peer breaks before the upstream is open", begin + on("break", 2))
    row("two links to one service", BASE + begun(b"a") + begun(b"b", link=4) + on("open", 3) + on("open", 5) + woken(3, b"xx")
        + woken(5, b"yyy"))
    row("two links to two places", BASE + begun(b"a") + begun(b"b", link=4, destination="10.0.0.8") + on("open", 5) + on("open", 3)
        + woken(3, b"xx") + on("end", 2) + woken(5, b"yyy"))


def ends():
    row("the peer ends first", LIVE + woken(2, b"ask") + on("end", 2) + woken(3, b"answer") + on("end", 3))
    row("the upstream ends first", LIVE + woken(3, b"hello") + on("end", 3) + woken(2, b"bye") + on("end", 2))
    row("both end at once", LIVE + woken(2, b"ab") + '{"end":2}\n' + on("end", 3))
    row("it ends without a byte", LIVE + on("end", 2) + on("end", 3))
    row("the peer ends, and the upstream breaks", LIVE + woken(2, b"ab") + on("end", 2) + on("break", 3))
    row("the upstream ends, and the peer breaks", LIVE + woken(3, b"ab") + on("end", 3) + on("break", 2))
    for name, script in STAGES:
        for what, link in [("break", 2), ("end", 2), ("break", 3), ("end", 3)]:
            if link == 2 or "lives" in name:
                row(f"{'its upstream' if link == 3 else 'it'} {what}s {name}", script + on(what, link))
        row(f"the run ends {name}", script)


def updates():
    others = [("a policy denies each peer", DENY), ("its source goes", gone("w9")), ("its service and its endpoint go", gone("web", "e4")),
              ("its endpoint takes HBONE", told(e4=workload("10.0.0.4", hbone=1, serves=serves("web.a"))))]
    for name, script in STAGES[1:]:
        for what, update in others:
            behind = on("open", 3) if "opens" in name else ""
            row(f"{what} {name}", script + woken(1, update) + behind + woken(2, b"more") + woken(3, b"back"))
    row("an update inside the header of the front", BASE + ACCEPT + woken(2, front()[:20]) + woken(1, gone("web"))
        + woken(2, front()[20:]) + on("open", 3))
    row("a service moves: a link stays, and the next one goes to its new endpoint", LIVE + woken(1, told(
        e4=workload("10.0.0.40", serves=serves("web.a", target=8888)))) + woken(2, b"old") + opened(b"new", link=4))
    row("the source goes: a link stays, and the next one has no route", LIVE + woken(1, gone("w9")) + woken(2, b"old") + begun(link=4))


def rooms():
    for name, script in plain.rooms_of(LIVE, BASE + begun(), 16384, 65535):
        row(name, script)


def mixed():
    tunnel = modelled.ACCEPT + woken(2, tunnel_rows.OPENING + ask(to=b"10.0.0.7:9090")) + on("open", 3)
    pair = BASE + tunnel + plain.opened(link=4)
    three = pair + opened(link=6)
    each = woken(2, data(1, b"up")) + woken(4, b"raw") + woken(6, b"out")
    row("three doors at once", three + each + woken(3, b"down") + woken(5, b"back") + woken(7, b"home"), ALL)
    row("an update ends a tunnel and a plain link, and leaves an outbound one", three + each + woken(1, DENY) + woken(6, b"still")
        + woken(7, b"here"), ALL)
    row("the run ends with three doors", three + each, ALL)
    row("an outbound link between two plain ones", BASE + plain.opened(b"a") + opened(b"b", link=4) + plain.opened(b"c", link=6)
        + woken(1, DENY, ALLOW) + woken(4, b"on"), ALL)
    one = [ALL, "--tunnels", "1"]
    row("an outbound link takes the last place of a tunnel", BASE + begun() + modelled.ACCEPT
        + woken(4, tunnel_rows.OPENING + ask(to=b"10.0.0.7:9090")), *one)
    row("a tunnel takes the last place of an outbound link", BASE + tunnel + ACCEPT + woken(4, front()), *one)
    row("a plain link takes the last place of an outbound link", BASE + plain.begun() + ACCEPT + WAKE + "\n", *one)
    row("an outbound link takes the last place of a plain link", BASE + begun() + plain.ACCEPT + WAKE + "\n", *one)
    row("two outbound links where one is allowed", BASE + begun(b"a") + ACCEPT + WAKE + "\n" + on("open", 3) + on("end", 2) + on("end", 3)
        + begun(b"c", link=5) + on("open", 6), DOOR, "--tunnels", "1")
    row("a link without a header has its place", BASE + ACCEPT + WAKE + "\n" + ACCEPT + WAKE + "\n" + on("end", 2) + ACCEPT + WAKE + "\n",
        DOOR, "--tunnels", "1")
    row("a link without a route gives its place back", BASE + begun(port=81) + opened(b"b", link=3), DOOR, "--tunnels", "1")
    row("an outbound link where the door isn't given", BASE + ACCEPT + WAKE + "\n", "--inbound 0.0.0.0:15008")
    row("a plain link where only the outbound door is given", BASE + plain.ACCEPT + WAKE + "\n")
    row("the control plane breaks, and a link goes on", LIVE + on("break", 1) + woken(2, b"still") + TICK + woken(3, b"here"))
    row("the control plane breaks, and a new link has a route", BASE + on("break", 1) + opened(b"in"))
    row("ticks", LIVE + TICK * 3 + woken(2, b"abc"))
    row("a listen that fails", '{"fault":"listen"}\n' + ACCEPT, DOOR)
    row("brief", LIVE + woken(2, b"abc"), DOOR, "--brief")


def cut_runs():
    """Runs of which what comes on the first two links is cut by chance."""
    life = BASE + begun(b"abc") + on("open", 3) + woken(2, b"more of it") + woken(3, b"answer") + on("end", 2) + on("end", 3)
    early = BASE + begun(b"early", destination="10.0.0.8") + woken(2, b"and late") + on("open", 3) + woken(3, b"answer") + on("end", 3) \
        + on("end", 2)
    kept = LIVE + woken(2, b"abc") + woken(3, b"defg") + woken(1, DENY) + woken(1, gone("w9", "web")) + begun(b"again", link=4) \
        + woken(2, b"still")
    return [("the whole life of an outbound link", life), ("an outbound link that begins early", early),
            ("an outbound link that updates leave", kept)]


def traces():
    """Each fifth row whose trace is short tells that too."""
    ROWS.extend(model_rows.traced(ROWS[::5], 6000, 6000))


def nowhere():
    """What leads to the unspecified address, which is the machine itself; the address above it is one like any other."""
    six = told(x=workload("2001:db8::9", node="n1"))
    row("the unspecified address", BASE + begun(b"abc", destination="0.0.0.0", port=53))
    row("the unspecified address of IPv6", BASE + woken(1, six) + begun(destination="::", source="2001:db8::9"))
    row("an endpoint at the unspecified address", BASE + woken(1, told(e4=workload("0.0.0.0", serves=serves("web.a")))) + begun())
    row("a gateway at the unspecified address", BASE + woken(1, told(g6=workload("0.0.0.0", hbone=1, serves=serves("gate.a"))))
        + begun(b"abc", destination=GATE))
    row("a workload at the unspecified address that takes HBONE", BASE + woken(1, told(x=workload("0.0.0.0", hbone=1)))
        + begun(destination="0.0.0.0", port=15008), ALL)
    row("the unspecified address, and nothing was told yet", NOBODY + begun(destination="0.0.0.0"))
    row("the address above the unspecified one", BASE + opened(b"abc", destination="0.0.0.1", port=53))


def waits():
    """The same octets as of a row above, wait by wait, so that the pages say the order of each entry."""
    row("workloads alone were told, wait by wait", NOBODY + woken(1, replay_rows.SET + replay_rows.OK) + woken(1, told(**MESH)) + begun(),
        DOOR, "--trace")


def tlv(identity):
    return b"\xe0" + len(identity).to_bytes(2, "big") + identity


def named():
    """An identity in the header is noted, whatever becomes of the link, and decides nothing."""
    link, total = tunnel_rows.link, tunnel_rows.total
    control = tunnel_rows.control(321 + len(told(**MESH)), 512)
    row("a header with an identity", BASE + opened(b"abc", destination="192.0.2.1", port=53, more=plain.IDENTITY) + on("end", 2)
        + on("end", 3), want=control + link(2, "outbound", 66, 0, "done") + link(3, "direct 192.0.2.1:53 of 2", 0, 3, "done")
        + "verdict 2/0 200 10.0.0.9 cluster.local/ns/a/sa/c 192.0.2.1:53\nend 2/0 done up 3 down 0\n" + total(3, 1, 0, 3, 0))
    row("a header with an identity, from a source that no workload has", BASE + begun(source="10.0.0.66", more=plain.IDENTITY),
        want=control + link(2, "outbound", 63, 0, "no route 1")
        + "verdict 2/0 503 10.0.0.66 cluster.local/ns/a/sa/c 10.1.0.1:80\n" + total(2, 0))
    whole = front(more=plain.IDENTITY) + b"ab"
    row("a header with an identity, in three pieces", BASE + ACCEPT + woken(2, whole[:30], whole[30:45], whole[45:]) + on("open", 3)
        + woken(3, b"xyz"))
    row("a header with an identity, before all was told", NOBODY + begun(more=plain.IDENTITY))
    row("a header with an identity, and a way that leads back", BASE + begun(destination="192.0.2.7", port=15001, more=plain.IDENTITY))
    row("a header with an identity, and an upstream that refuses", BASE + begun(b"abc", more=plain.IDENTITY) + on("refuse", 3))
    row("a header with an identity, and a peer that breaks while its upstream opens", BASE + begun(b"abc", more=plain.IDENTITY)
        + on("break", 2))
    row("two links of two identities", BASE + opened(b"a", more=plain.IDENTITY) + opened(b"b", link=4, more=tlv(b"spiffe://td/ns/x/sa/y")))
    row("one link with an identity and one without", BASE + opened(b"a", more=plain.IDENTITY) + opened(b"b", link=4))
    row("a header with other values alone", BASE + opened(b"a", more=b"\x01\x00\x02ab"))
    row("a header with the longest identity", BASE + opened(b"a", more=tlv(b"spiffe://a/ns/b/sa/" + b"c" * 4062)))


def places():
    """One place, which a tunnel takes, and which is free again behind an update that ends it."""
    tunnel = modelled.ACCEPT + woken(2, tunnel_rows.OPENING + ask(to=b"10.0.0.7:9090")) + on("open", 3)
    row("one place, which an update frees", BASE + tunnel + ACCEPT + WAKE + "\n" + woken(1, DENY, ALLOW) + opened(b"out", link=5), ALL,
        "--tunnels", "1")


def waypoints():
    """Waypoints that a connection can't go through; runs through others are those of gateway_rows.py."""
    link, total = tunnel_rows.link, tunnel_rows.total

    def row_7(name, *more, **resources):
        row(name, BASE + woken(1, told(**resources)) + begun(b"abc", destination=WAYS), DOOR, *more)

    way, pod, sick = service(WAYPOINT, "waypoint.a", ports=()), serves("waypoint.a"), {"status": 1, "serves": serves("waypoint.a")}
    update = told(way=way, p17=workload("10.0.0.17", **sick))
    row("a waypoint whose only pod is sick", BASE + woken(1, update) + begun(b"abc", destination=WAYS),
        want=tunnel_rows.control(321 + len(told(**MESH)) + len(update), 512 + 62) + link(2, "outbound", 31, 0, "no route 7")
        + "verdict 2/0 503 10.0.0.9 - 10.1.0.4:80\n" + total(2, 0))
    row_7("a waypoint whose only pod is sick, told", "--trace", way=way, p17=workload("10.0.0.17", **sick))
    row_7("a waypoint whose only pod has no address", way=way, p17=workload(serves=pod))
    row_7("a waypoint whose only pod is of another network", way=way, p17=workload("10.0.0.17", net="x", serves=pod))
    row_7("a waypoint that is a sick workload", p17=workload(WAYPOINT, status=1))
    row_7("a waypoint at port 70,000", way=way, p17=workload("10.0.0.17", serves=pod),
          ways=service(WAYS, "ways.a", waypoint={**ADDRESSED, "port": 70000}))
    far = woken(1, told(p17=workload(WAYPOINT), ways=service(WAYS, "ways.a", waypoint={**ADDRESSED, "net": "x"})))
    row("a waypoint of another network", BASE + far + begun(destination=WAYS))
    row("a waypoint of another network, told", BASE + far + begun(destination=WAYS), f"{DOOR} --trace")
    row("a waypoint that isn't there, told", BASE + begun(destination=WAYS), f"{DOOR} --trace")
    row("a waypoint whose hostname has no pod", BASE + woken(1, told(way=way)) + begun(destination=Y5))
    row("a waypoint that isn't there, and a source that isn't known", BASE + begun(destination=WAYS, source="10.0.0.66"))
    row("a waypoint that isn't there, and nothing was told yet", NOBODY + begun(destination=WAYS))
    row("a waypoint that isn't there, and a link straight behind that", BASE + begun(destination=WAYS) + opened(b"b", link=3))
    row("a waypoint at the unspecified address", BASE + woken(1, told(p17=workload("0.0.0.0", serves=pod))) + begun(b"abc", destination=Y5))
    row("a waypoint that takes a service's way, and a link to its endpoint stays", LIVE + woken(1, told(web=service(
        WEB, "web.a", waypoint=ADDRESSED))) + woken(2, b"old") + begun(link=4) + woken(3, b"back"))
    row("a waypoint that gives a service its way back", BASE + begun(destination=WAYS) + woken(1, told(ways=service(WAYS, "web.a")))
        + opened(b"abc", link=3, destination=WAYS))


# The table

HEAD = ["Runs of `hbone replay --outbound`. bench/tables/outbound_rows.py prints this file: a plain model of the pages answers."]
_TOLD = answer([*DOOR.split(), "--trace"], BASE)[1]
PARTS = {**plain.PARTS, "frontweb": front().hex(), "mesh": BASE, "meshtold": _TOLD[:_TOLD.index("closed 1")]}


def main():
    for rows in (by_hand, missing, straight, chosen, gateways, unsynced, doors, headers, dials, ends, updates, rooms, mixed, traces, nowhere,
                 waits, named, places, waypoints):
        rows()
    assert len({name for name, *_ in ROWS}) == len(ROWS)
    table = Table(HEAD, PARTS)
    for each in ROWS:
        model_rows.put_row(table, *each)
    model_rows.put_cut(table, cut_runs(), DOOR.split())
    table.print()


if __name__ == "__main__":
    main()
