#!/usr/bin/python3
"""Prints crates/hb_tunnels_rows/src/route_rows.rt: records in digits; and resources of such records, connections that are open, a connection
that is to be made, and the way it takes.

    python3 bench/tables/route_rows.py > crates/hb_tunnels_rows/src/route_rows.rt && (cd crates/hb_tunnels_rows && rt fmt)

routes.py beside this one, a second evaluator, tells each way.
"""

import random
import textwrap

from routes import by_address, by_hostname, ip_of, service, spelled, way, workload

CHOICE = random.Random(1508)

NODE = "n1"


def counted(opens):
    """How many connections are open: a name opens one, and ~name ends one."""
    counts = {}
    for word in opens.split():
        name = word.lstrip("~")
        counts[name] = counts.get(name, 0) + (-1 if word[0] == "~" else 1)
        assert counts[name] >= 0
    return counts


# Rows.

RECORDS = {}
WEB = service("10.1.0.1")
TO_WEB = [("a/web.a", [(80, 8080)])]


def record(r):
    """The name of the record in the table of records."""
    return RECORDS.setdefault(spelled(r), f"{r['kind']}{len(RECORDS)}")


def row(resources, destination="10.1.0.1", port=80, opens="", source="10.0.0.9", hbone_port=15008):
    answer = " ".join("-" if word is None else str(word) for word in way(resources, counted(opens), source, destination, port, hbone_port))
    held = " ".join(f"{name}={record(r)}" for name, r in resources.items())
    ends = f"{ip_of(source)} {ip_of(destination)} {port} {hbone_port}"
    return f"{held}; {opens}; {ends}; {answer}"


def mesh(*more, source=workload("10.0.0.9", node=NODE), web=WEB, **named):
    """A source w9, a service a/web.a, and workloads u1, u2 .. or others by name."""
    resources = {"w9": source, "web": web}
    resources.update({f"u{i}": r for i, r in enumerate(more, 1)}, **named)
    return {name: r for name, r in resources.items() if r}


def end(ip, ports=((80, 8080),), key="a/web.a", **more):
    return workload(ip, serves=[(key, ports)], **more)


U1, U2 = end("10.0.0.7"), end("10.0.0.8")
SICK1, SICK2 = end("10.0.0.7", status=1), end("10.0.0.8", status=1)
PLAIN1, PLAIN2 = end("10.0.0.7", hbone=0), end("10.0.0.8", hbone=0)


def choice_rows():
    two = mesh(U1, U2)
    yield "# a service of two endpoints: fewer open first, and then the smaller name"
    yield from (row(two, opens=opens) for opens in ("u1", "", "u1 u2", "u2", "u1 u1 u2", "u2 u2 u1 u1 u1", "u1 u2 u1 u2"))
    yield "# connections that ended; of what is no endpoint"
    yield from (row(two, opens=opens) for opens in ("u1 ~u1", "u1 u1 ~u1 u2 u2", "u1 u2 ~u2", "u1 u2 ~u1", "u1 u1 ~u1 ~u1 u2"))
    yield from (row(two, opens=opens) for opens in ("x y y", "w9 web u", "u1 ~u1 u1 u2 ~u2"))
    yield "# names that differ in the last octet, or in their length; the names' octets in order, whichever came first"
    names = [("ua", "ub"), ("ub", "ua"), ("u", "ua"), ("U", "u"), ("z", "a"), ("u", "\u00fc"), ("\u00fc", "\u00fd")]
    names += [("u10", "u2"), ("u0", "u/")]
    for one, other in names:
        pair = mesh(**{one: U1, other: U2})
        yield from (row(pair), row(pair, opens=one), row(pair, opens=f"{one} {other}"), row(pair, opens=f"{other} {other} {one}"))
    yield "# three, of which two have fewest open"
    three = mesh(U1, U2, end("10.0.0.6"))
    yield from (row(three, opens=opens) for opens in ("u1", "u1 u2", "u1 u1 u2 u3", "u2 u3", "u1 u3", "u1 u2 u3"))


def refused_rows():
    two = mesh(U1, U2)
    yield "# a port that the service hasn't; a source that isn't known"
    yield from (row(two, port=port) for port in (81, 0, 8080, 65535))
    yield from (row(two, source=ip) for ip in ("10.0.0.66", "10.0.0.7", "10.1.0.1", "2001:db8::9"))
    yield row(two, "8.8.8.8", 53, source="10.0.0.66")
    yield row(mesh(U1, source=workload("10.0.0.9", node=NODE, net="other")))
    yield row(mesh(U1, source=workload("10.0.0.9", node="n")))
    yield row(mesh(U1, a=workload("10.0.0.9", node="n2")))
    yield row(mesh(U1, x=workload("10.0.0.9", node="n2")))
    yield row(mesh(U1, source=workload("10.0.0.8", "10.0.0.9", node=NODE, status=1, hbone=0)))
    yield "# health: both, one, the one with fewer open; a status that isn't 0"
    yield from (row(mesh(SICK1, SICK2)), row(mesh(SICK1, U2)), row(mesh(U1, SICK2)), row(mesh(SICK1, U2), opens="u2 u2"))
    yield row(mesh(end("10.0.0.7", status=2), end("10.0.0.8", status=5)))
    yield "# no endpoint: none there, without an address, of another network, of no network"
    yield from (row(mesh()), row(mesh(workload(serves=TO_WEB))), row(mesh(workload(serves=TO_WEB), U2)))
    yield from (row(mesh(end("10.0.0.7", net=net), x)) for net in ("other", "") for x in (None, U2))


# Waypoints: workloads p1, p2 .. of a service a/way.a at 10.1.0.2, and a/web.a with its endpoint u1 behind it.

WAY = by_hostname("way.a")
WAY_SERVICE = service("10.1.0.2", host="way.a", ports=())


def pod(*ips, key="a/way.a", **more):
    return workload(*ips, serves=[(key, ())], **more)


P1, P2 = pod("10.0.0.17"), pod("10.0.0.18")


def behind(waypoint, *pods, u1=U1, **named):
    """The service behind a waypoint that has these workloads."""
    pods = {f"p{i}": r for i, r in enumerate(pods, 1)}
    return mesh(u1, **{"web": service("10.1.0.1", waypoint=waypoint), "way": WAY_SERVICE, **pods, **named})


def waypoint_rows():
    two = behind(WAY, P1, P2)
    yield "# a waypoint by its hostname: fewer open first, and then the smaller name; its port, or that of all gateways"
    yield from (row(two, opens=opens) for opens in ("", "p1", "p1 p2", "p2", "p1 p1 p2", "p1 p2 ~p1", "u1 u1 way web", "p1 p1 ~p1 p2 p2"))
    yield from (row(behind(by_hostname("way.a", port=port), P1, P2), opens="p1", hbone_port=all_ports)
                for port in (0, 15009, 1) for all_ports in (15008, 16000, 0))
    yield from (row(behind(by_hostname("way.a", port=port), P1)) for port in (65535, 65536, 70000, 2**32 - 1))
    yield "# whatever the port that is asked for, and the service's endpoints"
    yield from (row(two, port=port) for port in (81, 0, 65535))
    yield from (row(behind(WAY, P1, u1=u1)) for u1 in (None, SICK1, PLAIN1, end("10.0.0.7", [(80, 65536)])))
    yield "# its workloads: sick ones, without an address, of another network, without HBONE, of several addresses, of IPv6"
    sick, bare = pod("10.0.0.17", status=1), pod()
    yield from (row(behind(WAY, sick, P2)), row(behind(WAY, sick, P2), opens="p2 p2"), row(behind(WAY, sick)), row(behind(WAY, bare)))
    yield from (row(behind(WAY, bare, sick)), row(behind(WAY, bare, P2)), row(behind(WAY, pod("10.0.0.17", status=2))), row(behind(WAY)))
    yield from (row(behind(WAY, pod("10.0.0.17", net=net), *more)) for net in ("other", "") for more in ([], [P2]))
    yield from (row(behind(WAY, pod(*ips))) for ips in (("10.0.0.17", "10.0.0.6"), ("10.0.0.6", "10.0.0.17"), ("2001:db8::17",)))
    yield from (row(behind(WAY, pod("::ffff:10.0.0.17"))), row(behind(WAY, pod("10.0.0.17", hbone=0))))
    yield row(behind(WAY, workload("10.0.0.17", serves=[("a/db.a", [(80, 1)]), ("a/way.a", [(15008, 15009)])])))
    yield "# hostnames that nobody has, or others have; hostnames whose service isn't there; parts of no octets"
    yield from (row(behind(by_hostname(host), P1)) for host in ("way", "way.aa", "WAY.a", "", "a/way.a"))
    yield from (row(behind(by_hostname("way.a", ns=ns), P1)) for ns in ("b", "", "A"))
    yield from (row(behind(WAY, P1, way=None)), row(behind(by_hostname("", ns=""), P1, x=pod("10.0.0.20", key="/"))))
    yield from (row(behind(WAY, pod("10.0.0.17", key=key))) for key in ("a/way", "way.a", "b/way.a"))
    yield row(behind(by_hostname("b/way", ns="a"), pod("10.0.0.17", key="a/b/way")))
    yield "# a waypoint by an address that a service has; of another network; one of no workloads, or of sick ones"
    at = by_address("10.1.0.2")
    yield from (row(behind(at, P1, P2), opens=opens) for opens in ("", "p1", "p1 p2"))
    yield from (row(behind(by_address("10.1.0.2", port=port), P1, P2)) for port in (15009, 65536))
    yield from (row(behind(by_address("10.1.0.2", net=net), P1)) for net in ("other", "", "NET"))
    yield from (row(behind(at)), row(behind(at, sick)), row(behind(at, bare)), row(behind(at, P1, way=service(("other", "10.1.0.2"), host="way.a"))))
    yield from (row(behind(at, P1, way=service("10.1.0.3", "10.1.0.2", host="way.a"))), row(behind(by_address("::ffff:10.1.0.2"), P1)))
    yield from (row(behind(at, P1, **{name: service("10.1.0.2", host="db.a")})) for name in ("v", "x"))
    yield from (row(behind(at, P1, x=workload("10.1.0.2"))), row(behind(at, x=workload("10.1.0.2"))))
    yield "# a waypoint by an address that a workload has, at that address; the smaller name; sick ones; one that nobody has"
    at = by_address("10.0.0.17")
    yield from (row(behind(at, P1, P2)), row(behind(at, P1, P2), opens="p1"), row(behind(at, workload("10.0.0.17"))))
    yield from (row(behind(by_address("10.0.0.17", port=port), P1)) for port in (15009, 70000))
    yield from (row(behind(at, r)) for r in (sick, pod("10.0.0.6", "10.0.0.17"), pod("10.0.0.17", hbone=0), pod("10.0.0.17", net="other")))
    yield from (row(behind(at, one, other)) for one, other in ((P1, sick), (sick, P1), (pod("10.0.0.17", net="other"), P1)))
    yield from (row(behind(by_address("10.0.0.19"), P1)), row(behind(by_address("10.0.0.17", net="other"), P1)))
    yield from (row(behind(by_address(ip), pod("2001:db8::17"))) for ip in ("2001:db8::17", "2001:db8::18"))
    yield "# of a workload: its own waypoint; not that of its service, whose connections don't ask for the workload's"
    for waypoint in (WAY, at, by_address("10.0.0.19"), by_address("10.0.0.17", net="other")):
        own = end("10.0.0.7", waypoint=waypoint)
        yield from (row(behind(None, P1, u1=own), "10.0.0.7", 53), row(behind(None, P1, u1=own)), row(behind(WAY, P1, u1=own), "10.0.0.7"))
        yield row(behind(waypoint, P1), "10.0.0.7")
    yield from (row(behind(None, P1, u1=workload("10.0.0.7", waypoint=WAY, **more)), "10.0.0.7") for more in ({"hbone": 0}, {"status": 1}))
    yield row(behind(WAY, P1, u1=workload("10.1.0.1", waypoint=by_hostname("no.a"))))
    yield "# a source that isn't known goes first; a source that is the waypoint; a waypoint behind another; one in front of itself"
    yield from (row(behind(waypoint, P1), source="10.0.0.66") for waypoint in (WAY, by_hostname("no.a")))
    yield row(behind(WAY, pod("10.0.0.17", node=NODE)), source="10.0.0.17")
    yield row(behind(WAY, pod("10.0.0.17", waypoint=by_hostname("no.a")), way=service("10.1.0.2", host="way.a", waypoint=by_hostname("no.a"))))
    yield from (row(behind(None, pod("10.0.0.17", waypoint=by_address("10.0.0.17"))), "10.0.0.17", port) for port in (80, 15008))
    yield row(behind(None, P1, way=service("10.1.0.2", host="way.a", waypoint=WAY)), "10.1.0.2", 15008)
    six = behind(WAY, pod("2001:db8::17"), web=service("2001:db8::1", waypoint=WAY), x=workload("2001:db8::9", node=NODE))
    yield from (row(six, "2001:db8::1", source="2001:db8::9"), row(six, "2001:db8::1"))


def port_rows():
    def one(entry, ports, port=80):
        return row(mesh(end("10.0.0.7", entry), web=service("10.1.0.1", ports=ports)), port=port)

    yield "# the entry's port, where it is 0 the service's, where that is 0 the one asked for"
    for own in (0, 1, 8080, 65535, 65536, 2**32 - 1):
        yield from (one([(80, own)], [(80, target)]) for target in (0, 9090, 65535, 65536))
    yield "# a port that stands in the service or in the entry alone; ports of 32 bits; port 0"
    yield from (one([(81, 8080)], [(80, 8080)]), one([], [(80, 8080)]), one([(80, 8080)], []), one([(80, 8080)], [(81, 8080)]))
    yield from (one([(80 + 65536, 8080)], [(80, 8080)]), one([(80, 8080)], [(80 + 65536, 8080)]), one([(80, 8080), (81, 1)], [(81, 2)], 81))
    yield from (one([(0, 8080)], [(0, 9090)], 0), one([(0, 0)], [(0, 0)], 0), one([(65535, 0)], [(65535, 0)], 65535))
    yield "# ports that stand twice: the first counts, in the service and in the entry"
    yield from (one([(80, 0)], [(80, a), (80, b)]) for a, b in ((1, 2), (0, 2), (2, 0), (65536, 2)))
    yield from (one([(80, a), (80, b)], [(80, 9090)]) for a, b in ((1, 2), (0, 2), (2, 0), (65536, 2)))
    yield from (one([(81, 1), (80, 2), (80, 3)], [(79, 4), (80, 5)]), one([(80, 1), (443, 2)], [(443, 3), (80, 4)], 443))
    yield "# an endpoint whose port is none gives way to another"
    yield from (row(mesh(end("10.0.0.7", [(80, 65536)]), U2), opens=opens) for opens in ("", "u2"))
    yield "# keys: of another service, not whole, longer; of several keys the one of the service; a key that stands twice"
    for key in ("a/web.b", "a/web", "a/web.aa", "b/web.a", "aweb.a", "/web.a", "a/", "a//web.a", "A/web.a", "a/web.a/"):
        yield row(mesh(end("10.0.0.7", key=key), U2), opens="u2")
    keys = [("a/db.a", [(80, 1)]), ("a/web.a", [(80, 2)]), ("b/web.a", [(80, 3)])]
    yield from (row(mesh(workload("10.0.0.7", serves=s))) for s in (keys, keys[::-1], keys[:1], [("a/web.a", [(80, 4)]), *keys]))
    yield "# services without a namespace, without a hostname, with a slash in one"
    for ns, host in (("", "web"), ("a", ""), ("", ""), ("a/b", "web"), ("a", "b/web")):
        yield row(mesh(end("10.0.0.7", key=f"{ns}/{host}"), web=service("10.1.0.1", ns=ns, host=host)))
    yield "# the port of gateways"
    yield from (row(mesh(U1), hbone_port=p) for p in (0, 1, 15009, 65535))


def place_rows():
    yield "# endpoints that don't take HBONE; other numbers of the protocol; both kinds side by side"
    yield from (row(mesh(PLAIN1, PLAIN2)), row(mesh(PLAIN1, U2)), row(mesh(PLAIN1, U2), opens="u1"), row(mesh(end("10.0.0.7", hbone=2))))
    yield "# the first of an endpoint's addresses; IPv6, and IPv4 mapped into it"
    for ips in (("10.0.0.7", "10.0.0.6"), ("10.0.0.6", "10.0.0.7"), ("2001:db8::7", "10.0.0.7"), ("::ffff:10.0.0.7",), ("::1:0:7",)):
        yield row(mesh(workload(*ips, serves=TO_WEB)))
    six = mesh(end("2001:db8::7"), web=service("2001:db8::1"), x=workload("2001:db8::9", node=NODE))
    yield from (row(six, "2001:db8::1"), row(six, "2001:db8::1", source="2001:db8::9"), row(six, "2001:db8::2"), row(six, "2001:db8::7"))
    yield from (row(six, "2001:db8::1", 81), row(six, "2001:db8::7", source="2001:db8::8"))
    yield from (row(mesh(U1, web=service("::ffff:10.1.0.1"))), row(mesh(U1), "::ffff:10.1.0.1"), row(mesh(U1, web=service("::a01:1"))))
    yield "# the service of an address: in this network, the smaller name, one of several addresses"
    yield row(mesh(U1, web=service(("other", "10.1.0.1"))))
    yield row(mesh(U1, web=service(("", "10.1.0.1"))))
    yield row(mesh(U1, web=service("10.1.0.2", ("other", "10.1.0.1"), "10.1.0.1")))
    other = service("10.1.0.1", host="db.a")
    yield from (row(mesh(U1, v=other)), row(mesh(U1, x=other)), row(mesh(U1, v=other, d=end("10.0.0.6", key="a/db.a"))))
    yield "# an address that a workload has as well as a service; the source's own; an endpoint's"
    yield from (row(mesh(U1, a=workload("10.1.0.1"))), row(mesh(U1, a=workload("10.1.0.1")), port=81))
    yield from (row(mesh(U1), "10.0.0.9"), row(mesh(U1), "10.0.0.7"), row(mesh(end("10.1.0.1"))))
    yield row(mesh(source=workload("10.0.0.9", node=NODE, serves=TO_WEB)))
    yield "# a workload: takes HBONE or not, isn't healthy, has another network, the smaller name, several addresses; none"
    for r in (workload("10.0.0.7"), workload("10.0.0.7", hbone=0), workload("10.0.0.7", status=1), workload("10.0.0.7", status=1, hbone=0)):
        yield from (row(mesh(r), "10.0.0.7", 53), row(mesh(r), "10.0.0.7", 0))
    yield from (row(mesh(workload("10.0.0.7", net=net)), "10.0.0.7") for net in ("other", ""))
    yield row(mesh(workload("10.0.0.7", hbone=0), workload("10.0.0.7")), "10.0.0.7")
    yield row(mesh(workload("10.0.0.7", net="other", hbone=0), workload("10.0.0.7")), "10.0.0.7")
    yield row(mesh(workload("10.0.0.6", "10.0.0.7")), "10.0.0.7", opens="u1 u1")
    yield from (row(mesh(U1), "8.8.8.8", 53), row(mesh(U1), "0.0.0.0", 0), row(mesh(U1), "::", 65535), row(mesh(web=None), "10.1.0.1"))


def chance_rows():
    """Small meshes, of which most parts are drawn by chance."""
    yield "# meshes by chance"
    for _ in range(60):
        keys = ["a/web.a"] * 4 + ["a/web.b", "b/web.a"]

        def pairs():
            return [(CHOICE.choice((80, 80, 81)), CHOICE.choice((0, 0, 8080, 9090, 65536))) for _ in range(CHOICE.randint(1, 2))]

        def drawn():
            ips = [f"10.0.0.{CHOICE.randint(1, 5)}" for _ in range(CHOICE.choice((1, 1, 1, 2)))]
            serves = [(CHOICE.choice(keys), pairs())]
            net = CHOICE.choice(("net",) * 5 + ("other",))
            return workload(*ips, hbone=CHOICE.randint(0, 1), status=CHOICE.choice((0, 0, 0, 1)), net=net, serves=serves)

        names = CHOICE.sample(["u", "u1", "u2", "ua", "uA", "v", "a"], CHOICE.randint(2, 5))
        resources = mesh(web=service("10.1.0.1", ports=pairs()), **{name: drawn() for name in names})
        opens = " ".join(CHOICE.choice(names) for _ in range(CHOICE.randint(0, 6)))
        destination = CHOICE.choice(["10.1.0.1"] * 5 + ["10.0.0.1", "10.0.0.2"])
        yield row(resources, destination, CHOICE.choice((80, 80, 80, 81)), opens)


def waypoints_by_chance():
    """Small meshes of which most have a waypoint."""
    yield "# meshes with waypoints by chance"
    for _ in range(16):
        def drawn():
            net, key = CHOICE.choice(("net",) * 5 + ("other",)), CHOICE.choice(("a/way.a", "a/way.a", "a/web.a", "a/no.a"))
            ips = [f"10.0.0.{CHOICE.randint(1, 5)}" for _ in range(CHOICE.choice((0, 1, 1, 1, 2)))]
            more = {"waypoint": waypoint()} if CHOICE.random() < 0.3 else {}
            return workload(*ips, hbone=CHOICE.randint(0, 1), status=CHOICE.choice((0, 0, 0, 1)), net=net, serves=[(key, [(80, 0)])], **more)

        def waypoint():
            port = CHOICE.choice((0, 0, 15009, 65536))
            net, ip = CHOICE.choice(("net",) * 4 + ("other",)), CHOICE.choice(("10.1.0.2", "10.0.0.1", "10.0.0.2", "10.0.0.3", "10.0.0.6"))
            return CHOICE.choice((by_hostname(CHOICE.choice(("way.a", "way.a", "no.a")), port=port), by_address(ip, net=net, port=port)))

        names = CHOICE.sample(["u", "u1", "u2", "ua", "uA", "v", "a"], CHOICE.randint(2, 5))
        web = service("10.1.0.1", waypoint=waypoint() if CHOICE.random() < 0.8 else None)
        resources = mesh(web=web, way=WAY_SERVICE, **{name: drawn() for name in names})
        opens = " ".join(CHOICE.choice(names) for _ in range(CHOICE.randint(0, 6)))
        yield row(resources, CHOICE.choice(["10.1.0.1"] * 4 + ["10.0.0.1", "10.0.0.2", "10.1.0.2"]), 80, opens)


def quoted(lines):
    """The lines as octets in Rust, those that are too long over several lines."""
    for line in lines:
        line = "".join(it if ord(it) < 128 else "".join(f"\\x{octet:02x}" for octet in it.encode()) for it in line.replace("\\", "\\\\"))
        parts = textwrap.wrap(line, 120, break_long_words=False, break_on_hyphens=False) if len(line) > 130 else [line]
        yield " \\\n    ".join(parts) + "\\n\\"


def main():
    tables = [choice_rows, refused_rows, port_rows, place_rows, chance_rows, waypoint_rows, waypoints_by_chance]
    rows = [row for table in tables for row in table()]
    print("//! Records and ways of connections, printed by bench/tables/route_rows.py, where an evaluator in Python tells each way.\n")
    print("/// Names of records, and their octets in digits.")
    print('pub const RECORDS: &[u8] = b"\\')
    digits = (f"{name} " + " ".join(textwrap.wrap(octets.hex(), 64)) for octets, name in RECORDS.items())
    print("\n".join(quoted(digits)) + '\n";\n')
    print("/// Resources; connections that open, or end; a source, a destination with its port, and the port of gateways; the way.")
    print('pub const WAYS: &[u8] = b"\\')
    print("\n".join(quoted(rows)) + '\n";')


main()
