"""Resources of routes as plain dicts, how they are spelled, and the way of a connection: a second evaluator, from docs/FORMATS.md
("Routes"), for the scripts beside this one. Each question walks over all resources.
"""

import ipaddress
import json

from spelling import number, span, text


# Resources, and how they are spelled.


def workload(*ips, hbone=1, status=0, net="net", node="n2", serves=(), waypoint=None):
    """Numbers of the protocol and of the status are those of the enums; `serves` has pairs of a key and its ports, of which the last of a
    key counts."""
    parts = {"ips": ips, "hbone": hbone, "status": status, "net": net, "node": node}
    return {"kind": "w", "serves": tuple(serves), "waypoint": waypoint, **parts}


def service(*at, ns="a", host="web.a", ports=((80, 8080),), waypoint=None, net="net"):
    """`at` has addresses of the network, or pairs of another network and an address."""
    at = tuple(x if isinstance(x, tuple) else (net, x) for x in at)
    return {"kind": "s", "ns": ns, "host": host, "at": at, "ports": tuple(ports), "waypoint": waypoint}


def by_hostname(host, ns="a", port=0):
    """A waypoint, with its port for HBONE."""
    return {"ns": ns, "host": host, "port": port}


def by_address(ip, net="net", port=0):
    return {"net": net, "ip": ip, "port": port}


def ports_of(pairs, field):
    return b"".join(span(field, number(1, port) + number(2, target)) for port, target in pairs)


def address_of(net, ip):
    return text(1, net) + span(2, ipaddress.ip_address(ip).packed)


def waypoint_of(field, it):
    """The field with a waypoint; nothing where there is none."""
    if it is None:
        return b""
    to = span(1, text(1, it["ns"]) + text(2, it["host"])) if "host" in it else span(2, address_of(it["net"], it["ip"]))
    return span(field, to + number(3, it["port"]))


def spelled(r):
    """The octets of the address record."""
    if r["kind"] == "w":
        fields = b"".join(span(3, ipaddress.ip_address(ip).packed) for ip in r["ips"]) + text(4, r["net"]) + number(5, r["hbone"])
        fields += waypoint_of(8, r["waypoint"]) + text(9, r["node"]) + number(17, r["status"])
        fields += b"".join(span(22, text(1, key) + span(2, ports_of(pairs, 1))) for key, pairs in r["serves"])
        return span(1, fields)
    fields = text(2, r["ns"]) + text(3, r["host"])
    fields += b"".join(span(4, address_of(net, ip)) for net, ip in r["at"])
    return span(2, fields + ports_of(r["ports"], 5) + waypoint_of(7, r["waypoint"]))


# The evaluator. A way is ("direct", TARGET, NAME or None), ("gateway", TARGET, AUTHORITY, NAME) or ("none", NUMBER).


UNKNOWN_SOURCE, NO_ENDPOINT, NO_PORT, OTHER_NETWORK, UNKNOWN_WAYPOINT, NO_WAYPOINT_ENDPOINT = 1, 2, 3, 5, 6, 7
WHY = {
    UNKNOWN_SOURCE: "unknown source", NO_ENDPOINT: "no healthy endpoint", NO_PORT: "no such port of the service",
    OTHER_NETWORK: "waypoint of another network", UNKNOWN_WAYPOINT: "unknown waypoint",
    NO_WAYPOINT_ENDPOINT: "no healthy endpoint of the waypoint"}


def ip_of(name):
    ip = ipaddress.ip_address(name)
    return getattr(ip, "ipv4_mapped", None) or ip


def target(ip, port):
    return f"{ip}:{port}" if ip.version == 4 else f"[{ip}]:{port}"


def first(pairs, port):
    return next((target for number, target in pairs if number == port), None)


class Mesh:
    """Resources by their names, as a node of a network looks at them; `opens` has how many connections each endpoint has."""

    def __init__(self, resources, opens, net, node, hbone_port):
        self.resources, self.opens, self.net, self.node, self.hbone_port = resources, opens, net, node, hbone_port

    def by_name(self, kind, passes):
        """Of the workloads or services those that pass, each with its name, the smallest name first."""
        found = [(name, r) for name, r in self.resources.items() if r["kind"] == kind and passes(r)]
        return sorted(found, key=lambda pair: pair[0].encode())

    def workloads_at(self, ip):
        return self.by_name("w", lambda r: r["net"] == self.net and ip in map(ip_of, r["ips"]))

    def services_at(self, ip):
        return self.by_name("s", lambda r: (self.net, ip) in [(net, ip_of(at)) for net, at in r["at"]])

    def serving(self, ns, host):
        """The workloads that name the service, sick ones too."""
        return self.by_name("w", lambda r: r["net"] == self.net and f"{ns}/{host}" in dict(r["serves"]))

    def chosen(self, places):
        """Of pairs of a name and more the one with the fewest connections, of several the one of the smallest name."""
        return min(places, key=lambda place: (self.opens.get(place[0], 0), place[0].encode()), default=None)

    def leads(self, r, service, port):
        """The port of a workload to which the port of a service leads, if any."""
        own = first(dict(r["serves"])[service["ns"] + "/" + service["host"]], port)
        return None if own is None else own or first(service["ports"], port) or port

    def to(self, name, r, ip, port):
        """The way to a workload itself."""
        if r["hbone"] == 1:
            return "gateway", target(ip, self.hbone_port), target(ip, port), name
        return "direct", target(ip, port), name

    def to_service(self, service, port):
        if first(service["ports"], port) is None:
            return "none", NO_PORT
        places = [(name, r, self.leads(r, service, port)) for name, r in self.serving(service["ns"], service["host"])]
        places = [(name, r, leads) for name, r, leads in places if r["status"] == 0 and r["ips"] and leads is not None and leads < 65536]
        least = self.chosen(places)
        return self.to(least[0], least[1], ip_of(least[1]["ips"][0]), least[2]) if least else ("none", NO_ENDPOINT)

    def pods(self, waypoint):
        """The workloads of a waypoint, sick ones too, each with the address at which it is one; or the number of why there are none."""
        if "host" in waypoint:
            return [(name, r, r["ips"][:1]) for name, r in self.serving(waypoint["ns"], waypoint["host"])] or UNKNOWN_WAYPOINT
        if waypoint["net"] != self.net:
            return OTHER_NETWORK
        ip = ip_of(waypoint["ip"])
        for _, service in self.services_at(ip)[:1]:
            return [(name, r, r["ips"][:1]) for name, r in self.serving(service["ns"], service["host"])]
        return [(name, r, [ip]) for name, r in self.workloads_at(ip)[:1]] or UNKNOWN_WAYPOINT

    def through(self, waypoint, authority):
        """The way through a waypoint, by which the destination itself is asked for."""
        pods, port = self.pods(waypoint), waypoint["port"] or self.hbone_port
        if not isinstance(pods, list):
            return "none", pods
        least = self.chosen([(name, ips[0]) for name, r, ips in pods if r["status"] == 0 and ips and port < 65536])
        return ("gateway", target(ip_of(least[1]), port), authority, least[0]) if least else ("none", NO_WAYPOINT_ENDPOINT)

    def way(self, source, ip, port):
        sources, services, workloads = self.workloads_at(source), self.services_at(ip), self.workloads_at(ip)
        if not sources or sources[0][1]["node"] != self.node:
            return "none", UNKNOWN_SOURCE
        for name, r in (services or workloads)[:1]:
            if r["waypoint"]:
                return self.through(r["waypoint"], target(ip, port))
            return self.to_service(r, port) if services else self.to(name, r, ip, port)
        return "direct", target(ip, port), None


def way(resources, opens, source, ip, port, hbone_port, net="net", node="n1"):
    """The way of a connection at a node of a network."""
    return Mesh(resources, opens, net, node, hbone_port).way(ip_of(source), ip_of(ip), port)


def line(found):
    """The way as `hbone route` tells it (docs/COMMANDS.md)."""
    kind, *words = found
    if kind == "none":
        return f"no route {words[0]}: {WHY[words[0]]}"
    name = words.pop()
    told = f"{kind} {' authority '.join(words)}"
    return told if name is None else f"{told} endpoint {told_name(name)}"


def told_name(name):
    """A name as it is, or as a JSON string where it is none of the visible characters of ASCII alone or has a mark that JSON escapes."""
    is_plain = name != "" and all("!" <= mark <= "~" and mark not in '"\\' for mark in name)
    return name if is_plain else json.dumps(name, ensure_ascii=False)
