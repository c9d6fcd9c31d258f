#!/usr/bin/env python3
"""Prints tests/route/meshes.runs: meshes by chance, of a fixed seed, and the ways of connections through them.

    python3 bench/tables/mesh_rows.py > tests/route/meshes.runs

routes.py beside this one, a second evaluator, tells each way.
"""
import random

import routes
import run_table
from spelling import ADDRESS, addresses, response, shown, span
from way_rows import evaluated

CHOICE = random.Random(1509)
MESHES, ASKED = 80, 5
NETWORKS = ("",) * 5 + ("x",)
# Of workloads, of services, and of a workload w9 of this node
IPS = [f"10.0.0.{n}" for n in range(1, 7)] + ["2001:db8::1"]
SERVICE_IPS = ["10.1.0.1", "10.1.0.2", "10.1.0.3"]
SOURCE = "10.0.0.9"
HOSTS = ["web.a", "way.a", "far.a"]
NAMES = ["u", "u1", "u2", "u10", "U", "a/b", "cluster//Pod/a/w-0", "a b", 'q"', "\u00fc", "~", "z\\", "0", "web", "way", "-"]


def one_of(*many):
    return CHOICE.choice(many)


def waypoint():
    port = one_of(0, 0, 0, 15009, 65535, 65536, 70000)
    if CHOICE.random() < 0.5:
        return routes.by_hostname(CHOICE.choice(HOSTS), ns=one_of("a", "a", "a", "b"), port=port)
    return routes.by_address(CHOICE.choice(IPS + SERVICE_IPS * 2), net=CHOICE.choice(NETWORKS), port=port)


def some(chance):
    return waypoint() if CHOICE.random() < chance else None


def ports():
    return [(one_of(80, 80, 81), one_of(0, 8080, 9090, 65536)) for _ in range(one_of(1, 1, 2))]


def workload():
    ips = CHOICE.sample(IPS, one_of(0, 1, 1, 1, 1, 2))
    serves = [(f"a/{host}", ports()) for host in CHOICE.sample(HOSTS, one_of(0, 1, 1, 1, 2))]
    return routes.workload(*ips, hbone=one_of(0, 1, 1), status=one_of(0, 0, 0, 1), net=CHOICE.choice(NETWORKS),
                           node=one_of("n1", "n1", "n2"), serves=serves, waypoint=some(0.3))


def service():
    at = [(CHOICE.choice(("",) * 9 + ("x",)), ip) for ip in CHOICE.sample(SERVICE_IPS, one_of(1, 1, 2))]
    return routes.service(*at, ns=one_of("a", "a", "a", "b"), host=CHOICE.choice(HOSTS), ports=ports(), waypoint=some(0.5))


def mesh():
    """One response or two of which the second replaces and removes; and the resources of the first."""
    names = CHOICE.sample(NAMES, CHOICE.randint(5, 10))
    resources = {name: service() if CHOICE.random() < 0.4 else workload() for name in names}
    resources["w9"] = routes.workload(SOURCE, net="", node="n1")
    messages = [addresses(*((name, routes.spelled(r)) for name, r in resources.items()))]
    if CHOICE.random() < 0.2:
        moved, gone = CHOICE.sample(names, 2)
        messages.append(response(ADDRESS, [(moved, routes.spelled(workload()))], span(6, gone)))
    return messages, resources


def sources(resources):
    """Of most connections w9, of some another workload of n1, of few one that may be none."""
    others = [ip for r in resources.values() if r["kind"] == "w" and r["node"] == "n1" for ip in r["ips"]]
    return [SOURCE] * 12 + others * 2 + IPS[:2]


def there(resources):
    """The addresses of services and of other workloads than the source."""
    return dict.fromkeys(ip for r in resources.values() for ip in ([ip for _, ip in r["at"]] if r["kind"] == "s" else r["ips"])
                         if ip != SOURCE)


def asked(resources):
    source, ip = CHOICE.choice(sources(resources)), CHOICE.choice(list(there(resources)) * 4 + IPS + ["8.8.8.8"])
    target = routes.target(routes.ip_of(ip), one_of(80, 80, 80, 81, 8080, 65535))
    named = one_of("--node n1",) + CHOICE.choice(("",) * 11 + (" --network x",)) + one_of("", "", "", " --hbone-port 16000")
    return f"{named} {source} {target}"


HEAD = ["Meshes by chance, and the ways of connections through them. bench/tables/mesh_rows.py prints this file: a second evaluator tells each."]


def main():
    table = run_table.Table(HEAD, {"address_type": ADDRESS.hex(), "route": "route --node n1"})
    for number in range(1, MESHES + 1):
        messages, resources = mesh()
        table.begin(f"mesh {number}")
        table.octets(shown(messages))
        for words in dict.fromkeys(asked(resources) for _ in range(ASKED)):
            table.run(f"route {words}", 0, evaluated(messages, words) + "\n")
    table.print()


if __name__ == "__main__":
    main()
