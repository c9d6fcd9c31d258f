"""Spells the lines that `show` prints, for the scripts beside this one."""

import json

from spelling import shown, span


def line(**members):
    return json.dumps(members, sort_keys=True, separators=(",", ":"), ensure_ascii=False)


def came(kind, applied, *refused, removed=0, nonce=""):
    """The line of a response, whose refused resources are each a name and why."""
    return line(applied=applied, kind=kind, nonce=nonce, refused=[{"name": name, "why": why} for name, why in refused], removed=removed)


def addresses_came(applied, *refused, **more):
    return came("address", applied, *refused, **more)


def policies_came(applied, *refused, **more):
    return came("authorization", applied, *refused, **more)


def workload_line(name, record, addresses=(), node="", version="1"):
    return line(addresses=addresses, kind="workload", name=name, node=node, record=record.hex(), version=version)


def service_line(name, record, addresses=(), version="1"):
    return line(addresses=addresses, kind="service", name=name, record=record.hex(), version=version)


def policy_line(name, record, action, scope, version="1"):
    return line(action=action, kind="policy", name=name, record=record.hex(), scope=scope, version=version)


def put_shown(table, rows):
    """Puts rows into a table: what each is, its messages, and the lines that `show` prints of them."""
    for title, messages, lines in rows:
        table.begin(title)
        table.octets(shown(messages))
        table.run("show", 0, "".join(line_ + "\n" for line_ in lines))


# The lines of the workload of WORKLOAD and of the policy of ALLOW_ONE.
WEB = span(1, bytes.fromhex("0a03776562 120161 1a040a000007 2801 4a026e31 820103612f70 a201027531"))
HELD = workload_line("u1", WEB, ["10.0.0.7"], node="n1")
ONLY_C = bytes.fromhex("0a0170 120161 1802 2a1f 121d 121b 1a19 0a17") + b"cluster.local/ns/a/sa/c"
ALLOWED = policy_line("a/p", ONLY_C, "allow", "selector")
