#!/usr/bin/env python3
"""Prints tests/check/attributes.runs: policies over all ten attributes of a match, and what they answer to eight connections.

    python3 bench/tables/attribute_rows.py > tests/check/attributes.runs

The answers come from `fires` below, which is written from the rules alone and knows nothing of the program: it keeps the
values as Python's own and asks `ipaddress` for networks. Where a row has answers of its own, they were worked out by hand,
and the script ends if the two differ.
"""

import ipaddress
import sys

import run_table
from spelling import *

# Values: a string match is its kind and text, a prefix an address with a length, a port a number.


def exact_(s):
    return ("exact", s)


def prefix_(s):
    return ("prefix", s)


def suffix_(s):
    return ("suffix", s)


PRESENT = ("presence", "")

NUMBER = {
    "namespaces": 1,
    "not_namespaces": 2,
    "principals": 3,
    "not_principals": 4,
    "source_ips": 5,
    "not_source_ips": 6,
    "destination_ips": 7,
    "not_destination_ips": 8,
    "destination_ports": 9,
    "not_destination_ports": 10,
}

# A connection: source, identity or none, target.
CONNECTIONS = [
    ("10.0.0.9", "spiffe://cluster.local/ns/a/sa/c", "10.0.0.7:8080"),
    ("10.0.0.9", "none", "10.0.0.7:8080"),
    ("10.1.2.3", "spiffe://cluster.local/ns/b/sa/d", "10.0.0.7:9090"),
    ("2001:db8::9", "spiffe://cluster.local/ns/a/sa/c", "[2001:db8::7]:8080"),
    ("2001:db8:1::3", "spiffe://cluster.local/ns/b/sa/d", "[2001:db8::7]:9090"),
    ("::ffff:10.0.0.9", "spiffe://cluster.local/ns/aa/sa/c", "[2001:db8::7]:65535"),
    ("2001:db8::9", "none", "10.0.0.7:443"),
    ("192.168.0.1", "spiffe://a/ns/cluster.local/sa/a", "10.0.0.7:1"),
]


# The rules.


def address(text):
    """An address; an IPv4 address mapped into IPv6 is the IPv4 address."""
    ip = ipaddress.ip_address(text)
    return getattr(ip, "ipv4_mapped", None) or ip


def network(text):
    """A network; one of mapped addresses alone is a network of IPv4."""
    net = ipaddress.ip_network(text, strict=False)
    mapped = getattr(net.network_address, "ipv4_mapped", None)
    if mapped is not None and net.prefixlen >= 96:
        return ipaddress.ip_network((mapped, net.prefixlen - 96), strict=False)
    return net


def text_fits(value, text):
    kind, wanted = value
    if text is None:
        return False
    return {
        "exact": text == wanted,
        "prefix": text[: len(wanted)] == wanted,
        "suffix": wanted == "" or text[-len(wanted) :] == wanted,
        "presence": text != "",
    }[kind]


def fits(attribute, value, connection):
    """One value of an attribute, whether of the positive or of the negative list, matches a connection."""
    source, identity, target = connection
    target_ip, port = target.rsplit(":", 1)
    principal = None if identity == "none" else identity.removeprefix("spiffe://")
    what = attribute.removeprefix("not_")
    if what == "namespaces":
        return text_fits(value, None if principal is None else principal.split("/")[2])
    if what == "principals":
        return text_fits(value, principal)
    if what == "source_ips":
        return address(source) in network(value)
    if what == "destination_ips":
        return address(target_ip.strip("[]")) in network(value)
    return value == int(port)


def attribute_met(attribute, values, connection):
    some = sum(fits(attribute, value, connection) for value in values) > 0
    return not some if attribute.startswith("not_") else some or values == []


def fires(rules, connection):
    """A rule all of whose clauses have a match all of whose attributes are met."""
    for r in rules:
        failed = [c for c in r if not any(all(attribute_met(a, vs, connection) for a, vs in m.items()) for m in c)]
        if not failed:
            return True
    return False


def admitted(listed, connection):
    """No DENY fires, and there is no ALLOW or one fires; each policy is its action and its rules."""
    fired = [action for action, rules in listed if fires(rules, connection)]
    return "DENY" not in fired and ("ALLOW" in fired or "ALLOW" not in [action for action, _ in listed])


# The spelling.


KINDS = {"exact": exact, "prefix": prefix, "suffix": suffix, "presence": lambda _: PRESENCE}


def spelled_value(what, value):
    if what in ("namespaces", "principals"):
        return KINDS[value[0]](value[1])
    ip, length = value.split("/")
    return span(1, ipaddress.ip_address(ip).packed) + number(2, int(length))


def spelled_match(match_, packed):
    out = b""
    for attribute, values in match_.items():
        field = NUMBER[attribute]
        if attribute.endswith("ports"):
            each = [varint(value) for value in values]
            out += span(field, b"".join(each)) if packed else b"".join(varint(field * 8) + e for e in each)
        else:
            out += b"".join(span(field, spelled_value(attribute.removeprefix("not_"), value)) for value in values)
    return out


def spelled_policy(name, action, rules, packed):
    spelled = [b"".join(span(2, b"".join(span(2, spelled_match(m, packed)) for m in c)) for c in r) for r in rules]
    return (name, text(1, name) + text(2, "a") + number(4, ACTIONS[action]) + b"".join(span(5, r) for r in spelled))


# The rows: a title, and policies.


def of(action, **values):
    """A policy of one rule with one clause of one match."""
    return (action, [[[values]]])


TEN = {
    "namespaces": (exact_("a"), exact_("x")),
    "principals": (exact_("cluster.local/ns/a/sa/c"), exact_("cluster.local/ns/a/sa/x")),
    "source_ips": ("10.0.0.0/8", "172.16.0.0/12"),
    "destination_ips": ("2001:db8::/32", "2001:db9::/32"),
    "destination_ports": (8080, 81),
}


def each_attribute():
    """For each attribute: nothing, a value that matches some, one that matches none, both in either order."""
    for what, (hit, miss) in TEN.items():
        for attribute in (what, "not_" + what):
            for action in ("ALLOW", "DENY"):
                yield f"{action} {attribute}: one that matches some", [of(action, **{attribute: [hit]})]
            yield f"ALLOW {attribute}: one that matches none", [of("ALLOW", **{attribute: [miss]})]
            yield f"ALLOW {attribute}: one that matches none, one that matches some", [of("ALLOW", **{attribute: [miss, hit]})]
            yield f"DENY {attribute}: one that matches some, one that matches none", [of("DENY", **{attribute: [hit, miss]})]
        yield f"ALLOW {what} and not_{what} with the same value", [of("ALLOW", **{what: [hit], "not_" + what: [hit]})]
        yield f"ALLOW {what} with a value, not_{what} with another", [of("ALLOW", **{what: [hit, miss], "not_" + what: [miss]})]


C = exact_("cluster.local/ns/a/sa/c")
A8 = "2001:db8::/32"

BY_HAND = [
    # The answers are `+` for allow and `-` for deny, one for each connection.
    ("no rules", [("ALLOW", [])], "--------"),
    ("one rule without clauses", [("ALLOW", [[]])], "++++++++"),
    ("one rule, one clause without matches", [("ALLOW", [[[]]])], "--------"),
    ("one match without values", [("ALLOW", [[[{}]]])], "++++++++"),
    ("destination_ports 8080 and 9090", [of("ALLOW", destination_ports=[8080, 9090])], "+++++---"),
    ("not_source_ips 10.0.0.0/8", [of("ALLOW", not_source_ips=["10.0.0.0/8"])], "---++-++"),
    ("not_namespaces exact a", [of("ALLOW", not_namespaces=[exact_("a")])], "-++-++++"),
    ("namespaces presence", [of("ALLOW", namespaces=[PRESENT])], "+-++++-+"),
    # Namespaces.
    ("not_namespaces presence", [of("ALLOW", not_namespaces=[PRESENT])], "-+----+-"),
    ("namespaces prefix a", [of("ALLOW", namespaces=[prefix_("a")])], "+--+-+--"),
    ("namespaces suffix a", [of("DENY", namespaces=[suffix_("a")])], "-++-+-++"),
    ("namespaces: the whole principal", [of("ALLOW", namespaces=[C])], "--------"),
    ("namespaces: the account, and the trust domain", [of("ALLOW", namespaces=[exact_("c"), exact_("cluster.local")])], "-------+"),
    ("principals: the namespace alone", [of("ALLOW", principals=[exact_("a"), exact_("b")])], "--------"),
    ("namespaces: the empty text, whole, then in front", [of("ALLOW", namespaces=[exact_(""), prefix_("")])], "+-++++-+"),
    ("namespaces: one byte more, and one less", [of("DENY", namespaces=[exact_("aaa"), prefix_("ab")])], "++++++++"),
    # Prefixes of addresses.
    ("source_ips 0.0.0.0/0", [of("ALLOW", source_ips=["0.0.0.0/0"])], "+++--+-+"),
    ("source_ips ::/0", [of("ALLOW", source_ips=["::/0"])], "---++-+-"),
    ("source_ips of both families", [of("ALLOW", source_ips=["10.0.0.9/32", "2001:db8::9/128"])], "++-+-++-"),
    ("not_source_ips of both families", [of("ALLOW", not_source_ips=["10.0.0.9/32", "2001:db8::9/128"])], "--+-+--+"),
    ("source_ips: one bit more than fits", [of("ALLOW", source_ips=["10.0.0.8/31", "10.1.2.2/32"])], "++---+--"),
    ("source_ips: bits behind the length don't count", [of("ALLOW", source_ips=["10.0.255.255/9"])], "+++--+--"),
    ("source_ips: an IPv4 prefix in IPv6", [of("ALLOW", source_ips=["::ffff:10.0.0.0/104"])], "+++--+--"),
    ("source_ips: all IPv4 addresses in IPv6", [of("ALLOW", source_ips=["::ffff:0:0/96"])], "+++--+-+"),
    ("source_ips: the mapped addresses and one bit more", [of("ALLOW", source_ips=["::ffff:0:0/95"])], "--------"),
    ("source_ips: a length of 33 bits of IPv6", [of("ALLOW", source_ips=["2001:db8:7fff::/33"])], "---++-+-"),
    ("source_ips: a length of 48 bits of IPv6", [of("DENY", source_ips=["2001:db8:1::/48"])], "++++-+++"),
    ("source_ips: the target's own", [of("ALLOW", source_ips=["10.0.0.7/32", "2001:db8::7/128"])], "--------"),
    ("destination_ips: the source's", [of("ALLOW", destination_ips=["10.0.0.9/32", "2001:db8::9/128"])], "--------"),
    ("destination_ips: the target's own", [of("DENY", destination_ips=["10.0.0.7/32", "2001:db8::7/128"])], "--------"),
    ("destination_ips: IPv4 alone", [of("ALLOW", destination_ips=["10.0.0.7/32"])], "+++---++"),
    ("not_destination_ips: IPv4 alone", [of("ALLOW", not_destination_ips=["0.0.0.0/0"])], "---+++--"),
    ("destination_ips and not_destination_ips", [of("ALLOW", destination_ips=[A8], not_destination_ips=["2001:db8::8/125"])], "---+++--"),
    ("destination_ips, of which not_destination_ips takes the last bit", [of("ALLOW", destination_ips=[A8], not_destination_ips=["2001:db8::/125"])], "--------"),
    # Ports.
    ("destination_ports 0", [of("ALLOW", destination_ports=[0])], "--------"),
    ("not_destination_ports 0", [of("ALLOW", not_destination_ports=[0])], "++++++++"),
    ("destination_ports at their ends", [of("ALLOW", destination_ports=[1, 65535])], "-----+-+"),
    ("destination_ports above 65535 that are ports in 16 bits", [of("ALLOW", destination_ports=[65536 + 8080, 65536 + 9090, 4294967295])], "--------"),
    ("not_destination_ports 443 and 8080", [of("ALLOW", not_destination_ports=[443, 8080])], "--+-++-+"),
    # Several attributes of a match.
    ("source_ips and destination_ports", [of("ALLOW", source_ips=["10.0.0.0/8"], destination_ports=[8080])], "++------"),
    ("principals and not_source_ips", [of("ALLOW", principals=[C], not_source_ips=["10.0.0.0/8"])], "---+----"),
    ("namespaces and principals that no identity has both", [of("DENY", namespaces=[exact_("b")], principals=[C])], "++++++++"),
    (
        "all positive attributes",
        [of("ALLOW", namespaces=[prefix_("a")], principals=[suffix_("/sa/c")], source_ips=[A8], destination_ips=[A8], destination_ports=[8080])],
        "---+----",
    ),
    (
        "all negative attributes",
        [of("DENY", not_namespaces=[exact_("b")], not_principals=[C], not_source_ips=["10.1.0.0/16"], not_destination_ips=[A8], not_destination_ports=[1])],
        "+-++++-+",
    ),
    (
        "all ten attributes",
        [
            of(
                "ALLOW",
                namespaces=[PRESENT],
                not_namespaces=[exact_("b")],
                principals=[suffix_("/c")],
                not_principals=[prefix_("cluster.local/ns/aa/")],
                source_ips=["0.0.0.0/0", "::/0"],
                not_source_ips=["10.1.0.0/16"],
                destination_ips=["10.0.0.7/32", A8],
                not_destination_ips=["2001:db8::8/128"],
                destination_ports=[8080, 443],
                not_destination_ports=[443],
            )
        ],
        "+--+----",
    ),
    # Matches, clauses, rules and policies.
    ("a match of a port or one of an address", [("ALLOW", [[[{"destination_ports": [443]}, {"source_ips": ["192.168.0.0/16"]}]]])], "------++"),
    ("a clause of a port and one of an address", [("ALLOW", [[[{"destination_ports": [8080]}], [{"source_ips": [A8]}]]])], "---+----"),
    ("a rule of a port and one of a namespace", [("ALLOW", [[[{"destination_ports": [443]}]], [[{"namespaces": [exact_("b")]}]]])], "--+-+-+-"),
    ("a clause that is met and one without matches", [("DENY", [[[{}], []]])], "++++++++"),
    ("an ALLOW of a prefix and a DENY of a port", [of("ALLOW", source_ips=["10.0.0.0/8"]), of("DENY", destination_ports=[9090])], "++---+--"),
    ("two ALLOWs, of a port and of a namespace", [of("ALLOW", destination_ports=[443]), of("ALLOW", namespaces=[exact_("b")])], "--+-+-+-"),
    ("two DENYs, of a port and of a family", [of("DENY", destination_ports=[443]), of("DENY", source_ips=["::/0"])], "+++--+-+"),
    ("a DENY of those without an identity, an ALLOW of a family", [of("DENY", not_principals=[PRESENT]), of("ALLOW", source_ips=["::/0"])], "---++---"),
]


def rows():
    yield from BY_HAND
    for title, listed in each_attribute():
        yield title, listed, None


def judge(title, listed, wanted):
    answers = "".join("+" if admitted(listed, connection) else "-" for connection in CONNECTIONS)
    if wanted not in (None, answers):
        sys.exit(f"{title}: {answers}, and by hand {wanted}")
    return answers


HEAD = ["Policies over all ten attributes of a match, and what they answer eight connections. bench/tables/attribute_rows.py prints this file."]
ASKED = {f"connection{at}": f"check --node n1 {' '.join(connection)}" for at, connection in enumerate(CONNECTIONS, 1)}


def main():
    table = run_table.Table(HEAD, {**MESSAGES, **ASKED})
    for place, (title, listed, wanted) in enumerate(rows()):
        answers = judge(title, listed, wanted)
        message = policies(*(spelled_policy(f"p{i}", *p, place % 2 == 0) for i, p in enumerate(listed)))
        table.begin(title)
        table.octets(shown(["DUAL_STACK", message]))
        for words, sign in zip(ASKED.values(), answers, strict=True):
            table.run(words, 0, {"+": "allow\n", "-": "deny\n"}[sign])
    table.print()


if __name__ == "__main__":
    main()
