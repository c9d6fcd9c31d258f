#!/usr/bin/env python3
"""Prints tests/show/shows.runs: messages in hexadecimal digits, and what `show` prints of them.

    python3 bench/tables/show_rows.py > tests/show/shows.runs

The script only spells the messages and the lines. What a line says stands in its row and was worked out by hand:

- of each response, in order: how many resources were applied, its kind and nonce, the resources that were refused and why, and how
  many of the names to be removed were held;
- then what is held, addresses before policies, by the names' bytes: each record in its canonical spelling (fields by rising number,
  no default, numbers packed, entries of a map by their keys, varints in their shortest form, IPv4 addresses in four octets). A record is
  canonical as its row spells it for the message, unless the row spells it twice.
"""

import run_table
from shown_lines import *
from spelling import *

SEVEN = (10, 0, 0, 7)
EIGHT = (10, 0, 0, 8)
MAPPED = bytes(10) + b"\xff\xff"
TYPE = span(4, ADDRESS)
POLICIES = span(4, AUTHORIZATION)
BARE = b"\x0a\x00"  # a workload of no fields
BAD = b""  # no record: `no kind in field 0`
NO_KIND = "no kind in field 0"
ANY = b"\x2a\x00"  # a rule without clauses


def web(*ips, node="n1"):
    return workload("w", "a", ips, node, [])


def web_line(name, *ips, node="n1", **more):
    """The line of such a workload with IPv4 addresses."""
    return workload_line(name, web(*ips, node=node), [".".join(map(str, ip)) for ip in ips], node=node, **more)


def bare_line(name, **more):
    return workload_line(name, BARE, **more)


def versioned(version, name, value):
    """The field of a response with an address record of another version."""
    return span(2, text(1, version) + span(2, span(1, ADDRESS) + span(2, value)) + span(3, name))


def typed(type_url, name, value):
    """The field of a response with a resource of another type."""
    return resource(type_url, name, value)


def address_of(name, value):
    return resource(ADDRESS, name, value)


def removal(*names):
    return grpc(b"".join(span(6, name) for name in names) + TYPE)


def removal_of_policies(*names):
    return grpc(b"".join(span(6, name) for name in names) + POLICIES)


def one(value):
    """A message with an address record."""
    return addresses(("r", value))


def a_workload(*fields):
    return span(1, b"".join(fields))


def a_service(*fields):
    return span(2, b"".join(fields))


def of_match(*fields):
    return span(5, span(2, span(2, b"".join(fields))))


def sent(name, value, canonical=None, **line_of):
    """A message of one workload, and the lines of it."""
    return [addresses((name, value))], [addresses_came(1), workload_line(name, value if canonical is None else canonical, **line_of)]


def sent_service(value, canonical=None, **line_of):
    return [addresses(("s", value))], [addresses_came(1), service_line("s", value if canonical is None else canonical, **line_of)]


def sent_policy(value, canonical=None, action="allow", scope="global"):
    return [policies(("p", value))], [policies_came(1), policy_line("p", value if canonical is None else canonical, action, scope)]


def refused(value, why):
    return [one(value)], [addresses_came(0, ("r", why))]


def refused_policy(value, why):
    return [policies(("p", value))], [policies_came(0, ("p", why))]


FROM_M1, FROM_M2 = addresses_came(1, nonce="x1"), policies_came(1, nonce="x2")
DENIES = policy_line("d", bytes.fromhex("0a0164 2001 2a00"), "deny", "global")

# Names by their bytes, each a character that JSON escapes or that it doesn't.
CHARACTERS = ["\0", "\1", "\b", "\t", "\n", "\v", "\f", "\r", "\x1f", '"', "'", "/", "<", "\\", "\x7f", "\u00e9", "\u2028", "\U0001f600"]
ALL_OF_THEM = "".join(CHARACTERS)

WHOLE_WORKLOAD = a_workload(
    span(1, "web"),
    span(2, "a"),
    span(3, bytes(SEVEN)),
    span(3, bytes.fromhex("20010db8000000000000000000000007")),
    span(4, "x"),
    number(5, 1),
    span(6, "td"),
    span(7, "sa"),
    span(8, span(1, span(1, "a") + span(2, "way")) + number(3, 15008)),
    span(9, "n2"),
    span(16, "a/p"),
    span(16, ""),
    number(17, 1),
    span(20, "uid"),
    span(21, "host"),
    span(22, span(2, span(1, number(1, 80)))),
    span(22, span(1, "a/s") + span(2, span(1, number(1, 80) + number(2, 8080)) + span(1, ""))),
    span(22, span(1, "b/s") + span(2, "")),
)

# The same workload in parts, in another order, with defaults, unknown fields, known ones under another wire type, and values that later
# ones override.
SCRAMBLED_WORKLOAD = a_workload(
    span(22, span(2, span(1, number(1, 80))) + span(1, "b/s")),
    span(22, span(1, "a/s") + span(2, span(1, number(1, 9)))),
    span(22, span(1, "a/s")),
    number(17, 5),
    span(20, ""),
    span(16, "a/p"),
    span(9, "n2"),
    span(9, "n1"),
    number(5, 2),
    span(3, MAPPED + bytes(SEVEN)),
    number(8, 1),
    span(5, "x"),
    varint(23 * 8 + 1) + bytes(8),
    span(1, "a"),
) + span(99, "x") + a_workload(span(1, "web"), span(3, bytes(EIGHT)))
STRAIGHT_WORKLOAD = a_workload(
    span(1, "web"),
    span(3, bytes(SEVEN)),
    span(3, bytes(EIGHT)),
    span(9, "n1"),
    span(16, "a/p"),
    number(17, 1),
    span(22, span(1, "a/s") + span(2, "")),
    span(22, span(1, "b/s") + span(2, span(1, number(1, 80)))),
)

WHOLE_SERVICE = a_service(
    span(1, "s"),
    span(2, "a"),
    span(3, "s.a"),
    span(4, span(1, "x") + span(2, bytes((10, 1, 0, 1)))),
    span(4, span(2, bytes.fromhex("20010db8000000000000000000000007"))),
    span(5, number(1, 80) + number(2, 8080)),
    span(5, ""),
    span(7, span(2, span(1, "x") + span(2, bytes((10, 0, 0, 15)))) + number(3, 15008)),
)

WHOLE_POLICY = span(1, "p") + span(2, "a") + number(3, 2) + number(4, 1) + of_match(
    span(1, exact("a")),
    span(2, prefix("b")),
    span(3, suffix("/sa/c")),
    span(4, PRESENCE),
    span(5, span(1, bytes((10, 0, 0, 7))) + number(2, 8)),
    span(6, span(1, bytes(4))),
    span(7, span(1, bytes(16)) + number(2, 128)),
    span(8, span(1, MAPPED + bytes(4)) + number(2, 95)),
    span(9, b"\x50\xbb\x03"),
    span(10, b"\x00"),
)

# Octets and text (RFC 5952): a run of two zero groups or more is written `::`, the longest, of equal ones the first.
TEXTS = [
    ("00000000", "0.0.0.0"),
    ("ffffffff", "255.255.255.255"),
    ("00000000000000000000000000000000", "::"),
    ("00000000000000000000000000000001", "::1"),
    ("00010000000000000000000000000000", "1::"),
    ("20010db8000000000001000000000001", "2001:db8::1:0:0:1"),
    ("20010000000000010000000000000001", "2001:0:0:1::1"),
    ("20010db8000000010001000100010001", "2001:db8:0:1:1:1:1:1"),
    ("0000000000000000000000000a000007", "::a00:7"),
    ("00000000000000000000fffe0a000007", "::fffe:a00:7"),
    ("ffffffffffffffffffffffffffffffff", "ffff:ffff:ffff:ffff:ffff:ffff:ffff:ffff"),
    ("abcdef00000a00b00c00d000000f00f0", "abcd:ef00:a:b0:c00:d000:f:f0"),
]

# Title, messages, lines.
ROWS = [
    ("nothing came", [], []),
    ("a workload and a policy", ["WORKLOAD", "ALLOW_ONE"], [FROM_M1, FROM_M2, HELD, ALLOWED]),
    ("a policy and then a workload", ["ALLOW_ONE", "WORKLOAD"], [FROM_M2, FROM_M1, HELD, ALLOWED]),
    ("three policies", ["DENY_ALL", "ALLOW_NONE", "ALLOW_ONE"], [policies_came(1, nonce="x3"), policies_came(1, nonce="x4"), FROM_M2, ALLOWED, DENIES, policy_line("e", b"\x0a\1e", "allow", "global")]),
    ("a bad resource between two good ones", [response(ADDRESS, [("g1", BARE), ("b", a_workload(span(3, ""))), ("g2", BARE)], span(5, "x5"))], [addresses_came(2, ("b", "bad ip in field 3"), nonce="x5"), bare_line("g1"), bare_line("g2")]),
    ("a name is removed and added in one message", ["WORKLOAD", "REMOVED_AND_ADDED"], [FROM_M1, addresses_came(1, removed=1, nonce="x6"), HELD]),
    # Responses.
    ("responses without resources", [addresses(), policies(), addresses()], [addresses_came(0), policies_came(0), addresses_came(0)]),
    ("the last nonce counts", [grpc(span(5, "x") + TYPE + span(5, "y"))], [addresses_came(0, nonce="y")]),
    ("the nonce is no other field", [grpc(span(1, "7") + span(2, span(3, "u1")) + TYPE)], [addresses_came(0, ("u1", "wrong type"))]),
    ("the same message twice", ["WORKLOAD", "WORKLOAD"], [FROM_M1, FROM_M1, HELD]),
    # Names that come twice in one response.
    ("the latter of two equal names counts", [addresses(("u1", web(SEVEN)), ("u1", web(EIGHT)))], [addresses_came(2), web_line("u1", EIGHT)]),
    ("the latter of two equal names is refused", [addresses(("u1", web(SEVEN)), ("u1", BAD))], [addresses_came(1, ("u1", NO_KIND)), web_line("u1", SEVEN)]),
    ("the former of two equal names is refused", [addresses(("u1", BAD), ("u1", web(SEVEN)))], [addresses_came(1, ("u1", NO_KIND)), web_line("u1", SEVEN)]),
    ("an equal name between two others", [addresses(("u1", web(SEVEN)), ("u2", BARE), ("u1", web(EIGHT)))], [addresses_came(3), web_line("u1", EIGHT), bare_line("u2")]),
    # Versions.
    ("a later version replaces", [grpc(versioned("1", "u1", BARE) + TYPE), grpc(versioned("2", "u1", BARE) + TYPE)], [addresses_came(1), addresses_came(1), bare_line("u1", version="2")]),
    ("a refused resource leaves the version", [grpc(versioned("1", "u1", BARE) + TYPE), grpc(versioned("2", "u1", BAD) + TYPE)], [addresses_came(1), addresses_came(0, ("u1", NO_KIND)), bare_line("u1", version="1")]),
    ("no version", [grpc(versioned("", "u1", BARE) + TYPE)], [addresses_came(1), bare_line("u1", version="")]),
    ("a version of each", [grpc(versioned("v1", "a", BARE) + versioned("v2", "b", a_service()) + TYPE)], [addresses_came(2), bare_line("a", version="v1"), service_line("b", a_service(), version="v2")]),
    # Removals.
    ("a name that is held", ["WORKLOAD", removal("u1")], [FROM_M1, addresses_came(0, removed=1)]),
    ("a name that is removed twice", ["WORKLOAD", removal("u1", "u1")], [FROM_M1, addresses_came(0, removed=1)]),
    ("a name that isn't held", ["WORKLOAD", removal("u2")], [FROM_M1, addresses_came(0), HELD]),
    ("names that are nearly the one held", ["WORKLOAD", removal("u", "u11", "U1", "", "u1 ")], [FROM_M1, addresses_came(0), HELD]),
    ("two of four names are held", [addresses(("a", BARE), ("b", BARE), ("c", BARE)), removal("b", "d", "a", "e")], [addresses_came(3), addresses_came(0, removed=2), bare_line("c")]),
    ("a name is removed, and its addition is refused", ["WORKLOAD", grpc(address_of("u1", BAD) + TYPE + span(6, "u1"))], [FROM_M1, addresses_came(0, ("u1", NO_KIND), removed=1)]),
    ("a name isn't held yet where it is removed", [grpc(address_of("u1", BARE) + TYPE + span(6, "u1"))], [addresses_came(1), bare_line("u1")]),
    ("a name is removed, and added with another record", ["WORKLOAD", grpc(span(6, "u1") + address_of("u1", web(EIGHT)) + TYPE)], [FROM_M1, addresses_came(1, removed=1), web_line("u1", EIGHT)]),
    ("a name is removed, added, and removed", ["WORKLOAD", removal("u1"), addresses(("u1", BARE)), removal("u1")], [FROM_M1, addresses_came(0, removed=1), addresses_came(1), addresses_came(0, removed=1)]),
    ("a policy is removed", ["WORKLOAD", "ALLOW_ONE", removal_of_policies("a/p")], [FROM_M1, FROM_M2, policies_came(0, removed=1), HELD]),
    # The kinds stand apart.
    ("an address and a policy of one name", [addresses(("u1", BARE)), policies(("u1", ANY))], [addresses_came(1), policies_came(1), bare_line("u1"), policy_line("u1", ANY, "allow", "global")]),
    ("policies remove no address", ["WORKLOAD", removal_of_policies("u1")], [FROM_M1, policies_came(0), HELD]),
    ("addresses remove no policy", ["ALLOW_ONE", removal("a/p")], [FROM_M2, addresses_came(0), ALLOWED]),
    ("a removal takes the name of its own kind", [addresses(("n", BARE)), policies(("n", ANY)), removal("n")], [addresses_came(1), policies_came(1), addresses_came(0, removed=1), policy_line("n", ANY, "allow", "global")]),
    ("a service in place of a workload", [addresses(("n", BARE)), addresses(("n", a_service()))], [addresses_came(1), addresses_came(1), service_line("n", a_service())]),
    ("a workload in place of a service", [addresses(("n", a_service())), addresses(("n", BARE))], [addresses_came(1), addresses_came(1), bare_line("n")]),
    # Two reasons at once.
    ("no name goes before another type", [grpc(typed(AUTHORIZATION, "", BARE) + TYPE)], [addresses_came(0, ("", "no name"))]),
    ("no name goes before a bad record", [addresses(("", BAD))], [addresses_came(0, ("", "no name"))]),
    ("another type goes before a bad record", [grpc(typed(AUTHORIZATION, "u1", BAD) + TYPE)], [addresses_came(0, ("u1", "wrong type"))]),
    ("all three", [grpc(typed(AUTHORIZATION, "", BAD) + TYPE)], [addresses_came(0, ("", "no name"))]),
    ("several are refused, in their order", [grpc(address_of("z", BAD) + address_of("", BARE) + address_of("c", BARE) + typed(b"x", "y", BARE) + address_of("a", a_workload(span(9, b"\xff"))) + address_of("z", b"\0") + TYPE)], [addresses_came(1, ("z", NO_KIND), ("", "no name"), ("y", "wrong type"), ("a", "utf8 in field 9"), ("z", "wire bad number at 0")), bare_line("c")]),
    # Order.
    ("names by their bytes", [addresses(("u2", BARE), ("\u00e9", BARE), ("b", a_service()), ("u10", BARE), ("B", BARE), ("a", a_service()), ("u1", BARE), ("z", BARE))], [addresses_came(8), bare_line("B"), service_line("a", a_service()), service_line("b", a_service()), bare_line("u1"), bare_line("u10"), bare_line("u2"), bare_line("z"), bare_line("\u00e9")]),
    ("addresses before policies", [policies(("b", ANY), ("a", ANY)), addresses(("d", BARE), ("c", BARE))], [policies_came(2), addresses_came(2), bare_line("c"), bare_line("d"), policy_line("a", ANY, "allow", "global"), policy_line("b", ANY, "allow", "global")]),
    # Workloads.
    ("a resource has its own name, and its record another", *sent("u1", a_workload(span(1, "n"), span(2, "a"), span(20, "i")))),
    ("a workload of no fields", *sent("u1", BARE)),
    ("a workload of all fields", *sent("u1", WHOLE_WORKLOAD, addresses=["10.0.0.7", "2001:db8::7"], node="n2")),
    ("a workload in another spelling", *sent("u1", SCRAMBLED_WORKLOAD, STRAIGHT_WORKLOAD, addresses=["10.0.0.7", "10.0.0.8"], node="n1")),
    ("texts of addresses", *sent("u1", a_workload(*(span(3, bytes.fromhex(octets)) for octets, _ in TEXTS)), addresses=[address for _, address in TEXTS])),
    ("a mapped address", *sent("u1", a_workload(span(3, MAPPED + bytes(SEVEN))), a_workload(span(3, bytes(SEVEN))), addresses=["10.0.0.7"])),
    ("one address twice, and another between", *sent("u1", web(SEVEN, EIGHT, SEVEN), addresses=["10.0.0.7", "10.0.0.8", "10.0.0.7"], node="n1")),
    ("the low 32 bits of numbers", *sent("u1", a_workload(number(5, 2**32 + 1), number(17, 2**32), span(22, span(2, span(1, number(1, 2**32 + 80) + number(2, 2**32))))), a_workload(number(5, 1), span(22, span(2, span(1, number(1, 80))))))),
    ("varints longer than they need be", *sent("u1", a_workload(b"\x0a\x83\x00web", b"\xa8\x00\x81\x00"), a_workload(span(1, "web"), number(5, 1)))),
    ("a waypoint by its address", *sent("u1", a_workload(span(8, span(2, span(1, "x") + span(2, bytes(SEVEN))) + number(3, 15008))))),
    ("a waypoint of parts that are merged", *sent("u1", a_workload(span(8, span(1, span(1, "a"))), span(8, number(3, 1) + span(1, span(2, "w")))), a_workload(span(8, span(1, span(1, "a") + span(2, "w")) + number(3, 1))))),
    ("a waypoint's last member counts", *sent("u1", a_workload(span(8, span(1, span(1, "a") + span(2, "w")) + span(2, span(2, bytes(SEVEN))) + span(1, span(2, "v")))), a_workload(span(8, span(1, span(2, "v")))))),
    ("a waypoint by a hostname of no fields", *sent("u1", a_workload(span(8, span(1, ""))))),
    ("a service and then a workload in one record", *sent("u1", a_service(span(1, "s")) + BARE, BARE)),
    # Services.
    ("a service of no fields", *sent_service(a_service())),
    ("a service of all fields", *sent_service(WHOLE_SERVICE, addresses=["10.1.0.1", "2001:db8::7"])),
    ("a service in another order", *sent_service(a_service(span(5, number(2, 1)), span(6, "x"), span(4, span(2, MAPPED + bytes(EIGHT)) + span(1, "")), span(3, ""), span(1, "s"), span(4, span(2, bytes(EIGHT)) + span(2, bytes(SEVEN)))), a_service(span(1, "s"), span(4, span(2, bytes(EIGHT))), span(4, span(2, bytes(SEVEN))), span(5, number(2, 1))), addresses=["10.0.0.8", "10.0.0.7"])),
    ("a workload and then a service in one record", *sent_service(web(SEVEN) + a_service(span(1, "s")), a_service(span(1, "s")))),
    # Policies.
    ("a policy of no fields", *sent_policy(b"")),
    ("a policy of all fields", *sent_policy(WHOLE_POLICY, action="deny", scope="selector")),
    ("each scope and action", [policies(*((name, number(3, scope) + number(4, action)) for name, scope, action in [("a", 0, 0), ("b", 0, 1), ("c", 1, 0), ("d", 1, 1), ("e", 2, 0), ("f", 2, 1)]))], [policies_came(6), policy_line("a", b"", "allow", "global"), policy_line("b", b"\x20\1", "deny", "global"), policy_line("c", b"\x18\1", "allow", "namespace"), policy_line("d", b"\x18\1\x20\1", "deny", "namespace"), policy_line("e", b"\x18\2", "allow", "selector"), policy_line("f", b"\x18\2\x20\1", "deny", "selector")]),
    ("the last scope and action count, by their low 32 bits", *sent_policy(number(4, 1) + number(3, 2) + varint(4 * 8) + b"\0" + number(3, 2**32 + 1), number(3, 1), scope="namespace")),
    ("rules, clauses and matches of no fields", *sent_policy(span(5, "") + span(5, span(2, "")) + span(5, span(2, span(2, ""))))),
    ("ports that aren't packed, and that are", *sent_policy(of_match(number(9, 80), span(9, b"\x51\x52"), number(9, 2**32 + 443), varint(9 * 8) + b"\0"), of_match(span(9, b"\x50\x51\x52\xbb\x03\x00")))),
    ("a packed run of no ports", *sent_policy(of_match(span(9, "")), of_match())),
    ("mapped prefixes", *sent_policy(of_match(span(5, number(2, 104) + span(1, MAPPED + bytes((10, 0, 0, 0)))), span(5, span(1, MAPPED + bytes(4)) + number(2, 96))), of_match(span(5, span(1, bytes((10, 0, 0, 0))) + number(2, 8)), span(5, span(1, bytes(4)))))),
    ("presence with bytes that aren't looked at", *sent_policy(of_match(span(3, span(4, b"\xff\0"))), of_match(span(3, PRESENCE)))),
    ("a string match's last member counts, also an empty one", *sent_policy(of_match(span(3, exact("a") + PRESENCE), span(1, PRESENCE + exact(""))), of_match(span(1, exact("")), span(3, PRESENCE)))),
    # Faults of records.
    ("a tag without a value", *refused(b"\x0a", "wire truncated at 1")),
    ("a span that is longer than its record", *refused(b"\x0a\5a", "wire truncated at 3")),
    ("eight bytes that are cut short", *refused(b"\x09\0\0", "wire truncated at 3")),
    ("a tag that is cut short", *refused(BARE + b"\x80", "wire truncated at 3")),
    ("a span that is longer than its workload", *refused(a_workload(span(1, "w"), b"\x12\5a"), "wire truncated at 8")),
    ("a span that is longer than its workload, before the record's end", *refused(a_workload(b"\x12\5a") + span(2, ""), "wire truncated at 5")),
    ("a tag that is too long", *refused(b"\xff" * 10, "wire long varint at 9")),
    ("a number that is too long, behind another field", *refused(BARE + b"\x18" + b"\x80" * 9 + b"\2", "wire long varint at 12")),
    ("wire type 4", *refused(b"\x0c", "wire bad type at 0")),
    ("wire type 7 behind a workload", *refused(BARE + b"\x0f", "wire bad type at 2")),
    ("number 0 goes before a bad type", *refused(b"\3", "wire bad number at 0")),
    ("number 536,870,912", *refused(BARE + varint(2**29 * 8), "wire bad number at 2")),
    ("bad UTF-8, and then a wire fault", *refused(a_workload(span(9, b"\xff"), b"\x1b"), "utf8 in field 9")),
    ("a wire fault, and then bad UTF-8", *refused(a_workload(b"\0", span(9, b"\xff")), "wire bad number at 2")),
    ("a waypoint to nowhere, and then a bad address", *refused(a_workload(span(8, ""), span(3, "")), "no kind in field 8")),
    ("a bad address, and then a waypoint to nowhere", *refused(a_workload(span(3, ""), span(8, "")), "bad ip in field 3")),
    ("bad UTF-8 in a name that is overridden", *refused(a_workload(span(1, b"\xff"), span(1, "w")), "utf8 in field 1")),
    ("a bad service behind a workload", *refused(web(SEVEN) + a_service(span(3, b"\xff")), "utf8 in field 3")),
    ("a record of unknown fields", *refused(span(3, "x") + number(1, 1), NO_KIND)),
    ("the greatest scope", *refused_policy(number(3, 2**32 - 1), "bad enum 4294967295 in field 3")),
    ("the low 32 bits of an action", *refused_policy(number(4, 2**32 + 7), "bad enum 7 in field 4")),
    ("an unknown scope that is overridden", *refused_policy(number(3, 3) + number(3, 1), "bad enum 3 in field 3")),
    ("a mapped prefix of 129 bits", *refused_policy(of_match(span(5, span(1, MAPPED + bytes(4)) + number(2, 129))), "bad cidr in field 5")),
]

# Title, messages, lines, with text that JSON escapes.
TEXT_ROWS = [
    ("names of characters that are escaped, and that aren't", [addresses(*((name, BARE) for name in reversed(CHARACTERS)))], [addresses_came(18), *map(bare_line, CHARACTERS)]),
    ("all of them in one name, and in its version", [grpc(versioned(ALL_OF_THEM, ALL_OF_THEM, BARE) + TYPE)], [addresses_came(1), bare_line(ALL_OF_THEM, version=ALL_OF_THEM)]),
    ("all of them in a nonce and in a name that is refused", [grpc(span(5, ALL_OF_THEM) + address_of(ALL_OF_THEM, BAD) + TYPE)], [addresses_came(0, (ALL_OF_THEM, NO_KIND), nonce=ALL_OF_THEM)]),
    ("all of them in a node", *sent("u1", a_workload(span(9, ALL_OF_THEM)), node=ALL_OF_THEM)),
]


HEAD = ["What `show` prints. bench/tables/show_rows.py prints this file: it spells the messages and the lines, and has what each says as it was",
        "worked out by hand."]


def main():
    table = run_table.Table(HEAD, MESSAGES)
    put_shown(table, ROWS + TEXT_ROWS)
    table.print()


if __name__ == "__main__":
    main()
