#!/usr/bin/python3
"""Prints crates/hb_records_rows/src/spelled.rt: records in hexadecimal digits, what Google's Protocol Buffers write them as again, and
what they read them as.

    python3 bench/tables/record_rows.py > crates/hb_records_rows/src/spelled.rt && (cd crates/hb_records_rows && rt fmt)

Needs Debian's python3-protobuf and protobuf-compiler: run it with /usr/bin/python3. `protoc` makes its types from records.proto. A
record is joined of pieces in random order, each written by that implementation (numbers that are packed or longer than 32 bits, unknown
fields, and the tag and length in front of a message's pieces by spelling.py); of each kind the first records are as it writes them whole.
What a record is read as is told from the fields that it gives. The two readings agree on all records that are made here, since these have

- no faults: each string is UTF-8, each string match and gateway has a member and each network's address its octets at the end of each
  occurrence, octets are 4 or 16, a prefix is no longer than its address, scope and action are named;
- addresses that are told as addresses, of which a mapped one is IPv4, and a mapped prefix of 96 bits or more too: that implementation has
  octets alone;
- bytes of `presence` that are a message.

A known field under another wire type is unknown to both, and of a number both keep the low 32 bits.

The two spellings agree too, once what Nastulbe doesn't keep is taken from a record: unknown fields, which that implementation writes
again; a tunnel protocol other than HBONE, and a status other than 0 and 1; the first octets of a mapped address, and of a mapped prefix
of 96 bits or more; what stands in `presence`. That implementation is asked for its deterministic spelling, and not of a record with an
empty key of a map: it writes that key, which Nastulbe leaves out like any empty string.
"""

import importlib
import ipaddress
import operator
import os
import pathlib
import random
import subprocess
import sys
import tempfile

from spelling import span, varint

# (its part in C++ writes equal keys of a map again)
os.environ.setdefault("PROTOCOL_BUFFERS_PYTHON_IMPLEMENTATION", "python")
CHOICE = random.Random(3)
HERE = pathlib.Path(__file__).resolve().parent


def types():
    with tempfile.TemporaryDirectory() as room:
        subprocess.run(["protoc", f"--proto_path={HERE}", f"--python_out={room}", "records.proto"], check=True)
        sys.path.insert(0, room)
        sys.dont_write_bytecode = True
        return importlib.import_module("records_pb2")


RECORDS = types()
TEXTS = ["a", "b", "ns", "web", "x.y", "cluster.local", ""]
NUMBERS = [0, 1, 80, 443, 8080, 65535, 70000, 2**32 - 1]


# Pieces: a list of bytes that may stand in any order.


def some(most, make, least=0):
    """From `least` to `most` things."""
    return [make() for _ in range(CHOICE.randint(least, most))]


def perhaps(share, pieces):
    return pieces if CHOICE.random() < share else []


def field(kind, **value):
    """One field as the other implementation writes it; of a default nothing."""
    return getattr(RECORDS, kind)(**value).SerializeToString()


def texts(kind, *names, share=0.4):
    """These string fields, each there or not, some twice."""
    return [field(kind, **{name: CHOICE.choice(TEXTS)}) for name in names for _ in range(CHOICE.choice([1, 1, 2])) if CHOICE.random() < share]


def long_number(number):
    """A number of a field that may have more than 32 bits."""
    return varint(number * 8) + varint(CHOICE.choice(NUMBERS) + CHOICE.choice([0, 0, 2**32, 2**63]))


def unknown(kind):
    """An unknown field, or a known one under a wire type that isn't its own."""
    known = operator.attrgetter(kind)(RECORDS).DESCRIPTOR.fields_by_number
    number = CHOICE.choice([11, 15, 99, 1000, *known])
    # (numbers are varints, repeated ones spans too, and all others spans)
    is_number = number in known and known[number].cpp_type in (known[number].CPPTYPE_UINT32, known[number].CPPTYPE_ENUM)
    is_repeated = number in known and known[number].label == known[number].LABEL_REPEATED
    own = [] if number not in known else [0] + [2] * is_repeated if is_number else [2]
    wire = CHOICE.choice([wire for wire in (0, 1, 2, 5) if wire not in own])
    value = {0: varint(CHOICE.choice(NUMBERS)), 1: bytes(range(8)), 2: b"\2\xff\0", 5: bytes(range(4))}[wire]
    return varint(number * 8 + wire) + value


def message(kind, *lists):
    """A message of these pieces and perhaps an unknown field, in any order."""
    pieces = [piece for pieces in lists for piece in pieces] + perhaps(0.25, [unknown(kind)])
    CHOICE.shuffle(pieces)
    return b"".join(pieces)


# Parts of records.


def octets():
    return CHOICE.choice([bytes([10, 0, 0, CHOICE.randrange(9)]), bytes.fromhex("20010db8" + "00" * 11 + "07"), bytes(10) + b"\xff\xff\x0a\1\2\3"])


def hostname():
    return span(1, message("NamespacedHostname", texts("NamespacedHostname", "namespace", "hostname", share=0.6)))


def network(number):
    addresses = some(2, lambda: field("NetworkAddress", address=octets()), least=1)
    return span(number, message("NetworkAddress", texts("NetworkAddress", "network"), addresses))


def gateway(number):
    members = some(3, lambda: CHOICE.choice([hostname(), network(2)]), least=1)
    return span(number, message("GatewayAddress", members, some(2, lambda: long_number(3))))


def port(number):
    return span(number, message("Port", some(2, lambda: long_number(1)), some(1, lambda: long_number(2))))


def entry():
    lists = some(2, lambda: span(2, message("PortList", some(2, lambda: port(1)))))
    return span(22, message("Workload.ServicesEntry", some(2, lambda: span(1, CHOICE.choice(["b/y", "a/x", "a", ""]))), lists))


def workload():
    return span(
        1,
        message(
            "Workload",
            texts("Workload", "name", "namespace", "network", "trust_domain", "service_account", "node", "uid", "hostname", share=0.3),
            some(2, lambda: field("Workload", addresses=[octets()])),
            some(2, lambda: field("Workload", authorization_policies=[CHOICE.choice(TEXTS)])),
            perhaps(0.5, some(2, lambda: gateway(8))),
            perhaps(0.6, some(4, entry)),
            some(1, lambda: long_number(5)) + some(1, lambda: long_number(17)),
        ),
    )


def workload_of_waypoints():
    return span(1, message("Workload", some(3, lambda: gateway(8), least=2)))


def workload_of_services():
    return span(1, message("Workload", texts("Workload", "name"), some(6, entry, least=3)))


def service():
    return span(
        2,
        message(
            "Service",
            texts("Service", "name", "namespace", "hostname"),
            some(2, lambda: network(4)),
            some(3, lambda: port(5)),
            perhaps(0.6, some(2, lambda: gateway(7))),
        ),
    )


def string_match(number):
    def member():
        name = CHOICE.choice(["exact", "prefix", "suffix", "presence"])
        return span(4, message("Empty", [])) if name == "presence" else field("StringMatch", **{name: CHOICE.choice(TEXTS)})

    return span(number, message("StringMatch", some(2, member, least=1)))


def prefix(number):
    own = octets()
    length = CHOICE.randrange(len(own) * 8 + 1)
    lengths = [field("Prefix", length=n) for n in CHOICE.choice([[], [length], [length, length // 2]])]
    return span(number, message("Prefix", some(2, lambda: field("Prefix", address=own), least=1), lengths))


def ports(number):
    """Numbers of a field, one a field and packed."""
    packed = some(2, lambda: span(number, b"".join(varint(CHOICE.choice(NUMBERS) + CHOICE.choice([0, 0, 2**32])) for _ in range(CHOICE.randrange(4)))))
    return packed + some(2, lambda: long_number(number))


def match():
    matches = [string_match(number) for number in (1, 2, 3, 4) for _ in range(CHOICE.choice([0, 0, 1, 2]))]
    prefixes = [prefix(number) for number in (5, 6, 7, 8) for _ in range(CHOICE.choice([0, 0, 0, 1, 2]))]
    return span(2, message("Match", matches, prefixes, perhaps(0.5, ports(9)), perhaps(0.4, ports(10))))


def policy_of_ports():
    return message("Authorization", [span(5, span(2, span(2, message("Match", ports(9), ports(10)))))])


def clause():
    return span(2, message("Clause", some(2, match, least=CHOICE.choice([0, 1]))))


def rule():
    return span(5, message("Rule", some(2, clause, least=CHOICE.choice([0, 1]))))


def policy():
    number = lambda field, most: varint(field * 8) + varint(CHOICE.randrange(most) + CHOICE.choice([0, 0, 2**32]))
    numbers = some(2, lambda: number(3, 3)) + some(2, lambda: number(4, 2))
    return message("Authorization", texts("Authorization", "name", "namespace"), numbers, some(2, rule, least=1))


# What a record is told as, in the words of crates/hb_records_rows/src/records.rt.


def address_told(own):
    number = int.from_bytes(own, "big")
    mapped = ipaddress.IPv6Address(own).ipv4_mapped if len(own) == 16 else ipaddress.IPv4Address(own)
    return f"V6({number})" if mapped is None else f"V4({int(mapped)})"


def prefix_told(it):
    is_mapped = len(it.address) == 16 and ipaddress.IPv6Address(it.address).ipv4_mapped
    if is_mapped and it.length >= 96:
        return f"{address_told(it.address)}/{it.length - 96}"
    family = "V4" if len(it.address) == 4 else "V6"
    return f"{family}({int.from_bytes(it.address, 'big')})/{it.length}"


def network_told(it):
    return f"address {it.network}/{address_told(it.address)} "


def gateway_told(it):
    to = f"host {it.hostname.namespace}/{it.hostname.hostname} " if it.WhichOneof("to") == "hostname" else network_told(it.address)
    return f"waypoint {to}{it.hbone_mtls_port} "


def waypoint_told(it):
    return gateway_told(it.waypoint) if it.HasField("waypoint") else ""


def ports_told(ports):
    return "".join(f"{it.service_port}:{it.target_port} " for it in ports)


def set_told(it, *names):
    return "".join(f"{name}={getattr(it, name)} " for name in names if getattr(it, name))


def workload_told(it):
    return (
        set_told(it, "name", "namespace", "network", "trust_domain", "service_account", "node", "uid", "hostname")
        + "".join(address_told(own) + " " for own in it.addresses)
        + "".join(f"policy={name} " for name in it.authorization_policies)
        + waypoint_told(it)
        + "".join(f"serves={key} " + ports_told(it.services[key].ports) for key in sorted(it.services, key=str.encode))
        + ("hbone " if it.tunnel_protocol == 1 else "")
        + ("" if it.status == 0 else "unhealthy ")
    )


def service_told(it):
    addresses = "".join(map(network_told, it.addresses))
    return "service " + set_told(it, "name", "namespace", "hostname") + addresses + ports_told(it.ports) + waypoint_told(it)


def record_told(it):
    return workload_told(it.workload) if it.WhichOneof("kind") == "workload" else service_told(it.service)


def string_match_told(it):
    kind = it.WhichOneof("kind")
    return "presence" if kind == "presence" else f"{kind} {getattr(it, kind)}"


# The lists of a match, what each is called, and how its values are told.
ATTRIBUTES = [
    ("namespaces", "namespace", string_match_told),
    ("not_namespaces", "not_namespace", string_match_told),
    ("principals", "principal", string_match_told),
    ("not_principals", "not_principal", string_match_told),
    ("source_ips", "source", prefix_told),
    ("not_source_ips", "not_source", prefix_told),
    ("destination_ips", "destination", prefix_told),
    ("not_destination_ips", "not_destination", prefix_told),
    ("destination_ports", "port", str),
    ("not_destination_ports", "not_port", str),
]


def match_told(it):
    return "match " + "".join(f"{name} {told(value)} " for values, name, told in ATTRIBUTES for value in getattr(it, values))


def rule_told(it):
    return "rule " + "".join("clause " + "".join(map(match_told, clause.matches)) for clause in it.clauses)


def policy_told(it):
    reach = ["Global", "Namespace", "Selector"][it.scope]
    return set_told(it, "name", "namespace") + f"{reach} {['Allow', 'Deny'][it.action]} " + "".join(map(rule_told, it.rules))


# What a record is written as.


def is_mapped(own):
    return len(own) == 16 and own[:12] == bytes(10) + b"\xff\xff"


def keep_prefix(it):
    if is_mapped(it.address) and it.length >= 96:
        it.address, it.length = it.address[12:], it.length - 96


def keep_network(it):
    it.address = it.address[12:] if is_mapped(it.address) else it.address


def keep_workload(it):
    it.addresses[:] = [own[12:] if is_mapped(own) else own for own in it.addresses]
    it.tunnel_protocol = int(it.tunnel_protocol == 1)
    it.status = int(it.status != 0)


KEPT = {"Prefix": keep_prefix, "NetworkAddress": keep_network, "Workload": keep_workload}


def keep(it):
    """Takes from a message, and from those in it, what isn't kept."""
    KEPT.get(it.DESCRIPTOR.name, lambda it: None)(it)
    for field, value in it.ListFields():
        if field.message_type and not field.message_type.GetOptions().map_entry:
            for each in value if field.label == field.LABEL_REPEATED else [value]:
                keep(each)


def has_empty_key(it):
    return it.DESCRIPTOR.name == "Address" and "" in it.workload.services


def written(it):
    kept = type(it).FromString(it.SerializeToString())
    kept.DiscardUnknownFields()
    keep(kept)
    return kept.SerializeToString(deterministic=True)


# The tables.


def row(kind, told, record):
    it = getattr(RECORDS, kind).FromString(record)
    columns = [record.hex(" ")] + [written(it).hex(" ")] * (not has_empty_key(it)) + [told(it).strip()]
    return "; ".join(columns)


def rows(title, count, kind, told, make, is_whole=False):
    """So many rows of records of some length, each another; if wanted, as the other implementation writes them whole."""
    found = {}
    while len(found) < count:
        record = make()
        if is_whole:
            record = getattr(RECORDS, kind).FromString(record).SerializeToString(deterministic=True)
        if 20 < len(record) < 160:
            found[record] = row(kind, told, record)
    return [f"# {title}", *found.values()]


def joined(*kinds):
    return lambda: b"".join(kind() for kind in kinds)


def any_order():
    return b"".join(some(5, lambda: CHOICE.choice([workload(), service()]), least=3))


def wrapped(line, room=136):
    """A row over several lines of less than 140 characters: each but the last ends with a blank, and none begins with one."""
    if len(line) <= room:
        return line
    at = max(i for i in range(1, room) if line[i - 1] == " " and line[i] != " ")
    return line[:at] + "\\\n    " + wrapped(line[at:], 132)


def table(name, what, lines):
    return f'/// {what}\npub const {name}: &[u8] = b"\\\n' + "\n".join(map(wrapped, lines)) + '";\n'


def main():
    addresses = [
        ("A workload, as the other implementation writes it.", 4, workload, True),
        ("A service, as it writes it.", 3, service, True),
        ("A workload, its fields in any order.", 9, workload, False),
        ("Waypoints of a workload, which merge.", 6, workload_of_waypoints, False),
        ("Services of a workload, some with equal keys.", 6, workload_of_services, False),
        ("A service, its fields in any order.", 7, service, False),
        ("Two occurrences of a workload.", 4, joined(workload, workload), False),
        ("Two occurrences of a service.", 3, joined(service, service), False),
        ("Workloads and services of one record in any order.", 6, any_order, False),
    ]
    lines = [line for title, count, make, whole in addresses for line in rows(title, count, "Address", record_told, make, whole)]
    policies = rows("A policy, as the other implementation writes it.", 4, "Authorization", policy_told, policy, True)
    policies += rows("A policy, its fields in any order.", 20, "Authorization", policy_told, policy)
    policies += rows("Ports of a policy, packed and one a field.", 5, "Authorization", policy_told, policy_of_ports)
    print("//! Records, printed by bench/tables/record_rows.py: Google's Protocol Buffers wrote their pieces, read each, and wrote it again.")
    print()
    print(table("SPELLED_ADDRESSES", "Address records, what each is written as, and what it is read as.", lines))
    print(table("SPELLED_POLICIES", "Policies, what each is written as, and what it is read as.", policies), end="")


if __name__ == "__main__":
    main()
