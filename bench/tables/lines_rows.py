#!/usr/bin/python3
"""Prints crates/hb_resources_rows/src/lines_told.rt: discovery responses, and the lines that tell what each did and what is held in the end.

    python3 bench/tables/lines_rows.py > crates/hb_resources_rows/src/lines_told.rt && (cd crates/hb_resources_rows && rt fmt)

Needs Debian's python3-protobuf and protobuf-compiler: run it with /usr/bin/python3. Google's Protocol Buffers write the records, by types
that `protoc` makes from records.proto, Python's `json` the lines, and its `ipaddress` the addresses. What a response does is reckoned
here: of each resource that is refused the row says why. Maps have no empty key, which that implementation writes.
"""

import importlib
import ipaddress
import json
import os
import pathlib
import random
import subprocess
import sys
import tempfile

from spelling import ADDRESS, AUTHORIZATION, span, text

os.environ.setdefault("PROTOCOL_BUFFERS_PYTHON_IMPLEMENTATION", "python")
CHOICE = random.Random(7)
HERE = pathlib.Path(__file__).resolve().parent
COLUMNS = 130
URLS = {"address": ADDRESS, "authorization": AUTHORIZATION}
SCOPES = ["global", "namespace", "selector"]
ACTIONS = ["allow", "deny"]


def types():
    with tempfile.TemporaryDirectory() as room:
        subprocess.run(["protoc", f"--proto_path={HERE}", f"--python_out={room}", "records.proto"], check=True)
        sys.path.insert(0, room)
        sys.dont_write_bytecode = True
        return importlib.import_module("records_pb2")


TYPES = types()


def octets(address):
    return ipaddress.ip_address(address).packed


def plain(address):
    """An address of IPv6 that maps one of IPv4 is that one."""
    ip = ipaddress.ip_address(address)
    return getattr(ip, "ipv4_mapped", None) or ip


class Good:
    """A resource that is taken: its record as it is sent and as it is held, and the members of its line beside its name and version."""

    def __init__(self, make, **members):
        self.sent = make(octets).SerializeToString(deterministic=True)
        held = make(lambda address: plain(address).packed).SerializeToString(deterministic=True)
        self.members = members | {"record": held.hex()}


class Bad:
    """A resource that is refused."""

    def __init__(self, value, why, url=None):
        self.sent, self.why, self.url = value, why, url


def workload(addresses=(), node="", **fields):
    def make(packed):
        return TYPES.Address(workload=TYPES.Workload(addresses=[packed(a) for a in addresses], node=node, **fields))

    return Good(make, kind="workload", node=node, addresses=[str(plain(a)) for a in addresses])


def service(addresses=(), **fields):
    def make(packed):
        at = [TYPES.NetworkAddress(network=network, address=packed(a)) for network, a in addresses]
        return TYPES.Address(service=TYPES.Service(addresses=at, **fields))

    return Good(make, kind="service", addresses=[str(plain(a)) for _, a in addresses])


def policy(scope, action, **fields):
    def make(_):
        return TYPES.Authorization(scope=SCOPES.index(scope), action=ACTIONS.index(action), **fields)

    return Good(make, kind="policy", scope=scope, action=action)


class Block:
    """Responses in a row to a node that holds nothing, and the rows of their table."""

    def __init__(self):
        self.held, self.rows = {}, []

    def bytes_of(self, kind, nonce, resources, removed):
        """Resources are (name, version, resource)."""
        content = b""
        for name, version, it in resources:
            url = getattr(it, "url", None) or URLS[kind]
            content += span(2, text(1, version) + span(2, span(1, url) + text(2, it.sent)) + text(3, name))
        return content + span(4, URLS[kind]) + text(5, nonce) + b"".join(span(6, name) for name in removed)

    def tell(self, line):
        written = json.dumps(line, separators=(",", ":"), sort_keys=True, ensure_ascii=False) + "\n"
        self.rows += laid_out(">", told(written))

    def response(self, kind, nonce, resources, removed=()):
        was_held = [self.held.pop((kind, name), None) for name in removed]
        good = [it for it in resources if isinstance(it[2], Good)]
        refused = [{"name": name, "why": it.why} for name, _, it in resources if isinstance(it, Bad)]
        for name, version, it in good:
            self.held[kind, name] = it.members | {"name": name, "version": version}
        self.rows += laid_out("<", self.bytes_of(kind, nonce, resources, removed).hex())
        gone = sum(it is not None for it in was_held)
        self.tell({"applied": len(good), "kind": kind, "nonce": nonce, "refused": refused, "removed": gone})
        return self

    def end(self):
        for key in sorted(self.held, key=lambda key: (key[0], key[1].encode())):
            self.tell(self.held[key])
        return self.rows


def told(line):
    """A line in printable ASCII: each other byte, and `<`, as its digits in angle brackets."""
    return "".join(chr(b) if 32 <= b < 127 and b != 60 else f"<{b:02x}>" for b in line.encode())


def laid_out(mark, line):
    return [mark + line[at : at + COLUMNS] for at in range(0, len(line), COLUMNS)]


SPECIAL = [chr(c) for c in range(32)] + list('"\\/<>&\x7f\x80\xe9\u07ff\u2028\u2029\ufeff\uffff\U0001f600\U0010ffff')
FAULTS = [
    (b"\x0a", "wire truncated at 1"),
    (span(1, b"\x0a\x05ab"), "wire truncated at 6"),
    (b"\x08" + b"\xff" * 10, "wire long varint at 10"),
    (span(1, b"\x28" + b"\xff" * 9 + b"\x02"), "wire long varint at 12"),
    (b"\x00", "wire bad number at 0"),
    (span(1, text(1, "n")) + b"\x0b", "wire bad type at 5"),
    (span(1, span(1, b"\xff")), "utf8 in field 1"),
    (span(2, span(3, b"\xc3")), "utf8 in field 3"),
    (span(1, span(3, b"abc")), "bad ip in field 3"),
    (span(2, span(4, span(2, b"12345"))), "bad ip in field 2"),
    (b"", "no kind in field 0"),
    (span(1, span(8, b"\x18\x01")), "no kind in field 8"),
]
POLICY_FAULTS = [
    (span(5, span(2, span(2, span(5, span(1, b"abcd") + b"\x10\x21")))), "bad cidr in field 5"),
    (span(5, span(2, span(2, span(8, b"\x10\x01")))), "bad cidr in field 8"),
    (span(5, span(2, span(2, span(3, b"")))), "no kind in field 3"),
    (b"\x18\x03", "bad enum 3 in field 3"),
    (b"\x20\x02", "bad enum 2 in field 4"),
    (b"\x18\xff\xff\xff\xff\x0f", "bad enum 4294967295 in field 3"),
]


def vectors():
    """A bad resource between two good ones; one that is removed and comes again in one response."""
    good, bad = workload(), Bad(span(1, span(3, b"")), "bad ip in field 3")
    one = workload(["10.0.0.7"], node="n1", name="web", namespace="a", tunnel_protocol=1, authorization_policies=["a/p"], uid="u1")
    yield Block().response("address", "x5", [("g1", "1", good), ("b", "1", bad), ("g2", "1", good)])
    yield Block().response("address", "x1", [("u1", "1", one)]).response("address", "x6", [("u1", "1", one)], ["u1"])


def names():
    """Each character that JSON escapes, and some that it doesn't, in every text of a line."""
    bad = Bad(b"", "no kind in field 0")
    for at in range(0, len(SPECIAL), 12):
        some = SPECIAL[at : at + 12]
        given = [(f"a{c}", "1", bad) for c in some] + [(c, f"{c}{c}", workload(node=c)) for c in some]
        yield Block().response("address", "".join(some), given)
    last = [(f"{c}n", c, policy("global", "deny")) for c in SPECIAL[30:38]] + [("a\"b\\c\n\td", "", service())]
    yield Block().response("authorization", "\\", last[:-1]).response("address", '"', last[-1:])


def refusals():
    """Each reason."""
    records = [(f"n{at}", "1", Bad(value, why)) for at, (value, why) in enumerate(FAULTS)]
    yield Block().response("address", "n", records + [("", "1", Bad(workload().sent, "no name")), ("good", "2", workload())])
    yield Block().response("authorization", "", [(f"p{at}", "", Bad(value, why)) for at, (value, why) in enumerate(POLICY_FAULTS)])
    other = [("w", Bad(b"", "wrong type", AUTHORIZATION)), ("", Bad(b"", "no name", b"")), ("v", Bad(b"\0", "wrong type", b"x"))]
    yield Block().response("address", "o", [(name, "1", it) for name, it in other])


def policies():
    both = [(f"{scope}/{action}", "1", policy(scope, action, name="p", namespace="a")) for scope in SCOPES for action in ACTIONS]
    rule = TYPES.Rule(clauses=[TYPES.Clause(matches=[TYPES.Match(principals=[TYPES.StringMatch(exact="x")], destination_ports=[80, 443])])])
    yield Block().response("authorization", "p", both + [("rule", "v2", policy("selector", "deny", name="p", rules=[rule]))])


ADDRESSES = ["10.0.0.7", "0.0.0.0", "255.255.255.255", "::", "::1", "2001:db8::1", "2001:db8:0:1:1:1:1:1", "fe80::1:0:0:1", "1:0:0:2::3"]
ADDRESSES += ["::ffff:10.0.0.7", "::ffff:0.0.0.0", "::10.0.0.7", "ABCD:EF01:2345:6789:ABCD:EF01:2345:6789", "::fffe:10.0.0.7"]


def addresses():
    """Addresses of each kind, mapped ones too, and of two networks; a workload and a service under names of both kinds."""
    networks = [("net1", "10.1.0.1"), ("net2", "10.2.0.1"), ("", "2001:db8::2"), ("net1", "::ffff:10.1.0.1")]
    both = [("a/web.a", "1", service(networks, name="web", namespace="a", hostname="web.a")), ("all", "1", workload(ADDRESSES, "n1"))]
    yield Block().response("address", "a", both + [("each", "1", service([(f"net{i}", a) for i, a in enumerate(ADDRESSES)]))])
    kinds = [("same", "2", policy("namespace", "allow", name="other"))]
    yield Block().response("authorization", "1", kinds).response("address", "2", [("same", "3", workload(name="other", uid="uid"))])


def random_ones(count):
    """Responses one after another, with random names, addresses and removals."""
    for _ in range(count):
        block = Block()
        for at in range(CHOICE.randint(1, 4)):
            kind = CHOICE.choice(list(URLS))
            some = ["".join(CHOICE.choices(["a", "b"] + SPECIAL[26:], k=CHOICE.randint(1, 3))) for _ in range(CHOICE.randint(0, 3))]
            given = [(name, str(at), random_one(kind)) for name in some]
            gone = [CHOICE.choice([key[1] for key in block.held if key[0] == kind] + ["gone"]) for _ in range(CHOICE.randint(0, 2))]
            block.response(kind, CHOICE.choice(SPECIAL), given, gone)
        yield block


def random_one(kind):
    value, why = CHOICE.choice(FAULTS if kind == "address" else POLICY_FAULTS)
    some = CHOICE.sample(ADDRESSES, CHOICE.randint(0, 3))
    good = {
        "address": [workload(some, CHOICE.choice(SPECIAL), hostname="h"), service([(f"net{len(a)}", a) for a in some], name="s")],
        "authorization": [policy(CHOICE.choice(SCOPES), CHOICE.choice(ACTIONS), namespace="b")],
    }
    return CHOICE.choice(good[kind] + [Bad(value, why)])


def main():
    print("//! Responses and lines, printed by bench/tables/lines_rows.py.\n")
    print("/// Blocks with an empty line between. Behind `<` stand the digits of a response to a node that held nothing at the block's")
    print("/// beginning, behind `>` the lines that it makes, and at the block's end those of what is held. In these, bytes that aren't")
    print('/// printable ASCII, and `<`, are digits in angle brackets.\npub const TOLD: &[u8] = br#"', end="")
    blocks = [*vectors(), *names(), *refusals(), *policies(), *addresses(), *random_ones(24)]
    print("\n\n".join("\n".join(block.end()) for block in blocks) + '"#;')


main()
