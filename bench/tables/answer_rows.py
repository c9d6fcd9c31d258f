#!/usr/bin/env python3
"""Prints tests/check/answers.runs: words, messages in hexadecimal digits, and the answer.

    python3 bench/tables/answer_rows.py > tests/check/answers.runs

The script only spells the messages. Every answer stands in its row and was worked out by hand: the target is known
where a workload of the network that is asked (the one of the empty name where none is) has its address, and of several the
one with the smallest resource name by its bytes is on the node that is asked. A later resource of a name replaces the
earlier one; a response removes names first; a resource that is refused leaves what is held.
"""

import run_table
from spelling import *

SEVEN = (10, 0, 0, 7)
EIGHT = (10, 0, 0, 8)


def at(name, *ips, node="n1", more=b""):
    """A resource of this name: a workload with these addresses."""
    return (name, workload("w", "a", ips, node, [], more))


def service_at(name, ip):
    """A resource of this name: a service with this address."""
    return (name, span(2, text(1, "s") + text(2, "a") + span(4, span(2, bytes(ip)))))


def of_x(name, *ips, node="n1"):
    """A resource of this name: a workload of the network `x`."""
    return at(name, *ips, node=node, more=span(4, "x"))


def removal(type_url, *names):
    """A response that removes these names."""
    return response(type_url, [], *(span(6, name) for name in names))


def denies(name):
    return (name, policy("a", name, "GLOBAL", "DENY", [[]]))


U1 = addresses(at("u1", SEVEN))
BAD = ("u1", b"")  # a record without a kind
BAD_POLICY = ("a/p", number(4, 2))  # an action that isn't known

# Title, words (by name, or each ended by `|`), messages, answer. SOURCE is 10.0.0.9, TARGET 10.0.0.7:8080.
ROWS = [
    ("one workload, and a peer without an identity", "AS_NONE", ["WORKLOAD"], "allow"),
    ("one workload, and a peer with an identity", "AS_C", ["WORKLOAD"], "allow"),
    ("nothing is held", "AS_C", [], "unknown"),
    ("another node's workload", "check|--node|n2|SOURCE|none|TARGET|", ["WORKLOAD"], "unknown"),
    ("an ALLOW of the peer's principal", "AS_C", ["WORKLOAD", "ALLOW_ONE"], "allow"),
    ("a DENY that fires for all goes before it", "AS_C", ["WORKLOAD", "ALLOW_ONE", "DENY_ALL"], "deny"),
    ("a DENY that fires for all, and a peer without an identity", "AS_NONE", ["WORKLOAD", "DENY_ALL"], "deny"),
    ("an ALLOW without rules", "AS_NONE", ["WORKLOAD", "ALLOW_NONE"], "deny"),
    ("an ALLOW of a principal, and a peer without an identity", "AS_NONE", ["WORKLOAD", "ALLOW_ONE"], "deny"),
    ("policies before the workload", "AS_C", ["DENY_ALL", "ALLOW_ONE", "WORKLOAD"], "deny"),
    ("policies alone", "AS_C", ["ALLOW_ONE", "DENY_ALL"], "unknown"),
    ("the same message twice", "AS_C", ["WORKLOAD", "WORKLOAD"], "allow"),
    # Another target.
    ("another port of the target", "check|--node|n1|SOURCE|none|10.0.0.7:1|", ["WORKLOAD"], "allow"),
    ("another address of the target", "check|--node|n1|SOURCE|none|10.0.0.8:8080|", ["WORKLOAD"], "unknown"),
    ("the peer's own address is the target's", "check|--node|n1|10.0.0.7|none|TARGET|", ["WORKLOAD"], "allow"),
    ("the second of two addresses", "AS_NONE", [addresses(at("u1", EIGHT, SEVEN))], "allow"),
    ("a workload without addresses", "AS_NONE", [addresses(at("u1"))], "unknown"),
    ("the octets in another order", "AS_NONE", [addresses(at("u1", (7, 0, 0, 10)))], "unknown"),
    ("the address mapped into IPv6", "AS_NONE", [addresses(at("u1", (0,) * 10 + (255, 255) + SEVEN))], "allow"),
    ("an IPv6 address", "check|--node|n1|SOURCE|none|[2001:db8::7]:8080|", [addresses(at("u1", (32, 1, 13, 184) + (0,) * 11 + (7,)))], "allow"),
    ("the target's address mapped into IPv6", "check|--node|n1|SOURCE|none|[::ffff:a00:7]:8080|", [addresses(at("u1", SEVEN))], "allow"),
    ("an IPv6 address with these last octets", "AS_NONE", [addresses(at("u1", (0,) * 12 + SEVEN))], "unknown"),
    # Nodes.
    ("a workload without a node", "AS_NONE", [addresses(at("u1", SEVEN, node=""))], "unknown"),
    ("a node whose name begins so", "AS_NONE", [addresses(at("u1", SEVEN, node="n11"))], "unknown"),
    ("a node whose name is a front", "AS_NONE", [addresses(at("u1", SEVEN, node="n"))], "unknown"),
    ("a node's name in capitals", "AS_NONE", [addresses(at("u1", SEVEN, node="N1"))], "unknown"),
    # Networks.
    ("a workload of another network", "AS_NONE", [addresses(at("u1", SEVEN, more=span(4, "x")))], "unknown"),
    ("a workload of another network, with a smaller name", "AS_NONE", [addresses(at("u0", SEVEN, node="n2", more=span(4, "x")), at("u1", SEVEN))], "allow"),
    ("a workload of the network that is asked", "OF_X", [addresses(of_x("u1", SEVEN))], "allow"),
    ("the words in another order", "check|--network|x|--node|n1|SOURCE|none|TARGET|", [addresses(of_x("u1", SEVEN))], "allow"),
    ("a workload of the network of the empty name", "OF_X", ["WORKLOAD"], "unknown"),
    ("a network whose name begins so", "OF_X", [addresses(at("u1", SEVEN, more=span(4, "xx")))], "unknown"),
    ("a network's name in capitals", "OF_X", [addresses(at("u1", SEVEN, more=span(4, "X")))], "unknown"),
    ("a network whose name is a front", "check|--node|n1|--network|xx|SOURCE|none|TARGET|", [addresses(of_x("u1", SEVEN))], "unknown"),
    ("a network that is named as the node", "check|--node|n1|--network|n1|SOURCE|none|TARGET|", [addresses(of_x("u1", SEVEN))], "unknown"),
    ("a network's name that isn't ASCII", "check|--node|n1|--network|\u00e9|SOURCE|none|TARGET|", [addresses(at("u1", SEVEN, more=span(4, "\u00e9")))], "allow"),
    ("the last network of a record counts", "OF_X", [addresses(at("u1", SEVEN, more=span(4, "y") + span(4, "x")))], "allow"),
    ("two networks, of which the asked one has the smaller name", "OF_X", [addresses(of_x("u1", SEVEN), at("u2", SEVEN, node="n2"))], "allow"),
    ("two networks, of which the asked one has the larger name", "OF_X", [addresses(at("u1", SEVEN, node="n2"), of_x("u2", SEVEN))], "allow"),
    ("two networks, of which the other is on this node", "OF_X", [addresses(at("u1", SEVEN), of_x("u2", SEVEN, node="n2"))], "unknown"),
    ("two networks, and none is asked", "AS_NONE", [addresses(of_x("u1", SEVEN), at("u2", SEVEN, node="n2"))], "unknown"),
    ("two networks, and none is asked: the empty name's is on this node", "AS_NONE", [addresses(of_x("u1", SEVEN, node="n2"), at("u2", SEVEN))], "allow"),
    ("two of the network, and one of another with the smallest name", "OF_X", [addresses(at("a", SEVEN), of_x("c", SEVEN), of_x("b", SEVEN, node="n2"))], "unknown"),
    ("policies count in each network", "OF_X", [addresses(of_x("u1", SEVEN)), policies(denies("d"))], "deny"),
    # Two workloads with the address: the one of the smaller name counts.
    ("b on this node and a on another", "AS_NONE", [addresses(at("b", SEVEN), at("a", SEVEN, node="n2"))], "unknown"),
    ("b on another node and a on this one", "AS_NONE", [addresses(at("b", SEVEN, node="n2"), at("a", SEVEN))], "allow"),
    ("the smaller name first, on this node", "AS_NONE", [addresses(at("u1", SEVEN), at("u2", SEVEN, node="n2"))], "allow"),
    ("the smaller name last, on this node", "AS_NONE", [addresses(at("u2", SEVEN, node="n2"), at("u1", SEVEN))], "allow"),
    ("the smaller name first, on another node", "AS_NONE", [addresses(at("u1", SEVEN, node="n2"), at("u2", SEVEN))], "unknown"),
    ("the smaller name last, on another node", "AS_NONE", [addresses(at("u2", SEVEN), at("u1", SEVEN, node="n2"))], "unknown"),
    ("the smallest of three, in the middle", "AS_NONE", [addresses(at("b", SEVEN, node="n2"), at("a", SEVEN), at("c", SEVEN, node="n2"))], "allow"),
    ("a front of a name is smaller", "AS_NONE", [addresses(at("u10", SEVEN, node="n2"), at("u1", SEVEN))], "allow"),
    ("u10 is smaller than u2", "AS_NONE", [addresses(at("u2", SEVEN, node="n2"), at("u10", SEVEN))], "allow"),
    ("a capital is smaller", "AS_NONE", [addresses(at("a", SEVEN, node="n2"), at("B", SEVEN))], "allow"),
    ("a byte above 127 is larger", "AS_NONE", [addresses(at("\u00e9", SEVEN), at("z", SEVEN, node="n2"))], "unknown"),
    ("the smaller name has another address", "AS_NONE", [addresses(at("u1", EIGHT, node="n2"), at("u2", SEVEN))], "allow"),
    ("the names of two messages", "AS_NONE", [addresses(at("u2", SEVEN, node="n2")), addresses(at("u1", SEVEN))], "allow"),
    # A later resource of the same name replaces.
    ("the address goes", "AS_NONE", [U1, addresses(at("u1", EIGHT))], "unknown"),
    ("the address comes", "AS_NONE", [addresses(at("u1", EIGHT)), U1], "allow"),
    ("the node changes", "AS_NONE", [U1, addresses(at("u1", SEVEN, node="n2"))], "unknown"),
    ("in one message", "AS_NONE", [addresses(at("u1", SEVEN), at("u1", EIGHT))], "unknown"),
    ("the smaller of two names loses the address", "AS_NONE", [addresses(at("u1", SEVEN, node="n2"), at("u2", SEVEN)), addresses(at("u1", EIGHT))], "allow"),
    ("another name doesn't replace", "AS_NONE", [U1, addresses(at("u11", EIGHT))], "allow"),
    ("a policy of the same name doesn't replace", "AS_NONE", [U1, policies(("u1", policy("", "u1", "GLOBAL", "ALLOW", [[]])))], "allow"),
    ("a DENY is replaced by one that never fires", "AS_NONE", [U1, policies(denies("d")), policies(("d", policy("a", "d", "GLOBAL", "DENY", [])))], "allow"),
    # Removals, before the resources of their response.
    ("the workload is removed", "AS_NONE", ["WORKLOAD", removal(ADDRESS, "u1")], "unknown"),
    ("the workload is removed and added", "AS_NONE", ["WORKLOAD", "REMOVED_AND_ADDED"], "allow"),
    ("the workload is removed, and added by the next response", "AS_NONE", ["WORKLOAD", removal(ADDRESS, "u1"), "WORKLOAD"], "allow"),
    ("the workload is removed, and added with another address", "AS_NONE", ["WORKLOAD", response(ADDRESS, [at("u1", EIGHT)], span(6, "u1"))], "unknown"),
    ("another name is removed", "AS_NONE", ["WORKLOAD", removal(ADDRESS, "u", "u11", "U1", "")], "allow"),
    ("a workload isn't held yet where it is removed", "AS_NONE", [response(ADDRESS, [at("u1", SEVEN)], span(6, "u1"))], "allow"),
    ("the smaller of two names is removed", "AS_NONE", [addresses(at("u1", SEVEN, node="n2"), at("u2", SEVEN)), removal(ADDRESS, "u1")], "allow"),
    ("the larger of two names is removed", "AS_NONE", [addresses(at("u1", SEVEN, node="n2"), at("u2", SEVEN)), removal(ADDRESS, "u2")], "unknown"),
    ("the policy is removed", "AS_NONE", ["WORKLOAD", "ALLOW_ONE", removal(AUTHORIZATION, "a/p")], "allow"),
    ("one of two policies is removed", "AS_NONE", ["WORKLOAD", "ALLOW_ONE", "DENY_ALL", removal(AUTHORIZATION, "a/p")], "deny"),
    ("the DENY is removed", "AS_C", ["WORKLOAD", "ALLOW_ONE", "DENY_ALL", removal(AUTHORIZATION, "d")], "allow"),
    ("addresses remove no policy", "AS_NONE", ["WORKLOAD", "DENY_ALL", removal(ADDRESS, "d")], "deny"),
    ("policies remove no workload", "AS_NONE", ["WORKLOAD", removal(AUTHORIZATION, "u1")], "allow"),
    # Resources that are refused.
    ("a bad record leaves the workload", "AS_NONE", ["WORKLOAD", addresses(BAD)], "allow"),
    ("a bad record leaves the policy", "AS_NONE", ["WORKLOAD", "ALLOW_ONE", policies(BAD_POLICY)], "deny"),
    ("a bad record, and then a good one of the name", "AS_NONE", [addresses(BAD, at("u1", SEVEN))], "allow"),
    ("a good record, and then a bad one of the name", "AS_NONE", [addresses(at("u1", SEVEN), BAD)], "allow"),
    ("a bad record in front of another name", "AS_NONE", [addresses(BAD, at("u2", SEVEN))], "allow"),
    ("a bad record in the first of two messages", "AS_NONE", [addresses(BAD), "WORKLOAD"], "allow"),
    ("the workload is removed, and its addition is refused", "AS_NONE", ["WORKLOAD", response(ADDRESS, [BAD], span(6, "u1"))], "unknown"),
    ("a workload without a name", "AS_NONE", [addresses(at("", SEVEN))], "unknown"),
    ("a workload of another type", "AS_NONE", [grpc(resource(AUTHORIZATION, *at("u1", SEVEN)) + span(4, ADDRESS))], "unknown"),
    ("a policy of another type", "AS_NONE", ["WORKLOAD", grpc(resource(ADDRESS, *denies("d")) + span(4, AUTHORIZATION))], "allow"),
    # Services, which are no workloads.
    ("a service with the address", "AS_NONE", [addresses(service_at("s1", SEVEN))], "unknown"),
    ("a workload behind a service with the address", "AS_NONE", [addresses(service_at("s1", SEVEN), at("u1", SEVEN))], "allow"),
    ("a service of the name replaces the workload", "AS_NONE", [U1, addresses(service_at("u1", SEVEN))], "unknown"),
    ("a workload of the name replaces the service", "AS_NONE", [addresses(service_at("u1", SEVEN)), U1], "allow"),
    ("a record of a workload and then a service", "AS_NONE", [addresses(("u1", at("u1", SEVEN)[1] + span(2, "")))], "unknown"),
    ("a record of a service and then a workload", "AS_NONE", [addresses(("u1", span(2, "") + at("u1", SEVEN)[1]))], "allow"),
    ("a workload, a service and a workload in one record aren't merged", "AS_NONE", [addresses(("u1", at("u1", SEVEN)[1] + span(2, "") + span(1, text(9, "n1"))))], "unknown"),
    ("a workload with a waypoint and services", "AS_NONE", [addresses(at("u1", SEVEN, more=span(8, span(1, text(1, "a") + text(2, "w"))) + span(22, text(1, "a/s") + span(2, span(1, number(1, 80))))))], "allow"),
    # What is passed over.
    ("a response without resources", "AS_NONE", [U1, addresses(), policies()], "allow"),
    ("unknown fields of a response, of a resource and of its record", "AS_NONE", [grpc(span(7, "x") + number(3, 5) + resource(ADDRESS, "u1", workload("w", "a", [SEVEN], "n1", [], span(99, "x")), span(4, "x") + number(5, 1)) + span(4, ADDRESS))], "allow"),
    ("known fields under another wire type", "AS_NONE", [grpc(number(1, 1) + number(2, 1) + number(6, 1) + resource(ADDRESS, "u1", workload("w", "a", [SEVEN], "n1", [], number(8, 1) + number(22, 1)), number(3, 1)) + span(4, ADDRESS) + number(4, 1))], "allow"),
    ("the last type of a response counts", "AS_NONE", [grpc(span(4, "x") + resource(ADDRESS, "u1", workload("w", "a", [SEVEN], "n1", [])) + span(4, ADDRESS))], "allow"),
    ("the last name of a resource counts", "AS_NONE", [addresses(at("u1", SEVEN)), grpc(span(2, span(3, "u1") + span(2, span(1, ADDRESS) + span(2, workload("w", "a", [EIGHT], "n1", []))) + span(3, "u2")) + span(4, ADDRESS))], "allow"),
    ("two parts of a resource's record are merged", "AS_NONE", [grpc(span(2, span(3, "u1") + span(2, span(1, ADDRESS)) + span(2, span(2, workload("w", "a", [SEVEN], "n1", [])))) + span(4, ADDRESS))], "allow"),
    ("two parts of a workload are merged", "AS_NONE", [addresses(("u1", workload("w", "a", [EIGHT], "n2", []) + workload("", "", [SEVEN], "n1", [])))], "allow"),
    ("two resources are not merged", "AS_NONE", [addresses(("u1", workload("w", "a", [SEVEN], "", [])), ("u1", workload("w", "a", [], "n1", [])))], "unknown"),
]


def asked(words):
    """The words, by their name or as they stand."""
    if "|" not in words:
        return getattr(run_table, words)
    return words.replace("SOURCE", "10.0.0.9").replace("TARGET", "10.0.0.7:8080").split("|")[:-1]


HEAD = ["The target that is known, and its answer. bench/tables/answer_rows.py prints this file: it spells the messages, and has each",
        "answer as it was worked out by hand."]


def main():
    table = run_table.Table(HEAD, MESSAGES)
    for title, words, messages, answer in ROWS:
        table.begin(title)
        table.octets(shown(messages))
        table.run(asked(words), 0, answer + "\n")
    table.print()


if __name__ == "__main__":
    main()
