#!/usr/bin/env python3
"""Prints tests/check/policies.runs: policies as messages in hexadecimal digits, who asks, and the answer.

    python3 bench/tables/policy_rows.py > tests/check/policies.runs

The script only spells the records. Every answer stands in its row and was worked out by hand:

- a policy fires where one of its rules is met; a rule where all of its clauses are; a clause where one of its
  matches is; a match where both of its lists are: a positive list that is empty, or one of whose values matches,
  and a negative list none of whose values matches;
- without an identity no value matches; `presence` matches a principal that isn't empty;
- a policy counts where its scope is GLOBAL, or NAMESPACE with the workload's namespace, or WORKLOAD_SELECTOR
  with its namespace/name among the names that the workload lists;
- no DENY that counts fires, and there is no ALLOW that counts, or one of them fires: allow; else deny.
"""

import run_table
from spelling import *


def one(scope, action, *rules, namespace="a", name="p"):
    """A message with one policy."""
    return policies((namespace + "/" + name, policy(namespace, name, scope, action, rules)))


PC = exact("cluster.local/ns/a/sa/c")
PD = exact("cluster.local/ns/b/sa/d")
IN_A = prefix("cluster.local/ns/a/")
NAMED_C = suffix("/sa/c")

ANY = [[([], [])]]  # a rule of one clause of one match without values
ONLY_C = [[([PC], [])]]
ONLY_D = [[([PD], [])]]
NOT_C = [[([], [PC])]]
ALL = []  # a rule without clauses

LISTS_TWO = addresses(("u1", workload("web", "a", [(10, 0, 0, 7)], "n1", ["b/q", "a/r"])))
LISTS_NONE = addresses(("u1", workload("web", "a", [(10, 0, 0, 7)], "n1", [])))
LISTS_NEARLY = addresses(("u1", workload("web", "a", [(10, 0, 0, 7)], "n1", ["p", "a/", "/p", "a/pp", "aa/p", "a//p", "A/p", "a/p/", " a/p"])))

# Title, messages (behind the workload `web` of namespace `a`, which lists `a/p`, unless the first is a workload), and
# the answers for the peers with the principals cluster.local/ns/a/sa/c and cluster.local/ns/b/sa/d, and for one without
# an identity.
ROWS = [
    # Rules, clauses and matches that are missing.
    ("no policies", [], "allow allow allow"),
    ("an ALLOW without rules never fires", [one("GLOBAL", "ALLOW")], "deny deny deny"),
    ("a DENY without rules never fires", [one("GLOBAL", "DENY")], "allow allow allow"),
    ("an ALLOW with a rule without clauses", [one("GLOBAL", "ALLOW", ALL)], "allow allow allow"),
    ("a DENY with a rule without clauses", [one("GLOBAL", "DENY", ALL)], "deny deny deny"),
    ("an ALLOW with a clause without matches", [one("GLOBAL", "ALLOW", [[]])], "deny deny deny"),
    ("a DENY with a clause without matches", [one("GLOBAL", "DENY", [[]])], "allow allow allow"),
    ("an ALLOW with a match without values", [one("GLOBAL", "ALLOW", ANY)], "allow allow allow"),
    ("a DENY with a match without values", [one("GLOBAL", "DENY", ANY)], "deny deny deny"),
    ("a DENY with a clause that is met and one without matches", [one("GLOBAL", "DENY", [[([], [])], []])], "allow allow allow"),
    # Positive and negative tests, with and without an identity.
    ("an ALLOW of one principal", [one("GLOBAL", "ALLOW", ONLY_C)], "allow deny deny"),
    ("a DENY of one principal", [one("GLOBAL", "DENY", ONLY_C)], "deny allow allow"),
    ("an ALLOW of all but one principal", [one("GLOBAL", "ALLOW", NOT_C)], "deny allow allow"),
    ("a DENY of all but one principal", [one("GLOBAL", "DENY", NOT_C)], "allow deny deny"),
    ("an ALLOW of one of two principals", [one("GLOBAL", "ALLOW", [[([PD, PC], [])]])], "allow allow deny"),
    ("an ALLOW of all but two principals", [one("GLOBAL", "ALLOW", [[([], [PD, PC])]])], "deny deny allow"),
    ("a negative list with one value that matches and one that doesn't", [one("GLOBAL", "DENY", [[([], [PC, exact("x")])]])], "allow deny deny"),
    ("the attributes of a match have to be met both: a prefix and not a principal", [one("GLOBAL", "ALLOW", [[([prefix("cluster.local/")], [PC])]])], "deny allow deny"),
    ("the attributes of a match can't be met both", [one("GLOBAL", "DENY", [[([PC], [PC])]])], "allow allow allow"),
    # String matches.
    ("exact: not the identity's whole text", [one("GLOBAL", "ALLOW", [[([exact("spiffe://cluster.local/ns/a/sa/c")], [])]])], "deny deny deny"),
    ("exact: a front, an end, more, another case, nothing", [one("GLOBAL", "ALLOW", [[([exact("cluster.local/ns/a/sa/"), exact("c"), exact("cluster.local/ns/a/sa/cc"), exact("cluster.local/ns/a/sa/C"), exact("")], [])]])], "deny deny deny"),
    ("prefix", [one("GLOBAL", "ALLOW", [[([IN_A], [])]])], "allow deny deny"),
    ("prefix: the whole text", [one("GLOBAL", "ALLOW", [[([prefix("cluster.local/ns/a/sa/c")], [])]])], "allow deny deny"),
    ("prefix: one byte more than the text", [one("GLOBAL", "ALLOW", [[([prefix("cluster.local/ns/a/sa/c/")], [])]])], "deny deny deny"),
    ("prefix: an end of the text", [one("GLOBAL", "ALLOW", [[([prefix("/sa/c")], [])]])], "deny deny deny"),
    ("prefix: the empty text begins each principal", [one("GLOBAL", "ALLOW", [[([prefix("")], [])]])], "allow allow deny"),
    ("suffix", [one("GLOBAL", "ALLOW", [[([NAMED_C], [])]])], "allow deny deny"),
    ("suffix: the whole text", [one("GLOBAL", "ALLOW", [[([suffix("cluster.local/ns/b/sa/d")], [])]])], "deny allow deny"),
    ("suffix: a front of the text", [one("GLOBAL", "ALLOW", [[([suffix("cluster.local/")], [])]])], "deny deny deny"),
    ("suffix: the empty text ends each principal", [one("GLOBAL", "DENY", [[([suffix("")], [])]])], "deny deny allow"),
    ("presence", [one("GLOBAL", "ALLOW", [[([PRESENCE], [])]])], "allow allow deny"),
    ("not presence", [one("GLOBAL", "ALLOW", [[([], [PRESENCE])]])], "deny deny allow"),
    ("a DENY of all who have an identity", [one("GLOBAL", "DENY", [[([PRESENCE], [])]])], "deny deny allow"),
    ("a DENY of all who have none", [one("GLOBAL", "DENY", [[([], [PRESENCE])]])], "allow allow deny"),
    ("the last member of a string match wins", [one("GLOBAL", "ALLOW", [[([PC + PD], [])]])], "deny allow deny"),
    # Rules are or-ed, clauses and-ed, matches or-ed.
    ("two rules, of which the second is met", [one("GLOBAL", "ALLOW", ONLY_D, ONLY_C)], "allow allow deny"),
    ("a rule without clauses behind one that isn't met", [one("GLOBAL", "DENY", ONLY_D, ALL)], "deny deny deny"),
    ("two clauses, of which one is met", [one("GLOBAL", "ALLOW", [[([PC], [])], [([PD], [])]])], "deny deny deny"),
    ("two clauses that are both met", [one("GLOBAL", "ALLOW", [[([IN_A], [])], [([NAMED_C], [])]])], "allow deny deny"),
    ("two matches, of which one is met", [one("GLOBAL", "ALLOW", [[([PD], []), ([PC], [])]])], "allow allow deny"),
    ("two matches, of which none is met", [one("GLOBAL", "DENY", [[([exact("x")], []), ([PC], [PRESENCE])]])], "allow allow allow"),
    ("clauses of a positive and of a negative test", [one("GLOBAL", "ALLOW", [[([PRESENCE], [])], [([], [PC])]])], "deny allow deny"),
    ("a match of a positive or one of a negative test", [one("GLOBAL", "ALLOW", [[([PC], []), ([], [PRESENCE])]])], "allow deny allow"),
    # Scopes.
    ("a DENY of the workload's namespace", [one("NAMESPACE", "DENY", ALL)], "deny deny deny"),
    ("a DENY of another namespace", [one("NAMESPACE", "DENY", ALL, namespace="b")], "allow allow allow"),
    ("a DENY of a namespace that begins so", [one("NAMESPACE", "DENY", ALL, namespace="aa")], "allow allow allow"),
    ("a DENY of the empty namespace", [one("NAMESPACE", "DENY", ALL, namespace="")], "allow allow allow"),
    ("an ALLOW of another namespace counts for nothing", [one("NAMESPACE", "ALLOW", ONLY_D, namespace="b")], "allow allow allow"),
    ("an ALLOW of the workload's namespace", [one("NAMESPACE", "ALLOW", ONLY_D)], "deny allow deny"),
    ("a policy for all of the mesh in another namespace", [one("GLOBAL", "DENY", ONLY_C, namespace="b")], "deny allow allow"),
    ("a DENY that the workload lists", [one("SELECTOR", "DENY", ALL)], "deny deny deny"),
    ("a DENY of a name that the workload doesn't list", [one("SELECTOR", "DENY", ALL, name="q")], "allow allow allow"),
    ("a DENY of a namespace that the workload doesn't list", [one("SELECTOR", "DENY", ALL, namespace="b")], "allow allow allow"),
    ("an ALLOW that the workload doesn't list counts for nothing", [one("SELECTOR", "ALLOW", ONLY_D, name="q")], "allow allow allow"),
    ("a DENY of its own name under a resource of another", [policies(("x/y", policy("a", "p", "SELECTOR", "DENY", [ALL])))], "deny deny deny"),
    ("a DENY of another name under a resource that the workload lists", [policies(("a/p", policy("x", "y", "SELECTOR", "DENY", [ALL])))], "allow allow allow"),
    ("a workload that lists two, and a policy of the first", [LISTS_TWO, one("SELECTOR", "DENY", ALL, namespace="b", name="q")], "deny deny deny"),
    ("a workload that lists two, and a policy of the second", [LISTS_TWO, one("SELECTOR", "ALLOW", ONLY_C, name="r")], "allow deny deny"),
    ("a workload that lists two, and one of their mixtures", [LISTS_TWO, one("SELECTOR", "DENY", ALL, name="q")], "allow allow allow"),
    ("a workload that lists none", [LISTS_NONE, one("SELECTOR", "DENY", ALL)], "allow allow allow"),
    ("a workload that lists names that are nearly the policy's", [LISTS_NEARLY, one("SELECTOR", "DENY", ALL)], "allow allow allow"),
    ("a workload that lists none, and a policy of its namespace", [LISTS_NONE, one("NAMESPACE", "DENY", ONLY_C)], "deny allow allow"),
    # Several policies.
    ("a DENY and an ALLOW that fire", [one("GLOBAL", "DENY", ONLY_C, name="d"), one("GLOBAL", "ALLOW", ONLY_C, name="e")], "deny deny deny"),
    ("an ALLOW and a DENY that fire", [one("GLOBAL", "ALLOW", ONLY_C, name="d"), one("GLOBAL", "DENY", ALL, name="e")], "deny deny deny"),
    ("a DENY that doesn't fire and an ALLOW that does", [one("GLOBAL", "DENY", ONLY_D, name="d"), one("GLOBAL", "ALLOW", ONLY_C, name="e")], "allow deny deny"),
    ("two ALLOWs, of which the second fires", [one("GLOBAL", "ALLOW", ONLY_D, name="d"), one("GLOBAL", "ALLOW", ONLY_C, name="e")], "allow allow deny"),
    ("two ALLOWs, of which only the second counts", [one("NAMESPACE", "ALLOW", ONLY_C, namespace="b"), one("NAMESPACE", "ALLOW", ONLY_D)], "deny allow deny"),
    ("two DENYs, of which the second fires", [one("GLOBAL", "DENY", ONLY_D, name="d"), one("GLOBAL", "DENY", ONLY_C, name="e")], "deny deny allow"),
    ("two DENYs, of which only the one that doesn't count would fire", [one("NAMESPACE", "DENY", ALL, namespace="b"), one("GLOBAL", "DENY", ONLY_D)], "allow deny allow"),
    ("all scopes and actions", [one("GLOBAL", "DENY", [[([], [PRESENCE])]], name="d"), one("NAMESPACE", "ALLOW", ONLY_D, name="e"), one("SELECTOR", "ALLOW", ONLY_C), one("SELECTOR", "DENY", ALL, name="q")], "allow allow deny"),
    ("two policies of one response", [policies(("d", policy("", "d", "GLOBAL", "ALLOW", [ALL])), ("e", policy("", "e", "GLOBAL", "DENY", [ONLY_C])))], "deny allow allow"),
    ("a later policy of the same name replaces", [one("GLOBAL", "DENY", ALL), one("GLOBAL", "ALLOW", ONLY_C)], "allow deny deny"),
    ("a policy and an address of the same name stand side by side", [policies(("u1", policy("", "d", "GLOBAL", "DENY", [ONLY_C])))], "deny allow allow"),
]


HEAD = ["Policies, and what they answer two peers with an identity and one without. bench/tables/policy_rows.py prints this file: it spells",
        "the messages, and has each answer as it was worked out by hand."]
ASKED = {"as_c": run_table.AS_C, "as_d": run_table.AS_D, "as_none": run_table.AS_NONE}


def main():
    table = run_table.Table(HEAD, {**MESSAGES, **ASKED})
    for title, messages, answers in ROWS:
        first = [] if messages and ADDRESS in messages[0] else ["WORKLOAD"]
        table.begin(title)
        table.octets(shown(first + messages))
        for words, answer in zip(ASKED.values(), answers.split(), strict=True):
            table.run(words, 0, answer + "\n")
    table.print()


if __name__ == "__main__":
    main()
