#!/usr/bin/env python3
"""Prints tests/check/explained.runs: the rows of attribute_rows.py and policy_rows.py with what `check --explain` prints, and some more.

    python3 bench/tables/explain_rows.py > tests/check/explained.runs

Behind the answer stands a line for each policy that counts for the target's workload, in the order of its resource's name by bytes: its
action, whether it fires, its namespace and name, and the number, from 0, of the first of its rules that is met, where one is. The policies
of tunnel_model.py beside this file, a second evaluator, tell them over what the messages spell; the script ends where its answer isn't the
one that stands in those scripts, or where the evaluator of attribute_rows.py tells another rule. The rows here were worked out by hand.
"""
import sys

import attribute_rows
import policy_rows
import replay_model
import run_table
import tunnel_model
from shown_lines import line
from spelling import *
from tunnel_model import Peer
from way_rows import held_by

EXPLAINED = "check --explain --node n1"


def explained(words):
    return words.replace("check --node n1", EXPLAINED)


def read_words(words):
    """The peer and the target of such words, and what was asked besides."""
    *_, source, identity, target = words.split()
    principal = None if identity == "none" else identity.removeprefix("spiffe://")
    peer = Peer(tunnel_model.address_of(bytes_of(source)), principal, principal and principal.split("/")[2])
    return peer, tunnel_model.target_of(target), {"node": "n1"}


def bytes_of(text):
    return attribute_rows.address(text).packed


def first_rule(policy, peer, target):
    """The number of the first rule that is met."""
    return next((at for at, rule in enumerate(policy.get(5, [])) if tunnel_model.fires({5: [rule]}, peer, target)), None)


def policy_told(policy, rule):
    fires = {"fires": False} if rule is None else {"fires": True, "rule": rule}
    return line(action=("allow", "deny")[policy.get(4, 0)], policy=f"{policy.get(2, '')}/{policy.get(1, '')}", **fires)


def printed(messages, words):
    """What is printed: the answer, and a line for each policy that counts."""
    held, (peer, target, asked) = held_by(messages), read_words(words)
    at = tunnel_model.workloads_at(held, asked, target.ip)
    if not at or at[0].get(9, "") != asked["node"]:
        return ["unknown"]
    named = sorted((name.encode(), version.record) for (kind, name), version in held.items() if kind == replay_model.POLICY)
    told = [policy_told(policy, first_rule(policy, peer, target)) for _, policy in named if tunnel_model.counts_for(policy, at[0])]
    return [{200: "allow", 401: "deny"}[tunnel_model.judge(held, asked, peer, target)], *told]


def rules_by_attributes(listed, connection):
    """The numbers of the first rules, by the evaluator of attribute_rows.py."""
    return [next((at for at, rule in enumerate(rules) if attribute_rows.fires([rule], connection)), None) for _, rules in listed]


def rule_in(text):
    return int(text.partition('"rule":')[2][:-1]) if '"rule":' in text else None


def put(table, title, messages, questions):
    table.begin(title)
    table.octets(shown(messages))
    for words, lines in questions:
        table.run(words, 0, "".join(each + "\n" for each in lines))


def attributes(table):
    for place, (title, listed, wanted) in enumerate(attribute_rows.rows()):
        answers = attribute_rows.judge(title, listed, wanted)
        message = policies(*(attribute_rows.spelled_policy(f"p{i}", *p, place % 2 == 0) for i, p in enumerate(listed)))
        questions = []
        for connection, sign in zip(attribute_rows.CONNECTIONS, answers, strict=True):
            words = f"{EXPLAINED} {' '.join(connection)}"
            lines = printed(["DUAL_STACK", message], words)
            if lines[0] != {"+": "allow", "-": "deny"}[sign]:
                sys.exit(f"{title}: {lines[0]}, and {sign} there")
            if [rule_in(each) for each in lines[1:]] != rules_by_attributes(listed, connection):
                sys.exit(f"{title}: {lines[1:]}, and {rules_by_attributes(listed, connection)} there")
            questions.append((words, lines))
        put(table, f"attributes: {title}", ["DUAL_STACK", message], questions)


def by_hand_answers(table):
    for title, messages, answers in policy_rows.ROWS:
        messages = ([] if messages and ADDRESS in messages[0] else ["WORKLOAD"]) + messages
        questions = []
        for words, answer in zip(policy_rows.ASKED.values(), answers.split(), strict=True):
            lines = printed(messages, words)
            if lines[0] != answer:
                sys.exit(f"{title}: {lines[0]}, and by hand {answer}")
            questions.append((explained(words), lines))
        put(table, f"policies: {title}", messages, questions)


# Rows by hand: title, messages, words, the answer, and of each line that follows its action, the policy, and the rule that is met, if any.


def one(resource, name, action, *rules, namespace="a", scope="GLOBAL"):
    return resource, policy(namespace, name, scope, action, rules)


ALL, NEVER, ONLY_C, ONLY_D = [], [[]], policy_rows.ONLY_C, policy_rows.ONLY_D
ODD = 'q"\\\t/\u00fc'
BY_HAND = [
    ("no policy counts", ["WORKLOAD"], "as_c", "allow", []),
    ("nothing is held", [], "as_c", "unknown", []),
    ("policies alone", ["DENY_ALL", "ALLOW_ONE"], "as_c", "unknown", []),
    ("a workload of another node", [addresses(("u1", workload("w", "a", [(10, 0, 0, 7)], "n2", []))), "DENY_ALL"], "as_c", "unknown", []),
    ("a DENY that fires, and an ALLOW that does", ["WORKLOAD", "DENY_ALL", "ALLOW_ONE"], "as_c", "deny", [("allow", "a/p", 0), ("deny", "/d", 0)]),
    ("a DENY that fires, and an ALLOW that doesn't", ["WORKLOAD", "DENY_ALL", "ALLOW_ONE"], "as_none", "deny",
     [("allow", "a/p", None), ("deny", "/d", 0)]),
    ("the order is that of the resources' names, and not that of the policies'", ["WORKLOAD", policies(
        one("z", "a", "ALLOW", ALL), one("a", "z", "ALLOW", NEVER), one("B", "m", "DENY", NEVER), one("a0", "n", "DENY"))], "as_c", "allow",
     [("deny", "a/m", None), ("allow", "a/z", None), ("deny", "a/n", None), ("allow", "a/a", 0)]),
    ("a policy that doesn't count isn't told", ["WORKLOAD", policies(
        one("1", "x", "DENY", ALL, namespace="b", scope="NAMESPACE"), one("2", "y", "DENY", ALL, scope="SELECTOR"),
        one("3", "p", "ALLOW", ALL, scope="SELECTOR"), one("4", "w", "DENY", NEVER, scope="NAMESPACE"))], "as_c", "allow",
     [("allow", "a/p", 0), ("deny", "a/w", None)]),
    ("the first of the rules that are met", ["WORKLOAD", policies(
        one("1", "q", "DENY", NEVER, ONLY_D, ONLY_C, ALL), one("2", "r", "ALLOW", ONLY_D, NEVER, NEVER, ONLY_C))], "as_c", "deny",
     [("deny", "a/q", 2), ("allow", "a/r", 3)]),
    ("the same rules of another peer", ["WORKLOAD", policies(
        one("1", "q", "DENY", NEVER, ONLY_D, ONLY_C, ALL), one("2", "r", "ALLOW", ONLY_D, NEVER, NEVER, ONLY_C))], "as_d", "deny",
     [("deny", "a/q", 1), ("allow", "a/r", 0)]),
    ("the twelfth rule", ["WORKLOAD", policies(one("1", "q", "DENY", *[NEVER] * 11, ALL))], "as_none", "deny", [("deny", "a/q", 11)]),
    ("a policy without a namespace, and one without a name", ["WORKLOAD", policies(
        one("1", "q", "ALLOW", ALL, namespace=""), one("2", "", "ALLOW"), one("3", "", "ALLOW", namespace=""))], "as_c", "allow",
     [("allow", "/q", 0), ("allow", "a/", None), ("allow", "/", None)]),
    ("a policy that two resources have", ["WORKLOAD", policies(one("1", "q", "DENY", ONLY_D), one("2", "q", "DENY", ONLY_C))], "as_c", "deny",
     [("deny", "a/q", None), ("deny", "a/q", 0)]),
    ("marks that JSON escapes", ["WORKLOAD", policies(one("1", ODD, "DENY", ALL, namespace="\u00e9"))], "as_c", "deny", [("deny", f"\u00e9/{ODD}", 0)]),
    ("a policy that was removed", ["WORKLOAD", "DENY_ALL", "ALLOW_ONE", response(AUTHORIZATION, [], span(6, "d"))], "as_c", "allow",
     [("allow", "a/p", 0)]),
]


def by_hand(table):
    for title, messages, words, answer, told in BY_HAND:
        words = getattr(run_table, words.upper())
        lines = [answer, *(line(action=action, policy=name, **({"fires": False} if rule is None else {"fires": True, "rule": rule}))
                           for action, name, rule in told)]
        if printed(messages, words) != lines:
            sys.exit(f"{title}: {printed(messages, words)}, and by hand {lines}")
        put(table, title, messages, [(explained(words), lines), (words, [answer])])
    # the flag in its other places, and where it isn't one
    put(table, "the flag in each place", ["WORKLOAD", "DENY_ALL"], [
        (words, ["deny", line(action="deny", fires=True, policy="/d", rule=0)]) for words in (
            "check --node n1 --explain 10.0.0.9 none 10.0.0.7:8080", "check --node n1 10.0.0.9 none 10.0.0.7:8080 --explain",
            "check 10.0.0.9 --explain none --node=n1 10.0.0.7:8080")])
    for title, messages, why in [("a message that is cut short", ["WORKLOAD", "DENY_ALL", "00"], "message 3: cut short"),
                                 ("no response", ["0000000000"], "message 1: not a response")]:
        table.begin(title)
        table.octets(" ".join(messages))
        table.wanted(3, f"hbone: {why}\n")
        table.run(explained(run_table.AS_C))
    for why, asked in [("--explain stands twice", "check --explain --node n1 10.0.0.9 none 10.0.0.7:8080 --explain"),
                       ("--explain takes no value", "check --explain=yes --node n1 10.0.0.9 none 10.0.0.7:8080"),
                       ("unknown option '--explained'", "check --explained --node n1 10.0.0.9 none 10.0.0.7:8080"),
                       ("unknown option '--explain'", "show --explain")]:
        table.begin(f"words: {why}")
        table.source("/")
        table.wanted(2, f"hbone: words: {why} (see hbone {asked.split()[0]} --help)\n")
        table.run(asked)


HEAD = ["What `check --explain` prints. bench/tables/explain_rows.py prints this file: the rows of attributes.runs and policies.runs as a second",
        "evaluator explains them, and rows that were worked out by hand."]
ASKED = {f"connection{at}": f"{EXPLAINED} {' '.join(connection)}" for at, connection in enumerate(attribute_rows.CONNECTIONS, 1)}
PARTS = {**MESSAGES, **ASKED, **{name: explained(words) for name, words in policy_rows.ASKED.items()}}
# Ends of lines that stand in most rows
PARTS.update(p0_fires='{"action":"allow","fires":true,"policy":"a/p0","rule":0}', p0_rests='{"action":"allow","fires":false,"policy":"a/p0"}')


def main():
    table = run_table.Table(HEAD, PARTS)
    by_hand(table)
    by_hand_answers(table)
    attributes(table)
    table.print()


if __name__ == "__main__":
    main()
