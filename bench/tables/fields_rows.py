#!/usr/bin/env python3
"""Prints tests/show/fields.runs: the rows of show_rows.py, of refusal_rows.py and of attribute_rows.py with what `show --fields` prints.

    python3 bench/tables/fields_rows.py > tests/show/fields.runs

The line of a resource that is held has a member `fields` more: the record's fields by Istio's names, in camel case, of which those that
are empty are left out. The printer here reads the record that the line has in digits, by the reader of replay_model.py beside it, and
shares nothing with the program. The rows of a record of all fields, and of one of none, were worked out by hand too.
"""
import ipaddress
import json
import sys

import attribute_rows
import refusal_rows
import run_table
import show_rows
from replay_model import ADDRESS_RECORD
from replay_model import AUTHORIZATION as POLICY
from shown_lines import addresses_came, line, policies_came, policy_line, workload_line
from spelling import *

# The printer


def there(**members):
    """The members that aren't empty."""
    return {name: value for name, value in members.items() if value not in ("", 0, [], {}, None)}


def ip_text(ip):
    """An address by RFC 5952, also one of IPv6 into which an IPv4 address is mapped."""
    if ip.version == 6 and ip.ipv4_mapped:
        return "::ffff:{:x}:{:x}".format(*divmod(int(ip) & 0xffffffff, 65536))
    return str(ip)


def address_text(octets):
    ip = ipaddress.ip_address(octets)
    return ip_text(getattr(ip, "ipv4_mapped", None) or ip)


def of_network(record):
    return f"{record.get(1, '')}/{address_text(record[2])}"


def prefix_text(record):
    ip, length = ipaddress.ip_address(record[1]), record.get(2, 0)
    if ip.version == 6 and ip.ipv4_mapped and length >= 96:
        ip, length = ip.ipv4_mapped, length - 96
    return f"{ip_text(ip)}/{length}"


def string_text(record):
    [(kind, value)] = record.items()
    return {1: value, 2: f"{value}*", 3: f"*{value}", 4: "*"}[kind]


def waypoint(record):
    if record is None:
        return None
    to = f"{record[1].get(1, '')}/{record[1].get(2, '')}" if 1 in record else of_network(record[2])
    return {"destination": to, **there(hboneMtlsPort=record.get(3, 0))}


def ports(records):
    return [{"servicePort": record.get(1, 0), **there(targetPort=record.get(2, 0))} for record in records]


def workload_fields(record):
    services = {entry.get(1, ""): ports(entry.get(2, {}).get(1, [])) for entry in record.get(22, [])}
    always = {"protocol": "HBONE" if record.get(5) == 1 else "TCP", "status": "Unhealthy" if record.get(17) else "Healthy"}
    return always | there(
        addresses=[*map(address_text, record.get(3, []))], authorizationPolicies=record.get(16, []), hostname=record.get(21, ""),
        name=record.get(1, ""), namespace=record.get(2, ""), network=record.get(4, ""), node=record.get(9, ""),
        serviceAccount=record.get(7, ""), services=services, trustDomain=record.get(6, ""), uid=record.get(20, ""),
        waypoint=waypoint(record.get(8)))


def service_fields(record):
    return there(addresses=[*map(of_network, record.get(4, []))], hostname=record.get(3, ""), name=record.get(1, ""),
                 namespace=record.get(2, ""), ports=ports(record.get(5, [])), waypoint=waypoint(record.get(7)))


LISTS = [("namespaces", "notNamespaces", string_text), ("principals", "notPrincipals", string_text), ("sourceIps", "notSourceIps", prefix_text),
         ("destinationIps", "notDestinationIps", prefix_text), ("destinationPorts", "notDestinationPorts", int)]


def match_fields(record):
    names = [(name, told) for positive, negative, told in LISTS for name in (positive, negative)]
    return there(**{name: [*map(told, record.get(at, []))] for at, (name, told) in enumerate(names, 1)})


def policy_fields(record):
    rules = [[[match_fields(match) for match in clause.get(2, [])] for clause in rule.get(2, [])] for rule in record.get(5, [])]
    always = {"action": ("ALLOW", "DENY")[record.get(4, 0)], "scope": ("GLOBAL", "NAMESPACE", "WORKLOAD_SELECTOR")[record.get(3, 0)]}
    return always | there(name=record.get(1, ""), namespace=record.get(2, ""), rules=rules)


def fields(kind, octets):
    if kind == "policy":
        return policy_fields(POLICY.read(octets))
    record = ADDRESS_RECORD.read(octets)
    return workload_fields(record[1]) if kind == "workload" else service_fields(record[2])


def with_fields(text):
    """A line of `show`, with the fields where it is that of a resource held."""
    members = json.loads(text)
    assert line(**members) == text
    return line(**members, fields=fields(members["kind"], bytes.fromhex(members["record"]))) if "record" in members else text


# Rows

ALL_WORKLOAD = ('{"addresses":["10.0.0.7","2001:db8::7"],"authorizationPolicies":["a/p",""],"hostname":"host","name":"web","namespace":"a",'
                '"network":"x","node":"n2","protocol":"HBONE","serviceAccount":"sa","services":{"":[{"servicePort":80}],"a/s":['
                '{"servicePort":80,"targetPort":8080},{"servicePort":0}],"b/s":[]},"status":"Unhealthy","trustDomain":"td","uid":"uid",'
                '"waypoint":{"destination":"a/way","hboneMtlsPort":15008}}')
ALL_SERVICE = ('{"addresses":["x/10.1.0.1","/2001:db8::7"],"hostname":"s.a","name":"s","namespace":"a","ports":[{"servicePort":80,'
               '"targetPort":8080},{"servicePort":0}],"waypoint":{"destination":"x/10.0.0.15","hboneMtlsPort":15008}}')
ALL_POLICY = ('{"action":"DENY","name":"p","namespace":"a","rules":[[[{"destinationIps":["::/128"],"destinationPorts":[80,443],'
              '"namespaces":["a"],"notDestinationIps":["::ffff:0:0/95"],"notDestinationPorts":[0],"notNamespaces":["b*"],'
              '"notPrincipals":["*"],"notSourceIps":["0.0.0.0/0"],"principals":["*/sa/c"],"sourceIps":["10.0.0.7/8"]}]]],'
              '"scope":"WORKLOAD_SELECTOR"}')
# Of a row of show_rows.py the fields by hand
BY_HAND = {
    "a workload of no fields": '{"protocol":"TCP","status":"Healthy"}', "a workload of all fields": ALL_WORKLOAD,
    "a service of no fields": "{}", "a service of all fields": ALL_SERVICE,
    "a policy of no fields": '{"action":"ALLOW","scope":"GLOBAL"}', "a policy of all fields": ALL_POLICY,
    "rules, clauses and matches of no fields": '{"action":"ALLOW","rules":[[],[[]],[[{}]]],"scope":"GLOBAL"}',
    "a waypoint by its address": '{"protocol":"TCP","status":"Healthy","waypoint":{"destination":"x/10.0.0.7","hboneMtlsPort":15008}}',
    "a waypoint by a hostname of no fields": '{"protocol":"TCP","status":"Healthy","waypoint":{"destination":"/"}}',
}


def canonical(value):
    """A prefix as it is kept: a mapped one of 96 bits or more is one of IPv4."""
    ip, _, length = value.partition("/")
    mapped = getattr(ipaddress.ip_address(ip), "ipv4_mapped", None)
    return f"{mapped}/{int(length) - 96}" if mapped and int(length) >= 96 else value


def kept(match):
    return {name: [canonical(value) if isinstance(value, str) else value for value in values] for name, values in match.items()}


def of_attributes():
    """The policies of attribute_rows.py, with the lines that `show` has of them."""
    held = workload_line("u1", WORKLOAD_OF_BOTH, ["10.0.0.7", "2001:db8::7"], node="n1")
    for place, (title, listed, _) in enumerate(attribute_rows.rows()):
        sent = [attribute_rows.spelled_policy(f"p{i}", *p, place % 2 == 0) for i, p in enumerate(listed)]
        keeps = [attribute_rows.spelled_policy(f"p{i}", action, [[[kept(m) for m in c] for c in r] for r in rules], True)
                 for i, (action, rules) in enumerate(listed)]
        lines = [policy_line(name, record, action.lower(), "global") for (name, record), (action, _) in zip(keeps, listed)]
        yield f"attributes: {title}", ["DUAL_STACK", policies(*sent)], [addresses_came(1), policies_came(len(listed)), held, *lines]


# The workload of DUAL_STACK
WORKLOAD_OF_BOTH = span(1, bytes.fromhex("0a03776562 120161 1a040a000007 1a1020010db8000000000000000000000007 4a026e31"))
HEAD = ["What `show --fields` prints. bench/tables/fields_rows.py prints this file: a second printer tells the fields of each record, those of some",
        "worked out by hand too."]


def put(table, title, messages, lines):
    table.begin(title)
    table.octets(shown(messages))
    table.run("show --fields", 0, "".join(each + "\n" for each in lines))


def main():
    table = run_table.Table(HEAD, MESSAGES)
    for title, messages, lines in show_rows.ROWS + show_rows.TEXT_ROWS:
        lines = [*map(with_fields, lines)]
        by_hand = BY_HAND.get(title)
        if by_hand and f'"fields":{by_hand},' not in lines[-1]:
            sys.exit(f"{title}: {lines[-1]}, and by hand {by_hand}")
        put(table, title, messages, lines)
    for title, messages, lines in refusal_rows.SHOWN:
        put(table, f"refused: {title}", messages, [*map(with_fields, lines)])
    for title, messages, lines in of_attributes():
        put(table, title, messages, [*map(with_fields, lines)])
    table.begin("a message that is cut short behind a good one")
    table.octets("WORKLOAD 00")
    table.wanted(3, "hbone: message 2: cut short\n")
    table.run("show --fields")
    for words, why in [("show --fields --fields", "--fields stands twice"), ("show --fields=yes", "--fields takes no value"),
                       ("show --field", "unknown option '--field'"), ("show fields", "unexpected word 'fields'"),
                       ("check --fields --node n1 10.0.0.9 none 10.0.0.7:8080", "unknown option '--fields'")]:
        table.begin(f"words: {words}")
        table.source("/")
        table.wanted(2, f"hbone: words: {why} (see hbone {words.split()[0]} --help)\n")
        table.run(words)
    table.print()


if __name__ == "__main__":
    main()
