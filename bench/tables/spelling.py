"""Spells discovery messages and their records, for the scripts beside this one."""

ADDRESS = b"type.googleapis.com/istio.workload.Address"
AUTHORIZATION = b"type.googleapis.com/istio.security.Authorization"


def varint(n):
    out = b""
    while n > 127:
        out += bytes([n % 128 + 128])
        n //= 128
    return out + bytes([n])


def span(number, content):
    if isinstance(content, str):
        content = content.encode()
    return varint(number * 8 + 2) + varint(len(content)) + content


def text(number, content):
    return span(number, content) if content else b""


def number(field, n):
    return varint(field * 8) + varint(n) if n else b""


# String matches.


def exact(s):
    return span(1, s)


def prefix(s):
    return span(2, s)


def suffix(s):
    return span(3, s)


PRESENCE = span(4, "")


# A match is (principals, not_principals); a clause is a list of matches, a rule a list of clauses.


def match(positive, negative):
    return b"".join(span(3, v) for v in positive) + b"".join(span(4, v) for v in negative)


def rule(clauses):
    return b"".join(span(2, b"".join(span(2, match(*m)) for m in clause)) for clause in clauses)


SCOPES = {"GLOBAL": 0, "NAMESPACE": 1, "SELECTOR": 2}
ACTIONS = {"ALLOW": 0, "DENY": 1}


def policy(namespace, name, scope, action, rules):
    return (
        text(1, name)
        + text(2, namespace)
        + number(3, SCOPES[scope])
        + number(4, ACTIONS[action])
        + b"".join(span(5, rule(r)) for r in rules)
    )


def workload(name, namespace, ips, node, listed, *more):
    """An address record: a workload, with more fields."""
    return span(
        1,
        text(1, name)
        + text(2, namespace)
        + b"".join(span(3, bytes(ip)) for ip in ips)
        + text(9, node)
        + b"".join(span(16, x) for x in listed)
        + b"".join(more),
    )


def resource(type_url, name, value, more=b"", version="1"):
    """The field of a response with a resource, which has more fields."""
    return span(2, span(1, version) + span(2, span(1, type_url) + span(2, value)) + span(3, name) + more)


def grpc(message):
    return b"\0" + len(message).to_bytes(4, "big") + message


def response(type_url, resources, *more):
    """A response with these resources, its type, and more bytes."""
    return grpc(b"".join(resource(type_url, n, v) for n, v in resources) + span(4, type_url) + b"".join(more))


def addresses(*resources):
    return response(ADDRESS, resources)


def policies(*resources):
    return response(AUTHORIZATION, resources)


def fields_of(message):
    """The length-delimited fields of a message, each with its number, in order."""

    def varint_at(at):
        n = shift = 0
        while True:
            n |= (message[at] & 127) << shift
            shift, at = shift + 7, at + 1
            if message[at - 1] < 128:
                return n, at

    at = 0
    while at < len(message):
        tag, at = varint_at(at)
        if tag % 8 == 2:
            size, at = varint_at(at)
            yield tag // 8, message[at : at + size]
            at += size
        elif tag % 8 == 0:
            _, at = varint_at(at)
        else:
            at += 8 if tag % 8 == 1 else 4


def spans(message):
    """The length-delimited fields of a message, by number; the last of a number counts."""
    return dict(fields_of(message))


def shown(messages):
    """Messages, or names of them, in digits, in which the two types stand by name."""
    text = " ".join(m if isinstance(m, str) else m.hex() for m in messages)
    for name, url in (("ADDRESS_TYPE", ADDRESS), ("POLICY_TYPE", AUTHORIZATION)):
        text = text.replace(url.hex(), f" {name} ")
    return " ".join(text.split())


# The messages that most tables name, each a delta discovery response, and the two types.

_A, _P = ADDRESS.hex(), AUTHORIZATION.hex()
_WEB = "0a03776562 120161 1a040a000007 2801 4a026e31 820103612f70 a201027531"
MESSAGES = {
    "address_type": _A,
    "policy_type": _P,
    # `x1` with the workload u1 of version 1: `web` of namespace `a` with the address 10.0.0.7, HBONE, on node n1; it names the policy a/p
    "workload": f"000000008a 1258 0a0131 124f 0a2a {_A} 1221 0a1f {_WEB} 1a027531 222a {_A} 2a027831",
    # u1 of two addresses, 10.0.0.7 and 2001:db8::7, on node n1
    "dual_stack": f"000000008b 125d 0a0131 1254 0a2a {_A} 1226 0a24 0a03776562 120161 1a040a000007 1a1020010db8000000000000000000000007"
                  f" 4a026e31 1a027531 222a {_A}",
    # `x2` with the policy a/p: an ALLOW for workloads that name it, which fires for the principal cluster.local/ns/a/sa/c
    "allow_one": f"000000009f 1267 0a0131 125d 0a30 {_P} 1229 0a0170 120161 1802 2a1f 121d 121b 1a19 0a17"
                 f" 636c75737465722e6c6f63616c2f6e732f612f73612f63 1a03612f70 2230 {_P} 2a027832",
    # `x4` with the policy e: an ALLOW for all of the mesh without rules, which never fires
    "allow_none": f"0000000077 123f 0a0131 1237 0a30 {_P} 1203 0a0165 1a0165 2230 {_P} 2a027834",
    # `x3` with the policy d: a DENY for all of the mesh with a rule without clauses, which fires for every connection
    "deny_all": f"000000007b 1243 0a0131 123b 0a30 {_P} 1207 0a016420012a00 1a0164 2230 {_P} 2a027833",
    # `x6`, which removes the name u1 and adds it
    "removed_and_added": f"000000008e 1258 0a0131 124f 0a2a {_A} 1221 0a1f {_WEB} 1a027531 222a {_A} 2a027836 32027531",
}
MESSAGES = {name: text.replace(" ", "") for name, text in MESSAGES.items()}
