#!/usr/bin/python3
"""Prints the rows of crates/hb_tunnels_rows/src/requests.rt: header lists of requests, and what each asks for, as a reader tells it that
was written from RFC 9113 sections 8.1.1, 8.2.1, 8.3 and 8.5.

usage: bench/tables/verdict_rows.py
"""

import ipaddress
import re

C, A = ":method=CONNECT", ":authority=10.0.0.7:8080"
G, S, P = ":method=GET", ":scheme=http", ":path=/"

LISTS = [
    # tunnels, with other headers behind and without
    [C, A], [A, C], [C, A, "user-agent=curl"], [C, A, "x-y=", "x-y=2"], [C, A, "baggage=a=b"], [C, A, "forwarded=for=1,by=2"],
    # no request: no method, a pseudo-header twice, behind another, of a response or unknown
    [], [A], ["user-agent=x"], [C, C, A], [C, A, A], [G, S, S, P], [G, P, P], [C, "x=1", A], ["x=1", C, A], [C, A, "x=1", "y=2", A],
    [C, A, ":status=200"], [":status=200"], [C, A, ":protocol=websocket"], [C, A, ":=1"], [":METHOD=CONNECT", A],
    # names
    [C, A, "=1"], ["=", C, A], [C, A, "X=1"], [C, A, "xY=1"], [C, A, "x-Z=1"], [C, A, "x@=1"], [C, A, "x[=1"], [C, A, "x_1{}~=1"],
    # a tunnel is asked for by the authority alone
    [C], [C, S, P], [C, A, S], [C, A, P], [C, A, S, P], [C, "host=10.0.0.7:8080"],
    # other methods
    [G, S, P], [G, A, S, P], [G], [G, A], [":method=", A], [":method=connect", A], [":method=CONNECT ", A], [":method=CONNEC", A],
    [":method=OPTIONS", S, ":path=*"], [":method=POST", S, A, P, "te=trailers"], [G, "x=1", S], [G, "X=1"],
    # authorities
    [C, ":authority="], [C, ":authority=10.0.0.7"], [C, ":authority=10.0.0.7:"], [C, ":authority=10.0.0.7:0"],
    [C, ":authority=10.0.0.7:65535"], [C, ":authority=10.0.0.7:65536"], [C, ":authority=10.0.0.7:00080"], [C, ":authority=10.0.0.7:000080"],
    [C, ":authority=10.0.0.8:8080"], [C, ":authority=10.0.0.07:80"], [C, ":authority=web:80"], [C, ":authority=[::ffff:10.0.0.7]:80"],
    [C, ":authority=[::ffff:a00:7]:80"], [C, ":authority=::ffff:10.0.0.7:80"], [C, ":authority=[::7]:80"], [C, ":authority=10.0.0.7:80:80"],
    [C, ":authority= 10.0.0.7:80"], [C, ":authority=user@10.0.0.7:80"], [C, ":authority=10.0.0.7:8x"],
]
# requests on a link to an IPv6 address
WIDE = [[C, ":authority=[2001:db8::1]:443"], [C, ":authority=[2001:DB8:0::1]:443"], [C, ":authority=[2001:db8::2]:443"], [C, A]]
# sizes that SETTINGS_MAX_HEADER_LIST_SIZE lets through, and those that it doesn't, whatever the headers are
SIZES = [(16384, [C, A]), (16385, [C, A]), (16385, []), (16384, []), (18446744073709551615, [G])]


def size_of(headers):
    return sum(len(n) + len(v) + 32 for n, v in headers)


def target(text):
    cut = re.fullmatch(r"\[([^\]]*)\]:(.*)", text) if text.startswith("[") else re.fullmatch(r"(.*):([^:]*)", text)
    if not cut or not re.fullmatch(r"[0-9]{1,5}", cut[2]) or not 1 <= int(cut[2]) <= 65535:
        return None
    try:
        ip = (ipaddress.IPv6Address if text.startswith("[") else ipaddress.IPv4Address)(cut[1])
    except ValueError:
        return None
    return getattr(ip, "ipv4_mapped", None) or ip, int(cut[2])


def asks(size, headers, destination):
    names = [name for name, _ in headers]
    if size > 16384:
        return "431"
    pseudo = [name for name in names if name[:1] == ":"]
    if any(name == "" or any("A" <= c <= "Z" for c in name) for name in names):
        return "malformed"
    if names[: len(pseudo)] != pseudo or len(set(pseudo)) != len(pseudo):
        return "malformed"
    if not {":method"} <= set(pseudo) <= {":method", ":scheme", ":authority", ":path"}:
        return "malformed"
    fields = dict(headers)
    if fields[":method"] != "CONNECT":
        return "405"
    if set(pseudo) != {":method", ":authority"}:
        return "malformed"
    to = target(fields[":authority"])
    return f"port {to[1]}" if to and to[0] == ipaddress.ip_address(destination) else "400"


def row(headers, destination="10.0.0.7", size=None):
    pairs = [tuple(h.split("=", 1)) for h in headers]
    size = size_of(pairs) if size is None else size
    return f"{destination} {size} {'; '.join(headers)} -> {asks(size, pairs, destination)}"


def main():
    rows = [row(h) for h in LISTS] + [row(h, "2001:db8::1") for h in WIDE] + [row(h, size=n) for n, h in SIZES]
    print('const ROWS: &str = "\\\n' + "\n".join(rows) + '";')


main()
