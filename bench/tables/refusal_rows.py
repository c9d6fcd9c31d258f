#!/usr/bin/env python3
"""Prints tests/show/refusals.runs: messages in hexadecimal digits, and the number and reason of the refused one; and messages
with resources that are refused, and what `show` prints of them.

    python3 bench/tables/refusal_rows.py > tests/show/refusals.runs

The script only spells the messages and the lines. Every number and reason stands in its row and was worked out by hand.

A message is refused for the first of these that applies: `compressed`, its first byte isn't 0; `too long`, the length in its next four is
above 67,108,864; `cut short`, the input ends before it is whole; `not a response`, its bytes are no fields, a string in it isn't UTF-8, or
its type is neither of the two. Of the messages the first one that is refused counts.

A response removes names first, and then its resources are looked at in their order. One is refused for the first of these that applies:
it has no name, its type isn't the response's, its record has a fault (the first in order of its bytes, depth first). A refused resource
leaves what is held under its name.
"""

import run_table
from shown_lines import *
from spelling import *

SEVEN = (10, 0, 0, 7)
GOOD = workload("w", "a", [SEVEN], "n1", [])
U1 = addresses(("u1", GOOD))
NOT_UTF8 = b"\xff"
COMPRESSED = "compressed"
TOO_LONG = "too long"
CUT_SHORT = "cut short"
NO_RESPONSE = "not a response"


def record(bytes_):
    """A message with one address record of these bytes."""
    return addresses(("u1", bytes_))


def of_workload(*fields):
    return record(span(1, b"".join(fields)))


def of_service(*fields):
    return record(span(2, b"".join(fields)))


def of_policy(bytes_):
    """A message with one policy of these bytes."""
    return policies(("p", bytes_))


def of_match(*fields):
    return of_policy(span(5, span(2, span(2, b"".join(fields)))))


def of_resource(*fields):
    """A message with one resource of these fields."""
    return grpc(span(2, b"".join(fields)) + span(4, ADDRESS))


def any_of(type_url, value):
    return span(2, span(1, type_url) + span(2, value))


def of_response(*fields):
    return grpc(b"".join(fields))


TYPE = span(4, ADDRESS)
NAME = span(3, "u1")
RECORD = any_of(ADDRESS, GOOD)

WHOLE = bytes.fromhex(
    "000000008a12580a0131124f0a2a" + ADDRESS.hex() + "12210a1f0a03776562120161 1a040a0000072801 4a026e31 820103612f70 a201027531"
    "1a027531222a" + ADDRESS.hex() + "2a027831"
)

# Title, messages, the number of the refused message, and why.
ROWS = [
    # Messages that aren't whole.
    ("one byte", [b"\0"], 1, CUT_SHORT),
    ("a front of the first five bytes", [b"\0\0\0\0"], 1, CUT_SHORT),
    ("a message of no bytes", [b"\0\0\0\0\0"], 1, NO_RESPONSE),
    ("the last byte is missing", [WHOLE[:-1]], 1, CUT_SHORT),
    ("the first byte is missing", [WHOLE[1:]], 1, CUT_SHORT),
    ("one byte more", ["WORKLOAD", b"\0"], 2, CUT_SHORT),
    ("a front of a second message", ["WORKLOAD", WHOLE[:-1]], 2, CUT_SHORT),
    ("a length of one less", [WHOLE[:4] + bytes([WHOLE[4] - 1]) + WHOLE[5:]], 1, NO_RESPONSE),
    ("a length of one more", [WHOLE[:4] + bytes([WHOLE[4] + 1]) + WHOLE[5:]], 1, CUT_SHORT),
    ("the length in the other order of bytes", [b"\0" + WHOLE[4:0:-1] + WHOLE[5:]], 1, TOO_LONG),
    ("flag 1", [b"\1" + WHOLE[1:]], 1, COMPRESSED),
    ("flag 2", [b"\2" + WHOLE[1:]], 1, COMPRESSED),
    ("flag 255", [b"\xff" + WHOLE[1:]], 1, COMPRESSED),
    ("flag 1 in the second message", ["WORKLOAD", b"\1" + WHOLE[1:]], 2, COMPRESSED),
    ("a length of 67,108,864, cut short", [b"\0\4\0\0\0" + WHOLE[5:]], 1, CUT_SHORT),
    ("a length of 67,108,865", [b"\0\4\0\0\1" + WHOLE[5:]], 1, TOO_LONG),
    ("the greatest length", [b"\0\xff\xff\xff\xff" + WHOLE[5:]], 1, TOO_LONG),
    # What is told by the first byte, by the fifth, and by the end.
    ("flag 1 alone", [b"\1"], 1, COMPRESSED),
    ("flag 1 alone behind a good message", ["WORKLOAD", b"\1"], 2, COMPRESSED),
    ("flag 1 in front of the greatest length", [b"\1\xff\xff\xff\xff"], 1, COMPRESSED),
    ("a length of 67,108,865 alone", [b"\0\4\0\0\1"], 1, TOO_LONG),
    ("a length of 67,108,865 alone behind a good message", ["WORKLOAD", b"\0\4\0\0\1"], 2, TOO_LONG),
    ("a length of 67,108,865 without its last byte", [b"\0\4\0\0"], 1, CUT_SHORT),
    ("the greatest length without its last byte", [b"\0\xff\xff\xff"], 1, CUT_SHORT),
    ("a length of 67,108,864 alone", [b"\0\4\0\0\0"], 1, CUT_SHORT),
    ("a message cut short whose bytes are no response", [b"\0\0\0\0\3\0\0"], 1, CUT_SHORT),
    ("no response, and then flag 1", [b"\0\0\0\0\0", b"\1"], 1, NO_RESPONSE),
    ("no response, and then one byte", [b"\0\0\0\0\0", b"\0"], 1, NO_RESPONSE),
    # Whole messages that are no response.
    ("an unknown type", [response(b"type.googleapis.com/istio.workload.Workload", [])], 1, NO_RESPONSE),
    ("an unknown type with resources", [response(b"x", [("u1", GOOD)])], 1, NO_RESPONSE),
    ("a front of a type", [response(ADDRESS[:-1], [("u1", GOOD)])], 1, NO_RESPONSE),
    ("a type and one byte more", [response(ADDRESS + b"/", [("u1", GOOD)])], 1, NO_RESPONSE),
    ("no type", [of_response(span(2, NAME + RECORD))], 1, NO_RESPONSE),
    ("an empty type", [response(b"", [("u1", GOOD)])], 1, NO_RESPONSE),
    ("an unknown type behind a known one", [of_response(TYPE, span(4, "x"))], 1, NO_RESPONSE),
    ("the type under another wire type", [of_response(number(4, 1))], 1, NO_RESPONSE),
    ("the type as the nonce", [of_response(span(5, ADDRESS))], 1, NO_RESPONSE),
    ("bad UTF-8 in the version of the system", [of_response(span(1, NOT_UTF8), TYPE)], 1, NO_RESPONSE),
    ("bad UTF-8 in the first of two versions of the system", [of_response(span(1, NOT_UTF8), span(1, "x"), TYPE)], 1, NO_RESPONSE),
    ("bad UTF-8 in the first of two types", [of_response(span(4, NOT_UTF8), TYPE)], 1, NO_RESPONSE),
    ("bad UTF-8 in the nonce", [of_response(TYPE, span(5, NOT_UTF8))], 1, NO_RESPONSE),
    ("bad UTF-8 in a removed name", [of_response(TYPE, span(6, NOT_UTF8))], 1, NO_RESPONSE),
    ("bad UTF-8 in a resource's version", [of_resource(span(1, NOT_UTF8), NAME, RECORD)], 1, NO_RESPONSE),
    ("bad UTF-8 in a resource's name", [of_resource(span(3, NOT_UTF8), RECORD)], 1, NO_RESPONSE),
    ("bad UTF-8 in the type of a resource's record", [of_resource(NAME, any_of(NOT_UTF8, GOOD))], 1, NO_RESPONSE),
    ("a text of UTF-8 that is cut", [of_response(TYPE, span(5, b"\xc3"))], 1, NO_RESPONSE),
    ("a text of UTF-8 that is too long for its character", [of_response(TYPE, span(5, b"\xc0\x80"))], 1, NO_RESPONSE),
    ("a surrogate in UTF-8", [of_response(TYPE, span(5, b"\xed\xa0\x80"))], 1, NO_RESPONSE),
    ("a tag of number 0", [of_response(TYPE, b"\x00")], 1, NO_RESPONSE),
    ("wire type 3", [of_response(TYPE, b"\x1b")], 1, NO_RESPONSE),
    ("wire type 4", [of_response(TYPE, b"\x1c")], 1, NO_RESPONSE),
    ("wire type 6", [of_response(TYPE, b"\x1e\x00")], 1, NO_RESPONSE),
    ("wire type 7", [of_response(TYPE, b"\x1f\x00")], 1, NO_RESPONSE),
    ("a tag without a value", [of_response(TYPE, b"\x18")], 1, NO_RESPONSE),
    ("a span that is cut short", [of_response(TYPE, b"\x2a\x02x")], 1, NO_RESPONSE),
    ("eight bytes that are cut short", [of_response(TYPE, b"\x19\0\0\0\0\0\0\0")], 1, NO_RESPONSE),
    ("four bytes that are cut short", [of_response(TYPE, b"\x1d\0\0\0")], 1, NO_RESPONSE),
    ("a number of eleven bytes", [of_response(TYPE, b"\x18" + b"\xff" * 10 + b"\1")], 1, NO_RESPONSE),
    ("a number whose tenth byte is 2", [of_response(TYPE, b"\x18" + b"\xff" * 9 + b"\2")], 1, NO_RESPONSE),
    ("a wire fault in a resource", [of_resource(NAME, RECORD, b"\x00")], 1, NO_RESPONSE),
    ("a wire fault beside a resource's record", [of_resource(NAME, span(2, span(1, ADDRESS) + span(2, GOOD) + b"\x1b"))], 1, NO_RESPONSE),
    ("no response in the second message", ["WORKLOAD", response(b"x", [])], 2, NO_RESPONSE),
    # Places and order.
    ("a bad record, and then no response", [record(b""), b"\xff"], 2, COMPRESSED),
    ("no response, and then a bad record", [response(b"x", []), record(b"")], 1, NO_RESPONSE),
    ("a good message behind no response", [response(b"x", []), U1], 1, NO_RESPONSE),
    ("a good message, a bad record, and then no response", [U1, record(b""), response(b"x", []), b"\1"], 3, NO_RESPONSE),
    ("a good message, no response, and then a bad record", [U1, b"\0\0\0\0\0", record(b"")], 2, NO_RESPONSE),
    ("a bad record, and an unknown type behind it", [response(b"x", [("u1", b"")])], 1, NO_RESPONSE),
    ("a removed name, and a wire fault behind it", [of_response(TYPE, span(6, "u1"), b"\x00")], 1, NO_RESPONSE),
    ("a resource without a name, and bad UTF-8 behind it", [of_response(span(2, RECORD), TYPE, span(5, NOT_UTF8))], 1, NO_RESPONSE),
    ("a bad record, and then a message cut short", [record(b""), U1[:-1]], 2, CUT_SHORT),
    ("a removed name, and then a length that is too long", ["WORKLOAD", of_response(TYPE, span(6, "u1")), b"\0\4\0\0\1"], 3, TOO_LONG),
]


def good_line(name):
    return workload_line(name, GOOD, ["10.0.0.7"], node="n1")


# Title, messages, and the lines: of each message what was applied, refused and removed, and then what is held. A place is counted in the
# record; of a field, the number under which it stands in its own message, of a member that is missing and of a prefix without an address
# the number of the message in which it is missing.
SHOWN = [
    ("a name is removed and added in the second message", ["WORKLOAD", "REMOVED_AND_ADDED"], [addresses_came(1, nonce="x1"), addresses_came(1, removed=1, nonce="x6"), HELD]),
    # Responses that remove names, of which none is held.
    ("a removed name", [of_response(TYPE, span(6, "u1"))], [addresses_came(0)]),
    ("a removed name of no bytes", [of_response(TYPE, span(6, ""))], [addresses_came(0)]),
    ("a removed policy", [of_response(span(4, AUTHORIZATION), span(6, "p"))], [policies_came(0)]),
    ("a name that is removed before the type", [of_response(span(6, "u1"), TYPE)], [addresses_came(0)]),
    # Names and types of resources.
    ("an empty name", [addresses(("", GOOD))], [addresses_came(0, ("", "no name"))]),
    ("no name", [of_resource(RECORD)], [addresses_came(0, ("", "no name"))]),
    ("a name and then an empty one", [of_resource(NAME, RECORD, span(3, ""))], [addresses_came(0, ("", "no name"))]),
    ("a resource of the other type", [of_resource(NAME, any_of(AUTHORIZATION, GOOD))], [addresses_came(0, ("u1", "wrong type"))]),
    ("a resource of an unknown type", [of_resource(NAME, any_of("x", GOOD))], [addresses_came(0, ("u1", "wrong type"))]),
    ("a resource without a type", [of_resource(NAME, span(2, span(2, GOOD)))], [addresses_came(0, ("u1", "wrong type"))]),
    ("a resource without a record", [of_resource(NAME)], [addresses_came(0, ("u1", "wrong type"))]),
    ("a policy in a response of addresses", [of_resource(NAME, any_of(AUTHORIZATION, policy("a", "p", "GLOBAL", "ALLOW", [])))], [addresses_came(0, ("u1", "wrong type"))]),
    ("an address in a response of policies", [of_response(span(2, NAME + RECORD), span(4, AUTHORIZATION))], [policies_came(0, ("u1", "wrong type"))]),
    # Records that can't be read.
    ("an address record of no bytes", [record(b"")], [addresses_came(0, ("u1", "no kind in field 0"))]),
    ("an address of no octets", [of_workload(span(3, ""))], [addresses_came(0, ("u1", "bad ip in field 3"))]),
    ("an address of three octets", [of_workload(span(3, b"\x0a\0\0"))], [addresses_came(0, ("u1", "bad ip in field 3"))]),
    ("an address of five octets", [of_workload(span(3, b"\x0a\0\0\7\0"))], [addresses_came(0, ("u1", "bad ip in field 3"))]),
    ("an address of 17 octets", [of_workload(span(3, b"\0" * 17))], [addresses_came(0, ("u1", "bad ip in field 3"))]),
    ("bad UTF-8 in a workload's node", [of_workload(span(9, NOT_UTF8))], [addresses_came(0, ("u1", "utf8 in field 9"))]),
    ("bad UTF-8 in a policy's name that a workload lists", [of_workload(span(16, NOT_UTF8))], [addresses_came(0, ("u1", "utf8 in field 16"))]),
    ("a wire fault in a record", [record(b"\x00")], [addresses_came(0, ("u1", "wire bad number at 0"))]),
    ("a wire fault in a workload", [of_workload(b"\x1b")], [addresses_came(0, ("u1", "wire bad type at 2"))]),
    ("an unknown scope", [of_policy(number(3, 3))], [policies_came(0, ("p", "bad enum 3 in field 3"))]),
    ("an unknown action", [of_policy(number(4, 2))], [policies_came(0, ("p", "bad enum 2 in field 4"))]),
    ("bad UTF-8 in a policy's namespace", [of_policy(span(2, NOT_UTF8))], [policies_came(0, ("p", "utf8 in field 2"))]),
    ("a wire fault in a policy", [of_policy(b"\x0a")], [policies_came(0, ("p", "wire truncated at 1"))]),
    ("a string match of no member", [of_match(span(3, ""))], [policies_came(0, ("p", "no kind in field 3"))]),
    ("bad UTF-8 in a string match", [of_match(span(4, exact(b"\xff")))], [policies_came(0, ("p", "utf8 in field 1"))]),
    ("a waypoint to nowhere", [of_workload(span(8, number(3, 15008)))], [addresses_came(0, ("u1", "no kind in field 8"))]),
    ("a waypoint by an address without octets", [of_workload(span(8, span(2, span(1, "x"))))], [addresses_came(0, ("u1", "bad ip in field 2"))]),
    ("bad UTF-8 in a key of a workload's services", [of_workload(span(22, span(1, NOT_UTF8)))], [addresses_came(0, ("u1", "utf8 in field 1"))]),
    ("a wire fault in a port of a workload's services", [of_workload(span(22, span(2, span(1, b"\x08"))))], [addresses_came(0, ("u1", "wire truncated at 10"))]),
    ("a service's address without octets", [of_service(span(4, span(1, "x")))], [addresses_came(0, ("u1", "bad ip in field 2"))]),
    ("a service's address of three octets", [of_service(span(4, span(2, b"\x0a\0\0")))], [addresses_came(0, ("u1", "bad ip in field 2"))]),
    ("a service's waypoint to nowhere", [of_service(span(7, ""))], [addresses_came(0, ("u1", "no kind in field 7"))]),
    ("bad UTF-8 in a service's hostname", [of_service(span(3, NOT_UTF8))], [addresses_came(0, ("u1", "utf8 in field 3"))]),
    ("a bad service, and then a workload", [record(span(2, span(7, "")) + GOOD)], [addresses_came(0, ("u1", "no kind in field 7"))]),
    ("a namespace of no member", [of_match(span(1, ""))], [policies_came(0, ("p", "no kind in field 1"))]),
    ("a not_namespace of no member", [of_match(span(2, ""))], [policies_came(0, ("p", "no kind in field 2"))]),
    ("a prefix without an address in source_ips", [of_match(span(5, number(2, 8)))], [policies_came(0, ("p", "bad cidr in field 5"))]),
    ("a prefix without an address in not_source_ips", [of_match(span(6, ""))], [policies_came(0, ("p", "bad cidr in field 6"))]),
    ("a prefix of an IPv4 address with 33 bits in destination_ips", [of_match(span(7, span(1, bytes(SEVEN)) + number(2, 33)))], [policies_came(0, ("p", "bad cidr in field 7"))]),
    ("a prefix of an IPv6 address with 129 bits in not_destination_ips", [of_match(span(8, span(1, bytes(16)) + number(2, 129)))], [policies_came(0, ("p", "bad cidr in field 8"))]),
    ("a prefix of five octets", [of_match(span(5, span(1, bytes(5))))], [policies_came(0, ("p", "bad ip in field 1"))]),
    ("destination_ports, packed, that end inside a number", [of_match(span(9, b"\x50\x80"))], [policies_came(0, ("p", "wire truncated at 10"))]),
    ("a number of not_destination_ports that is too long", [of_match(span(10, b"\xff" * 10))], [policies_came(0, ("p", "wire long varint at 17"))]),
    # Places and order.
    ("a bad resource behind a good one", [addresses(("u1", GOOD), ("u2", b""))], [addresses_came(1, ("u2", "no kind in field 0")), good_line("u1")]),
    ("a bad resource between two good ones", [addresses(("u1", GOOD), ("u2", b""), ("u3", GOOD))], [addresses_came(2, ("u2", "no kind in field 0")), good_line("u1"), good_line("u3")]),
    ("a bad record for a name that is held", ["WORKLOAD", record(b"")], [addresses_came(1, nonce="x1"), addresses_came(0, ("u1", "no kind in field 0")), HELD]),
    ("a bad record in the third message", ["WORKLOAD", "ALLOW_ONE", of_policy(number(4, 2))], [addresses_came(1, nonce="x1"), policies_came(1, nonce="x2"), policies_came(0, ("p", "bad enum 2 in field 4")), HELD, ALLOWED]),
    ("the eleventh message", ["WORKLOAD"] * 10 + [record(b"")], [addresses_came(1, nonce="x1")] * 10 + [addresses_came(0, ("u1", "no kind in field 0")), HELD]),
    ("a good message behind a bad one", [record(b""), U1], [addresses_came(0, ("u1", "no kind in field 0")), addresses_came(1), good_line("u1")]),
]


HEAD = ["Inputs that `check` and `show` refuse, and resources that are refused, with what `show` prints of them. bench/tables/refusal_rows.py",
        "prints this file: it spells the messages, and has each number, reason and line as it was worked out by hand."]


def main():
    table = run_table.Table(HEAD, {**MESSAGES, "as_c": run_table.AS_C})
    for title, messages, number_, why in ROWS:
        table.begin(title)
        table.octets(shown(messages))
        table.wanted(3, f"hbone: message {number_}: {why}\n")
        for words in (run_table.AS_C, "show"):
            table.run(words)
    put_shown(table, SHOWN)
    table.print()


if __name__ == "__main__":
    main()
