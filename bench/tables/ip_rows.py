#!/usr/bin/python3
"""Prints crates/hb_records_rows/src/ips.rt: texts of addresses, and prefixes with addresses, as Python's `ipaddress` has them.

    python3 bench/tables/ip_rows.py > crates/hb_records_rows/src/ips.rt && (cd crates/hb_records_rows && rt fmt)

`ipaddress` reads the text of RFC 4291 section 2.2, and a zone behind `%`, which is refused here. It keeps an IPv4 address
mapped into IPv6 an IPv6 address; here it is the IPv4 address, in a text and in a prefix of 96 bits or more.
"""

import ipaddress
import random

CHOICE = random.Random(4291)

READ = """\
:: ::1 1:: ::ffff:0:0 ::ffff:10.0.0.7 ::FFFF:10.0.0.7 ::ffff:a00:7 0:0:0:0:0:ffff:10.0.0.7 0:0:0:0:0:ffff:0a00:0007
0000:0000:0000:0000:0000:FFFF:255.255.255.255 ::ffff:0.0.0.0 ::ffff:255.255.255.255 ::fffe:10.0.0.7 ::fffe:ffff:ffff
::1:0:0:0 ::ffff:1:0:0 ::1:ffff:a00:7 ::10.0.0.7 ::0.0.0.1 ::255.255.255.255 64:ff9b::192.0.2.33 2001:db8::10.0.0.7
1:2:3:4:5:6:10.0.0.7 1:2:3:4:5::10.0.0.7 1:2:3:4::10.0.0.7 ::2:3:4:5:6:10.0.0.7 1::6:10.0.0.7 ::ffff:0:10.0.0.7
2001:db8::1 2001:DB8::1 2001:0db8:0000:0000:0000:0000:0000:0001 2001:db8:0:0:0:0:0:1 2001:0DB8::0001 2001:db8::0:1
1:2:3:4:5:6:7:8 01:02:03:04:05:06:07:08 0001:0002:0003:0004:0005:0006:0007:0008 abcd:ef01:2345:6789:ABCD:EF01:2345:6789
aBcD:Ef01:2345:6789:AbCd:eF01:2345:6789 ffff:ffff:ffff:ffff:ffff:ffff:ffff:ffff fe80::1 ff02::1:2 fc00:: ::8000:0:0:0
::2:3:4:5:6:7:8 1::3:4:5:6:7:8 1:2::4:5:6:7:8 1:2:3::5:6:7:8 1:2:3:4::6:7:8 1:2:3:4:5::7:8 1:2:3:4:5:6::8 1:2:3:4:5:6:7::
0:2:3:4:5:6:7:8 1:0:3:4:5:6:7:8 1:2:3:4:5:6:0:8 1:2:3:4:5:6:7:0 1:2:3:4:5:6:0:0 0:0:3:4:5:6:7:8 1:0:0:4:5:6:7:8
1:0:0:2:0:0:3:4 1:0:0:2:0:0:0:4 1:0:0:0:2:0:0:4 0:0:1:0:0:0:1:0 0:0:0:1:0:0:0:1 0:0:1:0:0:1:0:0 0:1:0:1:0:1:0:1 1:0:1:0:1:0:1:0
0:0:0:0:1:0:0:0 0:0:0:1:0:0:0:0 1:0:0:0:0:0:0:0 0:0:0:0:0:0:0:1 0:0:0:0:0:0:0:0 1:0:0:0:0:0:0:1 0:0:1:2:3:4:0:0 0:0:0:1:2:0:0:0
1::2:0:0:3:4 1:0:0:2::3:4 1::1 1:2::1:2 ::1:2:3:4:5:6 1:2:3:4:5:6:: ::7:8 1:2:: 0::0 0::1 1::0 ::0 0:: ::0:0 0:0::0:0
00:000:0000::0 ::00a 10::01 a::A 1000:100:10:1::
"""

REFUSED = """\
: ::: :::: :1 1: 1 12345:: ::12345 1:2 1:2:3:4:5:6:7 1:2:3:4:5:6:7: :1:2:3:4:5:6:7 1:2:3:4:5:6:7:8: :1:2:3:4:5:6:7:8
1:2:3:4:5:6:7:8:9 0:0:0:0:0:0:0:0:0 ::1:2:3:4:5:6:7:8 1:2:3:4:5:6:7:8:: 1:2:3:4::5:6:7:8 1::2:3:4:5:6:7:8 1:2:3:4:5:6:7::8
1::2:: ::1:: ::1::2 1::2::3 :::1 1::: 1:::2 1:::: ::::1 1:2:3::4::5 :1:: ::1: 1::2: :1::2 2001:db8:::1 2001::db8::1
g:: ::g ::1g ::00001 ::fffff 1:2:3:4:5:6:7:g -1:: ::-1 ::+1 +1:: ::0x1 0x1:: ::1. ::.1 :.: .:: ::,1
::1%eth0 ::1%1 fe80::1%lo fe80::1% %:: ::% [::1] [::] [::1 ::1] ::1/64 ::/0 ::1/ ::1- ::1# ::1* ::1~ ::1@
::10.0.0 ::10.0.0.7.1 ::10.0.0.256 ::10.0.0.07 ::010.0.0.7 ::10.0.0. ::.10.0.0.7 ::10..0.7 ::10.0.0.7: 10.0.0.7:: 10.0.0.7::1
::10.0.0.7:1 1:2:3:4:5:6:7:10.0.0.7 1:2:3:4:5:10.0.0.7 1:2:3:4:5:6::10.0.0.7 ::1:2:3:4:5:6:10.0.0.7 1:10.0.0.7 :10.0.0.7
::a.0.0.7 ::10.0.0.a ::ffff:10.0.0.300 ::ffff:10.0.0 ::ffff.10.0.0.7 ::ffff:10:0.0.7 ::ffff:10.0.0.7/32 ::ffff:00.0.0.0
1.2.3.4:5:6:7:8:9:a 1:2:3:4:1.2.3.4:7:8 ::1.2.3.4:1.2.3.4 1.2.3.4:1.2.3.4:: ::256.0.0.0 ::0.0.0.00 ::1.2.3.4::
10.0.0.07 10.0.0 10.0.0.7.1 256.0.0.7 010.0.0.7 10.0.0. 10..0.7 0x0a.0.0.7 167772167 10.0.0.7/32 +10.0.0.7 10.0.0.-7
localhost none a ffff . .. ... .... \u0663::1 \uff11:: 1\uff1a:1
"""

# Texts with blanks, which the lists above can't have.
BLANKS = [" ::1", "::1 ", ": :1", "1:: 2", " 10.0.0.7", "10.0.0.7 ", "10. 0.0.7", " "]

V4_READ = "0.0.0.0 10.0.0.7 255.255.255.255 255.254.100.99 1.10.100.200 192.0.2.1 9.99.199.249 127.0.0.1 8.8.8.8"


def spelling(groups):
    """One of the spellings of these groups: digits of either case, leading zeros, a gap, the last two as IPv4 text."""
    texts = [format(g, CHOICE.choice(["x", "X", "04x", "04X", "02x", "03X"])) for g in groups]
    if CHOICE.random() < 0.2:
        texts[6:] = [str(ipaddress.IPv4Address(groups[6] * 65536 + groups[7]))]
    zeros = [i for i, g in enumerate(groups[: 8 if len(texts) == 8 else 6]) if g == 0]
    if not zeros:
        return ":".join(texts)
    first = CHOICE.choice(zeros)
    last = first + 1
    while last in zeros and CHOICE.random() < 0.8:
        last += 1
    return ":".join(texts[:first]) + "::" + ":".join(texts[last:])


def some_read():
    """Spellings of addresses with many zero groups."""
    for _ in range(40):
        yield spelling([CHOICE.choice([0, 0, 0, 1, CHOICE.randrange(65536), CHOICE.randrange(256)]) for _ in range(8)])
    for _ in range(6):
        yield spelling([0, 0, 0, 0, 0, 0xFFFF, CHOICE.randrange(65536), CHOICE.randrange(65536)])


def some_refused():
    """Spellings with one character more, less or another, which `ipaddress` refuses."""
    found = 0
    while found < 40:
        text = spelling([CHOICE.choice([0, 0, 0, CHOICE.randrange(65536)]) for _ in range(8)])
        at = CHOICE.randrange(len(text))
        text = text[:at] + CHOICE.choice(["", ":", "0", "f", "g", ".", "::"]) + text[at + CHOICE.choice([0, 1]) :]
        if value_of(text) is None:
            found += 1
            yield text


def value_of(text):
    """The address that a text spells: a mapped one is IPv4."""
    try:
        address = ipaddress.ip_address(text)
    except ValueError:
        return None
    if address.version == 4:
        return address
    return None if address.scope_id is not None else address.ipv4_mapped or address


def digits(address):
    return format(int(address), "08x" if address.version == 4 else "032x")


def groups_text(address):
    """By RFC 5952, without dots; of an IPv4 address its dots."""
    text = str(address)
    assert address.version == 4 or "." not in text
    return text


def read_rows():
    texts = V4_READ.split() + READ.split() + list(some_read())
    rows = {text: f"{text}; {digits(value_of(text))} {groups_text(value_of(text))}" for text in texts}
    assert sum(":" in text for text in rows) >= 100
    return list(rows.values())


def refused_rows():
    texts = dict.fromkeys(REFUSED.split() + BLANKS + list(some_refused()))
    assert all(value_of(text) is None for text in texts), [text for text in texts if value_of(text) is not None]
    assert sum(":" in text for text in texts) >= 100
    return [f"{text}; none" for text in texts]


# The address of a prefix, lengths, and addresses of which it is asked.
PREFIXES = [
    ("0.0.0.0", "0 1 31 32 33", "0.0.0.0 0.0.0.1 0.0.0.2 127.255.255.255 128.0.0.0 255.255.255.255 :: ::1"),
    ("10.0.0.7", "0 1 8 24 31 32 33 128", "10.0.0.7 10.0.0.6 10.0.0.5 10.1.2.3 11.0.0.7 138.0.0.7 ::10.0.0.7"),
    ("255.255.255.255", "0 1 31 32 33", "255.255.255.255 255.255.255.254 255.255.255.253 128.0.0.0 127.255.255.255"),
    ("::", "0 1 31 32 33 95 96 97 127 128 129", ":: ::1 ::2 ::8000:0 ::1:0:0 0:0:8000:: 0:1:: 1:: 8000:: 10.0.0.1"),
    ("2001:db8::7", "0 1 31 32 33", "2001:db8::7 2001:db8:8000::7 2001:db9::7 2001:dba::7 a001:db8::7 10.0.0.7"),
    ("2001:db8::7", "95 96 97 127 128 129", "2001:db8::7 2001:db8::6 2001:db8::5 2001:db8::8000:7 2001:db8::1:0:7 2001:db8::2:0:7"),
    ("8000::", "0 1 2 127 128 129", "8000:: 8000::1 8000::2 c000:: 4000:: 7fff:: 128.0.0.0"),
    ("::ffff:10.0.0.0", "0 1 80 95", "10.0.0.0 10.1.2.3 :: ::fffe:0:0 ::1:0:0:0 ::fffd:0:0 8000::"),
    ("::ffff:10.0.0.0", "96 97 104 127 128 129", "10.0.0.0 10.0.0.1 10.0.0.2 10.1.2.3 11.0.0.0 128.0.0.0 ::fffe:a00:0"),
    ("::ffff:255.255.255.255", "95 96 97 127 128 129", "255.255.255.255 255.255.255.254 0.0.0.0 ::fffe:ffff:ffff"),
]


def prefix_of(address, length):
    """The network of an address and a length; None where the length is too great."""
    if length > address.max_prefixlen:
        return None
    if address.version == 6 and address.ipv4_mapped and length >= 96:
        address, length = address.ipv4_mapped, length - 96
    network = ipaddress.IPv4Network if address.version == 4 else ipaddress.IPv6Network
    return network((int(address), length), strict=False)


def covered_by(network, asked):
    """A sign for each address: whether the network has it."""
    return "none" if network is None else "".join("+" if value_of(text) in network else "-" for text in asked.split())


def prefix_rows():
    rows = []
    for text, lengths, asked in PREFIXES:
        address = ipaddress.ip_address(text)
        signs = " ".join(covered_by(prefix_of(address, int(length)), asked) for length in lengths.split())
        rows.append(f"{address.packed.hex(' ')} / {lengths} / {asked}; {signs}")
    for octets in ("", "00", "00 00 00", "00 00 00 00 00", " ".join(["00"] * 15), " ".join(["00"] * 17)):
        rows.append(f"{octets} / 0 / 0.0.0.0; none")
    return rows


def wrapped(row):
    """A row over several lines of less than 140 characters, in the way of a literal: a blank stands before each break."""
    if len(row) < 139:
        return row
    at = row.rindex(" ", 0, 134) + 1
    return row[:at] + "\\\n    " + wrapped(row[at:])


def table(name, what, rows):
    return f'/// {what}\npub const {name}: &str = "\\\n' + "\n".join(map(wrapped, rows)) + '";\n'


def main():
    print("//! Texts of addresses, and prefixes, printed by bench/tables/ip_rows.py: Python's `ipaddress` read each of them.")
    print()
    print(table("IPS_READ", "Texts, and of each its address in hexadecimal digits and as it is written.", read_rows()))
    print(table("IPS_REFUSED", "Texts that spell no address.", refused_rows()))
    print(table("PREFIXES", "Octets, lengths and addresses: `none`, or a sign for each address, whether the prefix covers it.", prefix_rows()), end="")


if __name__ == "__main__":
    main()
