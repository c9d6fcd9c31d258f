#!/usr/bin/python3
"""Holds the table of header blocks in hb_http2_rows against a second implementation, Debian's python3-hpack.

It reads each block of the table with that decoder: the headers and the table's size of each block that is read, and
that each refused block is refused. It prints each line on which the two differ, and the counts.

usage: bench/tables/hpack_check.py        (after `apt-get install python3-hpack`)
"""
import pathlib
import re

from hpack import Decoder
from hpack.exceptions import HPACKError

TABLE = pathlib.Path(__file__).resolve().parents[2] / "crates/hb_http2_rows/src/hpack_vectors.rt"


def new_decoder():
    decoder = Decoder(max_header_list_size=1 << 30)
    decoder.max_allowed_table_size = 4096
    return decoder


def unescaped(text):
    return re.sub(rb"%([0-9a-f]{2})", lambda m: bytes([int(m.group(1), 16)]), text.encode())


def after(blocks):
    """A decoder that has read these blocks."""
    decoder = new_decoder()
    for block in blocks:
        decoder.decode(block, raw=True)
    return decoder


def kept(column):
    """The headers of a column: of each `|`, the name, `|` and the value."""
    parts = [] if column == "-" else [unescaped(part) for part in column.split("|")[1:]]
    return list(zip(parts[::2], parts[1::2]))


def main():
    decoder, blocks, read, refused, differ = new_decoder(), [], 0, 0, 0
    for line in TABLE.read_text().splitlines():
        words = line.removesuffix("\";").split(" ")  # the end of a part of the table
        if words[0] in ("n", "n\\"):
            decoder, blocks = new_decoder(), []
        elif words[0] == "r":
            blocks.append(bytes.fromhex(words[1]))
            got = [(bytes(n), bytes(v)) for n, v in decoder.decode(blocks[-1], raw=True)]
            size = sum(len(n) + len(v) + 32 for n, v in got)
            want = (kept(words[4]), int(words[2]), int(words[3]))
            if (got[: len(want[0])], size, decoder.header_table._current_size) == want:
                read += 1
            else:
                differ += 1
                print("read otherwise:", line[:100])
        elif words[0] == "f":
            try:
                after(blocks).decode(bytes.fromhex(words[1]), raw=True)
                differ += 1
                print("not refused:", line[-60:])
            except (HPACKError, UnicodeDecodeError):
                refused += 1
    print(f"{read} blocks read alike, {refused} refused by both, {differ} lines differ")


main()
