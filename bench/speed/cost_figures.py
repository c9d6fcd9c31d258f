#!/usr/bin/env python3
"""Prints what a connection costs on octets that a hostile peer chose, in instructions by callgrind, beside nghttp2's session
on the same octets. Ends with status 1 where a row costs more than its goal, or where a program didn't take all.

usage: bench/speed/cost_figures.py PROGRAM NGHTTP2

Each program is run with the names of two files, a word and a number, and prints how many octets of the second it took. A
figure is the difference of two runs: with the second file's octets, and without. Copies are made by vectors: the C library's other
way is one instruction, which is counted once for each octet.
"""
import os
import subprocess
import sys
import tempfile
from pathlib import Path

MEGABYTE = 1_000_000
NEVER = "1000000000"
BY_VECTORS = dict(os.environ, GLIBC_TUNABLES=f"glibc.cpu.x86_rep_movsb_threshold={NEVER}:glibc.cpu.x86_rep_stosb_threshold={NEVER}")
PREFACE = b"PRI * HTTP/2.0\r\n\r\nSM\r\n\r\n"
DATA, HEADERS, PRIORITY, RST_STREAM, SETTINGS, PING, WINDOW_UPDATE, CONTINUATION = 0, 1, 2, 3, 4, 6, 8, 9
END_HEADERS = 4
GET = b"\x82"


def frame(kind, flags, stream, payload=b""):
    return len(payload).to_bytes(3, "big") + bytes([kind, flags]) + stream.to_bytes(4, "big") + payload


def word(n):
    return n.to_bytes(4, "big")


def initial(size):
    """The pair of SETTINGS_INITIAL_WINDOW_SIZE."""
    return b"\0\x04" + word(size)


def opened(streams):
    return b"".join(frame(HEADERS, END_HEADERS, 2 * n + 1, GET) for n in range(streams))


def filled(frames):
    return frame(PING, 0, 0, bytes(8)) * frames


def mixed(streams, frames):
    """Streams, and frames behind each."""
    return b"".join(frame(HEADERS, END_HEADERS, 2 * n + 1, GET) + filled(frames) for n in range(streams))


def again(piece, size=MEGABYTE):
    return piece * (size // len(piece))


def numbered(piece, first, size=MEGABYTE):
    """The piece of one stream after another, from a number on."""
    return b"".join(piece(first + 2 * n) for n in range(size // len(piece(first))))


def reset(stream):
    return frame(HEADERS, END_HEADERS, stream, GET) + frame(RST_STREAM, 0, stream, word(8))


def refused(stream):
    return frame(HEADERS, END_HEADERS, stream, GET)


def continued(stream):
    """A block in six frames, and the end of its stream."""
    return (
        frame(HEADERS, 0, stream, GET)
        + frame(CONTINUATION, 0, stream, b"\x82") * 4
        + frame(CONTINUATION, END_HEADERS, stream, b"\x82")
        + frame(RST_STREAM, 0, stream, word(8))
    )


def bomb(stream):
    """A block of indexes alone, of which each is an entry of 4,000 octets, and the end of its stream."""
    return frame(HEADERS, END_HEADERS, stream, b"\xbe" * 4_000) + frame(RST_STREAM, 0, stream, word(8))


def entry(stream):
    """A block with an entry of 4,000 octets, and the end of its stream."""
    block = b"\x40\x01a\x7f" + bytes([0xA1, 0x1E]) + b"v" * 4_000
    return frame(HEADERS, END_HEADERS, stream, block) + frame(RST_STREAM, 0, stream, word(8))


PAIRS = frame(SETTINGS, 0, 0, (initial(65_535) + initial(65_536)) * 1_365)
SAME = frame(SETTINGS, 0, 0, initial(65_535) * 2_730)
SINGLE = frame(SETTINGS, 0, 0, initial(65_536)) + frame(SETTINGS, 0, 0, initial(65_535))
TWO = frame(SETTINGS, 0, 0, initial(65_536) + initial(65_535))
UPDATE = frame(WINDOW_UPDATE, 0, 0, word(1))
UPDATE_ONE = frame(WINDOW_UPDATE, 0, 199, word(1))
OVERFLOW = frame(WINDOW_UPDATE, 0, 1, word(2_147_483_647))
CLOSED = frame(RST_STREAM, 0, 1, word(8))


def resets(streams):
    return b"".join(frame(RST_STREAM, 0, 2 * n + 1, word(8)) for n in range(streams))


NONE = 4_294_967_295
# what is measured, the octets in front, the octets, whether the peer reads, how many times nghttp2's figure at most, and
# the first stream that is answered with a status and ended as soon as it opens, where any is
ROWS = [
    ("SETTINGS of 2,730 initial sizes, 100 streams", opened(100), again(PAIRS), True, 10),
    ("the same size again, 100 streams", opened(100), again(SAME), True, 10),
    ("SETTINGS of 2,730 initial sizes, output full", opened(100) + filled(1_825), again(PAIRS), False, 10),
    ("SETTINGS of one initial size, 100 streams", opened(100), again(SINGLE), True, 10),
    ("SETTINGS of two initial sizes, 100 streams", opened(100), again(TWO), True, 10),
    ("WINDOW_UPDATE of the connection, output full", filled(1_870), again(UPDATE), False, 3),
    ("WINDOW_UPDATE of a stream, output full", opened(100) + filled(1_825), again(UPDATE_ONE), False, 3),
    ("HEADERS and RST_STREAM, output full, 99 streams", opened(99) + filled(1_870), numbered(reset, 199), False, 3),
    ("HEADERS and RST_STREAM, 99 streams", opened(99), numbered(reset, 199), True, 3),
    ("HEADERS above 100 streams", opened(100), numbered(refused, 201), True, 3),
    ("DATA of 16,384 octets", opened(1), again(frame(DATA, 0, 1, bytes(16_384))), True, 3),
    ("DATA of 1 octet", opened(1), again(frame(DATA, 0, 1, b"x")), True, 3),
    ("DATA on a stream that this end reset", opened(1) + OVERFLOW, again(frame(DATA, 0, 1)), True, 3),
    ("RST_STREAM of a closed stream", opened(1) + CLOSED, again(CLOSED), True, 3),
    ("PING", b"", again(frame(PING, 0, 0, bytes(8))), True, 3),
    ("SETTINGS of nothing", b"", again(frame(SETTINGS, 0, 0)), True, 3),
    ("PRIORITY", b"", again(frame(PRIORITY, 0, 1, bytes([0, 0, 0, 3, 16]))), True, 3),
    ("CONTINUATION", b"", numbered(continued, 1), True, 3),
    ("indexes of a large entry", entry(1), numbered(bomb, 3), True, 3),
    ("HEADERS and RST_STREAM of streams that were ended", b"", numbered(reset, 1), True, 3, 1),
    ("the same, 99 streams", opened(99), numbered(reset, 199), True, 3, 199),
    ("99 resets, an END_STREAM of the 100th waits", opened(100) + filled(1_820), resets(99), False, 5, 199),
    ("99 resets, an END_STREAM of the 100th waits behind", filled(1_820) + opened(100), resets(99), False, 5, 199),
    # each takes back a frame that this end put, and there are no more such resets than such frames
    ("100 resets, an END_STREAM of each waits in front", opened(100) + filled(1_700), resets(100), False, 30, 1),
    ("100 resets, an END_STREAM of each waits behind", filled(1_700) + opened(100), resets(100), False, 15, 1),
    ("100 resets, an END_STREAM of each among PINGs", mixed(100, 17), resets(100), False, 100, 1),
]


def instructions(folder, program, words):
    """What callgrind counts, and how many octets the program took."""
    counts = folder / "counts"
    run = ["valgrind", "--tool=callgrind", f"--callgrind-out-file={counts}", program, folder / "setup", folder / "octets"]
    done = subprocess.run(run + words, env=BY_VECTORS, stdout=subprocess.PIPE, stderr=subprocess.DEVNULL, text=True, check=True)
    lines = counts.read_text().splitlines()
    [total] = [int(line.split()[1]) for line in lines if line.startswith("totals:")]
    return total, int(done.stdout.split()[0])


def cost(folder, program, setup, octets, reads, answered):
    (folder / "setup").write_bytes(PREFACE + frame(SETTINGS, 0, 0) + setup)
    (folder / "octets").write_bytes(octets)
    words = ["read" if reads else "stalled", str(answered)]
    alone, _ = instructions(folder, program, words + ["alone"])
    total, taken = instructions(folder, program, words)
    return total - alone, taken


def main():
    missed = False
    print(f"{'':50} {'ours':>9} {'nghttp2':>9}   millions of instructions for 1 MB, or for the resets")
    with tempfile.TemporaryDirectory() as name:
        folder = Path(name)
        for what, setup, octets, reads, most, *answered in ROWS:
            way = (setup, octets, reads, *(answered or [NONE]))
            ours, taken = cost(folder, sys.argv[1], *way)
            theirs, theirs_taken = cost(folder, sys.argv[2], *way)
            much = ours > most * theirs
            missed = missed or much or taken < len(octets)
            print(
                f"{what:50} {ours / 1e6:9,.2f} {theirs / 1e6:9,.2f}   {ours / theirs:.2f} times, at most {most}"
                + (" MORE THAN THAT" if much else "")
                + (f"; took {taken:,} of {len(octets):,}" if taken < len(octets) else "")
                + (f"; nghttp2 took {theirs_taken:,}" if theirs_taken < len(octets) else ""),
                flush=True,
            )
    sys.exit(missed)


main()
