#!/usr/bin/env python3
"""Runs two programs by turns, five times each, on each stream of blocks, and prints each one's best rate in user time.

usage: bench/speed/hpack_time.py STREAM.. -- NAME PROGRAM NAME PROGRAM

Each program reads the stream that it is given TIMES times, and prints the bytes of all blocks and the sum of the sizes of
the headers: the two must agree.
"""
import os
import subprocess
import sys

TIMES = 500


def run(program, stream):
    """What the program prints, and the user time that it takes, in seconds."""
    child = subprocess.Popen([program, stream], stdout=subprocess.PIPE, text=True)
    printed = child.stdout.read()
    _, status, used = os.wait4(child.pid, 0)
    child.returncode = os.waitstatus_to_exitcode(status)
    assert child.returncode == 0, program
    return printed, used.ru_utime


def main():
    split = sys.argv.index("--")
    streams, words = sys.argv[1:split], sys.argv[split + 1 :]
    programs = list(zip(words[::2], words[1::2]))
    for stream in streams:
        best, printed = {}, set()
        for _ in range(5):
            for name, program in programs:
                text, seconds = run(program, stream)
                printed.add(text)
                best[name] = min(seconds, best.get(name, seconds))
        assert len(printed) == 1, printed
        total = int(printed.pop().split()[0])
        rates = {name: total / best[name] / 1e6 for name, _ in programs}
        line = ", ".join(f"{name} {rates[name]:.0f} MB/s of blocks, {best[name] / TIMES * 1000:.2f} ms for the stream" for name, _ in programs)
        print(f"{os.path.basename(stream)}: {line}, {rates[words[0]] / rates[words[2]]:.2f} of it")


main()
