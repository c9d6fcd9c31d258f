#!/usr/bin/env python3
"""Runs two programs that measure a connection, three times each, and prints the best figures of both side by side, and the
peak memory that each of 100 connections adds.

usage: bench/speed/connection_figures.py PROGRAM NGHTTP2

Each prints what it measured, how many, and microseconds, with tabs between.
"""
import subprocess
import sys

RUNS = [("data", 30_000), ("small", 2_000), ("requests", 100_000)]
CONNECTIONS = 100
HELD = [("hold", "memory, an open block"), ("hold a list", "memory, a long list")]


def printed(program, times, word):
    done = subprocess.run([program, str(times), word], stdout=subprocess.PIPE, text=True, check=True)
    return [line.split("\t") for line in done.stdout.splitlines()]


def figure(name, rate):
    """A rate in events a microsecond, in words."""
    if name.startswith(("DATA", "memcpy")):
        return f"{rate:,.0f} MB/s"
    if name == "requests":
        return f"{1 / rate:.2f} us each, at both ends together"
    if name.startswith("requests, "):
        return f"{1 / rate:.2f} us each, in batches"
    return f"{rate:.2f} million frames/s"


def speeds(programs):
    """The best of three runs of each program, which take turns."""
    for word, times in RUNS:
        best = {}
        for _ in range(3):
            for of, program in programs:
                for name, many, micros in printed(program, times, word):
                    rate = int(many) / max(int(micros), 1)
                    key = (name, "" if name.startswith("memcpy") else of)
                    best[key] = max(best.get(key, 0), rate)
        for (name, of), rate in sorted(best.items()):
            print(f"{name:29} {of:8} {figure(name, rate)}")


def peak(program, connections, word):
    """The peak of the program's resident memory, in bytes, and what it printed beside."""
    lines = printed(program, connections, word)
    [kilobytes] = [line[1].split()[0] for line in lines if line[0] == "VmHWM:"]
    return int(kilobytes) * 1024, [line for line in lines if line[0] == "held"]


def memory(programs):
    for word, name in HELD:
        for of, program in programs:
            alone, _ = peak(program, 0, word)
            held, what = peak(program, CONNECTIONS, word)
            print(f"{name:29} {of:8} {(held - alone) / CONNECTIONS / 1000:.0f} KB each of {CONNECTIONS} connections")
            for _, streams, octets in what:
                print(f"{'':29} {'':8} with {streams} open streams and {octets} octets that wait")


def main():
    programs = [("hb_conn", sys.argv[1]), ("nghttp2", sys.argv[2])]
    speeds(programs)
    memory(programs)


main()
