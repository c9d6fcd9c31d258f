#!/usr/bin/env python3
"""Runs a program that drives a node with inbound links, and prints what each thing costs: the processor's time, the best of five runs
less the best of five in which it is done no time, and instructions by callgrind, which other work doesn't change, from two such runs.
Then the peak memory of 1,024 links and 4,096 tunnels.

usage: bench/speed/inbound_figures.py PROGRAM FOLDER [quick]    (quick: one run each, without callgrind)
"""
import os
import pathlib
import subprocess
import sys

PROGRAM, FOLDER, *REST = sys.argv[1:]
QUICK = "quick" in REST
RUNS = 1 if QUICK else 5
PIECE = 16_384
# names of links, the links with their tunnels in the order in which they come, and how often a thing is done for its time; it is done on
# the last link
LINKS = [
    ("1 link", "1x1", 120_000),
    ("100 links, 397 tunnels", "99x4+1x1", 120_000),
    ("1,024 links, 4,093 tunnels", "1023x4+1x1", 120_000),
    ("1 link, 100 tunnels", "1x100", 6_000),
]
# the tunnel of a life is one more than those that stand
LIVES = LINKS[:3] + [("1 link, 99 more tunnels", "1x99", 3_000)]
# the first link has one tunnel, to which the first update is
UPDATES = [
    ("1 link, 1 tunnel", "1x1", 50_000),
    ("64 links, 4,096 tunnels", "1x1+63x65", 200),
    ("1,024 links, 4,096 tunnels", "1x1+1022x4+1x7", 200),
]
# the word, what it does, how often for callgrind, where, and the goal
THINGS = [
    ("up", "16,384 octets up", 200, LINKS, "6 GB/s, the same within 1.3 times"),
    ("down", "16,384 octets down", 200, LINKS, "6 GB/s, the same within 1.3 times"),
    ("life", "a CONNECT, an octet each way, and its end", 100, LIVES, "4 us, the same within 1.3 times"),
    ("none", "an update that touches none", 4, UPDATES, ""),
    ("one", "an update that touches 1", 4, UPDATES, "50 us"),
    ("all", "an update that touches all", 4, UPDATES, "3 ms"),
]
MEMORY = [
    ("1 link without a tunnel", "nothing", "1x0"),
    ("1,024 links without a tunnel", "nothing", "1024x0"),
    ("1,024 links and 4,096 tunnels without an octet", "nothing", "1024x4"),
    ("1,024 links and 4,096 tunnels whose rings were full", "fill", "1024x4"),
]


def ran(word, count, links):
    """Processor seconds, and the peak of resident memory in bytes."""
    process = subprocess.Popen([PROGRAM, FOLDER, word, str(count), links], stdout=subprocess.PIPE, text=True)
    out = process.stdout.read()
    _, status, usage = os.wait4(process.pid, 0)
    if status or not out.rstrip().endswith(" 0 lacking"):
        sys.exit(f"{word} {count} {links}: status {status}, {out}")
    return usage.ru_utime + usage.ru_stime, usage.ru_maxrss * 1024


def least(word, count, links):
    return min(ran(word, count, links)[0] for _ in range(RUNS))


def instructions(word, count, links):
    counts = pathlib.Path(FOLDER) / "counts"
    run = ["valgrind", "--tool=callgrind", f"--callgrind-out-file={counts}", PROGRAM, FOLDER, word, str(count), links]
    subprocess.run(run, stdout=subprocess.DEVNULL, stderr=subprocess.DEVNULL, check=True)
    [total] = [int(line.split()[1]) for line in counts.read_text().splitlines() if line.startswith("totals:")]
    return total


def figures():
    for word, what, few, layouts, goal in THINGS:
        print(f"{what}{'; goal ' + goal if goal else ''}")
        first = None
        for name, links, many in layouts:
            seconds = (least(word, many, links) - least(word, 0, links)) / many
            first = first or seconds
            rate = f", {PIECE / seconds / 1e9:.2f} GB/s" if word in ("up", "down") else ""
            counted = "" if QUICK else f", {(instructions(word, few, links) - instructions(word, 0, links)) / few:,.0f} instructions"
            print(f"  {name:32} {seconds * 1e6:10,.2f} us{rate}{counted}, {seconds / first:.2f} times the first", flush=True)


def memory():
    print("peak memory; goals 100 MB, and 336 MB with full rings")
    for name, word, links in MEMORY:
        print(f"  {name:52} {ran(word, 0, links)[1] / 1e6:.1f} MB", flush=True)


figures()
memory()
