#!/usr/bin/env python3
"""What the gate costs, crate by crate, in processor seconds (user and system).

usage: bench/tools/gate_cost.py [of FOLDER]   runs `rt ci` on a copy of the repository, or of another tree, as of an older commit; nothing
                                        else should run on the machine
       bench/tools/gate_cost.py slowest CRATE..   checks these crates from nothing, one job, and names their ten slowest functions

The first looks at the provers that `rt ci` starts, five times a second, and counts each one's time for its crate: as its proof, as
its proof with tests, or as its edits. It prints a line for each crate, what `rt ci` itself took in all, its programs, tests and compilers
included, and `rt ci`'s last line. The second takes the time between a function's end and the one before it, since the kit tells no more:
what is loaded and the lemmas that a function is the first to need count for it.
"""

import os
import re
import shutil
import subprocess
import sys
import tempfile
import threading
import time

TOP = os.path.dirname(os.path.dirname(os.path.dirname(os.path.abspath(__file__))))
PARTS = ("proof", "tests", "edits")
TICKS = os.sysconf("SC_CLK_TCK")


def crates_of(root):
    """The crates of crates.txt, in order, each with those of the repository that it uses."""
    used = {}
    with open(f"{root}/crates.txt") as file:
        for line in file:
            name, colon, rest = line.split("#")[0].partition(":")
            if colon:
                used[name.split()[0]] = rest.split()
    return {name: [it for it in rest if it in used] for name, rest in used.items()}


def lines_of(folder):
    found = [f"{at}/{it}" for at, _, files in os.walk(folder) if "/out" not in at for it in files if it.endswith((".rt", ".antt"))]
    return sum(open(it, "rb").read().count(b"\n") for it in found)


def edits_of(folder):
    return len([it for it in os.listdir(folder) if it.endswith(".edit")]) if os.path.isdir(folder) else 0


class Watch:
    """The processor time of each prover that was seen, by process, with its crate and part."""

    def __init__(self, root):
        self.root, self.seen, self.ended = root, {}, False

    def look(self):
        for process in filter(str.isdigit, os.listdir("/proc")):
            try:
                words = open(f"/proc/{process}/cmdline").read().split("\0")
                if os.path.basename(words[0]) != "rattle" or "--crate-name" not in words:
                    continue
                at, stat = os.readlink(f"/proc/{process}/cwd"), open(f"/proc/{process}/stat").read().rpartition(")")[2].split()
            except OSError:
                continue
            crate = words[words.index("--crate-name") + 1]
            part = "edits" if "/rt-edit-" in at else "tests" if "--test" in words else "proof"
            if part == "edits" or at.startswith(self.root):
                self.seen[process, stat[19]] = crate, part, (int(stat[11]) + int(stat[12])) / TICKS

    def run(self):
        while not self.ended:
            self.look()
            time.sleep(0.2)

    def of(self, crate, part):
        return sum(seconds for *what, seconds in self.seen.values() if what == [crate, part])


def row(*cells):
    print("| {:14} | {:>6} | {:>6} | {:>6} | {:>6} | {:>6} | {:>6} |".format(*cells))


def gate(top):
    with tempfile.TemporaryDirectory(prefix="gate-cost-") as room:
        root = f"{room}/repository"
        shutil.copytree(top, root, ignore=shutil.ignore_patterns("out", ".git", "__pycache__"))
        subprocess.run(["git", "init", "-q", root], check=True)
        watch = Watch(root)
        watching = threading.Thread(target=watch.run)
        watching.start()
        start, log = time.monotonic(), f"{room}/log"
        with open(log, "w") as out:
            child = subprocess.Popen(["rt", "ci"], cwd=root, stdin=subprocess.DEVNULL, stdout=out, stderr=subprocess.STDOUT)
            _, status, usage = os.wait4(child.pid, 0)
        child.returncode = os.waitstatus_to_exitcode(status)
        watch.ended = True
        watching.join()
        row("crate", "lines", "proof", "tests", "edits", "tried", "sum")
        row(*["---"] * 7)
        all_lines, all_tried = 0, 0
        for crate in crates_of(root):
            folder = f"{root}/crates/{crate}"
            lines, tried, found = lines_of(folder), edits_of(f"{folder}/must-fail"), [watch.of(crate, it) for it in PARTS]
            row(crate, lines, *(f"{it:.0f}" for it in found), tried, f"{sum(found):.0f}")
            all_lines, all_tried = all_lines + lines, all_tried + tried
        sums = [sum(watch.of(it, part) for it in crates_of(root)) for part in PARTS]
        row("sum", all_lines, *(f"{it:.0f}" for it in sums), all_tried, f"{sum(sums):.0f}")
        whole = usage.ru_utime + usage.ru_stime
        print(f"rt ci: {whole:.0f} processor seconds, {whole / 60 / all_lines * 1000:.1f} minutes for 1,000 lines; {(time.monotonic() - start) / 60:.0f} minutes of the clock")
        print(open(log, errors="replace").read().rstrip("\n").rpartition("\n")[2])
        return child.returncode


def slowest(crates):
    for crate in crates:
        with tempfile.TemporaryDirectory(prefix="gate-cost-") as room:
            root = f"{room}/repository"
            shutil.copytree(TOP, root, ignore=shutil.ignore_patterns("out", ".git", "__pycache__"))
            subprocess.run(["git", "init", "-q", root], check=True)
            # (the libraries below are proved first)
            for below in crates_of(root)[crate]:
                subprocess.run(["rt", "check"], cwd=f"{root}/crates/{below}", check=True, stdout=subprocess.DEVNULL)
            words = ["rt", "check", "--test", "--jobs", "1"]
            child = subprocess.Popen(words, cwd=f"{root}/crates/{crate}", stdout=subprocess.PIPE, stderr=subprocess.STDOUT, text=True, errors="replace")
            before, took = None, []
            for line in child.stdout:
                if found := re.match(r"checked (\S+), \d+ of \d+", line):
                    now = time.monotonic()
                    took += [(now - before, found[1])] if before else []
                    before = now
            child.wait()
            print(f"{crate}:")
            for seconds, name in sorted(took, reverse=True)[:10]:
                print(f"  {seconds:6.1f} s {name}")


def main():
    if sys.argv[1:2] == ["slowest"] and len(sys.argv) > 2:
        return slowest(sys.argv[2:])
    if sys.argv[1:2] == ["of"] and len(sys.argv) == 3:
        return gate(sys.argv[2])
    if len(sys.argv) > 1:
        raise SystemExit(__doc__)
    return gate(TOP)


raise SystemExit(main())
