#!/usr/bin/env python3
"""Runs the program with each of its allocations failing in turn: it ends with status 9, the line of that status told and nothing printed,
of `show` a part from the front; or with the whole answer.

usage: bench/tools/fail_alloc.py        (after `rt ci`, or `cd crates/hbone && rt run`, which leave the program in crates/hbone/out; needs gcc)
"""

import pathlib
import subprocess
import tempfile

TOP = pathlib.Path(__file__).resolve().parents[2]
PROGRAM = TOP / "crates/hbone/out/hbone"
SAMPLE = (TOP / "examples/responses").read_bytes()
SCRIPT = (TOP / "examples/script").read_bytes()
REPLAY = ["replay", "--node", "n1", "--id", "z1", "--discovery", "10.0.0.1:15010"]
AS_C = "spiffe://cluster.local/ns/a/sa/c"
WANTING_LINE = b"hbone: out of memory\n"

# Words and input of each run.
RUNS = [
    (["check", "--node", "n1", "10.0.0.9", AS_C, "10.0.0.7:8080"], SAMPLE),
    (["check", "--node", "n1", "10.0.0.9", "none", "10.0.0.7:8080"], SAMPLE * 40),
    (["check", "--node", "n1", "10.0.0.9", "none", "10.0.0.8:8080"], b""),
    (["check", "--node", "n1", "10.0.0.9", "none", "10.0.0.7:8080"], SAMPLE[:-1]),
    (["check", "--network", "x", "--node", "n1", "10.0.0.9", "none", "10.0.0.7:8080"], SAMPLE),
    (["check", "--node", "n1", "10.0.0.9", "none", "10.0.0.7"], b""),
    (["show"], SAMPLE),
    (["show"], SAMPLE[:-1]),
    ([*REPLAY, "--trace"], SCRIPT),
    (REPLAY, SAMPLE),
    ([*REPLAY, "--turns", "2"], SCRIPT),
]


def ended(words, given, library, fail_at, count_file):
    env = {"LD_PRELOAD": library, "FAIL_AT": str(fail_at), "COUNT_FILE": count_file}
    run = subprocess.run([PROGRAM, *words], input=given, env=env, stdout=subprocess.PIPE, stderr=subprocess.PIPE, timeout=60)
    return run.returncode, run.stdout, run.stderr


def is_wanting(words, got, whole):
    """Status 9 with its line, and printed is nothing, or of `show` a part."""
    printed = whole[1].startswith(got[1]) if words[0] == "show" else got[1] == b""
    return got[0] == 9 and got[2] == WANTING_LINE and printed


def main():
    wrong = 0
    with tempfile.TemporaryDirectory() as room:
        library, count_file = f"{room}/fail_alloc.so", f"{room}/count"
        subprocess.run(["gcc", "-O1", "-shared", "-fPIC", "-o", library, TOP / "bench/tools/fail_alloc.c"], check=True)
        for words, given in RUNS:
            whole = ended(words, given, library, 0, count_file)
            allocations = int(open(count_file).read())
            wanting = 0
            for fail_at in range(1, allocations + 1):
                got = ended(words, given, library, fail_at, count_file)
                wanting += is_wanting(words, got, whole)
                if got != whole and not is_wanting(words, got, whole):
                    wrong += 1
                    print(f"fail_alloc: {words}, allocation {fail_at}: {got}")
            print(f"fail_alloc: {whole}: {allocations} allocations, {wanting} end with want of memory")
            # (an input of which no allocation counts would try nothing)
            wrong += allocations == 0 or wanting == 0
    return 1 if wrong else 0


raise SystemExit(main())
