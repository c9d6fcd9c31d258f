#!/usr/bin/env python3
"""Runs each test of the modules `wanting` of test crates with each of its allocations failing in turn: it passes, or it stops where it
was still making what it tries and asks for memory. A test that finds another answer fails.

usage: bench/tools/fail_tests.py [NAME..]        (after `cd crates/NAME && rt test`, which leaves its program in out/; the crates are
       hb_resources_rows and hb_tunnels_rows if left out; needs gcc)
"""

import pathlib
import subprocess
import sys
import tempfile

TOP = pathlib.Path(__file__).resolve().parents[2]
STOPPED = b"memory: AllocError"


def ended(program, test, library, fail_at, count_file):
    env = {"LD_PRELOAD": library, "FAIL_AT": str(fail_at), "COUNT_FILE": count_file}
    run = subprocess.run([program, test], env=env, stdout=subprocess.PIPE, stderr=subprocess.STDOUT, timeout=60)
    return run.returncode, run.stdout


def tried(program, test, library, count_file):
    """How many of its allocations are looked at, how many it goes on behind, and how many of these are wrong."""
    status, told = ended(program, test, library, 0, count_file)
    allocations = int(open(count_file).read()) if status == 0 else 0
    passed = wrong = 0
    for fail_at in range(1, allocations + 1):
        status, told = ended(program, test, library, fail_at, count_file)
        if status == 0:
            passed += 1
        elif STOPPED not in told:
            wrong += 1
            print(f"fail_tests: {test}, allocation {fail_at}: {told}")
    return allocations, passed, wrong


def main():
    bad = 0
    with tempfile.TemporaryDirectory() as room:
        library, count_file = f"{room}/fail_alloc.so", f"{room}/count"
        subprocess.run(["gcc", "-O1", "-shared", "-fPIC", "-o", library, TOP / "bench/tools/fail_alloc.c"], check=True)
        for name in sys.argv[1:] or ["hb_resources_rows", "hb_tunnels_rows"]:
            program = TOP / f"crates/{name}/out/{name}_tests"
            listed = subprocess.run([program, "--list"], check=True, stdout=subprocess.PIPE, text=True).stdout.split()
            for test in (word.rstrip(":") for word in listed if word.startswith("wanting::")):
                allocations, passed, wrong = tried(program, test, library, count_file)
                print(f"fail_tests: {test}: {allocations} allocations, {passed} of them in calls that it tries, {wrong} wrong")
                # (a test that no failing allocation reaches would try nothing)
                bad += wrong + (passed == 0)
    return 1 if bad else 0


raise SystemExit(main())
