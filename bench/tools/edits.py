#!/usr/bin/env python3
"""Tries all edits that must fail of the crates that are named, or of all crates: those of bench/edits/NAME, which the gate doesn't look at,
beside those of crates/NAME/must-fail.

usage: bench/tools/edits.py [NAME..]

It copies the crates to a folder of its own, puts the edits there, and calls `rt must-fail NAME` for one crate after the other, which begins
with what `rt check` kept anywhere on this machine. A line for each crate says how many of its edits were refused, and the lines above it,
which are rt's, by which clause. The status is 1 where one wasn't refused, couldn't be applied or wasn't tried. It needs Python 3 and the
kit alone.
"""

import pathlib
import shutil
import subprocess
import sys
import tempfile

TOP = pathlib.Path(__file__).resolve().parent.parent.parent


def folders_of(top, name):
    return top / "crates" / name / "must-fail", top / "bench/edits" / name


def edits_of(name):
    """The edits of a crate, those of the gate first."""
    return [edit for folder in folders_of(TOP, name) for edit in sorted(folder.glob("*.edit"))]


def copied(to):
    """Copies what a proof reads: the crates without what checks left in them, their list, and the handles."""
    shutil.copytree(TOP / "crates", to / "crates", ignore=shutil.ignore_patterns("out"))
    for name in "crates.txt", "HANDLES":
        shutil.copy(TOP / name, to)


def tried(copy, name):
    """Tries a crate's edits in the copy, and says how many there are. Whether each was refused."""
    edits, folder = edits_of(name), folders_of(copy, name)[0]
    folder.mkdir(exist_ok=True)
    for edit in edits:
        shutil.copy(edit, folder)
    asks = ["rt", "must-fail", name]
    ran = subprocess.Popen(asks, cwd=copy, stdout=subprocess.PIPE, stderr=subprocess.STDOUT, text=True, errors="replace")
    refused = 0
    for line in ran.stdout:
        print(line, end="", flush=True)
        refused += "refused, as it must be" in line
    status = ran.wait()
    print(f"{name}: {refused} of {len(edits)} edits refused", flush=True)
    return status == 0 and refused == len(edits)


def main(names):
    every = sorted({folder.parent.name for folder in TOP.glob("crates/*/must-fail")} | {it.name for it in (TOP / "bench/edits").iterdir()})
    if lacking := [it for it in names if it not in every]:
        print(f"no edit of {' '.join(lacking)}")
        return 2
    with tempfile.TemporaryDirectory(prefix="edits-") as room:
        copied(pathlib.Path(room))
        well = [tried(pathlib.Path(room), name) for name in names or every]
    return 0 if all(well) else 1


if __name__ == "__main__":
    sys.exit(main(sys.argv[1:]))
