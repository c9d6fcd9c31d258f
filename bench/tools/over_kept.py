#!/usr/bin/env python3
"""Checks one crate over libraries that were built before, or over sources, by rattle itself.

usage: bench/tools/over_kept.py build [--lanes N] [--from TREE,..] [NAME..]
       bench/tools/over_kept.py check [--from TREE,..] NAME [rattle's flags for a check]
       bench/tools/over_kept.py stamp NAME..

`build` proves the crates that are named, or all libraries, and those below them, N side by side, the longest chain first, and keeps each in
its folder out/: what later runs find unchanged is taken from there. `check` proves one crate (`--only PATH`, `--test`, `--allow-holes` and
the like may follow). A library whose files, and those of all below it, are as when it was built is taken as it stands, here or in another
TREE; any other is read as source, and its functions are proved along where what is checked calls them. So the crates of a chain can be
worked on at once, before the lower ones are proved. Its first line names the sources. `stamp` tells `rt` that what `build` left in out/ is
up to date, so that `rt must-fail NAME` and `rt plant` don't prove it again.

It gives no verdict that counts: that is the gate's. It needs Python 3 and the kit alone.
"""

import hashlib
import os
import pathlib
import shutil
import subprocess
import sys
import threading
import time

TOP = pathlib.Path(__file__).resolve().parent.parent.parent
KIT = pathlib.Path(shutil.which("rattle")).resolve().parent.parent
PARTS = ("src", "specs", "proofs")


def crates_of(tree):
    """The crates of a tree's crates.txt, each with all that it uses."""
    used = {}
    for line in (tree / "crates.txt").read_text().splitlines():
        name, colon, rest = line.split("#")[0].partition(":")
        if colon:
            used[name.split()[0]] = rest.split()
    return used


class Tree:
    def __init__(self, top, others=()):
        self.top, self.others, self.uses, self.sums, self.lower = top, others, crates_of(top), {}, {}

    def below(self, name):
        """The crates of the tree below this one, each behind those that it uses."""
        if name not in self.lower:
            found = {}
            for dep in filter(self.uses.__contains__, self.uses[name]):
                found.update(dict.fromkeys([*self.below(dep), dep]))
            self.lower[name] = list(found)
        return self.lower[name]

    def files(self, name):
        folder = self.top / "crates" / name
        return sorted(it for part in PARTS for end in ("rt", "antt") for it in (folder / part).rglob(f"*.{end}"))

    def size(self, name):
        return sum(it.stat().st_size for it in self.files(name))

    def sum(self, name):
        """A sum of the crate's files, and of those of all crates below it."""
        if name not in self.sums:
            made = hashlib.sha256()
            for file in self.files(name):
                made.update(str(file.relative_to(self.top)).encode() + file.read_bytes())
            for dep in sorted(filter(self.uses.__contains__, self.uses[name])):
                made.update(self.sum(dep).encode())
            self.sums[name] = made.hexdigest()
        return self.sums[name]

    def built(self, name):
        """The library as it was built of these files, here or in another tree. None where it wasn't."""
        for top in (self.top, *self.others):
            folder = top / "crates" / name / "out/rlib"
            if (folder / "sum").is_file() and (folder / "sum").read_text() == self.sum(name):
                return folder / f"{name}.rlib"
        return None

    def of_kit(self, name):
        return ["std", *(it for it in self.uses[name] if it not in self.uses)]

    def words(self, name):
        """The words by which rattle reads the crate, and the libraries that it reads as sources."""
        main = "src/main.rt" if (self.top / "crates" / name / "src/main.rt").is_file() else "src/lib.rt"
        libraries, sources = {}, []
        for dep in self.below(name):
            library = None if set(sources) & set(self.below(dep)) else self.built(dep)
            if library:
                libraries[dep] = library
            else:
                sources.append(dep)
        kit = dict.fromkeys([*self.of_kit(name), *(["core"] if sources else []), *(it for dep in sources for it in self.of_kit(dep))])
        words = ["--crate-name", name, main, "-L", f"dependency={KIT}/rlibs"]
        words += [word for it in kit for word in ("--extern", f"{it}={KIT}/rlibs/{it}.rlib")]
        for dep, library in libraries.items():
            if sources or dep in self.uses[name]:
                words += ["--extern", f"{dep}={library}"]
            words += ["-L", f"dependency={library.parent}"]
        for dep in sources:
            uses = dict.fromkeys(["core", *self.of_kit(dep), *filter(self.uses.__contains__, self.uses[dep])])
            words += ["--lib", f"{dep}:{','.join(uses)}={self.top}/crates/{dep}/src/lib.rt"]
        words += ["--antt-project", f"{KIT}/rattle/logic/antt-project.json", "--logic-built", f"{KIT}/logic_built", "--links", f"{name}="]
        return words, sources

    def call(self, name, words, out=None):
        folder = self.top / "crates" / name
        (folder / "out/rlib").mkdir(parents=True, exist_ok=True)
        how = {"stdin": subprocess.DEVNULL, "stdout": out, "stderr": subprocess.STDOUT if out else None}
        return subprocess.run(["rattle", *words, "--incremental", f"{folder}/out/incremental"], cwd=folder, **how).returncode

    def check(self, name, flags):
        words, sources = self.words(name)
        print("sources:", *(sources or ["none"]), flush=True)
        jobs = [] if any(it.startswith("--jobs") for it in flags) else ["--jobs", "1"]
        return self.call(name, ["check", *words, *jobs, *flags])

    def build(self, name):
        """Builds the library, whose libraries are built. Whether it is proved."""
        if self.built(name):
            return True
        words, _ = self.words(name)
        folder = self.top / "crates" / name / "out"
        (folder / "rlib").mkdir(parents=True, exist_ok=True)
        (folder / "rlib/sum").unlink(missing_ok=True)
        with open(folder / "log", "w", encoding="utf-8") as log:
            status = self.call(name, ["build", *words, "--jobs", "1", "-o", f"{folder}/rlib/{name}.rlib"], log)
        if status == 0:
            (folder / "rlib/sum").write_text(self.sum(name))
        return status == 0


def build_all(tree, names, lanes):
    """Builds these and all below them. How many failed, or have one below them that did."""
    wanted = list(dict.fromkeys(it for name in names for it in [*tree.below(name), name]))
    weight, ended, turn = {}, {}, threading.Condition()
    for name in reversed(wanted):
        weight[name] = tree.size(name) + max([weight[it] for it in wanted if it in weight and name in tree.uses[it]], default=0)

    def next_one():
        """A crate that can be built now; None while there is none, and False where none is left."""
        left = [it for it in wanted if it not in ended]
        for name in left:
            if any(ended.get(it) is False for it in tree.below(name)):
                ended[name] = False
        ready = [it for it in left if it not in ended and all(ended.get(dep) for dep in tree.below(it))]
        return max(ready, key=weight.get) if ready else None if any(it not in ended or ended[it] is None for it in wanted) else False

    def work():
        while True:
            with turn:
                while (name := next_one()) is None:
                    turn.wait(1)
                if name is False:
                    return
                ended[name] = None
            start = time.time()
            is_well = tree.build(name)
            with turn:
                ended[name] = is_well
                print(f"{name}: {'built' if is_well else 'NOT PROVED, see its out/log'}, {time.time() - start:.0f} s", flush=True)
                turn.notify_all()

    threads = [threading.Thread(target=work) for _ in range(lanes)]
    for thread in threads:
        thread.start()
    for thread in threads:
        thread.join()
    return sum(not it for it in ended.values())


def stamp(names):
    """Writes for rt that these libraries, and those below them, are as they were built."""
    sys.path.insert(0, str(KIT / "bin"))
    import rtlib

    made, sums, lower = rtlib.Crate.stamp, {}, {}
    rtlib.Crate.stamp = lambda crate: sums.get(crate.folder) or sums.setdefault(crate.folder, made(crate))
    walked = rtlib.Crate.below
    rtlib.Crate.below = lambda crate: lower[crate.folder] if crate.folder in lower else lower.setdefault(crate.folder, walked(crate))
    crates = {it.name: it for it in rtlib.crates_below(str(TOP))}
    tree = Tree(TOP)
    for name in dict.fromkeys(it for name in names for it in [*tree.below(name), name]):
        if tree.built(name):
            pathlib.Path(crates[name].folder, "out/rlib/stamp").write_text(crates[name].stamp())
        else:
            print(f"{name} isn't built")


def main():
    verb, *words = sys.argv[1:] or [""]
    lanes, others = 4, ()
    while words and words[0] in ("--lanes", "--from"):
        if words[0] == "--lanes":
            lanes = int(words[1])
        else:
            others = [pathlib.Path(it).resolve() for it in words[1].split(",")]
        words = words[2:]
    tree = Tree(TOP, others)
    if verb == "build":
        programs = [it for it in tree.uses if (TOP / "crates" / it / "src/main.rt").is_file()]
        return 1 if build_all(tree, words or [it for it in tree.uses if it not in programs], lanes) else 0
    if verb == "check" and words:
        return tree.check(words[0], words[1:])
    if verb == "stamp" and words:
        return stamp(words)
    print(__doc__)
    return 2


if __name__ == "__main__":
    sys.exit(main())
