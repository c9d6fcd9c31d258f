#!/usr/bin/python3
"""Names each line of a crate that brings in a definition or lemma which isn't there: the module, or the name in it. It takes a second,
and finds in a merge what a check finds only when it comes to the crate.

usage: bench/tools/imports.py
"""

import pathlib
import re
import sys

TOP = pathlib.Path(__file__).resolve().parent.parent.parent / "crates"
USE = re.compile(r"\s*(?:ghost |pub )?use Rattle\.(hb_\w+)\.(specs|proofs)\.([\w.+]+?)(?:\.\{(.*)\}|\s+as\s+\w+)?;?\s*$")
DEFINED = re.compile(r"^\s*(?:abbrev |unfoldable )?pub (?:abbrev |unfoldable )?(?:record |data |mod )?([^\s:(]+)", re.M)
MEMBER = re.compile(r"^  ([^\s:]+) :", re.M)
TAKEN = re.compile(r"^pub use [^{]*\{([^}]*)\}", re.M)


def named(names):
    return {name.strip() for name in names.split(",") if name.strip()}


def names_in(text):
    """What others can name: definitions, constructors, and what is handed on from below."""
    handed = {name.split(" as ")[-1] for names in TAKEN.findall(text) for name in named(names)}
    return set(DEFINED.findall(text)) | set(MEMBER.findall(text)) | handed


def main():
    files = [f for pattern in ("specs/*.antt", "proofs/*.antt") for f in TOP.glob(f"*/{pattern}")]
    modules = {(f.parts[-3], f.parts[-2], f.stem): names_in(f.read_text()) for f in files}
    wrong = 0
    for pattern in ("specs/**/*.antt", "proofs/**/*.antt", "src/*.rt"):
        for file in sorted(TOP.glob(f"*/{pattern}")):
            for at, line in enumerate(file.read_text().split("\n"), 1):
                use = USE.match(line)
                # what is declared by code, and the goals of a function, the kit writes
                if not use or use[3].startswith(("declared", "contracts")) or "." in use[3]:
                    continue
                defined = modules.get((use[1], use[2], use[3]))
                missing = named(use[4] or "") if defined is None else {n for n in named(use[4] or "") if n.split(" as ")[0] not in defined}
                if defined is None or missing:
                    print(f"{file.relative_to(TOP.parent)}:{at}: {use[1]}.{use[2]}.{use[3]} has no {', '.join(sorted(missing)) or 'module'}")
                    wrong += 1
    return 1 if wrong else 0


sys.exit(main())
