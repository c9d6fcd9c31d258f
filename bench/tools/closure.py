#!/usr/bin/python3
"""Counts what a reader of one statement has to read: the definitions that it reaches, and their lines without comments, imports and
blank ones. Those that say what a message, a record, a policy or HPACK is are counted apart. It reads `specs` alone: of the types that code
declares it counts how many are cited, and names of std it leaves out.

usage: bench/tools/closure.py [--list] [CRATE.NAME]

Without a name it is hb_headline.Headline. With --list each definition follows, with its file, behind those that it rests on.
"""

import pathlib
import re
import sys

CRATES = pathlib.Path(__file__).resolve().parent.parent.parent / "crates"
APART = ("hb_wire", "hb_message", "hb_records", "hb_policy", "hb_hpack")
BEGINS = re.compile(r"(?:(?:abbrev|unfoldable|opaque|pub|record|data) )+([^\s:({]+)")
NAMES = re.compile(r"(?:ghost |pub )*use Rattle\.([\w.]+?)\.\{([^}]*)\};?\s*$")
MODULE = re.compile(r"(?:ghost |pub )*use Rattle\.([\w.]+) as (\w+);?\s*$")
WORD = re.compile(r"[^\s(){};,\[\]→λ×∷≡≢⊎]+")


class File:
    """A file of definitions, or of code: what it imports, and its definitions, each with its lines and the comment in front of it."""

    def __init__(self, path):
        self.path, self.lines = path, path.read_text().split("\n")
        self.names, self.modules, self.items, self.comments = {}, {}, {}, {}
        self.constructors = {}
        here = None
        for at, line in enumerate(self.lines):
            if match := NAMES.match(line):
                for word in filter(None, re.split(r",\s*", match[2].strip())):
                    name, _, short = word.strip().partition(" as ")
                    self.names[short.strip() or name] = match[1], name
            elif match := MODULE.match(line):
                self.modules[match[2]] = match[1]
            elif path.suffix == ".antt" and (match := BEGINS.match(line)) and match[1] not in ("mod", "use"):
                here = match[1]
                self.items[here], self.comments[here] = [line], self.comment_above(at)
            elif line.strip() and here and not line.lstrip().startswith("--") and not line.startswith("use "):
                self.items[here].append(line)
        for name, lines in self.items.items():
            if re.match(r"(?:pub )?data ", lines[0]):
                for line in lines[1:]:
                    self.constructors |= {word.strip(): name for word in line.partition(":")[0].split(",")}

    def comment_above(self, at):
        begin = at
        while begin and self.lines[begin - 1].startswith("--"):
            begin -= 1
        return " ".join(line.lstrip("-").strip() for line in self.lines[begin:at])

    def cites(self, text, but=""):
        """What the words of a text name, in their order: each a module and a name in it. `but` is the name that the text defines."""
        for word in WORD.findall(text):
            head, _, rest = word.partition(".")
            if word in self.names or head in self.names:
                yield self.names.get(word) or self.names[head]
            elif head in self.modules and rest:
                yield self.modules[head], rest.partition(".")[0]
            elif (own := self.constructors.get(head, head)) in self.items and own != but:
                yield self, own


def load():
    """All files of definitions, by the names of their modules."""
    files = {}
    for path in sorted(CRATES.glob("*/specs/**/*.antt")):
        crate, rest = path.relative_to(CRATES).parts[0], path.relative_to(CRATES).with_suffix("").parts[1:]
        files[".".join((crate, *rest))] = File(path)
    return files


def found(files, module, name):
    """The file that defines a name, and the name there; None for what isn't defined in `specs`."""
    file = files.get(module, module)
    if isinstance(file, str):
        return None
    name = file.constructors.get(name, name)
    return (file, name) if name in file.items else found(files, *file.names[name]) if name in file.names else None


def cited(files, file, text, but=""):
    for module, name in file.cites(text, but):
        if (at := found(files, module, name)) and at != (file, but):
            yield at


def reached(files, begins):
    """What these definitions reach, each behind all that it rests on, but for those that rest on one another."""
    order, seen = [], set()
    todo = [(at, False) for at in reversed(begins)]
    while todo:
        at, left = todo.pop()
        if left:
            order.append(at)
        elif at not in seen:
            seen.add(at)
            todo.append((at, True))
            file, name = at
            todo += [(below, False) for below in reversed(list(cited(files, file, "\n".join(file.items[name]), name)))]
    return order


def crate_of(file):
    return file.path.relative_to(CRATES).parts[0]


def sizes(order):
    """How many definitions there are, and of how many lines."""
    return len(order), sum(len(file.items[name]) for file, name in order)


def sentence(order):
    """What is reached, in words; docs/LAWS.md has them of the headline."""
    own, apart = [at for at in order if crate_of(at[0]) not in APART], [at for at in order if crate_of(at[0]) in APART]
    (many, lines), (other, more) = sizes(own), sizes(apart)
    apart = f"{other:,} of {more:,} that say what a message, a record, a policy and HPACK are"
    return f"{many:,} definitions of {lines:,} lines, {apart}, and {len(types_of_code(order)):,} types that code declares"


def types_of_code(order):
    """The types that code declares of which these definitions speak."""
    modules = {module for file, name in order for module, _ in file.cites("\n".join(file.items[name]), name) if isinstance(module, str)}
    return {module.removesuffix(".TheVariants") for module in modules if ".declared." in module}


def main(words):
    listed, words = "--list" in words, [word for word in words if word != "--list"]
    crate, _, name = (words or ["hb_headline.Headline"])[0].partition(".")
    files = load()
    begins = [(file, name) for file in files.values() if crate_of(file) == crate and name in file.items]
    if len(words) > 1 or len(begins) != 1:
        print(__doc__.split("usage: ")[1].split("\n")[0] if len(words) > 1 else f"{crate} has {len(begins)} definitions {name}")
        return 2
    order = reached(files, begins)
    print(f"{crate}.{name} reaches {sentence(order)}")
    for crate in dict.fromkeys(crate_of(file) for file, _ in order):
        many, lines = sizes([at for at in order if crate_of(at[0]) == crate])
        print(f"  {crate}: {many:,} definitions, {lines:,} lines")
    if listed:
        print("\n".join(f"{file.path.relative_to(CRATES)}: {name}" for file, name in order))
    return 0


if __name__ == "__main__":
    sys.exit(main(sys.argv[1:]))
