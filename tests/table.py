"""Reads a table of runs of the program; tests/README.md says the form."""
import re
import shlex
from dataclasses import dataclass, field, replace

MARKS = {"<": "input", ">": "output", "!": "error"}
LINE = re.compile(r"([<>!])(x|\.|@|\$)?(?:\*(\d+)\.\.(\d+))?(?: (.*))?")
NAMED = re.compile(r"<([A-Za-z0-9_]+)>|<(\d+)\*([^<>]*)>")
ESCAPED = re.compile(rb"\\x([0-9a-f]{2})")


class Bad(Exception):
    """A line that is of no form, and where it stands."""


@dataclass
class Run:
    """A run of the program: its words, its input, and how it is to end."""
    row: str
    words: list = None
    status: int = 0
    cuts: int = 0
    # Of each stream its octets, or where its octets come from or go to
    octets: dict = field(default_factory=dict)
    place: dict = field(default_factory=dict)
    made_by: list = None

    def copy(self, words):
        return replace(self, words=words, octets=dict(self.octets), place=dict(self.place))


def expanded(text, parts):
    """A text, each part and repetition in it at length."""
    def whole(found):
        name, many, piece = found.groups()
        if name is None:
            return piece * int(many)
        if name not in parts:
            raise Bad(f"no part is named {name}")
        return parts[name]
    return NAMED.sub(whole, NAMED.sub(whole, text))


def words_of(text, parts):
    """The words as a shell reads them, in which `\\x` and two digits stand for an octet."""
    words = [word.encode() for word in shlex.split(expanded(text, parts))]
    return [ESCAPED.sub(lambda found: bytes.fromhex(found[1].decode()), word) for word in words]


def octets_of(form, text):
    """The octets of one line."""
    if form == "x":
        return bytes.fromhex(text)
    return text.encode() if form == "." or text.endswith("\n") else text.encode() + b"\n"


def numbered(form, text, number):
    return text.replace("#", str(number).encode().hex() if form == "x" else str(number))


class Reader:
    def __init__(self):
        self.parts = {}
        self.runs = []
        self.row = None  # what the runs of the row share, once one was begun
        self.shared = True
        self.open_part = None

    def run(self):
        """The run to which a line belongs."""
        if self.row is None:
            raise Bad("no run is begun")
        return self.row if self.shared else self.runs[-1]

    def end_row(self):
        if self.row is not None and self.shared:
            raise Bad(f"{self.row.row} has no words")

    def begin_row(self, name):
        self.end_row()
        self.row, self.shared = Run(name), True

    def begin_part(self, rest):
        name, blank, text = rest.partition(" ")
        if name in self.parts:
            raise Bad(f"two parts are named {name}")
        self.parts[name] = expanded(text, self.parts)
        self.open_part = None if blank else name

    def add_part_line(self, text):
        if self.open_part is None:
            raise Bad("no part is begun")
        self.parts[self.open_part] += octets_of("", expanded(text, self.parts)).decode()

    def add_words(self, text):
        if self.row is None:
            raise Bad("no run is begun")
        self.runs.append(self.row.copy(words_of(text, self.parts)))
        self.shared = False

    def add_stream(self, mark, form, first, last, text):
        run, stream = self.run(), MARKS[mark]
        if form == "@":
            run.place[stream] = text
        elif form == "$":
            run.made_by = words_of(text, self.parts)
        else:
            text = expanded(text, self.parts)
            each = [text] if first is None else [numbered(form, text, n) for n in range(int(first), int(last) + 1)]
            run.octets[stream] = run.octets.get(stream, b"") + b"".join(octets_of(form, piece) for piece in each)

    def read(self, line):
        kind, _, rest = line.partition(" ")
        if kind != "|":
            self.open_part = None
        if line == "" or line.startswith("#"):
            return
        if kind == "run":
            self.begin_row(rest)
        elif kind == "part":
            self.begin_part(rest)
        elif kind == "|":
            self.add_part_line(rest)
        elif kind == "$":
            self.add_words(rest)
        elif kind == "=":
            self.run().status = int(rest)
        elif kind == "cut":
            self.run().cuts = int(rest)
        else:
            found = LINE.fullmatch(line)
            if not found:
                raise Bad("a line of no form")
            mark, form, first, last, text = found.groups()
            self.add_stream(mark, form or "", first, last, text or "")


def read_table(text, name="a table"):
    """The runs of a table."""
    reader = Reader()
    at = 0
    try:
        for at, line in enumerate(text.split("\n"), 1):
            reader.read(line)
        reader.end_row()
    except (Bad, ValueError) as bad:
        raise Bad(f"{name}:{at}: {bad}") from bad
    rows = [run.row for run in reader.runs]
    if not rows:
        raise Bad(f"{name}: no run")
    if len({*rows}) != sum(1 for before, row in zip([None, *rows], rows) if before != row):
        raise Bad(f"{name}: two rows of one name")
    return reader.runs
