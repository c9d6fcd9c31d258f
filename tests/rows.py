"""Reads rows of runs over real sockets, and the frames that they name; the head of tests/sockets/serve.rows says the form."""
import re
from dataclasses import dataclass, field

from table import ESCAPED, Bad

PORTS = ("plane", "upstream", "gateway", "waypoint", "door", "plain", "outbound")
# What stands behind the first word of a line
FORMS = {
    "accept": r"(\w+) (plane|upstream|gateway|waypoint)",
    "connect": r"(\w+) (door|plain|outbound)",
    **dict.fromkeys(("writes", "reads", "data", "last"), r"(\w+) (\S+(?: \S+)?)"),
    **dict.fromkeys(("shuts", "drops", "closed"), r"(\w+)"),
    "stops": r"(byte|end)",
    "fails": r"(\d+)",
    "ends": rf"({'|'.join(PORTS)}) (\d+)",
}
PORT_MARKS = b"#####"
PORT_NAMES = re.compile(rf"{{({'|'.join(PORTS)})}}".encode())


@dataclass
class Line:
    """A line of a run: where it stands, its first word, and the others."""
    at: int
    text: str
    call: str
    words: tuple


@dataclass
class Row:
    name: str
    lines: list
    # The wanted lines of standard output, and of notes and of the log on standard error
    texts: dict = field(default_factory=lambda: {">": b"", "!": b"", "+": b""})

    def has(self, call):
        return any(line.call == call for line in self.lines)


# Frames


def read_frames(text):
    """The octets of each frame, by its name."""
    frames = {}
    for line in filter(lambda line: line and not line.startswith("#"), text.splitlines()):
        kind, name, octets = line.split(" ", 2)
        if kind != "frame" or name in frames:
            raise Bad(f"no frame, or a second one of its name: {line[:60]}")
        frames[name] = ESCAPED.sub(lambda found: bytes.fromhex(found[1].decode()), octets.encode())
    return frames


def with_port(octets, port):
    return octets.replace(PORT_MARKS, b"%d" % port)


def with_ports(octets, ports):
    return PORT_NAMES.sub(lambda found: b"%d" % ports[found[1].decode()], octets)


def octets_of(words, frames, ports):
    """The octets for which the words of a line stand, where the ports have these numbers."""
    what, _, more = words.partition(" ")
    if what == "PATTERN":
        return bytes(place % 251 for place in range(int(more)))
    if what == "NUMBER":
        return ports[more].to_bytes(2, "big")
    if what.isupper() and what not in frames:
        raise Bad(f"no frame is named {what}")
    return with_port(frames.get(what, what.encode()), ports[more or "upstream"])


# Rows


class Reader:
    def __init__(self, frames):
        self.frames = frames
        self.first, self.rows = [], []
        self.unnamed = {*frames}

    def add_line(self, at, text, call, words):
        if call in ("writes", "reads", "data", "last"):
            octets_of(words[1], self.frames, dict.fromkeys(PORTS, 10000))
            self.unnamed.discard(words[1].split()[0])
        lines = self.rows[-1].lines if self.rows else self.first
        lines.append(Line(at, text, call, words))

    def read(self, at, text):
        call, _, rest = text.partition(" ")
        if text == "" or call == "#":
            return
        if call == "row":
            self.rows.append(Row(rest, [*self.first]))
        elif call in (">", "!", "+"):
            if not self.rows or not self.rows[-1].has("ends"):
                raise Bad("no run ends in front of it")
            self.rows[-1].texts[call] += f"{rest}\n".encode()
        else:
            found = call in FORMS and re.fullmatch(FORMS[call], rest)
            if not found:
                raise Bad("a line of no form")
            self.add_line(at, text, call, found.groups())


def read_rows(text, frames, name="rows"):
    """The rows of a file, which name each of its frames."""
    reader = Reader(frames)
    for at, line in enumerate(text.splitlines(), 1):
        try:
            reader.read(at, line)
        except (Bad, KeyError, ValueError) as bad:
            raise Bad(f"{name}:{at}: {bad}") from bad
    names = [row.name for row in reader.rows]
    for row in reader.rows:
        if names.count(row.name) != 1 or sum(line.call == "ends" for line in row.lines) != 1:
            raise Bad(f"{name}: another row of this name, or not one end: {row.name}")
    if reader.unnamed or not names:
        raise Bad(f"{name}: no row names {', '.join(sorted(reader.unnamed)) or 'anything'}")
    return reader.rows
