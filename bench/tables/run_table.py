"""Writes a table of runs of the program in the form of tests/README.md, for the scripts beside this one."""
import pathlib
import re
import shlex
import sys

sys.path.insert(0, str(pathlib.Path(__file__).resolve().parents[2] / "tests"))

import table as reader  # noqa: E402

# Words and messages that most tables of `check` and `show` name
PEER = "spiffe://cluster.local/ns/a/sa/c"
AS_C = f"check --node n1 10.0.0.9 {PEER} 10.0.0.7:8080"
AS_D = "check --node n1 10.0.0.9 spiffe://cluster.local/ns/b/sa/d 10.0.0.7:8080"
AS_NONE = "check --node n1 10.0.0.9 none 10.0.0.7:8080"
OF_X = "check --node n1 --network x 10.0.0.9 none 10.0.0.7:8080"


def is_shown(text):
    """Whether each character of a line can be seen, and none is a mark of the form."""
    return text.isprintable() and "<" not in text


def with_blanks(digits):
    return re.sub("..", r" \g<0>", digits)


def repeated(octets, at):
    """How often the octets from a place stand there behind one another, and how many they are; ten times at least."""
    for size in range(1, 41):
        many = 1
        while octets[at:at + size] == octets[at + many * size:at + (many + 1) * size]:
            many += 1
        if many >= 10 and at + size <= len(octets):
            return many, size
    return None


def with_repeats(digits):
    """Octets in digits, a blank in front of each, and octets that stand many times as how often they do."""
    octets, at, text = bytes.fromhex(digits), 0, []
    while at < len(octets):
        many, size = repeated(octets, at) or (1, 1)
        piece = octets[at:at + size].hex()
        text.append(f"<{many}*{piece}>" if many > 1 else f" {piece}")
        at += many * size
    return "".join(text)


class Table:
    """A table that is written: its head, its parts that stand in a row, and its rows.

    A part is octets in hexadecimal digits, some text of a line, or lines; it stands for itself wherever it is found."""

    def __init__(self, head, parts):
        self.head = head
        self.lines = {name: text for name, text in parts.items() if text.endswith("\n")}
        self.digits = {name: text for name, text in parts.items() if re.fullmatch("([0-9a-f]{2})+", text)}
        self.texts = {name: text for name, text in parts.items() if name not in self.lines and name not in self.digits}
        self.parts = parts
        self.used = set()
        self.body = []
        self.rows = []  # of each run what it is read as
        self.input, self.common = None, (0, "")

    # Texts

    def longest_first(self, parts):
        return sorted(parts.items(), key=lambda part: -len(part[1]))

    def named_digits(self, found):
        """Octets in digits, with those that stand many times as how often they do, and with parts by their names."""
        text = with_repeats(found[0])
        for name, content in self.longest_first(self.digits):
            if with_blanks(content) in text:
                self.used.add(name)
                text = text.replace(with_blanks(content), f"<{name}>")
        return text.replace(" ", "")

    def line(self, text):
        """A text of a line, in which parts stand by their names."""
        for name, content in self.longest_first(self.texts):
            if content in text:
                self.used.add(name)
                text = text.replace(content, f"<{name}>")
        pieces = re.split("(<.*?>)", text)
        return "".join(piece if piece.startswith("<") else re.sub("(?<![0-9a-z])(?:[0-9a-f]{2}){4,}(?![0-9a-z])", self.named_digits, piece)
                       for piece in pieces)

    def put(self, mark, text, form=""):
        self.body.append(f"{mark}{form} {text}" if text else f"{mark}{form}")

    def stream(self, mark, text):
        """The lines that spell a text."""
        for name, content in self.longest_first(self.lines):
            other = re.sub(f"^{re.escape(content)}", f"<{name}>\n", text, flags=re.M)
            if other != text:
                self.used.add(name)
                text = other
        lines = text.split("\n")
        last = lines.pop()
        for at, line in enumerate(lines):
            if re.fullmatch("<[a-z0-9_]+>", line) or is_shown(line):
                self.put(mark, line if line.startswith("<") else self.line(line))
            else:
                self.put(mark, (line + "\n").encode().hex(), "x")
        if last:
            self.put(mark, last if is_shown(last) else last.encode().hex(), "." if is_shown(last) else "x")

    def words(self, words):
        """Words as a shell reads them."""
        text = shlex.join(words) if not isinstance(words, str) else words
        return self.line(re.sub(r"(\w)\1{99,}", lambda many: f"<{len(many[0])}*{many[1]}>", text))

    # Rows

    def ends(self, status, output, error):
        self.stream(">", output)
        self.stream("!", error)
        if status:
            self.body.append(f"= {status}")

    def begin(self, name):
        self.body += ["", f"run {name}"]
        self.input, self.common = None, (0, "")

    def run(self, words, status=0, output="", error=""):
        """A run of the row that was begun."""
        self.put("$", self.words(words))
        self.ends(status, output, error)
        self.rows.append((self.input, status or self.common[0], output.encode(), (self.common[1] + error).encode()))

    def source(self, place, form="@"):
        """Where the input of each run of the row comes from: a file or a folder, or with `$` the output of a run with these words."""
        self.put("<", place, form)

    def wanted(self, status, error):
        """How each run of the row ends."""
        self.ends(status, "", error)
        self.common = (status, error)

    def octets(self, digits):
        """The input of each run of the row: digits, and names of parts in capitals between them."""
        if digits:
            self.used |= {word.lower() for word in re.findall("[A-Z_]+", digits)}
            self.put("<", re.sub("[A-Z_]+", lambda name: f"<{name[0].lower()}>", digits), "x")

    def script(self, name, words, script, status, output, error, cuts=0):
        """A row of one run over a script."""
        self.begin(name)
        if cuts:
            self.body.append(f"cut {cuts}")
        self.stream("<", script)
        self.input = script.encode()
        self.run(words, status, output, error)

    # The file

    def part(self, name):
        text = self.parts[name]
        if name not in self.lines:
            return [f"part {name} {text}"]
        return [f"part {name}", *(f"| {self.line(line)}" for line in text.splitlines())]

    def text(self):
        lines = {name: self.part(name) for name in self.parts if name in self.lines and name in self.used}
        short = [line for name in self.parts if name in self.used and name not in self.lines for line in self.part(name)]
        long = [line for part in lines.values() for line in part]
        return "\n".join([*(f"# {line}" for line in self.head), "", *short, *long, *self.body]) + "\n"

    def print(self):
        """Prints the table, if it is read as it was meant."""
        text = self.text()
        for run, row in zip(reader.read_table(text), self.rows, strict=True):
            streams = [run.octets.get(name, b"") for name in ("input", "output", "error")]
            assert (streams[0] if row[0] is not None else None, run.status, *streams[1:]) == row, run.row
        sys.stdout.write(text)
