#!/usr/bin/python3
"""Prints crates/hb_streams_rows/src/rows.rt: what one end of an HTTP/2 connection answers to each frame in each state of
its stream, and in sequences of frames and acts. `bench/tables/streams.py all` prints every sequence, a line each.

    python3 bench/tables/streams.py > crates/hb_streams_rows/src/rows.rt && (cd crates/hb_streams_rows && rt fmt)

The machine here was written from RFC 9113 sections 5.1, 5.1.1, 5.1.2 and 8.5 and from what this repository chooses where
the RFC leaves a choice, and from nothing of hb_streams. It keeps the whole history: the state of each stream that was ever
used, and each reset.
"""

import copy
import random
import sys

LARGEST = 2147483647  # the last stream identifier
OPEN_AT_ONCE = 100  # the streams that this end lets be open at a time
KEPT = 128  # the latest of its own resets that this end still knows

IDLE, OPEN, HALF_LOCAL, HALF_REMOTE, CLOSED = "idle", "open", "half-closed (local)", "half-closed (remote)", "closed"
SIDES = {IDLE: "--", OPEN: "op", HALF_LOCAL: "-p", HALF_REMOTE: "o-", CLOSED: "--"}

# The letter of a frame or an act in a word. A capital letter is a frame with END_STREAM (flag 1).
FRAMES = {"d": "DATA", "h": "HEADERS", "r": "RST_STREAM", "w": "WINDOW_UPDATE", "p": "PRIORITY", "u": "an unknown type"}


class End:
    """One end of a connection."""

    def __init__(self, role):
        self.role = role
        self.states = {}  # of each stream that was used
        self.last = 0  # the highest of them
        self.how = {}  # why a stream is closed
        self.resets = []  # every stream that this end reset, in order

    def state(self, number):
        if number in self.states:
            return self.states[number]
        # Clients open odd streams, and a server would open even ones only by a push, which this end doesn't allow
        # (sections 5.1.1 and 8.4). The first use of a number closes the idle ones below it.
        return CLOSED if number % 2 == 1 and number < self.last else IDLE

    def use(self, number, state):
        self.states[number] = state
        self.last = max(self.last, number)

    def told(self, number):
        """The state, with the way in which the stream was closed."""
        state = self.state(number)
        if state != CLOSED:
            return f"{state}, even" if state == IDLE and number % 2 == 0 else state
        how = self.how.get(number, "skipped")
        if how in ("reset", "refused"):
            return f"closed, {how}, {'known' if self.knows_reset(number) else 'forgotten'}"
        return f"closed, {how}"

    def open_streams(self):
        """Open and half-closed streams count (section 5.1.2)."""
        return sum(state in (OPEN, HALF_LOCAL, HALF_REMOTE) for state in self.states.values())

    def knows_reset(self, number):
        return number in self.resets[-KEPT:]

    def close(self, number, how):
        self.use(number, CLOSED)
        self.how[number] = how

    def peer_ends(self, number):
        if self.states[number] == HALF_LOCAL:
            self.close(number, "both ended")
        else:
            self.states[number] = HALF_REMOTE

    def on_closed(self, number):
        """DATA or HEADERS on a closed stream. An end that reset a stream must ignore what was under way (section 5.1)."""
        return "ignored" if self.knows_reset(number) else "C5"

    def goes(self, number, end):
        if end:
            self.peer_ends(number)
        return "goes"

    def on_data(self, number, end):
        state = self.state(number)
        if state == IDLE:
            return "C1"
        if state == CLOSED:
            return self.on_closed(number)
        if state == HALF_REMOTE:
            return "S5"
        return self.goes(number, end)

    def on_headers(self, number, end):
        state = self.state(number)
        if self.role == "server" and number % 2 == 0:
            return "C1"
        if self.role == "client" and state == IDLE:
            return "C1"
        if state == CLOSED:
            return self.on_closed(number)
        if state == HALF_REMOTE:
            return "S5"
        if state == IDLE:
            return self.on_new(number, end)
        # In the tunnel of a CONNECT request only DATA may follow (section 8.5), and this profile has no trailers.
        return "S1" if self.role == "server" else self.goes(number, end)

    def on_new(self, number, end):
        if self.open_streams() >= OPEN_AT_ONCE:
            self.close(number, "refused")
            self.resets.append(number)
            return "S7"
        self.use(number, HALF_REMOTE if end else OPEN)
        return "new"

    def on_reset(self, number):
        state = self.state(number)
        if state == IDLE:
            return "C1"
        if state == CLOSED:
            return "ignored"
        self.close(number, "reset by the peer")
        return "goes"

    def on_window(self, number):
        state = self.state(number)
        if state == IDLE:
            return "C1"
        return "ignored" if state == CLOSED else "goes"

    def on_frame(self, letter, number):
        end = letter.isupper()
        kind = letter.lower()
        if kind == "d":
            return self.on_data(number, end)
        if kind == "h":
            return self.on_headers(number, end)
        if kind == "r":
            return self.on_reset(number)
        if kind == "w":
            return self.on_window(number)
        return "ignored"

    def next_own(self):
        return self.last + 2 if self.last else 1

    def open(self, limit):
        if self.open_streams() >= min(limit, OPEN_AT_ONCE):
            return "full"
        number = self.next_own()
        if number > LARGEST:
            return "spent"
        self.use(number, OPEN)
        return "opens"

    def send_end(self, number):
        if self.states[number] == HALF_REMOTE:
            self.close(number, "both ended")
        else:
            self.states[number] = HALF_LOCAL
        return "ends"

    def send_reset(self, number):
        self.close(number, "reset")
        self.resets.append(number)
        return "resets"

    def do(self, letter, number, limit=None):
        """The answer to one move, with the sides of its stream that are open afterwards: `o` its own, `p` the peer's."""
        if letter == "o":
            answer = self.open(limit)
        elif letter == "e":
            answer = self.send_end(number)
        elif letter == "x":
            answer = self.send_reset(number)
        else:
            answer = self.on_frame(letter, number)
        return f"{answer}:{SIDES[self.state(number)]}"


class Sequence:
    """Moves of one end, and the answer to each."""

    def __init__(self, role):
        self.role = role
        self.end = End(role)
        self.moves = []  # letter, number, limit, answer
        self.seen = set()  # which state met which move, with which answer

    def do(self, letter, number, limit=None):
        before = (self.role, self.end.told(number), min(self.end.open_streams(), OPEN_AT_ONCE) == OPEN_AT_ONCE)
        answer = self.end.do(letter, number, limit)
        self.moves.append((letter, number, limit, answer))
        self.seen.add((before, letter, answer, self.end.told(number)))
        return answer

    def words(self):
        """A word a move. Several in a row with the same answer are one word: one letter on every second number, or several
        letters on one number."""
        groups = []
        for letter, number, limit, answer in self.moves:
            last = groups[-1] if groups else None
            if last and last[3:] == [limit, answer] and last[0] == letter and number == last[2] + 2:
                last[2] = number
            elif last and last[1:] == [number, number, limit, answer]:
                last[0] += letter
            else:
                groups.append([letter, number, number, limit, answer])
        return [
            f"{letters}@{first}{'' if first == last else f'..{last}'}{'' if limit is None else f'/{limit}'}={answer}"
            for letters, first, last, limit, answer in groups
        ]

    def line(self):
        return " ".join([self.role] + self.words())


# ---- the table

LETTERS = "dDhHrRwWpPuU"


def server(*moves):
    return moved("server", moves)


def client(*moves):
    return moved("client", moves)


def moved(role, moves):
    sequence = Sequence(role)
    for move in moves:
        sequence.do(*move)
    return sequence


def odd(first, last):
    return range(first, last + 1, 2)


def resets(n, *opening):
    """So many streams, at least 100, opened and reset by this end, the lowest first."""
    first, others = odd(1, 199), odd(201, 2 * n - 1)
    return [move for part in (first, others) for letter in (opening, ("x",)) for move in on_each(part, letter)]


def on_each(numbers, move):
    return [(move[0], number, *move[1:]) for number in numbers]


FULL = [("h", number) for number in odd(1, 199)]
OWN_FULL = [("o", number, 100) for number in odd(1, 199)]
HELD = ("o", 1, 100)

# What it is, the moves that bring a stream there, the stream.
STATES = [
    ("idle, nothing used", server(), 1),
    ("idle, above a used one", server(("h", 5)), 7),
    ("idle, the largest number", server(("h", 5)), LARGEST),
    ("even", server(("h", 5)), 4),
    ("even, above all", server(("h", 5)), 6),
    ("skipped", server(("h", 5)), 3),
    ("open", server(("h", 5)), 5),
    ("open, the largest number", server(("h", LARGEST)), LARGEST),
    ("skipped below the largest number", server(("h", LARGEST)), LARGEST - 2),
    ("half-closed (remote) by HEADERS", server(("H", 5)), 5),
    ("half-closed (remote) by DATA", server(("h", 5), ("D", 5)), 5),
    ("half-closed (local)", server(("h", 5), ("e", 5)), 5),
    ("closed, this end ended last", server(("H", 5), ("e", 5)), 5),
    ("closed, the peer ended last", server(("h", 5), ("e", 5), ("D", 5)), 5),
    ("reset by the peer", server(("h", 5), ("r", 5)), 5),
    ("reset by the peer, half-closed (remote)", server(("H", 5), ("r", 5)), 5),
    ("reset by the peer, half-closed (local)", server(("h", 5), ("e", 5), ("r", 5)), 5),
    ("reset by this end", server(("h", 5), ("x", 5)), 5),
    ("reset by this end, half-closed (remote)", server(("H", 5), ("x", 5)), 5),
    ("reset by this end, half-closed (local)", server(("h", 5), ("e", 5), ("x", 5)), 5),
    ("reset by this end, the last of 128", server(*resets(128, "h")), 1),
    ("reset by this end, the last of 129", server(*resets(129, "h")), 1),
    ("reset by this end, the last but one of 129", server(*resets(129, "h")), 3),
    ("idle while 99 are open", server(*FULL[:-1]), 199),
    ("idle while 100 are open", server(*FULL), 201),
    ("even while 100 are open", server(*FULL), 202),
    ("skipped while 100 are open", server(*FULL[:-1], ("h", 203)), 199),
    ("open while 100 are open", server(*FULL), 1),
    ("half-closed (remote) while 100 are open", server(*FULL, ("D", 3)), 3),
    ("idle while 100 are open, some half-closed", server(*FULL, ("D", 1), ("e", 3)), 201),
    ("refused while 100 are open", server(*FULL, ("h", 201)), 201),
    ("skipped by a refused one", server(*FULL, ("h", 205)), 203),
    ("idle, a refused one closed and one of 100 reset", server(*FULL, ("h", 201), ("x", 1)), 203),
    ("refused, and 127 resets since", server(*FULL, ("h", 201), *[("h", number) for number in odd(203, 455)]), 201),
    ("refused, and 128 resets since", server(*FULL, ("h", 201), *[("h", number) for number in odd(203, 457)]), 201),
    ("idle, nothing opened", client(), 1),
    ("idle, above all opened", client(HELD), 3),
    ("idle, the largest number", client(HELD), LARGEST),
    ("even", client(HELD), 2),
    ("open", client(HELD), 1),
    ("half-closed (local)", client(HELD, ("e", 1)), 1),
    ("half-closed (remote) by HEADERS", client(HELD, ("H", 1)), 1),
    ("half-closed (remote) by DATA", client(HELD, ("D", 1)), 1),
    ("closed, this end ended last", client(HELD, ("H", 1), ("e", 1)), 1),
    ("closed, the peer ended last", client(HELD, ("e", 1), ("D", 1)), 1),
    ("closed by HEADERS of the peer", client(HELD, ("e", 1), ("H", 1)), 1),
    ("reset by the peer", client(HELD, ("r", 1)), 1),
    ("reset by this end", client(HELD, ("x", 1)), 1),
    ("reset by this end, the last of 128", client(*resets(128, "o", 100)), 1),
    ("reset by this end, the last of 129", client(*resets(129, "o", 100)), 1),
    ("reset by this end, the last but one of 129", client(*resets(129, "o", 100)), 3),
    ("open while 100 are open", client(*OWN_FULL), 199),
    ("idle while 100 are open", client(*OWN_FULL), 201),
]


def keeps(before, letter, number):
    """Whether the move leaves all as it was."""
    after = copy.deepcopy(before)
    after.do(letter, number)
    return (after.end.states, after.end.resets) == (before.end.states, before.end.resets)


def with_those_that_keep(sequence, number):
    """The frames that change nothing, in turn: each must find what the one before found."""
    kept = [letter for letter in LETTERS if keeps(sequence, letter, number)]
    for letter in kept:
        sequence.do(letter, number)
    return sequence


def table_of(before, number):
    """A line of the frames that change nothing, and one for each other frame, with those that change nothing after it."""
    yield with_those_that_keep(copy.deepcopy(before), number)
    for letter in LETTERS:
        if not keeps(before, letter, number):
            after = copy.deepcopy(before)
            after.do(letter, number)
            yield with_those_that_keep(after, number)


def opens():
    """`open` by its limit, and the numbers that it gives."""
    yield client(("o", 1, 0), ("o", 1, 1), ("o", 3, 1), ("e", 1), ("o", 3, 1), ("D", 1), ("o", 3, 1))
    yield client(("o", 1, 3), ("o", 3, 3), ("o", 5, 3), ("o", 7, 3), ("r", 3), ("o", 7, 3), ("o", 9, 3), ("o", 9, 4))
    yield client(*OWN_FULL, ("o", 201, 100), ("o", 201, 4294967295), ("x", 57), ("o", 201, 101), ("o", 203, 101))
    yield client(HELD, ("x", 1), ("o", 3, 100), ("x", 3), ("o", 5, 100), ("h", 7), ("o", 7, 100))


def table():
    lines = []
    for what, before, number in STATES:
        lines.append(f"# {before.role}: {what}, stream {number}")
        lines += [row.line() for row in table_of(before, number)]
    lines.append("# client: streams opened")
    return lines + [row.line() for row in opens()]


# ---- random sequences

SIDES_FOR = {"x": {"o", "p"}, "r": {"o", "p"}, "e": {"o"}}  # which side has to be open

SEED, SEQUENCES, KEPT_SEQUENCES = 9113, 4000, 60


def pick(rng, end):
    """A stream number: mostly one that was used, else one near it."""
    used = list(end.states)
    top = max(used, default=1)
    live = [number for number in used if SIDES[end.states[number]] != "--"]
    choice = rng.random()
    if live and choice < 0.45:
        return rng.choice(live)
    if used and choice < 0.65:
        return rng.choice(used)
    if used and choice < 0.72:
        return rng.choice(used[:3])
    if choice < 0.97:
        return min(max(1, top + rng.randrange(-6, 7)), LARGEST)
    return rng.choice([LARGEST, LARGEST - 1, LARGEST - 2, 2, 4])


def act(rng, sequence):
    """An act that this end may do now; whether there was one."""
    end = sequence.end
    own = [number for number in end.states if "o" in SIDES[end.states[number]]]
    live = [number for number in end.states if SIDES[end.states[number]] != "--"]
    if end.role == "client" and rng.random() < 0.5:
        sequence.do("o", end.next_own(), rng.choice([1, 2, 3, 5, 100, 100, 100, 4294967295]))
    elif own and rng.random() < 0.5:
        sequence.do("e", rng.choice(own))
    elif live:
        sequence.do("x", rng.choice(live))


def many(rng, sequence):
    """As many streams opened as may be, and often reset or ended; some of them refused."""
    end = sequence.end
    opening, closing = rng.choice("hhH") if end.role == "server" else "o", rng.choice("xxxre ")
    for count in rng.choice([[97], [99], [100], [101], [100, 27], [100, 28], [100, 29], [100, 31]]):
        first = end.next_own()
        for number in range(first, first + 2 * count, 2):
            if number <= LARGEST:
                sequence.do(opening, number, 100 if opening == "o" else None)
        for number in range(first, first + 2 * count, 2):
            if closing in SIDES_FOR and SIDES_FOR[closing] & set(SIDES[end.state(number)]):
                sequence.do(closing, number)


def random_sequence(rng):
    sequence = Sequence(rng.choice(["server", "client"]))
    if rng.random() < 0.1:
        many(rng, sequence)
    for _ in range(rng.randrange(4, 25)):
        if rng.random() < (0.45 if sequence.role == "client" else 0.25):
            act(rng, sequence)
        else:
            letter = rng.choices("dDhHrRwWpPuU", [6, 4, 7, 4, 3, 1, 3, 1, 1, 1, 1, 1])[0]
            sequence.do(letter, pick(rng, sequence.end))
    return sequence


def sequences():
    rng = random.Random(SEED)
    return [random_sequence(rng) for _ in range(SEQUENCES)]


def telling(all_of_them):
    """The lines of those that together show the most different moves in different states, each the one that adds most for its
    length."""
    left, seen, kept = [(sequence.line(), sequence.seen) for sequence in all_of_them], set(), []
    while len(kept) < KEPT_SEQUENCES:
        best = max(left, key=lambda other: (len(other[1] - seen) / (60 + len(other[0])), -len(other[0])))
        kept.append(best[0])
        seen |= best[1]
        left.remove(best)
    return kept


HEAD = '''//! What one end of a connection answers, as a machine that was written from RFC 9113 answers it. bench/tables/streams.py prints
//! this file.
//!
//! A line has the role of the end, and then its moves in order: their letters, `@`, the number of the stream, `=`, what each
//! of them is answered, `:`, and the sides of the stream that are open afterwards, `o` this end's own and `p` the peer's.
//! Several letters are moves on one stream; a move on `1..5` is made on 1, 3 and 5.
//!
//! A frame that comes is `d` DATA, `h` HEADERS, `r` RST_STREAM, `w` WINDOW_UPDATE, `p` PRIORITY or `u` of an unknown type,
//! with a capital letter where its flag END_STREAM is set. It is `new`, `goes` or is `ignored`, or is an error of the
//! connection, `C`, or of the stream, `S`, with a code. This end opens a stream, `o`, while fewer than the number behind `/`
//! are open, sends END_STREAM, `e`, or sends RST_STREAM, `x`.
'''


def literal(name, what, lines):
    body = "\\n\\\n".join(lines)
    return f'\n/// {what}\npub const {name}: &[u8] = b"\\\n{body}";\n'


def main():
    if sys.argv[1:] == ["all"]:
        print("\n".join(row for row in table() if not row.startswith("#")))
        print("\n".join(sequence.line() for sequence in sequences()))
        return
    print(HEAD, end="")
    print(literal("STATES", "Each frame on a stream in each state, named by the lines that begin with `#`.", table()), end="")
    kept = telling(sequences())
    print(literal("SEQUENCES", "Random sequences of moves: those that show most of them in most states.", kept), end="")


if __name__ == "__main__":
    main()
