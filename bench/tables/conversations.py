#!/usr/bin/python3
"""Prints crates/hb_conn_rows/src/conversation_rows.rt: conversations of one connection with a peer, Debian's python3-h2.

    /usr/bin/python3 bench/tables/conversations.py > crates/hb_conn_rows/src/conversation_rows.rt

The machine here was written from RFC 9113 and from what this repository chooses where the RFC leaves a choice. It takes the
octets of h2, tells what happened, and makes the octets that this end has to put; h2 gets them, and the last lines of a
conversation say what it saw. Wherever all octets of both ends have arrived, the windows of both are compared, and at the
end what h2 heard with what this end put; where they differ, a line on standard error says so. Header blocks of h2 are read
by python3-hpack. Frames that h2 would not write itself are written by hand, and h2 doesn't know of them.

Two things are told as hb_conn's definitions have them, since no standard says them: DATA without octets is a chunk too, and
WINDOW_UPDATE of the connection stands in front of whatever else the same DATA makes this end put. The output never gets so
full that a frame is owed.
"""

import random
import re
import sys

import h2.config
import h2.connection
import h2.events
import h2.exceptions
import h2.settings
import hpack

DATA, HEADERS, PRIORITY, RST_STREAM, SETTINGS, PUSH_PROMISE, PING, GOAWAY, WINDOW_UPDATE, CONTINUATION = range(10)
PREFACE = b"PRI * HTTP/2.0\r\n\r\nSM\r\n\r\n"
LARGEST = 2147483647  # of windows and of stream numbers
FRAME_SIZE = 16384
CAPACITY = 65536  # octets of the output
STATUSES = {200: 8, 204: 9, 206: 10, 304: 11, 400: 12, 404: 13, 500: 14}  # the static table (RFC 7541 appendix A)


class ConnectionFault(Exception):
    pass


class StreamFault(Exception):
    pass


def frame(kind, flags, stream, payload=b""):
    return len(payload).to_bytes(3, "big") + bytes([kind, flags]) + stream.to_bytes(4, "big") + payload


def settings(digits):
    return frame(SETTINGS, 0, 0, bytes.fromhex(digits))


def four(number):
    return number.to_bytes(4, "big")


class Part:
    """A frame in the output."""

    def __init__(self, octets, stream, size, is_data):
        self.octets, self.stream, self.size, self.is_data, self.begun = octets, stream, size, is_data, False


class Stream:
    def __init__(self, sending):
        self.own = self.peer = True
        self.sending = sending  # what the peer lets this end send
        self.granted, self.owed = 65535, 0  # what the peer may send; what is used up and not granted again
        self.creditable = 0


class End:
    """This end of the connection."""

    def __init__(self, role):
        self.role = role
        self.parts = []
        self.held = b""
        self.preface = role == "server"  # is still to come
        self.settled = self.over = False
        self.block = None  # the stream, END_STREAM and the octets of a header block that isn't whole
        self.decoder = hpack.Decoder()
        self.updated = False  # the first header block was put
        self.streams = {}
        self.last_peer = 0
        self.last_own = -1
        self.resets = []
        self.sending, self.granted, self.owed = 65535, 65535, 0
        self.initial, self.frame_size, self.most = 65535, FRAME_SIZE, 4294967295
        if role == "server":
            self.put(settings("000300000064000600004000"))
        else:
            self.put(PREFACE + settings("000200000000000600004000"))

    def output(self):
        return b"".join(part.octets for part in self.parts)

    def put(self, octets, stream=0, size=0, is_data=False):
        self.parts.append(Part(octets, stream, size, is_data))
        assert len(self.output()) <= CAPACITY - 256

    def wrote(self, n):
        while n:
            part = self.parts[0]
            went = min(n, len(part.octets))
            part.octets, part.begun = part.octets[went:], True
            n -= went
            if not part.octets:
                self.parts.pop(0)

    def state(self, number):
        """idle, open or closed; a number that was skipped is closed (RFC 9113 section 5.1.1)."""
        if number in self.streams:
            return "open"
        last = self.last_peer if self.role == "server" else self.last_own
        return "closed" if number % 2 == 1 and number <= last else "idle"

    def take_back(self, number):
        """DATA of the stream that hasn't begun, END_STREAM included."""
        for part in [p for p in self.parts if p.is_data and not p.begun and number in (None, p.stream)]:
            self.parts.remove(part)
            self.sending += part.size
            if part.stream in self.streams:
                self.streams[part.stream].sending += part.size

    def unbegun(self, number):
        return sum(p.size for p in self.parts if p.is_data and not p.begun and number in (0, p.stream))

    def close_ended(self, number):
        stream = self.streams[number]
        if not stream.own and not stream.peer:
            del self.streams[number]

    def cut_off(self, number, code):
        """This end resets the stream (RFC 9113 section 5.4.2)."""
        self.take_back(number)
        self.streams.pop(number, None)
        self.resets = (self.resets + [number])[-128:]
        self.put(frame(RST_STREAM, 0, number, four(code)))

    # What is taken

    def take(self, octets):
        """The octets come; what happened."""
        if self.over:
            return []
        self.held += octets
        told = []
        try:
            self.take_preface()
            while not self.preface and len(self.held) >= 9:
                length = int.from_bytes(self.held[:3], "big")
                if length > FRAME_SIZE:
                    raise ConnectionFault(6)
                if len(self.held) < 9 + length:
                    break
                kind, flags, number = self.held[3], self.held[4], int.from_bytes(self.held[5:9], "big") & LARGEST
                payload, self.held = self.held[9 : 9 + length], self.held[9 + length :]
                try:
                    told += self.on_frame(kind, flags, number, payload)
                except StreamFault as fault:
                    self.cut_off(number, fault.args[0])
                    told.append(f"broken {number} {fault.args[0]}")
        except ConnectionFault as fault:
            self.take_back(None)
            self.put(frame(GOAWAY, 0, 0, four(self.last_peer) + four(fault.args[0])))
            self.over = True
            told.append(f"fault {fault.args[0]}")
        return told

    def take_preface(self):
        if self.preface and len(self.held) >= 24:
            if self.held[:24] != PREFACE:
                raise ConnectionFault(1)
            self.preface, self.held = False, self.held[24:]

    def on_frame(self, kind, flags, number, payload):
        self.check_place(kind, flags, number)
        size = len(payload)
        if kind in (DATA, HEADERS):
            payload = self.without_padding(kind, flags, payload)
        self.check_size(kind, flags, size)
        if kind == DATA:
            return self.on_data(number, payload, size, flags & 1 == 1)
        if kind == HEADERS:
            return self.on_block(number, flags & 1 == 1, payload, flags & 4)
        if kind == CONTINUATION:
            return self.on_block(number, self.block[1], self.block[2] + payload, flags & 4)
        if kind == RST_STREAM:
            return self.on_reset(number, int.from_bytes(payload, "big"))
        if kind == SETTINGS and flags & 1 == 0:
            return self.on_settings(payload)
        if kind == PING and flags & 1 == 0:
            self.put(frame(PING, 1, 0, payload))
        if kind == GOAWAY:
            return [f"gone {int.from_bytes(payload[:4], 'big') & LARGEST}"]
        if kind == WINDOW_UPDATE:
            return self.on_window(number, int.from_bytes(payload, "big") & LARGEST)
        return []

    def check_place(self, kind, flags, number):
        if not self.settled and (kind != SETTINGS or flags & 1):
            raise ConnectionFault(1)
        if self.block and (kind != CONTINUATION or number != self.block[0]):
            raise ConnectionFault(1)
        if not self.block and kind == CONTINUATION:
            raise ConnectionFault(1)
        if kind in (DATA, HEADERS, PRIORITY, RST_STREAM) and number == 0:
            raise ConnectionFault(1)
        if kind in (SETTINGS, PING, GOAWAY) and number != 0:
            raise ConnectionFault(1)
        if kind == PUSH_PROMISE:
            raise ConnectionFault(1)

    @staticmethod
    def without_padding(kind, flags, payload):
        padding = 0
        if flags & 8:
            if not payload:
                raise ConnectionFault(6)
            padding, payload = payload[0], payload[1:]
        if kind == HEADERS and flags & 0x20:
            if len(payload) < 5:
                raise ConnectionFault(6)
            payload = payload[5:]
        if padding > len(payload):
            raise ConnectionFault(1)
        return payload[: len(payload) - padding]

    @staticmethod
    def check_size(kind, flags, size):
        sizes = {PRIORITY: 5, RST_STREAM: 4, PING: 8, WINDOW_UPDATE: 4}
        wrong = kind in sizes and size != sizes[kind] or kind == GOAWAY and size < 8
        if wrong or kind == SETTINGS and (size % 6 or flags & 1 and size):
            raise ConnectionFault(6)

    def on_data(self, number, octets, size, end):
        state = self.state(number)
        if state == "idle":
            raise ConnectionFault(1)
        if size > self.granted:
            raise ConnectionFault(3)
        self.granted -= size
        self.owed += size
        if self.owed >= 32768:
            self.put(frame(WINDOW_UPDATE, 0, 0, four(self.owed)))
            self.granted, self.owed = self.granted + self.owed, 0
        if state == "closed":
            if number in self.resets:
                return []
            raise ConnectionFault(5)
        stream = self.streams[number]
        if not stream.peer:
            raise StreamFault(5)
        if size > stream.granted:
            raise StreamFault(3)
        stream.granted -= size
        stream.owed += size - len(octets)
        stream.creditable += len(octets)
        told = [f"chunk {number} {words_of(octets)}"]
        if end:
            stream.peer = False
            self.close_ended(number)
            told.append(f"ended {number}")
        else:
            self.grant(number)
        return told

    def grant(self, number):
        stream = self.streams[number]
        if stream.peer and stream.owed >= 32768:
            self.put(frame(WINDOW_UPDATE, 0, number, four(stream.owed)))
            stream.granted, stream.owed = stream.granted + stream.owed, 0

    def on_block(self, number, end, octets, whole):
        self.block = (number, end, octets)
        if len(octets) > 32768:
            raise ConnectionFault(11)
        if not whole:
            return []
        self.block = None
        try:
            headers = self.decoder.decode(octets, raw=True)
        except hpack.HPACKError:
            raise ConnectionFault(9)
        return self.on_headers(number, end, headers)

    def on_headers(self, number, end, headers):
        state = self.state(number)
        if state == "idle":
            if self.role == "client" or number % 2 == 0:
                raise ConnectionFault(1)
            self.last_peer = number
            if len(self.streams) >= 100:
                raise StreamFault(7)
            self.streams[number] = Stream(self.initial)
        elif state == "closed":
            if number in self.resets:
                return []
            raise ConnectionFault(5)
        elif not self.streams[number].peer:
            raise StreamFault(5)
        elif self.role == "server":
            raise StreamFault(1)
        if end:
            self.streams[number].peer = False
            self.close_ended(number)
        size = sum(len(name) + len(value) + 32 for name, value in headers)
        shown = ",".join(f"{name.decode()}={value.decode()}" for name, value in headers) if size < 1000 else "+"
        return [f"opened {number} {'end' if end else 'open'} {size} {shown}"]

    def on_reset(self, number, code):
        state = self.state(number)
        if state == "idle":
            raise ConnectionFault(1)
        if state == "closed":
            return []
        self.take_back(number)
        del self.streams[number]
        return [f"reset {number} {code}"]

    def on_settings(self, payload):
        words = [payload[i : i + 6] for i in range(0, len(payload), 6)]
        pairs = [(int.from_bytes(word[:2], "big"), int.from_bytes(word[2:], "big")) for word in words]
        for key, value in pairs:
            if key == 2 and (value > 1 or value == 1 and self.role == "client"):
                raise ConnectionFault(1)
            if key == 5 and not 16384 <= value <= 16777215:
                raise ConnectionFault(1)
        for key, value in pairs:
            if key == 3:
                self.most = value
            if key == 5:
                self.frame_size = value
            if key == 4:
                self.resize(value)
        self.settled = True
        self.put(frame(SETTINGS, 1, 0))
        return []

    def resize(self, value):
        if value > LARGEST:
            raise ConnectionFault(3)
        for number, stream in self.streams.items():
            stream.sending += value - self.initial
            if stream.sending + self.unbegun(number) > LARGEST:
                raise ConnectionFault(3)
        self.initial = value

    def on_window(self, number, n):
        if number == 0:
            if n == 0:
                raise ConnectionFault(1)
            if self.sending + self.unbegun(0) + n > LARGEST:
                raise ConnectionFault(3)
            self.sending += n
            return []
        state = self.state(number)
        if state == "idle":
            raise ConnectionFault(1)
        if state == "closed":
            return []
        if n == 0:
            raise StreamFault(1)
        if self.streams[number].sending + self.unbegun(number) + n > LARGEST:
            raise StreamFault(3)
        self.streams[number].sending += n
        return []

    # What this end does

    def begin_block(self):
        update, self.updated = (b"" if self.updated else b"\x20"), True
        return update

    def end_own(self, number):
        self.streams[number].own = False
        self.close_ended(number)

    def open(self, authority, end):
        """A CONNECT of the authority; its stream, or 0 where none may be opened."""
        if len(self.streams) >= min(100, self.most):
            return 0
        self.last_own += 2
        number = self.last_own
        block = self.begin_block() + b"\x02\x07CONNECT\x01" + bytes([len(authority)]) + authority.encode()
        self.streams[number] = Stream(self.initial)
        self.put(frame(HEADERS, 5 if end else 4, number, block))
        if end:
            self.end_own(number)
        return number

    def status(self, number, status, end):
        known = STATUSES.get(status)
        field = bytes([0x80 + known]) if known else b"\x08\x03" + str(status).encode()
        self.put(frame(HEADERS, 5 if end else 4, number, self.begin_block() + field))
        if end:
            self.end_own(number)

    def end(self, number):
        self.put(frame(DATA, 1, number), number, 0, True)
        self.end_own(number)

    def credit(self, number, n):
        stream = self.streams[number]
        stream.creditable -= n
        stream.owed += n
        self.grant(number)

    def some(self, number, octets):
        stream = self.streams[number]
        n = min(len(octets), stream.sending, self.sending, self.frame_size, FRAME_SIZE)
        if self.parts or n <= 0:
            return 0
        stream.sending -= n
        self.sending -= n
        self.put(frame(DATA, 0, number, octets[:n]), number, n, True)
        return n


def words_of(octets):
    """Hexadecimal digits, with runs of one octet as `61*9`."""
    words, plain = [], ""
    for run in re.finditer(rb"(.)\1*", octets, re.DOTALL):
        octet, times = run.group(1).hex(), len(run.group(0))
        if times < 9:
            plain += octet * times
        else:
            words += [plain, f"{octet}*{times}"]
            plain = ""
    return " ".join(word for word in words + [plain] if word)


H2 = "00010000100000020000000%d00040000ffff000500004000000800000000000300000064000600010000"
NAMES = {  # of octets, in the words of crates/hb_conn_rows/src/octets.rt
    PREFACE: "PRE",
    frame(SETTINGS, 1, 0): "ACK",
    settings("000300000064000600004000"): "OWN_SERVER",
    settings("000200000000000600004000"): "OWN_CLIENT",
    settings(H2 % 1): "H2_CLIENT",
    settings(H2 % 0): "H2_SERVER",
}


def named(octets):
    """The words of octets, those in front that have names by their names."""
    for known, name in NAMES.items():
        if octets.startswith(known):
            return f"{name} {named(octets[len(known) :])}".rstrip()
    return words_of(octets)


def is_digits(word):
    return "*" not in word and word not in NAMES.values()


def frames_of(octets):
    """The octets, cut behind the preface and each frame."""
    if octets.startswith(PREFACE[:3]):
        yield octets[:24]
        octets = octets[24:]
    while octets:
        size = 9 + int.from_bytes(octets[:3], "big")
        yield octets[:size]
        octets = octets[size:]


def shown_event(event):
    """What h2 saw, in a few words."""
    name = type(event).__name__
    number = getattr(event, "stream_id", None)
    words = [name] + ([str(number)] if number is not None else [])
    if hasattr(event, "headers"):
        words += [f"{text(name)}={text(value)}" for name, value in event.headers]
    if isinstance(event, h2.events.DataReceived):
        words.append(str(len(event.data)))
    if isinstance(event, h2.events.WindowUpdated):
        words.append(str(event.delta))
    if isinstance(event, (h2.events.StreamReset, h2.events.ConnectionTerminated)):
        words.append(str(int(event.error_code)))
    if isinstance(event, h2.events.ConnectionTerminated):
        words.append(f"last {event.last_stream_id}")
    return " ".join(words)


def text(word):
    return word.decode() if isinstance(word, bytes) else word


class Talk:
    """A conversation, and its lines."""

    def __init__(self, name, role, seed=0):
        self.ours, self.role, self.random = End(role), role, random.Random(seed)
        self.lines, self.seen = [f"{role} {name}"], []
        self.peer = h2.connection.H2Connection(
            h2.config.H2Configuration(
                client_side=role == "server",
                header_encoding=None,
                validate_inbound_headers=False,
                validate_outbound_headers=False,
                normalize_inbound_headers=False,
                normalize_outbound_headers=False,
            )
        )
        self.peer.initiate_connection()
        self.by_hand = False  # h2 doesn't know of frames that were written by hand
        self.counter = 96
        self.put, self.heard = {}, {}  # of each stream the statuses or requests and the DATA, as put and as h2 heard them

    def line(self, words):
        self.lines.append(words.rstrip())

    # The peer's octets

    def take(self, octets):
        told = self.ours.take(octets)
        words, line = named(octets), "take"
        if self.lines[-1].startswith("take ") and len(self.lines[-1]) + len(words) < 130:
            line = self.lines.pop()
        for word in words.split(" "):
            while len(line) + len(word) > 130:
                room = max(0, 130 - len(line)) // 2 * 2 if is_digits(word) else 0
                self.line(f"{line} {word[:room]}")
                line, word = "take", word[room:]
            line += f" {word}" if word else ""
        if line != "take":
            self.line(line)
        for happening in told:
            self.line(f"> {happening}")
        return told

    def hear(self):
        """What h2 wrote comes."""
        told = []
        for octets in frames_of(self.peer.data_to_send()):
            told += self.take(octets)
        return told

    def hand(self, kind, flags, stream, payload=b""):
        """A frame of the peer that h2 doesn't write."""
        self.by_hand = True
        return self.take(frame(kind, flags, stream, payload))

    def ask(self, call, *words, **named):
        """A call of h2, where its own rules let it be."""
        try:
            getattr(self.peer, call)(*words, **named)
            return True
        except (h2.exceptions.ProtocolError, KeyError, ValueError):
            return False

    # This end's octets

    def wrote(self, n):
        octets = self.ours.output()[:n]
        self.ours.wrote(n)
        self.line(f"wrote {n}")
        if self.peer.state_machine.state == h2.connection.ConnectionState.CLOSED:
            self.seen += ["nothing more, since it is gone"] if self.seen[-1:] != ["nothing more, since it is gone"] else []
            return
        try:
            for event in self.peer.receive_data(octets):
                self.seen.append(shown_event(event))
                self.listen(event)
        except h2.exceptions.ProtocolError as fault:
            if self.by_hand:
                self.seen.append(f"{type(fault).__name__} {fault}")
            else:
                self.differs(f"{type(fault).__name__} {fault}")

    def say(self, n=None):
        """What waits is looked at, and so much of it written."""
        octets = self.ours.output()
        if octets:
            words = named(octets).split(" ")
            line = "output"
            for word in words:
                while word:
                    if len(line) > 100:
                        self.line(line)
                        line = "more"
                    room = 110 - len(line) // 2 * 2 if is_digits(word) else len(word)
                    line, word = f"{line} {word[:room]}", word[room:]
            self.line(line)
            self.wrote(len(octets) if n is None else min(n, len(octets)))

    def listen(self, event):
        """What h2 heard on a stream."""
        if isinstance(event, h2.events.DataReceived):
            self.note(self.heard, event.stream_id, [bytes([octet]) for octet in event.data])
        elif hasattr(event, "headers"):
            self.note(self.heard, event.stream_id, [event.headers[-1][1]])

    @staticmethod
    def note(heard, number, words):
        heard[number] = heard.get(number, []) + words

    def compare_heard(self):
        """h2 heard what this end put, in order; all of it on a stream that nobody reset."""
        whole = not self.by_hand and not self.ours.over and self.peer.state_machine.state != h2.connection.ConnectionState.CLOSED
        resets = {int(line.split()[-2]) for line in self.lines if line.startswith(("> reset", "reset", "> broken"))}
        for number in self.put.keys() | self.heard.keys():
            put, heard = self.put.get(number, []), self.heard.get(number, [])
            if heard != put[: len(heard)] or whole and number not in resets and heard != put:
                self.differs(f"h2 heard something else on stream {number}")

    def settle(self):
        """All octets of both ends arrive; then both ends have to know the same windows."""
        for _ in range(4):
            self.say()
            self.hear()
        if self.by_hand or self.ours.over or self.peer.state_machine.state == h2.connection.ConnectionState.CLOSED:
            return
        self.compare("connection", self.ours.granted, self.peer.outbound_flow_control_window)
        self.compare("connection", self.ours.sending, self.peer.inbound_flow_control_window)
        for number, stream in self.ours.streams.items():
            other = self.peer.streams.get(number)
            if other is None or other.closed:
                self.differs(f"stream {number} isn't open at h2")
                continue
            if stream.peer:
                self.compare(number, stream.granted, other.outbound_flow_control_window)
            if stream.own:
                self.compare(number, stream.sending, other._inbound_window_manager.current_window_size)
        for number, other in self.peer.streams.items():
            if not other.closed and number not in self.ours.streams:
                self.differs(f"stream {number} is open at h2")

    def compare(self, what, ours, theirs):
        if ours != theirs:
            self.differs(f"window of {what}: {ours}, at h2 {theirs}")

    def differs(self, words):
        print(f"{self.lines[0]}: {words}", file=sys.stderr)
        self.seen.append(f"[differs: {words}]")

    # What this end does

    def open(self, authority, end=False):
        number = self.ours.open(authority, end)
        self.line(f"open {number} {authority}{' end' if end else ''}")
        if number:
            self.note(self.put, number, [authority.encode()])
        return number

    def status(self, number, status, end=False):
        self.ours.status(number, status, end)
        self.line(f"status {number} {status}{' end' if end else ''}")
        self.note(self.put, number, [str(status).encode()])

    def end(self, number):
        self.ours.end(number)
        self.line(f"end {number}")

    def reset(self, number, code):
        self.ours.cut_off(number, code)
        self.line(f"reset {number} {code}")

    def credit(self, number, n):
        self.ours.credit(number, n)
        self.line(f"credit {number} {n}")

    def some(self, number, octets):
        n = self.ours.some(number, octets)
        self.line(f"some {number} {n} {words_of(octets)}")
        self.note(self.put, number, [bytes([octet]) for octet in octets[:n]])
        return n

    def fill(self, n):
        """Octets that differ from the ones before, the last ones from the first."""
        self.counter = 97 + (self.counter - 96) % 26
        last = n // 3 if n >= 30 else 0
        return bytes([self.counter]) * (n - last) + bytes([self.counter - 32]) * last

    # What h2 asks as a client, and answers as a server

    def connect(self, number, end=False, **more):
        headers = [(":method", "CONNECT"), (":authority", f"10.0.{number}.7:80")]
        return self.ask("send_headers", number, headers, end_stream=end, **more)

    def answer(self, number, status, end=False, more=()):
        return self.ask("send_headers", number, [(":status", str(status)), *more], end_stream=end)

    def done(self):
        self.settle()
        self.compare_heard()
        line, comments = f"// {self.lines[0]}: h2 saw", []
        for seen in self.seen:
            if len(line) + len(seen) > 137:
                comments.append(line)
                line = "//"
            line += f" {seen};"
        return self.lines, comments + [line.rstrip(";")]


# Conversations that are told one by one

TOLD = []


def told(role):
    def add(make):
        TOLD.append((make.__name__.replace("_", " "), role, make))
        return make

    return add


@told("server")
def one_request(t):
    t.connect(1)
    t.settle()
    t.status(1, 200)
    t.settle()
    t.peer.send_data(1, b"hello")
    t.hear()
    t.some(1, b"world")
    t.settle()
    t.peer.end_stream(1)
    t.hear()
    t.end(1)


@told("server")
def the_peer_ends_with_its_headers(t):
    t.connect(1, end=True)
    t.hear()
    t.status(1, 204, end=True)


@told("server")
def the_peer_ends_with_its_last_octets(t):
    t.connect(1)
    t.peer.send_data(1, t.fill(300), end_stream=True)
    t.hear()
    t.status(1, 200)
    t.say()
    t.some(1, t.fill(20))
    t.say()
    t.end(1)


@told("server")
def this_end_ends_first(t):
    t.connect(1)
    t.hear()
    t.status(1, 200)
    t.end(1)
    t.settle()
    t.peer.send_data(1, t.fill(40))
    t.hear()
    t.credit(1, 40)
    t.peer.send_data(1, t.fill(40), end_stream=True)


@told("server")
def statuses(t):
    for number, status in enumerate([200, 204, 206, 304, 400, 404, 500, 431, 503, 599, 100, 999]):
        t.connect(2 * number + 1)
        t.hear()
        t.status(2 * number + 1, status, end=status not in (100,))
    t.settle()
    t.status(21, 200, end=True)


@told("server")
def padding_counts(t):
    t.connect(1)
    t.hear()
    for size, pad in ((0, 0), (0, 255), (1, 10), (16000, 255), (16128, 255), (16128, 255), (100, 1)):
        t.peer.send_data(1, t.fill(size), pad_length=pad)
        t.hear()
    t.settle()
    t.credit(1, 48000)
    t.settle()
    t.peer.send_data(1, t.fill(7), end_stream=True, pad_length=9)


@told("server")
def much_padding_is_granted_again_by_itself(t):
    t.connect(1)
    for _ in range(130):
        t.peer.send_data(1, b"", pad_length=255)
    t.settle()


@told("server")
def the_peer_fills_its_windows(t):
    t.connect(1)
    t.connect(3)
    for _ in range(3):
        t.peer.send_data(1, t.fill(16384))
    t.peer.send_data(3, t.fill(16383))
    t.settle()
    t.peer.send_data(1, t.fill(16383))
    t.settle()
    t.credit(1, 32767)
    t.credit(3, 16383)
    t.settle()
    t.credit(1, 1)
    t.settle()
    t.peer.send_data(1, t.fill(16384))
    t.peer.send_data(1, t.fill(16384), end_stream=True)
    t.hear()
    t.credit(1, 65535)


@told("server")
def this_end_fills_its_windows(t):
    for number in (1, 3):
        t.connect(number)
        t.hear()
        t.status(number, 200)
    for _ in range(5):
        t.say()
        t.some(1, t.fill(20000))
    t.some(3, t.fill(9))
    t.peer.increment_flow_control_window(100)
    t.hear()
    t.some(3, t.fill(90))
    t.say()
    t.some(1, t.fill(90))
    t.peer.increment_flow_control_window(50, 1)
    t.hear()
    t.some(1, t.fill(90))
    t.settle()
    t.end(1)
    t.end(3)


@told("server")
def windows_of_streams_below_zero(t):
    t.connect(1)
    t.hear()
    t.status(1, 200)
    t.say()
    t.some(1, t.fill(1000))
    t.say()
    t.peer.update_settings({h2.settings.SettingCodes.INITIAL_WINDOW_SIZE: 400})
    t.settle()
    t.some(1, t.fill(10))
    t.connect(3)
    t.hear()
    t.status(3, 200)
    t.say()
    t.some(3, t.fill(500))
    t.settle()
    t.peer.increment_flow_control_window(600, 1)
    t.hear()
    t.some(1, t.fill(10))
    t.peer.increment_flow_control_window(3, 1)
    t.hear()
    t.some(1, t.fill(10))
    t.settle()
    t.peer.update_settings({h2.settings.SettingCodes.INITIAL_WINDOW_SIZE: 1000})
    t.settle()
    t.some(1, t.fill(700))
    t.settle()
    t.end(1)


@told("server")
def a_window_of_none(t):
    t.peer.update_settings({h2.settings.SettingCodes.INITIAL_WINDOW_SIZE: 0})
    t.settle()
    t.connect(1)
    t.hear()
    t.status(1, 200)
    t.say()
    t.some(1, t.fill(5))
    t.end(1)
    t.settle()


@told("server")
def the_window_shrinks_while_DATA_waits(t):
    t.connect(1)
    t.hear()
    t.status(1, 200)
    t.say()
    t.some(1, t.fill(900))
    t.peer.update_settings({h2.settings.SettingCodes.INITIAL_WINDOW_SIZE: 100})
    t.hear()
    t.some(1, t.fill(5))
    t.say(500)
    t.settle()
    t.peer.update_settings({h2.settings.SettingCodes.INITIAL_WINDOW_SIZE: 2000})
    t.hear()
    t.settle()
    t.some(1, t.fill(5000))


@told("server")
def the_peer_resets_while_DATA_waits(t):
    for number in (1, 3):
        t.connect(number)
        t.hear()
        t.status(number, 200)
    t.say()
    t.some(1, t.fill(16384))
    t.peer.reset_stream(1, 8)
    t.hear()
    t.settle()
    for _ in range(3):
        t.some(3, t.fill(16384))
        t.say()
    t.some(3, t.fill(16384))
    t.say(20)
    t.peer.reset_stream(3, 2)
    t.hear()
    t.settle()


@told("server")
def this_end_resets_while_DATA_waits(t):
    for number in (1, 3):
        t.connect(number)
        t.hear()
        t.status(number, 200)
    t.say()
    t.some(1, t.fill(5000))
    t.reset(1, 8)
    t.settle()
    t.some(3, t.fill(5000))
    t.say(1)
    t.reset(3, 5)
    t.settle()


@told("server")
def DATA_behind_this_ends_reset(t):
    t.connect(1)
    t.hear()
    t.reset(1, 7)
    for _ in range(3):
        t.peer.send_data(1, t.fill(16384))
    t.hear()
    t.settle()


@told("server")
def trailers_of_a_request(t):
    t.connect(1)
    t.peer.send_data(1, t.fill(6))
    t.hear()
    t.ask("send_headers", 1, [("x-sum", "7")], end_stream=True)
    t.hear()
    t.settle()


@told("server")
def PING_both_ways(t):
    for word in (b"00000000", b"\xff" * 8, bytes(range(8))):
        t.peer.ping(word)
    t.hear()
    t.hand(PING, 1, 0, b"strayed!")
    t.settle()


@told("server")
def the_peer_goes_away(t):
    t.connect(1)
    t.hear()
    t.peer.close_connection(0, b"bye", 0)
    t.hear()
    t.status(1, 200)
    t.say()


@told("server")
def numbers_are_skipped(t):
    t.connect(5)
    t.connect(9, end=True)
    t.connect(101)
    t.hear()
    t.settle()
    t.status(101, 500, end=True)
    t.status(9, 400, end=True)
    t.status(5, 404, end=True)


@told("server")
def a_hundred_streams(t):
    for number in range(1, 201, 2):
        t.connect(number)
    t.hear()
    t.hand(HEADERS, 4, 201, b"\x82")
    t.hand(DATA, 0, 201, b"late")
    t.reset(3, 8)
    t.hand(HEADERS, 4, 203, b"\x82")
    t.settle()


@told("server")
def priorities_and_large_header_lists(t):
    t.peer.prioritize(7, weight=9, depends_on=3)
    t.ask("send_headers", 1, [(":method", "CONNECT"), (":authority", "a")], priority_weight=3, priority_depends_on=0)
    t.ask("send_headers", 3, [(":method", "CONNECT"), (":authority", "b"), ("x", "X" * 4000)], end_stream=True)
    t.ask("send_headers", 5, [(":method", "CONNECT"), (":authority", "c"), ("x", "Z" * 15000)])
    t.hear()


@told("server")
def a_header_block_in_pieces(t):
    t.hear()
    t.hand(HEADERS, 1, 1, b"\x82")
    t.hand(CONTINUATION, 0, 1, b"\x87")
    t.hand(CONTINUATION, 4, 1, b"\x84")
    t.hand(HEADERS, 0x2C, 3, b"\x02" + bytes(5) + b"\x83\x86" + bytes(2))
    t.settle()
    t.status(1, 200, end=True)


@told("server")
def stream_errors(t):
    for number in (1, 3, 5, 7, 9):
        t.connect(number)
    t.peer.send_data(1, b"", end_stream=True)
    t.hear()
    t.hand(DATA, 0, 1, b"more")
    t.hand(WINDOW_UPDATE, 0, 3, bytes(4))
    t.hand(WINDOW_UPDATE, 0, 5, four(LARGEST))
    t.hand(HEADERS, 4, 7, b"\x82")
    t.hand(DATA, 0, 5, b"ignored")
    t.hand(WINDOW_UPDATE, 0, 5, bytes(4))
    t.hand(RST_STREAM, 0, 5, four(8))
    t.settle()
    t.status(9, 200)


@told("server")
def more_DATA_than_a_window_grants(t):
    t.connect(1)
    for _ in range(3):
        t.peer.send_data(1, t.fill(16384))
    t.peer.send_data(1, t.fill(16383))
    t.settle()
    t.hand(DATA, 0, 1, b"!")
    t.settle()


def by_hand(role, name, *frames):
    """Streams 1 (and of a server 3) are open; then these frames come."""

    def make(t):
        for number in (1, 3):
            t.connect(number) if role == "server" else t.open("10.0.0.1:80")
        t.settle()
        for words in frames:
            t.hand(*words)
        t.settle()

    TOLD.append((name, role, make))


for ROLE in ("server", "client"):
    by_hand(ROLE, "a window of the connection above the largest", (WINDOW_UPDATE, 0, 0, four(LARGEST)))
    by_hand(ROLE, "a first size of windows above the largest", (SETTINGS, 0, 0, b"\0\4\x80\0\0\0"))
    by_hand(ROLE, "a stream's window above the largest", (WINDOW_UPDATE, 0, 1, four(5)), (SETTINGS, 0, 0, b"\0\4" + four(LARGEST)))
    by_hand(ROLE, "DATA on an idle stream", (DATA, 0, 9, b"x"))
    by_hand(ROLE, "DATA on a closed stream", (RST_STREAM, 0, 1, four(8)), (DATA, 1, 1, b"x"))
    by_hand(ROLE, "the end of DATA twice", (DATA, 1, 1, b""), (DATA, 1, 1, b""), (DATA, 1, 1, b""))
    unknown = [(250, 255, 77, b"what"), (16, 0, 0, b""), (SETTINGS, 0, 0, b"\0\x63" + bytes(4)), (PING, 0, 0, bytes(8))]
    by_hand(ROLE, "unknown frames", *unknown)
    by_hand(ROLE, "padding without its octet", (DATA, 8, 1, b""))
    by_hand(ROLE, "padding as long as the payload, and longer", (DATA, 8, 1, b"\4abcd"), (DATA, 8, 1, b"\5abcd"))
    by_hand(ROLE, "a short PING", (PING, 0, 0, bytes(7)))
    by_hand(ROLE, "a long RST_STREAM", (RST_STREAM, 0, 1, bytes(5)))
    by_hand(ROLE, "a frame that is too long", (DATA, 0, 1, bytes(16385)))
    by_hand(ROLE, "CONTINUATION of nothing", (CONTINUATION, 4, 1, b"\x82"))
    by_hand(ROLE, "PING within a header block", (HEADERS, 0, 1, b"\x88"), (PING, 0, 0, bytes(8)))
    by_hand(ROLE, "a header block that isn't one", (HEADERS, 4, 1, b"\x80"))
    by_hand(ROLE, "SETTINGS on a stream", (SETTINGS, 0, 1, b""))
    by_hand(ROLE, "a frame size of 16,383", (SETTINGS, 0, 0, b"\0\5\0\0\x3f\xff"))
by_hand("client", "a pushed stream", (PUSH_PROMISE, 4, 1, four(2) + b"\x82"))
by_hand("client", "push is enabled by a server", (SETTINGS, 0, 0, b"\0\2" + four(1)))
by_hand("server", "push is enabled by a client", (SETTINGS, 0, 0, b"\0\2" + four(1)), (SETTINGS, 0, 0, b"\0\2" + four(2)))
by_hand("client", "HEADERS of a stream that isn't this client's", (HEADERS, 4, 2, b"\x88"))
by_hand("server", "HEADERS on a skipped stream", (HEADERS, 4, 9, b"\x82"), (HEADERS, 4, 7, b"\x82"))


@told("client")
def one_answer(t):
    t.open("10.0.0.1:80")
    t.settle()
    t.answer(1, 200)
    t.peer.send_data(1, b"hello")
    t.hear()
    t.some(1, b"world")
    t.settle()
    t.end(1)
    t.settle()
    t.peer.end_stream(1)


@told("client")
def trailers_and_interim_answers(t):
    t.open("10.0.0.1:80", end=True)
    t.open("a.example:1", end=True)
    t.settle()
    t.answer(1, 100)
    t.answer(1, 103, more=[("link", "x")])
    t.answer(1, 200, more=[("content-type", "application/grpc")])
    t.peer.send_data(1, t.fill(9))
    t.ask("send_headers", 1, [("grpc-status", "0")], end_stream=True)
    t.answer(3, 503, end=True)


@told("client")
def the_peers_limit_of_streams(t):
    t.peer.update_settings({h2.settings.SettingCodes.MAX_CONCURRENT_STREAMS: 2})
    t.hear()
    for _ in range(3):
        t.open("10.0.0.1:80")
    t.settle()
    t.reset(1, 8)
    t.open("10.0.0.2:80")
    t.open("10.0.0.3:80")
    t.settle()
    t.answer(3, 404, end=True)
    t.hear()
    t.open("10.0.0.3:80")
    t.end(3)
    t.open("10.0.0.4:80")


@told("client")
def the_server_goes_away(t):
    for _ in range(3):
        t.open("10.0.0.1:80")
    t.settle()
    t.answer(1, 200)
    t.peer.close_connection(0, None, 3)
    t.hear()
    t.some(1, t.fill(8))


@told("client")
def the_server_refuses(t):
    for _ in range(3):
        t.open("10.0.0.1:80")
    t.settle()
    t.peer.reset_stream(1, 7)
    t.answer(3, 403, end=True)
    t.hear()
    t.reset(3, 0)
    t.some(5, t.fill(100))
    t.peer.reset_stream(5, 8)
    t.hear()
    t.settle()


@told("server")
def another_preface(t):
    t.by_hand = True
    t.take(PREFACE[:23] + b"\x0b")


@told("server")
def SETTINGS_come_first(t):
    t.by_hand = True
    t.take(PREFACE)
    t.hand(PING, 0, 0, bytes(8))


@told("client")
def an_acknowledgement_comes_first(t):
    t.hand(SETTINGS, 1, 0)


# Conversations by chance


def by_chance(t, rounds):
    """Each round one end does something, and sometimes what it wrote arrives."""
    numbers = []
    if t.role == "client":
        t.hear()
    for _ in range(rounds):
        acts = t.random.sample([peer_opens, peer_sends, peer_grants, peer_settles, peer_ends, own_sends, own_answers, own_credits], 2)
        for act in acts + ([peer_resets] if t.random.random() < 0.08 else []) + ([own_ends] if t.random.random() < 0.25 else []):
            act(t, numbers)
        if t.random.random() < 0.7:
            t.hear()
        if t.random.random() < 0.6:
            t.say(t.random.choice([None, None, 3, 13, 700]))
        if t.random.random() < 0.2:
            t.settle()
    t.settle()


def size_of(t):
    return t.random.choice([0, 1, 5, 40, 300, 2000, 9000, 16384, 16384])


def may_send(t, number, answered=True):
    """h2's side of the stream is open, and as a server it has answered or has yet to. What h2 refuses would break it."""
    stream = t.peer.streams.get(number)
    if stream is None or stream.state_machine.state.name not in ("OPEN", "HALF_CLOSED_REMOTE"):
        return False
    return t.role == "server" or bool(stream.state_machine.headers_sent) == answered


def peer_opens(t, numbers):
    if len(numbers) >= 6:
        return
    if t.role == "server":
        number = 2 * len(numbers) + 1
        numbers.append(number)
        t.connect(number, end=t.random.random() < 0.1)
    else:
        number = t.open(f"10.0.0.{len(numbers)}:80", end=t.random.random() < 0.1)
        if number:
            numbers.append(number)


def peer_sends(t, numbers):
    ready = [number for number in numbers if may_send(t, number)]
    if not ready:
        return
    number, size = t.random.choice(ready), size_of(t)
    pad = t.random.choice([None, None, 0, 30, 255])
    left = t.peer.local_flow_control_window(number) - (256 if pad is not None else 0)
    size = min(size, left, FRAME_SIZE - 256 if pad is not None else FRAME_SIZE)
    if size < 0:
        return
    t.ask("send_data", number, t.fill(size), end_stream=t.random.random() < 0.08, pad_length=pad)


def peer_grants(t, numbers):
    number = t.random.choice([number for number in numbers if may_send(t, number)] + [None])
    t.ask("increment_flow_control_window", t.random.choice([1, 100, 16384, 40000]), number)


def peer_settles(t, numbers):
    if t.random.random() < 0.5:
        t.ask("ping", bytes(t.random.randrange(256) for _ in range(8)))
        return
    t.ask("update_settings", {h2.settings.SettingCodes.INITIAL_WINDOW_SIZE: t.random.choice([0, 10, 3000, 65535, 70000])})
    t.hear()


def peer_ends(t, numbers):
    ready = [number for number in numbers if may_send(t, number)]
    if not ready or t.random.random() < 0.5:
        return
    number = t.random.choice(ready)
    if t.role == "server":
        t.ask("end_stream", number) if t.random.random() < 0.8 else t.ask("send_headers", number, [("x-sum", "1")], end_stream=True)
    else:
        t.ask("send_headers", number, [("grpc-status", "0")], end_stream=True)


def peer_resets(t, numbers):
    ready = [number for number in numbers if may_send(t, number)]
    if ready:
        t.ask("reset_stream", t.random.choice(ready), t.random.choice([0, 2, 8]))


def open_ones(t, side):
    return [number for number, stream in t.ours.streams.items() if getattr(stream, side)]


def own_sends(t, numbers):
    ready = [number for number in open_ones(t, "own") if t.role == "client" or hasattr(t.ours.streams[number], "answered")]
    if ready:
        t.some(t.random.choice(ready), t.fill(size_of(t)))


def own_answers(t, numbers):
    if t.role == "client":
        ready = [number for number in numbers if may_send(t, number, answered=False)]
        if ready:
            number = t.random.choice(ready)
            t.answer(number, t.random.choice([200, 200, 404, 503]))
        return
    fresh = [number for number in open_ones(t, "own") if not hasattr(t.ours.streams[number], "answered")]
    if fresh:
        number = t.random.choice(fresh)
        t.ours.streams[number].answered = True
        status = t.random.choice([200, 200, 200, 204, 400, 431, 503])
        t.status(number, status, end=status > 200)


def own_credits(t, numbers):
    for number in open_ones(t, "own") + open_ones(t, "peer"):
        stream = t.ours.streams[number]
        if stream.creditable and t.random.random() < 0.5:
            t.credit(number, t.random.choice([stream.creditable, stream.creditable, stream.creditable // 2, 1]))


def own_ends(t, numbers):
    if open_ones(t, "own"):
        number = t.random.choice(open_ones(t, "own"))
        if t.random.random() < 0.6 and (t.role == "client" or hasattr(t.ours.streams[number], "answered")):
            t.end(number)
        else:
            t.reset(number, t.random.choice([0, 5, 7, 8]))


def conversations():
    for name, role, make in TOLD:
        talk = Talk(name, role)
        make(talk)
        yield talk.done()
    for seed in range(24):
        role = "server" if seed % 2 == 0 else "client"
        talk = Talk(f"by chance, seed {seed}", role, seed)
        by_chance(talk, 14)
        yield talk.done()


HEAD = '''//! Conversations of one end with a peer, python3-h2, as a machine that was written from RFC 9113 has this end speak.
//! bench/tables/conversations.py prints this file.
//!
//! A conversation begins with the role of this end and a name. `take` are octets that the peer wrote, in the words of
//! `octets`, and each line with `>` behind it is something that happens: `opened` with the stream, `end` where the peer ends
//! it, the size of the header list and its headers, or `+` where that is large, `chunk`, `ended`, `reset`, `broken`, `gone`
//! and `fault`. `open`, with the number that is to be answered, `status`, `end`, `reset`, `credit` and `some`, with how many
//! octets are to be put of those that follow, are acts of this end. `output`, which `more` goes on with, is all that waits
//! then; `wrote` is how much of it was written. The comments say what h2 saw of that; h2 knows nothing of frames that were
//! written by hand. Each step ends with `\\n`; a name stands alone on a line of this file, steps as many as have room.
'''
PART_SIZE = 9000  # octets of a constant, since the check reads a text deeper the longer it is


def filled(lines):
    """The lines of a conversation in lines of the source: its name, and as many others as have room."""
    row = ""
    for line in lines:
        if row and (row == f"{lines[0]}\\n" or len(row) + len(line) > 137):
            yield row
            row = ""
        row += f"{line}\\n"
    yield row


def parts():
    """The texts of the constants, each of whole conversations, with the comments that stand in front."""
    text, comments = "", []
    for lines, saw in conversations():
        more = "".join(f"{line}\\\n" for line in filled(lines))
        if text and len(text) + len(more) > PART_SIZE:
            yield text, comments
            text, comments = "", []
        text += more
        comments += saw
    yield text, comments


def main():
    print(HEAD, end="")
    for number, (text, comments) in enumerate(parts(), 1):
        print("", *comments, f'pub const PART_{number}: &[u8] = b"\\\n{text}";', sep="\n")


main()
