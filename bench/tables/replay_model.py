"""A second, plain model of `hbone replay`: words and the text of a script in, status, output and error text out.

It is written from the formats alone (docs/FORMATS.md, RFC 9113, RFC 7541, gRPC over HTTP/2, the encoding guide of Protocol
Buffers), and shares nothing with the program. What the rules leave open is a `Choice`; a row whose text is the same by every
choice is determined by the rules.

    sys.path.insert(0, "bench/tables"); import replay_model; replay_model.replay(words, script)
"""
import collections
import ipaddress
import json
import re

LARGEST = 2**31 - 1
OUTPUT = 65536  # octets that wait on a connection
NUMBERS = 2**63 - 1
ADDRESS = "type.googleapis.com/istio.workload.Address"
POLICY = "type.googleapis.com/istio.security.Authorization"
PREFACE = b"PRI * HTTP/2.0\r\n\r\nSM\r\n\r\n"
PATH = b"/envoy.service.discovery.v3.AggregatedDiscoveryService/DeltaAggregatedResources"
USAGE = " (see hbone replay --help)"

# How much of an output's free room may be read at once (one part of so many), whether requests are put as soon as one is
# there or behind all that came, whether a link that opens is read and written in the same round, the order of a round, and
# whether a round is made only where a call may move something, or behind each one in which something moved.
Choice = collections.namedtuple("Choice", "share eager goes_on order lists")
USUAL = Choice(5, False, True, "rww", True)
CHOICES = [Choice(share, eager, goes_on, order, lists) for share in (5, 3) for eager in (False, True) for goes_on in (False, True)
           for order in ("rww", "wrw", "wwr") for lists in (False, True)]


# Words


class BadWords(Exception):
    pass


def target_text(text):
    """The address and port of a target's text as they are told, or None."""
    host, colon, port = text.rpartition(":")
    if text.startswith("["):
        host, bracket, port = text.partition("]")
        host, colon, port = host[1:], bracket + port[:1] == "]:", port[1:]
    if not colon or not re.fullmatch("[0-9]{1,5}", port) or not 1 <= int(port) <= 65535:
        return None
    try:
        address = (ipaddress.IPv6Address if text.startswith("[") else ipaddress.IPv4Address)(host)
    except ValueError:
        return None
    if "%" in host:
        return None
    address = getattr(address, "ipv4_mapped", None) or address
    return f"[{address}]:{int(port)}" if address.version == 6 else f"{address}:{int(port)}"


def number_up_to(most):
    return lambda text: int(text) if re.fullmatch("[1-9][0-9]*", text) and int(text) <= most else None


OPTIONS = {
    "node": (str, "empty or begins with a dash"),
    "id": (str, "empty or begins with a dash"),
    "discovery": (target_text, "neither IPv4:PORT nor [IPv6]:PORT"),
    "inbound": (target_text, "neither IPv4:PORT nor [IPv6]:PORT"),
    "outbound": (target_text, "neither IPv4:PORT nor [IPv6]:PORT"),
    "plain": (target_text, "neither IPv4:PORT nor [IPv6]:PORT"),
    "network": (str, "empty or begins with a dash"),
    "hbone-port": (number_up_to(65535), "no number from 1 to 65535"),
    "tunnels": (number_up_to(4096), "no number from 1 to 4096"),
    "turns": (number_up_to(2**64 - 1), "no number from 1 to 18446744073709551615"),
}


def read_words(words):
    """What is asked, by the words behind the command."""
    said, words = {}, collections.deque(words)
    while words:
        word = words.popleft()
        name, equals, value = word.partition("=")
        if not word.startswith("-"):
            raise BadWords(f"unexpected word '{word}'")
        if name not in ("--trace", "--brief") and (not name.startswith("--") or name[2:] not in OPTIONS):
            raise BadWords(f"unknown option '{word}'")
        if any(later.partition("=")[0] == name for later in words):
            raise BadWords(f"{name} stands twice")
        if name in ("--trace", "--brief"):
            if equals:
                raise BadWords(f"{name} takes no value")
            said[name[2:]] = True
            continue
        if not equals and not words:
            raise BadWords(f"{name} has no value")
        if not equals:
            value = words.popleft()
        if not value or value.startswith("-"):
            raise BadWords(f"the value of {name} is {OPTIONS[name[2:]][1]}")
        said[name[2:]] = value
    for name in ("node", "id", "discovery"):
        if name not in said:
            raise BadWords(f"--{name} is wanted behind replay")
    asked = {name: said[name] for name in ("trace", "brief") if name in said}
    for name, (read, why) in OPTIONS.items():
        if name in said:
            asked[name] = read(said[name])
            if asked[name] is None:
                raise BadWords(f"the value of --{name} is {why}")
    return asked


# Scripts


class BadLine(Exception):
    pass


class Odd:
    """A number that isn't in decimal digits alone."""


def json_number(text):
    if re.fullmatch("[0-9]+", text) and int(text) < 2**64:
        return int(text)
    if float(text) in (float("inf"), float("-inf")):
        raise ValueError("out of range")
    return Odd()


def json_object(pairs):
    for key, value in pairs:
        for text in (key, value):
            if isinstance(text, str):
                text.encode()
    return dict(pairs)


def no_number(_):
    raise ValueError("no number")


def depth_of(text):
    depth = most = 0
    for mark in re.sub(r'"(\\.|[^"\\])*"', "", text):
        depth += (mark in "[{") - (mark in "]}")
        most = max(most, depth)
    return most


def read_json(octets):
    try:
        text = octets.decode()
        value = json.loads(text, parse_int=json_number, parse_float=json_number, parse_constant=no_number,
                           object_pairs_hook=json_object)
        # a lone surrogate in an array or alone
        json.dumps(value, default=lambda _: 0, ensure_ascii=False).encode()
    except (ValueError, RecursionError):
        raise BadLine("not json") from None
    if depth_of(text) > 127:
        raise BadLine("not json")
    return value


def is_number(value, least):
    return type(value) is int and least <= value <= NUMBERS


FORMS = {
    ("accept",): lambda v: v["accept"] in ("inbound", "outbound", "plain"),
    ("open",): lambda v: is_number(v["open"], 1),
    ("refuse",): lambda v: is_number(v["refuse"], 1),
    ("bytes", "link"): lambda v: isinstance(v["bytes"], str) and v["bytes"] != "" and is_number(v["link"], 1),
    ("end",): lambda v: is_number(v["end"], 1),
    ("break",): lambda v: is_number(v["break"], 1),
    ("link", "room"): lambda v: is_number(v["link"], 1) and is_number(v["room"], 0),
    ("nodial",): lambda v: is_number(v["nodial"], 0),
    ("wake",): lambda v: v["wake"] is True,
    ("tick",): lambda v: v["tick"] is True,
    ("stop",): lambda v: v["stop"] is True,
    ("fault",): lambda v: v["fault"] in ("wait", "listen"),
}


def read_line(octets):
    value = read_json(octets)
    if not isinstance(value, dict):
        raise BadLine("not an object")
    form = FORMS.get(tuple(sorted(value)))
    if form is None:
        raise BadLine("bad keys")
    if not form(value):
        raise BadLine("bad value")
    if "bytes" in value and not re.fullmatch("([0-9a-fA-F]{2})+", value["bytes"]):
        raise BadLine("bad hex")
    return value


def read_script(text):
    lines = []
    for number, row in enumerate(text.split(b"\n"), 1):
        if row:
            try:
                lines.append(read_line(row))
            except BadLine as fault:
                raise BadLine(f"line {number}: {fault}") from None
    return lines


class World:
    """The sockets of a script, and the lines that tell what they did."""

    def __init__(self, lines):
        self.lines = collections.deque(lines)
        self.births = self.failing = 0
        self.finishes, self.pieces, self.rooms = {}, collections.defaultdict(collections.deque), {}
        self.ended, self.broken = set(), set()
        # the links whose end was read
        self.told = set()
        self.waiting = collections.Counter()
        self.named = set()
        self.trace = []

    def wait(self):
        self.named = set()
        while self.lines:
            line = self.lines.popleft()
            link = line.get("link")
            self.named.update(line[key] for key in ("link", "open", "refuse", "end", "break") if key in line)
            if "open" in line or "refuse" in line:
                [(word, link)] = line.items()
                self.finishes[link] = word
            elif "bytes" in line:
                self.pieces[link].append(bytes.fromhex(line["bytes"]))
            elif "end" in line:
                self.ended.add(line["end"])
            elif "break" in line:
                self.broken.add(line["break"])
            elif "room" in line:
                self.rooms[link] = line["room"]
            elif "accept" in line:
                self.waiting[line["accept"]] += 1
            elif "nodial" in line:
                self.failing = max(self.failing, line["nodial"])
            elif "tick" in line:
                self.trace.append("tick")
                return "tick"
            elif "wake" in line or "stop" in line:
                return next(iter(line))
            elif line.get("fault") == "wait":
                return "fault"
        return "stop"

    def dial(self, address):
        if self.failing:
            self.failing -= 1
            self.trace.append(f"dial failed {address}")
            return None
        self.births += 1
        self.trace.append(f"dialled {self.births} {address}")
        return self.births

    def finish(self, link):
        answer = self.finishes.get(link)
        if answer:
            self.trace.append(f"opened {link}" if answer == "open" else f"broke {link}")
        return answer

    def read(self, link, most):
        """Octets, or None where the read balked, `end` or `broke`."""
        if self.pieces[link]:
            piece = self.pieces[link].popleft()
            if piece[most:]:
                self.pieces[link].appendleft(piece[most:])
            self.trace.append(f"came {link} {piece[:most].hex()}")
            return piece[:most]
        if link in self.broken:
            self.trace.append(f"broke {link}")
            return "broke"
        if link in self.ended:
            self.trace.append(f"ended {link}")
            self.told.add(link)
            return "end"
        return None

    def write(self, link, octets):
        """How many octets went, 0 where the write balked, or `broke`."""
        if link in self.broken:
            self.trace.append(f"broke {link}")
            return "broke"
        count = min(len(octets), self.rooms.get(link, len(octets)))
        if link in self.rooms:
            self.rooms[link] -= count
        if count:
            self.trace.append(f"went {link} {octets[:count].hex()}")
        return count

    def look(self, link):
        """Whether a link whose end was read broke."""
        is_broken = link in self.told and link in self.broken
        if is_broken:
            self.trace.append(f"broke {link}")
        return is_broken

    def close(self, link, cause):
        self.trace.append(f"closed {link} {cause}")


# Messages of Protocol Buffers


class Fault(Exception):
    pass


def read_varint(octets, at):
    value = 0
    for i in range(10):
        if at + i >= len(octets):
            raise Fault("truncated")
        value |= (octets[at + i] & 127) << 7 * i
        if i == 9 and octets[at + i] > 1:
            raise Fault("long varint")
        if octets[at + i] < 128:
            return value, at + i + 1
    raise Fault("long varint")


def fields_of(octets):
    at = 0
    while at < len(octets):
        tag, at = read_varint(octets, at)
        number, kind = tag >> 3, tag & 7
        if not 1 <= number <= 536870911:
            raise Fault("bad number")
        if kind in (3, 4, 6, 7):
            raise Fault("bad type")
        if kind == 0:
            value, at = read_varint(octets, at)
        else:
            size = {1: 8, 5: 4}.get(kind)
            if kind == 2:
                size, at = read_varint(octets, at)
            if size > len(octets) - at:
                raise Fault("truncated")
            value, at = octets[at:at + size], at + size
        yield number, kind, value


def text(octets):
    try:
        return octets.decode()
    except UnicodeDecodeError:
        raise Fault("utf8") from None


def raw(octets):
    return octets


def ip(octets):
    if len(octets) not in (4, 16):
        raise Fault("bad ip")
    return octets


def enum_up_to(most):
    def look(value):
        if value & 0xffffffff > most:
            raise Fault("bad enum")
        return value
    return look


class Many:
    def __init__(self, item, most=4096):
        self.item, self.most = item, most


class Message:
    """Fields by number: a reader of octets, a Message, Many of these, or "number", an enum's look, of varints.

    Of `choice` the last member counts. `whole` is asked of what was merged when an occurrence ends."""

    def __init__(self, fields, choice=(), whole=None):
        self.fields, self.choice, self.whole = fields, choice, whole

    def read(self, octets, into=None):
        into = {} if into is None else into
        for number, kind, value in fields_of(octets):
            if number in self.fields:
                self.take(into, number, kind, value)
        if self.whole:
            self.whole(into)
        return into

    def take(self, into, number, kind, value):
        reads = self.fields[number]
        if reads == "number" or isinstance(reads, Look):
            if kind == 0:
                into[number] = value if reads == "number" else reads.look(value)
        elif isinstance(reads, Many) and reads.item == "number":
            self.take_numbers(into.setdefault(number, []), kind, value, reads.most)
        elif kind == 2 and isinstance(reads, Many):
            items = into.setdefault(number, [])
            if len(items) == reads.most:
                raise Fault("too many")
            items.append(read_one(reads.item, value, None))
        elif kind == 2:
            if number in self.choice:
                for other in self.choice:
                    if other != number:
                        into.pop(other, None)
            into[number] = read_one(reads, value, into.get(number))

    @staticmethod
    def take_numbers(items, kind, value, most):
        if kind not in (0, 2):
            return
        at = 0
        while kind == 0 or at < len(value):
            if len(items) == most:
                raise Fault("too many")
            number, at = (value, 0) if kind == 0 else read_varint(value, at)
            items.append(number)
            if kind == 0:
                return


class Look:
    def __init__(self, most):
        self.look = enum_up_to(most)


def read_one(reads, octets, earlier):
    return reads.read(octets, earlier) if isinstance(reads, Message) else reads(octets)


def some_kind(*members):
    def whole(into):
        if not any(member in into for member in members):
            raise Fault("no kind")
    return whole


def has_octets(into):
    if 2 not in into:
        raise Fault("bad ip")


def is_prefix(into):
    if 1 not in into or into.get(2, 0) & 0xffffffff > 8 * len(into[1]):
        raise Fault("bad cidr")


NETWORK_ADDRESS = Message({1: text, 2: ip}, whole=has_octets)
HOSTNAME = Message({1: text, 2: text})
GATEWAY = Message({1: HOSTNAME, 2: NETWORK_ADDRESS, 3: "number"}, choice=(1, 2), whole=some_kind(1, 2))
PORT = Message({1: "number", 2: "number"})
PORTS = Message({1: Many(PORT)})
SERVICES_ENTRY = Message({1: text, 2: PORTS})
WORKLOAD = Message({1: text, 2: text, 3: Many(ip), 4: text, 5: "number", 6: text, 7: text, 8: GATEWAY, 9: text, 16: Many(text),
                    17: "number", 20: text, 21: text, 22: Many(SERVICES_ENTRY)})
SERVICE = Message({1: text, 2: text, 3: text, 4: Many(NETWORK_ADDRESS), 5: Many(PORT), 7: GATEWAY})
ADDRESS_RECORD = Message({1: WORKLOAD, 2: SERVICE}, choice=(1, 2), whole=some_kind(1, 2))
STRING_MATCH = Message({1: text, 2: text, 3: text, 4: raw}, choice=(1, 2, 3, 4), whole=some_kind(1, 2, 3, 4))
PREFIX = Message({1: ip, 2: "number"}, whole=is_prefix)
MATCH = Message({**{n: Many(STRING_MATCH) for n in (1, 2, 3, 4)}, **{n: Many(PREFIX) for n in (5, 6, 7, 8)},
                 9: Many("number"), 10: Many("number")})
RULE = Message({2: Many(Message({2: Many(MATCH)}))})
AUTHORIZATION = Message({1: text, 2: text, 3: Look(2), 4: Look(1), 5: Many(RULE)})
ENDLESS = float("inf")
RESOURCE = Message({1: text, 2: Message({1: text, 2: raw}), 3: text})
RESPONSE = Message({1: text, 2: Many(RESOURCE, ENDLESS), 4: text, 5: text, 6: Many(text, ENDLESS)})
RECORDS = {ADDRESS: ADDRESS_RECORD, POLICY: AUTHORIZATION}


def varint(n):
    return bytes([n & 127 | 128]) + varint(n >> 7) if n > 127 else bytes([n])


def put(number, content):
    return bytes([number << 3 | 2]) + varint(len(content)) + content


def put_text(number, content):
    return put(number, content.encode()) if content else b""


def put_message(content):
    return b"\0" + len(content).to_bytes(4, "big") + content


def first_request(ident, url, held):
    named = sorted((name.encode(), version.encode()) for (kind, name), version in held.items() if kind == url)
    entries = b"".join(put(5, put(1, name) + put(2, version)) for name, version in named)
    return put_message(put(1, put_text(1, ident)) + put_text(2, url) + entries)


def answer(url, nonce, refused):
    detail = b"" if refused is None else put(7, b"\x08\x03" + put_text(2, refused))
    return put_message(put_text(2, url) + put_text(6, nonce) + detail)


class Version(str):
    """The version of a resource, with the record that came with it."""


def apply(held, response):
    """The first refused name, or None."""
    url, refused = response[4], []
    for name in response.get(6, ()):
        held.pop((url, name), None)
    for resource in response.get(2, ()):
        name, content = resource.get(3, ""), resource.get(2, {})
        try:
            if not name or content.get(1, "") != url:
                raise Fault("no name, or another type")
            record = RECORDS[url].read(content.get(2, b""))
            if (url, name) not in held and len(held) == 65536:
                raise Fault("full")
            held[url, name] = Version(resource.get(1, ""))
            held[url, name].record = record
        except Fault:
            refused.append(name)
    return refused[0] if refused else None


# Header blocks

STATIC = """:authority :method=GET :method=POST :path=/
:path=/index.html :scheme=http :scheme=https :status=200 :status=204 :status=206 :status=304 :status=400 :status=404 :status=500
accept-charset accept-encoding=gzip,_deflate accept-language accept-ranges accept access-control-allow-origin age allow
authorization cache-control content-disposition content-encoding content-language content-length content-location content-range
content-type cookie date etag expect expires from host if-match if-modified-since if-none-match if-range if-unmodified-since
last-modified link location max-forwards proxy-authenticate proxy-authorization range referer refresh retry-after server
set-cookie strict-transport-security transfer-encoding user-agent vary via www-authenticate""".split()
STATIC = [(name.encode(), value.replace("_", " ").encode()) for name, _, value in (entry.partition("=") for entry in STATIC)]
assert len(STATIC) == 61
BY_LENGTH = {
    5: "0 1 2 a c e i o s t".split(),
    6: [" "] + list("%-./3456789=A_bdfghlmnpru"),
    7: list(":BCDEFGHIJKLMNOPQRSTUVWYjkqvwxyz"), 8: list("&*,;XZ"), 10: list("!\"()?"), 11: list("'+|"), 12: list("#>"),
    13: [0] + list("$@[]~"), 14: list("^}"), 15: list("<`{"), 19: [92, 195, 208], 20: [128, 130, 131, 162, 184, 194, 224, 226],
    21: [153, 161, 167, 172, 176, 177, 179, 209, 216, 217, 227, 229, 230],
    22: [129, 132, 133, 134, 136, 146, 154, 156, 160, 163, 164, 169, 170, 173, 178, 181, 185, 186, 187, 189, 190, 196, 198, 228,
         232, 233],
    23: [1, 135, 137, 138, 139, 140, 141, 143, 147, 149, 150, 151, 152, 155, 157, 158, 165, 166, 168, 174, 175, 180, 182, 183,
         188, 191, 197, 231, 239],
    24: [9, 142, 144, 145, 148, 159, 171, 206, 215, 225, 236, 237], 25: [199, 207, 234, 235],
    26: [192, 193, 200, 201, 202, 205, 210, 213, 218, 219, 238, 240, 242, 243, 255],
    27: [203, 204, 211, 212, 214, 221, 222, 223, 241, 244, 245, 246, 247, 248, 250, 251, 252, 253, 254],
    28: [2, 3, 4, 5, 6, 7, 8, 11, 12, *range(14, 22), *range(23, 32), 127, 220, 249], 30: [10, 13, 22, 256]}


def huffman_code():
    code, words, last = 0, {}, 5
    for length, symbols in BY_LENGTH.items():
        code <<= length - last
        last = length
        for symbol in sorted(ord(s) if isinstance(s, str) else s for s in symbols):
            words[length, code] = symbol
            code += 1
    assert code == 2**30 and len(words) == 257
    return words


HUFFMAN = huffman_code()


class Hpack:
    """The decoder of one end (RFC 7541)."""

    def __init__(self):
        self.entries, self.most = [], 4096

    def evict(self):
        while sum(len(n) + len(v) + 32 for n, v in self.entries) > self.most:
            self.entries.pop()

    def integer(self, bits):
        mask = (1 << bits) - 1
        value = self.octet() & mask
        if value < mask:
            return value
        for i in range(5):
            octet = self.octet()
            value += (octet & 127) << 7 * i
            if value > 0xffffffff:
                raise Fault("long integer")
            if octet < 128:
                return value
        raise Fault("long integer")

    def octet(self):
        if self.at == len(self.block):
            raise Fault("truncated")
        self.at += 1
        return self.block[self.at - 1]

    def string(self):
        coded = self.at < len(self.block) and self.block[self.at] & 128
        size = self.integer(7)
        if size > len(self.block) - self.at:
            raise Fault("truncated")
        self.at += size
        octets = self.block[self.at - size:self.at]
        return huffman_read(octets) if coded else octets

    def entry(self, index):
        if not 1 <= index <= 61 + len(self.entries):
            raise Fault("bad index")
        return STATIC[index - 1] if index < 62 else self.entries[index - 62]

    def literal(self, bits):
        index = self.integer(bits)
        name = self.entry(index)[0] if index else self.string()
        return name, self.string()

    def headers_of(self, block):
        self.block, self.at, headers = block, 0, []
        while self.at < len(block):
            front = block[self.at]
            if front & 0xe0 == 0x20:
                self.most = self.integer(5)
                if headers or self.most > 4096:
                    raise Fault("a size update")
                self.evict()
                continue
            header = self.entry(self.integer(7)) if front & 0x80 else self.literal(6 if front & 0x40 else 4)
            headers.append(header)
            if front & 0xc0 == 0x40:
                self.entries.insert(0, header)
                self.evict()
        return headers

    def read(self, block):
        """The headers of a block, as many as 16,384 octets of list have room for."""
        kept, size = [], 0
        for header in self.headers_of(block):
            size += len(header[0]) + len(header[1]) + 32
            if size > 16384:
                break
            kept.append(header)
        return kept


def huffman_read(octets):
    out, length, code = b"", 0, 0
    for octet in octets:
        for i in range(7, -1, -1):
            length, code = length + 1, code << 1 | octet >> i & 1
            symbol = HUFFMAN.get((length, code))
            if symbol == 256:
                raise Fault("bad huffman")
            if symbol is not None:
                out, length, code = out + bytes([symbol]), 0, 0
    if length > 7 or code != (1 << length) - 1:
        raise Fault("bad huffman")
    return out


def literal(name, content):
    """A literal without indexing of a name of the static table, or of a new name."""
    index = next((i for i, (n, _) in enumerate(STATIC, 1) if n == name), 0)
    front = bytes([index]) if index < 15 else bytes([15, index - 15])
    return front + (b"" if index else bytes([len(name)]) + name) + bytes([len(content)]) + content


def opening_block(authority):
    return (b"\x20\x83\x86" + literal(b":path", PATH) + literal(b":authority", authority.encode()) + literal(b"te", b"trailers")
            + literal(b"content-type", b"application/grpc"))


# The link to the control plane

DATA, HEADERS, PRIORITY, RESET, SETTINGS, PUSH, PING, GOAWAY, WINDOW, CONTINUATION = range(10)


def frame(kind, flags, stream, payload=b""):
    return len(payload).to_bytes(3, "big") + bytes([kind, flags]) + stream.to_bytes(4, "big") + payload


class Ends(Exception):
    """The link is to be closed."""


class ConnFault(Exception):
    """A connection error of HTTP/2."""


class Part:
    """Octets that wait to be written: a frame or more, or DATA."""

    def __init__(self, octets, is_data=False):
        self.octets, self.is_data, self.is_begun = octets, is_data, False


class Link:
    """Its connection is a client's; stream 1 asks for resources."""

    # the greatest value of setting 2 that its peer may send
    most_push = 0

    def __init__(self, number, ident, authority, held, choice):
        self.number, self.held, self.choice = number, held, choice
        self.is_open = False
        settings = frame(SETTINGS, 0, 0, bytes.fromhex("000200000000000600004000"))
        self.parts = [Part(PREFACE + settings + frame(HEADERS, 4, 1, opening_block(authority)))]
        self.queue = first_request(ident, ADDRESS, held) + first_request(ident, POLICY, held)
        self.sending, self.initial = {0: 65535, 1: 65535}, 65535
        self.taking, self.owed = {0: 65535, 1: 65535}, {0: 0, 1: 0}
        self.came = self.message = b""
        self.block = None
        self.is_settled = self.is_answered = False
        self.hpack = Hpack()

    def output(self):
        return b"".join(part.octets for part in self.parts)

    def room(self):
        return OUTPUT - len(self.output())

    def wants(self):
        return max(0, (self.room() - 320) // self.choice.share)

    def wrote(self, count):
        while count:
            part = self.parts[0]
            taken = min(count, len(part.octets))
            part.octets, part.is_begun, count = part.octets[taken:], True, count - taken
            if not part.octets:
                self.parts.pop(0)
        self.put_requests()

    def put(self, octets):
        assert self.room() >= len(octets)
        self.parts.append(Part(octets))

    def put_requests(self):
        count = min(len(self.queue), self.sending[0], self.sending[1], 16384)
        if self.parts or count <= 0:
            return
        self.parts.append(Part(frame(DATA, 0, 1, self.queue[:count]), True))
        self.queue = self.queue[count:]
        for stream in (0, 1):
            self.sending[stream] -= count

    def not_begun(self):
        """The octets of DATA that waits and hasn't begun."""
        return sum(len(part.octets) - 9 for part in self.parts if part.is_data and not part.is_begun)

    def take(self, octets):
        self.came += octets
        try:
            while self.look():
                if self.choice.eager:
                    self.put_requests()
        except ConnFault as fault:
            self.parts = [part for part in self.parts if part.is_begun or not part.is_data]
            self.parts.append(Part(frame(GOAWAY, 0, 0, bytes(4) + fault.args[0].to_bytes(4, "big"))))
            raise
        self.put_requests()

    def look(self):
        """Looks at one frame, if it is there."""
        if len(self.came) < 9:
            return False
        size, kind, flags = int.from_bytes(self.came[:3], "big"), self.came[3], self.came[4]
        stream = int.from_bytes(self.came[5:9], "big") & LARGEST
        if size > 16384:
            raise ConnFault(6)
        if len(self.came) < 9 + size:
            return False
        payload, self.came = self.came[9:9 + size], self.came[9 + size:]
        if not self.is_settled and (kind != SETTINGS or flags & 1):
            raise ConnFault(1)
        self.is_settled = True
        goes_on = kind == CONTINUATION and (self.block is None or stream == self.block[0])
        if goes_on != (self.block is not None):
            raise ConnFault(1)
        self.frame(kind, flags, stream, payload)
        return True

    def frame(self, kind, flags, stream, payload):
        content = self.check(kind, flags, stream, payload)
        if kind == DATA:
            self.on_data(stream, payload, content, flags & 1)
        elif kind in (HEADERS, CONTINUATION):
            self.on_fragment(kind, flags, stream, content)
        elif kind == RESET:
            self.check_not_idle(stream)
            raise Ends("discovery")
        elif kind == SETTINGS and not flags & 1:
            self.on_settings(payload)
        elif kind == PING and not flags & 1:
            self.put(frame(PING, 1, 0, payload))
        elif kind == GOAWAY and int.from_bytes(payload[:4], "big") & LARGEST < 1:
            raise Ends("gone away")
        elif kind == WINDOW:
            self.on_increment(stream, int.from_bytes(payload, "big") & LARGEST)

    @classmethod
    def check(cls, kind, flags, stream, payload):
        """What a frame alone is refused for; what DATA and HEADERS have between their padding."""
        if stream == 0 and kind in (DATA, HEADERS, PRIORITY, RESET):
            raise ConnFault(1)
        if stream != 0 and kind in (SETTINGS, PING, GOAWAY) or kind == PUSH:
            raise ConnFault(1)
        front = (1 if flags & 8 and kind in (DATA, HEADERS) else 0) + (5 if flags & 0x20 and kind == HEADERS else 0)
        if len(payload) < front:
            raise ConnFault(6)
        padding = payload[0] if flags & 8 and kind in (DATA, HEADERS) else 0
        if padding > len(payload) - front:
            raise ConnFault(1)
        size, is_ack = len(payload), kind == SETTINGS and flags & 1
        if {PRIORITY: size != 5, RESET: size != 4, PING: size != 8, GOAWAY: size < 8, WINDOW: size != 4,
                SETTINGS: size % 6 or is_ack and size}.get(kind):
            raise ConnFault(6)
        if kind == SETTINGS:
            for number, value in pairs_of(payload):
                if number == 2 and value > cls.most_push or number == 5 and not 16384 <= value <= 16777215:
                    raise ConnFault(1)
        return payload[front:len(payload) - padding]

    @staticmethod
    def check_not_idle(stream):
        if stream != 1:
            raise ConnFault(1)

    def on_settings(self, payload):
        for number, value in pairs_of(payload):
            if number == 4:
                if value > LARGEST or self.sending[1] + self.not_begun() + value - self.initial > LARGEST:
                    raise ConnFault(3)
                self.sending[1] += value - self.initial
                self.initial = value
        self.put(frame(SETTINGS, 1, 0))

    def on_increment(self, stream, increment):
        if stream == 0 and increment == 0:
            raise ConnFault(1)
        if stream not in (0, 1):
            raise ConnFault(1)
        if increment == 0:
            raise Ends("discovery")
        if self.sending[stream] + self.not_begun() + increment > LARGEST:
            raise ConnFault(3) if stream == 0 else Ends("discovery")
        self.sending[stream] += increment

    def on_fragment(self, kind, flags, stream, content):
        if kind == HEADERS:
            self.block = (stream, b"", flags & 1)
        stream, earlier, end = self.block
        self.block = (stream, earlier + content, end)
        if len(self.block[1]) > 32768:
            raise ConnFault(11)
        if flags & 4:
            block, self.block = self.block[1], None
            self.on_headers(stream, block, end)

    def on_headers(self, stream, block, end):
        try:
            headers = self.hpack.read(block)
        except Fault:
            raise ConnFault(9) from None
        if stream != 1:
            raise ConnFault(1)
        if not self.is_answered:
            status = next((value for name, value in headers if name == b":status"), b"")
            status = int(status) if re.fullmatch(rb"[0-9]{3}", status) else 0
            if not 100 <= status <= 200:
                raise Ends("discovery")
            self.is_answered = status == 200
        if end:
            raise Ends("discovery")

    def on_data(self, stream, payload, content, end):
        self.check_not_idle(stream)
        if len(payload) > self.taking[0]:
            raise ConnFault(3)
        if len(payload) > self.taking[1]:
            raise Ends("discovery")
        for owing in (0, 1):
            self.taking[owing] -= len(payload)
            self.owed[owing] += len(payload)
            if self.owed[owing] >= 32768 and not (owing == 1 and end):
                self.put(frame(WINDOW, 0, owing, self.owed[owing].to_bytes(4, "big")))
                self.taking[owing] += self.owed[owing]
                self.owed[owing] = 0
        self.message += content
        while self.on_message():
            if self.choice.eager:
                self.put_requests()
        if end:
            raise Ends("discovery")

    def applied(self, url):
        """A response of this kind was applied."""

    def on_message(self):
        """Applies one message, if it is whole."""
        if self.message and self.message[0]:
            raise Ends("discovery")
        if len(self.message) < 5:
            return False
        size = int.from_bytes(self.message[1:5], "big")
        if size > 67108864:
            raise Ends("discovery")
        if len(self.message) < 5 + size:
            return False
        octets, self.message = self.message[5:5 + size], self.message[5 + size:]
        try:
            response = RESPONSE.read(octets)
        except Fault:
            raise Ends("discovery") from None
        if response.get(4) not in RECORDS:
            raise Ends("discovery")
        refused = apply(self.held, response)
        self.applied(response[4])
        self.queue += answer(response[4], response.get(5, ""), refused)
        return True


def pairs_of(payload):
    pairs = [payload[i:i + 6] for i in range(0, len(payload), 6)]
    return [(int.from_bytes(pair[:2], "big"), int.from_bytes(pair[2:], "big")) for pair in pairs]


# Runs


class Run:
    """The proxy over a world: turns until a stop, a fault of the world, a number of ticks or of turns."""

    def __init__(self, asked, world, choice, ticks=None):
        self.asked, self.world, self.choice, self.ticks = asked, world, choice, ticks
        self.held, self.link = {}, None
        # whether a round is to be made, and the ways that balked since a wait named the link
        self.is_tried, self.asleep = True, set()

    def run(self):
        self.dial()
        end = "turns spent"
        for _ in range(min(self.asked.get("turns", 2**64 - 1), 10**7)):
            if self.link and self.is_tried:
                is_moved = self.round()
                self.is_tried = self.is_worth() if self.choice.lists else is_moved
                continue
            waited = self.world.wait()
            self.wake()
            if waited == "tick" and self.ticks:
                self.ticks -= 1
                if not self.ticks:
                    waited = "stop"
            if waited in ("stop", "fault"):
                end = "stopped" if waited == "stop" else "world fault"
                break
            if waited == "tick" and not self.link:
                self.dial()
        if self.link:
            self.close("stopped")
        return end

    def dial(self):
        number = self.world.dial(self.asked["discovery"])
        if number:
            self.link = Link(number, self.asked["id"], self.asked["discovery"], self.held, self.choice)
            self.is_tried, self.asleep = True, set()

    def wake(self):
        if self.link and self.link.number in self.world.named:
            self.is_tried, self.asleep = True, set()
        self.is_tried |= not self.choice.lists

    def is_worth(self):
        """Whether a call on the link may move something."""
        if not self.link or not self.link.is_open:
            return self.link is not None and "finish" not in self.asleep
        return "read" not in self.asleep and self.link.wants() > 0 or "write" not in self.asleep and len(self.link.output()) > 0

    def close(self, cause):
        self.world.close(self.link.number, cause)
        self.link = None

    def round(self):
        """Whether something moved. An open link is read first of all, and then tried as each link is."""
        if self.link.is_open:
            is_read = self.read()
            return self.link is not None and self.move() or is_read
        answer = self.world.finish(self.link.number)
        if answer == "refuse":
            self.close("broken")
        elif answer:
            self.link.is_open = True
            if self.choice.goes_on:
                self.move()
        else:
            self.asleep.add("finish")
        return answer is not None

    def move(self):
        is_moved = False
        for way in self.choice.order:
            if self.link:
                is_moved |= self.read() if way == "r" else self.write()
        return is_moved

    def read(self):
        if not self.link.wants():
            return False
        came = self.world.read(self.link.number, self.link.wants())
        if came is None:
            self.asleep.add("read")
            return False
        if came in ("end", "broke"):
            self.close("broken")
            return True
        try:
            self.link.take(came)
        except Ends as end:
            self.close(end.args[0])
        except ConnFault as fault:
            self.world.write(self.link.number, self.link.output())
            self.close(f"conn fault {fault.args[0]}")
        return True

    def write(self):
        output = self.link.output()
        if not output:
            return False
        went = self.world.write(self.link.number, output)
        if went == "broke":
            self.close("broken")
            return True
        self.link.wrote(went)
        if not went:
            self.asleep.add("write")
        return went > 0


# Reports


def report(asked, trace):
    lines, links, octets = [], {}, collections.Counter()
    for entry in trace:
        word, _, rest = entry.partition(" ")
        link, _, rest = rest.partition(" ")
        if word == "dialled":
            links[link] = [rest, "open"]
        elif word == "closed":
            links[link][1] = f"closed {rest}"
        elif word in ("came", "went"):
            octets[word, link] += len(rest) // 2
    if not asked.get("brief"):
        lines = list(trace) if asked.get("trace") else []
        for link, (address, closed) in links.items():
            came, went = octets["came", link], octets["went", link]
            lines.append(f"link {link} discovery {address}: received {came}, sent {went}, {closed}")
    lines.append(f"total: {len(links)} links, 0 accepted, 0 revoked, 0 up, 0 down")
    return "".join(line + "\n" for line in lines)


def replay(words, script, choice=USUAL):
    """Status, output and error text of `hbone replay` with these words behind it, over the text of a script."""
    try:
        asked = read_words(words)
    except BadWords as fault:
        return 2, "", f"hbone: words: {fault}{USAGE}\n"
    if len(script) > 67108864:
        return 3, "", "hbone: input too long\n"
    try:
        lines = read_script(script)
    except BadLine as fault:
        return 3, "", f"hbone: {fault}\n"
    world = World(lines)
    end = Run(asked, world, choice).run()
    status, err = {"stopped": (0, ""), "world fault": (4, "hbone: world fault\n"),
                   "turns spent": (5, "hbone: turns spent\n")}[end]
    return status, report(asked, world.trace), err
