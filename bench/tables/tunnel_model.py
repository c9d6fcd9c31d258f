"""A second, plain model of `hbone replay` with its doors: words and the text of a script in, status, output and error text out.

It is written from the pages alone (docs/COMMANDS.md, FORMATS.md, LAWS.md, DECISIONS.md, POLICIES.md, RFC 9113, RFC 7541, the PROXY
protocol's text), and shares nothing with the program. What it has in common with runs of the control plane alone is in
replay_model.py, the ways of outbound connections are in routes.py. What the pages leave open is a `Choice`; a report that is the same
by every choice is determined by the pages.

    sys.path.insert(0, "bench/tables"); import tunnel_model; tunnel_model.replay(words, script)
"""
import collections
import ipaddress
import re

import replay_model as model
import routes
from replay_model import ADDRESS, POLICY, LARGEST, OUTPUT, ConnFault, Ends, Fault, frame, pairs_of

# Beside the choices of the control plane's link: the order of links in a round, how much of an upstream, or of a link of raw bytes,
# is read at once, whether a write of a ring ends where its memory does, the order of an update's notes over links, whether the stream
# behind the one whose DATA was put last goes first, how many octets a link may hold that aren't looked at, and whether links to
# gateways are closed before those that they carry.
Choice = collections.namedtuple("Choice", [*model.Choice._fields, "backwards", "most", "wraps", "by_link", "fair", "holds", "gates_first"])
USUAL = Choice(*model.USUAL, False, 16384, False, True, False, 16393, False)
OTHERS = [
    USUAL._replace(share=3, order="wrw"), USUAL._replace(backwards=True), USUAL._replace(most=5000, goes_on=False, order="wwr"),
    USUAL._replace(share=4, holds=32768), USUAL._replace(share=7, order="wwr"),
    USUAL._replace(wraps=True, eager=True, fair=True, gates_first=True), USUAL._replace(by_link=False, backwards=True, order="wrw")]

DOORS = ("inbound", "outbound", "plain")
RINGS = {"up": 65535, "down": 16384}
STATUS, GRANT, END, RESET = range(4)
NO_ERROR, PROTOCOL_ERROR, FLOW_CONTROL_ERROR, STREAM_CLOSED, REFUSED_STREAM, CANCEL, CONNECT_ERROR = 0, 1, 3, 5, 7, 8, 10
STATUSES = {200: 8, 204: 9, 206: 10, 304: 11, 400: 12, 404: 13, 500: 14}
SETTINGS = frame(4, 0, 0, bytes.fromhex("000300000064 000600004000"))
CLIENT = model.PREFACE + frame(4, 0, 0, bytes.fromhex("000200000000 000600004000"))
SIGNATURE = bytes.fromhex("0d0a0d0a000d0a515549540a")
MOST_STREAMS, MOST_LIST, MOST_LINKS = 100, 16384, 1024


# Addresses, and the header of the front


def address_of(octets):
    ip = ipaddress.ip_address(octets)
    return getattr(ip, "ipv4_mapped", None) or ip


Target = collections.namedtuple("Target", "ip port")
Peer = collections.namedtuple("Peer", "ip principal namespace")


def target_of(text):
    """The target that a text spells, or None."""
    told = model.target_text(text) if text.isascii() else None
    if told is None:
        return None
    host, _, port = told.rpartition(":")
    return Target(ipaddress.ip_address(host.strip("[]")), int(port))


def told_target(target):
    if target is None:
        return "-"
    return f"[{target.ip}]:{target.port}" if target.ip.version == 6 else f"{target.ip}:{target.port}"


class FrontFault(Exception):
    """A fault of the header before a connection, by its number."""


def read_front(octets):
    """The header's length, the peer and its destination; None where more octets are wanted."""
    if octets[:12] != SIGNATURE[:len(octets)]:
        raise FrontFault(1)
    for at, allowed, number in ((12, b"\x21", 2), (13, b"\x11\x21", 3)):
        if len(octets) > at and octets[at] not in allowed:
            raise FrontFault(number)
    if len(octets) < 16:
        return None
    length, size = int.from_bytes(octets[14:16], "big"), 4 if octets[13] == 0x11 else 16
    if length > 4096:
        raise FrontFault(6)
    if length < 2 * size + 4:
        raise FrontFault(4)
    if len(octets) < 16 + length:
        return None
    values, at = [], 16 + 2 * size + 4
    while at < 16 + length:
        end = at + 3 + int.from_bytes(octets[at + 1:at + 3], "big")
        if at + 3 > 16 + length or end > 16 + length:
            raise FrontFault(4)
        values += [octets[at + 3:end]] if octets[at] == 0xe0 else []
        at = end
    found = re.fullmatch(rb"spiffe://([\w.-]+/ns/([\w.-]+)/sa/[\w.-]+)", values[0]) if values else None
    if len(values) > 1 or values and not found:
        raise FrontFault(5)
    source = address_of(octets[16:16 + size])
    peer = Peer(source, *(part.decode() for part in found.groups())) if found else Peer(source, None, None)
    port = int.from_bytes(octets[18 + 2 * size:20 + 2 * size], "big")
    return 16 + length, peer, Target(address_of(octets[16 + size:16 + 2 * size]), port)


def put_front(source, target, identity):
    """The header in front of a connection to the target, from a source without a port."""
    both = [ip.packed if {source.version, target.ip.version} == {4} else long_form(ip) for ip in (source, target.ip)]
    values = b"\xe0" + len(identity).to_bytes(2, "big") + identity.encode() if identity else b""
    content = b"".join(both) + bytes(2) + target.port.to_bytes(2, "big") + values
    return SIGNATURE + (b"\x21\x11" if len(both[0]) == 4 else b"\x21\x21") + len(content).to_bytes(2, "big") + content


def long_form(ip):
    return ip.packed if ip.version == 6 else bytes(10) + b"\xff\xff" + ip.packed


# Policies (docs/POLICIES.md)


def text_fits(match, text):
    [(kind, wanted)] = match.items()
    if text is None:
        return False
    return {1: text == wanted, 2: text.startswith(str(wanted)), 3: text.endswith(str(wanted)), 4: text != ""}[kind]


def covers(prefix, ip):
    octets, length = prefix[1], prefix.get(2, 0) & 0xffffffff
    network = ipaddress.ip_address(octets)
    if getattr(network, "ipv4_mapped", None) and length >= 96:
        network, length = network.ipv4_mapped, length - 96
    shift = network.max_prefixlen - length
    return network.version == ip.version and int(network) >> shift == int(ip) >> shift


def match_is_met(match, peer, target):
    for number, test in [
            (1, lambda value: text_fits(value, peer.namespace)), (3, lambda value: text_fits(value, peer.principal)),
            (5, lambda value: covers(value, peer.ip)), (7, lambda value: covers(value, target.ip)),
            (9, lambda value: value & 0xffffffff == target.port)]:
        positive, negative = match.get(number, []), match.get(number + 1, [])
        if positive and not any(map(test, positive)) or any(map(test, negative)):
            return False
    return True


def fires(policy, peer, target):
    return any(all(any(match_is_met(match, peer, target) for match in clause.get(2, [])) for clause in rule.get(2, []))
               for rule in policy.get(5, []))


def counts_for(policy, workload):
    scope, space = policy.get(3, 0) & 0xffffffff, policy.get(2, "")
    if scope == 2:
        return f"{space}/{policy.get(1, '')}" in workload.get(16, [])
    return scope == 0 or space == workload.get(2, "")


def workloads_at(held, asked, ip):
    """The workloads at an address, by their resources' names."""
    named = sorted(((name.encode(), version.record[1]) for (kind, name), version in held.items()
                    if kind == ADDRESS and 1 in version.record), key=lambda pair: pair[0])
    return [workload for _, workload in named if workload.get(4, "") == asked.get("network", "")
            and ip in map(address_of, workload.get(3, []))]


def judge(held, asked, peer, target):
    """200 where the peer is admitted, 404 where the target isn't known, 401 where it is denied."""
    at = workloads_at(held, asked, target.ip)
    if not at or at[0].get(9, "") != asked["node"]:
        return 404
    policies = [version.record for (kind, _), version in held.items() if kind == POLICY and counts_for(version.record, at[0])]
    fired = [[fires(policy, peer, target) for policy in policies if policy.get(4, 0) & 0xffffffff == action] for action in (0, 1)]
    return 401 if any(fired[1]) or fired[0] and not any(fired[0]) else 200


# Routes (docs/FORMATS.md)


def low(value):
    return value & 0xffffffff


def ports_of(records):
    return tuple((low(port.get(1, 0)), low(port.get(2, 0))) for port in records)


def waypoint_of(record):
    """A waypoint, as the evaluator of routes has it."""
    if record is None:
        return None
    port, at = low(record.get(3, 0)), record.get(2)
    if 1 in record:
        return routes.by_hostname(record[1].get(2, ""), record[1].get(1, ""), port)
    return routes.by_address(at[2], at.get(1, ""), port)


def plain_form(record):
    """The record of a workload or a service, as the evaluator of routes has it."""
    if 1 in record:
        workload = record[1]
        serves = [(entry.get(1, ""), ports_of(entry.get(2, {}).get(1, []))) for entry in workload.get(22, [])]
        return routes.workload(*workload.get(3, []), hbone=low(workload.get(5, 0)), status=low(workload.get(17, 0)), serves=serves,
                               net=workload.get(4, ""), node=workload.get(9, ""), waypoint=waypoint_of(workload.get(8)))
    service = record[2]
    return routes.service(*((at.get(1, ""), at[2]) for at in service.get(4, [])), ns=service.get(2, ""), host=service.get(3, ""),
                          ports=ports_of(service.get(5, [])), waypoint=waypoint_of(service.get(7)))


def way(held, asked, opens, source, target):
    """The way of a connection, as the evaluator of routes has it. `opens` has how many connections each endpoint has."""
    resources = {name: plain_form(version.record) for (kind, name), version in held.items() if kind == ADDRESS}
    return routes.way(resources, opens, source, target.ip, target.port, asked.get("hbone-port", 15008), asked.get("network", ""),
                      asked["node"])


def identity_at(held, asked, source):
    """The identity of the workload that a connection comes from, as its gateway is told it; None where it has none."""
    workload = workloads_at(held, asked, source)[0]
    parts = workload.get(6, "") or "cluster.local", workload.get(2, ""), workload.get(7, "")
    text = "spiffe://{}/ns/{}/sa/{}".format(*parts)
    return text if all(re.fullmatch(r"[\w.-]+", part, re.ASCII) for part in parts) and len(text) <= 4000 else None


def status_of(headers):
    """The status of a response, 0 where it has none."""
    first = next((value for name, value in headers if name == b":status"), b"")
    return int(first) if re.fullmatch(rb"[0-9]{3}", first) else 0


def request_of(headers):
    """The method and the authority of a request; a Fault where it is malformed (docs/DECISIONS.md, Verdicts)."""
    known, are_over = {}, False
    for name, value in headers:
        if not name or re.search(rb"[A-Z]", name):
            raise Fault("a name")
        if name.startswith(b":"):
            if are_over or name in known or name not in (b":method", b":scheme", b":authority", b":path"):
                raise Fault("a pseudo-header")
            known[name] = value
        else:
            are_over = True
    if b":method" not in known:
        raise Fault("no method")
    if known[b":method"] == b"CONNECT" and (b":authority" not in known or b":scheme" in known or b":path" in known):
        raise Fault("CONNECT")
    return known[b":method"], known.get(b":authority", b"")


# An inbound link


class Stream:
    """A stream that is open or half-closed."""

    def __init__(self, sending):
        self.is_own_open = self.is_peer_open = True
        self.sending, self.taking, self.owed = sending, 65535, 0


class Part(model.Part):
    """Octets that wait to be written; of DATA its stream, and whether it ends that."""

    def __init__(self, octets, stream=None, is_end=False):
        super().__init__(octets, stream is not None)
        self.stream, self.is_end, self.payload = stream, is_end, len(octets) - 9


class Tunnel:
    """`stage` is asked, pending, live; behind its end `cause` says why."""

    def __init__(self, stream, target):
        self.stream, self.target, self.stage, self.cause = stream, target, "asked", None
        self.number = None
        self.rings, self.taken = {"up": b"", "down": b""}, {"up": 0, "down": 0}
        self.is_peer_ended = self.is_up_ended = self.is_end_put = self.is_end_sent = self.is_shut = False

    def is_live(self):
        return self.stage == "live" and self.cause is None

    def is_done(self):
        return self.is_live() and self.is_peer_ended and self.is_end_sent and not self.rings["up"]

    def may_shut(self):
        return self.is_live() and self.is_peer_ended and not self.rings["up"] and not self.is_shut


class Connection(model.Link):
    """A connection, a server's but for what a link to a gateway changes (docs/FORMATS.md, HTTP/2 connections). `highest` is the highest
    stream that was begun, `carried` has what each stream carries, and `way` is the way of that which goes on the stream."""

    most_push = 1
    way = "down"

    def __init__(self, choice):
        self.choice, self.parts, self.owes, self.came = choice, [], {}, b""
        self.block, self.hpack = None, model.Hpack()
        self.is_begun = self.is_settled = self.is_told = False
        self.streams, self.highest, self.resets = {}, 0, collections.deque(maxlen=128)
        self.initial = self.sending = self.taking = 65535
        self.owed, self.limit, self.carried, self.last_put = 0, LARGEST + 1, {}, 0

    # What is put

    def status_frame(self, stream, status, end):
        block = bytes([0x80 | STATUSES[status]]) if status in STATUSES else b"\x08\x03" + str(status).encode()
        block, self.is_told = (b"" if self.is_told else b"\x20") + block, True
        return frame(1, 4 | end, stream, block)

    def owe(self, stream, kind, content):
        owes = self.owes.setdefault(stream, {})
        owes[kind] = owes.get(GRANT, 0) + content if kind == GRANT else content
        if kind == RESET:
            owes.pop(END, None)
            owes.pop(GRANT, None)
        self.pay(stream)

    def pay(self, only=None):
        """Puts what is owed, the lowest stream first, up to the first frame that doesn't fit."""
        for stream in sorted(self.owes) if only is None else [only]:
            owes = self.owes[stream]
            for kind in sorted(owes):
                if self.room() < {STATUS: 17, END: 9}.get(kind, 13):
                    return
                content = owes.pop(kind)
                if kind == STATUS:
                    self.parts.append(Part(self.status_frame(stream, *content)))
                elif kind == END:
                    self.parts.append(Part(frame(0, 1, stream), stream, True))
                else:
                    self.parts.append(Part(frame(8 if kind == GRANT else 3, 0, stream, content.to_bytes(4, "big"))))
            del self.owes[stream]

    def end_side(self, number, side):
        stream = self.streams[number]
        setattr(stream, side, False)
        if not stream.is_own_open and not stream.is_peer_open:
            del self.streams[number]

    def put_status(self, number, status, end=True):
        self.owe(number, STATUS, (status, end))
        if end:
            self.end_side(number, "is_own_open")

    def put_end(self, number):
        self.owe(number, END, None)
        self.end_side(number, "is_own_open")

    def put_reset(self, number, code):
        self.streams.pop(number, None)
        self.resets.append(number)
        self.take_back(number)
        self.owe(number, RESET, code)
        self.pay()

    def put_some(self, number, octets):
        """How many octets one DATA frame takes."""
        stream = self.streams[number]
        count = min(len(octets), self.sending, stream.sending, 16384)
        if self.parts or count <= 0:
            return 0
        self.parts.append(Part(frame(0, 0, number, octets[:count]), number))
        self.sending -= count
        stream.sending -= count
        return count

    def put_waiting(self, number, carried, is_ended):
        """Puts what may be put of what waits for a stream, and END_STREAM behind the last of it."""
        count = self.put_some(number, carried.rings[self.way])
        self.last_put = number if count else self.last_put
        carried.rings[self.way] = carried.rings[self.way][count:]
        if is_ended and not carried.rings[self.way] and not any(part.stream == number for part in self.parts if part.is_data):
            carried.is_end_put = True
            self.put_end(number)

    def wrote(self, count):
        while count:
            part = self.parts[0]
            carried = self.carried.get(part.stream) if part.is_data else None
            if carried and not part.is_begun:
                carried.taken[self.way] += part.payload
            taken = min(count, len(part.octets))
            part.octets, part.is_begun, count = part.octets[taken:], True, count - taken
            if not part.octets:
                self.parts.pop(0)
                if carried and part.is_end:
                    carried.is_end_sent = True
        self.pay()

    def take_back(self, number=None):
        for part in list(self.parts):
            if part.is_data and not part.is_begun and number in (None, part.stream):
                self.parts.remove(part)
                self.sending += part.payload
                if part.stream in self.streams:
                    self.streams[part.stream].sending += part.payload

    def waits(self, number=None):
        """The octets of DATA, of a stream or of all, that wait and haven't begun."""
        return sum(part.payload for part in self.parts if part.is_data and not part.is_begun and number in (None, part.stream))

    def grant(self, number, count):
        """Octets of a stream are used up."""
        stream = self.streams.get(number)
        if stream and stream.is_peer_open:
            stream.owed += count
            if stream.owed >= 32768:
                self.owe(number, GRANT, stream.owed)
                stream.taking, stream.owed = stream.taking + stream.owed, 0

    # What comes

    def take(self, octets):
        self.came += octets
        try:
            if not self.is_begun:
                if len(self.came) < 24:
                    return
                if self.came[:24] != model.PREFACE:
                    raise ConnFault(PROTOCOL_ERROR)
                self.is_begun, self.came = True, self.came[24:]
            while self.look():
                pass
        except ConnFault as fault:
            self.take_back()
            self.owes = {}
            self.parts.append(Part(frame(7, 0, 0, self.last_taken().to_bytes(4, "big") + fault.args[0].to_bytes(4, "big"))))
            raise

    def last_taken(self):
        """The highest stream that the peer began."""
        return self.highest

    def is_idle(self, number):
        return number % 2 == 0 or number > self.highest

    def frame(self, kind, flags, number, payload):
        content = self.check(kind, flags, number, payload)
        if kind == model.DATA:
            self.on_data(number, payload, content, flags & 1)
        elif kind in (model.HEADERS, model.CONTINUATION):
            self.on_fragment(kind, flags, number, content)
        elif kind == model.RESET:
            self.on_reset(number, int.from_bytes(payload, "big"))
        elif kind == model.SETTINGS and not flags & 1:
            self.on_settings(payload)
        elif kind == model.PING and not flags & 1:
            self.parts.append(Part(frame(6, 1, 0, payload)))
        elif kind == model.GOAWAY:
            self.told_leaving(int.from_bytes(payload[:4], "big") & LARGEST)
        elif kind == model.WINDOW:
            self.on_increment(number, int.from_bytes(payload, "big") & LARGEST)

    def told_leaving(self, last):
        """A server's peer begins no more streams."""

    def on_data(self, number, payload, content, end):
        if self.is_idle(number):
            raise ConnFault(PROTOCOL_ERROR)
        size = len(payload)
        if size > self.taking:
            raise ConnFault(FLOW_CONTROL_ERROR)
        self.taking, self.owed = self.taking - size, self.owed + size
        if self.owed >= 32768:
            self.parts.append(Part(frame(8, 0, 0, self.owed.to_bytes(4, "big"))))
            self.taking, self.owed = self.taking + self.owed, 0
        stream = self.streams.get(number)
        if stream is None:
            self.check_was_reset(number)
        elif not stream.is_peer_open:
            self.stream_fault(number, STREAM_CLOSED)
        elif size > stream.taking:
            self.stream_fault(number, FLOW_CONTROL_ERROR)
        else:
            stream.taking -= size
            if end:
                self.end_side(number, "is_peer_open")
            self.grant(number, size - len(content))
            self.told_chunk(number, content, end)

    def check_was_reset(self, number):
        if number not in self.resets:
            raise ConnFault(STREAM_CLOSED)

    def on_headers(self, number, block, end):
        try:
            headers = self.hpack.headers_of(block)
        except Fault:
            raise ConnFault(9) from None
        if number % 2 == 0:
            raise ConnFault(PROTOCOL_ERROR)
        stream = self.streams.get(number)
        if stream:
            self.stream_fault(number, PROTOCOL_ERROR if stream.is_peer_open else STREAM_CLOSED)
        elif not self.is_idle(number):
            self.check_was_reset(number)
        else:
            self.highest = number
            if len(self.streams) == MOST_STREAMS:
                self.put_reset(number, REFUSED_STREAM)
                return
            self.streams[number] = Stream(self.initial)
            if end:
                self.end_side(number, "is_peer_open")
            self.told_request(number, headers, end)

    def on_reset(self, number, code):
        if self.is_idle(number):
            raise ConnFault(PROTOCOL_ERROR)
        if number in self.streams:
            del self.streams[number]
            self.owes.pop(number, None)
            self.take_back(number)
            self.pay()
            self.told_end(number, f"peer reset {code}")

    def on_settings(self, payload):
        for number, value in pairs_of(payload):
            if number == 4:
                if value > LARGEST:
                    raise ConnFault(FLOW_CONTROL_ERROR)
                for stream in self.streams:
                    if self.streams[stream].sending + self.waits(stream) + value - self.initial > LARGEST:
                        raise ConnFault(FLOW_CONTROL_ERROR)
                    self.streams[stream].sending += value - self.initial
                self.initial = value
            elif number == 3:
                self.limit = value
        self.parts.append(Part(frame(4, 1, 0)))

    def on_increment(self, number, increment):
        if number == 0:
            if increment == 0:
                raise ConnFault(PROTOCOL_ERROR)
            if self.sending + self.waits() + increment > LARGEST:
                raise ConnFault(FLOW_CONTROL_ERROR)
            self.sending += increment
            return
        if self.is_idle(number):
            raise ConnFault(PROTOCOL_ERROR)
        stream = self.streams.get(number)
        if stream is None:
            return
        if increment == 0:
            self.stream_fault(number, PROTOCOL_ERROR)
        elif stream.sending + self.waits(number) + increment > LARGEST:
            self.stream_fault(number, FLOW_CONTROL_ERROR)
        else:
            stream.sending += increment

    def stream_fault(self, number, code):
        self.put_reset(number, code)
        self.told_end(number, f"stream fault {code}")


class Inbound(Connection):
    """The link with its tunnels. `cause` says why it is to be closed."""

    def __init__(self, number, run):
        super().__init__(run.choice)
        self.number, self.run, self.tunnels = number, run, self.carried
        self.front, self.peer, self.destination, self.cause = b"", None, None, None

    def wants(self):
        if self.peer is None:
            return 4112 - len(self.front)
        return min(super().wants(), self.choice.holds - len(self.came))

    def living(self):
        return [self.tunnels[number] for number in sorted(self.tunnels) if self.tunnels[number].cause is None]

    # What comes on the link

    def came_bytes(self, octets):
        try:
            if self.peer is None:
                self.front += octets
                header = read_front(self.front)
                if header is None:
                    return
                size, self.peer, destination = header
                self.destination = destination.ip
                octets, self.front = self.front[size:], b""
                self.parts.append(Part(SETTINGS))
            self.take(octets)
        except FrontFault as fault:
            self.cause = f"front fault {fault.args[0]}"
        except ConnFault as fault:
            self.over(f"conn fault {fault.args[0]}")
            self.run.world.write(self.number, self.output())

    def over(self, cause, of_tunnels=None):
        self.cause = cause
        for tunnel in self.living():
            self.end(tunnel, of_tunnels or cause)

    def ended(self):
        if self.peer is None:
            self.over("front fault 0")
        else:
            self.over("peer gone" if self.streams else "done", "peer gone")

    def told_request(self, number, headers, end):
        target, status = None, 431
        if sum(len(name) + len(value) + 32 for name, value in headers) <= MOST_LIST:
            try:
                method, authority = request_of(headers)
            except Fault:
                self.note(number, 0, None)
                self.put_reset(number, PROTOCOL_ERROR)
                return
            status, target = self.answer_to(method, authority)
        if status != 200:
            self.refuse(number, status, target)
        else:
            self.tunnels[number] = Tunnel(number, target)
            self.tunnels[number].is_peer_ended = bool(end)

    def answer_to(self, method, authority):
        """The status, 200 where the target is to be dialled, and the target."""
        if method != b"CONNECT":
            return 405, None
        target = target_of(authority.decode("latin-1"))
        if target is None or target.ip != self.destination:
            return 400, target
        if self.run.kinds != {ADDRESS, POLICY}:
            return 503, target
        status = judge(self.run.held, self.run.asked, self.peer, target)
        if status == 200 and self.run.leads_back(target):
            return 400, target
        return (503 if status == 200 and self.run.is_full() else status), target

    def told_chunk(self, number, octets, end):
        tunnel = self.tunnels[number]
        tunnel.rings["up"] += octets
        assert len(tunnel.rings["up"]) <= RINGS["up"]
        tunnel.is_peer_ended |= bool(end)

    def told_end(self, number, cause):
        tunnel = self.tunnels.get(number)
        if tunnel and tunnel.cause is None:
            self.end(tunnel, cause)

    # Notes, answers and ends

    def note(self, number, status, target):
        self.run.notes.append(
            f"verdict {self.number}/{number} {status} {self.peer.ip} {self.peer.principal or '-'} {told_target(target)}")

    def refuse(self, number, status, target):
        self.note(number, status, target)
        self.put_status(number, status)
        if number in self.streams:
            self.put_reset(number, NO_ERROR)

    def end(self, tunnel, cause):
        tunnel.cause = cause
        if tunnel.stage == "live":
            self.run.notes.append(
                f"end {self.number}/{tunnel.stream} {cause} up {tunnel.taken['up']} down {tunnel.taken['down']}")
            if cause in ("revoked", "up fault") and tunnel.stream in self.streams:
                self.put_reset(tunnel.stream, CANCEL if cause == "revoked" else CONNECT_ERROR)
        elif cause in ("revoked", "up fault"):
            self.refuse(tunnel.stream, 401 if cause == "revoked" else 502, tunnel.target)
        if tunnel.number is None:
            del self.tunnels[tunnel.stream]

    def refused_now(self, stage):
        return [tunnel for tunnel in self.living() if (tunnel.stage == "live") == (stage == "live")
                and judge(self.run.held, self.run.asked, self.peer, tunnel.target) != 200]

    # Tunnels and their upstreams

    def settle(self):
        """What follows by itself: tunnels that are done, and what may be put, by rising stream."""
        living = self.living() if self.cause is None else []
        if self.choice.fair:
            living.sort(key=lambda tunnel: tunnel.stream <= self.last_put)
        for tunnel in living:
            if tunnel.is_done():
                self.end(tunnel, "done")
            elif tunnel.is_live() and not tunnel.is_end_put:
                self.put_waiting(tunnel.stream, tunnel, tunnel.is_up_ended)

    def up_opened(self, tunnel):
        tunnel.stage = "live"
        self.note(tunnel.stream, 200, tunnel.target)
        self.put_status(tunnel.stream, 200, False)

    def up_wrote(self, tunnel, count):
        tunnel.rings["up"] = tunnel.rings["up"][count:]
        tunnel.taken["up"] += count
        self.grant(tunnel.stream, count)

    def up_head(self, tunnel):
        waits = tunnel.rings["up"]
        return waits[:RINGS["up"] - tunnel.taken["up"] % RINGS["up"]] if self.choice.wraps else waits


class Gateway(Connection):
    """A link to a gateway with the captured link of each stream. `key` is for whom it is: identity, source, address of the gateway."""

    most_push = 0
    way = "up"

    def __init__(self, number, key, run):
        super().__init__(run.choice)
        self.number, self.key, self.run, self.links, self.cause = number, key, run, self.carried, None
        self.is_begun, self.is_leaving = True, False
        identity, source, address = key
        self.header = Part(put_front(source, address, identity))
        self.parts = [self.header, Part(CLIENT)]

    def wants(self):
        return min(super().wants(), self.choice.holds - len(self.came)) if self.cause is None else 0

    def output(self):
        """The header goes by itself, as long as it isn't written (docs/DECISIONS.md, A link to a gateway)."""
        return self.header.octets or super().output()

    def room(self):
        return OUTPUT - len(super().output())

    def last_taken(self):
        return 0

    def has_room(self):
        return (self.cause is None and not self.is_leaving and len(self.streams) < min(MOST_STREAMS, self.limit)
                and self.highest < LARGEST and self.room() >= 1024)

    def ask(self, link, authority):
        """Asks for a tunnel of a captured link on the next stream."""
        self.highest += 2 if self.highest else 1
        link.gate, link.stream, link.stage = self, self.highest, "pending"
        self.streams[link.stream], self.links[link.stream] = Stream(self.initial), link
        block = model.literal(b":method", b"CONNECT") + model.literal(b":authority", authority.encode())
        self.parts.append(Part(frame(1, 4, link.stream, (b"" if self.is_told else b"\x20") + block)))
        self.is_told = True

    # What comes

    def on_headers(self, number, block, end):
        try:
            headers = self.hpack.read(block)
        except Fault:
            raise ConnFault(9) from None
        if self.is_idle(number):
            raise ConnFault(PROTOCOL_ERROR)
        stream = self.streams.get(number)
        if stream is None:
            self.check_was_reset(number)
        elif not stream.is_peer_open:
            self.stream_fault(number, STREAM_CLOSED)
        else:
            if end:
                self.end_side(number, "is_peer_open")
            if number in self.links:
                self.told_headers(self.links[number], status_of(headers), end)

    @staticmethod
    def told_headers(link, status, end):
        if link.stage == "live":
            link.end("stream fault 1")
        elif 200 <= status < 300:
            link.is_ended["down"] = bool(end)
            link.opened()
        elif end and status < 200:
            link.refused(0)
        elif not 100 <= status < 200:
            link.refused(status)

    def told_chunk(self, number, octets, end):
        link = self.links.get(number)
        if link is None:
            return
        if link.stage == "live":
            link.rings["down"] += octets
            assert len(link.rings["down"]) <= RINGS["up"]
            link.is_ended["down"] |= bool(end)
        else:
            link.end("stream fault 1")

    def told_end(self, number, cause):
        if number in self.links:
            self.links[number].end(cause)

    def told_leaving(self, last):
        """The gateway looks at no stream above the last, so nothing is put there."""
        self.is_leaving = True
        for number in sorted(self.links):
            if number > last:
                self.links[number].end("gone away")

    # Ends

    def over(self, cause, of_links=None):
        self.cause = cause
        for number in sorted(self.links):
            self.links[number].end(of_links or cause)

    def ended(self):
        self.over("peer gone" if self.streams else "done", "peer gone")

    def give_up(self, link):
        """The link of a stream is over."""
        del self.links[link.stream]
        if self.cause is None and link.stream in self.streams and link.cause != "gone away":
            self.put_reset(link.stream, CANCEL)

    def came_bytes(self, octets):
        try:
            self.take(octets)
        except ConnFault as fault:
            self.over(f"conn fault {fault.args[0]}")
            self.run.world.write(self.number, self.output())

    # What goes

    def settle(self):
        """Puts what may be put, by rising stream. A link that is done is so behind all that came in one read."""
        numbers = sorted(self.links, key=lambda number: (self.choice.fair and number <= self.last_put, number))
        for number in numbers if self.cause is None else []:
            link = self.links[number]
            if link.stage == "live" and not link.is_end_put:
                self.put_waiting(number, link, link.is_ended["up"])
            link.settle()


class Captured:
    """A link of raw bytes, of the plain door or the outbound one, with its upstream. `stage` is fronting, asked, pending, live; behind its
    end `cause` says why. `target` is what its header told, `peer` who is judged, `principal` what notes tell of it, `address` what is
    dialled for it, and `endpoint` to what it is a connection. At the outbound door the way to the link is the long one. By a gateway
    `key` says by which, `authority` what is asked of it, `gate` and `stream` on what."""

    def __init__(self, number, door, run):
        self.number, self.door, self.run, self.stage, self.cause = number, door, run, "fronting", None
        self.front, self.peer, self.target, self.address, self.up, self.endpoint = b"", None, None, None, None, None
        self.principal = None
        self.sizes = {"up": RINGS["down"], "down": RINGS["up"]} if door == "outbound" else RINGS
        self.rings, self.taken, self.is_ended, self.is_shut = ({"up": b"", "down": b""}, {"up": 0, "down": 0},
                                                               {"up": False, "down": False}, {"up": False, "down": False})
        self.key = self.authority = self.gate = self.stream = None
        self.is_end_put = self.is_end_sent = False

    def wants(self):
        if self.cause is not None or self.stage == "asked":
            return 0
        return 4112 - len(self.front) if self.stage == "fronting" else self.ring_room("up")

    def up_wants(self):
        return self.ring_room("down") if self.cause is None and self.stage == "live" else 0

    def ring_room(self, way):
        return 0 if self.is_ended[way] else self.sizes[way] - len(self.rings[way])

    def waits(self, way):
        """What may be written: to the upstream, or to the link."""
        waits = self.rings[way] if self.cause is None and self.stage == "live" else b""
        return waits[:self.sizes[way] - self.taken[way] % self.sizes[way]] if self.run.choice.wraps else waits

    def note(self, status):
        self.run.notes.append(f"verdict {self.number}/0 {status} {self.peer.ip} {self.principal or '-'} {told_target(self.target)}")

    def came_bytes(self, octets):
        if self.stage != "fronting":
            self.rings["up"] += octets
            return
        self.front += octets
        try:
            header = read_front(self.front)
        except FrontFault as fault:
            self.cause = f"front fault {fault.args[0]}"
            return
        if header is None:
            return
        size, peer, self.target = header
        self.peer, self.principal = Peer(peer.ip, None, None), peer.principal if self.door == "outbound" else None
        status, cause, self.address = self.routed() if self.door == "outbound" else self.judged()
        if status != 200:
            self.note(status)
            self.cause = cause
        else:
            self.stage, self.rings["up"] = "asked", self.front[size:]

    # By what is held, a status and, where it isn't 200, the cause, else the address to dial. The link has its place from its birth.

    def judged(self):
        status = 503
        if self.run.kinds == {ADDRESS, POLICY}:
            status = judge(self.run.held, self.run.asked, self.peer, self.target)
        if status == 200 and self.run.leads_back(self.target):
            status = 400
        return status, f"refused {status}", self.target

    def routed(self):
        if self.run.kinds != {ADDRESS, POLICY}:
            return 503, "refused 503", None
        kind, leads, *more = way(self.run.held, self.run.asked, self.run.connections(), self.peer.ip, self.target)
        if kind == "none":
            return 503, f"no route {leads}", None
        address = target_of(leads)
        if kind == "direct" and self.run.leads_back(address) or int(address.ip) == 0:
            return 400, "refused 400", None
        if kind == "gateway":
            self.key, self.authority = (identity_at(self.run.held, self.run.asked, self.peer.ip), self.peer.ip, address), more[0]
        self.endpoint = more[-1]
        return 200, None, address

    def connects_to(self):
        """The endpoint to which it is a connection now, if any."""
        return self.endpoint if self.cause is None and self.stage != "fronting" else None

    def ended(self):
        self.is_ended["up"] = True
        if self.stage == "fronting":
            self.cause = "front fault 0"
        self.settle()

    def opened(self):
        self.stage = "live"
        self.note(200)
        self.settle()

    def settle(self):
        if self.cause is None and self.stage == "live" and all(map(self.is_through, RINGS)):
            self.end("done")

    def is_through(self, way):
        return self.is_ended[way] and not self.rings[way] and (way == "down" or self.gate is None or self.is_end_sent)

    def end(self, cause):
        if self.cause is not None:
            return
        self.cause = cause
        if self.stage == "live":
            self.run.notes.append(f"end {self.number}/0 {cause} up {self.taken['up']} down {self.taken['down']}")
        elif self.stage != "fronting" and cause in ("revoked", "up fault"):
            self.note(401 if cause == "revoked" else 502)
        if self.gate:
            self.gate.give_up(self)

    def refused(self, status):
        """The gateway answered with another status than one that opens."""
        self.note(502)
        self.end(f"up refused {status}")

    def lacks_room(self):
        """No gateway has room for it."""
        self.note(503)
        self.cause = "no room"

    def wrote(self, way, count):
        self.rings[way] = self.rings[way][count:]
        self.taken[way] += count
        if self.gate:
            self.gate.grant(self.stream, count)
        self.settle()

    def is_refused(self):
        return (self.door == "plain" and self.cause is None and self.stage != "fronting"
                and judge(self.run.held, self.run.asked, self.peer, self.target) != 200)


class Control(model.Link):
    """The link to the control plane, which tells of each response."""

    def __init__(self, number, run):
        super().__init__(number, run.asked["id"], run.asked["discovery"], run.held, run.choice)
        self.run = run

    def applied(self, url):
        self.run.kinds.add(url)
        self.run.judge_all()


class World(model.World):
    """With a door, and sides that are shut."""

    def accept(self, door):
        if not self.waiting[door]:
            return None
        self.waiting[door] -= 1
        self.births += 1
        self.trace.append(f"accepted {self.births} {door}")
        return self.births

    def shut(self, link):
        self.trace.append(f"shut {link}")


class Run:
    """The proxy over a world, until a stop or a wait that failed."""

    def __init__(self, asked, world, choice):
        self.asked, self.world, self.choice = asked, world, choice
        self.held, self.kinds, self.notes = {}, set(), []
        self.control, self.inbound, self.ups, self.is_tick = None, {}, {}, True
        self.plain, self.relays, self.gates = {}, {}, {}
        self.opened = set()

    def is_full(self):
        return sum(len(link.living()) for link in self.inbound.values()) + len(self.plain) >= self.asked.get("tunnels", 4096)

    def connections(self):
        """How many connections each endpoint has."""
        return collections.Counter(filter(None, (link.connects_to() for link in self.plain.values())))

    def leads_back(self, target):
        """Whether who connects to the target would reach a door of the proxy, or the machine itself by the unspecified address."""
        doors = [target_of(self.asked[door]) for door in DOORS if door in self.asked]
        at_door = any(door.port == target.port and (int(door.ip) == 0 or door.ip == target.ip) for door in doors)
        return at_door or int(target.ip) == 0

    def run(self):
        if any(map(self.asked.get, DOORS)) and self.world.lines and self.world.lines[0].get("fault") == "listen":
            return "world fault"
        self.acts()
        while True:
            while self.round():
                pass
            waited = self.world.wait()
            if waited in ("stop", "fault"):
                self.stop()
                return "stopped" if waited == "stop" else "world fault"
            self.is_tick = waited == "tick"
            self.acts()

    def stop(self):
        self.is_tick = False
        if self.control:
            self.close_control("stopped")
        for number in sorted(self.inbound):
            if self.inbound[number].cause is None:
                self.inbound[number].over("stopped")
        for number in sorted(self.plain):
            self.plain[number].end("stopped")
        for number in sorted(self.gates):
            self.gates[number].over("stopped")
        self.acts()

    # An update

    def judge_all(self):
        links = [self.inbound[number] for number in sorted(self.inbound) if self.inbound[number].peer]
        stages = [(link, stage) for link in links for stage in ("pending", "live")]
        if not self.choice.by_link:
            stages.sort(key=lambda pair: pair[1] == "live")
        ends = {pair: pair[0].refused_now(pair[1]) for pair in stages}
        for link, stage in stages:
            for tunnel in ends[link, stage]:
                link.end(tunnel, "revoked")
        for link in [self.plain[number] for number in sorted(self.plain) if self.plain[number].is_refused()]:
            link.end("revoked")

    # Acts

    def acts(self):
        """Dials, shuts and closes that are due: the control plane's, then those of tunnels, by link and by rising stream."""
        if self.is_tick and self.control is None:
            number = self.world.dial(self.asked["discovery"])
            self.control = Control(number, self) if number else None
        self.is_tick = False
        for number in sorted(self.inbound):
            link = self.inbound[number]
            while self.act(link):
                pass
        for number in sorted(self.gates):
            self.gates[number].settle()
        calls = [self.plain_acts, self.gate_acts]
        for call in calls[::-1] if self.choice.gates_first else calls:
            call()

    def plain_acts(self):
        """One act of each link that has one due, by rising number, and so again until none has."""
        while any([self.plain_act(self.plain[number]) for number in sorted(self.plain)]):
            pass

    def gate_acts(self):
        for number in sorted(self.gates):
            if self.gates[number].cause is not None:
                self.close(number, self.gates[number].cause)
                del self.gates[number]

    def plain_act(self, link):
        """Makes the first act of a link of raw bytes, if one is due."""
        if link.cause is not None:
            if link.up is not None:
                self.close(link.up, link.cause)
                del self.relays[link.up]
                link.up = None
            else:
                self.close(link.number, link.cause)
                del self.plain[link.number]
            return True
        if link.stage == "asked" and link.key:
            self.join(link)
            return True
        if link.stage == "asked":
            target = told_target(link.address)
            link.up, link.stage = self.world.dial(target), "pending"
            if link.up is None:
                link.end("up fault")
            else:
                self.relays[link.up] = link
                self.world.whys[link.up] = f"{'relay' if link.door == 'plain' else 'direct'} {target} of {link.number}"
            return True
        for way, number in (("up", link.up), ("down", link.number)):
            if link.stage == "live" and number and link.is_through(way) and not link.is_shut[way]:
                link.is_shut[way] = True
                self.world.shut(number)
                return True
        return False

    def join(self, link):
        """Asks for a stream of the link: of the first connection of its key that has room, else of another one."""
        gate = next((self.gates[number] for number in sorted(self.gates) if self.gates[number].key == link.key
                     and self.gates[number].has_room()), None)
        if gate is None and self.has_all_links():
            link.lacks_room()
            return
        if gate is None:
            number = self.world.dial(told_target(link.address))
            if number is None:
                link.end("up fault")
                return
            gate = self.gates[number] = Gateway(number, link.key, self)
            self.world.whys[number] = f"gateway {told_target(link.address)}"
        gate.ask(link, link.authority)

    def has_all_links(self):
        """Whether there are as many inbound links and links to gateways as may be."""
        return len(self.inbound) + len(self.gates) >= MOST_LINKS

    def act(self, link):
        """Makes the link's first act, if one is due."""
        link.settle()
        for number in sorted(link.tunnels):
            tunnel = link.tunnels[number]
            if tunnel.cause is not None:
                self.close(tunnel.number, tunnel.cause)
                del link.tunnels[number], self.ups[tunnel.number]
                return True
            if tunnel.stage == "asked":
                self.dial(link, tunnel)
                return True
            if tunnel.may_shut():
                tunnel.is_shut = True
                self.world.shut(tunnel.number)
                return True
        if link.cause is not None and link.number in self.inbound:
            self.close(link.number, link.cause)
            del self.inbound[link.number]
        return False

    def dial(self, link, tunnel):
        target = told_target(tunnel.target)
        tunnel.number = self.world.dial(target)
        tunnel.stage = "pending"
        if tunnel.number is None:
            link.end(tunnel, "up fault")
        else:
            self.ups[tunnel.number] = link, tunnel
            self.world.whys[tunnel.number] = f"upstream {target} of {link.number}/{tunnel.stream}"

    def close(self, number, cause):
        self.world.close(number, cause)

    def close_control(self, cause):
        self.close(self.control.number, cause)
        self.control = None

    # Rounds

    def round(self):
        """Whether something moved. What came of the control plane is read first of all."""
        before = len(self.world.trace)
        if self.control and self.control.number in self.opened:
            self.called(self.read_control, self.control)
        if not self.choice.backwards:
            self.accept()
        numbers = sorted([*self.inbound, *self.ups, *self.plain, *self.relays, *self.gates,
                          *([self.control.number] if self.control else [])], reverse=self.choice.backwards)
        for number in numbers:
            self.visit(number)
        if self.choice.backwards:
            self.accept()
        return len(self.world.trace) > before

    def accept(self):
        for door in DOORS:
            number = self.world.accept(door) if self.asked.get(door) else None
            if number and door == "inbound":
                is_full = self.has_all_links()
                self.inbound[number] = Inbound(number, self)
                if is_full:
                    self.inbound[number].over("no room")
                    self.acts()
            elif number:
                is_full = self.is_full()
                self.plain[number] = Captured(number, door, self)
                if is_full:
                    self.plain[number].end("no room")
                    self.acts()

    def visit(self, number):
        is_dialled = any(number in links for links in (self.ups, self.relays, self.gates)) or self.control is not None \
            and self.control.number == number
        if is_dialled and number not in self.opened:
            self.finish(number)
            self.acts()
            if number not in self.opened or not self.choice.goes_on:
                return
        self.look(number)
        for way in self.choice.order:
            for links, calls in ((self.inbound, (self.read, self.write)), (self.ups, (self.read_up, self.write_up)),
                                 (self.plain, (self.read_plain, self.write_plain)), (self.relays, (self.read_relay, self.write_relay)),
                                 (self.gates, (self.read, self.write))):
                if number in links:
                    self.called(calls["rw".index(way)], links[number])
            if self.control and self.control.number == number:
                self.called(self.read_control if way == "r" else self.write_control, self.control)

    def look(self, number):
        """Looks at a link whose peer sends no more."""
        if not self.world.look(number):
            return
        if number in self.ups:
            link, tunnel = self.ups[number]
            link.end(tunnel, "up fault")
        elif number in self.plain:
            self.plain[number].end("peer gone")
        elif number in self.relays:
            self.relays[number].end("up fault")
        self.acts()

    def called(self, call, link):
        """Makes a call, and what is due where it moved something."""
        before = len(self.world.trace)
        call(link)
        if len(self.world.trace) > before:
            self.acts()

    def finish(self, number):
        answer = self.world.finish(number)
        if answer == "open":
            self.opened.add(number)
            if number in self.ups:
                self.ups[number][0].up_opened(self.ups[number][1])
            elif number in self.relays:
                self.relays[number].opened()
        elif answer and number in self.relays:
            self.relays[number].end("up fault")
        elif answer and number in self.ups:
            self.ups[number][0].end(self.ups[number][1], "up fault")
        elif answer and number in self.gates:
            self.gates[number].over("broken", "up fault")
        elif answer:
            self.close_control("broken")

    def read_control(self, link):
        came = self.world.read(link.number, link.wants()) if link.wants() else None
        if came in ("end", "broke"):
            self.close_control("broken")
        elif came:
            try:
                link.take(came)
            except Ends as end:
                self.close_control(end.args[0])
            except ConnFault as fault:
                self.world.write(link.number, link.output())
                self.close_control(f"conn fault {fault.args[0]}")

    def write_control(self, link):
        went = self.world.write(link.number, link.output()) if link.output() else 0
        if went == "broke":
            self.close_control("broken")
        elif went:
            link.wrote(went)

    def read(self, link):
        came = self.world.read(link.number, link.wants()) if link.wants() > 0 else None
        if came == "end":
            link.ended()
        elif came == "broke":
            link.over("broken", "peer gone")
        elif came:
            link.came_bytes(came)

    def write(self, link):
        went = self.world.write(link.number, link.output()) if link.output() else 0
        if went == "broke":
            link.over("broken", "peer gone")
        elif went:
            link.wrote(went)

    def read_up(self, pair):
        link, tunnel = pair
        room = RINGS["down"] - len(tunnel.rings["down"])
        if tunnel.is_up_ended or not room:
            return
        came = self.world.read(tunnel.number, min(room, self.choice.most))
        if came == "end":
            tunnel.is_up_ended = True
        elif came == "broke":
            link.end(tunnel, "up fault")
        elif came:
            tunnel.rings["down"] += came

    def write_up(self, pair):
        link, tunnel = pair
        head = link.up_head(tunnel)
        went = self.world.write(tunnel.number, head) if head else 0
        if went == "broke":
            link.end(tunnel, "up fault")
        elif went:
            link.up_wrote(tunnel, went)

    def read_plain(self, link):
        came = self.world.read(link.number, min(link.wants(), max(self.choice.most, 4112))) if link.wants() else None
        if came == "end":
            link.ended()
        elif came == "broke":
            link.end("peer gone")
        elif came:
            link.came_bytes(came)

    def write_plain(self, link):
        self.write_way(link, link.number, "down", "peer gone")

    def read_relay(self, link):
        came = self.world.read(link.up, min(link.up_wants(), self.choice.most)) if link.up_wants() else None
        if came == "end":
            link.is_ended["down"] = True
            link.settle()
        elif came == "broke":
            link.end("up fault")
        elif came:
            link.rings["down"] += came

    def write_relay(self, link):
        self.write_way(link, link.up, "up", "up fault")

    def write_way(self, link, number, way, broken):
        head = link.waits(way)
        went = self.world.write(number, head) if head else 0
        if went == "broke":
            link.end(broken)
        elif went:
            link.wrote(way, went)


# Reports


def report(asked, world, notes):
    links, octets = {}, collections.Counter()
    for entry in world.trace:
        word, _, rest = entry.partition(" ")
        link, _, rest = rest.partition(" ")
        if word in ("accepted", "dialled"):
            links[link] = [rest if word == "accepted" else world.whys.get(int(link), f"discovery {rest}"), "open"]
        elif word == "closed":
            links[link][1] = f"closed {rest}"
        elif word in ("came", "went"):
            octets[word, link] += len(rest) // 2
    lines = list(world.trace) if asked.get("trace") else []
    for link, (what, closed) in links.items():
        lines.append(f"link {link} {what}: received {octets['came', link]}, sent {octets['went', link]}, {closed}")
    ends = [note.split() for note in notes if note.startswith("end")]
    accepted = sum(note.startswith("verdict") and note.split()[2] == "200" for note in notes)
    revoked = sum(what.split()[0] not in DOORS and closed == "closed revoked" for what, closed in links.values())
    up, down = (sum(int(words[at]) for words in ends) for at in (-3, -1))
    lines += [*notes, f"total: {len(links)} links, {accepted} accepted, {revoked} revoked, {up} up, {down} down"]
    return "".join(line + "\n" for line in (lines[-1:] if asked.get("brief") else lines))


def replay(words, script, choice=USUAL):
    """Status, output and error text of `hbone replay` with these words behind it, over the text of a script."""
    asked = model.read_words(words)
    world = World(model.read_script(script))
    world.whys = {}
    run = Run(asked, world, choice)
    end = run.run()
    status, error = {"stopped": (0, ""), "world fault": (4, "hbone: world fault\n")}[end]
    return status, report(asked, world, run.notes), error


def is_determined(words, script):
    """Whether the report is the same by every choice."""
    return all(replay(words, script, choice) == replay(words, script) for choice in OTHERS)
