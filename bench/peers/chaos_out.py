"""Whatever comes to mind at the outbound door, in random order: what no other case thought of."""

import random
import select
import time

import h2.exceptions
import h2.settings
from hyperframe.frame import GoAwayFrame

from case import CANCEL, NO_ERROR, case, payload
from chaos import STEPS, breaks, leaves, pour, returns
from gateways import outbound
from nodes import two_nodes
from peers import CALLER, HERE, OTHER, OTHER_SOURCE, SOURCE, Fault, far_mesh, free_port, until, wanted


class Crowd:
    """Captured connections, and of each what it sent, what of it waits; those that end behind that, and those that did."""

    def __init__(self, room, seed):
        self.room, self.choice = room, random.Random(seed)
        self.sent, self.todo, self.ending, self.finished = {}, {}, set(), set()

    def clients(self):
        return list(self.sent)

    def add(self, port, source):
        client = self.room.captured(port, source=source)
        self.sent[client], self.todo[client] = bytearray(), bytearray()
        return client

    def send(self, client):
        if client not in self.ending:
            data = payload(self.choice.choice([1, 100, 16384, 70_000]), self.choice.randbytes(4))
            self.sent[client] += data
            self.todo[client] += data

    def finish(self, client):
        self.ending.add(client)

    def go(self, client):
        """It goes away, in one of three ways."""
        self.choice.choice([client.close, client.reset, client.reset])()
        self.room.things.remove(client)
        del self.sent[client], self.todo[client]

    def move(self, client):
        """What goes goes, and what comes comes."""
        todo = self.todo[client]
        poll = select.poll()
        poll.register(client.socket, (0 if client.ended else select.POLLIN) | (select.POLLOUT if todo else 0))
        for _, events in poll.poll(0):
            if events & select.POLLOUT:
                try:
                    del todo[: client.socket.send(todo[: 1 << 16])]
                except OSError:
                    client.ended = "reset"
                    todo.clear()
            if events & select.POLLIN and not client.ended:
                client.take()
        if not todo and client in self.ending - self.finished:
            client.finish()
            self.finished.add(client)

    def some(self, act):
        """An act on one of them."""
        if self.sent:
            act(self.choice.choice(self.clients()))


class Nodes(Crowd):
    """Captured connections of two sources from node to node, one of which the far policies always let in."""

    def __init__(self, room, far, seed):
        super().__init__(room, seed)
        self.far, self.echo, self.admitted, self.true = far, room.upstream(returns), True, set()
        self.others = [room.upstream(act).port for act in (pour, breaks, leaves)] + [free_port()]

    def new(self):
        if len(self.sent) < 40:
            source = self.choice.choice([SOURCE, OTHER_SOURCE])
            port = self.choice.choice([self.echo.port, self.echo.port, *self.others])
            client = self.add(port, source)
            if port == self.echo.port and source == SOURCE:
                self.true.add(client)

    def policies(self):
        self.admitted = not self.admitted
        self.far.plane.set(far_mesh(CALLER, *([OTHER] if self.admitted else [])))

    def check(self, client):
        if client in self.true and client.ended and (client.ended == "reset" or client.came != self.sent[client]):
            raise Fault(f"an echo that is let in ended ({client.ended}) behind {len(client.came)} of {len(self.sent[client])} bytes")
        if client in self.true and not self.sent[client].startswith(client.came):
            raise Fault("an echo brought back what wasn't sent")

    def step(self):
        acts = [self.new] * 4 + [lambda: self.some(self.send)] * 12 + [lambda: self.some(self.finish)] + [lambda: self.some(self.go)]
        self.choice.choice(acts + ([self.policies] if self.choice.random() < 0.2 else []))()
        for client in self.clients():
            self.move(client)
            self.check(client)

    def all(self):
        """All that is left brings back what was sent, and ends."""
        for client in self.true & set(self.sent):
            self.finish(client)

        def are_over():
            for client in self.clients():
                self.move(client)
                self.check(client)
            return all(it.ended for it in self.true & set(self.sent))

        end = time.monotonic() + 60
        while not are_over():
            if time.monotonic() > end:
                left = [(len(self.sent[it]), len(self.todo[it]), len(it.came)) for it in self.true & set(self.sent) if not it.ended]
                raise Fault(f"echoes of which bytes (sent, not gone, back) are left after 60 s: {left}")
        for client in self.clients():
            self.go(client)


@case
def anything_from_node_to_node(room):
    """4,000 random acts of captured connections, upstreams and far policies: a connection that is let in brings back its bytes and ends
    with its own end, and nothing is left but the links."""
    far = two_nodes(room, CALLER, OTHER)
    seed = random.randrange(1 << 32)
    before = [it.proxy.descriptors() for it in (room, far)]
    play = Nodes(room, far, seed)
    try:
        for _ in range(STEPS):
            play.step()
        play.all()
        until("all is closed", lambda: all(it.proxy.descriptors() <= at + 2 for it, at in zip((room, far), before)))
    except Fault as fault:
        raise Fault(f"seed {seed}: {fault}") from fault
    wanted("the programs", [it.proxy.process.poll() for it in (room, far)], [None, None])
    return f"{len(play.true)} echoes"


class Gateways(Crowd):
    """Captured connections by gateways that do what they want. The port that a connection means tells it at its gateway."""

    def __init__(self, room, gateway, seed):
        super().__init__(room, seed)
        self.gateway, self.links, self.away, self.back, self.meant = gateway, [], set(), {}, {}

    def new(self):
        if len(self.sent) < 40:
            port = 1 + len(self.meant)
            self.meant[port] = self.add(port, self.choice.choice([SOURCE, OTHER_SOURCE]))

    def client_of(self, link, stream):
        return self.meant[int(dict(link.asked[stream])[":authority"].rpartition(":")[2])]

    def accept(self):
        if self.gateway.waits(0):
            self.links.append(self.gateway.link(piece=self.choice.choice([None, None, None, 100])))

    def on_a_stream(self, act, *states):
        """An act on some stream that is in one of these states of this end."""
        pairs = [(it, stream) for it in self.links for stream in it.asked if self.state(it, stream) in states]
        if pairs:
            act(*self.choice.choice(pairs))

    def state(self, link, stream):
        """`asks`, `open` or `ended`, of this end's side; `over` where nothing more may be sent."""
        held = link.conn.streams.get(stream)
        if link.over or stream in link.reset or held is None or held.closed:
            return "over"
        return self.back.get((link, stream), ("asks", b""))[0]

    def answer(self, link, stream):
        status = self.choice.choice([200, 200, 200, 200, 204, 503])
        link.answer(stream, status, end=status == 503)
        self.back[link, stream] = ("open" if status < 300 else "over", bytearray())

    def give(self, link, stream):
        data = payload(self.choice.choice([1, 100, 16384, 70_000]), self.choice.randbytes(4))
        link.send(stream, data)
        self.back[link, stream][1].extend(data)

    def end(self, link, stream):
        link.send(stream, b"", end=True)
        self.back[link, stream] = ("ended", self.back[link, stream][1])

    def reset(self, link, stream):
        link.todo.pop(stream, None)
        link.ending.discard(stream)
        link.conn.reset_stream(stream, CANCEL)
        link.reset[stream] = CANCEL

    def whole(self, link):
        """Something that is of a link as a whole."""
        if self.choice.random() < 0.3 and link not in self.away:
            self.send_away(link, self.choice.choice([0, *link.asked]))
        elif self.choice.random() < 0.5 and not link.settings_out:
            settings = h2.settings.SettingCodes
            code, most = self.choice.choice([(settings.MAX_CONCURRENT_STREAMS, 5), (settings.INITIAL_WINDOW_SIZE, 100_000)])
            link.set(code, self.choice.randrange(1, most))
        else:
            self.choice.choice([link.close, link.abort])()
            link.over = "closed"

    def send_away(self, link, last):
        self.away.add(link)
        link.out += GoAwayFrame(0, last_stream_id=last).serialize()
        for stream in link.asked:
            if stream > last:
                link.todo.pop(stream, None)
                link.ending.discard(stream)
                link.reset[stream] = NO_ERROR

    def check(self, link, stream):
        client, back = self.client_of(link, stream), self.back.get((link, stream), ("asks", b""))[1]
        if client in self.sent and not self.sent[client].startswith(link.came[stream]):
            raise Fault(f"stream {stream} of a link brought what wasn't sent")
        if not back.startswith(client.came):
            raise Fault(f"stream {stream} of a link gave back what wasn't sent")

    def step(self):
        acts = [self.new] * 4 + [lambda: self.some(self.send)] * 10 + [lambda: self.some(self.finish), lambda: self.some(self.go)]
        acts += [self.accept] * 4 + [lambda: self.on_a_stream(self.answer, "asks")] * 6
        acts += [lambda: self.on_a_stream(self.give, "open")] * 10 + [lambda: self.on_a_stream(self.end, "open")]
        acts += [lambda: self.on_a_stream(self.reset, "asks", "open", "ended")] if self.choice.random() < 0.3 else []
        alive = [it for it in self.links if not it.over]
        acts += [lambda: self.whole(self.choice.choice(alive))] if alive and self.choice.random() < 0.1 else []
        self.choice.choice(acts)()
        for client in self.clients():
            self.move(client)
        for link in self.links:
            if not link.over:
                link.step(0)
                wanted("a GOAWAY of the program", link.gone, None)
        if self.links:
            link = self.choice.choice(self.links)
            for stream in list(link.asked)[-20:]:
                self.check(link, stream)

    def all(self):
        """All links close, and so each connection has to."""
        for link in self.links:
            if not link.over:
                link.close()
                link.over = "closed"
        self.gateway.server.close()

        def are_over():
            for client in self.clients():
                self.move(client)
            return all(it.ended for it in self.sent)

        until("all connections are over", are_over, 20)
        for client in self.clients():
            self.go(client)


@case
def anything_by_gateways(room):
    """4,000 random acts of captured connections and gateways: no byte that wasn't sent, either way, no frame out of order, and nothing
    left at the end."""
    gateway = room.gateway()
    outbound(room, gateway.port)
    seed = random.randrange(1 << 32)
    before = room.proxy.descriptors()
    play = Gateways(room, gateway, seed)
    try:
        for _ in range(STEPS):
            play.step()
        play.all()
        until("all is closed", lambda: room.proxy.descriptors() == before)
    except h2.exceptions.ProtocolError as error:
        raise Fault(f"seed {seed}: {type(error).__name__}: {error}") from error
    except Fault as fault:
        raise Fault(f"seed {seed}: {fault}") from fault
    wanted("the program", room.proxy.process.poll(), None)
    return f"{len(play.meant)} connections, {len(play.links)} links"
