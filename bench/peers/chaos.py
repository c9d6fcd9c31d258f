"""Whatever comes to mind, in random order: what no other case thought of."""

import random

import h2.exceptions

from case import case, payload
from peers import CALLER, HERE, OTHER, Fault, Peer, echo, free_port, mesh, sink, until, wanted

STEPS = 4000


def pour(taken):
    """Sends some bytes, and ends."""
    taken.send(payload(200_000))
    taken.finish()
    sink(taken)
    taken.close()


def breaks(taken):
    """Sends some bytes, and resets its connection."""
    taken.send(payload(1000))
    taken.take()
    taken.reset()


def leaves(taken):
    taken.close()


def returns(taken):
    echo(taken)
    taken.close()


class Play:
    """Peers and what they do, and of each stream of the echo what was sent on it."""

    def __init__(self, room, seed):
        self.room, self.choice, self.peers, self.sent = room, random.Random(seed), [], {}
        self.echo = room.upstream(returns)
        self.others = [room.upstream(act).port for act in (pour, breaks, leaves)] + [free_port()]
        self.admitted = True

    def streams(self, peer):
        return [it for it in peer.came if peer.status.get(it) == 200 and not peer.closed(it) and it not in peer.ending]

    def new_peer(self):
        if len(self.peers) < 30:
            piece = self.choice.choice([None, None, None, 1, 100])
            self.peers.append(self.room.peer(identity=self.choice.choice([CALLER, OTHER]), piece=piece))

    def new_tunnel(self, peer):
        if peer.conn.open_outbound_streams < 20:
            port = self.choice.choice([self.echo.port, self.echo.port, *self.others])
            stream = peer.connect(f"{HERE}:{port}", end=self.choice.random() < 0.1)
            if port == self.echo.port:
                self.sent[peer, stream] = bytearray()

    def on_a_stream(self, peer, act):
        """An act on a stream on which a tunnel is open and the peer's side isn't ended."""
        alive = [it for it in self.streams(peer) if peer.conn.streams[it].state_machine.state.name == "OPEN"] if not peer.over else []
        if alive:
            act(peer, self.choice.choice(alive))

    def send(self, peer, stream):
        data = payload(self.choice.choice([1, 100, 16384, 70_000]), self.choice.randbytes(4))
        peer.send(stream, data)
        if (peer, stream) in self.sent:
            self.sent[peer, stream] += data

    def finish(self, peer, stream):
        peer.send(stream, b"", end=True)

    def reset(self, peer, stream):
        peer.todo.pop(stream, None)
        peer.conn.reset_stream(stream, 8)
        peer.reset[stream] = 8

    def leave(self, peer):
        self.choice.choice([Peer.close, Peer.abort])(peer)
        self.peers.remove(peer)

    def policies(self):
        self.admitted = not self.admitted
        self.room.plane.set(mesh(CALLER, *([OTHER] if self.admitted else [])))

    def check(self, peer):
        for stream, came in peer.came.items():
            if (peer, stream) in self.sent and not self.sent[peer, stream].startswith(came):
                raise Fault(f"stream {stream} brought back what wasn't sent")

    def step(self):
        """One thing, and once around each peer."""
        acts = [self.new_peer, self.policies] if self.choice.random() < 0.1 else []
        peer = self.choice.choice(self.peers) if self.peers else None
        if peer:
            acts += [lambda: self.new_tunnel(peer)] * 4 + [lambda: self.on_a_stream(peer, self.send)] * 8
            acts += [lambda: self.on_a_stream(peer, self.choice.choice([self.finish, self.reset]))] * 2
            acts += [lambda: self.leave(peer)] if self.choice.random() < 0.1 else []
        self.choice.choice(acts or [self.new_peer])()
        for peer in self.peers:
            peer.step(0)
        if peer and peer in self.peers:
            self.check(peer)

    def end(self):
        """All that are left bring back what was sent, where they are let in; then all go."""
        for peer in list(self.peers):
            for stream in self.streams(peer):
                if (peer, stream) in self.sent and not peer.over:
                    sent = self.sent[peer, stream]
                    peer.pump(lambda: len(peer.came[stream]) == len(sent) or peer.closed(stream), f"{len(sent)} bytes on {stream}", 60)
            self.check(peer)
            peer.close()


@case
def anything(room):
    """4,000 random acts of peers, upstreams and policies: no byte that wasn't sent, no frame out of order, nothing left at the end."""
    room.start(resources=mesh(CALLER, OTHER))
    seed = random.randrange(1 << 32)
    before = room.proxy.descriptors()
    play = Play(room, seed)
    try:
        for _ in range(STEPS):
            play.step()
        play.end()
    except h2.exceptions.ProtocolError as error:
        raise Fault(f"seed {seed}: {type(error).__name__}: {error}") from error
    except Fault as fault:
        raise Fault(f"seed {seed}: {fault}") from fault
    until(f"seed {seed}: all is closed", lambda: room.proxy.descriptors() == before)
    wanted("the program", room.proxy.process.poll(), None)
    return f"{len(play.sent)} tunnels to the echo"
