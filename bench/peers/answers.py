"""What requests are answered."""

import random
import socket

from case import NO_ERROR, PROTOCOL_ERROR, answer_of, case, says
from peers import CALLER, HERE, OTHER, echo, free_port, header, mesh, policy, resources_of, until, wanted, workload


@case
def allowed(room):
    """A peer that the policies let in gets 200, and what it sends comes back; both ends go through, and the stream is over."""
    room.start()
    up, peer = room.upstream(echo), room.peer()
    stream = peer.tunnel(up.port)
    says(peer, stream, b"hello")
    peer.send(stream, b"", end=True)
    peer.pump(lambda: stream in peer.ended, "END_STREAM")
    wanted("at the upstream", (bytes(up.one().came), up.one().ended), (b"hello", "end"))
    says(peer, peer.tunnel(up.port), b"once more")


@case
def denied(room):
    """A peer that the policies refuse, and one without an identity, get 401 with END_STREAM; nothing is dialled."""
    room.start()
    up = room.upstream(echo)
    for identity in (OTHER, None):
        peer = room.peer(identity=identity)
        wanted(f"the answer to {identity}", answer_of(peer, peer.connect(f"{HERE}:{up.port}")), (401, NO_ERROR))
    wanted("connections at the upstream", len(up.taken), 0)


def reason_of(policies, peer):
    """Why policies, of which each lets in, or refuses, these principals, deny a peer, worked out anew; None where they don't."""
    fires = [(name, action) for name, action, principals in sorted(policies) if peer in principals]
    denies = [name for name, action in fires if action == "DENY"]
    allows = sum(action == "ALLOW" for _, action, _ in policies)
    if denies:
        return f"denied_by=a/{denies[0]}"
    return f"none_allows={allows}" if allows and not fires else None


@case
def reasons(room):
    """Forty sets of up to five policies that allow or deny one peer, the other, or both: each peer is refused exactly where they deny it,
    and its line tells the first policy that does, or how many allow others."""
    chance, names = random.Random(7), "abcde"
    room.start(resources=mesh())
    up, wants = room.upstream(echo), []
    for place in range(40):
        policies = [(name, chance.choice(("ALLOW", "DENY")), chance.choice(((CALLER,), (OTHER,), (CALLER, OTHER))))
                    for name in chance.sample(names, chance.randint(0, 5))]
        room.update(resources_of({
            "workloads": [workload(HERE, policies=[f"a/{name}" for name in names], service_account=f"s{place}")],
            "policies": [policy(*principals, name=name, action=action) for name, action, principals in policies],
        }))
        for identity in (CALLER, OTHER):
            peer, reason = room.peer(identity=identity), reason_of(policies, identity)
            if reason:
                wanted(f"{identity} by {policies}", answer_of(peer, peer.connect(f"{HERE}:{up.port}")), (401, NO_ERROR))
                wants.append(reason)
            else:
                says(peer, peer.tunnel(up.port), b"let in")
    wanted("some of each", {it.partition("=")[0] for it in wants}, {"denied_by", "none_allows"})
    until("all lines", lambda: len(room.proxy.reasons()) == len(wants))
    wanted("the reasons", room.proxy.reasons(), wants)


@case
def unknown_target(room):
    """404 for an address that no workload of the node has, 400 for one that isn't the header's destination."""
    room.start(resources=mesh(CALLER, workloads=[workload("127.0.0.8", "far", node="n2")]))
    for host in ("127.0.0.9", "127.0.0.8"):
        peer = room.peer(destination=host)
        wanted(f"the answer for {host}", answer_of(peer, peer.connect(f"{host}:80")), (404, NO_ERROR))
    peer = room.peer()
    wanted("the answer for another destination", answer_of(peer, peer.connect("127.0.0.9:80")), (400, NO_ERROR))


@case
def other_requests(room):
    """405 for GET, 400 for what isn't IP:PORT, 431 for headers above 16,384; RST_STREAM with PROTOCOL_ERROR for what is no request."""
    room.start()
    peer = room.peer()
    get = [(":method", "GET"), (":scheme", "http"), (":path", "/"), (":authority", "x")]
    asks = [
        ("GET", get, (405, NO_ERROR)),
        ("a name", [(":method", "CONNECT"), (":authority", "localhost:80")], (400, NO_ERROR)),
        ("no port", [(":method", "CONNECT"), (":authority", HERE)], (400, NO_ERROR)),
        ("large headers", [(":method", "CONNECT"), (":authority", f"{HERE}:80"), ("x", "y" * 16384)], (431, NO_ERROR)),
        ("a path", [(":method", "CONNECT"), (":authority", f"{HERE}:80"), (":path", "/")], (None, PROTOCOL_ERROR)),
        ("no authority", [(":method", "CONNECT")], (None, PROTOCOL_ERROR)),
    ]
    for what, headers, want in asks:
        wanted(f"the answer to {what}", answer_of(peer, peer.request(headers)), want)


@case
def before_the_first_resources(room):
    """503 before the control plane told workloads and policies; 200 then, on the same link."""
    room.serve()
    up, peer = room.upstream(echo), room.peer()
    wanted("the answer before", answer_of(peer, peer.connect(f"{HERE}:{up.port}")), (503, NO_ERROR))
    room.control()
    room.settle()
    says(peer, peer.tunnel(up.port), b"hello")


@case
def no_upstream(room):
    """502 where nothing listens at the target."""
    room.start()
    peer = room.peer()
    wanted("the answer", answer_of(peer, peer.connect(f"{HERE}:{free_port()}")), (502, NO_ERROR))


@case
def six_addresses(room):
    """A target of IPv6, whose header is of TCP over IPv6."""
    room.start(resources=resources_of({"workloads": [workload("::1")], "policies": [policy(CALLER)]}))
    with socket.create_server(("::1", 0), family=socket.AF_INET6) as server:
        peer = room.peer(front=header(("::1", 1), ("::1", 15008), CALLER))
        stream = peer.connect(f"[::1]:{server.getsockname()[1]}")
        peer.pump(lambda: peer.answered(stream), "an answer")
        wanted("the answer", peer.status.get(stream), 200)
