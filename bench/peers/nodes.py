"""From node to node: an outbound door, whose links lead to the inbound door of another program. No TLS stands between them."""

import hashlib
import threading
from concurrent.futures import ThreadPoolExecutor

from case import case, payload
from gateways import closed, no_more_memory, pours
from peers import CALLER, HERE, OTHER, OTHER_SOURCE, SERVICE, SOURCE, echo, far_mesh, free_port, silent, sink, until, wanted
from waypoints import behind, by_address

CALLER_NAME, OTHER_NAME = (it.removeprefix("spiffe://") for it in (CALLER, OTHER))


def two_nodes(room, *principals, **settings):
    """A room beside this one, with the far node; each has a control plane of its own. This room's program has an outbound door."""
    resources = far_mesh(*(principals or [CALLER]), **settings)
    far = room.beside()
    far.start(node="n2", resources=resources)
    room.start("--hbone-port", str(far.proxy.doors["inbound"]), resources=resources, outbound=free_port())
    return far


def says(client, text=b"hello"):
    """A round trip through an echo."""
    before = len(client.came)
    client.send(text)
    wanted("what came back", client.gets(before + len(text))[before:], text)


def both_end(client):
    client.finish()
    client.rest()
    wanted("the end", client.ended, "end")


def ends_of(proxy):
    return [it for it in proxy.notes() if it.startswith("end")]


@case
def from_node_to_node(room):
    """A captured connection to a workload of another node: the far node lets the source's identity in; bytes and ends go both ways, and
    each node has its notes."""
    far, up = two_nodes(room), room.upstream(echo)
    client = room.captured(up.port)
    says(client, payload(100_000))
    both_end(client)
    wanted("at the upstream", (bytes(up.one().came) == payload(100_000), up.one().ended), (True, "end"))
    room.proxy.noted(f"verdict 200 {SOURCE} - {HERE}:{up.port}", "end done up 100000 down 100000")
    far.proxy.noted(f"verdict 200 {SOURCE} {CALLER_NAME} {HERE}:{up.port}", "end done up 100000 down 100000")


@case
def to_a_service_of_another_node(room):
    """The same to a service, whose endpoint is the far workload."""
    up = room.upstream(echo)
    far = two_nodes(room, target=up.port)
    client = room.captured(80, SERVICE)
    says(client)
    both_end(client)
    room.proxy.noted(f"verdict 200 {SOURCE} - {SERVICE}:80", "end done up 5 down 5")
    far.proxy.noted(f"verdict 200 {SOURCE} {CALLER_NAME} {HERE}:{up.port}", "end done up 5 down 5")


@case
def denied_by_the_far_node(room):
    """A source whose identity the far policies refuse: 401 there, and its connection is closed without a byte; another one goes on."""
    far, up = two_nodes(room), room.upstream(echo)
    client = room.captured(up.port)
    says(client)
    closed(None, room.captured(up.port, source=OTHER_SOURCE))
    says(client)
    room.proxy.noted(f"verdict 200 {SOURCE} - {HERE}:{up.port}", f"verdict 502 {OTHER_SOURCE} - {HERE}:{up.port}")
    far.proxy.noted(f"verdict 200 {SOURCE} {CALLER_NAME} {HERE}:{up.port}", f"verdict 401 {OTHER_SOURCE} {OTHER_NAME} {HERE}:{up.port}")
    wanted("the reasons", far.proxy.reasons(), ["none_allows=1"])
    wanted("connections at the upstream", len(up.taken), 1)


@case
def revoked_by_the_far_node(room):
    """An update of the far control plane that refuses a source: its connection ends, and is denied when it comes again; the other source,
    which it lets in now, goes on."""
    far, up = two_nodes(room), room.upstream(echo)
    client = room.captured(up.port)
    says(client)
    far.update(far_mesh(OTHER))
    closed(None, client)
    until("an end at the upstream", lambda: up.one().ended)
    closed(None, room.captured(up.port))
    says(room.captured(up.port, source=OTHER_SOURCE))
    let_in = f"verdict 200 {SOURCE} {CALLER_NAME} {HERE}:{up.port}"
    refused = f"verdict 401 {SOURCE} {CALLER_NAME} {HERE}:{up.port}"
    far.proxy.noted(let_in, "end revoked up 5 down 5", refused, f"verdict 200 {OTHER_SOURCE} {OTHER_NAME} {HERE}:{up.port}")
    wanted("the reasons", far.proxy.reasons(), ["none_allows=1"])
    wanted("the near end", room.proxy.notes()[1], "end peer reset 8 up 5 down 5")


@case
def revoked_far_away_while_bytes_go(room):
    """The same amid bytes up: what came at the upstream is a front, and nothing comes behind the end; the other source's bytes go on."""
    far = two_nodes(room, CALLER, OTHER)
    up, echoes = room.upstream(sink), room.upstream(echo)
    other, client = room.captured(echoes.port, source=OTHER_SOURCE), room.captured(up.port)
    text = payload(100_000_000)
    threading.Thread(target=client.send, args=(text,), daemon=True).start()
    until("5 MB at the upstream", lambda: len(up.one().came) > 5_000_000)
    far.update(far_mesh(OTHER))
    until("an end at the upstream", lambda: up.one().ended)
    client.rest()
    came = len(up.one().came)
    wanted("a front", (text.startswith(bytes(up.one().came)), came < len(text)), (True, True))
    says(other, payload(100_000))
    wanted("bytes behind the end", len(up.one().came), came)


@case
def bulk_from_node_to_node(room):
    """20 MB each way over 8 captured connections at once: all bytes in order, both ways, and both ends."""
    far, up = two_nodes(room), room.upstream(echo)
    texts = [payload(20_000_000 // 8, bytes([at])) for at in range(8)]
    with ThreadPoolExecutor(8) as pool:
        back = [*pool.map(lambda text: room.captured(up.port).both(text), texts)]
    wanted("what came back", [it == text for it, text in zip(back, texts)], [True] * 8)
    digests = sorted(hashlib.sha256(text).hexdigest() for text in texts)
    wanted("at the upstream", sorted(hashlib.sha256(it.came).hexdigest() for it in up.taken), digests)
    for proxy in (room.proxy, far.proxy):
        until("all notes", lambda: len(proxy.notes()) == 16)
        wanted("the ends", sorted(proxy.notes())[:8], ["end done up 2500000 down 2500000"] * 8)


@case
def half_closes_from_node_to_node(room):
    """Each side ends first: what the other one sends then still goes, and its end."""
    def end_first(taken):
        taken.send(payload(300_000))
        taken.finish()
        sink(taken)

    def answer_late(taken):
        sink(taken)
        taken.send(payload(300_000))
        taken.finish()

    two_nodes(room)
    first, late = room.upstream(end_first), room.upstream(answer_late)
    client = room.captured(first.port)
    wanted("before its own end", (client.rest() == payload(300_000), client.ended), (True, "end"))
    client.send(payload(200_000))
    client.finish()
    until("the upstream's end", lambda: first.one().ended)
    wanted("at the upstream", (bytes(first.one().came) == payload(200_000), first.one().ended), (True, "end"))
    client = room.captured(late.port)
    wanted("behind its own end", (client.both(payload(200_000)) == payload(300_000), client.ended), (True, "end"))
    wanted("at the upstream", (bytes(late.one().came) == payload(200_000), late.one().ended), (True, "end"))


@case
def breaks_from_node_to_node(room):
    """An upstream that resets its connection ends the captured one, and a captured one that is reset ends its upstream; others of the link
    go on."""
    far = two_nodes(room)
    up, breaks = room.upstream(echo), room.upstream(lambda taken: (taken.take(), taken.reset()))
    stays, client = room.captured(up.port), room.captured(breaks.port)
    says(stays)
    client.send(b"x")
    closed(None, client)
    client = room.captured(up.port)
    says(client)
    client.reset()
    until("an end at the upstream", lambda: up.one(2).ended)
    says(stays)
    until("the far ends", lambda: len(ends_of(far.proxy)) == 2)
    wanted("the far ends", ends_of(far.proxy), ["end up fault up 1 down 0", "end peer reset 8 up 5 down 5"])
    wanted("the near ends", ends_of(room.proxy), ["end peer reset 10 up 1 down 0", "end peer gone up 5 down 5"])


@case
def nothing_listens_at_the_far_workload(room):
    """502 of the far node: the captured connection is closed without a byte, with 502 of its own."""
    far, port = two_nodes(room), free_port()
    closed(None, room.captured(port))
    far.proxy.noted(f"verdict 502 {SOURCE} {CALLER_NAME} {HERE}:{port}")
    room.proxy.noted(f"verdict 502 {SOURCE} - {HERE}:{port}")


def tried(room, port):
    """Whether a captured connection is echoed."""
    client = room.captured(port)
    client.send(b"hello")
    return client.gets(5) == b"hello"


@case
def a_far_node_that_restarts(room):
    """The far program ends and begins anew: its connections end, those meanwhile are closed, and those behind go on."""
    far, up = two_nodes(room), room.upstream(echo)
    client = room.captured(up.port)
    says(client)
    far.proxy.end()
    closed(None, client)
    closed(None, room.captured(up.port))
    far.serve(node="n2", inbound=far.proxy.doors["inbound"])
    until("it goes on", lambda: tried(room, up.port))
    wanted("the near notes", room.proxy.notes()[1:3], ["end peer gone up 5 down 5", f"verdict 502 {SOURCE} - {HERE}:{up.port}"])


@case
def a_near_node_that_ends(room):
    """SIGTERM for the near program: the far node ends its tunnels, and the upstreams see an end."""
    far, up = two_nodes(room), room.upstream(echo)
    says(room.captured(up.port))
    wanted("the status", room.proxy.end(), -15)
    until("an end at the upstream", lambda: up.one().ended)
    far.proxy.noted(f"verdict 200 {SOURCE} {CALLER_NAME} {HERE}:{up.port}", "end peer gone up 5 down 5")


@case
def who_reads_nothing_from_node_to_node(room):
    """A captured connection that reads nothing, and an upstream that reads nothing: what is on the way is bounded, memory stays, and
    others of the same link go on."""
    sent = []
    far, up = two_nodes(room), room.upstream(echo)
    much, dead = room.upstream(lambda taken: sent.append(pours(taken))), room.upstream(silent)
    other = room.captured(up.port)
    says(other, payload(100_000))
    before = [it.proxy.memory() for it in (room, far)]
    reads_nothing, goes_nowhere = room.captured(much.port), room.captured(dead.port)
    up_there = pours(goes_nowhere)
    until("nothing goes down", lambda: sent)
    wanted("what is on the way", (up_there < 20_000_000, sent[0] < 20_000_000), (True, True))
    says(other, payload(100_000))
    for it, memory in zip((room, far), before):
        no_more_memory(it.proxy, memory)
    wanted("all comes", len(reads_nothing.gets(sent[0])), sent[0])


@case
def many_from_node_to_node(room):
    """300 captured connections at once, by three links: each gets its own bytes back; nothing is left of them."""
    far, up = two_nodes(room), room.upstream(lambda taken: (echo(taken), taken.close()))
    before = [it.proxy.descriptors() for it in (room, far)]
    clients = [room.captured(up.port) for _ in range(300)]
    for client in clients:
        client.send(b"%d" % id(client))
    for client in clients:
        own = b"%d" % id(client)
        wanted("its own bytes", client.gets(len(own)), own)
    wanted("descriptors", [it.proxy.descriptors() for it in (room, far)], [before[0] + 303, before[1] + 303])
    for client in clients:
        both_end(client)
    until("all are closed", lambda: [it.proxy.descriptors() for it in (room, far)] == [before[0] + 3, before[1] + 3])


def by_far_node(room, door, hbone_port, in_front=None, **far):
    """A room beside this one with the far node, whose inbound door stands at a port; and the port of all gateways for this one."""
    resources = behind(in_front, [], **far)
    there = room.beside()
    there.start(node="n2", resources=resources, inbound=door)
    room.start("--hbone-port", str(hbone_port), resources=resources, outbound=free_port())
    return there


@case
def through_a_waypoint_of_another_node(room):
    """A workload behind a waypoint that is the far node's inbound door, by the workload's own address and the door's port: it lets the
    source's identity in, and bytes and ends go both ways. Behind an update that takes the waypoint away the tunnel goes on, and the next
    connection is dialled at the port of all gateways, where nobody listens."""
    door, up = free_port(), room.upstream(echo)
    far = by_far_node(room, door, free_port(), waypoint={**by_address(HERE), "hbone_mtls_port": door})
    client = room.captured(up.port)
    says(client, payload(100_000))
    room.update(behind(None, []))
    closed(None, room.captured(up.port))
    says(client)
    both_end(client)
    let_in = f"verdict 200 {SOURCE} - {HERE}:{up.port}"
    room.proxy.noted(let_in, let_in.replace("200", "502"), "end done up 100005 down 100005")
    far.proxy.noted(f"verdict 200 {SOURCE} {CALLER_NAME} {HERE}:{up.port}", "end done up 100005 down 100005")


@case
def a_node_that_is_no_waypoint(room):
    """A service behind a waypoint that is the far node's inbound door: asked for another address than its own it answers 400, and the
    connection is closed without a byte; one to the workload itself, which is behind none, goes through on the same link."""
    door, up = free_port(), room.upstream(echo)
    far = by_far_node(room, door, door, by_address(HERE))
    closed(None, room.captured(80, SERVICE))
    says(room.captured(up.port))
    room.proxy.noted(f"verdict 502 {SOURCE} - {SERVICE}:80", f"verdict 200 {SOURCE} - {HERE}:{up.port}")
    far.proxy.noted(f"verdict 400 {SOURCE} {CALLER_NAME} {SERVICE}:80", f"verdict 200 {SOURCE} {CALLER_NAME} {HERE}:{up.port}")
