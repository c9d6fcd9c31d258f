"""Connections out of the node, by gateways that a case plays."""

import hashlib
from concurrent.futures import ThreadPoolExecutor

import h2.settings
from hyperframe.frame import DataFrame, GoAwayFrame

from case import CANCEL, FRAME_SIZE_ERROR, calm, case, full_server, payload
from peers import ADDRESS, CALLER, HERE, OTHER, OTHER_SOURCE, SERVICE, SOURCE, Link
from peers import echo, far_mesh, free_port, header, resources_of, until, wanted, workload

REFUSED = f"verdict 502 {SOURCE} - {HERE}:80"
LET_IN = f"verdict 200 {SOURCE} - {HERE}:80"


def outbound(room, port, *words, resources=None):
    """The program with an outbound door alone, where gateways are at that port."""
    room.start("--hbone-port", str(port), *words, resources=far_mesh(CALLER) if resources is None else resources, outbound=free_port())


def let_in(room, gateway, source=SOURCE, **settings):
    """A captured connection, the link that is made for it, and its stream there, which the gateway answers by 200."""
    client = room.captured(80, source=source)
    link = gateway.link(**settings)
    stream = link.request()
    link.answer(stream)
    return client, link, stream


def one_more(room, link, source=SOURCE):
    """A captured connection more, which goes by the same link, and its stream there."""
    client = room.captured(80, source=source)
    stream = link.request(len(link.asked) + 1)
    link.answer(stream)
    return client, stream


def talks(client, link, stream, text=b"hello"):
    """Bytes to the gateway, and others back."""
    up, down, back = len(link.came[stream]), len(client.came), text[::-1]
    client.send(text)
    link.pump(lambda: len(link.came[stream]) >= up + len(text), f"{len(text)} bytes at the gateway")
    wanted("at the gateway", bytes(link.came[stream][up:]), text)
    link.send(stream, back)
    wanted("what came back", link.meanwhile(lambda: client.gets(down + len(back)))[down:], back)


def both_end(client, link, stream):
    """The captured side ends, then the gateway's."""
    client.finish()
    link.pump(lambda: stream in link.ended, "END_STREAM")
    link.send(stream, b"", end=True)
    link.meanwhile(client.rest)
    wanted("the end", client.ended, "end")


def closed(link, client, came=b""):
    """The captured connection is closed behind these bytes."""
    before = len(client.came)
    wanted("what came until the end", link.meanwhile(client.rest)[before:] if link else client.rest()[before:], came)


@case
def a_workload_by_its_gateway(room):
    """A workload that takes HBONE: the header has the source, the gateway and the source's identity, the request the address that was
    meant; bytes go both ways, and both ends."""
    gateway = room.gateway()
    outbound(room, gateway.port)
    client, link, stream = let_in(room, gateway)
    wanted("the header", link.front, header((SOURCE, 0), (HERE, gateway.port), CALLER))
    wanted("the request", link.asked[stream], [(":method", "CONNECT"), (":authority", f"{HERE}:80")])
    talks(client, link, stream)
    both_end(client, link, stream)
    room.proxy.noted(LET_IN, "end done up 5 down 5")


@case
def a_service_by_a_gateway(room):
    """A service whose endpoint takes HBONE: the request has the endpoint's address and its target port, the notes the service's."""
    gateway = room.gateway()
    outbound(room, gateway.port)
    client = room.captured(80, SERVICE)
    link = gateway.link()
    stream = link.request()
    wanted("the header", link.front, header((SOURCE, 0), (HERE, gateway.port), CALLER))
    wanted("the request", link.asked[stream], [(":method", "CONNECT"), (":authority", f"{HERE}:8080")])
    link.answer(stream)
    talks(client, link, stream)
    both_end(client, link, stream)
    room.proxy.noted(f"verdict 200 {SOURCE} - {SERVICE}:80", "end done up 5 down 5")


@case
def identities_before_a_link(room):
    """The identity of the header is in the trust domain of the source's record, in cluster.local where that has none, and there is none
    where the record lacks a part; a source of IPv6 has a header of TCP over IPv6."""
    sources = [
        (workload("127.0.0.31", "x", service_account="x", trust_domain="td.example"), "spiffe://td.example/ns/a/sa/x"),
        (workload("127.0.0.32", "y", service_account="y"), "spiffe://cluster.local/ns/a/sa/y"),
        (workload("127.0.0.33", "z"), None),
        (workload("fd00::7", "v", service_account="v"), "spiffe://cluster.local/ns/a/sa/v"),
    ]
    resources = far_mesh(CALLER)
    resources[ADDRESS].update(resources_of({"workloads": [it for it, _ in sources]})[ADDRESS])
    gateway = room.gateway()
    outbound(room, gateway.port, resources=resources)
    for it, identity in sources:
        source = it["addresses"][0]
        client, link, stream = let_in(room, gateway, source=source)
        wanted(f"the header of {source}", link.front, header((source, 0), (HERE, gateway.port), identity))
        talks(client, link, stream)


@case
def connections_share_a_link(room):
    """Connections of one workload to one gateway go by one link, stream by stream; another identity has a link of its own, be it of
    another source or, behind an update, of the same one."""
    gateway = room.gateway()
    outbound(room, gateway.port)
    client, link, stream = let_in(room, gateway)
    second, second_stream = one_more(room, link)
    other, other_link, other_stream = let_in(room, gateway, source=OTHER_SOURCE)
    wanted("the streams", (stream, second_stream, other_stream), (1, 3, 1))
    wanted("the other header", other_link.front, header((OTHER_SOURCE, 0), (HERE, gateway.port), OTHER))
    room.update(far_mesh(CALLER, sources=[("e", SOURCE), ("d", OTHER_SOURCE)]))
    third, third_link, third_stream = let_in(room, gateway)
    wanted("the third header", third_link.front, header((SOURCE, 0), (HERE, gateway.port), "spiffe://cluster.local/ns/a/sa/e"))
    for it in ((client, link, stream), (second, link, second_stream), (other, other_link, other_stream), (third, third_link, third_stream)):
        talks(*it)
    wanted("one more link", gateway.waits(), False)


@case
def a_link_without_streams(room):
    """A link on which no stream is left stays, and the next connection goes by it; its gateway's end is seen, and the one behind that has
    a link of its own."""
    gateway = room.gateway()
    outbound(room, gateway.port)
    client, link, stream = let_in(room, gateway)
    both_end(client, link, stream)
    link.rest(0.3)
    client, stream = one_more(room, link)
    talks(client, link, stream)
    both_end(client, link, stream)
    link.rest(0.1)
    before = room.proxy.descriptors()
    link.close()
    until("the link is closed", lambda: room.proxy.descriptors() == before - 1)
    talks(*let_in(room, gateway))


@case
def the_captured_side_ends_first(room):
    """Behind the captured side's end END_STREAM comes behind all bytes, and what the gateway sends then still comes."""
    gateway = room.gateway()
    outbound(room, gateway.port)
    client, link, stream = let_in(room, gateway)
    client.send(payload(100_000))
    client.finish()
    link.pump(lambda: stream in link.ended, "END_STREAM")
    wanted("at the gateway", bytes(link.came[stream]) == payload(100_000), True)
    link.send(stream, payload(300_000), end=True)
    wanted("at the captured side", (link.meanwhile(client.rest) == payload(300_000), client.ended), (True, "end"))
    room.proxy.noted(LET_IN, "end done up 100000 down 300000")


@case
def the_gateway_ends_first(room):
    """Behind END_STREAM of the gateway the captured side gets an end behind all bytes, and what it sends then still goes."""
    gateway = room.gateway()
    outbound(room, gateway.port)
    client, link, stream = let_in(room, gateway)
    link.send(stream, payload(300_000), end=True)
    wanted("at the captured side", (link.meanwhile(client.rest) == payload(300_000), client.ended), (True, "end"))
    client.send(payload(100_000))
    client.finish()
    link.pump(lambda: stream in link.ended, "END_STREAM")
    wanted("at the gateway", bytes(link.came[stream]) == payload(100_000), True)
    room.proxy.noted(LET_IN, "end done up 100000 down 300000")


@case
def bytes_before_a_gateway_answers(room):
    """What is sent before the gateway answers waits, an end with it, and comes behind the answer, also behind a status of 103."""
    gateway = room.gateway()
    outbound(room, gateway.port)
    client = room.captured(80)
    client.send(payload(200_000))
    client.finish()
    link = gateway.link()
    stream = link.request()
    link.answer(stream, 103)
    link.rest(0.3)
    wanted("before the answer", (len(link.came[stream]), stream in link.ended), (0, False))
    link.answer(stream)
    link.pump(lambda: stream in link.ended, "END_STREAM")
    wanted("at the gateway", bytes(link.came[stream]) == payload(200_000), True)
    link.send(stream, b"back", end=True)
    closed(link, client, b"back")


@case
def a_gateway_that_refuses(room):
    """A gateway that answers 503, with a body or without: the connection is closed without a byte; the link goes on."""
    gateway = room.gateway()
    outbound(room, gateway.port)
    client = room.captured(80)
    link = gateway.link()
    link.answer(link.request(), 503, end=True)
    closed(link, client)
    client = room.captured(80)
    stream = link.request(2)
    link.answer(stream, 503)
    link.send(stream, b"no upstream", end=True)
    closed(link, client)
    client, stream = one_more(room, link)
    talks(client, link, stream)
    room.proxy.noted(REFUSED, REFUSED, LET_IN)


@case
def a_gateway_that_resets(room):
    """RST_STREAM before the answer, and behind it amid bytes: that connection alone is closed, behind what came before."""
    gateway = room.gateway()
    outbound(room, gateway.port)
    stays, link, kept = let_in(room, gateway)
    client = room.captured(80)
    link.conn.reset_stream(link.request(2), CANCEL)
    closed(link, client)
    client, stream = one_more(room, link)
    talks(client, link, stream)
    link.send(stream, b"last")
    link.flush()
    link.conn.reset_stream(stream, CANCEL)
    link.flush()
    came = link.meanwhile(client.rest)
    wanted("a front came", b"ollehlast".startswith(came) and len(came) >= 5, True)
    talks(stays, link, kept)
    wanted("its notes", (room.proxy.notes()[:2], [it[:16] for it in room.proxy.notes()[2:]]), ([LET_IN, LET_IN], ["end peer reset 8"]))


@case
def a_goaway_of_the_gateway(room):
    """GOAWAY: the connection that it takes goes on to its ends, one that it leaves out is closed, and the next has a link of its own."""
    gateway = room.gateway()
    outbound(room, gateway.port)
    client, link, stream = let_in(room, gateway)
    late = room.captured(80)
    link.request(2)
    link.out += GoAwayFrame(0, last_stream_id=stream).serialize()
    closed(link, late)
    talks(client, link, stream, payload(100_000))
    talks(*let_in(room, gateway))
    talks(client, link, stream)
    both_end(client, link, stream)
    link.close()
    room.proxy.noted(LET_IN, LET_IN, "end done up 100005 down 100005")


@case
def a_gateway_that_leaves(room):
    """A gateway that closes or resets its connection: what is let in there, and what waits for an answer, is closed; the next connection
    has a link of its own."""
    gateway = room.gateway()
    outbound(room, gateway.port)
    for leave in (Link.close, Link.abort):
        client, link, stream = let_in(room, gateway)
        talks(client, link, stream)
        late = room.captured(80)
        link.request(2)
        leave(link)
        closed(None, client)
        closed(None, late)
    room.proxy.noted(*[LET_IN, "end peer gone up 5 down 5"] * 2)
    talks(*let_in(room, gateway))


@case
def a_gateway_that_is_not_there(room):
    """Where nothing listens at the gateway's address the connection is closed without a byte, with 502; once one is there it goes on."""
    port = free_port()
    outbound(room, port)
    for _ in range(3):
        closed(None, room.captured(80))
    room.proxy.noted(*[REFUSED] * 3)
    talks(*let_in(room, room.gateway(port=port)))


@case
def a_gateway_that_is_dialled(room):
    """While the dial of a gateway is neither taken nor refused a captured connection may leave, and others be carried elsewhere."""
    outbound(room, full_server(room))
    before = room.proxy.descriptors()
    client = room.captured(80)
    until("the dial", lambda: room.proxy.descriptors() == before + 2)
    client.reset()
    until("it is closed", lambda: room.proxy.descriptors() == before + 1)
    elsewhere = room.upstream(echo, host="127.0.0.51")
    straight = room.captured(elsewhere.port, "127.0.0.51")
    straight.send(b"hello")
    wanted("straight", straight.gets(5), b"hello")


@case
def a_gateway_that_breaks_rules(room):
    """DATA in front of a status closes that connection alone, and its stream by CANCEL; what isn't HTTP/2 closes the link, behind a GOAWAY,
    and the next connection has a link of its own."""
    gateway = room.gateway()
    outbound(room, gateway.port)
    stays, link, kept = let_in(room, gateway)
    client = room.captured(80)
    stream = link.request(2)
    link.out += DataFrame(stream, b"early").serialize()
    closed(link, client)
    link.pump(lambda: link.closed(stream), "a reset")
    wanted("the stream", link.reset.get(stream), CANCEL)
    talks(stays, link, kept)
    link.out += b"HTTP/1.1 400 Bad Request\r\n\r\n"
    closed(link, stays)
    link.pump(lambda: link.over, "the link's end")
    wanted("the code of its GOAWAY", link.gone, FRAME_SIZE_ERROR)
    talks(*let_in(room, gateway))
    room.proxy.noted(LET_IN, "end conn fault 6 up 5 down 5", LET_IN)


@case
def a_gateway_of_http_1(room):
    """A gateway that answers HTTP/1 at once: the connection is closed without a byte."""
    def answer(taken):
        taken.take()
        taken.send(b"HTTP/1.1 400 Bad Request\r\n\r\n")

    outbound(room, room.upstream(answer).port)
    for _ in range(3):
        closed(None, room.captured(80))


@case
def a_captured_connection_that_leaves(room):
    """A captured connection that is reset, before the gateway's answer and behind it: RST_STREAM with CANCEL; the link goes on."""
    gateway = room.gateway()
    outbound(room, gateway.port)
    stays, link, kept = let_in(room, gateway)
    client = room.captured(80)
    stream = link.request(2)
    client.reset()
    link.pump(lambda: link.closed(stream), "a reset")
    wanted("the stream", link.reset.get(stream), CANCEL)
    client, stream = one_more(room, link)
    talks(client, link, stream)
    link.send(stream, payload(1_000_000))
    link.rest(0.2)
    client.reset()
    link.pump(lambda: link.closed(stream), "a reset")
    wanted("the stream", link.reset.get(stream), CANCEL)
    talks(stays, link, kept)


@case
def bulk_by_a_gateway(room):
    """20 MB each way over 8 captured connections at once, by one link: all bytes in order, both ways, and both ends."""
    gateway = room.gateway()
    outbound(room, gateway.port)
    texts = [payload(20_000_000 // 8, bytes([at])) for at in range(8)]
    with ThreadPoolExecutor(8) as pool:
        back = [pool.submit(room.captured(80).both, text) for text in texts]
        link = gateway.link(echoes=True)
        link.pump(lambda: all(it.done() for it in back), "all came back", 120)
    wanted("streams of one link", (len(link.asked), gateway.waits(0)), (8, False))
    digests = sorted(hashlib.sha256(text).hexdigest() for text in texts)
    wanted("at the gateway", sorted(hashlib.sha256(it).hexdigest() for it in link.came.values()), digests)
    wanted("what came back", [it.result() == text for it, text in zip(back, texts)], [True] * 8)
    until("all notes", lambda: len(room.proxy.notes()) == 16)
    wanted("the notes", sorted(room.proxy.notes()), ["end done up 2500000 down 2500000"] * 8 + [LET_IN] * 8)


@case
def one_octet_of_a_gateway_at_a_time(room):
    """A gateway that sends an octet a packet and reads one a call: the same bytes."""
    gateway = room.gateway()
    outbound(room, gateway.port)
    client, link, stream = let_in(room, gateway, piece=1)
    talks(client, link, stream, payload(2000))
    both_end(client, link, stream)


def pours(client):
    """How many bytes it takes until nothing went for a second."""
    client.socket.settimeout(1)
    sent = 0
    try:
        while sent < 50_000_000:
            sent += client.socket.send(payload(1 << 16))
    except TimeoutError:
        pass
    return sent


def no_more_memory(proxy, before):
    wanted(f"memory of {before:.1f} MB rose by 2", proxy.memory() > before + 2, False)


@case
def a_gateway_that_grants_nothing(room):
    """A gateway that grants no DATA beyond the first 65,535 bytes: no more comes, the rest waits where it comes from, and goes on once it
    does."""
    gateway = room.gateway()
    outbound(room, gateway.port)
    client, link, stream = let_in(room, gateway, grants=False)
    talks(client, link, stream)
    before = room.proxy.memory()
    sent = link.meanwhile(lambda: pours(client)) + 5
    wanted("what came", (len(link.came[stream]), sent < 20_000_000), (65_535, True))
    no_more_memory(room.proxy, before)
    link.grants = True
    link.conn.acknowledge_received_data(65_535, stream)
    link.pump(lambda: len(link.came[stream]) >= sent, "all bytes", 30)
    wanted("bytes at the gateway", len(link.came[stream]), sent)


@case
def windows_of_a_gateway_that_change(room):
    """A gateway that sets its streams' windows to 0 amid bytes, to 10 and to 1,000,000: no byte is lost, none comes beyond the windows."""
    gateway = room.gateway()
    outbound(room, gateway.port)
    client, link, stream = let_in(room, gateway)
    text = payload(3_000_000)

    def change():
        for window in (0, 10, 1_000_000, 100, 500_000):
            link.pump(lambda: not link.settings_out, "an acknowledgement")
            link.set(h2.settings.SettingCodes.INITIAL_WINDOW_SIZE, window)
            link.rest(0.1)
        link.conn.increment_flow_control_window(1_000_000, stream)
        link.pump(lambda: stream in link.ended, "END_STREAM")
        link.send(stream, b"", end=True)
        link.flush()

    with ThreadPoolExecutor(1) as pool:
        back = pool.submit(client.both, text)
        change()
        wanted("what came", (link.came[stream] == text, back.result()), (True, b""))


@case
def a_captured_connection_that_reads_nothing(room):
    """A captured connection that reads nothing: its gateway is granted no more than what fits on the way; others of the link go on."""
    gateway = room.gateway()
    outbound(room, gateway.port)
    client, link, stream = let_in(room, gateway)
    other, other_stream = one_more(room, link)
    talks(other, link, other_stream)
    before = room.proxy.memory()
    text = payload(30_000_000)
    link.send(stream, text)
    link.rest(2)
    wanted("some of it waits", len(link.todo[stream]) > 15_000_000, True)
    no_more_memory(room.proxy, before)
    talks(other, link, other_stream)
    wanted("all came", link.meanwhile(lambda: client.gets(len(text))) == text, True)


@case
def the_101st_captured_connection(room):
    """100 connections go by one link, and the 101st and the next one by a second link."""
    gateway = room.gateway()
    outbound(room, gateway.port)
    clients = [room.captured(80) for _ in range(101)]
    first, second = gateway.link(echoes=True), gateway.link(echoes=True)
    first.request(100)
    second.request()
    for client in clients:
        client.send(b"%d" % id(client))
    own = [b"%d" % id(client) for client in clients]
    came = first.meanwhile(lambda: second.meanwhile(lambda: [it.gets(len(text)) for it, text in zip(clients, own)]))
    wanted("their own bytes", came == own, True)
    room.captured(80)
    second.request(2)
    wanted("streams", (len(first.asked), len(second.asked)), (100, 2))


@case
def a_gateway_that_takes_two_streams(room):
    """A gateway whose SETTINGS allow two streams: the third connection goes by another link."""
    gateway = room.gateway()
    outbound(room, gateway.port)
    client, link, stream = let_in(room, gateway)
    link.set(h2.settings.SettingCodes.MAX_CONCURRENT_STREAMS, 2)
    talks(client, link, stream)
    second, second_stream = one_more(room, link)
    third, third_link, third_stream = let_in(room, gateway)
    for it in ((client, link, stream), (second, link, second_stream), (third, third_link, third_stream)):
        talks(*it)


@case
def captured_connections_that_come_and_go(room):
    """1,000 connections one behind the other by one link: nothing is left of them, and memory doesn't rise."""
    gateway = room.gateway()
    outbound(room, gateway.port)
    client, link, stream = let_in(room, gateway)
    both_end(client, link, stream)
    link.rest(0.1)
    before, memory = room.proxy.descriptors(), None
    for at in range(1000):
        client, stream = one_more(room, link)
        talks(client, link, stream)
        both_end(client, link, stream)
        client.close()
        if at == 200:
            memory = room.proxy.memory()
    until("all are closed", lambda: room.proxy.descriptors() == before)
    no_more_memory(room.proxy, memory)


@case
def updates_that_leave_captured_connections(room):
    """An update of the policies, and one that takes HBONE from the workload: what is open goes on; the next goes straight then."""
    gateway = room.gateway()
    outbound(room, gateway.port)
    client, link, stream = let_in(room, gateway)
    room.update(far_mesh(OTHER))
    talks(client, link, stream)
    room.update(far_mesh(CALLER, tunnel_protocol="NONE"))
    talks(client, link, stream)
    up = room.upstream(echo)
    straight = room.captured(up.port)
    straight.send(b"hello")
    wanted("straight", straight.gets(5), b"hello")
    both_end(client, link, stream)


@case
def captured_connections_without_a_way(room):
    """503 and a close without a byte: before workloads and policies were told, for a source that is no workload, and for a port that the
    service doesn't have."""
    gateway = room.gateway()
    room.serve("--hbone-port", str(gateway.port), outbound=free_port())
    closed(None, room.captured(80))
    room.control(far_mesh(CALLER))
    room.settle()
    closed(None, room.captured(80, source="127.0.0.99"))
    closed(None, room.captured(81, SERVICE))
    room.proxy.noted(f"verdict 503 {SOURCE} - {HERE}:80", f"verdict 503 127.0.0.99 - {HERE}:80", f"verdict 503 {SOURCE} - {SERVICE}:81")
    wanted("a connection at the gateway", gateway.waits(0), False)


@case
def the_captured_connections_that_may_be(room):
    """`--tunnels 2`: the third connection is reset as it comes; one more goes once one is over."""
    gateway = room.gateway()
    outbound(room, gateway.port, "--tunnels", "2")
    client, link, stream = let_in(room, gateway)
    second, second_stream = one_more(room, link)
    try:
        closed(link, room.captured(80))
    except ConnectionResetError:
        pass  # (it was reset while it connected)
    both_end(second, link, second_stream)
    third, third_stream = one_more(room, link)
    talks(third, link, third_stream)
    talks(client, link, stream)


@case
def the_1025th_link_to_a_gateway(room):
    """1,024 sources have a link each, and the next source none: its connection is closed without a byte, with 503; it goes on once one of
    the links is over."""
    gateway = room.gateway()
    sources = [f"127.1.{at >> 8}.{at & 255}" for at in range(1025)]
    outbound(room, gateway.port, resources=far_mesh(CALLER, sources=[(f"s{at}", source) for at, source in enumerate(sources)]))
    links = []
    for source in sources[:-1]:
        room.captured(80, source=source)
        links.append(gateway.link())
    memory = room.proxy.memory()
    closed(None, room.captured(80, source=sources[-1]))
    room.proxy.noted(f"verdict 503 {sources[-1]} - {HERE}:80")
    links[500].close()
    links[501].request()
    until("the link is closed", lambda: room.proxy.descriptors() < 2 * 1024 + 5)
    talks(*let_in(room, gateway, source=sources[-1]))
    return f"memory of all {memory:.0f} MB"


@case
def few_descriptors_at_the_outbound_door(room):
    """`ulimit -n 40`: captured connections beyond wait at the door, nothing ends or spins, and the door goes on once some are over."""
    gateway = room.gateway()
    room.start("--hbone-port", str(gateway.port), resources=far_mesh(CALLER), outbound=free_port(), descriptors=40)
    client, link, stream = let_in(room, gateway)
    others = [room.captured(80) for _ in range(60)]
    link.rest(1)
    wanted("some are there", 20 <= len(link.asked) <= 35, True)
    calm(room.proxy)
    talks(client, link, stream)
    for it in others:
        it.reset()
    link.rest(2)
    wanted("streams that are over", len(link.reset) >= 20, True)
    client, stream = one_more(room, link)
    talks(client, link, stream)


@case
def a_captured_connection_that_ends_and_then_breaks(room):
    """A captured connection that ends its side and is reset then: its stream is reset with CANCEL, at the latest once more comes for it."""
    gateway = room.gateway()
    outbound(room, gateway.port)
    client, link, stream = let_in(room, gateway)
    client.finish()
    link.pump(lambda: stream in link.ended, "END_STREAM")
    client.reset()
    link.rest(0.5)
    early = stream in link.reset
    for _ in range(20):
        if stream not in link.reset:
            link.send(stream, b"more")
            link.rest(0.05)
    wanted("the stream", link.reset.get(stream), CANCEL)
    return "reset at once" if early else "reset behind more"
