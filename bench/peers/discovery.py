"""What the control plane does to tunnels."""

import threading
import time

from case import CANCEL, NO_ERROR, answer_of, case, full_server, payload, says
from peers import AUTHORIZATION, CALLER, HERE, OTHER, Fault, echo, mesh, policy, resources_of, silent, sink, until, wanted, workload


@case
def revoked_while_bytes_go(room):
    """An update that refuses a peer amid 100 MB up: RST_STREAM with CANCEL, no byte behind it; other peers' tunnels go on."""
    room.start(resources=mesh(CALLER, OTHER))
    up, peer, other = room.upstream(sink), room.peer(), room.peer(identity=OTHER)
    echoes = room.upstream(echo)
    stays, stream = other.tunnel(echoes.port), peer.tunnel(up.port)
    text = payload(100_000_000)
    peer.send(stream, text)
    peer.pump(lambda: len(up.one().came) > 5_000_000, "5 MB at the upstream")
    threading.Thread(target=room.update, args=(mesh(OTHER),), daemon=True).start()
    peer.pump(lambda: peer.closed(stream), "a reset", 30)
    wanted("the stream", (peer.reset.get(stream), stream in peer.ended), (CANCEL, False))
    until("an end at the upstream", lambda: up.one().ended)
    came = len(up.one().came)
    wanted("a front", (text.startswith(bytes(up.one().came)), came < len(text)), (True, True))
    peer.rest(0.5)
    wanted("bytes behind the end", len(up.one().came), came)
    wanted("asked again", answer_of(peer, peer.connect(f"{HERE}:{up.port}")), (401, NO_ERROR))
    says(other, stays, b"hello")


@case
def revoked_while_bytes_come(room):
    """An update that refuses a peer amid bytes down: RST_STREAM with CANCEL, what came is a front, and the upstream gets an end."""
    room.start()
    text = payload(50_000_000)

    def pour(taken):
        taken.send(text)
        taken.take()

    up, peer = room.upstream(pour), room.peer()
    stream = peer.tunnel(up.port)
    peer.pump(lambda: len(peer.came[stream]) > 2_000_000, "2 MB")
    threading.Thread(target=room.update, args=(mesh(OTHER),), daemon=True).start()
    peer.pump(lambda: peer.closed(stream), "a reset", 30)
    wanted("the stream", (peer.reset.get(stream), text.startswith(bytes(peer.came[stream]))), (CANCEL, True))
    until("an end at the upstream", lambda: up.one().ended)


@case
def revoked_while_it_is_dialled(room):
    """An update that refuses a peer whose upstream isn't open yet: 401, and the dial is given up."""
    room.start()
    full, peer = full_server(room), room.peer().join()
    before = room.proxy.descriptors()
    stream = peer.connect(f"{HERE}:{full}")
    peer.flush()
    until("the dial", lambda: room.proxy.descriptors() == before + 1)
    room.update(mesh(OTHER))
    wanted("the answer", answer_of(peer, stream), (401, NO_ERROR))
    until("the dial is given up", lambda: room.proxy.descriptors() == before)


@case
def a_workload_that_goes(room):
    """A workload that is removed: its tunnels are reset with CANCEL, and the next request gets 404."""
    room.start()
    up, peer = room.upstream(echo), room.peer()
    stream = peer.tunnel(up.port)
    says(peer, stream, b"hello")
    room.update(resources_of({"policies": [policy(CALLER)]}))
    peer.pump(lambda: peer.closed(stream), "a reset")
    wanted("the stream", peer.reset.get(stream), CANCEL)
    wanted("asked again", answer_of(peer, peer.connect(f"{HERE}:{up.port}")), (404, NO_ERROR))


@case
def a_control_plane_that_restarts(room):
    """The control plane ends and begins anew: tunnels and resources stay meanwhile, it is dialled again, and told what is held."""
    room.start()
    up, peer = room.upstream(echo), room.peer()
    stream = peer.tunnel(up.port)
    room.plane.stop()
    time.sleep(1.5)
    says(peer, stream, b"still here")
    says(peer, peer.tunnel(up.port), b"and a new one")
    room.lines.clear()
    room.control()
    room.settle()
    wanted("what is sent again", sorted(line.partition(": ")[2] for line in room.lines), [
        "address: response 1: 0 changed, 0 removed",
        "authorization: response 2: 0 changed, 0 removed",
    ])
    says(peer, stream, b"still here")
    room.update(mesh(OTHER))
    peer.pump(lambda: peer.closed(stream), "a reset")
    wanted("the stream", peer.reset.get(stream), CANCEL)


@case
def a_control_plane_that_sends_one_away(room):
    """A control plane that ends each connection by GOAWAY after a second: it is dialled again, and updates still come; tunnels stay."""
    room.control(options=[("grpc.max_connection_age_ms", 1000), ("grpc.max_connection_age_grace_ms", 500)])
    room.serve()
    room.settle()
    up, peer = room.upstream(echo), room.peer()
    stream = peer.tunnel(up.port)
    end = time.monotonic() + 6
    while time.monotonic() < end:
        says(peer, stream, b"still here")
        time.sleep(0.1)
    if len(room.lines) < 6:
        raise Fault(f"it was dialled seldom: {room.lines}")
    room.plane.set(mesh(OTHER))
    peer.pump(lambda: peer.closed(stream), "a reset")
    wanted("the stream", peer.reset.get(stream), CANCEL)


@case
def a_control_plane_that_is_silent(room):
    """A control plane that takes connections and says nothing, or speaks HTTP/1: 503, and the proxy goes on."""
    def answer(taken):
        taken.take()
        taken.send(b"HTTP/1.1 400 Bad Request\r\n\r\n")
        taken.close()

    for act in (silent, answer):
        plane = room.upstream(act)
        room.discovery = plane.port
        room.serve()
        plane.one()
        peer = room.peer()
        wanted("the answer", answer_of(peer, peer.connect(f"{HERE}:80")), (503, NO_ERROR))
        time.sleep(1.2)
        wanted("dials within a second or so", len(plane.taken) <= 3, True)
        room.proxy.end()


@case
def a_bad_resource(room):
    """A policy that can't be read is refused by its name, what was held under it stays, and the others of its response are applied."""
    room.start(resources=mesh(CALLER))
    bad = mesh(OTHER)
    bad[AUTHORIZATION]["a/callers"] = b"\x18\x07"
    bad[AUTHORIZATION].update(resources_of({"policies": [policy(OTHER, name="more", action="DENY")]})[AUTHORIZATION])
    room.update(bad)
    wanted("what is refused", room.plane.refusals, ["a/callers"])
    up, peer = room.upstream(echo), room.peer()
    says(peer, peer.tunnel(up.port), b"hello")
    room.update(mesh(OTHER))
    wanted("mended", answer_of(peer, peer.connect(f"{HERE}:{up.port}")), (401, NO_ERROR))


@case
def updates_that_leave_a_tunnel(room):
    """200 updates that change other workloads and policies, amid bytes: no tunnel that stays admitted is touched."""
    room.start()
    up, peer = room.upstream(echo), room.peer()
    stream = peer.tunnel(up.port)
    for at in range(200):
        room.plane.set(mesh(CALLER, f"{OTHER}{at}", workloads=[workload(f"10.0.0.{at}", f"w{at}")]))
        says(peer, stream, payload(1000))
    room.settle()
    says(peer, stream, payload(1000))


@case
def a_response_that_is_cut(room):
    """A control plane that ends amid a response of 5,000 workloads: nothing of it counts, and all of it once it comes whole."""
    room.start()
    up, peer = room.upstream(echo), room.peer()
    stream = peer.tunnel(up.port)
    more = [workload(f"10.1.{at >> 8}.{at & 255}", f"w{at}", policies=[]) for at in range(5000)]
    resources = mesh(CALLER, workloads=[*more, workload("127.0.0.77", "last", policies=[])])
    room.plane.set(resources)
    until("the response", lambda: len(room.lines) == 3)
    room.plane.stop()
    says(peer, stream, b"hello")
    room.control(resources)
    room.settle()
    says(peer, stream, b"hello")
    far = room.peer(destination="127.0.0.77")
    wanted("the answer of the last", answer_of(far, far.connect("127.0.0.77:1")), (502, NO_ERROR))


def beside_a_response(room, count):
    """What a response of so many workloads costs while bytes go both ways; no byte is lost, and the last workload is known."""
    room.start()
    up, peer = room.upstream(echo), room.peer()
    stream = peer.tunnel(up.port)
    more = [workload(f"10.{at >> 16}.{at >> 8 & 255}.{at & 255}", f"w{at}", policies=[]) for at in range(1, count)]
    more.append(workload("127.0.0.77", "last", policies=[]))
    before = room.proxy.cpu()
    sender = threading.Thread(target=room.update, args=(mesh(CALLER, workloads=more),), daemon=True)
    sender.start()
    longest = 0
    while sender.is_alive():
        begun = time.monotonic()
        says(peer, stream, payload(100_000))
        longest = max(longest, time.monotonic() - begun)
    took = room.proxy.cpu() - before
    far = room.peer(destination="127.0.0.77")
    wanted("the answer of the last", answer_of(far, far.connect("127.0.0.77:1")), (502, NO_ERROR))
    return f"longest round of 100,000 bytes {longest:.2f} s, processor time of all {took:.2f} s, memory {room.proxy.memory():.0f} MB"


@case
def twenty_thousand_workloads(room):
    """A response of 20,000 workloads while bytes go both ways: no byte is lost, and the last of them is known."""
    return beside_a_response(room, 20_000)


@case
def sixty_five_thousand_workloads(room):
    """The same of 65,000."""
    return beside_a_response(room, 65_000)
