"""What `--status` tells of a run."""

import contextlib
import http.client
import json
import socket
import time

from case import answer_of, case, says
from peers import AUTHORIZATION, CALLER, HERE, OTHER, Fault, Proxy, echo, free_port, mesh, until, wanted, workload

# A connection to it lasts this long at most, in seconds, and so many are served at a time
LONGEST, MOST = 5, 16


def asked(port, path="/ready", method="GET", seconds=10):
    """The status, the content type and the body of an answer, behind which the connection is closed."""
    link = http.client.HTTPConnection(HERE, port, timeout=seconds)
    try:
        link.request(method, path)
        answer = link.getresponse()
        wanted("the connection", answer.getheader("connection"), "close")
        return answer.status, answer.getheader("content-type"), answer.read().decode()
    finally:
        link.close()


def metrics(port):
    """The samples by their names with labels."""
    status, kind, text = asked(port, "/metrics")
    wanted("the answer", (status, kind), (200, "text/plain; version=0.0.4; charset=utf-8"))
    rows = [line.rpartition(" ") for line in text.splitlines() if not line.startswith("#")]
    return {name: int(value) for name, _, value in rows}


def counted(port):
    """What isn't 0, but for the loop's own numbers, links, and what is held."""
    apart = ("hbone_looks", "hbone_quiet", "hbone_synced", "hbone_links", "hbone_held", "hbone_updates", "hbone_refused")
    return {name: value for name, value in metrics(port).items() if value and not name.startswith(apart)}


def kinds(port, name):
    """The samples of a metric that aren't 0, by kind."""
    head = f'hbone_{name}{{kind="'
    return {it.removeprefix(head).removesuffix('"}'): value for it, value in metrics(port).items() if it.startswith(head) and value}


def state(port, **wants):
    """The state, once these of its members are so; each line of it is one of its links, but for the first and the last."""

    def told():
        code, kind, text = asked(port, "/state")
        if code == 503:
            wanted("what lacks", (kind, text), ("text/plain", "the state is there at the next tick\n"))
            return None
        wanted("the answer", (code, kind), (200, "application/json"))
        it = json.loads(text)
        wanted("its lines", [json.loads(line.removesuffix(",")) for line in text.splitlines()[1:-1] if line], it["links"])
        return it if all(it[name] == value for name, value in wants.items()) else None

    until(f"the state has {wants}", lambda: told(), 12)
    return told()


def links(port, *wants):
    """The links of the state, without numbers of links and octets that aren't a tunnel's, once they are these."""

    def bare(it):
        out = {name: value for name, value in it.items() if name not in ("link", "read", "wrote")}
        if "tunnels" in out:
            out["tunnels"] = [{name: value for name, value in tunnel.items() if name != "link"} for tunnel in out["tunnels"]]
        return out

    def told():
        it = state(port)
        return [bare(link) for link in it["links"]] if it else []

    until(f"the links are {wants}", lambda: told() == list(wants), 12)


def raw(room, port, data=b""):
    it = room.add(socket.create_connection((HERE, port), 10))
    it.sendall(data)
    return it


def rest(it):
    """All that comes until it is closed or reset, and after how many seconds that was."""
    begun, came = time.monotonic(), b""
    it.settimeout(LONGEST + 5)
    with contextlib.suppress(ConnectionResetError):
        while part := it.recv(65536):
            came += part
    return came, time.monotonic() - begun


def told(room, **settings):
    """The port at which a program that was started, and was told workloads and policies, tells its state."""
    port = free_port()
    room.start("--status", f"{HERE}:{port}", **settings)
    until("it is ready", lambda: asked(port)[0] == 200)
    return port


@case
def the_state_of_a_run(room):
    """`/live` and `/ready` are 200; `/metrics` counts an answer of each status, a tunnel that is open, its end by its cause and its bytes both ways."""
    port = told(room)
    wanted("live", asked(port, "/live"), (200, "text/plain", "live\n"))
    wanted("ready", asked(port), (200, "text/plain", "ready\n"))
    wanted("at first", counted(port), {})
    peer, other, up = room.peer(), room.peer(identity=OTHER), room.upstream(echo)
    stream, second = peer.tunnel(up.port), peer.tunnel(up.port)
    says(peer, stream, b"hello")
    wanted("the answer to another", answer_of(other, other.connect(f"{HERE}:{up.port}"))[0], 401)
    open_two = {"hbone_tunnels_open": 2, 'hbone_answers_total{status="200"}': 2, 'hbone_answers_total{status="401"}': 1}
    wanted("two tunnels", counted(port), open_two)
    peer.send(stream, b"", end=True)
    peer.pump(lambda: stream in peer.ended, "END_STREAM")
    bytes_of = {'hbone_bytes_total{direction="up"}': 5, 'hbone_bytes_total{direction="down"}': 5}
    one = {**open_two, "hbone_tunnels_open": 1, 'hbone_ends_total{cause="done"}': 1, **bytes_of}
    wanted("one tunnel", counted(port), one)
    room.update(mesh(OTHER))
    peer.pump(lambda: peer.closed(second), "a reset")
    none = {name: value for name, value in one.items() if name != "hbone_tunnels_open"}
    wanted("no tunnel", counted(port), {**none, 'hbone_ends_total{cause="revoked"}': 1})


@case
def the_links_of_a_run(room):
    """`/state` has a line for each link, with its peer and its tunnels, their targets and their bytes both ways, as of the last seconds;
    and `/metrics` the links by kind."""
    port = told(room)
    plane = {"kind": "control", "to": f"{HERE}:{room.discovery}"}
    links(port, plane)
    wanted("links at first", kinds(port, "links"), {"control": 1})
    peer, up = room.peer(), room.upstream(echo)
    unknown = {"kind": "inbound", "peer": None, "identity": None, "tunnels": []}
    links(port, plane, unknown)
    stream, second = peer.tunnel(up.port), peer.tunnel(up.port)
    says(peer, stream, b"hello")
    tunnel = {"target": f"{HERE}:{up.port}", "open": True}
    tunnels = [{"stream": stream, **tunnel, "up": 5, "down": 5}, {"stream": second, **tunnel, "up": 0, "down": 0}]
    known = {"kind": "inbound", "peer": HERE, "identity": CALLER, "tunnels": tunnels}
    own = {"kind": "upstream", "to": f"{HERE}:{up.port}"}
    links(port, plane, known, own, own)
    wanted("links", kinds(port, "links"), {"control": 1, "inbound": 1, "upstream": 2})
    peer.send(stream, b"", end=True)
    peer.pump(lambda: stream in peer.ended, "END_STREAM")
    links(port, plane, {**known, "tunnels": tunnels[1:]}, own)
    peer.close()
    links(port, plane)


@case
def what_is_held_is_told(room):
    """`/state` and `/metrics` have how many workloads, services and policies are held, how many responses were applied, and how many of
    their resources refused, each of which has its line in the log."""
    port = told(room)
    held = {"workloads": 1, "services": 0, "policies": 1}
    state(port, synced=True, held=held, refused={"address": 0, "authorization": 0})
    updates = kinds(port, "updates_total")
    bad = mesh(OTHER, workloads=[workload("10.0.0.44", "more", policies=[])])
    bad[AUTHORIZATION]["a/callers"] = b"\x18\x07"
    room.update(bad)
    state(port, held={**held, "workloads": 2}, refused={"address": 0, "authorization": 1})
    wanted("held", kinds(port, "held"), {"workloads": 2, "policies": 1})
    wanted("refused", kinds(port, "refused_total"), {"authorization": 1})
    more = {kind: value - updates[kind] for kind, value in kinds(port, "updates_total").items()}
    wanted("updates", more, {"address": 1, "authorization": 1})
    lines = [line for line in room.proxy.told() if line.startswith("refused ")]
    wanted("the log", lines, ['refused kind=authorization name=a/callers why="bad enum 7 in field 3"'])
    wanted("/state answers a GET alone", asked(port, "/state", method="POST")[0], 405)


@case
def lines_that_are_left_out(room):
    """`--quiet` leaves out the lines of answers, of their reasons and of ends, and `--notes-only` all others; both are counted on."""
    room.control()
    for word, heads in (("--quiet", {"listens", "control", "closed"}), ("--notes-only", {"verdict", "why", "end"})):
        port = free_port()
        room.serve("--status", f"{HERE}:{port}", word)
        until("it is ready", lambda: asked(port)[0] == 200)
        peer, other, up = room.peer(), room.peer(identity=OTHER), room.upstream(echo)
        says(peer, peer.tunnel(up.port), b"hello")
        wanted("the answer to another", answer_of(other, other.connect(f"{HERE}:{up.port}"))[0], 401)
        peer.close()
        until("an end", lambda: sum(value for name, value in metrics(port).items() if name.startswith("hbone_ends_total")) == 1)
        wanted(f"lines of {word}", {line.split(" ")[0] for line in room.proxy.told()}, heads)
        room.proxy.end()


@case
def whose_tunnel_it_was(room):
    """Behind the end of a tunnel since whose verdict more than 256 notes came stands a line with its peer, its identity and its target; behind
    an end that is nearer none does."""
    room.start()
    peer, up = room.peer(), room.upstream(echo)
    first = peer.tunnel(up.port)
    for _ in range(128):
        stream = peer.tunnel(up.port)
        peer.send(stream, b"", end=True)
        peer.pump(lambda: stream in peer.ended, "END_STREAM")
    second = peer.tunnel(up.port)
    for stream in (first, second):
        peer.send(stream, b"", end=True)
        peer.pump(lambda: stream in peer.ended, "END_STREAM")
    until("both ends", lambda: len([line for line in room.proxy.told() if line.startswith("end ")]) == 130)
    lines = [line for line in room.proxy.told() if line.startswith(("end ", "was "))]
    at = f"2/{first}"
    whose = f"was {at} peer={HERE} identity={CALLER.removeprefix('spiffe://')} target={HERE}:{up.port}"
    wanted("the last lines", lines[-3:], [f"end {at} done up 0 down 0", whose, f"end 2/{second} done up 0 down 0"])
    wanted("lines of whose it was", len([line for line in lines if line.startswith("was ")]), 1)


@case
def other_questions(room):
    """404 for another path, 405 for another method, 400 for what is no request, 431 and 413 beyond 4,096 bytes of a head or a body."""
    port = told(room)
    for path in ("/", "/states", "/ready/", "//ready", "/metrics2"):
        wanted(f"the answer to {path}", asked(port, path)[0], 404)
    for method in ("POST", "HEAD", "PUT", "DELETE", "OPTIONS"):
        wanted(f"the answer to {method}", asked(port, method=method)[0], 405)
    wanted("a query", asked(port, "/ready?x=1")[0], 200)
    head = b"GET /ready HTTP/1.1\r\nhost: x\r\n"
    for data, want in [
        (b"x\r\n\r\n", b"400"),
        (b"PRI * HTTP/2.0\r\n\r\nSM\r\n\r\n", b"400"),
        (head + b"y: " + b"z" * 5000 + b"\r\n\r\n", b"431"),
        (head.replace(b"GET", b"POST") + b"content-length: 5000\r\n\r\n", b"413"),
        (head + b"\r\n" + head + b"\r\n", b"200"),
        (head.replace(b"1.1", b"1.0") + b"\r\n", b"200"),
    ]:
        came, _ = rest(raw(room, port, data))
        wanted(f"the answer to {data[:20]}", (came[9:12], came.count(b"HTTP/1.")), (want, 1))


@case
def slow_questions(room):
    """Connections to it that send nothing, half a request, or a byte at a time are closed after some five seconds, whatever they wait for;
    those beyond sixteen wait for their turn; and an echo goes on beside them."""
    port = told(room)
    peer, up = room.peer(), room.upstream(echo)
    stream = peer.tunnel(up.port)
    held = [raw(room, port, data) for data in [b"", b"GET /ready HTTP/1.1\r\n"] * (MOST // 2)]
    time.sleep(0.2)
    late = [raw(room, port, b"GET /ready HTTP/1.1\r\nhost: x\r\n\r\n") for _ in range(4)]
    begun = time.monotonic()
    says(peer, stream, b"hello" * 10000)
    wanted("an echo at once", time.monotonic() - begun < 1, True)
    for it in held:
        came, _ = rest(it)
        wanted("what a silent one gets", came, b"")
    took = time.monotonic() - begun
    wanted(f"about five seconds, {took:.1f}", LONGEST - 1 < took < LONGEST + 2, True)
    for it in late:
        wanted("a late one", rest(it)[0][9:12], b"200")
    slow = raw(room, port)
    begun = time.monotonic()
    with contextlib.suppress(OSError):
        for _ in range(100):
            slow.sendall(b"G")
            time.sleep(0.1)
    wanted("a slow one", LONGEST - 1 < time.monotonic() - begun < LONGEST + 2, True)
    says(peer, stream, b"hello")


@case
def twenty_questions_at_once(room):
    """Twenty at once, ten times, each answered, while an echo goes on; then no descriptor is left open."""
    port = told(room)
    peer, up = room.peer(), room.upstream(echo)
    stream = peer.tunnel(up.port)
    before = room.proxy.descriptors()
    for _ in range(10):
        links = [raw(room, port, b"GET /metrics HTTP/1.1\r\nhost: x\r\n\r\n") for _ in range(20)]
        says(peer, stream, b"hello")
        for it in links:
            came, _ = rest(it)
            wanted("an answer", (came[9:12], came.endswith(b"hbone_log_stopped 0\n")), (b"200", True))
            it.close()
    until("descriptors as before", lambda: room.proxy.descriptors() == before)
    says(peer, stream, b"hello")


@case
def a_state_that_is_told_ends_with_the_run(room):
    """`--ticks 3` ends in its time, also while somebody asks and sends nothing; then nothing listens there."""
    room.control()
    port = free_port()
    begun = time.monotonic()
    room.serve("--status", f"{HERE}:{port}", "--ticks", "3")
    raw(room, port)
    wanted("the status", room.proxy.process.wait(10), 0)
    took = time.monotonic() - begun
    wanted(f"three seconds, {took:.1f}", 2.5 < took < 4, True)
    try:
        asked(port)
    except OSError:
        return
    raise Fault("it still answers")


@case
def a_state_told_at_a_port_that_is_taken(room):
    """Status 4 and a line that says so, and the control plane isn't dialled."""
    with socket.create_server((HERE, 0)) as taken, socket.create_server((HERE, room.discovery)) as plane:
        port = taken.getsockname()[1]
        proxy = Proxy(room.program, room.discovery, ["--status", f"{HERE}:{port}"])
        wanted("the status", proxy.process.wait(10), 4)
        wanted("what is told", proxy.told(), [f"hbone: status {HERE}:{port}: address in use"])
        plane.settimeout(0.2)
        with contextlib.suppress(TimeoutError):
            plane.accept()
            raise Fault("the control plane is dialled")


@case
def lines_that_end_are_told(room):
    """Standard error is a full device: the notes are counted on, and `hbone_log_stopped` says that their lines ended."""
    with open("/dev/full", "wb") as full:
        port = told(room, err=full.fileno())
    peer, up = room.peer(), room.upstream(echo)
    for at in range(3):
        stream = peer.tunnel(up.port)
        says(peer, stream, b"hello")
        wanted("answers", metrics(port)['hbone_answers_total{status="200"}'], at + 1)
    until("the lines ended", lambda: metrics(port)["hbone_log_stopped"] == 1)


@case
def ready_once_it_was_told(room):
    """While no control plane is there `/live` is 200 and `/ready` 503; once workloads and policies came both are 200, and they stay so when
    it is gone."""
    port = free_port()
    room.serve("--status", f"{HERE}:{port}")
    until("it is live", lambda: asked(port, "/live")[0] == 200)
    time.sleep(2.5)
    lacks = "workloads and policies weren't told yet\n"
    wanted("before", (asked(port), metrics(port)["hbone_synced"]), ((503, "text/plain", lacks), 0))
    room.control()
    room.settle()
    until("it is ready", lambda: asked(port)[0] == 200)
    room.plane.stop()
    time.sleep(2.5)
    wanted("behind it", (asked(port)[2], asked(port, "/live")[2], metrics(port)["hbone_synced"]), ("ready\n", "live\n", 1))
