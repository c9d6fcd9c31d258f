"""How a run ends."""

import os
import signal
import socket
import subprocess
import threading
import time

from case import PREFACE, answer_of, case, payload, says
from peers import HERE, OTHER, TOP, Proxy, echo, free_port, header, mesh, until, wanted


@case
def ticks(room):
    """`--ticks 3` ends by itself in three seconds or so, with status 0 and the total line."""
    room.control()
    begun = time.monotonic()
    room.serve("--ticks", "3")
    wanted("the status", room.proxy.process.wait(10), 0)
    took = time.monotonic() - begun
    wanted("three seconds", 2.5 < took < 4, True)
    wanted("what is printed", room.proxy.printed(), ["total: 1 links, 0 accepted, 0 revoked, 0 up, 0 down"])


@case
def totals(room):
    """The total line counts links, tunnels that were let in, those that were revoked, and the bytes both ways."""
    room.control()
    room.serve("--ticks", "4")
    room.settle()
    up, peer = room.upstream(echo), room.peer()
    stream, other = peer.tunnel(up.port), peer.tunnel(up.port)
    says(peer, stream, payload(1000))
    says(peer, other, payload(500))
    peer.send(stream, b"", end=True)
    peer.pump(lambda: stream in peer.ended, "END_STREAM")
    room.update(mesh(OTHER))
    peer.pump(lambda: peer.closed(other), "a reset")
    wanted("the status", room.proxy.process.wait(10), 0)
    wanted("what is printed", room.proxy.printed(), ["total: 4 links, 2 accepted, 1 revoked, 1500 up, 1500 down"])


@case
def turns(room):
    """`--turns 5` ends with status 5 and the total line."""
    room.control()
    room.proxy = Proxy(room.program, room.discovery, ["--turns", "5"])
    wanted("the status", room.proxy.process.wait(10), 5)
    wanted("what is told last", room.proxy.told()[-1:], ["hbone: turns spent"])
    wanted("what is printed", len(room.proxy.printed()), 1)


@case
def a_port_that_is_taken(room):
    """Status 4 where the door's port is taken, and a line that names the door and says so."""
    room.control()
    with socket.create_server((HERE, 0)) as taken:
        port = taken.getsockname()[1]
        proxy = Proxy(room.program, room.discovery, inbound=port)
        wanted("the status", proxy.process.wait(10), 4)
        wanted("what is told", proxy.told(), [f"hbone: inbound door {HERE}:{port}: address in use", "hbone: world fault"])


@case
def two_doors_on_one_port(room):
    """Status 4, and a line that names the second door."""
    room.control()
    port = free_port()
    proxy = Proxy(room.program, room.discovery, inbound=port, plain=port)
    wanted("the status", proxy.process.wait(10), 4)
    first = f"listens door=inbound at={HERE}:{port}"
    wanted("what is told", proxy.told(), [first, f"hbone: plain door {HERE}:{port}: address in use", "hbone: world fault"])


@case
def a_signal(room):
    """SIGTERM ends it at once, without a total line."""
    room.start()
    peer, up = room.peer(), room.upstream(echo)
    says(peer, peer.tunnel(up.port), b"hello")
    wanted("the status", room.proxy.end(), -15)
    wanted("what is printed", room.proxy.printed(), [])
    until("an end at the upstream", lambda: up.one().ended)


@case
def a_signal_to_its_script(room):
    """Behind `examples/until_signal.sh` SIGTERM ends it in order: the line of its tunnel, the total line, and status 0."""
    room.control()
    room.serve("--stop-on-input", by=[TOP / "examples/until_signal.sh"])
    room.settle()
    peer, up = room.peer(), room.upstream(echo)
    says(peer, peer.tunnel(up.port), b"hello")
    wanted("the status", room.proxy.end(), 0)
    wanted("the last note", room.proxy.notes()[-1:], ["end stopped up 5 down 5"])
    wanted("what is printed", room.proxy.printed(), ["total: 3 links, 1 accepted, 0 revoked, 5 up, 5 down"])


@case
def stopped_and_continued(room):
    """SIGSTOP and SIGCONT, amid a wait: it goes on."""
    room.start()
    peer, up = room.peer(), room.upstream(echo)
    stream = peer.tunnel(up.port)
    for _ in range(3):
        room.proxy.process.send_signal(signal.SIGSTOP)
        time.sleep(0.2)
        room.proxy.process.send_signal(signal.SIGCONT)
        says(peer, stream, b"hello")


@case
def closed_standard_streams(room):
    """Standard input, output and error closed: no socket gets their numbers, so no note is written into the control plane's connection."""
    with socket.create_server((HERE, room.discovery)) as plane:
        door = free_port()
        served = ["serve", "--node", "n1", "--id", "peers", "--discovery", f"{HERE}:{room.discovery}"]
        words = [*served, "--plain", f"{HERE}:{door}", "--ticks", "2"]
        process = subprocess.Popen(["sh", "-c", 'exec "$0" "$@" 0<&- 1>&- 2>&-', room.program, *words])
        control, _ = plane.accept()
        with socket.create_connection((HERE, door)) as it:
            it.sendall(header((HERE, 1), (HERE, 80), None))
            wanted("the refused connection", ended(it), True)
        control.settimeout(10)
        came = b""
        while part := control.recv(65536):
            came += part
        control.close()
        wanted("what came", (came.startswith(PREFACE), b"verdict" in came), (True, False))
        wanted("the status", process.wait(10), 7)


@case
def standard_error_that_nobody_reads(room):
    """Standard error is a pipe that nobody reads, while one peer is refused 5,500 requests: an echo goes on, and an update revokes a tunnel
    of another peer at once. Once it is read, each line comes whole, but for those that are counted as lost."""
    reads, writes = os.pipe()
    room.start(err=writes)
    os.close(writes)
    up, peer, other = room.upstream(echo), room.peer(), room.peer(identity=OTHER)
    stream = peer.tunnel(up.port)
    for _ in range(55):
        refused = [other.connect(f"{HERE}:{up.port}") for _ in range(100)]
        other.pump(lambda: all(other.closed(it) for it in refused), "100 refusals")
    says(peer, stream, b"hello")
    begun = time.monotonic()
    room.update(mesh(OTHER))
    peer.pump(lambda: peer.closed(stream), "a reset", 1)
    took = time.monotonic() - begun
    came = bytearray()
    threading.Thread(target=read_all, args=(reads, came), daemon=True).start()
    until("what waited", lambda: len(came) > 300_000)
    answer_of(peer, peer.connect(f"{HERE}:{up.port}"))
    until("the next lines", lambda: b" lines lost\n" in came and b"\nverdict 2/3 401 " in came and came.endswith(b"\nwhy 2/3 none_allows=1\n"))
    lines = came.decode().splitlines()
    lost = sum(int(line.split(" ")[1]) for line in lines if line.startswith("hbone: "))
    kept = sum(line.startswith(("verdict ", "end ", "was ")) for line in lines)
    others = [line for line in lines if not line.startswith(("verdict ", "end ", "was ", "why ", "hbone: "))]
    # an answer of 200, 5,500 refusals, an end and whose it was, one more refusal; and a door that listens, the control plane dialled and open
    wanted("lines and those that were lost", (kept + lost, len(others)), (5504, 3))
    room.proxy.end()
    return f"revoked within {took:.2f} s, {lost} lines lost"


def read_all(descriptor, came):
    """Reads until the end."""
    while part := os.read(descriptor, 65536):
        came += part
    os.close(descriptor)


def ended(it):
    """Whether a connection ends or is reset, without a byte."""
    try:
        return it.recv(1) == b""
    except ConnectionResetError:
        return True
