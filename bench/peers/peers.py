"""Real peers of hbone, for the cases beside this file: the program itself, its control plane, HTTP/2 clients and upstreams.

A `Room` has all of them, and ends them. Clients and gateways are python3-h2 behind a PROXY header, without TLS; the control plane is that
of examples, over python3-grpcio; upstreams and captured connections are plain sockets.
"""

import os
import pathlib
import resource
import select
import signal
import socket
import subprocess
import sys
import tempfile
import threading
import time
from concurrent.futures import ThreadPoolExecutor

import h2.config
import h2.connection
import h2.events
import h2.exceptions
import h2.windows

TOP = pathlib.Path(__file__).resolve().parents[2]
sys.path[:0] = [f"{TOP}/examples", f"{TOP}/bench/tables"]
from control_plane import Plane, resources_of
from front import header
from spelling import ADDRESS, AUTHORIZATION

CALLER, OTHER = "spiffe://cluster.local/ns/a/sa/c", "spiffe://cluster.local/ns/a/sa/d"
HERE = "127.0.0.1"
# Where captured connections come from: workloads of these identities; and a service that they mean
SOURCE, OTHER_SOURCE, SERVICE = "127.0.0.21", "127.0.0.22", "127.0.0.41"


class Fault(Exception):
    """Something isn't as the pages say."""


def wanted(what, value, want):
    if value != want:
        raise Fault(f"{what}: {str(value)[:200]}, wanted {str(want)[:200]}")


def until(what, holds, seconds=10):
    end = time.monotonic() + seconds
    while not holds():
        if time.monotonic() > end:
            raise Fault(f"not within {seconds} s: {what}")
        time.sleep(0.005)


def free_port():
    with socket.create_server((HERE, 0)) as it:
        return it.getsockname()[1]


def workload(at, name="w", node="n1", policies=("a/callers",), **more):
    place = {"uid": f"cluster/{name}", "name": name, "namespace": "a", "addresses": [at], "node": node}
    return {**place, "authorization_policies": list(policies), **more}


def policy(*principals, name="callers", action="ALLOW"):
    matches = [{"principals": [{"exact": it.removeprefix("spiffe://")} for it in principals]}] if principals else []
    return {"name": name, "namespace": "a", "scope": "WORKLOAD_SELECTOR", "action": action, "rules": [{"clauses": [{"matches": matches}]}]}


def mesh(*principals, workloads=()):
    """The resources of a workload at this machine that lets these principals in."""
    return resources_of({"workloads": [workload(HERE), *workloads], "policies": [policy(*principals)]})


def far_mesh(*principals, target=8080, sources=(("c", SOURCE), ("d", OTHER_SOURCE)), **more):
    """Of node n1 a workload at each of the sources; and of n2 one at this machine that takes HBONE and lets these principals in, which
    serves port 80 of a service at a target."""
    near = [workload(at, account, service_account=account) for account, at in sources]
    serves = {"a/web.a": [{"service_port": 80, "target_port": target}]}
    far = workload(HERE, node="n2", **{"tunnel_protocol": "HBONE", "services": serves, **more})
    service = {"name": "web", "namespace": "a", "hostname": "web.a", "addresses": [{"address": SERVICE}], "ports": [{"service_port": 80}]}
    return resources_of({"workloads": [*near, far], "services": [service], "policies": [policy(*principals)]})


# The program


class Proxy:
    """`hbone serve`, run by the script `by` if there is one; `doors` has the port of each door. Without one it has an inbound door at some
    port. Its standard error is a file, or the descriptor `err`."""

    def __init__(self, program, discovery, words=(), descriptors=None, node="n1", err=None, by=(), **doors):
        self.doors = doors or {"inbound": free_port()}
        self.err = tempfile.TemporaryFile()
        self.out = tempfile.TemporaryFile()
        names = ["--node", node, "--id", "peers", "--discovery", f"{HERE}:{discovery}"]
        for door, port in self.doors.items():
            names += [f"--{door}", f"{HERE}:{port}"]
        limit = (lambda: resource.setrlimit(resource.RLIMIT_NOFILE, (descriptors, descriptors))) if descriptors else None
        self.process = subprocess.Popen([*by, program, "serve", *names, *words], stdout=self.out, stderr=err or self.err, preexec_fn=limit)

    def listens(self):
        if self.process.poll() is not None:
            raise Fault(f"it ended with status {self.process.returncode}: {self.told()}")
        open_ports = pathlib.Path("/proc/net/tcp").read_text()
        # (in hexadecimal digits, of a machine of little end)
        return all(f"0100007F:{port:04X} 00000000:0000 0A" in open_ports for port in self.doors.values())

    def lines(self, file):
        file.seek(0)
        return file.read().decode().splitlines()

    def printed(self):
        """The lines on standard output."""
        return self.lines(self.out)

    def told(self):
        """The lines on standard error."""
        return self.lines(self.err)

    def notes(self):
        """The lines of its notes, without the numbers of link and stream."""
        words = [line.split(" ") for line in self.told()]
        return [" ".join([it[0], *it[2:]]) for it in words if it[0] in ("verdict", "end")]

    def noted(self, *notes):
        """These are its notes, within some seconds."""
        end = time.monotonic() + 5
        while len(self.notes()) < len(notes) and time.monotonic() < end:
            time.sleep(0.01)
        wanted("the notes", self.notes(), list(notes))

    def reasons(self):
        """The lines of its reasons, without the numbers of link and stream."""
        return [line.split(" ", 2)[2] for line in self.told() if line.startswith("why ")]

    def cpu(self):
        """The processor seconds that it took, of its own and of the system's."""
        fields = pathlib.Path(f"/proc/{self.process.pid}/stat").read_text().rpartition(") ")[2].split()
        return (int(fields[11]) + int(fields[12])) / os.sysconf("SC_CLK_TCK")

    def memory(self):
        """Its resident memory, in MB."""
        return int(pathlib.Path(f"/proc/{self.process.pid}/statm").read_text().split()[1]) * os.sysconf("SC_PAGE_SIZE") / 1e6

    def descriptors(self):
        return len(os.listdir(f"/proc/{self.process.pid}/fd"))

    def end(self):
        """Its status, behind SIGTERM where it runs."""
        if self.process.poll() is None:
            self.process.send_signal(signal.SIGTERM)
        return self.process.wait(10)


# Upstreams


class Taken:
    """A connection without frames, as an upstream accepts it: what came on it, and how it ended: None, `end` or `reset`."""

    def __init__(self, it):
        self.socket, self.came, self.ended = it, bytearray(), None

    def take(self):
        """What came, as one read gives it; nothing at an end."""
        try:
            data = self.socket.recv(1 << 17)
        except TimeoutError:
            raise Fault(f"nothing came in {self.socket.gettimeout()} s behind {len(self.came)} bytes") from None
        except OSError:
            self.ended = "reset"
            return b""
        self.came += data
        if not data:
            self.ended = "end"
        return data

    def send(self, data):
        try:
            self.socket.sendall(data)
        except OSError:
            self.ended = "reset"

    def finish(self):
        try:
            self.socket.shutdown(socket.SHUT_WR)
        except OSError:
            pass

    def close(self):
        self.socket.close()

    def reset(self):
        """Ends it by a RST."""
        self.socket.setsockopt(socket.SOL_SOCKET, socket.SO_LINGER, b"\1\0\0\0\0\0\0\0")
        self.socket.close()


def echo(taken):
    while data := taken.take():
        taken.send(data)
    taken.finish()


def sink(taken):
    while taken.take():
        pass


def silent(_taken):
    pass


class Upstream:
    """A server, each connection of which is handed to an act in a thread of its own."""

    def __init__(self, act, backlog=4096, host=HERE):
        self.server = socket.create_server((host, 0), backlog=backlog)
        self.port = self.server.getsockname()[1]
        self.act, self.taken = act, []
        threading.Thread(target=self.accept, daemon=True).start()

    def accept(self):
        while True:
            try:
                it, _ = self.server.accept()
            except OSError:
                return
            it.setsockopt(socket.IPPROTO_TCP, socket.TCP_NODELAY, 1)
            taken = Taken(it)
            self.taken.append(taken)
            threading.Thread(target=self.act, args=(taken,), daemon=True).start()

    def one(self, count=1):
        until(f"{count} connections at the upstream", lambda: len(self.taken) >= count)
        return self.taken[count - 1]

    def close(self):
        try:
            self.server.shutdown(socket.SHUT_RDWR)
        except OSError:
            pass
        self.server.close()
        for it in self.taken:
            it.close()


class Captured(Taken):
    """A connection of a workload, as what captures it hands it to the outbound door."""

    def __init__(self, port, destination, source=SOURCE, front=None):
        super().__init__(socket.create_connection((HERE, port), 20))
        self.socket.setsockopt(socket.IPPROTO_TCP, socket.TCP_NODELAY, 1)
        self.send(header((source, 40000), destination) if front is None else front)

    def gets(self, size):
        """What came, once it is so many bytes or has ended."""
        while len(self.came) < size and self.take():
            pass
        return bytes(self.came)

    def rest(self):
        """All that came, once it has ended."""
        while self.take():
            pass
        return bytes(self.came)

    def both(self, data):
        """Sends all and ends, while it takes all that comes back."""
        sender = threading.Thread(target=lambda: (self.send(data), self.finish()), daemon=True)
        sender.start()
        self.rest()
        sender.join()
        return bytes(self.came)


# HTTP/2


def but_for_nothing(consumed):
    """A window's account of DATA that came, which passes over a frame without an octet: one may go at a window of 0 or less (RFC 9113
    section 6.9.1), as END_STREAM does behind a smaller INITIAL_WINDOW_SIZE. python3-h2 4.1 takes it for an overrun where the window is below 0."""

    def consume(window, size):
        if size:
            consumed(window, size)

    return consume


h2.windows.WindowManager.window_consumed = but_for_nothing(h2.windows.WindowManager.window_consumed)


class End:
    """An end of a connection. What is to be sent waits in `todo` for its windows; what came stands under its stream."""

    def __init__(self, it, client, piece=None, grants=True):
        self.socket = it
        self.socket.setsockopt(socket.IPPROTO_TCP, socket.TCP_NODELAY, 1)
        self.socket.setblocking(False)
        # (python3-h2 4.1 asks for :scheme and :path, which RFC 9113 section 8.5 takes away)
        loose = {"validate_outbound_headers": False} if client else {"validate_inbound_headers": False}
        self.conn = h2.connection.H2Connection(h2.config.H2Configuration(client_side=client, **loose))
        self.piece, self.grants = piece, grants
        self.out, self.todo, self.ending = bytearray(), {}, set()
        self.came, self.ended, self.reset = {}, set(), {}
        self.gone = self.over = None

    def closed(self, stream):
        return stream in self.ended or stream in self.reset or self.over

    def send(self, stream, data, end=False):
        self.todo[stream] = memoryview(bytes(self.todo.get(stream, b"")) + data)
        if end:
            self.ending.add(stream)

    def fill(self):
        """Puts what the windows let, while little waits to be written."""
        for stream in list(self.todo):
            while self.todo[stream] and len(self.out) < 1 << 18:
                most = min(self.conn.local_flow_control_window(stream), self.conn.max_outbound_frame_size)
                if not most:
                    break
                self.conn.send_data(stream, self.todo[stream][:most])
                self.todo[stream] = self.todo[stream][most:]
                self.out += self.conn.data_to_send()
            if not self.todo[stream]:
                del self.todo[stream]
        for stream in self.ending - set(self.todo):
            self.ending.discard(stream)
            self.conn.end_stream(stream)
        self.out += self.conn.data_to_send()

    def write(self):
        if not self.out:
            return
        try:
            sent = self.socket.send(self.out[: self.piece] if self.piece else self.out[: 1 << 18])
        except BlockingIOError:
            return
        except OSError:
            self.over = "reset"
            return
        del self.out[:sent]

    def read(self):
        try:
            data = self.socket.recv(self.piece or 1 << 18)
        except BlockingIOError:
            return
        except OSError:
            self.over = "reset"
            return
        if not data:
            self.over = "end"
            return
        self.got(data)

    def got(self, data):
        for event in self.conn.receive_data(data):
            self.take(event)

    def take(self, event):
        stream = getattr(event, "stream_id", None)
        if isinstance(event, h2.events.DataReceived):
            self.came[stream] += event.data
            if self.grants:
                self.conn.acknowledge_received_data(event.flow_controlled_length, stream)
        elif isinstance(event, h2.events.StreamEnded):
            self.ended.add(stream)
        elif isinstance(event, h2.events.StreamReset):
            self.reset[stream] = int(event.error_code)
            self.todo.pop(stream, None)
            self.ending.discard(stream)
        elif isinstance(event, h2.events.ConnectionTerminated):
            self.gone = int(event.error_code)

    def step(self, seconds):
        """Once around: what goes goes, what comes comes."""
        self.fill()
        poll = select.poll()
        poll.register(self.socket, select.POLLIN | (select.POLLOUT if self.out else 0))
        for _, events in poll.poll(seconds * 1000):
            if events & select.POLLOUT:
                self.write()
            if events & ~select.POLLOUT:
                self.read()

    def pump(self, holds, what, seconds=10):
        """Goes on until something holds."""
        end = time.monotonic() + seconds
        while not holds():
            left = end - time.monotonic()
            if left <= 0 or self.over and not holds():
                raise Fault(f"{'the link is over' if self.over else f'not within {seconds} s'}: {what}")
            self.step(min(left, 0.05))

    def rest(self, seconds):
        """Goes on for a time."""
        end = time.monotonic() + seconds
        while (left := end - time.monotonic()) > 0 and not self.over:
            self.step(min(left, 0.05))

    def flush(self):
        self.fill()
        self.pump(lambda: not self.out, "all is written")

    def close(self):
        self.socket.close()

    def abort(self):
        """Ends the connection by a RST."""
        self.socket.setsockopt(socket.SOL_SOCKET, socket.SO_LINGER, b"\1\0\0\0\0\0\0\0")
        self.socket.close()


class Peer(End):
    """A client of the inbound door."""

    def __init__(self, port, identity=CALLER, destination=HERE, front=None, **settings):
        super().__init__(socket.create_connection((HERE, port)), True, **settings)
        self.status = {}
        self.out += header((HERE, 40000), (destination, 15008), identity) if front is None else front
        self.conn.initiate_connection()

    def connect(self, target, end=False):
        """A stream that asks for a tunnel to a target."""
        return self.request([(":method", "CONNECT"), (":authority", target)], end)

    def request(self, headers, end=False):
        stream = self.conn.get_next_available_stream_id()
        self.conn.send_headers(stream, headers, end_stream=end)
        self.came[stream] = bytearray()
        return stream

    def tunnel(self, port, host=HERE):
        """A stream on which a tunnel is open."""
        stream = self.connect(f"{host}:{port}")
        self.pump(lambda: self.answered(stream), "an answer")
        wanted("the answer", (self.status.get(stream), self.reset.get(stream)), (200, None))
        return stream

    def answered(self, stream):
        return stream in self.status or stream in self.reset or self.over

    def join(self):
        """The proxy's SETTINGS came: it took the connection."""
        self.pump(lambda: self.conn.remote_settings.max_concurrent_streams == 100, "SETTINGS of 100 streams")
        return self

    def take(self, event):
        if isinstance(event, h2.events.ResponseReceived):
            self.status[event.stream_id] = int(dict(event.headers)[b":status"])
        else:
            super().take(event)


class Link(End):
    """A gateway's end of a link: the header in front of it, once it is whole, and of each stream what it asks for."""

    def __init__(self, it, echoes=False, **settings):
        super().__init__(it, False, **settings)
        self.front, self.begun, self.asked, self.echoes = None, b"", {}, echoes
        self.conn.initiate_connection()
        self.settings_out = 1

    def set(self, code, value):
        """Sends one of SETTINGS. (python3-h2 takes an acknowledgement for one of each that is out: call it where none is)"""
        self.conn.update_settings({code: value})
        self.settings_out += 1

    def got(self, data):
        if self.front is None:
            self.begun += data
            size = 16 + int.from_bytes(self.begun[14:16], "big")
            if len(self.begun) < size:
                return
            self.front, data = self.begun[:size], self.begun[size:]
        super().got(data)

    def take(self, event):
        stream = getattr(event, "stream_id", None)
        if isinstance(event, h2.events.RequestReceived):
            self.asked[stream] = [(name.decode(), value.decode()) for name, value in event.headers]
            self.came[stream] = bytearray()
            if self.echoes:
                self.answer(stream)
            return
        super().take(event)
        self.settings_out -= isinstance(event, h2.events.SettingsAcknowledged)
        if self.echoes and isinstance(event, h2.events.DataReceived):
            self.send(stream, event.data)
        if self.echoes and isinstance(event, h2.events.StreamEnded):
            self.send(stream, b"", end=True)

    def request(self, count=1):
        """The stream of its request of this number."""
        self.pump(lambda: len(self.asked) >= count, f"{count} requests at the gateway")
        return list(self.asked)[count - 1]

    def answer(self, stream, status=200, end=False):
        self.conn.send_headers(stream, [(":status", str(status))], end_stream=end)

    def meanwhile(self, act):
        """What an act answers, while the link goes on."""
        with ThreadPoolExecutor(1) as pool:
            later = pool.submit(act)
            while not (later.done() or self.over):
                self.step(0.002)
            return later.result()


class Gateway:
    """A server of HTTP/2 behind a header, whose connections are taken one by one."""

    def __init__(self, port=0, host=HERE):
        self.server, self.links = socket.create_server((host, port), backlog=128), []
        self.server.settimeout(10)
        self.port = self.server.getsockname()[1]

    def link(self, **settings):
        """The next connection."""
        try:
            it, _ = self.server.accept()
        except TimeoutError:
            raise Fault("no connection at the gateway within 10 s") from None
        self.links.append(Link(it, **settings))
        return self.links[-1]

    def waits(self, seconds=0.2):
        """Whether one more connection comes within a time."""
        return bool(select.select([self.server], [], [], seconds)[0])

    def close(self):
        self.server.close()
        for it in self.links:
            it.close()


class Room:
    """A control plane, the program, and whatever a case adds; all are ended with it."""

    def __init__(self, program):
        self.program, self.things, self.proxy, self.plane, self.lines = program, [], None, None, []
        self.discovery = free_port()

    def __enter__(self):
        return self

    def __exit__(self, *_):
        self.close()

    def beside(self):
        """A room more, for one more node; it is ended with this one."""
        return self.add(Room(self.program))

    def proxies(self):
        """The programs of this room and of those beside it."""
        others = [proxy for it in self.things if isinstance(it, Room) for proxy in it.proxies()]
        return ([self.proxy] if self.proxy else []) + others

    def close(self):
        for it in self.things:
            it.close()
        if self.proxy:
            self.proxy.end()
        if self.plane:
            self.plane.stop()

    def add(self, it):
        self.things.append(it)
        return it

    def control(self, resources=None, options=()):
        """The control plane begins, with options of gRPC; `lines` has what it tells."""
        self.plane = Plane(f"{HERE}:{self.discovery}", self.lines.append, options)
        self.plane.set(mesh(CALLER) if resources is None else resources)

    def serve(self, *words, **settings):
        """The program begins, and listens."""
        self.proxy = Proxy(self.program, self.discovery, words, **settings)
        until("it listens", self.proxy.listens)

    def start(self, *words, resources=None, **settings):
        """Both begin, and all resources are applied."""
        self.control(resources)
        self.serve(*words, **settings)
        self.settle()

    def settle(self):
        if not self.plane.settled(60):
            raise Fault("the control plane's responses weren't answered within 60 s")

    def update(self, resources):
        """Sends other resources, until they are applied."""
        sent = self.plane.sent
        self.plane.set(resources)
        until("a response to what changed", lambda: self.plane.sent > sent)
        self.settle()

    def upstream(self, act, **settings):
        return self.add(Upstream(act, **settings))

    def peer(self, **settings):
        return self.add(Peer(self.proxy.doors["inbound"], **settings))

    def gateway(self, **settings):
        return self.add(Gateway(**settings))

    def captured(self, port, host=HERE, **settings):
        """A captured connection that means an address."""
        return self.add(Captured(self.proxy.doors["outbound"], (host, port), **settings))
