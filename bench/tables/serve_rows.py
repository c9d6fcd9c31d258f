#!/usr/bin/python3
"""Prints tests/sockets/serve.frames: the octets of a control plane, of a peer and of a gateway of `hbone serve` on the loopback of this
machine, and what the program is to send them.

The octets are those of the runs of `replay`, worked out by hand in tunnel_rows.py, with the address of this machine in the place of
10.0.0.7; the program's opening and its requests, and what it writes to a gateway, are those of the second, plain models.

    python3 bench/tables/serve_rows.py > tests/sockets/serve.frames
"""
import pathlib
import sys

import modelled_rows
import replay_model as model
import routes
import tunnel_model
from spelling import number, span, text, workload
from tunnel_rows import ACK, ADMITTED, ANSWER, CANCEL, CONNECT_ERROR, FIRST, FIRST_RESPONSE, NO_ERROR, OPENING, OWN, PEER, REFUSED_400
from tunnel_rows import REFUSED_401, REFUSED_503, SECOND_RESPONSE, SET, UPDATE, data, frame, goaway, headers, reset

sys.path.insert(0, str(pathlib.Path(__file__).resolve().parents[2] / "tests"))

import rows  # noqa: E402

HEAD = """# What goes to and fro between `hbone serve` and its peers, for serve.rows. bench/tables/serve_rows.py prints this file.
#
# `frame NAME OCTETS`: in the octets \\x and two digits stand for one, and five marks for the digits of a port.
"""
PORT = rows.PORT_MARKS


def here(octets):
    """Octets with the address of this machine in the place of 10.0.0.7."""
    assert octets.count(bytes([10, 0, 0, 7])) == 1
    return octets.replace(bytes([10, 0, 0, 7]), bytes([127, 0, 0, 1]))


def asked():
    """What the program writes first: its connection's opening, and its first requests."""
    link = model.Link(1, "z1", "127.0.0.1:" + PORT.decode(), {}, model.USUAL)
    requests = model.first_request("z1", model.ADDRESS, {}) + model.first_request("z1", model.POLICY, {})
    return link.output() + data(1, requests)


# The workload u1 with an account, by which it has the peer's identity
NAMED = modelled_rows.workloads(("u1", workload("web", "a", [[10, 0, 0, 7]], "n1", ["a/p"], text(7, "c"), number(5, 1))))
HERE = tunnel_model.target_of("127.0.0.1:15008")


def gate_front(at):
    """The header of a link of the workload u1 to a gateway."""
    return tunnel_model.put_front(HERE.ip, tunnel_model.target_of(at), "spiffe://" + PEER.decode())


def opening(request):
    """What stands behind the gateway's port on such a link: the rest of its header, a client's opening, and a request on stream 1."""
    return gate_front("127.0.0.1:15008")[28:] + tunnel_model.CLIENT + headers(1, FIRST + request)


TO_PORT = b"\x02\x07CONNECT\x01\x0f127.0.0.1:" + PORT
TO_SERVICE = b"\x02\x07CONNECT\x01\x0c127.0.0.3:80"


def behind_waypoint(status):
    """A response with the service web.a at 127.0.0.3:80, of which u1 is an endpoint, behind a waypoint with one workload of this status."""
    endpoint = routes.workload("127.0.0.1", net="", node="n1", serves=[("a/web.a", [(80, 8080)])])
    u1 = routes.spelled(endpoint) + span(1, text(2, "a") + text(7, "c"))
    w1 = routes.spelled(routes.workload("127.0.0.2", net="", serves=[("a/way.a", [(15008, 15008)])], status=status))
    web = routes.spelled(routes.service("127.0.0.3", waypoint=routes.by_hostname("way.a"), net=""))
    return modelled_rows.workloads(("u1", u1), ("w1", w1), ("web", web))


TABLE = [
    ("ASKED", "What the program writes to its control plane first. The port is the control plane's.", asked()),
    ("ANSWERED", "SETTINGS of the control plane, or of a gateway, and the headers of its answer 200 on stream 1.",
     SET + headers(1, ADMITTED)),
    ("SETTLED", "The program's answer to SETTINGS.", ACK),
    ("WORKLOAD", "A response with the workload u1 at this machine, which lists the policy a/p.", here(FIRST_RESPONSE)),
    ("WORKLOAD_TAKEN", "The program's answer to it.", data(1, model.answer(model.ADDRESS, "x1", None))),
    ("POLICY", "A response with the policy a/p, which admits the peer.", SECOND_RESPONSE),
    ("POLICY_TAKEN", "The program's answer to it.", data(1, model.answer(model.POLICY, "x2", None))),
    ("UPDATE", "A response with the policy a/p, which doesn't admit the peer any more.", UPDATE),
    ("UPDATE_TAKEN", "The program's answer to it.", ANSWER),
    ("FREED", "A response that takes the policy a/p away: each peer is admitted.", modelled_rows.policies(removed=["a/p"])),
    ("DENIED", "A response with a policy that denies each peer.", modelled_rows.DENY),
    ("CHANGE_TAKEN", "The program's answer to either.", data(1, model.answer(model.POLICY, "x9", None))),
    ("UNREADABLE", "A response with the policy a/bad, whose scope is none.", modelled_rows.policies(("a/bad", number(3, 7)))),
    ("REJECTED", "The program's answer to it, which tells the name.", data(1, model.answer(model.POLICY, "x9", "a/bad"))),
    ("STRAIGHT", "A response in which the workload u1 doesn't take HBONE any more.", here(modelled_rows.BACK)),
    ("NAMED", "A response in which the workload u1 has an account.", here(NAMED)),
    ("WAY_TAKEN", "The program's answer to either.", data(1, model.answer(model.ADDRESS, "x9", None))),
    ("HEADER", "The header of a captured connection, without an identity, up to the port of its destination, which is this machine.",
     modelled_rows.front(None, destination="7f000001")[:26]),
    ("LOCAL_HEADER", "The same with this machine as its source too.",
     modelled_rows.front(None, source="7f000001", destination="7f000001")[:26]),
    ("REQUEST", "The front's header, and the peer's opening with a request on stream 1 for a port of this machine.",
     here(OPENING) + headers(1, TO_PORT)),
    ("GREETED", "The program's SETTINGS, and its answer to the peer's.", OWN + ACK),
    ("ADMITTED", "The program's answer 200 on stream 1, the first of the link.", headers(1, FIRST + ADMITTED)),
    ("REFUSED", "The program's answer 400 on stream 1, the first of the link, and the reset behind it.",
     headers(1, FIRST + REFUSED_400, True) + reset(1, NO_ERROR)),
    ("UNADMITTED", "The same with 401.", headers(1, FIRST + REFUSED_401, True) + reset(1, NO_ERROR)),
    ("REVOKED", "Stream 1 is reset, as a tunnel is that is revoked.", reset(1, CANCEL)),
    ("BROKEN", "Stream 1 is reset, as a tunnel is whose upstream broke.", reset(1, CONNECT_ERROR)),
    ("HELLO", "DATA on stream 1.", data(1, b"hello")),
    ("LAST", "The end of stream 1.", data(1, end=True)),
    ("PING", "A PING.", frame(6, 0, 0, b"12345678")),
    ("PONG", "Its answer.", frame(6, 1, 0, b"12345678")),
    ("GATE_FRONT", "The header of a link to a gateway, both at this machine, up to the gateway's port.",
     gate_front("127.0.0.1:15008")[:26]),
    ("GATE_OPENING", "What stands behind it: the identity of the workload u1, a client's opening, and a request on stream 1.",
     opening(TO_PORT)),
    ("SECOND_REQUEST", "A request on stream 3, not the first of its link, for a port of this machine.", headers(3, TO_PORT)),
    ("SECOND_REFUSED", "The gateway's answer 503 to it.", headers(3, REFUSED_503, True)),
    ("SECOND_GIVEN_UP", "Stream 3 is reset, as a request is that was refused.", reset(3, CANCEL)),
    ("LARGE_HEAD", "The head of DATA on stream 1 with 16,384 octets.", data(1, bytes(16384))[:9]),
    ("GOES_AWAY", "A GOAWAY whose last stream is stream 1.", goaway(1, NO_ERROR)),
    ("WAYPOINT", "A response with a service at 127.0.0.3:80, of which u1 is an endpoint, behind a waypoint at 127.0.0.2.",
     behind_waypoint(0)),
    ("SICK_WAYPOINT", "The same, but the one workload of the waypoint is unhealthy.", behind_waypoint(1)),
    ("SERVICE_HEADER", "The header of a captured connection from this machine to the service, whole.",
     modelled_rows.front(None, source="7f000001", destination="7f000003")[:26] + (80).to_bytes(2, "big")),
    ("WAYPOINT_FRONT", "The header of a link to the waypoint's gateway, from this machine, up to the gateway's port.",
     gate_front("127.0.0.2:15008")[:26]),
    ("WAYPOINT_OPENING", "What stands behind it, with a request for the service.", opening(TO_SERVICE)),
]


def spelled(octets):
    """The octets in a line."""
    return "".join(chr(octet) if 32 <= octet < 127 and octet != ord("\\") else f"\\x{octet:02x}" for octet in octets)


def main():
    printed = HEAD + "".join(f"\n# {about}\nframe {name} {spelled(octets)}\n" for name, about, octets in TABLE)
    assert rows.read_frames(printed) == {name: octets for name, _, octets in TABLE}
    assert all(octets.count(b"#") == 5 * octets.count(PORT) for _, _, octets in TABLE)
    print(printed, end="")


if __name__ == "__main__":
    main()
