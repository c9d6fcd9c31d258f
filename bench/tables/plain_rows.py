#!/usr/bin/python3
"""Prints tests/replay/plain.runs: runs of `hbone replay --plain`, each with its status, its whole output and its error text.

bench/tables/tunnel_model.py, which knows the pages alone, gives the answers; those of the first rows are worked out by hand too. A row has
to end the same by every choice that the pages leave open.

    python3 bench/tables/plain_rows.py > tests/replay/plain.runs
"""
import model_rows
import modelled_rows as modelled
import replay_rows
import tunnel_rows
from modelled_rows import ALLOW, BACK, DENY, GONE, TICK, ask, policies, workloads
from run_table import Table
from spelling import policy, workload
from tunnel_rows import FRONT, UPDATE, WAKE, came, data, on, room, single, woken

DOOR = "--plain 0.0.0.0:15006"
BOTH = "--inbound 0.0.0.0:15008 " + DOOR
ACCEPT = '{"accept":"plain"}\n'
NOBODY = "".join(line + "\n" for line in replay_rows.OPEN)
BASE = modelled.BASE
# The base with a policy that admits each peer at port 9090
OPEN_BASE = NOBODY + "".join(line + "\n" for line in replay_rows.came(replay_rows.SET + replay_rows.OK, replay_rows.data(replay_rows.M1))) \
    + woken(1, UPDATE)
ROWS = []


def front(port=9090, destination="0a000007", source="0a000009", family=0x11, more=b""):
    ends = bytes.fromhex(source + destination) + (4000).to_bytes(2, "big") + port.to_bytes(2, "big")
    return FRONT[:12] + bytes([0x21, family]) + len(ends + more).to_bytes(2, "big") + ends + more


IDENTITY = FRONT[28:]
F9 = front(more=IDENTITY)
LONG = "00" * 20
FRONT_6 = front(destination="20010db8" + "00" * 11 + "07", source="20010db8" + "00" * 11 + "09", family=0x21)


def row(name, script, words=DOOR, *more, want=None):
    ROWS.append((name, script, [*words.split(), *more], want))


def begun(*octets, link=2, header=None):
    """A connection at the plain door whose header came, with more behind it."""
    return ACCEPT + woken(link, (front() if header is None else header) + b"".join(octets))


def opened(*octets, link=2, **how):
    return begun(*octets, link=link, **how) + on("open", link + 1)


LIVE = OPEN_BASE + opened()
STAGES = [("before its header is whole", OPEN_BASE + ACCEPT + woken(2, front()[:20])), ("while its upstream opens", OPEN_BASE + begun(b"abc")),
          ("while it lives", LIVE + woken(2, b"abc") + woken(3, b"defg"))]


def by_hand():
    link = tunnel_rows.link
    row("a peer whose identity isn't used", BASE + begun(header=FRONT), want=tunnel_rows.control() + link(2, "plain", 63, 0, "refused 401")
        + "verdict 2/0 401 10.0.0.9 - 10.0.0.7:15008\n" + tunnel_rows.total(2, 0))
    start = OPEN_BASE + begun(b"abc", header=F9) + on("open", 3) + woken(3, b"def")
    notes = "verdict 2/0 200 10.0.0.9 - 10.0.0.7:9090\nend 2/0 {} up 3 down 3\n"
    row("a relay from its header to its end", start + on("end", 2) + on("end", 3), want=tunnel_rows.control(321, 450)
        + link(2, "plain", 66, 3, "done") + link(3, "relay 10.0.0.7:9090 of 2", 3, 3, "done") + notes.format("done")
        + tunnel_rows.total(3, 1, 0, 3, 3))
    row("an update ends a relay", start + woken(1, replay_rows.data(replay_rows.M2)), want=tunnel_rows.control(494, 518)
        + link(2, "plain", 66, 3, "revoked") + link(3, "relay 10.0.0.7:9090 of 2", 3, 3, "revoked") + notes.format("revoked")
        + tunnel_rows.total(3, 1, 1, 3, 3))


def headers():
    whole = front()
    row("octet by octet", OPEN_BASE + ACCEPT + woken(2, *single(whole + b"ab")) + on("open", 3) + woken(3, *single(b"xyz")))
    row("a header of IPv6 that nobody serves", OPEN_BASE + begun(header=FRONT_6))
    served = workloads(("u6", workload("six", "a", [bytes.fromhex("20010db8" + "00" * 11 + "07")], "n1", [])))
    row("a header of IPv6", OPEN_BASE + woken(1, served) + opened(b"six", header=FRONT_6))
    row("a header with more behind its addresses", OPEN_BASE + opened(b"tail", header=front(more=b"\x04\x00\x03abc")))
    for name, octets in [
            ("a signature", b"GET / HTTP/1.1\r\n"), ("a version", whole[:12] + b"\x11"), ("a family", whole[:13] + b"\x31"),
            ("no room for addresses", whole[:14] + b"\x00\x05"), ("too long a header", whole[:14] + b"\x10\x01"),
            ("an identity", front(more=b"\xe0\x00\x03abc")), ("two identities", front(more=IDENTITY + IDENTITY))]:
        row(f"a fault of the header: {name}", OPEN_BASE + ACCEPT + woken(2, octets))
    row("nothing at all", OPEN_BASE + ACCEPT + WAKE + "\n")
    row("bytes behind the header of a refused link", BASE + begun(b"many more bytes", header=FRONT))


def verdicts():
    row("nothing was told yet", NOBODY + begun())
    row("workloads alone were told", NOBODY + came(1, replay_rows.SET + replay_rows.OK, replay_rows.data(replay_rows.M1)) + WAKE + "\n" + begun())
    row("an address that no workload has", OPEN_BASE + begun(header=front(destination="0a000063")))
    row("a port that the policy doesn't admit", OPEN_BASE + begun(header=front(8080)))
    row("a peer that a policy denies", OPEN_BASE + woken(1, DENY) + begun())
    row("a peer that a policy denied before", OPEN_BASE + woken(1, DENY, ALLOW) + opened(b"in"))
    row("a workload that came back", OPEN_BASE + woken(1, GONE, BACK) + opened(b"in"))
    free = OPEN_BASE + woken(1, policies(removed=["a/p"]))
    row("without a policy", free + opened(b"in", header=front(8080)))
    row("the plain door itself", free + begun(header=front(15006)))
    row("the inbound door itself", free + begun(header=front(15008)), BOTH)
    row("the port of a door that isn't given", free + opened(header=front(15008)))
    row("the port of a door at another address", free + opened(header=front(15006)), "--plain 10.0.0.8:15006")
    row("a tunnel to the plain door", free + modelled.ACCEPT + woken(2, tunnel_rows.OPENING + ask(to=b"10.0.0.7:15006")), BOTH)


def dials():
    begin = OPEN_BASE + begun(b"abc")
    row("a dial that fails", OPEN_BASE + '{"nodial":1}\n' + begun(b"abc"))
    row("an upstream that refuses", begin + on("refuse", 3))
    row("an upstream that never opens", begin + woken(2, b"de"))
    row("more comes before the upstream is open", begin + woken(2, b"de", b"f") + on("open", 3))
    row("the peer ends before the upstream is open", begin + on("end", 2) + on("open", 3) + woken(3, b"late") + on("end", 3))
    row("the peer breaks before the upstream is open", begin + on("break", 2))
    row("an update ends it before the upstream is open", begin + woken(1, DENY))
    row("two relays of one destination", OPEN_BASE + begun(b"a") + begun(b"b", link=4) + on("open", 3) + on("open", 5)
        + woken(3, b"xx") + woken(5, b"yyy"))


def ends():
    row("the peer ends first", LIVE + woken(2, b"ask") + on("end", 2) + woken(3, b"answer") + on("end", 3))
    row("the upstream ends first", LIVE + woken(3, b"hello") + on("end", 3) + woken(2, b"bye") + on("end", 2))
    row("both end at once", LIVE + woken(2, b"ab") + '{"end":2}\n' + on("end", 3))
    row("it ends without a byte", LIVE + on("end", 2) + on("end", 3))
    row("the peer ends, and the upstream breaks", LIVE + woken(2, b"ab") + on("end", 2) + on("break", 3))
    row("the upstream ends, and the peer breaks", LIVE + woken(3, b"ab") + on("end", 3) + on("break", 2))
    for name, script in STAGES:
        for what, link in [("break", 2), ("end", 2), ("break", 3), ("end", 3)]:
            if link == 2 or "lives" in name:
                row(f"{'its upstream' if link == 3 else 'it'} {what}s {name}", script + on(what, link))
        row(f"the run ends {name}", script)
        row(f"the workload goes {name}", script + woken(1, GONE))
        row(f"a policy denies it {name}", script + woken(1, DENY, ALLOW) + woken(2, b"more"))
        row(f"an update that still admits it {name}", script + woken(1, policies(("b/p", policy("b", "p", "NAMESPACE", "DENY", [[]])))))


def rooms_of(live, pending, up, down):
    """Rows of rings that are full, of these sizes: of a link that lives, and of one whose upstream isn't open."""
    step = room(3, 1) + WAKE + "\n"
    back = room(2, 1) + WAKE + "\n"
    return [
        ("an upstream that takes an octet at a time", live + step + came(2, b"hello") + step * 3 + room(3, 100) + WAKE + "\n"),
        ("a peer that takes an octet at a time", live + back + came(3, b"hello") + back * 5),
        ("the end waits behind the last octet", live + room(3, 2) + woken(2, b"abcd") + on("end", 2) + step * 2 + on("end", 3)),
        ("the upstream's end waits behind the last octet", live + room(2, 2) + woken(3, b"abcd") + on("end", 3) + back * 2 + on("end", 2)),
        ("the ring up is full", live + room(3, 0) + woken(2, bytes(up), b"more") + room(3, 10) + WAKE + "\n" + room(3, 100000) + WAKE
         + "\n"),
        ("the ring down is full", live + room(2, 0) + woken(3, bytes(down), b"more") + room(2, 10) + WAKE + "\n" + room(2, 100000) + WAKE
         + "\n"),
        ("the ring up is full before the upstream is open", pending + woken(2, bytes(up), b"more") + on("open", 3)),
        ("an update while the rings hold bytes", live + room(2, 0) + room(3, 0) + woken(2, b"abc") + woken(3, b"de") + woken(1, DENY)
         + room(2, 10) + room(3, 10) + WAKE + "\n"),
        ("many octets each way", live + woken(2, *[bytes(9000)] * 9) + woken(3, *[bytes(7000)] * 9) + on("end", 2) + on("end", 3))]


def rooms():
    rows = rooms_of(LIVE, OPEN_BASE + begun(), 65535, 16384)
    rows.insert(-1, ("an update between two octets", LIVE + room(3, 3) + woken(2, b"abcdef") + woken(1, DENY) + room(3, 3) + WAKE + "\n"))
    for name, script in rows:
        row(name, script)


def mixed():
    tunnel = modelled.ACCEPT + woken(2, tunnel_rows.OPENING + ask(to=b"10.0.0.7:9090")) + on("open", 3)
    pair = OPEN_BASE + tunnel + begun(link=4) + on("open", 5)
    row("a tunnel and a relay", pair + woken(2, data(1, b"up")) + woken(4, b"raw") + woken(3, b"down") + woken(5, b"back"), BOTH)
    row("an update ends a tunnel and a relay", pair + woken(2, data(1, b"up")) + woken(4, b"raw") + woken(1, DENY), BOTH)
    known = policies(("a/k", policy("a", "k", "GLOBAL", "DENY", [[[([b"\x22\x02\x22\x00"], [])]]])))
    row("an update for each peer that has an identity", pair + woken(1, known) + woken(4, b"on") + woken(2, data(1, b"on")), BOTH)
    row("a relay and then a tunnel", OPEN_BASE + opened(b"raw") + modelled.ACCEPT
        + woken(4, tunnel_rows.OPENING + ask(to=b"10.0.0.7:9090")) + on("open", 5) + woken(4, data(1, b"up")) + on("end", 2) + on("end", 3), BOTH)
    row("a relay takes the last place", OPEN_BASE + begun() + modelled.ACCEPT + woken(4, tunnel_rows.OPENING + ask(to=b"10.0.0.7:9090")), BOTH,
        "--tunnels", "1")
    row("a tunnel takes the last place", OPEN_BASE + tunnel + ACCEPT + woken(4, front()), BOTH, "--tunnels", "1")
    row("two relays where one is allowed", OPEN_BASE + begun(b"a") + ACCEPT + WAKE + "\n" + on("open", 3) + on("end", 2) + on("end", 3)
        + begun(b"c", link=5) + on("open", 6), DOOR, "--tunnels", "1")
    row("a link without a header has its place", OPEN_BASE + ACCEPT + WAKE + "\n" + ACCEPT + WAKE + "\n" + on("end", 2) + ACCEPT + WAKE + "\n", DOOR,
        "--tunnels", "1")
    row("a plain link where the door isn't given", OPEN_BASE + ACCEPT + WAKE + "\n", "--inbound 0.0.0.0:15008")
    row("the control plane breaks, and a relay goes on", LIVE + on("break", 1) + woken(2, b"still") + TICK + woken(3, b"here"))
    row("ticks", LIVE + TICK * 3 + woken(2, b"abc"))
    row("a listen that fails", '{"fault":"listen"}\n' + ACCEPT, DOOR)


def cut_runs():
    """Runs of which what comes on the first two links is cut by chance."""
    life = OPEN_BASE + begun(b"abc") + on("open", 3) + woken(2, b"more of it") + woken(3, b"answer") + on("end", 2) + on("end", 3)
    early = OPEN_BASE + begun(b"early") + woken(2, b"and late") + on("open", 3) + woken(3, b"answer") + on("end", 3) + on("end", 2)
    revoked = LIVE + woken(2, b"abc") + woken(3, b"defg") + woken(1, DENY) + woken(1, ALLOW) + begun(b"again", link=4) + on("open", 5)
    return [("the whole life of a relay", life), ("a relay that begins early", early), ("a relay that is revoked", revoked)]


def traces():
    """Each third row whose trace is short tells that too."""
    ROWS.extend(model_rows.traced(ROWS[::3], 4000, 2000))


def nowhere():
    """A workload at the unspecified address, which is the machine itself."""
    there = workloads(("u0", workload("zero", "a", [bytes(4), bytes(16)], "n1", [])))
    row("a workload at the unspecified address", OPEN_BASE + woken(1, there) + begun(b"abc", header=front(destination="00000000")))
    row("a workload at the unspecified address of IPv6", OPEN_BASE + woken(1, there)
        + begun(header=front(destination="00" * 16, source="20010db8" + "00" * 11 + "09", family=0x21)))


def places():
    """One place, which is taken, and is free again behind an update that ends the link."""
    one = [DOOR, "--tunnels", "1"]
    row("one place, which an update frees", LIVE + ACCEPT + WAKE + "\n" + woken(1, DENY, ALLOW) + opened(b"again", link=5), *one)


# The table

HEAD = ["Runs of `hbone replay --plain`. bench/tables/plain_rows.py prints this file: a plain model of the pages answers."]
PARTS = {**modelled.PARTS, "front9": front().hex(), "f9": F9.hex(), "openbase": OPEN_BASE}


def main():
    for rows in (by_hand, headers, verdicts, dials, ends, rooms, mixed, traces, nowhere, places):
        rows()
    table = Table(HEAD, PARTS)
    for each in ROWS:
        model_rows.put_row(table, *each)
    model_rows.put_cut(table, cut_runs(), DOOR.split())
    table.print()


if __name__ == "__main__":
    main()
