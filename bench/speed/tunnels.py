#!/usr/bin/env python3
"""Times `hbone replay` over scripts of 1,000 tunnels, on 10 inbound links, on 1,000 and as 1,000 plain links, through which 300,000 pieces
of 96 octets come: by turns of the peer, of a plain link as they are and else as a DATA frame, and bytes of the upstream, of one tunnel
after the other, with a wait behind each 100. More octets a piece would pass the most that the program reads. Prints processor seconds, the start of the process included, the best of three; what a
piece costs more than the script without pieces; and the peak of resident memory.

usage: bench/speed/tunnels.py [PROGRAM]      (crates/hbone/out/hbone, which the gate leaves)
"""
import os
import pathlib
import subprocess
import sys
import tempfile

HERE = pathlib.Path(__file__).resolve().parent
sys.path.append(f"{HERE.parent}/tables")
from spelling import AUTHORIZATION, grpc, span
WORDS = ["replay", "--node", "n1", "--id", "z1", "--discovery", "10.0.0.1:15010", "--inbound", "0.0.0.0:15008", "--plain", "0.0.0.0:15006",
         "--brief"]
TUNNELS, PIECES, SIZE, BATCH = 1_000, 300_000, 96, 100
WAKE = '{"wake":true}\n'


def frame(kind, flags, stream, payload=b""):
    return len(payload).to_bytes(3, "big") + bytes([kind, flags]) + stream.to_bytes(4, "big") + payload


def came(link, octets):
    return '{"bytes":"%s","link":%d}\n' % (octets.hex(), link)


def numbers(at):
    """The last two numbers of the address that the link means."""
    return 100 + at // 100 % 100, 100 + at % 100


def connect(at, stream):
    authority = b"10.100.%d.%d:8080" % numbers(at)
    return frame(1, 4, stream, b"\x02\x07CONNECT\x01" + bytes([len(authority)]) + authority)


def begin_plain(file, control):
    """Links whose peers are admitted without an identity, each with its upstream, and the numbers of both."""
    free = frame(0, 0, 1, grpc(span(6, "a/p") + span(4, AUTHORIZATION) + span(5, "n")))
    file.write('{"open":1}\n' + WAKE + came(1, control) + WAKE + came(1, free) + WAKE)
    for at in range(1, TUNNELS + 1):
        header = bytes.fromhex("0d0a0d0a000d0a515549540a 21 11 000c 0a000009 0a64") + bytes(numbers(at)) + bytes.fromhex("0fa0 1f90")
        file.write('{"accept":"plain"}\n' + came(2 * at, header) + WAKE + '{"open":%d}\n' % (2 * at + 1) + WAKE)
        yield 2 * at, None, 2 * at + 1


def begin_inbound(file, control, opening, links):
    """Links with as many tunnels each: of each tunnel the link, the stream and the upstream."""
    file.write('{"open":1}\n' + WAKE + came(1, control) + WAKE + '{"accept":"inbound"}\n' * links + WAKE)
    up = 1 + links
    for at in range(1, links + 1):
        file.write(came(1 + at, opening[:22] + bytes(numbers(at)) + opening[24:]) + WAKE)
        for stream in range(1, 2 * TUNNELS // links, 2):
            up += 1
            file.write(came(1 + at, connect(at, stream)) + WAKE + '{"open":%d}\n' % up + WAKE)
            yield 1 + at, stream, up


def piece_of(link, stream):
    """A piece of the peer."""
    return came(link, bytes(SIZE) if stream is None else frame(0, 0, stream, bytes(SIZE - 9)))


def write_script(file, inputs, links, pieces):
    """`links`: how many inbound ones; 0 for plain links."""
    control, opening = (inputs / "control").read_bytes(), (inputs / "opening").read_bytes()
    tunnels = [*(begin_inbound(file, control, opening, links) if links else begin_plain(file, control))]
    for at in range(pieces):
        link, stream, up = tunnels[at // 2 % TUNNELS]
        file.write(came(up, bytes(SIZE)) if at % 2 else piece_of(link, stream))
        if at % BATCH == BATCH - 1:
            file.write(WAKE)
    file.write(WAKE)
    file.flush()


def measured(program, path):
    """The status, the report, processor seconds and the peak in bytes of one run."""
    with open(path, "rb") as text:
        process = subprocess.Popen([program, *WORDS], stdin=text, stdout=subprocess.PIPE)
        out = process.stdout.read().decode()
        _, status, usage = os.wait4(process.pid, 0)
    return os.waitstatus_to_exitcode(status), out, usage.ru_utime + usage.ru_stime, usage.ru_maxrss * 1024


def best(program, inputs, links, pieces):
    with tempfile.NamedTemporaryFile("w", suffix=".script") as file:
        write_script(file, inputs, links, pieces)
        runs = [measured(program, file.name) for _ in range(3)]
    status, out, _, peak = runs[0]
    return status, out.strip(), min(run[2] for run in runs), peak


def main():
    program = sys.argv[1] if len(sys.argv) > 1 else HERE / "../../crates/hbone/out/hbone"
    with tempfile.TemporaryDirectory() as folder:
        inputs = pathlib.Path(folder)
        subprocess.run([HERE / "inbound_input.py", inputs], check=True)
        for links in (10, 1_000, 0):
            _, _, alone, _ = best(program, inputs, links, 0)
            status, out, seconds, peak = best(program, inputs, links, PIECES)
            each = (seconds - alone) / PIECES * 1e6
            what = f"{links:,} links" if links else "plain links"
            print(f"{what}, {TUNNELS:,} tunnels, {PIECES:,} pieces: status {status}, {seconds:.2f} s, {each:.2f} us a piece, "
                  f"peak {peak / 1e6:.0f} MB; without the pieces {alone:.2f} s")
            print(" ", out)


main()
