#!/usr/bin/env python3
"""Times `hbone replay` over scripts of 10,000 and 300,000 pieces of 100 octets on the link to the control plane: responses of
1,000 workloads each, in DATA frames of 16,384 octets. Prints processor seconds, the start of the process included, the best
of three; what a piece costs; and the peak of resident memory beside the script's size.

usage: bench/speed/replay.py [PROGRAM]      (crates/hbone/out/hbone, which the gate leaves)
"""
import os
import pathlib
import subprocess
import sys
import tempfile

sys.path.append(f"{pathlib.Path(__file__).resolve().parents[1]}/tables")
from spelling import ADDRESS, grpc, number, span

WORDS = ["replay", "--node", "n1", "--id", "z1", "--discovery", "10.0.0.1:15010", "--brief"]
PIECE = 100


def frame(kind, flags, stream, payload=b""):
    return len(payload).to_bytes(3, "big") + bytes([kind, flags]) + stream.to_bytes(4, "big") + payload


def workload(i):
    name = b"cluster1//v1/Pod/default/workload-%03d" % i
    record = [span(1, b"workload-%03d" % i), span(2, b"default"), span(3, bytes([10, 0, i // 256, i % 256])), number(5, 1),
              span(7, b"account-%03d" % i), span(9, b"n1"), span(16, b"default/allow-frontend"), span(20, name)]
    any_of = span(1, ADDRESS) + span(2, span(1, b"".join(record)))
    return span(2, span(1, b"1") + span(2, any_of) + span(3, name))


def response():
    """A response of 1,000 workloads in DATA frames."""
    content = grpc(b"".join(workload(i) for i in range(1000)) + span(4, ADDRESS) + span(5, b"x1"))
    return b"".join(frame(0, 0, 1, content[at:at + 16384]) for at in range(0, len(content), 16384))


def write_script(file, pieces):
    """The lines of a link that opens and is answered, and then of so many pieces. They are written as they come: the peak of
    a program that is started counts what its starter held."""
    front = frame(4, 0, 0) + frame(1, 4, 1, b"\x88")
    behind = response()
    many = behind + behind[:PIECE]
    file.write('{"open":1}\n{"wake":true}\n')
    for at in range(0, pieces * PIECE, PIECE):
        if at < len(front):
            piece = (front + behind)[at:at + PIECE]
        else:
            place = (at - len(front)) % len(behind)
            piece = many[place:place + PIECE]
        file.write('{"bytes":"%s","link":1}\n' % piece.hex())
    file.write('{"wake":true}\n')
    file.flush()


def measured(program, path):
    """The status, the report, processor seconds and the peak in bytes of one run."""
    with open(path, "rb") as text:
        process = subprocess.Popen([program, *WORDS], stdin=text, stdout=subprocess.PIPE)
        out = process.stdout.read().decode()
        _, status, usage = os.wait4(process.pid, 0)
    return os.waitstatus_to_exitcode(status), out, usage.ru_utime + usage.ru_stime, usage.ru_maxrss * 1024


def main():
    here = os.path.dirname(os.path.abspath(__file__))
    program = sys.argv[1] if len(sys.argv) > 1 else os.path.join(here, "../../crates/hbone/out/hbone")
    for pieces in (10_000, 300_000):
        with tempfile.NamedTemporaryFile("w", suffix=".script") as file:
            write_script(file, pieces)
            size = os.path.getsize(file.name)
            runs = [measured(program, file.name) for _ in range(3)]
        status, out, _, peak = runs[0]
        seconds = min(run[2] for run in runs)
        print(f"{pieces:,} pieces, {size / 1e6:.1f} MB of script: status {status}, {seconds:.2f} s, "
              f"{seconds / pieces * 1e6:.2f} us a piece, peak {peak / 1e6:.0f} MB ({peak / size:.1f} times the script)")
        print(" ", out.strip())


main()
