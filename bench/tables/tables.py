#!/usr/bin/python3
"""Compares the tables of tests that scripts here print with the files in which they stand, and names those that differ, and those that
no test plays. A table whose script lacks a package is not compared, and named. The scripts run side by side, one on each processor.

usage: bench/tables/tables.py        (all are compared after `apt-get install libnghttp2-14 python3-h2 python3-hpack python3-hyperframe
                              python3-protobuf protobuf-compiler`)
"""

import concurrent.futures
import os
import pathlib
import re
import shutil
import subprocess
import sys
import tempfile

TOP = pathlib.Path(__file__).resolve().parents[2]

# Each script, the crate, and the file of it that the script prints, whole or as a part.
WHOLE = [
    ("hpack_vectors.py", "hb_http2_rows", "hpack_vectors.rt"),
    ("streams.py", "hb_streams_rows", "rows.rt"),
    ("conversations.py", "hb_conn_rows", "conversation_rows.rt"),
    ("ip_rows.py", "hb_records_rows", "ips.rt"),
    ("front_rows.py", "hb_tunnels_rows", "front_rows.rt"),
    ("record_rows.py", "hb_records_rows", "spelled.rt"),
    ("request_rows.py", "hb_resources_rows", "written.rt"),
    ("lines_rows.py", "hb_resources_rows", "lines_told.rt"),
    ("route_rows.py", "hb_tunnels_rows", "route_rows.rt"),
    ("lives_rows.py", "hb_lives_rows", "octets.rt"),
]
# Each script, and the table of runs in tests/ that it prints
RUNS = [
    ("answer_rows.py", "check/answers"),
    ("policy_rows.py", "check/policies"),
    ("attribute_rows.py", "check/attributes"),
    ("explain_rows.py", "check/explained"),
    ("way_rows.py", "route/ways"),
    ("mesh_rows.py", "route/meshes"),
    ("refusal_rows.py", "show/refusals"),
    ("show_rows.py", "show/shows"),
    ("fields_rows.py", "show/fields"),
    ("replay_rows.py", "replay/control"),
    ("tunnel_rows.py", "replay/inbound"),
    ("modelled_rows.py", "replay/modelled"),
    ("plain_rows.py", "replay/plain"),
    ("outbound_rows.py", "replay/outbound"),
    ("gateway_rows.py", "replay/gateways"),
    ("make_rows.py", "make/made"),
]
# Each script, and the frames in tests/ that it prints; `.ci/sockets` names those that no row plays
FRAMES = [("serve_rows.py", "tests/sockets/serve.frames")]
PARTS = [("frame_vectors.py", "hb_http2_rows", "frame_vectors.rt"), ("verdict_rows.py", "hb_tunnels_rows", "requests.rt")]


LACKS = re.compile(r"No module named '([\w.]+)'|No such file or directory: '(protoc)'|(libnghttp2\S*): cannot open shared object file")


def printed_by(script):
    """What the script prints; or None and what isn't here that it needs."""
    ran = subprocess.run([sys.executable, TOP / "bench/tables" / script], capture_output=True, text=True)
    lacks = LACKS.search(ran.stderr) if ran.returncode else None
    if ran.returncode and not lacks:
        raise SystemExit(f"tables: {script} failed:\n{ran.stderr}")
    return (None, next(filter(None, lacks.groups()))) if lacks else (ran.stdout, None)


def laid_out(text, crate, file):
    """The text as `rt fmt` lays it out in its crate."""
    with tempfile.TemporaryDirectory() as room:
        folder = pathlib.Path(room) / "crates" / crate
        shutil.copytree(TOP / "crates" / crate / "src", folder / "src")
        shutil.copy(TOP / "crates.txt", room)
        (folder / "src" / file).write_text(text)
        subprocess.run(["git", "init", "-q"], cwd=room, check=True)
        subprocess.run(["rt", "fmt"], cwd=folder, check=True, stdout=subprocess.DEVNULL)
        return (folder / "src" / file).read_text()


def is_same(script, crate, file, printed):
    stands = (TOP / "crates" / crate / "src" / file).read_text()
    if (script, crate, file) in WHOLE:
        return stands == laid_out(printed, crate, file)
    return bool(printed) and printed in stands


def unplayed(crate, file):
    """The tables of a printed file that no other file of its crate names."""
    folder = TOP / "crates" / crate / "src"
    others = "\n".join(other.read_text() for other in folder.glob("*.rt") if other.name != file)
    return [name for name in re.findall(r"^pub const (\w+)", (folder / file).read_text(), re.M) if not re.search(rf"\b{name}\b", others)]


def is_told_same(script, printing, path, is_file):
    """Tells whether a file is what its script prints; it counts as the same where the script lacks a package."""
    printed, lacks = printing.result()
    same = printed is None or is_file(printed)
    end = "is what it prints" if same else "DIFFERS from what it prints"
    end = end if printed is not None else f"not compared, since {lacks} isn't here"
    print(f"tables: {script}: {path} {end}", flush=True)
    return same


def main():
    differ = 0
    for _, crate, file in WHOLE:
        for name in unplayed(crate, file):
            print(f"tables: crates/{crate}/src/{file}: no test plays {name}")
            differ += 1
    with concurrent.futures.ThreadPoolExecutor(os.cpu_count()) as pool:
        printing = {script: pool.submit(printed_by, script) for script, *_ in [*RUNS, *FRAMES, *WHOLE, *PARTS]}
        for script, crate, file in WHOLE + PARTS:
            place = f"crates/{crate}/src/{file}"
            differ += not is_told_same(script, printing[script], place, lambda printed: is_same(script, crate, file, printed))
        for script, path in [*((script, f"tests/{name}.runs") for script, name in RUNS), *FRAMES]:
            differ += not is_told_same(script, printing[script], path, lambda printed: (TOP / path).read_text() == printed)
    return 1 if differ else 0


raise SystemExit(main())
