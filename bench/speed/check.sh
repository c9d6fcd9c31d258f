#!/bin/sh
# Speed and peak memory of `hbone check` and `hbone show` over three inputs of about 60 MB of discovery responses: workloads of 100 distinct
# names; 40 % workloads with services and waypoints, 20 % services and 40 % policies of ten attributes, of 100 names; workloads of 65,536
# names. Beside them, in the same run, a decoder in Rust by prost that drops each record, and one that holds them in an ordered map.
# Prints of each the best of five runs: MB/s of the input in processor time (start included) and by the clock, and peak resident memory.
# usage: bench/speed/check.sh        (after `cd crates/hbone && rt run -- ..`, which proves and builds the program; with Debian's
#        librust-prost-dev the prost lines too)
set -e
cd "$(dirname "$0")/../.."
program=$PWD/crates/hbone/out/hbone
[ -x "$program" ] || { echo "build the program first: cd crates/hbone && rt run -- check < stdin"; exit 1; }
room=$(mktemp -d)
trap 'rm -rf "$room"' EXIT
registry=/usr/share/cargo/registry
if ls -d $registry/prost-0.* > /dev/null 2>&1; then
  mkdir -p "$room/prost/src" "$room/prost/.cargo"
  cp bench/speed/prost_main.rs "$room/prost/src/main.rs"
  printf '[package]\nname = "prost_main"\nversion = "0.1.0"\nedition = "2021"\n[dependencies]\nprost = "0.11"\n' > "$room/prost/Cargo.toml"
  printf '[source.crates-io]\nreplace-with = "debian"\n[source.debian]\ndirectory = "%s"\n' $registry > "$room/prost/.cargo/config.toml"
  (cd "$room/prost" && cargo build -q --release --offline)
fi
for kind in workloads mixed names; do
  python3 bench/speed/check_input.py 60000000 $kind > "$room/input"
  python3 - "$program" "$room" $kind <<'END'
import os, subprocess, sys, time
program, room, kind = sys.argv[1:]
path = room + "/input"
size = os.path.getsize(path) / 1e6
commands = {
    "hbone check": [program, "check", "--node", "n1", "10.0.0.9", "none", "10.0.0.7:8080"],
    "hbone show": [program, "show"],
}
prost = room + "/prost/target/release/prost_main"
if os.path.exists(prost):
    commands["prost, dropped"] = [prost, "decode"]
    commands["prost, in a map"] = [prost, "map"]
for name, words in commands.items():
    runs = []
    for _ in range(5):
        with open(path, "rb") as stdin, open(room + "/out", "wb") as out:
            start = time.monotonic()
            child = subprocess.Popen(words, stdin=stdin, stdout=out)
            _, status, usage = os.wait4(child.pid, 0)
            assert status == 0, name
            runs.append((usage.ru_utime + usage.ru_stime, time.monotonic() - start, usage.ru_maxrss / 1e3))
    spent, took, peak = (min(run[i] for run in runs) for i in range(3))
    print(f"{kind}: {name}: {size:.1f} MB, {size / spent:.0f} MB/s of processor time, {size / took:.0f} by the clock, peak {peak:.0f} MB")
END
done
