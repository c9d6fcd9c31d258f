#!/bin/sh
# Reads scripts of 60 MB of pieces by the proved reader and by serde_json alone, and prints MB/s of both. It proves and builds the
# program in a copy of the crates.
set -eu
top=$(cd "$(dirname "$0")/../.." && pwd)
copy=$(mktemp -d)
trap 'rm -rf "$copy"' EXIT
mkdir "$copy/crates"
cp -a "$top/crates/hb_base" "$top/crates/hb_world" "$top/crates/hb_script" "$copy/crates/"
mkdir -p "$copy/crates/script_bench/src"
cp "$top/bench/speed/script_main.rt.in" "$copy/crates/script_bench/src/main.rt"
grep -E '^hb_(base|world|script):' "$top/crates.txt" > "$copy/crates.txt"
echo 'script_bench: hb_base hb_world hb_script serde_json' >> "$copy/crates.txt"
cd "$copy"
git init -q
cd crates/script_bench
rt run
