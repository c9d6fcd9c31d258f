#!/bin/sh
# Plays scripts of 100 to 100,000 links over a script's world, and prints what the calls of a link take. It proves and builds the
# program in a copy of the crates.
set -eu
top=$(cd "$(dirname "$0")/../.." && pwd)
copy=$(mktemp -d)
trap 'rm -rf "$copy"' EXIT
mkdir "$copy/crates"
cp -a "$top/crates/hb_base" "$top/crates/hb_world" "$copy/crates/"
mkdir -p "$copy/crates/world_bench/src"
cp "$top/bench/speed/world_main.rt.in" "$copy/crates/world_bench/src/main.rt"
grep -E '^hb_(base|world):' "$top/crates.txt" > "$copy/crates.txt"
echo 'world_bench: hb_base hb_world' >> "$copy/crates.txt"
cd "$copy"
git init -q
cd crates/world_bench
rt run
