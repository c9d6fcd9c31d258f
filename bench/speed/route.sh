#!/bin/sh
# Prints what a route costs over 65,536 names, to a service of ten endpoints and of 1,000, to a workload and to an address that nobody has:
# the least of some rounds by the clock, so work beside it shows little. It proves and builds the program in a copy of the crates.
# usage: bench/speed/run route
set -eu
top=$(cd "$(dirname "$0")/../.." && pwd)
copy=$(mktemp -d)
trap 'rm -rf "$copy"' EXIT
mkdir "$copy/crates"
for crate in hb_base hb_wire hb_message hb_records hb_disco hb_index hb_held hb_route; do
    cp -a "$top/crates/$crate" "$copy/crates/"
    grep "^$crate:" "$top/crates.txt" >> "$copy/crates.txt"
done
echo 'route_bench: hb_base hb_disco hb_held hb_route anyhow' >> "$copy/crates.txt"
mkdir -p "$copy/crates/route_bench/src"
cp "$top/bench/speed/held_main.rt.in" "$copy/crates/route_bench/src/main.rt"
cp "$top/bench/speed/route_looks.rt.in" "$copy/crates/route_bench/src/looks.rt"
python3 "$top/bench/speed/held_input.py" 65535 4096 > "$copy/65536.responses"
python3 "$top/bench/speed/route_input.py" >> "$copy/65536.responses"
cd "$copy"
git init -q
cd crates/route_bench
rt run -- "$copy"/65536.responses > "$copy/log" 2> "$copy/errors" || { cat "$copy/log" "$copy/errors"; exit 1; }
grep -E '^ |responses$' "$copy/log" | sed "s|$copy/||"
