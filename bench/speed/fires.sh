#!/bin/sh
# Prints what asking whether a policy fires takes, for 100 and for 1,000 values of one attribute, all of which are looked at. It proves and
# builds the program in a copy of the crates.
set -eu
top=$(cd "$(dirname "$0")/../.." && pwd)
copy=$(mktemp -d)
trap 'rm -rf "$copy"' EXIT
mkdir "$copy/crates"
for crate in hb_base hb_wire hb_message hb_records hb_policy; do cp -a "$top/crates/$crate" "$copy/crates/"; done
mkdir -p "$copy/crates/fires_bench/src" "$copy/policies"
cp "$top/bench/speed/fires_main.rt.in" "$copy/crates/fires_bench/src/main.rt"
grep -E '^hb_(base|wire|message|records|policy):' "$top/crates.txt" > "$copy/crates.txt"
echo 'fires_bench: hb_base hb_records hb_policy anyhow' >> "$copy/crates.txt"
python3 "$top/bench/speed/fires_policies.py" "$copy/policies"
cd "$copy"
git init -q
cd crates/fires_bench
rt run -- "$copy"/policies/*.policy | grep fired | sed "s|$copy/policies/||"
