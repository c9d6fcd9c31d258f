#!/bin/sh
# Prints what a connection costs on octets that a hostile peer chose, in instructions, beside nghttp2's session on the same
# octets. Wants gcc, valgrind and Debian's libnghttp2-dev. The program is proved and built in a copy of the crates, with what
# checks kept of them in out/ where there is any.
set -eu
top=$(cd "$(dirname "$0")/../.." && pwd)
copy=$(mktemp -d)
trap 'rm -rf "$copy"' EXIT
crates="hb_base hb_hpack hb_frames hb_windows hb_map hb_streams hb_flow hb_outgoing hb_blocks hb_owed hb_conn"
mkdir "$copy/crates"
for crate in $crates; do
    cp -a "$top/crates/$crate" "$copy/crates/"
    grep "^$crate:" "$top/crates.txt" >> "$copy/crates.txt"
done
echo 'cost_bench: hb_base hb_conn' >> "$copy/crates.txt"
mkdir -p "$copy/crates/cost_bench/src"
cp "$top/bench/speed/cost_main.rt.in" "$copy/crates/cost_bench/src/main.rt"
gcc -O2 -o "$copy/nghttp2" "$top/bench/speed/cost_nghttp2.c" -lnghttp2
cd "$copy"
git init -q
cd crates/cost_bench
rt run > "$copy/log" 2>&1 || { cat "$copy/log"; exit 1; }
python3 "$top/bench/speed/cost_figures.py" out/cost_bench "$copy/nghttp2"
