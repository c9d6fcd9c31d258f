#!/bin/sh
# Prints what hb_conn does with DATA, small frames and requests, and nghttp2's session beside it in the same run, with what
# memcpy does, the best of three; and the peak memory of 100 connections that hold what a hostile peer can make them hold.
# Wants gcc and Debian's libnghttp2-dev. The program is proved and built in a copy of the crates, with what checks kept of
# them in out/ where there is any.
set -eu
top=$(cd "$(dirname "$0")/../.." && pwd)
copy=$(mktemp -d)
trap 'rm -rf "$copy"' EXIT
crates="hb_base hb_hpack hb_frames hb_windows hb_map hb_streams hb_flow hb_outgoing hb_blocks hb_owed hb_conn"
mkdir "$copy/crates"
for crate in $crates; do
    cp -a "$top/crates/$crate" "$copy/crates/"
    grep "^$crate:" "$top/crates.txt" >> "$copy/crates.txt"
done
echo 'connection_bench: hb_base hb_hpack hb_streams hb_conn' >> "$copy/crates.txt"
mkdir -p "$copy/crates/connection_bench/src"
cp "$top/bench/speed/connection_main.rt.in" "$copy/crates/connection_bench/src/main.rt"
gcc -O2 -o "$copy/nghttp2" "$top/bench/speed/connection_nghttp2.c" -lnghttp2
cd "$copy"
git init -q
cd crates/connection_bench
rt run > "$copy/log" 2>&1 || { cat "$copy/log"; exit 1; }
python3 "$top/bench/speed/connection_figures.py" out/connection_bench "$copy/nghttp2"
