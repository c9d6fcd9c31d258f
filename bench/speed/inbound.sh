#!/bin/sh
# Prints what a node's inbound links cost, without sockets and without an event loop: octets through a tunnel, a tunnel from its request
# to its end, updates of the resources held; each over 1 to 1,024 links; and the memory of 1,024 links and 4,096 tunnels. Wants valgrind.
# The program is proved and built in a copy of the crates, with what checks kept of them in out/ where there is any.
# usage: bench/speed/run inbound [quick]
set -eu
top=$(cd "$(dirname "$0")/../.." && pwd)
copy=$(mktemp -d)
trap 'rm -rf "$copy"' EXIT
mkdir "$copy/crates"
cp "$top/crates.txt" "$copy/"
for crate in $(sed -n 's/^\(hb_[a-z0-9_]*\):.*/\1/p' "$copy/crates.txt"); do
    case $crate in *_rows) ;; *) cp -a "$top/crates/$crate" "$copy/crates/" ;; esac
done
sed -i '/_rows:/d; /^hbone:/d' "$copy/crates.txt"
echo 'inbound_bench: hb_base hb_held hb_model hb_world hb_whole anyhow' >> "$copy/crates.txt"
mkdir -p "$copy/crates/inbound_bench/src" "$copy/input"
for file in main drive peer; do
    cp "$top/bench/speed/inbound_$file.rt.in" "$copy/crates/inbound_bench/src/$file.rt"
done
python3 "$top/bench/speed/inbound_input.py" "$copy/input"
cd "$copy"
git init -q
cd crates/inbound_bench
rt run > "$copy/log" 2>&1 || { cat "$copy/log"; exit 1; }
python3 "$top/bench/speed/inbound_figures.py" out/inbound_bench "$copy/input" "$@"
