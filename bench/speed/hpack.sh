#!/bin/sh
# Prints how fast hb_hpack reads header blocks, plain and in Huffman code, and nghttp2's inflater beside it: user time,
# the best of five runs. Wants gcc and Debian's libnghttp2-dev. The program is proved and built in a folder of its own.
set -e
top=$(cd "$(dirname "$0")/../.." && pwd)
work=$(mktemp -d)
trap 'rm -r "$work"' EXIT
mkdir "$work/crates"
for crate in hb_base hb_hpack; do
    mkdir "$work/crates/$crate"
    for part in src specs proofs; do
        if [ -d "$top/crates/$crate/$part" ]; then cp -r "$top/crates/$crate/$part" "$work/crates/$crate/$part"; fi
    done
done
mkdir -p "$work/crates/hpack_bench/src"
cp "$top/bench/speed/hpack_main.rt.in" "$work/crates/hpack_bench/src/main.rt"
printf 'hb_base: thiserror\nhb_hpack: hb_base thiserror\nhpack_bench: hb_hpack anyhow\n' > "$work/crates.txt"
python3 "$top/bench/speed/hpack_stream.py" "$work"
gcc -O2 -o "$work/nghttp2" "$top/bench/speed/hpack_nghttp2.c" -lnghttp2
(cd "$work/crates/hpack_bench" && rt run > "$work/log" 2>&1) || { cat "$work/log"; exit 1; }
python3 "$top/bench/speed/hpack_time.py" "$work/plain.blocks" "$work/huffman.blocks" "$work/indexes.blocks" -- \
    hb_hpack "$work/crates/hpack_bench/out/hpack_bench" nghttp2 "$work/nghttp2"
