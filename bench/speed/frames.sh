#!/bin/sh
# Runs 200 MB of DATA frames of 16,384 octets, and 2 million frames of 9 octets, through the proved reader, and
# prints MB/s and frames/s. It proves and builds the program in a copy of the crates.
set -eu
top=$(cd "$(dirname "$0")/../.." && pwd)
copy=$(mktemp -d)
trap 'rm -rf "$copy"' EXIT
mkdir "$copy/crates"
cp -a "$top/crates/hb_base" "$top/crates/hb_frames" "$copy/crates/"
mkdir -p "$copy/crates/frames_bench/src"
cp "$top/bench/speed/frames_main.rt.in" "$copy/crates/frames_bench/src/main.rt"
printf 'hb_base: thiserror\nhb_frames: hb_base thiserror\nframes_bench: hb_frames\n' > "$copy/crates.txt"
cd "$copy"
git init -q
cd crates/frames_bench
rt run
