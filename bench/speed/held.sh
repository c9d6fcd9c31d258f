#!/bin/sh
# Prints what responses and look-ups cost over resources held: 100 names and 1,000 in one response of each kind, and 65,536 in responses
# of 4,096. Each figure is the least of some rounds by the clock, so work beside it shows little; where valgrind is there, also the
# instructions of the whole program over 1,000 names. It proves and builds the program in a copy of the crates.
# usage: bench/speed/run held [than COMMIT]      (than: with hb_held as it was at that commit, and the responses alone)
set -eu
top=$(cd "$(dirname "$0")/../.." && pwd)
copy=$(mktemp -d)
trap 'rm -rf "$copy"' EXIT
crates="hb_base hb_wire hb_message hb_records hb_disco hb_index hb_held"
mkdir "$copy/crates"
for crate in $crates; do
    cp -a "$top/crates/$crate" "$copy/crates/"
    grep "^$crate:" "$top/crates.txt" >> "$copy/crates.txt"
done
echo 'held_bench: hb_base hb_disco hb_held anyhow' >> "$copy/crates.txt"
mkdir -p "$copy/crates/held_bench/src"
cp "$top/bench/speed/held_main.rt.in" "$copy/crates/held_bench/src/main.rt"
cp "$top/bench/speed/held_looks.rt.in" "$copy/crates/held_bench/src/looks.rt"
if [ "${1-}" = than ]; then
    rm -r "$copy/crates/hb_held"
    git -C "$top" archive "$2" crates/hb_held crates.txt | tar -x -C "$copy" --transform 's|^crates.txt|then.txt|'
    sed -i '/^hb_held:/d' "$copy/crates.txt"
    grep '^hb_held:' "$copy/then.txt" >> "$copy/crates.txt"
    sed -i '/looks/d' "$copy/crates/held_bench/src/main.rt"
    rm "$copy/crates/held_bench/src/looks.rt"
fi
python3 "$top/bench/speed/held_input.py" 100 100 > "$copy/100.responses"
python3 "$top/bench/speed/held_input.py" 1000 1000 > "$copy/1000.responses"
python3 "$top/bench/speed/held_input.py" 65536 4096 > "$copy/65536.responses"
cd "$copy"
git init -q
cd crates/held_bench
rt run -- "$copy"/100.responses "$copy"/1000.responses "$copy"/65536.responses > "$copy/log" 2> "$copy/errors" ||
    { cat "$copy/log" "$copy/errors"; exit 1; }
grep -E '^ |responses$' "$copy/log" | sed "s|$copy/||"
if command -v valgrind > /dev/null; then
    valgrind --tool=callgrind --callgrind-out-file=/dev/null out/held_bench "$copy"/1000.responses 2>&1 | grep Collected
fi
