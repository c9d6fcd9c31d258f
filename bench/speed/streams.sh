#!/bin/sh
# Plays every line that bench/tables/streams.py makes through hb_streams, and opens streams of a client until no number is left,
# which takes a minute or two. The program is proved and built in a copy of the crates.
set -eu
top=$(cd "$(dirname "$0")/../.." && pwd)
copy=$(mktemp -d)
trap 'rm -rf "$copy"' EXIT
mkdir "$copy/crates"
for crate in hb_base hb_map hb_streams hb_streams_rows; do
    mkdir "$copy/crates/$crate"
    for part in src specs proofs; do
        if [ -d "$top/crates/$crate/$part" ]; then cp -r "$top/crates/$crate/$part" "$copy/crates/$crate/$part"; fi
    done
done
program="$copy/crates/hb_streams_rows"
rm -r "$program/src/"*.rt "$program/proofs/flow_steps"
cp "$top/crates/hb_streams_rows/src/moves.rt" "$program/src/moves.rt"
cp "$top/bench/speed/streams_main.rt.in" "$program/src/main.rt"
mkdir "$program/proofs/open_all"
cat > "$program/proofs/open_all/Invariants.antt" << 'END'
use Rattle.std.proofs.Common.{◌≡◌}
use Rattle.hb_streams_rows.proofs.open_all.Given as goal

abbrev pub invariant-loop : goal.invariant-loop
invariant-loop l = l.streams.role ≡ l.fn.streams.role
END
grep -E '^hb_(base|map|streams):' "$top/crates.txt" > "$copy/crates.txt"
printf 'hb_streams_rows: hb_base hb_map hb_streams anyhow\n' >> "$copy/crates.txt"
cd "$program"
git init -q "$copy"
python3 "$top/bench/tables/streams.py" all > all.moves
rt run -- all.moves 2> "$copy/log" || { cat "$copy/log"; exit 1; }
out/hb_streams_rows spent
