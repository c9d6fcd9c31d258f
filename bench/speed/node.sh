#!/bin/sh
# Prints what a node takes for a response of 1,000 workload records that comes in DATA frames of 16,384 octets, with all that it writes
# between; beside it, in the same run, what `read_response` and `Held::apply` take for that response alone, and the ratio. Each round is
# 200 responses of both. The program is proved and built in a copy of the crates.
set -eu
top=$(cd "$(dirname "$0")/../.." && pwd)
copy=$(mktemp -d)
trap 'rm -rf "$copy"' EXIT
mkdir "$copy/crates"
# the libraries of crates.txt down to hb_node, which come before it
sed -n '/^hb_[a-z0-9_]*:/p; /^hb_node:/q' "$top/crates.txt" > "$copy/crates.txt"
for crate in $(sed 's/:.*//' "$copy/crates.txt"); do
    cp -a "$top/crates/$crate" "$copy/crates/"
done
echo 'node_bench: hb_base hb_disco hb_held hb_model hb_node anyhow' >> "$copy/crates.txt"
mkdir -p "$copy/crates/node_bench/src"
cp "$top/bench/speed/node_main.rt.in" "$copy/crates/node_bench/src/main.rt"
python3 "$top/bench/speed/check_input.py" 1 names > "$copy/messages"
PYTHONPATH="$top/bench/tables" python3 - "$copy" <<'PYTHON'
import sys

from spelling import ADDRESS, grpc, span

room = sys.argv[1]
resources = []
with open(room + "/messages", "rb") as messages:
    while len(resources) < 1000:
        message = messages.read(int.from_bytes(messages.read(5)[1:], "big"))
        resources.append(message[: message.rindex(span(4, ADDRESS))])
response = b"".join(resources) + span(4, ADDRESS) + span(5, b"nonce")
stream = grpc(response)
pieces = [stream[at : at + 16384] for at in range(0, len(stream), 16384)]
frames = b"".join(len(piece).to_bytes(3, "big") + bytes([0, 0, 0, 0, 0, 1]) + piece for piece in pieces)
for name, octets in ("response", response), ("frames", frames):
    with open(f"{room}/{name}", "wb") as out:
        out.write(octets)
print(f"a response of {len(response)} bytes, {len(pieces)} DATA frames")
PYTHON
cd "$copy"
git init -q
cd crates/node_bench
rt run > "$copy/log" 2>&1 || { cat "$copy/log"; exit 1; }
out/node_bench "$copy"
