# What the samples over real sockets share: plain_door.sh and outbound_door.sh source it, with the word that they were given.
# `run` shows a command and runs it, `start` begins one that goes on until the sample ends, `say` tells what comes.
set -eu
cd "$(dirname "$0")/.."
hbone=${1:-crates/hbone/out/hbone}
control=127.0.0.10:15010
room=$(mktemp -d)
begun=
trap 'kill $begun 2> /dev/null || :; wait; rm -rf "$room"' EXIT
trap 'exit 1' INT TERM
export PYTHONDONTWRITEBYTECODE=1 PYTHONUNBUFFERED=1
[ -x "$hbone" ] || { echo "there is no $hbone: .ci/run leaves it there; or name another program"; exit 1; }

say() {
    printf '\n# %s\n' "$*"
}

run() {
    printf '$ %s\n' "$*"
    "$@" || :
    # the notes of the program come in between
    sleep 0.3
}

start() {
    printf '$ %s &\n' "$*"
    "$@" &
    begun="$begun $!"
}

# The control plane tells the file mesh.yaml of the room to so many nodes.
control_plane() {
    /usr/bin/python3 examples/control_plane.py "$control" "$room/mesh.yaml" > "$room/told" &
    begun="$begun $!"
    for _ in 1 2 3 4 5 6 7 8 9 10; do
        sleep 0.2
        ! python3 -c "import socket; socket.create_connection(('${control%:*}', ${control#*:}))" 2> /dev/null || return 0
    done
    echo "no control plane at $control"
    exit 1
}

# So many responses were told.
told() {
    for _ in $(seq 50); do
        [ "$(grep -c response "$room/told")" -lt "$1" ] || { sleep 0.2; return 0; }
        sleep 0.1
    done
    echo "the control plane told no $1 responses:"
    cat "$room/told"
    exit 1
}
