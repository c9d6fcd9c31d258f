#!/bin/sh
# Runs a program whose standard input stays open until SIGTERM, SIGINT or SIGHUP comes, and ends with its status.
# usage: examples/until_signal.sh hbone serve .. --stop-on-input
pipe=$(mktemp -u) && mkfifo -m 600 "$pipe" && exec 3<> "$pipe" && rm "$pipe" || exit 1
trap 'exec 3>&-; again=1' TERM INT HUP
"$@" < /dev/fd/3 3>&- &
while again=; wait $!; status=$?; [ "$again" ]; do :; done
exit $status
