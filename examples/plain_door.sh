#!/bin/sh
# The plain door over real sockets, in some seconds: a connection that a policy admits by its address, one that it refuses, and one that an
# update of the policy ends. No TLS and no front is needed; examples/captured.py plays what captures connections.
# usage: examples/plain_door.sh [PROGRAM]      (crates/hbone/out/hbone; needs Debian's python3-grpcio and python3-yaml)
. "$(dirname "$0")/sample.sh"

cat > "$room/mesh.yaml" <<'YAML'
workloads:
  - {uid: cluster/web, name: web, namespace: a, addresses: [127.0.0.31], node: n1, authorization_policies: [a/callers]}
policies:
  - name: callers
    namespace: a
    scope: WORKLOAD_SELECTOR
    action: ALLOW
    rules: [{clauses: [{matches: [{source_ips: [127.0.0.21/32]}]}]}]
YAML
control_plane
start "$hbone" serve --node n1 --id z1 --discovery "$control" --plain 127.0.0.11:15006
start examples/echo.py 127.0.0.31:8080
told 2

say "The policy admits the address 127.0.0.21. What the workload sends back is printed, and then the two notes of the proxy."
echo hello | run examples/captured.py 127.0.0.11:15006 127.0.0.21:40000 127.0.0.31:8080

say "It refuses 127.0.0.22: the connection is reset without a byte, and the note says 401."
echo hello | run examples/captured.py 127.0.0.11:15006 127.0.0.22:40000 127.0.0.31:8080

say "At 127.0.0.32 no workload of node n1 is known: 404."
echo hello | run examples/captured.py 127.0.0.11:15006 127.0.0.21:40000 127.0.0.32:8080

say "An edit of the policy ends an open connection."
{
    echo one
    sleep 1
    sed -i s,127.0.0.21,127.0.0.99, "$room/mesh.yaml"
    told 3
    echo two
    sleep 1
} | run examples/captured.py 127.0.0.11:15006 127.0.0.21:40000 127.0.0.31:8080
