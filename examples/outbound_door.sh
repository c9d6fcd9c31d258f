#!/bin/sh
# The outbound door over real sockets, in some seconds: connections of a workload of node n1 to a service, to an address that is no
# workload's, and by a gateway to a workload of node n2, which takes HBONE: there a second program lets them in. Between the two no TLS
# stands, since they write and read the same header; elsewhere two fronts do. examples/captured.py plays what captures connections.
# usage: examples/outbound_door.sh [PROGRAM]      (crates/hbone/out/hbone; needs Debian's python3-grpcio and python3-yaml)
. "$(dirname "$0")/sample.sh"

cat > "$room/mesh.yaml" <<'YAML'
workloads:
  - {uid: cluster/c, name: c, namespace: a, addresses: [127.0.0.21], node: n1, service_account: c}
  - {uid: cluster/d, name: d, namespace: a, addresses: [127.0.0.22], node: n1, service_account: d}
  - uid: cluster/near
    name: near
    namespace: a
    addresses: [127.0.0.31]
    node: n1
    services: {a/near.a.svc: [{service_port: 80, target_port: 8080}]}
  - uid: cluster/far
    name: far
    namespace: a
    addresses: [127.0.0.32]
    node: n2
    tunnel_protocol: HBONE
    authorization_policies: [a/callers]
    services: {a/far.a.svc: [{service_port: 80, target_port: 8080}]}
services:
  - {name: near, namespace: a, hostname: near.a.svc, addresses: [{address: 127.0.0.41}], ports: [{service_port: 80}]}
  - {name: far, namespace: a, hostname: far.a.svc, addresses: [{address: 127.0.0.42}], ports: [{service_port: 80}]}
policies:
  - name: callers
    namespace: a
    scope: WORKLOAD_SELECTOR
    action: ALLOW
    rules: [{clauses: [{matches: [{principals: [{exact: cluster.local/ns/a/sa/c}]}]}]}]
YAML
control_plane
start "$hbone" serve --node n1 --id z1 --discovery "$control" --outbound 127.0.0.11:15001
start "$hbone" serve --node n2 --id z2 --discovery "$control" --inbound 127.0.0.32:15008
start examples/echo.py 127.0.0.31:8080
start examples/echo.py 127.0.0.32:8080
start examples/echo.py 127.0.0.51:9090
told 4

say "To a service, whose endpoint takes no HBONE: straight to 127.0.0.31:8080."
echo hello | run examples/captured.py 127.0.0.11:15001 127.0.0.21:40000 127.0.0.41:80

say "To a port that the service hasn't: reset without a byte, and 503."
echo hello | run examples/captured.py 127.0.0.11:15001 127.0.0.21:40000 127.0.0.41:81

say "To an address that is no workload's and no service's: as it is."
echo hello | run examples/captured.py 127.0.0.11:15001 127.0.0.21:40000 127.0.0.51:9090

say "To a service on node n2: by the gateway at 127.0.0.32:15008, whose notes tell the identity of workload c."
echo hello | run examples/captured.py 127.0.0.11:15001 127.0.0.21:40000 127.0.0.42:80

say "The policy at n2 refuses workload d: the gateway answers 401, and the connection is reset with the note 502."
echo hello | run examples/captured.py 127.0.0.11:15001 127.0.0.22:40000 127.0.0.42:80

say "From an address at which no workload of node n1 is: 503."
echo hello | run examples/captured.py 127.0.0.11:15001 127.0.0.99:40000 127.0.0.41:80
