"""Connections out of the node through waypoints that a case plays."""

from case import case, payload
from gateways import both_end, closed, talks
from peers import ADDRESS, CALLER, HERE, SERVICE, SOURCE
from peers import far_mesh, free_port, header, resources_of, wanted, workload

# Where the pods of a waypoint are; the first has the smaller name
PODS = ["127.0.0.61", "127.0.0.62"]
LET_IN, REFUSED, NO_WAY = [f"verdict {status} {SOURCE} - {SERVICE}:80" for status in (200, 502, 503)]


def by_hostname(port, hostname="way.a"):
    return {"hostname": {"namespace": "a", "hostname": hostname}, "hbone_mtls_port": port}


def by_address(address, network=""):
    return {"address": {"network": network, "address": address}}


def behind(in_front, pods=PODS, status="HEALTHY", **of_far):
    """The mesh of gateways, whose service is behind a waypoint, and the pods of that: workloads of a service a/way.a."""
    resources = far_mesh(CALLER, **of_far)
    pods = [workload(at, f"p{number}", node="n2", services={"a/way.a": []}, status=status) for number, at in enumerate(pods, 1)]
    web = {"name": "web", "namespace": "a", "hostname": "web.a", "addresses": [{"address": SERVICE}], "ports": [{"service_port": 80}]}
    more = resources_of({"workloads": pods, "services": [{**web, **({"waypoint": in_front} if in_front else {})}]})
    resources[ADDRESS].update(more[ADDRESS])
    return resources


def outbound(room, resources, port=15008):
    """The program with an outbound door alone."""
    room.start("--hbone-port", str(port), resources=resources, outbound=free_port())


def let_in(room, gateway, host=SERVICE):
    """A captured connection, the link that is made for it, and its stream there, which the waypoint answers by 200."""
    client = room.captured(80, host)
    link = gateway.link()
    stream = link.request()
    link.answer(stream)
    return client, link, stream


@case
def a_service_through_a_waypoint(room):
    """A service behind a waypoint, by its hostname and its port: the header has the source, the pod and the source's identity, the request
    the service's address, which was meant; bytes go both ways, and both ends."""
    gateway = room.gateway(host=PODS[0])
    outbound(room, behind(by_hostname(gateway.port)))
    client, link, stream = let_in(room, gateway)
    wanted("the header", link.front, header((SOURCE, 0), (PODS[0], gateway.port), CALLER))
    wanted("the request", link.asked[stream], [(":method", "CONNECT"), (":authority", f"{SERVICE}:80")])
    talks(client, link, stream, payload(100_000))
    both_end(client, link, stream)
    room.proxy.noted(LET_IN, "end done up 100000 down 100000")


@case
def a_workload_through_a_waypoint(room):
    """A workload behind a waypoint, by the address of that and at the port of all gateways: the request has the workload's address. A
    service, which is behind none, is reached at the same workload by its own gateway."""
    gateway = room.gateway(host=PODS[0])
    outbound(room, behind(None, waypoint=by_address(PODS[0])), gateway.port)
    client, link, stream = let_in(room, gateway, HERE)
    wanted("the header", link.front, header((SOURCE, 0), (PODS[0], gateway.port), CALLER))
    wanted("the request", link.asked[stream], [(":method", "CONNECT"), (":authority", f"{HERE}:80")])
    talks(client, link, stream)
    both_end(client, link, stream)
    straight = room.gateway(port=gateway.port)
    client, link, stream = let_in(room, straight)
    wanted("the request for the service", link.asked[stream], [(":method", "CONNECT"), (":authority", f"{HERE}:8080")])
    talks(client, link, stream)
    room.proxy.noted(f"verdict 200 {SOURCE} - {HERE}:80", "end done up 5 down 5", LET_IN)


@case
def two_pods_of_a_waypoint(room):
    """A waypoint of two pods: the first connection goes to the one of the smaller name, the second to the other, and the one behind a first
    that ended to the first again, on the link that stayed."""
    first = room.gateway(host=PODS[0])
    second = room.gateway(host=PODS[1], port=first.port)
    outbound(room, behind(by_hostname(first.port)))
    one, link, stream = let_in(room, first)
    other, other_link, other_stream = let_in(room, second)
    talks(one, link, stream)
    talks(other, other_link, other_stream)
    both_end(one, link, stream)
    link.rest(0.1)
    third = room.captured(80, SERVICE)
    stream = link.request(2)
    link.answer(stream)
    talks(third, link, stream)
    talks(other, other_link, other_stream)
    wanted("one more link", (first.waits(), second.waits()), (False, False))


@case
def a_waypoint_that_refuses(room):
    """A waypoint that answers 503: the connection is closed without a byte, and the next one goes by the same link."""
    gateway = room.gateway(host=PODS[0])
    outbound(room, behind(by_hostname(gateway.port), PODS[:1]))
    client = room.captured(80, SERVICE)
    link = gateway.link()
    link.answer(link.request(), 503, end=True)
    closed(link, client)
    client = room.captured(80, SERVICE)
    stream = link.request(2)
    link.answer(stream)
    talks(client, link, stream)
    room.proxy.noted(REFUSED, LET_IN)


@case
def a_waypoint_that_goes(room):
    """Updates that take a waypoint's pods, or its leave to be one: a tunnel through it goes on; those that come meanwhile are closed without
    a byte, with 503 and without a dial; once it is there again they go through, on the link that stayed."""
    gateway = room.gateway(host=PODS[0])
    there = behind(by_hostname(gateway.port), PODS[:1])
    outbound(room, there)
    client, link, stream = let_in(room, gateway)
    talks(client, link, stream)
    others = [behind(by_hostname(gateway.port), []), behind(by_hostname(gateway.port), PODS[:1], status="UNHEALTHY"),
              behind(by_hostname(gateway.port, "no.a"), PODS[:1]), behind(by_address(PODS[0], "far"), PODS[:1])]
    for resources in others:
        room.update(resources)
        closed(link, room.captured(80, SERVICE))
        talks(client, link, stream)
    wanted("a link more", gateway.waits(), False)
    room.update(there)
    late = room.captured(80, SERVICE)
    late_stream = link.request(2)
    link.answer(late_stream)
    talks(late, link, late_stream)
    both_end(client, link, stream)
    room.proxy.noted(LET_IN, *[NO_WAY] * len(others), LET_IN, "end done up 25 down 25")


@case
def a_waypoint_at_which_nobody_listens(room):
    """A waypoint that can't be dialled: the connection is closed without a byte, with 502, and the service's own endpoint gets nothing."""
    endpoint = room.gateway()
    outbound(room, behind(by_hostname(free_port()), PODS[:1]), endpoint.port)
    for _ in range(3):
        closed(None, room.captured(80, SERVICE))
    wanted("a link to the endpoint", endpoint.waits(), False)
    room.proxy.noted(*[REFUSED] * 3)
