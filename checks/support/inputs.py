"""Inputs of the program, of objects as an API server writes them."""
import json
import random

DOOR = "default/g:80=127.0.0.1:18080"
API = "gateway.networking.k8s.io/v1"


def line(sort, object_):
    return json.dumps({"type": sort, "object": object_}, separators=(",", ":")) + "\n"


def gateway_object(kind, name, spec):
    return {"apiVersion": API, "kind": kind, "metadata": {"name": name}, "spec": spec}


def head(listeners=1):
    """A class, and a Gateway with so many listeners, to each of which the Routes are attached."""
    listed = [{"name": "http-%d" % n, "port": 80 + n, "protocol": "HTTP"} for n in range(listeners)]
    return line("ADDED", gateway_object("GatewayClass", "c", {"controllerName": "gateward.example/controller"})) + line(
        "ADDED", gateway_object("Gateway", "g", {"gatewayClassName": "c", "listeners": listed}))


HEAD = head()


def route(name, rules=None, service_name="s"):
    """A Route as an API server writes it."""
    return line("MODIFIED", {
        "apiVersion": API, "kind": "HTTPRoute",
        "metadata": {"creationTimestamp": "2024-05-01T10:00:00Z", "generation": 2, "managedFields": [{"manager": "kubectl"}],
                     "name": name, "namespace": "default", "resourceVersion": "912", "uid": "0b7e"},
        "spec": {"hostnames": ["shop.example.com"],
                 "parentRefs": [{"group": "gateway.networking.k8s.io", "kind": "Gateway", "name": "g"}],
                 "rules": rules or [{"backendRefs": [{"group": "", "kind": "Service", "name": service_name, "port": 80, "weight": 1}],
                                     "matches": [{"path": {"type": "PathPrefix", "value": "/"}}]}]},
        "status": {"parents": []}})


def namespace(name):
    """A Namespace with ten labels."""
    return line("ADDED", {"apiVersion": "v1", "kind": "Namespace",
                          "metadata": {"name": name, "labels": {"example.com/label-%d" % n: "value-%d" % n for n in range(10)}}})


def service(name):
    """A Service with one port."""
    return line("ADDED", {"apiVersion": "v1", "kind": "Service", "metadata": {"name": name, "namespace": "default"},
                          "spec": {"clusterIP": "10.96.0.10", "type": "ClusterIP",
                                   "ports": [{"name": "", "port": 80, "protocol": "TCP", "targetPort": 8080}]}})


def endpoint_slice(name, service_name="s", count=100):
    """A slice with so many endpoints."""
    endpoints = [{"addresses": ["10.0.0.%d" % (n + 1)], "conditions": {"ready": True}} for n in range(count)]
    return line("ADDED", {"apiVersion": "discovery.k8s.io/v1", "kind": "EndpointSlice", "addressType": "IPv4",
                          "metadata": {"name": name, "namespace": "default", "labels": {"kubernetes.io/service-name": service_name}},
                          "ports": [{"name": "", "port": 8080, "protocol": "TCP"}], "endpoints": endpoints})


def routes(count, listeners=1):
    """Routes under one Gateway, with a Namespace for each ten of them and a slice for each hundred, in shuffled order."""
    lines = [route("r%07d" % n) for n in range(count)]
    lines += [namespace("n%07d" % n) for n in range(count // 10)]
    lines += [endpoint_slice("s%07d" % n) for n in range(count // 100)]
    random.Random(1).shuffle(lines)
    return head(listeners) + "".join(lines)


def served_routes(count):
    """Routes under one Gateway, each with a Service of its own and a slice of three endpoints, in shuffled order."""
    lines = [route("r%07d" % n, service_name="s%07d" % n) for n in range(count)]
    lines += [service("s%07d" % n) for n in range(count)]
    lines += [endpoint_slice("s%07d-a" % n, "s%07d" % n, 3) for n in range(count)]
    random.Random(1).shuffle(lines)
    return head() + "".join(lines)


def deep_routes(count):
    """Routes of 16 rules of 64 matches each."""
    match = {"path": {"type": "PathPrefix", "value": "/a"}, "headers": [{"name": "version", "value": "one"}], "method": "GET"}
    rules = [{"matches": [match] * 64, "backendRefs": [{"name": "s", "port": 80}]}] * 16
    return HEAD + "".join(route("r%07d" % n, rules) for n in range(count))


def lines_of_64_mib():
    """64 MiB of lines, no byte less: a thousand Routes, each put again and again."""
    text, left = [HEAD], 67_108_864 - len(HEAD)
    n = 0
    while True:
        next_line = route("r%07d" % (n % 1000))
        if left < 2 * len(next_line):
            return "".join(text) + next_line[:-1] + " " * (left - len(next_line)) + "\n"
        text.append(next_line)
        left -= len(next_line)
        n += 1
