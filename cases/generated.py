#!/usr/bin/env python3
"""The scripts of `generate`, and the last lines of their runs, by the definitions of the generator and of the script's lines alone.

  ../generated.py script|summary SEED ROUTES REQUESTS..

The generator is PCG32 (XSH RR 64/32) as its reference code has it, with the seed that `rand_core` of Rust makes of a number.
"""
import json
import sys

MASK = (1 << 64) - 1
MULTIPLIER = 6364136223846793005
# How `rand_core` steps from one word of a seed to the next.
SEED_INCREMENT = 11634580027462260723

OBJECTS = """
event {"type":"ADDED","object":{"apiVersion":"gateway.networking.k8s.io/v1","kind":"GatewayClass","metadata":{"name":"c"},"spec":{"controllerName":"gateward.example/controller"}}}
event {"type":"ADDED","object":{"apiVersion":"gateway.networking.k8s.io/v1","kind":"Gateway","metadata":{"name":"g"},"spec":{"gatewayClassName":"c","listeners":[{"name":"http","port":80,"protocol":"HTTP"}]}}}
event {"type":"ADDED","object":{"apiVersion":"v1","kind":"Service","metadata":{"name":"s"},"spec":{"ports":[{"port":80}]}}}
event {"type":"ADDED","object":{"apiVersion":"discovery.k8s.io/v1","kind":"EndpointSlice","metadata":{"name":"s-1","labels":{"kubernetes.io/service-name":"s"}},"addressType":"IPv4","ports":[{"port":8080}],"endpoints":[{"addresses":["10.0.0.1"]}]}}
"""


def output(state):
    word = (((state >> 18) ^ state) >> 27) & 0xFFFFFFFF
    turn = state >> 59
    return ((word >> turn) | (word << (32 - turn))) & 0xFFFFFFFF


def words(seed):
    """The words of the generator of a seed."""
    parts = []
    for _ in range(4):
        seed = (seed * MULTIPLIER + SEED_INCREMENT) & MASK
        parts.append(output(seed))
    increment = parts[2] | parts[3] << 32 | 1
    state = ((parts[0] | parts[1] << 32) + increment) & MASK
    while True:
        state = (state * MULTIPLIER + increment) & MASK
        yield output(state)


def route(i, digit):
    match = {"path": {"type": "PathPrefix", "value": f"/p{digit}"}}
    rule = {"backendRefs": [{"name": "s", "port": 80}], "matches": [match]}
    spec = {"hostnames": [f"h{i}.example.com"], "parentRefs": [{"name": "g"}], "rules": [rule]}
    value = {"apiVersion": "gateway.networking.k8s.io/v1", "kind": "HTTPRoute", "metadata": {"name": f"r{i}"}, "spec": spec}
    return json.dumps({"type": "ADDED", "object": value}, sort_keys=True, separators=(",", ":"))


def script(seed, routes, requests):
    drawn = words(seed)
    lines = OBJECTS.strip().split("\n")
    digits = []
    for i in range(routes):
        digits.append(next(drawn) % 10)
        lines.append("event " + route(i, digits[i]))
        if (i + 1) % 100 == 0 or i + 1 == routes:
            lines.append("publish")
    for j in range(requests):
        if j % 500 == 0:
            lines.append(f"open c{j // 500} 0 0")
        i = next(drawn) % routes
        host = "nobody.example.org" if j % 8 == 7 else f"h{i}.example.com"
        text = f"GET /p{digits[i]}/q{j} HTTP/1.1\r\nHost: {host}\r\n\r\n"
        lines.append(f"send c{j // 500} {json.dumps(text)}")
        if j % 500 == 499 or j + 1 == requests:
            lines.append(f"end c{j // 500}")
    return lines


def summary(_seed, routes, requests):
    """Each Route is a change, and so are the four objects; each eighth request is for a hostname of no Route."""
    absent = requests // 8
    statuses = {"200": requests - absent, "404": absent}
    statuses = {code: count for code, count in statuses.items() if count}
    totals = {"changes": 4 + routes, "front": 4 + routes, "refused": 0, "requests": requests, "skipped": 0, "statuses": statuses}
    return [json.dumps(totals, separators=(",", ":"))]


def main():
    lines_of = {"script": script, "summary": summary}[sys.argv[1]]
    numbers = [int(number) for number in sys.argv[2:]]
    for at in range(0, len(numbers), 3):
        for line in lines_of(*numbers[at:at + 3]):
            print(line)


main()
