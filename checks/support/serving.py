"""Runs `gateward serve`, and what stands before and behind it."""
import contextlib
import json
import os
import random
import socket
import subprocess
import sys
import time
import urllib.error
import urllib.request
from dataclasses import dataclass

from .inputs import gateway_object, head, line, service
from .program import PROGRAM, environment

# Below the ports that the system gives to connections, so that none of these takes a port that is to be bound.
PORTS = range(12_000, 32_000)


def free_port():
    """A port of 127.0.0.1 at which nobody listens."""
    for port in random.sample(PORTS, 1000):
        with socket.socket() as at, contextlib.suppress(OSError):
            at.bind(("127.0.0.1", port))
            return port
    sys.exit("there is no free port")


def await_port(port, process):
    """Waits until a process takes connections at a port."""
    for _ in range(200):
        with socket.socket() as at:
            if at.connect_ex(("127.0.0.1", port)) == 0:
                return
        if process.poll() is not None:
            break
        time.sleep(0.05)
    sys.exit("nothing listens at %d" % port)


@contextlib.contextmanager
def running(command, port):
    """A process that takes connections at a port, until the end."""
    process = subprocess.Popen(command, stdin=subprocess.DEVNULL, stdout=subprocess.DEVNULL, env=environment(command))
    try:
        await_port(port, process)
        yield process
    finally:
        process.terminate()
        process.wait()


@dataclass
class Gateward:
    """A running `serve`."""
    process: subprocess.Popen
    admin: int
    ports: list

    @property
    def port(self):
        """That of its first door."""
        return self.ports[0]

    def call(self, path, body=None):
        """A reply of the admin endpoint: its code and its lines as JSON."""
        request = urllib.request.Request("http://127.0.0.1:%d%s" % (self.admin, path), data=body)
        try:
            with urllib.request.urlopen(request, timeout=600) as reply:
                return reply.status, [json.loads(text) for text in reply.read().splitlines()]
        except urllib.error.HTTPError as refused:
            return refused.code, [json.loads(text) for text in refused.read().splitlines()]

    def change(self, text):
        """Posts events, none of which may be refused, in bodies that the endpoint takes."""
        lines = text.splitlines(keepends=True)
        while lines:
            count = next((n for n in range(1, len(lines)) if sum(map(len, lines[:n + 1])) > 1_048_576), len(lines))
            code, answers = self.call("/changes", "".join(lines[:count]).encode())
            if code != 200:
                sys.exit("changes: %d, %s" % (code, answers))
            lines = lines[count:]

    def memory(self):
        """How many bytes of memory it has."""
        with open("/proc/%d/status" % self.process.pid) as file:
            return next(int(text.split()[1]) * 1024 for text in file if text.startswith("VmRSS:"))

    def descriptors(self):
        """How many descriptors it has open."""
        return len(os.listdir("/proc/%d/fd" % self.process.pid))


def words_of_serve(admin, doors, workers=1, options=()):
    return [PROGRAM, "serve", *options, "--workers", str(workers), "--admin", "127.0.0.1:%d" % admin, *doors]


def begun(workers, descriptors, options, gates):
    """A `serve` that is ready, for these ports of Gateways, at ports that nobody else took meanwhile."""
    for _ in range(5):
        admin, *ports = [free_port() for _ in range(len(gates) + 1)]
        doors = ["%s=127.0.0.1:%d" % door for door in zip(gates, ports)]
        command = words_of_serve(admin, doors, workers, options)
        process = subprocess.Popen(["prlimit", "--nofile=%d" % descriptors] + command, stdin=subprocess.DEVNULL, stdout=subprocess.PIPE,
                                   env=environment(command))
        said = process.stdout.readline()
        if said == b'{"ready":true}\n':
            return Gateward(process, admin, ports)
        process.kill()
        process.communicate()
        if said != b'{"fault":"bind"}\n':
            break
    sys.exit("serve says %s" % said)


@contextlib.contextmanager
def gateward(workers=1, descriptors=1024, options=(), doors=("default/g:80",)):
    """A ready `serve` with a door for each of these ports of Gateways, until the end. It has no objects yet, and may have so many descriptors."""
    serving = begun(workers, descriptors, options, doors)
    try:
        yield serving
    finally:
        serving.process.terminate()
        serving.process.communicate()


def host_of(number):
    return "h%d.example.com" % number


def route_line(number, service_name="s"):
    """A Route for a hostname of its own."""
    rule = {"matches": [{"path": {"type": "PathPrefix", "value": "/"}}], "backendRefs": [{"name": service_name, "port": 80}]}
    return line("ADDED", gateway_object("HTTPRoute", "r%07d" % number, {
        "hostnames": [host_of(number)], "parentRefs": [{"name": "g"}], "rules": [rule]}))


def backend_lines(name, port):
    """A Service and its one endpoint, 127.0.0.1:port."""
    return service(name) + line("ADDED", {
        "apiVersion": "discovery.k8s.io/v1", "kind": "EndpointSlice", "addressType": "IPv4",
        "metadata": {"name": name + "-1", "namespace": "default", "labels": {"kubernetes.io/service-name": name}},
        "ports": [{"name": "", "port": port, "protocol": "TCP"}], "endpoints": [{"addresses": ["127.0.0.1"]}]})


def objects(routes, port):
    """A Gateway, so many Routes to one Service, and its endpoint at a port."""
    return head() + backend_lines("s", port) + "".join(route_line(number) for number in range(routes))
