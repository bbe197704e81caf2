"""What a check is made of: a `serve` with its objects, clients and backends, and what is wanted of their replies."""
import contextlib
import functools
import subprocess
import time
import unittest

from .inputs import gateway_object, head, line
from .scripted import PHRASES, objects_of
from .serving import backend_lines, gateward
from .talking import backend, get, talk

# What is to come at once has so many seconds.
SOON = 10


def reply(code, body="", field=""):
    """A reply with this field before its length, or with none."""
    phrase = (PHRASES | {200: "OK", 404: "Not Found", 405: "Method Not Allowed", 422: "Unprocessable Content"})[code]
    return ("HTTP/1.1 %d %s\r\n%scontent-length: %d\r\n\r\n%s" % (code, phrase, field and field + "\r\n", len(body), body)).encode()


def closing(data):
    """The same reply where it is the last of its connection."""
    return data.replace(b"\r\n\r\n", b"\r\nconnection: close\r\n\r\n", 1)


def refused(code):
    """The reply to a request that is refused, which ends its connection."""
    return closing(reply(code))


def fault(name):
    """The reply to a request whose backend failed so."""
    return reply(502, field="x-gateward-fault: " + name)


HOST = "x.example.com"
ASKED = get(HOST, "/a")
OK, NOT_FOUND = reply(200, "ok"), reply(404)
HEALTH = get(HOST, "/healthz")
HEALTHY = reply(200, "ok\n")


def becomes(is_so, seconds=SOON):
    """Whether something is so within so many seconds."""
    limit = time.monotonic() + seconds
    while not is_so() and time.monotonic() < limit:
        time.sleep(0.02)
    return is_so()


def long(check):
    """Marks a check that waits for as long as `serve` does before it gives up."""
    check.is_long = True
    return check


def each_form(check):
    """Marks a check that is made twice: with workers that serve one connection after another, and, as NAME_polled, with those that poll theirs. It is
    given the options of `serve`."""
    check.is_of_each_form = True
    return check


def of_form(check, options):
    @functools.wraps(check)
    def made(self):
        check(self, options)
    return made


def post(body, path="/a", field=""):
    """A request with a body, and with this field before its length, or with none."""
    head_ = "POST %s HTTP/1.1\r\nHost: %s\r\n%sContent-Length: %d\r\n\r\n" % (path, HOST, field and field + "\r\n", len(body))
    return head_.encode() + body


def route_to(services, name="r", hostnames=None, filters=None):
    """The event of a Route for all paths, with backends of equal weight."""
    rule = {"backendRefs": [{"name": service, "port": 80} for service in services]}
    rule |= {"filters": filters} if filters else {}
    spec = {"parentRefs": [{"name": "g"}], "rules": [rule]} | ({"hostnames": hostnames} if hostnames else {})
    return line("ADDED", gateway_object("HTTPRoute", name, spec))


def gone(kind, name):
    """The event by which an object of the Gateway API goes."""
    return line("DELETED", gateway_object(kind, name, {}))


def answering(data):
    """A backend that gives these bytes behind the request of each of its connections."""
    def answer(client):
        client.message()
        client.send(data)
    return backend(answer)


@contextlib.contextmanager
def served(data=OK, options=(), workers=1):
    """A `serve` all of whose requests come to one backend, which gives these bytes."""
    with answering(data) as port, gateward(workers, options=options) as serving:
        serving.change(objects_of(port))
        yield serving


def several(serving, ports):
    """Gives `serve` a Route for each backend's name, for the host of that name."""
    serving.change(head() + "".join(backend_lines(*one) for one in ports.items()))
    serving.change("".join(route_to([name], name, [host_at(name)]) for name in ports))


def host_at(name):
    return name + ".example.com"


class Check(unittest.TestCase):
    """What checks are methods of, and what they want of replies."""

    def __init_subclass__(cls):
        for name, check in list(vars(cls).items()):
            if hasattr(check, "is_of_each_form"):
                setattr(cls, name, of_form(check, []))
                setattr(cls, name + "_polled", of_form(check, ["--polled"]))

    def ends(self, client, before=b"", how="closed"):
        """The other side ends the connection so, behind these bytes."""
        self.assertEqual(client.end(SOON), (how, before))

    def comes(self, client, wanted):
        """These bytes come next."""
        client.connection.settimeout(SOON)
        try:
            self.assertEqual(client.take(len(wanted)), wanted)
        except TimeoutError:
            self.fail("only this comes: %r" % client.held)

    def answers(self, client, data, wanted):
        """What is sent gets these bytes."""
        client.send(data)
        self.comes(client, wanted)

    def is_served(self, serving, wanted=OK, data=ASKED):
        """A new client is served so, on a connection of its own."""
        with talk(serving.port) as client:
            self.answers(client, data, wanted)

    def settles(self, serving, descriptors):
        """No descriptor is kept: it has as many as before, once what ended is closed."""
        self.assertTrue(becomes(lambda: serving.descriptors() <= descriptors), "%d descriptors, before %d" % (serving.descriptors(), descriptors))

    def exits(self, process, code, seconds=SOON):
        """A process ends by itself with this exit code."""
        try:
            self.assertEqual(process.wait(seconds), code)
        except subprocess.TimeoutExpired:
            self.fail("the program hasn't ended within %d seconds" % seconds)
