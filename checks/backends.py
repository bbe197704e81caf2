"""Backends that fail, and what their clients are answered."""
import contextlib
import socket
import time

from support.checking import ASKED, HOST, OK, Check, answering, each_form, fault, host_at, long, post, route_to, several
from support.inputs import gateway_object, head, line
from support.scripted import objects_of
from support.serving import backend_lines, free_port, gateward
from support.talking import LOOPBACK, backend, get, talk

MOST_BODY = 8_388_608

# What a backend gives before it closes its connection, and the fault by which it is answered 502.
CUT_REPLIES = [
    (b"", "Cut"), (b"\r\n", "Cut"), (b"HTTP/1.1 200 OK\r\ncontent-le", "Cut"), (b"HTTP/1.1 200 OK\r\ncontent-length: 9\r\n\r\nabc", "Cut"),
    (b"HTTP/1.1 200 OK\r\ntransfer-encoding: chunked\r\n\r\n3\r\nabc\r\n", "Cut"), (b"HTTP/1.1 100 Continue\r\n\r\n", "Cut"),
    (b"SSH-2.0-x\r\n\r\n", "Head"), (b"HTTP/1.1 101 Switching Protocols\r\n\r\n", "Head"),
    (b"HTTP/1.1 103 Early Hints\r\n\r\n" * 17 + OK, "Head"), (b"HTTP/1.1 200 OK\r\na: " + b"a" * 16_384 + b"\r\n\r\n", "Head"),
    (b"HTTP/1.1 200 OK\r\ncontent-length: 1, 1\r\n\r\na", "Body"), (b"HTTP/1.1 200 OK\r\ntransfer-encoding: chunked\r\n\r\nx\r\n", "Body"),
    (b"HTTP/1.1 200 OK\r\ncontent-length: 1\r\ntransfer-encoding: chunked\r\n\r\n0\r\n\r\n", "Body"),
    (b"HTTP/1.1 200 OK\r\ncontent-length: %d\r\n\r\n" % (MOST_BODY + 1) + b"x" * (MOST_BODY + 1), "TooBig"),
    (b"HTTP/1.1 200 OK\r\n\r\n" + b"x" * (MOST_BODY + 1), "TooBig")]

# What a backend gives before it closes, and what the client is sent.
WHOLE_REPLIES = [
    (b"HTTP/1.1 200 OK\r\n\r\nok", OK), (b"HTTP/1.0 200 OK\r\n\r\nok", OK), (b"HTTP/1.1 103 Early Hints\r\n\r\n" * 16 + OK, OK),
    (b"HTTP/1.1 200 OK\r\ntransfer-encoding: chunked\r\n\r\n1\r\no\r\n1\r\nk\r\n0\r\n\r\n", OK), (OK + b"more", OK),
    (b"HTTP/1.1 204 No Content\r\n\r\n", b"HTTP/1.1 204 No Content\r\n\r\n")]


class Replies(Check):
    def replies(self, options, given):
        """One connection, each of whose requests gets the next of these replies, with one that is well behind each."""
        replies = [reply for reply, _ in given]

        def answer(client):
            path = client.message().line.split()[1]
            with contextlib.suppress(OSError):
                client.send(OK if path == "/well" else replies[int(path[1:])])
        with backend(answer) as port, gateward(options=options) as serving, talk(serving.port) as client:
            serving.change(objects_of(port))
            for number, (reply, wanted) in enumerate(given):
                with self.subTest(reply=reply[:60]):
                    self.answers(client, get(HOST, "/%d" % number), wanted)
                    self.answers(client, get(HOST, "/well"), OK)

    @each_form
    def test_what_is_no_whole_reply(self, options):
        self.replies(options, [(reply, fault(name)) for reply, name in CUT_REPLIES])

    @each_form
    def test_what_is_one(self, options):
        self.replies(options, WHOLE_REPLIES)

    @each_form
    def test_the_largest_body(self, options):
        reply = b"HTTP/1.1 200 OK\r\ncontent-length: %d\r\n\r\n" % MOST_BODY + b"x" * MOST_BODY
        self.replies(options, [(reply, reply)])


class Failing(Check):
    @each_form
    def test_a_backend_that_is_not_there(self, options):
        with answering(OK) as port, gateward(options=options) as serving, talk(serving.port) as client:
            several(serving, {"well": port, "none": free_port()})
            for _ in range(3):
                self.answers(client, get(host_at("none")), fault("Open"))
                self.answers(client, get(host_at("well")), OK)
            self.answers(client, (get(host_at("none")) + get(host_at("well"))) * 3, (fault("Open") + OK) * 3)

    @each_form
    def test_a_backend_that_is_not_reached(self, options):
        """Nobody accepts what waits in its queue, which is full: the fault comes behind five seconds."""
        with socket.socket() as listener, contextlib.ExitStack() as stack:
            listener.bind((LOOPBACK, 0))
            listener.listen(1)
            port = listener.getsockname()[1]
            for _ in range(20):
                waiting = stack.enter_context(socket.socket())
                waiting.setblocking(False)
                waiting.connect_ex((LOOPBACK, port))
            time.sleep(0.2)
            with gateward(options=options) as serving, talk(serving.port) as client:
                serving.change(objects_of(port))
                begin = time.monotonic()
                self.assertEqual(client.ask(ASKED).whole, fault("Open"))
                self.assertTrue(4 < time.monotonic() - begin < 20, time.monotonic() - begin)

    @each_form
    def test_a_backend_that_resets_inside_a_request(self, options):
        """It takes a part of a body of 1 MiB, for the rest of which the system has no room."""
        def answer(client):
            client.take(1000)
            time.sleep(0.2)
            client.reset()
        with small_room(answer) as port, gateward(options=options) as serving, talk(serving.port) as client:
            serving.change(objects_of(port))
            client.send(post(b"x" * 1_048_576))
            self.comes(client, fault("Send"))

    @each_form
    def test_a_backend_that_resets_behind_a_request(self, options):
        def answer(client):
            path = client.message().line.split()[1]
            client.send({"/0": b"", "/1": b"HTTP/1.1 200 OK\r\ncontent-le", "/2": b"HTTP/1.1 200 OK\r\ncontent-length: 9\r\n\r\nabc"}[path])
            time.sleep(0.05)
            client.reset()
        with backend(answer) as port, gateward(options=options) as serving, talk(serving.port) as client:
            serving.change(objects_of(port))
            for path in ("/0", "/1", "/2"):
                self.answers(client, get(HOST, path), fault("Receive"))

    @each_form
    def test_no_backend_is_asked_again(self, options):
        """A request whose exchange fails, or whose reply can't be written, came to its backend once."""
        asked = []

        def answer(client):
            asked.append(client.message().line.split()[1])
            time.sleep(0.2)
            client.reset()
        with backend(answer) as port, gateward(options=options) as serving:
            serving.change(objects_of(port))
            with talk(serving.port) as client:
                self.answers(client, post(b"z", path="/failed"), fault("Receive"))
            with talk(serving.port) as client:
                client.send(post(b"z", path="/reset"))
                time.sleep(0.1)
                client.reset()
            with talk(serving.port) as client:
                self.answers(client, post(b"z", path="/then"), fault("Receive"))
        self.assertEqual(asked, ["/failed", "/reset", "/then"])

    @each_form
    def test_each_backend_in_its_turn(self, options):
        """One that isn't there keeps its share."""
        with answering(OK) as port, gateward(options=options) as serving, talk(serving.port) as client:
            serving.change(head() + backend_lines("one", port) + backend_lines("two", free_port()) + route_to(["one", "two"]))
            codes = [client.ask(ASKED).code() for _ in range(10)]
            self.assertIn(codes, ([200, 502] * 5, [502, 200] * 5))

    @each_form
    def test_each_rule_has_its_own_turns(self, options):
        """Two rules of a Route with the same backends, whose requests come by turns: each rule draws both backends."""
        refs = [{"name": name, "port": 80} for name in ("one", "two")]
        rules = [{"matches": [{"path": {"value": path}}], "backendRefs": refs} for path in ("/a", "/b")]
        route = line("ADDED", gateway_object("HTTPRoute", "r", {"parentRefs": [{"name": "g"}], "rules": rules}))
        with answering(OK) as port, gateward(options=options) as serving, talk(serving.port) as client:
            serving.change(head() + backend_lines("one", port) + backend_lines("two", free_port()) + route)
            codes = [client.ask(get(HOST, path)).code() for path in ("/a", "/b") * 4]
            self.assertEqual([sorted(codes[at:at + 4:2]) for at in (0, 1, 4, 5)], [[200, 502]] * 4)

    @long
    @each_form
    def test_a_silent_backend(self, options):
        """It takes the request, and gives nothing, or a part of a reply: the fault comes behind 30 seconds."""
        def answer(client):
            client.message()
            client.send(b"HTTP/1.1 200 OK\r\n")
            time.sleep(60)
        with backend(answer) as port, gateward(options=options) as serving, talk(serving.port) as client:
            serving.change(objects_of(port))
            begin = time.monotonic()
            client.connection.settimeout(60)
            self.assertEqual(client.ask(ASKED).whole, fault("Receive"))
            self.assertTrue(28 < time.monotonic() - begin < 40, time.monotonic() - begin)

    @long
    @each_form
    def test_a_backend_that_takes_nothing(self, options):
        """It reads nothing of a body of 1 MiB."""
        with small_room(lambda client: time.sleep(90)) as port, gateward(options=options) as serving, talk(serving.port) as client:
            serving.change(objects_of(port))
            begin = time.monotonic()
            client.connection.settimeout(90)
            client.send(post(b"x" * 1_048_576))
            self.assertEqual(client.message().whole, fault("Send"))
            self.assertTrue(28 < time.monotonic() - begin < 80, time.monotonic() - begin)


def small_room(answer):
    """A backend for whose connections the system keeps few bytes that weren't read yet."""
    return backend(answer, room=4096)
