"""Clients that are many, slow or silent, that reset, that don't read and that send on, and what others get beside them."""
import contextlib
import time

from support.checking import ASKED, HOST, NOT_FOUND, OK, Check, answering, closing, each_form, long, post, refused, served
from support.scripted import objects_of
from support.serving import gateward
from support.talking import backend, get, talk
from support.tries import Place, chunks, crowded, heads_of_each_kind, opened, place_of, random_at_door, resets, slow, unread

# How long a client may be silent: `serve` gives it up behind 30 seconds, or some more where it polls.
SILENT = (28, 45)

# What is refused, and its reply.
REFUSED = [
    (b"GET /a HTTP/1.1\r\n\r\n", refused(400)),
    (b"POST /a HTTP/1.1\r\nHost: x\r\nContent-Length: 1048577\r\n\r\n", refused(413)),
    (b"POST /a HTTP/1.1\r\nHost: x\r\nTransfer-Encoding: chunked\r\n\r\n100001\r\n" + b"x" * 1_048_577, refused(413)),
    (b"GET /a HTTP/1.1\r\nHost: x\r\nX: " + b"x" * 16_384, refused(431)),
    (b"OPTIONS * HTTP/1.1\r\nHost: x\r\n\r\n", refused(501))]
# So many bytes more are sent behind it.
MORE = 2_000_000


class Sending(Check):
    """A connection that is closed over bytes that weren't read takes back what was written last: no reply may be lost so."""

    @each_form
    def test_a_client_that_sends_on_gets_its_refusal(self, options):
        with gateward(options=options) as serving:
            for data, reply in REFUSED:
                with talk(serving.port) as client:
                    with contextlib.suppress(OSError):
                        client.send(data + b"x" * MORE)
                    self.ends(client, reply)

    @each_form
    def test_a_client_that_sends_on_slowly_gets_its_refusal(self, options):
        with gateward(options=options) as serving:
            for data, reply in REFUSED:
                with talk(serving.port) as client:
                    with contextlib.suppress(OSError):
                        client.send(data)
                        for _ in range(10):
                            time.sleep(0.01)
                            client.send(b"x" * 5000)
                    client.finish()
                    self.ends(client, reply)

    @each_form
    def test_a_client_that_sends_on_gets_its_last_reply(self, options):
        """Behind a request with `close`."""
        with served(options=options) as serving, talk(serving.port) as client:
            with contextlib.suppress(OSError):
                client.send(get(HOST, "/a", close=True) + b"x" * MORE)
            self.ends(client, closing(OK))


    @each_form
    def test_a_client_that_sends_without_end(self, options):
        """Only so much is taken of what comes behind a refusal: then its connection is closed, and the next client is served."""
        with gateward(options=options) as serving:
            before = serving.descriptors()
            with talk(serving.port) as client:
                with self.assertRaises(ConnectionError):
                    for _ in range(1000):
                        client.send(REFUSED[0][0] + b"x" * 100_000)
                self.is_served(serving, NOT_FOUND)
                self.settles(serving, before)

    @each_form
    def test_a_client_that_stays(self, options):
        """It doesn't close its side behind its last reply: the connection is closed all the same."""
        with gateward(options=options) as serving:
            before = serving.descriptors()
            with talk(serving.port) as client:
                client.send(get(HOST, "/a", close=True))
                self.ends(client, closing(NOT_FOUND))
                self.settles(serving, before)
                self.is_served(serving, NOT_FOUND)


class Many(Check):
    @each_form
    def test_three_hundred_at_once(self, options):
        """All are there before the first one asks, with one worker of 256 connections at most that are polled: so two workers."""
        with gateward(2, options=options) as serving, contextlib.ExitStack() as stack:
            clients = [stack.enter_context(talk(serving.port)) for _ in range(300)]
            for client in clients:
                client.send(get(HOST, "/a", close=True))
            for client in clients:
                self.ends(client, closing(NOT_FOUND))
                # Else its worker awaits for two seconds what it still sends.
                client.connection.close()

    @each_form
    def test_hundreds_that_come_and_go(self, options):
        with served(options=options, workers=2) as serving:
            before = serving.descriptors()
            acts = opened(Place(serving, None, bool(options), True))
            self.assertEqual([act for act in acts if act.ended != act.wanted], [])
            self.is_served(serving)
            self.settles(serving, before)

    def test_a_worker_has_256_connections(self):
        """With `--polled`, of 300 clients of one worker 256 are served, and each other one is closed at once."""
        acts = crowded(None)
        self.assertEqual(len(acts), 301)
        self.assertEqual([act for act in acts if act.ended != act.wanted], [])


class Leaving(Check):
    @each_form
    def test_a_client_that_closes_while_its_backend_is_asked(self, options):
        """The backend is asked once, and the next client is served."""
        asked = []

        def answer(client):
            asked.append(client.message().line.split()[1])
            time.sleep(0.2)
            client.send(OK)
        with backend(answer) as port, gateward(options=options) as serving:
            serving.change(objects_of(port))
            for number in range(3):
                with talk(serving.port) as client:
                    client.send(get(HOST, "/%d" % number))
                    time.sleep(0.05)
            self.is_served(serving, OK, get(HOST, "/then"))
        self.assertEqual(asked, ["/0", "/1", "/2", "/then"])


class Tries(Check):
    """The tries of bench/hostile, with less of all."""

    def made(self, options, attempt):
        with answering(b"HTTP/1.1 200 OK\r\ncontent-length: 0\r\n\r\n") as small, place_of(bool(options), True, small) as place:
            before = place.serving.descriptors()
            acts = attempt(place)
            self.assertNotEqual(acts, [])
            self.assertEqual([act for act in acts if act.ended != act.wanted], [])
            self.settles(place.serving, before)

    @each_form
    def test_clients_that_send_a_byte_at_a_time(self, options):
        self.made(options, slow)

    @each_form
    def test_heads_of_each_kind(self, options):
        self.made(options, heads_of_each_kind)

    @each_form
    def test_bodies_in_chunks(self, options):
        self.made(options, chunks)

    @each_form
    def test_random_bytes_do_what_replay_prints(self, options):
        self.made(options, random_at_door)

    @each_form
    def test_clients_and_backends_that_reset(self, options):
        self.made(options, resets)

    @long
    @each_form
    def test_clients_that_never_read(self, options):
        self.made(options, unread)


class Silent(Check):
    def ends_in_time(self, client, begin, before=b""):
        """It is given up within the limits, behind these bytes."""
        self.assertEqual(client.end(60), ("closed", before))
        self.assertTrue(SILENT[0] < time.monotonic() - begin < SILENT[1], time.monotonic() - begin)

    @long
    @each_form
    def test_a_silent_client_is_given_up(self, options):
        """Before its request, inside of it, and behind a reply; each at a worker of its own."""
        with served(options=options, workers=3) as serving, contextlib.ExitStack() as stack:
            begin = time.monotonic()
            clients = [stack.enter_context(talk(serving.port)) for _ in range(3)]
            clients[1].send(ASKED[:20])
            clients[2].send(ASKED)
            for client, before in zip(clients, (b"", b"", OK)):
                self.ends_in_time(client, begin, before)
            self.is_served(serving)

    def test_silent_clients_hold_nobody_up(self):
        """With `--polled` one worker serves others beside 100 clients who are silent at each stage of a request."""
        with served(options=["--polled"]) as serving, contextlib.ExitStack() as stack:
            data = post(b"abc")
            for number in range(100):
                stack.enter_context(talk(serving.port)).send(data[:number % len(data)])
            for _ in range(20):
                self.is_served(serving)
