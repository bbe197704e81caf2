"""Workers that serve at the same time, and connections of one worker that are polled."""
import contextlib
import random
import threading
import time

from support.checking import ASKED, HOST, NOT_FOUND, OK, Check, answering, closing, each_form, route_to, served, several
from support.inputs import head
from support.scripted import objects_of
from support.serving import backend_lines, gateward
from support.talking import backend, get, talk

TWO_DOORS = ("default/g:80", "default/g:81")


@contextlib.contextmanager
def gated():
    """A backend whose first request is answered once another one was, and that event."""
    first, answered = threading.Lock(), threading.Event()

    def answer(client):
        client.message()
        if first.acquire(blocking=False):
            answered.wait(20)
            client.send(OK if answered.is_set() else b"HTTP/1.1 200 OK\r\ncontent-length: 6\r\n\r\nsilent")
        else:
            client.send(OK)
            answered.set()
    with backend(answer) as port:
        yield port


class AtOnce(Check):
    def is_let_through(self, serving, ports):
        """The first client's backend answers behind the second client's."""
        with talk(ports[0]) as first, talk(ports[1]) as second:
            first.send(ASKED)
            time.sleep(0.2)
            self.answers(second, ASKED, OK)
            self.comes(first, OK)

    @each_form
    def test_a_worker_serves_while_another_is_held(self, options):
        with gated() as port, gateward(2, options=options) as serving:
            serving.change(objects_of(port))
            self.is_let_through(serving, [serving.port] * 2)

    def test_a_polled_worker_serves_while_a_backend_is_slow(self):
        with gated() as port, gateward(1, options=["--polled"]) as serving:
            serving.change(objects_of(port))
            self.is_let_through(serving, [serving.port] * 2)

    @each_form
    def test_a_door_serves_while_another_is_held(self, options):
        """Each door has workers of its own."""
        with gated() as port, gateward(1, options=options, doors=TWO_DOORS) as serving:
            serving.change(head(2) + backend_lines("s", port) + route_to(["s"]))
            self.is_let_through(serving, serving.ports)

    @each_form
    def test_the_admin_endpoint_serves_while_a_worker_is_held(self, options):
        with gateward(options=options) as serving, talk(serving.port) as client:
            client.send(ASKED[:10])
            self.assertEqual(serving.call("/status"), (200, [{"front": 0}]))

    def test_a_worker_serves_one_connection_after_another(self):
        """Without `--polled` the next client waits until the first one's connection has ended, and is served then."""
        with gateward() as serving, talk(serving.port) as first, talk(serving.port) as second:
            self.answers(first, ASKED, NOT_FOUND)
            second.send(ASKED)
            self.assertEqual(second.end(0.3), ("open", b""))
            second.connection.settimeout(10)
            self.answers(first, ASKED, NOT_FOUND)
            first.finish()
            self.comes(second, NOT_FOUND)

    @each_form
    def test_64_workers(self, options):
        with gateward(64, options=options) as serving, contextlib.ExitStack() as stack:
            clients = [stack.enter_context(talk(serving.port)) for _ in range(64)]
            for _ in range(2):
                for client in clients:
                    self.answers(client, ASKED, NOT_FOUND)

    @each_form
    def test_each_door_has_its_own_rows(self, options):
        """A Route that names a listener comes to the door of its port alone."""
        with answering(OK) as port, gateward(options=options, doors=TWO_DOORS) as serving:
            serving.change(head(2) + backend_lines("s", port) + route_to(["s"]).replace('{"name":"g"}', '{"name":"g","sectionName":"http-1"}'))
            for at, wanted in zip(serving.ports, (NOT_FOUND, OK)):
                with talk(at) as client:
                    self.answers(client, ASKED, wanted)


def schedule(source, count):
    """Which client sends its next piece, in a drawn order: each has three pieces."""
    turns = [number for number in range(count) for _ in range(3)]
    source.shuffle(turns)
    return turns


class Polled(Check):
    def all_served(self, seed, count=64):
        """Clients of one worker, whose pieces come in a drawn order, and of whom each eighth resets: each other gets what it gets alone."""
        source = random.Random(seed)

        def answer(client):
            path = client.message().line.split()[1].encode()
            time.sleep(source.random() / 50)
            client.send(b"HTTP/1.1 200 OK\r\ncontent-length: %d\r\n\r\n%s" % (len(path), path))
        with backend(answer) as port, gateward(1, options=["--polled"]) as serving, contextlib.ExitStack() as stack:
            serving.change(objects_of(port))
            clients = [stack.enter_context(talk(serving.port)) for _ in range(count)]
            sent = [0] * count
            for number in schedule(source, count):
                data = get(HOST, "/%d" % number) + get(HOST, "/%d" % (number + 1000), close=True)
                piece = data[sent[number] * len(data) // 3:(sent[number] + 1) * len(data) // 3]
                sent[number] += 1
                if number % 8 == 0 and sent[number] == 3:
                    clients[number].reset()
                else:
                    clients[number].send(piece)
            for number, client in enumerate(clients):
                if number % 8:
                    replies = [b"HTTP/1.1 200 OK\r\ncontent-length: %d\r\n\r\n%s" % (len(path), path)
                               for path in (b"/%d" % number, b"/%d" % (number + 1000))]
                    self.ends(client, replies[0] + closing(replies[1]))
            self.is_served(serving, b"HTTP/1.1 200 OK\r\ncontent-length: 2\r\n\r\n/a")

    def test_each_of_many_gets_what_it_gets_alone(self):
        for seed in range(3):
            with self.subTest(seed=seed):
                self.all_served(seed)

    def test_one_who_is_late_is_served(self):
        """While others come, are served and go."""
        with served(options=["--polled"]) as serving, talk(serving.port) as late:
            for number in range(len(ASKED)):
                late.send(ASKED[number:number + 1])
                self.is_served(serving)
            self.comes(late, OK)

    def test_what_comes_while_a_backend_is_asked_is_read_later(self):
        def answer(client):
            client.message()
            time.sleep(0.1)
            client.send(OK)
        with backend(answer) as port, gateward(1, options=["--polled"]) as serving, talk(serving.port) as client:
            serving.change(objects_of(port))
            client.send(ASKED)
            time.sleep(0.02)
            client.send(ASKED)
            client.finish()
            self.ends(client, OK * 2)

    def test_a_large_reply_is_written_on_when_there_is_room(self):
        """Of one who doesn't read, while others are served."""
        reply = b"HTTP/1.1 200 OK\r\ncontent-length: 8000000\r\n\r\n" + b"x" * 8_000_000
        with answering(reply) as large, answering(OK) as small, gateward(1, options=["--polled"]) as serving:
            several(serving, {"large": large, "small": small})
            with talk(serving.port, room=65_536) as reader:
                reader.send(get("large.example.com"))
                for _ in range(20):
                    self.is_served(serving, OK, get("small.example.com"))
                self.assertTrue(reader.take(len(reply)) == reply, "the reply is another")
