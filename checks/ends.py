"""How `serve` begins and ends: sockets that are taken, what it writes, exit codes, and how many connections it takes with `--conns`."""
import contextlib
import os
import resource
import signal
import socket
import subprocess
import time

from support.checking import ASKED, HEALTH, HEALTHY, HOST, NOT_FOUND, OK, SOON, Check, answering, becomes, each_form, served
from support.program import PROGRAM, environment
from support.scripted import objects_of
from support.serving import free_port, gateward, words_of_serve
from support.talking import LOOPBACK, Ended, backend, get, talk

READY = b'{"ready":true}\n'
BIND = b'{"fault":"bind"}\n'


def doors_at(ports):
    """A door at each of these ports: the first is for port 80 of the Gateway `default/g`, the second for 81, and so on."""
    return ["default/g:%d=127.0.0.1:%d" % (80 + number, port) for number, port in enumerate(ports)]


def run(words):
    """A run that has to end by itself: its exit code and what it wrote."""
    done = subprocess.run(words, stdin=subprocess.DEVNULL, stdout=subprocess.PIPE, env=environment(words), timeout=SOON)
    return done.returncode, done.stdout


class Sockets(Check):
    @each_form
    def test_a_port_that_is_taken(self, options):
        """That of the admin endpoint, of the first door, and of the second one, whoever has the others: nothing is ready, and nothing stays bound."""
        with socket.socket() as taken:
            taken.bind((LOOPBACK, 0))
            taken.listen()
            for place in range(3):
                ports = [free_port() for _ in range(3)]
                ports[place] = taken.getsockname()[1]
                self.assertEqual(run(words_of_serve(ports[0], doors_at(ports[1:]), options=options)), (5, BIND))
                for port in ports[:place] + ports[place + 1:]:
                    with socket.socket() as at:
                        self.assertNotEqual(at.connect_ex((LOOPBACK, port)), 0)

    @each_form
    def test_one_socket_for_a_door_and_the_admin_endpoint(self, options):
        port = free_port()
        self.assertEqual(run(words_of_serve(port, doors_at([port]), options=options)), (5, BIND))

    @each_form
    def test_addresses_of_loopback_are_apart(self, options):
        """A door at 127.0.0.2 takes no connection that comes to 127.0.0.1."""
        admin, port = free_port(), free_port()
        words = [PROGRAM, "serve", *options, "--conns", "1", "--admin", "127.0.0.3:%d" % admin, "default/g:80=127.0.0.2:%d" % port]
        with subprocess.Popen(words, stdout=subprocess.PIPE, env=environment(words)) as process:
            self.assertEqual(process.stdout.readline(), READY)
            for at in ((LOOPBACK, port), (LOOPBACK, admin), ("127.0.0.2", admin)):
                with socket.socket() as client:
                    self.assertNotEqual(client.connect_ex(at), 0)
            for at, data, wanted in ((("127.0.0.2", port), ASKED, NOT_FOUND), (("127.0.0.3", admin), HEALTH, HEALTHY)):
                with socket.create_connection(at, SOON) as client:
                    client.sendall(data)
                    self.assertEqual(client.recv(1000), wanted)
            self.exits(process, 0)

    def test_another_address_is_no_words(self):
        for words in (["--admin", "10.0.0.1:18000"], ["--admin", "127.0.0.1:18000", "default/g:80=10.0.0.1:18080"]):
            self.assertEqual(run([PROGRAM, "serve", *words]), (2, b'{"fault":"usage"}\n'))


class Writing(Check):
    @each_form
    def test_it_says_once_that_it_is_ready(self, options):
        with gateward(options=options + ["--conns", "1"]) as serving:
            self.is_served(serving, NOT_FOUND)
            with talk(serving.admin) as client:
                self.answers(client, HEALTH, HEALTHY)
            self.exits(serving.process, 0)
            self.assertEqual(serving.process.stdout.read(), b"")

    @each_form
    def test_it_cannot_say_so(self, options):
        """Where nobody reads standard output, or it has no room."""
        words = words_of_serve(free_port(), doors_at([free_port()]), options=options)
        reading, writing = os.pipe()
        os.close(reading)
        with open("/dev/full", "wb") as full:
            for sink in (writing, full):
                done = subprocess.run(words, stdin=subprocess.DEVNULL, stdout=sink, stderr=subprocess.PIPE, env=environment(words), timeout=SOON)
                self.assertEqual((done.returncode, done.stderr), (4, b""))
        os.close(writing)

    @each_form
    def test_a_job_that_can_not_be_started(self, options):
        """There is no room for the stacks of so many threads."""
        words = ["prlimit", "--as=200000000"] + words_of_serve(free_port(), doors_at([free_port()]), 64, options)
        self.assertEqual(run(words), (5, READY + b'{"fault":"start"}\n'))

    def test_without_a_door(self):
        with gateward(doors=(), options=["--conns", "3"]) as serving:
            self.assertEqual(serving.call("/table"), (200, [{"front": 0}]))
            self.assertEqual(serving.call("/explain", b'{"at":0,"request":"GET / HTTP/1.1\\r\\nHost: x\\r\\n\\r\\n"}'), (400, []))
            code, lines = serving.call("/changes", objects_of(1).encode())
            self.assertEqual((code, lines[-1]["front"]), (200, 5))
            self.exits(serving.process, 0)


class Stopped(Check):
    """A program that is stopped and goes on, whose calls may be interrupted by that (signal(7))."""

    def stop(self, serving):
        time.sleep(0.1)
        serving.process.send_signal(signal.SIGSTOP)
        time.sleep(0.1)
        serving.process.send_signal(signal.SIGCONT)

    @each_form
    def test_a_client_who_is_awaited(self, options):
        """The next client, the rest of a request, and the next request."""
        with served(options=options) as serving:
            self.stop(serving)
            with talk(serving.port) as client:
                client.send(ASKED[:10])
                self.stop(serving)
                self.answers(client, ASKED[10:], OK)
                self.stop(serving)
                self.answers(client, ASKED, OK)
            with talk(serving.admin) as client:
                client.send(HEALTH[:10])
                self.stop(serving)
                self.answers(client, HEALTH[10:], HEALTHY)

    @each_form
    def test_a_backend_that_is_awaited(self, options):
        def answer(client):
            client.message()
            client.send(OK[:20])
            time.sleep(0.4)
            client.send(OK[20:])
        with backend(answer) as port, gateward(options=options) as serving, talk(serving.port) as client:
            serving.change(objects_of(port))
            client.send(ASKED)
            self.stop(serving)
            self.comes(client, OK)


class Counts(Check):
    """With `--conns N` the admin endpoint and each worker end behind N connections, and the program where all have."""

    @each_form
    def test_it_ends_where_all_have_their_connections(self, options):
        with answering(OK) as port, gateward(2, options=options + ["--conns", "2"]) as serving:
            serving.change(objects_of(port))
            self.takes(serving, 4, OK)
            self.assertIsNone(serving.process.poll())
            with talk(serving.admin) as client:
                self.answers(client, HEALTH, HEALTHY)
            self.exits(serving.process, 0)

    def takes(self, serving, count, wanted=NOT_FOUND):
        """So many clients are served one after another, and then nobody listens."""
        for _ in range(count):
            self.is_served(serving, wanted)
        self.assertTrue(becomes(lambda: not is_open(serving.port)))

    @each_form
    def test_connections_that_break_count(self, options):
        """A client that resets inside a request is one of those that were taken."""
        with gateward(options=options + ["--conns", "3"]) as serving:
            for _ in range(2):
                with talk(serving.port) as client:
                    client.send(ASKED[:10])
                    time.sleep(0.1)
                    client.reset()
                    time.sleep(0.1)
            self.takes(serving, 1)

    @each_form
    def test_failed_accepts_count(self, options):
        """An accept for whose connection there is no descriptor fails, and is one of those that are made; the next one comes a while later."""
        with gateward(options=options + ["--conns", "40"]) as serving:
            self.is_served(serving, NOT_FOUND)
            time.sleep(0.1)
            begin = time.monotonic()
            limits = resource.prlimit(serving.process.pid, resource.RLIMIT_NOFILE, (serving.descriptors(), 1024))
            with contextlib.ExitStack() as stack:
                waiting = [stack.enter_context(talk(serving.port)) for _ in range(2)]
                for client in waiting:
                    client.send(get(HOST, "/a", close=True))
                time.sleep(1)
                resource.prlimit(serving.process.pid, resource.RLIMIT_NOFILE, limits)
                pauses = (time.monotonic() - begin) / 0.1
                for client in waiting:
                    client.connection.settimeout(SOON)
                    self.assertEqual(client.message().code(), 404)
                    client.connection.close()
            taken = 0
            while taken < 40:
                try:
                    self.is_served(serving, NOT_FOUND)
                except (OSError, Ended):
                    break
                taken += 1
            # Three were served before.
            failed = 40 - 3 - taken
            self.assertTrue(1 <= failed <= pauses + 2, "%d failed, where %d pauses of 100 milliseconds have room" % (failed, pauses))

    def test_polled_connections_end_when_they_end(self):
        """With `--polled`, one who is late is served to the end, and one who comes behind the last is closed at once, without a reply."""
        with gateward(options=["--polled", "--conns", "1"]) as serving:
            with talk(serving.admin) as client:
                self.answers(client, HEALTH, HEALTHY)
            with talk(serving.port) as late:
                late.send(ASKED[:14])
                time.sleep(0.1)
                with talk(serving.port) as more:
                    self.ends(more)
                self.answers(late, ASKED[14:], NOT_FOUND)
                self.assertIsNone(serving.process.poll())
            self.exits(serving.process, 0)

    def test_polled_connections_are_served_while_one_is_late(self):
        with served(options=["--polled", "--conns", "2"]) as serving, talk(serving.port) as late:
            late.send(ASKED[:14])
            self.is_served(serving)
            self.answers(late, ASKED[14:], OK)

    @each_form
    def test_the_admin_endpoint_ends_by_itself(self, options):
        """Its one connection was taken; the door goes on by what came over it."""
        with answering(OK) as port, gateward(options=options + ["--conns", "1"]) as serving:
            serving.change(objects_of(port))
            self.assertTrue(becomes(lambda: not is_open(serving.admin)))
            self.is_served(serving)
            self.exits(serving.process, 0)


def is_open(port):
    """Whether somebody listens at a port, by the system's list of sockets: so no connection is made (RFC 9293, section 3.3.2)."""
    own = "0100007F:%04X" % port
    with open("/proc/net/tcp") as file:
        return any(words[1] == own and words[3] == "0A" for words in map(str.split, file))
