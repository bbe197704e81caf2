"""Runs of the program of which one call of the C library fails: clients and backends of a small `serve`, and the commands that read and write. What
is otherwise in them is told in the words of failing_rows.py."""
import collections
import contextlib
import json
import os
import re
import socket
import subprocess
import threading
import time
from dataclasses import dataclass, field

from . import failing_rows as rows
from .failing import Told
from .program import PROGRAM, TOP, environment
from .serving import free_port, host_of, objects
from .talking import LOOPBACK, Ended, backend, get, talk

# How many seconds a run may take. A polled call is made again after five where nothing wakes it.
LIMIT = 30
READY = b'{"ready":true}\n'
# After how many connections and failed accepts each job ends: more than are needed, so the last ones have nothing to say.
CONNS = 6
REPLY = b"HTTP/1.1 200 OK\r\ncontent-length: 6\r\n\r\nbodies"
NOT_REACHED = b"HTTP/1.1 502 Bad Gateway\r\nx-gateward-fault: Open\r\ncontent-length: 0\r\n\r\n"
ENDS = {
    (3, b'{"fault":"read"}\n'): rows.READ_FAILED, (5, b'{"fault":"bind"}\n'): rows.NOT_BOUND,
    (5, READY + b'{"fault":"start"}\n'): rows.NOT_STARTED, (6, b""): rows.NO_MEMORY, (6, READY): rows.NO_MEMORY_READY}


@dataclass(frozen=True)
class Scenario:
    """A command, how many bytes each of its calls moves at most, where not as many as it can, and whether the backend is there. Where functions are
    named, only these are to fail, in these ways."""
    command: str
    piece: int = 0
    is_reached: bool = True
    only: tuple = ()

    def name(self):
        return self.command + (", in pieces of %d bytes" % self.piece) * bool(self.piece) + ", without a backend" * (not self.is_reached)


@dataclass
class Run:
    """What was otherwise in a run, what is known of its failing call, how many calls were made, and the ports: of both sockets, and of the clients
    that asked something."""
    others: list
    told: Told
    counts: dict
    ports: dict = field(default_factory=dict)
    clients: set = field(default_factory=set)


class Backends:
    """Backends at one port, and how often each path was asked."""

    def __init__(self):
        self.asked = collections.Counter()

    def answer(self, client):
        self.asked[client.message().line.split()[1]] += 1
        client.send(REPLY)

    @contextlib.contextmanager
    def standing(self, is_reached):
        """Has them answer until the end, or holds a port at which nothing listens."""
        if is_reached:
            with backend(self.answer) as self.port:
                yield self
            return
        with socket.socket() as held:
            held.bind((LOOPBACK, 0))
            self.port = held.getsockname()[1]
            yield self


# The ports that were given last, none of which is given again: runs go on side by side, and a program binds its ports a while after.
GIVEN, GIVING = collections.deque(maxlen=1000), threading.Lock()


def own_port():
    with GIVING:
        while (port := free_port()) in GIVEN:
            pass
        GIVEN.append(port)
        return port


def whole_message(client):
    """The next message, of which nothing is taken before it is whole."""
    while True:
        head, end, body = client.held.partition(b"\r\n\r\n")
        size = re.search(rb"\r\ncontent-length: (\d+)", head)
        if end and size and len(body) >= int(size[1]):
            return client.message()
        client.more()


class Side:
    """A client of one socket, with one connection at a time."""

    def __init__(self, stack, port):
        self.stack, self.port, self.client, self.own_ports = stack, port, None, set()

    def ask(self, data, is_last=False):
        """The reply to a request, or why there is none, and what came. Behind the last request the connection has to end."""
        try:
            if not self.client:
                self.client = self.stack.enter_context(talk(self.port))
                self.own_ports.add(self.client.connection.getsockname()[1])
            self.client.send(data)
            reply = whole_message(self.client)
            return ("not ended", b"") if is_last and self.leave() != ("closed", b"") else (reply, reply.whole)
        except Ended as ended:
            found = "given up", ended.came
        except ConnectionError:
            found = "given up", b""
        except TimeoutError:
            found = "silent", b""
        self.leave()
        return found

    def leave(self):
        """Ends the connection, and says how the other side did."""
        client, self.client = self.client, None
        if not client:
            return None
        client.finish()
        ended = client.end(LIMIT)
        client.connection.close()
        return ended


class Course:
    """What the clients of a `serve` that is ready do: objects are posted, and statuses asked for on the same connection; two requests come on one
    connection and one on the next; and statuses are asked for on a new one."""

    def __init__(self, stack, ports, backends, usual, name):
        self.admin, self.door = Side(stack, ports["admin"]), Side(stack, ports["door"])
        self.backends, self.usual, self.name, self.others, self.front = backends, usual, name, [], 0

    def run(self):
        self.bring()
        self.ask_status(False)
        for number, method in enumerate(("POST", "GET", "GET")):
            self.ask(number, method)
        self.admin.leave()
        self.ask_status(True)

    def bring(self):
        """Posts objects, again where they weren't all taken."""
        body = objects(1, self.backends.port).encode()
        data = b"POST /changes HTTP/1.1\r\nHost: x\r\nContent-Length: %d\r\n\r\n" % len(body) + body
        for _ in range(3):
            reply, came = self.admin.ask(data)
            if reply == "given up":
                # What was accepted by then stays accepted: how many that are isn't told.
                self.others.append(rows.CHANGES_GIVEN_UP)
                self.front = None
            elif isinstance(reply, str) or not self.is_answer(reply):
                self.others.append("changes: %s %s" % (reply if isinstance(reply, str) else "", came))
            elif reply.code() == 200:
                return
            else:
                self.others.append(rows.CHANGES_STARVED)

    def is_answer(self, reply):
        """Whether a reply says what became of five lines, behind those that were accepted before: all were, or memory was wanted for some."""
        *refused, said = [json.loads(line) for line in reply.body.splitlines()]
        first, accepted = said["first"], 5 - len(refused)
        is_next = first == self.front if self.front is not None else first <= 5
        self.front = first + accepted
        numbers = [one["line"] for one in refused if one == {"line": one["line"], "refusal": 0}]
        return is_next and reply.code() == (503 if refused else 200) and numbers == sorted(set(numbers) & set(range(1, 6))) and said == {
            "accepted": accepted, "first": first, "front": self.front, "refused": len(numbers), "skipped": 0}

    def ask_status(self, is_last):
        reply, came = self.admin.ask(get("x", "/status", close=is_last), is_last)
        if isinstance(reply, str):
            self.others.append(rows.STATUS_GIVEN_UP if reply == "given up" else "status: " + reply)
        elif reply.code() != 200 or not reply.body.endswith(b'{"front":%d}\n' % self.front):
            self.others.append("status: %s" % came)

    def ask(self, number, method):
        """A request of its own path, which the backend must not be asked twice, and once where it is answered by it."""
        is_last, path, body = number == 2, "/%s/%d" % (self.name, number), b"ab" if method == "POST" else b""
        data = get(host_of(0), path, "Content-Length: 2\r\n" if body else "", is_last).replace(b"GET", method.encode(), 1) + body
        if is_last:
            self.door.leave()
        reply, came = self.door.ask(data, is_last)
        usual = self.usual.replace(b"\r\n\r\n", b"\r\nconnection: close\r\n\r\n", 1) if is_last else self.usual
        asked = self.backends.asked.pop(path, 0)
        if asked > 1:
            self.others.append("a request: its backend is asked %d times" % asked)
        elif isinstance(reply, str) or came != usual or asked != (usual[9:12] == b"200"):
            self.others.append(self.other_of(reply, came, usual))

    def other_of(self, reply, came, usual):
        if reply == "given up":
            return rows.GIVEN_UP if usual.startswith(came) else "a request: given up behind %s" % came
        if isinstance(reply, str):
            return "a request: " + reply
        is_own = reply.code() == 502 and reply.body == b""
        return "a request: 502 %s" % reply.fault() if is_own else "a request: %s" % came


def drain(process, ports):
    """Has connections come on which nothing is asked, until a program has ended."""
    while process.poll() is None:
        for port in ports.values():
            with contextlib.suppress(OSError), talk(port):
                pass
        time.sleep(0.002)


@contextlib.contextmanager
def bounded(command, variables, stdin=subprocess.DEVNULL):
    """A process that is ended where it takes too long."""
    variables = {**environment(command), **variables}
    with subprocess.Popen(command, stdin=stdin, stdout=subprocess.PIPE, stderr=subprocess.PIPE, env=variables) as process:
        timer = threading.Timer(LIMIT, process.kill)
        timer.start()
        try:
            yield process
        finally:
            timer.cancel()
            process.kill()


def end_of(process, said, usual):
    """How a program ended, in the words of a row or in plain ones, where a run without a failing call ends in the usual code and text."""
    text, errors = said + process.stdout.read(), process.stderr.read()
    code = process.wait()
    if errors:
        return "standard error: %s" % errors
    if (code, text) == usual:
        return rows.AS_EVER
    is_front = usual[1].startswith(text)
    if code == 4 and is_front:
        return rows.WRITE_FAILED
    if code == usual[0] == 2 and is_front:
        return rows.USAGE_FRONT
    return ENDS.get((code, text), "exit code %d, %s" % (code, text))


class Serves:
    """Runs of `serve`."""

    def __init__(self, scenario, library, backends):
        self.scenario, self.library, self.backends = scenario, library, backends

    def run(self, name, failure=None):
        ports = {"admin": own_port(), "door": own_port()}
        words = [PROGRAM, *self.scenario.command.split(), "--conns", str(CONNS), "--admin", "127.0.0.1:%d" % ports["admin"],
                 "default/g:80=127.0.0.1:%d" % ports["door"]]
        with self.library.run_of(failure, self.scenario.piece) as (variables, record), bounded(words, variables) as process:
            with contextlib.ExitStack() as stack:
                course = Course(stack, ports, self.backends, REPLY if self.scenario.is_reached else NOT_REACHED, name)
                said = process.stdout.readline()
                if said == READY:
                    course.run()
            if said == READY:
                drain(process, ports)
            end = end_of(process, said, (0, READY))
            others = course.others if end == rows.AS_EVER else [end]
            return Run(others, record.told(), record.counts(), ports, course.admin.own_ports | course.door.own_ports)

    def place_of(self, function, run):
        """Where the call was made that failed."""
        told = run.told
        if function == "write" and told.descriptor == 1:
            return rows.OUTPUT
        if not told.is_ready:
            return rows.START
        if told.is_ending:
            return rows.ENDING
        if function in ("pthread_create", "malloc", "realloc", "clock_gettime", "socket"):
            return [rows.CREW, rows.ADMIN_JOB, rows.WORKER][min(told.thread, 2)]
        return self.place_of_socket(told, run)

    def place_of_socket(self, told, run):
        if told.own_port < 0:
            return rows.ADMIN_SET if told.thread == 1 else rows.SET
        if told.own_port not in run.ports.values():
            return rows.BACKEND if self.scenario.is_reached else rows.UNREACHED
        is_admin = told.own_port == run.ports["admin"]
        if told.peer_port < 0:
            return rows.ADMIN_LISTENER if is_admin else rows.DOOR_LISTENER
        if told.peer_port not in run.clients:
            return rows.UNASKED
        return rows.ADMIN if is_admin else rows.CLIENT


def doors_of(example):
    with open(os.path.join(TOP, "examples", example + ".doors")) as file:
        return file.read().split()


def words_of(command):
    """The words of a command that reads or writes, and the example that it reads."""
    if command.startswith("generate"):
        return command.split() + "--seed 7 --routes 2 --requests 9".split(), None
    if command == rows.WRONG:
        return [command], "service.jsonl"
    options = ["--request", r'"GET / HTTP/1.1\r\nHost: shop.example.com\r\n\r\n"'] if command == "explain" else []
    return command.split() + options + doors_of("service"), "service." + ("script" if command.startswith("replay") else "jsonl")


class Reads:
    """Runs of a command that reads or writes."""

    def __init__(self, scenario, library):
        self.scenario, self.library = scenario, library
        words, example = words_of(scenario.command)
        self.words, self.path = [PROGRAM, *words], os.path.join(TOP, "examples", example) if example else os.devnull
        with open(self.path, "rb") as file:
            done = subprocess.run(self.words, stdin=file, stdout=subprocess.PIPE, timeout=LIMIT)
        self.usual = done.returncode, done.stdout

    def run(self, _, failure=None):
        with open(self.path, "rb") as source, self.library.run_of(failure, self.scenario.piece) as (variables, record):
            with bounded(self.words, variables, source) as process:
                end = end_of(process, b"", self.usual)
            return Run([] if end == rows.AS_EVER else [end], record.told(), record.counts())

    def place_of(self, _, run):
        return {0: rows.INPUT, 1: rows.OUTPUT}.get(run.told.descriptor, rows.WITHIN)


@contextlib.contextmanager
def runs_of(scenario, library):
    """Runs of a scenario, until the end."""
    if scenario.command not in rows.SERVES:
        yield Reads(scenario, library)
        return
    with Backends().standing(scenario.is_reached) as backends:
        yield Serves(scenario, library, backends)
