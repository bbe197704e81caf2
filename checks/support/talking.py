"""Clients and backends as bytes on sockets, for the scripts that are hostile to `serve`, and a client that behaves, whose requests are timed.

usage: python3 -m support.talking PORT HOST      the client that behaves, in a process of its own: asks until its input ends, and prints
                                                 its Load as JSON
"""
import contextlib
import dataclasses
import json
import os
import socket
import struct
import subprocess
import sys
import threading
import time

# Where the package stands that this module is of.
FOLDER = os.path.dirname(os.path.dirname(os.path.abspath(__file__)))
LOOPBACK = "127.0.0.1"
# A call that waits longer than each time-out of `serve` has failed.
PATIENCE = 45


class Ended(Exception):
    """The other side ended a connection within what was awaited: `closed` or `reset`, and what had come."""

    def __init__(self, how, came):
        super().__init__("%s behind %d bytes" % (how, len(came)))
        self.how, self.came = how, came


@dataclasses.dataclass
class Message:
    """A request or a reply: its first line, the last value of each field by its name in lower case, its body, and all its bytes."""
    line: str
    fields: dict
    body: bytes
    whole: bytes

    def code(self):
        return int(self.line.split()[1])

    def fault(self):
        return self.fields.get("x-gateward-fault")


class Talk:
    """A connection, out of which whole messages are read one after another."""

    def __init__(self, connection):
        self.connection, self.held = connection, b""

    def send(self, data):
        self.connection.sendall(data)

    def more(self, most=262144):
        """Waits for more bytes."""
        try:
            part = self.connection.recv(most)
        except ConnectionError:
            raise Ended("reset", self.held)
        if not part:
            raise Ended("closed", self.held)
        self.held += part

    def take(self, count):
        """The next so many bytes."""
        while len(self.held) < count:
            self.more()
        taken, self.held = self.held[:count], self.held[count:]
        return taken

    def some(self, most):
        """The next bytes, at least one and at most so many."""
        if not self.held:
            self.more(most)
        return self.take(min(len(self.held), most))

    def message(self, bodiless=False):
        """The next message: its body has a length that is announced, as all have that `serve` writes."""
        while b"\r\n\r\n" not in self.held:
            self.more()
        head = self.take(self.held.index(b"\r\n\r\n") + 4)
        line, *lines = head.decode("latin-1").split("\r\n")[:-2]
        fields = {name.lower(): value.strip() for name, _, value in (text.partition(":") for text in lines)}
        body = b"" if bodiless else self.take(int(fields.get("content-length", 0)))
        return Message(line, fields, body, head + body)

    def ask(self, data):
        """The reply to a request."""
        self.send(data)
        return self.message()

    def end(self, seconds=PATIENCE):
        """How the other side ends the connection within so many seconds, `open` where it doesn't, and what comes before."""
        limit = time.monotonic() + seconds
        came, self.held = self.held, b""
        while True:
            self.connection.settimeout(max(limit - time.monotonic(), 0.001))
            try:
                part = self.connection.recv(262144)
            except TimeoutError:
                return "open", came
            except ConnectionError:
                return "reset", came
            if not part:
                return "closed", came
            came += part

    def finish(self):
        """Says that nothing more is sent."""
        with contextlib.suppress(OSError):
            self.connection.shutdown(socket.SHUT_WR)

    def reset(self):
        """Ends the connection so that the other side's next call fails."""
        self.connection.setsockopt(socket.SOL_SOCKET, socket.SO_LINGER, struct.pack("ii", 1, 0))
        self.connection.close()


@contextlib.contextmanager
def talk(port, room=None):
    """A connection to a port, which sends each piece at once; `room` is for how many bytes the system may keep that weren't read yet."""
    with socket.socket() as connection:
        connection.settimeout(PATIENCE)
        connection.setsockopt(socket.IPPROTO_TCP, socket.TCP_NODELAY, 1)
        if room:
            connection.setsockopt(socket.SOL_SOCKET, socket.SO_RCVBUF, room)
        connection.connect((LOOPBACK, port))
        yield Talk(connection)


def get(host, path="/", fields="", close=False):
    """A request without a body."""
    return ("GET %s HTTP/1.1\r\nHost: %s\r\n%s%s\r\n" % (path, host, fields, "Connection: close\r\n" * close)).encode("latin-1")


@contextlib.contextmanager
def backend(answer, room=None):
    """A backend's port, until the end. Each of its connections has a thread, which is given the Talk and answers as it likes; `room` is as in
    `talk`."""
    def serve(connection):
        with connection, contextlib.suppress(OSError, Ended):
            connection.settimeout(PATIENCE)
            connection.setsockopt(socket.IPPROTO_TCP, socket.TCP_NODELAY, 1)
            answer(Talk(connection))

    def accept():
        with contextlib.suppress(OSError):
            while True:
                threading.Thread(target=serve, args=(listener.accept()[0],), daemon=True).start()

    with socket.socket() as listener:
        if room:
            listener.setsockopt(socket.SOL_SOCKET, socket.SO_RCVBUF, room)
            # Else the sender's system keeps much more.
            listener.setsockopt(socket.IPPROTO_TCP, socket.TCP_MAXSEG, 536)
        listener.bind((LOOPBACK, 0))
        listener.listen(1024)
        threading.Thread(target=accept, daemon=True).start()
        try:
            yield listener.getsockname()[1]
        finally:
            # A listener that is only closed lets the thread wait on.
            with contextlib.suppress(OSError):
                listener.shutdown(socket.SHUT_RDWR)


# The client that behaves.

@dataclasses.dataclass
class Load:
    """What a run of wrk came to. Times are in microseconds."""
    requests: int
    duration: int
    half: int
    most: int
    longest: int
    late: int
    refused: int
    broken: int

    def rate(self):
        return self.requests * 1e6 / self.duration


def behave(port, host, over):
    """Asks again and again on a connection that is opened anew where it ended: the seconds that each reply took, how many weren't 200, and how
    many didn't come. The time that a new connection waits for its turn is that of its first request."""
    times, refused, broken = [], 0, 0
    while not over.is_set():
        with contextlib.suppress(OSError), talk(port) as client:
            last = False
            while not last and not over.is_set():
                begin = time.perf_counter()
                try:
                    reply = client.ask(get(host, "/behaved"))
                except (Ended, OSError):
                    broken += 1
                    break
                times.append(time.perf_counter() - begin)
                refused += reply.code() != 200
                last = reply.fields.get("connection") == "close"
    return times, refused, broken


def load_of(times, seconds, refused, broken):
    ordered = sorted(times) or [0]
    half, most, longest = [int(1e6 * ordered[int(share * (len(ordered) - 1))]) for share in (0.5, 0.99, 1)]
    return Load(len(times), max(int(1e6 * seconds), 1), half, most, longest, 0, refused, broken)


class Beside:
    """A client that behaves, while something else goes on: in a process of its own, so that it doesn't wait for this one."""

    def __init__(self, port, host):
        self.words = [sys.executable, "-m", "support.talking", str(port), host]

    def __enter__(self):
        self.process = subprocess.Popen(self.words, stdin=subprocess.PIPE, stdout=subprocess.PIPE, text=True, cwd=FOLDER)
        self.process.stdout.readline()
        return self

    def __exit__(self, *_):
        """Ends it, and keeps its Load."""
        said, _ = self.process.communicate()
        self.load = Load(**json.loads(said))


class Watch:
    """Looks at the memory and the descriptors of a program ten times a second, and keeps what it saw with the moments."""

    def __init__(self, serving):
        self.serving, self.seen, self.over = serving, [], threading.Event()
        self.thread = threading.Thread(target=self.look, daemon=True)

    def look(self):
        while not self.over.wait(0.1):
            with contextlib.suppress(OSError, StopIteration):
                self.seen.append((time.monotonic(), self.serving.memory(), self.serving.descriptors()))

    def __enter__(self):
        self.thread.start()
        return self

    def __exit__(self, *_):
        self.over.set()
        self.thread.join()

    def most(self, begin=0.0, end=float("inf")):
        """The most bytes of memory, and the most descriptors, that it had between two moments."""
        seen = [one for one in self.seen if begin <= one[0] <= end] or [(0, self.serving.memory(), self.serving.descriptors())]
        return max(memory for _, memory, _ in seen), max(count for _, _, count in seen)


if __name__ == "__main__":
    over = threading.Event()
    threading.Thread(target=lambda: (sys.stdin.read(), over.set()), daemon=True).start()
    print("begun", flush=True)
    began = time.monotonic()
    found = behave(int(sys.argv[1]), sys.argv[2], over)
    print(json.dumps(dataclasses.asdict(load_of(found[0], time.monotonic() - began, *found[1:]))))
