"""What hostile clients and backends do to `serve`, and how each of their connections ended: the tries of bench/hostile, and where they are made."""
import collections
import concurrent.futures
import contextlib
import json
import random
import statistics
import string
import time
from dataclasses import dataclass, field

from .inputs import gateway_object, line
from .scripted import Socketed, course_of_serve, courses_of_replay, objects_of, pieces_of, steps, table_rows
from .serving import Gateward, backend_lines, free_port, gateward, host_of, route_line
from .talking import Ended, backend, get, talk

WORKERS = 2
MIB = 1024 * 1024
LARGE = 8 * MIB
MOST_BODY = MIB
MOST_HEAD = 16_384
# How many connections a polled worker has open at most, and how many clients come.
MOST_OPEN, CROWD = 256, 300
# Of what names of parameters may be made.
NAME_LETTERS = string.ascii_letters + string.digits + "-._~!$'()*,;:@/"
# What is to come at once has so many seconds.
SOON = 10

# Each write waits for 30 seconds, and for up to five more where it is polled. The first ones may have had a part taken by the system, and then a client
# that reads nothing is given up.
UNREAD = (28, 150)
# How many times as long a head may take as one with a single field of the same length, and how many seconds.
MOST_TIMES, MOST_SECONDS = 25, 0.25
# How many seconds a body of 1 MiB in chunks of one byte may take.
MOST_CHUNKED = 2

# The hosts of Routes, each with the name of its backend's Service.
BACKENDS = ["small", "large", "slow", "resetting", "rejecting", "none", "whole"]
BEHAVED, LARGE_REPLY, SLOW_BACKEND, RESETTING, REJECTING, UNREACHED, WHOLE_BODIES, MANY_MATCHES = map(host_of, range(8))


@dataclass
class Act:
    """A hostile connection or request: how it ended, how it has to, and the seconds that it took."""
    ended: str
    wanted: str
    seconds: float


@dataclass
class Crowded:
    """One of many clients, who may be there still."""
    client: object
    made: Act


@dataclass
class Place:
    """Where tries are made, and how much of all."""
    serving: Gateward
    socketed: Socketed
    is_polled: bool
    is_short: bool
    notes: list = field(default_factory=list)

    def port(self):
        return self.serving.port

    def of(self, whole, short):
        return short if self.is_short else whole


@dataclass
class Try:
    """Its acts, and how many bytes more of memory it may need meanwhile. The acts are made again until some seconds have passed."""
    act: object
    room: int = 8 * MIB


# Slow clients.

def slow(place):
    """All of them send a byte, and then all wait a second."""
    data, pause = get(BEHAVED, "/", "", True), place.of(1, 0.02)
    with contextlib.ExitStack() as stack:
        begin = time.monotonic()
        clients = [stack.enter_context(talk(place.port())) for _ in range(64 if place.is_polled else 1)]
        for number in range(len(data)):
            for client in clients:
                client.send(data[number:number + 1])
            time.sleep(pause)
        return [Act(answer_and_end(client), "200, Asked", time.monotonic() - begin) for client in clients]


def answer_and_end(client):
    """How a request ends behind which the connection has to end."""
    try:
        code = client.message().code()
    except Ended as ended:
        return ended.how
    how, more = client.end(SOON)
    return "%d, %s" % (code, "Asked" if (how, more) == ("closed", b"") else how)


# Clients that don't read.

def unread(place):
    """Whether they are given up is seen at the system's list of sockets: what is on its way would be read by them first."""
    with contextlib.ExitStack() as stack:
        begin = time.monotonic()
        clients = [stack.enter_context(talk(place.port(), room=4096)) for _ in range(16 if place.is_polled else 1)]
        for client in clients:
            client.send(get(LARGE_REPLY))
        left, acts = list(clients), []
        while left and time.monotonic() < begin + UNREAD[1] + SOON:
            time.sleep(0.2)
            held = held_by(place.port())
            for client in [one for one in left if one.connection.getsockname()[1] not in held]:
                left.remove(client)
                acts.append(Act(given_up(client, time.monotonic() - begin), "given up", time.monotonic() - begin))
        return acts + [Act("not given up", "given up", time.monotonic() - begin) for _ in left]


def held_by(port):
    """The ports of the clients whose connections the program still holds: they are established at its end (RFC 9293, section 3.3.2)."""
    own = "0100007F:%04X" % port
    with open("/proc/net/tcp") as file:
        return {int(words[2].split(":")[1], 16) for words in map(str.split, file) if words[1] == own and words[3] == "01"}


def given_up(client, seconds):
    """How a client that was given up behind so many seconds was: it gets a front of its reply alone."""
    how, came = client.end(SOON)
    if len(came) >= LARGE:
        return "answered whole"
    return "given up" if UNREAD[0] <= seconds <= UNREAD[1] and how != "open" else "given up behind %.1f seconds, %s" % (seconds, how)


# Connections that are opened and closed.

def opened(place):
    """Half of the clients say that nothing comes and see the end, and half close at once; eight are there at a time."""
    with concurrent.futures.ThreadPoolExecutor(8) as pool:
        return list(pool.map(lambda number: opened_one(place.port(), number % 2 == 0), range(place.of(10_000, 400))))


def opened_one(port, is_awaited):
    begin = time.monotonic()
    with talk(port) as client:
        if not is_awaited:
            return Act("closed by the client", "closed by the client", time.monotonic() - begin)
        client.finish()
        how, came = client.end(SOON)
    return Act("Closed" if (how, came) == ("closed", b"") else how, "Closed", time.monotonic() - begin)


# More clients than a polled worker has open.

def crowded(place):
    """At a door of one worker without objects, each of whose replies is 404. Those who come first are answered and stay; the others see the end at
    once; and where one of the first has ended, the next who comes is answered."""
    with contextlib.ExitStack() as stack:
        serving = stack.enter_context(gateward(1, options=["--polled"]))
        acts = [crowded_one(stack, serving.port, number < MOST_OPEN) for number in range(CROWD)]
        acts[0].client.connection.close()
        time.sleep(0.5)
        return [act.made for act in acts + [crowded_one(stack, serving.port, True)]]


def crowded_one(stack, port, has_room):
    begin = time.monotonic()
    client = stack.enter_context(talk(port))
    try:
        ended = "%d" % client.ask(get(BEHAVED)).code()
    except Ended as fault:
        ended = fault.how if fault.came else "closed at once" if fault.how == "closed" else fault.how
    return Crowded(client, Act(ended, "404" if has_room else "closed at once", time.monotonic() - begin))


# Resets.

def client_stages():
    """Of each stage at which a client resets: its name, what it sends, and how much it awaits before."""
    head = ("POST / HTTP/1.1\r\nHost: %s\r\nContent-Length: 5\r\n" % BEHAVED).encode()
    yield "behind the connect", b"", 0
    yield "inside the head", head[:20], 0
    yield "inside the body", head + b"\r\nab", 0
    yield "behind 100", head + b"Expect: 100-continue\r\n\r\n", 20
    yield "while the backend is asked", get(SLOW_BACKEND), 0
    yield "inside the reply", get(LARGE_REPLY), 65_536
    yield "between two requests", get(BEHAVED), 20
    yield "inside a second request", get(BEHAVED) + head[:20], 20


# Of each stage at which a backend resets: its name, the host and the path of the request, and the faults by one of which it is answered 502. Which
# call it is that sees a reset which comes at once isn't determined.
BACKEND_STAGES = [
    ("not there", UNREACHED, "/", ("Open",)), ("behind the connect", REJECTING, "/", ("Receive", "Send", "Open")),
    ("behind the request", RESETTING, "/request", ("Receive",)), ("inside the head", RESETTING, "/head", ("Receive",)),
    ("inside the body", RESETTING, "/body", ("Receive",))]
FRONTS = {"/request": b"", "/head": b"HTTP/1.1 200 OK\r\ncontent-le", "/body": b"HTTP/1.1 200 OK\r\ncontent-length: 9\r\n\r\nabc"}


def resetting(client):
    """A backend that resets at the stage that the path names. What it sent is read before the reset comes."""
    path = client.message().line.split()[1]
    client.send(FRONTS[path])
    time.sleep(0.05)
    client.reset()


def resets(place):
    return [client_resets(place, *stage) for stage in client_stages()] + backends_reset(place)


def client_resets(place, stage, data, awaited):
    """What a client gets behind one that resets at this stage."""
    begin = time.monotonic()
    with talk(place.port()) as client:
        client.send(data)
        while len(client.held) < awaited:
            client.more()
        time.sleep(0.02)
        client.reset()
    with talk(place.port()) as client:
        client.send(get(BEHAVED, close=True))
        return Act("client, %s; then %s" % (stage, answer_and_end(client)), "client, %s; then 200, Asked" % stage, time.monotonic() - begin)


def backends_reset(place):
    """What one client is answered where its backends reset, request for request, with one that is answered behind each."""
    acts = []
    with talk(place.port()) as client:
        for stage, host, path, faults in BACKEND_STAGES:
            begin = time.monotonic()
            reply = client.ask(get(host, path))
            named = faults[0] if reply.fault() in faults else reply.fault()
            then = client.ask(get(BEHAVED)).code()
            acts.append(Act("backend, %s: %d %s; then %d" % (stage, reply.code(), named, then),
                            "backend, %s: 502 %s; then 200" % (stage, faults[0]), time.monotonic() - begin))
    return acts


# Heads.

def filled(front, unit, end):
    """A head of 16,384 bytes, or less by a part of a unit, with as many units as fit between these."""
    return (front + unit * ((MOST_HEAD - len(front) - len(end)) // len(unit)) + end).encode()


def with_many_names(front, end):
    """A head as long, with as many parameters of different names as fit, in no order."""
    names = [first + second + "&" for first in NAME_LETTERS for second in NAME_LETTERS]
    random.Random(1).shuffle(names)
    return (front + "".join(names[:(MOST_HEAD - len(front) - len(end)) // 3]) + end).encode()


def heads():
    """Heads that are answered, each with its name; the first one is what others are compared with. That of `parameters, many matches` is for a
    Route with 64 matches of 16 parameters, of which 15 are the last ones in the request; so is `many names, many matches`."""
    line, host, end = "GET / HTTP/1.1\r\n", "Host: %s\r\n" % BEHAVED, "\r\n\r\n"
    last = "".join("&p%d=" % number for number in range(15))
    yield "one field", filled(line + host + "A: ", "a", end)
    # 98 fields of one length, and no more than fit.
    size = (MOST_HEAD - len(line + host) - 2) // 98
    yield "99 fields", (line + host + 98 * ("A: " + (size - 5) * "a" + "\r\n") + "\r\n").encode()
    yield "empty elements of Connection", filled(line + host + "Connection: ", ",", "a" + end)
    yield "elements of Connection", filled(line + host + "Connection: ", "a,", "b" + end)
    yield "elements that name fields", filled(line + host + "".join("f%d: \r\n" % n for n in range(97)) + "Connection: ", "f96,", "f0" + end)
    yield "parameters", filled("GET /?", "a&", "b HTTP/1.1\r\n" + host + "\r\n")
    yield "escapes in parameters", filled("GET /?", "%41&", "b HTTP/1.1\r\n" + host + "\r\n")
    yield "parameters of many names", with_many_names("GET /?", "b HTTP/1.1\r\n" + host + "\r\n")
    yield "many names, many matches", with_many_names("GET /?", last[1:] + " HTTP/1.1\r\nHost: %s\r\n\r\n" % MANY_MATCHES)
    yield "empty parameters", filled("GET /?", "&", "b HTTP/1.1\r\n" + host + "\r\n")
    yield "parameters, many matches", filled("GET /?", "a&", last[1:] + " HTTP/1.1\r\nHost: %s\r\n\r\n" % MANY_MATCHES)
    yield "elements of a path", filled("GET ", "/a", " HTTP/1.1\r\n" + host + "\r\n")
    yield "cookies", filled(line + host + "Cookie: ", "a=b; ", "c=d" + end)


def heads_of_each_kind(place):
    """The heads on a connection of its own each, and one that has too many fields."""
    acts, times = [], {}
    for name, data in heads():
        times[name] = []
        with talk(place.port()) as client:
            for _ in range(place.of(50, 5)):
                begin = time.perf_counter()
                code = client.ask(data).code()
                times[name].append(time.perf_counter() - begin)
                acts.append(Act("%d" % code, "200", times[name][-1]))
    for name, of in times.items():
        place.notes.append((name, statistics.median(of), max(of)))
    begin = time.perf_counter()
    with talk(place.port()) as client:
        client.send(filled("GET / HTTP/1.1\r\nHost: %s\r\n" % BEHAVED, "a:\r\n", "\r\n"))
        acts.append(Act(refused_and_end(client), "Refused 431", time.perf_counter() - begin))
    return acts


def refused_and_end(client):
    """How a connection ends whose request is refused."""
    try:
        code = client.message().code()
    except (Ended, TimeoutError) as cut:
        return str(cut)
    how, more = client.end(SOON)
    return "Refused %d" % code if (how, more) == ("closed", b"") else "%d, %s" % (code, how)


def print_heads(place):
    """How long the kinds of heads took, and whether none took too long."""
    if not place.notes:
        return False
    of = collections.defaultdict(list)
    for name, half, longest in place.notes:
        of[name].append((half, longest))
    halves = {name: statistics.median(half for half, _ in listed) for name, listed in of.items()}
    plain, fine = halves["one field"], True
    for name, half in halves.items():
        longest = max(longest for _, longest in of[name])
        print("  a head of 16,384 bytes, %s: half within %d us, %.1f times one field; longest %.1f ms" % (
            name, 1e6 * half, half / plain, 1e3 * longest))
        fine = fine and half / plain <= MOST_TIMES and longest <= MOST_SECONDS
    place.notes.clear()
    return fine


# Chunks.

def chunked(count, chunk=b"1\r\na\r\n"):
    return b"Transfer-Encoding: chunked\r\n\r\n" + chunk * count + b"0\r\n\r\n"


def bodies(place):
    """Each body: its name, the fields and the body, and what the request gets."""
    size = place.of(MOST_BODY, 20_000)
    yield "announced", b"Content-Length: %d\r\n\r\n" % size + size * b"a", "200"
    yield "in chunks of one byte", chunked(size), "200"
    yield "in chunks of one byte, one byte too many", chunked(MOST_BODY + 1), "413"
    # Each chunk has one byte of a body and a line of 1,000 bytes: so 16 MiB as it was sent come before 1 MiB of a body.
    yield "in chunks with long lines, too long as sent", chunked(17_000, b"1;" + 998 * b"e" + b"\r\na\r\n"), "413"
    yield "that comes byte by byte", chunked(200), "200"


def chunks(place):
    acts = []
    for name, rest, wanted in bodies(place):
        begin = time.perf_counter()
        with talk(place.port()) as client:
            data = ("POST / HTTP/1.1\r\nHost: %s\r\n" % WHOLE_BODIES).encode() + rest
            with contextlib.suppress(OSError):
                for piece in pieces_of(data, 1 if "byte by byte" in name else len(data)):
                    client.send(piece)
            try:
                ended = "%d" % client.message().code()
            except Ended as cut:
                ended = cut.how
        acts.append(Act("a body %s: %s" % (name, ended), "a body %s: %s" % (name, wanted), time.perf_counter() - begin))
    place.notes.append([act.seconds for act in acts[:2]])
    return acts


def print_chunks(place):
    if not place.notes:
        return False
    announced, in_chunks = (min(of) for of in zip(*place.notes))
    print("  a body in chunks of one byte: %.3f seconds, %.1f times one of its length whose length is announced" % (in_chunks, in_chunks / announced))
    place.notes.clear()
    return in_chunks <= MOST_CHUNKED


# Random and mutated bytes.

ALPHABETS = [bytes(range(256)), b"\r\n :,;=/?&%#\t\0aZ09.*-", b"GET POST / HTTP/1.1\r\nHost: x\r\n\r\nTransfer-Encoding: chunked\r\n0123456789abcdef"]


def mutated(source, data):
    """The bytes with some changes: other bytes, and parts that are left out, come twice or change places."""
    data = bytearray(data)
    for _ in range(source.randint(1, 4)):
        at, size = source.randint(0, len(data)), source.choice((1, 1, 2, 4, 16, 64))
        part = bytes(data[at:at + size])
        data[at:at + size] = source.choice((b"", part * 2, part[::-1], drawn(source, size), part.swapcase()))
    return bytes(data)


def drawn(source, size):
    return bytes(source.choices(source.choice(ALPHABETS), k=size))


def drawn_connections(source, seeds, total):
    """The bytes of connections, so many in all: a part of them are drawn, and others are requests, several on a connection, half of them mutated."""
    while total > 0:
        if source.random() < 0.25:
            data = drawn(source, source.choice((10, 100, 100, 1000, 1000, 20_000)))
        else:
            chosen = source.choices(seeds, k=source.randint(1, 8))
            data = b"".join(mutated(source, seed) if source.random() < 0.5 else seed for seed in chosen)
        total -= len(data)
        yield data


def random_at_door(place):
    source = random.Random(36)
    seeds = [data for _, data in table_rows() if 0 < len(data) < 2_000]
    datas = list(drawn_connections(source, seeds, place.of(10_000_000, 200_000)))
    acts = []
    for data, wanted in zip(datas, courses_of_replay(place.socketed.port, datas)):
        begin = time.monotonic()
        # Behind the end of a connection `serve` takes 64 pieces more of what comes, and then resets it.
        size = max(source.choice((7, 1460, 65_536)), len(data) // 40)
        found = course_of_serve(place.port(), place.socketed, pieces_of(data, size), wanted)
        ended = wanted.ended if found == wanted else "otherwise than by replay: %s" % data[:200]
        acts.append(Act(ended, wanted.ended, time.monotonic() - begin))
    return acts


def admin_seeds():
    """Requests to the admin endpoint; the objects in them are none that serve requests here."""
    route = line("ADDED", gateway_object("HTTPRoute", "mutant", {"hostnames": ["mutant.example.com"], "parentRefs": [{"name": "mutant"}]}))
    event = route.replace('"name":"mutant"', '"name":"mutant","namespace":"mutants"', 1).encode()
    for target in ("/status", "/table", "/healthz", "/changes", "/nothing"):
        yield ("GET %s HTTP/1.1\r\nHost: x\r\n\r\n" % target).encode()
    explained = json.dumps({"at": 0, "request": "GET / HTTP/1.1\r\nHost: x\r\n\r\n"}).encode()
    for target, body in (("/changes", event), ("/changes", event * 3), ("/changes", b"{"), ("/explain", explained)):
        yield ("POST %s HTTP/1.1\r\nHost: x\r\nContent-Length: %d\r\n\r\n" % (target, len(body))).encode() + body
        yield ("POST %s HTTP/1.1\r\nHost: x\r\nTransfer-Encoding: chunked\r\n\r\n%x\r\n" % (target, len(body))).encode() + body + b"\r\n0\r\n\r\n"


def random_at_admin(place):
    source = random.Random(37)
    acts = []
    for data in drawn_connections(source, list(admin_seeds()), place.of(10_000_000, 200_000)):
        begin = time.monotonic()
        ended, wanted = admin_course(place.serving.admin, data)
        acts.append(Act(ended, wanted, time.monotonic() - begin))
    return acts


def idle_at_admin(place):
    """Clients of the admin endpoint who send nothing; beside them others are answered at once."""
    acts, port = [], place.serving.admin
    with contextlib.ExitStack() as stack:
        for _ in range(60):
            stack.enter_context(talk(port))
        for _ in range(place.of(1000, 100)):
            begin = time.monotonic()
            with talk(port) as client:
                client.send(get(BEHAVED, "/healthz", "", True))
                ended = answer_and_end(client)
            took = time.monotonic() - begin
            acts.append(Act(ended if took < 0.1 else ended + ", late", "200, Asked", took))
    return acts


def admin_course(port, data):
    """How a connection with the admin endpoint ended, and how it has to, by a second evaluation of where its requests end."""
    found = steps(data, True)
    *before, last = found
    wanted = "Refused %d" % last if isinstance(last, int) else last.capitalize()
    with talk(port) as client:
        with contextlib.suppress(OSError):
            client.send(data)
        if last in ("closed", "truncated"):
            client.finish()
        try:
            for step in before:
                reply = client.message(step != "continue" and step["method"] == b"HEAD")
                if reply.code() not in ((100,) if step == "continue" else (200, 400, 404, 405, 422)):
                    return "answered %d" % reply.code(), wanted
        except (Ended, TimeoutError) as cut:
            return "%s before all was answered: %s" % (cut, data[:200]), wanted
        if isinstance(last, int):
            return refused_and_end(client), wanted
        how, more = client.end(SOON)
    return wanted if (how, more) == ("closed", b"") else "%s, %s" % (how, more[:200]), wanted


# Where tries are made.

def many_matches(service_name):
    """A Route with 64 matches that ask for 16 parameters each, of which the last is in no request here; and one match that all fit."""
    asked = [{"name": "p%d" % number, "value": ""} for number in range(15)]
    matches = [{"queryParams": asked + [{"name": "q%d" % number, "value": ""}]} for number in range(63)] + [{"path": {"value": "/"}}]
    return line("ADDED", gateway_object("HTTPRoute", "many", {
        "hostnames": [MANY_MATCHES], "parentRefs": [{"name": "g"}],
        "rules": [{"matches": matches, "backendRefs": [{"name": service_name, "port": 80}]}]}))


def answers(stack, small):
    """The ports of the backends, by the names of their Services; `small` is that of one which is there."""
    large = b"HTTP/1.1 200 OK\r\ncontent-length: %d\r\n\r\n" % LARGE + LARGE * b"x"

    def slowly(client):
        client.message()
        time.sleep(0.3)
        client.send(b"HTTP/1.1 200 OK\r\ncontent-length: 0\r\n\r\n")

    def largely(client):
        client.message()
        client.send(large)

    def wholly(client):
        size = len(client.message().body)
        client.send(b"HTTP/1.1 200 OK\r\ncontent-length: 0\r\nsize: %d\r\n\r\n" % size)

    ports = {name: stack.enter_context(backend(answer)) for name, answer in (
        ("large", largely), ("slow", slowly), ("resetting", resetting), ("rejecting", lambda client: client.reset()), ("whole", wholly))}
    return ports | {"small": small, "none": free_port()}


@contextlib.contextmanager
def place_of(is_polled, is_short, small):
    """A place with all backends and their Routes, of which that of the port `small` is there, and one Route for all other hosts, as in `replay`."""
    with contextlib.ExitStack() as stack:
        socketed = Socketed()
        socketed.port = stack.enter_context(backend(socketed.answer))
        serving = stack.enter_context(gateward(WORKERS, descriptors=4096, options=["--polled"] * is_polled))
        serving.change(objects_of(socketed.port) + "".join(backend_lines(*one) for one in answers(stack, small).items()))
        serving.change("".join(route_line(*one) for one in enumerate(BACKENDS)) + many_matches("small"))
        yield Place(serving, socketed, is_polled, is_short)
