"""What the admin endpoint replies, to the byte, and what it takes from many clients at once."""
import contextlib
import glob
import json
import os
import subprocess
import threading
import time

from support.checking import HEALTH, HEALTHY, HOST, SOON, Check, closing, gone, long, post, refused, reply, route_to
from support.inputs import gateway_object, head, line, service
from support.program import PROGRAM, TOP, environment
from support.scripted import objects_of, pieces_of
from support.serving import gateward
from support.talking import get, talk
from support.tries import place_of, random_at_admin

CLASS = line("ADDED", gateway_object("GatewayClass", "c", {"controllerName": "gateward.example/controller"})).rstrip("\n")
GATEWAY = line("ADDED", gateway_object("Gateway", "g", {
    "gatewayClassName": "c", "listeners": [{"name": "http", "port": 80, "protocol": "HTTP"}]})).rstrip("\n")
ROUTE = line("ADDED", gateway_object("HTTPRoute", "r", {
    "hostnames": ["x.example"], "parentRefs": [{"name": "g"}], "rules": [{"backendRefs": [{"name": "s", "port": 80}]}]})).rstrip("\n")
MOST_BODY = 1_048_576


def taken(accepted, first, wrong=0, skipped=0, refusals=""):
    """The reply to a body of lines."""
    text = refusals + '{"accepted":%d,"first":%d,"front":%d,"refused":%d,"skipped":%d}\n' % (accepted, first, first + accepted, wrong, skipped)
    return reply(422 if wrong else 200, text)


def changes(text, field=""):
    return post(text.encode(), "/changes", field)


def explaining(at, request):
    return post(json.dumps({"at": at, "request": request}).encode(), path="/explain")


WHOLE, BROKEN = "GET /a HTTP/1.1\r\nHost: x.example\r\n\r\n", "GET /a HTTP/1.1\r\n"

# Requests of one connection to a new endpoint, each with its reply.
CONVERSATION = [
    (HEALTH, HEALTHY),
    (get(HOST, "/status"), reply(200, '{"front":0}\n')),
    (get(HOST, "/table"), reply(200, '{"front":0}\n')),
    (changes(CLASS + "\n{"), taken(1, 0, 1, refusals='{"line":2,"refusal":1}\n')),
    (get(HOST, "/status?all=1"), reply(200, '{"kind":"GatewayClass","name":"c","status":{"conditions":[{"reason":"Accepted",'
                                 '"status":"True","type":"Accepted"}]}}\n{"front":1}\n')),
    (changes("\n \n" + GATEWAY + "\n\n" + ROUTE + "\n"), taken(2, 1)),
    (changes('{"type":"BOOKMARK","object":{"kind":"Pod","apiVersion":"v1"}}\n'), taken(0, 3, skipped=1)),
    (get(HOST, "/table?of=all"), reply(200, '{"door":0,"hostname":"x.example","listener":"http","match":0,"route":"default/r","rule":0}\n'
                                 '{"front":3}\n')),
    (explaining(0, WHOLE), reply(200, '{"backends":[{"state":"NotFound","weight":1}],"front":3,"listener":"http","match":0,'
                                 '"route":"default/r","rule":0,"verdict":"Choose"}\n{"reason":"Chosen","route":"default/r"}\n')),
    (explaining(1, WHOLE), reply(400)),
    (explaining(0, BROKEN), reply(400)),
    (explaining(0, WHOLE + "x"), reply(400)),
    (post(b"{", path="/explain"), reply(400)),
    (post(b"", path="/explain"), reply(400)),
    (changes(""), taken(0, 3)),
    (changes(gone("HTTPRoute", "r")), taken(1, 3)),
    (get(HOST, "/table"), reply(200, '{"front":4}\n')),
    (get(HOST, "/nope"), reply(404)),
    (post(CLASS.encode(), path="/change"), reply(404)),
    (b"HEAD /status HTTP/1.1\r\nHost: x\r\n\r\n", reply(405, field="allow: GET")),
    (b"PUT /table?a=b HTTP/1.1\r\nHost: x\r\n\r\n", reply(405, field="allow: GET")),
    (post(b"ok", path="/healthz"), reply(405, field="allow: GET")),
    (get(HOST, "/explain"), reply(405, field="allow: POST")),
    (b"DELETE /changes HTTP/1.1\r\nHost: x\r\n\r\n", reply(405, field="allow: POST")),
    (get(HOST, "/healthz", close=True), closing(HEALTHY))]
ALL_SENT = b"".join(data for data, _ in CONVERSATION)
ALL_REPLIES = b"".join(wanted for _, wanted in CONVERSATION)


class Replies(Check):
    def test_each_request_of_a_connection(self):
        with gateward() as serving, talk(serving.admin) as client:
            for data, wanted in CONVERSATION:
                with self.subTest(request=data[:60]):
                    self.answers(client, data, wanted)
            self.ends(client)

    def conversation(self, pieces, pause=0.0):
        with gateward() as serving, talk(serving.admin) as client:
            for piece in pieces:
                client.send(piece)
                time.sleep(pause)
            self.ends(client, ALL_REPLIES)

    def test_all_requests_in_one_piece(self):
        self.conversation([ALL_SENT])

    def test_all_requests_byte_by_byte(self):
        self.conversation(pieces_of(ALL_SENT, 1), 0.0005)

    def test_all_requests_in_pieces(self):
        for size in (7, 100, 1000):
            self.conversation(pieces_of(ALL_SENT, size), 0.001)

    def test_each_request_on_a_connection_of_its_own(self):
        with gateward() as serving:
            for data, wanted in CONVERSATION:
                with talk(serving.admin) as client:
                    client.send(data)
                    client.finish()
                    self.ends(client, wanted)

    def test_a_thousand_requests_are_the_last(self):
        with gateward() as serving, talk(serving.admin) as client:
            client.send(HEALTH * 1001)
            self.ends(client, HEALTHY * 999 + closing(HEALTHY))

    def test_a_route_that_comes_and_goes(self):
        """The statuses are those of all changes that are published, and a refused line stands beside the one that takes the Route away."""
        with gateward() as serving, talk(serving.admin) as client:
            for text, wanted, routes in ((objects_of(1).replace("\n", "\n \n"), taken(5, 0), b'"attachedRoutes":1'),
                                         (gone("HTTPRoute", "r") + "{", taken(1, 5, 1, refusals='{"line":2,"refusal":1}\n'), b'"attachedRoutes":0')):
                self.answers(client, changes(text), wanted)
                self.assertIn(routes, client.ask(get(HOST, "/status")).body)
            self.answers(client, changes(""), taken(0, 6))

    def test_a_body_that_awaits_the_answer_100(self):
        with gateward() as serving, talk(serving.admin) as client:
            head_, body = changes(CLASS, "Expect: 100-continue").split(b"\r\n\r\n")
            self.answers(client, head_ + b"\r\n\r\n", b"HTTP/1.1 100 Continue\r\n\r\n")
            self.answers(client, body, taken(1, 0))

    def test_the_largest_body(self):
        """One line of 1 MiB, which is the longest one; with an announced length and in chunks."""
        text = CLASS + " " * (MOST_BODY - len(CLASS))
        chunks = b"".join(b"%x\r\n%s\r\n" % (len(part), part) for part in pieces_of(text.encode(), 60_000)) + b"0\r\n\r\n"
        with gateward() as serving, talk(serving.admin) as client:
            self.answers(client, changes(text), taken(1, 0))
            self.answers(client, b"POST /changes HTTP/1.1\r\nHost: x\r\nTransfer-Encoding: chunked\r\n\r\n" + chunks, taken(1, 1))

    def test_a_byte_more(self):
        """Said before the body, and within a chunk: the reply comes whole, and nothing is taken."""
        text = CLASS + " " * (MOST_BODY + 1 - len(CLASS))
        chunk = b"POST /changes HTTP/1.1\r\nHost: x\r\nTransfer-Encoding: chunked\r\n\r\n100001\r\n" + text.encode()
        with gateward() as serving:
            for data in (changes(text), chunk):
                with talk(serving.admin) as client:
                    with contextlib.suppress(OSError):
                        client.send(data)
                    self.ends(client, refused(413))
            self.assertEqual(serving.call("/status"), (200, [{"front": 0}]))

    def test_what_is_no_whole_request(self):
        """The next client is served all the same."""
        long_head = b"GET /healthz HTTP/1.1\r\nHost: x\r\nX: " + b" " * 16_384
        refusals = [(long_head, refused(431)), (b"GET /healthz HT", b""), (b"", b""),
                    (HEALTH + b"GET\r\n\r\n", HEALTHY + refused(400)), (HEALTH + b"GET /h", HEALTHY),
                    (b"GET /healthz HTTP/1.0\r\nHost: x\r\n\r\n" + HEALTH, closing(HEALTHY))]
        with gateward() as serving:
            for data, wanted in refusals:
                with self.subTest(request=data[:60]), talk(serving.admin) as client:
                    client.send(data)
                    client.finish()
                    self.ends(client, wanted)

    def test_a_client_that_resets(self):
        """Inside a request, and where its reply can't be written: what was taken stays, and the next client is served."""
        with gateward() as serving:
            for data in (b"", HEALTH[:10], changes(CLASS)[:-5], changes(CLASS), HEALTH * 100):
                with talk(serving.admin) as client:
                    client.send(data)
                    time.sleep(0.05)
                    client.reset()
                with talk(serving.admin) as client:
                    self.answers(client, HEALTH, HEALTHY)
            self.assertEqual(serving.call("/changes", b"")[1][-1]["front"], 1)

    def test_random_bytes(self):
        """Each connection ends as a second evaluation of where its requests end has it."""
        with gateward() as small, place_of(False, True, small.port) as place:
            acts = random_at_admin(place)
            self.assertEqual([act for act in acts if act.ended != act.wanted], [])
            self.assertGreater(len(acts), 10)


class Texts(Check):
    """What `serve` says of objects is what the commands print of the same lines."""

    def printed(self, words, events):
        done = subprocess.run([PROGRAM, *words], input=events, stdout=subprocess.PIPE, env=environment([PROGRAM, *words]), timeout=SOON)
        return done.stdout.splitlines(keepends=True)

    def test_statuses_and_explanations_of_the_examples(self):
        requests = ["GET / HTTP/1.1\r\nHost: x\r\n\r\n", "GET /cart HTTP/1.1\r\nHost: shop.example.com\r\n\r\n"]
        for path in sorted(glob.glob(os.path.join(TOP, "examples", "*.jsonl"))):
            with self.subTest(path=os.path.basename(path)):
                with open(path, "rb") as file:
                    events = file.read()
                with open(path.replace(".jsonl", ".doors")) as file:
                    doors = file.read().split()
                self.compared(events, doors, requests)

    def compared(self, events, doors, requests):
        with gateward(doors=[door.split("=")[0] for door in doors]) as serving:
            serving.call("/changes", events)
            statuses = [text for text in self.printed(["status", *doors], events) if text.startswith(b'{"kind"')]
            with talk(serving.admin) as client:
                *found, front = client.ask(get(HOST, "/status")).body.splitlines(keepends=True)
                self.assertEqual(found, statuses)
                for request in requests if doors else []:
                    explained = self.printed(["explain", "--request", json.dumps(request), *doors], events)
                    wanted = b"".join(text for text in explained if b'"refusal":' not in text)
                    self.assertEqual(client.ask(explaining(0, request)).body, wanted)


class AtOnce(Check):
    """Many clients, each with several connections: each change stands once among all."""
    CLIENTS, BODIES = 32, 6

    def submit(self, port, number, came):
        """Submits bodies of one to four Services on a connection each, some of which have a line that is refused."""
        for body in range(self.BODIES):
            count = 1 + (number + body) % 4
            lines = [service("s-%d-%d-%d" % (number, body, place)) for place in range(count)] + ["{\n"] * (body % 2)
            with talk(port) as client:
                said = json.loads(client.ask(changes("".join(lines), "Connection: close")).body.splitlines()[-1])
            came.append((said["first"], said["accepted"], said["front"], said["refused"], count, body % 2))

    def test_the_changes_of_many_clients(self):
        with gateward() as serving:
            came = []
            threads = [threading.Thread(target=self.submit, args=(serving.admin, number, came)) for number in range(self.CLIENTS)]
            for thread in threads:
                thread.start()
            for thread in threads:
                thread.join()
            self.assertEqual(len(came), self.CLIENTS * self.BODIES)
            self.stand_once(came, serving)

    def stand_once(self, came, serving):
        """The replies' intervals from first to front are disjoint, and are all changes together."""
        front = 0
        for first, accepted, after, refused, count, wrong in sorted(came):
            self.assertEqual((first, accepted, after, refused), (front, count, front + count, wrong))
            front = after
        self.assertEqual(serving.call("/changes", b"")[1][-1]["front"], front)

    def test_tables_that_are_read_meanwhile(self):
        """Each table and each status that is read while a Gateway's Routes are put and taken away together is of one publication."""
        routes = "".join(route_to(["s"], "r%d" % number) for number in range(20))
        away = "".join(gone("HTTPRoute", "r%d" % number) for number in range(20))
        with gateward() as serving:
            serving.change(head() + service("s"))
            over, wrong = threading.Event(), []
            reader = threading.Thread(target=self.read, args=(serving, over, wrong))
            reader.start()
            for _ in range(40):
                serving.change(routes)
                serving.change(away)
            over.set()
            reader.join()
            self.assertEqual(wrong, [])

    def read(self, serving, over, wrong):
        last, count = 0, 0
        while not over.is_set() or not count:
            rows = serving.call("/table")[1]
            statuses = serving.call("/status")[1]
            for lines, routes in ((rows, len(rows) - 1), (statuses, sum(text.get("kind") == "HTTPRoute" for text in statuses))):
                # Three objects, and then twenty Routes are put and taken away in turn.
                front = lines[-1]["front"]
                if (front - 3) % 20 or routes != (front - 3) // 20 % 2 * 20 or front < last:
                    wrong.append((front, routes, last))
                last = front
            count += 1


LAST = get(HOST, "/healthz", close=True)


class Idle(Check):
    """Clients who say nothing, or little, hold nobody up."""
    WAITING, MOST_WAITING = 60, 64

    def seconds(self, port):
        """Within how many seconds a new client has its reply."""
        begin = time.monotonic()
        with talk(port) as client:
            self.answers(client, LAST, closing(HEALTHY))
        return time.monotonic() - begin

    def beside_idle(self, count):
        """So many are answered, each within 100 milliseconds: but for one who comes while the slow client has its two seconds, and few for whom the
        machine was late."""
        with gateward() as serving, contextlib.ExitStack() as stack:
            waiting = [stack.enter_context(talk(serving.admin)) for _ in range(self.WAITING)]
            slow, over = stack.enter_context(talk(serving.admin)), threading.Event()
            sender = threading.Thread(target=self.drip, args=(slow, 1, over))
            sender.start()
            time.sleep(0.1)
            took = [self.seconds(serving.admin) for _ in range(count)]
            over.set()
            sender.join()
            late = sorted(one for one in took if one > 0.1)
            self.assertLess(sum(late), 3, late)
            self.assertLessEqual(len(late), 1 + count // 100, late)
            # What it sent on behind that end may reset the connection.
            self.assertIn(slow.end(SOON)[0], ("closed", "reset"))
            for client in waiting:
                self.answers(client, LAST, closing(HEALTHY))

    def drip(self, client, pause, over):
        """Sends a byte after each pause, until its connection has ended."""
        for at in range(len(HEALTH)):
            with contextlib.suppress(OSError):
                client.send(HEALTH[at:at + 1])
            if over.wait(pause):
                return

    def test_idle_clients_hold_nobody_up(self):
        self.beside_idle(100)

    @long
    def test_idle_clients_hold_nobody_up_for_long(self):
        self.beside_idle(1000)

    def test_a_client_that_is_done(self):
        with gateward() as serving, talk(serving.admin) as done:
            self.answers(done, HEALTH, HEALTHY)
            took = self.seconds(serving.admin)
            self.assertTrue(0.5 < took < 2, took)
            self.ends(done)

    def test_a_client_that_is_slow(self):
        with gateward() as serving, talk(serving.admin) as slow:
            over = threading.Event()
            sender = threading.Thread(target=self.drip, args=(slow, 0.2, over))
            sender.start()
            time.sleep(0.1)
            took = self.seconds(serving.admin)
            over.set()
            sender.join()
            self.assertTrue(1 < took < 3, took)

    def test_a_client_too_many(self):
        with gateward() as serving, contextlib.ExitStack() as stack:
            first, *others = [stack.enter_context(talk(serving.admin)) for _ in range(self.MOST_WAITING)]
            time.sleep(0.1)
            first.connection.settimeout(0.1)
            with self.assertRaises(TimeoutError):
                first.more()
            last = stack.enter_context(talk(serving.admin))
            self.ends(first)
            for client in others + [last]:
                self.answers(client, LAST, closing(HEALTHY))


class Descriptors(Check):
    def test_none_is_kept(self):
        """Behind hundreds of connections that end in each way."""
        with gateward() as serving:
            serving.change(objects_of(1))
            before = serving.descriptors()
            for number in range(300):
                with talk(serving.admin) as client:
                    client.send(HEALTH[:number % (len(HEALTH) + 1)] if number % 3 else get(HOST, "/status", close=True))
                    if number % 3 == 2:
                        client.reset()
                    else:
                        client.finish()
                        client.end(SOON)
            self.settles(serving, before)
