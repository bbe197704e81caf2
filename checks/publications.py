"""What a worker decides requests by while changes are published: each publication whole, the last one, and never an older one again."""
import contextlib
import json
import random
import threading
import time

from support.checking import ASKED, NOT_FOUND, OK, Check, answering, each_form, gone, post, route_to
from support.inputs import gateway_object, head, line
from support.scripted import objects_of
from support.serving import backend_lines, gateward
from support.talking import backend, talk

ROUTE_GOES = gone("HTTPRoute", "r")


def redirecting(name, hostname):
    """The event of a Route that redirects each request to a hostname."""
    redirect = [{"type": "RequestRedirect", "requestRedirect": {"hostname": hostname}}]
    return line("ADDED", gateway_object("HTTPRoute", name, {"parentRefs": [{"name": "g"}], "rules": [{"filters": redirect}]}))


def posted(serving, text):
    """The code of the reply to a body of lines, and the line that says how they were taken."""
    code, lines = serving.call("/changes", text.encode())
    return code, lines[-1]


def change_behind(events, front):
    """The change behind so many: the Route, which is the third of five objects, comes last, and then goes and comes again."""
    if front < 4:
        return (events[:2] + events[3:])[front]
    return ROUTE_GOES if front % 2 else events[2]


class Seen(Check):
    @each_form
    def test_each_publication_is_seen_at_the_next_request(self, options):
        """By connections that are kept open, of workers to which nothing is said; and by each new one."""
        with answering(OK) as port, gateward(2, options=options) as serving, talk(serving.port) as one, talk(serving.port) as two:
            route = objects_of(port).splitlines(keepends=True)[2]
            for text, wanted in [("", NOT_FOUND), (objects_of(port), OK)] + [(ROUTE_GOES, NOT_FOUND), (route, OK)] * 20:
                self.assertEqual(posted(serving, text)[0], 200)
                for client in (one, two):
                    for _ in range(2):
                        self.answers(client, ASKED, wanted)

    @each_form
    def test_a_request_is_decided_when_it_is_whole(self, options):
        """What is published while its bytes come counts."""
        with answering(OK) as port, gateward(options=options) as serving, talk(serving.port) as client:
            client.send(ASKED[:-1])
            time.sleep(0.1)
            serving.change(objects_of(port))
            self.answers(client, ASKED[-1:] + ASKED[:-1], OK)
            time.sleep(0.1)
            serving.change(ROUTE_GOES)
            self.answers(client, ASKED[-1:], NOT_FOUND)

    @each_form
    def test_a_refused_line_publishes_nothing_of_its_own(self, options):
        with answering(OK) as port, gateward(options=options) as serving, talk(serving.port) as client:
            serving.change(objects_of(port))
            self.assertEqual(posted(serving, ROUTE_GOES[:-3])[0], 422)
            self.answers(client, ASKED, OK)
            code, said = posted(serving, "{\n" + ROUTE_GOES + "{\n")
            self.assertEqual((code, said["accepted"], said["refused"], said["front"]), (422, 1, 2, 6))
            self.answers(client, ASKED, NOT_FOUND)

    def drawn(self, serving, port, seed):
        """Drawn steps: a change that is published, a line that is refused, and a request of one of three connections."""
        source = random.Random(seed)
        events = objects_of(port).splitlines(keepends=True)
        front = 0
        with contextlib.ExitStack() as stack:
            clients = [stack.enter_context(talk(serving.port)) for _ in range(3)]
            for _ in range(150):
                step = source.choice("cccraaaa")
                if step == "c":
                    code, said = posted(serving, change_behind(events, front))
                    self.assertEqual((code, said["first"], said["front"]), (200, front, front + 1))
                    front += 1
                elif step == "r":
                    code, said = posted(serving, "{")
                    self.assertEqual((code, said["front"]), (422, front))
                else:
                    self.answers(source.choice(clients), ASKED, OK if front > 4 and front % 2 else NOT_FOUND)

    @each_form
    def test_drawn_steps(self, options):
        """A request is decided over all changes that are published."""
        with answering(OK) as port:
            for seed in range(6):
                with self.subTest(seed=seed), gateward(3, options=options) as serving:
                    self.drawn(serving, port, seed)


# A configuration is told by its number: the Route sets it in the request and in the response, and the Service has another endpoint in each.
BACKENDS = 4


def configuration(number, ports):
    """The events of one, which are published together: the Route, the Service, and its slice."""
    edits = [{"type": kind, key: {"set": [{"name": "configuration", "value": "%d" % number}]}}
             for kind, key in (("RequestHeaderModifier", "requestHeaderModifier"), ("ResponseHeaderModifier", "responseHeaderModifier"))]
    return route_to(["s"], filters=edits) + backend_lines("s", ports[number % BACKENDS])


def telling(place):
    """A backend that tells which one it is, and of which configuration the request is."""
    def answer(client):
        number = client.message().fields["configuration"]
        body = json.dumps([place, int(number)]).encode()
        client.send(b"HTTP/1.1 200 OK\r\ncontent-length: %d\r\n\r\n%s" % (len(body), body))
    return backend(answer)


class Readers(Check):
    """Clients that ask again and again while configurations are published."""
    PUBLISHED, READERS = 150, 4

    def read(self, port, over, wrong, counts):
        """Asks on one connection until all are published: each reply is one configuration, and none is older than the one before."""
        last, count = -1, 0
        with talk(port) as client:
            # A connection has at most 1,000 requests.
            while not over.is_set() and count < 999:
                reply = client.ask(ASKED)
                place, number = json.loads(reply.body)
                if reply.fields["configuration"] != str(number) or place != number % BACKENDS:
                    wrong.append("a mix: %s, %s" % (reply.fields, reply.body))
                if number < last:
                    wrong.append("%d behind %d" % (number, last))
                last, count = number, count + 1
        counts.append((last, count))

    @each_form
    def test_each_reply_is_of_one_publication(self, options):
        with contextlib.ExitStack() as stack:
            ports = [stack.enter_context(telling(place)) for place in range(BACKENDS)]
            serving = stack.enter_context(gateward(self.READERS, options=options))
            serving.change(head() + configuration(0, ports))
            over, wrong, counts = threading.Event(), [], []
            readers = [threading.Thread(target=self.read, args=(serving.port, over, wrong, counts)) for _ in range(self.READERS)]
            for reader in readers:
                reader.start()
            for number in range(1, self.PUBLISHED):
                serving.change(configuration(number, ports))
                time.sleep(0.003)
            over.set()
            for reader in readers:
                reader.join()
            self.assertEqual(wrong, [])
            self.assertEqual(len(counts), self.READERS)
            # Who asks behind the last publication sees it.
            with talk(serving.port) as client:
                self.assertEqual(json.loads(client.ask(ASKED).body), [(self.PUBLISHED - 1) % BACKENDS, self.PUBLISHED - 1])
            self.assertTrue(all(count > 5 for _, count in counts), counts)

    @each_form
    def test_a_publication_counts_from_its_answer_on(self, options):
        """Each request that is sent behind the answer to a POST is decided by it, or by a later one."""
        with gateward(2, options=options) as serving, talk(serving.port) as one, talk(serving.port) as two, talk(serving.admin) as admin:
            for number in range(200):
                body = head() * (number == 0) + redirecting("r", "v%d.example.com" % number)
                self.assertEqual(admin.ask(post(body.encode(), "/changes")).code(), 200)
                for client in (one, two):
                    self.assertEqual(client.ask(ASKED).fields["location"], "http://v%d.example.com/a" % number)


class Clock(Check):
    """Of two Routes that ask for the same, the older one serves, by when each was first put where none has a moment written."""

    def location(self, serving):
        with talk(serving.port) as client:
            return client.ask(ASKED).fields["location"]

    def test_the_first_of_two_moments_is_the_older_one(self):
        with gateward() as serving:
            serving.change(head() + redirecting("z", "z.example.com"))
            time.sleep(1.1)
            serving.change(redirecting("a", "a.example.com"))
            self.assertEqual(self.location(serving), "http://z.example.com/a")

    def test_the_clock_is_that_of_now(self):
        """A Route that is put now is younger than one with a moment of a minute ago, and older than one of a minute later."""
        for name, minutes in (("a", 1), ("z", -1)):
            moment = time.strftime("%Y-%m-%dT%H:%M:%SZ", time.gmtime(time.time() + 60 * minutes))
            with self.subTest(moment=moment), gateward() as serving:
                written = redirecting(name, name + ".example.com").replace('"metadata":{', '"metadata":{"creationTimestamp":"%s",' % moment)
                serving.change(head() + redirecting("m", "m.example.com") + written)
                self.assertEqual(self.location(serving), "http://%s.example.com/a" % ("m" if minutes > 0 else "z"))

    def test_lines_of_one_body_have_one_moment(self):
        """So the key decides, whichever comes first."""
        with gateward() as serving:
            serving.change(head() + redirecting("z", "z.example.com") + redirecting("a", "a.example.com"))
            self.assertEqual(self.location(serving), "http://a.example.com/a")
