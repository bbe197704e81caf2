"""Requests and replies that come in pieces, one behind another, and how connections end."""
import contextlib
import statistics
import time

from support.checking import ASKED, HOST, NOT_FOUND, OK, SOON, Check, becomes, closing, each_form, post, served
from support.scripted import Socketed, course_of_serve, courses_of_replay, objects_of, pieces_of, table_rows
from support.serving import gateward
from support.talking import backend, get, talk

# Two requests, the second of which awaits the answer 100 and is the last.
TWO = ASKED + b"POST /a HTTP/1.1\r\nHost: x\r\nConnection: close\r\nExpect: 100-continue\r\nContent-Length: 1\r\n\r\nz"
TWO_REPLIES = OK + b"HTTP/1.1 100 Continue\r\n\r\n" + closing(OK)
# So long after a piece the next one is sent, so that it comes by itself.
PAUSE = 0.002
REPLY = b"HTTP/1.1 200 OK\r\ncontent-length: 6\r\n\r\nbodies"


def send_pieces(client, pieces):
    for piece in pieces:
        client.send(piece)
        time.sleep(PAUSE)


class Requests(Check):
    def each_cut(self, options, pieces_at, places):
        with served(options=options) as serving:
            for at in places:
                with talk(serving.port) as client:
                    send_pieces(client, pieces_at(at))
                    self.ends(client, TWO_REPLIES)

    @each_form
    def test_two_requests_in_two_pieces(self, options):
        self.each_cut(options, lambda at: [TWO[:at], TWO[at:]], range(1, len(TWO)))

    @each_form
    def test_two_requests_in_pieces_of_one_length(self, options):
        self.each_cut(options, lambda size: pieces_of(TWO, size), [1, 2, 3, 7, 14, 33, 64, len(TWO)])

    @each_form
    def test_a_thousand_requests_are_the_last(self, options):
        """The 1,000th request of a connection ends it."""
        with gateward(options=options) as serving, talk(serving.port) as client:
            client.send(ASKED * 1001)
            self.ends(client, NOT_FOUND * 999 + closing(NOT_FOUND))

    @each_form
    def test_small_replies_are_sent_at_once(self, options):
        """No reply waits until the one before it was acknowledged, which takes 40 milliseconds where the system joins small pieces."""
        with gateward(options=options) as serving, talk(serving.port) as client:
            one, two = (statistics.median(self.seconds(client, count) for _ in range(40)) for count in (1, 2))
        self.assertLess(two, 2 * one + 0.03)

    def seconds(self, client, count):
        """How long so many requests in one piece take."""
        begin = time.monotonic()
        self.answers(client, ASKED * count, NOT_FOUND * count)
        return time.monotonic() - begin

    @each_form
    def test_many_requests_in_one_piece(self, options):
        """Each is answered in its turn, by what it asks for."""
        with backend(lambda client: answer_path(client)) as port, gateward(options=options) as serving, talk(serving.port) as client:
            serving.change(objects_of(port))
            client.send(b"".join(get(HOST, "/%d" % number) for number in range(100)))
            for number in range(100):
                self.assertEqual(client.message().body, b"/%d" % number)

    @each_form
    def test_the_end_between_requests_closes(self, options):
        with served(options=options) as serving, talk(serving.port) as client:
            client.send(ASKED * 2)
            client.finish()
            self.ends(client, OK * 2)

    @each_form
    def test_the_end_inside_a_request_gets_no_reply(self, options):
        with served(options=options) as serving:
            for data in (ASKED[:20], post(b"abc")[:-1]):
                with talk(serving.port) as client:
                    client.send(ASKED + data)
                    client.finish()
                    self.ends(client, OK)

    @each_form
    def test_the_last_request_that_was_asked_for(self, options):
        """`close`, and HTTP/1.0: what comes behind such a request gets no reply."""
        with served(options=options) as serving:
            for data in (get(HOST, "/a", close=True), b"GET /a HTTP/1.0\r\nHost: x\r\n\r\n"):
                with talk(serving.port) as client:
                    client.send(data + ASKED)
                    self.ends(client, closing(OK))

    @each_form
    def test_the_answer_100_comes_before_the_body(self, options):
        with served(options=options) as serving, talk(serving.port) as client:
            for _ in range(2):
                head = b"POST /a HTTP/1.1\r\nHost: x\r\nExpect: 100-continue\r\nContent-Length: 3\r\n\r\n"
                self.answers(client, head, b"HTTP/1.1 100 Continue\r\n\r\n")
                self.answers(client, b"abc", OK)

    @each_form
    def test_a_reply_of_many_pieces_is_whole(self, options):
        """Of 2 MiB, of which the client has room for a part."""
        reply = b"HTTP/1.1 200 OK\r\ncontent-length: 2097152\r\n\r\n" + bytes(range(256)) * 8192
        with served(reply, options) as serving, talk(serving.port, room=65_536) as client:
            client.send(ASKED)
            time.sleep(0.3)
            self.assertTrue(client.take(len(reply)) == reply, "the reply is another")
            client.send(get(HOST, "/a", close=True))
            self.assertTrue(client.end(SOON) == ("closed", closing(reply)), "the last reply is another")


def answer_path(client):
    path = client.message().line.split()[1].encode()
    client.send(b"HTTP/1.1 200 OK\r\ncontent-length: %d\r\n\r\n%s" % (len(path), path))


class Backends(Check):
    def each_reply(self, options, pieces):
        """What a backend gives in pieces."""
        left = list(pieces)

        def answer(client):
            client.message()
            send_pieces(client, left.pop(0))
        with backend(answer) as port, gateward(options=options) as serving, talk(serving.port) as client:
            serving.change(objects_of(port))
            for _ in range(len(left)):
                self.answers(client, ASKED, REPLY)

    @each_form
    def test_a_reply_in_two_pieces(self, options):
        self.each_reply(options, [[REPLY[:at], REPLY[at:]] for at in range(1, len(REPLY))])

    @each_form
    def test_a_reply_in_pieces_of_one_length(self, options):
        self.each_reply(options, [pieces_of(REPLY, size) for size in (1, 2, 5, 14)])

    @each_form
    def test_a_body_comes_whole_to_its_backend(self, options):
        """1 MiB, with an announced length and in chunks; what the backend gets has a length."""
        body = bytes(range(256)) * 4096
        chunks = b"".join(b"%x\r\n%s\r\n" % (len(part), part) for part in pieces_of(body, 10_000)) + b"0\r\n\r\n"
        taken = []

        def answer(client):
            taken.append(client.message().body)
            client.send(OK)
        with backend(answer) as port, gateward(options=options) as serving, talk(serving.port) as client:
            serving.change(objects_of(port))
            self.answers(client, post(body), OK)
            self.answers(client, b"POST /a HTTP/1.1\r\nHost: x\r\nTransfer-Encoding: chunked\r\n\r\n" + chunks, OK)
        self.assertTrue(taken == [body, body], "another body came")

    @each_form
    def test_a_body_that_its_backend_takes_slowly(self, options):
        """1 MiB, for most of which the system has no room: it comes whole all the same, and each byte once."""
        body, taken = bytes(range(256)) * 4096, []

        def answer(client):
            head = client.take(50)
            while not head.endswith(body[-256:]) or len(head) < len(body):
                time.sleep(0.0005)
                head += client.some(20_000)
            taken.append(head)
            client.send(OK)
        with backend(answer, room=8192) as port, gateward(options=options) as serving, talk(serving.port) as client:
            serving.change(objects_of(port))
            client.send(post(body))
            self.comes(client, OK)
        self.assertTrue(taken[0].split(b"\r\n\r\n", 1)[1] == body, "another body came")

    @each_form
    def test_a_backend_sees_the_end_of_its_connection(self, options):
        """Each exchange has a connection of its own, which is closed behind the reply."""
        ends = []

        def answer(client):
            client.message()
            client.send(OK)
            ends.append(client.end(5))
        with backend(answer) as port, gateward(options=options) as serving, talk(serving.port) as client:
            serving.change(objects_of(port))
            for _ in range(5):
                self.answers(client, ASKED, OK)
            self.assertTrue(becomes(lambda: len(ends) == 5))
        self.assertEqual([came for _, came in ends], [b""] * 5)


class Tables(Check):
    """The rows of the tables of requests among the cases, whose courses have to be those that `replay` prints."""

    def courses(self, options, pieces_for):
        with contextlib.ExitStack() as stack:
            socketed = Socketed()
            socketed.port = stack.enter_context(backend(socketed.answer))
            serving = stack.enter_context(gateward(options=options))
            serving.change(objects_of(socketed.port))
            rows = [(row, data) for row, data in table_rows() if 0 < len(data) < 100_000]
            for (row, data), wanted in zip(rows, courses_of_replay(socketed.port, [data for _, data in rows])):
                self.assertEqual(course_of_serve(serving.port, socketed, pieces_for(data), wanted), wanted, row[:200])

    @each_form
    def test_each_row_in_one_piece(self, options):
        self.courses(options, lambda data: [data])

    @each_form
    def test_each_row_in_small_pieces(self, options):
        self.courses(options, lambda data: pieces_of(data, max(7, len(data) // 40)))
