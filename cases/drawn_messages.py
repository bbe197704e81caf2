#!/usr/bin/env python3
"""Scripts of `replay` with messages that are drawn from a seed, whole and broken, and cut at random; and what it has to print.

  ../drawn_messages.py requests|responses input|text

What the whole messages give stands in the tables here; what the broken ones give is a second evaluation, that of messages.py, in which no
piece counts, but the whole list of bytes.
"""
import random
import sys

sys.dont_write_bytecode = True
from messages import (FIRST_READ, SECOND_READ, Script, fail_unless, interim, response_in, shown, steps, told_response,  # noqa: E402
                      told_steps, written)

# Whole requests, and the steps that each gives.
REQUESTS = """
GET /a HTTP/1.1^Host: x^^|GET /a x []
GET http://h/b?q HTTP/1.1^Host: x^^|GET /b?q h []
PUT /c HTTP/1.1^Host: x^Content-Length: 1^Expect: 100-continue^^z|continue PUT /c x [z]
PUT /d HTTP/1.1^Host: x^Transfer-Encoding: Chunked^Expect: 100-continue^^0^^|continue PUT /d x []
"""
# Whole responses, and what each gives.
RESPONSES = """
HTTP/1.1 100 Continue^^HTTP/1.1 204 No Content^^|204 No Content - []
HTTP/1.1 304 ^Content-Length: 7^^|304  7 []
"""
# Heads of requests that aren't ended, and how their steps begin.
ASKS = """
GET / HTTP/1.1^Host: x^|GET / x
^\\n^POST /b HTTP/1.1\\nHost: Y:1\\n|POST /b Y:1
PUT HTTP://H:80/c?q HTTP/1.1^A: 1^Host: x^|PUT /c?q H:80
DELETE /d HTTP/1.1^Host: [::1]:8^|DELETE /d [::1]:8
"""
# Heads of responses that aren't ended, and how what they give begins.
STATUSES = """
HTTP/1.1 200 OK^|200 OK
^HTTP/1.0 404 Not Found\\n|404 Not Found
HTTP/1.1 100 ^^HTTP/1.1 103 a^A: b^^HTTP/1.1 500 \\x80^|500 \\x80
"""
# Fields that change nothing.
FIELDS = """
Accept: */*^
a:^
A: \\t b \\t\\n
Cookie: a=b; c=d^
X-Y_z~: \\x80:\\x80^
Connection: keep-alive, closed^
Transfer-Encodings: gzip^
Content-Lengths: 9^
"""
# What may follow the size of a chunk, and the last chunk with the trailers.
EXTENSIONS = ["", ";e", ';a="b";c']
ENDS = """
0^^
000;e^^
0^T: t^U: u^^
0^\\n^T: t\\n\\n\\r^^
"""
# Texts by which a message is broken.
BREAKS = """
^
\\n
\\r
\\x20
:
,
0
9
a
\\0
;
\\x80
Host: z^
Content-Length: 2^
Transfer-Encoding: chunked^
Transfer-Encoding: gzip^
Connection: close^
Expect: 100-continue^
HTTP/1.0
"""


def pick(draw, table):
    return draw.choice(table.strip("\n").split("\n"))


def body_of(draw, head):
    """A head with fields and a body, by its size or in chunks, and the body."""
    body = bytes(draw.randrange(256) for _ in range(draw.randrange(41)))
    data = head + b"".join(written(pick(draw, FIELDS)) for _ in range(draw.randrange(4)))
    if draw.randrange(2):
        return data + b"Content-Length: %d\r\n\r\n" % len(body) + body, body
    data += b"Transfer-Encoding: chunked\r\n\r\n"
    size = 1 + draw.randrange(20)
    for at in range(0, len(body), size):
        chunk = body[at:at + size]
        data += b"%x" % len(chunk) + written(draw.choice(EXTENSIONS)) + b"\r\n" + chunk + b"\r\n"
    return data + written(pick(draw, ENDS)), body


def request_of(draw):
    if draw.randrange(2):
        text, told = pick(draw, REQUESTS).split("|")
        return written(text), told
    text, told = pick(draw, ASKS).split("|")
    data, body = body_of(draw, written(text))
    return data, "%s [%s]" % (told, shown(body))


def response_of(draw):
    if draw.randrange(2):
        text, told = pick(draw, RESPONSES).split("|")
        return written(text), told
    text, told = pick(draw, STATUSES).split("|")
    data, body = body_of(draw, written(text))
    return data, "%s %d [%s]" % (told, len(body), shown(body))


def broken(draw, data):
    """The bytes with some bytes at one place taken out, and a text put there."""
    place = draw.randrange(len(data) + 1)
    return data[:place] + written(pick(draw, BREAKS)) + data[place + draw.randrange(3):]


def pieces_of(draw, data):
    pieces = []
    for _ in range(draw.randrange(60)):
        size = 1 + draw.randrange(20)
        pieces, data = pieces + [data[:size]], data[size:]
    return [piece for piece in pieces + [data] if piece]


def requests(script):
    for seed in range(100):
        draw = random.Random(seed)
        parts = [request_of(draw) for _ in range(1 + draw.randrange(5))]
        data = b"".join(part for part, _ in parts)
        fail_unless("seed %d" % seed, told_steps(steps(data, True)), " ".join([told for _, told in parts] + ["closed"]))
        for _ in range(3):
            script.connection("whole%d" % seed, pieces_of(draw, data))
            script.connection("broken%d" % seed, pieces_of(draw, broken(draw, data)))


def responses(script):
    for seed in range(100):
        draw = random.Random(seed)
        (data, told), (behind, _) = response_of(draw), response_of(draw)
        data += behind
        fail_unless("seed %d" % seed, told_response(response_in(data, False)), told)
        for name, to_head in ("whole%d" % seed, False), ("broken%d" % seed, bool(draw.randrange(2))):
            given = broken(draw, data) if name.startswith("broken") else data
            # The second read, and for short ones the first, ends inside of them.
            end = FIRST_READ if len(given) < 1000 and seed % 2 else SECOND_READ
            for front in b"", interim(end - draw.randrange(1 + len(given))):
                script.backend(front + given)
                script.connection(name, [b"%s / HTTP/1.1\r\nHost: x\r\n\r\n" % (b"HEAD" if to_head else b"GET")])


if __name__ == "__main__":
    script = Script()
    {"requests": requests, "responses": responses}[sys.argv[1]](script)
    script.print(sys.argv[2])
