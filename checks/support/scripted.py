"""What `replay` prints for the bytes of connections, and what `serve` does with the same bytes over sockets."""
import contextlib
import glob
import json
import os
import re
import subprocess
import sys
import threading
from dataclasses import dataclass, field

from .inputs import DOOR
from .program import PROGRAM, TOP, environment
from .talking import LOOPBACK, Ended, Talk, talk

sys.dont_write_bytecode = True
sys.path.append(os.path.join(TOP, "cases"))
from messages import EVENTS, PHRASES, pieces_of, rows, steps, text_of  # noqa: E402, F401

# The most bytes of one `send`, and of all connections of one script: the input of `replay` has limits, and a byte takes up to six there.
MOST_SENT, MOST_SCRIPTED = 65_536, 4_000_000
# A connection that the client may go on with is still open behind so many seconds, and one that has ended is closed within so many.
STILL, SOON = 0.02, 10


@dataclass
class Course:
    """What became of a connection: what the client was written, how it ended, and what the backend was sent."""
    written: str = ""
    ended: str = "not"
    forwards: list = field(default_factory=list)

    def is_ended_by_client(self):
        return self.ended in ("Closed", "Truncated")


def table_rows():
    """The bytes of each row of the tables of requests among the cases, with the row."""
    for path in sorted(glob.glob(os.path.join(TOP, "cases", "replay-requests-*", "rows"))):
        for row, front, data, _, _ in rows(path):
            yield row, front + data


def objects_of(port):
    """Events of a Route for all requests, whose one endpoint is 127.0.0.1:port."""
    events = EVENTS.replace('"10.0.0.1"', '"%s"' % LOOPBACK).replace('"port":8080', '"port":%d' % port)
    return "".join(re.sub("^event ", "", line) + "\n" for line in events.split("\n") if line.startswith("event "))


def script_of(port, datas):
    lines = ["event " + line for line in objects_of(port).splitlines()] + ["publish"]
    for number, data in enumerate(datas):
        lines.append("open %d 0 0" % number)
        lines += ["send %d %s" % (number, json.dumps(piece.decode("latin-1"), ensure_ascii=False)) for piece in pieces_of(data, MOST_SENT)]
        lines.append("end %d" % number)
    return "".join(line + "\n" for line in lines)


def courses_of_script(port, datas):
    """The courses that `replay` prints for connections of these bytes; what a connection is sent behind its end it refuses."""
    words = [PROGRAM, "replay", DOOR]
    done = subprocess.run(words, input=script_of(port, datas).encode(), stdout=subprocess.PIPE, env=environment(words))
    if done.returncode not in (0, 1):
        sys.exit("replay ended with %d: %s" % (done.returncode, done.stdout[-200:]))
    courses = [Course() for _ in datas]
    for line in map(json.loads, done.stdout.splitlines()):
        if "conn" in line:
            course = courses[int(line["conn"])]
            course.written += line.get("written", "")
            course.forwards += [line["forward"]] if "forward" in line else []
            if "ended" in line:
                course.ended = " ".join(str(line[name]) for name in ("ended", "status") if name in line)
    return courses


def courses_of_replay(port, datas):
    """The same of any number of connections, over several scripts."""
    courses, batch = [], []
    for data in datas:
        batch.append(data)
        if sum(map(len, batch)) > MOST_SCRIPTED:
            courses += courses_of_script(port, batch)
            batch = []
    return courses + courses_of_script(port, batch)


class Socketed:
    """A backend that answers as one in `replay` for which the script has no answer, and keeps what it was sent."""

    def __init__(self):
        self.port, self.requests, self.lock = None, [], threading.Lock()

    def answer(self, client: Talk):
        request = client.message()
        with self.lock:
            self.requests.append(request.whole)
        text = "%s:%d" % (LOOPBACK, self.port)
        client.send(("HTTP/1.1 200 OK\r\ncontent-length: %d\r\n\r\n%s" % (len(text), text)).encode())

    def taken(self):
        with self.lock:
            taken, self.requests = self.requests, []
        return taken


def course_of_serve(port, backend, pieces, wanted):
    """The course of a connection that gets these pieces, told as `replay` tells it. Whether a connection that the client ends was Closed or
    Truncated doesn't show, so it is said as it is wanted."""
    with talk(port) as client:
        with contextlib.suppress(OSError):
            for piece in pieces:
                client.send(piece)
        came = b""
        if wanted.is_ended_by_client():
            how, came = until(client, len(wanted.written))
            if how == "open":
                client.finish()
                how, more = client.end(SOON)
                came += more
                how = {"closed": wanted.ended}.get(how, how)
            else:
                how += " before the client ended it"
        else:
            how, came = client.end(SOON)
            how = {"closed": wanted.ended}.get(how, how)
    return Course(text_of(came), how, [text_of(request) for request in backend.taken()])


def until(client, count):
    """Reads so many bytes, and sees whether the connection is open behind them: how it is, and what came."""
    client.connection.settimeout(SOON)
    try:
        came = client.take(count)
    except Ended as ended:
        return ended.how, ended.came
    except TimeoutError:
        return "silent", client.held
    how, more = client.end(STILL)
    return how, came + more
