"""The admin endpoint of a running gateward."""
import http.client
import json
import threading
from dataclasses import dataclass

from gateward_reasons import REFUSALS

from .say import Outage, say

# The most bytes that the endpoint takes in a body, and gateward in a line.
MOST = 1048576


def refusal_text(number, path=None):
    return f"{number} {REFUSALS.get(number, '')}" + (f", {path}" if path else "")


@dataclass
class Answer:
    """An answer to events: the number of changes before them and after them, how many lines were accepted, and the refused ones by their place."""
    first: int
    front: int
    accepted: int
    refused: dict


def read_answer(text):
    """The answer to events, or the reason why it is none."""
    try:
        lines = [json.loads(line) for line in text.splitlines()]
        last = lines.pop()
        answer = Answer(last["first"], last["front"], last["accepted"], {})
        for line in lines:
            if line["refusal"] == 0:
                return "out of memory"
            answer.refused[line["line"] - 1] = refusal_text(line["refusal"], line.get("path"))
        return answer
    except (ValueError, KeyError, IndexError, TypeError):
        return "which is no answer to events"


class Unanswered(Exception):
    """The endpoint gave no answer, or another one than was asked for."""


class Endpoint:
    def __init__(self, admin):
        self.admin = admin
        host, _, port = admin.rpartition(":")
        self.address = host.strip("[]"), int(port)
        # Whoever asks holds this lock until the answer was noted: so what a status says is of all lines that were noted as taken, and of no others.
        self.lock = threading.RLock()
        self.outage = Outage(f"{admin} isn't reached, and what is to be sent is kept: {{reason}}", f"{admin}: not reached since {{seconds}} s",
                             f"{admin} is reached again after {{seconds}} s")
        self.refuses = False
        self.said = ""

    def call(self, method, path, body=None):
        """The code and the body of a reply. Each request has a connection of its own, since the endpoint serves one at a time."""
        connection = http.client.HTTPConnection(*self.address, timeout=60)
        try:
            connection.timeout = 5
            connection.connect()
            connection.sock.settimeout(60)
            connection.request(method, path, body, {"connection": "close"})
            reply = connection.getresponse()
            found = reply.status, reply.read()
        except (OSError, http.client.HTTPException) as error:
            self.refuses = isinstance(error, ConnectionRefusedError)
            self.outage.fails("call", error)
            raise Unanswered from error
        finally:
            connection.close()
        self.refuses = False
        self.outage.works("call")
        return found

    def post(self, lines):
        """Posts lines, and gives the answer. It is none if memory ran out for a line."""
        code, text = self.call("POST", "/changes", b"\n".join(lines))
        answer = read_answer(text) if code in (200, 422, 503) else "which is no answer to events"
        if isinstance(answer, Answer):
            self.said = ""
            return answer
        if self.said != (code, answer):
            say(f"{self.admin} answers {code}, {answer}: the same lines are sent again")
        self.said = code, answer
        raise Unanswered

    def read(self, path):
        """The lines of a reply, and for how many changes they stand."""
        code, text = self.call("GET", path)
        try:
            lines = [json.loads(line) for line in text.splitlines()] if code == 200 else []
            return lines[:-1], lines[-1]["front"]
        except (ValueError, KeyError, IndexError, TypeError):
            say(f"{self.admin} answers {code} to GET {path}")
            raise Unanswered from None
