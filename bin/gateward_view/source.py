"""Where the statuses come from: standard input, or the admin endpoint of a running gateward."""
import http.client
import json
import sys

from .texts import Unread, read_explanation, read_status, read_table


def ask(admin, method, path, body=None):
    """The reply's text."""
    name = f"{admin[0]}:{admin[1]}"
    connection = http.client.HTTPConnection(*admin, timeout=60)
    try:
        connection.request(method, path, body)
        reply = connection.getresponse()
        text = reply.read().decode()
    except (OSError, http.client.HTTPException, UnicodeDecodeError) as error:
        raise Unread(f"{name} isn't reached, or is no admin endpoint: {error}") from None
    finally:
        connection.close()
    if reply.status != 200:
        raise Unread(f"{name} answers {reply.status} to {method} {path}")
    return text


def statuses(words):
    if words.admin:
        return read_status(ask(words.admin, "GET", "/status"))
    try:
        return read_status(sys.stdin.buffer.read().decode())
    except UnicodeDecodeError:
        raise Unread("standard input is no text in UTF-8") from None


def rows(words):
    """The rows by which requests are decided, where an endpoint can be asked."""
    return read_table(ask(words.admin, "GET", "/table")) if words.admin else None


def explanation(words):
    """What becomes of the request, where one is given."""
    if words.request is None:
        return None
    try:
        request = json.loads(words.request)
    except ValueError:
        raise Unread("the value of --request is no JSON text in its quotes") from None
    return read_explanation(ask(words.admin, "POST", "/explain", json.dumps({"at": words.at, "request": request})))


def event_lines(words):
    if not words.events:
        return []
    try:
        with open(words.events, encoding="utf-8", errors="replace") as file:
            return file.read().split("\n")
    except OSError as error:
        raise Unread(f"the file of --events can't be read: {error}") from None
