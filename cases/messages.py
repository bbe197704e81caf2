#!/usr/bin/env python3
"""Scripts of `replay` out of tables of messages, and what it has to print: a second evaluation of how bytes become messages.

  ../messages.py requests|responses input|text

It is called in the folder of a case, and reads the table `rows` there: each line is a message in the written form, a `|`, and by hand what
it gives. In that form `^` stands for CR LF, `\\r`, `\\n`, `\\t` and `\\0` for what they say, `\\x0b` for a byte in two hexadecimal digits,
and `~` for what the line `~ = ..` of the table has. A row of five columns is a text, one that comes so often, how often, a text
behind it, and what they give. Lines with `# ` say where the rows below them come from, and are passed over.

What a row gives is compared with the second evaluation of the same bytes, so `text` ends with 1 where the two differ.

Requests: each is told by its method, its target and its host as they are sent on, and its body; `continue` is the answer 100; and the last
word is how the connection ends when the client ends it behind the row: `closed`, `truncated`, `asked`, `enough` or the code of a refusal.
Each row comes whole, byte by byte, and cut in two at each place; a `~` isn't cut. A row of five columns comes whole and in
pieces of 1,460 bytes, or else in pieces of 65,536; and with its last 24 bytes one by one.

Responses: each is told by its code, its phrase, the content-length that the client gets or `-`, and its body; or by its fault. A `!` in front
is a response to HEAD. Of the backend's bytes 1,024 at most are read first, and then 8,192 at a time: so each row comes alone, and behind
interim responses of such lengths that the first read, or the second, ends inside of it, at three of its places behind a `~`.
"""
import json
import re
import sys

SOCKET = "10.0.0.1:8080"
EVENTS = r"""event {"type":"ADDED","object":{"apiVersion":"gateway.networking.k8s.io/v1","kind":"GatewayClass","metadata":{"name":"c"},"spec":{"controllerName":"gateward.example/controller"}}}
event {"type":"ADDED","object":{"apiVersion":"gateway.networking.k8s.io/v1","kind":"Gateway","metadata":{"name":"g"},"spec":{"gatewayClassName":"c","listeners":[{"name":"http","port":80,"protocol":"HTTP"}]}}}
event {"type":"ADDED","object":{"apiVersion":"gateway.networking.k8s.io/v1","kind":"HTTPRoute","metadata":{"name":"r"},"spec":{"parentRefs":[{"name":"g"}],"rules":[{"backendRefs":[{"name":"s","port":80}]}]}}}
event {"type":"ADDED","object":{"apiVersion":"v1","kind":"Service","metadata":{"name":"s"},"spec":{"ports":[{"port":80}]}}}
event {"type":"ADDED","object":{"apiVersion":"discovery.k8s.io/v1","kind":"EndpointSlice","metadata":{"name":"s-1","labels":{"kubernetes.io/service-name":"s"}},"addressType":"IPv4","ports":[{"port":8080}],"endpoints":[{"addresses":["10.0.0.1"]}]}}
publish"""

PHRASES = {400: "Bad Request", 413: "Content Too Large", 431: "Request Header Fields Too Large", 501: "Not Implemented", 502: "Bad Gateway"}
# The most bytes of one `send` of a long row: a line of a script has a limit.
MOST_SENT = 65536
MOST_HEAD, MOST_FIELDS, MOST_LINE, MOST_TRAILERS = 16384, 100, 1024, 16384
PATH, QUERY = rb"/[^<>#`?]*", rb'\?[^"<>#]*'
TOKEN = rb"[!#$%&'*+.^_`|~0-9A-Za-z-]+"
ONE_CONNECTION = {b"connection", b"keep-alive", b"proxy-connection", b"trailer", b"transfer-encoding", b"upgrade", b"content-length"}


# The rules.

def head_in(data):
    """Where the first head begins and ends (RFC 9112 sections 2.1 and 2.2), or None in the place of an end."""
    start = 0
    while match := re.compile(rb"\r?\n").match(data, start):
        start = match.end()
    end = re.compile(rb"\n\r?\n").search(data, start)
    return start, end.end() if end else None


def fields_in(lines):
    """Field lines (RFC 9112 section 5), or None where one isn't."""
    fields = []
    for line in lines:
        match = re.fullmatch(rb"(" + TOKEN + rb"):[ \t]*([\t\x20-\x7e\x80-\xff]*)", line)
        if not match:
            return None
        fields.append((match[1].lower(), match[2].rstrip(b" \t")))
    return fields


def lines_of(head):
    return [re.sub(rb"\r$", b"", line) for line in head.split(b"\n")[:-2]]


def values(fields, name):
    return [value for other, value in fields if other == name]


def elements(fields, name):
    """The elements of a list (RFC 9110 section 5.6.1), in lower case."""
    return [part.strip(b" \t").lower() for value in values(fields, name) for part in value.split(b",") if part.strip(b" \t")]


def is_utf8(text):
    try:
        return text.decode() is not None
    except UnicodeDecodeError:
        return False


def is_host(text):
    match = re.fullmatch(rb"([0-9A-Za-z._-]{1,253}|\[[0-9A-Fa-f:.]{1,251}\])(:[0-9]{0,5})?", text)
    return bool(match) and int((match[2] or b":")[1:] or b"0") <= 65535


def number_in(fields):
    """The number of Content-Length (RFC 9112 section 6.3): None where there is none, and -1 where it is invalid."""
    numbers = [int(value) if re.fullmatch(rb"[0-9]+", value) else -1 for value in values(fields, b"content-length")]
    return None if not numbers else numbers[0] if min(numbers) == max(numbers) else -1


def chunks(data, most):
    """The body of a chunked message (RFC 9112 section 7.1) and how many bytes it takes; or why no bytes behind these make it one; or None
    where more bytes are needed. The limit of a body as it was sent isn't there: no table comes near."""
    body, at = b"", 0
    while True:
        line = re.compile(rb"[0-9A-Fa-f]{0,16}").match(data, at)
        end = line.end()
        if end > at:
            end = re.compile(rb"[ \t]*(;[^\r\n]*)?").match(data, end).end()
        if end - at > MOST_LINE:
            return "malformed"
        if end == len(data):
            return None
        if end == at or data[end:end + 2] not in (b"\r", b"\r\n"):
            return "malformed"
        if data[end:] == b"\r":
            return None
        size, at = int(line[0], 16), end + 2
        if size == 0:
            break
        body += data[at:at + size]
        at += size
        if len(body) > most:
            return "big"
        if data[at:at + 2] not in (b"", b"\r", b"\r\n"):
            return "malformed"
        if len(data) < at + 2:
            return None
        at += 2
    if data[at:at + 2] == b"\r\n":
        return body, at + 2
    end = data.find(b"\r\n\r\n", at)
    if 0 <= end <= at + MOST_TRAILERS - 4:
        return body, end + 4
    return "trailers" if len(data) - at > MOST_TRAILERS else None


def request_in(head):
    """The request of a head, without its body, or the code by which it is refused."""
    line, *lines = lines_of(head)
    match = re.fullmatch(rb"(" + TOKEN + rb") ([\x21-\x7e\x80-\xff]+) HTTP/1\.([01])", line)
    fields = fields_in(lines)
    if not match or fields is None:
        return 400
    if len(fields) > MOST_FIELDS:
        return 431
    method, target, minor = match[1], match[2], int(match[3])
    if method == b"CONNECT" or target == b"*":
        return 501
    absolute = re.fullmatch(rb"(?i:https?)://([^/?#]*)(" + PATH + rb")?(" + QUERY + rb")?", target)
    if not is_utf8(target) or not absolute and not re.fullmatch(PATH + rb"(" + QUERY + rb")?", target):
        return 400
    hosts = values(fields, b"host")
    authority = absolute[1] if absolute else (hosts or [b""])[0]
    if len(hosts) != 1 or not is_host(hosts[0]) or not is_host(authority):
        return 400
    target = (absolute[2] or b"/") + (absolute[3] or b"") if absolute else target
    codings, number = elements(fields, b"transfer-encoding"), number_in(fields)
    chunked = bool(values(fields, b"transfer-encoding"))
    if chunked and (number is not None or minor == 0 or codings[-1:] != [b"chunked"]):
        return 400
    if len(codings) > 1:
        return 501
    if number == -1:
        return 400
    if (number or 0) > 1048576:
        return 413
    return {"method": method, "target": target, "host": authority, "minor": minor, "fields": fields, "chunked": chunked, "number": number}


def steps(data, over):
    """The steps of a connection: what is answered, and how it ends."""
    found, at, count = [], 0, 0
    while True:
        start, end = head_in(data[at:at + MOST_HEAD])
        if end is None:
            if len(data) - at > MOST_HEAD:
                return found + [431]
            return found + ([("closed", "truncated")[start < len(data) - at]] if over else [])
        request = request_in(data[at + start:at + end])
        if isinstance(request, int):
            return found + [request]
        at += end
        expects = [value.lower() for value in values(request["fields"], b"expect")]
        if expects == [b"100-continue"] and request["minor"] == 1 and (request["chunked"] or request["number"]):
            found.append("continue")
        if request["chunked"]:
            came = chunks(data[at:], 1048576)
            if isinstance(came, str):
                return found + [{"malformed": 400, "trailers": 431, "big": 413}[came]]
        else:
            number = request["number"] or 0
            came = (data[at:at + number], number) if len(data) >= at + number else None
        if came is None:
            return found + (["truncated"] if over else [])
        request["body"] = came[0]
        at += came[1]
        count += 1
        closes = request["minor"] == 0 or b"close" in elements(request["fields"], b"connection")
        ended = "asked" if closes else "enough" if count == 1000 else None
        request["last"] = bool(ended)
        found.append(request)
        if ended:
            return found + [ended]


def response_in(data, to_head):
    """A response out of all bytes of a backend, or its fault."""
    for _ in range(17):
        start, end = head_in(data[:MOST_HEAD])
        if end is None:
            return "Head" if len(data) > MOST_HEAD else "Cut"
        line, *lines = lines_of(data[start:end])
        match = re.fullmatch(rb"HTTP/1\.[01] ([0-9]{3})(?: ([\t\x20-\x7e\x80-\xff]*))?", line)
        fields = fields_in(lines)
        if not match or fields is None or len(fields) > MOST_FIELDS or match[1] == b"101":
            return "Head"
        data = data[end:]
        if not match[1].startswith(b"1"):
            break
    else:
        return "Head"
    codings, number = elements(fields, b"transfer-encoding"), number_in(fields)
    response = {"code": int(match[1]), "phrase": match[2] or b"", "fields": fields, "body": b""}
    if to_head or response["code"] in (204, 304):
        shown = number is not None and 0 <= number < 2 ** 64 and response["code"] != 204
        return response | {"length": number if shown else None}
    if values(fields, b"transfer-encoding"):
        if number is not None or codings != [b"chunked"]:
            return "Body"
        came = chunks(data, 8388608)
        if came is None or isinstance(came, str):
            return {None: "Cut", "malformed": "Body", "trailers": "Body", "big": "TooBig"}[came]
        body = came[0]
    elif number == -1:
        return "Body"
    else:
        body = data if number is None else data[:number]
        if len(body) > 8388608:
            return "TooBig"
        if number is not None and len(body) < number:
            return "Cut"
    return response | {"body": body, "length": len(body)}


def passed(fields, more):
    gone = ONE_CONNECTION | more | set(elements(fields, b"connection"))
    return b"".join(name + b": " + value + b"\r\n" for name, value in fields if name not in gone)


def forwarded(request):
    size = b"content-length: %d\r\n" % len(request["body"]) if request["chunked"] or request["number"] is not None else b""
    return (request["method"] + b" " + request["target"] + b" HTTP/1.1\r\nhost: " + request["host"] + b"\r\n"
            + passed(request["fields"], {b"host", b"te", b"expect"}) + b"via: 1.%d gateward\r\n" % request["minor"]
            + size + b"connection: close\r\n\r\n" + request["body"])


def replied(response, last):
    size = b"" if response["length"] is None else b"content-length: %d\r\n" % response["length"]
    return (b"HTTP/1.1 %03d " % response["code"] + response["phrase"] + b"\r\n" + passed(response["fields"], set()) + size
            + b"connection: close\r\n" * last + b"\r\n" + response["body"])


def own(code, last, fault=None):
    fault = "x-gateward-fault: %s\r\n" % fault if fault else ""
    close = "connection: close\r\n" if last else ""
    return ("HTTP/1.1 %d %s\r\n%scontent-length: 0\r\n%s\r\n" % (code, PHRASES[code], fault, close)).encode()


# What is told of them, to be compared with what the rows say.

def shown(data):
    if len(data) > 1000:
        return "%d bytes" % len(data)
    return "".join({13: "\\r", 10: "\\n", 0: "\\0"}.get(byte, chr(byte) if 32 <= byte < 127 else "\\x%02x" % byte) for byte in data)


def told_steps(found):
    return " ".join(str(step) if not isinstance(step, dict) else "%s [%s]" % (
        " ".join(shown(step[part]) for part in ("method", "target", "host")), shown(step["body"])) for step in found)


def told_response(response):
    if isinstance(response, str):
        return response
    length = "-" if response["length"] is None else response["length"]
    return "%d %s %s [%s]" % (response["code"], shown(response["phrase"]), length, shown(response["body"]))


# Scripts, and their texts.

def text_of(data):
    return data.decode("utf-8" if is_utf8(data) else "latin-1")


class Script:
    """The lines of a script, and of the text that it prints."""

    def __init__(self):
        self.lines, self.text = EVENTS.split("\n"), []
        self.statuses, self.refused, self.answer = {}, 0, None
        self.tell(front=5)

    def step(self, *parts):
        self.lines.append(" ".join(part if isinstance(part, str) else json.dumps(part.decode("latin-1"), ensure_ascii=False) for part in parts))

    def tell(self, **members):
        self.text.append(json.dumps(dict(sorted((members | {"line": len(self.lines)}).items())), ensure_ascii=False, separators=(",", ":")))

    def backend(self, data, fill=0):
        """From now on the backend answers so."""
        self.answer = data + b"x" * fill
        self.step("answer", SOCKET, data, *([str(fill)] if fill else []))

    def serve(self, name, request):
        data = self.answer if self.answer is not None else b"HTTP/1.1 200 OK\r\ncontent-length: 13\r\n\r\n" + SOCKET.encode()
        response = response_in(data, request["method"] == b"HEAD")
        fault = {"fault": response} if isinstance(response, str) else {}
        status = 502 if fault else response["code"]
        self.statuses[str(status)] = self.statuses.get(str(status), 0) + 1
        self.tell(backend="default/s:80", conn=name, endpoint=SOCKET, forward=text_of(forwarded(request)), front=5, listener="http", match=0,
                  route="default/r", rule=0, status=status, **fault)
        return own(502, request["last"], response) if fault else replied(response, request["last"])

    def connection(self, name, pieces):
        """A connection whose bytes come in these pieces, and then end."""
        self.step("open", name, "0", "0")
        data, count, ended = b"", 0, False
        for piece in pieces + [None]:
            self.step("end", name) if piece is None else self.step("send", name, piece)
            if ended:
                self.refused += 1
                self.tell(refusal=8)
                continue
            data += piece or b""
            found = steps(data, piece is None)
            new, count, written = found[count:], len(found), b""
            for step in new:
                if step == "continue":
                    written += b"HTTP/1.1 100 Continue\r\n\r\n"
                elif isinstance(step, int):
                    written += own(step, True)
                elif isinstance(step, dict):
                    written += self.serve(name, step)
            if written:
                self.tell(conn=name, written=text_of(written))
            if new and not isinstance(new[-1], dict) and new[-1] != "continue":
                ended = True
                if isinstance(new[-1], int):
                    self.tell(conn=name, ended="Refused", status=new[-1])
                else:
                    self.tell(conn=name, ended=new[-1].capitalize())

    def print(self, what):
        if what == "input":
            sys.stdout.buffer.write("".join(line + "\n" for line in self.lines).encode())
            return
        summary = {"changes": 5, "front": 5, "refused": self.refused, "requests": sum(self.statuses.values()), "skipped": 0,
                   "statuses": dict(sorted(self.statuses.items()))}
        lines = self.text + [json.dumps(summary, separators=(",", ":"))]
        sys.stdout.buffer.write("".join(line + "\n" for line in lines).encode())


# Tables.

def written(text):
    """The bytes of the written form."""
    plain = {"^": b"\r\n", "\\r": b"\r", "\\n": b"\n", "\\t": b"\t", "\\0": b"\0"}
    parts = re.findall(r"\\x[0-9a-f]{2}|\\.|.", text, re.S)
    return b"".join(plain.get(part) or (bytes([int(part[2:], 16)]) if part.startswith("\\x") else part.encode("latin-1")) for part in parts)


def rows(path="rows"):
    """Of each row: the bytes that aren't cut, the others, whether it is one of five columns, and what it gives."""
    same = b""
    for line in open(path, encoding="latin-1"):
        line = line.rstrip("\n")
        if line.startswith("~ = "):
            same = written(line[4:])
        elif line and not line.startswith("# "):
            *parts, wanted = line.split("|")
            front = same if parts[0].startswith("~") else b""
            data = written(parts[0].removeprefix("~"))
            if len(parts) > 1:
                data += written(parts[1]) * int(parts[2]) + written(parts[3])
            yield line, front, data, len(parts) > 1, wanted


def fail_unless(line, found, wanted):
    if found != wanted:
        sys.exit("%s gives %s" % (line[:200], found))


def pieces_of(data, size):
    return [data[at:at + size] for at in range(0, len(data), size)]


def joined(front, pieces):
    """The pieces behind the bytes that aren't cut."""
    return ([front] if front else []) + pieces


def requests(script):
    for line, front, data, is_long, wanted in rows():
        whole = front + data
        fail_unless(line, told_steps(steps(whole, True)), wanted)
        if is_long:
            if len(whole) < MOST_SENT:
                script.connection("whole", [whole])
                script.connection("pieces", pieces_of(whole, 1460))
            script.connection("bytes", pieces_of(whole[:-24], MOST_SENT) + pieces_of(whole[-24:], 1))
            continue
        script.connection("whole", [whole] if whole else [])
        script.connection("bytes", joined(front, pieces_of(data, 1)))
        for place in range(0 if front else 1, len(data)):
            script.connection("cut", [front + data[:place], data[place:]])


FIRST_READ, SECOND_READ = 1024, 1024 + 8192


def interim(size):
    """An interim response of so many bytes."""
    return b"HTTP/1.1 103 \r\nA: " + b"a" * (size - 22) + b"\r\n\r\n"


def responses(script):
    for number, (line, front, data, is_long, wanted) in enumerate(rows()):
        to_head = data.startswith(b"!")
        data = front + data.removeprefix(b"!")
        fail_unless(line, told_response(response_in(data, to_head)), wanted)
        request = b"%s / HTTP/1.1\r\nHost: x\r\n\r\n" % (b"HEAD" if to_head else b"GET")
        # What is too long for a line is filled by the backend.
        short = data.rstrip(b"x") if len(data) > 1000000 else data
        script.backend(short, len(data) - len(short))
        script.connection("whole", [request])
        first = len(front) or 1
        places = 0 if is_long else max(len(data) - first, 0)
        end = FIRST_READ if len(data) < 1000 and number % 2 else SECOND_READ
        for part in range(min(places, 3)):
            script.backend(interim(end - first - (number + part * places // 3) % places) + data)
            script.connection("cut", [request])


if __name__ == "__main__":
    script = Script()
    {"requests": requests, "responses": responses}[sys.argv[1]](script)
    script.print(sys.argv[2])
