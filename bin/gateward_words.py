"""What is wrong with words of bin/gateward that the program doesn't take, or with a socket that it can't bind.

    synopsis | python3 gateward_words.py usage WORD..    after the exit code 2
    synopsis | python3 gateward_words.py doors WORD..    after the exit code 5

It reads the synopsis, which has the options of each command, and prints one line, or none where it finds nothing. docs/reference.md has the rules.
"""
import difflib
import errno
import json
import os
import re
import socket
import sys

NAMESPACE = re.compile(r"[a-z0-9]([a-z0-9-]{0,61}[a-z0-9])?")
NAME = re.compile(r"[a-z0-9]([a-z0-9.-]{0,251}[a-z0-9])?")
DECIMAL = re.compile(r"0|[1-9][0-9]*")
DOOR_FORM = "a DOOR is namespace/name:port=a.b.c.d:port"
REQUEST_FORM = "'\"GET / HTTP/1.1\\r\\nHost: shop.example.com\\r\\n\\r\\n\"'"
MOST_WORKERS = 64

# The least and the largest number that an option takes. That of --at depends on the DOORs.
NUMBERS = {"workers": (1, MOST_WORKERS), "conns": (1, 1_000_000), "seed": (0, 2**64 - 1), "routes": (1, 4_000), "requests": (0, 100_000)}


class Refused(Exception):
    """A word, and why it isn't taken."""


class Door:
    """A Gateway, the port of its listeners, and the socket at which connections to that port come."""

    def __init__(self, word):
        listener, equals, at = word.partition("=")
        if not equals:
            raise Refused(f"{word} has no `=`; {DOOR_FORM}")
        self.gateway, colon, port = listener.partition(":")
        self.port = number(port, 1, 65535) if colon else None
        if self.port is None:
            raise Refused(f"{word} has no listener port from 1 to 65535 before its `=`; {DOOR_FORM}")
        check_gateway(word, self.gateway)
        self.address, self.socket_port = loopback(word, at)
        self.word = word

    def socket(self):
        return self.address, self.socket_port


def number(text, least, most):
    """The number of decimal digits without a leading zero, where it is from the least to the largest one."""
    return int(text) if len(text) <= 20 and DECIMAL.fullmatch(text) and least <= int(text) <= most else None


def check_gateway(word, gateway):
    namespace, slash, name = gateway.partition("/")
    if not slash:
        raise Refused(f"{word} has no namespace before its Gateway's name; {DOOR_FORM}")
    if not NAMESPACE.fullmatch(namespace):
        raise Refused(f"the namespace of {word} isn't 1 to 63 of a to z, 0 to 9 and `-`, the first and last a letter or digit")
    if not NAME.fullmatch(name):
        raise Refused(f"the Gateway's name in {word} isn't 1 to 253 of a to z, 0 to 9, `-` and `.`, the first and last a letter or digit")


def loopback(word, text):
    """The address and the port of a socket, which has to be one of the host itself."""
    address, colon, port = text.partition(":")
    parts = [number(part, 0, 255) for part in address.split(".")]
    if not colon or len(parts) != 4 or None in parts:
        raise Refused(f"{text or 'nothing'} in {word} is no socket a.b.c.d:port")
    if parts[0] != 127:
        raise Refused(f"the address {address} in {word} isn't in 127.0.0.0/8, where sockets have to be")
    if number(port, 0, 65535) is None:
        raise Refused(f"the socket's port in {word} isn't a number from 0 to 65535")
    return address, int(port)


def close_to(word, known):
    """A known word to which the word is close, as a question."""
    found = difflib.get_close_matches(word, known, 1)
    return f"; did you mean {found[0]}?" if found else ""


def read_commands(synopsis):
    """The options of each command: the words that take a value, the flags, those that have to be given, and whether there are DOORs."""
    commands = {}
    for name, rest in re.findall(r"^usage: gateward ([a-z]+) (.*)$", synopsis, re.M):
        options = re.findall(r"(\[?)--([a-z]+)( [A-Z]+)?", rest)
        commands[name] = {
            "values": [option for _, option, value in options if value],
            "flags": [option for _, option, value in options if not value],
            "needed": [option for bracket, option, _ in options if not bracket],
            "doors": "[DOOR]" in rest,
        }
    return commands


def take_option(command, options, word, words, given):
    """Takes an option, and from the words its value, where that isn't joined to it."""
    name, equals, value = word[2:].partition("=")
    if word[:2] != "--" or name not in options["values"] + options["flags"]:
        known = ["--" + option for option in options["values"] + options["flags"]]
        raise Refused(f"{word} is no option of {command}{close_to('--' + name, known) or ': it has ' + ', '.join(known)}")
    if name in given:
        raise Refused(f"--{name} is given twice")
    if name in options["flags"]:
        if equals:
            raise Refused(f"--{name} takes no value")
    elif not equals:
        if not words or words[0].startswith("-"):
            raise Refused(f"--{name} has no value" + (f": one that begins with `-` is joined to it, as --{name}={words[0]}" if words else ""))
        value = words.pop(0)
    given[name] = value


def take_words(command, options, words):
    """The values of the options, and the DOORs, of words that are the command's."""
    given, doors, words = {}, [], list(words)
    while words:
        word = words.pop(0)
        if word == "--":
            doors += words
            break
        if word.startswith("-"):
            take_option(command, options, word, words, given)
        else:
            doors.append(word)
    if doors and not options["doors"]:
        raise Refused(f"{doors[0]} is too much: {command} takes options alone")
    return given, doors


def read_doors(words):
    doors = []
    for word in words:
        try:
            doors.append(Door(word))
        except Refused as fault:
            hint = f" (a file of input is read from standard input: < {word})" if os.path.exists(word) else ""
            raise Refused(f"{fault}{hint}") from None
    return doors


def check_numbers(given):
    for name, (least, most) in NUMBERS.items():
        if name not in given or number(given[name], least, most) is not None:
            continue
        text = given[name]
        if DECIMAL.fullmatch(text):
            raise Refused(f"--{name} {text} is {'above ' + str(most) if int(text) > most else 'below ' + str(least)}")
        raise Refused(f"the value of --{name}, {text or 'which is empty'}, isn't a number in decimal digits without a leading zero")


def check_at(given, doors):
    """`explain` asks at one of its DOORs."""
    if "request" not in given:
        return
    if not doors:
        raise Refused("explain needs a DOOR, at which the request comes")
    if number(given.get("at", "0"), 0, len(doors) - 1) is None:
        there = f"there {'is' if len(doors) == 1 else 'are'} {len(doors)}"
        raise Refused(f"no DOOR has the number {given['at']} of --at: they count from 0 on, and {there}")


def check_request(text):
    """Whether the text is a JSON text of one whole request."""
    try:
        request = json.loads(text)
    except ValueError:
        request = None
    if not isinstance(request, str):
        raise Refused(f"the value of --request is no JSON text in its quotes, as {REQUEST_FORM}")
    if any(ord(character) > 255 for character in request):
        raise Refused("the request has a character above U+00FF, and each stands for one byte")
    why = why_no_request(request)
    if why:
        raise Refused(f"the value of --request isn't one whole request: {why}")


def why_no_request(request):
    """What is wrong with the head of a request, by RFC 9112, or with what stands behind it."""
    front = re.match(r"(\r?\n)*", request).end()
    end = re.compile(r"\n\r?\n").search(request, front)
    if not end:
        return "no empty line, \\r\\n\\r\\n, ends its head"
    first, *lines = re.split(r"\r?\n", request[front:end.start()].rstrip("\r"))
    return why_no_line(first) or why_no_fields(first, lines, request[end.end():])


def why_no_line(line):
    parts = line.split(" ")
    if len(parts) != 3 or not all(parts):
        return f"its first line, {line[:60] or 'which is empty'}, isn't a method, a target and HTTP/1.1 with single spaces between"
    method, target, version = parts
    if version not in ("HTTP/1.1", "HTTP/1.0"):
        return f"its version is {version[:20]}, and HTTP/1.1 or HTTP/1.0 is taken"
    if method == "CONNECT" or target == "*":
        return f"{method} {target[:60]} isn't supported"
    if not re.match(r"/|https?://", target, re.I) or "#" in target:
        return f"its target {target[:60]} is neither a path that begins with `/` nor begins with http://, or has a `#`"
    return None


def why_no_fields(first, lines, rest):
    fields = {}
    for line in lines:
        name, colon, value = line.partition(":")
        if not colon or not re.fullmatch(r"[!#$%&'*+.^_`|~0-9A-Za-z-]+", name):
            return f"the line {line[:60]} is no field `name: value`"
        fields.setdefault(name.lower(), []).append(value.strip(" \t"))
    hosts = fields.get("host", [])
    if len(hosts) != 1:
        return "it has no Host" if not hosts else "it has more than one Host"
    if not re.fullmatch(r"([A-Za-z0-9._-]{1,253}|\[[0-9A-Fa-f:.]+\])(:[0-9]{0,5})?", hosts[0]):
        return f"its Host, {hosts[0][:60] or 'which is empty'}, isn't a host"
    return why_no_body(first, fields, rest)


def why_no_body(first, fields, rest):
    lengths = fields.get("content-length", [])
    if "transfer-encoding" in fields:
        if lengths or first.endswith("1.0"):
            return "Transfer-Encoding stands beside Content-Length, or in HTTP/1.0"
        return "its body isn't chunks to the last one, of size 0, and not a byte more"
    if any(not re.fullmatch(r"[0-9]+", length) for length in lengths) or len({int(length) for length in lengths}) > 1:
        return "its Content-Length isn't one number in digits"
    wanted = int(lengths[0]) if lengths else 0
    if wanted > 1_048_576:
        return "its Content-Length is above 1048576"
    if wanted != len(rest):
        there = f"{len(rest)} byte{'' if len(rest) == 1 else 's'} behind its head"
        return f"its Content-Length is {wanted}, and there are {there}" if lengths else f"there are {there}, and no Content-Length"
    return None


def check_words(commands, words):
    """Raises what is wrong with the words, in the order in which the program judges them."""
    if not words:
        raise Refused("no command is given")
    command, *words = words
    if command not in commands:
        raise Refused(f"{command or 'the empty word'} is no command{close_to(command, commands) or ': they are ' + ', '.join(commands)}")
    given, words = take_words(command, commands[command], words)
    missing = [name for name in commands[command]["needed"] if name not in given]
    if missing:
        raise Refused(f"{command} needs --{missing[0]}")
    if "request" in given:
        check_request(given["request"])
    check_numbers(given)
    if "admin" in given:
        loopback("--admin " + given["admin"], given["admin"])
    doors = read_doors(words)
    check_at(given, doors)
    if command == "serve" and int(given.get("workers", "1")) * len(doors) > MOST_WORKERS:
        raise Refused(f"--workers {given['workers']} for each of {len(doors)} DOORs is above {MOST_WORKERS} for all")
    return command, given, doors


def check_doors(doors):
    """Raises the first rule that the DOORs break."""
    if len(doors) > 64:
        raise Refused(f"there are {len(doors)} DOORs, and at most 64 are taken")
    pairs = [(one, other) for place, one in enumerate(doors) for other in doors[place + 1:]]
    for one, other in pairs:
        if one.gateway == other.gateway and one.address != other.address:
            raise Refused(f"{one.word} and {other.word} are of one Gateway, and have two addresses")
    for one, other in pairs:
        if one.gateway == other.gateway and one.port == other.port:
            raise Refused(f"{one.word} and {other.word} are of one Gateway and listener port")
        if one.socket() == other.socket():
            raise Refused(f"{one.word} and {other.word} have one socket")


def bind_error(at):
    """Why a socket can't be bound now, or nothing."""
    with socket.socket() as tried:
        tried.setsockopt(socket.SOL_SOCKET, socket.SO_REUSEADDR, 1)
        try:
            tried.bind(at)
            tried.listen()
        except OSError as error:
            return "another program has it" if error.errno == errno.EADDRINUSE else os.strerror(error.errno)
    return None


def check_sockets(given, doors):
    """Raises which socket of `serve` can't be bound."""
    sockets = [(f"the admin endpoint, --admin {given['admin']},", loopback("--admin", given["admin"]))]
    sockets += [(f"the DOOR {door.word}", door.socket()) for door in doors]
    # (port 0 is any free one)
    for place, (what, at) in enumerate(sockets):
        if at[1] and at in [other for _, other in sockets[:place]]:
            raise Refused(f"the socket {at[0]}:{at[1]} of {what} is the admin endpoint's too")
        why = bind_error(at)
        if why:
            raise Refused(f"the socket {at[0]}:{at[1]} of {what} can't be bound: {why}")


def main(task, *words):
    try:
        command, given, doors = check_words(read_commands(sys.stdin.read()), words)
        if task == "doors":
            check_doors(doors)
            if command == "serve":
                check_sockets(given, doors)
    except Refused as fault:
        print(f"gateward: {fault}", file=sys.stderr)


if __name__ == "__main__":
    main(*sys.argv[1:])
