"""The words of gateward-view."""
import sys

from gateward_words import Door, Refused, close_to, loopback, number

USAGE = """\
usage: gateward-view [--problems] [--events FILE] [--door DOOR]... [--doors FILE]    < the text of `gateward status`
  prints the statuses as tables, and with --problems only what is wrong
usage: gateward-view --admin SOCKET [--watch] [--problems] [--events FILE] [--door DOOR]... [--doors FILE]
  asks a running `gateward serve` for them; with --watch again each two seconds
usage: gateward-view --html FILE [--admin SOCKET [--request TEXT [--at N]]] [--events FILE] [--door DOOR]... [--doors FILE]
  writes one page that stands alone: a picture, a table that a word filters, each Route's rows, and why a request goes elsewhere
  FILE of --events has the events that were read: the statuses don't have the ports, hostnames, matches and Services of objects
  DOOR is namespace/name:port=a.b.c.d:port, as in the words of gateward; FILE of --doors has DOORs with spaces or line ends between
  TEXT of a request is a JSON text in quotes: '"GET / HTTP/1.1\\r\\nHost: shop.example.com\\r\\n\\r\\n"'
  The exit code is 0; with --problems 1 where something is wrong; 2 for other words; 3 where something couldn't be read, 4 or written
"""

VALUES = ("admin", "events", "doors", "door", "html", "request", "at")
FLAGS = ("problems", "watch")


class Words:
    """What is asked for."""

    def __init__(self):
        self.admin = self.events = self.doors_file = self.html = self.request = None
        self.at = 0
        self.problems = self.watch = False
        self.doors = []


def read_options(words):
    """The options, each with its values."""
    given, words = {}, list(words)
    while words:
        word = words.pop(0)
        name, equals, value = word[2:].partition("=")
        if not word.startswith("--") or name not in VALUES + FLAGS:
            raise Refused(f"{word} is no option{close_to(word, ['--' + it for it in VALUES + FLAGS])}")
        if name in FLAGS and equals:
            raise Refused(f"--{name} takes no value")
        if name in VALUES and not equals:
            if not words:
                raise Refused(f"--{name} has no value")
            value = words.pop(0)
        if name in given and name != "door":
            raise Refused(f"--{name} is given twice")
        given.setdefault(name, []).append(value)
    return given


def read_doors(given):
    texts = list(given.get("door", []))
    if "doors" in given:
        try:
            with open(given["doors"][0], encoding="utf-8") as file:
                texts += file.read().split()
        except (OSError, UnicodeDecodeError) as error:
            raise Refused(f"the file of --doors can't be read: {error}") from None
    return [Door(text) for text in texts]


def read_words(words):
    given = read_options(words)
    read = Words()
    read.problems, read.watch = "problems" in given, "watch" in given
    read.events, read.html, read.request = (given.get(it, [None])[0] for it in ("events", "html", "request"))
    read.doors = read_doors(given)
    if "admin" in given:
        read.admin = loopback("--admin " + given["admin"][0], given["admin"][0])
    elif read.watch or read.request is not None:
        raise Refused(f"--{'watch' if read.watch else 'request'} is for --admin alone")
    read.at = number(given.get("at", ["0"])[0], 0, 63)
    if read.at is None or "at" in given and read.request is None:
        raise Refused("--at is the number of a DOOR, from 0 on, and is for --request alone")
    if read.html and (read.watch or read.problems):
        raise Refused("--html is for a page, which has what is wrong in red: it takes neither --watch nor --problems")
    if read.request is not None and not read.html:
        raise Refused("--request is for --html alone: `gateward explain` and POST /explain print their text")
    if read.admin is None and sys.stdin.isatty():
        raise Refused("neither --admin is given nor does standard input bring the text of `gateward status`")
    return read
