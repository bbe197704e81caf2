"""The file that is there while the endpoint holds all that the cluster has, and the notification of systemd."""
import json
import os
import socket
import time

from .kinds import KINDS, WITH_STATUS
from .say import say
from .store import Generation


class Ready:
    """The file has the generation of each object that was accepted last, by kind and key: a round of `--statuses` goes by it."""

    def __init__(self, path):
        self.path, self.there, self.number, self.written = path, False, None, 0
        if path:
            put_file(path, "")
            self.remove()

    def write(self, store):
        """At once if the file isn't there, and else once a second at most."""
        if self.there and (store.number == self.number or time.monotonic() - self.written < 1):
            return
        self.number, self.written = store.number, time.monotonic()
        if self.path:
            put_file(self.path, as_text(store.accepted()))
        if not self.there:
            notify("READY=1")
        self.there = True

    def remove(self):
        self.there = False
        if self.path:
            for path in (self.path, f"{self.path}.new"):
                if os.path.lexists(path):
                    os.unlink(path)


class Memory:
    """The keys of all objects that were sent, in a file beside that of `Ready`, which stays when this feed ends. By it the next feed removes what
    went meanwhile. It is written once a second at most, so what was sent in the last second before a sudden end may not stand there."""

    def __init__(self, path):
        self.path, self.number, self.written = path and f"{path}.sent", None, 0

    def write(self, store):
        if self.path and store.number != self.number and time.monotonic() - self.written >= 1:
            self.number, self.written = store.number, time.monotonic()
            put_file(self.path, as_text({kind: sorted(entries) for kind, entries in store.entries.items()}))

    def read(self):
        """The kinds and keys of the former feed; none, if there was none."""
        try:
            with open(self.path, encoding="utf-8") as file:
                return {(kind, key) for kind, keys in json.load(file).items() if kind in KINDS for key in keys}
        except (OSError, ValueError, TypeError, AttributeError):
            return set()


def as_text(content):
    return json.dumps(content, separators=(",", ":")) + "\n"


def put_file(path, content):
    with open(f"{path}.new", "w", encoding="utf-8") as file:
        file.write(content)
    os.replace(f"{path}.new", path)


def notify(text):
    """Tells systemd, for a unit of Type=notify."""
    path = os.environ.get("NOTIFY_SOCKET")
    if not path:
        return
    try:
        with socket.socket(socket.AF_UNIX, socket.SOCK_DGRAM) as outlet:
            outlet.connect("\0" + path[1:] if path.startswith("@") else path)
            outlet.send(text.encode())
    except OSError as error:
        say(f"systemd isn't notified: {error}")


def read_accepted(path):
    """What the file of a feed that runs says; nothing, if it isn't there or isn't one."""
    try:
        with open(path, encoding="utf-8") as file:
            found = json.load(file)
        return {kind: {key: Generation(*value) for key, value in found[kind].items()} for kind in WITH_STATUS}
    except (OSError, ValueError, KeyError, TypeError, AttributeError):
        return None
