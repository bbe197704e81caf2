"""The cluster's objects, as they were seen last, and what the endpoint answered to each."""
import threading
from typing import NamedTuple, Optional

from .kinds import KINDS, WITH_STATUS, key_of, put_line, removal_line


class Generation(NamedTuple):
    """One generation of one object: an object that was deleted and made again has another uid."""
    uid: str
    number: int


def generation_of(found):
    return Generation(found["metadata"].get("uid", ""), found["metadata"].get("generation", 1))


class Entry:
    """An object. `accepted` is the generation that was sent last and accepted; `refusal` is the answer to the newest line, if it was refused."""
    __slots__ = ("line", "found", "generation", "answered", "accepted", "refusal")

    def __init__(self):
        self.line, self.found, self.generation, self.accepted = b"", None, None, None
        self.forget()

    def forget(self):
        """Nothing is known of what the endpoint holds of it."""
        self.answered, self.accepted, self.refusal = False, None, None

    def is_evaluated(self):
        """Whether the endpoint's status of the object is of the newest generation."""
        return self.answered and self.refusal is None and self.accepted == self.generation


class Sent(NamedTuple):
    """A line that is to be sent, or was."""
    kind: str
    key: str
    line: bytes
    generation: Optional[Generation]


class Store:
    def __init__(self):
        self.lock = threading.RLock()
        self.entries = {kind: {} for kind in KINDS}
        self.listed = set()
        # Another number means that something may have changed: an object, or what was answered to it.
        self.number = 0

    def put(self, kind, found):
        """Notes an object. It gives what is to be sent: nothing, if its line was sent before and only what isn't read is another one."""
        line, key = put_line(KINDS[kind], found), key_of(found["metadata"])
        with self.lock:
            entry = self.entries[kind].setdefault(key, Entry())
            # (a line holds neither the uid nor, for most kinds, what the API server changes beside it)
            same = entry.line == line and entry.generation == generation_of(found)
            entry.found = seen(found) if kind in WITH_STATUS else {"metadata": short(found["metadata"])}
            if same:
                return []
            self.number += 1
            entry.line, entry.generation = line, generation_of(found)
            entry.answered, entry.refusal = False, None
            return [Sent(kind, key, line, entry.generation)]

    def remove(self, kind, key):
        with self.lock:
            self.number += 1
            self.entries[kind].pop(key, None)
        return [Sent(kind, key, removal_line(KINDS[kind], key), None)]

    def replace(self, kind, objects):
        """Notes a list of a kind, and gives what is to be sent: the objects, and the removals of those that are gone."""
        found = {key_of(one["metadata"]) for one in objects}
        with self.lock:
            gone = [key for key in self.entries[kind] if key not in found]
            self.listed.add(kind)
        sent = [sent for key in gone for sent in self.remove(kind, key)]
        for one in objects:
            sent += self.put(kind, one)
        return sent

    def answer(self, sent, refusal):
        """Notes the answer to a line. That of an older line of its object doesn't count."""
        with self.lock:
            self.number += 1
            entry = self.entries[sent.kind].get(sent.key)
            if sent.generation and entry and entry.line is sent.line:
                entry.answered, entry.refusal = True, refusal
            if sent.generation and entry and refusal is None:
                entry.accepted = sent.generation

    def forget_answers(self):
        """The endpoint was restarted. All lines are to be sent, which this gives."""
        with self.lock:
            self.number += 1
            for entries in self.entries.values():
                for entry in entries.values():
                    entry.forget()
            return [Sent(kind, key, entry.line, entry.generation) for kind, entries in self.entries.items() for key, entry in entries.items()]

    def counts(self):
        with self.lock:
            return ", ".join(f"{kind} {len(entries)}" for kind, entries in self.entries.items() if kind in self.listed) or "none"

    def accepted(self):
        """The generation of each object that was accepted last, of the kinds that have statuses; none, if a newer one isn't answered or refused."""
        with self.lock:
            return {kind: {key: list(entry.accepted) for key, entry in self.entries[kind].items() if entry.is_evaluated()} for kind in WITH_STATUS}


def short(metadata):
    return {name: value for name, value in metadata.items() if name not in ("managedFields", "annotations", "labels")}


def seen(found):
    return {**found, "metadata": short(found["metadata"])}
