"""Statuses and Events for the objects of the cluster."""
import hashlib
import threading
import time
from concurrent.futures import ThreadPoolExecutor
from typing import NamedTuple

from .cluster import Gone, Refused, Unreached
from .endpoint import Unanswered
from .kinds import KINDS, WITH_STATUS
from .say import say
from .statuses import Statuses
from .store import Generation, generation_of

# How many patches are under way at once; how often a patch is tried that meets another change; and after how many seconds one that was refused is
# tried again.
AT_ONCE, TRIES, PATIENCE = 16, 5, 60

# Of how many statuses written at once it is said how long they took.
MANY = 100


class Change(NamedTuple):
    """A status that an object is to have, while it is of the generation that was evaluated."""
    kind: str
    key: str
    found: dict
    generation: Generation
    status: dict


def changes_of(statuses, objects, accepted):
    """The statuses that differ, of the objects whose generation is the one that was accepted last."""
    for kind in WITH_STATUS:
        for key, found in objects[kind].items():
            if accepted[kind].get(key) != generation_of(found):
                continue
            status = statuses.change(kind, found)
            if status is not None:
                yield Change(kind, key, found, generation_of(found), status)


def patch_of(found, status):
    # With the version of the object, the API server refuses the patch if something else has been written to the object meanwhile.
    return {"metadata": {"resourceVersion": found["metadata"].get("resourceVersion")}, "status": status}


class Settled:
    """What a round needn't look at: an object that is the one of the round before, with the same status given and the same generation accepted. If
    its status wasn't as it is to be, it was patched, and then it is another object now; a patch that was refused is tried again after a while."""

    def __init__(self):
        self.before, self.around, self.whole = {}, None, 0

    def leave_out(self, statuses, objects, accepted):
        """Takes from the objects those that needn't be looked at."""
        around, now = (statuses.controllers, statuses.gateways), {}
        if around != self.around or time.monotonic() - self.whole > PATIENCE:
            self.before, self.around, self.whole = {}, around, time.monotonic()
        for kind, found in objects.items():
            for key, one in list(found.items()):
                state = one, statuses.given[kind].get(key), accepted[kind].get(key)
                before = self.before.get((kind, key))
                if before and before[0] is one and before[1:] == state[1:]:
                    del found[key]
                now[kind, key] = state
        self.before = now

    def forget(self):
        """The next round looks at all."""
        self.before = {}


class Patcher:
    """Writes many statuses side by side, each thread with a connection of its own."""

    def __init__(self, cluster):
        self.cluster, self.pool = cluster, ThreadPoolExecutor(AT_ONCE)

    def write_all(self, statuses, changes):
        """How many patches were taken, left out and refused."""
        outcomes = list(self.pool.map(lambda change: self.write(statuses, change), changes))
        return [outcomes.count(which) for which in ("taken", "left out", "refused")]

    def write(self, statuses, change):
        path, status, found = KINDS[change.kind].path(change.key), change.status, change.found
        for _ in range(TRIES):
            try:
                self.cluster.request("PATCH", f"{path}/status", patch_of(found, status), "application/merge-patch+json")
                return "taken"
            except Refused as error:
                if error.code == 404:
                    return "left out"
                if error.code != 409:
                    return self.refuse(change, error)
            # Something else was written to the object: the patch is made again, for the object as it is.
            found = self.read(path)
            if found is None or generation_of(found) != change.generation:
                return "left out"
            status = statuses.change(change.kind, found)
            if status is None:
                return "taken"
        return self.refuse(change, "the object changes all the time")

    def read(self, path):
        try:
            return self.cluster.request("GET", path)
        except Refused:
            return None

    def refuse(self, change, reason):
        say(f"the status of {change.kind} {change.key} isn't taken: {reason}")
        return "refused"


class Writer(threading.Thread):
    """Writes statuses as they change, and an Event for each generation that is refused."""

    def __init__(self, cluster, endpoint, store, feed):
        super().__init__(daemon=True)
        self.cluster, self.endpoint, self.store, self.feed = cluster, endpoint, store, feed
        self.patcher, self.lease = Patcher(cluster), None
        self.wanted, self.told = threading.Event(), set()
        # The endpoint's statuses, and for which number of changes they stand.
        self.read_at, self.lines, self.settled = None, [], Settled()

    def run(self):
        while True:
            # (it is tried again each minute, for patches that were refused)
            self.wanted.wait(PATIENCE)
            time.sleep(0.1)
            self.wanted.clear()
            began = time.monotonic()
            if not self.lease or self.lease.is_held():
                self.try_round()
            time.sleep(min(0.4, time.monotonic() - began))

    def try_round(self):
        try:
            self.round()
            self.cluster.outage.works("statuses")
        except (Unreached, Gone) as error:
            self.cluster.outage.fails("statuses", error)
            self.try_later()
        except Unanswered:
            self.try_later()

    def try_later(self):
        self.settled.forget()
        time.sleep(1)
        self.wanted.set()

    def round(self):
        objects, accepted, refused = self.evaluated()
        if objects is None:
            return
        statuses = Statuses(self.lines, objects)
        self.settled.leave_out(statuses, objects, accepted)
        changes = list(changes_of(statuses, objects, accepted))
        if changes:
            began = time.monotonic()
            taken, _, _ = self.patcher.write_all(statuses, changes)
            self.feed.written += taken
            if taken >= MANY:
                say(f"{taken} statuses written in {time.monotonic() - began:.1f} s")
        for kind, key, found, refusal in refused:
            self.tell_refusal(kind, key, found, refusal)

    def evaluated(self):
        """The objects, the generations accepted last and the refused objects, at a moment for which the endpoint's statuses stand. Nothing,
        while the endpoint doesn't hold all, or holds other changes than this feed sent."""
        with self.endpoint.lock:
            if not self.feed.complete:
                return None, None, None
            if self.read_at != (self.feed.restarts, self.feed.front):
                lines, front = self.endpoint.read("/status")
                if front != self.feed.front:
                    self.wanted.set()
                    return None, None, None
                self.lines, self.read_at = lines, (self.feed.restarts, front)
            with self.store.lock:
                entries = self.store.entries
                objects = {kind: {key: entry.found for key, entry in entries[kind].items()} for kind in WITH_STATUS}
                accepted = {kind: {key: entry.accepted for key, entry in entries[kind].items() if entry.is_evaluated()} for kind in WITH_STATUS}
                refused = [(kind, key, entry.found, entry.refusal) for kind in entries for key, entry in entries[kind].items() if entry.refusal]
            return objects, accepted, refused

    def tell_refusal(self, kind, key, found, refusal):
        """Makes an Event of a refusal, once for each generation: one that is made again has the same name, which the API server refuses."""
        generation = generation_of(found)
        if (kind, key, generation) in self.told:
            return
        try:
            event = event_of(kind, found, generation, refusal)
            self.cluster.request("POST", f"/api/v1/namespaces/{event['metadata']['namespace']}/events", event)
        except Refused as error:
            if error.code != 409:
                say(f"the Event of {kind} {key} isn't taken: {error}")
        self.told.add((kind, key, generation))


def event_of(kind, found, generation, refusal):
    metadata = found["metadata"]
    # (the Events of an object without a namespace are in `default`)
    namespace = metadata.get("namespace", "default")
    mark = hashlib.sha256(f"{kind} {generation} {refusal}".encode()).hexdigest()[:16]
    now = time.strftime("%Y-%m-%dT%H:%M:%SZ", time.gmtime())
    involved = {"apiVersion": KINDS[kind].version, "kind": kind, "name": metadata["name"], "uid": metadata.get("uid", ""),
                "resourceVersion": metadata.get("resourceVersion", "")}
    if "namespace" in metadata:
        involved["namespace"] = namespace
    return {"apiVersion": "v1", "kind": "Event", "metadata": {"name": f"{metadata['name'][:200]}.{mark}", "namespace": namespace},
            "involvedObject": involved, "type": "Warning", "reason": "Refused",
            "message": f"gateward refuses generation {generation.number}: {refusal}. What it held of the object stays as it was.",
            "source": {"component": "gateward-feed"}, "reportingComponent": "gateward-feed", "firstTimestamp": now, "lastTimestamp": now, "count": 1}
