"""The list and the watches of one kind, which go into the queue of the feed."""
import random
import threading
import time

from .cluster import Gone, Refused, Unreached
from .kinds import KINDS, key_of
from .say import Outage, say


class Watcher(threading.Thread):
    """Puts (kind, "list", objects) and (kind, "put" or "remove", object) into the queue. After a list comes a watch from its version, and after
    that the next watch, from the version that was seen last. If the API server doesn't keep that version any more, a list comes again."""

    def __init__(self, kind, cluster, events):
        super().__init__(daemon=True)
        self.kind, self.cluster, self.events = kind, cluster, events
        resource = KINDS[kind].resource
        self.name_of_kind, self.path = KINDS[kind].plural, KINDS[kind].path()
        self.pause, self.lasted = 0, None
        self.missing = Outage(f"the API server doesn't have {resource}", "", f"the API server has {resource} after {{seconds}} s", again=0)
        self.forbidden = Outage(f"the API server gives no {resource}: {{reason}}", "",
                                f"the API server gives {resource} again after {{seconds}} s", again=0)

    def run(self):
        version = None
        while True:
            try:
                version = self.list() if version is None else self.follow(version)
            except Gone:
                say(f"the watch of {self.name_of_kind} ended: its version is too old, and a list follows")
                version = None
                time.sleep(random.uniform(0, 1))
            except (Refused, Unreached) as error:
                self.fails(error)
                # (after an outage many wait: not all of them ask at the same moment)
                self.pause = min(16, 2 * self.pause) or 1
                time.sleep(self.pause * random.uniform(0.75, 1))

    def fails(self, error):
        which = self.cluster.outage if isinstance(error, Unreached) else self.missing if error.code == 404 else self.forbidden
        which.fails(self.kind, error)
        self.works(but=which)
        self.lasted = None

    def works(self, but=None):
        for outage in (self.cluster.outage, self.missing, self.forbidden):
            if outage is not but:
                outage.works(self.kind)

    def list(self):
        objects, version = self.cluster.pages(self.path)
        self.pause = 0
        self.works()
        self.events.put((self.kind, "list", objects))
        return version

    def follow(self, version):
        """One watch. It gives the version that it saw last."""
        seconds, began = random.randint(300, 600), time.monotonic()
        for event in self.cluster.watch(self.path, version, seconds):
            if event is None:
                self.begins()
                continue
            self.pause = 0
            found = event["object"]
            if event["type"] == "ERROR":
                return self.ended(found)
            version = found["metadata"].get("resourceVersion", version)
            if event["type"] == "DELETED":
                self.events.put((self.kind, "remove", key_of(found["metadata"])))
            elif event["type"] != "BOOKMARK":
                self.events.put((self.kind, "put", found))
        lasted = time.monotonic() - began
        self.lasted = round(lasted) if lasted < seconds - 1 else None
        self.pause = 0 if lasted > 5 else min(16, 2 * self.pause) or 1
        time.sleep(self.pause)
        return version

    def begins(self):
        """A watch begins. If the one before ended early, and no outage was told, that is told now."""
        self.works()
        if self.lasted is not None:
            say(f"the watch of {self.name_of_kind} ended after {self.lasted} s, and goes on")
        self.lasted = None

    def ended(self, status):
        """A watch that ended by an error: nothing is known of what came after."""
        if status.get("code") == 410:
            raise Gone
        say(f"the watch of {self.name_of_kind} ended: {status.get('message', 'for no reason')}, and a list follows")
        time.sleep(1)
        return None
