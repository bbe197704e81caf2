"""From the cluster to the endpoint: what the watches bring is posted, in bodies as large as the endpoint takes."""
import queue
import time

from .endpoint import MOST, Unanswered, refusal_text
from .kinds import KINDS, WITH_STATUS, key_of
from .say import say
from .watch import Watcher

# In seconds: how often the endpoint is asked whether it was restarted, and how often the progress is told.
LOOK, TELL = 0.5, 60


class Feed:
    """Posts what the watches bring, in one thread."""

    def __init__(self, cluster, endpoint, store, ready, memory):
        self.cluster, self.endpoint, self.store, self.ready, self.memory = cluster, endpoint, store, ready, memory
        # (a watch waits where many events aren't posted yet)
        self.events = queue.Queue(maxsize=2000)
        # `front` is the number of changes of which the endpoint told last, and `restarts` counts how often it was restarted. `complete` says whether
        # it holds all that was seen, and `empty` whether it was restarted and is to be sent all objects.
        self.front, self.restarts, self.complete = None, 0, False
        self.empty, self.looked, self.shared = False, False, False
        self.taken = self.refused = self.written = 0
        self.on_change = lambda: None

    # Posting

    def deliver(self, sent):
        batch, length = [], 0
        for one in sent:
            if len(one.line) > MOST:
                self.note(one, refusal_text(6, "line"))
                continue
            if length + len(one.line) > MOST:
                self.post(batch)
                batch, length = [], 0
            batch.append(one)
            length += len(one.line) + 1
        if batch:
            self.post(batch)

    def post(self, batch):
        """Posts lines until the endpoint takes them."""
        pause = 1
        while not self.try_post(batch):
            self.mind_ready()
            time.sleep(pause)
            pause = min(8, 2 * pause)
        self.mind_ready()

    def try_post(self, batch):
        with self.endpoint.lock:
            try:
                answer = self.endpoint.post([one.line for one in batch])
            except Unanswered:
                return False
            self.mind_front(answer)
            for place, one in enumerate(batch):
                self.note(one, answer.refused.get(place))
            if batch:
                self.on_change()
            return True

    def mind_front(self, answer):
        """An endpoint that has taken fewer changes than those of which it told before holds none of these."""
        if self.front is not None and answer.first < self.front:
            say(f"{self.endpoint.admin} was restarted, and is sent all objects")
            self.empty, self.complete = True, False
            self.restarts += 1
            self.ready.remove()
        elif self.front is not None and answer.first > self.front and not self.shared:
            say(f"somebody else posts to {self.endpoint.admin}: its statuses may be of other objects than the cluster's")
            self.shared = True
        self.front = answer.front

    def note(self, sent, refusal):
        self.store.answer(sent, refusal)
        if refusal:
            self.refused += 1
            print(f"refused: {sent.kind} {sent.key}: {refusal}", flush=True)
        else:
            self.taken += 1

    # What is ready

    def mind_ready(self):
        """The file is there while all was sent and taken, and the endpoint is there."""
        if not self.complete or self.endpoint.refuses:
            if self.ready.there:
                self.ready.remove()
        else:
            self.ready.write(self.store)

    def all_sent(self):
        if not self.looked:
            self.remove_what_went()
        self.looked = True
        if self.empty:
            return
        say(f"all sent: {self.store.counts()}; {self.refused} refused")
        self.complete = True
        self.mind_ready()
        self.on_change()

    def remove_what_went(self):
        """Removes what a former feed sent and the cluster doesn't have any more: by what that one noted, and by what the endpoint shows."""
        gone = sorted((kind, key) for kind, key in self.memory.read() | self.shown() if key not in self.store.entries[kind])
        for kind, key in gone:
            say(f"{kind} {key} went while no feed ran")
        self.deliver([sent for kind, key in gone for sent in self.store.remove(kind, key)])

    def shown(self):
        """The kinds and keys of what the endpoint holds, as far as its statuses and rows show it."""
        while True:
            try:
                with self.endpoint.lock:
                    statuses, _ = self.endpoint.read("/status")
                    rows, _ = self.endpoint.read("/table")
                break
            except Unanswered:
                time.sleep(1)
        held = {(line["kind"], key_of(line)) for line in statuses if line.get("kind") in WITH_STATUS}
        return held | {("HTTPRoute", row["route"]) for row in rows if "route" in row}

    # Following the cluster

    def follow(self):
        for kind in KINDS:
            Watcher(kind, self.cluster, self.events).start()
        look, tell, told = 0, time.monotonic() + TELL, None
        while True:
            self.deliver(self.next_lines(LOOK))
            if time.monotonic() >= look:
                self.try_post([])
                look = time.monotonic() + LOOK
            while self.empty:
                self.empty = False
                self.deliver(self.store.forget_answers())
            if not self.complete and len(self.store.listed) == len(KINDS):
                self.all_sent()
            self.mind_ready()
            if self.complete:
                self.memory.write(self.store)
            if time.monotonic() >= tell:
                tell = time.monotonic() + TELL
                if told != (self.taken, self.refused, self.written):
                    told = self.taken, self.refused, self.written
                    self.tell()

    def next_lines(self, seconds):
        """What is to be sent of all events that are at hand, once there is one; of two lines of one object that follow each other both."""
        sent, end = [], time.monotonic() + seconds
        try:
            event = self.events.get(timeout=seconds)
            while time.monotonic() < end:
                sent += self.take(*event)
                event = self.events.get_nowait()
            sent += self.take(*event)
        except queue.Empty:
            pass
        return sent

    def take(self, kind, event, what):
        if event == "list":
            return self.store.replace(kind, what)
        sent = self.store.remove(kind, what) if event == "remove" else self.store.put(kind, what)
        # (a status may be another one now, though nothing of it goes to the endpoint)
        if not sent and kind in WITH_STATUS:
            self.on_change()
        return sent

    def tell(self):
        written = f", {self.written} statuses written" if self.written else ""
        say(f"{self.taken} lines taken, {self.refused} refused{written}; objects: {self.store.counts()}")

    # One list of each kind

    def once(self):
        """Gives the kinds of which no list could be had."""
        unlisted = []
        for kind in KINDS:
            try:
                objects, _ = self.cluster.pages(KINDS[kind].path())
            except Exception as error:  # of whatever sort: the reason is said, and the other kinds are sent
                say(f"the API server gives no list of {KINDS[kind].resource}: {error}")
                unlisted.append(kind)
                continue
            self.store.listed.add(kind)
            self.deliver([sent for found in objects for sent in self.store.put(kind, found)])
        self.complete = not unlisted
        self.mind_ready()
        self.tell()
        return unlisted
