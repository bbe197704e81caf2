"""What the feed says on standard error, and how it tells an outage."""
import sys
import threading
import time

lock = threading.Lock()
muted = threading.Event()


def say(text):
    with lock:
        if not muted.is_set():
            print(f"gateward-feed: {text}", file=sys.stderr, flush=True)


def mute():
    """Nothing is said any more."""
    muted.set()


class Outage:
    """An outage that several may notice: it begins when the first of them fails, and ends when none of them fails any more. One line tells that it
    begins, one that it ends, and one each `again` seconds how long it lasts."""

    def __init__(self, begin, lasting, end, again=30, clock=time.monotonic, tell=say):
        self.begin, self.lasting, self.end, self.again = begin, lasting, end, again
        self.clock, self.tell = clock, tell
        self.lock, self.failing, self.began, self.told = threading.Lock(), set(), 0, 0

    def fails(self, who, reason=""):
        with self.lock:
            if not self.failing:
                self.began = self.told = self.clock()
                self.tell(self.begin.format(reason=reason))
            self.failing.add(who)

    def works(self, who):
        with self.lock:
            if who in self.failing:
                self.failing.discard(who)
                if not self.failing:
                    self.tell(self.end.format(seconds=self.seconds()))

    def seconds(self):
        return round(self.clock() - self.began)

    def remind(self):
        with self.lock:
            if self.failing and self.again and self.clock() - self.told >= self.again:
                self.told = self.clock()
                self.tell(self.lasting.format(seconds=self.seconds()))


class Reminder(threading.Thread):
    """Looks once a second whether an outage is to be told again."""

    def __init__(self, outages):
        super().__init__(daemon=True)
        self.outages = outages

    def run(self):
        while True:
            time.sleep(1)
            for outage in self.outages:
                outage.remind()
