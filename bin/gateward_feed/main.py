"""The tasks of the feed, and how it ends."""
import json
import os
import shlex
import shutil
import signal
import sys
import tempfile
import threading

from .cluster import Cluster, Gone, Refused, Unreached
from .endpoint import Endpoint, Unanswered
from .feed import Feed
from .kinds import KINDS, WITH_STATUS, key_of
from .lease import Lease
from .ready import Memory, Ready, read_accepted
from .say import Reminder, mute, say
from .statuses import Statuses
from .store import Store
from .words import read_words
from .write import Patcher, Writer, changes_of, patch_of


SIGNALS = signal.SIGHUP, signal.SIGINT, signal.SIGTERM


def fail(code, reason):
    say(reason)
    raise SystemExit(code)


def feed(words, cluster, endpoint):
    """Brings the cluster's objects to the endpoint until it is ended, or one list of each kind."""
    try:
        ready = Ready(words.ready)
    except OSError as error:
        fail(70, f"the file of --ready can't be written: {error}")
    task, lease = Feed(cluster, endpoint, Store(), ready, Memory(words.ready)), None
    Reminder([endpoint.outage, cluster.outage]).start()
    if "--once" in words.flags:
        unlisted = task.once()
        raise SystemExit(3 if unlisted else 1 if task.refused else 0)
    if "--statuses" in words.flags:
        writer = Writer(cluster, endpoint, task.store, task)
        task.on_change = writer.wanted.set
        if words.lease:
            lease = writer.lease = Lease(cluster, words.lease, writer.wanted.set)
            lease.start()
        writer.start()
    try:
        task.follow()
    finally:
        ready.remove()
        if lease:
            lease.give_up()


def statuses(words, cluster, endpoint):
    """One round of statuses, of what a feed that runs had accepted. The objects are read first, then what was accepted, and then the statuses: an
    object that was still of the generation that was accepted last when its patch is taken was evaluated in that generation."""
    try:
        objects = {kind: {key_of(found["metadata"]): found for found in cluster.pages(KINDS[kind].path())[0]} for kind in WITH_STATUS}
    except (Refused, Unreached, Gone) as error:
        fail(3, f"the API server gives no list of the objects: {error}")
    accepted = read_accepted(words.ready)
    if accepted is None:
        fail(3, f"{words.ready} isn't there, or isn't of a feed: no feed runs with it, or not all was sent yet")
    try:
        lines, _ = endpoint.read("/status")
    except Unanswered:
        fail(3, f"{endpoint.admin} gives no statuses")
    given = Statuses(lines, objects)
    changes = list(changes_of(given, objects, accepted))
    if "--apply" not in words.flags:
        for change in changes:
            print(command(words, change))
        return
    try:
        taken, left_out, refused = Patcher(cluster).write_all(given, changes)
    except (Unreached, Gone) as error:
        fail(3, f"the API server isn't reached: {error}")
    say(f"{taken} patched, {left_out} left out, {refused} refused")
    raise SystemExit(1 if refused else 0)


def command(words, change):
    """The patch as a command for a shell."""
    namespace, _, name = change.key.rpartition("/")
    within = ["-n", namespace] if namespace else []
    text = json.dumps(patch_of(change.found, change.status), separators=(",", ":"))
    patch = ["patch", KINDS[change.kind].resource, name, *within, "--subresource=status", "--type=merge", "-p", text]
    return shlex.join(["kubectl", *words.cluster, *patch])


class End:
    """How this process ends: by a signal, or since a thread of its own failed."""
    code = None

    @classmethod
    def by_signal(cls, number, _frame):
        raise SystemExit(cls.code or 128 + number)

    @classmethod
    def by_failure(cls, failure):
        say(f"a thread of its own failed: {failure.exc_type.__name__}: {failure.exc_value}")
        cls.code = 70
        os.kill(os.getpid(), signal.SIGTERM)


def run(words):
    """Runs the task, and takes away what it made. It gives the exit code."""
    folder = tempfile.mkdtemp(prefix="gateward-feed-")
    cluster, endpoint = Cluster(words.cluster, folder), Endpoint(words.admin)
    try:
        task = statuses if "--statuses" in words.flags and "--follow" not in words.flags else feed
        task(words, cluster, endpoint)
        return 0
    except SystemExit as ended:
        return ended.code
    except Exception as error:  # of whatever sort, as a disk that is full
        say(f"{type(error).__name__}: {error}")
        return 70
    finally:
        # (neither a second signal nor a thread that is still at work disturbs this)
        for number in SIGNALS:
            signal.signal(number, signal.SIG_IGN)
        mute()
        cluster.end()
        shutil.rmtree(folder, ignore_errors=True)


def main():
    words = read_words(sys.argv[1:])
    if not shutil.which("kubectl"):
        fail(70, "kubectl isn't there")
    threading.excepthook = End.by_failure
    for number in SIGNALS:
        signal.signal(number, End.by_signal)
    code = run(words)
    sys.stdout.flush()
    # (without a wait for threads that wait for the cluster)
    os._exit(code)
