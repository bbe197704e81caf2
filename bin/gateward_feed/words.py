"""The words of the command line."""
import re
import sys
from dataclasses import dataclass, field

SYNOPSIS = """\
usage: gateward-feed [--once] [--ready FILE] [CLUSTER]
  posts the events of a cluster's GatewayClasses, Gateways, HTTPRoutes, ReferenceGrants, Namespaces, Services and EndpointSlices to the
  admin endpoint of a running gateward, and prints each refused one's name; with --once, one list of each kind; FILE is there while all was sent
usage: gateward-feed --statuses --follow [--lease NAMESPACE/NAME] [--ready FILE] [CLUSTER]
  does that, and writes the statuses that the endpoint gives to the cluster, as they change; with --lease, while it holds that Lease
usage: gateward-feed --statuses --ready FILE [--apply] [CLUSTER]
  prints a kubectl command for each object whose status isn't the one that the endpoint gives; with --apply, makes the patches
  CLUSTER is [--admin HOST:PORT] [--context NAME] [--kubeconfig FILE]; HOST:PORT is 127.0.0.1:18000 if it isn't given
  docs/reference.md has what is sent and printed, and the exit codes
"""

FLAGS = ("--once", "--statuses", "--apply", "--follow")
VALUES = ("--admin", "--context", "--kubeconfig", "--ready", "--lease")


@dataclass
class Words:
    flags: set = field(default_factory=set)
    values: dict = field(default_factory=dict)

    @property
    def admin(self):
        return self.values.get("--admin", "127.0.0.1:18000")

    @property
    def ready(self):
        return self.values.get("--ready")

    @property
    def lease(self):
        return self.values.get("--lease")

    @property
    def cluster(self):
        """The words for kubectl."""
        return [f"{name}={self.values[name]}" for name in ("--context", "--kubeconfig") if name in self.values]


def refuse(reason):
    """Ends in 2, as the program does for words that are no command's."""
    print(f"gateward-feed: {reason}\n{SYNOPSIS}", end="", file=sys.stderr)
    raise SystemExit(2)


def read_words(given):
    """Reads the words. A value stands after its option, or is joined to it by =."""
    words, rest = Words(), list(given)
    while rest:
        word = rest.pop(0)
        name, joined, value = word.partition("=")
        if word in FLAGS:
            words.flags.add(word)
        elif name in VALUES:
            if not joined and not rest:
                refuse(f"{name} has no value")
            words.values[name] = value if joined else rest.pop(0)
        else:
            refuse(f"{word} is no option")
    check_words(words)
    return words


def check_words(words):
    flags = words.flags
    if not re.fullmatch(r"([A-Za-z0-9.-]+|\[[0-9A-Fa-f:.]+\]):[0-9]{1,5}", words.admin):
        refuse(f"the value of --admin, {words.admin}, isn't HOST:PORT")
    if words.lease is not None and not re.fullmatch(r"[a-z0-9-]+/[a-z0-9.-]+", words.lease):
        refuse(f"the value of --lease, {words.lease}, isn't NAMESPACE/NAME")
    for flag in ("--apply", "--follow"):
        if flag in flags and "--statuses" not in flags:
            refuse(f"{flag} is for --statuses alone")
    if "--statuses" in flags and "--once" in flags:
        refuse("--once isn't for --statuses, which makes one round by itself")
    if "--follow" in flags and "--apply" in flags:
        refuse("--apply isn't for --follow, which writes statuses by itself")
    if words.lease is not None and "--follow" not in flags:
        refuse("--lease is for --statuses --follow alone")
    if "--statuses" in flags and "--follow" not in flags and not words.ready:
        refuse("--statuses needs --follow, or the --ready FILE of the feed that runs")
