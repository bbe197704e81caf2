"""A Lease of the cluster, by which one of several replicas writes statuses."""
import os
import socket
import threading
import time
import uuid

from .cluster import Gone, Refused, Unreached
from .say import say

# In seconds: how long a Lease lasts that isn't renewed, how long its holder goes by it, and how often each replica looks.
DURATION, HOLDS, LOOK = 15, 10, 2


class Lease(threading.Thread):
    """`is_held` is so for a shorter time than that after which another replica takes the Lease, by clocks that run at the same pace."""

    def __init__(self, cluster, name, on_change):
        super().__init__(daemon=True)
        self.cluster, self.on_change = cluster, on_change
        self.namespace, _, self.name = name.partition("/")
        self.path = f"/apis/coordination.k8s.io/v1/namespaces/{self.namespace}/leases"
        self.identity = f"{os.environ.get('HOSTNAME') or socket.gethostname()}_{uuid.uuid4()}"
        self.until, self.seen, self.seen_at, self.said = 0, None, 0, ""

    def is_held(self):
        return time.monotonic() < self.until

    def run(self):
        while True:
            before = self.is_held()
            try:
                self.look()
                self.said = ""
            except (Refused, Unreached, Gone) as error:
                if isinstance(error, Refused) and self.said != str(error):
                    self.said = str(error)
                    say(f"the Lease {self.namespace}/{self.name} isn't had: {error}")
            if self.is_held() != before:
                whose = "held: statuses are written from here" if self.is_held() else "no longer held"
                say(f"the Lease {self.namespace}/{self.name} is {whose}")
                self.on_change()
            time.sleep(LOOK)

    def look(self):
        """Renews the Lease, or takes it if nobody renewed it for as long as it lasts."""
        began = time.monotonic()
        try:
            found = self.cluster.request("GET", f"{self.path}/{self.name}")
        except Refused as error:
            if error.code != 404:
                raise
            self.put("POST", self.path, {"metadata": {"name": self.name, "namespace": self.namespace}}, began)
            return
        spec = found.get("spec") or {}
        record = spec.get("holderIdentity"), spec.get("renewTime")
        if record != self.seen:
            self.seen, self.seen_at = record, began
        if record[0] in (None, "", self.identity) or began - self.seen_at > (spec.get("leaseDurationSeconds") or DURATION):
            self.put("PUT", f"{self.path}/{self.name}", found, began)
        else:
            self.until = 0

    def put(self, method, path, found, began):
        spec = found.get("spec") or {}
        now = time.strftime("%Y-%m-%dT%H:%M:%S.000000Z", time.gmtime())
        own = spec.get("holderIdentity") == self.identity
        content = {"apiVersion": "coordination.k8s.io/v1", "kind": "Lease", "metadata": found["metadata"], "spec": {
            "holderIdentity": self.identity, "leaseDurationSeconds": DURATION, "renewTime": now,
            "acquireTime": spec.get("acquireTime", now) if own else now,
            "leaseTransitions": (spec.get("leaseTransitions") or 0) + (0 if own else 1)}}
        try:
            self.cluster.request(method, path, content)
            self.until = began + HOLDS
        except Refused as error:
            if error.code != 409:
                raise
            self.until = 0

    def give_up(self):
        """At the end: another replica takes the Lease at once."""
        if not self.is_held():
            return
        self.until = 0
        try:
            found = self.cluster.request("GET", f"{self.path}/{self.name}")
            if found["spec"].get("holderIdentity") == self.identity:
                found["spec"]["holderIdentity"] = ""
                self.cluster.request("PUT", f"{self.path}/{self.name}", found)
        except (Refused, Unreached, Gone):
            pass
