"""A stand-in for a cluster's API server, for tests: discovery, lists in pieces, watches from a version, patches of statuses, Events and Leases.

    python3 api_server.py EVENTS.jsonl     prints the port at 127.0.0.1 where it serves the objects of the file, and serves them until it is ended
"""
import copy
import json
import re
import sys
import threading
import time
from http.server import BaseHTTPRequestHandler, ThreadingHTTPServer
from urllib.parse import parse_qs, unquote, urlsplit

GATEWAY_API = "gateway.networking.k8s.io"

# Each resource with its version, its kind, and whether it is namespaced. Those from Pod on are there for `kubectl apply`.
RESOURCES = {
    "namespaces": ("v1", "Namespace", False), "services": ("v1", "Service", True), "events": ("v1", "Event", True),
    "gatewayclasses": (f"{GATEWAY_API}/v1", "GatewayClass", False), "gateways": (f"{GATEWAY_API}/v1", "Gateway", True),
    "httproutes": (f"{GATEWAY_API}/v1", "HTTPRoute", True), "referencegrants": (f"{GATEWAY_API}/v1beta1", "ReferenceGrant", True),
    "endpointslices": ("discovery.k8s.io/v1", "EndpointSlice", True), "leases": ("coordination.k8s.io/v1", "Lease", True),
    "pods": ("v1", "Pod", True), "serviceaccounts": ("v1", "ServiceAccount", True), "configmaps": ("v1", "ConfigMap", True),
    "deployments": ("apps/v1", "Deployment", True),
    **{f"{kind.lower()}s": ("rbac.authorization.k8s.io/v1", kind, space)
       for kind, space in (("Role", True), ("RoleBinding", True), ("ClusterRole", False), ("ClusterRoleBinding", False))},
}
BY_KIND = {kind: (resource, version, namespaced) for resource, (version, kind, namespaced) in RESOURCES.items()}
TIME = re.compile(r"\d{4}-\d\d-\d\dT\d\d:\d\d:\d\dZ")


class Refusal(Exception):
    def __init__(self, code, message):
        super().__init__(message)
        self.code, self.message = code, message


def status_of(code, message):
    return {"kind": "Status", "apiVersion": "v1", "metadata": {}, "status": "Failure", "message": message, "code": code}


class Store:
    """The objects, and all events so far. `hidden` are resources that the server doesn't have; `delay` is how long a patch takes."""

    def __init__(self, objects=()):
        self.changed = threading.Condition(threading.RLock())
        self.version, self.least, self.watches_end, self.objects, self.history = 1000, 0, 0, {}, []
        self.hidden, self.patches, self.before_patch = set(), [], lambda key: None
        for found in objects:
            self.put(found)

    def put(self, found):
        """Makes or replaces an object. Another spec is another generation, and an object that was deleted and made again has another uid."""
        resource, version, namespaced = BY_KIND[found["kind"]]
        found = copy.deepcopy(found)
        with self.changed:
            metadata = found["metadata"]
            if namespaced:
                metadata.setdefault("namespace", "default")
            key = resource, metadata.get("namespace", "") if namespaced else "", metadata["name"]
            before = self.objects.get(key)
            self.version += 1
            metadata["resourceVersion"] = str(self.version)
            metadata["uid"] = before["metadata"]["uid"] if before else f"uid-{self.version}"
            metadata.setdefault("creationTimestamp", "2026-01-01T00:00:00Z")
            metadata["generation"] = before["metadata"]["generation"] + (before.get("spec") != found.get("spec")) if before else 1
            if before and "status" in before:
                found.setdefault("status", before["status"])
            self.tell("MODIFIED" if before else "ADDED", key, {"apiVersion": version, **found})
            return found

    def remove(self, kind, name, namespace=""):
        key = BY_KIND[kind][0], namespace, name
        with self.changed:
            self.version += 1
            found = copy.deepcopy(self.objects.pop(key))
            found["metadata"]["resourceVersion"] = str(self.version)
            self.history.append((self.version, key[0], "DELETED", found))
            self.changed.notify_all()

    def tell(self, event, key, found):
        self.objects[key] = found
        self.history.append((self.version, key[0], event, found))
        self.changed.notify_all()

    def get(self, kind, name, namespace=""):
        with self.changed:
            return copy.deepcopy(self.objects.get((BY_KIND[kind][0], namespace, name)))

    def end_watches(self, expire=False):
        """Ends all watches; if they expire, no older version can be gone on from."""
        with self.changed:
            self.watches_end += 1
            self.version += 1
            if expire:
                self.least = self.version
            self.changed.notify_all()

    def patch_status(self, key, patch):
        self.before_patch(key)
        with self.changed:
            found = self.objects.get(key)
            if not found:
                raise Refusal(404, "it isn't there")
            fault = lacks(patch["status"])
            self.patches.append({"kind": found["kind"], "name": key[2], "patch": patch, "refused": fault})
            if fault:
                raise Refusal(422, fault)
            if patch.get("metadata", {}).get("resourceVersion", found["metadata"]["resourceVersion"]) != found["metadata"]["resourceVersion"]:
                self.patches[-1]["refused"] = "conflict"
                raise Refusal(409, "the object has been modified")
            return self.put({**found, "status": {**found.get("status", {}), **patch["status"]}})


def lacks(status):
    """What an API server would refuse in a status; None, if it takes it."""
    lists = [status.get("conditions") or []]
    for entry in status.get("listeners") or []:
        if not {"name", "supportedKinds", "attachedRoutes", "conditions"} <= entry.keys():
            return "a listener lacks a field"
        lists.append(entry["conditions"])
    for entry in status.get("parents") or []:
        if not {"parentRef", "controllerName"} <= entry.keys():
            return "a parent lacks a field"
        lists.append(entry.get("conditions") or [])
    for one in (one for conditions in lists for one in conditions):
        if not all(isinstance(one.get(name), str) for name in ("type", "status", "reason", "message", "lastTransitionTime")):
            return "a condition lacks a field"
        if not TIME.fullmatch(one["lastTransitionTime"]):
            return "a time isn't one"
    return None


class Handler(BaseHTTPRequestHandler):
    protocol_version, disable_nagle_algorithm, wbufsize = "HTTP/1.1", True, -1

    def log_message(self, *words):
        pass

    def give(self, content, code=200):
        text = json.dumps(content).encode()
        self.send_response(code)
        self.send_header("content-type", "application/json")
        self.send_header("content-length", str(len(text)))
        self.end_headers()
        self.wfile.write(text)

    def answer(self):
        body = self.rfile.read(int(self.headers.get("content-length") or 0))
        place = urlsplit(self.path)
        query = {name: values[0] for name, values in parse_qs(place.query).items()}
        try:
            self.decide(place.path, query, json.loads(body) if body else None)
        except Refusal as refusal:
            self.give(status_of(refusal.code, refusal.message), refusal.code)
        except ConnectionError:
            self.close_connection = True

    do_GET = do_POST = do_PUT = do_PATCH = answer

    def decide(self, path, query, body):
        if self.discovery(path):
            return
        key, status = self.key_of(path)
        store = self.server.store
        if self.command == "PATCH" and status:
            self.give(store.patch_status(key, body))
        elif self.command == "POST":
            self.create(key, body)
        elif self.command == "PUT":
            self.replace(key, body)
        elif key[2]:
            found = store.objects.get(key)
            self.give(found or status_of(404, f"{key[2]} isn't there"), 200 if found else 404)
        elif query.get("watch"):
            self.watch(key[0], int(query.get("resourceVersion") or 0), int(query.get("timeoutSeconds") or 600))
        else:
            self.list(key, query)

    def key_of(self, path):
        """The resource, the namespace and the name of a path, and whether it is of a status."""
        parts = [unquote(part) for part in path.strip("/").split("/")]
        parts = parts[2:] if parts[0] == "api" else parts[3:]
        namespace = ""
        if len(parts) > 2 and parts[0] == "namespaces":
            namespace, parts = parts[1], parts[2:]
        if not parts or parts[0] not in RESOURCES or parts[0] in self.server.store.hidden:
            raise Refusal(404, "the server could not find the requested resource")
        return (parts[0], namespace, parts[1] if len(parts) > 1 else ""), parts[2:] == ["status"]

    def create(self, key, body):
        with self.server.store.changed:
            if (*key[:2], body["metadata"]["name"]) in self.server.store.objects:
                raise Refusal(409, "it is there already")
            self.give(self.server.store.put(body), 201)

    def replace(self, key, body):
        with self.server.store.changed:
            found = self.server.store.objects.get(key)
            if not found or found["metadata"]["resourceVersion"] != body["metadata"].get("resourceVersion"):
                raise Refusal(409, "the object has been modified")
            self.give(self.server.store.put(body))

    def list(self, key, query):
        store = self.server.store
        with store.changed:
            found = [one for (resource, namespace, _), one in sorted(store.objects.items()) if resource == key[0] and key[1] in ("", namespace)]
            version, kind = str(store.version), RESOURCES[key[0]][1]
        begin, limit = int(query.get("continue") or 0), int(query.get("limit") or 0)
        end = begin + limit if limit and begin + limit < len(found) else len(found)
        metadata = {"resourceVersion": version, **({"continue": str(end)} if end < len(found) else {})}
        self.give({"kind": f"{kind}List", "apiVersion": RESOURCES[key[0]][0], "metadata": metadata, "items": found[begin:end]})

    def watch(self, resource, version, seconds):
        store = self.server.store
        self.send_response(200)
        self.send_header("content-type", "application/json")
        self.send_header("transfer-encoding", "chunked")
        self.end_headers()
        self.wfile.flush()
        number, end = store.watches_end, time.monotonic() + seconds
        place = 0
        while time.monotonic() < end and not self.server.stopped:
            with store.changed:
                if version < store.least:
                    self.chunk({"type": "ERROR", "object": status_of(410, "too old resource version")})
                    break
                if number != store.watches_end:
                    break
                if place == len(store.history):
                    store.changed.wait(0.2)
                events, place = store.history[place:], len(store.history)
            for when, which, event, found in events:
                if which == resource and when > version:
                    self.chunk({"type": event, "object": found})
        self.wfile.write(b"0\r\n\r\n")
        self.wfile.flush()
        self.wfile.flush()
        self.close_connection = True

    def chunk(self, event):
        text = json.dumps(event).encode() + b"\n"
        self.wfile.write(b"%x\r\n%s\r\n" % (len(text), text))
        self.wfile.flush()

    def discovery(self, path):
        """What kubectl asks for before it knows a kind."""
        versions = sorted({version for version, _, _ in RESOURCES.values() if "/" in version})
        if path == "/version":
            self.give({"major": "1", "minor": "32", "gitVersion": "v1.32.0"})
        elif path == "/api":
            self.give({"kind": "APIVersions", "versions": ["v1"]})
        elif path == "/apis":
            groups = {version.split("/")[0]: [] for version in versions}
            for version in versions:
                groups[version.split("/")[0]].append({"groupVersion": version, "version": version.split("/")[1]})
            self.give({"kind": "APIGroupList", "apiVersion": "v1", "groups": [
                {"name": name, "versions": of_group, "preferredVersion": of_group[0]} for name, of_group in groups.items()]})
        elif path in ["/api/v1"] + [f"/apis/{version}" for version in versions]:
            version = path.split("/", 2)[2]
            self.give({"kind": "APIResourceList", "apiVersion": "v1", "groupVersion": version, "resources": [
                {"name": name + part, "singularName": "", "namespaced": namespaced, "kind": kind, "verbs": ["get", "list", "watch", "patch"]}
                for name, (of, kind, namespaced) in RESOURCES.items() if of == version and name not in self.server.store.hidden
                for part in ("", "/status")]})
        else:
            return False
        return True


class Server(ThreadingHTTPServer):
    daemon_threads, allow_reuse_address, request_queue_size = True, True, 64

    def __init__(self, store, port=0):
        super().__init__(("127.0.0.1", port), Handler)
        self.store, self.stopped = store, False
        threading.Thread(target=self.serve_forever, args=(0.05,), daemon=True).start()

    @property
    def port(self):
        return self.server_address[1]

    def handle_error(self, request, client_address):
        pass

    def stop(self):
        """Closes the port, and ends all watches."""
        self.stopped = True
        self.store.end_watches()
        self.shutdown()
        self.server_close()


def read_events(path):
    with open(path, encoding="utf-8") as file:
        return [json.loads(line)["object"] for line in file if line.strip()]


if __name__ == "__main__":
    print(Server(Store(read_events(sys.argv[1]))).port, flush=True)
    threading.Event().wait()
