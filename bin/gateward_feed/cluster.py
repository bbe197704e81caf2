"""The API server of the cluster, which is reached through one `kubectl proxy`: it knows how to sign in, and renews what it signs in with."""
import http.client
import json
import os
import socket
import subprocess
import threading
import time
from urllib.parse import quote

from .say import Outage


class Unreached(Exception):
    """The API server isn't reached, or it answers that it can't serve now."""


class Gone(Exception):
    """The version from which a list or a watch was to go on is too old."""


class Refused(Exception):
    """The API server refuses a request, by a code and a message."""

    def __init__(self, code, message):
        super().__init__(f"{code}: {message}")
        self.code = code


class ProxyConnection(http.client.HTTPConnection):
    def __init__(self, path, timeout):
        super().__init__("localhost", timeout=timeout)
        self.path = path

    def connect(self):
        self.sock = socket.socket(socket.AF_UNIX, socket.SOCK_STREAM)
        self.sock.settimeout(self.timeout)
        self.sock.connect(self.path)


def listens(path):
    with socket.socket(socket.AF_UNIX, socket.SOCK_STREAM) as tried:
        return tried.connect_ex(path) == 0


def message_of(text):
    """The message of a Status, or the first line of another text."""
    try:
        return json.loads(text).get("message", "")
    except (ValueError, AttributeError):
        return text.decode(errors="replace").strip().partition("\n")[0]


class Cluster:
    """The proxy listens at a socket in a folder that nobody else may enter: a port would give the rights of this user to each process of the host."""

    def __init__(self, words, folder):
        self.command = ["kubectl", *words, "proxy"]
        self.folder, self.process, self.number, self.ended = folder, None, 0, False
        self.lock, self.own = threading.Lock(), threading.local()
        self.outage = Outage("the API server isn't reached: {reason}", "the API server: not reached since {seconds} s",
                             "the API server is reached again after {seconds} s")

    def socket_path(self):
        """Where the proxy listens. It is started where it isn't running."""
        with self.lock:
            path = os.path.join(self.folder, f"proxy-{self.number}")
            if self.process and self.process.poll() is None:
                return path
            if self.ended:
                raise Unreached("this process ends")
            self.number += 1
            path = os.path.join(self.folder, f"proxy-{self.number}")
            with open(os.path.join(self.folder, "proxy.log"), "wb") as log:
                self.process = subprocess.Popen([*self.command, f"--unix-socket={path}"], stdin=subprocess.DEVNULL, stdout=log, stderr=log)
            self.await_socket(path)
            return path

    def await_socket(self, path):
        end = time.monotonic() + 20
        while not listens(path):
            if self.process.poll() is not None or time.monotonic() > end:
                self.end_proxy()
                with open(os.path.join(self.folder, "proxy.log"), "rb") as log:
                    said = log.read().decode(errors="replace").strip().splitlines()
                raise Unreached("kubectl proxy: " + (said[-1] if said else "it doesn't begin"))
            time.sleep(0.02)

    def end(self):
        with self.lock:
            self.ended = True
            self.end_proxy()

    def end_proxy(self):
        if self.process and self.process.poll() is None:
            self.process.terminate()
            try:
                self.process.wait(5)
            except subprocess.TimeoutExpired:
                self.process.kill()
                self.process.wait()

    def request(self, method, path, body=None, content_type="application/json"):
        """The reply to a request, decoded. Each thread keeps a connection; one that was closed meanwhile is opened again."""
        headers = {"content-type": content_type, "accept": "application/json"}
        content = None if body is None else json.dumps(body).encode()
        for attempt in (1, 2):
            kept = getattr(self.own, "connection", None)
            connection = kept or ProxyConnection(self.socket_path(), 60)
            try:
                connection.request(method, path, content, headers)
                reply = connection.getresponse()
                text = reply.read()
                break
            except (OSError, http.client.HTTPException) as error:
                connection.close()
                self.own.connection = None
                if attempt == 2 or not kept:
                    raise Unreached(f"kubectl proxy: {error}") from error
        self.own.connection = connection
        return self.judge(reply.status, text)

    def judge(self, code, text):
        if code in (200, 201):
            return json.loads(text)
        if code == 410:
            raise Gone
        # (502 is the proxy's own, of a server that it doesn't reach)
        if code == 429 or code >= 500:
            raise Unreached(f"{code} {message_of(text)}")
        raise Refused(code, message_of(text))

    def pages(self, path):
        """The objects of a list, in pieces, and the version of the list."""
        objects, more = [], ""
        while True:
            piece = self.request("GET", f"{path}?limit=500" + (f"&continue={quote(more)}" if more else ""))
            objects += piece.get("items") or []
            more = piece["metadata"].get("continue")
            if not more:
                return objects, piece["metadata"].get("resourceVersion", "")

    def watch(self, path, version, seconds):
        """The events of a watch that begins after a version, until the server ends it."""
        connection = ProxyConnection(self.socket_path(), seconds + 30)
        try:
            connection.request("GET", f"{path}?watch=1&allowWatchBookmarks=true&timeoutSeconds={seconds}&resourceVersion={version}")
            reply = connection.getresponse()
            if reply.status != 200:
                self.judge(reply.status, reply.read())
            yield None
            for line in reply:
                # (a line without an end is one that broke off)
                if line.endswith(b"\n"):
                    yield json.loads(line)
        except (OSError, http.client.HTTPException) as error:
            raise Unreached(f"kubectl proxy: {error or 'the connection broke'}") from error
        finally:
            connection.close()
