"""The seven kinds of object that gateward reads, each at the version that it reads, and an object's line."""
import json
from typing import NamedTuple
from urllib.parse import quote

# The members of an object's metadata that gateward reads. The others, as managedFields and annotations, are often longer than all else.
READ = ("name", "namespace", "creationTimestamp", "generation", "labels")


class Kind(NamedTuple):
    name: str
    version: str
    plural: str

    @property
    def resource(self):
        """The kind at its version, as kubectl names it."""
        group, _, version = self.version.rpartition("/")
        return f"{self.plural}.{version}.{group}"

    def path(self, key=""):
        """Where the API server has the kind's objects, or the one of a key."""
        namespace, _, name = key.rpartition("/")
        root = "/apis/" if "/" in self.version else "/api/"
        within = f"/namespaces/{quote(namespace)}" if namespace else ""
        return f"{root}{self.version}{within}/{self.plural}" + (f"/{quote(name)}" if name else "")


GATEWAY_API = "gateway.networking.k8s.io"

# Those to which others refer come first.
KINDS = {kind.name: kind for kind in (
    Kind("Namespace", "v1", "namespaces"),
    Kind("GatewayClass", f"{GATEWAY_API}/v1", "gatewayclasses"),
    Kind("ReferenceGrant", f"{GATEWAY_API}/v1beta1", "referencegrants"),
    Kind("Service", "v1", "services"),
    Kind("EndpointSlice", "discovery.k8s.io/v1", "endpointslices"),
    Kind("Gateway", f"{GATEWAY_API}/v1", "gateways"),
    Kind("HTTPRoute", f"{GATEWAY_API}/v1", "httproutes"),
)}

# The kinds of which gateward gives statuses.
WITH_STATUS = ("GatewayClass", "Gateway", "HTTPRoute")


def key_of(metadata):
    """NAMESPACE/NAME, or the name alone of an object without a namespace."""
    namespace = metadata.get("namespace")
    return f"{namespace}/{metadata['name']}" if namespace else metadata["name"]


def put_line(kind, found):
    """The event by which gateward takes the object, without what it doesn't read."""
    metadata = {name: found["metadata"][name] for name in READ if found["metadata"].get(name) is not None}
    rest = {name: value for name, value in found.items() if name not in ("status", "metadata", "apiVersion", "kind")}
    return as_line("ADDED", {"apiVersion": kind.version, "kind": kind.name, "metadata": metadata, **rest})


def removal_line(kind, key):
    """The event by which gateward removes the object of the key."""
    namespace, _, name = key.rpartition("/")
    metadata = {"namespace": namespace, "name": name} if namespace else {"name": name}
    return as_line("DELETED", {"apiVersion": kind.version, "kind": kind.name, "metadata": metadata})


def as_line(event, content):
    # (half of a surrogate pair can't be UTF-8: gateward refuses such a line)
    return json.dumps({"type": event, "object": content}, ensure_ascii=False, separators=(",", ":")).encode("utf-8", "surrogatepass")
