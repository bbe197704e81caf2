"""The objects that events put, where they are given: what the statuses don't say of listeners, Routes and Services."""
import json

GROUP = "gateway.networking.k8s.io"
VERSIONS = {"GatewayClass": f"{GROUP}/v1", "Gateway": f"{GROUP}/v1", "HTTPRoute": f"{GROUP}/v1", "ReferenceGrant": f"{GROUP}/v1beta1",
            "Namespace": "v1", "Service": "v1", "EndpointSlice": "discovery.k8s.io/v1"}
CLUSTERED = ("GatewayClass", "Namespace")


def part(value, *names):
    """A member of a member, or nothing where one of them isn't there or is no object."""
    for name in names:
        value = value.get(name) if isinstance(value, dict) else None
    return value


def items(value, *names):
    """The objects of a list that is a member."""
    found = part(value, *names)
    return [it for it in found if isinstance(it, dict)] if isinstance(found, list) else []


def object_key(object):
    name, namespace = part(object, "metadata", "name"), part(object, "metadata", "namespace")
    return f"{name}" if part(object, "kind") in CLUSTERED else f"{namespace or 'default'}/{name}"


def event_of(line):
    """The event of a line, or nothing where it is none."""
    try:
        event = json.loads(line)
    except ValueError:
        return None
    return event if isinstance(part(event, "object"), dict) else None


class Objects:
    """What is held after the lines, but for the refused ones."""

    def __init__(self, lines=(), refused=()):
        self.held = {}
        self.lines = list(lines)
        self.is_given = bool(self.lines)
        for number, line in enumerate(self.lines, 1):
            event = event_of(line)
            if number not in refused and event:
                self.take(event)

    def take(self, event):
        object = event["object"]
        kind = object.get("kind")
        if VERSIONS.get(kind) != object.get("apiVersion") or event.get("type") not in ("ADDED", "MODIFIED", "DELETED"):
            return
        place = kind, object_key(object)
        if event["type"] == "DELETED":
            self.held.pop(place, None)
        else:
            self.held[place] = object

    def get(self, kind, key):
        return self.held.get((kind, key))

    def of_kind(self, kind):
        return {key: object for (it, key), object in self.held.items() if it == kind}

    def named_in(self, number):
        """The kind and key of the object in a line, where they can be told."""
        event = event_of(self.lines[number - 1]) if 0 < number <= len(self.lines) else None
        if not event or not isinstance(part(event, "object", "kind"), str):
            return ""
        has_name = isinstance(part(event, "object", "metadata", "name"), str)
        return f"{event['object']['kind']} {object_key(event['object']) if has_name else 'without a name'}"

    def listener(self, gateway, name):
        """What a Gateway says of its listener."""
        return next((it for it in items(self.get("Gateway", gateway), "spec", "listeners") if it.get("name") == name), {})

    def class_of(self, gateway):
        return part(self.get("Gateway", gateway), "spec", "gatewayClassName") or ""

    def hostnames(self, route):
        return [it for it in part(self.get("HTTPRoute", route), "spec", "hostnames") or [] if isinstance(it, str)]

    def rules(self, route):
        rules = part(self.get("HTTPRoute", route), "spec", "rules")
        return [{}] if rules is None and self.get("HTTPRoute", route) else items(self.get("HTTPRoute", route), "spec", "rules")

    def match(self, route, rule, match):
        """A match of a rule, with its default."""
        rules = self.rules(route)
        matches = items(rules[rule], "matches") if rule < len(rules) else []
        return matches[match] if match < len(matches) else {}

    def backends(self, route):
        """Each backendRef of a Route: its rule, what it names, its port and weight, and its state where that isn't resolved."""
        for place, rule in enumerate(self.rules(route)):
            for ref in items(rule, "backendRefs"):
                yield {"rule": place, "name": self.backend_key(route, ref), "port": ref.get("port"), "weight": ref.get("weight", 1),
                       "kind": ref.get("kind") or "Service", "state": self.state_of(route, ref)}

    def backend_key(self, route, ref):
        return f"{ref.get('namespace') or route.partition('/')[0]}/{ref.get('name')}"

    def state_of(self, route, ref):
        """Why a backendRef isn't resolved, or nothing: the first row of the table of references in docs/reference.md that holds."""
        key = self.backend_key(route, ref)
        service = self.get("Service", key)
        if ref.get("group") or (ref.get("kind") or "Service") != "Service":
            return "InvalidKind"
        if not self.is_permitted(route.partition("/")[0], key):
            return "NotPermitted"
        if service is None:
            return "NotFound"
        if part(service, "spec", "type") == "ExternalName":
            return "InvalidKind"
        port = next((it for it in items(service, "spec", "ports")
                     if it.get("port") == ref.get("port") and (it.get("protocol") or "TCP") == "TCP"), None)
        if port is None:
            return "NotFound"
        return "BadProtocol" if port.get("appProtocol") in ("kubernetes.io/h2c", "kubernetes.io/wss", "https") else ""

    def is_permitted(self, namespace, key):
        service_namespace, _, name = key.partition("/")
        if service_namespace == namespace:
            return True
        source = {"group": GROUP, "kind": "HTTPRoute", "namespace": namespace}
        for grant_key, grant in self.of_kind("ReferenceGrant").items():
            comes = any(all(it.get(member) == value for member, value in source.items()) for it in items(grant, "spec", "from"))
            goes = any(it.get("group") == "" and it.get("kind") == "Service" and (it.get("name") or name) == name
                       for it in items(grant, "spec", "to"))
            if grant_key.partition("/")[0] == service_namespace and comes and goes:
                return True
        return False
