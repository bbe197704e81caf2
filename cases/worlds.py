"""What is made of objects and of requests: a second evaluation of the rules of docs/reference.md, under "Lines", "The text", "References" and
"Which rule serves a request", with plain loops over everything and no thought of speed. The scripts of cases that draw objects have it.
"""
import collections
import json

GROUP = "gateway.networking.k8s.io"
VERSIONS = {"GatewayClass": GROUP + "/v1", "Gateway": GROUP + "/v1", "HTTPRoute": GROUP + "/v1", "ReferenceGrant": GROUP + "/v1beta1",
            "Namespace": "v1", "Service": "v1", "EndpointSlice": "discovery.k8s.io/v1"}

# What occurred so far.
shown = set()


def show(*words):
    """Notes that something is shown by these worlds."""
    shown.add(" ".join(str(word) for word in words))


def compact(value):
    return json.dumps(value, sort_keys=True, separators=(",", ":"))


def condition(kind, truth, reason):
    return {"type": kind, "status": "True" if truth else "False", "reason": reason}


def is_true(kind, conditions):
    return any(c["type"] == kind and c["status"] == "True" for c in conditions)


def covers(host, name):
    """Whether a hostname, or none, covers a precise name."""
    if host is None:
        return True
    return name.endswith(host[1:]) if host.startswith("*.") else name == host


def meet(host, hostname):
    """Whether two hostnames, each of which may be none, have a name in common: then one of these is."""
    names = [one.replace("*", "z") for one in (host, hostname) if one] or ["z"]
    return any(covers(host, name) and covers(hostname, name) for name in names)


def selects(selector, labels):
    for name, value in (selector.get("matchLabels") or {}).items():
        show("matchLabels", labels.get(name) == value)
        if labels.get(name) != value:
            return False
    for expression in selector.get("matchExpressions", []):
        key, operator, values = expression["key"], expression["operator"], expression.get("values")
        holds = {"In": key in labels and labels[key] in (values or []), "NotIn": key not in labels or labels[key] not in (values or []),
                 "Exists": key in labels, "DoesNotExist": key not in labels}[operator]
        show(operator, "of a label" if key in labels else "without the label", holds)
        if not holds:
            return False
    return True


UNSUPPORTED_EDITS = ["host", "connection", "content-length", "transfer-encoding", "keep-alive", "proxy-connection", "te", "trailer", "upgrade"]
MODIFIERS = {"RequestHeaderModifier": "requestHeaderModifier", "ResponseHeaderModifier": "responseHeaderModifier"}
PATHS = {"RequestRedirect": "requestRedirect", "URLRewrite": "urlRewrite"}
REDIRECTS = [301, 302, 303, 307, 308]


def matches_of(rule):
    return rule.get("matches") or [{"path": {"type": "PathPrefix", "value": "/"}}]


def path_type(match):
    return match.get("path", {}).get("type", "PathPrefix")


def paths_of(rule):
    """The path modifiers of its filters."""
    found = [f[PATHS[f["type"]]].get("path") for f in rule.get("filters", []) if f["type"] in PATHS]
    return [path for path in found if path is not None]


def is_unsupported_edit(one):
    """Whether a filter edits a field that isn't to be edited."""
    if one["type"] not in MODIFIERS:
        return False
    edits = one[MODIFIERS[one["type"]]]
    names = [edit["name"] for edit in edits.get("set", []) + edits.get("add", [])] + edits.get("remove", [])
    return any(name.lower() in UNSUPPORTED_EDITS for name in names)


def unsupported(rule):
    """What isn't supported in a rule."""
    for match in matches_of(rule):
        if path_type(match) not in ["Exact", "PathPrefix"]:
            yield "path"
        if any(header.get("type", "Exact") != "Exact" for header in match.get("headers", [])):
            yield "header"
        if any(query.get("type", "Exact") != "Exact" for query in match.get("queryParams", [])):
            yield "query"
        if match.get("method", "GET") not in "GET HEAD POST PUT DELETE CONNECT OPTIONS TRACE PATCH".split():
            yield "method"
    for one in rule.get("filters", []):
        if one["type"] not in [*MODIFIERS, *PATHS]:
            yield "filter"
        if is_unsupported_edit(one):
            yield "edit"
        if one["type"] == "RequestRedirect":
            if one["requestRedirect"].get("scheme", "http") not in ["http", "https"]:
                yield "scheme"
            if one["requestRedirect"].get("statusCode", 302) not in REDIRECTS:
                yield "statusCode"
    if any(path["type"] not in ["ReplaceFullPath", "ReplacePrefixMatch"] for path in paths_of(rule)):
        yield "modifier"
    for reference in rule.get("backendRefs", []):
        if any(one["type"] not in MODIFIERS for one in reference.get("filters", [])):
            yield "filter of a backendRef"
        if any(is_unsupported_edit(one) for one in reference.get("filters", [])):
            yield "edit of a backendRef"
    if "timeouts" in rule:
        yield "timeouts"


def types_of(thing):
    """The types of the filters of a rule, or of a backendRef."""
    return [one["type"] for one in thing.get("filters", [])]


def is_repeated(types):
    return len(set(types)) < len(types)


def incompatible(rule):
    """What can't be together in a rule."""
    types = types_of(rule)
    matches = matches_of(rule)
    if is_repeated(types):
        yield "two of one type"
    for reference in rule.get("backendRefs", []):
        if is_repeated(types_of(reference)):
            yield "two of one type on a backendRef"
        elif set(types) & set(types_of(reference)):
            show("one type in a rule and on its backendRef")
    if "RequestRedirect" in types and "URLRewrite" in types:
        yield "redirect and rewrite"
    if "RequestRedirect" in types and rule.get("backendRefs"):
        yield "redirect and backendRefs"
    if any(path["type"] == "ReplacePrefixMatch" for path in paths_of(rule)):
        if len(matches) > 1:
            yield "prefix of several matches"
        if len(matches) == 1 and path_type(matches[0]) != "PathPrefix":
            yield "prefix of a path that is none"
    elif paths_of(rule):
        show("a full path of", "several matches" if len(matches) > 1 else path_type(matches[0]))


def hostnames_of(route):
    """Its hostnames, or none, which is one that covers each name."""
    return route["spec"].get("hostnames") or [None]


def specific(hostname):
    """How specific a hostname is, or none: by the characters of a precise one, and then of any."""
    written = len(hostname or "")
    return (0 if hostname is None or hostname.startswith("*") else written, written)


# A request: its query and its fields are pairs of a name and a value.
Request = collections.namedtuple("Request", "method path query host fields")
Row = collections.namedtuple("Row", "route hostname rule place match host_place")

# The moment of a put, where the object has none of its creation. Scripts with it put Routes in the order of their keys.
NOW = "2000-01-01T00:00:00Z"


def first_of_each(entries, of_name):
    """The values by their names, of which the first counts."""
    first = {}
    for name, value in entries:
        first.setdefault(of_name(name), value)
    return first


def asked_of(entries, of_name):
    """The same of the entries of a match."""
    return first_of_each([(one["name"], one["value"]) for one in entries], of_name)


def fits(match, request):
    """Whether the tests of a match hold, but that of the hostname."""
    value = match.get("path", {}).get("value", "/")
    joined = {}
    for name, field in request.fields:
        joined.setdefault(name.lower(), []).append(field)
    query = first_of_each(request.query, str)
    return (
        (request.path == value if path_type(match) == "Exact" else (request.path + "/").startswith(value.rstrip("/") + "/"))
        and match.get("method", request.method) == request.method
        and all(name in joined and ",".join(joined[name]) == field for name, field in asked_of(match.get("headers", []), str.lower).items())
        and all(query.get(name) == found for name, found in asked_of(match.get("queryParams", []), str).items())
    )


def precedence(row):
    """The parts of which the smaller one stands first."""
    match = row.match
    precise, written = specific(row.hostname)
    return (
        -precise, -written, path_type(match) != "Exact", -len(match.get("path", {}).get("value", "/")), "method" not in match,
        -len(asked_of(match.get("headers", []), str.lower)), -len(asked_of(match.get("queryParams", []), str)),
        row.route["metadata"].get("creationTimestamp", NOW), key(row.route), row.rule, row.place, row.host_place,
    )


class Book:
    """The picks of one worker among weights: for each choice, of a key, a number and weights, how often each was picked in this round."""

    MOST = 4096

    def __init__(self):
        self.drawn = {}

    def draw(self, *choice):
        """The place of the next pick: the first of those that claim most. A new choice finds an empty book where the most are held."""
        weights, total = choice[-1], sum(choice[-1])
        if choice not in self.drawn and len(self.drawn) == self.MOST:
            self.drawn = {}
        drawn = self.drawn.setdefault(choice, [0] * len(weights))
        claims = [(sum(drawn) + 1) * weight - picks * total for weight, picks in zip(weights, drawn)]
        place = claims.index(max(claims))
        drawn[place] += 1
        if sum(drawn) == total:
            self.drawn[choice] = [0] * len(weights)
        return place


def named(thing):
    """An object with its namespace, where it has one that isn't given."""
    if thing["kind"] in ["GatewayClass", "Namespace"]:
        return thing
    return {**thing, "metadata": {"namespace": "default", **thing["metadata"]}}


class World:
    """The objects that are held after some events, for a controller and DOORs."""

    def __init__(self, controller, doors):
        self.controller = controller
        self.held = []
        self.refused, self.changes, self.skipped = [], 0, 0
        self.doors = {}
        for word in doors:
            door, socket = word.split("=")
            gateway, port = door.split(":")
            self.doors.setdefault(gateway, {})[int(port)] = socket.split(":")[0]

    def take(self, number, event):
        """Does what the line of this number says."""
        thing = named(event["object"])
        if event["type"] == "BOOKMARK" or thing["apiVersion"] != VERSIONS[thing["kind"]]:
            self.skipped += 1
        elif thing["metadata"].get("generation", 1) < 0 and event["type"] != "DELETED":
            self.refused.append({"line": number, "path": "metadata.generation", "refusal": 5})
        else:
            self.changes += 1
            there = [other for other in self.held if (other["kind"], key(other)) == (thing["kind"], key(thing))]
            show(event["type"], "of an object that is held" if there else "of one that isn't")
            self.held = [other for other in self.held if (other["kind"], key(other)) != (thing["kind"], key(thing))]
            if event["type"] != "DELETED":
                self.held.append(thing)

    def all(self, kind):
        return [thing for thing in self.held if thing["kind"] == kind]

    def of(self, kind, namespace, name):
        """The object of this key, or None."""
        for thing in self.all(kind):
            if thing["metadata"]["name"] == name and thing["metadata"].get("namespace") == namespace:
                return thing
        return None

    def classes(self):
        for thing in self.all("GatewayClass"):
            if thing["spec"]["controllerName"] == self.controller:
                bad = "parametersRef" in thing["spec"]
                yield thing, {"conditions": [condition("Accepted", not bad, "InvalidParameters" if bad else "Accepted")]}

    def is_managed(self, gateway):
        return any(thing["metadata"]["name"] == gateway["spec"]["gatewayClassName"] and is_true("Accepted", status["conditions"])
                   for thing, status in self.classes())

    # Listeners and Gateways.

    def conflict(self, gateway, listener):
        """The reason of a conflict, or None."""
        others = [other for other in gateway["spec"]["listeners"] if other["name"] != listener["name"] and other["port"] == listener["port"]]
        for other in others:
            one, two = listener["protocol"], other["protocol"]
            if (one == "HTTP" and two in ["HTTPS", "TLS", "TCP"]) or (two == "HTTP" and one in ["HTTPS", "TLS", "TCP"]):
                return "ProtocolConflict"
            show(*sorted([one, two]), "at one port,", listener.get("hostname") == other.get("hostname"))
        for other in others:
            if listener["protocol"] == other["protocol"] == "HTTP" and listener.get("hostname") == other.get("hostname"):
                return "HostnameConflict"
        return None

    def supports_routes(self, listener):
        kinds = listener.get("allowedRoutes", {}).get("kinds") or [{"kind": "HTTPRoute"}]
        return listener["protocol"] == "HTTP" and any(self.is_route_kind(kind) for kind in kinds)

    def is_route_kind(self, kind):
        return kind.get("group", GROUP) == GROUP and kind["kind"] == "HTTPRoute"

    def address(self, gateway):
        """The address of its DOORs, or None."""
        return next(iter(self.doors.get(key(gateway), {}).values()), None)

    def has_other_addresses(self, gateway):
        return any(address.get("type", "IPAddress") != "IPAddress" for address in gateway["spec"].get("addresses", []))

    def has_wrong_addresses(self, gateway):
        return any(address.get("type", "IPAddress") == "IPAddress" and address.get("value") and address["value"] != self.address(gateway)
                   for address in gateway["spec"].get("addresses", []))

    def listener_conditions(self, gateway, listener):
        conflict = self.conflict(gateway, listener)
        refusal = (conflict or (listener["protocol"] != "HTTP" and "UnsupportedProtocol")
                   or (listener["port"] not in self.doors.get(key(gateway), {}) and "PortUnavailable"))
        kinds = listener.get("allowedRoutes", {}).get("kinds") or []
        bad_kinds = any(listener["protocol"] != "HTTP" or not self.is_route_kind(kind) for kind in kinds)
        fault = self.has_other_addresses(gateway) or self.has_wrong_addresses(gateway) or self.address(gateway) is None
        programmed = not refusal and self.supports_routes(listener) and not fault
        return [condition("Accepted", not refusal, refusal or "Accepted"),
                condition("Conflicted", conflict, conflict or "NoConflicts"),
                condition("Programmed", programmed, "Programmed" if programmed else "Invalid"),
                condition("ResolvedRefs", not bad_kinds, "InvalidRouteKinds" if bad_kinds else "ResolvedRefs")]

    def gateway_status(self, gateway):
        listeners = []
        for listener in gateway["spec"]["listeners"]:
            conditions = self.listener_conditions(gateway, listener)
            listeners.append({"name": listener["name"], "conditions": conditions, "attachedRoutes": self.attached(gateway, listener),
                              "supportedKinds": [{"group": GROUP, "kind": "HTTPRoute"}] if self.supports_routes(listener) else []})
        valid = [is_true("Accepted", listener["conditions"]) for listener in listeners]
        if self.has_other_addresses(gateway):
            accepted = condition("Accepted", False, "UnsupportedAddress")
        elif not all(valid):
            accepted = condition("Accepted", any(valid), "ListenersNotValid")
        else:
            accepted = condition("Accepted", True, "Accepted")
        if self.address(gateway) is None:
            programmed = condition("Programmed", False, "AddressNotAssigned")
        elif self.has_wrong_addresses(gateway):
            programmed = condition("Programmed", False, "AddressNotUsable")
        elif accepted["status"] == "False" or not any(is_true("Programmed", listener["conditions"]) for listener in listeners):
            programmed = condition("Programmed", False, "Invalid")
        else:
            programmed = condition("Programmed", True, "Programmed")
        addresses = [{"type": "IPAddress", "value": self.address(gateway)}] if programmed["status"] == "True" else []
        return {"addresses": addresses, "conditions": [accepted, programmed], "listeners": listeners}

    # Routes at their Gateways.

    def labels(self, namespace):
        held = self.of("Namespace", None, namespace)
        labels = {} if held is None else held["metadata"].get("labels", {})
        return {**labels, "kubernetes.io/metadata.name": namespace}

    def is_selected(self, listener, parent):
        return parent.get("sectionName") in [None, listener["name"]] and parent.get("port") in [None, listener["port"]]

    def allows(self, gateway, listener, route):
        namespaces = listener.get("allowedRoutes", {}).get("namespaces", {})
        own, other = gateway["metadata"]["namespace"], route["metadata"]["namespace"]
        if not self.supports_routes(listener):
            return False
        if namespaces.get("from", "Same") == "Same":
            return own == other
        if namespaces["from"] == "All":
            return True
        selector = namespaces.get("selector")
        show("no selector" if selector is None else "a selector", "and a Namespace" if self.of("Namespace", None, other) else "and no Namespace")
        return selector is not None and selects(selector, self.labels(other))

    def entry(self, gateway, route, parent):
        """The reason of Accepted, and the names of the listeners to which the Route is attached."""
        hostnames = hostnames_of(route)
        rules = route["spec"].get("rules", [{}])
        selected = [one for one in gateway["spec"]["listeners"] if self.is_selected(one, parent)]
        allowing = [one for one in selected if self.allows(gateway, one, route)]
        meeting = [one for one in allowing if any(meet(one.get("hostname"), hostname) for hostname in hostnames)]
        if not selected:
            return "NoMatchingParent", []
        if not allowing:
            return "NotAllowedByListeners", []
        if not meeting:
            return "NoMatchingListenerHostname", []
        faults = [fault for rule in rules for fault in unsupported(rule)]
        if faults:
            show("unsupported", faults[0] if len(set(faults)) == 1 else "several")
            return "UnsupportedValue", []
        faults = [fault for rule in rules for fault in incompatible(rule)]
        if faults:
            show("incompatible", faults[0] if len(set(faults)) == 1 else "several")
            return "IncompatibleFilters", []
        for one in (one for rule in rules for one in rule.get("filters", []) if one["type"] == "RequestRedirect"):
            show("attached with a redirect of", one["requestRedirect"].get("statusCode", "no code"))
        return "Accepted", [one["name"] for one in meeting]

    def entries(self, route):
        """Each parentRef that has an entry, as it is printed, with its Gateway."""
        for parent in route["spec"].get("parentRefs", []):
            whole = {"group": GROUP, "kind": "Gateway", "namespace": route["metadata"]["namespace"], **parent}
            gateway = self.of("Gateway", whole["namespace"], whole["name"])
            if whole["group"] == GROUP and whole["kind"] == "Gateway" and gateway and self.is_managed(gateway):
                yield whole, gateway

    def attached(self, gateway, listener):
        """How many Routes are attached to the listener, each counted once."""
        count = 0
        for route in self.all("HTTPRoute"):
            entries = [listener["name"] in self.entry(gateway, route, parent)[1] for parent, other in self.entries(route) if other is gateway]
            show("attached to a listener by", entries.count(True), "entries")
            count += any(entries)
        return count

    # References.

    def permits(self, grant, route, name):
        spec = grant["spec"]
        source = {"group": GROUP, "kind": "HTTPRoute", "namespace": route["metadata"]["namespace"]}
        return source in spec["from"] and any(to["group"] == "" and to["kind"] == "Service" and to.get("name", name) == name
                                              for to in spec["to"])

    def reference_fault(self, route, reference):
        """The reason for which a reference isn't resolved, or None."""
        own = route["metadata"]["namespace"]
        namespace = reference.get("namespace", own)
        if reference.get("group", "") != "" or reference.get("kind", "Service") != "Service":
            return "InvalidKind"
        if namespace != own:
            grants = [grant for grant in self.all("ReferenceGrant") if grant["metadata"]["namespace"] == namespace]
            permitting = [grant for grant in grants if self.permits(grant, route, reference["name"])]
            show("a reference to another namespace with", min(len(grants), 1), "grants,", len(permitting), "of them permitting")
            if not permitting:
                return "RefNotPermitted"
        service = self.of("Service", namespace, reference["name"])
        if service is None:
            return "BackendNotFound"
        if service["spec"].get("type") == "ExternalName":
            show("ExternalName")
            return "InvalidKind"
        port = self.service_port(service, reference)
        if port is None:
            show("a Service without the port")
            return "BackendNotFound"
        spoken = port.get("appProtocol")
        show("appProtocol", spoken)
        return "UnsupportedProtocol" if spoken in ["kubernetes.io/h2c", "kubernetes.io/wss", "https"] else None

    def service_port(self, service, reference):
        """The port of the Service that is meant, or None."""
        return next((port for port in service["spec"].get("ports", [])
                     if port["port"] == reference["port"] and port.get("protocol", "TCP") == "TCP"), None)

    def endpoints(self, route, reference):
        """The sockets of the ready endpoints of a reference that is resolved."""
        namespace = reference.get("namespace", route["metadata"]["namespace"])
        port = self.service_port(self.of("Service", namespace, reference["name"]), reference)
        sockets = []
        for part in sorted(self.all("EndpointSlice"), key=key):
            labels = part["metadata"].get("labels", {})
            if part["metadata"]["namespace"] != namespace or labels.get("kubernetes.io/service-name") != reference["name"]:
                continue
            at = next((one["port"] for one in part.get("ports", []) if one.get("name", "") == port.get("name", "")
                       and one.get("protocol", "TCP") == "TCP" and "port" in one), None)
            if at is not None and part["addressType"] == "IPv4":
                sockets += ["%s:%d" % (one["addresses"][0], at) for one in part["endpoints"] if one.get("conditions", {}).get("ready", True)]
        return list(dict.fromkeys(sockets))

    def resolved(self, route):
        for rule in route["spec"].get("rules", []):
            for reference in rule.get("backendRefs", []):
                fault = self.reference_fault(route, reference)
                if fault:
                    return condition("ResolvedRefs", False, fault)
        return condition("ResolvedRefs", True, "ResolvedRefs")

    # Rows.

    def served_listeners(self, door):
        """Those whose rows a door has, of its `gateway:port`, each with its Gateway."""
        gateway, port = door.rsplit(":", 1)
        for one, status in self.gateways():
            if key(one) == gateway and is_true("Programmed", status["conditions"]):
                yield from ((one, listener) for listener, told in zip(one["spec"]["listeners"], status["listeners"])
                            if listener["port"] == int(port) and is_true("Programmed", told["conditions"]))

    def rows(self, gateway, listener):
        """The rows of the listener: each a Route, a hostname or none, and the places of the rule, the match and the hostname."""
        for route in self.all("HTTPRoute"):
            if not any(listener["name"] in self.entry(gateway, route, parent)[1] for parent, other in self.entries(route) if other is gateway):
                continue
            hostnames = [one for one in dict.fromkeys(hostnames_of(route)) if meet(listener.get("hostname"), one)]
            for place, rule in enumerate(route["spec"].get("rules", [{}])):
                for number, match in enumerate(matches_of(rule)):
                    yield from (Row(route, hostname, place, number, match, hostnames_of(route).index(hostname)) for hostname in hostnames)

    def serving(self, listeners, request):
        """Of the listeners that a door serves: the one that takes the request, or None, and the row that serves it, or None."""
        taking = [pair for pair in listeners if covers(pair[1].get("hostname"), request.host)]
        if not taking:
            return None, None
        gateway, listener = max(taking, key=lambda pair: specific(pair[1].get("hostname")))
        fitting = [row for row in self.rows(gateway, listener) if covers(row.hostname, request.host) and fits(row.match, request)]
        return listener, min(fitting, key=precedence, default=None)

    # The text.

    def gateways(self):
        for gateway in self.all("Gateway"):
            if self.is_managed(gateway):
                yield gateway, self.gateway_status(gateway)

    def routes(self):
        for route in self.all("HTTPRoute"):
            parents = []
            for parent, gateway in self.entries(route):
                reason, listeners = self.entry(gateway, route, parent)
                show("attached to listeners:", len(listeners))
                parents.append({"parentRef": parent, "controllerName": self.controller,
                                "conditions": [condition("Accepted", reason == "Accepted", reason), self.resolved(route)]})
            if parents:
                yield route, {"parents": parents}


def key(thing):
    """The key of an object, as it is written."""
    metadata = thing["metadata"]
    return (metadata["namespace"] + "/" if "namespace" in metadata else "") + metadata["name"]


def status_line(thing, status):
    """The line of an object with its status."""
    names = {name: value for name, value in thing["metadata"].items() if name in ["name", "namespace"]}
    return compact({"kind": thing["kind"], **names, "status": status})


def in_order(statuses):
    """Objects with their statuses, in the order of their keys."""
    return sorted(statuses, key=lambda row: key(row[0]))
