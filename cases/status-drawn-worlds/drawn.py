#!/usr/bin/env python3
"""Draws worlds of objects from seeds, and evaluates them a second time, by cases/worlds.py.

    drawn.py lines     prints the events of all worlds, one world after another, which make one input
    drawn.py text      prints what `status` has to print for that input, and fails where something of WANTED occurs in no world

The names of a world begin with its seed, so no object of one world has to do with one of another: each world is evaluated alone, and the
lines of all are printed in the order of their keys. Controller and DOORs are those of the file `words`. Pools of names are small, so that
objects often meet.
"""
import json
import pathlib
import random
import sys

# (no folder for compiled files, which would be a case)
sys.dont_write_bytecode = True
sys.path.insert(0, str(pathlib.Path(__file__).parent.parent))
from worlds import GROUP, VERSIONS, World, compact, in_order, is_true, key, show, shown, status_line  # noqa: E402

SEEDS = range(200)
WORDS = (pathlib.Path(__file__).parent / "words").read_text().splitlines()
CONTROLLER = WORDS[1].split("=")[1]
OTHER_VERSIONS = {"GatewayClass": GROUP + "/v1beta1", "Gateway": GROUP + "/v1beta1", "HTTPRoute": GROUP + "/v1alpha2",
                  "ReferenceGrant": GROUP + "/v1", "Namespace": "v2", "Service": "v1beta1", "EndpointSlice": "discovery.k8s.io/v1beta1"}

# ---------------------------------------------------------------------------------------------------------------------------------------
# What is drawn. In the order of keys `-` stands before `/`, so the namespace `a-b` before `a`.

NAMESPACES = ["a-b", "a", "b"]
ADDRESSES = [None, [], [{}], [{"type": "IPAddress", "value": ""}], [{"value": "127.0.0.1"}], [{"value": "127.0.0.2"}],
             [{"value": "127.0.0.2"}, {"type": "IPAddress", "value": "127.0.0.1"}], [{"type": "Hostname", "value": "127.0.0.1"}],
             [{"value": "127.0.0.1"}, {"type": "example.com/named", "value": "x"}]]
PROTOCOLS = ["HTTP", "HTTPS", "HTTPS", "HTTPS", "TLS", "TLS", "TCP", "UDP", "example.com/own", "http"]
HOSTS = [None, "a.example.com", "b.example.com", "example.com", "q.a.example.com", "*.example.com", "*.a.example.com", "*.example.org",
         "*.q.a.example.com", "qa.example.com"]
KINDS = [None, [], [{"kind": "HTTPRoute"}], [{"kind": "GRPCRoute"}], [{"kind": "GRPCRoute"}, {"kind": "HTTPRoute"}],
         [{"group": "example.com", "kind": "HTTPRoute"}], [{"group": GROUP, "kind": "HTTPRoute"}, {"kind": "HTTPRoute"}],
         [{"group": "", "kind": "HTTPRoute"}], [{"kind": "TLSRoute"}]]
MATCHES = [[], None, [{"path": {"type": "PathPrefix", "value": "/a"}}], [{"path": {"type": "Exact", "value": "/a"}}], [{"method": "GET"}],
           [{"path": {"value": "/a"}}, {"path": {"value": "/b"}}], [{"path": {"type": "RegularExpression", "value": "/a"}}],
           [{"headers": [{"type": "RegularExpression", "name": "x", "value": "y"}]}], [{"headers": [{"name": "x", "value": "y"}]}],
           [{"queryParams": [{"type": "Exact", "name": "x", "value": "y"}, {"type": "RegularExpression", "name": "x", "value": "y"}]}],
           [{"method": "PATCH", "queryParams": [{"name": "x", "value": "y"}]}], [{}, {"method": "get"}], [{"path": {}}],
           [{}, {"path": {"type": "Exact", "value": "/b"}}], [{"path": {"type": "Exact", "value": "/b"}, "method": "GET"}],
           [{"path": {"type": "Exact", "value": "/"}}], [{"path": {"type": "Exact", "value": "/c"}, "headers": [{"name": "x", "value": "y"}]}]]
FILTERS = [[], None, [{"type": "RequestHeaderModifier", "requestHeaderModifier": {"set": [{"name": "x", "value": "y"}]}}],
           [{"type": "RequestHeaderModifier", "requestHeaderModifier": {}}, {"type": "ResponseHeaderModifier", "responseHeaderModifier": {}}],
           [{"type": "RequestHeaderModifier", "requestHeaderModifier": {}}, {"type": "RequestHeaderModifier", "requestHeaderModifier": {}}],
           [{"type": "ResponseHeaderModifier", "responseHeaderModifier": {"remove": ["x", "Upgrade"]}}],
           [{"type": "RequestHeaderModifier", "requestHeaderModifier": {"add": [{"name": "HOST", "value": "x"}]}}],
           [{"type": "RequestHeaderModifier", "requestHeaderModifier": {"set": [{"name": "Transfer-Encoding", "value": "x"}]}}],
           [{"type": "RequestMirror", "requestMirror": {}}],
           [{"type": "RequestRedirect", "requestRedirect": {"scheme": "https"}}],
           [{"type": "RequestRedirect", "requestRedirect": {"scheme": "ftp"}}],
           [{"type": "RequestRedirect", "requestRedirect": {"statusCode": 301}}],
           [{"type": "RequestRedirect", "requestRedirect": {"statusCode": 303}}],
           [{"type": "RequestRedirect", "requestRedirect": {"statusCode": 307}}],
           [{"type": "RequestRedirect", "requestRedirect": {"statusCode": 308}}],
           [{"type": "RequestRedirect", "requestRedirect": {"statusCode": 304}}],
           [{"type": "RequestRedirect", "requestRedirect": {}}, {"type": "ResponseHeaderModifier", "responseHeaderModifier": {}}],
           [{"type": "RequestRedirect", "requestRedirect": {"path": {"type": "ReplacePrefixMatch", "replacePrefixMatch": "/c"}}}],
           [{"type": "RequestRedirect", "requestRedirect": {}}, {"type": "URLRewrite", "urlRewrite": {}}],
           [{"type": "URLRewrite", "urlRewrite": {"path": {"type": "ReplacePrefixMatch", "replacePrefixMatch": "/c"}}}],
           [{"type": "URLRewrite", "urlRewrite": {"hostname": "x.example.com", "path": {"type": "ReplacePrefixMatch", "replacePrefixMatch": ""}}}],
           [{"type": "RequestHeaderModifier", "requestHeaderModifier": {"remove": ["x"]}},
            {"type": "URLRewrite", "urlRewrite": {"path": {"type": "ReplacePrefixMatch", "replacePrefixMatch": "/"}}}],
           [{"type": "URLRewrite", "urlRewrite": {"path": {"type": "ReplaceFullPath", "replaceFullPath": "/c"}}}],
           [{"type": "URLRewrite", "urlRewrite": {"path": {"type": "ReplaceFullPath", "replaceFullPath": "c"}}}],
           [{"type": "RequestRedirect", "requestRedirect": {"path": {"type": "ReplaceFullPath", "replaceFullPath": "/c"}}}],
           [{"type": "ResponseHeaderModifier", "responseHeaderModifier": {}}, {"type": "URLRewrite", "urlRewrite": {"path": {
               "type": "ReplaceFullPath", "replaceFullPath": ""}}}],
           [{"type": "URLRewrite", "urlRewrite": {"path": {"type": "ReplaceAll"}}}]]
BACKEND_FILTERS = [None, [], [{"type": "RequestHeaderModifier", "requestHeaderModifier": {"set": [{"name": "x", "value": "z"}]}}],
                   [{"type": "ResponseHeaderModifier", "responseHeaderModifier": {"remove": ["x", "TE"]}}],
                   [{"type": "RequestHeaderModifier", "requestHeaderModifier": {}}, {"type": "ResponseHeaderModifier", "responseHeaderModifier": {}}],
                   [{"type": "RequestHeaderModifier", "requestHeaderModifier": {}}, {"type": "RequestHeaderModifier", "requestHeaderModifier": {}}],
                   [{"type": "ResponseHeaderModifier", "responseHeaderModifier": {"add": [{"name": "x", "value": "z"}]}}],
                   [{"type": "RequestRedirect", "requestRedirect": {}}], [{"type": "URLRewrite", "urlRewrite": {}}], [{"type": "RequestMirror"}]]
PORTS = [[{"name": "p", "port": 80, "appProtocol": "http"}, {"name": "u", "port": 81, "protocol": "UDP"}], [{"port": 80}],
         [{"port": 80, "protocol": "TCP", "appProtocol": "kubernetes.io/ws"}], [{"port": 80, "appProtocol": "HTTPS"}, {"port": 81}],
         [{"port": 80, "appProtocol": "https"}], [{"port": 80, "appProtocol": "kubernetes.io/h2c"}, {"port": 81}],
         [{"port": 80, "appProtocol": "kubernetes.io/h2c", "protocol": "TCP"}, {"port": 81, "appProtocol": "https"}],
         [{"port": 80, "appProtocol": "kubernetes.io/wss"}], [{"port": 81}], [{"port": 80, "protocol": "tcp"}, {"port": 81}], [], None,
         [{"name": "u", "port": 80, "protocol": "UDP"}, {"name": "p", "port": 80, "appProtocol": "https"}],
         [{"name": "p", "port": 80}, {"name": "q", "port": 80, "appProtocol": "https"}],
         [{"name": "q", "port": 80, "appProtocol": "https"}, {"name": "p", "port": 80}]]


def selectors(prefix):
    """The namespaces from which a listener takes Routes; by the name of one of the world, and by the label `team` of several."""
    return [None, {}, {"from": "Same"}, {"from": "Selector"}] + [
        {"from": "Selector", "selector": selector} for selector in [
            None, {}, {"matchLabels": None}, {"matchLabels": {"kubernetes.io/metadata.name": prefix + "b"}}, {"matchLabels": {"team": "x"}},
            {"matchLabels": {"team": "x", "tier": "1"}}, {"matchExpressions": [{"key": "team", "operator": "In", "values": ["x", "y"]}]},
            {"matchExpressions": [{"key": "team", "operator": "NotIn", "values": ["x"]}]},
            {"matchExpressions": [{"key": "team", "operator": "Exists"}]}, {"matchExpressions": [{"key": "team", "operator": "DoesNotExist"}]},
            {"matchLabels": {"team": "x"}, "matchExpressions": [{"key": "tier", "operator": "Exists"}]},
            {"matchExpressions": [{"key": "team", "operator": "Exists"}, {"key": "tier", "operator": "NotIn", "values": ["1", "3"]}]},
            {"matchExpressions": [{"key": "kubernetes.io/metadata.name", "operator": "In", "values": [prefix + "a", prefix + "a-b"]}]}]]


class Drawing:
    """The events of one world."""

    def __init__(self, seed):
        self.chance = random.Random(seed)
        self.prefix = "w%03d-" % seed
        self.first, self.later = [], []
        for name in ["c", "d", "e"]:
            self.come("GatewayClass", None, self.prefix + name, self.a_class)
        for namespace in [self.prefix + name for name in NAMESPACES]:
            if self.of(4):
                self.come("Namespace", None, namespace, self.a_namespace)
            for name in ["g", "h"]:
                if self.of(10):
                    self.come("Gateway", namespace, name, self.a_gateway)
            for name in ["s", "t"]:
                if self.of(5):
                    self.come("Service", namespace, name, self.a_service)
                if self.of(4):
                    self.come("EndpointSlice", namespace, name + "-1", lambda: self.a_slice(name))
            for name in ["p", "q"]:
                if self.of(4):
                    self.come("ReferenceGrant", namespace, name, self.a_grant)
            for name in ["r1", "r2", "r3", "r4", "r5", "r6"][self.of(5):]:
                self.come("HTTPRoute", namespace, name, lambda: self.a_route(namespace))
        self.events = self.first + self.later
        if seed % 2 == 1:
            self.chance.shuffle(self.events)
        elif seed % 4 == 2:
            self.events.reverse()

    def of(self, number):
        """A number below this one: 0 in one draw of so many."""
        return self.chance.randrange(number)

    def pick(self, pool):
        return self.chance.choice(pool)

    def mostly(self, pool, number=4):
        """The first, but any in one draw of so many."""
        return pool[0] if self.of(number) else self.pick(pool)

    def some(self, number, draw):
        return [draw() for _ in range(number)]

    def come(self, kind, namespace, name, draw):
        """The object is added. Then it may be changed, go or come again, or a line names it that is refused or skipped."""
        named = {"name": name} if namespace is None else {"name": name, "namespace": namespace}

        def said(event, fields, version=VERSIONS[kind], **metadata):
            fields = dict(fields)
            metadata.update(named, **fields.pop("metadata", {}))
            return {"type": event, "object": {"apiVersion": version, "kind": kind, "metadata": metadata, **fields}}

        self.first.append(said("ADDED", draw()))
        fate = self.of(24)
        if fate < 3:
            self.later.append(said("MODIFIED", draw()))
        elif fate == 3:
            self.later += [said("DELETED", {}), said("ADDED", draw())]
        elif fate == 4:
            self.later.append(said("DELETED", {}))
        elif fate == 5:
            self.later += [said("ADDED", draw()), said("DELETED", {}), said("DELETED", {}), said("MODIFIED", draw())]
        elif fate == 6:
            self.later.append(said("MODIFIED", draw(), generation=-1))
        elif fate == 7:
            self.later.append(said("BOOKMARK", draw()))
        elif fate == 8:
            self.later.append(said("MODIFIED", draw(), version=OTHER_VERSIONS[kind]))

    def a_class(self):
        spec = {"controllerName": CONTROLLER if self.of(12) else "example.com/other"}
        if not self.of(12):
            spec["parametersRef"] = {"group": "example.com", "kind": "P", "name": "p"}
        return {"spec": spec}

    def a_namespace(self):
        return {"metadata": {"labels": given(team=self.pick([None, "x", "y"]), tier=self.pick([None, None, "1", "2"]))}}

    def a_listener(self, name):
        namespaces = self.mostly([{"from": "All"}] + selectors(self.prefix), 2)
        allowed = given(namespaces=namespaces, kinds=self.mostly(KINDS, 2))
        return given(name=name, port=self.mostly([80, 80, 81]), protocol=self.mostly(PROTOCOLS), hostname=self.pick(HOSTS) if self.of(3) else None,
                     allowedRoutes=allowed if self.of(12) else None)

    def a_gateway(self):
        listeners = [self.a_listener(name) for name in ["s1", "s2", "s3", "s4"] if name == "s1" or not self.of(3)]
        return {"spec": given(gatewayClassName=self.prefix + self.mostly(["c", "d", "e", "f"], 3), listeners=listeners,
                              addresses=self.mostly(ADDRESSES, 3))}

    def a_service(self):
        return {"spec": given(type=self.mostly([None, "ClusterIP", "ExternalName"]), ports=self.mostly(PORTS, 2))}

    def a_slice(self, service):
        return {"metadata": {"labels": {"kubernetes.io/service-name": service}}, "addressType": "IPv4", "ports": [{"name": "p", "port": 8080}],
                "endpoints": [{"addresses": ["10.0.0.1"], "conditions": {"ready": self.of(2) == 0}}]}

    def a_grant(self):
        froms = self.some(self.mostly([2, 1, 0]), lambda: {
            "group": self.mostly([GROUP, "example.com", ""]), "kind": self.mostly(["HTTPRoute", "TCPRoute", "Gateway"]),
            "namespace": self.prefix + self.pick(NAMESPACES)})
        to = self.some(self.mostly([1, 2, 0]), lambda: given(
            group=self.mostly(["", "example.com"]), kind=self.mostly(["Service", "Secret"]), name=self.mostly([None, "s", "t"], 2)))
        return {"spec": {"from": froms, "to": to}}

    def a_parent(self, own):
        namespace = self.mostly([own] + [self.prefix + name for name in NAMESPACES])
        return given(group=self.mostly([None, GROUP, GROUP, "example.com"]), kind=self.mostly([None, "Gateway", "Gateway", "Service"]),
                     namespace=None if namespace == own and self.of(2) else namespace, name=self.pick(["g", "h"]) if self.of(8) else "i",
                     sectionName=self.mostly([None, "s1", "s2", "s5"]), port=self.mostly([None, 80, 81, 82]))

    def a_reference(self, own):
        namespace = own if self.of(2) else self.prefix + self.pick(NAMESPACES)
        group, kind = self.mostly([(None, None), ("", "Service"), (None, "Service"), (None, "Pod"), ("example.com", "Service")])
        return given(group=group, kind=kind, namespace=None if namespace == own and self.of(2) else namespace,
                     name=self.mostly(["s", "t", "u"]), port=None if group and self.of(2) else self.mostly([80, 81, 82]),
                     weight=self.pick([None, 0, 1, 2]), filters=self.mostly(BACKEND_FILTERS, 4))

    def a_rule(self, own):
        return given(matches=self.mostly(MATCHES, 2), filters=self.mostly(FILTERS, 2), timeouts=None if self.of(40) else {},
                     backendRefs=self.some(self.of(3), lambda: self.a_reference(own)) if self.of(4) else None)

    def a_route(self, own):
        rules = self.some(self.mostly([1, 2, 3]), lambda: self.a_rule(own))
        parents = self.some(self.mostly([1, 0, 2, 3]), lambda: self.a_parent(own))
        return {"spec": given(parentRefs=parents + parents[:1] if not self.of(8) else parents,
                              hostnames=[host for host in self.some(self.mostly([0, 1, 2]), lambda: self.pick(HOSTS)) if host],
                              rules=rules if self.of(10) else self.pick([None, []]))}


def given(**fields):
    """The fields that are given."""
    return {name: value for name, value in fields.items() if value is not None}


# ---------------------------------------------------------------------------------------------------------------------------------------
# What its text shows.


def reasons(conditions):
    return [c["type"] + "=" + c["status"] + "," + c["reason"] for c in conditions]


def show_status(thing, status):
    """Notes what a status shows."""
    kind, name = thing["kind"], key(thing)[5:]
    for reason in reasons(status.get("conditions", [])):
        show(kind, reason)
    if kind == "GatewayClass":
        show("class", name, status["conditions"][0]["reason"])
    if any(is_true("Accepted", listener["conditions"]) for listener in status.get("listeners", [])):
        show("with an accepted listener:", *reasons(status["conditions"]))
    for listener in status.get("listeners", []):
        show("gateway", name, listener["name"])
        show("attachedRoutes", listener["attachedRoutes"])
        for reason in reasons(listener["conditions"]):
            show("listener", reason)
        show("supportedKinds", len(listener["supportedKinds"]), "and", reasons(listener["conditions"])[3])
    for parent in status.get("parents", []):
        show("entry", ",".join(c["reason"] for c in parent["conditions"]))
        show("parentRef with", "sectionName" in parent["parentRef"] and "sectionName", "port" in parent["parentRef"] and "port")
    if kind == "HTTPRoute":
        show("entries", len(status["parents"]))


# What one world or another has to show, so that none of it is left out.
WANTED = """\
class d Accepted
class d InvalidParameters
gateway a-b/g s1
attachedRoutes 0
attachedRoutes 3
route a/r6 without an entry
entries 1
entries 3
entry Accepted,ResolvedRefs
entry Accepted,InvalidKind
entry Accepted,RefNotPermitted
entry Accepted,BackendNotFound
entry Accepted,UnsupportedProtocol
entry NoMatchingParent,ResolvedRefs
entry NotAllowedByListeners,ResolvedRefs
entry NoMatchingListenerHostname,ResolvedRefs
entry UnsupportedValue,ResolvedRefs
entry IncompatibleFilters,ResolvedRefs
entry NoMatchingParent,BackendNotFound
entry NotAllowedByListeners,RefNotPermitted
parentRef with False False
parentRef with False port
parentRef with sectionName False
parentRef with sectionName port
attached to a listener by 1 entries
attached to a listener by 2 entries
attached to a listener by 3 entries
attached to listeners: 1
attached to listeners: 2
attached to listeners: 3
Gateway Accepted=True,Accepted
Gateway Accepted=True,ListenersNotValid
Gateway Accepted=False,ListenersNotValid
Gateway Accepted=False,UnsupportedAddress
Gateway Programmed=True,Programmed
Gateway Programmed=False,Invalid
Gateway Programmed=False,AddressNotAssigned
Gateway Programmed=False,AddressNotUsable
listener Accepted=True,Accepted
listener Accepted=False,ProtocolConflict
listener Accepted=False,HostnameConflict
listener Accepted=False,UnsupportedProtocol
listener Accepted=False,PortUnavailable
listener Conflicted=True,ProtocolConflict
listener Conflicted=True,HostnameConflict
listener Conflicted=False,NoConflicts
HTTP HTTP at one port, False
HTTP HTTP at one port, True
HTTP UDP at one port, True
HTTPS HTTPS at one port, True
HTTPS TLS at one port, True
with an accepted listener: Accepted=True,Accepted Programmed=True,Programmed
with an accepted listener: Accepted=True,ListenersNotValid Programmed=True,Programmed
with an accepted listener: Accepted=False,UnsupportedAddress Programmed=False,Invalid
with an accepted listener: Accepted=True,Accepted Programmed=False,AddressNotUsable
with an accepted listener: Accepted=True,Accepted Programmed=False,Invalid
listener Programmed=True,Programmed
listener Programmed=False,Invalid
listener ResolvedRefs=True,ResolvedRefs
listener ResolvedRefs=False,InvalidRouteKinds
supportedKinds 0 and ResolvedRefs=True,ResolvedRefs
supportedKinds 0 and ResolvedRefs=False,InvalidRouteKinds
supportedKinds 1 and ResolvedRefs=True,ResolvedRefs
supportedKinds 1 and ResolvedRefs=False,InvalidRouteKinds
matchLabels True
matchLabels False
In of a label True
In of a label False
In without the label False
NotIn of a label True
NotIn of a label False
NotIn without the label True
Exists of a label True
Exists without the label False
DoesNotExist of a label False
DoesNotExist without the label True
a selector and a Namespace
a selector and no Namespace
no selector and a Namespace
a reference to another namespace with 0 grants, 0 of them permitting
a reference to another namespace with 1 grants, 0 of them permitting
a reference to another namespace with 1 grants, 1 of them permitting
a reference to another namespace with 1 grants, 2 of them permitting
ExternalName
a Service without the port
appProtocol None
appProtocol http
appProtocol https
appProtocol HTTPS
appProtocol kubernetes.io/h2c
appProtocol kubernetes.io/ws
appProtocol kubernetes.io/wss
unsupported path
unsupported header
unsupported query
unsupported method
unsupported filter
unsupported edit
unsupported scheme
unsupported statusCode
unsupported modifier
unsupported filter of a backendRef
unsupported edit of a backendRef
unsupported timeouts
a full path of several matches
a full path of Exact
incompatible two of one type
incompatible two of one type on a backendRef
one type in a rule and on its backendRef
attached with a redirect of 301
attached with a redirect of 303
attached with a redirect of 307
attached with a redirect of 308
incompatible redirect and rewrite
incompatible redirect and backendRefs
incompatible prefix of several matches
incompatible prefix of a path that is none
ADDED of an object that is held
ADDED of one that isn't
MODIFIED of an object that is held
MODIFIED of one that isn't
DELETED of an object that is held
DELETED of one that isn't
""".splitlines()


def text(worlds):
    number, refused, changes, skipped = 1, [], 0, 0
    classes, gateways, routes = [], [], []
    for events in worlds:
        world = World(CONTROLLER, WORDS[2:])
        for event in events:
            world.take(number, event)
            number += 1
        refused += world.refused
        changes += world.changes
        skipped += world.skipped
        classes += world.classes()
        gateways += world.gateways()
        routes += world.routes()
        for route in world.all("HTTPRoute"):
            if not list(world.entries(route)):
                show("route", key(route)[5:], "without an entry")
    for line in refused:
        print(compact(line))
    for statuses in [classes, gateways, routes]:
        for thing, status in in_order(statuses):
            show_status(thing, status)
            print(status_line(thing, status))
    print(compact({"changes": changes, "refused": len(refused), "skipped": skipped}))
    assert refused and skipped, "lines that are no change occur"
    missing = [wanted for wanted in WANTED if wanted not in shown]
    assert not missing, missing


def main():
    worlds = [Drawing(seed).events for seed in SEEDS]
    if sys.argv[1] == "lines":
        for event in (event for events in worlds for event in events):
            print(json.dumps(event, separators=(",", ":")))
    else:
        text(worlds)


main()
