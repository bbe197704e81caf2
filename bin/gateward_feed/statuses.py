"""The status that each object of the cluster is to have, from the objects and the statuses that the endpoint gives."""
import json
import time

from gateward_reasons import sentence

from .kinds import GATEWAY_API, WITH_STATUS, key_of


def conditions(given, had, generation):
    """The conditions given, with what the API wants of each, beside those of other types that the object has. The time of a condition stays while
    its status does."""
    had = had or []
    types = {one["type"] for one in given}
    return [one for one in had if one.get("type") not in types] + [
        {**one, "message": sentence(one["reason"]), "observedGeneration": generation, "lastTransitionTime": transition_time(one, had)}
        for one in given]


def transition_time(given, had):
    for one in had:
        if one.get("type") == given["type"] and one.get("status") == given["status"] and one.get("lastTransitionTime"):
            return one["lastTransitionTime"]
    return time.strftime("%Y-%m-%dT%H:%M:%SZ", time.gmtime())


def whole_parent(parent, namespace):
    """A parentRef with its defaults."""
    return (parent.get("group", GATEWAY_API), parent.get("kind", "Gateway"), parent.get("namespace", namespace),
            parent["name"], parent.get("sectionName"), parent.get("port"))


def unordered(value):
    """The same text for the same values, in whatever order lists have them."""
    if isinstance(value, list):
        return "[" + ",".join(sorted(unordered(one) for one in value)) + "]"
    if isinstance(value, dict):
        return "{" + ",".join(f"{name}:{unordered(value[name])}" for name in sorted(value)) + "}"
    return json.dumps(value)


def first(entries, fits):
    return next((entry for entry in entries or [] if fits(entry)), {})


class Statuses:
    """The statuses that the endpoint gives, beside the objects of the cluster, by kind and key."""

    def __init__(self, lines, objects):
        self.given = {kind: {} for kind in WITH_STATUS}
        for line in lines:
            if line.get("kind") in self.given:
                self.given[line["kind"]][key_of(line)] = line["status"]
        # The classes that the endpoint gives are those of its controller, whose entries in Routes are its own.
        classes = {key: found for key, found in objects["GatewayClass"].items() if key in self.given["GatewayClass"]}
        self.controllers = {found["spec"]["controllerName"] for found in classes.values()}
        self.controllers |= {entry["controllerName"] for status in self.given["HTTPRoute"].values() for entry in status["parents"]}
        self.gateways = {key for key, found in objects["Gateway"].items() if found["spec"].get("gatewayClassName") in classes}

    def change(self, kind, found):
        """The status that an object is to have; nothing, if that is what it has."""
        status, had = self.status(kind, found), found.get("status") or {}
        if status is None or all(unordered(status[name]) == unordered(had.get(name, [])) for name in status):
            return None
        return status

    def status(self, kind, found):
        generation, had = found["metadata"].get("generation", 1), found.get("status") or {}
        given = self.given[kind].get(key_of(found["metadata"]))
        if kind == "HTTPRoute":
            return {"parents": self.parents(given, found, had.get("parents") or [], generation)}
        if given is None:
            return None
        status = {**given, "conditions": conditions(given["conditions"], had.get("conditions"), generation)}
        if kind == "Gateway":
            status["listeners"] = [self.listener(one, had, generation) for one in given["listeners"]]
        return status

    def listener(self, given, had, generation):
        before = first(had.get("listeners"), lambda one: one.get("name") == given["name"])
        return {**given, "conditions": conditions(given["conditions"], before.get("conditions"), generation)}

    def parents(self, given, found, had, generation):
        """The entries of other controllers, and those given. If none is given, its own stay that are still of a parentRef of the Route."""
        others = [entry for entry in had if entry.get("controllerName") not in self.controllers]
        if given is None:
            return others + [entry for entry in had if entry not in others and self.is_needed(entry, found)]
        return others + [self.parent(entry, had, generation) for entry in given["parents"]]

    def parent(self, given, had, generation):
        before = first(had, lambda one: one.get("controllerName") == given["controllerName"] and one.get("parentRef") == given["parentRef"])
        return {**given, "conditions": conditions(given["conditions"], before.get("conditions"), generation)}

    def is_needed(self, entry, route):
        namespace = route["metadata"].get("namespace")
        parent = whole_parent(entry["parentRef"], namespace)
        refs = route["spec"].get("parentRefs") or []
        return f"{parent[2]}/{parent[3]}" in self.gateways and any(whole_parent(one, namespace) == parent for one in refs)
