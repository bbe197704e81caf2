"""The statuses, rows and explanations that gateward prints, as docs/reference.md has them."""
import json
from dataclasses import dataclass, field


class Unread(Exception):
    """A text that isn't what it has to be."""


@dataclass
class Condition:
    kind: str
    status: str
    reason: str

    @property
    def is_wrong(self):
        # (of a Gateway that is accepted with this reason some listener isn't)
        return (self.status == "True") == (self.kind == "Conflicted") or self.reason == "ListenersNotValid"


@dataclass
class Conditions:
    all: list

    def __getitem__(self, kind):
        return next((it for it in self.all if it.kind == kind), Condition(kind, "Unknown", ""))

    @property
    def wrong(self):
        return [it for it in self.all if it.is_wrong]


@dataclass
class Listener:
    name: str
    attached: int
    conditions: Conditions


@dataclass
class Gateway:
    key: str
    addresses: list
    conditions: Conditions
    listeners: list


@dataclass
class Parent:
    gateway: str
    section: str
    port: int
    conditions: Conditions

    @property
    def text(self):
        return self.gateway + "".join(f"/{it}" for it in (self.section or self.port,) if it)


@dataclass
class Route:
    key: str
    parents: list


@dataclass
class Refusal:
    line: int
    number: int
    path: str


@dataclass
class Status:
    classes: list = field(default_factory=list)
    gateways: list = field(default_factory=list)
    routes: list = field(default_factory=list)
    refused: list = field(default_factory=list)
    summary: dict = field(default_factory=dict)


def key_of(object):
    return "/".join(object[it] for it in ("namespace", "name") if it in object)


def read_conditions(status):
    return Conditions([Condition(it["type"], it["status"], it["reason"]) for it in status["conditions"]])


def read_gateway(line):
    status = line["status"]
    listeners = [Listener(it["name"], it["attachedRoutes"], read_conditions(it)) for it in status["listeners"]]
    return Gateway(key_of(line), [it["value"] for it in status["addresses"]], read_conditions(status), listeners)


def read_parent(entry):
    parent = entry["parentRef"]
    return Parent(key_of(parent), parent.get("sectionName"), parent.get("port"), read_conditions(entry))


def take_line(status, line):
    kind = line.get("kind")
    if kind == "GatewayClass":
        status.classes.append((key_of(line), read_conditions(line["status"])))
    elif kind == "Gateway":
        status.gateways.append(read_gateway(line))
    elif kind == "HTTPRoute":
        status.routes.append(Route(key_of(line), [read_parent(it) for it in line["status"]["parents"]]))
    elif "refusal" in line:
        status.refused.append(Refusal(line["line"], line["refusal"], line.get("path", "")))
    elif "changes" in line or "front" in line:
        status.summary = line
    else:
        raise KeyError("kind")


def read_lines(text, what):
    """The JSON texts of lines."""
    for number, line in enumerate(text.splitlines(), 1):
        try:
            yield number, json.loads(line)
        except ValueError:
            raise Unread(f"line {number} of {what} isn't JSON") from None


def read_status(text):
    """What `status` prints, or what `GET /status` replies."""
    status = Status()
    for number, line in read_lines(text, "the statuses"):
        try:
            take_line(status, line)
        except (AttributeError, KeyError, TypeError):
            raise Unread(f"line {number} is no line of the text of `gateward status`") from None
    if not status.summary:
        raise Unread("the statuses have no last line, {\"changes\":..} or {\"front\":..}: they aren't whole")
    return status


def read_table(text):
    """The rows of `GET /table`."""
    return [line for _, line in read_lines(text, "the rows") if "route" in line]


def read_explanation(text):
    """The verdict of a request, and the reason of each Route."""
    lines = [line for _, line in read_lines(text, "the explanation")]
    verdict = next((it for it in lines if "verdict" in it), None)
    if verdict is None:
        raise Unread("the explanation has no verdict")
    return verdict, {it["route"]: it["reason"] for it in lines if "reason" in it}
