"""One page that stands alone: its data, its style and its script in one file, which asks no network for anything."""
import base64
import hashlib
import json
import os

from gateward_reasons import CHOICES, STATES, sentence

from .findings import findings
from .precedence import match_text, ordered
from .tables import refusal_rows

FOLDER = os.path.dirname(os.path.realpath(__file__))

# The policy lets the page run its own script and style, which are told by their sums, and nothing else.
PAGE = """<!doctype html>
<html lang="en">
<head>
<meta charset="utf-8">
<meta http-equiv="Content-Security-Policy" content="default-src 'none'; script-src 'sha256-{script_sum}'; style-src 'sha256-{style_sum}'">
<meta name="viewport" content="width=device-width, initial-scale=1">
<title>gateward: Gateways and Routes</title>
<style>{style}</style>
</head>
<body>
<noscript>This page draws its picture by a script, which is part of it.</noscript>
<main></main>
<script type="application/json" id="data">{data}</script>
<script>{script}</script>
</body>
</html>
"""


def part_of_page(name):
    with open(os.path.join(FOLDER, name), encoding="utf-8") as file:
        return file.read()


def sum_of(text):
    return base64.b64encode(hashlib.sha256(text.encode()).digest()).decode()


def in_script(data):
    """JSON in which no text ends the script that it stands in, whatever an object says."""
    return json.dumps(data, separators=(",", ":")).replace("&", "\\u0026").replace("<", "\\u003c").replace(">", "\\u003e")


def conditions_data(conditions):
    return [{"type": it.kind, "status": it.status, "reason": it.reason, "wrong": it.is_wrong} for it in conditions.all]


def listener_data(picture, gateway, listener):
    spec = picture.objects.listener(gateway.key, listener.name)
    return {"name": listener.name, "port": picture.port(gateway.key, listener.name), "hostname": spec.get("hostname"),
            "protocol": spec.get("protocol"), "routes": listener.attached, "conditions": conditions_data(listener.conditions)}


def gateway_data(picture, gateway):
    return {"key": gateway.key, "class": picture.objects.class_of(gateway.key), "addresses": gateway.addresses,
            "conditions": conditions_data(gateway.conditions), "doors": [door.word for door in picture.doors_of(gateway.key)],
            "listeners": [listener_data(picture, gateway, it) for it in gateway.listeners]}


def parent_data(parent, rows, doors):
    places = {number for number, door in enumerate(doors) if door.gateway == parent.gateway}
    listeners = {row["listener"] for row in rows if row["door"] in places}
    return {"text": parent.text, "gateway": parent.gateway, "section": parent.section, "port": parent.port,
            "listeners": sorted(it for it in listeners if parent.section in (None, it)), "conditions": conditions_data(parent.conditions)}


def route_data(picture, route, rows, reasons):
    return {"key": route.key, "hostnames": picture.objects.hostnames(route.key), "choice": reasons.get(route.key),
            "parents": [parent_data(it, rows, picture.doors) for it in route.parents],
            "backends": list(picture.objects.backends(route.key)),
            "rows": [{**{it: row.get(it) for it in ("door", "listener", "hostname", "rule", "match", "place", "of")},
                      "text": row_text(picture, row)} for row in rows]}


def row_text(picture, row):
    return match_text(picture.objects.match(row["route"], row["rule"], row["match"])) if picture.objects.is_given else ""


def unknown(picture, words):
    """What the page can't show, and what it would take."""
    if not picture.objects.is_given:
        yield "Services, hostnames, matches and classes aren't in the statuses: give --events FILE to show them."
    if picture.rows is None:
        yield "The rows by which requests are decided, and which listeners a Route is attached to, aren't in the statuses: give --admin SOCKET."
    elif not picture.objects.is_given:
        yield "Rows are in order of their hostnames, Routes, rules and matches: paths and the other parts of precedence aren't known without --events."
    if picture.objects.is_given and words.admin:
        yield "Ports, hostnames, matches and Services are those of the file of --events, which may differ from what the endpoint holds."
    if not picture.doors:
        yield "No DOOR is given: --door or --doors says which words gateward was run with."


def request_data(words, picture, verdict):
    request = json.loads(words.request)
    door = picture.doors[words.at].word if words.at < len(picture.doors) else None
    return {"text": request, "at": words.at, "door": door, "verdict": verdict}


def page_data(picture, explanation, words):
    verdict, reasons = explanation or (None, {})
    rows = {}
    for row in ordered(picture.rows or [], picture.objects):
        rows.setdefault(row["route"], []).append(row)
    used = {it.reason for it in all_conditions(picture.status)}
    return {
        "summary": picture.status.summary,
        "rowsKnown": picture.rows is not None,
        "ranksKnown": picture.rows is not None and picture.objects.is_given,
        "eventsKnown": picture.objects.is_given,
        "notes": list(unknown(picture, words)),
        "findings": findings(picture),
        "refused": [[str(cell) for cell in row] for row in refusal_rows(picture, False)],
        "classes": [{"key": key, "conditions": conditions_data(conditions)} for key, conditions in picture.status.classes],
        "gateways": [gateway_data(picture, it) for it in picture.status.gateways],
        "routes": [route_data(picture, it, rows.get(it.key, []), reasons) for it in picture.status.routes],
        "request": request_data(words, picture, verdict) if verdict else None,
        "doors": [door.word for door in picture.doors],
        "sentences": {reason: sentence(reason) for reason in sorted(used)},
        "choices": CHOICES,
        "states": STATES,
    }


def all_conditions(status):
    for _, conditions in status.classes:
        yield from conditions.all
    for gateway in status.gateways:
        yield from gateway.conditions.all
        for listener in gateway.listeners:
            yield from listener.conditions.all
    for route in status.routes:
        for parent in route.parents:
            yield from parent.conditions.all


def page(picture, explanation, words):
    style, script = part_of_page("page.css"), part_of_page("page.js")
    return PAGE.format(style=style, script=script, style_sum=sum_of(style), script_sum=sum_of(script),
                       data=in_script(page_data(picture, explanation, words)))
