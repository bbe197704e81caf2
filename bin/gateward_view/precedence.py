"""The order of rows, which says which of two that fit serves a request: "Precedence" in docs/reference.md."""
from .objects import items, part


def match_text(match):
    """A match as one line of text."""
    path = match.get("path") or {}
    texts = [f"{path.get('type') or 'PathPrefix'} {path.get('value') or '/'}"]
    texts += [match["method"]] if match.get("method") else []
    texts += [f"header {it.get('name')}: {it.get('value')}" for it in items(match, "headers")]
    texts += [f"query {it.get('name')}={it.get('value')}" for it in items(match, "queryParams")]
    return ", ".join(texts)


def count_apart(matches, fold):
    """How many matches count: of several of equivalent names the first alone does."""
    return len({fold(str(it.get("name"))) for it in matches})


def rank(row, objects):
    """What rows are sorted by: the better one comes first. Of a Route that isn't given, the parts of its matches count as they are by default."""
    hostname, match = row.get("hostname") or "", objects.match(row["route"], row["rule"], row["match"])
    path = match.get("path") or {}
    created = part(objects.get("HTTPRoute", row["route"]), "metadata", "creationTimestamp")
    hostnames = objects.hostnames(row["route"])
    return (0 if hostname.startswith("*.") else -len(hostname), -len(hostname), (path.get("type") or "PathPrefix") != "Exact",
            -len(path.get("value") or "/"), not match.get("method"), -count_apart(items(match, "headers"), str.lower),
            -count_apart(items(match, "queryParams"), str), created or "9", row["route"].encode(), row["rule"], row["match"],
            hostnames.index(hostname) if hostname in hostnames else len(hostnames))


def ordered(rows, objects):
    """The rows in order of precedence, each with its place at its listener."""
    places, found = {}, []
    for row in sorted(rows, key=lambda row: (row["door"], row["listener"], rank(row, objects))):
        place = row["door"], row["listener"]
        places[place] = places.get(place, 0) + 1
        found.append({**row, "place": places[place]})
    return [{**row, "of": places[row["door"], row["listener"]]} for row in found]
