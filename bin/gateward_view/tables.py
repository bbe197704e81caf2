"""The statuses as tables, in the form of `kubectl get -o wide`."""
from gateward_reasons import REFUSALS, REMEDIES, sentence

from .findings import findings

RED, GREEN, YELLOW, PLAIN = "\33[31m", "\33[32m", "\33[33m", "\33[0m"
UNKNOWN = "<unknown>"


def shown(text):
    """A text without what a terminal would take as a command."""
    return "".join(it if it.isprintable() else "\\x%02x" % ord(it) for it in str(text))


def colour_of(cell, heading):
    if heading in ("ACCEPTED", "PROGRAMMED", "RESOLVEDREFS", "CONFLICTED"):
        return {"True": RED if heading == "CONFLICTED" else GREEN, "False": "" if heading == "CONFLICTED" else RED}.get(cell, YELLOW)
    return RED if heading == "REFUSAL" else ""


def table(headings, rows, colours):
    """Columns with three spaces between, or nothing where there are no rows."""
    if not rows:
        return ""
    rows = [[shown(cell) for cell in row] for row in rows]
    widths = [max(len(row[place]) for row in [headings, *rows]) for place in range(len(headings))]
    lines = []
    for row in [headings, *rows]:
        cells = [cell.ljust(width) for cell, width in zip(row, widths)]
        if colours and row is not headings:
            paints = [colour_of(cell, heading) for cell, heading in zip(row, headings)]
            cells = [paint + cell + PLAIN if paint else cell for cell, paint in zip(cells, paints)]
        lines.append("   ".join(cells).rstrip() + "\n")
    return "".join(lines)


def why(conditions):
    """The reason of each condition that is wrong, with its sentence."""
    reasons = dict.fromkeys(it.reason for it in conditions.wrong if it.reason)
    return " ".join(f"{reason}: {sentence(reason)}" for reason in reasons)


def class_rows(picture, only_wrong):
    for key, conditions in picture.status.classes:
        if not only_wrong or conditions.wrong:
            yield key, conditions["Accepted"].status, why(conditions)


def gateway_rows(picture, only_wrong):
    for it in picture.status.gateways:
        if not only_wrong or it.conditions.wrong:
            yield (*it.key.split("/"), picture.objects.class_of(it.key) or UNKNOWN, ",".join(it.addresses) or "<none>",
                   it.conditions["Accepted"].status, it.conditions["Programmed"].status, why(it.conditions))


def listener_rows(picture, only_wrong):
    for gateway in picture.status.gateways:
        for it in gateway.listeners:
            if not only_wrong or it.conditions.wrong:
                kinds = ("Accepted", "Programmed", "ResolvedRefs", "Conflicted")
                yield (*gateway.key.split("/"), it.name, picture.port(gateway.key, it.name) or UNKNOWN, it.attached,
                       *(it.conditions[kind].status for kind in kinds), why(it.conditions))


def route_rows(picture, only_wrong):
    for route in picture.status.routes:
        for it in route.parents:
            if not only_wrong or it.conditions.wrong:
                yield (*route.key.split("/"), it.text, it.conditions["Accepted"].status, it.conditions["ResolvedRefs"].status, why(it.conditions))


def refusal_rows(picture, only_wrong):
    for it in picture.status.refused:
        name = picture.objects.named_in(it.line) or ("<no object>" if picture.objects.is_given else UNKNOWN)
        yield it.line, name, f"{it.number} {REFUSALS.get(it.number, '')}", it.path or "<none>", REMEDIES.get(it.number, "")


TABLES = (
    (("GATEWAYCLASS", "ACCEPTED", "REASON"), class_rows),
    (("NAMESPACE", "GATEWAY", "CLASS", "ADDRESS", "ACCEPTED", "PROGRAMMED", "REASON"), gateway_rows),
    (("NAMESPACE", "GATEWAY", "LISTENER", "PORT", "ROUTES", "ACCEPTED", "PROGRAMMED", "RESOLVEDREFS", "CONFLICTED", "REASON"), listener_rows),
    (("NAMESPACE", "HTTPROUTE", "PARENT", "ACCEPTED", "RESOLVEDREFS", "REASON"), route_rows),
    (("LINE", "OBJECT", "REFUSAL", "PATH", "WHAT TO DO"), refusal_rows),
)


def tables(picture, only_wrong, colours):
    """The text, and whether something in it is wrong."""
    parts = [table(headings, list(rows_of(picture, only_wrong)), colours) for headings, rows_of in TABLES]
    found = findings(picture)
    if found:
        parts.append("".join(f"{YELLOW if colours else ''}{shown(it)}{PLAIN if colours else ''}\n" for it in found))
    text = "\n".join(it for it in parts if it)
    return text or ("Nothing is wrong.\n" if only_wrong else "There is nothing.\n"), bool(text)
