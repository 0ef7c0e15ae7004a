"""The causes as SARIF 2.1.0 (OASIS), for build servers and editors."""
import json
import os
import pathlib
import urllib.parse

from causes import CUT, DROPPED, EMPTY, FAILURE, HINT, LATE, NEVER_PERSISTED, OVERWRITTEN, UNWRITTEN
from findings import LEVELS, NOTE, finding_of, has_line, line_of, spot
from labels import Place

SCHEMA = "https://docs.oasis-open.org/sarif/sarif/v2.1.0/errata01/os/schemas/sarif-schema-2.1.0.json"
VERSION = "2.1.0"
FINGERPRINT = "pmtrimCause/v1"
RULES = {  # what a kind is, and what helps
    FAILURE: ("A crash can violate an assertion.", "Flush the cache line of the lost store, and fence by the thread that flushes it, before the store that may be kept, or before the assertion."),
    NEVER_PERSISTED: ("Stores are never persisted: a crash at the end can lose them.", "Flush their cache lines and fence by the thread that flushes, or ignore the place if recovery reads nothing of it."),
    LATE: ("Stores are saved late: two or more fences of their thread left them unsafe.", "Flush their cache lines before the next fence of the thread, if what comes then needs them."),
    DROPPED: ("A flush or a fence does nothing that a crash could show.", "Remove it, or see if it was meant for another address or another thread."),
    OVERWRITTEN: ("Stores are written over before any flush.", "Store once, if the first store was not wanted."),
    UNWRITTEN: ("An assertion is about bytes that no store has written.", "See if its address is right: it passes whatever the program does."),
    HINT: ("No rule forbids this, and it is mostly a slip.", "See what pmtrim explain says of it."),
    CUT: ("A trace was cut: it does not tell what came after.", "Record it in parts, or from an empty pool."),
    EMPTY: ("A trace has no event.", "See if the pool was mapped while the program was recorded."),
}


def uri_of(path):
    """A path as a reference: a relative one is of the folder of the sources."""
    if os.path.isabs(path):
        return pathlib.PurePath(path).as_uri()
    return urllib.parse.quote(path.encode("utf-8", "surrogateescape"))


def location_of(place, text=None):
    """A place: a line of a file where it is known, and its function."""
    location = {}
    if has_line(place):
        location["physicalLocation"] = line_at(place.file, place.line)
    if place.function:
        location["logicalLocations"] = [{"name": place.function, "fullyQualifiedName": place.name, "kind": "function"}]
    elif place.line is None:
        location["logicalLocations"] = [{"name": place.file, "kind": "module"}]
    if text:
        location["message"] = {"text": text}
    return location


def line_at(file, line):
    return {"artifactLocation": {"uri": uri_of(file)}, "region": {"startLine": line}}


def related_of(example):
    """The events that are told of the cause, with their places, numbered from 1."""
    told = [(role, text, place) for role, text, place in example.told if place]
    return [{"id": number, **location_of(Place(*place), f"{role}: {text}")} for number, (role, text, place) in enumerate(told, 1)]


def message_of(cause, example):
    """A sentence that tells this cause from others, in which places are links to the related locations; then why, and what mends it."""
    linked = {role: number for number, (role, _, place) in enumerate((row for row in example.told if row[2]), 1) if has_line(Place(*place))}
    link = lambda text: text.replace("[", "\\[").replace("]", "\\]")
    found = finding_of(cause, example, lambda role, *event: f"[{link(spot(role, *event))}]({linked[role]})" if role in linked else link(spot(role, *event)))
    return f"{found.title}. {link('. '.join(text.rstrip('.') for text in (found.why, found.fix, f'Show it by: {example.show}') if text))}"


def result_of(cause, why, rules):
    """A cause as a result. What is known is suppressed, by what the baseline says."""
    example = cause.example
    place = Place(*example.places[0])
    result = {
        "ruleId": cause.kind,
        "ruleIndex": rules.index(cause.kind),
        "level": LEVELS.get(cause.kind, NOTE),
        "message": {"text": message_of(cause, example)},
        "locations": [{**location_of(place), "physicalLocation": line_at(*line_of(example))}],
        "relatedLocations": related_of(example),
        "fingerprints": {FINGERPRINT: cause.id},
        "partialFingerprints": {FINGERPRINT: cause.id},
        "occurrenceCount": cause.count,
        "baselineState": "new" if why is None else "unchanged",
        "properties": {"reason": cause.reason, "places": cause.names, "runs": sorted(cause.runs), "show": example.show},
    }
    if why is not None:
        result["suppressions"] = [{"kind": "external", "status": "accepted", "justification": why}]
    return result


def rule_of(kind):
    short, help_text = RULES[kind]
    return {"id": kind, "shortDescription": {"text": short}, "fullDescription": {"text": f"{short} {help_text}"}, "help": {"text": help_text}, "defaultConfiguration": {"level": LEVELS.get(kind, NOTE)}}


def notification_of(text):
    return {"level": "error", "message": {"text": text}}


def sarif_text(judged, version):
    """The whole file."""
    rules = [kind for kind in RULES if kind in judged.fail_on]
    results = [result_of(cause, why, rules) for cause, why in [*((cause, None) for cause in judged.new), *judged.known]]
    driver = {
        "name": "pmtrim-suite",
        "version": version,
        "rules": [rule_of(kind) for kind in rules],
    }
    faults = [notification_of(text) for _, text in judged.report.all_faults]
    run = {
        "tool": {"driver": driver},
        "invocations": [{"executionSuccessful": not faults, "toolExecutionNotifications": faults}],
        "columnKind": "unicodeCodePoints",
        "results": results,
    }
    return json.dumps({"$schema": SCHEMA, "version": VERSION, "runs": [run]}, indent=1) + "\n"
