"""Faults that are planted into what `explain` told rightly of a trace: the judge has to notice each of them."""
import json


def swapped(entries):
    entries[:2] = entries[1::-1]


def with_more(member):
    """Adds one to the member of the first entry."""
    return lambda entries: entries[0].update({member: entries[0][member] + 1})


def without_last(entries):
    """Leaves out the last member of the first cause that has several."""
    cause = next((entry for entry in entries if entry["count"] > 1), None)
    if cause:
        cause.update(count=cause["count"] - 1, events=cause["events"][:-1])


def with_other(member, value):
    """Gives the member of the first entry this value; none where it has it."""
    return lambda entries: entries[0].update({member: value})


def with_other_store(entries):
    stores = entries[-1]["ranges"][0]["stores"]
    stores[0] = None if stores[0] else 1


# What is changed in the JSON: of which kind, and what of its entries.
JSON = {
    "the verdict": ("summary", with_other("verdict", "check")),
    "an entry left out": ("entry", list.clear),
    "the order of entries": ("entry", swapped),
    "an entry's weight": ("entry", with_other("word", "check")),
    "an entry's size": ("entry", with_more("count")),
    "an entry's sites": ("entry", with_other("sites", [])),
    "a cause's last member left out": ("cause", without_last),
    "a cause's size": ("cause", with_more("count")),
    "the order of causes": ("cause", swapped),
    "the store of a byte": ("failure", with_other_store),
    "a late count": ("late", with_more("count")),
    "a late place left out": ("late", list.clear),
    "the order of late places": ("late", swapped),
}


def in_json(name, told):
    """The JSON with the fault; none where it has no room."""
    entries = [json.loads(line) for line in told.decode().splitlines()]
    kind, change = JSON[name]
    same, others = ([entry for entry in entries if (entry["kind"] == kind) == is_same] for is_same in (True, False))
    if same:
        change(same)
    at = next((at for at, entry in enumerate(entries) if entry["kind"] == kind), 0)
    changed = [*others[:at], *same, *others[at:]]
    before = [json.loads(line) for line in told.decode().splitlines()]
    return None if changed == before else "".join(json.dumps(entry) + "\n" for entry in changed).encode()
