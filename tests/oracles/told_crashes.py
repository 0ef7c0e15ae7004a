"""What explain tells of the crashes of a trace, and the pools that they leave."""
import itertools
import json
import random
import re
import subprocess

import machine
from crowded import random_trace
from page_machine import read_trace
from screened import ROW

LOST, KEPT = "a crash can lose it", "a crash can keep it"


class Told:
    """A trace, a pool that holds its stores, and what a crash leaves of them."""

    def __init__(self, folder, file, size, events):
        self.file, self.size, self.events = file, size, events
        self.stores = [(number, event[2], event[3]) for number, event in enumerate(events, 1) if event[0] == "store"]
        self.origin = min(address for _, address, _ in self.stores) - 5
        self.base = random.Random(len(events)).randbytes(max(address for _, address, _ in self.stores) + 21 - self.origin)
        self.pool = folder / f"{file.name}.told"
        self.pool.write_bytes(self.base)
        self.words = ["--pool", str(self.pool), "--origin", hex(self.origin), str(file)]

    def after(self, place, counts):
        """The pool after so many events, with the first stores of each line that is counted, and with all stores of the others."""
        pool, seen = bytearray(self.base), {}
        for number, address, data in self.stores:
            line = address // self.size
            seen[line] = seen.get(line, 0) + 1
            if number <= place and seen[line] <= counts.get(line, number):
                pool[address - self.origin : address - self.origin + len(data)] = data
        return bytes(pool)


def read_told(folder, file):
    size, events = read_trace(file.read_bytes())
    return Told(folder, file, size, events)


def failing_traces(folder, count):
    """So many small traces with an assertion that fails, as the machine says."""
    for number in range(count):
        choose = random.Random(number)
        trace = None
        while trace is None or not any(trace.event(at)[0].startswith("is") and machine.verdict(trace, at).endswith("fail") for at in trace.numbers):
            header, trace = random_trace(choose)
        file = folder / f"failing{number}.trace"
        file.write_bytes(machine.text_of([header, *map(machine.spelled, trace.events)]))
        yield file


def told(program, case, *words):
    answer = subprocess.run([program, "explain", *words, str(case.file)], capture_output=True, text=True, timeout=60)
    return answer.stdout


def told_entries(program, case, kind, *words):
    lines = map(json.loads, told(program, case, "--json", "--limit", "all", *words).splitlines())
    return [entry for entry in lines if entry["kind"] == kind]


def words_of_entry(entry):
    return ["--at", str(entry["place"]), "--all", *itertools.chain(*(("--line", f"{line['cache_line']}:{line['persisted']}") for line in entry["lines"]))]


def words_of_text(text):
    """The crash of the first failure of a text; none, where the text leaves lines of it to the JSON."""
    place = re.search(r"^  crash:  right after event (\d+)$", text, re.M)[1]
    kept = re.search(r"^  kept:  (.*)$", text, re.M)[1]
    lines = re.findall(r" (\d+) of \d+ in (0x[0-9a-f]+);", kept)
    return None if "--json" in kept else ["--at", place, "--all", *itertools.chain(*(("--line", f"{address}:{stores}") for stores, address in lines))]


def last_in(case, span, number):
    """The last store to each byte of the range up to the event."""
    found = {}
    for store, address, data in case.stores:
        if store <= number:
            found.update({byte: store for byte in range(address, address + len(data)) if 0 <= byte - int(span["address"], 16) < span["length"]})
    return set(found.values())


def is_persisted(case, entry, store):
    """Whether the crash leaves the store persisted."""
    line = {number: address // case.size for number, address, _ in case.stores}
    if store > entry["place"]:
        return False
    counts = {int(told["cache_line"], 16) // case.size: told["persisted"] for told in entry["lines"]}
    rank = sum(line[other] == line[store] for other in line if other <= store)
    return rank <= counts.get(line[store], rank)


def wrong_story(case, entry, text):
    """What is wrong with the story of a failure: its events rise and are those of the trace, and by the crash that is told
    the lost one is lost, and the kept one kept."""
    rows = [row for row in map(ROW.match, text.splitlines()) if row]
    events, notes = [int(row["event"]) for row in rows], {note: int(row["event"]) for row in rows for note in (LOST, KEPT) if note in row["rest"]}
    losing = [store for store in last_in(case, entry["ranges"][0], entry["event"]["event"]) if not is_persisted(case, entry, store)]
    right = (
        events == sorted(set(events))
        and all(case.events[event - 1][0] == row["word"] for event, row in zip(events, rows))
        and entry["event"]["event"] in events
        and notes.get(LOST) in losing
        and (entry["kept"] is None) == (KEPT not in notes)
        and (KEPT not in notes or is_persisted(case, entry, notes[KEPT]))
    )
    return None if right else f"{case.file.name}: the story of {entry['event']['event']} is {text}"
