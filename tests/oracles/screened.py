"""What must stand on the first screen of `explain`: facts of its text, by the JSON and the trace. The wording is free but for a few words."""
import collections
import json
import re
import shlex
import subprocess
import unicodedata

from placed import LEAST

LINES, WIDTH = 24, 100
# So many causes of failed assertions are told in full.
FEW = 10
VERDICTS = {
    "nothing": "Nothing to judge: ", "fail": "FAIL: ", "lost": "LOST: ", "suspect": "SUSPECT: ", "check": "CHECK: ",
    "probably_ok": "PROBABLY OK: ", "ok": "OK: ", "ok_so_far": "OK so far: ",
}
MEANT = "Maybe meant; you must know:"
WORDS = "store|clwb|clflushopt|clflush|sfence|mfence|isPersist|isOrderedBefore"
ROW = re.compile(rf" {{4,}}(?P<event>\d+) (?P<word>{WORDS})(?: (?P<address>0x[0-9a-f]+))? *(?: T(?P<thread>\d+))?(?:  (?P<rest>.*))?$")
RANK = re.compile(r"(\d+)\. ")
LEFT = re.compile(r"   \.\. (\d+) more \(--limit all\)$")
STORY = 6
HABIT = re.compile(r"([\d,]+) of the ([\d,]+) stores there to 0x[0-9a-f]+ come with a flush unfenced(: a habit)?")
# A slip concerns one in so many stores at most, and what comes again and again comes so often.
SLIP, AGAIN = 3, 10


def run(program, *words, **options):
    return subprocess.run([str(word) for word in (program, "explain", *words)], capture_output=True, timeout=120, **options)


def width_of(line):
    return sum(2 if unicodedata.east_asian_width(letter) in "WF" else 1 for letter in line)


def short(site):
    """What a head names of a site: the file and the line, or a whole name that has none, or a thread."""
    label = site["label"]
    return f"thread {site['thread']}" if label is None else next((word for word in label.split(" ") if re.search(r":\d+$", word)), label)


class Screen:
    """The text of a trace as one screen, and what the JSON tells of it."""

    def __init__(self, program, words, file, **options):
        self.words, self.file = words, file
        done = run(program, *words, file, **options)
        self.status, self.text, self.lines = done.returncode, done.stdout.decode(), done.stdout.decode().splitlines()
        self.told = collections.defaultdict(list)
        for line in map(json.loads, run(program, *words, "--json", "--limit", "all", file, **options).stdout.splitlines()):
            self.told[line["kind"]].append(line)
        self.summary = self.told["summary"][0]
        most = words[words.index("--limit") + 1] if "--limit" in words else FEW
        self.full = self.told["failure"] if most == "all" else self.told["failure"][: int(most)]
        trace = (options["cwd"] / file if "cwd" in options else file).read_text()
        head, *events = [line.split(" ") for line in trace.splitlines()]
        self.size, self.events = int([*head, "64"][2]), events
        self.rows = {name_of(row): row for row in self.told["place"]}
        entries = [entry for entry in self.told["entry"] if not self.stands_in(entry)]
        words = shlex.split(next_of(self) or "")
        self.volatile = {word for before, word in zip(words, words[1:]) if before == "--ignore-label"}
        apart = [entry for entry in entries if self.is_volatile(entry)]
        self.weighty = [entry for entry in entries if entry["word"] != "meant" and entry not in apart]
        # fields that may be volatile are one question
        self.meant = self.questions([entry for entry in entries if entry["word"] == "meant"]) + apart[:1]

    def is_volatile(self, entry):
        """Whether its sites store to fields that are told apart, as the next command names them."""
        names = {site["label"] for site in entry["sites"]}
        return entry["subject"] == "stores" and entry["word"] != "meant" and names <= self.volatile and not entry["more_sites"]

    def questions(self, meant):
        """Those of these entries that are asked about by themselves: scratch is with the first that has a site in the same cache line."""
        line = lambda name: int(self.rows[name]["first_never_persisted"]["address"], 16) // self.size
        scratch = {name_of(site) for entry in meant if entry["scratch"] for site in entry["sites"]}
        found, asked = [], set()
        for entry in meant:
            names = {name_of(site) for site in entry["sites"]}
            if not (entry["scratch"] and names <= asked):
                found.append(entry)
            if entry["scratch"]:
                asked |= {name for name in scratch if line(name) in set(map(line, names))}
        return found

    def stands_in(self, entry):
        """Whether a loss is told with failures, which lose stores of these sites: nothing else tells why but an early flush, which they tell."""
        claimed = {site_of(failure["lost"]["store"]) for failure in self.full}
        unflushed = [failure["lost"]["store"] for failure in self.full if failure["cause"]["cause"] == "unflushed"]
        early = {site_of(store) for store in unflushed if self.is_flushed_before(store["event"])}
        signed = {name_of(hint) for hint in self.told["hint"] if hint["hint"] == "stored_after_flush"}
        is_bare = entry["subject"] == "stores" and entry["sign"] in (None, "stored_after_flush") and not entry["contrast"]
        return is_bare and all(name in (early if name in signed else claimed) for name in map(name_of, entry["sites"]))

    def is_flushed_before(self, store):
        """Whether its thread, between its fences about the store, flushes the store's cache line, and for the last time before the store."""
        thread, line = self.events[store - 1][1], int(self.events[store - 1][2], 16) // self.size
        own = [(number, event) for number, event in enumerate(self.events, 1) if event[1] == thread]
        fences = [number for number, event in own if event[0] in ("sfence", "mfence")]
        low, high = max((at for at in fences if at < store), default=0), min((at for at in fences if at > store), default=len(self.events) + 1)
        flushes = [number for number, event in own if event[0].startswith("cl") and int(event[2], 16) // self.size == line]
        return low < max((number for number in flushes if number < high), default=0) < store

    @property
    def start(self):
        """Where the verdict stands: below what the trace lacks."""
        verdict = VERDICTS[self.summary["verdict"]]
        return next((at for at, line in enumerate(self.lines) if line.startswith(verdict)), None)

    def blocks(self):
        """The lines of each entry that is told, and how many more are counted."""
        found, total = [], len(self.groups())
        starts = lambda line: RANK.match(line) and int(RANK.match(line)[1]) == len(found) + 1 or total == 1 and not found and line
        body = self.lines[self.lines.index("", self.start) :] if total else []
        for line, following in zip(body, [*body[1:], ""]):
            if LEFT.match(line):
                return found, int(LEFT.match(line)[1])
            if starts(line):
                found.append([line])
            elif line:
                found[-1].append(line)
            elif found and not starts(following):
                break
        return found, 0

    def groups(self):
        """The entries of the JSON that one entry of the text tells."""
        found, keys = [], []
        failures = {failure["event"]["event"]: failure for failure in self.told["failure"]}
        for entry in self.weighty:
            failure = failures.get(entry["first"]["event"]) if entry["subject"] == "failure" else None
            lost = failure and failure["lost"]["store"]
            key = lost and (site_of(lost), entry["why"], lost["thread"] != failure["event"]["thread"])
            kept = entry["subject"] == "left" and not entry["path"] and self.rows[name_of(entry["sites"][0])]["saved_before"]
            if kept and entry["sites"][0]["label"]:
                # one function, and what a crash keeps without its stores
                function = next((word for word in entry["sites"][0]["label"].split(" ") if ":" not in word), None)
                key = function and (function, site_of(kept["store"]))
            if key and keys and keys[-1] == key:
                found[-1].append(entry)
            else:
                found.append([entry])
            keys.append(key)
        return found


def name_of(site):
    return site["thread"] if site["label"] is None else site["label"]


def site_of(event):
    return event["label"].partition(" < ")[0] if event["label"] else event["thread"]


def wrong_rows(screen):
    """A row of a story that is no event of the trace, or not what the trace says of it."""
    for line in screen.lines:
        row = ROW.match(line)
        if row:
            number = int(row["event"])
            event = screen.events[number - 1] if 0 < number <= len(screen.events) else [None, None, None]
            address = event[2] if len(event) > 2 else None
            if (row["word"], row["address"]) != (event[0], address) or row["thread"] not in (None, event[1]):
                return f"{line!r} is not {event}"
    return None


def wrong_entries(screen):
    """An entry that is neither told nor counted, and one that does not say where it is."""
    found, left = screen.blocks()
    groups = screen.groups()
    if len(found) + left != len(groups) or groups and not found:
        return f"{len(found)} entries and {left} more, of {len(groups)}"
    for lines, (entry, *_) in zip(found, groups):
        text, rows = " ".join(line.strip() for line in lines), sum(bool(ROW.match(line)) for line in lines)
        is_claim = entry["subject"] == "failure" and entry["sites"][0]["label"] is None
        named = "is" if is_claim else entry["path"] or short(entry["sites"][0])
        if named not in text and named.split(" < ")[0] not in text or rows > STORY:
            return f"{named} is not in {lines}, or it has {rows} rows"
    return None


def wrong_meant(screen):
    """What may be meant: as many as there are."""
    below = screen.lines[screen.lines.index(MEANT) :] if MEANT in screen.lines else []
    told = [line for line in below if line.startswith("  - ")]
    left = [int(found[1]) for found in map(LEFT.match, below) if found]
    right = len(told) + sum(left) == len(screen.meant)
    return None if right else f"{len(screen.meant)} may be meant, and not {below}"


def wrong_volatile(screen):
    """What is told as a field that may be volatile, though hardly anything is lost, or its site saves or seldom misses."""
    rows = {row["label"]: row for row in screen.told["place"]}
    saves = lambda row: row["in_time"] * SLIP > row["stores"] or row["never_persisted"] + row["late"] < AGAIN
    wrong = [name for name in screen.volatile if saves(rows[name])]
    is_much = screen.summary["never_persisted"] * SLIP > screen.summary["stores"]
    return f"not volatile: {wrong or screen.volatile}" if wrong or screen.volatile and not is_much else None


def wrong_habits(screen):
    """A habit of fewer than three stores, or from which one of them departs; or one that is not told."""
    for late, stores, told in HABIT.findall(" ".join(screen.text.split())):
        if bool(told) != (late == stores and int(stores.replace(",", "")) >= LEAST):
            return f"a habit, or none: {late} of {stores}"
    return None


def wrong_ranges(screen):
    """Ranges of crashes that meet, or do not rise."""
    for places in re.findall(r"pmtrim-replay --at (\S+)", " ".join(screen.text.split())):
        ends = [[int(end) for end in place.split("-")] for place in places.split(",")]
        if any(after <= before + 1 for (_, before), (after, _) in zip(ends, ends[1:])):
            return f"ranges that meet: {places}"
    return None


def next_of(screen):
    """The command behind `next:`; none if there is none."""
    text = "\n".join(screen.lines)
    found = re.search(r"^next: (?:run your recovery.*:\n  )?(pmtrim .*|pmtrim-replay .*)$", text, re.M)
    return found and found[1]


def wrong_screen(screen):
    """What is wrong with the screen, if anything."""
    wide = [line for line in screen.lines if width_of(line) > WIDTH and not line.endswith(next_of(screen) or "\n")]
    if screen.start is None or wide:
        return f"no verdict, or wide: {wide}, in\n{screen.text}"
    if bool(next_of(screen)) != bool(screen.summary["stores"]):
        return f"next: {next_of(screen)}, in\n{screen.text}"
    checks = (wrong_rows, wrong_entries, wrong_meant, wrong_volatile, wrong_habits, wrong_ranges)
    wrong = next(filter(None, (check(screen) for check in checks)), None)
    return f"{wrong}, in\n{screen.text}" if wrong else None
