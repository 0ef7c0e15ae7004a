"""Compares claims of the documents with the sources.

Each public call is of the fixed surface, whose calls stand in tests/surface, or another crate calls it, or docs/DECISIONS.md names it
in its decision on what is public. A call is known by its name, and if a type stands before it, by its type. There are few must-fail edits,
each with a control, and each wrong body that is named here has an edit or a test of its name. rows.py names the worked rows, and what runs
each. crates.txt says of each crate what it is for, docs/PROOFS.md lists each ported crate, and the files that documents for contributors name are
there. docs/explain.schema.json has the objects and the names that the proved statements of pmt_explain_json spell, and docs/EXPLAIN.md names
their members.
"""
import json
import re
import subprocess

from checks import Checks
from rows import PROVED, ROWS
from schemas import names_of, objects_of
from sources import TOP, items_of
from traces import all_traces

NEEDS_NO_PROGRAM = True
# What is for contributors alone.
GUIDES = ("CONTRIBUTING.md", "docs/ARCHITECTURE.md", "docs/DECISIONS.md", "docs/PROOFS.md", "docs/PROVING.md", "docs/PAGE.md")
# So many edits, each with its control, take the gate some 20 minutes of a processor.
MOST_EDITS = 75
# The wrong bodies that an edit is named by, in one crate or more.
EDITED = {
    "append_changes_the_event", "append_skips_the_book", "clflush_only_marks", "compares_images_alone", "drops_flush_for_an_unfenced_twin",
    "drops_or_moves_a_kept_event", "fence_completes_every_thread", "invents_a_read_fault", "judges_fence_by_its_last_flush",
    "keeps_last_completed_flush_only", "merge_loses_a_line", "ordered_at_ends_of_runs_alone", "ordered_by_recorded_position",
    "persist_passes_once_flushed", "reader_takes_loose_spelling", "redundant_after_any_thread", "returns_the_input",
    "snapshot_invents_other_threads", "snapshot_of_the_opening_book", "stream_writes_flushes_at_once",
}
# Those that contracts let through, or types refuse, and where the test stands that is named by them.
TESTED = {
    "all_on_the_callers_thread": "crates/library_tests/src/workers.rt",
    "always_out_of_memory_or_always_torn": "tests/test_refusals.py",
    "lock_round_the_lines": "tests/surface/workers.rt.txt",
    "stream_holds_all_back": "crates/library_tests/src/trim.rt",
}


def library_crates():
    """The crates that have a library with contracts or laws, each with its items."""
    found = {}
    for path in sorted(TOP.glob("crates/pmt_*/src/lib.rt")):
        crate = path.parts[-3]
        found[crate] = [item for file in sorted(path.parent.rglob("*.rt")) for item in items_of(crate, file)]
    return found


def shown_by(crate, items):
    """Those of its items that another crate can name."""
    root = (TOP / "crates" / crate / "src/lib.rt").read_text()
    modules = set(re.findall(r"^pub mod (\w+);", root, re.M))
    names = set(re.findall(r"\w+", " ".join(re.findall(r"^pub use crate::\w+::([^;]*);", root, re.M))))
    types = {item.name for item in items if item.kind != "fn" and item.public and (item.file[:-3] in modules or item.name in names)}
    for item in items:
        seen = item.owner in types if item.owner else item.file[:-3] in modules or item.file == "lib.rt" or item.name in names
        if item.public and seen:
            yield item


def sources_beside(crate):
    """The code of all other crates."""
    files = (path for path in TOP.glob("crates/*/src/**/*.rt") if f"/{crate}/" not in str(path))
    return "\n".join(re.sub(r"//.*", "", path.read_text()) for path in files)


def fixed_calls():
    """The calls of the fixed surface, with and without the types that they are given."""
    surface = "\n".join(path.read_text() for path in TOP.glob("tests/surface/*.rt.txt"))
    found = set(re.findall(r"\w+(?:::<[^;()]*?>)?::\w+|\w+", surface))
    return found | {re.sub(r"::<[^;()]*?>", "", name) for name in found}


def uncalled(crates):
    """Complaints: public calls besides the fixed surface that no other crate makes and no decision names; and named ones that are none."""
    decision = re.search(r"^- \*\*What is public besides .*?(?=^- |^#)", (TOP / "docs/DECISIONS.md").read_text(), re.M | re.S)[0]
    fixed, named, unused = fixed_calls(), set(re.findall(r"`(\w+)`", decision)), set()
    for crate, items in crates.items():
        used = sources_beside(crate)
        for item in shown_by(crate, [item for item in items if not item.is_law()]):
            if item.kind != "fn" or item.trait or item.label() in fixed or re.search(rf"\b{item.name}\b", used):
                continue
            unused.add(item.name)
            if item.name not in named:
                yield f"{crate}: {item.label()} is public, and no other crate calls it"
    for name in sorted(named - unused):
        yield f"docs/DECISIONS.md: {name} is named as a call that no other crate makes, and is none"


def wrong_edits():
    """Complaints: too many edits, edits without a control, and wrong bodies by whose name there is neither an edit nor a test."""
    edits = sorted(TOP.glob("crates/*/must-fail/*.edit"))
    if len(edits) > MOST_EDITS:
        yield f"there are {len(edits)} edits, and at most {MOST_EDITS} may be"
    for path in edits:
        if not re.search(r"^same: ", path.read_text(), re.M):
            yield f"{path.relative_to(TOP)} has no control"
    names = {path.stem for path in edits}
    for name in sorted(EDITED - names):
        yield f"{name}: there is no such edit"
    for name, place in TESTED.items():
        if not re.search(rf"\bfn {name}\(|\bfn {name}<|\bdef test_{name}\(", (TOP / place).read_text()):
            yield f"{name}: no test in {place} has this name"


def stale():
    """Complaints: long names in docs/PROOFS.md that are neither those of edits nor words of the sources."""
    proofs = (TOP / "docs/PROOFS.md").read_text()
    edits = {path.stem for path in TOP.glob("crates/*/must-fail/*.edit")}
    sources = [path for kind in ("src/**/*.rt", "specs/*.antt", "proofs/*.antt") for path in TOP.glob(f"crates/*/{kind}")]
    words = {word for path in sources for word in re.findall(r"\w+", path.read_text())}
    for name in sorted(set(re.findall(r"`([a-z0-9]+(?:_[a-z0-9]+){2,})`", proofs)) - edits - words - set(ROWS) - set(PROVED)):
        yield f"docs/PROOFS.md names {name}, and there is none"


def unlisted_crates():
    """Complaints: crates of which crates.txt has not one line with a comment above it that says what each is for, and lines of no crate."""
    lines = (TOP / "crates.txt").read_text().splitlines()
    listed = [found[0] for above, line in zip(["", *lines], lines) if (found := re.findall(r"^(\w+)[^:#]*:", line)) and above.startswith("# ")]
    known = {path.name for path in TOP.glob("crates/*") if (path / "src").is_dir()}
    for name in sorted({*listed, *known}):
        if listed.count(name) != 1 or name not in known:
            yield f"{name}: crates.txt says {listed.count(name)} times what it is for, and the crate is {'' if name in known else 'not '}there"


def unlisted_ports():
    """Complaints: ported crates that crates.txt names and docs/PROOFS.md does not list among what is trusted, and the reverse."""
    lines = re.findall(r"^(\w+)[^:#]*:(.*)", (TOP / "crates.txt").read_text(), re.M)
    ported = {name for _, below in lines for name in below.split()} - {name for name, _ in lines}
    listed = re.search(r"ported crates\s+\(([^)]*)\)", (TOP / "docs/PROOFS.md").read_text())
    for name in sorted(ported ^ set(re.findall(r"\w+", listed[1]))):
        yield f"{name}: one of docs/PROOFS.md, crates.txt has this ported crate, and the other has not"


def missing_files():
    """Complaints: files that documents for contributors name, and that are not there; NAME and PATH stand for any."""
    tracked = subprocess.run(["git", "ls-files"], cwd=TOP, capture_output=True, text=True, check=True).stdout.splitlines()
    for document in GUIDES:
        for name in sorted(set(re.findall(r"`([\w./-]+\.(?:rt|antt|py|sh|js|css|html|h|c))`", (TOP / document).read_text()))):
            if not re.search("NAME|PATH", name) and not any(path == name or path.endswith(f"/{name}") for path in tracked):
                yield f"{document} names {name}, and there is no such file"


def scripts_run():
    """The scripts and modules of tests, and the files of their rooms that one of them runs or imports, or such a file does."""
    run = {path: path.read_text() for pattern in ("*.sh", "test_*.py") for path in TOP.glob(f"tests/{pattern}")}
    others = {path: path.read_text() for path in TOP.glob("tests/*/**/*.py")}
    while found := [path for path in others if any(re.search(rf"/{path.name}|(import|from) {path.stem}\b", text) for text in run.values())]:
        run |= {path: others.pop(path) for path in found}
    return run


def source_of(test):
    """The file of a test by its crate and modules, and whether the test stands there."""
    crate, *modules, name = test.split("::")
    path = TOP / "crates" / crate / "src" / ("/".join(modules) + ".rt")
    text = path.read_text() if path.exists() else ""
    return path, f"#[test]\nfn {name}(" in text


def not_run(name, place, scripts):
    """What is wrong with a place that is to run the row, if anything."""
    if place.endswith(".trace"):
        stem = place.removesuffix(".trace")
        is_named = stem == name or ("_and_" in name and name.startswith(stem.rsplit("_", 1)[0]))
        return None if is_named and stem in {trace.stem for trace in all_traces()} else "there is no such trace of that name"
    path = TOP / place
    if "::" in place:
        path, stands = source_of(place)
        if not stands:
            return "there is no such test"
    elif path.parts[-4:-3] != ("crates",) and path not in scripts:
        return "no test runs it"
    if not path.exists():
        return "there is no such file"
    return None if re.search(rf"\b(test_)?{name}\b", path.read_text()) else "the row's name is not in it"


def rows_not_run():
    """Complaints: worked rows that nothing is said to run, or that are not run where it is said."""
    scripts = scripts_run()
    for name, places in ROWS.items():
        if not places:
            yield f"{name}: nothing is said to run this row"
        for place in places:
            if wrong := not_run(name, place, scripts):
                yield f"{name}: {place}: {wrong}"


def unlike_spelled(schema):
    """Complaints: objects and names of the schema that pmt_explain_json does not spell, and those that the schema does not have."""
    specs = "\n".join(path.read_text() for path in (TOP / "crates/pmt_explain_json/specs").glob("*.antt"))
    spelled = {frozenset(re.findall(r'codes "(\w+)",', members)) for members in re.findall(r"object_of\s+(\(\(codes .*?\[\]\))", specs, re.S)}
    objects = {frozenset(members) for members, _ in objects_of(schema)}
    yield from (f"not in both: an object of {sorted(members)}" for members in spelled ^ objects)
    yield from (f"not in both: {name}" for name in set(re.findall(r'codes "(\w+)"', specs + kind_names())) ^ names_of(schema))
    yield from (f"may be left out: {sorted(members - must)}" for members, must in objects_of(schema) if members != must)


def kind_names():
    """What --only takes."""
    return re.search(r"^kind_name .*?\n\n", (TOP / "crates/pmt_asked/specs/Choosing.antt").read_text(), re.M | re.S)[0]


def unnamed_members(schema):
    """Complaints: members of the schema that docs/EXPLAIN.md does not name where it tells of their kind, and names there that are none."""
    section = (TOP / "docs/EXPLAIN.md").read_text().split("\n## JSON\n")[1]
    parts = section.split("What will not change")[0].split("Parts that are spelled alike")
    lists = [re.split(r"^(?:- |\| (?=`))", part, flags=re.M)[1:] for part in parts]  # rows of a table, and items of a list
    for item in lists[0]:
        kinds = named_in(re.split("[:|]", item)[0])
        for kind in kinds:
            for name in sorted(set(schema["$defs"][f"{kind}_line"]["properties"]) - named_in(item) - {"kind"}):
                yield f"docs/EXPLAIN.md: {kind} has {name}, which is not named"
    named = set().union(*map(named_in, lists[0] + lists[1]))
    yield from (f"docs/EXPLAIN.md names {name}, which the schema does not have" for name in sorted(named - names_of(schema)))
    members = set().union(*(members for members, _ in objects_of(schema)))
    yield from (f"docs/EXPLAIN.md does not name {name}" for name in sorted(members - named - {"kind"}))


def named_in(text):
    """The names between backticks, but for options and numbers."""
    return {name for code in re.findall(r"`([^`]*)`", text) if not code.startswith("--") for name in re.findall(r"[A-Za-z_]+", code)}


class Claims(Checks):
    """Complaints, of which there are none: a check for each, and one where there are none."""

    @classmethod
    def setUpClass(cls):
        cls.crates = library_crates()

    def expect_none(self, complaints):
        for complaint in list(complaints) or [""]:
            self.expect(complaint, not complaint, "the documents and the sources differ")

    def test_public_calls(self):
        self.expect_none(uncalled(self.crates))

    def test_edits(self):
        self.expect_none(wrong_edits())

    def test_names_of_proofs(self):
        self.expect_none(stale())

    def test_crates(self):
        self.expect_none([*unlisted_crates(), *unlisted_ports()])

    def test_files(self):
        self.expect_none(missing_files())

    def test_worked_rows(self):
        self.expect_none(rows_not_run())

    def test_schema(self):
        schema = json.loads((TOP / "docs/explain.schema.json").read_text())
        self.expect_none([*unlike_spelled(schema), *unnamed_members(schema)])
