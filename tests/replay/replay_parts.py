"""Parts of traces: their bases, against all states of the machine for the whole, and replays of them."""
import random

from machine import Trace, spelled
from replay_runs import Replayed, write_trace

TRACES, MOST_OFF = 10, 64
ORIGIN, POOL_BYTES = 0x1000 - 5, 1100


def images_at(trace, place, base, off, held=()):
    """The pools after the crashes at a place where at most so many lines are off their least, or off their greatest number of stores, and held
    ones have their least."""
    reached = [dict(done) for done in trace.reached[place]]
    least = {line: min(done.get(line, 0) for done in reached) for line in trace.lines(place)}
    greatest = {line: len(trace.stores(line, place)) for line in trace.lines(place)}
    for done in reached:
        free = least.keys() - set(held)
        is_held = all(done.get(line, 0) == least[line] for line in least.keys() & set(held))
        if is_held and min(sum(done.get(line, 0) != bound[line] for line in free) for bound in (least, greatest)) <= off:
            pool = bytearray(base)
            for address, byte in trace.image(tuple(done.items())):
                pool[address - ORIGIN] = byte
            yield bytes(pool)


def flushed_trace(choose):
    """The header and a trace of two lines with many flushes and fences, so that few stores are pending at a time."""
    size, events = choose.choice((32, 64, 128, 256)), []
    for _ in range(24):
        thread, at = choose.randrange(2), 0x1000 + size * choose.randrange(2) + choose.choice((0, 1, 8))
        kinds = [("store", thread, at, choose.randbytes(choose.choice((1, 2, 4)))), (choose.choice(("clwb", "clwb", "clflush")), thread, at), ("sfence", thread)]
        events.append(choose.choices(kinds, (6, 7, 5))[0])
    return f"pmtrace 2 {size}", Trace(size, events)


class Parts(Replayed):
    """What images of a part hold, upon its base."""

    def cut(self, path, *words):
        """The parts of a trace, with their places, the events that they carry and their last events: those before too much is carried."""
        prefix = path.with_suffix("")
        done = self.call([self.program, "parts", *words, "--out", prefix, path])
        self.expect(f"{path.name} is cut", done[0] == 0 or "more than half of a part" in done[2], done)
        found, number = [], 1
        while (part := prefix.with_name(f"{prefix.name}.{number:04}.trace")).exists():
            told = dict(line.split(" ", 1) for line in part.with_name(f"{part.name}.part").read_text().splitlines())
            found.append((part, int(told["place"]), int(told["carried"]), int(told["answers"].split(" ")[1])))
            number += 1
        return found

    def test_images_of_parts(self):
        """At each place of a part a crash leaves just the pools that it may leave in the whole at the matching place."""
        choose, compared = random.Random(53), 0
        for number in range(TRACES):
            head, trace = flushed_trace(choose)
            base, path = choose.randbytes(POOL_BYTES), self.folder / f"whole{number}.trace"
            write_trace(path, head, [spelled(event) for event in trace.events], base, ORIGIN)
            for part, place, carried, last in self.cut(path, "--events", str(choose.choice((8, 9, 10))), "--overlap", str(choose.choice((0, 1, 2)))):
                status, told, faults = self.replay(["--base", part])
                self.expect(f"{part.name}: its base is made", (status, faults) == (0, "") and f"can lose after event {place}\n" in told, told + faults)
                for at in choose.sample(range(place, last + 1), min(2, last + 1 - place)):
                    came, wanted = self.images_in_part(part, carried + at - place), set(images_at(trace, at, base, MOST_OFF))
                    self.expect(f"{part.name} after event {at} of the whole", came == wanted, f"{len(came)} images, {len(came & wanted)} of {len(wanted)} wanted")
                    compared += carried > 0
        self.expect("places of parts that carry events", compared > 20, compared)

    def images_in_part(self, part, place):
        listed = self.call([self.program, "image", "--list", "--at", place, "--off", MOST_OFF, part])
        self.expect(f"{part.name}: crashes after event {place}", listed[0] == 0, listed)
        found = set()
        for words in listed[1].splitlines():
            image = self.folder / "part.image"
            done = self.call([self.program, "image", *words.split(" "), "--out", image, part])
            self.expect(f"{part.name}: {words}", done[0] == 0, done)
            found.add(image.read_bytes())
        return found

    def test_parts_of_two_pools(self):
        """Each pool has its own base, made by the parts before; zeros are holes; a replay of the part takes them."""
        lines = ["store 0 0x8 01", "store 0 0x10000000010 02", "clwb 0 0x8", "clwb 0 0x10000000010", "sfence 0", "store 0 0x18 03"] * 2
        path = self.folder / "pools.trace"
        write_trace(path, "pmtrace 2 64", [*lines, "clwb 0 0x18", "sfence 0"], bytes(1 << 20), 0)
        path.with_name("pools.trace.base2").write_bytes(bytes(100))
        path.with_name("pools.trace.origin2").write_text("0x10000000000\n")
        last = self.cut(path, "--events", "9", "--overlap", "0")[-1][0]
        status, told, faults = self.replay(["--base", last])
        self.expect("two pools: told", (status, faults) == (0, "") and told.startswith(f"{last}.base, {last}.base2: "), told + faults)
        bases = [last.with_name(f"{last.name}.base{number}") for number in ("", "2")]
        self.expect("two pools: the first", bases[0].read_bytes()[:32].hex() == f"{0:016x}01{0:014x}{0:016x}{0:016x}" and bases[0].stat().st_size == 1 << 20, bases[0].read_bytes()[:32])
        self.expect("two pools: the second", bases[1].read_bytes() == bytes(16) + b"\2" + bytes(83), bases[1].read_bytes())
        self.expect("zeros are holes", bases[0].stat().st_blocks < 256, bases[0].stat())
        status, told, faults = self.replay([last, "--", "test", "-s", "{}"])
        self.expect("two pools: a replay of the part", (status, faults) == (0, "") and "0 failed" in told, told + faults)

    def test_bases_refused(self):
        path = self.folder / "alone.trace"
        write_trace(path, "pmtrace 1", ["store 0 0x8 01", "sfence 0"] * 3, bytes(64), 0)
        (first, *_), (second, *_) = self.cut(path, "--events", "4", "--overlap", "0")[:2]
        status, _, faults = self.replay([second, "--", "true", "{}"])
        self.expect("a replay says what makes the base", status == 4 and f"is not there: pmtrim-replay --base {second} makes it" in faults, faults)
        path.with_name("alone.trace.base").rename(first.with_name(f"{first.name}.base"))
        path.with_name("alone.trace.origin").rename(first.with_name(f"{first.name}.origin"))
        for words, wanted, told in (
            (["--base", path], 2, "no part of a trace"),
            (["--base", first], 2, "is there: a first part begins where the whole does"),
            (["--base"], 2, "--base takes a part"),
            (["--base", second, "--", "true", "{}"], 2, "--base takes a part"),
        ):
            status, out, faults = self.replay(words)
            self.expect(f"{words}", (status, out) == (wanted, "") and told in faults, faults)
        beside = first.with_name(f"{first.name}.part")
        text = beside.read_text()
        for name, changed in (("another number", text.replace("part 1", "part 2")), ("another text", "nonsense\n")):
            beside.write_text(changed)
            status, _, faults = self.replay(["--base", second])
            self.expect(name, status == 3 and f"{beside}: " in faults, faults)
        beside.write_text(text)
        first.with_name(f"{first.name}.base").write_bytes(bytes(4))
        status, _, faults = self.replay(["--base", second])
        left = [other.name for other in self.folder.iterdir() if other.name.startswith((".pmtrim-base", f"{second.name}.base", f"{second.name}.origin"))]
        self.expect("a base that is too short", status == 3 and "lies outside of the pool" in faults and not left, f"{status} {faults} {left}")
