"""Runs pmtrim-replay on recorded and on random traces.

Which images there are is taken from the lists of states of machine.py, by the words of `pmtrim-replay --help`.
"""
import random

from machine import random_trace, spelled
from replay_faults import Faults  # noqa: F401  (the runner runs what stands here)
from replay_parts import ORIGIN, POOL_BYTES, Parts, images_at  # noqa: F401
from replay_programs import Programs  # noqa: F401
from replay_runs import Replayed, write_trace

TRACES = 24


class Sets(Replayed):
    """Which images checkers see."""

    def test_each_image_once(self):
        """The images of small random traces, each once."""
        choose = random.Random(36)
        for number in range(TRACES):
            head, trace = random_trace(choose)
            base = choose.randbytes(POOL_BYTES)
            path = self.folder / f"random{number}.trace"
            write_trace(path, head, [spelled(event) for event in trace.events], base, ORIGIN)
            last = len(trace.events)
            around = {place for at in trace.numbers if trace.event(at)[0] != "store" for place in (at - 1, at)} | {last}
            some = sorted(choose.sample(range(last + 1), min(3, last + 1)))
            self.expect_set(path, trace, base, [], 1, around)
            self.expect_set(path, trace, base, ["--off", "64"], 64, range(last + 1))
            self.expect_set(path, trace, base, ["--off", str(number % 3), "--at", ",".join(map(str, some))], number % 3, some)
            held = choose.choice(trace.lines(last) or [0])
            self.expect_set(path, trace, base, ["--hold", f"{held * trace.size:#x}"], 1, around, [held])

    def expect_set(self, path, trace, base, words, off, places, held=()):
        """Each image of the set was seen by a checker, and no other one, and each once."""
        wanted = {image for place in places for image in images_at(trace, place, base, off, held)}
        copies = self.empty_folder("copies")
        status, told, _ = self.replay([*words, path, "--", "sh", "-c", 'cp "$1" "$2/$(basename "$(dirname "$1")")"', "x", "{}", copies])
        found = [path.read_bytes() for path in sorted(copies.iterdir())]
        name = f"{path.name} {' '.join(words)}"
        self.expect(f"{name}: status", status == 0, told)
        self.expect(f"{name}: images", set(found) == wanted, f"{len(set(found))} images, {len(set(found) & wanted)} of {len(wanted)} wanted")
        self.expect(f"{name}: each once", len(found) == len(wanted), f"{len(found)} checkers for {len(wanted)} images")
