"""What loads and failed exchanges of a random program saw, against memory as the trace has it.

A moment is 2k between the operations k - 1 and k of the trace, and 2k + 1 within operation k, where each byte that it stores may be old
or new.
"""
from bisect import bisect_left, bisect_right

from effects import NEVER, Refused


class Observations:
    """The places that are seen, and how they change."""

    def __init__(self, space, logs):
        self.space = space
        self.seen = {}
        for thread, log in enumerate(logs):
            self.seen[thread] = [(at, done) for at, done in enumerate(log) if self.is_observation(done)]
        self.changes = {self.range_of(done): [] for seen in self.seen.values() for _, done in seen}

    @staticmethod
    def is_observation(done):
        if done.ended == NEVER:
            return False
        return done.word == "read" or done.word == "compare" and not done.answer

    def range_of(self, done):
        first = self.space.flat(*done.operation[1:3])
        return first, first + done.operation[3]

    def change(self, group, first, before, after):
        """Operation `group` stores bytes."""
        end = first + len(after)
        for (start, stop), changes in self.changes.items():
            if start < end and first < stop:
                old = bytearray(changes[-1][2] if changes else bytes(stop - start))
                new = bytearray(old)
                for at in range(max(start, first), min(stop, end)):
                    old[at - start] = before[at - first]
                    new[at - start] = after[at - first]
                changes.append((group, bytes(old), bytes(new)))

    def check(self, actors, groups, missing):
        if not self.changes:
            return
        by_end = sorted((ended, group) for group, (_, ended, _, _) in enumerate(groups))
        by_begin = sorted((begun, group) for group, (begun, _, _, _) in enumerate(groups))
        ends, last = running(by_end, max)
        begins, first = running(reversed(by_begin), min)
        begins, first = begins[::-1], first[::-1]
        for actor in actors:
            moment, own = 0, 0
            for at, done in self.seen[actor.thread]:
                start, stop = self.range_of(done)
                if not missing.isdisjoint(range(start, stop)):
                    continue
                while own < len(actor.groups) and actor.loud[own][0] < at:
                    moment = max(moment, 2 * actor.groups[own] + 2)
                    own += 1
                before = bisect_left(ends, done.begun)
                moment = max(moment, 2 * last[before - 1] + 2 if before else 0)
                after = bisect_right(begins, done.ended)
                latest = 2 * first[after] if after < len(first) else 2 * len(groups)
                if own < len(actor.groups):
                    latest = min(latest, 2 * actor.groups[own])
                moment = self.earliest((start, stop), done, moment, latest)

    def earliest(self, place, done, moment, latest):
        """The earliest of these moments at which what was seen stood there."""
        value = done.seen.to_bytes(place[1] - place[0], "little")
        stands = bytes(len(value))
        for group, old, new in self.changes[place]:
            if 2 * group + 1 > moment and stands == value:
                break
            if moment <= 2 * group + 1 <= latest and all(byte in pair for byte, *pair in zip(value, old, new)):
                return 2 * group + 1
            if 2 * group + 2 <= latest:
                stands = new
            if 2 * group + 2 >= moment and stands == value and 2 * group + 2 <= latest:
                return max(moment, 2 * group + 2)
        if stands != value or moment > latest:
            raise Refused(f"{done} saw what did not stand there then")
        return moment


def running(pairs, choose):
    """The keys, and for each the least or greatest group of all pairs so far."""
    keys, groups = [], []
    for key, group in pairs:
        keys.append(key)
        groups.append(choose(group, groups[-1]) if groups else group)
    return keys, groups
