"""Random programs: pools, threads and their operations, as the interpreter reads them.

Memory is named by flat places: the pools stand apart in one range of bytes, each at a place that has the same distance from its line's
beginning as its address. DATA are the bytes that operations store; in its first half all are even, in its second all are odd. Recorded
stores take the first half and plain ones the second, so a noticed store is never taken for a recorded one.
"""
import dataclasses
import random

HALF = 1 << 15
SHARED, RACED = -1, -2


def make_data():
    chosen = random.Random(7)
    even = bytes(byte & 254 for byte in chosen.randbytes(HALF))
    return even + bytes(byte | 1 for byte in chosen.randbytes(HALF))


DATA = make_data()


@dataclasses.dataclass
class Pool:
    """A mapping of a file from its `skew`-th byte on; the mapping's beginning is that of a page.

    `flat` is the place of its first byte. `base` is the number of the first pool with the same file.
    """

    length: int
    skew: int
    flat: int
    base: int


@dataclasses.dataclass
class Program:
    """The operations of thread 0 are those of main. `owners` says for each aligned word of a watched pool who stores there.

    One that `closes_early` ends its trace while its threads go on. Of one that `tells` the recorder says on standard error that not
    all is in the trace, and the close answers -1. Children store to the pools `for_children`, and nobody else does.
    """

    seed: int
    line_size: int
    pools: list = dataclasses.field(default_factory=list)
    threads: list = dataclasses.field(default_factory=list)
    watched: bool = False
    ending: tuple = ("close",)
    owners: dict = dataclasses.field(default_factory=dict)
    closes_early: bool = False
    tells: bool = False
    for_children: tuple = ()

    def script(self, folder):
        """The program's text for the interpreter; its files are in the folder."""
        count, name = len(self.threads), folder / str(self.seed)
        lines = [f"program {self.line_size} {len(self.pools)} {count} {name}.trace {name}.log"]
        lines += [f"pool {pool.length} {pool.skew} {name}.pool{pool.base}" for pool in self.pools]
        for operations in self.threads:
            lines.append(f"thread {len(operations)}")
            lines += [" ".join(map(str, operation)) for operation in operations]
        return "".join(line + "\n" for line in lines)

    def goes_on(self):
        """Whether the process lives on after it, and says nothing."""
        return self.ending == ("close",) and not self.tells

    def flat_end(self):
        return max(pool.flat + pool.length for pool in self.pools)
