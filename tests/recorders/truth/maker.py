"""Makes the random operations of one program. Each thread begins with an event that no other begins with: so its number is told."""
import random

from programs import HALF, Pool, Program

LINE_SIZES = (32, 64, 64, 64, 128, 256)
STORE_SIZES = (1, 2, 3, 4, 8, 24, 100)
ATOMIC_SIZES = (1, 2, 4, 8, 16)
FETCHES = ("add", "sub", "and", "or", "xor")
APART = 1 << 14


class Maker:
    """`mix` are the chances of an operation to be a store, flush, fence, claim or load; else a thread waits a little."""

    mix = (0.55, 0.18, 0.12, 0.04, 0.08)
    atomics = 0.3
    lengths = (8, 8, 16, 64, 300, 300, 6000)

    def __init__(self, seed):
        self.random = random.Random(seed)
        self.program = Program(seed, self.random.choice(LINE_SIZES))
        self.line_size = self.program.line_size
        self.pools = self.program.pools
        self.usable = []
        self.begun = set()
        for _ in range(self.random.choice((1, 1, 1, 2, 3))):
            self.add_pool()
        self.hot = [self.aligned(size) for size in ATOMIC_SIZES for _ in range(2)]

    # Pools and places

    def add_pool(self):
        length = self.random.choice((300, 1000, 4096, 9000)) + self.random.randrange(200)
        skew = self.random.choice((0, 0, 8, self.random.randrange(512)))
        number = len(self.pools)
        self.pools.append(Pool(length, skew, number * APART + skew % 256, number))
        self.usable.append(number)
        return number

    def add_mapping(self, base, longer):
        """Another mapping of a pool's file: a part of it, or with it bytes behind its end."""
        pool = self.pools[base]
        skip = self.random.choice((0, 0, self.random.randrange(pool.length // 2)))
        length = self.random.randrange(64, pool.length - skip + 1) if not longer else pool.length - skip + self.random.randrange(1, 3000)
        self.pools.append(Pool(length, pool.skew + skip, pool.flat + skip, base))
        return len(self.pools) - 1

    def source(self, length):
        """Where so many even bytes stand in the data."""
        return self.random.randrange(HALF - length)

    def length(self):
        return self.random.randrange(self.random.choice(self.lengths) + 1)

    def place(self, pool, length):
        """A place with so many bytes behind it; often near the beginning or the end of a line."""
        last = self.pools[pool].length - length
        at = self.random.randrange(last + 1)
        if self.random.random() < 0.3:
            at = at - (at + self.pools[pool].skew) % self.line_size + self.random.randrange(-8, 9)
        return min(max(at, 0), last)

    def range(self):
        pool = self.random.choice(self.usable)
        length = min(self.length(), self.pools[pool].length)
        return pool, self.place(pool, length), length

    def aligned(self, size):
        pool = self.random.choice(self.usable)
        first = -self.pools[pool].skew % size
        return pool, first + size * self.random.randrange((self.pools[pool].length - first) // size), size

    # Operations

    def copy(self, pool, at, length):
        """A store of even bytes to the range."""
        word = self.random.choice(("copy", "move", "stream"))
        if length in STORE_SIZES and self.random.random() < 0.6:
            word = "store"
        if self.random.random() < 0.2:
            return ("fill", pool, at, length, self.random.randrange(0, 512, 2))
        return (word, pool, at, length, self.source(length))

    def store(self, _thread):
        chosen = self.random.random()
        if chosen < self.atomics:
            return self.atomic(*self.random.choice(self.hot))
        if chosen < self.atomics + 0.15:
            return self.within()
        return self.copy(*self.range())

    def within(self):
        """A copy from a pool to a pool; often the two ranges overlap, by one mapping."""
        pool, at, length = self.range()
        other = self.random.choice(self.usable)
        if self.pools[other].base == self.pools[pool].base:
            other = pool
        length = min(length, self.pools[other].length)
        place = self.place(other, length)
        if other == pool and self.random.random() < 0.7:
            place = min(max(at + self.random.randrange(-12, 13), 0), self.pools[pool].length - length)
        return ("within", pool, at, length, other, place)

    def atomic(self, pool, at, size):
        chosen = self.random
        word = chosen.choice(("exchange", "compare", *(FETCHES if size <= 8 else ())))
        mode = (self.source(size), chosen.choice((0, 1, 1, 1))) if word == "compare" else ()
        return (word, pool, at, size, self.source(size), *mode)

    def flush(self):
        return (self.random.choice(("clwb", "clwb", "clflushopt", "clflush", "persist")), *self.range())

    def claim(self):
        if self.random.random() < 0.6:
            return ("is_persist", *self.range())
        return ("is_ordered", *self.range(), *self.range())

    def read(self):
        pool, at, size = self.random.choice((*self.hot, self.aligned(self.random.choice((1, 2, 4, 8)))))
        return ("read", pool, at, min(size, 8))

    def wait(self):
        return self.random.choice((("yield",), ("pause", self.random.randrange(300))))

    def operation(self, thread):
        chosen = self.random.random()
        for chance, make in zip(self.mix, (lambda: self.store(thread), self.flush, self.fence, self.claim, self.read)):
            chosen -= chance
            if chosen < 0:
                return make()
        return self.wait()

    def fence(self):
        return (self.random.choice(("sfence", "sfence", "mfence")),)

    def operations(self, thread, count):
        """So many, and pauses between them: how many differs from program to program."""
        pauses = self.random.choice((0, 0.1, 0.5))
        made = []
        for _ in range(count):
            made.append(self.operation(thread))
            if self.random.random() < pauses:
                made.append(self.wait())
        return made

    def beginning(self, thread):
        """An operation with a first event that no other thread begins with."""
        while True:
            chosen, pool = self.random.randrange(4), self.usable[0]
            if chosen == 0:
                made = self.fence()
            elif chosen == 1 and thread < 200:
                made = ("is_persist", pool, self.place(pool, thread + 1), thread + 1)
            elif chosen == 2 or self.program.watched:
                line = self.line_size * thread - self.pools[pool].skew % self.line_size
                made = (self.random.choice(("clwb", "clflushopt")), pool, max(line, 0), 1)
            else:
                made = ("copy", *self.aligned(8)[:2], 8, self.source(8))
            if made not in self.begun and (len(made) < 4 or made[2] + made[3] <= self.pools[pool].length):
                self.begun.add(made)
                return made
