"""The shapes of random programs: what main does before, beside and after its threads, and how the program ends."""
import random

from maker import Maker
from programs import HALF, RACED, SHARED

CLOSE = ("close",)
ENDINGS = (
    ("return",),
    ("exit", 3),
    ("quick_exit", 5),
    ("_exit", 4),
    ("abort",),
    ("signal", 9),
    ("signal", 9),
    ("signal", 15),
    ("fault", 8),
    ("thread_exit",),
)


class Threads(Maker):
    """Threads store to the same places by the recorder, and main stores beside them."""

    workers = (0, 1, 2, 2, 3, 4, 6)
    counts = (1, 5, 20, 20, 60)
    closes = 0.7
    endings = ENDINGS
    ends_in_threads = True
    closes_early = 0.1

    def __init__(self, seed):
        super().__init__(seed)
        self.count = self.random.choice(self.workers)

    def worker(self, thread):
        return [("wait",), self.beginning(thread), *self.operations(thread, self.random.choice(self.counts))]

    def opening(self):
        return [("open", pool) for pool in self.usable]

    def before(self):
        """What main does while it is alone, before its threads and after them."""
        return []

    def after(self):
        return self.operations(0, self.random.randrange(5))

    def beside(self):
        return self.operations(0, self.random.randrange(20))

    def make(self):
        chosen, program = self.random, self.program
        numbers = range(1, self.count + 1)
        workers = [self.worker(thread) for thread in numbers]
        opening, before = self.opening(), self.before()
        acts = bool(before) or chosen.random() < 0.8
        begin = [self.beginning(0)] if acts else []
        start = [*((("spawn", thread)) for thread in numbers), ("go",)]
        main = [*opening, *begin, *before, *start, *(self.beside() if acts else ())]
        main += [*((("join", thread)) for thread in numbers), *(self.after() if acts else ())]
        program.threads = [main, *workers]
        self.end(main, workers)
        return program

    def end(self, main, workers):
        """Puts the end of the program behind its operations, or in their midst."""
        chosen = self.random
        if chosen.random() < self.closes:
            self.close(main)
            return
        ending = chosen.choice(self.endings)
        self.program.ending = ending
        if ending == ("return",):
            return
        inside = chosen.choice([main, *workers]) if ending[0] != "thread_exit" and self.ends_in_threads else main
        first = main.index(("go",)) + 1 if inside is main else 1
        inside.insert(chosen.choice((len(inside), chosen.randrange(first, len(inside) + 1))), ending)


    def close(self, main):
        """Behind all, or before the threads are joined; then main does no more."""
        joins = [at for at, operation in enumerate(main) if operation[0] == "join"]
        if joins and self.random.random() < self.closes_early:
            self.program.closes_early = True
            main[joins[0] :] = [CLOSE, *(main[at] for at in joins)]
        else:
            main.append(CLOSE)


class Storm(Threads):
    """Many atomic operations and loads of the same few places."""

    mix = (0.7, 0.05, 0.05, 0.0, 0.2)
    atomics = 0.85
    workers = (2, 3, 4)
    counts = (100, 150)

    def __init__(self, seed):
        super().__init__(seed)
        self.hot = self.random.sample(self.hot, 3)


class Large(Threads):
    """Long copies: a call has thousands of events."""

    lengths = (300, 9000, 9000)
    workers = (0, 1, 3)
    counts = (5,)


class Mapped(Threads):
    """Files are mapped more than once, longer, and again; some mappings the recorder finds by itself."""

    def opening(self):
        bases, opened = list(self.usable), super().opening()
        for base in bases:
            if self.random.random() < 0.7:
                longer = self.random.random() < 0.5
                number = self.add_mapping(base, longer)
                if longer or self.random.random() < 0.5:
                    opened.append(("open", number))
                self.usable.append(number)
        return opened

    def make(self):
        self.opened = self.opening()
        self.opening = lambda: self.opened
        return super().make()

    def before(self):
        """A pool is left, mapped elsewhere, and recorded again."""
        pool = self.random.choice([number for number in self.usable if self.pools[number].base == number])
        others = [number for number in self.usable if self.pools[number].base == pool]
        leave = [("forget", number) for number in others]
        return [*self.operations(0, 3), *leave, ("remap", pool), *(("open", number) for number in others), *self.operations(0, 3)]


class Windowed(Threads):
    """Main is alone while the window is closed."""

    closes_early = 0

    def claim(self):
        """Claims of order about what was stored before the window are set aside: parts.c tries them."""
        return ("is_persist", *self.range())
    def before(self):
        return [*self.operations(0, self.random.randrange(4)), *self.closed(), *self.operations(0, self.random.randrange(4))]

    def after(self):
        return [*self.before(), *self.before()]

    def closed(self):
        return [("stop",), *self.operations(0, self.random.randrange(1, 12)), ("start",)]


class Requests(Threads):
    """Many short threads, some at one time: numbers are given again."""

    closes_early = 0
    workers = (300, 400)
    counts = (1, 2, 3)
    most_at_once = 9

    def worker(self, thread):
        made = super().worker(thread)[1:]
        return made if self.random.random() < 0.05 else [*made, self.fence()]

    def make(self):
        program = super().make()
        main, waiting, numbers = program.threads[0], [], range(1, self.count + 1)
        first, last = main.index(("go",)), len(main)
        made = [operation for operation in main[:first] if operation[0] != "spawn"]
        for thread in numbers:
            made.append(("spawn", thread))
            waiting.append(thread)
            if len(waiting) == self.most_at_once:
                made.append(("join", waiting.pop(self.random.randrange(len(waiting)))))
        made += [("join", thread) for thread in waiting]
        program.threads[0] = made + [operation for operation in main[first:last] if operation[0] != "join"]
        return program


class Cancelled(Threads):
    """Main cancels threads at any time."""

    workers = (1, 2, 4)
    counts = (20, 60, 150)
    ends_in_threads = False

    def worker(self, thread):
        made = []
        for operation in super().worker(thread):
            made += [operation, ("test_cancel",)] if self.random.random() < 0.3 else [operation]
        return made

    def beside(self):
        made = super().beside()
        for thread in range(1, self.count + 1):
            made.insert(self.random.randrange(len(made) + 1), ("cancel", thread))
        return made


class Forked(Threads):
    """Children do what their parent did not tell the recorder of, in a pool of their own."""

    closes_early = 0
    def __init__(self, seed):
        super().__init__(seed)
        if self.random.random() < 0.5:
            self.children = self.add_pool()
            self.usable.pop()
            self.program.tells = True
            self.program.for_children = (self.children,)

    def opening(self):
        return [*super().opening(), *(("open", pool) for pool in self.program.for_children)]

    def child(self):
        done = []
        if self.program.tells:
            pool = self.children
            done = [self.copy(pool, self.place(pool, 8), 8) for _ in range(self.random.randrange(1, 4))]
            done += [("clwb", pool, 0, 8), ("sfence",)]
        return [("fork", len(done), self.random.randrange(4)), *done]

    def before(self):
        return [*self.operations(0, 2), *self.child()]

    def beside(self):
        return [*super().beside(), *self.child(), *self.operations(0, 3)]

    def end(self, main, workers):
        if self.program.tells:
            main.append(CLOSE)
        else:
            super().end(main, workers)


class Watched(Threads):
    """Threads store plainly too. Each run of words has an owner: a thread, all by the recorder, or all by plain stores of words."""

    mix = (0.6, 0.16, 0.12, 0.06, 0.0)

    def __init__(self, seed):
        super().__init__(seed)
        self.program.watched = True
        self.runs = {}
        for pool in self.usable:
            self.share_out(pool)
        self.mappings = [self.add_mapping(pool, False) for pool in self.usable if self.random.random() < 0.3]

    def share_out(self, pool):
        at, end = -self.pools[pool].skew % 8, self.pools[pool].length
        while at + 8 <= end:
            words = min(self.random.randrange(1, 12), (end - at) // 8)
            owner = self.random.choice((SHARED, RACED, *range(self.count + 1), *range(self.count + 1)))
            self.runs.setdefault(owner, []).append((pool, at, 8 * words))
            first = self.pools[pool].flat + at
            self.program.owners.update((word, owner) for word in range(first, first + 8 * words, 8))
            at += 8 * words

    def opening(self):
        opened = super().opening()
        opened += [("open", number) for number in self.mappings]
        later = self.random.randrange(len(opened)) + 1
        return [*opened[:later], ("watch",), *opened[later:]]

    def part_of(self, owner):
        """A part of a run of this owner, if it has one."""
        if owner not in self.runs:
            return None
        pool, first, size = self.random.choice(self.runs[owner])
        length = min(self.random.choice((1, 2, 4, 8, 8, 20, size)), size)
        return *self.through_a_mapping(pool, first + self.random.randrange(size - length + 1), length), length

    def through_a_mapping(self, pool, at, length):
        """The place by any mapping that has it."""
        places = [(pool, at)]
        for number in self.mappings:
            mapping = self.pools[number]
            place = self.pools[pool].flat + at - mapping.flat
            if mapping.base == pool and 0 <= place <= mapping.length - length:
                places.append((number, place))
        return self.random.choice(places)

    def store(self, thread):
        chosen = self.random
        if chosen.random() < 0.6:
            return self.plain_store(thread)
        part = self.part_of(chosen.choice((SHARED, thread)))
        if part is None:
            return self.fence()
        if SHARED in self.runs and chosen.random() < 0.2:
            pool, first, size = chosen.choice(self.runs[SHARED])
            return self.atomic(pool, first + 8 * chosen.randrange(size // 8), chosen.choice((1, 2, 4, 8)))
        return self.copy(*part)

    def plain_store(self, thread):
        chosen = self.random
        if RACED in self.runs and chosen.random() < 0.3:
            pool, first, size = chosen.choice(self.runs[RACED])
            place = self.through_a_mapping(pool, first + 8 * chosen.randrange(size // 8), 8)
            return ("relaxed", *place, 8, HALF + self.source(8))
        part = self.part_of(thread)
        if part is None:
            return self.wait()
        size = max(size for size in (1, 2, 4, 8) if size <= part[2])
        return ("plain", *part[:2], size, HALF + self.source(size))


class WatchedWindowed(Watched):
    """A watched pool, and closed windows in which main stores plainly too."""

    closes_early = 0

    def claim(self):
        """Claims of order about what was stored before the window are set aside: parts.c tries them."""
        return ("is_persist", *self.range())

    def before(self):
        closed = [("stop",), *self.operations(0, self.random.randrange(1, 12)), ("start",)]
        return [*self.operations(0, self.random.randrange(4)), ("sfence",), *closed, *self.operations(0, self.random.randrange(4))]

    def after(self):
        return [*self.before(), *self.before()]


class Safe(Threads):
    """What the recorders for Rust and Python have calls for: one pool, and an exchange of a word that is compared."""

    closes_early = 0
    workers = (0, 1, 2, 3)
    counts = (5, 20, 40)
    endings = (("return",), ("exit", 3), ("abort",))

    def __init__(self, seed):
        super().__init__(seed)
        del self.pools[1:]
        self.pools[0].skew = self.pools[0].flat = 0
        self.usable = [0]
        self.hot = [self.aligned(8) for _ in range(4)]

    def copy(self, pool, at, length):
        if self.random.random() < 0.2:
            return ("fill", pool, at, length, self.random.randrange(0, 512, 2))
        return ("copy", pool, at, length, self.source(length))

    def atomic(self, pool, at, size):
        return ("compare", pool, at, size, self.source(size), self.source(size), self.random.choice((0, 1, 1, 1)))

    def read(self):
        return ("read", *self.aligned(8))


SHAPES = {Threads: 25, Watched: 31, WatchedWindowed: 4, Storm: 8, Large: 4, Mapped: 8, Windowed: 8, Requests: 1, Cancelled: 6, Forked: 5}


def make_safe_program(seed):
    return Safe(seed).make()


def make_program(seed):
    shape = random.Random(f"shape {seed}").choices(list(SHAPES), list(SHAPES.values()))[0]
    return shape(seed).make()
