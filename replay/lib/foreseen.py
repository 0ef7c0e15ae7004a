"""What images will hold, as far as it tells equal ones apart. The images themselves are written by pmtrim."""
import hashlib

from pools import pool_at

MODULUS = 1 << 256


class Line:
    """A cache line: what it holds with so many of its stores persisted, from `first` stores on."""

    def __init__(self, address, before):
        self.address = address
        self.first = 0
        self.contents = [before]
        self.before = before

    @property
    def count(self):
        return self.first + len(self.contents) - 1

    def add(self, address, written):
        """A store, of which the line has all that its pool has."""
        content = bytearray(self.contents[-1])
        content[address - self.address : address - self.address + len(written)] = written
        self.contents.append(bytes(content))

    def forget_below(self, front):
        """No crash loses the first `front` stores any more."""
        del self.contents[: front - self.first]
        self.first = front

    def content(self, stores):
        return self.contents[stores - self.first]

    def weight(self, stores):
        """A number for what the line holds: 0 where that is what it held before the trace."""
        content = self.content(stores)
        if content == self.before:
            return 0
        return int.from_bytes(hashlib.blake2b(self.address.to_bytes(8, "big") + content, digest_size=32).digest(), "big")


class Memory:
    """The lines that are stored to, as of a place, and the sums of their weights: equal sums stand for equal images."""

    def __init__(self, trace, pools):
        self.trace = trace
        self.pools = pools
        self.place = 0
        self.lines = {}
        self.open = {}  # the front and the count of each line where they differ
        self.of_fronts = self.of_counts = 0

    def go_to(self, place):
        """Takes the stores up to a place."""
        for number in range(self.place + 1, place + 1):
            store = self.trace.store(number)
            if store is not None:
                self._take(*store)
        self.place = place

    def _take(self, address, written):
        number = address // self.trace.line_size
        line = self.lines.get(number)
        if line is None:
            line = self.lines[number] = Line(*self._line_before(address, number))
        before = line.weight(line.count)
        line.add(address, written)
        self.of_counts = (self.of_counts + line.weight(line.count) - before) % MODULUS
        self.open[number] = (line.first, line.count)

    def _line_before(self, address, number):
        return pool_at(self.pools, address).read(number * self.trace.line_size, self.trace.line_size)

    def set_fronts(self, fronts):
        """Takes the fronts of lines as of this place."""
        for number in list(self.open):
            line, front = self.lines[number], fronts[number]
            self.of_fronts = (self.of_fronts + line.weight(front) - line.weight(line.first)) % MODULUS if front > line.first else self.of_fronts
            if front > line.first:
                line.forget_below(front)
            self.open[number] = (front, line.count)
            if front == line.count:
                del self.open[number]

    def sum_of(self, crash):
        """The number that stands for the image of a crash at this place."""
        total = self.of_counts if crash.is_all else self.of_fronts
        for number, stores in crash.lines:
            line, bounds = self.lines[number], self.open[number]
            total += line.weight(stores) - line.weight(bounds[1] if crash.is_all else bounds[0])
        return total % MODULUS

    def open_contents(self, crash):
        """What the lines that are not safe hold after a crash at this place: their addresses and bytes."""
        return [(self.lines[number].address, self.lines[number].content(stores)) for number, stores in crash.persisted(self.open).items()]

    def stores_back(self, crash):
        """The numbers of the stores before this place, from the last one back to the first one that a crash can lose, or back to one that this
        crash keeps: those that it keeps, and those that it loses. Each open line's stores are those of the trace, in their order."""
        persisted = crash.persisted(self.open)
        ranks = {number: count for number, (_, count) in self.open.items()}
        kept, lost, number = [], [], self.place
        while number > 0 and (ranks or not kept):
            store = self.trace.store(number)
            line = store[0] // self.trace.line_size if store else None
            if line in ranks:
                (lost if ranks[line] > persisted[line] else kept).append(number)
                ranks[line] -= 1
                if ranks[line] == self.open[line][0]:
                    del ranks[line]
            elif store:
                kept.append(number)
            number -= 1
        return kept, lost
