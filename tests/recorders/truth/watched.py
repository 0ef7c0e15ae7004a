"""The words of a watched pool that threads store to plainly, and what the trace may say of them.

A look of the recorder is a call that reads a word at some moment between its two tickets. The value that the trace has for the word
after the look must be one that stood there at such a moment, and values of a word that one thread owns come in their order.
"""
from effects import NEVER, PLAIN, Refused, looked_at, stored
from programs import DATA, RACED


class Word:
    """The values that stood in a word, in order of its owner, or of no order where threads race. The first is that of the start."""

    def __init__(self, place, value):
        self.place = place
        self.values = [value]
        self.begun = [0]
        self.ended = [0]
        self.stores = [None]
        self.deadlines = []
        self.now = 0
        self.deadline = NEVER

    def add(self, done, value):
        self.values.append(value)
        self.begun.append(done.begun)
        self.ended.append(done.ended)
        self.stores.append(done)

    def seal(self):
        """For each value when it was surely gone: when a store had ended that began after its own had ended."""
        raise NotImplementedError

    def choices(self, value):
        raise NotImplementedError

    def look(self, begun, ended):
        """The value that the trace has must stand there at some moment of a look."""
        for choice in self.choices(self.values[self.now]):
            if self.begun[choice] < ended and self.deadlines[choice] > begun:
                self.choose(choice)
                return True
        return False

    def notice(self, value, begun, ended):
        """A plain store was noticed."""
        for choice in self.choices(value):
            plain = choice != self.now and self.stores[choice].word in PLAIN
            if plain and self.begun[choice] < ended and self.deadlines[choice] > begun:
                self.choose(choice)
                return
        raise Refused(f"{value.hex()} did not stand in the word at place {self.place} between {begun} and {ended}")

    def record(self, value, done):
        """The owner's recorded store comes in the trace."""
        choice = next(at for at, store in enumerate(self.stores) if store is done)
        if choice <= self.now or self.values[choice] != value:
            raise Refused(f"{done} makes {value.hex()} of the word at place {self.place}, not {self.values[choice].hex()}")
        self.choose(choice)

    def choose(self, choice):
        self.now = choice
        self.deadline = self.deadlines[choice]


class OwnedWord(Word):
    def seal(self):
        self.deadlines = [*self.ended[1:], NEVER]
        self.deadline = self.deadlines[0]

    def choices(self, value):
        return [at for at in range(self.now, len(self.values)) if self.values[at] == value]


class RacedWord(Word):
    """Each store has another value, so each value comes once."""

    def seal(self):
        count = len(self.values)
        for at in range(count):
            after = [self.ended[other] for other in range(count) if self.begun[other] > self.ended[at]]
            self.deadlines.append(min(after, default=NEVER))
        self.deadline = self.deadlines[0]
        self.gone = set()

    def choices(self, value):
        return [at for at, other in enumerate(self.values) if other == value and at not in self.gone]

    def choose(self, choice):
        if choice != self.now:
            self.gone.add(self.now)
        super().choose(choice)


class Watched:
    """All words of a program's pools that have plain stores."""

    def __init__(self, program, space, logs, memory):
        self.space = space
        self.words = {}
        self.by_line = {}
        for place, owner in program.owners.items():
            if owner >= 0 or owner == RACED:
                make = RacedWord if owner == RACED else OwnedWord
                self.words[place] = make(place, bytes(memory[place : place + 8]))
        for log in logs:
            for done in (one for done in log for one in done.inside or (done,)):
                if done.word in (*PLAIN, "store", "copy", "move", "fill", "stream"):
                    self.add(done, memory)
        for word in self.words.values():
            word.seal()
            address = space.address_of_flat(word.place)
            self.by_line.setdefault(address - address % space.line_size, []).append(word)
        self.all = list(self.words.values())

    def add(self, done, memory):
        """Adds what an operation stored to the words that it reaches."""
        first = self.space.flat(*done.operation[1:3])
        length = done.operation[3]
        data = DATA[done.operation[4] : done.operation[4] + length] if done.word in PLAIN else stored(self.space, done, memory)
        for place in self.places(first, length):
            word = self.words.get(place)
            if word is not None:
                value = bytearray(word.values[-1])
                for at in range(max(first, place), min(first + length, place + 8)):
                    value[at - place] = data[at - first]
                word.add(done, bytes(value))

    @staticmethod
    def places(first, length):
        """The places of the aligned words of a range."""
        return range(first - first % 8, first + length, 8)

    def notice(self, first, length, memory, window):
        """A noticed store, which memory has already."""
        place = self.places(first, length)[0]
        if place not in self.words:
            raise Refused(f"a store was noticed at place {first}, where all stores are recorded")
        self.words[place].notice(bytes(memory[place : place + 8]), *window)

    def record(self, first, length, memory, done):
        """A recorded store, which memory has already."""
        for place in self.places(first, length):
            if place in self.words:
                self.words[place].record(bytes(memory[place : place + 8]), done)

    def look(self, done):
        """What the operation had to look at has a value of its time."""
        lines = looked_at(self.space, done.operation)
        words = self.all if lines is None else [word for line in lines for word in self.by_line.get(line, ())]
        for word in words:
            if word.deadline <= done.begun and not word.look(done.begun, done.ended):
                raise Refused(f"{done}: in the trace the word at place {word.place} then has a value that was gone")

    def pass_window(self, window):
        """A closed window is over: of what was stored in it the trace knows the last."""
        inside = {id(done) for done in window.inside}
        for word in self.all:
            stores = [at for at, store in enumerate(word.stores) if id(store) in inside]
            if stores:
                word.choose(stores[-1])

    def last_look(self, closing, dies_at):
        """The look that ends the trace. Answers the places that threads stored to after it began."""
        begun = min([dies_at, *(done.begun for done in closing)])
        for word in self.all:
            if word.deadline <= begun and not word.look(begun, NEVER):
                raise Refused(f"at its end the trace has an old value of the word at place {word.place}")
        later = [word.place for word in self.all if max(word.ended) > begun]
        return {place + at for place in later for at in range(8)}

    def all_places(self):
        return {place + at for place in self.words for at in range(8)}
