"""Decides whether a trace is a true record of a run of a random program, whose own log says what it did.

- The events of each operation stand together, and those of a thread are those of its operations in their order.
- An operation that had ended before another began has its events before the other's.
- What an atomic operation answered stood in memory, as the trace has it, just before its own events; what a plain load saw stood there
  at a moment of the load.
- At the end memory is what the trace makes of it.
- Numbers of threads are given by first event; one is given again only when its thread had ended with no flush open.
- In a watched pool, see watched.py.

Where the trace was closed or the process died while threads went on, operations that had not ended by then may be missing; where it was
killed, the last one of the trace may be cut short.
"""
from effects import FENCES, NEVER, RECORDED, Refused, Space, events_of, is_silent, read_trace, stored
from observations import Observations
from watched import Watched
from window import Closed, fold

MAY_LOOK = ("open", "watch", "close", "exit", "quick_exit")


class Actor:
    """A thread of the program, and its operations that leave events, of which the first ones are found in the trace."""

    def __init__(self, thread, log, sure):
        self.thread = thread
        self.log = log
        self.loud = [(at, done) for at, done in enumerate(log) if done.word in RECORDED and not is_silent(done)]
        self.ended = self.end_of(log)
        self.must = sum(1 for _, done in self.loud if sure(done))
        self.found = 0
        self.groups = []
        self.open_flush = False

    @staticmethod
    def end_of(log):
        """A ticket before the thread's end. A cancelled thread ends where it looked whether it is."""
        if not log:
            return 0
        last = log[-1]
        return last.begun if last.word in ("test_cancel", "thread_exit") else last.ended

    def next(self):
        return self.loud[self.found][1] if self.found < len(self.loud) else None

    def silent_before(self):
        """The silent calls since the last operation that was found; each may have looked at a watched pool."""
        first = self.loud[self.found - 1][0] + 1 if self.found else 0
        last = self.loud[self.found][0] if self.found < len(self.loud) else len(self.log)
        return [done for done in self.log[first:last] if done.word in RECORDED or done.word in MAY_LOOK]

    def take(self, group):
        done = self.next()
        if done.word in FENCES or done.word == "persist":
            self.open_flush = False
        elif done.word in ("clwb", "clflushopt", "stream"):
            self.open_flush = True
        elif done.word == "window":
            self.open_flush = None
        self.groups.append(group)
        self.found += 1


class Judge:
    def __init__(self, program, logs, text, memory):
        self.program = program
        self.space = Space(program)
        self.events = read_trace(text, program.line_size)
        self.first_store = next((at for at, (_, event) in enumerate(self.events) if event.startswith("store ")), NEVER)
        self.last_memory = memory
        self.memory = bytearray(program.flat_end())
        self.dies_at = death_of(program, logs)
        logs = [fold(log) for log in logs]
        self.actors = [Actor(thread, log, self.is_sure) for thread, log in enumerate(logs)]
        self.numbers = {}
        self.groups = []
        self.latest_begin = 0
        self.may_cut = program.ending[0] in ("_exit", "signal", "abort", "fault")
        self.cut = False
        self.noticed = set()
        self.firsts = {self.first_event(actor): actor for actor in self.actors if actor.loud}
        self.windows = [done for done in logs[0] if done.word == "window"]
        self.watched = Watched(program, self.space, logs, self.memory) if program.watched else None
        self.observations = Observations(self.space, logs)

    def is_sure(self, done):
        """Whether the operation had ended before the process began to die."""
        return done.ended < self.dies_at

    def first_event(self, actor):
        done = actor.next()
        return events_of(self.space, done.operation, stored(self.space, done, self.memory))[0]

    def judge(self):
        """Raises Refused where the trace can't be true."""
        at = 0
        while at < len(self.events):
            self.settle_window(at)
            at = self.follow(at)
        self.settle_window(at)
        for actor in self.actors:
            if actor.found < actor.must:
                raise Refused(f"thread {actor.thread}: {actor.next()} is not in the trace")
        self.finish()

    # Operations

    def follow(self, at):
        """Takes the events of the operation whose first event, or what it noticed, stands at a place of the trace."""
        number = self.events[at][0]
        actor = self.numbers.get(number)
        if actor is None or actor.next() is None:
            first = self.first_own(at, number, self.firsts)
            if first is None:
                return self.follow_silent(at, number, actor)
            actor = self.begin(number, self.firsts.pop(self.events[first][1]))
        done = actor.next()
        if done.word == "window":
            return self.take_window(at, number, actor)
        try:
            data = stored(self.space, done, self.memory)
        except Refused:
            # memory may be of before the operation: what stands here may be what a silent call noticed
            if self.watched and self.is_store(at, number) and actor.silent_before():
                return self.follow_silent(at, number, actor)
            raise
        events = events_of(self.space, done.operation, data)
        if self.watched and self.first_own(at, number, events[:1]) is None:
            return self.follow_silent(at, number, actor)
        return self.take(at, number, actor, events, data)

    def begin(self, number, actor):
        """A thread gets a number."""
        before = self.numbers.get(number)
        if before is None and number != len(self.numbers):
            raise Refused(f"the number {number} comes before {len(self.numbers)}")
        if before is not None and (before.open_flush or before.ended > actor.next().ended):
            raise Refused(f"the number {number} was given again too early")
        self.numbers[number] = actor
        return actor

    def first_own(self, at, number, wanted):
        """Where the first of these events stands, with nothing but what the thread noticed before it."""
        while at < len(self.events) and self.events[at][0] == number:
            if self.events[at][1] in wanted:
                return at
            if not self.watched or not self.events[at][1].startswith("store "):
                return None
            at += 1
        return None

    def take(self, at, number, actor, events, data):
        """Takes an operation with these events, which stores these bytes."""
        done, start = actor.next(), at
        at, found = self.match(at, number, actor, events)
        self.order(done)
        if self.watched and not self.cut:
            self.watched.look(done)
        if data is not None:
            kept = sum(len(event.split(" ")[2]) // 2 for event in events[:found] if event.startswith("store "))
            self.store(done, data, kept)
        if not self.cut:
            self.add_group(actor, start, at)
        return at

    def add_group(self, actor, start, end):
        done = actor.next()
        actor.take(len(self.groups))
        self.groups.append((done.begun, done.ended, start, end))

    def match(self, at, number, actor, events):
        """Matches the events of an operation one by one, and says where they end and how many there are. Before each, what was
        noticed may stand."""
        done = actor.next()
        window = (min([done.begun, *(other.begun for other in actor.silent_before())]), done.ended)
        for found, event in enumerate(events):
            while self.watched and at < len(self.events) and self.events[at] != (number, event) and self.is_store(at, number):
                self.notice(at, window)
                at += 1
            if at == len(self.events) and self.may_cut and not self.is_sure(done):
                self.cut = True
                return at, found
            if at == len(self.events) or self.events[at] != (number, event):
                there = self.events[at] if at < len(self.events) else "the end of the trace"
                raise Refused(f"{there} stands where thread {actor.thread} has {event} of {done}")
            at += 1
        return at, len(events)

    # Closed windows

    def settle_window(self, at):
        """A closed window that leaves nothing in the trace comes once all that ended before it was found."""
        main = self.actors[0]
        while self.windows and main.next() is self.windows[0]:
            if any(actor.next() and actor.next().ended < main.next().begun for actor in self.actors[1:]):
                return
            closed = self.closed(main.next(), at)
            if closed.events:
                return
            self.enter_window(main, closed, at, at)

    def closed(self, window, at):
        """A closed window whose events stand here, or would."""
        return Closed(self.space, window, self.memory, self.first_store < at)

    def take_window(self, at, number, actor):
        closed = self.closed(actor.next(), at)
        end, _ = self.match(at, number, actor, closed.events)
        self.order(actor.next())
        self.enter_window(actor, closed, at, end)
        return end

    def enter_window(self, main, closed, start, end):
        for first, before, after in closed.changes:
            self.observations.change(len(self.groups), first, before, after)
        self.memory = closed.memory
        if self.watched:
            self.watched.pass_window(self.windows[0])
        self.windows.pop(0)
        self.add_group(main, start, end)

    def is_store(self, at, number):
        return self.events[at][0] == number and self.events[at][1].startswith("store ")

    def order(self, done):
        if done.ended < self.latest_begin:
            raise Refused(f"{done} had ended before an operation began whose events stand before its own")
        self.latest_begin = max(self.latest_begin, done.begun)

    def store(self, done, data, length):
        first = self.space.flat(*done.operation[1:3])
        before = bytes(self.memory[first : first + length])
        self.memory[first : first + length] = data[:length]
        self.observations.change(len(self.groups), first, before, data[:length])
        if self.watched:
            self.watched.record(first, length, self.memory, done)

    # What was noticed

    def notice(self, at, window):
        self.noticed.add(at)
        _, address, text = self.events[at][1].split(" ")
        data = bytes.fromhex(text)
        first = self.space.flat_of_address(int(address, 16), len(data))
        self.memory[first : first + len(data)] = data
        self.watched.notice(first, len(data), self.memory, window)

    def follow_silent(self, at, number, actor):
        """What a call noticed that has no events of its own; at the end this is the close."""
        end = at
        while self.watched and end < len(self.events) and self.is_store(end, number):
            end += 1
        calls = actor.silent_before() if actor else []
        if end == len(self.events):
            calls = [*calls, *self.closing()]
        if end == at or not calls:
            raise Refused(f"{self.events[at]} stands where no thread has it")
        window = (min(done.begun for done in calls), max(done.ended for done in calls))
        for place in range(at, end):
            self.notice(place, window)
        return end

    def closing(self):
        """The calls that may have ended the trace."""
        ends = [done for actor in self.actors for done in actor.log if done.word in ("close", "exit", "quick_exit", "thread_exit")]
        return ends or [actor.log[-1] for actor in self.actors[:1]]

    # The end

    def finish(self):
        if not self.dies():
            for actor in self.actors:
                if actor.loud and actor.loud[-1][1].ended == NEVER and actor.loud[-1][1].word != "window":
                    raise Refused(f"thread {actor.thread}: {actor.loud[-1][1]} never returned")
        missing = self.missing_places()
        if self.watched:
            missing.update(self.watched.last_look(self.closing(), self.dies_at) if self.is_closed() else self.watched.all_places())
        self.compare_memory(missing)
        self.observations.check(self.actors, self.groups, missing)

    def compare_memory(self, missing):
        """Of a process that took its memory with it there is none to compare with."""
        if self.last_memory is None:
            return
        differ = [at for at, pair in enumerate(zip(self.memory, self.last_memory)) if pair[0] != pair[1] and at not in missing]
        if differ:
            raise Refused(f"the trace makes another memory, first at place {differ[0]}")

    def is_closed(self):
        return self.program.ending[0] in ("close", "return", "thread_exit", "exit", "quick_exit")

    def dies(self):
        return self.program.ending[0] not in ("close", "return", "thread_exit")

    def missing_places(self):
        """All bytes that operations reach which may be missing in the trace, and are."""
        pools = [self.program.pools[number] for number in self.program.for_children]
        places = {place for pool in pools for place in range(pool.flat, pool.flat + pool.length)}
        for actor in self.actors:
            for _, done in actor.loud[actor.found :]:
                if len(done.operation) > 3:
                    first = self.space.flat(*done.operation[1:3])
                    places.update(range(first, first + done.operation[3]))
        return places


def death_of(program, logs):
    """The ticket of the moment from which on operations may be missing."""
    if program.closes_early:
        return min((done.begun for done in logs[0] if done.word == "close"), default=NEVER)
    if program.ending[0] in ("exit", "quick_exit", "abort", "fault", "signal") and program.ending != ("signal", 9):
        return min((done.begun for log in logs for done in log if done.word == program.ending[0]), default=NEVER)
    return NEVER
