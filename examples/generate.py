#!/usr/bin/env python3
"""Writes the three realistic traces of this folder, each with a note: generate.py [FOLDER], this folder if none is named.

A note says what the report must hold, which events are dropped, and why. All of it is said here, at the step that puts the
event into the trace; nothing is read off the program.
"""
import pathlib
import sys

LINE = 64


class Story:
    """A trace that is being written, and what must be found in it."""

    def __init__(self, name, about):
        self.name = name
        self.about = about
        self.events = []
        self.entries = {}
        self.dropped = {}

    def add(self, event):
        """Adds the event, and gives its number."""
        self.events.append(event)
        return len(self.events)

    def store(self, thread, addr, value):
        return self.add(f"store {thread} {addr:#x} {value.to_bytes(8, 'little').hex()}")

    def flush(self, thread, addr):
        return self.add(f"clwb {thread} {addr:#x}")

    def fence(self, thread):
        return self.add(f"sfence {thread}")

    def persist(self, thread, addr, size, verdict, why):
        number = self.add(f"isPersist {thread} {addr:#x} {size}")
        self.must_say(f"persist {number} {verdict}", why)

    def ordered(self, thread, first, size, second, length, verdict, why):
        number = self.add(f"isOrderedBefore {thread} {first:#x} {size} {second:#x} {length}")
        self.must_say(f"ordered {number} {verdict}", why)

    def must_say(self, entry, why):
        """The report holds this entry."""
        self.entries.setdefault(why, []).append(entry)

    def must_drop(self, number, why):
        """The trimmed trace does not have this event."""
        self.dropped.setdefault(why, []).append(str(number))

    def write(self, folder, lines):
        """Writes the trace, which stores to or flushes so many lines, and its note."""
        dropped = sum(map(len, self.dropped.values()))
        note = [f"# {self.name}", "", self.about.strip(), "", "Written by `generate.py`, which says what must be found as it builds the trace.", ""]
        note += ["## Numbers", "", f"Events: `{len(self.events)}`. Lines: `{lines}`. Dropped: `{dropped}`.", ""]
        note += ["## What the report must hold, and nothing else", "", *bullets(self.entries)]
        note += ["## What is dropped, and nothing else", "", *bullets(self.dropped)]
        (folder / f"{self.name}.trace").write_text("pmtrace 1\n" + "".join(event + "\n" for event in self.events))
        (folder / f"{self.name}.md").write_text("\n".join(note))


def bullets(groups):
    """A list of the reasons, each with what it is said of. What passes comes last."""
    lines = []
    for why, members in sorted(groups.items(), key=lambda group: group[1][0].endswith("pass")):
        lines.append(f"- {why}")
        for start in range(0, len(members), 6):
            lines.append("  " + " ".join(f"`{member}`" for member in members[start : start + 6]))
    return lines + [""]


def lines_of(addr, size):
    """The first addresses of the lines of a range."""
    return range(addr // LINE * LINE, addr + size, LINE)


def append_log(folder):
    """The protocol is right; some flushes and fences are paid for without effect."""
    story = Story(
        "append_log",
        """
Thread 0 appends records to a log. A record is a word with its number and one to seven words of payload. The writer
stores the record, flushes its lines and fences; then it stores the new end of the log into the commit word, flushes
that and fences. So nothing is lost and every assertion passes. Three habits cost flushes and fences without effect.
""",
    )
    commit, log = 0x7F2A00000000, 0x7F2A00001000
    end = log
    for record in range(36):
        size = 8 * (2 + record % 7)
        for word in range(size // 8):
            story.store(0, end + 8 * word, 0x1000 * record + word)
        if record % 9 == 4:
            first = story.flush(0, end)
            story.must_drop(first, "the same line is flushed again before the fence, and that flush is enough")
        for line in lines_of(end, size):
            again = story.flush(0, line)
            if record % 9 == 4 and line == end // LINE * LINE:
                story.must_say(f"redundant-flush {again}", "the line is flushed twice by its writer, with no store between")
        story.fence(0)
        if record % 9 == 7:
            empty = story.fence(0)
            story.must_say(f"fence-without-flush {empty}", "the writer fences twice in a row")
            story.must_drop(empty, "the second of two fences in a row has no flush to wait for")
        story.persist(0, end, size, "pass", "the record was flushed and fenced")
        story.store(0, commit, end + size)
        story.ordered(0, end, size, commit, 8, "pass", "the record was fenced before the commit word was stored")
        story.flush(0, commit)
        story.fence(0)
        story.persist(0, commit, 8, "pass", "the commit word was flushed and fenced")
        if record % 12 == 10:
            late = story.flush(0, end)
            story.must_say(f"redundant-flush {late}", "the record's line is flushed again after the commit, when it is safe")
            story.must_drop(late, "the line was safe already")
            story.must_drop(story.fence(0), "its only flush had nothing to save")
        end += size
    story.write(folder, 1 + len(lines_of(log, end - log)))


NODES = 24
FORGOTTEN = (5, 11, 12, 19)
LATE = (8, 16)


def linked_list(folder):
    """Some inserts lack the flush of the new node, some flush it too late."""
    story = Story(
        "linked_list",
        """
Thread 0 inserts nodes of one line each into a linked list: value at offset 0, next at offset 8. A right insert stores
the new node, flushes it and fences, and only then stores the pointer to it, flushes that and fences. Each fourth node
goes behind the one before it, the others to the front. Inserts 5, 11, 12 and 19 forget to flush the node: after a
crash the list can lead to a node that was never saved. Nodes 12 and 20 go behind nodes 11 and 19, and the flush of
that pointer saves those two late; nodes 5 and 12 stay unsaved. Inserts 8 and 16 flush node and pointer together,
after the pointer was stored: all is safe in the end, but a crash between can save the pointer alone.
""",
    )
    base = 0x7F3B00000000
    head = base
    story.store(0, head, 0)
    story.store(0, head + 8, 0)
    story.flush(0, head)
    story.fence(0)
    story.persist(0, head, 16, "pass", "the empty list was flushed and fenced")
    unsaved, behind = {}, {head: 0}
    for insert in range(1, NODES + 1):
        node = base + LINE * insert
        before = base + LINE * (insert - 1) if insert % 4 == 0 else head
        stores = [story.store(0, node, 100 + insert), story.store(0, node + 8, behind[before])]
        behind[node], behind[before] = behind[before], node
        if insert in FORGOTTEN:
            empty = story.fence(0)
            story.must_say(f"fence-without-flush {empty}", "the flush of the new node was forgotten")
            story.must_drop(empty, "there is no flush that it could wait for")
        elif insert not in LATE:
            story.flush(0, node)
            story.fence(0)
        link = story.store(0, before + 8, node)
        if before in unsaved:
            story.must_say(f"overwritten {unsaved[before][1]} by {link}", "the pointer of an unsaved node is replaced before any flush of it")
        order = (0, node, 16, before + 8, 8)
        if insert in FORGOTTEN:
            story.ordered(*order, "fail", "the node was not flushed, and the pointer to it may be saved at any time")
        elif insert in LATE:
            story.ordered(*order, "fail", "the pointer is stored while the node is not safe")
            story.flush(0, node)
        else:
            story.ordered(*order, "pass", "the node was fenced before the pointer to it was stored")
        story.flush(0, before + 8)
        story.fence(0)
        unsaved.pop(before, None)
        story.persist(0, before + 8, 8, "pass", "the pointer was flushed and fenced")
        if insert in FORGOTTEN:
            unsaved[node] = stores
            story.persist(0, node, 16, "fail", "the new node was never flushed")
        else:
            story.persist(0, node, 16, "pass", "the new node was flushed and fenced")
    for stores in unsaved.values():
        for number in stores:
            story.must_say(f"never-persisted {number} dirty", "no flush of the forgotten node follows, so its stores may be lost for good")
    story.write(folder, 1 + NODES)


SLOTS = 8
ROUNDS = 24


def ring_buffer(folder):
    """Thread 0 stores, thread 1 flushes and fences."""
    story = Story(
        "ring_buffer",
        """
Two threads use a ring of 8 slots of one line each. Thread 0 produces: it stores three words into the slot, and later
the tail index. It flushes nothing itself. Thread 1 consumes: it flushes the slot that thread 0 stored, fences,
flushes the tail and fences, and then stores, flushes and fences its head index. A flush by thread 1 saves thread 0's
stores, and only a fence by thread 1 completes it. In rounds 3 and 17 thread 0 fences in its place. In rounds 5 and 14
both flush the slot. In round 9 the tail is stored before the slot is safe. In round 12 a word is corrected before it
was flushed. The last round ends before thread 1 has fenced.
""",
    )
    tail, head, ring = 0x7F4C00000000, 0x7F4C00000040, 0x7F4C00001000
    saved = "a thread that flushed the slot has fenced"
    for turn in range(ROUNDS):
        slot = ring + LINE * (turn % SLOTS)
        stores = [story.store(0, slot + 8 * word, 0x100 * turn + word) for word in range(3)]
        if turn == 12:
            again = story.store(0, slot + 8, 0xFFFF)
            story.must_say(f"overwritten {stores[1]} by {again}", "the second word is corrected before any flush of the slot")
        if turn == ROUNDS - 1:
            story.flush(1, slot)
            last_round(story, slot, tail, stores)
            break
        if turn == 9:
            story.store(0, tail, turn + 1)
            story.ordered(0, slot, 24, tail, 8, "fail", "the tail is stored while the slot is not safe")
        if turn == 5 or turn == 14:
            both_flush(story, slot, turn == 5)
        else:
            story.flush(1, slot)
            if turn == 3 or turn == 17:
                wrong_fence(story, slot)
            story.fence(1)
        story.persist(1, slot, 24, "pass", saved)
        if turn != 9:
            story.store(0, tail, turn + 1)
            story.ordered(0, slot, 24, tail, 8, "pass", "the slot was safe before the tail was stored")
        story.flush(1, tail)
        story.fence(1)
        story.persist(0, tail, 8, "pass", "thread 1 flushed the tail and fenced")
        story.store(1, head, turn + 1)
        story.flush(1, head)
        story.fence(1)
        story.persist(1, head, 8, "pass", "thread 1 flushed its head index and fenced")
    story.write(folder, SLOTS + 2)


def wrong_fence(story, slot):
    """Thread 0 fences, though the flush was thread 1's."""
    fence = story.fence(0)
    story.must_say(f"fence-without-flush {fence}", "thread 0 fences, and the flush was thread 1's")
    story.must_drop(fence, "a fence by thread 0 completes no flush of thread 1")
    story.persist(0, slot, 24, "fail", "only a fence by thread 1 completes its flush")


def both_flush(story, slot, consumer_first):
    """Both threads flush the slot; the first fence makes it safe, and the other thread's flush and fence are not needed."""
    first, second = (1, 0) if consumer_first else (0, 1)
    flushes = {0: story.flush(0, slot), 1: story.flush(1, slot)}
    story.fence(first)
    reason = "both threads flushed the slot, and the other one fenced first (no finding: neither could know)"
    story.must_drop(flushes[second], reason)
    story.must_drop(story.fence(second), reason)


def last_round(story, slot, tail, stores):
    """The trace ends after a flush of the slot that no fence completes, and with a tail that nobody flushes."""
    story.must_drop(len(story.events), "no fence of its thread follows")
    for number in stores:
        story.must_say(f"never-persisted {number} flushed", "the trace ends before the fence that would complete the flush of the slot")
    number = story.store(0, tail, ROUNDS)
    story.must_say(f"never-persisted {number} dirty", "the trace ends before any flush of the last tail")
    story.persist(0, slot, 24, "fail", "the slot was flushed, but thread 1 has not fenced")


def main():
    folder = pathlib.Path(sys.argv[1]) if len(sys.argv) > 1 else pathlib.Path(__file__).parent
    for write in (append_log, linked_list, ring_buffer):
        write(folder)


if __name__ == "__main__":
    main()
