#!/usr/bin/env python3
"""Writes a trace of a million events of one kind to standard output: traces.py KIND [EVENTS]. Without words, lists the kinds."""
import random
import sys

BASE = 0x7F0000000000


def store(thread, addr, value):
    return f"store {thread} {addr:#x} {value & 0xffffffffffffffff:016x}\n"


def log_appends(count):
    """Records of one to four words appended to a log, each flushed and fenced, then its commit word."""
    at, value = BASE, 1
    while True:
        words = 1 + value % 4
        for word in range(words):
            yield store(0, at + 8 * word, value * 1103515245 + word)
        for line in range(at // 64, (at + 8 * words - 1) // 64 + 1):
            yield f"clwb 0 {line * 64:#x}\n"
        yield "sfence 0\n"
        yield store(0, BASE - 64, value)
        yield f"clwb 0 {BASE - 64:#x}\n"
        yield "sfence 0\n"
        at, value = at + 8 * words, value + 1


def tree_inserts(count):
    """Nodes of a skewed tree: a few lines take most of the stores."""
    choose = random.Random(7)
    while True:
        node = BASE + 64 * int(choose.paretovariate(0.6) % 200000)
        yield store(0, node + 8 * choose.randrange(8), choose.getrandbits(60))
        if choose.random() < 0.5:
            yield f"clwb 0 {node:#x}\n"
        if choose.random() < 0.2:
            yield "sfence 0\n"


def redundant_flushes(count):
    """Each store is flushed four times before its fence, twice by another thread."""
    value = 0
    while True:
        at = BASE + 64 * (value % 5000)
        yield store(0, at, value)
        for thread in (0, 0, 1, 1):
            yield f"clwb {thread} {at:#x}\n"
        yield "sfence 0\n"
        value += 1


def many_assertions(count):
    """After each ten events an assertion on ranges of 4096 bytes."""
    value = 0
    while True:
        at = BASE + 64 * (value * 37 % 4096)
        for word in range(3):
            yield store(0, at + 8 * word, value)
            yield f"clwb 0 {at:#x}\n"
            yield "sfence 0\n"
        other = BASE + 4096 * (value % 60)
        if value % 2:
            yield f"isPersist 0 {other:#x} 4096\n"
        else:
            yield f"isOrderedBefore 0 {other:#x} 4096 {other + 4096:#x} 4096\n"
        value += 1


def one_line(count):
    """Every event is of one line."""
    value = 0
    while True:
        yield store(0, BASE + 8 * (value % 8), value)
        if value % 50 == 49:
            yield f"clwb 0 {BASE:#x}\n"
            yield "sfence 0\n"
        value += 1


def one_line_stores(count):
    """A million stores to one line, and nothing else."""
    value = 0
    while True:
        yield store(0, BASE + 8 * (value % 8), value)
        value += 1


def many_lines(count):
    """One store to each line."""
    value = 0
    while True:
        yield store(0, BASE + 64 * value, value)
        value += 1


def threads_256(count):
    """256 threads that store and flush a few shared lines and fence in turn."""
    value = 0
    while True:
        thread = value % 256
        at = BASE + 64 * (value % 7)
        yield store(thread, at + 8 * (value % 8), value)
        yield f"clwb {thread} {at:#x}\n"
        if value % 3 == 0:
            yield f"sfence {(value * 5) % 256}\n"
        value += 1


def long_intervals(count):
    """50,000 lines are stored and flushed before each fence."""
    value = 0
    while True:
        for line in range(50000):
            yield store(0, BASE + 64 * line, value)
            yield f"clwb 0 {BASE + 64 * line:#x}\n"
        yield "sfence 0\n"
        value += 1


def byte_store(thread, addr):
    return f"store {thread} {addr:#x} 5a\n"


def pending_writers(count):
    """A page stored byte by byte from its end, and never flushed; then it is asked again and again whether all of it comes later."""
    for byte in range(4095, -1, -1):
        yield byte_store(0, BASE + byte)
    while True:
        yield f"isOrderedBefore 0 {BASE + 4096:#x} 1 {BASE:#x} 4096\n"


def pending_writers_32(count):
    """As pending_writers, in lines of 32 bytes."""
    return pending_writers(count)


def ordered_page(count, changes=False):
    """A byte is persisted, then a page is stored byte by byte; then it is asked again and again whether the byte comes first."""
    first = BASE + 4096
    yield byte_store(0, first)
    yield f"clwb 0 {first:#x}\n"
    yield "sfence 0\n"
    for byte in range(4095, -1, -1):
        yield byte_store(0, BASE + byte)
    value = 0
    while True:
        if changes:
            yield byte_store(0, BASE + 67 * value % 4096)
        yield f"isOrderedBefore 0 {first:#x} 1 {BASE:#x} 4096\n"
        value += 1


def changing_page(count):
    """As ordered_page, and a byte of the page is stored before each question."""
    return ordered_page(count, True)


def lost_line(count):
    """A page is persisted but for its first line; then it is asked again and again whether it comes before a byte."""
    for line in range(1, 128):
        yield byte_store(0, BASE + 32 * line)
        yield f"clwb 0 {BASE + 32 * line:#x}\n"
    yield "sfence 0\n"
    yield byte_store(0, BASE)
    yield byte_store(0, BASE + 4096)
    while True:
        yield f"isOrderedBefore 0 {BASE:#x} 4096 {BASE + 4096:#x} 1\n"


def shuffled_lines(count, apart=8192):
    """A page is persisted and another one is not, line by line in no order; then it is asked whether the one comes first."""
    lines = list(range(128))
    random.Random(3).shuffle(lines)
    for line in lines:
        yield byte_store(0, BASE + 32 * line)
        yield f"clwb 0 {BASE + 32 * line:#x}\n"
    yield "sfence 0\n"
    for line in lines:
        yield byte_store(0, BASE + apart + 32 * line)
    while True:
        yield f"isOrderedBefore 0 {BASE:#x} 4096 {BASE + apart:#x} 4096\n"


def far_lines(count):
    """As shuffled_lines, and the pages lie 512 lines apart."""
    return shuffled_lines(count, 512 * 32)


def unwritten_lines(count):
    """It is asked of pages that no event stores to whether one comes before the other."""
    page = 0
    while True:
        page = (page + 7) % 1024
        yield f"isOrderedBefore 0 {BASE + 4096 * page:#x} 4096 {BASE + 4096 * (page + 1):#x} 4096\n"


def one_store_a_page(count, persisted=True):
    """Each page has one line that is stored, and it is asked of each page whether it comes before the next one."""
    for page in range(1024):
        yield byte_store(0, BASE + 4096 * page)
        yield f"clwb 0 {BASE + 4096 * page:#x}\n"
    if persisted:
        yield "sfence 0\n"
    page = 0
    while True:
        page = (page + 7) % 1023
        yield f"isOrderedBefore 0 {BASE + 4096 * page:#x} 4096 {BASE + 4096 * (page + 1):#x} 4096\n"


def one_lost_store_a_page(count):
    """As one_store_a_page, and no store is persisted."""
    return one_store_a_page(count, False)


def line_by_bytes(count):
    """One line is overwritten byte by byte, round and round."""
    value = 0
    while True:
        yield byte_store(0, BASE + value % 256)
        value += 1


def judged_line_by_bytes(count):
    """As line_by_bytes, and after each store it is asked whether the line comes after another one."""
    value = 0
    while True:
        yield byte_store(0, BASE + value % 256)
        yield f"isOrderedBefore 0 {BASE + 4096:#x} 1 {BASE:#x} 256\n"
        value += 1


def threads_one_line(count):
    """256 threads flush one line after each store to it, and then fence."""
    while True:
        yield byte_store(0, BASE)
        for thread in range(256):
            yield f"clwb {thread} {BASE:#x}\n"
        for thread in range(256):
            yield f"sfence {thread}\n"


# Kinds like the traces of programs, and kinds in which an event costs as much as one may.
COMMON = (log_appends, tree_inserts, redundant_flushes, many_assertions, one_line, one_line_stores, many_lines, threads_256, long_intervals)
HOSTILE = (pending_writers, pending_writers_32, ordered_page, changing_page, lost_line, shuffled_lines, far_lines, unwritten_lines, one_store_a_page,
           one_lost_store_a_page, line_by_bytes, judged_line_by_bytes, threads_one_line)
KINDS = {kind.__name__: kind for kind in COMMON + HOSTILE}

# The bytes of a line, where they aren't 64.
NARROW = ("pending_writers_32", "lost_line", "shuffled_lines", "far_lines", "unwritten_lines", "one_store_a_page", "one_lost_store_a_page")
WIDE = ("pending_writers", "line_by_bytes", "judged_line_by_bytes")
LINE_SIZES = dict.fromkeys(NARROW, 32) | dict.fromkeys(WIDE, 256)


def main():
    if len(sys.argv) < 2 or sys.argv[1] not in KINDS:
        for name, kind in KINDS.items():
            print(f"{name}\t{kind.__doc__}")
        return 0 if len(sys.argv) < 2 else 2
    count = int(sys.argv[2]) if len(sys.argv) > 2 else 1_000_000
    write = sys.stdout.write
    size = LINE_SIZES.get(sys.argv[1])
    write(f"pmtrace 2 {size}\n" if size else "pmtrace 1\n")
    lines = KINDS[sys.argv[1]](count)
    pending = []
    for _ in range(count):
        pending.append(next(lines))
        if len(pending) == 10000:
            write("".join(pending))
            pending.clear()
    write("".join(pending))
    return 0


if __name__ == "__main__":
    sys.exit(main())
