"""What must stand in traces of the programs of tests/recorders/valgrind: it follows from what they do."""

SAVED = "store 0 {:#x} {}\nclwb 0 {:#x}\nsfence 0\n"

FLUSHES = """\
clwb 80, clflushopt c0, clflush 100, clwb 140, clwb 180, clflushopt 1c0, clflush 200, clwb 240, clwb 280, clwb 2c0, clwb 300,
clflushopt 340, clflush 380, clwb 3c0, clwb 400, clwb 440, clwb 480, clflush 4c0, clwb 500, clwb 540, sfence, mfence, clwb 580,
clwb 600,
clflushopt 5c0, mfence"""
LOCKED_FLUSHES = FLUSHES.replace("clwb 580,", "clwb 580, mfence,")

# The file was written before it was a pool; ftruncate to 12000 bytes empties that, and what was appended.
SYSTEM = """\
store 0 0x0 0100000000000000
store 0 0x88 0200000000000000
store 0 0x12c0 0300000000000000
store 0 0x90 0500000000000000
clwb 0 0x0
clwb 0 0x80
sfence 0
store 0 0x1004 31323334
store 0 0x1008 35363738616263
clwb 0 0x1000
clwb 0 0x12c0
sfence 0
store 0 0x40 7468726f756768
clwb 0 0x40
sfence 0
store 0 0x8 0400000000000000
clwb 0 0x0
sfence 0
store 0 0x80 666c6167
clwb 0 0x80
sfence 0
store 0 0x3000 6174207468652065
store 0 0x3008 6e64
store 0 0x1004 00000000
store 0 0x1008 00
store 0 0x2ee0 0000000000000000
store 0 0x2ee8 000000000000
store 0 0x3000 0000000000000000
store 0 0x3008 0000
"""
CLAIMED = """\
store 0 0x40 03
clwb 0 0x40
sfence 0
clwb 0 0x80
clwb 0 0xc0
sfence 0
isPersist 0 0x40 4096
isPersist 0 0x1040 904
isOrderedBefore 0 0x40 8 0x100 4096
isOrderedBefore 0 0x40 8 0x1100 1
store 0 0x41 04
clwb 0 0x40
sfence 0
"""
FORMATTED, FINISHED = "store 0 0x0 01\n", "store 0 0x1 02\n"
# With --persist each return of the function claims its range; the call that is left by longjmp does not return.
WATCHED = """\
store 0 0x0 01
store 0 0x40 03
clwb 0 0x40
sfence 0
isPersist 0 0x40 8
clwb 0 0x80
clwb 0 0xc0
sfence 0
isPersist 0 0x80 70
isPersist 0 0x80 70
isPersist 0 0x40 4096
isPersist 0 0x1040 904
isOrderedBefore 0 0x40 8 0x100 4096
isOrderedBefore 0 0x40 8 0x1100 1
store 0 0x41 04
clwb 0 0x40
sfence 0
isPersist 0 0x40 8
isPersist 0 0x40 8
store 0 0x1 02
"""
LABELS = [
    ("stores", "insert < main {calls insert}"),
    ("calls persist", "insert < main {calls insert}"),
    ("fills", "insert < main {calls insert}"),
    ("writes", "main"),
]
CHANGE = "change {{{}}} < main {{calls change}}"
FIRST_LABELS = [
    ("stores", "store_first < " + CHANGE.format("calls store_first")),
    ("stores", "store_first < " + CHANGE.format("calls it again")),
    # `change` has stored by what it called
    *((f"calls {called}", "change < main {calls change}") for called in ("flush_first", "fence_first", "flush_second")),
]
APPEND = "append < main {calls append}"
INLINED_LABELS = [
    # the compiler gives these stores the lines of the returns in inlined functions
    ("sums", APPEND),
    ("sums twice", APPEND),
    ("sets", "set_next < append {calls set_next} < main {calls append}"),
    ("saves", APPEND),
    # at first `change` has not stored
    ("calls change", "main"),
    ("changes", "change < main {calls change}"),
    ("saves what is there", "change < main {calls change}"),
    # `save` stores nowhere, and `persist` has flushed for others
    ("saves in a thread", "save"),
]


def saved(words):
    """What ends.c does to save words."""
    return "pmtrace 2 64\n" + "".join(saved_value(word, word + 1) for word in words)


def saved_value(word, value):
    return SAVED.format(8 * word, value.to_bytes(8, "little").hex(), 8 * word & ~63)
