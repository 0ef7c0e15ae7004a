"""The traces that the programs of tests/recorders/libpmem and the packaged examples must give, written out by what the pages of libpmem and
libpmem2 say of their calls and recorders/README.md of stores: one for each aligned word of 8 bytes. A plain store is noted by the next
call that looks at its line, and by each fence."""

TEXT = b"ABCDEFGHIJKLMNOP"
POOL = 1 << 40  # the second file's first address; the third's is twice that


def stores(at, data):
    """A copy to this address."""
    lines = ""
    while data:
        length = 8 - at % 8
        lines += f"store 0 {at:#x} {data[:length].hex()}\n"
        at, data = at + length, data[length:]
    return lines


def flushes(word, first, end):
    """A flush of each line from one address to another."""
    return "".join(f"{word} 0 {line:#x}\n" for line in range(first, end, 64))


def flushed(at, data, word="clwb"):
    """A copy, and a flush of its lines."""
    return stores(at, data) + flushes(word, at - at % 64, at + len(data))


FENCE = "sfence 0\n"
PAGE = flushes("clwb", 0x1000, 0x2000) + FENCE

# calls.c: each entry is a piece of the source line that calls, and the events of the call.
CALLS_OF = [
    ("pmem_persist(pool, 1)", flushed(0, b"p") + FENCE),
    ("pmem_flush(pool + 60", flushes("clwb", 0, 128)),
    ("pmem_drain()", FENCE),
    ("pmem_deep_flush(", flushes("clwb", 64, 128)),
    ("pmem_deep_drain(pool + 64", FENCE),
    ("pmem_deep_persist(pool + 128", flushes("clwb", 128, 192) + FENCE),
    ("pmem_persist(pool, 0)", FENCE),
    ("pmem_msync(pool + 4096", stores(0x12BC, b"m") + PAGE),
    ("pmem_memcpy(pool + 256", flushed(256, TEXT[:9]) + FENCE),
    ("pmem_memmove(pool + 258", flushed(258, TEXT[:4])),
    ("pmem_memset(pool + 320", stores(320, b"\1" * 8)),
    ("pmem_memcpy_persist(", flushed(384, TEXT[:8]) + FENCE),
    ("pmem_memmove_persist(", flushed(448, TEXT[:8]) + FENCE),
    ("pmem_memset_persist(", flushed(512, b"\2" * 8) + FENCE),
    ("pmem_memcpy_nodrain(", flushed(576, TEXT[:8])),
    ("pmem_memmove_nodrain(", flushed(640, TEXT[:8])),
    ("pmem_memset_nodrain(", flushed(704, b"\3" * 8)),
    ("pmem_memcpy(pool + 768", flushed(768, TEXT[:8], "clflushopt") + FENCE),
    ("pmem_memset(pool + 832", flushed(832, b"\4" * 8, "clflushopt")),
    ("pmem_memset(pool + 1024", flushed(1024, b"\5" * 255) + FENCE),
    ("pmem_memset(pool + 1280", flushed(1280, b"\6" * 256, "clflushopt") + FENCE),
    ("pmem_memset(pool + 1536", flushed(1536, b"\7" * 256) + FENCE),
    ("pmem_memset(pool + 1792", flushed(1792, b"\x08" * 256)),
    ("pmem_memcpy(pool, text, 0", FENCE),
    ("pmem_memset(pool, 9, 0", FENCE),
    ("pmem_msync(pool + 15999", stores(15999, b"e") + flushes("clwb", 0x3000, 16000) + FENCE),
    ("pmem_unmap(", stores(192, b"u")),
]
CALLS = "pmtrace 2 64\n" + "".join(events for _, events in CALLS_OF)
CALLED = [(events.count("\n"), piece) for piece, events in CALLS_OF]

SHAPES = "pmtrace 2 64\n" + flushed(0, bytes([1, 0, 0, 0, 2, 0, 0, 0])) + FENCE
SHAPES += "clwb 0 0x0\n" + "clwb 0 0x0\n" + FENCE + FENCE + "clwb 0 0x0\n" + FENCE + FENCE + flushed(0, bytes(4))

POOLS = "pmtrace 2 64\n" + flushed(0, b"\1" * 8) + FENCE + flushed(POOL + 64, b"\2" * 8) + FENCE
POOLS += flushed(POOL, b"\3") + FENCE  # stored, unmapped, mapped again, flushed
POOLS += flushed(8, b"\4") + FENCE  # stored by one mapping, flushed by the other
POOLS += flushed(128, b"\5" * 8) + FENCE + flushed(16, b"\6") + FENCE + flushed(4096, b"\7" * 8) + FENCE
POOLS += flushed(2 * POOL, b"\x08" * 8) + FENCE + stores(POOL + 1, b"\x09")

FORGETS = "pmtrace 2 64\n" + flushed(0, b"\1") + FENCE + flushed(128, b"\3") + stores(64, b"\2") + FENCE

REMOVED = "pmtrace 2 64\n" + stores(0, b"\1" * 8) + stores(POOL, b"\2" * 8) + flushed(2 * POOL, b"\3" * 8) + FENCE
ADOPTS = "pmtrace 2 64\n" + flushed(0, b"\2" * 8) + FENCE + flushed(8, b"\3") + FENCE
BOTH = "pmtrace 2 64\n" + flushed(0, b"\1" * 8) + flushed(POOL, b"\2" * 8) + FENCE

# calls2.c
LINES = flushed(0, b"p") + FENCE + flushes("clwb", 0, 128) + FENCE + flushed(256, TEXT[:9]) + FENCE + flushed(320, TEXT[:8])
LINES += stores(384, b"\1" * 8) + flushed(448, TEXT[:8], "clflushopt") + FENCE + flushes("clwb", 384, 448) + FENCE
PAGES = flushes("clwb", POOL, POOL + 4096) + FENCE
PAGES = stores(POOL, b"q") + PAGES + PAGES + stores(POOL + 64, TEXT[:8]) + PAGES + stores(POOL + 128, b"\2" * 8)
BYTES = FENCE * 3  # a persist, a drain, and a copy's
CALLS2 = "pmtrace 2 64\n" + LINES + flushed(4096, b"\5" * 8) + FENCE + stores(4160, b"W") + BYTES + BYTES + PAGES + FENCE
CALLS2 += stores(2 * POOL + 4088, b"\4" * 8) + stores(3 * POOL, b"\4" * 8)
CALLS2 += f"clwb 0 {2 * POOL + 4032:#x}\nclwb 0 {3 * POOL:#x}\n" + FENCE

# The packaged examples of libpmem2
LINE = "clwb 0 0x0\n" + FENCE
HELLO = "pmtrace 2 64\n" + stores(0, b"hello, persistent memory") + flushes("clwb", 0, 4096) + FENCE
# in the file's first line: the signature, at 16 how many bytes of data there are, from 24 on the data
LOG = "pmtrace 2 64\n" + LINE + stores(0, b"PMEM2_LOG") + LINE
LOG += stores(24, b"hello") + LINE + stores(16, b"\x05") + LINE
LOG += stores(29, b"foo") + stores(32, b"bar") + LINE + stores(16, b"\x0b") + LINE
LOG += stores(16, b"\x00") + LINE + stores(24, b"x") + LINE + stores(16, b"\x01") + LINE
FILLED = stores(0, b"-" * 8192) + stores(POOL, b"-" * 8192)
FILLED = "pmtrace 2 64\n" + FILLED + flushes("clflushopt", 0, 8192) + flushes("clflushopt", POOL, POOL + 8192) + FENCE
PRIVATE = r"pmtrace: \d+ bytes at 0x[0-9a-f]+ are mapped privately: nothing of such memory is recorded\n"
UNSAFE = "pmem2_source_device_usc: a recorded file has no count of unsafe shutdowns\n"
REDO = r"pmtrace: .*redo.*: 96 bytes at 0x.*\n(pmtrace: .*outside.*\n)+"

# Name, its files with their lengths, and its runs: words, what it writes, its trace where that is short.
EXAMPLES = [
    ("advanced", {"pool": 4096}, [(["pool", "0", "4"], "00 00 00 00 ", "pmtrace 2 64\n")]),
    ("basic", {"pool": 4096}, [(["pool"], "", HELLO)]),
    (
        "log",
        {"pool": 1 << 20},
        [(["pool", "append", "hello", "appendv", "2", "foo", "bar", "dump", "rewind", "append", "x", "dump"], "hellofoobar\nx\n", LOG)],
    ),
    ("map_multiple_files", {"one": 8192, "two": 8192}, [(["one", "two"], "", FILLED)]),
    (
        "redo",
        {"pool": 16384},
        [(["add", "pool", "1", "2", "3", "4"], REDO, None), (["print", "pool"], PRIVATE + "1 = 2\n3 = 4\n", None), (["check", "pool"], PRIVATE, None)],
    ),
    ("ringbuf", {"pool": 16384}, [(["pool", "64", "20"], r"Time elapsed: .*\nBandwidth: .*\n", None)]),
    (
        "unsafe_shutdown",
        {"pool": 16384},
        [(["write", "pool", "hi"], UNSAFE, None), (["read", "pool"], UNSAFE + "hi\n", None)],
    ),
]

# What must be said of what is not recorded, by the trace's name
UNMAPPED = r"(pmtrace: .*pool\.trace: a watched pool was unmapped.* not in the trace\n)+"
CHILD = (
    r"pmtrace: {0}: what this child of fork does to the pool is not in the trace\n"
    r"pmtrace: {0}: 2 calls of children that fork made reached the pool and are not in the trace\n"
)
SECOND = r"pmtrace: {0}: another .*; nothing is recorded\n"
