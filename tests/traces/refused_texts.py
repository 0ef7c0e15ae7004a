"""Texts that are no traces, each with the fault of it, and texts at a limit, which are traces."""

# By name: lines after `pmtrace 1`, and the fault that each of them is.
REFUSED_EVENTS = {
    "refused_fields": [
        ("clwb 0 0x01000", "bad-field"),
        ("clwb 0 0X1000", "bad-field"),
        ("clwb 0 1000", "bad-field"),
        ("clwb  0 0x1000", "bad-field"),
        ("clwb 00 0x1000", "bad-field"),
        ("clwb 0", "bad-field"),
        ("store 0 0x1000 0A", "bad-field"),
        ("store 0 0x1000 012", "bad-field"),
        ("store 0 0x1000 ", "bad-field"),
        ("isPersist 0 0x1000 01", "bad-field"),
        ("isOrderedBefore 0 0x1000 1 0x1040", "bad-field"),
        ("sfence 0 0", "bad-field"),
    ],
    "refused_threads": [
        ("clwb 99999999999999999999999 0x1000", "out-of-range"),
        ("sfence 256", "out-of-range"),
        ("store 256 0x1007 0102", "out-of-range"),
    ],
    "refused_lengths": [
        ("store 0 0x1000 010203040506070809", "out-of-range"),
        ("isPersist 0 0x1000 0", "out-of-range"),
        ("isPersist 0 0x1000 4097", "out-of-range"),
        ("isOrderedBefore 0 0x1000 1 0x1000 0", "out-of-range"),
        ("store 0 0x1007 0102", "crosses-word"),
        ("store 0 0x1001 0102030405060708", "crosses-word"),
    ],
    "refused_words": [
        ("flush 0", "bad-word"),
        ("Store 0 0x1000 01", "bad-word"),
        (" sfence 0", "bad-word"),
    ],
    "past_the_widest_address": [
        ("store 0 0x1000000000000 01", "out-of-range"),
        ("store 0 0xffffffffffff 0102", "crosses-word"),
        ("clwb 0 0x1000000000000", "out-of-range"),
        ("clflushopt 0 0x1000000000000", "out-of-range"),
        ("isPersist 0 0xffffffffffff 2", "out-of-range"),
        ("isPersist 0 0xfffffffff001 4096", "out-of-range"),
        ("isPersist 0 0xffffffffffffffff 1", "out-of-range"),
    ],
    "clflush_in_version_1": [
        ("clflush 0 0x1000", "bad-word"),
        ("mfence 0", "bad-word"),
    ],
    "hostile_bytes": [
        ("\0tore 0 0x1000 01", "bad-word"),
        ("store 0 0x1000 0\0", "bad-field"),
    ],
    "hostile_spaces": [
        ("store 0 0x1000 01\r", "bad-field"),
        ("", "bad-word"),
        ("store 0 0x1000 01 ", "bad-field"),
        ("store\t0 0x1000 01", "bad-word"),
    ],
}

# Whole texts, each with the line that is refused, and the fault.
REFUSED_TEXTS = {
    "truncated_and_bad_headers": [
        (b"", 1, "truncated"),
        (b"pmtrace 2 96", 1, "truncated"),
        (b"pmtrace 1\nstore 0 0x1000 01\nclwb 0 0x1000\nsfence 0", 4, "truncated"),
        (b"pmtrace 1\nstore 0 0x1000 01\nclwb 0 0x1000\nfoo", 4, "truncated"),
        (b"pmtrace 3\n", 1, "bad-header"),
        (b"pmtrace 1 64\n", 1, "bad-header"),
        (b"pmtrace 2\n", 1, "bad-header"),
        (b"pmtr\xffce 1\nstore 0 0x1000 01\n", 1, "bad-header"),
    ],
    "bad_line_size": [
        (b"pmtrace 2 %s\n" % size, 1, "bad-header")
        for size in (b"0", b"16", b"31", b"33", b"064", b"96", b"512", b"18446744073709551615", b"18446744073709551616")
    ],
}

# Texts of which trimming keeps every line.
ACCEPTED_TEXTS = {
    "widest_address": [
        "pmtrace 1; store 255 0xffffffffffff ff",
        "pmtrace 1; isPersist 0 0xffffffffffff 1",
        "pmtrace 1; isPersist 0 0xfffffffff000 4096",
        "pmtrace 1; isOrderedBefore 255 0xfffffffff000 4096 0xfffffffff000 4096",
    ],
    "lowest_address": [
        "pmtrace 1; store 0 0x0 01",
        "pmtrace 1; isPersist 0 0x0 1",
    ],
    "stores_at_their_limits": [
        "pmtrace 1; store 0 0x1000 0102030405060708",
        "pmtrace 1; store 0 0x1007 01",
        "pmtrace 1; store 255 0xfffffffffff8 00017f80feff",
    ],
    "line_sizes": ["pmtrace 2 32", "pmtrace 2 64", "pmtrace 2 128", "pmtrace 2 256"],
    "clflush_in_version_2": ["pmtrace 2 64; store 0 0x1000 01; clflush 1 0x1000"],
}
