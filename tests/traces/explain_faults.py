"""What `explain` tells of words, files and lines that are wrong, and the status. The texts are written by hand."""

HEADER = "the first line is 'pmtrace 1', or 'pmtrace 2 S' where S, the size of a cache line in bytes, is 32, 64, 128 or 256\n"
THREAD = "a thread is a decimal number from 0 to 255, without leading zeros\n"
ADDRESS = "an address is 0x and digits 0-9 and a-f, without leading zeros, from 0x0 to 0xffffffffffff\n"
BYTES = "the byte string of a store is 1 to 8 pairs of digits 0-9 and a-f, without a prefix\n"
LENGTH = "a length is a decimal number from 1 to 4096, without leading zeros, and its range ends at 0x1000000000000 at most\n"
FENCE = "an sfence is 'sfence T': the thread, after a single space\n"
STORE = "a store is 'store T A HEX': thread, address and byte string, between single spaces\n"
EVENTS = "an event is store, clwb, clflushopt, sfence, isPersist or isOrderedBefore\n"
MORE_EVENTS = "an event is store, clwb, clflushopt, clflush, sfence, mfence, isPersist or isOrderedBefore\n"
SECOND_VERSION = "clflush and mfence are events of version 2: the first line has to be 'pmtrace 2 64', or another line size\n"
ENDS = "each line ends with LF, the last one too; the trace may have been cut off here\n"
CARRIAGE = "hint: the line ends in CR LF, and a line has to end in LF alone; tr -d '\\r' takes the CR off\n"
SPELLED = "is not spelled as in a trace"

# The text of a trace t, and what is told of it.
REFUSED = [
    (b"", f"t:1: the input is empty\n{HEADER}"),
    (b"pmtrace 2 96\n", f"t:1: this is no header of a trace\n    pmtrace 2 96\n{HEADER}"),
    (b"pmtrace 1\r\nsfence 0\r\n", f"t:1: this is no header of a trace\n    pmtrace 1\\r\n{HEADER}{CARRIAGE}"),
    (b"pmtrace 1\nsfence 0\r\n", f"t:2: the thread '0\\r' {SPELLED}\n    sfence 0\\r\n{THREAD}{CARRIAGE}"),
    (b"pmtrace 1\nsfence 0\nsfence 0", f"t:3: the line does not end\n    sfence 0\n{ENDS}"),
    (b"pmtrace 1\nflush 0 0x1000\n", f"t:2: 'flush' is no event here\n    flush 0 0x1000\n{EVENTS}"),
    (b"pmtrace 2 64\nflush 0 0x1000\n", f"t:2: 'flush' is no event here\n    flush 0 0x1000\n{MORE_EVENTS}"),
    (b"pmtrace 1\nclflush 0 0x1000\n", f"t:2: 'clflush' is no event here\n    clflush 0 0x1000\n{SECOND_VERSION}"),
    (b"pmtrace 1\n\n", "t:2: the line does not begin with an event\nthere are no empty lines and no comments, and a line begins with the word of its event\n"),
    (b"pmtrace 1\nsfence\n", f"t:2: the thread is missing\n    sfence\n{FENCE}"),
    (b"pmtrace 1\nsfence 0 1\n", f"t:2: there is a field too many\n    sfence 0 1\n{FENCE}"),
    (b"pmtrace 1\nstore 0 0x1000\n", f"t:2: the byte string is missing\n    store 0 0x1000\n{STORE}"),
    (b"pmtrace 1\nclwb 0 0x01000\n", f"t:2: the address '0x01000' {SPELLED}\n    clwb 0 0x01000\n{ADDRESS}"),
    (b"pmtrace 1\nclwb  0 0x1000\n", f"t:2: the thread '' {SPELLED}\n    clwb  0 0x1000\n{THREAD}"),
    (b"pmtrace 1\nstore 0 0x1000 1\n", f"t:2: the byte string '1' {SPELLED}\n    store 0 0x1000 1\n{BYTES}"),
    (b"pmtrace 1\nsfence 256\n", f"t:2: the thread '256' is out of range\n    sfence 256\n{THREAD}"),
    (b"pmtrace 1\nclwb 0 0x1000000000000\n", f"t:2: the address '0x1000000000000' is out of range\n    clwb 0 0x1000000000000\n{ADDRESS}"),
    (b"pmtrace 1\nisPersist 0 0x1000 4097\n", f"t:2: the length '4097' is out of range\n    isPersist 0 0x1000 4097\n{LENGTH}"),
    (b"pmtrace 1\nisPersist 0 0xffffffffffff 2\n", f"t:2: the range ends past the last address\n    isPersist 0 0xffffffffffff 2\n{LENGTH}"),
    (
        b"pmtrace 1\nstore 0 0x1000 010203040506070809\n",
        f"t:2: the byte string '010203040506070809' is out of range\n    store 0 0x1000 010203040506070809\n{BYTES}",
    ),
    (
        b"pmtrace 1\nstore 0 0x1007 0102\n",
        "t:2: the store crosses the end of an aligned word of 8 bytes\n    store 0 0x1007 0102\n"
        "a store lies inside one aligned word, so address mod 8 + number of bytes is at most 8; cut a longer one at the words\n",
    ),
    (b"pmtrace 1\n\x1b[2Jsfence\xff 0\n", f"t:2: '\\x1b[2Jsfence\\xff' is no event here\n    \\x1b[2Jsfence\\xff 0\n{EVENTS}"),
    (b"pmtrace 1\n" + b"x" * 100 + b"\n", f"t:2: '{'x' * 80}...' is no event here\n    {'x' * 80}...\n{EVENTS}"),
    (b"pmtrace 1\n" + b"sfence 0\n" * 1000001, "t:1000002: this event is one too many\n    sfence 0\na trace has at most 1000000 events\n"),
    (b"a" * 67108865, "t: the trace is too long: it has more than 67108864 bytes\n"),
]

LABEL = "a label is 'EVENT TEXT': a decimal number from 1 to 1000000 without leading zeros, a space and a text\n"
ORDER = "the labels stand by rising number of their events, one line for an event\n"
NO_TEXT = "a label is 'EVENT TEXT', as '12 list.c:57 insert'\n"

# The text of a labels file l, and what is told of it.
BAD_LABELS = [
    (b"1 a\nb\n", f"l:2: 'b' is no number of an event\n    b\n{LABEL}"),
    (b"0 a\n", f"l:1: '0' is no number of an event\n    0 a\n{LABEL}"),
    (b"1000001 a\n", f"l:1: '1000001' is no number of an event\n    1000001 a\n{LABEL}"),
    (b"2 a\n2 b\n", f"l:2: the number does not come after 2, that of the line before\n    2 b\n{ORDER}"),
    (b"1\n", f"l:1: the label has no text\n    1\n{NO_TEXT}"),
    (b"1 a\n2 b", "l:2: the line does not end\n    2 b\neach line ends with LF, the last one too; the file may have been cut off here\n"),
    (
        b"1 a\r\n",
        f"l:1: the text of the label has bytes that can not be shown\n    1 a\\r\na text is UTF-8 without control characters\n{CARRIAGE}",
    ),
    (
        b"1 a\n2 " + b"b" * 1048576 + b"\n",
        "l:2: the line is too long\n    2 " + "b" * 78 + "...\na line of a labels file has at most 1048576 bytes, with its LF\n",
    ),
    (b"1 \xff\n", "l:1: the text of the label has bytes that can not be shown\n    1 \\xff\na text is UTF-8 without control characters\n"),
]

RANGE = (
    "a line is 'A:N', as a recorder writes it: the address of the first byte and how many bytes, as 0x1000:8; or 'label LABEL', as"
    " 'label list.c:57 insert'\n"
)
NO_LINE = "this is no range of bytes and no label"

# The text of a file r of what is to be ignored, and what is told of it.
BAD_RANGES = [
    (b"0x1000:8\n0x1000\n", f"r:2: {NO_LINE}\n    0x1000\n{RANGE}"),
    (b"\n", f"r:1: {NO_LINE}\n{RANGE}"),
    (b"0x1000:8\n0x1000:0\n", f"r:2: {NO_LINE}\n    0x1000:0\n{RANGE}"),
    (b"label a b\nlabel \n", f"r:2: {NO_LINE}\n    label \n{RANGE}"),
    (b"label a < b\n", f"r:1: {NO_LINE}\n    label a < b\n{RANGE}"),
    (b"labels a\n", f"r:1: {NO_LINE}\n    labels a\n{RANGE}"),
    (b"label a\tb\n", f"r:1: {NO_LINE}\n    label a\\tb\n{RANGE}"),
    (b"label \xff\n", f"r:1: {NO_LINE}\n    label \\xff\n{RANGE}"),
    (b"0x1000:8\n" * 7456541, "r: the file is too long: it has more than 67108864 bytes\n"),
    (b"label a", "r:1: the line does not end\n    label a\neach line ends with LF, the last one too; the file may have been cut off here\n"),
    (b"0x1000:8", "r:1: the line does not end\n    0x1000:8\neach line ends with LF, the last one too; the file may have been cut off here\n"),
]

# Words that are wrong, and a part of what is told.
BAD_WORDS = [
    (["--ignore", "0x1000"], "0x1000:8"),
    (["--ignore", "1000:8"], "'1000:8'"),
    (["--ignore", "0x1000:0"], "'0x1000:0'"),
    (["--ignore", "0xffffffffffff:2"], "0xffffffffffff"),
    (["--ignore-file"], "--ignore-file"),
    (["--ignore-label", "a"], "'--labels'"),
    (["--labels", "l", "--ignore-label", ""], "what labels say before"),
    (["--labels", "l", "--ignore-label", "a < b"], "'a < b'"),
    (["--labels", "l", "--ignore-label"], "--ignore-label"),
    (["--only", "failures"], "never_persisted"),
    (["--thread", "256"], "from 0 to 255"),
    (["--range", "0x1000"], "0x1000:8"),
    (["--from", "0"], "'0'"),
    (["--from", "3", "--to", "2"], "comes before"),
    (["--label", "a"], "'--labels'"),
    (["--labels", "l", "--label", ""], "a text that stands in labels"),
    (["--failure", "1", "--only", "dropped"], "'--failure' stands without"),
    (["--failure", "1", "t"], "event 1 is no assertion that a crash can violate"),
    (["--limit", "ten"], "a decimal number"),
    (["--limit", "01"], "'01'"),
    (["--limit", "1", "--limit", "2"], "--limit"),
    (["--json", "--frob"], "'--frob'"),
    (["--json", "--html"], "cannot be used with"),
    (["--labels"], "--labels"),
    (["t", "t"], "'t'"),
]

SAVED = b"pmtrace 1\nstore 0 0x1000 01\nclwb 0 0x1000\nsfence 0\n"
