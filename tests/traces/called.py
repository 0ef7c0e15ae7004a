"""Traces of a function whose callers save what it stores in ways of their own."""

# How a caller saves a record, `r`, and its mark, `m`: it stores, `s`, flushes, `f`, fences, or claims the record, `c`; and `n` is a field of its own that
# stands in the record's line.
WAYS = {
    "right": "sr fr fence sm fm fence",
    "claimed": "sr fr fence c sm fm fence",
    "unfenced": "sr fr sm fm fence",
    "vouched": "sr fr sm fm fence c",
    "beside": "sr fr sm fm fence sn fn fence cn",
    "late": "sr sm fm fence fr fence",
}


def round_of(way, thread, at, label, caller):
    """The events of one round of a way, with their labels: the record is stored and flushed by a function that the caller calls."""
    for act in WAYS[way].split():
        place = at + 64 * act.endswith("m") + 8 * act.endswith("n")
        if act == "fence":
            yield f"sfence {thread}", f"{caller}:9 save"
        elif act[0] == "c":
            yield f"isPersist {thread} {place:#x} 1", f"{caller}:9 save"
        else:
            event = f"store {thread} {place:#x} 01" if act[0] == "s" else f"clwb {thread} {place:#x}"
            yield event, f"log.c:{30 + (act[0] == 'f')} fill{label}" if act.endswith("r") else f"{caller}:{7 + (act[0] == 'f')} save"


def rounds(ways, thread=0):
    """Rounds of callers, one after the other: of each the way and the file, which calls the function by a line of its own."""
    return [pair for index, (way, caller) in enumerate(ways) for pair in round_of(way, thread, 0x10000 + 128 * index, f" < save {caller}:6 < main m.c:2", caller)]
