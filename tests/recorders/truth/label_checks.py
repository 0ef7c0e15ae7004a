"""The labels of a trace: each event has the source line of the call that made it."""
from effects import Refused
from recording import source_of

CALLS = {
    "store": "pmtrace_store(",
    "copy": "pmtrace_memcpy(",
    "move": "pmtrace_memmove(",
    "within": "pmtrace_memmove(",
    "fill": "pmtrace_memset(",
    "stream": "pmtrace_memcpy_nontemporal(",
    "exchange": "exchange",
    "compare": "compare",
    "is_ordered": "pmtrace_is_ordered_before(",
    "window": "pmtrace_start(",
    **{word: "fetch" for word in ("add", "sub", "and", "or", "xor")},
}


def check_labels(judge, text):
    """Raises Refused where a label is missing or names another call. `judge` has found the operations of the trace.

    What was noticed has the label of the call that looked, which may have no events of its own.
    """
    labels = [line.split(" ", 1) for line in text.splitlines()]
    if [number for number, _ in labels] != [str(number) for number in range(1, len(judge.events) + 1)]:
        raise Refused(f"{len(labels)} labels for {len(judge.events)} events")
    for actor in judge.actors:
        for (_, done), group in zip(actor.loud, actor.groups):
            _, _, first, end = judge.groups[group]
            call = CALLS.get(done.word, f"pmtrace_{done.word}(")
            own = [labels[at][1] for at in range(first, end) if at not in judge.noticed]
            wrong = [label for label in own if call not in source_of(label).lower()]
            if wrong:
                raise Refused(f"{done} has the label {wrong[0]}")
