"""Random traces of few places, so that much happens to each of them."""
from machine import FENCES, FLUSHES, Trace

WEIGHTS = {"store": 7, "flush": 9, "fence": 3, "isPersist": 2, "isOrderedBefore": 4}


def random_trace(choose):
    """The header and the trace."""
    size, threads = choose.choice((32, 64, 128, 256)), choose.choice((1, 2, 2, 3, 4))
    places = [0x1000 + size * line + offset for line in range(choose.choice((1, 2, 2, 3))) for offset in (0, 1)]
    events = []
    for _ in range(choose.randrange(2, 24)):
        thread, at = choose.randrange(threads), choose.choice(places)
        kind = choose.choices(list(WEIGHTS), WEIGHTS.values())[0]
        if kind == "store":
            events.append(("store", thread, at, bytes(choose.choice((1, 2)) for _ in range(choose.choice((1, 1, 2, 4))))))
        elif kind == "flush":
            events.append((choose.choice((*FLUSHES, "clwb", "clwb", "clflush")), thread, at))
        elif kind == "fence":
            events.append((choose.choice(FENCES), thread))
        else:
            spans = [choose.choice(places), choose.choice((1, 2, 9, size + 1)), choose.choice(places), choose.choice((1, 2, 9))]
            events.append((kind, thread, *spans[: 4 if kind == "isOrderedBefore" else 2]))
    return f"pmtrace 2 {size}", Trace(size, events)
