"""What the text of `explain` says of the range that a failed assertion keeps: its cache lines, and the bytes of it that a crash loses."""
from machine import FENCES, FLUSHES, spelled

# Of lines, and of rows of bytes, so many are shown.
MOST = 8


def plural(count, noun):
    return f"{count} {noun}" if count == 1 else f"{count} {noun}s"


def lost_bytes(explained, failure):
    """The rows of lost bytes of the range that is to be kept: bytes in a row that are from one store, or none, and lose one store. Of
    many the first ones, and how many bytes the others have."""
    rows, number = [], failure["event"]["event"]
    for part in failure["ranges"][:1]:
        start, before, shown = int(part["address"], 16), None, 0
        for offset, (store, value) in enumerate(zip(part["stores"], part["values"])):
            last = explained.trace.last_store(start + offset, number)
            lost = None if last == store else last
            if before is None or before != (store, lost) or shown == 16:
                rows.append((start + offset, store, lost, []))
                shown = 0
            rows[-1][3].append("--" if value is None else f"{value:02x}")
            before, shown = (store, lost), shown + 1
    losing = [row for row in rows if row[2] is not None]
    for start, store, lost, held in losing[:MOST]:
        yield f"    {start:#x}: {' '.join(held)}" + (f" from event {store}" if store else "") + f", lost: event {lost}"
    left = sum(len(held) for _, _, _, held in losing[MOST:])
    if left:
        yield f"    and {plural(left, 'more byte')} that lose a store (--json has all)"


def range_lines(explained, failure):
    """A line for each cache line of the range that is to be kept: whether the crash keeps it, its last flush and the fence of that flush.
    Of many those that lose a store, and how many others there are."""
    trace, place, part = explained.trace, failure["place"], failure["ranges"][0]
    start, end = int(part["address"], 16), int(part["address"], 16) + part["length"]
    rows, losing = [], []
    for line in range(start // trace.size, (end - 1) // trace.size + 1):
        inside = range(max(start, line * trace.size), min(end, (line + 1) * trace.size))
        held = [(part["stores"][byte - start], trace.last_store(byte, failure["event"]["event"])) for byte in inside]
        lost = [last for kept, last in held if last not in (None, kept)]
        rows.append(f"    {explained.address(line)}: {f'loses event {min(lost)}' if lost else 'kept'}; {flush_words(trace, line, place)}")
        losing += rows[-1:] * bool(lost)
    if len(rows) <= MOST:
        return rows
    more = max(0, len(losing) - MOST)
    return [*losing[:MOST], f"    and {more} more that lose stores, {len(rows) - len(losing)} that are kept"]


def range_block(explained, failure):
    """What an entry says of the range that is to be kept: its cache lines, and then its lost bytes."""
    part = failure["ranges"][0]
    yield f"  the {plural(part['length'], 'byte')} from {part['address']} on, by cache line, at the crash:"
    yield from range_lines(explained, failure)
    yield "  lost bytes of it, with what memory then holds (-- where the crash keeps no store):"
    yield from lost_bytes(explained, failure)


def flush_words(trace, line, place):
    """The last flush of the line among the first events, and its fence."""
    flushes = [number for number in range(1, place + 1) if trace.is_flush_of(number, line, ("clflush", *FLUSHES))]
    if not flushes:
        return "no flush by then"
    last = flushes[-1]
    word, thread = trace.event(last)[:2]
    fences = [number for number in range(last + 1, place + 1) if trace.event(number)[0] in FENCES and trace.event(number)[1] == thread]
    told = "complete at once" if word == "clflush" else f"fence event {fences[0]}" if fences else f"no fence of thread {thread} after it"
    return f"last flush event {last} ({spelled(trace.event(last))}), {told}"
