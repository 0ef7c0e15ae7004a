"""Lines of the JSON of `explain`, what the schema refuses of them, and traces of which much is told."""
from program import TOP
from schemas import complaints

SCHEMA = TOP / "docs/explain.schema.json"
# Claims on bytes that no store has written before.
NEVER_STORED = (
    "pmtrace 1\nisPersist 0 0x1000 8\nstore 0 0x1007 01\nisPersist 0 0x1000 7\nisPersist 0 0x1000 8\n"
    "isOrderedBefore 0 0x2000 4096 0x1007 1\nclflushopt 0 0x1007\nsfence 0\n"
)


def many_failures():
    """A trace with 300 assertions that fail, of 4096 bytes each, whose 512 stores are never flushed."""
    stores = "".join(f"store 0 {0x1000 + 8 * word:#x} 0102030405060708\n" for word in range(512))
    claims = "".join(f"isPersist {thread} 0x1000 4096\n" for thread in range(100)) * 3
    return f"pmtrace 1\n{stores}{claims}"


def lines_of(done):
    """The lines that a program wrote, each once."""
    return dict.fromkeys(done.stdout.decode().removesuffix("\n").split("\n"))


def refused(lines):
    """The first of these lines that the schema refuses, each with why."""
    return [told for told in zip(lines, complaints(SCHEMA, lines), strict=True) if told[1]][:3]
