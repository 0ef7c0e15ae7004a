"""The pools: their bytes before the trace, and their addresses in it."""
import bisect
import itertools
import os
import re
import shlex

from faults import FILE_FAULT, REFUSED, Fault, of_file

MADE_BY = "the recorders write it with PMTRACE_BASE=1, or pmtrim-record --base"


def made_by(base):
    """What makes a base that is not there."""
    trace = re.sub(r"\.base\d*$", "", base)
    return f"pmtrim-replay --base {shlex.quote(trace)} makes it" if os.path.exists(f"{trace}.part") else MADE_BY


class Pool:
    """A pool: the file of its bytes before the trace, and the addresses that these have."""

    def __init__(self, base, origin):
        try:
            with open(origin, encoding="ascii") as file:
                text = file.read(64)
            self.descriptor = os.open(base, os.O_RDONLY | os.O_CLOEXEC)
        except FileNotFoundError as error:
            raise Fault(FILE_FAULT, f"{error.filename} is not there: {made_by(base)}") from error
        except (OSError, ValueError) as error:
            raise Fault(FILE_FAULT, f"{base}, {origin}: {error}") from error
        if not re.fullmatch(r"0x(0|[1-9a-f][0-9a-f]{0,11})\n", text):
            raise Fault(REFUSED, f"{origin}: not one line with an address, as 0x1000")
        self.base = base
        self.origin = int(text, 16)
        self.size = os.fstat(self.descriptor).st_size
        self.end = self.origin + self.size

    def read(self, address, length):
        """The bytes before the trace, so far as the pool has these addresses."""
        first, end = max(address, self.origin), min(address + length, self.end)
        return first, os.pread(self.descriptor, end - first, first - self.origin)

    def describe(self):
        return f"{self.base} has the {self.size} bytes from {self.origin:#x} on"


def find_pools(trace_path):
    """The pools beside a trace, by their first addresses."""
    pools = [Pool(f"{trace_path}.base", f"{trace_path}.origin")]
    for number in itertools.count(2):
        if not os.path.exists(f"{trace_path}.base{number}"):
            break
        pools.append(Pool(f"{trace_path}.base{number}", f"{trace_path}.origin{number}"))
    pools.sort(key=lambda pool: pool.origin)
    for lower, upper in itertools.pairwise(pools):
        if lower.end > upper.origin:
            raise Fault(REFUSED, f"{lower.describe()}, and {upper.describe()}: they overlap")
    return pools


def pool_at(pools, address):
    """The pool that the address belongs to, by its first address."""
    return pools[max(bisect.bisect_right(pools, address, key=lambda pool: pool.origin) - 1, 0)]


def check_stores(pools, trace):
    """Each store lies in a pool."""
    for number, address, written in trace.stores():
        pool = pool_at(pools, address)
        if address < pool.origin or pool.end < address + len(written):
            raise Fault(REFUSED, f"{trace.path}: {trace.describe(number)} lies in no pool: {pool.describe()}")


def write_own_trace(trace, pool, path):
    """Writes the part of a trace of several pools that is about one of them: its stores and flushes, and all fences. Answers the place
    there of each place of the whole."""
    places = [0]
    try:
        with open(path, "w", encoding="ascii") as file:
            file.write(f"pmtrace 2 {trace.line_size}\n")
            for line in trace.lines:
                words = line.split(" ")
                own = not words[0].startswith("is") and (len(words) == 2 or in_lines(pool, int(words[2], 16), trace.line_size))
                if own:
                    file.write(line + "\n")
                places.append(places[-1] + own)
    except OSError as error:
        raise of_file(path, error) from error
    return places


def in_lines(pool, address, line_size):
    """Whether the address is in a cache line of the pool."""
    return pool.origin // line_size <= address // line_size <= (pool.end - 1) // line_size
