"""The traces that tests run: those of examples/ and those of tests/traces/, where the answers to both stand."""
from program import TOP

EXAMPLES = TOP / "examples"
WORKED = TOP / "tests/traces"


def all_traces():
    """The file of each trace, by name."""
    found = [*EXAMPLES.glob("*.trace"), *WORKED.glob("*.trace")]
    return sorted(found, key=lambda trace: trace.stem)


def trace_of(name):
    """The file of the trace with this name."""
    file = f"{name}.trace"
    return EXAMPLES / file if (EXAMPLES / file).exists() else WORKED / file


def report_of(trace):
    """The file of the report that `check` must write of the trace."""
    return WORKED / f"{trace.stem}.report"


def trimmed_of(trace):
    """The file of the text that `trim` must write of the trace."""
    return WORKED / f"{trace.stem}.trimmed"
