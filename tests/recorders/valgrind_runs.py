"""Running programs under pmtrim-record, for its tests."""
from needs import need_recorder
from program import TOP
from recording import Recording, text_of
from running import run

SOURCES = TOP / "tests/recorders/valgrind"
FOLDER = TOP / "recorders/valgrind"
RECORD = FOLDER / "pmtrim-record"
COMPILER = ["gcc", "-O1", "-g", "-mclwb", "-Wall", "-Wextra", "-Werror", "-pthread", "-I", FOLDER]
UNDRAWN = "turns that were drawn without the seed"


def drawn(record):
    """What a recorded run gives, its standard error last, of the first run of some in which the seed drew each turn. Where a thread gets no
    processor for ten seconds it is told that the seed did not."""
    for _ in range(5):
        found = record()
        if UNDRAWN not in found[-1]:
            break
    return found


class Recorded(Recording):
    """Tests of programs that run under pmtrim-record."""

    @classmethod
    def setUpClass(cls):
        super().setUpClass()
        need_recorder()

    def build(self, name, *flags, source=None):
        built = self.builds / name
        return self.expect_built(built, [*COMPILER, *flags, source or SOURCES / f"{name}.c", "-o", built])

    def record(self, name, words, *options, accepted=True, **more):
        """Runs a program under the recorder: the trace, the status, and what was written."""
        trace = self.folder / f"{name}.trace"
        told = run([RECORD, *options, "--trace", trace, *words], **more)
        if accepted:
            self.report(trace)
        return trace, *told

    def is_text(self, name, trace, wanted):
        self.expect(name, text_of(trace) == "pmtrace 2 64\n" + wanted, f"\n{text_of(trace)}")
