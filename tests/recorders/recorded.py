"""Runs of a program under pmtrim-record, each test with one pool and one trace."""
from checks import Checks
from needs import need_recorder
from recording import stores_of
from running import run
from valgrind_runs import COMPILER, RECORD, drawn


class Recorded(Checks):
    """Runs of programs, with a folder for what they are built from, their pools and their traces."""

    @classmethod
    def setUpClass(cls):
        need_recorder()

    def setUp(self):
        self.folder = self.new_folder()
        self.pool, self.trace = self.folder / "pool", self.folder / "trace"

    def build(self, source, *flags):
        built = self.folder / source.stem
        told = run([*COMPILER, "-Wno-unused-parameter", *flags, source, "-o", built])
        self.expect(f"{source.name} is built", told.status == 0, told.err)
        return built

    def record(self, *words):
        """What a run by the seed alone wrote."""
        return drawn(lambda: run([RECORD, "--trace", self.trace, *words]))

    def is_file(self, name):
        """Zeros, with the trace's stores over them, are the pool."""
        last = self.pool.read_bytes()
        rebuilt = bytearray(len(last))
        for address, data in stores_of(self.trace):
            rebuilt[address : address + len(data)] = data
        self.expect(f"{name}: the pool, rebuilt", any(last) and rebuilt == last, "it differs")
