"""Programs with a dozen threads, in turns and freely: for C, C++, Rust and Python."""
import re

from checks import add_tests
from recording import PYTHON, SANITIZED, Recording, events_of, labels_of, rebuilt, source_of, text_of
from running import run_as_shown


class ThreadTests(Recording):
    """The programs threads.c, threads.rs, threads.py."""

    def in_turns(self, name, program):
        """Two runs in one schedule write the same."""
        texts = []
        for number in range(2):
            prefix = self.folder / f"{name}.{number}"
            status, told = run_as_shown([*program, prefix, "turns"], PYTHON)
            self.expect(f"{name} in turns", (status, told) == (0, ""), f"{status} {told}")
            texts.append((text_of(prefix.with_name(prefix.name + ".trace")), text_of(prefix.with_name(prefix.name + ".trace.labels"))))
        self.expect(f"{name}: two runs write the same", texts[0] == texts[1] and len(texts[0][1]) > 1000000, "they differ")
        return texts[0][0]

    def freely(self, name, program):
        """Threads as they come: the stores rebuild the memory, and all that is claimed holds."""
        prefix = self.folder / f"{name}.free"
        status, told = run_as_shown([*program, prefix, "free"], PYTHON)
        self.expect(f"{name} runs freely", (status, told) == (0, ""), f"{status} {told}")
        trace, memory = (prefix.with_name(f"{prefix.name}.{ending}") for ending in ("trace", "memory"))
        last = memory.read_bytes() if memory.exists() else b"none"
        self.expect(f"{name}: the stores rebuild the memory", rebuilt(trace, bytes(len(last))) == last, "they do not")
        numbers = {fields[1] for fields in events_of(trace)}
        self.expect(f"{name}: the threads have their numbers", numbers == set(map(str, range(13))), numbers)
        status, report = self.report(trace)
        self.expect(f"{name}: what is claimed holds", status == 0 and report.count(" pass\n") > 240, report[-200:])

    def forgetting(self, name, program):
        """The flush that is missing is found, and the labels name the lines of the store and of the claim."""
        prefix = self.folder / f"{name}.forget"
        status, told = run_as_shown([*program, prefix, "turns", "forget"], PYTHON)
        self.expect(f"{name} forgets", (status, told) == (0, ""), f"{status} {told}")
        trace = prefix.with_name(prefix.name + ".trace")
        status, report = self.report(trace)
        start, end = (4096 + (5 * 10 + number) * 8192 for number in (7, 8))
        events, labels = events_of(trace), labels_of(trace)
        # the flush after the later memset is of another line than those of the forgotten bytes
        forgotten = {
            number
            for number, fields in enumerate(events, 1)
            if fields[0] == "store" and start <= int(fields[2], 16) < end and "forgotten" in source_of(labels[number])
        }
        lost = {int(number) for number in re.findall(r"^never-persisted (\d+) dirty$", report, re.M)}
        failed = [int(number) for number in re.findall(r"^persist (\d+) fail$", report, re.M)]
        right = status == 1 and len(lost) > 100 and lost == forgotten
        self.expect(f"{name}: the lost stores are found", right, f"{len(lost)} {len(forgotten)}")
        claimed = [source_of(labels[number]) for number in failed]
        self.expect(f"{name}: the failed claim is found", len(claimed) > 0 and all("claimed" in line for line in claimed), claimed)

    def check_language(self, language):
        """What a language writes in turns is what the others write."""
        name, program = f"threads.{language}", self.in_language("threads", language)
        written = self.in_turns(name, program)
        self.freely(name, program)
        self.forgetting(name, program)
        if "by C" not in self.built:
            self.built["by C"] = written if language == "c" else self.in_turns("threads.c", self.in_language("threads", "c"))
        if language != "c":
            self.expect(f"{name} writes what C does", written == self.built["by C"], "they differ")

    def check_sanitized(self, name):
        """No data race and no undefined step in the recorder, as each compiler looks for them."""
        self.freely(f"threads.{name}", [self.in_c("threads", SANITIZED[name], f".{name}")])


add_tests(ThreadTests, ThreadTests.check_language, {f"threads_{language}": language for language in ("c", "cpp", "rs", "py")})
add_tests(ThreadTests, ThreadTests.check_sanitized, {f"sanitized_{name}": name for name in SANITIZED})
