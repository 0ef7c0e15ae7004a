"""Claims in windows against those of the whole run: random programs by parts.c."""
import random
import re
import subprocess

from recording import AS_C, Recording, text_of
from running import run_as_shown

PROGRAMS, CALLS = 80, 60
LINES, PLACES = range(0, 256, 64), range(0, 24, 8)


def random_calls(seed):
    """Calls of three threads on four lines; windows are closed and opened again."""
    choose = random.Random(seed)
    place = lambda: choose.choice(LINES) + choose.choice(PLACES)
    calls, is_open = [], True
    for _ in range(CALLS):
        kind, thread = choose.random(), choose.randrange(3)
        if kind < 0.35:
            calls.append(("store", thread, place(), choose.choice((1, 8, 16))))
        elif kind < 0.65:
            calls.append(choose.choice((("clwb", thread, choose.choice(LINES)), ("sfence", thread))))
        elif kind < 0.68:
            calls.append(("clflush", thread, choose.choice(LINES)))
        elif kind < 0.72:
            calls.append(("persist", thread, place(), 8))
        elif kind < 0.78:
            calls.append(("is_persist", thread, place(), choose.choice((1, 8, 16))))
        elif kind < 0.92:
            calls.append(("is_ordered_before", thread, place(), choose.choice((1, 8)), place(), choose.choice((1, 8))))
        else:
            calls.append(("stop" if is_open else "start", thread))
            is_open = not is_open
    return calls


def judged_claims(calls):
    """Of all claims, the numbers of those in a window; and of these, those of order about a byte that was stored to last before it."""
    inside, aside, last, opened, is_open, number = [], [], {}, 0, True, 0
    for at, call in enumerate(calls):
        if call[0] in ("stop", "start"):
            is_open, opened = call[0] == "start", at
        elif call[0] == "store":
            last.update((byte, at) for byte in range(call[2], call[2] + call[3]))
        elif call[0].startswith("is_"):
            later = range(call[4], call[4] + call[5]) if call[0] == "is_ordered_before" else ()
            if is_open:
                (aside if any(last.get(byte, opened) < opened for byte in later) else inside).append(number)
            number += 1
    return inside, aside


class PartTests(Recording):
    """Whether a claim that passes in a window passes in the whole run."""

    def test_no_claim_passes_in_a_window_alone(self):
        program, set_aside, failing, passing = self.in_c("parts", AS_C, ".c"), 0, 0, 0
        for seed in range(PROGRAMS):
            calls = random_calls(seed)
            inside, aside = judged_claims(calls)
            part, told = self.verdicts(program, f"part{seed}", calls)
            whole, _ = self.verdicts(program, f"whole{seed}", calls, "whole")
            said = f"{len(aside)} claims of order about what was stored last before the window are not in the trace\n" in told
            self.expect(f"parts {seed}: set aside", len(part) == len(inside) and said == bool(aside), f"{len(part)} {len(inside)} {told}")
            wrong = [number for number, verdict in zip(inside, part) if verdict == "pass" and whole[number] == "fail"]
            self.expect(f"parts {seed}: no pass that fails in the whole run", not wrong, wrong)
            set_aside += sum(whole[number] == "fail" for number in aside)
            failing += sum(verdict == whole[number] == "fail" for number, verdict in zip(inside, part))
            passing += sum(verdict == whole[number] == "pass" for number, verdict in zip(inside, part))
        self.expect("parts: of all kinds", set_aside > 5 and failing > 50 and passing > 200, (set_aside, failing, passing))

    def verdicts(self, program, name, calls, *words):
        trace = self.folder / f"{name}.trace"
        text = "".join(" ".join(map(str, call)) + "\n" for call in calls)
        done = subprocess.run([program, trace, *words], input=text, capture_output=True, text=True, timeout=600, check=False)
        self.expect(f"{name} runs", done.returncode in (0, 1) and text_of(trace) != "", done.stderr)
        report = run_as_shown([self.program, "check", trace])[1]
        return re.findall(r"^(?:persist|ordered) \d+ (\w+)$", report, re.M), done.stderr
