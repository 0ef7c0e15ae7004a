"""Checkers that hang, die or write without end, bases that are missing or short, runs that are stopped, and large pools."""
import os
import pathlib
import re
import signal
import subprocess
import time

from replay_runs import REPLAY, Replayed, counts_of, groups_of, write_trace
from running import unignore, wait_until

TWO_LINES = ["store 0 0x0 01", "store 0 0x40 02", "clwb 0 0x0", "sfence 0"]
IMAGES = {bytes([one] + 63 * [0] + [two] + 63 * [0]) for one, two in ((0, 0), (0, 2), (1, 0), (1, 2))}
LARGE = 1 << 30
# How long one sleeps who is to be found asleep: by this word, which no other run of these tests has.
ASLEEP = f"1234.{os.getpid()}1"


def of_shell(script, *more):
    return ["--", "sh", "-c", script, "x", "{}", *more]


def is_asleep():
    """Whether a process has the word of those that sleep."""
    for path in pathlib.Path("/proc").glob("[0-9]*/cmdline"):
        try:
            if ASLEEP.encode() in path.read_bytes().split(b"\0"):
                return True
        except OSError:
            pass
    return False


def has_child(process):
    return pathlib.Path(f"/proc/{process.pid}/task/{process.pid}/children").read_text() != ""


def nobody_is_asleep():
    """Whether who was ended is gone, which takes the kernel a while on a machine with much else to do."""
    return wait_until(lambda: not is_asleep(), 60)


def rows_of(told):
    """The table, without what differs from run to run."""
    return told.split("\n\n", 1)[1:]


class Faults(Replayed):
    """What may go wrong."""

    def small(self, name="small.trace", lines=(), size=128):
        write_trace(self.folder / name, "pmtrace 2 64", lines or TWO_LINES, bytes(size), 0)
        return name

    def test_checkers_fail_in_their_own_ways(self):
        """Each fails in its own way, and the others go on."""
        trace = self.small()
        for script, words, said in (
            (f"sleep {ASLEEP} & echo begun; wait", ["--seconds", "1"], "checker: no end within 1 s"),
            ("yes", ["--seconds", "1"], "checker: no end within 1 s"),
            ("kill -SEGV $$", [], "checker: died by SIGSEGV"),
            ("exit 3", [], "checker: status 3"),
            ("mkdir $TMPDIR/closed; touch $TMPDIR/closed/file; chmod 0 $TMPDIR/closed; false", [], "checker: status 1"),
            (f"sleep {ASLEEP} & exit 4", [], "checker: status 4"),
            ("printf 'a\\033[2Jb\\n'; false", [], "| a?[2Jb"),
            ("head -c 300000 /dev/zero | tr '\\0' 'z'; echo; echo last; false", [], "| last"),
        ):
            begun = time.monotonic()
            status, told, faults = self.replay([*words, trace, *of_shell(script)])
            self.expect(f"{script}: status", (status, faults, counts_of(told)) == (1, "", (6, 4, 4, 0)), told + faults)
            groups = groups_of(told)
            right = sum(count for count, *_ in groups) == 4 and all(said in rows for *_, rows in groups)
            self.expect(f"{script}: told", right and len(told) < 6000, told[:3000])
            self.expect(f"{script}: time", time.monotonic() - begun < 300, time.monotonic() - begun)
            self.expect(f"{script}: nothing runs on", nobody_is_asleep(), "a child of the checker")

    def test_different_texts_are_told(self):
        """What checkers write that fail on no image: told where it differs, but for paths, which always do."""
        trace, differs = self.small(), "where it did not fail, the checker wrote 2 different texts:"
        for script, texts in (
            ('echo "read $1, kept in $TMPDIR/copy"', []),
            ("true", []),
            ('od -An -tu1 -N1 "$1"', ["2 images, the first is image 1 of place 2:\n               |    0", "2 images, the first is image 2 of "]),
            ('od -An -tu1 -N1 "$1" | grep 1; true', ["2 images, the first is image 1 of place 2:\n               nothing\n"]),
        ):
            status, told, faults = self.replay(["-j", "1", trace, *of_shell(script)])
            self.expect(f"{script}: status", (status, faults, counts_of(told)) == (0, "", (6, 4, 0, 0)), told + faults)
            right = (differs in told) == bool(texts) and all(text in told for text in texts)
            self.expect(f"{script}: the texts", right, told)
        # those of an earlier run count too
        kept, words = self.folder / "texts", [trace, *of_shell('od -An -tu1 -N1 "$1"')]
        for number in range(2):
            status, told, _ = self.replay(["--keep", kept, "--jobs", "1", *words])
            two_each = told.count("2 images, the first is image ") == 2
            self.expect(f"texts that are kept, run {number}", status == 0 and differs in told and two_each, told)
        status, told, _ = self.replay([trace, *of_shell('od -An -tu1 -N1 "$1"; [ "$(od -An -tu1 -j64 -N1 "$1")" -eq 0 ]')])
        self.expect("no texts beside failures", status == 1 and differs not in told, told)

    def test_groups(self):
        """Crashes that keep a store of one site and lose one of another before it are one group; those that keep all up to their last one are by
        what the checker said. Eight groups are told."""
        lines = ["store 0 0x0 01", "clwb 0 0x0", "sfence 0", "store 0 0x8 02", *(f"store 0 0x40 {number:02x}" for number in range(1, 9))]
        sites = ["1 log.c:1 put", "4 log.c:2 put", *(f"{number} log.c:3 mark < put log.c:9" for number in range(5, 13))]
        trace, killed = self.small("late.trace", lines), "as if the program was killed, first at"
        words = ["-j", "1", "--off", "2", "--at", "12", trace, *of_shell("echo of $$; [ $(od -An -tu1 -j64 -N1 $1) -lt 8 ] || exit 3; false")]
        # the first line keeps one store or two, the other from none to eight: with eight the status is another one
        for labels, pair, first, last in ((sites, "kept log.c:3 mark, lost log.c:2 put", "log.c:1 put", "log.c:3 mark"), ([], "kept thread 0, lost thread 0", "thread 0", "thread 0")):
            (self.folder / "late.trace.labels").write_text("".join(f"{label}\n" for label in labels))
            status, told, _ = self.replay(words)
            came = [(count, head, re.findall(r"it ended or wrote otherwise on (\d+) image", rows)) for count, head, rows in groups_of(told)]
            self.expect("groups", status == 1 and sorted(came) == [(1, f"{killed} {last}", []), (8, pair, ["1"]), (9, f"{killed} {first}", [])], told)
        told = self.replay(["--at", "1", self.small(), *of_shell("false")])[1]
        self.expect("no store is kept", [(count, head) for count, head, _ in groups_of(told)] == [(2, f"{killed} the beginning")], told)
        trace = self.small("many.trace", [f"store 0 {4 * number:#x} 01" for number in range(12)])
        told = self.replay(["--at", "12", trace, *of_shell("exit $(od -An -tu1 -v $1 | tr -dc 1 | wc -c | sed s/^0/13/)")])[1]
        self.expect("many groups", len(groups_of(told)) == 8 and "\nand 5 more groups, of 5 images\n" in told, told)

    def test_later_crashes(self):
        """A store that is never flushed is lost by all later crashes: they are one group with the first, whatever they keep last."""
        rounds = [words for at in range(1, 5) for words in (f"store 0 {64 * at:#x} 01", f"clwb 0 {64 * at:#x}", "sfence 0")]
        trace = self.small("later.trace", ["store 0 0x0 01", *rounds], 512)
        (self.folder / "later.trace.labels").write_text("1 list.c:1 fill\n2 list.c:2 push\n5 list.c:3 push\n8 list.c:4 push\n11 list.c:5 push\n")
        # it fails if the first byte is lost and that of the first round is there
        told = self.replay([trace, *of_shell('[ "$(od -An -tu1 -N1 "$1")" -ge "$(od -An -tu1 -j64 -N1 "$1")" ]')])[1]
        groups = [(count, head) for count, head, _ in groups_of(told)]
        self.expect("later crashes", groups == [(counts_of(told)[2], "kept list.c:2 push, lost list.c:1 fill")] and groups[0][0] > 3, told)

    def test_ignored_stores_are_not_lost(self):
        """Stores that need no saving are not among those that a crash loses."""
        trace = self.small("locks.trace", ["store 0 0x0 01", "store 0 0x40 0102030405060708", "store 0 0x50 01"])
        ranges = self.folder / "locks.trace.ignore"
        ranges.write_text("0x44:4\n0x40:4\n")
        words = ["--off", "2", "--at", "3", trace, *of_shell("false")]
        told = self.replay(words)[1]
        lost = re.findall(r"loses (.*)", told)
        self.expect("ranges that are ignored", "loses event 2: " not in told and "loses event 1: store 0 0x0 01" in told, told)
        self.expect("ranges that are ignored: counted", lost[:2] == ["2 stores", "1 store that locks.trace.ignore leaves out"], lost)
        ranges.write_text("label locks.c:3 *\nlabel locks.c:7 take\n0x44:4\n")
        labels = self.folder / "locks.trace.labels"
        labels.write_text("1 locks.c:7 take < main.c:2\n2 locks.c:3 hold\n3 locks.c:33 hold\n")
        lost = re.findall(r"loses (.*)", self.replay(words)[1])
        self.expect("places that are ignored", lost == ["1 store", "2 stores that locks.trace.ignore leaves out"], lost)
        labels.unlink()
        ranges.write_text("0x44:4\n64 to 68\n")
        status, told, faults = self.replay(words)
        self.expect("ranges that are none", (status, told) == (3, "") and "locks.trace.ignore:2: '64 to 68' is no range" in faults, faults)

    def test_held_lines(self):
        """A line that is never flushed and stored to in each round, held by its address or by its place."""
        rounds = [[("store 0 0x1000 01", "stats.c:9 bump"), ("store 0 0x1040 02", "log.c:1 put"), ("clwb 0 0x1040", "log.c:2 put"), ("sfence 0", "log.c:3 put")]] * 3
        events = [event for round in rounds for event in round]
        trace = self.folder / "held.trace"
        write_trace(trace, "pmtrace 2 64", [words for words, _ in events], bytes(128), 0x1000)
        trace.with_name("held.trace.labels").write_text("".join(f"{number} {label}\n" for number, (_, label) in enumerate(events, 1)))
        for words, images in (([], 4), (["--hold", "0x1000"], 2), (["--hold", "stats.c:*"], 2), (["--hold", "0x1040", "--hold", "stats.c:9 bump"], 2)):
            status, told, faults = self.replay([*words, trace, *of_shell("true")])
            self.expect(f"{words}", (status, faults, counts_of(told)[1]) == (0, "", images), told + faults)

    def test_folders_around_stay(self):
        """What a checker leaves is removed. No folder around its own changes, nor what its links lead to."""
        trace, outside, kept = self.small(), self.empty_folder("outside"), self.empty_folder("of_results")
        around = (self.temporary, outside, kept)
        for folder in around:
            folder.chmod(0o755)
        for script, words in (
            ("true", []),
            ("true", ["--keep", kept]),
            ("rm -r $TMPDIR", []),
            (f"ln -s {outside} $TMPDIR/link", []),
            (f"rm -r $TMPDIR; ln -s {outside} $TMPDIR", []),
            ("rm -r $TMPDIR; touch $TMPDIR", []),
            ("mkdir -p $TMPDIR/a/b; touch $TMPDIR/a/b/c; chmod 0 $TMPDIR/a/b $TMPDIR/a", []),
        ):
            status, told, faults = self.replay([*words, trace, *of_shell(script)])
            self.expect(f"{words} {script}: status", (status, faults) == (0, ""), told + faults)
            modes = [folder.stat().st_mode & 0o777 for folder in around]
            self.expect(f"{words} {script}: the folders around", modes == [0o755] * 3, [oct(mode) for mode in modes])

    def test_images_are_kept_as_made(self):
        """What the checker does to its image is not seen in others, nor in what is kept."""
        kept = self.folder / "kept"
        words = ["--keep", kept, self.small(), *of_shell('od -An -tx1 -v "$1" | tr -d " \\n"; echo; head -c 200 /dev/urandom > "$1"; false')]
        status, told, faults = self.replay(words)
        seen = {bytes.fromhex(line) for line in re.findall(r"^ +\| ([0-9a-f]+)$", told, re.M)}
        self.expect("images are written to", (status, faults) == (1, "") and len(seen) <= 4, told + faults)
        found = [path.read_bytes() for path in sorted(kept.glob("image*"))]
        self.expect("images are kept", len(found) == 4 and set(found) == IMAGES, found)
        self.expect("nothing else is kept", {path.name for path in kept.iterdir()} == {"state.jsonl", *(f"image{n}" for n in range(1, 5))}, told)

    def test_name_like_an_option(self):
        """A trace whose name begins with - stands behind --, as explain tells it."""
        name = self.small("-x.trace")
        for words in ([], ["--at", "1-2"]):
            status, told, faults = self.replay([*words, "--", name, *of_shell("false")])
            self.expect(f"{words}", (status, faults) == (1, "") and "--out crash.pool ./-x.trace && sh" in told and "./-x.trace > crash.svg" in told, told + faults)

    def test_refusals(self):
        trace, always = self.small(), of_shell("true")
        short = self.small("short.trace", size=64)
        bad = self.small("bad.trace")
        (self.folder / "bad.trace.origin").write_text("4096\n")
        none = self.small("none.trace")
        (self.folder / "none.trace.base").unlink()
        broken = self.small("broken.trace", ["store 0 0x7 0102"])
        other = self.empty_folder("other")
        (other / "mine").write_text("of somebody")
        for words, wanted, said in (
            ([none, *always], 4, "none.trace.base is not there: the recorders write it with PMTRACE_BASE=1"),
            ([short, *always], 3, "short.trace: event 2: store 0 0x40 02 lies in no pool: short.trace.base has the 64 bytes from 0x0 on"),
            ([bad, *always], 3, "bad.trace.origin: not one line with an address"),
            ([broken, *always], 3, "trace line 2"),
            (["nothing.trace", *always], 4, "nothing.trace"),
            ([trace, "--", "sh", "-c", "true"], 2, "has {}"),
            ([trace, "--", "no-such-checker", "{}"], 2, "no-such-checker: there is no such program"),
            ([trace], 2, "no checker is given"),
            (always, 2, "no trace is given"),
            (["--at", "3-5", trace, *always], 2, "pmtrim image: place past end 4"),
            (["--at", "5-3", trace, *always], 2, "is no place"),
            (["--off", "65", trace, *always], 2, "65 is no number from 0 to 64"),
            (["--hold", "stats.c:*", trace, *always], 2, "--hold stats.c:*: no store has this place in its label"),
            (["--frob", trace, *always], 2, "unrecognized arguments: --frob"),
            (["--keep", other, trace, *always], 2, "there are other files in it"),
        ):
            status, told, faults = self.replay(words)
            self.expect(f"{words}", (status, told) == (wanted, "") and said in faults and faults.count("\n") == 1, f"{status} {told} {faults}")
        self.expect("another's file stays", (other / "mine").read_text() == "of somebody", "it is gone")

    def test_no_room_for_an_image(self):
        """Where no file may be long an image can't be written, and a checker's file neither."""
        large = self.small("wide.trace", size=1 << 20)
        status, _, faults = self.call(["bash", "-c", 'ulimit -f 100; exec "$@"', "x", REPLAY, large, *of_shell("true")])
        self.expect("no room for an image", status == 4 and "pmtrim image" in faults and faults.count("\n") == 1, faults)
        self.expect("no room: nothing is left", not list(self.temporary.iterdir()), list(self.temporary.iterdir()))
        status, told, _ = self.call(["bash", "-c", 'ulimit -f 100; exec "$@"', "x", REPLAY, self.small(), *of_shell('head -c 1000000 /dev/zero > "$1"')])
        self.expect("a checker that fills the disk", status == 1 and counts_of(told) == (6, 4, 4, 0), told)

    def test_a_stopped_run_goes_on(self):
        """A run that is stopped leaves no process and no image, and the same words go on."""
        lines = [line for at in range(8) for line in (f"store 0 {8 * at:#x} 01", "clwb 0 0x0", "sfence 0")]
        trace, gate = self.small("long.trace", lines), self.empty_folder("gate")
        # three checkers go on, and the others when the gate is open
        go_on = f'until [ -e {gate}/open ] || mkdir {gate}/1 || mkdir {gate}/2 || mkdir {gate}/3; do sleep 0.1; done 2> /dev/null'
        script = f'{go_on}; echo seen; [ "$(od -An -tu1 -j40 -N1 "$1")" -eq 0 ]'
        (gate / "open").touch()
        _, told, _ = self.replay(["--jobs", "2", trace, *of_shell(script)])
        wanted = rows_of(told)
        for number in (signal.SIGINT, signal.SIGTERM):
            kept, gate = self.folder / f"stopped{number}", self.empty_folder("gate")
            words = [REPLAY, "--jobs", "2", "--keep", kept, trace, *of_shell(script)]
            streams = {"stdout": subprocess.PIPE, "stderr": subprocess.PIPE, "text": True}
            process = subprocess.Popen([str(word) for word in words], cwd=self.folder, env={**os.environ, **self.known}, preexec_fn=unignore, **streams)
            state = kept / "state.jsonl"
            wait_until(lambda: state.exists() and state.read_text().count("\n") >= 4)
            process.send_signal(number)
            told, faults = process.communicate(timeout=300)
            self.expect(f"{number.name}: status", process.returncode == -number and "stopped" in faults, (process.returncode, told, faults))
            first = re.match(r"long\.trace: stopped at place \d+ of 24; the same words go on; this is of the images until then\n", told)
            self.expect(f"{number.name}: said in the answer", first is not None and counts_of(told) is not None, told)
            self.expect(f"{number.name}: what is left", not (kept / "work").exists() and not list(self.temporary.iterdir()), list(kept.iterdir()))
            with open(state, "a") as file:
                file.write('{"image": "half')
            (gate / "open").touch()
            status, told, faults = self.replay(words[1:])
            counts = counts_of(told)
            self.expect(f"{number.name}: it goes on", (status, faults, counts) == (1, "", (24, 9, 3, 3)), told + faults)
            self.expect(f"{number.name}: the same table", rows_of(told) == wanted, told)

    def test_stopped_at_once(self):
        """A run that is stopped before there is an image says so too: here pmtrim does not answer. In most runs it is begun just then."""
        for number in range(10):
            self.stop_at_once("as pmtrim begins" if number else "as pmtrim runs", has_child if number else lambda _: is_asleep())

    def stop_at_once(self, when, is_time):
        slow = self.folder / "slow"
        slow.write_text(f"#!/bin/sh\nexec sleep {ASLEEP}\n")
        slow.chmod(0o755)
        words = [str(word) for word in (REPLAY, self.small(), *of_shell("true"))]
        environment = {**os.environ, **self.known, "PMTRIM": str(slow)}
        streams = {"stdout": subprocess.PIPE, "stderr": subprocess.PIPE, "text": True}
        process = subprocess.Popen(words, cwd=self.folder, env=environment, **streams)
        wait_until(lambda: is_time(process), pause=0)
        process.send_signal(signal.SIGTERM)
        told, faults = process.communicate(timeout=300)
        wanted = (-signal.SIGTERM, "small.trace: stopped before the first image\n", "")
        self.expect(f"stopped {when}", (process.returncode, told, faults) == wanted, (process.returncode, told, faults))
        self.expect(f"stopped {when}: what is left", nobody_is_asleep() and not list(self.temporary.iterdir()), "something")

    def test_results_of_another_run_are_refused(self):
        """Results of another run are not taken for this one's."""
        kept, trace = self.folder / "results", self.small()
        self.expect("results are kept", self.replay(["--keep", kept, trace, *of_shell("true")])[0] == 0, "it failed")
        for words, said in (([trace, *of_shell("false")], "another checker"), (["--off", "2", trace, *of_shell("true")], "another --off")):
            status, _, faults = self.replay(["--keep", kept, *words])
            self.expect(f"{said} is refused", status == 2 and said in faults, faults)
        status, told, _ = self.replay(["--keep", kept, trace, *of_shell("true")])
        self.expect("all is known", (status, counts_of(told)) == (0, (6, 4, 0, 4)), told)

    def test_a_pool_of_1_GiB(self):
        """A pool of 1 GiB."""
        trace = self.small("large.trace", [f"store 0 {LARGE - 1:#x} 07", f"clwb 0 {LARGE - 64:#x}", "sfence 0"], 0)
        with open(self.folder / "large.trace.base", "wb") as file:
            file.truncate(LARGE)
        script = '[ "$(stat -c %s "$1")" -eq 1073741824 ] && tail -c 1 "$1" | od -An -tu1 | tr 07 az; false'
        status, told, faults = self.replay(["--jobs", "1", trace, *of_shell(script)])
        self.expect("a pool of 1 GiB", (status, sorted(re.findall(r"\| +(\w)$", told, re.M))) == (1, ["a", "z"]), told + faults)
