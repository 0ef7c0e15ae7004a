"""What five programs say by --help, and the man pages and completions that packaging/pages makes of it, in the shells themselves."""
import re

from checks import Checks
from installed import OTHERS, commands_of, help_of, options_of, programs
from needs import need
from program import TOP
from running import run
from terminal import Terminal

WIDEST = 100
# What bash offers behind words that are no key of its table.
OFFERED_IN_BASH = {("pmtrim", "", ""): [], ("pmtrim", "''", ""): []}
# What is offered, by the words so far; the last one is being typed.
OFFERED = {
    ("pmtrim", "ch"): ["check"],
    ("pmtrim", "help", "dr"): ["draw"],
    ("pmtrim", "check", "--workers", "1"): ["1", "16"],
    ("pmtrim", "check", "-j", "1"): ["1", "16"],
    ("pmtrim", "explain", "--color", "al"): ["always"],
    ("pmtrim", "trim", "--s"): ["--stream"],
    ("pmtrim", "explain", "--lab"): ["--label", "--labels"],
    ("pmtrim", "explain", "--only", "d"): ["dropped"],
    ("pmtrim", "draw", "--la"): ["--labels"],
    ("pmtrim", "image", "--po"): ["--pool"],
    ("pmtrim", "stat", "--la"): ["--labels"],
    ("pmtrim", "parts", "--o"): ["--out", "--overlap"],
    ("pmtrim-replay", "--of"): ["--off"],
    ("pmtrim-suite", "re"): ["record", "report"],
    ("pmtrim-suite", "report", "--fail-on", "o"): ["overwritten"],
    ("pmtrim-suite", "merge", "--ba"): ["--baseline"],
    ("pmtrim-record", "--labels", "y"): ["yes"],
    ("pmtrim-record", "--switch"): ["--switch-every"],
    ("pmtrim-lines", "--v"): ["--version"],
}
BASH = """. "$1/$2.bash"; shift; COMP_WORDS=("$@"); COMP_CWORD=$(($# - 1)); "_${1//-/_}"; printf '%s\\n' "${COMPREPLY[@]}\""""
# What zsh is told first: its completions, and a key that shows the words typed so far.
ZSH = """PS1=; fpath=({folder} $fpath); autoload -Uz compinit; compinit -u -D; LISTMAX=0; unsetopt auto_menu
shown() {{ zle -M -- "typed <$BUFFER>" }}; zle -N shown; bindkey '^T' shown; print ready$((1 + 1))
"""
TABS, SHOW, CLEAR, END = "\t\t", "\x14", "\x15", ">\r"


def shown_in(page):
    """What man shows of a page, and its complaints."""
    told = run(["man", "--warnings", "-l", page], {"MANWIDTH": "200", "LC_ALL": "C.UTF-8"})
    return told.out, told.err


class Help(Checks):
    """Each test goes over all programs."""

    @classmethod
    def setUpClass(cls):
        cls.folder = cls.shared_folder()
        cls.made = run([TOP / "packaging/pages", cls.folder, "1.2.3", *programs()])

    def helps(self):
        """The help of each program and of each command, with the names of both."""
        for path in programs():
            for command in ["", *commands_of(path)]:
                yield path.name, command, help_of(path, *([command] if command else []))

    def test_made(self):
        self.expect_equal("pages are made", self.made, (0, "", ""))
        wanted = {name for path in programs() for name in (f"{path.name}.1", f"{path.name}.bash", f"_{path.name}", f"{path.name}.fish")}
        self.expect_equal("their names", {path.name for path in self.folder.iterdir()}, wanted)

    def test_usage_of_all(self):
        """The usage of a program names options of each command that the command's own usage has, too."""
        for path in programs():
            usage, command = re.search(r"^Usage: .*?^$", help_of(path), re.M | re.S), None
            own = {name: help_of(path, name) for name in commands_of(path)}
            for line in usage[0].splitlines():
                named = re.match(rf"(?:Usage:)? +{path.name} (\w+)", line)
                command = named[1] if named else command
                gone = [option for option in re.findall(r"--[a-z-]+", line) if option not in own.get(command, option)]
                self.expect(f"{path.name} {command}: options of its usage", not gone, gone)

    def test_layout(self):
        for program, command, text in self.helps():
            name = f"{program} {command}".strip()
            for part in (rf"^Usage: {name}\b", "^Options:$", "^Statuses: ", f"^Example: .*{program}"):
                self.expect(f"{name}: {part}", re.search(part, text, re.M), text)
            wide = [line for line in text.splitlines() if len(line) > WIDEST]
            self.expect(f"{name}: at most {WIDEST} columns", text and not wide, wide)

    def test_versions(self):
        number = run([programs()[0], "--version"]).out.split()[1]
        for path in programs():
            told = run([path, "--version"]).out
            self.expect(f"version of {path.name}", re.match(rf"{path.name} {re.escape(number)}\b", told), told)
        for file, line in (("python/pyproject.toml", f'version = "{number}"'), ("rust/Cargo.toml", f'version = "{number}"')):
            self.expect(f"version in {file}", line in (TOP / "recorders" / file).read_text().splitlines(), line)

    def test_man_pages(self):
        """Each option stands in the part of its command, and the page is shown without a complaint."""
        need("man-db", "man")
        need("groff", "groff")
        shown = {path.name: shown_in(self.folder / f"{path.name}.1") for path in programs()}
        for name, (text, complaints) in shown.items():
            self.expect(f"the man page of {name} is shown", not complaints and "SEE ALSO" in text, complaints)
            self.expect(f"the man page of {name} has the version", f"{name} 1.2.3" in text, text[-200:])
        for program, command, text in self.helps():
            page = shown[program][0]
            part = re.search(rf"^   {command}$\n(.*?)(?=^   \w|^\w)", page, re.M | re.S) if command else re.search(r"^OPTIONS\n(.*?)(?=^\w)", page, re.M | re.S)
            self.expect(f"the man page has {program} {command}", part, page)
            for option in options_of(text):
                if part and not (command and option == "--help"):
                    self.expect(f"{program} {command}: {option} in its part", re.search(rf"^ +(-\w, )?{option}\b", part[1], re.M), part[1])
            for status in re.findall(r"(?:Statuses: |; )(\d+) ", " ".join(text.split("Statuses: ")[-1:]) if not command else ""):
                self.expect(f"the man page of {program} has status {status}", re.search(rf"^ +{status} ", page, re.M), page)

    def test_options_in_bash(self):
        for program, command, text in self.helps():
            words = [program, *([command] if command else []), "--"]
            self.expect_equal(f"bash: {' '.join(words)}", sorted(self.in_bash(words)), sorted(options_of(text)))

    def in_bash(self, words):
        told = run(["bash", "-c", BASH, "x", self.folder, *words])
        return told.err or told.out.split()

    def test_offered_in_bash(self):
        for words, wanted in (OFFERED | OFFERED_IN_BASH).items():
            self.expect_equal(f"bash: {' '.join(words)}", sorted(self.in_bash(words)), wanted)
        words = ["pmtrim", "check", "examples/one_persist.tra"]
        self.expect_equal("bash: a file", self.in_bash(words), ["examples/one_persist.trace"])
        words = ["pmtrim-record", "--pool", "=", "examples/one_persist.tra"]
        self.expect_equal("bash: a file behind =", self.in_bash(words), ["examples/one_persist.trace"])

    def test_bash_style(self):
        need("shellcheck", "shellcheck")
        for path in programs():
            told = run(["shellcheck", "-s", "bash", self.folder / f"{path.name}.bash"])
            self.expect(f"shellcheck of {path.name}.bash", told.status == 0, told.out)

    def in_fish(self, words):
        """What fish offers for words, the last of which is being typed."""
        script = f"source {self.folder}/{words[0]}.fish; complete -C '{' '.join(words)}'"
        told = run(["fish", "--no-config", "-c", script])
        return told.err or [line.partition("\t")[0] for line in told.out.splitlines()]

    def test_fish(self):
        need("fish", "fish")
        for program, command, text in self.helps():
            words = [program, *([command] if command else []), "--"]
            self.expect_equal(f"fish: {' '.join(words)}", sorted(self.in_fish(words)), sorted(options_of(text)))
        for words, wanted in OFFERED.items():
            self.expect_equal(f"fish: {' '.join(words)}", sorted(self.in_fish(words)), wanted)

    def test_zsh(self):
        need("zsh", "zsh")
        with Terminal(["zsh", "-f", "-i"], {"TERM": "xterm", "EDITOR": "emacs"}) as zsh:
            self.expect("zsh begins", "ready2" in zsh.typed(ZSH.format(folder=self.folder), "ready2"))
            for program, command, text in self.helps():
                words = " ".join([program, *([command] if command else []), "--"])
                shown = zsh.typed(f"{CLEAR}{words}{TABS}{SHOW}", END)
                missing = [option for option in options_of(text) if not re.search(rf"{option}(?![a-z-])", shown)]
                self.expect(f"zsh: {words}", not missing, f"{missing} of {shown}")
            for words, wanted in OFFERED.items():
                shown = zsh.typed(f"{CLEAR}{' '.join(words)}{TABS}{SHOW}", END)
                self.expect(f"zsh: {' '.join(words)}", all(re.search(rf"(?<![a-z-]){word}(?![a-z-])", shown) for word in wanted), shown)


class Lines(Checks):
    """The words of pmtrim-lines; what it does with labels stands in tests/test_libpmem.py."""

    def test_words(self):
        for words, wanted in (([], "no file is given"), (["--frob"], "there is no option --frob")):
            told = run([OTHERS["pmtrim-lines"], *words])
            self.expect(f"{words}", (told.status, told.out) == (2, "") and wanted in told.err, told)
        told = run([OTHERS["pmtrim-lines"], "none.labels"])
        self.expect("no such file", told.status == 1 and "none.labels" in told.err, told)
