"""What programs say of themselves, as a table: the help of each and of its commands, which all have one layout."""
import re
import subprocess
from dataclasses import dataclass, field

FILES, FOLDERS, COMMANDS, NOTHING = "files", "folders", "commands", "nothing"
# What a word stands for, by the name that help has for it.
KINDS = {"FILE": FILES, "TRACE": FILES, "SCRIPT": FILES, "BASE": FILES, "PREFIX": FILES, "PART": FILES, "OUT": FILES, "REPORT": FILES, "DIR": FOLDERS, "PROGRAM": COMMANDS, "CHECKER": COMMANDS, "COMMAND": COMMANDS}
HEADINGS = ("Commands:", "Arguments:", "Options:")
# Lines that begin a paragraph of their own.
OPENING = ("Statuses: ", "Example: ")
DEEPEST = 6  # the spaces before an entry; what stands deeper goes on with its text


@dataclass
class Option:
    """An option: its long name, and its short one or none; what its value is called, or nothing; and what stands between the two."""

    name: str
    short: str
    link: str
    value: str
    text: str

    @property
    def choices(self):
        """The values that it takes, where they are named."""
        listed = re.search(r"\[possible values: ([^]]*)\]", self.text)
        if listed:
            return listed[1].split(", ")
        return self.value.split("|") if "|" in self.value else []

    @property
    def kind(self):
        """What its value is; None where it takes none."""
        return kind_of(self.value) if self.value else None

    @property
    def repeats(self):
        return "more than once" in self.text or "may be repeated" in self.text

    @property
    def brief(self):
        return brief(self.text)


@dataclass
class Argument:
    """A word that is no option: its name, how help writes it, and its text."""

    name: str
    shown: str
    text: str

    @property
    def kind(self):
        return kind_of(self.name)


@dataclass
class Command:
    """A program or one of its commands."""

    name: str
    about: str = ""
    usage: list = field(default_factory=list)
    commands: list = field(default_factory=list)
    arguments: list = field(default_factory=list)
    options: list = field(default_factory=list)
    notes: list = field(default_factory=list)

    @property
    def own_name(self):
        """Its name without the program's."""
        return self.name.rpartition(" ")[2]

    @property
    def statuses(self):
        """Each status, and what it means."""
        lines = [note.removeprefix("Statuses: ") for note in self.notes if note.startswith("Statuses: ")]
        return [tuple(entry.split(" ", 1)) for line in lines for entry in re.split(r"; (?=\d)", line.rstrip("."))]

    @property
    def examples(self):
        return [note.removeprefix("Example: ") for note in self.notes if note.startswith("Example: ")]

    @property
    def texts(self):
        """The notes but for examples."""
        return [note for note in self.notes if not note.startswith("Example: ")]


def kind_of(name):
    return KINDS.get(name.partition(".")[0], NOTHING)


def brief(text):
    """The first part of a text, in which it says what matters."""
    text = re.sub(r" ?\[(default|possible values): [^]]*\]", "", text)
    return re.split(r"; |\. |\.$", text)[0]


def paragraphs_of(lines):
    """Joins lines that were broken; an empty line ends a paragraph."""
    found = [""]
    for line in lines:
        if not line.strip() or line.startswith(OPENING):
            found.append("")
        found[-1] = f"{found[-1]} {line.strip()}".strip()
    return [text for text in found if text]


def option_of(head, text):
    """The option that an entry begins with, as `-h, --help`, `--workers <N>`, `--base[=yes|no]` or `--pool=FILE`."""
    found = re.fullmatch(r"(?:(-\w), )?(--[a-z][a-z-]*)(\[=|=| )?(.*)", head)
    if found is None:
        raise ValueError(f"this is no option: {head}")
    short, name, link, value = found.groups()
    value = value.removesuffix("]") if link == "[=" else value
    return Option(name, short or "", link or "", re.sub(r"[<>]", "", value), text)


def argument_of(head, text):
    return Argument(re.sub(r"[][<>]|\.\.+$", "", head), head, text)


def entries_of(lines):
    """The heads and texts of a section's entries."""
    found = []
    for line in lines:
        if not line.strip():
            continue
        if len(line) - len(line.lstrip()) <= DEEPEST:
            head, _, text = line.strip().partition("  ")
            found.append([head, [text.strip()]])
        else:
            found[-1][1].append(line.strip())
    return [(head, " ".join(text).strip()) for head, text in found]


def sections_of(help_text):
    """The lines of a help: those about it, its usage, those below each heading, and its notes."""
    found = {"about": [], "usage": [], "notes": [], **{heading: [] for heading in HEADINGS}}
    place = "about"
    for line in help_text.splitlines():
        if line in HEADINGS:
            place = line
        elif line.startswith("Usage: "):
            place = "usage"
            found[place].append(line.removeprefix("Usage: "))
        else:
            if line and not line.startswith(" ") and place != "about":
                place = "notes"
            found[place].append(line)
    return found


def usage_of(name, lines):
    """The usages, each on one line: a line that does not begin with the name goes on with the one before."""
    found = []
    for line in (line.strip() for line in lines if line.strip()):
        if line.split(" ")[0] == name.split(" ")[0]:
            found.append(line)
        else:
            found[-1] += f" {line}"
    return found


def read_help(name, help_text):
    """What a help says. Its commands have their names and no more."""
    sections = sections_of(help_text)
    return Command(
        name,
        about=" ".join(paragraphs_of(sections["about"])),
        usage=usage_of(name, sections["usage"]),
        commands=[Command(head, about=text) for head, text in entries_of(sections["Commands:"])],
        arguments=[argument_of(head, text) for head, text in entries_of(sections["Arguments:"])],
        options=[option_of(head, text) for head, text in entries_of(sections["Options:"])],
        notes=paragraphs_of(sections["notes"]),
    )


def said_by(path, *words):
    """What a program writes for these words. CalledProcessError: it fails."""
    done = subprocess.run([str(path), *words], stdin=subprocess.DEVNULL, stdout=subprocess.PIPE, text=True, check=True)
    return done.stdout


def read_program(path, name):
    """What a program says of itself and of each of its commands."""
    program = read_help(name, said_by(path, "--help"))
    program.commands = [
        command if command.name == "help" else read_help(f"{name} {command.name}", said_by(path, command.name, "--help"))
        for command in program.commands
    ]
    return program
