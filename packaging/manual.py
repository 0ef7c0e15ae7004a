"""Man pages: a page NAME.1.in, in which the lines @USAGE@, @COMMANDS@, @OPTIONS@, @STATUSES@ and @EXAMPLES@ stand for what help says."""
import re

MARKED = re.compile(r"(?P<option>--?[a-zA-Z][a-z-]*)|(?P<value>\b[A-Z]+\b(?:\.[a-z]+)?)")


def escaped(text):
    """A text as roff has it."""
    text = text.replace("\\", "\\e").replace("-", "\\-").replace("'", "\\(aq")
    return f"\\&{text}" if text.startswith(".") else text


def marked(text):
    """The words of a usage: options are bold, what stands for other words is italic."""
    found, end = [], 0
    for match in MARKED.finditer(text):
        font = "B" if match["option"] else "I"
        found += [escaped(text[end : match.start()]), f"\\f{font}{escaped(match[0])}\\fR"]
        end = match.end()
    return "".join([*found, escaped(text[end:])])


def usage_lines(command):
    """Each usage on a line, with the program's and the command's names in bold."""
    lines = []
    for usage in command.usage:
        name = re.match(r"[a-z-]+(?: [a-z]+)?(?= |$)", usage)[0]
        lines += [f".B {escaped(name)}", marked(usage[len(name) :].strip()), ".br"]
    return [line for line in lines[:-1] if line]


def head_of(option):
    """How an option is written."""
    names = [f"\\fB{escaped(name)}\\fR" for name in (option.short, option.name) if name]
    ending = "]" if option.link == "[=" else ""
    value = "|".join(f"\\fI{escaped(word)}\\fR" if word.isupper() else escaped(word) for word in option.value.split("|"))
    return ", ".join(names) + option.link + value + ending


def entries(command):
    """The arguments and options of a command, but for its help."""
    lines = []
    for argument in command.arguments:
        lines += [".TP", marked(argument.shown), escaped(argument.text)]
    for option in command.options:
        if option.name != "--help" or not command.name.count(" "):
            lines += [".TP", head_of(option), escaped(option.text)]
    return lines


def command_lines(program):
    """Each command with what is its own, in the order of help."""
    lines = []
    for command in program.commands:
        if command.name != "help":
            lines += [f".SS {escaped(command.own_name)}", escaped(command.about), ".PP", *usage_lines(command), *entries(command)]
            for text in command.texts:
                lines += [".PP", escaped(text)]
    return lines


def status_lines(program):
    return [line for status, text in program.statuses for line in (".TP", status, escaped(text))]


def example_lines(program):
    found = [example for command in (program, *program.commands) for example in command.examples]
    return [".nf", *(escaped(example) for example in found), ".fi"]


def note_lines(program):
    """What help says at its end, but for statuses and examples."""
    texts = [text for text in program.texts if not text.startswith("Statuses: ")]
    return "\n.PP\n".join(escaped(text) for text in texts).split("\n")


PARTS = {
    "@USAGE@": usage_lines,
    "@NOTES@": note_lines,
    "@COMMANDS@": command_lines,
    "@OPTIONS@": entries,
    "@STATUSES@": status_lines,
    "@EXAMPLES@": example_lines,
}


def page_of(program, template, version):
    """The page of a program. KeyError: the template has a part that there is not."""
    lines = []
    for line in template.replace("@VERSION@", version).splitlines():
        lines += PARTS[line](program) if re.fullmatch("@[A-Z]+@", line) else [line]
    return "\n".join(lines) + "\n"
