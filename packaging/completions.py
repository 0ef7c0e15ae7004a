"""Completions for bash, zsh and fish, of what a program's help says."""
from words import COMMANDS, FILES, FOLDERS, NOTHING

TOP = "."  # stands for the program where tables go by command


def quoted(text):
    """A word of a shell."""
    return "'" + text.replace("'", "'\\''") + "'"


def unique(things):
    return list(dict.fromkeys(things))


# bash: tables by command, and a function that looks in them

BASH = """\
# Completion of {name} for bash, made from what its help says.
{function}() {{
  local word=${{COMP_WORDS[COMP_CWORD]}} before=${{COMP_WORDS[COMP_CWORD - 1]}} command={command} kind
  # what stands behind an option, or behind it and =
  local -A behind=(
{behind}
  )
  # what begins with a dash, and what does not
  local -A options=(
{options}
  )
  local -A others=(
{others}
  )
  if [ "$word" = = ]; then
    word='' before=$before=
  elif [ "$before" = = ]; then
    before=${{COMP_WORDS[COMP_CWORD - 2]}}=
  fi
  {top}kind=${{behind["$command $before"]-${{behind["$command ${{before%=}}"]-}}}}
  if [ -z "$kind" ]; then
    [[ $word = -* ]] && kind=${{options[$command]-}} || kind=${{others[$command]-}}
  fi
  COMPREPLY=()
  case $kind in
    ={nothing} | '') ;;
    ={files}) mapfile -t COMPREPLY < <(compgen -f -- "$word") ;;
    ={folders}) mapfile -t COMPREPLY < <(compgen -d -- "$word") ;;
    ={commands}) mapfile -t COMPREPLY < <(compgen -c -- "$word"; compgen -f -- "$word") ;;
    *) mapfile -t COMPREPLY < <(compgen -W "$kind" -- "$word") ;;
  esac
}}
complete -o filenames -F {function} {name}
"""


def bash_rows(rows):
    return "\n".join(f"    [{quoted(key)}]={quoted(value)}" for key, value in rows.items())


def bash_kind(thing):
    """Words to choose from, or the kind of what stands there."""
    return " ".join(thing.choices) if thing.choices else f"={thing.kind}"


def of_each(program):
    """The program and its commands, by the names that the tables have for them."""
    return {TOP: program, **{command.own_name: command for command in program.commands}}


def bash(program):
    each, behind, options, others = of_each(program), {}, {}, {}
    for name, command in each.items():
        behind.update({f"{name} {option.name}{option.link.strip(' [')}": bash_kind(option) for option in command.options if option.kind})
        behind.update({f"{name} {option.short}": bash_kind(option) for option in command.options if option.kind and option.short})
        options[name] = " ".join(unique(option.name for option in command.options)) or "--help"
        others[name] = f"={kind_of_others(command)}"
    if program.commands:
        names = [command.own_name for command in program.commands]
        others[TOP] = " ".join([*names, options[TOP]])
        others["help"] = " ".join(name for name in names if name != "help")
    return BASH.format(
        name=program.name,
        function="_" + program.name.replace("-", "_"),
        command="${COMP_WORDS[1]-}" if program.commands else TOP,
        top=f'[[ $COMP_CWORD -lt 2 || $command = *[a-z]* ]] || return 0 # other words are no key of a table\n  [ "$COMP_CWORD" -gt 1 ] || command={TOP}\n  ' if program.commands else "",
        behind=bash_rows(behind),
        options=bash_rows(options),
        others=bash_rows(others),
        nothing=NOTHING,
        files=FILES,
        folders=FOLDERS,
        commands=COMMANDS,
    )


def kind_of_others(command):
    """What the words are that are no options: the first kind that is one of files or commands."""
    return next((argument.kind for argument in command.arguments if argument.kind != NOTHING), NOTHING)


# zsh: the words of _arguments

ZSH_ACTIONS = {FILES: "_files", FOLDERS: "_files -/", COMMANDS: "_command_names -e", NOTHING: " "}


def zsh_text(text):
    return "".join(f"\\{letter}" if letter in "\\[]:" else letter for letter in text)


def zsh_option(option, name, link):
    """The spec of an option by one of its names, which its value follows by this link."""
    action = f"({' '.join(option.choices)})" if option.choices else ZSH_ACTIONS[option.kind] if option.kind else ""
    value = f"{'::' if option.link == '[=' else ':'}{zsh_text(option.value)}:{action}" if option.kind else ""
    return quoted(f"{'*' if option.repeats else ''}{name}{link}[{zsh_text(option.brief)}]{value}")


def zsh_arguments(command):
    found = []
    for place, argument in enumerate(command.arguments, 1):
        if argument.kind == COMMANDS:
            return [*found, quoted(f"{place}:{argument.name}:{ZSH_ACTIONS[COMMANDS]}"), quoted("*::words:_normal")]
        several = argument.shown.endswith("..")
        found.append(quoted(f"{'*' if several else place}:{zsh_text(argument.name)}:{ZSH_ACTIONS[argument.kind]}"))
    return found


def zsh_options(option):
    """The specs of an option by its long name, and by its short one if it has one."""
    specs = [zsh_option(option, option.name, {" ": "=", "=": "=-", "[=": "=-"}.get(option.link, ""))]
    return [*specs, zsh_option(option, option.short, "+" if option.kind else "")] if option.short else specs


def zsh_specs(command):
    return [*(spec for option in command.options for spec in zsh_options(option)), *zsh_arguments(command)]


def zsh_call(command, indent):
    return f" \\\n{indent}  ".join(["_arguments", *zsh_specs(command)])


def zsh(program):
    lines = [f"#compdef {program.name}", f"# Completion of {program.name} for zsh, made from what its help says."]
    if not program.commands:
        return "\n".join([*lines, zsh_call(program, "")]) + "\n"
    names = [quoted(f"{command.own_name}:{zsh_text(brief_of(command))}") for command in program.commands]
    lines += ["local -a commands=(", *(f"  {name}" for name in names), ")"]
    lines += ["if (( CURRENT == 2 )); then", "  _describe command commands", f"  {zsh_call(program, '  ')}", "  return", "fi"]
    lines += ["local command=$words[2]", "shift words", "(( CURRENT-- ))", "case $command in"]
    for command in program.commands:
        call = "_describe command commands" if command.name == "help" else zsh_call(command, "    ")
        lines += [f"  {command.own_name})", f"    {call}", "    ;;"]
    return "\n".join([*lines, "esac"]) + "\n"


def brief_of(command):
    return command.about.rstrip(".").split(". ")[0]


# fish: a line for each word

FISH_ACTIONS = {FILES: "-r -F", FOLDERS: "-x -a '(__fish_complete_directories)'", COMMANDS: "-x -a '(__fish_complete_command)'", NOTHING: "-x"}


def fish_option(program, condition, option):
    words = [f"complete -c {program.name}", *condition, f"-l {option.name.removeprefix('--')}"]
    words += [f"-s {option.short.removeprefix('-')}"] if option.short else []
    if option.kind:
        words.append(f"-x -a {quoted(' '.join(option.choices))}" if option.choices else FISH_ACTIONS[option.kind])
    return " ".join([*words, f"-d {fish_quoted(option.brief)}"])


def fish_quoted(text):
    return "'" + text.replace("\\", "\\\\").replace("'", "\\'") + "'"


def fish_others(program, condition, command):
    """What is no option: files are offered by themselves."""
    kind = kind_of_others(command)
    if kind == FILES:
        return []
    action = " -a '(__fish_complete_command)'" if kind == COMMANDS else ""
    return [" ".join([f"complete -c {program.name}", *condition, f"-f{action}"])]


def fish(program):
    lines = [f"# Completion of {program.name} for fish, made from what its help says."]
    at_first = ["-n __fish_use_subcommand"] if program.commands else []
    for command in program.commands:
        lines.append(f"complete -c {program.name} {at_first[0]} -f -a {command.own_name} -d {fish_quoted(brief_of(command))}")
    lines += [fish_option(program, at_first, option) for option in program.options]
    lines += fish_others(program, at_first, program)
    for command in program.commands:
        condition = [f"-n '__fish_seen_subcommand_from {command.own_name}'"]
        lines += [fish_option(program, condition, option) for option in command.options]
        lines += fish_others(program, condition, command)
    if program.commands:
        names = " ".join(command.own_name for command in program.commands if command.name != "help")
        lines.append(f"complete -c {program.name} -n '__fish_seen_subcommand_from help' -f -a {quoted(names)}")
    return "\n".join(lines) + "\n"
