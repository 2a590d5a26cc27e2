#!/usr/bin/env python3
"""Writes what shells complete for both programs: completions/ has it for bash, zsh and fish.

    tools/completions.py --write

COMMANDS says what the programs take. Its texts are those of `--help`; tools/completions_test.py compares them, and the files.
"""
import os
import sys
from typing import NamedTuple

TOP = os.path.dirname(os.path.dirname(os.path.abspath(__file__)))
FOLDER = os.path.join(TOP, "completions")


class Option(NamedTuple):
    """An argument that begins with `--`. One without a value is a flag; the value FILE is any file; `K L` are two values."""

    name: str
    text: str
    value: str = ""
    words: tuple[str, ...] = ()  # what its value may be, where that is one of a few words


class Command(NamedTuple):
    """A command of a program, or a program that has none. Operands are as `--help` shows them: `[FILE]` may be missing."""

    name: str
    text: str
    operands: tuple[str, ...]
    options: tuple[Option, ...] = ()


class Program(NamedTuple):
    name: str
    itself: Command  # what it takes before a command, or where it has none
    commands: tuple[Command, ...] = ()


LANGUAGE = Option(
    "language", "Reads a text in this language, whatever its name is; without it a name that ends in .swift is of Swift", "LANGUAGE", ("script", "swift")
)
WORKERS = Option("workers", "Runs the tasks on N threads, from 1 to 8", "N", tuple("12345678"))
QUIET = Option("quiet", "Leaves the journals out of the report")
LIMIT = Option("limit", "Keeps at most N states, from 1 to 10000000", "N")
FROM = Option("from", "Takes the schedule from FILE, which explore --save has written, without a search", "FILE")
# By which schedule a run is made.
SCHEDULES = (
    Option("outcome", "Takes the schedule of outcome K, as explore lists it", "K"),
    Option("schedule", "Takes this schedule, as explore prints it: 't0.0 t1.0 t0.1'", "TURNS"),
    Option("broken", "Takes a schedule to a turn that an invariant undoes, as explore finds it"),
    LIMIT,
    FROM,
)
# Refusals of scripts and of runs, and the words of faults.
TOPICS = (
    *(f"S{number}" for number in range(1, 15)),
    *(f"N{number}" for number in range(1, 6)),
    *"thrown cancelled invariant overflow steps tasks isolation empty depth turns".split(),
)

NUCHAPAY = (
    Command(
        "run", "Runs a script, and prints the journal of each executor, how each task ended, and the fields", ("[FILE]",),
        (
            LANGUAGE,
            WORKERS,
            QUIET,
            Option("values", "Says below each turn which fields it changed"),
            Option("format", "Prints the report as text, or as JSON", "FORMAT", ("text", "json")),
            *SCHEDULES,
        ),
    ),
    Command(
        "why", "Runs a script, and explains one of its turns: what it began with, what it did to the fields, and who changed them meanwhile",
        ("<FILE>", "[TURN]"), (LANGUAGE, WORKERS, *SCHEDULES),
    ),
    Command(
        "check", "Says whether a script is accepted; else why not, where, and what to do", ("[FILE]",),
        (
            LANGUAGE,
            Option("color", "Colours what is said of a refusal: always or never", "WHEN", ("always", "never")),
            Option("format", "Says it as text, or as JSON for an editor, on standard output", "FORMAT", ("text", "json")),
        ),
    ),
    Command("explain", "Explains a refusal or a fault, with a script for which it comes, and the same one mended", ("<TOPIC>",)),
    Command(
        "print", "Prints the printed form of a script, which is the same for texts that spell one script", ("[FILE]",),
        (LANGUAGE, Option("pretty", "Lays the script out: indented, one statement on a line")),
    ),
    Command(
        "show", "Runs a script, and shows the run as a picture", ("[FILE]",),
        (LANGUAGE, WORKERS, Option("format", "A picture, a page for a browser, or a trace for Perfetto and chrome://tracing", "FORMAT", ("svg", "html", "trace")), *SCHEDULES),
    ),
    Command(
        "swift", "Prints a script as a Swift program, for Swift's own runtime", ("[FILE]",),
        (LANGUAGE, Option("plain", "Prints it as somebody would write it, without a runtime")),
    ),
    Command(
        "explore",
        "Lists outcomes that some order of turns leads to, each with its schedule, and says whether each is as expected", ("[FILE]",),
        (
            LANGUAGE,
            LIMIT,
            Option("broken", "Prints the schedule to a turn that an invariant undoes, and nothing else"),
            Option("schedule", "Runs the schedule of outcome K again, and prints the whole report", "K"),
            Option("diff", "Says in what outcomes K and L differ, and from where their schedules do", "K L"),
            Option("expect", "Fails where EXPR, over Actor.field and the values of roots, is 0 in an outcome", "EXPR"),
            Option("no-fault", "Fails where a root ends with a fault in an outcome"),
            Option("format", "Prints what was found as text, as JSON, or as a page for a browser", "FORMAT", ("text", "json", "html")),
            Option("save", "Keeps what was found in FILE as JSON too, for --from", "FILE"),
            FROM,
        ),
    ),
    Command("help", "Print this message or the help of the given subcommand(s)", ("[COMMAND]",)),
)

PROGRAMS = (
    Program(
        "nuchapay",
        Command("nuchapay", "Runs scripts of actors, and answers questions about them", ("<COMMAND>",), (Option("version", "Print version"),)),
        NUCHAPAY,
    ),
    Program(
        "swiftrun",
        Command(
            "swiftrun",
            "Runs a script of actors from standard input, and prints the journal of each executor, how each task ended, and the fields",
            (), (WORKERS, QUIET),
        ),
    ),
)
# How the name of a file ends that a command takes, behind the dot.
ENDINGS = ("actors", "swift")
# What each command takes.
HELP = Option("help", "Print help")


def words_of(operand, program):
    """What an operand may be, where that is one of a few words."""
    return {"TOPIC": TOPICS, "COMMAND": tuple(each.name for each in program.commands)}.get(operand.strip("[]<>"), ())


def is_script(operand):
    return operand.strip("[]<>") == "FILE"


def options_of(command):
    return (*command.options, HELP)


def heading(program, shell):
    return f"# What {shell} completes after {program.name}, written by tools/completions.py."


def bash_values(command):
    """By an option with a value, what that may be."""
    for option in command.options:
        if option.value:
            taken = "files=('*')" if option.value == "FILE" else f"words='{' '.join(option.words)}'"
            yield f"        {command.name}:--{option.name}) {taken} ;;"


def bash_words(command, program):
    """By the word that is completed, and how many operands stand before it, what it may be."""
    globs = " ".join(f"'*.{ending}'" for ending in ENDINGS)
    yield f"                {command.name}:-*) words='{' '.join('--' + option.name for option in options_of(command))}' ;;"
    for place, operand in enumerate(command.operands):
        if is_script(operand):
            yield f"                {command.name}:*:{place}) files=({globs}) ;;"
        elif words_of(operand, program):
            yield f"                {command.name}:*:{place}) words='{' '.join(words_of(operand, program))}' ;;"


def bash(program):
    """What bash reads. It takes --NAME=VALUE for three words."""
    commands = program.commands or (program.itself,)
    # Before its command is there, a program's command has no name.
    first = [program.itself._replace(name="")] if program.commands else []
    takers, of_two = (
        dict.fromkeys("--" + option.name for command in commands for option in command.options if len(option.value.split()) == many) for many in (1, 2)
    )
    counted = "if [[ -z $command ]]; then command=$each; else ((place++)); fi" if program.commands else "((place++))"
    return "\n".join([
        heading(program, "bash"),
        f"_{program.name}() {{",
        "    local word=${COMP_WORDS[COMP_CWORD]} before=${COMP_WORDS[COMP_CWORD - 1]} each at place=0 words=''",
        "    local -a files=()",
        f"    local command='{'' if program.commands else program.name}'",
        "    if [[ $word == = ]]; then word=''; elif [[ $before == = ]]; then before=${COMP_WORDS[COMP_CWORD - 2]}; fi",
        "    for ((at = 1; at < COMP_CWORD; at++)); do",
        "        each=${COMP_WORDS[at]}",
        "        case $each in",
        f"            {' | '.join(takers)}) if [[ ${{COMP_WORDS[at + 1]}} == = ]]; then ((at += 2)); else ((at++)); fi ;;",
        *([f"            {' | '.join(of_two)}) ((at += 2)) ;;"] if of_two else []),
        "            -?*) ;;",
        f"            *) {counted} ;;",
        "        esac",
        "    done",
        "    case $command:$before in",
        *(line for command in commands for line in bash_values(command)),
        "        *)",
        "            case $command:$word:$place in",
        *(line for command in (*first, *commands) for line in bash_words(command, program)),
        "            esac",
        "            ;;",
        "    esac",
        "    if [[ $files ]]; then",
        "        compopt -o filenames 2>/dev/null",
        "        mapfile -t COMPREPLY < <(for each in \"${files[@]}\"; do compgen -f -X \"!$each\" -- \"$word\"; done; compgen -d -- \"$word\")",
        "    else",
        "        mapfile -t COMPREPLY < <(compgen -W \"$words\" -- \"$word\")",
        "    fi",
        "}",
        f"complete -F _{program.name} {program.name}",
        "",
    ])


def quoted(text):
    """A word for zsh."""
    return "'" + text.replace("'", "'\\''") + "'"


def zsh_arguments(command, program):
    """The words for _arguments of a command."""
    endings = "|".join(ENDINGS)
    for option in options_of(command):
        text = option.text.replace("[", "\\[").replace("]", "\\]")
        taken = "_files" if option.value == "FILE" else f"({' '.join(option.words)})"
        value = "".join(f":{each}:{taken}" for each in option.value.split())
        yield quoted(f"--{option.name}{'=' if len(option.value.split()) == 1 else ''}[{text}]{value}")
    for place, operand in enumerate(command.operands, 1):
        what = f'_files -g "*.({endings})"' if is_script(operand) else f"({' '.join(words_of(operand, program))})"
        yield quoted(f"{place}:{operand.strip('[]<>')}:{what}")


def zsh(program):
    """What zsh reads, as a function of its own."""
    lines = [f"#compdef {program.name}", heading(program, "zsh")]
    if not program.commands:
        return "\n".join([*lines, "_arguments \\", " \\\n".join("    " + word for word in zsh_arguments(program.itself, program)), ""])
    before = [word for word in zsh_arguments(program.itself._replace(operands=()), program)]
    lines += [
        f"_{program.name}() {{",
        "    local curcontext=$curcontext state line",
        "    local -A opt_args",
        "    local -a commands=(",
        *(f"        {quoted(f'{command.name}:{command.text}')}" for command in program.commands),
        "    )",
        f"    _arguments -C {' '.join(before)} '1: :->command' '*:: :->arguments'",
        "    case $state in",
        "        command) _describe command commands ;;",
        "        arguments)",
        "            case $words[1] in",
    ]
    for command in program.commands:
        lines += [f"                {command.name})", "                    _arguments \\"]
        lines += [" \\\n".join("                        " + word for word in zsh_arguments(command, program)), "                    ;;"]
    return "\n".join([*lines, "            esac", "            ;;", "    esac", "}", f'_{program.name} "$@"', ""])


def fish_arguments(command, program, condition):
    """The lines for what a command takes."""
    suffixes = "; ".join(f"__fish_complete_suffix .{ending}" for ending in ENDINGS)
    begin = f"complete -c {program.name}" + (f" -n {quoted(condition)}" if condition else "")
    for option in options_of(command):
        value = f" -x -a {quoted(' '.join(option.words))}" if option.words else " -r -F" if option.value == "FILE" else " -x" if option.value else ""
        yield f"{begin} -l {option.name}{value} -d {quoted(option.text)}"
    for operand in command.operands:
        if is_script(operand):
            yield f"{begin} -k -a '({suffixes})'"
        elif words_of(operand, program):
            yield f"{begin} -a {quoted(' '.join(words_of(operand, program)))}"


def fish(program):
    """What fish reads."""
    lines = [heading(program, "fish"), f"complete -c {program.name} -f"]
    if not program.commands:
        return "\n".join([*lines, *fish_arguments(program.itself, program, ""), ""])
    lines += fish_arguments(program.itself._replace(operands=()), program, "__fish_use_subcommand")
    lines += [f"complete -c {program.name} -n __fish_use_subcommand -a {command.name} -d {quoted(command.text)}" for command in program.commands]
    for command in program.commands:
        lines += fish_arguments(command, program, f"__fish_seen_subcommand_from {command.name}")
    return "\n".join([*lines, ""])


def files():
    """Each file of completions/, with its text."""
    found = {}
    for program in PROGRAMS:
        found |= {f"{program.name}.bash": bash(program), f"_{program.name}": zsh(program), f"{program.name}.fish": fish(program)}
    return found


def main():
    if sys.argv[1:] != ["--write"]:
        sys.exit(__doc__)
    os.makedirs(FOLDER, exist_ok=True)
    for name, text in files().items():
        with open(os.path.join(FOLDER, name), "w", encoding="utf8") as file:
            file.write(text)


if __name__ == "__main__":
    main()
