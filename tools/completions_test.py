#!/usr/bin/env python3
"""Tests what shells complete: the table of tools/completions.py, and the files that it writes.

    tools/completions_test.py

The table has to say what `--help` of the built programs says. Where they are not built, it has to agree with the examples of `--help`,
which have parts of it. The files are read by each shell that is there.
"""
import os
import re
import shutil
import subprocess
import tempfile
import unittest

import completions
import pages
from completions import FOLDER, PROGRAMS, TOP, TOPICS, Command, Option, Program, options_of

EXAMPLES = os.path.join(TOP, "examples")
BASH = 'source "$1"; shift; COMP_WORDS=("$@"); COMP_CWORD=$(($# - 1)); "_$1"; printf "%s\\n" "${COMPREPLY[@]}"'


def built(program):
    """The program, where it is built."""
    path = os.path.join(TOP, "crates", program.name, "out", program.name)
    return path if os.access(path, os.X_OK) else None


def usage(program, command):
    """The line of `--help` that says what a command takes."""
    words = [program.name, *([command.name] if command in program.commands else [])]
    return " ".join(["Usage:", *words, *(["[OPTIONS]"] if command.options and command.operands != ("<COMMAND>",) else []), *command.operands])


def takes(command):
    """What a command takes, as `--help` lists it: each option with its value, the words for that, and its text."""
    return {option.name: (option.value, option.words, option.text) for option in options_of(command)}


def told(text):
    """The same, as `--help` of a program or a command lists it."""
    found = {}
    for name, value, line in re.findall(r"(?m)^ +(?:-\w, )?--([\w-]+)(?: <(\w+(?:> <\w+)*)>)? +(.*)$", text):
        words = re.search(r" \[possible values: (.*?)\]", line)
        shown = re.sub(r" \[(?:default|possible values): .*?\]", "", line)
        found[name] = (value.replace("> <", " "), tuple(words[1].split(", ")) if words else (), shown)
    return found


def helped(path, *words):
    return subprocess.run([path, *words, "--help"], capture_output=True, text=True, check=True).stdout


def read(*path):
    with open(os.path.join(*path), encoding="utf8") as file:
        return file.read()


class Completions(unittest.TestCase):
    maxDiff = None

    def test_files_are_what_the_table_says(self):
        found = {name: read(FOLDER, name) for name in os.listdir(FOLDER)}
        self.assertEqual(found, completions.files(), "run tools/completions.py --write")

    def agree(self, program, command, text):
        """Fails where a command's `--help` says otherwise. Words of a value that are not listed there have to stand in its text."""
        table, help_has = takes(command), told(text)
        for name, (value, words, shown) in help_has.items():
            if not words and name in table and all(re.search(rf"\b{word}\b", shown) for word in table[name][1] if not word.isdigit()):
                help_has[name] = (value, table[name][1], shown)
        where = f"tools/completions.py and {program.name} {command.name} --help"
        self.assertEqual(table, help_has, where)
        self.assertIn(usage(program, command), text.splitlines(), where)
        self.assertEqual(command.text, text.splitlines()[0], where)

    def test_table_is_that_of_help(self):
        programs = [(program, built(program)) for program in PROGRAMS]
        for program, path in programs:
            if path:
                text = helped(path)
                self.agree(program, program.itself, text)
                listed = re.findall(r"(?m)^  (\w+) +(.*)$", text.partition("Commands:")[2].partition("Options:")[0])
                self.assertEqual(listed, [(command.name, command.text) for command in program.commands])
                for command in program.commands:
                    if command.name != "help":
                        self.agree(program, command, helped(path, command.name))
        if not any(path for _, path in programs):
            self.skipTest("no program is built")

    def test_table_agrees_with_the_examples_of_help(self):
        nuchapay, swiftrun = PROGRAMS
        for command in (nuchapay.itself, *nuchapay.commands[:-1]):
            name = "help" if command is nuchapay.itself else f"{command.name}_help"
            parts = read(EXAMPLES, "nuchapay", f"{name}.has").splitlines()
            for part in parts:
                options = {"--" + option.name for option in options_of(command)}
                words = {", ".join(option.words) for option in command.options}
                names = {each.name for each in nuchapay.commands} if command is nuchapay.itself else {command.name}
                operands = {operand.strip("[]<>") for operand in command.operands}
                known = options | words | names | operands | {usage(nuchapay, command)}
                texts = [command.text, *(option.text for option in options_of(command))]
                is_known = part in known or part.startswith("Example: ") or any(part in text for text in texts)
                self.assertTrue(is_known, f"examples/nuchapay/{name}.has has {part}, and the table of tools/completions.py does not")
        for part in read(EXAMPLES, "outside", "help.has").splitlines():
            self.assertTrue(any(part in (f"--{option.name}", option.text) or part in option.text for option in options_of(swiftrun.itself)), part)

    def test_topics_are_those_of_the_language(self):
        tables = pages.tables()
        rows = [row for head, rows in tables.items() if head[0] in ("Refusal", "A run's refusal", "Fault") for row in rows]
        found = {row[0].strip("`").split(" ")[0] for row in rows}
        self.assertEqual(set(TOPICS) - {"N1"}, found)

    def complete(self, *words, file=None):
        """What bash completes at the last of these words."""
        file = file or os.path.join(FOLDER, f"{words[0]}.bash")
        ran = subprocess.run(["bash", "--norc", "-c", BASH, "bash", file, *words], cwd=EXAMPLES, capture_output=True, text=True, check=True)
        self.assertEqual(ran.stderr, "")
        return ran.stdout.split()

    def test_bash_completes_each_option(self):
        for program in PROGRAMS:
            for command in (program.itself, *program.commands):
                words = [program.name, *([command.name] if command in program.commands else [])]
                self.assertEqual(self.complete(*words, "--"), ["--" + option.name for option in options_of(command)])
                for option in command.options:
                    if option.value == "FILE":
                        self.assertIn("account.actors", self.complete(*words, "--" + option.name, ""))
                    elif option.value:
                        self.assertEqual(self.complete(*words, "--" + option.name, ""), list(option.words))

    def test_bash(self):
        names = [command.name for command in PROGRAMS[0].commands]
        self.assertEqual(self.complete("nuchapay", ""), names)
        self.assertEqual(self.complete("nuchapay", "ex"), ["explain", "explore"])
        self.assertEqual(self.complete("nuchapay", "help", "s"), ["show", "swift"])
        self.assertEqual(self.complete("nuchapay", "explain", "S1"), ["S1", "S10", "S11", "S12", "S13", "S14"])
        self.assertEqual(self.complete("nuchapay", "explain", "S1", ""), [])
        self.assertEqual(self.complete("nuchapay", "run", "--format", "=", "j"), ["json"])
        self.assertEqual(self.complete("nuchapay", "show", "--format", "="), ["svg", "html", "trace"])
        self.assertEqual(self.complete("nuchapay", "show", "--format", "=", "svg", "--w"), ["--workers"])
        self.assertEqual(sorted(self.complete("nuchapay", "run", "--workers", "2", "account")), ["account.actors", "account_fixed.actors"])
        self.assertEqual(self.complete("nuchapay", "why", "races/late"), ["races/late_cancel.actors"])
        self.assertEqual(self.complete("nuchapay", "check", "rac"), ["races"])
        self.assertEqual(self.complete("nuchapay", "check", "swift/account."), ["swift/account.swift"])
        self.assertEqual(self.complete("nuchapay", "explore", "--diff", "1", "2", "rac"), ["races"])
        self.assertEqual(self.complete("nuchapay", "why", "account.actors", ""), [])
        self.assertEqual(self.complete("nuchapay", "why", "-", ""), [])
        self.assertEqual(self.complete("swiftrun", "--w"), ["--workers"])
        self.assertEqual(self.complete("swiftrun", ""), [])

    def test_bash_completes_any_file_as_a_value(self):
        command = Command("keep", "Keeps it", ("[FILE]",), (Option("save", "Saves it", "FILE"),))
        program = Program("tool", Command("tool", "Does it", ("<COMMAND>",)), (command,))
        with tempfile.NamedTemporaryFile("w", suffix=".bash", encoding="utf8") as file:
            file.write(completions.bash(program))
            file.flush()
            self.assertEqual(sorted(self.complete("tool", "keep", "--save", "account.", file=file.name))[:2], ["account.actors", "account.out"])
            self.assertEqual(self.complete("tool", "keep", "account.", file=file.name), ["account.actors"])

    @unittest.skipUnless(shutil.which("zsh"), "zsh is not there")
    def test_zsh_reads_its_files(self):
        for program in PROGRAMS:
            subprocess.run(["zsh", "-f", "-n", os.path.join(FOLDER, f"_{program.name}")], check=True)

    @unittest.skipUnless(shutil.which("fish"), "fish is not there")
    def test_fish(self):
        def complete(line):
            words = ["fish", "--no-config", "-c", f"source {FOLDER}/nuchapay.fish; source {FOLDER}/swiftrun.fish; complete -C '{line}'"]
            ran = subprocess.run(words, cwd=EXAMPLES, capture_output=True, text=True, check=True)
            return [each.partition("\t")[0] for each in ran.stdout.splitlines()]

        self.assertEqual(complete("nuchapay ex"), ["explain", "explore"])
        for program in PROGRAMS:
            for command in (program.itself, *program.commands):
                line = program.name + (f" {command.name}" if command in program.commands else "")
                self.assertEqual(sorted(complete(f"{line} --")), sorted("--" + option.name for option in options_of(command)), line)
        self.assertEqual(complete("nuchapay show --format "), ["html", "svg", "trace"])
        self.assertEqual(complete("nuchapay explain over"), ["overflow"])
        self.assertIn("account.actors", complete("nuchapay run acc"))


if __name__ == "__main__":
    unittest.main()
