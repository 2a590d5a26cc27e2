#!/usr/bin/env python3
"""Tests what editors/ has: whether each token of each script has the class that it should have, as VS Code and as Vim colour it.

    tools/editors_test.py

Scripts are those of examples/ and what docs/LANGUAGE.md shows. Keywords are those of crates/script_tokens/specs/Keywords.antt: a new one
fails here until CLASSES has it, and then until the editors have it. Vim is asked where it is there.
"""
import functools
import glob
import json
import os
import re
import shutil
import subprocess
import tempfile
import unittest

from script_tree import Reader

TOP = os.path.dirname(os.path.dirname(os.path.abspath(__file__)))
EDITORS = os.path.join(TOP, "editors")
SPECS = os.path.join(TOP, "crates", "script_tokens", "specs")

# Each class by its name in the grammar of VS Code, its group in Vim, and the keywords that have it.
CLASSES = [
    ("storage.type", "actorsDeclaration", "actor executor func invariant let local root var"),
    ("storage.modifier", "actorsModifier", "at fifo on pinned"),
    ("keyword.control", "actorsStatement",
     "add assume await bind cancel check detach else group if next return spawn task throw unless while yield"),
    ("constant.language", "actorsConstant", "background high low medium"),
    ("variable.language", "actorsSpecial", "cancelled priority"),
    ("entity.name.type", "actorsType", ""),
    ("entity.name.function", "actorsFunction", ""),
    ("variable.other", "actorsName", ""),
    ("constant.numeric", "actorsNumber", ""),
    ("keyword.operator", "actorsOperator", ""),
    ("punctuation", "actorsPunctuation", ""),
    ("comment.line.double-slash", "actorsComment", ""),
    ("invalid.illegal.byte", "actorsIllegal", ""),
]
GROUPS = {group: name for name, group, _ in CLASSES} | {"actorsIllegalInComment": "invalid.illegal.byte"}
KEYWORDS = {word: name for name, _, words in CLASSES for word in words.split()}
# After these stands the name of an actor or an executor.
BEFORE_TYPES = ("actor", "assume", "executor", "on")
BLANKS = " \t"
# Bytes that begin no token, beside tokens, and names and numbers that are like one another.
STRAYS = "a & b | c $x 'y' \"z\" [0] \\ ? : ~ ^ / % # \xe9 a1 1a _1 x_2 = == ! != @a -1 // \xe9 & x\n"
NO_TEXT = re.compile(r"[^\t\r\n -~]")


def read(*path):
    """The text of a file, each byte as one character."""
    with open(os.path.join(*path), encoding="latin-1", newline="") as file:
        return file.read()


@functools.cache
def keywords():
    """The keywords of the language: those of Keywords.antt, as Spelling.antt spells them."""
    spelled = dict(re.findall(r'^spelling key\.(\w+) = codes "(\w+)"$', read(SPECS, "Spelling.antt"), re.MULTILINE))
    return {spelled[name] for name in re.findall(r"then Some key\.(\w+)", read(SPECS, "Keywords.antt"))}


@functools.cache
def marks():
    """The marks of the language."""
    return set(re.findall(r'^mark_spelling mark\.\w+ = codes "(.*)"$', read(SPECS, "Spelling.antt"), re.MULTILINE))


def scripts():
    """The scripts that are looked at, by where they come from."""
    found = {os.path.relpath(path, TOP): read(path) for path in glob.glob(os.path.join(TOP, "examples", "**", "*.actors"), recursive=True)}
    found["STRAYS"] = STRAYS
    page = read(TOP, "docs", "LANGUAGE.md")
    found["docs/LANGUAGE.md, the script"] = re.search(r"(?:^    .*\n|\n)+", page, re.MULTILINE).group()
    shown = [text for text in re.findall(r"`([^`\n]+)`", page) if re.search(r"[;{]", text) and ".." not in text]
    found |= {f"docs/LANGUAGE.md, {text}": text.replace("\\|", "|") for text in shown}
    return found


def pieces(text):
    """The tokens and comments of a text, and the bytes that begin none: each with its place."""
    place = 0
    while place < len(text):
        found = Reader.TOKEN.match(text, place)
        if not found or not text.isascii() and NO_TEXT.match(text, place):
            yield place, text[place]
            place += 1
            continue
        if found.group().strip():
            yield place, found.group()
        place = found.end()


def class_of(text, place, piece, before):
    """The class that a token, a comment or a stray byte should have, after the one before it."""
    end = place + len(piece)
    rest = text[end:].lstrip(BLANKS)
    if piece in KEYWORDS:
        return KEYWORDS[piece]
    if re.match(r"[A-Za-z_]", piece):
        at, word = before
        if word in BEFORE_TYPES and not text[at + len(word):place].strip(BLANKS):
            return "entity.name.type"
        return "entity.name.function" if rest[:1] == "(" else "entity.name.type" if rest[:1] == "." else "variable.other"
    if piece.isdigit():
        return "constant.numeric"
    if piece.startswith("//"):
        return "comment.line.double-slash"
    if piece not in marks():
        return "invalid.illegal.byte"
    return "punctuation" if piece in "(){},;." else "keyword.operator"


def wanted(text):
    """The class of each byte of a text; white space has none."""
    classes = [""] * len(text)
    before = (0, "")
    for place, piece in pieces(text):
        name = class_of(text, place, piece, before)
        for at in range(place, place + len(piece)):
            classes[at] = "invalid.illegal.byte" if NO_TEXT.match(text[at]) else name
        before = (place, piece)
    return classes


class Grammar:
    """Gives the bytes of a text their classes, as an editor does by a TextMate grammar of single matches."""

    def __init__(self, patterns):
        self.rules = [(re.compile(rule["match"]), rule) for rule in patterns]

    def colour(self, line, start, end, classes):
        """Notes the classes of a part of a line: of rules that match first, the first one is taken."""
        while start < end:
            found = [(match.start(), place, match) for place, (regex, _) in enumerate(self.rules) if (match := regex.search(line, start, end))]
            if not found:
                return
            _, place, match = min(found, key=lambda each: each[:2])
            rule = self.rules[place][1]
            self.note(match.span(), rule, classes)
            for group, inner in rule.get("captures", {}).items():
                self.note(match.span(int(group)), inner, classes)
                Grammar(inner.get("patterns", [])).colour(line, *match.span(int(group)), classes)
            start = match.end()

    @staticmethod
    def note(span, rule, classes):
        for at in range(*span):
            classes[at] = rule.get("name", classes[at])

    def classes(self, text):
        found = []
        for line in text.split("\n"):
            classes = [""] * (len(line) + 1)
            self.colour(line, 0, len(line), classes)
            found += classes
        return [name.removesuffix(".actors") for name in found[:-1]]


VIM = r"""
filetype on
syntax on
let s:lines = []
for s:file in sort(glob(s:folder . '/*.actors', 0, 1), 'N')
    execute 'edit' s:file
    for s:line in range(1, line('$'))
        let s:names = map(range(1, len(getline(s:line))), {_, column -> synIDattr(synID(s:line, column, 1), 'name')})
        call add(s:lines, join(s:names, ' '))
    endfor
    call add(s:lines, 'end')
endfor
call writefile(s:lines, s:folder . '/classes')
qall!
"""


def has_vim():
    """Whether Vim is there, and not a small one that has no syntax files."""
    return bool(shutil.which("vim")) and "+syntax" in subprocess.run(["vim", "--version"], capture_output=True, text=True, check=False).stdout


def by_vim(texts):
    """The classes of each byte of these texts, but for their LFs, as Vim has them."""
    with tempfile.TemporaryDirectory() as folder:
        for place, text in enumerate(texts):
            with open(os.path.join(folder, f"{place:04}.actors"), "w", encoding="latin-1", newline="") as file:
                file.write(text)
        with open(os.path.join(folder, "script.vim"), "w", encoding="utf8") as file:
            file.write(f"set encoding=latin1 fileencodings=latin1 fileformats=unix\nlet s:folder = '{folder}'\n")
            file.write(f"let &runtimepath = '{EDITORS}/vim,' . &runtimepath\n{VIM}")
        words = ["vim", "-e", "-s", "-N", "-n", "-u", "NONE", "-i", "NONE", "-S", os.path.join(folder, "script.vim")]
        subprocess.run(words, stdin=subprocess.DEVNULL, stdout=subprocess.DEVNULL, stderr=subprocess.DEVNULL, timeout=60, check=False)
        parts = read(folder, "classes").removesuffix("end\n").split("end\n")
    return [[[GROUPS.get(name, name) for name in line.split(" ")] if line else [] for line in part.splitlines()] for part in parts]


class Editors(unittest.TestCase):
    maxDiff = None

    @classmethod
    def setUpClass(cls):
        cls.scripts = scripts()
        cls.grammar = Grammar(json.loads(read(EDITORS, "vscode", "syntaxes", "actors.tmLanguage.json"))["patterns"])

    def compare(self, name, text, found, wants):
        """Fails at the first token that has another class."""
        for place, piece in pieces(text):
            span = slice(place, place + len(piece))
            line = text.count("\n", 0, place) + 1
            self.assertEqual(found[span], wants[span], f"{name}, line {line}: {piece!r} has other classes")
        self.assertEqual(found, wants, f"{name}: what is no token has a class")

    def test_each_keyword_has_a_class(self):
        self.assertEqual(set(KEYWORDS), keywords(), "CLASSES of tools/editors_test.py has other keywords than the language")
        self.assertEqual(set(Reader.KEYWORDS), keywords(), "tools/script_tree.py has other keywords than the language")

    def test_scripts_are_found(self):
        self.assertGreater(len([name for name in self.scripts if name.startswith("examples/")]), 50)
        self.assertGreater(len([name for name in self.scripts if name.startswith("docs/")]), 20)
        seen = {piece for text in self.scripts.values() for _, piece in pieces(text)}
        self.assertEqual(keywords() | marks(), (keywords() | marks()) & seen, "no script has it")

    def test_vscode(self):
        for name, text in self.scripts.items():
            self.compare(name, text, self.grammar.classes(text), wanted(text))

    def test_vscode_knows_keywords_from_names(self):
        for word in sorted(keywords()):
            for text in (word, f"{word}(", f"{word} s", f"{word}s", f"s{word}", f"_{word}.f()", f"{word}1"):
                self.compare(text, text, self.grammar.classes(text), wanted(text))

    def test_vscode_files_name_one_another(self):
        package = json.loads(read(EDITORS, "vscode", "package.json"))
        language, = package["contributes"]["languages"]
        grammar, = package["contributes"]["grammars"]
        json.loads(read(EDITORS, "vscode", language["configuration"]))
        self.assertEqual(language["id"], grammar["language"])
        self.assertEqual(json.loads(read(EDITORS, "vscode", grammar["path"]))["scopeName"], grammar["scopeName"])
        self.assertEqual(language["extensions"], [".actors"])

    def test_vim_has_each_keyword(self):
        lines = re.findall(r"^syntax keyword (\w+) (.*)$", read(EDITORS, "vim", "syntax", "actors.vim"), re.MULTILINE)
        found = {word: GROUPS[group] for group, words in lines for word in re.sub(r"nextgroup=\S+|skipwhite", "", words).split()}
        self.assertEqual(found, KEYWORDS)

    @unittest.skipUnless(has_vim(), "no vim with syntax files is there")
    def test_vim(self):
        texts = self.scripts | {word: f"{word} {word}s s{word} {word}(" for word in sorted(keywords())}
        for (name, text), lines in zip(texts.items(), by_vim(texts.values()), strict=True):
            wants = wanted(text)
            found = []
            for place, line in enumerate(text.removesuffix("\n").split("\n")):
                self.assertEqual(len(lines[place]), len(line), name)
                found += [*lines[place], ""]
            found = found[:len(text)]
            self.compare(name, text, found, wants)


if __name__ == "__main__":
    unittest.main()
