#!/usr/bin/env python3
"""Whether `nuchapay check` marks the token of a refusal, and says what helps.

    tools/marks.py NUCHAPAY

Each text of examples/nuchapay/marks is checked: the refusal has to have the number, the line, the column and the mark that stand there,
on standard error, without and with colours. So are the scripts of `nuchapay explain` that are refused: each has to have a mark, on the line
that is shown.

Each file of examples/nuchapay/mistakes is a text with a mistake, then a line `== says` with all that has to be said of it, and where a fix is
offered a line `== fixed` with the text that the fix gives. What `--format json` says has to have the same number, place and texts, and a
text that was fixed has to be accepted, or refused further on. Where its name begins with `swift_`, the text is that of a file
mistake.swift, and no fix is offered. Status 0 where all agrees.
"""
import json
import os
import re
import subprocess
import sys
import tempfile

TOP = os.path.dirname(os.path.dirname(os.path.abspath(__file__)))
TABLE = os.path.join(TOP, "examples", "nuchapay", "marks")
MISTAKES = os.path.join(TOP, "examples", "nuchapay", "mistakes")
NUMBERS = [f"S{number}" for number in range(1, 14)]
ESCAPE = re.compile(r"\x1b\[[0-9;]*m")


class Row:
    """A text, and the refusal that it has to have."""

    def __init__(self, number, lines):
        marks = [place for place, line in enumerate(lines) if re.fullmatch(r"\s*\^+", line)]
        if len(marks) != 1:
            sys.exit(f"{TABLE}: a text of {number} has {len(marks)} marks")
        mark = lines[marks[0]]
        self.number, self.line = number, marks[0]
        self.column, self.width = mark.index("^") + 1, mark.count("^")
        self.text = "\n".join(lines[: marks[0]] + lines[marks[0] + 1:])


def rows():
    with open(TABLE, encoding="utf8") as file:
        parts = ("\n" + file.read().removesuffix("\n")).split("\n== ")[1:]
    return [Row(part.split("\n")[0], part.split("\n")[1:]) for part in parts]


class Mistake:
    """A text with a mistake, what is said of it, and the text that a fix gives, or none."""

    def __init__(self, name):
        self.name = name
        with open(os.path.join(MISTAKES, name), "rb") as file:
            self.text, after = file.read().split(b"== says\n")
        self.says, _, fixed = after.partition(b"== fixed\n")
        self.fixed = fixed or None


def mistakes():
    return [Mistake(name) for name in sorted(os.listdir(MISTAKES))]


def diagnostic(program, text, *words):
    """What `nuchapay check --format json` says of a text that is refused; none where it is accepted."""
    ran = subprocess.run([program, "check", "--format", "json", *words], input=text, capture_output=True, check=False)
    told = json.loads(ran.stdout)
    if ran.stderr or told["file"] != "<stdin>" or ran.returncode != (0 if told["accepted"] else 3):
        raise ValueError(f"it ends with {ran.returncode}, and says {ran.stdout!r} and {ran.stderr!r}")
    return None if told["accepted"] else told["diagnostics"][0]


def place_faults(text, found):
    """What is otherwise with the bytes, the line and the column of something that is found in a text."""
    before = text[:found["from"]]
    if not 0 <= found["from"] <= found["to"] <= len(text):
        yield "its bytes do not lie in the text"
    elif (found["line"], found["column"]) != (before.count(b"\n") + 1, len(before) - before.rfind(b"\n")):
        yield "its line and column are not those of its bytes"


def told_faults(text, found):
    """What of JSON is not as the text that is said has it."""
    seconds = re.findall(r"(?m)^note: (.*)\n *--> <stdin>:(\d+):(\d+)$", text)
    second = found["second"]
    wanted = [(second["label"], str(second["line"]), str(second["column"]))] if second else []
    if (found["severity"], found["code"], found["line"], found["column"]) != ("error", *mark_of(text)[:3]):
        yield "JSON has another number or place"
    if seconds != wanted:
        yield "JSON has another second place"
    if f" = help: {found['help']}\n" not in text or bool(found["expected"]) != (" = note: " in text):
        yield "JSON has other help"
    if f" = note: {found['expected']}\n" not in text and found["expected"]:
        yield "JSON expects something else"


def fix_faults(program, mistake, found):
    """What is otherwise with the fix of a mistake."""
    fix = found["fix"]
    fixed = mistake.text[:fix["from"]] + fix["text"].encode() + mistake.text[fix["to"]:] if fix else None
    if fixed != mistake.fixed:
        yield f"a fix gives {fixed!r}"
    elif fixed is not None:
        after = diagnostic(program, fixed)
        if after and after["code"] == found["code"] and len(fixed) - after["from"] >= len(mistake.text) - found["from"]:
            yield "what was fixed is not read further"


def swift_faults(program, mistake):
    """What is otherwise with what is said of a mistake in a Swift file."""
    with tempfile.TemporaryDirectory() as folder:
        with open(os.path.join(folder, "mistake.swift"), "wb") as file:
            file.write(mistake.text)
        ran = subprocess.run([program, "check", "mistake.swift"], cwd=folder, capture_output=True, check=False)
    if (ran.returncode, ran.stdout, ran.stderr) != (3, b"", mistake.says):
        yield f"it ends with {ran.returncode}, and says\n{ran.stderr.decode(errors='replace')}"
        return
    found = diagnostic(program, mistake.text, "--language", "swift")
    yield from place_faults(mistake.text, found)
    yield from told_faults(mistake.says.decode().replace("mistake.swift", "<stdin>"), found)
    if found["fix"]:
        yield "a fix is offered"


def mistake_faults(program, mistake):
    """What is otherwise with what is said of a mistake."""
    if mistake.name.startswith("swift_"):
        yield from (f"{mistake.name}: {fault}" for fault in swift_faults(program, mistake))
        return
    ended, out, _ = said(program, mistake.text)
    told = subprocess.run([program, "check"], input=mistake.text, capture_output=True, check=False).stderr
    if (ended, out) != (3, b"") or told != mistake.says:
        yield f"{mistake.name}: it ends with {ended}, and says\n{told.decode(errors='replace')}"
        return
    found = diagnostic(program, mistake.text)
    for part in filter(None, (found, found["second"], found["fix"])):
        yield from (f"{mistake.name}: {fault}" for fault in place_faults(mistake.text, part))
    yield from (f"{mistake.name}: {fault}" for fault in told_faults(mistake.says.decode(), found))
    yield from (f"{mistake.name}: {fault}" for fault in fix_faults(program, mistake, found))


def said(program, text, *words):
    """How `nuchapay check` ends, and what it says, of a text."""
    given = text if isinstance(text, bytes) else text.encode()
    ran = subprocess.run([program, "check", *words], input=given, capture_output=True, check=False)
    return ran.returncode, ran.stdout, ran.stderr.decode(errors="replace")


def mark_of(text):
    """Of what is said: the number, the line, the column and the width of the mark, where it has these."""
    head = re.match(r"error\[(\w+)\]: .*\n *--> <stdin>:(\d+):(\d+)\n", text)
    under = re.search(r"(?m)^( *) \| ( *)(\^+)$", text)
    if not head or not under or len(under.group(2)) + 1 != int(head.group(3)) or len(under.group(1)) != len(head.group(2)):
        return None
    return head.group(1), int(head.group(2)), int(head.group(3)), len(under.group(3))


def row_faults(program, row):
    ended, out, text = said(program, row.text)
    wanted = row.number, row.line, row.column, row.width
    if (ended, out) != (3, b"") or mark_of(text) != wanted:
        yield f"{row.number}, line {row.line}, column {row.column}, width {row.width}: it ends with {ended}, and says\n{text}"
    if "\x1b" in text:
        yield f"{row.number}: escapes without colours"
    coloured = said(program, row.text, "--color", "always")[2]
    if "\x1b" not in coloured or ESCAPE.sub("", coloured) != text:
        yield f"{row.number}: with colours it says {coloured!r}"


def page_faults(program, number):
    """What is otherwise with the script of a page."""
    page = subprocess.run([program, "explain", number], capture_output=True, check=True).stdout.decode()
    script = re.search(r"(?ms)^For example:\n\n(.*?\n)(?=\n|\Z)", page)
    text = re.sub("(?m)^    ", "", script.group(1))
    found = mark_of(said(program, text)[2])
    if found is None or found[0] != number:
        yield f"the script of {number} has no mark"


def main():
    if len(sys.argv) != 2:
        sys.exit(__doc__)
    program = os.path.abspath(sys.argv[1])
    found = rows()
    faults = [fault for row in found for fault in row_faults(program, row)]
    faults += [fault for number in NUMBERS for fault in page_faults(program, number)]
    made = mistakes()
    faults += [fault for mistake in made for fault in mistake_faults(program, mistake)]
    for number in NUMBERS:
        if all(row.number != number for row in found):
            faults.append(f"{number} has no text")
    for fault in faults:
        print(fault)
    print(f"{len(found)} marks of refusals, {len(NUMBERS)} pages and {len(made)} mistakes, {len(faults)} otherwise")
    sys.exit(bool(faults))


if __name__ == "__main__":
    main()
