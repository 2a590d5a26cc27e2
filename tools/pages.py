#!/usr/bin/env python3
"""Whether what `nuchapay explain` says agrees with the tables of docs/LANGUAGE.md, and whether its scripts do what they are for.

    tools/pages.py NUCHAPAY

Each refusal of a script, each of a run and each fault of a turn that a table there has is asked for. The table's words have to stand on
the page: the title and what to do, the cause, when a fault comes and what becomes of the turn. Of a refusal the script on the page has to
be refused so by `nuchapay check`, and the fixed one accepted; of a fault a run of the first has to have a task that ends so, and of the
fixed one all tasks have to end with a value. Where the table gives a whole script, the page has that one. Status 0 where all agrees.
"""
import os
import re
import subprocess
import sys

TOP = os.path.dirname(os.path.dirname(os.path.abspath(__file__)))
LABELS = ("When", "Then", "What to do")


def tables():
    """The rows of the tables of LANGUAGE.md, by the heads of their columns; a `|` in code is no edge of a cell."""
    found = {}
    with open(os.path.join(TOP, "docs", "LANGUAGE.md"), encoding="utf8") as file:
        lines = file.read().split("\n")
    rows = None
    for line in lines:
        if not line.startswith("|"):
            rows = None
            continue
        cells = tuple(cell.strip() for cell in line.strip().strip("|").split(" | "))
        if rows is None:
            rows = found.setdefault(cells, [])
        elif not set(line) <= set("|- "):
            rows.append(cells)
    return found


class Page:
    """What the program says of a topic, by parts."""

    def __init__(self, program, topic):
        ran = subprocess.run([program, "explain", topic], capture_output=True, check=False)
        text = ran.stdout.decode()
        self.is_there = ran.returncode == 0
        self.title = text.split("\n")[0][len(topic) + 1:]
        self.parts = dict(re.findall(rf"(?m)^({'|'.join(LABELS)}): (.*)$", text))
        self.scripts = [re.sub("(?m)^    ", "", part).strip() for part in re.findall(r"(?ms)^(?:For example|Mended):\n\n(.*?\n)(?=\n|\Z)", text)]


def status(program, words, script):
    """How the program ends, and what it says, where a script is its standard input."""
    ran = subprocess.run([program, *words], input=script.encode(), capture_output=True, check=False)
    return ran.returncode, (ran.stdout + ran.stderr).decode(errors="replace")


def script_faults(program, page, words, wrong, mark):
    """What the scripts of a page do otherwise: the first has to end with a status and a mark in the text, the fixed one with 0."""
    if not page.scripts:
        return
    ended, said = status(program, words, page.scripts[0])
    if ended != wrong or mark not in said:
        yield f"its script ends with {ended}: {said!r}"
    ended, said = status(program, words, page.scripts[1])
    if ended:
        yield f"its fixed script ends with {ended}: {said!r}"


def differ(page, label, wanted):
    if page.parts.get(label) != wanted:
        yield f"{label} is {page.parts.get(label)!r} and not {wanted!r}"


def refusal_faults(program, row):
    topic, _, title = row[0].strip("`").partition(" ")
    page = Page(program, topic)
    if page.title != title:
        yield f"its title is {page.title!r}"
    yield from differ(page, "What to do", row[2])
    whole = re.fullmatch(r"`([^`]*)`", row[1])
    if whole and page.scripts[:1] != [whole.group(1)]:
        yield f"its script is not {whole.group(1)!r}"
    if not page.scripts and topic != "S14":
        yield "it has no script"
    yield from script_faults(program, page, ["check"], 3, f"error[{topic}]: {title}")


def run_faults(program, row, last):
    topic, _, title = row[0].strip("`").partition(" ")
    page = Page(program, topic)
    if page.title != title:
        yield f"its title is {page.title!r}"
    yield from differ(page, "When", row[1])
    yield from differ(page, "What to do", last if row[2] == "the same" else row[2])


def fault_faults(program, row):
    topic = row[0].strip("`").split(" ")[0]
    page = Page(program, topic)
    yield from differ(page, "When", row[1])
    yield from differ(page, "Then", "the turn " + row[2])
    if not page.scripts:
        yield "it has no script"
    yield from script_faults(program, page, ["run", "--quiet"], 1, f"fault {topic}")


def all_faults(program):
    """Each topic of the tables, and what is otherwise there."""
    found = tables()
    for row in found["Refusal", "A text that is refused so", "What to do"]:
        yield row[0], list(refusal_faults(program, row))
    last = ""
    for row in found["A run's refusal", "Cause", "What to do"]:
        last = last if row[2] == "the same" else row[2]
        yield row[0], list(run_faults(program, row, last))
    for row in found["Fault", "When", "The turn"]:
        yield row[0], list(fault_faults(program, row))


def main():
    if len(sys.argv) != 2:
        sys.exit(__doc__)
    count, failed = 0, 0
    for topic, faults in all_faults(os.path.abspath(sys.argv[1])):
        count += 1
        failed += bool(faults)
        for fault in faults:
            print(f"explain {topic}: {fault}")
    print(f"{count} topics of docs/LANGUAGE.md, {failed} of them otherwise in nuchapay explain")
    sys.exit(failed > 0)


if __name__ == "__main__":
    main()
