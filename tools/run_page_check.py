#!/usr/bin/env python3
"""Looks at the pages that nuchapay show --format html writes, as data and in a browser.

    tools/run_page_check.py NUCHAPAY [SCRIPT..]         each example, or these scripts

Of each script's page the two pieces of JSON are compared with what `run --format json`, `run --values` and `why` say, and with the script.
Then the page is opened in Chromium without a window, where one is on the PATH, from a file and with a script of its own, which does what a
reader would (crates/run_page/page/page_test.js): each turn is chosen in turn, and what the document says of it is compared with the data.
With --pictures FOLDER it takes pictures in three sizes too. Status 0 where all is as it has to be; without a browser it says so.
"""
import argparse
import glob
import html
import json
import os
import re
import shutil
import subprocess
import sys
import tempfile

sys.dont_write_bytecode = True
import run_page

EXAMPLES = os.path.join(run_page.TOP, "examples")
SIZES = ("1280,800", "800,600", "1920,1080")
BROWSERS = ("chromium", "chromium-browser", "google-chrome")
ESCAPES = {"\\u003c": "<", "\\u003e": ">", "\\u0026": "&"}
# How many turns of a script are compared with `why`.
COMPARED = 12
# The cells of the page of a script whose turns give way, worked out by hand.
FOLDED = {"show_html_fold": ["t0.0", "t1.0", "t0.1", "fold", "t1.5", "t0.6"]}


def scripts():
    return sorted(glob.glob(os.path.join(EXAMPLES, "*.actors"))) + sorted(glob.glob(os.path.join(EXAMPLES, "nuchapay", "show_html_*.actors")))


def said_by(program, *words):
    return subprocess.run([program, *words], capture_output=True, check=False).stdout.decode()


def data_of(page):
    """The two pieces of JSON of a page, as they stand there."""
    front, middle, end = run_page.parts()
    if not page.startswith(front) or not page.endswith(end):
        raise ValueError("its front or its end is another one")
    report, found, more = page[len(front):len(page) - len(end)].partition(middle)
    if not found:
        raise ValueError("nothing stands between its two pieces")
    for piece in (report, more):
        if re.search("[<>&]", piece):
            raise ValueError("a byte of its data can be markup")
    return report, more


def plain(piece):
    for escape, byte in ESCAPES.items():
        piece = piece.replace(escape, byte)
    return piece


def noted(text):
    """What `run --values` says below the line of each turn, by the turn: changes, and whether it was kept."""
    found, turn = {}, None
    for line in text.partition("\ntasks\n")[0].splitlines():
        if re.match(r"\d+ t\d+\.\d+ ", line):
            turn = line.split()[1]
            found[turn] = (True, [])
        elif line.startswith("    would have left "):
            found[turn] = (False, found[turn][1] + [line[len("    would have left "):]])
        elif line.startswith("    ") and not re.match(r"    (invariant|t\d+ is) ", line):
            found[turn][1].append(line[4:])
    return found


def name_of(record):
    return f"t{record['task']}.{record['turn']}"


def values_of(report, more):
    """What the page says that each turn did, by the turn."""
    found = {}
    for journal, turns in zip(report["journals"], more["values"]):
        found |= {name_of(record): (turn[0] == "kept", turn[1:]) for record, turn in zip(journal["records"], turns)}
    return found


def data_faults(program, path, report_text, more):
    """What the data of a page say otherwise than the other commands."""
    if plain(report_text) != said_by(program, "run", "--format", "json", path):
        yield "its report is another one than that of `run --format json`"
    with open(path, encoding="ascii") as file:
        if more["source"] != re.sub(r"[\0-\10\13-\37]", " ", file.read()):
            yield "its script is another one"
    if (more["name"], more["workers"]) != (path, 1):
        yield "it has another name, or other workers"
    report = json.loads(report_text)
    # Of a turn that was undone before it changed a field, `run --values` says nothing.
    values = {turn: (kept or not changes, changes) for turn, (kept, changes) in values_of(report, more).items()}
    if values != noted(said_by(program, "run", "--values", path)):
        yield "it says other changes than `run --values`"
    explained = {f"t{task}.{turn}": text for task, turn, text in more["why"][1:]}
    names = [name_of(record) for journal in report["journals"] for record in journal["records"]]
    if len(names) <= more["why"][0] and sorted(names) != sorted(explained):
        yield "it explains other turns than those of the journals"
    for name in names[:COMPARED]:
        if explained.get(name) != said_by(program, "why", path, name):
            yield f"it explains {name} otherwise than `why`"


def order_of(more, word, names):
    """Turns in the order in which the log has this event of them; the last one counts."""
    places = {f"t{task}.{other}": place for place, (event, task, other) in enumerate(more["log"]) if event == word}
    return sorted(names, key=places.get)


def expected_fields(report, more):
    """By the turn, the fields before and after it, and of a turn that was undone what it would have left."""
    fields = {f"{actor}.{field}": str(value) for actor, row in report["fields"].items() for field, value in row.items()}
    values = values_of(report, more)
    turns = order_of(more, "apply", values)
    split = lambda change: re.fullmatch(r"(\S+) (\S+) -> (\S+)", change).groups()
    for turn in reversed(turns):
        if values[turn][0]:
            fields |= {field: before for field, before, _ in map(split, values[turn][1])}
    found = {}
    for turn in turns:
        kept, changes = values[turn]
        after = {field: value for field, _, value in map(split, changes)}
        shown = [[field, value, (after[field] if kept else f"{value} {after[field]}") if field in after else value] for field, value in fields.items()]
        found[turn] = shown
        if kept:
            fields |= after
    return found


def document(browser, page, folder):
    """What the test's script saw in the browser, and what the browser says of the page."""
    with open(os.path.join(run_page.FOLDER, "page_test.js"), encoding="ascii") as file:
        test = file.read()
    page = page.replace("script-src '", f"script-src '{run_page.sum_of(test)}' '", 1)
    place = page.rindex("</body>")
    path = os.path.join(folder, "page.html")
    with open(path, "w", encoding="ascii") as file:
        file.write(f"{page[:place]}<script>{test}</script>\n{page[place:]}")
    words = ["--enable-logging=stderr", "--v=0", "--virtual-time-budget=600000", "--window-size=1280,800", "--dump-dom"]
    ran = subprocess.run(line_of(browser, folder, *words, path), capture_output=True, check=False)
    said = ran.stderr.decode(errors="replace")
    found = re.search(r'<pre id="test">(.*?)</pre>', ran.stdout.decode(errors="replace"), re.DOTALL)
    return json.loads(html.unescape(found.group(1))) if found else None, re.findall(r"CONSOLE.*", said)


def line_of(browser, folder, *words):
    return [browser, "--headless", "--no-sandbox", "--disable-gpu", "--hide-scrollbars", f"--user-data-dir={folder}/browser", *words[:-1], "file://" + words[-1]]


def walk_faults(report, more, seen):
    """What the document says otherwise of a turn that is chosen."""
    records = {name_of(record): record for journal in report["journals"] for record in journal["records"]}
    order = order_of(more, "begin", records)
    forward = seen["walk"]["forward"]
    if [each["turn"] for each in forward] != order:
        yield "the right arrow steps otherwise than the log"
    if seen["walk"]["back"] != order[::-1]:
        yield "the left arrow steps otherwise than the log"
    fields = expected_fields(report, more)
    explained = {f"t{task}.{turn}": text for task, turn, text in more["why"][1:]}
    values = values_of(report, more)
    for place, each in enumerate(forward, 1):
        turn = each["turn"]
        if turn not in records:
            yield f"{turn} is no turn"
            continue
        if sorted(each["fields"]) != sorted(fields[turn]):
            yield f"at {turn} the fields are {each['fields']}"
        if turn in explained and each["why"] != explained[turn]:
            yield f"at {turn} it says otherwise why"
        kept, changes = values[turn]
        if (each["changed"], each["taken"]) != ((len(changes), 0) if kept else (0, len(changes))):
            yield f"at {turn} other fields are said to have changed"
        if each["step"] != f"turn {place} of {len(order)}" or not each["name"].startswith(turn + ": "):
            yield f"at {turn} it says {each['step']}, {each['name']}"
        if each["title"] != explained.get(turn, each["title"]).partition("\n")[0]:
            yield f"the title of the box of {turn} is {each['title']}"
        if f"func {records[turn]['method'].split('.')[1]}" not in each["method"]:
            yield f"at {turn} its method is not shown"
    if [title.split()[1] for title in seen["lookedAt"]["printed"]] != order[:len(seen["lookedAt"]["printed"])]:
        yield "on paper turns are missing"


def page_faults(name, report, more, seen):
    """What the document says otherwise than the data."""
    yield from walk_faults(report, more, seen)
    own = [each for each in (each["turn"] for each in seen["walk"]["forward"]) if each.startswith("t0.")]
    if not seen["filtered"]["alone"] == seen["filtered"]["steps"] == own or seen["filtered"]["none"] != ["no turn", 0]:
        yield f"the first task alone is {seen['filtered']}"
    if len(seen["lookedAt"]["tasks"]) != min(500, len(report["tasks"])) or not all("t0" in each for each in seen["lookedAt"]["listed"]):
        yield f"its list of tasks is {seen['lookedAt']['tasks']}"
    widths = [wide for wide, _ in seen["zoomed"]["widths"]]
    if widths != sorted(widths):
        yield f"zooming in makes it {widths} wide"
    if seen["lookedAt"]["themes"] not in (["light", "dark", "light"], ["dark", "light", "dark"]) or seen["lookedAt"]["keys"] != [True, False, True]:
        yield "the keys d and ? do something else"
    if seen["first"]["heading"] != os.path.basename(more["name"]) or seen["first"]["elements"] != 4:
        yield f"it is headed {seen['first']['heading']}, and has {seen['first']['elements']} scripts and pictures"
    if name in FOLDED and [turn for turn, _ in seen["folded"]["cells"]] != FOLDED[name]:
        yield f"its cells are {seen['folded']['cells']}"


def faults(program, path, browser, folder):
    """What is otherwise than it has to be in the page of a script."""
    page = said_by(program, "show", "--format", "html", path)
    try:
        report_text, more_text = data_of(page)
        report, more = json.loads(report_text), json.loads(more_text)
    except ValueError as error:
        yield str(error)
        return
    yield from data_faults(program, path, report_text, more)
    if browser is None:
        return
    seen, console = document(browser, page, folder)
    if console:
        yield f"the browser says {console[0]}"
    if seen is None:
        yield "its script did not come to its end"
    else:
        yield from page_faults(os.path.splitext(os.path.basename(path))[0], report, more, seen)


def take_pictures(program, path, browser, folder, to):
    """Pictures of a page, in each size, light and on paper."""
    name = os.path.splitext(os.path.basename(path))[0]
    page = os.path.join(to, name + ".html")
    with open(page, "w", encoding="ascii") as file:
        file.write(said_by(program, "show", "--format", "html", path))
    for size in SIZES:
        picture = os.path.join(to, f"{name}-{size.replace(',', 'x')}.png")
        words = line_of(browser, folder, "--virtual-time-budget=5000", f"--window-size={size}", f"--screenshot={picture}", os.path.abspath(page))
        subprocess.run(words, capture_output=True, check=False)


def main():
    parser = argparse.ArgumentParser(usage=__doc__)
    parser.add_argument("--pictures")
    parser.add_argument("program")
    parser.add_argument("scripts", nargs="*")
    given = parser.parse_args()
    program = os.path.abspath(given.program)
    browser = next((found for found in map(shutil.which, BROWSERS) if found), None)
    status = 0
    paths = given.scripts or scripts()
    for path in paths:
        with tempfile.TemporaryDirectory() as folder:
            for fault in faults(program, path, browser, folder):
                print(f"{os.path.relpath(path)}: {fault}")
                status = 1
            if given.pictures and browser:
                take_pictures(program, path, browser, folder, given.pictures)
    how = f"in {os.path.basename(browser)} too" if browser else "not in a browser: no chromium is on the PATH"
    if status == 0:
        print(f"{len(paths)} pages are as they have to be, {how}")
    sys.exit(status)


if __name__ == "__main__":
    main()
