#!/usr/bin/env python3
"""Looks at the pages that nuchapay explore --format html writes, as data and in a browser.

    tools/explorer_page_check.py NUCHAPAY [SCRIPT..]         some examples, or these scripts
    tools/explorer_page_check.py --pages FILE..              pages that are there, in a browser alone

Of each page the two pieces of JSON are compared with what `explore --format json` and `run --values --outcome K` say, and with the script.
Then the page is opened in Chromium without a window, where one is on the PATH, from a file and with a script of its own, which does what a
reader would (crates/explorer_page/page/page_test.js): each outcome is chosen, and what the document says of it is compared with the data.
With --pictures FOLDER it takes pictures too. Status 0 where all is as it has to be; without a browser it says so.
"""
import argparse
import json
import os
import re
import shutil
import subprocess
import sys
import tempfile

sys.dont_write_bytecode = True
import explorer_page
from reports import turns
from run_page_check import BROWSERS, line_of, plain, said_by
from run_page import sum_of

EXAMPLES = os.path.join(explorer_page.TOP, "examples")
NAMES = ("account.actors", "fifo.actors", "priorities.actors", "nuchapay/explore_expect.actors", "races/twice_made.actors", "swift/account.swift",
         "nuchapay/explore_swift_spin.swift", "nuchapay/explore_swift_expect_trap.swift")
SIZES = ("1280,1100", "700,900")
# What the table says of an outcome in Swift, and what stands above it of those that are none.
IN_SWIFT = {"outcome": "", "ends": "ends the process", "spins": "may spin"}
SAID = {"ends": "No outcome of Swift:", "spins": "A task may spin in"}
# Of how many outcomes the turns are compared with `run`.
COMPARED = 5
SHOWN = 100


def data_of(page):
    """The two pieces of JSON of a page, as they stand there."""
    front, middle, end = explorer_page.parts()
    if not page.startswith(front) or not page.endswith(end):
        raise ValueError("its front or its end is another one")
    answer, found, more = page[len(front):len(page) - len(end)].partition(middle)
    if not found:
        raise ValueError("nothing stands between its two pieces")
    for piece in (answer, more):
        if re.search("[<>&]", piece):
            raise ValueError("a byte of its data can be markup")
    return answer, more


def data_faults(program, path, words, answer, more):
    """What the data of a page say otherwise than the other commands."""
    if plain(answer) != said_by(program, "explore", "--format", "json", *words, path):
        yield "its answer is another one than that of `explore --format json`"
    found, beside = json.loads(answer), json.loads(more)
    if beside["name"] != path or len(beside["runs"]) != min(SHOWN, len(found["outcomes"])):
        yield "it has another name, or other runs"
    for number, run in list(enumerate(beside["runs"], 1))[:COMPARED]:
        # Of a Swift file a list of its methods follows.
        if run != said_by(program, "run", "--values", "--outcome", str(number), *words, path).partition("\nmethods\n")[0]:
            yield f"of outcome {number} it says otherwise what each turn did"


def common(one, other):
    """How many words two schedules have in common at the front."""
    place = 0
    while place < min(len(one), len(other)) and one[place] == other[place]:
        place += 1
    return place


def ending(of):
    value = f" {of['value']}" if "value" in of else ""
    return f"value{value}" if of["is"] == "value" else f"fault {of['fault']}{value}"


def walk_faults(found, seen):
    """What the document says otherwise of an outcome that is chosen."""
    schedules = [list(turns(outcome["schedule"])) for outcome in found["outcomes"]]
    front = min((common(schedules[0], each) for each in schedules), default=0)
    hidden = front if len(schedules) > 1 and front > 6 else 0
    if seen["lines"] != [each[hidden:] for each in schedules[:300]]:
        yield "its lines are other schedules"
    for place, each in enumerate(seen["walk"]):
        if each["chosen"] != [f"outcome {place + 1}"]:
            yield f"the down arrow chooses {each['chosen']}, and not outcome {place + 1}"
            continue
        wanted = [common(schedules[place], other) - hidden if number != place else -1 for number, other in enumerate(schedules[:300])]
        bars = [bar if bar >= 0 or number == place else len(schedules[number]) - hidden for number, bar in enumerate(each["bars"])]
        if bars != wanted:
            yield f"beside outcome {place + 1} its bars stand at {each['bars']}, and not at {wanted}"
        other = re.search(r"what in outcome (\d+)", each["heading"])
        if other:
            rest = schedules[int(other[1]) - 1]
            parts = common(schedules[place], rest)
            rows = [[word] for word in schedules[place][:parts]]
            rows += [schedules[place][at:at + 1] + rest[at:at + 1] for at in range(parts, max(len(schedules[place]), len(rest)))]
            if [row for row in each["rows"] if row] != rows:
                yield f"beside outcome {place + 1} stands {each['rows']}, and not {rows}"


def table_faults(found, seen):
    """What the table says otherwise than the data."""
    heads, cells = seen["heads"], seen["cells"]
    if len(cells) != len(found["outcomes"]):
        yield f"its table has {len(cells)} outcomes, and not {len(found['outcomes'])}"
        return
    asked = [each["text"] for each in found["expectations"]]
    meanings = found.get("swift", ["outcome"] * len(cells))
    first = 2 if "swift" in found else 1
    for place, (outcome, row) in enumerate(zip(found["outcomes"], cells)):
        wanted = {"Outcome": f"outcome {outcome['outcome']}", "Turns": str(sum(1 for step in outcome["schedule"] if step["is"] == "run"))}
        wanted |= {f"{actor}.{field}": str(value) for actor, row_ in outcome["end"]["fields"].items() for field, value in row_.items()}
        wanted |= {task["root"]: ending(task["ending"]) for task in outcome["end"]["tasks"] if task["from"] == "root"}
        shown = dict(zip(heads, row))
        for name, value in wanted.items():
            if name in shown and shown[name] != value or name not in shown and f"{name} {value}" not in seen["constant"]:
                yield f"of outcome {place + 1} it says {name} {shown.get(name)}, and not {value}"
        if shown.get("In Swift", "") != IN_SWIFT[meanings[place]]:
            yield f"of outcome {place + 1} in Swift it says {shown.get('In Swift')}"
        for at_, text in enumerate(asked):
            verdict = found["expectations"][at_]["verdicts"][place] if meanings[place] == "outcome" else "\u2014"
            if not row[first + at_].endswith("\u2713" if verdict == "holds" else verdict):
                yield f"of outcome {place + 1} it says {row[first + at_]} of {text}"


def page_faults(answer, more, seen):
    """What the document says otherwise than the data."""
    found, beside = json.loads(answer), json.loads(more)
    name = os.path.basename(beside["name"])
    if seen["title"] != f"How {name} can end" or seen["source"] != beside["source"] or seen["scripts"] != 4:
        yield f"it is headed {seen['title']}, shows another script, or has {seen['scripts']} scripts"
    if ("NOT" in seen["summary"]) == (found["search"] == "complete"):
        yield f"it says {seen['summary']}"
    if seen["undone"] != list(turns(found["undone"] or [])):
        yield f"the order to a turn that is undone is {seen['undone']}"
    meanings = found.get("swift", ["outcome"] * len(found["outcomes"]))
    many = re.match(r"(\d+|No) outcome", seen["summary"])
    if many is None or many[1].replace("No", "0") != str(meanings.count("outcome")):
        yield f"it says {seen['summary']}"
    if [word for word in ("ends", "spins") if word in meanings] != [word for word in ("ends", "spins") if f"{SAID[word]} outcome" in seen["swift"]]:
        yield f"of Swift it says {seen['swift']}"
    for line, asked in zip(seen["asked"], found["expectations"], strict=True):
        fails = any(verdict != "holds" for verdict, meaning in zip(asked["verdicts"], meanings) if meaning == "outcome")
        if asked["text"] not in line or ("fails" in line) != fails:
            yield f"it says {line}"
    if seen["themes"] not in (["light", "dark", "light"], ["dark", "light", "dark"]) or seen["keys"] != [True, False, True]:
        yield "the keys d and ? do something else"
    if found["outcomes"]:
        yield from table_faults(found, seen)
        yield from walk_faults(found, seen)
        if seen["clicked"] != ["outcome 1"]:
            yield f"a click chooses {seen['clicked']}"
    elif seen["hidden"] != [True, True, True]:
        yield "it shows outcomes where there are none"


def document(browser, page, folder):
    """What the test's script saw in the browser, and what the browser says of the page."""
    import html
    with open(os.path.join(explorer_page.FOLDER, "page_test.js"), encoding="ascii") as file:
        test = file.read()
    page = page.replace("script-src '", f"script-src '{sum_of(test)}' '", 1)
    place = page.rindex("</body>")
    path = os.path.join(folder, "page.html")
    with open(path, "w", encoding="utf8") as file:
        file.write(f"{page[:place]}<script>{test}</script>\n{page[place:]}")
    words = ["--enable-logging=stderr", "--v=0", "--virtual-time-budget=600000", "--window-size=1280,800", "--dump-dom"]
    ran = subprocess.run(line_of(browser, folder, *words, path), capture_output=True, check=False)
    found = re.search(r'<pre id="test">(.*?)</pre>', ran.stdout.decode(errors="replace"), re.DOTALL)
    return json.loads(html.unescape(found.group(1))) if found else None, re.findall(r"CONSOLE.*", ran.stderr.decode(errors="replace"))


def browser_faults(browser, page, folder):
    """What the document of a page says otherwise than its data."""
    answer, more = data_of(page)
    seen, console = document(browser, page, folder)
    if console:
        yield f"the browser says {console[0]}"
    if seen is None:
        yield "its script did not come to its end"
    else:
        yield from page_faults(answer, more, seen)


def faults(program, path, words, browser, folder):
    """What is otherwise than it has to be in the page of a script."""
    page = said_by(program, "explore", "--format", "html", *words, path)
    try:
        answer, more = data_of(page)
    except ValueError as error:
        yield str(error)
        return
    yield from data_faults(program, path, words, answer, more)
    if browser:
        yield from browser_faults(browser, page, folder)


def take_pictures(page, name, browser, folder, to):
    """Pictures of a page, in each size."""
    path = os.path.abspath(os.path.join(to, name + ".html"))
    with open(path, "w", encoding="utf8") as file:
        file.write(page)
    for size in SIZES:
        picture = os.path.join(to, f"{name}-{size.replace(',', 'x')}.png")
        subprocess.run(line_of(browser, folder, "--virtual-time-budget=5000", f"--window-size={size}", f"--screenshot={picture}", path), capture_output=True, check=False)


def main():
    parser = argparse.ArgumentParser(usage=__doc__)
    parser.add_argument("--pictures")
    parser.add_argument("--pages", action="store_true")
    parser.add_argument("names", nargs="+")
    given = parser.parse_args()
    browser = next((found for found in map(shutil.which, BROWSERS) if found), None)
    status = 0
    # The last one does not come to its end.
    cases = [(path, []) for path in given.names] if given.pages else [(path, []) for path in given.names[1:]]
    cases = cases or [*((os.path.join(EXAMPLES, name), []) for name in NAMES), (os.path.join(EXAMPLES, "fifo.actors"), ["--limit", "60"])]
    for path, words in cases:
        with tempfile.TemporaryDirectory() as folder:
            if given.pages:
                with open(path, encoding="utf8") as file:
                    page = file.read()
                found = list(browser_faults(browser, page, folder))
            else:
                program = os.path.abspath(given.names[0])
                found = list(faults(program, path, words, browser, folder))
                page = said_by(program, "explore", "--format", "html", *words, path) if given.pictures else ""
            for fault in found:
                print(f"{os.path.relpath(path)}: {fault}")
                status = 1
            if given.pictures and browser:
                take_pictures(page, os.path.splitext(os.path.basename(path))[0] + "".join(words), browser, folder, given.pictures)
    how = f"in {os.path.basename(browser)} too" if browser else "not in a browser: no chromium is on the PATH"
    if status == 0:
        print(f"{len(cases)} pages of outcomes are as they have to be, {how}")
    sys.exit(status)


if __name__ == "__main__":
    main()
