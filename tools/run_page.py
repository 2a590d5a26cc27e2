#!/usr/bin/env python3
"""Writes the parts of a run's page that are the same for all runs, from the files in crates/run_page/page.

    tools/run_page.py               says whether the files in crates/run_page/src/texts are what these give; status 1 where they are not
    tools/run_page.py --write       writes them

page.html is the page, with the style and the files of the script in their places, and @REPORT@ and @MORE@ where the data of a run stand. The
page allows that style and that script alone, by their sums. All of it is ASCII, and no file has more than 400 lines.
"""
import base64
import hashlib
import os
import re
import sys

TOP = os.path.dirname(os.path.dirname(os.path.abspath(__file__)))
FOLDER = os.path.join(TOP, "crates", "run_page", "page")
TEXTS = os.path.join(TOP, "crates", "run_page", "src", "texts")
STYLE = "page.css"
SCRIPT = ("run.js", "words.js", "method.js", "lanes.js", "chosen.js", "reader.js")
FILES = ("page.html", STYLE, *SCRIPT)
LINES = 400
WIDE = 100
# What stands between these places of page.html, in order, and what that is called.
FRAME = (
    ("HEAD", "What stands before the style."), ("BODY", "What stands between the style and the report."),
    ("MIDDLE", "What stands between the report and what stands beside it."), ("BELOW", "What stands between that and the script."),
    ("END", "What stands after the script."),
)
PLACES = (f"@{STYLE}@", "@REPORT@", "@MORE@", "".join(f"@{name}@" for name in SCRIPT))
# What loads something, or could make markup of a text.
BARRED = re.compile(r"https?:(?!//www\.w3\.org/2000/svg\")|\bsrc\s*=|@import|\burl\(|innerHTML|outerHTML|insertAdjacentHTML|document\.write|\beval\b|console\.|"
                    r"fetch\(|XMLHttpRequest|WebSocket|new Function|DOMParser|srcdoc|createContextualFragment")


def content(name):
    with open(os.path.join(FOLDER, name), encoding="ascii") as file:
        return file.read()


def sum_of(text):
    return "sha256-" + base64.b64encode(hashlib.sha256(text.encode()).digest()).decode()


def faults(name, text):
    """What may not stand in a file of the page."""
    for number, line in enumerate(text.splitlines(), 1):
        for word in BARRED.findall(line):
            yield f"{name}:{number}: {word!r} may not stand there"
    if text.count("\n") > LINES:
        yield f"{name} has {text.count(chr(10))} lines, and not at most {LINES}"
    if re.search(r"</(script|style)", text, re.IGNORECASE) and name != "page.html":
        yield f"{name} ends its own element"


def script():
    """The page's script."""
    return "".join(map(content, SCRIPT))


def frame(style, code):
    """What stands between the places of page.html, with the sums of a style and a script."""
    pieces, rest = [], content("page.html").replace("@STYLE@", sum_of(style)).replace("@SCRIPT@", sum_of(code))
    for place in PLACES:
        piece, found, rest = rest.partition(place)
        if not found:
            raise ValueError(f"page.html has no place {place}, or it stands before another one")
        pieces.append(piece)
    return [*pieces, rest]


def parts(code=None, style=None):
    """The front, what stands between the report and the other data, and the end."""
    code = script() if code is None else code
    style = content(STYLE) if style is None else style
    head, body, middle, below, end = frame(style, code)
    return head + style + body, middle, below + code + end


def literal(text):
    return '"' + text.replace("\\", "\\\\").replace('"', '\\"') + '"'


def static(name, about, text):
    """A static of a text, in the layout of rt fmt, for which the text begins a line of its own where it is too long for that of its name."""
    said = f"pub(crate) static {name}: &str = {literal(text)};\n"
    if said.index("\n") > WIDE:
        said = said.replace(" = ", " =\n    ", 1)
    return f"/// {about}\n{said}"


def sources():
    """The text of each file of statics, by its name."""
    written = "Written by tools/run_page.py from the files in page/.\n"
    pieces = [static(name, about, text) for (name, about), text in zip(FRAME, frame(content(STYLE), script()))]
    found = {"frame.rt": f"//! The frame of a page. {written}\n" + "\n".join(pieces)}
    for file in (STYLE, *SCRIPT):
        name = "style" if file == STYLE else os.path.splitext(file)[0]
        about = "The style of a page." if file == STYLE else f"The part {name} of the script of a page."
        found[name + ".rt"] = f"//! {about} {written}\n" + static(name.upper(), "Its text.", content(file))
    return found


def other_files(folder, found):
    """The files of a folder that are others than these, or that are not there."""
    for name, text in found.items():
        path = os.path.join(folder, name)
        if not os.path.exists(path):
            yield name
            continue
        with open(path, encoding="ascii") as file:
            if file.read() != text:
                yield name
    yield from sorted(set(os.listdir(folder)) - set(found))


def main():
    if sys.argv[1:] not in ([], ["--write"]):
        sys.exit(__doc__)
    found = [fault for name in FILES for fault in faults(name, content(name))]
    if found:
        sys.exit("\n".join(found))
    if sys.argv[1:]:
        os.makedirs(TEXTS, exist_ok=True)
        for name, text in sources().items():
            with open(os.path.join(TEXTS, name), "w", encoding="ascii") as file:
                file.write(text)
    others = list(other_files(TEXTS, sources()))
    if others:
        sys.exit(f"{', '.join(others)} of crates/run_page/src/texts is not what crates/run_page/page gives: tools/run_page.py --write")


if __name__ == "__main__":
    main()
