#!/usr/bin/env python3
"""Writes the parts of the page of outcomes that are the same for all searches, from the files in crates/explorer_page/page.

    tools/explorer_page.py               says whether the files in crates/explorer_page/src/texts are what these give; status 1 where not
    tools/explorer_page.py --write       writes them

page.html is the page, with the style and the files of the script in their places, and @ANSWER@ and @MORE@ where the data of a search stand.
The page allows that style and that script alone, by their sums. All of it is ASCII; the script has at most 800 lines.
"""
import os
import sys

sys.dont_write_bytecode = True
from run_page import TOP, faults, other_files, static, sum_of

FOLDER = os.path.join(TOP, "crates", "explorer_page", "page")
TEXTS = os.path.join(TOP, "crates", "explorer_page", "src", "texts")
STYLE = "page.css"
SCRIPT = ("found.js", "table.js", "orders.js", "turns.js", "reader.js")
FILES = ("page.html", STYLE, *SCRIPT)
LINES = 800
# What stands between these places of page.html, in order, and what that is called.
FRAME = (
    ("HEAD", "What stands before the style."), ("BODY", "What stands between the style and the answer."),
    ("MIDDLE", "What stands between the answer and what stands beside it."), ("BELOW", "What stands between that and the script."),
    ("END", "What stands after the script."),
)
PLACES = (f"@{STYLE}@", "@ANSWER@", "@MORE@", "".join(f"@{name}@" for name in SCRIPT))


def content(name):
    with open(os.path.join(FOLDER, name), encoding="ascii") as file:
        return file.read()


def script():
    """The page's script."""
    return "".join(map(content, SCRIPT))


def frame(style, code):
    """What stands between the places of page.html, with the sums of a style and a script."""
    pieces, rest = [], content("page.html").replace("@STYLE@", sum_of(style)).replace("@SCRIPT@", sum_of(code))
    for place in PLACES:
        piece, found, rest = rest.partition(place)
        if not found:
            raise ValueError(f"page.html has no place {place}, or it stands before another one")
        pieces.append(piece)
    return [*pieces, rest]


def parts():
    """The front, what stands between the answer and the other data, and the end."""
    code, style = script(), content(STYLE)
    head, body, middle, below, end = frame(style, code)
    return head + style + body, middle, below + code + end


def sources():
    """The text of each file of statics, by its name."""
    written = "Written by tools/explorer_page.py from the files in page/.\n"
    pieces = [static(name, about, text) for (name, about), text in zip(FRAME, frame(content(STYLE), script()))]
    found = {"frame.rt": f"//! The frame of a page. {written}\n" + "\n".join(pieces)}
    for file in (STYLE, *SCRIPT):
        name = "style" if file == STYLE else os.path.splitext(file)[0]
        about = "The style of a page." if file == STYLE else f"The part {name} of the script of a page."
        found[name + ".rt"] = f"//! {about} {written}\n" + static(name.upper(), "Its text.", content(file))
    return found


def own_faults():
    """What may not stand in the files of the page."""
    for name in FILES:
        yield from faults(name, content(name))
    if script().count("\n") > LINES:
        yield f"the script has {script().count(chr(10))} lines, and not at most {LINES}"


def main():
    if sys.argv[1:] not in ([], ["--write"]):
        sys.exit(__doc__)
    found = list(own_faults())
    if found:
        sys.exit("\n".join(found))
    if sys.argv[1:]:
        os.makedirs(TEXTS, exist_ok=True)
        for name, text in sources().items():
            with open(os.path.join(TEXTS, name), "w", encoding="ascii") as file:
                file.write(text)
    others = list(other_files(TEXTS, sources()))
    if others:
        sys.exit(f"{', '.join(others)} of crates/explorer_page/src/texts is not what crates/explorer_page/page gives: tools/explorer_page.py --write")


if __name__ == "__main__":
    main()
