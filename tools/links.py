#!/usr/bin/env python3
"""Whether each link of the documents stands: the file is there, and has each name that the link's text puts in code. And whether each
crate that a line of crates.txt names is one that a file of that line's crate names.

A link such as [`read`](crates/swift_script/src/reading.rt) says that this file has the word `read`. A link to a
heading, FILE#words-of-the-heading, says that the file has that heading. A file names a crate by `NAME::` or by `Rattle.NAME.`, outside
of comments."""
import glob
import os
import re
import sys

TOP = os.path.dirname(os.path.dirname(os.path.abspath(__file__)))
DOCUMENTS = ["README.md", "CONTRIBUTING.md"] + sorted(
    os.path.relpath(path, TOP) for place in ("docs/*.md", "crates/*/README.md") for path in glob.glob(os.path.join(TOP, place)))


def anchors(text):
    heads = re.findall(r"(?m)^#+ (.*)$", text)
    return {re.sub(r"[^\w\- ]", "", head.lower()).replace(" ", "-") for head in heads}


def faults(document):
    with open(os.path.join(TOP, document), encoding="utf8") as lines:
        text = lines.read()
    for shown, target in re.findall(r"\[([^\]]+)\]\(([^)]+)\)", text):
        if "://" in target:
            yield f"{target} leads out of the repository"
            continue
        path, _, anchor = target.partition("#")
        full = os.path.normpath(os.path.join(TOP, os.path.dirname(document), path)) if path else os.path.join(TOP, document)
        if not os.path.exists(full):
            yield f"{target} is not there"
            continue
        if os.path.isdir(full) or full.endswith(".png"):
            continue
        with open(full, encoding="utf8") as lines:
            found = lines.read()
        if anchor and anchor not in anchors(found):
            yield f"{target}: no such heading"
        for name in re.findall(r"`([^`]+)`", shown):
            for word in re.findall(r"\w+", name):
                if not path.endswith(".md") and not re.search(r"(?<!\w)" + re.escape(word) + r"(?!\w)", found):
                    yield f"{target} has no {word}"


def named_by(crate):
    """The crates that the files of a crate name."""
    found = set()
    for part, comment in (("src", r"//.*"), ("specs", r"--.*"), ("proofs", r"--.*")):
        for at, _, files in os.walk(os.path.join(TOP, "crates", crate, part)):
            for file in files:
                with open(os.path.join(at, file), encoding="utf8") as lines:
                    text = re.sub(comment, "", lines.read())
                found.update(re.findall(r"\b([a-z]\w*)::", text), re.findall(r"\bRattle\.(\w+)\.", text))
    return found


def unnamed():
    """Each crate that a line of crates.txt names, and no file of that line's crate."""
    with open(os.path.join(TOP, "crates.txt"), encoding="utf8") as lines:
        for line in lines:
            head, _, below = line.split("#")[0].partition(":")
            if below.strip():
                crate = head.split()[0]
                named = named_by(crate)
                yield from (f"crates.txt: no file of {crate} names {name}" for name in below.split() if name not in named)


def main():
    told = [f"{document}: {fault}" for document in DOCUMENTS if os.path.exists(os.path.join(TOP, document)) for fault in faults(document)]
    told += unnamed()
    for line in told:
        print(line)
    if not told:
        print("each link of the documents stands, and each crate of a line of crates.txt is named by that line's crate")
    sys.exit(1 if told else 0)


if __name__ == "__main__":
    main()
