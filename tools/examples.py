#!/usr/bin/env python3
"""Runs the proved programs on each example, and compares what they print, what they say and how they end with what stands beside it.

    tools/examples.py SWIFTRUN NUCHAPAY [NAME..]        each example, or those whose names these are

An example is examples/NAME.actors, or NAME.actors in a folder there, which swiftrun is given as its standard input. Those of the folder
nuchapay are for that program: each NAME.args there is one, and NAME.actors or NAME.swift need not be there. The others are run by `nuchapay run` too,
with the script's name as an argument: it has to do the same, under its own name. A program runs in the folder of the example.

NAME.out is its standard output, NAME.err its standard error (nothing, where they are missing), NAME.args its arguments (none; what stands
between two marks is one, as 't0.0 t1.0'), NAME.status its status (0), and NAME.to a file that its standard output goes to. Where NAME.has stands in place of NAME.out, each of
its lines has to stand in what is printed on either stream. Status 0 where all is as it has to be.
"""
import os
import re
import subprocess
import sys

TOP = os.path.dirname(os.path.dirname(os.path.abspath(__file__)))
FOLDER = os.path.join(TOP, "examples")
# The folder of the examples of the second program.
SECOND = "nuchapay"
# An argument; what stands between two marks is one, though it has spaces.
ARGUMENT = re.compile(rb"'[^']*'|\S+")


def content(name, ending):
    """The bytes of the file beside an example; none where it is not there."""
    path = name + ending
    if not os.path.exists(path):
        return None
    with open(path, "rb") as file:
        return file.read()


def names():
    """The examples, in order, each as a path without its ending."""
    found = []
    for at, _, files in os.walk(FOLDER):
        ending = ".args" if os.path.basename(at) == SECOND else ".actors"
        found += [os.path.join(at, file[: -len(ending)]) for file in files if file.endswith(ending)]
    return sorted(found)


def given_to(name):
    """The standard input of an example."""
    return content(name, ".actors") or content(name, ".swift") or b""


def is_second(name):
    return os.path.basename(os.path.dirname(name)) == SECOND


def arguments(name):
    return [word.strip(b"'") for word in ARGUMENT.findall(content(name, ".args") or b"")]


def faults(words, given, name):
    """What is otherwise than it has to be where these words are run on an input."""
    to = (content(name, ".to") or b"").strip()
    with open(to or os.devnull, "wb") as sink:
        ran = subprocess.run(words, cwd=os.path.dirname(name), input=given, stdout=sink if to else subprocess.PIPE, stderr=subprocess.PIPE, check=False)
    wrote = ran.stdout or b""
    status = int(content(name, ".status") or b"0")
    if ran.returncode != status:
        yield f"status {ran.returncode} and not {status}"
    parts = content(name, ".has")
    if parts is not None:
        yield from (f"lacks {part.decode()!r}" for part in parts.splitlines() if part not in wrote + ran.stderr)
        return
    if wrote != (content(name, ".out") or b""):
        yield "other output"
    own = os.path.basename(words[0]).encode()
    if ran.stderr != (content(name, ".err") or b"").replace(b"swiftrun:", own + b":"):
        yield f"says {ran.stderr.decode(errors='replace')!r}"


def all_faults(first, second, name):
    """What is otherwise where an example is run as it has to be."""
    given = given_to(name)
    if is_second(name):
        yield from faults([second, *arguments(name)], given, name)
    else:
        yield from faults([first, *arguments(name)], given, name)
        run = [second, "run", *arguments(name), os.path.basename(name) + ".actors"]
        yield from (f"nuchapay: {fault}" for fault in faults(run, b"", name))


def main():
    if len(sys.argv) < 3:
        sys.exit(__doc__)
    first, second = (os.path.abspath(path) for path in sys.argv[1:3])
    wanted = sys.argv[3:]
    failed = False
    for name in names():
        shown = os.path.relpath(name, FOLDER)
        if wanted and shown not in wanted:
            continue
        found = list(all_faults(first, second, name))
        failed = failed or bool(found)
        print(f"examples/{shown}: {'; '.join(found) or 'as it has to be'}")
    sys.exit(failed)


if __name__ == "__main__":
    main()
