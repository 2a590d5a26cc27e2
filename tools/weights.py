#!/usr/bin/env python3
"""Says what the prover makes of a crate: which functions weigh most, and which types. Nothing is proved for it.

    tools/weights.py NAME.. [--most COUNT]       the COUNT heaviest of each (12)

A library holds the modules that the prover has made of the crate's functions. Most of them are a function's code, in which
each step spells out the types that it touches: what a value holds in place, and what its references lead to, but not what is
in a `Vec` or a `Box`. So a function is heavy by how many steps touch a long type. `rt lib` has made the library, in this tree.
"""
import argparse
import collections
import json
import os
import re
import sys

TOP = os.path.dirname(os.path.dirname(os.path.abspath(__file__)))
# What the prover makes of one function, at the end of a module's path.
PARTS = re.compile(r"(Lts|Layout|Kinds|Named|Tie|Proof|Answers|Goals|Invariants|Reads|Given|Mir|Code|Symbol|Statement|TheLink|View|Met|Close|Contract|Needs)(-.*)?$")
TYPE = re.compile(r'\{"(?:Enum|Declared)":\{"name":"((?:[^"\\]|\\.)*)"')


def modules(path):
    """Each module that was made, by its path, and its text."""
    name = None
    with open(path, encoding="utf8") as lines:
        for line in lines:
            if line.startswith('"'):
                name = json.loads(line)
            elif name is not None:
                yield name, line


def owner(name):
    """The function, or the file, that a module belongs to."""
    parts = name.split("/")[1:]
    while parts and PARTS.match(parts[-1]):
        parts.pop()
    return "/".join(parts)


def types_of(text, known):
    """Each type that a module spells out, and in how many bytes. What a type was spelled as before is in `known`."""
    decoder, at = json.JSONDecoder(), 0
    while found := TYPE.search(text, at):
        at = found.start()
        spelled = known.get(found[1])
        if spelled is None or not text.startswith(spelled, at):
            spelled = known[found[1]] = text[at : decoder.raw_decode(text, at)[1]]
        at += len(spelled)
        yield found[1], len(spelled)


def weigh(path):
    """How many bytes were made of each function, and of each type how often it is spelled out and in how many bytes together."""
    functions, types, known = collections.Counter(), {}, {}
    for name, text in modules(path):
        functions[owner(name)] += len(text.encode())
        # A function's code stands in two or three modules.
        if name.rpartition("/")[2].startswith("Lts"):
            for it, size in types_of(text, known):
                times, all_of_it = types.get(it, (0, 0))
                types[it] = (times + 1, all_of_it + size)
    return functions, types


def show(name, path, most):
    """Prints what weighs most in a crate."""
    functions, types = weigh(path)
    print(f"{name}: {sum(functions.values()) / 1e6:.1f} MB")
    for it, size in functions.most_common(most):
        print(f"{size / 1e6:8.2f} MB  {it}")
    whole = max(1, sum(size for _, size in types.values()))
    for it, (times, size) in sorted(types.items(), key=lambda row: -row[1][1])[:most]:
        print(f"{100 * size / whole:6.0f} % of the types, {times} times {size // times} bytes  {it}")


def main():
    words = argparse.ArgumentParser(description=__doc__.splitlines()[0])
    words.add_argument("names", nargs="+", metavar="NAME")
    words.add_argument("--most", type=int, default=12, metavar="COUNT")
    words = words.parse_args()
    for name in words.names:
        path = os.path.join(TOP, "crates", name, "out", "rlib", name + ".rlib", "lang", "antt", "made.json")
        if not os.path.exists(path):
            sys.exit(f"{name} has no library here: run rt lib there")
        show(name, path, words.most)


if __name__ == "__main__":
    main()
