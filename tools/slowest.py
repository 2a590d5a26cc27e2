#!/usr/bin/env python3
"""Proves a crate from nothing on one core, and says which of its functions and lemma files took longest, and which kinds of parts.

    tools/slowest.py NAME [COUNT]       the COUNT slowest (20)

The prover writes a file for each part that it has checked, so the time between two files is that of the later part. It
includes what that part was the first to load.
The crates below are proved first, unless `rt check` or `rt lib` has done so in this tree: a gate is no help.
"""
import collections
import os
import re
import shutil
import subprocess
import sys

TOP = os.path.dirname(os.path.dirname(os.path.abspath(__file__)))
# What the prover makes of one function. `Lts` is its code; `Layout` is the layout of its types.
KINDS = r"Lts|Layout|Kinds|Named|Tie|Proof|Answers|Goals|Invariants|Reads|Given|Mir|Code|Symbol|Statement|TheLink|View|Met"
PARTS = rf"\.(decls|Lts-\w+|{KINDS})$"


def written(folder):
    """Each part that was checked, and the seconds that it took, in order."""
    found = []
    for at, _, names in os.walk(folder):
        found += [(os.stat(os.path.join(at, it)).st_mtime_ns, it[: -len(".oantt")]) for it in names if it.endswith(".oantt")]
    found.sort()
    return [(name, (now - before) / 1e9) for (before, _), (now, name) in zip(found, found[1:])]


def owner(part):
    """The function or the lemma file that a part belongs to."""
    name = part
    while re.search(PARTS, name):
        name = re.sub(PARTS, "", name)
    return name.removeprefix("Rattle-")


def kind(part):
    """What kind of part it is."""
    found = re.search(rf"\.({KINDS})(-\w+)?(\.decls)?$", part)
    return found[1] if found else "all else"


def main():
    if len(sys.argv) not in (2, 3):
        sys.exit(__doc__)
    folder = os.path.join(TOP, "crates", sys.argv[1])
    kept = os.path.join(folder, "out", "incremental")
    shutil.rmtree(kept, ignore_errors=True)
    if subprocess.run(["rt", "check", "--jobs", "1"], cwd=folder, stdout=subprocess.DEVNULL, check=False).returncode:
        sys.exit(f"{sys.argv[1]} is not proved: run rt check there")
    whole, code, kinds = collections.Counter(), collections.Counter(), collections.Counter()
    for part, seconds in written(kept):
        whole[owner(part)] += seconds
        kinds[kind(part)] += seconds
        if ".Lts" in part:
            code[owner(part)] += seconds
    print(f"{sum(whole.values()):8.1f} s in all: " + ", ".join(f"{name} {seconds:.1f}" for name, seconds in kinds.most_common(8)))
    for name, seconds in whole.most_common(int(sys.argv[2]) if len(sys.argv) == 3 else 20):
        print(f"{seconds:8.1f} s, code {code[name]:6.1f}  {name}")


main()
