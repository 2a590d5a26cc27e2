#!/usr/bin/env python3
"""Proves a program of this repository and what it stands on, builds it, and prints one line for each crate.

    tools/build.py NAME [WORD..]

It leaves crates/NAME/out/NAME. Where each crate has work of an earlier proof (out/incremental), they are proved over that, one
after the other, and the program is run once with these words. Else `rt ci` proves those that have not passed on this machine
before, each on as many cores as are free, in a copy of what they need. What the prover writes goes to out/prove/. Status 0 where every crate is proved and the program is
built.
"""
import os
import re
import shutil
import subprocess
import sys
import tempfile

sys.dont_write_bytecode = True
from prove import JOBS, TOP, graph, in_order, prove_all, show

LOGS = os.path.join(TOP, "out", "prove")
# What a proof of a crate does not read.
UNREAD = ("out", "mutants")
ENDED = re.compile(r"rt: (\w+) (proved|NOT PROVED)")


def over_kept_work(name, names, stands_on, words):
    """Whether the crates are proved over the work of earlier proofs, and the program is built."""
    if prove_all(names, stands_on, JOBS):
        return False
    with open(os.path.join(LOGS, "build.log"), "wb") as log:
        folder = os.path.join(TOP, "crates", name)
        return not subprocess.run(["rt", "run", *words], cwd=folder, stdin=subprocess.DEVNULL, stdout=log, stderr=log, check=False).returncode


def copy_of(names, folder):
    """Copies what these crates are proved from."""
    with open(os.path.join(TOP, "crates.txt"), encoding="utf8") as lines:
        kept = [line for line in lines if line.split("#")[0].strip() and re.match(r"\w+", line).group() in names]
    with open(os.path.join(folder, "crates.txt"), "w", encoding="utf8") as file:
        file.writelines(kept)
    shutil.copy(os.path.join(TOP, "HANDLES"), folder)
    for name in names:
        shutil.copytree(os.path.join(TOP, "crates", name), os.path.join(folder, "crates", name), ignore=shutil.ignore_patterns(*UNREAD))


def from_nothing(name, names):
    """Whether the crates are proved from nothing, and the program is built."""
    left = len(names)
    path = os.path.join(LOGS, "ci.log")
    with tempfile.TemporaryDirectory(prefix="nuchapay-") as folder, open(path, "w", encoding="utf8") as log:
        copy_of(names, folder)
        with subprocess.Popen(["rt", "ci"], cwd=folder, stdin=subprocess.DEVNULL, stdout=subprocess.PIPE, stderr=subprocess.STDOUT, text=True, errors="replace") as ran:
            for line in ran.stdout:
                log.write(line)
                ended = ENDED.match(line)
                if ended:
                    left -= 1
                    print(f"{ended[2]} {ended[1]}, {left} left", flush=True)
        if ran.returncode:
            log.flush()
            show(path)
            return False
        made = os.path.join(TOP, "crates", name, "out")
        os.makedirs(made, exist_ok=True)
        shutil.copy(os.path.join(folder, "crates", name, "out", name), made)
    return True


def main():
    if len(sys.argv) < 2:
        sys.exit(__doc__)
    name, *words = sys.argv[1:]
    stands_on = graph()
    if name not in stands_on:
        sys.exit(f"crates.txt has no crate {name}")
    if not os.path.exists(os.path.join(TOP, "crates", name, "src", "main.rt")):
        sys.exit(f"{name} is no program")
    names = in_order(stands_on, [name])
    os.makedirs(LOGS, exist_ok=True)
    if all(os.path.isdir(os.path.join(TOP, "crates", each, "out", "incremental")) for each in names):
        is_built = over_kept_work(name, names, stands_on, words)
    else:
        is_built = from_nothing(name, names)
    if not is_built:
        sys.exit(1)


main()
