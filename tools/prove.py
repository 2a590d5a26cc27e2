#!/usr/bin/env python3
"""Proves a crate of this repository and what it stands on, one after the other, and prints one line for each.

    tools/prove.py NAME..        these crates, and all below them
    tools/prove.py               every crate

Each crate is proved on at most 4 cores: rt holds the crates below the one that it proves, so two at once would wait for
each other. What the prover writes goes to out/prove/NAME.log. When a check fails, its last lines are shown, and the rest of
the crates that do not stand on it are still tried. Status 0 where every crate is proved.
"""
import argparse
import os
import subprocess
import sys
import time

TOP = os.path.dirname(os.path.dirname(os.path.abspath(__file__)))
JOBS = max(1, min(4, os.cpu_count() or 2))


def graph():
    """Each crate of the repository, and which of the repository it stands on."""
    named = {}
    with open(os.path.join(TOP, "crates.txt"), encoding="utf8") as lines:
        for line in lines:
            line = line.split("#")[0].strip()
            if line:
                name, _, below = line.partition(":")
                named[name.split()[0]] = below.split()
    return {name: [b for b in below if b in named] for name, below in named.items()}


def in_order(stands_on, wanted):
    """The crates that are wanted and all below them, each after those that it stands on."""
    found = []

    def visit(name):
        if name not in found:
            for below in stands_on[name]:
                visit(below)
            found.append(name)

    for name in wanted:
        visit(name)
    return found


def prove(name, logs, jobs):
    """Proves one crate on so many cores. Its status, and the seconds that it took."""
    folder = os.path.join(TOP, "crates", name)
    library = os.path.exists(os.path.join(folder, "src", "lib.rt"))
    began = time.monotonic()
    with open(os.path.join(logs, name + ".log"), "wb") as log:
        done = subprocess.run(["rt", "lib" if library else "check", "--jobs", str(jobs)], cwd=folder, stdout=log, stderr=log, check=False)
    return done.returncode, time.monotonic() - began


def show(path):
    """The last lines of what the prover wrote."""
    with open(path, encoding="utf8", errors="replace") as log:
        print("".join("    " + line for line in log.readlines()[-12:]), end="")
    print(f"    all of it: {os.path.relpath(path)}", flush=True)


def prove_all(names, stands_on, jobs):
    """Proves these crates in this order. Those that were not proved."""
    logs = os.path.join(TOP, "out", "prove")
    os.makedirs(logs, exist_ok=True)
    failed = set()
    for place, name in enumerate(names):
        if any(below in failed for below in stands_on[name]):
            failed.add(name)
            print(f"not tried {name}", flush=True)
            continue
        status, seconds = prove(name, logs, jobs)
        word = "NOT PROVED" if status else "proved"
        print(f"{word} {name} ({seconds:.0f} s), {len(names) - place - 1} left", flush=True)
        if status:
            failed.add(name)
            show(os.path.join(logs, name + ".log"))
    return failed


def main():
    stands_on = graph()
    words = argparse.ArgumentParser(description="Proves crates and what they stand on.")
    words.add_argument("names", nargs="*", metavar="NAME")
    words.add_argument("--jobs", type=int, default=JOBS)
    words = words.parse_args()
    for name in words.names:
        if name not in stands_on:
            sys.exit(f"crates.txt has no crate {name}")
    names = in_order(stands_on, words.names or list(stands_on))
    if prove_all(names, stands_on, words.jobs):
        sys.exit(1)


if __name__ == "__main__":
    main()
