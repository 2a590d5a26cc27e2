#!/usr/bin/env python3
"""Looks whether what programs do with random scripts is what tools/outcomes.py lists.

    tools/outcomes_check.py [--swiftrun PROGRAM] [--nuchapay PROGRAM] [--files SCRIPT.. | --scripts N --seed N] [--limit STATES]
                            [--runs N] [--workers N..] [--states N] [--picked]

It takes these scripts, or N tiny racy ones (tools/random_scripts.py), and lists the outcomes of each by brute force. What swiftrun does, N
times with each number of workers, and once with one, has to be among them; with one worker it is the one that is listed for it. What
nuchapay explore lists, keeping at most this number of states, has to be the same as the outcomes of all histories (`--histories` of
tools/outcomes.py); with --picked those of workers, who go by priorities, have to be among these. A script for which a limit is met, or
which has one outcome for swiftrun, is left out. For each other one it prints its seed or name, and how many outcomes are listed. The last
line has the sums; status 0 where nothing was otherwise. PROGRAM is crates/NAME/out/NAME, or any other build of it.
"""
from __future__ import annotations

import argparse
import itertools
import re
import subprocess
import sys
from typing import Iterator, Optional

from outcomes import TooMany, explore, histories
from random_scripts import Writer


def runs(given: argparse.Namespace, script: str) -> Optional[tuple[str, list[str]]]:
    """What is known of the runs of a script, and what is wrong with them; nothing where it has one outcome."""
    every = explore(script, given.limit).outcomes
    lists = {workers: explore(script, given.limit, workers).outcomes for workers in (1, 2)}
    if len(every) < 2:
        return None
    seen, wrong = set(), []
    for workers in (1, *given.workers):
        for _ in range(given.runs if workers > 1 else 1):
            words = [given.swiftrun, "--quiet", "--workers", str(workers)]
            ran = subprocess.run(words, input=script, capture_output=True, text=True, check=False)
            outcome = ran.stdout if ran.returncode in (0, 1) else f"status {ran.returncode}: {ran.stderr}"
            if outcome not in lists.get(workers, every) and outcome not in seen:
                wrong.append(f"outside the list, with {workers} workers:\n{outcome}")
            seen.add(outcome)
    return f"{len(every)} listed, {len(seen)} seen", wrong


def search(given: argparse.Namespace, script: str) -> Optional[tuple[str, list[str]]]:
    """The same of what is explored; nothing where the search did not come to its end."""
    every = histories(script, given.limit)
    picked = explore(script, given.limit).outcomes if given.picked else set()
    words = [given.nuchapay, "explore", "--limit", str(given.states)]
    ran = subprocess.run(words, input=script, capture_output=True, text=True, check=False)
    if ran.returncode not in (0, 1, 5):
        raise subprocess.CalledProcessError(ran.returncode, ran.args, ran.stdout, ran.stderr)
    first, *parts = re.split(r"\noutcome \d+\nschedule[^\n]*\n(?:names[^\n]*\n)?", ran.stdout)
    head = next(line for line in first.split("\n") if re.match(r"\d+ outcomes?, ", line))
    if "came to its end" not in head:
        return None
    found = {part.rstrip("\n") + "\n" for part in parts}
    wrong = [f"only there: {found - every.outcomes}\nonly here: {every.outcomes - found}"] if found != every.outcomes else []
    wrong += [f"outcomes of workers are missing: {picked - found}"] if not picked <= found else []
    return f"{len(found)} outcomes, {every.states} states here; {head}", wrong


def scripts(given: argparse.Namespace) -> Iterator[tuple[str, str]]:
    """The scripts to look at, each with a name."""
    for path in given.files or ():
        with open(path, encoding="ascii") as file:
            yield path, file.read()
    for seed in itertools.count(given.seed) if not given.files else ():
        yield f"seed {seed}", Writer(seed).script()


def main() -> None:
    arguments = argparse.ArgumentParser(description=__doc__, formatter_class=argparse.RawDescriptionHelpFormatter)
    arguments.add_argument("--swiftrun", metavar="PROGRAM")
    arguments.add_argument("--nuchapay", metavar="PROGRAM")
    arguments.add_argument("--files", metavar="SCRIPT", nargs="+")
    arguments.add_argument("--scripts", metavar="N", type=int, default=100)
    arguments.add_argument("--seed", metavar="N", type=int, default=0)
    arguments.add_argument("--limit", metavar="STATES", type=int, default=20_000)
    arguments.add_argument("--runs", metavar="N", type=int, default=50)
    arguments.add_argument("--workers", metavar="N", type=int, nargs="+", default=[2, 4, 8])
    arguments.add_argument("--states", metavar="N", type=int, default=100_000)
    arguments.add_argument("--picked", action="store_true")
    given = arguments.parse_args()
    looks = [look for look, program in ((runs, given.swiftrun), (search, given.nuchapay)) if program]
    looked_at = left_out = otherwise = 0
    for name, script in scripts(given):
        if looked_at >= given.scripts:
            break
        try:
            told = [look(given, script) for look in looks]
        except TooMany:
            told = [None]
        if None in told:
            left_out += 1
            continue
        looked_at += 1
        wrong = [fault for _, faults in told for fault in faults]
        otherwise += bool(wrong)
        print(f"{name}: {'; '.join(known for known, _ in told)}", *([script, *wrong] if wrong else []), sep="\n", flush=True)
    print(f"{looked_at} scripts, {otherwise} of them otherwise; {left_out} were left out")
    sys.exit(1 if otherwise else 0)


if __name__ == "__main__":
    main()
