#!/usr/bin/env python3
"""Compiles what `nuchapay swift` prints for each script of examples/ and those of examples/nuchapay whose names begin with swift, runs it,
and looks whether what it prints may come of the script, and whether the compiler warns of nothing.

    tools/swift.py NUCHAPAY [NAME..] [--runs N] [--limit STATES] [--table] [--random N] [--seed N]

The compiler is the `swiftc` on the PATH, or that of another system whose root folder SWIFT_ROOT names; where there is none, it says so and
ends with status 0. Each program runs N times (100), with Swift's own runtime on all cores. What it prints is compared with all outcomes
of the script where an executor may take any of its jobs next: Swift's executors keep their jobs in other orders than ours (8 and 9 in the
list at the head of each program), and of one script the results of a group may come later, too (10). tools/outcomes.py lists them by brute
force, independently of the runtime; beside their number stands that of those that runs of this repository can have. Where there are more
than STATES states (100,000), what is printed is compared with the second list, or with what `nuchapay run --quiet` printed in 40 runs on
1, 2, 4 and 8 workers, and the row says so.

With --random N it takes N racy scripts of tools/random_scripts.py in place of these, from --seed on; one whose outcomes are not all listed
is only compiled and run.

Swift undoes nothing. So a run in which an invariant did not hold after a turn, or an overflow ended one, is counted apart: it is beside
the rules from there on. With --table it prints a table, of which that in docs/SWIFT.md is made. Status 1 where a program was not compiled,
or with a warning, a run did not end, or an outcome is none of those that are allowed, but for a script that shows a place of docs/SWIFT.md
where Swift does otherwise.
"""
from __future__ import annotations

import argparse
import collections
import glob
import os
import shutil
import subprocess
import sys
import tempfile
from typing import Iterator, Optional

from outcomes import CHOOSE, Explorer, State, TooMany, explore
from random_scripts import Writer
from script_tree import Reader

TOP = os.path.dirname(os.path.dirname(os.path.abspath(__file__)))
ROOT = os.environ.get("SWIFT_ROOT", "")
# Where the programs are built, inside SWIFT_ROOT or here.
INSIDE = "/tmp/nuchapay_swift"
ENTER = ["chroot", ROOT, "env", "TMPDIR=/tmp", "LD_LIBRARY_PATH=/usr/libexec/swift/lib/swift/linux"] if ROOT else []
SECONDS = 20
# The script whose outcomes a script may have, too: there its children end after they have left the actor that they work on (10 in the list).
LATE = {"swift_results": "swift_results_late"}
# The place in docs/SWIFT.md by which each run of a script may have an outcome that is not allowed.
PLACES = {"swift_tasks": 4}


def compile_swift(name: str, text: str) -> tuple[list[str], str]:
    """The words that run the program of a script, and what the compiler said; no words where it refused."""
    folder = ROOT + INSIDE
    os.makedirs(folder, exist_ok=True)
    with open(os.path.join(folder, name + ".swift"), "w", encoding="ascii") as file:
        file.write(text)
    program = os.path.join(INSIDE, name)
    words = [*ENTER, "swiftc", "-swift-version", "6", "-O", "-parse-as-library", "-o", program, program + ".swift"]
    done = subprocess.run(words, capture_output=True, text=True, check=False)
    return ([*ENTER, program] if done.returncode == 0 else []), done.stdout + done.stderr


class AnyJob(Explorer):
    """All orders of turns in which an executor takes any of its jobs next."""

    forced: Optional[int] = None

    def after(self, state: State) -> Iterator[State]:
        yield from super().after(state)
        for executor, seat in enumerate(state.seats):
            if seat.visit and seat.visit.step == CHOOSE:
                usual = self.choice(state, executor)
                for task in seat.ready:
                    if task != usual:
                        self.forced = task
                        other = self.visit(state, executor)
                        self.forced = None
                        yield other

    def choice(self, state: State, executor: int) -> int:
        return super().choice(state, executor) if self.forced is None else self.forced

    def is_quiet(self, state: State, executor: int) -> bool:
        seat = state.seats[executor]
        is_open = seat.visit.step == CHOOSE and len(seat.ready) > 1
        return not is_open and super().is_quiet(state, executor)


def of_any_job(text: str, limit: int) -> Optional[set[str]]:
    """The outcomes where executors take any of their jobs; none where these are too many."""
    explorer = AnyJob(Reader(text).script(), limit, 0, False, False)
    try:
        explorer.run()
    except TooMany:
        return None
    return set(explorer.outcomes)


def of_runs(program: str, script: str) -> set[str]:
    """The outcomes of some runs."""
    found = set()
    for workers, times in (("1", 1), ("2", 13), ("4", 13), ("8", 13)):
        for _ in range(times):
            done = subprocess.run([program, "run", "--quiet", "--workers", workers, script], capture_output=True, text=True, check=False)
            found.add(done.stdout)
    return found


def listed(text: str, limit: int) -> Optional[set[str]]:
    """The outcomes that the workers of this repository can come to; none where these are too many."""
    try:
        return set(explore(text, limit).outcomes)
    except TooMany:
        return None


class Row:
    """What was seen of one script."""

    def __init__(self, name: str):
        self.name = name
        self.own: Optional[set[str]] = set()  # those that runs of this repository can have
        self.allowed: set[str] = set()
        self.is_whole = True  # whether those that are allowed are all listed
        self.seen: collections.Counter = collections.Counter()
        self.beside = 0  # runs with an invariant that did not hold, or an overflow
        self.problem = ""

    def outside(self) -> list[str]:
        return [outcome for outcome in self.seen if outcome not in self.allowed]

    def is_well(self) -> bool:
        return not self.problem and (self.name in PLACES or not self.outside())

    def cells(self) -> list[str]:
        inside = len(self.seen) - len(self.outside())
        outside = sum(self.seen[outcome] for outcome in self.outside())
        notes = [self.problem] if self.problem else []
        if self.beside:
            notes.append(f"{self.beside} runs with an invariant that did not hold, or an overflow")
        if outside:
            place = f", by place {PLACES[self.name]} of docs/SWIFT.md" if self.name in PLACES else ""
            notes.append(f"{outside} runs with another outcome{place}")
        if not self.is_whole:
            notes.append("not all outcomes are listed")
        own = "too many" if self.own is None else str(len(self.own))
        return [f"`{self.name}`", str(len(self.allowed)), own, str(inside), "; ".join(notes) or "all runs are inside"]


def look(program: str, script: str, runs: int, limit: int) -> Row:
    """Compiles and runs the program of one script."""
    row = Row(os.path.basename(script).removesuffix(".actors"))
    printed = subprocess.run([program, "swift", script], capture_output=True, text=True, check=False)
    if printed.returncode:
        row.problem = f"`nuchapay swift` ends with {printed.returncode}: {printed.stderr}"
        return row
    words, said = compile_swift(row.name, printed.stdout)
    if not words or "warning:" in said:
        row.problem = f"{'compiled with a warning' if words else 'not compiled'}: {said}"
        return row
    with open(script, encoding="ascii") as file:
        source = file.read()
    row.own = listed(source, limit)
    every = of_any_job(source, limit)
    if every is not None and row.name in LATE:
        with open(script.replace(row.name, LATE[row.name]), encoding="ascii") as file:
            late = of_any_job(file.read(), limit)
        every = None if late is None else every | late
    row.is_whole = every is not None
    row.allowed = every if every is not None else row.own if row.own is not None else of_runs(program, script)
    for _ in range(runs):
        try:
            done = subprocess.run(words, capture_output=True, text=True, timeout=SECONDS, check=False)
        except subprocess.TimeoutExpired:
            row.problem = f"a run did not end within {SECONDS} seconds"
            return row
        if done.returncode not in (0, 1):
            row.problem = f"a run ended with {done.returncode}: {done.stderr}"
            return row
        if "does not hold after a turn" in done.stderr or " fault overflow" in done.stdout:
            row.beside += 1
        else:
            row.seen[done.stdout] += 1
    return row


def scripts() -> list[str]:
    """The scripts whose programs are tried."""
    return [script for at in ("*.actors", "nuchapay/swift_*.actors") for script in sorted(glob.glob(os.path.join(TOP, "examples", at)))]


def random_scripts(folder: str, many: int, seed: int) -> list[str]:
    """Writes random scripts into a folder. Their paths."""
    paths = []
    for number in range(seed, seed + many):
        paths.append(os.path.join(folder, f"random_{number}.actors"))
        with open(paths[-1], "w", encoding="ascii") as file:
            file.write(Writer(number).script())
    return paths


def main() -> None:
    arguments = argparse.ArgumentParser(description=__doc__, formatter_class=argparse.RawDescriptionHelpFormatter)
    arguments.add_argument("program", metavar="NUCHAPAY")
    arguments.add_argument("names", metavar="NAME", nargs="*")
    arguments.add_argument("--runs", type=int, default=100)
    arguments.add_argument("--limit", metavar="STATES", type=int, default=100_000)
    arguments.add_argument("--table", action="store_true")
    arguments.add_argument("--random", metavar="N", type=int, default=0)
    arguments.add_argument("--seed", metavar="N", type=int, default=1)
    given = arguments.parse_args()
    if not ROOT and not shutil.which("swiftc"):
        print("no swiftc on the PATH, and SWIFT_ROOT names no folder: nothing is compiled")
        return
    program = os.path.abspath(given.program)
    is_well = True
    if given.table:
        print("| Script | Outcomes allowed | Of these ours | Of these seen | Notes |\n|---|---|---|---|---|")
    folder = tempfile.mkdtemp()
    for script in random_scripts(folder, given.random, given.seed) if given.random else scripts():
        if given.names and os.path.basename(script).removesuffix(".actors") not in given.names:
            continue
        row = look(program, script, given.runs, given.limit)
        is_well = is_well and (row.is_well() or bool(given.random) and not row.problem and not row.is_whole)
        print("| " + " | ".join(row.cells()) + " |" if given.table else ", ".join(row.cells()), flush=True)
        for outcome in row.outside():
            print(f"{row.seen[outcome]} runs:\n{outcome}", file=sys.stderr, flush=True)
    shutil.rmtree(ROOT + INSIDE, ignore_errors=True)
    shutil.rmtree(folder, ignore_errors=True)
    sys.exit(not is_well)


main()
