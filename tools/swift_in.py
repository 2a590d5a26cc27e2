#!/usr/bin/env python3
"""Compiles files of the subset of Swift that nuchapay reads, runs them, and looks whether explore lists what they print.

    tools/swift_in.py NUCHAPAY [FILE..] [--runs N] [--limit STATES] [--random N] [--plain N] [--seed N]

Without files it takes examples/swift, and those of examples/nuchapay; with --random N it takes N of tools/random_swift.py, from --seed on;
with --plain N what `nuchapay swift --plain` prints for N random scripts of tools/plain_swift.py, whose `main` also prints all fields at its
end.
The compiler is the `swiftc` on the PATH, or that of another system whose root folder SWIFT_ROOT names; where there is none, it says so and
ends with status 0.

Of a file that nuchapay refuses, it says whether the compiler does, too. Another one has to be compiled. It is run N times (60), each fifth
time on one core, and with short delays of random length at the beginning of statements, so that other orders come. The numbers, true and
false that a run prints are compared with the fields print_lineN, print_lineN_2 .. of the outcomes that explore lists for what `nuchapay print` prints, without
its invariants: Swift undoes nothing. A run that traps is inside where a precondition fails or a sum overflows in an outcome. Files that
print a value more than once, or not always, are not compared; nor are those of more than STATES states (100,000), nor those of which a task
may be ended by a limit: it goes on in Swift. Where a method of an actor cancels a task or a group, an outcome that is not listed is noted
alone.

Status 1 where the compiler refuses what nuchapay reads, or warns of a file of the repository, or a run has an outcome that is not listed.
"""
from __future__ import annotations

import argparse
import collections
import concurrent.futures
import glob
import os
import re
import shutil
import subprocess
import sys
import tempfile
from typing import Optional

sys.path.insert(0, os.path.dirname(os.path.abspath(__file__)))
from plain_swift import Own, plain
from random_swift import program as random_program

TOP = os.path.dirname(os.path.dirname(os.path.abspath(__file__)))
ROOT = os.environ.get("SWIFT_ROOT", "")
# Where the programs are built, inside SWIFT_ROOT or here.
INSIDE = "/tmp/nuchapay_swift_in"
ENTER = ["chroot", ROOT, "env", "TMPDIR=/tmp", "LD_LIBRARY_PATH=/usr/libexec/swift/lib/swift/linux"] if ROOT else []
SECONDS = 20
EXPLORE_SECONDS = 120
TRAP = "trap"
DELAY = """
import Glibc
@inline(never) func delay_() { if Bool.random() { usleep(UInt32.random(in: 0...150)) } }
"""
# A statement at the beginning of a line of a body that is none of a single expression, as these are examples' and random_swift's.
STATEMENT = re.compile(r"^(\s{8,})((?:let|var|if|guard|while|for|return|throw)\b.*|\w+\.(?:cancel|cancelAll|addTask)\b.*)$")
# A task that is ended by a limit.
LIMIT = re.compile(r" fault (?:steps|turns|depth|tasks)$", re.MULTILINE)
VALUE = re.compile(r"-?\b\d+\b|\btrue\b|\bfalse\b")

Outcome = tuple[object, ...]


def delayed(text: str) -> str:
    """A file with a delay before each statement that begins a line."""
    return "\n".join(STATEMENT.sub(r"\1delay_(); \2", line) for line in text.split("\n")) + DELAY


def printed(text: str) -> Outcome:
    """The numbers that a run prints; 1 and 0 for true and false."""
    return tuple({"true": 1, "false": 0}.get(found) if found in ("true", "false") else int(found) for found in VALUE.findall(text))


def without_invariants(script: str) -> str:
    """A script in which nothing has to hold."""
    return "\n".join(line for line in script.split("\n") if not line.lstrip().startswith("invariant "))


def main_of(script: str) -> tuple[str, list[str]]:
    """The name of the actor that `main` became, and the fields of the values that it prints, in order."""
    found = re.search(r"^root main = (\w+)\.main\(\);$", script, re.MULTILINE)
    if not found:
        return "", []
    body = script[script.rindex(f"\nactor {found.group(1)} "):]
    return found.group(1), re.findall(r"^ *var (print_line\d+(?:_\d+)?) = 0;$", body, re.MULTILINE)


def listed(said: str, name: str, fields: list[str]) -> set[Outcome]:
    """The values that are printed in each outcome of what explore says; also `trap`, where one ends the process in Swift."""
    found: set[Outcome] = set()
    for block in re.split(r"^outcome \d+$", said, flags=re.MULTILINE)[1:]:
        values = dict(re.findall(rf"^{name}\.(\w+) (-?\d+)$", block, re.MULTILINE))
        is_trapped = re.search(r"\.precondition_line_ [1-9]|fault overflow$", block, re.MULTILINE)
        found.add((TRAP,) if is_trapped else tuple(int(values.get(field, 0)) for field in fields))
    return found


def compile_text(name: str, text: str, emits: list[str]) -> tuple[bool, str]:
    """Whether a text is compiled, and what the compiler says."""
    os.makedirs(ROOT + INSIDE, exist_ok=True)
    with open(f"{ROOT}{INSIDE}/{name}.swift", "w", encoding="utf8") as file:
        file.write(text)
    words = [*ENTER, "swiftc", "-swift-version", "6", "-parse-as-library", *emits, f"{INSIDE}/{name}.swift"]
    done = subprocess.run(words, capture_output=True, text=True, check=False)
    return done.returncode == 0, done.stdout + done.stderr


def build(name: str, text: str) -> tuple[bool, list[str]]:
    """Compiles a file, and again with delays. Whether the compiler takes it, and what it says."""
    is_taken, said = compile_text(name, text, ["-emit-sil", "-o", "/dev/null"])
    told = [line for line in said.split("\n") if re.search(r"\.swift:\d+:\d+: (?:error|warning):", line)]
    if is_taken:
        emits = ["-o", f"{INSIDE}/{name}"]
        is_taken = compile_text(name, delayed(text), emits)[0] or compile_text(name, text, emits)[0]
    return is_taken, told


def run_once(name: str, place: int) -> Outcome:
    """What one run prints."""
    words = [*(["taskset", "-c", "0"] if place % 5 == 0 else []), *ENTER, f"{INSIDE}/{name}"]
    try:
        done = subprocess.run(words, capture_output=True, text=True, timeout=SECONDS, check=False)
    except subprocess.TimeoutExpired:
        return ("no end",)
    return (TRAP,) if done.returncode else printed(done.stdout)


class Row:
    """What was seen of one file."""

    def __init__(self, path: str):
        self.path = path
        self.name = os.path.basename(path).removesuffix(".swift")
        self.note = ""
        self.is_well = True

    def fail(self, note: str) -> None:
        self.is_well = False
        self.note = note


def explored(program: str, script: str, limit: int) -> Optional[str]:
    """What explore says of a script without its invariants; nothing where it does not come to its end."""
    with tempfile.NamedTemporaryFile("w", suffix=".actors", encoding="utf8") as file:
        file.write(without_invariants(script))
        file.flush()
        words = [program, "explore", "--limit", str(limit), file.name]
        try:
            done = subprocess.run(words, capture_output=True, text=True, timeout=EXPLORE_SECONDS, check=False)
        except subprocess.TimeoutExpired:
            return None
    return done.stdout if "came to its end" in done.stdout else None


def cancels_early(text: str) -> bool:
    """Whether a method of an actor cancels something: in Swift a task may begin before that in the turn that makes it."""
    return bool(re.search(r"\.cancel(?:All)?\(\)", text.split("@main")[0]))


def compare(row: Row, program: str, text: str, script: str, runs: int, limit: int) -> None:
    """Runs what was built, and compares."""
    seen = collections.Counter(run_once(row.name, place) for place in range(runs))
    said = explored(program, script, limit)
    name, fields = main_of(script)
    if said is not None and LIMIT.search(said):
        row.note = f"not compared, a task may be ended by a limit, {len(seen)} seen"
        return
    if said is None or any(each != (TRAP,) and len(each) != len(fields) for each in seen):
        row.note = f"not compared, {len(seen)} seen"
        return
    found = listed(said, name, fields)
    outside = [f"{times} runs print {each}" for each, times in seen.items() if each not in found]
    if outside and cancels_early(text):
        row.note = f"not compared, {len(seen)} seen, {len(outside)} of them outside: a task may begin in Swift before it is cancelled"
    elif outside:
        row.fail("; ".join(outside) + f"; listed are {sorted(map(str, found))}")
    else:
        row.note = f"{len(seen)} seen of {len(found)} that are listed"


def look(program: str, path: str, runs: int, limit: int) -> Row:
    """Compiles, runs and explores one file."""
    row = Row(path)
    with open(path, encoding="utf8") as file:
        text = file.read()
    done = subprocess.run([program, "print", path], capture_output=True, text=True, check=False)
    is_taken, told = build(row.name, text)
    if done.returncode:
        row.note = f"refused, {done.stderr.splitlines()[0] if done.stderr else ''}; swiftc {'takes' if is_taken else 'refuses'} it"
    elif is_taken:
        compare(row, program, text, done.stdout, runs, limit)
        warnings = [line for line in told if " warning:" in line]
        if warnings:
            row.note += f", with {len(warnings)} warnings: {warnings[0]}"
            row.is_well = row.is_well and not path.startswith(TOP)
    else:
        row.fail(f"read, and swiftc refuses it: {' '.join(told[:2])}")
    return row


def files(folder: str, many: int, seed: int) -> list[str]:
    """Writes random files into a folder. Their paths."""
    paths = []
    for number in range(seed, seed + many):
        path = os.path.join(folder, f"random_{number}.swift")
        with open(path, "w", encoding="ascii") as file:
            file.write(random_program(number))
        paths.append(path)
    return paths


def with_prints(swift: str) -> str:
    """A plain program whose `main` prints each field at its end."""
    members: dict[str, list[str]] = collections.defaultdict(list)
    actor = ""
    for line in swift.split("\n"):
        found = re.match(r"actor (\w+)", line)
        actor = found.group(1) if found else actor
        field = re.match(r"    private\(set\) var (\w+) =", line)
        if field:
            members[actor].append(field.group(1))
    made = re.findall(r"^let (\w+) = (\w+)\(\)$", swift, re.MULTILINE)
    prints = [f"        print(await {name}.{field})\n" for name, of in made for field in members[of]]
    place = swift.rindex("    }\n}")
    return swift[:place] + "".join(prints) + swift[place:]


def plain_files(program: str, folder: str, many: int, seed: int) -> list[str]:
    """Writes plain programs of random scripts into a folder. Their paths."""
    paths: list[str] = []
    number = seed
    while len(paths) < many:
        swift, _ = plain(program, Own(number).script())
        if swift:
            paths.append(os.path.join(folder, f"plain_{number}.swift"))
            with open(paths[-1], "w", encoding="ascii") as file:
                file.write(with_prints(swift))
        number += 1
    return paths


def main() -> None:
    arguments = argparse.ArgumentParser(description=__doc__, formatter_class=argparse.RawDescriptionHelpFormatter)
    arguments.add_argument("program", metavar="NUCHAPAY")
    arguments.add_argument("files", metavar="FILE", nargs="*")
    arguments.add_argument("--runs", type=int, default=60)
    arguments.add_argument("--limit", metavar="STATES", type=int, default=100_000)
    arguments.add_argument("--random", metavar="N", type=int, default=0)
    arguments.add_argument("--plain", metavar="N", type=int, default=0)
    arguments.add_argument("--seed", metavar="N", type=int, default=1)
    given = arguments.parse_args()
    if not ROOT and not shutil.which("swiftc"):
        print("no swiftc on the PATH, and SWIFT_ROOT names no folder: nothing is compiled")
        return
    program = os.path.abspath(given.program)
    usual = [path for at in ("swift", "nuchapay") for path in sorted(glob.glob(os.path.join(TOP, "examples", at, "*.swift")))]
    is_well = True
    with tempfile.TemporaryDirectory() as folder, concurrent.futures.ThreadPoolExecutor(2) as pool:
        paths = given.files or ([] if given.random or given.plain else usual)
        paths = paths + files(folder, given.random, given.seed) + plain_files(program, folder, given.plain, given.seed)
        for row in pool.map(lambda path: look(program, path, given.runs, given.limit), paths):
            is_well = is_well and row.is_well
            print(f"{row.name}: {row.note}", flush=True)
    shutil.rmtree(ROOT + INSIDE, ignore_errors=True)
    sys.exit(not is_well)


if __name__ == "__main__":
    main()
