#!/usr/bin/env python3
"""Prints scripts as plain Swift, reads that back, and looks whether it is the script again.

    tools/plain_swift.py NUCHAPAY [FILE..] [--random N] [--seed N] [--states N]

Without files it takes the scripts of examples/ and what `print` shows of examples/swift; with --random N also N of tools/random_scripts.py
and N of its own, from --seed on (1), whose forms all have plain Swift.

`nuchapay swift --plain` either refuses a script, or prints a file; `nuchapay print` reads that back. The two scripts have to be the same up to
this relation, which docs/SWIFT_IN.md has in words:

- names differ, but the same ones stand for the same: actors, fields and methods in order, variables where they are made;
- the script that is read back has a method for each field, of its name, and besides an actor `Task` and one for `main`, whose method makes the
  roots in order, and waits for each;
- a number as a test is compared with 0; `return 0` may stand behind a method that returned nothing at its end;
- what is awaited may be put into a variable of its own first, and so may arguments; a child calls a method of `Task`, which makes the call;
- `await next g` stands below a test that a child is left;
- a call with `else` may be a task of its own.

Where `explore` comes to its end within N states (2,000) on both sides, the values of the actors' fields at the end have to be the same: without
groups all of them; with groups, each of the script's has to be among those that are read back, as a task ends after it has left its actor.

Status 1 where a file is not read back, or is another script.
"""
from __future__ import annotations

import argparse
import collections
import glob
import os
import random
import re
import subprocess
import sys
import tempfile
from typing import Iterator, Optional

sys.dont_write_bytecode = True
sys.path.insert(0, os.path.dirname(os.path.abspath(__file__)))
from script_tree import Actor, Call, Expr, NoScript, Reader, Script, Statement

TOP = os.path.dirname(os.path.dirname(os.path.abspath(__file__)))
TESTS = frozenset(["!", "&&", "||", "==", "!=", "<", "<=", ">", ">=", "cancelled"])
# A variable that the reader of Swift, or the printer, made.
MADE = re.compile(r"m\d+_|g_\d+(_0d\d+_)?")
# The task of a call whose error is caught.
CAUGHT = re.compile(r"caught\d+_")
SECONDS = 120


class Other(Exception):
    """The two scripts differ."""


def want(is_so: bool, what: str) -> None:
    if not is_so:
        raise Other(what)


# Expressions.


def as_test(expr: Expr) -> Expr:
    """A test, in which a number is compared with 0."""
    if expr[0] in ("&&", "||"):
        return (expr[0], as_test(expr[1]), as_test(expr[2]))
    if expr[0] == "!":
        return ("!", as_test(expr[1]))
    return expr if expr[0] in TESTS else ("!=", expr, ("number", 0))


def put_in(expr: Expr, made: dict[str, Expr]) -> Expr:
    """An expression, with the values of variables that were made for them."""
    if expr[0] == "name":
        return made.get(expr[1], expr)
    if expr[0] in ("number", "local", "priority", "cancelled"):
        return expr
    return (expr[0], *(put_in(part, made) for part in expr[1:]))


# What was read back, without what the reader made.


def call_in(call: Call, made: dict[str, Expr]) -> Call:
    return Call(call.actor, call.method, tuple(put_in(each, made) for each in call.arguments))


def pool_call(script: Script, call: Call) -> Call:
    """What a child's method of `Task` calls."""
    if call.actor != "Task":
        return call
    method = script.method(call.actor, call.method)
    want(len(method.block) in (1, 2) and method.block[0].way == "call", "a child that does more than a call")
    if len(method.block) == 2:
        want(method.block[1].kind == "return" and method.block[1].value == ("name", method.block[0].name), "a child that gives another value")
    return call_in(method.block[0].call, dict(zip(method.parameters, call.arguments)))


def counted_next(statement: Statement) -> Optional[Statement]:
    """The `await next` that stands below a test that a child is left, and sets what that sets in the end."""
    if statement.kind != "if" or statement.other or len(statement.block) != 3:
        return None
    first, second, third = statement.block
    if first.way != "next" or second.kind != "set" or third.kind != "set" or third.value != ("name", first.name):
        return None
    return Statement("await", third.name, way="next", on=first.on)


def replaced(statement: Statement, **parts: object) -> Statement:
    names = ("kind", "name", "value", "way", "new", "on", "call", "rank", "block", "other")
    return Statement(**{**{name: getattr(statement, name) for name in names}, **parts})  # type: ignore[arg-type]


class Cleaner:
    """Takes out of a script that was read back what the reader of Swift made."""

    def __init__(self, script: Script):
        self.script = script

    def block(self, block: tuple[Statement, ...], made: dict[str, Expr]) -> tuple[Statement, ...]:
        out: list[Statement] = []
        made = dict(made)
        counts: set[str] = set()
        caught: dict[str, Optional[Call]] = {}
        for statement in block:
            found = counted_next(statement)
            if found:
                # What is set there was made with 0 right before.
                want(bool(out) and out[-1].kind == "let" and out[-1].name == found.name and out[-1].value == ("number", 0), "a result without its variable")
                out.pop()
                out.append(replaced(found, new=True))
                continue
            if statement.kind == "make" and CAUGHT.fullmatch(statement.name):
                want(statement.way == "spawn" and statement.rank is None, "another caught call")
                caught[statement.name] = statement.call
                continue
            if statement.kind == "await" and statement.on in caught:
                statement = replaced(statement, way="call", on="", call=caught.pop(statement.on))
            if statement.kind == "let" and MADE.fullmatch(statement.name):
                if statement.value == ("number", 0):
                    counts.add(statement.name)
                    out.append(statement)
                else:
                    made[statement.name] = put_in(statement.value, made)
                continue
            if statement.kind == "set" and statement.name in counts:
                want(statement.value == ("+", ("name", statement.name), ("number", 1)), "a count that does not go up")
                continue
            value = statement.value
            if statement.kind in ("let", "set") and value and value[0] == "name" and out and out[-1].kind == "await" and out[-1].name == value[1] and MADE.fullmatch(value[1]):
                out[-1] = replaced(out[-1], name=statement.name, new=statement.kind == "let")
                continue
            out.append(self.cleaned(statement, made))
        return tuple(
            replaced(each, name="", new=False) if each.kind == "await" and each.new and MADE.fullmatch(each.name) else each
            for each in out
            if not (each.kind == "let" and each.name in counts)
        )

    def cleaned(self, statement: Statement, made: dict[str, Expr]) -> Statement:
        call = statement.call and pool_call(self.script, call_in(statement.call, made))
        value = statement.value and put_in(statement.value, made)
        return replaced(statement, call=call, value=value, block=self.block(statement.block, made), other=self.block(statement.other, made))


# The comparison.


class Pairs:
    """Which name of the one script stands for which of the other."""

    def __init__(self) -> None:
        self.there: dict[str, str] = {}
        self.back: dict[str, str] = {}

    def add(self, left: str, right: str) -> None:
        self.there[left] = right
        self.back[right] = left

    def inner(self) -> Pairs:
        made = Pairs()
        made.there, made.back = dict(self.there), dict(self.back)
        return made

    def want(self, left: str, right: str) -> None:
        want(self.there.get(left) == right and self.back.get(right) == left, f"{left} and {right}")


class Comparison:
    """A script, and what was read back of its plain Swift."""

    def __init__(self, left: Script, right: Script):
        self.left, self.right = left, right
        self.actors = Pairs()
        self.fields: dict[str, Pairs] = {}
        self.methods: dict[str, Pairs] = {}
        self.cleaner = Cleaner(right)

    def run(self) -> None:
        left, right = list(self.left.actors.values()), list(self.right.actors.values())
        want(not self.right.names and not self.right.locals, "executors or task locals")
        want([actor.name for actor in right[len(left) :]] in (["Main"], ["Task", "Main"]), "other actors")
        for one, other in zip(left, right):
            self.actors.add(one.name, other.name)
            self.heads(one, other)
        for one, other in zip(left, right):
            self.bodies(one, other)
        self.roots(right[-1])

    def heads(self, one: Actor, other: Actor) -> None:
        fields, methods = Pairs(), Pairs()
        want(one.starts == other.starts, f"start values of {one.name}")
        for left, right in zip(one.places, other.places):
            fields.add(left, right)
        others = list(other.methods)[len(one.methods) :]
        want(others == list(other.places), f"methods of {one.name}")
        for left, right in zip(one.methods, other.methods):
            methods.add(left, right)
        self.fields[one.name], self.methods[one.name] = fields, methods

    def bodies(self, one: Actor, other: Actor) -> None:
        want((one.invariant is None) == (other.invariant is None), f"invariant of {one.name}")
        if one.invariant and other.invariant:
            self.expr(as_test(one.invariant), other.invariant, self.fields[one.name])
        for left, right in self.methods[one.name].there.items():
            ours, theirs = one.methods[left], other.methods[right]
            names = self.fields[one.name].inner()
            want(len(ours.parameters) == len(theirs.parameters), f"parameters of {left}")
            for pair in zip(ours.parameters, theirs.parameters):
                names.add(*pair)
            block = self.cleaner.block(theirs.block, {})
            if len(block) == len(ours.block) + 1 and block[-1].kind == "return" and block[-1].value == ("number", 0):
                block = block[:-1]
            self.block(ours.block, block, names)

    def roots(self, actor: Actor) -> None:
        want(not actor.places and list(actor.methods) == ["main"], "what main has")
        want([root.actor for root in self.right.roots] == [actor.name], "roots")
        block = self.cleaner.block(actor.methods["main"].block, {})
        roots = self.left.roots
        want(len(block) == 2 * len(roots), "tasks of main")
        for root, make, wait in zip(roots, block, block[len(roots) :]):
            want(make.way == "spawn" and (2 if make.rank is None else make.rank) == root.rank, f"task of {root.name}")
            want(wait.way == "task" and wait.on == make.name, f"wait for {root.name}")
            arguments = tuple(("number", each) if each >= 0 else ("-", ("number", -each)) for each in root.arguments)
            self.call(Call(root.actor, root.method, arguments), make.call, Pairs())

    def block(self, left: tuple[Statement, ...], right: tuple[Statement, ...], names: Pairs) -> None:
        names = names.inner()
        want(len(left) == len(right), f"{[each.kind for each in left]} and {[each.kind for each in right]}")
        for pair in zip(left, right):
            self.statement(*pair, names)

    def statement(self, left: Statement, right: Statement, names: Pairs) -> None:
        want(left.kind == right.kind and left.way == right.way and left.new == right.new, f"{left} and {right}")
        rank = 2 if left.way == "detach" else None
        want((rank if left.rank is None else left.rank) == (rank if right.rank is None else right.rank), "priorities")
        is_test = left.kind in ("if", "while")
        is_dropped = left.kind == "await" and not left.name
        want((left.value is None) == (right.value is None), f"{left} and {right}")
        if left.value is not None and right.value is not None and not is_dropped:
            self.expr(as_test(left.value) if is_test else left.value, right.value, names)
        if left.call and right.call:
            self.call(left.call, right.call, names)
        if left.on:
            names.want(left.on, right.on)
        is_new = left.new or left.kind in ("let", "group") or left.kind == "make"
        if left.name and not is_new:
            names.want(left.name, right.name)
        want(bool(left.name) == bool(right.name), f"{left} and {right}")
        if left.name and is_new:
            names.add(left.name, right.name)
        self.block(left.block, right.block, names)
        self.block(left.other, right.other, names)

    def call(self, left: Call, right: Optional[Call], names: Pairs) -> None:
        want(right is not None and len(left.arguments) == len(right.arguments), f"{left} and {right}")
        assert right is not None
        self.actors.want(left.actor, right.actor)
        self.methods[left.actor].want(left.method, right.method)
        for pair in zip(left.arguments, right.arguments):
            self.expr(*pair, names)

    def expr(self, left: Expr, right: Expr, names: Pairs) -> None:
        want(left[0] == right[0] and len(left) == len(right), f"{left} and {right}")
        if left[0] == "name":
            names.want(left[1], right[1])
        elif left[0] in ("number", "cancelled"):
            want(left == right, f"{left} and {right}")
        else:
            for pair in zip(left[1:], right[1:]):
                self.expr(*pair, names)


# Outcomes.


def explored(program: str, text: str, states: int) -> Optional[str]:
    """What explore says of a script, where it comes to its end."""
    with tempfile.NamedTemporaryFile("w", suffix=".actors", encoding="utf8") as file:
        file.write(text)
        file.flush()
        words = [program, "explore", "--limit", str(states), file.name]
        try:
            done = subprocess.run(words, capture_output=True, text=True, timeout=SECONDS, check=False)
        except subprocess.TimeoutExpired:
            return None
    return done.stdout if "came to its end" in done.stdout else None


def ends(said: str, names: dict[tuple[str, str], str]) -> set[tuple[tuple[str, str], ...]]:
    """The values of these fields in each outcome."""
    found = set()
    for block in re.split(r"^outcome \d+$", said, flags=re.MULTILINE)[1:]:
        values = re.findall(r"^(\w+)\.(\w+) (-?\d+)$", block, re.MULTILINE)
        found.add(tuple(sorted((names[(actor, field)], value) for actor, field, value in values if (actor, field) in names)))
    return found


def compare_ends(program: str, left: str, right: str, found: Comparison, states: int) -> str:
    """Compares the outcomes. What was seen."""
    ours, theirs = explored(program, left, states), explored(program, right, states)
    if ours is None or theirs is None:
        return "not explored"
    own = {(actor, field): f"{actor}.{field}" for actor, pairs in found.fields.items() for field in pairs.there}
    other = {(found.actors.there[actor], right): f"{actor}.{left}" for actor, pairs in found.fields.items() for left, right in pairs.there.items()}
    one, two = ends(ours, own), ends(theirs, other)
    want(one <= two if "Task" in found.right.actors else one == two, f"{len(one - two)} outcomes lost, {len(two - one)} new")
    return f"{len(one)} of {len(two)} outcomes"


# Scripts.


def own_expr(r: random.Random, names: list[str], depth: int) -> str:
    if depth == 0 or r.random() < 0.3:
        return r.choice([*names, str(r.randint(0, 9))])
    if r.random() < 0.15:
        return f"-({own_expr(r, names, depth - 1)})"
    return f"({own_expr(r, names, depth - 1)}) {r.choice(['+', '-', '*'])} ({own_expr(r, names, depth - 1)})"


def own_test(r: random.Random, names: list[str], depth: int) -> str:
    kind = r.randrange(6)
    if depth and kind == 0:
        return f"({own_test(r, names, depth - 1)}) {r.choice(['&&', '||'])} ({own_test(r, names, depth - 1)})"
    if depth and kind == 1:
        return f"!({own_test(r, names, depth - 1)})"
    if kind == 2:
        return r.choice(["cancelled", own_expr(r, names, 1)])
    return f"({own_expr(r, names, depth)}) {r.choice(['==', '!=', '<', '<=', '>', '>='])} ({own_expr(r, names, depth)})"


class Own:
    """A random script whose forms have plain Swift."""

    def __init__(self, seed: int):
        self.r = random.Random(seed)
        self.actors = self.r.randint(1, 4)
        self.made = 0

    def fresh(self, letter: str) -> str:
        self.made += 1
        return f"{letter}{self.made}{self.r.choice(['', '', '_', '_in'])}"

    def call(self, actor: int, names: list[str]) -> str:
        return f"A{actor}.f{self.r.randrange(2)}({own_expr(self.r, names, 1)})"

    def wait(self, actor: int, names: list[str]) -> str:
        other = f" else {own_expr(self.r, names, 1)}" if self.r.random() < 0.5 else ""
        return f"await {self.call(self.r.randrange(actor + 1, self.actors), names)}{other}"

    def simple(self, actor: int, names: list[str], variables: list[str]) -> str:
        kind = self.r.randrange(10)
        if kind < 3:
            return f"{self.r.choice(['n', 'k_', *variables])} = {own_expr(self.r, ['1', *names], 2)} + 1; "
        if kind == 3:
            return "yield; "
        if kind == 4:
            return "check; " if self.r.random() < 0.3 else "yield; "
        if actor + 1 < self.actors and kind < 8:
            wait = self.wait(actor, names)
            return self.r.choice([f"{wait}; ", f"n = {wait}; "])
        if kind == 8 and self.r.random() < 0.3:
            return f"throw {self.r.randint(0, 9)}; "
        return f"if {own_test(self.r, names, 2)} {{ n = 0; }} "

    def group(self, actor: int, names: list[str]) -> str:
        name, many = self.fresh("g"), self.r.randint(1, 2)
        text = "".join(f"add {name} {self.call(self.r.randrange(actor + 1, self.actors), names)}; " for _ in range(many))
        for _ in range(self.r.randint(0, many)):
            text += self.r.choice([f"n = await next {name}; ", f"let {self.fresh('v')} = await next {name}; ", f"await next {name}; "])
        return f"group {name} {{ {text}{self.r.choice(['', f'cancel {name}; '])}}} "

    def block(self, actor: int, names: list[str], depth: int) -> str:
        text, names, variables = "", list(names), []
        for _ in range(self.r.randint(0, 3)):
            kind = self.r.randrange(8)
            if kind == 0:
                name = self.fresh("x")
                text += f"let {name} = {own_expr(self.r, names, 2)}; "
                names.append(name)
                variables.append(name)
            elif kind == 1 and depth:
                text += f"if {own_test(self.r, names, 2)} {{ {self.block(actor, names, depth - 1)}}} "
                if self.r.random() < 0.5:
                    text += f"else {{ {self.block(actor, names, depth - 1)}}} "
            elif kind == 2 and actor + 1 < self.actors:
                name = self.fresh("t")
                made = f"{self.r.choice(['spawn', 'detach'])} {self.call(self.r.randrange(actor + 1, self.actors), names)}{self.r.choice(['', ' at high', ' at low'])}"
                text += f"let {name} = {made}; {self.r.choice(['', f'cancel {name}; '])}{self.r.choice(['', 'n = '])}await task {name}{self.r.choice(['', ' else 7'])}; "
            elif kind == 3 and actor + 1 < self.actors:
                text += self.group(actor, names)
            elif kind == 4 and depth:
                name = self.fresh("i")
                text += f"let {name} = 0; while {name} < 2 {{ {self.block(actor, names, depth - 1)}{name} = {name} + 1; }} "
            else:
                text += self.simple(actor, names, variables)
        return text

    def script(self) -> str:
        lines = []
        for actor in range(self.actors):
            methods = ""
            for number in range(2):
                end = self.r.choice(["", f"return {own_expr(self.r, ['n', 'in'], 2)}; "])
                methods += f" func f{number}(in) {{ {self.block(actor, ['n', 'k_', 'in'], 2)}{end}}}"
            lines.append(f"actor A{actor} {{ var n = {self.r.randint(0, 2)}; var k_ = -{self.r.randint(0, 3)}; {self.r.choice(['', 'invariant n <= 100 || k_ != n; '])}{methods} }}")
        for root in range(self.r.randint(1, 3)):
            at = self.r.choice(["", " at high", " at medium"])
            lines.append(f"root r{root} = A{self.r.randrange(self.actors)}.f{self.r.randrange(2)}({self.r.randint(-2, 3)}){at};")
        return "\n".join(lines) + "\n"


def scripts(program: str, files: list[str], many: int, seed: int) -> Iterator[tuple[str, str]]:
    """Names and texts."""
    if not files and not many:
        files = sorted(glob.glob(os.path.join(TOP, "examples", "*.actors")) + glob.glob(os.path.join(TOP, "examples", "*", "*.actors")))
        for path in sorted(glob.glob(os.path.join(TOP, "examples", "swift", "*.swift"))):
            done = subprocess.run([program, "print", path], capture_output=True, text=True, check=True)
            yield os.path.basename(path), done.stdout
    for path in files:
        with open(path, encoding="latin1") as file:
            yield os.path.basename(path), file.read()
    if many:
        words = [sys.executable, os.path.join(TOP, "tools", "random_scripts.py"), str(many), str(seed)]
        said = subprocess.run(words, capture_output=True, text=True, check=True).stdout
        for number, part in enumerate(re.split(r"^== agree .*\n", said, flags=re.MULTILINE)[1:]):
            yield f"random {number}", part
    for number in range(seed, seed + many):
        yield f"own {number}", Own(number).script()


def plain(program: str, text: str) -> tuple[str, str]:
    """The plain Swift of a script, or else what is said of it."""
    with tempfile.NamedTemporaryFile("w", suffix=".actors", encoding="latin1") as file:
        file.write(text)
        file.flush()
        done = subprocess.run([program, "swift", "--plain", file.name], capture_output=True, text=True, check=False)
    return (done.stdout, "") if done.returncode == 0 else ("", done.stderr or done.stdout)


def read_back(program: str, swift: str) -> str:
    with tempfile.NamedTemporaryFile("w", suffix=".swift", encoding="ascii") as file:
        file.write(swift)
        file.flush()
        done = subprocess.run([program, "print", file.name], capture_output=True, text=True, check=False)
    want(done.returncode == 0, f"is not read back: {done.stderr}")
    return done.stdout


def look(program: str, text: str, swift: str, states: int) -> str:
    """Compares a script with its plain Swift. What was seen."""
    back = read_back(program, swift)
    found = Comparison(Reader(text).script(), Reader(back).script())
    found.run()
    return compare_ends(program, text, back, found, states) if states else "the same"


def main() -> None:
    arguments = argparse.ArgumentParser(description=__doc__, formatter_class=argparse.RawDescriptionHelpFormatter)
    arguments.add_argument("program", metavar="NUCHAPAY")
    arguments.add_argument("files", metavar="FILE", nargs="*")
    arguments.add_argument("--random", metavar="N", type=int, default=0)
    arguments.add_argument("--seed", metavar="N", type=int, default=1)
    arguments.add_argument("--states", metavar="N", type=int, default=2_000)
    given = arguments.parse_args()
    program = os.path.abspath(given.program)
    seen: collections.Counter[str] = collections.Counter()
    for name, text in scripts(program, given.files, given.random, given.seed):
        swift, said = plain(program, text)
        if not swift:
            seen["refused"] += 1
            continue
        try:
            note = look(program, text, swift, given.states)
            seen["the same"] += 1
            seen["explored, too"] += "outcomes" in note
        except (Other, NoScript) as fault:
            seen["OTHERWISE"] += 1
            print(f"{name}: {fault}\n{text}\n{swift}", flush=True)
    print(", ".join(f"{count} {what}" for what, count in sorted(seen.items())))
    sys.exit(bool(seen["OTHERWISE"]))


if __name__ == "__main__":
    main()
