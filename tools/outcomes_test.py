#!/usr/bin/env python3
"""Tests tools/outcomes.py: numbers of outcomes that were worked out by hand, and the examples.

    tools/outcomes_test.py

Its last line is 'N passed, M failed'; status 0 where none failed. Of each script it also looks whether making each step by itself finds the
same outcomes, whether one worker has one outcome, whether those of one worker and of two are among all, and, of those worked out by hand,
whether all are among those with early tokens.
"""
import glob
import os
import sys
from typing import NamedTuple

from outcomes import explore, histories
from random_scripts import Writer

TOP = os.path.dirname(os.path.dirname(os.path.abspath(__file__)))

class Case(NamedTuple):
    name: str
    outcomes: int
    why: str  # how that number comes about
    script: str


DIGITS = "actor C { var n = 0; func put(x) { n = n * 10 + x; return 0; } }"
THREE = "actor B { func f() { return 1; } } actor C { func f() { return 2; } } actor D { func f() { return 3; } }"
PRINTER = """{ var n = 0; func put(x) { n = n * 10 + x; return priority; } }
    actor B { func ask() { let p = await task slow; return p; } }
    root slow = X.put(1) at low; root memo = X.put(2); root boss = B.ask() at high;"""
BUYER = "{ func f() { let b = await Account.read(); let got = 0; if b >= 10 { got = await Account.take(); } return got; } }"

CASES = [
    Case("two tasks on one executor", 1,
         "both jobs are there before the first turn, and each yield is sent before the token is put: they alternate",
         """actor A { var n = 0; func f(x) { let i = 0; while i < 3 { n = n * 10 + x; i = i + 1; yield; } return n; } }
         root a = A.f(1); root b = A.f(2);"""),
    Case("two tasks on two executors", 1,
         "neither sees what the other does",
         """actor A { var n = 0; func f(x) { n = n * 10 + x; yield; n = n * 10 + x; yield; return n; } }
         actor B { var n = 0; func f(x) { n = n * 10 + x; yield; n = n * 10 + x; yield; return n; } }
         root a = A.f(1); root b = B.f(2);"""),
    Case("two tasks on two executors that call a third one twice", 6,
         "1, 1, 2 and 2 have 4! / (2! 2!) orders",
         DIGITS + """ actor A { func f() { await C.put(1); await C.put(1); return 0; } }
         actor B { func f() { await C.put(2); await C.put(2); return 0; } }
         root a = A.f(); root b = B.f();"""),
    Case("the same, three times", 20,
         "6! / (3! 3!) orders",
         DIGITS + """ actor A { func f() { await C.put(1); await C.put(1); await C.put(1); return 0; } }
         actor B { func f() { await C.put(2); await C.put(2); await C.put(2); return 0; } }
         root a = A.f(); root b = B.f();"""),
    Case("two tasks that are made at once", 4,
         "2 orders in which the turns of their makers are applied, which number them, and 2 in which their jobs are pushed",
         DIGITS + """ actor A { func f() { spawn C.put(1); return 0; } } actor B { func f() { spawn C.put(2); return 0; } }
         root a = A.f(); root b = B.f();"""),
    Case("two tasks that one turn makes", 1,
         "one worker sends both jobs, in the order of the statements",
         DIGITS + " actor A { func f() { spawn C.put(1); spawn C.put(2); return 0; } } root a = A.f();"),
    Case("a group of three, whose results come in order of ending", 6,
         "3! orders of ending",
         THREE + """ actor A { func f() { let s = 0; group g { add g B.f(); add g C.f(); add g D.f();
         let x = await next g; s = x; x = await next g; s = s * 10 + x; x = await next g; s = s * 10 + x; } return s; } }
         root a = A.f();"""),
    Case("the same, of which two are asked for", 6,
         "the first two of 3! orders; the third result is dropped",
         THREE + """ actor A { func f() { let s = 0; group g { add g B.f(); add g C.f(); add g D.f();
         let x = await next g; s = x; x = await next g; s = s * 10 + x; } return s; } } root a = A.f();"""),
    Case("a cancel race", 3,
         "the cancel is applied before both turns begin (11), between (1), or after (0)",
         """actor A { func f() { let c = cancelled; yield; return c * 10 + cancelled; } } actor B { func stop() { cancel a; return 0; } }
         root a = A.f(); root b = B.stop();"""),
    Case("a cancel in the turn that makes the task", 1,
         "effects count in their order: the cancel is there before the task's first turn begins",
         """actor B { func f() { return cancelled; } }
         actor A { func f() { let h = spawn B.f(); cancel h; let v = await task h; return v; } } root a = A.f();"""),
    Case("a wait race", 2,
         "12 where both wait when `a` ends, or both find it ended; 21 where it ends between their turns: the second one goes on at once, "
         "and its worker can push it before that of `a` pushes the first",
         """actor A { func f() { return 0; } } actor W { var n = 0; func w(x) { await task a; n = n * 10 + x; return n; } }
         root a = A.f(); root b = W.w(1); root c = W.w(2);"""),
    Case("an escalation that a task reads", 3,
         "the wait is applied before both turns begin (33), between (13), or after (11)",
         """actor A { func f() { let p = priority; yield; return p * 10 + priority; } } actor B { func ask() { await task a; return 0; } }
         root a = A.f() at low; root b = B.ask() at high;"""),
    Case("an escalation that changes a choice", 3,
         "raised before the first choice, `slow` is first (12) and reads 3; else `memo` is (21), and `slow` reads 1 or 3",
         f"actor X {PRINTER}"),
    Case("the same on a fifo executor", 2,
         "`slow` is first, and reads 1 or 3",
         f"executor E fifo; actor X on E {PRINTER}"),
    Case("a spawn that hands a priority on", 2,
         "that of the maker when its turn begins, 1 or 3; who waits for the maker later does not raise the task that it made",
         """actor P { var seen = 9; func mark() { seen = priority; } } actor A { func f() { spawn P.mark(); return 0; } }
         actor B { func ask() { await task a; return 0; } } root a = A.f() at low; root b = B.ask() at high;"""),
    Case("a bind", 2,
         "the other task sets the field before the turn that binds it (57), or after (7): the detached task reads the default 7",
         """local l = 7; actor C { func read() { return @l; } }
         actor A { var n = 0; func set() { n = 5; return 0; } func f() { yield;
         bind l = n { let h = detach C.read(); let x = await C.read(); let y = await task h; return x * 10 + y; } return 0; } }
         actor B { func f() { await A.set(); return 0; } } root a = A.f(); root b = B.f();"""),
    Case("an assume", 2,
         "a transfer is one turn: the reader sees both fields before it (30) or after it (21); an actor elsewhere reaches neither",
         """executor e priority; actor S on e { var saved = 0; } actor Z { func f() { assume S { saved = 9; } return 0; } }
         actor W on e { var cash = 3; func save() { cash = cash - 1; assume S { saved = saved + 1; } return 0; }
         func look() { let v = 0; assume S { v = saved; } return cash * 10 + v; } }
         actor A { func f() { await W.save(); return 0; } } actor B { func f() { let v = await W.look(); return v; } }
         root a = A.f(); root b = B.f(); root z = Z.f();"""),
    Case("a fault in a child", 3,
         "the value comes first: the owner returns it, and the fault is dropped. Or the fault does, and leaves the owner, which cancels "
         "the other child before its second turn begins, or after",
         """actor B { func fail() { throw 7; } } actor C { func work() { yield; check; return 1; } }
         actor A { func f() { let s = 0; group g { add g B.fail(); add g C.work(); s = await next g; } return s; } } root a = A.f();"""),
    Case("the same with `else`", 2,
         "2 orders of ending; no child is cancelled",
         """actor B { func fail() { throw 7; } } actor C { func work() { yield; check; return 1; } }
         actor A { func f() { let s = 0; group g { add g B.fail(); add g C.work(); s = await next g else 5; } return s; } }
         root a = A.f();"""),
    Case("a child that is left out", 3,
         "the cancel is applied before the child is made, and it is left out; after its turn has begun (0); or between (1)",
         """actor B { func kid() { return cancelled; } } actor A { func f() { group g { yield; add g unless B.kid(); } return 0; } }
         actor C { func stop() { cancel a; return 0; } } root a = A.f(); root c = C.stop();"""),
    Case("the account", 1,
         "one executor: the tasks alternate, both see enough, and the second one's turn is undone",
         """actor Account { var balance = 10; invariant balance >= 0;
         func withdraw() { if balance >= 10 { yield; balance = balance - 10; return 1; } return 0; } }
         root first = Account.withdraw(); root second = Account.withdraw();"""),
    Case("the account from two executors", 4,
         "either is the first to take; the other one has read 10 before that and is undone, or reads 0 after it",
         f"""actor Account {{ var balance = 10; invariant balance >= 0;
         func read() {{ return balance; }} func take() {{ balance = balance - 10; return 1; }} }}
         actor A {BUYER} actor B {BUYER} root first = A.f(); root second = B.f();"""),
    Case("a call of an executor that is under way", 2,
         "the call is more urgent: it comes before the second turn of `b` is chosen (12), or after (21)",
         """actor C { var n = 0; func put(x) { n = n * 10 + x; return 0; } func twice(x) { yield; n = n * 10 + x; return 0; } }
         actor A { func f() { await C.put(1); return 0; } } root a = A.f() at high; root b = C.twice(2) at low;"""),
    Case("a pinned executor", 2,
         "it gets its jobs in either order, as any other",
         """executor P pinned 0; actor C on P { var n = 0; func put(x) { n = n * 10 + x; return 0; } }
         actor A { func f() { await C.put(1); return 0; } } actor B { func f() { await C.put(2); return 0; } }
         root a = A.f(); root b = B.f();"""),
]


class Tally:
    """Counts what passed, and says what failed."""

    def __init__(self) -> None:
        self.passed = self.failed = 0

    def test(self, name: str, holds: bool, said: str) -> None:
        self.passed += holds
        self.failed += not holds
        if not holds:
            print(f"{name}: {said}")


def test_script(tally: Tally, name: str, script: str) -> set:
    """What holds of each script. All its outcomes."""
    found = explore(script).outcomes
    tally.test(name, explore(script, each_step=True).outcomes == found, "each step by itself finds other outcomes")
    one = explore(script, workers=1).outcomes
    tally.test(name, len(one) == 1 and one <= found, "one worker has not one outcome of these")
    tally.test(name, explore(script, workers=2).outcomes <= found, "two workers have others")
    return found


def main() -> None:
    tally = Tally()
    for case in CASES:
        found = test_script(tally, case.name, case.script)
        tally.test(case.name, found <= explore(case.script, early_tokens=True).outcomes, "early tokens lack some")
        any_job = explore(case.script, any_job=True).outcomes
        tally.test(case.name, found <= any_job == histories(case.script).outcomes, "histories have other outcomes than workers that take any job")
        tally.test(case.name, len(found) == case.outcomes, f"{len(found)} and not {case.outcomes}\n" + "\n".join(sorted(found)))
    for path in sorted(glob.glob(os.path.join(TOP, "examples/*.actors"))):
        name = os.path.relpath(path, TOP)
        with open(path, encoding="ascii") as script, open(path[: -len("actors")] + "out", encoding="ascii") as out:
            found, text = test_script(tally, name, script.read()), out.read()
        tally.test(name, text[text.index("tasks\n"):] in found, "its output is none of the outcomes")
    for seed in (1, 2, 4, 5, 6, 10, 22, 36):
        test_script(tally, f"racy script {seed}", Writer(seed).script())
    print(f"{tally.passed} passed, {tally.failed} failed")
    sys.exit(1 if tally.failed else 0)


main()
