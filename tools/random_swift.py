#!/usr/bin/env python3
"""Prints a small random file of the subset of Swift that nuchapay reads; each is accepted, and ends.

    tools/random_swift.py SEED

It has two actors, of which the first calls the second, and a `main` that runs two of their methods at once and prints what they gave and
what the fields are at last, each once. Numbers stay small, and loops are short, so that explore comes to its end for most of them.
"""
from __future__ import annotations

import random
import sys

COMPARISONS = ("==", "!=", "<", "<=", ">", ">=")


class Method:
    """What is known of a method: `sync`, `async` or `throws`, and whether it gives an Int, a Bool, or nothing."""

    def __init__(self, name: str, kind: str, gives: str, label: str):
        self.name, self.kind, self.gives, self.label = name, kind, gives, label


class Body:
    """The lines of a body under way, with the names that stand in it."""

    def __init__(self, maker: "Maker", others: list[Method], own: list[Method], waits: int, is_throwing: bool):
        self.maker, self.draw, self.others, self.own = maker, maker.draw, others, own
        self.waits, self.is_throwing = waits, is_throwing
        self.constants, self.variables = ["k"], []
        self.lines: list[str] = []
        self.depth = 2
        self.loops = 0

    def say(self, line: str) -> None:
        self.lines.append("    " * self.depth + line)

    def fresh(self, letter: str) -> str:
        self.maker.names += 1
        return f"{letter}{self.maker.names}"

    def may_wait(self) -> bool:
        """Takes one of the waits that are left, if there is one."""
        if self.waits > 0 and self.loops == 0:
            self.waits -= 1
            return True
        return False

    # Expressions, without a wait.

    def atom(self) -> str:
        return self.draw.choice(["n", "m", "self.n", "step", "limit", str(self.draw.randrange(4)), "T.id"] + self.constants + self.variables)

    def number(self, depth: int = 1) -> str:
        if depth == 0 or self.draw.random() < 0.3:
            return self.atom()
        what = self.draw.randrange(7)
        if what < 3:
            return f"{self.number(depth - 1)} {self.draw.choice('+-')} {self.factor(depth - 1)}"
        if what == 3:
            return f"{self.factor(depth - 1)} * {self.draw.randrange(1, 4)}"
        if what == 4:
            return f"({self.truth(depth - 1)} ? {self.number(depth - 1)} : {self.number(depth - 1)})"
        if what == 5:
            return f"(-{self.atom()})"
        return self.own_call("Int") or self.atom()

    def factor(self, depth: int) -> str:
        found = self.number(depth)
        return found if found.isalnum() or found.startswith("(") and found.endswith(")") and self.is_one(found) else f"({found})"

    @staticmethod
    def is_one(text: str) -> bool:
        """Whether the first parenthesis is closed by the last one."""
        deep = 0
        for place, letter in enumerate(text):
            deep += (letter == "(") - (letter == ")")
            if deep == 0:
                return place == len(text) - 1
        return False

    def truth(self, depth: int = 1) -> str:
        what = self.draw.randrange(7)
        if depth == 0 or what == 0:
            return self.draw.choice(["isOn", "!isOn", "self.isOn"])
        if what < 4:
            return f"{self.factor(depth - 1)} {self.draw.choice(COMPARISONS)} {self.factor(depth - 1)}"
        if what == 4:
            return f"({self.truth(depth - 1)} {self.draw.choice(['&&', '||'])} {self.truth(depth - 1)})"
        if what == 5:
            return f"!({self.truth(depth - 1)})"
        return self.own_call("Bool") or "isOn"

    def own_call(self, gives: str) -> str:
        fitting = [m for m in self.own if m.kind == "sync" and m.gives == gives]
        if not fitting:
            return ""
        method = self.draw.choice(fitting)
        return f"{method.name}({method.label}{self.atom()})"

    # Waits.

    def wait(self, gives: str, can_throw: bool = False) -> str:
        """A wait without `await`: a call of the other actor, or a field of it."""
        if self.draw.random() < 0.25:
            return f"{self.maker.other}.{'isOn' if gives == 'Bool' else self.draw.choice(['n', 'm'])}"
        fitting = [m for m in self.others if m.gives == gives and (m.kind == "throws") == can_throw]
        if not fitting:
            return f"{self.maker.other}.{'isOn' if gives == 'Bool' else 'n'}"
        method = self.draw.choice(fitting)
        return f"{self.maker.other}.{method.name}({method.label}{self.number(1)})"

    def thrower(self) -> str:
        fitting = [m for m in self.others if m.gives == "Int" and m.kind == "throws"]
        return f"{self.maker.other}.{fitting[0].name}({fitting[0].label}{self.atom()})" if fitting else ""

    def waiting(self) -> str:
        """A value with a wait."""
        what = self.draw.randrange(7)
        if what == 0:
            return f"{self.number(1)} + (await {self.wait('Int')})"
        if what == 1:
            return f"await {self.wait('Int')} - {self.factor(1)}"
        if what == 2:
            return f"(await {self.wait('Int')}) * 2 + {self.factor(1)}"
        if what == 3 and self.thrower():
            return f"(try? await {self.thrower()}) ?? {self.atom()}"
        if what == 4 and self.is_throwing and self.thrower():
            return f"try await {self.thrower()}"
        if what == 5:
            fitting = [m for m in self.own if m.kind == "async" and m.gives == "Int"]
            if fitting:
                return f"await {fitting[0].name}({fitting[0].label}{self.atom()})"
        return f"await {self.wait('Int')}"

    # Statements.

    def target(self) -> str:
        return self.draw.choice(["n", "m", "self.n"] + self.variables)

    def simple(self) -> None:
        what = self.draw.randrange(8)
        if what == 0:
            name = self.fresh("c")
            self.say(f"let {name} = {self.number()}")
            self.constants.append(name)
        elif what == 1:
            name = self.fresh("v")
            self.say(f"var {name} = {self.number()}")
            self.variables.append(name)
            self.say(f"{name} += {self.atom()}")
        elif what == 2:
            self.say(f"{self.draw.choice(['isOn', 'self.isOn'])}.toggle()")
        elif what == 3:
            self.say(f"isOn = !({self.truth()})")
        elif what < 6:
            self.say(f"{self.target()} {self.draw.choice(['+=', '-='])} {self.number()}")
        else:
            # Not to itself, which Swift refuses.
            self.say(f"{self.draw.choice(['n', 'm', 'self.n'])} = {self.draw.choice(['m', 'n', 'k'])} + {self.number(1)}")

    def pause(self) -> None:
        """A statement with a wait."""
        what = self.draw.randrange(9) if self.others else 0
        if what == 0:
            self.say("await Task.yield()")
            # Once in a turn: what was read before in the same turn is what is read again.
            if self.draw.random() < 0.5:
                self.say("if Task.isCancelled { m += 100 }")
        elif what == 1:
            self.say(f"{self.target()} {self.draw.choice(['+=', '-='])} {self.waiting()}")
        elif what == 2:
            name = self.fresh("w")
            self.say(f"let {name} = {self.waiting()}")
            self.constants.append(name)
        elif what == 3:
            self.branch(f"await {self.wait('Bool')}")
        elif what == 4:
            self.say(f"guard await {self.wait('Int')} {self.draw.choice(COMPARISONS)} {self.factor(1)} else {{ return {self.atom()} }}")
        elif what == 5 and self.thrower():
            self.say(f"do {{ {self.draw.choice(['n', 'm'])} = try await {self.thrower()} }} catch {{ m -= 1 }}")
        elif what == 6:
            self.child()
        elif what == 7:
            self.say(f"isOn = await {self.wait('Bool')}")
        else:
            self.say(f"{self.draw.choice(['n', 'm'])} = {self.waiting()}")

    def child(self) -> None:
        """An `async let`, which is awaited, or not."""
        name = self.fresh("x")
        fitting = [m for m in self.others if m.gives == "Int" and m.kind != "throws"]
        if not fitting:
            self.say("await Task.yield()")
            return
        method = self.draw.choice(fitting)
        self.say(f"async let {name} = {self.maker.other}.{method.name}({method.label}{self.draw.choice(['k', '2', 'limit'])})")
        self.simple()
        if self.draw.random() < 0.8:
            self.say(f"{self.draw.choice(['n', 'm'])} {self.draw.choice(['=', '+='])} await {name}")

    def branch(self, test: str) -> None:
        self.say(f"if {test} {{")
        self.block(1)
        if self.draw.random() < 0.3:
            self.say(f"}} else if {self.truth()} {{")
            self.block(1)
        if self.draw.random() < 0.5:
            self.say("} else {")
            self.block(1)
        self.say("}")

    def block(self, many: int) -> None:
        constants, variables = list(self.constants), list(self.variables)
        self.depth += 1
        for _ in range(many):
            self.statement()
        if self.draw.random() < 0.15:
            self.leave()
        self.depth -= 1
        self.constants, self.variables = constants, variables

    def leave(self) -> None:
        if self.is_throwing and self.draw.random() < 0.3:
            self.say("throw Failure.odd")
        else:
            self.say(f"return {self.number(1)}")

    def loop(self) -> None:
        self.loops += 1
        if self.draw.random() < 0.6:
            name = self.fresh("i")
            self.say(f"for {name} in {self.draw.choice(['0..<2', '1...2', '0..<step'])} {{")
            self.constants.append(name)
            self.block(1)
            self.constants.remove(name)
        else:
            name = self.fresh("l")
            self.say(f"var {name} = 0")
            self.say(f"while {name} < 2{self.draw.choice(['', f', {self.truth(1)}', f' && {self.truth(1)}'])} {{")
            self.depth += 1
            self.say(f"{name} += 1")
            self.depth -= 1
            self.block(1)
        self.say("}")
        self.loops -= 1

    def statement(self) -> None:
        what = self.draw.random()
        if what < 0.6 and self.may_wait():
            self.pause()
        elif what < 0.72 and self.depth < 3:
            self.branch(self.truth())
        elif what < 0.8 and self.depth < 3:
            self.loop()
        else:
            self.simple()


class Maker:
    """A file under way."""

    def __init__(self, seed: int):
        self.draw = random.Random(seed)
        self.names = 0
        self.other = "b"
        self.instances = "a"
        self.lines: list[str] = []

    def method(self, name: str, kind: str, gives: str, others: list[Method], own: list[Method], waits: int) -> Method:
        label = self.draw.choice(["", "", "k: ", "at: "])
        made = Method(name, kind, gives, label)
        head = {"": "_ k", "k: ": "k", "at: ": "at k"}[label]
        words = {"sync": "", "async": " async", "throws": " async throws"}[kind]
        access = "private " if kind == "sync" and self.draw.random() < 0.3 else ""
        result = {"Int": " -> Int", "Bool": " -> Bool"}[gives]
        body = Body(self, others, own, waits, kind == "throws")
        if kind == "sync" and self.draw.random() < 0.3:
            value = body.number() if gives == "Int" else body.truth()
            self.lines.append(f"    {access}func {name}({head}: Int){words}{result} {{ {value} }}")
        elif gives == "Bool":
            self.lines += [f"    {access}func {name}({head}: Int){words}{result} {{", f"        if {body.truth()} {{ n += 1 }}"]
            self.lines += [f"        return {body.truth()}", "    }"]
        else:
            for _ in range(self.draw.randrange(1, 4)):
                body.statement()
            if kind == "throws" and self.draw.random() < 0.7:
                body.say(f"if {body.truth()} {{ throw Failure.{self.draw.choice(['odd', 'late'])} }}")
            body.say(f"return {body.number()}")
            self.lines += [f"    {access}func {name}({head}: Int){words}{result} {{", *body.lines, "    }"]
        if access:
            made.kind = "sync"
        return made

    def actor(self, name: str, others: list[Method], waits: int) -> list[Method]:
        start = self.draw.randrange(3)
        self.lines += [f"actor {name} {{", f"    private(set) var n = {start}", "    private(set) var m: Int", "    let step: Int"]
        self.lines.append(f"    {self.draw.choice(['private(set) ', ''])}var isOn = {self.draw.choice(['true', 'false'])}")
        self.lines.append("    init(_ m: Int, step: Int) { self.m = m; self.step = step }")
        own = [self.method("low", "sync", self.draw.choice(["Int", "Int", "Bool"]), [], [], 0)]
        if self.draw.random() < 0.3:
            own.append(self.method("mid", "async", "Int", others, own, 1))
            waits -= 1
        kind = self.draw.choice(["async", "async", "throws"])
        made = self.method("run", kind, "Int", others, own, waits)
        self.lines += ["    func all() -> Int { n * 10000 + m * 10 + (isOn ? 1 : 0) }", "}"]
        return [made]

    def start(self) -> None:
        self.lines += ["enum Failure: Error { case odd, late }", "enum T { @TaskLocal static var id = 2 }", f"let limit = {self.draw.randrange(4)}"]

    def task(self, methods: list[Method]) -> tuple[str, Method]:
        method = self.draw.choice(methods)
        receiver = self.draw.choice(self.instances)
        return f"{receiver}.{method.name}({method.label}{self.draw.randrange(3)})", method

    def main(self, methods: list[Method]) -> None:
        one, first = self.task(methods)
        two, second = self.task(methods)
        form = self.draw.randrange(6)
        say = self.lines.append
        self.lines += ["@main struct Main {", "    static func main() async {"]
        marks = ["try " if m.kind == "throws" else "" for m in (first, second)]
        if form == 0 and not any(marks):
            say(f"        async let x = {one}")
            say(f"        async let y = {two}")
            say("        let p = await x")
            say("        let q = await y")
        elif form == 1:
            self.group(one, two, marks)
        elif form == 2 and not any(marks):
            say("        let p = await T.$id.withValue(5) {")
            say(f"            async let x = {one}")
            say(f"            let z = await {two}")
            say("            return await x + z")
            say("        }")
            say("        let q = 0")
        else:
            if form == 3:
                say("        var v = 1")
                say(f"        let x = Task {{ [v] in {marks[0]}await {one} + v }}")
                say("        v += 1")
            elif form == 4:
                say(f"        let x = Task.detached {{ {marks[0]}await {one} }}")
            else:
                say(f"        let x = Task {{ let r = {marks[0]}await {one}; return r * 2 }}")
            say(f"        let y = Task {{ {marks[1]}await {two} }}")
            if self.draw.random() < 0.4:
                say(f"        {self.draw.choice('xy')}.cancel()")
            for name, task, mark in (("p", "x", marks[0]), ("q", "y", marks[1])):
                say(f"        let {name} = {f'(try? await {task}.value) ?? 77' if mark else f'await {task}.value'}")
        fields = ", ".join(f"await {of}.all()" for of in dict.fromkeys(self.instances + "b"))
        self.lines += [f"        print(p, q, {fields})", "    }", "}"]

    def group(self, one: str, two: str, marks: list[str]) -> None:
        say = self.lines.append
        say("        let p = await withTaskGroup(of: Int.self) { g in")
        for each, mark in ((one, marks[0]), (two, marks[1])):
            say(f"            g.addTask {{ (try? await {each}) ?? 55 }}" if mark else f"            g.addTask {{ await {each} }}")
        what = self.draw.randrange(4)
        say("            var s = 0")
        if what == 0:
            say("            s = await g.next() ?? 3")
            say("            g.cancelAll()")
        if what == 1:
            say("            while let r = await g.next() { s = s * 10 + r }")
        else:
            say("            for await r in g { s = s * 10 + r }")
        say("            return s")
        say("        }")
        say("        let q = 1")

    def file(self) -> str:
        self.start()
        others = self.actor("B", [], 1)
        self.lines.append(f"let b = B({self.draw.randrange(3)}, step: 1)")
        methods = self.actor("A", others, self.draw.choice([1, 2, 2]))
        self.lines.append(f"let a = A(1, step: {self.draw.randrange(1, 3)})")
        if self.draw.random() < 0.15:
            self.instances = "aac"
            self.lines.append("let c = A(0, step: 2)")
        self.main(methods)
        return "\n".join(self.lines) + "\n"


def program(seed: int) -> str:
    """The text of a file."""
    return Maker(seed).file()


if __name__ == "__main__":
    sys.stdout.write(program(int(sys.argv[1])))
