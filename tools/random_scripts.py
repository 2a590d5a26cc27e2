#!/usr/bin/env python3
"""Writes random scripts.

    tools/random_scripts.py SEED            a tiny racy one, whose tasks and fields depend on the order of turns
    tools/random_scripts.py COUNT SEED      others, as cases of scripts (cases/random), whose tasks and fields don't

A racy script has two or three actors, two to four roots and few other tasks, of some five turns each: fields that several tasks change,
waits, groups, cancels, priorities, task locals and faults. All its outcomes can be listed (tools/outcomes.py). In the others fields are
only added to, no result is read from a field, an actor calls only later ones, and one root alone makes tasks, so that their numbers are
those of its own order.
"""
import random
import sys

RANKS = ["background", "low", "medium", "high"]


class Writer:
    """Writes one racy script."""

    def __init__(self, seed: int):
        self.r = random.Random(seed)
        self.actors = self.r.randint(2, 3)
        self.roots = self.r.randint(2, 4)
        self.tasks = 0  # made by roots, at most two in a script
        self.names = 0

    def chance(self, part: float) -> bool:
        return self.r.random() < part

    def at(self, part: float) -> str:
        return f" at {self.r.choice(RANKS)}" if self.chance(part) else ""

    def name(self) -> str:
        self.names += 1
        return f"x{self.names}"

    def leaf(self) -> str:
        """A call of a short method, mostly of the first actor, which is so changed by many."""
        actor = 0 if self.chance(0.5) else self.r.randrange(self.actors)
        return f"A{actor}.{self.r.choice(['work', 'look'])}({self.r.randint(0, 3)})"

    def wait(self, what: str) -> str:
        """A wait, and a trace of what it gave."""
        value, otherwise = self.name(), f" else {self.r.randint(10, 19)}" if self.chance(0.5) else ""
        return f"let {value} = await {what}{otherwise}; s = s * 3 + {value};"

    def change(self) -> str:
        """A statement on the field of the actor that does not commute with others of its kind."""
        k = self.r.randint(1, 3)
        return self.r.choice([f"n = n + {k};", f"n = n * 2 + {k};", f"n = {k};", f"if n > {k} {{ n = n - {k}; }}", "s = s * 3 + n;"])

    def leaf_statement(self) -> str:
        kind = self.r.randrange(10)
        if kind < 4:
            return self.change()
        if kind < 6:
            return "yield;"
        fault = f"if n > {self.r.randint(1, 4)} {{ throw n; }}"
        return self.r.choice(["check;", "s = s + 100 * cancelled;", "s = s + 100 * priority;", "s = s + @l;", fault, fault])

    def leaf_method(self, name: str) -> str:
        body = " ".join(self.leaf_statement() for _ in range(self.r.randint(1, 3)))
        return f"func {name}(k) {{ let s = k; {body} {self.change()} return s * 10 + n; }}"

    def root_statement(self, root: int) -> str:
        kind = self.r.randrange(2, 12)
        if kind < 3:
            return self.change()
        if kind < 4:
            return "yield;"
        if kind < 6:
            return self.wait(self.leaf())
        if kind < 7:
            return f"cancel r{self.r.randrange(self.roots)};"
        if kind < 8 and root:
            return self.wait(f"task r{self.r.choice([0, self.r.randrange(root)])}")
        if kind < 9:
            inside = self.spawned() if self.tasks < 2 and self.chance(0.4) else self.wait(self.leaf())
            return f"bind l = {self.r.randint(1, 3)} {{ {inside} }}"
        if self.tasks >= 2:
            return self.r.choice(["s = s + 100 * priority;", "s = s + 100 * cancelled;", "check;", self.change()])
        if kind < 10:
            return self.spawned()
        return self.group()

    def spawned(self) -> str:
        self.tasks += 1
        handle = self.name()
        text = f"let {handle} = {self.r.choice(['spawn', 'spawn', 'detach'])} {self.leaf()}{self.at(0.3)};"
        text += self.r.choice(["", f" cancel {handle};", " yield;", f" yield; cancel {handle};", f" {self.change()}"])
        return text + self.r.choice(["", f" {self.wait(f'task {handle}')}"])

    def group(self) -> str:
        group, text = self.name(), ""
        for _ in range(self.r.randint(1, 3 - self.tasks)):
            self.tasks += 1
            text += f" add {group}{self.r.choice(['', '', ' unless'])} {self.leaf()}{self.at(0.2)};"
            text += self.r.choice(["", "", " yield;", f" cancel {group};"])
        for _ in range(self.r.randint(0, 2)):
            text += f" {self.wait(f'next {group}')}"
        return f"group {group} {{{text} }}"

    def script(self) -> str:
        lines, executors = [], self.r.randint(0, 2)
        for executor in range(executors):
            lines.append(f"executor E{executor} {self.r.choice(['priority', 'fifo', f'pinned {self.r.randint(0, 7)}'])};")
        lines.append("local l = 7;")
        methods = [[self.leaf_method("work"), self.leaf_method("look")] for _ in range(self.actors)]
        roots = []
        for root in range(self.roots):
            body = " ".join(self.root_statement(root) for _ in range(self.r.randint(1, 3)))
            actor = (root + 1) % self.actors
            methods[actor].append(f"func run{root}() {{ let s = 0; {body} return s * 10 + n; }}")
            roots.append(f"root r{root} = A{actor}.run{root}(){self.at(0.4)};")
        for actor in range(self.actors):
            on = f" on E{self.r.randrange(executors)}" if executors and self.chance(0.3) else ""
            law = self.r.choice(["", "", " invariant n <= 9;", " invariant n != 3;"])
            lines += [f"actor A{actor}{on} {{", f"    var n = {self.r.randint(0, 2)};{law}"]
            lines += [f"    {method}" for method in methods[actor]] + ["}"]
        return "\n".join(lines + roots) + "\n"


def actor_head(r, name, executors):
    on = f" on {r.choice(executors)}" if executors and r.random() < 0.5 else ""
    return f"actor {name}{on} {{ var n = 0; invariant n >= 0;"


def yields(r):
    return "".join(r.choice(["yield; ", ""]) for _ in range(3))


def plain(r, k, actors):
    """A method that adds, and may call a later actor, throw, or break the invariant."""
    body = f"n = n + {r.randint(0, 9)}; {yields(r)}"
    kind = r.randrange(5)
    if kind == 0 and k + 1 < actors:
        body += f"let x = await A{r.randrange(k + 1, actors)}.work(k + {r.randint(0, 3)}) else 0 - 7; n = n + 1; return x * 2; "
    elif kind == 1:
        body += f"if k > {r.randint(0, 4)} {{ throw {r.randint(1, 99)}; }} {yields(r)}return k; "
    elif kind == 2:
        body += f"if k == {r.randint(0, 3)} {{ n = 0 - 1; }} {yields(r)}return k + 10; "
    else:
        body += f"let i = 0; while i < k {{ n = n + 1; i = i + 1; {yields(r)}}} return i * {r.randint(1, 5)}; "
    return f" func work(k) {{ {body}}}"


def main_method(r, actors):
    """The method of the root that makes tasks."""
    body, tasks = "let s = 0; let x = 0; ", 0
    for step in range(r.randint(2, 6)):
        target = r.randrange(actors)
        kind = r.randrange(5)
        if kind == 0:
            body += f"let h{step} = spawn A{target}.work({r.randint(0, 6)}); n = n + 1; x = await task h{step} else 0 - 1; s = s + x; "
        elif kind == 1:
            body += f"let d{step} = detach A{target}.work({r.randint(0, 6)}); yield; x = await task d{step} else 0 - 2; s = s + x; "
        elif kind == 2:
            body += f"x = await A{target}.work({r.randint(0, 6)}) else 0 - 3; s = s + x; "
        else:
            many = r.randint(1, 4)
            adds = "".join(f"add g{step} A{r.randrange(actors)}.work({r.randint(0, 6)}); " for _ in range(many))
            asks = "".join(f"x = await next g{step} else 0 - 4; s = s + x; " for _ in range(r.randint(0, many)))
            if asks.count("next") < many:
                asks = ""
            body += f"group g{step} {{ {adds}{asks}}} "
    return f" func run() {{ {body}return s; }}"


def script(r):
    lines, executors = [], []
    for e in range(r.randint(0, 3)):
        kind = r.choice(["priority", "fifo", f"pinned {r.randint(0, 7)}"])
        executors.append(f"E{e}")
        lines.append(f"executor E{e} {kind};")
    actors = r.randint(2, 6)
    for k in range(actors):
        lines.append(f"{actor_head(r, f'A{k}', executors)}{plain(r, k, actors)} }}")
    lines.append(f"{actor_head(r, 'M', executors)}{main_method(r, actors)} }}")
    lines.append("root m = M.run();")
    for root in range(r.randint(0, 5)):
        at = r.choice(["", " at high", " at low", " at background", " at medium"])
        lines.append(f"root r{root} = A{r.randrange(actors)}.work({r.randint(0, 8)}){at};")
    return "\n".join(lines)


def main():
    if len(sys.argv) == 2:
        print(Writer(int(sys.argv[1])).script(), end="")
        return
    if len(sys.argv) != 3:
        sys.exit(__doc__)
    count, seed = int(sys.argv[1]), int(sys.argv[2])
    for n in range(count):
        r = random.Random(seed * 1_000 + n)
        print(f"== agree random script {n}\n{script(r)}\n")


if __name__ == "__main__":
    main()
