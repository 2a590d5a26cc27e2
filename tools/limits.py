#!/usr/bin/env python3
"""Runs a program on scripts that are as large as scripts may be, and compares what it prints with what the rules give.

    tools/limits.py SWIFTRUN [NAME..]       each script, or those whose names these are

Each script is at one limit of the language or fills its 65,536 bytes with one kind of thing: names, arguments, variables, bindings,
statements, methods, tasks, turns, waits, groups. The numbers that have to come out are computed here. What grows while a script is
read or run is so met at its largest, with ample memory: a refusal for memory that nobody was refused shows here, and no contract can
say that it does not come. Each runs on one worker, and those whose text does not depend on the order of turns on four too. Status 0
where all is as it has to be.
"""
import subprocess
import sys

BYTES = 65_536
ACTORS, EXECUTORS, ROOTS, TASKS, MADE, TURNS, FRAMES, STEPS, NESTED, FOLDED = 64, 64, 1_024, 1_024, 16, 1_000, 64, 10_000, 32, 4_096


class Script:
    """A script, and what has to be printed: how each task ends, in any order or in this one, the fields, how many turns each executor runs,
    where that is asked, and how many bytes there are at least."""

    def __init__(self, text, tasks, fields=(), turns=None, has_order=False, least=0):
        self.text, self.tasks, self.fields, self.turns, self.has_order, self.least = text, tasks, list(fields), turns, has_order, least


def names():
    """An actor, a field, a method and a root with names of thousands of bytes."""
    actor, field, method, root = "A" * 8_000, "f" * 8_000, "m" * 6_000, "r" * 9_000
    text = f"actor {actor} {{ var {field} = 1; func {method}() {{ {field} = {field} + 1; return 7; }} }} root {root} = {actor}.{method}();"
    return Script(text, [f"root {root} value 7"], [f"{actor}.{field} 2"])


def actors_and_roots():
    """As many executors, actors and roots as there may be; each root adds its number to its actor's field."""
    text = "".join(f"executor E{k} {'fifo' if k % 2 else 'priority'};" for k in range(EXECUTORS))
    text += "".join(f"actor A{k} on E{k}{{var n=0;func f(k){{n=n+k;return k;}}}}" for k in range(ACTORS))
    text += "".join(f"root r{k}=A{k % ACTORS}.f({k});" for k in range(ROOTS))
    sums = [sum(range(k, ROOTS, ACTORS)) for k in range(ACTORS)]
    return Script(text, [f"root r{k} value {k}" for k in range(ROOTS)], [f"A{k}.n {sums[k]}" for k in range(ACTORS)], [ROOTS // ACTORS] * EXECUTORS)


def filled(head, tail, piece):
    """How many pieces fit between the head and the tail, and the text with them."""
    pieces, room, count = [], BYTES - len(head) - len(tail(99_999)), 0
    while room >= len(piece(count)):
        room -= len(piece(count))
        pieces.append(piece(count))
        count += 1
    return count, head + "".join(pieces) + tail(count)


def fields():
    """An actor with as many fields as fit; its invariant speaks of the last one."""
    count, text = filled("actor A{", lambda count: f"invariant v{count - 1}>0;func f(){{v0=v{count - 1}+1;return v0;}}}}root r=A.f();", lambda k: f"var v{k}={k};")
    return Script(text, [f"root r value {count}"], [f"A.v0 {count}", *[f"A.v{k} {k}" for k in range(1, count)]])


def methods():
    """As many methods as fit; the last one is run."""
    count, text = filled("actor A{", lambda count: f"}}root r=A.m{count - 1}();", lambda k: f"func m{k}(){{return {k};}}")
    return Script(text, [f"root r value {count - 1}"])


def locals_of_tasks():
    """As many task locals as fit, each with its own value; the last one is read."""
    count, text = filled("", lambda count: f"actor A{{func f(){{return @l{count - 1};}}}}root r=A.f();", lambda k: f"local l{k}={k};")
    return Script(text, [f"root r value {count - 1}"])


def variables():
    """As many variables as fit, each one more than the one before it; a yield keeps them all."""
    count, text = filled("actor A{func f(){let v0=1;", lambda count: f"yield;return v{count};}}}}root r=A.f();", lambda k: f"let v{k + 1}=v{k}+1;")
    return Script(text, [f"root r value {count + 1}"])


def arguments():
    """A method with 3,000 parameters, called with as many arguments; their sum is built in pieces of 20."""
    many, at_once = 3_000, 20
    parts = ["s=s+" + "+".join(f"a{k}" for k in range(first, first + at_once)) + ";" for first in range(0, many, at_once)]
    text = f"actor A{{func g({','.join(f'a{k}' for k in range(many))}){{let s=0;{''.join(parts)}return s;}}"
    text += f"func f(){{let v=await A.g({','.join(str(k % 10) for k in range(many))});return v;}}}}root r=A.f();"
    text += f"root q=A.g({','.join(str(k % 7) for k in range(many))});"
    return Script(text, [f"root r value {sum(k % 10 for k in range(many))}", f"root q value {sum(k % 7 for k in range(many))}"])


def statements():
    """As many steps as a turn may take, each a statement of its own, and one more in the other root's turn."""
    body = "x=x+1;" * (STEPS - 2)
    text = f"actor A{{func f(){{let x=0;{body}return x;}}func g(){{let x=0;while x<{STEPS}{{x=x+1;}}return x;}}}}root r=A.f();root q=A.g();"
    return Script(text, [f"root r value {STEPS - 2}", "root q fault steps"])


def expressions():
    """An expression of the greatest height, with as many parentheses open as there may be, and a wide one."""
    deep = "(" * NESTED + "1)" + "+1)" * (NESTED - 1)

    def wide(height):
        return "1" if height == 0 else f"({wide(height - 1)}+{wide(height - 1)})"

    text = f"actor A{{func f(){{return {deep};}}func g(){{return {wide(13)};}}}}root r=A.f();root q=A.g();"
    return Script(text, [f"root r value {NESTED}", f"root q value {2 ** 13}"])


def blocks():
    """As many blocks open as there may be: binds inside binds, in each frame of as many as a task may have."""
    inner = NESTED - 2
    text = "local l=0;actor A{func f(n){if n==0{return @l;}let v=0;"
    text += "bind l=@l+1{" * inner + f"if n>0{{v=await A.f(n-1);}}" + "}" * inner + "return v;}}"
    text += f"root r=A.f({FRAMES - 1});root q=A.f({FRAMES});"
    return Script(text, [f"root r value {inner * (FRAMES - 1)}", "root q fault depth"])


def many_bindings():
    """A task under 27 bindings in each of its frames makes a child that makes a child, and so on; the last one reads them all."""
    inner, deep = 27, 60
    text = "local l=0;actor A{func f(n){if n==0{return @l;}let v=0;"
    text += "bind l=@l+1{" * inner + "let h=spawn A.f(n-1);v=await task h;" + "}" * inner + f"return v;}}}}root r=A.f({deep});"
    ends = ["root r"] + [f"spawned t{k}" for k in range(deep)]
    return Script(text, [f"{end} value {inner * deep}" for end in ends])


def tasks():
    """As many tasks as there may be: the root makes 16 a turn, and one more is a fault."""
    text = f"""actor A{{var n=0;func g(){{n=n+1;return n;}}
    func f(){{let k=1;while k+{MADE}<={TASKS}{{let m=0;while m<{MADE}{{spawn A.g();m=m+1;}}k=k+{MADE};yield;}}
    while k<{TASKS}{{spawn A.g();k=k+1;}}yield;spawn A.g();return 0;}}}}root r=A.f();"""
    return Script(text, ["root r fault tasks", *[f"spawned t0 value {k}" for k in range(1, TASKS)]], [f"A.n {TASKS - 1}"], has_order=True)


def too_many_made():
    """A turn that makes as many tasks as one may, and one that makes one more."""
    text = f"actor A{{var n=0;func g(){{n=n+1;return 0;}}func f(k){{let m=0;while m<k{{spawn A.g();m=m+1;}}return m;}}}}root r=A.f({MADE});root q=A.f({MADE + 1});"
    return Script(text, [f"root r value {MADE}", "root q fault tasks", *["spawned t0 value 0"] * MADE], [f"A.n {MADE}"])


def turns():
    """A task with as many turns as there may be, and one with one more."""
    text = f"actor A{{var n=0;func f(k){{while k>1{{n=n+1;yield;k=k-1;}}n=n+1;return n;}}}}root r=A.f({TURNS});actor B{{var n=0;func f(k){{while k>1{{n=n+1;yield;k=k-1;}}n=n+1;return n;}}}}root q=B.f({TURNS + 1});"
    return Script(text, [f"root r value {TURNS}", "root q fault turns"], [f"A.n {TURNS}", f"B.n {TURNS}"])


def all_turns():
    """As many tasks as there may be, each with as many turns: an executor folds 250 times."""
    text = f"actor A{{var n=0;func f(){{let k=1;while k<{TURNS}{{n=n+1;yield;k=k+1;}}n=n+1;return k;}}}}" + "".join(f"root r{k}=A.f();" for k in range(ROOTS))
    return Script(text, [f"root r{k} value {TURNS}" for k in range(ROOTS)], [f"A.n {ROOTS * TURNS}"], [ROOTS * TURNS])


def waits():
    """Each task waits for the one before it, and so raises it and all before it: the first one is of the least priority."""
    many = 800
    text = "actor A{func f(){yield;yield;return priority;}" + "".join(f"func g{k}(){{let v=await task r{k};return v+1;}}" for k in range(many - 1)) + "}"
    text += "root r0=A.f() at background;" + "".join(f"root r{k + 1}=A.g{k}();" for k in range(many - 1))
    return Script(text, [f"root r{k} value {2 + k}" for k in range(many)], has_order=True)


def waits_for_one():
    """All tasks wait for the first one."""
    text = "actor A{func f(){let k=0;while k<99{yield;k=k+1;}return 7;}func g(){let v=await task r0;return v;}}root r0=A.f();"
    text += "".join(f"root r{k}=A.g();" for k in range(1, ROOTS))
    return Script(text, [f"root r{k} value 7" for k in range(ROOTS)])


def groups():
    """A group with as many children as there may be, of which 400 are waited for one by one, and the others by its end."""
    text = f"""actor A{{var n=0;func g(k){{yield;n=n+1;return k;}}
    func f(){{let k=1;let m=0;group g{{while k+{MADE}<={TASKS}{{m=0;while m<{MADE}{{add g A.g(k+m);m=m+1;}}k=k+{MADE};yield;}}
    while k<{TASKS}{{add g A.g(k);k=k+1;}}yield;m=1;while m<=400{{let v=await next g;if v>0{{m=m+1;}}}}}}return k;}}}}root r=A.f();"""
    return Script(text, [f"root r value {TASKS}", *[f"child t0 value {k}" for k in range(1, TASKS)]], [f"A.n {TASKS - 1}"])


def nested_groups():
    """Groups inside groups, almost as many as there may be blocks, in each of 30 frames; each has a child."""
    inner, deep = NESTED - 3, 30
    text = "actor B{var n=0;func k(){n=n+1;return 0;}}actor A{func f(n){if n==0{return 0;}let v=0;"
    text += "".join(f"group g{k}{{add g{k} B.k();{'yield;' if k == MADE - 2 else ''}" for k in range(inner))
    text += "v=await A.f(n-1);" + "}" * inner + f"return n;}}}}root r=A.f({deep});"
    made = inner * deep
    return Script(text, [f"root r value {deep}", *["child t0 value 0"] * made], [f"B.n {made}"])


def cancels():
    """A turn with 3,000 cancels of one task, which looks at its flag after that."""
    many = 3_000
    text = f"actor A{{func g(){{yield;yield;check;return 1;}}func f(){{let h=spawn A.g();{'cancel h;' * many}let v=await task h else 9;return v;}}}}root r=A.f();"
    return Script(text, ["root r value 9", "spawned t0 fault cancelled"])


def folded_effects():
    """Calls, groups, handles, bindings, cancels and turns that are undone, on one executor that folds twice."""
    roots, rounds = 3, 100
    many = 4 * roots * rounds
    text = f"""executor E priority;local l=1;
    actor B on E{{var n=0;invariant n<={many};
    func k(m){{n=n+1;yield;return m*@l;}}
    func w(m){{let j=0;while j<8{{j=j+1;yield;}}n=n+1;return m*@l;}}
    func bad(){{n={many + 1};return 0;}}}}
    actor A on E{{var s=0;func f(){{let k=0;let v=0;while k<{rounds}{{k=k+1;
    bind l=k{{v=await B.k(1);s=s+v;let h=spawn B.w(2);v=await task h;s=s+v;}}
    group g{{add g B.w(3);add g B.w(4);v=await next g;s=s+v;cancel g;}}
    v=await B.bad() else 5;s=s+v;}}return k;}}}}"""
    text += "".join(f"root r{k}=A.f();" for k in range(roots))
    made = [f"spawned t{r} value {2 * k}" for r in range(roots) for k in range(1, rounds + 1)]
    made += [f"child t{r} value {v}" for r in range(roots) for v in (3, 4) for _ in range(rounds)]
    total = roots * sum(3 * k + 3 + 5 for k in range(1, rounds + 1))
    turns = roots * (35 * rounds + 1)
    return Script(text, [f"root r{k} value {rounds}" for k in range(roots)] + made, [f"B.n {many}", f"A.s {total}"], [turns])


def writes():
    """A report of more than a mebibyte, with places over 20,000."""
    method = "func f(k){while k>1{yield;k=k-1;}return 0;}"
    text = f"actor A{{{method}}}" + "".join(f"actor A{k}{{{method}}}" for k in range(10))
    text += "".join(f"root r{k}=A.f({TURNS});" for k in range(24)) + "".join(f"root q{k}=A{k // 4}.f({TURNS});" for k in range(40))
    ends = [f"root r{k} value 0" for k in range(24)] + [f"root q{k} value 0" for k in range(40)]
    return Script(text, ends, turns=[24 * TURNS] + [4 * TURNS] * 10, least=1 << 20)


SCRIPTS = {it.__name__: it for it in (
    names, actors_and_roots, fields, methods, locals_of_tasks, variables, arguments, statements, expressions, blocks, many_bindings, tasks,
    too_many_made, turns, all_turns, waits, waits_for_one, groups, nested_groups, cancels, folded_effects, writes,
)}


def journal_faults(lines):
    """What is otherwise than it has to be in a report's journals, and how many turns each executor says that it ran."""
    faults, turns, place, left = [], [], 0, 0
    for line in [*lines, "executor"]:
        words = line.split()
        if words[0] == "executor":
            if left:
                faults.append(f"an executor's journal lacks {left} turns")
            if len(words) > 1:
                place, left = 0, int(words[-1])
                turns.append(left)
        elif words[0] == "folded":
            place, left = int(words[1]), left - int(words[1])
            if place % FOLDED:
                faults.append(f"{place} turns are folded")
        else:
            if int(words[0]) != place:
                faults.append(f"a turn stands at place {words[0]}, and not {place}")
            place, left = place + 1, left - 1
    return faults, turns


def faults(script, printed, workers):
    """What is otherwise than it has to be in what was printed."""
    lines = printed.decode().splitlines()
    if "tasks" not in lines or "fields" not in lines:
        return ["it is no report"]
    tasks, fields = lines.index("tasks"), lines.index("fields")
    wrong = []
    ends = [line.split(" ", 1)[1] for line in lines[tasks + 1 : fields]]
    wanted = script.tasks
    if workers > 1 or not script.has_order:
        ends, wanted = sorted(ends), sorted(wanted)
    if ends != wanted:
        other = next((pair for pair in zip(ends, wanted) if pair[0] != pair[1]), (len(ends), len(wanted)))
        wrong.append(f"tasks: {other[0]} and not {other[1]}")
    if lines[fields + 1 :] != script.fields:
        other = next((pair for pair in zip(lines[fields + 1 :], script.fields) if pair[0] != pair[1]), (len(lines) - fields - 1, len(script.fields)))
        wrong.append(f"fields: {other[0]} and not {other[1]}")
    if workers == 1:
        found, turns = journal_faults(lines[1:tasks])
        wrong += found[:3]
        if script.turns is not None and turns != script.turns:
            wrong.append(f"turns: {turns} and not {script.turns}")
        if len(printed) < script.least:
            wrong.append(f"{len(printed)} bytes and not {script.least} or more")
    return wrong


def main():
    program, wanted = sys.argv[1], sys.argv[2:] or list(SCRIPTS)
    wrong = 0
    for name in wanted:
        script = SCRIPTS[name]()
        text = script.text.encode()
        if len(text) > BYTES:
            sys.exit(f"limits: {name} has {len(text)} bytes")
        for workers in (1,) if script.has_order else (1, 4):
            words = [program, "--workers", str(workers), *(["--quiet"] if workers > 1 else [])]
            done = subprocess.run(words, input=text, capture_output=True, check=False)
            status = 1 if any(" fault " in end for end in script.tasks) else 0
            found = [f"status {done.returncode} and not {status}: {done.stderr.decode().strip()}"] if done.returncode != status else []
            found += faults(script, done.stdout, workers)
            wrong += bool(found)
            for fault in found:
                print(f"limits: {name}, {workers} workers: {fault[:300]}")
    print(f"limits: {len(wanted)} scripts, {wrong or 'none'} otherwise than the rules give")
    sys.exit(1 if wrong else 0)


if __name__ == "__main__":
    main()
