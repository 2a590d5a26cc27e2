"""Writes the scripts and the calls that are measured to bench/out/."""

import os

FOLDER = os.path.join(os.path.dirname(os.path.abspath(__file__)), "out")

# The longest script that is read.
LONGEST = 65_536

COUNTER = """\
actor Counter {
    var turns = 0;
    invariant turns >= 0;
    func spin(left) {
        while left > 0 { left = left - 1; turns = turns + 1; yield; }
        return turns;
    }
    func once(value) { turns = turns + 1; return value; }
}
"""

ASKER = """\
actor Asker {
    var answers = 0;
    invariant answers >= 0;
    func ask(left) {
        let sum = 0;
        while left > 0 { left = left - 1; sum = await Adder.gain(1); answers = answers + 1; }
        return sum;
    }
}
actor Adder {
    var total = 0;
    invariant total >= 0;
    func gain(amount) { total = total + amount; return total; }
}
"""

WORKER = """\
actor Worker {
    var sum = 0;
    invariant sum >= 0;
    func work(left) {
        let i = 0;
        while left > 0 {
            left = left - 1;
            i = 0;
            while i < 3300 { i = i + 1; sum = (sum + i * 7) - (i * 7 - 1); }
            yield;
        }
        return sum;
    }
}
"""

# What eight actors do, each on an executor of its own: turns of some 900 steps.
HEAVY = """\
actor Heavy {
    var sum = 0;
    invariant sum >= 0;
    func work(left) {
        let i = 0;
        while left > 0 {
            left = left - 1;
            i = 0;
            while i < 300 { i = i + 1; sum = (sum + i * 7) - (i * 7 - 1); }
            yield;
        }
        return sum;
    }
}
"""

LOOPER = """\
actor Looper {
    var sum = 0;
    func loop(rounds) {
        let i = 0;
        let since = 0;
        while i < rounds {
            i = i + 1;
            since = since + 1;
            if since == 2400 { since = 0; yield; }
        }
        sum = i;
        return i;
    }
}
"""

GROUP = """\
actor Group {
    var done = 0;
    invariant done >= 0;
    func child(value) { done = done + 1; return value; }
    func parent() {
        let i = 0;
        let made = 0;
        let value = 0;
        let sum = 0;
        group g {
            while i < 900 {
                i = i + 1;
                made = made + 1;
                add g Group.child(i);
                if made == 16 { made = 0; yield; }
            }
            while i > 0 { i = i - 1; value = await next g; sum = sum + value; }
        }
        return sum;
    }
}
"""

# 992 tasks that one root makes, 16 a turn: as many turns as `spin` and `calls` have, and a short text. With the room that other turns may
# reserve these are the most.
SPAWNED = """\
actor Counter {
    var turns = 0;
    invariant turns >= 0;
    func spin(left) {
        while left > 0 { left = left - 1; turns = turns + 1; yield; }
        return turns;
    }
    func start(rounds) {
        let made = 0;
        while rounds > 0 {
            rounds = rounds - 1;
            made = 0;
            while made < 16 { made = made + 1; spawn Counter.spin(990); }
            yield;
        }
    }
}
root all = Counter.start(62);
"""

CALLS_SPAWNED = """\
actor Asker {
    var answers = 0;
    invariant answers >= 0;
    func ask(left) {
        let sum = 0;
        while left > 0 { left = left - 1; sum = await Adder.gain(1); answers = answers + 1; }
        return sum;
    }
    func start(rounds) {
        let made = 0;
        while rounds > 0 {
            rounds = rounds - 1;
            made = 0;
            while made < 16 { made = made + 1; spawn Asker.ask(490); }
            yield;
        }
    }
}
actor Adder {
    var total = 0;
    invariant total >= 0;
    func gain(amount) { total = total + amount; return total; }
}
root all = Asker.start(62);
"""

# Each root has a group of 16 children, each of which calls another actor 60 times.
FAN = """\
actor Parent {
    var sums = 0;
    func child(left) {
        let sum = 0;
        let value = 0;
        while left > 0 { left = left - 1; value = await Adder.gain(1); sum = sum + value; }
        return sum;
    }
    func fan() {
        let sum = 0;
        let value = 0;
        let made = 0;
        group g {
            while made < 16 { made = made + 1; add g Parent.child(60); }
            while made > 0 { made = made - 1; value = await next g; sum = sum + value; }
        }
        return sum;
    }
}
actor Adder {
    var total = 0;
    invariant total >= 0;
    func gain(amount) { total = total + amount; return amount; }
}
"""

METHOD = """\
    func method{m}(first, second) {{
        let third = first * {m} + second - (first - {a}) * 2;
        let found = await Actor{b}.method0(third, second) else {m};
        while third > 0 && second < 1000 {{
            third = third - 1;
            if third == {m} || !(found >= {a}) {{ total = total + third; yield; }} else {{ total = total - 1; }}
        }}
        if total < 0 {{ throw third; }}
        return total + found;
    }}
"""


def roots(count, call):
    return "".join(f"root task{k} = {call};\n" for k in range(count))


def sixteen():
    """64 executors with 16 jobs each."""
    actors = "".join(COUNTER.replace("Counter", f"Counter{k}") for k in range(64))
    return actors + "".join(f"root task{k} = Counter{k % 64}.spin(990);\n" for k in range(1024))


def eight(text, call, tasks):
    """So many tasks, on eight executors."""
    actors = "".join(text.replace("Heavy", f"Heavy{k}").replace("Counter", f"Counter{k}") for k in range(8))
    return actors + "".join(f"root task{k} = {call.format(k % 8)};\n" for k in range(tasks))


def shared():
    """The tasks of `spin_spawned`, on an executor with 63 actors beside theirs, each with four fields and an invariant."""
    quiet = "".join(
        f"actor Quiet{k} on Shared {{ var a = 0; var b = 1; var c = 2; var d = 3; invariant a + b >= 0; func first() {{ return a; }} }}\n"
        for k in range(63)
    )
    return "executor Shared priority;\n" + SPAWNED.replace("actor Counter {", "actor Counter on Shared {", 1) + quiet


def executors():
    """128 executors, and nothing to run."""
    declared = "".join(f"executor Executor{k} fifo;\n" for k in range(64))
    return declared + "".join(f"actor Actor{k} {{ var count = 0; func count_one() {{ count = count + 1; }} }}\n" for k in range(64))


def to_be_read():
    """A script of the greatest length, with 64 actors and no root, so that there is nothing to run."""
    methods = [0] * 64
    made = 0
    while True:
        methods[made % 64] += 1
        text = "".join(actor(a, methods) for a in range(64))
        if len(text) > LONGEST:
            methods[made % 64] -= 1
            break
        made += 1
    return filled("".join(actor(a, methods) for a in range(64)))


def filled(text):
    """A script, and a comment or spaces that make it the longest."""
    left = LONGEST - len(text)
    return text + ("//" + "." * (left - 2) if left >= 2 else " " * left)


def deep():
    """Expressions of the greatest height, one after the other."""
    statement = "return " + "(" * 15 + "1" + "+2)*3" * 15 + "+2;\n"
    front, end = "actor Deep { func f() {\n", "} }\n"
    return filled(front + statement * ((LONGEST - len(front) - len(end)) // len(statement)) + end)


def long_name():
    """An actor whose name is half of the script, with as many methods as fit."""
    name = "a" * (LONGEST // 2)
    front, end = f"actor {name} {{\n", "}\n"
    methods, k = "", 0
    while len(front) + len(methods) + 20 + len(end) <= LONGEST:
        methods += f"func m{k}(){{}}\n"
        k += 1
    return filled(front + methods + end)


def actor(number, methods):
    body = "".join(METHOD.format(m=m, a=number, b=(number + 1) % 64) for m in range(methods[number]))
    return f"actor Actor{number} {{\n    var total = {number};\n    invariant total >= 0 - 1000000;\n{body}}}\n"


# Of each script: its text, and how many steps it makes, where that is worth saying. A step is a statement that begins,
# a `while` apart, or a test of a `while`.
SCRIPTS = {
    # Each task yields 990 times; 1,000 jobs are ready at a time.
    "spin": (COUNTER + roots(1000, "Counter.spin(990)"), None),
    # The same turns of a short text, by tasks that are made while it runs.
    "spin_spawned": (SPAWNED, None),
    # The same beside 63 other actors of the executor.
    "shared64": (shared(), None),
    # The turns of `spin`, with 16 jobs ready at each of 64 executors.
    "sixteen": (sixteen(), None),
    # A group of 900 children, by a task that takes 964 turns.
    "group": (GROUP + roots(1, "Group.parent()"), None),
    "executors": (executors(), None),
    # Each task awaits a method of another actor 490 times.
    "calls": (ASKER + roots(1000, "Asker.ask(490)"), None),
    "calls_spawned": (CALLS_SPAWNED, None),
    # 60 groups of 16 children.
    "fan": (FAN + roots(60, "Parent.fan()"), None),
    # Of each round: 3,300 times a test and two statements, a last test, and a test and three statements outside.
    # Before and after the rounds: a statement, a test and a statement.
    "steps": (WORKER + roots(8, "Worker.work(990)"), 8 * (990 * (3300 * 3 + 1 + 4) + 3)),
    # Of each round a test and three statements, and of each 2,400th two more. Before and after the rounds: two
    # statements, a test and two statements.
    "loop": (LOOPER + roots(1, "Looper.loop(250000)"), 250_000 * 4 + (250_000 // 2400) * 2 + 5),
    "roots": (COUNTER + roots(1024, "Counter.once(7)"), None),
}

# What is run on some workers: eight executors with turns of some 900 steps, of some 75 (a microsecond) and of 4; and scripts with one or two executors,
# where all workers but one or two have nothing to do.
CREWS = {
    "heavy": eight(HEAVY, "Heavy{}.work(990)", 64),
    "microsecond": eight(HEAVY.replace("i < 300", "i < 25"), "Heavy{}.work(990)", 512),
    "light": eight(COUNTER, "Counter{}.spin(990)", 512),
    "spin_spawned": SPAWNED,
    "calls": SCRIPTS["calls"][0],
    "calls_spawned": CALLS_SPAWNED,
    "fan": SCRIPTS["fan"][0],
    "shared64": SCRIPTS["shared64"][0],
}

# What is taken apart: 16 jobs are ready at a time.
READY = COUNTER + roots(16, "Counter.spin(990)")

# The same script with few jobs and with many, and with ten times the turns; and how often each yields.
GROWTH = {
    "ready": (READY, 16 * 990),
    "spin 99": (COUNTER + roots(1000, "Counter.spin(99)"), 1000 * 99),
    "spin 990": (COUNTER + roots(1000, "Counter.spin(990)"), 1000 * 990),
}

FIRST = "abcdefghijklmnopqrstuvwxyzABCDEFGHIJKLMNOPQRSTUVWXYZ"
LATER = FIRST + "0123456789_"


def short(k):
    """The name of a number: no keyword, and no two of one name."""
    name, k = "z" + FIRST[k % len(FIRST)], k // len(FIRST)
    while k:
        name, k = name + LATER[k % len(LATER)], k // len(LATER)
    return name


def many(front, part, end, longest=LONGEST):
    """As many parts as fit between a front and an end."""
    parts, size, k = [front], len(front) + len(end), 0
    while size + len(part(k)) <= longest:
        parts.append(part(k))
        size += len(part(k))
        k += 1
    return "".join(parts) + end


def statements(part, before="", declared="", fields=""):
    """One method with as many statements as fit."""
    return filled(many(declared + "actor A { " + fields + "func f() { let x = 0;\n" + before, part, "\n} }\n"))


def names(form, longest):
    return many("", lambda k: form.format(short(k)), "", longest)


def assumes():
    """Each `assume` stands where half of the script's names stand."""
    actor = "actor B { var q = 0; }\n"
    return statements(lambda k: "assume B{}", names("let {}=0;", LONGEST // 2), actor)


def assumed_fields():
    """Blocks that read one of many fields of another actor of the executor."""
    fields = "executor E fifo;\nactor B on E {" + names("var {}=0;", LONGEST // 2) + "}\n"
    front = fields + "actor A on E { func f() {\n"
    return filled(many(front, lambda k: f"assume B{{{short(k % 2000)}=1;}}", "\n} }\n"))


def assumes_in_turn():
    """64 actors with as many fields as there are new names between two rounds of an `assume` of each."""
    fields = "".join(f"var {short(k)}=0;" for k in range(40))
    actors = "".join(f"actor {short(k)}{{{fields}}}\n" for k in range(63))
    turn = "".join(f"assume {short(k)}{{}}" for k in range(63))
    return statements(lambda k: "".join(f"let y{short(40 * k + i)}=0;" for i in range(40)) + turn, "", actors)


def method_graph():
    """Each method calls each."""
    def graph(count):
        calls = "".join(f"await A.{short(k)}();" for k in range(count))
        return "actor A {\n" + "".join(f"func {short(k)}(){{{calls}}}\n" for k in range(count)) + f"}}\nroot a = A.{short(0)}();\n"

    count = 2
    while len(graph(count + 1)) <= LONGEST:
        count += 1
    return filled(graph(count))


def arguments():
    """Calls with 500 arguments."""
    numbers, parameters = ",".join("1" * 500), ",".join(short(k) for k in range(500))
    return statements(lambda k: f"await B.g({numbers});", "", f"actor B {{ func g({parameters}) {{}} }}\n")


def one_executor(count):
    """Actors on one executor, each with fields and an invariant."""
    fields = many("", lambda k: f"var {short(k)}=0;", "", 860)
    actors = "".join(f"actor {short(k)} on E {{{fields}invariant {short(0)} == 0;}}\n" for k in range(count))
    return "executor E fifo;\n" + actors


def roots_with_arguments():
    """1,024 roots with 12 arguments each."""
    parameters, numbers = ",".join(short(k) for k in range(12)), ",".join(["-1"] * 12)
    roots = "".join(f"root {short(k)}=A.f({numbers});\n" for k in range(1024))
    return filled(f"actor A {{ func f({parameters}) {{}} }}\n" + roots)


# What is read alone, each of the greatest length.
READ = {
    "actors": to_be_read(),
    "deep": deep(),
    "roots": filled("actor A { func f() { return 1; } }\n" + roots(1024, "A.f()")),
    "long name": long_name(),
    # What costs most for its bytes, of each kind of part.
    "sums of names": statements(lambda k: "x=" + "+".join("x" * 32) + ";"),
    "sums of fields": filled(many("actor A { var x = 0; func f() {\n", lambda k: "x=" + "+".join("x" * 32) + ";", "\n} }\n")),
    "sums beside a field": statements(lambda k: "x=" + "+".join("x" * 32) + ";", "", "", "var y = 0; "),
    "sums": statements(lambda k: "x=" + "+".join("1" * 32) + ";"),
    "products": statements(lambda k: "x=" + "*".join("1" * 32) + ";"),
    "signs of a name": statements(lambda k: "x=" + "-" * 31 + "x;"),
    "signs": statements(lambda k: "x=" + "-" * 31 + "1;"),
    "parentheses": statements(lambda k: "x=" + "(" * 32 + "1" + ")" * 32 + ";"),
    "assignments": statements(lambda k: "x=x;"),
    "task locals": statements(lambda k: "x=@l;", "", "local l = 0;\n"),
    "variables": statements(lambda k: f"let {short(k)}=0;"),
    "fields": filled(many("actor A {", lambda k: f"var {short(k)}=0;", "}\n")),
    "methods": filled(many("actor A {", lambda k: f"func {short(k)}(){{}}", "}\n")),
    "parameters": filled(many("actor A { func f(a", lambda k: f",{short(k)}", ") {} }\n")),
    "arguments": arguments(),
    "calls": statements(lambda k: "await B.g();", "", "actor B { func g() {} }\n"),
    "tasks": statements(lambda k: f"let {short(k)}=spawn B.g();", "", "actor B { func g() {} }\n"),
    "method graph": method_graph(),
    "blocks": statements(lambda k: "if 1{" * 31 + "}" * 31),
    "binds": statements(lambda k: "bind l=1{" * 31 + "}" * 31, "", "local l = 0;\n"),
    "groups": statements(lambda k: "".join(f"group {short(i)}{{" for i in range(31)) + "}" * 31),
    "assumes": assumes(),
    "assumed fields": assumed_fields(),
    "assumes in turn": assumes_in_turn(),
    "one executor": filled(one_executor(64)),
    "roots' arguments": roots_with_arguments(),
}

# What is refused for its last words.
REFUSED = {
    "unknown name": filled(many("actor A { func f() { let x = 0;\n", lambda k: "x=x;", "y=0;\n} }\n")),
    "early end": filled(many("actor A { func f() { let x = 0;\n", lambda k: "x=x;", "}\n")),
    "false invariant": filled(one_executor(63) + "actor Last on E { invariant 0; }\n"),
    "waiting root": filled(
        "actor A { func f() { await task last; } func g() {} }\n" + roots(1023, "A.g()") + "root last = A.f();\n"
    ),
}


# How many entries a part has, and how many calls are made of it.
FEW, MANY = 16, 1024
CALLS = 300_000


def ranges(count, *calls):
    """Calls for each number from 1 on."""
    return "".join(f"1 to {count}: {call}\n" for call in calls)


# Of each part, the lines of a case of a test program with so many entries, and how many calls it makes for each.
PARTS = {
    "queue": (lambda n: f"{n}\n" + ranges(n, "put # low", "put_back low", "take"), 3),
    "locals": (lambda n: ranges(n, "bind 3 #", "read 3", "unbind"), 3),
    "groups": (lambda n: "open 0\n" + ranges(n, "add 0 #", "finished 0 # 1", "next 0"), 3),
    # A line of waits, which is raised at its end.
    "waits": (lambda n: "add_root 0 low\n" + ranges(n, "add_root # low", "wait @ #") + f"add_root {n + 1} high\nwait {n + 1} 0\n" + ranges(n, "priority #"), 3),
}


def calls_of(part, entries):
    """Cases that make so many calls of a part with so many entries."""
    text, calls = PARTS[part]
    return "Cases.\n" + f"== {part} case\n{text(entries)}" * (CALLS // (calls * entries))


def path(name):
    return os.path.join(FOLDER, name + ".actors")


def write():
    os.makedirs(FOLDER, exist_ok=True)
    texts = {name: text for name, (text, _) in SCRIPTS.items()}
    texts |= {"read " + name: text for name, text in READ.items()}
    texts |= {"refuse " + name: text for name, text in REFUSED.items()}
    texts |= CREWS | {name: text for name, (text, _) in GROWTH.items()}
    texts |= {f"{part} {entries}": calls_of(part, entries) for part in PARTS for entries in (FEW, MANY)}
    for name, text in texts.items():
        with open(path(name), "w", encoding="ascii", newline="\n") as file:
            file.write(text)


if __name__ == "__main__":
    write()
