#!/usr/bin/env python3
"""Whether `nuchapay run --format json` says of a run what its text says, and `nuchapay explore --format json` of a search.

    tools/reports.py NUCHAPAY

Each script of the examples is run twice, without its arguments, on one worker: with its report as text, and as JSON. The text is made
again from what json.loads reads, and has to be the same, with the same status; so with --quiet. Each example of `explore` that lists
outcomes is searched twice as well: from the JSON its outcomes are made again as the text has them, with their schedules, and the status
has to be that of the answer. Status 0 where all agree.
"""
import json
import os
import re
import subprocess
import sys

sys.dont_write_bytecode = True
import examples


def worded(told):
    """A resume, an exit or an ending in the words of the text."""
    words = [told["is"]]
    words += ["fault"] if told["is"] != "fault" and "fault" in told else []
    words += [str(told[name]) for name in ("method", "fault", "value") if name in told]
    return " ".join(words)


def turn_line(turn):
    run = f"{turn['place']} t{turn['task']}.{turn['turn']} w{turn['worker']} {turn['method']} p{turn['priority']} c{int(turn['cancelled'])}"
    return f"{run} {worded(turn['resume'])} -> {worded(turn['exit'])}"


def executor_lines(executor):
    kind = executor["kind"] + (f" {executor['pinned']}" if "pinned" in executor else "")
    yield f"executor {executor['executor']} {kind} turns {executor['turns']}"
    if executor["folded"]:
        yield f"folded {executor['folded']}"
    yield from map(turn_line, executor["records"])


def task_line(task):
    origin = task["root"] if "root" in task else f"t{task['by']}"
    return f"t{task['task']} {task['from']} {origin} {worded(task['ending'])}"


def lines(report):
    """The lines of the text of a report."""
    if "journals" in report:
        yield "journals"
        for executor in report["journals"]:
            yield from executor_lines(executor)
    yield "tasks"
    yield from map(task_line, report["tasks"])
    yield "fields"
    for actor, fields in report["fields"].items():
        yield from (f"{actor}.{field} {value}" for field, value in fields.items())


def faults(program, path, words):
    ran = [subprocess.run([program, "run", *words, *more, path], capture_output=True, check=False) for more in ([], ["--format", "json"])]
    if (ran[0].returncode, ran[0].stderr) != (ran[1].returncode, ran[1].stderr):
        yield f"status {ran[1].returncode} and not {ran[0].returncode}, and it says {ran[1].stderr!r}"
    elif ran[0].stdout == b"":
        if ran[1].stdout != b"":
            yield "JSON of a run without a report"
    else:
        text = "".join(line + "\n" for line in lines(json.loads(ran[1].stdout)))
        if text.encode() != ran[0].stdout:
            yield f"the JSON says\n{text}"


# The status of a search that answers so.
STATUSES = {"holds": 0, "fails": 1, "undecided": 5}


# What the dots of schedules mean.
LEGEND = "\n    t0.1.. begins a turn, and ..t0.1 ends it; what stands between runs on other executors\n"


def turns(steps):
    """The words of a schedule: a turn that ends right after it begins is one, and another one has a word for its begin and one for its end."""
    steps = [step for step in steps if step["is"] != "add"]
    for before, step, after in zip([None, *steps], steps, [*steps[1:], None]):
        name = f"t{step['task']}.{step['turn']}"
        if step["is"] == "begin":
            yield name if after and (after["is"], after["task"]) == ("run", step["task"]) else name + ".."
        elif not before or (before["is"], before["task"]) != ("begin", step["task"]):
            yield ".." + name


# How the text heads an outcome; of a Swift file's script, by what it says of Swift, and in this order.
HEADS = {"outcome": "outcome ", "ends": "ends the process: before outcome ", "spins": "may spin: at a limit in outcome "}
HEAD = "|".join(HEADS.values())


def names(tasks):
    """What tasks are called: a root by its name, another by its maker's and its place among those that this made, from 1."""
    called, made = [], {}
    for task in tasks:
        if task["from"] != "root":
            made[task["by"]] = made.get(task["by"], 0) + 1
        called.append(task["root"] if task["from"] == "root" else f"{called[task['by']]}/{made[task['by']]}")
    return called


def outcome_lines(outcome, said):
    yield f"{HEADS[said]}{outcome['outcome']}"
    yield " ".join(["schedule", *turns(outcome["schedule"])])
    tasks = outcome["end"]["tasks"]
    made = [f"t{number} ({name})" for number, (task, name) in enumerate(zip(tasks, names(tasks))) if task["from"] != "root"]
    if made:
        yield " ".join(["names", *made])
    yield from lines(outcome["end"])


def search_faults(program, name):
    """What the JSON of a search says otherwise than its text."""
    words = [program, *examples.arguments(name)]
    how = {"input": examples.given_to(name), "cwd": os.path.dirname(name), "capture_output": True, "check": False}
    ran = [subprocess.run([*words, *more], **how) for more in ([], ["--format", "json"])]
    if (ran[0].returncode, ran[0].stderr) != (ran[1].returncode, ran[1].stderr):
        yield f"status {ran[1].returncode} and not {ran[0].returncode}, and it says {ran[1].stderr!r}"
        return
    found = json.loads(ran[1].stdout)
    if STATUSES[found["answer"]] != ran[0].returncode:
        yield f"it answers {found['answer']}"
    # Of a Swift file a list of its methods follows.
    text = ran[0].stdout.decode().partition("\nmethods\n")[0]
    listed = re.split(rf"(?m)^(?=(?:{HEAD})\d+$)", text)[1:]
    told = list(zip(found.get("swift", ["outcome"] * len(found["outcomes"])), found["outcomes"]))
    made = ["".join(line + "\n" for line in outcome_lines(outcome, said)) for kind in HEADS for said, outcome in told if said == kind]
    if [part.strip() for part in listed] != [part.strip() for part in made]:
        yield "it lists other outcomes"
    has_dots = any(".." in line for line in text.splitlines() if line.startswith("schedule "))
    if has_dots != (LEGEND in text):
        yield "it says what dots mean where there are none, or does not say it"
    undone = found["undone"] and " ".join(["schedule", *turns(found["undone"])])
    if undone and undone not in re.split(rf"(?m)^(?:{HEAD})\d+$", text)[0].splitlines():
        yield "it has another turn that is undone"


def searches():
    """The examples of `explore` that list outcomes."""
    for name in examples.names():
        words = examples.arguments(name) if examples.is_second(name) else []
        if words[:1] == [b"explore"] and os.path.exists(name + ".out") and not {b"--broken", b"--schedule", b"--diff", b"--format", b"--save"} & {*words}:
            yield name


def main():
    if len(sys.argv) != 2:
        sys.exit(__doc__)
    program, count, failed = os.path.abspath(sys.argv[1]), 0, 0
    for name in searches():
        count += 1
        for fault in search_faults(program, name):
            failed += 1
            print(f"{os.path.relpath(name, examples.TOP)}: {fault}")
    for name in examples.names():
        path = name + ".actors"
        if not os.path.exists(path):
            continue
        for words in ([], ["--quiet"]):
            count += 1
            for fault in faults(program, path, words):
                failed += 1
                print(f"{os.path.relpath(path, examples.TOP)}: {fault}")
    print(f"{count} reports as JSON, {failed} of them other than their texts")
    sys.exit(failed > 0)


if __name__ == "__main__":
    main()
