#!/usr/bin/env python3
"""Tries the planted bugs in crates/NAME/mutants/: the prover has to refuse each.

    tools/mutants.py [--edits PATTERN..] [NAME..]       of these crates (all), those whose names match (all)
    tools/mutants.py --table                            those that the gate tries, by the table of planted bugs in docs/THEOREMS.md

Edits of different functions of a crate are planted together, in a copy of it, and judged by one check, which says of each function whether
it is proved. An edit is named FUNCTION__WHAT.edit; it is refused where a function of that name is not proved.
Where all that the prover says of it is that the proof names what the edited function does not have, the verdict says so: perhaps another
proof would pass. One that changes anything but code is tried alone. Where edits that are planted together do not compile, or a definition
does not read, each half of them is tried. Where a function is not proved that none of them changes, and not for what it calls alone, no
verdict is given, since the libraries may be those of other code. The crates below are proved first, and the crate itself, unless rt check
or rt lib has done so in this tree.

With --table they are the first of each row of the first table there. They are judged over the libraries that `rt ci` has left in this tree, by checks of the functions that they change and of what these call.
"""
import argparse
import concurrent.futures
import fnmatch
import os
import re
import shutil
import subprocess
import sys
import tempfile
import time

sys.dont_write_bytecode = True
TOP = os.path.dirname(os.path.dirname(os.path.abspath(__file__)))
sys.path.insert(0, os.path.join(TOP, "tools"))
import prove

TABLE = os.path.join(TOP, "docs", "THEOREMS.md")
KIT = os.path.dirname(subprocess.run(["rt", "doc"], capture_output=True, text=True, check=True).stdout.strip())
# How many are planted together at most.
MANY = 24
# What the prover says of a proof that names a fact or a goal which the function does not have.
FORM = re.compile(r"has no field `|has no `[^`]*` that can be named from here")
# What it says of a function that calls one that is not proved, or is in a cycle of calls with one that does.
CALLS = re.compile(r"no proof: (in `\S+`, of this cycle of calls: )?it calls|not proved; it calls")
# A function that is not proved, or the one that a closure stands in, and why.
LINE = re.compile(r"(?m)^fn (?:\S*::fn::|(?!\S*::fn::)(?:\S+::)?)(\w+)\S*: ((?:not proved|no proof|could not tell).*)")
# A function in a cycle of calls, which has one proof.
CYCLE = re.compile(r"#\[cycle\((\w+)\)\]\n(?:\s*#\[.*\n)*.*?\bfn (\w+)")
# What it says of a definition or a clause that does not read, as where it names what is not in scope.
REJECTED = re.compile(
    r"(?m)^(?:\./)?specs/\S*:\d+:\d+: error: .*|its contract rests on `[^`]*`, which antt did not admit|antt did not admit its contract"
)


class Edit:
    """A planted bug: its name, the function that it is in, and of each file what stands there and what comes in its place. Also the
    functions that it changes, those in a cycle of calls with them, and the cycle as the prover names its proof."""

    def __init__(self, path):
        self.name = os.path.basename(path)[: -len(".edit")]
        self.function = self.name.split("__")[0]
        self.pairs, file, old = [], None, None
        with open(path, encoding="utf8") as lines:
            for line in lines:
                kind, _, text = line.rstrip("\n").partition(": ")
                if kind == "file":
                    file = text.strip()
                elif kind == "old":
                    old = text
                elif kind == "new" or line.startswith("new:"):
                    self.pairs.append((file, old, text))
        self.changes = {self.function, f"+{self.function}"}
        for file, old, _ in self.pairs:
            with open(os.path.join(os.path.dirname(path), "..", file), encoding="utf8") as text:
                whole = text.read()
            self.changes.update(re.findall(r"\bfn (\w+)", whole[: whole.find(old) + len(old)])[-1:])
            cycles = {cycle for cycle, function in CYCLE.findall(whole) if function in self.changes}
            self.changes.update(it for cycle, function in CYCLE.findall(whole) if cycle in cycles for it in (function, f"+{cycle}"))

    def is_code(self):
        return all(file.startswith("src/") for file, _, _ in self.pairs) and not any("laws.rt" in file for file, _, _ in self.pairs)


def path_of(folder, edit):
    """The function that an edit is of, as the prover names it, without the crate: the last of its name before what the edit changes, or else
    the only one of its name in another file."""
    changed, old, _ = edit.pairs[0]
    found = []
    for at, _, files in os.walk(os.path.join(folder, "src")):
        for file in (os.path.join(at, it) for it in files):
            with open(file, encoding="utf8") as text:
                lines = text.read().split("\n")
            for here, line in enumerate(lines):
                if re.match(rf"\s*(pub(\([a-z]+\))? )?(const )?(unsafe )?fn {re.escape(edit.function)}\b", line):
                    found.append((os.path.relpath(file, folder), here, lines))
    own = [it for it in found if it[0] == changed]
    if own:
        place = next((at for at, line in enumerate(own[0][2]) if old.strip() in line), 0)
        file, here, lines = max((it for it in own if it[1] <= place), key=lambda it: it[1], default=own[0])
    elif len(found) == 1:
        file, here, lines = found[0]
    else:
        return edit.function
    path = [it for it in file[len("src/") : -len(".rt")].split("/") if it not in ("lib", "main")]
    if lines[here].startswith(" "):
        # Of a method it names the module of the type, wherever the method stands: the end of the name is enough.
        impl = next(line for line in reversed(lines[:here]) if line.startswith("impl"))
        impl = re.sub(r"^impl<.*?>+ (?=[A-Z])", "impl ", impl)
        trait, of, kind = re.match(r"impl(?: ([A-Z]\w*)(?:<([A-Z]\w*)?.*>)? for)? (\w+)", impl).groups()
        path = [kind[0].upper() + kind[1:] + (trait or "") + (of or "")]
    return "::".join([*path, edit.function])


def planted(folder, edits):
    """The files with these edits, or None where two of them meet or a text does not stand there once."""
    texts = {}
    for edit in edits:
        for file, old, new in edit.pairs:
            if file not in texts:
                with open(os.path.join(folder, file), encoding="utf8") as text:
                    texts[file] = text.read()
            if texts[file].count(old) != 1:
                return None
            texts[file] = texts[file].replace(old, new)
    return texts


def together(folder, edits):
    """Lists of edits, each of different functions, that can be planted together."""
    lists = []
    for edit in edits:
        for found in lists:
            apart = len(found) < MANY and all(other.changes.isdisjoint(edit.changes) for other in found)
            if edit.is_code() and found[0].is_code() and apart and planted(folder, [*found, edit]) is not None:
                found.append(edit)
                break
        else:
            lists.append([edit])
    return lists


def words_of(name):
    """The prover's words for a crate, without its sources."""
    listed = {}
    with open(os.path.join(TOP, "crates.txt"), encoding="utf8") as lines:
        for line in lines:
            head, _, below = line.split("#")[0].partition(":")
            if head.strip():
                listed[head.split()[0]] = below.split()
    words = ["--extern", f"std={KIT}/rlibs/std.rlib", "-L", f"dependency={KIT}/rlibs"]
    for below in listed[name]:
        place = f"{TOP}/crates/{below}/out/rlib" if below in listed else f"{KIT}/rlibs"
        words += ["--extern", f"{below}={place}/{below}.rlib"]
    for below in prove.in_order(prove.graph(), [name])[:-1]:
        words += ["-L", f"dependency={TOP}/crates/{below}/out/rlib"]
    return words + ["--antt-project", f"{KIT}/rattle/logic/antt-project.json", "--logic-built", f"{KIT}/logic_built", "--links", f"{name}="]


def errors_in(said):
    """What the prover says is wrong in the answers and the invariants of each function."""
    errors = {}
    for name, text in re.findall(r"(?m)^\S*/([^/\n]+)/(?:Answers|Invariants)\.antt:\d+:\d+: error: (.*(?:\n  .*)*)", said):
        errors.setdefault(name, []).append(text)
    return errors


def refused(said, edit):
    """The verdict on an edit of a function that is not proved, by what the prover said of it."""
    if re.search(rf"(?m)^fn \S*\b{re.escape(edit.function)}>?: .*`search` did not prove", said):
        return "refused"
    errors = errors_in(said)
    own = [text for name in edit.changes if name == edit.function or name.startswith("+") for text in errors.get(name, [])]
    return "refused, perhaps by the form of its proof alone" if own and all(FORM.search(text) for text in own) else "refused"


class Crate:
    """A crate whose edits are tried: all of it is checked, over what was kept of an earlier check, or only the functions that change."""

    def __init__(self, name, room, only):
        self.name, self.folder, self.room, self.only = name, os.path.join(TOP, "crates", name), room, only
        self.kept = os.path.join(room, "kept")
        seed = os.path.join(self.folder, "out/incremental")
        if os.path.isdir(seed) and not only:
            shutil.copytree(seed, self.kept)
        self.root = "src/lib.rt" if os.path.exists(os.path.join(self.folder, "src/lib.rt")) else "src/main.rt"
        self.words = words_of(name)

    def check(self, texts, edits):
        """What the prover says of the crate with these files, which have these edits, in place of its own."""
        copy = os.path.join(self.room, "crate")
        shutil.rmtree(copy, ignore_errors=True)
        for part in ("src", "specs", "proofs"):
            if os.path.isdir(os.path.join(self.folder, part)):
                shutil.copytree(os.path.join(self.folder, part), os.path.join(copy, part))
        for file, text in texts.items():
            with open(os.path.join(copy, file), "w", encoding="utf8") as out:
                out.write(text)
        words = [f"{KIT}/bin/rattle", "check", "--crate-name", self.name, self.root, *self.words, "--jobs", "1", "--incremental", self.kept]
        for edit in edits if self.only else []:
            words += ["--only", path_of(self.folder, edit)]
        how = {"stdout": subprocess.PIPE, "stderr": subprocess.STDOUT, "text": True, "errors": "replace"}
        return subprocess.run(words, cwd=copy, check=False, **how).stdout

    def judge(self, edits):
        """Of each edit, what came of it."""
        texts = planted(self.folder, edits)
        if texts is None:
            return {edits[0]: "BAD EDIT: its text does not stand there once"} if len(edits) == 1 else self.halves(edits)
        said = self.check(texts, edits)
        rejected = REJECTED.search(said)
        if rejected or not re.search(r"(?m)^(logic=(proved|not-proved)|only=)", said):
            if len(edits) > 1:
                return self.halves(edits)
            first = next((line for line in said.split("\n") if "error" in line), "the prover gave no verdict")
            return {edits[0]: f"BAD EDIT: {(rejected.group() if rejected else first)[:160]}"}
        # Of a function that only calls one that is not proved nothing is known: its edit is tried alone.
        lines = LINE.findall(said)
        calls = {name for name, why in lines if CALLS.match(why)}
        # But where its own answers or invariants are wrong, that is its own edit.
        unproved = {name for name, why in lines if not CALLS.match(why)}
        unproved |= {name for name, errors in errors_in(said).items() if not all("not admitted" in text for text in errors)}
        # Where one is not proved that calls none such and that no edit changes, as over libraries of other code, nothing is known of any.
        others = sorted({name for name, why in lines if "it calls" not in why}.difference(*(edit.changes for edit in edits)))
        others = others if edits[0].is_code() else []
        if others and len(edits) > 1:
            return self.halves(edits)
        if others:
            return {edits[0]: f"BAD EDIT: {others[0]}, which it does not change, is not proved"}
        if len(edits) == 1 and re.search(r"(?m)^(?:logic=proved|only=(\d+) proved=\1$)", said):
            return {edits[0]: "NOT REFUSED"}
        if len(edits) == 1 and edits[0].is_code() and edits[0].function not in unproved:
            return {edits[0]: f"BAD EDIT: {edits[0].function} only calls what is not proved"}
        if len(edits) == 1:
            return {edits[0]: refused(said, edits[0])}
        found = {edit: refused(said, edit) if edit.function in unproved else "NOT REFUSED" for edit in edits}
        for edit in edits:
            if edit.function in calls - unproved:
                found |= self.judge([edit])
        return found

    def halves(self, edits):
        half = len(edits) // 2
        return {**self.judge(edits[:half]), **self.judge(edits[half:])}


def edits_of(name, patterns):
    folder = os.path.join(TOP, "crates", name, "mutants")
    files = sorted(os.listdir(folder)) if os.path.isdir(folder) else []
    names = [it[: -len(".edit")] for it in files if it.endswith(".edit")]
    return [Edit(os.path.join(folder, f"{it}.edit")) for it in names if any(fnmatch.fnmatch(it, pattern) for pattern in patterns)]


def prove_first(name):
    """Proves a crate and those below it, unless that was done in this tree."""
    logs = os.path.join(TOP, "out", "prove")
    os.makedirs(logs, exist_ok=True)
    for below in prove.in_order(prove.graph(), [name]):
        status, _ = prove.prove(below, logs, prove.JOBS)
        if status:
            sys.exit(f"{below} is not proved: see out/prove/{below}.log")


def tried(name, edits, only=False):
    """Tries the edits of a crate. How many were not refused."""
    bad = 0
    with tempfile.TemporaryDirectory() as room:
        crate = Crate(name, room, only)
        lists = together(crate.folder, edits)
        began = time.monotonic()
        for found in lists:
            verdicts = crate.judge(found)
            # What is planted beside others and passes is tried alone before it is called so.
            for edit, verdict in verdicts.items():
                if verdict == "NOT REFUSED" and len(found) > 1:
                    verdict = crate.judge([edit])[edit]
                bad += not verdict.startswith("refused")
                print(f"{name}/{edit.name}: {verdict}", flush=True)
        print(f"{name}: {len(edits)} edits in {len(lists)} lists, {time.monotonic() - began:.0f} s", flush=True)
    return bad


def of_table():
    """The edits that the gate tries by the first table, by their crates: the first of each row."""
    found = {}
    with open(TABLE, encoding="utf8") as text:
        section = text.read().split("\n## Planted bugs\n")[1].split("\n#")[0]
    for row in section.split("\n"):
        named = re.search(r"\(\.\./crates/(\w+)/mutants/(\w+)\.edit\)", row)
        if named:
            found.setdefault(named[1], []).append(named[2])
    return {crate: edits_of(crate, names) for crate, names in found.items()}


def table():
    """Tries the edits that the table names, two crates at a time. How many were not refused."""
    found = of_table()
    print(f"trying {sum(map(len, found.values()))} planted bugs of {len(found)} crates, each by a check of what it changes", flush=True)
    for below in prove.in_order(prove.graph(), list(found)):
        if below not in found and not os.path.exists(f"{TOP}/crates/{below}/out/rlib/{below}.rlib"):
            sys.exit(f"there is no library of {below} in this tree: run rt ci first")
    with concurrent.futures.ThreadPoolExecutor(min(2, os.cpu_count() or 1)) as pool:
        return sum(pool.map(lambda name: tried(name, found[name], True), found))


def main():
    words = argparse.ArgumentParser(description="Tries planted bugs.")
    words.add_argument("names", nargs="*", metavar="NAME")
    words.add_argument("--edits", nargs="+", default=["*"])
    words.add_argument("--table", action="store_true")
    given = words.parse_args()
    if given.table:
        bad = table()
        print(f"{bad} planted bugs of the table were not refused")
        sys.exit(1 if bad else 0)
    names = given.names or [name for name in prove.graph() if edits_of(name, ["*"])]
    bad = 0
    for name in names:
        edits = edits_of(name, given.edits)
        if edits:
            prove_first(name)
            bad += tried(name, edits)
    print(f"{bad} edits were not refused")
    sys.exit(1 if bad else 0)


if __name__ == "__main__":
    main()
