#!/usr/bin/env python3
"""Prints the definitions that a definition rests on, in order, with their files, and how many they are.

    tools/believe.py                    those of WritesRun of swift_tool, which is the clause `text` of `run_text`
    tools/believe.py CRATE NAME         those of another definition
    tools/believe.py --check            whether docs/PROVED.md gives the numbers of the first form, and whether each file of specs/ that no
                                        public clause names, nor a definition that one names, has Inside or Invariant in its name,
                                        and no other

A reader who believes these definitions, and the toolchain, knows what the theorem says. A definition is one of specs/, or a type of
src/ that contracts see: its declaration or, where contracts see it as another value, the type of that value, whose making from the
declared one is nothing to believe. Of the kit only the words are counted that these definitions use, and not what stands below them.
"""
import os
import re
import sys

TOP = os.path.dirname(os.path.dirname(os.path.abspath(__file__)))
CRATES = os.path.join(TOP, "crates")
FIRST = ("swift_tool", "WritesRun")
# The page that says how many definitions these are.
PAGE = os.path.join("docs", "PROVED.md")
# A name, or one of another module through an alias of that. Parts of operators count as names, too.
NAME = r"[^\W\d][\w'-]*(?:\.[^\W\d][\w'-]*)*|[◌\w]*◌\S*◌[◌\w]*"
HEAD = r"(?:(?:pub|abbrev|unfoldable|opaque|unfold|data|record)\s+)*([^\s:(){}=|]+)"


def lines_of(path):
    with open(path, encoding="utf8") as file:
        return file.read().split("\n")


class Part:
    """A definition: its place, its lines, and the names that it may mean."""

    def __init__(self, path, line, name):
        self.path, self.line, self.name, self.lines, self.made = path, line, name, [], []

    def text(self):
        # Without its texts, in which names and the signs of comments mean nothing.
        bare = (re.sub(r'"(?:[^"\\]|\\.)*"', '""', line) for line in self.lines)
        return "\n".join(re.sub(r"--.*|//.*", "", line) for line in bare)


def imported(text, names, aliases):
    """Adds what `use M.{a, b as c}` and `use M as d` bring."""
    for module, listed, alias in re.findall(r"use\s+([\w.+]+?)(?:\.\{([^}]*)\}|\s+as\s+(\w+)|\.(?=;))", text):
        for entry in filter(None, (it.strip() for it in listed.split(","))):
            name, _, other = entry.partition(" as ")
            names[(other or name).strip()] = (module, name.strip())
        if alias:
            aliases[alias] = module


class Specs:
    """A file of definitions."""

    def __init__(self, path, module):
        self.parts, self.names, self.aliases, self.module = {}, {}, {}, module
        part = None
        for number, line in enumerate(lines_of(path), 1):
            bare = re.sub(r"--.*", "", line).rstrip()
            if bare.startswith("use "):
                imported(bare, self.names, self.aliases)
                continue
            if re.match(r"\s*(pub )?mod |module ", bare):
                part = None
                continue
            head = re.match(r"(?:  )?" + HEAD, bare) if re.match(r"(  )?[^\s}\])]", bare) else None
            is_inner = bare.startswith("  ") and part is not None and re.match(r"(pub )?(record|data)\b|.*\b(record|data)\b", part.lines[0])
            # What `mutual` holds stands as deep as the fields of a record.
            is_inner = is_inner and not re.match(r"  (?:pub )?(?:record|data)\b", bare)
            if head and not is_inner and (part is None or head[1] != part.name):
                fresh = re.match(r"(?:  )?(?:pub|abbrev|unfoldable|opaque|data|record)\b", bare) or re.match(r"(?:  )?[^\s=]+\s*:", bare)
                if fresh:
                    part = self.parts.setdefault(head[1], Part(path, number, head[1]))
            if part is not None and bare.strip():
                part.lines.append(line)
                constructor = re.match(r"  ([^\s:]+)\s*:", bare)
                if constructor and re.search(r"\bdata\b", part.lines[0]):
                    part.made.append(constructor[1])
        self.owner = {made: part for part in self.parts.values() for made in part.made}


class Source:
    """A file of code: its types, and how contracts see them."""

    def __init__(self, path):
        self.parts, self.names, self.aliases = {}, {}, {}
        text = "\n".join(lines_of(path))
        imported(text, self.names, self.aliases)
        for kept in re.finditer(r"(?m)^(?:pub(?:\([^)]*\))? )?(?:struct|enum) (\w+)[^;{]*(?:;|\{)", text):
            end = text.find("\n}", kept.end()) + 2 if kept[0].endswith("{") else kept.end()
            self.add(path, text, kept.start(), end, kept[1])
        for model in re.finditer(r"(?m)^impl(?:<[^{]*?>)? Model for (\w+)[^{]*\{", text):
            value = re.compile(r"(?m)^    ghost Value = .*").search(text, model.end(), text.find("\n}", model.end()))
            if value is None:
                continue
            self.parts.pop(model[1], None)
            self.add(path, text, value.start(), value.end(), model[1])
        for item in re.finditer(r"(?m)^use ([\w:]+)::(?:\{([^}]*)\}|(\w+));", text):
            for name in (item[2] or item[3]).split(","):
                self.names.setdefault(name.strip(), ("::" + item[1], name.strip()))

    def add(self, path, text, start, end, name):
        part = self.parts.setdefault(name, Part(path, text.count("\n", 0, start) + 1, name))
        part.lines += [line for line in text[start:end].split("\n") if line.strip() and not line.strip().startswith("//")]


def load():
    specs, sources = {}, {}
    for crate in sorted(os.listdir(CRATES)):
        for at, folders, files in os.walk(os.path.join(CRATES, crate)):
            folders[:] = [it for it in folders if it not in ("out", "proofs")]
            for file in files:
                path = os.path.join(at, file)
                inside = os.path.relpath(path, os.path.join(CRATES, crate))
                if inside.startswith("specs/") and file.endswith(".antt"):
                    module = f"Rattle.{crate}." + inside[: -len(".antt")].replace("/", ".")
                    specs[module] = Specs(path, module)
                elif inside.startswith("src/") and file.endswith(".rt"):
                    sources.setdefault(crate, []).append(Source(path))
    return specs, sources


class Closure:
    def __init__(self):
        self.specs, self.sources = load()
        self.found = {}
        # The words of the kit that these use, each with its module.
        self.of_kit = set()

    def in_source(self, crate, name):
        for source in self.sources.get(crate, []):
            if name in source.parts:
                return source, source.parts[name]
        return None

    def meant(self, module, name):
        """The definition of a name of a module."""
        if module.startswith("::"):
            crate = module[2:].split("::")[0]
            return self.in_source(crate, name)
        crate = re.match(r"Rattle\.(\w+)\.", module)
        if crate and not os.path.isdir(os.path.join(CRATES, crate[1])):
            self.of_kit.add((module, name))
            return None
        declared = re.match(r"Rattle\.(\w+)\.specs\.declared\.(.*)", module)
        if declared:
            # A type, its variants, or the constants of a file.
            parts = declared[2].split(".")
            kind = parts[-2] if parts[-1] == "TheVariants" else parts[-1]
            return self.in_source(declared[1], kind)
        file = self.specs.get(module)
        if file is None:
            return None
        part = file.parts.get(name) or file.owner.get(name)
        return (file, part) if part else None

    def operators_in(self, file, part):
        """The definitions of the operators that stand between or around what they are used on."""
        text = part.text()
        for name, place in file.names.items():
            signs = [sign for sign in name.split("◌") if sign]
            if "◌" in name and all(re.search(rf"(?<![^\s()]){re.escape(sign)}(?![^\s()])", text) for sign in signs):
                yield self.meant(*place)

    def named_in(self, file, part):
        yield from self.operators_in(file, part)
        for name in re.findall(NAME, part.text()):
            front, _, rest = name.partition(".")
            if front in file.aliases:
                yield self.meant(file.aliases[front], rest.split(".")[0])
            elif name in file.names or front in file.names:
                yield self.meant(*file.names.get(name, file.names.get(front)))
            elif isinstance(file, Specs) and (front in file.parts or front in file.owner):
                yield file, file.parts.get(front) or file.owner[front]
            elif isinstance(file, Source) and front in file.parts:
                yield file, file.parts[front]

    def follow(self, file, part):
        work = [(file, part)]
        while work:
            file, part = work.pop()
            if (part.path, part.name) in self.found:
                continue
            self.found[part.path, part.name] = part
            work += [it for it in self.named_in(file, part) if it is not None]


def rests_on(crate, name):
    closure = Closure()
    for module, file in closure.specs.items():
        if module.startswith(f"Rattle.{crate}.") and name in file.parts:
            closure.follow(file, file.parts[name])
    return sorted(closure.found.values(), key=lambda part: (part.path, part.line)), closure.of_kit


def numbers(parts, of_kit):
    """How many these are, in words."""
    files = {part.path for part in parts}
    lines = sum(len(part.lines) for part in parts)
    return f"{len(parts)} definitions in {len(files)} files, {lines:,} lines, and {len(of_kit)} words of the kit"


# A clause of a function, and where its braces begin.
CLAUSE = re.compile(r"\b(?:requires|ensures)\*?(?:\s+\*?\w+)?\s*\{|\bghost\s+\w+\s*:\s*\{")


def closed(text, at):
    """The place after the brace that closes the one at a place."""
    depth = 0
    for place in range(at, len(text)):
        depth += {"{": 1, "}": -1}.get(text[place], 0)
        if depth == 0:
            return place + 1
    return len(text)


def clauses(text, at):
    """The texts of the clauses of a function whose head begins at a place."""
    while True:
        found, body = CLAUSE.search(text, at), text.find("{", at)
        if found is None or found.end() - 1 != body:
            return
        at = closed(text, body)
        yield text[body:at]


def sources_of(crate):
    """The files of a crate's code, and their texts without comments."""
    for at, _, files in os.walk(os.path.join(CRATES, crate, "src")):
        for file in sorted(files):
            if file.endswith(".rt"):
                path = os.path.join(at, file)
                yield path, re.sub(r"//[^\n]*", "", "\n".join(lines_of(path)))


def exported_by(crate):
    """The names that a `pub use` of a crate has."""
    lists = (use for _, text in sources_of(crate) for use in re.findall(r"(?m)^\s*pub use ([^;]+);", text))
    return {name for use in lists for name in re.findall(r"\w+", use)}


def public_clauses(crate):
    """The clauses of public functions, each with its file. In a library public is what a `pub use` names, and what is in a public module; in a
    program each `pub fn`: its `main` calls them."""
    texts = dict(sources_of(crate))
    root = os.path.join(CRATES, crate, "src", "lib.rt")
    is_program = root not in texts
    exported = exported_by(crate)
    modules = {name for text in texts.values() for name in re.findall(r"(?m)^\s*pub mod (\w+);", text)}
    for path, text in texts.items():
        is_open = is_program or path == root or os.path.basename(path)[: -len(".rt")] in modules
        impls = re.finditer(r"(?m)^(?:unsafe )?impl(?:<[^{]*?>)? (?:[\w:<>', ]+ for )?&?(?:'\w+ )?(\w+)[^{]*\{", text)
        impls = [(it.start(), closed(text, it.end() - 1), it[1], " for " in it[0]) for it in impls]
        for found in re.finditer(r"(?m)^ *(pub )?(?:const )?(?:unsafe )?fn (\w+)", text):
            inside = [it for it in impls if it[0] <= found.start() < it[1]]
            of, is_trait = (inside[-1][2], inside[-1][3]) if inside else (found[2], False)
            if (found[1] or is_trait) and (of in exported or is_open):
                for clause in clauses(text, found.end()):
                    yield path, clause


def misnamed():
    """The files of specs/ whose names say the opposite of what public clauses do."""
    closure = Closure()
    for crate in sorted(os.listdir(CRATES)):
        for path, clause in public_clauses(crate):
            part = Part(path, 0, "")
            part.lines.append(clause)
            work = closure.named_in(Source(path), part)
            for file, named in filter(None, work):
                closure.follow(file, named)
        for source in closure.sources.get(crate, []):
            for part in source.parts.values():
                if part.name in exported_by(crate):
                    closure.follow(source, part)
    for file in closure.specs.values():
        for path in {part.path for part in file.parts.values()}:
            named = any((part.path, part.name) in closure.found for part in file.parts.values())
            if named == bool(re.search(r"/specs/.*(?:Inside|Invariant)", path)):
                yield f"{os.path.relpath(path, TOP)}: {'a' if named else 'no'} public clause rests on it"


def check():
    wrong = sorted(misnamed())
    if wrong:
        sys.exit("\n".join(wrong))
    said = numbers(*rests_on(*FIRST))
    with open(os.path.join(TOP, PAGE), encoding="utf8") as page:
        if said in " ".join(page.read().split()):
            return
    sys.exit(f"{PAGE} should say: {said}")


def main():
    words = sys.argv[1:]
    if words == ["--check"]:
        return check()
    if len(words) not in (0, 2) or any(word.startswith("-") for word in words):
        sys.exit(__doc__)
    parts, of_kit = rests_on(*(words or FIRST))
    if not parts:
        sys.exit(f"no definition {words[1]} in crates/{words[0]}/specs")
    for part in parts:
        print(f"{os.path.relpath(part.path, TOP)}:{part.line}: {part.name}")
    print(numbers(parts, of_kit))


if __name__ == "__main__":
    main()
