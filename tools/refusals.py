#!/usr/bin/env python3
"""Runs cases and examples once for each of their allocations, with that one refused, and compares what they write.

    tools/refusals.py [each]

The cases are first those of the test programs (crates/test_NAME/out/test_NAME, as rt has built them). Such a program is given one case
at a time, of those whose first lines the file `refused` of its crate has, and has to write what the file stdout has for it, with status
0: it makes each call again that was refused memory. The n-th run refuses the n-th allocation (tools/refuse.c, built by $CC or cc). Of a
case with more than 300 allocations the first and the last 100 are refused, and of the others each 7th, or each 41st where there are more
than 2,000; with the word `each`, every one. Where an allocation is refused before the case is read, the program has to stop with status 1
and nothing written.

Then the cases of scripts (tools/cases.py) whose first lines the file cases/refused has, of the kinds `read`, `run` and `quiet`. Where an
allocation is refused, swiftrun or nuchapay has to write what the case has, or to say that there is no memory, in one of these words:

    S14 no memory, N2 no memory, no memory for the words, out of memory

and nothing on standard output. So have the examples of examples/nuchapay with all of their output, with status 2, 3, 4 or 5, or as `check
--format json` says it. Status 0 where no run differs.
"""
import concurrent.futures
import os
import subprocess
import sys
import tempfile

sys.dont_write_bytecode = True
import cases
import examples

TOP = examples.TOP
NAMES = ("test_parts", "test_tasks", "test_executors", "test_runs")
FIRST, SECOND = "swiftrun", "nuchapay"
SECONDS = 60
# What is said of a run in which nothing was written.
UNREAD = "nothing was written"
# The refusal of a script for which there is no memory, as `check --format json` says it.
NO_MEMORY = (b'"code":"S14"', b'"code":"W26"')
# What a program says that has no memory for a script, for a run, for its words, or for what it reads.
SAYS = (b"%s: line 0: S14 no memory\n", b"%s: N2 no memory\n", b"%s: no memory for the words\n", b"%s: <stdin>: out of memory\n")
# The same, as the kit's reader of words has it.
NO_WORDS = b"error: out of memory\n"
# Of how many allocations each is refused; of more, so many at both ends, and one in so many between, of many one in more.
ALL, ENDS, STEP, MANY, LONG_STEP = 300, 100, 7, 2000, 41


def cases_of(path):
    """The cases of a file, in order. What stands before the first is left out."""
    with open(path, encoding="utf8") as file:
        return ("\n" + file.read().removesuffix("\n")).split("\n== ")[1:]


class Case:
    """What a program is given, and what it has to write."""

    def __init__(self, program, library, asked, wanted):
        self.words, self.folder = [program], None
        self.library = library
        self.given = f"A case.\n== {asked}\n".encode()
        self.wanted = f"== {wanted}\n".encode()

    def run(self, number):
        """Whether an allocation was refused, and what differs from a run without, if anything does."""
        told, tell = os.pipe()
        words = dict(os.environ, LD_PRELOAD=self.library, REFUSE=str(number), REFUSE_TELL=str(tell))
        with os.fdopen(told, "rb") as told:
            try:
                done = subprocess.run(self.words, cwd=self.folder, env=words, input=self.given, capture_output=True, pass_fds=[tell], timeout=SECONDS, check=False)
            except subprocess.TimeoutExpired:
                return True, f"it runs for more than {SECONDS} seconds"
            finally:
                os.close(tell)
            is_refused = told.read() != b""
        return is_refused, self.fault(is_refused, done)

    def fault(self, is_refused, done):
        """What is otherwise in a run, if anything is."""
        if done.returncode:
            # Its input was not read.
            is_unread = is_refused and done.returncode == 1 and done.stdout == b""
            return UNREAD if is_unread else f"status {done.returncode}"
        return None if done.stdout == self.wanted else "another text"

    def count(self):
        """How many allocations it makes."""
        least, most = 0, 64
        while self.run(most)[0]:
            least, most = most, 2 * most
        while most - least > 1:
            middle = (least + most) // 2
            if self.run(middle)[0]:
                least = middle
            else:
                most = middle
        return least

    def numbers(self, is_each):
        """Which allocations are refused."""
        last = self.count()
        if is_each or last <= ALL:
            return range(1, last + 1)
        step = STEP if last <= MANY else LONG_STEP
        return [*range(1, ENDS + 1), *range(ENDS + 1, last - ENDS + 1, step), *range(last - ENDS + 1, last + 1)]

    def refuse_in_turn(self, is_each, workers):
        """Refuses its allocations in turn. How many were refused, how many of these before the case was read, and what was wrong."""
        refused, unread, wrong = 0, 0, []
        numbers = self.numbers(is_each)
        for number, (is_refused, fault) in zip(numbers, workers.map(self.run, numbers)):
            # The case is not read until each of these is granted.
            if fault == UNREAD and unread == number - 1:
                unread = number
            elif fault:
                wrong.append(f"allocation {number} refused: {fault}")
            refused += is_refused
        return refused, unread, wrong


def is_told(done):
    """Whether a run says that there is no memory: on standard error alone, or as the refusal of a script in JSON."""
    return (done.stdout == b"" and b"memory" in done.stderr) or any(told in done.stdout for told in NO_MEMORY)


class Command(Case):
    """An example of nuchapay."""

    def __init__(self, program, library, name):
        self.words, self.folder = [program, *examples.arguments(name)], os.path.dirname(name)
        self.library = library
        self.given = examples.given_to(name)
        self.wanted = tuple(examples.content(name, ending) or b"" for ending in (".out", ".err"))
        self.status = int(examples.content(name, ".status") or b"0")

    def fault(self, is_refused, done):
        if (done.stdout, done.stderr) == self.wanted and done.returncode == self.status:
            return None
        # It may give up, and has to say why.
        if is_refused and done.returncode in (2, 3, 4, 5) and is_told(done):
            return None
        return f"status {done.returncode}, and it says {done.stderr!r}"


class ScriptCase(Case):
    """A case of a script, run by a program for people."""

    def __init__(self, library, kind, text, wanted):
        words = {b"read": [SECOND, "print"], b"run": [FIRST], b"quiet": [FIRST, "--quiet"]}[kind]
        self.words, self.folder = [built(words[0]), *words[1:]], None
        self.library = library
        self.given = cases.expand(text)
        self.wanted = wanted
        self.has_status = kind != b"read"

    def fault(self, is_refused, done):
        status = b"status %d\n" % done.returncode if self.has_status else b""
        if done.stdout + done.stderr + status == self.wanted:
            return None
        name = os.path.basename(self.words[0]).encode()
        told = [NO_WORDS, *(said % name for said in SAYS)]
        if is_refused and done.returncode in (2, 3, 4) and not done.stdout and done.stderr in told:
            return None
        return f"status {done.returncode}, and it says {done.stderr!r}"


def built(name):
    return os.path.join(TOP, "crates", name, "out", name)


def refuse_scripts(is_each, library, workers):
    """Refuses the allocations of cases of scripts. Whether no run differs."""
    known = {}
    for area in cases.areas():
        asked, wanted = cases.parsed(cases.read_file(cases.FOLDER, area, "in")), cases.answers(cases.read_file(cases.FOLDER, area, "out"))
        known.update((first, (text, answer)) for (first, text), (_title, answer) in zip(asked, wanted, strict=True))
    firsts = cases.read_file(cases.FOLDER, "refused").splitlines()
    refused, differ = 0, 0
    for first in firsts:
        if first not in known:
            sys.exit(f"cases has no case {first.decode()}")
        counts = ScriptCase(library, first.partition(b" ")[0], *known[first]).refuse_in_turn(is_each, workers)
        refused, differ = refused + counts[0], differ + len(counts[2])
        for fault in counts[2][:5]:
            print(f"{first.decode()}: {fault}")
    print(f"{len(firsts)} cases of scripts, {refused} allocations refused in turn; {differ} runs differ")
    return not differ


def refuse_commands(is_each, library, workers):
    """Refuses the allocations of the examples of nuchapay. Whether no run differs."""
    program = built(SECOND)
    count, refused, differ = 0, 0, 0
    for name in filter(examples.is_second, examples.names()):
        if examples.content(name, ".has") is not None or examples.content(name, ".to") is not None:
            continue
        counts = Command(program, library, name).refuse_in_turn(is_each, workers)
        count, refused, differ = count + 1, refused + counts[0], differ + len(counts[2])
        for fault in counts[2][:5]:
            print(f"{os.path.basename(name)}: {fault}")
    print(f"{count} examples of {SECOND}, {refused} allocations refused in turn; {differ} runs differ")
    return not differ


def refuse_all(name, is_each, library, workers):
    """Refuses the allocations of the cases of a test program. Whether no run differs."""
    folder = os.path.join(TOP, "crates", name)
    with open(os.path.join(folder, "refused"), encoding="utf8") as file:
        firsts = [line for line in file.read().split("\n") if line]
    asked, wanted = cases_of(os.path.join(folder, "stdin")), cases_of(os.path.join(folder, "stdout"))
    known = {case.partition("\n")[0]: (case, answer) for case, answer in zip(asked, wanted, strict=True)}
    refused, unread, differ = 0, 0, 0
    for line in firsts:
        first = line.removeprefix("each ")
        if first not in known:
            sys.exit(f"{name} has no case {first}")
        counts = Case(built(name), library, *known[first]).refuse_in_turn(is_each or line != first, workers)
        refused, unread, differ = refused + counts[0], unread + counts[1], differ + len(counts[2])
        if counts[0] <= counts[1]:
            differ += 1
            print(f"{first}: no allocation was refused once it was read")
        for fault in counts[2][:5]:
            print(f"{first}: {fault}")
    print(f"{len(firsts)} cases of {name}, {refused} allocations refused in turn, {unread} of them before a case was read; {differ} runs differ")
    return not differ


def main():
    if sys.argv[1:] not in ([], ["each"]):
        sys.exit(__doc__)
    with tempfile.TemporaryDirectory() as folder:
        library = cases.built(folder, "refuse")
        with concurrent.futures.ThreadPoolExecutor(os.cpu_count()) as workers:
            is_each = len(sys.argv) > 1
            are_well = [refuse_all(name, is_each, library, workers) for name in NAMES]
            are_well += [refuse_scripts(is_each, library, workers), refuse_commands(is_each, library, workers)]
    if not all(are_well):
        sys.exit(1)


if __name__ == "__main__":
    main()
