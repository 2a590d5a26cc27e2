#!/usr/bin/env python3
"""Runs the proved programs on the cases of scripts, and compares what they print and say with what has to be written for each case.

    tools/cases.py SWIFTRUN NUCHAPAY [AREA..]       all areas, or those whose folders these are

Each folder of cases/ is an area: its file `in` has cases, and its file `out` what has to be written for them. A case begins with a line
`== KIND TITLE`, and its text goes on to the next such line, or to the end. The LF before that line, and the last one of the file, belong
to no text. In a text `\\xHH` stands for a byte, and `\\N(PART\\)` for N times PART, in which `\\#` is the number of the repetition, from 0;
repetitions don't nest. A line `== TITLE` is written for each case, and then by its kind:

read        what `nuchapay print` says of the text: its printed form, or its refusal. The printed form has to be read again, and printed the
            same; one that is too long to be read is left out, and its refusal stands in its place
counted     how many lines and bytes the printed form has
rows        as `read`, for many texts, each a line. The first line is the frame of all: each row stands in place of `\\$`
distinct    rows too. No two of them may have the same printed form
same        two texts with a line `--` between them: whether they have the same printed form
run, quiet  what `swiftrun` prints, says and ends with, without or with `--quiet`
report      what it prints
agree       what `swiftrun --quiet` prints, and whether it prints the same with two, four and eight workers. No script here says more than its
            tasks and fields, in which all runs have to agree
words       what `swiftrun` says of the words of each line, and the status; of words that it takes how many workers and whether it is quiet, as
            the report of a script shows with an executor pinned to each of eight workers
slow, print the first line is run, or printed, on devices (tools/device.c), each a line `STEP ROOM ENDING`: at most STEP bytes are taken a call,
            and after ROOM bytes it `fails` or `stops`, which is that it takes none. What was answered, and what the device has
input       how many bytes `swiftrun` takes of a text
failing     what it says of an input that gives one byte and then fails

Of a case of the kind `ends`, with the title `KIND TITLE`, more than sixteen lines are written as the first eight and the last eight, and
between them how many are left out, how many bytes the whole has, and their sum, modulo 2^64: 31 times that of the bytes before, and the byte.

Two texts spell the same script exactly where their printed forms are the same, by proof, so these are compared. A line that begins with
`wrong: ` is in no right output. Status 0 where all is as it has to be.
"""
import concurrent.futures
import functools
import itertools
import os
import re
import subprocess
import sys
import tempfile

TOP = os.path.dirname(os.path.dirname(os.path.abspath(__file__)))
FOLDER = os.path.join(TOP, "cases")
# The longest text that is read.
BYTES = 65536
# Of a long answer, how many lines are written at each end.
LINES = 8
SECONDS = 60
# The report of this shows how many workers there are.
CREW = "".join(f"executor e{n} pinned {n};\n" for n in range(8))
CREW += "".join(f"actor A{n} on e{n} {{ func f() {{ return {n}; }} }}\nroot r{n} = A{n}.f();\n" for n in range(8))


def read_file(*names):
    with open(os.path.join(*names), "rb") as file:
        return file.read()


def parsed(text):
    """The cases of a file, in order, each as its first line and the rest."""
    return [case.partition(b"\n")[::2] for case in (b"\n" + text.removesuffix(b"\n")).split(b"\n== ")[1:]]


def answers(text):
    """What has to be written for each case, by a file of it: a title, and the rest."""
    return [answer.partition(b"\n")[::2] for answer in re.split(rb"(?m)^== ", text)[1:]]


def areas():
    return sorted(os.path.basename(os.path.dirname(path)) for path in (os.path.join(FOLDER, name, "in") for name in os.listdir(FOLDER)) if os.path.exists(path))


def expand(meant):
    """The text that is meant, as bytes."""
    meant = re.sub(rb"\\(\d+)\((.*?)\\\)", lambda found: b"".join(found[2].replace(rb"\#", b"%d" % n) for n in range(int(found[1]))), meant, flags=re.DOTALL)
    return re.sub(rb"\\x([0-9A-Fa-f]{2})", lambda found: bytes([int(found[1], 16)]), meant)


def rows_of(table):
    """The texts of rows."""
    frame, *rows = table.split(b"\n")
    before, after = frame.split(rb"\$")
    return [expand(before + row + after) for row in rows]


def ends(text):
    """The first and the last lines of a long text."""
    lines = text.splitlines(keepends=True)
    if len(lines) <= 2 * LINES:
        return text
    total = functools.reduce(lambda so_far, byte: (31 * so_far + byte) % 2**64, text, 0)
    told = f".. {len(lines) - 2 * LINES} lines more, {len(text)} bytes in all, sum {total}\n".encode()
    return b"".join([*lines[:LINES], told, *lines[-LINES:]])


class Ended:
    """What a program printed, what it said under its own name, without that, and its status."""

    def __init__(self, words, given, **more):
        done = subprocess.run(words, input=given, capture_output=True, timeout=SECONDS, check=False, **more)
        self.printed, self.status = done.stdout, done.returncode
        self.said = done.stderr.removeprefix(os.path.basename(words[0]).encode() + b": ")
        self.is_refused = self.status == 3 and not self.printed


class Programs:
    """Both programs, and what a case of each kind writes."""

    def __init__(self, swiftrun, nuchapay, device):
        self.swiftrun, self.nuchapay, self.device = swiftrun, nuchapay, device

    def write(self, kind, text):
        return getattr(self, "write_" + kind)(text)

    def print(self, text):
        return Ended([self.nuchapay, "print"], text)

    def run(self, text, *words):
        return Ended([self.swiftrun, *words], text)

    def is_read_again(self, printed):
        """Whether a printed form is read, and printed the same, if it is not too long to be read."""
        again = self.print(printed)
        return len(printed) > BYTES or (again.status == 0 and again.printed == printed)

    def wrong(self, printed):
        """What is written of a printed form that is not read again."""
        return b"" if self.is_read_again(printed) else b"wrong: this is not read again: " + printed + b"\n"

    def told(self, text):
        """The printed form of a text, or its refusal."""
        ended = self.print(text)
        if ended.is_refused:
            return ended.said
        if ended.status:
            return b"wrong: status %d, %s" % (ended.status, ended.said)
        if len(ended.printed) > BYTES:
            return b"printed form: " + self.print(ended.printed).said
        return ended.printed + self.wrong(ended.printed)

    def write_read(self, text):
        return self.told(expand(text))

    def write_rows(self, table):
        return b"".join(map(self.told, rows_of(table)))

    def write_counted(self, text):
        ended = self.print(expand(text))
        if ended.status:
            return ended.said
        return b"%d lines, %d bytes\n" % (ended.printed.count(b"\n"), len(ended.printed)) + self.wrong(ended.printed)

    def forms(self, texts):
        """The printed forms of texts, all of which have to be accepted."""
        all_ended = [self.print(text) for text in texts]
        if any(ended.status for ended in all_ended):
            return None
        return [ended.printed for ended in all_ended]

    def write_same(self, texts):
        forms = self.forms(map(expand, texts.split(b"\n--\n")))
        if forms is None:
            return b"wrong: refused\n"
        return b"same\n" if forms[0] == forms[1] else b"other\n"

    def write_distinct(self, table):
        forms = self.forms(rows_of(table))
        if forms is None:
            return b"wrong: refused\n"
        first = {}
        wrong = [b"wrong: row %d and row %d\n" % (first[form], place) for place, form in enumerate(forms) if first.setdefault(form, place) != place]
        return b"".join(wrong) + b"%d rows are distinct\n" % len(forms)

    def write_run(self, text, *words):
        ended = self.run(expand(text), *words)
        said = b"swiftrun: " + ended.said if ended.said else b""
        return ended.printed + said + b"status %d\n" % ended.status

    def write_quiet(self, text):
        return self.write_run(text, "--quiet")

    def report(self, text, *words):
        """What a run prints, or why there is none."""
        ended = self.run(expand(text), *words)
        return ended.printed + ended.said

    def write_report(self, text):
        return self.report(text)

    def write_agree(self, text):
        alone = self.report(text, "--quiet")
        told = [alone]
        for workers in (2, 4, 8):
            is_same = self.report(text, "--quiet", "--workers", str(workers)) == alone
            told.append(b"%d workers, the same: %s\n" % (workers, b"true" if is_same else b"false"))
        return b"".join(told)

    def write_words(self, table):
        return b"".join(self.told_of_words(line.decode().split()) for line in table.split(b"\n"))

    def told_of_words(self, words):
        ended = self.run(CREW.encode(), *words)
        if ended.status == 0 and ended.printed.endswith(b"fields\n"):
            is_quiet = not ended.printed.startswith(b"journals\n")
            crew = ended if not is_quiet else self.run(CREW.encode(), *(word for word in words if word != "--quiet"))
            workers = 1 + max(map(int, re.findall(rb" w(\d+) ", crew.printed)))
            return b"%d workers, quiet: %s\n" % (workers, b"true" if is_quiet else b"false")
        return ended.printed + ended.said + b"status %d\n" % ended.status

    def write_slow(self, table):
        return self.on_devices([self.swiftrun], table)

    def write_print(self, table):
        return self.on_devices([self.nuchapay, "print"], table)

    def on_devices(self, words, table):
        text, *rows = table.split(b"\n")
        return b"".join(self.on_device(words, expand(text), row) for row in rows)

    def on_device(self, words, text, row):
        """What a program answers on a device, and what that has taken."""
        step, room, ending = row.split(b" ")
        calls, tell = os.pipe()
        told = {"DEVICE_STEP": step, "DEVICE_ROOM": room, "DEVICE_FAILS": b"1" if ending == b"fails" else b"0", "DEVICE_TELL": str(tell)}
        try:
            ended = Ended(words, text, env=dict(os.environ, LD_PRELOAD=self.device, **told), pass_fds=[tell])
            os.close(tell)
            count = len(os.read(calls, 65536))
        finally:
            os.close(calls)
        answer = ended.said.rstrip(b"\n") if ended.said else b"true" if ended.status == 0 else b"false"
        return b"%s, %d bytes in %d calls\n%s\n" % (answer, len(ended.printed), count, ended.printed)

    def write_input(self, text):
        text = expand(text)
        with tempfile.TemporaryFile() as file:
            file.write(text)
            file.seek(0)
            subprocess.run([self.swiftrun], stdin=file, capture_output=True, timeout=SECONDS, check=False)
            taken = os.lseek(file.fileno(), 0, os.SEEK_CUR)
        return b"%d bytes are taken, %d are left\n" % (taken, len(text) - taken)

    def write_failing(self, _text):
        return Ended([self.swiftrun], b"", env=dict(os.environ, LD_PRELOAD=self.device, DEVICE_GIVES="1")).said


def built(folder, source):
    """A library that is loaded before a program."""
    library = os.path.join(folder, source + ".so")
    path = os.path.join(TOP, "tools", source + ".c")
    subprocess.run([os.environ.get("CC", "cc"), "-O2", "-Wall", "-Wextra", "-shared", "-fPIC", "-o", library, path], check=True)
    return library


def written(programs, case):
    """What is written for a case."""
    head, text = case
    kind, _, title = head.partition(b" ")
    if kind == b"ends":
        kind, _, title = title.partition(b" ")
        return title, ends(programs.write(kind.decode(), text))
    return title, programs.write(kind.decode(), text)


def tell(area, title, found, wanted):
    """Tells where what is written for a case differs from what has to be."""
    pairs = enumerate(itertools.zip_longest(found.splitlines(), wanted.splitlines(), fillvalue=b"nothing"), 1)
    place, (one, other) = next(((place, pair) for place, pair in pairs if pair[0] != pair[1]), (1, (found[-20:], wanted[-20:])))
    print(f"{area}: {title.decode()}: line {place}: {one.decode(errors='replace')!r} and not {other.decode(errors='replace')!r}")


def is_right(programs, workers, area):
    """Whether what is written for an area is what has to be."""
    cases = parsed(read_file(FOLDER, area, "in"))
    wrong = 0
    for made, wanted in zip(workers.map(functools.partial(written, programs), cases), answers(read_file(FOLDER, area, "out")), strict=True):
        if made != wanted:
            wrong += 1
            tell(area, made[0], made[1] if made[0] == wanted[0] else b"another title", wanted[1])
    print(f"{area}: {len(cases)} cases, {wrong} otherwise than they have to be", flush=True)
    return not wrong


def main():
    if len(sys.argv) < 3:
        sys.exit(__doc__)
    with tempfile.TemporaryDirectory() as folder, concurrent.futures.ThreadPoolExecutor(os.cpu_count()) as workers:
        programs = Programs(*map(os.path.abspath, sys.argv[1:3]), built(folder, "device"))
        all_right = [is_right(programs, workers, area) for area in sys.argv[3:] or areas()]
    sys.exit(not all(all_right))


if __name__ == "__main__":
    main()
