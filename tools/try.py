#!/usr/bin/env python3
"""Runs scripts without a proof, with a program that is built once, and kept until a source changes.

    tools/try.py SCRIPT.. [-- ARGUMENT..]                           swiftrun, with these arguments, as --workers 4
    tools/try.py --command="WORD.." [SCRIPT..] [-- ARGUMENT..]      nuchapay WORD.. SCRIPT ARGUMENT.., once for each script, or without one

A script that is `-` is standard input. Of several, each has a line before what is printed for it. The kit builds the program in a folder
of its own and runs it there; from there it is kept, as out/try/NAME-SUM, with the sum of all that the build reads. Where that folder
cannot be written, the program is kept for this time alone. Where the kit leaves no program, the kit runs the scripts itself, each as
standard input, as `-`. What the kit says of itself is left out, unless the program was not built or did not end. Status 0 where the
program ran, whatever its own.
"""
import argparse
import contextlib
import errno
import fcntl
import glob
import hashlib
import os
import re
import shutil
import signal
import subprocess
import sys
import tempfile
import time

sys.dont_write_bytecode = True
from prove import TOP, graph, in_order

KEPT = os.path.join(TOP, "out", "try")
# What a build of a crate reads.
PARTS = ("src", "specs")
# The tool's own lines about a run that ended.
OWN = re.compile(r"interpreter: |checked: |races: |run=|case=|cases=|rt: ")
# The program's own statuses; greater ones are the tool's, or of a program that was stopped.
STATUSES = range(0, 6)
# How often the kit's folder is looked at, in seconds, and a script that runs much longer than that: the program is there while it runs.
PAUSE = 0.03
LONG = b"actor A { func f() { let i = 0; while i < 4000 { i = i + 1; } return i; } }\n"
LONG += b"".join(b"root r%d = A.f();\n" % place for place in range(20))


def say(text):
    print(f"make try: {text}", file=sys.stderr, flush=True)


def key(name):
    """The sum of all that a build of this program reads."""
    made = hashlib.sha256(subprocess.run(["rt", "version"], capture_output=True, check=True).stdout)
    paths = ["crates.txt"]
    for crate in in_order(graph(), [name]):
        for part in PARTS:
            for at, _, files in os.walk(os.path.join(TOP, "crates", crate, part)):
                paths += [os.path.relpath(os.path.join(at, file), TOP) for file in files]
    for path in sorted(paths):
        with open(os.path.join(TOP, path), "rb") as file:
            text = file.read()
        made.update(f"\n{path} {len(text)}\n".encode() + text)
    return made.hexdigest()[:16]


def ended(said, status):
    """Whether what the kit's tool said is of a program that ended by itself."""
    return status in STATUSES and any(line.startswith(("run=ended", "cases=")) for line in said.splitlines())


def take(folder, taken):
    """Links what the kit has built there to another name, which stays when the kit removes its folder."""
    for path in glob.glob(os.path.join(folder, "*", "*", "program")):
        with contextlib.suppress(OSError):
            os.link(path, taken + ".new")
            os.replace(taken + ".new", taken)


def build(name, folder):
    """Builds a program below a folder. Where it is then; nothing where the kit has left none."""
    say(f"builds {name}, in a minute or two")
    taken = os.path.join(folder, name)
    words = ["rt", "try", "--steps", "1", *(["--", "run", "-"] if name == "nuchapay" else [])]
    how = {"cwd": os.path.join(TOP, "crates", name), "env": {**os.environ, "TMPDIR": folder}}
    with tempfile.TemporaryFile() as given, tempfile.TemporaryFile() as wrote:
        given.write(LONG)
        given.seek(0)
        with subprocess.Popen(words, stdin=given, stdout=subprocess.DEVNULL, stderr=wrote, **how) as tool:
            try:
                while tool.poll() is None:
                    take(folder, taken)
                    time.sleep(PAUSE)
            finally:
                tool.terminate()
        wrote.seek(0)
        said = wrote.read().decode(errors="replace")
    if not ended(said, tool.returncode):
        sys.stderr.write(said)
        say(f"{name} was not built")
        sys.exit(tool.returncode if tool.returncode > 0 else 1)
    return taken if os.path.exists(taken) else None


@contextlib.contextmanager
def kept_folder(name):
    """A folder that programs are kept in, while nobody else builds this one there; nothing where none can be made."""
    try:
        os.makedirs(KEPT, exist_ok=True)
        if not os.access(KEPT, os.W_OK):
            raise PermissionError(errno.EACCES, os.strerror(errno.EACCES))
        lock = open(os.path.join(KEPT, name + ".lock"), "wb")
    except OSError as error:
        say(f"{os.path.relpath(KEPT, TOP)} cannot be written ({error.strerror}), so the program is not kept")
        yield None
        return
    with lock:
        try:
            fcntl.flock(lock, fcntl.LOCK_EX | fcntl.LOCK_NB)
        except BlockingIOError:
            say(f"waits while another one builds {name}")
            fcntl.flock(lock, fcntl.LOCK_EX)
        yield KEPT


def keep(name, built, path):
    """Keeps a program, in the place of those of this name that were kept before."""
    for old in glob.glob(os.path.join(KEPT, name + "-*")):
        with contextlib.suppress(OSError):
            os.remove(old)
    os.replace(built, path)


def open_built(name, folder):
    """Builds a program below a folder that is removed again. It, open, and where it was; nothing where the kit leaves none."""
    built = build(name, folder)
    return (os.open(built, os.O_RDONLY), built) if built else (None, None)


def open_program(name):
    """A program, built where it is not kept: a descriptor, since somebody else may remove the file. Nothing where the kit leaves none."""
    sum_before = key(name)
    path = os.path.join(KEPT, f"{name}-{sum_before}")
    with contextlib.suppress(OSError):
        return os.open(path, os.O_RDONLY)
    with kept_folder(name) as kept:
        # Somebody else may have built it meanwhile.
        with contextlib.suppress(OSError):
            return os.open(path, os.O_RDONLY)
        for left in glob.glob(os.path.join(KEPT, name + ".build-*")):
            shutil.rmtree(left, ignore_errors=True)
        with tempfile.TemporaryDirectory(prefix=name + ".build-", dir=kept) as folder:
            program, built = open_built(name, folder)
            if built and kept:
                if key(name) == sum_before:
                    keep(name, built, path)
                else:
                    say("a source has changed meanwhile, so this program is not kept")
    return program


def case_names(scripts):
    """What the scripts are called where there are several: the names have the order of the scripts."""
    width = len(str(len(scripts)))
    return [f"{place:0{width}}-{'stdin' if script == '-' else os.path.basename(script)}" for place, script in enumerate(scripts, 1)]


def script_input(name, script):
    """What a program has as its standard input: the script, where that is no argument, or what this program has."""
    return open(script, "rb") if script != "-" and name == "swiftrun" else contextlib.nullcontext()


def run_once(program, line, given):
    """Runs a program with these words. Whether it ended by itself."""
    opened = f"/proc/self/fd/{program}"
    try:
        with given as file:
            ran = subprocess.run(line, executable=opened, pass_fds=[program], stdin=file, check=False)
    except OSError as error:
        if error.errno not in (errno.ENOEXEC, errno.EACCES):
            raise
        with contextlib.suppress(OSError):
            os.remove(os.readlink(opened))
        sys.exit(f"make try: {line[0]} cannot be started ({error.strerror}): it is removed, and will be built again")
    if ran.returncode in STATUSES:
        return True
    say(f"{line[0]} ended with {'status' if ran.returncode > 0 else 'signal'} {abs(ran.returncode)}")
    return False


def run_kept(program, name, words, scripts, arguments):
    """Runs a program on each script. Whether it ended by itself each time."""
    if not scripts:
        return run_once(program, [name, *words, *arguments], contextlib.nullcontext())
    is_whole = True
    for script, case in zip(scripts, case_names(scripts)):
        if len(scripts) > 1:
            print("==", case, flush=True)
        operand = [script] if name == "nuchapay" else []
        is_whole = run_once(program, [name, *words, *operand, *arguments], script_input(name, script)) and is_whole
    return is_whole


def run_by_kit(name, words, scripts, arguments, folder):
    """Lets the kit's tool build a program and run it on each script, as standard input. Whether it ended by itself each time."""
    line = [*words, *(["-"] if scripts and name == "nuchapay" else []), *arguments]
    which, given = ["--", *line], b""
    for script, case in zip(scripts, case_names(scripts)):
        with open(sys.stdin.fileno() if script == "-" else script, "rb", closefd=script != "-") as file:
            text = file.read()
        if len(scripts) == 1:
            given = text
            break
        which = ["--cases", folder]
        with open(os.path.join(folder, case), "wb") as file:
            file.write(text)
        if line:
            with open(os.path.join(folder, case + ".args"), "w", encoding="utf8") as file:
                file.write("\n".join(line) + "\n")
    words = ["rt", "try", "--steps", "1", *which]
    ran = subprocess.run(words, cwd=os.path.join(TOP, "crates", name), input=given, capture_output=True, check=False)
    said = ran.stderr.decode(errors="replace")
    is_whole = ended(said, ran.returncode)
    sys.stdout.buffer.write(ran.stdout)
    sys.stderr.write("".join(each for each in said.splitlines(keepends=True) if not (is_whole and OWN.match(each))))
    return is_whole


def check_scripts(scripts):
    """Ends this program where a script cannot be read: a build would be in vain."""
    for script in scripts:
        try:
            if script != "-":
                open(script, "rb").close()
        except OSError as error:
            sys.exit(f"make try: {script}: {error.strerror}")


def main():
    arguments = sys.argv[sys.argv.index("--") + 1:] if "--" in sys.argv else []
    parser = argparse.ArgumentParser(usage=__doc__)
    parser.add_argument("--command")
    parser.add_argument("scripts", nargs="*")
    given = parser.parse_args(sys.argv[1:len(sys.argv) - len(arguments)])
    if not given.scripts and not given.command:
        parser.error("a script is missing")
    check_scripts(given.scripts)
    name, words = ("nuchapay", given.command.split()) if given.command else ("swiftrun", [])
    say(f"nothing of this build is proved; make {'nuchapay' if given.command else 'run'} proves once, and then starts at once")
    for number in (signal.SIGTERM, signal.SIGHUP):
        signal.signal(number, lambda number, _: sys.exit(128 + number))
    program = open_program(name)
    if program is not None:
        sys.exit(0 if run_kept(program, name, words, given.scripts, arguments) else 1)
    say("this kit leaves no program that could be kept, so it is built each time")
    with tempfile.TemporaryDirectory() as folder:
        sys.exit(0 if run_by_kit(name, words, given.scripts, arguments, folder) else 1)


def run():
    """What `main` does, with what cannot be done told in a line."""
    try:
        main()
    except KeyboardInterrupt:
        sys.exit(128 + signal.SIGINT)
    except OSError as error:
        sys.exit(f"make try: {error.filename or 'a call'}: {error.strerror}")
    except subprocess.CalledProcessError as error:
        sys.exit(f"make try: {error}")


if __name__ == "__main__":
    run()
