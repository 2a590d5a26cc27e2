#!/usr/bin/env python3
"""Whether runs of eight workers end where all their threads share one core.

    tools/one_core.py SWIFTRUN [RUNS]       this many runs, 60 where it is not given

On several cores a thread that waits for the book's lock finds it free while it looks. On one core who holds the lock does not run while
another thread looks, so that one sleeps, and a wake that is lost leaves it asleep for ever: that no wake is lost is not proved. Each run has
eight workers and an actor for each of them, with a task of 990 turns there: so long that threads are stopped while they hold the lock. It has
to end in some seconds, with the tasks and the fields that the script gives in every order of turns. Status 0 where each did.
"""
import os
import subprocess
import sys

WORKERS = 8
TURNS = 990
# With a wake that comes only where nobody sleeps, one run in three to eight never ended.
RUNS = 60
# A run takes some hundredths of a second, and one that hangs takes all of this.
SECONDS = 20


def script():
    """A script with an actor for each worker, whose field counts the turns of its task."""
    body = f"while count < {TURNS - 1} {{ count = count + 1; yield; }} return count;"
    lines = [f"actor A{place} {{ var count = 0; func run() {{ {body} }} }} root r{place} = A{place}.run();" for place in range(WORKERS)]
    return "\n".join(lines) + "\n"


def wanted():
    """What is printed of each run."""
    tasks = [f"t{place} root r{place} value {TURNS - 1}" for place in range(WORKERS)]
    fields = [f"A{place}.count {TURNS - 1}" for place in range(WORKERS)]
    return "\n".join(["tasks", *tasks, "fields", *fields]) + "\n"


def fault(words, text):
    """What is otherwise than it has to be where these words are run on a text."""
    try:
        ran = subprocess.run(words, input=text.encode(), capture_output=True, check=False, timeout=SECONDS)
    except subprocess.TimeoutExpired:
        return f"did not end within {SECONDS} seconds"
    if (ran.returncode, ran.stderr) != (0, b""):
        return f"ended with status {ran.returncode}, and said {ran.stderr.decode(errors='replace')!r}"
    return None if ran.stdout == wanted().encode() else f"printed {ran.stdout.decode(errors='replace')!r}"


def main():
    if len(sys.argv) not in (2, 3):
        sys.exit(__doc__)
    runs = int(sys.argv[2]) if len(sys.argv) == 3 else RUNS
    # The programs that are run here keep to this core, too.
    os.sched_setaffinity(0, {min(os.sched_getaffinity(0))})
    words = [os.path.abspath(sys.argv[1]), "--workers", str(WORKERS), "--quiet"]
    for number in range(1, runs + 1):
        found = fault(words, script())
        if found is not None:
            # One that hangs is enough, and each takes its time.
            sys.exit(f"run {number} of {runs} on one core {found}")
    print(f"{runs} runs on one core ended")


if __name__ == "__main__":
    main()
