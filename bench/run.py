"""Measures turns, steps, reading, memory and the parts of the runtime, and prints tables. It asserts nothing.

Each case is run some times; the best time is told, and the greatest peak. Arguments: how many times (3)."""

import os
import re
import shutil
import subprocess
import sys
import tempfile
import time

# No folder of compiled modules beside the sources.
sys.dont_write_bytecode = True
import scripts

TOP = os.path.dirname(os.path.dirname(os.path.abspath(__file__)))
PROGRAM = "crates/swiftrun/out/swiftrun"
# Which test program has the cases of each part.
TESTERS = {"queue": "test_executors", "locals": "test_parts", "groups": "test_parts", "waits": "test_parts"}
# What the longest script may take to be read, on a quiet core of 3 GHz, whatever it says.
READ_SECONDS, READ_KILOBYTES = 0.006, 8192

# A process that Python starts counts Python's own memory as its peak; one that this starts doesn't.
TIME = "/usr/bin/time"


class Outcome:
    """What a process wrote, how long it took, its processor time, and its peak memory in KB."""

    def __init__(self, words, script=None, statuses=(0,)):
        if os.path.exists(TIME):
            words = [TIME, "-f", "peak %M KB", *words]
        with open(script or os.devnull, "rb") as given, tempfile.TemporaryFile() as wrote:
            start = time.perf_counter()
            process = subprocess.Popen(words, cwd=TOP, stdin=given, stdout=wrote, stderr=subprocess.PIPE)
            complained = process.stderr.read()
            _, ended, used = os.wait4(process.pid, 0)
            self.seconds = time.perf_counter() - start
            self.processor = used.ru_utime + used.ru_stime
            wrote.seek(0)
            self.wrote = wrote.read()
        process.returncode = os.waitstatus_to_exitcode(ended)
        if process.returncode not in statuses:
            sys.exit(f"{words} ended with {process.returncode}: {complained.decode()}")
        peak = re.search(r"(?m)^peak (\d+) KB$", complained.decode())
        self.kilobytes = int(peak[1]) if peak else used.ru_maxrss


def best(times, *how, **more):
    return [Outcome(*how, **more) for _ in range(times)]


def least(outcomes, idle):
    """The seconds of the fastest, above those of an idle one."""
    return max(min(outcome.seconds for outcome in outcomes) - idle.seconds, 1e-6)


def peak(outcomes):
    return max(outcome.kilobytes for outcome in outcomes)


def idle(times):
    """What the program takes where there is nothing to read and nothing to run."""
    return min(best(3 * times, [PROGRAM, "--quiet"]), key=lambda outcome: outcome.seconds)


# The case of a peer that has the same turns. Whether a task was there from the start makes no difference to it, nor do other actors.
PEERS = {"spin": "spin", "spin_spawned": "spin", "shared64": "spin", "calls": "calls", "calls_spawned": "calls", "fan": "fan"}
# Where Swift's compiler is: on the PATH, or in the root folder of a system of its own.
SWIFT_ROOT = os.environ.get("SWIFT_ROOT", "")


def microseconds(words):
    return int(re.search(rb"(?m)^run (\d+) us$", Outcome(words).wrote)[1]) / 1e6


def erlang(case, schedulers=1):
    """What runs the case's turns as Erlang processes and says how many seconds they took, or None where there is no such case or no
    Erlang."""
    if case not in PEERS or not shutil.which("erl") or not shutil.which("erlc"):
        return None
    subprocess.run(["erlc", "-o", scripts.FOLDER, "bench/processes.erl"], cwd=TOP, check=True)
    words = ["erl", "-noshell", "+S", str(schedulers), "-pa", scripts.FOLDER, "-run", "processes", "main", PEERS[case]]
    return lambda: microseconds(words)


def swift_program():
    """The words that run bench/turns.swift, built once; none where there is no Swift."""
    if not SWIFT_ROOT and not shutil.which("swiftc"):
        return None
    inside = "/tmp/nuchapay_turns" if SWIFT_ROOT else os.path.join(scripts.FOLDER, "turns")
    enter = ["chroot", SWIFT_ROOT, "env", "LD_LIBRARY_PATH=/usr/libexec/swift/lib/swift/linux"] if SWIFT_ROOT else []
    if not os.path.exists(SWIFT_ROOT + inside):
        shutil.copy(os.path.join(TOP, "bench/turns.swift"), SWIFT_ROOT + inside + ".swift")
        subprocess.run([*enter, "swiftc", "-O", "-parse-as-library", "-o", inside, inside + ".swift"], check=True)
    return [*enter, inside]


def swift(case, program):
    """The same as Swift actors, with Swift's own pool of threads."""
    return (lambda: microseconds([*program, PEERS[case]])) if program and case in PEERS else None


def table(heads, rows):
    rows = [heads] + [[str(cell) for cell in row] for row in rows]
    widths = [max(len(row[k]) for row in rows) for k in range(len(heads))]
    for row in rows:
        print("  ".join(cell.rjust(w) if k else cell.ljust(w) for k, (cell, w) in enumerate(zip(row, widths))).rstrip())
    print()


def rate(count, seconds):
    return f"{count / seconds:,.0f}" if count is not None else "-"


def whole_runs(times, program):
    rows = []
    nothing = idle(times)
    for case, (_, steps) in scripts.SCRIPTS.items():
        script = scripts.path(case)
        # One after the other, so that a noisy moment meets each of them.
        others = [erlang(case), swift(case, program)]
        runs, wholes, peers = [], [], [[], []]
        for _ in range(times):
            runs.append(Outcome([PROGRAM, "--quiet"], script))
            wholes.append(Outcome([PROGRAM], script))
            for start_peer, seconds in zip(others, peers):
                if start_peer:
                    seconds.append(start_peer())
        report = wholes[0].wrote
        turns = sum(int(n) for n in re.findall(rb"(?m)^executor .* turns (\d+)$", report))
        run, whole = least(runs, nothing), least(wholes, nothing)
        rows.append([
            case,
            f"{turns:,}",
            f"{run:.4f}",
            rate(turns, run),
            rate(steps, run),
            f"{whole:.4f}",
            f"{len(report):,}",
            f"{peak(runs):,}",
            # Of few turns the peak says nothing.
            f"{(peak(runs) - nothing.kilobytes) * 1024 / turns:,.0f}" if turns >= 1000 else "-",
            f"{peak(wholes):,}",
            *(f"{min(seconds):.4f}" if seconds else "-" for seconds in peers),
            *(f"{run / max(min(seconds), 1e-6):.2f}" if seconds else "-" for seconds in peers),
        ])
    heads = ["case", "turns", "quiet s", "turns/s", "steps/s", "with text s", "text bytes", "quiet KB", "B/turn", "KB"]
    table([*heads, "Erlang s", "Swift s", "to Erlang", "to Swift"], rows)
    if not shutil.which("erl") or not shutil.which("erlc"):
        print("No Erlang on this machine: no ratios to it.\n")
    if not program:
        print("No Swift on this machine: no ratios to it.\n")


def together(copies, script):
    """So many processes at once, each a run on one worker. The seconds until all have ended."""
    processes = []
    start = time.perf_counter()
    for _ in range(copies):
        with open(script, "rb") as given:
            processes.append(subprocess.Popen([PROGRAM, "--quiet"], cwd=TOP, stdin=given, stdout=subprocess.DEVNULL))
    if any([process.wait() for process in processes]):
        sys.exit(f"a run of {script} failed")
    return time.perf_counter() - start


def crews(times, program):
    """Each case on one, two, four and eight workers, with the processor time of two and of eight; what the machine gives four processes
    that share nothing; and the same turns as Erlang processes with four schedulers, and as Swift actors."""
    rows = []
    nothing = idle(times)
    for case in scripts.CREWS:
        script = scripts.path(case)
        others = [erlang(case, 4), swift(case, program)]
        outcomes, apart, peers = {workers: [] for workers in (1, 2, 4, 8)}, [], [[], []]
        for _ in range(times):
            for workers, found in outcomes.items():
                found.append(Outcome([PROGRAM, "--quiet", "--workers", str(workers)], script))
            apart.append(together(4, script))
            for start_peer, spent in zip(others, peers):
                if start_peer:
                    spent.append(start_peer())
        seconds = {workers: least(found, nothing) for workers, found in outcomes.items()}
        processor = {workers: min(outcome.processor for outcome in found) for workers, found in outcomes.items()}
        ratios = [seconds[1] / seconds[w] for w in (2, 4, 8)] + [4 * seconds[1] / min(apart)]
        row = [case, *(f"{seconds[w]:.4f}" for w in seconds), *(f"{ratio:.2f}" for ratio in ratios)]
        row += [f"{processor[w]:.3f}" for w in (1, 2, 8)]
        rows.append(row + [f"{min(spent):.4f}" if spent else "-" for spent in peers])
    heads = ["case", "1 worker s", "2", "4", "8", "times as fast with 2", "with 4", "with 8", "4 processes apart"]
    table([*heads, "processor s of 1", "of 2", "of 8", "Erlang s, 4 schedulers", "Swift s"], rows)


def growth(times):
    """A run with few jobs and with many, and with ten times the turns."""
    rows = []
    nothing = idle(times)
    for case, (_, yields) in scripts.GROWTH.items():
        outcomes = best(times, [PROGRAM, "--quiet"], scripts.path(case))
        run = least(outcomes, nothing)
        rows.append([case, f"{yields:,}", f"{run:.4f}", f"{run / yields * 1e6:.2f}"])
    table(["case", "yields", "quiet s", "us/yield"], rows)


def split():
    """Where the instructions of a turn go: what each call takes with all that it calls."""
    if not shutil.which("valgrind"):
        print("No valgrind on this machine: no split of a turn.\n")
        return
    script = scripts.path("ready")
    report = Outcome([PROGRAM], script).wrote
    turns = sum(int(n) for n in re.findall(rb"(?m)^executor .* turns (\d+)$", report))
    kept = os.path.join(scripts.FOLDER, "callgrind.out")
    words = ["valgrind", "--tool=callgrind", f"--callgrind-out-file={kept}", PROGRAM, "--quiet"]
    with open(script, "rb") as given:
        subprocess.run(words, cwd=TOP, stdin=given, check=True, capture_output=True)
    words = ["callgrind_annotate", "--inclusive=yes", "--threshold=100", kept]
    told = subprocess.run(words, check=True, capture_output=True, text=True).stdout
    found = [(int(n.replace(",", "")), name) for n, name in re.findall(r"(?m)^ *([\d,]+) \([ \d.]+%\)  \S*?:(\w+::\S+)", told)]
    whole = max(n for n, _ in found)
    rows = []
    for n, name in found:
        # What calls the rest has nearly all of it.
        if whole / 100 <= n < whole * 0.95:
            rows.append([name.split("::<")[0], f"{n / turns:,.0f}", f"{100 * n / whole:.0f}"])
    table([f"call, with what it calls, of {whole / turns:,.0f} in all", "instructions a turn", "%"], rows)


def reading(times):
    rows = []
    nothing = idle(times)
    # Status 1 stands for a task that ends with a fault, and 3 for a script that is refused.
    cases = [("read " + case, (0, 1)) for case in scripts.READ] + [("refuse " + case, (3,)) for case in scripts.REFUSED]
    for case, statuses in cases:
        script = scripts.path(case)
        outcomes = best(2 * times + 1, [PROGRAM, "--quiet"], script, statuses=statuses)
        seconds, size, kilobytes = least(outcomes, nothing), os.path.getsize(script), peak(outcomes)
        rows.append([
            case,
            f"{size:,}",
            f"{seconds:.4f}",
            f"{seconds / READ_SECONDS:.2f}",
            rate(size, seconds),
            f"{kilobytes:,}",
            f"{kilobytes / READ_KILOBYTES:.2f}",
        ])
    table(["case", "bytes", "seconds", f"of {READ_SECONDS}", "bytes/s", "KB", f"of {READ_KILOBYTES:,}"], rows)


def tester(part):
    return f"crates/{TESTERS[part]}/out/{TESTERS[part]}"


def parts(times):
    """Calls of test programs on values with few entries and with many."""
    rows = []
    for part in scripts.PARTS:
        seconds, program = [], tester(part)
        for entries in (scripts.FEW, scripts.MANY):
            outcomes = best(times, [program], scripts.path(f"{part} {entries}"))
            seconds.append(min(outcome.seconds for outcome in outcomes) / scripts.CALLS)
        rows.append([part, *(f"{s * 1e6:.2f}" for s in seconds), f"{seconds[1] / seconds[0]:.2f}"])
    table(["part", f"us/call with {scripts.FEW}", f"with {scripts.MANY}", f"time, {scripts.MANY} to {scripts.FEW}"], rows)


def main():
    times = int(sys.argv[1]) if len(sys.argv) > 1 else 3
    subprocess.run(["make", "--no-print-directory", PROGRAM, *sorted(set(map(tester, TESTERS)))], cwd=TOP, check=True, stdin=subprocess.DEVNULL, stdout=sys.stderr)
    scripts.write()
    program = swift_program()
    print(f"Best of {times}, of reading the best of {2 * times + 1}. Seconds are those of a whole process of `swiftrun`, above those of one that has nothing")
    print("to read and to run: it reads, runs and writes. `quiet s` is with `--quiet`, which leaves the journals' text out. `B/turn` is the")
    print("peak of that above that of nothing. `Erlang s` is one scheduler, and `Swift s` Swift's own runtime with a thread for each core; neither")
    print("keeps a journal or undoes a turn. `processor s` are of all threads, of a whole process. `4 processes apart` is how many")
    print("times as much four runs of one worker do at once as one does alone: what the machine gives to threads that share nothing. A script that is")
    print("read has nothing to run, or next to nothing; its KB are those of its executors too. Calls of parts are lines of text, whose reading")
    print("and answer are in their time.\n")
    whole_runs(times, program)
    growth(times)
    crews(times, program)
    split()
    reading(times)
    parts(times)


if __name__ == "__main__":
    main()
