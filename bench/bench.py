#!/usr/bin/env python3
"""usage: bench/bench.py [--seed N] [--events N] [--times N] [--folder FOLDER] [--only INPUT[,INPUT..]] [PROGRAM [PROGRAM]]

Measures a built program (crates/telexplan/out/telexplan where none is named), or two of them in turn, on inputs that it makes from a seed, and prints a table in
Markdown: seconds of processor and on the clock, the least of several rounds (--times, 5 of them); events and megabytes a second of processor; the most memory that was
in use; how often the second program does the work of the first one; and `wc -l` on the same bytes, as the limit of reading. A PROGRAM may be NAME=PATH.

A first round, which is not timed, sees that the exit status is the one that is wanted and that two programs print the same bytes. The status is 1 if they do not.

--events is about how many events a script has (3,000,000). --folder keeps the inputs, 370 MB with all of them, for the next time. --only measures these inputs alone:
local-pipe, local-run, away-6, away-9, mid, mid-1000, mid-100000, codes, check, audit, limits, limits-1000, limits-100000, bad, mend, overflow, change, order, survive and page.

Seconds of processor bear other work on the machine better than seconds on the clock, and they too are too high by up to a half beside busy neighbours. `taskset -c N`
before the command keeps all of it to one processor."""
import hashlib
import os
import select
import subprocess
import sys
import tempfile
import time

sys.dont_write_bytecode = True
sys.path.insert(0, os.path.dirname(os.path.abspath(__file__)))
from inputs import Inputs

TOP = os.path.dirname(os.path.dirname(os.path.abspath(__file__)))
MID = "60 exchanges, 1,600 groups"
LIMITS = "256 exchanges, 4,096 groups, 255,000 lists"
SAFE = "--limit 31 --spare 3"


class Case:
    """What is measured: the words of the program, where a word with a dot is a file, or the files that it reads from a pipe. What comes behind a plan that another case
    reads alone is told without the seconds of that case."""

    def __init__(self, name, told, words="", pipe="", status=0, behind=None):
        self.name, self.told, self.words, self.pipe = name, told, words.split(), pipe.split()
        self.status, self.behind = status, behind
        self.files = [it for it in self.words + self.pipe if "." in it]
        self.script = next((it for it in self.files if it.endswith(".script") and it != "none.script"), None)

    def size(self, inputs):
        """The events and the bytes that are told of it."""
        bytes_ = sum(os.path.getsize(inputs.path(it)) for it in ([self.script] if self.behind else self.files))
        return inputs.events_of(self.script) if self.script else 0, bytes_


CASES = [
    Case("local-pipe", "calls at one exchange, from a pipe", pipe="local.plan local.script"),
    Case("local-run", "calls at one exchange, `run`", "run local.plan local.script"),
    Case("away-6", "20,000 lines of six figures, away one after another", "run away-6.plan away-6.script"),
    Case("away-9", "of nine figures", "run away-9.plan away-9.script"),
    Case("mid", f"{MID}: the plan, from a pipe", pipe="mid.plan none.script"),
    Case("mid-1000", "with 1,000 open calls", pipe="mid.plan mid-1000.script", behind="mid"),
    Case("mid-100000", "with 100,000 open calls", pipe="mid.plan mid-100000.script", behind="mid"),
    Case("codes", f"{LIMITS}: `codes`", "codes limits.plan"),
    Case("check", "`check`", f"check limits.plan limits.cert {SAFE}"),
    Case("audit", "`audit`, YES", f"audit limits.plan {SAFE}"),
    Case("limits", "`run` of no events", "run limits.plan none.script"),
    Case("limits-1000", "with 1,000 open calls", "run limits.plan limits-1000.script", behind="limits"),
    Case("limits-100000", "with 100,000 open calls", "run limits.plan limits-100000.script", behind="limits"),
    Case("bad", "a bad plan of that size: `audit`, NO", "audit bad.plan --limit 20 --spare 3", status=1),
    Case("mend", "`mend` of it, YES", f"mend bad.plan {SAFE}"),
    Case("overflow", "34 exchanges, where transits overflow to each other: `mend`, YES", "mend overflow.plan --limit 2 --spare 1"),
    Case("change", "`change` of the good plan into one with 1,000 lists turned, YES", f"change limits.plan turned.plan {SAFE}"),
    Case("order", "`order` of these two plans, YES", f"order limits.plan turned.plan {SAFE}"),
    Case("survive", "`survive` of the good plan: 4,352 outages, YES", "survive limits.plan"),
    Case("page", "`page` of the good plan, YES", f"page limits.plan {SAFE}"),
]


class Program:
    def __init__(self, word):
        self.name, _, path = word.rpartition("=")
        self.name = self.name or os.path.basename(path)
        self.command = [os.path.abspath(path)]


class Best:
    """The least seconds of some rounds, and the most memory."""

    def __init__(self):
        self.processor = self.clock = float("inf")
        self.memory = 0

    def add(self, processor, clock):
        self.processor, self.clock = min(self.processor, processor), min(self.clock, clock)


def started(command, case, inputs, out):
    """Starts a program on a case, and what fills its pipe."""
    words = [inputs.path(it) if "." in it else it for it in case.words]
    feeder = subprocess.Popen(["cat"] + [inputs.path(it) for it in case.pipe], stdout=subprocess.PIPE) if case.pipe else None
    program = subprocess.Popen(command + words, stdin=feeder.stdout if feeder else subprocess.DEVNULL, stdout=out, stderr=subprocess.DEVNULL)
    if feeder:
        feeder.stdout.close()
    return program, feeder


def ended(program, feeder):
    """The exit status, and the seconds of processor."""
    _, status, used = os.wait4(program.pid, 0)
    program.returncode = os.waitstatus_to_exitcode(status)
    if feeder:
        feeder.wait()
    return program.returncode, used.ru_utime + used.ru_stime


def timed(command, case, inputs):
    start = time.perf_counter()
    _, processor = ended(*started(command, case, inputs, subprocess.DEVNULL))
    return processor, time.perf_counter() - start


def memory_of(pid):
    """The most memory that a process has had in use, in kB, or 0 where it is gone. What the system tells of an ended process counts in that of its parent."""
    try:
        with open(f"/proc/{pid}/status", encoding="ascii") as it:
            return next((int(line.split()[1]) for line in it if line.startswith("VmHWM")), 0)
    except OSError:
        return 0


def watched(command, case, inputs):
    """The exit status, what is printed as a hash, and the most memory, looked at each millisecond."""
    program, feeder = started(command, case, inputs, subprocess.PIPE)
    printed, memory, piece = hashlib.sha256(), 0, b" "
    while piece:
        if select.select([program.stdout], [], [], 0.001)[0]:
            piece = os.read(program.stdout.fileno(), 1 << 16)
            printed.update(piece)
        memory = max(memory, memory_of(program.pid))
    program.stdout.close()
    status, _ = ended(program, feeder)
    return status, printed.digest(), memory


def first_round(case, programs, inputs, tell):
    """Sees that all is as it should be, and takes the memory."""
    best, outputs = {it: Best() for it in programs + ["wc"]}, set()
    for program in programs:
        status, printed, best[program].memory = watched(program.command, case, inputs)
        outputs.add(printed)
        if status != case.status:
            tell(f"{case.name}: the status of {program.name} is {status} and not {case.status}")
    if len(outputs) > 1:
        tell(f"{case.name}: the programs do not print the same bytes")
    return best


def count_lines(case):
    """The case of `wc -l` on the same bytes."""
    return Case(case.name, "", " ".join(it for it in case.words if "." in it), " ".join(case.pipe))


def measure(cases, programs, inputs, times, tell):
    """The best of each program, and of `wc -l`, on each case."""
    found = {}
    for case in cases:
        best = found[case.name] = first_round(case, programs, inputs, tell)
        for _ in range(times):
            for program in programs:
                best[program].add(*timed(program.command, case, inputs))
            best["wc"].add(*timed(["wc", "-l"], count_lines(case), inputs))
    return found


def rows(cases, programs, found, inputs):
    """The rows of the table, as cells."""
    for case in cases:
        events, bytes_ = case.size(inputs)
        less = found.get(case.behind)
        seconds = {it: found[case.name][it].processor - (less[it].processor if less else 0) for it in programs}
        whole = sum(os.path.getsize(inputs.path(it)) for it in case.files)
        for program in programs:
            best, second = found[case.name][program], seconds[program]
            yield [
                case.told if program is programs[0] else "",
                program.name,
                f"{second:.3f}",
                f"{best.clock - (less[program].clock if less else 0):.3f}",
                f"{events / second / 1e6:.2f} million" if events else "",
                f"{bytes_ / second / 1e6:.0f}",
                f"{best.memory / 1000:.1f} MB",
                f"{seconds[programs[0]] / second:.2f}" if program is not programs[0] else "",
                f"{whole / found[case.name]['wc'].processor / 1e6:.0f}" if program is programs[0] else "",
            ]


def table(cases, programs, found, inputs):
    heads = ["Input", "Program", "Processor, s", "Clock, s", "Events a second", "MB a second", "Memory", "Ratio", "`wc -l`, MB a second"]
    cells = [heads, ["---"] * len(heads)] + list(rows(cases, programs, found, inputs))
    if len(programs) == 1:
        cells = [row[:1] + row[2:7] + row[8:] for row in cells]
    return "\n".join("| " + " | ".join(row) + " |" for row in cells)


def chosen(names):
    """These cases, and those that they come behind."""
    known = {it.name: it for it in CASES}
    names = names | {known[it].behind for it in names if it in known}
    return [it for it in CASES if it.name in names], [it for it in names if it and it not in known]


def compare(programs, cases, folder, seed, events, times):
    inputs, told = Inputs(folder, seed, events), []
    for file in sorted({it for case in cases for it in case.files}):
        inputs.path(file)
    found = measure(cases, programs, inputs, times, told.append)
    print(table(cases, programs, found, inputs))
    print(f"\nThe best of {times} rounds, seed {seed}, on {os.cpu_count()} processors with a load of {os.getloadavg()[0]:.1f}.")
    print("".join(f"{it}\n" for it in told), end="")
    return 1 if told else 0


def main(words):
    options = {"--seed": "1", "--events": "3000000", "--times": "5", "--folder": "", "--only": ",".join(it.name for it in CASES)}
    while words[:1] and words[0] in options and len(words) > 1:
        options[words[0]] = words[1]
        words = words[2:]
    cases, unknown = chosen(set(options["--only"].split(",")))
    numbers = [options[it] for it in ("--seed", "--events", "--times")]
    if len(words) > 2 or unknown or any(it.startswith("-") for it in words) or not all(it.isdigit() for it in numbers):
        print(__doc__)
        return 64
    programs = [Program(it) for it in words or [os.path.join(TOP, "crates/telexplan/out/telexplan")]]
    absent = [it.command[0] for it in programs if not os.access(it.command[0], os.X_OK)]
    if absent:
        print(f"no program at {', '.join(absent)}")
        return 64
    numbers = [int(it) for it in numbers]
    if options["--folder"]:
        os.makedirs(options["--folder"], exist_ok=True)
        return compare(programs, cases, options["--folder"], *numbers)
    with tempfile.TemporaryDirectory() as folder:
        return compare(programs, cases, folder, *numbers)


if __name__ == "__main__":
    sys.exit(main(sys.argv[1:]))
