#!/usr/bin/env python3
"""usage: tools/gate_cost.py [--anew] [--only CRATE[,CRATE..]]

Runs what the gate proves, `rt ci` and then `tools/mutants`, with the same verdict and exit status, and then prints what each part of it cost, as a table in Markdown: seconds
of processor (user and system) for the proof of each crate, for its proof with tests, for its mutants, and for its programs as two compilers build and run them. --anew takes
nothing that was kept on this machine: a clean checkout, as in CI, has nothing of its own.

Behind the table it names each crate whose parts took a third more than in the table of docs/MEASURED.md, and at least half a minute more.

--only tells the parts of these crates alone: their proof, tests and mutants. The crates below them are proved too.
RT_JOBS=N holds the run to N lanes. Figures of a busy machine are too high by up to a half: run it alone."""
import os
import re
import sys
import threading
import time
from importlib.machinery import SourceFileLoader
from importlib.util import module_from_spec, spec_from_loader

sys.dont_write_bytecode = True
from toolchain import TOP, count_children, load_rt, metered


def load_mutants():
    loader = SourceFileLoader("mutants", f"{TOP}/tools/mutants")
    made = module_from_spec(spec_from_loader("mutants", loader))
    loader.exec_module(made)
    return made


class Costs:
    """What each part of the gate cost, by crate and part."""

    def __init__(self):
        self.parts, self.guard = {}, threading.Lock()

    def measured(self, crate, part, call):
        given, seconds = metered(call)
        with self.guard:
            self.parts[crate, part] = self.parts.get((crate, part), 0) + seconds
        return given

    def hook(self, rt):
        lanes, run = rt.in_lanes, rt.run

        def in_lanes(tasks):
            def counted(key, call):
                crate, part = key[:2]
                return lambda given, jobs: self.measured(crate, part, lambda: call(given, jobs))

            return lanes({key: (waits, lines, needs, counted(key, call)) for key, (waits, lines, needs, call) in tasks.items()})

        rt.in_lanes, rt.run = in_lanes, lambda crate, *more: self.measured(crate.name, "runs", lambda: run(crate, *more))


PARTS = ("proof", "tests", "edits", "runs")


def table(costs, names):
    lines = ["| crate | proof | with tests | mutants | programs |", "|---|---|---|---|---|"]
    rows = [(name, [costs.parts.get((name, part), 0) for part in PARTS]) for name in names]
    for name, row in rows:
        lines.append(f"| {name} | {' | '.join(f'{it:.0f}' if it >= 0.5 else '' for it in row)} |")
    sums = [sum(row[at] for _, row in rows) for at in range(len(PARTS))]
    lines.append(f"| all, in seconds | {' | '.join(f'{it:.0f}' for it in sums)} |")
    return "\n".join([*lines, "", f"All of it: {sum(sums) / 60:.0f} processor minutes."])


def seconds_in(row):
    """The crate of a row of the table, and what its proof, tests and mutants took."""
    cells = [it.strip() for it in row.strip().strip("|").split("|")]
    return cells[0], sum(float(cells[at] or 0) for at in (1, 2, 3))


def grown(table_now):
    """A line for each crate that took a third more than in the table of docs/MEASURED.md."""
    rows_of = lambda text: dict(seconds_in(it) for it in text.splitlines() if re.match(r"\| (tx_\w+|telexplan) \|(?:[^|]*\|){4}$", it))
    with open("docs/MEASURED.md", encoding="utf-8") as it:
        before = rows_of(it.read().partition("\n## The gate\n")[2])
    now = rows_of(table_now)
    dearer = [it for it in now if it in before and now[it] > before[it] * 4 / 3 and now[it] > before[it] + 30]
    return [f"{it} grew by a third: {now[it]:.0f} s, {before[it]:.0f} s in docs/MEASURED.md" for it in dearer]


def main(words):
    only = None
    kept = [it for it in words if it == "--anew"]
    if "--only" in words:
        only = words[words.index("--only") + 1].split(",")
    elif words != kept:
        print(__doc__)
        return 64
    rt, costs = load_rt(), Costs()
    count_children()
    costs.hook(rt)
    if only:
        keep_only(rt, only)
    start = time.time()
    status = rt.main(["ci", *kept])
    if status == 0:
        mutants = load_mutants()
        status = 0 if all(mutants.run(rt, only or (), as_built=True).values()) else 1
    with open("crates.txt", encoding="utf-8") as it:
        names = [line.partition(":")[0].strip() for line in it if re.match(r"\s*\w", line)]
    made = table(costs, [it for it in names if not only or it in only])
    print("\n".join(["", made, *grown(made)]))
    print(f"On the clock: {(time.time() - start) / 60:.0f} minutes, on {rt.processors()} processors.")
    return status


def keep_only(rt, only):
    """Leaves out the tests and edits of other crates, and the proofs that nothing of these waits for."""
    lanes = rt.in_lanes

    def in_lanes(tasks):
        wanted, open_ = set(), [key for key in tasks if key[0] in only]
        while open_:
            key = open_.pop()
            if key not in wanted:
                wanted.add(key)
                open_ += tasks[key][0]
        given = lanes({key: it for key, it in tasks.items() if key in wanted})
        return {key: given.get(key, False) for key in tasks}

    rt.in_lanes = in_lanes


if __name__ == "__main__":
    sys.exit(main(sys.argv[1:]))
