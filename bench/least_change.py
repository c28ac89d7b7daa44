#!/usr/bin/env python3
"""usage: bench/least_change.py PROGRAM..

Mends the plan of a network where transits overflow to each other, with each program, and prints a table in Markdown of what it changed: lists, entries of lists that were
lost, first choices that are other ones; and of the lines CUT and STRAY that `survive` then has for the mended plan."""
import os
import subprocess
import sys
import tempfile

sys.dont_write_bytecode = True
sys.path.insert(0, os.path.dirname(os.path.abspath(__file__)))
from inputs import Overflow

HEADS = ["Program", "Lists changed", "Entries lost", "First choices changed", "CUT", "STRAY"]


def lists_of(lines):
    """The list of each exchange for each code, by the lines of a plan."""
    words = [line.split() for line in lines]
    return {(it[1], it[2]): it[3:] for it in words if it[:1] == ["ROUTE"]}


def changes(before, after):
    """How many lists are other ones, how many entries were lost, and how many first choices are other ones."""
    pairs = [(before.get(it, []), after.get(it, [])) for it in {**before, **after}]
    return [
        sum(old != new for old, new in pairs),
        sum(len(set(old) - set(new)) for old, new in pairs),
        sum(old[:1] != new[:1] for old, new in pairs),
    ]


def measured(program, folder, lines):
    plan, mended = os.path.join(folder, "overflow.plan"), os.path.join(folder, "mended.plan")
    with open(plan, "w", encoding="ascii") as it:
        it.writelines(line + "\n" for line in lines)
    subprocess.run([program, "mend", plan, "--limit", "2", "--spare", "1", "--plan", mended], stdout=subprocess.DEVNULL, check=True)
    with open(mended, encoding="ascii") as it:
        found = changes(lists_of(lines), lists_of(it))
    told = subprocess.run([program, "survive", mended], stdout=subprocess.PIPE, encoding="ascii", check=False).stdout.splitlines()
    firsts = [line.split()[0] for line in told]
    return found + [firsts.count("CUT"), firsts.count("STRAY")]


def main(programs):
    if not programs:
        print(__doc__)
        return 64
    lines = list(Overflow().plan())
    print("| " + " | ".join(HEADS) + " |\n" + "|---" * len(HEADS) + "|")
    with tempfile.TemporaryDirectory() as folder:
        for program in programs:
            print("| " + " | ".join(str(it) for it in [program, *measured(program, folder, lines)]) + " |")
    return 0


if __name__ == "__main__":
    sys.exit(main(sys.argv[1:]))
