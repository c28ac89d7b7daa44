#!/usr/bin/env python3
"""usage: bench/spread.py [--only MAP[,MAP..]] [PROGRAM]

Counts what a key of a map costs a built program (crates/telexplan/out/telexplan where none is named), in patterns of keys that a user may well write. A hash that brings
the keys of a pattern to few slots makes each of them dear, and no clause bounds that. A table in Markdown has a row for each pattern of a map: how many keys there are,
the instructions of a run with them less those of a run without them, for each key, and how many times as many that is as in the first pattern of the map. Instructions
are counted by valgrind, so they are the same in each run, also on a busy machine.

A row is marked where a key costs more than a quarter more than in the first pattern. The status is 1 if a row is.

--only counts the patterns of these maps alone: lists, groups, lines and calls."""
import itertools
import os
import re
import subprocess
import sys
import tempfile

sys.dont_write_bytecode = True
sys.path.insert(0, os.path.dirname(os.path.abspath(__file__)))
from inputs import script
from networks import SPARSE, Net, drawn, local, star, write

TOP = os.path.dirname(os.path.dirname(os.path.abspath(__file__)))
DEAR = 1.25


class Pattern:
    """Keys of a map: so many, with the texts of a run in which they are and of one in which they are not."""

    def __init__(self, told, keys, texts, bare):
        self.told, self.keys, self.texts, self.bare = told, keys, texts, bare


def of_lists(told, net):
    """The lists of a network."""
    bare = Net(net.exchanges, net.codes, net.groups, net.ranges)
    return Pattern(told, len(net.lists), {"a.plan": net.plan()}, {"a.plan": bare.plan()})


def list_patterns():
    yield of_lists("256 exchanges, 1,000 codes", star(256, 1000))
    yield from (of_lists(told, star(256, 1000).only(keeps())) for _, told, keeps in SPARSE)
    yield of_lists("64 exchanges, 1,000 codes", star(64, 1000))
    yield of_lists("256 exchanges, 256 codes", star(256, 256))
    yield from (of_lists(f"one of {share}, drawn", star(256, 1000).only(drawn(share, 2))) for share in (2, 20))


def of_groups(told, names):
    """Groups between two exchanges."""
    head = ["PLAN 1", "EXCHANGE A", "EXCHANGE B", "CODE 00 A", "LINES 00 0 9"]
    lines = [f"GROUP {it} A B BOTHWAY 1" for it in names]
    return Pattern(told, len(lines), {"a.plan": [*head, *lines, "END"]}, {"a.plan": [*head, "END"]})


def group_patterns():
    yield of_groups("a letter and seven figures, scattered", [f"G{it * 3571 % 10 ** 7:07}" for it in range(4096)])
    yield of_groups("a letter and seven figures, one after another", [f"G{it:07}" for it in range(4096)])
    yield of_groups("a letter and seven figures, one number of 100", [f"G{it * 100:07}" for it in range(4096)])
    yield of_groups("two letters and six figures, one number of 101", [f"GR{it * 101:06}" for it in range(4096)])
    yield of_groups("a letter and four figures", [f"G{it:04}" for it in range(4096)])
    yield of_groups("eight letters", ["".join(it) for it in itertools.islice(itertools.product("ABCDEFGH", repeat=8), 0, 4096 * 1001, 1001)])
    yield of_groups("two exchanges and a number", [f"{a}{b}{it:02}" for a in "ABCDEFGHJKLMNPQR" for b in "ABCDEFGHJKLMNPQR" for it in range(16)])


def of_lines(told, lines):
    """Subscribers who are away: the lines of each code, by its figures."""
    plan = ["PLAN 1", "EXCHANGE ALFA", *(f"CODE {it} ALFA" for it in lines), *(f"LINES {it} {min(all_)} {max(all_)}" for it, all_ in lines.items()), "END"]
    events = [f"AWAY {code} {it}" for code, all_ in lines.items() for it in all_]
    return Pattern(told, len(events), {"a.plan": plan, "a.script": script(events)}, {"a.plan": plan, "a.script": script([])})


def line_patterns():
    yield of_lines("one code, nine figures, one after another", {"41": [f"{it:09}" for it in range(100000)]})
    yield from (of_lines(f"one code, nine figures, one line of {step:,}", {"41": [f"{it * step:09}" for it in range(100000)]}) for step in (7, 10, 1000))
    yield of_lines("one code, eight figures, one line of 101", {"41": [f"{it * 101:08}" for it in range(20000)]})
    yield of_lines("one code, five figures, one after another", {"41": [f"{it:05}" for it in range(100000)]})
    yield of_lines("1,000 codes, five figures, 100 lines each", {f"{code:03}": [f"{it:05}" for it in range(100)] for code in range(1000)})
    yield of_lines("100 codes, five figures, one line of 10", {f"{code:02}": [f"{it:05}" for it in range(0, 10000, 10)] for code in range(100)})


def of_calls(told, step, count):
    """Calls of which each so many-th stays open, and a line for each of these that names it and is refused."""
    keyed = ([f"KEY 41 {it:09} 41{it + 500000000:09}", *([] if it % step == 0 else [f"CLEAR {it + 1} CALLER"])] for it in range(step * count))
    events = list(itertools.chain.from_iterable(keyed))
    asked = [f"CONFIRM {it + 1}" for it in range(0, step * count, step)]
    return Pattern(told, count, local(events + asked), local(events))


def call_patterns():
    yield of_calls("all calls", 1, 50000)
    yield from (of_calls(f"one call of {step}", step, 250000 // step) for step in (2, 5, 10, 55, 233))


MAPS = [
    ("lists", "codes a.plan", list_patterns),
    ("groups", "codes a.plan", group_patterns),
    ("lines", "run a.plan a.script", line_patterns),
    ("calls", "run a.plan a.script", call_patterns),
]


def counted(program, words, texts):
    """The instructions of a run."""
    with tempfile.TemporaryDirectory() as folder:
        write(folder, texts)
        log = os.path.join(folder, "log")
        valgrind = ["valgrind", "--tool=cachegrind", "--cache-sim=no", "--cachegrind-out-file=/dev/null", f"--log-file={log}"]
        done = subprocess.run([*valgrind, program, *words.split()], cwd=folder, stdin=subprocess.DEVNULL, stdout=subprocess.DEVNULL, stderr=subprocess.DEVNULL, check=False)
        with open(log, encoding="ascii") as it:
            found = re.search(r"I\s+refs:\s+([\d,]+)", it.read())
    if done.returncode or not found:
        raise RuntimeError(f"the status of {words} is {done.returncode}")
    return int(found[1].replace(",", ""))


def rows(program, name, words, patterns):
    """The rows of a map. The last cell marks one that is dear."""
    first = None
    for it in patterns:
        cost = (counted(program, words, it.texts) - counted(program, words, it.bare)) / it.keys
        first = first or cost
        yield [name, it.told, f"{it.keys:,}", f"{cost:,.0f}", f"{cost / first:.2f}", "**!**" if cost > DEAR * first else ""]


def main(words):
    only = ",".join(name for name, _, _ in MAPS)
    if words[:1] == ["--only"] and len(words) > 1:
        only, words = words[1], words[2:]
    chosen = [it for it in MAPS if it[0] in only.split(",")]
    if len(words) > 1 or not chosen or any(it.startswith("-") for it in words):
        print(__doc__)
        return 64
    program = os.path.abspath(words[0] if words else os.path.join(TOP, "crates/telexplan/out/telexplan"))
    heads = ["Map", "Keys", "How many", "Instructions a key", "Of the first", ""]
    print("\n".join(f"| {' | '.join(it)} |" for it in (heads, ["---"] * len(heads))), flush=True)
    marked = False
    for name, command, patterns in chosen:
        for row in rows(program, name, command, patterns()):
            print(f"| {' | '.join(row)} |", flush=True)
            marked = marked or bool(row[-1])
    return 1 if marked else 0


if __name__ == "__main__":
    sys.exit(main(sys.argv[1:]))
