#!/usr/bin/env python3
"""usage: bench/growth.py [--times N] [--seconds N] [--only FAMILY[,FAMILY..]] [PROGRAM]

Measures how the time of each command of a built program (crates/telexplan/out/telexplan where none is named) grows. A family of inputs doubles one size that a user
can make large, up to its limit where it has one. A table in Markdown has a row for each command over a family: the seconds of processor at each size, the least of
several rounds (--times, 3 of them); the exponent of each doubling, which is 1 where the time doubles too and 2 where it is four times as long; the exponents of the
input and of the output over the last doubling, with the bytes of the output at the greatest size; and the most memory that was in use at each size. Below a hundredth
of a second no exponent is told.

A row is marked where a run took over a second and the exponent of its last doubling is above those of the input and of the output by more than a half. It is marked too
where a run held more than a hundred megabytes and ten times its input: a command may keep what it reads, but not all that it prints. The status is 1 if a row is marked.
A run of more than --seconds (20) is given up, and marked too.

In the last seven families a plan of 256 exchanges has some of its lists alone, by a pattern. What a list then costs in instructions is told by spread.py.

--only measures these families alone: events, calls, away, full, hops, text, star, chain, thin, leaves, codes, groups, choices, ranges, bars, unlisted, unserved, loops,
faults, risks, stages, turned, second, third, fifth, seventh, fifths, regions and drawn."""
import itertools
import math
import os
import resource
import select
import subprocess
import sys
import tempfile

sys.dont_write_bytecode = True
sys.path.insert(0, os.path.dirname(os.path.abspath(__file__)))
from bench import memory_of
from inputs import local_events, local_plan, script
from networks import SPARSE, Net, chain, local, ring, star, star_cert, write

TOP = os.path.dirname(os.path.dirname(os.path.abspath(__file__)))
TOLD = 0.01
LONG = 1.0
ABOVE = 0.5
LARGE = 100_000_000
TIMES = 10


def of_star(net):
    """The texts of a star."""
    return {"a.plan": net.plan(), "b.plan": net.turned().plan(), "a.cert": star_cert(net), "a.script": script([])}


def of_rings(exchanges, codes):
    """A ring, and the one in which all calls go the other way round."""
    return {"a.plan": ring(exchanges, codes, 0).plan(), "b.plan": ring(exchanges, codes, 1).plan()}


def of_loops(codes):
    """For each code the exchange in the middle lists a group to an exchange that lists one back."""
    net = star(8, codes)
    for c in range(codes):
        if net.home(c):
            net.lists[0, c] = [f"G{net.home(c)}I0", f"G{net.home(c) % 7 + 1}I0"]
    return {"a.plan": net.plan(), "b.plan": star(8, codes).plan()}


def of_lists(codes, wide):
    """A star that has no lists yet, with so many groups to each exchange."""
    net = star(64, codes, wide)
    net.lists = {}
    return {"a.plan": net.plan()}


def of_bars(codes):
    """A star in which every exchange is barred for every code, and the one without these bars."""
    net, free = star(256, codes), star(256, codes)
    net.bars = list(net.away())
    return {"a.plan": net.plan(), "b.plan": free.plan(), "a.cert": star_cert(net)}


def of_groups(groups):
    """So many groups between two exchanges, with the circuits that they have."""
    net = Net(2, 1000, {f"G{it}": (0, 1) for it in range(groups)})
    net.lists = {(x, c): [f"G{(c * 16 + it) % groups}" for it in range(16)] for x, c in net.away()}
    return {"a.plan": net.plan(), "b.plan": net.turned().plan(), "a.script": script([])}


def of_ranges(ranges):
    """One code has so many ranges, and calls come from the last of them."""
    lines = (f"LINES 41 {100000 + it * 10} {100009 + it * 10}" for it in range(ranges))
    calls = local_calls(100000 + ranges * 10 - 10, 100000, 20000)
    return {"a.plan": ["PLAN 1", "EXCHANGE ALFA", "CODE 41 ALFA", *lines, "END"], "a.script": script(calls)}


def local_calls(caller, called, calls):
    """The same call, keyed again and again."""
    for it in range(calls):
        yield f"KEY 41 {caller} 41{called}"
        yield f"ROUTE {it + 1}"
        yield f"CLEAR {it + 1} CALLER"


def open_calls(calls):
    """So many calls, all open at once."""
    yield from (f"KEY 41 {it * 2:09} 41{it * 2 + 1:09}" for it in range(calls))
    yield from (f"ROUTE {it + 1}" for it in range(calls))
    yield from (f"CLEAR {it + 1} CALLED" for it in range(calls))


def away_lines(lines):
    """So many subscribers, all away at once."""
    yield from (f"AWAY 41 {it:09}" for it in range(lines))
    yield from (f"BACK 41 {it:09}" for it in range(lines))


def of_full(groups):
    """So many groups are filled, 20,000 calls find no circuit, and then each group fails."""
    def events():
        calls = groups * 240
        for it in range(calls):
            yield from (f"KEY 000 {10000 + it} 00110000", f"ROUTE {it + 1}", f"CONFIRM {it + 1}")
        for it in range(calls, calls + 20000):
            yield from ("KEY 000 19999 00110000", f"ROUTE {it + 1}")
        yield from (f"FAIL G{it}" for it in range(groups))
    net = Net(2, 2, {f"G{it}": (0, 1) for it in range(groups)})
    net.lists = {it: list(net.groups) for it in net.away()}
    return {"a.plan": net.plan(), "a.script": script(events())}


def of_hops(exchanges):
    """240 calls, one after another, go from the first exchange of a chain to the last one."""
    def events():
        for it in range(1, 241):
            yield f"KEY 000 {10000 + it} {exchanges - 1:03}10000"
            yield from (f"ROUTE {it}", f"CONFIRM {it}") * (exchanges - 1)
            yield f"CLEAR {it} CALLER"
    return {"a.plan": chain(exchanges).plan(), "a.script": script(events())}


def of_text(lines):
    """Lines without words in a plan and in a script."""
    comments = ["# a line without words"] * lines
    plan = ["PLAN 1", *comments, "EXCHANGE ALFA", "CODE 41 ALFA", "END"]
    return {"a.plan": plan, "a.script": script(comments)}


def of_faults(lines):
    """Lines at fault: an exchange that is declared again, a name that is unknown, and a range that overlaps."""
    plan = [*local([])["a.plan"][:-1]]
    return {"a.plan": [*plan, *["EXCHANGE ALFA", "CODE 42 BETA", "LINES 41 000000000 000000009"] * (lines // 3), "END"]}


def of_risks(risks):
    """Risks of two groups each, over a star."""
    net = star(64, 64)
    names = list(net.groups)
    of = (f"RISK R{it} {names[it % len(names)]} {names[(it + 2) % len(names)]}" for it in range(risks))
    return {"a.plan": net.plan(), "a.risks": ["RISKS 1", *of, "END"]}


SAFE = "--limit 1 --spare 0"
CODES, LINT, GRADE, SURVIVE, RUN = "codes a.plan", "lint a.plan", "grade a.plan", "survive a.plan", "run a.plan a.script"
READ = [CODES, LINT]
TRACED = ["trace a.plan X1 000", "fill a.plan X1 000"]
JUDGED = [f"audit a.plan {SAFE}", GRADE, f"mend a.plan {SAFE}", SURVIVE]
CHANGED = [f"change a.plan b.plan {SAFE}", f"order a.plan b.plan {SAFE}"]
MADE = [f"audit a.plan {SAFE} --cert out.cert", f"mend a.plan {SAFE} --plan out.plan --cert out.cert", f"change a.plan b.plan {SAFE} --cert out.cert"]
MADE += [f"order a.plan b.plan {SAFE} --stage 1 --plan out.plan --cert out.cert"]
CHECKED = [f"check a.plan a.cert {SAFE}"]
SHOWN = [f"page a.plan {SAFE}"]
ALL = [*READ, *TRACED, *JUDGED, *SHOWN, *CHANGED, *CHECKED, RUN]
TURNED = ["order a.plan b.plan --limit 62 --spare 0", "page b.plan --limit 62 --spare 0 --from a.plan"]
RUNS = [RUN, "run a.plan a.script --echo --summary"]


class Family:
    def __init__(self, name, told, sizes, texts, commands):
        self.name, self.told, self.sizes, self.texts, self.commands = name, told, sizes, texts, commands


FAMILIES = [
    Family("events", "events of calls at one exchange", (100000, 200000, 400000, 800000), lambda n: {"a.plan": local_plan(), "a.script": script(local_events(1, n))}, RUNS),
    Family("calls", "open calls", (50000, 100000, 200000, 400000), lambda n: local(open_calls(n)), RUNS),
    Family("away", "subscribers who are away", (50000, 100000, 200000, 400000), lambda n: local(away_lines(n)), RUNS),
    Family("full", "full groups of a list, of which each then fails", (2, 4, 8, 16), of_full, RUNS),
    Family("hops", "exchanges that a call passes", (32, 64, 128, 256), of_hops, RUNS),
    Family("text", "lines without words", (250000, 500000, 1000000, 2000000), of_text, [*READ, RUN]),
    Family("star", "exchanges around one, each with a code", (32, 64, 128, 256), lambda n: of_star(star(n, n)), [*READ, *TRACED, *JUDGED, *SHOWN, *CHANGED, *MADE, *CHECKED, RUN]),
    Family("chain", "exchanges in a row, each with a code", (32, 64, 128, 256), lambda n: {"a.plan": chain(n).plan()}, [*READ, *TRACED, *JUDGED, *SHOWN]),
    Family("thin", "exchanges around one, with one group each", (32, 64, 128, 256), lambda n: of_star(star(n, n, 1)), [SURVIVE]),
    Family("leaves", "codes, 256 exchanges around one with one group each", (125, 250, 500, 1000), lambda n: of_star(star(256, n, 1)), [SURVIVE]),
    Family("codes", "codes, 64 exchanges around one", (125, 250, 500, 1000), lambda n: of_star(star(64, n)), [*READ, *TRACED, *JUDGED, *SHOWN, *CHANGED, *MADE, *CHECKED, RUN]),
    Family("groups", "groups of 240 circuits", (512, 1024, 2048, 4096), of_groups, [*READ, *TRACED, *JUDGED, *SHOWN, *CHANGED, RUN]),
    Family("choices", "groups of each list", (2, 4, 8, 16), lambda n: of_star(star(256, 256, n)), [*READ, *TRACED, *JUDGED, *SHOWN, *CHANGED, *CHECKED]),
    Family("ranges", "ranges of a code", (512, 1024, 2048, 4096), of_ranges, [*READ, GRADE, RUN]),
    Family("bars", "codes for which 256 exchanges are barred", (125, 250, 500, 1000), of_bars, [*READ, *TRACED, *JUDGED, *SHOWN, *CHANGED, *CHECKED]),
    Family("unlisted", "codes without lists", (125, 250, 500, 1000), lambda n: of_lists(n, 2), [*READ, *JUDGED[:-1], *SHOWN]),
    Family("unserved", "codes that no lists can serve", (125, 250, 500, 1000), lambda n: of_lists(n, 1), ["mend a.plan --limit 1 --spare 1"]),
    Family("loops", "codes with a loop", (125, 250, 500, 1000), of_loops, [f"{JUDGED[0]} --counter out.script", GRADE, JUDGED[2], *SHOWN, f"{CHANGED[0]} --mixture out.plan --counter out.script", CHANGED[1]]),
    Family("faults", "lines at fault", (50000, 100000, 200000, 400000), of_faults, [LINT]),
    Family("risks", "named risks", (10000, 20000, 40000, 80000), of_risks, ["survive a.plan --risks a.risks", f"{SHOWN[0]} --risks a.risks"]),
    Family("stages", "exchanges in a ring that is turned round", (8, 16, 32, 64), lambda n: of_rings(n, n), TURNED),
    Family("turned", "codes in a ring of 64 that is turned round", (125, 250, 500, 1000), lambda n: of_rings(64, n), TURNED),
]
FAMILIES += [Family(name, f"codes, {told}", (125, 250, 500, 1000), lambda n, keeps=keeps: of_star(star(256, n).only(keeps())), ALL) for name, told, keeps in SPARSE]


class Run:
    """The seconds of a run, or nothing where it was given up, the bytes of its input and output, and the most bytes of memory."""

    def __init__(self, seconds, read, written, memory):
        self.seconds, self.read, self.written, self.memory = seconds, read, written, memory


def run(command, folder, seconds):
    """The seconds of processor of a command, or nothing where they are too many, the bytes that it prints and writes into files, and the most bytes of memory."""
    def bound():
        resource.setrlimit(resource.RLIMIT_CPU, (seconds, seconds + 1))
    program = subprocess.Popen(command, cwd=folder, stdin=subprocess.DEVNULL, stdout=subprocess.PIPE, stderr=subprocess.DEVNULL, preexec_fn=bound)
    written, memory, piece = 0, 0, b" "
    while piece:
        if select.select([program.stdout], [], [], 0.001)[0]:
            piece = os.read(program.stdout.fileno(), 1 << 16)
            written += len(piece)
        memory = max(memory, memory_of(program.pid) * 1024)
    program.stdout.close()
    _, status, used = os.wait4(program.pid, 0)
    program.returncode = os.waitstatus_to_exitcode(status)
    if program.returncode > (2 if "lint" in command else 1):
        raise RuntimeError(f"the status of {' '.join(command[1:])} is {program.returncode}")
    made = [os.path.join(folder, it) for it in command if it.startswith("out.")]
    written += sum(os.path.getsize(it) for it in made if os.path.exists(it))
    return (used.ru_utime + used.ru_stime if program.returncode >= 0 else None), written, memory


def best_of(command, folder, times, seconds):
    """The best of some rounds. What takes over a second runs once."""
    best, written, memory = run(command, folder, seconds)
    for _ in range(times - 1):
        if best is not None and best < LONG:
            best = min(best, run(command, folder, seconds)[0])
    read = sum(os.path.getsize(os.path.join(folder, it)) for it in command if it.startswith(("a.", "b.")))
    return Run(best, read, written, memory)


def measure(family, program, times, seconds):
    """The runs of each command of a family, by size. After one that was given up come no greater ones."""
    found = {it: [] for it in family.commands}
    for size in family.sizes:
        with tempfile.TemporaryDirectory() as folder:
            write(folder, family.texts(size))
            for words, runs in found.items():
                if not runs or runs[-1].seconds is not None:
                    runs.append(best_of([program, *words.split()], folder, times, seconds))
    return found


def exponent(less, more):
    return math.log2(more / less) if less and more else 0.0


def times_of(runs):
    """The exponents of the time, where it is long enough to tell one."""
    return [exponent(a.seconds, b.seconds) if b.seconds and a.seconds >= TOLD else None for a, b in itertools.pairwise(runs)]


def is_slow(before, last):
    """Whether the time grows with the wrong thing."""
    grown = max(exponent(before.read, last.read), exponent(before.written, last.written))
    return last.seconds is None or last.seconds > LONG and exponent(before.seconds, last.seconds) > grown + ABOVE


def is_marked(runs):
    before, last = runs[-2:][0], runs[-1]
    return is_slow(before, last) or last.memory > max(LARGE, TIMES * last.read)


def row(family, words, runs):
    before, last = runs[-2:][0], runs[-1]
    seconds = ", ".join("given up" if it.seconds is None else f"{it.seconds:.3f}" for it in runs)
    exponents = ", ".join("-" if it is None else f"{it:.1f}" for it in times_of(runs))
    grown = [f"{exponent(before.read, last.read):.1f}", f"{exponent(before.written, last.written):.1f}", f"{last.written:,}"]
    grown.append(", ".join(f"{it.memory / 1e6:.1f}" for it in runs))
    return [family.told, f"`{words}`", " ".join(f"{it:,}" for it in family.sizes[:len(runs)]), seconds, exponents, *grown, "**!**" if is_marked(runs) else ""]


def main(words):
    options = {"--times": "3", "--seconds": "20", "--only": ",".join(it.name for it in FAMILIES)}
    while words[:1] and words[0] in options and len(words) > 1:
        options[words[0]] = words[1]
        words = words[2:]
    chosen = [it for it in FAMILIES if it.name in options["--only"].split(",")]
    if len(words) > 1 or not chosen or any(it.startswith("-") for it in words):
        print(__doc__)
        return 64
    program = os.path.abspath(words[0] if words else os.path.join(TOP, "crates/telexplan/out/telexplan"))
    heads = ["What doubles", "Command", "Sizes", "Seconds", "Exponents", "Input", "Output", "Bytes of output", "Megabytes of memory", ""]
    print("\n".join(f"| {' | '.join(it)} |" for it in (heads, ["---"] * len(heads))), flush=True)
    marked = False
    for family in chosen:
        for it, runs in measure(family, program, int(options["--times"]), int(options["--seconds"])).items():
            print(f"| {' | '.join(row(family, it, runs))} |", flush=True)
            marked = marked or is_marked(runs)
    print(f"\nThe best of {options['--times']} rounds, on {os.cpu_count()} processors with a load of {os.getloadavg()[0]:.1f}.")
    return 1 if marked else 0


if __name__ == "__main__":
    sys.exit(main(sys.argv[1:]))
