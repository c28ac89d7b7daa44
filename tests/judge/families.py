"""Small plans: all those of a family, many of them packed into one plan, and random ones from a seed.

What becomes of the calls for a code depends on the lists and bars for that code alone. So a plan of
hundreds of codes, each with the lists of one plan of a family, is hundreds of small plans to one run."""
from itertools import islice, permutations, product
from random import Random

from plans import Plan
from walks import survey

PACK = 890


class Family:
    """The plans of one network that differ in the lists for one code, each of up to so many groups in any
    order, and in where calls for it start: in `starts`, but not always where a name has a `?`. The code is
    at home at A0. A group that both ends may seize has the number of its circuits behind it."""

    def __init__(self, groups, starts, **lists):
        rows = [row.split() for row in groups.split(",")]
        self.groups = {name: (a, b, "BOTHWAY" if way else "ONEWAY", int((way or "1")[0])) for name, a, b, *way in rows}
        self.starts, self.names = starts.replace("?", "").split(), list(lists)
        self.exchanges = sorted({"A0", *self.starts, *(x for it in self.groups.values() for x in it[:2])})
        self.choices = [(it.strip("?"), *[None] * it.count("?")) for it in starts.split()]
        self.choices += [[it for n in range(most + 1) for it in permutations(words.split(), n)] for most, words in lists.values()]

    def routings(self):
        """The lists for the code, and where calls for it start: all there are."""
        count = len(self.starts)
        for chosen in product(*self.choices):
            yield dict(zip(self.names, chosen[count:])), tuple(x for x in chosen[:count] if x)

    def plan(self, routings):
        """One plan with a code for each of these. At each exchange where calls may start a code is at home, which nobody else may call."""
        plan = Plan()
        plan.exchanges, plan.groups = list(self.exchanges), dict(self.groups)
        for code, (lists, starts) in zip(map(str, range(100, 100 + PACK)), routings):
            plan.codes[code] = "A0"
            plan.routes.update({(x, code): groups for x, groups in lists.items() if groups})
            plan.bars.update((x, code) for x in self.starts if x not in starts)
        for x in self.starts:
            plan.codes[f"99{x[1]}"] = x
            plan.lines.append((f"99{x[1]}", "100", "199"))
            plan.bars.update((y, f"99{x[1]}") for y in self.starts if y != x)
        return plan

    def survey(self, routing):
        """What all walks show of one of these."""
        far = self.plan([]).far
        lists = tuple((x, tuple((g, far(g, x)) for g in groups)) for x, groups in routing[0].items() if groups)
        return survey(("A0", lists, routing[1]))


def packed(items):
    """The items of something, so many at a time."""
    items = iter(items)
    return iter(lambda: list(islice(items, PACK)), [])


def stars(count):
    """A one-way group from each exchange but A0 to each other one."""
    return ",".join(f"G{n}{m} A{n} A{m}" for n in range(1, count) for m in range(count) if n != m)


ROUND = "G01 A0 A1 2,G02 A0 A2 1,G12 A1 A2 1"
FAMILIES = {
    "one-way": Family(stars(4), "A1? A2? A3?", A1=(3, "G10 G12 G13"), A2=(3, "G20 G21 G23"), A3=(3, "G30 G31 G32")),
    "far": Family(stars(5), "A4", A1=(2, "G10 G12 G13 G14"), A2=(2, "G20 G21 G23 G24"), A3=(2, "G30 G31 G32 G34"), A4=(2, "G40 G41 G42 G43")),
    "twice": Family(stars(3) + ",H10 A1 A0,H12 A1 A2,H20 A2 A0,H21 A2 A1", "A1? A2?", A1=(4, "G10 H10 G12 H12"), A2=(4, "G20 H20 G21 H21")),
    "both-way": Family(ROUND + ",G13 A1 A3 2,G23 A2 A3 1,G03 A0 A3 1", "A1? A2? A3?", A1=(3, "G01 G12 G13"), A2=(3, "G02 G12 G23"), A3=(3, "G03 G13 G23")),
}

# Families of fewer lists, for commands that take two plans, or whose judge tries all routings.
SMALL = {
    "one-list": Family("G1 A1 A0,G2 A1 A0 2,G3 A0 A1 1", "A1?", A1=(3, "G1 G2 G3")),
    "bars": Family("G10 A1 A0,G20 A2 A0,G12 A1 A2 1", "A1? A2?", A1=(2, "G10 G12"), A2=(2, "G20 G12")),
    "short": Family("G10 A1 A0,G12 A1 A2 2,G13 A1 A3,G20 A2 A0,G23 A2 A3 2,G30 A3 A0,G31 A3 A1", "A3", A1=(1, "G10 G12 G13"), A2=(1, "G20 G12 G23"), A3=(1, "G30 G31 G23")),
    "round": Family("G10 A1 A0,G12 A1 A2 1,G23 A2 A3 1,G30 A3 A0", "A1", A1=(2, "G10 G12"), A2=(2, "G12 G23"), A3=(2, "G23 G30")),
    "two": Family(ROUND + ",H01 A0 A1 2,H02 A0 A2 1", "A1? A2?", A1=(3, "G01 H01 G12"), A2=(2, "G02 H02 G12")),
    "row": Family("G12 A1 A2 2,H12 A1 A2,G20 A2 A0,H20 A2 A0,G31 A3 A1,H31 A3 A1,G32 A3 A2", "A3", A1=(2, "G12 H12"), A2=(1, "G20 G12"), A3=(2, "G31 H31 G32")),
}

# The families of an old plan and of a new one: of one network, and of two.
ONE_GROUP = Family("G1 A1 A0,G2 A1 A0 2,G4 A2 A1 1,G5 A2 A0 2", "A1? A2?", A1=(2, "G1 G2"), A2=(2, "G4 G5"))
ANOTHER_GROUP = Family("G3 A1 A0,G2 A1 A0 1,G4 A2 A1 1,G5 A2 A0 1", "A1? A2?", A1=(2, "G3 G2 G4"), A2=(2, "G4 G5"))
FEW_EXCHANGES = Family("G1 A1 A0 1,G3 A1 A0", "A1?", A1=(2, "G1 G3"))
MORE_EXCHANGES = Family("G12 A1 A2 1,G1 A1 A0 1,G20 A2 A0", "A1? A2?", A1=(2, "G1 G12"), A2=(2, "G20 G12"))
PAIRS = {
    **{name: (family, family) for name, family in SMALL.items()},
    "another group": (ONE_GROUP, ANOTHER_GROUP),
    "a new exchange": (FEW_EXCHANGES, MORE_EXCHANGES),
    "an exchange that goes": (MORE_EXCHANGES, FEW_EXCHANGES),
}


def code_plans():
    """Plans of one exchange with up to four codes, of which some begin others."""
    for codes in (it for n in range(5) for it in permutations("52 412 41 519 410 51".split(), n)):
        plan = Plan()
        plan.exchanges, plan.codes = ["A0"], dict.fromkeys(codes, "A0")
        yield plan


def ambiguous_plans():
    """Plans of three exchanges and two codes, of which one begins the other, with all lists of up to two groups."""
    lists = {("A1", "41"): "G01 G12", ("A2", "41"): "G02 G12", ("A0", "412"): "G01 G02", ("A2", "412"): "G02 G12"}
    choices = [[it for n in range(3) for it in permutations(words.split(), n)] for words in lists.values()]
    for codes, chosen in product(permutations([("41", "A0"), ("412", "A1")]), product(*choices)):
        plan = Plan()
        plan.exchanges, plan.codes = ["A0", "A1", "A2"], dict(codes)
        plan.lines = [("41", "100", "199"), ("412", "100", "199")]
        plan.groups = {f"G{a}{b}": (f"A{a}", f"A{b}", "BOTHWAY", 1) for a, b in ("01", "02", "12")}
        plan.routes = {pair: groups for pair, groups in zip(lists, chosen) if groups}
        yield plan


def lists_at_random(rng, plan, share=1.0):
    """Gives a share of the exchanges another list or another bar for a code. Most groups lead down in some order."""
    for code, home in plan.codes.items():
        rest = [x for x in plan.exchanges if x != home]
        order = [home] + rng.sample(rest, len(rest))
        for x in rest:
            groups = [g for g, y in plan.seizable(x) if (rng.random() < 0.12 or order.index(y) < order.index(x)) and (y == home or rng.random() < 0.7)]
            if rng.random() < share:
                plan.routes.pop((x, code), None)
                if groups and rng.random() < 0.94:
                    plan.routes[x, code] = tuple(rng.sample(groups, min(len(groups), rng.choice((1, 2, 2, 3, 3, 4)))))
            if rng.random() < 0.08 * share:
                plan.bars ^= {(x, code)}


def add_group(rng, plan, name):
    plan.groups[name] = (*rng.sample(plan.exchanges, 2), rng.choice(("ONEWAY", "BOTHWAY", "BOTHWAY")), rng.randint(1, 3))


def random_plan(rng):
    """A plan of two to six exchanges and one to four codes."""
    plan = Plan()
    plan.exchanges = [f"A{n}" for n in range(rng.randint(2, 6))]
    codes = rng.sample(["41", "42", "43", "512", "413" if rng.random() < 0.2 else "513"], rng.randint(1, 4))
    plan.codes = {code: rng.choice(plan.exchanges) for code in codes}
    plan.lines = [(code, "100", "199") for code in plan.codes if rng.random() < 0.7]
    for n in range(rng.randint(2, 3 * len(plan.exchanges))):
        add_group(rng, plan, f"G{n}")
    lists_at_random(rng, plan)
    return plan


def another_network(rng, old):
    """A plan with other exchanges, codes, lines, groups and lists than an old one, in another order."""
    plan = old.copy()
    gone = rng.choice(old.exchanges) if rng.random() < 0.2 and len(old.exchanges) > 2 else None
    plan.exchanges = [x for x in old.exchanges if x != gone] + ["B1"] * (rng.random() < 0.4)
    rng.shuffle(plan.exchanges)
    plan.codes = {code: home for code, home in old.codes.items() if home != gone and rng.random() < 0.93}
    if rng.random() < 0.3 or not plan.codes:
        plan.codes["61"] = rng.choice(plan.exchanges)
    if rng.random() < 0.03:
        plan.codes[rng.choice(list(plan.codes))] = rng.choice(plan.exchanges)
    plan.lines = [it for it in old.lines if it[0] in plan.codes and rng.random() < 0.9]
    plan.lines += [(code, "3000", "3999") for code in plan.codes if rng.random() < 0.12]
    plan.groups = {g: it for g, it in old.groups.items() if gone not in it and rng.random() < 0.93}
    for g, (a, b, way, count) in list(plan.groups.items()):
        if rng.random() < 0.1:
            plan.groups[g] = (a, b, way if rng.random() < 0.9 else "ONEWAY", count + 1)
    for n in range(rng.randint(0, 3)):
        add_group(rng, plan, f"H{n}")
    pairs = {(x, code): {g for g, _ in plan.seizable(x)} for x in plan.exchanges for code in plan.codes if plan.codes[code] != x}
    lists = {it: tuple(g for g in groups if g in pairs[it]) for it, groups in old.routes.items() if it in pairs}
    plan.routes = {it: groups for it, groups in lists.items() if groups}
    plan.bars &= set(pairs)
    lists_at_random(rng, plan, 0.3)
    return plan


def random_pair(rng):
    """An old plan and a new one, of one network or of two."""
    old = random_plan(rng)
    new = another_network(rng, old) if rng.random() < 0.45 else old.copy()
    lists_at_random(rng, new, rng.choice((0.3, 0.6, 1.0, 1.0)))
    return old, new


def seeded(count, seed, make):
    """So many things that are made from a seed, each from a number of its own."""
    for n in range(count):
        yield make(Random(f"{seed}.{n}"))


def random_risks(rng, plan):
    """Up to three risks, each of up to three groups. In some a group is meant that no plan has."""
    groups = [*plan.groups, *["Z9"] * (rng.random() < 0.2)]
    return [(f"R{n}", rng.sample(groups, rng.randint(1, min(3, len(groups))))) for n in range(rng.randint(0, 3))]


def random_network(rng):
    """A family over a random network of three or four exchanges."""
    plan = Plan()
    plan.exchanges = [f"A{n}" for n in range(rng.randint(3, 4))]
    for n in range(rng.randint(4, 7)):
        add_group(rng, plan, f"G{n}")
    groups = ",".join(f"{g} {a} {b}" + f" {count}" * (way == "BOTHWAY") for g, (a, b, way, count) in plan.groups.items())
    lists = {x: (2, " ".join(g for g, _ in plan.seizable(x))) for x in plan.exchanges[1:]}
    return Family(groups, " ".join(x + "?" for x in rng.sample(plan.exchanges[1:], rng.randint(1, 2))), **lists)
