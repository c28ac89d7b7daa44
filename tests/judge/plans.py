"""Plans: their text, what a code sees of them, and two plans over their joined network."""
from functools import cached_property
from itertools import chain, cycle
from operator import add, itemgetter
from zlib import crc32

# The most bytes of a line. By turns, what lines have behind their words or without words, how lines end, and for each of these ways what stands up to the next words.
LONGEST, BLANKS, ENDS = 512, ("", "  # {}", "", "#{}", " \t", " # {} #", ""), (["\n"], ["\r\n"], ["\r\n", "\n", "\n"], ["\n", "\r\n"])
BEHIND = [[BLANKS[n % 7].format(n) + ends[n % len(ends)] + (BLANKS[n // 6 % 7].format(n) + ends[0]) * (n % 6 == 0) for n in range(5040)] for ends in ENDS]


def by_hand(rows):
    """A text of these lines, as somebody wrote it: with comments, several blanks, lines without words, lines as long as a line may be, and both ends of lines."""
    turn = crc32("".join(rows).encode()) % 5040
    rows[4 - turn % 4::4] = [f" {it}".replace(" ", " \t ") for it in rows[4 - turn % 4::4]]
    rows[-turn % 35::35] = [f"{it}#{turn}".ljust(LONGEST, "x") for it in rows[-turn % 35::35]]
    behind = BEHIND[turn // 7 % 4]
    text = behind[turn] * (turn % 3 == 0) + "".join(map(add, rows, chain(behind[turn:], cycle(behind))))
    return text if turn % 2 else text.rstrip("\r\n")


class Plan:
    """A plan as docs/FORMATS.md has it, in order of declaration. Once it was looked at, it stays as it is."""

    def __init__(self):
        self.exchanges = []
        self.codes = {}  # code: home
        self.lines = []  # (code, low, high)
        self.groups = {}  # group: (first end, second end, "ONEWAY" or "BOTHWAY", circuits)
        self.routes = {}  # (exchange, code): groups
        self.bars = set()  # (exchange, code)

    def declared(self, kind):
        """The exchanges and codes of the lists or bars, in the order of their lines."""
        rows = (row.split("#")[0].split() for row in self.text.splitlines())
        return [tuple(row[1:3]) for row in rows if row[:1] == [kind]]

    @cached_property
    def text(self):
        """A text of the plan. Codes and groups are declared by turns, and two lists of three stand as soon as their names are there. So what such a list becomes may name what is declared later."""
        count, groups = len(self.groups), {g: n for n, g in enumerate(self.groups, 1)}
        codes = {code: n * (count + 1) // len(self.codes) for n, code in enumerate(self.codes)}
        rows = [(0, f"EXCHANGE {it}") for it in self.exchanges]
        rows += [(codes[code], f"CODE {code} {home}") for code, home in self.codes.items()]
        rows += [(groups[name], f"GROUP {name} {a} {b} {way} {many}") for name, (a, b, way, many) in self.groups.items()]
        rows += [(count, f"LINES {code} {low} {high}") for code, low, high in self.lines]
        rows += [(max(codes[code], *map(groups.get, it)) if n % 3 else count, f"ROUTE {x} {code} {' '.join(it)}") for n, ((x, code), it) in enumerate(self.routes.items())]
        rows += [(codes[code], f"BAR {x} {code}") for x, code in sorted(self.bars)]
        return by_hand(["PLAN 2" if self.bars or count % 3 == 0 else "PLAN 1", *(row for _, row in sorted(rows, key=itemgetter(0))), "END"])

    def copy(self):
        other = Plan()
        other.exchanges = list(self.exchanges)
        other.codes, other.groups, other.routes = dict(self.codes), dict(self.groups), dict(self.routes)
        other.lines, other.bars = list(self.lines), set(self.bars)
        return other

    def network(self):
        """All but the lists and the bars."""
        return self.exchanges, list(self.codes.items()), self.lines, list(self.groups.items())

    def says_the_same(self, other):
        """Whether two plans differ in nothing but the order of their lists and bars."""
        return (self.network(), self.routes, self.bars) == (other.network(), other.routes, other.bars)

    def seizable(self, x):
        """The groups that an exchange may seize, each with the exchange to which it leads."""
        return [(g, b if x == a else a) for g, (a, b, way, _) in self.groups.items() if x == a or (x == b and way == "BOTHWAY")]

    def far(self, group, x):
        a, b = self.groups[group][:2]
        return b if x == a else a

    @cached_property
    def views(self):
        """Of each code its home, its lists (of groups with the exchanges to which they lead), and the
        other exchanges where calls for it may start. What becomes of a code depends on nothing else."""
        lists, views = {code: [] for code in self.codes}, {}
        for (x, code), groups in sorted(self.routes.items()):
            lists[code].append((x, tuple((g, self.far(g, x)) for g in groups)))
        homes = {self.codes[code] for code, _, _ in self.lines}
        for code, home in self.codes.items():
            starts = tuple(x for x in self.exchanges if x in homes and x != home and (x, code) not in self.bars)
            views[code] = home, tuple(lists[code]), starts
        return views

    @cached_property
    def ambiguous(self):
        """The pairs of codes of which one begins the other."""
        return [(a, b) for a in self.codes if len(a) == 2 for b in self.codes if a != b and b.startswith(a)]


def read(text):
    """The plan of a text without faults."""
    plan = Plan()
    for kind, *rest in filter(None, (row.split("#")[0].split() for row in text.splitlines())):
        if kind == "EXCHANGE":
            plan.exchanges += rest
        elif kind == "CODE":
            plan.codes[rest[0]] = rest[1]
        elif kind == "LINES":
            plan.lines.append(tuple(rest))
        elif kind == "GROUP":
            plan.groups[rest[0]] = (*rest[1:4], int(rest[4]))
        elif kind == "ROUTE":
            plan.routes[rest[0], rest[1]] = tuple(rest[2:])
        elif kind == "BAR":
            plan.bars.add((rest[0], rest[1]))
    return plan


def switch_rows(pair, before, after):
    """The lines of a list that is another one, and of the one that it replaces."""
    return [f"ROUTE {' '.join(pair + after)}" if after else f"DROP {' '.join(pair)}", " ".join(("WAS", *before))]


def switched_rows(before, after):
    """The lines of all lists that are other ones, by codes and exchanges."""
    pairs = ((x, code) for code in before.codes for x in before.exchanges)
    lists = ((it, before.routes.get(it, ()), after.routes.get(it, ())) for it in pairs)
    return [row for it in lists if it[1] != it[2] for row in switch_rows(*it)]


def contradiction(old, new):
    """The line that names what two plans contradict each other in, or None."""
    def homes(kind, name):
        if kind == "GROUP":
            return ""
        return f": home {old.codes[name]}, then {new.codes[name]}: drop it in one change, admit it in the next"

    def at(plan, kind, name):
        rows = [row.split()[:2] for row in plan.text.splitlines()]
        return rows.index([kind, name]) + 1

    differing = [("CODE", code) for code, home in new.codes.items() if old.codes.get(code, home) != home]
    differing += [("GROUP", g) for g, it in new.groups.items() if old.groups.get(g, it)[:3] != it[:3]]
    for kind, name in differing:
        return f"telexplan: old plan line {at(old, kind, name)} and new plan line {at(new, kind, name)}: {kind} {name} differs{homes(kind, name)}\n"
    return None


def joined(lists_of, other, old, new):
    """The plan of one of two networks over the joined network: its own lists and bars, and those of the other plan for an exchange or a code that it has not."""
    plan = old.copy()
    plan.exchanges += [x for x in new.exchanges if x not in old.exchanges]
    plan.codes = {**old.codes, **{code: home for code, home in new.codes.items() if code not in old.codes}}
    for g, (a, b, way, count) in new.groups.items():
        plan.groups[g] = (a, b, way, max(count, old.groups[g][3] if g in old.groups else 0))

    def source(x, code):
        return lists_of if x in lists_of.exchanges and code in lists_of.codes else other

    pairs = [(x, code) for code in plan.codes for x in plan.exchanges]
    plan.routes = {p: source(*p).routes[p] for p in pairs if p in source(*p).routes}
    closed = {(x, code) for x, code in pairs if code not in old.codes and x != plan.codes[code]}
    plan.bars = {p for p in pairs if p in source(*p).bars} | closed
    return plan


def join(old, new):
    """The old plan and the new one over their joined network."""
    return joined(old, new, old, new), joined(new, old, old, new)
