"""Networks with their lists, and patterns of lists that leave many out. The sizes are what growth.py and spread.py ask for."""
import itertools
import os
import random

from inputs import script


class Net:
    """A network with its lists. Code c is that of exchange c, or of exchange c % n where there are more codes than exchanges."""

    def __init__(self, exchanges, codes, groups, ranges=None):
        self.exchanges, self.codes, self.groups = exchanges, codes, groups
        self.ranges = range(codes) if ranges is None else ranges
        self.lists, self.bars = {}, []

    def home(self, code):
        return code % self.exchanges

    def away(self):
        """Each exchange with each code that has its home elsewhere."""
        return ((x, c) for x in range(self.exchanges) for c in range(self.codes) if x != self.home(c))

    def plan(self):
        yield "PLAN 2" if self.bars else "PLAN 1"
        yield from (f"EXCHANGE X{it}" for it in range(self.exchanges))
        yield from (f"CODE {it:03} X{self.home(it)}" for it in range(self.codes))
        yield from (f"LINES {it:03} 10000 19999" for it in self.ranges)
        yield from (f"GROUP {name} X{a} X{b} BOTHWAY 240" for name, (a, b) in self.groups.items())
        yield from (f"ROUTE X{x} {c:03} {' '.join(groups)}" for (x, c), groups in self.lists.items())
        yield from (f"BAR X{x} {c:03}" for x, c in self.bars)
        yield "END"

    def only(self, keeps):
        """The network with the lists of these exchanges and codes alone."""
        net = Net(self.exchanges, self.codes, self.groups, self.ranges)
        net.lists = {it: groups for it, groups in self.lists.items() if keeps(*it)}
        return net

    def turned(self):
        """The network with its lists turned: what was chosen first is now the last choice."""
        net = Net(self.exchanges, self.codes, self.groups, self.ranges)
        net.lists = {it: [*groups[1:], groups[0]] for it, groups in self.lists.items()}
        return net


def star(exchanges, codes, wide=2):
    """All exchanges have groups to the first one."""
    net = Net(exchanges, codes, {f"G{x}I{it}": (0, x) for x in range(1, exchanges) for it in range(wide)})
    net.lists = {(x, c): [f"G{x or net.home(c)}I{it}" for it in range(wide)] for x, c in net.away()}
    return net


def star_cert(net):
    """The ranks of a star."""
    yield "CERT 1"
    for c, x in itertools.product(range(net.codes), range(net.exchanges)):
        home = net.home(c)
        yield f"RANK {c:03} X{x} {0 if x == home else 1 if 0 in (x, home) else 2}"
    yield "END"


def chain(exchanges):
    """Exchanges in a row. Calls start at the first one."""
    net = Net(exchanges, exchanges, {f"G{it}": (it, it + 1) for it in range(exchanges - 1)}, [0])
    net.lists = {(x, c): [f"G{x if c > x else x - 1}"] for x, c in net.away()}
    return net


def ring(exchanges, codes, back):
    """Exchanges in a ring. All calls go one way round."""
    net = Net(exchanges, codes, {f"G{it}": (it, (it + 1) % exchanges) for it in range(exchanges)})
    net.lists = {(x, c): [f"G{(x - back) % exchanges}"] for x, c in net.away()}
    return net


def local(events):
    """Events at one exchange with a thousand million lines."""
    return {"a.plan": ["PLAN 1", "EXCHANGE ALFA", "CODE 41 ALFA", "LINES 41 000000000 999999999", "END"], "a.script": script(events)}


def write(folder, texts):
    for file, lines in texts.items():
        with open(os.path.join(folder, file), "w", encoding="ascii", buffering=1 << 20) as it:
            it.writelines(f"{line}\n" for line in lines)


def each(step):
    """Keeps each so many-th list."""
    count = itertools.count()
    return lambda exchange, code: next(count) % step == 0


def drawn(share, seed):
    """Keeps one of so many lists, by chance."""
    draw = random.Random(seed).randrange
    return lambda exchange, code: draw(share) == 0


SPARSE = [
    ("second", "each second list", lambda: each(2)),
    ("third", "each third list", lambda: each(3)),
    ("fifth", "each fifth list", lambda: each(5)),
    ("seventh", "each seventh list", lambda: each(7)),
    ("fifths", "each fifth exchange with all its lists", lambda: lambda exchange, code: exchange % 5 == 0),
    ("regions", "lists for the codes of the own 32 exchanges", lambda: lambda exchange, code: exchange // 32 == code % 256 // 32),
    ("drawn", "one list of five, drawn", lambda: drawn(5, 1)),
]
