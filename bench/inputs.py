"""The inputs of the benchmark, made from a seed: plans, a certificate and scripts.

A network is a ring of layers of four exchanges, and its groups join each exchange to those of the two layers beside its own. For a code the layer beside its home
lists the groups to the home, and each other exchange up to sixteen groups to layers that are nearer. So ranks are the distances on the ring, and the plan is safe for
a limit and a spare number that are known without an audit."""
import hashlib
import json
import os
import random
from collections import deque

LAYER = 4
LIST = 16
CIRCUITS = 240
FIRST_LINE = 100000
LINES = 1000
AWAY = 20000


def name(letter, number, figures, step):
    """A name of so many figures. The step makes names of neighbours differ in all of them."""
    return f"{letter}{number * step % 10 ** figures:0{figures}}"


class Network:
    """Exchanges, codes, groups, and the list of each exchange for each code."""

    def __init__(self, seed, layers, codes, ranges, groups, figures):
        self.random = random.Random(seed)
        self.layers = layers
        self.exchanges = [name("X", it, figures, 9901) for it in range(layers * LAYER)]
        self.codes = [f"{it:03}" for it in range(codes)]
        self.homes = [it % len(self.exchanges) for it in range(codes)]
        self.ranges = [(it % codes, FIRST_LINE + it // codes * LINES) for it in range(ranges)]
        self.groups = [name("G", it, figures, 3571) for it in range(groups)]
        pairs = [(a, b) for a in range(len(self.exchanges)) for b in self.layer(a // LAYER + 1)]
        self.ends = [pairs[it % len(pairs)] for it in range(groups)]
        self.between = {}
        for group, (a, b) in enumerate(self.ends):
            self.between.setdefault((a, b), []).append(group)
            self.between.setdefault((b, a), []).append(group)
        self.lists = {(x, c): self.list_of(x, c) for c in range(codes) for x in range(len(self.exchanges)) if x != self.homes[c]}

    def layer(self, number):
        """The exchanges of a layer."""
        first = number % self.layers * LAYER
        return range(first, first + LAYER)

    def near(self, exchange):
        """The exchanges of the two layers beside its own."""
        layer = exchange // LAYER
        return [*self.layer(layer - 1), *self.layer(layer + 1)]

    def distance(self, layer, other):
        away = abs(layer - other) % self.layers
        return min(away, self.layers - away)

    def rank(self, exchange, code):
        """The most steps from an exchange to the home of a code."""
        home = self.homes[code]
        return 0 if exchange == home else self.distance(exchange // LAYER, home // LAYER) or 2

    def list_of(self, exchange, code):
        rank = self.rank(exchange, code)
        groups = [group for to in self.near(exchange) if self.rank(to, code) < rank for group in self.between[exchange, to]]
        return self.random.sample(groups, min(LIST, len(groups)))

    def far(self, group, exchange):
        a, b = self.ends[group]
        return b if exchange == a else a

    def limit(self):
        return max(self.rank(x, 0) for x in range(len(self.exchanges))) - 1

    def spare(self):
        return min(len(it) for it in self.lists.values()) - 1

    def plan(self):
        """The lines of the plan."""
        yield "PLAN 1"
        for it in self.exchanges:
            yield f"EXCHANGE {it}"
        for code, home in zip(self.codes, self.homes):
            yield f"CODE {code} {self.exchanges[home]}"
        for code, low in self.ranges:
            yield f"LINES {self.codes[code]} {low} {low + LINES - 1}"
        for group, (a, b) in zip(self.groups, self.ends):
            yield f"GROUP {group} {self.exchanges[a]} {self.exchanges[b]} BOTHWAY {CIRCUITS}"
        for (exchange, code), groups in self.lists.items():
            yield f"ROUTE {self.exchanges[exchange]} {self.codes[code]} {' '.join([self.groups[it] for it in groups])}"
        yield "END"

    def cert(self):
        """The lines of its certificate."""
        yield "CERT 1"
        for code, figures in enumerate(self.codes):
            for place, exchange in enumerate(self.exchanges):
                yield f"RANK {figures} {exchange} {self.rank(place, code)}"
        yield "END"

    def spoil(self):
        """Makes it a bad plan: a third of the codes have a loop, and a third three lists that are too short."""
        limit, spare = self.limit(), self.spare()
        for code in range(len(self.codes)):
            midway = [it for it in range(len(self.exchanges)) if 2 < self.rank(it, code) < limit]
            if code % 3 == 0:
                self.lead_back(self.random.choice(midway), code)
            elif code % 3 == 1:
                for exchange in self.random.sample(midway, 3):
                    del self.lists[exchange, code][spare:]

    def lead_back(self, exchange, code):
        """The last group of a list now leads to an exchange that lists a group back."""
        rank = self.rank(exchange, code)
        behind = [it for it in self.near(exchange) if self.rank(it, code) > rank]
        tried = {it: {self.far(group, it) for group in self.lists[it, code]} for it in behind}
        self.lists[exchange, code][-1] = next(self.between[exchange, it][0] for it in behind if exchange in tried[it])

    def turn(self):
        """Turns a list for each code: what was chosen first is now the last choice. So a plan of as many codes as this has so many lists changed, and is as safe."""
        for code in range(len(self.codes)):
            exchange = self.random.choice([it for it in range(len(self.exchanges)) if it != self.homes[code]])
            first, *others = self.lists[exchange, code]
            self.lists[exchange, code] = [*others, first]


class Traffic:
    """Calls over a network one after another, so that a number of them is open: the lines of a script."""

    def __init__(self, network, seed):
        self.network, self.random = network, random.Random(seed)
        self.free = [(1 << CIRCUITS) - 1] * len(network.groups)
        self.at = [[] for _ in network.exchanges]
        for code, home in enumerate(network.homes):
            self.at[home].append(code)
        half = len(network.ranges) // len(network.codes) * LINES // 2
        self.callers = [deque(range(FIRST_LINE, FIRST_LINE + half)) for _ in network.codes]
        self.called = [deque(range(FIRST_LINE + half, FIRST_LINE + 2 * half)) for _ in network.codes]
        self.open, self.number = [], 0

    def take(self, group, exchange):
        """The circuit that an exchange seizes in a group: the first end takes the least, and the second the greatest."""
        free = self.free[group]
        number = (free & -free).bit_length() if exchange == self.network.ends[group][0] else free.bit_length()
        self.free[group] ^= 1 << number - 1
        return group, number

    def hops(self, exchange, code):
        """The circuits by which a call goes from an exchange to the home of a code."""
        hops = []
        while exchange != self.network.homes[code]:
            group = next(it for it in self.network.lists[exchange, code] if self.free[it])
            hops.append(self.take(group, exchange))
            exchange = self.network.far(group, exchange)
        return hops

    def begin(self):
        """A call over one or two circuits is keyed, routed and connected."""
        network, choice = self.network, self.random.choice
        start = self.random.randrange(len(network.exchanges))
        home = choice(network.layer(start // LAYER + choice((-2, -1, 1, 2))))
        code, other = choice(self.at[home]), choice(self.at[start])
        line, keyed = self.callers[other].popleft(), self.called[code].popleft()
        hops = self.hops(start, code)
        self.number += 1
        self.open.append((self.number, other, line, code, keyed, hops))
        route = f"ROUTE {self.number}"
        return [f"KEY {network.codes[other]} {line} {network.codes[code]}{keyed}"] + [route, f"CONFIRM {self.number}"] * len(hops) + [route]

    def end(self):
        """An open call is cleared, and its circuits are released."""
        place = self.random.randrange(len(self.open))
        self.open[place], self.open[-1] = self.open[-1], self.open[place]
        number, other, line, code, keyed, hops = self.open.pop()
        self.callers[other].append(line)
        self.called[code].append(keyed)
        for group, circuit in hops:
            self.free[group] |= 1 << circuit - 1
        party = self.random.choice(("CALLER", "CALLED"))
        return [f"CLEAR {number} {party}"] + [f"RELEASED {self.network.groups[group]}.{circuit}" for group, circuit in hops]

    def events(self, count, open_):
        """At least so many events, most of them while so many calls are open."""
        told = 0
        while told < count:
            lines = self.begin() if len(self.open) < open_ else self.end()
            told += len(lines)
            yield from lines


class Overflow:
    """A network whose lists are those of a telephone network, where a transit overflows to the other two: seven local exchanges at each of three transits, two gateways,
    and eight exchanges abroad. So calls for many codes can go round."""

    def __init__(self):
        self.transits = ["TA", "TB", "TC"]
        self.locals = {f"L{it:02}": (it // 7, (it // 7 + 1 + it % 2) % 3) for it in range(21)}
        self.gateways = ["GA", "GB"]
        self.abroad = [f"O{it}" for it in range(8)]
        self.exchanges = [*self.transits, *self.locals, *self.gateways, *self.abroad]
        self.homes = {f"{100 + it}": x for it, x in enumerate(self.exchanges)}
        self.homes.update({f"{200 + it}": self.gateways[it % 2] for it in range(20)})
        self.groups, self.between = [], {}
        self.join()

    def add(self, a, b, count):
        """So many groups between two exchanges."""
        for number in range(1, count + 1):
            group = f"{a}{b}{number}"
            self.groups.append((group, a, b))
            self.between.setdefault((a, b), []).append(group)
            self.between.setdefault((b, a), []).append(group)

    def join(self):
        for a, b in ((0, 1), (0, 2), (1, 2)):
            self.add(self.transits[a], self.transits[b], 2)
        for x, (first, second) in self.locals.items():
            self.add(x, self.transits[first], 2)
            self.add(x, self.transits[second], 1)
        for it in range(0, 20, 2):
            self.add(f"L{it:02}", f"L{it + 1:02}", 1)
        for it, transit in enumerate(self.transits):
            for gateway in self.gateways:
                self.add(transit, gateway, 2 if gateway == self.gateways[min(it, 1)] else 1)
        self.add("GA", "GB", 1)
        for gateway in self.gateways:
            for x in self.abroad:
                self.add(gateway, x, 2)

    def ways(self, exchange, home):
        """The exchanges to which calls from one go in turn, for a code of the home, after the home itself."""
        if exchange in self.locals:
            return [self.transits[it] for it in self.locals[exchange]]
        if exchange in self.abroad:
            return self.gateways
        if exchange in self.gateways:
            near = [self.transits[it] for it in self.locals[home]] if home in self.locals else self.transits
            return [other for other in self.gateways if other != exchange] if home in self.abroad else near
        if home in self.abroad:
            return self.gateways
        return [self.transits[it] for it in self.locals[home]] if home in self.locals else self.transits

    def list_of(self, exchange, home):
        ways = [home, *(it for it in self.ways(exchange, home) if it not in (exchange, home))]
        return [group for to in ways for group in self.between.get((exchange, to), [])]

    def plan(self):
        """The lines of the plan."""
        yield "PLAN 1"
        for it in self.exchanges:
            yield f"EXCHANGE {it}"
        for code, home in self.homes.items():
            yield f"CODE {code} {home}"
        for code in self.homes:
            yield f"LINES {code} 10000 10999"
        for group, a, b in self.groups:
            yield f"GROUP {group} {a} {b} BOTHWAY 12"
        for code, home in self.homes.items():
            for x in self.exchanges:
                if x != home:
                    yield f"ROUTE {x} {code} {' '.join(self.list_of(x, home))}"
        yield "END"


def local_plan():
    return ["PLAN 1", "EXCHANGE ALFA", "CODE 41 ALFA", "LINES 41 10000 19999", "END"]


def local_events(seed, count):
    """Calls between lines of one exchange, one after another."""
    draw = random.Random(seed).randrange
    for number in range(1, count // 3 + 1):
        line = draw(10000, 20000)
        yield f"KEY 41 {line} 41{10000 + (line - 10000 + draw(1, 10000)) % 10000}"
        yield f"ROUTE {number}"
        yield f"CLEAR {number} {'CALLED' if draw(2) else 'CALLER'}"


def away_plan(low):
    """A plan of lines whose numbers follow one another."""
    return ["PLAN 1", "EXCHANGE ALFA", "CODE 41 ALFA", f"LINES 41 {low} {low + AWAY - 1}", "END"]


def away_events(low):
    """Subscribers who are away, one line after another."""
    return (f"AWAY 41 {low + it}" for it in range(AWAY))


def script(events):
    yield "SCRIPT 1"
    yield from events
    yield "END"


class Inputs:
    """The files of a folder, each made when it is first asked for. A folder that has them for the same seed and number of events is used as it is."""

    def __init__(self, folder, seed, events):
        self.folder, self.seed, self.events = folder, seed, events
        self.networks, self.lines = {}, {}
        self.list = os.path.join(folder, "inputs.json")
        with open(__file__, "rb") as it:
            made_by = hashlib.sha256(it.read()).hexdigest()
        self.key = [seed, events, made_by]
        if os.path.exists(self.list):
            with open(self.list, encoding="ascii") as it:
                key, lines = json.load(it)
            self.lines = lines if key == self.key else {}

    def network(self, kind):
        if kind not in self.networks:
            self.networks[kind] = Network(self.seed, *((15, 240, 960, 1600, 4) if kind == "mid" else (64, 1000, 4096, 4096, 7)))
            if kind == "bad":
                self.networks[kind].spoil()
            if kind == "turned":
                self.networks[kind].turn()
        return self.networks[kind]

    def text(self, file):
        """The lines of a file."""
        kind, _, end = file.rpartition(".")
        kind, _, open_ = kind.partition("-")
        if kind == "away":
            low = 10 ** (int(open_) - 1)
            return away_plan(low) if end == "plan" else script(away_events(low))
        if end == "script":
            if kind == "none":
                return script([])
            return script(local_events(self.seed, self.events) if kind == "local" else Traffic(self.network(kind), self.seed).events(self.events, int(open_)))
        if kind == "local":
            return local_plan()
        if kind == "overflow":
            return Overflow().plan()
        return self.network(kind).plan() if end == "plan" else self.network(kind).cert()

    def path(self, file):
        """Where a file is, once it is made."""
        path = os.path.join(self.folder, file)
        if file not in self.lines or not os.path.exists(path):
            lines = 0
            with open(path, "w", encoding="ascii", buffering=1 << 20) as it:
                for line in self.text(file):
                    it.write(line + "\n")
                    lines += 1
            self.lines[file] = lines
            with open(self.list, "w", encoding="ascii") as it:
                json.dump([self.key, self.lines], it)
        return path

    def events_of(self, file):
        """The events of a script."""
        return self.lines[file] - 2
