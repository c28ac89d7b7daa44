"""All walks for a code, what they show, and what they call for in a report."""
from functools import lru_cache
from itertools import groupby


class Differs(Exception):
    """The program and the pages differ."""


# What a judge raises where an answer is wrong, or where it cannot be read.
WRONG = (Differs, LookupError, ValueError)


def need(holds, *what):
    if not holds:
        raise Differs(" ".join(map(str, what)))


def of_code(code, judge, *words):
    """Judges something of one code."""
    try:
        judge(*words)
    except Differs as it:
        raise Differs(f"code {code}: {it}") from None


def walks(home, lists, start):
    """Each walk from an exchange, as the exchanges that it passes: the last one may be passed twice."""
    nexts = {x: sorted({y for _, y in groups}) for x, groups in lists}
    grown = [(start,)]
    while grown:
        walk = grown.pop()
        yield walk
        if walk[-1] != home and walk[-1] not in walk[:-1]:
            grown += [walk + (y,) for y in nexts.get(walk[-1], ())]


class Survey:
    """What all walks for a code show."""

    def __init__(self, view):
        home, lists, starts = view
        self.loop = False
        self.nearest = {}  # each exchange other than the home to which a walk comes, and its least steps
        self.away = 0  # the most steps of a walk that is not at the home
        self.lengths = {x: len(groups) for x, groups in lists}
        for start in starts:
            for walk in walks(home, lists, start):
                last, steps = walk[-1], len(walk) - 1
                if last in walk[:-1]:
                    self.loop = True
                elif last != home:
                    self.nearest[last] = min(steps, self.nearest.get(last, steps))
                    self.away = max(steps, self.away)
        self.least = min((self.lengths.get(x, 0) for x in self.nearest), default=16)

    def is_safe(self, limit, spare):
        return not self.loop and self.away <= limit and self.least > spare

    def grade(self):
        """The least limit and the greatest spare number with which the code is safe, or None."""
        return (self.away, self.least - 1) if not self.loop and self.least else None

    def due(self, limit, spare):
        """What an audit has to find: a loop; or else the short exchanges with the least steps to each, and a long walk."""
        if self.loop:
            return True, {}, False
        return False, {x: n for x, n in self.nearest.items() if self.lengths.get(x, 0) <= spare}, self.away > limit


NOTHING = False, {}, False
survey = lru_cache(1 << 14)(Survey)


@lru_cache(1 << 14)
def heights(view):
    """Of the home, and of each exchange to which calls come, the steps of the longest way home, where there is no loop."""
    home, lists, _ = view
    lists, found = dict(lists), {home: 0}

    def height(x):
        if x not in found:
            found[x] = 1 + max((height(y) for _, y in lists.get(x, ())), default=0)
        return found[x]

    return {x: height(x) for x in (home, *survey(view).nearest)}


def follow(words, view):
    """The exchanges of a walk that is printed, each step of which has to be one of the lists."""
    _, lists, starts = view
    lists = dict(lists)
    passed, groups = words[0::2], words[1::2]
    need(len(words) % 2 and passed[0] in starts, "no walk that begins where calls start:", words)
    for x, g, y in zip(passed, groups, passed[1:]):
        need((g, y) in lists.get(x, ()), "no step of the lists:", x, g, y)
    need(len(set(passed[:-1])) == len(passed) - 1, "a walk that goes on after it came back:", words)
    return passed


def judge_code(findings, view, due, limit):
    """Judges the findings of a code, which are due by its walks."""
    kinds, shorts = [kind for kind, _ in findings], {}
    need((kinds.count("F2"), kinds.count("F4")) == (due[0], due[2]), "found", kinds)
    for kind, words in findings:
        passed = follow(words, view)
        last, steps = passed[-1], len(passed) - 1
        need((last in passed[:-1]) == (kind == "F2"), "a loop, or none:", words)
        if kind == "F3":
            need(last not in shorts, "a second walk to", last)
            shorts[last] = steps
        need(kind != "F4" or (steps == limit + 1 and last != view[0]), "not a long walk:", words)
    need(shorts == due[1], "short exchanges are", due[1], "and not", shorts)


def judge_findings(rows, pairs, views, dues, limit):
    """Judges the findings of a plan: the ambiguous pair, if there are such pairs, and then those of each code, in order. `views` has the lists by which a walk may go."""
    findings, ambiguous, order = {code: [] for code in views}, [], []
    for row in rows:
        kind, name, code, *rest = row.split(" ")
        need(f"{kind} {name}" in ("F1 AMBIGUOUS", "F2 LOOP", "F3 SHORT", "F4 LONG"), "no finding:", row)
        if kind == "F1":
            ambiguous += [(code, *rest)] if not order else [row]
        else:
            order.append(code)
            need(code in findings and rest[0] == "VIA", "no finding:", row)
            findings[code].append((kind, rest[1:]))
    need(len(ambiguous) == bool(pairs) and set(ambiguous) <= set(pairs), "ambiguous are", pairs, "and not", ambiguous)
    need([code for code, _ in groupby(order)] == [code for code in views if findings[code]], "findings are not in order of the codes")
    for code, view in views.items():
        if findings[code] or dues[code] != NOTHING:
            of_code(code, judge_code, findings[code], view, dues[code], limit)
