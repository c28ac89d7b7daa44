"""What `lint` has to print of a text: its faults, each mistake once, or where it has none its warnings."""
import re

from plans import read
from walks import need, survey

ONE_OF = {"EXCHANGE": 2, "CODE": 3, "LINES": 4, "GROUP": 6, "BAR": 3}
MOST = {"EXCHANGE": 256, "LINES": 4096, "GROUP": 4096}


class Read:
    """What the lines of a text have declared so far."""

    def __init__(self):
        self.exchanges, self.codes, self.ranges, self.groups, self.routes, self.bars = [], {}, [], {}, {}, set()

    def fault(self, version, words):
        """The first fault of a line, with the word at fault, or None. A right line is declared."""
        kind, *rest = words
        if kind not in (*ONE_OF, "ROUTE", "END") or kind == "BAR" and version < 2:
            return "P3 UnknownWord", kind
        if kind == "END" or len(words) < 4 if kind == "ROUTE" else len(words) != ONE_OF.get(kind):
            return "P4 WrongCount", None
        if kind == "GROUP" and rest[3] not in ("ONEWAY", "BOTHWAY"):
            return "P3 UnknownWord", rest[3]
        found = [it for it in self.faults(kind, rest) if it]
        if found:
            return min(found, key=lambda it: int(it[0].split()[0][1:]))
        self.declare(kind, rest)
        return None

    def faults(self, kind, rest):
        """All that is wrong with the words of a line, of one code the first in the line first."""
        names = {"EXCHANGE": rest[:1], "CODE": rest[1:], "GROUP": rest[:3], "ROUTE": rest[:1] + rest[2:], "BAR": rest[:1]}.get(kind, [])
        code = {"CODE": rest[0], "LINES": rest[0], "ROUTE": rest[1] if len(rest) > 1 else None, "BAR": rest[-1]}.get(kind)
        yield from (("P5 BadName", it) for it in names if not re.fullmatch("[A-Z][A-Z0-9]{0,7}", it))
        yield code is not None and not re.fullmatch("[0-9]{2,3}", code) and ("P6 BadCode", code)
        known = {"CODE": [(rest[-1], self.exchanges)], "LINES": [(code, self.codes)], "GROUP": [(it, self.exchanges) for it in rest[1:3]], "BAR": [(rest[0], self.exchanges), (code, self.codes)]}
        known["ROUTE"] = known["BAR"] + [(it, self.groups) for it in rest[2:]]
        yield from (("P9 Unknown", it) for it, those in known.get(kind, []) if it not in those)
        yield len({"EXCHANGE": self.exchanges, "LINES": self.ranges, "GROUP": self.groups}.get(kind, [])) >= MOST.get(kind, 1) and ("P16 TooMany", None)
        yield from getattr(self, f"{kind.lower()}_faults")(*rest)

    def exchange_faults(self, name):
        yield name in self.exchanges and ("P8 Duplicate", name)

    def code_faults(self, code, _):
        yield code in self.codes and ("P8 Duplicate", code)

    def lines_faults(self, code, low, high):
        yield from (("P7 BadNumber", it) for it in (low, high) if not re.fullmatch("[0-9]{1,9}", it))
        yield (len(low) != len(high) or low > high) and ("P10 RangeOrder", None)
        yield any(c == code and len(a) == len(low) and a <= high and low <= b for c, a, b in self.ranges) and ("P11 Overlap", None)

    def group_faults(self, name, a, b, _, count):
        yield not (re.fullmatch("[1-9][0-9]{0,2}", count) and int(count) <= 240) and ("P7 BadNumber", count)
        yield name in self.groups and ("P8 Duplicate", name)
        yield a == b and ("P12 SameEnds", b)

    def route_faults(self, x, code, *groups):
        yield (x, code) in self.routes and ("P8 Duplicate", None)
        yield from (("P13 NotOutgoing", g) for g in groups if g in self.groups and x not in self.groups[g][:1 + (self.groups[g][2] == "BOTHWAY")])
        yield from (("P14 RepeatedGroup", g) for n, g in enumerate(groups) if g in groups[n + 1:])
        yield self.codes.get(code) == x and ("P15 RouteAtHome", None)
        yield len(groups) > 16 and ("P16 TooMany", None)

    def bar_faults(self, x, code):
        yield (x, code) in self.bars and ("P8 Duplicate", None)
        yield self.codes.get(code) == x and ("P22 BarAtHome", None)

    def declare(self, kind, rest):
        if kind == "EXCHANGE":
            self.exchanges += rest
        elif kind == "CODE":
            self.codes[rest[0]] = rest[1]
        elif kind == "LINES":
            self.ranges.append(tuple(rest))
        elif kind == "GROUP":
            self.groups[rest[0]] = rest[1:]
        elif kind == "ROUTE":
            self.routes[rest[0], rest[1]] = rest[2:]
        else:
            self.bars.add(tuple(rest))


def told(faults):
    """The rows of faults, each with its line and the words of that: one that comes from an earlier one is counted there."""
    rows, causes = [], {}
    for line, words, (name, word) in faults:
        needed = word if name.startswith("P9") else None
        row = causes.get(needed)
        if row is None:
            row = [f"{line}: {name}" + f" {word}" * (word is not None), 0]
            rows.append(row)
            causes[needed or ""] = row
        else:
            row[1] += 1
        if len(words) > 1 and words[0] in ("EXCHANGE", "CODE", "GROUP"):
            causes[words[1].upper()] = row
    return [row + (f" .. and {n} line{'s' * (n > 1)} that need{'s' * (n == 1)} it" if n else "") for row, n in rows]


def faults_of(text):
    """All faults of a text of right bytes whose header is right and which ends with END, each with its line."""
    read, version, faults = Read(), 0, []
    for line, row in enumerate(text.splitlines(), 1):
        words = row.split("#")[0].split()
        if words and not version:
            version = int(words[1])
        elif words and words != ["END"]:
            fault = read.fault(version, words)
            faults += [(line, words, fault)] * (fault is not None)
    return faults


def warnings_of(plan):
    """The warnings of a plan, each with the line of its text and its number."""
    at = {tuple(words[:1 + (words[0] != "END")] + words[2:3] * (words[0] in ("ROUTE", "BAR"))): line for line, row in enumerate(plan.text.splitlines(), 1) if (words := row.split("#")[0].split())}
    header = next(it for it in at if it[0] == "PLAN")
    homes, listed = {plan.codes[code] for code, _, _ in plan.lines}, {g for it in plan.routes.values() for g in it}
    coming = {code: {x for x in (*survey(view).nearest, view[0])} for code, view in plan.views.items()}
    if not plan.lines:
        yield at[header], 1, "A1 NothingToJudge"
    for x in plan.exchanges:
        mute = [code for code, home in plan.codes.items() if home == x and code not in {it[0] for it in plan.lines}]
        idle = [code for code in plan.codes if (x, code) in plan.routes and x not in coming[code]]
        for number, name, codes in ((2, "NoLines", mute), (4, "UnusedList", idle)):
            if codes:
                yield at["EXCHANGE", x], number, f"A{number} {name} {codes[0]}" + f" .. and {len(codes) - 1} more" * (len(codes) > 1)
        for code, home in plan.codes.items():
            if x in homes and home != x and (x, code) not in plan.routes and (x, code) not in plan.bars:
                yield at["EXCHANGE", x], 5, f"A5 NoList {code}"
        if len(plan.exchanges) > 1 and not any(x in it[:2] for it in plan.groups.values()):
            yield at["EXCHANGE", x], 10, f"A10 NoGroup {x}"
    for code in plan.codes:
        for other in plan.codes:
            if code != other and code.startswith(other):
                yield at["CODE", code], 7, f"A7 Ambiguous {other}"
        if len(plan.exchanges) > 1 and code not in {c for _, c in plan.routes}:
            yield at["CODE", code], 9, f"A9 Unlisted {code}"
    yield from ((at["GROUP", g], 3, f"A3 UnusedGroup {g}") for g in plan.groups if g not in listed)
    yield from ((at["BAR", x, code], 6, "A6 UnusedBar") for x, code in plan.bars if x not in homes)


def lint_rows(text):
    """What is printed of a text, and the exit status."""
    faults = faults_of(text)
    if faults:
        return told(faults), 2
    plan = read(text)
    plan.text = text
    rows = [f"{line}: {it}" for line, _, it in sorted(warnings_of(plan), key=lambda it: it[:2])]
    return rows, 1 if rows else 0


def spoiled(rng, text):
    """A text with a few mistakes in its words."""
    rows = text.splitlines()
    for _ in range(rng.choice((0, 1, 1, 2, 4))):
        at = rng.randrange(1, len(rows) - 1)
        words = rows[at].split("#")[0].split()
        if not words or words[0] in ("PLAN", "END"):
            continue
        place = rng.randrange(len(words))
        rows[at] = rng.choice((
            lambda: " ".join(words[:place] + [words[place].lower()] + words[place + 1:]),
            lambda: " ".join(words[:place] + words[place + 1:]) or "X",
            lambda: " ".join(words[:place + 1] + words[place:]),
            lambda: " ".join(words[:place] + [rng.choice(("0", "Z9", "99", "A0", "300"))] + words[place + 1:]),
            lambda: rows[at] + "\n" + rows[at],
            lambda: "",
        ))()
    return "\n".join(rows) + "\n"


def judge_lint(program, text):
    ran = program.run(["lint", "p"], {"p": text})
    rows, status = lint_rows(text)
    need(ran.out.splitlines() == [f"p:{it}" for it in rows] and ran.status == status, "lint prints", ran.out, "not", rows, status)
