"""Judges the text of a plan that a command makes: a revised text line by line, or a plan written anew."""
from functools import lru_cache

from plans import LONGEST, read
from walks import need


@lru_cache(4)
class Text:
    """The text that was read: its lines, and in which of them lists and bars stand and names are declared."""

    def __init__(self, text):
        self.lines = text.splitlines(keepends=True)
        self.words = [it.partition("#")[0].split() for it in self.lines]
        self.at = {tuple(it[:3 if it[0] in ("ROUTE", "BAR") else 2]): n for n, it in enumerate(self.words) if it}
        self.last = {it[1]: n for n, it in enumerate(self.words) if it[:1] == ["ROUTE"]}
        self.before_end = self.at["END",] - 1

    def may_stand(self, pair, groups, n):
        """Whether all that a list names is declared before a line."""
        return all(self.at[it] < n for it in (("EXCHANGE", pair[0]), ("CODE", pair[1]), *(("GROUP", g) for g in groups)))

    def in_place(self, n, *words):
        """A line in which other words stand, with its blanks, its comment and its end. If that would be too long, they have the line before it."""
        row, new = self.lines[n].rstrip("\r\n"), " ".join(words)
        rest, end = row[len(row.partition("#")[0].rstrip()):], self.lines[n][len(row):]
        return [it + end for it in ([new + rest] if len(new + rest) <= LONGEST else [rest, new]) if it]

    def revised(self, plan):
        """What has to stand in the place of each line, and behind that place: there in any order."""
        places, behind, end = [[it] for it in self.lines], [[] for _ in self.lines], self.lines[0][len(self.lines[0].rstrip("\r\n")):]
        moved = {pair: groups for pair, groups in plan.routes.items() if not self.may_stand(pair, groups, self.at.get(("ROUTE", *pair), -1))}
        for (kind, *words), n in self.at.items():
            groups = plan.routes.get(tuple(words))
            if (kind, words) == ("PLAN", ["1"]) and plan.bars:
                places[n] = self.in_place(n, "PLAN", "2")
            elif (kind == "ROUTE" and not groups) or (kind == "BAR" and tuple(words) not in plan.bars):
                places[n] = []
            elif kind == "ROUTE" and groups != tuple(self.words[n][3:]):
                places[n] = self.in_place(n, *(() if tuple(words) in moved else (kind, *words, *groups)))
        for pair, groups in moved.items():
            last = self.last.get(pair[0], self.before_end)
            behind[last if self.may_stand(pair, groups, last) else self.before_end].append(" ".join(("ROUTE", *pair, *groups)) + end)
        behind[self.before_end] += [f"BAR {x} {code}{end}" for x, code in plan.bars if ("BAR", x, code) not in self.at]
        return zip(places, behind)


def judge_made(made, of, plan):
    """A text that is made says a plan. It is the text of the plan that was read, revised, if both are of one network, and else written anew."""
    need(read(made).says_the_same(plan), "the plan that is written is another one")
    rows, wanted = made.splitlines(keepends=True), []
    if plan.network() != of.network():
        return need(made.startswith(f"PLAN {1 + bool(plan.bars)}\n") and "#" not in made and all(it.split() for it in rows), "the plan is not written anew")
    for place, new in Text(of.text).revised(plan):
        wanted += place
        here = slice(len(wanted), len(wanted) + len(new))
        wanted += rows[here] if new and sorted(rows[here]) == sorted(new) else new
    need(rows == wanted, f"{len(rows)} lines of a revised text and not {len(wanted)}, or one that is not due:", *[it for it in zip(rows, wanted) if it[0] != it[1]][:1])
