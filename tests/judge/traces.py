"""Judges `trace --through` and `trace --from` by all walks."""
from collections import Counter
from functools import lru_cache

from survive import left
from walks import need, walks


@lru_cache(1 << 14)
def passed(home, lists, start):
    """The exchanges to which calls may come, and the groups by which they may go."""
    met = {x for walk in walks(home, lists, start) for x in walk}
    return met, {g for x, groups in lists if x in met and x != home for g, _ in groups}


def starts(plan):
    """The calls that may start, each by its code and its exchange, in order."""
    homes = {plan.codes[code] for code, _, _ in plan.lines}
    return [(code, x) for code in plan.codes for x in plan.exchanges if x in homes and (x, code) not in plan.bars]


def first_way(plan, code, x):
    """The path of the only call: from each exchange by the first group of its list that has a free circuit."""
    way, been, used = [x], set(), Counter()
    while x != plan.codes[code] and x not in been:
        been.add(x)
        free = [g for g in plan.routes.get((x, code), ()) if used[g] < plan.groups[g][3]]
        if not free:
            break
        used[free[0]] += 1
        x = plan.far(free[0], x)
        way += [free[0], x]
    return way


def judge_through(program, plan, name, down):
    """Judges which calls can pass an exchange or a group, while some groups are down."""
    ran = program.run(["trace", "p", "--through", name] + ["--down", ",".join(down)] * bool(down), {"p": plan.text})
    rows = [f"TRACE THROUGH {name}"] + [f"DOWN {' '.join(down)}"] * bool(down)
    for code, x in starts(plan):
        home, lists, _ = plan.views[code]
        rows += [f"CODE {code} FROM {x}"] * (name in passed(home, left(lists, down), x)[name not in plan.exchanges])
    need(ran.out.splitlines() == rows and ran.status == 0, f"passing are {rows} and not {ran.out.splitlines()}")


def in_blocks(rows):
    """These rows, with those of exchanges that calls gain or lose in order of their names: the walks do not say in which they come."""
    found = []
    for row in rows:
        if row.startswith(("GAINS", "LOSES")) and found and found[-1][0][:5] == row[:5]:
            found[-1] = sorted([*found[-1], row])
        else:
            found.append([row])
    return found


def judge_way_changes(program, plan, old, calls=None):
    """Judges which calls go another way than in an old plan: those for a code from an exchange, or all."""
    rows, count, both = [], 0, set(starts(plan)) & set(starts(old))
    for code, x in [calls] if calls else [it for it in starts(plan) if it in both]:
        ways = [first_way(it, code, x) for it in (plan, old)]
        now, was = (passed(*it.views[code][:2], x)[0] for it in (plan, old))
        if ways[0] != ways[1] or now != was:
            count += 1
            rows += [f"CODE {code} FROM {x}", f"FIRST {' '.join(ways[0])}"] + [f"WAS {' '.join(ways[1])}"] * (ways[0] != ways[1])
            rows += [*(f"GAINS {it}" for it in now - was), *(f"LOSES {it}" for it in was - now)]
    words = ["trace", "p", *(reversed(calls) if calls else ()), "--from", "o"]
    ran = program.run(words, {"p": plan.text, "o": old.text})
    told, rows = ran.out.splitlines(), [f"TRACE CHANGES {count}", *rows]
    need(in_blocks(told) == in_blocks(rows) and ran.status == 0, f"changes are {rows} and not {told}")
