"""Judges `survive` by all walks over the lists that each outage leaves."""
from functools import lru_cache

from audit import judge_verdict
from walks import follow, need, survey, walks


def outages(plan, risks, only):
    """Each outage: its two words, the groups that fail, and the exchange that fails, if one does."""
    found = [(f"RISK {name}", frozenset(groups), None) for name, groups in risks]
    if not only:
        found += [(f"GROUP {g}", frozenset([g]), None) for g in plan.groups]
        found += [(f"EXCHANGE {x}", frozenset(g for g, it in plan.groups.items() if x in it[:2]), x) for x in plan.exchanges]
    return found


def left(lists, failed):
    """The lists without the groups that failed, as far as something is left of them."""
    kept = ((x, tuple(it for it in groups if it[0] not in failed)) for x, groups in lists)
    return tuple(it for it in kept if it[1])


@lru_cache(1 << 14)
def ends_of(home, lists, start):
    """Whether a walk leads home, and the least steps to each exchange where none is left."""
    has, ends, is_home = {x for x, _ in lists}, {}, False
    for walk in walks(home, lists, start):
        if walk[-1] == home:
            is_home = True
        elif walk[-1] not in has:
            ends[walk[-1]] = min(len(walk) - 1, ends.get(walk[-1], len(walk)))
    return is_home, ends


def cuts_of(views, failed, failing):
    """Of each code and each exchange that is cut off or led astray, which of the two, and its ends."""
    found = {}
    for code, (home, lists, starts) in views.items():
        if home != failing:
            kept = left(lists, failed)
            for start in starts:
                is_home, ends = ends_of(home, kept, start)
                if ends and start != failing:
                    found[code, start] = ("STRAY" if is_home else "CUT", min(ends.values()))
    return found


def judge_outage(plan, views, rows, cuts, failed):
    """The lines of an outage: the pairs that are due, each with a shortest walk, in order."""
    told, places = {}, []
    codes, exchanges = ({name: n for n, name in enumerate(names)} for names in (plan.codes, plan.exchanges))
    for row in rows:
        kind, code, start, via, *words = row.split(" ")
        need(code in views and via == "VIA" and words[0] == start, f"not a line of an outage: {row}")
        home, lists, starts = views[code]
        kept = left(lists, failed)
        passed = follow(words, (home, kept, starts))
        need(passed[-1] not in dict(kept) and passed[-1] != home, f"a group is left at the end: {row}")
        told[code, start] = (kind, len(passed) - 1)
        places.append((exchanges[passed[-1]], codes[code], exchanges[start]))
    need(len(told) == len(rows) and told == cuts and places == sorted(places), f"told is {rows} and not, in order, {cuts}")


def counts(cuts):
    """How many are cut off, and how many are led astray."""
    return tuple([kind for kind, _ in cuts.values()].count(it) for it in ("CUT", "STRAY"))


def totals(counted):
    """The lines of the totals."""
    rows = [f"{name} CUT {n} STRAY {m}" for name, n, m in counted if n or m]
    for kind in ("RISK", "GROUP", "EXCHANGE"):
        none = sum(name.startswith(kind + " ") and not n and not m for name, n, m in counted)
        rows += [f"{kind}S {none} CUT 0"] * (none > 0)
    return rows


def partly_known(risks, groups):
    """The names of the risks that name other groups than these."""
    return [name for name, it in risks if not set(it) <= set(groups)]


def text_of(risks, groups):
    """The risks as a text. Risks that name other groups than these have a header of version 2."""
    header = f"RISKS {2 if partly_known(risks, groups) else 1}"
    return "\n".join([header, *(f"RISK {name} {' '.join(it)}" for name, it in risks), "END\n"])


def head_of(count, risks, groups):
    """The first lines of the report of so many outages."""
    return [f"SURVIVE RISKS {count}", *(f"RISK {name} PARTLY KNOWN" for name in partly_known(risks, groups))]


def judge_survive(program, plan, risks, only=False):
    """Judges the report of all outages of a plan."""
    words = ["survive", "p", "--risks", "r"] + ["--risks-only"] * only
    ran = program.run(words, {"p": plan.text, "r": text_of(risks, plan.groups)})
    views = plan.views
    if plan.ambiguous or not all(survey(it).grade() for it in views.values()):
        grade = program.run(["grade", "p"], {"p": plan.text})
        need(ran.out == grade.out and ran.status == 1, f"a plan without a grade gets {ran.out}")
        return
    tried = [(name, failed, cuts_of(views, failed, failing)) for name, failed, failing in outages(plan, risks, only)]
    counted = [(name, *counts(cuts)) for name, _, cuts in tried]
    head = [*head_of(len(tried), risks, plan.groups), *totals(counted)]
    rows = ran.out.splitlines()
    judge_verdict(rows, not any(cuts for _, _, cuts in tried), ran.status, sum(len(cuts) for _, _, cuts in tried))
    need(rows[:len(head)] == head, f"the totals are {rows[:len(head)]} and not {head}")
    rest = rows[len(head):-1]
    for name, failed, cuts in tried:
        if cuts:
            need(rest[:1] == [name], f"no lines of {name}")
            judge_outage(plan, views, rest[1:len(cuts) + 1], cuts, failed)
            rest = rest[len(cuts) + 1:]
    need(not rest, f"more lines: {rest}")


def grade_of(plan):
    """The limit and the spare number of a plan; nothing without a grade."""
    grades = [survey(it).grade() for it in plan.views.values()]
    if plan.ambiguous or not all(grades):
        return None
    return max((it[0] for it in grades), default=0), min((min(it[1], 15) for it in grades), default=15)


def standing(worse, better):
    return "WORSE" if worse else "BETTER" if better else "SAME"


def worse_off(cuts, others):
    """Those who are cut off and not so by the others, or led astray and neither by the others."""
    rank = {"CUT": 2, "STRAY": 1}
    return [it for it, (kind, _) in cuts.items() if rank[kind] > rank.get(others.get(it, ("", 0))[0], 0)]


def judge_other(plan, rows, cuts, others, failed):
    """The lines of an outage that the other plan has not: each with a shortest walk, by codes and exchanges."""
    due = {it: found for it, found in cuts.items() if others.get(it, ("", 0))[0] != found[0]}
    orders = [list(plan.codes).index, list(plan.exchanges).index]
    places = [tuple(order(word) for order, word in zip(orders, row.split(" ")[1:3])) for row in rows]
    need(places == sorted(places), f"not in order: {rows}")
    by_ends = sorted(rows, key=lambda row: (list(plan.exchanges).index(row.split(" ")[-1]), *(order(word) for order, word in zip(orders, row.split(" ")[1:3]))))
    judge_outage(plan, plan.views, by_ends, due, failed)


def judge_from(program, old, new, risks, only=False):
    """Judges the report of all outages of two plans that do not contradict each other."""
    words = ["survive", "n", "--from", "o", "--risks", "r"] + ["--risks-only"] * only
    ran = program.run(words, {"o": old.text, "n": new.text, "r": text_of(risks, {**old.groups, **new.groups})})
    for plan, head in ((new, ""), (old, "WAS ")):
        if grade_of(plan) is None:
            grade = program.run(["grade", "p"], {"p": plan.text})
            need(ran.out == head + grade.out and ran.status == 1, f"a plan without a grade gets {ran.out}")
            return
    sides = []
    for plan in (new, old):
        own = [(name, [g for g in groups if g in plan.groups]) for name, groups in risks]
        sides.append({name: (failed, cuts_of(plan.views, failed, failing)) for name, failed, failing in outages(plan, own, only)})
    kinds = ["RISK", "GROUP", "EXCHANGE"]
    names = sorted(dict.fromkeys([*sides[1], *sides[0]]), key=lambda it: kinds.index(it.split(" ")[0]))
    both = [(name, *(side.get(name, (frozenset(), {})) for side in sides)) for name in names]
    (l, k), (m, j) = map(grade_of, (new, old))
    said = [standing(l > m or k < j, m > l or j < k)]
    head = [*head_of(len(names), risks, {**old.groups, **new.groups}), f"{said[0]} GRADE LIMIT {l} SPARE {k} WAS LIMIT {m} SPARE {j}"]
    for name, (_, now), (_, then) in both:
        said.append(standing(worse_off(now, then), worse_off(then, now)))
        if now or then:
            (a, b), (c, d) = counts(now), counts(then)
            head.append(f"{said[-1]} {name} CUT {a} STRAY {b} WAS CUT {c} STRAY {d}")
    for kind in kinds:
        none = sum(name.startswith(kind + " ") and not now and not then for name, (_, now), (_, then) in both)
        head += [f"{kind}S {none} CUT 0"] * (none > 0)
    rows = ran.out.splitlines()
    judge_verdict(rows, "WORSE" not in said, ran.status, said.count("WORSE"))
    need(rows[:len(head)] == head, f"the totals are {rows[:len(head)]} and not {head}")
    rest = rows[len(head):-1]
    for (name, (failed, now), (gone, then)), what in zip(both, said[1:]):
        if what != "SAME":
            need(rest[:1] == [name], f"no lines of {name}")
            end = next((n for n, row in enumerate(rest[1:], 1) if row in names), len(rest))
            mine = [row for row in rest[1:end] if not row.startswith("WAS ")]
            judge_other(new, mine, now, then, failed)
            judge_other(old, [row.removeprefix("WAS ") for row in rest[1 + len(mine):end]], then, now, gone)
            rest = rest[end:]
    need(not rest, f"more lines: {rest}")
