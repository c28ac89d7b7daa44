"""Judges `change` by all mixtures of the lists and bars of two plans."""
from functools import lru_cache
from itertools import product
from random import Random

from audit import is_safe, judge_cert, judge_counter, judge_findings_of, judge_verdict, numbers, turns_back
from plans import contradiction, join, switched_rows
from revised import judge_made
from walks import NOTHING, judge_findings, need, survey


def mixtures(old, new):
    """What a code sees of each mixture of two plans: each list is the old one or the new one, and so is each bar."""
    (home, before, opened), (_, after, then) = old, new
    lists = [{(x, dict(it).get(x)) for it in (before, after)} for x in sorted({x for x, _ in before + after})]
    starts = [{x, None} if (x in opened) != (x in then) else {x} for x in sorted({*opened, *then})]
    for chosen in product(*lists, *starts):
        yield home, tuple(it for it in chosen[:len(lists)] if it[1]), tuple(x for x in chosen[len(lists):] if x)


@lru_cache(1 << 14)
def due_between(old, new, limit, spare):
    """What a change has to find for a code: what the audits of all mixtures find."""
    loops, shorts, longs = zip(*(survey(view).due(limit, spare) for view in mixtures(old, new)))
    if any(loops):
        return True, {}, False
    return False, {x: min(it[x] for it in shorts if x in it) for x in set().union(*shorts)}, any(longs)


def dues_between(old, new, limit, spare):
    then = new.views
    return {code: due_between(view, then[code], limit, spare) for code, view in old.views.items()}


def both(old, new):
    """By what a walk of a change may go: the old list and the new one, from each start."""
    (home, before, opened), (_, after, then) = old, new
    names = sorted({x for x, _ in before + after})
    return home, tuple((x, dict(before).get(x, ()) + dict(after).get(x, ())) for x in names), (*opened, *then)


def entries(old, new):
    """The entries of the network that a plan has and another one has not, by their kind: the lines that name them."""
    lines = [[" ".join(it) for it in plan.lines] for plan in (old, new)]
    kinds = (("EXCHANGE", old.exchanges, new.exchanges), ("CODE", old.codes, new.codes), ("LINES", *lines), ("GROUP", old.groups, new.groups))
    return {kind: [f"{kind} {it}" for it in own if it not in other] for kind, own, other in kinds}


def alone(plan, other, of):
    """The pairs for an exchange or a code that the other plan has not."""
    return [(x, code) for x, code in of if x not in other.exchanges or code not in other.codes]


def listed(word, plan, other):
    """The lines of the lists and bars that a plan has alone, after a word."""
    lists = [f"{word} ROUTE {' '.join((*it, *plan.routes[it]))}" for it in alone(plan, other, plan.declared("ROUTE"))]
    return lists + [f"{word} BAR {' '.join(it)}" for it in alone(plan, other, plan.declared("BAR"))]


def circuits(old, new, grows):
    counts = [(g, it[3], new.groups[g][3]) for g, it in old.groups.items() if g in new.groups]
    return [f"CIRCUITS {g} {n} {m}" for g, n, m in counts if (n < m if grows else n > m)]


def parts(old, new):
    """The lines before what is switched, the line that begins it, the lines after it, and the line that counts lists."""
    come, go = entries(new, old), entries(old, new)
    before = [f"NEW {it}" for it in come["EXCHANGE"] + come["GROUP"]] + circuits(old, new, True) + listed("NEW", new, old)
    after = [f"GONE {it}" for kind in ("EXCHANGE", "CODE", "LINES", "GROUP") for it in go[kind]] + circuits(old, new, False) + listed("GONE", old, new)
    after += [f"NEW {it}" for it in come["CODE"] + come["LINES"]]
    shared = {it for it in {*old.routes, *new.routes} if all(it[0] in p.exchanges and it[1] in p.codes for p in (old, new))}
    put, gone = len(alone(new, old, new.routes)), len(alone(old, new, old.routes))
    changed = sum(old.routes.get(it) != new.routes.get(it) for it in shared)
    counts = f"LISTS {put + changed + gone} NEW {put} CHANGED {changed} GONE {gone}"
    some = before or after
    return ["BEFORE", *before] * bool(some), ["SWITCH"] * bool(some), ["AFTER", *after] * bool(some), [counts]


def shown_mixture(old, new, row, spare):
    """The old plan with the lists and the bar of the new one that the walk of a finding needs."""
    kind, _, code, _, *walk = row.split(" ")
    plan = old.copy()
    needed = [x for x, g in zip(walk[0::2], walk[1::2]) if g not in old.routes.get((x, code), ())]
    needed += [walk[-1]] * (kind == "F3" and len(old.routes.get((walk[-1], code), ())) > spare)
    for pair in ((x, code) for x in needed):
        plan.routes.pop(pair, None)
        plan.routes.update({pair: new.routes[pair]} if pair in new.routes else {})
    plan.bars.discard((walk[0], code))
    return plan


def judge_shown(program, ran, of, old, new, findings, limit, spare):
    """Judges the mixture and the script that a change from `of` shows, over the joined network: those of the first finding that has a walk."""
    shown = next((row for row in findings if "VIA" in row), None)
    mixture, script = ran.made["mixture"], ran.made["script"]
    need((mixture is None) == (shown is None), "a mixture is made, or none")
    if shown:
        wanted = new if shown.startswith("NEW ") else shown_mixture(old, new, shown, spare)
        judge_made(mixture, of, wanted)
        need(not is_safe(wanted, limit, spare), "the mixture is safe")
    need((script is None) == (not shown or turns_back(wanted, shown.removeprefix("NEW "))), "a script is made, or none")
    if script is not None:
        judge_counter(program, wanted, script, shown.removeprefix("NEW "))


def some_mixture(old, new):
    """A mixture of two plans."""
    plan, rng = old.copy(), Random(old.text)
    pairs = sorted({*old.routes, *new.routes})
    plan.routes = {it: list_ for it in pairs if (list_ := rng.choice((old, new)).routes.get(it))}
    plan.bars = {it for it in sorted(old.bars | new.bars) if it in rng.choice((old, new)).bars}
    return plan


def judge_head(ran, head, old, new):
    """The first lines of a report of two plans, which are over their joined network, or the line of a contradiction. Whether there is a report."""
    line = contradiction(old, new)
    need(not line or (ran.out, ran.err, ran.status) == ("", line, 2), f"a contradiction is told as {ran.out}{ran.err}")
    need(line or ran.out.splitlines()[:len(head)] == head, f"begins with {ran.out.splitlines()[:len(head)]} and not {head}")
    return not line


def judge_change(program, old, new, limit, spare):
    words = ["change", "o", "n", *numbers(limit, spare), "--cert", "cert", "--mixture", "mixture", "--counter", "script"]
    ran = program.run(words, {"o": old.text, "n": new.text}, ["cert", "mixture", "script"])
    before, after = join(old, new)
    first, switch, last, counts = parts(old, new)
    head = [f"CHANGE LIMIT {limit} SPARE {spare}", *first, *switch, *switched_rows(before, after), *last, *counts]
    if not judge_head(ran, head, old, new):
        return
    rows = ran.out.splitlines()
    findings = rows[len(head):-1]
    dues = dues_between(before, after, limit, spare)
    sound = not before.ambiguous and all(it == NOTHING for it in dues.values())
    yes = sound and is_safe(new, limit, spare)
    judge_verdict(rows, yes, ran.status, len(findings))
    if sound and not yes:
        need(all(row.startswith("NEW ") for row in findings), f"a finding is not of NEW: {findings}")
        judge_findings_of(new, [row[4:] for row in findings], limit, spare)
    else:
        walked = {code: both(view, after.views[code]) for code, view in before.views.items()}
        judge_findings(findings, before.ambiguous, walked, dues, limit)
    need((ran.made["cert"] is not None) == yes, "a certificate is made, or none")
    if yes:
        judge_cert(program, [before, after, some_mixture(before, after)], ran.made["cert"], limit, spare)
    judge_shown(program, ran, old, before, new if sound else after, findings, limit, spare)
