"""Judges `order` by all mixtures within each stage."""
from audit import is_safe, judge_cert, judge_findings_of, judge_verdict, numbers
from change import due_between, dues_between, judge_head, parts
from mend import NO_RANK
from plans import join, switch_rows
from revised import judge_made
from walks import NOTHING, heights, need, of_code


def stages_of(rows):
    """The lines of each stage of a report, which are numbered from 1."""
    heads = [n for n, row in enumerate(rows) if row.startswith("STAGE")]
    need(heads[:1] == [0][:len(rows)] and [rows[n] for n in heads] == [f"STAGE {n + 1}" for n in range(len(heads))], f"stages are {rows}")
    return [rows[a + 1:b] for a, b in zip(heads, heads[1:] + [len(rows)])]


def switched(plan, rows):
    """The plan after a stage, which switches these lists and bars."""
    after, places, due = plan.copy(), [], []
    for words in (row.split(" ") for row in rows if not row.startswith("WAS")):
        kind, pair, list_ = words[0], tuple(words[1:3]), tuple(words[3:])
        if "BAR" in kind:
            need((pair in after.bars) == (kind == "UNBAR"), f"no such switch: {words}")
            after.bars ^= {pair}
            due.append(" ".join(words))
        else:
            was = after.routes.pop(pair, ())
            after.routes.update({pair: list_} if list_ else {})
            due += switch_rows(pair, was, list_)
        places.append((plan.exchanges.index(pair[0]), list(plan.codes).index(pair[1]), "BAR" not in kind))
    need(rows == due and places == sorted(set(places)), f"a stage is {rows}, and not {due}, or not in order")
    return after


def levels(before, after):
    """What is switched for a code after what: bars that are set, then lists whose new rank is no greater,
    from the smallest up, then all others, from the greatest old rank down, and then bars that are lifted."""
    (_, lists, opened), (_, then, last) = before, after
    old, new, found = heights(before), heights(after), {(0, 0): set(opened) - set(last), (3, 0): set(last) - set(opened)}
    for x in {it for it, _ in lists + then}:
        if dict(lists).get(x) != dict(then).get(x):
            was, to_be = old.get(x, NO_RANK), new.get(x, NO_RANK)
            key = (1, -1) if was == to_be == NO_RANK else (1, to_be) if to_be <= was else (2, -was)
            found.setdefault(key, set()).add(x)
    return sorted(it for it in found.items() if it[1])


def views_on_the_way(before, after, limit, spare):
    """What a code sees after each of its stages: levels are joined as long as all mixtures are safe."""
    (home, lists, opened), (_, then, last) = before, after
    lists, then, opened, passed = dict(lists), dict(then), set(opened), [before]
    for (kind, _), names in levels(before, after):
        if kind in (0, 3):
            opened ^= names
        else:
            lists.update({x: then.get(x) for x in names})
        at = home, tuple(sorted((x, it) for x, it in lists.items() if it)), tuple(sorted(opened))
        if len(passed) > 1 and due_between(passed[-2], at, limit, spare) == NOTHING:
            passed[-1] = at
        else:
            passed.append(at)
    return passed


def judge_code(views, limit, spare):
    """The stages of a code are those of its levels."""
    views = [(home, lists, tuple(sorted(starts))) for home, lists, starts in views]
    wanted = views_on_the_way(views[0], views[-1], limit, spare)
    wanted += wanted[-1:] * (len(views) - len(wanted))
    need(views == wanted, f"the stages are {views} and not {wanted}")


def judge_stages(before, after, stages, limit, spare):
    """All mixtures of each stage are safe, and the last plan is the new one. Answers the plan before each stage, and after the last one."""
    passed, lifted = [before], set()
    for rows in stages:
        codes = {row.split(" ")[2] for row in rows if not row.startswith("WAS")}
        need(not codes & lifted and (len(passed) == 1 or not any(row.startswith("BAR") for row in rows)), "bars are set first and lifted last")
        lifted |= {row.split(" ")[2] for row in rows if row.startswith("UNBAR")}
        plan = switched(passed[-1], rows)
        need(rows and all(it == NOTHING for it in dues_between(passed[-1], plan, limit, spare).values()), f"a mixture of stage {len(passed)} is not safe")
        passed.append(plan)
    need(passed[-1].says_the_same(after) and len(stages) <= 2 * (limit + 2), "the last plan is not the new one, or there are too many stages")
    for code in before.codes:
        of_code(code, judge_code, [plan.views[code] for plan in passed], limit, spare)
    return passed


def judge_stage(program, old, new, passed, stage, report):
    """Judges the plan and the certificate of a stage, under the same report."""
    limit, spare = report[0].split(" ")[2::2]
    words = ["order", "o", "n", *numbers(limit, spare), "--stage", stage, "--plan", "plan", "--cert", "cert"]
    ran = program.run(words, {"o": old.text, "n": new.text}, ["plan", "cert"])
    plan, cert = ran.made["plan"], ran.made["cert"]
    if stage == len(passed):
        answer = "", f"telexplan: no such stage: the order has {stage - 1}\n", 64, None, None
        need((ran.out, ran.err, ran.status, plan, cert) == answer, f"no such stage: {ran.err}")
        return
    need(plan and cert and ran.out.splitlines() == report and ran.status == 0, f"no file is made, or another report: {ran.out}")
    judge_made(plan, old, passed[stage])
    judge_cert(program, passed[max(stage - 1, 0):max(stage, 1) + 1], cert, int(limit), int(spare))


def judge_order(program, old, new, limit, spare):
    ran = program.run(["order", "o", "n", *numbers(limit, spare)], {"o": old.text, "n": new.text})
    before, after = join(old, new)
    first, _, *last = parts(old, new)
    tail = sum(last, [])
    head = [f"ORDER LIMIT {limit} SPARE {spare}", *first]
    if not judge_head(ran, head, old, new):
        return
    rows = ran.out.splitlines()
    at = rows.index(tail[0], len(head)) if tail[0] in rows else len(rows)
    need(rows[at:at + len(tail)] == tail, f"goes on with {rows[at:at + len(tail)]} and not {tail}")
    stages, rest = rows[len(head):at], rows[at + len(tail):-1]
    ordered = is_safe(before, limit, spare) and is_safe(after, limit, spare)
    yes = ordered and is_safe(new, limit, spare)
    need(yes or not stages, f"stages after a NO: {stages}")
    judge_verdict(rows, yes, ran.status, len(rest))
    if yes:
        need(not rest, f"findings after a YES: {rest}")
        passed = judge_stages(before, after, stages_of(stages), limit, spare)
        for stage in range(len(passed) + 1):
            judge_stage(program, old, new, passed, stage, rows)
        return
    findings = [[row[4:] for row in rest if row.startswith(word)] for word in ("OLD ", "NEW ")]
    need(rest == [f"OLD {row}" for row in findings[0]] + [f"NEW {row}" for row in findings[1]], f"neither OLD nor NEW, or not in order: {rest}")
    judge_findings_of(before, findings[0], limit, spare)
    judge_findings_of(new if ordered else after, findings[1], limit, spare)
