"""Judges `audit`, `grade`, `codes` and `check` by all walks."""
from walks import heights, judge_findings, need, survey


def numbers(limit, spare):
    return ["--limit", limit, "--spare", spare]


def is_safe(plan, limit, spare):
    """Whether an audit has to say YES."""
    return not plan.ambiguous and all(survey(view).is_safe(limit, spare) for view in plan.views.values())


def judge_verdict(rows, yes, status, count):
    """The last line says YES, or NO with the number of findings, and so does the status."""
    need(rows[-1] == ("VERDICT YES" if yes else f"VERDICT NO {count}") and status == (not yes), f"ends with {rows[-1]} and status {status}")


def judge_findings_of(plan, rows, limit, spare):
    """Judges the findings of an audit of a plan."""
    views = plan.views
    dues = {code: survey(view).due(limit, spare) for code, view in views.items()}
    judge_findings(rows, plan.ambiguous, views, dues, limit)


def ranks_of(text):
    """The ranks of a certificate, by codes and exchanges."""
    rows = [row.split() for row in text.splitlines()]
    need(rows[0] == ["CERT", "1"] and rows[-1] == ["END"], "no certificate")
    return {(code, x): int(rank) for _, code, x, rank in rows[1:-1]}


def cert_answer(plan, ranks, limit, spare):
    """What a check has to print: YES, or the first of the faults with the least number."""
    faults = []
    for n, (code, (home, _, starts)) in enumerate(plan.views.items()):
        for m, x in enumerate(plan.exchanges):
            rank, groups = ranks.get((code, x)), plan.routes.get((x, code), ())
            found = [("K4", f"{code} {x}")] if rank is not None and rank > limit + 1 else []
            if x == home:
                found += [("K2", code)] if rank != 0 else []
            elif rank is None:
                found += [("K3", f"{code} {x}")] if x in starts else []
            else:
                found += [("K5", f"{code} {x}")] if len(groups) <= spare else []
                fars = [(g, ranks.get((code, plan.far(g, x)))) for g in groups]
                found += [("K6" if far is None else "K7", f"{code} {x} {g}") for g, far in fars if far is None or far >= rank]
            faults += [(kind, n, m, place, words) for place, (kind, words) in enumerate(found)]
    if plan.ambiguous:
        return "NO K1 {} {}".format(*min(plan.ambiguous))
    return "NO {0} {4}".format(*min(faults)) if faults else "YES"


def judge_check(program, plan, text, limit, spare):
    """Judges what a check says of a certificate."""
    wanted = cert_answer(plan, ranks_of(text), limit, spare)
    ran = program.run(["check", "p", "c", *numbers(limit, spare)], {"p": plan.text, "c": text})
    need(ran.out == wanted + "\n" and ran.status == (wanted != "YES"), f"check says {ran.out} and not {wanted}")


def judge_cert(program, plans, text, limit, spare):
    """A certificate that was made has to be right for each of some plans, and a check has to say so of the last one."""
    for plan in plans:
        answer = cert_answer(plan, ranks_of(text), limit, spare)
        need(answer == "YES", f"the certificate is wrong: {answer}")
    judge_check(program, plans[-1], text, limit, spare)


def judge_cert_faults(program, plan, rng, limit, spare):
    """Judges checks of ranks that are right or nearly so."""
    found = {}
    for code, view in plan.views.items():
        known = {} if survey(view).loop else heights(view)
        found.update({(code, x): known.get(x, rng.randint(0, 3)) for x in (view[0], *survey(view).nearest)})
    for _ in range(2):
        ranks = {it: rng.randint(0, 5) if rng.random() < 0.15 else rank for it, rank in found.items() if rng.random() < 0.9}
        rows = [f"RANK {code} {x} {rank}" for (code, x), rank in ranks.items()]
        judge_check(program, plan, "\n".join(["CERT 1", *rows, "END\n"]), limit, spare)


def judge_counter(program, plan, script, row):
    """The script of a finding: no event is refused, and its one call goes along the walk."""
    ran = program.run(["run", "p", "s", "--strict"], {"p": plan.text, "s": script})
    kind, _, code, _, *walk = row.split(" ")
    key = [line.split() for line in script.splitlines() if line.startswith("KEY")][0]
    line = [it for of in plan.codes for it in plan.lines if it[0] == of and plan.codes[of] == walk[0]][0]
    need(ran.status == 0 and key[1:] == [*line[:2], code], f"another call, or an event is refused: {script}{ran.out}")
    replies = [reply.split() for reply in ran.out.splitlines()]
    passed = [words[1].split(".")[0] for words in replies if words[0] in ("SEIZED", "AT")]
    need([walk[0], *passed] == walk, f"the call goes by {passed}")
    need(("ANSWERED NC\n" in ran.out) == (kind == "F3") and replies[-1][-1] == ("0" if kind == "F3" else "1"), f"the call ends otherwise: {ran.out}")


def turns_back(plan, row):
    """Whether a finding is a loop that turns back on a group of a single circuit."""
    words = row.split(" ")
    return words[0] == "F2" and words[-4:-3] == words[-2:-1] and plan.groups[words[-2]][3] == 1


def judge_audit(program, plan, limit, spare, also=True):
    """Judges an audit, and where `also` says so the certificate or the script that it makes."""
    made = ["cert", "script"] if also else []
    ran = program.run(["audit", "p", *numbers(limit, spare), *(["--cert", "cert", "--counter", "script"] if also else [])], {"p": plan.text}, made)
    rows, safe = ran.out.splitlines(), is_safe(plan, limit, spare)
    need(rows[0] == f"AUDIT LIMIT {limit} SPARE {spare}", f"begins with {rows[0]}")
    judge_verdict(rows, safe, ran.status, len(rows) - 2)
    judge_findings_of(plan, rows[1:-1], limit, spare)
    if also:
        cert, script = ran.made["cert"], ran.made["script"]
        shown = next((row for row in rows[1:-1] if "VIA" in row and not turns_back(plan, row)), None)
        need((cert is not None, script is not None) == (safe, shown is not None), "another file is made")
        if safe:
            judge_cert(program, [plan], cert, limit, spare)
            ranks = ranks_of(cert)
            wrong = [(code, x) for code, view in plan.views.items() for x, height in heights(view).items() if ranks[code, x] != height]
            need(not wrong, f"the ranks of {wrong} are not their heights")
        if shown:
            judge_counter(program, plan, script, shown)


def judge_grade(program, plan):
    """Judges the grade of a plan and of each code, and what no numbers cure."""
    ran = program.run(["grade", "p"], {"p": plan.text})
    grades = [survey(view).grade() for view in plan.views.values()]
    whole = None
    if all(grades) and not plan.ambiguous:
        whole = max((it[0] for it in grades), default=0), min((it[1] for it in grades), default=15)
    rows = ran.out.splitlines()
    told = ["LIMIT {} SPARE {}".format(*it) if it else "NONE" for it in [whole, *grades]]
    head = [f"{words} {it}" for words, it in zip(["GRADE", *(f"CODE {code}" for code in plan.codes)], told)]
    need(rows[:len(head)] == head and (not whole or rows == head), f"the grades are {rows} and not {head}")
    need(not whole or ran.status == 0, f"the status is {ran.status}")
    if not whole:
        judge_verdict(rows, False, ran.status, len(rows) - len(head) - 1)
        judge_findings_of(plan, rows[len(head):-1], len(plan.exchanges), 0)


def judge_codes(program, plan):
    """Judges the list of codes."""
    ran = program.run(["codes", "p"], {"p": plan.text})
    last = "AMBIGUOUS {} {}".format(*min(plan.ambiguous)) if plan.ambiguous else "DISTINCT"
    wanted = [f"CODE {code} {home}" for code, home in plan.codes.items()] + [last]
    need(ran.out.splitlines() == wanted and ran.status == bool(plan.ambiguous), f"codes prints {ran.out}")
