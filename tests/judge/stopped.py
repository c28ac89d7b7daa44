"""Judges an order from where another one was stopped: it is that from the plan that is made by hand, which another topic judges."""
from audit import numbers
from order import stages_of, switched
from plans import by_hand, join
from walks import need


def mixed(before, after, done):
    """The plan before a stage, with the lists and bars of these pairs as after it."""
    plan = before.copy()
    for pair in done:
        plan.routes.pop(pair, None)
        plan.routes.update({pair: after.routes[pair]} if pair in after.routes else {})
        plan.bars = plan.bars - {pair} | {pair} & after.bars
    return plan


def pairs_until(passed, stage):
    """Of which exchanges and codes the stages up to this one switch something."""
    first, last = passed[0], passed[stage]
    return [(x, code) for x in first.exchanges for code in first.codes
            if first.routes.get((x, code)) != last.routes.get((x, code)) or ((x, code) in first.bars) != ((x, code) in last.bars)]


def refused(passed, stage, pairs, rng):
    """A line that is wrong, and its fault."""
    plan = passed[0]
    others = [(x, code) for x in plan.exchanges for code in plan.codes if (x, code) not in pairs]
    choices = [("D1 WrongCount", plan.exchanges[0]), ("D1 WrongCount", "END 1 2"), ("D2 UnknownName", f"ZZ9 {[*plan.codes, 99][0]}")]
    fault, row = rng.choice(choices + [("D3 NotSwitched", " ".join(pair)) for pair in others[:1]])
    return row, fault


def judge_stopped(program, old, new, at, now, down, rng):
    """Stops the order of two plans in each stage, and leads it on or back for another spare number, perhaps while a group is down."""
    texts, asked = {"o": old.text, "n": new.text}, ["order", "o", "n", *numbers(*at)]
    rows = program.run(asked, texts).out.splitlines()
    passed = [join(old, new)[0]]
    if rows[-1:] == ["VERDICT YES"]:
        start = next(n for n, row in enumerate(rows) if row.startswith(("STAGE", "AFTER", "LISTS")))
        end = next(n for n, row in enumerate(rows) if row.startswith(("AFTER", "LISTS")))
        for stage in stages_of(rows[start:end]):
            passed.append(switched(passed[-1], stage))
    elif not all(row.startswith("NEW F") for row in rows if " F" in row):
        ran = program.run([*asked, "--stage", 0, "--back"], texts)
        need((ran.status, ran.out, ran.err) == (64, "", "telexplan: no such stage: the order has 0\n"), f"stopped in {ran.out}{ran.err}")
        return
    else:
        return
    for stage in range(len(passed)):
        pairs = pairs_until(passed, stage)
        done = rng.sample(pairs, rng.randrange(len(pairs) + 1)) if rng.random() < 0.8 else None
        back, fault = rng.random() < 0.5, rng.random() < 0.1
        lines = [" ".join(pair) for pair in done or ()]
        if fault and done is not None:
            row, kind = refused(passed, stage, pairs, rng)
            lines.append(row)
        text = by_hand(["DONE 1", *lines, "END"])
        words = [*asked, "--stage", stage, *(["--done", "d"] if done is not None else []), *(["--back"] if back else []), "--spare-now", now, *(["--down", down] if down else [])]
        ran = program.run(words, {**texts, "d": text})
        if fault and done is not None:
            number = next(n for n, it in enumerate(text.splitlines(), 1) if it.split("#")[0].split() == row.split())
            need((ran.status, ran.out, ran.err) == (2, "", f"telexplan: done line {number}: {kind}\n"), f"refused as {ran.err}")
            continue
        plan = mixed(passed[max(stage - 1, 0)], passed[stage], pairs if done is None else done)
        target = passed[0] if back else passed[-1]
        wanted = program.run(["order", "m", "t", *numbers(at[0], now), *(["--down", down] if down else [])], {"m": plan.text, "t": target.text})
        need((ran.status, ran.out) == (wanted.status, wanted.out.replace("ORDER", "RETURN" if back else "ONWARD", 1)), f"{words} says {ran.out}{ran.err} and not {wanted.out}")
        need(down or now > at[1] or ran.status == 0, f"no order from where one was stopped: {ran.out}")
