"""Judges what is said while groups are down: the same as of plans whose lists lack these groups, and that lack them for `mend`, which other topics judge by all walks."""
from audit import numbers
from walks import need


def left(plan, gone):
    """The plan without these groups in its lists, and without the lists that have no others."""
    other = plan.copy()
    kept = {pair: tuple(g for g in groups if g not in gone) for pair, groups in plan.routes.items()}
    other.routes = {pair: groups for pair, groups in kept.items() if groups}
    return other


def without(plan, gone):
    """The plan that is left, without these groups in its network too."""
    other = left(plan, gone)
    other.groups = {name: it for name, it in plan.groups.items() if name not in gone}
    return other


def judge_down(program, old, new, at, down, exchange):
    """Judges each command of one plan or of two that takes what is down."""
    asked = (["--down", ",".join(down)] if down else []) + (["--down-exchange", exchange] if exchange else [])
    missing = [f"exchange in the plan: {exchange}"] if exchange and exchange not in old.exchanges + new.exchanges else []
    missing += [f"group in the plan: {g}" for g in down if g not in old.groups and g not in new.groups]

    gone = {g for plan in (old, new) for g, it in plan.groups.items() if g in down or exchange in it[:2]}

    def texts(judged):
        return {name: judged(plan, gone).text for name, plan in zip("pq", (old, new))}

    for words in (["audit", "p", *numbers(*at)], ["mend", "p", *numbers(*at)], ["grade", "p"], ["survive", "p"], ["change", "p", "q", *numbers(*at)], ["order", "p", "q", *numbers(*at)], ["survive", "q", "--from", "p"]):
        if "q" not in words and (any(g not in old.groups for g in down) or exchange and exchange not in old.exchanges):
            continue
        ran = program.run([*words, *asked], texts(lambda plan, gone: plan))
        if missing:
            told = ran.err.split(";")[0].rstrip("\n")
            need((ran.status, ran.out, told) == (64, "", f"telexplan: no such {missing[0]}"), f"refused as {ran.err}")
            continue
        wanted = program.run(words, texts(without if words[0] == "mend" else left))
        # (each text has its lists in an order of its own, in which some lines of two plans stand)
        said, due = (sorted(it.out.split("\n")) if "q" in words else it.out for it in (ran, wanted))
        need((ran.status, said) == (wanted.status, due), f"{words} says {ran.out} and not {wanted.out}")
