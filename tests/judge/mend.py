"""Judges `mend` by all routings: all lists that the exchanges may have over the groups of a network."""
from functools import lru_cache
from itertools import combinations, product

from audit import judge_cert, judge_verdict, numbers
from plans import switched_rows
from revised import judge_made
from walks import need, of_code, survey

NO_RANK = 1 << 9


@lru_cache(64)
class Network:
    """All routings of a network for a code with this home, with what the calls of each exchange do."""

    def __init__(self, exchanges, home, seizable):
        self.exchanges, self.home, self.seizable = exchanges, home, dict(seizable)
        self.rest = [x for x in exchanges if x != home]
        self.routings = []
        sets = ([it for n in range(len(groups) + 1) for it in combinations(groups, n)] for x, groups in seizable if x != home)
        for chosen in product(*sets):
            lists = tuple(it for it in zip(self.rest, chosen) if it[1])
            calls = {x: survey((home, lists, (x,))) for x in self.rest}
            self.routings.append(({x: {g for g, _ in groups} for x, groups in zip(self.rest, chosen)}, calls))

    @lru_cache(None)
    def safe(self, starts, limit, spare):
        """The routings that are safe for calls that start here."""
        return [lists for lists, calls in self.routings if all(calls[x].is_safe(limit, spare) for x in starts)]

    @lru_cache(None)
    def least(self, x, spare):
        """Over how many groups a call from an exchange has to go at least, whatever the limit."""
        if x == self.home:
            return 0
        return min((calls[x].away + 1 for _, calls in self.routings if not calls[x].loop and calls[x].least > spare), default=NO_RANK)

    def leading_on(self, x, limit, spare):
        """How many of the groups of an exchange lead to exchanges that can be served within the limit."""
        return sum(self.least(y, spare) <= limit + 1 for _, y in self.seizable[x])


def networks_of(plan):
    """The network of each home of a code."""
    seizable = tuple((x, tuple(plan.seizable(x))) for x in plan.exchanges)
    return {home: Network(tuple(plan.exchanges), home, seizable) for home in set(plan.codes.values())}


def is_mendable(plan, limit, spare):
    nets = networks_of(plan)
    return not plan.ambiguous and all(nets[home].safe(starts, limit, spare) for home, _, starts in plan.views.values())


def least_ranks(net, kept, limit, spare):
    """The least ranks with which each group that is kept leads down, and more than k groups do."""
    ranks = {net.home: 0}
    for rank in range(1, limit + 2):
        below = {x: {g for g, y in net.seizable[x] if y in ranks} for x in net.rest if x not in ranks}
        ranks.update((x, rank) for x, groups in below.items() if len(groups) > spare and kept[x] <= groups)
    return ranks


def by_the_rule(net, lists, starts, limit, spare):
    """Which groups stay, by the rule of docs/FORMATS.md, and the ranks then. Each time that ranks are raised, all groups that lead to a smaller rank stay."""
    kept = {x: set() for x in net.rest}
    ranks = first = least_ranks(net, kept, limit, spare)
    order = sorted((x for x in net.rest if x in first), key=first.get)

    def stay():
        for x in set(order) & set(ranks):
            kept[x] |= {g for g, y in net.seizable[x] if g in lists.get(x, ()) and ranks.get(y, NO_RANK) < ranks[x]}

    stay()
    for place, x in product(range(16), order):
        tried = set(lists.get(x, ())[place:place + 1])
        if x in ranks and not tried <= kept[x]:
            raised = least_ranks(net, {**kept, x: kept[x] | tried}, limit, spare)
            if set(starts) <= set(raised):
                kept[x] |= tried
                ranks = raised
                stay()
    return kept, ranks


def judge_mended(net, view, new, limit, spare):
    """Judges the lists of a code that are mended: those of `view` become `new`."""
    _, lists, starts = view
    old, now = ({x: tuple(g for g, _ in groups) for x, groups in it} for it in (lists, new))
    if survey(view).is_safe(limit, spare):
        need(now == old, "lists of a safe code change")
        return
    after = survey((net.home, new, starts))
    need(after.is_safe(limit, spare), "the mended lists are not safe")
    stayed = {x: set(now.get(x, ())) & set(it) for x, it in old.items()}
    beside = [it for it in net.safe(starts, limit, spare) if all(stayed[x] <= it[x] for x in stayed)]
    kept, ranks = by_the_rule(net, old, starts, limit, spare)
    for x in net.rest:
        was, has = old.get(x, ()), now.get(x, ())
        if x not in after.nearest:
            need(was == has, f"the list of {x} changes, where no call comes")
            continue
        for g in set(was) - set(has):
            need(not any(g in it[x] for it in beside), f"{g} could stay at {x}")
        need(set(has) <= set(was) or len(has) == spare + 1, f"not all new groups of {x} are needed")
        due = [g for g in was if g in kept[x]]
        more = [(ranks[y], n, g) for n, (g, y) in enumerate(net.seizable[x]) if g not in due and ranks.get(y, NO_RANK) < ranks[x]]
        due += [g for _, _, g in sorted(more)[:max(0, spare + 1 - len(due))]]
        need(list(has) == due, f"the list of {x} is {has} and not {due}")


def causes(plan, nets, limit, spare):
    """The lines of a report for a plan that no lists make safe: of exchanges, and of codes."""
    rows, ends = [], []
    for code, (home, _, starts) in plan.views.items():
        net, unserved = nets[home], 0
        on = {x: net.leading_on(x, limit, spare) for x in net.rest}
        for x in starts:
            least = net.least(x, spare)
            if least > limit + 1:
                unserved += 1
                rows.append(f"F5 UNSERVED {code} {x} " + (f"GROUPS {on[x]}" if least == NO_RANK else f"RANK {least}"))
        near = {x: net.leading_on(x, limit - 1, spare) for x in net.rest}
        missing = [f" {x} {spare + 1 - near[x]}" for x in net.rest if net.least(x, spare) > limit + 1 and near[x]]
        if unserved:
            ends.append(f"CODE {code} UNSERVED {unserved}" + " MISSING" * bool(missing) + "".join(missing))
    return rows, ends


def with_lists(plan, rows):
    """The plan with the lists of a report."""
    mended = plan.copy()
    mended.routes.update({tuple(words[1:3]): tuple(words[3:]) for words in (row.split(" ") for row in rows) if words[0] == "ROUTE"})
    need(rows == switched_rows(plan, mended), f"not the lines of the lists that change: {rows}")
    return mended


def judge_mend(program, plan, limit, spare):
    words = ["mend", "p", *numbers(limit, spare), "--plan", "new", "--cert", "cert"]
    ran = program.run(words, {"p": plan.text}, ["new", "cert"])
    rows, nets, yes = ran.out.splitlines(), networks_of(plan), is_mendable(plan, limit, spare)
    need(rows[0] == f"MEND LIMIT {limit} SPARE {spare}", f"begins with {rows[0]}")
    need((ran.made["new"] is not None) == (ran.made["cert"] is not None) == yes, "another file is made")
    if not yes:
        found, ends = causes(plan, nets, limit, spare)
        pairs = [f"F1 AMBIGUOUS {a} {b}" for a, b in plan.ambiguous if rows[1] == f"F1 AMBIGUOUS {a} {b}"]
        need(len(pairs) == bool(plan.ambiguous) and rows[1:-1] == pairs + found + ends, f"causes are {rows[1:-1]} and not {found + ends}")
        judge_verdict(rows, False, ran.status, len(pairs) + len(found))
        return
    judge_verdict(rows, True, ran.status, 0)
    mended = with_lists(plan, rows[1:-1])
    new = mended.views
    for code, view in plan.views.items():
        of_code(code, judge_mended, nets[view[0]], view, new[code][1], limit, spare)
    judge_made(ran.made["new"], plan, mended)
    judge_cert(program, [mended], ran.made["cert"], limit, spare)
