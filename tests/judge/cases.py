"""What is judged: of each topic its cases, each with the number of its small plans and a call of a judge."""
from itertools import combinations, product
from random import Random

from audit import is_safe, judge_audit, judge_cert_faults, judge_codes, judge_grade
from change import judge_change
from down import judge_down
from families import FAMILIES, PAIRS, SMALL, ambiguous_plans, code_plans, packed, random_network, random_pair, random_plan, random_risks, seeded
from lint import judge_lint, spoiled
from mend import is_mendable, judge_mend
from order import judge_order
from plans import contradiction
from stopped import judge_stopped
from survive import grade_of, judge_from, judge_survive
from traces import judge_through, judge_way_changes

NUMBERS = list(product(range(3), range(3)))


def numbers_of(rng):
    return rng.choice((0, 1, 1, 2, 2, 3)), rng.choice((0, 0, 0, 1, 1, 2))


def audits(family):
    """All plans of a family, for each limit and each spare number up to 2."""
    def judge(program, plan):
        judge_grade(program, plan)
        for at in NUMBERS:
            judge_audit(program, plan, *at, also=False)

    for pack in packed(family.routings()):
        yield len(pack), lambda program: judge(program, family.plan(pack))


def graded(family):
    """All plans of a family that have a grade: those of one grade together, with their certificate and their outages."""
    def judge(program, plan, limit, spare):
        judge_grade(program, plan)
        judge_audit(program, plan, limit, min(spare, 15))
        judge_audit(program, plan, limit + 1, 0)
        two = [(f"R{n}", it) for n, it in enumerate(combinations(plan.groups, 2))]
        judge_survive(program, plan, two if len(two) < 40 else random_risks(Random(limit), plan))

    grades = {}
    for routing in family.routings():
        grades.setdefault(family.survey(routing).grade(), []).append(routing)
    for grade, routings in grades.items():
        for pack in packed(routings) if grade else ():
            yield len(pack), lambda program: judge(program, family.plan(pack), *grade)


def single(rng, plan):
    """What `codes`, `grade`, an audit and checks say of a plan, and its outages."""
    at = numbers_of(rng)

    def judge(program):
        judge_codes(program, plan)
        judge_grade(program, plan)
        judge_audit(program, plan, *at)
        judge_cert_faults(program, plan, rng, *at)
        if plan.groups:
            judge_survive(program, plan, random_risks(rng, plan), rng.random() < 0.2)
    return 1, judge


def mends(family):
    """All plans of a family for each limit and each spare number up to 2: those that lists can mend, and those that none can."""
    routings = list(family.routings())
    for at in NUMBERS:
        mendable = {starts: is_mendable(family.plan([({}, starts)]), *at) for starts in {it[1] for it in routings}}
        for yes in (True, False):
            for pack in packed(it for it in routings if mendable[it[1]] == yes):
                yield len(pack), lambda program: judge_mend(program, family.plan(pack), *at)


def random_mend(rng):
    """A random plan of a network that is small enough to try all routings."""
    plan = random_plan(rng)
    while sum(len(plan.seizable(x)) for x in plan.exchanges) > 8:
        plan = random_plan(rng)
    at = numbers_of(rng)
    return 1, lambda program: judge_mend(program, plan, *at)


def pairs(old, new, judge, most):
    """The change of each plan of a family into each of another one, or of so many pairs at random: all of
    them for each limit and each spare number up to 2, and those of two safe plans by themselves."""
    sides = [[(it, family.survey(it)) for it in family.routings()] for family in (old, new)]
    for at, safe in product(NUMBERS, (False, True)):
        befores, afters = ([it for it, found in side if not safe or found.is_safe(*at)] for side in sides)
        count = len(befores) * len(afters)
        chosen = range(count) if count <= most else Random(most).sample(range(count), most)
        for pack in packed((befores[n // len(afters)], afters[n % len(afters)]) for n in chosen):
            plans = [family.plan(side) for family, side in zip((old, new), zip(*pack))]
            yield len(pack), lambda program: judge(program, *plans, *at)


def random_change(judge):
    """A random pair of plans, most of them safe."""
    def make(rng):
        plans, at = random_pair(rng), numbers_of(rng)
        while not all(is_safe(plan, *at) for plan in plans) and rng.random() < 0.9:
            plans = random_pair(rng)
        return 1, lambda program: judge(program, *plans, *at)
    return make


def random_comparison(rng):
    """The outages of a random pair of plans, most of which have a grade."""
    old, new = random_pair(rng)
    while contradiction(old, new) or not all(map(grade_of, (old, new))) and rng.random() < 0.9:
        old, new = random_pair(rng)
    risks = random_risks(rng, rng.choice((old, new))) if old.groups and new.groups else []
    return 1, lambda program: judge_from(program, old, new, risks, rng.random() < 0.2)


def random_trace(rng):
    """Which calls of a random plan pass an exchange or a group, and which go another way than in an old one."""
    old, plan = random_pair(rng)
    names = rng.sample([*plan.exchanges, *plan.groups], 2)
    down = rng.sample(list(plan.groups), min(len(plan.groups), rng.choice((0, 0, 1, 2))))
    calls = [(code, x) for code in plan.codes for x in plan.exchanges if code in old.codes and x in old.exchanges]

    def judge(program):
        for name in names:
            judge_through(program, plan, name, down)
        judge_way_changes(program, plan, old)
        if calls:
            judge_way_changes(program, plan, old, rng.choice(calls))
    return 1, judge


def random_down(rng):
    """A random pair of plans while some groups, or those of an exchange, are down, and perhaps one that is not there."""
    old, new = random_pair(rng)
    while contradiction(old, new):
        old, new = random_pair(rng)
    groups = [*{**old.groups, **new.groups}, *(["ZZ9"] if rng.random() < 0.1 else [])]
    down = rng.sample(groups, min(len(groups), rng.choice((0, 1, 1, 2, 3))))
    exchange = rng.choice([*old.exchanges, *new.exchanges]) if not down or rng.random() < 0.2 else None
    at = numbers_of(rng)
    return 1, lambda program: judge_down(program, old, new, at, down, exchange)


def random_stop(rng):
    """An order between a random pair of plans, most of them safe, that is stopped in each stage, perhaps since a group failed."""
    at, (old, new) = numbers_of(rng), random_pair(rng)
    while contradiction(old, new) or not (is_safe(old, *at) and is_safe(new, *at)) and rng.random() < 0.95:
        old, new = random_pair(rng)
    groups = [*{**old.groups, **new.groups}]
    down = rng.choice(groups) if groups and rng.random() < 0.4 else None
    now = rng.randrange(at[1] + 1) if rng.random() < 0.8 else at[1] + 1
    return 1, lambda program: judge_stopped(program, old, new, at, now, down, rng)


def random_lint(rng):
    """The text of a random plan, most often with a few mistakes."""
    text = spoiled(rng, random_plan(rng).text)
    return 1, lambda program: judge_lint(program, text)


TOPICS = {
    **{f"audit, grade: {name}": lambda it=it: audits(it) for name, it in FAMILIES.items()},
    **{f"audit, survive: {name}": lambda it=it: graded(it) for name, it in {**SMALL, **FAMILIES}.items()},
    "lint: random": lambda: seeded(800, "lints", random_lint),
    "codes: one exchange": lambda: (single(Random(n), plan) for n, plan in enumerate(code_plans())),
    "audit, check, grade: ambiguous": lambda: (single(Random(n), plan) for n, plan in enumerate(ambiguous_plans())),
    "audit, check, grade, survive: random": lambda: seeded(800, "plans", lambda rng: single(rng, random_plan(rng))),
    **{f"mend: {name}": lambda it=it: mends(it) for name, it in SMALL.items()},
    "mend: networks": lambda: (it for cases in seeded(12, "networks", lambda rng: mends(random_network(rng))) for it in cases),
    "mend: random": lambda: seeded(800, "mends", random_mend),
    **{f"change: {name}": lambda it=it: pairs(*it, judge_change, 5000) for name, it in PAIRS.items()},
    "change: random": lambda: seeded(800, "changes", random_change(judge_change)),
    **{f"order: {name}": lambda it=it: pairs(*it, judge_order, 4096) for name, it in PAIRS.items()},
    "order: random": lambda: seeded(800, "orders", random_change(judge_order)),
    "survive --from: random": lambda: seeded(800, "comparisons", random_comparison),
    "down: random": lambda: seeded(400, "downs", random_down),
    "stopped: random": lambda: seeded(400, "stops", random_stop),
    "trace: random": lambda: seeded(800, "traces", random_trace),
}
