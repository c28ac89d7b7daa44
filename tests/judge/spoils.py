"""Spoiled answers of the program: the judges have to refuse each."""
import re

from cases import TOPICS
from program import Program
from walks import WRONG


def put(pattern, by, name=None, count=1):
    """A spoil that puts another text in place of the first one like this, or of all, in the report or in a file that is made."""
    def spoil(ran):
        was = ran.made.get(name) or "" if name else ran.out
        text = re.sub(pattern, by, was, count=count, flags=re.M)
        if name and was:
            ran.made[name] = text
        elif not name:
            ran.out = text
        return text != was
    return spoil


def without(pattern):
    """A spoil that leaves out the first line like this. The verdict counts one less, if it counts such lines."""
    def spoil(ran):
        found = re.search(f"^({pattern}).*\n", ran.out, flags=re.M)
        if found:
            ran.out = ran.out.replace(found[0], "", 1)
            if re.match("(OLD |NEW )?F|CUT|STRAY", found[0]):
                ran.out = re.sub(r"VERDICT NO (\d+)", lambda it: f"VERDICT NO {int(it[1]) - 1}", ran.out).replace("VERDICT NO 0", "VERDICT YES")
        return found is not None
    return spoil


def stages(change):
    """A spoil of the stages of an order, which are lists of lines. `change` answers others, or None."""
    def spoil(ran):
        end = re.search("^(AFTER$|LISTS )", ran.out, flags=re.M)
        last = ran.out[end.start():] if end else ""
        head, *parts = re.split(r"^STAGE \d+\n", ran.out, flags=re.M)
        parts = change([part.removesuffix(last).splitlines() for part in parts])
        if parts:
            ran.out = head + "".join("\n".join([f"STAGE {n}", *rows, ""]) for n, rows in enumerate(parts, 1)) + last
        return bool(parts)
    return spoil


TEXTS = {"mend": "new", "change": "mixture", "order": "plan"}  # the text of a plan that each command makes


def line(pattern, by, *stays):
    """A spoil that puts another text in place of the first lines like this in a revised text. Each of them stays there, or is new."""
    def spoil(ran):
        name, old = TEXTS[ran.words[0]], (ran.files.get("p") or ran.files["o"]).splitlines(keepends=True)
        rows = (ran.made.get(name) or "").splitlines(keepends=True)
        for n in range(len(rows) * ("#" in "".join(rows))):
            here = rows[n:n + len(stays)]
            if [it in old for it in here] == [*stays] and re.match(pattern, "".join(here)):
                ran.made[name] = "".join([*rows[:n], re.sub(pattern, by, "".join(here), count=1), *rows[n + len(stays):]])
                return True
        return False
    return spoil


def turned(ran):
    """The other verdict, with the status that goes with it."""
    was = ran.out
    ran.out = re.sub("YES\n$", "NO 1\n", was) if was.endswith("YES\n") else re.sub("NO .*\n$", "YES\n", was)
    ran.status = int(ran.out.endswith("NO 1\n"))
    return ran.out != was


def of_old(ran):
    """The old plan in place of the mixture."""
    was, ran.made["mixture"] = ran.made.get("mixture"), ran.files["o"]
    return was not in (None, ran.files["o"])


def more(match):
    return f"{match[1]}{int(match[2]) + 1}"


def cut(parts):
    """The first stage as two, if it switches several lists of one code and nothing else."""
    first = parts[0] if parts else []
    if len(first) < 4 or re.search("BAR", "".join(first)) or len({row.split()[2] for row in first[::2]}) > 1:
        return None
    return [first[:2], first[2:], *parts[1:]]


def too_early(parts):
    """The first list or bar of the second stage in the first stage already."""
    if len(parts) < 2:
        return None
    rows = 1 + any(row.startswith("WAS") for row in parts[1][1:2])
    return [it for it in (parts[0] + parts[1][:rows], parts[1][rows:], *parts[2:]) if it]


# The topic whose cases are spoiled, of each command.
CASES = dict.fromkeys(("audit", "check", "grade", "survive"), "audit, check, grade, survive: random")
CASES["from"] = "survive --from: random"  # of `survive`
CASES["stopped"] = "stopped: random"  # of `order`
CASES.update({"codes": "codes: one exchange", **{it: f"{it}: random" for it in ("lint", "mend", "change", "order", "trace")}})

# Each spoil: the commands whose answers it changes, and how.
WAYS = [
    ("audit check mend change order survive", "the other verdict", turned),
    ("audit grade change order", "a finding left out", without("(OLD |NEW )?F")),
    ("audit change", "a walk by another group", put(r"^((OLD |NEW )?F.* VIA \w+) \w+", r"\1 NONE")),
    ("audit mend change order", "a rank less by one", put(r"^(RANK .*) 1$", r"\1 0", "cert")),
    ("audit change", "an empty script", put("(?s).+", "", "script")),
    ("mend change order", "a list left out", without("ROUTE|DROP")),
    ("mend order", "groups in another order", put(r"^(ROUTE \w+ \d+) (\w+) (\w+)", r"\1 \3 \2")),
    ("audit", "the other status", lambda ran: setattr(ran, "status", 1 - ran.status) or True),
    ("audit", "a finding twice", put(r"^(F.*\n)((.*\n)*VERDICT NO) .*", r"\1\1\2 2")),
    ("audit", "a loop as a short list", put("^F2 LOOP", "F3 SHORT")),
    ("audit", "a long walk as a short list", put("^F4 LONG", "F3 SHORT")),
    ("audit", "a walk without its last step", put(r"^(F.* VIA \w+.*) \w+ \w+$", r"\1")),
    ("audit", "another limit", put(r"^(AUDIT LIMIT )(\d+)", more)),
    ("audit", "a rank greater by one", put(r"^(RANK .*) 1$", r"\1 2", "cert")),
    ("audit mend change order", "an empty certificate", put("(?s).+", "", "cert")),
    ("audit", "a script without its first block", put(r"^BLOCK .*\n", "", "script")),
    ("grade", "a greater limit of a code", put(r"^(CODE .* LIMIT )(\d+)", more)),
    ("grade", "a greater limit of the plan", put(r"^(GRADE LIMIT )(\d+)", more)),
    ("grade", "a greater spare number", put(r"^(CODE .* SPARE )(\d+)", more)),
    ("grade", "a code without its grade", put(r"^(CODE \d+) LIMIT.*", r"\1 NONE")),
    ("grade", "a grade where there is none", put(r"^(CODE \d+) NONE", r"\1 LIMIT 0 SPARE 0")),
    ("lint", "a fault or warning left out", without("p:")),
    ("lint", "a line more that needs it", put(r"^(p:.* .. and )(\d+)", more)),
    ("lint", "another line", put(r"^(p:)(\d+)", more)),
    ("lint", "another word", put(r"^(p:\d+: \w+ \w+) \w+", r"\1 NONE")),
    ("codes", "no ambiguous pair", put("^AMBIGUOUS.*", "DISTINCT")),
    ("codes", "a code left out", without("CODE")),
    ("check", "another fault", put(r"^(NO K)(\d)", more)),
    ("check", "another exchange", put(r"^(NO K[3-7] \d+) A\d", r"\1 A9")),
    ("mend", "one list more", put(r"^(ROUTE.*\n)((.*\n)*VERDICT)", r"\1\1\2")),
    ("mend", "a group less", put(r"^(ROUTE .*) \w+$", r"\1")),
    ("mend", "another old list", put("^WAS.*", "WAS NONE")),
    ("mend", "one group more that leads on", put(r"^(F5 .* GROUPS )(\d+)", more)),
    ("mend", "a greater rank", put(r"^(F5 .* RANK )(\d+)", more)),
    ("mend", "a rank for groups", put(r"^(F5 .*) GROUPS \d+", r"\1 RANK 9")),
    ("mend", "a cause left out", without("F5")),
    ("mend", "nothing is missing", put(" MISSING.*", "")),
    ("mend", "more is missing", put(r"^(CODE .* MISSING \w+ )(\d+)", more)),
    ("change order", "a new group left out", without("NEW GROUP")),
    ("change order", "circuits left out", without("CIRCUITS")),
    ("change order", "a list of a new exchange left out", without("NEW ROUTE")),
    ("change order", "a bar of a new exchange left out", without("NEW BAR")),
    ("change order", "a list that goes left out", without("GONE ROUTE")),
    ("change order", "more new lists counted", put(r"^(LISTS \d+ NEW )(\d+)", more)),
    ("change order", "more changed lists counted", put(r"^(LISTS .* CHANGED )(\d+)", more)),
    ("change", "the old plan as the mixture", of_old),
    ("order", "two stages as one", stages(lambda parts: [parts[0] + parts[1], *parts[2:]] if len(parts) > 1 else None)),
    ("order", "one stage as two", stages(cut)),
    ("order", "two stages changed about", stages(lambda parts: [parts[1], parts[0], *parts[2:]] if len(parts) > 1 else None)),
    ("order", "a list a stage too early", stages(too_early)),
    ("order", "a bar set for one lifted", put("^UNBAR", "BAR")),
    ("order", "a finding of the other plan", put("^OLD F", "NEW F")),
    ("stopped", "an order from the old plan", put("^(ONWARD|RETURN)", "ORDER")),
    ("stopped", "back for onward", put("^ONWARD", "RETURN")),
    ("stopped", "a list switched twice", put(r"^((?:ONWARD|RETURN).*\nSTAGE 1\n)(ROUTE .*\n)", r"\1\2\2")),
    ("trace", "a call left out", without("CODE")),
    ("trace", "a call from another exchange", put(r"^(CODE \d+ FROM) \w+", r"\1 NONE")),
    ("trace", "one change more", put(r"^(TRACE CHANGES )(\d+)", more)),
    ("trace", "another first way", put(r"^(FIRST \w+) \w+", r"\1 NONE")),
    ("trace", "one change less", put(r"^(TRACE CHANGES )([1-9]\d*)", lambda it: f"{it[1]}{int(it[2]) - 1}")),
    ("trace", "no old way", without("WAS")),
    ("trace", "another old way", put(r"^(WAS \w+) \w+", r"\1 NONE")),
    ("trace", "an old way that is the same", put(r"^FIRST (.*)\n(?!WAS)", r"\g<0>WAS \1\n")),
    ("trace", "the old way for the new one", put(r"^FIRST .*\nWAS (.*)", r"FIRST \1\nWAS \1")),
    ("trace", "an exchange that is gained left out", without("GAINS")),
    ("trace", "an exchange that is lost left out", without("LOSES")),
    ("trace", "lost for gained", put("^GAINS", "LOSES")),
    ("trace", "gained for lost", put("^LOSES", "GAINS")),
    ("survive", "one that is cut off left out", without("CUT|STRAY")),
    ("survive", "cut off for astray", put("^STRAY", "CUT")),
    ("survive", "astray for cut off", put("^CUT", "STRAY")),
    ("survive", "an outage left out", without(r"(GROUP|EXCHANGE|RISK) \w+ CUT")),
    ("survive", "a risk that is known in part left out", without(r"RISK \w+ PARTLY")),
    ("survive", "one outage more", put(r"^(SURVIVE RISKS )(\d+)", more)),
    ("survive", "one group more", put(r"^(GROUPS )(\d+)", more)),
    ("survive", "one cut more in the totals", put(r"^(\w+ \w+ CUT )(\d+)", more)),
    ("from", "the other verdict", turned),
    ("from", "better told as worse", put("^BETTER", "WORSE")),
    ("from", "worse told as better", put("^WORSE", "BETTER")),
    ("from", "worse told as the same", put("^WORSE (GROUP|EXCHANGE|RISK)", r"SAME \1")),
    ("from", "a lower grade told as the same", put("^WORSE GRADE", "SAME GRADE")),
    ("from", "the new plan's cuts told of the old one", put(r"^(\w+ \w+ \w+) (CUT \d+ STRAY \d+) WAS (?!\2$).*", r"\1 \2 WAS \2")),
    ("from", "an outage left out", without("(WORSE|BETTER|SAME) (GROUP|EXCHANGE|RISK)")),
    ("from", "a line of the old plan left out", without("WAS ")),
    ("from", "a line of the old plan told of the new one", put("^WAS (CUT|STRAY)", r"\1")),
    ("from", "a line of the new plan left out", without("CUT|STRAY")),
    ("from", "one more that cuts nobody off", put(r"^((?:GROUPS|RISKS|EXCHANGES) )(\d+)", more)),
    ("survive", "a walk that ends before", put(r"^((CUT|STRAY) .* VIA \w+.*) \w+ \w+$", r"\1")),
]
WAYS += [("order", what, spoil) for what, spoil in (
    ("a changed list without its comment", line(r"(ROUTE[^#\n]*)#[^\r\n]*", r"\1", False)),
    ("the comment of a changed list twice", line(r"ROUTE[^#\n]*(#.*\n)", r"\1\g<0>", False)),
    ("a comment behind a new list", line(r"(ROUTE[^#\r\n]*)(\r?\n)", r"\1 # new\2", False)),
    ("a new list a line later", line(r"(ROUTE.*\n)(.*\n)", r"\2\1", False, True)),
    ("a new list a line earlier", line(r"(.*\n)(ROUTE.*\n)", r"\2\1", True, False)),
    ("another end of a new line", line(r"(ROUTE|BAR)(.*?)(\r?)\n", lambda it: it[1] + it[2] + "\r\n"[len(it[3]):], False)),
    ("another end of a line that stays", line(r"(.*?)(\r?)\n", lambda it: it[1] + "\r\n"[len(it[2]):], True)),
    ("a line that stays without its comment", line(r"([^#\n]*\w[^#\n]*)#[^\r\n]*", r"\1", True)),
    ("a line that stays with other blanks", line(r"(.*) \t ", r"\1 ", True)),
    ("two lists that stay changed about", line(r"(ROUTE.*\n)(ROUTE.*\n)", r"\2\1", True, True)),
    ("a line without words more", line(r".*\n", r"\g<0>\n", True)),
    ("a line without words less", line(r"[ \t]*(#.*)?\n", "", True)),
    ("a header without bars", line("PLAN 2", "PLAN 1", True)),
)]
WAYS += [(command, what, put(pattern, by, name, count)) for command, name in TEXTS.items() for what, pattern, by, count in (
    ("a plan without a list", r"^ROUTE .*\n", "", 1),
    ("a plan without a line of its text", r"^LINES .*\n", "", 1),
    ("a text without comments and blanks", r"^([ \t]*(#.*)?\n)+|^[ \t]+|[ \t]*(#.*)?\r?$", "", 0),
    ("a plan with a comment before it", r"\A(?=.)", "# anew\n", 1),
)]
SPOILS = [(command, what, spoil) for commands, what, spoil in WAYS for command in commands.split()]


def try_spoil(path, number):
    """Spoils the answers to some cases. Answers whether each is refused, and what is to be told."""
    command, what, spoil = SPOILS[number]
    spoiled, count, taken = [], 0, []
    program = Program(path, lambda ran: ran.words[0] == {"from": "survive", "stopped": "order"}.get(command, command) and spoil(ran) and spoiled.append(ran))
    for _, judge in TOPICS[CASES[command]]():
        spoiled.clear()
        try:
            judge(program)
            taken += [f"{it.out}\n{program.show('')}" for it in spoiled[:1]]
        except WRONG:
            pass
        count += bool(spoiled)
        if count == 12:
            break
    program.end()
    return count > 0 and not taken, "\n".join([f"spoiled {command}, {what}: {count} answers, {len(taken)} taken", *taken[:1]])
