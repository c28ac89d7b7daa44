#!/usr/bin/env python3
"""usage: tools/examples.py [PROGRAM]
       tools/examples.py --pages
       tools/examples.py --write PROGRAM
       tools/examples.py --cases

Runs each example of examples/list with a built program (crates/telexplan/out/telexplan where none is named), in a folder of its own, and compares what it prints,
its exit status and the files that it makes with what stands in examples/. A fault stands on standard error, but for those that `lint` finds, and nothing else does.
An example that begins with a script in Python runs that, with the program as its first word if the example says so; no case shows it. Then tries the program with what no example can say:
odd words, a terminal, and files to be made in odd places. What the machine does not allow is left out, and standard error says so.

Then it plays the commands of docs/telexplan.1, one after another.

Then checks README.md, docs/FORMATS.md and docs/HEADLINE.md: each block there says, in a comment before it, what it shows, and has to show just that; `explain` has to print the
program's tables of codes and words, and these have to have the codes of the definitions; the map of the crates has to be that of crates.txt, each link of the pages has
to lead to a file and a heading that are there, the player of the gate, crates/tx_worked, has to have the examples as they stand, and docs/telexplan.bash and
docs/telexplan.1 have to have the commands and options that the program's help tells. Prints a line for each difference; the status is 1 if there is one.

--pages runs nothing: it checks the pages and the player's cases alone. Each example is such a case, and the gate plays them, so the pages then show what the
program prints, but for those that a script in Python runs.

--write writes the outputs and the files that are made, for you to read through: they are right only once somebody has.
--cases writes the examples as cases for the player of the gate: the file crates/tx_worked/data/cases/examples. Other runs of this tool see that it is the same.

The comments before a block:
  <!-- file: PATH -->     the whole file
  <!-- run: NAME -->      the command of an example, behind `$ `, and all that it prints
  <!-- session -->        several commands, each behind `$ `: that of an example, or `cat FILE`, and all that it prints
  <!-- lines: PATH -->    lines of the file that follow one another
  <!-- not run -->        commands that no example shows, and that are not those of the program
and before a table:
  <!-- examples -->       each text in the last column is a line of some file in examples/"""
import os
import pty
import re
import select
import shutil
import stat
import subprocess
import sys
import tempfile
import time

TOP = os.path.dirname(os.path.dirname(os.path.abspath(__file__)))
PAGES = ["README.md", "docs/FORMATS.md", "docs/HEADLINE.md"]
LINKING = ["CHANGELOG.md", "CONTRIBUTING.md", "docs/ARCHITECTURE.md", "docs/DECISIONS.md", "docs/GLOSSARY.md", "docs/MEASURED.md", "docs/PROOFS.md"]
PLAYED = "crates/tx_worked/data/cases"

# When the pages of changes in examples/ are made: 2026-12-01, at midnight, as in the player's cases. The program takes it for the clock.
os.environ["SOURCE_DATE_EPOCH"] = "1796083200"


class Example:
    def __init__(self, line):
        self.name, status, self.command = line.split(None, 2)
        self.status = int(status)
        command, _, self.out = self.command.partition(" > ")
        words = command.split()
        bar = words.index("|") if "|" in words else -1
        self.input = words[1:bar] if bar > 0 else []
        self.driver = words[0] if words[0].endswith(".py") else None
        self.drives = "telexplan" in words
        self.words = words[words.index("telexplan") + 1 :] if self.drives else words[1:]
        made = [b for a, b in zip(self.words, self.words[1:]) if a in ("--counter", "--mixture", "--plan") or (a == "--cert" and self.words[0] != "run")]
        if "--back" in self.words and not self.drives:
            made = self.words[2:]
        self.made = made if self.status < 2 else []
        self.files = [it for it in self.words if it.startswith("examples/") and it not in self.made]

    def option(self, name):
        return self.words[self.words.index(name) + 1] if name in self.words else None


def read(path):
    with open(os.path.join(TOP, path), "rb") as it:
        return it.read()


def examples():
    lines = read("examples/list").decode().splitlines()
    return [Example(it) for it in lines if it.strip() and not it.startswith("#")]


def out_of(example):
    return example.out or f"examples/{example.name}.out"


def shown(example):
    """What the command of an example shows: what it prints, unless that goes to a file."""
    return b"" if example.out else read(out_of(example))


def run(program, example):
    """The exit status, what is printed on standard output and on standard error, and the files that are made."""
    with tempfile.TemporaryDirectory() as room:
        os.mkdir(os.path.join(room, "examples"))
        for it in example.files + example.input:
            if os.path.exists(os.path.join(TOP, it)):
                shutil.copyfile(os.path.join(TOP, it), os.path.join(room, it))
        given = b"".join(read(it) for it in example.input)
        driver = [sys.executable, os.path.join(TOP, example.driver)] if example.driver else []
        ran = subprocess.run(driver + program * (example.drives or not driver) + example.words, cwd=room, input=given, capture_output=True, timeout=60)
        made = {}
        for it in sorted(os.listdir(os.path.join(room, "examples"))):
            path = f"examples/{it}"
            with open(os.path.join(room, path), "rb") as file:
                text = file.read()
            if path not in example.files + example.input or text != read(path):
                made[path] = text
        return ran.returncode, ran.stdout, ran.stderr, made


def difference(wanted, given):
    wanted, given = wanted.splitlines(), given.splitlines()
    for n, (a, b) in enumerate(zip(wanted, given), 1):
        if a != b:
            return f"line {n} is {b!r} and not {a!r}"
    return f"{len(given)} lines and not {len(wanted)}" if len(wanted) != len(given) else "the ends of lines differ"


def check_examples(program, tell):
    named = {"examples/list", "examples/README.md"}
    for example in examples():
        named.update(example.files + example.input + example.made + [out_of(example), example.driver])
        status, printed, fault, made = run(program, example)
        if status != example.status:
            tell(f"{example.name}: the status is {status} and not {example.status}")
        is_listed = example.words[:1] == ["lint"] and status == 2
        if bool(fault) != (status > 1 and not is_listed) or fault and not fault.startswith((b"telexplan: ", b"error: ")):
            tell(f"{example.name}: standard error has {fault!r}")
        if printed + fault != read(out_of(example)):
            tell(f"{example.name}: {difference(read(out_of(example)), printed + fault)}")
        for path in sorted(set(example.made) | set(made)):
            if path not in made:
                tell(f"{example.name}: {path} is not made")
            elif path not in example.made or made[path] != read(path):
                tell(f"{example.name}: {path} differs from what is made")
    for it in sorted(os.listdir(os.path.join(TOP, "examples"))):
        if f"examples/{it}" not in named:
            tell(f"examples/{it}: no example has it")


def check_tables(tell):
    """The plan and the risks that are made of tables have the lines of the plan that these were made of, and of its risks."""
    for made, wanted in [("national-tables.plan", "national.plan"), ("national-cables.risks", "national.risks")]:
        one, other = (sorted(filter(None, map(plain, read(f"examples/{it}").decode().splitlines()))) for it in (made, wanted))
        if one != other:
            tell(f"examples/{made}: it has other lines than examples/{wanted}")


def check_odd_tables(_, tell):
    """Tables with semicolons make the same plan, and one that is refused makes one line and no plan."""
    script = [sys.executable, os.path.join(TOP, "examples/from_tables.py")]
    good = {it: read(f"examples/national-{it}") for it in ("exchanges.csv", "codes.csv", "groups.csv", "lists.csv")}
    codes, lists = good["codes.csv"], good["lists.csv"]
    odd = [
        ({it: table.replace(b",", b";") for it, table in good.items()}, 0, read("examples/national-tables.plan"), ""),
        ({"codes.csv": b"\xef\xbb\xbf" + codes}, 0, read("examples/national-tables.plan"), ""),
        ({"codes.csv": codes + b"22,SOUTH,,\n"}, 2, b"", "codes.csv line 13: code 22 is at home at SOUTH, and by line 4 at NORTH"),
        ({"codes.csv": codes.replace(b"WEST", b"W\xd6ST")}, 2, b"", "codes.csv line 7: a byte that is not UTF-8"),
        ({"codes.csv": lists}, 2, b"", "codes.csv: the columns are exchange, codes, groups, barred, and not code, home, low, high"),
        ({"codes.csv": b""}, 2, b"", "codes.csv: the columns are none, and not code, home, low, high"),
        ({"lists.csv": lists + b"ISLAND,22,,Yes\n"}, 2, b"", "lists.csv line 39: barred is yes or empty, and not Yes"),
        ({"lists.csv": lists + b"ISLAND,22,,yes,yes\n"}, 2, b"", "lists.csv line 39: 5 cells in 4 columns"),
        ({"lists.csv": None}, 3, b"", "lists.csv: No such file or directory"),
    ]
    for other, status, printed, told in odd:
        with tempfile.TemporaryDirectory() as room:
            for name, table in (good | other).items():
                if table is not None:
                    with open(os.path.join(room, name), "wb") as it:
                        it.write(table)
            ran = subprocess.run(script + list(good), cwd=room, capture_output=True, timeout=60)
        if (ran.returncode, ran.stdout, ran.stderr.decode()) != (status, printed, told and f"error: {told}\n"):
            tell(f"examples/from_tables.py: {told or 'other tables'}: the status is {ran.returncode}, and standard error has {ran.stderr!r}")


def played():
    """Each case of the player of the gate: its head, its texts, and what has to be printed for it."""
    for file in sorted(os.listdir(os.path.join(TOP, PLAYED))):
        for case in re.split(r"(?m)^=== ", read(f"{PLAYED}/{file}").decode())[1:]:
            head, _, rest = case.partition("\n")
            texts, _, prints = rest.partition("--- prints\n")
            yield head, texts, prints


def write_examples(program):
    for example in examples():
        status, printed, fault, made = run(program, example)
        for path, text in [(out_of(example), printed + fault)] + sorted(made.items()):
            with open(os.path.join(TOP, path), "wb") as it:
                it.write(text)
        if status != example.status:
            print(f"{example.name}: the status is {status} and not {example.status}")


# THE PAGES


def blocks(page):
    """Each block of a page: the line where it begins, the comment before it, and its text."""
    lines = read(page).decode().splitlines(keepends=True)
    n = 0
    while n < len(lines):
        if lines[n].startswith("```"):
            start, body = n, []
            n += 1
            while not lines[n].startswith("```"):
                body.append(lines[n])
                n += 1
            yield start + 1, comment_before(lines, start), "".join(body)
        elif lines[n].startswith("    "):
            yield n + 1, "", lines[n]
        n += 1


def comment_before(lines, n):
    said = re.fullmatch(r"<!-- (.*) -->\n", lines[n - 1]) if n else None
    return said.group(1) if said else ""


def check_session(text, known):
    """What is wrong with commands and what they print, if anything is."""
    printed = {it.command: shown(it) for it in known.values()}
    wanted = ""
    for command in re.findall(r"(?m)^\$ (.*)\n", text):
        said = read(command[4:]) if command.startswith("cat examples/") else printed.get(command)
        if said is None:
            return f"no example has the command {command!r}"
        wanted += f"$ {command}\n" + said.decode()
    return None if text == wanted else difference(wanted, text)


def check_block(mark, text, known):
    """What is wrong with a block, if anything is."""
    kind, _, name = mark.partition(": ")
    if mark == "not run":
        return "a command of the program is not run" if re.search(r"(?m)^(\$ )?telexplan\b", text) else None
    if kind == "run" and name in known:
        wanted = f"$ {known[name].command}\n" + shown(known[name]).decode()
        return None if text == wanted else difference(wanted, text)
    if mark == "session":
        return check_session(text, known)
    if kind == "file":
        return None if text == read(name).decode() else difference(read(name).decode(), text)
    if kind == "lines":
        return None if "\n" + text in "\n" + read(name).decode() else f"these lines do not stand in {name}"
    return "no comment before it says what it shows"


def tables(page):
    """Each table of a page that has a comment before it: its line, the comment, and the cells of its rows."""
    lines = read(page).decode().splitlines(keepends=True)
    for n, line in enumerate(lines):
        if line.startswith("|") and comment_before(lines, n):
            rows = []
            for it in lines[n + 2 :]:
                if not it.startswith("|"):
                    break
                rows.append([cell.strip() for cell in it.strip().strip("|").split(" | ")])
            yield n + 1, comment_before(lines, n), rows


def plain(line):
    """The words of a line, without its comment."""
    return " ".join(line.partition("#")[0].split())


def lines_of_examples():
    texts = [read(f"examples/{it}").decode() for it in sorted(os.listdir(os.path.join(TOP, "examples"))) if it not in ("list", "README.md")]
    return {plain(line) for text in texts for line in text.splitlines()}


def lines_quoted(page):
    """What stands in a page's text as a line of a plan or a script, or as a reply: words in capitals, one of them with a figure."""
    text = re.sub(r"```.*?```", "", read(page).decode(), flags=re.S)
    return [it for it in re.findall(r"`([A-Z]+(?: [A-Z0-9.]+)+)`", text) if re.search("[0-9]", it)]


def codes_explained(*names):
    """The program's tables of codes, or these ones: a code, its name, what it means and what to do."""
    texts = [read(f"crates/tx_commands/src/{name}.rt").decode() for name in names or ("text_faults", "run_codes", "plan_codes")]
    return re.findall(r'\[\s*"(.*?)",\s*"(.*?)",\s*"(.*?)",\s*"(.*?)",?\s*\]', "".join(texts))


def words_explained():
    """The program's tables of words."""
    return codes_explained("report_words", "way_words", "run_words")


def check_words_printed(tell):
    """The tables have each word in capitals that a command of the player of the gate prints, but for names that its texts declare. (`lint` prints words at fault too.)"""
    reports = {"audit", "both", "certified", "change", "check", "checked", "codes", "fill", "grade", "mend", "onward", "order", "pipe", "return", "run", "stage", "survive", "telling", "trace"}
    known = {it.upper() for row in codes_explained() + words_explained() for it in row[:2]}
    for head, texts, prints in played():
        names = set(re.findall(r"(?m)^\s*(?:EXCHANGE|GROUP|RISK)\s+(\w+)", texts))
        words = set(re.findall(r'(?<![\w".])[A-Z]{2,}(?![\w".])', prints)) if reports & set(head.split()[1:3]) else set()
        for word in sorted(words - known - names):
            tell(f"crates/tx_commands: {word}, which {head.split()[0]} prints, is not explained")


def codes_defined():
    """The codes and names of the definitions, and why calls end by the names of the table, since these codes have none."""
    text = lambda crate, name: read(f"crates/{crate}/specs/{name}.antt").decode()
    rows = set()
    for crate, name in [("tx_text", "Rows"), ("tx_plantext", "PlanFaults"), ("tx_lint", "LintText"), ("tx_cert", "CertFaults"), ("tx_script", "ScriptFaults"), ("tx_risk", "RiskFaults"), ("tx_order", "DoneText")]:
        rows.update(re.findall(r'\(codes "([APCDSQX]\d+)", codes "(\w+)"\)', text(crate, name)))
        for framed in re.findall(r'frame_row((?: \(codes "\w+"\))+)', text(crate, name)):
            rows.update(zip(re.findall(r'"(\w+)"', framed), ["NoHeader", "NoEnd", "AfterEnd", "ReadFault"]))
    rows.update((b, a) for a, b in re.findall(r'refusal_text (\w+) = codes "(M\d+)"', text("tx_tickets", "Texts")))
    names = dict(row[:2] for row in codes_explained())
    rows.update((it, names.get(it)) for it in re.findall(r'(?:service|cause)_text \w+ = codes "(\w+)"', text("tx_tickets", "Texts")))
    rows.update((b, a) for a, b in re.findall(r'fault_words p \((\w+)[ \w]*\) =\s+codes "(K\d)"', text("tx_check", "Verdicts")))
    rows.update(re.findall(r'finding_line p \(\w+[ \w]*\) = codes "(F\d) (\w+) ', text("tx_rank", "Report")))
    rows.update(re.findall(r'codes "(F\d) (\w+) ', text("tx_mend", "MendText")))
    return rows


def check_table(mark, rows, known_lines):
    """What is wrong with a table."""
    if mark == "examples":
        texts = [it for row in rows for it in re.findall(r"`([^`]+)`", row[-1])]
        return [f"no example has the line {it!r}" for it in texts if plain(it) not in known_lines] + ([] if texts else ["no examples stand in it"])
    return [f"no such comment: {mark}"]


def check_pages(tell):
    known = {it.name: it for it in examples()}
    known_lines = lines_of_examples()
    for page in PAGES:
        for line, mark, text in blocks(page):
            wrong = check_block(mark, text, known)
            if wrong:
                tell(f"{page} line {line}: {wrong}")
        for line in lines_quoted(page):
            if plain(line) not in known_lines:
                tell(f"{page}: no example has the line {line!r}")
        for line, mark, rows in tables(page):
            for wrong in check_table(mark, rows, known_lines):
                tell(f"{page} line {line}: {wrong}")


def check_explained(tell):
    """What `explain` prints is what the program's tables have, and these have the codes of the definitions."""
    wanted = [f"{code} {name}: {meaning}" for code, name, meaning, _ in codes_explained() + words_explained()]
    if wanted != read("examples/explain-all.out").decode().splitlines():
        tell("examples/explain-all.out: it does not have what the tables of crates/tx_commands have")
    for it in sorted(codes_defined() ^ {row[:2] for row in codes_explained()}):
        tell(f"crates/tx_commands: {' '.join(it)} stands in the table or in the definitions alone")


# WHERE THE PAGES LEAD


def headings(page):
    """The headings of a page, as a link names them: small letters, figures, `_` and `-`, and each space a `-`."""
    text = re.sub(r"(?ms)^```.*?^```", "", read(page).decode())
    return {re.sub(r"[^\w -]", "", it.lower()).strip().replace(" ", "-") for it in re.findall(r"(?m)^#+ (.*)", text)}


def check_links(tell):
    """Each link of a page within the repository leads to a file that is there, and to a heading of it, if it names one."""
    for page in PAGES + LINKING:
        for link in re.findall(r"\]\(([^()\s]+)\)", read(page).decode()):
            path, _, heading = link.partition("#")
            if re.match(r"\w+:", path):
                continue
            path = os.path.normpath(os.path.join(os.path.dirname(page), path)) if path else page
            if not os.path.exists(os.path.join(TOP, path)):
                tell(f"{page}: the link {link} leads to no file")
            elif heading and heading not in headings(path):
                tell(f"{page}: the link {link} leads to no heading")


def crates_used():
    """Each crate with those of the repository that it uses and that none of the others uses for it."""
    lines = [it.partition(":") for it in read("crates.txt").decode().splitlines() if ":" in it]
    used = {name.split()[0]: set(words.split()) for name, _, words in lines}
    used = {name: words & set(used) for name, words in used.items()}

    def below(name):
        return used[name].union(*(below(it) for it in used[name]))

    return {name: words - set().union(*(below(it) for it in words)) for name, words in used.items()}


def check_map(tell):
    """The drawing of docs/ARCHITECTURE.md is that of crates.txt, but for the crates of tests."""
    page = read("docs/ARCHITECTURE.md").decode()
    drawn, over = {}, []
    for line in page.split("```\n")[1].splitlines():
        indent = len(line) - len(line.lstrip())
        over = [it for it in over if it[0] < indent]
        name, beside = re.match(r"\s*(\w+)\s+(?:\(([^)]*)\))?", line).groups()
        drawn[name] = {f"tx_{it}" for it in (beside or "").split(", ") if it} | {it[1] for it in over[-1:]}
        over.append((indent, name))
    for name, words in crates_used().items():
        if name in drawn and drawn[name] != words:
            tell(f"docs/ARCHITECTURE.md: {name} stands on {', '.join(sorted(words)) or 'nothing'}")
        if name not in drawn and f"`{name}`" not in page:
            tell(f"docs/ARCHITECTURE.md: {name} is missing")


# CASES FOR THE PLAYER OF THE GATE


def telling_of(words):
    """The kind of the case of a run, by what it tells."""
    return {(True, False): "telling", (False, True): "telling summary", (True, True): "telling both"}.get(("--echo" in words, "--summary" in words), "run")


def page_of(example):
    """The kind of the case of a page: with named risks, with an old plan too, with the lists of one code, or none of them."""
    file, limit, spare, risks, old, code = *example.words[1:2], *map(example.option, ("--limit", "--spare", "--risks", "--from", "--code"))
    if code:
        return f"page-code {file} {limit} {code}"
    if old:
        return f"page-change {file} {limit} {spare}"
    return f"{'page-risks' if risks else 'page'} {file} {limit} {spare}"


def case_of(example):
    """The kind of a case, and its texts; None where no case shows the example."""
    if example.input and not example.words:
        return "both", b"".join(map(read, example.input))
    files = [example.input[0] if it == "-" else it for it in example.words if it == "-" or it in example.files]
    texts = [read(it) for it in files if os.path.exists(os.path.join(TOP, it))]
    bounds = f" {example.option('--limit')} {example.option('--spare')}"
    if len(texts) != len(files) or example.status == 64:
        return None
    verb = example.words[0]
    if verb == "run" and example.option("--cert"):
        plan, script, cert = texts
        return f"checked{bounds}", b"---\n".join([plan, cert, script])
    kinds = {"run": telling_of(example.words), "codes": "codes", "grade": "grade"} | {it: it + bounds for it in ("check", "audit")}
    staged = example.option("--stage")
    down = example.option("--down")
    kinds |= {"mend": f"mend{bounds}", "change": f"change{bounds}", "order": f"stage{bounds} {staged}" if staged else f"order{bounds}"}
    kinds |= {"survive": "survive" if example.option("--risks") else " ".join(["survive alone", *filter(None, [down])]), "trace": asked_of(example, "--down"), "fill": asked_of(example, "--down"), "lint": " ".join(["lint", *["risks"] * bool(example.option("--risks")), *example.words[1:2]])}
    if down and verb in ("audit", "mend", "order"):
        kinds[verb] = f"{verb}-down{bounds} {down}"
    if example.option("--done"):
        kinds["order"] = f"return {staged}" if "--back" in example.words else " ".join(["onward", staged, *filter(None, [down])])
    if verb == "trace" and example.option("--from"):
        kinds["trace"] = "trace changes"
    if example.option("--through"):
        kinds["trace"] = f"trace through {example.option('--through')}"
    if verb == "page":
        kinds["page"] = page_of(example)
    if verb == "survive" and example.option("--from"):
        # the old plan is read first
        kinds["survive"], texts[:2] = "survive risks-from" if example.option("--risks") else "survive from", texts[1::-1]
    return (kinds[verb], b"---\n".join(texts)) if verb in kinds else None


def asked_of(example, last):
    """The kind of a case for a command over a plan: the words behind it, and the word of its last option."""
    words = [it for it in example.words[2:4] if not it.startswith("--")]
    return " ".join([example.words[0], *words, *filter(None, [example.option(last)])])


def evidence_of(example):
    """What the player prints behind the report of an audit, of a change, of an order or of a mending: the files that an example makes of the same one."""
    asked = lambda it: it.words[:1] + it.files + [it.option(name) for name in ("--limit", "--spare", "--stage", "--down")]
    made = [it.made for it in examples() if it.made and asked(it) == asked(example)]
    return b"".join(map(read, made[0])) if made else b""


def prints_of(example):
    """What the case of an example prints. On a page the old plan has the name that it has there."""
    old = dict(zip(example.words, example.words[1:])).get("--from") if example.words[:1] == ["page"] else None
    return read(out_of(example)).replace(f"<b>{old}</b>, the plan before".encode(), b"<b>old</b>, the plan before")


def cases():
    """Each example as a case. Two examples that come to the same case are one."""
    seen = set()
    for example in examples():
        case = case_of(example)
        if case and case not in seen:
            seen.add(case)
            kind, text = case
            text += b"" if text.endswith(b"\n") else b"{}\n"
            yield f"=== example-{example.name} {kind}\n".encode() + text + b"--- prints\n" + prints_of(example) + evidence_of(example)


def write_cases():
    with open(os.path.join(TOP, PLAYED, "examples"), "wb") as it:
        it.write(b"".join(cases()))


def check_cases(tell):
    """The player has the examples as they are."""
    if read(f"{PLAYED}/examples") != b"".join(cases()):
        tell(f"{PLAYED}/examples: the cases are not as in examples/ (tools/examples.py --cases writes them)")


def told_at_ends():
    """What each case of the program at its ends prints: the words, the text on both ends, and the status."""
    for head, _, prints in played():
        if head.split()[1] == "program":
            yield head.partition(" : ")[2], "".join(re.findall(r"(?m)^(?:out|errors)\| (.*\n)", prints)), prints.split()[-1:]


def check_ends(tell):
    """The cases of the program at its ends have the examples that no other case shows: words that are refused, files that are missing, what is explained."""
    told = list(told_at_ends())
    for example in examples():
        wanted = " ".join(example.words), read(out_of(example)).decode(), [str(example.status)]
        if not case_of(example) and not example.driver and wanted not in told:
            tell(f"crates/tx_worked: no case has what {example.name} prints")


# AT THE ENDS OF THE MACHINE: what no example and no case can say


def audit(program, out, **how):
    """Runs an audit that makes the certificate OUT, and answers its exit status and what it prints on both outputs."""
    words = ["audit", "-", "--limit", "1", "--spare", "1", "--cert", out]
    ends = {"stdout": subprocess.PIPE, "stderr": subprocess.PIPE} | how
    ran = subprocess.run(program + words, input=read("examples/three.plan"), timeout=60, **ends)
    return ran.returncode, ran.stdout, ran.stderr


def report():
    return read("examples/three-audit.out")


def cert():
    return read("examples/three.cert")


def write(path, text):
    with open(path, "w") as it:
        it.write(text)


def waiting(end):
    """The bytes that wait at an end."""
    text = b""
    while select.select([end], [], [], 0.5)[0]:
        piece = os.read(end, 65536)
        if not piece:
            break
        text += piece
    return text


def check_arguments(program, tell):
    """A word that is no UTF-8 text is refused, and so is an empty one, which is no command. A line of a report may be one word with blanks."""
    line = "F2 LOOP 24 VIA NORTH"
    ran = [subprocess.run(program + ["explain", *words], capture_output=True, timeout=60) for words in (line.split(), [line])]
    if ran[0].returncode or ran[0].stdout != ran[1].stdout or b"F2 LOOP\n" not in ran[0].stdout:
        tell(f"explain {line!r} prints {ran[1].stdout!r}")
    given = read("examples/three.plan") + read("examples/three.script")
    for word, why in [(b"\xff", b"telexplan: a word is no UTF-8 text\n"), (b"", b"error: unrecognized subcommand ''\n")]:
        ran = subprocess.run(program + [word], input=given, capture_output=True, timeout=60)
        if (ran.returncode, ran.stdout) != (64, b"") or not ran.stderr.startswith(why):
            tell(f"the word {word!r}: the status is {ran.returncode}, and standard error has {ran.stderr!r}")


def check_terminal(program, tell):
    """Without words, on a terminal, standard error says what is read, and then that is read."""
    terminal, end = pty.openpty()
    os.write(terminal, read("examples/three.plan") + read("examples/three.script") + b"\x04")
    ran = subprocess.run(program, stdin=end, capture_output=True, timeout=60)
    os.close(terminal)
    os.close(end)
    said = b"telexplan: reading a plan, then a script; telexplan --help lists the commands\n"
    if (ran.returncode, ran.stdout, ran.stderr) != (0, read("examples/three-input.out"), said):
        tell(f"without words, on a terminal: the status is {ran.returncode}, and the outputs have {ran.stdout!r} and {ran.stderr!r}")


def check_done(ran, what, tell):
    """The audit said YES on the outputs that are not files, and nothing else."""
    if ran[0] != 0 or ran[1] not in (report(), None) or ran[2] not in (b"", None):
        tell(f"{what}: the status is {ran[0]}, and the outputs have {ran[1]!r} and {ran[2]!r}")


def check_replaced(program, tell):
    """A file that takes the place of another one has its permissions, a link to that one leads to it, and nothing is left beside it."""
    with tempfile.TemporaryDirectory() as room:
        old, link = os.path.join(room, "old"), os.path.join(room, "link")
        write(old, "old\n")
        os.chmod(old, 0o640)
        os.symlink("old", link)
        check_done(audit(program, link), "a file that is made by a link", tell)
        if read(old) != cert() or os.stat(old).st_mode & 0o777 != 0o640:
            tell("a file that is made by a link has other bytes or permissions")
        if not os.path.islink(link) or sorted(os.listdir(room)) != ["link", "old"]:
            tell(f"a file that is made by a link leaves {sorted(os.listdir(room))}")


def check_names_beside(program, tell):
    """A hundred names are tried for the new file beside the old one, and no more."""
    with tempfile.TemporaryDirectory() as room:
        old = os.path.join(room, "old")
        for name in [old, *(f"{old}.{n}.new" for n in range(1, 100))]:
            write(name, "old\n")
        check_done(audit(program, old), "a file beside which 99 names are taken", tell)
        if read(old) != cert():
            tell("a file beside which 99 names are taken has other bytes")
        write(old, "old\n")
        write(f"{old}.100.new", "old\n")
        status = audit(program, old)[0]
        if status != 3 or read(old) != b"old\n" or len(os.listdir(room)) != 101:
            tell(f"a file beside which all names are taken: the status is {status}, and {len(os.listdir(room))} files are there")


def check_apart(program, tell):
    """A plan that is read is not replaced by another name of it, and the first file that is made is not replaced by the second one."""
    with tempfile.TemporaryDirectory() as room:
        own = os.path.join(room, "own.plan")
        shutil.copy(os.path.join(TOP, "examples/three.plan"), own)
        os.symlink("own.plan", os.path.join(room, "link.plan"))
        os.link(own, os.path.join(room, "hard.plan"))
        above = f"../{os.path.basename(room)}/own.plan"
        for plan, name in [("own.plan", it) for it in ("./own.plan", above, own, "link.plan", "hard.plan")] + [("link.plan", "own.plan"), ("-", "own.plan")]:
            with open(own) as given:
                words = ["audit", plan, "--limit", "1", "--spare", "1", "--cert", name]
                ran = subprocess.run(program + words, cwd=room, stdin=given, capture_output=True, timeout=60)
            if (ran.returncode, ran.stdout, ran.stderr.decode()) != (64, b"", f"telexplan: {name} and {plan} are one file\n"):
                tell(f"a certificate to {name} of the plan {plan}: the status is {ran.returncode}, and standard error has {ran.stderr!r}")
            if read(own) != read("examples/three.plan") or sorted(os.listdir(room)) != ["hard.plan", "link.plan", "own.plan"]:
                tell(f"a certificate to {name} of the plan {plan} leaves {sorted(os.listdir(room))}")
        os.symlink("new.plan", os.path.join(room, "late.cert"))
        words = ["mend", "own.plan", "--limit", "1", "--spare", "1", "--plan", "new.plan", "--cert", "late.cert"]
        ran = subprocess.run(program + words, cwd=room, capture_output=True, timeout=60)
        if (ran.returncode, ran.stderr) != (64, b"telexplan: new.plan and late.cert are one file\n") or not read(os.path.join(room, "new.plan")).startswith(b"PLAN 1\n"):
            tell(f"a second file that is a link to the first one: the status is {ran.returncode}, and standard error has {ran.stderr!r}")


def check_page_apart(program, tell):
    """A plan that is read is not replaced by a page whose name becomes a link to it while another text is awaited."""
    with tempfile.TemporaryDirectory() as room:
        own = os.path.join(room, "own.plan")
        shutil.copy(os.path.join(TOP, "examples/three.plan"), own)
        os.mkfifo(os.path.join(room, "pipe"))
        words = ["page", "own.plan", "--limit", "1", "--spare", "1", "--from", "pipe", "--html", "late.html"]
        with subprocess.Popen(program + words, cwd=room, stdout=subprocess.PIPE, stderr=subprocess.PIPE) as ran:
            with open(os.path.join(room, "pipe"), "wb") as given:
                time.sleep(0.5)
                os.symlink("own.plan", os.path.join(room, "late.html"))
                given.write(read("examples/three.plan"))
            printed, told = ran.communicate(timeout=60)
        if (ran.returncode, printed, told) != (64, b"", b"telexplan: late.html and own.plan are one file\n"):
            tell(f"a page whose name becomes a link to the plan: the status is {ran.returncode}, and the outputs have {printed!r} and {told!r}")
        if read(own) != read("examples/three.plan") or sorted(os.listdir(room)) != ["late.html", "own.plan", "pipe"]:
            tell(f"a page whose name becomes a link to the plan leaves {sorted(os.listdir(room))}")


def check_outputs(program, tell):
    """A file to be made that is an output of the program, by whatever name, is written to at its end."""
    for output, number, before in [("stdout", 1, b"before\n" + report()), ("stderr", 2, b"before\n")]:
        for name in [f"/dev/{output}", f"/dev/fd/{number}", f"/proc/self/fd/{number}"]:
            with tempfile.NamedTemporaryFile() as file:
                file.write(b"before\n")
                file.flush()
                check_done(audit(program, name, **{output: file}), f"a certificate to {name}", tell)
                if read(file.name) != before + cert():
                    tell(f"a certificate to {name}, which is a file, leaves {read(file.name)!r} there")
    if audit(program, "/dev/stdout") != (0, report() + cert(), b""):
        tell("a certificate to standard output, which is a pipe, is not behind the report")


def check_pipe_and_device(program, tell):
    """A pipe and a device are written to at once, and stay."""
    with tempfile.TemporaryDirectory() as room:
        pipe = os.path.join(room, "pipe")
        os.mkfifo(pipe)
        end = os.open(pipe, os.O_RDONLY | os.O_NONBLOCK)
        check_done(audit(program, pipe), "a certificate to a pipe", tell)
        if waiting(end) != cert() or not stat.S_ISFIFO(os.stat(pipe).st_mode):
            tell("a certificate to a pipe does not go there, or the pipe is replaced")
        os.close(end)
    terminal, device = pty.openpty()
    check_done(audit(program, os.ttyname(device)), "a certificate to a device", tell)
    if waiting(terminal).replace(b"\r\n", b"\n") != cert():
        tell("a certificate to a device does not go there")
    os.close(terminal)
    os.close(device)


def check_stays(ran, room, what, tell):
    """A file that could not be replaced stays, and nothing is left beside it."""
    if ran != (3, report(), b"telexplan: write fault\n"):
        tell(f"{what}: the status is {ran[0]}, and the outputs have {ran[1]!r} and {ran[2]!r}")
    if read(os.path.join(room, "old")) != b"old\n" or sorted(os.listdir(room)) != ["old", "other"]:
        tell(f"{what} is replaced, or leaves {sorted(os.listdir(room))}")


def check_no_leave(program, tell):
    """A file that may not be written to is not replaced. Root may write to all, so another user has to try."""
    with tempfile.TemporaryDirectory() as room:
        old, other = os.path.join(room, "old"), os.path.join(room, "other")
        shutil.copy(program[0], other)
        write(old, "old\n")
        os.chmod(old, 0o444)
        user = {}
        if os.geteuid() == 0:
            user = {"user": 65534}
            for it in room, old, other:
                os.chown(it, 65534, 65534)
        check_stays(audit([other], "old", cwd=room, **user), room, "a file that may not be written to", tell)


def check_no_name(program, tell):
    """A file that something is mounted on stays, since no other one can get its name."""
    mounting = ["unshare", "--mount"] + ["--map-root-user"] * (os.geteuid() != 0) + ["sh", "-c", 'mount --bind other old && exec "$@"', "sh"]
    with tempfile.TemporaryDirectory() as room:
        write(os.path.join(room, "old"), "old\n")
        write(os.path.join(room, "other"), "other\n")
        if shutil.which("unshare") and subprocess.run(mounting + ["true"], cwd=room, capture_output=True).returncode == 0:
            check_stays(audit(mounting + program, "old", cwd=room), room, "a file that cannot be given its name", tell)
        else:
            print("left out: a file that cannot be given its name (nothing can be mounted here)", file=sys.stderr)


def check_order(program, tell):
    """A file gets its name once all of it is on the disk."""
    with tempfile.TemporaryDirectory() as room:
        tracing = ["strace", "-o", "calls", "-e", "trace=/sync|rename"]
        if not shutil.which("strace") or subprocess.run(tracing + ["true"], cwd=room, capture_output=True).returncode != 0:
            print("left out: a file is on the disk before it gets its name (strace cannot trace here)", file=sys.stderr)
            return
        audit(tracing + program, "new", cwd=room)
        calls = re.findall(rb"(?m)^\w*?(sync|rename)\w*\(.* = 0$", read(os.path.join(room, "calls")))
        if calls != [b"sync", b"rename"]:
            tell(f"a file that is made: its calls are {calls}")


# THE WORDS OF THE PROGRAM


def check_manual_commands(program, tell):
    """The commands of the manual page, one after another, over a plan with a loop and named risks: each finds its files, and says nothing on standard
    error. What stands behind a bar is left out."""
    text = read("docs/telexplan.1").decode()
    with tempfile.TemporaryDirectory() as room:
        for name, path in [("plan", "three-loop.plan"), ("cables", "three.risks")]:
            shutil.copy(os.path.join(TOP, "examples", path), os.path.join(room, name))
        for it in re.findall(r"(?ms)^\.EX\n(.*?)\n\.EE$", text):
            command = it.replace("\\-", "-").partition(" | ")[0].split()
            ran = subprocess.run(program + command[1:], cwd=room, capture_output=True, timeout=60)
            if command[0] != "telexplan" or ran.returncode not in (0, 1) or ran.stderr:
                tell(f"docs/telexplan.1: {it}: the status is {ran.returncode}, and standard error has {ran.stderr!r}")


def words_told():
    """The options of each command, as its help tells them in the cases of the program at its ends; None where no case prints that help."""
    told = {words: text for words, text, _ in told_at_ends() if "\nUsage: " in text}
    commands = re.findall(r"(?m)^  ([a-z]+) ", told["--help"].partition("Commands:")[2])
    helps = {it: told.get(f"{it} --help", told.get(f"help {it}")) for it in commands if it != "help"}
    return {it: text and set(re.findall(r"(?m)^ +(?:-\w, )?(--[\w-]+)", text)) for it, text in helps.items()}


def check_completion(tell, told):
    """The completion for bash offers each command, and behind a command the options that its help tells."""
    text = read("docs/telexplan.bash").decode()
    offered = {head: words for heads, words in re.findall(r'(?m)^ +(\S*:.*?)\) words="([^"]*)"', text) for head in heads.split(" | ")}
    wanted = {f"*:{it}:-*": options for it, options in told.items() if it != "explain"}
    wanted |= {"1:*": {*told, "help", "--help", "--version"}, "*:help:*": set(told), "*:explain:*": told["explain"]}
    for head, words in wanted.items():
        given = offered.get(head, "").partition(" $(telexplan explain ")[0].split()
        if set(given) != words:
            tell(f"docs/telexplan.bash: behind {head} it offers {' '.join(sorted(given)) or 'nothing'} and not {' '.join(sorted(words))}")


def check_offers(program, tell):
    """The completion offers the exchanges, the codes and the groups of the plan that is named."""
    asked = [(["trace", "examples/three.plan", "N"], "NORTH"), (["fill", "examples/three.plan", "NORTH", ""], "22 20 24"), (["page", "examples/three.plan", "--code", "24"], "24")]
    asked += [(["trace", "examples/three.plan", "--through", "NO"], "NORTH NOSO1"), (["trace", "examples/three.plan", "NORTH", "24", "--down", "NOSO1,CES"], "NOSO1,CESO1 NOSO1,CESO2")]
    for words, offered in asked:
        line = " ".join(f"'{it}'" for it in ["telexplan", *words])
        script = f"source docs/telexplan.bash; COMP_WORDS=({line}); COMP_CWORD={len(words)}; _telexplan; echo ${{COMPREPLY[*]}}"
        ran = subprocess.run(["bash", "-c", script], cwd=TOP, capture_output=True, timeout=60)
        if ran.stdout.decode() != offered + "\n":
            tell(f"docs/telexplan.bash: behind {' '.join(words)} it offers {ran.stdout!r}")


def check_manual(tell, told):
    """The manual page has each command with the options that its help tells, and says what each of them is."""
    text = read("docs/telexplan.1").decode()
    lines = re.findall(r"(?ms)^\.SY telexplan\n(.*?)^\.YS", text)
    spelled = lambda option: option.replace("-", "\\-")
    shown = {}
    for it in lines:
        if found := re.match(r"\.B (\w+)\n", it):
            shown.setdefault(found[1], set()).update(re.findall(r"\\-\\-\w+(?:\\-\w+)*", it))
    for it in [*told, "help"]:
        wanted = {spelled(option) for option in told.get(it, ()) if option != "--help"}
        if shown.get(it) != wanted:
            tell(f"docs/telexplan.1: the synopsis of {it} is missing or has other options than its help")
        if it != "help" and f"\n.TP\n.B {it}\n" not in text:
            tell(f"docs/telexplan.1: it does not say what {it} is")
    for option in sorted(set().union(*told.values())):
        if not re.search(rf"(?m)^\.TP\n\.B\w? .*{re.escape(spelled(option))}\b", text):
            tell(f"docs/telexplan.1: it does not say what {option} is")


def check_words(tell):
    told = words_told()
    lacking = [it for it, options in told.items() if options is None]
    for it in lacking:
        tell(f"crates/tx_worked: no case has the help of {it}")
    for words, text, _ in told_at_ends():
        for line in text.splitlines() if "\nUsage: " in text else []:
            if len(line) > 80 and not line.startswith("error: "):
                tell(f"crates/tx_worked: the help of {words} has a line of {len(line)} columns")
    if not lacking:
        check_completion(tell, told)
        check_manual(tell, told)


def main(words):
    if words == ["--cases"]:
        write_cases()
        return 0
    only_pages = words == ["--pages"]
    words = [] if only_pages else words
    write = words[:1] == ["--write"]
    words = words[1:] if write else words
    if len(words) > 1 or any(it.startswith("-") for it in words) or (write and not words):
        print(__doc__)
        return 64
    program = [os.path.abspath(words[0]) if words else os.path.join(TOP, "crates/telexplan/out/telexplan")]
    if write:
        write_examples(program)
        return 0
    told = []
    if not only_pages:
        check_examples(program, told.append)
        for check in (check_odd_tables, check_arguments, check_terminal, check_replaced, check_names_beside, check_apart, check_page_apart, check_outputs, check_pipe_and_device, check_no_leave, check_no_name, check_order, check_manual_commands, check_offers):
            check(program, told.append)
    check_pages(told.append)
    check_explained(told.append)
    check_links(told.append)
    check_map(told.append)
    check_cases(told.append)
    check_tables(told.append)
    check_words_printed(told.append)
    check_ends(told.append)
    check_words(told.append)
    print("".join(f"{it}\n" for it in told) + f"{len(examples())} examples, {len(told)} differences")
    return 1 if told else 0


if __name__ == "__main__":
    sys.exit(main(sys.argv[1:]))
