#!/usr/bin/env python3
"""usage: tools/names.py

Checks the names that README.md, CHANGELOG.md, CONTRIBUTING.md and docs/*.md cite in backticks: each file and each edit is there. Of README.md and docs/*.md, each
function, type, clause and definition is declared in some crate. Where a page says in which place, it is declared there:
  `tx_rank/src/walk.rt` (`step`, `Walk::end`)        in this file; of one without a folder, in a file of this name
  `rank` of tx_rank, tx_rank: `rank`, `grade`        in this crate
  `rank` (clauses `found`, `wherever`)               clauses of this function
  (Grades: `IsGrade`), (`tx_rank`, Grades: ..)       a definition of this file of specs/, and of this crate if one is named
In the table of crates of docs/ARCHITECTURE.md the names of the last column are public in the crate of the row. Prints a line for each difference; the status is 1 if
there is one."""
import collections
import glob
import os
import re
import sys

MADE = {"crates/telexplan/out/telexplan", "out/"}
# the words of the program, and what the toolchain, its libraries and other programs have
OTHER = {"lint", "audit", "grade", "mend", "change", "order", "survive", "page", "check", "run", "codes", "trace", "fill", "explain", "help"}
OTHER |= {"rt", "dot", "label", "indexmap", "match", "requires", "Contains", "Drop", "Error", "From"}
HEAD = re.compile(r"( *)(pub )?(?:pub\(\w+\) )?(?:const |unsafe )*fn (\w+)")
CLAUSE = re.compile(r" +(requires|ensures)(?: (\w+))? \{")
ITEM = re.compile(r"(?m)^ *(?:pub(?:\(\w+\))? )?(?:struct|enum|trait|type|const|static|mod) (\w+)|^    ([A-Z]\w*)(?:\(.*|,| \{)$|^    (?:pub )?(\w+): .*,$")
DEFINITION = re.compile(r"(?m)^ *(?:abbrev |unfoldable )?pub (?:record |data )?([^\s:(]+)")
NAMES = r"((?:`[\w:]+`(?:, | and |))+)"


class Function:
    """A function: its crate, its file, the index of the line of its head, its name, the type or trait that has it, whether it is `pub` or of a trait that is, and the names
    of its clauses by their kind."""

    def __init__(self, crate, path, at, name, owner, is_public):
        self.crate, self.path, self.at, self.name, self.owner, self.is_public = crate, path, at, name, owner, is_public
        self.clauses = {"requires": [], "ensures": []}


def read(path):
    with open(path, encoding="utf-8") as it:
        return it.read()


def owner_of(line):
    """The type that a block of functions is for, or the trait that it declares."""
    found = re.match(r"(?:pub(?:\(\w+\))? )?(?:impl(?:<.*?>)? (?:.* for )?&?(?:mut )?(\w+)|trait (\w+))", line)
    return found and (found[1] or found[2])


def functions_of(crate, path, text):
    """The functions of a file with this text."""
    owner, is_shown, function = None, False, None
    for at, line in enumerate(text.split("\n")):
        if re.match("[a-z]", line):
            owner, is_shown = owner_of(line), line.startswith("pub trait")
        if head := HEAD.match(line):
            function = Function(crate, path, at, head[3], owner if head[1] else None, bool(head[2]) or is_shown)
            yield function
        elif function and (clause := CLAUSE.match(line)):
            function.clauses[clause[1]].append(clause[2])


def crates():
    return sorted(os.listdir("crates"))


def sources(crate):
    return sorted(glob.glob(f"crates/{crate}/src/**/*.rt", recursive=True))


def exported(crate):
    """What the crate shows to others: the names behind `pub use` in its lib.rt."""
    path = f"crates/{crate}/src/lib.rt"
    text = read(path) if os.path.exists(path) else ""
    return {name for used in re.findall(r"(?ms)^pub use [\w:]*?(\{.*?\}|\w+);", text) for name in re.findall(r"\w+", used)}


class Declared:
    """What the crates declare: functions by their names, all names of each file, and the files of each definition."""

    def __init__(self):
        self.functions, self.names = collections.defaultdict(list), {}
        for crate in crates():
            for path in sources(crate):
                text = read(path)
                found = list(functions_of(crate, path, text))
                for it in found:
                    self.functions[it.name].append(it)
                clauses = {name for it in found for names in it.clauses.values() for name in names}
                self.names[path] = {it.name for it in found} | clauses | {name for row in ITEM.findall(text) for name in row}
            for path in sorted(glob.glob(f"crates/{crate}/specs/**/*.antt", recursive=True)):
                self.names[path] = set(DEFINITION.findall(read(path))) | {os.path.basename(path)[:-5]}
        self.files = [path.rstrip("/") for it in ("src", "specs", "proofs", "mutants", "data") for path in glob.glob(f"crates/*/{it}/**", recursive=True)]
        self.all = set().union(*self.names.values(), {it for path in self.files for it in path.partition(".")[0].split("/")}, OTHER)

    def has(self, name, where):
        """All parts of a name are declared in files of which the path begins so, or it is a folder there."""
        there = [names for path, names in self.names.items() if path.startswith(where)]
        return all(any(it in names for names in there) for it in name.split("::")) or os.path.isdir(os.path.join(where, name))

    def in_specs(self, name, file, crate):
        return any(name in names for path, names in self.names.items() if path.endswith(f"/{file}.antt") and path.startswith(f"crates/{crate or ''}"))


def words(names):
    return re.findall(r"`([\w:]+)`", names)


def places_of(path, files):
    """Where a file may be: a path from the top or from crates/, an edit, or the end of a path in a crate."""
    crate, _, name = path.partition("/")
    there = [path, f"crates/{path}", f"crates/{crate}/mutants/{name}.edit"]
    return [it for it in there if it in MADE or os.path.exists(it)] or [it for it in files if it.endswith("/" + path.rstrip("/"))]


def check_files(page, text, declared, tell):
    for path, names in re.findall(rf"`((?:[\w.-]+/)+[\w.-]*|[\w-]+\.(?:rt|antt|py))`(?: \({NAMES}\))?", text):
        places = places_of(path, declared.files)
        if not (places or path.startswith("./") or re.search(r"\b(CRATE|NAME)\b", path)):
            tell(f"{page}: {path} is not there")
        for name in words(names):
            if not any(declared.has(name, place) for place in places):
                tell(f"{page}: {path} does not have {name}")


def check_places(page, text, declared, tell):
    said = re.findall(r"()`([\w:]+)` of `?(tx_\w+)", text) + re.findall(rf"(tx_\w+)`?: {NAMES}()", text)
    for before, names, after in said:
        for name in words(names) or [names]:
            if not declared.has(name, f"crates/{before or after}/"):
                tell(f"{page}: {before or after} does not have {name}")
    for name, clauses in re.findall(rf"`([\w:]+)`(?: of `?tx_\w+`?)?,? \(?clauses? {NAMES}", text):
        there = {clause for it in declared.functions[name.split("::")[-1]] for names in it.clauses.values() for clause in names}
        for clause in words(clauses):
            if clause not in there:
                tell(f"{page}: {name} has no clause {clause}")
    for brackets in re.findall(r"\(([^()]*)\)", text):
        crate = re.search(r"\btx_\w+", brackets)
        for file, names in re.findall(rf"\b([A-Z]\w+): {NAMES}", brackets):
            for name in words(names):
                if not declared.in_specs(name, file, crate and crate[0]):
                    tell(f"{page}: {file} of {crate[0] if crate else 'any crate'} does not define {name}")


def check_page(page, declared, tell):
    text = re.sub(r"(?ms)^ *```.*?^ *```", "", read(page))
    for name in sorted(set(re.findall(r"`([A-Za-z_]\w*(?:::\w+)*)`", text))):
        if page.startswith(("README", "docs/")) and re.search("[a-z]", name) and not all(it in declared.all for it in name.split("::")):
            tell(f"{page}: {name} is declared nowhere")
    check_files(page, text, declared, tell)
    check_places(page, text, declared, tell)


def check_public(declared, tell):
    """The names of the table of crates are public: exported, or a function of a type."""
    for row in re.findall(r"(?m)^\| (`tx_.*`.*?) \| .* \| (.*) \|$", read("docs/ARCHITECTURE.md")):
        of = re.findall(r"`(tx_\w+)`", row[0])
        shown = set().union(*map(exported, of))
        for name in words(row[1]):
            methods = {it.name for it in declared.functions[name] if it.crate in of and it.owner and it.is_public}
            if name not in shown | methods:
                tell(f"docs/ARCHITECTURE.md: {name} is not public in {', '.join(of)}")


def main():
    told, declared, pages = [], Declared(), ["README.md", "CHANGELOG.md", "CONTRIBUTING.md", *sorted(glob.glob("docs/*.md"))]
    for page in pages:
        check_page(page, declared, told.append)
    check_public(declared, told.append)
    print("\n".join(told) or f"{len(pages)} pages, 0 differences")
    return 1 if told else 0


if __name__ == "__main__":
    os.chdir(os.path.join(os.path.dirname(os.path.abspath(__file__)), ".."))
    sys.exit(main())
