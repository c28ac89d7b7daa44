#!/usr/bin/env python3
"""usage: tools/restated.py

Lists lemmas of proofs/ that state what a lemma of the standard library states, and then those that state what a lemma of another file states, with file and line. It
exits 1 if there is any of the first kind: that lemma is imported in place of the own one.

Two statements are the same where they are so word for word, once what they bind is numbered in the order in which it is met, and what stands in braces is left out. So a
lemma that is stated in another form is not found. One inside of a `where` or of a `module` may rest on names from around it, and then two alike are not the same: those of
the second kind are to be looked at. Names of a record's fields, of goals and of what holds in a loop are left out."""
import glob
import os
import re
import subprocess
import sys
from collections import defaultdict

sys.dont_write_bytecode = True
from unused import BY_PLACE, texts

HEAD = re.compile(r"(\s*)(?:abbrev |unfoldable )?(?:pub )?([^\s:{}()=]+)((?: \{[^}]*\}| \([^)]*\))*) : (.*)")
SIGN = re.compile(r"[(){}.,]|λ|→|[^\s(){}λ.,]+")
CLOSING = {"(": ")", "{": "}"}


def statements(lines, public=False):
    """Each name that a text states something of, or those that others can import: name, line and statement, which goes on in lines that begin with an arrow."""
    record, at = None, 0
    while at < len(lines):
        line, start = lines[at], at
        at += 1
        indent = len(line) - len(line.lstrip())
        if not line.strip() or line.lstrip().startswith("--") or record is not None and indent > record:
            continue
        record = indent if re.match(r"\s*(pub )?(record|data)\b", line) else None
        found = HEAD.fullmatch(line)
        if not found or record is not None or public and not line.lstrip().startswith("pub "):
            continue
        whole = f"{found[3]} → {found[4]}" if found[3] else found[4]
        while at < len(lines) and lines[at].lstrip().startswith("→"):
            whole += " " + lines[at].strip()
            at += 1
        yield found[2], start + 1, whole


def closed_at(signs, at):
    """Where the bracket that opens at a place closes."""
    depth = 0
    for place in range(at, len(signs)):
        depth += (signs[place] == signs[at]) - (signs[place] == CLOSING[signs[at]])
        if not depth:
            return place
    return len(signs) - 1


def form(statement):
    """The statement with what it binds numbered, each of several that are bound together for itself, and without what stands in braces."""
    signs, bound, out, at = SIGN.findall(statement), set(), [], 0
    while at < len(signs):
        sign = signs[at]
        if sign == "{":
            end = closed_at(signs, at)
            inner = signs[at + 1 : end]
            bound.update(inner[: inner.index(":")] if ":" in inner else inner)
            at = end + (2 if signs[end + 1 : end + 2] == ["→"] else 1)
            continue
        if sign == "(":
            end = closed_at(signs, at)
            names = signs[at + 1 : end]
            names = names[: names.index(":")] if ":" in names else []
            if names and not set(names) & set("(){}→,."):
                bound.update(names)
                kind = signs[at + 2 + len(names) : end]
                behind = end + (2 if signs[end + 1 : end + 2] == ["→"] else 1)
                signs[at:behind] = [it for name in names for it in ["⟦", name, ":", *kind, "⟧"]]
                continue
        if sign == "λ":
            bound.update(signs[at + 1 : signs.index(".", at)])
        out.append(sign)
        at += 1
    numbers = {}
    return " ".join(f"x{numbers.setdefault(it, len(numbers))}" if it in bound else it for it in out)


def standard():
    """The statements of the standard library's lemmas, with their modules."""
    kit = os.path.dirname(subprocess.run(["rt", "doc"], capture_output=True, text=True, check=True).stdout.split()[0])
    folder = os.path.join(kit, "rattle", "std")
    known = {}
    for path in sorted(glob.glob(f"{folder}/proofs/**/*.antt", recursive=True)):
        with open(path, encoding="utf-8") as it:
            for name, _, whole in statements(it.read().split("\n"), public=True):
                known.setdefault(form(whole), name)
    return known


def place(name):
    """From where a lemma of the standard library can be imported, if it can."""
    told = subprocess.run(["rt", "lemma", name], capture_output=True, text=True, cwd="crates/tx_text").stdout
    found = re.search(rf"^use (Rattle\.std\.\S+)\.\{{{re.escape(name)}\}}", told, re.MULTILINE)
    return found and found[1]


def main():
    known, own = standard(), defaultdict(list)
    for path, lines in texts():
        if "/proofs/" in path and os.path.basename(path) not in BY_PLACE:
            for name, line, whole in statements(lines):
                own[form(whole)].append((path, line, name))
    modules = {it: place(known[it]) for it in own if "≡" in it and it in known}
    first = sorted((*it, known[whole], module) for whole, module in modules.items() if module for it in own[whole])
    for path, line, name, other, module in first:
        print(f"{path}:{line}: {name} is {other} of {module}")
    for it, places in sorted(own.items(), key=lambda pair: pair[1]):
        if "≡" in it and not modules.get(it) and len({path for path, _, _ in places}) > 1:
            path, line, name = places[0]
            print(f"{path}:{line}: {name} is as " + ", ".join(f"{other} at {path}:{line}" for path, line, other in places[1:]))
    return 1 if first else 0


if __name__ == "__main__":
    os.chdir(os.path.join(os.path.dirname(os.path.abspath(__file__)), ".."))
    sys.exit(main())
