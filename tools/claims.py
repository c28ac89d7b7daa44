#!/usr/bin/env python3
"""usage: tools/claims.py [CRATE ..]

Prints what the crates promise, lowest first, or these ones, as a page of Markdown: what each crate is, and its public functions, each with its comment, the names of the
clauses that it requires and ensures, and the mutants of its body, by the files in mutants. Those of all else come after them. It reads the sources, so it says what stands
there; the prover judges it."""
import os
import re
import sys

sys.dont_write_bytecode = True
from names import exported, functions_of, read, sources


def comment(lines, at):
    """The comment that ends before a line, or before attributes there."""
    said = []
    while at > 0 and re.match(" *(///|#\\[)", lines[at - 1]):
        at -= 1
        said.append(lines[at].strip())
    return " ".join(it[3:].strip() for it in reversed(said) if re.match("/// ", it))


def edits_of(crate):
    """The mutants of a crate: the name of each, the file that it changes, and a text there that it replaces."""
    folder = f"crates/{crate}/mutants"
    for name in sorted(os.listdir(folder)) if os.path.isdir(folder) else []:
        text = read(os.path.join(folder, name))
        yield name.removesuffix(".edit"), f"crates/{crate}/{re.search(r'(?m)^file: (.*)$', text)[1]}", re.findall(r"(?m)^old: (.*)$", text)


def function_at(functions, text, olds):
    """The function of a file in which the first of these texts stands that does; None where it stands before all functions."""
    at = next((text[: text.index(it)].count("\n") for it in olds if it in text), 0)
    return max((it for it in functions if it.at <= at), key=lambda it: it.at, default=None)


def named(what, names):
    return f" {what} " + ("one clause" if names == [None] else ", ".join(f"`{it}`" for it in names)) + "." if names else ""


def promises(crate):
    shown, texts, functions = exported(crate), {path: read(path) for path in sources(crate)}, {}
    for path, text in texts.items():
        functions[path] = list(functions_of(crate, path, text))
    mutants = {}
    for name, path, olds in edits_of(crate):
        mutants.setdefault(function_at(functions.get(path, []), texts.get(path, ""), olds) or path, []).append(name)
    for path, found in functions.items():
        for it in found:
            if it.is_public and (it.owner or it.name) in shown:
                name = f"{it.owner}::{it.name}" if it.owner else it.name
                clauses = named("Requires", it.clauses["requires"]) + named("Ensures", it.clauses["ensures"])
                yield f"- **`{name}`** ({path}): {comment(texts[path].splitlines(), it.at)}{clauses}{named('Mutants:', mutants.pop(it, []))}"
    if mutants:
        yield "- Mutants of what is not public: " + ", ".join(f"`{name}` ({getattr(it, 'name', it)})" for it, names in mutants.items() for name in names) + "."


def main(words):
    crates = re.findall(r"(?m)^(\w+).*:", read("crates.txt"))
    for crate in sorted(set(words) - set(crates)):
        sys.exit(f"claims.py: there is no crate {crate}")
    for crate in words or crates:
        lines = list(promises(crate))
        if lines:
            said = re.findall(r"(?m)^//! (.*)$", read(f"crates/{crate}/src/lib.rt"))
            print("\n".join([f"## {crate}", "", " ".join(said), "", *lines, ""]))


if __name__ == "__main__":
    os.chdir(os.path.join(os.path.dirname(os.path.abspath(__file__)), ".."))
    main(sys.argv[1:])
