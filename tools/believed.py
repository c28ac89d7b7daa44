#!/usr/bin/env python3
"""usage: tools/believed.py

Checks the section of docs/PROOFS.md that lists the definitions to believe: each file that it names is there, each definition that such a file uses is in a
file that it names too, which is one of the last group only where the first is one too, and it names each file of specs/ of each crate on which it says anything
(specs/inner, which holds how types keep what they keep, is not to be believed). Prints a line for each difference; the status is 1 if there is one.

In the section a crate's name in backticks goes before the names of its files."""
import glob
import os
import re
import sys

PAGE, HEADING = "docs/PROOFS.md", "## The definitions to believe"
USED = re.compile(r"use Rattle\.(tx_\w+)\.specs\.(\w+)")
# of these crates a few definitions are cited, and how they look things up is not to be believed
INDEXED = {"tx_trie"}


def named():
    """The files that the section names, in order, each as a crate and a name, with the number of its group."""
    with open(PAGE, encoding="utf-8") as it:
        section = it.read().partition(HEADING)[2].partition("\n## ")[0]
    crate = None
    for line in section.split("\n"):
        group = re.match(r"(\d+)\. ", line)
        if group:
            for word in re.findall(r"`(\w+)`", line):
                if os.path.isdir(f"crates/{word}"):
                    crate = word
                else:
                    yield (crate, word), int(group[1])


def home(crate, name):
    """Where a definition stands that the crate gives under this name: in the crate itself, or in one below it, if its Lib passes that one's file on."""
    with open(f"crates/{crate}/specs/Lib.antt", encoding="utf-8") as it:
        below = re.search(rf"^pub use Rattle\.(tx_\w+)\.specs\.{name}$", it.read(), re.M)
    return home(below[1], name) if below else (crate, name)


def main():
    told, groups = [], list(named())
    files, group_of = [file for file, _ in groups], dict(groups)
    last = max(group_of.values())
    for crate, name in files:
        path = f"crates/{crate}/specs/{name}.antt"
        if not os.path.isfile(path):
            told.append(f"{PAGE}: there is no {path}")
            continue
        with open(path, encoding="utf-8") as it:
            used = sorted({home(*found) for found in USED.findall(it.read())})
        told += [f"{PAGE}: {path} uses {other} of {below}, which is not named" for below, other in used if other != "declared" and (below, other) not in files]
        told += [f"{PAGE}: {path} uses {other} of {below}, of the last group" for below, other in used if group_of.get((below, other)) == last != group_of[crate, name]]
    for crate in sorted({crate for crate, _ in files} - INDEXED):
        there = {os.path.basename(it)[:-5] for it in glob.glob(f"crates/{crate}/specs/*.antt")} - {"Lib", "inner"}
        told += [f"{PAGE}: {name} of {crate} is not named" for name in sorted(there) if (crate, name) not in files]
    told += [f"{PAGE}: {name} of {crate} is named twice" for crate, name in sorted({it for it in files if files.count(it) > 1})]
    print("\n".join(told) or f"{len(files)} files of definitions, 0 differences")
    return 1 if told else 0


if __name__ == "__main__":
    os.chdir(os.path.join(os.path.dirname(os.path.abspath(__file__)), ".."))
    sys.exit(main())
