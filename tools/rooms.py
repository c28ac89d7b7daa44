#!/usr/bin/env python3
"""usage: tools/rooms.py [CRATE..]

Lists what stands in a wrong room or has outgrown its room, with file and line; exits 1 if there is any:
- an import of specs/inner or of proofs of this repository in specs/ outside of inner, and an import of such proofs in specs/inner;
- a file of more than 400 lines, a function whose body has more than 40, a library of more than 101 functions, and a folder of a program's with more (data, and what
  derives write, do not count)."""
import collections
import glob
import os
import re
import sys

FILE, BODY, CRATE = 400, 40, 101
IMPORT = re.compile(r"use Rattle\.(\w+)\.(specs|proofs)\.(\w+)")
FUNCTION = re.compile(r"(\s*)(?:#\[[^\]]*\] )?(?:pub(?:\(\w+\))? )?(?:const |unsafe )*fn (\w+)")


def wrong_rooms(path, lines):
    """The imports that a file of definitions may not have, with their lines."""
    room, name = path.split("/")[2:4]
    if room != "specs":
        return
    for at, line in enumerate(lines):
        for crate, folder, module in IMPORT.findall(line):
            if os.path.isdir(f"crates/{crate}") and folder == "proofs":
                yield at + 1, "a definition imports proofs"
            elif os.path.isdir(f"crates/{crate}") and module == "inner" and not name.startswith("inner"):
                yield at + 1, "a definition to be believed imports specs/inner"


def head_end(lines, at, indent):
    """The line with which a function's head ends: its brace, or the semicolon of one without a body."""
    for n in range(at, len(lines)):
        is_clause = n > at and lines[n].startswith(indent + "    ")
        if lines[n].endswith(";") or lines[n].endswith("{") and not is_clause:
            return n
    return at


def bodies(lines):
    """The functions of a file with a body: name, line, and lines between its braces."""
    for at, line in enumerate(lines):
        found = FUNCTION.match(line)
        end = head_end(lines, at, found[1]) if found else at
        if found and lines[end].endswith("{"):
            closed = next((n for n in range(end, len(lines)) if lines[n] == found[1] + "}"), end)
            yield found[2], at + 1, closed - end - 1


def main(crates):
    told = []
    for crate in sorted(crates or os.listdir("crates")):
        functions = collections.Counter()
        is_program = os.path.isfile(f"crates/{crate}/src/main.rt")
        for kind in ("src/**/*.rt", "specs/**/*.antt", "proofs/**/*.antt"):
            for path in sorted(glob.glob(f"crates/{crate}/{kind}", recursive=True)):
                with open(path, encoding="utf-8") as it:
                    lines = it.read().split("\n")[:-1]
                told += [f"{path}:{at}: {what}" for at, what in wrong_rooms(path, lines)]
                if len(lines) > FILE:
                    told.append(f"{path}: {len(lines)} lines")
                for name, at, length in bodies(lines) if kind.startswith("src") else []:
                    functions[os.path.dirname(path) if is_program else f"crates/{crate}"] += 1
                    if length > BODY:
                        told.append(f"{path}:{at}: {name} has {length} lines")
        told += [f"{room}: {number} functions" for room, number in functions.items() if number > CRATE]
    print("\n".join(told) or "nothing")
    return 1 if told else 0


if __name__ == "__main__":
    os.chdir(os.path.join(os.path.dirname(os.path.abspath(__file__)), ".."))
    sys.exit(main(sys.argv[1:]))
