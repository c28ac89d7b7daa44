#!/usr/bin/env python3
"""usage: tools/unused.py [CRATE..]

Lists the definitions and lemmas in specs/ and proofs/ that nothing in the repository uses, with file and line; exits 1 if there are any.

A use is the name as a word outside of imports, comments and its own clauses, or in a Lib.antt, from which the prover takes lemmas by itself. Two things of one
name count as one, so a name that is told is not used at all. A lemma that only an unused one uses is told once that one is gone. Answers to goals and proofs of
bodies are used by their place, and are left out.

An import of a name that its file does not have is told too: nothing else looks at those of a lemma that is gone before the check stops at them."""
import glob
import os
import re
import sys
from collections import Counter, defaultdict

WORD = r"[A-Za-z_][\w'-]*"
BEGINS = re.compile(rf"^(\s*)((?:pub |abbrev |module )*)({WORD}|◌\S+◌) :(?!:)")
IMPORT = re.compile(r"use Rattle\.(\w+)\.(specs|proofs)\.([\w.]+)\.\{([^}]*)\}")
BY_PLACE = {"Answers.antt", "Invariants.antt", "Measures.antt", "Proof.antt"}


def texts():
    """Each text of the repository that can use a definition: path and lines."""
    for kind in ("specs/**/*.antt", "proofs/**/*.antt", "src/**/*.rt"):
        for path in sorted(glob.glob(f"crates/*/{kind}", recursive=True)):
            if "/out/" not in path:
                with open(path, encoding="utf-8") as it:
                    yield path, it.read().split("\n")


def defined(lines):
    """The names that a text defines, with their lines: a record's fields and what stands in a `let` are left out."""
    record = None
    for at, line in enumerate(lines):
        if not line.strip() or line.lstrip().startswith("--"):
            continue
        indent = len(line) - len(line.lstrip())
        if record is not None and indent > record:
            continue
        record = indent if re.match(r"\s*(pub )?(record|data)\b", line) else None
        found = BEGINS.match(line)
        if found:
            yield found[3], at + 1


def defines(line):
    """The name that a line gives a type or a value, if it does: what stands before the sign has its brackets closed."""
    found = re.match(rf"(?:(?:pub|abbrev) )*({WORD})( :(?!:)|(?: [^=]*)? =(?: |$))", line)
    is_closed = found and all(found[2].count(a) == found[2].count(b) for a, b in ("()", "{}", "[]"))
    return found[1] if is_closed else None


def uses(lines, is_code):
    """The words of a text outside of imports, comments and the clauses of the word itself; and the words that an import gives another name."""
    inside = False
    for line in lines:
        stripped = line.strip()
        if inside or re.match(r"(pub )?(ghost )?(pub )?use ", stripped):
            inside = "}" not in line and ("{" in line or inside)
            yield from re.findall(rf"({WORD}) as ", line)
            continue
        if stripped.startswith("--") or is_code and stripped.startswith("//"):
            continue
        own = None if is_code else defines(stripped)
        yield from (word for word in re.findall(WORD, stripped) if word != own)


def names_in(lines):
    """The names that a text has: its words, and what it passes on."""
    text = "\n".join(lines)
    passed = [name.strip() for names in re.findall(r"(?m)^pub use .*\{(.*)\}", text) for name in names.split(",")]
    return {*re.findall(rf"{WORD}|◌\S+◌", text), *passed}


def gone(path, lines, known):
    """The imports of names that their files do not have. What the prover writes has no file, and is left out."""
    for at, line in enumerate(lines):
        for crate, folder, module, names in IMPORT.findall(line):
            file = f"crates/{crate}/{folder}/{module.replace('.', '/')}.antt"
            words = names_in(known[file]) if file in known else ()
            for name in names.split(",") if words else []:
                name = name.split(" as ")[0].strip()
                if name and name not in words:
                    yield f"{path}:{at + 1}", f"{name} is not in {file}"


def main(crates):
    where, used = defaultdict(list), Counter()
    known = dict(texts())
    for path, lines in known.items():
        is_lib = path.endswith("/proofs/Lib.antt")
        used.update(re.findall(WORD, "\n".join(lines)) if is_lib else uses(lines, path.endswith(".rt")))
        if path.endswith(".antt") and os.path.basename(path) not in BY_PLACE:
            for name, line in defined(lines):
                where[name].append(f"{path}:{line}")
    told = [(place, f"{name} is not used") for name, places in where.items() if not used[name] for place in places]
    told += [it for path, lines in known.items() for it in gone(path, lines, known)]
    told = [it for it in sorted(told) if not crates or it[0].split("/")[1] in crates]
    for place, what in told:
        print(f"{place}: {what}")
    return 1 if told else 0


if __name__ == "__main__":
    os.chdir(os.path.join(os.path.dirname(os.path.abspath(__file__)), ".."))
    sys.exit(main(sys.argv[1:]))
