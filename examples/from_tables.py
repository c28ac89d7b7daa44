#!/usr/bin/env python3
"""usage: examples/from_tables.py EXCHANGES CODES GROUPS LISTS
       examples/from_tables.py --risks CABLES
       examples/from_tables.py --back PLAN EXCHANGES CODES GROUPS LISTS

Prints the plan of four tables, or the text of risks of a table of cables, or makes the four tables of a plan. A table is a CSV file in UTF-8, with a comma or a semicolon
between two cells, and its first row has the names of its columns:

  EXCHANGES  exchange
  CODES      code, home, low, high                      one row for each range of numbers, or one without numbers
  GROUPS     group, from, to, direction, circuits
  LISTS      exchange, codes, groups, barred            codes and groups with a space between two
  CABLES     cable, groups                              the rows of one cable are taken together

A list is for all codes of its row. The codes * are all those that no other row of the exchange names and that are not at home there. A row with `yes` under barred also
bars calls for these codes that start there; without groups it does that alone. Each line of the plan and of the risks says which line of which table it is from.
The exit status is 2 for a table that is refused, 3 for a file that cannot be opened, read or made, and 64 for other words than these."""
import csv
import io
import sys

HEADS = [["exchange"], ["code", "home", "low", "high"], ["group", "from", "to", "direction", "circuits"], ["exchange", "codes", "groups", "barred"]]
CABLES = ["cable", "groups"]


def refuse(told, status=2):
    print(f"error: {told}", file=sys.stderr)
    sys.exit(status)


def text_of(path):
    with open(path, "rb") as file:
        text = file.read()
    try:
        return text.decode("utf-8-sig")
    except UnicodeDecodeError as fault:
        line = text.count(b"\n", 0, fault.start) + 1
        refuse(f"{path} line {line}: a byte that is not UTF-8")


def cells_of(path):
    """Each row of a file: the line where it ends, and its cells, without empty ones at its end."""
    text = text_of(path)
    reader = csv.reader(io.StringIO(text, newline=""), delimiter=";" if ";" in text.partition("\n")[0] else ",", skipinitialspace=True)
    try:
        for row in reader:
            cells = [it.strip() for it in row]
            while cells and not cells[-1]:
                cells.pop()
            yield reader.line_num, cells
    except csv.Error as fault:
        refuse(f"{path} line {reader.line_num}: {fault}")


def rows(path, head):
    """Each row of a table that is not empty: the line where it ends, and its cells by the names of the columns."""
    found = cells_of(path)
    columns = next(found, (1, []))[1]
    if columns != head:
        refuse(f"{path}: the columns are {', '.join(columns) or 'none'}, and not {', '.join(head)}")
    for line, cells in found:
        if len(cells) > len(head):
            refuse(f"{path} line {line}: {len(cells)} cells in {len(head)} columns")
        row = dict(zip(head, cells + [""] * len(head)))
        if row.get("barred") not in (None, "", "yes"):
            refuse(f"{path} line {line}: barred is yes or empty, and not {row['barred']}")
        if cells:
            yield line, row


def homes_of(path, codes):
    """Each code with the line of its first row, and its home."""
    homes = {}
    for line, row in codes:
        first, home = homes.setdefault(row["code"], (line, row["home"]))
        if home != row["home"]:
            refuse(f"{path} line {line}: code {row['code']} is at home at {row['home']}, and by line {first} at {home}")
    return homes


def codes_of(lists, homes):
    """Each row of the lists, with the codes that it is for."""
    named = {}
    for _, row in lists:
        named.setdefault(row["exchange"], set()).update(row["codes"].split())
    for line, row in lists:
        others = [it for it in homes if it not in named[row["exchange"]] and homes[it][1] != row["exchange"]]
        yield line, row, others if row["codes"] == "*" else row["codes"].split()


def plan_of(tables):
    """The lines of the plan, each with its table and the line there."""
    exchanges, codes, groups, lists = [list(rows(path, head)) for path, head in zip(tables, HEADS)]
    homes = homes_of(tables[1], codes)
    listed = list(codes_of(lists, homes))
    barred = [(line, row, it) for line, row, all in listed for it in all if row["barred"] == "yes"]
    yield f"PLAN {2 if barred else 1}", ""
    yield from ((f"EXCHANGE {row['exchange']}", f"exchanges {line}") for line, row in exchanges)
    yield from ((f"CODE {code} {home}", f"codes {line}") for code, (line, home) in homes.items())
    yield from ((f"LINES {row['code']} {row['low']} {row['high']}", f"codes {line}") for line, row in codes if row["low"] or row["high"])
    yield from ((f"GROUP {' '.join(row.values())}", f"groups {line}") for line, row in groups)
    yield from ((f"ROUTE {row['exchange']} {it} {row['groups']}", f"lists {line}") for line, row, all in listed for it in all if row["groups"])
    yield from ((f"BAR {row['exchange']} {it}", f"lists {line}") for line, row, it in barred)
    yield "END", ""


def risks_of(table):
    """The lines of the text of risks, each with the table and the first line there."""
    cables = {}
    for line, row in rows(table, CABLES):
        cables.setdefault(row["cable"], (line, []))[1].extend(row["groups"].split())
    yield "RISKS 1", ""
    yield from ((f"RISK {cable} {' '.join(dict.fromkeys(groups))}", f"cables {line}") for cable, (line, groups) in cables.items())
    yield "END", ""


def lists_of(exchange, lists, bars, homes):
    """The rows of the lists of an exchange. If it has one for each code, that for the most codes is for all others."""
    others = [it for it in homes if homes[it] != exchange]
    alike = {}
    for it in others:
        entry = " ".join(lists.get((exchange, it), [])), "yes" if (exchange, it) in bars else ""
        alike.setdefault(entry, []).append(it)
    most = max(alike, key=lambda entry: len(alike[entry]), default=None)
    rest = most if ("", "") not in alike and len(alike.get(most, [])) > 1 else None
    yield from ((exchange, " ".join(alike[entry]), *entry) for entry in alike if any(entry) and entry != rest)
    yield from [(exchange, "*", *rest)] if rest else []


def tables_of(plan):
    """The rows of the four tables of a plan."""
    lines = [line.partition("#")[0].split() for line in text_of(plan).split("\n")]
    of = lambda word: [line[1:] for line in lines if line[:1] == [word]]
    homes = dict(of("CODE"))
    ranges = {code: [it for it in of("LINES") if it[0] == code] or [[code, "", ""]] for code in homes}
    lists = {(exchange, code): groups for exchange, code, *groups in of("ROUTE")}
    bars = {tuple(it) for it in of("BAR")}
    yield of("EXCHANGE")
    yield [(code, homes[code], low, high) for code in homes for _, low, high in ranges[code]]
    yield of("GROUP")
    yield [row for (exchange,) in of("EXCHANGE") for row in lists_of(exchange, lists, bars, homes)]


def put(lines):
    for line, place in lines:
        print(f"{line}  # {place}" if place else line)


def main(words):
    if len(words) == 4 and not words[0].startswith("--"):
        put(plan_of(words))
    elif len(words) == 2 and words[0] == "--risks":
        put(risks_of(words[1]))
    elif len(words) == 6 and words[0] == "--back":
        for path, head, table in zip(words[2:], HEADS, tables_of(words[1])):
            with open(path, "x", newline="") as file:
                csv.writer(file, lineterminator="\n").writerows([head, *table])
    else:
        print(__doc__, file=sys.stderr)
        sys.exit(64)


if __name__ == "__main__":
    try:
        main(sys.argv[1:])
    except OSError as fault:
        refuse(f"{fault.filename or 'standard output'}: {fault.strerror}", 3)
