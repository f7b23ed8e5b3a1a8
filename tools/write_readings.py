#!/usr/bin/env python3
"""Writes the readings of demangle_grammar that are proved by computation.

    tools/write_readings.py

From by-hand.jsonl, rows.jsonl.xz (cases.py) and first-idle.json in tools/readings it makes the modules ByHand,
ReadRows1 and so on, and Firsts in crates/demangle_grammar/proofs, and names them in Lib.antt there. first-idle.json has
for each row the bytes with which it can begin, how deep it goes where the next byte is another, and whether it can be
empty.
"""
import json
import os
import re

import antt
import cases
from cases import snake

FOLDER = os.path.join(antt.CRATES, "demangle_grammar", "proofs")
A_FILE = 90  # readings in a file
CAUSES = {"UnexpectedEnd": "End", "UnexpectedText": "Text", "BadBackReference": "Bad", "Overflow": "Over"}
# where the names come from that a reading may use
USES = {
    "Rattle.std.specs.Prelude": ["true", "false", "[]", "◌∷◌", "codes", "pos", "negsuc"],
    "Rattle.std.proofs.Common": ["refl"],
    "Rattle.demangle_text.specs.Kind": ["End", "Text", "Bad", "Over"],
    "Rattle.demangle_text.specs.Characters": ["sequence_len"],
    "Rattle.demangle_core.specs.Core": [
        "Tag", "N", "U", "end", "node", "place", "number", "flag", "chosen", "ref", "mark"],
    "Rattle.demangle_core.specs.Table": ["entry_at"],
    "Rattle.demangle_grammar.specs.Rule": ["Row"],
    "Rattle.demangle_grammar.specs.Rows": ["rule", "global", "operators"],
    "Rattle.demangle_grammar.specs.Reading": ["run_rule", "measure_from"],
    "Rattle.demangle_grammar.specs.First": ["takes_in", "first_in", "idle_in"],
    "Rattle.demangle_grammar.proofs.Conforms": [
        "Read", "Refused", "Reads", "by_measure", "entry", "Begins", "PartBegins"],
}
# parts of a row in the listing of first bytes
PARTS = {
    "Global": "(global Tag.ExpressionNew Tag.ExpressionNewArray Tag.ExpressionDelete Tag.ExpressionDeleteArray)",
    "Operators": "operators",
}


# ---- terms
def grouped(text):
    return "(%s)" % text if " " in text else text


def integer(value):
    return "(pos %d)" % value if value >= 0 else "(negsuc %d)" % (-value - 1)


def head_of(tree):
    """A tree without what stands behind it."""
    kind, *values = tree
    if kind == "node":
        return "node Tag.%s %s" % (values[0], grouped(row_of(values[1])))
    if kind == "number":
        return "number %s" % integer(values[0])
    return " ".join([kind, *(str(value).lower() if isinstance(value, bool) else str(value) for value in values)])


def row_of(trees):
    text = "end"
    for tree in reversed(trees):
        text = "%s %s" % (head_of(tree), grouped(text))
    return text


def listed(terms):
    return "(%s)" % " ∷ ".join([*terms, "[]"]) if terms else "[]"


def bytes_of(data):
    if all(32 <= b < 127 and b not in b'"\\' for b in data):
        return '(codes "%s")' % data.decode()
    return listed(str(b) for b in data)


# ---- readings
def outcome_of(case):
    if case.answer[0] == "No":
        return "(Refused %s)" % CAUSES[case.answer[1]]
    entries = listed(["entry %s %s" % (which, grouped(row_of(trees))) for which, trees in case.entries])
    return "(Read %d %s %s)" % (case.answer[1], grouped(row_of(case.answer[2])), entries)


def reading_of(name, case):
    reader = "%s %s %s" % (case.row, str(case.conversion).lower(), bytes_of(case.data))
    more = "" if case.data.isascii() else " sequence_len"
    return ["", "%s : Reads %s %s %d" % (name, reader, outcome_of(case), case.reach),
            "unfolding measure_from run_rule rule entry_at" + more, "%s = by_measure refl" % name]


def uses_of(lines):
    """The names that the lines use, by the module that they come from."""
    text = re.sub(r'"[^"]*"', "", "\n".join(lines))
    words = set(re.findall(r"[^\s().;]+", text)) | ({"◌∷◌"} if "∷" in text else set())
    words -= set(re.findall(r"^(\w+) :", text, re.M))
    for module, names in USES.items():
        used = [name for name in names if name in words]
        if used:
            yield "use %s.{%s}" % (module, ", ".join(used))


def write(stem, about, lines):
    with open(os.path.join(FOLDER, stem + ".antt"), "w") as out:
        out.write("\n".join(["-- %s Written by tools/write_readings.py." % about, *uses_of(lines), *lines]) + "\n")


def write_readings(stem, about, readings):
    count, lines = {}, []
    for case in readings:
        count[case.row] = count.get(case.row, 0) + 1
        lines += reading_of("%s_%d" % (case.row[4:], count[case.row]), case)
    write(stem, about, lines)


def write_rows():
    """The chosen readings, in several files; gives back their names."""
    readings = cases.load(cases.CHOSEN)
    stems = []
    for i in range(0, len(readings), A_FILE):
        stems.append("ReadRows%d" % (i // A_FILE + 1))
        write_readings(stems[-1], "Readings of rows, by computation.", readings[i:i + A_FILE])
    return stems


# ---- the first bytes of rows
def ranges_of(present):
    starts = [byte for byte in sorted(present) if byte - 1 not in present]
    stops = [byte for byte in sorted(present) if byte + 1 not in present]
    return listed(["(%d, %d)" % pair for pair in zip(starts, stops)])


def begins_of(name, told):
    row, begins = snake(name), "%s %d" % (ranges_of({ord(c) for c in told["first"]}), told["idle"])
    part = PARTS.get(name)
    if part:
        name, fields = row[4:] + "_part", ("first", "idle")
        statement = "PartBegins %s %s" % (part, begins)
    else:
        name, fields = row[4:], ("takes", "first", "idle")
        statement = "Begins %s %s %s" % (row, str(not told["can be empty"]).lower(), begins)
    proof = "; ".join(field + " = refl" for field in fields)
    unfolding = "unfolding rule takes_in first_in idle_in"
    return ["", "%s : %s" % (name, statement), unfolding, "%s = record { %s }" % (name, proof)]


def write_firsts():
    with open(cases.FIRSTS) as file:
        table = json.load(file)
    lines = [line for name in sorted(table) for line in begins_of(name, table[name])]
    write("Firsts", "The first bytes of each row, and how deep it goes where the next byte is another.", lines)


def main():
    old = [file for file in os.listdir(FOLDER) if re.fullmatch(r"ReadRows\d+\.antt", file)]
    for file in old:
        os.remove(os.path.join(FOLDER, file))
    stems = write_rows()
    write_readings("ByHand", "Readings that were written out by hand.", cases.load(cases.BY_HAND))
    write_firsts()
    library = os.path.join(FOLDER, "Lib.antt")
    with open(library) as file:
        modules = [line for line in file.read().split("\n") if line and not re.fullmatch(r"pub mod ReadRows\d+", line)]
    at = modules.index("pub mod Firsts") + 1
    modules[at:at] = ["pub mod " + stem for stem in stems]
    with open(library, "w") as file:
        file.write("\n".join(modules) + "\n")


if __name__ == "__main__":
    main()
