#!/usr/bin/env python3
"""Writes the rows of crates/cpp_mangle_tests/src/rows.rt: declarations with their names and texts from outside.

Usage: tools/mangles.py FILE [--all]

FILE has a JSON object a line, under xz: `path`, `params`, `bytes`, `text`. Of its rows those are taken that show what
no row before them shows: a builtin type, a modifier on what it stands on, a reference by its place, a length of a path
or of the list of parameters. With --all each is taken; `rt try --test` in crates/cpp_mangle_tests then runs them.
"""
import json
import lzma
import pathlib
import re
import sys

ROWS = pathlib.Path(__file__).resolve().parent.parent / "crates/cpp_mangle_tests/src/rows.rt"
HEAD = """//! Declarations with their names and texts, by `tools/mangles.py`.

use crate::declared::Row;

pub(crate) const ROWS: [Row; {count}] = [
"""


def spelled(param):
    """A parameter as the tests read it: its modifiers, a colon, and a path or a dot and a word."""
    modifiers = ""
    while len(param) == 2 and param[0] in "PROK":
        modifiers += param[0]
        param = param[1]
    kind, value = param
    return f"{modifiers}:{'.' + value if kind == 'builtin' else '::'.join(value)}"


def shown(row):
    """What a row shows."""
    yield "path", min(len(row["path"]), 4)
    yield "params", min(len(row["params"]), 5)
    for place in re.findall(r"S[0-9A-Z]*_", row["bytes"]):
        yield "reference", place
    for nested in re.findall(r"NS[0-9A-Z]*_", row["bytes"]):
        yield "front", nested
    for param in map(spelled, row["params"]):
        modifiers, base = param.split(":", 1)
        below = "word" if base.startswith(".") else f"path of {min(base.count('::') + 1, 3)}"
        yield from (("on", outer, inner) for outer, inner in zip(modifiers, modifiers[1:]))
        yield "on", modifiers[-1:], below
        if base.startswith("."):
            yield "word", base


def main():
    rows = [json.loads(line) for line in lzma.open(sys.argv[1], "rt")]
    taken, seen = [], set()
    for row in sorted(rows, key=lambda row: -len(set(shown(row)))):
        if "--all" in sys.argv or not set(shown(row)) <= seen:
            seen |= set(shown(row))
            taken.append(row)
    with open(ROWS, "w") as out:
        out.write(HEAD.format(count=len(taken)))
        for row in taken:
            out.write("    Row {\n")
            for field, value in (
                ("path", "::".join(row["path"])),
                ("params", " ".join(map(spelled, row["params"]))),
                ("name", row["bytes"]),
                ("text", row["text"]),
            ):
                out.write(f"        {field}: {json.dumps(value)},\n")
            out.write("    },\n")
        out.write("];\n")
    print(f"{len(taken)} of {len(rows)} rows")


main()
