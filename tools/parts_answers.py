#!/usr/bin/env python3
"""Divides names with demangle_parts itself, and counts the parts that are others than the expected ones.

Usage: tools/parts_answers.py [FILE]   (FILE is tools/readings/parts.jsonl.xz where it is left out)

A line of FILE is a JSON object: `name`, one Latin-1 character a byte, and `parts`: kind, scope or null, base, what is
behind it, and arity or null; or ["Read", error] or ["Print", error], where the name isn't read or its tree isn't
printed. A program is made of the crates here (runs.py). It tells the parts as one text, with `|` between them and `-`
for null.
"""
import json
import lzma
import os
import sys

import cases
import runs

CHOSEN = os.path.join(cases.FOLDER, "parts.jsonl.xz")
OF_REFERENCES = ("BadTemplateArgReference", "ForwardTemplateArgReference", "BadLeafNameReference")
# FILE was made before identifiers held characters past ASCII, and says that this name isn't read.
READ_SINCE = {"_Z2\u00c3\u00a9v": "Function|-|\u00e9|()|0"}
SHOWN = 20  # how many wrong answers are printed

PROGRAM = """//! Divides names: a line of input is a name.
#![tactic(auto)]

use cpp_demangle::{BorrowedSymbol, DemangleOptions, Symbol};
use demangle_parts::parts_of;
use std::alloc::{AllocError, Global};
use std::io;

fn answer(alloc: Global, name: &[u8]) -> Result<String, AllocError> {
    let symbol: BorrowedSymbol<'_> = match Symbol::new(alloc, name) {
        Ok(symbol) => symbol,
        Err(error) => return format!(in alloc; "Read {error:?}"),
    };
    let parts = match parts_of(alloc, &symbol, &DemangleOptions::new()) {
        Ok(parts) => parts,
        Err(error) => return format!(in alloc; "Print {error:?}"),
    };
    let (kind, scope, base, after) = (parts.kind(), parts.scope().unwrap_or("-"), parts.base(), parts.after());
    match parts.arity() {
        None => format!(in alloc; "{kind:?}|{scope}|{base}|{after}|-"),
        Some(arity) => format!(in alloc; "{kind:?}|{scope}|{base}|{after}|{arity}"),
    }
}

fn main(rt: HostRuntime) -> io::Result<()> {
    for line in rt.lines(rt.alloc()) {
        let line = line?;
        let name = bytes(rt.alloc(), line.as_str())?;
        let text = answer(rt.alloc(), &name)?;
        println!(rt; "{text}")?;
    }
    Ok(())
}
"""


def told(parts):
    """The parts as the program tells them."""
    if len(parts) == 2:
        what, error = parts
        if what == "Print" and error in OF_REFERENCES:
            error = f"Reference({error})"
        return f"{what} {error}"
    return "|".join("-" if part is None else str(part) for part in parts)


def main():
    with lzma.open(sys.argv[1] if len(sys.argv) > 1 else CHOSEN, "rt") as file:
        lines = [json.loads(line) for line in file]
    names = [line["name"] for line in lines]
    wanted = [READ_SINCE.get(line["name"], told(line["parts"])) for line in lines]
    questions = [name.encode("latin-1").hex() for name in names]
    form = r"^(?:\w+\|.*|(?:Read|Print) .*)$"
    found = runs.answers("parts_answers", PROGRAM + runs.PARTS, ["demangle_parts"], questions, form)
    wrong = [case for case in zip(names, wanted, found) if case[1] != case[2]]
    for name, expected, answer in wrong[:SHOWN]:
        print(ascii(name), "wanted", expected, "but", answer)
    print(len(names), "names,", len(wrong), "of them with other parts")
    sys.exit(bool(wrong))


if __name__ == "__main__":
    main()
