#!/usr/bin/env python3
"""Lists the libraries that a crate's line in crates.txt names and its files don't; with --trim, takes them off.

Usage: tools/libraries.py [--trim]

A crate's files are those of src/, specs/ and proofs/. They name a library as `library::` in code, and as
`Rattle.library` in definitions and proofs. A library that they name and the line doesn't is told too. What the checker
wants beyond what is named stands in WANTED, with the reason.
"""
import pathlib
import re
import sys

TOP = pathlib.Path(__file__).resolve().parent.parent
WANTED = {}


def lines():
    """The lines of crates.txt, each as its text, its crate (none of a comment) and its libraries."""
    for line in (TOP / "crates.txt").read_text().splitlines():
        head, _, rest = line.partition(":")
        crate = None if line.startswith("#") or not line.strip() else head.split()[0]
        yield line, crate, rest.split()


def named(crate):
    """What a crate's files name in front of `::` or behind `Rattle.`."""
    found = set()
    for part in ("src", "specs", "proofs"):
        for file in sorted((TOP / "crates" / crate / part).rglob("*")):
            if file.suffix in (".rt", ".antt"):
                text = re.sub(r"(?m)(^|\s)(//|--).*", "", file.read_text())
                found.update(re.findall(r"\b(\w+)::", text), re.findall(r"\bRattle\.(\w+)", text))
    return found


def main():
    kept, crates = [], {crate for _, crate, _ in lines() if crate}
    for line, crate, libraries in lines():
        if crate:
            used = named(crate) | WANTED.get(crate, set())
            spare = [library for library in libraries if library not in used]
            missing = sorted((used & crates) - {crate, *libraries})
            if spare:
                print(f"{crate} does not name: {' '.join(spare)}")
            if missing:
                print(f"{crate} names beyond its line: {' '.join(missing)}")
            rest = [library for library in libraries if library in used]
            line = " ".join([f"{line.partition(':')[0]}:", *rest])
        kept.append(line)
    if "--trim" in sys.argv:
        (TOP / "crates.txt").write_text("".join(f"{line}\n" for line in kept))


main()
