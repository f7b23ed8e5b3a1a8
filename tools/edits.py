#!/usr/bin/env python3
"""Chooses the readings that are proved by computation, by edits of the rows of the grammar.

    tools/edits.py choose READINGS NAMES [--processes N] [--report FILE]
    tools/edits.py check READINGS NAMES [--processes N] [--report FILE]

READINGS are expected readings of rows (cases.py), NAMES outcomes of whole names, both made elsewhere, each a file of
JSON lines, .xz or plain. A name's line has `name`, `parse` (a limit of levels), the options of printing, and
`outcome`: ["Text", text], ["Print", fault] or ["Read", fault]. What they expect of a reading is compared with what
the rows read.

Every single edit of Rows.antt and of its notation in Items.antt is made (row_edits.py), and the edited rows are run
on each input that reaches the edited place. An input notices an edit where the answer, an entry or the deepest level
is another one. Whatever else is expected of an input, a printed text or an answer under a limit, follows from these.

`choose` writes tools/readings/rows.jsonl.xz: few readings which with those of by-hand.jsonl notice every edit that
any input notices, each of them twice where two inputs do. It begins with those that stand there, and tries all
inputs for an edit that these don't notice twice. `check` tells which edits these files notice, and which others an
input does; there are to be none. Both print a table by kind of edit; the report has a line an edit.

An expected reading tells how many entries there are; what they hold is what the rows say now.
"""
import argparse
import collections
import json
import sys

import choice
from row_readings import RowReadings

COLUMNS = ("made", "committed", "twice", "others", "none")


def choose(subject, search):
    """Gives back what it found to notice each edit."""
    first = choice.first_noticing(subject, search, subject.numbers_of(subject.committed()))
    subject.save(choice.chosen(subject, search, subject.numbers_of(subject.by_hand), first))
    return first


def noticing(subject, search, first):
    """For each edit which of the committed readings notice it; where none does, other inputs that do."""
    by_committed = choice.all_noticing(subject, search, subject.numbers_of(subject.committed()))
    if first is None:
        missed = [number for number, ks in by_committed.items() if not ks]
        first = search.noticing([(number, subject.candidates(subject.edits[number]), 1) for number in missed])
    return [(ks, [] if ks else first[number]) for number, ks in sorted(by_committed.items())]


def check(noticed, subject, report):
    """The table, and how many edits are noticed by inputs that aren't committed alone."""
    table = collections.defaultdict(collections.Counter)
    for edit, (committed, others) in zip(subject.edits, noticed):
        by = "committed" if committed else "others" if others else "none"
        for kind in (edit.kind, "all"):
            table[kind].update(["made", by] + ["twice"] * (len(committed) > 1))
        if report:
            first = [subject.name(k) for k in (committed + others)[:1]]
            line = {"kind": edit.kind, "where": edit.definition, "edit": str(edit), "noticed by": by,
                    "times": len(committed), "first": first}
            report.write(json.dumps(line, ensure_ascii=False) + "\n")
    print("%-26s" % "kind", *("%9s" % column for column in COLUMNS))
    for kind in sorted(table, key=lambda kind: (kind == "all", kind)):
        print("%-26s" % kind, *("%9d" % table[kind][column] for column in COLUMNS))
    return table["all"]["others"]


def run(subject, search, action, report):
    """How many edits are noticed by inputs that aren't committed alone."""
    first = choose(subject, search) if action == "choose" else None
    return check(noticing(subject, search, first), subject, report)


def arguments(summary, *files):
    """The words of the command line: what to do, these files of expected answers, and the options."""
    parser = argparse.ArgumentParser(description=summary.split("\n")[0])
    parser.add_argument("action", choices=("choose", "check"))
    for name in files:
        parser.add_argument(name)
    parser.add_argument("--processes", type=int, default=2)
    parser.add_argument("--report", type=argparse.FileType("w"))
    return parser.parse_args()


def main():
    given = arguments(__doc__, "readings", "names")
    subject = RowReadings(given.readings, given.names)
    print(len(subject.edits), "edits,", len(subject.inputs), "inputs", flush=True)
    for line in subject.wrong:
        print("not as expected:", json.dumps(line, ensure_ascii=False))
    search = choice.Search(subject, given.processes)
    left = run(subject, search, given.action, given.report)
    stale = subject.stale()
    for case in stale:
        print("not what the rows read:", *case.input)
    sys.exit(1 if left or stale or subject.wrong else 0)


if __name__ == "__main__":
    main()
