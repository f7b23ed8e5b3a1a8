#!/usr/bin/env python3
"""Chooses the printings that are proved by computation, by edits of the lines of printing.

    tools/choose_printings.py choose OUTCOMES EVENTS [--processes N] [--report FILE]
    tools/choose_printings.py check OUTCOMES EVENTS [--processes N] [--report FILE]

OUTCOMES are expected printings of whole names, EVENTS lists of events (printings.py), both made elsewhere, each a file of
JSON lines, .xz or plain. What they expect is compared with what the lines print.

Every single edit of a line in specs/Lines of demangle_printing, of the pieces that lines share, and of the look-ups in
Lookups.antt of demangle_core is made (line_edits.py), and the edited lines are run on each printing that uses them.

`choose` writes tools/readings/printings.jsonl.xz and events.jsonl.xz: few printings which with those of
printings-by-hand.jsonl notice every edit that any printing notices, each of them twice where two printings do. `check`
tells which edits these files notice, and which others a printing does; there are to be none. The rules of printing that
are no lines (parameters, arrays, joining, scopes) aren't edited: printing.py has them by hand.
"""
import json
import sys

import choice
import edits
from printings import Printings

ENOUGH = 4  # how many printings that notice an edit are looked for; a printing takes longer than a reading


def main():
    given = edits.arguments(__doc__, "outcomes", "events")
    subject = Printings(given.outcomes, given.events)
    print(len(subject.edits), "edits,", len(subject.given), "printings", flush=True)
    for line in subject.wrong:
        print("not as expected:", json.dumps(line, ensure_ascii=False))
    choice.ENOUGH = ENOUGH
    search = choice.Search(subject, given.processes)
    left = edits.run(subject, search, given.action, given.report)
    sys.exit(1 if left or subject.wrong else 0)


if __name__ == "__main__":
    main()
