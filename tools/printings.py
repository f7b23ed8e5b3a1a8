"""Expected printings: a line of a file for each, and what the lines print.

A printing is a JSON object: `name` (one character a byte), `parse` and `print` (limits of levels), `p`, `r`, `l` (whether
parameters, results, types of literals are left out), `max` (the output limit, or null), and `outcome`: ["Text", text],
["Print", fault] or ["Read", fault]. A list of events has `name`, `events` (["text", text], ["push", node] or ["pop"]) and
`fault`, under the default options; or `print`, another limit.
"""
import json
import lzma
import os
import re

import leaves
import printing
from lines import Lines
from line_edits import LineEdits
from rows import Rows

FOLDER = os.path.join(os.path.dirname(os.path.abspath(__file__)), "readings")
BY_HAND = os.path.join(FOLDER, "printings-by-hand.jsonl")
CHOSEN = os.path.join(FOLDER, "printings.jsonl.xz")
EVENTS = os.path.join(FOLDER, "events.jsonl.xz")
OPTIONS = ("print", "p", "r", "l", "max")
DEFAULTS = {"print": 128, "p": False, "r": False, "l": False, "max": None}
HIGH = 1024  # a limit of levels under which some lists of events were made
LONGEST = 120  # bytes of a name whose printing may be chosen


def lines_of(path):
    if not os.path.exists(path):
        return []
    with (lzma.open if path.endswith(".xz") else open)(path, "rt") as file:
        return [json.loads(line) for line in file]


def save(path, found):
    with (lzma.open if path.endswith(".xz") else open)(path, "wt") as file:
        file.writelines(json.dumps(line, ensure_ascii=False) + "\n" for line in found)


def key_of(line):
    """What makes two printings one: the name, the limits and options, and whether events are told."""
    options = tuple(line.get(option, DEFAULTS[option]) for option in OPTIONS)
    return "events" in line, line["name"], line.get("parse", 96), options


def snake(name):
    return re.sub(r"(?<!^)(?=[A-Z])", "_", name).lower()


def expected(line):
    if "events" in line:
        events = [x[1].encode() if x[0] == "text" else ("push", snake(x[1])) if x[0] == "push" else ("pop",)
                  for x in line["events"]]
        return events, line["fault"]
    how, what = line["outcome"]
    return how, what.encode() if how == "Text" else what


class Printings:
    """A subject of choice.py. `wrong` has the lines of the files that expect something else than the lines print."""

    def __init__(self, outcomes, events):
        self.rows, self.lines = Rows(), Lines()
        self.edits = list(LineEdits(self.lines).all())
        self.readings, self.numbers, self.wrong = {}, {}, []
        self.given, self.base, self.output, self.reached = [], [], [], {}
        self.by_hand = lines_of(BY_HAND)
        for line in self.by_hand + lines_of(CHOSEN) + lines_of(EVENTS) + lines_of(outcomes) + lines_of(events):
            self.add(line)
        order = sorted(range(len(self.given)), key=lambda k: (self.cost(k), self.given[k]["name"]))
        rank = {k: i for i, k in enumerate(order)}
        for ks in self.reached.values():
            ks.sort(key=rank.__getitem__)

    # -- the printings
    def read(self, name):
        if name not in self.readings:
            self.readings[name] = self.rows.read("Row.mangled_name", name.encode("latin-1"))
        return self.readings[name]

    def refused(self, line):
        """Why a name isn't read, or nothing."""
        reading = self.read(line["name"])
        if reading.reach >= line.get("parse", 96):
            return "TooMuchRecursion"
        if reading.answer[0] == "No":
            return reading.answer[1]
        return None if reading.answer[1] == len(line["name"]) else "UnexpectedText"

    def printed(self, line):
        """The answer, the text in it, and the definitions that were used."""
        fault = self.refused(line)
        if fault:
            return ("Read", fault), b"", set()
        options = {option: line.get(option, DEFAULTS[option]) for option in OPTIONS}
        name = line["name"]
        outcome, events, seen = printing.printed(self.lines, self.read(name), name.encode("latin-1"), options)
        text = b"".join(x for x in events if isinstance(x, bytes))
        if "events" in line:
            return (events, None if outcome[0] == "Text" else outcome[-1]), text, seen
        return outcome, text, seen

    def add(self, line):
        key = key_of(line)
        if key in self.numbers:
            return
        answer, text, seen = self.printed(line)
        if answer != expected(line) and "events" in line and "print" not in line:
            return self.add({**line, "print": HIGH})
        if answer != expected(line):
            self.wrong.append(line)
            return
        self.numbers[key] = k = len(self.given)
        self.given.append(line)
        self.base.append(answer)
        self.output.append(text)
        for used in seen:
            self.reached.setdefault(used, []).append(k)

    # -- what choice.py asks
    def candidates(self, edit):
        if edit.look_up:
            found = self.reached.get((edit.look_up, edit.definition), [])
        elif " " in edit.definition:
            found = self.reached.get(edit.definition, [])
        else:
            found = self.merged(edit.definition)
        text = edit.text.encode()
        return [k for k in found if len(self.given[k]["name"]) <= LONGEST and text in self.output[k]]

    def merged(self, definition):
        """The printings that use some line in which a definition stands, the cheapest first."""
        if definition not in self.reached:
            found = set().union(*(self.reached.get(user, ()) for user in self.lines.users[definition]))
            self.reached[definition] = sorted(found, key=lambda k: (self.cost(k), self.given[k]["name"]))
        return self.reached[definition]

    def edited(self, edit):
        return self.lines.edited(edit)

    def differs(self, k):
        try:
            return self.printed(self.given[k])[0] != self.base[k]
        except leaves.Spent:
            return None

    def cost(self, k):
        line = self.given[k]
        special = any(line.get(option, DEFAULTS[option]) != DEFAULTS[option] for option in OPTIONS)
        return 20 + len(line["name"]) + 10 * special + 20 * ("events" in line)

    # -- the files
    def committed(self):
        return self.by_hand + lines_of(CHOSEN) + lines_of(EVENTS)

    def stale(self):
        return [line for line in self.committed() if line in self.wrong]

    def numbers_of(self, found):
        return {self.numbers[key_of(line)] for line in found if key_of(line) in self.numbers}

    def save(self, picked):
        found = sorted((self.given[k] for k in picked), key=lambda line: (len(line["name"]), line["name"], str(line)))
        save(CHOSEN, [line for line in found if "events" not in line])
        save(EVENTS, [line for line in found if "events" in line])
        print("chosen", len(found), "of", len(self.given), "printings, beside", len(self.by_hand), "by hand;",
              sum("events" in line for line in found), "of them lists of events")

    def name(self, k):
        line = self.given[k]
        return "%s%s" % (line["name"], " events" if "events" in line else "")
