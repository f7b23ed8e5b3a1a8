"""The rows of the grammar as they stand in Rows.antt, run on bytes: Reading.antt of demangle_grammar in Python.

Rules become functions as leaves are (leaves.py); behind the mark `commit` the cause of a failure is 4 more.
"""
import contextlib
import sys
import typing

import antt
from leaves import END, TEXT, VOCABULARY, Deep, State, class_of, leaf_of, maker, number

sys.setrecursionlimit(1000000)  # a level is several calls
HARD = 4
CAUSES = [None, "UnexpectedEnd", "UnexpectedText", "BadBackReference", "Overflow"]
FILES = [antt.specs("demangle_grammar", file) for file in ("Items.antt", "Rows.antt")]


# ---- the definitions
def definitions():
    """Those of Items.antt and Rows.antt: parameters and body by name.

    A row's name begins with `Row.`, and its body is the item before `Rule.done`.
    """
    found = {}
    for path in FILES:
        for name, patterns, text in antt.clauses(path):
            if name == "rule":
                name, patterns = patterns[0], ["Rule.done"]
            found[name] = antt.point_free(patterns, antt.parsed(text))
    return found


def codes(text):
    return text.encode()


KNOWN = {"codes": codes, "true": True, "false": False,
         # calls that count no level, and one more; a class with a byte more or less: these are edits alone
         "same_level": lambda row: lambda k: ("Rule.call", False, row, k, 0),
         "one_level_more": lambda row: lambda k: ("Rule.call", False, row, k, 2),
         "loop_same_level": lambda row: lambda k: ("Rule.loop", row, k, 0),
         "loop_one_level_more": lambda row: lambda k: ("Rule.loop", row, k, 2),
         "other_byte": lambda of: lambda byte: ("Class.other", of, ord(byte))}
KNOWN.update({kind + "_words": [codes(entry[1]) for entry in entries] for kind, entries in VOCABULARY.items()})


# ---- rules
def soft(cause):
    return cause - HARD if cause > HARD else cause


def in_order(steps):
    if len(steps) == 1:
        return steps[0]

    def run(s, parts, level, conversion):
        for step in steps:
            cause = step(s, parts, level, conversion)
            if cause:
                return cause
        return 0
    return run


def committed(rest):
    def run(s, parts, level, conversion):
        cause = rest(s, parts, level, conversion)
        return cause + HARD if 0 < cause <= HARD else cause
    return run


def first_bytes(rule):
    """The bytes without which a rule fails at once, where that is seen of its first leaf; else nothing."""
    if rule[0] != "Rule.leaf":
        return None
    leaf = rule[1]
    kind = leaf[0][5:] if leaf[0] == "Leaf.word" else leaf[1][0] if len(leaf) > 1 else ""
    if kind == "word":
        return frozenset(leaf[1][:1]) or None
    if kind in ("Cond.next", "Eat.byte"):
        return class_of(leaf[1][1])
    return frozenset(word[0] for word in leaf[1][1]) if kind == "Cond.ahead" and all(leaf[1][1]) else None


def ways_of(first, second):
    """The alternatives of an alternative, in order."""
    if second[0] == "Rule.alt" and second[3] == ("Rule.done",):
        return [first, *ways_of(second[1], second[2])]
    return [first, second]


def either(ways):
    """Each way with its first bytes; the last one's failure is that of all."""
    others, (_, last) = ways[:-1], ways[-1]

    def run(s, parts, level, conversion):
        at, size, kept = s.at, len(s.entries), parts[:]
        next_byte = s.data[at] if at < s.end else -1
        for begins, way in others:
            if begins is not None and next_byte not in begins:
                continue
            cause = way(s, parts, level, conversion)
            if not cause or cause > HARD:
                return cause
            s.at, parts[:] = at, kept
            del s.entries[size:]
        return last(s, parts, level, conversion)
    return run


def repeated(inner):
    def run(s, parts, level, conversion):
        for _ in range(s.end - s.at + 1):
            at, size, kept = s.at, len(s.entries), parts[:]
            if inner(s, parts, level, conversion):
                s.at, parts[:] = at, kept
                del s.entries[size:]
                break
        return 0
    return run


def read_apart(inner, make):
    def run(s, parts, level, conversion):
        mine = []
        cause = inner(s, mine, level, conversion)
        if not cause:
            make(s, mine, level, conversion)
            parts += mine
        return cause
    return run


def sized(inner):
    def run(s, parts, level, conversion):
        cause, size = number(s, 10, False)
        if cause or s.end - s.at < size or not size:
            return cause or (END if size else TEXT)
        end, s.end, mine = s.end, s.at + size, []
        try:
            cause = soft(inner(s, mine, level, conversion)) or (TEXT if s.at < s.end else 0)
        finally:
            s.end = end
        parts += mine
        return cause
    return run


def users_of(name, uses):
    """The rows that a definition stands in, where `uses` has the names in each."""
    if name.startswith("Row."):
        return {name}
    return set().union(*(users_of(user, uses) for user in uses if name in uses[user]))


class Reading(typing.NamedTuple):
    answer: tuple  # ("Yes", index behind, row of trees), ("No", cause) or ("Deep",)
    entries: tuple  # of a Yes, in order: the list and the row of trees of each
    reach: int  # the deepest level
    entered: int  # how many rows were entered
    seen: set  # the items that were reached, where they are noted


class Rows:
    """The rows as functions.

    With `notes` each item of a sequence or an alternative notes in the state that it was reached.
    """

    files = FILES

    def __init__(self, notes=False):
        self.definitions, self.notes, self.known = definitions(), notes, set()
        self.values = antt.Values(self.definitions, KNOWN, self.noted if notes else None)
        self.functions = {}
        self.rows = [name for name in self.definitions if name.startswith("Row.")]
        uses = {name: antt.names_in(body) for name, (_, body) in self.definitions.items()}
        self.users = {name: users_of(name, uses) for name in self.definitions}
        self.compile(self.rows)

    def noted(self, path, item):
        self.known.add(path)
        return lambda rest: ("note", path, antt.applied(item, rest))

    def compile(self, rows):
        for name in rows:
            rule = antt.applied(self.values.of(name), ("Rule.done",))
            self.functions[name] = self.rule(("note", (name,), rule) if self.notes else rule)

    @contextlib.contextmanager
    def edited(self, bodies):
        """Meanwhile these bodies stand in the place of those of the definitions."""
        definitions, functions = dict(self.definitions), dict(self.functions)
        self.definitions.update({name: (definitions[name][0], body) for name, body in bodies.items()})
        self.compile(set().union(*(self.users[name] for name in bodies)))
        try:
            yield
        finally:
            self.definitions.update(definitions)
            self.functions.update(functions)

    # -- a rule as a function
    def rule(self, rule):
        steps = []
        while rule[0] != "Rule.done":
            kind = rule[0].split(".")[-1]
            if kind == "commit":
                steps.append(committed(self.rule(rule[1])))
                break
            step, rule = getattr(self, kind)(*rule[1:])
            steps.append(step)
        return in_order(steps)

    def note(self, path, rest):
        def run(s, parts, level, conversion):
            s.seen.add(path)
            return 0
        return run, rest

    def leaf(self, leaf, rest):
        return leaf_of(leaf), rest

    def entered(self, row, more=1):
        functions = self.functions

        def run(s, parts, level, conversion):
            s.enter(level + more)
            return soft(functions[row[0]](s, parts, level + more, conversion))
        return run

    def call(self, turns_on, row, rest, more=1):
        enter = self.entered(row, more)

        def run(s, parts, level, conversion):
            mine = []
            cause = enter(s, mine, level, turns_on or conversion)
            parts += mine
            return cause
        return run, rest

    def loop(self, row, rest, more=1):
        enter = self.entered(row, more)

        def run(s, parts, level, conversion):
            for _ in range(s.end - s.at + 1):
                at = s.at
                cause = enter(s, parts, level, conversion)
                if cause or s.at == at:
                    return cause
            return 0
        return run, rest

    def star(self, inner, rest):
        return repeated(self.rule(inner)), rest

    def alt(self, first, second, rest):
        ways = ways_of(first, second)
        return either([(None if self.notes else first_bytes(way), self.rule(way)) for way in ways]), rest

    def block(self, inner, rest):
        return sized(self.rule(inner)), rest

    def part(self, make, inner, rest):
        return read_apart(self.rule(inner), maker(make)), rest

    def trial(self, row, rest):
        enter = self.entered(row)

        def run(s, parts, level, conversion):
            if not s.is_next(b"I"):
                return 0
            if not conversion:
                return TEXT
            at, size = s.at, len(s.entries)
            is_again = not enter(s, [], level, conversion) and s.is_next(b"I")
            s.at = at
            del s.entries[size:]
            return TEXT if is_again else 0
        return run, rest

    def read(self, row, data, conversion=False, fuel=100000):
        s, parts = State(data, fuel), []
        try:
            cause = self.call(False, (row,), None)[0](s, parts, 0, conversion)
        except Deep:
            return Reading(("Deep",), (), s.reach, fuel - s.fuel, s.seen)
        answer, entries = (("No", CAUSES[cause]), ()) if cause else (("Yes", s.at, tuple(parts)), tuple(s.entries))
        return Reading(answer, entries, s.reach, fuel - s.fuel, s.seen)
