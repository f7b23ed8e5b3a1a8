"""The leaves of the grammar's rules, run on bytes: the steps of Reading.antt of demangle_grammar in Python.

A leaf is a function of a state, the parts so far, the level and the conversion flag. It answers 0, or the cause why it
fails.
"""
import re

import antt
import core

END, TEXT, BAD, OVER = 1, 2, 3, 4
GIVEN = {"set": [("flag", True)], "unset": [("flag", False)], "missing": [core.node("Absent")],
         "nought": [("number", 0)], "empty": [core.node("Several")]}
DIGITS = frozenset(b"0123456789")
LETTERS = frozenset(b"ABCDEFGHIJKLMNOPQRSTUVWXYZabcdefghijklmnopqrstuvwxyz")
ALL = frozenset(range(256))
CLASSES = {"any": ALL, "digits": DIGITS, "clone": DIGITS | LETTERS | set(b"$_"), "resource": ALL - set(b"$")}
# the longest run of characters of an identifier: of ASCII some, and past it all that UTF-8 has
IDENTIFIER = re.compile(
    rb"(?:[0-9A-Za-z$_.]|[\xC2-\xDF][\x80-\xBF]|\xE0[\xA0-\xBF][\x80-\xBF]|[\xE1-\xEC\xEE\xEF][\x80-\xBF]{2}"
    rb"|\xED[\x80-\x9F][\x80-\xBF]|\xF0[\x90-\xBF][\x80-\xBF]{2}|[\xF1-\xF3][\x80-\xBF]{3}"
    rb"|\xF4[\x80-\x8F][\x80-\xBF]{2})+")
TABLES = {"operator": "Operators.antt", "builtin": "Builtins.antt", "component": "Components.antt",
          "ref_qualifier": "Qualifiers.antt", "explicit_object": "Qualifiers.antt"}


class Deep(Exception):
    """No level is left."""


class Spent(Exception):
    """More rows were entered than is of use; an edited row may go on so."""


def vocabulary():
    """The tables of words: their entries by name, in the order of their numbers."""
    found = {}
    for kind, file in TABLES.items():
        texts = {name: text for name, _, text in antt.clauses(antt.specs("demangle_vocab", file))}
        found[kind] = antt.Values({}, {}).value(antt.parsed(texts[kind + "s"]), {}, ())
    return found


def codes(text):
    return text.encode()


VOCABULARY = vocabulary()
OPERANDS = [entry[3] for entry in VOCABULARY["operator"]]


# ---- the bytes ahead
class State:
    """Where a reading is: the bytes up to `end`, the index, the entries; and the deepest level that was entered."""

    def __init__(self, data, fuel):
        self.data, self.end, self.at, self.entries = data, len(data), 0, []
        self.reach, self.levels, self.fuel, self.seen = 0, 10 * len(data) + 10, fuel, set()

    def is_next(self, of):
        return self.at < self.end and self.data[self.at] in of

    def starts(self, word):
        return self.data.startswith(word, self.at, self.end)

    def count(self, which):
        return sum(w == which for w, _ in self.entries)

    def entry(self, which, k):
        found = [tree for w, tree in self.entries if w == which]
        return found[k] if k < len(found) else ()

    def enter(self, level):
        if level > self.reach:
            self.reach = level
        if level >= self.levels:
            raise Deep()
        self.fuel -= 1
        if self.fuel < 0:
            raise Spent()


def class_of(value):
    kind = value[0][6:]
    if kind == "these":
        return frozenset(value[1])
    if kind == "other":
        return class_of(value[1]) ^ {value[2]}
    return CLASSES[kind]


def number(s, base, signs):
    """The cause, or 0 and the number at the index, which goes on behind it."""
    at = s.at + (signs and s.is_next(b"n"))
    if at == s.end:
        return END, 0
    stop = at
    while stop < s.end and (s.data[stop] in DIGITS or base == 36 and 65 <= s.data[stop] <= 90):
        stop += 1
    if stop == at or stop > at + 1 and s.data[at] == 48:
        return TEXT, 0
    value = int(s.data[at:stop], base)
    if value >= 2 ** 63:
        return OVER, 0
    negative, s.at = at > s.at, stop
    return 0, -value if negative else value


def word_of(words):
    def run(s, parts, level, conversion):
        if s.starts(words):
            s.at += len(words)
            return 0
        return END if s.end - s.at < len(words) else TEXT
    return run


def eat_run(of):
    def run(s, parts, level, conversion):
        start = at = s.at
        while at < s.end and s.data[at] in of:
            at += 1
        if at == start:
            return END if at == s.end else TEXT
        parts.append(("place", start, at))
        s.at = at
        return 0
    return run


def eat_identifier(s, parts, level, conversion):
    found = IDENTIFIER.match(s.data, s.at, s.end)
    if not found:
        return END if s.at == s.end else TEXT
    parts.append(("place", s.at, found.end()))
    s.at = found.end()
    return 0


def eat_upto(byte):
    def run(s, parts, level, conversion):
        start, at = s.at, s.data.find(byte, s.at, s.end)
        s.at = s.end if at < 0 else at
        parts.append(("place", start, s.at))
        return 0
    return run


def eat_byte(of, is_kept=False):
    def run(s, parts, level, conversion):
        if not s.is_next(of):
            return END if s.at == s.end else TEXT
        if is_kept:
            parts.append(("number", s.data[s.at] - 48))
        s.at += 1
        return 0
    return run


def eat_numeral(base, signs):
    def run(s, parts, level, conversion):
        cause, value = number(s, base, signs)
        if not cause:
            parts.append(("number", value))
        return cause
    return run


def eat_table(table, words):
    """A word of a table, in which no word is the beginning of another one."""
    numbers = {word: k for k, word in enumerate(words)}
    sizes = sorted({len(word) for word in words})
    beginnings = {word[:size] for word in words for size in range(len(word))}

    def run(s, parts, level, conversion):
        for size in sizes:
            k = numbers.get(s.data[s.at:min(s.at + size, s.end)])
            if k is not None:
                s.at += len(words[k])
                parts.append(("chosen", table, k))
                return 0
        return END if s.end - s.at < sizes[-1] and s.data[s.at:s.end] in beginnings else TEXT
    return run


def eat_give(given):
    def run(s, parts, level, conversion):
        parts += GIVEN[given[0][6:]]
        return 0
    return run


def eat_here(s, parts, level, conversion):
    parts.append(("mark", s.at))
    return 0


EATS = {
    "run": lambda c: eat_run(class_of(c)),
    "identifier": lambda: eat_identifier,
    "upto": lambda byte: eat_upto(bytes([byte])),
    "byte": lambda c: eat_byte(class_of(c)),
    "digit": lambda: eat_byte(DIGITS, True),
    "numeral": eat_numeral,
    "table": eat_table,
    "give": eat_give,
    "here": lambda: eat_here,
}


# ---- conditions
def arity_in(parts):
    if core.is_node(parts, "OperatorNameLiteral"):
        return 1
    if core.is_node(parts, "OperatorNameVendorExtension"):
        return parts[0][2][0][1] if core.is_number(parts[0][2]) else 0
    if core.is_node(parts, "OperatorNameSimple"):
        parts = parts[0][2]
    return OPERANDS[parts[0][2]] if parts and parts[0][0] == "chosen" and parts[0][2] < len(OPERANDS) else 0


def is_numbered(parts):
    return core.is_node(parts, "WellKnown", "BackReference")


def is_member(parts):
    return (bool(parts) and all(tree[0] == "node" for tree in parts)
            and parts[-1][1] in ("UnqualifiedNameSource", "UnqualifiedNameLocalSourceName"))


def ahead_no_digit(word):
    return lambda s, parts: s.starts(word) and s.at + len(word) < s.end and s.data[s.at + len(word)] not in DIGITS


def ahead(words):
    return lambda s, parts: any(s.starts(word) for word in words)


def is_next(of):
    return lambda s, parts: s.is_next(of)


def negated(test):
    return lambda s, parts: not test(s, parts)


def of_parts(test):
    return lambda s, parts: test(parts)


CONDITIONS = {
    "next": lambda c: is_next(class_of(c)),
    "not_next": lambda c: negated(is_next(class_of(c))),
    "ahead": ahead,
    "not_ahead": lambda words: negated(ahead(words)),
    "ahead_no_digit": ahead_no_digit,
    "more": lambda n: lambda s, parts: s.end - s.at >= n,
    "never": lambda: of_parts(lambda parts: False),
    "numbered": lambda: of_parts(is_numbered),
    "unnumbered": lambda: negated(of_parts(is_numbered)),
    "member": lambda: of_parts(is_member),
    "ten_or_more": lambda: of_parts(lambda parts: core.is_number(parts) and parts[0][1] >= 10),
    "arity": lambda n: of_parts(lambda parts: arity_in(parts) == n),
}


def check(condition):
    name = condition[0][5:]
    test, cause = CONDITIONS[name](*condition[1:]), END if name == "more" else TEXT
    return lambda s, parts, level, conversion: 0 if test(s, parts) else cause


# ---- what the parts become
MAKES = {
    "one": lambda tag: lambda row: [core.node(tag[0][4:], row)],
    "dropped": lambda: lambda row: [],
    "index": lambda: core.index_of,
    "longer": lambda k: lambda row: core.longer_by(k, row),
    "data_member": lambda: core.data_member_of,
}


def maker(make):
    shape = MAKES[make[0][5:]](*make[1:])

    def run(s, parts, level, conversion):
        parts[:] = shape(parts)
        return 0
    return run


def mark(which):
    which = which[0][5:]

    def run(s, parts, level, conversion):
        to = {"numbered'": "N", "unnumbered'": "U"}.get(which) or ("U" if s.is_next(b"E") else "N")
        k = s.count(to)
        s.entries.append((to, tuple(parts)))
        parts[:] = [core.reference(to, k)]
        return 0
    return run


def mark_first(s, parts, level, conversion):
    k = s.count("U")
    s.entries.append(("U", (core.template_entry(parts),)))
    parts[:] = [core.template_name(k, parts)]
    return 0


def refer(s, parts, level, conversion):
    k = core.component_of(parts)
    if k >= s.count("N"):
        return BAD
    parts[:] = [core.reference("N", k)]
    return 0


def take_over(s, parts, level, conversion):
    component = core.last_component(parts)
    entry = s.entry(*component) if component else ()
    if not core.is_nestable(entry):
        return TEXT
    parts[:] = core.taken_of(entry, parts)
    return 0


def no_prefix(s, parts, level, conversion):
    return END if s.at == s.end or s.is_next(b"E") else TEXT


LEAVES = {
    "word": word_of,
    "eat": lambda eat: EATS[eat[0][4:]](*eat[1:]),
    "check": check,
    "make": maker,
    "mark": mark,
    "mark_first": lambda: mark_first,
    "refer": lambda: refer,
    "take_over": lambda: take_over,
    "no_prefix": lambda: no_prefix,
}


def leaf_of(value):
    return LEAVES[value[0][5:]](*value[1:])
