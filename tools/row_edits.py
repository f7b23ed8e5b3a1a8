"""Every single edit of the rows of the grammar and of their notation."""
import re
import typing

import antt
from antt import app, arguments, head_of, name

FAIL, NOTHING, COMMIT = name("fail"), name("nothing"), name("commit")
MARKS = ["Mark.numbered'", "Mark.unnumbered'", "Mark.by_end"]
COUNTS = {"vec": "vec1", "vec1": "vec", "opt": "present"}
NEGATED = {"next": "not_next", "Cond.next": "Cond.not_next", "Cond.ahead": "Cond.not_ahead",
           "Cond.numbered": "Cond.unnumbered"}
NEGATED.update({new: old for old, new in NEGATED.items()})
GIVENS = {"set": "unset", "unset": "set", "missing": "empty", "empty": "missing", "nought": "missing"}
CALLS = {"r": ("same_level", "one_level_more"), "Rule.loop": ("loop_same_level", "loop_one_level_more")}
BASIC = ("nothing", "◌·◌", "◌//◌")
TRIED = "0aEIMST_.$"  # bytes that are put into classes, and taken from those that have a name


class Edit(typing.NamedTuple):
    kind: str
    definition: str
    path: tuple  # of the place that must be reached for the edit to tell
    old: tuple
    new: tuple
    body: tuple  # the whole body with the edit in it
    bytes: str  # an input without any of these doesn't tell; empty: any may tell

    def __str__(self):
        return "%s → %s" % (antt.shown(self.old), antt.shown(self.new))


def other_bytes(text):
    """A word with each byte changed, and with each dropped."""
    for i, c in enumerate(text):
        other = chr(ord(c) + (1 if c not in "~\"'!Zz9/" else -2))
        yield "word's byte changed", text[:i] + other + text[i + 1:], c + other
        if len(text) > 1:
            yield "word's byte dropped", text[:i] + text[i + 1:], ""


def joined(kind, parts):
    return (kind, parts) if len(parts) > 1 else parts[0]


class RowEdits:
    def __init__(self, rows):
        self.definitions = rows.definitions
        self.kinds = {"commit": "Item", "nothing": "Item"}
        for path in rows.files:
            self.kinds.update(antt.signatures(path))
        bodies = " ".join(antt.shown(body) for _, body in self.definitions.values())
        self.tags = list(dict.fromkeys(re.findall(r"Tag\.\w+", bodies)))

    def all(self):
        for definition, (self.parameters, body) in self.definitions.items():
            if definition in BASIC:
                continue
            kind = self.kinds.get(definition, "Item")
            edits_of = {"Item": self.of_item, "String": self.of_class}.get(kind, lambda term, path: ())
            for kind, path, new, only, *part in edits_of(body, ()):
                if definition.startswith("Row.") and kind == "commit added" and not path:
                    continue  # a row's failure is no mark to those that read it
                old, whole = antt.within(body, path), antt.replaced(body, path, new)
                yield Edit(kind, definition, path + tuple(part), old, new, whole, only)

    # each gives the kind, the path of what is replaced, the new term, the bytes that tell, and the part that must be
    # reached where it isn't all of what is replaced
    def of_item(self, term, path):
        if term[0] == "seq":
            yield from self.of_sequence(term[1], path)
        elif term[0] == "alt":
            yield from self.of_ways(term[1], path)
        else:
            if term not in (NOTHING, FAIL):
                yield "item dropped", path, NOTHING, ""
            yield from self.of_single(term, path)

    def of_sequence(self, items, path):
        marked = items.index(COMMIT) if COMMIT in items else len(items)
        for i, item in enumerate(items):
            what = "commit" if item == COMMIT else "item"
            yield what + " dropped", path, joined("seq", items[:i] + items[i + 1:]), "", i
            if i:
                swapped = items[:i - 1] + [item, items[i - 1]] + items[i + 1:]
                kind = "commit moved" if COMMIT in (item, items[i - 1]) else "items exchanged"
                yield kind, path, ("seq", swapped), "", i - 1
            if i <= marked and item != COMMIT:
                yield "commit added", path, ("seq", items[:i] + [COMMIT] + items[i:]), "", i
            if item[0] in ("seq", "alt"):
                yield from self.of_item(item, path + (i,))
            else:
                yield from self.of_single(item, path + (i,))

    def of_ways(self, ways, path):
        for i, way in enumerate(ways):
            yield "alternative dropped", path, joined("alt", ways[:i] + ways[i + 1:]), "", i
            if i:
                swapped = ways[:i - 1] + [way, ways[i - 1]] + ways[i + 1:]
                yield "alternatives exchanged", path, ("alt", swapped), "", i - 1
            yield from self.of_item(way, path + (i,))

    def of_single(self, term, path):
        """An item that is no sequence, and what stands in it."""
        head, args = head_of(term), arguments(term)
        if head in ("t", "e"):
            head, args = "r", [name({"t": "Row.type_handle", "e": "Row.expression"}[head])]
        if head == "Rule.call" and args[0] == name("true"):
            yield "conversion flag", path, app("r", args[1]), ""
            head, args = "r", args[1:]
        for level in CALLS.get(head, ()):
            yield "level", path, app(level, args[0]), ""
        if head in COUNTS:
            yield "count", path, app(COUNTS[head], *args), ""
        elif head == "flagged":
            yield "count", path, ("seq", [app("w", args[0]), app("give", name("Given.set"))]), ""
        elif head.endswith("_component"):
            yield from self.of_component(term, path)
        for i, part in enumerate(arguments(term)):
            yield from self.of_part(head, part, path + (i + 1,))
        if head in NEGATED:
            yield "condition negated", path, app(NEGATED[head], *args), ""

    def of_component(self, term, path):
        """The definition put in its place, without the component, and with another list."""
        parameters, body = self.definitions[head_of(term)]
        items = [arguments(term)[0] if parameters and name(parameters[0]) in arguments(i) else None for i in body[1]]
        made = [app(head_of(i), x) if x else i for i, x in zip(body[1], items)]
        yield "component left out", path, made[0], ""
        for mark in MARKS:
            if mark != head_of(arguments(made[-1])[0]):
                yield "component in another list", path, ("seq", made[:-1] + [app("plus", name(mark))]), ""

    def of_part(self, head, term, path):
        """An argument: its kind is seen from its form."""
        kind = head_of(term).partition(".")[0]
        if term[0] == "str":
            is_class = head in ("next", "not_next", "these")
            yield from self.of_class(term, path) if is_class else self.of_word(term, path)
        elif term[0] == "num":
            number = term[1]
            for new in ({10: 36, 36: 10}[number],) if head == "Eat.numeral" else (number - 1, number + 1):
                if new >= 0 and head != "Eat.table":
                    yield "count" if head == "more" else "number", path, ("num", new), ""
        elif kind in ("true", "false"):
            yield "number", path, name("false" if kind == "true" else "true"), ""
        elif kind == "Tag":
            yield "tag", path, name(self.tags[(self.tags.index(term[1]) + 1) % len(self.tags)]), ""
        elif kind == "Mark":
            for mark in MARKS:
                if mark != term[1]:
                    yield "component in another list", path, name(mark), ""
        elif kind == "Given":
            yield "fixed field", path, name("Given." + GIVENS[term[1][6:]]), ""
        elif kind == "Class":
            yield from self.of_class(term, path)
        elif kind in ("Cond", "Eat", "Make"):
            yield from self.of_data(term, path)
        elif term[0] == "list":
            yield from self.of_list(term, path)
        elif term[0] in ("seq", "alt") or self.kinds.get(kind) == "Item" and kind not in self.parameters:
            yield from self.of_item(term, path)
        else:
            for i, part in enumerate(arguments(term)):
                yield from self.of_part(head_of(term), part, path + (i + 1,))

    def of_data(self, term, path):
        head, args = head_of(term), arguments(term)
        if head == "Eat.identifier":
            for other in ("clone", "resource", "any"):
                yield "class of bytes", path, app("Eat.run", name("Class." + other)), ""
        if head in NEGATED:
            yield "condition negated", path, app(NEGATED[head], *args) if args else name(NEGATED[head]), ""
        for i, part in enumerate(args):
            yield from self.of_part(head, part, path + (i + 1,))

    def of_list(self, term, path):
        for i, part in enumerate(term[1]):
            yield "condition's word dropped", path, ("list", term[1][:i] + term[1][i + 1:]), ""
            for j, text in enumerate(arguments(part)):
                yield from self.of_part("", text, path + (i, j + 1))

    def of_word(self, term, path):
        for kind, text, only in other_bytes(term[1]):
            yield kind, path, ("str", text), only

    def of_class(self, term, path):
        """A class of bytes: a text, or a name."""
        is_text = term[0] == "str"
        for byte in dict.fromkeys((term[1] if is_text else "") + TRIED):
            if is_text:
                new = ("str", term[1].replace(byte, "") if byte in term[1] else term[1] + byte)
            else:
                new = app("other_byte", term, ("str", byte))
            yield "class of bytes", path, new, byte
