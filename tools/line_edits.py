"""Every single edit of the lines of printing, of the pieces that they share, and of the look-ups."""
import re
import typing

import antt
from antt import app, arguments, head_of, name
from row_edits import joined, other_bytes

NOTHING, SPACE = name("nothing"), name("space")
FLAGS = "lambda tprefix nprefix pack object params returns littypes".split()
WRAPPERS = ("inner inner_spaced inner_of fence joined with_params with_leaf with_args with_these with_optional event in_prefix "
            "bounds cast creation").split()
TESTS = "flag there last_is is_true qualified has_args special both either isnt".split()
SORTS = {"as_prefix": "as_type", "as_type": "as_prefix"}
TURNS = {"turn_on": "turn_off", "turn_off": "turn_on"}


class Edit(typing.NamedTuple):
    kind: str
    look_up: str  # of which look-up a node is edited; empty: a definition of a line is
    definition: str
    old: object
    new: object
    body: object  # the whole body with the edit in it
    text: str  # a printing without this text doesn't tell; empty: any may tell

    def __str__(self):
        if self.look_up:
            return "%s → %s" % (self.old, self.new)
        return "%s → %s" % (antt.shown(self.old), antt.shown(self.new))


class LineEdits:
    def __init__(self, lines):
        self.lines = lines
        bodies = " ".join(antt.shown(body) for _, body in lines.definitions.values())
        self.events = sorted(set(re.findall(r"kind\.\w+", bodies)))

    def all(self):
        for definition, (_, body) in self.lines.definitions.items():
            is_test = self.lines.kinds.get(definition) == "Test"
            for kind, path, new, *only in (self.of_test if is_test else self.of_item)(body, ()):
                old = antt.within(body, path)
                yield Edit(kind, "", definition, old, new, antt.replaced(body, path, new), only[0] if only else "")
        for look_up, table in self.lines.look_ups.items():
            for tag, way in table.items():
                for kind, new in self.of_way(way):
                    yield Edit(kind, look_up, tag, way, new, new, "")

    def of_way(self, way):
        """The parts of a node that a look-up asks."""
        if way == "itself":
            yield "look-up dropped", None
            return
        for i, part in enumerate(way):
            yield "look-up dropped", way[:i] + way[i + 1:]
            yield "look-up's part", way[:i] + [part + 1] + way[i + 1:]
        if len(way) > 1:
            yield "look-ups exchanged", way[::-1]

    # each gives the kind, the path of what is replaced, the new term, and the text that tells
    def is_test(self, term):
        head = head_of(term)
        return head in TESTS or head.startswith("Test.") or self.lines.kinds.get(head) == "Test"

    def of_item(self, term, path):
        if term[0] == "seq":
            items = term[1]
            for i, item in enumerate(items):
                yield "step dropped", path, joined("seq", items[:i] + items[i + 1:])
                if i:
                    yield "steps exchanged", path, ("seq", items[:i - 1] + [item, items[i - 1]] + items[i + 1:])
                yield from self.of_single(item, path + (i,))
        else:
            if term != NOTHING:
                yield "step dropped", path, NOTHING
            yield from self.of_single(term, path)

    def of_single(self, term, path):
        """An item that is no sequence, and what stands in it."""
        if term[0] == "seq":
            yield from self.of_item(term, path)
            return
        head, args = head_of(term), arguments(term)
        if head == "space":
            yield "space", path, app("t", ("str", " "))
        if term == app("t", ("str", " ")):
            yield "space", path, SPACE
        if head in ("part", "itself"):
            yield "level", path, app("free_part", *args) if args else name("free_itself")
        if head == "t" and len(args[0][1]) > 1:
            half = len(args[0][1]) // 2
            parts = [app("t", ("str", text)) for text in (args[0][1][:half], args[0][1][half:])]
            yield "text in two steps", path, ("seq", parts), args[0][1]
        if head in ("part", "operand"):
            yield "operand", path, app("operand" if head == "part" else "part", *args)
        if head == "choose":
            yield "test dropped", path, args[1]
            yield "test dropped", path, args[2]
        if head == "when":
            yield "test dropped", path, args[1]
        if head in WRAPPERS:
            yield "event dropped" if head == "event" else "wrapper dropped", path, args[-1]
        if head in ("inner_spaced", "inner_of"):
            yield "wrapper dropped", path, app("inner", args[-1])
        if head in TURNS:
            yield "flag", path, app(TURNS[head], *args)
        if head in TURNS or head == "flag":
            yield "flag", path + (1,), name(FLAGS[(FLAGS.index(args[0][1]) + 1) % len(FLAGS)])
        if head == "event":
            yield "event's kind", path + (1,), name(self.events[(self.events.index(args[0][1]) + 1) % len(self.events)])
        for i, part in enumerate(args):
            yield from self.of_part(part, path + (i + 1,))

    def of_part(self, term, path):
        """An argument: its kind is seen from its form."""
        head = head_of(term)
        if term[0] == "str":
            for kind, text, _ in other_bytes(term[1]):
                yield kind.replace("word", "text"), path, ("str", text), term[1]
        elif term[0] == "num":
            for new in (term[1] - 1, term[1] + 1):
                if new >= 0:
                    yield "part's path or number", path, ("num", new)
        elif term[0] == "list" or head == "codes":
            for i, part in enumerate(arguments(term) if head else term[1]):
                yield from self.of_part(part, path + (i + bool(head),))
        elif head in SORTS:
            yield "sort", path, name(SORTS[head])
        elif self.is_test(term):
            yield from self.of_test(term, path)
        elif term[0] in ("app", "seq") or head in ("space", "leaf", "itself", "need_leaf", "nothing"):
            yield from self.of_item(term, path)

    def of_test(self, term, path):
        head, args = head_of(term), arguments(term)
        yield "test negated", path, args[0] if head == "isnt" else app("isnt", term)
        if head in ("both", "either"):
            yield "test dropped", path, args[0]
            yield "test dropped", path, args[1]
            yield "test's both or either", path, app("either" if head == "both" else "both", *args)
        if head == "flag":
            yield "flag", path + (1,), name(FLAGS[(FLAGS.index(args[0][1]) + 1) % len(FLAGS)])
            return
        for i, part in enumerate(args):
            yield from self.of_part(part, path + (i + 1,))
