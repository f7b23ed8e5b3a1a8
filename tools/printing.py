"""Trees printed by the lines: Reader.antt and Act.antt of demangle_printing in Python, for a tree with its table."""
import sys

import leaves

sys.setrecursionlimit(1000000)
FUEL = 20000  # so many jobs at most; an edited line may go on and on
WANTS = {"PointerToMemberType": 2, "TypeNodeQualified": 2, "TypeNodePointerTo": 1}
WANTS |= {"TypeNodeLvalueRef": 1, "TypeNodeRvalueRef": 1}
SORTS = {"as_prefix": "SubstitutablePrefix", "as_type": "SubstitutableTypeNode"}
TABLES = [leaves.VOCABULARY[kind] for kind in ("operator", "builtin", "component", "ref_qualifier", "explicit_object")]
LEAF_TEXTS = [entry[3][1][1] if entry[3][0] == "Some" else "" for entry in leaves.VOCABULARY["component"]]
ESCAPES = {b"$S": b"/", b"$_": b".", b"$$": b"$"}


class Fault(Exception):
    pass


class Printing:
    def __init__(self, lines, entries, data, options):
        self.lines, self.data, self.fuel = lines, data, FUEL
        self.entries = {which: [row[0] for w, row in entries if w == which] for which in "NU"}
        self.inner, self.kept, self.last, self.source, self.level = [], [], None, None, 0
        self.limit, self.room = options["print"], options["max"]
        self.flags = dict.fromkeys(("lambda", "tprefix", "nprefix", "pack", "object"), False)
        self.flags.update(params=not options["p"], returns=not options["r"], littypes=not options["l"])
        self.out, self.seen = [], set()

    # ---- trees
    def look(self, x):
        """A reference, and the handle in which it stands, look like the component."""
        first = x[2][0] if x and x[0] == "node" and x[2] else x
        reference = first if first and first[0] == "ref" else None
        return self.entries[reference[1]][reference[2]] if reference else x

    def parts(self, x):
        x = self.look(x)
        return [part for part in x[2] if part[0] != "mark"] if x and x[0] == "node" else []

    def find(self, x, path):
        for n in path:
            parts = self.parts(x)
            x = parts[n] if n < len(parts) else None
        return x

    def see(self, x, path):
        return self.look(self.find(x, path))

    def tag(self, x):
        x = self.look(x)
        return x[1] if x and x[0] == "node" else "Absent"

    def holding(self, x, holdings):
        seen = self.look(x)
        holding = holdings.get(seen[1], "itself") if seen and seen[0] == "node" else "itself"
        return {"itself": x, "its_part": (self.parts(x) + [None])[0], "no_tree": None}[holding]

    def of_handle(self, x):
        x = self.holding(x, self.lines.handles)
        return x if x and self.look(x)[0] in ("node", "chosen") else None

    def bytes(self, x):
        return self.data[x[1]:x[2]] if x and x[0] == "place" else b""

    def look_up(self, kind, x, sort=None):
        if x is None:
            return None
        if x[0] == "ref":
            entry = self.look(x)
            if kind == "args":
                return self.look_up(kind, entry[2][0], sort) if entry[1] == SORTS[sort] else None
            return self.look_up(kind, entry, sort)
        if x[0] == "chosen":
            return x if kind == "leaf" and x[1] == 2 and x[2] > 0 else None
        way = self.lines.look_ups[kind].get(x[1]) if x[0] == "node" else None
        if way is None:
            return None
        self.seen.add((kind, x[1]))
        if way == "itself":
            return x
        parts = [part for part in x[2] if part[0] != "mark"]
        for n in way:
            found = self.look_up(kind, parts[n] if n < len(parts) else None, sort)
            if found:
                return found
        return None

    # ---- texts
    def write(self, text):
        if self.room is not None:
            if len(text) > self.room:
                raise Fault("TooLong")
            self.room -= len(text)
        if text:
            self.out.append(text)
            self.last = text[-1]

    def write_input(self, text):
        try:
            text.decode("utf-8")
        except UnicodeDecodeError:
            raise Fault("NotUtf8") from None
        self.write(text)

    def space_(self):
        if self.last != 32:
            self.write(b" ")

    def spelled(self, x):
        if x and x[0] == "place":
            self.write_input(self.bytes(x))
        elif x and x[0] == "number":
            self.write(b"%d" % x[1])
        elif x and x[0] == "chosen":
            self.write(TABLES[x[1]][x[2]][2].encode())

    # ---- jobs, each one level deeper
    def job(self, do, *given):
        self.fuel -= 1
        if self.fuel < 0:
            raise leaves.Spent()
        if self.level + 1 == self.limit:
            raise Fault("TooMuchRecursion")
        self.level += 1
        do(*given)
        self.level -= 1

    def line_of(self, x, scope):
        x = self.of_handle(self.holding(x, self.lines.optional))
        if x:
            self.job(self.body, x, scope)

    def body(self, x, scope):
        seen = self.look(x)
        if seen[0] == "chosen":
            self.spelled(seen)
        elif seen[0] == "node":
            self.named_steps("line " + seen[1], x, scope)

    def named_steps(self, name, x, scope):
        self.seen.add(name)
        self.run(self.lines.steps.get(name, []), x, scope)

    def inside(self, x, scope):
        tag = self.tag(x)
        if tag == "EncodingFunction":
            args, types = self.look_up("args", self.find(x, [0]), "as_prefix"), self.parts(self.find(x, [1, 0]))
            scope = [(("args", args), None)] + scope if args else scope
            self.job(self.parameters_of, types[1:] if args else types, scope)
        else:
            self.job(self.named_steps, ("line " if tag == "CvQualifiers" else "inside ") + tag, x, scope)

    def turn(self, scope):
        self.inside(self.inner.pop()[0], scope)

    def empty(self, scope):
        for _ in range(len(self.inner)):
            if self.inner:
                self.turn(scope)

    def parameters_of(self, types, scope):
        wanted = next((WANTS[self.tag(item)] for item, _ in reversed(self.inner) if self.tag(item) in WANTS), 0)
        if wanted:
            if wanted == 2 or self.last not in (40, 42):
                self.space_()
            self.write(b"(")
        kept = len(self.kept)
        for _ in range(len(self.inner)):
            if not self.inner:
                break
            item = self.inner[-1][0]
            if self.tag(item) == "FunctionType" and any(flag[1] for flag in self.parts(self.find(item, [0]))):
                self.kept.append(self.inner.pop())
            else:
                self.turn(scope)
        while len(self.kept) > kept:
            self.inner.append(self.kept.pop())
        if wanted:
            self.write(b")")
        self.write(b"(")
        if len(types) == 1 and self.see(types[0], [0, 0]) == ("chosen", 1, 0):
            return self.write(b")")
        if self.flags["object"]:
            self.write(b"this ")
            self.flags["object"] = False
        outer, self.inner = self.inner, []
        self.list_of(types, scope)
        self.inner = outer
        self.write(b")")
        self.empty(scope)

    def list_of(self, trees, scope, place=None):
        for k, x in enumerate(trees):
            if k:
                self.write(b", ")
            self.line_of(x, scope if place is None or not scope else [(scope[0][0], (k, place))] + scope[1:])

    # ---- scopes
    def scope_leaf(self, scope):
        for (what, x), _ in scope:
            if what == "leaf":
                return x
        raise Fault("BadLeafNameReference")

    def leaf_act(self, x):
        seen = self.look(x)
        if seen[0] == "chosen":
            self.write(LEAF_TEXTS[seen[2]].encode())
        elif seen[1] == "UnnamedTypeName":
            self.job(self.unnamed, x)
        elif seen[1] in ("SourceName", "ClosureTypeName"):
            self.job(self.body, x, [])

    def unnamed(self, x):
        if self.source is None:
            self.body(x, [])
        else:
            self.write(self.source)

    def argument_in(self, k, scope):
        for (what, x), mark in scope:
            if what == "args":
                members = self.parts(self.find(x, [0]))
                if k < len(members):
                    if mark and mark[1] == self.began(x) and mark[0] <= k:
                        raise Fault("ForwardTemplateArgReference")
                    return members[k]
        raise Fault("BadTemplateArgReference")

    def began(self, x):
        return x[2][0][1] if x[0] == "node" and x[2] and x[2][0][0] == "mark" else 0

    # ---- tests
    def holds(self, test, x):
        kind, *of = test
        return getattr(self, "is_" + kind[5:])(x, *of)

    def is_flag(self, x, flag):
        return self.flags[flag[0]]

    def is_last_is(self, x, byte):
        return self.last == byte

    def is_there(self, x, path):
        return self.tag(self.find(x, path)) == "Present"

    def is_is_true(self, x, path):
        seen = self.see(x, path)
        return bool(seen) and seen[0] == "flag" and seen[1]

    def is_qualified(self, x, path):
        return any(part[0] == "flag" and part[1] for part in self.parts(self.find(x, path)))

    def is_is_word(self, x, table, word, path):
        return self.see(x, path) == ("chosen", table, word)

    def is_spells(self, x, text, path):
        return self.bytes(self.see(x, path)) == text

    def is_negative(self, x, path):
        return self.bytes(self.see(x, path))[:1] == b"n"

    def is_anonymous(self, x, path):
        text = self.bytes(self.see(x, path))
        return text[:8] == b"_GLOBAL_" and text[8:10] in (b".N", b"_N", b"$N")

    def is_has_args(self, x, sort, path):
        return self.look_up("args", self.find(x, path), sort[0]) is not None

    def is_special(self, x, path):
        return self.look_up("special", self.find(x, path)) is not None

    def is_both(self, x, a, b):
        return self.holds(a, x) and self.holds(b, x)

    def is_either(self, x, a, b):
        return self.holds(a, x) or self.holds(b, x)

    def is_isnt(self, x, a):
        return not self.holds(a, x)

    # ---- steps
    def run(self, steps, x, scope):
        for kind, *of in steps:
            getattr(self, kind)(x, scope, *of)

    def say(self, x, scope, piece):
        kind, *of = piece
        if kind == "Piece.quoted":
            return self.write(of[0])
        seen = self.see(x, of[0])
        if kind == "Piece.spelled":
            self.spelled(seen)
        elif kind == "Piece.magnitude":
            text = self.bytes(seen)
            self.write_input(text[1:] if text[:1] == b"n" else text)
        else:
            self.write(b"%d" % (seen[1] + of[2] if seen and seen[0] == "number" else of[1]))

    def space(self, x, scope):
        self.space_()

    def line(self, x, scope, path):
        self.line_of(self.find(x, path), scope)

    def free(self, x, scope, path):
        """The line of a part without its level."""
        part = self.of_handle(self.holding(self.find(x, path), self.lines.optional))
        if part:
            self.fuel -= 1
            if self.fuel < 0:
                raise leaves.Spent()
            self.body(part, scope)

    def operand(self, x, scope, path):
        part = self.find(x, path)
        tag = self.tag(part)
        is_name = tag == "ExpressionPrimary" and self.tag(self.find(part, [0])) == "ExprPrimaryExternal"
        bare = part is None or tag == "ExpressionFunctionParam" or is_name
        self.write(b"" if bare else b"(")
        self.line_of(part, scope)
        self.write(b"" if bare else b")")

    def list(self, x, scope, path):
        self.list_of(self.parts(self.find(x, path)), scope)

    def members(self, x, scope, path):
        self.list_of(self.parts(self.find(x, path)), scope, self.began(x))

    def each(self, x, scope, path, steps):
        for part in self.parts(self.find(x, path)):
            self.run(steps, part, scope)

    def block(self, x, scope, steps):
        self.run(steps, x, scope)

    def test(self, x, scope, test, yes, no):
        self.run(yes if self.holds(test, x) else no, x, scope)

    def held(self, x, scope, path, spaced, steps):
        item = self.find(x, path)
        self.inner.append((item, self.level))
        self.run(steps, x, scope)
        if self.inner and self.inner[-1][1] == self.level:
            self.inner.pop()
            if spaced:
                self.space_()
            self.inside(item, scope)

    def take(self, x, scope):
        if self.inner:
            self.turn(scope)

    def fence(self, x, scope, steps):
        outer, self.inner = self.inner, []
        self.run(steps, x, scope)
        self.inner = outer

    def join(self, x, scope, steps):
        while self.inner and self.tag(self.inner[-1][0]) == "TypeNodeRvalueRef":
            self.inner.pop()
        if not (self.inner and self.tag(self.inner[-1][0]) == "TypeNodeLvalueRef"):
            self.run(steps, x, scope)

    def around(self, x, scope):
        spaced = True
        for _ in range(len(self.inner)):
            if not self.inner:
                break
            item = self.inner[-1][0]
            tag = self.tag(item)
            if tag.startswith("ArrayType"):
                self.turn(scope)
                spaced = False
            elif tag == "TypeNodeQualified" and self.tag(self.of_handle(self.find(item, [1]))) == "TypeNodeArray":
                self.turn(scope)
            else:
                self.before_bounds(tag == "TypeNodeQualified", scope)
                break
        if spaced:
            self.space_()

    def before_bounds(self, qualified, scope):
        self.space_()
        if qualified:
            self.turn(scope)
            self.space_()
        self.write(b"(")
        if not qualified:
            self.turn(scope)
        self.empty(scope)
        self.write(b")")

    def parameters(self, x, scope, path, first):
        self.job(self.parameters_of, self.parts(self.find(x, path))[first:], scope)

    def event(self, x, scope, kind, steps):
        self.out.append(("push", kind[0][5:]))
        self.run(steps, x, scope)
        self.out.append(("pop",))

    def set(self, x, scope, flag, value):
        self.flags[flag[0]] = value

    def with_params(self, x, scope, steps):
        before, self.flags["params"] = self.flags["params"], True
        self.run(steps, x, scope)
        self.flags["params"] = before

    def named(self, x, scope, path):
        self.source = self.bytes(self.see(x, path))

    def with_leaf(self, x, scope, path, steps):
        leaf = self.look_up("leaf", self.find(x, path))
        self.run(steps, x, [(("leaf", leaf), None)] + scope if leaf else scope)

    def with_args(self, x, scope, sort, path, steps):
        args = self.look_up("args", self.find(x, path), sort[0])
        self.run(steps, x, [(("args", args), None)] + scope if args else scope)

    def with_these(self, x, scope, path, steps):
        args = self.find(x, path)
        self.run(steps, x, [(("args", args), None)] + scope if args else scope)

    def need_leaf(self, x, scope):
        self.scope_leaf(scope)

    def leaf(self, x, scope):
        self.leaf_act(self.scope_leaf(scope))

    def leaf_of(self, x, scope, path):
        leaf = self.look_up("leaf", self.find(x, path))
        if leaf is None:
            raise Fault("BadLeafNameReference")
        self.leaf_act(leaf)

    def argument(self, x, scope, path):
        self.line_of(self.argument_in(self.see(x, path)[1], scope), scope)

    def resource(self, x, scope, path):
        text, i = self.bytes(self.see(x, path)), 0
        while i < len(text):
            escaped = ESCAPES.get(text[i:i + 2])
            self.write(escaped or chr(text[i]).encode())
            i += 2 if escaped else 1


def printed(lines, reading, data, options):
    """The outcome of a tree that was read, the events before it, and the definitions that were used."""
    printing = Printing(lines, reading.entries, data, options)
    try:
        printing.line_of(reading.answer[2][0], [])
        outcome = ("Text", b"".join(x for x in printing.out if isinstance(x, bytes)))
    except Fault as fault:
        outcome = ("Print", str(fault))
    except (AttributeError, IndexError, KeyError, TypeError):
        outcome = ("Odd",)  # an edited line asks a part for what it isn't
    return outcome, told(printing.out), printing.seen


def told(out):
    """Events, with texts side by side in one."""
    found = []
    for event in out:
        if isinstance(event, bytes) and found and isinstance(found[-1], bytes):
            found[-1] += event
        else:
            found.append(event)
    return found
