"""Steps of lines as terms of proofs, and functions of printing as text."""
import re

FLAGS = {"lambda": "Lambda", "tprefix": "TemplatePrefix", "nprefix": "NestedPrefix", "pack": "Pack", "object": "Object",
         "params": "Params", "returns": "Returns", "littypes": "LiteralTypes"}
GENERICS = "<'s, T: Tree<S>, S: 's, W: DemangleWrite, B: Below<'s, T, S, W>>"
WIDTH = 118
PAGE = "(page g.T.InnerNode.tree g.T.RefersTo.table g.W.DemangleWrite.seen %s)"


class Cannot(Exception):
    """What no function of demangle_lines does."""


def snake(tag):
    return re.sub(r"(?<=[a-z0-9])(?=[A-Z])", "_", tag).lower()


def name_of(value):
    return value[0] if isinstance(value, tuple) else value


def path_of(path, length=None):
    if length is not None and len(path) != length:
        raise Cannot("a path of %d parts" % len(path))
    return [str(part) for part in path]


def rust_string(text):
    return '"%s"' % text.decode().replace("\\", "\\\\").replace('"', '\\"')


quoted = rust_string


def joined(head, *parts):
    """A term and its arguments."""
    return " ".join([head] + ["(%s)" % part if " " in part and not is_closed(part) else part for part in parts])


def is_closed(text):
    """Whether one pair of parentheses is around all of it."""
    if not text.startswith("("):
        return False
    depth = 0
    for at, sign in enumerate(text):
        depth += (sign == "(") - (sign == ")")
        if depth == 0:
            return at == len(text) - 1
    return False


# ---- terms of the data
def path(parts):
    return "(%s)" % " ∷ ".join([*map(str, parts), "[]"]) if parts else "[]"


def codes(text):
    return "(codes %s)" % rust_string(text)


def test(value):
    kind, *rest = value
    kind = kind[5:]
    terms = {"flag": lambda: "kind." + name_of(rest[0]), "last_is": lambda: str(rest[0]),
             "is_word": lambda: "%d %d %s" % (rest[0], rest[1], path(rest[2])),
             "spells": lambda: "%s %s" % (codes(rest[0]), path(rest[1])),
             "has_args": lambda: "%s %s" % (name_of(rest[0]), path(rest[1])),
             "both": lambda: "%s %s" % (test(rest[0]), test(rest[1])),
             "either": lambda: "%s %s" % (test(rest[0]), test(rest[1])), "isnt": lambda: test(rest[0])}
    return "(Test.%s %s)" % (kind, terms.get(kind, lambda: path(rest[0]))())


def piece(value):
    kind, *rest = value
    if kind == "Piece.quoted":
        return "(%s %s)" % (kind, codes(rest[0]))
    return "(%s %s)" % (kind, " ".join([path(rest[0]), *map(str, rest[1:])]))


def argument(value):
    if isinstance(value, bool):
        return str(value).lower()
    if isinstance(value, int):
        return str(value)
    if isinstance(value, list):
        return path(value) if not value or isinstance(value[0], int) else steps(value)
    if value[0].startswith("Piece."):
        return piece(value)
    if value[0].startswith("Test."):
        return test(value)
    return value[0]


# the arguments of steps that are steps, where they may be empty
STEPS = {"block": [0], "fence": [0], "with_params": [0], "join": [0], "each": [1], "with_leaf": [1], "with_these": [1],
         "test": [1, 2], "held": [2], "event": [1], "with_args": [2]}


def steps(values):
    term = "Step.done"
    for kind, *parts in reversed(values):
        terms = [steps(part) if at in STEPS.get(kind, []) else argument(part) for at, part in enumerate(parts)]
        if kind == "set":
            terms[0] = "kind." + name_of(parts[0])
        term = "(Step.%s)" % " ".join([kind, *terms, term])
    return term


# ---- functions as text
def wrapped(text, indent, width=WIDTH):
    """Words in lines; the lines behind the first are indented."""
    lines, line = [], ""
    for word in re.findall(r'(?:"(?:[^"\\]|\\.)*"|[^ "])+', text):
        if line and len(line) + 1 + len(word) > width:
            lines.append(line)
            line = indent + word
        else:
            line = line + " " + word if line else word
    return "\n".join(lines + [line])


def first_line(head, name):
    """The name with its type parameters, in lines of their own where they are too long for one."""
    line = "%s %s%s(" % (head, name, GENERICS)
    if len(line) < 100:
        return [line]
    return ["%s %s<" % (head, name)] + ["    %s," % part for part in re.split(r", (?=[TSWB]:)", GENERICS[1:-1])] + [">("]


def function(head, name, doc, parameters, result, clauses, body, hint=None):
    lines = ["/// " + line for line in wrapped(doc, "", 114).split("\n")]
    lines += [hint] if hint else []
    lines += first_line(head, name)
    lines += ["    %s," % parameter for parameter in parameters]
    lines.append(")" + result)
    lines += ["    " + wrapped(clause, "        ", WIDTH - 4) for clause in clauses]
    return "\n".join(lines) + "\n{\n" + body + "}\n"


def each_code(name, every, spec):
    done = ("Meets (B.at below) (page T.tree T.table W.seen ctx.old) (page T.tree T.table W.seen ctx.new) "
            "(each_of (world_of (B.at below).refers) %s (listed (world_of (B.at below).refers) (option_map T.tree list)) "
            "(lent_scope T.tree scope.entry))" % spec)
    body = ("    for number in 0..count_of(below, list) {\n"
            "        let Some(found) = entry_of(below, list, number) else {\n            return;\n        };\n"
            "        %s(below, found, scope, ctx);\n    }\n" % every)
    parameters = ["below: B", "list: Option<T>", "scope: Option<&Scope<'_, T>>", "ctx: &mut Context<'s, '_, T, S, W>"]
    return function("fn", name, "Steps for each tree of a list.", parameters, "",
                    ["requires { B.can below }", "ensures { %s }" % done], body)


def each_proof(every, spec):
    """The answers and the invariant of a loop over the trees of a list."""
    world = "(world_of (g.B.Below.at c.args.below).refers)"
    trees = "(listed %s (option_map g.T.InnerNode.tree c.args.list))" % world
    scope = "(lent_scope g.T.InnerNode.tree c.args.scope)"
    below = "(omega (arith, c.count_of-number-end.ensures, c.loop-number-test.true))"
    answers = [
        ("loop-number-init", "", "each_first %s %s %s" % (spec, trees, scope)),
        ("loop-number-preserved", "", "each_next %s c.loop-number.number %s (g.T.InnerNode.tree c.in-Some.found) %s %s "
         "c.in-Some.ensures c.loop-number.invariant c.%s.ensures" % (spec, trees, scope, below, every)),
        ("returns-in_default", "", "each_never c.loop-number.number %s %s c.in_default.ensures" % (trees, below)),
        ("returns", "", "each_over %s c.loop-number.number %s %s (omega (arith, c.count_of-number-end.ensures, "
         "c.loop-number-test.false)) c.loop-number.invariant" % (spec, trees, scope))]
    world, trees, scope = (text.replace("c.args.", "l.") for text in (world, trees, scope))
    left = "(each_of %s %s %s %s)" % (world, spec, trees, scope)
    rest = "(each_of %s %s (drop l.number %s) %s)" % (world, spec, trees, scope)
    return answers, {"loop-number": "Remains (g.B.Below.at l.below) %s %s %s %s" % (
        PAGE % "l.fn.ctx", PAGE % "l.ctx", left, rest)}
