"""Functions of printing, from the steps of lines (lines.py): each with its contract and the proof that it does them."""
import line_terms
from line_terms import FLAGS, Cannot, joined, name_of, path_of, quoted, rust_string, snake

GENERICS = "<'s, T: Tree<S>, S: 's, W: DemangleWrite, B: Below<'s, T, S, W>>"
PAGES = "(page T.tree T.table W.seen ctx.old) (page T.tree T.table W.seen ctx.new)"
SCOPE = "(lent_scope T.tree scope.entry)"
WORLD = "(world_of (g.B.Below.at c.args.below).refers)"
TREE = "(g.T.InnerNode.tree c.args.tree)"
ITS_SCOPE = "(lent_scope g.T.InnerNode.tree c.args.scope)"
# conditions of a node: the function, and the places of the arguments in the test
TESTS = {"there": "is_there", "is_true": "is_true", "qualified": "is_qualified", "negative": "is_negative",
         "anonymous": "is_anonymous", "special": "is_special"}
WORDS = {1: "is_word", 2: "is_inner_word", 3: "is_innermost_word"}
SORTS = {"as_prefix": "prefix", "as_type": "type"}
# steps that are one call of a function of demangle_lines, by the length of their path
PARTS = {("line", 0): "itself", ("line", 1): "part", ("line", 2): "inner_part", ("line", 3): "innermost_part",
         ("operand", 1): "operand", ("list", 1): "list", ("members", 1): "members", ("argument", 1): "argument",
         ("leaf_of", 2): "inner_leaf"}
# parts of names often are names of an identifier alone
NAMES = "demangle_lines_names"
TEXTS = {("spelled", 0): "spelled_itself", ("spelled", 1): "spelled", ("spelled", 2): "inner_spelled",
         ("magnitude", 1): "magnitude"}
ORDINALS = {1: "ordinal", 2: "inner_ordinal"}
SCOPES = {("with_leaf", 1): "with_leaf_name", ("with_these", 1): "with_these", ("with_these", 2): "with_inner_these"}


class Crate:
    """The functions of a crate: those of lines, and those of which they are made."""

    def __init__(self, whose):
        self.whose, self.known, self.count = whose, {}, {}
        self.functions = []  # (module, name, code, answers, invariants)
        self.specs = []

    def fresh(self, base):
        self.count[base] = self.count.get(base, 0) + 1
        return "%s_%d" % (base, self.count[base])

    def spec(self, name, kind, value):
        self.specs.append("abbrev pub %s : %s\n%s = %s\n" % (name, kind, name, value))

    def add(self, module, name, code, answers, invariants=None):
        self.functions.append((module, name, code, answers, invariants or {}))

    def once(self, key, make):
        key = repr(key)
        if key not in self.known:
            self.known[key] = make()
        return self.known[key]

    # ---- functions of which lines are made
    def condition(self, test):
        return self.once(("condition", test), lambda: self.new_condition(test))

    def new_condition(self, test):
        kind, name, body = test[0][5:], self.fresh("condition"), Body(self)
        self.spec(name + "_is", "Test", line_terms.test(test))
        first, proof, call = body.asked(test[1], "")
        if kind == "isnt":
            code, answers = "    !%s\n" % first, [("returns", "", "isnt_as " + proof)]
        else:
            on, suffix = (("both_on", "both_off"), "-then-") if kind == "both" else (("either_off", "either_on"), "-else-")
            second, other, _ = body.asked(test[2], suffix + call)
            then = [second, "false"] if kind == "both" else ["true", second]
            code = "    if %s {\n        %s\n    } else {\n        %s\n    }\n" % (first, *then)
            true, false = "c.if-%s.true" % call, "c.if-%s.false" % call
            rest = {"both": (joined(on[0], proof, true, other), joined(on[1], proof, false)),
                    "either": (joined(on[1], proof, true), joined(on[0], proof, false, other))}[kind]
            answers = [("returns-then-" + call, "", rest[0]), ("returns-else-" + call, "", rest[1])]
        self.add("choices", name, condition_code(name, code), answers)
        return name

    def choice(self, test, yes, no):
        return self.once(("choice", test, yes, no), lambda: self.new_choice(test, yes, no))

    def new_choice(self, test, yes, no):
        name, body = self.fresh("choice"), Body(self)
        asked, proof, call = body.asked(test, "")
        then, yes_term = body.steps(yes, "        ", "-then-" + call)
        other, no_term = body.steps(no, "        ", "-else-" + call)
        for what, value in (("if", line_terms.test(test)), ("yes", line_terms.steps(yes)), ("no", line_terms.steps(no))):
            self.spec("%s_%s" % (name, what), "Test" if what == "if" else "Step", value)
        code = "    if %s {\n%s    }%s\n" % (asked, then, " else {\n%s    }" % other if no else "")
        done = "Chooses (B.at below) %s (T.tree tree) %s %s_if %s_yes %s_no" % (PAGES, SCOPE, name, name, name)
        self.add("choices", name, line_code("fn", name, "Steps that a condition chooses.", done, code), [
            ("returns-then-" + call, "", joined("chooses_yes", proof, "c.if-%s.true" % call, yes_term)),
            ("returns-else-" + call, "", joined("chooses_no", proof, "c.if-%s.false" % call, no_term))])
        return name

    def each(self, steps):
        return self.once(("each", steps), lambda: self.new_each(steps))

    def new_each(self, steps):
        name, body = self.fresh("each"), Body(self)
        every, spec = name.replace("each", "every"), name + "_steps"
        self.spec(spec, "Step", line_terms.steps(steps))
        code, term = body.steps(steps, "    ", "")
        done = "Runs (B.at below) %s (T.tree tree) %s %s" % (PAGES, SCOPE, spec)
        self.add("choices", every, line_code("fn", every, "Steps for a tree of a list.", done, code),
                 [("returns", "", "record { meets = %s }" % term)])
        self.add("choices", name, line_terms.each_code(name, every, spec), *line_terms.each_proof(every, spec))
        return name

    def under(self, steps):
        return self.once(("under", steps), lambda: self.new_under(steps))

    def new_under(self, steps):
        name, body = self.fresh("under"), Body(self)
        spec = name + "_steps"
        self.spec(spec, "Step", line_terms.steps(steps))
        code, term = body.steps(steps, "    ", "")
        done = "Runs (B.at below) %s (T.tree tree) %s %s" % (PAGES, SCOPE, spec)
        self.add("choices", name, line_code("fn", name, "Steps in a scope of their own.", done, code),
                 [("returns", "", "record { meets = %s }" % term)])
        return name

    # ---- lines
    def line(self, module, key, steps, doc):
        side, tag = key.split()
        name = snake(tag) + ("_inside" if side == "inside" else "")
        word = "inside_steps" if side == "inside" else "line_steps"
        body = Body(self)
        code, answers = body.whole(steps)
        done = "Runs (B.at below) %s (T.tree tree) %s (%s Tag.%s)" % (PAGES, SCOPE, word, tag)
        self.add(module, name, line_code("pub fn", name, doc, done, code),
                 [(goal, word, "record { meets = %s }" % term) for goal, term in answers])
        return name


def line_code(head, name, doc, done, body):
    parameters = ["below: B", "tree: T", "scope: Option<&Scope<'_, T>>", "ctx: &mut Context<'s, '_, T, S, W>"]
    return line_terms.function(head, name, doc, parameters, "", ["requires { B.can below }",
                                                                  "ensures { %s }" % done], body)


def condition_code(name, body):
    done = "Holds (B.at below).refers (page T.tree T.table W.seen ctx.now) (T.tree tree) %s_is result" % name
    parameters = ["below: B", "tree: T", "ctx: &Context<'s, '_, T, S, W>"]
    return line_terms.function("fn", name, "A condition.", parameters, " -> bool", ["ensures { %s }" % done], body)


class Body:
    """The body of one function, with the names of its calls as its proof cites them."""

    def __init__(self, crate):
        self.crate, self.taken, self.scope, self.scopes = crate, set(), "scope", 0

    def call(self, base, suffix):
        name = base
        if name in self.taken and suffix and base + suffix not in self.taken:
            name = base + suffix
        elif name in self.taken:
            root, number = base + suffix, 2
            while "%s-%d" % (root, number) in self.taken:
                number += 1
            name = "%s-%d" % (root, number)
        self.taken.add(name)
        return "c.%s.ensures" % name

    def asked(self, test, suffix):
        """A condition in code, the proof that it holds or not, and the name of its call."""
        kind = test[0][5:]
        if kind == "flag":
            return ("ctx.is_on(PrintFlag::%s)" % FLAGS[name_of(test[1])],
                    "(record { is = λ l. %s })" % self.call("is_on", suffix), "is_on")
        if kind == "last_is":
            return ("ctx.last_is(%r)" % chr(test[1]), "(record { is = λ l. %s })" % self.call("last_is", suffix), "last_is")
        if kind in ("both", "either", "isnt"):
            name = self.crate.condition(test)
            return "%s(below, tree, ctx)" % name, self.call(name, suffix), name
        name, arguments = self.test_call(kind, test)
        return ("%s(below, tree, %s)" % (name, ", ".join(arguments)), "(always %s)" % self.call(name, suffix), name)

    def test_call(self, kind, test):
        if kind == "is_word":
            return WORDS[len(test[3])], [str(x) for x in test[1:3]] + path_of(test[3])
        if kind == "spells":
            return "spells", ["b" + rust_string(test[1])] + path_of(test[2], 1)
        if kind == "has_args":
            return "has_%s_arguments" % SORTS[name_of(test[1])], path_of(test[2], 1)
        if kind in TESTS:
            return TESTS[kind], path_of(test[1], 1)
        raise Cannot("test " + kind)

    # ---- steps
    def whole(self, steps):
        """The code of a function of these steps, and the goal and the term of each of its ends."""
        if steps and steps[0][0] == "held" and steps[0][1] and len(steps) == 1:
            return self.held_part(steps[0])
        code, term = self.steps(steps, "    ", "")
        return code, [("returns", term)]

    def steps(self, steps, indent, suffix):
        """Code, and the term from the first step on."""
        if not steps:
            return "", "meets_done"
        step, rest = steps[0], steps[1:]
        if step[0] == "named":
            return self.named(steps, indent, suffix)
        return getattr(self, "do_" + step[0])(step, rest, indent, suffix)

    def then(self, lines, heads, rest, indent, suffix):
        code, term = self.steps(rest, indent, suffix)
        return "".join(indent + line + "\n" for line in lines) + code, joined(*heads, term)

    def around(self, before, heads, inner, after, closing, rest, indent, suffix):
        """What stands around other steps; `heads` and `closing` make their terms when their calls are reached."""
        start = heads()
        code, term = self.steps(inner, indent, suffix)
        end = closing()
        more, rest_term = self.steps(rest, indent, suffix)
        lines = "".join(indent + line + "\n" for line in before) + code + "".join(indent + line + "\n" for line in after)
        return lines + more, joined(*start, term, *end, rest_term)

    def one_call(self, name, arguments, lemma, rest, indent, suffix):
        line = "%s(%s);" % (name, ", ".join(arguments))
        return self.then([line], [lemma, self.call(name, suffix)], rest, indent, suffix)

    def do_say(self, step, rest, indent, suffix):
        kind, *what = step[1]
        kind = kind[6:]
        if kind == "quoted":
            return self.then(["ctx.text(%s);" % quoted(what[0])], ["meets_text", self.call("text", suffix)], rest, indent, suffix)
        if kind == "ordinal":
            arguments = ["below", "tree", *path_of(what[0]), str(what[1]), str(what[2]), "ctx"]
            return self.one_call(ORDINALS[len(what[0])], arguments, "meets_text", rest, indent, suffix)
        name = TEXTS[kind, len(what[0])]
        return self.one_call(name, ["below", "tree", *path_of(what[0]), "ctx"], "meets_block", rest, indent, suffix)

    def do_space(self, step, rest, indent, suffix):
        return self.then(["ctx.space();"], ["meets_space", self.call("space", suffix)], rest, indent, suffix)

    def part_call(self, step, rest, indent, suffix):
        name = PARTS[step[0], len(step[1])]
        if name == "part" and self.crate.whose == NAMES:
            name = "name_part"
        return self.one_call(name, ["below", "tree", *path_of(step[1]), self.scope, "ctx"], "meets_block", rest, indent, suffix)

    do_line = do_operand = do_list = do_members = do_argument = do_leaf_of = part_call

    def do_resource(self, step, rest, indent, suffix):
        arguments = ["below", "tree", *path_of(step[1], 1), "ctx"]
        return self.one_call("resource", arguments, "meets_block", rest, indent, suffix)

    def scope_call(self, step, rest, indent, suffix):
        return self.one_call(step[0], ["below", self.scope, "ctx"], "meets_block", rest, indent, suffix)

    do_need_leaf = do_leaf = scope_call

    def do_take(self, step, rest, indent, suffix):
        line = "taken(below, %s, ctx);" % self.scope
        return self.then([line], ["meets_rest", "(%s.rest _)" % self.call("taken", suffix)], rest, indent, suffix)

    def do_join(self, step, rest, indent, suffix):
        mark = step[1][0][1][1]
        line = "joined(below, %s, ctx);" % quoted(mark)
        return self.then([line], ["meets_rest", "(%s _)" % self.call("joined", suffix)], rest, indent, suffix)

    def do_around(self, step, rest, indent, suffix):
        line = "before_bounds(below, %s, ctx);" % self.scope
        return self.then([line], ["meets_ask", "(λ _. refl)", self.call("before_bounds", suffix)], rest, indent, suffix)

    def do_parameters(self, step, rest, indent, suffix):
        arguments = ["below", "tree", *path_of(step[1], 1), str(step[2]), self.scope, "ctx"]
        return self.one_call("parameters_behind", arguments, "meets_call", rest, indent, suffix)

    def do_set(self, step, rest, indent, suffix):
        line = "ctx.turn(PrintFlag::%s, %s);" % (FLAGS[name_of(step[1])], str(step[2]).lower())
        return self.then([line], ["meets_set", self.call("turn", suffix)], rest, indent, suffix)

    def do_test(self, step, rest, indent, suffix):
        name = self.crate.choice(step[1], step[2], step[3])
        line = "%s(below, tree, %s, ctx);" % (name, self.scope)
        return self.then([line], ["meets_rest", "(%s.rest _)" % self.call(name, suffix)], rest, indent, suffix)

    def do_each(self, step, rest, indent, suffix):
        name = self.crate.each(step[2])
        found, done = self.call("part_at", suffix), self.call(name, suffix)
        line = "%s(below, part_at(below, tree, %s), %s, ctx);" % (name, *path_of(step[1], 1), self.scope)
        family = "(λ y. each_of %s %s_steps (listed %s y) %s)" % (WORLD, name, WORLD, self.its_scope())
        return self.then([line], ["meets_found", family, found, done], rest, indent, suffix)

    def do_block(self, step, rest, indent, suffix):
        return self.around([], lambda: ["meets_block"], step[1], [], lambda: [], rest, indent, suffix)

    def do_fence(self, step, rest, indent, suffix):
        return self.around(["let items = ctx.fence();"], lambda: ["meets_fence", self.call("fence-items", suffix)], step[1],
                           ["ctx.unfence(items);"], lambda: [self.call("unfence", suffix)], rest, indent, suffix)

    def do_event(self, step, rest, indent, suffix):
        kind = "".join(word.capitalize() for word in name_of(step[1])[5:].split("_"))
        return self.around(["let told = ctx.begin_node(DemangleNodeType::%s);" % kind],
                           lambda: ["meets_event", self.call("begin_node-told", suffix)], step[2],
                           ["ctx.end_node(told);"], lambda: [self.call("end_node", suffix)], rest, indent, suffix)

    def do_with_params(self, step, rest, indent, suffix):
        before = ["let before = ctx.is_on(PrintFlag::Params);", "ctx.turn(PrintFlag::Params, true);"]
        return self.around(before, lambda: ["meets_params", self.call("is_on-before", suffix), self.call("turn", suffix)],
                           step[1], ["ctx.turn(PrintFlag::Params, before);"], lambda: [self.call("turn", suffix)],
                           rest, indent, suffix)

    def do_held(self, step, rest, indent, suffix):
        if step[1]:
            raise Cannot("an item that is a part, and steps behind it")
        close = "close_spaced" if step[2] else "close"
        return self.around(["hold(below, tree, ctx);"], lambda: ["meets_held", self.call("hold", suffix)], step[3],
                           ["%s(below, tree, %s, ctx);" % (close, self.scope)], lambda: [self.call(close, suffix)],
                           rest, indent, suffix)

    def held_part(self, step):
        """An item that is a part, where it is there; with no steps behind it."""
        _, path, spaced, inner = step
        close, found = "close_spaced" if spaced else "close", path_of(path, 1)[0]
        self.call("part_at", "")
        none, none_term = self.steps(inner, " " * 12, "")
        hold = self.call("hold", "")
        some, some_term = self.steps(inner, " " * 12, "-in-Some")
        closed = self.call(close, "")
        code = ("    match part_at(below, tree, %s) {\n        None => {\n%s        }\n        Some(item) => {\n"
                "            hold(below, item, ctx);\n%s            %s(below, item, scope, ctx);\n        }\n    }\n")
        family = "(λ y. held_for %s y %s %s (run %s (Some %s) %s %s) done)" % (
            WORLD, str(spaced).lower(), ITS_SCOPE, WORLD, TREE, ITS_SCOPE, line_terms.steps(inner))
        return code % (found, none, some, close), [
            ("returns-in-None", joined("meets_at", family, "c.in-None.ensures", joined("meets_block", none_term, "meets_done"))),
            ("returns-in-Some", joined("meets_at", family, "c.in-Some.ensures",
                                       joined("meets_held", hold, some_term, closed, "meets_done")))]

    def named(self, steps, indent, suffix):
        """A name that is written and kept: alone, or behind a space and a dot."""
        path = step_path = steps[0][1]
        spelled = ("say", ("Piece.spelled", path))
        name = {repr([spelled]): "name", repr([("say", ("Piece.quoted", b" .")), spelled]): "suffix"}.get(repr(list(steps[1:])))
        if name is None:
            raise Cannot("a name of another form")
        line = "%s(below, tree, %s, ctx);" % (name, *path_of(step_path, 1))
        return indent + line + "\n", self.call(name, suffix)

    # ---- scopes
    def its_scope(self):
        if self.scope == "scope":
            return ITS_SCOPE
        return "(stack_scope g.T.InnerNode.tree %s)" % self.stack

    def in_scope(self, function, step, path, inner, rest, indent, suffix):
        """Steps with what was found in scope. A scope in a scope is made in a function of its own."""
        if self.scope == "scope":
            return self.scoped(function, path, inner, rest, indent, suffix)
        if rest:
            raise Cannot("a scope in a scope, and steps behind it")
        name = self.crate.under([step])
        return "%s%s(below, tree, %s, ctx);\n" % (indent, name, self.scope), self.call(name, suffix) + ".meets"

    def scoped(self, function, path, inner, rest, indent, suffix):
        self.scopes += 1
        variable = "inner" if self.scopes == 1 else "inner_%d" % self.scopes
        line = "let %s = %s(below, tree, %s, %s);" % (variable, function, ", ".join(path_of(path)), self.scope)
        found = self.call("%s-%s" % (function, variable), suffix)
        family = "(λ s. run %s (Some %s) s %s)" % (WORLD, TREE, line_terms.steps(inner))
        outer, stack = self.scope, getattr(self, "stack", None)
        self.scope, self.stack = "Some(&%s)" % variable, found.replace(".ensures", ".result")
        code, term = self.steps(inner, indent, suffix)
        self.scope, self.stack = outer, stack
        more, rest_term = self.steps(rest, indent, suffix)
        return indent + line + "\n" + code + more, joined("meets_found", family, found, term, rest_term)

    def do_with_leaf(self, step, rest, indent, suffix):
        return self.in_scope(SCOPES[step[0], len(step[1])], step, step[1], step[2], rest, indent, suffix)

    do_with_these = do_with_leaf

    def do_with_args(self, step, rest, indent, suffix):
        name = "with_%s_arguments" % SORTS[name_of(step[1])]
        path_of(step[2], 1)
        return self.in_scope(name, step, step[2], step[3], rest, indent, suffix)
