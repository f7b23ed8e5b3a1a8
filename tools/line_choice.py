"""The choice of a node's line by the number of its tag (write_lines.py): blocks of numbers, each a function."""
import re

import antt
import line_terms
import line_uses

CRATE = "demangle_lines_nodes"
A_BLOCK = 16
# where the numbers of lines of a first part are divided
PASSING = 100
PAGES = "(page T.tree T.table W.seen ctx.old) (page T.tree T.table W.seen ctx.new)"
SCOPE = "(lent_scope T.tree scope.entry)"
PARAMETERS = ["below: B", "number: u8", "tree: T", "scope: Option<&Scope<'_, T>>", "ctx: &mut Context<'s, '_, T, S, W>"]
USES = """ghost use Rattle.std.specs.Prelude.{◌≡◌, ◌/◌};
ghost use Rattle.demangle_printing.specs.Lines.{line_steps};
ghost use Rattle.demangle_context.specs.PageOf.{page};
ghost use Rattle.demangle_lines.specs.Does.{Runs};
ghost use Rattle.demangle_lines.specs.ScopeOf.{lent_scope};
ghost use Rattle.demangle_lines_nodes.specs.Tags.{tag_at};

"""
PROOF = """use Rattle.std.proofs.Common.{◌≡◌, ◌/◌, ◌+◌, ◌<◌, ◌≤◌, ap, arith, refl}
use Rattle.demangle_printing.specs.Lines.{line_steps}
use Rattle.demangle_meets.proofs.Acts.{meets_block, meets_done}
use Rattle.demangle_lines.proofs.Doing.{runs_as}
use Rattle.demangle_lines_nodes.specs.Tags.{tag_at}
use Rattle.demangle_lines_nodes.proofs.Steps.{no_tag}
use Rattle.demangle_lines_nodes.proofs.%s.%s.Goals as goal
"""


def tags():
    """All tags, in the order of their numbers."""
    with open(antt.specs("demangle_core", "Core.antt")) as source:
        found = re.findall(r"^code (\w+) = (\d+)$", source.read(), re.M)
    return [name for name, _ in sorted(found, key=lambda pair: int(pair[1]))]


class Choice:
    """`functions` has for each list of steps the function that does it, and its crate."""

    def __init__(self, data, functions, first_part):
        self.data, self.functions, self.first_part = data, functions, first_part
        self.tags = tags()
        self.count = -(-len(self.tags) // A_BLOCK)

    def arm(self, number):
        """The code of an arm, its function and the crate of this."""
        steps = self.data.steps.get("line " + self.tags[number])
        if not steps:
            return "{}", None, None
        if steps == self.first_part:
            return "part(below, tree, 0, scope, ctx)", "part", "demangle_lines"
        crate, name = self.functions[repr(steps)]
        return "%s(below, tree, scope, ctx)" % name, name, crate

    def block(self, number):
        """A function of the lines of sixteen numbers: its code, its answers, and what it calls."""
        first = number * A_BLOCK
        numbers = range(first, min(first + A_BLOCK, len(self.tags)))
        arms, answers, called = "", [], []
        for at in numbers:
            code, name, crate = self.arm(at)
            arms += "        %d => %s,\n" % (at, code)
            again = "-in-%d" % at if (crate, name) in called else ""
            called.append((crate, name))
            called_so = "c.%s%s.ensures" % (name, again)
            done = {None: "(record { meets = meets_done })",
                    "part": "(record { meets = meets_block %s meets_done })" % called_so}.get(name, called_so)
            own = name == line_terms.snake(self.tags[at])
            same = "(ap (λ z. line_steps (tag_at z)) c.in-%d.is)" % at
            answers.append(("returns-in-%d" % at, "%s %s %s" % ("runs_own" if own else "runs_as", same, done)))
        answers.append(("returns-in_default", default_term(numbers, len(self.tags))))
        body = "    match number {\n%s        _ => {}\n    }\n" % arms
        clauses = ["requires can { B.can below }", "requires block { number / %d ≡ %d }" % (A_BLOCK, number)]
        doc = "The lines of the nodes whose tags have the numbers from %d on." % first
        code = line_code("pub(crate) fn", "block_%d" % number, doc, clauses, body, "#[inline(always)]")
        return code, answers, [pair for pair in called if pair[0]]

    def top(self):
        """The function that chooses the block."""
        size, last = len(self.tags), self.count - 1
        arms = "".join("        %d => block_%d(below, number, tree, scope, ctx),\n" % (at, at) for at in range(last))
        body = ("    if is_first_part(number) {\n        first_part(below, tree, scope, ctx);\n        return;\n    }\n"
                "    if number >= %d {\n        return;\n    }\n    match number / %d {\n%s"
                "        _ => block_%d(below, number, tree, scope, ctx),\n    }\n") % (size, A_BLOCK, arms, last)
        doc = "The line of a node whose tag has this number, its level entered."
        code = line_code("pub fn", "line_by_tag", doc, ["requires { B.can below }"], body, "#[inline(always)]")
        answers = [("returns-then-is_first_part", "runs_as (c.is_first_part.ensures c.if-is_first_part.true) (record { "
                    "meets = meets_block c.first_part.ensures meets_done })"),
                   ("returns-then-number-ge%d" % size, "no_tag c.args.number c.if-number-ge%d.true" % size)]
        answers += [("returns-in-%d" % at, "c.block_%d.ensures" % at) for at in range(last)]
        met = "λ k. ((refl, tt), (c.requires, %s))"
        answers += [("block_%d-requires" % at, met % ("c.in-%d.is" % at)) for at in range(last)]
        left = met % ("omega (arith, c.in_default, c.if-number-ge%d.false)" % size)
        answers.append(("block_%d-requires" % last, left))
        answers.append(("returns-in_default", "c.block_%d.ensures" % last))
        return code, answers

    def passing(self):
        """The functions that tell whether a line is that of the first part, and their answers."""
        numbers = [at for at, tag in enumerate(self.tags) if self.data.steps.get("line " + tag) == self.first_part]
        lower, upper = [at for at in numbers if at < PASSING], [at for at in numbers if at >= PASSING]
        doc = "Whether the line of a node whose tag has this number is that of its first part."
        code = passing_code("is_first_part", doc, (
            "    if number < %d {\n        is_lower_first_part(number)\n    } else {\n"
            "        is_upper_first_part(number)\n    }\n") % PASSING)
        files, answers = [code], {}
        for name, chosen in (("is_lower_first_part", lower), ("is_upper_first_part", upper)):
            arms = "".join("        %d => true,\n" % at for at in chosen)
            files.append(passing_code(name, "The same of some of the numbers.",
                                      "    match number {\n%s        _ => false,\n    }\n" % arms))
            answers[name] = [("returns-in-%d" % at, "λ _. ap (λ z. line_steps (tag_at z)) c.in-%d.is" % at) for at in chosen]
        return "\n".join(files), answers

    def inside(self):
        """The function of what stands behind an item: its code, its answers, and what it calls."""
        arms, answers, called = "", [], [("demangle_lines_inner", "tag_of")]
        for at, tag in enumerate(self.tags):
            steps = self.data.steps.get("inside " + tag)
            if tag == "CvQualifiers":
                steps = self.data.steps["line " + tag]
            if steps is None and tag != "EncodingFunction":
                continue
            crate, name = self.behind(tag, steps)
            call = "part(below, item, 0, scope, ctx)" if name == "part" else "%s(below, item, scope, ctx)" % name
            again = "-in-%d" % at if (crate, name) in called else ""
            called.append((crate, name))
            arms += "        %d => %s,\n" % (at, call)
            done = "c.%s%s.ensures" % (name, again)
            same = "(sym c.in-%d.is ∙ c.tag_of-number.ensures)" % at
            if name == "part":
                done = "(record { meets = meets_block %s meets_done })" % done
            lemma = "function_behind" if tag == "EncodingFunction" else "item_behind %d" % at
            rest = "" if tag == "EncodingFunction" else " refl"
            answers.append(("returns-in-%d" % at, "%s %s%s %s" % (lemma, same, rest, done)))
        numbers = [goal[len("returns-in-"):] for goal, _ in answers]
        nots = " ".join("(λ e. omega (arith, c.in_default, c.tag_of-number.ensures, e))" for _ in numbers)
        answers.append(("returns-in_default", "nothing_behind %s" % nots))
        self.behind_numbers = [int(number) for number in numbers]
        body = "    let number = tag_of(below, item);\n    match number {\n%s        _ => {}\n    }\n" % arms
        done = "Inside (B.at below) %s (T.tree item) %s" % (PAGES, SCOPE)
        parameters = ["below: B", "item: T", *PARAMETERS[3:]]
        doc, clauses = "What of an item stands behind, its level entered.", ["requires { B.can below }", "ensures { %s }" % done]
        return line_terms.function("pub fn", "item_inside", doc, parameters, "", clauses, body), answers, called

    def behind(self, tag, steps):
        if tag == "EncodingFunction":
            return "demangle_lines_inner", "function_inside"
        if steps == self.first_part:
            return "demangle_lines", "part"
        if tag == "CvQualifiers":
            return self.functions[repr(steps)]
        return "demangle_lines_inner", line_terms.snake(tag) + "_inside"

    def files(self):
        """All files that are written."""
        files, modules = {}, ["blocks_%d" % at for at in range(self.count)]
        for at, module in enumerate(modules):
            code, answers, called = self.block(at)
            files["src/%s.rt" % module] = "//! Lines of nodes, by the numbers of their tags.\n\n%s%s\n%s" % (
                USES, uses_of(called), code)
            files["proofs/%s/block_%d/Answers.antt" % (module, at)] = proof(module, "block_%d" % at, answers)
        code, answers = self.top()
        own = "".join("use crate::%s::block_%d;\n" % (module, at) for at, module in enumerate(modules))
        called, (passing, passed) = [("demangle_lines", "first_part")], self.passing()
        files["src/nodes.rt"] = "//! The line of any node.\n\n%s%s%s\n%s\n%s" % (
            NODES_USES, own, uses_of(called), passing, code)
        for name, some in passed.items():
            files["proofs/nodes/%s/Answers.antt" % name] = passing_proof(name, some)
        files["proofs/nodes/line_by_tag/Answers.antt"] = proof("nodes", "line_by_tag", answers)
        code, answers, called = self.inside()
        files["src/insides.rt"] = "//! What stands behind any item.\n\n%s%s\n%s" % (INSIDE_USES, uses_of(called), code)
        files["proofs/insides/item_inside/Answers.antt"] = inside_proof(answers)
        files["proofs/Nothing.antt"] = nothing_text(self.tags, self.behind_numbers)
        files["specs/Tags.antt"] = tags_text(self.tags)
        files["src/lib.rt"] = ROOT % "".join("mod %s;\n" % module for module in sorted(modules + BESIDE))
        files["specs/Lib.antt"], files["proofs/Lib.antt"] = "pub mod Tags\n", "pub mod Steps\npub mod Behind\npub mod Nothing\npub mod TreeLines\n"
        return files


def passing_code(name, doc, body):
    done = "ensures { result ≡ true → line_steps (tag_at number) ≡ Step.line (0 ∷ []) Step.done }"
    return "/// %s\n#[inline(always)]\nfn %s(number: u8) -> bool\n    %s\n{\n%s}\n" % (doc, name, done, body)


def passing_proof(name, answers):
    text = PASSING_PROOF % name
    for goal, term in answers:
        text += "\npub %s : goal.%s\nunfolding tag_at line_steps\n%s c = %s\n" % (goal, goal, goal, term)
    return text


BESIDE = ["insides", "nodes", "trees"]
ROOT = """//! The line of any node, chosen by the number of its tag, and what stands behind any item.
#![tactic(auto)]

%s
pub use insides::item_inside;
pub use nodes::line_by_tag;
pub use trees::{leaf_inside, tree_line};
"""
NODES_USES = """ghost use Rattle.std.specs.Prelude.{◌≡◌, ◌∷◌, [], true};
ghost use Rattle.demangle_printing.specs.Lines.{line_steps};
ghost use Rattle.demangle_printing.specs.Step.{Step};
ghost use Rattle.demangle_context.specs.PageOf.{page};
ghost use Rattle.demangle_lines.specs.Does.{Runs};
ghost use Rattle.demangle_lines.specs.ScopeOf.{lent_scope};
ghost use Rattle.demangle_lines_nodes.specs.Tags.{tag_at};

"""
PASSING_PROOF = """use Rattle.std.proofs.Common.{ap}
use Rattle.demangle_printing.specs.Lines.{line_steps}
use Rattle.demangle_lines_nodes.specs.Tags.{tag_at}
use Rattle.demangle_lines_nodes.proofs.nodes.%s.Goals as goal
"""
INSIDE_USES = """ghost use Rattle.demangle_meets.specs.Meets.{Inside};
ghost use Rattle.demangle_context.specs.PageOf.{page};
ghost use Rattle.demangle_lines.specs.ScopeOf.{lent_scope};

"""
INSIDE_PROOF = """use Rattle.std.proofs.Common.{◌≡◌, ◌∙◌, arith, refl, sym}
use Rattle.demangle_printing.specs.Lines.{inside_steps, line_steps}
use Rattle.demangle_meets.proofs.Acts.{meets_block, meets_done}
use Rattle.demangle_lines_nodes.specs.Tags.{tag_at}
use Rattle.demangle_lines_nodes.proofs.Behind.{function_behind, item_behind}
use Rattle.demangle_lines_nodes.proofs.Nothing.{nothing_behind}
use Rattle.demangle_lines_nodes.proofs.insides.item_inside.Goals as goal
"""


NOTHING = """-- Nothing stands behind an item of another tag.
use Rattle.std.proofs.Common.{◌≡◌, ◌==◌, false, refl}
use Rattle.demangle_core.specs.Core.{Core, Tag, code}
use Rattle.demangle_printing.specs.Lines.{inside_steps}
use Rattle.demangle_printing.specs.Rules.{tag}
use Rattle.demangle_printing.specs.Scope.{Scope}
use Rattle.demangle_printing.specs.Step.{Step}
use Rattle.demangle_meets.specs.Page.{Page}
use Rattle.demangle_meets.specs.Place.{Place, world_of}
use Rattle.demangle_meets.specs.Meets.{Inside}
use Rattle.demangle_meets.proofs.Acts.{meets_done}
use Rattle.demangle_lines.proofs.Doing.{runs_as}
use Rattle.demangle_lines_nodes.proofs.Behind.{own_steps}

no_function : (t : Tag) → (code t ≡ 71 → ⊥) → (code t == 71) ≡ false
no_function Tag.EncodingFunction h = absurd (h refl)
no_function _ h = refl
"""


def nothing_text(names, numbers):
    """The lemma on all other tags."""
    premises = ["(%%s ≡ %d → ⊥)" % number for number in numbers]
    proofs = ["h%d" % number for number in numbers]
    given = " → ".join(premise % "code t" for premise in premises)
    text = NOTHING + "\n%s\nunfolding inside_steps\n" % line_terms.wrapped(
        "nothing_steps : (t : Tag) → %s → inside_steps t ≡ Step.done" % given, "    ")
    for number in numbers:
        if number != 71:
            text += line_terms.wrapped("nothing_steps Tag.%s %s = absurd (h%d refl)" % (
                names[number], " ".join(proofs), number), "    ") + "\n"
    text += line_terms.wrapped("nothing_steps _ %s = refl" % " ".join(proofs), "    ") + "\n"
    given = " → ".join(premise % "code (tag (world_of p.refers) x)" for premise in premises)
    text += "\n" + line_terms.wrapped("pub nothing_behind : {p : Place} {a : Page} {x : Core} {sc : Scope Core} → %s → "
                                      "Inside p a a x sc" % given, "    ")
    return text + "\n" + line_terms.wrapped(
        "nothing_behind {p} {x = x} %s = own_steps (no_function (tag (world_of p.refers) x) h71) (runs_as (nothing_steps "
        "(tag (world_of p.refers) x) %s) (record { meets = meets_done }))" % (" ".join(proofs), " ".join(proofs)), "    ") + "\n"


def inside_proof(answers):
    text = INSIDE_PROOF
    for goal, term in answers:
        unfolded = "unfolding tag_at line_steps inside_steps\n" if term.startswith("item_behind") else ""
        text += "\npub %s : goal.%s\n%s%s g c = %s\n" % (goal, goal, unfolded, goal, line_terms.wrapped(term, "    "))
    return text


def line_code(head, name, doc, clauses, body, hint=None):
    done = "Runs (B.at below) %s (T.tree tree) %s (line_steps (tag_at number))" % (PAGES, SCOPE)
    return line_terms.function(head, name, doc, PARAMETERS, "", clauses + ["ensures { %s }" % done], body, hint)


def uses_of(called):
    crates = {"demangle_context": {"Context", "DemangleWrite"}, "demangle_lines": {"Below", "Scope", "Tree"}}
    for crate, name in called:
        crates.setdefault(crate, set()).add(name)
    return "".join(line_uses.rust_use(crate, names) for crate, names in sorted(crates.items()))


def proof(module, function, answers):
    text = PROOF % (module, function)
    for goal, term in answers:
        unfolded = {"runs_as": "unfolding tag_at line_steps\n", "runs_own": "unfolding tag_at\n"}.get(term.split()[0], "")
        term = term.replace("runs_own", "runs_as")
        text += "\npub %s : goal.%s\n%s%s g c = %s\n" % (goal, goal, unfolded, goal, term)
    return text


def default_term(numbers, size):
    """That no other number is in the block, or that no tag has one."""
    found = "omega (arith, c.requires.block, c.in_default)"
    return ("no_tag c.args.number (%s)" if numbers[-1] + 1 == size else "absurd (%s)") % found


def tags_text(names):
    rows = line_terms.wrapped(" ∷ ".join("Tag." + name for name in names) + " ∷ []", "    ")
    return """-- Tags by their numbers.
use Rattle.std.specs.Prelude.{ℕ, zero, suc, List, [], ◌∷◌}
use Rattle.demangle_core.specs.Core.{Tag}

abbrev pub all_tags : List Tag
all_tags =
    %s

abbrev pub nth_tag : ℕ → List Tag → Tag
nth_tag n [] = Tag.Absent
nth_tag zero (t ∷ ts) = t
nth_tag (suc n) (t ∷ ts) = nth_tag n ts

unfoldable pub tag_at : ℕ → Tag
tag_at n = nth_tag n all_tags
""" % rows
