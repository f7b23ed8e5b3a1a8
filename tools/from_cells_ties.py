"""What ties the functions of demangle_nodes_from_cells into one recursion, and proofs beside them."""
from from_cells import REFUSED, made
from written import antt_uses, comment, snake

CRATE = "demangle_nodes_from_cells"
FIVE = ("Expression", "TemplateArg", "Name", "Encoding", "MangledName")
SAID = {"Expression": "An expression, ABI section 5.1.6.", "TemplateArg": "An argument of a template, ABI section 5.1.2.",
        "Name": "A name with its scope, ABI section 5.1.2.",
        "Encoding": "A function, a variable or what the compiler makes, ABI section 5.1.2.",
        "MangledName": "A whole mangled name, ABI section 5.1.2."}
GHOST = """ghost use Rattle.std.specs.Prelude.{%s};
ghost use Rattle.demangle_text.specs.declared.error.Error.TheVariants.{OutOfMemory};
ghost use Rattle.demangle_core.specs.Core.{Core};
ghost use Rattle.demangle_nodes.specs.TreeNodes.{tree_of_encoding, tree_of_expression, tree_of_mangled_name};
ghost use Rattle.demangle_nodes.specs.TreeNodes.{tree_of_name, tree_of_template_arg};
ghost use Rattle.demangle_cells.specs.View.{Holds, view};
"""
TYPES = "demangle_entries::{Encoding, Expression, MangledName, Name, TemplateArg}"
CODE = """
use demangle_cells::Arena;
use %s;
use demangle_text::%s;
use std::alloc::Global;
"""


def method(kind, ahead="    "):
    return "%sfn %s(self, alloc: Global, arena: &Arena, id: u32) -> Result<%s>" % (ahead, snake(kind), kind)


def indented(text):
    return "".join("    " + line + "\n" for line in text.rstrip("\n").split("\n"))


def below():
    methods = "\n".join("    /// %s\n%s\n        requires can { can self }\n%s%s" % (
        SAID[kind], method(kind), indented(made("tree_of_%s n" % snake(kind))),
        indented(REFUSED).rstrip("\n") + ";\n") for kind in FIVE)
    return "//! What a function that makes a node knows of the nodes below it.\n\n" + \
        GHOST % "◌≡◌, ℕ, IfErr, IfOk" + CODE % (TYPES, "Result") + """
/// The five types through which every cycle of node types leads. A function that makes a node is handed them, and calls
/// those of all other types by their names. Where a cell isn't that of such a node it is `OutOfMemory`, which is the
/// only refusal.
pub(crate) trait Below: Copy {
    /// That nodes may be made at all.
    ghost can: { Self → Type 0 };

%s}
""" % methods


def tied():
    names = {"Expression": "MakeExpression", "TemplateArg": "MakeArgument", "Name": "MakeName",
             "Encoding": "MakeEncoding", "MangledName": "MakeMangledName"}
    parameters = ", ".join(names[kind] for kind in FIVE)
    fields = "".join("    /// %s\n    pub(crate) %s: %s,\n" % (SAID[kind], snake(kind), names[kind]) for kind in FIVE)
    bounds = "".join("    %s: FnOnce(Global, &Arena, u32) -> Result<%s> + Copy,\n" % (names[kind], kind) for kind in FIVE)
    can = "\n        × ".join("MayMake tree_of_%s\n            (%s.pre s.%s) (%s.post s.%s) s.most" % (
        snake(kind), names[kind], snake(kind), names[kind], snake(kind)) for kind in FIVE)
    methods = "\n".join("%s {\n        if id >= self.most {\n            return Err(Error::OutOfMemory);\n        }\n"
                        "        (self.%s)(alloc, arena, id)\n    }\n" % (method(kind), snake(kind)) for kind in FIVE)
    return "//! Nodes below as functions that are passed by name.\n\n" + \
        "ghost use Rattle.%s.specs.MayMake.{MayMake};\n" % CRATE + \
        "ghost use Rattle.demangle_nodes.specs.TreeNodes.{tree_of_encoding, tree_of_expression, tree_of_mangled_name};\n" \
        "ghost use Rattle.demangle_nodes.specs.TreeNodes.{tree_of_name, tree_of_template_arg};\n" + \
        "\nuse crate::below::Below;" + CODE % (TYPES, "{Error, Result}") + """
/// Five functions, each of which makes its node out of a cell with a lower index than `most`; the parts of a cell have
/// lower indexes than it has. A function that is passed by name holds no data, so this is no larger than `most`.
#[derive(Clone, Copy)]
pub(crate) struct Tied<%s> {
    /// A higher index than that of any node below.
    pub(crate) most: u32,
%s}

impl<%s> Below for Tied<%s>
where
%s{
    ghost can = { λ s.
        %s };

%s}
""" % (parameters, fields, parameters, parameters, bounds, can, methods)


def tie():
    fields = "".join("        %s: %s_from,\n" % (snake(kind), snake(kind)) for kind in FIVE)
    functions = "\n".join(
        "%s#[cycle(tie)]\npub fn %s_from(alloc: Global, arena: &Arena, id: u32) -> Result<%s>\n%s%s{\n"
        "    let below = Tied {\n        most: id,\n%s    };\n    %s_by(below, alloc, arena, id)\n}\n" % (
            comment(SAID[kind] + " Another cell is refused as `OutOfMemory`, the only refusal."), snake(kind), kind,
            made("tree_of_%s n" % snake(kind)), REFUSED, fields, snake(kind)) for kind in FIVE)
    return "//! The five types through which every cycle of node types leads, tied into one recursion.\n\n" + \
        GHOST % "◌≡◌, ℕ, IfErr, IfOk" + """
use crate::arguments::template_arg_by;
use crate::expressions::expression_by;
use crate::names::{encoding_by, mangled_name_by, name_by};
use crate::tied::Tied;""" + CODE % (TYPES, "Result") + "\n" + functions


def whole():
    methods = "\n".join("%s {\n        %s_from(alloc, arena, id)\n    }\n" % (method(kind), snake(kind)) for kind in FIVE)
    return "//! The nodes below, of any index.\n\nghost use Rattle.std.specs.Prelude.{ℕ};\n" + """
use crate::below::Below;
use crate::tie::{encoding_from, expression_from, mangled_name_from, name_from, template_arg_from};""" + \
        CODE % (TYPES, "Result") + """
/// Makes nodes of any index.
#[derive(Clone, Copy)]
pub(crate) struct Whole;

impl Below for Whole {
    ghost can = { λ s. Unit {0} };

%s}
""" % methods


PARTS = """//! What is let go where a later part is refused.

ghost use Rattle.std.specs.Prelude.{◌≡◌, ◌++◌, ◌∷◌, [], IfErr, IfOk, Ok, Err, OnErr};
ghost use Rattle.demangle_text.specs.declared.error.Error.TheVariants.{OutOfMemory};
ghost use Rattle.demangle_nodes_from_cells.specs.Memory.{OfMemory};

use demangle_discard::Discard;
use demangle_text::{Error, Result};
use std::alloc::Global;

/// What was made, in a box.
pub(crate) fn boxed<A: Discard>(alloc: Global, value: Result<A>) -> Result<Box<A>>
    requires { OfMemory value }
    ensures inside { IfOk result (λ r. value ≡ Ok r.value) }
    ensures refused { IfErr result (λ e. e ≡ OutOfMemory) }
{
    match Box::new(alloc, value?) {
        Ok(value) => Ok(value),
        Err(refused) => {
            refused.value.discard();
            Err(Error::OutOfMemory)
        }
    }
}

/// What is held beside the next.
pub(crate) fn kept<A: Discard, B>(held: A, next: Result<B>) -> Result<(A, B)>
    requires { OfMemory next }
    ensures first { IfOk result (λ r. r.0 ≡ held) }
    ensures second { IfOk result (λ r. next ≡ Ok r.1) }
    ensures refused { IfErr result (λ e. e ≡ OutOfMemory) }
{
    match next {
        Ok(next) => Ok((held, next)),
        Err(error) => {
            held.discard();
            Err(error)
        }
    }
}

/// The list with the next at its end.
pub(crate) fn grown<A: Discard>(list: Vec<A>, next: A) -> Result<Vec<A>>
    ensures made { IfOk result (λ r. r.items ≡ list.items ++ next ∷ []) }
    ensures refused { IfErr result (λ e. e ≡ OutOfMemory) }
{
    let mut list = list;
    match list.push(next) {
        Ok(()) => Ok(list),
        Err(refused) => {
            refused.value.discard();
            list.discard();
            Err(Error::OutOfMemory)
        }
    }
}
"""
MAY_MAKE = """-- What is asked of a function that makes nodes.
use Rattle.std.specs.Prelude.{◌≡◌, ℕ, ◌<◌, Result, IfErr, IfOk}
use Rattle.std.specs.Borrow.{Bor}
use Rattle.std.specs.declared.alloc.Global.{Global}
use Rattle.demangle_text.specs.declared.error.Error.{Error}
use Rattle.demangle_text.specs.declared.error.Error.TheVariants.{OutOfMemory}
use Rattle.demangle_core.specs.Core.{Core}
use Rattle.demangle_cells.specs.View.{Holds, view}
use Rattle.demangle_cells.specs.declared.arena.Arena.{Arena}

-- when a function may be called, and what it may have answered
abbrev pub Before : Type 1
Before = Global → Bor Arena → ℕ → Type 0

abbrev pub After : Type 0 → Type 1
After A = Global → Bor Arena → ℕ → Result A Error → Type 0

-- It may be called with an index below `most`, and makes the node of this tree.
pub record MayMake {A : Type 0} (tree : A → Core) (pre : Before) (post : After A) (most : ℕ) : Type 0 where
  pub may : (g : Global) (a : Bor Arena) (i : ℕ) → i < most → pre g a i
  pub makes : (g : Global) (a : Bor Arena) (i : ℕ) (r : Result A Error) → post g a i r
      → IfOk r (λ n. (F : ℕ → Core) → Holds F (view a.now) → F i ≡ tree n)
  pub refuses : (g : Global) (a : Bor Arena) (i : ℕ) (r : Result A Error) → post g a i r
      → IfErr r (λ e. e ≡ OutOfMemory)
"""
MEMORY = """-- Answers whose only refusal is want of memory.
use Rattle.std.specs.Prelude.{◌≡◌, Result, IfErr}
use Rattle.demangle_text.specs.declared.error.Error.{Error}
use Rattle.demangle_text.specs.declared.error.Error.TheVariants.{OutOfMemory}

abbrev pub OfMemory : {A : Type 0} → Result A Error → Type 0
OfMemory r = IfErr r (λ e. e ≡ OutOfMemory)
"""
HELD = """-- What holds of an answer holds of what is inside of it.
use Rattle.std.proofs.Common.{◌≡◌, subst, Ok}
use Rattle.std.specs.Prelude.{Result, IfOk}
use Rattle.demangle_text.specs.declared.error.Error.{Error}

pub holds_of : {A : Type 0} (P : A → Type 0) (r : Result A Error) (x : A) → r ≡ Ok x → IfOk r P → P x
holds_of P r x e h = subst (λ r. IfOk r P) e h
"""
NODE = """-- A node by the tag of its cell and the indexes of its parts.
use Rattle.std.specs.Prelude.{ℕ, List}
use Rattle.demangle_core.specs.Core.{Core, node, end}
use Rattle.demangle_cells.specs.Cells.{row}
use Rattle.demangle_cells.specs.Tags.{tag_of}
use Rattle.demangle_cells.specs.declared.tag.Tag.{Tag}

abbrev pub node_of : (ℕ → Core) → Tag → List ℕ → Core
node_of F tag ids = node (tag_of tag) (row F ids) end
"""


def modules():
    return {"below": below(), "tied": tied(), "tie": tie(), "whole": whole(), "parts": PARTS}


def proofs():
    measures = "use Rattle.%s.proofs.tie.+tie.Given as goal\n" % CRATE + "".join(
        "\nabbrev pub decreases-%s_from : goal.decreases-%s_from\ndecreases-%s_from l = l.id\n" % ((snake(kind),) * 3)
        for kind in FIVE)
    return {"specs/Lib.antt": "pub mod MayMake\npub mod Memory\npub mod Node\n", "specs/MayMake.antt": MAY_MAKE,
            "specs/Memory.antt": MEMORY, "specs/Node.antt": NODE,
            "proofs/Lib.antt": "mod Held\n", "proofs/Held.antt": HELD,
            "proofs/tie/+tie/Invariants.antt": measures, **tied_proofs()}


def tied_proofs():
    """That what a function answers is what is asked of the method that calls it."""
    found = {}
    for at, kind in enumerate(FIVE):
        head = "use Rattle.%s.proofs.tied.TiedBelow.%s.Goals as goal\n" % (CRATE, snake(kind))
        found["proofs/tied/TiedBelow/%s/Answers.antt" % snake(kind)] = head + """
pub returns-clause-made : goal.returns-clause-made
returns-clause-made g c = c.requires.can.%d.makes _ _ _ _ c.call_once.ensures

pub returns-clause-refused : goal.returns-clause-refused
returns-clause-refused g c = c.requires.can.%d.refuses _ _ _ _ c.call_once.ensures
""" % (at, at)
    return found


def list_proofs(crate, kind, name):
    """The invariant of the loop of a list, and that it is kept."""
    leaves = [head + snake(kind) for head in ("tag_of_", "parts_of_")]
    known = antt_uses("demangle_nodes.specs.TreeNodes", leaves)
    lines = antt_uses("std.proofs.Common", ["◌≡◌", "ℕ", "take"])
    lines += antt_uses("demangle_core.specs.Core", ["Core", "trees"]) + known
    lines += antt_uses("demangle_cells.specs.Cells", ["row"]) + antt_uses("demangle_cells.specs.View", ["Holds", "view"])
    lines.append("use Rattle.%s.proofs.lists.%s.Given as goal" % (crate, name))
    keeps = "-- What was made is the front of the row.\n" + "\n".join(lines) + """

abbrev pub invariant-loop-id : goal.invariant-loop-id
invariant-loop-id g l = (F : ℕ → Core) → Holds F (view l.arena)
    → row F (take l.id-index l.ids)
    ≡ trees %s l.list.items
""" % " ".join(leaves)
    lines = antt_uses("std.proofs.Common", ["rules"]) + antt_uses("std.proofs.lemmas.List", ["take_more"]) + known
    lines += antt_uses("demangle_leaves_from_cells.proofs.Rows", ["tree_more"])
    lines += antt_uses(crate + ".proofs.Held", ["holds_of"])
    lines.append("use Rattle.%s.proofs.lists.%s.Goals as goal" % (crate, name))
    call = snake(kind) + ("" if kind in FIVE else "_by")
    answers = "\n".join(lines) + """

pub loop-id-preserved : goal.loop-id-preserved
loop-id-preserved g c = λ F h. tree_more %s
    F c.args.ids.now c.loop-id.id-index _ c.loop-id.list.items c.in_ok-list.list.items c.in_ok-held.next
    (search rules) (search (rules, take_more)) (c.loop-id.invariant F h)
    (holds_of _ _ _ c.in_ok-held.ensures.second c.%s.ensures.made F h)
""" % (" ".join(leaves), call)
    return keeps, answers
