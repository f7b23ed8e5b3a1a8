"""The functions of demangle_leaves_from_cells."""
import re

import node_types
from from_cells import NOTHING, PLAIN, REFUSED, article, built, inner, made, names_of, pattern, reader, uses
from node_types import WORDS
from written import antt_uses, code_use, comment, snake

CRATE = "demangle_leaves_from_cells"
HANDLES = ("Substitution", "PrefixHandle", "UnscopedTemplateNameHandle", "TemplateTemplateParamHandle",
           "UnresolvedTypeHandle", "TypeHandle", "BuiltinType", "QualifiedBuiltin", "ParametricBuiltinType",
           "OperatorName", "CtorDtorName", "PointerToMemberType")
# what lists hold, and which parts may be missing
LISTS = ("AbiTag", "TypeHandle", "isize", "CloneSuffix", "ResourceName")
OPTIONS = ("usize", "isize", "Discriminator", "RefQualifier", "PrefixHandle", "TypeHandle")
# words in one function, at most
ROW = 30
KNOWN = {
    "std.specs.Prelude": "◌≡◌ ◌∷◌ [] ℕ IfOk IfErr IfSome",
    "demangle_core.specs.Core": "Core Tag node end flag place trees numbers",
    "demangle_cells.specs.View": "view Holds",
    "demangle_leaves_from_cells.specs.Lists": "several",
    "demangle_cells.specs.Cells": "row",
    "demangle_text.specs.declared.error.Error.TheVariants": "OutOfMemory",
    "demangle_vocab.specs.Operators": "number_of_operator",
    "demangle_vocab.specs.Builtins": "number_of_builtin",
    "demangle_vocab.specs.Components": "number_of_component",
    "demangle_vocab.specs.Qualifiers": "number_of_ref_qualifier number_of_explicit_object",
}
PARTS = '''
/// A number that isn't below zero. Another cell is refused as `OutOfMemory`, the only refusal.
pub fn count_from(arena: &Arena, id: u32) -> Result<usize>
%s%s{
    match arena.cell(id) {
        Some(Plain::Counted(number)) => Ok(number),
        Some(Plain::Number(number)) => if number >= 0 {
            Ok(number as usize)
        } else {
            Err(Error::OutOfMemory)
        },
        %s
    }
}

/// A number. Another cell is refused as `OutOfMemory`, the only refusal, and so is a number of 2^63 or more.
pub fn number_from(arena: &Arena, id: u32) -> Result<isize>
%s%s{
    match arena.cell(id) {
        Some(Plain::Number(number)) => Ok(number),
        Some(Plain::Counted(number)) => if number <= isize::MAX as usize {
            Ok(number as isize)
        } else {
            Err(Error::OutOfMemory)
        },
        %s
    }
}

/// A number below 256. Another cell is refused as `OutOfMemory`, the only refusal.
pub fn byte_from(arena: &Arena, id: u32) -> Result<u8>
%s%s{
    let number = count_from(arena, id)?;
    if number <= u8::MAX as usize {
        Ok(number as u8)
    } else {
        Err(Error::OutOfMemory)
    }
}

/// A flag. Another cell is refused as `OutOfMemory`, the only refusal.
pub fn flag_from(arena: &Arena, id: u32) -> Result<bool>
%s%s{
    match arena.cell(id) {
        Some(Plain::Flag(set)) => Ok(set),
        %s
    }
}

/// A place in the input: the index of its first byte, and the index behind its last byte. Another cell is refused as
/// `OutOfMemory`, the only refusal.
pub fn place_from(arena: &Arena, id: u32) -> Result<(usize, usize)>
%s%s{
    match arena.cell(id) {
        Some(Plain::Place(start, end)) => Ok((start as usize, end as usize)),
        %s
    }
}

/// The indexes of a list of four. Of another list it is `OutOfMemory`.
pub fn four_parts(ids: &[u32]) -> Result<(u32, u32, u32, u32)>
    ensures made { IfOk result (λ n. ids.now ≡ n.0 ∷ n.1 ∷ n.2 ∷ n.3 ∷ []) }
%s{
    match ids {
        [first, second, third, fourth] => Ok((*first, *second, *third, *fourth)),
        %s
    }
}

/// The indexes of a list of six: of its first three, and of the others. Of another list it is `OutOfMemory`.
pub fn six_parts(ids: &[u32]) -> Result<((u32, u32, u32), (u32, u32, u32))>
    ensures made { IfOk result (λ n. ids.now ≡ n.0.0 ∷ n.0.1 ∷ n.0.2 ∷ n.1.0 ∷ n.1.1 ∷ n.1.2 ∷ []) }
%s{
    match ids {
        [a, b, c, d, e, f] => Ok(((*a, *b, *c), (*d, *e, *f))),
        %s
    }
}
''' % (made("tree_of_number n"), REFUSED, NOTHING, made("tree_of_signed n"), REFUSED, NOTHING, made("tree_of_number n"),
       REFUSED, made("flag n end"), REFUSED, NOTHING, made("place n.0 n.1 end"), REFUSED, NOTHING,
       REFUSED, NOTHING, REFUSED, NOTHING)

LISTS_SPEC = """-- The node of a list.
use Rattle.demangle_core.specs.Core.{Core, Tag, end, node}

abbrev pub several : Core → Core
several c = node Tag.Several c end
"""

ROWS = """-- Lists that are made out of a row of indexes, one node after the other.
use Rattle.std.proofs.Common.{◌≡◌, refl, ap, ◌∙◌, sym, ℕ, ℤ, ◌+◌, List, [], ◌∷◌, ◌++◌, take}
use Rattle.demangle_core.specs.Core.{Core, Tag, node, end, place, number, flag, chosen, ref, mark, ◌⊕◌, trees, numbers}
use Rattle.demangle_cells.specs.Cells.{row}

joins : (a b c : Core) → (a ⊕ b) ⊕ c ≡ a ⊕ (b ⊕ c)
joins end b c = refl
joins (node t x n) b c = ap (node t x) (joins n b c)
joins (place i j n) b c = ap (place i j) (joins n b c)
joins (number v n) b c = ap (number v) (joins n b c)
joins (flag s n) b c = ap (flag s) (joins n b c)
joins (chosen t k n) b c = ap (chosen t k) (joins n b c)
joins (ref w k n) b c = ap (ref w k) (joins n b c)
joins (mark i n) b c = ap (mark i) (joins n b c)

row_last : (F : ℕ → Core) (ids : List ℕ) (id : ℕ) → row F (ids ++ id ∷ []) ≡ row F ids ⊕ F id
row_last F [] id = refl
row_last F (a ∷ []) id = refl
row_last F (a ∷ b ∷ ids) id = ap (λ c. F a ⊕ c) (row_last F (b ∷ ids) id) ∙ sym (joins (F a) (row F (b ∷ ids)) (F id))

number_last : (xs : List ℤ) (x : ℤ) → numbers (xs ++ x ∷ []) ≡ numbers xs ⊕ number x end
number_last [] x = refl
number_last (y ∷ ys) x = ap (number y) (number_last ys x)

-- a number more
pub number_more : (F : ℕ → Core) (ids : List ℕ) (k : ℕ) (id : ℕ) (xs ys : List ℤ) (x : ℤ) → ys ≡ xs ++ x ∷ []
    → take (k + 1) ids ≡ take k ids ++ id ∷ [] → row F (take k ids) ≡ numbers xs → F id ≡ number x end
    → row F (take (k + 1) ids) ≡ numbers ys
number_more F ids k id xs ys x grown next before made = ap (row F) next ∙ row_last F (take k ids) id
    ∙ ap (λ c. c ⊕ F id) before ∙ ap (λ c. numbers xs ⊕ c) made ∙ sym (number_last xs x) ∙ ap numbers (sym grown)

module _ {A : Type 0} (t : A → Tag) (p : A → Core) where
  tree_last : (xs : List A) (x : A) → trees t p (xs ++ x ∷ []) ≡ trees t p xs ⊕ node (t x) (p x) end
  tree_last [] x = refl
  tree_last (y ∷ ys) x = ap (node (t y) (p y)) (tree_last ys x)

  -- a node more
  pub tree_more : (F : ℕ → Core) (ids : List ℕ) (k : ℕ) (id : ℕ) (xs ys : List A) (x : A) → ys ≡ xs ++ x ∷ []
      → take (k + 1) ids ≡ take k ids ++ id ∷ [] → row F (take k ids) ≡ trees t p xs → F id ≡ node (t x) (p x) end
      → row F (take (k + 1) ids) ≡ trees t p ys
  tree_more F ids k id xs ys x grown next before made = ap (row F) next ∙ row_last F (take k ids) id
      ∙ ap (λ c. c ⊕ F id) before ∙ ap (λ c. trees t p xs ⊕ c) made ∙ sym (tree_last xs x) ∙ ap (trees t p) (sym grown)
"""


def list_proofs(kind):
    trees = trees_of(kind)
    leaves = [] if kind == "isize" else [head + snake(kind) for head in ("tag_of_", "parts_of_")]
    name = reader(kind)[:-5] + "_list_of"
    known = antt_uses("demangle_leaf_nodes.specs.TreeLeaves", leaves)
    lines = antt_uses("std.proofs.Common", ["◌≡◌", "ℕ", "take"])
    lines += antt_uses("demangle_core.specs.Core", ["Core", "numbers" if kind == "isize" else "trees"]) + known
    lines += antt_uses("demangle_cells.specs.Cells", ["row"]) + antt_uses("demangle_cells.specs.View", ["Holds", "view"])
    lines.append("use Rattle.%s.proofs.lists.%s.Given as goal" % (CRATE, name))
    keeps = "-- What was made is the front of the row.\n" + "\n".join(lines) + """

abbrev pub invariant-loop-id : goal.invariant-loop-id
invariant-loop-id l = (F : ℕ → Core) → Holds F (view l.arena)
    → row F (take l.id-index l.ids) ≡ %s
""" % trees.replace("n.items", "l.list.items")
    lemma = "number_more" if kind == "isize" else "tree_more"
    lines = antt_uses("std.proofs.Common", ["rules"]) + antt_uses("std.proofs.lemmas.List", ["take_more"]) + known
    lines += antt_uses(CRATE + ".proofs.Rows", [lemma])
    lines.append("use Rattle.%s.proofs.lists.%s.Goals as goal" % (CRATE, name))
    element = "c.in_ok-%s" % reader(kind)
    answers = "\n".join(lines) + """

pub loop-id-preserved : goal.loop-id-preserved
loop-id-preserved c = λ F h. %s
    F c.args.ids.now c.loop-id.id-index _ c.loop-id.list.items c.push.new.self.items
    %s.field-0 (search rules) (search (rules, take_more)) (c.loop-id.invariant F h)
    (%s.ensures.made F h)
""" % (" ".join([lemma] + leaves), element, element)
    return keeps, answers


def tree_of(kind):
    return PLAIN[kind][1] if kind in PLAIN else "tree_of_" + snake(kind)


def header(name, copy, answer, arguments="arena: &Arena, id: u32"):
    return "pub fn %s(%s%s) -> Result<%s>\n" % (name, "" if copy else "alloc: Global, ", arguments, answer)


# ---- words
def word(name):
    variants, short = node_types.words_of(name), snake(name)
    number = "number_of_" + WORDS[name][1]
    parts = []
    for at in range(0, len(variants), ROW):
        last = at + ROW >= len(variants)
        function = "%s_%s" % (short, "of" if at == 0 else "behind")
        arms = ["%d => Some(%s::%s)," % (at + i, name, v) for i, v in enumerate(variants[at:at + ROW])]
        arms.append("_ => None," if last else "_ => %s_behind(word)," % short)
        what = "The word of this number%s." % ("" if at == 0 else ", from %d on" % at)
        parts.append("%sfn %s(word: u8) -> Option<%s>\n    ensures { IfSome result (λ n. %s n ≡ word) }\n{\n"
                     "match word {\n%s\n}\n}\n" % (comment(what, "//"), function, name, number, "\n".join(arms)))
    table = list(WORDS).index(name)
    public = "%s%s%s%s{\nmatch arena.cell(id) {\n%s\n%s\n}\n}\n" % (
        comment("%s. Another cell is refused as `OutOfMemory`, the only refusal." % article(name)),
        header(reader(name), True, name), made("tree_of_%s n" % short), REFUSED,
        "Some(Plain::Word(%d, word)) => match %s_of(word) {\nSome(found) => Ok(found),\nNone => Err(Error::OutOfMemory),\n},"
        % (table, short), NOTHING)
    return "\n".join(parts + [public])


# ---- types
def is_place(variant):
    return [field.name for field in variant.fields] == ["start", "end"]


class Leaf:
    """The function of a type."""

    def __init__(self, known, kind):
        self.known, self.kind = known, kind

    def owns(self, kind):
        held = inner(kind, "Option") or kind
        return inner(kind, "Vec") is not None or held in self.known and not self.known[held].copy

    def call(self, kind, part):
        return "%s(%sarena, %s)?" % (reader(kind), "alloc, " if self.owns(kind) else "", part)

    def code(self):
        arms = [self.arm(variant) for variant in self.kind.variants] + [NOTHING]
        section = self.kind.section()
        what = "%s out of its cell. Another cell is refused as `OutOfMemory`, the only refusal.%s" % (
            article(self.kind.name), " ABI section %s." % section if section else "")
        return "%s%s%s%s{\nmatch arena.cell(id) {\n%s\n}\n}\n" % (
            comment(what), header(self.kind.snake + "_from", self.kind.copy, self.kind.name),
            made(self.kind.tree + " n"), REFUSED, "\n".join(arms))

    def arm(self, variant):
        if variant.tag == "BackReference":
            return "Some(Plain::Reference(number)) => Ok(%s(number as usize))," % variant.path
        if variant.tag == "NonSubstitution":
            inside = "number as usize" if variant.name is None else "NonSubstitution(number as usize)"
            return "Some(Plain::Other(number)) => Ok(%s(%s))," % (variant.path, inside)
        if is_place(variant):
            return "Some(Plain::One(Tag::%s, place)) => {\nlet (start, end) = place_from(arena, place)?;\n" \
                "Ok(%s { start, end })\n}" % (variant.tag, variant.path)
        names = names_of(variant.fields)
        if len(names) > 3:
            return "Some(Plain::Many(Tag::%s, start, count)) => {\nlet %s = four_parts(arena.indexes(start, count))?;\n%s\n}" % (
                variant.tag, "(%s)" % ", ".join(names), self.value(variant, names, ""))
        return "%s => %s," % (pattern(variant.tag, names), self.value(variant, names, ""))

    def value(self, variant, names, ahead):
        """The node of these parts; what has no memory is read first."""
        fields = list(zip(names, variant.fields))
        owning = [at for at, (_, field) in enumerate(fields) if self.owns(field.kind)]
        early = [at for at in range(len(fields)) if owning and at > owning[0] and at not in owning]
        lets = ["let %s = %s;\n" % (names[at], self.call(fields[at][1].kind, ahead + names[at])) for at in early]
        values = [names[at] if at in early else self.call(field.kind, ahead + name)
                  for at, (name, field) in enumerate(fields)]
        node = "Ok(%s)" % built(variant, values)
        return "{\n%s%s\n}" % ("".join(lets), node) if lets else node


# ---- lists and parts that may be missing
def trees_of(kind):
    return "numbers n.items" if kind == "isize" else "trees tag_of_%s parts_of_%s n.items" % (snake(kind), snake(kind))


def a_list(known, kind):
    name, copy = reader(kind)[:-5] + "_list", kind not in known or known[kind].copy
    each = "%s(%sarena, *id)?" % (reader(kind), "" if copy else "alloc, ")
    front = "%s%s%s%s{\nmatch arena.cell(id) {\nSome(Plain::Empty(Tag::Several)) => Ok(Vec::new(alloc)),\n" \
        "Some(Plain::Many(Tag::Several, start, count)) => %s_of(\nalloc,\narena,\narena.indexes(start, count),\n),\n%s\n}\n}\n" % (
            comment("A list of `%s` out of the cell of its node. Another cell is refused as `OutOfMemory`, the only "
                    "refusal." % kind), header(name + "_from", False, "Vec<%s>" % kind),
            made("several (%s)" % trees_of(kind)), REFUSED, name, NOTHING)
    inside = "%s%s%s%s{\nlet mut list = Vec::new(alloc);\nfor id in ids {\n" \
        "list.push(%s)?;\n}\nOk(list)\n}\n" % (
            comment("The nodes of these indexes.", "//"),
            header(name + "_of", False, "Vec<%s>" % kind, "arena: &Arena, ids: &[u32]")[4:],
            made(trees_of(kind), at="row F ids.now"), REFUSED, each)
    return front + "\n" + inside


def an_option(kind):
    short = reader(kind)[:-5]
    return "%s%s%s%s{\nmatch arena.cell(id) {\nSome(Plain::Empty(Tag::Absent)) => Ok(None),\n" \
        "Some(Plain::One(Tag::Present, %s)) => Ok(Some(%s(arena, %s)?)),\n%s\n}\n}\n" % (
            comment("%s that may be missing. Another cell is refused as `OutOfMemory`, the only refusal." % article(kind)),
            header("optional_%s_from" % short, True, "Option<%s>" % kind), made("tree_of_option %s n" % tree_of(kind)),
            REFUSED, short, reader(kind), short, NOTHING)


# ---- files
def files(types):
    leaves = {kind.name: kind for kind in types if kind.crate == "demangle_leaf_nodes"}
    modules = {"parts": [PARTS.lstrip("\n")], "words": [word(name) for name in WORDS],
               "lists": [a_list(leaves, kind) for kind in LISTS], "options": [an_option(kind) for kind in OPTIONS],
               "leaves": [], "handles": [], "names": []}
    for kind in leaves.values():
        place = "handles" if kind.name in HANDLES else "leaves" if kind.copy else "names"
        modules[place].append(Leaf(leaves, kind).code())
    known = {name: module for module, names in KNOWN.items() for name in names.split()}
    for kind in list(leaves) + list(WORDS):
        for head in ("tree_of_", "tag_of_", "parts_of_"):
            known[head + snake(kind)] = "demangle_leaf_nodes.specs.TreeLeaves"
    for name in ("tree_of_option", "tree_of_number", "tree_of_signed"):
        known[name] = "demangle_leaf_nodes.specs.TreeLeaves"
    about = {"parts": "Parts that are no nodes: numbers, flags, places.", "words": "Words of the tables.",
             "lists": "Lists.", "options": "Parts that may be missing.",
             "leaves": "Node types of numbers, flags and places alone.",
             "handles": "References, builtin types, operators, constructors, pointers to members.",
             "names": "Node types that own memory."}
    return assembled(modules, about, known, leaves)


def functions(code):
    """The public functions of a module."""
    return re.findall(r"^pub fn (\w+)", code, re.M)


def assembled(modules, about, known, leaves):
    """The files of the crate."""
    where = {name: module for module, parts in modules.items() for name in functions("\n".join(parts))}
    made_files = {}
    for module, parts in modules.items():
        code = "\n".join(parts)
        made_files["src/%s.rt" % module] = "//! %s\n\n%s\n%s\n%s" % (
            about[module], uses(code, known), imports_of(module, code, where, leaves), code)
    made_files["src/lib.rt"] = root(modules)
    made_files["proofs/Lib.antt"] = "pub mod Rows\n"
    made_files["proofs/Rows.antt"] = ROWS
    for kind in LISTS:
        folder = "proofs/lists/%s_list_of/" % reader(kind)[:-5]
        made_files[folder + "Invariants.antt"], made_files[folder + "Answers.antt"] = list_proofs(kind)
    made_files["specs/Lib.antt"] = "pub mod Lists\n"
    made_files["specs/Lists.antt"] = LISTS_SPEC
    return made_files


def imports_of(module, code, where, leaves):
    """What the code of a module uses of other modules and crates."""
    body = re.sub(r"^\s*//.*$", "", code, flags=re.M)
    plain = re.sub(r"(?:made|refused)? ?\{ IfOk.*", "", body)
    types = re.sub(r"Tag::\w+", "", body)
    called = {name for name in re.findall(r"(\w+)\(", body) if name in where and where[name] != module}
    imports = "".join(code_use("crate::" + other, [name for name in called if where[name] == other])
                      for other in sorted({where[name] for name in called}))
    imports += code_use("demangle_cells", [name for name in ("Arena", "Plain", "Tag")
                                           if re.search(r"\b%s\b(?!\.)" % name, plain)])
    imports += code_use("demangle_leaf_nodes", [name for name in leaves if re.search(r"\b%s\b" % name, types)])
    imports += code_use("demangle_text", ["Error", "Result"] if "Error::" in body else ["Result"])
    imports += code_use("demangle_vocab", [name for name in WORDS if re.search(r"\b%s\b" % name, body)])
    return imports + (code_use("std::alloc", ["Global"]) if re.search(r"\bGlobal\b", body) else "")


def root(modules):
    text = comment("Words, parts and the node types of demangle_leaf_nodes, each made out of the cells of an arena.", "//!")
    text += "#![tactic(auto)]\n\n" + "".join("mod %s;\n" % module for module in sorted(modules)) + "\n"
    return text + "".join("pub " + code_use(module, functions("\n".join(modules[module])))
                          for module in sorted(modules))
