"""The functions of demangle_nodes_from_cells.

Every cycle of node types leads through one of five types. A function that makes another node, or one of these, is
generic over `Below`, which makes nodes of the five; five functions tie them into one recursion.
"""
import re

import from_cells_leaves
import from_cells_ties as ties
from from_cells import NOTHING, REFUSED, article, built, inner, made, names_of, pattern, reader, uses, word_of
from from_cells_leaves import functions
from node_types import WORDS
from written import antt_uses, code_use, comment, snake

CRATE = "demangle_nodes_from_cells"
FIVE = ties.FIVE
LISTS = ("Expression", "TemplateArg", "UnresolvedQualifierLevel")
OPTIONS = ("TemplateArgs", "Initializer", "Box<Name>")
# variants of a type whose arms stand in its function, at most
FEW = 6
# arms of a function, at most
ARMS = 26
MODULES = {
    "names": ("MangledName", "Encoding", "GlobalCtorDtor", "Name", "MemberName", "LocalName"),
    "special_names": ("SpecialName",),
    "arguments": ("TemplateArgs", "TemplateArg", "ExprPrimary"),
    "unresolved": ("UnresolvedName", "UnresolvedQualifierLevel", "SimpleId", "BaseUnresolvedName", "DestructorName"),
    "expressions": ("Expression",),
    "expressions_of_one": (), "expressions_of_more": (),
    "expression_parts": ("Initializer", "SubobjectExpr", "FoldExpr"),
}
ABOUT = {
    "names": "Names, functions and variables.", "special_names": "What the compiler makes.",
    "arguments": "Arguments of templates, and literals.", "unresolved": "Unresolved names.",
    "expressions": "Expressions, by the tags of their nodes.",
    "expressions_of_one": "Expressions of one part.", "expressions_of_more": "Expressions of more parts.",
    "expression_parts": "Parts of expressions.", "lists": "Lists.",
    "options": "Parts that may be missing.", "entries": "Types, prefixes, entries of the table.",
    "nodes": "The nodes that hold each other, by whatever index.",
}
BELOW = "below: B, "
CAN = "    requires can { B.can below }\n"
GIVEN = "alloc: Global, arena: &Arena, "


class Nodes:
    """All functions of the crate, by module."""

    def __init__(self, types):
        self.types = {kind.name: kind for kind in types}
        self.apart, self.proofs = {}, {}

    def owns(self, kind):
        held = inner(kind, "Option") or kind
        if inner(held, "Vec") or inner(held, "Box"):
            return True
        return held in self.types and not self.types[held].copy

    def is_node(self, kind):
        return kind in self.types and self.types[kind].crate == "demangle_nodes"

    def is_leaf(self, kind):
        held = inner(kind, "Option") or inner(kind, "Vec") or kind
        return not (held in self.types and self.types[held].crate != "demangle_leaf_nodes") and not inner(held, "Box")

    def read(self, kind, part, below):
        """The call that makes a part; `below` says whether nodes are made by what a function is handed."""
        box = inner(kind, "Box")
        if box:
            return "boxed(alloc, %s)" % self.read(box, part, below)
        if self.is_leaf(kind):
            return "%s(%sarena, %s)" % (reader(kind), "alloc, " if self.owns(kind) else "", part)
        if below and kind in FIVE:
            return "below.%s(alloc, arena, %s)" % (snake(kind), part)
        if below:
            return "%s_by(below, alloc, arena, %s)" % (word_of(kind), part)
        return "%s(alloc, arena, %s)" % (reader(kind), part)

    def body(self, variant, names, below):
        """Reads the parts, those without memory first, and makes the node."""
        fields = [field.kind for field in variant.fields]
        if [name for name in ("start", "end") if name in names] or fields[1:] == ["usize", "usize"]:
            lets = "let %s = %s?;\nlet (start, end) = place_from(arena, place)?;\n" % (
                names[0], self.read(fields[0], names[0], below))
            return "%sOk(%s(%s, start, end))" % (lets, variant.path, names[0])
        if len(fields) < 2:
            return "Ok(%s)" % built(variant, [self.read(fields[0], names[0], below) + "?"] if fields else [])
        lets, held = [], []
        for at in sorted(range(len(fields)), key=lambda at: (self.owns(fields[at]), at)):
            call = self.read(fields[at], names[at], below)
            if not self.owns(fields[at]) or not held:
                lets.append("let %s = %s?;" % (names[at], call))
            else:
                before = held[0] if len(held) == 1 else "(%s)" % ", ".join(held)
                lets.append("let (%s, %s) = kept(%s, %s)?;" % (before, names[at], before, call))
            held += [names[at]] * self.owns(fields[at])
        return "%s\nOk(%s)" % ("\n".join(lets), built(variant, names))

    def names(self, variant):
        names = names_of(variant.fields)
        if [field.kind for field in variant.fields][1:] == ["usize", "usize"]:
            return [names[0], "place"]
        return names

    def arm(self, variant, below):
        """The arm of a variant in its type's function."""
        names = self.names(variant)
        if variant.tag == "TemplateArgs":
            return "Some(Plain::Arguments(place, members)) => {\n" \
                "let members = template_arg_list_by(below, alloc, arena, members)?;\n" \
                "Ok(TemplateArgs(members, place as usize))\n}"
        if len(names) == 6:
            three = ["(%s)" % ", ".join(names[:3]), "(%s)" % ", ".join(names[3:])]
            return "Some(Plain::Many(Tag::%s, start, count)) => {\nlet (%s) = six_parts(arena.indexes(start, count))?;" \
                "\n%s\n}" % (variant.tag, ", ".join(three), self.body(variant, names, below))
        body = self.body(variant, names, below)
        cell = pattern(variant.tag, names)
        return "%s => %s" % (cell, "{\n%s\n}" % body if ";" in body else body + ",")

    def by(self, kind):
        """The functions that make a node of a type with what they are handed."""
        name, lemma = kind.snake + "_by", ""
        if kind.name not in ("TemplateArgs", "MemberName", "Initializer", "SubobjectExpr"):
            lemma = "parts_" + kind.snake
        if len(kind.variants) > FEW:
            return self.many(kind)
        arms = [self.arm(variant, True) for variant in kind.variants]
        return self.function(self.said(kind), "pub(crate) fn", name, kind, "id: u32", kind.tree + " n", "F id", lemma,
                             "match arena.cell(id) {\n%s\n%s\n}\n" % ("\n".join(arms), NOTHING))

    def said(self, kind):
        section = kind.section()
        return "%s%s" % (article(kind.name), ", ABI section %s." % section if section else ".")

    def function(self, said, head, name, kind, arguments, tree, at, lemma, body, generic=True):
        tactic = "#[tactic(auto, using(demangle_nodes::proofs::Parts::%s))]\n" % lemma if lemma else ""
        return "%s%s%s %s%s(%s%s%s) -> Result<%s>\n%s%s%s{\n%s}\n" % (
            comment(said), tactic, head, name, "<B: Below>" if generic else "", BELOW if generic else "", GIVEN,
            arguments, kind.name, CAN if generic else "", made(tree, at=at), REFUSED, body)

    def many(self, kind):
        """Of a type with many variants: a function a variant, one for each number of parts, and that of the type."""
        code, shapes = [], {}
        for variant in kind.variants:
            names = self.names(variant)
            shapes.setdefault(len(names), []).append(variant)
            if not names:
                continue
            name = "%s_%s" % (kind.snake, snake(variant.name))
            four = len(names) > 3
            arguments = "ids: &[u32]" if four else ", ".join("%s: u32" % part for part in names)
            row = "ids.now" if four else "(%s ∷ [])" % " ∷ ".join(names)
            body = self.body(variant, names, True)
            if four:
                body = "let (%s) = four_parts(ids)?;\n%s" % (", ".join(names), body)
            apart = kind.name == "Expression"
            place = self.apart.setdefault("expressions_of_" + ("one" if len(names) == 1 else "more"), []) if apart else code
            place.append(self.function("%s of these parts." % article(variant.path), "pub(crate) fn" if apart else "fn",
                                       name, kind, arguments, kind.tree + " n",
                                       "node_of F Tag.%s %s" % (variant.tag, row), name, body + "\n"))
        words = {1: "one", 2: "two", 3: "three"}
        parts = ["a", "b", "c"]
        arms = []
        for count in sorted(shapes):
            if count == 0:
                arms += ["Some(Plain::Empty(Tag::%s)) => Ok(%s)," % (v.tag, v.path) for v in shapes[0]]
            elif count > 3:
                arms += ["Some(Plain::Many(Tag::%s, start, count)) => %s_%s(below, alloc, arena, arena.indexes(start, "
                         "count))," % (v.tag, kind.snake, snake(v.name)) for v in shapes[count]]
            else:
                first = "%s_of_%s" % (kind.snake, words[count])
                code += self.choice(kind, first, parts[:count], shapes[count])
                given = ", ".join(["tag"] + parts[:count])
                arms.append("Some(Plain::%s(%s)) => %s(below, alloc, arena, %s)," % (
                    words[count].capitalize(), given, first, given))
        lemma = "expression_rethrow" if kind.name == "Expression" else ""
        code.append(self.function(self.said(kind), "pub(crate) fn", kind.snake + "_by", kind, "id: u32",
                                  kind.tree + " n", "F id", lemma,
                                  "match arena.cell(id) {\n%s\n%s\n}\n" % ("\n".join(arms), NOTHING)))
        return "\n".join(code)

    def choice(self, kind, first, parts, variants):
        """The choice by the tag of a node with so many parts, in functions of not too many arms."""
        code, name = [], first
        arguments = ", ".join(["tag: Tag"] + ["%s: u32" % part for part in parts])
        for at in range(0, len(variants), ARMS):
            arms = ["Tag::%s => %s_%s(below, alloc, arena, %s)," % (
                v.tag, kind.snake, snake(v.name), ", ".join(parts)) for v in variants[at:at + ARMS]]
            more = at + ARMS < len(variants)
            behind = "%s_%s" % (first, "more")
            arms.append("_ => %s(below, alloc, arena, %s)," % (behind, ", ".join(["tag"] + parts)) if more else NOTHING)
            code.append(self.function("A node of these parts%s, by its tag." % ("" if at == 0 else ", of other tags"),
                                      "fn", name, kind, arguments, kind.tree + " n",
                                      "node_of F tag (%s ∷ [])" % " ∷ ".join(parts), "",
                                      "match tag {\n%s\n}\n" % "\n".join(arms)))
            name = behind
        return code

    # ---- lists and parts that may be missing
    def a_list(self, kind):
        short = word_of(kind) + "_list"
        trees = "trees tag_of_%s parts_of_%s n.items" % (snake(kind), snake(kind))
        vec = type("Kind", (), {"name": "Vec<%s>" % kind})
        front = self.function(
            "A list of `%s`." % kind, "pub(crate) fn", short + "_by", vec, "id: u32", "several (%s)" % trees, "F id", "",
            "match arena.cell(id) {\nSome(Plain::Empty(Tag::Several)) => Ok(Vec::new(alloc)),\n"
            "Some(Plain::Many(Tag::Several, start, count)) => %s_of(below, alloc, arena, arena.indexes(start, count)),"
            "\n%s\n}\n" % (short, NOTHING))
        body = "let mut list = Vec::new(alloc);\nfor id in ids {\nlet (held, next) = kept(list, %s)?;\n" \
            "list = grown(held, next)?;\n}\nOk(list)\n" % self.read(kind, "*id", True)
        inside = self.function("The nodes of these indexes.", "fn", short + "_of", vec, "ids: &[u32]", trees,
                               "row F ids.now", "", body)
        folder = "proofs/lists/%s_of/" % short
        self.proofs[folder + "Invariants.antt"], self.proofs[folder + "Answers.antt"] = ties.list_proofs(
            CRATE, kind, short + "_of")
        return front + "\n" + inside

    def an_option(self, kind):
        short = word_of(kind)
        tree = "boxed_name" if inner(kind, "Box") else "tree_of_" + short
        option = type("Kind", (), {"name": "Option<%s>" % kind})
        return self.function(
            article(kind) + " that may be missing.", "pub(crate) fn", "optional_%s_by" % short, option, "id: u32",
            "tree_of_option %s n" % tree, "F id", "",
            "match arena.cell(id) {\nSome(Plain::Empty(Tag::Absent)) => Ok(None),\n"
            "Some(Plain::One(Tag::Present, part)) => Ok(Some(%s?)),\n%s\n}\n" % (self.read(kind, "part", True), NOTHING))

    # ---- the public functions
    def public(self, kind):
        said = "%s out of its cell. Another cell is refused as `OutOfMemory`, the only refusal.%s" % (
            article(kind.name), " ABI section %s." % kind.section() if kind.section() else "")
        return self.function(said, "pub fn", kind.snake + "_from", kind, "id: u32", kind.tree + " n", "F id", "",
                             "%s_by(Whole, alloc, arena, id)\n" % kind.snake, generic=False)

    def entry(self, kind):
        arms = [self.arm(variant, False) for variant in kind.variants]
        said = "%s out of its cell. Another cell is refused as `OutOfMemory`, the only refusal.%s" % (
            article(kind.name), " ABI section %s." % kind.section() if kind.section() else "")
        return self.function(said, "pub fn", kind.snake + "_from", kind, "id: u32", kind.tree + " n", "F id", "",
                             "match arena.cell(id) {\n%s\n%s\n}\n" % ("\n".join(arms), NOTHING), generic=False)

    def entry_option(self, kind):
        short = word_of(kind)
        option = type("Kind", (), {"name": "Option<%s>" % kind})
        return self.function(
            article(kind) + " that may be missing. Another cell is refused as `OutOfMemory`, the only refusal.", "pub fn",
            "optional_%s_from" % short, option, "id: u32", "tree_of_option tree_of_%s n" % short, "F id", "",
            "match arena.cell(id) {\nSome(Plain::Empty(Tag::Absent)) => Ok(None),\n"
            "Some(Plain::One(Tag::Present, part)) => Ok(Some(%s?)),\n%s\n}\n" % (self.read(kind, "part", False), NOTHING),
            generic=False)


def files(types):
    nodes = Nodes(types)
    modules = {module: [nodes.by(nodes.types[name]) for name in names] for module, names in MODULES.items()}
    modules.update(nodes.apart)
    modules["lists"] = [nodes.a_list(kind) for kind in LISTS]
    modules["options"] = [nodes.an_option(kind) for kind in OPTIONS]
    modules["nodes"] = [nodes.public(kind) for kind in types
                        if kind.crate == "demangle_nodes" and kind.name not in FIVE]
    modules["entries"] = [nodes.entry_option("TemplateArgs"), nodes.entry_option("ExceptionSpec")] + [
        nodes.entry(kind) for kind in types if kind.crate == "demangle_entries"]
    made_files = {"src/%s.rt" % module: text for module, text in ties.modules().items()}
    known = known_names(types)
    where = {name: module for module, parts in modules.items() for name in declared("\n".join(parts))}
    where.update({name: module for module, text in ties.modules().items() for name in declared(text)})
    for module, parts in modules.items():
        made_files["src/%s.rt" % module] = whole_file(nodes, module, "\n".join(parts), known, where)
    made_files["src/lib.rt"] = root(modules)
    made_files.update(nodes.proofs)
    made_files.update(ties.proofs())
    return made_files


def known_names(types):
    known = {name: module for module, names in from_cells_leaves.KNOWN.items() for name in names.split()}
    known["node_of"] = "%s.specs.Node" % CRATE
    known["boxed_name"] = "demangle_nodes.specs.TreeNodes"
    spec = {"demangle_leaf_nodes": "TreeLeaves", "demangle_nodes": "TreeNodes", "demangle_entries": "TreeEntries"}
    for kind in types:
        for head in ("tree_of_", "tag_of_", "parts_of_"):
            known[head + kind.snake] = "%s.specs.%s" % (kind.crate, spec[kind.crate])
    known["tree_of_option"] = "demangle_leaf_nodes.specs.TreeLeaves"
    del known["Tag"], known["node"], known["end"]
    return known


def declared(code):
    return re.findall(r"^pub(?:\(crate\))? (?:fn|trait|struct) (\w+)", code, re.M)


def whole_file(nodes, module, code, known, where):
    body = re.sub(r"^\s*//.*$", "", code, flags=re.M)
    plain = re.sub(r"^    (requires|ensures)(.*\n        →)?.*$", "", body, flags=re.M)
    named = set(re.findall(r"(?<!\.)\b(\w+)\b", plain))
    near = {name for name in named if name in where and where[name] != module}
    imports = "".join(code_use("crate::" + other, [name for name in near if where[name] == other])
                      for other in sorted({where[name] for name in near}))
    imports += code_use("demangle_cells", [name for name in ("Arena", "Plain", "Tag") if name in named])
    types = re.sub(r"Tag::\w+", "", plain)
    imports += code_use("demangle_entries", [name for name in nodes.types if re.search(r"(?<!::)\b%s\b" % name, types)])
    leaf = {name for name in named if name.endswith("_from") or name in ("four_parts", "six_parts")} - set(where)
    imports += code_use("demangle_leaves_from_cells", leaf)
    imports += code_use("demangle_text", [name for name in ("Error", "Result") if name in named])
    imports += code_use("std::alloc", ["Global"])
    if "Tag" not in named:
        known = {**known, "Tag": "demangle_cells.specs.declared.tag.Tag"}
    return "//! %s\n\n%s\n%s\n%s" % (ABOUT[module], uses(code, known), imports, code)


def root(modules):
    texts = {module: "\n".join(parts) for module, parts in modules.items()}
    texts.update(ties.modules())
    text = comment("The node types that hold each other, and the entries of the table, each made out of the cells of an "
                   "arena.", "//!") + "#![tactic(auto)]\n\n"
    text += "".join("mod %s;\n" % module for module in sorted(texts)) + "\n"
    return text + "".join("pub " + code_use(module, functions(texts[module])) for module in sorted(texts)
                          if functions(texts[module]))
