#!/usr/bin/env python3
"""Writes the functions that put nodes into an arena of cells, with their proofs, from the node types.

    tools/write_to_cells.py [--check]

Each type of demangle_leaf_nodes, demangle_nodes and demangle_entries becomes a function that puts its parts and then
the node, and answers the index of its tree. With --check nothing is written: it says which files aren't what would be
written, and fails where there is one. What is by hand: in demangle_leaves_to_cells the nodes of given parts (made.rt)
and lists of these (lists.rt), with their proofs.
"""
import os
import re
import sys

import antt
import written
from written import snake

LEAVES, NODES = "demangle_leaves_to_cells", "demangle_nodes_to_cells"
# the crate and file of node types, and the module of their trees
SOURCES = {"leaves": ("demangle_leaf_nodes", "TreeLeaves"), "nodes": ("demangle_nodes", "TreeNodes"),
           "entries": ("demangle_entries", "TreeEntries")}
WORDS = {"SimpleOperatorName": "Operators", "StandardBuiltinType": "Builtins", "WellKnownComponent": "Components",
         "RefQualifier": "RefQualifiers", "ExplicitObjectParameter": "ExplicitObjects"}
# alternatives of handles, which are one node in all types
SHARED = ("WellKnown", "BackReference", "NonSubstitution")
NUMBERS = {"usize": "number", "u8": "number", "isize": "signed", "Number": "signed"}
# what stands in options and lists of types that hold no node by value
LEAF_OPTIONS = ("usize", "isize", "Discriminator", "TypeHandle", "RefQualifier", "PrefixHandle")
LEAF_LISTS = ("isize", "AbiTag", "TypeHandle", "ResourceName", "CloneSuffix")
# of a list of these a proof names the item
OWNING = ("CloneSuffix", "TemplateArg", "Expression", "UnresolvedQualifierLevel")
ORDER = ["first", "second", "third", "fourth", "fifth", "sixth"]
DOC = "/// Puts the node into the arena: the index of its tree. `OutOfMemory` is its only refusal.\n"
PART_DOC = "/// The same of a part that may not be there.\n"
LIST_DOC = """\
/// Puts the nodes into the arena, one behind the other, and answers what becomes of them. `OutOfMemory` is its only
/// refusal.
"""
# the bodies of functions of parts and lists
OPTIONAL = """    match node {
        None => Ok(absent_id()),
        Some(part) => {
            let part = %s;
            one(arena, Tag::Present, part)
        }
    }
}
"""
WAITS = """    for node in nodes {
        let part = %s;
        wait(arena, Ok(()), part)?;
    }
    Ok(())
}
"""
LISTS = """    let from = arena.waiting();
    let waited = %s(arena, nodes);
    gather(arena, from, list, waited)
}
"""
TEMPLATE_ARGS = """    if node.1 > u32::MAX as usize {
        return Err(Error::OutOfMemory);
    }
    template_arg_list_to(arena, &node.0, ListOf::Arguments(node.1 as u32))
"""


class Type:
    """A node type: its name, and its alternatives, each a name (none of a struct), fields as (name, type)."""

    def __init__(self, name, source, ways):
        self.name, self.source, self.ways = name, source, ways


def node_types(source):
    """The types of a file, in its order."""
    crate = SOURCES[source][0]
    text = written.read(os.path.join(antt.CRATES, crate, "src", source + ".rt"))
    text = re.sub(r"//[^\n]*", "", text)
    found = []
    for start in re.finditer(r"pub (struct|enum) (\w+)\s*(?=[({])", text):
        rest = enclosed(text, start.end())
        ways = [(None, fields(rest))] if start.group(1) == "struct" else ways_of(rest)
        found.append(Type(start.group(2), source, ways))
    return found


def enclosed(text, at):
    """The brackets that open at a place, with what is in them."""
    depth = 0
    for k in range(at, len(text)):
        depth += (text[k] in "({") - (text[k] in ")}")
        if not depth:
            return text[at:k + 1]
    raise ValueError(text[at:at + 40])


def fields(text):
    inside = text[1:-1]
    parts = [part.strip() for part in split(inside) if part.strip()]
    if text[0] == "(":
        return [(str(k), part.replace("pub ", "")) for k, part in enumerate(parts)]
    return [tuple(part.replace("pub ", "").split(": ")) for part in parts]


def split(text):
    """What stands between commas that are in no brackets."""
    parts, depth, now = [], 0, ""
    for sign in text:
        depth += (sign in "<({") - (sign in ">)}")
        if sign == "," and not depth:
            parts.append(now)
            now = ""
        else:
            now += sign
    return parts + [now]


def ways_of(text):
    ways = []
    for way in split(text.strip()[1:-1]):
        found = re.match(r"\s*(\w+)(\(.*\))?\s*$", way, re.S)
        if found:
            ways.append((found.group(1), fields(found.group(2)) if found.group(2) else []))
    return ways


def inner(kind):
    """What a type of one argument holds."""
    found = re.match(r"(Vec|Option|Box)<(.*)>$", kind)
    return found.groups() if found else (None, kind)


def stem(kind):
    outer, held = inner(kind)
    if outer == "Vec":
        return stem(held) + "_list"
    if outer == "Option":
        return "optional_" + stem(held)
    if outer == "Box":
        return stem(held)
    return NUMBERS.get(kind) or {"bool": "flag"}.get(kind) or snake(kind)


def call(kind, value, reference):
    """The call that puts a field; the second is its value, the third a reference to it."""
    outer, _ = inner(kind)
    if NUMBERS.get(kind) == "number" or kind == "bool":
        return "%s_to(arena, %s)" % (stem(kind), value + (" as usize" if kind == "u8" else ""))
    more = ", ListOf::Node(Tag::Several)" if outer == "Vec" else ""
    return "%s_to(arena, %s%s)" % (stem(kind), reference, more)


class Function:
    """A function that is being written: its code, the names of its steps, and its answers."""

    def __init__(self, name, cycle):
        self.name, self.cycle, self.answers, self.steps = name, cycle, {}, set()
        self.code, self.invariant = "", None

    def step(self, name, arm):
        """The name of a step of this function in proofs: the checker adds the arm, and then a count."""
        if name in self.steps and arm:
            name += "-in-" + arm
        count = 2
        while name in self.steps:
            name, count = re.sub(r"-\d+$", "", name) + "-%d" % count, count + 1
        self.steps.add(name)
        return "c." + name

    def answer(self, goal, term):
        self.answers[goal] = term


def several(function, arm, tag, parts):
    """Lines and the proof for a node of parts: (name, call, function, where a list is passed its trees)."""
    lines, proofs = [], []
    if len(parts) > 3:
        lines.append("let from = arena.waiting();")
        waits = function.step("waiting-from", arm)
        proof, before = "(none_waits _)", "Ok(())"
        for name, made, callee, through in parts:
            lines += ["let %s = %s;" % (name, made), "let until_%s = wait(arena, %s, %s);" % (name, before, name)]
            part = part_proof(function, arm, name, callee, through)
            proof = "(%s.ensures _ _ _ _ %s %s)" % (function.step("wait-until_" + name, arm), proof, part)
            before = "until_" + name
        lines.append("gather(arena, from, ListOf::Node(Tag::%s), %s)" % (tag, before))
        return lines, "%s.ensures _ _ %s.ensures %s" % (function.step("gather", arm), waits, proof)
    for name, made, callee, through in parts:
        lines.append("let %s = %s;" % (name, made))
        proofs.append(part_proof(function, arm, name, callee, through))
    maker = ["empty", "one", "two", "three"][len(parts)]
    lines.append("%s(arena, Tag::%s%s)" % (maker, tag, "".join(", " + part[0] for part in parts)))
    step = function.step(maker, arm)
    return lines, "%s.ensures%s %s" % (step, " _" * (2 * len(parts)), " ".join(proofs))


def part_proof(function, arm, name, callee, through):
    """The word of a part's call. What stands behind a `Box` or a `Vec` is the result of a step of its own."""
    if not through:
        return function.step("%s-%s" % (callee, name), arm) + ".ensures"
    deref = function.step("deref", arm) + ".ensures"
    if through[0] == "list":
        same = "ap (λ l. node Tag.Several (%s l) end) %s.value" % (through[1], deref)
    else:
        same = "ap %s %s" % (through[1], deref)
    return "(told _ _ _ _ _ (%s) %s.ensures)" % (same, function.step("%s-%s" % (callee, name), arm))


def behind(kind):
    """What a part is read through: a list with its trees, a box with the tree of what it holds."""
    outer, held = inner(kind)
    return {"Vec": ("list", trees_of(held)), "Box": ("box", "tree_of_" + snake(held))}.get(outer)


def trees_of(held):
    """The trees of a list of these."""
    return "numbers" if held in NUMBERS else "trees tag_of_%s parts_of_%s" % (snake(held), snake(held))


def parts_of(function, way, kinds, of_struct):
    """The parts of a node, as `several` takes them."""
    parts, skipped = [], False
    for k, (field, kind) in enumerate(kinds):
        if skipped:
            skipped = False
            continue
        name = ORDER[k] if not of_struct or field.isdigit() else field
        value, reference = ("node." + field, "&node." + field) if of_struct else ("*" + name, name)
        if kind == "usize" and k + 1 < len(kinds) and kinds[k + 1][1] == "usize":
            other = "node." + kinds[k + 1][0] if of_struct else "*" + ORDER[k + 1]
            parts.append(("place", "place_to(arena, %s, %s)" % (value, other), "place_to", None))
            skipped = True
            continue
        parts.append((name, call(kind, value, reference), stem(kind) + "_to", behind(kind)))
    return parts


def head(name, parameters, answer, promise, tree, cycle, doc):
    """A function up to its body. One without a comment is none of others."""
    mark = "#[cycle(%s)]\n" % cycle if cycle else ""
    clause = "    ensures { %s (view arena.old) (view arena.new) result (%s) }\n" % (promise, tree)
    if len(clause) > written.WIDTH:
        clause = clause.replace(" (" + tree, "\n        (" + tree)
    shown = "pub " if doc else ""
    signature = "fn %s(arena: &mut Arena, %s) -> Result<%s>\n" % (name, parameters, answer)
    return doc + mark + shown + signature + clause + "{\n"


def node_head(name, argument, tree, cycle, doc=DOC):
    return head(name, "node: &" + argument, "u32", "Put", tree + " node.now", cycle, doc)


def node_function(kind, cycle):
    name = snake(kind.name)
    function, tree = Function(name + "_to", cycle), "tree_of_" + name
    code = node_head(function.name, kind.name, tree, cycle)
    if kind.ways[0][0] is None:
        code += struct_body(function, kind, tree)
    else:
        code += "    match node {\n"
        for way, kinds in kind.ways:
            code += arm_of(function, kind, tree, way, kinds)
        code += "    }\n"
    function.code = code + "}\n"
    return function


def struct_body(function, kind, tree):
    fields_of, name = kind.ways[0][1], snake(kind.name)
    if kind.name == "NonSubstitution":
        function.answer("returns", function.step("reference_to", None) + ".ensures")
        return "    reference_to(arena, false, node.0)\n"
    if kind.name == "CvQualifiers":
        return "    Ok(qualifiers_id(node.restrict, node.volatile, node.const_))\n"
    if kind.name == "TemplateArgs":
        step = function.step("template_arg_list_to", None)
        trees = "node Tag.Several (%s l) end" % trees_of("TemplateArg")
        same = "ap (λ l. node Tag.TemplateArgs (mark c.args.node.now.1 (%s)) end) c.deref.ensures.value" % trees
        function.answer("returns", "told _ _ _ _ _ (%s) %s.ensures" % (same, step))
        return TEMPLATE_ARGS
    lines, proof = several(function, None, kind.name, parts_of(function, None, fields_of, True))
    if function.cycle and kind.name in ("SimpleId", "UnresolvedQualifierLevel"):
        same = "ap (λ p. node Tag.%s p end) (%s_read c.args.node.now)" % (kind.name, name)
        proof = "told _ _ _ _ _ (sym (%s)) (%s)" % (same, proof)
    function.answer("returns", proof)
    return "".join("    %s\n" % line for line in lines)


def arm_of(function, kind, tree, way, kinds):
    shared = way in SHARED and kind.name != "ParametricBuiltinType"
    tag = way if shared else kind.name + way
    names = ORDER[:len(kinds)]
    pattern = "%s::%s%s" % (kind.name, way, "(%s)" % ", ".join(names) if names else "")
    same = "ap %s c.in-%s.is" % (tree, way)
    if way == "BackReference":
        lines, proof = ["reference_to(arena, true, *first)"], function.step("reference_to", way) + ".ensures"
    elif way == "NonSubstitution":
        lines, proof = ["non_substitution_to(arena, first)"], function.step("non_substitution_to", way) + ".ensures"
    else:
        lines, proof = several(function, way, tag, parts_of(function, way, kinds, False))
    if function.cycle:
        lemma = snake(kind.name) + "_" + snake(way) + "".join(" c.in-%s.%s" % (way, name) for name in names)
        same = "%s ∙ ap (λ p. node Tag.%s p end) (%s)" % (same, tag, lemma)
    function.answer("returns-in-" + way, "told _ _ _ _ _ (sym (%s)) (%s)" % (same, proof))
    if len(lines) == 1:
        return "        %s => %s,\n" % (pattern, lines[0])
    return "        %s => {\n%s        }\n" % (pattern, "".join("            %s\n" % line for line in lines))


def optional_function(held, cycle):
    trees = {"usize": "tree_of_number", "isize": "tree_of_signed", "Box<Name>": "boxed_name"}
    tree = "tree_of_option " + (trees.get(held) or "tree_of_" + snake(held))
    function = Function("optional_%s_to" % stem(held), cycle)
    function.code = node_head(function.name, "Option<%s>" % held, tree, cycle, PART_DOC)
    function.code += OPTIONAL % call(held, "*part", "part")
    part = part_proof(function, None, "part", stem(held) + "_to", behind(held))
    same = "sym (ap (%s) c.in-Some.is)" % tree
    function.answer("returns-in-Some", "told _ _ _ _ _ (%s) (c.one.ensures _ _ %s)" % (same, part))
    return function


def list_functions(held, cycle):
    """What puts the nodes of a list and lets their indexes wait, and what makes of these what they are to become."""
    name, trees = stem(held), trees_of(held)
    waits, lists = Function("wait_%s_list" % name, cycle), Function("%s_list_to" % name, cycle)
    nodes = "nodes: &[%s]" % held
    waits.code = head(waits.name, nodes, "()", "Waits", trees + " nodes.now", cycle, "")
    waits.code += WAITS % call(held, "*node", "node")
    so_far = "(c.wait.ensures _ _ _ _ c.loop-node.invariant c.%s_to-part.ensures)" % name
    more = "numbers_more" if held in NUMBERS else trees.replace("trees", "trees_more")
    more += " _ _ _ _ c.args.nodes.now c.loop-node.node-index %s" % ("c.node-item.result" if held in OWNING else "_")
    waits.invariant = "Waits (view l.fn.arena) (view l.arena) (Ok tt) (%s (take l.node-index l.nodes))" % trees
    waits.answer("returns-in_err-wait", "waits_failed _ _ _ _ _ _ _ c.in_err-wait.was (search rules) %s" % so_far)
    waits.answer("loop-node-preserved", "%s c.in_ok-wait.was (search (rules, take_more)) %s" % (more, so_far))
    tree = "list_tree list (%s nodes.now)" % trees
    lists.code = head(lists.name, nodes + ", list: ListOf", "u32", "Put", tree, cycle, LIST_DOC) + LISTS % waits.name
    lists.answer("returns", "c.gather.ensures _ _ c.waiting-from.ensures c.%s-waited.ensures" % waits.name)
    return [waits, lists]


def word_function(word):
    function, name = Function(snake(word) + "_to", None), snake(word)
    function.code = node_head(function.name, word, "tree_of_" + name, None)
    function.code += "    Ok(word_id(WordTable::%s, node.number()))\n}\n" % WORDS[word]
    return function


# ---- files
COMMON = {"ap", "sym", "rules", "take", "Ok"}


def definitions():
    """Where each name is that contracts and proofs cite, by its module."""
    found = {}
    for module, names in (("std.proofs.lemmas.List", "take_more"),
                          ("demangle_core.specs.Core", "node end mark Tag trees numbers"),
                          ("demangle_cells.specs.View", "view"), ("demangle_cells.specs.Cells", "list_tree"),
                          (LEAVES + ".specs.Put", "Put Waits"),
                          (LEAVES + ".proofs.Puts", "told none_waits waits_failed trees_more numbers_more")):
        found.update((name, module) for name in names.split())
    for source, (crate, module) in SOURCES.items():
        text = written.read(antt.specs(crate, module + ".antt"))
        names = re.findall(r"pub ((?:tree|tag|parts)_of_\w+|boxed_\w+) :", text)
        found.update((name, "%s.specs.%s" % (crate, module)) for name in names)
    text = written.read(os.path.join(antt.CRATES, "demangle_nodes", "proofs", "Parts.antt"))
    found.update((name, "demangle_nodes.proofs.Parts") for name in re.findall(r"^pub (\w+) : ", text, re.M))
    return found


def words(text):
    return set(re.findall(r"(?<![\w.'-])[A-Za-z_]\w*", text))


def imports(text, found, line, common):
    """The lines for the names of a text, by their modules."""
    used = words(text)
    modules = {}
    for name in used & set(found):
        modules.setdefault(found[name], set()).add(name)
    if common:
        names = used & COMMON | ({"◌∙◌"} if "∙" in text else set())
        modules.setdefault("std.proofs.Common", set()).update(names)
    ahead = [module for module in modules if module.startswith("std")]
    rest = sorted(module for module in modules if not module.startswith("std"))
    return [each for module in ahead + rest if modules[module] for each in line(module, modules[module])]


def answers_text(functions, module, found):
    """The file of answers of some functions."""
    body = ""
    for function in functions:
        for goal, term in function.answers.items():
            name = "%s-%s" % (function.name, goal) if function.cycle else goal
            left = "%s %s =" % (name, "t c" if function.cycle else "c")
            body += "\n%s\n%s\n" % (laid("pub %s :" % name, "goal." + name), laid(left, term))
    heads = imports(body, found, written.antt_uses, True) + ["use Rattle.%s.Goals as goal" % module]
    return "\n".join(heads) + "\n" + body


def invariants_text(functions, module, found):
    body = ""
    for function in functions:
        if function.invariant:
            name = "invariant-" + (function.name + "-" if function.cycle else "") + "loop-node"
            kind = laid("abbrev pub %s :" % name, "goal." + name)
            body += "\n%s\n%s\n" % (kind, laid("%s l =" % name, function.invariant))
    heads = imports(body, found, written.antt_uses, True) + ["use Rattle.%s.Given as goal" % module]
    return "\n".join(heads) + "\n" + body


def laid(head, term):
    """A definition in lines of the width, broken between words."""
    lines, now = [], head
    for word in term.split(" "):
        if len(now) + 1 + len(word) > written.WIDTH:
            lines.append(now)
            now = "   "
        now += " " + word
    return "\n".join(lines + [now])


CELLS = {"Arena", "ListOf", "Tag", "WordTable", "absent_id", "qualifiers_id", "word_id"}
HELPERS = {"made": {"empty", "flag_to", "number_to", "one", "place_to", "reference_to", "signed_to", "three", "two"},
           "lists": {"gather", "wait"}}


def module_text(doc, functions, found, here, places):
    """A file of code: the functions, and what they use. `places` says in which module each function and type is."""
    body = "".join("\n" + function.code for function in functions)
    contracts = " ".join(re.findall(r"ensures \{(.*?) \}\n", body, re.S))
    ghosts = imports(contracts, found, written.ghost_uses, False)
    used, uses = words(body), ""
    modules = {"demangle_cells": CELLS & used, "demangle_text": {"Error", "Result"} & used}
    for name in used & set(places):
        if places[name] != here:
            modules.setdefault(places[name], set()).add(name)
    for module in sorted(modules, key=lambda module: (module.startswith("crate"), module)):
        uses += written.code_use(module, modules[module])
    return "//! %s.\n\n%s\n\n%s%s" % (doc, "\n".join(ghosts), uses, body)


def proof_files(crate, module, functions, found):
    files, cycle = {}, [function for function in functions if function.cycle]
    for group, folder in [([function], function.name) for function in functions if not function.cycle] + (
            [(cycle, "+" + cycle[0].cycle)] if cycle else []):
        path = "proofs/%s/%s/" % (module, folder)
        name = "%s.proofs.%s.%s" % (crate, module, folder)
        if any(function.answers for function in group):
            files[path + "Answers.antt"] = answers_text(group, name, found)
        if any(function.invariant for function in group):
            files[path + "Invariants.antt"] = invariants_text(group, name, found)
    return files


def leaves_crate(found):
    types = node_types("leaves")
    nodes = [word_function(word) for word in WORDS] + [node_function(kind, None) for kind in types]
    parts = [optional_function(held, None) for held in LEAF_OPTIONS]
    for held in LEAF_LISTS:
        parts += list_functions(held, None)
    places = {function.name: "crate::leaves" for function in nodes}
    places.update((function.name, "crate::parts") for function in parts)
    places.update((kind.name, "demangle_leaf_nodes") for kind in types)
    places.update((word, "demangle_vocab") for word in WORDS)
    places.update((name, "crate::" + module) for module, names in HELPERS.items() for name in names)
    here = "Node types that hold no name, type or expression by value"
    lists = "Lists of these, and parts that may not be there"
    files = {"src/leaves.rt": module_text(here, nodes, found, "crate::leaves", places),
             "src/parts.rt": module_text(lists, parts, found, "crate::parts", places)}
    files.update(proof_files(LEAVES, "leaves", nodes, found))
    files.update(proof_files(LEAVES, "parts", parts, found))
    shown = [function for function in parts if not function.name.startswith("wait_")]
    files["src/lib.rt"] = lib_text(LEAVES_DOC, [("leaves", nodes), ("parts", shown)], HELPERS)
    return files


def nodes_crate(found):
    types = node_types("nodes")
    nodes = [node_function(kind, "nodes") for kind in types]
    nodes += [optional_function(held, "nodes") for held in ("TemplateArgs", "Initializer", "Box<Name>")]
    for held in ("TemplateArg", "Expression", "UnresolvedQualifierLevel"):
        nodes += list_functions(held, "nodes")
    above = node_types("entries")
    entries = [node_function(kind, None) for kind in above] + [optional_function("ExceptionSpec", None)]
    places = {function.name: "crate::nodes" for function in nodes}
    places.update((function.name, "crate::entries") for function in entries)
    places.update((name, LEAVES) for name in leaf_names())
    for source in SOURCES:
        places.update((kind.name, SOURCES[source][0]) for kind in node_types(source))
    places.update((word, "demangle_vocab") for word in WORDS)
    files = {"src/nodes.rt": module_text("The node types that hold each other", nodes, found, "crate::nodes", places),
             "src/entries.rt": module_text(ENTRIES_DOC, entries, found, "crate::entries", places)}
    files.update(proof_files(NODES, "nodes", nodes, found))
    files.update(proof_files(NODES, "entries", entries, found))
    shown = [function for function in nodes if not function.name.startswith("wait_")]
    files["src/lib.rt"] = lib_text(NODES_DOC, [("nodes", shown), ("entries", entries)], {})
    return files


LEAVES_DOC = """Node types that hold no name, type or expression by value, as trees of an arena of cells.
//!
//! Each function puts a node behind the cells that stand; an index that it answers is one that later cells may name.
//! A place of 2^32 or more, and the number of a component that is 2^30 or more, fit no arena: it is `OutOfMemory`."""
ENTRIES_DOC = "Types, prefixes, entries of the table"
NODES_DOC = "The node types that hold each other, and entries of the table, as trees of an arena of cells."


def leaf_names():
    """What the crate of leaves exports."""
    names = [snake(name) + "_to" for name in WORDS] + [snake(kind.name) + "_to" for kind in node_types("leaves")]
    names += ["optional_%s_to" % stem(held) for held in LEAF_OPTIONS]
    names += [stem(held) + "_list_to" for held in LEAF_LISTS]
    return names + [name for there in HELPERS.values() for name in there]


def lib_text(doc, public, helpers):
    modules = sorted([module for module, _ in public] + list(helpers))
    text = "//! %s\n#![tactic(auto)]\n\n%s\n" % (doc, "".join("mod %s;\n" % module for module in modules))
    names = {module: sorted(function.name for function in functions) for module, functions in public}
    names.update((module, sorted(there)) for module, there in helpers.items())
    for module in modules:
        text += "pub " + written.code_use(module, names[module])
    return text


BY_HAND = ("src/made.rt", "src/lists.rt", "specs/Lib.antt", "specs/Put.antt", "proofs/Lib.antt", "proofs/Puts.antt",
           "proofs/Rows.antt", "proofs/lists/gather/Answers.antt", "proofs/lists/wait/Answers.antt")


def main():
    found = definitions()
    written.settle({LEAVES: (leaves_crate(found), BY_HAND), NODES: (nodes_crate(found), ())}, "--check" in sys.argv[1:])


if __name__ == "__main__":
    main()
