"""Functions that make a value out of a cell: what those of leaves and of nodes have in common."""
import re

from written import WIDTH, comment, ghost_uses, snake

# parts that are no node: how they are read, and their tree
PLAIN = {"usize": ("count_from", "tree_of_number"), "isize": ("number_from", "tree_of_signed"),
         "bool": ("flag_from", "tree_of_flag"), "u8": ("byte_from", "tree_of_number")}
SHAPES = ["Empty", "One", "Two", "Three"]
REFUSED = "    ensures refused { IfErr result (λ e. e ≡ OutOfMemory) }\n"
NOTHING = "_ => Err(Error::OutOfMemory),"


def inner(kind, outer):
    """What is inside of `Option<..>`, `Vec<..>` or `Box<..>`, or nothing."""
    found = re.match(outer + r"<(.*)>$", kind)
    return found.group(1) if found else None


def word_of(kind):
    """A word for a value of that type."""
    for outer, head in (("Option", "optional_"), ("Box", "boxed_")):
        if inner(kind, outer):
            return head + word_of(inner(kind, outer))
    if inner(kind, "Vec"):
        return word_of(inner(kind, "Vec")) + "_list"
    return {"usize": "count", "isize": "number", "bool": "flag", "u8": "byte"}.get(kind, snake(kind))


def reader(kind):
    return word_of(kind) + "_from"


def made(tree, arena="arena.now", at="F id"):
    """The clause on what is answered."""
    head = "    ensures made { IfOk result (λ n. (F : ℕ → Core) → Holds F (view %s)" % arena
    tail = "→ %s ≡ %s) }" % (at, tree)
    if len(head) + 1 + len(tail) <= WIDTH:
        return "%s %s\n" % (head, tail)
    if len(tail) + 8 > WIDTH:
        first = "→ " + at if len(at) + 10 <= WIDTH else "→ " + at.replace(" (", "\n            (", 1)
        tail = "%s\n        ≡ %s) }" % (first, tree)
    return "%s\n        %s\n" % (head, tail)


def names_of(fields):
    """A name for each field: its own, or by its type, by the order where several have the same."""
    words = [field.name or re.sub(r"^(optional|boxed)_", "", word_of(field.kind)).replace("boxed_", "")
             for field in fields]
    order = ["first", "second", "third"]
    return ["%s_%s" % (order[words[:at].count(word)], word) if words.count(word) > 1 else word
            for at, word in enumerate(words)]


def pattern(tag, names):
    """The cell of a node with these parts, where it has no more than three."""
    return "Some(Plain::%s(%s))" % (SHAPES[len(names)], ", ".join(["Tag::" + tag] + names))


def built(variant, values):
    if not values:
        return variant.path
    if variant.named:
        pairs = [(field.name, value) for field, value in zip(variant.fields, values)]
        return "%s { %s }" % (variant.path, ", ".join(
            name if name == value else "%s: %s" % (name, value) for name, value in pairs))
    return "%s(%s)" % (variant.path, ", ".join(values))


def uses(code, known):
    """The lines by which contracts know the definitions that they name; `known` says of each where it stands."""
    clauses = "\n".join(re.findall(r"(?:requires|ensures)[^{]*\{.*?\}\s*\n", code, re.S))
    named = set(re.findall(r"[A-Za-z_ℕ]\w*", clauses))
    named |= {name for name in known if not name.isidentifier() and name.strip("◌") in clauses}
    by_module = {}
    for name in sorted(named):
        if name in known:
            by_module.setdefault(known[name], []).append(name)
    return "\n".join(line for module in sorted(by_module) for line in ghost_uses(module, by_module[module])) + "\n"


def article(name):
    """A type or a variant with its article."""
    return "%s `%s`" % ("An" if name[0] in "AEIOU" else "A", name)
