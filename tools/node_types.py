"""The node types and the words as the code declares them: each with its variants, and these with their fields."""
import os
import re

import antt
from written import read, snake

SOURCES = [("demangle_leaf_nodes", "leaves"), ("demangle_nodes", "nodes"), ("demangle_entries", "entries")]
# a word's type, the module of its numbers, and the definition of these
WORDS = {"SimpleOperatorName": ("Operators", "operator"), "StandardBuiltinType": ("Builtins", "builtin"),
         "WellKnownComponent": ("Components", "component"), "RefQualifier": ("Qualifiers", "ref_qualifier"),
         "ExplicitObjectParameter": ("Qualifiers", "explicit_object")}
REFERENCES = ("WellKnown", "BackReference", "NonSubstitution")


class Field:
    """A field: its name, if it has one, and its type."""

    def __init__(self, name, kind):
        self.name, self.kind = name, kind


class Variant:
    """A variant, or a struct as the only one: its name, its fields, and the tag of its node."""

    def __init__(self, owner, name, fields):
        self.name, self.fields, self.named = name, fields, bool(fields) and fields[0].name is not None
        handle = name in REFERENCES and owner != "TemplateTemplateParam"
        self.tag = name if handle else owner + (name or "")
        self.path = owner + ("::" + name if name else "")


class Type:
    """A node type: its crate, whether it is `Copy`, its comment, its variants."""

    def __init__(self, crate, name, derived, said, variants):
        self.crate, self.name, self.variants = crate, name, variants
        self.copy, self.said = "Copy" in derived, said
        self.snake = snake(name)
        self.tree = "tree_of_" + self.snake

    def section(self):
        found = re.findall(r"ABI\s+section ([\d.]*\d)", self.said)
        return found[0] if found else ""


def split(text):
    """The parts of a list between commas that stand in no brackets."""
    parts, depth, now = [], 0, ""
    for sign in text:
        depth += (sign in "<([{") - (sign in ">)]}")
        if sign == "," and depth == 0:
            parts.append(now)
            now = ""
        else:
            now += sign
    return [part.strip() for part in parts + [now] if part.strip()]


def fields_of(text):
    found = []
    for part in split(text):
        part = re.sub(r"^pub ", "", part)
        name = re.match(r"(\w+): ", part)
        kind = part[name.end():] if name else part
        found.append(Field(name.group(1) if name else None, "isize" if kind == "Number" else kind))
    return found


def declared(crate, module):
    """The types of a file, in their order."""
    source, types = read(os.path.join(antt.CRATES, crate, "src", module + ".rt")), []
    form = r"((?:///[^\n]*\n)+)((?:#\[[^\n]*\n)*)pub (struct|enum) (\w+)\s*(\([^;]*\);|\{.*?\n\})"
    for said, derived, what, name, body in re.findall(form, source, re.S):
        said = " ".join(line.strip("/ ") for line in said.split("\n"))
        body = re.sub(r"\s*///[^\n]*", "", body).rstrip(";").strip()[1:-1]
        if what == "struct":
            variants = [Variant(name, None, fields_of(body))]
        else:
            variants = [variant_of(name, part) for part in split(body)]
        types.append(Type(crate, name, derived, said, variants))
    return types


def variant_of(owner, part):
    name, fields = re.match(r"(\w+)(?:\((.*)\))?$", " ".join(part.split())).groups()
    return Variant(owner, name, fields_of(fields or ""))


def all_types():
    return [found for crate, module in SOURCES for found in declared(crate, module)]


def words_of(name):
    """The variants of a word's type, by their numbers."""
    module, definition = WORDS[name]
    source = read(os.path.join(antt.CRATES, "demangle_vocab", "specs", module + ".antt"))
    found = re.findall(r"^number_of_%s (\w+) = (\d+)$" % definition, source, re.M)
    found = [variant for variant, number in sorted(found, key=lambda entry: int(entry[1])) if variant != "_"]
    return found or [{"ExplicitObjectParameter": "ExplicitObjectParameter"}[name]]
