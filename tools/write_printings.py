#!/usr/bin/env python3
"""Writes the printings of demangle_printing that are proved by computation.

    tools/write_printings.py

From printings-by-hand.jsonl, printings.jsonl.xz and events.jsonl.xz in tools/readings (printings.py) it makes the modules
Prints1, Tells1, Expanded1, ByHand1 and so on, and Declares in crates/demangle_printing/proofs, and names them in
Lib.antt there. The trees that no name has are written out here, and plain types are made by chance, always the same.
"""
import os
import random
import re

import antt
import printings
from write_readings import listed

FOLDER = os.path.join(antt.CRATES, "demangle_printing", "proofs")
A_FILE = 430  # lines of printings in a file
WIDTH = 118  # columns of a line
CAUSES = {"UnexpectedEnd": "(Unread End)", "UnexpectedText": "(Unread Text)", "BadBackReference": "(Unread Bad)",
          "Overflow": "(Unread Over)", "TooMuchRecursion": "Deep"}
KINDS = ("prefix template_prefix unqualified_name template_param decltype data_member_prefix nested_name "
         "virtual_table").split()
FAULTS = ("BadTemplateArgReference ForwardTemplateArgReference BadLeafNameReference TooMuchRecursion NotUtf8 "
          "TooLong").split()
# what is unfolded, by the module that it comes from
UNFOLDED = {
    "Rattle.std.specs.Str": ["is_utf8", "chars"],
    "Rattle.std.specs.Char": ["encode_utf8"],
    "Rattle.std.specs.Fmt": ["digits"],
    "Rattle.demangle_core.specs.Table": ["empty_table", "added", "size", "entry_at"],
    "Rattle.demangle_core.specs.Lookups": ["leaf_name", "template_args", "is_special"],
    "Rattle.demangle_text.specs.Word": ["word_at"],
    "Rattle.demangle_text.specs.Number": ["number_from", "natural_from"],
    "Rattle.demangle_text.specs.Characters": ["sequence_len"],
    "Rattle.demangle_vocab.specs.WordTable": ["word_read", "table_from"],
    "Rattle.demangle_grammar.specs.Rows": ["rule"],
    "Rattle.demangle_grammar.specs.Code": [
        "eat_at", "taken_over", "many", "all_of", "rows_of", "turns", "turns_of", "optional_at", "rows_at", "all_at",
        "some_at", "trial_part", "taken_word", "cread"],
    "Rattle.demangle_grammar.specs.Expand": ["expand"],
    "Rattle.demangle_printing.specs.State": ["written"],
    "Rattle.demangle_printing.specs.Scope": ["scope_leaf", "scope_argument"],
    "Rattle.demangle_printing.specs.Act": ["act"],
    "Rattle.demangle_printing.specs.Lines": ["line_steps", "inside_steps"],
    "Rattle.demangle_printing.specs.Print": ["body", "print"],
    "Rattle.demangle_printing.specs.Outcome": ["outcome"],
}
# where the other names come from that a printing may use
USES = {
    "Rattle.std.specs.Prelude": ["true", "false", "codes", "[]", "◌∷◌", "◌++◌", "None", "Some"],
    "Rattle.std.proofs.Common": ["refl"],
    "Rattle.demangle_core.specs.Core": ["Tag", "end", "node", "place", "number", "flag", "chosen"],
    "Rattle.demangle_text.specs.Kind": ["End", "Text", "Bad", "Over", "Unread", "Deep"],
    "Rattle.demangle_printing.specs.State": FAULTS + KINDS,
    "Rattle.demangle_printing.specs.Outcome": ["Shown", "NotRead", "NotPrinted"],
    "Rattle.demangle_printing.specs.Declarators": [
        "builtin", "class", "const", "to", "function", "none", "more", "pointer", "lvalue", "rvalue"],
    "Rattle.demangle_printing.proofs.Conforms": [
        "options", "defaults", "Prints", "said", "push", "pop", "Tells", "PrintsExpanded", "PrintsTree", "Declares"],
}
# Trees that no name has: the tree, the input, the text.
INT = "node Tag.BuiltinTypeStandard (chosen 1 8 end)"
TREES = [
    ("node Tag.OperatorNameCast (node Tag.TypeHandleBuiltin (%s end) end) end" % INT, "", " int"),
    ("node Tag.QualifiedBuiltin (node Tag.CvQualifiers (flag true (flag true (flag true end))) (%s end)) end" % INT, "",
     "int const volatile restrict"),
    ("node Tag.DataMemberPrefix (node Tag.SourceName (node Tag.Identifier (place 0 1 end) end) end) end", "a", "a"),
]


# ---- terms
def bytes_of(data):
    """A list of bytes: quoted where they are plain."""
    parts = []
    for plain in re.findall(rb"[ -~]+|[^ -~]", data):
        if 32 <= plain[0] < 127:
            parts.append('codes "%s"' % re.sub(r'(["\\])', r"\\\1", plain.decode()))
        else:
            parts.append("(%d ∷ [])" % plain[0])
    return "(%s)" % " ++ ".join(parts) if parts else "[]"


def outcome_of(line):
    how, what = line["outcome"]
    if how == "Text":
        return "(Shown %s)" % bytes_of(what.encode())
    return "(NotRead %s)" % CAUSES[what] if how == "Read" else "(NotPrinted %s)" % what


def name_of(line):
    return bytes_of(line["name"].encode("latin-1"))


def options_of(line):
    values = [line.get(option, printings.DEFAULTS[option]) for option in printings.OPTIONS]
    if values == list(printings.DEFAULTS.values()):
        return "defaults"
    limit = "None" if values[-1] is None else "(Some %d)" % values[-1]
    return "(options %s %s)" % (" ".join(str(value).lower() for value in values[:-1]), limit)


def printing_of(line):
    return "Prints %d %s %s %s" % (line.get("parse", 96), options_of(line), name_of(line), outcome_of(line))


def event_of(event):
    if event[0] == "text":
        return "said %s" % bytes_of(event[1].encode())
    kind = printings.snake(event[1]) if event[0] == "push" else ""
    return "push " + ("kind." + kind if kind == "template_args" else kind) if kind else "pop"


def events_of(line):
    fault = "None" if line["fault"] is None else "(Some %s)" % line["fault"]
    events = listed([event_of(event) for event in line["events"]])
    return "Tells %s %s %s %s" % (options_of(line), name_of(line), events, fault)


def tree_of(tree, data, text):
    return "PrintsTree (%s) %s (Shown %s)" % (tree, bytes_of(data.encode()), bytes_of(text.encode()))


# ---- plain types, made by chance: what is mangled, and the type
LETTERS = "vwbcahstijlmxynofdegz"
CLASSES = ("a", "b2", "foo", "_GLOBAL__N_1", "_GLOBAL_", "é")
MARKS = {"P": "pointer", "R": "lvalue", "O": "rvalue"}


def plain_type(chance, depth):
    shape = chance.choice("bc" if depth == 0 else "bcKPPRRROFFF")
    if shape == "b":
        letter = chance.randrange(len(LETTERS))
        return LETTERS[letter].encode(), "(builtin %d)" % letter
    if shape == "c":
        name = chance.choice(CLASSES).encode()
        return b"%d%s" % (len(name), name), "(class %s)" % bytes_of(name)
    while True:
        inner, told = plain_type(chance, depth - 1)
        first = inner[:1]
        if shape == "F" and first != b"F":
            return function_type(chance, depth, inner, told)
        if shape == "K" and first not in (b"F", b"K"):
            return b"K" + inner, "(const %s)" % told
        if shape == "P" or shape in "RO" and first not in (b"R", b"O"):
            return shape.encode() + inner, "(to %s %s)" % (MARKS[shape], told)


def function_type(chance, depth, result, told):
    if chance.random() < 0.3:
        return b"F%svE" % result, "(function %s (more (builtin 0) none))" % told
    types = [plain_type(chance, chance.randrange(depth)) for _ in range(chance.randrange(1, 4))]
    parameters = "".join("(more %s " % text for _, text in types) + "none" + ")" * len(types)
    return b"F%s%sE" % (result, b"".join(data for data, _ in types)), "(function %s %s)" % (told, parameters)


def plain_types(count):
    chance, found = random.Random(7), {}
    while len(found) < count:
        data, told = plain_type(chance, chance.randrange(2, 6))
        if len(data) <= 60:
            found[data] = "Declares %s %s" % (bytes_of(data), told)
    return [found[data] for data in sorted(found, key=lambda data: (len(data), data))]


# ---- files
def filled(text, width=WIDTH):
    """A line broken at spaces outside of quoted texts."""
    lines = [""]
    for word in re.findall(r'(?:"(?:[^"\\]|\\.)*"|[^\s"])+', text):
        if lines[-1] and len(lines[-1]) + len(word) >= width:
            lines.append("   ")
        lines[-1] += (" " if lines[-1] else "") + word
    return lines


def unfoldings():
    return filled("unfolding " + " ".join(name for names in UNFOLDED.values() for name in names))


def write(stem, about, statements, proof="refl"):
    lines = []
    for number, statement in enumerate(statements):
        name = "%s_%d" % (stem.lower().rstrip("0123456789"), number + 1)
        lines += ["", *filled("%s : %s" % (name, statement)), *unfoldings(), "%s = %s" % (name, proof)]
    with open(os.path.join(FOLDER, stem + ".antt"), "w") as out:
        out.write("\n".join(["-- %s Written by tools/write_printings.py." % about, *uses_of(lines), *lines]) + "\n")
    return stem


def uses_of(lines):
    """The names that the lines use, by the module that they come from."""
    text = re.sub(r'"[^"]*"', "", "\n".join(lines))
    words = set(re.findall(r"[^\s().;]+", text)) | {sign for sign in ("◌∷◌", "◌++◌") if sign.strip("◌") in text}
    found = dict(UNFOLDED)
    for module, names in USES.items():
        used = [name for name in names if name in words]
        if used:
            found[module] = found.get(module, []) + used
    for module, names in found.items():
        for line in filled(", ".join(names), WIDTH - len(module) - 8):
            yield "use %s.{%s}" % (module, line.strip().rstrip(","))
    if "kind.template_args" in "\n".join(lines):
        yield "use Rattle.demangle_printing.specs.State as kind"


def write_all(stem, about, statements):
    """In several files; gives back their names."""
    parts, length = [[]], 0
    for statement in statements:
        length += len(filled(statement)) + len(unfoldings()) + 2
        if length > A_FILE:
            parts.append([])
            length = 0
        parts[-1].append(statement)
    return [write("%s%d" % (stem, number + 1), about, part) for number, part in enumerate(parts)]


def main():
    for file in os.listdir(FOLDER):
        if re.fullmatch(r"(Prints|Tells|Expanded|Declares|ByHand)\d*\.antt", file):
            os.remove(os.path.join(FOLDER, file))
    chosen = printings.lines_of(printings.CHOSEN)
    by_hand = [printing_of(line) for line in printings.lines_of(printings.BY_HAND)] + [tree_of(*tree) for tree in TREES]
    plain = [line for line in chosen if line["outcome"][0] == "Text" and options_of(line) == "defaults"]
    plain = [line for line in plain if not re.search(r"T\d*_", line["name"])]  # without template parameters
    expanded = ["PrintsExpanded %s %s" % (name_of(line), outcome_of(line)) for line in plain]
    stems = write_all("Prints", "Printings of whole names, by computation.", [printing_of(line) for line in chosen])
    stems += write_all("Tells", "Events of whole names, by computation.",
                       [events_of(line) for line in printings.lines_of(printings.EVENTS)])
    stems += write_all("Expanded", "Printings of expanded names, by computation.", expanded)
    stems += write_all("ByHand", "Printings that were written out by hand.", by_hand)
    stems += [write("Declares", "Plain types that print as they are declared, by computation.", plain_types(60),
                    "(refl, refl)")]
    library = os.path.join(FOLDER, "Lib.antt")
    with open(library) as file:
        made = re.compile(r"mod (Prints|Tells|Expanded|Declares|ByHand)\d*")
        modules = [line for line in file.read().split("\n") if line and not made.fullmatch(line)]
    with open(library, "w") as file:
        file.write("\n".join(sorted(modules + ["mod " + stem for stem in stems])) + "\n")


if __name__ == "__main__":
    main()
