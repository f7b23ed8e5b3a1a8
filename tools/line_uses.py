"""The imports of files of lines (write_lines.py), by the names that stand in them, and these files whole."""
import re

from line_terms import wrapped

PRINTING, MEETS, LINES = ("Rattle.demangle_printing.specs.", "Rattle.demangle_meets.", "Rattle.demangle_lines.")
# the module of each name that code and proofs cite
NAMES = {
    "Rattle.std.specs.Prelude": "option_map",
    "Rattle.demangle_core.specs.Core": "Tag",
    PRINTING + "Lines": "line_steps inside_steps",
    MEETS + "specs.Meets": "Meets",
    MEETS + "specs.Place": "world_of",
    "Rattle.demangle_context.specs.PageOf": "page",
    LINES + "specs.Does": "Chooses Holds Runs",
    LINES + "specs.Pieces": "each_of",
    LINES + "specs.ScopeOf": "lent_scope",
    PRINTING + "World": "listed",
}
PROOFS = {
    "Rattle.std.proofs.Common": "◌∷◌ [] Some codes true false refl arith option_map drop length",
    "Rattle.demangle_core.specs.Core": "Tag",
    "Rattle.demangle_core.specs.Lookups": "as_prefix as_type",
    PRINTING + "Lines": "line_steps inside_steps",
    PRINTING + "Step": "Step Piece Test",
    PRINTING + "Act": "done",
    PRINTING + "Reader": "held_for run",
    PRINTING + "World": "listed",
    MEETS + "specs.Meets": "Remains",
    MEETS + "specs.Place": "world_of",
    "Rattle.demangle_context.specs.PageOf": "page",
    MEETS + "proofs.Acts": "meets_ask meets_block meets_call meets_done meets_set meets_space meets_text",
    MEETS + "proofs.Around": "meets_fence meets_held",
    MEETS + "proofs.Events": "meets_event",
    MEETS + "proofs.Lines": "meets_rest",
    MEETS + "proofs.Parts": "meets_at meets_found",
    LINES + "specs.Pieces": "each_of",
    LINES + "specs.ScopeOf": "lent_scope stack_scope",
    LINES + "proofs.Doing": "always both_off both_on chooses_no chooses_yes each_first each_never each_next each_over "
    "either_off either_on isnt_as meets_params",
}
# what code calls, by the crate that has it
CALLS = {
    "demangle_context": "Context DemangleNodeType DemangleWrite PrintFlag",
    "demangle_lines": "Below Scope Tree argument close close_spaced count_of entry_of has_prefix_arguments "
    "has_type_arguments hold inner_leaf inner_ordinal inner_part inner_spelled innermost_part is_anonymous is_inner_word "
    "is_innermost_word is_negative is_qualified is_special is_there is_true is_word itself leaf list magnitude members "
    "name name_part need_leaf operand ordinal part part_at resource spelled spelled_itself spells suffix taken with_inner_these "
    "with_leaf_name with_prefix_arguments with_these with_type_arguments",
    "crate::arrays": "before_bounds",
    "crate::parameters": "parameters_behind",
    "crate::references": "joined",
}
KIND = "kind."


def has(name, text):
    if name == "◌∷◌":
        return "∷" in text
    return bool(re.search(r"(?<![\w.>-])%s(?![\w-])" % re.escape(name), text))


def is_called(name, code):
    """Whether a type stands in code, or a function is called there, and no method of its name."""
    if name[0].isupper():
        return has(name, code)
    return bool(re.search(r"(?<!\w)(?<!(?<!\.)\.)%s\(" % name, code))


def braces(head, names, end):
    """An import with as many names a line as fit."""
    lines, line = [], ""
    for name in names:
        if line and len(head) + len(line) + len(name) + 6 > 116:
            lines.append(line)
            line = ""
        line += (", " if line else "") + name
    return "".join("%s.{%s}%s\n" % (head, one, end) for one in lines + [line] if one)


def uses(table, text, head, end):
    found = ""
    for module, names in table.items():
        cited = [name for name in names.split() if has(name, text)]
        found += braces(head + module, cited, end) if cited else ""
    return found


CLAUSE = re.compile(r"^    (?:requires|ensures) (?:.*\n)+?(?=^(?:\{|    (?:requires|ensures)))", re.M)


def code_uses(crate, code, made):
    """The imports of a file of code."""
    contracts = "\n".join(CLAUSE.findall(code))
    specs = [re.match(r"abbrev pub (\w+) :", spec).group(1) for spec in made.specs]
    found = uses(NAMES, contracts, "ghost use ", ";")
    found += braces("ghost use Rattle.%s.specs.Choices" % crate, [name for name in specs if has(name, contracts)], ";")
    own = [entry[1] for entry in made.functions if entry[0] == "choices"]
    body = strip(code)
    calls = {"crate::choices": [name for name in own if is_called(name, body) and not re.search(r"fn %s<" % name, code)]}
    calls.update({module: [name for name in names.split() if is_called(name, body)] for module, names in CALLS.items()})
    order = sorted(calls, key=lambda module: (not module.startswith("crate"), module))
    return found + "\n" + "".join(rust_use(module, calls[module]) for module in order if calls[module])


def strip(code):
    """Code without its comments, contracts and texts."""
    code = CLAUSE.sub("", re.sub(r"///.*", "", code))
    return re.sub(r'"(?:[^"\\]|\\.)*"', '""', code)


def rust_use(module, names):
    names = sorted(names, key=lambda name: (not name[0].isupper(), name))
    line = "use %s::{%s};\n" % (module, ", ".join(names)) if len(names) > 1 else "use %s::%s;\n" % (module, names[0])
    if len(line) <= 101:
        return line
    return "use %s::{\n    %s,\n};\n" % (module, wrapped(", ".join(names), "    ", 95))


def proof_uses(crate, text):
    found = uses(PROOFS, text, "use ", "")
    if KIND in text:
        found += "use Rattle.demangle_printing.specs.State as kind\n"
    specs = sorted(set(re.findall(r"\b(?:choice|each|condition|under)_\d+_\w+", text)))
    found += braces("use Rattle.%s.specs.Choices" % crate, [name for name in specs if has(name, text)], "")
    return found


def answers(crate, module, function, goals):
    text = ""
    for goal, unfolding, term in goals:
        text += "\npub %s : goal.%s\n%s%s\n" % (goal, goal, "unfolding %s\n" % unfolding if unfolding else "", wrapped(
            "%s g c = %s" % (goal, term), "    "))
    unfolded = " ".join(unfolding for _, unfolding, _ in goals)
    return "%suse Rattle.%s.proofs.%s.%s.Goals as goal\n%s" % (proof_uses(crate, text + unfolded), crate, module, function, text)


def invariants(crate, module, function, loops):
    text = "".join("\nabbrev pub invariant-%s : goal.invariant-%s\n%s\n" % (loop, loop, wrapped(
        "invariant-%s g l = %s" % (loop, term), "    ")) for loop, term in loops.items())
    return "%suse Rattle.%s.proofs.%s.%s.Given as goal\n%s" % (proof_uses(crate, text), crate, module, function, text)


def choices(specs):
    """The conditions of lines, and the steps that they choose."""
    text = "\n".join("\n".join(wrapped(line, "    ") for line in spec.split("\n")) for spec in specs)
    table = {"Rattle.std.specs.Prelude": "true false [] ◌∷◌ codes", "Rattle.demangle_core.specs.Lookups": "as_prefix as_type",
             PRINTING + "Step": "Piece Test Step"}
    head = uses(table, text, "use ", "")
    if KIND in text:
        head += "use Rattle.demangle_printing.specs.State as kind\n"
    return "-- The conditions of lines, the steps that they choose, and those for each tree of a list.\n%s\n%s" % (head, text)
