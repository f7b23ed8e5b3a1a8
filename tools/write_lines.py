#!/usr/bin/env python3
"""Writes the functions of the lines of printing, with their proofs, from the lines' data (lines.py).

    tools/write_lines.py [--check] [crate ..]

Each line of demangle_printing/specs/Lines becomes a function in the crate of its group, which promises that it does the
steps of this line, whatever the trees are; functions of other steps stand beside it. With --check nothing is written:
it says which files aren't what would be written, and fails where there is one.
"""
import os
import re
import shutil
import sys

import antt
import line_choice
import line_functions
import line_uses
import lines
from line_terms import Cannot, wrapped
from written import formatted

# the crates, by the data's file of which the lines are
GROUPS = {"demangle_lines_special": "SpecialNames", "demangle_lines_arguments": "Arguments",
          "demangle_lines_types": "Types", "demangle_lines_names": "Names", "demangle_lines_functions": "Functions",
          "demangle_lines_expressions": "Expressions", "demangle_lines_inner": "Inside"}
ABOUT = {"SpecialNames": "special names", "Arguments": "template parameters and arguments", "Types": "types",
         "Names": "names", "Functions": "functions and their types", "Expressions": "expressions",
         "Inside": "what of inner items stands behind what is printed before it"}
# a line that is only the line of the first part: no function is made for it
FIRST_PART = [("line", [0])]
# lines of a module, at most
A_MODULE = 36


def lines_of(data, group):
    """The lines of a group with their steps, of equal ones the first alone."""
    function, found = lines.GROUPS[group], {}
    for name, patterns, _ in antt.clauses(lines.file_of(group)):
        if name == function and patterns[0].startswith("Tag.") and patterns[1] == "_":
            key = "%s %s" % ("inside" if group == "Inside" else "line", patterns[0][4:])
            if data.steps[key] != FIRST_PART:
                found.setdefault(repr(data.steps[key]), key)
    return list(found.values())


def docs():
    """Of each tag what the comments of the nodes' types say, and the section of the ABI."""
    found = {}
    for crate in ("demangle_leaf_nodes", "demangle_nodes", "demangle_entries"):
        folder = os.path.join(antt.CRATES, crate, "src")
        for file in sorted(os.listdir(folder)):
            with open(os.path.join(folder, file)) as source:
                docs_of(source.read(), found)
    return found


def docs_of(source, found):
    comment, owner, section = [], None, ""
    for line in source.split("\n"):
        said = re.match(r"\s*/// ?(.*)", line)
        head = re.match(r"pub (?:enum|struct) (\w+)", line)
        variant = re.match(r"    (\w+)[(,]", line)
        if said:
            comment.append(said.group(1))
            continue
        if head:
            owner = head.group(1)
            text = " ".join(comment)
            section = (re.findall(r"ABI\s+section ([\d.]*\d)", text) or [""])[0]
            found[owner] = (first_sentence(comment), section)
        elif variant and owner and comment:
            found[owner + variant.group(1)] = (first_sentence(comment), section)
        if not line.strip().startswith("#["):
            comment = []


def first_sentence(comment):
    text = " ".join(line for line in comment if line and not line.startswith("```") and "::=" not in line)
    return re.split(r"(?<=[^.])\.(?: |$)", text)[0].strip()


def doc_of(known, key):
    side, tag = key.split()
    text, section = known.get(tag, ("", ""))
    head = "What stands behind `%s`" % tag if side == "inside" else "The line of `%s`" % tag
    return "%s%s.%s" % (head, ": " + text[0].lower() + text[1:] if text else "",
                        " ABI section %s." % section if section else "")


def crate_of(data, name, known):
    """All files of a crate that are written, by their paths."""
    group = GROUPS[name]
    made, modules, missing = line_functions.Crate(name), {}, []
    keys = lines_of(data, group)
    for at, key in enumerate(keys):
        module = "lines" if at < A_MODULE else "lines_%d" % (at // A_MODULE + 1)
        try:
            function = made.line(module, key, data.steps[key], doc_of(known, key))
            modules.setdefault(module, []).append(function)
        except Cannot as why:
            missing.append("%s: %s" % (key, why))
    return files_of(made, name, group, modules), missing


def files_of(made, name, group, modules):
    files = {}
    used = sorted({module for module, *_ in made.functions})
    for module in used:
        functions = [entry for entry in made.functions if entry[0] == module]
        code = "\n".join(entry[2] for entry in functions)
        if module == "choices":
            code = re.sub(r"^fn ", "pub(crate) fn ", code, flags=re.M)
        about = ("Steps of which the lines of %s are made." if module == "choices" else "Lines of %s.") % ABOUT[group]
        files["src/%s.rt" % module] = "//! %s\n\n%s\n%s" % (about, line_uses.code_uses(name, code, made), code)
        for _, function, _, answers, invariants in functions:
            folder = "proofs/%s/%s/" % (module, function)
            files[folder + "Answers.antt"] = line_uses.answers(name, module, function, answers)
            if invariants:
                files[folder + "Invariants.antt"] = line_uses.invariants(name, module, function, invariants)
    if made.specs:
        files["specs/Choices.antt"] = line_uses.choices(made.specs)
    files["src/lib.rt"] = root(name, group, used, modules)
    specs = beside(name, "specs") + ["Choices"] * bool(made.specs)
    files["specs/Lib.antt"] = "".join("pub mod %s\n" % file for file in specs)
    files["proofs/Lib.antt"] = "".join("pub mod %s\n" % file for file in beside(name, "proofs"))
    return files


def beside(name, folder, end=".antt"):
    """The files of a crate that are written by hand."""
    there = os.path.join(antt.CRATES, name, folder)
    files = sorted(os.listdir(there)) if os.path.isdir(there) else []
    return [file[:-len(end)] for file in files if file.endswith(end) and not is_written(folder + "/" + file)]


def root(name, group, used, modules):
    text = wrapped("The lines of %s, each a function, for trees of any kind." % ABOUT[group], "", 114).split("\n")
    by_hand = beside(name, "src", ".rt")
    text = ["//! " + line for line in text] + ["#![tactic(auto)]", ""]
    text += ["mod %s;" % module for module in sorted(used + by_hand)] + [""]
    exported = {**{module: public(name, module) for module in by_hand}, **modules}
    return "\n".join(text) + "\n" + "".join(
        "pub " + line_uses.rust_use(module, functions) for module, functions in sorted(exported.items()) if functions)


def public(name, module):
    """The public functions of a module that is written by hand."""
    with open(os.path.join(antt.CRATES, name, "src", module + ".rt")) as source:
        return re.findall(r"^pub fn (\w+)", source.read(), re.M)


def written_files(name):
    """The files of a crate that this tool wrote before."""
    folder, found = os.path.join(antt.CRATES, name), []
    for top, _, files in os.walk(folder):
        part = os.path.relpath(top, folder)
        if part.split(os.sep)[0] in ("src", "specs", "proofs"):
            found += [os.path.normpath(os.path.join(part, file)) for file in files]
    return [file for file in found if is_written(file)]


def is_written(file):
    return bool(re.match(r"(src/(lib|nodes|insides|(lines|choices|blocks)\w*)\.rt|specs/(Choices|Lib|Tags)\.antt|"
                         r"proofs/((?:Lib|Nothing).antt|(lines|choices|blocks|nodes|insides)\w*/.*))$", file))


def read(path):
    with open(path) as source:
        return source.read()


def differs(path, text):
    return not os.path.exists(path) or read(path) != text


def choice_of(data, known):
    """The crate that chooses a node's line, which calls those of all groups."""
    functions = {}
    for name, group in GROUPS.items():
        if group != "Inside":
            for key in lines_of(data, group):
                functions.setdefault(repr(data.steps[key]), (name, line_functions.snake(key.split()[1])))
    return line_choice.Choice(data, functions, FIRST_PART).files()


def main(arguments):
    check = "--check" in arguments
    names = [name for name in arguments if name != "--check"] or [*GROUPS, line_choice.CRATE]
    data, known, stale = lines.Lines(), docs(), 0
    for name in names:
        files, missing = (choice_of(data, known), []) if name == line_choice.CRATE else crate_of(data, name, known)
        files = formatted(name, {path: text for path, text in files.items() if is_written(path)})
        folder = os.path.join(antt.CRATES, name)
        changed = [path for path, text in files.items() if differs(os.path.join(folder, path), text)]
        gone = [path for path in written_files(name) if path not in files]
        stale += len(changed) + len(gone)
        for path in changed + gone:
            if check:
                print("stale: %s/%s" % (name, path))
        if not check:
            write(folder, files, gone)
        print("%s: %d files, %d changed, %d gone%s" % (
            name, len(files), len(changed), len(gone), "".join("\n  not written: " + line for line in missing)))
    return 1 if check and stale else 0


def write(folder, files, gone):
    for path in gone:
        os.remove(os.path.join(folder, path))
        if path.startswith("proofs/") and not os.listdir(os.path.dirname(os.path.join(folder, path))):
            shutil.rmtree(os.path.dirname(os.path.join(folder, path)))
    for path, text in files.items():
        full = os.path.join(folder, path)
        os.makedirs(os.path.dirname(full), exist_ok=True)
        with open(full, "w") as target:
            target.write(text)


if __name__ == "__main__":
    sys.exit(main(sys.argv[1:]))
