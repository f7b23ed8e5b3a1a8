#!/usr/bin/env python3
"""Calls the library for C from outside, and compares what it answers with what is known.

Usage: tools/c_library.py [ARCHIVE]   (./libcpp_demangle.a, which `make lib` leaves)

`cc` compiles include/cpp_demangle.h as C99 and, where there is a `c++`, as C++11, with all warnings as errors. The
programs of tools/c_library are then linked with ARCHIVE and run: over the repository's printings and the names whose
parts are known, over the edges of the calls, and over strings. Where there is a `valgrind`, they run under it too. The
programs that README.md and docs/C_LIBRARY.md show are compiled and run as they stand there, those in Rust and Python
where these are there, and have to print what stands below them.
"""
import os
import re
import shutil
import subprocess
import sys
import tempfile

import parts_answers
import printings

ROOT = os.path.dirname(os.path.dirname(os.path.abspath(__file__)))
SOURCES = os.path.join(ROOT, "tools", "c_library")
INCLUDE = os.path.join(ROOT, "include")
WARNINGS = ["-Wall", "-Wextra", "-pedantic", "-Werror", "-O2", f"-I{INCLUDE}"]
C, CXX = ["cc", "-std=c99", *WARNINGS], ["c++", "-std=c++11", *WARNINGS]
VALGRIND = ["valgrind", "--quiet", "--error-exitcode=9", "--leak-check=full"]
CODES = {"Read": {"UnexpectedEnd": 1, "UnexpectedText": 2, "Overflow": 3, "TooMuchRecursion": 4},
         "Print": {"BadTemplateArgReference": 5, "ForwardTemplateArgReference": 6, "BadLeafNameReference": 7,
                   "TooMuchRecursion": 8, "NotUtf8": 9, "TooLong": 10}}

KINDS = ["", "Function", "Data", "Special", "Block", "Keyed", "TopType"]


def question(line):
    """The line that asks printings.c of a printing."""
    how, what = line["outcome"]
    text = what.encode() if how == "Text" else b""
    limit = "any" if line["max"] is None else line["max"]
    options = "".join(option for option in "prl" if line[option]) or "-"
    code = 0 if how == "Text" else CODES[how][what]
    name = line["name"].encode("latin-1")
    return f"{line['parse']} {line['print']} {limit} {options} {code} x{name.hex()} x{text.hex()}\n"


def of_parts(line):
    """The printing of a name whose parts are known: their text stands without a result type."""
    kind, *parts = line["parts"]
    if kind in CODES:
        outcome = [kind, parts[0]]
    else:
        scope, base, after = parts[:3]
        outcome = ["Text", ("" if scope is None else scope + "::") + base + after]
    return {"parse": 96, **printings.DEFAULTS, "name": line["name"], "r": True, "outcome": outcome}


def divided():
    """The names whose parts are known, but for those that are read since the file was made."""
    return [line for line in printings.lines_of(parts_answers.CHOSEN) if line["name"] not in parts_answers.READ_SINCE]


def questions():
    lines = [line for path in (printings.BY_HAND, printings.CHOSEN) for line in printings.lines_of(path)]
    lines += map(of_parts, divided())
    return "".join(question(line) for line in lines if "outcome" in line)


def division(line):
    """The line that asks parts.c of a name whose parts are known."""
    name, (kind, *parts) = line["name"].encode("latin-1").hex(), line["parts"]
    if kind in CODES:
        return f"{CODES[kind][parts[0]]} 0 any x{name} - x x\n"
    scope, base, after, arity = parts
    words = " ".join("-" if part is None else "x" + part.encode().hex() for part in (scope, base, after))
    return f"0 {KINDS.index(kind)} {'any' if arity is None else arity} x{name} {words}\n"


def divisions():
    return "".join(map(division, divided()))


def run(words, given="", folder=ROOT):
    done = subprocess.run(words, input=given, stdout=subprocess.PIPE, stderr=subprocess.STDOUT, text=True, cwd=folder)
    if done.returncode:
        sys.exit(f"{' '.join(words)} ended with {done.returncode}\n{done.stdout}")
    return done.stdout


def tried(program, given=""):
    """Runs a program, and again under valgrind where that is there."""
    print(f"{os.path.basename(program)}: {run([program], given)}", end="")
    if shutil.which("valgrind"):
        print(f"{os.path.basename(program)} under valgrind: {run([*VALGRIND, program], given)}", end="")


def programs(folder, archive):
    for compiler, suffix in ((C, "c"), (CXX, "cc")):
        if not shutil.which(compiler[0]):
            print(f"there is no {compiler[0]}: nothing is tried in its language")
            continue
        for file in sorted(os.listdir(SOURCES)):
            stem, _, ending = file.partition(".")
            if ending == suffix:
                program = os.path.join(folder, stem)
                run([*compiler, os.path.join(SOURCES, file), archive, "-o", program])
                tried(program, GIVEN[stem]() if stem in GIVEN else "")


def shown(document, language):
    """The first program in a language that a document shows, and the lines that it says it prints."""
    with open(os.path.join(ROOT, document)) as file:
        found = re.search(rf"^```{language}\n(.*?)^```\n+((?:    [^\n]*\n)*)", file.read(), re.M | re.S)
    if not found:
        sys.exit(f"{document} shows no program in {language}")
    return found[1], re.sub(r"^    ", "", found[2], flags=re.M)


def example(folder, archive, document, language, compiler, words):
    """Compiles a shown program as it stands, runs it, and compares."""
    if not shutil.which(compiler[0]):
        print(f"there is no {compiler[0]}: the program of {document} in {language} isn't tried")
        return
    source, expected = shown(document, language)
    for file in (archive, os.path.join(INCLUDE, "cpp_demangle.h")):
        shutil.copy(file, folder)
    with open(os.path.join(folder, "show"), "w") as file:
        file.write(source)
    for command in (compiler, words):
        told = run(command, folder=folder)
    if told != expected:
        sys.exit(f"the program of {document} in {language} prints\n{told}")
    print(f"the program of {document} in {language} prints what is shown")


GIVEN = {"printings": questions, "parts": divisions}


def main():
    archive = os.path.abspath(sys.argv[1] if len(sys.argv) > 1 else os.path.join(ROOT, "libcpp_demangle.a"))
    if len(sys.argv) > 2 or not os.path.exists(archive):
        sys.exit(__doc__)
    names = ["_ZN5space3fooEibc", "_ZNK1a3mapIiE4findERKi", "_Z1fT_", "main"]
    shared = ["cc", "-shared", "-o", "libcpp_demangle.so", "-Wl,--whole-archive", "libcpp_demangle.a",
              "-Wl,--no-whole-archive"]
    with tempfile.TemporaryDirectory() as folder:
        programs(folder, archive)
        linked = ["cc", "-x", "c", "show", "-x", "none", "libcpp_demangle.a", "-o", "run"]
        example(folder, archive, "README.md", "c", linked, ["./run", *names])
        example(folder, archive, "docs/C_LIBRARY.md", "rust", ["rustc", "show", "-L", ".", "-o", "run"], ["./run"])
        example(folder, archive, "docs/C_LIBRARY.md", "python", shared, ["python3", "show"])


if __name__ == "__main__":
    main()
