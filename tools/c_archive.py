#!/usr/bin/env python3
"""Proves the library for C and what it stands on, and leaves libcpp_demangle.a and cpp_demangle.h at the top.

Usage: tools/c_archive.py

`rt ci` proves a copy of these crates alone, without those above and beside them; what it proved it keeps on the machine
for the gate, and takes what an earlier run kept. The toolchain then compiles the proved crate as a static library, into
which goes the toolchain's C part, that calls `malloc`, `realloc` and `free`.
"""
import os
import shutil
import subprocess
import sys
import tempfile

ROOT = os.path.dirname(os.path.dirname(os.path.abspath(__file__)))
CRATE, KIND = "cpp_demangle_c", "staticlib"
ARCHIVE, HEADER = "libcpp_demangle.a", "cpp_demangle.h"
MEMORY = "heap.pic.o"  # the member of the toolchain's C part that takes and frees memory


def listed():
    """The lines of crates.txt, each by its crate: the crate's kind and the libraries that it names."""
    with open(os.path.join(ROOT, "crates.txt")) as file:
        lines = [line.split(":") for line in file.read().splitlines() if ":" in line and not line.startswith("#")]
    return {name.split()[0]: (name.split()[1:], below.split()) for name, below in lines}


def below(lines, crate):
    """The repository's crates below this one, each behind those that it stands on."""
    found = []
    for name in lines[crate][1]:
        if name in lines:
            found += [it for it in [*below(lines, name), name] if it not in found]
    return found


def copied(folder, lines):
    """Copies the crate and what it stands on into a folder, as a repository of its own, and answers their names."""
    names = [*below(lines, CRATE), CRATE]
    for name in names:
        shutil.copytree(os.path.join(ROOT, "crates", name), os.path.join(folder, "crates", name),
                        ignore=shutil.ignore_patterns("out", "must-fail"))
    with open(os.path.join(folder, "crates.txt"), "w") as file:
        file.writelines(f"{' '.join([name, *lines[name][0]])}: {' '.join(lines[name][1])}\n" for name in names)
    shutil.copy(os.path.join(ROOT, "HANDLES"), folder)
    return names


def command(kit, lines, names):
    """The command that compiles the proved crate, in its folder, into the archive."""
    words = [os.path.join(kit, "bin", "rattle"), "build", "--crate-name", CRATE, "src/lib.rt"]
    for name in ["std", *lines[CRATE][1]]:
        place = os.path.join("..", name, "out", "rlib") if name in lines else os.path.join(kit, "rlibs")
        words += ["--extern", f"{name}={os.path.join(place, name)}.rlib"]
    words += ["-L", f"dependency={os.path.join(kit, 'rlibs')}"]
    for name in names[:-1]:
        words += ["-L", f"dependency={os.path.join('..', name, 'out', 'rlib')}"]
    words += ["--antt-project", os.path.join(kit, "rattle", "logic", "antt-project.json")]
    words += ["--logic-built", os.path.join(kit, "logic_built"), "--toolchain", os.path.join(kit, "toolchain")]
    return [*words, "--crate-type", KIND, "--backend", "llvm", "-o", ARCHIVE]


def run(words, folder):
    done = subprocess.run(words, cwd=folder, stdout=subprocess.PIPE, stderr=subprocess.STDOUT, text=True)
    if done.returncode:
        sys.exit(done.stdout)
    return done.stdout


def main():
    if len(sys.argv) > 1:
        sys.exit(__doc__)
    lines, kit = listed(), os.path.dirname(run(["rt", "doc"], ROOT).strip())
    with tempfile.TemporaryDirectory() as folder:
        names = copied(folder, lines)
        run(["rt", "ci"], folder)
        crate = os.path.join(folder, "crates", CRATE)
        run(command(kit, lines, names), crate)
        run(["ar", "x", os.path.join(kit, "c", "liblibc_c.a"), MEMORY], crate)
        run(["ar", "rcs", ARCHIVE, MEMORY], crate)
        shutil.copy(os.path.join(crate, ARCHIVE), ROOT)
    shutil.copy(os.path.join(ROOT, "include", HEADER), ROOT)


if __name__ == "__main__":
    main()
