"""What the tools that write code share: layout, the kit's formatter, and whether what stands in the crates is stale."""
import os
import re
import subprocess
import sys
import tempfile

import antt

WIDTH = 120


def ghost_uses(path, names):
    """Lines that make names of a module of definitions known to contracts."""
    return used_lines("ghost use Rattle.%s.{" % path, names, "};", 116)


def antt_uses(path, names):
    """The same in a file of definitions or of proofs."""
    return used_lines("use Rattle.%s.{" % path, names, "}", WIDTH)


def used_lines(head, names, tail, width):
    lines, now = [], ""
    for name in sorted(set(names)):
        more = now + (", " if now else "") + name
        if now and len(head + more + tail) > width:
            lines.append(head + now + tail)
            more = name
        now = more
    return lines + [head + now + tail] if now else lines


def code_use(crate, names, ahead=""):
    """A `use` of code; the formatter lays it out."""
    names = sorted(set(names))
    if not names:
        return ""
    inside = names[0] if len(names) == 1 else "{%s}" % ", ".join(names)
    return "%suse %s::%s;\n" % (ahead, crate, inside)


def comment(text, head="///", width=WIDTH):
    """A comment in lines of that width."""
    lines, now = [], head
    for word in text.split():
        if len(now) + 1 + len(word) > width:
            lines.append(now)
            now = head
        now += " " + word
    return "\n".join(lines + [now]) + "\n"


def formatted(name, files):
    """The same files as the kit's formatter writes them."""
    with tempfile.TemporaryDirectory() as top:
        folder = os.path.join(top, "crates", name)
        put(folder, files)
        with open(os.path.join(top, "crates.txt"), "w") as target:
            target.write("%s:\n" % name)
        done = subprocess.run(["rt", "fmt"], cwd=folder, capture_output=True, text=True)
        if done.returncode:
            sys.exit("rt fmt: " + done.stdout + done.stderr)
        return {path: read(os.path.join(folder, path)) for path in files}


def put(folder, files):
    for path, text in files.items():
        os.makedirs(os.path.dirname(os.path.join(folder, path)), exist_ok=True)
        with open(os.path.join(folder, path), "w") as target:
            target.write(text)


def read(path):
    with open(path) as source:
        return source.read()


def stale(name, files, by_hand=()):
    """What stands in a crate otherwise than it would be written; a file by hand is left alone."""
    folder, found = os.path.join(antt.CRATES, name), []
    for part in ("src", "specs", "proofs"):
        for top, _, there in os.walk(os.path.join(folder, part)):
            found += [os.path.relpath(os.path.join(top, file), folder) for file in there]
    gone = [path for path in found if path not in files and path not in by_hand]
    other = [path for path, text in files.items()
             if path not in found or read(os.path.join(folder, path)) != text]
    return sorted(other), sorted(gone)


def settle(crates, only_check):
    """Writes the files of each crate, or says with `only_check` which are stale, and fails where there is one."""
    bad = False
    for name, (files, by_hand) in crates.items():
        files = formatted(name, files)
        other, gone = stale(name, files, by_hand)
        if only_check:
            bad = bad or bool(other or gone)
            for path in other + gone:
                print("%s/%s is stale" % (name, path))
            continue
        folder = os.path.join(antt.CRATES, name)
        put(folder, {path: files[path] for path in other})
        for path in gone:
            os.remove(os.path.join(folder, path))
        print("%s: %d files, %d of them written" % (name, len(files), len(other)))
    sys.exit(bad)


def snake(name):
    return re.sub(r"(?<!^)(?=[A-Z])", "_", name).lower()
