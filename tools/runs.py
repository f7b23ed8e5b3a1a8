"""Programs made of the crates here, run by `rt try`, so that the crates need not be proved.

A program is one source file, in a folder of its own. It reads questions, a line each, and prints an answer to each.
PARTS is source that every program may have: numbers and bytes as they stand in a question.
"""
import os
import re
import shutil
import subprocess
import sys
import tempfile

ROOT = os.path.dirname(os.path.dirname(os.path.abspath(__file__)))
AT_ONCE = 500  # questions in one run of a program, which may not write more than 1 MiB

PARTS = """
fn number(text: &str) -> u32 {
    let mut value = 0;
    for byte in text.as_bytes() {
        value = value * 10 + (*byte - b'0') as u32;
    }
    value
}

fn digit(byte: u8) -> u8 {
    if byte < b'a' { byte - b'0' } else { byte - b'a' + 10 }
}

fn bytes(alloc: Global, text: &str) -> io::Result<Vec<u8>> {
    let mut bytes = Vec::new(alloc);
    let digits = text.as_bytes();
    for i in 0..digits.len() / 2 {
        bytes.push(digit(digits[2 * i]) * 16 + digit(digits[2 * i + 1]))?;
    }
    Ok(bytes)
}
"""


def listed():
    """The crates of crates.txt, each with the crates that it stands on."""
    with open(os.path.join(ROOT, "crates.txt")) as file:
        lines = [line.split(":") for line in file.read().splitlines() if ":" in line and not line.startswith("#")]
    return {name: below.split() for name, below in lines}


def made(folder, name, program, tops):
    """The program's crate, beside copies of the crates that it stands on: these, and those below them."""
    below, wanted = listed(), set(tops)
    for crate in reversed(list(below)):
        if crate in wanted:
            wanted.update(below[crate])
    order = [crate for crate in below if crate in wanted]
    with open(os.path.join(folder, "crates.txt"), "w") as file:
        file.writelines(f"{crate}: {' '.join(below[crate])}\n" for crate in order)
        file.write(f"{name}: {' '.join(order)}\n")
    for crate in order:
        shutil.copytree(os.path.join(ROOT, "crates", crate), os.path.join(folder, "crates", crate),
                        ignore=shutil.ignore_patterns("out", "must-fail"))
    crate = os.path.join(folder, "crates", name)
    os.makedirs(os.path.join(crate, "src"))
    with open(os.path.join(crate, "src", "main.rt"), "w") as file:
        file.write(program)
    return crate


def answers(name, program, tops, questions, form):
    """The program's answers to these questions; `form` is that of an answer's line."""
    with tempfile.TemporaryDirectory() as folder:
        crate, inputs = made(folder, name, program, tops), os.path.join(folder, "inputs")
        os.mkdir(inputs)
        for first in range(0, len(questions), AT_ONCE):
            with open(os.path.join(inputs, f"{first:08}"), "w") as file:
                file.writelines(question + "\n" for question in questions[first:first + AT_ONCE])
        done = subprocess.run(["rt", "try", "--cases", inputs], cwd=crate, capture_output=True, text=True)
    found = re.findall(form, done.stdout, re.M)
    if len(found) != len(questions):
        sys.exit(done.stdout[-2000:] + done.stderr[-2000:])
    return found
