#!/usr/bin/env python3
"""Refuses each allocation of a few runs in turn, and with a program its reads and writes; tells what is then amiss.

Usage: tools/refusals.py [--program PROGRAM]

The runs are of `demangle_symbol`, of `Symbol::structured_demangle` into a listener that takes no memory, and of `run`
over a few lines. They stand in one source file, which `rt try` compiles once (runs.py); it refuses the allocation that
has the number LAST. A case makes so many allocations first that this is the wanted one of the run. A refused
allocation has to give want of memory or what the run gives else, and `run` writes a front of that. PROGRAM is
`cppfilt`: its first read fails, and then its first write.
"""
import os
import re
import subprocess
import sys
import tempfile

import runs

LAST = 600  # which allocation is refused: more than any run here makes
NAMES = ["_ZN5space3fooEibc", "_ZNSt6vectorIiSaIiEE9push_backERKi", "_ZZ1fvENKUlvE_clEv"]
LINES = "foo\n_Z1fv\r\n_Z"
KINDS = [*(f"name {name}" for name in NAMES), f"told {NAMES[1]}", "lines"]
PROGRAM = """
#![tactic(auto)]

use cpp_demangle::{BorrowedSymbol, DemangleNodeType, DemangleOptions, DemangleWrite, ParseOptions, demangle_symbol};
use cppfilt_ends::standard::{StdSink, StdSource};
use cppfilt_run::run::run;
use demangle_context::SinkFault;
use std::alloc::Global;
use std::io::{self, Read};

/// A listener that counts what it is told.
#[derive(Drop)]
struct Counting {
    events: u64,
}

impl DemangleWrite for Counting {
    ghost seen = { λ s. record { text = None; calls = None; faults = 0; refusals = 0; } };

    fn push_demangle_node(&mut self, _kind: DemangleNodeType) {
        self.events += 1;
    }

    fn write_string(&mut self, _s: &str) -> Result<(), SinkFault> {
        self.events += 1;
        Ok(())
    }

    fn pop_demangle_node(&mut self) {
        self.events += 1;
    }
}

fn word(input: &mut io::Stdin, room: &mut [u8]) -> io::Result<usize> {
    for at in 0..room.len() {
        if input.read(&mut room[at..at + 1])? == 0 || room[at] == b' ' {
            return Ok(at);
        }
    }
    Ok(room.len())
}

fn number(digits: &[u8]) -> u64 {
    let mut value = 0;
    for digit in digits {
        value = value * 10 + (*digit - b'0') as u64;
    }
    value
}

fn told(alloc: Global, name: &[u8], events: &mut Counting) -> bool {
    let Ok(symbol) = BorrowedSymbol::new(alloc, name) else {
        return false;
    };
    symbol.structured_demangle(alloc, events, &DemangleOptions::default()).is_ok()
}

fn main(rt: HostRuntime) -> io::Result<()> {
    let mut input = rt.stdin();
    let (mut room, mut name) = ([0u8; 64], [0u8; 64]);
    let length = word(&mut input, &mut room)?;
    for _ in 0..number(&room[..length]) {
        let _spare: Vec<u8> = Vec::with_capacity(rt.alloc(), 8)?;
    }
    let length = word(&mut input, &mut room)?;
    let kind = &room[..length];
    if kind == b"lines".as_slice() {
        let (mut source, mut output) = (StdSource::new(input), StdSink::new(rt.stdout()));
        let status = run(rt.alloc(), Vec::new(rt.alloc()), &mut source, &mut output, &mut StdSink::new(rt.stderr()));
        let code = status.code();
        println!(rt; "|{code}")?;
        return Ok(());
    }
    let length = word(&mut input, &mut name)?;
    let name = &name[..length];
    if kind == b"told".as_slice() {
        let mut events = Counting { events: 0 };
        let done = told(rt.alloc(), name, &mut events);
        let events = events.events;
        println!(rt; "{done} {events}")?;
        return Ok(());
    }
    match demangle_symbol(rt.alloc(), name, &ParseOptions::default(), &DemangleOptions::default()) {
        Ok(text) => println!(rt; "{text}")?,
        Err(fault) => println!(rt; "{fault}")?,
    }
    Ok(())
}
"""


def answers():
    """What each kind of run writes where its first allocation is refused, its second, and so on; the last is whole."""
    with tempfile.TemporaryDirectory() as folder:
        crate = runs.made(folder, "refused", PROGRAM, ["cppfilt_run"])
        inputs = os.path.join(folder, "inputs")
        os.mkdir(inputs)
        for kind, said in enumerate(KINDS):
            for at in range(1, LAST + 1):
                with open(os.path.join(inputs, f"{kind}{at:04}"), "w", newline="") as file:
                    file.write(f"{LAST - at} {said} {LINES if said == 'lines' else ''}")
        words = ["rt", "try", "--steps", "1", "--fail-alloc", str(LAST), "--cases", inputs]
        done = subprocess.run(words, cwd=crate, capture_output=True)
    parts = re.split(rb"^== (\d)(\d{4})\n", done.stdout, flags=re.M)[1:]
    found = [[] for _ in KINDS]
    for kind, answer in zip(parts[::3], parts[2::3]):
        found[int(kind)].append(answer.rstrip(b"\n"))
    if any(len(of_kind) != LAST for of_kind in found):
        sys.exit(done.stdout[-2000:].decode(errors="replace") + done.stderr[-2000:].decode(errors="replace"))
    return found


def is_right(said, answer, whole):
    """Whether the answer is want of memory, with nothing told and a front of the lines written, or the whole one."""
    if answer == whole:
        return True
    if said == "lines":
        written, _, status = answer.rpartition(b"|")
        return status == b"6" and whole.rpartition(b"|")[0].startswith(written)
    return answer == (b"false 0" if said.startswith("told") else b"out of memory")


def amiss(program):
    """How the program fails to tell that its first read, or its first write, fails."""
    read = subprocess.run([program], stdin=os.open("/", os.O_RDONLY), capture_output=True)
    if (read.returncode, read.stdout, read.stderr) != (3, b"", b"cppfilt: read fault\n"):
        yield f"a failed read: {read}"
    with open("/dev/full", "wb") as full:
        write = subprocess.run([program], input=LINES.encode(), stdout=full, stderr=subprocess.PIPE)
    if (write.returncode, write.stderr) != (4, b"cppfilt: write fault\n"):
        yield f"a failed write: {write}"


def main():
    faults = []
    for said, found in zip(KINDS, answers()):
        refused = sum(answer != found[-1] for answer in found)
        print(f"{said}: {refused} of its allocations were refused; whole: {found[-1]}")
        faults += [f"{said}: {answer}" for answer in found if not is_right(said, answer, found[-1])]
    if "--program" in sys.argv:
        faults += amiss(sys.argv[sys.argv.index("--program") + 1])
    print("\n".join([*faults, f"{len(faults)} amiss"]))
    sys.exit(bool(faults))


main()
