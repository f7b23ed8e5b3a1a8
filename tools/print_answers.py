#!/usr/bin/env python3
"""Prints names with the parser and the printer themselves, and counts the outcomes that are others than expected.

Usage: tools/print_answers.py [FILE ..]   (the repository's own printings where FILE is left out)

FILE has a line for each printing, as printings.py tells them: an outcome under limits and options, or a list of events.
A program is made of the crates here (runs.py). Its listener keeps the events, so texts are compared with where nodes
begin and end too where a line tells them. Behind a fault ends of nodes may come, no more than stood open. A list of
events in which more nodes stand open than there are levels by default was made under a higher limit.
"""
import itertools
import re
import sys

import printings
import runs

SHOWN = 20  # how many wrong outcomes are printed
PARSE = 96  # the limit on levels of reading where a line tells none
TOLD = re.compile("\x01(\\w+)\x02|(\x03)|([^\x01\x03]+)")  # a node begins, a node ends, a text

PROGRAM = """//! Prints names: a line of input is two limits, the flags, a limit on the text and the bytes.
#![tactic(auto)]

ghost use Rattle.std.specs.Prelude.{None};

use demangle_entries::MangledName;
use demangle_leaf_rows::ParseContext;
use demangle_parse::Parse;
use demangle_print::Demangle;
use demangle_scope::{
    DemangleContext, DemangleError, DemangleNodeType, DemangleOptions, DemangleWrite, SinkFault,
};
use demangle_table::SubstitutionTable;
use demangle_text::{IndexStr, ParseOptions};
use std::alloc::{AllocError, Global};
use std::io;

#[derive(Drop)]
struct Asked {
    parse: u32,
    options: DemangleOptions,
    bytes: Vec<u8>,
}

#[derive(Drop)]
struct Listener {
    alloc: Global,
    told: String,
}

impl DemangleWrite for Listener {
    ghost seen = { λ s. record { text = None; calls = None; faults = 0; refusals = 0 } };

    fn push_demangle_node(&mut self, kind: DemangleNodeType) {
        if let Ok(text) = format!(in self.alloc; "\\u{1}{kind:?}\\u{2}") {
            let _ = self.told.push_str(text.as_str());
        }
    }

    fn write_string(&mut self, s: &str) -> Result<(), SinkFault> {
        match self.told.push_str(s) {
            Ok(()) => Ok(()),
            Err(_) => Err(SinkFault::OutOfMemory),
        }
    }

    fn pop_demangle_node(&mut self) {
        let _ = self.told.push_str("\\u{3}");
    }
}

fn printed(alloc: Global, node: &MangledName, subs: &SubstitutionTable, asked: &Asked) -> Result<String, AllocError> {
    let mut out = Listener {
        alloc,
        told: String::new(alloc),
    };
    let answer = match DemangleContext::new(alloc, subs, &asked.bytes, asked.options, &mut out) {
        Ok(mut ctx) => node.demangle(&mut ctx, None),
        Err(error) => Err(error),
    };
    let told = out.told.as_str();
    match answer {
        Ok(()) => format!(in alloc; "Text\\tNone\\t{told}"),
        Err(DemangleError::Reference(error)) => format!(in alloc; "Print\\t{error:?}\\t{told}"),
        Err(error) => format!(in alloc; "Print\\t{error:?}\\t{told}"),
    }
}

fn outcome(alloc: Global, asked: &Asked) -> Result<String, AllocError> {
    let mut ctx = ParseContext::new(ParseOptions::default().recursion_limit(asked.parse));
    let mut subs = SubstitutionTable::new(alloc);
    match MangledName::parse(alloc, &mut ctx, &mut subs, IndexStr::new(&asked.bytes)) {
        Ok((node, rest)) => {
            if rest.is_empty() {
                printed(alloc, &node, &subs, asked)
            } else {
                format!(in alloc; "Read\\tUnexpectedText\\t")
            }
        }
        Err(error) => format!(in alloc; "Read\\t{error:?}\\t"),
    }
}

fn options(print: &str, flags: &str, max: &str) -> DemangleOptions {
    let mut options = DemangleOptions::new().recursion_limit(number(print));
    for flag in flags.as_bytes() {
        match *flag {
            b'p' => options = options.no_params(),
            b'r' => options = options.no_return_type(),
            b'l' => options = options.hide_expression_literal_types(),
            _ => {}
        }
    }
    if max != "-" {
        options = options.output_limit(number(max) as usize);
    }
    options
}

fn main(rt: HostRuntime) -> io::Result<()> {
    for line in rt.lines(rt.alloc()) {
        let line = line?;
        let mut parts = line.as_str().split(' ');
        let (Some(parse), Some(print), Some(flags), Some(max)) =
            (parts.next(), parts.next(), parts.next(), parts.next())
        else {
            continue;
        };
        let asked = Asked {
            parse: number(parse),
            options: options(print, flags, max),
            bytes: bytes(rt.alloc(), parts.next().unwrap_or(""))?,
        };
        let text = outcome(rt.alloc(), &asked)?;
        println!(rt; "{text}")?;
    }
    Ok(())
}
"""


# ---- questions and answers
def committed():
    files = printings.BY_HAND, printings.CHOSEN, printings.EVENTS
    return [line for path in files for line in printings.lines_of(path)]


def open_nodes(events):
    """How many nodes stand open behind each event."""
    return list(itertools.accumulate({"push": 1, "pop": -1, "text": 0}[event[0]] for event in events)) or [0]


def option(line, name):
    if name == "print" and name not in line and max(open_nodes(line.get("events", []))) > printings.DEFAULTS["print"]:
        return printings.HIGH
    return line.get(name, printings.DEFAULTS[name])


def question(line):
    flags = "".join(flag for flag in "prl" if option(line, flag)) or "-"
    most = "-" if option(line, "max") is None else option(line, "max")
    return f"{line.get('parse', PARSE)} {option(line, 'print')} {flags} {most} {line['name'].encode('latin-1').hex()}"


def events_of(told):
    """The events in what a listener was told."""
    return [["push", kind] if kind else ["pop"] if end else ["text", text] for kind, end, text in TOLD.findall(told)]


def is_front(events, told):
    """Whether events were told, and behind them ends of nodes alone, no more than stood open."""
    rest = told[len(events):]
    return told[:len(events)] == events and rest == [["pop"]] * min(len(rest), open_nodes(events)[-1])


def is_right(line, answer):
    how, fault, told = answer
    events = events_of(told)
    if "events" in line:
        if line["fault"] is None:
            return (how, events) == ("Text", line["events"])
        return (how, fault) == ("Print", line["fault"]) and is_front(line["events"], events)
    if how == "Text":
        return line["outcome"] == ["Text", "".join(event[1] for event in events if event[0] == "text")]
    return line["outcome"] == [how, fault]


def ask(lines):
    """For each line `Text`, `Print` or `Read`, the fault, and what the listener was told."""
    crates, questions = ["demangle_parse", "demangle_print"], [question(line) for line in lines]
    return runs.answers("print_answers", PROGRAM + runs.PARTS, crates, questions, r"^(Text|Print|Read)\t(\w+)\t(.*)$")


def main():
    lines = [line for path in sys.argv[1:] for line in printings.lines_of(path)] or committed()
    wrong = [(line, answer) for line, answer in zip(lines, ask(lines)) if not is_right(line, answer)]
    for line, answer in wrong[:SHOWN]:
        print(question(line), line["name"], "wanted", line.get("outcome") or line["events"], "but", answer)
    print(len(lines), "printings,", len(wrong), "of them wrong")
    sys.exit(bool(wrong))


if __name__ == "__main__":
    main()
