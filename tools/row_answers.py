#!/usr/bin/env python3
"""Reads rows with the parser itself, and counts the answers that are others than the expected ones.

Usage: tools/row_answers.py [FILE]   (FILE is tools/readings/rows.jsonl.xz where it is left out)

FILE has a line for each reading, as cases.py tells them: the repository's own readings, or a file of expected answers
that was made elsewhere, with limits on levels. Each line that tells no limit but how deep the reading goes is asked
three times: with ample levels, with just enough, and with one less. A program is made of the crates here
(runs.py). Its answers are the texts of `{:?}`: the bytes that are left, the node and the table, or the error and the
table.
"""
import os
import re
import sys

import cases
import runs
import syntax

AMPLE = 4096  # levels, where a line tells no limit
SHOWN = 20  # how many wrong answers are printed
WIDTHS = ("SignedBitIntExpression", "UnsignedBitIntExpression")
IMPLS = re.compile(r"impl (?:Parse|ReadCells) for (\w+)")

# asks each line of the input: the program that asks has its own `asked` and `answer`
MAIN = """fn main(rt: HostRuntime) -> io::Result<()> {
    for line in rt.lines(rt.alloc()) {
        let line = line?;
        let mut parts = line.as_str().split(' ');
        let (Some(row), Some(limit), Some(flag)) = (parts.next(), parts.next(), parts.next()) else {
            continue;
        };
        let asked = asked(rt.alloc(), limit, flag, parts.next().unwrap_or(""))?;
        let text = answer(rt.alloc(), row, &asked)?;
        println!(rt; "{text}")?;
    }
    Ok(())
}
"""

PROGRAM = """//! Reads rows: a line of input is a row, a limit on levels, the conversion flag and the bytes.
#![tactic(auto)]

use demangle_entries::{ENTRIES};
use demangle_leaf_rows::ParseContext;
use demangle_parse::Parse;
use demangle_table::SubstitutionTable;
use demangle_text::{IndexStr, ParseOptions};
use demangle_vocab::{VOCAB};
use std::alloc::{AllocError, Global};
use std::fmt::Debug;
use std::io;

#[derive(Drop)]
struct Asked {
    limit: u32,
    conversion: bool,
    bytes: Vec<u8>,
}

fn read<X: Parse + Debug + Drop>(alloc: Global, asked: &Asked) -> Result<String, AllocError> {
    let mut ctx = ParseContext::new(ParseOptions::default().recursion_limit(asked.limit));
    let _ = ctx.set_in_conversion(asked.conversion);
    let mut subs = SubstitutionTable::new(alloc);
    let answer = X::parse(alloc, &mut ctx, &mut subs, IndexStr::new(&asked.bytes));
    let (level, flag) = (ctx.recursion_level(), ctx.in_conversion() as u8);
    match answer {
        Ok((node, rest)) => {
            let left = rest.len();
            format!(in alloc; "{level} {flag}\\t{subs:?}\\t{node:?}\\t{left}")
        }
        Err(error) => format!(in alloc; "{level} {flag}\\t{subs:?}\\t{error:?}"),
    }
}

fn asked(alloc: Global, limit: &str, flag: &str, text: &str) -> io::Result<Asked> {
    Ok(Asked {
        limit: number(limit),
        conversion: flag == "1",
        bytes: bytes(alloc, text)?,
    })
}

fn answer(alloc: Global, row: &str, asked: &Asked) -> Result<String, AllocError> {
    match row {
ARMS
        _ => format!(in alloc; "no such row"),
    }
}

""" + MAIN


# ---- the program
def rows():
    """The types that have a row, as the parser's impls tell them."""
    folder = os.path.join(runs.ROOT, "crates", "demangle_parse", "src")
    texts = [open(os.path.join(folder, file)).read() for file in sorted(os.listdir(folder))]
    return [name for text in texts for name in IMPLS.findall(text)]


def program(names):
    text = PROGRAM.replace("ENTRIES", ", ".join(sorted(name for name in names if name not in syntax.WORDS)))
    text = text.replace("VOCAB", ", ".join(sorted(name for name in names if name in syntax.WORDS)))
    arms = "\n".join(f'        "{name}" => read::<{name}>(alloc, asked),' for name in names)
    return text.replace("ARMS", arms) + runs.PARTS


def ask(questions, names):
    """The program's answers to (row, limit, conversion, bytes), a line each."""
    lines = [f"{row} {limit} {int(conversion)} {data.hex()}" for row, limit, conversion, data in questions]
    return runs.answers("row_answers", program(names), ["demangle_parse"], lines, r"^\d+ [01]\t.*$|^no such row$")


# ---- a text of `{:?}` as a value, in the form of syntax.parsed
def shown(text):
    tokens = re.findall(r"-?\d+|\w+|[()\[\]{},:]", text)
    at = 0

    def values(end):
        nonlocal at
        found = []
        while tokens[at] != end:
            if tokens[at] == ",":
                at += 1
                continue
            if tokens[at + 1] == ":":
                at += 2
            found.append(value())
        at += 1
        return found

    def value():
        nonlocal at
        token = tokens[at]
        at += 1
        if token == "[":
            return tuple(values("]"))
        if token.lstrip("-").isdigit():
            return int(token)
        if token in ("true", "false", "None"):
            return {"true": True, "false": False, "None": None}[token]
        inner = []
        if at < len(tokens) and tokens[at] in "({":
            at += 1
            inner = values(")" if tokens[at - 1] == "(" else "}")
        if token == "Some":
            return inner[0]
        return [token, inner[0][1] if token in WIDTHS else inner]

    return value()


# ---- questions and answers
def limits(line):
    """Each limit with the answer that is wanted."""
    if "limit" in line:
        return [(line["limit"] or AMPLE, line["answer"])]
    return [(AMPLE, line["answer"]), (line["reach"] + 1, line["answer"])] + (
        [(line["reach"], ["Deep"])] if line["reach"] else [])


def has_foreign_width(value):
    """Whether the width of a type stands in a tree as an expression, and not as an entry of the table."""
    if not isinstance(value, (list, tuple)):
        return False
    if len(value) == 2 and value[0] in WIDTHS and not isinstance(value[1][0], int):
        return True
    return any(has_foreign_width(part) for part in value)


def with_widths(value, others, kept):
    """A tree with the widths of types in their places, and with the other entries of the list counted alone."""
    if isinstance(value, tuple):
        return tuple(with_widths(part, others, kept) for part in value)
    if not isinstance(value, list):
        return value
    name, parts = value
    if name in WIDTHS:
        return [name, [with_widths(others[parts[0]][1][0], others, kept)]]
    if name == "NonSubstitution" and isinstance(parts[0], int):
        return [name, [kept.index(parts[0])]]
    return [name, [with_widths(part, others, kept) for part in parts]]


def is_right(conversion, data, wanted, text):
    if text == "no such row":
        return False
    context, table, *answer = text.split("\t")
    numbered, others = shown(table)[1]
    if context != f"0 {int(conversion)}":
        return False
    if wanted[0] != "Yes":
        error = "TooMuchRecursion" if wanted[0] == "Deep" else wanted[1]
        return answer == [error] and not numbered and not others
    if len(answer) != 2 or int(answer[1]) != len(data) - wanted[1]:
        return False
    tree, wanted_tree, entries = shown(answer[0]), syntax.parsed(wanted[2]), wanted[3]
    if has_foreign_width(wanted_tree):
        kept = [place for place, entry in enumerate(others) if entry[0] != "Expression"]
        tree, others = with_widths(tree, others, kept), kept
    if entries and isinstance(entries[0], int):
        return [len(numbered), len(others)] == entries and tree == wanted_tree
    lists = [[syntax.parsed(text) for which, text in entries if which == name] for name in "NU"]
    return [list(numbered), list(others)] == lists and tree == wanted_tree


def main():
    lines = cases.lines(sys.argv[1] if len(sys.argv) > 1 else cases.CHOSEN)
    names = rows()
    asked = [(line["row"], limit, line["conv"], line["input"].encode("latin-1"), answer)
             for line in lines if line["row"] not in cases.PARTS for limit, answer in limits(line)]
    texts = ask([question[:4] for question in asked], names)
    wrong = [(question, text) for question, text in zip(asked, texts) if not is_right(*question[2:], text)]
    for (row, limit, _, data, answer), text in wrong[:SHOWN]:
        print(row, data, "limit", limit, "wanted", answer, "but", text)
    parts = sum(line["row"] in cases.PARTS for line in lines)
    print(len(lines), "lines,", parts, "of them of parts of rows, which have no type of their own;")
    print(len(asked), "readings of", len({question[0] for question in asked}), "rows,", len(wrong), "of them wrong")
    sys.exit(bool(wrong))


if __name__ == "__main__":
    main()
