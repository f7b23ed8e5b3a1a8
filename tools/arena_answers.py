#!/usr/bin/env python3
"""Reads rows into an arena, and counts the answers that are others than the expected ones.

Usage: tools/arena_answers.py [FILE]   (FILE is tools/readings/rows.jsonl.xz where it is left out)

FILE is one of row_answers.py, and each line is asked as there. A program is made of the crates here (runs.py). Each
answer is where the bytes behind begin, or the error; then the tree as plain data (core.py), and the components of both
lists. With ample memory `OutOfMemory` is a wrong answer.
"""
import os
import re
import sys

import cases
import core
import row_answers
import runs
import syntax

SHOWN = 20  # how many wrong answers are printed
READERS = ["rows", "types", "unqualified", "nested", "names", "expressions"]
SIGNATURE = re.compile(r"^pub fn (\w+)(<B: Below>)?\(\s*(?:below: B,\s*)?arena: &mut Arena,\s*depth: Depth,"
                       r"\s*text: Text<'_>,\s*at: u32,?\s*\) -> Result<Part>\n", re.M)
ROW = re.compile(r"ReadsRow Row\.(\w+)")
TOKENS = re.compile(r"\w+\(|\)|\w+(?::-?\w+)*")

PROGRAM = """//! Reads rows into an arena: a line of input is a row, levels, the conversion flag and the bytes.
#![tactic(auto)]

use demangle_cells::{Arena, Depth, Part, Plain, Tag, Text};
use demangle_read::Reader;
use demangle_read_below::Below;
use std::alloc::{AllocError, Global};
use std::io;

#[derive(Drop)]
struct Asked {
    depth: Depth,
    bytes: Vec<u8>,
}

#[derive(Clone, Copy)]
enum Item {
    Tree(u32),
    Close,
}

fn tag_text(tag: Tag) -> &'static str {
    match tag {
TAGS
    }
}

fn begin(alloc: Global, out: &mut String, tag: Tag) -> Result<(), AllocError> {
    let name = tag_text(tag);
    out.push_str(format!(in alloc; "{name}( ")?.as_str())
}

fn parts(open: &mut Vec<Item>, ids: &[u32]) -> Result<(), AllocError> {
    open.push(Item::Close)?;
    for i in 0..ids.len() {
        open.push(Item::Tree(ids[ids.len() - 1 - i]))?;
    }
    Ok(())
}

fn leaf(alloc: Global, out: &mut String, cell: Plain) -> Result<(), AllocError> {
    match cell {
        Plain::Empty(tag) => {
            begin(alloc, out, tag)?;
            out.push_str(") ")
        }
        Plain::Place(start, stop) => {
            out.push_str(format!(in alloc; "place:{start}:{stop} ")?.as_str())
        }
        Plain::Number(value) => {
            let size = value.unsigned_abs();
            let sign = if value < 0 { "-" } else { "" };
            out.push_str(format!(in alloc; "number:{sign}{size} ")?.as_str())
        }
        Plain::Counted(value) => out.push_str(format!(in alloc; "number:{value} ")?.as_str()),
        Plain::Word(table, word) => out.push_str(format!(in alloc; "chosen:{table}:{word} ")?.as_str()),
        Plain::Flag(set) => {
            let set = set as u8;
            out.push_str(format!(in alloc; "flag:{set} ")?.as_str())
        }
        Plain::Reference(k) => out.push_str(format!(in alloc; "BackReference( ref:N:{k} ) ")?.as_str()),
        Plain::Other(k) => out.push_str(format!(in alloc; "NonSubstitution( ref:U:{k} ) ")?.as_str()),
        _ => Ok(()),
    }
}

fn one(
    alloc: Global,
    arena: &Arena,
    id: u32,
    open: &mut Vec<Item>,
    out: &mut String,
) -> Result<(), AllocError> {
    let cell = match arena.cell(id) {
        Some(cell) => cell,
        None => return out.push_str("nocell "),
    };
    match cell {
        Plain::One(tag, a) => {
            begin(alloc, out, tag)?;
            parts(open, &[a])
        }
        Plain::Two(tag, a, b) => {
            begin(alloc, out, tag)?;
            parts(open, &[a, b])
        }
        Plain::Three(tag, a, b, c) => {
            begin(alloc, out, tag)?;
            parts(open, &[a, b, c])
        }
        Plain::Many(tag, start, count) => {
            begin(alloc, out, tag)?;
            parts(open, arena.indexes(start, count))
        }
        Plain::Arguments(at, members) => {
            out.push_str(format!(in alloc; "TemplateArgs( mark:{at} ")?.as_str())?;
            parts(open, &[members])
        }
        _ => leaf(alloc, out, cell),
    }
}

fn tree(alloc: Global, arena: &Arena, id: u32, out: &mut String) -> Result<(), AllocError> {
    let mut open = Vec::new(alloc);
    open.push(Item::Tree(id))?;
    while let Some(item) = open.pop() {
        match item {
            Item::Tree(id) => one(alloc, arena, id, &mut open, out)?,
            Item::Close => out.push_str(") ")?,
        }
    }
    Ok(())
}

fn components(alloc: Global, arena: &Arena, out: &mut String) -> Result<(), AllocError> {
    out.push_str("\\t")?;
    let mut number = 0;
    while let Some(id) = arena.numbered(number) {
        tree(alloc, arena, id, out)?;
        number += 1;
    }
    out.push_str("\\t")?;
    let mut number = 0;
    while let Some(id) = arena.other(number) {
        tree(alloc, arena, id, out)?;
        number += 1;
    }
    Ok(())
}

fn shown(alloc: Global, arena: &Arena, answer: demangle_text::Result<Part>) -> Result<String, AllocError> {
    let mut out = String::new(alloc);
    match answer {
        Ok(part) => {
            let end = part.end;
            out.push_str(format!(in alloc; "{end}\\t")?.as_str())?;
            tree(alloc, arena, part.id, &mut out)?;
        }
        Err(error) => out.push_str(format!(in alloc; "{error:?}\\t")?.as_str())?,
    }
    components(alloc, arena, &mut out)?;
    Ok(out)
}

fn asked(alloc: Global, levels: &str, flag: &str, text: &str) -> io::Result<Asked> {
    Ok(Asked {
        depth: Depth {
            levels: number(levels),
            conversion: flag == "1",
        },
        bytes: bytes(alloc, text)?,
    })
}

fn read(arena: &mut Arena, row: &str, depth: Depth, text: Text<'_>) -> Option<demangle_text::Result<Part>> {
    let answer = match row {
ARMS
        _ => return None,
    };
    Some(answer)
}

fn answer(alloc: Global, row: &str, asked: &Asked) -> Result<String, AllocError> {
    let mut arena = Arena::new(alloc);
    let text = match Text::new(&asked.bytes) {
        Some(text) => text,
        None => return format!(in alloc; "too long"),
    };
    match read(&mut arena, row, asked.depth, text) {
        Some(answer) => shown(alloc, &arena, answer),
        None => format!(in alloc; "no such row"),
    }
}

""" + row_answers.MAIN


# ---- the program
def exported(crate):
    """The names that a crate exports."""
    text = open(os.path.join(runs.ROOT, "crates", crate, "src", "lib.rt")).read()
    found = re.findall(r"pub use \w+::(?:\{(.*?)\}|(\w+));", text, re.S)
    return set(re.findall(r"\w+", " ".join(many or one for many, one in found)))


def readers():
    """For each row the crate of its reader, its function, and whether that is handed the rows below."""
    found = {}
    for crate in ["demangle_read_" + name for name in READERS]:
        folder, names = os.path.join(runs.ROOT, "crates", crate, "src"), exported(crate)
        for file in sorted(os.listdir(folder)):
            text = open(os.path.join(folder, file)).read()
            for function in SIGNATURE.finditer(text):
                row = ROW.search(text[function.end():].split("\n{\n")[0])
                if row and function[1] in names:
                    found[row[1]] = crate, function[1], bool(function[2])
    return found


def program(found):
    tags = open(os.path.join(runs.ROOT, "crates/demangle_cells/src/tag.rt")).read()
    tags = re.findall(r"^    (\w+),$", re.search(r"pub enum Tag \{\n(.*?)^\}", tags, re.S | re.M)[1], re.M)
    arms = []
    for row, (crate, function, has_below) in sorted(found.items()):
        if function.endswith("_by"):
            call = f"Reader.{row}(arena, depth, text, 0)"
        else:
            call = f"{crate}::{function}({'Reader, ' * has_below}arena, depth, text, 0)"
        arms.append(f'        "{row}" => {call},')
    text = PROGRAM.replace("TAGS", "\n".join(f'        Tag::{tag} => "{tag}",' for tag in tags))
    return text.replace("ARMS", "\n".join(arms)) + runs.PARTS


def ask(questions, found):
    """The program's answers to (row, limit, conversion, bytes), a line each."""
    lines = [f"{cases.snake(row)[4:]} {limit - 1} {int(conversion)} {data.hex()}"
             for row, limit, conversion, data in questions]
    tops = ["demangle_read"]
    return runs.answers("arena_answers", program(found), tops, lines, r"^\w+\t.*\t.*\t.*$|^no such row$|^too long$")


# ---- a text of the program as a row of trees
def row_of(text):
    stack = [[]]
    for token in TOKENS.findall(text):
        if token.endswith("("):
            stack.append([token[:-1]])
        elif token == ")":
            tag, *row = stack.pop()
            stack[-1].append(core.node(tag, row))
        else:
            kind, *values = token.split(":")
            values = [value if value in "NU" else int(value) for value in values]
            stack[-1].append((kind, bool(values[0])) if kind == "flag" else (kind, *values))
    return tuple(stack[0])


# ---- widths of types, which are entries here and stand in their places in some files
def without_widths(value, taken):
    """A value whose foreign widths are numbers of what was taken."""
    if isinstance(value, tuple):
        return tuple(without_widths(part, taken) for part in value)
    if not isinstance(value, list):
        return value
    name, parts = value
    if name in row_answers.WIDTHS and not isinstance(parts[0], int):
        taken.append(parts[0])
        return [name, [len(taken) - 1]]
    return [name, [without_widths(part, taken) for part in parts]]


def is_width(tree):
    return tree[0] == "node" and tree[1][len("ParametricBuiltinType"):] in row_answers.WIDTHS


def with_widths(tree, widths, renumbered):
    """A tree with the widths of types in their places, and with the other references of the list renumbered."""
    if tree[0] == "ref" and tree[1] == "U":
        return ("ref", "U", renumbered(tree[2]))
    if tree[0] != "node":
        return tree
    if is_width(tree):
        return core.node(tree[1], [with_widths(widths(tree[2][0][2][0][2]), widths, renumbered)])
    return core.node(tree[1], [with_widths(part, widths, renumbered) for part in tree[2]])


def wanted_tree(kind, text):
    """The expected tree, and whether a width stands in its place in it."""
    taken = []
    tree = syntax.tree(kind, without_widths(syntax.parsed(text), taken))
    if not taken:
        return tree, False
    return with_widths(tree, lambda k: syntax.tree("Expression", taken[k]), lambda k: k), True


# ---- answers
def is_right(row, data, wanted, text):
    if text in ("no such row", "too long"):
        return False
    end, trees, numbered, others = text.split("\t")
    tree, numbered, others = row_of(trees), row_of(numbered), row_of(others)
    if wanted[0] != "Yes":
        error = "TooMuchRecursion" if wanted[0] == "Deep" else wanted[1]
        return end == error and not tree and not numbered and not others
    if end != str(wanted[1]) or len(tree) != 1:
        return False
    (tree,), (wanted_one, is_foreign) = tree, wanted_tree(cases.kind_of(row), wanted[2])
    if is_foreign:
        kept = [place for place, entry in enumerate(others) if entry[1] != "SubstitutableExpression"]
        tree = with_widths(tree, lambda k: others[k][2][0], kept.index)
        others = [others[place] for place in kept]
    entries = wanted[3]
    if entries and isinstance(entries[0], int):
        return [len(numbered), len(others)] == entries and tree == wanted_one
    lists = [[syntax.tree_of("Substitutable", text) for which, text in entries if which == name] for name in "NU"]
    return [list(numbered), list(others)] == lists and tree == wanted_one


def main():
    lines = cases.lines(sys.argv[1] if len(sys.argv) > 1 else cases.CHOSEN)
    assert not any(line.get("level") for line in lines)
    asked = [(line["row"], limit, line["conv"], line["input"].encode("latin-1"), answer)
             for line in lines if line["row"] not in cases.PARTS for limit, answer in row_answers.limits(line)]
    texts = ask([question[:4] for question in asked], readers())
    wrong = [(question, text) for question, text in zip(asked, texts)
             if not is_right(question[0], *question[3:], text)]
    for (row, limit, _, data, answer), text in wrong[:SHOWN]:
        print(row, data, "limit", limit, "wanted", answer, "but", text)
    parts = sum(line["row"] in cases.PARTS for line in lines)
    print(len(lines), "lines,", parts, "of them of parts of rows, which have no reader of their own;")
    print(len(asked), "readings of", len({question[0] for question in asked}), "rows,", len(wrong), "of them wrong")
    sys.exit(bool(wrong))


if __name__ == "__main__":
    main()
