"""Expected readings of rows: a line of a file for each.

A line is a JSON object: `row` (of the grammar), `input` (one character a byte), `conv` (whether the conversion flag is
on), `answer`, and `reach`, the deepest level that is entered. An answer is ["Yes", index behind, tree, entries] or
["No", kind]. An entry is the list, "N" or "U", and the tree; trees are texts as in syntax.py. In a file of expected
answers that was made elsewhere the lengths of both lists stand in the entries' place, an answer may be ["Deep"], and
`limit` is a limit of levels, or null.
"""
import json
import lzma
import os
import re
import typing

import syntax

FOLDER = os.path.join(os.path.dirname(os.path.abspath(__file__)), "readings")
BY_HAND = os.path.join(FOLDER, "by-hand.jsonl")
CHOSEN = os.path.join(FOLDER, "rows.jsonl.xz")
FIRSTS = os.path.join(FOLDER, "first-idle.json")
PARTS = ("Global", "Operators")  # parts of a row, which some files tell as if they were rows


class Case(typing.NamedTuple):
    row: str
    data: bytes
    conversion: bool
    answer: tuple  # ("Yes", index behind, row of trees) or ("No", kind)
    entries: tuple
    reach: int

    @property
    def input(self):
        return self.row, self.data, self.conversion


def snake(name):
    return "Row." + re.sub(r"(?<!^)(?=[A-Z])", "_", name).lower()


def camel(row):
    return "".join(word.capitalize() for word in row[4:].split("_"))


def kind_of(name):
    """The type of what a row reads."""
    return "number" if name == "Number" else name


def tree_of(name, text):
    return syntax.tree_of(kind_of(name), text)


def lines(path):
    with (lzma.open if path.endswith(".xz") else open)(path, "rt") as file:
        return [json.loads(line) for line in file]


def input_of(line):
    return snake(line["row"]), line["input"].encode("latin-1"), line["conv"]


def case_of(line):
    row, data, conversion = input_of(line)
    answer, entries = tuple(line["answer"]), ()
    if answer[0] == "Yes":
        entries = tuple((which, (syntax.tree_of("Substitutable", text),)) for which, text in answer[3])
        answer = "Yes", answer[1], (tree_of(line["row"], answer[2]),)
    return Case(row, data, conversion, answer, entries, line["reach"])


def line_of(case):
    answer = list(case.answer)
    if answer[0] == "Yes":
        entries = [[which, syntax.told("Substitutable", trees[0])] for which, trees in case.entries]
        answer = ["Yes", answer[1], syntax.told(kind_of(camel(case.row)), answer[2][0]), entries]
    return {"row": camel(case.row), "input": case.data.decode("latin-1"), "conv": case.conversion, "answer": answer,
            "reach": case.reach}


def load(path):
    return [case_of(line) for line in lines(path)]


def save(path, found):
    with (lzma.open if path.endswith(".xz") else open)(path, "wt") as file:
        file.writelines(json.dumps(line_of(case), ensure_ascii=False) + "\n" for case in found)
