"""Reads definitions that are data: the clauses of an `.antt` file as terms, and terms as values.

A term is ("name", n), ("str", text), ("num", n), or a kind and its parts: ("app", [head, arguments..]),
("seq", items) for a · b · .., ("alt", ways) for a // b // .., ("list", values) for a ∷ b ∷ [],
("fun", [body], parameter) for a λ. A path is the numbers of the parts on the way to a term within another one.
"""
import functools
import os
import re

CRATES = os.path.join(os.path.dirname(os.path.abspath(__file__)), "..", "crates")
TOKEN = re.compile(r'"(?:[^"\\]|\\.)*"|λ|[()]|//|·|∷|\[\]|[^\s()·∷"]+')


def signatures(path):
    """The type of what each definition of a file gives, as text."""
    with open(path) as source:
        found = re.findall(r"^(?:abbrev|unfoldable) pub (\S+) : (.*)$", source.read(), re.M)
    return {name: kind.split("→")[-1].strip() for name, kind in found}


def specs(crate, file):
    return os.path.join(CRATES, crate, "specs", file)


class Parser:
    """The terms of one right side; `·` binds more than `//`, and `∷` more than both."""

    def __init__(self, text):
        self.tokens, self.at = TOKEN.findall(text), 0

    def peek(self):
        return self.tokens[self.at] if self.at < len(self.tokens) else ")"

    def take(self):
        self.at += 1
        return self.tokens[self.at - 1]

    def joined(self, sign, kind, part):
        parts = [part()]
        while self.peek() == sign:
            self.take()
            parts.append(part())
        return (kind, parts) if len(parts) > 1 else parts[0]

    def term(self):
        return self.joined("//", "alt", lambda: self.joined("·", "seq", self.listed))

    def listed(self):
        head = self.application()
        if self.peek() != "∷":
            return head
        self.take()
        return ("list", [head] + self.listed()[1])

    def application(self):
        parts = [self.atom()]
        while self.peek() not in (")", "·", "//", "∷"):
            parts.append(self.atom())
        return ("app", parts) if len(parts) > 1 else parts[0]

    def atom(self):
        token = self.take()
        if token == "(":
            inner = self.term()
            assert self.take() == ")", self.tokens[self.at - 5:self.at + 5]
            return inner
        if token == "λ":
            parameter = self.take().rstrip(".")
            return ("fun", [self.term()], parameter)
        if token[0] == '"':
            return ("str", re.sub(r"\\(.)", r"\1", token[1:-1]))
        if token == "[]":
            return ("list", [])
        return ("num", int(token)) if token.isdigit() else ("name", token)


def parsed(text):
    parser = Parser(text)
    term = parser.term()
    assert parser.at == len(parser.tokens), parser.tokens[parser.at:parser.at + 8]
    return term


def clauses(path):
    """The clauses of a file: the name, its patterns and the text of the right side."""
    with open(path) as source:
        lines = [re.sub(r"(^|\s)--.*", "", line) for line in source.read().split("\n")]
    blocks = re.split(r"\n(?=\S)", "\n".join(line for line in lines if line.strip()))
    for block in blocks:
        first, equals, right = block.partition(" =")
        words = first.split()
        if equals and "\n" not in first and words[0] not in ("abbrev", "unfoldable", "pub", "use", "module"):
            yield words[0], words[1:], right


# ---- terms
def head_of(term):
    """The name that a term begins with, or nothing."""
    term = term[1][0] if term[0] == "app" else term
    return term[1] if term[0] == "name" else ""


def arguments(term):
    return term[1][1:] if term[0] == "app" else []


def name(text):
    return ("name", text)


def app(head, *parts):
    return ("app", [name(head), *parts])


def within(term, path):
    for i in path:
        term = term[1][i]
    return term


def replaced(term, path, new):
    if not path:
        return new
    parts = list(term[1])
    parts[path[0]] = replaced(parts[path[0]], path[1:], new)
    return (term[0], parts, *term[2:])


def names_in(term):
    if term[0] == "name":
        return {term[1]}
    return set().union(*map(names_in, term[1])) if isinstance(term[1], list) else set()


SIGNS = {"seq": " · ", "alt": " // ", "list": " ∷ ", "app": " "}


def shown(term, inner=False):
    """A term as text."""
    if term[0] == "str":
        return '"%s"' % term[1]
    if term[0] in ("num", "name"):
        return str(term[1])
    if term[0] == "fun":
        text = "λ %s. %s" % (term[2], shown(term[1][0]))
    else:
        text = SIGNS[term[0]].join([shown(part, True) for part in term[1]] + ["[]"] * (term[0] == "list"))
    return "(%s)" % text if inner and len(term[1]) != 0 else text


def point_free(parameters, body):
    """A definition without its last parameter where that is only handed on: `f x k = g x k` is `f x = g x`."""
    body = without_last(body)
    last = parameters[-1:] and name(parameters[-1])
    if body[0] == "app" and body[1][-1] == last:
        return parameters[:-1], cut(body)
    return parameters, body


def without_last(term):
    """The same for each λ in a term."""
    if not isinstance(term[1], list):
        return term
    parts = [without_last(part) for part in term[1]]
    if term[0] == "fun" and parts[0][0] == "app" and parts[0][1][-1] == name(term[2]):
        return cut(parts[0])
    return (term[0], parts, *term[2:])


def cut(term):
    """An application without its last argument."""
    return ("app", term[1][:-1]) if len(term[1]) > 2 else term[1][0]


# ---- values
def applied(value, argument):
    return value(argument) if callable(value) else value + (argument,)


class Values:
    """Terms as values: texts, numbers, lists, functions of one value, and constructors as tuples that begin with their
    name. A name with a dot is a constructor.

    `definitions` are parameters and body by name, `known` values of names that aren't defined. `mark(path, value)` is
    put around what each part of a sequence or an alternative is; the path begins with the definition's name.
    """

    def __init__(self, definitions, known, mark=None):
        self.definitions, self.known, self.mark = definitions, known, mark

    def of(self, definition):
        parameters, body = self.definitions[definition]
        return self.function(parameters, body, {}, (definition,))

    def function(self, parameters, body, scope, path):
        if not parameters:
            return self.value(body, scope, path)
        return lambda x: self.function(parameters[1:], body, {**scope, parameters[0]: x}, path)

    def value(self, term, scope, path):
        kind, parts = term[:2]
        if kind == "name":
            return self.named(parts, scope)
        if kind in ("str", "num"):
            return parts
        if kind == "fun":
            return self.function([term[2]], parts[0], scope, path + (0,))
        values = [self.value(part, scope, path + (i,)) for i, part in enumerate(parts)]
        if kind == "list":
            return values
        if kind == "app":
            return functools.reduce(applied, values)
        if self.mark:
            values = [self.mark(path + (i,), value) for i, value in enumerate(values)]
        value = values.pop()
        while values:
            value = self.of("◌·◌" if kind == "seq" else "◌//◌")(values.pop())(value)
        return value

    def named(self, name, scope):
        if name in scope:
            return scope[name]
        if name in self.known:
            return self.known[name]
        return self.of(name) if name in self.definitions and "." not in name else (name,)
