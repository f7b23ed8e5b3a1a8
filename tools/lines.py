"""The lines of printing as they stand in specs/Lines of demangle_printing: their definitions, and the steps of each."""
import contextlib
import re

import antt
import syntax

DONE = ("Step.done",)
GROUPS = {"Names": "names", "Types": "types", "Functions": "functions", "Arguments": "arguments",
          "Expressions": "expressions", "SpecialNames": "special_names", "Inside": "inside"}
ITEMS = antt.specs("demangle_printing", "Items.antt")
OPERATORS = syntax.WORDS["SimpleOperatorName"][1]
BUILTINS = syntax.WORDS["StandardBuiltinType"][1]


def file_of(group):
    return antt.specs("demangle_printing", "Lines/%s.antt" % group)


def as_item(parameters, body):
    """A definition before the steps that come behind it: `Step.done` and a last parameter fall away."""
    if body[0] == "app" and body[1][-1] == antt.name("Step.done"):
        return parameters, antt.cut(body)
    return antt.point_free(parameters, body)


def definitions():
    """Parameters and body by name; a node's line is `line` and its tag, what stands behind it `inside` and its tag."""
    notation, found = {}, {}
    for name, patterns, text in antt.clauses(ITEMS):
        notation[name] = as_item(patterns, antt.parsed(text))
    for group, function in GROUPS.items():
        for name, patterns, text in antt.clauses(file_of(group)):
            if name != function:
                found[name] = as_item(patterns, antt.parsed(text))
            elif patterns[0].startswith("Tag.") and patterns[1] == "_":
                key = "%s %s" % ("inside" if group == "Inside" else "line", patterns[0][4:])
                found[key] = ([], antt.parsed(text))
    return notation, found


def kinds():
    """Of each definition whether it is an item, a piece or a test."""
    found = {}
    for group in GROUPS:
        found.update(antt.signatures(file_of(group)))
    return found


KNOWN = {"codes": str.encode, "byte_of": lambda text: text[0], "true": True, "false": False,
         "number_of_operator": lambda word: OPERATORS.index(word[0]),
         "number_of_builtin": lambda word: BUILTINS.index(word[0]),
         # lines of parts that count no level: these are edits alone
         "free_part": lambda part: lambda rest: ("Step.free", [part], rest),
         "free_itself": lambda rest: ("Step.free", [], rest),
         "piece": lambda item: lambda rest: ("Step.block", antt.applied(item, DONE), rest)}


def flat(step):
    """Steps one behind the other as a list; bodies are lists too."""
    found = []
    while step != DONE:
        kind, *parts, rest = step
        found.append((kind[5:], *(flat(part) if is_step(part) else part for part in parts)))
        step = rest
    return found


def is_step(value):
    return isinstance(value, tuple) and value[:1] and isinstance(value[0], str) and value[0].startswith("Step.")


def look_ups():
    """For each look-up and node the parts that are asked, in turn; or that the node itself is the answer."""
    found = {"leaf": {}, "args": {}, "special": {}}
    for name, patterns, text in antt.clauses(antt.specs("demangle_core", "Lookups.antt")):
        kind = name[:-5]
        if name.endswith("_node") and kind in found and patterns[0].startswith("Tag."):
            parts = re.findall(r"\w+", " ".join(patterns[2:]))
            wanted = text.split()
            found[kind][patterns[0][4:]] = "itself" if wanted[0] == "answer" else [parts.index(w) for w in wanted if w in parts]
    return found


def holdings(name):
    """What is printed for a node of a tag, as a function of Rules.antt says it."""
    clauses = antt.clauses(antt.specs("demangle_printing", "Rules.antt"))
    return {patterns[0][4:]: text.strip() for head, patterns, text in clauses if head == name and patterns[0] != "_"}


class Lines:
    def __init__(self):
        self.notation, self.definitions = definitions()
        self.kinds, self.look_ups = kinds(), look_ups()
        self.optional, self.handles = holdings("as_optional"), holdings("as_handle")
        self.values = antt.Values({**self.notation, **self.definitions}, KNOWN)
        self.lines = [name for name in self.definitions if " " in name]
        uses = {name: antt.names_in(body) for name, (_, body) in self.definitions.items()}
        self.users = {name: self.users_of(name, uses) for name in self.definitions}
        self.steps = {}
        self.compile(self.lines)

    def users_of(self, name, uses):
        """The lines that a definition stands in."""
        if " " in name:
            return {name}
        return set().union(*(self.users_of(user, uses) for user in uses if name in uses[user]))

    def compile(self, names):
        for name in names:
            self.steps[name] = flat(antt.applied(self.values.of(name), DONE))

    @contextlib.contextmanager
    def edited(self, edit):
        """Meanwhile a definition has another body, or a look-up asks other parts."""
        if edit.look_up:
            table = self.look_ups[edit.look_up]
            old, table[edit.definition] = table[edit.definition], edit.body
            try:
                yield
            finally:
                table[edit.definition] = old
            return
        all_definitions, steps = self.values.definitions, dict(self.steps)
        old = all_definitions[edit.definition]
        all_definitions[edit.definition] = (old[0], edit.body)
        try:
            self.compile(self.users[edit.definition])
            yield
        finally:
            all_definitions[edit.definition] = old
            self.steps.update(steps)
