"""Trees as plain data, as the contracts speak of them, and what the grammar's reader makes of them.

A row of trees is a list or a tuple. A tree is ("node", tag, row), ("place", i, j), ("number", v), ("flag", b),
("chosen", table, word), ("ref", list, k) or ("mark", i). Each function says what the definition of its name says in
Tree.antt or Reading.antt of demangle_grammar.
"""


def node(tag, row=()):
    return ("node", tag, tuple(row))


def is_node(row, *tags):
    return bool(row) and row[0][0] == "node" and (not tags or row[0][1] in tags)


def is_number(row):
    return bool(row) and row[0][0] == "number" and row[0][1] >= 0


def reference(which, k):
    return node("BackReference" if which == "N" else "NonSubstitution", [("ref", which, k)])


# ---- what the parts of a node become
def index_of(row):
    if is_node(row):
        row = row[0][2]
    return [("number", row[0][1] + 1 if is_number(row) else 0)]


def longer_by(k, row):
    return [("place", row[0][1], row[0][2] + k), *row[1:]] if row and row[0][0] == "place" else row


def member_of(row):
    return [node("DataMemberPrefix", row[0][2][:1])] if is_node(row) and is_node(row[0][2]) else row


def data_member_of(row):
    return [node("PrefixDataMember", [row[0], *member_of(row[1:])])] if is_node(row) else row


def template_entry(row):
    first = row[:1] if is_node(row) else ()
    name = node("UnscopedTemplateName", [node("UnscopedNameUnqualified", first)])
    return node("SubstitutableUnscopedTemplateName", [name])


def template_name(k, row):
    return node("NameUnscopedTemplate", [reference("U", k), *(row[1:] if is_node(row) else ())])


def component_of(row):
    return row[0][2][0][1] + 1 if is_node(row) and is_number(row[0][2]) else 0


# ---- a nested name and the entry of its prefix
def last_component(row):
    """The list and the number of the component that the last field refers to, or nothing."""
    for i, tree in enumerate(row):
        if tree[0] == "node" and i == len(row) - 1:
            child = tree[2]
            return child[0][1:] if child and child[0][0] == "ref" else None
        if tree[0] not in ("node", "chosen"):
            return None
    return None


def is_nestable(entry):
    if not is_node(entry, "SubstitutablePrefix") or not is_node(entry[0][2]):
        return False
    prefix = entry[0][2][0]
    return prefix[1] in ("PrefixUnqualified", "PrefixTemplate") or prefix[1] == "PrefixNested" and is_node(prefix[2])


def front(row):
    """All but the last field, as far as they are nodes."""
    stop = next((i for i, tree in enumerate(row) if tree[0] != "node"), len(row) - 1)
    return row[:stop]


def taken_of(entry, row):
    prefix, explicit = entry[0][2][0], row[:1] if row and row[0][0] == "chosen" else ()
    if prefix[1] == "PrefixTemplate":
        if explicit:
            return [node("NestedNameTemplateExplicitObject", [*row[1:], *explicit])]
        return [node("NestedNameTemplate", row)]
    if prefix[1] == "PrefixUnqualified":
        outer, name = node("Absent"), prefix[2]
    else:
        outer, name = node("Present", [node(prefix[2][0][1], prefix[2][0][2])]), prefix[2][1:]
    if explicit:
        return [node("NestedNameUnqualifiedExplicitObject", [outer, *name, *explicit])]
    return [node("NestedNameUnqualified", [*front(row), outer, *name])]
