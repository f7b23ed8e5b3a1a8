#!/usr/bin/env python3
"""Writes the answers of the equality of nodes that hold each other (demangle_nodes): one term a goal.

Usage: tools/same_answers.py

It reads src/nodes.rt, src/same_parts.rt and proofs/Parts.antt, and writes proofs/Other.antt and the answers of the
cycle `same`. A path through two `match`es is answered with what its tests told of the fields before, and with what its
last call answers of the field that it compares. The names of steps are made as the checker makes them: a call's name
alone where that is free, else with the arm or the branch behind it, else with a number too. A goal without a term here
is left to the checker's search.
"""
import pathlib
import re

CRATE = pathlib.Path(__file__).resolve().parent.parent / "crates/demangle_nodes"
MADE = "-- Written by tools/same_answers.py.\n"
OWN = "Rattle.demangle_nodes"


def snake(name):
    return re.sub(r"(?<!^)(?=[A-Z])", "_", name).lower()


def enums(text):
    """Each enum's variants, with the types of their fields."""
    found = {}
    for name, body in re.findall(r"^pub enum (\w+) \{\n(.*?)^\}", re.sub(r"///.*", "", text), re.M | re.S):
        variants = re.findall(r"^    (\w+)(?:\((.*)\))?,$", body, re.M)
        found[name] = {variant: re.findall(r"\w+(?:<[^,]*>)?", fields) for variant, fields in variants}
    return found


class Steps:
    """The names of a function's steps so far."""

    def __init__(self):
        self.used = set()

    def first_free(self, names):
        name = next(name for name in names if name not in self.used)
        self.used.add(name)
        return name

    def call(self, name, place):
        return self.first_free([name, f"{name}-{place}", *(f"{name}-{place}-{k}" for k in range(2, 99))])

    def test(self, name):
        return self.first_free([f"if-{name}", *(f"if-{name}-{k}" for k in range(2, 99))])[3:]


FORMS = {"eq": "_leaf", "same_optional_discriminator": "_leaf", "same_usize": "_number"}


def compared(steps, place, call, kind):
    """The step that compares one field, and its fact, with a gap for the name of what answers it."""
    if call == "eq" or not kind.startswith(("Box<", "Vec<")):
        return steps.call(call, place), "{}"
    one, two = steps.call("deref", place), steps.call("deref", place)
    inner = snake(kind[4:-1])
    pair = f"tag_of_{inner} parts_of_{inner}"
    if kind.startswith("Box<"):
        read = f"behind {pair} c.{one}.ensures c.{two}.ensures {{}}"
    else:
        read = f"behind_list {pair} c.{one}.ensures.value c.{two}.ensures.value {{}}"
    return steps.call(call, place), read


def chained(known, term):
    return "".join(f"{word} ({fact}) (" for word, fact in known) + term + ")" * len(known)


def paths(steps, name, start, place, chain, fields):
    """The answers of one chain of `&&`."""
    known = []
    for at, part in enumerate(chain):
        found = re.match(r"(same_\w+)\((\w), other_\w|(\w) == other_\w$", part)
        call, letter = (found[1] or "eq", found[2] or found[3]) if found else (None, None)
        kind = fields["abcd".index(letter)] if letter else ""
        if call == "eq" and kind == "usize":
            return
        if call is None:  # a test of the numbers of two words, which has no term here, nor has what is behind it
            known = None
            steps.call("number", place), steps.call("number", place)
            place = f"then-{steps.test('number')}"
            continue
        step, read = compared(steps, place, call, kind)
        form = FORMS.get(call, "")
        if at + 1 == len(chain):
            if known is not None:
                last = f"last{form} ({read.format(f'c.{step}.ensures')})"
                yield f"{name}-returns-{place}", f"{start} ({chained(known, last)})"
            return
        test = steps.test(call)
        fact = read.format(f"c.if-{test}.ensures")
        if known is not None:
            differs = f"differs{form} c.if-{test}.false ({fact})"
            yield f"{name}-returns-else-{test}", f"{start} ({chained(known, differs)})"
            known.append((f"and_then{form}", fact))
        place = f"then-{test}"


def function(name, kind, body, variants):
    """The answers of one function."""
    steps, lower, others = Steps(), snake(kind), 0
    pair = f"tag_of_{lower} parts_of_{lower}"
    for variant, arm in re.findall(rf"^        {kind}::(\w+).*? => match y \{{\n(.*?)^        \}},", body, re.M | re.S):
        fields = variants[variant]
        letters = "abcd"[: len(fields)]
        value = re.search(r"=> (.*?),\n            _ => false", re.sub(r"^.*?::", "", arm), re.S)[1]
        chain = [part.strip(" (),") for part in re.sub(r"\s+", " ", value).split("&&")]
        law = f"{lower}_{snake(variant)}"
        mine = " ".join([law, *(f"c.in-{variant}.{letter}" for letter in letters)])
        other = " ".join([law, *(f"c.in-{variant}-y.other_{letter}" for letter in letters)])
        start = f"same_variant {pair} c.in-{variant}.is c.in-{variant}-y.is ({mine}) ({other}) refl"
        if fields:
            yield from paths(steps, name, start, f"in-{variant}-y", chain, fields)
        else:
            yield f"{name}-returns-in-{variant}-y", f"{start} (last_leaf refl)"
        step, others = "in_default" + ("-y" if others else "") + (f"-{others}" if others > 1 else ""), others + 1
        differs = f"other_{lower} (code Tag.{kind}{variant}) c.args.y.now c.{step}.not-{variant}"
        yield f"{name}-returns-{step}", f"other_variant {pair} c.args.y.now c.in-{variant}.is ({differs})"


def imports(text, sources):
    """A line for each source that a text names something of."""
    words = set(re.findall(r"[a-z_0-9]+", text))
    used = {module: [name for name in dict.fromkeys(names) if name in words] for module, names in sources.items()}
    return "".join(f"use {module}.{{{', '.join(names)}}}\n" for module, names in used.items())


def other_variants(parts, types):
    """For each type, that a node which isn't of a variant has another tag."""
    binder = r"\(\w : (?:[^()]|\([^()]*\))*\) "
    law = rf"^pub (\w+) : ((?:{binder})*)(?:→ )?parts_of_\w+ \(?(of_\w+\.\w+)((?: [a-d])*)\)? ≡"
    laws = re.findall(law, parts, re.M)
    laws = {law: (binders, made, letters) for law, binders, made, letters in laws}
    text = ""
    for kind, variants in types.items():
        lower = snake(kind)
        is_not, gone = f"Not{kind}", []
        chain = "(Unit {0})"
        for variant in reversed(variants):
            binders, made, letters = laws[f"{lower}_{snake(variant)}"]
            want = f"{binders}→ y ≡ {made}{letters} → ⊥" if binders else f"y ≡ {made} → ⊥"
            chain = f"(pick (k == code Tag.{kind}{variant}) ({want}) {chain})"
            shape = f"{kind}::Name" if variant == "Name" else variant  # other types' variants are called `Name` too
            gone.insert(0, f"opened.{shape}{letters} ↦ λ e. (moved_{lower} y _ e h){letters} refl")
        tag = f"code (tag_of_{lower} "
        text += (
            f"\nabbrev pub {is_not} : ℕ → {kind} → Type 0\n{is_not} k y = {chain[1:-1]}\n"
            f"\nmoved_{lower} : (y z : {kind}) → z ≡ y → {is_not} ({tag}y)) y → {is_not} ({tag}z)) z\n"
            f"moved_{lower} y z e h = subst (λ x. {is_not} ({tag}x)) x) (sym e) h\n"
            f"\nnone_{lower} : (y : {kind}) → {is_not} ({tag}y)) y → ⊥\n"
            f"unfolding roll-{kind} denote.Hole.Carrier.roll\nnone_{lower} y h ="
            f" elim (out-{kind} y) as (λ o. roll-{kind} o ≡ y → ⊥) [ {' | '.join(gone)} ] (roll-out-{kind} y)\n"
            f"\npub other_{lower} : (k : ℕ) (y : {kind}) → {is_not} k y → (k == {tag}y)) ≡ false\n"
            f"other_{lower} k y h = elim (eqb_tells k ({tag}y)))"
            f" [ inl e ↦ absurd (none_{lower} y (subst (λ n. {is_not} n y) e.1 h)) | inr e ↦ e.0 ]\n"
        )
    words = set(re.findall(r"\w+", text))
    declared = re.findall(r"^use \S+\.declared\.\S+\.(?:\{\w+\}|TheVariants as \w+)\n", parts, re.M)
    used = [line for line in declared if re.findall(r"\w+", line)[-1] in words]
    head = (
        MADE + "-- For each type, that a node which isn't of one variant has another's tag: a step for all variants.\n"
        "use Rattle.std.proofs.Common.{◌≡◌, sym, refl, subst, ℕ, ℤ, ◌==◌, Bool, true, false, Vec, Global, inl, inr}\n"
        "use Rattle.std.proofs.lemmas.Bool.Decides.{eqb_tells}\nuse Rattle.demangle_core.specs.Core.{Tag, code}\n"
        + "".join(used)
        + "".join(f"use {OWN}.specs.declared.nodes.{x}.{{out-{x}, roll-{x}, roll-out-{x}}}\n" for x in types)
        + f"use {OWN}.specs.declared.nodes.BaseUnresolvedName.TheOpen as opened\n"
        + f"use {OWN}.specs.TreeNodes.{{{', '.join('tag_of_' + snake(kind) for kind in types)}}}\n"
    )
    pick = "\nabbrev pub pick : Bool → Type 0 → Type 0 → Type 0\npick true a b = a\npick false a b = b\n"
    return head + pick + text


def main():
    types = enums((CRATE / "src/nodes.rt").read_text())
    source, parts = (CRATE / "src/same_parts.rt").read_text(), (CRATE / "proofs/Parts.antt").read_text()
    (CRATE / "proofs/Other.antt").write_text(other_variants(parts, types))
    text = ""
    for name, kind, body in re.findall(r"^pub\(crate\) fn (same_\w+)\(x: &(\w+),.*?^\{\n(.*?)^\}", source, re.M | re.S):
        for goal, term in function(name, kind, body, types[kind]) if kind in types else []:
            text += f"\npub {goal} : goal.{goal}\n{goal} n c = {term}\n"
    public = r"^ *(?:abbrev )?pub (\w+) :"
    nodes = re.findall(public, (CRATE / "specs/TreeNodes.antt").read_text(), re.M)
    leaves = [f"{word}_of_{kind}" for kind in ["clone_suffix", "resource_name"] for word in ["tag", "parts"]]
    sources = {"Rattle.demangle_core.specs.Core": ["code"], "Rattle.demangle_leaf_nodes.specs.TreeLeaves": leaves}
    sources |= {f"{OWN}.specs.TreeNodes": nodes, f"{OWN}.proofs.Parts": re.findall(public, parts, re.M)}
    for file in ["Equal", "Other"]:
        sources[f"{OWN}.proofs.{file}"] = re.findall(public, (CRATE / f"proofs/{file}.antt").read_text(), re.M)
    used = imports(text, sources).replace("Core.{code}", "Core.{Tag, code}")
    head = MADE + "use Rattle.std.proofs.Common.{refl}\n" + used
    head += f"use {OWN}.proofs.same_parts.+same.Goals as goal\n"
    (CRATE / "proofs/same_parts/+same/Answers.antt").write_text(head + text)


if __name__ == "__main__":
    main()
