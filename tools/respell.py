#!/usr/bin/env python3
"""Respells the repository's own definitions, lemmas and bound names in snake case, after port.py.

usage: tools/respell.py [--list]      at the top of the repository; --list prints old and new names and writes nothing

Definitions, fields and lemmas of specs/ and proofs/ that are written in camel case or with dashes get the spelling of today's Rattle: aboveZero is above_zero,
accepted-is is accepted_is. Types and facts keep their capital, numbers (1·0E-5) and their lemmas (is-1·0E-5) stay, and so do names of the kit. A lemma that would
have the name of a definition gets `_lem` behind it. Names of src/ are not touched: there only clauses and `ghost use` lines are read. It is run once, right after port.py.
Must-fail edits are brought over by tools/edits.py.
"""

import collections
import glob
import os
import re
import sys

W = r"[^\s(){}.;,@\"«»\[\]\\:]+"
TOKEN = re.compile(r"(?m)^\s*--[^\n]*|(?<=\s)--\s[^\n]*|\"[^\"\n]*\"|" + W)
HEAD = re.compile(r"(?m)^[ \t]*((?:(?:abbrev|unfoldable|pub|data|record|constructor)[ \t]+)*)(" + W + r")((?:[ \t]+[({][^\n]*?[)}])*)[ \t]+:(?!:)[ \t]*([^\n]*)")
GROUP = re.compile(r"[({]((?:" + W + r"[ \t]+)+):(?!:)")
BOUND = re.compile(r"(?:λ|let|↦)[ \t]+((?:[({]*" + W + r"[)}]*,?[ \t]*)+)")
NUMBER = re.compile(r"(is-)?\d")
# Lemmas that port.py gave the name that a definition now gets, by the files that say them; is_nan is a word of the kit.
TWINS = {
    "above_zero": ["varied_constants/proofs/Laws"],
    "found_of": ["bands/specs/Theorems"],
    "line_kept": ["line_answer/proofs/Cut", "line_answer/proofs/take_byte/Proof"],
    "minus_one": ["expansion_calls/specs/Cases"],
    "one_number": ["line_form/proofs/Laws", "line_form/proofs/numbers/Proof"],
    "refilled_by": ["station/specs/Theorems"],
    "same_from": ["line_cut/proofs/Theorems"],
    "turn_at": ["elementary_bounds/proofs/LogNear"],
    "upper_fits": ["elementary_bounds/proofs/LogSeries", "elementary_bounds/proofs/LogNear"],
}
MADE = re.compile(r"tie\.|goal\.")
KIT = re.compile(r"(?m)^(?:ghost )?use (?!Rattle\.(?!std\b))[^\n;{]*\{([^}]*)\}")


def antt_files():
    for kind in ("specs", "proofs"):
        yield from sorted(p for p in glob.glob(f"crates/*/{kind}/**/*.antt", recursive=True) if "/out/" not in p)


def rt_files():
    yield from sorted(p for p in glob.glob("crates/*/src/**/*.rt", recursive=True) if "/out/" not in p)


def read(path):
    with open(path, encoding="utf-8", newline="") as it:
        return it.read()


def snake(name):
    # A dash before an operator joins the operator's name: it stays.
    name = re.sub(r"-(?=[\w'])", "_", name)
    if name[:1].islower() or name[:1] == "_":
        name = re.sub(r"(?<=[a-z0-9])(?=[A-Z])", "_", name).lower()
    return name


def declared():
    """The repository's names with their kind, definition or lemma, and the names of the kit."""
    definitions, lemmas, bound, kit = set(), set(), set(), set()
    for path in antt_files():
        text = read(path)
        for line in KIT.findall(text):
            kit.update(line.replace(",", " ").split())
        bare = re.sub(r"(?m)^\s*--[^\n]*|(?<=\s)--\s[^\n]*", "", text)
        for marks, name, _, rest in HEAD.findall(bare):
            if MADE.match(rest):
                continue
            is_definition = re.search(r"abbrev|unfoldable|data|record", marks) or (not re.search(r"≡|≤|<|IsTrue|×|→.*[A-Z]\w+ ", rest) and "/specs/" in path)
            (definitions if is_definition else lemmas).add(name)
        for group in GROUP.findall(bare) + BOUND.findall(bare):
            bound.update(re.findall(W, group))
    for path in rt_files():
        for line in KIT.findall(read(path)):
            kit.update(line.replace(",", " ").split())
    return definitions, lemmas, bound, kit


def table():
    definitions, lemmas, bound, kit = declared()
    taken = {snake(n) for n in definitions}
    new = {}
    for name in definitions | lemmas | bound:
        if NUMBER.match(name) or name in kit or re.search(r"[(){}]", name):
            continue
        to = snake(name)
        if "-" in name and name in definitions | lemmas and to in taken - {name} and any(snake(n) == to for n in definitions if "-" not in n):
            to += "_lem"
        if name == "is-nan":
            to = "is_nan_lem"
        if to != name:
            new[name] = to
    return new, definitions, lemmas


def turned(text, new):
    """The text with each name respelled, comments too where the name is in camel case."""

    def one(m):
        it = m[0]
        if it.lstrip().startswith("--"):
            return re.sub(r"[A-Za-z]\w*", lambda n: new.get(n[0], n[0]) if re.search(r"[a-z0-9][A-Z]", n[0]) else n[0], it)
        return new.get(it, it)

    return TOKEN.sub(one, text)


CLAUSE = re.compile(r"(?m)^ghost use [^;]*;|^[ \t]*(?:requires|ensures|ghost)\b[^{\n]*\{|^[ \t]*ghost \w+: \{")


def clauses(text):
    """The spans of the clauses and `ghost use` lines of a source file."""
    for m in CLAUSE.finditer(text):
        end = m.end()
        if m[0].endswith("{"):
            depth = 1
            while depth:
                depth += {"{": 1, "}": -1}.get(text[end], 0)
                end += 1
        yield m.start(), end


def turned_source(text, new):
    out, at = [], 0
    comment = lambda it: re.sub(r"(?m)//[^\n]*", lambda m: re.sub(r"[A-Za-z]\w*", lambda n: new.get(n[0], n[0]) if re.search(r"[a-z0-9][A-Z]", n[0]) else n[0], m[0]), it)
    for start, end in clauses(text):
        if start < at:
            continue
        out += [comment(text[at:start]), turned(text[start:end], new)]
        at = end
    return "".join(out + [comment(text[at:])])


def main(argv):
    new, definitions, lemmas = table()
    if "--list" in argv:
        for name in sorted(new):
            print(name, new[name])
        return 0
    count = 0
    if not new:
        return 0
    for paths, turn in ((antt_files(), turned), (rt_files(), turned_source)):
        for path in paths:
            text = read(path)
            twins = {n: n + "_lem" for n, files in TWINS.items() if n in new.values() and path[len("crates/") : -len(".antt")] in files}
            to = turn(text, {**new, **twins})
            if to != text:
                count += 1
                with open(path, "w", encoding="utf-8", newline="") as it:
                    it.write(to)
    print(f"respell: {len(new)} names, {count} files")
    return 0


if __name__ == "__main__":
    raise SystemExit(main(sys.argv[1:]))
