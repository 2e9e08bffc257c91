#!/usr/bin/env python3
"""Writes docs/generated/design-changes.txt: what of signatures, clauses and definitions changed since the commit in the first line of docs/DESIGN-PASS.md.

usage: python3 tools/design_changes.py    at the top of the repository; `rt doc` tells where the kit's port/contracts.py lies
"""
import json, os, subprocess, sys, tempfile, textwrap


def said(*words, **more):
    return subprocess.run(words, check=True, capture_output=True, text=True, **more).stdout


def wrapped(mark, text):
    """A text behind its mark, in lines of at most 160."""
    return "\n".join(textwrap.wrap(" ".join(text.split()), 160, initial_indent=f"  {mark} ", subsequent_indent="      ", break_long_words=False, break_on_hyphens=False))


def clauses(found):
    return "; ".join(f"{name} {{ {text} }}".strip() for name, text in found) or "none"


def main():
    top = said("git", "rev-parse", "--show-toplevel").strip()
    commit = open(f"{top}/docs/DESIGN-PASS.md", encoding="utf-8").readline().strip()
    kit = os.path.dirname(said("rt", "doc").split("\n")[0].strip())
    with tempfile.TemporaryDirectory() as old:
        said("git", "clone", "-q", top, old)
        said("git", "-C", old, "checkout", "-q", commit)
        found = json.loads(said(sys.executable, f"{kit}/port/contracts.py", old, top, "--json"))
    out = [f"What changed since {commit}, old (-) beside new (+): written by tools/design_changes.py out of the kit's port/contracts.py.", "It sees the text alone."]
    out += ["", "Signatures", ""]
    for name, old, new in found["signatures changed"]:
        out += [name, wrapped("-", old), wrapped("+", new)]
    out += ["", "Clauses (requires, ensures)", ""]
    for name, asks, gives, asks_now, gives_now in found["contracts changed"]:
        out.append(name)
        if asks != asks_now:
            out += [wrapped("-", f"requires {clauses(asks)}"), wrapped("+", f"requires {clauses(asks_now)}")]
        if gives != gives_now:
            out += [wrapped("-", f"ensures {clauses(gives)}"), wrapped("+", f"ensures {clauses(gives_now)}")]
    out += ["", "Functions that are gone", ""]
    out += [it.split(" (")[0] for it in found["functions not found again"]]
    out += ["", "Definitions and theorems of specs/ that are gone", ""]
    out += [" ".join(it) for it in found["definitions"]["gone"]]
    out += ["", "Definitions and theorems of specs/ that changed", ""]
    for crate, name, old, new in found["definitions"]["changed"]:
        out.append(f"{crate} {name}")
        out += [wrapped("-", it) for it in old] + [wrapped("+", it) for it in new]
    with open(f"{top}/docs/generated/design-changes.txt", "w", encoding="utf-8") as it:
        it.write("\n".join(out) + "\n")


main()
