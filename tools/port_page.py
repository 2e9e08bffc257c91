#!/usr/bin/env python3
"""Writes the generated parts of docs/PORT.md and docs/generated/port-names.md.

usage: tools/port_page.py OLD LOG..      at the top of the repository; OLD is LANDED after port.py, tools/respell.py and tools/edits.py, LOG what `rt ci` printed

What stands in docs/PORT.md between <!-- made: X --> and <!-- end: X --> is replaced: the theorems that moved to proofs/, the lemmas with more cases, and the edits.
"""

import glob
import os
import re
import subprocess
import sys
import textwrap

HERE = os.path.dirname(os.path.realpath(__file__))
sys.path.insert(0, HERE)
sys.dont_write_bytecode = True
import respell  # noqa: E402

W = respell.W


def read(path):
    with open(path, encoding="utf-8") as it:
        return it.read()


SIGNATURE = re.compile(r"((?:abbrev|unfoldable|pub|data|record) )*(?P<n>" + W + r")((?: [({].*?[)}])*) :(?!:)")


def skeleton(path):
    """The declarations of a file and of its modules, in order: the headers of the modules around each, its name, its signature, and its text."""
    out, modules, item = [], [], None
    lines = [l for l in read(path).split("\n") if l.strip() and not l.lstrip().startswith("--")]
    for at, line in enumerate(lines):
        indent = len(line) - len(line.lstrip())
        while modules and indent <= modules[-1][0]:
            modules.pop()
        inside = modules[-1][0] + 2 if modules else 0
        m = re.match(r"\s*module _ (.*) where$", line)
        if m and indent == inside:
            modules.append((indent, m[1]))
            item = None
            continue
        m = SIGNATURE.match(line.strip()) if indent == inside else None
        if m:
            item = [[h for _, h in modules], m["n"], [line.strip()], [line.strip()], True]
            out.append(item)
        elif item:
            item[3].append(line.strip())
            if re.match(r"(unfolding\b|" + re.escape(item[1]) + r"(?=\s)|where$)", line.strip()):
                item[4] = False
            if item[4]:
                item[2].append(line.strip())
    return [(h, n, re.sub(r"\s+", " ", " ".join(s)), body) for h, n, s, body, _ in out]


def wrapped(text, indent=""):
    return textwrap.wrap(text, 150, initial_indent=indent, subsequent_indent=indent + "    ", break_long_words=False, break_on_hyphens=False)


def modules_of(old):
    for path in sorted(glob.glob(f"{old}/crates/*/specs/**/*.antt", recursive=True)):
        inside = os.path.relpath(path, f"{old}/crates")
        crate, module = inside.split("/")[0], inside.split("/specs/")[1][: -len(".antt")]
        if module != "Lib":
            yield path, crate, module


def today(crate, module):
    """The declarations of the module today, in specs/ and in proofs/, by the headers around them and their name."""
    found = {}
    for folder in ("specs", "proofs"):
        path = f"crates/{crate}/{folder}/{module}.antt"
        if os.path.exists(path):
            for headers, name, sig, body in skeleton(path):
                found.setdefault((tuple(headers), name), (folder, sig, body))
    return found


def theorems(old):
    out = []
    for path, crate, module in modules_of(old):
        if not os.path.exists(f"crates/{crate}/proofs/{module}.antt"):
            continue
        found = today(crate, module)
        rows, around = [], []
        for headers, name, sig, _ in skeleton(path):
            folder, new, _ = found.get((tuple(headers), name), (None, None, None))
            if folder == "specs":
                continue
            if headers != around:
                rows += [line for h in headers for line in wrapped(f"module _ {h} where")]
                around = headers
            indent = "  " * len(headers)
            if new == sig:
                rows += wrapped(sig, indent)
            elif new is None:
                rows += wrapped(sig, indent) + [indent + "    -- stands in another module today: see above"]
            else:
                rows += [indent + "-- LANDED:"] + wrapped(sig, indent) + [indent + "-- today:"] + wrapped(new, indent)
        if rows:
            out += [f"What stood in `crates/{crate}/specs/{module}.antt` and stands in `crates/{crate}/proofs/{module}.antt`:", "", "```", *rows, "```", ""]
    return out


def cases(old):
    """The laws whose equations have impossible cases that are new."""
    out = ["| crate | law | cases that are new |", "|---|---|---|"]
    files = [(path, crate, module) for path, crate, module in modules_of(old)]
    for path in sorted(glob.glob(f"{old}/crates/*/proofs/*.antt")):
        files.append((path, path.split("/")[-3], os.path.basename(path)[: -len(".antt")]))
    for path, crate, module in files:
        found = today(crate, module)
        for headers, name, sig, body in skeleton(path):
            _, _, new = found.get((tuple(headers), name), (None, None, body))
            more = [line for line in new if line not in body]
            if more and all(line.endswith("[ ]") for line in more):
                out.append(f"| {crate} | `{name}` | {len(more)}, each `elim h [ ]` |")
    return out


def lemmas(old):
    """The lemmas of proofs/ whose statements differ."""
    out = ["```"]
    for path in sorted(glob.glob(f"{old}/crates/*/proofs/*.antt")):
        crate, module = path.split("/")[-3], os.path.basename(path)[: -len(".antt")]
        found = today(crate, module)
        for headers, name, sig, _ in skeleton(path):
            folder, new, _ = found.get((tuple(headers), name), (None, None, None))
            if new != sig and module != "Lib":
                out += [f"-- {crate}, LANDED:"] + wrapped(sig) + ["-- today:"] + (wrapped(new) if new else ["(gone)"])
    return out + ["```"]


def edits(old, logs):
    goals = {}
    for log in logs:
        for m in re.finditer(r"(?m)^rt: must-fail (\S+)\.edit: (refused, as it must be|NOT REFUSED|BAD EDIT)[^:\n]*: (.*)$", read(log)):
            goals[m[1]] = m[3]
    out = []
    for path in sorted(glob.glob("crates/*/must-fail/*.edit")):
        label = path.split("/")[1] + "/" + os.path.basename(path)[: -len(".edit")]
        before = f"{old}/{path}"
        strip = lambda t: [l for l in t.split("\n") if l.strip() and l.startswith(("file: ", "old: ", "new:"))]
        now = strip(read(path))
        was = strip(read(before)) if os.path.exists(before) else None
        if was == now:
            continue
        where = goals.get(label, "")
        m = re.search(r"(?:note: )?(?:\./)?([^:\s]+):\d+:\d+: (?:error: )?(?:`([^`]+)`)?(?:[^\n]*?\(`([^`]+)`\))?", where)
        goal = m and (m[2] or m[3])
        said = (f"{m[1]}" + (f", `{goal}`" if goal else "")) if m else "?"
        out += [f"- `{label}`, refused in {said}" + ("" if was is not None else " (not landed before)")]
        cut = lambda l: l if len(l) <= 150 else "\n      ".join(textwrap.wrap(l, 145, break_long_words=False, break_on_hyphens=False))
        out += ["", "  ```"]
        if was is not None:
            out += ["  LANDED"] + ["  " + cut(l) for l in was]
        out += ["  today"] + ["  " + cut(l) for l in now] + ["  ```", ""]
    return out


def main(argv):
    old, logs = argv[0], argv[1:]
    path = "docs/PORT.md"
    text = read(path)
    for key, lines in (("theorems", theorems(old)), ("cases", cases(old)), ("lemmas", lemmas(old)), ("edits", edits(old, logs))):
        text = re.sub(rf"(?s)(<!-- made: {key} -->\n).*?(<!-- end: {key} -->)", lambda m: m[1] + "\n".join(lines).rstrip() + "\n" + m[2], text)
    with open(path, "w", encoding="utf-8") as it:
        it.write(text)
    return 0


if __name__ == "__main__":
    raise SystemExit(main(sys.argv[1:]))
