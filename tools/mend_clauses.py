#!/usr/bin/env python3
"""Adds to a lemma the impossible cases that a check asks for.

usage: tools/mend_clauses.py OUTPUT      in the crate's folder; OUTPUT is what rt check printed there

`error: f: write the clause f a (suc b) l = elim l [ ]` puts that clause behind the lemma's signature.
"""

import re
import sys

W = r"[^\s(){}.;,@\"«»\[\]\\]+"


def main(argv):
    said = open(argv[0], encoding="utf-8").read()
    done = 0
    seen = set()
    asked = [(m[1], m[3]) for m in re.finditer(r"(?m)^(\./[^\s:]+):(\d+):\d+: error: `[^`]*`: write the clause `([^`]+)`", said)]
    for m in re.finditer(r"(?m)^(\./[^\s:]+):\d+:\d+: error: `([^`]*)`: write the clauses\n((?:  .*\n)+)", said):
        name = m[2]
        asked += [(m[1], line.strip()) for line in m[3].split("\n")[::-1] if line.strip().startswith(name + " ") and " = " in line]
    for path, clause in asked:
        if (path, clause) in seen:
            continue
        seen.add((path, clause))
        clause = re.sub(r"\b(?:\w+\.)+(?=\w)", "", clause)
        name = clause.split()[0]
        lines = open(path, encoding="utf-8").read().split("\n")
        at = next((i for i, l in enumerate(lines) if re.match(r"\s*" + re.escape(name) + r"\s.*=", l) and not re.match(r"\s*(pub |abbrev )*" + re.escape(name) + r"\s.*:\s", l)), None)
        if at is None:
            print(f"left: {path}: {clause}")
            continue
        indent = re.match(r"\s*", lines[at])[0]
        lines.insert(at, indent + clause)
        text = "\n".join(lines)
        for word in ("zero", "suc"):
            if re.search(r"(?<![\w.])" + word + r"(?![\w'-])", clause) and not re.search(r"(?m)^use [^\n]*[{ ]" + word + r"[,}]", text):
                text = re.sub(r"(?m)^(use (?:Prim\.Native\.Nat|Rattle\.std\.specs\.Prelude|Rattle\.std\.proofs\.Common)\.\{)", r"\g<1>" + word + ", ", text, count=1)
                if not re.search(r"(?m)^use [^\n]*[{ ]" + word + r"[,}]", text):
                    text = re.sub(r"(?m)^use ", f"use Prim.Native.Nat.{{{word}}}\nuse ", text, count=1)
        with open(path, "w", encoding="utf-8") as it:
            it.write(text)
        done += 1
    print(f"mended: {done}")
    return 0


if __name__ == "__main__":
    raise SystemExit(main(sys.argv[1:]))
