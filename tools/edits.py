#!/usr/bin/env python3
"""Brings the must-fail edits of specs/ to the spelling of port.py and tools/respell.py.

usage: tools/edits.py LIST      at the top of the repository; LIST is what `tools/respell.py --list` printed before the names were respelled

Only the texts behind `old: ` and `new: ` that no longer stand in their file are turned; an edit whose text still does not fit is printed.
"""

import glob
import re
import sys

W = re.compile(r"[^\s(){}.;,@\"«»\[\]\\:]+")
# Names of the kit that stand in these edits.
KIT = {
    "ofBits": "of_bits", "getD": "get_or", "ltZ": "lt_z", "leZ": "le_z", "_∷_": "◌∷◌", "_+_": "◌+◌", "ofInt": "of_int", "toBits": "to_bits",
    "roundOf": "round_of", "subNat": "sub_nat", "eqZ": "eq_z",
}  # fmt: skip


def turned(text, new):
    text = text.replace("«", "").replace("»", "")
    text = re.sub(r"(?<=[\w)'₀-₉]) \.(?=[a-z_0-9])", ".", text)
    text = re.sub(r"(?<![\w.])\((\w+)\.(\w+)\)", r"\1.\2", text)
    snake = lambda it: re.sub(r"(?<=[a-z0-9])(?=[A-Z])", "_", it).lower() if re.fullmatch(r"[a-z]\w*[A-Z]\w*", it) else it
    return W.sub(lambda m: new.get(m[0], KIT.get(m[0], snake(m[0]))), text)


def main(argv):
    with open(argv[0], encoding="utf-8") as it:
        new = dict(line.split() for line in it if len(line.split()) == 2)
    for path in sorted(glob.glob("crates/*/must-fail/*.edit")):
        crate = path.split("/")[1]
        with open(path, encoding="utf-8") as it:
            lines = it.read().split("\n")
        texts, file, old, out = {}, None, None, []
        for at, line in enumerate(lines):
            if line.startswith("file: "):
                file = line[6:]
                if file not in texts:
                    with open(f"crates/{crate}/{file}", encoding="utf-8") as it:
                        texts[file] = it.read()
            elif line.startswith("old: "):
                old = line[5:]
                if texts[file].count(old) != 1:
                    to = turned(old, new)
                    if texts[file].count(to) == 1:
                        old = to
                        line = "old: " + to
                    else:
                        print(f"left: {path}: {texts[file].count(to)}: {to}")
            elif line.startswith("new:"):
                text = line[4:].removeprefix(" ")
                if file.startswith("specs/"):
                    text = turned(text, new)
                    line = ("new: " + text).rstrip()
                if texts[file].count(old) == 1:
                    texts[file] = texts[file].replace(old, text)
            out.append(line)
        if out != lines:
            with open(path, "w", encoding="utf-8") as it:
                it.write("\n".join(out))
    return 0


if __name__ == "__main__":
    raise SystemExit(main(sys.argv[1:]))
