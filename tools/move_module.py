#!/usr/bin/env python3
"""Moves a module of theorems from a crate's specs/ to its proofs/, so that an edit of a definition is refused there.

usage: tools/move_module.py CRATE MODULE      at the top of the repository; the statements stay as they are
"""

import glob
import os
import re
import subprocess
import sys


def read(path):
    with open(path, encoding="utf-8") as it:
        return it.read()


def write(path, text):
    with open(path, "w", encoding="utf-8") as it:
        it.write(text)


def main(argv):
    crate, module = argv
    here = f"crates/{crate}"
    subprocess.run(["git", "mv", f"{here}/specs/{module}.antt", f"{here}/proofs/{module}.antt"], check=True)
    text = read(f"{here}/specs/Lib.antt")
    write(f"{here}/specs/Lib.antt", re.sub(rf"(?m)^(pub )?mod {module}\n", "", text))
    lib = f"{here}/proofs/Lib.antt"
    text = read(lib) if os.path.exists(lib) else "-- What the proofs of this crate share, and its theorems.\n"
    if not re.search(rf"(?m)^pub mod {module}$", text):
        text = text.rstrip() + f"\npub mod {module}\n"
    write(lib, text)
    old, new = f"Rattle.{crate}.specs.{module}", f"Rattle.{crate}.proofs.{module}"
    for path in glob.glob("crates/*/**/*.antt", recursive=True) + glob.glob("crates/*/src/**/*.rt", recursive=True):
        if "/out/" in path:
            continue
        text = read(path)
        to = re.sub(re.escape(old) + r"(?![\w'])", new, text)
        if to != text:
            print(path)
            write(path, to)
    return 0


if __name__ == "__main__":
    raise SystemExit(main(sys.argv[1:]))
