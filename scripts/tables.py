#!/usr/bin/env python3
"""Writes the crate `tables` from the Rust's tables.rs: code, definitions and the proofs that the two are equal.

`tables.py [FOLDER]` writes the files; FOLDER holds the Rust (default: ../shared/docs/src beside the repository).
`tables.py --check [FOLDER]` compares the files with what it would write. Both read every number back from the files' text
and compare its 64 bits with the Rust literal's value. SAM, which nothing reads, is left out."""
import re
import struct
import sys
from pathlib import Path

ROOT = Path(__file__).resolve().parent.parent
CRATE = ROOT / "crates/tables"
SOURCE = "crates/sidereon-core/src/astro/atmosphere/tables.rs"
# The tables that nothing but a whole row is read of: a constant for each row.
BY_ROW = ("PD", "PTL", "PMA")
WIDE = ["PT", "PS"] + [f"PD{i}" for i in range(9)]
NARROW = [f"PTL{i}" for i in range(4)] + [f"PMA{i}" for i in range(10)]
DOC = {
    "PT": "Exospheric temperature.",
    "PD": "Densities, one row each: He, O, N2, the temperature at the lower boundary, O2, Ar, H, N, anomalous O.",
    "PS": "Shape of the temperature profile.",
    "PDL": "Corrections of the densities' profiles.",
    "PTM": "Mean temperatures.",
    "PDM": "Mean densities and altitudes, one row a species: He, O, N2, O2, Ar, H, N, anomalous O.",
    "PTL": "Temperatures of the lower thermosphere's nodes, one row a node.",
    "PMA": "Temperatures and gradients of the lower atmosphere's nodes, one row each.",
    "PAVGM": "Mean temperatures and gradients of the lower atmosphere.",
}


def bits(text):
    return struct.unpack("<Q", struct.pack("<d", float(text)))[0]


def read(folder):
    """Name to rows of literals, and whether the Rust has an array of arrays, in the Rust's order."""
    found = {}
    text = (folder / SOURCE).read_text()
    for name, body in re.findall(r"static (\w+): [^=]* = (\[.*?\n\]);", text, re.S):
        inner = re.findall(r"\[([^\[\]]*)\]", body[1:-1]) or [body[1:-1]]
        rows = [re.findall(r"-?\d[\d.]*(?:E[+-]?\d+)?", row) for row in inner]
        found[name] = (rows, "[" in body[1:])
    del found["SAM"]
    assert list(found) == list(DOC), list(found)
    return found


def array(row, indent):
    pad = " " * indent
    return "[\n" + "".join(f"{pad}    {x},\n" for x in row) + pad + "]"


def entries(row):
    """The row in the definitions: five numbers a line."""
    lines = [row[k:k + 5] for k in range(0, len(row), 5)]
    return " ∷\n    ".join(" ∷ ".join(f"of_bits binary64 0x{bits(x):016x}" for x in line) for line in lines) + " ∷ []"


def functions(tables):
    """(function, definition, row, its constant) for each row of each table."""
    for name, (rows, nested) in tables.items():
        for i, row in enumerate(rows):
            index = str(i) if nested else ""
            constant = name + index if name in BY_ROW or not nested else f"{name}[{i}]"
            yield name.lower() + index, name.lower() + "_t" + index, row, constant


def code(tables):
    out = [
        "// The coefficient tables of tables.rs, and a function for each row. Made by scripts/tables.py.",
        "",
        "#![tactic(auto)]",
        "",
        "ghost use Rattle.std.specs.Prelude.{◌≡◌};",
        "ghost use Rattle.tables.specs.Tables.{" + ", ".join(d for _, d, _, _ in functions(tables)) + "};",
        "",
    ]
    for name, (rows, nested) in tables.items():
        out.append(f"// {DOC[name]}")
        if name in BY_ROW:
            for i, row in enumerate(rows):
                out.append(f"pub const {name}{i}: [f64; {len(row)}] = {array(row, 0)};\n")
        elif nested:
            body = "[\n" + "".join(f"    {array(row, 4)},\n" for row in rows) + "]"
            out.append(f"pub const {name}: [[f64; {len(rows[0])}]; {len(rows)}] = {body};\n")
        else:
            out.append(f"pub const {name}: [f64; {len(rows[0])}] = {array(rows[0], 0)};\n")
    for function, definition, row, constant in functions(tables):
        out.append(f"pub fn {function}() -> [f64; {len(row)}]\n    ensures {{ result ≡ {definition} }}\n{{\n    {constant}\n}}\n")
    return "\n".join(out)


def definitions(tables):
    out = [
        "-- The tables of tables.rs, number by number. Made by scripts/tables.py.",
        "use Rattle.std.specs.Prelude.{List, [], ◌∷◌, Float}",
        "use Rattle.std.specs.Float.{binary64}",
        "use Rattle.std.specs.Float.Ieee.{of_bits}",
        "",
    ]
    seen = None
    for function, definition, row, _ in functions(tables):
        name = re.match(r"[a-z]+", function)[0].upper()
        if name != seen:
            out.append(f"-- {name}. {DOC[name]}")
            seen = name
        out.append(f"unfoldable pub {definition} : List Float\n{definition} =\n    {entries(row)}\n")
    return "\n".join(out)


def of(name):
    return re.sub(r"^([A-Z]+)(\d*)$", lambda m: m[1].lower() + "_t" + m[2], name)


def names():
    def one(kind, constructors):
        return (
            f"pub data {kind} : Type 0 where\n  {' '.join(constructors)} : {kind}\n\n"
            f"abbrev pub {kind.lower()} : {kind} → List Float\n" + "".join(f"{kind.lower()} {x} = {of(x)}\n" for x in constructors)
        )
    return (
        "-- The coefficient sets by name: the eleven that globe7 is given, and the fourteen that glob7s is. Made by scripts/tables.py.\n"
        "use Rattle.std.specs.Prelude.{List, Float}\n"
        f"use Rattle.tables.specs.Tables.{{{', '.join(map(of, WIDE + NARROW))}}}\n\n"
        + one("Wide", WIDE) + "\n" + one("Narrow", NARROW)
    )


def answers(function, definition):
    return (
        f"-- `{function}` is the definition's list. Made by scripts/tables.py.\n"
        "use mathlib.Core.Path.{refl}\n"
        f"use Rattle.tables.specs.Tables.{{{definition}}}\n"
        f"use Rattle.tables.proofs.{function}.Goals as goal\n\n"
        f"pub returns : goal.returns\nunfolding {definition}\nreturns c = refl\n"
    )


def compare(tables, rt, antt):
    """Every number in both texts has the Rust literal's bits."""
    want = {d: [bits(x) for x in row] for _, d, row, _ in functions(tables)}
    for definition, numbers in want.items():
        body = re.search(rf"^{definition} =\n(.*?)\[\]", antt, re.S | re.M)[1]
        assert [int(x, 16) for x in re.findall(r"0x([0-9a-f]{16})", body)] == numbers, definition
    flat = {}
    for name, body in re.findall(r"pub const (\w+): [^=]* = (\[.*?\n\]);", rt, re.S):
        flat[name] = [bits(x) for x in re.findall(r"-?\d[\d.]*E[+-]?\d+", body)]
    for name, (rows, nested) in tables.items():
        for i, row in enumerate(rows):
            have = flat[f"{name}{i}"] if name in BY_ROW else flat[name][i * len(row):(i + 1) * len(row)]
            assert have == [bits(x) for x in row], (name, i)
    return sum(map(len, want.values()))


def main():
    folders = [a for a in sys.argv[1:] if not a.startswith("--")]
    tables = read(Path(folders[0]) if folders else ROOT.parent / "shared/docs/src")
    files = {"src/lib.rt": code(tables), "specs/Tables.antt": definitions(tables), "specs/Names.antt": names()}
    for function, definition, _, _ in functions(tables):
        files[f"proofs/{function}/Answers.antt"] = answers(function, definition)
    for path, text in files.items():
        if "--check" in sys.argv:
            assert (CRATE / path).read_text() == text, f"{path} differs from what the script writes"
        else:
            (CRATE / path).parent.mkdir(parents=True, exist_ok=True)
            (CRATE / path).write_text(text)
    count = compare(tables, (CRATE / "src/lib.rt").read_text(), (CRATE / "specs/Tables.antt").read_text())
    print(f"{count} numbers have the bits of the Rust's literals, in the code and in the definitions")


if __name__ == "__main__":
    main()
