#!/usr/bin/env python3
"""Writes the C release's published samples into crates/cases_samples: in src/main.rt, in place of what stands there, a function for each, case0 to case16,
which runs it and says whether the numbers agree with the figures in all seven digits; and stdout, what the program prints.

`samples.py [FILE]` writes them; FILE is c-release-samples.txt, default ../shared/docs beside the repository.
`samples.py --check [FILE]` compares them with what stands there."""
import re
import sys
from pathlib import Path

ROOT = Path(__file__).resolve().parent.parent
CRATE = ROOT / "crates/cases_samples"
NAMES = ["sec", "alt", "g_lat", "g_long", "lst", "f107a", "f107", "ap"]


def half(figure):
    """Half a unit of the seventh digit, a little more than the figure's own rounding."""
    mantissa, exponent = figure.split("E")
    return "0.0" if float(figure) == 0 else f"5.000001E{int(exponent) - 7}"


def numbers(values):
    """A list of numbers in the layout of rt fmt, one to a line, as an argument."""
    return "        [\n" + "".join(f"            {value},\n" for value in values) + "        ],\n"


def function(number, words, figures):
    value = {n: float(re.search(rf"\b{n} (\S+)", words)[1]) for n in ["doy"] + NAMES}
    figures = figures.split()
    assert len(figures) == 11
    there = "ap_array" in words
    fields = ", ".join(repr(value[n]) for n in NAMES)
    return (
        f"fn case{number}() -> bool {{\n"
        f"    let row = sample(\n        {int(value['doy'])},\n        [{fields}],\n"
        f"        History::{'Present' if there else 'Absent'},\n        {-1 if there else 1},\n    );\n"
        f"    all(\n        row,\n{numbers(figures)}{numbers(map(half, figures))}    )\n}}\n"
    )


def main(words):
    check = words[:1] == ["--check"]
    text = Path((words[check:] or [ROOT.parent / "shared/docs/c-release-samples.txt"])[0]).read_text()
    cases = re.findall(r"^case (\d+) +(.*)\n((?: .*\n?)+)", text, re.M)
    assert len(cases) == 17
    program = CRATE / "src/main.rt"
    code = program.read_text()
    start, end = code.index("fn case0() -> bool {\n"), code.index("\nfn main(")
    files = {
        program: code[:start] + "\n".join(function(*case) for case in cases) + code[end:],
        CRATE / "stdout": "".join(f"case {number} agrees\n" for number, _, _ in cases),
    }
    wrong = 0
    for path, made in files.items():
        if check:
            wrong += path.read_text() != made
        else:
            path.write_text(made)
    if wrong:
        sys.exit(f"{wrong} files of crate cases_samples differ from what scripts/samples.py writes")


main(sys.argv[1:])
