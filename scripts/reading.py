#!/usr/bin/env python3
"""Sets the line numbers in docs/READING.md: behind `NAME`, FILE:LINE stands the line of FILE that declares NAME. Fails where none does, where an edit that
it names is not there, and where docs/MAP.md does not name each crate of crates.txt once in its lists of crates."""
import pathlib
import re
import sys

root = pathlib.Path(__file__).resolve().parent.parent
page = root / "docs" / "READING.md"


def line_of(name, file):
    declares = re.compile(r"^\s*(?:(?:unfoldable |abbrev )?pub (?:record |data )?|pub (?:extern \"C\" )?fn )" + re.escape(name) + r"(?=[\s(:])")
    for number, line in enumerate((root / file).read_text().splitlines(), 1):
        if declares.match(line):
            return number
    sys.exit(f"{file}: nothing declares {name}")


text = page.read_text()
text = re.sub(r"`([^`]+)`, (crates/[\w/.]+):\d+", lambda m: f"`{m[1]}`, {m[2]}:{line_of(m[1], m[2])}", text)
page.write_text(text)

for edit in re.findall(r"\w+/must-fail/\w+", text):
    if not (root / "crates" / f"{edit}.edit").exists():
        sys.exit(f"docs/READING.md: {edit} is not there")

crates = [re.split("[ :]", line)[0] for line in (root / "crates.txt").read_text().splitlines() if not line.startswith("#")]
lists = (root / "docs" / "MAP.md").read_text().split("\n## Product", 1)[1]
named = []
for line in lists.splitlines():
    cells = [cell.strip() for cell in line.strip("|").split("|")]
    if len(cells) >= 2 and line.startswith("|"):
        named += re.findall(r"`(\w+)`", cells[-2])
for crate in sorted(set(crates) | set(named)):
    if named.count(crate) != 1 or crate not in crates:
        sys.exit(f"docs/MAP.md: {crate} is named {named.count(crate)} times in the lists of crates")
