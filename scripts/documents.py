#!/usr/bin/env python3
"""Checks the documents: every link leads to a file of the repository and a heading in it, paragraphs and list items have lines of at most 160 characters (a
row of a table or of code may be longer), and README has at most 120 lines. Says what is wrong, one to a line, and ends with 1 where something is."""
import pathlib
import re
import subprocess
import sys

ROOT = pathlib.Path(__file__).resolve().parent.parent
WIDTH, README_LINES = 160, 120
LINK = re.compile(r"\[[^\]]*\]\(([^)\s]+)\)")


def documents():
    listed = subprocess.run(["git", "-C", str(ROOT), "ls-files", "*.md"], check=True, capture_output=True, text=True).stdout
    return [ROOT / name for name in listed.splitlines()]


def lines(path):
    """The lines with their numbers, less those of code."""
    code = False
    for number, line in enumerate(path.read_text().splitlines(), 1):
        if line.startswith("```"):
            code = not code
        elif not code:
            yield number, line


def anchors(path):
    """The headings as a link names them."""
    return {re.sub(r"[^\w\- ]", "", line.lstrip("#").strip().lower()).replace(" ", "-") for _, line in lines(path) if line.startswith("#")}


def faults(path):
    name = path.relative_to(ROOT)
    for number, line in lines(path):
        if len(line) > WIDTH and not line.startswith("|"):
            yield f"{name}:{number}: {len(line)} characters"
        for link in LINK.findall(line):
            if re.match(r"[a-z]+:", link):
                continue
            file, _, heading = link.partition("#")
            target = (path.parent / file).resolve() if file else path
            if not target.exists():
                yield f"{name}:{number}: {link}: no such file"
            elif heading and heading not in anchors(target):
                yield f"{name}:{number}: {link}: no such heading"
    if name == pathlib.Path("README.md") and (count := len(path.read_text().splitlines())) > README_LINES:
        yield f"{name}: {count} lines, {README_LINES} at most"


found = [fault for path in documents() for fault in faults(path)]
print("\n".join(found) or f"{len(documents())} documents: every link leads somewhere, no line is too long")
sys.exit(bool(found))
