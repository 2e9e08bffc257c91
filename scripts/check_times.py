#!/usr/bin/env python3
"""Measures how long it takes to prove the tree of each change request's merge commit, and the tree before it.

`check_times.py FOLDER` checks each tree that is not yet in docs/generated/check-times.tsv out below FOLDER, runs `rt prove` there from nothing with two
jobs, and adds a line. It can be stopped at any time and taken up again: what is measured stays. These trees are written for an older kit, whose rt has that
command; with another rt it measures nothing.
`check_times.py --write` puts the figures into docs/FIGURES.md, between its marks, and into the paragraph `Check.` of each note in docs/changes/ whose two trees
are measured."""
import datetime
import os
import pathlib
import re
import shutil
import subprocess
import sys
import textwrap
import time

ROOT = pathlib.Path(__file__).resolve().parent.parent
TIMES = ROOT / "docs/generated/check-times.tsv"
COLUMNS = ["commit", "tree", "proved", "crates", "wall", "user", "system", "date", "machine"]
COMMAND = "RT_JOBS=2 rt prove"


def git(*words):
    return subprocess.run(["git", "-C", str(ROOT), *words], check=True, capture_output=True, text=True).stdout


def requests():
    """The merge commits, oldest first: (request, commit, its first parent)."""
    merges = [line.split("\t") for line in git("log", "--merges", "--first-parent", "--reverse", "--format=%h%x09%p%x09%s").splitlines()]
    return [(subject[:5], commit, parents.split()[0]) for commit, parents, subject in merges if re.match(r"W-2\d\d:", subject)]


def trees():
    """The trees to measure, oldest first: (commit, name)."""
    found = []
    for request, commit, parent in requests():
        if parent not in [tree for tree, _ in found]:
            found.append((parent, f"before {request}"))
        found.append((commit, request))
    return found


def rows():
    lines = TIMES.read_text().splitlines() if TIMES.exists() else []
    return [dict(zip(COLUMNS, line.split("\t"))) for line in lines[1:]]


def machine():
    names = [line.split(":", 1)[1].strip() for line in open("/proc/cpuinfo") if line.startswith("model name")]
    return f"{len(names)} processors, {names[0] if names else os.uname().machine}"


def measure(commit, name, folder):
    shutil.rmtree(folder, ignore_errors=True)
    subprocess.run(["git", "clone", "-q", "--no-checkout", str(ROOT), str(folder)], check=True)
    subprocess.run(["git", "-C", str(folder), "checkout", "-q", commit], check=True)
    began = time.time()
    with open(folder.with_suffix(".log"), "w") as log:
        child = subprocess.Popen(["rt", "prove"], cwd=folder, env={**os.environ, "RT_JOBS": "2"}, stdout=log, stderr=subprocess.STDOUT)
        _, status, used = os.wait4(child.pid, 0)
    wall = time.time() - began
    crates = len(re.findall(r"^rt: \S+ proved \(", folder.with_suffix(".log").read_text(), re.M))
    shutil.rmtree(folder)
    date = datetime.date.today().isoformat()
    values = [commit, name, "yes" if status == 0 else "no", crates, f"{wall:.0f}", f"{used.ru_utime:.0f}", f"{used.ru_stime:.0f}", date, machine()]
    if not TIMES.exists():
        TIMES.parent.mkdir(parents=True, exist_ok=True)
        TIMES.write_text("\t".join(COLUMNS) + "\n")
    with open(TIMES, "a") as out:
        out.write("\t".join(map(str, values)) + "\n")


def span(seconds):
    return f"{seconds // 60} min {seconds % 60} s"


def used(row):
    """What a tree took, in words: its processor time and its crates."""
    took = span(int(row["user"]) + int(row["system"]))
    return f"{took} of processor time, {row['crates']} crates" + ("" if row["proved"] == "yes" else ", not proved")


def put(path, pattern, text):
    whole = path.read_text()
    changed, count = re.subn(pattern, lambda _: text, whole, count=1, flags=re.S | re.M)
    if not count:
        sys.exit(f"{path.relative_to(ROOT)}: no place for the check's time")
    path.write_text(changed)


def write():
    measured = {row["commit"]: row for row in rows()}
    table = ["| tree | commit | crates | wall, s | user, s | system, s | date | machine |", "|---|---|---|---|---|---|---|---|"]
    for commit, name in trees():
        if row := measured.get(commit):
            cells = [name + ("" if row["proved"] == "yes" else ", not proved"), commit, *(row[c] for c in ("crates", "wall", "user", "system", "date", "machine"))]
            table.append("| " + " | ".join(cells) + " |")
    marks = "<!-- check times -->", "<!-- end of check times -->"
    put(ROOT / "docs/FIGURES.md", rf"{marks[0]}.*{marks[1]}", f"{marks[0]}\n" + "\n".join(table) + f"\n{marks[1]}")
    for request, commit, parent in requests():
        if commit in measured and parent in measured:
            machines = " and ".join(sorted({measured[c]["machine"] for c in (parent, commit)}))
            said = f"**Check.** `{COMMAND}` from nothing: before {used(measured[parent])}; after {used(measured[commit])} ({machines})."
            put(ROOT / f"docs/changes/{request}.md", r"^(\*\*)?Check[.:].*\Z", textwrap.fill(said, 158) + "\n")


def main():
    if len(sys.argv) != 2:
        sys.exit(__doc__)
    if sys.argv[1] == "--write":
        return write()
    if "rt prove" not in subprocess.run(["rt", "help"], stdout=subprocess.PIPE, stderr=subprocess.STDOUT, text=True, errors="replace").stdout:
        sys.exit("check_times.py: these trees are written for an older kit, and this rt has no command prove")
    folder = pathlib.Path(sys.argv[1]).resolve()
    folder.mkdir(parents=True, exist_ok=True)
    done = {row["commit"] for row in rows()}
    for commit, name in trees():
        if commit not in done:
            measure(commit, name, folder / commit)


if __name__ == "__main__":
    main()
