#!/usr/bin/env python3
"""Turns what was a tuple or a numbered field into the record of named clauses that a check asks for.

usage: tools/mend_records.py OUTPUT      in the crate's folder; OUTPUT is what rt check printed there
"""

import re
import sys


def parts_of(text, at):
    """The end of the bracket at text[at], and its parts between commas."""
    depth, parts, begin, i = 0, [], at + 1, at
    while i < len(text):
        ch = text[i]
        if ch in "([{":
            depth += 1
        if ch in ")]}":
            depth -= 1
            if depth == 0:
                parts.append(text[begin:i])
                return i + 1, [p.strip() for p in parts if p.strip()]
        if ch == "," and depth == 1:
            parts.append(text[begin:i])
            begin = i + 1
        i += 1
    return None, []


def body_of(text, at):
    """The place of the bracket that a declaration's body ends in, behind its `let`s."""
    end = text.find("\n\n", at)
    end = len(text) if end < 0 else end
    depth, start = 0, at
    for i in range(at, end):
        if text[i] in "([{":
            depth += 1
        if text[i] in ")]}":
            depth -= 1
        if depth == 0 and re.match(r"\sin\s", text[i : i + 4]):
            start = i + 3
    while start < end and text[start].isspace():
        start += 1
    while start < end and text[start] != "(":
        start += 1
    return start


def main(argv):
    said = open(argv[0], encoding="utf-8").read()
    said = re.sub(r"\n  ", " ", said)
    edits = {}
    for m in re.finditer(r"(?m)^(\./[^\s:]+):(\d+):(\d+): error: [^\n]*?is built with `record \{ ([^}`]*) \}`, not as a tuple", said):
        names = [n.split("=")[0].strip() for n in m[4].split(";")]
        edits.setdefault(m[1], []).append((int(m[2]), int(m[3]), "tuple", names))
    for m in re.finditer(r"(?m)^(\./[^\s:]+):(\d+):(\d+): error: [^\n]*?has no field `(\d+)` +its fields are ([^\n]*?)(?: +long terms[^\n]*| +one side[^\n]*)?$", said):
        names = re.findall(r"`([^`]+)`", m[5])
        if int(m[4]) < len(names):
            edits.setdefault(m[1], []).append((int(m[2]), int(m[3]), m[4], names))
    for m in re.finditer(r"(?m)^(\./[^\s:]+):(\d+):(\d+): error: [^\n]*but this has type `lts\.the-Clauses", said):
        edits.setdefault(m[1], []).append((int(m[2]), int(m[3]), "clauses", []))
    done = 0
    for path, them in edits.items():
        text = open(path, encoding="utf-8").read()
        starts = [0]
        for line in text.split("\n"):
            starts.append(starts[-1] + len(line) + 1)
        for row, column, kind, names in sorted(them, reverse=True):
            at = starts[row - 1] + column - 1
            if kind == "clauses":
                end = text.index("\n", at)
                text = text[:end] + " tie.handed_clauses" + text[end:]
                done += 1
                continue
            if kind == "tuple":
                at = body_of(text, at)
                end, parts = parts_of(text, at)
                while end and len(parts) < len(names) and parts[-1].startswith("(") and parts_of(parts[-1], 0)[0] == len(parts[-1]):
                    parts[-1:] = parts_of(parts[-1], 0)[1]
                if end and len(parts) == len(names):
                    text = text[:at] + "record { " + "; ".join(f"{n} = {p}" for n, p in zip(names, parts)) + " }" + text[end:]
                    done += 1
                elif end and len(names) == 2 and len(parts) > 2:
                    text = text[:at] + "record { " + f"{names[0]} = {parts[0]}; {names[1]} = ({', '.join(parts[1:])})" + " }" + text[end:]
                    done += 1
                else:
                    print(f"left: {path}:{row}: {names}")
            else:
                near = text.find("." + kind, max(0, at - 2))
                if near < 0 or near > at + 200:
                    print(f"left: {path}:{row}: .{kind}")
                    continue
                text = text[: near + 1] + names[int(kind)] + text[near + 1 + len(kind) :]
                done += 1
        with open(path, "w", encoding="utf-8") as it:
            it.write(text)
    print(f"mended: {done}")
    return 0


if __name__ == "__main__":
    raise SystemExit(main(sys.argv[1:]))
