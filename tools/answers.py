#!/usr/bin/env python3
"""Turns a crate's proofs that walk the code, Proof.antt, into Answers.antt and Invariants.antt.

usage: tools/answers.py CRATE [FUNCTION..]      at the top of the repository; the crates below CRATE have to be proved

Each answer keeps its words. A goal gets the name that the check gives it today (rt check --generated DIR --old-names), and a path through the walk, as
`c.before.before.if1.true`, becomes the step's own, as `c.if-x.true`. Answers that only said `search rules` go, since the check tries more by itself.
What could not be read stands in the file as it was, and the check names it.
"""

import glob
import json
import os
import re
import shutil
import subprocess
import sys
import tempfile

W = r"[^\s(){}.;,@\"«»\[\]\\:]+"
TOKEN = re.compile(r"--[^\n]*|\"[^\"\n]*\"|[A-Za-z_\u0080-\uffff◌][^\s(){}.;,@\"«»\[\]\\:]*(?:\.[^\s(){}.;,@\"«»\[\]\\:]+)*|" + W)
same = lambda it: re.sub(r"[-_·]", "", it).lower()


def read(path):
    with open(path, encoding="utf-8") as it:
        return it.read()


def blocks(text):
    """The head of `use` lines and comments, and a block for each declaration: [comments, signature, unfolding, equations]."""
    lines = text.split("\n")
    head, out, at, comments = [], [], 0, []
    while at < len(lines):
        line = lines[at]
        if re.match(r"use |open |mod ", line) or (not out and line.startswith("--") and not head):
            head.append(line)
            at += 1
            while at < len(lines) and lines[at].startswith((" ", "\t")) and lines[at].strip():
                head.append(lines[at])
                at += 1
            continue
        if line.startswith("--"):
            comments.append(line)
            at += 1
            continue
        if not line.strip():
            at += 1
            continue
        block = [line]
        at += 1
        while at < len(lines) and (lines[at].startswith((" ", "\t")) or not lines[at].strip()):
            block.append(lines[at])
            at += 1
        while block and not block[-1].strip():
            block.pop()
        m = re.match(r"((?:abbrev |pub |unfoldable |data |record |mutual )*)(" + W + r")", line)
        name = m[2] if m else ""
        is_signature = line.startswith("module ") or bool(re.match(r"((?:abbrev |pub |unfoldable )*)" + W + r"(?: [({].*[)}])*\s*:(?!:)", line)) or re.match(r"(pub )?(data|record|mutual)\s", line)
        if is_signature or not out:
            out.append(dict(name=name, marks=m[1] if m else "", comments=comments, lines=block, equations=[], signature="\n".join(block)))
            comments = []
        else:
            if comments:
                out[-1]["equations"].append("\n".join(comments))
                comments = []
            out[-1]["equations"].append("\n".join(block))
    return head, out


def split_args(text):
    """The arguments of tie.spec, in order."""
    args, depth, now = [], 0, ""
    for ch in text:
        if ch in "([{":
            depth += 1
        if ch in ")]}":
            depth -= 1
        if ch.isspace() and depth == 0:
            if now:
                args.append(now)
            now = ""
        else:
            now += ch
    return args + [now] if now else args


class Walk:
    def __init__(self, listed):
        self.needs = [n[1] for n in listed["needs"]]
        self.old = [n[0] for n in listed["needs"]]
        self.at = [a[0] for a in listed["asked_at"]]
        self.renames = {}
        self.places = {p[0]: p for p in listed["places"]}
        self.args = {a.split()[-1][1:]: b.split()[-1][1:] for a, b in listed["args"] if a.startswith(".args ")}
        self.loops = listed["loops"]
        self.changed = listed["changed"]
        names = listed["places_by_name"]
        self.place_names = {same(p[0]): n for p, n in zip(listed["places"], names)}
        self.old_names = {same(p[0]): p[0] for p in listed["places"]}
        self.steps = {same(p[2][0]): p[2][1] for p in listed["places"] if p[2][0]}

    def hops(self, place, end):
        n = 0
        while place != end and self.places.get(place) and self.places[place][1]:
            place = self.places[place][1]
            n += 1
        return n

    def way(self, place):
        """A place and those that the walk came by before it, the nearest first."""
        way = []
        while place and self.places.get(place):
            way.append(self.places[place])
            place = self.places[place][1]
        return way

    def found(self, place, step):
        """The place with a step of that name: on the way to the goal, or else anywhere."""
        for p in self.way(place) + list(self.places.values()):
            if p[2][0] and same(p[2][0]) == same(step):
                return p
        return None

    def arm(self, place, step):
        """The arm of the match that says which variant a value is, where the walk told it in a step of its own."""
        way = self.way(place)
        at = next((i for i, p in enumerate(way) if p[2][0] and same(p[2][0]) == same(step)), None)
        if at is None or re.search(r"arg|known|struct", step):
            return None
        near = sorted((abs(i - at), i) for i, p in enumerate(way) if re.match(r"in[-_]", p[2][1]))
        return way[near[0][1]][2][1] if near and near[0][0] <= 2 else None

    def path(self, place, fields):
        """The words of a path from a place: its new text behind `c`, and the place if it ends at one."""
        here, out, first = place, [], True
        seen = False
        steps = [f for f in fields if f != "before"]
        if len(steps) == 3 and steps[1:] == ["given", "1"]:
            arm = self.arm(place, steps[0])
            if arm:
                return [arm, "is"], None
        for f in fields:
            if f == "before" and not seen:
                p = self.places.get(here)
                here = p[1] if p and p[1] else here
                continue
            if not seen:
                seen = True
                p = self.places.get(here)
                if f.endswith("_lem") and (same(f[:-4]) in self.steps or (p and same(p[2][0]) == same(f[:-4]))):
                    f = f[:-4]
                if p and same(p[2][0]) == same(f):
                    out.append(p[2][1])
                    self.renames = dict(p[4]) if len(p) > 4 else {}
                    continue
                f = {"well-formed": "well_formed", "type-inv": "type_inv"}.get(f, f)
                if f in ("args", "requires", "ranges", "well_formed", "type_inv"):
                    out.append(f)
                    self.renames = self.args if f in ("args", "ranges") else {}
                    continue
                found = self.found(place, f)
                out.append(found[2][1] if found else f)
                self.renames = dict(found[4]) if found and len(found) > 4 else {}
                continue
            if f == "rest" and len(out) == 1 and out[0].startswith("in_default"):
                out.append("in_default-own")
            if re.fullmatch(r"keys\d+", f) and len(out) == 1:
                f = "is"
            if out[-1] in ("args", "ranges", "new", "initial", "auto") or len(out) == 1:
                f = self.renames.get(f, f.replace("-", "_") if out[-1] in ("args", "ranges", "new", "initial", "auto") else f)
            out.append(f)
        return out, (None if seen else here)


def typed(walk, text):
    """A helper's text with the places that it takes named as today: tie.Then1 is goal.Then-x."""
    def one(m):
        old = walk.old_names.get(same(m[1]), m[1])
        return "lts." + old
    out = re.sub(r"tie\.((?:Start|Then|Else|After|At|In|Joined|If|Left|Past|Shown)[^\s(){}.,;]*)", one, text)
    # paths through a variable of such a type
    for m in re.finditer(r"\((\w+) : tie\.((?:Start|Then|Else|After|At|In|Joined|If|Left|Past|Shown)[^\s(){}.,;]*)\)", text):
        place = walk.old_names.get(same(m[2]))
        if place:
            at = out.index(f"({m[1]} : lts.{place})") + len(f"({m[1]} : lts.{place})")
            out = out[:at] + answer(walk, place, m[1], out[at:], keep_place=True)
    return out


def answer(walk, place, variable, body, keep_place=False):
    """The body of an answer with its paths turned; variables that name a place go."""
    aliases, fields = {variable: place}, {}

    def turn(text):
        out, at = "", 0
        for m in re.finditer(r"let (" + W + r") = (" + W + r"(?:\." + W + r")*) in\b\s*|--[^\n]*|(?<![\w.'])([A-Za-z_][^\s(){}.;,@\"«»\[\]\\:]*)((?:\." + W + r")*)", text):
            out += text[at : m.start()]
            at = m.end()
            if m[1]:
                parts = m[2].split(".")
                if parts[0] in aliases:
                    new, end = walk.path(aliases[parts[0]], parts[1:])
                    if end is not None:
                        aliases[m[1]] = end
                        continue
                    aliases.pop(m[1], None)
                    fields.pop(m[1], None)
                    if len(new) == 1:
                        fields[m[1]] = dict(walk.renames), new[0] in ("args", "ranges")
                    out += f"let {m[1]} = {'.'.join([variable] + new)} in" + re.search(r"\s*$", m[0])[0]
                    continue
                aliases.pop(m[1], None)
                fields.pop(m[1], None)
                out += m[0]
                continue
            if not m[3]:
                out += m[0]
                continue
            if m[3] == "at" and not m[4]:
                # the word of `rw .. at ..`
                out += m[0]
                continue
            if m[3] in aliases:
                new, end = walk.path(aliases[m[3]], m[4].split(".")[1:])
                out += ".".join([variable] + (["before"] * walk.hops(place, end) if end is not None else new))
            elif m[3] in fields and m[4]:
                first, *rest = m[4].split(".")[1:]
                renames, of_source = fields[m[3]]
                out += ".".join([m[3], renames.get(first, first.replace("-", "_") if of_source else first)] + rest)
            else:
                out += m[0]
        return out + text[at:]

    return turn(body)


def convert(folder, listed, module, where):
    path = os.path.join(folder, "Proof.antt")
    text = read(path)
    head, parts = blocks(text)
    walk = Walk(listed)
    last = [b for b in parts if "tie.spec" in "".join(b["equations"])]
    if not last:
        return f"left: {path}: no tie.spec"
    last = last[-1]
    joined = " ".join(last["equations"])
    m = re.search(r"tie\.close\s*\(\s*tie\.spec\s*(.*)\)\s*$", joined, re.S)
    if m:
        given = split_args(m[1])
    elif re.search(r"tie\.close\s+tie\.spec\s*$", joined):
        given = []
    else:
        return f"left: {path}: cannot read tie.spec"
    by_name = {b["name"]: b for b in parts}
    loops = [l[0] for l in walk.loops]
    choices = [g for g in given if g in by_name and re.search(r": tie\.(invariant|decreases)", by_name[g]["signature"])]
    goals = [g for g in given if g not in choices]
    said = ""
    if len(goals) != len(walk.needs):
        said = f"look: {path}: {len(goals)} answers for {len(walk.needs)} goals"
    names = {}
    answers, invariants = [], []
    used = {}
    if not said:
        for i, g in enumerate(goals):
            if re.fullmatch(r"\(λ c( κs)?\. search rules\)", re.sub(r"\s+", " ", g)):
                if walk.needs[i].startswith("returns") and any(e.startswith("unfolding") for e in last["equations"]):
                    used.setdefault(f"(λ c. search rules){' ' * i}", []).append(i)
                continue
            used.setdefault(g, []).append(i)
    else:
        old = {}
        for i, o in enumerate(walk.old):
            old.setdefault(same(o), i)
        for b in parts:
            mm = re.search(r": tie\.Need-(" + W + ")", b["signature"])
            if mm:
                g = b["name"]
                i = old.get(same(mm[1]))
                if i is not None:
                    used[g] = [i]
    helpers = []
    for b in parts:
        if b is last:
            continue
        if b["name"] in used or re.match(r"(?:abbrev |pub )*" + W + r"\s*:\s*tie\.", b["signature"]):
            continue
        helpers.append(typed(walk, "\n".join(b["comments"] + [b["signature"]] + b["equations"])))
    # invariants and measures
    for b in parts:
        mm = re.search(r": tie\.(invariant|decreases)-?(" + W + r")?", b["signature"])
        if not mm:
            continue
        which = mm[2] or ""
        k = next((k for k, l in enumerate(walk.loops) if same(l[0][0]) == same(which)), None)
        if k is None:
            said = said or f"look: {path}: no loop {which}"
            continue
        (old, new), variables = walk.loops[k]
        changed = walk.changed[k]
        eq = b["equations"][-1]
        mm2 = re.match(re.escape(b["name"]) + r"((?: +(?:\([^)]*\)|(?!=[\s])" + W + r"))*?)\s*=(?=\s)(.*)$", eq, re.S)
        params = mm2[1].split()
        wanted = [(v, "initial" if c else "") for v, c in zip(variables, changed)] + [(v, "now") for v, c in zip(variables, changed) if c]
        body = mm2[2]
        if len(params) != len(wanted):
            params = [q for q in params if not re.fullmatch(r"t\d+[₀-₉]*", q)]
        if len(params) != len(wanted):
            said = said or f"look: {path}: {len(params)} variables of a loop for {len(wanted)}"
        subst = {}
        for p, (v, kind) in zip(params, wanted):
            subst[p] = f"l.initial.{v}" if kind == "initial" else f"l.{v}"
        body = re.sub(r"(?<![\w.'₀-₉])([A-Za-z_][^\s(){}.;,@\"«»\[\]\\:]*)", lambda q: subst.get(q[1], q[0]), body)
        body = re.sub(r"\(to_z w\d+ (l\.[\w.]+)\)", r"\1", body)
        name = f"{mm[1]}-{new}"
        unfolding = [e for e in b["equations"][:-1] if e.startswith("unfolding")]
        invariants.append("\n".join(b["comments"] + [f"abbrev pub {name} : goal.{name}"] + unfolding + [f"{name} l ={body}"]))
        names[b["name"]] = name
    for g, places in used.items():
        for i in places:
            need, place = walk.needs[i], walk.at[i]
            if g in by_name:
                b = by_name[g]
                sig = [f"pub {need} : goal.{need}"]
                eqs = []
                for e in b["equations"]:
                    mm2 = re.match(re.escape(g) + r"((?: +(?:\([^)]*\)|(?!=[\s])" + W + r"))*?)\s*=(?=\s)(.*)$", e, re.S)
                    if not mm2:
                        eqs.append(e)
                        continue
                    params = [p for p in mm2[1].split() if p != "κs"]
                    variable = "c" if "c" in params or not params else params[-1]
                    body = answer(walk, place, variable, mm2[2])
                    eqs.append(f"{need} {' '.join(params)} ={body}" if params else f"{need} ={body}")
                answers.append("\n".join(b["comments"] + sig + eqs))
            else:
                m3 = re.match(r"\(λ (c)(?: κs)?\.(.*)\)$", g.strip(), re.S)
                if m3:
                    unfolding = "".join(e + "\n" for e in last["equations"] if e.startswith("unfolding"))
                    answers.append(f"pub {need} : goal.{need}\n{unfolding}{need} c ={answer(walk, place, 'c', m3[2])}")
                else:
                    said = said or f"look: {path}: an argument that is no answer: {g[:60]}"
    uses = [h for h in head if not re.search(r"\.(Statement|Tie)\b", h)]
    comment = [h for h in uses if h.startswith("--")]
    uses = [h for h in uses if not h.startswith("--")]
    out = {}
    if invariants:
        out["Invariants.antt"] = "\n".join(comment + uses + [f"use {module}.Given as goal", ""]) + "\n" + "\n\n".join(invariants) + "\n"
    if answers:
        lts, places = [], []
        for old in sorted({m for h in helpers for m in re.findall(r"(?<![\w.])lts\.([^\s(){}.;,]+)", h)}):
            new = walk.place_names[same(old)]
            places.append(f"-- the facts known there\nabbrev {new} : Type 0\n{new} = lts.{old} tie.the-claims reads.Pre reads.Post")
            helpers = [re.sub(r"(?<![\w.])lts\." + re.escape(old) + r"(?![\w'-])", new, h) for h in helpers]
        if places:
            lts = [f"use {module}.{it} as {it.lower()}" for it in ("Lts", "Tie", "Reads")]
            helpers = places + helpers
        out["Answers.antt"] = "\n".join(comment + uses + lts + [f"use {module}.Goals as goal", ""]) + "\n" + "\n\n".join(helpers + answers) + "\n"
    elif helpers and said:
        out["Answers.antt"] = "\n".join(comment + uses + [f"use {module}.Goals as goal", ""]) + "\n" + "\n\n".join(helpers) + "\n"
    for name, body in out.items():
        # only names that the file uses
        lines = []
        for line in body.split("\n"):
            m = re.match(r"use ([^\s{]+)\.\{(.*)\}$", line)
            if m:
                rest = "\n".join(l for l in body.split("\n") if not l.startswith("use "))
                keep = []
                for it in [x.strip() for x in m[2].split(",")]:
                    core = [p for p in re.split("◌", it) if p]
                    if all(re.search(r"(?<![\w'-])" + re.escape(p) + r"(?![\w'])" if re.match(r"\w", p) else re.escape(p), rest) for p in core):
                        keep.append(it)
                if not keep:
                    continue
                line = f"use {m[1]}.{{{', '.join(keep)}}}"
            lines.append(line)
        with open(os.path.join(folder, name), "w", encoding="utf-8") as it:
            it.write("\n".join(lines))
    os.remove(path)
    return said


def main(argv):
    crate, only = argv[0], argv[1:]
    where = os.path.join("crates", crate)
    with tempfile.TemporaryDirectory() as d:
        r = subprocess.run(["rt", "check", "--generated", d, "--old-names"], cwd=where, capture_output=True, text=True)
        p = os.path.join(d, "names.json")
        if not os.path.exists(p):
            print(r.stdout[-2000:], r.stderr[-2000:])
            return 1
        listed = json.load(open(p))
    for path in sorted(glob.glob(f"{where}/proofs/**/Proof.antt", recursive=True)):
        folder = os.path.dirname(path)
        name = os.path.relpath(folder, f"{where}/proofs").replace("/", ".")
        if only and name not in only:
            continue
        key = next((k for k in listed if k == f"Rattle-{crate}-proofs.{name}.Lts"), None)
        if key is None:
            print(f"left: {path}: no names ({name})")
            continue
        said = convert(folder, listed[key], f"Rattle.{crate}.proofs.{name}", where)
        if said:
            print(said)
    return 0


if __name__ == "__main__":
    raise SystemExit(main(sys.argv[1:]))
