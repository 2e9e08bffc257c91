#!/usr/bin/env python3
"""Writes docs/generated/edits.md: every wrong edit, the sentence that its file begins with, what it changes, and where it is refused.

`edits.py` writes the page; where an edit is refused stands in docs/generated/edits.tsv.
`edits.py --logs FILE` takes that first out of FILE, what `rt ci` or `rt must-fail` printed over these files.
`edits.py --check` fails where the page is another, a sentence is missing, too long or there twice, an edit does not fit its file, or README's count is off."""
import re
import sys
from pathlib import Path

ROOT = Path(__file__).resolve().parent.parent
PAGE = ROOT / "docs/generated/edits.md"
PLACES = ROOT / "docs/generated/edits.tsv"
LONGEST = 150  # characters of a sentence
SHORT = 110  # characters of an old and a new text that are shown

# What a newcomer looks for, by words of the sentences.
BY_WORDS = (
    ("an unset longitude that counts; longitude 0 for all", r"unset longitude|Longitude 0"),
    ("the longitude, elsewhere", r"^(?!.*(unset longitude|Longitude 0)).*(longitude|g_long)"),
    ("fields that are shut off or not known (demand 3)", r"shut|not known|may read|ap does not count"),
    ("refusals in another order", r"(comes|answers|refuses) .*\bbefore\b"),
    ("refusals that fail to come, or come where none is due", r"is due|meets? refusal|is refused:|looks at the record|not asked for|accepted where|in range"),
    ("a refusal's number or place", r"at place \d|refused with (4 at|6, the number)|with the place|upper 32 bits|refusal's place|for a gap|has the( place|\b.*number)"),
    ("lent memory: after a refusal, or not written (demand 1)", r"[Rr]efused .*(written|left|leaves)|refusal \d+ leaves|and answers that|lent row"),
    ("lengths of slices, lists and lines", r"length|longer|(ten|twelve) numbers|bytes|150 coefficients|nodes, where|not 24 entries"),
)
# The same by the beginnings of the crates' names: each crate that has edits is in one of these.
BY_CRATES = (
    ("numbers (demand 2): operators, exp, log, sin, cos, root and pow", "numbers natural_ circular_ square_ elementary exponential_ logarithm_"),
    ("numbers (demand 2): tables, switches, seasons and expansions", "tables terms legendre activity needed_ setting views switch_ season expansion oracle_"),
    ("numbers (demand 2): mixing, splines and profiles", "mixing spline profile layers places"),
    ("numbers (demand 2): gts7, gtd7, State and gtd7d", "species gts7_ stages thermosphere plan state_ model_ lower_ footing atmosphere drag"),
    ("a record: what is refused, what counts, what is known", "refusals acceptance parameter_answer shutoff counts known"),
    ("stations", "station stored region"),
    ("lists: many records, columns, crossings, the first altitude", "record altitudes column crossings first_below"),
    ("descents, bands and the boards' logs", "descent band logs"),
    ("calls from C", "host_record potirehu"),
    ("the line program", "line_"),
)


class Edit:
    def __init__(self, crate, path):
        self.crate, self.path, self.name = crate, path, path.stem
        self.label = f"{crate}/{path.stem}"
        self.words = re.sub(r"(?<=[37]2)_5", ".5", path.stem).replace("_", " ")
        lines = path.read_text().splitlines()
        self.sentence = lines[0][2:] if lines and lines[0].startswith("# ") else ""
        self.pairs = []
        file = old = ""
        for line in lines:
            if line.startswith("file: "):
                file = line[6:]
            elif line.startswith("old: "):
                old = line[5:]
            elif line.startswith("new:"):
                self.pairs.append((file, old, line[4:].removeprefix(" ")))

    def misfit(self):
        """The first old text that is not in its file just once, each pair put in place before the next, as `rt must-fail` does it."""
        texts = {}
        for file, old, new in self.pairs:
            source = self.path.parent.parent / file
            if file not in texts and source.is_file():
                texts[file] = source.read_text()
            if not old or texts.get(file, "").count(old) != 1:
                return f"{file}: {old.strip()}"
            texts[file] = texts[file].replace(old, new)
        return "" if self.pairs else "no pair"


def edits():
    crates = [re.split("[ :]", line)[0] for line in (ROOT / "crates.txt").read_text().splitlines() if not line.startswith("#")]
    return [Edit(crate, path) for crate in crates for path in sorted((ROOT / "crates" / crate / "must-fail").glob("*.edit"))]


def read_places():
    if not PLACES.exists():
        return {}
    return dict(line.split("\t", 1) for line in PLACES.read_text().splitlines() if not line.startswith("#"))


def place_in(edit, said):
    """The function whose goal or proof is said to fail first, or the lemma or definition, with its file. An edit keeps the lines of a file."""
    found = re.match(r"(?:note: )?(?:\./)?(\S+?):(\d+):\d+: (?:error: )?(?:`([^`]+)`: )?", said)
    if not found:
        return ""
    file, line, name = Path(found[1]), int(found[2]), found[3]
    if file.name in ("Answers.antt", "Invariants.antt", "Proof.antt"):
        return f"`{file.parent.name}`"
    source = edit.path.parent.parent / file
    if file.suffix == ".rt" and source.is_file():
        above = source.read_text().splitlines()[:line]
        functions = [function[1] for function in (re.match(r"\s*(?:pub )?(?:extern \"C\" )?fn (\w+)", text) for text in above) if function]
        return f"`{functions[-1]}`" if functions else ""
    return (f"`{name}` of " if name else "") + file.name


def take_logs(every, file):
    if not file.is_file():
        sys.exit(f"{file} is no file")
    places = read_places()
    labels = {edit.label: edit for edit in every}
    refused = set()
    for line in file.read_text(errors="replace").splitlines():
        said = re.match(r"rt: must-fail (\S+)\.edit: refused, as it must be(?: \(.*?\))?: (.*)", line)
        if said and said[1] in labels:
            refused.add(said[1])
            places[said[1]] = place_in(labels[said[1]], said[2]) or places.get(said[1], "")
    kept = "".join(f"{label}\t{places[label]}\n" for label in sorted(places) if label in labels and places[label])
    PLACES.write_text("# Where each wrong edit is refused, out of a run of the gate. Made by scripts/edits.py --logs.\n" + kept)
    print(f"{file} has {len(refused)} of {len(every)} edits as refused")


def cell(text):
    return text.replace("|", "\\|")


def changed(edit):
    files = ", ".join(dict.fromkeys(file for file, old, new in edit.pairs))
    if len(edit.pairs) > 1:
        return f"{files}, {len(edit.pairs)} places"
    file, old, new = edit.pairs[0]
    old, new = old.strip(), new.strip()
    return f"{file}: `{old}` → `{new}`" if len(old) + len(new) <= SHORT and "`" not in old + new else file


def against(every):
    """The edits that a newcomer looks for, and the crates, each with a link to its table."""
    for title, words in BY_WORDS:
        yield title, ", ".join(f"[{edit.words}](#{edit.crate})" for edit in every if re.search(words, edit.sentence))
    crates = [edit.crate for edit in every]
    for title, names in BY_CRATES:
        found = [crate for crate in dict.fromkeys(crates) if crate.startswith(tuple(names.split()))]
        yield title, ", ".join(f"[{crate}](#{crate}) {crates.count(crate)}" for crate in found)


def page(every, places):
    out = [
        "# The wrong edits",
        "",
        f"Made by scripts/edits.py. {len(every)} edits of code or definitions, each of which the check refuses. What is wrong is what the library would do,",
        "or a definition would say, with the edit. 'Refused at' is the function whose proof fails first, or else the lemma or definition, with its file.",
        "The tables go by crate, lower layers first. `za`, where densu's curve of nodes begins, is 123.435 km.",
        "",
        "## Against what",
        "",
        "| against | edits, or crates with how many they have |",
        "|---|---|",
    ]
    out += [f"| {title} | {found} |" for title, found in against(every)]
    for crate in dict.fromkeys(edit.crate for edit in every):
        out += ["", f"## {crate}", "", "| edit | what is wrong | changed | refused at |", "|---|---|---|---|"]
        for edit in every:
            if edit.crate == crate:
                name = f"[{edit.words}](../../crates/{crate}/must-fail/{edit.name}.edit)"
                row = (name, cell(edit.sentence), cell(changed(edit)), cell(places.get(edit.label, "")))
                out.append("| " + " | ".join(row) + " |")
    return "\n".join(out) + "\n"


def faults(every, places):
    seen = {}
    for edit in every:
        if not edit.sentence:
            yield f"{edit.label}: no sentence"
        elif len(edit.sentence) > LONGEST:
            yield f"{edit.label}: a sentence of {len(edit.sentence)} characters"
        elif edit.sentence in seen:
            yield f"{edit.label}: the sentence of {seen[edit.sentence]}"
        seen.setdefault(edit.sentence, edit.label)
        if edit.misfit():
            yield f"{edit.label}: not once in its file: {edit.misfit()}"
    for label in sorted(set(places) - {edit.label for edit in every}):
        yield f"docs/generated/edits.tsv: {label} is not there"
    for title, found in against(every):
        if not found:
            yield f"no edit against: {title}"
    prefixes = tuple(" ".join(names for title, names in BY_CRATES).split())
    for crate in dict.fromkeys(edit.crate for edit in every):
        if not crate.startswith(prefixes):
            yield f"{crate} is in no list of crates"
    if f"- {len(every)} wrong edits are refused." not in (ROOT / "README.md").read_text().splitlines():
        yield f"README.md: there are {len(every)} wrong edits"
    if not PAGE.exists() or PAGE.read_text() != page(every, places):
        yield "docs/generated/edits.md is not what scripts/edits.py writes"


def main(words):
    every = edits()
    if words == ["--check"]:
        found = list(faults(every, read_places()))
        if found:
            sys.exit("\n".join(found))
        return
    if len(words) == 2 and words[0] == "--logs":
        take_logs(every, Path(words[1]))
    elif words:
        sys.exit(__doc__)
    PAGE.write_text(page(every, read_places()))


if __name__ == "__main__":
    main(sys.argv[1:])
