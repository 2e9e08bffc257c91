"""Records with their answers as a table for people, as comma-separated values and as lines of JSON, for the program density."""

import csv
import json
import math
import sys
from typing import List, Optional, Sequence

from . import plain
from .calls import counts
from .reading import FIELDS, NAMES, NoRecord, Run, word
from .record import RowNumber
from .refusals import refused

UNITS = ("", " s", " km", " deg", " deg", " h", "", "", "")
WIDTHS = (5, 9, 9, 8, 9, 7, 6, 6, 4)
FIRST = 100
"""So many records say how wide the columns are."""
SPECIES = {"He": 0, "O": 1, "N2": 2, "O2": 3, "Ar": 4, "H": 6, "N": 7, "anomalous O": 8}
NUMBERS = tuple(number.name.lower() for number in RowNumber)


def short(row: Sequence[int]) -> str:
    """The switch row in few words where it is nearly all on; entry 0 is in the units.

    >>> short((1,) * 24), short((1,) * 9 + (-1,) + (1,) * 14)
    ('all on', 'all on but 9 at -1')
    """
    other = [(i, value) for i, value in enumerate(row) if i > 0 and value != 1]
    if not other:
        return "all on"
    if len(other) > 6:
        return " ".join(map(str, row))
    return "all on but " + ", ".join(f"{i} at {value}" for i, value in other)


def shut(row: Sequence[int], history: bool) -> List[str]:
    """The fields that a record has and that do not count under the row.

    >>> shut((1,) * 9 + (-1,) + (1,) * 14, True)
    ['ap']
    """
    marks = counts(row)
    return [name for name, field in zip(NAMES, FIELDS) if not marks[field]] + ["history"] * (history and not marks["ap_array[1]"])


class Table:
    """The records as a table for people."""

    def __init__(self, species: bool) -> None:
        self._species = SPECIES if species else {}
        self._head: Optional[str] = None
        self._place = ""

    def _begin(self, run):
        # the widths of the first records; the head again where the units change
        if not self._place:
            first = [run.words[i] for i in range(min(len(run.words), FIRST))]
            self._widths = [max(width, max(len(words[i]) for words in first)) for i, width in enumerate(WIDTHS)]
            self._names = " ".join(f"{name + unit:>{width}}" for name, unit, width in zip(NAMES, UNITS, self._widths))
            self._place = " ".join(f"%{width}s" for width in self._widths)
        mass, count = ("kg/m^3", "m^-3") if run.switches[0] == 1 else ("g/cm^3", "cm^-3")
        species = "".join(f" {name + ' ' + count:>{max(13, len(name) + 6)}}" for name in self._species)
        head = f"{self._names} {'density ' + mass:>16} {'T exo K':>9} {'T K':>9}{species}  switches"
        if head != self._head:
            sys.stdout.write(head + "\n")
            self._head = head

    def write(self, run: Run) -> bool:
        """Prints a run; whether a record of it is without a number."""
        self._begin(run)
        history = "; history" + " %s" * 7 if run.history else ""
        missing = shut(run.switches, run.history)
        beside = short(run.switches) + ("; for drag" if run.drag else "")
        tail = f"  {beside}{history}" + (f"; does not count: {', '.join(missing)}" if missing else "")
        more = "".join(f" %{max(13, len(name) + 6)}.5e" for name in self._species)
        form = f"{self._place} %16.6e %9.2f %9.2f{more}{tail}"
        columns = [run.rows[i::11] for i in (5, 9, 10, *self._species.values())]
        before, after = (tail.partition(" %s" * 7)[::2] if run.history else (tail, ""))
        quick = isinstance(run.words, plain.Words) and not self._species
        i = 0
        while i < len(run.answers):
            if quick and not run.answers[i]:
                i = plain.write(run.words, run.answers, run.rows, i, self._widths, before.encode(), after.encode())
                continue
            words, answer = run.words[i], run.answers[i]
            if answer:
                line = f"{self._place % tuple(words[:9])} refused: {refused(answer)}{tail % tuple(words[9:])}"
            else:
                line = form % (*words[:9], *(column[i] for column in columns), *words[9:])
            sys.stdout.write(line + "\n")
            i += 1
        return any(math.isnan(sum(column)) and any(math.isnan(x) and not answer for x, answer in zip(column, run.answers)) for column in columns)

    def none(self, found: NoRecord) -> None:
        """Prints what is no record."""
        sys.stdout.write(f"{found.where}no record: {found.why}: {found.text.strip()}\n")

    def end(self, without: bool) -> None:
        """Prints what stands below the table."""
        if without:
            sys.stdout.write("nan: the model itself has no number there (docs/RULES.md, section 2)\n")


class Csv:
    """The records as comma-separated values, with all that is needed to make them again."""

    def __init__(self) -> None:
        self._writer = csv.writer(sys.stdout, lineterminator="\n")
        self._writer.writerow((*NAMES, "history", "switches", "drag", "units", *NUMBERS, "does_not_count", "refused"))

    def write(self, run: Run) -> bool:
        """Writes a run."""
        units = "m kg" if run.switches[0] == 1 else "cm g"
        row, drag, missing = " ".join(map(str, run.switches)), "yes" if run.drag else "no", " ".join(shut(run.switches, run.history))
        each = zip(*[iter(run.rows)] * 11)
        self._writer.writerows(
            (*words[:9], " ".join(words[9:]), row, drag, units, *(("",) * 11 if answer else numbers), missing, refused(answer) if answer else "")
            for words, answer, numbers in zip(run.words, run.answers, each)
        )
        return False

    def none(self, found: NoRecord) -> None:
        """Writes what is no record."""
        self._writer.writerow(("",) * 25 + (f"{found.where}no record: {found.why}: {found.text.strip()}",))

    def end(self, without: bool) -> None:
        """Nothing stands below."""


class Json:
    """The records as a line of JSON each; a NaN is null, an infinity a number beyond every float."""

    def write(self, run: Run) -> bool:
        """Writes a run."""
        rest = {
            "switches": run.switches, "drag": run.drag, "units": ["m", "kg"] if run.switches[0] == 1 else ["cm", "g"],
            "does_not_count": shut(run.switches, run.history),
        }
        after = json.dumps(rest)[1:]
        out = []
        for words, answer, numbers in zip(run.words, run.answers, zip(*[iter(run.rows)] * 11)):
            fields = [f'"{name}": {self._given(one)}' for name, one in zip(NAMES, words)]
            fields.append(f'"history": [{", ".join(map(self._given, words[9:]))}]' if run.history else '"history": null')
            if answer:
                found = refused(answer)
                fields.append('"refused": ' + json.dumps({"number": found.number, "place": found.place, "words": found.words}))
            else:
                fields += [f'"{name}": {self._number(value)}' for name, value in zip(NUMBERS, numbers)]
            out.append("{" + ", ".join(fields) + ", " + after)
        out.append("")
        sys.stdout.write("\n".join(out))
        return False

    @staticmethod
    def _number(value):
        if math.isnan(value):
            return "null"
        return repr(value) if math.isfinite(value) else ("1e999" if value > 0 else "-1e999")

    def _given(self, text):
        # null for what is not known
        return "null" if text == "-" else word(float(text)) if math.isfinite(float(text)) else self._number(float(text))

    def none(self, found: NoRecord) -> None:
        """Writes what is no record."""
        sys.stdout.write(json.dumps({"no_record": found.why, "where": found.where.rstrip(": "), "text": found.text.strip()}) + "\n")

    def end(self, without: bool) -> None:
        """Nothing stands below."""
