"""What the program density says on standard error of records that look like a mistake."""

from typing import Any, Dict, Iterator, List

from . import plain
from .calls import counts
from .dates import local_solar_time
from .reading import FIELDS, Run


class Remarks:
    """What is said on standard error in the end: each kind once, with the first record that it is said of and how many there are.

    >>> remarks = Remarks()
    >>> remarks.add("lst", "a.txt:1: lst 16"), remarks.add("lst", "a.txt:2: lst 16")
    (None, None)
    >>> list(remarks.lines())
    ['a.txt:1: lst 16 (and so in 1 record more)']
    """

    def __init__(self) -> None:
        self._kinds: Dict[str, List[Any]] = {}

    def add(self, kind: str, words: str, count: int = 1) -> None:
        """Counts one more of a kind."""
        self._kinds.setdefault(kind, [words, 0])[1] += count

    def lines(self) -> Iterator[str]:
        """What there is to say."""
        for words, count in self._kinds.values():
            yield words + (f" (and so in {count - 1} record{'s' * (count > 2)} more)" if count > 1 else "")

    def look(self, run: Run) -> None:
        """Looks for what is likely a mistake in a run of records."""
        marks = counts(run.switches)
        known = run.known or FIELDS
        if run.history and run.switches[9] != -1:
            self.add("history", f"{run.where(0)}a magnetic history is given, and does not count: entry 9 of the switches is not -1", len(run.words))
        sec, lat, long, lst, f107a, f107, ap = (run.fields[i::8] for i in (0, 2, 3, 4, 5, 6, 7))
        if plain.CALLS and run.known is None:
            count, first = plain.off(run.fields) if marks["lst"] else (0, 0)
            if count:
                self._lst(run, first, count)
            if not plain.odd(run.days, run.fields):
                return
        elif marks["lst"] and {"sec", "g_long", "lst"} <= set(known):
            off = [i for i, (s, g, l) in enumerate(zip(sec, long, lst)) if 1.0 < (l - s / 3600.0 - g / 15.0) % 24.0 < 23.0]
            if off:
                self._lst(run, off[0], len(off))
        if marks["f107"] and {"f107a", "f107"} <= set(known):
            odd = [i for i, (a, f) in enumerate(zip(f107a, f107)) if not (50.0 <= a <= 300.0 and 50.0 <= f <= 500.0)]
            for i in odd:
                self._fluxes(run, i, f107a[i], f107[i], ap[i] if "ap" in known else 0.0)
        far = [i for i, g in enumerate(lat) if not -90.0 <= g <= 90.0]
        for i in far:
            if -90.0 <= long[i] <= 90.0:
                self.add("lat", f"{run.where(i)}lat {run.words[i][3]} and long {run.words[i][4]}: have they changed places?")
        for i in [i for i, day in enumerate(run.days) if not 1 <= day <= 366]:
            if 1 <= sec[i] <= 366 and sec[i] == int(sec[i]):
                self.add("doy", f"{run.where(i)}doy {run.words[i][0]} and sec {run.words[i][1]}: have they changed places?")

    def _lst(self, run, i, count):
        found = local_solar_time(run.fields[8 * i], run.fields[8 * i + 3])
        self.add("lst", f"{run.where(i)}lst {run.words[i][5]}, where sec and long give {found:.2f}: more than an hour apart", count)

    def _fluxes(self, run, i, f107a, f107, ap):
        if min(f107a, f107) < 50.0 <= ap:
            self.add("ap", f"{run.where(i)}f107a {run.words[i][6]}, f107 {run.words[i][7]} and ap {run.words[i][8]}: has ap changed places with a flux?")
        elif max(f107a / 300.0, f107 / 500.0) > 1.0:
            self.add("large", f"{run.where(i)}f107a {run.words[i][6]} and f107 {run.words[i][7]}: more than was ever measured; have fields changed places?")
        elif max(f107a, f107) < 50.0:
            self.add("small", f"{run.where(i)}f107a {run.words[i][6]} and f107 {run.words[i][7]}: less than was ever measured; 0 does not mean 'not known'")
