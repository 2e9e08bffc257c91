"""What a call refuses, in words; and what is said of an input that does not count."""

import operator
from typing import Optional, Tuple

from .record import FIELDS, Parameters

_RANGES = {
    1: "1 to 366", 2: "0 to 86,400 s", 4: "-90 to 90 degrees", 5: "-1,000 to 1,000 degrees", 6: "-24 to 48 hours", 7: "0 to 1,000", 8: "0 to 1,000",
}
_SLICES = {7: "ap_array", 8: "fields", 9: "nine", 11: "row", 24: "switches"}


def field(place: int) -> str:
    """The name of the field that a place stands for: a record's, a value of its history, or an altitude of a column.

    >>> field(4), field(11), field(17)
    ('g_lat', 'ap_array[1]', 'altitudes[0]')
    """
    if place < 10:
        return FIELDS[place]
    return f"ap_array[{place - 10}]" if place < 17 else f"altitudes[{place - 17}]"


def _range(place):
    return _RANGES.get(place, "0 to 2,500 km" if place == 3 or place > 16 else "0 to 400")


def _board(place):
    return f"board 1, seconds[{place}]" if place < 256 else f"board 2, seconds[{place - 256}]"


_WORDS = {
    1: lambda p: "switch 9 is -1, and ap_array, the magnetic history, is absent" if p == 10 else f"{field(p)} counts under the switch row, and is not known",
    2: lambda p: f"{field(p)} is NaN or infinite",
    3: lambda p: f"{field(p)} is out of range ({_range(p)})",
    4: lambda p: f"{_SLICES.get(p, 'a sequence')} has not the length needed, {p}",
    5: lambda p: f"there are more than {p} altitudes",
    6: lambda p: f"a coefficient set has not the length needed, {p}",
    7: lambda p: f"line {p} is no form",
    8: lambda p: f"altitudes[{p}] is not above the one before it",
    9: lambda p: f"the list has no room for its {p} entries",
    10: lambda p: f"{field(p)} is below 72.5 km, where there is no density unless switch 15 is 1 and N2 is mixed as far as 72.5 km",
    11: lambda p: f"line {p} is no band: (band FROM TO (switches ..)), FROM below TO, TO at most 2,500,001, 64 lines at most",
    12: lambda p: f"the band in line {p} overlaps the one before it",
    13: lambda p: f"the bands leave a gap before line {p}, or end short of 2,500,001 there",
    14: lambda p: f"board {p}'s log has over 256 entries, or not as many densities as seconds",
    15: lambda p: f"{_board(p)} is not above the one before it",
    16: lambda p: f"{Parameters._fields[p - 1]}, number {p} of the nine constants, is not a number above 0, or mixed air has a species' own mass",
    17: lambda p: "start is outside 200,000,000 to 1,000,000,000 millimetres",
    18: lambda p: f"settings[{p - 1}], orbit {p}, is outside 1 to 4",
    19: lambda p: "there are more than 10,000 settings" if p == 10000 else f"the list has no room for {p} losses",
}


class Refusal(ValueError):
    """What a call does not answer: number and place as in docs/RULES.md, section 3, and words that name the field. what names the slice of a 4 whose length
    does not tell which it is, or says more of a text of bands.

    >>> Refusal(3, 4).words
    'g_lat is out of range (-90 to 90 degrees)'
    """

    def __init__(self, number: int, place: int, what: Optional[str] = None) -> None:
        super().__init__(number, place, what)
        self.number = number
        self.place = place
        self.what = what

    @property
    def words(self) -> str:
        """What is refused, in words."""
        if self.what and self.number == 4:
            return f"{self.what} has not the length needed, {self.place}"
        return _WORDS[self.number](self.place) + (f"; {self.what}" if self.what else "")

    def __str__(self) -> str:
        return f"{self.words} (refusal {self.number} at {self.place})"


class RefusedPoint(Refusal):
    """A point of calculate that is refused: the Refusal of the one-altitude call there, with the point's index in what calculate gives.

    >>> str(RefusedPoint(3, 4, (7,)))
    'point 7: g_lat is out of range (-90 to 90 degrees) (refusal 3 at 4)'
    """

    def __init__(self, number: int, place: int, index: Tuple[int, ...]) -> None:
        super().__init__(number, place)
        self.args = (number, place, index)
        self.index = index

    def __str__(self) -> str:
        return f"point {', '.join(map(str, self.index))}: {super().__str__()}"


class NotCounted(UserWarning):
    """An input that was given does not count under the switch row: a magnetic history where entry 9 is not -1.

    >>> issubclass(NotCounted, Warning)
    True
    """


HISTORY_NOT_COUNTED = "a magnetic history is given, and does not count: entry 9 of the switches is not -1"


def refused(answer: int) -> Refusal:
    """The Refusal that an answer of 2^32 or more stands for.

    >>> refused(3 * 2**32 + 4).place
    4
    """
    return Refusal(answer >> 32, answer & 0xFFFFFFFF)


def refusal(answer: int) -> Optional[Refusal]:
    """The Refusal that a record's answer, of records_into or calculate, stands for; None where the record is accepted.

    >>> refusal(0) is None, refusal(3 * 2**32 + 4).words
    (True, 'g_lat is out of range (-90 to 90 degrees)')
    """
    answer = operator.index(answer)
    return refused(answer) if answer >> 32 else None
