"""Space weather out of the two files that everybody has: what NRLMSISE-00 wants to know of sun and magnetic field at a time in UTC.

    weather = potirehu.weather.read("SW-Last5Years.csv")
    weather.at("2026-11-17T06:00Z").f107

docs/WEATHER.md says where such files come from and what each number is. Nothing is filled in: a day that is missing, or a value that is missing or predicted,
is raised as a WeatherError that names the day. What was interpolated, or is predicted and wanted so, is said as a WeatherWarning.
"""

import csv
import datetime
import os
import warnings
from typing import Any, Dict, Iterable, List, NamedTuple, Optional, Tuple, Union

from .dates import DAY, THREE_HOURS, DateLike, microseconds

__all__ = ["Conditions", "Weather", "WeatherError", "WeatherWarning", "read"]

COLUMNS = ("DATE", *(f"AP{i}" for i in range(1, 9)), "AP_AVG", "F10.7_OBS", "F10.7_DATA_TYPE", "F10.7_OBS_CENTER81")
"""The columns of the CSV that are read."""
WORDS = 28
"""How many values a line of the fixed-width table has."""
HALF = 40
"""The days on either side of the middle one of 81."""
EPOCH = datetime.date(1970, 1, 1)


class WeatherError(ValueError):
    """What the file does not tell. day is the day that it is about, None where it is about the file.

    >>> str(WeatherError("F10.7 is missing", datetime.date(2026, 11, 16)))
    '2026-11-16: F10.7 is missing'
    """

    def __init__(self, words: str, day: Optional[datetime.date] = None) -> None:
        super().__init__(words, day)
        self.words = words
        self.day = day

    def __str__(self) -> str:
        return self.words if self.day is None else f"{self.day}: {self.words}"


class WeatherWarning(UserWarning):
    """A value that was interpolated or predicted, with its day.

    >>> issubclass(WeatherWarning, Warning)
    True
    """


class Conditions(NamedTuple):
    """What a Record wants to know of sun and magnetic field, by the names it has there.

    >>> Conditions(f107=150.0, f107a=150.0, ap=4.0, ap_array=(4.0,) * 7).ap
    4.0
    """

    f107: float
    """observed, of the day before"""
    f107a: float
    """observed, mean of 81 days, centred on the day"""
    ap: float
    """of the day"""
    ap_array: Tuple[float, ...]
    """the magnetic history: the daily ap; the 3-hour ap now, 3, 6, 9 hours before; the means from 12 to 33 and from 36 to 57 hours before"""


class Day(NamedTuple):
    """A day of the file; a value is None where it is missing. kind is '' for observed, else 'interpolated' or 'predicted'.

    >>> Day(150.0, None, 4.0, (4.0,) * 8, "", 12).mean is None
    True
    """

    f107: Optional[float]
    mean: Optional[float]
    ap: Optional[float]
    three_hourly: Tuple[Optional[float], ...]
    kind: str
    line: int


class Weather:
    """The days of a file. Days are whole numbers since 1970 inside; every public function takes a date as calculate does.

    >>> quiet = {day: Day(150.0, None, 4.0, (4.0,) * 8, "", day) for day in range(100)}
    >>> weather = Weather(quiet, "a file", False, False)
    >>> weather.at("1970-02-15T06:00Z").f107a
    150.0
    """

    def __init__(self, days: Dict[int, Day], name: str, means: bool, predicted: bool) -> None:
        self._days = days
        self._name = name
        self._means = means  # whether the file has the 81-day mean itself
        self._predicted = predicted
        self._f107a: Dict[int, float] = {}

    @property
    def first(self) -> datetime.date:
        """The first day of the file."""
        return _date(min(self._days))

    @property
    def last(self) -> datetime.date:
        """The last day of the file."""
        return _date(max(self._days))

    def at(self, date: DateLike) -> Conditions:
        """All that a Record wants at a date."""
        (one,) = microseconds([date], "date")
        day, slot = _day_and_slot(int(one))
        return Conditions(self.f107_of(day), self.f107a_of(day), self.ap_of(day), self.history_of(day, slot))

    def f107(self, date: DateLike) -> float:
        """The observed flux of the day before a date."""
        return self.f107_of(_days([date])[0])

    def f107a(self, date: DateLike) -> float:
        """The mean of the observed flux over the 81 days around a date."""
        return self.f107a_of(_days([date])[0])

    def ap(self, date: DateLike) -> float:
        """The daily ap of a date."""
        return self.ap_of(_days([date])[0])

    def history(self, date: DateLike) -> Tuple[float, ...]:
        """The seven values of the magnetic history at a date."""
        (one,) = microseconds([date], "date")
        return self.history_of(*_day_and_slot(int(one)))

    # the same by the day's number, and the number of the three hours in it

    def f107_of(self, day: int) -> float:
        """f107 of a day by its number: the flux of the day before it."""
        return self._value(day - 1, "F10.7", self._day(day - 1, "F10.7").f107)

    def f107a_of(self, day: int) -> float:
        """f107a of a day by its number."""
        if day not in self._f107a:
            self._f107a[day] = self._mean(day)
        return self._f107a[day]

    def ap_of(self, day: int) -> float:
        """The daily ap of a day by its number."""
        return self._value(day, "the daily ap", self._day(day, "the daily ap").ap, flux=False)

    def history_of(self, day: int, slot: int) -> Tuple[float, ...]:
        """The history in the three hours slot, from 0, of a day by its number."""
        now = 8 * day + slot
        ap = [self._three_hourly(now - before) for before in range(20)]
        return (self.ap_of(day), *ap[:4], sum(ap[4:12]) / 8, sum(ap[12:20]) / 8)

    def _day(self, day, what):
        try:
            return self._days[day]
        except KeyError:
            reach = f"{self._name} has {self.first} to {self.last}" if self._days else f"{self._name} has no day"
            raise WeatherError(f"{what} is wanted of this day, and it is not in the file: {reach}", _date(day)) from None

    def _value(self, day, what, value, flux=True):
        found = self._days[day]
        if value is None:
            raise WeatherError(f"{what} is missing (blank or below 0), {self._name}, line {found.line}", _date(day))
        if found.kind == "predicted":
            self._predict(day, what, found.line)
        elif found.kind and flux:
            _say(f"{_date(day)}: {what} is {found.kind}, {self._name}, line {found.line}")
        return value

    def _predict(self, day, what, line):
        if not self._predicted:
            raise WeatherError(f"{what} is predicted, {self._name}, line {line}; read(.., predicted=True) takes it", _date(day))
        _say(f"{_date(day)}: {what} is predicted, {self._name}, line {line}")

    def _three_hourly(self, number):
        day, slot = divmod(number, 8)
        what = f"the ap from {3 * slot} to {3 * slot + 3} h"
        return self._value(day, what, self._day(day, what).three_hourly[slot], flux=False)

    def _mean(self, day):
        around = range(day - HALF, day + HALF + 1)
        if not self._means:
            what = f"F10.7, for the mean of the 81 days around {_date(day)},"
            return sum(self._value(one, what, self._day(one, what).f107) for one in around) / len(around)
        what = "the mean of F10.7 over 81 days"
        found = self._day(day, what)
        if found.mean is None:
            raise WeatherError(f"{what} is missing (blank or below 0), {self._name}, line {found.line}", _date(day))
        # the mean stands in the file; predicted days among the 81 are in it
        predicted = [one for one in around if one in self._days and self._days[one].kind == "predicted"]
        if predicted:
            self._predict(day, f"{what}, in which {len(predicted)} days from {_date(predicted[0])} on are,", self._days[predicted[0]].line)
        return found.mean


def read(path: Union[str, "os.PathLike[str]"], predicted: bool = False) -> Weather:
    """Reads the CSV of daily and three-hourly indices, or the fixed-width table of Kp, ap, Ap, SN and F10.7 since 1932, whichever the file is. predicted: take
    what is marked as predicted, with a warning, in the place of raising a WeatherError.

    >>> import tempfile
    >>> names = "DATE," + ",".join(f"AP{i}" for i in range(1, 9)) + ",AP_AVG,F10.7_OBS,F10.7_DATA_TYPE,F10.7_OBS_CENTER81"
    >>> lines = [f"2026-11-{day}" + ",4" * 9 + f",{100 + day},OBS,150.5" for day in (14, 15, 16, 17)]
    >>> with tempfile.NamedTemporaryFile("w", suffix=".csv") as file:
    ...     print(names, *lines, sep="\\n", file=file, flush=True)
    ...     weather = read(file.name)
    >>> weather.at("2026-11-17T06:00Z")
    Conditions(f107=116.0, f107a=150.5, ap=4.0, ap_array=(4.0, 4.0, 4.0, 4.0, 4.0, 4.0, 4.0))
    """
    name = os.path.basename(os.fspath(path))
    with open(path, encoding="utf-8-sig", errors="replace", newline="") as file:
        lines = file.read().splitlines()
    first = next((line for line in lines if line.strip() and not line.startswith("#")), "")
    by_comma = "," in first
    days = _of_csv(lines, name) if by_comma else _of_table(lines, name)
    if not days:
        raise WeatherError(f"{name} has no day in it")
    return Weather(days, name, by_comma, predicted)


def _of_csv(lines: List[str], name: str) -> Dict[int, Day]:
    days: Dict[int, Day] = {}
    reader = csv.reader(lines)
    place: Dict[str, int] = {}
    for cells in reader:
        line = reader.line_num
        if not any(cell.strip() for cell in cells) or cells[0].startswith("#"):
            continue
        if not place:
            place = {cell.strip(): i for i, cell in enumerate(cells)}
            lacking = [column for column in COLUMNS if column not in place]
            if lacking:
                raise WeatherError(f"{name}, line {line}: the columns {', '.join(lacking)} are not there")
            width = len(cells)
            continue
        if len(cells) != width:
            raise WeatherError(f"{name}, line {line}: {len(cells)} values, where the head has {width}")
        values = {column: cells[place[column]].strip() for column in COLUMNS}
        kind = {"OBS": "", "": "", "INT": "interpolated", "PRD": "predicted", "PRM": "predicted"}.get(values["F10.7_DATA_TYPE"])
        if kind is None:
            raise WeatherError(f"{name}, line {line}: F10.7_DATA_TYPE is {values['F10.7_DATA_TYPE']!r}, and none of OBS, INT, PRD, PRM")
        where = f"{name}, line {line}"
        _put(days, _parsed(values["DATE"].split("-"), where), where, Day(
            _number(values["F10.7_OBS"], where), _number(values["F10.7_OBS_CENTER81"], where), _number(values["AP_AVG"], where),
            tuple(_number(values[f"AP{i}"], where) for i in range(1, 9)), kind, line,
        ))
    return days


def _of_table(lines: List[str], name: str) -> Dict[int, Day]:
    days: Dict[int, Day] = {}
    for line, text in enumerate(lines, 1):
        words = text.split()
        if not words or text.startswith("#"):
            continue
        where = f"{name}, line {line}"
        if len(words) < 3:
            raise WeatherError(f"{where}: no line of the table, nor of a CSV: {text[:60]!r}")
        day = _parsed(words[:3], where)
        if len(words) != WORDS:
            # which value is blank cannot be told: all of the day are missing
            _put(days, day, where, Day(None, None, None, (None,) * 8, "", line))
            continue
        _put(days, day, where, Day(
            _number(words[25], where), None, _number(words[23], where), tuple(_number(word, where) for word in words[15:23]), "", line,
        ))
    return days


def _put(days, day, where, found):
    if day in days:
        raise WeatherError(f"{where}: {_date(day)} comes twice, first in line {days[day].line}")
    days[day] = found


def _parsed(words: Iterable[str], where: str) -> int:
    words = list(words)
    try:
        year, month, day = (int(word) for word in words)
        return (datetime.date(year, month, day) - EPOCH).days
    except ValueError:
        raise WeatherError(f"{where}: {'-'.join(words)!r} is no day") from None


def _number(word: str, where: str) -> Optional[float]:
    # None where it is blank or marked as missing, by a number below 0
    if not word:
        return None
    try:
        value = float(word)
    except ValueError:
        raise WeatherError(f"{where}: {word!r} is no number") from None
    return value if value >= 0 else None


def _say(words):
    # by the line outside this module that asked
    level, frame = 2, __import__("sys")._getframe(1)
    while frame.f_back is not None and frame.f_globals.get("__name__") == __name__:
        level, frame = level + 1, frame.f_back
    warnings.warn(words, WeatherWarning, stacklevel=level)


def _date(day: int) -> datetime.date:
    return EPOCH + datetime.timedelta(days=day)


def _day_and_slot(one: int) -> Tuple[int, int]:
    return one // DAY, one % DAY // THREE_HOURS


def _days(dates: Any) -> List[int]:
    return [int(one) // DAY for one in microseconds(dates, "date")]
