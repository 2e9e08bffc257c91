"""calculate: from dates and places to densities, in arrays, over the library's calls for many records and for a column."""

import array
import ctypes
import itertools
import math
import sys
import warnings
from typing import Any, Iterator, Optional, Sequence, Tuple

from .dates import DAY, THREE_HOURS, DateLike, clock, days_and_seconds, local_solar_time, microseconds
from .library import CALLS, MOST_ALTITUDES
from .memory import flat, number, numpy, shape, switch_row
from .record import ON, Record, Row
from .refusals import HISTORY_NOT_COUNTED, NotCounted, Refusal, RefusedPoint
from .weather import Weather

PART = 2**18
"""The most points of a track that one call of the library takes, some half a second: between two of them a run can be stopped, and a bar be drawn."""
FILLED = 4096
"""The points of a track whose fields are worked out at a time, so that what is only passed through stays small."""
LONG = 2_000_000
"""From so many points on a bar is drawn, where there is something to draw it with."""


def calculate(
    dates: Any,
    longs: Any,
    lats: Any,
    alts: Any,
    f107s: Any = None,
    f107as: Any = None,
    aps: Any = None,
    *,
    switches: Sequence[int] = ON,
    weather: Optional[Weather] = None,
    drag: bool = False,
    refused: str = "raise",
    progress: Optional[bool] = None,
) -> Any:
    """The eleven numbers at dates (UTC) and places: longitudes and latitudes in degrees, altitudes in km; numbers or sequences.

    Where dates, longs, lats and alts all have one length, they are a track of points, and what comes back has the shape (points, 11); else they are a grid, of
    the shape (dates, longs, lats, alts, 11). RowNumber names the last index. It is a numpy array where numpy is there, else lists of Rows.

    f107s, f107as and aps are one for all dates or one for each; an ap is the daily one, or the seven values of a magnetic history, which count where entry 9 of
    the switches is -1. What is left out is taken from weather, which potirehu.weather.read gives. drag counts anomalous oxygen in the density, as gtd7d does.

    refused="raise" raises a RefusedPoint for the first point that is refused; refused="nan" gives two arrays: the numbers, NaN where a point is refused,
    and for each point 0 or the answer that potirehu.refusal reads. progress: whether to draw a bar on standard error; where it is not given, for long runs.

    >>> import potirehu
    >>> from potirehu import RowNumber
    >>> air = calculate("2026-06-21T08:00Z", [-70, 0], [60], [100, 400], 150, 150, 4)
    >>> f"{air[0][1][0][1][RowNumber.DENSITY]:.3e}"
    '3.610e-12'
    >>> track = calculate(["2026-06-21T08:00Z", "2026-06-21T08:00:10Z"], [-70, -69.5], [60, 60.5], [400, 400], 150, 150, 4)
    >>> len(track), len(track[0])
    (2, 11)
    >>> air, answers = calculate("2026-06-21", 0, [60, 91], 400, 150, 150, 4, refused="nan")
    >>> potirehu.refusal(answers[0][0][1][0]).words
    'g_lat is out of range (-90 to 90 degrees)'
    """
    if refused not in ("raise", "nan"):
        raise ValueError(f"refused is 'raise' or 'nan', not {refused!r}")
    row = switch_row(switches)
    if len(row) != 24:
        raise Refusal(4, 24)
    line = microseconds(dates)
    places = [flat(longs, "longs"), flat(lats, "lats"), flat(alts, "alts")]
    flux, mean, ap, history = _conditions(line, f107s, f107as, aps, weather, row[9] == -1)
    if history is not None and row[9] != -1:
        warnings.warn(HISTORY_NOT_COUNTED, NotCounted, stacklevel=2)
    lengths = (len(line), *map(len, places))
    track = len(set(lengths)) == 1
    with _Bar(lengths[0] if track else math.prod(lengths), progress) as bar:
        answers, rows = (_track if track else _grid)(row, line, places, flux, mean, ap, history, bar)
    if drag:
        for_drag(rows.reshape(-1) if numpy is not None else rows, row[0] == 1)
    return _given(answers, rows, lengths[:1] if track else lengths, refused)


def record_at(
    date: DateLike,
    g_long: float,
    g_lat: float,
    alt: float,
    f107: Optional[float] = None,
    f107a: Optional[float] = None,
    ap: Any = None,
    *,
    weather: Optional[Weather] = None,
    history: bool = False,
) -> Record:
    """The Record of a date (UTC) and a place, for the calls that take one; what is left out of f107, f107a and ap is taken from weather, and with history=True
    the magnetic history too. ap is the daily one, or the seven values of a history.

    >>> record_at("2026-11-17T06:00Z", -75, 60, 400, 150, 140, 4).lst
    1.0
    """
    line = microseconds([date], "date")
    flux, mean, daily, seven = _conditions(line, f107, f107a, ap, weather, history)
    at = clock(date, number(g_long, "g_long"))
    return Record(
        at.doy, at.sec, alt, g_lat, g_long, at.lst, float(mean[0]), float(flux[0]), float(daily[0]),
        ap_array=None if seven is None else tuple(map(float, seven[0])),
    )


def _conditions(line, f107s, f107as, aps, weather, with_history):
    # for each date f107, f107a, ap and the history, or None for none of them
    lacking = [name for name, given in (("f107s", f107s), ("f107as", f107as), ("aps", aps)) if given is None]
    if lacking and weather is None:
        raise ValueError(f"{' and '.join(lacking)} must be given, or weather=potirehu.weather.read(FILE)")
    n = len(line)
    flux = _each(f107s, n, "f107s") if f107s is not None else _looked_up(line, DAY, n, weather.f107_of)
    mean = _each(f107as, n, "f107as") if f107as is not None else _looked_up(line, DAY, n, weather.f107a_of)
    if aps is None:
        ap = _looked_up(line, DAY, n, weather.ap_of)
        history = _looked_up(line, THREE_HOURS, n, lambda three_hours: weather.history_of(*divmod(three_hours, 8))) if with_history else None
        return flux, mean, ap, history
    lengths = shape(aps)
    if lengths is None or len(lengths) > 2 or (len(lengths) == 2 and lengths[1] != 7):
        raise ValueError("aps must be one number for each date, or seven for each")
    if len(lengths) == 2 or (lengths == (7,) and n != 7):
        seven = [aps] if len(lengths) == 1 else aps
        if len(seven) not in (1, n):
            raise ValueError(f"aps has {len(seven)} histories, and there are {n} dates")
        columns = [_each([one[i] for one in seven], n, "aps") for i in range(7)]
        history = numpy.stack(columns, axis=1) if numpy is not None else [list(one) for one in zip(*columns)]
        return flux, mean, columns[0], history
    return flux, mean, _each(aps, n, "aps"), None


def _each(values, n, what):
    # one number for each of n dates
    numbers = flat(values, what)
    if len(numbers) not in (1, n):
        raise ValueError(f"{what} has {len(numbers)} numbers, and there are {n} dates")
    if len(numbers) == n:
        return numbers
    return numpy.broadcast_to(numbers, n) if numpy is not None else list(numbers) * n


def _looked_up(line, span, n, look):
    # what look says of each span in which a date lies; dates that follow each other in one span are looked up once
    if numpy is None:
        kept: dict = {}
        return [kept[one // span] if one // span in kept else kept.setdefault(one // span, look(one // span)) for one in line]
    spans = line // span
    starts = numpy.flatnonzero(numpy.diff(spans, prepend=spans[:1] - 1)) if n else spans
    kept = {int(spans[i]): None for i in starts}
    kept = {one: look(one) for one in kept}
    found = numpy.array([kept[int(spans[i])] for i in starts], dtype=numpy.float64)
    return numpy.repeat(found, numpy.diff(starts, append=n), axis=0)


def _track(row, line, places, flux, mean, ap, history, bar):
    longs, lats, alts = places
    n = len(longs)
    if numpy is not None:
        days, fields = numpy.empty(n, dtype=numpy.int32), numpy.empty((n, 8))
        for start in range(0, n, FILLED):
            part = slice(start, start + FILLED)
            days[part], sec = days_and_seconds(line[part])
            lst = local_solar_time(sec, longs[part])
            for i, values in enumerate((sec, alts[part], lats[part], longs[part], lst, mean[part], flux[part], ap[part])):
                fields[part, i] = values
        histories = None if history is None else numpy.ascontiguousarray(history)
    else:
        doy, sec = days_and_seconds(line)
        lst = [local_solar_time(s, g) for s, g in zip(sec, longs)]
        days = array.array("i", doy)
        fields = array.array("d", itertools.chain.from_iterable(zip(sec, alts, lats, longs, lst, mean, flux, ap)))
        histories = None if history is None else array.array("d", itertools.chain.from_iterable(history))
    answers, rows = _room(n, numpy is not None)
    _ask(row, days, fields, histories, answers, rows, bar)
    _without(answers, rows)
    return answers, rows


def ask_records(switches: Sequence[int], days: array.array, fields: array.array, histories: Optional[array.array]) -> Any:
    """records_into on arrays of the standard library: the answers, and the rows, NaN where a record is refused.

    >>> answers, rows = ask_records(ON, array.array("i", [172]), array.array("d", [29000, 400, 60, -70, 16, 150, 150, 4]), None)
    >>> answers[0], f"{rows[5]:.6e}"
    (0, '4.074714e-12')
    """
    answers, rows = _room(len(days), False)
    _ask(switch_row(switches), days, fields, histories, answers, rows)
    _without(answers, rows)
    return answers, rows


def _ask(row, days, fields, histories, answers, rows, bar=None):
    # the call for many records, in parts of at most PART
    at_days, at_fields, at_answers, at_rows = map(_address, (days, fields, answers, rows))
    at_histories = None if histories is None else _address(histories)
    n = len(days)
    for start in range(0, n, PART):
        count = min(PART, n - start)
        ap_arrays = (None, 0) if at_histories is None else (at_histories + 56 * start, 7 * count)
        _asked(CALLS["gtd7_records"](
            at_days + 4 * start, count, at_fields + 64 * start, 8 * count, *ap_arrays, row, 24, at_answers + 8 * start, count, at_rows + 88 * start, 11 * count
        ))
        if bar is not None:
            bar.on(count)


def _grid(row, line, places, flux, mean, ap, history, bar):
    doy, sec = days_and_seconds(line)
    longs, lats, alts = ([float(value) for value in place] for place in places)
    kilometres = (ctypes.c_double * len(alts))(*alts)
    n = len(alts)
    answers, rows = _room(len(sec) * len(longs) * len(lats) * n, numpy is not None)
    at_answers, at_rows, at_alts = _address(answers), _address(rows), ctypes.addressof(kilometres)
    eight = (ctypes.c_double * 8)()
    seven = (ctypes.c_double * 7)()
    column, done = CALLS["gtd7_column"], 0
    for i in range(len(sec)):
        day, seconds = int(doy[i]), float(sec[i])
        eight[0], eight[5], eight[6], eight[7] = seconds, mean[i], flux[i], ap[i]
        if history is not None:
            seven[:] = [float(value) for value in history[i]]
        n_seven = 0 if history is None else 7
        for eight[3] in longs:
            eight[4] = local_solar_time(seconds, eight[3])
            for eight[2] in lats:
                for start in range(0, n, MOST_ALTITUDES):
                    count = min(MOST_ALTITUDES, n - start)
                    here = at_rows + 88 * (done + start)
                    if column(0, day, eight, 8, seven, n_seven, row, 24, at_alts + 8 * start, count, here, 11 * count):
                        _one_by_one(row, day, eight, seven[:n_seven], alts[start : start + count], at_answers + 8 * (done + start), here)
                done += n
                bar.on(n)
    _without(answers, rows)
    return answers, rows


def _one_by_one(row, day, eight, seven, alts, at_answers, at_rows):
    # a column that is refused: each of its points gets the one-altitude call's answer
    n = len(alts)
    days = (ctypes.c_int32 * n)(*[day] * n)
    fields = (ctypes.c_double * (8 * n))(*itertools.chain.from_iterable((eight[0], alt, *eight[2:]) for alt in alts))
    histories = (ctypes.c_double * (len(seven) * n))(*seven * n)
    _asked(CALLS["gtd7_records"](days, n, fields, 8 * n, histories, len(histories), row, 24, at_answers, n, at_rows, 11 * n))


def _asked(answer):
    # of the lengths, which are right
    if answer:
        raise Refusal(answer >> 32, answer & 0xFFFFFFFF)


def _room(n, in_numpy):
    # answers, all accepted, and rows, of which _without makes NaN where an answer is none
    if in_numpy:
        return numpy.zeros(n, dtype=numpy.uint64), numpy.empty((n, 11))
    return array.array("Q", bytes(8 * n)), array.array("d", bytes(88 * n))


def _without(answers, rows):
    # NaN for the points that are refused
    if not isinstance(rows, array.array):
        rows[numpy.flatnonzero(answers)] = math.nan
    elif any(answers):
        for i, answer in enumerate(answers):
            if answer:
                rows[11 * i : 11 * i + 11] = array.array("d", [math.nan] * 11)


def _address(values):
    return values.buffer_info()[0] if isinstance(values, array.array) else values.ctypes.data


def for_drag(numbers: Any, metric: bool = True) -> None:
    """Puts the density that gtd7d gives into rows of eleven numbers that gtd7 gave, one behind the other: the sum of docs/RULES.md, section 2, from left to
    right.

    >>> rows = array.array("d", [1e12, 1e10, 1e8, 1e6, 1e4, 0.0, 1e11, 1e9, 1e9, 1200.0, 1200.0])
    >>> for_drag(rows)
    >>> f"{rows[5]:.4e}"
    '7.1261e-15'
    """
    d = [numbers[i::11] for i in range(9)]
    if numpy is not None and isinstance(numbers, numpy.ndarray):
        whole = 4 * d[0] + 16 * d[1] + 28 * d[2] + 32 * d[3] + 40 * d[4] + d[6] + 14 * d[7] + 16 * d[8]
        numbers[5::11] = 1.66e-24 * whole / 1000 if metric else 1.66e-24 * whole
        return
    sums = (1.66e-24 * (4 * he + 16 * o + 28 * n2 + 32 * o2 + 40 * ar + h + 14 * n + 16 * ao) for he, o, n2, o2, ar, _, h, n, ao in zip(*d))
    numbers[5::11] = array.array("d", (one / 1000 for one in sums) if metric else sums)


def _given(answers, rows, lengths, refused):
    if refused == "raise":
        first = _first_refused(answers)
        if first is not None:
            answer, index = int(answers[first]), []
            for length in reversed(lengths):
                first, at = divmod(first, length)
                index.append(int(at))
            raise RefusedPoint(answer >> 32, answer & 0xFFFFFFFF, tuple(reversed(index)))
    if numpy is not None:
        rows, answers = rows.reshape(*lengths, 11), answers.reshape(lengths)
    else:
        rows, answers = _nested(map(Row._make, zip(*[iter(rows)] * 11)), lengths), _nested(iter(answers), lengths)
    return rows if refused == "raise" else (rows, answers)


def _first_refused(answers) -> Optional[int]:
    if numpy is not None:
        places = numpy.flatnonzero(answers)
        return int(places[0]) if len(places) else None
    return next((i for i, answer in enumerate(answers) if answer), None)


def _nested(line: Iterator[Any], lengths: Tuple[int, ...]) -> Any:
    return [_nested(line, lengths[1:]) for _ in range(lengths[0])] if lengths else next(line)


class _Bar:
    # how far a long run is, on standard error: by tqdm where it is there, else by a line on a terminal
    def __init__(self, total, wanted):
        self._total, self._done, self._shown, self._bar = total, 0, -1, None
        self._line = False
        terminal = sys.stderr is not None and sys.stderr.isatty()
        if wanted is False or (wanted is None and total < LONG):
            return
        try:
            from tqdm import tqdm  # type: ignore[import]
        except ImportError:
            self._line = bool(wanted) or terminal
        else:
            self._bar = tqdm(total=total, unit="point", unit_scale=True)

    def on(self, points):
        self._done += points
        if self._bar is not None:
            self._bar.update(points)
        elif self._line and sys.stderr is not None and self._done * 100 // self._total != self._shown:
            self._shown = self._done * 100 // self._total
            sys.stderr.write(f"\r{self._shown:3} % of {self._total:,} points")
            sys.stderr.flush()

    def __enter__(self):
        return self

    def __exit__(self, *_):
        if self._bar is not None:
            self._bar.close()
        elif self._line and self._shown >= 0 and sys.stderr is not None:
            sys.stderr.write("\n")
