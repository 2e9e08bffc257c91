"""From a date in UTC and a longitude to doy, sec and lst."""

import datetime
import math
from typing import Any, NamedTuple, Union

from .memory import is_array, numpy

DateLike = Union[str, datetime.datetime, datetime.date, Any]
"""A date that is understood: datetime (UTC where it has no zone), date (its midnight), a text as 2026-11-17T06:00Z, numpy.datetime64."""

EPOCH = datetime.datetime(1970, 1, 1)
MICROSECOND = datetime.timedelta(microseconds=1)
DAY = 86_400_000_000
"""The microseconds of a day."""
THREE_HOURS = DAY // 8


def moment(date: DateLike, what: str = "date") -> datetime.datetime:
    """A date as a datetime in UTC, without its zone. A text has the form 2026-11-17, 2026-11-17T06:00 or 2026-11-17 06:00:00.5, and Z or an offset may
    stand behind it; without one it is UTC.

    >>> moment("2026-11-17T06:00Z")
    datetime.datetime(2026, 11, 17, 6, 0)
    >>> moment("2026-11-17T06:00+02:00")
    datetime.datetime(2026, 11, 17, 4, 0)
    """
    if isinstance(date, str):
        text = date.strip()
        text = text[:-1] + "+00:00" if text[-1:] in ("Z", "z") else text
        whole, point, rest = text.partition(".")
        digits = rest[: len(rest) - len(rest.lstrip("0123456789"))]
        if point and digits:
            # fromisoformat takes other than 3 or 6 digits from Python 3.11 on
            text = f"{whole}.{digits[:6]:0<6}{rest[len(digits):]}"
        try:
            date = datetime.datetime.fromisoformat(text)
        except ValueError:
            raise ValueError(f"{what}: {date!r} is no date such as 2026-11-17T06:00Z") from None
    elif numpy is not None and isinstance(date, numpy.datetime64):
        if numpy.isnat(date):
            raise ValueError(f"{what} is NaT, no date")
        # item() would give a whole number for nanoseconds
        date = date.astype("datetime64[us]").item()
    elif isinstance(date, datetime.date) and not isinstance(date, datetime.datetime):
        date = datetime.datetime(date.year, date.month, date.day)
    if not isinstance(date, datetime.datetime):
        raise TypeError(f"{what} must be a datetime, a date, a text or a numpy.datetime64, not {type(date).__name__}")
    return date if date.tzinfo is None else date.astimezone(datetime.timezone.utc).replace(tzinfo=None)


def microseconds(dates: Any, what: str = "dates") -> Any:
    """A date, or dates, as whole microseconds since 1970, in one line: a numpy array where numpy is there, else a list.

    >>> list(microseconds(["1970-01-02", "1970-01-01T00:00:01Z"]))
    [86400000000, 1000000]
    """
    if is_array(dates) and dates.dtype.kind == "M":
        if dates.ndim > 1:
            raise ValueError(f"{what} must be a date or dates in one line, and has {dates.ndim} dimensions")
        if numpy.isnat(dates).any():
            raise ValueError(f"{what}[{int(numpy.isnat(dates).argmax())}] is NaT, no date")
        return numpy.atleast_1d(dates).astype("datetime64[us]", copy=False).view(numpy.int64)
    if is_array(dates) and dates.ndim:
        dates = dates.tolist()
    if isinstance(dates, (str, datetime.date)) or not hasattr(dates, "__iter__"):
        dates = [dates]
        line = [(moment(dates[0], what) - EPOCH) // MICROSECOND]
    else:
        line = [(moment(date, f"{what}[{i}]") - EPOCH) // MICROSECOND for i, date in enumerate(dates)]
    return line if numpy is None else numpy.array(line, dtype=numpy.int64)


def days_and_seconds(line: Any) -> Any:
    """Of dates as microseconds gives them, in one line each: doy and sec.

    >>> doy, sec = days_and_seconds(microseconds(["2024-12-31T06:00Z", "2025-01-01"]))
    >>> list(doy), list(sec)
    ([366, 1], [21600.0, 0.0])
    """
    if numpy is None:
        return [_of_year(one // DAY) for one in line], [(one % DAY) / 1e6 for one in line]
    days, rest = numpy.divmod(line, DAY)
    # a track has few days: the year is looked up once for each run of them
    if len(days) and (days == days[0]).all():
        return numpy.full(len(days), _of_year(days[0]), dtype=numpy.int32), rest / 1e6
    starts = numpy.flatnonzero(numpy.diff(days, prepend=days[:1] - 1)) if len(days) else days
    of_year = numpy.array([_of_year(days[i]) for i in starts], dtype=numpy.int32)
    return numpy.repeat(of_year, numpy.diff(starts, append=len(days))), rest / 1e6


def _of_year(day):
    return (EPOCH + datetime.timedelta(days=int(day))).timetuple().tm_yday


def local_solar_time(sec: Any, g_long: Any) -> Any:
    """Local solar time, hours from 0 to below 24, from the seconds of the day and the longitude, wrapped as the Rust's local_solar_time wraps it. Numbers, or
    numpy arrays.

    >>> round(local_solar_time(29000, -70), 2), local_solar_time(0, -15), local_solar_time(0, 700) < 24
    (3.39, 23.0, True)
    """
    hours = sec / 3600.0 + g_long / 15.0
    if is_array(hours):
        if hours.size and hours.min() >= -24.0 and hours.max() < 48.0:
            # what the remainders are within these, at half their time: each difference is exact
            hours -= 24.0 * (hours >= 24.0)
            hours += 24.0
            hours -= 24.0 * (hours >= 24.0)
            return hours
        with numpy.errstate(invalid="ignore"):
            return numpy.fmod(numpy.fmod(hours, 24.0) + 24.0, 24.0)
    # fmod raises where Rust's % gives NaN
    return math.fmod(math.fmod(hours, 24.0) + 24.0, 24.0) if math.isfinite(hours) else math.nan


class Clock(NamedTuple):
    """What a date and a longitude give of a record.

    >>> Clock(doy=172, sec=0.0, lst=23.0).lst
    23.0
    """

    doy: int
    sec: float
    lst: float


def clock(date: DateLike, g_long: float) -> Clock:
    """doy, sec and lst of a date in UTC at a longitude.

    >>> clock("2026-11-17T06:00Z", -75)
    Clock(doy=321, sec=21600.0, lst=1.0)
    """
    (doy,), (sec,) = days_and_seconds(microseconds([date], "date"))
    return Clock(int(doy), float(sec), local_solar_time(float(sec), float(g_long)))
