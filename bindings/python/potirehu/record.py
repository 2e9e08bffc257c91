"""What the calls take and give: the record, the switch row, the eleven numbers, and the values of the calls around them."""

import dataclasses
import enum
from typing import NamedTuple, Optional, Sequence, Tuple

ON: Tuple[int, ...] = (1,) * 24
"""All switches on, entry 0 among them: output in m^-3, kg/m^3 and K."""

FIELDS = ("year", "doy", "sec", "alt", "g_lat", "g_long", "lst", "f107a", "f107", "ap")
"""The record's fields up to ap, in the order of their places in a Refusal."""


@dataclasses.dataclass(frozen=True)
class Record:
    """Where and when, and what sun and magnetic field do. dataclasses.replace gives the same with other fields.

    >>> noon = Record(doy=172, sec=43200, alt=400, g_lat=60, g_long=0, lst=12, f107a=150, f107=150, ap=4)
    >>> dataclasses.replace(noon, alt=500).alt
    500
    """

    doy: int
    """day of the year, 1 to 366"""
    sec: float
    """seconds of the day, universal time, 0 to 86,400"""
    alt: float
    """altitude, 0 to 2,500 km"""
    g_lat: float
    """latitude, -90 to 90 degrees"""
    g_long: float
    """longitude, degrees east, -1,000 to 1,000"""
    lst: float
    """local time, -24 to 48 hours; local_solar_time(sec, g_long) where nothing else is known"""
    f107a: float
    """10.7 cm flux, mean of 81 days, 0 to 1,000"""
    f107: float
    """10.7 cm flux of the day before, 0 to 1,000"""
    ap: float
    """magnetic index of the day, 0 to 400"""
    ap_array: Optional[Sequence[float]] = None
    """magnetic history of seven values, 0 to 400 each, which switch 9 at -1 asks for"""
    year: int = 0
    """read by nothing"""


class Row(NamedTuple):
    """The eleven numbers at an altitude, in m^-3, kg/m^3 and K; in cm^-3, g/cm^3 and K where switch 0 is not 1. Any can be NaN where the model has no number.

    >>> row = Row(*range(11))
    >>> row.density, row.d[5], row.t
    (5, 5, (9, 10))
    """

    he: float
    o: float
    n2: float
    o2: float
    ar: float
    density: float
    h: float
    n: float
    anomalous_o: float
    temperature_exo: float
    temperature_alt: float

    @property
    def d(self) -> Tuple[float, ...]:
        """The nine densities."""
        return tuple(self[:9])

    @property
    def t(self) -> Tuple[float, ...]:
        """The two temperatures."""
        return tuple(self[9:])


class RowNumber(enum.IntEnum):
    """Which of the eleven numbers is which, for the last index of what calculate gives.

    >>> [0, 10, 20, 30, 40, 50][RowNumber.DENSITY]
    50
    """

    HE = 0
    O = 1  # noqa: E741 the gas
    N2 = 2
    O2 = 3
    AR = 4
    DENSITY = 5
    H = 6
    N = 7
    ANOMALOUS_O = 8
    TEMPERATURE_EXO = 9
    TEMPERATURE_ALT = 10


class Parameters(NamedTuple):
    """Nine constants for gtd7_with: the gas constant, the mass of mixed air, and the altitudes in km as far as which each species is mixed. The defaults are
    the model's own.

    >>> Parameters()._replace(rgas=840.0).rgas
    840.0
    """

    rgas: float = 831.4
    xmm: float = 28.95
    he: float = 200.0
    o: float = 300.0
    n2: float = 160.0
    o2: float = 250.0
    ar: float = 240.0
    h: float = 320.0
    n: float = 450.0


PRESENT = Parameters()
"""The model's own nine constants."""


class Ending(enum.IntEnum):
    """How a descent ends.

    >>> Ending(2).name
    'REACHED'
    """

    NO_DENSITY = 1
    """an orbit's loss is no number, negative, or beyond 1,000 km"""
    REACHED = 2
    """the next loss would take it below 200 km"""
    SPENT = 3
    """all settings are flown"""


class Descent(NamedTuple):
    """How a descent ended, at what altitude in millimetres, and the loss of each orbit in millimetres.

    >>> Descent(Ending.SPENT, 299_990_000, [10_000]).altitude
    299990000
    """

    ending: Ending
    altitude: int
    losses: Sequence[int]


class Finding(enum.IntEnum):
    """What compare_logs finds of one or two entries.

    >>> Finding(3).name
    'SINGLE_1'
    """

    SAME_PAIR = 1
    """a pair whose density bits agree"""
    OTHER_PAIR = 2
    """a pair whose density bits do not"""
    SINGLE_1 = 3
    """an entry of board 1 alone"""
    SINGLE_2 = 4
    """an entry of board 2 alone"""
