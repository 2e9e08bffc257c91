"""NRLMSISE-00 from Python, over the proved library libpotirehu: the calls of include/potirehu.h by ctypes, and arrays over them. For Python 3.9 and later.

    import potirehu
    air = potirehu.calculate("2026-11-17T06:00Z", -70, 60, [200, 300, 400], 150, 150, 4)
    air[..., potirehu.RowNumber.DENSITY]

    row = potirehu.gtd7(doy=172, sec=29000, alt=400, g_lat=60, g_long=-70, lst=16, f107a=150, f107=150, ap=4)
    row.density, row.temperature_alt

calculate takes dates in UTC and places, and space weather from a file that potirehu.weather reads. Each other call takes a Record, or its fields as keywords,
or a Record and the fields that shall be other than in it; and a row of 24 switches, ON where none is given. What a call refuses is raised as a Refusal, which
has number and place and names the field. docs/RULES.md has the fields with their units and ranges, the switches and every rule.

Numbers and sequences go in, tuples and lists come out; where a numpy array goes in for a sequence, a numpy array comes out for the list. calculate gives
numpy arrays wherever numpy is there.

The shared library lies in the installed package; in the repository it is target/python/libpotirehu.so, which bindings/python/build links. The environment
variable POTIREHU_SO names another.
"""

from . import weather
from .arrays import calculate, record_at
from .calls import Bands, Station, column, compare_logs, counts, crossings, descent, first_below, gtd7, gtd7_with, gtd7d, records, records_into
from .dates import clock, local_solar_time
from .record import ON, PRESENT, Descent, Ending, Finding, Parameters, Record, Row, RowNumber
from .refusals import NotCounted, Refusal, RefusedPoint, refusal

__all__ = [
    "ON", "PRESENT", "Bands", "Descent", "Ending", "Finding", "NotCounted", "Parameters", "Record", "Refusal", "RefusedPoint", "Row", "RowNumber", "Station",
    "calculate", "clock", "column", "compare_logs", "counts", "crossings", "descent", "first_below", "gtd7", "gtd7_with", "gtd7d", "local_solar_time",
    "record_at", "records", "records_into", "refusal", "weather",
]
