"""The calls of include/potirehu.h, one function or class for each."""

import ctypes
import dataclasses
import itertools
import operator
import warnings
from typing import Any, Dict, Iterable, List, Optional, Sequence, Tuple, Union

from .library import BANDS, CALLS, NOWHERE, STATION_NUMBERS, STATION_WHOLE, call, room
from .memory import bits, doubles, fitting, given_back, is_array, lent, nearest, number, numpy, overlap, switch_row, unsigned
from .record import FIELDS, ON, Descent, Ending, Finding, Record, Row
from .refusals import HISTORY_NOT_COUNTED, NotCounted, Refusal, field, refused

Switches = Sequence[int]

_EIGHT_OF = operator.attrgetter(*FIELDS[2:])
_EIGHT, _ROW, _NONE = ctypes.c_double * 8, ctypes.c_double * 11, (ctypes.c_double * 0)()


def _eight(record):
    try:
        return _EIGHT(record.sec, record.alt, record.g_lat, record.g_long, record.lst, record.f107a, record.f107, record.ap)
    except TypeError:
        return _EIGHT(*(number(getattr(record, name), name) for name in FIELDS[2:]))


def _record(record, fields, alt_looked_at=True):
    if record is None:
        if not alt_looked_at:
            fields.setdefault("alt", 0.0)
        record = Record(**fields)
    elif fields:
        record = dataclasses.replace(record, **fields)
    history = _NONE if record.ap_array is None else doubles(record.ap_array, "ap_array")
    return nearest(record.year, 32), nearest(record.doy, 32), _eight(record), history


def _under(given, switches):
    # the record and its row for a call; a history that does not count is said, by the line that called the public function
    row = switch_row(switches)
    if len(given[3]) and len(row) == 24 and row[9] != -1:
        warnings.warn(HISTORY_NOT_COUNTED, NotCounted, stacklevel=3)
    return (*given, row)


def _known(names, fields):
    # the number whose bits name the known fields, and the fields with 0 for the others, which are not looked at
    names = set(names)
    if not names <= set(FIELDS):
        raise ValueError(f"known takes the names of fields from year to ap, and {sorted(names - set(FIELDS))[0]!r} is none")
    known = sum(1 << place for place, name in enumerate(FIELDS) if name in names)
    return known, {**fields, **{name: 0 for name in FIELDS if name not in names}}


def gtd7(record: Optional[Record] = None, switches: Switches = ON, known: Optional[Iterable[str]] = None, **fields: Any) -> Row:
    """The Row of a record under a switch row. known names the fields that are known, where not all are: the others are not looked at and may be left out, and
    one that counts all the same is refused with 1; ap_array is known where it is there.

    >>> row = gtd7(doy=172, sec=29000, alt=400, g_lat=60, g_long=-70, lst=16, f107a=150, f107=150, ap=4)
    >>> f"{row.density:.6e} kg/m^3 at {row.temperature_alt:.1f} K"
    '4.074714e-12 kg/m^3 at 1241.4 K'
    """
    row = _ROW()
    if known is None:
        year, doy, eight, history, row_of_24 = _under(_record(record, fields), switches)
        answer = CALLS["gtd7"](year, doy, eight, 8, history, len(history), row_of_24, len(row_of_24), row, 11)
        if answer:
            raise refused(answer)
    else:
        names, fields = _known(known, fields)
        call("gtd7_known", names, *_under(_record(record, fields), switches), row)
    return Row._make(row)


def counts(switches: Switches = ON) -> Dict[str, bool]:
    """For each field by its name, whether it counts under a switch row: two accepted records that agree in those fields give the same Row.

    >>> [name for name, mark in counts((1,) * 9 + (0,) * 15).items() if not mark]  # doctest: +ELLIPSIS
    ['year', 'sec', 'g_long', 'ap', 'ap_array[0]', ..., 'ap_array[6]']
    """
    marks = room(17, ctypes.c_int32)
    call("counts", switch_row(switches), marks)
    return {field(place): mark == 1 for place, mark in enumerate(marks)}


def gtd7d(record: Optional[Record] = None, switches: Switches = ON, **fields: Any) -> Row:
    """The same for drag: its density counts anomalous oxygen, which matters above 500 km.

    >>> high = Record(doy=172, sec=29000, alt=800, g_lat=60, g_long=-70, lst=16, f107a=150, f107=150, ap=4)
    >>> gtd7d(high).density > gtd7(high).density
    True
    """
    row = _ROW()
    call("gtd7d", *_under(_record(record, fields), switches), row)
    return Row._make(row)


def gtd7_with(nine: Sequence[float], record: Optional[Record] = None, switches: Switches = ON, **fields: Any) -> Row:
    """gtd7 with nine constants of the caller's, as PRESENT._replace(rgas=840.0) or any nine numbers in that order.

    >>> from potirehu import PRESENT
    >>> first = Record(doy=172, sec=29000, alt=400, g_lat=60, g_long=-70, lst=16, f107a=150, f107=150, ap=4)
    >>> gtd7_with(PRESENT, first) == gtd7(first), gtd7_with(PRESENT._replace(rgas=840), first) == gtd7(first)
    (True, False)
    """
    row = _ROW()
    call("gtd7_with", doubles(nine, "nine"), *_under(_record(record, fields), switches), row)
    return Row._make(row)


def _rows(numbers):
    return list(map(Row._make, zip(*[iter(numbers)] * 11)))


def records(sequence: Iterable[Record], switches: Switches = ON) -> List[Union[Row, Refusal]]:
    """A Row for each Record of a sequence, or the Refusal that gtd7 would raise for it. Records that follow each other on one day, at altitudes of one kind
    (below 32.5 km, to 72.5, to 123.435, to 300, or above) and all with ap_array or all without, share what the day gives: sort them so. records_into takes
    them out of memory as it lies, and calculate out of dates and places.

    >>> first = Record(doy=172, sec=29000, alt=400, g_lat=60, g_long=-70, lst=16, f107a=150, f107=150, ap=4)
    >>> row, refused = records([first, dataclasses.replace(first, g_lat=91)])
    >>> row == gtd7(first), str(refused)
    (True, 'g_lat is out of range (-90 to 90 degrees) (refusal 3 at 4)')
    """
    row = switch_row(switches)
    parts = [(n, list(part)) for n, part in itertools.groupby(sequence, lambda one: 0 if one.ap_array is None else len(one.ap_array))]
    if len(row) == 24 and row[9] != -1 and any(n for n, _ in parts):
        warnings.warn(HISTORY_NOT_COUNTED, NotCounted, stacklevel=2)
    out: List[Union[Row, Refusal]] = []
    for n, part in parts or [(0, [])]:
        if n not in (0, 7):
            out += [Refusal(4, 7) for _ in part]
            continue
        days = (ctypes.c_int32 * len(part))(*(nearest(one.doy, 32) for one in part))
        try:
            fields = (ctypes.c_double * (8 * len(part)))(*itertools.chain.from_iterable(map(_EIGHT_OF, part)))
        except TypeError:
            fields = (ctypes.c_double * (8 * len(part)))(*itertools.chain.from_iterable(_eight(one) for one in part))
        ap_arrays = doubles(list(itertools.chain.from_iterable(one.ap_array or () for one in part)) if n else [], "ap_array")
        answers, rows = room(len(part), ctypes.c_uint64), room(11 * len(part))
        call("gtd7_records", days, fields, ap_arrays, row, answers, rows)
        out += [refused(answer) if answer else one for answer, one in zip(answers, _rows(rows))]
    return out


def records_into(days: Any, fields: Any, ap_arrays: Any, answers: Any, rows: Any, switches: Switches = ON) -> None:
    """records on memory of the caller's: array.array, numpy arrays or any other buffers. days has the doy of each record (int32), fields its sec, alt, g_lat,
    g_long, lst, f107a, f107 and ap (float64, 8 a record), ap_arrays its history (float64, 7 a record), or None where the histories are absent. answers (uint64)
    gets 0 for each record, or what refusal reads, and rows (float64) its eleven numbers; a refused record's stay as they were, and so does what lies behind.
    No record's refusal is raised, only lengths that do not fit. Nothing is copied but what may not be written to.

    >>> from array import array
    >>> answers, rows = array("Q", [0]), array("d", [0.0] * 11)
    >>> records_into(array("i", [172]), array("d", [29000, 400, 60, -70, 16, 150, 150, 4]), None, answers, rows)
    >>> answers[0], f"{rows[5]:.6e}"
    (0, '4.074714e-12')
    """
    slices = {
        "days": lent(days, "days", ctypes.c_int32, "il", "int32"),
        "fields": lent(fields, "fields", ctypes.c_double, "d", "float64"),
        "ap_arrays": room(0) if ap_arrays is None else lent(ap_arrays, "ap_arrays", ctypes.c_double, "d", "float64"),
        "answers": lent(answers, "answers", ctypes.c_uint64, "QL", "uint64", True),
        "rows": lent(rows, "rows", ctypes.c_double, "d", "float64", True),
    }
    for written in ("answers", "rows"):
        for name, other in slices.items():
            if name != written and overlap(slices[written], other):
                raise ValueError(f"{written} is written and shares memory with {name}")
    row = switch_row(switches)
    if len(slices["ap_arrays"]) and len(row) == 24 and row[9] != -1:
        warnings.warn(HISTORY_NOT_COUNTED, NotCounted, stacklevel=2)
    try:
        call("gtd7_records", slices["days"], slices["fields"], slices["ap_arrays"], row, slices["answers"], slices["rows"])
    except Refusal as error:
        n = len(slices["days"])
        fits = {
            "rows": len(slices["rows"]) >= 11 * n, "answers": len(slices["answers"]) >= n, "fields": len(slices["fields"]) == 8 * n,
            "ap_arrays": len(slices["ap_arrays"]) in (0, 7 * n), "switches": False,
        }
        raise Refusal(error.number, error.place, next(name for name, fit in fits.items() if not fit)) from None


def column(altitudes: Iterable[float], record: Optional[Record] = None, switches: Switches = ON, **fields: Any) -> Any:
    """A Row for each of up to 512 altitudes (km); the record's own altitude is not looked at. From a numpy array an array of n times 11.

    >>> rows = column([100, 400], doy=172, sec=29000, g_lat=60, g_long=-70, lst=16, f107a=150, f107=150, ap=4)
    >>> [f"{row.density:.3e}" for row in rows]
    ['3.584e-07', '4.075e-12']
    """
    kilometres = doubles(altitudes, "altitudes")
    if is_array(altitudes):
        lying: Any = numpy.empty((len(kilometres), 11))
        rows = (ctypes.c_double * lying.size).from_buffer(lying)
        call("gtd7_column", *_under(_record(record, fields, False), switches), kilometres, rows)
        return lying
    rows = room(11 * len(kilometres))
    call("gtd7_column", *_under(_record(record, fields, False), switches), kilometres, rows)
    return _rows(rows)


def crossings(altitudes: Iterable[float], level: float, record: Optional[Record] = None, switches: Switches = ON, **fields: Any) -> Any:
    """Where the mass density passes a level: the index of the lower altitude of each such pair of neighbours. The altitudes (km), up to 512, must rise.

    >>> crossings([100, 200, 300, 400], 1e-11, doy=172, sec=29000, g_lat=60, g_long=-70, lst=16, f107a=150, f107=150, ap=4)
    [2]
    """
    kilometres = doubles(altitudes, "altitudes")
    found = room(len(kilometres), ctypes.c_uint64)
    count = call("crossings", *_under(_record(record, fields, False), switches), kilometres, number(level, "level"), found)
    return given_back(list(found[:count]), altitudes)


def first_below(
    altitudes: Iterable[float], level: float, record: Optional[Record] = None, switches: Switches = ON, **fields: Any
) -> Optional[Tuple[int, Row]]:
    """The first of up to 512 altitudes (km) whose mass density is below a level, as index and Row; None where there is none. None behind it is worked out.

    >>> index, row = first_below([100, 200, 300, 400], 1e-9, doy=172, sec=29000, g_lat=60, g_long=-70, lst=16, f107a=150, f107=150, ap=4)
    >>> index, f"{row.density:.3e}"
    (1, '2.649e-10')
    """
    row = _ROW()
    index = call(
        "first_below", *_under(_record(record, fields, False), switches), doubles(altitudes, "altitudes"), number(level, "level"), row
    )
    return None if index == NOWHERE else (index, Row._make(row))


def descent(start: int, settings: Iterable[int], record: Optional[Record] = None, switches: Switches = ON, **fields: Any) -> Descent:
    """A descent from start, in whole millimetres, with a flap setting from 1 to 4 for each orbit, up to 10,000; the record's own altitude is not looked at.

    >>> flown = descent(300_000_000, [1, 4], doy=172, sec=29000, g_lat=60, g_long=-70, lst=16, f107a=150, f107=150, ap=4)
    >>> flown.ending.name, flown.altitude == 300_000_000 - sum(flown.losses)
    ('SPENT', True)
    """
    flown = [nearest(v, 32) for v in settings]
    losses = room(len(flown), ctypes.c_int64)
    end = room(3, ctypes.c_int64)
    call("descent", *_under(_record(record, fields, False), switches), nearest(start, 64), (ctypes.c_int32 * len(flown))(*flown), losses, end)
    return Descent(Ending(end[0]), end[1], given_back(list(losses[: end[2]]), settings))


def compare_logs(
    seconds_1: Iterable[int], densities_1: Iterable[float], seconds_2: Iterable[int], densities_2: Iterable[float], tolerance: int
) -> List[Finding]:
    """Two boards' logs held against each other: a Finding for each pair and each single, in order. Seconds rise strictly, up to 256 a board; a density is a
    float, or its 64 bits as a whole number; entries no further apart than tolerance seconds pair up.

    >>> [found.name for found in compare_logs([10, 20], [1.0, 2.0], [11], [1.0], 2)]
    ['SAME_PAIR', 'SINGLE_1']
    """
    (most,) = fitting([tolerance], 0, 2**64 - 1, "tolerance")
    report = room(512, ctypes.c_uint32)
    count = call(
        "logs", unsigned(seconds_1, "seconds_1"), bits(densities_1, "densities_1"), unsigned(seconds_2, "seconds_2"), bits(densities_2, "densities_2"),
        most, report,
    )
    return [Finding(n) for n in report[:count]]


class Station:
    """A record and a switch row prepared once for many altitudes. A refused change or row leaves it as it was. Not for two threads at a time.

    >>> station = Station(doy=172, sec=29000, g_lat=60, g_long=-70, lst=16, f107a=150, f107=150, ap=4)
    >>> station.set_lst(4)
    >>> f"{station.gtd7(400).density:.6e}"
    '2.470651e-12'
    """

    def __init__(self, record: Optional[Record] = None, switches: Switches = ON, **fields: Any) -> None:
        self._whole = room(STATION_WHOLE, ctypes.c_int32)
        self._numbers = room(STATION_NUMBERS)
        call("station", *_under(_record(record, fields, False), switches), self._whole, self._numbers)

    def _ask(self, name, *arguments):
        call(name, self._whole, self._numbers, *arguments)

    def gtd7(self, alt: float) -> Row:
        """The Row that gtd7 gives at this altitude (km) on record and row as the station now has them."""
        row = _ROW()
        self._ask("station_gtd7", number(alt, "alt"), row)
        return Row._make(row)

    def gtd7d(self, alt: float) -> Row:
        """The Row that gtd7d gives."""
        row = _ROW()
        self._ask("station_gtd7d", number(alt, "alt"), row)
        return Row._make(row)

    def set_sec(self, sec: float) -> None:
        """Changes the seconds of the day; lst does not follow."""
        self._ask("station_sec", number(sec, "sec"))

    def set_lst(self, lst: float) -> None:
        """Changes the local time."""
        self._ask("station_lst", number(lst, "lst"))

    def set_g_long(self, g_long: float) -> None:
        """Changes the longitude; lst does not follow."""
        self._ask("station_g_long", number(g_long, "g_long"))

    def set_fluxes(self, f107a: float, f107: float) -> None:
        """Changes both fluxes."""
        self._ask("station_fluxes", number(f107a, "f107a"), number(f107, "f107"))

    def set_position(self, sec: float, lst: float, g_long: float) -> None:
        """Moves it: seconds of the day, local time and longitude in one change; refused, all three stay."""
        self._ask("station_move", number(sec, "sec"), number(lst, "lst"), number(g_long, "g_long"))

    def set_switches(self, switches: Switches) -> None:
        """Gives it a new switch row."""
        self._ask("station_switches", switch_row(switches))

    def __copy__(self) -> "Station":
        other = Station.__new__(Station)
        other._whole = type(self._whole)(*self._whole)
        other._numbers = type(self._numbers)(*self._numbers)
        return other


def _no_band(text, line):
    # where the refused line leaves the form of a band; '' where its form is right and its numbers are not
    lines = text.split(b"\n")
    start, one = sum(len(before) + 1 for before in lines[: line - 1]), lines[line - 1]
    if not one:
        return f"the line is empty, at byte {start} of the text"
    forms = [b"(band "] + [None, b" "] * 2 + [b"(switches "] + [None, b" "] * 23 + [None, b"))"]
    at = 0
    for form in forms:
        if form is None:
            digits = at + (one[at : at + 1] == b"-")
            end = digits
            while one[end : end + 1].isdigit() and end < digits + 9:
                end += 1
            if end == digits or (one[digits : digits + 1] == b"0" and end - at > 1):
                return _byte(one, start, at)
            at = end
        else:
            for expected in form:
                if one[at : at + 1] != bytes([expected]):
                    return _byte(one, start, at)
                at += 1
    return _byte(one, start, at) if at < len(one) else ""


def _byte(one, start, at):
    where = f"byte {at + 1} of the line, byte {start + at} of the text"
    if at >= len(one):
        return f"the line ends too early, at {where}"
    if one[at:] == b"\r":
        return f"the line ends with a carriage return, {where}: lines end with a newline alone"
    return f"{ascii(chr(one[at]))} is not what stands there, {where}"


class Bands:
    """A table of switch rows by height, read from a text of lines (band FROM TO (switches ..)) in whole metres, as examples/bands.txt. Of a line that is no
    band the Refusal says at which byte.

    >>> bands = Bands("(band 0 2500001 (switches" + " 1" * 24 + "))")
    >>> f"{bands.gtd7(400_000, doy=172, sec=29000, g_lat=60, g_long=-70, lst=16, f107a=150, f107=150, ap=4).density:.6e}"
    '4.074714e-12'
    """

    def __init__(self, text: Union[str, bytes, bytearray, memoryview]) -> None:
        # bytes(5) would be five NULs: only a text, or what lies in memory as bytes, is one
        text = text.encode("utf-8", "replace") if isinstance(text, str) else bytes(memoryview(text))
        self._table = room(BANDS, ctypes.c_int32)
        try:
            call("bands", (ctypes.c_uint8 * len(text)).from_buffer_copy(text), self._table)
        except Refusal as error:
            if error.number != 11:
                raise
            raise Refusal(11, error.place, _no_band(text, error.place) or None) from None

    def gtd7(self, metre: int, record: Optional[Record] = None, **fields: Any) -> Row:
        """The Row at a whole metre, under the row of its band; the record's own altitude is not looked at."""
        row = _ROW()
        call("bands_gtd7", self._table, nearest(metre, 64), *_record(record, fields, False), row)
        return Row._make(row)
