"""The shared library: where it lies, the calls of include/potirehu.h with the types of their arguments, and memory that is lent to them.

ctypes lets go of the interpreter's lock while a call runs, so calls of several threads run side by side.
"""

import ctypes
import os
import pathlib
from typing import Any, Dict

from .refusals import refused

POINTER, LENGTH, NUMBER = ctypes.c_void_p, ctypes.c_uint64, ctypes.c_double
WHOLE, LONG = ctypes.c_int32, ctypes.c_int64
SLICE = (POINTER, LENGTH)
RECORD = (WHOLE, WHOLE, *SLICE, *SLICE, *SLICE)

STATION_WHOLE, STATION_NUMBERS = 27, 259
"""The lengths of a station's two slices."""
BANDS = 1601
"""The length of a table of bands."""
MOST_ALTITUDES = 512
"""The most altitudes of a column."""
NOWHERE = 2**32 - 1
"""The answer of first_below where no altitude is thin enough."""

ARGUMENTS = {
    "gtd7": (*RECORD, *SLICE),
    "gtd7d": (*RECORD, *SLICE),
    "gtd7_with": (*SLICE, *RECORD, *SLICE),
    "gtd7_known": (ctypes.c_uint32, *RECORD, *SLICE),
    "gtd7_records": SLICE * 6,
    "gtd7_column": (*RECORD, *SLICE, *SLICE),
    "counts": (*SLICE, *SLICE),
    "crossings": (*RECORD, *SLICE, NUMBER, *SLICE),
    "first_below": (*RECORD, *SLICE, NUMBER, *SLICE),
    "station": (*RECORD, *SLICE, *SLICE),
    "station_gtd7": (*SLICE, *SLICE, NUMBER, *SLICE),
    "station_gtd7d": (*SLICE, *SLICE, NUMBER, *SLICE),
    "station_sec": (*SLICE, *SLICE, NUMBER),
    "station_lst": (*SLICE, *SLICE, NUMBER),
    "station_g_long": (*SLICE, *SLICE, NUMBER),
    "station_fluxes": (*SLICE, *SLICE, NUMBER, NUMBER),
    "station_move": (*SLICE, *SLICE, NUMBER, NUMBER, NUMBER),
    "station_switches": (*SLICE, *SLICE, *SLICE),
    "bands": (*SLICE, *SLICE),
    "bands_gtd7": (*SLICE, LONG, WHOLE, WHOLE, *SLICE, *SLICE, *SLICE),
    "descent": (*RECORD, LONG, *SLICE, *SLICE, *SLICE),
    "logs": (*SLICE * 4, ctypes.c_uint64, *SLICE),
}
"""The types of each call's arguments; every call answers 64 bits."""


def path() -> pathlib.Path:
    """The file that is loaded: the one that the environment variable POTIREHU_SO names, the package's own, or the one that bindings/python/build links.

    >>> path().name.endswith(".so")
    True
    """
    named = os.environ.get("POTIREHU_SO")
    if named:
        return pathlib.Path(named)
    here = pathlib.Path(__file__).resolve().parent
    own = here / "libpotirehu.so"
    return own if own.is_file() or len(here.parents) < 3 else here.parents[2] / "target" / "python" / "libpotirehu.so"


def _load() -> Dict[str, Any]:
    file = path()
    if not file.is_file():
        raise ImportError(f"potirehu: {file} is missing: run 'scripts/staticlib potirehu' and then 'bindings/python/build', or name the library in POTIREHU_SO.")
    library = ctypes.CDLL(str(file.resolve()))
    calls = {name: getattr(library, "potirehu_" + name) for name in ARGUMENTS}
    for name, call in calls.items():
        call.argtypes = ARGUMENTS[name]
        call.restype = ctypes.c_uint64
    return calls


CALLS = _load()
"""The calls as they are, by their names without potirehu_."""


def call(name: str, *arguments: Any) -> int:
    """What a call answers; what it refuses is raised. An array passes as pointer and length, a number as it is.

    >>> call("counts", room(24, WHOLE), room(17, WHOLE))
    0
    """
    passed: list = []
    for argument in arguments:
        passed.append(argument)
        if isinstance(argument, ctypes.Array):
            passed.append(len(argument))
    answer = CALLS[name](*passed)
    if answer >> 32:
        raise refused(answer)
    return answer


def room(count: int, kind: Any = ctypes.c_double) -> Any:
    """Room for so many numbers of a kind, all 0.

    >>> len(room(11))
    11
    """
    return (kind * count)()
