"""Numbers and sequences as memory that the library reads and writes, and back; with numpy where it is there."""

import ctypes
import operator
import struct
from typing import Any, Iterable, List, Optional, Tuple

from .library import room
from .record import ON

try:
    import numpy
except ImportError:
    numpy = None  # type: ignore[assignment]


def number(value: Any, what: str) -> float:
    """A value as a float. float would read a text; what hands a number to ctypes does not, and neither does this.

    >>> number(4, "ap")
    4.0
    """
    if isinstance(value, (str, bytes, bytearray)):
        raise TypeError(f"{what} must be a number, not {type(value).__name__}")
    return float(value)


def is_array(values: Any) -> bool:
    """Whether values are a numpy array.

    >>> is_array([1.0])
    False
    """
    return numpy is not None and isinstance(values, numpy.ndarray)


def doubles(values: Any, what: str) -> Any:
    """The values as an array of doubles for ctypes; a numpy array of them in one piece is lent as it lies.

    >>> list(doubles([1, 2.5], "altitudes"))
    [1.0, 2.5]
    """
    if is_array(values) and values.dtype.kind in "fiub":
        lying: Any = numpy.ascontiguousarray(values, dtype=numpy.float64)
        kind = ctypes.c_double * lying.size
        return kind.from_buffer(lying) if lying.flags.writeable else kind.from_buffer_copy(lying)
    values = list(values)
    try:
        return (ctypes.c_double * len(values))(*values)
    except TypeError:
        return (ctypes.c_double * len(values))(*(number(v, f"{what}[{i}]") for i, v in enumerate(values)))


def lent(buffer: Any, what: str, kind: Any, formats: str, name: str, written: bool = False) -> Any:
    """A buffer's own memory as an array; where that may not be written to, and need not, a copy.

    >>> list(lent(memoryview(bytes(8)), "rows", ctypes.c_double, "d", "float64"))
    Traceback (most recent call last):
    TypeError: rows must be a buffer of float64, and is one of 1 bytes with the format 'B'
    """
    try:
        view = memoryview(buffer)
    except TypeError:
        raise TypeError(f"{what} must be a buffer of {name}, as array.array or a numpy array, not {type(buffer).__name__}") from None
    if view.itemsize != ctypes.sizeof(kind) or view.format.lstrip("@=<") not in tuple(formats):
        raise TypeError(f"{what} must be a buffer of {name}, and is one of {view.itemsize} bytes with the format {view.format!r}")
    if not view.c_contiguous:
        raise TypeError(f"{what} must lie in one piece, its last index the fastest")
    if written and view.readonly:
        raise TypeError(f"{what} is written, and its memory may not be")
    array = kind * (view.nbytes // view.itemsize)
    return array.from_buffer_copy(view) if view.readonly else array.from_buffer(view)


def overlap(one: Any, other: Any) -> bool:
    """Whether two arrays share memory.

    >>> a = room(2)
    >>> overlap(a, a), overlap(a, room(2))
    (True, False)
    """
    a, b = ctypes.addressof(one), ctypes.addressof(other)
    return a < b + ctypes.sizeof(other) and b < a + ctypes.sizeof(one) and ctypes.sizeof(one) > 0 and ctypes.sizeof(other) > 0


def nearest(value: Any, bits: int) -> int:
    """The nearest whole number of so many bits. ctypes would drop the upper bits; where this is used every number beyond the width is refused, and so is the
    nearest within it.

    >>> nearest(2**40, 32)
    2147483647
    """
    edge = 2 ** (bits - 1)
    return max(-edge, min(edge - 1, operator.index(value)))


def fitting(values: Iterable[Any], low: int, high: int, what: str) -> List[int]:
    """Whole numbers, each within low to high.

    >>> fitting([1, 5], 0, 4, "settings")
    Traceback (most recent call last):
    OverflowError: settings[1] is outside 0 to 4
    """
    wholes = [operator.index(v) for v in values]
    for i, v in enumerate(wholes):
        if not low <= v <= high:
            raise OverflowError(f"{what}[{i}] is outside {low} to {high}")
    return wholes


_ON = (ctypes.c_int32 * 24)(*ON)


def switch_row(values: Iterable[Any]) -> Any:
    """A switch row for ctypes.

    >>> sum(switch_row(ON))
    24
    """
    if values is ON:
        return _ON
    wholes = fitting(values, -(2**31), 2**31 - 1, "switches")
    return (ctypes.c_int32 * len(wholes))(*wholes)


def unsigned(values: Iterable[Any], what: str) -> Any:
    """Whole numbers from 0 to 2^64 - 1 for ctypes.

    >>> list(unsigned([3], "seconds"))
    [3]
    """
    wholes = fitting(values, 0, 2**64 - 1, what)
    return (ctypes.c_uint64 * len(wholes))(*wholes)


def bits(values: Iterable[Any], what: str) -> Any:
    """The 64 bits of each float; a whole number is the bits themselves.

    >>> list(bits([1.0, 7], "densities"))
    [4607182418800017408, 7]
    """
    return unsigned(
        [v if hasattr(v, "__index__") else struct.unpack("=Q", struct.pack("=d", number(v, f"{what}[{i}]")))[0] for i, v in enumerate(values)], what
    )


def given_back(values: List[Any], like: Any) -> Any:
    """A list as it is, or as a numpy array where like is one.

    >>> given_back([1, 2], [5, 6])
    [1, 2]
    """
    return numpy.array(values) if is_array(like) else values


def flat(values: Any, what: str) -> Any:
    """A number, or a sequence of them, as floats in one line: a numpy array where numpy is there, else a list.

    >>> list(flat(400, "alts")), list(flat([100, 200], "alts"))
    ([400.0], [100.0, 200.0])
    """
    if numpy is not None:
        lying = values if is_array(values) else numpy.asarray(values)
        if lying.dtype.kind in "fiub":
            if lying.ndim > 1:
                raise ValueError(f"{what} must be a number or numbers in one line, and has {lying.ndim} dimensions")
            return numpy.atleast_1d(lying).astype(numpy.float64, copy=False)
        values = lying.tolist() if is_array(values) else values
    if isinstance(values, (str, bytes, bytearray)) or not hasattr(values, "__iter__"):
        values = [values]
        return [number(values[0], what)]
    line = [number(v, f"{what}[{i}]") for i, v in enumerate(values)]
    return line if numpy is None else numpy.array(line)


def shape(values: Any) -> Optional[Tuple[int, ...]]:
    """The lengths of a number, a sequence, or a sequence of sequences of one length; None where these differ.

    >>> shape(4), shape([1, 2]), shape([[1] * 7] * 3)
    ((), (2,), (3, 7))
    """
    if is_array(values):
        return values.shape
    if not hasattr(values, "__len__") or isinstance(values, (str, bytes, bytearray)):
        return ()
    inner = {shape(one) for one in values}
    if len(inner) > 1:
        return None
    first = inner.pop() if inner else ()
    return None if first is None else (len(values), *first)
