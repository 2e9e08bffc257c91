"""Plain records read and written by text.c, which lies in the shared library: what the program density does with most lines of most files. Where it is not
there, as in a library that POTIREHU_SO names, the program does the same by itself."""

import array
import ctypes
import sys
from typing import Any, List, Optional, Sequence, Tuple

from .library import LENGTH, POINTER, path

MOST = 8192
"""The most records that are read at a time."""

_TYPES = {
    "read": (ctypes.c_char_p, LENGTH, LENGTH, LENGTH, *[POINTER] * 7),
    "lst": (POINTER, LENGTH, POINTER),
    "odd": (POINTER, POINTER, LENGTH),
    "write": (
        ctypes.c_char_p, POINTER, POINTER, LENGTH, LENGTH, LENGTH, POINTER, POINTER, POINTER,
        ctypes.c_char_p, LENGTH, ctypes.c_char_p, LENGTH, POINTER, POINTER,
    ),
}


def _load():
    library = ctypes.CDLL(str(path().resolve()))
    calls = {}
    for name, types in _TYPES.items():
        call = getattr(library, f"potirehu_text_{name}", None)
        if call is None:
            return None
        call.argtypes, call.restype = types, ctypes.c_uint64
        calls[name] = call
    return calls


CALLS: Any = _load()
"""The functions of text.c by their names without potirehu_text_, or None where they are not there."""


class Words:
    """The words of records as they stand in the text, taken out only where they are asked for.

    >>> words = Words(b"172 29000", array.array("I", [0, 4]), array.array("B", [3, 5]), 2)
    >>> words[0], len(words)
    (['172', '29000'], 1)
    """

    def __init__(self, text: bytes, starts: array.array, lengths: array.array, width: int) -> None:
        self.text, self.starts, self.lengths, self.width = text, starts, lengths, width

    def __len__(self) -> int:
        return len(self.starts) // self.width

    def __getitem__(self, i: int) -> List[str]:
        if not 0 <= i < len(self):
            raise IndexError(i)
        own = range(i * self.width, (i + 1) * self.width)
        return [self.text[self.starts[k] : self.starts[k] + self.lengths[k]].decode("ascii") for k in own]


def _at(values):
    return values.buffer_info()[0]


def read(text: bytes, width: int) -> Tuple[Words, array.array, array.array, array.array, Optional[array.array], int, int]:
    """Plain records of width words at the start of a text: their words, line numbers from 0, doy, fields and histories; and how many bytes and lines they and
    what is passed over take.

    >>> words, lines, days, fields, histories, taken, passed = read(b"# a record\\n172 29000 400 60 -70 16 150 150 4\\nand so on\\n", 9)
    >>> list(lines), list(days), taken, passed
    ([1], [172], 45, 2)
    """
    # a record has at least width digits and as many bytes between and behind them
    most = min(MOST, len(text) // (2 * width) + 1)
    days, fields = array.array("i", bytes(4 * most)), array.array("d", bytes(64 * most))
    histories = array.array("d", bytes(56 * most)) if width == 16 else None
    lines, starts, lengths = array.array("I", bytes(4 * most)), array.array("I", bytes(4 * width * most)), array.array("B", bytes(width * most))
    used = (ctypes.c_uint64 * 2)()
    at_histories = None if histories is None else _at(histories)
    n = CALLS["read"](text, len(text), width, most, _at(days), _at(fields), at_histories, _at(lines), _at(starts), _at(lengths), used)
    del days[n:], fields[8 * n :], lines[n:], starts[width * n :], lengths[width * n :]
    if histories is not None:
        del histories[7 * n :]
    return Words(text, starts, lengths, width), lines, days, fields, histories, used[0], used[1]


def off(fields: array.array) -> Tuple[int, int]:
    """How many records have a local time more than an hour off, and the index of the first.

    >>> off(array.array("d", [29000, 400, 60, -70, 16, 150, 150, 4]))
    (1, 0)
    """
    first = ctypes.c_uint64(0)
    return CALLS["lst"](_at(fields), len(fields) // 8, ctypes.addressof(first)), first.value


def odd(days: array.array, fields: array.array) -> bool:
    """Whether a record has a doy, a latitude or a flux that is out of range or beyond what was measured.

    >>> odd(array.array("i", [172]), array.array("d", [29000, 400, 60, -70, 16, 150, 150, 4]))
    False
    """
    return bool(CALLS["odd"](_at(days), _at(fields), len(days)))


def write(words: Words, answers: array.array, rows: array.array, start: int, widths: Sequence[int], before: bytes, after: bytes) -> int:
    """Writes the lines of accepted records from index start on to standard output, up to the first that is refused; the index behind the last."""
    n = len(words)
    each = 9 + sum(max(width, 64) for width in widths) + 64 * words.width + len(before) + len(after) + 1024
    out = ctypes.create_string_buffer(min(n - start, 1024) * each) if n > start else ctypes.create_string_buffer(1)
    numbers = (ctypes.c_int32 * 9)(*widths)
    written = ctypes.c_uint64(0)
    while start < n and not answers[start]:
        end = CALLS["write"](
            words.text, _at(words.starts), _at(words.lengths), words.width, start, min(n, start + 1024), _at(answers), _at(rows), numbers,
            before, len(before), after, len(after), out, ctypes.addressof(written),
        )
        data = memoryview(out)[: written.value]
        if hasattr(sys.stdout, "buffer"):
            sys.stdout.flush()
            sys.stdout.buffer.write(data)
        else:
            sys.stdout.write(bytes(data).decode("ascii"))
        start = end
    return start
