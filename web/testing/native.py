"""The native archive beside the page: target/staticlib/libpotirehu.a as a shared library, by ctypes, with lengths as include/potirehu.h has them."""
import ctypes
import pathlib
import re
import subprocess

ROOT = pathlib.Path(__file__).resolve().parents[2]
ARCHIVE = ROOT / "target" / "staticlib" / "libpotirehu.a"
HEADER = (ROOT / "include" / "potirehu.h").read_text()
LENGTHS = {name: int(value) for name, value in re.findall(r"^#define POTIREHU_([A-Z_]+) (\d+)$", HEADER, re.MULTILINE)}


def link(out):
    subprocess.run(["gcc", "-shared", "-o", str(out), "-Wl,--whole-archive", str(ARCHIVE), "-Wl,--no-whole-archive"], check=True)
    return ctypes.CDLL(str(out))


class Native:
    """Calls that answer (number, place) and numbers. A record is (doy, eight fields, history)."""

    def __init__(self, out):
        self.library = link(out)

    def call(self, name, *arguments):
        passed = []
        for argument in arguments:
            passed.append(argument)
            if isinstance(argument, ctypes.Array):
                passed.append(ctypes.c_uint64(len(argument)))
        call = getattr(self.library, "potirehu_" + name)
        call.restype = ctypes.c_uint64
        answer = call(*passed)
        return answer >> 32, answer & 0xFFFFFFFF

    @staticmethod
    def record(record, switches=None):
        doy, fields, history = record
        lent = [ctypes.c_int32(0), ctypes.c_int32(doy), (ctypes.c_double * 8)(*fields), (ctypes.c_double * len(history))(*history)]
        return lent if switches is None else [*lent, (ctypes.c_int32 * 24)(*switches)]

    def known(self, known, record, switches):
        row = (ctypes.c_double * 11)()
        return self.call("gtd7_known", ctypes.c_uint32(known), *self.record(record, switches), row), list(row)

    def gtd7(self, record, switches):
        return self.known(0x3FF, record, switches)

    def counts(self, switches):
        marks = (ctypes.c_int32 * LENGTHS["COUNTS"])()
        self.call("counts", (ctypes.c_int32 * 24)(*switches), marks)
        return list(marks)

    def crossings(self, record, switches, altitudes, level):
        room = (ctypes.c_uint64 * len(altitudes))()
        lent = (ctypes.c_double * len(altitudes))(*altitudes)
        _, count = self.call("crossings", *self.record(record, switches), lent, ctypes.c_double(level), room)
        return list(room[:count])

    def first_below(self, record, switches, altitudes, level):
        row = (ctypes.c_double * 11)()
        lent = (ctypes.c_double * len(altitudes))(*altitudes)
        _, index = self.call("first_below", *self.record(record, switches), lent, ctypes.c_double(level), row)
        return index, list(row)

    def descent(self, record, switches, start, settings):
        losses, end = (ctypes.c_int64 * len(settings))(), (ctypes.c_int64 * 3)()
        lent = (ctypes.c_int32 * len(settings))(*settings)
        answer = self.call("descent", *self.record(record, switches), ctypes.c_int64(start), lent, losses, end)
        return answer, list(end), list(losses[: end[2]])

    def bands(self, text):
        table = (ctypes.c_int32 * LENGTHS["BANDS"])()
        return self.call("bands", (ctypes.c_uint8 * len(text))(*text.encode()), table), table

    def band_row(self, table, metre, record):
        row = (ctypes.c_double * 11)()
        return self.call("bands_gtd7", table, ctypes.c_int64(metre), *self.record(record), row), list(row)
