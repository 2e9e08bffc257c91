"""Tests of the package's calls: the published samples, every refusal that the library gives, and that calls which shall agree do so to the bit."""

import array
import copy
import ctypes
import dataclasses
import itertools
import math
import os
import pathlib
import pickle
import struct
import subprocess
import sys
import types
import unittest
import unittest.mock
import warnings

HERE = pathlib.Path(__file__).resolve().parent
sys.path.insert(0, str(HERE))

import potirehu  # noqa: E402
from potirehu import ON, PRESENT, Bands, Ending, Finding, NotCounted, Record, Refusal, Station, calls, library  # noqa: E402
from potirehu.memory import doubles, numpy, switch_row  # noqa: E402

# the samples of the C release of 20041227: record, whether with a history of seven times 100, the figures commonly published, in cm and g
SAMPLES = [
    ((172, 29000, 400, 60, -70, 16, 150, 150, 4), False, "6.665177E+05 1.138806E+08 1.998211E+07 4.022764E+05 3.557465E+03 4.074714E-15 3.475312E+04 4.095913E+06 2.667273E+04 1.250540E+03 1.241416E+03"),
    ((81, 29000, 400, 60, -70, 16, 150, 150, 4), False, "3.407293E+06 1.586333E+08 1.391117E+07 3.262560E+05 1.559618E+03 5.001846E-15 4.854208E+04 4.380967E+06 6.956682E+03 1.166754E+03 1.161710E+03"),
    ((172, 75000, 1000, 60, -70, 16, 150, 150, 4), False, "1.123767E+05 6.934130E+04 4.247105E+01 1.322750E-01 2.618848E-05 2.756772E-18 2.016750E+04 5.741256E+03 2.374394E+04 1.239892E+03 1.239891E+03"),
    ((172, 29000, 100, 60, -70, 16, 150, 150, 4), False, "5.411554E+07 1.918893E+11 6.115826E+12 1.225201E+12 6.023212E+10 3.584426E-10 1.059880E+07 2.615737E+05 2.819879E-42 1.027318E+03 2.068878E+02"),
    ((172, 29000, 400, 0, -70, 16, 150, 150, 4), False, "1.851122E+06 1.476555E+08 1.579356E+07 2.633795E+05 1.588781E+03 4.809630E-15 5.816167E+04 5.478984E+06 1.264446E+03 1.212396E+03 1.208135E+03"),
    ((172, 29000, 400, 60, 0, 16, 150, 150, 4), False, "8.673095E+05 1.278862E+08 1.822577E+07 2.922214E+05 2.402962E+03 4.355866E-15 3.686389E+04 3.897276E+06 2.667273E+04 1.220146E+03 1.212712E+03"),
    ((172, 29000, 400, 60, -70, 4, 150, 150, 4), False, "5.776251E+05 6.979139E+07 1.236814E+07 2.492868E+05 1.405739E+03 2.470651E-15 5.291986E+04 1.069814E+06 2.667273E+04 1.116385E+03 1.112999E+03"),
    ((172, 29000, 400, 60, -70, 16, 70, 150, 4), False, "3.740304E+05 4.782720E+07 5.240380E+06 1.759875E+05 5.501649E+02 1.571889E-15 8.896776E+04 1.979741E+06 9.121815E+03 1.031247E+03 1.024848E+03"),
    ((172, 29000, 400, 60, -70, 16, 150, 180, 4), False, "6.748339E+05 1.245315E+08 2.369010E+07 4.911583E+05 4.578781E+03 4.564420E-15 3.244595E+04 5.370833E+06 2.667273E+04 1.306052E+03 1.293374E+03"),
    ((172, 29000, 400, 60, -70, 16, 150, 150, 40), False, "5.528601E+05 1.198041E+08 3.495798E+07 9.339618E+05 1.096255E+04 4.974543E-15 2.686428E+04 4.889974E+06 2.805445E+04 1.361868E+03 1.347389E+03"),
    ((172, 29000, 0, 60, -70, 16, 150, 150, 4), False, "1.375488E+14 0.000000E+00 2.049687E+19 5.498695E+18 2.451733E+17 1.261066E-03 0.000000E+00 0.000000E+00 0.000000E+00 1.027318E+03 2.814648E+02"),
    ((172, 29000, 10, 60, -70, 16, 150, 150, 4), False, "4.427443E+13 0.000000E+00 6.597567E+18 1.769929E+18 7.891680E+16 4.059139E-04 0.000000E+00 0.000000E+00 0.000000E+00 1.027318E+03 2.274180E+02"),
    ((172, 29000, 30, 60, -70, 16, 150, 150, 4), False, "2.127829E+12 0.000000E+00 3.170791E+17 8.506280E+16 3.792741E+15 1.950822E-05 0.000000E+00 0.000000E+00 0.000000E+00 1.027318E+03 2.374389E+02"),
    ((172, 29000, 50, 60, -70, 16, 150, 150, 4), False, "1.412184E+11 0.000000E+00 2.104370E+16 5.645392E+15 2.517142E+14 1.294709E-06 0.000000E+00 0.000000E+00 0.000000E+00 1.027318E+03 2.795551E+02"),
    ((172, 29000, 70, 60, -70, 16, 150, 150, 4), False, "1.254884E+10 0.000000E+00 1.874533E+15 4.923051E+14 2.239685E+13 1.147668E-07 0.000000E+00 0.000000E+00 0.000000E+00 1.027318E+03 2.190732E+02"),
    ((172, 29000, 400, 60, -70, 16, 150, 150, 4), True, "5.196477E+05 1.274494E+08 4.850450E+07 1.720838E+06 2.354487E+04 5.881940E-15 2.500078E+04 6.279210E+06 2.667273E+04 1.426412E+03 1.408608E+03"),
    ((172, 29000, 100, 60, -70, 16, 150, 150, 4), True, "4.260860E+07 1.241342E+11 4.929562E+12 1.048407E+12 4.993465E+10 2.914304E-10 8.831229E+06 2.252516E+05 2.415246E-42 1.027318E+03 1.934071E+02"),
]
FIRST = Record(172, 29000, 400, 60, -70, 16, 150, 150, 4)
CGS = (0,) + (1,) * 23
RISING = [100.0 + 10 * i for i in range(60)]


def row_with(**entries):
    """All on but for the entries given as e9=-1."""
    row = list(ON)
    for name, value in entries.items():
        row[int(name[1:])] = value
    return row


def bits(row):
    return struct.pack("=11d", *row)


class Densities(unittest.TestCase):
    def test_published_samples(self):
        for fields, history, published in SAMPLES:
            switches = list(CGS)
            record = Record(*fields)
            if history:
                switches[9] = -1
                record = dataclasses.replace(record, ap_array=[100] * 7)
            with self.subTest(record=record):
                self.assertEqual(" ".join(f"{x:.6E}" for x in potirehu.gtd7(record, switches)), published)

    def test_record_and_keywords_agree(self):
        by_keywords = potirehu.gtd7(doy=172, sec=29000, alt=400, g_lat=60, g_long=-70, lst=16, f107a=150, f107=150, ap=4)
        self.assertEqual(by_keywords, potirehu.gtd7(FIRST))
        self.assertEqual(potirehu.gtd7(FIRST, alt=500), potirehu.gtd7(dataclasses.replace(FIRST, alt=500)))
        self.assertEqual(by_keywords.d[5], by_keywords.density)
        self.assertEqual(by_keywords.t, (by_keywords.temperature_exo, by_keywords.temperature_alt))

    def test_year_is_read_by_nothing(self):
        self.assertEqual(potirehu.gtd7(FIRST, year=10**20), potirehu.gtd7(FIRST))

    def test_drag_is_the_sum_over_the_row(self):
        plain, drag = potirehu.gtd7(FIRST, alt=800), potirehu.gtd7d(FIRST, alt=800)
        self.assertEqual(plain._replace(density=drag.density), drag)
        d = plain.d
        whole = 4 * d[0] + 16 * d[1] + 28 * d[2] + 32 * d[3] + 40 * d[4] + d[6] + 14 * d[7] + 16 * d[8]
        self.assertEqual(drag.density, 1.66e-24 * whole / 1000)

    def test_present_constants_give_gtd7(self):
        for alt in (0, 50, 72.5, 100, 160, 200, 400, 1000):
            self.assertEqual(bits(potirehu.gtd7_with(PRESENT, FIRST, alt=alt)), bits(potirehu.gtd7(FIRST, alt=alt)))
        self.assertNotEqual(potirehu.gtd7_with(PRESENT._replace(rgas=840), FIRST), potirehu.gtd7(FIRST))

    def test_no_number_at_32_5_km(self):
        self.assertTrue(math.isnan(potirehu.gtd7(FIRST, alt=32.5).density))

    def test_the_exospheric_temperature_is_a_constant_up_to_123_435_km(self):
        for alt in (0, 72.5, 100, 120, 123.435):
            for fields in ({}, {"f107a": 70, "f107": 230, "ap": 200}, {"doy": 1, "g_lat": -80, "lst": 3}):
                self.assertEqual(potirehu.gtd7(FIRST, alt=alt, **fields).temperature_exo, 1027.3184649)
        self.assertNotEqual(potirehu.gtd7(FIRST, alt=123.43500000000002).temperature_exo, 1027.3184649)

    def test_restart_row_shuts_off_place_and_clock_and_keeps_ap(self):
        row = row_with(e7=0, e8=0, e10=0, e14=0)
        here = potirehu.gtd7(FIRST, row, sec=0, g_long=0, lst=0)
        self.assertEqual(bits(here), bits(potirehu.gtd7(FIRST, row, sec=81234.5, g_long=-157.8, lst=12.04)))
        self.assertNotEqual(here.density, potirehu.gtd7(FIRST, row, sec=0, g_long=0, lst=0, ap=200).density)
        history = row_with(e7=0, e8=0, e9=-1, e10=0, e14=0)
        storm = potirehu.gtd7(FIRST, history, sec=0, g_long=0, lst=0, ap_array=[200] * 7)
        self.assertEqual(bits(storm), bits(potirehu.gtd7(FIRST, history, sec=1, g_long=9, lst=23, ap=0, ap_array=[200] * 7)))
        self.assertNotEqual(storm.density, potirehu.gtd7(FIRST, history, sec=0, g_long=0, lst=0, ap_array=[4] * 7).density)


class KnownInPart(unittest.TestCase):
    ALL = ("year", "doy", "sec", "alt", "g_lat", "g_long", "lst", "f107a", "f107", "ap")

    def test_counts_is_the_list(self):
        marks = potirehu.counts()
        self.assertEqual(list(marks), [*self.ALL, *(f"ap_array[{i}]" for i in range(7))])
        self.assertEqual([name for name, mark in marks.items() if not mark], ["year", *(f"ap_array[{i}]" for i in range(7))])
        history = potirehu.counts(row_with(e9=-1))
        self.assertEqual([name for name, mark in history.items() if not mark], ["year", "ap", "ap_array[0]"])
        self.assertEqual([name for name, mark in potirehu.counts(row_with(e1=0, e7=0, e8=0, e9=0, e10=0, e14=0)).items() if mark], ["doy", "alt", "g_lat"])
        with self.assertRaises(Refusal) as caught:
            potirehu.counts([1] * 23)
        self.assertEqual((caught.exception.number, caught.exception.place), (4, 24))

    def test_all_known_is_gtd7(self):
        self.assertEqual(bits(potirehu.gtd7(FIRST, known=self.ALL)), bits(potirehu.gtd7(FIRST)))

    def test_what_is_not_known_is_not_looked_at(self):
        row = row_with(e7=0, e8=0, e9=0, e10=0, e14=0)
        known = ("doy", "alt", "g_lat", "f107a", "f107")
        zeros = potirehu.gtd7(FIRST, row, sec=0, g_long=0, lst=0, ap=0)
        for other in (math.nan, math.inf, -1e300, "not a number", None):
            spoiled = dataclasses.replace(FIRST, sec=other, g_long=other, lst=other, ap=other, year=other)
            self.assertEqual(bits(potirehu.gtd7(spoiled, row, known=known)), bits(zeros))
        self.assertEqual(bits(potirehu.gtd7(switches=row, known=known, doy=172, alt=400, g_lat=60, f107a=150, f107=150)), bits(zeros))

    def test_1_at_the_lowest_field_that_counts_and_is_not_known(self):
        marks = potirehu.counts()
        for place, name in enumerate(self.ALL):
            known = [other for other in self.ALL if other != name]
            if not marks[name]:
                self.assertEqual(bits(potirehu.gtd7(FIRST, known=known)), bits(potirehu.gtd7(FIRST)))
                continue
            with self.assertRaises(Refusal) as caught:
                potirehu.gtd7(FIRST, known=known)
            self.assertEqual((caught.exception.number, caught.exception.place), (1, place))
            self.assertIn(f"{name} counts under the switch row", str(caught.exception))

    def test_2_before_1_and_1_before_3(self):
        for fields, refusal in (({"lst": math.nan}, (2, 6)), ({"lst": 49}, (1, 5)), ({"lst": 49, "switches": row_with(e10=0)}, (3, 6))):
            with self.assertRaises(Refusal) as caught:
                potirehu.gtd7(FIRST, known=set(self.ALL) - {"g_long", "sec" if "switches" in fields else "g_long"}, **fields)
            self.assertEqual((caught.exception.number, caught.exception.place), refusal)

    def test_a_name_of_no_field(self):
        with self.assertRaisesRegex(ValueError, "'long' is none"):
            potirehu.gtd7(FIRST, known=("doy", "long"))

    def test_rows_of_the_page_on_changing_over(self):
        page = (HERE.parents[1] / "docs/CHANGING-OVER.md").read_text(encoding="utf-8").split("**After a restart.**")[1].split("**What to plan for**")[0]
        rows = [[cell.strip() for cell in line.strip("|").split("|")] for line in page.splitlines() if line.startswith("|") and "`" in line]
        self.assertEqual(len(rows), 9)
        for lacking, switches, shut in rows:
            with self.subTest(lacking=lacking):
                row = [int(word) for word in switches.strip("`").split()]
                marks = potirehu.counts(row)
                self.assertEqual([name for name in self.ALL if not marks[name]], shut.split(", "))
                self.assertLessEqual(set(lacking.split(" where ")[0].split(", ")), set(shut.split(", ")))
                known = [name for name in self.ALL if marks[name]]
                potirehu.gtd7(FIRST, row, known=known, ap_array=[4] * 7)
        # where several are lacking, the zeros of all their rows shut all of them off
        zeros = {lacking: [entry for entry, word in enumerate(switches.strip("`").split()) if word == "0"] for lacking, switches, _ in rows[:5]}
        for several in itertools.chain.from_iterable(itertools.combinations(zeros, count) for count in range(1, 6)):
            with self.subTest(several=several):
                row = row_with(**{f"e{entry}": 0 for lacking in several for entry in zeros[lacking]})
                potirehu.gtd7(FIRST, row, known=set(self.ALL) - {name for lacking in several for name in lacking.split(", ")})


class Columns(unittest.TestCase):
    def test_rows_are_gtd7(self):
        for row, alt in zip(potirehu.column(RISING, FIRST), RISING):
            self.assertEqual(bits(row), bits(potirehu.gtd7(FIRST, alt=alt)))
        self.assertEqual(potirehu.column([], FIRST), [])

    def test_own_altitude_is_not_looked_at(self):
        fields = {f.name: getattr(FIRST, f.name) for f in dataclasses.fields(FIRST) if f.name != "alt"}
        self.assertEqual(potirehu.column([400], **fields), potirehu.column([400], FIRST, alt=math.nan))

    def test_crossings_and_first_below_are_the_column(self):
        rows = potirehu.column(RISING, FIRST)
        for level in (1e-5, 1e-8, 1e-10, 1e-11, rows[20].density, 1e-30, math.nan, math.inf):
            below = [row.density < level for row in rows]
            passed = [i for i in range(len(rows) - 1) if below[i] != below[i + 1]]
            self.assertEqual(potirehu.crossings(RISING, level, FIRST), passed)
            index = next((i for i, hit in enumerate(below) if hit), None)
            found = potirehu.first_below(RISING, level, FIRST)
            if index is None:
                self.assertIsNone(found)
            else:
                self.assertEqual(found[0], index)
                self.assertEqual(bits(found[1]), bits(rows[index]))

    def test_arrays_come_out_where_they_went_in(self):
        # a stand-in, for machines without numpy: what is asked of numpy is ndarray, array and empty
        class Array(list):
            dtype = types.SimpleNamespace(kind="O")
            shape = property(lambda self: (len(self),))

        class Empty(array.array):
            def __new__(cls, shape):
                made = super().__new__(cls, "d", bytes(8 * math.prod(shape)))
                made.shape, made.size = shape, math.prod(shape)
                return made

        stand_in = types.SimpleNamespace(ndarray=Array, array=Array, empty=Empty)
        with unittest.mock.patch("potirehu.memory.numpy", stand_in), unittest.mock.patch("potirehu.calls.numpy", stand_in):
            self.assertEqual(potirehu.column(Array([100, 200]), FIRST).shape, (2, 11))
            self.assertEqual(potirehu.column(Array(), FIRST).shape, (0, 11))
            self.assertEqual(potirehu.crossings(Array([100, 400]), 1e-10, FIRST).shape, (1,))
            self.assertEqual(potirehu.descent(300000000, Array([1, 2]), FIRST).losses.shape, (2,))
            self.assertIs(type(potirehu.column([100, 200], FIRST)), list)

    def test_numpy(self):
        if numpy is None:
            self.skipTest("numpy is not there (Debian: python3-numpy)")
        rows = potirehu.column(numpy.array(RISING), FIRST)
        self.assertEqual(rows.shape, (len(RISING), 11))
        self.assertEqual(rows.tolist(), [list(row) for row in potirehu.column(RISING, FIRST)])
        self.assertEqual(potirehu.column(numpy.array([]), FIRST).shape, (0, 11))
        # whole numbers, one in two, and memory that may not be written to
        fixed = numpy.array([100.0, 200.0])
        fixed.flags.writeable = False
        for altitudes in (numpy.array([100, 200], numpy.int32), numpy.array([100.0, 1, 200, 1])[::2], fixed):
            self.assertEqual(potirehu.column(altitudes, FIRST).tolist(), rows[[0, 10]].tolist())
        self.assertEqual(potirehu.crossings(numpy.array([100, 400]), 1e-10, FIRST).tolist(), [0])
        self.assertEqual(potirehu.descent(300000000, numpy.array([1, 2]), FIRST).losses.shape, (2,))
        self.assertIs(type(potirehu.column([100, 200], FIRST)), list)
        self.assertRaises(TypeError, potirehu.column, numpy.array(["400"]), FIRST)


class ManyRecords(unittest.TestCase):
    # days that change and stay, kinds of altitude in every order, refused ones in between
    EACH = [
        dataclasses.replace(FIRST, doy=doy, alt=alt, sec=10 * i, g_lat=lat)
        for doy in (1, 172)
        for i, (alt, after) in enumerate(itertools.product((0, 32.5, 50, 72.5, 100, 150, 400, 2500), repeat=2))
        for alt, doy, lat in ((alt, doy, 51.6), (after, doy + i % 2, -51.6), (400, 172, 91), (400, 367, 0))
    ]

    def same(self, one, record, switches):
        try:
            alone = potirehu.gtd7(record, switches)
        except Refusal as refused:
            self.assertIs(type(one), Refusal)
            self.assertEqual((one.number, one.place), (refused.number, refused.place))
            return 1
        self.assertEqual(bits(one), bits(alone))
        return 0

    def test_each_is_gtd7(self):
        storm = [dataclasses.replace(one, ap_array=[100, 200, 300, 80, 40, 20, 10]) for one in self.EACH]
        mixed = [storm[i] if i % 5 < 2 else one for i, one in enumerate(self.EACH)]
        for each, switches in itertools.product((self.EACH, storm, mixed), (ON, CGS, row_with(e9=-1), row_with(e15=0))):
            out = potirehu.records(each, switches)
            self.assertEqual(len(out), len(each))
            refused = sum(self.same(one, record, switches) for one, record in zip(out, each))
            self.assertGreaterEqual(refused, len(each) // 2)
        self.assertEqual(potirehu.records([]), [])
        self.assertEqual(potirehu.records(iter([FIRST])), [potirehu.gtd7(FIRST)])

    def test_a_history_of_another_length_is_refused_alone(self):
        each = [dataclasses.replace(FIRST, ap_array=[4] * n) for n in (7, 6, 8, 7)]
        self.assertEqual([self.same(one, record, ON) for one, record in zip(potirehu.records(each), each)], [0, 1, 1, 0])

    def memory(self):
        days = array.array("i", [one.doy for one in self.EACH])
        fields = array.array("d")
        for one in self.EACH:
            fields.extend((one.sec, one.alt, one.g_lat, one.g_long, one.lst, one.f107a, one.f107, one.ap))
        return days, fields, array.array("Q", [7] * (len(days) + 2)), array.array("d", [-7.0] * (11 * len(days) + 5))

    def test_memory_is_taken_as_it_lies(self):
        n = len(self.EACH)
        days, fields, answers, rows = self.memory()
        storm = array.array("d", [100, 200, 300, 80, 40, 20, 10] * n)
        for ap_arrays, history, switches in ((None, None, ON), (storm, list(storm[:7]), row_with(e9=-1))):
            self.assertIsNone(potirehu.records_into(days, fields, ap_arrays, answers, rows, switches))
            for i, record in enumerate(self.EACH):
                one = potirehu.refusal(answers[i]) or rows[11 * i : 11 * i + 11]
                if self.same(one, dataclasses.replace(record, ap_array=history), switches):
                    self.assertEqual(list(rows[11 * i : 11 * i + 11]), [-7.0] * 11)
            self.assertEqual((list(answers[n:]), list(rows[11 * n :])), ([7, 7], [-7.0] * 5))
        # the same out of memory that may not be written to, of ctypes, and of two dimensions
        again, more = array.array("Q", answers), array.array("d", rows)
        potirehu.records_into(memoryview(bytes(days)).cast("i"), memoryview(bytes(fields)).cast("d", (n, 8)), storm, again, more, row_with(e9=-1))
        self.assertEqual((again, more), (answers, rows))
        potirehu.records_into((ctypes.c_int32 * n)(*days), (ctypes.c_double * (8 * n))(*fields), storm, again, memoryview(more), row_with(e9=-1))
        self.assertEqual((again, more), (answers, rows))

    def test_what_is_no_such_memory(self):
        days, fields, answers, rows = self.memory()
        for wrong in (
            (array.array("h", days), fields, None, answers, rows),
            (array.array("q", days), fields, None, answers, rows),
            (array.array("I", days), fields, None, answers, rows),
            (days, array.array("f", fields), None, answers, rows),
            (days, list(fields), None, answers, rows),
            (days, memoryview(fields)[::2], None, answers, rows),
            (days, fields, None, array.array("q", answers), rows),
            (days, fields, None, answers, bytes(rows)),
            (days, fields, None, answers, memoryview(bytes(rows)).cast("d")),
            ("172", fields, None, answers, rows),
        ):
            with self.assertRaisesRegex(TypeError, "^(days|fields|answers|rows) (must|is written)"):
                potirehu.records_into(*wrong)
        for what, wrong in (
            ("fields", (days, fields, None, answers, memoryview(fields))),
            ("ap_arrays", (days, fields, rows, answers, rows)),
            ("rows", (days, fields, None, memoryview(rows).cast("B").cast("Q"), rows)),
        ):
            with self.assertRaisesRegex(ValueError, f"shares memory with {what}$"):
                potirehu.records_into(*wrong)
        self.assertEqual((set(answers), set(rows)), ({7}, {-7.0}))

    def test_numpy(self):
        if numpy is None:
            self.skipTest("numpy is not there (Debian: python3-numpy)")
        days, fields, answers, rows = self.memory()
        potirehu.records_into(days, fields, None, answers, rows)
        n = len(days)
        by_numpy = numpy.full((n, 11), -7.0)
        codes = numpy.zeros(n, numpy.uint64)
        potirehu.records_into(numpy.array(days, numpy.int32), numpy.array(fields).reshape(n, 8), None, codes, by_numpy)
        self.assertEqual((by_numpy.tobytes(), codes.tolist()), (rows[: 11 * n].tobytes(), list(answers[:n])))
        self.assertEqual(potirehu.refusal(codes[2]).place, 4)


class Stations(unittest.TestCase):
    def test_altitudes_are_gtd7_through_changes(self):
        station, record, switches = Station(FIRST), FIRST, ON

        def agree():
            for alt in (0, 72, 72.5, 90, 150, 400, 1000, 2500):
                self.assertEqual(bits(station.gtd7(alt)), bits(potirehu.gtd7(record, switches, alt=alt)))
                self.assertEqual(bits(station.gtd7d(alt)), bits(potirehu.gtd7d(record, switches, alt=alt)))

        agree()
        station.set_sec(1000)
        station.set_lst(3.5)
        station.set_g_long(20)
        station.set_fluxes(100, 120)
        record = dataclasses.replace(FIRST, sec=1000, lst=3.5, g_long=20, f107a=100, f107=120)
        agree()
        station.set_position(5400, 4.5, 33)
        record = dataclasses.replace(record, sec=5400, lst=4.5, g_long=33)
        agree()
        switches = row_with(e7=0, e16=2)
        station.set_switches(switches)
        agree()
        for moved in ((math.nan, 1, 1), (1, 49, 1), (1, 1, 1001)):
            self.assertRaises(Refusal, station.set_position, *moved)
        for refused in (lambda: station.set_lst(math.nan), lambda: station.set_sec(86401), lambda: station.set_switches(row_with(e9=-1))):
            self.assertRaises(Refusal, refused)
        agree()

    def test_a_copy_stands_alone(self):
        station = Station(FIRST)
        for other in (copy.copy(station), copy.deepcopy(station)):
            before = station.gtd7(400)
            other.set_lst(3)
            self.assertEqual(station.gtd7(400), before)
            self.assertNotEqual(other.gtd7(400), before)


class BandsAndDescents(unittest.TestCase):
    def test_bands_give_gtd7_with_their_rows(self):
        text = (HERE / "../../examples/bands.txt").read_text()
        rows = [[int(n) for n in line.split("switches ")[1].rstrip(")").split()] for line in text.splitlines()]
        bands = Bands(text)
        for metre, row in ((0, rows[0]), (72499, rows[0]), (72500, rows[1]), (499999, rows[2]), (2500000, rows[3])):
            self.assertEqual(bits(bands.gtd7(metre, FIRST)), bits(potirehu.gtd7(FIRST, row, alt=metre / 1000)))
        self.assertEqual(Bands(text.rstrip().encode()).gtd7(400000, FIRST), bands.gtd7(400000, FIRST))

    def test_descents(self):
        settings = [1, 2, 3, 4] * 5
        flown = potirehu.descent(300000000, settings, FIRST)
        self.assertEqual(flown.ending, Ending.SPENT)
        altitude = 300000000
        for setting, loss in zip(settings, flown.losses):
            self.assertEqual(loss, int(potirehu.gtd7(FIRST, alt=altitude / 1e6).density * 1e15 * setting))
            altitude -= loss
        self.assertEqual((flown.altitude, len(flown.losses)), (altitude, 20))
        self.assertEqual(potirehu.descent(300000000, [], FIRST), (Ending.SPENT, 300000000, []))
        reached = potirehu.descent(200000000, [4], FIRST)
        self.assertEqual(reached, (Ending.REACHED, 200000000, []))

    def test_logs(self):
        same = [1.0, 2.0, 3.0]
        found = potirehu.compare_logs([10, 20, 30], same, [11, 31, 50], [1.0, 3.5, 9.0], 2)
        self.assertEqual(found, [Finding.SAME_PAIR, Finding.SINGLE_1, Finding.OTHER_PAIR, Finding.SINGLE_2])
        as_bits = [struct.unpack("=Q", struct.pack("=d", x))[0] for x in same]
        self.assertEqual(potirehu.compare_logs([1, 2, 3], same, [1, 2, 3], as_bits, 0), [Finding.SAME_PAIR] * 3)
        self.assertEqual(potirehu.compare_logs([], [], [], [], 2**64 - 1), [])


class Refusals(unittest.TestCase):
    def refused(self, number, place, words, call, *arguments, **fields):
        with self.assertRaises(Refusal) as caught:
            call(*arguments, **fields)
        self.assertEqual((caught.exception.number, caught.exception.place), (number, place))
        self.assertIn(words, str(caught.exception))

    def test_1_history_absent(self):
        self.refused(1, 10, "ap_array", potirehu.gtd7, FIRST, row_with(e9=-1))

    def test_2_not_finite(self):
        for place, name in enumerate(("sec", "alt", "g_lat", "g_long", "lst", "f107a", "f107", "ap"), 2):
            for value in (math.nan, math.inf, -math.inf):
                self.refused(2, place, name + " is NaN", potirehu.gtd7, FIRST, **{name: value})
        for i in range(7):
            self.refused(2, 10 + i, f"ap_array[{i}]", potirehu.gtd7, FIRST, ap_array=[math.nan if k == i else 4 for k in range(7)])
        self.refused(2, 18, "altitudes[1]", potirehu.column, [100, math.nan], FIRST)
        self.refused(2, 3, "alt is NaN", Station(FIRST).gtd7, math.nan)

    def test_3_out_of_range(self):
        ends = {
            "doy": (1, 0, 367), "sec": (2, -1, 86400.5), "alt": (3, -1, 2500.5), "g_lat": (4, -91, 91), "g_long": (5, -1001, 1001), "lst": (6, -25, 49),
            "f107a": (7, -1, 1001), "f107": (8, -1, 1001), "ap": (9, -1, 401),
        }
        for name, (place, low, high) in ends.items():
            self.refused(3, place, name + " is out of range", potirehu.gtd7, FIRST, **{name: low})
            self.refused(3, place, name + " is out of range", potirehu.gtd7d, FIRST, **{name: high})
        for doy in (2**32 + 1, -(2**64) + 172):
            self.refused(3, 1, "doy", potirehu.gtd7, FIRST, doy=doy)
        self.refused(3, 16, "ap_array[6]", potirehu.gtd7, FIRST, ap_array=[4] * 6 + [401])
        self.refused(3, 19, "altitudes[2]", potirehu.first_below, [300, 200, 2501], 1.0, FIRST)
        self.refused(3, 3, "alt", Bands(b"(band 0 2500001 (switches" + b" 1" * 24 + b"))").gtd7, 2500001, FIRST)

    def test_4_lengths(self):
        self.refused(4, 24, "switches", potirehu.gtd7, FIRST, ON[:23])
        self.refused(4, 24, "switches", Station(FIRST).set_switches, ON + (1,))
        self.refused(4, 7, "ap_array", potirehu.gtd7, FIRST, ap_array=[4] * 6)
        self.refused(4, 9, "nine", potirehu.gtd7_with, PRESENT[:8], FIRST)
        self.refused(4, 24, "switches", potirehu.records, [FIRST], ON[:23])
        self.refused(4, 24, "switches", potirehu.records, [], ON[:23])

    def test_4_lengths_of_many_records(self):
        days, fields, ap_arrays = array.array("i", [172] * 3), array.array("d", [1.0] * 24), array.array("d", [4.0] * 21)
        short = array.array("d", [1.0] * 20)
        answers, rows = array.array("Q", [7] * 3), array.array("d", [-7.0] * 33)
        # each with all that is judged behind it wrong too
        for place, what, wrong in (
            (33, "rows", (days, short, short, answers[:2], rows[:32], ON[:23])),
            (3, "answers", (days, short, short, answers[:2], rows, ON[:23])),
            (24, "fields", (days, short, short, answers, rows, ON[:23])),
            (21, "ap_arrays", (days, fields, short, answers, rows, ON[:23])),
            (24, "switches", (days, fields, ap_arrays, answers, rows, ON[:23])),
            (24, "switches", (days, fields, None, answers, rows, ON + (1,))),
        ):
            self.refused(4, place, f"{what} has not the length needed, {place}", potirehu.records_into, *wrong)
            self.assertEqual((set(answers), set(rows)), ({7}, {-7.0}))

    def test_5_too_many_altitudes(self):
        self.refused(5, 512, "512 altitudes", potirehu.column, [400] * 513, FIRST)
        self.assertEqual(len(potirehu.column([400] * 512, FIRST)), 512)

    def test_8_altitudes_that_do_not_rise(self):
        self.refused(8, 2, "altitudes[2]", potirehu.crossings, [100, 200, 200], 1e-10, FIRST)

    def test_9_no_room(self):
        # crossings lends as much room as any list needs, so the call itself is made
        arguments = (*calls._record(FIRST, {}), switch_row(ON), doubles([100, 400], "altitudes"), 1e-10)
        self.refused(9, 1, "1 entries", library.call, "crossings", *arguments, library.room(0, ctypes.c_uint64))

    def test_10_not_mixed(self):
        self.refused(10, 3, "alt is below 72.5 km", potirehu.gtd7, FIRST, row_with(e15=0), alt=72)
        self.refused(10, 18, "altitudes[1]", potirehu.column, [100, 72], FIRST, row_with(e15=2))
        self.refused(10, 3, "N2", potirehu.gtd7_with, PRESENT._replace(n2=70), FIRST, alt=50)

    def test_11_to_13_bands(self):
        on = "(switches" + " 1" * 24 + ")"
        self.refused(11, 1, "line 1 is no band", Bands, "band")
        self.refused(11, 2, "line 2", Bands, f"(band 0 100 {on})\n(band 100 100 {on})\n")
        self.refused(12, 2, "line 2 overlaps", Bands, f"(band 0 100 {on})\n(band 99 2500001 {on})\n")
        self.refused(13, 2, "gap before line 2", Bands, f"(band 0 100 {on})\n(band 101 2500001 {on})\n")
        self.refused(13, 2, "end short", Bands, f"(band 0 100 {on})\n")
        self.refused(13, 1, "line 1", Bands, "")
        self.refused(11, 1, "line 1", Bands, "\u00e9\ud800")

    def test_11_says_at_which_byte(self):
        on = "(switches" + " 1" * 24 + ")"
        good, last = f"(band 0 100 {on})\n", f"(band 100 2500001 {on})\n"
        n = len(good) - 1
        for text, line, words in (
            (good.replace("\n", "\r\n") + last, 1, f"ends with a carriage return, byte {n + 1} of the line, byte {n} of the text: lines end with a newline alone"),
            (good + last + "\n", 3, f"the line is empty, at byte {len(good + last)} of the text"),
            ("\n" + good + last, 1, "the line is empty, at byte 0 of the text"),
            (good + last + "\0", 3, "byte 1 of the line"),
            (good + "(band 0100 2500001 " + on + ")", 2, f"'0' is not what stands there, byte 7 of the line, byte {len(good) + 6} of the text"),
            (good + "(band 100  2500001 " + on + ")", 2, "' ' is not what stands there, byte 11 of the line"),
            (good + "(band 100 1234567890 " + on + ")", 2, "'0' is not what stands there, byte 20 of the line"),
            (good[:-2] + "\n" + last, 1, f"the line ends too early, at byte {n} of the line"),
            (good.replace(" 1)", ")"), 1, "byte 68 of the line"),
            ("\tband", 1, "'\\t' is not what stands there, byte 1 of the line"),
        ):
            with self.subTest(text=text):
                self.refused(11, line, words, Bands, text)
        with self.assertRaises(Refusal) as caught:
            Bands(f"(band 100 100 {on})")
        self.assertIsNone(caught.exception.what)

    def test_14_and_15_logs(self):
        self.refused(14, 1, "board 1", potirehu.compare_logs, range(257), [0.0] * 257, [], [], 0)
        self.refused(14, 2, "board 2", potirehu.compare_logs, [], [], [1, 2], [0.0], 0)
        self.refused(15, 1, "board 1, seconds[1]", potirehu.compare_logs, [5, 5], [0.0] * 2, [], [], 0)
        self.refused(15, 258, "board 2, seconds[2]", potirehu.compare_logs, [], [], [1, 2, 0], [0.0] * 3, 0)

    def test_16_constants(self):
        self.refused(16, 1, "rgas", potirehu.gtd7_with, PRESENT._replace(rgas=0), FIRST)
        self.refused(16, 2, "xmm", potirehu.gtd7_with, PRESENT._replace(xmm=28), FIRST)
        self.refused(16, 9, "number 9", potirehu.gtd7_with, PRESENT._replace(n=math.nan), FIRST)

    def test_17_to_19_descents(self):
        for start in (199999999, 1000000001, 2**64 + 300000000):
            self.refused(17, 0, "start", potirehu.descent, start, [1], FIRST)
        self.refused(18, 3, "settings[2]", potirehu.descent, 300000000, [1, 4, 5], FIRST)
        self.refused(18, 1, "settings[0]", potirehu.descent, 300000000, [2**32 + 1], FIRST)
        self.refused(19, 10000, "10,000 settings", potirehu.descent, 300000000, [1] * 10001, FIRST)

    def test_numbers_beyond_their_width_do_not_wrap(self):
        self.assertRaises(OverflowError, potirehu.gtd7, FIRST, row_with(e9=2**32 + 1))
        self.assertRaises(OverflowError, potirehu.compare_logs, [-1], [0.0], [], [], 0)
        self.assertRaises(OverflowError, potirehu.compare_logs, [], [], [], [], 2**64)

    def test_a_text_is_no_number(self):
        for field in ("sec", "alt", "g_lat", "g_long", "lst", "f107a", "f107", "ap"):
            for text in ("4", b"4", ""):
                with self.assertRaisesRegex(TypeError, f"^{field} must be a number, not "):
                    potirehu.gtd7(FIRST, **{field: text})
        station, bands = Station(FIRST), Bands("(band 0 2500001 (switches" + " 1" * 24 + "))")
        for call in (
            lambda: potirehu.gtd7(FIRST, doy="172"),
            lambda: potirehu.gtd7(FIRST, ap_array="1234567"),
            lambda: potirehu.gtd7(FIRST, "1" * 24),
            lambda: potirehu.gtd7_with("831428952", FIRST),
            lambda: potirehu.column("400", FIRST),
            lambda: potirehu.column(["400"], FIRST),
            lambda: potirehu.crossings([100, 200], "1e-10", FIRST),
            lambda: potirehu.first_below(["100"], 1e-10, FIRST),
            lambda: potirehu.descent("300000000", [1], FIRST),
            lambda: potirehu.descent(300000000, "1", FIRST),
            lambda: potirehu.compare_logs([1], "x", [], [], 0),
            lambda: potirehu.compare_logs([1], ["1.0"], [], [], 0),
            lambda: potirehu.compare_logs(["1"], [1.0], [], [], 0),
            lambda: potirehu.compare_logs([], [], [], [], "0"),
            lambda: station.gtd7("400"),
            lambda: station.set_sec("5"),
            lambda: station.set_fluxes("150", 150),
            lambda: bands.gtd7("400000", FIRST),
        ):
            self.assertRaises(TypeError, call)

    def test_a_number_is_no_text_of_bands(self):
        for number in (0, 5, 2**62, 1.5, None, [40, 41]):
            self.assertRaises(TypeError, Bands, number)
        text = ("(band 0 2500001 (switches" + " 1" * 24 + "))").encode()
        for same in (bytearray(text), memoryview(text)):
            self.assertEqual(Bands(same).gtd7(400000, FIRST), Bands(text).gtd7(400000, FIRST))

    def test_a_refusal_can_be_stored(self):
        stored = pickle.loads(pickle.dumps(Refusal(3, 3)))
        self.assertEqual((stored.number, stored.place, str(stored)), (3, 3, str(Refusal(3, 3))))
        self.assertEqual(str(pickle.loads(pickle.dumps(Refusal(4, 24, "fields")))), "fields has not the length needed, 24 (refusal 4 at 24)")

    def test_every_number_has_words(self):
        for number in range(1, 20):
            self.assertTrue(Refusal(number, 9).words)

    def test_a_history_that_does_not_count_is_said(self):
        storm = dataclasses.replace(FIRST, ap_array=[200] * 7)
        n = 2
        days, fields = array.array("i", [172] * n), array.array("d", [29000, 400, 60, -70, 16, 150, 150, 4] * n)
        asked = (
            lambda row: potirehu.gtd7(storm, row), lambda row: potirehu.gtd7d(storm, row), lambda row: potirehu.gtd7_with(PRESENT, storm, row),
            lambda row: potirehu.records([FIRST, storm], row), lambda row: potirehu.column([400], storm, row), lambda row: Station(storm, row),
            lambda row: potirehu.descent(300000000, [1], storm, row), lambda row: potirehu.crossings([100, 200], 1e-9, storm, row),
            lambda row: potirehu.first_below([100, 200], 1e-9, storm, row), lambda row: potirehu.gtd7(storm, row, known=KnownInPart.ALL),
            lambda row: potirehu.records_into(days, fields, array.array("d", [4.0] * 14), array.array("Q", [0, 0]), array.array("d", [0.0] * 22), row),
        )
        for i, call in enumerate(asked):
            with self.subTest(call=i), warnings.catch_warnings():
                warnings.simplefilter("error")
                call(row_with(e9=-1))
                for row in (ON, row_with(e9=0)):
                    with self.assertWarnsRegex(NotCounted, "entry 9 of the switches is not -1") as caught:
                        call(row)
                    self.assertEqual(pathlib.Path(caught.filename).name, "test_potirehu.py")

    def test_a_missing_library_is_said_in_one_sentence(self):
        run = subprocess.run(
            [sys.executable, "-c", "import potirehu"], cwd=HERE, env={**os.environ, "POTIREHU_SO": "/nowhere/libpotirehu.so"}, capture_output=True, text=True
        )
        self.assertIn("run 'scripts/staticlib potirehu' and then 'bindings/python/build'", run.stderr.splitlines()[-1])


if __name__ == "__main__":
    unittest.main(warnings="ignore")
