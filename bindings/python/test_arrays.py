"""Tests of potirehu.calculate: every number against the one-altitude call, to the bit, with numpy and without it."""

import datetime
import io
import math
import os
import pathlib
import random
import struct
import subprocess
import sys
import unittest
import warnings

HERE = pathlib.Path(__file__).resolve().parent
sys.path.insert(0, str(HERE))

import potirehu  # noqa: E402
from potirehu import ON, NotCounted, Refusal, RefusedPoint, RowNumber, calculate, weather  # noqa: E402
from potirehu import arrays  # noqa: E402
from potirehu.memory import numpy  # noqa: E402

DATES = ["2024-02-29T23:59:59.25Z", "2024-12-31T12:00Z", "2025-01-01T00:00Z"]
CGS = (0,) + (1,) * 23
STORM = (1,) * 9 + (-1,) + (1,) * 14


def bits(row):
    return struct.pack("=11d", *map(float, row))


def as_lists(air):
    return air.tolist() if hasattr(air, "tolist") else air


class OneByOne(unittest.TestCase):
    def one(self, date, long, lat, alt, f107, f107a, ap, switches=ON, drag=False):
        history = ap if isinstance(ap, (list, tuple)) else None
        record = potirehu.record_at(date, long, lat, alt, f107, f107a, ap)
        self.assertEqual(record.ap_array, None if history is None else tuple(map(float, history)))
        with warnings.catch_warnings():
            warnings.simplefilter("ignore", NotCounted)
            return (potirehu.gtd7d if drag else potirehu.gtd7)(record, switches)

    def test_a_grid(self):
        longs, lats, alts = [-180, 0.5, 700], [-90, 51.6], [0, 50, 72.5, 100, 400, 1000, 2500]
        f107s, f107as, aps = [120, 150, 180.5], [130, 140, 150], [4, 40, 300]
        for switches in (ON, CGS):
            for drag in (False, True):
                air = calculate(DATES, longs, lats, alts, f107s, f107as, aps, switches=switches, drag=drag)
                if numpy is not None:
                    self.assertEqual((air.shape, air.dtype), ((3, 3, 2, 7, 11), numpy.float64))
                for i, date in enumerate(DATES):
                    for j, long in enumerate(longs):
                        for k, lat in enumerate(lats):
                            for m, alt in enumerate(alts):
                                wanted = self.one(date, long, lat, alt, f107s[i], f107as[i], aps[i], switches, drag)
                                self.assertEqual(bits(air[i][j][k][m]), bits(wanted))

    def track(self, n=400):
        g = random.Random(5)
        start = datetime.datetime(2023, 12, 30)
        dates = sorted(start + datetime.timedelta(seconds=g.uniform(0, 3 * 86400)) for _ in range(n))
        return dates, [g.uniform(-180, 360) for _ in dates], [g.uniform(-90, 90) for _ in dates], [g.choice([g.uniform(0, 1000), 400, 72.5]) for _ in dates]

    def test_a_track(self):
        dates, longs, lats, alts = self.track()
        f107s = [100 + i / 10 for i in range(len(dates))]
        for switches, drag in ((ON, False), (ON, True), (CGS, True)):
            air = calculate(dates, longs, lats, alts, f107s, 150, 4, switches=switches, drag=drag)
            self.assertEqual(len(air), len(dates))
            for i, point in enumerate(zip(dates, longs, lats, alts)):
                self.assertEqual(bits(air[i]), bits(self.one(*point, f107s[i], 150, 4, switches, drag)))

    def test_histories(self):
        dates, longs, lats, alts = self.track(20)
        each = [[i + k for k in range(7)] for i in range(20)]
        one = [10, 20, 30, 40, 50, 60, 70]
        for aps, wanted in ((each, each), (one, [one] * 20)):
            air = calculate(dates, longs, lats, alts, 150, 150, aps, switches=STORM)
            grid = calculate(dates, longs[0], lats[0], [alts[0], 300], 150, 150, aps, switches=STORM)
            for i, point in enumerate(zip(dates, longs, lats, alts)):
                self.assertEqual(bits(air[i]), bits(self.one(*point, 150, 150, wanted[i], STORM)))
                self.assertEqual(bits(grid[i][0][0][1]), bits(self.one(dates[i], longs[0], lats[0], 300, 150, 150, wanted[i], STORM)))
        # given and not counting: said, and the first of the seven is the daily ap
        with self.assertWarnsRegex(NotCounted, "does not count"):
            air = calculate(DATES[0], 0, 0, 400, 150, 150, one)
        self.assertEqual(bits(air[0]), bits(self.one(DATES[0], 0, 0, 400, 150, 150, 10)))
        # seven dates and seven numbers are a daily ap for each
        seven = calculate([f"2024-01-0{i}" for i in range(1, 8)], 0, 0, [400, 500], 150, 150, one)
        self.assertEqual(bits(seven[6][0][0][0]), bits(self.one("2024-01-07", 0, 0, 400, 150, 150, 70)))

    def test_grid_or_track_by_their_lengths(self):
        two = dict(f107s=150, f107as=150, aps=4)
        wanted = {
            (1, 1, 1, 1): (1, 11), (2, 2, 2, 2): (2, 11), (2, 1, 1, 1): (2, 1, 1, 1, 11), (1, 1, 1, 2): (1, 1, 1, 2, 11), (2, 2, 2, 1): (2, 2, 2, 1, 11),
            (0, 0, 0, 0): (0, 11), (1, 0, 1, 1): (1, 0, 1, 1, 11),
        }
        for (a, b, c, d), shape in wanted.items():
            air = calculate(DATES[:a], [10.0, 20.0][:b], [0, 1][:c], [400, 500][:d], **two)
            found, inner = [], air
            while isinstance(inner, list) or hasattr(inner, "shape") and inner.shape:
                found.append(len(inner))
                inner = inner[0] if len(inner) else None
            if numpy is not None:
                self.assertEqual(air.shape, shape)
            else:
                self.assertEqual(tuple(found), shape[: len(found)])
        self.assertEqual(as_lists(calculate(DATES[0], 10, 0, 400, **two)), as_lists(calculate(DATES[:1], [10], [0], [400], **two)))

    def test_more_than_512_altitudes(self):
        alts = [i * 1000 / 1199 for i in range(1200)]
        air = calculate(DATES[0], 10, 20, alts, 150, 150, 4)
        for m in (0, 511, 512, 1023, 1024, 1199):
            self.assertEqual(bits(air[0][0][0][m]), bits(self.one(DATES[0], 10, 20, alts[m], 150, 150, 4)))

    def test_more_than_one_part(self):
        before, arrays.PART = arrays.PART, 7
        try:
            dates, longs, lats, alts = self.track(20)
            parts = calculate(dates, longs, lats, alts, 150, 150, [list(range(7))] * 20, switches=STORM)
        finally:
            arrays.PART = before
        self.assertEqual(as_lists(parts), as_lists(calculate(dates, longs, lats, alts, 150, 150, [list(range(7))] * 20, switches=STORM)))


class Refused(unittest.TestCase):
    def test_raised_with_its_point(self):
        with self.assertRaises(RefusedPoint) as caught:
            calculate(DATES[:2], [0, 10], [60, 91], [400, 500], 150, 150, 4)
        self.assertEqual((caught.exception.index, caught.exception.number, caught.exception.place), ((1,), 3, 4))
        with self.assertRaisesRegex(Refusal, r"^point 0, 0, 1, 0: g_lat is out of range .* \(refusal 3 at 4\)$"):
            calculate(DATES[:2], [10.0], [60, 91], [400, 500, 600], 150, 150, 4)

    def test_nan_with_its_refusal(self):
        lats, alts = [60, 91, math.nan], [50, 400, -1, 2600, math.inf, 72]
        switches = (1,) * 15 + (0,) + (1,) * 8
        air, answers = calculate(DATES[0], [0, 2000], lats, alts, 150, 150, 4, switches=switches, refused="nan")
        seen = set()
        for j, long in enumerate((0, 2000)):
            for k, lat in enumerate(lats):
                for m, alt in enumerate(alts):
                    found = potirehu.refusal(answers[0][j][k][m])
                    try:
                        wanted = potirehu.gtd7(potirehu.record_at(DATES[0], long, lat, alt, 150, 150, 4), switches)
                    except Refusal as refused:
                        self.assertEqual((found.number, found.place), (refused.number, refused.place))
                        self.assertTrue(all(math.isnan(x) for x in air[0][j][k][m]))
                        seen.add((found.number, found.place))
                    else:
                        self.assertIsNone(found)
                        self.assertEqual(bits(air[0][j][k][m]), bits(wanted))
        self.assertEqual(seen, {(10, 3), (3, 3), (2, 3), (3, 4), (2, 4), (3, 5)})
        air, answers = calculate(DATES * 2, [0] * 6, [0] * 6, [400, -1, 400, math.nan, 400, 400], 150, [150, 150, -1, 150, 150, 150], 4, refused="nan")
        self.assertEqual([potirehu.refusal(a) and potirehu.refusal(a).place for a in answers], [None, 3, 7, 3, None, None])

    def test_inputs_that_do_not_fit(self):
        for words, error, arguments, how in (
            ("f107s and f107as and aps must be given, or weather=", ValueError, (DATES, 0, 0, 400), {}),
            ("aps must be given", ValueError, (DATES, 0, 0, 400, 150, 150), {}),
            ("f107s has 2 numbers, and there are 3 dates", ValueError, (DATES, 0, 0, 400, [150, 150], 150, 4), {}),
            ("aps must be one number for each date, or seven", ValueError, (DATES, 0, 0, 400, 150, 150, [[1, 2]]), {}),
            ("aps has 2 histories, and there are 3 dates", ValueError, (DATES, 0, 0, 400, 150, 150, [[4] * 7] * 2), {}),
            ("'raise' or 'nan'", ValueError, (DATES, 0, 0, 400, 150, 150, 4), {"refused": "no"}),
            ("24", Refusal, (DATES, 0, 0, 400, 150, 150, 4), {"switches": (1,) * 23}),
            ("alts", TypeError, (DATES, 0, 0, ["400"], 150, 150, 4), {}),
            (r"dates\[1\]", ValueError, (["2024-01-01", "x"], 0, 0, 400, 150, 150, 4), {}),
        ):
            self.assertRaisesRegex(error, words, calculate, *arguments, **how)


class WithWeather(unittest.TestCase):
    def quiet(self):
        day = (datetime.date(2024, 1, 1) - datetime.date(1970, 1, 1)).days
        return weather.Weather(
            {day + i: weather.Day(100.0 + i, None, float(i % 50), tuple(float((i * 8 + k) % 400) for k in range(8)), "", i) for i in range(120)}, "made", False, False
        )

    def test_what_is_left_out_is_looked_up(self):
        found = self.quiet()
        dates = [datetime.datetime(2024, 2, 20) + datetime.timedelta(hours=1.7 * i) for i in range(60)]
        for switches in (ON, STORM):
            air = calculate(dates, [10.0] * 60, [20.0] * 60, [400.0] * 60, weather=found, switches=switches)
            grid = calculate(dates, 10.0, 20.0, [300, 400.0], weather=found, switches=switches)
            for i, date in enumerate(dates):
                record = potirehu.record_at(date, 10, 20, 400, weather=found, history=switches is STORM)
                self.assertEqual((record.f107, record.f107a, record.ap), found.at(date)[:3])
                self.assertEqual(record.ap_array, found.at(date).ap_array if switches is STORM else None)
                self.assertEqual(bits(air[i]), bits(potirehu.gtd7(record, switches)))
                self.assertEqual(bits(grid[i][0][0][1]), bits(air[i]))
        own = calculate(dates[0], 10, 20, 400, f107as=99.0, weather=found)
        self.assertEqual(bits(own[0]), bits(potirehu.gtd7(potirehu.record_at(dates[0], 10, 20, 400, f107a=99.0, weather=found))))
        self.assertRaisesRegex(weather.WeatherError, "2023-12-31", calculate, "2024-01-01", 0, 0, 400, f107as=150, weather=found)


class Numpy(unittest.TestCase):
    def setUp(self):
        if numpy is None:
            self.skipTest("numpy is not there (Debian: python3-numpy)")

    def test_arrays_in_give_what_lists_give(self):
        dates = numpy.array(["2024-02-29T23:59:59.250", "2024-12-31T12:00", "2025-01-01"], dtype="datetime64[ms]")
        longs = numpy.array([-180.0, 0.5, 700.0])
        wanted = calculate(DATES, longs.tolist(), [1, 2, 3], [400, 500, 600], 150, 150, 4)
        for unit in ("ms", "us", "ns"):
            for strided in (longs, numpy.repeat(longs, 2)[::2], longs.astype(numpy.float32)):
                found = calculate(dates.astype(f"datetime64[{unit}]"), strided, numpy.array([1, 2, 3]), numpy.array([400, 500, 600], numpy.int16), 150, 150, 4)
                self.assertEqual(found.tobytes(), wanted.tobytes())
        self.assertRaisesRegex(ValueError, r"dates\[1\] is NaT", calculate, numpy.array(["2024-01-01", "NaT"], "M8[s]"), 0, 0, 400, 150, 150, 4)
        self.assertRaisesRegex(ValueError, "2 dimensions", calculate, DATES, [[1.0]], 0, 400, 150, 150, 4)
        self.assertEqual(wanted[:, RowNumber.DENSITY].shape, (3,))

    def test_without_numpy_the_numbers_are_the_same(self):
        script = (
            "import sys; sys.modules['numpy'] = None\n"
            "import test_arrays as t, unittest\n"
            "assert t.numpy is None\n"
            "unittest.main(module=t, argv=['x', 'OneByOne', 'Refused', 'WithWeather'])\n"
        )
        run = subprocess.run([sys.executable, "-B", "-c", script], cwd=HERE, capture_output=True, text=True)
        self.assertEqual(run.returncode, 0, run.stderr)


class Bars(unittest.TestCase):
    def test_a_bar_where_it_is_asked_for(self):
        before, sys.stderr = sys.stderr, io.StringIO()
        try:
            calculate(DATES, 0, 0, [400] * 10, 150, 150, 4, progress=True)
            said = sys.stderr.getvalue()
            sys.stderr = io.StringIO()
            calculate(DATES, 0, 0, [400] * 10, 150, 150, 4)
            calculate(DATES, 0, 0, [400] * 10, 150, 150, 4, progress=False)
            quiet = sys.stderr.getvalue()
        finally:
            sys.stderr = before
        self.assertIn("100", said)
        self.assertEqual(quiet, "")

    def test_a_bar_for_long_runs_by_itself(self):
        class Terminal(io.StringIO):
            def isatty(self):
                return True

        before, long, sys.stderr, arrays.LONG = sys.stderr, arrays.LONG, Terminal(), 20
        try:
            calculate(DATES, 0, 0, [400] * 5, 150, 150, 4)
            short = sys.stderr.getvalue()
            calculate(DATES, 0, 0, [400] * 10, 150, 150, 4)
            said = sys.stderr.getvalue()
        finally:
            sys.stderr, arrays.LONG = before, long
        self.assertEqual(short, "")
        self.assertIn("30", said)


if __name__ == "__main__":
    unittest.main()
