"""Tests of potirehu.weather and of the dates: each rule held against a second reading of it, on small files made here."""

import csv
import datetime
import io
import pathlib
import random
import sys
import tempfile
import unittest
import warnings

sys.path.insert(0, str(pathlib.Path(__file__).resolve().parent))

import potirehu  # noqa: E402
from potirehu import weather  # noqa: E402
from potirehu.memory import numpy  # noqa: E402
from potirehu.weather import WeatherError, WeatherWarning  # noqa: E402

NAMES = (
    "DATE,BSRN,ND,KP1,KP2,KP3,KP4,KP5,KP6,KP7,KP8,KP_SUM,AP1,AP2,AP3,AP4,AP5,AP6,AP7,AP8,AP_AVG,CP,C9,ISN,F10.7_OBS,F10.7_ADJ,F10.7_DATA_TYPE,"
    "F10.7_OBS_CENTER81,F10.7_OBS_LAST81,F10.7_ADJ_CENTER81,F10.7_ADJ_LAST81"
).split(",")
UTC = datetime.timezone.utc


def made(first, count, seed=1):
    """Days of a file: date, eight 3-hour ap, daily ap, F10.7 observed; all different, so that a wrong day or hour is seen."""
    g = random.Random(seed)
    days = {}
    for i in range(count):
        eight = [g.randrange(0, 401) for _ in range(8)]
        days[first + datetime.timedelta(days=i)] = (eight, g.randrange(0, 401), round(g.uniform(60, 400), 1))
    return days


def csv_of(days, mean=lambda day: 123.4, kind=lambda day: "OBS", change=lambda day, row: row):
    out = io.StringIO()
    writer = csv.writer(out)
    writer.writerow(NAMES)
    for day, (eight, ap, flux) in days.items():
        row = dict.fromkeys(NAMES, "7")
        row.update({"DATE": day.isoformat(), "AP_AVG": ap, "F10.7_OBS": flux, "F10.7_ADJ": flux + 9, "F10.7_DATA_TYPE": kind(day)})
        row.update({f"AP{i + 1}": value for i, value in enumerate(eight)})
        row.update({"F10.7_OBS_CENTER81": mean(day), "F10.7_OBS_LAST81": 1, "F10.7_ADJ_CENTER81": 2, "F10.7_ADJ_LAST81": 3})
        row = change(day, row)
        if row is not None:
            writer.writerow([row[name] for name in NAMES])
    return out.getvalue()


def table_of(days, change=lambda day, line: line):
    lines = ["# PURPOSE: made for a test", "#YYY MM DD  days  days_m  Bsr dB    Kp1    Kp2    Kp3    Kp4    Kp5    Kp6    Kp7    Kp8  ap1  ap2  ap3  ap4  ap5  ap6  ap7  ap8    Ap  SN F10.7obs F10.7adj D"]
    for i, (day, (eight, ap, flux)) in enumerate(days.items()):
        line = f"{day.year:4} {day.month:02} {day.day:02} {i:5} {i + 0.5:7.1f} 2600 12 " + " ".join(f"{3.333:6.3f}" for _ in range(8)) + " "
        line += " ".join(f"{value:4}" for value in eight) + f" {ap:5} {100:3} {flux:8.1f} {flux + 9:8.1f} 2"
        lines.append(change(day, line))
    return "\n".join(line for line in lines if line is not None) + "\n"


class Files(unittest.TestCase):
    def setUp(self):
        folder = tempfile.TemporaryDirectory()
        self.addCleanup(folder.cleanup)
        self.folder = pathlib.Path(folder.name)

    def read(self, text, name="weather.txt", **how):
        path = self.folder / name
        path.write_bytes(text if isinstance(text, bytes) else text.encode())
        return weather.read(path, **how)

    def fails(self, words, day, call, *arguments):
        with self.assertRaises(WeatherError) as caught:
            call(*arguments)
        self.assertIn(words, str(caught.exception))
        self.assertEqual(caught.exception.day, day)
        if day is not None:
            self.assertIn(str(day), str(caught.exception))


class Rules(Files):
    def second_reading(self, days, when):
        """docs/RULES.md, section 1, word by word, on the clock: 'the 3-hour ap now, 3, 6 and 9 hours before; the mean of the eight 3-hour ap from 12 to 33
        hours before; the same from 36 to 57 hours before'."""

        def ap_at(hours_before):
            then = when - datetime.timedelta(hours=hours_before)
            return days[then.date()][0][then.hour // 3]

        def mean(first, last):
            hours = [h for h in range(0, 100, 3) if first <= h <= last]
            assert len(hours) == 8
            return sum(ap_at(h) for h in hours) / 8

        today = when.date()
        before = today - datetime.timedelta(days=1)
        around = [today + datetime.timedelta(days=i) for i in range(-40, 41)]
        history = (days[today][1], ap_at(0), ap_at(3), ap_at(6), ap_at(9), mean(12, 33), mean(36, 57))
        return days[before][2], sum(days[day][2] for day in around) / 81, days[today][1], history

    # midnight, a month's end, New Year after a leap year and after another, a leap day and where there is none
    TIMES = [
        datetime.datetime(*day, hour, minute, second)
        for day in ((2024, 2, 28), (2024, 2, 29), (2024, 3, 1), (2023, 2, 28), (2023, 3, 1), (2023, 12, 31), (2024, 1, 1), (2024, 12, 31), (2025, 1, 1),
        (2024, 7, 1)) for hour, minute, second in ((0, 0, 0), (2, 59, 59), (3, 0, 0), (11, 30, 0), (20, 59, 59), (21, 0, 0), (23, 59, 59))
    ]

    def test_every_rule_by_a_second_reading(self):
        days = made(datetime.date(2022, 11, 1), 1000)
        mean = {day: round(100 + 0.01 * i, 2) for i, day in enumerate(days)}
        by_csv, by_table = self.read(csv_of(days, mean.get)), self.read(table_of(days))
        for when in self.TIMES:
            f107, f107a, ap, history = self.second_reading(days, when)
            for found, wanted in ((by_csv.at(when), mean[when.date()]), (by_table.at(when), f107a)):
                self.assertEqual(found.f107, f107)
                self.assertAlmostEqual(found.f107a, wanted, places=9)
                self.assertEqual((found.ap, found.ap_array), (ap, history))
            self.assertEqual((by_csv.f107(when), by_csv.ap(when), by_csv.history(when)), (f107, ap, history))
        self.assertEqual((by_csv.first, by_csv.last), (min(days), max(days)))

    def test_a_zone_is_taken_to_utc(self):
        found = self.read(csv_of(made(datetime.date(2024, 1, 1), 60)))
        evening = datetime.datetime(2024, 2, 1, 22, tzinfo=datetime.timezone(datetime.timedelta(hours=-5)))
        self.assertEqual(found.at(evening), found.at("2024-02-02T03:00Z"))
        self.assertNotEqual(found.at(evening), found.at("2024-02-02T02:59:59Z"))

    def test_line_ends_order_and_a_mark(self):
        days = made(datetime.date(2024, 1, 1), 100)
        plain, table = self.read(csv_of(days)), self.read(table_of(days))
        when = "2024-02-20T12:00Z"
        self.assertEqual(self.read(b"\xef\xbb\xbf" + csv_of(days).encode()).at(when), plain.at(when))
        self.assertEqual(self.read(table_of(days).replace("\n", "\r\n")).at(when), table.at(when))
        self.assertEqual(self.read(csv_of(dict(reversed(days.items())))).at(when), plain.at(when))


class Missing(Files):
    DAYS = made(datetime.date(2024, 1, 1), 120)
    WHEN = datetime.datetime(2024, 3, 1, 6)

    def csv_with(self, day, **values):
        return self.read(csv_of(self.DAYS, change=lambda one, row: {**row, **values} if one == day else row))

    def test_a_day_that_is_missing(self):
        gone = datetime.date(2024, 2, 28)
        for found in (
            self.read(csv_of(self.DAYS, change=lambda day, row: None if day == gone else row)),
            self.read(table_of(self.DAYS, lambda day, line: None if day == gone else line)),
        ):
            self.fails("not in the file", gone, found.at, "2024-02-29T06:00Z")
            self.fails("not in the file", gone, found.f107, "2024-02-29")
            self.fails("not in the file", gone, found.history, "2024-03-01T06:00Z")
            self.assertEqual(found.ap("2024-02-29"), self.DAYS[datetime.date(2024, 2, 29)][1])
            # 57 hours before 9 h on 2 March is midnight on 29 February
            self.assertEqual(len(found.history("2024-03-02T09:00Z")), 7)
            self.fails("not in the file", gone, found.history, "2024-03-02T08:59:59Z")

    def test_values_that_are_missing(self):
        day, before = self.WHEN.date(), self.WHEN.date() - datetime.timedelta(days=1)
        for blank in ("", " ", "-1", "-1.0"):
            self.fails("F10.7 is missing", before, self.csv_with(before, **{"F10.7_OBS": blank}).at, self.WHEN)
            self.fails("the mean of F10.7 over 81 days is missing", day, self.csv_with(day, **{"F10.7_OBS_CENTER81": blank}).at, self.WHEN)
            self.fails("the daily ap is missing", day, self.csv_with(day, AP_AVG=blank).at, self.WHEN)
            self.fails("the ap from 6 to 9 h is missing", day, self.csv_with(day, AP3=blank).at, self.WHEN)
            self.fails("the ap from 21 to 24 h is missing", before, self.csv_with(before, AP8=blank).at, self.WHEN)
        # what does not count at that time may be missing
        self.csv_with(day, AP4="", **{"F10.7_OBS": ""}).at(self.WHEN)

    def test_the_tables_marks(self):
        old, new = f"{self.DAYS[self.WHEN.date()][2]:8.1f}", f"{-1.0:8.1f}"
        found = self.read(table_of(self.DAYS, lambda day, line: line.replace(old, new, 1) if day == self.WHEN.date() else line))
        for when in (self.WHEN, self.WHEN + datetime.timedelta(days=19), self.WHEN - datetime.timedelta(days=20)):
            self.fails("F10.7, for the mean of the 81 days", self.WHEN.date(), found.f107a, when)
        self.fails("F10.7 is missing", self.WHEN.date(), found.f107, "2024-03-02")
        self.assertGreater(found.f107(self.WHEN), 0)
        whole = self.read(table_of(self.DAYS))
        self.fails("not in the file", datetime.date(2023, 12, 31), whole.f107a, "2024-02-09")
        self.fails("not in the file", datetime.date(2024, 4, 30), whole.f107a, "2024-03-21")
        self.assertGreater(min(whole.f107a("2024-02-10"), whole.f107a("2024-03-20")), 0)
        # a blank shifts the values behind it: the whole day is missing
        cut = self.read(table_of(self.DAYS, lambda day, line: line.replace(" 2600 ", "      ") if day == self.WHEN.date() else line))
        self.fails("the daily ap is missing", self.WHEN.date(), cut.ap, self.WHEN)

    def test_the_ends_of_the_file(self):
        found = self.read(csv_of(self.DAYS))
        self.fails("2024-01-01 to 2024-04-29", datetime.date(2023, 12, 31), found.at, "2024-01-01")
        self.fails("2024-01-01 to 2024-04-29", datetime.date(2024, 5, 1), found.at, "2024-05-02")

    def test_predicted(self):
        start = datetime.date(2024, 3, 1)
        text = csv_of(self.DAYS, kind=lambda day: "PRD" if day >= start else "OBS")
        found, taken = self.read(text), self.read(text, predicted=True)
        self.assertGreater(found.f107("2024-03-01"), 0)
        self.fails("F10.7 is predicted", start, found.f107, "2024-03-02")
        self.fails("the daily ap is predicted", start, found.ap, "2024-03-01")
        self.fails("the ap from 0 to 3 h is predicted", start, found.history, "2024-03-01T02:00Z")
        # a mean of observed days alone, and one with a predicted day among its 81
        last = start - datetime.timedelta(days=41)
        with warnings.catch_warnings():
            warnings.simplefilter("error")
            self.assertEqual(found.f107a(last), 123.4)
        self.fails("in which 1 days from 2024-03-01 on are, is predicted", last + datetime.timedelta(days=1), found.f107a, last + datetime.timedelta(days=1))
        with self.assertWarnsRegex(WeatherWarning, "2024-03-01: F10.7 is predicted") as caught:
            self.assertEqual(taken.f107("2024-03-02"), self.DAYS[start][2])
        self.assertEqual(pathlib.Path(caught.filename).name, "test_weather.py")
        with self.assertWarnsRegex(WeatherWarning, "in which 41 days"):
            taken.f107a(start)
        self.fails("PRM", None, self.read, csv_of(self.DAYS, kind=lambda day: "WHO"))

    def test_interpolated(self):
        day = self.WHEN.date()
        found = self.read(csv_of(self.DAYS, kind=lambda one: "INT" if one == day else "OBS"))
        with self.assertWarnsRegex(WeatherWarning, "2024-03-01: F10.7 is interpolated"):
            found.f107("2024-03-02")
        with warnings.catch_warnings():
            warnings.simplefilter("error")
            found.at(self.WHEN)

    def test_what_is_no_such_file(self):
        for text, words in (
            ("", "no day in it"), ("# nothing\n", "no day in it"), ("hello\n", "no line of the table"), ("a,b\n1,2\n", "DATE"),
            (",".join(NAMES) + "\n", "no day in it"), (",".join(NAMES) + "\n1,2\n", "line 2: 2 values, where the head has 31"),
            (csv_of(self.DAYS).replace("2024-02-30", "x").replace("2024-02-28", "2024-02-30"), "'2024-02-30' is no day"),
            (csv_of(self.DAYS).replace("2024-02-28", "2024-02-27"), "2024-02-27 comes twice"),
            (csv_of(self.DAYS).replace("123.4", "12x", 1), "'12x' is no number"), ("2024 13 01 5\n", "'2024-13-01' is no day"),
        ):
            self.fails(words, None, self.read, text)
        self.assertRaises(FileNotFoundError, weather.read, self.folder / "nowhere")


class Dates(unittest.TestCase):
    def test_every_day_of_five_years(self):
        day = datetime.date(2022, 12, 30)
        while day < datetime.date(2028, 1, 3):
            self.assertEqual(potirehu.clock(day, 0).doy, day.toordinal() - datetime.date(day.year, 1, 1).toordinal() + 1)
            day += datetime.timedelta(days=1)

    def test_forms_of_a_date(self):
        wanted = (321, 21600.5, 6.0 + 0.5 / 3600)
        for date in (
            "2026-11-17T06:00:00.5Z", "2026-11-17 06:00:00.500", " 2026-11-17T06:00:00.500000z", "2026-11-17T08:00:00.5+02:00", "2026-11-17T06:00:00.500000999Z",
            datetime.datetime(2026, 11, 17, 6, 0, 0, 500000), datetime.datetime(2026, 11, 17, 6, 0, 0, 500000, UTC),
        ):
            found = potirehu.clock(date, 0)
            self.assertEqual(found[:2], wanted[:2], date)
            self.assertAlmostEqual(found.lst, wanted[2], places=12)
        self.assertEqual(potirehu.clock("2026-11-17", 0), (321, 0.0, 0.0))
        self.assertEqual(potirehu.clock("1969-12-31T23:59:59Z", 0)[:2], (365, 86399.0))
        for wrong in ("2026-11-31", "yesterday", "", "2026-11-17T25:00Z", "2016-12-31T23:59:60Z", "17.11.2026"):
            self.assertRaisesRegex(ValueError, "is no date such as", potirehu.clock, wrong, 0)
        self.assertRaises(TypeError, potirehu.clock, 20261117, 0)

    def test_local_time_is_wrapped_as_the_rust_wraps_it(self):
        # the Rust's %: what is left has the sign of the dividend
        def rust(sec, g_long):
            def remainder(a, b):
                left = abs(a) - b * (abs(a) // b)
                return left if a >= 0 else -left

            return remainder(remainder(sec / 3600.0 + g_long / 15.0, 24.0) + 24.0, 24.0)

        g = random.Random(3)
        for _ in range(20000):
            sec, g_long = g.uniform(0, 86400), g.uniform(-1000, 1000)
            self.assertEqual(potirehu.local_solar_time(sec, g_long), rust(sec, g_long))
        for sec, g_long, hours in ((0, 0, 0), (86400, 0, 0), (0, -180, 12), (0, -15, 23), (0, 360, 0), (43200, 180, 0), (29000, 700, 6.722222222222222)):
            self.assertAlmostEqual(potirehu.local_solar_time(sec, g_long), hours, places=12)
        self.assertNotEqual(potirehu.local_solar_time(0, float("inf")), potirehu.local_solar_time(0, float("inf")))
        if numpy is not None:
            # arrays give the same bits, within a day's reach and beyond it
            for reach in (180, 359.999, 1000):
                sec = [g.uniform(0, 86400) for _ in range(5000)] + [0, 86400, 43200, 0]
                longs = [g.uniform(-reach, reach) for _ in range(5000)] + [-0.0, 0, 180, -180]
                found = potirehu.local_solar_time(numpy.array(sec), numpy.array(longs))
                self.assertEqual(found.tolist(), [potirehu.local_solar_time(*one) for one in zip(sec, longs)])


if __name__ == "__main__":
    unittest.main()
