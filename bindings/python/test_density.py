"""Tests of ./density: options that shift no field, dates and space weather, what it reads and writes, and one sentence where it cannot."""

import array
import csv
import datetime
import io
import json
import math
import os
import pathlib
import random
import shutil
import subprocess
import sys
import tempfile
import unittest
import xml.etree.ElementTree

ROOT = pathlib.Path(__file__).resolve().parents[2]
sys.path.insert(0, str(ROOT / "bindings/python"))

import potirehu  # noqa: E402
from potirehu import plain  # noqa: E402
from test_weather import csv_of, made  # noqa: E402

# 21 hours, and 75 degrees west are 5: local time is what date and longitude give
FIRST = {"doy": "172", "sec": "75600", "alt": "400", "lat": "60", "long": "-75", "lst": "16", "f107a": "150", "f107": "150", "ap": "4"}
DENSITY = potirehu.gtd7(doy=172, sec=75600, alt=400, g_lat=60, g_long=-75, lst=16, f107a=150, f107=150, ap=4).density
LINE = " ".join(FIRST.values())
WITH_LIBRARY = {**os.environ, "POTIREHU_SO": os.environ.get("POTIREHU_SO") or str(ROOT / "target/python/libpotirehu.so")}


def options(**fields):
    return [f"--{name}={value}" for name, value in {**FIRST, **fields}.items() if value is not None]


def density(*arguments, shell="", **how):
    """What ./density gives, run by a shell that may redirect what it reads and writes."""
    command = ["bash", "-c", f'"$0" "$@" {shell}', str(ROOT / "density"), *arguments]
    return subprocess.run(command, env=WITH_LIBRARY, capture_output=True, text=True, **how)


class Options(unittest.TestCase):
    def test_a_record_by_its_fields_is_the_line(self):
        by_fields, by_line = density(*options()), density(input=LINE)
        self.assertEqual((by_fields.returncode, by_fields.stdout, by_fields.stderr), (0, by_line.stdout, ""))
        self.assertIn(f" {DENSITY:.6e} ", by_fields.stdout)
        self.assertEqual(density(*options(), "--history", "4, 4 4 4 4 4,4").stdout, density(input=LINE + " 4" * 7).stdout)

    def refused(self, words, *arguments):
        run = density(*arguments)
        self.assertEqual((run.returncode, run.stdout), (2, ""), arguments)
        self.assertEqual(run.stderr.count("\n"), 1, run.stderr)
        self.assertIn(words, run.stderr)

    def test_a_value_is_one_number(self):
        for name in FIRST:
            self.refused(f"--{name} wants 1 number, and there are 2.", *options(**{name: "1 2"}))
        for name, value in (("ap", ""), ("alt", "  "), ("doy", "")):
            self.refused(f"--{name} wants 1 number, and there are 0.", *options(**{name: value}))
        self.refused("--ap wants 1 number", *options(ap=""), "--history", "4")
        self.refused("--sec wants 1 number", *options(sec="29000 400", alt="400"))
        self.refused("--long wants 1 number", *options(long="", lst=None))
        self.refused("--lat wants 1 number, and there are 2", *options(lat=None), "--lat", "-70,5")
        self.refused("--doy wants 1 number, and there are 2", *options(doy="172 29000", sec=None))
        self.refused("a # begins a comment", *options(ap="4#5"))
        for value, count in (("", 0), ("4", 1), ("4 " * 8, 8)):
            self.refused(f"--history wants 7 numbers, and there are {count}.", *options(), "--history", value)

    def test_two_dashes_are_no_value(self):
        for name in ("doy", "ap", "history", "switches"):
            self.refused(f"--{name} wants a value", *options(), f"--{name}=--")

    def test_a_word_that_is_no_number(self):
        run = density(*options(ap="four"))
        self.assertEqual((run.returncode, run.stderr), (1, ""))
        self.assertIn("no record: 'four' is no number", run.stdout)
        self.assertEqual(density(b"--ap=\xff", *options(ap=None)).returncode, 1)
        self.assertIn("'1_0' is no number", density(*options(ap="1_0")).stdout)

    def test_local_time_is_wrapped(self):
        run = density(*options(long="700", lst=None))
        self.assertEqual(run.returncode, 0)
        self.assertIn(repr(potirehu.local_solar_time(75600, 700)), run.stdout)
        self.assertNotIn("out of range", density(*options(long="-1000", lst=None)).stdout)

    def test_altitudes_from_to_in_steps(self):
        rows = table(density(*options(alt="100:1000:50")).stdout)
        self.assertEqual([row[2] for row in rows], [str(alt) for alt in range(100, 1001, 50)])
        self.assertEqual([row[2] for row in table(density(*options(alt="100.5:100:-0.2")).stdout)], ["100.5", "100.3", "100.1"])
        for wrong in ("100:200", "100:200:0", "1:2:3:4", "a:b:c", "::", "100:nan:1", "200:100:10", "0:1e9:1e-3"):
            self.assertEqual(density(*options(alt=wrong)).returncode, 2, wrong)

    def test_a_date(self):
        at = ["--at=2026-06-21T21:00Z", *options(doy=None, sec=None, lst=None)]
        self.assertEqual(density(*at).stdout, density(*options()).stdout)
        self.refused("--at and --sec are both given", *at, "--sec=3")
        self.refused("'noon' is no date such as 2026-11-17T06:00Z", "--at=noon", *options(doy=None, sec=None, lst=None))
        self.refused("the record lacks --f107a, --f107, --ap", *at[:1], "--alt=400", "--lat=60", "--long=-75")


# the published sample, whose local time is not that of its second and longitude
SAMPLE = {"doy": "172", "sec": "29000", "alt": "400", "lat": "60", "long": "-70", "lst": "16", "f107a": "150", "f107": "150", "ap": "4"}


class PublishedSample(unittest.TestCase):
    refused = Options.refused

    def options(self, **fields):
        return options(**{**SAMPLE, **fields})

    def test_a_record_by_its_fields_is_the_line(self):
        line = " ".join(SAMPLE.values())
        by_fields, by_line = density(*self.options()), density(input=line)
        self.assertEqual((by_fields.returncode, by_fields.stdout), (0, by_line.stdout))
        self.assertEqual(by_fields.stderr, "density: lst 16, where sec and long give 3.39: more than an hour apart\n")
        self.assertIn("4.074714e-12", by_fields.stdout)
        self.assertEqual(density(*self.options(), "--history", "4, 4 4 4 4 4,4").stdout, density(input=line + " 4" * 7).stdout)

    def test_a_value_is_one_number(self):
        for name in SAMPLE:
            for value, count in (("", 0), ("  ", 0), ("1 2", 2)):
                self.refused(f"--{name} wants 1 number, and there are {count}.", *self.options(**{name: value}))
        self.refused("--sec wants 1 number", *self.options(sec="29000 400", alt=""))

    def test_two_dashes_are_no_value(self):
        for name in (*SAMPLE, "history", "switches"):
            self.refused(f"--{name} wants a value", *self.options(), f"--{name}=--")

    def test_a_word_that_is_no_number(self):
        run = density(*self.options(ap="four"))
        self.assertEqual(run.returncode, 1)
        self.assertIn("no record: 'four' is no number", run.stdout)
        self.assertEqual(density(b"--ap=\xff", *self.options(ap=None)).returncode, 1)


def table(text):
    """The words of a table's rows, without its head."""
    return [line.split() for line in text.splitlines()[1:]]


class Weather(unittest.TestCase):
    DAYS = made(datetime.date(2026, 1, 1), 200)

    def setUp(self):
        folder = tempfile.TemporaryDirectory()
        self.addCleanup(folder.cleanup)
        self.folder = pathlib.Path(folder.name)
        self.file = self.folder / "weather.csv"
        self.file.write_text(csv_of(self.DAYS))
        self.at = ["--at=2026-03-05T06:00Z", "--alt=400", "--lat=60", "--long=-75", "--weather", str(self.file)]

    def test_a_date_a_place_and_a_file(self):
        run = density(*self.at, "--json")
        self.assertEqual((run.returncode, run.stderr), (0, ""))
        found, wanted = json.loads(run.stdout), potirehu.weather.read(self.file)
        self.assertEqual((found["f107"], found["f107a"], found["ap"], found["history"]), (*wanted.at("2026-03-05T06:00Z")[:3], None))
        self.assertEqual(found["density"], potirehu.calculate("2026-03-05T06:00Z", -75, 60, 400, weather=wanted)[0][5])
        history = json.loads(density(*self.at, "--json", "--history", "weather").stdout)
        self.assertEqual((tuple(history["history"]), history["switches"][9]), (wanted.history("2026-03-05T06:00Z"), -1))
        storm = " ".join(["1"] * 9 + ["-1"] + ["1"] * 14)
        self.assertEqual(json.loads(density(*self.at, "--json", "--switches", storm).stdout), history)
        own = json.loads(density(*self.at, "--json", "--f107=99").stdout)
        self.assertEqual((own["f107"], own["f107a"]), (99, found["f107a"]))

    def test_what_the_file_does_not_tell(self):
        for arguments, words in (
            (["--at=2027-01-01T00:00Z", *self.at[1:]], "2027-01-01: the mean of F10.7 over 81 days is wanted of this day, and it is not in the file"),
            ([*self.at[:-1], "/nowhere"], "/nowhere: No such file or directory."), ([*self.at[:-1], str(ROOT / "README.md")], "README.md, line"),
            ([*self.at[:-2], "--history", "weather", "--f107=150", "--f107a=150", "--ap=4"], "--history weather wants a file, --weather FILE."),
        ):
            run = density(*arguments)
            self.assertEqual((run.returncode, run.stdout, run.stderr.count("\n")), (2, "", 1), run.stderr)
            self.assertIn(words, run.stderr)
        run = density(*options(), "--weather", str(self.file))
        self.assertEqual(run.returncode, 0)
        self.assertIn("--weather is given, and nothing was asked of it", run.stderr)

    def test_predicted_values_are_said(self):
        self.file.write_text(csv_of(self.DAYS, kind=lambda day: "PRD"))
        run = density(*self.at)
        self.assertEqual(run.returncode, 2)
        self.assertIn("is predicted, weather.csv, line", run.stderr)
        self.assertIn("--predicted takes it", run.stderr)
        taken = density(*self.at, "--predicted")
        self.assertEqual((taken.returncode, taken.stderr.count("is predicted")), (0, 3))


class Records(unittest.TestCase):
    """What is read and written; by text.c and by Python alone."""

    def setUp(self):
        folder = tempfile.TemporaryDirectory()
        self.addCleanup(folder.cleanup)
        self.folder = pathlib.Path(folder.name)

    def written(self, text, name="records.txt"):
        path = self.folder / name
        path.write_bytes(text if isinstance(text, bytes) else text.encode())
        return str(path)

    def random_text(self, n=3000, seed=1):
        g = random.Random(seed)
        lines = []
        for i in range(n):
            sec, long = round(g.uniform(0, 86400), g.randrange(4)), g.uniform(-180, 180)
            words = [str(g.randrange(1, 367)), str(sec), f"{g.uniform(0, 1000):.{g.randrange(1, 18)}g}", f"{g.uniform(-90, 90):.3f}", repr(long)]
            words += [repr(potirehu.local_solar_time(sec, long)), f"{g.uniform(60, 300):.1f}", f"{g.uniform(60, 300):e}", str(g.randrange(400))]
            if g.random() < 0.2:
                words += [str(g.randrange(401)) for _ in range(7)]
            kind = g.random()
            if kind < 0.02:
                words[g.randrange(len(words))] = g.choice(["x", "-", "nan", "inf", "1e5", "-5", "1_0", "1e999", "0x10", "\u0661", ".", "5.", "+.5e+1"])
            elif kind < 0.04:
                words = words[: g.randrange(len(words))]
            line = g.choice([" ", ", ", ",", "\t", "  "]).join(words)
            lines.append(line + g.choice(["", "", "", " # a word", "\r", " "]) if kind > 0.05 else g.choice(["", "#", "  # " + line, line]))
        return "\n".join(lines) + g.choice(["", "\n"])

    def test_text_c_and_python_alone_give_the_same(self):
        self.assertTrue(plain.CALLS, "bindings/python/build links text.c")
        alone = self.folder / "alone.so"
        made = subprocess.run(
            ["gcc", "-shared", "-o", alone, "-Wl,--whole-archive", ROOT / "target/staticlib/libpotirehu.a", "-Wl,--no-whole-archive"], capture_output=True, text=True
        )
        self.assertEqual(made.returncode, 0, made.stderr)
        for seed, options in ((1, ([], ["--json"], ["--switches", "0 " + "1 " * 23])), (2, ([], ["--drag"], ["--csv"], ["--species"]))):
            file = self.written(self.random_text(seed=seed))
            for more in options:
                both = density(file, *more)
                other = subprocess.run([ROOT / "density", file, *more], env={**os.environ, "POTIREHU_SO": str(alone)}, capture_output=True, text=True)
                self.assertEqual(both.returncode, 1)
                self.assertEqual((both.stdout, both.stderr), (other.stdout, other.stderr))
                self.assertGreater(both.stdout.count("\n"), 2500)

    def test_numbers_are_written_as_python_writes_them(self):
        g = random.Random(7)
        values = [0.0, 5e-324, 1e-25, 9.9999995e-13, 9.99999949e-13, 1.0, 9.9999995, 1e6, 1e300, math.inf, -math.inf, math.nan, -1.5e-12, 2.5, 0.125, 1250.545, 1e8]
        values += [g.uniform(1, 10) * 10.0 ** g.randrange(-30, 8) for _ in range(20000)] + [(2 * g.randrange(500000, 5000000) + 1) / 2 / 10**6 * 10.0**-g.randrange(20) for _ in range(5000)]
        temperatures = [g.uniform(100, 3000) for _ in values[:-5000]] + [g.randrange(10000, 300000) / 100 + 0.005 for _ in range(5000)]
        temperatures[:9] = [0.0, -0.0, -5.5, math.nan, math.inf, 1e9, 999999999.995, 1e300, 0.005]
        n = len(values)
        rows = array.array("d", bytes(88 * n))
        rows[5::11], rows[9::11], rows[10::11] = array.array("d", values), array.array("d", temperatures), array.array("d", reversed(temperatures))
        words = plain.Words(b"1", array.array("I", bytes(36 * n)), array.array("B", [1]) * (9 * n), 9)
        before, sys.stdout = sys.stdout, io.StringIO()
        try:
            self.assertEqual(plain.write(words, array.array("Q", bytes(8 * n)), rows, 0, [1] * 9, b" b", b" a"), n)
            found = sys.stdout.getvalue().splitlines()
        finally:
            sys.stdout = before
        wanted = ["1 1 1 1 1 1 1 1 1 %16.6e %9.2f %9.2f b a" % three for three in zip(values, temperatures, reversed(temperatures))]
        self.assertEqual(found, wanted)

    def test_numbers_are_read_as_python_reads_them(self):
        g = random.Random(8)
        texts = ["0", "-0", "+5", "5.", ".5", "-.5e-3", "1e22", "1e23", "123456789012345", "1234567890123456789", "9007199254740993", "1e-22", "1e-23", "0e99999"]
        texts += [f"{g.choice(['', '-', '+'])}{g.randrange(10**g.randrange(1, 20))}.{g.randrange(10**g.randrange(1, 20)):0{g.randrange(1, 12)}}" for _ in range(5000)]
        texts += [f"{g.uniform(1, 10):.{g.randrange(18)}f}{g.choice('eE')}{g.randrange(-300, 300)}" for _ in range(5000)]
        for start in range(0, len(texts) - 7, 8):
            eight = texts[start : start + 8]
            words, _, days, fields, _, _, _ = plain.read(("172 " + " ".join(eight) + "\n").encode(), 9)
            self.assertEqual((len(words), list(map(repr, fields))), (1, [repr(float(one)) for one in eight]), eight)

    def test_the_examples(self):
        run = density(str(ROOT / "examples/afternoon.txt"))
        self.assertEqual((run.returncode, run.stderr), (0, ""))
        run = density(str(ROOT / "examples/refused.txt"))
        self.assertEqual((run.returncode, run.stdout.count("refused: "), run.stderr.count("have they changed places?")), (1, 2, 1))

    def test_commas_a_mark_and_line_ends(self):
        wanted = density(input=LINE).stdout
        for text in (LINE.replace(" ", ","), LINE.replace(" ", ", "), "\ufeff" + LINE, LINE + "\r\n\r\n", "# head\n\n" + LINE, " ".join(FIRST) + "\n" + LINE, "\t" + LINE + " # end"):
            run = density(input=text)
            self.assertEqual((run.returncode, run.stdout, run.stderr), (0, wanted, ""), text)

    def test_what_is_no_record_is_named(self):
        file = self.written(f"# records\n{LINE}\n1 2 3\n\n{LINE.replace(' 60 ', ' x ')}\n{LINE.replace(' 60 ', ',,')}\n172.5{LINE[3:]}\n")
        run = density(file)
        self.assertEqual(run.returncode, 1)
        for words in (
            f"{file}:3: no record: 9 numbers are wanted, or 16 with a history, and there are 3: 1 2 3\n", f"{file}:5: no record: 'x' is no number: ",
            f"{file}:6: no record: a number is lacking between two commas: ", f"{file}:7: no record: doy '172.5' is no whole number: ",
        ):
            self.assertIn(words, run.stdout)
        self.assertIn("standard input:1: no record", density(input="hello").stdout)

    def test_no_record_at_all(self):
        for text in ("", "\n\n", "# nothing\n", "\ufeff"):
            file = self.written(text)
            run = density(file)
            self.assertEqual((run.returncode, run.stdout, run.stderr), (1, "", f"density: {file} has no record in it\n"))
        self.assertEqual(density(input="").stderr, "density: standard input has no record in it\n")

    def test_a_table_saved_can_be_made_again(self):
        file = self.written(f"{LINE}\n{LINE} 100 90 80 70 60 50 40\n{LINE.replace(' 400 ', ' 2600 ')}\n{LINE.replace('75600', '-')}\n")
        for more in ([], ["--switches", "0 " + "1 " * 23], ["--switches", " ".join("1" * 10 + "0" + "1" * 13)]):
            saved = density(file, "--csv", *more).stdout
            self.assertEqual(density(self.written(saved, "saved.csv"), "--csv").stdout, saved)
        drag = density(self.written(f"{LINE}\n{LINE} 100 90 80 70 60 50 40\n"), "--csv", "--drag").stdout
        self.assertEqual(density(self.written(drag, "saved.csv"), "--csv").stdout, drag)
        rows = list(csv.DictReader(io.StringIO(drag)))
        self.assertEqual((rows[1]["history"], rows[1]["drag"], rows[1]["switches"].split()[9]), ("100 90 80 70 60 50 40", "yes", "-1"))
        # the same out of the table for people
        shown = density(file, "--drag").stdout.splitlines()
        self.assertIn("all on but 9 at -1; for drag; history 100 90 80 70 60 50 40; does not count: ap", shown[2])
        self.assertEqual(shown[1].split()[:9], LINE.split())
        self.assertEqual(density(input=" ".join(shown[1].split()[:9])).stdout.splitlines()[1].split()[9:12], density(file).stdout.splitlines()[1].split()[9:12])

    def test_values_by_name(self):
        weather = self.written(csv_of(Weather.DAYS), "weather.csv")
        file = self.written("at,lat,long,alt,remark\n2026-03-05T06:00Z,60,-75,400,one\n2026-03-05T07:00Z,60,-75,500,two\nnoon,1,2,3,x\n2026-03-05,1,2\n")
        run = density(file, "--weather", weather, "--json")
        self.assertEqual(run.returncode, 1)
        rows = [json.loads(line) for line in run.stdout.splitlines()]
        self.assertEqual(rows[1]["density"], potirehu.calculate("2026-03-05T07:00Z", -75, 60, 500, weather=potirehu.weather.read(weather))[0][5])
        self.assertIn("is no date", rows[2]["no_record"])
        self.assertEqual((rows[3]["no_record"], rows[3]["where"]), ("5 values are wanted, and there are 3", f"{file}:5"))
        self.assertIn("a line of names that is not understood", density(self.written("doy sec s alt km\n1 2 3\n")).stderr)

    def test_json_is_one_line_a_record(self):
        file = self.written(f"{LINE}\n{LINE.replace(' 400 ', ' 2600 ')}\n{LINE.replace(' 400 ', ' 32.5 ')}\nx\n{LINE} 1 2 3 4 5 6 7\n")
        rows = [json.loads(line) for line in density(file, "--json").stdout.splitlines()]
        self.assertEqual([rows[0][name] for name in FIRST], [float(value) for value in FIRST.values()])
        self.assertEqual(rows[0]["density"], DENSITY)
        self.assertEqual(rows[1]["refused"], {"number": 3, "place": 3, "words": "alt is out of range (0 to 2,500 km)"})
        self.assertEqual((rows[2]["density"], rows[2]["temperature_exo"] > 0), (None, True))
        self.assertEqual(rows[3], {"no_record": "9 numbers are wanted, or 16 with a history, and there are 1", "where": f"{file}:4", "text": "x"})
        self.assertEqual((rows[4]["history"], rows[4]["does_not_count"]), ([1, 2, 3, 4, 5, 6, 7], ["ap"]))

    def test_a_pipe_is_answered_line_by_line(self):
        with subprocess.Popen([ROOT / "density"], env=WITH_LIBRARY, stdin=subprocess.PIPE, stdout=subprocess.PIPE, text=True) as running:
            for _ in range(3):
                running.stdin.write(LINE + "\n")
                running.stdin.flush()
                while DENSITY and f"{DENSITY:.6e}" not in running.stdout.readline():
                    pass
            running.stdin.close()
            self.assertEqual(running.wait(), 0)


class Remarks(unittest.TestCase):
    def said(self, text, *more):
        run = density(*more, input=text)
        return run.returncode, [line for line in run.stderr.splitlines()]

    def test_what_looks_like_a_mistake(self):
        off = LINE.replace(" 16 ", " 4 ")
        for text, words in (
            (off, "density: standard input:1: lst 4, where sec and long give 16.00: more than an hour apart"),
            (f"{LINE}\n{off}\n{off}", "density: standard input:2: lst 4, where sec and long give 16.00: more than an hour apart (and so in 1 record more)"),
            ("172 75600 400 60 -75 16 4 4 150", "density: standard input:1: f107a 4, f107 4 and ap 150: has ap changed places with a flux?"),
            ("172 75600 150 60 -75 16 400 150 4", "density: standard input:1: f107a 400 and f107 150: more than was ever measured; have fields changed places?"),
            ("172 75600 400 60 -75 16 0 0 4", "density: standard input:1: f107a 0 and f107 0: less than was ever measured; 0 does not mean 'not known'"),
            ("172 75600 400 -135 60 1 150 150 4", "density: standard input:1: lat -135 and long 60: have they changed places?"),
            ("75600 172 400 60 -75 19.05 150 150 4", "density: standard input:1: doy 75600 and sec 172: have they changed places?"),
        ):
            self.assertEqual(self.said(text)[1], [words])
        for fine in (LINE, LINE.replace(" 16 ", " 16.9 "), LINE.replace(" 16 ", " -8 "), LINE.replace(" 16 ", " 40 ")):
            self.assertEqual(self.said(fine), (0, []))
        # nothing of what does not count
        self.assertEqual(self.said(off, "--switches", " ".join("1111111001111101111111" + "11"))[1], [])
        self.assertEqual(self.said(LINE.replace("150 150", "0 0"), "--switches", "1 0 " + "1 " * 22)[1], [])

    def test_a_history_that_does_not_count(self):
        status, said = self.said(LINE + " 4" * 7, "--switches", "1 " * 24)
        self.assertEqual((status, said), (0, ["density: standard input:1: a magnetic history is given, and does not count: entry 9 of the switches is not -1"]))
        self.assertEqual(self.said(LINE + " 4" * 7), (0, []))


class Pictures(unittest.TestCase):
    def setUp(self):
        folder = tempfile.TemporaryDirectory()
        self.addCleanup(folder.cleanup)
        self.folder = pathlib.Path(folder.name)

    def drawn(self, *arguments, name="it's a 'picture'.svg", **how):
        path = self.folder / name
        run = density(*arguments, "--plot", str(path), **how)
        return run, path

    def texts(self, path):
        tree = xml.etree.ElementTree.parse(path)
        return ["".join(one.itertext()) for one in tree.iter("{http://www.w3.org/2000/svg}text")], len(list(tree.iter("{http://www.w3.org/2000/svg}polyline")))

    def test_units_and_curves(self):
        run, path = self.drawn(*options(alt="100:500:100"))
        self.assertEqual((run.returncode, run.stderr), (0, f"density: drawn: {path}\n"))
        texts, lines = self.texts(path)
        self.assertIn("mass density (kg/m^3)", texts)
        self.assertIn("NRLMSISE-00, switches all on", texts)
        self.assertEqual(lines, 2)
        run, path = self.drawn(*options(alt="100:500:100"), "--switches", "0 " + "1 " * 23, "--drag")
        self.assertIn("mass density for drag (g/cm^3)", self.texts(path)[0])
        # two places are two curves, each with what tells it from the other; a NaN breaks a curve
        two = "\n".join(LINE.replace(" 400 ", f" {alt} ").replace(" 60 ", f" {lat} ") for lat in (60, -60) for alt in (20, 30, 32.5, 40, 50))
        run, path = self.drawn(input=two)
        texts, lines = self.texts(path)
        self.assertIn("lat 60", texts)
        self.assertIn("lat -60", texts)
        self.assertEqual(lines, 8)
        self.assertIn("density: left out of the picture: 2 refused or without a number", run.stderr)

    def test_png(self):
        if not shutil.which("gnuplot"):
            self.skipTest("gnuplot is not there (Debian: gnuplot-nox)")
        run, path = self.drawn(*options(alt="100:500:100"), name="it's one.PNG")
        self.assertEqual((run.returncode, run.stderr), (0, f"density: drawn: {path}\n"))
        self.assertTrue(path.read_bytes().startswith(b"\x89PNG"))
        self.assertGreater(path.stat().st_size, 5000)

    def test_what_cannot_be_drawn(self):
        for words, arguments, name in (
            ("nothing to draw", options(alt="2600"), "a.svg"), ("ends with .svg or .png", options(), "a.pdf"), ("No such file", options(), "no/where/a.svg"),
        ):
            run, path = self.drawn(*arguments, name=name)
            self.assertEqual((run.returncode, run.stderr.count("\n")), (2, 1), run.stderr)
            self.assertIn(words, run.stderr)
            self.assertFalse(path.exists())


class Files(unittest.TestCase):
    def ends(self, words, *arguments, shell):
        run = density(*arguments, shell=shell)
        self.assertEqual((run.returncode, run.stderr.count("\n")), (2, 1), run.stderr)
        self.assertIn(words, run.stderr)

    def test_output_that_cannot_be_written(self):
        self.ends("standard output is closed", *options(), shell=">&-")
        self.ends("standard output is closed", "--help", shell=">&-")
        self.ends("cannot be written: No space left", *options(), shell=">/dev/full")

    def test_nobody_can_be_told(self):
        for shell in (">/dev/full 2>/dev/full", ">&- 2>&-"):
            run = density(*options(), shell=shell)
            self.assertEqual((run.returncode, run.stdout, run.stderr), (2, "", ""))

    def test_a_reader_that_has_gone(self):
        run = density("-", shell="| true", input=LINE)
        self.assertEqual((run.returncode, run.stderr), (0, ""))

    def test_input_that_cannot_be_read(self):
        self.ends("standard input is closed", shell="<&-")
        self.ends("/: Is a directory", "/", shell="")
        self.ends("/nowhere: No such file", "/nowhere", shell="")
        self.assertEqual(density(*options(), shell="<&-").returncode, 0)


if __name__ == "__main__":
    unittest.main()
