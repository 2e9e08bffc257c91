"""Tests of examples/profile and examples/bands: names with a quote, lines that end with two bytes, empty input, a reader that has gone, and no word of
gnuplot's."""

import pathlib
import shutil
import subprocess
import tempfile
import unittest
import xml.etree.ElementTree

ROOT = pathlib.Path(__file__).resolve().parents[1]
DESCENT, BANDS = (ROOT / "examples/afternoon.txt").read_bytes(), (ROOT / "examples/bands.txt").read_bytes()


class Pictures(unittest.TestCase):
    def setUp(self):
        folder = tempfile.TemporaryDirectory()
        self.addCleanup(folder.cleanup)
        self.folder = pathlib.Path(folder.name)

    def run_it(self, name, *arguments, shell=""):
        command = ["bash", "-c", f'"$0" "$@" {shell}', str(ROOT / "examples" / name), *map(str, arguments)]
        return subprocess.run(command, capture_output=True, text=True)

    def written(self, data, name="it's a file.txt"):
        path = self.folder / name
        path.write_bytes(data)
        return path

    def texts(self, path):
        return ["".join(one.itertext()) for one in xml.etree.ElementTree.parse(path).iter("{http://www.w3.org/2000/svg}text")]

    def test_they_draw(self):
        for name, data, words in (("profile", DESCENT, "mass density (kg/m^3)"), ("bands", BANDS, "by band / all on")):
            picture = self.folder / f"it's {name}.svg"
            run = self.run_it(name, self.written(data), picture)
            self.assertEqual((run.returncode, run.stderr.count("\n")), (0, 1), run.stderr)
            self.assertIn(f"drawn: {picture}", run.stderr)
            self.assertIn(words, self.texts(picture))
            self.assertGreater(run.stdout.count("\n"), 10)

    def test_as_png(self):
        if not shutil.which("gnuplot"):
            self.skipTest("gnuplot is not there (Debian: gnuplot-nox)")
        for name, data in (("profile", DESCENT), ("bands", BANDS)):
            picture = self.folder / f"it's {name}.png"
            run = self.run_it(name, self.written(data), picture)
            self.assertEqual((run.returncode, run.stderr.count("\n")), (0, 1), run.stderr)
            self.assertTrue(picture.read_bytes().startswith(b"\x89PNG"))

    def test_help(self):
        for name in ("profile", "bands"):
            run = self.run_it(name, "--help")
            self.assertEqual((run.returncode, run.stderr), (0, ""))
            self.assertTrue(run.stdout.startswith(f"{name} ["))
            self.assertEqual(self.run_it(name, "--no").returncode, 2)

    def test_line_ends_of_two_bytes(self):
        run = self.run_it("profile", self.written(DESCENT.replace(b"\n", b"\r\n")), self.folder / "a.svg")
        self.assertEqual((run.returncode, run.stdout), (0, self.run_it("profile", self.written(DESCENT), self.folder / "b.svg").stdout))
        run = self.run_it("bands", self.written(BANDS.replace(b"\n", b"\r\n")), self.folder / "c.svg")
        at = BANDS.index(b"\n")
        self.assertEqual((run.returncode, run.stdout), (1, ""))
        self.assertEqual(run.stderr, f"bands: refused 11 at line 1: it ends with a carriage return, byte {at} of the text; lines end with a newline alone\n")
        self.assertFalse((self.folder / "c.svg").exists())

    def test_empty_input_and_a_last_blank_line(self):
        run = self.run_it("profile", self.written(b""), self.folder / "a.svg")
        self.assertEqual((run.returncode, run.stdout), (2, ""))
        self.assertIn("has no record in it", run.stderr)
        run = self.run_it("bands", self.written(b""), self.folder / "a.svg")
        self.assertEqual((run.returncode, run.stdout, run.stderr), (1, "", "bands: refused 13 at line 1\n"))
        run = self.run_it("bands", self.written(BANDS + b"\n"), self.folder / "a.svg")
        line = BANDS.count(b"\n") + 1
        self.assertEqual((run.returncode, run.stderr), (1, f"bands: refused 11 at line {line}: it is empty, at byte {len(BANDS)} of the text\n"))
        self.assertEqual(list(self.folder.glob("*.svg")), [])

    def test_what_cannot_be_read_or_written(self):
        for name, data in (("profile", DESCENT), ("bands", BANDS)):
            for arguments in (["/nowhere", self.folder / "a.svg"], [self.folder, self.folder / "a.svg"], [self.written(data), "/no/where.svg"],
            [self.written(data), "/no/where.png"]):
                run = self.run_it(name, *arguments)
                self.assertEqual(run.returncode, 2, (name, arguments))
                self.assertNotIn("Traceback", run.stderr)
                self.assertEqual(run.stderr.count("\n"), 1, run.stderr)

    def test_a_reader_that_has_gone(self):
        for name, data in (("profile", DESCENT), ("bands", BANDS)):
            run = self.run_it(name, self.written(data), self.folder / "a.svg", shell="| head -n 1")
            self.assertEqual((run.returncode, run.stdout.count("\n")), (0, 1))
            self.assertNotIn("Traceback", run.stderr)


if __name__ == "__main__":
    unittest.main()
