"""Tests of the package potirehu as a package: the examples of its docstrings, its annotations, the header's types, and its installation by pip with nothing
fetched."""

import ctypes
import doctest
import importlib
import inspect
import os
import pathlib
import pkgutil
import re
import shutil
import subprocess
import sys
import tempfile
import typing
import unittest

HERE = pathlib.Path(__file__).resolve().parent
ROOT = HERE.parents[1]
sys.path.insert(0, str(HERE))

import potirehu  # noqa: E402
from potirehu import library  # noqa: E402

MODULES = [importlib.import_module(f"potirehu.{found.name}") for found in pkgutil.iter_modules(potirehu.__path__) if found.name != "__main__"]


def public(module):
    """The functions and classes that a module defines, but for those with an underscore."""
    return [one for name, one in vars(module).items() if not name.startswith("_") and callable(one) and getattr(one, "__module__", None) == module.__name__]


class Docstrings(unittest.TestCase):
    def test_examples(self):
        tried = 0
        for module in MODULES:
            result = doctest.testmod(module, verbose=False)
            self.assertEqual(result.failed, 0, module.__name__)
            tried += result.attempted
        self.assertGreater(tried, 60)

    def test_what_users_call_has_an_example(self):
        for name in potirehu.__all__:
            one = getattr(potirehu, name)
            if callable(one):
                with self.subTest(name=name):
                    self.assertIn(">>> ", one.__doc__)
        for name in potirehu.weather.__all__:
            with self.subTest(name=name):
                self.assertIn(">>> ", getattr(potirehu.weather, name).__doc__)

    def test_everything_public_has_words(self):
        for module in MODULES:
            self.assertTrue(module.__doc__)
            for one in public(module):
                with self.subTest(one=f"{module.__name__}.{one.__name__}"):
                    self.assertTrue(one.__doc__)


class Annotations(unittest.TestCase):
    def test_every_argument_and_answer(self):
        looked_at = 0
        for module in MODULES:
            for one in public(module):
                functions = [one] if inspect.isfunction(one) else [f for name, f in vars(one).items() if inspect.isfunction(f) and (name == "__init__" or name[0] != "_")]
                for function in functions:
                    if function.__module__ != module.__name__:
                        continue  # what a named tuple brings
                    with self.subTest(function=f"{module.__name__}.{function.__qualname__}"):
                        wanted = set(inspect.signature(function).parameters) - {"self"} | {"return"}
                        self.assertEqual(wanted, set(typing.get_type_hints(function)) & wanted)
                        looked_at += 1
        self.assertGreater(looked_at, 80)
        self.assertTrue((HERE / "potirehu/py.typed").is_file())


class Header(unittest.TestCase):
    def test_the_types_are_the_headers(self):
        text = re.sub(r"/\*.*?\*/", "", (ROOT / "include/potirehu.h").read_text(encoding="utf-8"), flags=re.S)
        kinds = {"int32_t": ctypes.c_int32, "uint32_t": ctypes.c_uint32, "int64_t": ctypes.c_int64, "uint64_t": ctypes.c_uint64, "double": ctypes.c_double}
        declared = {}
        for name, arguments in re.findall(r"uint64_t potirehu_(\w+)\(([^)]*)\);", text):
            words = [one.strip() for one in arguments.split(",")]
            declared[name] = tuple(ctypes.c_void_p if "*" in one else kinds[one.split()[0]] for one in words)
        self.assertEqual(declared, library.ARGUMENTS)
        for name, value in (("STATION_WHOLE", library.STATION_WHOLE), ("STATION_NUMBERS", library.STATION_NUMBERS), ("BANDS", library.BANDS)):
            self.assertIn(f"#define POTIREHU_{name} {value}\n", text)


class Installation(unittest.TestCase):
    """In an environment of its own, with an index that is not there."""

    def run_in(self, *command, **how):
        env = {**os.environ, "PIP_NO_INDEX": "1", "PIP_DISABLE_PIP_VERSION_CHECK": "1", **how.pop("env", {})}
        env.pop("POTIREHU_SO", None)
        env.pop("PYTHONPATH", None)
        return subprocess.run([str(one) for one in command], capture_output=True, text=True, env=env, **how)

    def setUp(self):
        folder = tempfile.TemporaryDirectory()
        self.addCleanup(folder.cleanup)
        self.folder = pathlib.Path(folder.name)

    def test_pip_install(self):
        python = self.folder / "own/bin/python"
        made = self.run_in(sys.executable, "-m", "venv", self.folder / "own")
        if made.returncode:
            self.skipTest("'python3 -m venv' does not work here (Debian: python3-venv)")
        done = self.run_in(python, "-m", "pip", "install", HERE)
        self.assertEqual(done.returncode, 0, done.stderr)
        asked = self.run_in(python, "-c", "import potirehu, pathlib; print(potirehu.library.path().parent == pathlib.Path(potirehu.__file__).parent)", cwd="/")
        self.assertEqual((asked.stdout, asked.stderr), ("True\n", ""))
        record = "172 75600 400 60 -75 16 150 150 4"
        programs = [[python, "-m", "potirehu"], [self.folder / "own/bin/potirehu"], [ROOT / "density"]]
        answers = {self.run_in(*program, input=record, cwd="/").stdout for program in programs}
        self.assertEqual(len(answers), 1)
        self.assertIn("e-12", answers.pop())
        self.assertEqual(self.run_in(python, "-m", "pip", "uninstall", "-y", "potirehu").returncode, 0)

    def test_an_archive_that_is_missing_or_old_is_said(self):
        copied = self.folder / "copied"
        (copied / "bindings").mkdir(parents=True)
        (copied / "crates").mkdir()
        (copied / "crates.txt").write_text("")
        source = copied / "crates/one.rt"
        source.write_text("")
        shutil.copytree(HERE, copied / "bindings/python", ignore=shutil.ignore_patterns("__pycache__"))
        build = copied / "bindings/python/build"
        missing = self.run_in(build)
        self.assertEqual((missing.returncode, missing.stderr), (2, "build: target/staticlib/libpotirehu.a is missing: run 'scripts/staticlib potirehu' first.\n"))
        archive = copied / "target/staticlib/libpotirehu.a"
        archive.parent.mkdir(parents=True)
        shutil.copyfile(ROOT / "target/staticlib/libpotirehu.a", archive)
        os.utime(archive, (1, 1))
        old = self.run_in(build)
        self.assertEqual((old.returncode, old.stderr.count("\n")), (2, 1))
        self.assertRegex(old.stderr, "is older than crates.*: run 'scripts/staticlib potirehu' first")
        self.assertFalse((copied / "target/python/libpotirehu.so").exists())
        installed = self.run_in(sys.executable, "-m", "pip", "install", "--target", self.folder / "there", copied / "bindings/python")
        self.assertNotEqual(installed.returncode, 0)
        if "No module named pip" not in installed.stderr:
            self.assertIn("run 'scripts/staticlib potirehu' first", installed.stdout + installed.stderr)


if __name__ == "__main__":
    unittest.main(warnings="ignore")
