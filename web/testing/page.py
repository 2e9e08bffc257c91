"""The page as the tests see it: what a user does on it, what stands on it, and the records that it is tried with."""
import math
import re
import struct
import time
import urllib.parse

from testing import native

ROOT = native.ROOT
PAGE = ROOT / "target" / "web" / "potirehu.html"
PICTURES = PAGE.parent
FIELDS = ("year", "doy", "sec", "alt", "g_lat", "g_long", "lst", "f107a", "f107", "ap")
ON = [1] * 24
RESTART = [0 if entry in (7, 8, 9, 10, 14) else 1 for entry in range(24)]
SAMPLE = {"doy": "172", "sec": "29000", "alt": "400", "g_lat": "60", "g_long": "-70", "lst": "16", "f107a": "150", "f107": "150", "ap": "4"}
DEFAULT = {"year": "2026", "doy": "172", "sec": "43200", "alt": "400", "g_lat": "45", "g_long": "10", "lst": "", "f107a": "150", "f107": "150", "ap": "4"}
# the numbers of a row as the table has them from left to right
ORDER = (5, 10, 9, 0, 1, 2, 3, 4, 6, 7, 8)
NO_NUMBER = "no number"


def bits(value):
    return "NaN" if math.isnan(value) else struct.pack("<d", value)


def number(text):
    return math.nan if text in (NO_NUMBER, "NaN") else float(text.replace("Infinity", "inf"))


def record_of(texts, history=()):
    lst = texts["lst"] or float(texts["sec"]) / 3600 + float(texts["g_long"]) / 15
    return int(texts["doy"]), [float(texts[name]) if name != "lst" else float(lst) for name in FIELDS[2:]], [float(value) for value in history]


class Page:
    """The page in the browser, with what a user does on it and what stands on it."""

    def __init__(self, browser, library, downloads):
        self.browser, self.native, self.downloads, self.path = browser, library, downloads, PAGE

    def open(self, **words):
        """Opens the page anew, with what its address shall say."""
        fragment = "&".join(f"{key.replace('__', '.')}={urllib.parse.quote(str(value))}" for key, value in words.items())
        self.browser.open("about:blank")
        self.browser.open(self.path.as_uri() + (f"#{fragment}" if fragment else ""))
        self.browser.wait("return performance.getEntriesByName('redraw').length > 0")

    def text(self, selector):
        return self.browser.run("return document.querySelector(arguments[0]).textContent", selector)

    def shown(self, selector):
        return self.browser.run("const one = document.querySelector(arguments[0]); return one.checkVisibility() ? one.textContent : ''", selector)

    def table(self, selector="#table"):
        """The table's lines, cell by cell."""
        script = "return [...document.querySelectorAll(arguments[0] + ' tbody tr')].map((line) => [...line.cells].map((cell) => cell.textContent))"
        return self.browser.run(script, selector)

    def switches(self):
        return self.browser.run("return Array.from({ length: 24 }, (_, k) => Number(document.querySelector(`[name=entry-${k}]:checked`).value))")

    def refused(self, name):
        """The refusal beside a field: (number, place), None where there is none."""
        words = self.shown(f"[id='{name}-refusal']")
        found = re.search(r"\(refusal (\d+) at (\d+)\)$", words)
        if found:
            assert len(words) > 30, words
            invalid = self.browser.run("return document.getElementById(arguments[0]).getAttribute('aria-invalid')", name)
            assert invalid == "true", f"{name} is refused and not marked"
        return (int(found[1]), int(found[2])) if found else words or None

    def grey(self):
        """The fields of the record that are grey."""
        rows = "[...document.querySelectorAll('.row.off')].filter((row) => row.checkVisibility())"
        return self.browser.run(f"return {rows}.map((row) => row.querySelector('input').id)")

    def saved(self, button, name):
        """The text of the file that a button saves."""
        path = self.downloads / name
        path.unlink(missing_ok=True)
        self.browser.click(button)
        end = time.monotonic() + 10
        while not path.exists():
            assert time.monotonic() < end, f"{button} saves no {name}"
            time.sleep(0.05)
        time.sleep(0.1)
        return path.read_text()

    def compare_table(self, record, switches, lines):
        """Every line of the table with all digits against the native one-altitude call, to the bit: how many."""
        for line in lines:
            altitude, density, row, *others = line
            assert [int(word) for word in row.split()] == switches, f"the row beside {altitude}: {row}"
            doy, fields, history = record
            answer, expected = self.native.gtd7((doy, [fields[0], float(altitude), *fields[2:]], history), switches)
            assert answer == (0, 0), (altitude, answer)
            for place, shown in zip(ORDER, [density, *others]):
                assert bits(number(shown)) == bits(expected[place]), f"{record} {switches} at {altitude}: {place} is {shown}, not {expected[place]}"
        return len(lines)
