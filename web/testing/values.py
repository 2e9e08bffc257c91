"""Tests of what the page works out: every number against the native archive."""
import base64
import csv
import math
import random
import re
import struct
import xml.dom.minidom

from testing import native
from testing.page import DEFAULT, FIELDS, NO_NUMBER, ON, PAGE, PICTURES, RESTART, ROOT, SAMPLE, bits, number, record_of


def typed_record(page):
    """The published sample, typed key by key, gives the density of examples/column.c and the native row."""
    page.open(digits="all", **{"from": 400, "to": 500, "step": 100})
    for name, text in SAMPLE.items():
        page.browser.type(f"#{name}", text)
    record = record_of(SAMPLE)
    page.compare_table(record, ON, page.table())
    assert page.table()[0][1].startswith("4.0747135"), page.table()[0]
    assert "4.075" in page.text(".readout dd"), page.text(".readout dd")
    assert page.table()[0][1][:9] in (ROOT / "examples" / "expected" / "column.txt").read_text()
    return f"density at 400 km {page.table()[0][1]}"


def thousand_rows(page):
    """Random records and rows of switches: every number of the table, with all digits, against the native archive by its bits."""
    draw = random.Random(46)
    rows = 0
    numbers = 0
    while rows < 1000:
        texts = {
            "doy": str(draw.randint(1, 366)), "sec": repr(draw.uniform(0, 86400)), "alt": "400", "g_lat": repr(draw.uniform(-90, 90)),
            "g_long": repr(draw.uniform(-180, 180)), "lst": draw.choice(["", repr(draw.uniform(-24, 48))]), "f107a": repr(draw.uniform(60, 300)),
            "f107": repr(draw.uniform(60, 300)), "ap": repr(draw.uniform(0, 400)),
        }
        history = [repr(draw.uniform(0, 400)) for _ in range(7)]
        switches = [draw.choice([0, 1, 1, 1, 2]) for _ in range(24)]
        switches[9], switches[15] = draw.choice([-1, 0, 1]), 1
        step = draw.uniform(12, 28)
        words = {"from": 0, "to": repr(round(step * 41.5, 3)), "step": repr(step)}
        page.open(digits="all", ap_array=",".join(history), switches="".join(map(str, switches)), **texts, **words)
        lines = page.table()
        assert len(lines) == 42, (len(lines), page.refused("to"), page.refused("step"))
        rows += page.compare_table(record_of(texts, history), switches, lines)
        numbers += 11 * len(lines)
    page.open(digits="all", **{"from": 32.5, "to": 33, "step": 1})
    assert page.table()[0][1] == NO_NUMBER, page.table()[0]
    return f"{rows} rows, {numbers} numbers, 0 differences"


def planted(page):
    """One constant of the module in the page, changed in its last bit, is seen: the comparison of rows is no matter of form."""
    before, module, after = re.split(r'(?<=id="module">)([^<]*)', PAGE.read_text(), maxsplit=1)
    code = bytearray(base64.b64decode(module))
    # an f64.const of a Legendre polynomial's factor: the instruction, then the number's eight bytes
    place = code.index(b"\x44" + struct.pack("<d", 35.0))
    code[place + 1] ^= 1
    page.path = page.downloads / "planted.html"
    page.path.write_text(before + base64.b64encode(code).decode() + after)
    try:
        for g_lat in range(-85, 90, 17):
            page.open(digits="all", g_lat=g_lat, **{"from": 100, "to": 1000, "step": 20})
            page.compare_table(record_of({**DEFAULT, "g_lat": g_lat}), ON, page.table())
    except AssertionError as seen:
        return f"seen: {str(seen).split(': ')[-1]}"
    finally:
        page.path = PAGE
    raise AssertionError("a constant changed in its last bit is not seen")


def not_known(page):
    """A restart is tried: what is not known is asked for until the row shuts it off, and then gives the native row."""
    page.open(digits="all", **{"from": 400, "to": 500, "step": 100})
    for name in ("sec", "g_long", "lst", "ap"):
        page.browser.click(f"[id='{name}-lacking']")
    for place, name in ((2, "sec"), (5, "g_long"), (6, "lst"), (9, "ap")):
        assert page.refused(name) == (1, place), name
    page.browser.click("#preset-restart")
    assert all(page.refused(name) is None for name in FIELDS)
    known = sum(1 << place for place, name in enumerate(FIELDS) if name not in ("sec", "g_long", "lst", "ap"))
    doy, fields, history = record_of({**DEFAULT, "lst": "1"})
    answer, expected = page.native.known(known, (doy, [math.nan, 400.0, 45.0, math.nan, math.nan, 150.0, 150.0, math.nan], history), RESTART)
    assert answer == (0, 0) and bits(number(page.table()[0][1])) == bits(expected[5]), (answer, expected[5], page.table()[0])
    page.browser.click("[id='doy-lacking']")
    assert page.refused("doy") == (1, 1)
    return f"four fields asked for, then {expected[5]:.6e} kg/m^3"


def second_case(page):
    """A second row beside the first, with the ratio of the two; other units are brought to the first's."""
    page.open(digits="all", **{"from": 400, "to": 500, "step": 100})
    page.browser.click("#compare")
    page.browser.click("#preset-restart")
    lines = page.table()
    assert [line[1] for line in lines] == ["first", "second"] * 2
    record = record_of(DEFAULT)
    page.compare_table(record, ON, [[line[0], *line[2:]] for line in lines[::2]])
    page.compare_table(record, RESTART, [[line[0], *line[2:]] for line in lines[1::2]])
    ratio = number(lines[1][2]) / number(lines[0][2])
    shown = page.text(".readout .ratio")
    assert shown == f"ratio {float(f'{ratio:.4g}')}", (shown, ratio)
    # the same record in cm and g has the ratio 1
    page.open(second=1, second__switches="0" + "1" * 23)
    assert all(text == "ratio 1" for text in page.browser.run("return [...document.querySelectorAll('.readout .ratio')].map((one) => one.textContent)"))
    return f"ratio {ratio:.6f} at 400 km"


def level(page):
    """A level's crossings and the first altitude thin enough are the native ones."""
    altitudes = [1000 * k / 511 for k in range(512)]
    seen = 0
    for text in ("1", "1e-7", "3e-12", "2.5e-15", "1e-30", "1e3", "-1"):
        page.open(level=text)
        listed = page.native.crossings(record_of(DEFAULT), ON, altitudes, float(text))
        first, row = page.native.first_below(record_of(DEFAULT), ON, altitudes, float(text))
        words = page.text("#level-found")
        assert words.count(" and ") == len(listed), (text, words, listed)
        for index in listed:
            assert f"{altitudes[index]:.6g} and {altitudes[index + 1]:.6g} km" in words, (text, words)
        if first == native.LENGTHS["NOWHERE"]:
            assert "No altitude here is thin enough" in words, words
        else:
            assert f"First altitude below it: {altitudes[first]:.6g} km" in words, (text, words)
        seen += len(listed)
    return f"7 levels, {seen} crossings"


def descent(page):
    """A descent's losses, saved with every digit, are the native ones."""
    record = record_of(DEFAULT)
    seen = []
    for start, words, settings in ((350, "2 x 1500, 4 x 500", [2] * 1500 + [4] * 500), (250.5, "1 x 100", [1] * 100), (1000, "4", [4])):
        page.open(view="descent", start=start, settings=words)
        answer, end, losses = page.native.descent(record, ON, round(start * 1e6), settings)
        lines = list(csv.reader(line for line in page.saved("#save-descent-csv", "potirehu-descent.csv").splitlines() if not line.startswith("#")))[1:]
        assert answer == (0, 0) and [int(line[3]) for line in lines] == losses and [int(line[2]) for line in lines] == settings[: len(losses)]
        assert int(lines[-1][4]) == end[1]
        found = page.text("#descent-found")
        assert f"{len(losses):,} orbits" in found and {1: "without a density", 2: "reaches the lower end", 3: "all settings are flown"}[end[0]] in found, found
        seen.append(len(losses))
    page.browser.run("document.querySelector('#descent-reader').focus()")
    page.browser.press("Home", "ArrowRight")
    assert "After orbit 1:" in page.text("#panel-descent .where")
    return f"descents of {', '.join(map(str, seen))} orbits"


def bands(page):
    """The density by band, saved with every digit, is the native one; what a band lets count and is not known is refused in its line."""
    page.open(view="bands")
    text = page.browser.run("return document.getElementById('bands').value")
    answer, table = page.native.bands(text)
    lines = list(csv.reader(line for line in page.saved("#save-bands-csv", "potirehu-bands.csv").splitlines() if not line.startswith("#")))[1:]
    assert answer == (0, 0) and len(lines) == 512
    for metre, density, plain in lines:
        assert bits(number(density)) == bits(page.native.band_row(table, int(metre), record_of(DEFAULT))[1][5]), metre
        doy, fields, history = record_of(DEFAULT)
        assert bits(number(plain)) == bits(page.native.gtd7((doy, [fields[0], int(metre) / 1000, *fields[2:]], history), ON)[1][5]), metre
    page.open(view="bands", not_known="g_long,sec", lst=12)
    words = [" ".join(line) for line in page.table("#bands-table")]
    assert ["not known" in line for line in words] == [True, False, True, False], words
    return f"{len(lines)} metres"


def saving(page):
    """CSV with every digit, and SVG that needs nothing of the page."""
    page.open(second=1, second__switches="".join(map(str, RESTART)))
    text = page.saved("#save-csv", "potirehu-curves.csv")
    heads = [line for line in text.splitlines() if line.startswith("#")]
    lines = list(csv.DictReader(line for line in text.splitlines() if not line.startswith("#")))
    assert len(lines) == 1024 and len(heads) == 4 and "switches: " + " ".join(map(str, RESTART)) in heads[3], heads
    doy, fields, history = record_of(DEFAULT)
    for line in lines:
        switches = [int(state) for state in line["switches"].split()]
        expected = page.native.gtd7((doy, [fields[0], float(line["altitude km"]), *fields[2:]], history), switches)[1]
        numbers = [number(line[key]) for key in list(line)[3:14]]
        assert [bits(one) for one in numbers] == [bits(one) for one in expected], line
    table = page.saved("#save-table", "potirehu-table.csv")
    assert len(table.splitlines()) == 5 + 2 * 21, len(table.splitlines())
    figures = [page.saved("#save-svg", "potirehu-curves.svg")]
    for view, button in (("descent", "#save-descent-svg"), ("bands", "#save-bands-svg")):
        page.browser.click(f"#tab-{view}")
        figures.append(page.saved(button, f"potirehu-{view}.svg"))
    for figure in figures:
        xml.dom.minidom.parseString(figure)
        assert "var(" not in figure and "href" not in figure and figure.count("<path") > 10 and "stroke: rgb" in figure
    (page.downloads / "alone.svg").write_text(figures[0])
    page.browser.open((page.downloads / "alone.svg").as_uri())
    page.browser.picture(PICTURES / "saved-svg.png", whole=False)
    return f"{len(lines)} rows of CSV by their bits, {len(figures)} figures"


TESTS = (typed_record, thousand_rows, planted, not_known, second_case, level, descent, bands, saving)
