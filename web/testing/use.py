"""Tests of how the page is used: fields and their refusals, presets, keys, pointer, address."""
import re
import time

from testing.page import DEFAULT, FIELDS, ON, PAGE, record_of


def date_and_time(page):
    """A date and a time give doy and sec; lst follows unless it is typed; what is no date is said to be none."""
    page.open()
    value = lambda name: page.browser.run("return document.getElementById(arguments[0]).value", name)
    cases = [("2024-12-31", "366"), ("2026-01-01", "1"), ("2023-12-31", "365"), ("2024-02-29", "60")]
    for date, doy in cases:
        page.browser.type("#date", date)
        assert value("doy") == doy and value("year") == date[:4], (date, value("doy"))
    page.browser.type("#time", "08:03:20")
    assert value("sec") == "29000"
    page.browser.type("#g_long", "-70")
    followed = page.browser.run("return document.getElementById('lst').placeholder")
    assert followed == "follows: 3.3889", followed
    page.browser.type("#doy", "32")
    assert value("date") == "2024-02-01", value("date")
    page.browser.type("#lst", "16")
    assert value("lst") == "16"
    for date in ("2023-02-29", "21.6.2026", "2026-13-01"):
        page.browser.type("#date", date)
        assert "No date" in page.shown("#date-refusal") and value("doy") == "32", date
    page.browser.type("#time", "24:00")
    assert "No time" in page.shown("#time-refusal")
    return f"{len(cases)} dates, 4 refused"


def refusals(page):
    """Each refusal that the page's calls can give stands beside the field it names, in words, as the native call gives it."""
    seen = 0

    def expect(name, answer):
        nonlocal seen
        assert page.refused(name) == answer, f"{name}: {page.refused(name)}, not {answer}"
        seen += 1

    beyond = {"doy": ("0", "367"), "sec": ("-1", "86400.5"), "alt": ("-0.1", "2500.1"), "g_lat": ("-90.5", "91"), "g_long": ("-1001", "1000.5")}
    beyond |= {"lst": ("-25", "49"), "f107a": ("-1", "1001"), "f107": ("-1", "1001"), "ap": ("-1", "401")}
    page.open(ap_array="4,4,4,4,4,4,4")
    for place, name in enumerate(FIELDS):
        if name == "year":
            continue
        good = page.browser.run("return document.getElementById(arguments[0]).value", name)
        for text in beyond[name]:
            page.browser.type(f"#{name}", text)
            expect(name, (3, place))
            if name != "doy":
                doy, fields, history = record_of({**DEFAULT, name: text}, ["4"] * 7)
                assert page.native.gtd7((doy, fields, history), ON)[0] == (3, place)
        if name != "doy":
            page.browser.type(f"#{name}", "x" if name != "lst" else "1e999")
            expect(name, (2, place))
        page.browser.type(f"#{name}", good)
        assert page.refused(name) is None, name
    for text in ("x", "17.5"):
        page.browser.type("#doy", text)
        assert page.refused("doy") == "doy is no whole number.", page.refused("doy")
    page.browser.type("#doy", "172")
    for index in range(7):
        name = f"ap_array[{index}]"
        for text, answer in (("401", (3, 10 + index)), ("", (2, 10 + index)), ("4", None)):
            page.browser.type(f"[id='{name}']", text)
            expect(name, answer)
    # several at once, each at its own field
    page.open(g_lat=95, sec="abc", f107=2000, not_known="g_long")
    for name, answer in (("g_lat", (3, 4)), ("sec", (2, 2)), ("f107", (3, 8)), ("g_long", (1, 5)), ("lst", (1, 6))):
        expect(name, answer)
    assert "g_lat is out of range" in page.text("#heard"), "the refusal is not heard"
    assert page.table() == [] and "refused" in page.text(".readout")
    # 1, a lacking history; 10, mixing off below 72.5 km; of the curves' altitudes 2, 3, 5, 8, 10
    page.open(switches="111111111-111111111111111")
    expect("history", (1, 10))
    page.open(alt=50, switches="111111111111111011111111")
    expect("alt", (10, 3))
    expect("from", (10, 17))
    page.open(**{"from": -1})
    expect("from", (3, 17))
    page.open(to=2600)
    assert page.refused("to")[0] == 3
    page.open(step=0.1)
    expect("step", (5, 512))
    for words, name in (({"from": "x"}, "from"), ({"to": ""}, "to"), ({"to": 0}, "to"), ({"step": 0}, "step"), ({"level": "thin"}, "level")):
        page.open(**words)
        assert page.refused(name), words
        seen += 1
    # a descent: 17, 18, 19
    for words, name, answer in (
        ({"start": 199}, "start", (17, 0)),
        ({"start": 1001}, "start", (17, 0)),
        ({"settings": "2 x 3, 5 x 2"}, "settings", (18, 4)),
        ({"settings": "0"}, "settings", (18, 1)),
        ({"settings": "1 x 10001"}, "settings", (19, 10000)),
    ):
        page.open(view="descent", **words)
        expect(name, answer)
    page.open(view="descent", settings="two")
    assert "Settings are written as" in page.refused("settings")
    # bands: 11, 12, 13 at their lines
    band = lambda low, high: f"(band {low} {high} (switches {' '.join(['1'] * 24)}))"
    for text, answer in (
        (band(0, 2500001).replace("band", "bond"), (11, 1)),
        ("\n".join([band(0, 1000), band(1000, 900)]), (11, 2)),
        ("\n".join([band(0, 1000), band(900, 2500001)]), (12, 2)),
        ("\n".join([band(0, 1000), band(1100, 2500001)]), (13, 2)),
        (band(0, 1000), (13, 2)),
        ("", (13, 1)),
        ("\n".join([band(k, k + 1) for k in range(64)] + [band(64, 2500001)]), (11, 65)),
    ):
        page.open(view="bands")
        page.browser.run("const field = document.getElementById('bands'); field.value = arguments[0]; field.dispatchEvent(new Event('input'))", text)
        expect("bands", answer)
        assert page.native.bands(text)[0] == answer
        marked = page.browser.run("return [...document.querySelectorAll('.lines .refused')].map((line) => Number(line.textContent))")
        assert marked == [answer[1]], (marked, answer)
    return f"{seen} refusals, each at its field or line"


def presets(page):
    """Each preset's row, which fields count under it and under each state of each entry, and by which entries, against the native list."""
    page.open()
    lacking = {"all-on": (), "restart": (7, 8, 9, 10, 14), "no-flux": (1,), "no-local-time": (7, 8, 14)}
    rows = {key: [0 if entry in off else 1 for entry in range(24)] for key, off in lacking.items()}
    names = [*FIELDS, "ap_array[0]", "ap_array[1] to [6]"]

    def compare(switches):
        marks = page.native.counts(switches)
        shown = {line[0]: line[1:] for line in page.table("#counts")}
        assert [shown[name][0] == "yes" for name in names] == [mark == 1 for mark in marks[:12]], (switches, shown)
        assert page.grey() == [name for name, mark in zip(FIELDS, marks) if not mark], (switches, page.grey())
        for place, name in enumerate(names):
            # each way that is shown turns the field over, and no part of it does
            for way in shown[name][1].split("; or ") if shown[name][1] not in ("always", "never") else []:
                changes = []
                for part in way.split(" with "):
                    entries, state = part.split(" at ")
                    changes += [(int(entry), int(state.replace("−", "-"))) for entry in re.findall(r"\d+", entries)]
                for left_out in (None, *changes):
                    row = list(switches)
                    for entry, state in (change for change in changes if change != left_out):
                        row[entry] = state
                    assert (page.native.counts(row)[place] != marks[place]) == (left_out is None), (switches, name, way, left_out)

    for key, row in rows.items():
        page.browser.click(f"#preset-{key}")
        assert page.switches() == row, key
        assert page.browser.run("return document.querySelector('.presets [aria-pressed=true]').id") == f"preset-{key}"
        compare(row)
        assert page.table()[0][2].split() == [str(state) for state in row]
    tried = 0
    for key in ("all-on", "restart"):
        for entry in range(24):
            for state in (-1, 0, 1) if entry == 9 else (0, 1, 2):
                page.browser.click(f"#preset-{key}")
                page.browser.run("document.querySelector(`[name=entry-${arguments[0]}][value='${arguments[1]}']`).click()", entry, state)
                row = list(rows[key])
                row[entry] = state
                assert page.switches() == row
                compare(row)
                tried += 1
    return f"{len(rows)} presets, {tried} rows"


def keyboard(page):
    """Everything that can be used is reached by Tab, shows where it is, and works by keys alone."""
    for view in ("curves", "descent", "bands"):
        page.open(view=view, second=1, ap_array="4,4,4,4,4,4,4", level="1e-12")
        wanted = page.browser.run(
            """return [...document.querySelectorAll('button, input, select, textarea, [tabindex="0"]')].filter((one) => {
                if (!one.checkVisibility() || one.disabled || one.tabIndex < 0) return false;
                if (one.type !== 'radio') return true;
                return one.checked;
            }).length"""
        )
        reached = set()
        for _ in range(wanted + 5):
            page.browser.press("Tab")
            name, outline = page.browser.run(
                """const one = document.activeElement, around = one.closest('.choice') ?? one;
                return [one.id || one.name || one.getAttribute('aria-label') || one.tagName, getComputedStyle(around).outlineStyle]"""
            )
            if name != "BODY":
                assert outline == "solid", f"{name} does not show that it has the focus"
                reached.add(name)
        assert len(reached) == wanted, f"{view}: {len(reached)} of {wanted} reached"
    # the curves' reader
    page.open()
    focus = lambda selector: page.browser.run("document.querySelector(arguments[0]).focus()", selector)
    at = lambda: page.text("#panel-curves .where")
    focus("#profile-reader")
    page.browser.press("Home")
    assert at() == "At 0 km", at()
    page.browser.press("ArrowUp", "ArrowUp")
    assert at() == f"At {2 * 1000 / 511:.6g} km", at()
    page.browser.press("PageUp", "End")
    assert at() == "At 1000 km", at()
    spoken = page.browser.run("return document.getElementById('profile-reader').getAttribute('aria-valuetext')")
    assert "Mass density 2.747 × 10⁻¹⁵ kg/m³" in spoken, spoken
    page.browser.press("Escape")
    assert at().startswith("At the record's altitude"), at()
    # a level, a tab, a switch, a tick
    focus("#level-strip")
    page.browser.press("ArrowRight", "ArrowRight", "Shift+ArrowLeft")
    level = float(page.browser.run("return document.getElementById('level').value"))
    assert level > 0 and "passes" in page.text("#level-found"), level
    focus("#tab-curves")
    page.browser.press("ArrowRight")
    assert page.browser.run("return document.activeElement.id") == "tab-descent" and page.shown("#descent-found")
    focus("[name=entry-10]:checked")
    page.browser.press("ArrowLeft")
    assert page.switches()[10] == 0 and "g_long" in page.grey()
    focus("[id='sec-lacking']")
    page.browser.press("Space")
    assert page.browser.run("return document.getElementById('sec').disabled")
    focus("#skip")
    page.browser.press("Enter")
    assert page.browser.run("return document.activeElement.id") == "view"
    return "Tab reaches everything in three views; reader, level, tabs, switches, ticks by keys"


def pointer(page):
    """Values are read off under the pointer, and a level is drawn by hand."""
    page.open()
    box = page.browser.run("const box = document.querySelector('#profile-reader').getBoundingClientRect(); return [box.left, box.top, box.width, box.height]")
    page.browser.pointer((box[0] + 150, box[1] + 200))
    read = page.text("#panel-curves .where")
    assert re.fullmatch(r"At [\d.]+ km", read), read
    assert page.browser.run("return document.querySelectorAll('#profile-svg .marks .dot').length") >= 8
    strip = page.browser.run("const box = document.querySelector('#level-strip').getBoundingClientRect(); return [box.left, box.top, box.width, box.height]")
    y = strip[1] + strip[3] / 2
    page.browser.pointer((strip[0] + strip[2] * 0.5, y), "down", (strip[0] + strip[2] * 0.4, y), (strip[0] + strip[2] * 0.3, y), "up")
    drawn = float(page.browser.run("return document.getElementById('level').value"))
    assert 1e-14 < drawn < 1e-6, drawn
    assert page.browser.run("return document.querySelectorAll('#profile-svg .crossing').length") == 1
    return f"{read}; a level of {drawn:g} drawn"


def address(page):
    """What is shown is in the address: opened again it shows the same; what no address says is left as it first opens."""
    page.open()
    page.browser.type("#g_lat", "-33.25")
    page.browser.type("#lst", "7.5")
    page.browser.click("#compare")
    page.browser.click("#preset-no-flux")
    page.browser.click("[id='f107-lacking']")
    page.browser.type("#level", "2e-12")
    page.browser.type("#to", "800")
    page.browser.run("document.querySelector('#profile-reader').focus()")
    page.browser.press("Home", "PageUp")
    look = """const state = (one) => (one.type === 'checkbox' || one.type === 'radio' ? one.checked : one.value);
        const held = [...document.querySelectorAll('input, select, textarea')].map((one) => [one.id || one.name + one.value, state(one)]);
        return held.concat([...document.querySelectorAll('.where, .readout, #table, #counts, #level-found, #profile-svg')].map((one) => one.textContent))"""
    before = page.browser.run(look)
    time.sleep(0.5)
    place = page.browser.run("return location.href")
    page.browser.open("about:blank")
    page.browser.open(place)
    page.browser.wait("return performance.getEntriesByName('redraw').length > 0")
    after = page.browser.run(look)
    assert before == after, [pair for pair in zip(before, after) if pair[0] != pair[1]]
    # an address changed by hand shows at once
    page.browser.run("location.hash = 'g_lat=12'")
    page.browser.wait("return document.getElementById('g_lat').value === '12'")
    junk = ["%", "switches=9", "view=none&edit=second", "a=b=c&&=&lst", "at=-7", "at=99999&view=bands", "ap_array=1,2", "second", "at=x&view=descent"]
    for fragment in [*junk, "switches=" + "7" * 24]:
        page.browser.open("about:blank")
        page.browser.open(PAGE.as_uri() + "#" + fragment)
        page.browser.wait("return performance.getEntriesByName('redraw').length > 0")
        assert not [entry for entry in page.browser.log("browser") if entry["level"] == "SEVERE"], fragment
    page.open(g_lat=12, view="bands")
    page.browser.click("#reset")
    time.sleep(0.4)
    assert page.browser.run("return location.hash") in ("", "#"), page.browser.run("return location.hash")
    return f"an address of {len(place) - len(PAGE.as_uri())} characters, ten that are none"


TESTS = (date_and_time, refusals, presets, keyboard, pointer, address)
