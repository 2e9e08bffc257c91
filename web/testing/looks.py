"""Tests of how the page looks, sounds and behaves: requests, contrast, names, time, narrow screens, print; and the pictures."""
import base64
import re
import socket
import threading
import time

from testing.page import PAGE, PICTURES, RESTART


CONTRAST = """
const parts = (text) => text.match(/[\\d.]+/g).map(Number);
const over = (top, ground) => { const [r, g, b, a = 1] = top; return [r, g, b].map((value, k) => value * a + ground[k] * (1 - a)); };
const light = (colour) => {
    const [r, g, b] = colour.map((value) => value / 255).map((c) => (c <= 0.04045 ? c / 12.92 : ((c + 0.055) / 1.055) ** 2.4));
    return 0.2126 * r + 0.7152 * g + 0.0722 * b;
};
const ground = (one) => {
    const above = [];
    for (let around = one; around; around = around.parentElement) above.unshift(parts(getComputedStyle(around).backgroundColor));
    return above.reduce((under, top) => over(top, under), [255, 255, 255]);
};
const ratio = (a, b) => { const [x, y] = [light(a), light(b)].sort((p, q) => q - p); return (x + 0.05) / (y + 0.05); };
const out = [];
for (const one of document.querySelectorAll('body *')) {
    if (!one.checkVisibility() || one.closest('.heard, .skip') || ['SCRIPT', 'OPTION', 'TITLE'].includes(one.tagName)) continue;
    const own = [...one.childNodes].some((node) => node.nodeType === 3 && node.textContent.trim());
    if (!(own || ['INPUT', 'TEXTAREA', 'SELECT'].includes(one.tagName)) || one.tagName === 'title') continue;
    const style = getComputedStyle(one), svg = one.closest('svg');
    const under = ground(svg ? svg.parentElement : one);
    out.push([one.tagName + '.' + (one.getAttribute('class') ?? one.id), ratio(over(parts(svg ? style.fill : style.color), under), under)]);
    if (one.placeholder) out.push(['placeholder of ' + one.id, ratio(parts(getComputedStyle(one, '::placeholder').color), ground(one))]);
}
for (const line of document.querySelectorAll('svg .curve'))
    out.push([line.getAttribute('class'), ratio(parts(getComputedStyle(line).stroke), ground(line.closest('div')))]);
return out;
"""


def no_request(page):
    """Nothing is asked of anywhere: by what the browser sends, and by the policy where something tries."""
    with socket.socket() as listener:
        listener.bind(("127.0.0.1", 0))
        listener.listen()
        asked = []
        threading.Thread(target=lambda: asked.append(listener.accept()), daemon=True).start()
        page.browser.log("performance")
        page.open()
        for view in ("descent", "bands", "curves"):
            page.browser.click(f"#tab-{view}")
        messages = [entry["message"] for entry in page.browser.log("performance")]
        sent = [found for text in messages if '"Network.requestWillBeSent"' in text for found in re.findall(r'"url":"([^"]*)"', text)]
        sent = [address for address in sent if not address.startswith(("about:", "data:"))]
        assert sent and all(address.startswith(PAGE.as_uri()) for address in sent), sent
        port = listener.getsockname()[1]
        tried = page.browser.run(
            """const address = arguments[0], out = [];
            document.body.append(Object.assign(new Image(), { src: address }));
            try { new WebSocket(address.replace('http', 'ws')); } catch (error) { out.push(error.name); }
            return fetch(address).then(() => 'answered', (error) => error.name)""",
            f"http://127.0.0.1:{port}/",
        )
        time.sleep(0.5)
        assert tried == "TypeError" and not asked, (tried, asked)
    text = PAGE.read_text()
    assert not re.search(r"(src|href)=\"(?!data:)", text.split("<script")[0]), "the frame names a file"
    return f"{len(sent)} file read, itself; a fetch, an image and a socket that were tried reached nobody"


def contrast(page):
    """Every text that is seen, and every curve, has a contrast of at least 4.5 with its ground, in both themes and in print."""
    least, seen = (99.0, ""), 0
    views = [{}, {"view": "descent"}, {"view": "bands"}, {"view": "bands", "bands": "x"}, {"g_lat": 95, "not_known": "sec", "ap_array": "4,4,4,4,4,4,900"}]
    views.append({"second": 1, "second__switches": "".join(map(str, RESTART)), "edit": "second", "level": "1e-12", "at": 100})
    for theme in ("light", "dark"):
        for words in views:
            page.open(theme=theme, **words)
            for name, value in page.browser.run(CONTRAST):
                assert value >= 4.5, f"{theme}, {words}: {name} has {value:.2f}"
                least, seen = min(least, (value, f"{theme}: {name}")), seen + 1
    page.browser.command("Emulation.setEmulatedMedia", media="print")
    page.open(theme="dark")
    for name, value in page.browser.run(CONTRAST):
        assert value >= 4.5, f"print: {name} has {value:.2f}"
        seen += 1
    page.browser.command("Emulation.setEmulatedMedia", media="")
    for scheme in ("dark", "light"):
        page.browser.command("Emulation.setEmulatedMedia", features=[{"name": "prefers-color-scheme", "value": scheme}])
        page.open()
        ground = page.browser.run("return getComputedStyle(document.body).backgroundColor")
        assert (ground == "rgb(255, 255, 255)") == (scheme == "light"), (scheme, ground)
    page.browser.command("Emulation.setEmulatedMedia", features=[])
    return f"{seen} texts and curves, least {least[0]:.2f} ({least[1]})"


NAMED = {"button", "textbox", "checkbox", "radio", "slider", "combobox", "tab", "img", "image", "table", "radiogroup", "figure", "region"}


def names(page):
    """Everything that can be used has a name for a screen reader, figures a summary, and no id stands twice."""
    seen = 0
    for view in ("curves", "descent", "bands"):
        page.open(view=view, second=1, ap_array="4,4,4,4,4,4,4", level="1e-12")
        page.browser.command("Accessibility.enable")
        for node in page.browser.command("Accessibility.getFullAXTree")["nodes"]:
            role = node.get("role", {}).get("value")
            if node.get("ignored") or role not in NAMED:
                continue
            assert node.get("name", {}).get("value"), f"{view}: a {role} has no name"
            seen += 1
        summary = page.browser.run(
            """const one = [...document.querySelectorAll('svg')].find((svg) => svg.checkVisibility());
            return one.getAttribute('aria-labelledby').split(' ').map((id) => document.getElementById(id).textContent)"""
        )
        assert len(summary) == 2 and all(len(words) > 15 for words in summary), summary
        ids = page.browser.run("return [...document.querySelectorAll('[id]')].map((one) => one.id)")
        doubled = {one for one in ids if ids.count(one) > 1}
        assert not doubled, doubled
    return f"{seen} named"


def redraw_time(page):
    """A change redraws within 50 ms, from the event until everything is drawn anew, layout included."""
    said = []
    for words, field, values in (
        ({}, "g_lat", [str(k - 40) for k in range(80)]),
        ({"second": 1, "second__f107": 90, "level": "1e-12"}, "f107", [str(70 + k) for k in range(80)]),
        ({"view": "descent"}, "ap", [str(k) for k in range(80)]),
        ({"view": "bands"}, "sec", [str(1000 * k) for k in range(80)]),
        ({"from": 100, "ap_array": "4,4,4,4,4,4,4"}, None, [str(k % 24) for k in range(80)]),
    ):
        page.open(**words)
        times = page.browser.run(
            """const [field, values] = arguments;
            return values.map((value) => {
                const before = performance.now();
                if (field) {
                    const input = document.getElementById(field);
                    input.value = value;
                    input.dispatchEvent(new Event('input'));
                } else document.querySelector(`[name=entry-${value}]:not(:checked)`).click();
                document.body.getBoundingClientRect();
                return performance.now() - before;
            })""",
            field, values,
        )
        times.sort()
        median, most = times[len(times) // 2], times[-1]
        assert times[len(times) * 9 // 10] <= 50, f"{words}: nine in ten within {times[len(times) * 9 // 10]:.1f} ms"
        said.append(f"{'row' if not field else words.get('view', 'two cases' if 'second' in words else 'curves')} {median:.1f} (most {most:.1f})")
    return "median ms: " + ", ".join(said)


def narrow_and_print(page):
    """Nothing runs out of a narrow screen, and the page can be printed."""
    for width in (320, 390, 768, 1100):
        page.browser.size(width, 800)
        for view in ("curves", "descent", "bands"):
            page.open(view=view, second=1)
            room = page.browser.run("return document.documentElement.scrollWidth")
            assert room <= width, f"{view} is {room} wide on {width}"
    page.browser.size(1440, 1000)
    page.open()
    pdf = page.browser.of("/print", {"page": {"width": 21.0, "height": 29.7}})
    (PICTURES / "print.pdf").write_bytes(base64.b64decode(pdf))
    return "four widths, three views; a PDF"


def pictures(page):
    """Pictures of both themes, and of what is to be looked at."""
    restart, on = "".join(map(str, RESTART)), " ".join(["1"] * 24)
    views = {
        "light": {"theme": "light"},
        "dark": {"theme": "dark"},
        "compare-dark": {"theme": "dark", "second": 1, "second__switches": restart, "edit": "second", "level": "3e-12", "at": 205},
        "compare-light": {"theme": "light", "second": 1, "second__switches": restart, "edit": "second", "level": "3e-12", "at": 205},
        "refused": {"g_lat": 95, "sec": "abc", "f107": 2000, "not_known": "g_long", "switches": "111111111-111111111111111", "theme": "light"},
        "level": {"level": "1e-11", "theme": "light"},
        "descent": {"view": "descent", "second": 1, "second__f107": 70, "second__f107a": 70, "at": 900, "theme": "light"},
        "bands": {"view": "bands", "at": 260, "theme": "light"},
        "bands-refused": {"view": "bands", "theme": "dark", "bands": f"(band 0 1000 (switches {on}))\n(band 1100 2500001 (switches {on}))"},
    }
    for name, words in views.items():
        page.open(**words)
        page.browser.picture(PICTURES / f"{name}.png")
    page.open(theme="light", second=1, second__switches=restart, edit="second", at=205)
    page.browser.size(1440, 960)
    page.browser.picture(PICTURES / "page.png", whole=False)
    page.browser.size(390, 844)
    page.open(theme="light", level="1e-11")
    page.browser.picture(PICTURES / "narrow.png")
    page.browser.size(1030, 800)
    page.browser.command("Emulation.setEmulatedMedia", media="print")
    page.open(theme="dark")
    page.browser.picture(PICTURES / "print.png")
    page.browser.command("Emulation.setEmulatedMedia", media="")
    page.browser.size(1440, 1000)
    return f"{len(views) + 3} in target/web"


TESTS = (no_request, contrast, names, redraw_time, narrow_and_print, pictures)
