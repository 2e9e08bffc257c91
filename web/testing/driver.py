"""A browser for the tests: Debian's chromium, headless, by its driver, spoken to over the driver's own protocol (WebDriver) with Python's library alone."""
import base64
import json
import pathlib
import shutil
import socket
import subprocess
import time
import urllib.error
import urllib.request

ELEMENT = "element-6066-11e4-a52e-4f735466cecf"
PACKAGES = {"chromium": "chromium", "chromedriver": "chromium-driver"}

KEYS = {"Tab": "\ue004", "Enter": "\ue007", "Escape": "\ue00c", "Space": " ", "End": "\ue010", "Home": "\ue011", "PageUp": "\ue00e", "PageDown": "\ue00f"}
KEYS |= {"ArrowLeft": "\ue012", "ArrowUp": "\ue013", "ArrowRight": "\ue014", "ArrowDown": "\ue015", "Shift": "\ue008", "Control": "\ue009"}


def lacking():
    """Debian's packages that are wanted and not there."""
    return [package for program, package in PACKAGES.items() if not shutil.which(program)]


def free_port():
    with socket.socket() as one:
        one.bind(("127.0.0.1", 0))
        return one.getsockname()[1]


class Browser:
    """One session; closed as a context. downloads is where saved files go."""

    def __init__(self, downloads, width=1440, height=1000):
        self.port = free_port()
        self.process = subprocess.Popen(["chromedriver", f"--port={self.port}"], stdout=subprocess.DEVNULL, stderr=subprocess.DEVNULL)
        for _ in range(200):
            try:
                if self.call("GET", "/status")["ready"]:
                    break
            except (OSError, urllib.error.URLError):
                time.sleep(0.05)
        options = {
            "args": ["--headless=new", "--no-sandbox", "--hide-scrollbars", "--force-color-profile=srgb", f"--window-size={width},{height}"],
            "prefs": {"download.default_directory": str(downloads), "download.prompt_for_download": False},
        }
        wanted = {"browserName": "chrome", "goog:chromeOptions": options, "goog:loggingPrefs": {"browser": "ALL", "performance": "ALL"}}
        self.session = "/session/" + self.call("POST", "/session", {"capabilities": {"alwaysMatch": wanted}})["sessionId"]

    def __enter__(self):
        return self

    def __exit__(self, *_):
        try:
            self.call("DELETE", self.session)
        finally:
            self.process.terminate()
            self.process.wait()

    def call(self, method, path, body=None):
        data = None if body is None else json.dumps(body).encode()
        request = urllib.request.Request(f"http://127.0.0.1:{self.port}{path}", data, {"Content-Type": "application/json"}, method=method)
        try:
            with urllib.request.urlopen(request, timeout=120) as answer:
                return json.load(answer)["value"]
        except urllib.error.HTTPError as error:
            raise RuntimeError(json.load(error)["value"]["message"]) from None

    def of(self, path, body=None):
        return self.call("POST", self.session + path, body or {})

    def open(self, address):
        self.of("/url", {"url": address})

    def run(self, script, *arguments):
        """What a script in the page returns."""
        return self.of("/execute/sync", {"script": script, "args": list(arguments)})

    def wait(self, script, *arguments, seconds=10):
        """Waits until a script in the page returns something true, and gives it."""
        end = time.monotonic() + seconds
        while not (found := self.run(script, *arguments)):
            if time.monotonic() > end:
                raise AssertionError(f"waited {seconds} s in vain for: {script}")
            time.sleep(0.03)
        return found

    def find(self, selector):
        return self.of("/element", {"using": "css selector", "value": selector})[ELEMENT]

    def click(self, selector):
        self.of(f"/element/{self.find(selector)}/click")

    def type(self, selector, text):
        """Types a text in the place of what a field holds, key by key."""
        element = self.find(selector)
        self.of(f"/element/{element}/value", {"text": KEYS["Control"] + "a" + KEYS["Control"]})
        self.of(f"/element/{element}/value", {"text": text or "\ue017"})

    def press(self, *keys):
        """Presses keys one after another, whatever has the focus; 'Shift+Tab' holds the first."""
        actions = []
        for key in keys:
            held = [KEYS.get(one, one) for one in key.split("+")] if len(key) > 1 else [key]
            actions += [{"type": "keyDown", "value": one} for one in held] + [{"type": "keyUp", "value": one} for one in reversed(held)]
        self.of("/actions", {"actions": [{"type": "key", "id": "keyboard", "actions": actions}]})

    def pointer(self, *steps):
        """Moves a pointer: (x, y) in the window, 'down' or 'up'."""
        pressed = {"down": {"type": "pointerDown", "button": 0}, "up": {"type": "pointerUp", "button": 0}}
        actions = [
            pressed[step] if isinstance(step, str) else {"type": "pointerMove", "duration": 0, "x": round(step[0]), "y": round(step[1])} for step in steps
        ]
        self.of("/actions", {"actions": [{"type": "pointer", "id": "pointer", "parameters": {"pointerType": "mouse"}, "actions": actions}]})

    def command(self, name, **words):
        """A command of the browser's own protocol."""
        return self.of("/goog/cdp/execute", {"cmd": name, "params": words})

    def size(self, width, height):
        self.command("Emulation.setDeviceMetricsOverride", width=width, height=height, deviceScaleFactor=1, mobile=False)

    def log(self, kind):
        return self.of("/se/log", {"type": kind})

    def picture(self, path, whole=True):
        """A picture of the page, of all of it or of the window."""
        words = {"captureBeyondViewport": True} if whole else {}
        if whole:
            box = self.run("return [document.documentElement.scrollWidth, document.documentElement.scrollHeight]")
            words["clip"] = {"x": 0, "y": 0, "width": box[0], "height": box[1], "scale": 1}
        pathlib.Path(path).write_bytes(base64.b64decode(self.command("Page.captureScreenshot", format="png", **words)["data"]))
