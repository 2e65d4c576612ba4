"""A headless browser for the tests: Chromium, driven by chromedriver over HTTP (WebDriver), with the standard library alone."""
import base64
import json
import os
import shutil
import signal
import subprocess
import time
import urllib.error
import urllib.request

ELEMENT = "element-6066-11e4-a52e-4f735466cecf"
# The first that is there.
BROWSERS = ("chromium", "chromium-browser", "google-chrome")
KEYS = {"Enter": "\ue007", "Delete": "\ue017", "Escape": "\ue00c", "Shift": "\ue008", "Control": "\ue009", "Left": "\ue012", "Up": "\ue013", "Right": "\ue014", "Down": "\ue015"}


def missing():
    """What is not there, or None."""
    if not any(map(shutil.which, BROWSERS)):
        return "chromium"
    return None if shutil.which("chromedriver") else "chromium-driver"


class Fault(Exception):
    """What the driver says of a call that it could not carry out."""


class Browser:
    def __init__(self, wide=1280, high=860, dark=False):
        self.driver = subprocess.Popen(["nice", "-n", "10", "chromedriver", "--port=0"], stdout=subprocess.PIPE, stderr=subprocess.DEVNULL, text=True, start_new_session=True)
        for line in self.driver.stdout:
            if "successfully on port" in line:
                self.root = f"http://127.0.0.1:{int(line.rstrip(' .' + chr(10)).split()[-1])}"
                break
        else:
            raise Fault("chromedriver does not start")
        # As root, and in a container, Chromium has no sandbox of its own; the page is ours.
        words = ["--headless=new", "--no-sandbox", "--disable-dev-shm-usage", "--disable-gpu", "--hide-scrollbars", f"--window-size={wide},{high}", "--force-device-scale-factor=1"]
        words += ["--blink-settings=preferredColorScheme=0"] if dark else []
        options = {"binary": next(filter(None, map(shutil.which, BROWSERS))), "args": words}
        wanted = {"alwaysMatch": {"goog:chromeOptions": options, "goog:loggingPrefs": {"browser": "ALL"}}}
        self.session = None
        self.session = self.call("POST", "/session", {"capabilities": wanted})["sessionId"]

    def call(self, method, path, body=None):
        where = self.root + (f"/session/{self.session}" if self.session else "") + path
        data = None if body is None else json.dumps(body).encode()
        request = urllib.request.Request(where, data, {"Content-Type": "application/json"}, method=method)
        try:
            with urllib.request.urlopen(request, timeout=60) as answer:
                return json.load(answer)["value"]
        except urllib.error.HTTPError as why:
            raise Fault(json.load(why)["value"]["message"].split("\n")[0]) from None

    def go(self, address):
        self.call("POST", "/url", {"url": address})

    def run(self, script, *words):
        """What a script, the body of a function, answers."""
        return self.call("POST", "/execute/sync", {"script": script, "args": list(words)})

    def wait(self, script, *words, seconds=10):
        """Until a script answers something true, which is the answer."""
        end = time.monotonic() + seconds
        while time.monotonic() < end:
            answer = self.run(script, *words)
            if answer:
                return answer
            time.sleep(0.03)
        raise Fault(f"in vain was waited for: {script} {words}; the page says: {self.run('return document.getElementById(`said`)?.textContent')}")

    def find(self, selector):
        return self.call("POST", "/element", {"using": "css selector", "value": selector})[ELEMENT]

    def click(self, selector):
        self.call("POST", f"/element/{self.find(selector)}/click", {})

    def type(self, selector, words):
        self.call("POST", f"/element/{self.find(selector)}/value", {"text": words})

    def press(self, *keys):
        """Keys one after the other; `Shift+A` holds Shift."""
        actions = []
        for key in keys:
            held = [KEYS.get(part, part) for part in (key.split("+") if len(key) > 1 else [key])]
            actions += [{"type": "keyDown", "value": part} for part in held] + [{"type": "keyUp", "value": part} for part in reversed(held)]
        self.call("POST", "/actions", {"actions": [{"type": "key", "id": "keys", "actions": actions}]})

    def pointer(self, *moves, kind="mouse"):
        """The pointer's way: places (x, y), and `down` and `up` between them."""
        actions = []
        for move in moves:
            if move in ("down", "up"):
                actions.append({"type": f"pointer{move.title()}", "button": 0})
            else:
                actions.append({"type": "pointerMove", "duration": 20, "origin": "viewport", "x": round(move[0]), "y": round(move[1])})
        self.call("POST", "/actions", {"actions": [{"type": "pointer", "id": kind, "parameters": {"pointerType": kind}, "actions": actions}]})

    def size(self, wide, high):
        """The page's own size, as a phone has it."""
        self.call("POST", "/goog/cdp/execute", {"cmd": "Emulation.setDeviceMetricsOverride", "params": {"width": wide, "height": high, "deviceScaleFactor": 1, "mobile": wide < 600}})

    def theme(self, name):
        self.call("POST", "/goog/cdp/execute", {"cmd": "Emulation.setEmulatedMedia", "params": {"features": [{"name": "prefers-color-scheme", "value": name}]}})

    def tab(self):
        """Another tab, which is then the one that is driven; its handle."""
        handle = self.call("POST", "/window/new", {"type": "tab"})["handle"]
        self.turn(handle)
        return handle

    def here(self):
        return self.call("GET", "/window")

    def turn(self, handle):
        self.call("POST", "/window", {"handle": handle})

    def shot(self, name):
        with open(name, "wb") as file:
            file.write(base64.b64decode(self.call("GET", "/screenshot")))

    def complaints(self):
        """What the browser has written to the page's console: faults of scripts, what was refused, what could not be fetched."""
        return [line["message"] for line in self.call("POST", "/se/log", {"type": "browser"}) if line["level"] in ("SEVERE", "WARNING")]

    def close(self):
        try:
            self.call("DELETE", "")
        finally:
            # The driver and all that it has started.
            os.killpg(self.driver.pid, signal.SIGTERM)
            self.driver.wait(30)
