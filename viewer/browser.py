"""A headless Chromium that is steered by chromedriver, over HTTP alone (W3C WebDriver), and a headless Firefox, by its Marionette."""
import base64
import json
import os
import re
import shutil
import socket
import subprocess
import tempfile
import time
import urllib.error
import urllib.request

CHROMIUM = shutil.which("chromium") or shutil.which("google-chrome")
DRIVER = shutil.which("chromedriver")
FIREFOX = shutil.which("firefox-esr") or shutil.which("firefox")
ELEMENT = "element-6066-11e4-a52e-4f735466cecf"
SECONDS = 120


CODES = {"ArrowUp": "\ue013", "ArrowDown": "\ue015", "ArrowLeft": "\ue012", "ArrowRight": "\ue014", "Home": "\ue011", "End": "\ue010",
         "PageUp": "\ue00e", "PageDown": "\ue00f", "Enter": "\ue007", "Tab": "\ue004", "Escape": "\ue00c"}


def pressing(keys):
    """The actions that press keys."""
    downs = [{"type": kind, "value": CODES.get(key, key)} for key in keys for kind in ("keyDown", "keyUp")]
    return [{"type": "key", "id": "keys", "actions": downs}]


class Browser:
    def __init__(self):
        self.home = tempfile.TemporaryDirectory()
        self.driver = subprocess.Popen([DRIVER, "--port=0"], stdout=subprocess.PIPE, stderr=subprocess.DEVNULL, text=True)
        try:
            self.begin()
        except BaseException:
            self.end()
            raise

    def begin(self):
        port = next(filter(None, (re.search(r"successfully on port (\d+)", line) for line in self.driver.stdout)))[1]
        self.base = "http://127.0.0.1:%s" % port
        words = ["--headless=new", "--disable-gpu", "--disable-dev-shm-usage", "--no-first-run", "--user-data-dir=" + self.home.name]
        words += ["--no-sandbox"] if os.geteuid() == 0 else []
        wanted = {"browserName": "chrome", "timeouts": {"script": 1000 * SECONDS}, "goog:loggingPrefs": {"browser": "ALL"},
                  "goog:chromeOptions": {"binary": CHROMIUM, "args": words}}
        self.session = "/session/" + self.ask("POST", "/session", {"capabilities": {"alwaysMatch": wanted}})["sessionId"]
        self.size(1200, 800)

    def ask(self, method, path, value=None):
        data = None if value is None else json.dumps(value).encode()
        request = urllib.request.Request(self.base + path, data, {"Content-Type": "application/json"}, method=method)
        try:
            with urllib.request.urlopen(request, timeout=SECONDS) as answer:
                return json.load(answer)["value"]
        except urllib.error.HTTPError as error:
            raise AssertionError(json.load(error)["value"]["message"]) from None

    def post(self, path, **value):
        return self.ask("POST", self.session + path, value)

    def tool(self, command, **params):
        """A command of the DevTools protocol."""
        return self.post("/goog/cdp/execute", cmd=command, params=params)

    def open(self, path):
        self.post("/url", url="file://" + os.path.abspath(path))

    def run(self, script, *values):
        """Runs a script in the page, as a function's body. Its result may be a promise."""
        return self.post("/execute/sync", script=script, args=list(values))

    def press(self, *keys):
        """Presses keys where the focus is."""
        self.post("/actions", actions=pressing(keys))

    def find(self, selector):
        return [it[ELEMENT] for it in self.post("/elements", using="css selector", value=selector)]

    def label(self, element):
        """What a screen reader calls an element."""
        return self.ask("GET", "%s/element/%s/computedlabel" % (self.session, element))

    def upload(self, selector, path):
        self.post("/element/%s/value" % self.find(selector)[0], text=path)

    def faults(self):
        """What the page wrote to the console since it was asked last."""
        return [line["message"] for line in self.post("/se/log", type="browser") if line["level"] == "SEVERE"]

    def size(self, width, height, scale=1):
        self.tool("Emulation.setDeviceMetricsOverride", width=width, height=height, deviceScaleFactor=scale, mobile=False)

    def is_dark(self, is_dark):
        self.tool("Emulation.setEmulatedMedia", features=[{"name": "prefers-color-scheme", "value": "dark" if is_dark else "light"}])

    def shoot(self, path):
        with open(path, "wb") as file:
            file.write(base64.b64decode(self.tool("Page.captureScreenshot", format="png")["data"]))

    def close(self):
        try:
            self.ask("DELETE", self.session)
        finally:
            self.end()

    def end(self):
        self.driver.terminate()
        self.driver.wait()
        self.driver.stdout.close()
        self.home.cleanup()


class Firefox:
    def __init__(self):
        self.home, self.count, self.stream = tempfile.TemporaryDirectory(), 0, None
        with open(self.home.name + "/user.js", "w", encoding="utf-8") as file:
            file.write('user_pref("marionette.port", 0);\n')
        words = [FIREFOX, "--headless", "--no-remote", "--marionette", "--profile", self.home.name]
        self.process = subprocess.Popen(words, stdout=subprocess.DEVNULL, stderr=subprocess.DEVNULL)
        try:
            self.begin()
        except BaseException:
            self.close()
            raise

    def begin(self):
        path, end = self.home.name + "/MarionetteActivePort", time.time() + SECONDS
        while not os.path.exists(path) or not os.path.getsize(path):
            assert time.time() < end, "Firefox doesn't start"
            time.sleep(.2)
        with open(path, encoding="ascii") as file:
            self.stream = socket.create_connection(("127.0.0.1", int(file.read())), SECONDS).makefile("rwb")
        self.receive()
        self.ask("WebDriver:NewSession", capabilities={"alwaysMatch": {}})

    def receive(self):
        """A message of Marionette: its length, a colon, and JSON."""
        size = b""
        while not size.endswith(b":"):
            size += self.stream.read(1)
        return json.loads(self.stream.read(int(size[:-1])))

    def ask(self, command, **values):
        self.count += 1
        data = json.dumps([0, self.count, command, values]).encode()
        self.stream.write(b"%d:%s" % (len(data), data))
        self.stream.flush()
        _, _, error, result = self.receive()
        assert not error, error
        return result["value"] if "value" in result else result

    def open(self, path):
        self.ask("WebDriver:Navigate", url="file://" + os.path.abspath(path))

    def run(self, script, *values):
        """Runs a script beside the page: it sees the page's elements, and none of its names."""
        return self.ask("WebDriver:ExecuteScript", script=script, args=list(values))

    def find(self, selector):
        return self.ask("WebDriver:FindElement", using="css selector", value=selector)[ELEMENT]

    def click(self, selector):
        self.ask("WebDriver:ElementClick", id=self.find(selector))

    def upload(self, selector, path):
        self.ask("WebDriver:ElementSendKeys", id=self.find(selector), text=path)

    def press(self, *keys):
        self.ask("WebDriver:PerformActions", actions=pressing(keys))

    def shoot(self, path):
        with open(path, "wb") as file:
            file.write(base64.b64decode(self.ask("WebDriver:TakeScreenshot", full=False)))

    def close(self):
        if self.stream:
            self.stream.close()
        self.process.terminate()
        self.process.wait()
        self.home.cleanup()
