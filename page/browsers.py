"""Drives headless Chromium and Firefox, as far as the checks of the page need it.

Both are driven over a socket, for which Debian's python3-websocket is enough: Chromium by its DevTools protocol, Firefox
by WebDriver BiDi. A browser opens a page, runs scripts in it, presses keys, and says what the page wrote to the console
and which requests it made.
"""
import base64
import itertools
import json
import pathlib
import re
import shutil
import subprocess
import sys
import tempfile
import time

# Debian's modules, also where another Python comes first.
sys.path.append("/usr/lib/python3/dist-packages")

# How many seconds a browser has to start, and for an answer.
PATIENCE = 300


class Missing(Exception):
    """A program or a module that is not installed."""


class Browser:
    """A browser that runs with a profile of its own, and is told what to do over a socket."""

    def __init__(self, program, words, listens, path=""):
        if not shutil.which(program):
            raise Missing(f"{self.name}: Debian's {program}, python3-websocket")
        try:
            import websocket
        except ImportError:
            raise Missing(f"{self.name}: Debian's python3-websocket") from None
        self.folder = tempfile.TemporaryDirectory(ignore_cleanup_errors=True)
        errors = pathlib.Path(self.folder.name, "errors")
        profile = pathlib.Path(self.folder.name, "profile")
        profile.mkdir()
        own = [word.format(profile) for word in self.PROFILE]
        self.process = subprocess.Popen([program, *words, *own], stdout=subprocess.DEVNULL, stderr=errors.open("w"))
        address = self.address_in(errors, listens) + path
        self.socket = websocket.create_connection(address, suppress_origin=True, timeout=PATIENCE)
        self.numbers, self.events = itertools.count(1), []

    def address_in(self, errors, listens):
        """Where the browser says that it listens."""
        end = time.time() + PATIENCE
        while time.time() < end and self.process.poll() is None:
            found = re.search(listens + r" (ws://\S+)", errors.read_text(errors="replace"))
            if found:
                return found[1]
            time.sleep(0.1)
        self.process.terminate()
        raise AssertionError(f"{self.name} does not listen: {errors.read_text(errors='replace')[-1000:]}")

    def call(self, method, words=None, **params):
        """Makes a call of the protocol, and keeps the events that come before its answer."""
        number = next(self.numbers)
        self.socket.send(json.dumps({"id": number, "method": method, "params": params, **(words or {})}))
        while True:
            told = json.loads(self.socket.recv())
            if told.get("id") != number:
                self.events.append(told)
            elif "error" in told:
                raise AssertionError(f"{method}: {told.get('message') or told['error']}")
            else:
                return told["result"]

    def taken(self, method):
        """The events of a kind since the last call."""
        found = [event["params"] for event in self.events if event.get("method") == method]
        self.events = [event for event in self.events if event.get("method") != method]
        return found

    def run(self, script):
        """What the body of an async function returns, by way of JSON."""
        words = f"(async () => {{ {script} }})().then((value) => JSON.stringify([value ?? null]), "
        told = self.evaluated(words + "(error) => JSON.stringify({ error: String(error.message) }))")
        made = json.loads(told)
        if isinstance(made, dict):
            raise AssertionError(made["error"])
        return made[0]

    def close(self):
        self.socket.close()
        self.process.terminate()
        self.process.wait()
        self.folder.cleanup()


class Chromium(Browser):
    name, PROFILE = "Chromium", ["--user-data-dir={}"]
    # The keys that checks press by name.
    KEYS = {"ARROW_RIGHT": ("ArrowRight", 39), "ARROW_LEFT": ("ArrowLeft", 37)}

    def __init__(self):
        super().__init__("chromium", ["--headless=new", "--no-sandbox", "--disable-gpu", "--disable-dev-shm-usage",
                                      "--no-first-run", "--disable-extensions", "--disable-background-networking",
                                      "--disable-component-update", "--remote-debugging-port=0",
                                      "--window-size=1200,900"], "DevTools listening on")
        pages = [target for target in self.call("Target.getTargets")["targetInfos"] if target["type"] == "page"]
        told = self.call("Target.attachToTarget", targetId=pages[0]["targetId"], flatten=True)
        self.session = {"sessionId": told["sessionId"]}
        for domain in ["Page", "Runtime", "Log", "Network"]:
            self.call(f"{domain}.enable", self.session)

    def open(self, url):
        """Opens a page anew, also where only the fragment differs."""
        for address in ["about:blank", url]:
            self.taken("Page.loadEventFired")
            self.call("Page.navigate", self.session, url=address)
            while not self.taken("Page.loadEventFired"):
                self.call("Runtime.evaluate", self.session, expression="0")

    def evaluated(self, words):
        told = self.call("Runtime.evaluate", self.session, expression=words, awaitPromise=True, userGesture=True)
        if "exceptionDetails" in told:
            raise AssertionError(told["exceptionDetails"].get("exception", {}).get("description", "an exception"))
        return told["result"]["value"]

    def press(self, *keys):
        """Presses keys, as a person does."""
        for key in keys:
            name, code = self.KEYS[key]
            for kind in ["rawKeyDown", "keyUp"]:
                self.call("Input.dispatchKeyEvent", self.session, type=kind, key=name, code=name,
                          windowsVirtualKeyCode=code)

    def said(self):
        """What was written to the console since the last call, but for notes, and errors that nothing caught."""
        written = [event["args"] for event in self.taken("Runtime.consoleAPICalled")
                   if event["type"] in ("error", "warning", "assert")]
        logged = [event["entry"]["text"] for event in self.taken("Log.entryAdded")
                  if event["entry"]["level"] in ("error", "warning")]
        return [*written, *logged, *self.taken("Runtime.exceptionThrown")]

    def requests(self):
        """The addresses that were asked for since the last call."""
        return [event["request"]["url"] for event in self.taken("Network.requestWillBeSent")]

    def look(self, width, height, is_dark):
        """A picture of the page, in a window of this size."""
        self.call("Emulation.setDeviceMetricsOverride", self.session, width=width, height=height, deviceScaleFactor=1,
                  mobile=width < 600)
        scheme = {"name": "prefers-color-scheme", "value": "dark" if is_dark else "light"}
        self.call("Emulation.setEmulatedMedia", self.session, features=[scheme])
        self.run("await new Promise((done) => setTimeout(done, 300));")
        return base64.b64decode(self.call("Page.captureScreenshot", self.session, format="png")["data"])


class Firefox(Browser):
    name, PROFILE = "Firefox", ["--profile", "{}"]
    # As WebDriver writes the keys.
    KEYS = {"ARROW_RIGHT": "\ue014", "ARROW_LEFT": "\ue012"}

    def __init__(self):
        super().__init__("firefox-esr", ["--headless", "--no-remote", "--remote-debugging-port=0", "--width=1200",
                                         "--height=900"], "WebDriver BiDi listening on", "/session")
        self.call("session.new", capabilities={})
        self.call("session.subscribe", events=["log.entryAdded", "network.beforeRequestSent"])
        self.page = self.call("browsingContext.getTree")["contexts"][0]["context"]

    def open(self, url):
        for address in ["about:blank", url]:
            self.call("browsingContext.navigate", context=self.page, url=address, wait="complete")

    def evaluated(self, words):
        told = self.call("script.evaluate", target={"context": self.page}, awaitPromise=True, userActivation=True,
                         expression=words)
        if told["type"] == "exception":
            raise AssertionError(told["exceptionDetails"]["text"])
        return told["result"]["value"]

    def press(self, *keys):
        actions = [{"type": kind, "value": self.KEYS[key]} for key in keys for kind in ("keyDown", "keyUp")]
        self.call("input.performActions", context=self.page,
                  actions=[{"type": "key", "id": "keys", "actions": actions}])

    def said(self):
        return [event["text"] for event in self.taken("log.entryAdded") if event["level"] in ("error", "warn")]

    def requests(self):
        return [event["request"]["url"] for event in self.taken("network.beforeRequestSent")]
