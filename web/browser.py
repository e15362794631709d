"""A headless Chromium, driven through a pipe by its DevTools protocol."""
import base64
import json
import os
import select
import shutil
import subprocess
import tempfile
import time

KEYS = {"Enter": (13, "\r"), "Tab": (9, ""), "Escape": (27, ""), "F1": (112, ""), "F8": (119, ""),
        "ArrowDown": (40, ""), "ArrowUp": (38, ""), "Home": (36, ""), "End": (35, ""), "Space": (32, " ")}
PATIENCE = 120
HELD = {"Alt": 1, "Ctrl": 2, "Shift": 8}


def program():
    """Returns the path of Chromium, or None where there is none."""
    return shutil.which("chromium") or shutil.which("chromium-browser")


class Browser:
    """A browser with a profile of its own, which is gone when it is closed."""

    def __init__(self):
        self.profile = tempfile.mkdtemp()
        to_browser, self.write = os.pipe()
        self.read, from_browser = os.pipe()
        words = [program(), "--headless", "--no-sandbox", "--disable-gpu", "--remote-debugging-pipe",
                 "--force-color-profile=srgb", "--hide-scrollbars=false", f"--user-data-dir={self.profile}"]
        self.process = subprocess.Popen(
            ["/bin/sh", "-c", f'exec "$@" 3<&{to_browser} 4>&{from_browser}', "sh", *words],
            pass_fds=(to_browser, from_browser), stdout=subprocess.DEVNULL, stderr=subprocess.DEVNULL)
        os.close(to_browser)
        os.close(from_browser)
        self.rest, self.number, self.events = b"", 0, []

    def __enter__(self):
        return self

    def __exit__(self, *_):
        self.process.terminate()
        self.process.wait()
        shutil.rmtree(self.profile, ignore_errors=True)

    def message(self):
        """Returns the next message of the browser."""
        while b"\0" not in self.rest:
            if not select.select([self.read], [], [], PATIENCE)[0]:
                raise RuntimeError(f"the browser says nothing for {PATIENCE} s")
            more = os.read(self.read, 1 << 20)
            if not more:
                raise EOFError("the browser ended")
            self.rest += more
        line, self.rest = self.rest.split(b"\0", 1)
        return json.loads(line)

    def call(self, method, session=None, **parameters):
        """Calls a method of the protocol and returns its result; events meanwhile are kept."""
        self.number += 1
        said = {"id": self.number, "method": method, "params": parameters}
        if session:
            said["sessionId"] = session
        data = json.dumps(said).encode() + b"\0"
        while data:
            data = data[os.write(self.write, data):]
        while True:
            told = self.message()
            if told.get("id") != self.number:
                self.events.append(told)
            elif "error" in told:
                raise RuntimeError(f"{method}: {told['error']['message']}")
            else:
                return told["result"]

    def open(self, path, width=1280, height=800, dark=False):
        return Tab(self, path, width, height, dark)


class Tab:
    """A page in a tab, with a storage that it shares with no other."""

    def __init__(self, browser, path, width, height, dark):
        self.browser = browser
        context = browser.call("Target.createBrowserContext")["browserContextId"]
        target = browser.call("Target.createTarget", url="about:blank", browserContextId=context)["targetId"]
        told = browser.call("Target.attachToTarget", targetId=target, flatten=True)
        self.context, self.target, self.session = context, target, told["sessionId"]
        for it in ("Page.enable", "Runtime.enable", "Network.enable", "Log.enable"):
            self.call(it)
        self.size(width, height)
        scheme = {"name": "prefers-color-scheme", "value": "dark" if dark else "light"}
        self.call("Emulation.setEmulatedMedia", features=[scheme])
        self.call("Page.navigate", url=f"file://{os.path.realpath(path)}")
        self.until("document.readyState === 'complete'")

    def __enter__(self):
        return self

    def __exit__(self, *_):
        self.browser.call("Target.closeTarget", targetId=self.target)
        self.browser.call("Target.disposeBrowserContext", browserContextId=self.context)

    def call(self, method, **parameters):
        return self.browser.call(method, session=self.session, **parameters)

    def size(self, width, height):
        self.call("Emulation.setDeviceMetricsOverride", width=width, height=height, deviceScaleFactor=1,
                  mobile=False)

    def events(self, method):
        """Returns what the browser told of the tab by events of a name."""
        return [it["params"] for it in self.browser.events
                if it.get("method") == method and it.get("sessionId") == self.session]

    def value(self, expression):
        """Returns the value of an expression in the page."""
        told = self.call("Runtime.evaluate", expression=expression, returnByValue=True, awaitPromise=True,
                         userGesture=True)
        if "exceptionDetails" in told:
            details = told["exceptionDetails"]
            raise RuntimeError(details.get("exception", {}).get("description", details["text"]))
        return told["result"].get("value")

    def until(self, expression, seconds=60):
        """Waits until an expression is true, and returns its value."""
        end = time.monotonic() + seconds
        while time.monotonic() < end:
            value = self.value(expression)
            if value:
                return value
            time.sleep(0.01)
        raise AssertionError(f"not in {seconds} s: {expression}")

    def wait(self, method, wanted, seconds=60):
        """Waits until the browser told of something by an event of a name."""
        end = time.monotonic() + seconds
        while time.monotonic() < end:
            if any(wanted(it["params"]) for it in self.browser.events if it.get("method") == method):
                return
            self.value("new Promise((tell) => setTimeout(tell, 10))")
        raise AssertionError(f"not in {seconds} s: {method}")

    def insert(self, text):
        """Types a text, all at once, where the cursor is."""
        self.call("Input.insertText", text=text)

    def key(self, name, *held):
        """Presses a key, by the name of its code, while others are held."""
        number, text = KEYS.get(name, (ord(name[-1]), name[-1].lower()))
        key = {"Space": " "}.get(name, name if name in KEYS else text)
        modifiers = sum(HELD[it] for it in held)
        said = {"code": name, "key": key, "windowsVirtualKeyCode": number, "modifiers": modifiers}
        typed = {"text": text} if text and modifiers & 3 == 0 else {}
        self.call("Input.dispatchKeyEvent", type="keyDown" if typed else "rawKeyDown", **said, **typed)
        self.call("Input.dispatchKeyEvent", type="keyUp", **said)

    def click(self, expression):
        """Clicks the middle of an element as a mouse does."""
        self.value(f"({expression}).scrollIntoView({{block: 'nearest'}})")
        x, y = self.value(f"(() => {{ const it = ({expression}).getBoundingClientRect();"
                          " return [it.x + it.width / 2, it.y + it.height / 2]; })()")
        for kind in ("mousePressed", "mouseReleased"):
            self.call("Input.dispatchMouseEvent", type=kind, x=x, y=y, button="left", clickCount=1)

    def picture(self, path):
        data = self.call("Page.captureScreenshot", format="png")["data"]
        with open(path, "wb") as it:
            it.write(base64.b64decode(data))
