"""Drives a headless Chromium over its debugging pipe: no packages, no port, no network."""
import base64
import fcntl
import json
import os
import shutil
import subprocess
import tempfile
import time

PROGRAMS = ("chromium", "chromium-browser", "google-chrome", "google-chrome-stable")
WORDS = ("--headless=new", "--no-sandbox", "--disable-gpu", "--remote-debugging-pipe", "--no-first-run", "--hide-scrollbars",
         "--disable-background-networking", "--disable-component-update", "--host-resolver-rules=MAP * ~NOTFOUND")
KEYS = {"ArrowRight": 39, "ArrowLeft": 37, "Home": 36, "End": 35, " ": 32}
LOADING = 60
NOT_LOADED = "not loaded: "
MARGIN = 10


def program():
    """The browser that is installed, or None."""
    return next(filter(None, map(shutil.which, PROGRAMS)), None)


class Browser:
    def __init__(self):
        self.home = tempfile.TemporaryDirectory()
        self.number, self.rest, self.events, self.session = 0, b"", [], None
        self.start([program(), *WORDS, f"--user-data-dir={self.home.name}", "about:blank"])
        target = self.call("Target.createTarget", url="about:blank")["targetId"]
        self.session = self.call("Target.attachToTarget", targetId=target, flatten=True)["sessionId"]
        for domain in ("Page", "Runtime", "Network", "Log"):
            self.call(domain + ".enable")

    def start(self, words):
        """The browser reads descriptor 3 and writes descriptor 4."""
        given, self.to = os.pipe()
        self.back, answers = os.pipe()
        held = [fcntl.fcntl(descriptor, fcntl.F_DUPFD_CLOEXEC, 10) for descriptor in (given, answers)]  # neither is 3 or 4
        wired = 'exec "$@" 3<&{0} 4>&{1} {0}<&- {1}>&-'.format(*held)
        self.process = subprocess.Popen(["bash", "-c", wired, "browser", *words], pass_fds=held, stdout=subprocess.DEVNULL, stderr=subprocess.DEVNULL)
        for descriptor in (given, answers, *held):
            os.close(descriptor)

    def call(self, method, **given):
        self.number += 1
        message = {"id": self.number, "method": method, "params": given}
        if self.session:
            message["sessionId"] = self.session
        data = json.dumps(message).encode() + b"\0"
        while data:
            data = data[os.write(self.to, data):]
        while True:
            found = self.message()
            if found.get("id") == self.number:
                if "error" in found:
                    raise RuntimeError(f"{method}: {found['error']}")
                return found["result"]
            self.events.append(found)

    def message(self):
        while b"\0" not in self.rest:
            part = os.read(self.back, 1 << 20)
            if not part:
                raise RuntimeError("the browser ended")
            self.rest += part
        first, self.rest = self.rest.split(b"\0", 1)
        return json.loads(first)

    def evaluate(self, text):
        """The value of an expression on the page."""
        found = self.call("Runtime.evaluate", expression=text, returnByValue=True, awaitPromise=True)
        if "exceptionDetails" in found:
            raise RuntimeError(found["exceptionDetails"].get("exception", {}).get("description", str(found)))
        return found["result"].get("value")

    def resize(self, width, height):
        """Makes the window as large, and waits until the page is laid out for it."""
        self.call("Emulation.setDeviceMetricsOverride", width=width, height=height, deviceScaleFactor=1, mobile=False)
        self.evaluate("new Promise(done => requestAnimationFrame(() => requestAnimationFrame(done)))")

    def open(self, path, fragment="", width=1280, height=720, dark=False, calm=False, media=""):
        """Opens a page anew, at an address of its own, in a window of this size."""
        self.call("Emulation.setDeviceMetricsOverride", width=width, height=height, deviceScaleFactor=1, mobile=False)
        self.call("Emulation.setEmulatedMedia", media=media, features=[
            {"name": "prefers-color-scheme", "value": "dark" if dark else "light"},
            {"name": "prefers-reduced-motion", "value": "reduce" if calm else "no-preference"}])
        self.call("Page.navigate", url="about:blank")
        self.events.clear()
        self.call("Page.navigate", url="file://" + os.path.abspath(path) + ("#" + fragment if fragment else ""))
        end = time.time() + LOADING
        while not self.evaluate("document.readyState === 'complete' && location.protocol === 'file:'"):
            if time.time() > end:
                raise RuntimeError(NOT_LOADED + path)
            time.sleep(0.01)

    def key(self, key):
        for kind in ("rawKeyDown", "keyUp"):
            self.call("Input.dispatchKeyEvent", type=kind, key=key, code="Space" if key == " " else key, windowsVirtualKeyCode=KEYS[key])

    def move(self, x, y):
        """Moves the mouse, without a button."""
        self.call("Input.dispatchMouseEvent", type="mouseMoved", x=x, y=y)

    def click(self, selector):
        x, y = self.evaluate(f"""(() => {{
            const element = document.querySelector({json.dumps(selector)});
            element.scrollIntoView({{ block: "center" }});
            const box = element.getBoundingClientRect();
            return [box.left + box.width / 2, box.top + box.height / 2];
        }})()""")
        for kind in ("mousePressed", "mouseReleased"):
            self.call("Input.dispatchMouseEvent", type=kind, x=x, y=y, button="left", clickCount=1)

    def picture(self, path, width, of):
        """Writes a picture of what a selector matches, with a margin, in a window of this width."""
        height = self.evaluate("document.documentElement.scrollHeight")
        self.call("Emulation.setDeviceMetricsOverride", width=width, height=height, deviceScaleFactor=1, mobile=False)
        time.sleep(0.2)
        boxes = self.evaluate(f"""[...document.querySelectorAll({json.dumps(of)})].map(element => {{
            const box = element.getBoundingClientRect();
            return [box.left, box.top, -box.right, -box.bottom];
        }})""")
        left, top, right, bottom = (min(sides) for sides in zip(*boxes))
        clip = {"x": left - MARGIN, "y": top - MARGIN, "width": 2 * MARGIN - right - left, "height": 2 * MARGIN - bottom - top, "scale": 1}
        found = self.call("Page.captureScreenshot", format="png", captureBeyondViewport=True, clip=clip)
        with open(path, "wb") as file:
            file.write(base64.b64decode(found["data"]))

    def close(self):
        try:
            self.session = None
            self.call("Browser.close")
        except (RuntimeError, OSError):
            pass
        self.process.wait(LOADING)
        os.close(self.to)
        os.close(self.back)
        self.home.cleanup()
