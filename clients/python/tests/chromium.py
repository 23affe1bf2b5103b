"""A headless Chromium that a test speaks with by its debugging protocol, over two pipes."""
from __future__ import annotations

import base64
import fcntl
import json
import os
import select
import shutil
import subprocess
import time


def _far(descriptor):
    """The same open file at a descriptor that no pipe of the browser's has."""
    moved = fcntl.fcntl(descriptor, fcntl.F_DUPFD_CLOEXEC, 20)
    os.close(descriptor)
    return moved


class Chromium:
    """A browser with one page; a context manager that ends it."""

    def __init__(self, profile, width=1280, height=800):
        self.program = shutil.which("chromium")
        ours_in, theirs_out = os.pipe()
        theirs_in, ours_out = os.pipe()
        # the browser reads descriptor 3 and writes descriptor 4, which its ends of the pipes mustn't be already
        theirs_in, theirs_out = _far(theirs_in), _far(theirs_out)
        words = [self.program, "--headless", "--no-sandbox", "--disable-gpu", "--disable-dev-shm-usage",
                 "--no-first-run", "--remote-debugging-pipe", f"--user-data-dir={profile}",
                 f"--window-size={width},{height}", "about:blank"]
        code = f'exec "$@" 3<&{theirs_in} 4>&{theirs_out} {theirs_in}<&- {theirs_out}>&-'
        self.process = subprocess.Popen(["bash", "-c", code, "bash", *words], pass_fds=(theirs_in, theirs_out),
                                        stdin=subprocess.DEVNULL, stdout=subprocess.DEVNULL, stderr=subprocess.DEVNULL)
        os.close(theirs_in)
        os.close(theirs_out)
        self.reads, self.writes = ours_in, ours_out
        self.rest, self.number, self.session = b"", 0, None
        self.errors = []

    def __enter__(self):
        targets = self.call("Target.getTargets")["targetInfos"]
        page = next(target["targetId"] for target in targets if target["type"] == "page")
        self.session = self.call("Target.attachToTarget", targetId=page, flatten=True)["sessionId"]
        self.call("Runtime.enable")
        self.call("Page.enable")
        self.size(1280, 800)
        return self

    def size(self, width, height, is_phone=False):
        """Has the page this size, with touch or without."""
        self.call("Emulation.setDeviceMetricsOverride", width=width, height=height, deviceScaleFactor=1,
                  mobile=is_phone)
        self.call("Emulation.setTouchEmulationEnabled", enabled=is_phone)

    def scheme(self, name):
        """Has the page light or dark."""
        self.call("Emulation.setEmulatedMedia", features=[{"name": "prefers-color-scheme", "value": name}])

    def key(self, name, **words):
        """Presses a key, by its name or its letter."""
        text = {"text": name} if len(name) == 1 else {"text": "\r"} if name == "Enter" else {}
        self.call("Input.dispatchKeyEvent", type="keyDown", key=name, **text, **words)
        self.call("Input.dispatchKeyEvent", type="keyUp", key=name, **words)

    def touch(self, *steps):
        """Touches with one or more fingers: each step has their places."""
        for i, places in enumerate(steps):
            points = [{"x": x, "y": y, "id": finger} for finger, (x, y) in enumerate(places)]
            self.call("Input.dispatchTouchEvent", type="touchMove" if i else "touchStart", touchPoints=points)
        self.call("Input.dispatchTouchEvent", type="touchEnd", touchPoints=[])

    def __exit__(self, *_):
        self.process.terminate()
        try:
            self.process.wait(20)
        except subprocess.TimeoutExpired:
            self.process.kill()
            self.process.wait()
        os.close(self.reads)
        os.close(self.writes)

    def call(self, method, **words):
        """Has the browser do something and answers its result; errors of the page are kept aside."""
        self.number += 1
        message = {"id": self.number, "method": method, "params": words}
        if self.session:
            message["sessionId"] = self.session
        os.write(self.writes, json.dumps(message).encode() + b"\0")
        while True:
            told = self.message()
            if told.get("method") == "Runtime.exceptionThrown":
                self.errors.append(told["params"]["exceptionDetails"])
            if told.get("id") == self.number:
                assert "error" not in told, told
                return told["result"]

    def message(self):
        while b"\0" not in self.rest:
            assert select.select([self.reads], [], [], 120)[0], "the browser says nothing"
            data = os.read(self.reads, 1 << 20)
            assert data, "the browser has ended"
            self.rest += data
        text, _, self.rest = self.rest.partition(b"\0")
        return json.loads(text)

    def value(self, code):
        """The value of an expression in the page."""
        found = self.call("Runtime.evaluate", expression=code, returnByValue=True, awaitPromise=True)
        assert "exceptionDetails" not in found, found
        return found["result"].get("value")

    def wait(self, code, seconds=90):
        """Waits until an expression is true."""
        until = time.monotonic() + seconds
        while not self.value(code):
            assert time.monotonic() < until, f"never true: {code}; errors: {self.errors}"
            time.sleep(0.05)

    def mouse(self, kind, x, y, clicks=1):
        button = "none" if kind == "mouseMoved" else "left"
        buttons = 0 if kind == "mouseReleased" else 1
        self.call("Input.dispatchMouseEvent", type=kind, x=x, y=y, button=button, buttons=buttons, clickCount=clicks)

    def click(self, x, y, clicks=1):
        self.mouse("mousePressed", x, y, clicks)
        self.mouse("mouseReleased", x, y, clicks)

    def drag(self, x, y, x2, y2):
        self.mouse("mousePressed", x, y)
        self.mouse("mouseMoved", (x + x2) / 2, (y + y2) / 2)
        self.mouse("mouseMoved", x2, y2)
        self.mouse("mouseReleased", x2, y2)

    def screenshot(self, path, is_whole=False):
        """Writes a picture of what is seen, or of the whole page."""
        told = self.call("Page.captureScreenshot", format="png", captureBeyondViewport=is_whole)
        with open(path, "wb") as file:
            file.write(base64.b64decode(told["data"]))
