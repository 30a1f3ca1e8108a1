#!/usr/bin/env python3
"""A headless Chromium, driven over its debugging pipe: a page is loaded, clicked, typed into, looked at. Standard library only.

    tests/door/browser.py PAGE.html CHAMBER TEXT OUT.png
    tests/door/browser.py PAGE.html --zoom

The first takes a picture of a planner's page, a chamber searched for by its id and the first row clicked that begins with a text. The second turns the wheel from the
whole town to its middle, step by step and back, and says how long a step takes: from the wheel's event until the picture is drawn and read back, by the clock and of
the processor.
"""
import base64
import contextlib
import json
import os
import select
import shutil
import subprocess
import sys
import tempfile
import time

PATIENCE = 120.0


def program():
    """The browser of this machine, or None."""
    return next((found for found in map(shutil.which, ("chromium", "chromium-browser", "google-chrome")) if found), None)


class Browser:
    """One page. Coordinates are those of the window."""

    def __init__(self, width=1400, height=900):
        self.folder = tempfile.TemporaryDirectory(ignore_cleanup_errors=True)
        ours, theirs = os.pipe(), os.pipe()
        # what it reads is its descriptor 3, what it writes its 4; by way of higher ones, so that none is written over
        script = 'exec "$@" 3<&%d 4>&%d' % (ours[0], theirs[1])
        words = ["bash", "-c", script, "browser", program(), "--headless", "--no-sandbox", "--disable-gpu", "--hide-scrollbars", "--remote-debugging-pipe", "--no-first-run",
                 "--disable-dev-shm-usage", "--window-size=%d,%d" % (width, height), "--user-data-dir=" + self.folder.name, "about:blank"]
        self.work = subprocess.Popen(words, stdin=subprocess.DEVNULL, stdout=subprocess.DEVNULL, stderr=subprocess.DEVNULL, pass_fds=(ours[0], theirs[1]))
        os.close(ours[0])
        os.close(theirs[1])
        self.put, self.got, self.rest, self.number, self.session = ours[1], theirs[0], b"", 0, None
        self.events = []
        target = next(one for one in self.call("Target.getTargets")["targetInfos"] if one["type"] == "page")
        self.session = self.call("Target.attachToTarget", targetId=target["targetId"], flatten=True)["sessionId"]
        for name in ("Page", "Runtime", "Log", "Network"):
            self.call(name + ".enable")
        self.call("Performance.enable", timeDomain="threadTicks")

    def __enter__(self):
        return self

    def __exit__(self, *_):
        with contextlib.suppress(OSError):
            os.close(self.put)
        os.close(self.got)
        self.work.kill()
        self.work.wait()
        self.folder.cleanup()

    def message(self, until):
        while b"\0" not in self.rest:
            if not select.select([self.got], [], [], max(until - time.monotonic(), 0))[0]:
                raise AssertionError("the browser does not answer")
            more = os.read(self.got, 1 << 20)
            if not more:
                raise AssertionError("the browser ended")
            self.rest += more
        one, self.rest = self.rest.split(b"\0", 1)
        return json.loads(one)

    def call(self, method, **words):
        self.number += 1
        asked = {"id": self.number, "method": method, "params": words}
        if self.session:
            asked["sessionId"] = self.session
        os.write(self.put, json.dumps(asked).encode() + b"\0")
        until = time.monotonic() + PATIENCE
        while True:
            said = self.message(until)
            if said.get("id") == self.number:
                if "error" in said:
                    raise AssertionError("%s: %s" % (method, said["error"]))
                return said["result"]
            self.events.append(said)

    def load(self, path):
        self.events = []
        self.call("Page.navigate", url="file://" + path)
        until = time.monotonic() + PATIENCE
        while not any(one.get("method") == "Page.loadEventFired" for one in self.events):
            self.events.append(self.message(until))
        self.settled()

    def faults(self):
        """What the page did wrong: exceptions, errors in its log, anything asked for from outside."""
        self.run("1")
        told = [one for one in self.events if one.get("method") == "Runtime.exceptionThrown" or one.get("method") == "Log.entryAdded" and one["params"]["entry"]["level"] == "error"]
        asked = [one["params"]["request"]["url"] for one in self.events if one.get("method") == "Network.requestWillBeSent"]
        return told + [url for url in asked if not url.startswith("file://")]

    def run(self, script):
        """The value of a script's expression; what it promises is waited for."""
        said = self.call("Runtime.evaluate", expression=script, returnByValue=True, awaitPromise=True)
        if "exceptionDetails" in said:
            raise AssertionError(said["exceptionDetails"])
        return said["result"].get("value")

    def settled(self):
        """Waits until what is due is drawn."""
        self.run("new Promise(done => requestAnimationFrame(() => requestAnimationFrame(done)))")

    def text(self, name):
        return self.run("document.getElementById(%s).innerText" % json.dumps(name))

    def mouse(self, kind, x, y, **more):
        self.call("Input.dispatchMouseEvent", type=kind, x=x, y=y, **more)

    def move(self, x, y):
        self.mouse("mouseMoved", x, y)
        self.settled()

    def click(self, x, y):
        self.mouse("mouseMoved", x, y)
        for kind in ("mousePressed", "mouseReleased"):
            self.mouse(kind, x, y, button="left", clickCount=1)
        self.settled()

    def drag(self, a, b):
        self.mouse("mousePressed", *a, button="left", clickCount=1)
        for part in (0.3, 0.7, 1.0):
            self.mouse("mouseMoved", a[0] + part * (b[0] - a[0]), a[1] + part * (b[1] - a[1]), button="left", buttons=1)
        self.mouse("mouseReleased", *b, button="left", clickCount=1)
        self.settled()

    def wheel(self, x, y, turns):
        for _ in range(abs(turns)):
            self.mouse("mouseWheel", x, y, deltaX=0, deltaY=-100 if turns > 0 else 100)
        self.settled()

    def spent(self):
        """The milliseconds of a processor that the page's own thread has had."""
        return next(1000 * one["value"] for one in self.call("Performance.getMetrics")["metrics"] if one["name"] == "TaskDuration")

    def step(self, x, y, turn):
        """The milliseconds of a step of the wheel, from its event to the end of the frame that draws it, read back, so that it is done; and those of the processor,
        which other work on the machine does not count to."""
        before = self.spent()
        took = self.run("new Promise(done => { const at = performance.now(); canvas.dispatchEvent(new WheelEvent('wheel', {deltaY: %d, clientX: %d, clientY: %d, cancelable: true})); "
                        "requestAnimationFrame(() => { pen.getImageData(0, 0, 1, 1); done(performance.now() - at); }); })" % (-100 if turn > 0 else 100, x, y))
        return took, self.spent() - before

    def pinch(self, a, b, to_a, to_b):
        """Two fingers put down, moved and lifted."""
        self.call("Emulation.setTouchEmulationEnabled", enabled=True, maxTouchPoints=2)
        for kind, ends in (("touchStart", (a, b)), ("touchMove", (to_a, to_b)), ("touchEnd", ())):
            self.call("Input.dispatchTouchEvent", type=kind, touchPoints=[{"x": x, "y": y, "id": k} for k, (x, y) in enumerate(ends)])
            self.settled()
        self.call("Emulation.setTouchEmulationEnabled", enabled=False)

    def press(self, key):
        for kind in ("keyDown", "keyUp"):
            self.call("Input.dispatchKeyEvent", type=kind, key=key, code=key, **({"text": "\r"} if key == "Enter" and kind == "keyDown" else {}))
        self.settled()

    def type(self, text):
        self.call("Input.insertText", text=text)
        self.settled()

    def button(self, text):
        """Clicks the first button that begins with a text."""
        place = self.run("(() => { const one = [...document.querySelectorAll('#side button')].find(b => b.innerText.startsWith(%s)); one.scrollIntoView(); "
                         "const r = one.getBoundingClientRect(); return [r.left + 10, r.top + r.height / 2]; })()" % json.dumps(text))
        self.click(*place)

    def picture(self, path):
        with open(path, "wb") as f:
            f.write(base64.b64decode(self.call("Page.captureScreenshot", format="png")["data"]))


def zoomed(page, steps=26, turns=3):
    """How long the steps of the wheel take, from the whole town in and out again, some times over."""
    with Browser() as one:
        begun = time.monotonic()
        one.load(os.path.abspath(page))
        loaded = 1000 * (time.monotonic() - begun)
        steps = [one.step(535, 378, turn) for _ in range(turns) for turn in [1] * steps + [-1] * steps]
        print("%s: %s; opened in %.0f ms, first drawn in %.0f ms; %d zoom steps" % (os.path.basename(page), one.text("about").split(".")[0], loaded, one.run("stats.first"), len(steps)))
        for what, took in zip(("by the clock", "of the processor"), map(sorted, zip(*steps))):
            print("%s: the middle one %.0f ms, one in twenty over %.0f ms, the slowest %.0f ms" % (what, took[len(took) // 2], took[len(took) * 19 // 20], took[-1]))


def main(words):
    if words[1:] == ["--zoom"]:
        return zoomed(words[0])
    if len(words) != 4:
        sys.exit(__doc__)
    page, chamber, text, out = words
    with Browser(1180, 640) as one:
        one.load(os.path.abspath(page))
        one.run("byId('search').focus()")
        one.type(chamber)
        one.press("Enter")
        one.button(text)
        one.run("byId('side').scrollTop = 0")
        one.picture(out)


if __name__ == "__main__":
    main(sys.argv[1:])
