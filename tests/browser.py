"""Chromium without a window, by its own protocol over two pipes: a page is opened at a true width (an option of the command line
gives no less than 500 pixels), in a colour scheme, and looked at. Of the standard library alone.

    tests/browser.py PAGE FOLDER    pictures of a page: 360.png, 360-dark.png, 1400.png, 1400-dark.png
"""
import base64
import fcntl
import json
import os
import select
import shutil
import subprocess
import sys
import tempfile
import time

NAMES = ("chromium", "chromium-browser", "google-chrome")
WIDTHS, SCHEMES = (360, 1400), ("light", "dark")
HEIGHT = 900
PATIENCE = 600  # seconds that one call may take


def browser_there():
    return next((name for name in NAMES if shutil.which(name)), None)


class Browser:
    def __init__(self):
        self.profile = tempfile.mkdtemp()
        theirs, self.to = os.pipe()
        self.by, back = os.pipe()
        words = [browser_there(), "--headless", "--no-sandbox", "--disable-gpu", "--remote-debugging-pipe",
                 "--hide-scrollbars", "--user-data-dir=" + self.profile, "about:blank"]

        def as_3_and_4():
            # The two may themselves be 3 and 4, swapped.
            ends = [fcntl.fcntl(end, fcntl.F_DUPFD, 10) for end in (theirs, back)]
            for number, end in zip((3, 4), ends):
                os.dup2(end, number)

        self.process = subprocess.Popen(words, preexec_fn=as_3_and_4, close_fds=False, stdin=subprocess.DEVNULL,
                                        stdout=subprocess.DEVNULL, stderr=subprocess.DEVNULL)
        os.close(theirs)
        os.close(back)
        self.number, self.said, self.events, self.session = 0, b"", [], None
        target = self.call("Target.createTarget", url="about:blank")["targetId"]
        self.session = self.call("Target.attachToTarget", targetId=target, flatten=True)["sessionId"]
        for part in ("Page", "Runtime", "Log"):
            self.call(part + ".enable")

    def message(self):
        """The browser's next message."""
        end = time.monotonic() + PATIENCE
        while b"\0" not in self.said:
            if not select.select([self.by], [], [], max(0, end - time.monotonic()))[0]:
                raise TimeoutError("the browser says nothing")
            got = os.read(self.by, 1 << 16)
            if not got:
                raise EOFError("the browser ended")
            self.said += got
        message, _, self.said = self.said.partition(b"\0")
        return json.loads(message)

    def call(self, method, **values):
        self.number += 1
        asked = {"id": self.number, "method": method, "params": values}
        if self.session:
            asked["sessionId"] = self.session
        os.write(self.to, json.dumps(asked).encode() + b"\0")
        while True:
            message = self.message()
            if message.get("id") == self.number:
                if "error" in message:
                    raise ValueError("%s: %s" % (method, message["error"]))
                return message["result"]
            self.events.append(message)

    def open(self, name, width, scheme):
        self.call("Emulation.setDeviceMetricsOverride", width=width, height=HEIGHT, deviceScaleFactor=1, mobile=False)
        self.call("Emulation.setEmulatedMedia", features=[{"name": "prefers-color-scheme", "value": scheme}])
        self.events = []
        self.call("Page.navigate", url="file://" + os.path.abspath(name))
        while not any(event.get("method") == "Page.loadEventFired" for event in self.events):
            self.events.append(self.message())

    def value(self, expression):
        """The value of a JavaScript expression. The page's policy doesn't apply to it."""
        told = self.call("Runtime.evaluate", expression=expression, returnByValue=True)
        if "exceptionDetails" in told:
            raise ValueError(json.dumps(told["exceptionDetails"]))
        return told["result"].get("value")

    def point_at(self, selector):
        """Brings an element into view and moves the pointer to its middle."""
        x, y = self.value("(() => { const e = document.querySelector(%s); e.scrollIntoView({block: 'center'}); "
                          "const b = e.getBoundingClientRect(); return [b.x + b.width / 2, b.y + b.height / 2] })()" % json.dumps(selector))
        self.call("Input.dispatchMouseEvent", type="mouseMoved", x=x, y=y)

    def errors(self):
        """What is on the console."""
        return [json.dumps(event["params"])[:300] for event in self.events
                if event.get("method") in ("Log.entryAdded", "Runtime.consoleAPICalled", "Runtime.exceptionThrown")]

    def picture(self, width):
        clip = {"x": 0, "y": 0, "width": width, "height": HEIGHT, "scale": 1}
        return base64.b64decode(self.call("Page.captureScreenshot", format="png", clip=clip)["data"])

    def close(self):
        self.session = None
        try:
            self.call("Browser.close")
            self.process.wait(PATIENCE)
        except (EOFError, OSError, subprocess.TimeoutExpired):
            self.process.kill()
            self.process.wait()
        os.close(self.to)
        os.close(self.by)
        shutil.rmtree(self.profile, ignore_errors=True)


def main(page, folder):
    browser = Browser()
    for width in WIDTHS:
        for scheme in SCHEMES:
            browser.open(page, width, scheme)
            with open(os.path.join(folder, "%d%s.png" % (width, "-dark" if scheme == "dark" else "")), "wb") as file:
                file.write(browser.picture(width))
    browser.close()


if __name__ == "__main__":
    if len(sys.argv) != 3 or not browser_there():
        sys.exit(__doc__)
    main(*sys.argv[1:])
