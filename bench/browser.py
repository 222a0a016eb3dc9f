"""A browser without a window, for the tests of the pages: Chromium over its debugging pipe, by the standard library."""
import base64
import json
import os
import shutil
import subprocess
import tempfile

NAMES = ("chromium", "chromium-browser", "chromium-headless-shell", "google-chrome", "google-chrome-stable")


def program():
    """The browser of this machine, or None."""
    return next(filter(None, map(shutil.which, NAMES)), None)


class Browser:
    """One browser with one page. What it sends and what it says to its console is kept, so that a test can look."""

    def __init__(self):
        self.folder = tempfile.mkdtemp()
        read_end, self.send_to = os.pipe()
        self.read_from, write_end = os.pipe()

        def pipes():
            # The browser reads its commands from descriptor 3 and answers to descriptor 4.
            ends = os.dup(read_end), os.dup(write_end)
            os.dup2(ends[0], 3)
            os.dup2(ends[1], 4)

        self.process = subprocess.Popen(
            [program(), "--headless", "--remote-debugging-pipe", "--no-sandbox", "--disable-gpu", "--no-first-run",
             "--disable-dev-shm-usage", "--disable-background-networking", "--disable-component-update",
             "--hide-scrollbars", "--force-color-profile=srgb", "--font-render-hinting=none",
             "--user-data-dir=" + self.folder, "about:blank"],
            stdin=subprocess.DEVNULL, stdout=subprocess.DEVNULL, stderr=subprocess.DEVNULL, preexec_fn=pipes,
            close_fds=False)
        os.close(read_end)
        os.close(write_end)
        self.number, self.buffer, self.session = 0, b"", None
        self.requests, self.said, self.events = [], [], []
        target = self.call("Target.createTarget", url="about:blank")["targetId"]
        self.session = self.call("Target.attachToTarget", targetId=target, flatten=True)["sessionId"]
        for domain in ("Page", "Network", "Runtime", "Log", "DOM"):
            self.call(domain + ".enable")

    def message(self):
        while b"\0" not in self.buffer:
            more = os.read(self.read_from, 1 << 20)
            if not more:
                raise EOFError("the browser has ended")
            self.buffer += more
        line, self.buffer = self.buffer.split(b"\0", 1)
        return json.loads(line)

    def note(self, message):
        """Keeps an event."""
        what, given = message.get("method"), message.get("params", {})
        self.events.append(what)
        if what == "Network.requestWillBeSent":
            self.requests.append(given["request"]["url"])
        elif what == "Runtime.consoleAPICalled":
            self.said.append(given["type"] + ": " + " ".join(str(one.get("value")) for one in given["args"]))
        elif what == "Runtime.exceptionThrown":
            self.said.append("exception: " + given["exceptionDetails"]["text"])
        elif what == "Log.entryAdded":
            self.said.append(given["entry"]["level"] + ": " + given["entry"]["text"])

    def call(self, method, **given):
        self.number += 1
        sent = {"id": self.number, "method": method, "params": given}
        if self.session:
            sent["sessionId"] = self.session
        os.write(self.send_to, json.dumps(sent).encode() + b"\0")
        while True:
            message = self.message()
            if message.get("id") == self.number:
                if "error" in message:
                    raise RuntimeError("%s: %s" % (method, message["error"]["message"]))
                return message["result"]
            self.note(message)

    def open(self, path, width=1280, height=900, scale=1, mobile=False):
        """Loads a file in a window of this size, and waits until it is there."""
        self.call("Emulation.setDeviceMetricsOverride", width=width, height=height, deviceScaleFactor=scale,
                  mobile=mobile)
        self.requests, self.said, self.events = [], [], []
        self.call("Page.navigate", url="file://" + os.path.abspath(path))
        while "Page.loadEventFired" not in self.events:
            self.note(self.message())

    def value(self, expression):
        """The value of an expression in the page."""
        result = self.call("Runtime.evaluate", expression=expression, returnByValue=True)
        if "exceptionDetails" in result:
            raise RuntimeError(result["exceptionDetails"]["exception"]["description"])
        return result["result"].get("value")

    def press(self, key, code):
        for kind in ("keyDown", "keyUp"):
            given = {"text": "\r"} if key == "Enter" and kind == "keyDown" else {}
            self.call("Input.dispatchKeyEvent", type=kind, key=key, code=key, windowsVirtualKeyCode=code, **given)

    def picture(self, path, whole=False, clip=None):
        given = {"captureBeyondViewport": True} if whole or clip else {}
        if clip:
            given["clip"] = dict(zip(("x", "y", "width", "height"), clip), scale=1)
        elif whole:
            size = self.call("Page.getLayoutMetrics")["cssContentSize"]
            given["clip"] = {"x": 0, "y": 0, "width": size["width"], "height": size["height"], "scale": 1}
        with open(path, "wb") as file:
            file.write(base64.b64decode(self.call("Page.captureScreenshot", format="png", **given)["data"]))

    def print(self, path, inches=(8.27, 11.69)):
        """The page as a PDF on paper of this size (A4 without it)."""
        with open(path, "wb") as file:
            file.write(base64.b64decode(self.call("Page.printToPDF", paperWidth=inches[0], paperHeight=inches[1],
                                                  printBackground=True, preferCSSPageSize=False)["data"]))

    def close(self):
        self.process.terminate()
        self.process.wait()
        os.close(self.send_to)
        os.close(self.read_from)
        shutil.rmtree(self.folder, ignore_errors=True)
