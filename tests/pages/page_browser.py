"""A browser that is driven by its pipe: no port is opened, and no package is wanted. Without one, a small document in node."""
import base64
import json
import os
import shutil
import subprocess
import tempfile
import time
from pathlib import Path

NAMES = ("chromium", "chromium-browser", "google-chrome")


def browser_path():
    """Where a browser is installed, or None."""
    return next((path for path in map(shutil.which, NAMES) if path), None)


# What a browser does by itself with a key is asked for by its number.
CODES = {"Tab": 9, "ArrowLeft": 37, "ArrowRight": 39, "Home": 36, "End": 35, "Enter": 13}


def open_browser():
    """A browser, or else a small document in node, or None."""
    if path := browser_path():
        return Browser(path)
    return SmallBrowser(node) if (node := shutil.which("node")) else None


class Reader:
    """What is read off a page by what its script can ask."""

    def text(self, selector):
        return self.do(f"(document.querySelector({json.dumps(selector)}) || {{ textContent: '' }}).textContent")

    def word(self):
        return self.do("document.getElementById('word').value")


class SmallBrowser(Reader):
    """A page in node: as much of a document as its script uses. Nothing is laid out."""

    has_layout = False

    def __init__(self, program):
        self.faults, self.asked = [], []
        words = [program, str(Path(__file__).with_name("page_dom.js"))]
        self.process = subprocess.Popen(words, stdin=subprocess.PIPE, stdout=subprocess.PIPE, text=True, encoding="utf-8")

    def ask(self, *words):
        self.process.stdin.write(json.dumps(words) + "\n")
        self.process.stdin.flush()
        answer = json.loads(self.process.stdout.readline() or '{"fault": "node ended"}')
        if "fault" in answer:
            self.faults.append(answer["fault"])
        return answer.get("value")

    def load(self, path, place=""):
        self.faults = []
        self.ask("load", str(path), place)
        self.faults += self.ask("faults")

    def do(self, expression):
        value = self.ask("do", expression)
        self.faults += self.ask("faults")
        return value

    def press(self, key):
        self.ask("press", key)

    def click(self, selector, number=0):
        self.ask("click", selector, number)

    def back(self):
        self.ask("back")

    def print(self):
        self.ask("print")

    def close(self):
        self.process.stdin.close()
        self.process.wait(20)


class Browser(Reader):
    """One page at a time, with what went wrong in it and what it asked for."""

    has_layout = True

    def __init__(self, program, width=1600, height=900):
        self.folder = tempfile.mkdtemp()
        ours, theirs = os.pipe(), os.pipe()

        def pipes():
            os.dup2(ours[0], 1003)
            os.dup2(theirs[1], 1004)
            os.dup2(1003, 3)
            os.dup2(1004, 4)

        words = ["--headless", "--no-sandbox", "--disable-gpu", "--remote-debugging-pipe", "--user-data-dir=" + self.folder,
                 f"--window-size={width},{height}", "about:blank"]
        self.process = subprocess.Popen([program, *words], preexec_fn=pipes, close_fds=False, stdout=subprocess.DEVNULL, stderr=subprocess.DEVNULL)
        os.close(ours[0])
        os.close(theirs[1])
        self.out, self.into, self.rest, self.count = ours[1], theirs[0], b"", 0
        self.faults, self.asked, self.session = [], [], None
        target = self.call("Target.createTarget", url="about:blank")["targetId"]
        self.session = self.call("Target.attachToTarget", targetId=target, flatten=True)["sessionId"]
        for domain in ("Runtime", "Page", "Network", "Log"):
            self.call(domain + ".enable")

    def read(self):
        while b"\0" not in self.rest:
            got = os.read(self.into, 1 << 20)
            if not got:
                raise RuntimeError("the browser ended")
            self.rest += got
        text, self.rest = self.rest.split(b"\0", 1)
        message = json.loads(text)
        self.note(message.get("method"), message.get("params"))
        return message

    def note(self, method, told):
        if method == "Runtime.exceptionThrown":
            self.faults.append(told["exceptionDetails"].get("exception", {}).get("description", "exception"))
        if method == "Log.entryAdded" and told["entry"]["level"] == "error":
            self.faults.append(told["entry"]["text"])
        if method == "Network.requestWillBeSent":
            self.asked.append(told["request"]["url"])

    def call(self, method, **params):
        self.count += 1
        message = {"id": self.count, "method": method, "params": params}
        if self.session:
            message["sessionId"] = self.session
        os.write(self.out, json.dumps(message).encode() + b"\0")
        while True:
            answer = self.read()
            if answer.get("id") == self.count:
                if "error" in answer:
                    raise RuntimeError(f"{method}: {answer['error']}")
                return answer["result"]

    def load(self, path, place=""):
        self.faults, self.asked = [], []
        self.call("Page.navigate", url="about:blank")
        self.call("Page.navigate", url=f"file://{path}{place}")
        for _ in range(400):
            if self.do("document.readyState === 'complete' && location.protocol === 'file:'"):
                return
            time.sleep(0.05)
        self.faults.append("not loaded")

    def do(self, expression):
        """The value of an expression of the page."""
        answer = self.call("Runtime.evaluate", expression=expression, returnByValue=True)
        if "exceptionDetails" in answer:
            self.faults.append(str(answer["exceptionDetails"])[:300])
            return None
        return answer["result"].get("value")

    def press(self, key):
        text = {"text": key} if len(key) == 1 else {"text": "\r"} if key == "Enter" else {}
        code = {"windowsVirtualKeyCode": CODES[key], "code": key} if key in CODES else {}
        self.call("Input.dispatchKeyEvent", type="keyDown", key=key, **text, **code)
        self.call("Input.dispatchKeyEvent", type="keyUp", key=key, **code)

    def click(self, selector, number=0):
        box = self.do(f"""(() => {{
          const element = document.querySelectorAll({json.dumps(selector)})[{number}];
          element.scrollIntoView({{ block: "nearest", inline: "nearest" }});
          const box = element.getBoundingClientRect();
          return [box.x + box.width / 2, box.y + box.height / 2];
        }})()""")
        for kind in ("mousePressed", "mouseReleased"):
            self.call("Input.dispatchMouseEvent", type=kind, x=box[0], y=box[1], button="left", clickCount=1)

    def back(self):
        history = self.call("Page.getNavigationHistory")
        self.call("Page.navigateToHistoryEntry", entryId=history["entries"][history["currentIndex"] - 1]["id"])
        time.sleep(0.1)

    def print(self):
        self.do("dispatchEvent(new Event('beforeprint'))")

    def printed(self):
        """The page as it is printed, as PDF."""
        return base64.b64decode(self.call("Page.printToPDF", printBackground=True)["data"])

    def look(self, width, height, scheme):
        self.call("Emulation.setDeviceMetricsOverride", width=width, height=height, deviceScaleFactor=1, mobile=False)
        self.call("Emulation.setEmulatedMedia", features=[{"name": "prefers-color-scheme", "value": scheme}])

    def shot(self, path):
        path.write_bytes(base64.b64decode(self.call("Page.captureScreenshot")["data"]))

    def close(self):
        try:
            self.session = None
            os.write(self.out, json.dumps({"id": 1 << 20, "method": "Browser.close"}).encode() + b"\0")
        except OSError:
            pass
        try:
            self.process.wait(20)
        except subprocess.TimeoutExpired:
            self.process.kill()
        shutil.rmtree(self.folder, ignore_errors=True)
