"""Drives a headless Chromium over a pipe, by its DevTools protocol: loads a page, clicks, reads, and takes pictures of it."""
import base64
import json
import os
import shutil
import subprocess
import tempfile
import time

NAMES = ("chromium", "chromium-browser", "google-chrome", "chrome")
SECONDS = 120  # for one call of the browser, also on a busy machine


class BrowserFault(Exception):
    """The browser didn't do what it was asked to."""


def program():
    """The path of a Chromium; none where there is none."""
    return next((path for name in NAMES if (path := shutil.which(name))), None)


def pipes():
    """Two pipes: what the browser reads, and what it writes; each as its end and ours."""
    read_end, our_write = os.pipe()
    our_read, write_end = os.pipe()
    return (read_end, our_write), (our_read, write_end)


class Browser:
    """A browser with one page. Use it by `with`."""

    def __enter__(self):
        self.folder = tempfile.mkdtemp(prefix="bnc-browser-")
        (read_end, self.out), (self.input, write_end) = pipes()
        # The protocol's pipes have the numbers 3 and 4 in the browser.
        words = [program(), "--headless=new", "--no-sandbox", "--disable-gpu", "--disable-dev-shm-usage", "--hide-scrollbars", "--no-first-run",
                 "--disable-extensions", "--disable-background-networking", f"--user-data-dir={self.folder}", "--remote-debugging-pipe", "about:blank"]
        script = 'exec 3<&"$0" 4>&"$1"; shift; exec "$@"'
        self.process = subprocess.Popen(["bash", "-c", script, str(read_end), str(write_end)] + words, pass_fds=(read_end, write_end),
                                        stdin=subprocess.DEVNULL, stdout=subprocess.DEVNULL, stderr=subprocess.DEVNULL)
        os.close(read_end)
        os.close(write_end)
        self.buffer, self.number, self.session, self.faults = b"", 0, None, []
        target = self.call("Target.createTarget", url="about:blank")["targetId"]
        self.session = self.call("Target.attachToTarget", targetId=target, flatten=True)["sessionId"]
        for domain in ("Page", "Runtime", "Log", "Network"):
            self.call(f"{domain}.enable")
        return self

    def __exit__(self, *_):
        self.process.terminate()
        try:
            self.process.wait(10)
        except subprocess.TimeoutExpired:
            self.process.kill()
            self.process.wait()
        os.close(self.out)
        os.close(self.input)
        shutil.rmtree(self.folder, ignore_errors=True)

    # ---- the protocol

    def call(self, method, **parameters):
        """Calls a method, and gives its result."""
        self.number += 1
        message = {"id": self.number, "method": method, "params": parameters}
        if self.session:
            message["sessionId"] = self.session
        os.write(self.out, json.dumps(message).encode() + b"\0")
        end = time.monotonic() + SECONDS
        while time.monotonic() < end:
            answer = self.receive()
            if answer.get("id") == self.number:
                if "error" in answer:
                    raise BrowserFault(f"{method}: {answer['error'].get('message')}")
                return answer["result"]
            self.note(answer)
        raise BrowserFault(f"{method}: no answer")

    def receive(self):
        """The next message of the browser."""
        while b"\0" not in self.buffer:
            piece = os.read(self.input, 1 << 16)
            if not piece:
                raise BrowserFault("the browser has ended")
            self.buffer += piece
        message, _, self.buffer = self.buffer.partition(b"\0")
        return json.loads(message)

    def note(self, message):
        """Keeps what the page does wrong: script errors, messages of the console, and requests to anywhere."""
        method, parameters = message.get("method"), message.get("params", {})
        if method == "Runtime.exceptionThrown":
            detail = parameters["exceptionDetails"]
            self.faults.append(detail.get("exception", {}).get("description", detail.get("text")))
        elif method == "Runtime.consoleAPICalled" and parameters.get("type") in ("error", "warning"):
            self.faults.append(str(parameters.get("args")))
        elif method == "Log.entryAdded" and parameters["entry"]["level"] == "error":
            self.faults.append(parameters["entry"]["text"])
        elif method == "Network.requestWillBeSent" and not parameters["request"]["url"].startswith(("file:", "data:", "about:")):
            self.faults.append("a request to " + parameters["request"]["url"])

    # ---- the page

    def size(self, width, height, dark=False):
        self.call("Emulation.setDeviceMetricsOverride", width=width, height=height, deviceScaleFactor=1, mobile=width < 600)
        self.call("Emulation.setEmulatedMedia", features=[{"name": "prefers-color-scheme", "value": "dark" if dark else "light"}])

    def load(self, path):
        """Loads a page, and waits until its script has run."""
        self.call("Page.navigate", url="file://" + os.path.abspath(path))
        end = time.monotonic() + SECONDS
        while self.value("document.readyState + (document.documentElement?.dataset.ready || '')") != "completeyes":
            if time.monotonic() > end:
                raise BrowserFault(f"the page isn't ready: {self.faults}")
            time.sleep(0.05)

    def value(self, expression):
        """What an expression of the page's script gives."""
        result = self.call("Runtime.evaluate", expression=expression, returnByValue=True, awaitPromise=True)
        if "exceptionDetails" in result:
            raise BrowserFault(result["exceptionDetails"].get("exception", {}).get("description", "a script error"))
        return result["result"].get("value")

    def picture(self, path, whole=False):
        """Writes a picture of the page: what is seen, or the whole of it."""
        result = self.call("Page.captureScreenshot", format="png", captureBeyondViewport=whole)
        with open(path, "wb") as file:
            file.write(base64.b64decode(result["data"]))
