"""Chromium without a window, driven by its DevTools protocol over two pipes."""

import json
import os
import select
import shutil
import subprocess
import tempfile
import time


class Browser:
    """A browser with one page: `ask` evaluates JavaScript there, and waits for what it promises."""

    def __init__(self, chromium, *more):
        self.folder = tempfile.mkdtemp()
        to_browser, self.out = os.pipe()
        self.input, from_browser = os.pipe()

        def take_pipes():
            # the browser reads from 3 and writes to 4
            high = os.dup(to_browser), os.dup(from_browser)
            os.dup2(high[0], 3)
            os.dup2(high[1], 4)

        words = ["--headless=new", "--no-sandbox", "--disable-gpu", "--no-first-run", "--disable-extensions", "--disable-background-networking", "--disable-dev-shm-usage"]
        words += ["--remote-debugging-pipe", f"--user-data-dir={self.folder}", "--window-size=1300,1700", *more, "about:blank"]
        self.ran = subprocess.Popen([chromium, *words], stdout=subprocess.DEVNULL, stderr=subprocess.DEVNULL, preexec_fn=take_pipes, close_fds=False)
        os.close(to_browser)
        os.close(from_browser)
        self.number, self.read, self.events = 0, b"", []
        target = self.call("Target.createTarget", url="about:blank")["targetId"]
        self.session = self.call("Target.attachToTarget", targetId=target, flatten=True)["sessionId"]
        for domain in ["Page", "Runtime", "Log", "Network"]:
            self.call(f"{domain}.enable")

    def __enter__(self):
        return self

    def __exit__(self, *_):
        self.ran.terminate()
        try:
            self.ran.wait(10)
        except subprocess.TimeoutExpired:
            self.ran.kill()
            self.ran.wait()
        os.close(self.out)
        os.close(self.input)
        shutil.rmtree(self.folder, ignore_errors=True)

    def message(self, until):
        while b"\0" not in self.read:
            left = until - time.monotonic()
            if left <= 0 or not select.select([self.input], [], [], left)[0]:
                raise TimeoutError("the browser says nothing")
            more = os.read(self.input, 1 << 20)
            if not more:
                raise EOFError("the browser ended")
            self.read += more
        text, self.read = self.read.split(b"\0", 1)
        return json.loads(text)

    def call(self, method, seconds=60, **parts):
        self.number += 1
        sent = {"id": self.number, "method": method, "params": parts}
        if hasattr(self, "session"):
            sent["sessionId"] = self.session
        data = json.dumps(sent).encode() + b"\0"
        while data:
            data = data[os.write(self.out, data) :]
        until = time.monotonic() + seconds
        while True:
            got = self.message(until)
            if got.get("id") == self.number:
                if "error" in got:
                    raise RuntimeError(f"{method}: {got['error']}")
                return got["result"]
            if "method" in got:
                self.events.append(got)

    def ask(self, script, seconds=120):
        """What an expression gives, once its promise is kept."""
        got = self.call("Runtime.evaluate", seconds=seconds, expression=script, awaitPromise=True, returnByValue=True, userGesture=True)
        if "exceptionDetails" in got:
            raise RuntimeError(f"{script[:200]}: {got['exceptionDetails'].get('exception', {}).get('description')}")
        return got["result"].get("value")

    def open(self, address):
        """Loads an address, of the page that is shown or another."""
        self.call("Page.navigate", url="about:blank")
        self.call("Page.navigate", url=address)

    def wait(self, script, seconds=60):
        """Waits until an expression holds."""
        until = time.monotonic() + seconds
        while not self.ask(f"document.documentElement && ({script})"):
            if time.monotonic() > until:
                raise TimeoutError(f"it doesn't come to pass: {script}")
            time.sleep(0.02)

    def picture(self):
        """The page as it looks, in PNG."""
        return self.call("Page.captureScreenshot", format="png")["data"]

    def complaints(self):
        """What the page was refused, or failed at, and what it fetched over a network."""
        said = []
        for event in self.events:
            parts = event["params"]
            if event["method"] == "Log.entryAdded" and parts["entry"]["level"] == "error":
                said.append(parts["entry"]["text"])
            if event["method"] == "Runtime.exceptionThrown":
                said.append(parts["exceptionDetails"].get("exception", {}).get("description", parts["exceptionDetails"]["text"]))
            if event["method"] == "Network.requestWillBeSent" and not parts["request"]["url"].startswith(("file:", "blob:", "about:", "data:")):
                said.append(f"it asks for {parts['request']['url']}")
        return said
