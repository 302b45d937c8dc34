"""A headless Chromium with one page, driven through two pipes, as a user would: files are given to its fields, and what it shows is read."""

import json
import os
import select
import subprocess
import tempfile
import time
from pathlib import Path

SECONDS = 120
QUIET = ("--disable-background-networking", "--disable-component-update", "--disable-sync", "--disable-domain-reliability", "--no-pings")


class Browser:
    """A browser that shows a page from the disk. `words` are more of its command line, and `before` is a script that is run before the page."""

    def __init__(self, page, *words, before=""):
        down, self.to = os.pipe()
        self.of, up = os.pipe()
        self.folder = tempfile.TemporaryDirectory(ignore_cleanup_errors=True)
        command = ["chromium", "--headless=new", "--no-sandbox", "--disable-gpu", "--disable-dev-shm-usage", "--remote-debugging-pipe",
                   "--no-first-run", *QUIET, f"--user-data-dir={self.folder.name}", *words, "about:blank"]

        def place():
            # the pipes may have the numbers 3 and 4 already
            given, answers = os.dup(down), os.dup(up)
            os.dup2(given, 3)
            os.dup2(answers, 4)

        how = {"stdout": subprocess.DEVNULL, "stderr": subprocess.DEVNULL, "preexec_fn": place, "close_fds": False}
        self.process = subprocess.Popen(command, **how)
        os.close(down)
        os.close(up)
        self.number, self.rest, self.session, self.events = 0, b"", None, []
        target = self.ask("Target.createTarget", url="about:blank")["targetId"]
        self.session = self.ask("Target.attachToTarget", targetId=target, flatten=True)["sessionId"]
        for domain in ("Page", "Runtime", "DOM", "Log"):
            self.ask(f"{domain}.enable")
        self.ask("Page.addScriptToEvaluateOnNewDocument", source=before)
        self.ask("Page.navigate", url=Path(page).resolve().as_uri())
        self.wait("document.readyState === 'complete'")

    def __enter__(self):
        return self

    def __exit__(self, *_):
        self.process.terminate()
        self.process.wait()
        os.close(self.to)
        os.close(self.of)
        self.folder.cleanup()

    def ask(self, method, **parameters):
        """Sends a command to the browser, and returns the result."""
        self.number += 1
        message = {"id": self.number, "method": method, "params": parameters, **({"sessionId": self.session} if self.session else {})}
        data = json.dumps(message).encode() + b"\0"
        while data:
            data = data[os.write(self.to, data) :]
        while True:
            came = self._next()
            if came.get("id") != self.number:
                self.events.append(came)
            elif "error" in came:
                raise RuntimeError(came["error"])
            else:
                return came["result"]

    def _next(self):
        while b"\0" not in self.rest:
            if not select.select([self.of], [], [], SECONDS)[0]:
                raise RuntimeError("the browser says nothing")
            more = os.read(self.of, 1 << 20)
            if not more:
                raise RuntimeError("the browser has ended")
            self.rest += more
        one, _, self.rest = self.rest.partition(b"\0")
        return json.loads(one)

    def value(self, expression):
        """Returns the value of an expression in the page."""
        came = self.ask("Runtime.evaluate", expression=expression, awaitPromise=True, returnByValue=True)
        if "exceptionDetails" in came:
            raise RuntimeError(came["exceptionDetails"])
        return came["result"].get("value")

    def wait(self, expression, seconds=SECONDS):
        """Waits until an expression holds."""
        end = time.monotonic() + seconds
        while not self.value(expression):
            if time.monotonic() > end:
                raise RuntimeError(f"in vain: {expression}; {self.value('document.body.innerText')[:500]!r}")
            time.sleep(0.01)

    def text(self, field):
        """Returns the text of an element, or nothing if there is none."""
        return self.value(f"document.getElementById('{field}')?.textContent ?? null")

    def click(self, field):
        """Clicks a field, as a user does to choose files, and chooses none."""
        self.value(f"document.getElementById('{field}').dispatchEvent(new MouseEvent('click', {{cancelable: true}})); 1")

    def give(self, field, *files):
        """Gives files to a field, as by its button."""
        node = self.ask("Runtime.evaluate", expression=f"document.getElementById('{field}')")["result"]["objectId"]
        self.click(field)
        self.ask("DOM.setFileInputFiles", files=[str(it) for it in files], objectId=node)

    def errors(self):
        """Returns what the browser has logged as errors, and what was thrown and not caught."""
        said = [it["params"] for it in self.events if it.get("method") in ("Log.entryAdded", "Runtime.exceptionThrown")]
        return [it for it in said if it.get("entry", {}).get("level", "error") == "error"]
