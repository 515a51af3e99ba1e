"""Chromium and Firefox without a window, by WebDriver BiDi: pages are opened, files are put into them, pictures are
taken.

Needs Debian's python3-websocket, and chromium with chromium-driver, or firefox-esr."""
from __future__ import annotations

import base64
import itertools
import json
import re
import shutil
import subprocess
import tempfile
import time
import urllib.request
from pathlib import Path
from typing import Any

import websocket

SECONDS = 120
CHROMIUM_WORDS = ["--headless=new", "--no-sandbox", "--disable-gpu", "--disable-dev-shm-usage", "--hide-scrollbars"]
# Firefox takes what a page is told of the looks from here: 0 is dark, 1 is light.
LOOKS = 'user_pref("layout.css.prefers-color-scheme.content-override", %d);\n'


def started(words: list[str]) -> subprocess.Popen[str]:
    return subprocess.Popen(words, stdout=subprocess.PIPE, stderr=subprocess.STDOUT, text=True)


class Browser:
    """A browser with one page. It is to be closed."""

    def __init__(self, name: str, is_dark: bool = False):
        self.name, self.numbers = name, itertools.count(1)
        self.folder = Path(tempfile.mkdtemp(prefix="heads_browser_"))
        start = {"chromium": self._start_chromium, "firefox": self._start_firefox}[name]
        self.socket = websocket.create_connection(start(is_dark), timeout=SECONDS, suppress_origin=True)
        if name == "firefox":
            self.send("session.new", capabilities={})
        self.page = self.send("browsingContext.getTree")["contexts"][0]["context"]

    def _start_chromium(self, is_dark: bool) -> str:
        self.process = started(["chromedriver", "--port=0"])
        port = self._said(r"started successfully on port (\d+)")
        words = [*CHROMIUM_WORDS, f"--user-data-dir={self.folder}", *(["--force-dark-mode"] if is_dark else [])]
        wanted = {"webSocketUrl": True, "goog:chromeOptions": {"args": words}}
        body = json.dumps({"capabilities": {"alwaysMatch": wanted}}).encode()
        request = urllib.request.Request(f"http://127.0.0.1:{port}/session", body, {"Content-Type": "application/json"})
        with urllib.request.urlopen(request, timeout=SECONDS) as answer:
            return json.load(answer)["value"]["capabilities"]["webSocketUrl"]

    def _start_firefox(self, is_dark: bool) -> str:
        (self.folder / "user.js").write_text(LOOKS % (0 if is_dark else 1))
        words = ["firefox-esr", "--headless", "--no-remote", "--remote-debugging-port", "0"]
        self.process = started([*words, "--profile", str(self.folder)])
        return self._said(r"WebDriver BiDi listening on (ws://\S+)") + "/session"

    def _said(self, pattern: str) -> str:
        """What the browser's own output has in the place of the pattern's group."""
        assert self.process.stdout
        for line in self.process.stdout:
            found = re.search(pattern, line)
            if found:
                return found[1]
        raise RuntimeError(f"{self.name} did not start")

    def send(self, method: str, **params: Any) -> Any:
        number = next(self.numbers)
        self.socket.send(json.dumps({"id": number, "method": method, "params": params}))
        while True:
            answer = json.loads(self.socket.recv())
            if answer.get("id") == number:
                if answer["type"] == "error":
                    raise RuntimeError(f"{self.name}: {method}: {answer['error']}: {answer['message']}")
                return answer["result"]

    def open(self, address: str) -> None:
        self.send("browsingContext.navigate", context=self.page, url=address, wait="complete")

    def evaluate(self, text: str) -> Any:
        """The value of an expression, which may be a promise of a text, a number or a truth value."""
        done = self.send("script.evaluate", expression=text, target={"context": self.page}, awaitPromise=True)
        if done["type"] != "success":
            raise RuntimeError(f"{self.name}: {text}: {done['exceptionDetails']['text']}")
        return done["result"].get("value")

    def put_files(self, selector: str, paths: list[Path]) -> None:
        """Chooses files in a field of the page."""
        found = self.send("browsingContext.locateNodes", context=self.page, locator={"type": "css", "value": selector})
        node = {"sharedId": found["nodes"][0]["sharedId"]}
        self.send("input.setFiles", context=self.page, element=node, files=[str(path) for path in paths])

    def press(self, *keys: str) -> None:
        moves = [{"type": kind, "value": key} for key in keys for kind in ("keyDown", "keyUp")]
        self.send("input.performActions", context=self.page, actions=[{"type": "key", "id": "keys", "actions": moves}])

    def resize(self, width: int, height: int) -> None:
        self.send("browsingContext.setViewport", context=self.page, viewport={"width": width, "height": height})

    def picture(self, path: Path) -> None:
        data = self.send("browsingContext.captureScreenshot", context=self.page, origin="document")["data"]
        path.write_bytes(base64.b64decode(data))

    def wait(self, text: str, seconds: float = SECONDS) -> None:
        """Until an expression is true."""
        end = time.monotonic() + seconds
        while not self.evaluate(text):
            if time.monotonic() > end:
                raise RuntimeError(f"{self.name}: not so after {seconds} s: {text}")
            time.sleep(0.05)

    def close(self) -> None:
        try:
            self.send("browser.close")
        except (RuntimeError, OSError, websocket.WebSocketException):
            pass
        self.socket.close()
        self.process.terminate()
        self.process.wait()
        shutil.rmtree(self.folder, ignore_errors=True)
