"""A browser without a window, driven over a pipe by the messages of its developers' tools."""
import base64
import json
import os
import shutil
import subprocess
import tempfile
from pathlib import Path
from select import select
from types import TracebackType
from typing import Any, Dict, List, Optional, Type

# Debian's name is the first.
NAMES = ("chromium", "chromium-headless-shell", "chromium-browser", "google-chrome")
PROGRAM = next(filter(None, map(shutil.which, NAMES)), None)
MISSING = "what a browser makes of a page, since no chromium is installed"
WORDS = [
    "--headless", "--no-sandbox", "--disable-gpu", "--disable-dev-shm-usage", "--no-first-run", "--hide-scrollbars",
    "--disable-background-networking", "--disable-component-update", "--remote-debugging-pipe",
]
PATIENCE = 60


class Browser:
    """One window, which is closed at the end of a `with`. What the page says on its console is kept."""

    def __init__(self) -> None:
        self.folder = tempfile.mkdtemp(prefix="browser")
        given, self.writes = os.pipe()
        self.reads, printed = os.pipe()
        # The browser reads from 3 and writes to 4, whichever these are here.
        words = ["bash", "-c", f'exec "$0" "$@" 3<&{given} 4>&{printed}', str(PROGRAM), *WORDS]
        self.process = subprocess.Popen(
            [*words, f"--user-data-dir={self.folder}", "about:blank"], pass_fds=(given, printed),
            stderr=subprocess.DEVNULL, stdout=subprocess.DEVNULL,
        )
        os.close(given)
        os.close(printed)
        self.number, self.rest, self.session = 0, b"", ""
        self.events: List[Dict[str, Any]] = []

    def __enter__(self) -> "Browser":
        target = self.ask("Target.createTarget", url="about:blank")["targetId"]
        self.session = self.ask("Target.attachToTarget", targetId=target, flatten=True)["sessionId"]
        for domain in ("Page", "Runtime", "Log", "Network"):
            self.ask(f"{domain}.enable")
        return self

    def __exit__(
        self, kind: Optional[Type[BaseException]], error: Optional[BaseException], trace: Optional[TracebackType],
    ) -> None:
        self.process.terminate()
        self.process.wait()
        os.close(self.reads)
        os.close(self.writes)
        shutil.rmtree(self.folder, ignore_errors=True)

    def ask(self, method: str, **words: Any) -> Dict[str, Any]:
        """The answer to a message; what comes before it are events."""
        self.number += 1
        message: Dict[str, Any] = {"id": self.number, "method": method, "params": words}
        if self.session:
            message["sessionId"] = self.session
        os.write(self.writes, json.dumps(message).encode() + b"\0")
        while True:
            found = self.next()
            if found.get("id") == self.number:
                if "error" in found:
                    raise RuntimeError(f"{method}: {found['error']}")
                result: Dict[str, Any] = found["result"]
                return result
            self.events.append(found)

    def next(self) -> Dict[str, Any]:
        while b"\0" not in self.rest:
            if not select([self.reads], [], [], PATIENCE)[0]:
                raise RuntimeError("the browser says nothing")
            more = os.read(self.reads, 1 << 20)
            if not more:
                raise RuntimeError("the browser has ended")
            self.rest += more
        message, _, self.rest = self.rest.partition(b"\0")
        found: Dict[str, Any] = json.loads(message)
        return found

    def open(self, file: Path) -> None:
        """Opens a file, and waits until it is shown."""
        self.events.clear()
        self.ask("Page.navigate", url=file.as_uri())
        while not any(event["method"] == "Page.loadEventFired" for event in self.events):
            self.events.append(self.next())

    def value(self, code: str) -> Any:
        """Returns the value of an expression in the page, after waiting for it."""
        found = self.ask("Runtime.evaluate", expression=code, returnByValue=True, awaitPromise=True, userGesture=True)
        if "exceptionDetails" in found:
            raise RuntimeError(f"{code}: {found['exceptionDetails']}")
        return found["result"].get("value")

    def faults(self) -> List[str]:
        """Returns the errors of the console, and the addresses that the page requested, without saved files."""
        wrong = [one for one in self.events if one["method"] in ("Runtime.exceptionThrown", "Log.entryAdded")]
        asked = [one for one in self.events if one["method"] == "Network.requestWillBeSent"]
        urls = [one["params"]["request"]["url"] for one in asked[1:]]
        return [json.dumps(one["params"]) for one in wrong] + [url for url in urls if not url.startswith("blob:")]

    def press(self, key: str, code: int, text: str = "") -> None:
        words: Dict[str, Any] = {"key": key, "code": key, "windowsVirtualKeyCode": code}
        self.ask("Input.dispatchKeyEvent", type="keyDown", text=text, **words)
        self.ask("Input.dispatchKeyEvent", type="keyUp", **words)

    def show(self, width: int, scheme: str, height: int = 900) -> None:
        """The width in pixels, and whether it is light or dark."""
        self.ask(
            "Emulation.setDeviceMetricsOverride", width=width, height=height, deviceScaleFactor=1, mobile=width < 600,
        )
        features = [{"name": "prefers-color-scheme", "value": scheme}]
        self.ask("Emulation.setEmulatedMedia", media="screen", features=features)

    def picture(self) -> bytes:
        """All of the page as PNG."""
        found = self.ask("Page.captureScreenshot", format="png", captureBeyondViewport=True)
        return base64.b64decode(found["data"])

    def paper(self) -> bytes:
        """The page as it is printed on A4, as PDF."""
        self.ask("Emulation.setEmulatedMedia", media="")
        found = self.ask("Page.printToPDF", preferCSSPageSize=True, printBackground=False)
        return base64.b64decode(found["data"])
