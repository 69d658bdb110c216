"""Headless Chromium, which tests drive as an operator would use it."""
import base64
import contextlib
import fcntl
import json
import os
import select
import shutil
import subprocess
import tempfile
import time

from tools.node import Json

CHROMIUM = ("chromium", "chromium-browser", "google-chrome", "chromium-headless-shell")
# The options that run Chromium headless, and without its background activity.
QUIETLY = ["--headless=new", "--remote-debugging-pipe", "--no-sandbox", "--disable-gpu", "--hide-scrollbars",
           "--no-first-run", "--disable-background-networking", "--disable-component-update", "--disable-dev-shm-usage"]


class Browser:
    """Headless Chromium, driven over a pipe: each message is JSON, with a zero byte behind it."""

    def __init__(self, program: str) -> None:
        self.folder = tempfile.TemporaryDirectory(ignore_cleanup_errors=True)
        there, self.out = os.pipe()
        self.inn, back = os.pipe()
        there, back = (fcntl.fcntl(end, fcntl.F_DUPFD_CLOEXEC, 20) for end in (there, back))

        def hand() -> None:
            os.dup2(there, 3)
            os.dup2(back, 4)

        words = [program, *QUIETLY, f"--user-data-dir={self.folder.name}", "about:blank"]
        self.process = subprocess.Popen(words, close_fds=False, preexec_fn=hand, stdin=subprocess.DEVNULL,
                                        stdout=subprocess.DEVNULL, stderr=subprocess.DEVNULL)
        os.close(there)
        os.close(back)
        self.count, self.left = 0, b""
        self.session: str | None = None
        self.strange: list[str] = []

    def call(self, method: str, **params: object) -> Json:
        self.count += 1
        text: Json = {"id": self.count, "method": method, "params": params}
        if self.session:
            text["sessionId"] = self.session
        os.write(self.out, json.dumps(text).encode() + b"\0")
        end = time.monotonic() + 60
        while True:
            while b"\0" not in self.left:
                if not select.select([self.inn], [], [], max(0, end - time.monotonic()))[0]:
                    raise TimeoutError(method)
                came = os.read(self.inn, 1 << 20)
                if not came:
                    raise EOFError(method)
                self.left += came
            message, self.left = self.left.split(b"\0", 1)
            heard = json.loads(message)
            if heard.get("id") == self.count:
                if "error" in heard:
                    raise RuntimeError(f"{method}: {heard['error']}")
                return heard["result"]
            self.note(heard)

    def note(self, heard: Json) -> None:
        """Records what the page throws and what the browser complains of, except that a node refuses a request."""
        if heard.get("method") == "Runtime.exceptionThrown":
            exception = heard["params"]["exceptionDetails"].get("exception", {})
            self.strange.append(exception.get("description", "an exception"))
        elif heard.get("method") == "Log.entryAdded" and heard["params"]["entry"]["source"] != "network":
            self.strange.append(heard["params"]["entry"]["text"])

    def opens(self, url: str, width: int = 1280, height: int = 900, dark: bool = False) -> None:
        self.session = None
        target = self.call("Target.createTarget", url="about:blank")["targetId"]
        self.session = self.call("Target.attachToTarget", targetId=target, flatten=True)["sessionId"]
        for domain in ("Page", "Runtime", "Log"):
            self.call(f"{domain}.enable")
        self.looks(width, height, dark)
        self.call("Page.navigate", url=url)

    def looks(self, width: int, height: int, dark: bool) -> None:
        self.call("Emulation.setDeviceMetricsOverride", width=width, height=height, deviceScaleFactor=1, mobile=False)
        self.call("Emulation.setEmulatedMedia",
                  features=[{"name": "prefers-color-scheme", "value": "dark" if dark else "light"}])

    def ends(self) -> None:
        """Closes the open page."""
        self.call("Page.close")
        self.session = None

    def get(self, text: str) -> Json:
        came = self.call("Runtime.evaluate", expression=text, returnByValue=True, awaitPromise=True)
        if "exceptionDetails" in came:
            raise RuntimeError(f"{text}: {came['exceptionDetails']}")
        return came["result"].get("value")

    def waits(self, text: str, seconds: float = 20) -> bool:
        end = time.monotonic() + seconds
        while time.monotonic() < end:
            if self.get(f"!!({text})"):
                return True
            time.sleep(0.1)
        return False

    def click(self, element: str) -> bool:
        """Clicks on the middle of an element, and returns whether that could be seen without scrolling."""
        spot = self.get(f"(() => {{ const it = {element}; if (!it) return null;"
                        " const r = it.getBoundingClientRect(), x = r.x + r.width / 2, y = r.y + r.height / 2;"
                        " return it.contains(document.elementFromPoint(x, y)) ? [x, y] : null; })()")
        for kind in ("mousePressed", "mouseReleased") if spot else ():
            self.call("Input.dispatchMouseEvent", type=kind, x=spot[0], y=spot[1], button="left", clickCount=1)
        return bool(spot)

    def key(self, key: str) -> None:
        text = "\r" if key == "Enter" else key if len(key) == 1 else ""
        code = {"Enter": 13, "Escape": 27, "ArrowDown": 40, "ArrowUp": 38}.get(key, ord(key[0].upper()))
        self.call("Input.dispatchKeyEvent", type="keyDown", key=key, text=text, windowsVirtualKeyCode=code)
        self.call("Input.dispatchKeyEvent", type="keyUp", key=key, windowsVirtualKeyCode=code)

    def picture(self, path: str) -> None:
        with open(path, "wb") as file:
            file.write(base64.b64decode(self.call("Page.captureScreenshot", format="png")["data"]))

    def close(self) -> None:
        self.session = None
        with contextlib.suppress(Exception):
            self.call("Browser.close")
        try:
            self.process.wait(20)
        except subprocess.TimeoutExpired:
            self.process.kill()
            self.process.wait()
        self.folder.cleanup()


def installed() -> str | None:
    """Returns the program, if it is installed."""
    return next(filter(None, map(shutil.which, CHROMIUM)), None)
