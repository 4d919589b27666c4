"""A page in headless Chromium, by the DevTools protocol over a WebSocket (RFC 6455). Python's standard
library alone."""

from __future__ import annotations

import base64
import contextlib
import json
import os
import shutil
import socket
import struct
import subprocess
import tempfile
import time
import urllib.request
from typing import Any, Iterator

from tests.cases import MissingError, must

NAMES = ("chromium", "chromium-browser")
SECONDS = 120
TEXT_FRAME, MASKED = 0x81, 0x80


class Page:
    """A page of a browser that listens on a port of this machine."""

    def __init__(self, port: int) -> None:
        address = self._address(port)
        self._socket = socket.create_connection(("127.0.0.1", port), SECONDS)
        key = base64.b64encode(os.urandom(16)).decode()
        self._socket.sendall(
            f"GET {address} HTTP/1.1\r\nHost: 127.0.0.1:{port}\r\nUpgrade: websocket\r\nConnection: Upgrade\r\n"
            f"Sec-WebSocket-Key: {key}\r\nSec-WebSocket-Version: 13\r\n\r\n".encode()
        )
        self._file = self._socket.makefile("rb")
        while self._file.readline().strip():
            pass
        self._last = 0

    @staticmethod
    def _address(port: int) -> str:
        """The path at which the browser's page listens."""
        end = time.monotonic() + SECONDS
        while True:
            with urllib.request.urlopen(f"http://127.0.0.1:{port}/json") as answer:
                pages = [each for each in json.load(answer) if each["type"] == "page"]
            if pages:
                return str(pages[0]["webSocketDebuggerUrl"]).split(str(port), 1)[1]
            must(time.monotonic() < end, "the browser has no page")
            time.sleep(0.1)

    def call(self, method: str, **parameters: Any) -> Any:
        """Calls a method of the protocol, and returns its result."""
        self._last += 1
        text = json.dumps({"id": self._last, "method": method, "params": parameters}).encode()
        size = len(text)
        short = (
            struct.pack(">BB", TEXT_FRAME, MASKED | size)
            if size < 126 else struct.pack(">BBH", TEXT_FRAME, MASKED | 126, size)
        )
        self._socket.sendall(short + bytes(4) + text)
        while True:
            answer = json.loads(self._message())
            if answer.get("id") == self._last:
                must("result" in answer, f"{method}: {answer.get('error')}")
                return answer["result"]

    def _message(self) -> bytes:
        whole = b""
        while True:
            first, size = self._file.read(2)
            if size == 126:
                (size,) = struct.unpack(">H", self._file.read(2))
            elif size == 127:
                (size,) = struct.unpack(">Q", self._file.read(8))
            whole += self._file.read(size)
            if first & 0x80:
                return whole

    def run(self, text: str) -> Any:
        """The value of an expression in the page."""
        answer = self.call("Runtime.evaluate", expression=text, awaitPromise=True, returnByValue=True)
        must("exceptionDetails" not in answer, f"{text}: {answer.get('exceptionDetails')}")
        return answer["result"].get("value")

    def mouse(self, kind: str, x: float, y: float, **more: Any) -> None:
        self.call("Input.dispatchMouseEvent", type=kind, x=x, y=y, **more)

    def drag(self, start: tuple[float, float], by: tuple[float, float]) -> None:
        """Drags with the left button, in three steps."""
        x, y = start
        self.mouse("mouseMoved", x, y)
        self.mouse("mousePressed", x, y, button="left", buttons=1, clickCount=1)
        for step in (1, 2, 3):
            self.mouse("mouseMoved", x + by[0] * step / 3, y + by[1] * step / 3, button="left", buttons=1)
        self.mouse("mouseReleased", x + by[0], y + by[1], button="left", clickCount=1)

    def screenshot(self) -> bytes:
        """What the page shows, as a PNG file."""
        return base64.b64decode(self.call("Page.captureScreenshot", format="png")["data"])


def chromium() -> str | None:
    """The browser's program, or `None` if it is not installed."""
    found = [shutil.which(name) for name in NAMES]
    return next(filter(None, found), None)


@contextlib.contextmanager
def a_folder() -> Iterator[str]:
    """A folder that is removed at the end, as far as the browser lets it go."""
    folder = tempfile.mkdtemp()
    try:
        yield folder
    finally:
        shutil.rmtree(folder, ignore_errors=True)


@contextlib.contextmanager
def page_of(address: str, width: int, height: int) -> Iterator[Page]:
    """A file, or another address of this machine, opened in headless Chromium without a network. Raises MissingError
    without Chromium."""
    program = chromium()
    if program is None:
        raise MissingError("Chromium")
    if ":" not in address:
        address = "file://" + os.path.abspath(address)
    with a_folder() as home:
        options = [
            "--headless=new", "--no-sandbox", "--disable-gpu", "--hide-scrollbars", "--force-device-scale-factor=1",
            "--remote-debugging-port=0", "--host-resolver-rules=MAP * ~NOTFOUND, EXCLUDE 127.0.0.1",
            f"--user-data-dir={home}",
        ]
        with subprocess.Popen(
            [program, *options, address], stdout=subprocess.DEVNULL, stderr=subprocess.DEVNULL
        ) as browser:
            try:
                page = Page(port_in(os.path.join(home, "DevToolsActivePort"), browser))
                page.call(
                    "Emulation.setDeviceMetricsOverride", width=width, height=height, deviceScaleFactor=1, mobile=False
                )
                yield page
            finally:
                browser.terminate()
                browser.wait()


def port_in(path: str, browser: "subprocess.Popen[bytes]") -> int:
    """The port that the browser wrote to a file."""
    end = time.monotonic() + SECONDS
    while True:
        with contextlib.suppress(OSError, IndexError):
            with open(path, encoding="utf-8") as file:
                return int(file.read().split()[0])
        must(browser.poll() is None and time.monotonic() < end, "the browser did not start")
        time.sleep(0.1)
