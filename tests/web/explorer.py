"""The coverage explorer in headless Chromium: served from web/out, set by links, dragged, and read out."""

from __future__ import annotations

import contextlib
import functools
import http.server
import json
import os
import threading
import time
from dataclasses import dataclass
from typing import Any, Iterator, Mapping

from tests.cases import must
from tools.places import TOP
from tests.posters.browser import Page, page_of

FOLDER = os.path.join(TOP, "web", "out")
WIDTH, HEIGHT = 1280, 900
SECONDS = 60
ALT, SHIFT = 1, 8

# Errors of the page, from its first line on.
WATCH = """globalThis.errors = [];
addEventListener('error', (event) => errors.push(String(event.message)));
addEventListener('unhandledrejection', (event) => errors.push(String(event.reason)));"""
READ = """(() => {
  const all = (selector) => [...document.querySelectorAll(selector)];
  document.getElementById('draw-list').click();
  const list = document.getElementById('list-text').value;
  document.getElementById('list').close();
  return {
    text: page.text(), list,
    refused: document.getElementById('refused').hidden ? '' : document.getElementById('refused').textContent,
    samples: all('#grid .sample').map((e) => [e.dataset.at, e.getAttribute('cx') * 256, e.getAttribute('cy') * 256,
                                              e.dataset.covers, e.dataset.drawn, e.dataset.signs]),
    edges: all('#grid .edge').map((e) => [e.classList.contains('of1') ? 1 : 2, e.dataset.kind]),
    fills: all('#grid .cell').map((e) => e.getAttribute('fill').slice(4, -1).split(',').map(Number)).flat(),
  };
})()"""
GO = """new Promise((done) => {
  if (location.hash === HASH) return done();
  addEventListener('hashchange', () => setTimeout(done), { once: true });
  location.hash = HASH;
})"""
HANDLE = """(() => {
  const group = [...document.querySelectorAll('.handle')].find((e) => e.dataset.name === NAME);
  const box = group.querySelector('.grip').getBoundingClientRect();
  const at = [Math.round(box.x + box.width / 2), Math.round(box.y + box.height / 2)];
  const above = document.elementFromPoint(...at);
  const isFree = Boolean(above) && above.closest('.handle') === group;
  return { at, isFree, scale: document.getElementById('grid').getScreenCTM().a };
})()"""


class Handler(http.server.SimpleHTTPRequestHandler):
    """Serves files without a log, and other texts in place of some of them."""

    def __init__(self, *arguments: Any, texts: Mapping[str, str], **named: Any) -> None:
        self.texts = texts
        super().__init__(*arguments, **named)

    def log_message(self, format: str, *arguments: Any) -> None:
        pass

    def do_GET(self) -> None:
        name = self.path.lstrip("/")
        if name not in self.texts:
            super().do_GET()
            return
        data = self.texts[name].encode()
        self.send_response(200)
        self.send_header("Content-Type", self.guess_type(name))
        self.send_header("Content-Length", str(len(data)))
        self.end_headers()
        self.wfile.write(data)


@contextlib.contextmanager
def served(texts: Mapping[str, str] = {}, folder: str = FOLDER) -> Iterator[str]:
    """The address of the page, or of another folder, served on this machine alone, with other texts of some files."""
    handler = functools.partial(Handler, directory=folder, texts=texts)
    with http.server.ThreadingHTTPServer(("127.0.0.1", 0), handler) as server:
        threading.Thread(target=server.serve_forever, daemon=True).start()
        try:
            yield f"http://127.0.0.1:{server.server_port}/"
        finally:
            server.shutdown()


@dataclass
class Explorer:
    """The page, as a reader uses it."""

    page: Page
    loads: int = 0

    def load(self, address: str, text: str = "") -> str:
        """Opens an address with the text of a link, as another page than the one before. Returns
        `ready` or `lacking`."""
        self.loads += 1
        new = f"{address}?{self.loads}"
        self.page.call("Page.navigate", url=f"{new}#{text}")
        end = time.monotonic() + SECONDS
        here = f"location.href.split('#')[0] === {json.dumps(new)} && document.body && document.body.dataset.state"
        while True:
            state = self.page.run(here)
            if state:
                return str(state)
            must(time.monotonic() < end, "the page did not start")
            time.sleep(0.05)

    def go(self, text: str) -> None:
        """Follows a link within the page."""
        self.page.run(GO.replace("HASH", json.dumps(f"#{text}")))

    def read(self) -> Any:
        """What the page shows: its link, its draw list, samples, edges and pixels."""
        self.must_be_silent()
        return self.page.run(READ)

    def must_be_silent(self) -> None:
        """Raises CheckError if the page had an error that nobody caught."""
        errors = self.page.run("errors")
        must(not errors, f"errors of the page: {errors}")

    def handle(self, name: str) -> Any:
        """Where a handle is, whether nothing lies over it, and the pixels of the screen in one of the grid."""
        return self.page.run(HANDLE.replace("NAME", json.dumps(name)))

    def key(self, key: str, modifiers: int = 0) -> None:
        for kind in ("keyDown", "keyUp"):
            self.page.call("Input.dispatchKeyEvent", type=kind, key=key, modifiers=modifiers)

    def focus(self, name: str) -> None:
        """Puts the focus on a handle."""
        self.page.run(
            f"[...document.querySelectorAll('.handle')].find((e) => e.dataset.name === {json.dumps(name)}).focus()"
        )

    def screenshot(self, path: str) -> None:
        with open(path, "wb") as file:
            file.write(self.page.screenshot())


@contextlib.contextmanager
def explorer(width: int = WIDTH, height: int = HEIGHT) -> Iterator[Explorer]:
    """A browser with an empty page. Raises MissingError without Chromium."""
    with page_of("about:blank", width, height) as page:
        page.call("Page.enable")
        page.call("Page.addScriptToEvaluateOnNewDocument", source=WATCH)
        yield Explorer(page)
