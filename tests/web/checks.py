"""Checks of the page besides random figures: its size, links, fields, draw lists, the examples, narrow and dark
views, old browsers."""

from __future__ import annotations

import base64
import contextlib
import json
import os
import re
import time
from typing import Any, Iterator

from tools import picture_file, places
from tests.cases import must
from tests.web.explorer import ALT, FOLDER, HEIGHT, SECONDS, WIDTH, Explorer
from tests.web.figure import NAMES, figure_in, run_program
from tests.web.positions import check_shown

MAX_BYTES = 480_000
PHONE = (390, 844)
MAX_FUNCTION_LINES = 40
SIGNS = {"+": "1", "0": "0", "−": "-1"}
LINK = (
    "A=300,400&B=2500,300&C=200,2600&D=2700,2900&samples=1&cull=back&turned=yes&diagonal=AD"
    "&primitives=quad&scissor=1,2,9,11&at=5,6,0"
)
ODD_LINKS = (
    "A=1,2", "A=x,y&samples=3&cull=all&scissor=1,2,3&at=99,99,99", "A=99999999,-99999999", "%%%", "a&&=&=,",
    "tab=examples&example=toString",
)
CUT_LINK = "A=700,600&B=2500,300&C=200,2600&D=2700,2900&scissor=9,3,13,9&at=5,6,0"
UNCUT_LINK = CUT_LINK.replace("&scissor=9,3,13,9", "")
UNREADABLE = ("--12", "e", "9" * 400)
COPY_TWICE = """(async () => {
  const button = document.getElementById('link'), before = button.textContent;
  const soon = (time) => new Promise((done) => { setTimeout(done, time); });
  button.click();
  while (button.textContent === before) await soon(10);
  button.click();
  await soon(4000);
  return [before, button.textContent];
})()"""
# Lists arrive when a test lets them.
HELD_LISTS = """globalThis.held = [];
const whole = fetch;
globalThis.fetch = async (url) => {
  if (String(url).startsWith('examples')) await new Promise((go) => { held.push(go); });
  return whole(url);
};"""
NO_LISTS = """const whole = fetch;
const isOfLists = (url) => String(url).startsWith('examples');
globalThis.fetch = async (url) => (isOfLists(url) ? new Response('{}', { status: 404 }) : whole(url));"""
# From now on all that the core takes needs more memory, and there is none.
NO_MEMORY = """page.core.top = page.core.memory.buffer.byteLength,
page.core.memory.grow = () => { throw new RangeError('no more'); }, 0"""
LARGE_EXAMPLE = """(() => {
  const canvas = document.getElementById('example');
  const bytes = canvas.getContext('2d').getImageData(0, 0, canvas.width, canvas.height).data;
  const texts = ['example-name', 'example-size'].map((id) => document.getElementById(id).textContent);
  return [...texts, bytes.reduce((sum, byte) => sum + byte, 0)];
})()"""
# A list is drawn anew here, by the page's own modules, so that all of a depth's bits are seen.
DRAW = """(async () => {
  const { pixelsOf } = await import('./draw_list.js');
  const { list } = page.examples.lists[NAME];
  const pixels = pixelsOf(page.core, list);
  const canvas = document.getElementById('example');
  const shown = canvas.getContext('2d').getImageData(0, 0, list.width, list.height).data;
  const text = (bytes) => { let s = ''; for (const byte of bytes) s += String.fromCharCode(byte); return btoa(s); };
  return { pixels: text(new Uint8Array(pixels.buffer)), shown: text(shown) };
})()"""


def check_size() -> str:
    """All files together are small, and no function of the page is long."""
    files = [os.path.join(FOLDER, name) for name in os.listdir(FOLDER)]
    size = sum(map(os.path.getsize, files))
    must(size < MAX_BYTES, f"{size} bytes")
    for path in files:
        if path.endswith(".js"):
            with open(path, encoding="utf-8") as file:
                check_functions(os.path.basename(path), file.read())
    return f"{size} bytes in {len(files)} files"


def check_functions(name: str, text: str) -> None:
    """Each function, at the top of a file or a class, ends within some lines, at a brace under its first line."""
    for found in re.finditer(
        r"^( {0,2})(?:(?:export |async )*function |(?:static |async )*[#\w]+\().*\{\n", text, re.MULTILINE
    ):
        lines = text[found.end() :].split(f"\n{found[1]}}}")[0].count("\n") + 3
        must(lines <= MAX_FUNCTION_LINES, f"{name}: {found[0].strip()} has {lines} lines")


def check_links(explorer: Explorer, address: str) -> str:
    """A link opens what was seen, a half one the rest of the first figure, and nonsense does no harm."""
    explorer.load(address, LINK)
    must(explorer.page.run("page.text()") == LINK, f"opened as {explorer.page.run('page.text()')}")
    check_shown(explorer)
    explorer.page.run("page.change({ chosen: [6, 6, 0] })")
    copied = explorer.page.run("document.getElementById('link').click(), location.hash")
    must(copied == f"#{LINK.replace('at=5,6,0', 'at=6,6,0')}", f"{copied} is copied")
    for text in ODD_LINKS:
        must(explorer.load(address, text) == "ready", f"#{text} does not open")
        if "tab=" in text:
            wait(explorer, "page.examples.chosen || errors.length")
        check_shown(explorer)
    explorer.load(address, "tab=examples&example=seam")
    wait(explorer, "page.examples.chosen === 'seam' && !document.getElementById('examples').hidden")
    explorer.key("Tab")
    explorer.page.run("document.getElementById('examples-tab').focus()")
    explorer.key("ArrowLeft")
    must(explorer.page.run("!document.getElementById('explorer').hidden"), "an arrow key does not change the tab")
    explorer.key("ArrowRight", ALT)
    must(explorer.page.run("!document.getElementById('explorer').hidden"), "the browser's key changes the tab")
    wait(explorer, "location.hash.length > 1 && !location.hash.includes('tab=')")
    return "a whole link, half ones, nonsense, and the tabs"


def wait(explorer: Explorer, holds: str) -> None:
    """Waits until an expression holds in the page."""
    end = time.monotonic() + SECONDS
    while not explorer.page.run(holds):
        must(time.monotonic() < end, f"the page never came to: {holds}")
        time.sleep(0.05)


def wait_for_cards(explorer: Explorer) -> None:
    """Waits until each example is drawn."""
    there = (
        "Object.keys(page.examples.lists).every((name) => document.querySelector(`#gallery "
        "[data-name=${name}][data-drawn]`))"
    )
    wait(explorer, f"page.examples.chosen && {there}")


def set_field(explorer: Explorer, label: str, value: object) -> None:
    """Types something into a field, and leaves it."""
    field = f"[...document.querySelectorAll('input')].find((e) => e.ariaLabel === {json.dumps(label)})"
    explorer.page.run(f"{field}.focus(), {field}.select()")
    explorer.page.call("Input.insertText", text=str(value))
    explorer.page.run("document.activeElement.blur()")


def check_controls(explorer: Explorer, address: str) -> str:
    """Each switch, the number fields and the figures to begin with change the figure."""
    explorer.load(address, LINK)
    for label, value in (("x of A", 777), ("y of D", -100), ("right edge of the scissor", 13)):
        set_field(explorer, label, value)
    figure = figure_in(explorer.page.run("page.text()"))
    must(
        figure.points[0][0] == 777 and figure.points[3][1] == -100 and (figure.scissor or ())[2] == 13,
        f"fields made {figure}",
    )
    check_shown(explorer)
    switches = explorer.page.run("[...document.querySelectorAll('#switches input')].map((e) => [e.name, e.value])")
    for name, value in switches:
        explorer.page.run(f"document.querySelector('#switches input[name={name}][value=\"{value}\"]').click()")
        must(
            explorer.page.run(f"document.querySelector('#switches input[name={name}]:checked').value") == value,
            f"{name} is not {value}",
        )
        check_shown(explorer)
    figures = explorer.page.run("[...document.getElementById('shown').options].map((e) => e.value).filter(Boolean)")
    for name in figures:
        shown = "document.getElementById('shown')"
        explorer.page.run(f"{shown}.value = {json.dumps(name)}, {shown}.dispatchEvent(new Event('change'))")
        check_shown(explorer)
    return f"3 fields, {len(switches)} switches, {len(figures)} figures"


def check_unreadable_fields(explorer: Explorer, address: str) -> str:
    """A field with a text that is no number gets its number back, and no vertex moves."""
    explorer.load(address, LINK)
    for text in UNREADABLE:
        set_field(explorer, "x of A", text)
        must(explorer.page.run("page.text()") == LINK, f"{text[:20]} made {explorer.page.run('page.text()')}")
    return f"{len(UNREADABLE)} texts"


def check_copies(explorer: Explorer, address: str) -> str:
    """A button that is pressed again while it says how a copy went has its own words in the end."""
    explorer.load(address)
    before, after = explorer.page.run(COPY_TWICE)
    must(after == before, f"{before} became {after}")
    return str(before)


def check_links_between(explorer: Explorer, address: str) -> str:
    """A link that comes while somebody drags or types takes away what is dragged, or the field."""
    explorer.load(address, CUT_LINK)
    right_edge = "[...document.querySelectorAll('#scissor input')][2]"
    explorer.page.run(f"{right_edge}.focus(), {right_edge}.select()")
    explorer.page.call("Input.insertText", text="7")
    explorer.go(UNCUT_LINK)
    explorer.page.run("document.activeElement.blur()")
    for link, handle, next_link in (
        (CUT_LINK, "upper left", UNCUT_LINK), (UNCUT_LINK, "A", f"{UNCUT_LINK}&tab=examples&example=seam")
    ):
        explorer.load(address, link)
        x, y = explorer.handle(handle)["at"]
        explorer.page.mouse("mouseMoved", x, y)
        explorer.page.mouse("mousePressed", x, y, button="left", buttons=1, clickCount=1)
        explorer.go(next_link)
        explorer.page.mouse("mouseMoved", x + 60, y + 60, button="left", buttons=1)
        explorer.page.mouse("mouseReleased", x + 60, y + 60, button="left", clickCount=1)
        explorer.must_be_silent()
        must(explorer.page.run("page.text()").startswith(UNCUT_LINK), f"dragged to {explorer.page.run('page.text()')}")
    return "a field and two handles"


def check_pointers(explorer: Explorer, address: str) -> str:
    """Only the left button drags, and only the last finger on a handle."""
    explorer.load(address, UNCUT_LINK)
    x, y = explorer.handle("A")["at"]
    explorer.page.mouse("mouseMoved", x, y)
    explorer.page.mouse("mousePressed", x, y, button="right", buttons=2, clickCount=1)
    explorer.page.mouse("mouseMoved", x + 30, y + 30, button="right", buttons=2)
    explorer.page.mouse("mouseReleased", x + 30, y + 30, button="right", clickCount=1)
    must(explorer.page.run("page.text()") == UNCUT_LINK, "the right button drags")
    explorer.page.call("Emulation.setTouchEmulationEnabled", enabled=True)
    try:
        for kind, places in (
            ("touchStart", [(0, x, y)]), ("touchStart", [(0, x, y), (1, x + 15, y + 12)]),
            ("touchMove", [(0, x + 2, y), (1, x + 15, y + 12)]),
        ):
            points = [{"id": finger, "x": left, "y": top} for finger, left, top in places]
            explorer.page.call("Input.dispatchTouchEvent", type=kind, touchPoints=points)
        must(explorer.page.run("page.text()") == UNCUT_LINK, "the first finger drags by the second one's grip")
        explorer.page.call("Input.dispatchTouchEvent", type="touchEnd", touchPoints=[])
    finally:
        explorer.page.call("Emulation.setTouchEmulationEnabled", enabled=False)
    return "a button and two fingers"


def check_lists_on_their_way(explorer: Explorer, address: str) -> str:
    """While the lists are loaded the last example that was asked for counts, and no list is given away. If the server
    has none, the page says so."""
    with at_start(explorer, HELD_LISTS):
        explorer.load(address, "tab=examples&example=seam%26scissor=1,2,3,4")
        must("&scissor" not in explorer.page.run("page.text()"), "the link has more than the page")
        explorer.go("tab=examples&example=mesh")
        explorer.page.run("document.getElementById('example-list').click()")
        explorer.page.run("held.pop()()")
        wait(explorer, "page.examples.chosen")
        explorer.page.run("held.forEach((go) => go()), new Promise((done) => setTimeout(done, 500))")
        must(explorer.page.run("page.examples.chosen") == "mesh", "an answer that came late is shown")
    with at_start(explorer, NO_LISTS):
        explorer.load(address, "tab=examples&example=seam")
        wait(explorer, "document.getElementById('example-shows').textContent === 'The lists cannot be read.'")
        explorer.must_be_silent()
    return "two links, and a server without lists"


def check_no_memory(explorer: Explorer, address: str) -> str:
    """Where the core has no memory, no picture stands under another one's name, and no figure beside another's link."""
    explorer.load(address, f"{UNCUT_LINK}&tab=examples&example=mesh")
    wait(explorer, "page.examples.chosen")
    explorer.page.run(NO_MEMORY)
    explorer.page.run("document.querySelector('#gallery [data-name=seam]').click()")
    name, size, sum_of_bytes = explorer.page.run(LARGE_EXAMPLE)
    must(name == "seam.json" and "not drawn: no memory" in size and sum_of_bytes == 0, f"{name}: {size}")
    explorer.page.run("page.open('explorer'), page.change({ samples: '16' })")
    must(explorer.page.run("page.text()") == UNCUT_LINK, "the link is that of a figure that is not shown")
    notice = explorer.page.run("document.getElementById('refused').textContent")
    must("no memory" in notice, f"the page says: {notice}")
    explorer.page.run("delete page.core.memory.grow, page.change({ samples: '16' })")
    check_shown(explorer)
    return str(notice)


def check_chosen(explorer: Explorer, address: str) -> str:
    """Keys and the mouse choose a sample, and the tables say of it what the grid does."""
    explorer.load(address)
    explorer.page.run("document.getElementById('grid').focus()")
    for key, place in (
        ("ArrowRight", [8, 4, 0]), ("ArrowDown", [8, 5, 0]), (" ", [8, 5, 1]), ("ArrowLeft", [7, 5, 1]),
        ("ArrowUp", [7, 4, 1]),
    ):
        explorer.key(key)
        must(explorer.page.run("page.figure.chosen") == place, f"{key} chose {explorer.page.run('page.figure.chosen')}")
    explorer.key("Tab")
    must(
        explorer.page.run("document.activeElement.dataset.name") == "A",
        "Tab does not go from the grid to the first vertex",
    )
    sample = "document.querySelector('[data-at=\"11,5,2\"]')"
    x, y, width, height = explorer.page.run(
        f"['x', 'y', 'width', 'height'].map((key) => {sample}.getBoundingClientRect()[key])"
    )
    for kind in ("mousePressed", "mouseReleased"):
        explorer.page.mouse(kind, x + width / 2, y + height / 2, button="left", clickCount=1)
    must(explorer.page.run("page.figure.chosen") == [11, 5, 2], "a click chose another sample")
    texts = explorer.page.run("[...document.querySelectorAll('#edges .sign')].map((each) => each.textContent)")
    signs, wanted = [SIGNS[text] for text in texts], explorer.page.run(f"{sample}.dataset.signs")
    must(
        wanted == ";".join(",".join(signs[k : k + 3]) for k in (0, 3)), f"the table has {signs}, and the grid {wanted}"
    )
    return "six keys, a click, six signs"


def check_examples(explorer: Explorer, address: str) -> str:
    """Each list of examples/ has the program's pixels, and the page shows them."""
    explorer.load(address, "tab=examples")
    wait_for_cards(explorer)
    names = explorer.page.run("Object.keys(page.examples.lists)")
    must(
        sorted(f"examples/{name}.json" for name in names) == places.files("examples", "*.json"), f"the page has {names}"
    )
    for name in names:
        explorer.page.run(f"document.querySelector('#gallery [data-name={name}]').click()")
        drawn = {
            key: base64.b64decode(text)
            for key, text in explorer.page.run(DRAW.replace("NAME", json.dumps(name))).items()
        }
        picture = picture_file.decode(run_program(json.loads(places.text_of("examples", f"{name}.json"))).output)
        check_example(name, picture, drawn)
    explorer.must_be_silent()
    return f"{len(names)} lists"


def check_example(name: str, picture: picture_file.PictureFile, drawn: dict[str, bytes]) -> None:
    pixels = drawn["pixels"]
    if picture.pixel_bytes == 2:
        # The page's numbers have the less significant byte first.
        swapped = bytearray(len(pixels))
        swapped[::2], swapped[1::2] = pixels[1::2], pixels[::2]
        pixels = bytes(swapped)
    must(pixels == picture.pixel_data, f"{name}: other pixels")
    shown = [channel for pixel in picture.pixels() for channel in (pixel if len(pixel) == 3 else pixel[:1] * 3)]
    must([byte for k, byte in enumerate(drawn["shown"]) if k % 4 < 3] == shown, f"{name}: other pixels on the screen")


@contextlib.contextmanager
def at_start(explorer: Explorer, script: str) -> Iterator[None]:
    """Each page that is opened meanwhile runs a script first."""
    name = explorer.page.call("Page.addScriptToEvaluateOnNewDocument", source=script)["identifier"]
    try:
        yield
    finally:
        explorer.page.call("Page.removeScriptToEvaluateOnNewDocument", identifier=name)


def set_view(explorer: Explorer, size: tuple[int, int], theme: str, is_phone: bool) -> None:
    page = explorer.page
    page.call(
        "Emulation.setDeviceMetricsOverride", width=size[0], height=size[1], deviceScaleFactor=2 if is_phone else 1,
        mobile=is_phone,
    )
    page.call("Emulation.setTouchEmulationEnabled", enabled=is_phone)
    page.call("Emulation.setEmulatedMedia", features=[{"name": "prefers-color-scheme", "value": theme}])


def check_view(explorer: Explorer, address: str, folder: str, theme: str, is_phone: bool) -> str:
    """The page at a width and in a theme: nothing sticks out, its pixels are the program's, and a finger drags."""
    set_view(explorer, PHONE if is_phone else (WIDTH, HEIGHT), theme, is_phone)
    try:
        for tab, example in (("explorer", ""), ("examples", "triangle"), ("examples", "mesh")):
            explorer.load(address, f"tab={tab}&example={example}")
            if tab == "examples":
                wait_for_cards(explorer)
            width, there = explorer.page.run("[document.documentElement.scrollWidth, innerWidth]")
            must(width <= there, f"{tab} {example} is {width} wide on {there}")
            explorer.screenshot(os.path.join(folder, f"{example or tab}_{theme}{'_phone' if is_phone else ''}.png"))
        explorer.load(address)
        dark = (
            sum(explorer.page.run("getComputedStyle(document.body).backgroundColor.match(/\\d+/g).map(Number)")) < 200
        )
        must(dark == (theme == "dark"), "the other theme")
        check_shown(explorer)
        if is_phone:
            check_finger(explorer)
    finally:
        set_view(explorer, (WIDTH, HEIGHT), "light", False)
    return "both tabs"


def check_finger(explorer: Explorer) -> None:
    """A finger on a vertex moves it, and does not scroll the page."""
    before = figure_in(explorer.page.run("page.text()")).points[NAMES.index("C")]
    x, y = explorer.handle("C")["at"]
    for kind, by in (("touchStart", (0, 0)), ("touchMove", (15, -20)), ("touchMove", (30, -40))):
        explorer.page.call("Input.dispatchTouchEvent", type=kind, touchPoints=[{"x": x + by[0], "y": y + by[1]}])
    explorer.page.call("Input.dispatchTouchEvent", type="touchEnd", touchPoints=[])
    after = figure_in(explorer.page.run("page.text()")).points[NAMES.index("C")]
    must(after[0] > before[0] and after[1] < before[1], f"a finger moved C from {before} to {after}")
    must(explorer.page.run("scrollY") == 0, "the page was scrolled")
    check_shown(explorer)


def check_lacking(explorer: Explorer, address: str, folder: str) -> str:
    """Without 64-bit memory the page says what it needs, and shows nothing else."""
    with at_start(explorer, "WebAssembly.validate = () => false;"):
        must(explorer.load(address) == "lacking", "the page starts without 64-bit memory")
        text = str(explorer.page.run("document.getElementById('lacking').innerText"))
        must("64-bit memory" in text and "Chrome" in text and "Firefox" in text, f"it says: {text}")
        must(
            explorer.page.run("getComputedStyle(document.getElementById('explorer')).display") == "none",
            "the explorer is still shown",
        )
        explorer.screenshot(os.path.join(folder, "lacking.png"))
    return text.splitlines()[0][:60]


def check_alone(explorer: Explorer, address: str) -> str:
    """The page loads nothing from elsewhere."""
    explorer.load(address, "tab=examples")
    wait(explorer, "page.examples.chosen")
    loaded: list[Any] = explorer.page.run("performance.getEntriesByType('resource').map((each) => each.name)")
    must(
        bool(loaded) and all(name.startswith(address) or name.startswith("data:") for name in loaded),
        f"other files: {loaded}",
    )
    return f"{len(loaded)} files"
