"""The programs over the headers for shading: examples/cpp/textured.cpp and obj.cpp, also in a window, examples/c/cube.c
and those of docs/shading.md and the pages beside it."""

from __future__ import annotations

import os
import re
import subprocess
import sys

from tools import picture_file, places
from tests.cases import MissingError, must
from tests.library.commands import PACKAGE_ENVIRONMENT, need, python_with, run
from tests.library.screen import Screen
from tests.shade import picture
from tests.library.sanitized import SANITIZERS
from tests.shade.programs import OUT, PROGRAMS, STRICT, STRICT_C, library, program_of, stand_in
from tools.places import EXAMPLES, INCLUDE

# The pages whose examples these are, in the order in which check_page takes their examples in C++.
PAGES = tuple(
    os.path.join("docs", name)
    for name in (
        "shading.md", "how-to/textures.md", "how-to/frames.md", "how-to/shade-in-python.md",
    )
)
FLAGS = ("-O2", "-march=x86-64-v2", "-ffp-contract=off")
SIZE, PIXEL = ("160", "120"), ("80", "70")


def textured(*more: str) -> bytes:
    """The pixels that textured writes. It is built if it is not there."""
    path = os.path.join(OUT, "textured")
    if not os.path.exists(path):
        program_of("textured", *FLAGS)
    return picture_file.decode(run([path, *more, "--output", "-"])).pixel_data


def check_threads() -> None:
    """textured writes the same bytes for 1 to 4 threads, at each rate, and another picture of each scene."""
    pictures = set()
    for scene in ("ring", "front", "dust"):
        for rate in ("pixel", "centre", "sample"):
            words = ("--scene", scene, "--rate", rate, "--size", *SIZE)
            found = {textured(*words, "--threads", str(threads)) for threads in (1, 2, 3, 4)}
            must(len(found) == 1, f"{len(found)} pictures by 1 to 4 threads: {scene}, {rate}")
            pictures |= found
    # Of small triangles the middle of the samples and the centre of the pixel may look the same.
    must(len(pictures) >= 8, f"{len(pictures)} pictures of 3 scenes at 3 rates")


def check_races() -> None:
    """ThreadSanitizer finds no race between threads that draw and shade one canvas."""
    flags = ("-O1", "-march=x86-64-v2", "-fsanitize=thread")
    program = program_of("textured", *flags, name="textured-races", canvas=stand_in("-fsanitize=thread"))
    run([program, "--size", "300", "200", "--threads", "4", "--output", "-"])


def check_picture() -> None:
    """The example draws the page's picture."""
    must(picture.drawn() == places.bytes_of(picture.PICTURE), "another picture than docs/shading.png")


def check_walk(frames: int) -> str:
    """In a walk through a closed hall no frame is refused, each sample shows a triangle, and no layer of it is missing
    or drawn twice. Of a hall that is left open in one place samples are counted. Returns the line."""
    hall = os.path.join(OUT, "hall")
    run([sys.executable, os.path.join(PROGRAMS, "make_hall.py"), hall])
    program = program_of("obj", *FLAGS)
    model = os.path.join(hall, "hall.obj")
    line = run([program, "--path", str(frames), "--size", "320", "180", model]).decode().strip()
    found = re.fullmatch(rf"{frames} frames, (\d+) cuts, 0 samples without a triangle, 0 with a crack", line)
    must(found is not None and int(found[1]) > 10 * frames, line)
    # The last face is the end of a pillar, which nobody sees.
    lines = places.text_of(model).splitlines()
    opened = os.path.join(hall, "open.obj")
    with open(opened, "w", encoding="ascii") as file:
        file.write("\n".join(lines[:-1]) + "\n")
    missing = run([program, "--path", "3", "--size", "320", "180", opened]).decode().strip()
    must(re.search(r" 0 samples without a triangle, [1-9]\d* with a crack", missing) is not None, missing)
    shown = picture_file.decode(run([program, "--size", *SIZE, "--output", "-", model])).pixel_data
    must(len({shown[k : k + 3] for k in range(0, len(shown), 3)}) > 500, "few colours")
    return line


# Looks up texel 581 of those whose numbers are their indices, one texture further.
TEXEL = """
#include <vector>
#include <trirast_shade.hpp>
int main() {{
    std::vector<std::uint32_t> texels(64 * 64);
    for (std::uint32_t k = 0; k < 64 * 64; k++) texels[k] = k;
    const trirast::Floats u = 1 + 5.5f / 64, v = 9.5f / 64 - 3;
    trirast::Colors out;
    {}
    return out.red[0] == 69 && out.green[7] == 2 && out.blue[3] == 0 ? 0 : 1;
}}
"""

# Looks up levels whose red is ten times their number, and whose green and blue are the texel's place, for steps to the
# right and below.
LEVELS = """
#include <cmath>
#include <vector>
#include <trirast_shade.hpp>
int main() {{
    std::vector<std::uint32_t> texels;
    for (std::uint32_t level = 0, side = 64; side > 0; level++, side /= 2)
        for (std::uint32_t k = 0; k < side * side; k++) texels.push_back(10 * level | k % side << 8 | k / side << 16);
    const float steps[8] = {{0, 1, 1.5f, 2, 3, 6, 100, NAN}}, reds[8] = {{0, 0, 5, 10, 15, 25, 59.6875f, 0}};
    const trirast::Floats corner[2][3] = {{{{0.0f, 1.0f, 0.0f}}, {{0.0f, 0.0f, 1.0f}}}};
    for (bool is_right : {{true, false}}) {{
        trirast::Fragments at;
        for (std::size_t c = 0; c < 3; c++) at.right[c] = at.down[c] = 0.0f;
        at.weight[0] = -0.1f, at.weight[1] = 1.3f, at.weight[2] = -0.2f;
        (is_right ? at.right[1] : at.down[2]) = trirast::Floats::load(steps) / 64.0f;
        const trirast::Floats u = at.value(corner[0]), v = at.value(corner[1]);
        trirast::Colors out;
        {}
        for (std::size_t k = 0; k < 8; k++)
            if (out.red[k] != reds[k]) return 1;
        if (out.green[0] != 19 || out.blue[0] != 51 || out.green[3] != 9 || out.blue[3] != 25) return 1;
    }}
    return 0;
}}
"""


# Draws two squares of different materials, each with its lower half behind a pane.
OBJECTS = """
#include <trirast_frame.hpp>
#include <trirast_texture.hpp>
struct Thing {{
    std::vector<trirast::ClipPosition> positions;
    std::uint32_t material;
    std::vector<std::uint32_t> indices = {{0, 1, 2, 0, 2, 3}};
    std::vector<trirast::Attributes<2>::Values> values = {{{{0, 0}}, {{1, 0}}, {{1, 1}}, {{0, 1}}}};
}};
Thing square(float left, float right, float bottom, float top, float z, std::uint32_t material) {{
    return {{{{{{left, bottom, z, 1}}, {{right, bottom, z, 1}}, {{right, top, z, 1}}, {{left, top, z, 1}}}}, material}};
}}
int main() {{
    const std::uint32_t width = 128, height = 64;
    trirast::Clip clip{{}};
    clip.width = width, clip.height = height;
    trirast::State nearest;
    nearest.depth_test = TRIRAST_DEPTH_LESS, nearest.depth_write = true;
    const trirast::Pool pool(2);
    trirast::Frame drawn({{width, height, 4}}, pool.threads());
    std::vector<std::uint8_t> image(3 * width * height);
    const std::vector<std::uint8_t> wood(4 * 64 * 64, 200), stone(4 * 64 * 64, 90);
    const std::vector<Thing> things = {{square(-0.9f, -0.1f, -0.9f, 0.9f, 0.5f, 0),
                                       square(0.1f, 0.9f, -0.9f, 0.9f, 0.5f, 1)}};
    const Thing pane = square(-1, 1, -1, 0, 0.25f, 0);
    {}
    const auto red = [&](std::uint32_t x, std::uint32_t y) {{ return int{{image[3 * (width * y + x)]}}; }};
    const auto behind = [](int stored) {{ return (160 * 96 + stored * 159 + 127) / 255; }};
    return red(32, 16) == 200 && red(96, 16) == 90 && red(64, 16) == 24 && red(32, 48) == behind(200) &&
           red(96, 48) == behind(90) && red(64, 48) == behind(24) ? 0 : 1;
}}
"""


def built(name: str, text: str) -> str:
    """Builds a program in C++ over the library. Returns its path."""
    program, source = os.path.join(OUT, name), os.path.join(OUT, f"{name}.cpp")
    with open(source, "w", encoding="ascii") as file:
        file.write(text)
    run([need("g++"), *STRICT, "-O1", "-I", INCLUDE, source, library(), "-o", program, "-pthread", "-lm"])
    return program


def examples_in(language: str) -> list[str]:
    """The examples of the pages in a language."""
    text = "".join(map(places.text_of, PAGES))
    return re.findall(rf"```{language}\n(.*?)```", text, re.DOTALL)


def by_tiles(program: str, lines: str) -> str:
    """The program with those lines for a frame that is drawn tile by tile."""
    begin, end = program.index("    // A frame."), program.index("    // Pixels.")
    return f"#include <trirast_frame.hpp>\n{program[:begin]}{lines}{program[end:]}"


def check_page() -> str:
    """examples/cpp/cube.cpp, of which the page has parts, draws the cube: other pictures from other sides, each with
    the checks of its faces, and the same bytes tile by tile. Returns how many pixels."""
    shader, frame, texel, levels, tiles, objects = examples_in("cpp")
    text = places.text_of(PROGRAMS, "cube.cpp")
    must(shader in text and frame in text, "the page shows other parts than those of cube.cpp")
    run([built("texel", TEXEL.format(texel))])
    run([built("levels", LEVELS.format(levels))])
    run([built("objects", OBJECTS.format(objects))])
    program, tiled = built("page", text), built("page-tiles", by_tiles(text, tiles))
    shown = []
    for turn in ("0.6", "1.4"):
        picture_bytes = run([program, turn])
        must(run([tiled, turn]) == picture_bytes, f"another picture by tiles at {turn}")
        pixels = picture_file.decode(picture_bytes).pixel_data
        colors = [pixels[k : k + 3] for k in range(0, len(pixels), 3)]
        shown.append(len(colors) - colors.count(bytes((24, 24, 32))))
        frequent = [color for color in set(colors) if colors.count(color) > 300]
        must(len(frequent) >= 5, f"{len(frequent)} colours of faces and background")
    must(20000 < shown[0] < 60000 and shown[0] != shown[1], f"{shown} pixels of a cube")
    return f"{shown[0]} and {shown[1]} pixels of the cube"


def check_in_c() -> str:
    """examples/c/cube.c draws the cube from all sides and, where the near plane
    cuts it, from near, and sanitizers find nothing. Returns how much of each frame the cube takes."""
    path = os.path.join(EXAMPLES, "c", "cube.c")
    program = os.path.join(OUT, "cube")
    run([need("gcc"), *STRICT_C, "-O1", "-g", *SANITIZERS, "-I", INCLUDE, path, library(), "-o", program, "-lm"])
    shares = []
    for turn in ("0", "0.08", "0.1667", "0.45", "0.6"):
        pixels = picture_file.decode(run([program, turn])).pixel_data
        colors = [pixels[k : k + 3] for k in range(0, len(pixels), 3)]
        shares.append(100 * (len(colors) - colors.count(bytes((24, 24, 32)))) // len(colors))
        must(len([color for color in set(colors) if colors.count(color) > 300]) >= 4, f"few colours at {turn}")
    must(len(set(shares)) == 5 and max(shares) > 80 and 10 < min(shares) < 40, f"{shares}")
    return ", ".join(f"{share} %" for share in shares)


def check_python() -> str:
    """The program in Python of the page draws the cube of that in C++: no channel is more than 1 away. Returns how many
    differ."""
    (text,) = examples_in("python")
    more = "\nimport sys\nsys.stdout.buffer.write(frame(float(sys.argv[1])).rgb().tobytes())\n"
    drawn = run([python_with("numpy"), "-c", text + more, "0.6"], env=PACKAGE_ENVIRONMENT, cwd=OUT)
    wanted = picture_file.decode(run([os.path.join(OUT, "page"), "0.6"])).pixel_data
    off = [abs(one - other) for one, other in zip(drawn, wanted)]
    must(len(drawn) == len(wanted) and max(off) <= 1, f"a channel is {max(off)} away")
    return f"{sum(map(bool, off))} of {len(off)} channels differ by 1"


def check_window() -> None:
    """In a window textured shows its picture and the frames a second, and a click asks the triangle."""
    done = subprocess.run([need("pkg-config"), "--cflags", "--libs", "sdl2"], capture_output=True, text=True)
    if done.returncode:
        raise MissingError("libsdl2-dev")
    still = ("--size", *SIZE, "--speed", "0", "--turn", "40")
    program, wanted = program_of("textured", *FLAGS, more=done.stdout.split(), name="textured-window"), textured(*still)
    (triangle,) = re.findall(r"triangle (\d+)", picked(program, *still))
    title = rf"textured: [1-9]\d* frames a second, triangle {triangle}"
    with Screen(os.path.join(OUT, "screen"), *map(int, SIZE)) as screen:
        with subprocess.Popen([program, *still, "--threads", "2"], env=screen.environment) as window:
            try:
                screen.wait_for(lambda: screen.pixels() == wanted, "the picture on the screen")
                run([need("xdotool"), "mousemove", *PIXEL, "click", "1"], env=screen.environment)
                screen.wait_for(lambda: re.fullmatch(title, title_on(screen)) is not None, f"the title {title}")
            finally:
                window.terminate()


def title_on(screen: Screen) -> str:
    name = [need("xdotool"), "search", "--name", "textured", "getwindowname"]
    return subprocess.run(name, env=screen.environment, stdout=subprocess.PIPE, text=True).stdout.strip()


def picked(program: str, *words: str) -> str:
    """What the program says of the triangle at PIXEL."""
    return subprocess.run([program, *words, "--pick", *PIXEL], stderr=subprocess.PIPE, text=True, check=True).stderr
