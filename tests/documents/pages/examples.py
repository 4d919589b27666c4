"""The examples in C, C++ and Rust of README.md and pages of docs/, each built into a program, and what it writes
against the program."""

from __future__ import annotations

import os
import re
from typing import NamedTuple

from tools import picture_file, places
from tests.cases import must
from tools.draw_list import DrawList, encode
from tests.library.commands import WARNINGS, drawn_by_program, need, run
from tests.library.from_rust import CRATES, cargo
from tools.packaging.common import write
from tests.documents.pages.page import blocks_of
from tools.places import INCLUDE, STATIC_LIBRARY

OUT = os.path.join(places.OUT, "pages", "programs")
CANVAS, CALLS, POSTERS, README = "docs/canvas.md", "docs/reference/calls.md", "docs/posters.md", "README.md"
# A triangle on the canvas of 640 by 480 pixels of docs/canvas.md and docs/reference/calls.md, and the same without a
# depth for its four samples.
VERTICES = [
    [81920, 2560, 100, 255, 0, 0, 255], [158720, 115200, 200, 0, 255, 0, 255], [5120, 97280, 300, 0, 0, 255, 255]
]
SCENE: DrawList = {
    "width": 640, "height": 480, "samples": 4, "clear": [24, 24, 32],
    "draws": [{"vertices": VERTICES, "triangles": [[0, 1, 2]]}],
}
# The triangle of README.md.
SMALL_VERTICES = [
    [128, 128, 0, 255, 255, 255, 255], [640, 128, 0, 255, 255, 255, 255], [128, 640, 0, 255, 255, 255, 255]
]
SMALL_SCENE: DrawList = {"width": 3, "height": 3, "draws": [{"vertices": SMALL_VERTICES, "triangles": [[0, 1, 2]]}]}
# More than one window of docs/posters.md in each direction, the last ones cut.
POSTER_VERTICES = [
    [2560, 7680, 0, 255, 0, 0, 255], [325000, 51200, 0, 0, 255, 0, 255], [128000, 151040, 0, 0, 0, 255, 255]
]
POSTER_SCENE: DrawList = {
    "width": 1300, "height": 600, "samples": 4, "draws": [{"vertices": POSTER_VERTICES, "triangles": [[0, 1, 2]]}],
}


def array(vertices: list[list[int]]) -> str:
    """Vertices as an initializer in C and C++, with the member that is not read."""
    return "{" + ", ".join("{" + ", ".join(map(str, (*vertex, 0))) + "}" for vertex in vertices) + "}"


RUST_VERTEX = "Vertex::new({}, {}, [{}, {}, {}, {}]).at_depth({})"


def vertex_in_rust(vertex: list[int]) -> str:
    x, y, depth, *color = vertex
    return RUST_VERTEX.format(x, y, *color, depth)


CPP_HEAD = (
    "#include <cstdio>\n#include <trirast.hpp>\nint main() {{\nconst trirast_vertex vertices[] = {};\n"
    "const std::uint32_t indices[] = {{0, 1, 2}};\n"
)
CPP_END = "std::fwrite(pixels.data(), 1, pixels.size(), stdout);\n}\n"


# Three threads' parts of a canvas, one after another.
PIECES = f"""\
static uint8_t pixels[480 * 640 * 3];
int main(void) {{
    const trirast_vertex vertices[] = {array(VERTICES)};
    const uint32_t indices[] = {{0, 1, 2}};
    const trirast_batch batch = {{.vertices = vertices, .vertex_count = 3, .indices = indices, .index_count = 3}};
    trirast_canvas canvas = {{.width = 640, .height = 480, .samples = 4}};
    const size_t size = trirast_canvas_size(&canvas);
    void *memory = malloc(size);
    if (trirast_canvas_init(&canvas, memory, size)) return 1;
    for (uint32_t k = 0; k < 3; k++) {{
        trirast_error error;
        if (draw_piece(&canvas, &batch, k, 3, pixels, sizeof pixels, &error)) return 1;
    }}
    free(memory);
    return fwrite(pixels, 1, sizeof pixels, stdout) != sizeof pixels;
}}
"""


class Around(NamedTuple):
    """What stands before and behind the examples of a page in a language, so that they are a program, and the
    list that it draws."""

    scene: DrawList
    before: str = ""
    behind: str = ""


AROUND = {
    (CANVAS, "c"): Around(SCENE, "#include <stdio.h>\n#include <stdlib.h>\n#include <trirast.h>\n", PIECES),
    (CALLS, "cpp"): Around(SCENE, CPP_HEAD.format(array(VERTICES)), CPP_END),
    (CALLS, "rust"): Around(
        SCENE,
        "use std::io::Write;\nuse trirast::Vertex;\nfn main() -> Result<(), Box<dyn std::error::Error>> {\n"
        f"let vertices = [{', '.join(map(vertex_in_rust, VERTICES))}];\n",
        "assert!(ids.iter().all(|&id| id == 0 || id == 16_777_215) && ids.contains(&0) && depths.len() == 640 * 480);\n"
        "Ok(std::io::stdout().write_all(&pixels)?)\n}\n",
    ),
    (README, "c"): Around(SMALL_SCENE),
    (POSTERS, "c"): Around(
        POSTER_SCENE, "#include <stdio.h>\n",
        "static uint8_t picture[1300 * 600 * 3];\n"
        "int main(void) {\n"
        f"const trirast_vertex vertices[] = {array(POSTER_VERTICES)};\n"
        "const uint32_t indices[] = {0, 1, 2};\n"
        "const trirast_batch batch = {.vertices = vertices, .vertex_count = 3, .indices = indices, .index_count = 3};\n"
        "if (draw_poster(&batch, 1300, 600, picture)) return 1;\n"
        "return fwrite(picture, 1, sizeof picture, stdout) != sizeof picture;\n"
        "}\n",
    ),
}
# The package of the example in Rust.
PACKAGE = """\
[package]
name = "page"
version = "0.0.0"
edition = "2021"
[dependencies]
trirast = {{ path = "{}" }}
[workspace]
"""
# What stands around a part of a program in C, so that it compiles.
PART = """\
#include <stdio.h>
#include <trirast.h>
void part(const char *json, size_t json_len, uint32_t width, uint32_t height, size_t pixel_bytes, uint32_t tile_size,
          uint32_t k, uint32_t threads, uint8_t *pixels, trirast_error error);
void part(const char *json, size_t json_len, uint32_t width, uint32_t height, size_t pixel_bytes, uint32_t tile_size,
          uint32_t k, uint32_t threads, uint8_t *pixels, trirast_error error) {{
{{
{}
}}
}}
"""
COMPILERS = {"c": ("gcc", "-std=c99"), "cpp": ("g++", "-std=c++17")}


def written_by(name: str, language: str, text: str, draw_list: bytes) -> bytes:
    """Builds a program of this name and runs it on a list, which it need not read. Returns what it writes."""
    if language == "rust":
        folder = os.path.join(OUT, name)
        write(os.path.join(folder, "Cargo.toml"), PACKAGE.format(os.path.join(CRATES, "trirast")).encode())
        write(os.path.join(folder, "src", "main.rs"), text.encode())
        return cargo(folder, "run", "--offline", "--quiet", out=OUT)
    compiler, standard = COMPILERS[language]
    program, source = os.path.join(OUT, name), os.path.join(OUT, f"{name}.{language}")
    write(source, text.encode())
    run([need(compiler), standard, *WARNINGS, "-I", INCLUDE, "-o", program, source, STATIC_LIBRARY])
    return run([program], input=draw_list)


def check_compiles(page: str) -> str:
    """Each example in C of a page, a program or a part of one, is C99 without a warning."""
    blocks = [block.text for block in blocks_of(page) if block.language == "c"]
    for text in blocks:
        whole = text if "int main" in text else PART.format(text)
        flags = ("-std=c99", *WARNINGS, "-Wno-unused-parameter", "-fsyntax-only", "-I", INCLUDE)
        run([need("gcc"), *flags, "-x", "c", "-"], input=whole.encode())
    must(len(blocks) > 0, "no example in C")
    return f"{len(blocks)} examples"


def program_of(page: str, language: str) -> str:
    """The examples of a page in a language, one after another, with what makes them a program."""
    blocks = re.findall(rf"```{language}\n(.*?)```", places.text_of(page), re.DOTALL)
    must(len(blocks) > 0, f"no example in {language}")
    around = AROUND[page, language]
    return "".join([around.before, *blocks, around.behind])


def reds_of(picture: picture_file.PictureFile) -> str:
    """The red of each pixel, as README.md shows it."""
    return " ".join(str(pixel[0]) for pixel in picture.pixels()) + "\n"


def check(page: str, language: str) -> None:
    """The examples of a page in a language, one after another, draw the program's picture: its file or its pixels."""
    name = f"page_{os.path.basename(page).split('.')[0].lower()}_{language}"
    draw_list = encode(AROUND[page, language].scene)
    written = written_by(name, language, program_of(page, language), draw_list)
    wanted = drawn_by_program(draw_list).output
    picture = picture_file.decode(wanted)
    if page == README:
        must(
            written.decode() == reds_of(picture) and f"```text\n{reds_of(picture)}```" in places.text_of(page),
            "another picture",
        )
    else:
        must(written in (wanted, picture.pixel_data), "another picture")
