#!/usr/bin/python3
"""Draws a textured model in perspective: a canvas finds which triangle each pixel shows, and numpy shades what is seen.

    PYTHONPATH=python/src python3 examples/python/textured.py textured.ppm [--size 280 240] [--threads 4]

The picture shows, from left to right, the triangles by their ids, the texture coordinates, and the model shaded. The
triangles are drawn by ids; `Canvas.fragments` has the weights of their corners in space and how these differ from pixel
to pixel, and `Canvas.shade` puts colours in place of the ids: docs/shading.md. The program projects the positions back,
and prints how far they lie from their points.

It needs numpy (python3-numpy in Debian). After `pip install ./python` no PYTHONPATH is needed.
"""

import argparse
from typing import Any, List, Tuple

import numpy as np

import trirast

NEAR, FAR, ZOOM = 1.5, 14.0, 1.7
EYE, TARGET = np.array((1.5, 2.3, 4.4)), np.array((-0.1, -0.3, 0.0))
LIGHT, AMBIENT, SHINE, SHARPNESS = np.array((0.48, 0.76, 0.44)), 0.25, 0.35, 40
SKY = np.array((208, 218, 232)), np.array((120, 146, 186))
SIDE, RED, GREEN = 256, (222, 52, 232, 182, 70, 226, 60, 240), (170, 134, 200, 74, 160, 150, 96, 226)
BRICKS = np.stack((RED, GREEN, (62, 140, 120, 66, 150, 80, 132, 190)), 1)


def unit(vectors: Any) -> Any:
    return vectors / np.linalg.norm(vectors, axis=-1, keepdims=True)


def tilted(vectors: Any) -> Any:
    """Vectors turned about the axis from left to right, then about the one to the viewer."""
    (x, y, z), sine, cosine = vectors.T, np.sin(0.45), np.cos(0.45)
    y, z = cosine * y - sine * z, sine * y + cosine * z
    return np.stack((cosine * x - sine * y, sine * x + cosine * y, z), 1)


def model(along: int = 48, around: int = 24) -> Tuple[Any, Any, Any, Any, Any]:
    """A ring, tilted, and two large triangles below it: positions, normals and texture coordinates of the vertices; the
    triangles; and of each whether it is of the ring."""
    a, b = (axis.ravel() for axis in np.mgrid[0 : along + 1, 0 : around + 1])
    turn, angle = 2 * np.pi * a / along, 2 * np.pi * b / around
    out = np.stack((np.cos(turn), 0 * turn, np.sin(turn)), 1)
    normals = tilted(np.cos(angle)[:, None] * out + np.sin(angle)[:, None] * np.array((0, 1, 0)))
    corners = (np.arange(along)[:, None] * (around + 1) + np.arange(around)).ravel() + 4
    ahead = corners + around + 1
    sides = [np.stack(rows, 1) for rows in ((corners, corners + 1, ahead), (ahead, corners + 1, ahead + 1))]
    triangles = np.concatenate(([[0, 1, 2], [2, 1, 3]], *sides))
    floor = np.array([[x, -1.2, z] for z in (-6.5, 2.0) for x in (-5.5, 3.0)])
    positions = np.concatenate((floor, 1.15 * tilted(out) + 0.48 * normals))
    coordinates = np.concatenate((floor[:, ::2] / 1.25, np.stack((8 * a / along, 3 * b / around), 1)))
    upwards = np.tile((0.0, 1.0, 0.0), (4, 1))
    return positions, np.concatenate((upwards, normals)), coordinates, triangles, np.arange(len(triangles)) >= 2


def textures() -> Any:
    """Checks with discs, and bricks of several colours."""
    y, x = np.mgrid[0:SIDE, 0:SIDE] / SIDE
    checks = np.where(((x < 0.5) ^ (y < 0.5))[..., None], (226, 222, 210), (112, 122, 132)).astype(float)
    for u, v in ((0.25, 0.75), (0.75, 0.25)):
        checks[np.hypot(x - u, y - v) < 0.14] = (196, 92, 60)
    checks[np.minimum(x % 0.5, y % 0.5) < 0.015] = (60, 62, 68)
    row = np.floor(4 * y).astype(int)
    across = 2 * x + 0.5 * (row % 2)
    bricks = BRICKS[(2 * row + np.floor(across).astype(int) % 2) % len(BRICKS)].astype(float)
    bricks[(4 * y % 1 < 0.08) | (across % 1 < 0.04)] = (38, 40, 52)
    return np.stack((checks, bricks))


def texels(level: Any, texture: Any, coordinates: Any) -> Any:
    """The colours between the four nearest texels of a level. Textures repeat."""
    side = level.shape[1]
    place = coordinates * side - 0.5
    corner = np.floor(place).astype(int)
    (u, v), (x, y) = (place - corner).T[..., None], corner.T % side
    right, rows = (x + 1) % side, (y, (y + 1) % side)
    upper, lower = (level[texture, row, x] * (1 - u) + level[texture, row, right] * u for row in rows)
    return upper + v * (lower - upper)


def textured(texture: Any, coordinates: Any, step: Any) -> Any:
    """The colours at texture coordinates, of the two levels whose texels are about as large as a step to a pixel."""
    levels = [textures()]
    while levels[-1].shape[1] > 1:
        last = levels[-1]
        levels.append((last[:, ::2, ::2] + last[:, 1::2, ::2] + last[:, ::2, 1::2] + last[:, 1::2, 1::2]) / 4)
    wanted = np.clip(np.log2(np.maximum(step * SIDE, 1e-9)), 0, len(levels) - 1.001)
    found = np.zeros((len(texture), 3))
    for number in range(len(levels) - 1):
        here = np.flatnonzero(np.floor(wanted) == number)
        near, far = (texels(levels[number + k], texture[here], coordinates[here]) for k in (0, 1))
        found[here] = near + (wanted[here] - number)[:, None] * (far - near)
    return found


def in_clip_space(positions: Any, width: int, height: int) -> Any:
    """x, y, z and w of positions as the camera sees them. z / w is 0 at NEAR, and 1 at FAR."""
    ahead, right = unit(TARGET - EYE), unit(np.cross(TARGET - EYE, (0, 1, 0)))
    x, y, w = np.stack((right, np.cross(right, ahead), ahead)) @ (positions - EYE).T
    zoom = ZOOM * min(width, height)
    return np.stack((zoom / width * x, zoom / height * y, FAR * (w - NEAR) / (FAR - NEAR), w), 1)


def lit(colors: Any, normals: Any, to_eye: Any) -> Any:
    """Colours under the light, with a highlight."""
    light = unit(LIGHT)
    bright = AMBIENT + (1 - AMBIENT) * np.maximum(normals @ light, 0)
    shine = SHINE * np.maximum((normals * unit(to_eye + light)).sum(1), 0) ** SHARPNESS
    return bright[:, None] * colors + 255 * shine[:, None]


def panels(width: int, height: int, threads: int) -> List[Any]:
    positions, normals, coordinates, triangles, texture = model()
    seen = trirast.clip(in_clip_space(positions, width, height), triangles, (0, 0, width, height))
    canvas = trirast.Canvas(width, height, samples=4)
    canvas.clear((255, 255, 255))
    canvas.draw(seen.vertices, seen.triangles, depth_test="less", depth_write=True, first_id=0, threads=threads)
    at = canvas.fragments(seen.vertices, seen.triangles, seen.w, threads=threads)
    place, normal, uv = (seen.attributes(each) for each in (positions, normals, coordinates))
    step = np.maximum(np.linalg.norm(at.to_right(uv), axis=1), np.linalg.norm(at.to_below(uv), axis=1))
    shown = at.value(place)
    colors = textured(texture[seen.sources][at.id].astype(int), at.value(uv), step)
    shaded = lit(colors, unit(at.value(normal)), unit(EYE - shown))
    ids = np.stack([70 + at.id * factor % 170 for factor in (97, 43, 131)], 1)
    places = np.pad(255 * (at.value(uv) % 1), ((0, 0), (0, 1)), constant_values=90)
    sky = np.linspace(np.tile(SKY[1], (width, 1)), np.tile(SKY[0], (width, 1)), height)
    found = []
    for colors in (ids, places, shaded):
        canvas.shade(at, colors, sky)
        found.append(canvas.rgb())
    x, y, _z, w = in_clip_space(shown, width, height).T
    off = np.hypot(width / 2 * (1 + x / w) - at.x / 256, height / 2 * (1 - y / w) - at.y / 256).max()
    print(f"{len(triangles)} triangles, {len(at.id)} fragments; positions are seen at most {off:.4f} pixel off")
    return found


def main() -> None:
    parser = argparse.ArgumentParser(description="Draws a textured model in perspective.")
    parser.add_argument("picture", help="the PPM file to write")
    parser.add_argument("--size", nargs=2, type=int, default=(280, 240), help="pixels of each part (280 240)")
    parser.add_argument("--threads", type=int, default=4, help="threads that draw (4)")
    options = parser.parse_args()
    pixels = np.concatenate(panels(options.size[0], options.size[1], options.threads), 1)
    with open(options.picture, "wb") as file:
        file.write(b"P6\n%d %d\n255\n" % (pixels.shape[1], pixels.shape[0]) + pixels.tobytes())


if __name__ == "__main__":
    main()
