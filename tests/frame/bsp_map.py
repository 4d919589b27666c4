"""A small BSP map: a closed room of six walls with a light map, and a curved surface in it."""

from __future__ import annotations

import struct

PARTS, HEAD = 17, 8 + 8 * 17
ROOM, FLAT, PATCH = 256.0, 1, 2
# The parts of a file that are not empty, by their numbers.
ENTITIES, SHADERS, VERTICES, INDICES, FACES, LIGHTS = 0, 1, 10, 11, 13, 14


def vertex(x: float, y: float, z: float, u: float, v: float) -> bytes:
    return struct.pack("<10f4B", x, y, z, 4 * u, 4 * v, u, v, 0, 0, 1, 255, 255, 255, 255)


def face(kind: int, first: int, count: int, size: tuple[int, int] = (0, 0)) -> bytes:
    indices = 6 if kind == FLAT else 0
    return struct.pack("<12i12f2i", 0, -1, kind, first, count, 0, indices, 0, 0, 0, 128, 128, *(12 * [0.0]), *size)


def room(first_vertex: int = 0) -> bytes:
    """The map. Its last face, of which the vertices begin at `first_vertex` too late, is the curved surface."""
    corners = ((0, 0), (1, 0), (1, 1), (0, 1))
    vertices: list[bytes] = []
    faces: list[bytes] = []
    for axis in range(3):
        for side in (-ROOM, ROOM):
            faces.append(face(FLAT, len(vertices), 4))
            for u, v in corners:
                place = [0.0, 0.0, 0.0]
                place[axis], place[(axis + 1) % 3], place[(axis + 2) % 3] = side, ROOM * (2 * u - 1), ROOM * (2 * v - 1)
                vertices.append(vertex(place[0], place[1], place[2], u, v))
    faces.append(face(PATCH, len(vertices) + first_vertex, 9, (3, 3)))
    for y in range(3):
        for x in range(3):
            vertices.append(vertex(100.0 * x - 100, 150.0 - 60 * (x == 1), 50.0 * y - 50, x / 2, y / 2))
    entity = b'{\n"origin" "0 0 -20"\n"classname" "info_player_deathmatch"\n}\n\0'
    parts = {
        ENTITIES: entity, SHADERS: struct.pack("<64s2i", b"walls", 0, 1), VERTICES: b"".join(vertices),
        INDICES: struct.pack("<6i", 0, 1, 2, 0, 2, 3), FACES: b"".join(faces), LIGHTS: bytes([90, 80, 60]) * 128 * 128,
    }
    head, body = b"IBSP" + struct.pack("<i", 46), b""
    for number in range(PARTS):
        part = parts.get(number, b"")
        head += struct.pack("<2i", HEAD + len(body), len(part))
        body += part
    return head + body
