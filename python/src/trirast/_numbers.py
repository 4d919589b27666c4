"""Numbers of include/trirast.h, with the words for them.

Written by `python3 -m tools.interface` from interface/numbers.toml.
"""

from typing import Dict, Literal, Tuple

# Bytes that are enough for each message of trirast_error_message with its zero byte.
ERROR_MESSAGE_SIZE = 128
# The width and height of a tile of a canvas, in pixels.
TILE_SIZE = 64
# The greatest width and height of a picture or a canvas, in pixels.
MAX_SIDE = 4096
# The greatest length of a draw list, in bytes.
MAX_LIST_BYTES = 67108864
# The greatest id of a triangle or a polygon.
MAX_ID = 16777215
# The least coordinate of a vertex or a corner, in 1/256 pixel.
LOWEST_POSITION = -8388608
# The greatest coordinate of a vertex or a corner, in 1/256 pixel.
HIGHEST_POSITION = 8388607
# The least coordinate of the origin of a canvas on which polygons are drawn, in pixels.
LOWEST_ORIGIN = -32768
# The greatest coordinate of the origin of a canvas on which polygons are drawn, in pixels.
HIGHEST_ORIGIN = 28672
# What an error has where there is no draw or no element.
NONE = (1 << 64) - 1

# Statuses.
BAD_LIST = 1
BAD_BATCH = 15
# The exception of each status.
EXCEPTIONS: Dict[int, str] = {
    1: "DrawListError",
    2: "LimitError",
    3: "OutOfMemoryError",
    4: "BufferTooSmallError",
    5: "TileSizeError",
    6: "TileRowsError",
    7: "StructSizeError",
    8: "CanvasError",
    9: "MemorySizeError",
    10: "FormatError",
    11: "SampleError",
    12: "PositionError",
    13: "PixelError",
    14: "TriangleError",
    15: "BatchError",
    16: "StrideError",
    17: "TileError",
    18: "IndexSizeError",
}
# The causes of a text that is no draw list, and of a batch that cannot be drawn.
LIST_CAUSES: Dict[int, str] = {
    1: "NotJson",
    2: "UnknownKey",
    3: "MissingKey",
    4: "WrongKind",
    5: "OutOfRange",
    6: "BadIndex",
    7: "TooMany",
    9: "TwoLists",
    10: "NotConvex",
}
BATCH_CAUSES: Dict[int, str] = {
    1: "TooFewVertices",
    2: "TooFewIndices",
    3: "BadState",
    4: "NotWhole",
    5: "TooManyIds",
    6: "BadIndex",
    7: "BadPosition",
    8: "NotConvex",
    9: "LeftOver",
    10: "TooManyCorners",
    11: "BadRing",
    12: "BadPolygon",
    13: "TooFewColors",
    14: "TooFewDepths",
    15: "BadTopology",
    16: "BadCull",
    17: "BadDepthTest",
    18: "BadDepthWrite",
    19: "BadKeep",
    20: "BadScissorEnable",
    21: "BadFactor",
    22: "BadOperation",
    23: "BadFillRule",
    24: "TooFewBoxes",
}
# Of polygons the members that such a cause compares: how many there have to be, and how many there are.
COUNTS: Dict[str, Tuple[str, str]] = {
    "TooFewColors": ("polygon_count", "color_count"),
    "TooFewDepths": ("polygon_count", "depth_count"),
    "TooFewBoxes": ("polygon_count", "box_count"),
}

Cull = Literal["none", "front", "back"]
DepthTest = Literal["always", "never", "less", "equal", "less_equal", "greater", "not_equal", "greater_equal"]
Factor = Literal[
    "zero", "one", "source_color", "inverse_source_color", "source_alpha", "inverse_source_alpha", "stored_alpha",
    "inverse_stored_alpha", "stored_color", "inverse_stored_color", "source_alpha_saturated", "constant",
    "inverse_constant",
]
Operation = Literal["add", "subtract", "reverse_subtract", "min", "max"]
Format = Literal["rgb", "rgba", "bgra", "rgba_straight", "bgra_straight"]
# In the order of their numbers.
CULLS = ("none", "front", "back")
DEPTH_TESTS = ("always", "never", "less", "equal", "less_equal", "greater", "not_equal", "greater_equal")
# Of each topology, in the order of their numbers, its name and the indices of a primitive.
TOPOLOGIES = (("triangles", 3), ("strip", 1), ("quads", 4))
FACTORS: Dict[str, int] = {
    "zero": 1,
    "one": 2,
    "source_color": 3,
    "inverse_source_color": 4,
    "source_alpha": 5,
    "inverse_source_alpha": 6,
    "stored_alpha": 7,
    "inverse_stored_alpha": 8,
    "stored_color": 9,
    "inverse_stored_color": 10,
    "source_alpha_saturated": 11,
    "constant": 14,
    "inverse_constant": 15,
}
OPERATIONS: Dict[str, int] = {
    "add": 1,
    "subtract": 2,
    "reverse_subtract": 3,
    "min": 4,
    "max": 5,
}
# Of each format its number and the bytes of a pixel.
FORMATS: Dict[str, Tuple[int, int]] = {
    "rgb": (0, 3),
    "rgba": (1, 4),
    "bgra": (2, 4),
    "rgba_straight": (3, 4),
    "bgra_straight": (4, 4),
}
# Of each number of samples how far right of a pixel's centre and below it they lie, in 1/16 pixel.
PATTERNS: Dict[int, Tuple[Tuple[int, int], ...]] = {
    1: ((0, 0),),
    2: ((4, 4), (-4, -4)),
    4: ((-2, -6), (6, -2), (-6, 2), (2, 6)),
    8: ((1, -3), (-1, 3), (5, 1), (-3, -5), (-5, 5), (-7, -1), (3, 7), (7, -7)),
    16: (
        (1, 1), (-1, -3), (-3, 2), (4, -1), (-5, -2), (2, 5), (5, 3), (3, -5), (-2, 6), (0, -7), (-4, -6), (-6, 4),
        (-8, 0), (7, -4), (6, 7), (-7, -8),
    ),
}
