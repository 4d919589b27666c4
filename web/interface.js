// Numbers of include/trirast.h. Written by `python3 -m tools.interface` from interface/numbers.toml.

/** The width and height of a tile of a canvas, in pixels. */
export const TILE_SIZE = 64;

/** The unit of a canvas's memory, in bytes. */
export const PLANE_BYTES = 384;

/** The greatest width and height of a canvas, in pixels. */
export const MAX_SIDE = 4096;

/** The status of a batch that cannot be drawn. */
export const BAD_BATCH = 15;

/** The format of pixels as the page draws them. */
export const RGB8 = 0;

/** The names of cullings in draw lists, by their numbers. */
export const CULLS = ['none', 'front', 'back'];

/** The names of depth tests in draw lists, by their numbers. */
export const TESTS = ['always', 'never', 'less', 'equal', 'less_equal', 'greater', 'not_equal', 'greater_equal'];

/** The names of topologies in draw lists, by their numbers. */
export const PRIMITIVES = ['triangles', 'strip', 'quads'];

/** Blends a new colour over the stored one by its alpha, as a draw has it: TRIRAST_BLEND_OVER. */
export const BLEND_OVER = [5, 6, 1, 2, 6, 1, 0, 0, 0, 0];

/** What a list has of which a batch has one of these causes: its number and name. A `depth_write` that is no boolean is
 * cause 18, and a `write` of too many of them 19. */
export const ERRORS = {
  4: '4 WrongKind',
  6: '6 BadIndex',
  7: '5 OutOfRange',
  8: '10 NotConvex',
  15: '5 OutOfRange',
  16: '5 OutOfRange',
  17: '5 OutOfRange',
  18: '4 WrongKind',
  19: '4 WrongKind',
  20: '5 OutOfRange',
  21: '5 OutOfRange',
  22: '5 OutOfRange',
};

/** Where the samples of a pixel lie, as in Direct3D, in 1/256 pixel, by their number. */
export const PATTERNS = {
  1: [[128, 128]],
  2: [[192, 192], [64, 64]],
  4: [[96, 32], [224, 96], [32, 160], [160, 224]],
  8: [[144, 80], [112, 176], [208, 144], [80, 48], [48, 208], [16, 112], [176, 240], [240, 16]],
  16: [
    [144, 144], [112, 80], [80, 160], [192, 112], [48, 96], [160, 208], [208, 176], [176, 48], [96, 224], [128, 16],
    [64, 32], [32, 192], [0, 128], [240, 64], [224, 240], [16, 0],
  ],
};
