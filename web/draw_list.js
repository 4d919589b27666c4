// Draw lists (docs/draw-list.md) as the arrays of a batch, and their pictures.

import { Batch, Canvas } from './canvas.js';
import { BLEND_OVER, CULLS, ERRORS, MAX_SIDE, PRIMITIVES, TESTS } from './interface.js';

const ALL_SAMPLES = 65535;

/** An error of a list, in the program's words. */
export function errorLine({ cause, draw }) {
  return `list fault ${ERRORS[cause]} in draw ${draw}`;
}

/** The state of a draw, as a batch has it. */
function stateOf(draw, primitives) {
  const write = draw.write ?? [true, true, true];
  return {
    topology: PRIMITIVES.indexOf(primitives), cull: CULLS.indexOf(draw.cull ?? 'none'),
    depth_test: TESTS.indexOf(draw.depth_test ?? 'always'), depth_write: Number(draw.depth_write ?? false),
    keep: write.reduce((sum, isWritten, channel) => sum + (isWritten ? 0 : 1 << channel), 0),
    skip_samples: ALL_SAMPLES & ~(draw.sample_mask ?? ALL_SAMPLES), scissor: draw.scissor ?? [0, 0, MAX_SIDE, MAX_SIDE],
    ...(draw.blend === 'over' ? { blend: BLEND_OVER } : {}),
  };
}

/** The draws of a list, as a batch has them. */
export function drawsOf(list) {
  return list.draws.map((draw) => {
    const primitives = PRIMITIVES.find((name) => name in draw);
    return { state: stateOf(draw, primitives), vertices: draw.vertices, indices: draw[primitives].flat() };
  });
}

/** The number of triangles of a list. */
export function trianglesIn(list) {
  const counts = list.draws.map((draw) => (
    draw.triangles?.length ?? (draw.quads ? 2 * draw.quads.length : Math.max(0, draw.strip.length - 2))
  ));
  return counts.reduce((sum, count) => sum + count, 0);
}

/** A new canvas of a list's size, drawn with its draws, and the error if they are refused. */
export function drawn(core, list) {
  const canvas = new Canvas(core, list.width, list.height, list.samples ?? 1);
  canvas.clear(list.clear ?? [0, 0, 0], list.clear_depth ?? 65535);
  return { canvas, error: canvas.draw(new Batch(core, drawsOf(list))) };
}

/** The pixels of a list's picture: three bytes of colour each, or one number, its depth. */
export function pixelsOf(core, list) {
  return core.within(() => {
    const { canvas, error } = drawn(core, list);
    if (error) throw new Error(errorLine(error));
    return list.output === 'depth' ? canvas.depths(0) : canvas.colors();
  });
}
