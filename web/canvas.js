// A canvas of the core, and the batches that are drawn on it.

import { BAD_BATCH, BLEND_OVER, MAX_SIDE, PLANE_BYTES, RGB8, TILE_SIZE } from './interface.js';
import { CANVAS, CLEAR, ERROR, BATCH, DRAW, VERTEX } from './structs.js';
import { INT32, UINT16, UINT32, UINT8, integer, integers } from './numbers.js';

/** The id that a canvas cleared to white has where nothing was drawn. */
export const NO_ID = 0xffffff;

// The members of a draw's state, each of which is 0 if it is left out, with their least and greatest values.
const STATE = {
  topology: UINT8, cull: UINT8, depth_test: UINT8, depth_write: UINT8, keep: UINT8, skip_samples: UINT16,
};
// Those that are arrays.
const ARRAYS = { scissor: [INT32, 4], blend: [UINT8, BLEND_OVER.length] };
const CORNER = { x: INT32, y: INT32, depth: UINT16, red: UINT8, green: UINT8, blue: UINT8, alpha: UINT8 };

/** Throws a TypeError or a RangeError if something is no state of a draw. Whether its numbers make sense is
 * for the core to say. */
function checkState(name, state) {
  if (typeof state !== 'object' || state === null) {
    throw new TypeError(`${name}: expected an object, got ${state === null ? 'null' : typeof state}`);
  }
  for (const [key, value] of Object.entries(state)) {
    if (Object.hasOwn(STATE, key)) integer(`${name}.${key}`, value, STATE[key]);
    else if (Object.hasOwn(ARRAYS, key)) integers(`${name}.${key}`, value, ...ARRAYS[key]);
    else throw new RangeError(`${name}.${key}: no such member`);
  }
}

/** Throws a TypeError or a RangeError if something is no draw of a batch: a state, rows of the seven numbers of a
 * vertex, and indices. */
function checkDraw(draw, k) {
  const { state, vertices, indices } = Object(draw);
  checkState(`draws[${k}].state`, state);
  if (!Array.isArray(vertices)) {
    throw new TypeError(`draws[${k}].vertices: expected an array of rows, got ${typeof vertices}`);
  }
  const ranges = Object.values(CORNER);
  for (const [n, row] of vertices.entries()) {
    integers(`draws[${k}].vertices[${n}]`, row, INT32, ranges.length);
    ranges.forEach((range, place) => integer(`draws[${k}].vertices[${n}][${place}]`, row[place], range));
  }
  integers(`draws[${k}].indices`, indices, UINT32);
}

/** The members of a draw in C. Of its state these are the own ones, which were checked. */
function membersOf({ state, vertices, indices }) {
  const { scissor, blend, ...numbers } = { ...state };
  const [scissor_left, scissor_top, scissor_right, scissor_bottom] = scissor ?? [0, 0, 0, 0];
  const members = {
    ...numbers, scissor_enable: Number(Boolean(scissor)), scissor_left, scissor_top, scissor_right, scissor_bottom,
  };
  return { ...members, vertex_count: vertices.length, index_count: indices.length, blend: blend ?? [] };
}

/** Draws with their vertices and indices, in the core's memory. */
export class Batch {
  /** Each draw has an object `state`, rows `vertices` and an array `indices`. Throws a TypeError or a
   * RangeError if one has not. */
  constructor(core, draws) {
    if (!Array.isArray(draws)) throw new TypeError(`draws: expected an array, got ${typeof draws}`);
    // Not by forEach, which leaves out what an array lacks.
    for (const [k, draw] of draws.entries()) checkDraw(draw, k);
    this.core = core;
    const indices = draws.flatMap((draw) => [...draw.indices]);
    const keys = Object.keys(CORNER);
    const corners = draws.flatMap((draw) => draw.vertices)
      .map((row) => Object.fromEntries(keys.map((key, place) => [key, row[place]])));
    this.address = BATCH.put(core, {
      draws: DRAW.putAll(core, draws.map(membersOf)), draw_count: draws.length,
      vertices: VERTEX.putAll(core, corners), vertex_count: corners.length, vertex_total: corners.length,
      indices: core.put(Uint32Array, indices), index_count: indices.length,
    });
  }
}

/** The samples of a picture, in the core's memory. Its calls throw a TypeError or a RangeError for what
 * they do not take. */
export class Canvas {
  constructor(core, width, height, samples) {
    integer('width', width, [1, MAX_SIDE]);
    integer('height', height, [1, MAX_SIDE]);
    integer('samples', samples, [1, UINT32[1]]);
    Object.assign(this, { core, width, height, samples });
    const bytes = Number(core.within(() => core.calls.trirast_canvas_size(
      BigInt(CANVAS.put(core, { width, height, samples })),
    )));
    if (bytes === 0) throw new RangeError(`there is no canvas of ${width} by ${height} with ${samples} samples`);
    const memory = core.take(bytes);
    this.address = CANVAS.put(core, {
      width, height, samples, end: Math.ceil(height / TILE_SIZE), initialized: 1, memory,
      plane_count: bytes / PLANE_BYTES,
    });
    this.error = ERROR.put(core, {});
  }

  /** Makes each sample one of this colour, three integers from 0 to 255, and depth, 0 to 65535. */
  clear(color, depth) {
    integers('color', color, UINT8, 3);
    integer('depth', depth, UINT16);
    const { core } = this;
    const [red, green, blue] = color;
    this.#done('clear', core.within(() => core.calls.trirast_proved_canvas_clear(
      BigInt(this.address), BigInt(CLEAR.put(core, { red, green, blue, depth })),
    )));
  }

  /** Draws a batch. Returns `null`, or the cause and the draw if the batch is refused. */
  draw(batch) {
    this.#own(batch);
    return this.#error('draw', this.core.calls.trirast_proved_canvas_draw(
      BigInt(this.address), BigInt(batch.address), BigInt(this.error),
    ));
  }

  /** Stores the index of each triangle of a batch in place of its colour. */
  drawIds(batch) {
    this.#own(batch);
    return this.#error('drawIds', this.core.calls.trirast_proved_canvas_draw_ids(
      BigInt(this.address), BigInt(batch.address), 0, BigInt(this.error),
    ));
  }

  /** Three bytes a pixel: the mean of its samples' colours. */
  colors() {
    const size = 3 * this.width * this.height;
    return this.core.within(() => {
      const pixels = this.core.take(size);
      this.#done('colors', this.core.calls.trirast_canvas_resolve(
        BigInt(this.address), RGB8, BigInt(pixels), BigInt(size), 0n,
      ));
      return this.core.view(Uint8Array, pixels, size).slice();
    });
  }

  /** The id of a sample of each pixel. */
  ids(sample) {
    return this.#entries('ids', this.core.calls.trirast_canvas_ids, Uint32Array, sample);
  }

  /** The depth of a sample of each pixel. */
  depths(sample) {
    return this.#entries('depths', this.core.calls.trirast_canvas_depths, Uint16Array, sample);
  }

  /** Throws a TypeError if something is no batch in the memory in which this canvas is. */
  #own(batch) {
    if (!(batch instanceof Batch) || batch.core !== this.core) throw new TypeError('batch: a Batch of the same core');
  }

  #entries(name, call, Numbers, sample) {
    integer('sample', sample, [0, this.samples - 1]);
    const count = this.width * this.height;
    return this.core.within(() => {
      const entries = this.core.take(Numbers.BYTES_PER_ELEMENT * count);
      this.#done(name, call(BigInt(this.address), sample, BigInt(entries), BigInt(count), 0n));
      return this.core.view(Numbers, entries, count).slice();
    });
  }

  #error(name, status) {
    if (status === BAD_BATCH) return ERROR.get(this.core, this.error);
    this.#done(name, status);
    return null;
  }

  #done(name, status) {
    if (status !== 0) throw new Error(`${name} of a canvas: status ${status}`);
  }
}
