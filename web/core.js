// The calls of canvas.wasm.gz: the proved canvas, compiled for WebAssembly with 64-bit memory. include/trirast.h
// says what each does.

import { INT32, integer, integers } from './numbers.js';
import { unpacked } from './packed.js';

const PAGE_BYTES = 65536;
const ALIGNMENT = 64;

/** The smallest module with a 64-bit memory: a browser that refuses it cannot run the canvas. */
const MEMORY64 = new Uint8Array([0, 97, 115, 109, 1, 0, 0, 0, 5, 3, 1, 4, 1]);

/** Why the page cannot start. */
export class LackingError extends Error {}

function checkMemory() {
  if (!globalThis.WebAssembly?.validate(MEMORY64)) {
    throw new LackingError('This browser has no 64-bit memory for WebAssembly');
  }
}

/** The module and its memory. */
export class Core {
  /** Loads the module, gzipped or as it is. Throws a LackingError if the browser has no 64-bit memory, or
   * there is no such file. */
  static async load(url) {
    checkMemory();
    const file = await fetch(url).catch(() => null);
    if (!file?.ok) throw new LackingError(`The file ${url} cannot be read`);
    return Core.of(await (await unpacked(file)).arrayBuffer());
  }

  /** The module of these bytes. Throws a LackingError if there is no 64-bit memory. */
  static async of(bytes) {
    checkMemory();
    const { instance } = await WebAssembly.instantiate(bytes, {});
    return new Core(instance.exports);
  }

  constructor(calls) {
    this.calls = calls;
    this.memory = calls.memory;
    this.top = Number(calls.__heap_base.value);
  }

  /** The address of this many bytes. Throws an Error if there is no memory for them. */
  take(bytes) {
    const address = Math.ceil(this.top / ALIGNMENT) * ALIGNMENT;
    const lacking = Math.ceil((address + bytes - this.memory.buffer.byteLength) / PAGE_BYTES);
    if (lacking > 0) this.#grow(lacking);
    this.top = address + bytes;
    return address;
  }

  /** Adds pages to the memory. The module never does so itself. */
  #grow(pages) {
    try {
      this.memory.grow(BigInt(pages));
    } catch (error) {
      // The browser's RangeError would be taken for that of a number.
      throw error instanceof RangeError ? new Error(`no memory for ${PAGE_BYTES * pages} more bytes`) : error;
    }
  }

  /** Does some work, and gives back all memory that it took. */
  within(work) {
    const { top } = this;
    try {
      return work();
    } finally {
      this.top = top;
    }
  }

  /** Memory as an array of numbers. Growing the memory empties earlier views, so nobody keeps one. */
  view(Numbers, address, count) {
    return new Numbers(this.memory.buffer, address, count);
  }

  /** The address of a copy of these numbers. */
  put(Numbers, values) {
    const address = this.take(Numbers.BYTES_PER_ELEMENT * values.length);
    this.view(Numbers, address, values.length).set(values);
    return address;
  }
}

/** The exact edge functions of triangles, each given by its three corners. */
export class EdgeFunctions {
  constructor(core) {
    this.core = core;
    this.corners = core.take(24);
    this.edges = core.take(40);
  }

  /** Sets the triangle of the next calls: three corners, of two integers each. */
  of(corners) {
    integers('corners', corners?.flat?.(), INT32, 6);
    if (corners.length !== 3 || corners.some((corner) => corner.length !== 2)) {
      throw new RangeError('corners: three pairs of integers');
    }
    this.core.view(Int32Array, this.corners, 6).set(corners.flat());
    return this;
  }

  /** The edge functions at a point, the doubled area, and whether the triangle covers the point. */
  at(x, y) {
    integer('x', x, INT32);
    integer('y', y, INT32);
    const status = this.core.calls.trirast_edges_at_point(BigInt(this.corners), x, y, BigInt(this.edges));
    if (status !== 0) throw new RangeError(`no edge functions at (${x}, ${y}): status ${status}`);
    const [a, b, c, area, covers] = this.core.view(BigInt64Array, this.edges, 5);
    return { values: [a, b, c].map(Number), area: Number(area), covers: covers === 1n };
  }
}
