/** Loads the module of this package. Rejects with a LackingError if there is no 64-bit memory, or no such file. */
export function load(): Promise<Core>;

/** Why the module cannot be loaded. */
export class LackingError extends Error {}

/** The id that a canvas cleared to white has where nothing was drawn. */
export const NO_ID: number;

/** Blends a new colour over the stored one by its alpha. */
export const BLEND_OVER: readonly number[];

/** The names of cullings, depth tests and topologies, by their numbers. */
export const CULLS: readonly string[];
export const TESTS: readonly string[];
export const PRIMITIVES: readonly string[];

/** The module and its memory. */
export class Core {
  /** Loads the module from an address, gzipped or as it is. */
  static load(url: string | URL): Promise<Core>;
  /** The module of these bytes. */
  static of(bytes: BufferSource): Promise<Core>;
  /** The calls of trirast.h, with addresses as BigInt. */
  readonly calls: Record<string, any>;
  readonly memory: WebAssembly.Memory;
  /** Does some work, and gives back all memory that was taken by it. */
  within<Result>(work: () => Result): Result;
}

/** The state of a draw. A member that is left out is 0. */
export interface State {
  topology?: number;
  cull?: number;
  depth_test?: number;
  depth_write?: number;
  /** Bits of the channels that are not written. */
  keep?: number;
  /** Bits of the samples that are not drawn. */
  skip_samples?: number;
  /** Left, top, right and bottom in pixels, right and bottom outside. */
  scissor?: ArrayLike<number>;
  /** Ten numbers, as BLEND_OVER has them. */
  blend?: readonly number[];
}

/** x and y in 1/256 pixel, depth, red, green, blue and alpha. */
export type Vertex = readonly [number, number, number, number, number, number, number];

export interface Draw {
  state: State;
  vertices: readonly Vertex[];
  indices: readonly number[] | Uint32Array;
}

/** Draws with their vertices and indices, in the memory of a core. */
export class Batch {
  constructor(core: Core, draws: readonly Draw[]);
}

/** The error of a batch: its numbers are those of trirast.h. */
export interface BatchError {
  status: number;
  cause: number;
  draw: number | null;
  element: number | null;
  value: number;
}

/** The samples of an image, in the memory of a core. */
export class Canvas {
  /** The sides are 1 to 4096 pixels. A pixel has 1, 2, 4, 8 or 16 samples. */
  constructor(core: Core, width: number, height: number, samples: number);
  readonly width: number;
  readonly height: number;
  readonly samples: number;
  /** Makes each sample one of this colour and depth. */
  clear(color: readonly [number, number, number], depth: number): void;
  /** Draws a batch. Returns null, or the error of a batch that is rejected. */
  draw(batch: Batch): BatchError | null;
  /** Stores the index of each triangle of a batch instead of its colour. */
  drawIds(batch: Batch): BatchError | null;
  /** Three bytes a pixel: the mean colour of its samples. */
  colors(): Uint8Array;
  /** The id of one sample of each pixel. */
  ids(sample: number): Uint32Array;
  /** The depth of one sample of each pixel. */
  depths(sample: number): Uint16Array;
}

/** The exact edge functions of a triangle. */
export class EdgeFunctions {
  constructor(core: Core);
  /** Sets the triangle: three corners, in 1/256 pixel. */
  of(corners: readonly (readonly [number, number])[]): this;
  /** The edge functions at a point, twice the area, and whether the triangle covers the point. */
  at(x: number, y: number): { values: number[]; area: number; covers: boolean };
}
