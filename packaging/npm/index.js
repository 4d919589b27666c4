// The proved canvas for JavaScript: what the package trirast exports. index.d.ts has the types.

import { Core } from './core.js';

export { Batch, Canvas, NO_ID } from './canvas.js';
export { Core, EdgeFunctions, LackingError } from './core.js';
export { BLEND_OVER, CULLS, PRIMITIVES, TESTS } from './interface.js';

const MODULE = new URL('./canvas.wasm', import.meta.url);

/** Loads the module of this package. Throws a LackingError if there is no 64-bit memory, or no such file. */
export async function load() {
  if (MODULE.protocol !== 'file:') return Core.load(MODULE);
  const { readFile } = await import('node:fs/promises');
  return Core.of(await readFile(MODULE));
}
