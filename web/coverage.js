// What the core makes of a figure: the colours of its pixels, and what each triangle does at each sample.

import { Batch, Canvas, NO_ID } from './canvas.js';
import { EdgeFunctions } from './core.js';
import { drawn, drawsOf } from './draw_list.js';
import { COLUMNS, ROWS, UNIT, cornersOf, drawListOf, trianglesOf } from './figure.js';
import { PATTERNS } from './interface.js';

const WHITE = [255, 255, 255];
const NOWHERE = new Uint32Array(COLUMNS * ROWS).fill(NO_ID);

/** Whether a triangle with this doubled area is dropped. Front-facing ones run clockwise on the screen. */
export function isCulled(cull, area) {
  return (cull === 'front' && area > 0) || (cull === 'back' && area < 0);
}

/** 'top', 'left', or '' for the edge pq of a triangle whose third corner is r. Exact: the products are below 2^53. */
export function edgeKind([px, py], [qx, qy], [rx, ry]) {
  if (py === qy) return py < ry ? 'top' : '';
  // Where the edge lies left of r at the height of r, the triangle lies to its right.
  const excess = (qy - py) * (rx - px) - (qx - px) * (ry - py);
  return Math.sign(qy - py) * Math.sign(excess) > 0 ? 'left' : '';
}

/** The ids of one triangle of the figure drawn by itself, for each sample index. */
function idsOf(core, figure, triangle, samples) {
  const list = drawListOf({ ...figure, primitives: 'triangles' }, { cell: WHITE, triangles: [WHITE, WHITE] });
  const [draw] = drawsOf(list);
  const canvas = new Canvas(core, COLUMNS, ROWS, samples);
  canvas.clear(WHITE, 0);
  canvas.drawIds(new Batch(core, [{ ...draw, indices: draw.indices.slice(3 * triangle, 3 * triangle + 3) }]));
  return Array.from({ length: samples }, (_, sample) => canvas.ids(sample));
}

/** A triangle of the figure, with what it does at each sample. */
function triangleOf(core, figure, number, isRefused) {
  const samples = Number(figure.samples);
  const corners = cornersOf(figure)[number];
  const edges = new EdgeFunctions(core).of(corners);
  const { area } = edges.at(0, 0);
  const ids = isRefused ? PATTERNS[samples].map(() => NOWHERE) : idsOf(core, figure, number, samples);
  const at = (column, row, sample) => {
    const [x, y] = positionOf(figure, column, row, sample);
    return { ...edges.of(corners).at(x, y), drawn: ids[sample][row * COLUMNS + column] !== NO_ID };
  };
  const kinds = corners.map(
    (_, k) => (area === 0 ? '' : edgeKind(corners[(k + 1) % 3], corners[(k + 2) % 3], corners[k])),
  );
  return { indices: trianglesOf(figure)[number], corners, area, kinds, culled: isCulled(figure.cull, area), at };
}

/** The position of a sample. */
export function positionOf(figure, column, row, sample) {
  const [x, y] = PATTERNS[figure.samples][sample];
  return [UNIT * column + x, UNIT * row + y];
}

/** Each sample of the picture with what both triangles do there, row by row. */
function samplesOf(figure, triangles) {
  const samples = [];
  for (let row = 0; row < ROWS; row++) {
    for (let column = 0; column < COLUMNS; column++) {
      PATTERNS[figure.samples].forEach((_, sample) => {
        const position = positionOf(figure, column, row, sample);
        const of = triangles.map((triangle) => triangle.at(column, row, sample));
        samples.push({ column, row, sample, position, of });
      });
    }
  }
  return samples;
}

/** The figure's coverage. `error` is that of the draw list if it is refused; then nothing is drawn. */
export function coverageOf(core, figure, tints) {
  return core.within(() => {
    const { canvas, error } = drawn(core, drawListOf(figure, tints));
    const colors = canvas.colors();
    const triangles = [0, 1].map((number) => triangleOf(core, figure, number, error !== null));
    return { colors, error, triangles, samples: samplesOf(figure, triangles) };
  });
}

/** What a triangle does at a sample, in words. */
export function outcome({ covers, drawn: isDrawn }, triangle, error) {
  if (triangle.area === 0) return 'no area, so nothing is covered';
  if (!covers) return 'not covered';
  if (isDrawn) return 'covered and drawn';
  if (error) return 'covered, but the list is refused';
  return triangle.culled ? 'covered, but the triangle is culled' : 'covered, but outside of the scissor';
}

/** The sign of an edge function. */
export function signOf(value) {
  return value > 0 ? '+' : value < 0 ? '−' : '0';
}
