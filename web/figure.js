// What the explorer shows: four vertices, the two triangles over them, and the state in which they are drawn. A
// link holds all of it.

import { PATTERNS } from './interface.js';

export const COLUMNS = 16;
export const ROWS = 12;
/** Positions are in 1/256 pixel. */
export const UNIT = 256;
export const NAMES = ['A', 'B', 'C', 'D'];
const MARGIN = UNIT / 2;

/** The numbers of samples that a pixel may have, as texts. */
export const COUNTS = Object.keys(PATTERNS);

/** The radius of a sample in pixels, by their number. */
export const RADII = Object.fromEntries(COUNTS.map((count) => [count, 0.12 - 0.0175 * Math.log2(count)]));

/** What each choice may be. The first is what a link leaves out. */
export const CHOICES = {
  samples: ['4', ...COUNTS.filter((count) => count !== '4')],
  cull: ['none', 'front', 'back'],
  turned: ['no', 'yes'],
  diagonal: ['BC', 'AD'],
  primitives: ['triangles', 'quad'],
};

export const START = {
  points: [[560, 384], [2304, 384], [1664, 2560], [3700, 2010]], scissor: null, chosen: [7, 4, 0],
  ...Object.fromEntries(Object.entries(CHOICES).map(([name, values]) => [name, values[0]])),
};

/** The texts of links to figures to begin with, each for something to be seen. */
export const SHOWN = {
  'Shared edge on samples': 'A=384,896&B=2432,384&C=2432,2688&D=3456,1664&samples=1&at=9,5,0',
  'Rectangle on centres': 'A=640,640&B=3456,640&C=640,2432&D=3456,2432&samples=1&at=2,2,0',
  'Level edge, sixteen samples': 'A=300,700&B=3900,900&C=300,2300&D=3900,2450&samples=16&at=7,3,0',
  'Thin slivers': 'A=200,1200&B=3900,1390&C=250,1300&D=3800,1640&at=9,5,1',
  'Cut by a scissor': 'A=300,300&B=3800,200&C=420,2800&D=3700,2700&diagonal=AD&scissor=3,2,13,10&at=8,5,2',
  'Back face culled': 'A=700,500&B=3300,700&C=1500,2700&D=900,1700&cull=back&at=5,6,0',
  'Dented quad': 'A=300,300&B=3800,400&C=600,2800&D=1500,1200&diagonal=AD&primitives=quad&at=4,3,1',
};

/** The nearest position that a vertex may have on an axis of this many pixels. */
export function snapped(value, pixels) {
  return Math.min(Math.max(Math.round(value) || 0, -MARGIN), UNIT * pixels + MARGIN);
}

/** A position in words. */
export const positionName = ([x, y]) => `(${x}, ${y})`;

/** The corners in order around the quad, by their indices. The first and the third are the ends of its diagonal. */
export function quadOf({ diagonal, turned }) {
  const [a, b, c, d] = diagonal === 'BC' ? [2, 0, 1, 3] : [0, 1, 3, 2];
  // Turned, the first triangle is still the first.
  return turned === 'yes' ? [c, b, a, d] : [a, b, c, d];
}

/** The two triangles, by the indices of their corners. */
export function trianglesOf(figure) {
  const [a, b, c, d] = quadOf(figure);
  return [[a, b, c], [c, d, a]];
}

/** The corners of the figure's triangles. */
export function cornersOf(figure) {
  return trianglesOf(figure).map((triangle) => triangle.map((index) => figure.points[index]));
}

/** The name of a triangle, as ABC: its corners in their order, beginning with the first of the alphabet. */
export function nameOf(triangle) {
  const first = triangle.indexOf(Math.min(...triangle));
  return [0, 1, 2].map((k) => NAMES[triangle[(first + k) % 3]]).join('');
}

/** The figure as a draw list, in these tints. */
export function drawListOf(figure, tints) {
  const vertex = (index, tint) => [...figure.points[index], 0, ...tint, 255];
  const draw = figure.cull === 'none' ? {} : { cull: figure.cull };
  if (figure.scissor) draw.scissor = figure.scissor;
  if (figure.primitives === 'quad') {
    Object.assign(draw, { vertices: NAMES.map((_, index) => vertex(index, tints.quad)), quads: [quadOf(figure)] });
  } else {
    const vertices = trianglesOf(figure).flatMap(
      (triangle, k) => triangle.map((index) => vertex(index, tints.triangles[k])),
    );
    Object.assign(draw, { vertices, triangles: [[0, 1, 2], [3, 4, 5]] });
  }
  return { width: COLUMNS, height: ROWS, samples: Number(figure.samples), clear: tints.cell, draws: [draw] };
}

/** The figure as the text of a link. */
export function textOf(figure) {
  const parts = figure.points.map((point, index) => `${NAMES[index]}=${point}`);
  for (const [name, values] of Object.entries(CHOICES)) {
    if (figure[name] !== values[0]) parts.push(`${name}=${figure[name]}`);
  }
  if (figure.scissor) parts.push(`scissor=${figure.scissor}`);
  return [...parts, `at=${figure.chosen}`].join('&');
}

/** The figure of a link's text. What the text lacks, or has in another form, is as in the first figure. */
export function figureOf(text) {
  const given = new URLSearchParams(text);
  const numbers = (name, limits) => {
    const words = (given.get(name) ?? '').split(',');
    const fits = words.length === limits.length && words.every((word) => /^-?\d{1,8}$/.test(word));
    return fits ? words.map((word, k) => Math.min(Math.max(Number(word), limits[k][0]), limits[k][1])) : null;
  };
  const ends = [COLUMNS, ROWS].map((pixels) => [snapped(-Infinity, pixels), snapped(Infinity, pixels)]);
  const choices = Object.entries(CHOICES).map(
    ([name, values]) => [name, values.includes(given.get(name)) ? given.get(name) : values[0]],
  );
  const figure = Object.fromEntries(choices);
  return {
    ...figure,
    points: NAMES.map((name, index) => numbers(name, ends) ?? START.points[index]),
    scissor: numbers('scissor', [[0, COLUMNS], [0, ROWS], [0, COLUMNS], [0, ROWS]]),
    chosen: numbers('at', [[0, COLUMNS - 1], [0, ROWS - 1], [0, Number(figure.samples) - 1]]) ?? START.chosen,
  };
}
