// The chosen pixel by itself, large: each sample with its position and the signs of the edge functions,
// or with its index.

import { draw, find } from './elements.js';
import { drawEdges } from './edges.js';
import { COLUMNS, UNIT, positionName } from './figure.js';
import { signOf } from './coverage.js';
import { css } from './tints.js';

const LINE = 0.072;

/** Shows the chosen pixel of a figure. */
export function showLens(svg, figure, coverage) {
  const [column, row, chosen] = figure.chosen;
  svg.setAttribute('viewBox', `${column - 0.04} ${row - 0.04} 1.08 1.08`);
  svg.replaceChildren();
  const color = coverage.colors.subarray(3 * (row * COLUMNS + column), 3 * (row * COLUMNS + column) + 3);
  draw(svg, 'rect', { class: 'cell', x: column, y: row, width: 1, height: 1, fill: css(color) });
  coverage.triangles.forEach((triangle, k) => drawEdges(svg, triangle, k + 1, 0.006));
  for (const sample of coverage.samples) {
    if (sample.column === column && sample.row === row) {
      showSample(svg, sample, sample.sample === chosen, Number(figure.samples) > 4);
    }
  }
  find('pixel').textContent = `Pixel (${column}, ${row})`;
}

/** Shows a sample. Beside it stand its position and the signs for each triangle, or its index alone
 * where there are many. */
function showSample(svg, { position, sample, of }, isChosen, isOneOfMany) {
  const [x, y] = position.map((value) => value / UNIT);
  const bits = (key) => of.map((each) => Number(each[key])).join('');
  const r = isOneOfMany ? 0.022 : 0.035;
  draw(svg, 'circle', { class: 'sample', cx: x, cy: y, r, 'data-covers': bits('covers'), 'data-drawn': bits('drawn') });
  if (isChosen) draw(svg, 'circle', { class: 'ring', cx: x, cy: y, r: r + 0.02 });
  const isLeft = x - Math.floor(x) <= 0.5;
  const more = { x: x + (isLeft ? r + 0.04 : -r - 0.04), 'text-anchor': isLeft ? 'start' : 'end' };
  if (isOneOfMany) {
    draw(svg, 'text', { class: 'note', y, ...more }, String(sample));
    return;
  }
  draw(svg, 'text', { class: 'note', y: y - LINE, ...more }, positionName(position));
  of.forEach(({ values }, k) => draw(
    svg, 'text', { class: `note signs of${k + 1}`, y: y + k * LINE, ...more }, values.map(signOf).join(' '),
  ));
}
