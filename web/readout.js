// The chosen sample in numbers, and the two triangles.

import { find, make } from './elements.js';
import { outcome, positionOf, signOf } from './coverage.js';
import { NAMES, nameOf, positionName } from './figure.js';

/** A row of a table. Numbers stand at the right. */
function row(cells, name = 'td') {
  return make('tr', {}, ...cells.map((cell) => make(name, {}, cell)));
}

function facing(area) {
  if (area === 0) return 'no area';
  return area > 0 ? 'clockwise: front' : 'counterclockwise: back';
}

/** Where a sample lies by the edge function of an edge of a kind. */
function placeOf(value, area, kind) {
  if (area === 0) return '';
  if (value === 0) return kind ? `on the ${kind} edge` : 'on the edge';
  return value > 0 === area > 0 ? 'inside' : 'outside';
}

function showTriangles(coverage) {
  const rows = coverage.triangles.map((triangle, k) => {
    const counts = ['covers', 'drawn'].map((key) => coverage.samples.filter(({ of }) => of[k][key]).length);
    const name = make('b', { className: `of${k + 1}`, textContent: nameOf(triangle.indices) });
    return row([name, facing(triangle.area), ...counts.map(String)]);
  });
  find('triangles').replaceChildren(row(['', 'runs', 'covers', 'drawn'], 'th'), ...rows);
}

/** The names of a triangle's edges, as AB, in the order of its edge functions. */
function edgeNames({ indices }) {
  return indices.map((_, edge) => [1, 2].map((n) => NAMES[indices[(edge + n) % 3]]).join(''));
}

function showEdges(triangle, k, { values }) {
  const names = edgeNames(triangle);
  return values.map((value, edge) => {
    const kind = triangle.kinds[edge];
    const name = make('b', { className: `of${k + 1}`, textContent: names[edge] });
    const sign = make('b', { className: 'sign', textContent: signOf(value) });
    return row([name, kind, sign, String(Math.abs(value)), placeOf(value, triangle.area, kind)]);
  });
}

/** Shows the numbers of a figure. */
export function showReadout(figure, coverage) {
  showTriangles(coverage);
  const [column, rowOf, index] = figure.chosen;
  const sample = coverage.samples.find((each) => each.column === column && each.row === rowOf && each.sample === index);
  find('which').textContent = `Sample ${index} at ${positionName(positionOf(figure, ...figure.chosen))}`;
  const rows = coverage.triangles.flatMap((triangle, k) => {
    const words = `${nameOf(triangle.indices)}: ${outcome(sample.of[k], triangle, coverage.error)}`;
    const cell = make('td', { colSpan: 5, className: `of${k + 1}`, textContent: words });
    const head = make('tr', { className: 'outcome' }, cell);
    return [head, ...showEdges(triangle, k, sample.of[k])];
  });
  find('edges').replaceChildren(...rows);
  const names = coverage.triangles.map(
    (triangle, k) => make('b', { className: `of${k + 1}`, textContent: edgeNames(triangle).join(' ') }),
  );
  find('order').replaceChildren('Signs of the edge functions, in this order: ', names[0], ' and ', names[1]);
}
