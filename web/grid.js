// The magnified pixels with their samples, the triangles over them, and the handles.

import { draw, isForBrowser, update } from './elements.js';
import { drawEdges, drawShared } from './edges.js';
import { COLUMNS, NAMES, RADII, ROWS, UNIT, positionName, snapped } from './figure.js';
import { PATTERNS } from './interface.js';
import { Handle, positionIn } from './handle.js';
import { css } from './tints.js';

const CORNERS = ['upper left', 'lower right'];

/** The index of a sample among all of a picture. */
function places(samples) {
  const found = [];
  for (let row = 0; row < ROWS; row++) for (let column = 0; column < COLUMNS; column++) {
    for (let sample = 0; sample < samples; sample++) found.push([column, row, sample]);
  }
  return found;
}

/** The grid. `change` takes what is to change of the figure. */
export class Grid {
  constructor(svg, change) {
    Object.assign(this, { svg, change, figure: null });
    this.cells = places(1).map(([x, y]) => draw(svg, 'rect', { class: 'cell', x, y, width: 1, height: 1 }));
    this.edges = draw(svg, 'g', {});
    this.samples = draw(svg, 'g', {});
    this.veil = draw(svg, 'path', { class: 'veil', 'fill-rule': 'evenodd' });
    this.frame = draw(svg, 'rect', { class: 'scissor' });
    this.tags = draw(svg, 'g', {});
    this.ring = draw(svg, 'circle', { class: 'ring', r: 0.2 });
    this.corners = CORNERS.map(
      (name, k) => new Handle(svg, { name, kind: 'corner', step: UNIT, onMove: (to) => this.#cut(k, to) }),
    );
    this.vertices = NAMES.map(
      (name, k) => new Handle(svg, { name, kind: 'vertex', step: 1, onMove: (to) => this.#move(k, to) }),
    );
    svg.addEventListener('keydown', (event) => this.#key(event));
    svg.addEventListener('click', (event) => this.#choose(event));
  }

  /** Shows a figure and its coverage. */
  show(figure, coverage) {
    this.figure = figure;
    this.cells.forEach((cell, k) => update(cell, 'fill', css(coverage.colors.subarray(3 * k, 3 * k + 3))));
    this.#showSamples(coverage.samples);
    this.edges.replaceChildren();
    this.tags.replaceChildren();
    drawShared(this.edges, coverage.triangles[0]);
    coverage.triangles.forEach((triangle, k) => drawEdges(this.edges, triangle, k + 1, 0.06, this.tags));
    this.vertices.forEach(
      (handle, k) => handle.place(figure.points[k], `Vertex ${NAMES[k]} at ${positionName(figure.points[k])}`),
    );
    this.#showScissor(figure.scissor);
    this.#showChosen(figure);
  }

  #showSamples(samples) {
    const count = this.samples.childElementCount;
    if (count !== samples.length) {
      this.samples.replaceChildren();
      const r = RADII[samples.length / (COLUMNS * ROWS)];
      for (const { column, row, sample, position: [x, y] } of samples) {
        draw(this.samples, 'circle', {
          class: 'sample', cx: x / UNIT, cy: y / UNIT, r, 'data-at': `${column},${row},${sample}`,
        });
      }
    }
    const bits = (of, key) => of.map((each) => Number(each[key])).join('');
    samples.forEach(({ of }, k) => {
      const circle = this.samples.children[k];
      update(circle, 'data-covers', bits(of, 'covers'));
      update(circle, 'data-drawn', bits(of, 'drawn'));
      update(circle, 'data-signs', of.map(({ values }) => values.map(Math.sign)).join(';'));
    });
  }

  #showScissor(scissor) {
    const [left, top, right, bottom] = scissor ?? [0, 0, COLUMNS, ROWS];
    const [width, height] = [Math.max(0, right - left), Math.max(0, bottom - top)];
    update(this.veil, 'd', scissor ? `M0 0H${COLUMNS}V${ROWS}H0ZM${left} ${top}h${width}v${height}h${-width}Z` : '');
    for (const [name, value] of Object.entries({ x: left, y: top, width, height })) update(this.frame, name, value);
    for (const element of [this.frame, ...this.corners.map(({ group }) => group)]) {
      element.style.display = scissor ? '' : 'none';
    }
    const ends = [[left, top], [right, bottom]];
    this.corners.forEach((handle, k) => {
      handle.place(
        ends[k].map((pixel) => UNIT * pixel), `Scissor, ${CORNERS[k]} corner at pixel ${positionName(ends[k])}`,
      );
    });
  }

  #showChosen({ chosen: [column, row, sample], samples }) {
    const [x, y] = PATTERNS[samples][sample];
    update(this.ring, 'cx', column + x / UNIT);
    update(this.ring, 'cy', row + y / UNIT);
  }

  #move(index, [x, y]) {
    const points = [...this.figure.points];
    points[index] = [snapped(x, COLUMNS), snapped(y, ROWS)];
    this.change({ points });
  }

  #cut(corner, position) {
    const scissor = [...this.figure.scissor];
    position.forEach((value, axis) => {
      scissor[2 * corner + axis] = Math.min(Math.max(Math.round(value / UNIT), 0), [COLUMNS, ROWS][axis]);
    });
    this.change({ scissor });
  }

  #key(event) {
    const [column, row, sample] = this.figure.chosen;
    const samples = Number(this.figure.samples);
    const to = {
      ArrowLeft: [column - 1, row, sample], ArrowRight: [column + 1, row, sample], ArrowUp: [column, row - 1, sample],
      ArrowDown: [column, row + 1, sample], ' ': [column, row, (sample + 1) % samples],
    }[event.key];
    if (!to || isForBrowser(event) || event.target !== this.svg) return;
    event.preventDefault();
    if (to[0] >= 0 && to[0] < COLUMNS && to[1] >= 0 && to[1] < ROWS) this.change({ chosen: to });
  }

  #choose(event) {
    if (event.target.closest('.handle')) return;
    const at = positionIn(this.svg, event);
    const [column, row] = at.map((value) => Math.floor(value / UNIT));
    if (column < 0 || row < 0 || column >= COLUMNS || row >= ROWS) return;
    const far = PATTERNS[this.figure.samples].map(
      ([x, y]) => Math.hypot(UNIT * column + x - at[0], UNIT * row + y - at[1]),
    );
    this.change({ chosen: [column, row, far.indexOf(Math.min(...far))] });
  }
}
