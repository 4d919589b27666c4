// A handle in the grid: a point that mouse, finger or arrow keys move.

import { draw, isForBrowser, update } from './elements.js';
import { UNIT } from './figure.js';

const WAYS = { ArrowLeft: [-1, 0], ArrowRight: [1, 0], ArrowUp: [0, -1], ArrowDown: [0, 1] };

/** Where a pointer is in the grid, in 1/256 pixel. */
export function positionIn(svg, event) {
  const { x, y } = new DOMPoint(event.clientX, event.clientY).matrixTransform(svg.getScreenCTM().inverse());
  return [UNIT * x, UNIT * y];
}

/** A handle with a name. `step` is what an arrow key moves it by, and `onMove` takes the position to
 * which it is moved. */
export class Handle {
  constructor(svg, { name, kind, step, onMove }) {
    Object.assign(this, { svg, step, onMove, name, position: [0, 0], grip: null, pointer: null });
    this.group = draw(svg, 'g', { class: `handle ${kind}`, tabindex: 0, role: 'button', 'data-name': name });
    draw(this.group, 'circle', { class: 'area', r: 0.8 });
    if (kind === 'vertex') {
      draw(this.group, 'circle', { class: 'grip', r: 0.34 });
      draw(this.group, 'text', { y: 0.02 }, name);
    } else {
      draw(this.group, 'rect', { class: 'grip', x: -0.2, y: -0.2, width: 0.4, height: 0.4 });
    }
    this.#listen();
  }

  /** Shows the handle at a position in 1/256 pixel. */
  place(position, label) {
    this.position = position;
    update(this.group, 'transform', `translate(${position[0] / UNIT} ${position[1] / UNIT})`);
    update(this.group, 'aria-label', label);
  }

  #listen() {
    // A finger here drags and does not scroll. Browsers do not take touch-action from a part of an SVG picture.
    this.group.addEventListener('touchstart', (event) => event.preventDefault(), { passive: false });
    this.group.addEventListener('pointerdown', (event) => {
      if (event.button !== 0) return;
      this.group.setPointerCapture(event.pointerId);
      this.pointer = event.pointerId;
      const [x, y] = positionIn(this.svg, event);
      this.grip = [x - this.position[0], y - this.position[1]];
    });
    this.group.addEventListener('pointermove', (event) => {
      // Another finger has no grip, and a link may have hidden the handle meanwhile.
      if (!this.grip || event.pointerId !== this.pointer || this.group.getClientRects().length === 0) return;
      const [x, y] = positionIn(this.svg, event);
      this.onMove([x - this.grip[0], y - this.grip[1]]);
    });
    for (const end of ['pointerup', 'pointercancel']) {
      this.group.addEventListener(end, (event) => { if (event.pointerId === this.pointer) this.grip = null; });
    }
    this.group.addEventListener('keydown', (event) => this.#key(event));
  }

  #key(event) {
    const way = WAYS[event.key];
    if (!way || isForBrowser(event)) return;
    const step = event.shiftKey ? UNIT : this.step;
    this.onMove(this.position.map((value, axis) => value + step * way[axis]));
    event.preventDefault();
    event.stopPropagation();
  }
}
