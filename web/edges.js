// The edges of the figure's triangles. Each is drawn a little inside of its triangle, so a shared edge
// shows both of its sides.

import { draw } from './elements.js';
import { UNIT } from './figure.js';

/** The point on the edge pq of a triangle, this part of the way and this far inside, in pixels. */
export function along([p, q], isClockwise, part, inside) {
  const length = Math.hypot(q[0] - p[0], q[1] - p[1]) || 1;
  const way = (isClockwise ? inside : -inside) / length;
  const x = p[0] + part * (q[0] - p[0]);
  const y = p[1] + part * (q[1] - p[1]);
  return [x / UNIT - way * (q[1] - p[1]), y / UNIT + way * (q[0] - p[0])];
}

/** The three edges of a triangle: each the one across from the corner of its index. */
export function edgesOf({ corners }) {
  return corners.map((_, k) => [corners[(k + 1) % 3], corners[(k + 2) % 3]]);
}

/** Draws a triangle's edges, this far inside: solid if top or left, else dotted. With `tags` these are
 * where their words go. */
export function drawEdges(parent, triangle, number, inside, tags = null) {
  if (triangle.area === 0) return;
  const isClockwise = triangle.area > 0;
  const more = triangle.culled ? ' culled' : '';
  edgesOf(triangle).forEach((edge, k) => {
    const kind = triangle.kinds[k];
    const [from, to] = [0, 1].map((part) => along(edge, isClockwise, part, inside));
    draw(parent, 'path', {
      class: `edge of${number} ${kind ? 'in' : 'out'}${more}`, 'data-kind': kind, d: `M${from}L${to}`,
    });
    if (!tags || !kind || Math.hypot(edge[1][0] - edge[0][0], edge[1][1] - edge[0][1]) < 1.5 * UNIT) return;
    const [x, y] = along(edge, isClockwise, 0.5, 0.38);
    draw(tags, 'text', { class: `tag of${number}${more}`, x, y }, kind);
  });
}

/** Draws the shared edge below the others. */
export function drawShared(parent, { corners: [a, , c] }) {
  draw(parent, 'path', { class: 'shared', d: `M${a.map((value) => value / UNIT)}L${c.map((value) => value / UNIT)}` });
}
