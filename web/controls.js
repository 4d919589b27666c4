// The switches, number fields and buttons of the explorer.

import { find, make } from './elements.js';
import { COLUMNS, COUNTS, NAMES, ROWS, SHOWN, figureOf, snapped } from './figure.js';

const SWITCHES = [
  ['samples', 'Samples', Object.fromEntries(COUNTS.map((count) => [count, count]))],
  ['cull', 'Cull', { none: 'none', front: 'front', back: 'back' }],
  ['turned', 'Orientation', { no: 'as it is', yes: 'reversed' }],
  ['diagonal', 'Shared edge', { BC: 'BC', AD: 'AD' }],
  ['primitives', 'Draw as', { triangles: 'two triangles', quad: 'a quad' }],
];
const EDGES = ['left', 'top', 'right', 'bottom'];
const FIRST_SCISSOR = [2, 2, COLUMNS - 2, ROWS - 2];

/** A group of buttons of which one is pressed. Returns it, and a function that shows a value. */
function choice(name, title, values, call) {
  const inputs = Object.entries(values).map(([value, text]) => {
    const input = make('input', { type: 'radio', name, value });
    input.addEventListener('change', () => call(value));
    return [input, make('label', {}, input, make('span', { textContent: text }))];
  });
  const group = make('fieldset', {}, make('legend', { textContent: title }), ...inputs.map(([, label]) => label));
  return [group, (value) => inputs.forEach(([input]) => { input.checked = input.value === value; })];
}

/** A field for an integer. Returns it, and a function that shows a value. */
function field(label, call) {
  const input = make('input', { type: 'number', step: 1, ariaLabel: label });
  let shown = '';
  const show = (value) => {
    shown = value;
    if (Number(input.value) !== value || input.value === '') input.value = value;
  };
  // A field that was emptied, or has a text that is no number, gets its number back.
  input.addEventListener('change', () => (input.value === '' ? show(shown) : call(Number(input.value))));
  return [input, show];
}

/** The switches above the grid. */
function addSwitches(change) {
  const shows = SWITCHES.map(([name, title, values]) => {
    const [group, show] = choice(name, title, values, (value) => change({ [name]: value }));
    find('switches').append(group);
    return (figure) => show(figure[name]);
  });
  const [group, show] = choice('scissor', 'Scissor', { off: 'off', on: 'on' },
    (value) => change({ scissor: value === 'on' ? FIRST_SCISSOR : null }));
  find('switches').append(group);
  return [...shows, ({ scissor }) => show(scissor ? 'on' : 'off')];
}

/** The fields of the vertices' positions. */
function addVertices(state) {
  return NAMES.flatMap((name, index) => {
    const fields = [COLUMNS, ROWS].map((pixels, axis) => field(`${'xy'[axis]} of ${name}`, (value) => {
      const points = state.figure.points.map((point) => [...point]);
      points[index][axis] = snapped(value, pixels);
      state.change({ points });
    }));
    const cells = fields.map(([input]) => make('td', {}, input));
    find('vertices').append(make('tr', {}, make('th', { textContent: name }), ...cells));
    return fields.map(([, show], axis) => ({ points }) => show(points[index][axis]));
  });
}

/** The fields of the scissor's edges, which are shown while there is one. */
function addScissor(state) {
  const shows = EDGES.map((name, k) => {
    const [input, show] = field(`${name} edge of the scissor`, (value) => {
      // A link may have taken it away while somebody typed.
      if (!state.figure.scissor) return;
      const scissor = [...state.figure.scissor];
      scissor[k] = Math.min(Math.max(Math.round(value) || 0, 0), [COLUMNS, ROWS][k % 2]);
      state.change({ scissor });
    });
    find('scissor').append(make('label', {}, `${name} `, input));
    return ({ scissor }) => { if (scissor) show(scissor[k]); };
  });
  return [...shows, ({ scissor }) => { find('cut').hidden = !scissor; }];
}

/** The list of figures to begin with. It shows its title again once one is chosen, since any change
 * leaves that figure. */
function addShown(change) {
  const list = find('shown');
  list.append(...Object.keys(SHOWN).map((name) => make('option', { textContent: name })));
  list.addEventListener('change', () => {
    if (SHOWN[list.value]) change(figureOf(SHOWN[list.value]));
    list.selectedIndex = 0;
  });
}

/** Adds all controls. `state` has the figure, and a function that changes it. Returns a function that
 * shows a figure. */
export function addControls(state) {
  const change = (changes) => state.change(changes);
  addShown(change);
  const shows = [...addSwitches(change), ...addVertices(state), ...addScissor(state)];
  return (figure) => shows.forEach((show) => show(figure));
}
