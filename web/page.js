// The page: loads the core, reads the link, and shows the figure whenever it changes.

import { addControls } from './controls.js';
import { Core, LackingError } from './core.js';
import { coverageOf } from './coverage.js';
import { showList } from './dialog.js';
import { errorLine } from './draw_list.js';
import { find } from './elements.js';
import { Examples } from './examples.js';
import { START, drawListOf, figureOf, textOf } from './figure.js';
import { Grid } from './grid.js';
import { showLens } from './lens.js';
import { copyLink, linkTo } from './link.js';
import { showReadout } from './readout.js';
import { TABS, onTab, showTab } from './tabs.js';
import { onSystemTheme, tints, turnTheme } from './tints.js';

// Browsers refuse an address that changes too often.
const LINK_DELAY = 250;

/** The explorer with its two tabs. */
class Page {
  constructor(core) {
    Object.assign(this, { core, figure: START, tab: TABS[0], example: '', timer: null });
    this.grid = new Grid(find('grid'), (changes) => this.change(changes));
    this.showControls = addControls(this);
    this.examples = new Examples(core, (name) => { this.example = name; this.#writeLinkSoon(); });
    onTab((name) => this.open(name));
    onSystemTheme(() => this.show());
    // Not by the address line, which may have been written since.
    addEventListener('hashchange', (event) => this.read(new URL(event.newURL).hash));
    const buttons = {
      theme: () => { turnTheme(); this.show(); },
      reset: () => this.change(START),
      link: (event) => copyLink(event.target, this.text()),
      'draw-list': () => showList('figure', drawListOf(this.figure, tints())),
    };
    for (const [id, call] of Object.entries(buttons)) find(id).addEventListener('click', call);
    this.read(location.hash);
  }

  /** The text of a link to what is shown. */
  text() {
    // Until the lists are there, the example is any text that a link had.
    const example = encodeURIComponent(this.example);
    return textOf(this.figure) + (this.tab === TABS[0] ? '' : `&tab=${this.tab}&example=${example}`);
  }

  /** Shows what a link says behind its address. */
  read(hash) {
    const text = hash.slice(1);
    const given = new URLSearchParams(text);
    this.example = given.get('example') ?? '';
    this.#take(figureOf(text));
    this.open(TABS.includes(given.get('tab')) ? given.get('tab') : TABS[0]);
  }

  /** Opens a tab. */
  open(name) {
    this.tab = name;
    showTab(name);
    if (name === 'examples') this.examples.open(this.example);
    this.#writeLinkSoon();
  }

  /** Changes the figure. */
  change(changes) {
    this.#take(figureOf(textOf({ ...this.figure, ...changes })));
    this.#writeLinkSoon();
  }

  /** Shows another figure. If that fails, the one that is shown stays, with its link and its draw list. */
  #take(figure) {
    const before = this.figure;
    this.figure = figure;
    try {
      this.show();
    } catch (error) {
      // Of the first figure the page says that it cannot start.
      if (!this.grid.figure) throw error;
      this.figure = before;
      this.#notice(`The figure stays, since ${error.message}.`);
    }
  }

  /** Shows the figure. */
  show() {
    const coverage = coverageOf(this.core, this.figure, tints());
    this.grid.show(this.figure, coverage);
    showLens(find('lens'), this.figure, coverage);
    showReadout(this.figure, coverage);
    this.showControls(this.figure);
    const { error } = coverage;
    this.#notice(error ? `Nothing is drawn, since ${errorLine(error)}. A quad has to be strictly convex.` : '');
  }

  /** Says something below the grid, or nothing. */
  #notice(text) {
    find('refused').hidden = !text;
    find('refused').textContent = text;
  }

  #writeLinkSoon() {
    clearTimeout(this.timer);
    this.timer = setTimeout(() => history.replaceState(null, '', linkTo(this.text())), LINK_DELAY);
  }
}

try {
  // By this name the check of the page reads what is shown.
  globalThis.page = new Page(await Core.load('canvas.wasm.gz'));
  document.body.dataset.state = 'ready';
} catch (error) {
  find('why').textContent = error instanceof LackingError ? `${error.message}.` : `${error}.`;
  document.body.dataset.state = 'lacking';
}
