// The second tab: the lists of examples/, drawn by the core.

import { showList } from './dialog.js';
import { pixelsOf, trianglesIn } from './draw_list.js';
import { find, make } from './elements.js';
import { unpacked } from './packed.js';

/** Draws a list on a canvas element. Returns how long that took, or why there is no picture. */
function drawOn(element, core, list) {
  // This empties the element, so no other list's picture stays there.
  Object.assign(element, { width: list.width, height: list.height });
  const begun = performance.now();
  try {
    const pixels = pixelsOf(core, list);
    const time = performance.now() - begun;
    paint(element, list, pixels);
    return `${time.toFixed(1)} ms`;
  } catch (error) {
    return `not drawn: ${error.message}`;
  }
}

/** Puts a list's pixels on a canvas element. Of a depth the more significant byte is shown as a grey. */
function paint(element, list, pixels) {
  const image = new ImageData(list.width, list.height);
  for (let k = 0; k < list.width * list.height; k++) {
    const color = list.output === 'depth' ? Array(3).fill(pixels[k] >> 8) : pixels.subarray(3 * k, 3 * k + 3);
    image.data.set([...color, 255], 4 * k);
  }
  element.getContext('2d').putImageData(image, 0, 0);
}

/** A number of things, in words. */
function counted(count, word) {
  return `${count} ${word}${count === 1 ? '' : 's'}`;
}

/** The lists, each with what it shows. */
async function loaded() {
  const file = await fetch('examples.json.gz');
  if (!file.ok) throw new Error(`status ${file.status}`);
  return (await unpacked(file)).json();
}

/** The tab. Lists are loaded when it is opened for the first time. */
export class Examples {
  constructor(core, onChosen) {
    Object.assign(this, { core, onChosen, loading: null, lists: null, asked: '', chosen: null });
    find('example-list').disabled = true;
    find('example-list').addEventListener('click', () => showList(this.chosen, this.lists[this.chosen].list));
  }

  /** Shows the tab with this example, or the first one. While the lists are loaded, another may be asked for. */
  async open(name) {
    this.asked = name;
    try {
      this.lists = await (this.loading ??= loaded());
    } catch {
      this.loading = null;
      find('example-shows').textContent = 'The lists cannot be read.';
      return;
    }
    if (!find('gallery').childElementCount) this.#addCards();
    this.choose(Object.hasOwn(this.lists, this.asked) ? this.asked : Object.keys(this.lists)[0]);
    await this.#drawCards();
  }

  /** Draws an example large, and says what it shows. */
  choose(name) {
    const { list, shows } = this.lists[name];
    this.chosen = name;
    find('example-list').disabled = false;
    const outcome = drawOn(find('example'), this.core, list);
    find('example').style.setProperty('--times', Math.max(1, Math.floor(512 / list.width)));
    find('example-name').textContent = `${name}.json`;
    find('example-shows').textContent = `${shows[0].toUpperCase()}${shows.slice(1)}.`;
    const counts = [counted(list.samples ?? 1, 'sample'), counted(trianglesIn(list), 'triangle')].join(', ');
    find('example-size').textContent = `${list.width} by ${list.height} pixels, ${counts}, ${outcome}`;
    for (const card of find('gallery').children) card.setAttribute('aria-pressed', card.dataset.name === name);
    this.onChosen(name);
  }

  #addCards() {
    for (const name of Object.keys(this.lists)) {
      const caption = make('span', { textContent: name.replaceAll('_', ' ') });
      const card = make('button', { type: 'button' }, make('canvas'), caption);
      card.dataset.name = name;
      card.addEventListener('click', () => this.choose(name));
      find('gallery').append(card);
    }
  }

  /** Draws the small pictures one by one, so that the page answers meanwhile. */
  async #drawCards() {
    for (const card of find('gallery').querySelectorAll('button:not([data-drawn])')) {
      card.dataset.drawn = 'yes';
      const { list } = this.lists[card.dataset.name];
      drawOn(card.querySelector('canvas'), this.core, list);
      await new Promise((next) => { setTimeout(next); });
    }
  }
}
