// The dialog with a draw list to take away.

import { find, make } from './elements.js';
import { copy } from './link.js';

/** The numbers of samples that a picture of the program may have. */
const LISTED = [1, 4];

/** The JSON text of a value. Objects, and arrays of arrays or objects, have a line for each of their parts. */
export function textOfList(value, indent = '') {
  const isArray = Array.isArray(value);
  if (typeof value !== 'object' || (isArray && typeof value[0] !== 'object')) return JSON.stringify(value);
  const lines = Object.entries(value).map(([key, part]) => {
    const text = textOfList(part, `${indent}  `);
    return `${indent}  ${isArray ? '' : `${JSON.stringify(key)}: `}${text}`;
  });
  const [open, close] = isArray ? '[]' : '{}';
  return `${open}\n${lines.join(',\n')}\n${indent}${close}`;
}

/** Shows a draw list in the dialog, with buttons that copy it and save it. */
export function showList(name, list) {
  const text = `${textOfList(list)}\n`;
  find('list-text').value = text;
  find('list-name').textContent = `${name}.json`;
  const isTaken = LISTED.includes(list.samples ?? 1);
  find('list-taken').hidden = !isTaken;
  find('list-refused').hidden = isTaken;
  find('list-copy').onclick = () => copy(find('list-copy'), text);
  find('list-save').onclick = () => {
    const url = URL.createObjectURL(new Blob([text], { type: 'application/json' }));
    make('a', { href: url, download: `${name}.json` }).click();
    // Not before the browser has begun to read it.
    setTimeout(() => URL.revokeObjectURL(url), 1000);
  };
  find('list').showModal();
  find('list-text').setSelectionRange(0, 0);
  find('list-text').scrollTop = 0;
}
