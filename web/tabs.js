// The two tabs. One is shown, and the arrow keys change between them.

import { find, isForBrowser } from './elements.js';

export const TABS = ['explorer', 'examples'];

/** Shows a tab. */
export function showTab(shown) {
  for (const name of TABS) {
    find(name).hidden = name !== shown;
    const tab = find(`${name}-tab`);
    tab.setAttribute('aria-selected', name === shown);
    tab.tabIndex = name === shown ? 0 : -1;
  }
}

/** Calls a function with the name of the tab that is opened. */
export function onTab(open) {
  TABS.forEach((name, k) => {
    const tab = find(`${name}-tab`);
    tab.addEventListener('click', () => open(name));
    tab.addEventListener('keydown', (event) => {
      if ((event.key !== 'ArrowLeft' && event.key !== 'ArrowRight') || isForBrowser(event)) return;
      const other = TABS[1 - k];
      open(other);
      find(`${other}-tab`).focus();
    });
  });
}
