// The colours of pixels, in light and in dark. They are those of the draw list too, so the program draws
// what the page shows.

const LIGHT = { cell: [255, 255, 255], triangles: [[178, 206, 250], [255, 207, 160]], quad: [226, 196, 240] };
const DARK = { cell: [24, 28, 33], triangles: [[35, 66, 117], [112, 62, 20]], quad: [84, 46, 104] };

const system = matchMedia('(prefers-color-scheme: dark)');

/** 'light' or 'dark': the reader's choice, or else the system's. */
export function theme() {
  return document.documentElement.dataset.theme ?? (system.matches ? 'dark' : 'light');
}

/** The tints of the theme. */
export function tints() {
  return theme() === 'dark' ? DARK : LIGHT;
}

/** Changes between light and dark. */
export function turnTheme() {
  document.documentElement.dataset.theme = theme() === 'dark' ? 'light' : 'dark';
}

/** Calls a function if the system's choice changes. */
export function onSystemTheme(call) {
  system.addEventListener('change', call);
}

/** The colour in the form of CSS. */
export function css([red, green, blue]) {
  return `rgb(${red},${green},${blue})`;
}
