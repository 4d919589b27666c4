// The address of what is shown, and the clipboard.

/** The address of the page with a text behind its #. */
export const linkTo = (text) => `${location.href.split('#')[0]}#${text}`;

/** Copies a text, and says so on the button for a moment. */
export async function copy(button, text) {
  // Not its text of now: that of an earlier copy may still stand there.
  const label = (button.dataset.label ??= button.textContent);
  const done = await navigator.clipboard?.writeText(text).then(() => true, () => false);
  button.textContent = done ? 'Copied' : 'Not copied';
  setTimeout(() => { button.textContent = label; }, 1200);
}

/** Copies the link of a text. Where the browser lets nobody copy, the address line has it. */
export function copyLink(button, text) {
  history.replaceState(null, '', linkTo(text));
  copy(button, linkTo(text));
}
