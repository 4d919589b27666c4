// Elements of the page, made and found.

const SVG = 'http://www.w3.org/2000/svg';

export const find = (id) => document.getElementById(id);

/** Whether a key is pressed with one that makes it the browser's: Alt and an arrow key go back, for example. */
export const isForBrowser = ({ altKey, ctrlKey, metaKey }) => altKey || ctrlKey || metaKey;

/** A new element of HTML with these properties and children. */
export function make(name, properties = {}, ...children) {
  const element = Object.assign(document.createElement(name), properties);
  element.append(...children);
  return element;
}

/** A new element of SVG with these attributes, as the last child of its parent. */
export function draw(parent, name, attributes, text = '') {
  const element = document.createElementNS(SVG, name);
  for (const [key, value] of Object.entries(attributes)) element.setAttribute(key, value);
  element.textContent = text;
  parent.append(element);
  return element;
}

/** Sets an attribute if it is another: most of a picture stays as it is while a vertex moves. */
export function update(element, name, value) {
  if (element.getAttribute(name) !== String(value)) element.setAttribute(name, value);
}
