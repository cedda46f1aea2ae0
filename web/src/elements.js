// Elements of the page, made in one call; and what keeps the focus and what is typed while a part is drawn anew.

/** An element with its attributes and children. An attribute that is a function is a listener; `false` and null are left out. */
export function make(name, attributes = {}, ...children) {
  const element = document.createElement(name);
  for (const [key, value] of Object.entries(attributes)) {
    if (typeof value === 'function') element.addEventListener(key, value);
    else if (value === true) element.setAttribute(key, '');
    else if (value !== false && value !== null) element.setAttribute(key, value);
  }
  element.append(...children.flat().filter((child) => child !== null && child !== false));
  return element;
}

const HUES = 'abcdef';

/** The class that gives a phone, named by a letter, its colour. */
export const hueOf = (name) => `client-${HUES[(name.charCodeAt(0) - 65) % HUES.length]}`;

/** Text that only a screen reader reads. */
export const unseen = (text) => make('span', { class: 'unseen' }, text);

const drafts = (element) => element.querySelectorAll('input[data-draft]');

/**
 * Draws the children of an element anew. What has an id keeps the focus, a draft what is typed in it, and `<details>` whether
 * they are open. Where the focused control is gone, the focus goes to the element itself, or to `fallback`.
 */
export function redraw(element, children, fallback = null) {
  const focused = element.contains(document.activeElement) ? document.activeElement : null;
  const focus = focused && { id: focused.id, start: focused.selectionStart, end: focused.selectionEnd };
  const typed = new Map(Array.from(drafts(element), (input) => [input.id, input.value]));
  const open = new Set(Array.from(element.querySelectorAll('details[open]'), (it) => it.id));
  element.replaceChildren(...children);
  for (const input of drafts(element)) input.value = typed.get(input.id) ?? input.value;
  for (const it of element.querySelectorAll('details')) it.open = open.has(it.id);
  if (!focus) return;
  const next = (focus.id && document.getElementById(focus.id)) || fallback;
  next?.focus();
  if (next?.id === focus.id && next.type === 'text' && focus.start !== null) next.setSelectionRange(focus.start, focus.end);
}
