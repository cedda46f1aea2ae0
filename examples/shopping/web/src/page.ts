// Small help with the page's elements.

export const byId = <E extends HTMLElement>(id: string): E => document.getElementById(id) as E;

export function make<K extends keyof HTMLElementTagNameMap>(
  tag: K, attributes: Record<string, string> = {}, ...children: (Node | string)[]
): HTMLElementTagNameMap[K] {
  const element = document.createElement(tag);
  for (const [name, value] of Object.entries(attributes)) element.setAttribute(name, value);
  element.append(...children);
  return element;
}

/** Puts others in place of the buttons that stand there. Who was at one of them, by the keyboard, is at the one in its place, or behind them all. */
export function replaceButtons(place: Element, buttons: readonly HTMLElement[]): void {
  const at = [...place.children].indexOf(document.activeElement as Element);
  place.replaceChildren(...buttons);
  if (at >= 0) (buttons[Math.min(at, buttons.length - 1)] ?? (place.nextElementSibling as HTMLElement | null))?.focus();
}

let timer = 0;

/** Tells a person something, for a while. */
export function toast(message: string): void {
  const element = byId('toast');
  element.textContent = message;
  element.hidden = false;
  clearTimeout(timer);
  timer = setTimeout(() => { element.hidden = true; }, 8000);
}

/** Tells why a write was refused. */
export const told = <R>(written: Promise<R>): Promise<R | null> =>
  written.catch((error: unknown) => {
    toast(error instanceof Error ? error.message : String(error));
    return null;
  });
