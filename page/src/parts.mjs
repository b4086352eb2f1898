/* The parts of the page, and how a text comes into one. */

export const byId = (id) => document.getElementById(id);

/* Gives an element a text. What has it already isn't touched, as each change is read aloud. */
export function setText(element, text) {
  if (element.textContent !== text) element.textContent = text;
}

/* Tells something in words, and after that as `dvg` has it, in hexadecimal: that is never read
 * aloud, and hidden with plain words. */
export function tellBoth(element, words, code) {
  const told = code === '' ? words : `${words} ${code}`;
  if (element.textContent === told) return;
  const span = Object.assign(document.createElement('span'),
    { className: 'hex', textContent: code === '' ? '' : ` ${code}` });
  span.setAttribute('aria-hidden', 'true');
  element.replaceChildren(words, span);
}
