// What browser.mjs asks a page by WCAG 2.2, level AA: expressions in the page.

// The contrasts that are too low, each with its number and what it is of; in colours as they are,
// or as greys, as on paper. Of texts with what is under them 4.5 are wanted, or 3 for large ones
// (1.4.3), and of fields with what is around them 3 (1.4.11). What is disabled need have none.
export const lowContrasts = (isGrey) => `(() => {
  const luma = ([r, g, b]) => 0.2126 * r + 0.7152 * g + 0.0722 * b;
  const shown = (color) => (${isGrey} ? Array(3).fill(luma(color)) : color);
  const linear = (c) => (c <= 0.04045 ? c / 12.92 : ((c + 0.055) / 1.055) ** 2.4);
  const light = (color) => luma(shown(color).map((c) => linear(c / 255)));
  const contrast = (one, other) => {
    const [less, more] = [light(one), light(other)].sort((a, b) => a - b);
    return (more + 0.05) / (less + 0.05);
  };
  const partsOf = (text) => text.match(/[0-9.]+/g).map(Number);
  const over = (under, [r, g, b, alpha = 1]) => (
    [r, g, b].map((c, k) => under[k] + (c - under[k]) * alpha));
  const around = (element) => (element === null ? [255, 255, 255]
    : over(around(element.parentElement), partsOf(getComputedStyle(element).backgroundColor)));
  const strength = (element) => (element === null ? 1
    : Number(getComputedStyle(element).opacity) * strength(element.parentElement));
  const isLarge = ({ fontSize, fontWeight }) => (
    parseFloat(fontSize) >= (Number(fontWeight) >= 700 ? 18.66 : 24));
  const isField = (element) => element.matches('textarea, select, input:not('
    + '[type="checkbox"], [type="range"], [type="file"])');
  const low = [];
  const ask = (what, least, found) => {
    if (found < least) low.push(found.toFixed(2) + ' ' + what);
  };
  for (const element of document.body.querySelectorAll('*')) {
    const isText = [...element.childNodes].some((node) => node.nodeType === 3 && node.data.trim());
    const isSaid = isText && !element.matches('script, style, option, canvas');
    if (!(isSaid || isField(element)) || !element.checkVisibility()) continue;
    if (element.closest(':disabled') !== null) continue;
    const style = getComputedStyle(element), under = around(element);
    const [r, g, b, alpha = 1] = partsOf(style.color);
    const text = over(under, [r, g, b, alpha * strength(element)]);
    const what = (element.id || element.tagName) + ': ' + element.textContent.trim().slice(0, 40);
    ask(what, isLarge(style) ? 3 : 4.5, contrast(text, under));
    if (!isField(element)) continue;
    const outside = around(element.parentElement);
    const border = over(under, partsOf(style.borderTopColor));
    ask('around ' + what, 3, Math.max(contrast(border, outside), contrast(under, outside)));
  }
  return low.join(' | ');
})()`;

// Keeps as `stops` what the key Tab must lead to, and lets it begin before that.
export const BEGIN_STOPS = `{
  window.stops = [...document.querySelectorAll('a[href], button, input, select, textarea, summary, '
    + '[tabindex="0"]')].filter((one) => one.checkVisibility() && !one.matches(':disabled'));
  document.body.tabIndex = -1;
  document.body.focus();
  document.body.removeAttribute('tabindex');
  0;
}`;

// Which of these has the focus, by its number, or -1; and whether something of it can be seen, so
// that nothing covers it all (2.4.11).
export const STOP_NOW = `(() => {
  const one = document.activeElement, { left, top, width, height } = one.getBoundingClientRect();
  const isSeen = [0.5, 0.1, 0.9].some((x) => [0.5, 0.1, 0.9].some((y) => {
    const over = document.elementFromPoint(left + x * width, top + y * height);
    return over !== null && (one.contains(over) || over.contains(one));
  }));
  return { number: stops.indexOf(one), isSeen, name: one.id || one.textContent.trim() };
})()`;
