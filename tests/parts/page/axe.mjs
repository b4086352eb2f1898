// axe-core, which looks at pages by WCAG: the one that Chromium has in its developer tools, within
// Lighthouse. No package of Debian has it.
import { runInNewContext } from 'node:vm';

const BUNDLE = 'devtools://devtools/bundled/third_party/lighthouse/lighthouse-dt-bundle.js';
const BEGIN = '`/*! axe v';
// The rules of WCAG 2.2 at level AA.
const TAGS = ['wcag2a', 'wcag2aa', 'wcag21a', 'wcag21aa', 'wcag22aa'];

// The template literal that begins at a place of a script.
function literalAt(script, begin) {
  let end = begin + 1;
  while (script[end] !== '`') end += script[end] === '\\' ? 2 : 1;
  return script.slice(begin, end + 1);
}

// Its script, or null where this browser has none.
export async function readAxe(browser) {
  const tab = await browser.newTab();
  await tab.send('Page.navigate', { url: BUNDLE });
  const bundle = await tab.value(`fetch('${BUNDLE}').then((answer) => answer.text(), () => '')`);
  await tab.close();
  const begin = bundle.indexOf(BEGIN);
  return begin < 0 ? null : runInNewContext(literalAt(bundle, begin));
}

// What it finds on the page of a tab: each rule that is broken, and by which parts.
export async function brokenRules(tab, axe) {
  await tab.value(`${axe}; 0`);
  return tab.value(`axe.run(document, { runOnly: ${JSON.stringify(TAGS)} }).then(
    ({ violations }) => violations.map(({ id, nodes }) => (
      id + ': ' + nodes.map(({ target }) => target.join(' ')).join(', '))).join(' | '))`);
}

// Which version it is, and how many rules it looks at there.
export function versionOfAxe(tab) {
  return tab.value(`axe.version + ', ' + axe.getRules(${JSON.stringify(TAGS)}).length + ' rules'`);
}
