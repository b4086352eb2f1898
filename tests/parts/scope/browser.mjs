// Listens to the page's Scope in a Chromium without a screen. Called by tests/scope:
//
//     node browser.mjs CHROMIUM
//
// The last line is 'N passed, M failed'.
import { cpus, loadavg } from 'node:os';
import { startChromium } from '../page/chromium.mjs';
import { TAP, listen, litOn } from './tap.mjs';

const page = `file://${new URL('../../../page/dvg.html', import.meta.url).pathname}`;
const browser = await startChromium(process.argv[2]), tab = await browser.newTab();
let passed = 0, failed = 0;

function expect(what, isGood, found) {
  if (isGood) passed++;
  else {
    failed++;
    console.log(`FAILED: the page in Chromium: ${what}\n  found ${JSON.stringify(found)}`);
  }
}

async function open(hash) {
  await tab.open(`${page}${hash}`);
  await tab.value(TAP);
  await tab.click('#scope-box summary');
  await tab.click('scope');
}

// The pictures that were handed on until now are no longer asked for.
const made = () => tab.value('tapped.pictures.length');

await tab.size(1280, 1000);
await open('#game=Rocks');
const heard = await listen(tab, 12);
console.log(`scope in Chromium: ${JSON.stringify(heard)}`);
// The beam never rests. A turn is cut, or two sound at once, only where a busy machine hands on a
// picture too late.
const mostLost = loadavg()[0] < cpus().length ? 0 : 0.5;
expect('all that is heard is whole turns of pictures', heard.silent === 0 && heard.turns > 100
  && heard.lost <= mostLost * heard.samples && heard.changes > 2, heard);
expect('it is the picture on the tube', await tab.until(`${litOn('tube')} > 90`), 0);
await tab.click('pause');
const before = await made(), rest = await listen(tab, 6);
expect('at rest the last picture goes on', rest.silent === 0 && rest.turns > 60
  && await made() <= before + 1, [rest, before]);
await open('');
expect('both boards stop', await tab.until(
  'document.getElementById("twice").classList.contains("stopped")'), 0);
expect('with both it is the right one', await tab.until(`${litOn('tube-cut')} > 90`)
  && await tab.value(litOn('tube-whole')) < 85, await tab.value(litOn('tube-whole')));
const all = await made();
await tab.value(`(() => {
  const slider = document.getElementById('stroke');
  slider.value = 40;
  slider.dispatchEvent(new Event('input'));
})()`);
expect('up to the stroke that is shown', await tab.until(`tapped.pictures.length > ${all}`)
  && await tab.until(`${litOn('tube-cut')} > 90`), all);
await tab.value('location.hash = "#opening"');
await tab.until('tapped.tap.context.state === "suspended"');
expect('byte by byte it is silent', await tab.value('tapped.tap.context.state') === 'suspended', 0);
expect('no fault', tab.faults.length === 0, tab.faults);
await browser.stop();
console.log(`${passed} passed, ${failed} failed`);
