// Looks at pictures as SVG in Chromium. See tests/svg.
//
//     node browser.mjs CHROMIUM PROGRAM FOLDER
import { spawnSync } from 'node:child_process';
import { writeFileSync } from 'node:fs';
import { join } from 'node:path';
import { pathToFileURL } from 'node:url';
import { startChromium } from '../page/chromium.mjs';

const [chromium, program, folder] = process.argv.slice(2);
const counts = { passed: 0, failed: 0 };

function expect(what, wanted, found) {
  if (JSON.stringify(wanted) === JSON.stringify(found)) {
    counts.passed += 1;
  } else {
    counts.failed += 1;
    console.log(`FAILED: ${what}: ${JSON.stringify(found)}, wanted ${JSON.stringify(wanted)}`);
  }
}

// What the program writes of an input.
function ask(args, input) {
  return spawnSync(program, args, { input, encoding: 'utf8', maxBuffer: 1 << 28 }).stdout;
}

// Opens an SVG alone.
async function open(tab, svg) {
  const file = join(folder, 'picture.svg');
  writeFileSync(file, svg);
  await tab.send('Page.navigate', { url: pathToFileURL(file).href });
  if (!await tab.until('document.documentElement?.nodeName === "svg"')) {
    throw new Error('no SVG was opened');
  }
}

// How bright the screen is at places, which are in its units: 0 to 255.
async function brightness(tab, svg, places) {
  await tab.send('Page.navigate', { url: 'about:blank' });
  return tab.value(`(async () => {
    const image = new Image();
    image.src = 'data:image/svg+xml,' + encodeURIComponent(${JSON.stringify(svg)});
    await image.decode();
    const canvas = document.createElement('canvas');
    [canvas.width, canvas.height] = [image.width, image.height];
    const context = canvas.getContext('2d');
    context.drawImage(image, 0, 0);
    const at = ([x, y]) => context.getImageData(x, 1023 - y, 1, 1).data[1];
    return ${JSON.stringify(places)}.map(at);
  })()`);
}

// Whether places are white, or black.
async function expectSeen(tab, what, sketch, white, black) {
  const found = await brightness(tab, ask(['render'], sketch), [...white, ...black]);
  const wanted = [...white.map(() => 'white'), ...black.map(() => 'black')];
  const names = found.map((value) => (value > 250 ? 'white' : value < 5 ? 'black' : value));
  expect(what, wanted, names);
}

async function lookAtStrokes(tab) {
  await expectSeen(tab, 'a stroke', 'labs 100 200 0\nvctr 9 50 0 15\nhalt\n',
    [[100, 200], [125, 200], [150, 200]], [[97, 200], [153, 200], [125, 203], [125, 197]]);
  await expectSeen(tab, 'a dot', 'labs 600 700 0\nvctr 0 0 0 15\nhalt\n',
    [[600, 700]], [[597, 700], [603, 700], [600, 703], [600, 697]]);
  await expectSeen(tab, 'dots in the corners', [[0, 0], [1023, 0], [0, 1023], [1023, 1023]]
    .map(([x, y]) => `labs ${x} ${y} 0\nvctr 0 0 0 15\n`).join('') + 'halt\n',
  [[0, 0], [1023, 0], [0, 1023], [1023, 1023]], [[512, 0], [0, 512]]);
  await expectSeen(tab, 'a stroke from left of the screen',
    'labs 4046 300 0\nvctr 9 200 0 15\nhalt\n',
    [[0, 300], [150, 300]], [[153, 300], [1023, 300]]);
  await expectSeen(tab, 'a stroke from below', 'labs 300 4046 0\nvctr 9 0 200 15\nhalt\n',
    [[300, 0], [300, 150]], [[300, 153], [300, 1023]]);
  await expectSeen(tab, 'strokes out of the screen',
    'labs 1000 500 0\nvctr 9 200 0 15\nlabs 500 1000 0\nvctr 9 0 200 15\nhalt\n',
    [[1000, 500], [1023, 500], [500, 1000], [500, 1023]], [[0, 500], [500, 0]]);
  await expectSeen(tab, 'a stroke all of whose screen is passed',
    'labs 4090 512 0\nvctr 9 1023 0 15\nvctr 9 30 0 15\nhalt\n',
    [[0, 512], [512, 512], [1023, 512]], [[512, 515]]);
}

async function lookAtIntensities(tab) {
  const all = [...Array(15).keys()].map((k) => k + 1);
  const lines = all.map((z) => `labs ${50 * z} 100 0\nvctr 9 0 100 ${z}\n`).join('');
  const svg = ask(['render'], `${lines}halt\n`);
  const found = await brightness(tab, svg, all.map((z) => [50 * z, 150]));
  const off = found.filter((value, k) => Math.abs(value - 255 * (0.3 + 0.05 * k)) > 4);
  expect('intensities', [], off);
}

// Frames of one stroke each.
const frames = (count) => [...Array(count).keys()]
  .map((k) => `.frame\nlabs ${k} 0 0\nvctr 9 0 9 15\nhalt\n`).join('');

const SEEN = `[...document.querySelectorAll('g > g')].map((g, k) =>
  getComputedStyle(g).visibility === 'visible' ? k : -1).filter((k) => k >= 0)`;

async function lookAtTurns(tab, count, rate, times) {
  await open(tab, ask(['render', '--rate', `${rate}`], frames(count)));
  await tab.value('document.documentElement.pauseAnimations()');
  const shown = Math.floor(1000 / rate);
  for (const time of times) {
    const found = await tab.value(
      `(document.documentElement.setCurrentTime(${time / 1000}), ${SEEN})`);
    expect(`what is seen of ${count} pictures at ${time} ms, ${rate} a second`,
      [Math.floor(time / shown) % count], found);
  }
}

async function lookAtMotion(tab) {
  await open(tab, ask(['render', '--rate', '20'], frames(1000)));
  const seen = async () => (await tab.value(SEEN))[0];
  const before = await seen();
  expect('pictures move by themselves', true, await tab.until(`${SEEN}[0] > ${before} + 3`));
}

async function lookAtTitle(tab) {
  const image = Buffer.alloc(4096);
  image.writeUInt16LE(0xD000, 0);
  await open(tab, ask(['picture', '--svg'], image));
  expect('the title of a run that breaks', 'broke 000 2', await tab.value('document.title'));
}

const browser = await startChromium(chromium);
const tab = await browser.newTab();
await lookAtStrokes(tab);
await lookAtIntensities(tab);
await lookAtTurns(tab, 2, 3, [0, 1, 332, 334, 665, 667, 100000, 10]);
await lookAtTurns(tab, 7, 60, [0, 15, 17, 50, 111, 113, 3600005]);
await lookAtTurns(tab, 300, 30, [0, 34, 9898, 9901, 1]);
await lookAtMotion(tab);
await lookAtTitle(tab);
expect('faults that Chromium tells', [], tab.faults);
await browser.stop();
console.log(`${counts.passed} passed, ${counts.failed} failed`);
process.exitCode = counts.failed === 0 ? 0 : 1;
