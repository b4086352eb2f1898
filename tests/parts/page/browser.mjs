// The page in a Chromium without a screen, as a person would use it: clicks, keys, drops. Called by
// tests/page:
//
//     node tests/parts/page/browser.mjs CHROMIUM DVG FOLDER SEEDS EVENTS [TEST..]
//
// FOLDER is for what is thrown away; the screenshots come there, too. Tests that are named are done
// alone. MINUTES says over how many of a game the page's memory is measured [3].
// The last line is 'N passed, M failed'.
import { execFileSync, spawnSync } from 'node:child_process';
import { existsSync, readFileSync, readdirSync, statSync, writeFileSync } from 'node:fs';
import { createServer } from 'node:http';
import { cpus, loadavg } from 'node:os';
import { comesTo, startChromium } from './chromium.mjs';
import { BEGIN_STOPS, STOP_NOW, lowContrasts } from './access.mjs';
import { brokenRules, readAxe, versionOfAxe } from './axe.mjs';
import { DROP_LONG_LOG, MOVE_OVER_IT, movesText } from './long.mjs';
import { FAST_TIME, FRAMES_OF_MINUTE, FRAME_TIME, megabytes } from './minutes.mjs';
import { isDrawn } from './pixels.mjs';
import { builtGame } from '../../../page/src/eproms.mjs';
import { LESSONS } from '../../../page/src/lessons.mjs';
import { strokesOfLines } from '../../../page/src/tears.mjs';
import { linesOfListing } from '../../../page/src/twin.mjs';
import { grouped } from '../../../page/src/words.mjs';
import { packedCave, packedGames } from '../../../page/games.mjs';

const [chromium, program, work] = process.argv.slice(2, 5),
  [seeds, events] = process.argv.slice(5, 7).map(Number), chosen = process.argv.slice(7);
const top = new URL('../../..', import.meta.url).pathname;
// The page, and its board, which begins with the tour.
const file = `${top}page/dvg.html`, front = `file://${file}`, address = `${front}#opening`;
// A game alone.
const rocks = `${front}#game=Rocks`;
let passed = 0, failed = 0;

function fits(wanted, found) {
  return wanted instanceof RegExp ? wanted.test(found) : wanted === found;
}

function expect(what, wanted, found) {
  if (fits(wanted, found)) passed++;
  else {
    failed++;
    const [left, right] = [wanted, found].map((one) => String(one).slice(0, 200));
    console.log(`FAILED: ${what}\n  wanted ${left}\n  found  ${right}`);
  }
}

// What a page comes to show after a change that it isn't asked for at once: another size, a frame
// of an animation. It is looked at again until it fits.
async function expectSoon(what, wanted, look) {
  let found;
  await comesTo(async () => fits(wanted, found = await look()));
  expect(what, wanted, found);
}

function runProgram(args, input) {
  return spawnSync(program, args, { input, maxBuffer: 1 << 28 }).stdout.toString();
}

function runStatus(args, input) {
  return spawnSync(program, args, { input }).status;
}

// The command that makes an SVG of a sketch.
const RENDER = 'render';

// What `dvg torn` says of a log that isn't torn, and what it counts besides.
const SEEN = '[0-9]+ runs, .*[0-9]+ writes';
const NOT_TORN = new RegExp(`^not torn: ${SEEN}$`);
const TORN = new RegExp(
  `^torn at line [0-9]+: wrote [0-9A-F]{3} [0-9A-F]{2} \\(event [0-9]+\\), so far: ${SEEN}$`);

// The verdicts by moments and by halves, each by its word and the colour of that: of all runs, and
// of those since the wire was cut, and since it was mended.
const SOME = '[1-9][0-9]*';
const VERDICTS = {
  whole: /^Whole\/good: .* In time\/good: each byte\.$/,
  torn: /^Torn\/bad: [1-9][0-9]* of .* Early\/early: [1-9][0-9]* bytes?\.$/,
  early: /^Whole\/good: .* Early\/early: [1-9][0-9]* bytes?\.$/,
  cut: new RegExp(`^Torn/bad: (${SOME}) of ${SOME} pictures? since the wire was cut\\. `
    + `Early/early: ${SOME} bytes since the wire was cut\\.$`),
  mended: new RegExp(`^Whole/good: (each of ${SOME} pictures|1 picture) since the wire was mended`
    + '\\. In time/good: each byte since the wire was mended\\.$'),
  none: /^\/No picture is finished yet\. \/$/,
};

// The browser, its tab, and what earlier tabs asked of the network.
let browser, tab;
const asked = [];

// Keeps which texts these parts of a page had, one after the other: a step of the tour may have
// gone by before it is looked at.
const KEEP_TEXTS = `addEventListener('DOMContentLoaded', () => {
  window.texts = {};
  for (const id of ['tour-title', 'run']) {
    const part = document.getElementById(id), texts = window.texts[id] = [];
    const keep = () => { if (texts.at(-1) !== part.textContent) texts.push(part.textContent); };
    if (part) new MutationObserver(keep).observe(part, { childList: true });
  }
})`;

// A new tab, in which what is grey is looked at after each thing that is done.
async function openTab() {
  const opened = await browser.newTab();
  await opened.send('Page.addScriptToEvaluateOnNewDocument', { source: KEEP_TEXTS });
  for (const name of ['click', 'choose', 'type', 'drop']) {
    opened[name] = (...words) => doAsked(name, ...words);
  }
  return opened;
}

// Starts a browser with one tab.
async function beginBrowser() {
  browser = await startChromium(chromium);
  tab = await openTab();
  await tab.size(1600, 1000);
  await browser.send('Browser.setDownloadBehavior',
    { behavior: 'allow', downloadPath: work, eventsEnabled: false });
}

// Does the test of this name. A browser that gives no answer is ended, and the test is done once
// more, in another one: where that gives none, either, it is the page's fault.
async function doTest(name, test) {
  for (const isFirst of [true, false]) {
    const fault = await test().then(() => null, (one) => one);
    const isSilent = fault !== null && /: no answer$/.test(fault.message);
    if (isSilent) {
      asked.push(...tab.requests);
      await browser.kill();
      await beginBrowser();
    }
    if (isSilent && isFirst) {
      console.log(`browser: it gave no answer in ${name}, which is done again in another one`);
      continue;
    }
    if (fault !== null) {
      failed++;
      console.log(`FAILED: ${name}: ${fault.stack}`);
    }
    return;
  }
}

await beginBrowser();

// --- What a person does ---

const set = (id, text) => tab.type(id, String(text));

// Opens the page, and skips its tour.
async function openPage(url = address) {
  await tab.open(url);
  if (await tab.value('!document.getElementById("tour").hidden')) await tab.click('tour-end');
  await tab.value('scrollTo(0, 0)');
}

// The grey buttons that don't say why: the text that describes one stands in the same section, is
// seen, and is at most 150 pixels above or below it.
const UNEXPLAINED = `(() => [...document.querySelectorAll('button:disabled')].filter((one) => {
  const why = document.getElementById(one.getAttribute('aria-describedby'));
  if (!one.checkVisibility()) return false;
  if (!why?.checkVisibility() || why.textContent.trim() === '') return true;
  if (why.closest('section') !== one.closest('section')) return true;
  const [a, b] = [one, why].map((part) => part.getBoundingClientRect());
  return a.top - b.bottom > 150 || b.top - a.bottom > 150 || b.height === 0;
}).map((one) => one.id || one.textContent).join())()`;

// After all that is done on the page, what is grey says why; which states that was asked of.
let states = 0, greys = 0;
async function doAsked(name, ...words) {
  await Object.getPrototypeOf(tab)[name].apply(tab, words);
  const grey = await tab.value(UNEXPLAINED);
  states++;
  greys += await tab.value('document.querySelectorAll("button:disabled").length');
  if (grey !== '') expect(`after ${name} ${words.join(' ')}: what is grey says why`, '', grey);
}

function verdicts() {
  return tab.value(`['moments', 'halves'].map((id) => {
    const [{ textContent: word, className }] = document.getElementById(id).children;
    return word + '/' + className + document.getElementById(id).textContent.slice(word.length);
  }).join(' ')`);
}

// The texts of all elements that a selector names.
function textsOf(selector) {
  return tab.value(`[...document.querySelectorAll('${selector}')].map((one) => one.textContent)`);
}

// The words of the first of these, with one blank between two.
async function wordsOf(selector) {
  return (await textsOf(selector))[0].trim().replace(/\s+/g, ' ');
}

// Whether an element comes to have a text, or one with these words.
function comes(id, text) {
  return tab.until(`document.getElementById('${id}').textContent === ${JSON.stringify(text)}`);
}
function comesWith(id, text) {
  return tab.until(`document.getElementById('${id}').textContent.includes('${text}')`);
}

async function runSeed(seed, how = 'chance') {
  await tab.click('anew');
  await set('seed', seed);
  await set('count', events);
  await tab.choose('how', how);
  await tab.click('once');
}

async function saved(name, button) {
  await tab.click(button);
  return taken(name);
}

// Whether a file that the page saves is there, and whole: a browser makes an empty one first.
function isSaved(name) {
  const isPartOf = (file) => file.endsWith('.crdownload');
  return existsSync(`${work}/${name}`) && statSync(`${work}/${name}`).size > 0
    && !readdirSync(work).some(isPartOf);
}

// The text of a file that the page has saved.
async function taken(name) {
  await comesTo(() => isSaved(name));
  const text = readFileSync(`${work}/${name}`, 'utf8');
  execFileSync('rm', [`${work}/${name}`]);
  return text;
}

// --- The tests ---

async function testBeginning() {
  await tab.size(1600, 1000);
  await openPage();
  expect('what is proved is said', /that is proved\. This page is tested, not proved\.$/,
    await wordsOf('header p'));
  expect('and what the page runs',
    /runs the erased form of the proved sources, as WebAssembly: it is tested, not proved\./,
    await wordsOf('footer'));
  expect('so are the game and its tube',
    /^On a vector tube, as of Atari's Asteroids \(1979\), a beam draws line by line\. /,
    await wordsOf('header p'));
  expect('a newcomer sees a picture', /^Picture [0-9]+, .* whole\. It is frame [0-9]+ of [AB]\./,
    await tab.text('picture-text'));
  expect('and no torn one', NOT_TORN, await tab.text('judged'));
  expect('so say both verdicts', VERDICTS.whole, await verdicts());
  for (const width of [1500, 700, 1280]) {
    await tab.size(width, 1000);
    await expectSoon(`${width} pixels, made so: it is seen`, true, isSeen);
  }
  for (const width of [1280, 1500, 1600]) {
    await tab.size(width, 1000);
    await openPage();
    await expectSoon(`${width} pixels from the beginning: it is seen`, true, isSeen);
  }
}

// How long it takes from the beginning of a navigation until the page can be used, by the clock;
// and how much of that the page's own thread was at work. Both are printed; only the second is
// judged, as a busy machine mustn't fail the tests.
async function testOpening() {
  const clock = [], work = [];
  for (let k = 0; k < 7; k++) {
    await tab.send('Page.navigate', { url: 'about:blank' });
    work.push(Math.round(await workOf(() => tab.open(address))));
    clock.push(Number(await tab.value('document.body.dataset.opened')));
  }
  for (const times of [clock, work]) times.sort((a, b) => a - b);
  console.log(`browser: the page opens in ${clock[0]} to ${clock[6]} ms, ${clock[3]} at the `
    + `median; its thread works ${work[0]} to ${work[6]} ms of that, and a little after`);
  expect('the thread of the page works less than 300 ms until it is open', true, work[3] <= 300);
}

// How long the page's thread is at work while something is done, in milliseconds: by the time that
// it gets of a processor, not by the clock.
async function workOf(act) {
  const before = await taskTime();
  await act();
  return await taskTime() - before;
}

async function taskTime() {
  const { metrics } = await tab.send('Performance.getMetrics');
  return 1000 * metrics.find(({ name }) => name === 'TaskDuration').value;
}

async function testTyping() {
  await openPage();
  const marked = () => tab.value('document.querySelector("#A .numbers b")?.textContent ?? "none"');
  const cases = [
    ['labs 512 400 0\nvctr 9 -100 100 7\nhalt', 'ok 5 words 6 fetches', 'none'],
    ['labs 512 400 0\nvctr 9 -100 100\nhalt', 'syntax at line 2: vctr 9 -100 100\n'
      + 'expected vctr S DX DY Z: S 0 to 9, DX and DY -1023 to 1023, Z 0 to 15', '2'],
    ['labs 0 0 0\n\ncall 9\nhalt', 'line 3: call 9: fault 4 target 1\n'
      + 'it names an operation that isn\'t there\n'
      + 'do: count operations from 0, or give names, as dvg help lay tells', '3'],
    ['labs 0 0 0\nhalt\ncall rock', 'unknown name at line 3: call rock\n'
      + 'expected a name of this frame: no line gives rock', '3'],
    ['rock: labs 0 0 0\njump rock # for ever', 'line 1: labs 0 0 0: fault 9 loops\noperation 1, '
      + 'jump 0: this jump leads back with as many calls open, so the picture may have no end\n'
      + 'do: draw the same twice by two calls, and let the run come to a halt', '1'],
    ['', 'line 1: fault 1 empty\nthere is no operation\n'
      + 'do: begin with labs X Y S, draw, and end with halt', '1'],
    ['halt', 'line 1: halt: fault 2 no labs\n'
      + 'the first operation is no labs, so the picture would depend on where the beam was\n'
      + 'do: begin with labs X Y S', '1'],
    ['labs 0 0 0\nreturn', 'line 2: return: fault 8 no caller op 1\nit returns, but nothing has '
      + 'called\ndo: put halt between the frame and its shapes, so that it doesn\'t run into them',
    '2'],
    ['.frame one\nlabs 5 5 0\nvctr 9 10 0 7\nhalt\n.frame two\nlabs 5 5 0\nhalt',
      'ok 2 frames of at most 5 words', 'none'],
  ];
  for (const [text, said, line] of cases) {
    await set('textA', text);
    expect(`typed ${JSON.stringify(text)}`, said, await tab.text('saidA'));
    expect(`the line of ${JSON.stringify(text)}`, line, await marked());
  }
  await set('textA', 'labs 512 400 0\nvctr 9 -100 100\nhalt');
  expect('what spells nothing is not offered', true,
    await tab.value('document.getElementById("offerA").disabled'));
  await tab.choose('exampleA', 'ship');
  expect('an example is taken', /^ok /, await tab.text('saidA'));
}

// Each sketch, log and trace of examples/ opens by its name; a ROM alone is loaded.
async function testExamples() {
  await openPage();
  const folders = ['', 'board/', 'first/', 'logs/', 'moments/', 'traces/'], wanted = [];
  for (const folder of folders) {
    const place = `${top}examples/${folder}`;
    for (const name of readdirSync(place)) {
      if (/\.(sketch|log)$/.test(name) || folder === 'traces/') wanted.push([name, place + name]);
    }
  }
  expect('the names', wanted.map(([name]) => name).sort().join(),
    (await textsOf('#examples option')).slice(1).sort().join());
  for (const [name, place] of wanted) {
    await tab.choose('examples', name);
    const log = name.endsWith('.log');
    expect(`${name} opens`, true, await comes('file-title', log ? `The log ${name}` : name));
    if (log) await tab.click('file-close');
    if (!name.endsWith('.sketch')) continue;
    const frames = runStatus([RENDER, '--check'], readFileSync(place)) === 0;
    expect(`${name}: its ROM is there`, /^[24][0-9]+ bytes/, await tab.text('rom-said'));
    expect(`${name}: what becomes of it`,
      frames ? /^Its first frame is drawn/ : /^The ROM was loaded/, await tab.text('file-text'));
    expect(`${name}: nothing is at fault`, /^ok /, await tab.text('saidA'));
  }
  for (const name of ['attract', 'digits', 'rocks', 'rom_shapes', 'score', 'ship']) {
    await tab.choose('exampleB', name);
    expect(`${name}: a draft by name`, /^ok /, await tab.text('saidB'));
  }
}

// A sketch of several frames: drawn in turn beside its text, offered in turn, and saved.
async function testSketches() {
  await openPage();
  const sketch = '.rom\nbox: vctr 7 90 0 12\nvctr 7 0 90 12\nreturn\n.frame one\nlabs 300 300 1\n'
    + 'callrom box\nhalt\n.frame two\nlabs 700 700 1\ncallrom box\nvctr 9 -50 9 7\nhalt\n';
  await set('textA', sketch);
  await set('textB', sketch.replace('one', 'three').replace('two', 'four'));
  expect('a sketch', 'ok 2 frames of at most 6 words', await tab.text('saidA'));
  expect('its ROM is that of the board', /^2048 bytes$/, await tab.text('rom-said'));
  const drawn = () => tab.value('document.querySelector("#A .preview").toDataURL()');
  const first = await drawn();
  await expectSoon('it is drawn in turn', true, async () => first !== await drawn());
  await tab.click('once');
  await tab.click('compare');
  expect('and offered in turn', /^the same/, await tab.text('compared'));
  expect('each picture is of a frame', /It is frame [12] of [AB]\./,
    await tab.text('picture-text'));
  for (const [what, name, args] of [['a sketch', 'frames.sketch', null],
    ['a table for ca65', 'frames.inc', ['lay', '--table']], ['an SVG', 'frames.svg', [RENDER]]]) {
    await tab.choose('save-asA', what);
    const wanted = args === null ? sketch : runProgram(args, sketch);
    expect(`saved as ${what}`, wanted, await taken(name));
  }
  await tab.choose('examples', 'waits.log');
  expect('an example of a log', true, await comesWith('file-title', 'The log waits.log'));
  await tab.choose('examples', 'flip');
  expect('an example of a trace', true, await comes('file-title', 'flip'));
}

async function testStepping() {
  await openPage();
  const pictures = async () => Number(/([0-9]+) pictures?/.exec(await tab.text('counts'))[1]);
  const before = await pictures();
  expect('what Run does is said', 'Run: 20,000 events, in about 21 seconds.',
    await tab.text('run-text'));
  await tab.click('one-picture');
  expect('one picture more', before + 1, await pictures());
  expect('it is shown', /: done /, await tab.text('moment-text'));
  await tab.click('#lessons li:nth-child(1) a');
  await comesWith('lesson-title', '1. ');
  await tab.click('lesson-on');
  expect('the next lesson', true, await comesWith('lesson-title', '2. '));
  await tab.click('lesson-back');
  expect('the lesson before', true, await comesWith('lesson-title', '1. '));
  await tab.value(`(() => {
    const clipboardData = new DataTransfer();
    clipboardData.setData('text/plain', 'started\\nfetched 000 E001\\nwrote 002 64\\n');
    document.body.dispatchEvent(new ClipboardEvent('paste',
      { clipboardData, bubbles: true, cancelable: true }));
  })()`);
  expect('a log that is pasted is shown', true,
    await comesWith('judged', 'torn at line 3: wrote 002 64'));
}

async function testAbandoned() {
  await openPage();
  await tab.click('wire');
  await runSeed(1, 'board');
  expect('runs are abandoned, and no picture is torn', / 0 torn .* [1-9][0-9]* runs abandoned/,
    await tab.text('counts'));
  expect('that is said', /cut short rather than torn/, await tab.text('how-text'));
  await tab.value('document.getElementById("rows").focus()');
  let told = '';
  for (let k = 0; k < 200 && !/The run after it was cut short/.test(told); k++) {
    for (let step = 0; step < 5; step++) await tab.key('ArrowLeft', 8);
    told = await tab.text('picture-text');
  }
  expect('how far it came', /the tube shows its [0-9]+ strokes?\./, told);
  const left = () => tab.value(`(() => {
    const [{ className }] = document.getElementById('left').children;
    return className + document.getElementById('left').textContent;
  })()`);
  expect('what strobes cut short is bad',
    /^badAbandoned: [1-9][0-9]* runs, as a strobe came before HALT\.$/,
    await left());
  await runSeed(1, 'ignored');
  expect('ignored strobes let pictures be torn', / [1-9][0-9]* torn .* 0 runs abandoned/,
    await tab.text('counts'));
  expect('nothing is said of abandoned runs', false,
    await tab.value('document.getElementById("left").checkVisibility()'));
  await tab.click('wire');
  await runSeed(2, 'resets');
  expect('what resets cut short isn\'t', /^Abandoned: [1-9][0-9]* runs?\.$/,
    await left());
}

async function testOneByOne() {
  await openPage();
  await set('textA', 'labs 512 400 0\nvctr 9 -100 100 7\nhalt');
  await tab.click('anew');
  const happen = async (name, times = 1) => {
    await set('times', times);
    await tab.click(`[data-event="${name}"]`);
  };
  await happen('tick', 2);
  await set('times', 1);
  await tab.click('offerA');
  await happen('tick', 14);
  await happen('strobe');
  await happen('fetch', 12);
  expect('the picture',
    'Picture 1, event 29: 1 stroke, whole. It is frame A. The generator is halted.',
    await tab.text('picture-text'));
  expect('the log', /^18 low 000 01.*19 fetched 000 E201.*28 low 205 00.*29 done 205 B000 1$/s,
    await tab.text('log'));
  expect('the newest entry', '29 done 205 B000 1',
    await tab.value('document.querySelector("#log .now").textContent'));
  for (const [name, text] of [['redraw', 'asked'], ['resetgen', 'cleared'], ['resetcpu', 'cleared'],
    ['resetall', 'cleared'], ['strobe', 'no strobe'], ['fetch', 'still']]) {
    await happen(name);
    expect(`the entry of ${name}`, text,
      (await tab.value('document.querySelector("#log .now").textContent')).replace(/^[0-9]+ /, ''));
  }
  await happen('redraw', 3);
  expect('three at once', /^event 39 /, await tab.text('counts'));
  await tab.click('compare');
  expect('the log is that of play', 'the same: 39 events, 40 lines', await tab.text('compared'));
}

async function testSeeds() {
  await openPage();
  let lines = 0;
  for (let seed = 1; seed <= seeds; seed++) {
    await runSeed(seed, ['chance', 'resets', 'board'][seed % 3]);
    await tab.click('compare');
    expect(`seed ${seed}: compared with play`,
      new RegExp(`^the same: ${events} events, [0-9]+ lines$`), await tab.text('compared'));
    expect(`seed ${seed}: torn`, NOT_TORN, await tab.text('judged'));
    const trace = await saved('trace.txt', 'save-trace'), log = await saved('log.txt', 'save-log');
    expect(`seed ${seed}: each line is that of the program`, true,
      log === runProgram(['play', '--all'], trace));
    lines += log.split('\n').length - 1;
  }
  const count = `${seeds} seeds of ${events} events, ${lines} lines`;
  console.log(`browser: ${count}, each that of the program`);
}

// How many pixels of the picture are red, how many are bluish, and how many are yellow.
const REDS = `(() => {
  const canvas = document.getElementById('screen'),
    { data } = canvas.getContext('2d').getImageData(0, 0, canvas.width, canvas.height);
  let red = 0, blue = 0, yellow = 0;
  for (let k = 0; k < data.length; k += 4) {
    if (data[k] > 120 && data[k] > 1.5 * data[k + 1]) red++;
    if (data[k + 2] > 60 && data[k + 2] > 1.1 * data[k]) blue++;
    if (data[k] > 180 && data[k + 1] > 150 && data[k + 2] < 120) yellow++;
  }
  return { red, blue, yellow };
})()`;

// Whether there is a picture.
async function isSeen() {
  return (await tab.value(REDS)).blue > 100;
}

async function testCutWire() {
  await tab.media({ 'color-scheme': 'dark' });
  await tab.size(1280, 900);
  await openPage();
  await runSeed(1);
  await tab.click('picture-back');
  const whole = await tab.value(REDS);
  expect('a whole picture is not red', true, whole.red === 0 && whole.blue > 100);
  await tab.click('zoom-all');
  await tab.click('wire');
  expect('the wire is cut',
    'true', await tab.value('document.getElementById("wire").getAttribute("aria-pressed")'));
  expect('that is said', 'Mend the HALT wire', await tab.text('wire'));
  await runSeed(1);
  expect('torn pictures are counted',
    /[0-9]+ pictures? · [1-9][0-9]* torn · [1-9][0-9]* early bytes? /, await tab.text('counts'));
  expect('torn finds it', TORN, await tab.text('judged'));
  expect('so say both verdicts', VERDICTS.torn, await verdicts());
  expect('in two colours', true, await tab.value(`new Set(['moments', 'halves'].map((id) => (
    getComputedStyle(document.getElementById(id).children[0]).color))).size === 2`));
  const named =
    await textsOf('#torn-list button');
  expect('torn pictures are named', true,
    named.length > 0
    && named.every((one) => /^picture [0-9]+, event [0-9]+: (torn, )?[0-9]+ bytes? early, /
      .test(one)));
  const number = named.findIndex((one) => / torn, .*no frame that was offered$/.test(one));
  expect('one of them is no frame', true, number >= 0);
  await tab.click(`#torn-list li:nth-child(${number + 1}) button`);
  expect('it is shown',
    /torn: [0-9]+ early bytes?, of which .* It is no frame that was offered/,
    await tab.text('picture-text'));
  const torn = await tab.value(REDS);
  expect('a torn picture is red', true, torn.red > 100);
  await tab.value('scrollTo(0, 0)');
  writeFileSync(`${work}/page_cut.png`, await tab.screenshot());
  await tab.click('compare');
  expect('play has no cut wire',
    'the same up to the cut wire, which no trace has: 0 events, 0 lines',
    await tab.text('compared'));
  await tab.click('moments-go');
  const words = await tab.value(REDS.replace("'screen'", "'memory'"));
  expect('the RAM shows what came early, and was read', true, words.red > 20);
  expect('the first torn picture is shown', /, torn: /, await tab.text('picture-text'));
  await tab.click('halves-go');
  expect('the first early byte is shown',
    /into the half that is being drawn(, and it shows)?\. tick: wrote /,
    await tab.text('moment-text'));
  const early = await tab.value(REDS.replace("'screen'", "'memory'"));
  expect('and the RAM shows where', true, early.yellow > 20);
  await tab.click('wire');
  expect('the wire is whole again', 'Cut the HALT wire', (await wordsOf('#wire')));
  await tab.media({});
  await tab.size(1600, 1000);
}

async function testRunning() {
  await openPage();
  await tab.click('anew');
  await set('count', 4000);
  await tab.choose('how', 'chance');
  await tab.click('run');
  await expectSoon('it runs, and ends', /(^|,)Stop,Run$/,
      () => tab.value('window.texts.run.join()'));
  expect('after as many events', /^event 4000 /, await tab.text('counts'));
  await tab.click('compare');
  expect('the log is that of play', /^the same: 4000 events/, await tab.text('compared'));
}

async function testLessons() {
  for (const width of [400, 800, 1600]) {
    await tab.size(width, 900, width === 400);
    await testLessonsNow();
  }
  await tab.size(1600, 1000);
}

async function testLessonsNow() {
  await openPage();
  for (const [k, { title, sentences, shows }] of LESSONS.entries()) {
    await tab.click(`#lessons li:nth-child(${k + 1}) a`);
    expect(`lesson ${title} opens`, true,
      await comes('lesson-title', `${k + 1}. ${title}`));
    expect(`lesson ${title}: its sentences`, sentences.join('|'),
      (await textsOf('#lesson-text p')).join('|'));
    expect(`lesson ${title}: its moment`, `${shows}`,
      (await tab.value('document.querySelector("#log .now").textContent')).replace('   torn', ''));
    const text = await tab.text('picture-text');
    if (k >= 5) expect(`lesson ${title}: the picture is torn`,
      /torn: 16 early bytes, of which 6 show\. It is no frame that was offered/, text);
    else expect(`lesson ${title}: nothing is torn`, NOT_TORN, await tab.text('judged'));
    expect(`lesson ${title}: something is lit`, true, await litOf('screen') > 500);
    if (k < 5) expect(`lesson ${title}: whether it is dim`, k === 2 || k === 3,
      await litOf('screen', 400) < 20);
    if (k === 6) await testBeside();
  }
}

// Once a lesson is open the arrow keys walk through its events, however it was opened; its text is
// still read aloud, and a page that is too low for the rows doesn't scroll to them.
async function testLessonKeys() {
  await tab.size(1280, 400);
  await openPage();
  const press = async (key, times) => { for (let k = 0; k < times; k++) await tab.key(key); };
  const comesToEvent = (what, number) => expectSoon(what, new RegExp(`^Event ${number} of `),
    () => tab.text('moment-text'));
  const link = (number) => `#lessons li:nth-child(${number}) a`;
  await tab.click(link(2));
  await comesToEvent('lesson 2 opens', 66);
  await press('ArrowRight', 12);
  await comesToEvent('twelve events on by the right arrow', 78);
  await tab.click(link(2));
  await comesToEvent('its link opens it anew', 66);
  await tab.value(`document.querySelector('${link(6)}').focus()`);
  await tab.key('Enter');
  await comesToEvent('lesson 6 opens by a key', 84);
  await press('ArrowLeft', 27);
  await comesToEvent('27 events back by the left arrow', 57);
  expect('its text is read aloud', 'polite', await tab.value(
    'document.getElementById("lesson-text").closest("[aria-live]").getAttribute("aria-live")'));
  expect('the page doesn\'t scroll', 0, await tab.value('scrollY'));
  await tab.click('lesson-on');
  await comesToEvent('the next lesson opens', 62);
  await press('ArrowLeft', 26);
  await comesToEvent('26 events back', 36);
  await tab.size(1600, 1000);
}

// Beside the torn picture of one half alone stands what the same events draw with two: the whole
// triangle, as it was being drawn.
async function testBeside() {
  expect('two halves are told', /\nThe same events with two halves: whole\n/,
    await tab.value('document.getElementById("tear").innerText'));
  const of = (id) => tab.value(`document.getElementById('${id}').toDataURL()`);
  const [beside, wanted, next] = await Promise.all(['beside', 'wanted', 'next'].map(of));
  expect('with two halves the frame is whole', true, beside === wanted && beside !== next);
  expect('it is drawn', true, await litOf('beside') > 200);
}

// One half alone, run by chance: early bytes and torn pictures, with the wire whole; and beside a
// torn one what two halves draw, which is whole.
async function testOneHalf() {
  await openPage();
  await tab.choose('half-count', '1');
  expect('one half: the board begins anew', /^event 0 /, await tab.text('counts'));
  await runSeed(1, 'ignored');
  expect('one half tears, with the wire whole', VERDICTS.torn, await verdicts());
  expect('so says its button', 'Cut the HALT wire', await wordsOf('#wire'));
  expect('it is told', /^Each frame comes into the one half, /, await tab.text('how-text'));
  await tab.click('moments-go');
  await testBesideOfSeed();
  await tab.click('link');
  await tab.until('document.getElementById("link-text").value.includes("#z=")');
  const [link, counts] = [await tab.value('document.getElementById("link-text").value'),
    await tab.text('counts')];
  await openPage(link);
  const halves = await tab.value('document.getElementById("half-count").value');
  expect('a link holds that there is one half', `1 ${counts}`,
    `${halves} ${await tab.text('counts')}`);
  await tab.click('compare');
  expect('play has two', 'the same up to the one half, which no trace has: 0 events, 0 lines',
    await tab.text('compared'));
  await tab.choose('half-count', '2');
  await runSeed(1, 'ignored');
  expect('two halves don\'t', VERDICTS.whole, await verdicts());
  expect('nothing stands beside', true, await tab.value(
    '!document.getElementById("beside").checkVisibility()'));
}

async function testBesideOfSeed() {
  expect('beside it stands what two halves draw', true,
    await comes('beside-text', 'The same events with two halves: whole'));
  expect('it is drawn', true, await litOf('beside') > 200);
}

async function testLink() {
  await openPage();
  await runSeed(11, 'resets');
  await tab.click('picture-back');
  await tab.click('link');
  expect('a link is told',
    true, await tab.until('document.getElementById("link-text").value.includes("#z=")'));
  const link = await tab.value('document.getElementById("link-text").value');
  const seen =
    async () =>
    JSON.stringify([await tab.text('picture-text'), await tab.text('counts'),
    await tab.text('moment-text'), await tab.text('log')]);
  const wanted = await seen(), first = tab;
  tab = await openTab();
  await tab.size(1600, 1000);
  await openPage(link);
  expect('it holds all of the state', wanted, await seen());
  await tab.click('compare');
  expect('and the same log', new RegExp(`^the same: ${events} events`), await tab.text('compared'));
  await openPage(`${front}#z=AAAA`);
  expect('a broken link is told', /holds no state/, await tab.text('said'));
  expect('in view, too', 'This link holds no state: it was cut off, or changed.',
    await tab.text('file-text'));
  await openPage(`${front}#lesson=6`);
  expect('a lesson by its number alone', /^6\. /, await tab.text('lesson-title'));
  expect('with what happens in it', VERDICTS.cut, await verdicts());
  await openPage(`${front}#trace=tick%20x`);
  expect('a broken trace is told', 'The trace is refused: dvg: syntax at line 1',
    await tab.text('said'));
  expect('the other tab has no fault', '', tab.faults.join());
  await tab.close();
  tab = first;
  await tab.send('Page.bringToFront');
}

// --- Files ---

function put(name, bytes) {
  writeFileSync(`${work}/${name}`, bytes);
  return `${work}/${name}`;
}

async function testFiles() {
  await openPage();
  const dump = new Uint8Array(4096);
  dump.set([1, 0xE0, 0x90, 0xA1, 0, 2, 0x64, 0x90, 0x64, 0x74, 0, 0xB0]);
  await tab.drop('screen', put('a.dump', dump));
  expect('a dump is drawn', true, await comes('judged', 'picture 6 1'));
  expect('as the command does', runProgram(['picture', '--all'], dump).trim(),
    (await textsOf('#file-lines span')).join('\n'));
  expect('and seen', true, (await tab.value(REDS)).blue > 20);
  await tab.key('Home');
  for (let k = 0; k < 11; k++) await tab.key('ArrowRight');
  expect('its run is walked', 'VCTR', (await textsOf('#file-lines .now')).join().slice(4, 8));
  const hole = new Uint8Array(4096);
  hole.set([1, 0xE0, 0, 0xE4]);
  await tab.drop('screen', put('hole.dump', hole));
  await comesWith('file-title', 'The dump hole.dump');
  expect('a run that leaves the memory', runProgram(['picture', '--all'], hole).trim(),
    (await textsOf('#file-lines span')).join('\n'));
  await tab.click('file-close');
  expect('the board is back', /^Picture /, await tab.text('picture-text'));
  const bus = '0.1,W,4001,E0\n0.2,W,3000,00\n0.3,W,4002,64\n';
  for (const [name, text] of [['tears.log'], ['waits.log'], ['bus.csv', bus], ['none.log',
    'started\nwrote 402 90\n'], ['bad.log', 'started\nfetched 000 E001\nwhat\nwrote 002 64\n']]) {
    const log = text === undefined ? `${top}examples/logs/${name}` : put(name, text);
    await tab.drop('textA', log);
    await comesWith('file-title', `The log ${name}`);
    await testLogShown(name, name === 'bus.csv' ? 'wrote 001 E0\nstarted\nfetched 000 E000\n'
      + 'wrote 002 64\n' : readFileSync(log, 'utf8').replace(/^what[^]*/m, ''));
  }
  expect('a fault of a log is told', /syntax at line 3/, await tab.text('file-text'));
  const judged = { 'logs/tears': VERDICTS.early, 'logs/waits': VERDICTS.whole,
    'moments/torn': VERDICTS.torn, 'moments/comes_back': VERDICTS.torn,
    'moments/late': VERDICTS.early, 'moments/whole': VERDICTS.whole,
    'moments/contradicts': /^Whole\/bad: .* 1 fetch read what was not written: somebody writes/ };
  for (const [name, wanted] of Object.entries(judged)) {
    await tab.drop('screen', `${top}examples/${name}.log`);
    await comesWith('file-title', `The log ${name.replace(/.*\//, '')}.log`);
    expect(`${name}: both verdicts`, wanted, await verdicts());
  }
  await tab.click('file-close');
  const rom = new Uint8Array(2048).fill(0xD0);
  rom.set([0, 0xB0]);
  await tab.drop('rows', put('some.rom', rom));
  expect('a ROM is loaded', true, await comesWith('file-text', 'The ROM was loaded'));
  await set('textA', 'labs 0 0 0\njumprom 800');
  expect('a draft may use it', 'ok 3 words 5 fetches', await tab.text('saidA'));
  await tab.drop('screen',
    put('a.trace',
    'map 4096\nrom 400 B000\ntick 2\noffer\nlabs 5 5 0\njumprom 400\nend\n'
      + 'tick 10\nstrobe\nfetch 12\n'));
  expect('a trace happens', true, await comes('file-text', '26 events happened.'));
  expect('with its larger ROM', /4096 bytes/, await tab.text('rom-said'));
  await tab.drop('screen', put('a.draft', 'labs 1 2 3 # here\nhalt\n'));
  expect('a draft is taken',
    true, await comes('saidA', 'ok 3 words 4 fetches'));
  await tab.choose('exampleB', 'rom_shapes');
  expect('an example with a ROM', /^ok /, await tab.text('saidB'));
}

// Files that the three buttons open come to the same as those that are dropped; the button for a
// ROM takes the larger one, too, which is a dump elsewhere. A ROM that is typed is the board's.
async function testChosen() {
  await openPage();
  const { root } = await tab.send('DOM.getDocument');
  const choose = async (id, files) => {
    const { nodeId } = await tab.send('DOM.querySelector', { nodeId: root.nodeId, selector: id });
    await tab.send('DOM.setFileInputFiles', { nodeId, files });
  };
  await choose('#open', [`${top}examples/logs/tears.log`]);
  await comesWith('file-title', 'The log tears.log');
  expect('a log is opened', VERDICTS.early, await verdicts());
  const rom = new Uint8Array(4096).fill(0xD0);
  rom.set([0, 0xB0]);
  await choose('#open', [put('some.rom', rom)]);
  await comesWith('file-title', 'The dump some.rom');
  await choose('#open-rom', [put('some.rom', rom)]);
  expect('a larger ROM is loaded', true, await comesWith('file-text', 'The ROM was loaded'));
  expect('and is the board\'s', /^4096 bytes/, await tab.text('rom-said'));
  const draft = 'labs 0 0 0\njumprom 400\n', typed = 'rom 800 A064 B000 B000\n';
  await set('textA', draft);
  expect('a draft may use it', 'ok 3 words 5 fetches', await tab.text('saidA'));
  await tab.click('once');
  await set('textR', typed);
  expect('a ROM that is typed is smaller', 'ok 2048 bytes, words 800 to BFF',
    await tab.text('saidR'));
  expect('the board begins anew with it', /^2048 bytes/, await tab.text('rom-said'));
  expect('without its events', /^Before the first /, await tab.text('moment-text'));
  const checked = (text) => runProgram(['check', '--bound'], typed + text).trim();
  expect('the draft is checked over it', true,
    (await tab.text('saidA')).includes(checked(draft)));
  await set('textA', draft.replace('400', '800'));
  expect('and another one', checked(draft.replace('400', '800')), await tab.text('saidA'));
  await choose('#open-game', filesOfGame(1));
  await expectSoon('a game runs', /^Whole: each of [0-9]{2,} pictures\.$/,
    () => tab.text('run-moments'));
}

// What is dropped, by its name, what the panel says of it, and whether that is bad.
const DROPS = [
  ['game.s', '; a game\n        lda #0\n', /^This is the source of a program\. Run make /, true],
  ['a.png', Buffer.from('89504E470D0A1A0A0000000D49484452', 'hex'), /^This is neither/, true],
  ['shapes.sketch', readFileSync(`${top}examples/board/shapes.sketch`), /^The ROM was loaded, /,
    false],
  ['bad_outline.sketch', 'house: 60,0 60,x\n', /^Of its outlines, .*: no point: '60,x'$/, true],
  ['judge.log', 'reset 0.1\npicture 0.2 0.1 0 6C71\n', /^This is what make judge saw /, true],
  ['bus.log', 'read halted\nwrote 001 E0\nsent\n', /^This is what a driver did, /, true],
  ['pictures', new Uint8Array(5 * 2048), /^This is 5 times 2,048 bytes: as make judge /, true],
  ['some.rom', Buffer.alloc(2048, 0xD0), /^The ROM was loaded, /, false],
  ['a.trace', 'tick 3\n', /^3 events happened\.$/, false],
  ['bad.trace', 'tick 3\ntick x\n', /^The trace is refused: dvg: syntax at line 2$/, true],
  ['a.sketch', 'labs 1 2 3\nhalt\n', /^Its first frame is drawn\. It stands in editor A, below\.$/,
    false],
  ['bad.sketch', 'labs 1 2 3\nvctr\n', /^It stands in editor A, below, and has a fault: syntax /,
    true],
];

// Each drop is told in the panel, in view, and closes what was there before: here a dump. After a
// ROM or a trace no run drew, and nothing is green.
async function testDrops() {
  const dump = new Uint8Array(4096);
  dump.set([1, 0xE0, 0x90, 0xA1, 0, 2, 0x64, 0x90, 0x64, 0x74, 0, 0xB0]);
  for (const [width, height] of [[400, 800], [1280, 900]]) {
    await tab.size(width, height, width === 400);
    for (const [name, bytes, text, isBad] of DROPS) {
      await openPage();
      await tab.drop('screen', put('call.dump', dump));
      await comes('file-title', 'The dump call.dump');
      await tab.drop('memory', put(name, bytes));
      expect(`${width}: ${name} is told`, true, await comes('file-title', name));
      expect(`${width}: ${name}: what became of it`, text, await tab.text('file-text'));
      expect(`${width}: ${name}: whether that is bad`, isBad ? 'bad' : '',
        await tab.value('document.getElementById("file-text").className'));
      await expectInView(`${width}: ${name}: in view`, '#file-title', '#file-text');
      expect(`${width}: ${name}: the dump is closed`, 'none',
        await tab.value('getComputedStyle(document.getElementById("file-lines")).display'));
      expect(`${width}: ${name}: the board is there`, true,
        await tab.value('document.getElementById("verdicts").checkVisibility()'));
      if (/\.(rom|trace)$/.test(name)) expect(`${width}: ${name}: nothing is judged`, VERDICTS.none,
        await verdicts());
      await tab.click('file-close');
      expect(`${width}: ${name} is closed`, false,
        await tab.value('document.getElementById("file").checkVisibility()'));
    }
  }
  await tab.size(1600, 1000);
}

// By moments a log is judged where a run came to its HALT and fetched more than word zero: of
// another one nothing is green but, where it drew a half, that its bytes came in time.
async function testUnjudged() {
  await openPage();
  const [torn, whole] = ['torn', 'whole']
    .map((name) => readFileSync(`${top}examples/moments/${name}.log`, 'utf8'));
  const zeroAlone = (log) => log.replace(/^(low|fetched) (?!000).*\n/gm, '');
  const logs = {
    'zero.log': [zeroAlone(whole), /^\/No picture to judge: each run .* In time\/good: /],
    'early.log': [zeroAlone(torn), /^\/No picture to judge: each run .* Early\/early: /],
    'open.log': [torn.replace(/^halted\n/gm, ''), /^\/No picture is finished yet\. Early\/early: /],
    'none.log': [torn.replace(/^(low|fetched) .*\n/gm, ''), /^\/No picture to judge: .* \/$/],
    'short.log': ['started\nlow 1FF 05\nhalted\n', /^Whole\/good: 1 picture\. /],
  };
  for (const [name, [log, wanted]] of Object.entries(logs)) {
    await tab.drop('screen', put(name, log));
    await comes('file-title', `The log ${name}`);
    expect(`${name}: the verdicts`, wanted, await verdicts());
  }
}

// Of an opened log: its own verdict, and none other; its rows, in view and focused.
async function testLogShown(name, log) {
  const said = runProgram(['torn'], log).trim().split('\n');
  expect(`${name}: as the command says`, said.join(', '), await tab.text('judged'));
  if (name !== 'bad.log') {
    const [, line] = /^torn at (line [0-9]+)/.exec(said[0]) ?? [];
    const none = said[0].startsWith('no run') ? 'No run drew a half.' : 'No byte is early.';
    expect(`${name}: in view, too`, line ? `The first early byte is in ${line}.` : none,
      (await tab.text('file-text')).replace(/^[0-9]+ events?[.] /, ''));
  }
  const good = runStatus(['torn'], log) === 0;
  const color = said[0].startsWith('torn') ? 'early' : '';
  expect(`${name}: its colour`, good ? 'good' : color,
    await tab.value('document.getElementById("judged").className'));
  expect(`${name}: nothing else is green`, good ? 1 : 0, (await textsOf('.good')).filter(
    (text) => /torn|drew/.test(text)).length);
  expect(`${name}: in time only where a run drew, and a byte was written`,
    /^not torn: .* [1-9][0-9]* drew .* [1-9][0-9]* writes/.test(said[0]),
    (await textsOf('#halves strong')).join() === 'In time');
  expect(`${name}: its rows have the focus`, 'rows',
    await tab.value('document.activeElement.id'));
  await expectInView(`${name}: in view`);
  const [, line] = /line ([0-9]+)/.exec(said[0]) ?? [];
  if (line) expect(`${name}: the torn line is shown`,
    new RegExp(`, line ${line}: the driver writes .* wrote `), await tab.text('moment-text'));
  expect(`${name}: nothing of it can be run`, true,
    await tab.value('document.getElementById("run").disabled'));
}

// A log of 100,000 events: how long it is from one frame to the next while one drags, turns a wheel
// or holds a key, which is printed; and how much the page's thread works for that and for a step
// back, which is judged.
async function testLongLog() {
  await openPage();
  await tab.value(DROP_LONG_LOG);
  expect('a long log opens', true, await comesWith('file-title', 'The log long.log'));
  expect('it is judged', NOT_TORN, await tab.text('judged'));
  expect('by moments, too', VERDICTS.whole, await verdicts());
  let moves;
  const task = await workOf(async () => { moves = await tab.value(MOVE_OVER_IT); }) / 360;
  const walk = await workOf(() => tab.value(
    'for (let k = 0; k < 50; k++) document.getElementById("back").click()')) / 50;
  console.log(`browser: ${movesText(moves)}; the page's thread works ${task.toFixed(1)} ms for`
    + ` each on average, with layout and paint; ${walk.toFixed(1)} ms for a step back`);
  expect('a wheel moves the rows', true, moves.moved > 1000);
  expect('and they are drawn anew', true, moves.drawn);
  expect('a frame works less than ten times 8 ms', true, task <= 80);
  expect('a step back works less than ten times 30 ms', true, walk <= 300);
}

// --- Over http, and what leaves the page ---

async function testHttp() {
  const asked = [];
  const server = createServer((request, response) => {
    asked.push(request.url);
    response.writeHead(200, { 'content-type': 'text/html' });
    response.end(readFileSync(file));
  });
  await new Promise((resolve) => { server.listen(0, '127.0.0.1', resolve); });
  const before = tab.requests.length;
  await openPage(`http://127.0.0.1:${server.address().port}/dvg.html#opening`);
  await tab.click('once');
  await tab.click('compare');
  expect('over http: compared', /^the same/, await tab.text('compared'));
  const refused = await tab.value('fetch("/other").then(() => "answered", () => "refused")');
  expect('a request is refused by the policy', 'refused', refused);
  expect('the server was asked for the page alone', '/dvg.html', asked.join(' '));
  expect('so says the network',
    1, tab.requests.slice(before).filter((url) => url.startsWith('http')).length);
  tab.faults = tab.faults.filter((fault) => !/Content Security Policy|violates/.test(fault));
  server.close();
}

// --- Widths, colours, motion, keys, and what is read aloud ---

async function testWidths() {
  for (const width of [400, 800, 1600]) {
    await tab.size(width, 900, width === 400);
    await openPage();
    expect(`${width} pixels: nothing stands out`, true,
      await tab.value('document.documentElement.scrollWidth <= innerWidth'));
    const out =
      await tab.value(`[...document.querySelectorAll('button, input, select, textarea, canvas, a')]
      .filter((one) => one.checkVisibility())
        .map((one) => [one.id || one.textContent, one.getBoundingClientRect()])
      .filter(([, box]) => box.left < 0 || box.right > innerWidth + 0.5 || box.width === 0)
        .map(([name]) => name).join()`);
    expect(`${width} pixels: each part is within`, '', out);
    await tab.click('#lessons li:nth-child(6) a');
    expect(`${width} pixels: a lesson opens`, true,
      await tab.until('!document.getElementById("lesson").hidden'));
    await tab.click('wire');
    await tab.click('once');
    await tab.click('compare');
    expect(`${width} pixels: compared`, /^the same/, await tab.text('compared'));
    await tab.value('scrollTo(0, 0)');
    writeFileSync(`${work}/page_${width}_whole.png`, await tab.screenshot(true));
  }
  await tab.size(1600, 1000);
}

// A frame in an article, and a window of 1,280 pixels at 400%.
async function testSmall() {
  for (const [width, height] of [[600, 420], [320, 256]]) {
    await tab.size(width, height, false);
    await openPage();
    expect(`${width} by ${height}: it doesn't scroll sideways`, true,
      await tab.value('document.documentElement.scrollWidth <= innerWidth'));
    expect(`${width} by ${height}: nothing stays in the way`, 'static static', await tab.value(
      `['.view', '.thumb'].map((one) => getComputedStyle(document.querySelector(one)).position)
        .join(' ')`));
    writeFileSync(`${work}/page_${width}.png`, await tab.screenshot());
  }
  await tab.size(1600, 1000);
}

// With embed=1 a link shows the picture, what one may do and what comes of it, all in view.
async function testEmbed() {
  for (const [width, height] of [[600, 420], [900, 500]]) {
    await tab.size(width, height, false);
    for (const [link, ...parts] of [
      ['lesson=6', '#screen', '#rows', '#run', '#wire', '#verdicts', '#moment-text'],
      ['game=Rocks', '#tube', '.cabinet .pads', '#run-moments', '#run-left', '#game-wire',
        '#what-text']]) {
      await tab.open(`${front}#${link}&embed=1`);
      await expectSoon(`${link} at ${width} by ${height}: in view`, '', () => outOfView(parts));
      expect(`${link}: it doesn't scroll`, true, await tab.value(
        'document.documentElement.scrollWidth <= innerWidth'));
      expect(`${link}: its address stays`, `#${link}&embed=1`, await tab.value('location.hash'));
      writeFileSync(`${work}/page_embed_${link.slice(0, 4)}_${width}.png`, await tab.screenshot());
    }
  }
  await tab.open(`${front}#game=Rocks&wire=cut&embed=1`);
  await expectSoon('what comes of it is told without a question', /^It goes on: /,
    () => tab.text('what-text'));
  expect('nobody is asked', true, await isHidden('guesses'));
  await tab.size(1600, 1000);
}

// Which of these parts aren't in view as a whole: out of the window, out of what scrolls around
// them, or under something else.
function outOfView(selectors) {
  return tab.value(`(() => {
    const within = (box, other) => box.left >= other.left - 1 && box.right <= other.right + 1
      && box.top >= other.top - 1 && box.bottom <= other.bottom + 1;
    const frame = { left: 0, top: 0, right: innerWidth, bottom: innerHeight };
    const clipped = (one) => { for (let up = one.parentElement; up; up = up.parentElement) {
      const style = getComputedStyle(up);
      if (/auto|scroll|hidden/.test(style.overflowY)
        && !within(one.getBoundingClientRect(), up.getBoundingClientRect())) return true;
    } return false; };
    const covered = (one, { left, right, top, bottom }) => {
      const over = document.elementFromPoint((left + right) / 2, (top + bottom) / 2);
      return !one.contains(over);
    };
    return ${JSON.stringify(selectors)}.filter((selector) => {
      const one = document.querySelector(selector), box = one.getBoundingClientRect();
      return box.height === 0 || !within(box, frame) || clipped(one) || covered(one, box);
    }).join(' ');
  })()`);
}

const SEEN_AT_ONCE = ['#screen', '#rows', '#run', '#wire', '#verdicts', '#moment-text'];

// What is always in view is, and so are these parts.
function expectInView(what, ...more) {
  return expectSoon(what, '', () => outOfView([...SEEN_AT_ONCE, ...more]));
}

const SIZES = [[400, 800], [800, 900], [1280, 900], [1920, 1080]];

async function testInView() {
  for (const [width, height] of SIZES) {
    const what = `${width} by ${height}`;
    await tab.size(width, height, width === 400);
    await tab.open(address);
    await expectInView(`${what}: the tour in view`, '#tour-title', '#tour-text', '#tour-end');
    await openPage();
    await expectInView(`${what}: in view`);
    if (width >= 1280) await expectUncut(`${what}, the opening`);
    writeFileSync(`${work}/page_${width}_first.png`, await tab.screenshot());
    for (const id of ['wire', 'once', 'moments-go']) await tab.click(id);
    await tab.value('scrollTo(0, 0)');
    await expectInView(`${what}: a torn picture in view`,
      width < 1280 ? '#tear-title' : '#tear-text');
    writeFileSync(`${work}/page_${width}.png`, await tab.screenshot());
    for (let k = 1; k <= LESSONS.length; k++) {
      await tab.value('scrollTo(0, 0)');
      await tab.value(`document.querySelector('#lessons li:nth-child(${k}) a').click()`);
      await comesWith('lesson-title', `${k}. `);
      const text = width < 1280 ? ['#lesson-title'] : ['#lesson-title', '#lesson-text'];
      await expectInView(`${what}: lesson ${k} in view`, ...text);
      if (width >= 1280) await expectUncut(`${what}, lesson ${k}`);
    }
    writeFileSync(`${work}/page_${width}_lesson.png`, await tab.screenshot());
    await tab.drop('screen', `${top}examples/logs/tears.log`);
    await comesWith('file-title', 'The log tears.log');
    await expectInView(`${what}: a log in view`, '#file-title');
    if (width >= 1280) await expectUncut(`${what}, a log`);
    writeFileSync(`${work}/page_${width}_log.png`, await tab.screenshot());
  }
  await tab.size(400, 800, true);
  await openPage();
  const lessonsAt = () => tab.value(
    'document.querySelector("nav").getBoundingClientRect().top + scrollY');
  expect('on a phone the lessons come next', true, await lessonsAt() < 600);
  for (const id of ['wire', 'once', 'moments-go']) await tab.click(id);
  expect('so they do after a tear', true, await lessonsAt() < 1000);
  await tab.value('document.getElementById("memory").scrollIntoView()');
  await expectInView('on a phone all that stays, however far one scrolls');
  await tab.size(1600, 1000);
}

// What is grey says why in view, once its button is: of a recording, a draft with a fault, a run,
// and a board with as many events as it holds.
async function runSlowly() {
  await tab.value(`(() => {
    document.getElementById('speed').value = 0;
    document.getElementById('run').click();
  })()`);
}

async function testGrey() {
  const states = {
    recording: () => tab.drop('screen', `${top}examples/logs/waits.log`),
    fault: async () => { await openPage(); await set('textA', 'vctr 1'); },
    run: async () => { await openPage(); await runSlowly(); },
    full: async () => { await openPage(); await set('count', 65536); await tab.click('once'); },
  };
  for (const [width, height] of SIZES) {
    await tab.size(width, height, width === 400);
    await openPage();
    for (const [state, reach] of Object.entries(states)) {
      await reach();
      expect(`${width} pixels, ${state}: something is grey`, true, await tab.until(
        "[...document.querySelectorAll('button:disabled')].some((one) => one.checkVisibility())"));
      const grey = await tab.value(`[...document.querySelectorAll('button:disabled')]
        .filter((one) => one.checkVisibility()).map((one) => one.id || one.dataset.event)`);
      for (const id of grey) {
        const why = await tab.value(`(() => {
          const one = document.getElementById('${id}')
            ?? document.querySelector('[data-event="${id}"]');
          one.scrollIntoView({ block: 'center' });
          return '#' + one.getAttribute('aria-describedby');
        })()`);
        await expectSoon(`${width} pixels, ${state}: why ${id} is grey is in view`, '',
          () => outOfView([why]));
      }
    }
  }
  await tab.size(1600, 1000);
}

// The driver's code, in step with the board: what a tick of each kind runs, and which line acts.
async function testCode() {
  await openPage();
  await tab.click('#code summary');
  await tab.click('anew');
  const acts = async (what, told, wanted) => {
    expect(`${what} is shown`, told, await tab.text('moment-text'));
    expect(`${what}: the code is in step`,
      /^Event [0-9]+ takes [0-9]+ instructions; the framed one acts\.$/,
      await tab.text('code-text'));
    expect(`${what}: which instruction acts`, wanted, (await textsOf('#code-lines .now')).join());
  };
  const tick = async (times) => {
    await set('times', times);
    await tab.click('[data-event="tick"]');
  };
  await tick(1);
  await acts('a look at byte 001', /: peek$/, /lda DVG_RAM \+ 1/);
  await tick(1);
  await acts('a read of the flag', /: read halted$/, /boot: +dvg_if_running none/);
  await set('times', 1);
  await tab.click('offerA');
  expect('an offer', /dvg_offer:/, (await textsOf('#code-lines span')).join());
  await tick(1);
  await acts('a write', /: wrote 402 /, /store: +sta \(to\),y/);
  for (let k = 0; k < 40 && !/: idle/.test(await tab.text('moment-text')); k++) await tick(40);
  expect('idle, nothing acts', 0, (await textsOf('#code-lines .now')).length);
  for (let k = 0; k < 41 && !/: sent/.test(await tab.text('moment-text')); k++) {
    await tab.click('back');
  }
  await acts('a strobe', /: sent$/, /sta DVG_GO/);
  const line = await tab.value(`(() => {
    const [box, one] = ['#code-lines', '#code-lines .ran'].map((name) => (
      document.querySelector(name).getBoundingClientRect()));
    return one.height > 0 && box.height > 0;
  })()`);
  expect('its lines are seen', true, line);
}

// --- The tour, and what a tear is ---

// Which steps the tour comes to, up to this one, which takes some seconds.
function expectTour(what, ...titles) {
  return expectSoon(what, titles.join(), () => tab.value('window.texts["tour-title"].join()'));
}

async function testTour() {
  await tab.size(1280, 900);
  await tab.media({ 'color-scheme': 'dark' });
  await tab.open(address);
  const early = await tab.text('counts');
  await expectSoon('it moves', true, async () => early !== await tab.text('counts'));
  await expectTour('the tour begins by itself', '1 of 3: Whole');
  await expectUncut('in the tour');
  await expectTour('then the wire is cut', '1 of 3: Whole', '2 of 3: Cut');
  await comesWith('left', 'Abandoned');
  await comesWith('picture-text', ', torn: ');
  await expectUncut('with the wire cut');
  expect('while it runs, no tear is told', false,
    await tab.value('document.getElementById("tear").checkVisibility()'));
  await expectTour('and a picture is torn', '1 of 3: Whole', '2 of 3: Cut', '3 of 3: Torn');
  expect('so says its button', 'Mend the HALT wire', await tab.text('wire'));
  expect('so say both verdicts', VERDICTS.cut, await verdicts());
  expect('the run has ended', 'Run', await tab.text('run'));
  expect('what the colours and the ring mean is said',
    /Red, dashed .* ring marks where the tear begins\. With the wire/, await tab.text('tour-text'));
  expect('the tear is told', /^Event ([0-9]+) wrote a byte while .*Event [0-9]+ read it: there /,
    await tab.text('tear-text'));
  expect('and its byte', / It wrote .. over .. into byte /, await tab.text('tear-text'));
  const [red, of] = (await tab.text('tear-text')).match(/[0-9]+ of [0-9]+ strokes/)[0]
    .match(/[0-9]+/g).map(Number);
  expect('parts of two frames are seen', true, red >= 0.2 * of && red <= 0.8 * of);
  const { red: reds, blue } = await tab.value(REDS);
  expect('in two colours', true, reds > 100 && blue > 100);
  for (const id of ['wanted', 'next']) {
    expect(`the frame of ${id} is drawn`, true, await litOf(id) > 200);
  }
  await expectInView('all of it in view', '#tear-text', '#next');
  writeFileSync(`${work}/page_torn.png`, await tab.screenshot());
  await tab.click('tear-go');
  expect('the byte is shown', /into the half that is being drawn, and it shows\. tick: wrote /,
    await tab.text('moment-text'));
  expect('and the tear is still told', /^Event ([0-9]+) wrote /, await tab.text('tear-text'));
  await tab.click('tear-back');
  expect('and the picture again', /: done /, await tab.text('moment-text'));
  await expectUncut('after the tour');
  await tab.click('tour-again');
  expect('once more', /^1 of 3: Whole,2 of 3: Cut,3 of 3: Torn,1 of 3: Whole/,
    await tab.value('window.texts["tour-title"].join()'));
  await tab.click('tour-end');
  expect('skipped, it rests', 'Run/event 2600 ',
    `${await tab.text('run')}/${(await tab.text('counts')).slice(0, 11)}`);
  expect('and the tour is gone', true, await tab.value('document.getElementById("tour").hidden'));
  await tab.media({});
  await tab.size(1600, 1000);
}

// After the tour: mended and run, all is green, while it runs and after that; what was red before
// is told small.
async function testMend() {
  await tab.size(1280, 900);
  await tab.open(address);
  await expectTour('the tour ends', '1 of 3: Whole', '2 of 3: Cut', '3 of 3: Torn');
  await tab.click('wire');
  expect('mended, nothing is judged yet',
    /^\/No picture is finished since the wire was mended\. \/$/,
    await verdicts());
  await tab.click('run');
  await expectSoon('each picture since is whole', VERDICTS.mended, verdicts);
  expect('no tear is told while it runs', 'false false', await tab.value(
    '["tear", "tour"].map((id) => document.getElementById(id).checkVisibility()).join(" ")'));
  await tab.click('run');
  expect('so it is when it stops', VERDICTS.mended, await verdicts());
  expect('in green', true, await tab.value(`['moments', 'halves'].every((id) => {
    const [r, g, b] = getComputedStyle(document.getElementById(id).children[0]).color
      .match(/[0-9]+/g).map(Number);
    return g > 1.3 * r && g > 1.3 * b;
  })`));
  expect('the sums are told', /^In all ([1-9][0-9]*) of [1-9][0-9]* torn\.$/,
    await tab.text('moments-sum'));
  expect('of bytes, too', /^In all ([1-9][0-9]*) bytes early\.$/, await tab.text('halves-sum'));
  expect('small', true, await tab.value(`['moments-sum', 'moments'].map((id) => (
    parseFloat(getComputedStyle(document.getElementById(id)).fontSize)))
    .reduce((sum, verdict) => sum < verdict)`));
  await expectUncut('after Mend');
  await tab.size(1600, 1000);
}

// Nothing of the left column is cut off.
async function expectUncut(what) {
  expect(`${what}: the left column is whole`, '0 0', await tab.value(`['.thumb', '.console']
    .map((name) => document.querySelector(name))
    .map((one) => Math.max(0, one.scrollHeight - one.clientHeight)).join(' ')`));
}

// How many pixels of a canvas are lit: the sum of their three colours is more than this.
function litOf(id, least = 120) {
  return tab.value(`(() => {
    const canvas = document.getElementById('${id}'),
      { data } = canvas.getContext('2d').getImageData(0, 0, canvas.width, canvas.height);
    let lit = 0;
    for (let k = 0; k < data.length; k += 4) {
      if (data[k] + data[k + 1] + data[k + 2] > ${least}) lit++;
    }
    return lit;
  })()`);
}

// A vector of 100 units that begins 10 units beside an edge, at the left and below, and leads over
// it: hardly more than these 10 are on the screen. To the other edge it would be all across.
async function testEdges() {
  for (const [edge, words] of [['left', [0xA200, 0x000A, 0x9000, 0xF464]],
    ['lower', [0xA00A, 0x0200, 0x9464, 0xF000]]]) {
    const dump = new DataView(new ArrayBuffer(4096));
    [0xE001, ...words, 0xB000].forEach((word, k) => dump.setUint16(2 * k, word, true));
    await openPage();
    await tab.drop('screen', put('edge.dump', new Uint8Array(dump.buffer)));
    await comes('file-title', 'The dump edge.dump');
    await tab.click('now');
    const lit = await litOf('screen');
    expect(`a stroke over the ${edge} edge isn't drawn across the screen`, true,
      lit > 10 && lit < 1000);
  }
}

// What is looked at by WCAG: states of the page, and how one comes to them.
const STATES = {
  'a game twice': async () => {
    await tab.open(front);
    await tab.until(STOPPED);
    await tab.click('why');
  },
  'a game': async () => {
    await tab.open(rocks);
    await tab.until('/^Whole/.test(document.getElementById("run-moments").textContent)');
  },
  'a torn game': async () => {
    await tab.open(`${front}#game=The+test+ROM&wire=cut&beam=4&strobes=ignored`);
    await tab.until('!document.getElementById("show-byte").hidden');
    await tab.click('show-byte');
  },
  'a refused game': async () => {
    await tab.open(`${front}#game=Bat+and+ball&mistake=1`);
    await comesWith('every', 'Refused');
  },
  'the opening': () => openPage(),
  'a tear': async () => {
    await openPage();
    for (const id of ['wire', 'once', 'moments-go', 'back', 'back']) await tab.click(id);
  },
  'a fault': async () => {
    await openPage();
    await set('textA', 'labs 0 0 0\ncall 9\nhalt');
  },
  'a log': async () => {
    await openPage();
    await tab.drop('screen', `${top}examples/logs/tears.log`);
    await comes('file-title', 'The log tears.log');
  },
};

// In dark and in light, and in both as greys, texts and fields have the contrast that WCAG AA asks
// for; whatever can be used has a name; and axe-core finds nothing that breaks a rule of it.
async function testAccess() {
  const axe = await readAxe(browser);
  for (const [state, reach] of Object.entries(STATES)) {
    for (const scheme of ['dark', 'light']) {
      await tab.media({ 'color-scheme': scheme });
      await reach();
      for (const isGrey of [false, true]) {
        expect(`${state}, ${scheme}${isGrey ? ' as greys' : ''}: what has too little contrast`, '',
          await tab.value(lowContrasts(isGrey)));
      }
      if (axe !== null) expect(`${state}, ${scheme}: by axe-core`, '', await brokenRules(tab, axe));
    }
    expect(`${state}: what has no name`, '', (await nameless()).join());
  }
  if (axe === null) console.log('skipped: axe-core: this Chromium has none');
  else console.log(`browser: axe-core ${await versionOfAxe(tab)}, finds nothing in 16 states`);
  await testPlantedAccess(axe);
  await tab.media({});
}

// What is planted on the page is found: a text that is hardly seen, and a slider without its name.
async function testPlantedAccess(axe) {
  await openPage();
  await tab.value(`{
    document.querySelector('h1').style.color = 'var(--edge)';
    const speed = document.getElementById('speed');
    speed.parentElement.replaceWith(speed);
    0;
  }`);
  expect('a text that is hardly seen is found', /^1\.[0-9]{2} A: Gerbilargent$/,
    await tab.value(lowContrasts(false)));
  expect('and a slider without a name', 'slider', (await nameless()).join());
  if (axe !== null) expect('so says axe-core', 'color-contrast: h1 > a[href="#"] | label: #speed',
    await brokenRules(tab, axe));
}

// The key Tab leads to whatever can be used, in its order, and nothing covers where it is.
async function testStops() {
  for (const [width, height] of [[1280, 900], [400, 800]]) {
    await tab.size(width, height, width === 400);
    for (const state of ['a game twice', 'a game', 'a torn game', 'the opening', 'a tear']) {
      await STATES[state]();
      await tab.value(BEGIN_STOPS);
      const count = await tab.value('stops.length'), numbers = [];
      let covered = '';
      for (let k = 0; k < count + 20 && numbers.at(-1) !== count - 1; k++) {
        await tab.key('Tab');
        const { number, isSeen, name } = await tab.value(STOP_NOW);
        if (number >= 0) numbers.push(number);
        if (number >= 0 && !isSeen) covered += `${name} `;
      }
      const all = Array.from({ length: count }, (_, k) => k);
      expect(`${state} at ${width}: Tab leads to each part`, all.join(), numbers.join());
      expect(`${state} at ${width}: what is covered`, '', covered);
    }
  }
  await tab.size(1600, 1000, false);
}

async function testColors() {
  const backs = [];
  for (const scheme of ['dark', 'light']) {
    await tab.media({ 'color-scheme': scheme });
    await openPage();
    await tab.click('#lessons li:nth-child(6) a');
    await tab.until('!document.getElementById("lesson").hidden');
    expect(`${scheme}: what has too little contrast`, '', await tab.value(lowContrasts(false)));
    backs.push(await tab.value('getComputedStyle(document.body).backgroundColor'));
    await tab.value('scrollTo(0, 0)');
    writeFileSync(`${work}/page_${scheme}.png`, await tab.screenshot());
  }
  expect('dark and light differ', true, backs[0] !== backs[1]);
}

async function testMotion() {
  await tab.media({ 'color-scheme': 'dark', 'reduced-motion': 'reduce' });
  await tab.open(address);
  expect('with reduced motion no tour begins', false,
    await tab.value('document.getElementById("tour").checkVisibility()'));
  await tab.click('still');
  expect('a tear is shown as a still', '3 of 3: Torn', await tab.text('tour-title'));
  expect('it is told', /^Event ([0-9]+) wrote a byte while /, await tab.text('tear-text'));
  expect('it is torn', VERDICTS.cut, await verdicts());
  expect('and red', true, (await tab.value(REDS)).red > 100);
  expect('the last step alone was shown', '3 of 3: Torn',
    await tab.value('window.texts["tour-title"].join()'));
  expect('nothing ran', true, await tab.value('!window.texts.run.includes("Stop")'));
  await keepChanges('verdicts', 'tour', 'moment-text');
  await tab.click('back');
  expect('the tour isn\'t read aloud again', 'moment-text', await changesKept());
  await openPage();
  await tab.click('anew');
  await set('count', 3000);
  await tab.click('run');
  expect('with reduced motion a run is done at once', /^event 3000 /, await tab.text('counts'));
  expect('and nothing moves', 'Run', await tab.text('run'));
  await tab.media({ 'color-scheme': 'dark' });
}

// Where the key Tab leads, so many times.
async function stopsOfTab(count) {
  const stops = [];
  for (let k = 0; k < count; k++) {
    await tab.key('Tab');
    stops.push(await tab.value('(({ id, dataset, textContent }) => id || dataset.event '
      + '|| textContent)(document.activeElement)'));
  }
  return stops;
}

async function testKeys() {
  await tab.open(address);
  const [name, first, ...more] = await stopsOfTab(6);
  expect('Run is the first stop of Tab after the name', 'Gerbilargent run', `${name} ${first}`);
  expect('Skip the tour comes soon after that', true, more.includes('tour-end'));
  await openPage();
  const seen = await stopsOfTab(60);
  for (const id of ['A first picture', 'wire', 'run', 'once', 'tick', 'offerA', 'compare', 'textA',
    'rows', 'memory', 'link']) {
    expect(`the key Tab leads to ${id}`, true, seen.includes(id));
  }
  await tab.value('document.getElementById("rows").focus()');
  await tab.key('Home');
  expect('Home: before the first event', /^Before the first/, await tab.text('moment-text'));
  await tab.key('ArrowRight');
  await tab.key('ArrowRight');
  expect('two events on', 'Event 1 of 2,600: the driver is told that the generator is halted. '
    + 'tick: read halted', await tab.text('moment-text'));
  await tab.key('End');
  expect('End: the newest event', /^Event 2,599 of 2,600/, await tab.text('moment-text'));
  await tab.value('document.getElementById("memory").focus()');
  await tab.key('ArrowRight');
  await tab.key('ArrowRight');
  expect('a word is told', /^Half 0, word 1: .* places the beam.* Word 001: [0-9A-F]{4}, LABS /,
    await tab.text('word-text'));
  await tab.key('ArrowUp');
  expect('up from the first row is the first word', /^Word zero: .* Word 000: [0-9A-F]{4}, JMPL /,
    await tab.text('word-text'));
  await tab.value('document.getElementById("wire").focus()');
  await tab.key(' ');
  expect('a key cuts the wire', 'Mend the HALT wire', await tab.text('wire'));
}

async function testRows() {
  await openPage();
  await set('count', 3400);
  await tab.click('once');
  await set('count', 20000);
  await tab.click('zoom-all');
  const { left, top: y, width, height } = await tab.middle('rows');
  await tab.clickAt(left + width / 2, y + height / 2);
  expect('a click shows that moment', /^Event (2,9|3,0)[0-9][0-9] of 6,000/,
    await tab.text('moment-text'));
  await tab.click('zoom-in');
  await tab.click('zoom-in');
  expect('zoomed in, it is still there', /^Event (2,9|3,0)[0-9][0-9] of 6,000/,
    await tab.text('moment-text'));
  await tab.click('picture-back');
  expect('the picture before', /: done /, await tab.text('moment-text'));
  await tab.click('picture-on');
  expect('the picture after', /: done /, await tab.text('moment-text'));
  expect('the moment is in sight', true, await tab.value(`(() => {
    const canvas = document.getElementById('rows'),
      line = canvas.getContext('2d').getImageData(0, 2, canvas.width, 1).data;
    const ink = getComputedStyle(document.documentElement).getPropertyValue('--ink').trim();
    const [r, g, b] = [1, 3, 5].map((k) => parseInt(ink.slice(k, k + 2), 16));
    for (let k = 0; k < line.length; k += 4) if (Math.abs(line[k] - r) + Math.abs(line[k + 1] - g)
      + Math.abs(line[k + 2] - b) < 200) return true;
    return false;
  })()`));
  const [, told] = /^Event ([0-9,]+)/.exec(await tab.text('moment-text'));
  const kept = Number(told.replaceAll(',', '')) + 1;
  await tab.click('forget');
  expect('what comes later is forgotten', new RegExp(`^event ${kept} `), await tab.text('counts'));
  await tab.click('compare');
  expect('and the log is that of play', new RegExp(`^the same: ${kept} events`),
    await tab.text('compared'));
  await tab.click('once');
  expect('after more events the newest is shown',
    new RegExp(`^Event ${grouped(kept + 19999)} of ${grouped(kept + 20000)}:`),
    await tab.text('moment-text'));
  await set('count', 65536);
  await tab.click('once');
  expect('there are at most as many events as play takes', /^event 65536 /,
    await tab.text('counts'));
  expect('that is said',
    '65,536 events are the most: begin anew, or run on and on. true',
    await tab.value('`${document.getElementById("thumb-why").textContent} '
      + '${document.getElementById("run").disabled}`'));
  await tab.click('compare');
  expect('they are compared, too', /^the same: 65536 events/, await tab.text('compared'));
  await tab.click('now');
  const { left: x, top: at } = await tab.middle('memory');
  await tab.mouse('mouseMoved', x + 3, at + 22);
  await expectSoon('a word under the pointer', /^Word zero: .* Word 000: E[0-9A-F]{3}, JMPL/,
    () => tab.text('word-text'));
}

// On and on a run begins anew where the board is full, with the next seed, until somebody stops it;
// its wire stays as it was.
async function testOnAndOn() {
  await openPage();
  await set('seed', 7);
  await tab.click('wire');
  await set('count', 65536);
  await tab.click('once');
  expect('a full board runs no more', true,
    await tab.value('document.getElementById("run").disabled'));
  await tab.click('endless');
  expect('but on and on', 'false ', await tab.value('`${document.getElementById("run").disabled} '
    + '${document.getElementById("thumb-why").textContent}`'));
  await tab.value('document.getElementById("speed").value = 9');
  await tab.click('run');
  await expectSoon('the seed after the next one', '9',
    () => tab.value('document.getElementById("seed").value'));
  expect('it runs', 'Stop', await tab.text('run'));
  expect('that is said', 'On and on. Stop to use the grey buttons.', await tab.text('run-text'));
  await tab.click('run');
  expect('it has room again', true,
    Number(/^event ([0-9]+) /.exec(await tab.text('counts'))[1]) < 65536);
  expect('the wire is still cut', 'Mend the HALT wire', await tab.text('wire'));
  await tab.click('wire');
  await tab.click('endless');
  expect('without it a run has an end', 'Run: 65,536 events, in about 2 seconds.',
    await tab.text('run-text'));
  await tab.click('compare');
  expect('play does the same', /^the same up to the cut wire/, await tab.text('compared'));
}

// What is read aloud of an element: its text without what is hidden from that.
function readOf(id) {
  return tab.value(`(() => {
    const copy = document.getElementById('${id}').cloneNode(true);
    copy.querySelectorAll('[aria-hidden="true"]').forEach((part) => part.remove());
    return copy.textContent;
  })()`);
}

// Keeps which of these parts change, and tells it: what is live is read aloud then.
function keepChanges(...ids) {
  return tab.value(`{
    window.changes = new Set();
    const all = { childList: true, subtree: true, characterData: true };
    for (const id of ${JSON.stringify(ids)}) {
      new MutationObserver(() => changes.add(id)).observe(document.getElementById(id), all);
    }
  }`);
}
function changesKept() {
  return tab.value('[...changes].join()');
}

// Verdicts, tour and moment are read aloud, in words, and again only where they change.
async function testLive() {
  await tab.open(address);
  const lives = () => tab.value(`['moments', 'halves', 'tour-text', 'lesson-text', 'moment-text',
    'file-text'].map((id) => {
    const live = document.getElementById(id).closest('[aria-live], [role="status"]');
    return live.getAttribute('aria-live') ?? live.getAttribute('role');
  }).join()`);
  expect('while it runs the tour is read aloud', 'off,off,polite,polite,off,status', await lives());
  await tab.click('tour-end');
  expect('and then what is shown', 'polite,polite,polite,polite,polite,status', await lives());
  await keepChanges('verdicts', 'moment-text');
  await tab.click('back');
  expect('a step back changes the moment alone', 'moment-text', await changesKept());
  for (const step of ['back', 'picture-back', 'now', 'back', 'back']) {
    await tab.click(step);
    const read = await readOf('moment-text');
    expect(`after ${step}: words`, /^Event [0-9,]+ of 2,600: the (driver|generator) [a-z]+/, read);
    expect(`after ${step}: nothing hexadecimal`, false, HEXADECIMAL.test(read));
    expect(`after ${step}: so says the slider`, read,
      await tab.value('document.getElementById("rows").getAttribute("aria-valuetext")'));
  }
}

// A number in hexadecimal: with a letter and a digit, or three or four digits of which the first is
// zero.
const HEXADECIMAL = /\b(?=\d*[A-F])(?=[A-F]*\d)[\dA-F]{2,4}\b|(?<!,)\b0[\dA-F]{2,3}\b/;

// With plain words nothing that is seen is hexadecimal, whatever is opened; without them much is.
async function testPlain() {
  await openPage();
  const seen = async () => (await tab.value('document.body.innerText'))
    .split('\n').filter((line) => HEXADECIMAL.test(line)).join(' | ');
  const states = {
    opening: async () => {},
    'a chosen word': async () => {
      await tab.value('document.getElementById("memory").focus()');
      for (let k = 0; k < 4; k++) await tab.key('ArrowRight');
    },
    'a tear': async () => { for (const id of ['wire', 'once', 'moments-go']) await tab.click(id); },
    'an early byte': () => tab.click('halves-go'),
    'a log': async () => {
      await tab.drop('screen', `${top}examples/logs/tears.log`);
      await comes('file-title', 'The log tears.log');
    },
    'a dump': async () => {
      const dump = new Uint8Array(4096);
      dump.set([1, 0xE0, 0x90, 0xA1, 0, 2, 0x64, 0x90, 0x64, 0x74, 0, 0xB0]);
      await tab.drop('screen', put('a.dump', dump));
      await comes('file-title', 'The dump a.dump');
      await tab.click('back');
    },
  };
  for (const [state, reach] of Object.entries(states)) {
    await reach();
    expect(`${state}: something is hexadecimal`, true, await seen() !== '');
    await tab.click('plain');
    expect(`${state}: with plain words nothing is`, '', await seen());
    expect(`${state}: the moment is told`, /^Event [0-9,]+ of /, await readOf('moment-text'));
    await tab.click('plain');
  }
  await tab.click('plain');
  for (let k = 1; k <= LESSONS.length; k++) {
    await tab.click(`#lessons li:nth-child(${k}) a`);
    await comesWith('lesson-title', `${k}. `);
    expect(`lesson ${k}: nothing is hexadecimal`, '', await seen());
  }
  await tab.click('link');
  await tab.until('document.getElementById("link-text").value.includes("#z=")');
  const link = await tab.value('document.getElementById("link-text").value');
  await openPage();
  expect('a page begins without plain words', false,
    await tab.value('document.getElementById("plain").checked'));
  await openPage(link);
  expect('but a link holds them', true,
    await tab.value('document.getElementById("plain").checked'));
}

// The frames of docs/LESSON.md, cut and run, are torn; mended and run, they are whole.
async function testLessonFrames() {
  const [a, b] = readFileSync(`${top}docs/LESSON.md`, 'utf8').match(/(^ {4}.*\n)+/gm)
    .map((block) => block.replace(/^ {4}/gm, ''));
  await openPage();
  await set('textA', a);
  await set('textB', b);
  for (const id of ['wire', 'once', 'moments-go']) await tab.click(id);
  expect('the frames of the lesson are torn', VERDICTS.cut, await verdicts());
  expect('and red', true, (await tab.value(REDS)).red > 100);
  expect('the frames are named', 'Being drawn: frame A', await tab.text('wanted-text'));
  for (const id of ['wire', 'once']) await tab.click(id);
  expect('mended they are whole', VERDICTS.mended, await verdicts());
}

// A fault in one editor moves nothing of the other, and its text is clear of the ring of the focus.
async function testEditorsStill() {
  for (const width of [400, 1280]) {
    await tab.size(width, 900, width === 400);
    await openPage();
    const places = () => tab.value(`['textA', 'saidA', 'textB', 'saidB'].map((id) => {
      const { left, top, width, height } = document.getElementById(id).getBoundingClientRect();
      return [left, top + scrollY, width, height].map(Math.round).join(' ');
    }).join()`);
    await set('textA', 'labs 0 0 0\nhalt');
    const before = await places();
    await set('textA', 'labs 512 400 0\nvctr 9 -100 100\nhalt');
    expect(`${width}: a fault is told`, /^syntax at line 2/, await tab.text('saidA'));
    expect(`${width}: nothing moves`, before, await places());
    expect(`${width}: its text is clear of the ring`, true, await tab.value(`(() => {
      const [text, said] = ['textA', 'saidA'].map((id) => document.getElementById(id));
      const { outlineWidth, outlineOffset } = getComputedStyle(text);
      const ring = parseFloat(outlineWidth) + Math.max(0, parseFloat(outlineOffset));
      return document.activeElement === text && ring > 0
        && text.getBoundingClientRect().bottom + ring < said.getBoundingClientRect().top;
    })()`));
  }
  await tab.size(1600, 1000);
}

// The parts of the page as they are read aloud: the role and the name of each.
async function partsRead() {
  const { nodes } = await tab.send('Accessibility.getFullAXTree');
  return nodes.filter(({ ignored }) => !ignored)
    .map(({ role, name }) => [role?.value, name?.value ?? '']);
}

const USED = /^(button|checkbox|textbox|combobox|spinbutton|slider|image|link|application)$/;

// The roles of those that can be used, or are pictures, and have no name.
async function nameless() {
  return (await partsRead()).filter(([role, name]) => USED.test(role) && name === '')
    .map(([role]) => role);
}

async function testReadAloud() {
  await openPage();
  const named = await partsRead();
  expect('each part has a name', '', (await nameless()).join());
  const images = named.filter(([role]) => role === 'image' || role === 'img')
    .map(([, name]) => name);
  expect('the picture is told in words', true, images.includes(await tab.text('picture-text')));
}

// --- Games ---

// Opens a game that is built in, by its place among them.
async function openGame(number) {
  await tab.open(rocks);
  await tab.click(`#games button:nth-child(${number})`);
  await tab.until(STANDS);
}

// Whether the page stays as it is: what a game shows makes it longer at first.
const STANDS = `(async () => {
  const place = () => document.getElementById('game-wire').getBoundingClientRect().y + scrollY;
  const before = place();
  await new Promise((passed) => setTimeout(passed, 300));
  return place() === before;
})()`;

// The bright pixels of the tube, by their places, how wide it is, and which of them are red.
const LIT = `(() => {
  const { width, height } = document.getElementById('tube'), found = [], red = [];
  const { data } = document.getElementById('tube').getContext('2d')
    .getImageData(0, 0, width, height);
  for (let k = 0; k < data.length; k += 4) {
    if (Math.max(data[k], data[k + 1]) < 140) continue;
    found.push(k >> 2);
    if (data[k] > 2 * data[k + 1]) red.push(k >> 2);
  }
  return { width, found, red };
})()`;

// The first look is a game on two boards: without a click the wire of the right one is cut, and
// both stop at a picture of which a good part is of another one. Its run is shown stroke by stroke.
const STOPPED = 'document.getElementById("twice").classList.contains("stopped")';
const bothVerdicts = () => textsOf('#twice .verdict');

async function testTwice() {
  await tab.media({ 'color-scheme': 'dark' });
  for (const [width, height] of [[400, 800], [844, 390], [1280, 800], [1920, 1080]]) {
    await tab.size(width, height, width < 900);
    await tab.open(front);
    expect(`${width}: what it is about, over everything`, 'Cut one wire, and the picture tears.',
      await wordsOf('#twice h2'));
    await tab.until('/^Whole: each of [0-9]{2,} pictures/.test(document.querySelector('
      + '"#side-cut .verdict").textContent)');
    const across = () => tab.value('document.getElementById("tube-cut").width');
    expect(`${width}: while it runs a tube has 640 pixels across at most`, true,
      await across() <= 640);
    await tab.until(STOPPED);
    if (width === 1280) writeFileSync(`${work}/page_twice.png`, await tab.screenshot());
    expect(`${width}: at rest it has all`, true, await across() >= await tab.value(
      'document.getElementById("tube-cut").clientWidth'));
    const [whole, cut] = await bothVerdicts();
    expect(`${width}: the left side is whole`, /^Whole: each of [1-9][0-9]* pictures\.$/, whole);
    expect(`${width}: the right one isn't`, /^Torn: [1-9][0-9]* of [1-9][0-9]* pictures?\.$/, cut);
    const [, red, all] = /, and ([0-9]+) of ([0-9]+) lines, red/.exec(
      await tab.text('what-happened')) ?? [];
    expect(`${width}: a good part is of another picture`, true, red / all >= 0.25);
    expect(`${width}: no watchdog resets a board`, 'true,true',
      (await tab.value('[...document.querySelectorAll("#twice .reset")].map((one) => one.hidden)'))
        .join());
    expect(`${width}: all of it is in view`, '', await outOfView(['#side-whole .glass',
      '#side-cut .glass', '#side-cut .wire', '#cut-wire', '#what-happened', '#in-each-run',
      '#stroke', '#fly', '#why', '#both-sound', '#premises summary', '#asked-text']));
  }
  await testStrokes();
  await testFlight();
  await testTwiceWidths();
  await testBothPads();
}

// How wide the page is, and what over a tube is cut or stands out, with so many pictures counted.
const wideParts = (pictures) => tab.value(`(() => {
  const count = ': each of ${pictures} pictures.', boxOf = (one) => one.getBoundingClientRect();
  for (const one of document.querySelectorAll('#twice .verdict')) {
    one.lastElementChild.textContent = count;
  }
  const out = [...document.querySelectorAll('.side-head')].flatMap((head) => (
    [...head.children].filter((one) => one.checkVisibility()).filter((one, k, all) => (
      boxOf(one).left < (k > 0 ? boxOf(all[k - 1]).right : boxOf(head).left) - 0.5
        || boxOf(one).right > boxOf(head).right + 0.5 || one.scrollWidth > one.clientWidth + 1))));
  return [document.documentElement.scrollWidth, ...out.map((one) => one.textContent)].join('; ');
})()`);

async function testTwiceWidths() {
  await inTabOf(FAST_TIME, async () => {
    for (const [width, height] of [[360, 740], [400, 800], [640, 900], [700, 900], [768, 1024],
      [800, 900], [844, 390], [1280, 600], [1280, 800]]) {
      await tab.size(width, height, width < 900);
      await tab.open(front);
      for (const [what, come] of [['before the cut', () => tab.value('passFrames(30)')],
        ['after it', () => passUntil(STOPPED, 7)]]) {
        await come();
        expect(`${width} by ${height}, ${what}: nothing is too wide`, String(width),
          await wideParts('12,345'));
      }
    }
  });
}

// Without a click it tears within seven seconds of the boards' own time; sound is off until it is
// asked for; and a game that reads more than a finger on a picture presses has buttons on a phone.
async function testBothPads() {
  await inTabOf(FAST_TIME, async () => {
    await tab.size(400, 800, true);
    await tab.open(front);
    expect('it tears soon, by the boards\' time', true, await passUntil(STOPPED, 7));
    expect('no sound at first', 'false', await tab.value(
      'document.getElementById("both-sound").getAttribute("aria-pressed")'));
    await tab.click('both-sound');
    expect('then there is', 'true', await tab.value(
      'document.getElementById("both-sound").getAttribute("aria-pressed")'));
    expect('the cave needs no buttons', false, await tab.value(
      'document.getElementById("both-pads").checkVisibility()'));
    await tab.open(`${front}#both=Rocks`);
    await tab.value('passFrames(30)');
    expect('Rocks has some', '', await outOfView(['[data-both=left]', '[data-both=fire]',
      '#side-whole .glass', '#side-cut .glass']));
  });
  await tab.size(1600, 1000);
}

// The program and the vector ROM of the game of the first view, as files.
function filesOfCave() {
  const { bytes, vectors, shapes } = Object.fromEntries(Object.entries(packedCave())
    .map(([name, text]) => [name, new Uint8Array(Buffer.from(text, 'base64'))]));
  const driver = linesOfListing(readFileSync(`${top}page/driver.listing`, 'utf8'))
    .flatMap((line) => line.bytes);
  const game = builtGame({ bytes, vectors, shapes }, Uint8Array.from(driver));
  return [['game.program', game.program], ['rom', game.shapes]].map(([name, data]) => {
    writeFileSync(`${work}/${name}`, data);
    return `${work}/${name}`;
  });
}

const litNow = (id) => tab.value(`(() => {
  const canvas = document.getElementById('${id}');
  const { data } = canvas.getContext('2d').getImageData(0, 0, canvas.width, canvas.height);
  let count = 0;
  for (let k = 0; k < data.length; k += 4) if (data[k] + data[k + 1] + data[k + 2] > 300) count++;
  return count;
})()`);

// The slider moves both beams and both rows: by the keys, too.
async function testStrokes() {
  const lit = [];
  await tab.value('document.getElementById("stroke").focus()');
  await tab.key('Home');
  expect('nothing is drawn at its beginning',
    /^0\.0 ms: left 0 of [0-9]+ lines, right 0 of [0-9]+$/, await tab.text('stroke-text'));
  for (const id of ['tube-whole', 'tube-cut']) lit.push(await litNow(id));
  await tab.key('End');
  expect('all is at its end', /left ([0-9]+) of \1 lines, right ([0-9]+) of \2$/,
    await tab.text('stroke-text'));
  for (const id of ['tube-whole', 'tube-cut']) lit.push(await litNow(id));
  expect('both beams have moved', true, lit[2] > 3 * lit[0] + 100 && lit[3] > 2 * lit[1] + 100);
  await tab.key('ArrowLeft');
  const before = await tab.text('stroke-text');
  await tab.key('ArrowLeft');
  expect('a key goes back by a stroke', true, before !== await tab.text('stroke-text'));
  await tab.click('why');
  expect('why, with the byte',
    /wrote there, and [0-9.]+ ms later the beam's chip read it\. It wrote/,
    await tab.text('why-byte'));
}

// One's own keys fly it on both boards, and it stops again where it is asked to; a wire that was
// mended is whole; and the run that tore can be looked at as a log.
async function testFlight() {
  await tab.click('fly');
  expect('it goes on', false, await tab.value(STOPPED));
  expect('the keys are the game\'s', 'tube-whole', await tab.value('document.activeElement.id'));
  await tab.hold(' ', 32, true);
  await tab.hold(' ', 32, false);
  expect('and Space stops nothing', false, await tab.value(STOPPED));
  await tab.click('fly');
  await expectSoon('it stops at a tear', true, () => tab.value(STOPPED));
  await tab.click('cut-wire');
  await expectSoon('mended, it is whole', /^Whole: each of [1-9][0-9]* pictures?\.$/,
    async () => (await bothVerdicts())[1]);
  await tab.click('cut-wire');
  await expectSoon('cut, it stops at a tear', true, () => tab.value(STOPPED));
  if (await tab.value('document.getElementById("whys").hidden')) await tab.click('why');
  await tab.click('these-bytes');
  await expectSoon('its run is a log', /^The log of a run of Cave/, () => tab.text('file-title'));
  expect('of one torn picture', /^Torn: 1 of 1 picture\./, await tab.text('moments'));
  await tab.media({ 'reduced-motion': 'reduce' });
  await tab.open(front);
  expect('with less motion it is a still', true, await tab.value(STOPPED));
  await tab.click('first-play');
  await expectSoon('until somebody plays it', false, () => tab.value(STOPPED));
  await tab.media({});
  await tab.open(front);
  await tab.drop('side-cut', filesOfCave());
  await expectSoon('a game that is dropped runs on both', /^Both: game\.program/,
    () => tab.text('asked-text'));
  await expectSoon('and tears', true, () => tab.value(STOPPED));
  await tab.size(1280, 900);
  for (const [one, text] of [[`${top}examples/cave/game.s`,
    /^game\.s\. This is the source .* drop what that writes: build\/game\.program and build\/rom/],
  [filesOfCave()[1], /^rom is a vector ROM, /]]) {
    await tab.drop('side-cut', one);
    await expectSoon('a wrong file is told', text, () => tab.text('both-said'));
    expect('below the buttons, in view', '', await outOfView(['#both-said', '#fly']));
  }
  await tab.drop('side-cut', filesOfGame(1, [[0x6C8F, 0x8D], [0x6C90, 0x04], [0x6C91, 0x40]]));
  await expectSoon('of a refused game its instruction is told',
    /^In every run: 1 instruction may .* Why: 6C8F: sta \$4004: it writes 4004, .*\. All of it$/,
    () => tab.text('in-each-run'));
  await tab.click('#in-each-run a');
  expect('and all of it', /^6C8F: sta \$4004: it writes 4004, /, await wordsOf('#both-lines'));
}

// A game alone: its pictures are whole, it is accepted, and keeps its pace.
async function testGame() {
  await tab.size(1280, 900);
  await tab.open(rocks);
  expect('what this is, over everything', /^A frame driver for the vector hardware/,
    await wordsOf('.why-play'));
  await expectSoon('its pictures are whole', /^Whole: each of [0-9]{2,} pictures\.$/,
    () => tab.text('run-moments'));
  expect('each byte comes in time', 'In time: each byte.', await tab.text('run-halves'));
  expect('each run is finished', 'Finished: each run.', await tab.text('run-left'));
  expect('it is accepted',
    'Accepted: no run of these bytes tears a picture, while the HALT wire is whole.',
    await tab.text('every'));
  await expectSoon('its pace', /^6[01]\.[0-9] pictures a second, [3-9]/,
    () => tab.text('run-counts'));
  writeFileSync(`${work}/page_game.png`, await tab.screenshot());
  for (const id of ['mistake', 'mistake-note']) {
    expect('no mistake is offered that Rocks can\'t have', false,
      await tab.value(`document.getElementById('${id}').checkVisibility()`));
  }
  expect('what early is stands there', '', await outOfView(['#early-note']));
  expect('in words', 'Early: stored into the half that was being drawn, before HALT.',
    await wordsOf('#early-note'));
  await tab.click('pause');
  expect('strokes are seen', true, (await tab.value(LIT)).found.length > 300);
  const words = (await tab.value('document.getElementById("play").innerText'));
  expect('"tested, not proved" is said once', 2, words.split('tested, not proved').length);
}

// The strokes of each picture of examples/first, as `dvg play` draws them.
function picturesOfFirst() {
  const script = '{ cat garden.sketch; awk -f walk.awk; } | awk -f ../../board/outline.awk';
  const sketch = execFileSync('sh', ['-c', script], { cwd: `${top}examples/first` });
  const [rom, ...offers] = runProgram(['lay', '--draft'], sketch).split(/^(?=offer$)/m);
  return offers.map((offer) => strokesOfLines(runProgram(['play'], `${rom}tick 2\n${offer}`
    + 'tick 1100\nstrobe\nfetch 9999\n').split('\n')).filter(([, , , , z]) => z > 0));
}

// What is on the tube is a picture of that game, as `dvg` draws it: one, and no other one.
async function testTube() {
  const pictures = picturesOfFirst(), seen = new Set();
  await openGame(4);
  for (let k = 0; k < 4; k++) {
    await tab.until('Number(document.getElementById("tube").dataset.strokes) > 0');
    await tab.click('pause');
    const lit = await tab.value(LIT);
    const fitting = pictures.map((one, n) => (isDrawn(one, lit) ? n : -1)).filter((n) => n >= 0);
    expect('one picture is on the tube', 1, fitting.length);
    seen.add(fitting[0]);
    await tab.click('pause');
    await tab.until(`new Promise((done) => setTimeout(() => done(true), 400))`);
  }
  expect('and later another one', true, seen.size > 1);
}

// Who clicks a button of the game plays on by its keys; and after a log the link to the game leads
// back to it.
async function testWayBack() {
  await tab.open(rocks);
  await tab.until('/, [1-9]\\.[0-9] s/.test(document.getElementById("run-counts").textContent)');
  await tab.click('game-wire');
  expect('the keys are the game\'s', 'tube', await tab.value('document.activeElement.id'));
  await tab.hold(' ', 32, true);
  await tab.hold(' ', 32, false);
  expect('and Space mends no wire', 'true',
    await tab.value('document.getElementById("game-wire").getAttribute("aria-pressed")'));
  await tab.click('game-wire');
  await tab.drop('tube', `${top}examples/logs/tears.log`);
  const plays = 'document.body.classList.contains("plays")';
  await expectSoon('no game is shown', false, () => tab.value(plays));
  await tab.value('document.querySelector(".to-game").click()');
  await expectSoon('and then it is again', true, () => tab.value(plays));
}

// So does who chooses from a list or ticks a box by a pointer; who does it by a key stays there.
async function testChoices() {
  await tab.open(rocks);
  const focus = () => tab.value('document.activeElement.id');
  const { x, y } = await tab.middle('beam');
  await tab.clickAt(x, y);
  await tab.key('ArrowDown');
  await tab.key('Enter');
  await expectSoon('a list is chosen from by a pointer', '2', () => tab.value('beam.value'));
  await expectSoon('the keys are the game\'s', 'tube', focus);
  await tab.click('strobes-ignored');
  expect('so they are after a box', 'tube', await focus());
  await tab.click('label:has(#strobes-ignored)');
  expect('and after its text', 'tube', await focus());
  await tab.value('document.getElementById("beam").focus()');
  await tab.key('ArrowDown');
  expect('a key chooses', '4', await tab.value('beam.value'));
  expect('and stays at the list', 'beam', await focus());
  await tab.value('document.getElementById("strobes-ignored").focus()');
  await tab.key(' ');
  expect('and so it does at a box', 'strobes-ignored', await focus());
}

// Keys and touches come to the game: in Rocks the ship turns, and a shot is seen.
async function testHands() {
  await tab.open(rocks);
  await tab.until('/, [3-9]\\.[0-9] s/.test(document.getElementById("run-counts").textContent)');
  const asks = (name) => tab.value(`[...document.querySelectorAll('.pads button')]
    .find((one) => one.dataset.input === '${name}').classList.contains('down')`);
  const { x, y } = await tab.middle('[data-input=fire]');
  await tab.mouse('mousePressed', x, y, { button: 'left', clickCount: 1 });
  expect('fire is down', true, await asks('fire'));
  await tab.mouse('mouseReleased', x, y, { button: 'left', clickCount: 1 });
  expect('and up again', false, await asks('fire'));
  const touch = (type, touchPoints) => tab.send('Input.dispatchTouchEvent', { type, touchPoints });
  await touch('touchStart', [{ x, y }]);
  await expectSoon('so it is by a finger', true, () => asks('fire'));
  await touch('touchEnd', []);
  await expectSoon('until it is lifted', false, () => asks('fire'));
  await openGame(5);
  await tab.until('/, [1-9]\\.[0-9] s/.test(document.getElementById("run-counts").textContent)');
  const before = await picturesSeen();
  await tab.hold('ArrowLeft', 37, true);
  const held = await picturesSeen();
  await tab.hold('ArrowLeft', 37, false);
  expect('the test ROM shows that a key is down', false, meet(held, before));
  await tab.value(`{
    const pad = { connected: true, axes: [-1, 0], buttons: [] };
    navigator.getGamepads = () => [pad];
    0;
  }`);
  const pushed = await picturesSeen();
  expect('so it does of a stick that is pushed', false, meet(pushed, before));
  await expectSoon('which is that key', true, async () => meet(await picturesSeen(), held));
  await tab.value('navigator.getGamepads = () => [null]; 0');
  await expectSoon('until it isn\'t', true, async () => meet(await picturesSeen(), before));
}

const meet = (some, others) => [...some].some((one) => others.has(one));

// The pictures that are seen at some moments. The test ROM shows the board's clock, too, so there
// are two.
async function picturesSeen() {
  const seen = new Set();
  for (let k = 0; k < 6; k++) {
    await tab.until('new Promise((done) => setTimeout(() => done(true), 150))');
    seen.add((await tab.value(LIT)).found.join());
  }
  return seen;
}

// Keeps what is heard of each AudioContext that is made from now on: the gain that all goes by.
const KEEP_SOUND = `{
  window.made = [];
  window.AudioContext = class extends AudioContext {
    createGain() {
      const gain = super.createGain();
      if (!made.includes(this)) {
        made.push(this);
        this.heard = this.createAnalyser();
        gain.connect(this.heard);
      }
      return gain;
    }
  };
  0;
}`;
const LOUDEST = `(() => {
  const values = new Float32Array(made[0].heard.fftSize);
  made[0].heard.getFloatTimeDomainData(values);
  return Math.max(...values);
})()`;

// The test ROM's saucer is heard once somebody asks for sound, as long as its button is down; and
// nothing is heard of a game that rests.
async function testSound() {
  await openGame(5);
  await tab.value(KEEP_SOUND);
  expect('no sound at first', 0, await tab.value('made.length'));
  await tab.click('sound');
  await tab.hold('ArrowLeft', 37, true);
  expect('it is heard', true, await tab.until(`${LOUDEST} > 0.02`));
  await tab.hold('ArrowLeft', 37, false);
  expect('and no longer', true, await tab.until(`${LOUDEST} < 0.001`));
  await tab.click('pause');
  await expectSoon('a game that rests is silent', 'suspended', () => tab.value('made[0].state'));
  await tab.click('pause');
  await expectSoon('and sounds as it goes on', 'running', () => tab.value('made[0].state'));
}

// The address of a game says which it is, and what is asked of its board; a link holds one that was
// dropped, too.
async function testGameLink() {
  await openGame(5);
  await tab.click('game-wire');
  await tab.choose('beam', '4');
  expect('its address', '#game=The+test+ROM&wire=cut&beam=4', await tab.value('location.hash'));
  const link = await tab.value('location.href');
  await tab.open(rocks);
  await tab.open(link);
  expect('it is cut', 'true', await tab.value(
    'document.getElementById("game-wire").getAttribute("aria-pressed")'));
  await expectSoon('and goes dark', /^Abandoned: /, () => tab.text('run-left'));
  await tab.drop('tube', filesOfGame(1));
  await expectSoon('a game that is dropped is a fresh one', 'false 1', () => tab.value(
    'document.getElementById("game-wire").getAttribute("aria-pressed") + " " + beam.value'));
  await tab.click('game-link');
  await expectSoon('a link is told', /^The link, [0-9]+ characters, stands in the address/,
    () => tab.text('game-said'));
  const long = await tab.value('location.href');
  await tab.open(rocks);
  await tab.open(long);
  expect('the game that was dropped', 'game.program, rom, out of a link.',
    await tab.text('game-said'));
  await expectSoon('it runs', /^Whole: each of [0-9]{2,} pictures\.$/,
    () => tab.text('run-moments'));
}

// A page of a game alone plays it, in view, and asks for nothing.
async function testGamePage() {
  const [bytes, rom] = filesOfGame(1), page = `${work}/alone.html`;
  execFileSync(`${top}page/game`, [bytes, rom, 'Bat & ball', page]);
  for (const [width, height] of [[400, 800], [1280, 900]]) {
    await tab.size(width, height, width < 640);
    await tab.open(`file://${page}`);
    await expectSoon('strokes are seen', true,
      async () => (await tab.value(LIT)).found.length > 99);
    expect(`${width} by ${height}: in view`, '', await outOfView(['#tube', '.pads']));
    expect(`${width}: it doesn't scroll sideways`, true,
      await tab.value('document.documentElement.scrollWidth <= innerWidth'));
    writeFileSync(`${work}/page_alone_${width}.png`, await tab.screenshot());
  }
  expect('its title', 'Bat & ball', await tab.value('document.title'));
  await tab.size(1600, 1000, false);
}

// A question is in view at once, and stays until somebody answers it, or wants none.
async function testQuestion() {
  await tab.size(1280, 900);
  for (const game of ['Rocks', 'Bat+and+ball', 'The+test+ROM']) {
    await tab.open(`${front}#game=${game}&wire=cut`);
    const isThere = () => outOfView(['#what-text', '#guesses', '[data-guess=tears]']);
    await expectSoon(`${game}: a question is in view`, '', isThere);
    await tab.until('/, [4-9]\\.[0-9] s /.test(document.getElementById("run-counts").textContent)');
    expect(`${game}: after seconds, too`, '', await isThere());
    expect(`${game}: it isn't answered`, 'What will come of it?', await tab.text('what-text'));
    await tab.click('[data-guess=""]');
    expect(`${game}: who wants none is told`, /^It goes (on|dark): /, await tab.text('what-text'));
    expect(`${game}: and no longer asked`, true, await isHidden('guesses'));
  }
  await tab.size(1600, 1000);
}

// What comes of a board that is changed, after a guess: the test ROM goes dark with its wire cut,
// and with strobes ignored it tears; mended, it is whole again.
async function testWhatIf() {
  await testQuestion();
  await openGame(5);
  await tab.click('game-wire');
  await tab.click('[data-guess=tears]');
  await expectSoon('it goes dark', /^You said: it tears\. It goes dark: each strobe /,
    () => tab.text('what-text'));
  expect('runs are abandoned', /^Abandoned: [0-9]+ runs, /, await tab.text('run-left'));
  await expectSoon('the tube is dark', 0, async () => (await tab.value(LIT)).found.length);
  expect('what is said of each run is of a whole wire', true,
    await tab.value('document.getElementById("wire-note").checkVisibility()'));
  await tab.choose('beam', '4');
  await tab.click('strobes-ignored');
  await expectSoon('it tears', /^Torn: ([0-9]+) of [0-9]+ pictures\.$/,
    () => tab.text('run-moments'));
  await tab.click('[data-guess=""]');
  await expectSoon('so says the answer', /^It tears: /, () => tab.text('what-text'));
  expect('an early byte has its instruction',
    /^Early: [0-9]+ bytes, the first by the driver, 6[89A][0-9A-F]{2}: sta /,
    await tab.text('run-halves'));
  await expectSoon('a part of the tube is red', true, async () => {
    const { found, red } = await tab.value(LIT);
    return red.length > 20 && found.length > red.length + 100;
  });
  writeFileSync(`${work}/page_game_torn.png`, await tab.screenshot());
  await tab.click('game-wire');
  await tab.click('strobes-ignored');
  await tab.choose('beam', '1');
  await expectSoon('it is whole again', /^Whole: each of [0-9]{2,} pictures\.$/,
    () => tab.text('run-moments'));
}

// Links lead to what may come of it: it tears, it goes dark, it goes on.
async function testTries() {
  await openGame(1);
  for (const [k, outcome] of ['tears', 'dark', 'on'].entries()) {
    await tab.click(`#tries a:nth-child(${k + 1})`);
    await tab.click(`[data-guess=${outcome}]`);
    const words = outcome === 'on' ? 'goes on' : outcome.replace('dark', 'goes dark');
    await expectSoon(`try ${k + 1}`, new RegExp(`^You said: it (${words})[.] It \\1[ :]`),
      () => tab.text('what-text'));
  }
}

// How many pixels of the rows over time of a game have these colours, above and below.
const PIXELS_OF_ROWS = `(() => {
  const canvas = document.getElementById('past'), { width, height } = canvas;
  const style = getComputedStyle(document.documentElement);
  const { data } = canvas.getContext('2d').getImageData(0, 0, width, height);
  const found = [{}, {}];
  for (const name of ['half0', 'half1', 'early', 'torn']) {
    const color = parseInt(style.getPropertyValue('--' + name).trim().slice(1), 16);
    found.forEach((row, k) => { row[name] = 0; });
    for (let k = 0; k < width * height; k++) {
      const [r, g, b] = data.subarray(4 * k, 4 * k + 3);
      if ((r << 16 | g << 8 | b) === color) found[k < width * height / 2 ? 0 : 1][name]++;
    }
  }
  return found;
})()`;

// Into how many parts a byte that shows is divided in them, by lines.
const BANDS_OF_TORN = `(() => {
  const canvas = document.getElementById('past'), { width, height } = canvas;
  const torn = getComputedStyle(document.documentElement).getPropertyValue('--torn').trim();
  const { data } = canvas.getContext('2d').getImageData(0, height / 2, width, height / 2);
  const isTorn = (x, y) => '#' + [0, 1, 2].map((k) => (
    data[4 * (y * width + x) + k].toString(16).padStart(2, '0'))).join('') === torn;
  let most = 0;
  for (let x = 0; x < width; x++) {
    let bands = 0;
    for (let y = 1; y < height / 2; y++) if (isTorn(x, y) && !isTorn(x, y - 1)) bands++;
    most = Math.max(most, bands);
  }
  return most;
})()`;

const isHidden = (id) => tab.value(`document.getElementById('${id}').hidden`);

// Below a game are its last seconds: both halves in both rows. A key leads back, and the game rests
// until it is told to go on.
async function testStrip() {
  await tab.size(1280, 900);
  await openGame(1);
  await expectSoon('both rows have both halves, and no byte is early', true, async () => {
    const rows = await tab.value(PIXELS_OF_ROWS);
    return rows.every(({ half0, half1, early, torn }) => half0 > 20 && half1 > 20
      && early + torn === 0);
  });
  const drawn = () => tab.value('document.getElementById("past").toDataURL()');
  const before = await drawn();
  await expectSoon('they go on', true, async () => before !== await drawn());
  expect('there is no byte to show', true, await isHidden('show-byte'));
  await tab.until('/, [2-9]\\.[0-9] s/.test(document.getElementById("run-counts").textContent)');
  await tab.value('document.getElementById("past").focus()');
  await tab.key('ArrowLeft');
  expect('a key lets the game rest', 'Play', await tab.text('pause'));
  const writes = /; the driver, 6[89A][0-9A-F]{2}: sta .* writes half [01]\. [0-9]+ of /;
  for (let k = 0; k < 200 && !writes.test(await tab.text('past-text')); k++) {
    await tab.key('ArrowLeft', k % 3 ? 0 : 8);
  }
  const told = await tab.text('past-text');
  expect('what both ends do is told',
    /^At [0-9]+\.[0-9]{4} s of the game the generator (is|draws half) /, told);
  expect('by which instruction', writes, told);
  expect('so says the slider', told, await tab.value(
    'document.getElementById("past").getAttribute("aria-valuetext")'));
  const { left, top: y, width, height } = await tab.middle('past');
  await tab.clickAt(left + width / 4, y + height / 2);
  const shown = await tab.text('past-text');
  expect('a click shows another moment', true, shown !== told && shown.startsWith('At '));
  await testZoomOfGame({ left, y: y + height / 2, width });
  await tab.click('pause');
  expect('it goes on', 'Pause', await tab.text('pause'));
  expect('and nothing is told', '', await tab.text('past-text'));
  await testWalkOfGame();
  await testByteOfGame();
  await tab.size(1600, 1000);
}

// Walking back through a game, the tube shows the picture of each moment, as far as the beam has
// drawn it.
async function testWalkOfGame() {
  await tab.click('pause');
  await tab.value('document.getElementById("past").focus()');
  const seen = new Set(), drawn = new Set();
  for (let k = 0; k < 60; k++) {
    await tab.key('ArrowLeft', k % 10 ? 0 : 8);
    const [, count, all] = / ([0-9]+) of ([0-9]+) lines? are drawn\.$/.exec(
      await tab.text('past-text')) ?? [];
    expect('how far it is drawn is told', await tab.value(
      'document.getElementById("tube").dataset.strokes'), count);
    drawn.add(Number(count) < Number(all) ? 'amid' : 'whole');
    seen.add(await tab.value('document.getElementById("tube").toDataURL()'));
  }
  expect('amid pictures, and at the end of some', 'amid whole', [...drawn].sort().join(' '));
  expect('and the tube has shown many', true, seen.size > 10);
  await tab.click('pause');
}

// The rows of a game that rests: between two places there is half as long after the key +, as long
// again after -, four fifths after a turn of the wheel with Ctrl; and a drag brings what was aside.
async function testZoomOfGame({ left, y, width }) {
  const slotAt = async (part) => {
    await tab.clickAt(left + part * width, y);
    return Number(await tab.value('document.getElementById("past").ariaValueNow'));
  };
  const spanOf = async () => await slotAt(0.75) - await slotAt(0.25);
  const span = await spanOf();
  const isPart = async (part) => Math.abs(await spanOf() - part * span) <= 2;
  expect('the rows have many slots', true, span > 100);
  await tab.key('+');
  expect('the key + shows half of them', true, await isPart(0.5));
  await tab.key('-');
  expect('and - all of them', true, await isPart(1));
  await tab.mouse('mouseWheel', left + width / 2, y, { deltaX: 0, deltaY: -100, modifiers: 2 });
  expect('the wheel with Ctrl fewer', true, await isPart(0.8));
  const before = await slotAt(0.75);
  await tab.mouse('mousePressed', left + width * 0.75, y, { button: 'left', clickCount: 1 });
  await tab.mouse('mouseMoved', left + width / 2, y, { button: 'left', buttons: 1 });
  await tab.mouse('mouseReleased', left + width / 2, y, { button: 'left', clickCount: 1 });
  expect('a drag moves the rows', true, Math.abs(await slotAt(0.5) - before) <= 2);
}

// The byte that tears a picture is shown with its instruction: the game rests, and on the tube is
// the torn picture, of which a part is red.
async function testByteOfGame() {
  await inTabOf(FAST_TIME, testByteInTime);
}

// Lets the game's own time pass, at most so many seconds, until something holds; whether it does.
function passUntil(expression, seconds = 20) {
  return tab.value(`(() => {
    for (let k = 0; k < ${10 * seconds} && !(${expression}); k++) passFrames(1);
    return ${expression};
  })()`);
}

async function testByteInTime() {
  await tab.open(`${front}#game=The+test+ROM&wire=cut&beam=4&strobes=ignored`);
  expect('a byte can be shown', true,
    await passUntil('!document.getElementById("show-byte").hidden'));
  await tab.click('show-byte');
  expect('the game rests at it', 'Play', await tab.text('pause'));
  expect('it is told', new RegExp('^At [0-9]+[.][0-9]{4} s of the game a byte came early, by the '
    + 'driver, 6[89A][0-9A-F]{2}: sta .*[.] It wrote [0-9A-F]{2} over [0-9A-F]{2} into byte '
    + '[0-9A-F]{3}, '
    + 'the (low|high) byte of word [0-9A-F]{3}[.] [0-9]+[.][0-9]{2} ms later the generator read '
    + 'it: there the tear begins[.] [1-9][0-9]* of [0-9]+ strokes, red and dashed, '),
  await tab.text('past-text'));
  const { found, red } = await tab.value(LIT);
  expect('a part of the picture is red', true, red.length > 20 && found.length > red.length + 20);
  expect('the rows show it', true, (await tab.value(PIXELS_OF_ROWS))[1].torn > 0);
  expect('by lines, too, for who sees no colours', 3, await tab.value(BANDS_OF_TORN));
  writeFileSync(`${work}/page_game_byte.png`, await tab.screenshot());
  await tab.click('pause');
  const reds = async () => (await tab.value(LIT)).red.length;
  for (let k = 0; k < 40 && await reds() < 20; k++) await tab.value('passFrames(1)');
  expect('it goes on, and is red in part', true, await reds() > 20);
  expect('and nothing is told of a byte', '', await tab.text('past-text'));
}

// The program and the vector ROM of a game, as files; with changes of the program.
function filesOfGame(number, changes = []) {
  const packed = packedGames()[number], unpack = (text) => Buffer.from(text, 'base64');
  const listing = readFileSync(`${top}page/driver.listing`, 'utf8').split('\n')
    .flatMap((line) => line.split('\t')[0].split(' ').slice(1).map((byte) => parseInt(byte, 16)));
  const { program: bytes, shapes } = builtGame(Object.fromEntries(['bytes', 'vectors', 'shapes']
    .map((part) => [part, unpack(packed[part])])), Uint8Array.from(listing));
  for (const [at, byte] of changes) bytes[at - 0x6800] = byte;
  return [put('game.program', bytes), put('rom', shapes)];
}

// A game that is dropped runs; one with a fault is refused, and the fault is told.
async function testGameDrops() {
  await openPage();
  await tab.drop('rows', filesOfGame(1));
  await expectSoon('a dropped game runs', /^Whole: each of [0-9]{2,} pictures\.$/,
    () => tab.text('run-moments'));
  expect('it is accepted', /^Accepted: /, await tab.text('every'));
  expect('and told', 'game.program, rom.', await tab.text('game-said'));
  expect('what its mistake is', 'It stores where it should call dvg_put: tick this to see a '
    + 'mistake found.', await wordsOf('#mistake-note'));
  await tab.click('mistake');
  await expectSoon('with its mistake it is refused', /^Refused: 3 instructions /,
    () => tab.text('every'));
  const at = 0x6C8F, stores = [[at, 0x8D], [at + 1, 0x04], [at + 2, 0x40]];
  await tab.drop('tube', filesOfGame(1, stores));
  await expectSoon('one with a fault is refused', /^Refused: 1 instruction may tear a picture, /,
    () => tab.text('every'));
  expect('it is told why', /^6C8F: sta \$4004: it writes 4004, the vector RAM: /,
    await tab.text('every-lines'));
  await expectSoon('bytes come early', /^Early: [0-9]+ bytes, the first by 6C8F: sta \$4004, /,
    () => tab.text('run-halves'));
  await tab.drop('tube', filesOfGame(3, [[0x6A8B, 0x00]]));
  await expectSoon('one with BRK is refused', /^6A8B: brk: the checker doesn't take BRK: it goes /,
    () => tab.text('every-lines'));
  await expectSoon('and runs', /^Whole: each of [0-9]{2,} pictures\.$/,
    () => tab.text('run-moments'));
  await tab.drop('tube', filesOfGame(1)[0]);
  await expectSoon('a program without shapes', /vector ROM isn't among them/,
    () => tab.text('game-said'));
  await tab.drop('tube', `${top}examples/logs/tears.log`);
  await expectSoon('a log leads to the board', false,
    () => tab.value('document.body.classList.contains("plays")'));
}

// What may be dropped on a game and is none, and what is told of it.
function wrongFiles() {
  const [program, rom] = filesOfGame(1), bytes = readFileSync(program);
  const sockets = ['ef2', 'h2', 'j2'].map((name, k) => (
    put(`game.${name}`, bytes.subarray(2048 * k, 2048 * (k + 1) - (k === 0 ? 1 : 0)))));
  return [[put('a.png', Buffer.from('\x89PNG\r\n\x1A\n', 'latin1')),
    /^a\.png\. This is neither a game, .*, so it was not opened\.$/],
  [put('notes.txt', 'Buy milk.\n'), /^notes\.txt\. This is neither a game, /],
  [put('judge.log', 'reset 0.1\npicture 0.2 0.1 0 6C71\n'), /^judge\.log\. This is what make /],
  [put('broken.zip', Buffer.from('PK\x03\x04and no more')), /^broken\.zip\. This is neither /],
  [rom, /^rom is a vector ROM, the shapes of a game\. Its program isn't among them: drop both at /],
  [[...sockets, rom], /^game\.ef2 has 2,047 bytes: a socket has 2,048\.$/]];
}

// It is told beside what opens a game, in view, and the game that is there goes on.
async function testWrongDrops() {
  const pictures = async () => Number(/[0-9]+/.exec(await tab.text('run-moments')));
  for (const [width, height] of [[400, 800], [1280, 900]]) {
    await tab.size(width, height, width === 400);
    await tab.open(rocks);
    for (const [files, text] of wrongFiles()) {
      await tab.drop('tube', files);
      await expectSoon(`${width}: it is told`, text, () => tab.text('game-said'));
      expect(`${width}: ${text} is bad`, 'bad',
        await tab.value('document.getElementById("game-said").className'));
      expect(`${width}: ${text}: the game stays`, true,
        await tab.value('document.body.classList.contains("plays")'));
      const before = await pictures();
      await expectSoon(`${width}: and goes on`, true, async () => await pictures() > before);
      await tab.value('scrollTo(0, 0)');
      if (width > 400) expect('it is in view', '', await outOfView(['#game-said']));
    }
    expect('it is Rocks', 'true',
      await tab.value('document.querySelector("#games button").getAttribute("aria-pressed")'));
    if (width > 400) writeFileSync(`${work}/page_game_wrong.png`, await tab.screenshot());
    await tab.drop('tube', filesOfGame(1));
    await expectSoon('a game is told', 'game.program, rom.', () => tab.text('game-said'));
    expect('and isn\'t bad', '',
      await tab.value('document.getElementById("game-said").className'));
  }
  await openPage();
  await tab.drop('rows', wrongFiles().at(-1)[0]);
  await expectSoon('on the board the panel tells it', /^game\.ef2 has 2,047 bytes: /,
    () => tab.text('file-text'));
  await tab.size(1600, 1000);
}

// On each size the picture and the verdicts are in view; on a phone the picture and its buttons.
async function testGameWidths() {
  for (const [width, height, ...more] of [[400, 800], [800, 900], [1280, 900, '#in-run', '#every',
    '#game-wire'], [1920, 1000, '#in-run', '#in-every-run', '#what-if']]) {
    await tab.size(width, height, width < 640);
    await tab.open(rocks);
    await expectSoon(`${width} by ${height}: in view`, '',
      () => outOfView(['#tube', '.cabinet .pads', ...more]));
    expect(`${width}: it doesn't scroll sideways`, true,
      await tab.value('document.documentElement.scrollWidth <= innerWidth'));
    writeFileSync(`${work}/page_game_${width}.png`, await tab.screenshot());
  }
  await tab.size(1600, 1000, false);
}

// --- Memory ---

const minutes = Number(process.env.MINUTES || 3);

// How much memory the page has in use, once what is no longer used is gone.
async function memoryNow() {
  await tab.send('HeapProfiler.collectGarbage');
  const { usedSize, backingStorageSize = 0 } = await tab.send('Runtime.getHeapUsage');
  return usedSize + backingStorageSize + await tab.value('wasmBytes()');
}

// Does something in a tab of its own, in which time passes as this script says.
async function inTabOf(source, act) {
  const first = tab;
  tab = await openTab();
  await tab.size(1280, 900);
  await tab.send('HeapProfiler.enable');
  await tab.send('Page.addScriptToEvaluateOnNewDocument', { source });
  try {
    await act();
    expect('no fault in the page', '', tab.faults.join());
  } finally {
    asked.push(...tab.requests);
    await tab.close();
    tab = first;
  }
  await tab.send('Page.bringToFront');
}

// What is in use in the second half of the time is no more than in the first one, whose first time
// isn't counted.
function expectFlat(what, [, ...sizes], began) {
  const before = Math.max(...sizes.slice(0, sizes.length / 2)), most = Math.max(...sizes);
  const seconds = Math.round((Date.now() - began) / 1000);
  console.log(`browser: ${what} in ${seconds} s: the page has ${megabytes(Math.min(...sizes))} to `
    + `${megabytes(most)} in use`);
  expect(`${what}: memory doesn't grow: ${sizes}`, true, sizes.at(-1) < before + 2e5
    && most < before + 6e5);
}

// Over minutes of a game, which go by as fast as they can, the page's memory stays what it was
// in the first half of them.
async function testMinutes() {
  await inTabOf(FAST_TIME, async () => {
    await tab.open(rocks);
    const began = Date.now(), sizes = [];
    for (let k = 0; k < 10; k++) {
      for (let part = 0; part < minutes; part++) {
        await tab.value(`passFrames(${FRAMES_OF_MINUTE / 10})`);
      }
      sizes.push(await memoryNow());
    }
    expectFlat(`${minutes} minutes of a game`, sizes, began);
    const seconds = Number(/, ([0-9.]+) s since the game began: /
      .exec(await tab.text('run-counts'))[1]);
    const pictures = Number(/^Whole: each of ([0-9]+) /.exec(await tab.text('run-moments'))[1]);
    expect('it ran all the time', true, seconds > 60 * minutes - 1);
    expect('and drew', true, pictures > 60 * seconds && pictures < 62 * seconds);
  });
}

// Lets frames pass until the board begins anew; whether it did.
const PASS_A_BOARD = `(() => {
  const seed = document.getElementById('seed'), before = seed.value;
  for (let k = 0; k < 100 && seed.value === before; k++) passFrames(1);
  return seed.value !== before;
})()`;

// So it does where a board goes on and on, each time that it begins anew.
async function testBoards() {
  await inTabOf(FAST_TIME, async () => {
    await openPage();
    await tab.value('document.getElementById("speed").value = 9');
    for (const id of ['endless', 'run']) await tab.click(id);
    const began = Date.now(), sizes = [];
    while (sizes.length < 10) {
      expect('it begins anew', true, await tab.value(PASS_A_BOARD));
      sizes.push(await memoryNow());
    }
    expectFlat('10 boards of 65,536 events', sizes, began);
  });
}

// --- How long a frame of the animation takes ---

// From then on window.frameCount is how many there were.
const COUNT_FRAMES = `{
  window.frameCount = 0;
  const count = () => { window.frameCount++; requestAnimationFrame(count); };
  count();
}`;

async function testSpeed() {
  const vectors = Array.from({ length: 254 },
    (_, k) =>
    `vctr 7 ${[600, -560, -590, 570][k % 4]} ${[370, 560, -380, -540][k % 4]} ${1 + k % 15}`);
  const draft = ['labs 400 400 0', ...vectors, 'halt'].join('\n');
  await tab.size(1600, 1000);
  await openPage();
  await set('textA', draft);
  await set('textB', draft);
  expect('254 strokes', 'ok 511 words 512 fetches', await tab.text('saidA'));
  await runSeed(3);
  await tab.click('zoom-all');
  await set('count', 2000);
  await tab.value('document.getElementById("speed").value = 4');
  await tab.value('document.getElementById("run").scrollIntoView({ block: "center" })');
  await tab.value('scrollTo(0, 0)');
  await tab.value(COUNT_FRAMES);
  const task = await workOf(async () => {
    await tab.value('window.frameCount = 0; document.getElementById("run").click()');
    expect('it runs to the end', true,
      await tab.until('document.getElementById("run").textContent === "Run"'));
  }) / await tab.value('window.frameCount');
  const [median, most] = (await tab.text('frame-time')).match(/[0-9.]+/g).map(Number);
  console.log(`browser: a frame with 254 strokes and ${events} events takes ${median} ms at the`
    + ` median, ${most} ms or less in 19 of 20; the page's thread works ${task.toFixed(1)} ms for`
    + ' each on average, with layout and paint');
  expect('a frame works less than ten times 8 ms', true, task <= 80);
}

// What a game has taken by now: of a processor, in milliseconds, the page's thread and its script;
// the frames of its animation, and the pictures of its board.
async function takenByGame() {
  const { metrics } = await tab.send('Performance.getMetrics');
  const [task, script] = ['TaskDuration', 'ScriptDuration'].map((wanted) => (
    1000 * metrics.find(({ name }) => name === wanted).value));
  const pictures = Number(/each of ([0-9]+) /.exec(await tab.text('run-moments'))?.[1]);
  return { task, script, pictures, frames: await tab.value('window.frameCount'), at: Date.now() };
}

// Plays a game for so many frames of its animation, each a 60th of a second: how long the page's
// thread works for one, and how long of that its script.
async function workOfFrames(count) {
  const before = await takenByGame();
  for (let k = 0; await tab.value('window.frameCount') < before.frames + count; k++) {
    const key = [['ArrowLeft', 37], [' ', 32], ['ArrowUp', 38], ['ArrowRight', 39]][k % 4];
    for (const isDown of [true, false]) {
      await tab.hold(...key, isDown);
      await tab.until('new Promise((done) => setTimeout(() => done(true), 60))');
    }
  }
  const after = await takenByGame();
  const frames = after.frames - before.frames, [task, script, pictures] = ['task', 'script',
    'pictures'].map((name) => (after[name] - before[name]) / frames);
  return { task, script, pictures, shown: 1000 * frames / (after.at - before.at) };
}

// On a processor that is four times as slow, ten seconds of a game that somebody plays: on average
// the script works less for each picture than that takes. In the quickest second, where nothing
// else is at work, so does all of the page's thread, with painting, of which there must be 60 in a
// second: a busy machine gives it less of a processor than it counts.
async function testSlowed() {
  await inTabOf(FRAME_TIME, async () => {
    await tab.open(rocks);
    await tab.send('Emulation.setCPUThrottlingRate', { rate: 4 });
    await tab.until('/each of [0-9]{3}/.test(document.getElementById("run-moments").textContent)');
    const seconds = [], isBusy = () => loadavg()[0] > cpus().length;
    while (seconds.length < 10) seconds.push(await workOfFrames(60));
    const sum = (name) => seconds.reduce((so, second) => so + second[name], 0);
    const average = sum('script') / sum('pictures');
    const [{ task, script, shown }, { task: middle }] = [0, 5].map((k) => (
      [...seconds].sort((a, b) => a.task - b.task)[k]));
    console.log(`browser: on a processor four times as slow the page's thread works `
      + `${task.toFixed(1)} ms for a 60th of a second of a game, ${script.toFixed(1)} of them the `
      + `script, ${middle.toFixed(1)} at the median; ${shown.toFixed(0)} are shown in a second; `
      + `the script works ${average.toFixed(1)} ms a picture on average`
      + `${isBusy() ? ', by a busy machine' : ''}`);
    expect('the game goes on', true, seconds.every(({ pictures }) => pictures > 0.5));
    expect('the script works less than a picture takes', true, average < 1000 / 61.5);
    expect('and with it the thread, on a machine that isn\'t busy', true,
      isBusy() || task < 1000 / 60);
  });
}

const tests = {
  testBeginning, testOpening, testTyping, testExamples, testSketches, testStepping, testAbandoned,
    testOneByOne, testSeeds, testCutWire, testRunning, testLessons, testLessonKeys,
    testOneHalf, testLink, testFiles, testChosen, testDrops, testUnjudged, testLongLog,
  testHttp, testInView, testGrey, testCode, testTour, testMend,
    testWidths, testSmall, testEmbed, testColors, testMotion, testKeys, testRows, testOnAndOn,
    testEdges,
  testTwice, testGame, testTube, testHands, testWayBack, testChoices, testWhatIf, testTries,
    testStrip, testSound, testGameDrops, testWrongDrops, testGameLink, testGamePage, testGameWidths,
  testLive, testPlain, testLessonFrames, testEditorsStill, testReadAloud, testAccess, testStops,
  testMinutes, testBoards, testSpeed, testSlowed,
};
for (const [name, test] of Object.entries(tests)) {
  if (chosen.length > 0 && !chosen.includes(name)) continue;
  await doTest(name, test);
  expect(`${name}: no fault in the page`, '', tab.faults.splice(0).join('; '));
}
console.log(`browser: what is grey was looked at ${states} times, and ${greys} buttons said why`);
expect('some were grey', true, chosen.length > 0 || greys > 100);
const ALLOWED =
  /^(file:.*(dvg|alone)\.html|about:|blob:|data:|http:\/\/127\.0\.0\.1:[0-9]+\/(dvg\.html|other)$)/;
expect('nothing but the page was asked for', '',
  [...asked, ...tab.requests].filter((url) => !ALLOWED.test(url.replace(/#.*/, ''))).join());
await browser.stop();
console.log(`${passed} passed, ${failed} failed`);
process.exit(failed === 0 ? 0 : 1);
