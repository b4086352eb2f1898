// The page in a Firefox without a screen, asked by its own protocol: that it opens, that a game is
// played by keys and touch, that its tour comes to a tear, that its log is that of `play`, and that
// a lesson opens. Called by tests/page:
//
//     node tests/parts/page/firefox.mjs FIREFOX FOLDER
//
// FOLDER is for what is thrown away. The last line is 'N passed, M failed'.
import { spawn } from 'node:child_process';
import { mkdtempSync, writeFileSync } from 'node:fs';
import { connect, createServer } from 'node:net';
import { TAP, litOn } from '../scope/tap.mjs';
import { DROP_LONG_LOG, MOVE_OVER_IT, movesText } from './long.mjs';

const [firefox, work] = process.argv.slice(2);
const front = `file://${new URL('../../../page/dvg.html', import.meta.url).pathname}`;
const address = `${front}#opening`;
// How long something is waited for, in milliseconds: long, as a machine may be busy.
const WAIT = 240000, COLON = 58;
let passed = 0, failed = 0;

function expect(what, wanted, found) {
  if (wanted instanceof RegExp ? wanted.test(found) : wanted === found) passed++;
  else {
    failed++;
    console.log(`FAILED: ${what}\n  wanted ${wanted}\n  found  ${String(found).slice(0, 200)}`);
  }
}

function sleep(milliseconds) {
  return new Promise((resolve) => { setTimeout(resolve, milliseconds); });
}

// A port that nobody uses.
function freePort() {
  return new Promise((resolve) => {
    const server = createServer().listen(0, '127.0.0.1', () => {
      const { port } = server.address();
      server.close(() => resolve(port));
    });
  });
}

function start(port) {
  const profile = mkdtempSync(`${work}/firefox-`);
  writeFileSync(`${profile}/user.js`, `user_pref("marionette.port", ${port});\n`);
  return spawn(firefox, ['--headless', '--no-remote', '--marionette', '--profile', profile,
    'about:blank'], { stdio: 'ignore' });
}

// The browser's socket, once it listens.
async function socketOf(port) {
  for (const end = Date.now() + WAIT; Date.now() < end; await sleep(100)) {
    const socket = await new Promise((resolve) => {
      const one = connect(port, '127.0.0.1', () => resolve(one));
      one.on('error', () => resolve(null));
    });
    if (socket !== null) return socket;
  }
  throw new Error('the browser does not listen');
}

class Firefox {
  constructor(socket) {
    Object.assign(this, { socket, asked: new Map(), count: 0, rest: Buffer.alloc(0) });
    socket.on('data', (bytes) => {
      this.rest = Buffer.concat([this.rest, bytes]);
      while (this.hear());
    });
  }

  // Takes one answer, each of which has its length before it; whether there was a whole one.
  hear() {
    const begin = this.rest.indexOf(COLON) + 1;
    const end = begin + Number(this.rest.subarray(0, begin - 1));
    if (begin === 0 || this.rest.length < end) return false;
    const message = JSON.parse(this.rest.subarray(begin, end));
    this.rest = this.rest.subarray(end);
    if (Array.isArray(message)) {
      const [, number, fault, result] = message, { resolve, reject } = this.asked.get(number);
      if (fault) reject(new Error(fault.message));
      else resolve(result);
    }
    return true;
  }

  send(name, parameters = {}) {
    const text = JSON.stringify([0, ++this.count, `WebDriver:${name}`, parameters]);
    this.socket.write(`${Buffer.byteLength(text)}:${text}`);
    return new Promise((resolve, reject) => { this.asked.set(this.count, { resolve, reject }); });
  }

  async value(script) {
    const answer = await this.send('ExecuteScript', { script: `return ${script}`, args: [] });
    return answer.value;
  }

  // The same of an expression whose value comes later.
  async later(script) {
    const answer = await this.send('ExecuteAsyncScript',
      { script: `${script}.then(arguments[arguments.length - 1])`, args: [] });
    return answer.value;
  }

  text(id) {
    return this.value(`document.getElementById('${id}').textContent`);
  }

  async until(script) {
    for (const end = Date.now() + WAIT; Date.now() < end; await sleep(100)) {
      if (await this.value(script)) return true;
    }
    return false;
  }
}

// What the tube shows of a line of the test ROM's text, which begins that far up.
const lineOfTube = (y) => `(() => {
  const tube = document.getElementById('tube'), scale = tube.width / 1044;
  const context = tube.getContext('2d');
  const [left, top, wide, high] = [50, 1044 - ${y} - 36, 210, 26].map((one) => (
    Math.round(one * scale)));
  return context.getImageData(left, top, wide, high).data.join();
})()`;

// The test ROM shows that the left arrow key is down, and that a finger is on the button of fire;
// with its wire cut it goes dark.
async function testGame(browser) {
  await browser.send('Navigate', { url: `${front}#game=The+test+ROM` });
  const left = lineOfTube(822), fire = lineOfTube(738);
  expect('its pictures are whole', true, await browser.until(
    '/^Whole: each of [0-9]{2,} /.test(document.getElementById("run-moments").textContent)'));
  expect('it is accepted', /^Accepted: /, await browser.text('every'));
  const lines = { [left]: await browser.value(left), [fire]: await browser.value(fire) };
  const comesTo = (line, isOther) => browser.until(
    `(${line} === ${JSON.stringify(lines[line])}) === ${!isOther}`);
  expect('both lines stand there', 2, new Set(Object.values(lines)).size);
  const act = (actions) => browser.send('PerformActions', { actions });
  const key = (type) => act([{ type: 'key', id: 'keys', actions: [{ type, value: '\uE012' }] }]);
  await browser.value('document.getElementById("tube").focus()');
  await key('keyDown');
  expect('a key comes to the game', true, await comesTo(left, true));
  expect('and no other one', true, await comesTo(fire, false));
  await key('keyUp');
  expect('and is let go', true, await comesTo(left, false));
  const { x, y } = await browser.value(`(() => {
    const { x, y, width, height } = document.querySelector('[data-input=fire]')
      .getBoundingClientRect();
    return { x: Math.round(x + width / 2), y: Math.round(y + height / 2) };
  })()`);
  const finger = (...actions) => act([{ type: 'pointer', id: 'finger',
    parameters: { pointerType: 'touch' }, actions }]);
  await finger({ type: 'pointerMove', x, y }, { type: 'pointerDown', button: 0 });
  expect('so does a finger', true, await comesTo(fire, true));
  await finger({ type: 'pointerUp', button: 0 });
  expect('until it is lifted', true, await comesTo(fire, false));
  await browser.value('document.getElementById("game-wire").click()');
  await browser.value('document.querySelector("[data-guess=\'\']").click()');
  expect('with its wire cut it goes dark', true, await browser.until(
    '/^It goes dark: /.test(document.getElementById("what-text").textContent)'));
}

// Scope hands on what is on the tube; without a sound output nothing is heard here.
async function testScope(browser) {
  await browser.send('Navigate', { url: `${front}#game=Rocks` });
  await browser.until('document.body.dataset.ready === "yes"');
  await browser.value(TAP);
  await browser.value('document.getElementById("scope").click()');
  expect('it is the picture on the tube', true, await browser.until(`${litOn('tube')} > 90`));
}

// The link of a lesson leads the keys to the rows, and opens the lesson anew while it is open.
async function testLesson(browser) {
  for (const what of ['opens', 'opens anew']) {
    await browser.value('document.querySelector("#lessons a").click()');
    expect(`a lesson ${what}`, true, await browser.until(
      '/^Event 45 of 46/.test(document.getElementById("moment-text").textContent)'));
    expect(`a lesson ${what}: the keys`, 'rows', await browser.value('document.activeElement.id'));
    await browser.value('document.getElementById("back").click()');
    expect(`a lesson ${what}: one event back`, /^Event 44 of 46/,
      await browser.text('moment-text'));
  }
}

async function testPage(browser) {
  await browser.send('NewSession', { capabilities: { alwaysMatch: {} } });
  await browser.send('SetTimeouts', { script: WAIT, pageLoad: WAIT });
  await browser.send('SetWindowRect', { width: 1280, height: 985 });
  const opened = [];
  for (let k = 0; k < 5; k++) {
    await browser.send('Navigate', { url: 'about:blank' });
    await browser.send('Navigate', { url: address });
    expect('the page is ready', true, await browser.until('document.body.dataset.ready === "yes"'));
    opened.push(Number(await browser.value('document.body.dataset.opened')));
  }
  await testGame(browser);
  await testScope(browser);
  await browser.send('Navigate', { url: address });
  opened.sort((a, b) => a - b);
  const [least, , median, , most] = opened;
  console.log(`firefox: the page opens in ${least} to ${most} ms, ${median} at the median`);
  expect('the tour comes to a tear', true,
    await browser.until('/^3 of 3/.test(document.getElementById("tour-title").textContent)'));
  expect('the tear is told', /^Event [0-9]+ wrote a byte while .* It wrote .. over .. into byte /,
    await browser.text('tear-text'));
  expect('the verdicts', 'Torn Early', await browser.value(`['moments', 'halves'].map((id) => (
    document.getElementById(id).children[0].textContent)).join(' ')`));
  const { value } = await browser.send('TakeScreenshot', { full: false });
  writeFileSync(`${work}/page_firefox.png`, Buffer.from(value, 'base64'));
  for (const id of ['tour-again', 'tour-end', 'once', 'compare']) {
    await browser.value(`document.getElementById('${id}').click()`);
  }
  expect('the log is that of play', /^the same: 22600 events/, await browser.text('compared'));
  await testLesson(browser);
  await browser.value(DROP_LONG_LOG);
  expect('a long log opens', true,
    await browser.until('/ long.log/.test(document.getElementById("file-title").textContent)'));
  expect('it is judged', /^not torn: /, await browser.text('judged'));
  const moves = await browser.later(MOVE_OVER_IT);
  console.log(`firefox: ${movesText(moves)}`);
  expect('a wheel moves the rows', true, moves.moved > 1000);
  expect('and they are drawn anew', true, moves.drawn);
  // What it works for is measured in Chromium, whose clock of a thread isn't here.
  for (const name of ['drag', 'wheel', 'key']) {
    expect(`a frame by ${name} comes within two seconds`, true, moves[name][59] <= 2000);
  }
}

const port = await freePort(), child = start(port);
await socketOf(port).then((socket) => testPage(new Firefox(socket))).catch((fault) => {
  failed++;
  console.log(`FAILED: ${fault.stack}`);
});
child.kill();
console.log(`${passed} passed, ${failed} failed`);
process.exit(failed === 0 ? 0 : 1);
