// A Chromium without a screen, asked by its own protocol over a pipe: what tests/page needs of it.
import { spawn } from 'node:child_process';
import { mkdtempSync, readFileSync, rmSync, writeFileSync } from 'node:fs';
import { tmpdir } from 'node:os';
import { join } from 'node:path';

// Where it is kept what ran of the page's script, if anywhere: tests/coverage reads it.
const COVERAGE = process.env.NODE_V8_COVERAGE;

const PAGE = new URL('../../../page/dvg.html', import.meta.url).pathname;

// How long something is waited for, in milliseconds: long, as a machine may be busy.
const WAIT = 120000;

// Looks again and again until something holds; whether it came to that.
export async function comesTo(look, most = WAIT) {
  for (const end = Date.now() + most; Date.now() < end;) {
    if (await look()) return true;
    await new Promise((resolve) => { setTimeout(resolve, 25); });
  }
  return false;
}

// Starts the browser of this name.
export async function startChromium(name) {
  const profile = mkdtempSync(join(tmpdir(), 'page-chromium-'));
  const words = ['--headless=new', '--no-sandbox', '--disable-gpu', '--remote-debugging-pipe',
    '--no-first-run',
    '--disable-background-networking', '--disable-component-update', '--disable-dev-shm-usage',
    '--force-device-scale-factor=1', '--hide-scrollbars', `--user-data-dir=${profile}`,
      'about:blank'];
  const child = spawn(name, words, { stdio: ['ignore', 'ignore', 'ignore', 'pipe', 'pipe'] });
  const browser = new Chromium(child, profile);
  await browser.send('Browser.getVersion');
  return browser;
}

class Chromium {
  constructor(child, profile) {
    Object.assign(this, { child, profile, asked: new Map(), count: 0, heard: () => {},
      tabs: [] });
    let rest = '';
    child.stdio[4].setEncoding('utf8');
    child.stdio[4].on('data', (text) => {
      const parts = (rest + text).split('\0');
      rest = parts.pop();
      for (const part of parts) this.hear(JSON.parse(part));
    });
    child.on('exit', () => {
      for (const { reject } of this.asked.values()) reject(new Error('the browser ended'));
      this.asked.clear();
    });
  }

  hear(message) {
    const asked = this.asked.get(message.id);
    if (asked === undefined) return this.heard(message);
    this.asked.delete(message.id);
    if (message.error) asked.reject(new Error(`${asked.method}: ${message.error.message}`));
    else asked.resolve(message.result);
  }

  send(method, params = {}, sessionId = undefined) {
    const id = ++this.count;
    return new Promise((resolve, reject) => {
      const late = setTimeout(() => {
        this.asked.delete(id);
        reject(new Error(`${method}: no answer`));
      }, WAIT);
      const end = (act) => (value) => { clearTimeout(late); act(value); };
      this.asked.set(id, { method, resolve: end(resolve), reject: end(reject) });
      this.child.stdio[3].write(`${JSON.stringify({ id, method, params, sessionId })}\0`);
    });
  }

  // A new tab, with what it asks of the network, and each fault that it reports.
  async newTab() {
    const { targetId } = await this.send('Target.createTarget', { url: 'about:blank' });
    const { sessionId } = await this.send('Target.attachToTarget', { targetId, flatten: true });
    const tab = new Tab(this, sessionId, targetId);
    const before = this.heard;
    this.heard = (message) => (message.sessionId === sessionId ? tab.hear(message)
      : before(message));
    for (const domain of ['Page', 'Runtime', 'Network', 'Log']) await tab.send(`${domain}.enable`);
    // What a thread is measured by is the time that it gets of a processor.
    await tab.send('Performance.enable', { timeDomain: 'threadTicks' });
    this.tabs.push(tab);
    if (COVERAGE) {
      await tab.send('Profiler.enable');
      await tab.send('Profiler.startPreciseCoverage', { callCount: true, detailed: true });
    }
    return tab;
  }

  async stop() {
    for (const tab of this.tabs) await tab.keepCoverage();
    await this.end(() => this.send('Browser.close').catch(() => this.child.kill('SIGKILL')));
  }

  // Ends a browser that gives no answer.
  async kill() {
    await this.end(() => this.child.kill('SIGKILL'));
  }

  async end(act) {
    const ended = new Promise((resolve) => { this.child.on('exit', resolve); });
    await act();
    await ended;
    rmSync(this.profile, { recursive: true, force: true, maxRetries: 5 });
  }
}

const KEYS = {
  Tab: [9, ''], Enter: [13, '\r'], ' ': [32, ' '], ArrowLeft: [37, ''], ArrowUp: [38, ''],
    ArrowRight: [39, ''],
  ArrowDown: [40, ''], Home: [36, ''], End: [35, ''], '+': [187, '+'], '-': [189, '-'],
};

function faultOf({ exception, text }) {
  return inModules(exception?.description ?? text);
}

// A page's modules begin with a remark that names each; from there on its lines are those of its
// file, but for the first ones.
const MODULE = /^const \$\w+ = \(\(\) => \{ \/\/ (\w+\.mjs)$/;

// A text with the places of dvg.html as those of its modules.
export function inModules(text, html = readFileSync(PAGE, 'utf8')) {
  const lines = html.split('\n');
  return text.replace(/\S*dvg\.html[^:\s]*:([0-9]+)/g, (whole, line) => {
    const begin = lines.findLastIndex((one, k) => k < line && MODULE.test(one));
    return begin < 0 ? whole : `${MODULE.exec(lines[begin])[1]}:${line - begin - 1}`;
  });
}

class Tab {
  constructor(browser, sessionId, targetId) {
    Object.assign(this, { browser, sessionId, targetId, requests: [], faults: [] });
  }

  // Writes which parts of the scripts ran since this was asked last.
  async keepCoverage() {
    if (!COVERAGE) return;
    const told = await this.send('Profiler.takePreciseCoverage');
    writeFileSync(`${COVERAGE}/browser-${process.pid}-${this.browser.count}.json`,
      JSON.stringify(told));
  }

  async close() {
    await this.keepCoverage();
    this.browser.tabs = this.browser.tabs.filter((one) => one !== this);
    await this.browser.send('Target.closeTarget', { targetId: this.targetId });
  }

  send(method, params = {}) {
    return this.browser.send(method, params, this.sessionId);
  }

  hear({ method, params }) {
    if (method === 'Network.requestWillBeSent') this.requests.push(params.request.url);
    if (method === 'Runtime.exceptionThrown') {
      this.faults.push(faultOf(params.exceptionDetails));
    }
    if (method === 'Log.entryAdded'
      && params.entry.level === 'error') this.faults.push(params.entry.text);
  }

  // What an expression is in the page.
  async value(expression) {
    const { result, exceptionDetails } = await this.send('Runtime.evaluate', {
      expression, returnByValue: true, awaitPromise: true,
    });
    if (exceptionDetails) throw new Error(faultOf(exceptionDetails));
    return result.value;
  }

  // Waits until an expression holds in the page; whether it came to that.
  until(expression) {
    return comesTo(() => this.value(expression));
  }

  async size(width, height = 900, mobile = false) {
    await this.send('Emulation.setDeviceMetricsOverride',
      { width, height, deviceScaleFactor: 1, mobile });
  }

  async media(features) {
    await this.send('Emulation.setEmulatedMedia', {
      features: Object.entries(features)
        .map(([name, value]) => ({ name: `prefers-${name}`, value })),
    });
  }

  async open(url) {
    await this.keepCoverage();
    await this.send('Page.navigate', { url: 'about:blank' });
    await this.send('Page.navigate', { url });
    const ready = await this.until('document.body?.dataset.ready === "yes"');
    if (!ready) throw new Error(`${url} is not ready: ${this.faults.splice(0).join('; ')}`);
  }

  text(id) {
    return this.value(`document.getElementById('${id}').textContent`);
  }

  // Where the middle of an element is, once it is in sight.
  middle(id) {
    return this.value(`(() => {
      const element = document.getElementById('${id}') ?? document.querySelector('${id}');
      element.scrollIntoView({ block: 'center', behavior: 'instant' });
      const { x, y, width, height } = element.getBoundingClientRect();
      return { x: x + width / 2, y: y + height / 2, left: x, top: y, width, height };
    })()`);
  }

  async mouse(type, x, y, more = {}) {
    await this.send('Input.dispatchMouseEvent', { type, x, y, ...more });
  }

  async clickAt(x, y) {
    await this.mouse('mouseMoved', x, y);
    await this.mouse('mousePressed', x, y, { button: 'left', clickCount: 1 });
    await this.mouse('mouseReleased', x, y, { button: 'left', clickCount: 1 });
  }

  async click(id) {
    const { x, y } = await this.middle(id);
    await this.clickAt(x, y);
  }

  async key(key, modifiers = 0) {
    const [code, text] = KEYS[key];
    const event = { key, code: key === ' ' ? 'Space' : key, windowsVirtualKeyCode: code,
      modifiers };
    await this.send('Input.dispatchKeyEvent',
      { type: text === '' ? 'rawKeyDown' : 'keyDown', text, ...event });
    await this.send('Input.dispatchKeyEvent', { type: 'keyUp', ...event });
  }

  // Puts a text in place of what stands in a field, by the keyboard. A long one comes at once, as
  // one that is pasted: the keyboard would bring it line by line.
  async type(id, text) {
    await this.click(id);
    const isLong = text.split('\n').length > 20;
    await this.value(`(() => {
      const field = document.getElementById('${id}');
      field.select();
      if (!${isLong}) return;
      field.value = ${JSON.stringify(text)};
      field.dispatchEvent(new InputEvent('input', { bubbles: true }));
    })()`);
    if (!isLong) await this.send('Input.insertText', { text });
  }

  // Chooses a value of a list.
  async choose(id, value) {
    await this.value(`(() => {
      const list = document.getElementById('${id}');
      list.value = '${value}';
      list.dispatchEvent(new Event('input', { bubbles: true }));
      list.dispatchEvent(new Event('change', { bubbles: true }));
    })()`);
  }

  // Holds a key down, or lets it go.
  async hold(key, code, isDown) {
    await this.send('Input.dispatchKeyEvent', { type: isDown ? 'rawKeyDown' : 'keyUp', key,
      windowsVirtualKeyCode: code });
  }

  // Drops a file, or several, in the middle of an element.
  async drop(id, files) {
    const { x, y } = await this.middle(id);
    const data = { items: [], files: [files].flat(), dragOperationsMask: 1 };
    for (const type of ['dragEnter', 'dragOver', 'drop']) await this.send('Input.dispatchDragEvent',
      { type, x, y, data });
  }

  async screenshot(whole = false) {
    const { data } = await this.send('Page.captureScreenshot',
      { format: 'png', captureBeyondViewport: whole });
    return Buffer.from(data, 'base64');
  }
}
