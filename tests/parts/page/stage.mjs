// A page's script under node, without a browser: its parts hold what they are given, nothing is
// painted but the images that are put are kept, and time passes as it is told.
import { createContext, runInContext } from 'node:vm';

// How long a frame of the animation takes, in milliseconds.
const FRAME = 1000 / 64;

// A part of a page, which is called what its id or its data-input is.
class Part {
  constructor(name) {
    Object.assign(this, { dataset: { input: name }, listeners: {}, attributes: {}, style: {} });
    Object.assign(this, { textContent: '', clientWidth: 400, clientHeight: 400, width: 0 });
    this.classList = { add() {}, remove() {}, toggle() {} };
  }

  // Parts around it and in it, of which nothing is asked.
  get parentElement() { return (this.around ??= new Part('')); }

  get firstElementChild() { return (this.first ??= new Part('')); }

  get lastElementChild() { return (this.last ??= new Part('')); }

  querySelectorAll() { return []; }

  addEventListener(type, act) { (this.listeners[type] ??= []).push(act); }

  setAttribute(name, value) { this.attributes[name] = value; }

  getAttribute(name) { return this.attributes[name] ?? null; }

  focus() {}

  getContext() {
    const putImageData = (image) => {
      this.image = image;
      this.painted = (this.painted ?? 0) + 1;
    };
    return new Proxy({ canvas: this, putImageData }, { get: (held, name) => held[name] ?? none });
  }

  // Lets something happen to it.
  happen(type, event = {}) {
    const told = { target: this, preventDefault() {}, ...event };
    for (const act of this.listeners[type] ?? []) act(told);
  }
}

function none() {}

// An image of a canvas.
export class Image {
  constructor(width, height) {
    Object.assign(this, { width, height, data: new Uint8ClampedArray(4 * width * height) });
  }
}

// The parts of a page that have an id, by that, and those that press a button of the game.
export function partsOf(html) {
  const named = (form) => [...html.matchAll(form)].map(([, name]) => [name, new Part(name)]);
  return { parts: Object.fromEntries(named(/ id="([^"]+)"/g)),
    inputs: Object.fromEntries(named(/data-input="(\w+)"/g)) };
}

// The script of a page.
export function scriptOf(html) {
  return /<script type="module">([^]*)<\/script>/.exec(html)[1];
}

// Runs a page; `more` are other names that its script finds. Returns its parts by their ids, and by
// names of what they press; `keys`, which takes keys; and `pass`, by which frames pass.
export async function runPage(html, more = {}) {
  const { parts, inputs } = partsOf(html);
  const keys = new Part(''), body = new Part('');
  const frames = [];
  let now = 0;
  const global = {
    document: Object.assign(keys, {
      body, getElementById: (id) => parts[id], querySelectorAll: () => Object.values(inputs),
    }),
    performance: { now: () => now }, requestAnimationFrame: (frame) => frames.push(frame),
    ImageData: Image,
    ResizeObserver: class { observe() {} },
    addEventListener: (...words) => body.addEventListener(...words),
    matchMedia: () => ({ matches: false }), devicePixelRatio: 1, navigator: {}, WebAssembly, atob,
    Blob, Response, DecompressionStream,
    ...more,
  };
  runInContext(scriptOf(html), createContext(global));
  while (body.dataset.ready === undefined) await new Promise((done) => { setImmediate(done); });
  const pass = (count) => {
    for (let k = 0; k < count; k++) {
      now += FRAME;
      for (const frame of frames.splice(0)) frame();
    }
  };
  return { parts, inputs, keys, body, pass, frame: FRAME };
}

// A number that changes over time: what was asked of it, each with a time.
class Param {
  constructor() { Object.assign(this, { value: 0, asked: [] }); }

  setValueAtTime(value, time) { this.asked.push({ value, time }); }

  setTargetAtTime(value, time) { this.asked.push({ value, time }); }

  exponentialRampToValueAtTime(value, time) { this.asked.push({ value, time }); }

  cancelScheduledValues(time) { this.asked = this.asked.filter((one) => one.time < time); }

  // What it comes to.
  get last() { return [...this.asked].sort((a, b) => a.time - b.time).at(-1)?.value ?? this.value; }
}

// What makes sounds in a browser: it is silent, and says what was asked of it. `made` are all.
export class Audio {
  static made = [];

  constructor() {
    Object.assign(this, { state: 'running', currentTime: 0, destination: {} });
    Audio.made.push(this);
  }

  node(...params) {
    return Object.assign({ connect() {}, start() {} },
      ...params.map((name) => ({ [name]: new Param() })));
  }

  createGain() { return this.node('gain'); }

  createOscillator() { return this.node('frequency'); }

  createBufferSource() { return this.node('playbackRate'); }

  createBiquadFilter() { return this.node('frequency'); }

  createBuffer(channels, length) { return { getChannelData: () => new Float32Array(length) }; }

  suspend() { this.state = 'suspended'; }

  resume() { this.state = 'running'; }
}
