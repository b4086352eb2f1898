/* The picture as sound, for an oscilloscope in XY mode, and what comes of that sound. Tested, not
 * proved, and never tried on a device.
 *
 * A picture is a buffer that is played again and again, until the next one begins at the end of a
 * turn. So a page that comes late, or is out of view, leaves no gap, in which the beam would rest.
 * AudioWorklet would need a second script, which the page's content security policy refuses. */
import { VOLUME, finePlaces, passedSide, soundOfStrokes } from './beam.mjs';
import { byId, setText } from './parts.mjs';

/* How often a picture is drawn in a second; so many samples in a second make its lines straight. */
const PICTURES = 60, RATE_WANTED = 96000;
/* How long before it begins a picture is handed on, in seconds, beside what the output holds; and
 * at most, where the page is busy. */
const FIRST_LEAD = 0.05, MOST_LEAD = 0.4;
/* The slider's steps: off, and from the first Hertz on so many in an octave. */
const FIRST_HERTZ = 0.25, STEPS_OF_OCTAVE = 4;
/* The preview: its side in pixels, how many places of the beam it shows about, with how many frames
 * of the animation it is drawn once, how much it shows around the screen, and its colour. */
const VIEW_SIDE = 240, VIEW_PLACES = 4800, VIEW_EVERY = 4, VIEW_AROUND = 1.04;
const GLOW_COLOR = [0x66, 0xFF, 0x99];
/* How bright a pixel is by how many places are there, and with how many it is nearly as bright as
 * it can be. */
const VIEW_LEVELS = 255, FULL_LIGHT = 2;

/* The frequency of a step of the slider, in Hertz. */
export function hertzOfStep(step) {
  return step === 0 ? 0 : FIRST_HERTZ * 2 ** ((step - 1) / STEPS_OF_OCTAVE);
}

const GLOWS = Uint32Array.from({ length: VIEW_LEVELS + 1 }, (_, light) => {
  const level = 1 - Math.exp(-light / FULL_LIGHT);
  const [red, green, blue] = GLOW_COLOR.map((part) => Math.round(part * level));
  return (0xFF000000 | blue << 16 | green << 8 | red) >>> 0;
});

/* What the beam lights, as an oscilloscope shows it if a half of its screen is `half`. */
export function drawBeam(context, sides, half) {
  const image = new ImageData(VIEW_SIDE, VIEW_SIDE), light = new Uint8Array(VIEW_SIDE * VIEW_SIDE);
  const places = Math.max(1, Math.round(VIEW_PLACES / sides[0].length));
  const [xs, ys] = sides.map((side) => finePlaces(side, places));
  const scale = VIEW_SIDE / (2 * half * VIEW_AROUND), middle = VIEW_SIDE / 2;
  for (let k = 0; k < xs.length; k++) {
    const x = Math.floor(middle + xs[k] * scale), y = Math.floor(middle - ys[k] * scale);
    if (x < 0 || y < 0 || x >= VIEW_SIDE || y >= VIEW_SIDE) continue;
    const at = y * VIEW_SIDE + x;
    if (light[at] < VIEW_LEVELS) light[at]++;
  }
  new Uint32Array(image.data.buffer).set(Uint32Array.from(light, (count) => GLOWS[count]));
  context.putImageData(image, 0, 0);
}

/* Whether two pictures have the same strokes: a picture that stays is the same list. */
function areSame(strokes, others) {
  return others !== null && strokes.length === others.length
    && strokes.every((stroke, k) => stroke === others[k]);
}

/* The largest of the values, and of 1. */
function largest(sides) {
  let most = 1;
  for (const side of sides) for (const value of side) most = Math.max(most, Math.abs(value));
  return most;
}

export class Scope {
  /* `look` returns the strokes on the tube that is in view, or null if no tube is. */
  constructor(look) {
    Object.assign(this, { look, isOn: false, isPlaying: false, context: null, last: null });
    Object.assign(this, { strokes: null, highPass: 0, size: 1, sides: null, viewed: null });
    Object.assign(this, { frames: 0, isTurning: false, lead: FIRST_LEAD });
    this.frame = this.frame.bind(this);
  }

  /* In a browser that makes no sound it says so. */
  setOn(isOn) {
    if (globalThis.AudioContext === undefined) {
      setText(byId('scope-said'), 'This browser makes no sound.');
      return;
    }
    this.isOn = isOn;
    byId('scope').setAttribute('aria-pressed', String(isOn));
    if (isOn) this.context ??= new AudioContext({ latencyHint: 'balanced' });
    if (!this.isTurning) this.frame();
  }

  /* A frame of the animation: plays what is on the tube by now. */
  frame() {
    const strokes = this.isOn ? this.look() : null;
    this.follow(strokes !== null);
    if (strokes !== null) this.show(strokes);
    this.isTurning = this.isOn;
    if (this.isOn) requestAnimationFrame(this.frame);
  }

  /* Plays, or is silent: then the beam rests. */
  follow(isPlaying) {
    if (isPlaying === this.isPlaying) return;
    this.isPlaying = isPlaying;
    this.context[isPlaying ? 'resume' : 'suspend']();
  }

  show(strokes) {
    const highPass = hertzOfStep(Number(byId('scope-pass').value));
    if (!areSame(strokes, this.strokes) || highPass !== this.highPass) this.make(strokes, highPass);
    if (this.frames++ % VIEW_EVERY === 0 && this.sides !== this.viewed) this.preview();
  }

  /* Makes the samples of strokes, and plays them. The screen becomes smaller where the output could
   * not play them, and larger only after the slider moved. */
  make(strokes, highPass) {
    const rate = this.context.sampleRate;
    const sides = soundOfStrokes(strokes, Math.round(rate / PICTURES), rate, highPass);
    const most = 1 / largest(sides);
    this.size = highPass === this.highPass ? Math.min(this.size, most) : most;
    for (const side of sides) for (let k = 0; k < side.length; k++) side[k] *= this.size;
    Object.assign(this, { strokes, highPass, sides });
    this.play();
    const wish = rate < RATE_WANTED ? ' With an output at 96,000 lines are straighter.' : '';
    setText(byId('scope-said'), `${rate.toLocaleString('en')} samples in a second, `
      + `${Math.round(rate / sides[0].length)} pictures.${wish}`);
  }

  /* Lets the picture begin at the end of a turn of the one before, which ends there; or in the
   * place of one that hasn't begun. Where that comes too late the turn is cut, and from then on a
   * picture is handed on earlier. */
  play() {
    const { context, sides, last } = this, [{ length }] = sides, { sampleRate: rate } = context;
    const buffer = context.createBuffer(2, length, rate);
    sides.forEach((side, k) => buffer.copyToChannel(side, k));
    const source = Object.assign(context.createBufferSource(), { buffer, loop: true });
    source.connect(context.destination);
    const begin = this.nextBegin(rate);
    source.start(begin / rate);
    if (begin === last?.begin) last.source.disconnect();
    else last?.source.stop(begin / rate);
    const isLate = context.currentTime * rate >= begin;
    if (isLate) this.lead = Math.min(MOST_LEAD, 2 * this.lead);
    this.last = { source, begin: isLate ? null : begin, length };
  }

  /* The sample at which the next picture begins: the first end of a turn that isn't too soon. */
  nextBegin(rate) {
    const { context, last, lead } = this;
    const soon = Math.ceil((context.currentTime + (context.baseLatency ?? 0) + lead) * rate);
    if (last === null || last.begin === null) return soon;
    return last.begin + Math.max(0, Math.ceil((soon - last.begin) / last.length)) * last.length;
  }

  /* Shows the samples, behind an output with this high-pass. */
  preview() {
    const canvas = byId('scope-view'), { highPass, context: { sampleRate } } = this;
    Object.assign(canvas, { width: VIEW_SIDE, height: VIEW_SIDE });
    const passed = this.sides.map((side) => passedSide(side, sampleRate, highPass));
    drawBeam(canvas.getContext('2d', { alpha: false }), passed, VOLUME * this.size);
    this.viewed = this.sides;
  }
}

/* The button, and the slider's text. `changed` is called after the button was pressed. */
export function listenToScope(scope, changed) {
  byId('scope').addEventListener('click', () => {
    scope.setOn(!scope.isOn);
    changed();
  });
  byId('scope-pass').addEventListener('input', ({ target }) => {
    const hertz = hertzOfStep(Number(target.value));
    const text = hertz === 0 ? 'off' : `${hertz.toPrecision(2)} Hz`;
    setText(byId('scope-hertz'), text);
    target.setAttribute('aria-valuetext', text);
  });
}
