/* The board: a driver alone and a generator alone, with a RAM between them that is the page's. So
 * the HALT wire can be cut, which nothing in `dvg` can do. Each event has an entry, and the entries
 * are what `play --all` writes, as long as the wire is whole. */
import { COMMAND, KIND } from './engine.mjs';
import { hex } from './hex.mjs';
import { Runs, resultOf, signOfPicture } from './runs.mjs';
import { AREA, ROW, SIGN, areaOf } from './signs.mjs';

/* The most events, as `play` takes them. */
export const MOST_EVENTS = 65536;

export const RAM_BYTES = 2048;
/* After so many events a copy of the RAM is kept. */
export const KEPT_EVERY = 1024;

/* What byte 001 is where half 1 is published. */
const HALF1_PUBLISHED = 0xE2;

export class Board {
  /* With one half alone each frame comes into half 0, also while that is being drawn. */
  constructor(engine, rom, wireCut = false, oneHalf = false) {
    this.oneHalf = oneHalf;
    this.engine = engine;
    this.rom = rom;
    this.map = engine.mapOf(rom.bytes.length);
    this.driver = engine.device();
    this.driver.openDriver(rom.bytes);
    this.generator = engine.device();
    this.generator.openGenerator();
    this.ram = new Uint8Array(RAM_BYTES);
    this.kept = [this.ram.slice()];
    this.entries = [];
    this.rows = new Uint8Array(MOST_EVENTS);
    this.areas = new Uint8Array(MOST_EVENTS);
    this.signs = new Uint8Array(MOST_EVENTS);
    this.tornLog = new LogForTorn();
    this.sent = false;
    this.runs = new Runs(engine, this.signs);
    this.wires = [];
    this.wireCut = false;
    if (wireCut) this.setWire(true);
    this.picture = -1;
    this.pictures = [];
    this.abandoned = 0;
    this.left = [];
    this.drafts = new Map();
  }

  free() {
    this.driver.free();
    this.generator.free();
    this.runs.free();
  }

  get length() { return this.entries.length; }
  get open() { return this.runs.open; }
  get early() { return this.runs.early; }
  get full() { return this.length >= MOST_EVENTS; }
  entryAt(at) { return this.entries[at]; }

  /* What `dvg torn` reads of it, and which event a line of that is. */
  get tornBytes() { return this.tornLog.text; }
  eventOfLine(line) { return this.tornLog.eventOf[line - 1]; }

  /* From the next event on the driver is told that the generator is always halted, or the truth. */
  setWire(cut) {
    if (this.wireCut === cut) return;
    this.wireCut = cut;
    if (this.wires.at(-1)?.at === this.length) {
      this.runs.since = this.wires.pop().before;
      return;
    }
    this.wires.push({ at: this.length, cut, before: this.runs.since });
    this.runs.countFrom(this.length, cut);
  }

  /* One event: its name as a trace has it, the lines of an offered draft, the byte of a reset. */
  happen(event) {
    if (this.full) return null;
    const shown = this[event.name](event);
    return this.append(event, shown);
  }

  /* Keeps what came of an event: its entry, where it is drawn in the rows, and the lines `torn` of
   * the log that `dvg torn` reads. */
  append(event, { text, row = ROW.NONE, area = 0, sign = SIGN.NONE, torn = [], ...more }) {
    const at = this.length;
    const entry = { event, text, run: this.open?.at ?? -1, picture: this.picture, ...more };
    this.entries.push(entry);
    this.rows[at] = row;
    this.areas[at] = area;
    this.signs[at] = sign;
    for (const line of torn) this.tornLog.add(at, line);
    if (this.length % KEPT_EVERY === 0) this.kept.push(this.ram.slice());
    return entry;
  }

  offer({ draft }) {
    const answer = this.driver.offer(draft);
    if (answer.kind === KIND.BUSY) return { text: 'busy' };
    if (answer.kind === KIND.REFUSED) return { text: `refused ${this.faultOf(draft)}` };
    const key = draft.join('\n');
    if (!this.drafts.has(key)) this.drafts.set(key, this.length);
    return { text: 'offered', row: ROW.DRIVER, sign: SIGN.OFFERED };
  }

  /* The fault of a draft that is refused, as `dvg check` tells it. */
  faultOf(draft) {
    const text = `${this.rom.text}${draft.map((line) => `${line}\n`).join('')}`;
    return this.engine.run(COMMAND.check, text).output.trim().replace(/^fault /, '');
  }

  redraw() {
    const { kind } = this.driver.redraw();
    if (kind === KIND.ASKED) return { text: 'asked' };
    return { text: kind === KIND.BUSY ? 'busy' : 'nothing published' };
  }

  tick() {
    const halted = this.open === null;
    const byte1 = this.oneHalf ? HALF1_PUBLISHED : this.ram[1];
    const did = this.driver.tick(this.wireCut || halted, byte1);
    if (did.kind === KIND.WROTE) return this.write(did.address, did.value);
    if (did.kind === KIND.SENT) {
      this.sent = true;
      if (this.oneHalf) this.holdDriver();
      return { text: 'sent', row: ROW.DRIVER, sign: SIGN.SENT };
    }
    if (did.kind === KIND.READ) {
      const sign = did.value ? SIGN.READ_HALTED : SIGN.READ_RUNNING;
      return { text: did.value ? 'read halted' : 'read running', row: ROW.DRIVER, sign };
    }
    return { text: did.kind === KIND.PEEK ? 'peek' : 'idle' };
  }

  /* Holds the driver to half 0: before its next frame it is reset, and told that half 1 is
   * published, and that the generator is halted. So it takes that frame while the one before is
   * drawn, as with two halves. */
  holdDriver() {
    this.driver.resetProcessor();
    for (let k = 0; k < 2; k++) this.driver.tick(true, HALF1_PUBLISHED);
  }

  write(address, value) {
    const early = this.runs.write(this.length, address, value, this.ram[address] !== value);
    this.ram[address] = value;
    const flip = address === 1 ? SIGN.FLIP : SIGN.NONE;
    const text = `wrote ${hex(address, 3)} ${hex(value, 2)}`;
    return {
      text, torn: [text], row: ROW.DRIVER,
      area: areaOf(address >> 1), sign: early ? SIGN.EARLY : flip, wrote: address, value, early,
    };
  }

  strobe() {
    if (!this.sent) return { text: 'no strobe' };
    this.generator.strobe();
    const sign = this.open === null ? SIGN.START : SIGN.ANEW;
    this.abandon();
    this.runs.begin(this.length);
    return { text: 'started', torn: ['started'], row: ROW.GENERATOR, sign };
  }

  /* The open run, if there is one, is abandoned: the event is kept that ends it. */
  abandon() {
    if (this.open === null) return;
    this.abandoned++;
    this.left.push(this.length);
  }

  /* The byte that the memory answers with: the low or the high one of a word. */
  byteAt(word, isHigh) {
    return this.map[word] === AREA.ROM ? this.rom.bytes[2 * (word - this.rom.first) + isHigh]
      : this.ram[2 * word + isHigh];
  }

  fetch() {
    const want = this.generator.wants();
    if (want.kind !== KIND.WANTED) return { text: 'still' };
    const area = this.map[want.address];
    const got = area === AREA.HOLE ? this.generator.fetchHole()
      : this.generator.fetch(this.byteAt(want.address, want.value));
    const shown = { row: ROW.GENERATOR, area, fetched: want.address };
    const place = hex(got.address, 3);
    if (got.kind === KIND.LOW) {
      this.runs.low(this.length, got.address, got.value);
      const text = `low ${place} ${hex(got.value, 2)}`;
      return { ...shown, text, torn: [text] };
    }
    if (got.kind === KIND.BROKE) {
      this.runs.stop(this.length);
      const text = `broke ${place} ${got.value & 3}`;
      return { ...shown, text, torn: ['halted'], sign: SIGN.BROKE };
    }
    this.runs.fetched(this.length, got.address, got.value, got.kind);
    shown.word = got.value;
    if (got.kind === KIND.DONE) return this.finish(place, got.value, shown);
    const text = `fetched ${place} ${hex(got.value, 4)}`;
    return { ...shown, text, torn: [text] };
  }

  finish(place, word, shown) {
    const strokes = this.generator.strokes();
    const picture = { at: this.length, strokes, ...resultOf(this.runs.end()) };
    this.picture = this.length;
    this.pictures.push(picture);
    const last = `${place} ${hex(word, 4)}`, text = `done ${last} ${strokes.length}`;
    const torn = [`fetched ${last}`, 'halted'];
    return { ...shown, text, torn, strokes, sign: signOfPicture(picture) };
  }

  resetgen() {
    this.generator.resetGenerator();
    this.abandon();
    this.runs.reset(false);
    return { text: 'cleared', torn: ['reset'], row: ROW.GENERATOR, sign: SIGN.RESET };
  }

  resetcpu() {
    this.driver.resetProcessor();
    return { text: 'cleared', row: ROW.DRIVER, sign: SIGN.RESET };
  }

  resetall({ byte }) {
    this.generator.resetGenerator();
    this.driver.resetProcessor();
    this.abandon();
    this.runs.reset(true);
    this.sent = false;
    this.ram.fill(byte);
    return { text: 'cleared', torn: ['reset'], row: ROW.GENERATOR, sign: SIGN.RESET, filled: byte };
  }

  /* The lines that `play --all` writes for an entry. */
  linesOf(at) {
    const { text, strokes } = this.entries[at];
    return [`${at} ${text}`, ...(strokes ?? []).map((stroke) => stroke.join(' '))];
  }

  /* The whole log, as `play --all` writes it; or its first entries. */
  log(most = this.length) {
    const lines = [];
    for (let at = 0; at < most; at++) lines.push(...this.linesOf(at));
    return lines.map((line) => `${line}\n`).join('');
  }

  /* How many events happened before the wire was cut: with one half alone none, as no trace has
   * either. */
  get beforeCut() {
    return this.oneHalf ? 0 : this.wires.find(({ cut }) => cut)?.at ?? this.length;
  }
}

/* The log as `dvg torn` reads it, as bytes that grow, and at which event each line stands. */
class LogForTorn {
  constructor() {
    this.bytes = new Uint8Array(1 << 16);
    this.used = 0;
    this.eventOf = [];
  }

  add(at, text) {
    if (this.used + text.length + 1 > this.bytes.length) {
      const larger = new Uint8Array(2 * this.bytes.length);
      larger.set(this.bytes);
      this.bytes = larger;
    }
    for (let k = 0; k < text.length; k++) this.bytes[this.used++] = text.charCodeAt(k);
    this.bytes[this.used++] = 10;
    this.eventOf.push(at);
  }

  get text() { return this.bytes.subarray(0, this.used); }
}
