/* A log as `dvg torn` reads it, as something that is shown like a board: each line that tells
 * something is an event. What a line says is read again when it is wanted, so a log may be long. */
import { COMMAND } from './engine.mjs';
import { Board, KEPT_EVERY, RAM_BYTES } from './board.mjs';
import { Runs, resultOf, signOfPicture } from './runs.mjs';
import { ROW, SIGN, areaOf } from './signs.mjs';
import { romOf } from './sketches.mjs';

const NEWLINE = 10, REMARK = 0x23;

/* The events by the first letters of their lines. */
const NAMES = Object.fromEntries(['started', 'low', 'fetched', 'halted', 'reset', 'wrote']
  .map((name) => [name.charCodeAt(0), name]));

/* Where those lines begin and end that are neither empty nor remarks, and their numbers. */
function linesOfLog(bytes) {
  const from = [], to = [], number = [];
  for (let at = 0, line = 1; at < bytes.length; line++) {
    let end = bytes.indexOf(NEWLINE, at);
    if (end < 0) end = bytes.length;
    if (end > at && bytes[at] !== REMARK) {
      from.push(at);
      to.push(end);
      number.push(line);
    }
    at = end + 1;
  }
  return { from, to, number };
}

/* The number that these bytes spell. */
function numberAt(bytes, from, to) {
  let number = 0;
  for (let at = from; at < to; at++) {
    const byte = bytes[at];
    number = 16 * number + (byte <= 0x39 ? byte - 0x30 : (byte & 0xDF) - 0x37);
  }
  return number;
}

/* A picture of a recording: its strokes are made when they are wanted. */
class RecordedPicture {
  constructor(recording, run, at) {
    Object.assign(this, { recording, at }, resultOf(run));
  }

  get strokes() {
    this.made ??= this.recording.strokesBetween(this.from, this.at);
    return this.made;
  }
}

export class Recording {
  /* `drawer` makes strokes of words. The RAM is as given before the first event, and else zero. */
  constructor(name, bytes, drawer, ram = new Uint8Array(RAM_BYTES)) {
    Object.assign(this, { name, drawer, ram: ram.slice() });
    this.rom = romOf(drawer.engine, '');
    this.tornBytes = bytes;
    this.lines = linesOfLog(bytes);
    this.length = this.lines.number.length;
    for (const field of ['rows', 'areas', 'signs']) this[field] = new Uint8Array(this.length);
    for (const field of ['lineRuns', 'done']) this[field] = new Int32Array(this.length);
    Object.assign(this, { kept: [ram.slice()], pictures: [], drafts: new Map(), wires: [] });
    Object.assign(this, { abandoned: 0, left: [], picture: -1, wireCut: false });
    this.runs = new Runs(drawer.engine, this.signs);
    for (let at = 0; at < this.length; at++) this.take(at);
    this.runs.free();
  }

  get full() { return true; }
  get open() { return this.runs.open; }
  get early() { return this.runs.early; }
  get oneHalf() { return false; }

  eventOfLine(line) {
    return this.lines.number.indexOf(line);
  }

  textAt(at) {
    const { from, to } = this.lines;
    return new TextDecoder().decode(this.tornBytes.subarray(from[at], to[at]));
  }

  /* What a line tells: the name of its event, and the numbers that it has. */
  partsAt(at) {
    const from = this.lines.from[at], bytes = this.tornBytes, name = NAMES[bytes[from]];
    const begin = from + name.length + 1;
    return { name, address: numberAt(bytes, begin, begin + 3),
      value: numberAt(bytes, begin + 4, this.lines.to[at]) };
  }

  take(at) {
    const { name, address, value } = this.partsAt(at);
    this.rows[at] = name === 'wrote' ? ROW.DRIVER : ROW.GENERATOR;
    if (name === 'wrote') this.takeWrite(at, address, value);
    else if (name === 'low' || name === 'fetched') this.takeFetch(at, name, address, value);
    else if (name === 'started') this.begin(at);
    else if (name === 'halted') this.end(at);
    else this.reset(at);
    this.lineRuns[at] = this.open?.at ?? -1;
    this.done[at] = this.picture;
    if ((at + 1) % KEPT_EVERY === 0) this.kept.push(this.ram.slice());
  }

  takeWrite(at, address, value) {
    const early = this.runs.write(at, address, value, this.ram[address] !== value);
    if (address < RAM_BYTES) this.ram[address] = value;
    this.areas[at] = areaOf(address >> 1);
    const flip = address === 1 ? SIGN.FLIP : SIGN.NONE;
    this.signs[at] = early ? SIGN.EARLY : flip;
  }

  takeFetch(at, name, address, value) {
    this.areas[at] = areaOf(address);
    if (name === 'low') this.runs.low(at, address, value);
    else this.runs.fetched(at, address, value);
  }

  begin(at) {
    this.signs[at] = this.open === null ? SIGN.START : SIGN.ANEW;
    this.abandon(at);
    this.runs.begin(at);
  }

  abandon(at) {
    if (this.open === null) return;
    this.abandoned++;
    this.left.push(at);
  }

  end(at) {
    if (this.open === null) return;
    const picture = new RecordedPicture(this, this.runs.stop(at), at);
    this.pictures.push(picture);
    this.picture = at;
    this.signs[at] = signOfPicture(picture);
  }

  reset(at) {
    this.abandon(at);
    this.runs.reset(true);
    this.signs[at] = SIGN.RESET;
  }

  strokesBetween(from, to) {
    const words = [];
    for (let at = from; at < to; at++) {
      const { name, value } = this.partsAt(at);
      if (name === 'fetched') words.push(value);
    }
    return this.drawer.strokesOf({ from: `${from} ${to}`, words });
  }

  entryAt(at) {
    return new RecordedEntry(this, at);
  }
}

/* An event as a board has it. Its text is made when it is wanted. */
class RecordedEntry {
  constructor(recording, at) {
    const { name, address, value } = recording.partsAt(at);
    Object.assign(this, { recording, at, event: { name }, line: recording.lines.number[at] });
    this.run = recording.lineRuns[at];
    this.picture = recording.done[at];
    this.early = [SIGN.EARLY, SIGN.SEEN].includes(recording.signs[at]);
    if (name === 'wrote') [this.wrote, this.value] = [address, value];
    if (name === 'low' || name === 'fetched') this.fetched = address;
    if (name === 'fetched') this.word = value;
  }

  get text() { return this.recording.textAt(this.at); }
}

/* The run over a dump, as a board that does nothing else. */
export function boardOfDump(engine, name, bytes) {
  const text = engine.run(COMMAND.rom, bytes.slice(RAM_BYTES)).output;
  const board = new Board(engine, romOf(engine, text));
  board.ram.set(bytes.subarray(0, RAM_BYTES));
  board.kept = [board.ram.slice()];
  board.sent = true;
  board.happen({ name: 'strobe' });
  while (board.open !== null && !board.full) board.happen({ name: 'fetch' });
  return Object.assign(board, { name });
}
