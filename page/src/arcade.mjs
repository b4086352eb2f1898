/* The board of Asteroids or of Asteroids Deluxe with a game on it: the 6502 runs the program's
 * bytes, and the generator of dvg.wasm reads the same vector RAM, each at its own time. Both judges
 * look on. Tested, not proved. */
import { WordTimes } from './chance.mjs';
import { KIND } from './engine.mjs';
import { noCounts } from './judged.mjs';
import { AT, PART, partRead, partWritten, placeOf } from './places.mjs';
import { Processor } from './processor.mjs';
import { AREA, drawnHalf } from './signs.mjs';
import { Latches } from './sounds.mjs';

/* The processor's cycles in a second, from one NMI to the next, and until the watchdog resets. */
export const HERTZ = 1512000;
const NMI_EVERY = 6144, WATCHDOG_AFTER = 131072;
/* A clock of some 3 kHz: set in half of so many cycles. */
const CLOCK_HALF = 256;
/* How many microseconds the generator takes for a byte, beside the time of its vector. */
const BYTE_TIME = 0.5;
const BANK_BYTES = 0x100;

/* The places of the buttons and switches, as board/asteroids.inc names them. */
export const INPUTS = {
  hyperspace: 0x2003, fire: 0x2004, step: 0x2005, slam: 0x2006, test: AT.TEST, coin: 0x2400,
  start1: 0x2403, start2: 0x2404, thrust: 0x2405, right: 0x2406, left: 0x2407,
};
const NAMES_OF_INPUTS = new Map(Object.entries(INPUTS).map(([name, at]) => [at, name]));
/* What the boards differ in, by how long the vector ROM is: the bit of an output by which the banks
 * change places, and the switches on the board: a coin for a game, four ships, English. */
const BOARDS = {
  2048: { banks: { at: AT.OUTPUTS, bit: 0x04 }, switches: [0xFE, 0xFC, 0xFC, 0xFC] },
  4096: { banks: { at: 0x3C04, bit: 0x80 }, switches: [0xFC, 0xFC, 0xFC, 0xFC] },
};
const CLOSED = 0xFF, OPEN = 0x7F;
/* What the POKEY of Asteroids Deluxe reads: eight switches more, a coin for a game; random numbers.
 * The memory behind it that keeps 64 bytes without power isn't here. */
const POKEY_SWITCHES = 0xFD, POKEY_READS = { SWITCHES: AT.POKEY + 8, RANDOM: AT.POKEY + 10 };

/* What is counted from a moment on; with how many bytes the generator fetched, how many strobes
 * were ignored, and the first early byte. */
function countsOf(cycles) {
  return { ...noCounts(), from: cycles, fetched: 0, ignored: 0, first: null };
}

export class Arcade {
  /* `program` are the bytes that end at 7FFF, and `shapes` those that end at 57FF. */
  constructor(engine, program, shapes) {
    this.memory = new Uint8Array(AT.END);
    this.memory.set(shapes, AT.SHAPES_END - shapes.length);
    this.memory.set(program, AT.END - program.length);
    this.map = engine.mapOf(shapes.length);
    this.generator = engine.device();
    this.generator.openGenerator();
    this.judge = engine.device();
    this.judge.openJudge();
    this.halves = engine.halves();
    Object.assign(this, { inputs: new Set(), asked: new Set() });
    this.board = BOARDS[shapes.length];
    this.isDeluxe = shapes.length > 2048;
    this.latches = new Latches(this.isDeluxe);
    Object.assign(this, { wireCut: false, slow: 1, ignored: false });
    Object.assign(this, { running: false, isMixed: false, isFar: false, swapped: 0 });
    Object.assign(this, { at: 0, fault: '' });
    Object.assign(this, { picture: null, number: 0, isOld: false });
    this.words = new WordTimes();
    this.processor = new Processor(this);
    Object.assign(this, { fetchAt: 0, nmiAt: NMI_EVERY, watchedAt: 0 });
    this.countAnew();
    this.processor.reset();
  }

  free() {
    this.generator.free();
    this.judge.free();
    this.halves.free();
  }

  /* From now on the counts are of the runs that begin. */
  countAnew() {
    this.counts = countsOf(this.processor.cycles);
    this.isOld = this.running;
  }

  /* How many seconds of the board's time are counted, and how many have gone by in all. */
  get seconds() { return this.time - this.counts.from / HERTZ; }

  get time() { return this.processor.cycles / HERTZ; }

  /* Opens or closes a switch, by its name in INPUTS. */
  press(name, isDown) {
    if (isDown) this.inputs.add(INPUTS[name]);
    else this.inputs.delete(INPUTS[name]);
  }

  /* --- The processor's bus --- */

  read(address) {
    const at = placeOf(address);
    if (at < AT.RAM_END) return this.memory[this.banked(at)];
    return at >= AT.INPUTS && at < AT.INPUTS_END ? this.readInput(at) : this.memory[at];
  }

  /* Pages 2 and 3 change places while that output is set. */
  banked(at) { return at < AT.BANKS ? at : at ^ this.swapped; }

  readInput(at) {
    const part = partRead(at);
    if (part === PART.HALT) {
      this.catchUp();
      return this.running && !this.wireCut ? CLOSED : OPEN;
    }
    if (part === PART.CLOCK) return this.processor.cycles & CLOCK_HALF ? CLOSED : OPEN;
    if (part === PART.SWITCHES) return this.board.switches[at - AT.SWITCHES];
    if (this.isDeluxe && at >= AT.POKEY) return this.readPokey(at);
    if (NAMES_OF_INPUTS.has(at)) this.asked.add(NAMES_OF_INPUTS.get(at));
    return this.inputs.has(at) ? CLOSED : OPEN;
  }

  readPokey(at) {
    if (at === POKEY_READS.SWITCHES) return POKEY_SWITCHES;
    return at === POKEY_READS.RANDOM ? Math.imul(this.processor.cycles, 0x9E3779B1) >>> 24 : OPEN;
  }

  write(address, byte) {
    const at = placeOf(address), part = partWritten(address), { banks } = this.board;
    if (at === banks.at) this.swapped = byte & banks.bit ? BANK_BYTES : 0;
    if (part === PART.RAM) this.memory[this.banked(at)] = byte;
    else if (part === PART.VECTORS) this.writeVector(at, byte);
    else if (part === PART.STROBE) this.strobe();
    else if (part === PART.WATCHDOG) this.watchedAt = this.processor.cycles;
    else if (part === PART.OUTPUT) this.latches.write(at, byte, this.time);
  }

  /* A byte comes into the vector RAM, after all that the generator has read by now. */
  writeVector(at, byte) {
    const { counts } = this, place = at - AT.VECTORS;
    this.catchUp();
    counts.written++;
    if (this.halves.wrote(place) && !this.isOld) {
      counts.early++;
      counts.first ??= { at: this.at, place: at, cycles: this.processor.cycles };
    }
    this.memory[at] = byte;
    this.tell(KIND.WROTE, place, byte);
  }

  tell(kind, address = 0, value = 0) {
    const { kind: state } = this.judge.tell(kind, address, value);
    if (state === KIND.NO_MOMENT || state === KIND.TORN) this.isMixed = true;
  }

  /* --- The generator --- */

  strobe() {
    this.catchUp();
    if (this.running && this.ignored) {
      this.counts.ignored++;
      return;
    }
    if (this.running && !this.isOld) this.leave();
    this.counts.runs++;
    this.generator.strobe();
    this.tell(KIND.STARTED);
    this.halves.started();
    this.words.begin();
    Object.assign(this, { running: true, isMixed: false, isFar: false, isOld: false });
    this.fetchAt = this.processor.cycles;
  }

  /* The run that is open is abandoned. */
  leave() {
    const { counts } = this;
    if (counts.left++ === 0) counts.firstLeft = counts.runs;
    counts.struck = counts.left;
  }

  /* Lets the generator fetch what it has fetched by now. */
  catchUp() { while (this.running && this.fetchAt <= this.processor.cycles) this.fetch(); }

  /* Fetches a byte: after the second one of a word the beam takes its time. */
  fetch() {
    const { address, value: side } = this.generator.wants();
    const got = this.map[address] === AREA.HOLE ? this.generator.fetchHole()
      : this.generator.fetch(this.memory[AT.VECTORS + 2 * address + side]);
    this.counts.fetched++;
    this.isFar ||= address !== 0;
    this.tell(got.kind, got.address, got.value);
    if (got.kind === KIND.LOW) this.passTime(0);
    else if (got.kind === KIND.BROKE) this.breakOff();
    else {
      this.halves.fetched(got.address, got.value);
      if (got.address === 0 && !this.isOld && drawnHalf(got.value)) this.counts.drew++;
      this.passTime(this.words.of(got.value));
      if (got.kind === KIND.DONE) this.finish();
    }
  }

  /* Lets microseconds pass, of a beam that is so many times as slow. */
  passTime(time) { this.fetchAt += (time + BYTE_TIME) * this.slow * HERTZ / 1e6; }

  end() {
    this.running = false;
    this.halves.halted();
  }

  /* A run ends by a fault of its list, without a picture. */
  breakOff() {
    this.end();
    if (!this.isOld) this.counts.broke++;
  }

  /* A picture is done. */
  finish() {
    this.end();
    this.number++;
    this.picture = { id: this.number, strokes: this.generator.strokes(), torn: this.isMixed };
    if (this.isOld) return;
    this.counts.pictures++;
    if (this.isMixed || this.isFar) this.counts.judged++;
    if (this.isMixed) this.counts.torn++;
  }

  /* --- Time --- */

  /* Runs for so many cycles, or until an instruction comes that isn't known: `fault` tells it. */
  run(cycles) {
    const { processor } = this, end = processor.cycles + cycles;
    try {
      while (this.fault === '' && processor.cycles < end) this.runOne();
    } catch (fault) {
      this.fault = fault.message;
    }
    this.catchUp();
  }

  runOne() {
    const { processor } = this;
    if (processor.cycles >= this.nmiAt) {
      this.nmiAt += NMI_EVERY;
      if (!this.inputs.has(AT.TEST)) processor.interrupt();
    }
    this.at = processor.pc;
    processor.step();
    if (processor.cycles - this.watchedAt > WATCHDOG_AFTER) this.resetByWatchdog();
  }

  resetByWatchdog() {
    this.counts.resets++;
    this.watchedAt = this.processor.cycles;
    this.latches.reset(this.time);
    this.processor.reset();
  }
}
