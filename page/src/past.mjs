/* The last seconds of a game's board, for its rows over time: which half the generator draws, where
 * the game writes, and which byte tore the newest torn picture. Tested, not proved. */
import { Arcade, HERTZ } from './arcade.mjs';
import { RAM_BYTES } from './board.mjs';
import { KIND } from './engine.mjs';
import { AT } from './places.mjs';
import { isDriver } from './programs.mjs';
import { AREA, ROW, SIGN, areaOf, drawnHalf } from './signs.mjs';

/* The rows have slots of so many cycles, a sixth of a millisecond, and at most so many of them, of
 * four seconds. Of more the oldest are forgotten, a second of them. */
export const SLOT_CYCLES = 256, MOST_SLOTS = 24000;
const FORGOTTEN_SLOTS = MOST_SLOTS / 4;
/* How many cycles before a run a store of the game's own may be to be told beside its tear. */
const OWN_BEFORE = HERTZ / 10;

/* A number for each slot of both rows. */
function numbersOfRows() {
  return [new Uint8Array(MOST_SLOTS), new Uint8Array(MOST_SLOTS)];
}

export class Past {
  constructor() {
    // `from` is the number of the oldest slot since the board began.
    Object.assign(this, { from: 0, length: 0, drawn: 0, torn: null });
    Object.assign(this, { areas: numbersOfRows(), signs: numbersOfRows() });
    // Which instruction wrote in a slot: the first early byte, or else the last one.
    this.writers = new Uint16Array(MOST_SLOTS);
    // Of each byte of the vector RAM: when it last became another one, by which instruction, what
    // stood there before, and whether that was early.
    this.changedAt = new Float64Array(RAM_BYTES).fill(-1);
    this.changedBy = new Uint16Array(RAM_BYTES);
    this.replaced = new Uint8Array(RAM_BYTES);
    this.wasEarly = new Uint8Array(RAM_BYTES);
    this.run = { began: Infinity, ram: new Uint8Array(RAM_BYTES) };
    // The last store of the game's own into the vector RAM, by no routine of the driver.
    this.own = null;
  }

  /* --- Slots --- */

  /* The slot of a time in cycles, in which the generator draws as it did before. */
  slotAt(cycles) {
    const slot = Math.floor(cycles / SLOT_CYCLES);
    while (this.from + this.length <= slot) this.addSlot();
    return slot - this.from;
  }

  addSlot() {
    if (this.length === MOST_SLOTS) this.forget();
    const slot = this.length++;
    for (const numbers of [...this.areas, ...this.signs]) numbers[slot] = 0;
    this.areas[ROW.GENERATOR][slot] = this.drawn;
  }

  /* Forgets the oldest slots, and the torn picture whose run began in one of them. */
  forget() {
    for (const numbers of [...this.areas, ...this.signs, this.writers]) {
      numbers.copyWithin(0, FORGOTTEN_SLOTS);
    }
    this.from += FORGOTTEN_SLOTS;
    this.length -= FORGOTTEN_SLOTS;
    if (this.torn?.began < this.from * SLOT_CYCLES) this.torn = null;
  }

  /* The seconds from the board's beginning to that of a slot. */
  timeOf(slot) { return (this.from + slot) * SLOT_CYCLES / HERTZ; }

  /* From a slot on the generator draws this, or nothing. */
  draw(slot, area) {
    this.drawn = area;
    if (area !== 0) this.areas[ROW.GENERATOR][slot] = area;
  }

  /* Of several signs in a slot the one with the largest number stays. */
  sign(row, slot, sign) {
    this.signs[row][slot] = Math.max(sign, this.signs[row][slot]);
  }

  /* --- What happens --- */

  /* A strobe comes, over this vector RAM: a run begins, and one that was open is abandoned. */
  began(cycles, isAnew, ram) {
    const slot = this.slotAt(cycles);
    this.sign(ROW.GENERATOR, slot, isAnew ? SIGN.ANEW : SIGN.START);
    this.draw(slot, AREA.ZERO);
    this.run.ram.set(ram);
    Object.assign(this.run, { began: cycles, byte: null, early: 0, isNew: true });
  }

  /* An instruction wrote a byte over what stood there before. */
  wrote(cycles, place, { by, byte, before, isEarly }) {
    const slot = this.slotAt(cycles), areas = this.areas[ROW.DRIVER];
    const flip = place === 1 ? SIGN.FLIP : SIGN.NONE, sign = isEarly ? SIGN.EARLY : flip;
    if (this.signs[ROW.DRIVER][slot] < SIGN.EARLY) this.writers[slot] = by;
    this.sign(ROW.DRIVER, slot, sign);
    areas[slot] = Math.max(areas[slot], areaOf(place >> 1));
    if (isEarly) this.run.early++;
    if (!isDriver(by)) this.own = { at: cycles, by, place };
    if (byte === before) return;
    this.changedAt[place] = cycles;
    this.changedBy[place] = by;
    this.replaced[place] = before;
    this.wasEarly[place] = Number(isEarly);
  }

  /* The generator has read a word: the first one of a run says which half it draws. */
  readWord(cycles, word) {
    const slot = this.slotAt(cycles), { run } = this;
    if (run.isNew) this.draw(slot, drawnHalf(word) || AREA.NONE);
    run.isNew = false;
  }

  /* A run ends: it broke off, or its picture is done, which is torn if the run is mixed. */
  ended(cycles, isDone, isMixed) {
    const slot = this.slotAt(cycles);
    const whole = this.run.early > 0 ? SIGN.EARLY_DONE : SIGN.DONE;
    const done = isMixed ? SIGN.TORN_DONE : whole;
    this.sign(ROW.GENERATOR, slot, isDone ? done : SIGN.BROKE);
    this.draw(slot, 0);
  }

  /* The generator reads a byte. If it became another one since the run began and came early, that
   * shows; and if the run is mixed now, and wasn't before, this is the byte that mixed it. */
  readByte(cycles, place, value, isMixed) {
    const { run } = this, at = this.changedAt[place] ?? -1;
    if (at < run.began) return;
    const slot = Math.floor(at / SLOT_CYCLES) - this.from;
    if (this.wasEarly[place] === 1 && slot >= 0) this.sign(ROW.DRIVER, slot, SIGN.SEEN);
    if (!isMixed || run.byte !== null) return;
    run.byte = {
      at, readAt: cycles, by: this.changedBy[place], address: place, value,
      before: this.replaced[place], isEarly: this.wasEarly[place] === 1,
    };
  }

  /* A torn picture is done, over this vector RAM: it is kept until another one is, or it is
   * forgotten. */
  keepTorn(done, picture, ram) {
    const { byte, began } = this.run;
    if (byte === null) return;
    const own = this.own?.at >= began - OWN_BEFORE ? this.own : null;
    this.torn = { picture, byte, own, began, done, before: this.run.ram.slice(),
      after: ram.slice() };
  }
}

/* A board that keeps its last seconds. */
export class KeptArcade extends Arcade {
  constructor(engine, program, shapes) {
    super(engine, program, shapes);
    this.past = new Past();
  }

  get ram() { return this.memory.subarray(AT.VECTORS, AT.VECTORS_END); }

  run(cycles) {
    super.run(cycles);
    this.past.slotAt(this.processor.cycles);
  }

  writeVector(at, byte) {
    const before = this.memory[at], { early } = this.counts;
    super.writeVector(at, byte);
    const isEarly = this.counts.early > early;
    this.past.wrote(this.processor.cycles, at - AT.VECTORS, { by: this.at, byte, before, isEarly });
  }

  /* Before a run begins, `running` still says whether one is open. */
  tell(kind, address = 0, value = 0) {
    super.tell(kind, address, value);
    const { past, fetchAt, isMixed } = this;
    if (kind === KIND.STARTED) past.began(this.processor.cycles, this.running, this.ram);
    else if (kind === KIND.LOW) past.readByte(fetchAt, 2 * address, value, isMixed);
    else if (kind === KIND.FETCHED || kind === KIND.DONE) {
      past.readByte(fetchAt, 2 * address + 1, value >> 8, isMixed);
      past.readWord(fetchAt, value);
    }
    if (kind === KIND.DONE || kind === KIND.BROKE) past.ended(fetchAt, kind === KIND.DONE, isMixed);
  }

  finish() {
    super.finish();
    if (this.picture.torn) this.past.keepTorn(this.fetchAt, this.picture, this.ram);
  }
}
