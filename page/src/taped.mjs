/* A board that tapes its runs, as long as its rows hold them, so that each of them can be shown
 * stroke by stroke, and the newest as a log. Tested, not proved. */
import { HERTZ } from './arcade.mjs';
import { KIND } from './engine.mjs';
import { hex } from './hex.mjs';
import { KeptArcade, SLOT_CYCLES } from './past.mjs';

/* Of how many runs the newest bytes are kept, for a log. */
const MOST_LOGS = 4;
/* How many numbers the tape has for each thing that is told: its kind, where, what, and when. */
const TOLD_NUMBERS = 4;

/* What is told, as lines of a log. */
function linesOfTape(kind, at, value) {
  const word = hex(at, 3);
  if (kind === KIND.STARTED) return ['started'];
  if (kind === KIND.LOW) return [`low ${word} ${hex(value, 2)}`];
  if (kind === KIND.WROTE) return [`wrote ${word} ${hex(value, 2)}`];
  if (kind === KIND.BROKE) return ['halted'];
  const fetched = `fetched ${word} ${hex(value, 4)}`;
  return kind === KIND.DONE ? [fetched, 'halted'] : [fetched];
}

/* Tells of the words of a run which of them end a stroke: a vector, long or short, that isn't dark.
 */
class StrokeEnds {
  constructor() { this.isSecond = false; this.isVector = false; }

  of(word) {
    const operation = word >> 12;
    if (this.isSecond) {
      this.isSecond = false;
      return this.isVector && operation > 0;
    }
    this.isSecond = operation <= 0xA;
    this.isVector = operation < 0xA;
    return operation === 0xF && (word >> 4 & 15) > 0;
  }
}

/* A run: when it began, over which vector RAM, the words that it read, when each of its strokes was
 * drawn, and when it was done, if it is; `told` is null where its bytes aren't kept any longer. */
class TapedRun {
  constructor(began, ram) {
    Object.assign(this, { began, ram, done: null, ends: [], told: [], words: [], strokes: null });
    Object.assign(this, { endsOf: new StrokeEnds(), isTorn: false, parts: null });
  }

  /* The vector RAM as it began, and what happened since, as a log for `dvg torn`. */
  get log() {
    const lines = [], { ram, told } = this;
    ram.forEach((byte, at) => {
      if (byte !== 0) lines.push(...linesOfTape(KIND.WROTE, at, byte));
    });
    for (let k = 0; k < told.length; k += TOLD_NUMBERS) {
      lines.push(...linesOfTape(told[k], told[k + 1], told[k + 2]));
    }
    return `${lines.join('\n')}\n`;
  }

  /* How many strokes it has drawn at a time. */
  countAt(cycles) {
    const count = this.ends.findIndex((end) => end > cycles);
    return count < 0 ? this.ends.length : count;
  }
}

export class TapedArcade extends KeptArcade {
  constructor(engine, program, shapes) {
    super(engine, program, shapes);
    Object.assign(this, { taped: [], drawsTo: null });
  }

  /* The run that is open, or was last. */
  get tape() { return this.taped.at(-1); }

  tell(kind, address = 0, value = 0) {
    super.tell(kind, address, value);
    const isOfGame = kind === KIND.STARTED || kind === KIND.WROTE;
    const cycles = isOfGame ? this.processor.cycles : this.fetchAt;
    if (kind === KIND.STARTED) this.beginTape(cycles);
    const { tape } = this;
    if (tape === undefined) return;
    tape.told.push(kind, address, value, cycles);
    if (kind !== KIND.FETCHED) return;
    tape.words.push(value);
    // The beam is there once it has drawn that vector.
    if (tape.endsOf.of(value)) this.drawsTo = tape;
  }

  beginTape(cycles) {
    const { taped, past } = this, old = taped.at(-MOST_LOGS);
    if (old !== undefined) old.told = null;
    while (taped[0]?.began < past.from * SLOT_CYCLES) taped.shift();
    taped.push(new TapedRun(cycles, this.ram.slice()));
  }

  /* The run that is open at a time, or was the last one before that; null of none. */
  runAt(cycles) { return this.taped.findLast(({ began }) => began <= cycles) ?? null; }

  passTime(time) {
    super.passTime(time);
    if (this.drawsTo === null) return;
    this.drawsTo.ends.push(this.fetchAt);
    this.drawsTo = null;
  }

  finish() {
    super.finish();
    const { tape } = this;
    if (tape === undefined) return;
    Object.assign(tape, { done: this.fetchAt, strokes: this.picture.strokes });
    tape.isTorn = this.picture.torn;
  }
}

/* What the beginning of a game presses by itself: the button, from which second on, and until
 * which. */
export const BEGINNING = [['coin', 0.4, 0.6], ['start1', 1, 1.3]];

export function pressBeginning(arcade) {
  for (const [button, from, to] of BEGINNING) {
    arcade.press(button, arcade.time >= from && arcade.time < to);
  }
}

/* How long a board is looked at with each beam, in seconds, and in which parts. */
const TRIED_FOR = 4, TRIED_PART = 0.05;
const BEAMS = [1, 2, 4, 8];

/* Which beam makes a game tear once its wire is cut and strobes amid a run are ignored, while the
 * watchdog leaves it alone as long as the wire is whole: how many times as slow it is. Null where
 * none of these does. */
export function tearingBeam(engine, { program, shapes }) {
  return beamOf((slow, wireCut, isSo) => {
    const arcade = new TapedArcade(engine, program, shapes);
    Object.assign(arcade, { slow, wireCut, ignored: true });
    const came = comesToBe(arcade, isSo);
    arcade.free();
    return came;
  });
}

export function beamOf(tryBoard) {
  return BEAMS.find((slow) => tryBoard(slow, true, ({ torn }) => torn > 0)
    && !tryBoard(slow, false, ({ resets }) => resets > 0)) ?? null;
}

/* Runs a board until its counts are so, or a while: whether they came to be. */
function comesToBe(arcade, isSo) {
  while (arcade.time < TRIED_FOR) {
    pressBeginning(arcade);
    arcade.run(Math.round(TRIED_PART * HERTZ));
    if (isSo(arcade.counts)) return true;
  }
  return false;
}
