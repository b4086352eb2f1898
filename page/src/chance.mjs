/* Schedules that a seed makes: which event comes next on a board. */

/* Numbers by a seed. */
export class Random {
  constructor(seed) {
    this.state = seed >>> 0;
  }

  /* From 0 on, less than this. */
  below(most) {
    this.state = (this.state + 0x9E3779B9) >>> 0;
    let z = this.state;
    z = Math.imul(z ^ z >>> 16, 0x21F0AAAD);
    z = Math.imul(z ^ z >>> 15, 0x735A2D97);
    return ((z ^ z >>> 15) >>> 0) % most;
  }
}

/* The frames of two sketches in the order in which they are offered. Where each has one it is A, A,
 * B, B: by turns of one, each half would always get the same frame, and no tear could be seen. */
export function reelOf(a, b) {
  return a.length === 1 && b.length === 1 ? [...a, ...a, ...b, ...b] : [...a, ...b];
}

/* Offers the frames of a reel in turn. */
class Offers {
  constructor(reel) {
    this.reel = reel;
    this.count = 0;
  }

  next() {
    const frames = this.reel();
    return { name: 'offer', draft: frames[this.count++ % frames.length].lines };
  }
}

/* Ticks, fetches and strobes by chance. A strobe comes late, and three of four that would come to a
 * running generator get lost: it would begin anew each time. */
export class Chance {
  constructor(seed, reel, resets = false) {
    this.random = new Random(seed);
    this.offers = new Offers(reel);
    this.resets = resets;
    this.late = 0;
  }

  next(board) {
    const { random } = this;
    const last = board.entries.at(-1)?.text;
    if (last === 'idle' && random.below(2) === 0) return this.offers.next();
    if (last === 'sent') this.late = 1 + random.below(60);
    if (this.late > 0 && --this.late === 0 && (board.open === null || random.below(4) === 0)) {
      return { name: 'strobe' };
    }
    if (this.resets && random.below(700) === 0) return this.reset();
    const roll = random.below(1000);
    if (roll < 5 && board.open === null && board.sent) return { name: 'redraw' };
    const fetches = roll < 490 && (board.open !== null || random.below(16) === 0);
    return { name: fetches ? 'fetch' : 'tick' };
  }

  reset() {
    const name = ['resetgen', 'resetcpu', 'resetall'][this.random.below(3)];
    return name === 'resetall' ? { name, byte: this.random.below(256) } : { name };
  }
}

/* How many microseconds the driver on the board takes for an action: board/README.md has the
 * cycles, of which there are 1.5 in a microsecond. */
function actionTime(text) {
  if (text.startsWith('wrote')) return 19;
  return text === 'sent' ? 35 : 26;
}

/* How many the generator of the arcade emulator takes for a vector of a scale, and for all else. */
function vectorTime(scale) {
  return (scale > 9 ? 0 : 2 ** (scale + 1) * 8 / 12.096) + 4;
}
const OTHER_TIME = 4;

/* The words of a run, and how many microseconds each takes. */
export class WordTimes {
  constructor() { this.begin(); }

  begin() {
    this.first = null;
    this.global = 0;
  }

  of(word) {
    if (this.first !== null) {
      const first = this.first;
      this.first = null;
      if (first >> 12 === 0xA) {
        this.global = word >> 12;
        return OTHER_TIME;
      }
      return vectorTime((first >> 12) + this.global & 15);
    }
    if (word >> 12 <= 0xA) {
      this.first = word;
      return 0;
    }
    if (word >> 12 !== 0xF) return OTHER_TIME;
    return vectorTime(2 + (word >> 11 & 1) + 2 * (word >> 3 & 1) + this.global & 15);
  }
}

/* The board's proportions: the driver takes its cycles, and the generator its microseconds. A
 * strobe arrives at once; one that comes while the generator runs starts it anew, or is ignored.
 * The next frame is offered 4 to 20 milliseconds after the one before, as soon as the driver is
 * idle. The seed chooses how long after. */
export class Proportions {
  constructor(seed, reel, ignored = false) {
    this.ignored = ignored;
    this.random = new Random(seed);
    this.offers = new Offers(reel);
    this.words = new WordTimes();
    this.driver = 0;
    this.generator = 0;
    this.beat = 0;
    this.seen = -1;
  }

  next(board) {
    if (this.seen === board.length - 1 && this.seen >= 0) this.pass(board.entries[this.seen]);
    this.seen = board.length;
    const last = board.entries.at(-1)?.text;
    if (last === 'sent' && (board.open === null || !this.ignored)) return { name: 'strobe' };
    if (last === 'idle') return this.offer(board);
    if (board.open !== null && this.generator <= this.driver) return { name: 'fetch' };
    return { name: 'tick' };
  }

  /* The driver is idle until the next beat; until then the generator runs alone. */
  offer(board) {
    if (board.open !== null && this.generator < this.beat) {
      this.waiting = true;
      return { name: 'fetch' };
    }
    this.waiting = false;
    this.driver = Math.max(this.driver, this.beat);
    this.beat = this.driver + 4000 + this.random.below(16000);
    return this.offers.next();
  }

  /* Lets the time of an event pass. */
  pass({ event, text, word }) {
    if (event.name === 'tick') this.driver += actionTime(text);
    if (event.name === 'strobe') {
      this.generator = this.driver;
      this.words.begin();
    }
    if (event.name === 'fetch') this.generator += word === undefined ? 0.5
      : this.words.of(word) + 0.5;
  }
}
