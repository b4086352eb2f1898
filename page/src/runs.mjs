/* The runs of a board or of a log, judged two ways: by halves, which bytes are early, as they were
 * written into the half that is being drawn; and by moments, whether a run is consistent or mixed.
 * Both are what the proved judges say that stand in dvg.wasm. */
import { KIND } from './engine.mjs';
import { SIGN, drawnHalf } from './signs.mjs';

/* What is counted of the runs that began with an event or later: how many drew a half, how many
 * bytes were written, and how many of these early, and which event wrote the first early one. */
function countsFrom(at) {
  return { at, drew: 0, written: 0, early: 0, first: -1 };
}

export class Runs {
  /* `signs` has a sign for each event. That of an early byte is changed once the run reads it. */
  constructor(engine, signs) {
    this.signs = signs;
    this.judge = engine.device();
    this.judge.openJudge();
    this.halves = engine.halves();
    const all = countsFrom(0);
    Object.assign(this, { open: null, all, since: all, seen: 0, contradicts: -1,
      contradictions: 0 });
  }

  get early() { return this.all.early; }

  /* Counts anew the runs that begin from here on, as the wire changed; where it was cut, the open
   * run, too. */
  countFrom(at, isCut) {
    const open = isCut ? this.open : null;
    this.since = countsFrom(open?.at ?? at);
    if (open !== null && open.half !== 0) this.since.drew = 1;
  }

  /* The counts that the open run belongs to. */
  countsNow() {
    const { all, since } = this;
    return since !== all && this.open.at >= since.at ? [all, since] : [all];
  }

  free() {
    this.judge.free();
    this.halves.free();
  }

  /* Tells the judge what an event did; keeps where a run came to be mixed, and which event read
   * first what was not written. */
  tell(at, kind, address = 0, value = 0) {
    const { kind: state, contradicts } = this.judge.tell(kind, address, value);
    const hasNone = state === KIND.NO_MOMENT || state === KIND.TORN;
    if (hasNone && this.open !== null && this.open.tornAt < 0) this.open.tornAt = at;
    if (!contradicts) return;
    if (this.contradictions === 0) this.contradicts = at;
    this.contradictions++;
  }

  begin(at) {
    this.tell(at, KIND.STARTED);
    this.halves.started();
    this.open = { at, half: 0, words: 0, early: 0, seen: 0, tornAt: -1, low: -1, judged: false,
      written: new Map() };
  }

  /* A byte is written. `changes` is whether another one stood there. Returns whether it is early.
   * Where a run draws no half, each byte counts that it may still read. */
  write(at, address, value, changes) {
    this.tell(at, KIND.WROTE, address, value);
    const { open } = this;
    this.all.written++;
    if (this.since !== this.all) this.since.written++;
    if (open === null) return false;
    const isEarly = this.halves.wrote(address);
    if (isEarly) {
      open.early++;
      for (const counts of this.countsNow()) {
        if (counts.early++ === 0) counts.first = at;
      }
    }
    const counts = isEarly || (open.half === 0 && open.words > 0);
    if (counts && changes) open.written.set(address, at);
    return isEarly;
  }

  low(at, word, byte) {
    this.tell(at, KIND.LOW, word, byte);
    if (this.open === null) return;
    this.open.judged ||= word !== 0;
    this.see(2 * word);
    this.open.low = word;
  }

  /* A word is fetched; `kind` says whether it is the HALT that ends the run. */
  fetched(at, word, value, kind = KIND.FETCHED) {
    const { open } = this;
    this.tell(at, kind, word, value);
    this.halves.fetched(word, value);
    if (open === null) return;
    if (open.low !== word) this.see(2 * word);
    this.see(2 * word + 1);
    open.low = -1;
    open.judged ||= word !== 0;
    open.words++;
    if (open.words > 1 || word !== 0) return;
    open.half = drawnHalf(value);
    if (open.half !== 0) this.countsNow().forEach((counts) => { counts.drew++; });
  }

  /* The open run reads a byte: if it was written meanwhile, that shows. */
  see(address) {
    const event = this.open.written.get(address);
    if (event === undefined) return;
    this.open.written.delete(address);
    this.open.seen++;
    this.seen++;
    if (this.signs[event] === SIGN.EARLY) this.signs[event] = SIGN.SEEN;
  }

  /* The run ends by a HALT that was told. Returns it. */
  end() {
    const run = this.open;
    this.open = null;
    this.halves.halted();
    return run;
  }

  /* It ends, and no word of a HALT is told. */
  stop(at) {
    this.tell(at, KIND.BROKE);
    return this.end();
  }

  reset(isWhole) {
    if (isWhole) this.judge.resetAll();
    else this.judge.resetGenerator();
    return this.end();
  }
}

/* What is kept of a run that came to its HALT. Its picture is torn where it is mixed. It can be
 * judged by moments where it fetched at a word address other than 000, or is mixed. */
export function resultOf({ at: from, early, seen, tornAt, judged }) {
  return { from, early, seen, tornAt, judged: judged || tornAt >= 0, torn: tornAt >= 0 };
}

/* The sign of a picture. */
export function signOfPicture({ torn, early }) {
  if (torn) return SIGN.TORN_DONE;
  return early > 0 ? SIGN.EARLY_DONE : SIGN.DONE;
}
