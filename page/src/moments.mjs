/* What a board was like after its first events: all of it follows from the entries. */
import { KEPT_EVERY } from './board.mjs';
import { SIGN, drawnHalf } from './signs.mjs';

/* How many events back a byte written or fetched is still marked. */
export const RECENT = 240;

const HALT_WORD = 0xB000;

/* The moment after `at` events: the RAM, the byte last written, the open run, the picture, and
 * whether that is an old one. */
export function momentOf(board, at) {
  const last = at > 0 ? board.entryAt(at - 1) : null;
  const picture = last === null || last.picture < 0 ? null
    : board.pictures.find((one) => one.at === last.picture);
  return { at, last, ram: ramAt(board, at), written: lastWritten(board, at), run: runAt(board, at),
    picture, left: leftAt(board, at, picture), isOld: isOld(board, at, picture) };
}

/* Whether a strobe was sent since a picture was done. */
function isOld(board, at, picture) {
  if (picture === null) return false;
  for (let k = at - 1; k > picture.at; k--) if (board.signs[k] === SIGN.SENT) return true;
  return false;
}

/* The run that was abandoned last, if no picture was finished after that, or null. */
function leftAt(board, at, picture) {
  const end = board.left.findLast((event) => event < at);
  return end === undefined || end < (picture?.at ?? 0) ? null : runAt(board, end);
}

/* The RAM after `at` events. */
export function ramAt(board, at) {
  const copy = Math.floor(at / KEPT_EVERY);
  const ram = board.kept[copy].slice();
  for (let k = copy * KEPT_EVERY; k < at; k++) {
    const entry = board.entryAt(k);
    if (entry.wrote !== undefined) ram[entry.wrote] = entry.value;
    if (entry.filled !== undefined) ram.fill(entry.filled);
  }
  return ram;
}

function lastWritten(board, at) {
  for (let k = at - 1; k >= 0; k--) {
    const { wrote, value, filled } = board.entryAt(k);
    if (filled !== undefined) return null;
    if (wrote !== undefined) return { address: wrote, value, event: k };
  }
  return null;
}

/* The open run: where it began, its half, its words and where they stood, and the word under the
 * beam. */
function runAt(board, at) {
  const from = at > 0 ? board.entryAt(at - 1).run : -1;
  if (from < 0) return null;
  const run = { from, half: 0, words: [], places: [], beam: null };
  for (let k = from + 1; k < at; k++) {
    const { word, fetched } = board.entryAt(k);
    if (fetched !== undefined) run.beam = fetched;
    if (word !== undefined) {
      run.words.push(word);
      run.places.push(fetched);
    }
  }
  if (run.words.length > 0) run.half = drawnHalf(run.words[0]);
  return run;
}

/* How recently each word of the RAM was written and fetched, 1 for just now; which were written
 * early, and which of them the run read after that. */
export function marksOf(board, at) {
  const written = new Float32Array(1024), fetched = new Float32Array(1024);
  const early = new Set(), seen = new Set();
  for (let k = Math.max(0, at - RECENT); k < at; k++) {
    const entry = board.entryAt(k), age = 1 - (at - 1 - k) / RECENT;
    if (entry.wrote !== undefined) written[entry.wrote >> 1] = age;
    if (entry.fetched < 1024) fetched[entry.fetched] = age;
    if (board.signs[k] === SIGN.EARLY) early.add(entry.wrote >> 1);
    if (board.signs[k] === SIGN.SEEN) seen.add(entry.wrote >> 1);
  }
  return { written, fetched, early, seen };
}

/* How many of these words make whole instructions. */
function wholeWords(words) {
  let count = 0;
  while (count < words.length) {
    const length = words[count] >> 12 <= 0xA ? 2 : 1;
    if (count + length > words.length) break;
    count += length;
  }
  return count;
}

/* The strokes of a run so far: another generator is handed its words, and then a HALT. */
export class Drawer {
  constructor(engine) {
    this.engine = engine;
    this.generator = engine.device();
    this.generator.openGenerator();
    this.key = '';
  }

  strokesOf(run) {
    if (run === null) return [];
    const count = wholeWords(run.words);
    const key = `${run.from} ${run.words.slice(0, count)}`;
    if (key !== this.key) {
      this.key = key;
      this.strokes = this.draw(run.words.slice(0, count));
    }
    return this.strokes;
  }

  draw(words) {
    this.generator.resetGenerator();
    this.generator.strobe();
    for (const word of [...words, HALT_WORD]) {
      this.generator.fetch(word & 0xFF);
      this.generator.fetch(word >> 8);
    }
    return this.generator.strokes();
  }
}
