/* What is said of a board, of a game or of a log by what was counted of it: verdicts, each a word,
 * its colour, and what follows it. No word means that nothing was judged: then nothing is green. */
import { VERDICT } from './checker.mjs';
import { counted } from './words.mjs';

/* The milliseconds after which the watchdog resets. */
const WATCHDOG_MILLISECONDS = 87;
/* A line about an instruction, which begins with its address. */
const IS_PLACE = /^[0-9A-F]{4}\b/;

/* What is counted. Of the pictures, which are runs that came to HALT, those are `judged` whose runs
 * fetched more than word zero, or are mixed. Of the runs `drew` are those that drew a half, `broke`
 * those that a fault of their list ended, `left` those that ended before HALT, `struck` of these
 * by a strobe, and `firstLeft` is the number of the first, from 1 on. `contradictions` are fetches
 * that read what was not written, and `unread` rows of a table that weren't understood. `since`
 * says since when all of it is counted, if not from the beginning. */
export function noCounts() {
  return {
    pictures: 0, judged: 0, torn: 0, written: 0, early: 0, drew: 0, runs: 0, left: 0, struck: 0,
    firstLeft: 0, broke: 0, resets: 0, contradictions: 0, unread: 0, since: '',
  };
}

function nothing(text) {
  return { word: '', color: '', text };
}

/* By moments. */
export function picturesVerdict({ pictures, judged, torn, contradictions, since }) {
  const more = contradictions === 0 ? '' : ` ${counted(contradictions, 'fetch', 'fetches')} read `
    + 'what was not written: somebody writes who isn\'t in the log.';
  const count = counted(judged, 'picture');
  if (torn > 0) {
    return { word: 'Torn', color: 'bad', text: `: ${torn} of ${count}${since}.${more}` };
  }
  if (pictures === 0) return nothing(`No picture is finished${since || ' yet'}.${more}`);
  if (judged === 0) {
    return nothing(`No picture to judge${since}: each run ended at word zero.${more}`);
  }
  return { word: 'Whole', color: contradictions === 0 ? 'good' : 'bad',
    text: `: ${judged === 1 ? count : `each of ${count}`}${since}.${more}` };
}

/* By halves. Bytes are in time only where a run drew a half, and some were written; `firstText`
 * says which was the first early one. */
export function bytesVerdict({ early, drew, written, unread, since }, firstText = '') {
  if (early > 0) {
    return { word: 'Early', color: 'early',
      text: `: ${counted(early, 'byte')}${since}${firstText}.` };
  }
  if (drew === 0) return nothing(`No run drew a half${since || ' yet'}.`);
  if (written === 0) return nothing(`No byte was written${since || ' yet'}.`);
  return unread === 0 ? { word: 'In time', color: 'good', text: `: each byte${since}.` }
    : { word: 'In time', color: 'early', text: `: each byte${since} that was understood.` };
}

/* How runs ended. They are finished only where some came to HALT. */
export function runsVerdict({ pictures, left, struck, firstLeft, broke, since }) {
  if (left > 0) {
    const first = firstLeft === 0 ? '' : `; the first is run ${firstLeft}`;
    const of = struck < left ? `${struck} of them ` : '';
    const why = struck === 0 ? '' : `, ${of}as a strobe came before HALT${first}`;
    return { word: 'Abandoned', color: struck > 0 ? 'bad' : '',
      text: `: ${counted(left, 'run')}${since}${why}.` };
  }
  if (broke > 0) {
    return { word: 'Broken off', color: 'bad',
      text: `: ${counted(broke, 'run')}${since}, by a fault of the list drawn.` };
  }
  if (pictures > 0) return { word: 'Finished', color: 'good', text: `: each run${since}.` };
  return nothing(`No run is finished${since || ' yet'}.`);
}

/* A board that the watchdog reset; null of another one. */
export function resetsVerdict({ resets }) {
  return resets === 0 ? null : { word: 'Reset', color: 'bad',
    text: `: ${counted(resets, 'time')} by the watchdog, as nothing wrote to it for `
    + `${WATCHDOG_MILLISECONDS} ms.` };
}

/* What has come of a change: it tears, is reset, goes dark or goes on; or nothing, as no run has
 * ended. */
export function outcomeOf({ torn, left, pictures, resets }) {
  if (torn > 0) return 'tears';
  if (resets > 0) return 'reset';
  if (left + pictures === 0) return 'none';
  return left > pictures ? 'dark' : 'on';
}

/* In every run: what the check says of a game's bytes, and the lines that are shown below that. Of
 * a game of which a part is missing, none that it may be is accepted. */
export function everyVerdict({ verdict, lines }, { hasShapes = true, missing = '' } = {}) {
  const [first, ...others] = lines;
  if (verdict === VERDICT.NONE) {
    return { word: 'Not judged', color: '', lines: others, text: `: ${first}.` };
  }
  if (verdict === VERDICT.REFUSED) {
    const count = lines.filter((line) => IS_PLACE.test(line)).length;
    const what = count === 0 ? 'it' : counted(count, 'instruction');
    return { word: 'Refused', color: 'early', lines, text: `: ${what} may tear a picture, or lead `
      + 'where this check can\'t follow. Why:' };
  }
  if (verdict !== VERDICT.GOOD) {
    return { word: 'Not sure', color: 'early', text: `: ${first}.`, lines: others };
  }
  const lacks = [hasShapes ? '' : 'the vector ROM', missing].filter((part) => part !== '');
  if (lacks.length > 0) {
    return { word: 'Not sure', color: 'early', lines: others, text: `: ${lacks.join(' and ')} of `
      + 'this game is missing. Of the bytes that are here no run tears a picture, while the HALT '
      + 'wire is whole.' };
  }
  return { word: 'Accepted', color: 'good', lines: others,
    text: ': no run of these bytes tears a picture, while the HALT wire is whole.' };
}

/* Shows a verdict in an element that has a strong word and a text. */
export function showVerdict(element, { word, color, text }) {
  const [strong, rest] = [element.firstElementChild, element.lastElementChild];
  strong.className = color;
  if (strong.textContent !== word) strong.textContent = word;
  if (rest.textContent !== text) rest.textContent = text;
}
