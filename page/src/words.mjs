/* What is shown, in words. What `dvg` writes of it, in hexadecimal, is told apart from that, by
 * functions whose names end with `Code`. */
import { COMMAND } from './engine.mjs';
import { hex } from './hex.mjs';
import { AREA, SIGN, areaOf, drawnHalf } from './signs.mjs';

export function counted(number, one, many = `${one}s`) {
  return `${number} ${number === 1 ? one : many}`;
}

/* A number in groups of three digits. */
export const grouped = (number) => number.toLocaleString('en');

/* A time in seconds, roughly. */
export function durationText(seconds) {
  return seconds < 1 ? 'less than a second' : `about ${counted(Math.round(seconds), 'second')}`;
}

const AREA_NAME = {
  [AREA.ZERO]: 'word zero',
  [AREA.HALF0]: 'half 0',
  [AREA.HALF1]: 'half 1',
  [AREA.ROM]: 'the ROM',
  [AREA.NONE]: 'neither half',
};

/* The name of an area, or where there is no memory. */
export function areaName(area) {
  return AREA_NAME[area] ?? 'no memory';
}

/* A picture's state: `named` says which frame it is, where that is known. */
export function pictureText(picture, number, named) {
  if (picture === null) return 'No picture is finished yet.';
  const strokes = counted(picture.strokes.length, 'stroke');
  const begin = `Picture ${number}, event ${picture.at}: ${strokes}`;
  const frame = named === null ? '' : ` It is ${named}.`;
  const { early, torn } = picture;
  if (early === 0) return `${begin}, ${torn ? 'torn: its run is mixed.' : `whole.${frame}`}`;
  const bytes = `${counted(early, 'early byte')}, ${seenText(picture)}`;
  return `${begin}, ${torn ? 'torn' : 'whole'}: ${bytes}.${frame}`;
}

/* How many of its early bytes a picture shows. */
function seenText({ early, seen }) {
  if (seen === 0) return early === 1 ? 'which doesn\'t show' : 'none of which shows';
  return early === 1 ? 'which shows' : `of which ${seen} ${seen === 1 ? 'shows' : 'show'}`;
}

export function runText(run, strokes) {
  if (run === null) return 'The generator is halted.';
  const half = run.half === 0 ? '' : ` ${areaName(run.half)}`;
  return `A run draws${half}: ${counted(strokes, 'stroke')} so far.`;
}

/* Of an abandoned run, which drew so many strokes. */
export function leftText(strokes) {
  return `The run after it was cut short: the tube shows its ${counted(strokes, 'stroke')}. `;
}

/* What the ways are to choose events. */
export const HOW_TEXT = {
  chance: 'Both ends in any order. A strobe may come late, or get lost.',
  resets: 'Both ends in any order, with resets.',
  board: 'A strobe starts a generator that runs anew: with the wire cut, pictures are cut short '
    + 'rather than torn.',
  ignored: 'A generator that runs ignores a strobe: with the wire cut, pictures are torn.',
};
export const ONE_HALF_TEXT = 'Each frame comes into the one half, also while that is being drawn. ';

export function countsText(board) {
  const torn = board.pictures.filter((picture) => picture.torn).length;
  return [`event ${board.length}`, counted(board.pictures.length, 'picture'), `${torn} torn`,
    counted(board.early, 'early byte'), `${counted(board.abandoned, 'run')} abandoned`].join(' · ');
}

/* An instruction of these words, as `dvg list` lists it. */
export function instructionText(engine, words) {
  const bytes = Uint8Array.from(words.flatMap((word) => [word & 0xFF, word >> 8]));
  return engine.run(COMMAND.list, bytes).output.split('\n')[0].replace(/^000 /, '');
}

/* The instructions by the high four bits of their first word, in words. */
const OPERATIONS = { 10: 'places the beam', 11: 'ends the picture: HALT', 12: 'calls a shape',
  13: 'returns from a shape', 14: 'goes on elsewhere', 15: 'moves the beam a little' };

/* What an instruction does whose first word is this. */
export function operationText(word) {
  return OPERATIONS[word >> 12] ?? 'moves the beam';
}

/* A word of the RAM, of which that is told, too. */
export function wordText(ram, word, area, marks) {
  const value = ram[2 * word] | ram[2 * word + 1] << 8;
  const number = word === 0 ? '' : `, word ${word & 511}`;
  return `${areaName(area)}${number}: as an instruction it ${operationText(value)}${marks}.`
    .replace(/^\w/, (first) => first.toUpperCase());
}

/* What stands there, as `dvg list` lists it. */
export function wordCode(engine, ram, word) {
  const words = [word, word + 1].filter((one) => 2 * one < ram.length)
    .map((one) => ram[2 * one] | ram[2 * one + 1] << 8);
  const instruction = instructionText(engine, words) || 'the first word of two';
  return `Word ${hex(word, 3)}: ${hex(words[0], 4)}, ${instruction}`;
}

/* What an event did, by its entry. */
const DID = {
  offered: 'the driver takes a frame',
  busy: 'the driver is busy, and takes nothing',
  asked: 'the driver is asked for another strobe',
  'nothing published': 'the driver is asked for another strobe, and has published nothing',
  sent: 'the driver sends a strobe',
  idle: 'the driver is idle, as no frame is offered',
  'read halted': 'the driver is told that the generator is halted',
  'read running': 'the driver is told that the generator runs, and waits',
  peek: 'the driver looks which half is published',
  started: 'a strobe arrives, and a run begins',
  'no strobe': 'no strobe was sent, so none arrives',
  still: 'the generator is halted, and fetches nothing',
  halted: 'the run comes to its HALT',
  reset: 'the generator is reset',
};
const CLEARED = {
  resetgen: 'the generator is reset', resetcpu: 'the processor is reset',
  resetall: 'the whole system is reset',
};

/* An event in words. */
export function eventText({ event, text, wrote, value, fetched, word, strokes }) {
  const half = wrote === 1 ? drawnHalf(value << 8 | 1) : 0;
  if (half !== 0) return `the driver publishes ${areaName(half)}`;
  if (wrote !== undefined) return `the driver writes a byte of ${areaName(areaOf(wrote >> 1))}`;
  if (strokes !== undefined) {
    return `the generator reads a HALT: a picture of ${counted(strokes.length, 'stroke')} is done`;
  }
  if (text.startsWith('broke')) return 'the generator can\'t go on, and breaks off';
  if (fetched !== undefined) {
    const name = areaName(areaOf(fetched));
    if (fetched === 0 && word !== undefined) return `the generator has read ${name}`;
    return `the generator reads ${word === undefined ? 'a byte' : 'a word'} of ${name}`;
  }
  if (text.startsWith('refused')) return 'the driver refuses a frame';
  return DID[text] ?? CLEARED[event.name];
}

/* The event before a moment, in words. */
export function momentText(board, at) {
  if (at === 0) return `Before the first of ${counted(board.length, 'event')}.`;
  const entry = board.entryAt(at - 1);
  const seen = board.signs[at - 1] === SIGN.SEEN ? ', and it shows' : '';
  const early = entry.early ? `, into the half that is being drawn${seen}` : '';
  const line = entry.line ? `, line ${entry.line}` : '';
  return `Event ${grouped(at - 1)} of ${grouped(board.length)}${line}: ${eventText(entry)}`
    + `${early}.`;
}

/* The same event as a log has it. */
export function momentCode(board, at) {
  if (at === 0) return '';
  const { line, event, text } = board.entryAt(at - 1);
  return line ? text : `${event.name}: ${text}`;
}
