/* The machine's inside at a moment: what the generator is at, and what the driver did last. */
import { areaOf, drawnHalf } from './signs.mjs';
import { hex } from './hex.mjs';
import { areaName, operationText } from './words.mjs';

const LABS = 0xA, HALT = 0xB, JSRL = 0xC, RTSL = 0xD;

/* How far back the driver's last event is looked for. */
const MOST_BACK = 5000;

/* The generator, by the words that its run has read and where each stood: the instructions so far,
 * the one read last with its words, the global scale, and the addresses on the stack. */
export function generatorOf({ words, places }) {
  const state = { count: 0, scale: 0, stack: [], place: null, instruction: [] };
  for (let k = 0; k < words.length;) {
    const word = words[k], operation = word >> 12, length = operation <= LABS ? 2 : 1;
    if (k + length > words.length) break;
    if (operation === LABS) state.scale = words[k + 1] >> 12;
    if (operation === JSRL) state.stack.push(places[k] + 1);
    if (operation === RTSL) state.stack.pop();
    Object.assign(state, { count: state.count + 1, place: places[k] });
    state.instruction = words.slice(k, k + length);
    k += length;
    if (operation === HALT) break;
  }
  return state;
}

/* What the driver did last before a moment, and in which event; null where it did nothing. */
export function driverOf(board, at) {
  for (let k = at - 1; k >= Math.max(0, at - MOST_BACK); k--) {
    const { text } = board.entryAt(k);
    if (/^(wrote|sent|read|offered|idle|peek)/.test(text)) return { event: k, text };
  }
  return null;
}

const DRIVER_TEXTS = {
  'read running': 'has read that the generator runs, and waits',
  'read halted': 'has read that the generator is halted',
  sent: 'has sent a strobe',
  offered: 'has taken a frame',
  idle: 'is idle: no frame is offered',
  peek: 'has looked at byte 001, to see which half was published',
};

/* The driver in words, and what it wrote in hexadecimal. */
export function driverText(last) {
  if (last === null) return ['has done nothing yet', ''];
  const [, place, value] = /^wrote (...) (..)/.exec(last.text) ?? [];
  if (place === undefined) return [DRIVER_TEXTS[last.text], ''];
  const code = `byte ${place} is ${value}`;
  if (place === '001') return ['has published a half', code];
  return [`writes ${areaName(areaOf(parseInt(place, 16) >> 1))}`, code];
}

/* The rows of the table: what is told, in which words, and in hexadecimal. `listed` tells an
 * instruction as `dvg list` lists it. */
export function insideRows(board, { at, run }, listed) {
  const driver = ['The driver', ...driverText(driverOf(board, at))];
  if (run === null) return [driver, ['The generator', 'is halted', '']];
  const { place, instruction, scale, stack } = generatorOf(run);
  const half = run.words.length > 0 ? drawnHalf(run.words[0]) : 0;
  const draws = half === 0 ? 'draws neither half yet' : `draws ${areaName(half)}`;
  return [
    driver, ['The generator', draws, `at word ${hex(run.beam ?? 0, 3)}`],
    ['Its instruction', ...(place === null ? ['none yet', '']
      : [operationText(instruction[0]), `${hex(place, 3)} ${listed(instruction)}`])],
    ['Global scale', String(scale), ''],
    ['Stack', stack.length === 0 ? 'empty' : `${stack.length} deep`,
      stack.map((word) => hex(word, 3)).join(' ')],
  ];
}
