/* Traces as texts, as `dvg play` reads them. That the HALT wire is cut, or whole again, stands in a
 * remark, and so does that there is one half alone: `play` passes over these, and has neither. */
import { hex } from './hex.mjs';

const CUT = '# wire cut', WHOLE = '# wire whole', ONE_HALF = '# one half';
const MOST_TIMES = 9999;

/* Events of the same kind that may stand in one line. */
const COUNTED = /^(tick|strobe|fetch)$/;

/* The trace of what happened on a board. */
export function traceOf(board) {
  const lines = [];
  let name = '', times = 0;
  const flush = () => {
    if (times > 0) lines.push(times > 1 ? `${name} ${times}` : name);
    times = 0;
  };
  let wire = 0;
  const tellWire = (at) => {
    for (; board.wires[wire]?.at === at; wire++) {
      flush();
      lines.push(board.wires[wire].cut ? CUT : WHOLE);
    }
  };
  board.entries.forEach(({ event }, at) => {
    tellWire(at);
    if (COUNTED.test(event.name) && event.name === name && times > 0 && times < MOST_TIMES) {
      times++;
      return;
    }
    flush();
    if (COUNTED.test(event.name)) [name, times] = [event.name, 1];
    else lines.push(...linesOf(event));
  });
  flush();
  tellWire(board.length);
  if (board.oneHalf) lines.unshift(ONE_HALF);
  return board.rom.text + lines.map((line) => `${line}\n`).join('');
}

function linesOf({ name, draft, byte }) {
  if (name === 'offer') return ['offer', ...draft, 'end'];
  return [name === 'resetall' ? `resetall ${hex(byte, 2)}` : name];
}

/* What a trace tells that `play` takes: the text of its ROM, and its steps, of which each is an
 * event that happens so many times, or what becomes of the wire; and whether there is one half. */
export function stepsOf(text) {
  const rom = [], steps = [];
  let draft = null, oneHalf = false;
  for (const line of text.split('\n')) {
    oneHalf ||= line === ONE_HALF;
    if (line === CUT || line === WHOLE) steps.push({ wire: line === CUT });
    if (line === '' || line.startsWith('#')) continue;
    const [name, word] = line.split(' ');
    if (name === 'end') {
      steps.push({ event: { name: 'offer', draft }, times: 1 });
      draft = null;
    } else if (draft !== null) draft.push(line);
    else if (name === 'offer') draft = [];
    else if (name === 'map' || name === 'rom') rom.push(line);
    else if (name === 'resetall') {
      steps.push({ event: { name, byte: parseInt(word, 16) }, times: 1 });
    } else steps.push({ event: { name }, times: Number(word ?? 1) });
  }
  return { rom: rom.join('\n'), steps, oneHalf };
}

/* Lets the steps happen on a board. */
export function playSteps(board, steps) {
  for (const step of steps) {
    if ('wire' in step) board.setWire(step.wire);
    else for (let k = 0; k < step.times; k++) board.happen(step.event);
  }
}

/* Lets what happened on a board, up to an event, happen on another one, which has come so far as it
 * is long. */
export function replay(board, onto, end) {
  const setWires = (at) => board.wires.filter((wire) => wire.at === at)
    .forEach(({ cut }) => onto.setWire(cut));
  for (let k = onto.length; k < end; k++) {
    setWires(k);
    onto.happen(board.entries[k].event);
  }
  setWires(end);
}
