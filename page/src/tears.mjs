/* What a torn picture is made of: which strokes are of the frame that was being drawn, and which
 * byte came in between. */
import { Board } from './board.mjs';
import { COMMAND } from './engine.mjs';
import { ramAt } from './moments.mjs';
import { hex } from './hex.mjs';
import { replay } from './traces.mjs';

/* What a run over this memory would draw, as strokes; none where it draws no picture. */
export function strokesOfMemory(engine, ram, rom) {
  const dump = new Uint8Array(ram.length + rom.bytes.length);
  dump.set(ram);
  dump.set(rom.bytes, ram.length);
  return strokesOfLines(engine.run(COMMAND.picture, dump).output.split('\n'));
}

/* The lines of five numbers among these, as strokes. */
export function strokesOfLines(lines) {
  return lines.filter((line) => /^[0-9]+( [0-9]+){4}$/.test(line))
    .map((line) => line.split(' ').map(Number));
}

/* The strokes that are none of these. */
function othersOf(strokes, wanted) {
  const own = new Set(wanted.map(String));
  return strokes.filter((stroke) => !own.has(String(stroke)));
}

/* Of a picture that is torn, or shows what came early: `wanted`, what the frame draws that its run
 * began with; `next`, what the frame draws that was written into it, or the memory as the run
 * ended; `wrong`, the strokes that are none of the first frame's; and the word that tore. */
export function tearOf(engine, board, picture, drawingOf) {
  const ram = ramAt(board, picture.from);
  const wanted = strokesOfMemory(engine, ram, board.rom);
  const wrong = othersOf(picture.strokes, wanted);
  const word = tornWord(board, picture, ram);
  const draft = word === null ? null : offeredBefore(board, word.event);
  const next = draft === null ? strokesOfMemory(engine, ramAt(board, picture.at), board.rom)
    : strokesOfLines(drawingOf(draft).split('\n'));
  return { wanted, next, wrong, draft, word };
}

/* What a torn picture of a game is made of, by the vector RAM as its run began, and as it ended. */
export function tearOfGame(engine, { picture, before, after }, rom) {
  const [wanted, next] = [before, after].map((ram) => strokesOfMemory(engine, ram, rom));
  return { wanted, next, wrong: othersOf(picture.strokes, wanted) };
}

/* The frame that was offered last before an event, and taken; or null, as of a log, which doesn't
 * tell offers. */
function offeredBefore(board, event) {
  if (board.drafts.size === 0) return null;
  for (let k = event; k >= 0; k--) {
    const { text, event: { draft } } = board.entryAt(k);
    if (text === 'offered') return draft.join('\n');
  }
  return null;
}

/* The byte that shows first of those that were written while the run read: the event that wrote it,
 * what over what, and the event that read it. In a torn picture, the byte that mixed its run. */
function tornWord(board, { from, at, tornAt }, ram) {
  const written = new Map();
  for (let k = from + 1; k <= at; k++) {
    const { wrote, value, fetched, word } = board.entryAt(k);
    if (wrote !== undefined) {
      written.set(wrote, { event: k, address: wrote, value, before: ram[wrote] });
    }
    if (fetched === undefined || fetched >= 1024 || k < tornAt) continue;
    const read = word === undefined ? [2 * fetched] : [2 * fetched + 1, 2 * fetched];
    const byte = read.map((address) => written.get(address))
      .find((one) => one !== undefined && (tornAt >= 0 || one.value !== one.before));
    if (byte !== undefined) return { ...byte, read: k };
  }
  return null;
}

/* The picture that two halves draw in place of this one of one half alone: by the same events, and
 * by fetches after that until the run is done which the same strobe began. */
export function besideOf(engine, board, { from, at }) {
  const both = new Board(engine, board.rom);
  replay(board, both, at + 1);
  while (both.open !== null && !both.full) both.happen({ name: 'fetch' });
  const picture = both.pictures.find((one) => one.from === from);
  both.free();
  return picture ?? { strokes: [], torn: false };
}

/* The tear in words. */
export function tearText({ wrong, word: { event, read } }, picture) {
  const then = picture.torn ? 'there the tear begins' : 'so it shows, though the run is consistent';
  const meanwhile = picture.early > 0 ? 'its half was drawn' : 'the generator drew';
  return `Event ${event} wrote a byte while ${meanwhile}. Event ${read} read it: ${then}. `
    + `${redText(wrong, picture)}`;
}

/* How much of a torn picture is red. */
export function redText(wrong, { strokes: { length } }) {
  if (length === 0) return 'The run drew no stroke.';
  if (wrong.length === 0) return 'What it read in between draws the same: no stroke is red.';
  return `${wrong.length} of ${length} strokes, red and `
    + 'dashed, aren\'t of the frame that the run began with.';
}

/* The byte that came in between, as a log has it. */
export function tearCode({ word: { address, value, before } }) {
  const word = `word ${hex(address >> 1, 3)}`, which = address % 2 ? 'high' : 'low';
  return `It wrote ${hex(value, 2)} over ${hex(before, 2)} into byte ${hex(address, 3)}, the `
    + `${which} byte of ${word}.`;
}
