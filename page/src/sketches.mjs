/* Sketches: frames with names, and the ROM that they share. All that is read in a text is what
 * `dvg` reads in it: nothing here knows a name. */
import { COMMAND, OPTION } from './engine.mjs';
import { AREA } from './signs.mjs';

/* The lines of a text, each of which ends with LF. */
function linesOfText(text) {
  return text.split('\n').slice(0, -1);
}

/* The drafts among these lines: each between `offer` and `end`, or one alone. */
function draftsOf(lines) {
  if (lines[0] !== 'offer') return [lines];
  const drafts = [];
  for (const line of lines) {
    if (line === 'offer') drafts.push([]);
    else if (line !== 'end') drafts.at(-1).push(line);
  }
  return drafts;
}

/* A fault without the name of the program, which `dvg` writes before each line. */
function plainFault(text) {
  return text.trim().replace(/^dvg: /gm, '');
}

/* The ROM that a text brings, as lines of a text, and the drafts of its frames. Of a text with a
 * fault, or without a frame, there is one draft without operations. */
function readDrafts(engine, text) {
  const lines = linesOfText(engine.run(COMMAND.layTable + OPTION, text).output);
  const first = lines.findIndex((line) => !/^(map|rom) /.test(line));
  const count = first < 0 ? lines.length : first;
  const rom = lines.slice(0, count).map((line) => `${line}\n`).join('');
  return { rom, drafts: draftsOf(lines.slice(count)) };
}

/* What `dvg render --check` says of a sketch; its fault, if it has one, as `dvg render` tells it;
 * its frames, each with its name, the lines that `dvg check` reads, and whether it takes them; and
 * the text of its own ROM, which is empty where it brings none. A frame that is refused is told,
 * and spelled. Of a text that spells no frames there are none. */
export function readSketch(engine, text) {
  const checked = engine.run(COMMAND.sketch + OPTION, text), good = checked.status === 0;
  const { rom, drafts } = readDrafts(engine, text);
  if (checked.error !== '') return { said: plainFault(checked.error), good, frames: [], rom };
  const frames = linesOfText(checked.output).map((line, k) => {
    const [, name = ''] = /^(\w+): /.exec(line) ?? [];
    return { name, lines: drafts[k], isGood: /^(\w+: )?ok /.test(line) };
  });
  const said = good ? checked.output.trim() : plainFault(engine.run(COMMAND.sketch, text).error);
  return { said, good, frames, rom };
}

/* The ROM that a text brings: its lines as a text, and how many they are; its bytes, and the word
 * address that they begin at; and the fault of the text, if it has one. Without a ROM of its own,
 * or with a fault, it is the ROM of which no line gives a word. */
export function romOf(engine, text) {
  const { rom, drafts } = readDrafts(engine, text);
  const fault = plainFault(engine.run(COMMAND.sketch + OPTION, text).error);
  const { output: bytes } = engine.runBytes(COMMAND.layRom, `${rom}labs 0 0 0\nhalt\n`);
  const first = engine.mapOf(bytes.length).indexOf(AREA.ROM);
  return { fault, text: rom, lines: linesOfText(rom).length, bytes, first, drafts };
}
