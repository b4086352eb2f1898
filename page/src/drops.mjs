/* What becomes of a file that is dropped, pasted or opened by its name. Each is told in the panel
 * beside the picture, also one that is refused. */
import { COMMAND, OPTION } from './engine.mjs';
import { logOfBus } from './buses.mjs';
import { firstLines, isText, kindOf } from './files.mjs';
import { withoutOutlines } from './outlines.mjs';
import { Recording, boardOfDump } from './recordings.mjs';
import { readSketch } from './sketches.mjs';
import { counted, grouped } from './words.mjs';

/* What is told of files that the page doesn't show. */
const TOLD = {
  judged: () => 'This is what make judge saw of a run. The page doesn\'t show it, but the log of '
    + 'the same run beside it, torn.log.',
  driven: () => 'This is what a driver did, without what the generator fetched: nothing of it can '
    + 'be judged here. make torn writes a log that can.',
  source: () => 'This is the source of a program. Run make beside it, and drop what that writes: '
    + 'build/game.program and build/rom, both at once.',
  pictures: ({ length }) => `This is ${length / 2048} times 2,048 bytes: as make judge keeps the `
    + 'vector RAM of each picture, or as sockets in one file. The page opens neither: make film '
    + 'draws such pictures, and sockets are dropped as files of their own.',
  unsure: ({ length }) => (length === 6144
    ? 'This has the 6,144 bytes of a program, or of a dump with its vector ROM. Its last bytes, '
      + 'which are vectors, lead into no program, and its '
    : 'This has the 4,096 bytes of a dump, or of a large vector ROM. Its ')
    + 'word zero is no jump, as each driver leaves it. If it is a dump, let its name end in .dump.',
  unknown: (bytes) => `This is neither a game, a dump, a log, a table of a bus, a ROM, a trace, a `
    + `list nor a sketch, so it was not opened.${lengthText(bytes)}`,
};
/* What has so many bytes. */
const LENGTHS = { 2048: 'a socket or a vector ROM', 4096: 'a dump', 6144: 'a program',
  8192: 'a program for Asteroids Deluxe' };
const NEAR = 16;

/* Whether a file that isn't known has nearly as many bytes as one that is. */
function lengthText(bytes) {
  if (bytes.length === 0) return ' It is empty.';
  const near = Object.keys(LENGTHS).find((length) => Math.abs(length - bytes.length) <= NEAR);
  if (near === undefined || isText(bytes)) return '';
  const less = near - bytes.length, count = grouped(Math.abs(less));
  return ` It has ${grouped(bytes.length)} bytes, ${count} ${less > 0 ? 'fewer' : 'more'} than `
    + `${LENGTHS[near]}.`;
}

/* Why a file isn't shown, or '' of one that is. */
export function whyNotShown({ name, bytes }) {
  return TOLD[kindOf(bytes, name)]?.(bytes) ?? '';
}

/* What `dvg torn` says of a log, in the words of the verdict by halves, which stands beside it. */
function halvesText(output) {
  const [, line] = /^torn at (line [0-9]+)/.exec(output) ?? [];
  if (line !== undefined) return `The first early byte is in ${line}.`;
  return output.startsWith('no run') ? 'No run drew a half.' : 'No byte is early.';
}

export class Drops {
  /* `stage` does on the page what a file asks for: `tell` a text in the panel, `record` what
   * happened elsewhere, `showLine` an event of it, and `loadRom`, `loadTrace`, `useDraft`. */
  constructor(engine, drawer, stage) {
    Object.assign(this, { engine, drawer, stage });
  }

  async open(file, kind = null) {
    const { name } = file, bytes = new Uint8Array(await file.arrayBuffer());
    const text = () => new TextDecoder().decode(bytes);
    const open = {
      dump: () => this.openDump(name, bytes),
      log: () => this.openLog(name, bytes),
      bus: () => this.openBus(name, text()),
      rom: () => this.openRom(name, bytes),
      romtext: () => this.openRomText(name, text()),
      trace: () => this.openTrace(name, text()),
      draft: () => this.openDraft(name, text()),
      outline: () => this.openOutlines(name, text()),
      list: () => this.openList(name, text()),
      words: () => this.openList(name, this.engine.run(COMMAND.list, bytes).output),
    };
    const of = kind ?? kindOf(bytes, name);
    if (of in TOLD) this.stage.tell(name, TOLD[of](bytes), true);
    else open[of]();
  }

  /* Shows the run over a dump, word by word, as `dvg picture --all` tells it. */
  openDump(name, bytes) {
    const got = this.engine.run(COMMAND.picture + OPTION, bytes);
    const lines = got.output.split('\n').filter((line) => line !== '');
    const verdict = lines.find((line) => /^(picture|broke|endless)/.test(line)) ?? got.error.trim();
    const recording = Object.assign(boardOfDump(this.engine, name, bytes), { verdict });
    this.stage.record(recording, `The dump ${name}`, 'Its run: each instruction where it stands, '
      + 'and where the beam is then. Walk through it by the arrow keys.', lines);
  }

  /* Shows a table of a bus as a log, and says what of it wasn't understood. */
  openBus(name, text) {
    const { log, unread, firstUnread } = logOfBus(text);
    this.openLog(`${name}, as a log`, new TextEncoder().encode(log), { unread, firstUnread });
  }

  /* Shows a log, up to the line at fault if it has one, where its first picture is torn, or else at
   * the first early byte; `shapes` is the vector ROM, if it is known. */
  openLog(name, bytes, { unread = 0, firstUnread = 0, shapes = null } = {}) {
    const got = this.engine.run(COMMAND.torn, bytes);
    const fault = /line ([0-9]+)/.exec(got.error);
    const good = fault === null ? bytes : firstLines(bytes, Number(fault[1]) - 1);
    const recording = Object.assign(new Recording(name, good, this.drawer), { unread });
    if (shapes !== null) recording.rom = { ...recording.rom, bytes: shapes };
    const count = counted(recording.length, 'event');
    const rest = unread === 0 ? '' : ` ${counted(unread, 'row')} of the table, the first in line `
      + `${firstUnread}, weren't understood: of these nothing is said.`;
    this.stage.record(recording, `The log ${name}`, fault === null
      ? `${count}. ${halvesText(got.output)}${rest}`
      : `${got.error.trim()}. Before that: ${count}.`, []);
    const torn = recording.pictures.find((picture) => picture.torn);
    const event = torn?.tornAt ?? recording.runs.all.first;
    if (event >= 0) this.stage.showLine(event);
  }

  openRom(name, bytes) {
    const got = this.engine.run(COMMAND.rom, bytes);
    if (got.status !== 0) this.stage.tell(name, got.error.trim(), true);
    else this.openRomText(name, got.output);
  }

  openRomText(name, text) {
    this.stage.loadRom(text);
    this.stage.tell(name, 'The ROM was loaded, and the board begins anew.');
  }

  openTrace(name, text) {
    const { fault, count } = this.stage.loadTrace(text);
    this.stage.tell(name, fault === '' ? `${counted(count, 'event')} happened.`
      : `The trace is refused: ${fault}`, fault !== '');
  }

  /* Opens a sketch with shapes by their outlines. */
  openOutlines(name, text) {
    const { text: sketch, fault } = withoutOutlines(text);
    if (fault === '') this.openDraft(name, sketch);
    else this.stage.tell(name, `Of its outlines, this can't be read: ${fault}`, true);
  }

  /* Opens what `dvg list` prints of words as a frame, which begins in the middle of the screen if
   * the words don't say where. */
  openList(name, text) {
    const lines = text.trim().split('\n')
      .map((line) => line.replace(/^\S+ | \*$/g, '').toLowerCase());
    while (/^(rtsl|halt)/.test(lines.at(-1))) lines.pop();
    const bad = lines.find((line) => !/^(labs|vctr|svec) /.test(line));
    if (bad !== undefined) {
      this.stage.tell(name, `This is a list of words. It can't be drawn alone, for ${bad}: drop `
        + 'the dump that it is of.', true);
      return;
    }
    if (!lines[0].startsWith('labs')) lines.unshift('labs 512 512 0');
    this.openDraft(name, `# ${name}\n${lines.join('\n')}\nhalt\n`);
  }

  openDraft(name, text) {
    const { frames, rom, said } = readSketch(this.engine, text);
    if (rom !== '' && frames.length === 0) return this.openRomText(name, rom);
    const isDrawn = this.stage.useDraft(text), drawn = isDrawn ? 'Its first frame is drawn. ' : '';
    return this.stage.tell(name, frames.length > 0 ? `${drawn}It stands in editor A, below.`
      : `It stands in editor A, below, and has a fault: ${said}`, frames.length === 0);
  }
}
