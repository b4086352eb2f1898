/* The editors of frames and of the ROM, each checked while one types. */
import { adviceOf } from './advice.mjs';
import { hex } from './hex.mjs';
import { drawSmall } from './screen.mjs';
import { readSketch, romOf } from './sketches.mjs';

function make(tag, fields, ...children) {
  const element = Object.assign(document.createElement(tag), fields);
  element.append(...children);
  return element;
}

/* The numbers of lines, each on its own. */
function numbersText(from, to) {
  let text = '';
  for (let line = from; line <= to; line++) text += `${line}\n`;
  return text;
}

class Editor {
  constructor(place, title, changed) {
    this.place = place;
    this.text = make('textarea', { spellcheck: false, wrap: 'off', id: `text${place.id}` });
    this.numbers = make('pre', { className: 'numbers' });
    this.numbers.setAttribute('aria-hidden', 'true');
    this.said = make('div', { className: 'said', id: `said${place.id}` });
    this.said.setAttribute('role', 'status');
    this.text.setAttribute('aria-describedby', this.said.id);
    this.row = make('div', { className: 'row' },
      make('label', { htmlFor: this.text.id, textContent: title }));
    place.append(this.row, this.numbers, this.text, this.said);
    Object.assign(this, { held: null, isSeen: true });
    this.text.addEventListener('focus', () => this.see());
    this.text.addEventListener('input', changed);
    this.text.addEventListener('scroll', () => { this.numbers.scrollTop = this.text.scrollTop; });
  }

  /* To show a long text takes time: it is held back until the editor is seen. */
  get value() { return this.held ?? this.text.value; }
  set value(text) {
    this.held = text;
    if (this.isSeen) this.see();
  }

  see() {
    this.isSeen = true;
    if (this.held !== null) this.text.value = this.held;
    this.held = null;
  }

  addPicks(label, names, picked) {
    const id = `${label.toLowerCase().replace(/ /g, '-')}${this.place.id}`;
    const select = make('select', { id },
      make('option', { value: '', textContent: label }));
    select.setAttribute('aria-label', `${label}: editor ${this.place.id}`);
    for (const name of names) select.append(make('option', { value: name, textContent: name }));
    select.addEventListener('change', () => {
      if (select.value) picked(select.value);
      select.value = '';
    });
    this.row.append(select);
  }

  /* Says what was found, and marks a line. */
  tell(text, line) {
    const bad = line !== null || !text.startsWith('ok');
    this.said.textContent = text;
    this.said.className = bad ? 'said bad' : 'said good';
    this.text.setAttribute('aria-invalid', String(bad));
    const count = this.value.split('\n').length;
    const before = numbersText(1, line === null ? count : line - 1);
    const after = line === null ? '' : numbersText(line + 1, count);
    const marked = line === null ? [] : [make('b', { textContent: String(line) }), '\n'];
    this.numbers.replaceChildren(before, ...marked, after);
    // To ask where the text is scrolled to takes a layout: it is asked while somebody types.
    if (document.activeElement === this.text) this.numbers.scrollTop = this.text.scrollTop;
  }
}

/* The line that a fault of a sketch tells, or null. */
function lineOfFault(said) {
  const [, , line] = /^(line|.* at line) ([0-9]+)/.exec(said) ?? [];
  return line === undefined ? null : Number(line);
}

/* The same fault, of a text after so many lines of a ROM that isn't shown. */
function withoutRom(said, lines) {
  return said.replace(/^(line|.* at line) ([0-9]+)/, (_, what, line) => `${what} ${line - lines}`);
}

/* What is said of good frames: of one what `dvg check --bound` says, of more how many. */
function goodText(said, frames) {
  if (frames.length === 1) return said.replace(/^\w+: |,.*/g, '');
  const most = Math.max(...said.match(/[0-9]+(?= words)/g).map(Number));
  return `ok ${frames.length} frames of at most ${most} words`;
}

/* Where somebody writes a frame, or a sketch of several, which are offered in turn. */
export class DraftEditor extends Editor {
  /* Texts that are `known` have no fault. `advice` is what `dvg explain` says of each fault. */
  constructor(place, title, changed, known, advice) {
    super(place, title, changed);
    Object.assign(this, { known, advice, isSeen: false });
    this.preview = make('canvas', { className: 'preview', width: 240, height: 240 });
    this.preview.setAttribute('role', 'img');
    this.preview.setAttribute('aria-label', `${title}, drawn`);
    place.append(this.preview);
  }

  /* Checks the frames, over a ROM where they bring none. Whether they can be offered: a frame that
   * is refused can. */
  check(engine, rom) {
    this.turn = 0;
    this.shown = 0;
    const later = !this.isSeen && this.known.includes(this.value);
    this.whenSeen = later ? () => this.tellOf(engine, rom) : null;
    if (later) this.take(readSketch(engine, this.value));
    else this.tellOf(engine, rom);
  }

  /* Takes the frames and the ROM of a sketch that was read. */
  take({ frames, rom: ownRom }) {
    Object.assign(this, { frames, ownRom, offerable: frames.length > 0 });
  }

  /* Shows the text that was held back, and says what is to be said of it. */
  see() {
    super.see();
    this.whenSeen?.();
    this.whenSeen = null;
  }

  tellOf(engine, rom) {
    const alone = readSketch(engine, this.value);
    this.take(alone);
    const isOver = this.offerable && this.ownRom === '' && rom.lines > 0;
    const read = isOver ? readSketch(engine, rom.text + this.value) : alone, { said, good } = read;
    const shown = isOver ? withoutRom(said, rom.lines) : said;
    if (good) this.tell(goodText(shown, this.frames), null);
    else this.tell(shown + adviceOf(engine, read, this.advice), lineOfFault(shown));
  }

  /* The text as `dvg` takes it: after the lines of the ROM, where it brings none. */
  textOver(rom) {
    return this.ownRom === '' ? rom.text + this.value : this.value;
  }

  /* Draws the next frame beside the text, as strokes that `strokesOf` makes of its lines. */
  drawNext(strokesOf) {
    const { length } = this.frames, frame = this.frames[this.shown++ % Math.max(1, length)];
    if (length === 0 || frame === this.drawn) return;
    this.drawn = frame;
    drawSmall(this.preview, strokesOf(frame.lines), 0);
  }

  /* The frame whose turn it is to be offered by hand. */
  next() {
    return this.frames[this.turn++ % this.frames.length].lines;
  }

  /* The frame with these operations, by its number: `frame A`, or `frame 3 of A`. */
  nameOf(text) {
    const at = this.frames.findIndex(({ lines }) => lines.join('\n') === text);
    if (at < 0) return null;
    const { id } = this.place;
    return this.frames.length === 1 ? `frame ${id}` : `frame ${at + 1} of ${id}`;
  }
}

export class RomEditor extends Editor {
  /* Reads the ROM: whether it is good. A frame has its own editor. */
  check(engine) {
    const read = romOf(engine, this.value), isFrame = read.drafts.some(({ length }) => length > 0);
    const fault = read.fault || (isFrame ? 'a frame, which has its own editor' : '');
    this.rom = fault === '' ? read : romOf(engine, '');
    const { bytes, first } = this.rom;
    this.tell(fault || `ok ${bytes.length} bytes, words ${hex(first, 3)} to BFF`,
      lineOfFault(fault));
    return fault === '';
  }
}
