/* Shapes by the points of their outlines, made into operations: what board/outline.awk does, which
 * tells how they are written. */

const OUTLINE_POINT = /^@?-?\d+(\.\d+)?,-?\d+(\.\d+)?$/;
/* How bright a stroke is; units of the screen in steps of a beam; the longest move of a vector. */
const OUTLINE_BRIGHT = 9, UNIT_STEPS = 512, LONGEST_MOVE = 1023;

const isPoint = (word = '') => /,|^@|=/.test(word);
const roundedStep = (number) => (number < 0 ? -Math.trunc(0.5 - number)
  : Math.trunc(number + 0.5));
const fieldsOf = (line) => line.split(/[ \t]+/).filter(Boolean);

/* Reads the lines of a sketch: `lines` has those that it writes, and `fault` the first point that
 * can't be read, or ''. */
class Outlines {
  constructor() {
    Object.assign(this, { lines: [], fault: '', isOpen: false, isNamed: false, inRom: false });
  }

  /* At a line that isn't of the last outline, and begins with this word. */
  end(first = '') {
    if (this.isOpen && (this.isNamed || this.inRom)) this.lines.push('  return');
    Object.assign(this, { isOpen: false, x: 0, y: 0, bright: OUTLINE_BRIGHT });
    this.isNamed = first.endsWith(':');
  }

  read(whole) {
    let words = fieldsOf(whole.replace(/\r$/, '').replace(/#.*/, ''));
    if (words.length > 1 && words[0].endsWith(':') && isPoint(words[1])) {
      this.end(words[0]);
      this.lines.push(words[0]);
      words = words.slice(1);
    }
    if (isPoint(words[0])) {
      this.isOpen = true;
      for (const word of words) this.draw(word);
      return;
    }
    if (words.length > 0) this.readOther(words);
    this.lines.push(whole);
  }

  /* A line without a point. */
  readOther(words) {
    this.end(words[0]);
    if (words[0].startsWith('.')) this.inRom = words[0] === '.rom';
    if (words.length > 1) this.isNamed = false;
  }

  draw(word) {
    const [, bright] = /^intensity=([0-9]|1[0-5])$/.exec(word) ?? [];
    if (bright !== undefined) this.bright = Number(bright);
    else if (OUTLINE_POINT.test(word)) this.goTo(word);
    else this.refuse(`no point: '${word}'`);
  }

  /* Goes to a point, without drawing where an @ stands before it. */
  goTo(word) {
    const [x, y] = word.replace('@', '').split(',').map((part) => Number(part) * UNIT_STEPS);
    const far = Math.max(Math.abs(x - this.x), Math.abs(y - this.y));
    let scale = 1;
    while (scale < 9 && far / 2 ** scale > LONGEST_MOVE) scale++;
    const step = 2 ** scale, dx = roundedStep((x - this.x) / step);
    const dy = roundedStep((y - this.y) / step), z = word.startsWith('@') ? 0 : this.bright;
    if (Math.max(Math.abs(dx), Math.abs(dy)) > LONGEST_MOVE) {
      this.refuse('a move of more than 1,023 units');
    }
    this.x += dx * step;
    this.y += dy * step;
    this.lines.push(`  vctr ${scale} ${dx} ${dy} ${z}`);
  }

  refuse(why) { this.fault ||= why; }
}

/* A sketch without outlines, of one that may have some; and what can't be read, or ''. */
export function withoutOutlines(text) {
  const outlines = new Outlines(), lines = text.replace(/\n$/, '').split('\n');
  outlines.end(fieldsOf(lines[0])[0]);
  for (const line of lines) outlines.read(line);
  outlines.end();
  return { text: outlines.lines.map((line) => `${line}\n`).join(''), fault: outlines.fault };
}
