/* The RAM, a cell a word: what stands there, what was written and fetched of late, and where the
 * beam is. */
import { AREA, areaOf } from './signs.mjs';

export const RAM_WORDS = 1024;
const TOP = 18, BOTTOM = 2;

export class Memory {
  constructor(canvas) {
    this.canvas = canvas;
    this.context = canvas.getContext('2d');
    this.chosen = null;
    this.image = document.createElement('canvas');
    this.fit();
  }

  /* The size in pixels of the page, and where the cells are: both halves stand side by side where
   * there is room. */
  fit() {
    this.width = this.canvas.clientWidth || 1;
    this.height = this.canvas.clientHeight;
    this.layout = this.place(this.width, this.height);
  }

  place(width, height) {
    const beside = width >= 640;
    const across = beside ? 64 : 32;
    const cell = beside ? (width - 12) / (2 * across) : width / across;
    const rows = 512 / across;
    const tall = (height - (beside ? TOP : 2 * TOP) - BOTTOM) / (beside ? rows : 2 * rows);
    const second = beside ? { x: across * cell + 12, y: TOP } : { x: 0, y: 2 * TOP + rows * tall };
    return { across, cell, tall, halves: [{ x: 0, y: TOP }, second] };
  }

  placeOf(word, { across, cell, tall, halves }) {
    const { x, y } = halves[word >> 9], k = word & 511;
    return { x: x + k % across * cell, y: y + Math.floor(k / across) * tall };
  }

  /* The word at a point, or null. */
  wordAt(px, py) {
    const { across, cell, tall, halves } = this.layout;
    for (const half of [0, 1]) {
      const column = Math.floor((px - halves[half].x) / cell);
      const row = Math.floor((py - halves[half].y) / tall);
      if (column >= 0 && column < across && row >= 0 && row < 512 / across) {
        return 512 * half + row * across + column;
      }
    }
    return null;
  }

  /* The word from which one goes so many columns and rows. */
  move(word, columns, rows) {
    const to = word + columns + rows * this.layout.across;
    return Math.min(RAM_WORDS - 1, Math.max(0, to));
  }

  draw(moment, marks, colors) {
    const { context, canvas } = this;
    const ratio = canvas.width / this.width;
    context.setTransform(ratio, 0, 0, ratio, 0, 0);
    context.fillStyle = colors.field;
    context.fillRect(0, 0, this.width, this.height);
    const { layout } = this;
    this.drawCells(moment, marks, colors, layout);
    this.drawFrame(moment.run?.beam, colors.good, 2, layout);
    const written = moment.written === null ? null : moment.written.address >> 1;
    this.drawFrame(written, colors.ink, 2, layout);
    this.drawFrame(this.chosen, colors.dim, 2, layout);
    this.drawTexts(moment, colors, layout);
  }

  /* The cells are a small image, a pixel a word, that is drawn enlarged and parted by lines. */
  drawCells(moment, marks, colors, layout) {
    const { context } = this, { across, cell, tall, halves } = layout;
    const rows = 512 / across;
    this.image.width = across;
    this.image.height = 2 * rows;
    const small = this.image.getContext('2d'), pixels = small.createImageData(across, 2 * rows);
    const paint = this.paints(colors);
    for (let word = 0; word < RAM_WORDS; word++) {
      const filled = moment.ram[2 * word] !== 0 || moment.ram[2 * word + 1] !== 0;
      let color = paint.areas[areaOf(word)][filled ? 1 : 0];
      const [written, fetched] = [marks.written[word], marks.fetched[word]];
      if (written > 0) color = mix(color, paint.ink, strength(written));
      if (fetched > 0) color = mix(color, paint.good, strength(fetched));
      if (marks.early.has(word)) color = paint.early;
      if (marks.seen.has(word)) color = paint.torn;
      pixels.data.set(color, 4 * word);
    }
    small.putImageData(pixels, 0, 0);
    context.imageSmoothingEnabled = false;
    halves.forEach(({ x, y }, half) => {
      context.drawImage(this.image, 0, half * rows, across, rows, x, y, across * cell, rows * tall);
      context.fillStyle = colors.field;
      for (let k = 1; k < across; k++) context.fillRect(x + k * cell - 0.5, y, 1, rows * tall);
      for (let k = 1; k < rows; k++) context.fillRect(x, y + k * tall - 0.5, across * cell, 1);
    });
  }

  /* The colours as numbers: of each area, of an empty word and of another. */
  paints(colors) {
    if (this.painted !== colors) {
      const field = numbersOf(colors.field);
      const areas =
        colors.areas.map((color) => [0.14, 0.6].map((part) => mix(field, numbersOf(color), part)));
      this.paint = { areas, torn: numbersOf(colors.torn), early: numbersOf(colors.early),
        ink: numbersOf(colors.ink), good: numbersOf(colors.good) };
      this.painted = colors;
    }
    return this.paint;
  }

  drawFrame(word, color, width, layout) {
    if (word === null || word === undefined || word >= RAM_WORDS) return;
    const { x, y } = this.placeOf(word, layout);
    this.context.strokeStyle = color;
    this.context.lineWidth = width;
    this.context.strokeRect(x - 0.5, y - 0.5, layout.cell + 1, layout.tall + 1);
  }

  drawTexts(moment, colors, { halves }) {
    const { context } = this;
    const published = { 0xE0: 0, 0xE2: 1 }[moment.ram[1]];
    const drawn = { [AREA.HALF0]: 0, [AREA.HALF1]: 1 }[moment.run?.half];
    context.font = '12px system-ui, sans-serif';
    [0, 1].forEach((half) => {
      context.fillStyle = colors.ink;
      const words = [`half ${half}`];
      if (published === half) words.push('published');
      if (drawn === half) words.push('being drawn');
      context.fillText(words.join(', '), halves[half].x + 2, halves[half].y - 5);
    });
  }
}

/* A colour #rrggbb as four numbers. */
function numbersOf(color) {
  return [1, 3, 5].map((at) => parseInt(color.slice(at, at + 2), 16)).concat(255);
}

/* How strong the mark of a word is, by how recent it is. */
function strength(recent) {
  return 0.8 * recent ** 3;
}

function mix(one, other, part) {
  return one.map((value, k) => value + (other[k] - value) * part);
}
