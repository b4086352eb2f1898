/* Both rows over time: what the generator fetches, and what the driver does. */
import { AREA, ROW, SIGN } from './signs.mjs';

/* What stands above the rows, between them, and below. */
const ABOVE = 25, BETWEEN = 14, BELOW = 20;
const LEAST_SCALE = 1 / 64, MOST_SCALE = 24;

/* The colours of pictures, by their signs; a torn one is a cross, all others are dots. */
const DONE_COLORS = {
  [SIGN.DONE]: 'good', [SIGN.EARLY_DONE]: 'early',
};

/* The areas, weakest first: of several events in one column the strongest is shown. */
const STRENGTH = [0, 2, 2, 3, 1, 1];

export class Rows {
  constructor(canvas) {
    this.canvas = canvas;
    this.context = canvas.getContext('2d');
    this.scale = 4;
    this.first = 0;
    this.fit();
  }

  /* The size in pixels of the page, and how many of the canvas each has. */
  fit() {
    this.width = this.canvas.clientWidth || 1;
    this.height = this.canvas.clientHeight;
    this.ratio = this.canvas.width / this.width;
    this.rowHeight = Math.max(8, Math.floor((this.height - ABOVE - BETWEEN - BELOW) / 2));
    this.tops = [ABOVE, ABOVE + this.rowHeight + BETWEEN];
  }

  /* How many events are in sight. */
  get span() { return this.width / this.scale; }

  eventAt(x) { return Math.floor(this.first + x / this.scale); }

  zoom(factor, at, length) {
    const least = Math.min(LEAST_SCALE, this.width / (length + 2));
    const scale = Math.min(MOST_SCALE, Math.max(least, this.scale * factor));
    this.first = Math.max(0, at - (at - this.first) * this.scale / scale);
    this.scale = scale;
  }

  showAll(length) {
    this.scale = Math.min(MOST_SCALE, this.width / (length + 2));
    this.first = 0;
  }

  /* Shows these events, and some before and after them. */
  showSpan(from, to) {
    this.scale = Math.min(MOST_SCALE, this.width / (1.1 * (to - from) + 2));
    this.first = Math.max(0, from - 0.05 * (to - from));
  }

  /* Moves by so many pixels, as far as there are events. */
  pan(pixels, length, from = this.first) {
    this.first = Math.max(0, Math.min(length - 1, from + pixels / this.scale));
  }

  /* Brings a moment into sight. */
  follow(at) {
    if (at < this.first || at > this.first + this.span - 2) {
      this.first = Math.max(0, at - this.span * (at < this.first ? 0.2 : 0.9));
    }
  }

  draw(board, at, colors) {
    const { context } = this;
    context.setTransform(this.ratio, 0, 0, this.ratio, 0, 0);
    context.fillStyle = colors.field;
    context.fillRect(0, 0, this.width, this.height);
    const from = Math.max(0, Math.floor(this.first));
    const to = Math.min(board.length, Math.ceil(this.first + this.span) + 1);
    this.drawColumns(board, from, to, colors);
    this.drawSigns(board, from, to, colors);
    this.drawMoment(board, at, colors);
    this.drawTexts(board.length, colors);
  }

  /* Marks the pixels of all events. */
  markAll(board, from, to) {
    const wide = Math.max(1, Math.floor(this.scale));
    for (let k = from; k < to; k++) {
      const area = board.areas[k], row = board.rows[k];
      if (area === 0 || row === ROW.NONE) continue;
      const x = Math.floor((k - this.first) * this.scale);
      this.mark(row, x, x + wide, area, board.signs[k]);
    }
  }

  /* Marks the pixels of an event in its row: its area, if it is stronger than what is there, and
   * whether it is an early byte. One that shows is at least three pixels wide. */
  mark(row, from, to, area, sign) {
    const { early } = this, column = this.columns[row];
    for (let x = Math.max(0, from); x < to && x < column.length; x++) {
      if (STRENGTH[area] > STRENGTH[column[x]]) column[x] = area;
      if (sign === SIGN.EARLY) early[x] = Math.max(1, early[x]);
      if (sign === SIGN.SEEN) early.fill(2, Math.max(0, x - 1), x + 2);
    }
  }

  /* Each row as spans of one colour. */
  drawColumns(board, from, to, colors) {
    const count = Math.ceil(this.width) + 1;
    this.columns = [new Uint8Array(count), new Uint8Array(count)];
    this.early = new Uint8Array(count);
    this.markAll(board, from, to);
    const { columns, early } = this;
    const [first, second] = this.tops, height = this.rowHeight;
    columns.forEach((column, row) => {
      this.fillSpans(column, this.tops[row], height, (area) => colors.areas[area]);
      // Half 1 has a line through it, for who sees no colours.
      const lined = column.map((area) => Number(area === AREA.HALF1));
      this.fillSpans(lined, this.tops[row] + height / 2 - 1, 2, () => colors.field);
    });
    this.fillSpans(early, first - 6, second + height + 6 - first, (mark) => colors.glows[mark]);
    this.fillSpans(early, second, height, (mark) => (mark === 2 ? colors.torn : colors.early));
    // So a byte that shows has two.
    const shows = early.map((mark) => Number(mark === 2));
    for (const part of [0.3, 0.7]) {
      this.fillSpans(shows, second + part * height - 1, 2, () => colors.field);
    }
  }

  fillSpans(column, top, height, colorOf) {
    for (let x = 0; x < column.length;) {
      let end = x + 1;
      while (end < column.length && column[end] === column[x]) end++;
      if (column[x] !== 0) {
        this.context.fillStyle = colorOf(column[x]);
        this.context.fillRect(x, top, end - x, height);
      }
      x = end;
    }
  }

  drawSigns(board, from, to, colors) {
    const near = this.scale >= 2;
    for (let k = from; k < to; k++) {
      const sign = board.signs[k];
      if (sign === SIGN.NONE || sign === SIGN.EARLY || sign === SIGN.SEEN) continue;
      const x = (k - this.first) * this.scale;
      if (sign === SIGN.READ_HALTED || sign === SIGN.READ_RUNNING) {
        const color = sign === SIGN.READ_HALTED ? colors.good : colors.dim;
        if (near) this.bar(x, this.tops[1] + this.rowHeight - 8, 8, color);
      } else this.drawSign(sign, x, this.tops[board.rows[k] === ROW.DRIVER ? 1 : 0], colors);
    }
  }

  bar(x, top, height, color) {
    this.context.fillStyle = color;
    this.context.fillRect(x, top, Math.max(1.5, this.scale - 1), height);
  }

  /* Where a run was abandoned. */
  ring(x, y, color) {
    const { context } = this;
    context.strokeStyle = color;
    context.lineWidth = 1.5;
    context.beginPath();
    context.arc(x - 4, y, 3.5, 0, 7);
    context.stroke();
  }

  cross(x, y, color) {
    const { context } = this;
    context.strokeStyle = color;
    context.lineWidth = 2.5;
    context.beginPath();
    for (const way of [4, -4]) {
      context.moveTo(x - 4, y - way);
      context.lineTo(x + 4, y + way);
    }
    context.stroke();
  }

  drawSign(sign, x, top, colors) {
    const { context } = this;
    if (sign === SIGN.FLIP) {
      context.fillStyle = colors.ink;
      context.beginPath();
      context.moveTo(x - 5, top - 9);
      context.lineTo(x + 6, top - 9);
      context.lineTo(x + 0.5, top);
      context.fill();
      context.fillRect(x, top, 1.5, this.rowHeight);
    } else if (sign === SIGN.TORN_DONE) {
      this.cross(x + 1, top - 6, colors.torn);
    } else if (DONE_COLORS[sign] !== undefined) {
      context.fillStyle = colors[DONE_COLORS[sign]];
      context.beginPath();
      context.arc(x + 1, top - 6, 4, 0, 7);
      context.fill();
    } else if (sign === SIGN.OFFERED) {
      this.bar(x, top + this.rowHeight + 2, 4, colors.ink);
    } else {
      const ends = sign === SIGN.RESET || sign === SIGN.BROKE;
      this.bar(x, top - 4, this.rowHeight + 4, ends ? colors.torn : colors.good);
      if (sign === SIGN.ANEW) this.ring(x, top - 6, colors.ink);
    }
  }

  drawMoment(board, at, colors) {
    const x = (at - this.first) * this.scale;
    this.context.fillStyle = colors.ink;
    this.context.fillRect(x - 0.5, 0, 1, this.height);
    this.context.fillStyle = colors.shade;
    this.context.fillRect(x + 0.5, 0, (board.length - at) * this.scale, this.height);
  }

  drawTexts(length, colors) {
    const { context } = this, [above, under, right] = this.texts(length);
    context.font = '12px system-ui, sans-serif';
    context.fillStyle = colors.dim;
    const below = this.tops[1] + this.rowHeight + 15;
    context.fillText(above, 4, 11);
    context.fillText(under, 4, below);
    context.textAlign = 'right';
    context.fillText(right, this.width - 4, below);
    context.textAlign = 'left';
  }

  /* What the upper row shows, what the lower one does, and which events are in sight. */
  texts(length) {
    const last = Math.min(length, Math.floor(this.first + this.span));
    return ['the generator fetches', 'the driver writes',
      `events ${Math.floor(this.first)} to ${last}`];
  }
}
