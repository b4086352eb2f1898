/* The picture: glowing strokes on a dark screen, 0 to 1,023 units along both axes, y upwards. They
 * are lit here pixel by pixel: without a graphics card the paths of a browser take longer. */

const UNIT = 512, SIDE = 1024 * UNIT, FIELD = 4096 * UNIT;
const MARGIN = 10 * UNIT;
/* A stroke has several widths, in units: in each it is so strong. */
const WIDTHS = [[10, 0.09], [5.5, 0.22], [2.1, 1]];
const THIN = [[1.6, 1]], SMALL = [[12, 0.15], [4, 1]];
/* How long a dash is, and a gap at least: so who sees no colours tells strokes apart. */
const DASH = 7 * UNIT, GAP = 7 * UNIT;
/* How many levels of light are a strength of 1, and how many steps of distance a pixel. */
const STRENGTH_LEVELS = 194, PIXEL_STEPS = 16;

/* Where the shorter way to an end leads, which may be beyond the edge of the field. */
function way(from, to) {
  if (to - from > FIELD / 2) return to - FIELD;
  return from - to > FIELD / 2 ? to + FIELD : to;
}

/* The lines that a stroke is on the field, twice where it crosses an edge. */
function linesOfStroke([x0, y0, x1, y1]) {
  const x = way(x0, x1), y = way(y0, y1), lines = [];
  if (x === x1 && y === y1) return [[x0, y0, x, y]];
  for (const dx of x === x1 ? [0] : [0, x1 - x]) {
    for (const dy of y === y1 ? [0] : [0, y1 - y]) lines.push([x0 + dx, y0 + dy, x + dx, y + dy]);
  }
  return lines;
}

/* The dashes of a line, of which there is one at each end; a short line is one. */
function dashesOf(line) {
  const [x0, y0, x1, y1] = line, length = Math.hypot(x1 - x0, y1 - y0);
  const gaps = Math.floor((length - DASH) / (DASH + GAP)), step = (length - DASH) / gaps;
  if (gaps < 1) return [line];
  return Array.from({ length: gaps + 1 }, (_, k) => {
    const [from, to] = [k * step / length, (k * step + DASH) / length];
    return [x0 + (x1 - x0) * from, y0 + (y1 - y0) * from, x0 + (x1 - x0) * to,
      y0 + (y1 - y0) * to];
  });
}

/* The levels of light by the distance from a stroke, at a scale of pixels; the last one is 0. */
function levelsOf(widths, strength, scale) {
  const halves = widths.map(([width, part]) => [Math.max(1, width * UNIT * scale) / 2, part]);
  const reach = 0.5 + Math.max(...halves.map(([half]) => half));
  const lit = (far) => halves.reduce((sum, [half, part]) => (
    sum + part * Math.min(1, Math.max(0, half + 0.5 - far))), 0);
  return Uint8ClampedArray.from({ length: Math.ceil(reach * PIXEL_STEPS) + 1 },
    (_, k) => STRENGTH_LEVELS * strength * lit(k / PIXEL_STEPS));
}

/* The pixels of a colour, such as '#a4ecff', by their levels of light. */
const PALETTES = new Map();
function paletteOf(color) {
  if (!PALETTES.has(color)) {
    const bytes = new Uint8ClampedArray(4 * 256), parts = [1, 3, 5].map((at) => (
      parseInt(color.slice(at, at + 2), 16) / STRENGTH_LEVELS));
    for (let k = 0; k < 256; k++) bytes.set([...parts.map((part) => part * k), 255], 4 * k);
    PALETTES.set(color, new Uint32Array(bytes.buffer));
  }
  return PALETTES.get(color);
}

const DARK = paletteOf('#000000')[0];

/* The pixels from one place to another one, and so many more on each side, of so many in all. */
function pixelsBetween(a, b, more, count) {
  return [Math.max(0, Math.floor(Math.min(a, b) - more)),
    Math.min(count, Math.ceil(Math.max(a, b) + more))];
}

/* The pixels of a canvas, each as bright as the brightest stroke there. */
class Light {
  constructor(context) {
    const { width, height } = context.canvas;
    Object.assign(this, { context, width, height, levels: new Uint8Array(width * height) });
    this.image = new ImageData(width, height);
    this.pixels = new Uint32Array(this.image.data.buffer);
    this.scale = width / (SIDE + 2 * MARGIN);
    this.pixels.fill(DARK);
    // From where to where each row of a line may be lit: pairs of numbers of pixels.
    this.spans = [];
    this.made = new Map();
  }

  /* Whether the canvas has still this size. */
  get fits() {
    const { width, height } = this.context.canvas;
    return width === this.width && height === this.height;
  }

  clear() {
    const { spans, levels, pixels } = this;
    for (let k = 0; k < spans.length; k += 2) {
      levels.fill(0, spans[k], spans[k + 1]);
      pixels.fill(DARK, spans[k], spans[k + 1]);
    }
    spans.length = 0;
  }

  show() { this.context.putImageData(this.image, 0, 0); }

  /* Where a place of the field is, in pixels. */
  across(x) { return (x + MARGIN) * this.scale; }
  down(y) { return this.height - (y + MARGIN) * this.scale; }

  /* The levels by the distance from a stroke, which are computed once. */
  levelsFor(widths, strength) {
    const key = `${widths} ${strength}`;
    if (!this.made.has(key)) this.made.set(key, levelsOf(widths, strength, this.scale));
    return this.made.get(key);
  }

  /* Strokes in a colour, of which the brightest are so strong; or their dashes. */
  add(strokes, color, strength, widths = WIDTHS, isDashed = false) {
    const palette = paletteOf(color), byZ = [];
    for (const stroke of strokes) {
      const z = stroke[4];
      const levels = byZ[z] ??= this.levelsFor(widths, strength * (0.4 + 0.6 * z / 15));
      const lines = linesOfStroke(stroke);
      for (const [x0, y0, x1, y1] of isDashed ? lines.flatMap(dashesOf) : lines) {
        this.line(this.across(x0), this.down(y0), this.across(x1), this.down(y1), levels, palette);
      }
    }
  }

  /* A line: in each row of pixels those that it may reach get the level of their distance. */
  line(x0, y0, x1, y1, ofDistance, palette) {
    const reach = (ofDistance.length - 1) / PIXEL_STEPS, dx = x1 - x0, dy = y1 - y0;
    const [left, right] = pixelsBetween(x0, x1, reach, this.width);
    const [top, bottom] = pixelsBetween(y0, y1, reach, this.height);
    const slope = dy === 0 ? 0 : dx / dy;
    const aside = dy === 0 ? this.width : reach * Math.sqrt(dx * dx + dy * dy) / Math.abs(dy);
    for (let row = top; row < bottom; row++) {
      const y = row + 0.5 - y0, middle = dy === 0 ? left : x0 + y * slope;
      const from = Math.max(left, Math.floor(middle - aside) - 1);
      const end = Math.min(right, Math.ceil(middle + aside)), before = row * this.width;
      if (from >= end) continue;
      this.spans.push(before + from, before + end);
      this.lightRow(before + from, before + end, [from + 0.5 - x0, y, dx, dy], ofDistance, palette);
    }
  }

  /* Pixels of a row: the first one's place from where a line begins, and how far that leads. */
  lightRow(from, end, [x0, y, dx, dy], ofDistance, palette) {
    const { levels, pixels } = this, last = ofDistance.length - 1;
    const square = dx * dx + dy * dy, scale = square === 0 ? 0 : PIXEL_STEPS / Math.sqrt(square);
    let x = x0, along = x0 * dx + y * dy, across = x0 * dy - y * dx;
    for (let at = from; at < end; at++) {
      let steps = Math.abs(across) * scale;
      if (along <= 0) steps = PIXEL_STEPS * Math.sqrt(x * x + y * y);
      else if (along > square) {
        steps = PIXEL_STEPS * Math.sqrt((x - dx) * (x - dx) + (y - dy) * (y - dy));
      }
      const level = steps < last ? ofDistance[steps | 0] : 0;
      if (level > levels[at]) {
        levels[at] = level;
        pixels[at] = palette[level];
      }
      x++;
      along += dx;
      across += dy;
    }
  }

  /* The beam, as a spot on a point of the field, over what is shown. */
  spot([x, y], color) {
    const { context, scale } = this;
    context.fillStyle = color;
    context.beginPath();
    context.arc(this.across(x), this.down(y), 9 * UNIT * scale, 0, 7);
    context.fill();
  }

  /* A ring around a point of the field, over what is shown. */
  ring([x, y], color) {
    const { context, scale } = this;
    context.strokeStyle = color;
    context.lineWidth = 3 * UNIT * scale;
    context.beginPath();
    context.arc(this.across(x), this.down(y), 22 * UNIT * scale, 0, 7);
    context.stroke();
  }
}

/* A picture hides all that is behind it. */
function contextOf(canvas) { return canvas.getContext('2d', { alpha: false }); }

const BEAM = '#a4ecff', TORN = '#ff4a5c', GROWING = '#e4ffff';
/* A frame, and the one that was written into it. */
const GHOSTS = [BEAM, TORN];

/* A frame alone on a small canvas, with what is another one's in red. */
export function drawSmall(canvas, strokes, ghost) {
  const light = new Light(contextOf(canvas));
  light.add(strokes, GHOSTS[ghost], 1, SMALL);
  light.show();
}

export class Screen {
  constructor(canvas) {
    this.canvas = canvas;
    this.context = contextOf(canvas);
    this.key = '';
    this.count = 0;
    this.light = null;
  }

  /* The newest picture, bright or dim, and over it the strokes so far of the open run, if there is
   * one. Both are told apart by their ids. Of a run that only grew, the new strokes alone are
   * drawn. A torn picture has a tear. */
  draw(picture, open, isDim, tear = null) {
    const { width, height } = this.canvas, sofar = open?.strokes ?? [];
    if (width === 0 || height === 0) return;
    const key = `${picture?.id} ${open?.id} ${isDim} ${width} ${height} ${tear !== null}`;
    const isNew = key !== this.key || sofar.length < this.count;
    if (!isNew && sofar.length === this.count) return;
    if (isNew) this.begin(picture, isDim, tear);
    this.light.add(sofar.slice(this.count), GROWING, 0.9);
    this.light.show();
    if (tear?.wrong.length > 0) this.light.ring(tear.wrong[0], '#ffffff');
    this.key = key;
    this.count = sofar.length;
  }

  /* The picture alone. */
  begin(picture, isDim, tear) {
    this.count = 0;
    if (this.light?.fits) this.light.clear();
    else this.light = new Light(this.context);
    if (picture === null) return;
    if (tear === null) this.light.add(picture.strokes, BEAM, isDim ? 0.4 : 1);
    else this.addTear(picture, tear);
  }

  /* A run amid its strokes: those that it has drawn so far, and where the beam is; behind them thin
   * what its frame draws, or both frames of a torn one. Those in `wrong` are of another frame. */
  drawRun({ strokes, wanted, next, wrong }, count) {
    const { width, height } = this.canvas, sofar = strokes.slice(0, count);
    if (width === 0 || height === 0) return;
    this.begin(null, false, null);
    this.key = '';
    const { light } = this, bad = sofar.filter((stroke) => wrong.has(stroke));
    light.add(wanted, BEAM, 0.35, THIN);
    light.add(next, TORN, 0.35, THIN, true);
    light.add(sofar.filter((stroke) => !wrong.has(stroke)), BEAM, 1);
    light.add(bad, TORN, 1, WIDTHS, true);
    light.show();
    if (bad.length > 0) light.ring(bad[0], '#ffffff');
    const last = sofar.at(-1);
    if (count < strokes.length && last !== undefined) light.spot(last.slice(2), GROWING);
  }

  /* A torn picture: the strokes of the frame that was being drawn, in red and dashed all others,
   * and both frames behind them as ghosts; a ring is where the first red one begins. */
  addTear({ strokes }, { wanted, next, wrong }) {
    const { light } = this;
    light.add(wanted, GHOSTS[0], 0.6, THIN);
    light.add(next, GHOSTS[1], 0.6, THIN, true);
    light.add(strokes.filter((stroke) => !wrong.includes(stroke)), BEAM, 0.8);
    light.add(wrong, TORN, 1, WIDTHS, true);
  }
}
