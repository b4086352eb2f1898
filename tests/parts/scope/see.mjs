// Looks at sound as an oscilloscope in XY mode would, and measures how well it shows pictures:
//
//     node see.mjs OUT.wav PICTURES [--pictures N] [--volume PERCENT] [--high-pass HZ]
//         [--from TURN] [--turns N] [--png FILE]
//
// PICTURES is what `dvg play` or `dvg picture` prints, or an SVG of `dvg`. The sound has each of
// them in turn, --pictures in a second [60], and again from the first one; the screen is --volume
// of the full scale [80]. Turns from TURN [0] on are looked at, so many [as there are pictures],
// behind the output's high-pass of the first order, from HZ on [0: none]; eight places of the beam
// are made of each sample, by a windowed sinc that ends at half of the rate. A line has of each
// number of NAMES the median over these turns, and the largest. FILE gets the first of them.
import { readFileSync, writeFileSync } from 'node:fs';
import { crc32, deflateSync } from 'node:zlib';

const UNIT = 512, SIDE = 1023, FIELD = 4096, FINE = 8, TAPS = 24;
// How far from a stroke light counts as off it, and how near a place of a stroke must be to light.
const OFF = 4, NEAR = 3;
// How far around the screen it is looked, in units.
const AROUND = 20;

export function waveOf(bytes) {
  let at = 12, head = null;
  for (;;) {
    const name = bytes.toString('latin1', at, at + 4), size = bytes.readUInt32LE(at + 4);
    if (name === 'fmt ') head = { rate: bytes.readUInt32LE(at + 12), bits: bytes[at + 22] };
    if (name === 'data') {
      const width = head.bits / 8, count = size / width / 2;
      const sides = [0, 1].map((side) => Float64Array.from({ length: count }, (_, k) => (
        bytes.readIntLE(at + 8 + (2 * k + side) * width, width) / 2 ** (head.bits - 1))));
      return { ...head, sides };
    }
    at += 8 + size;
  }
}

function clipped([x0, y0, x1, y1]) {
  let low = 0, high = 1;
  for (const [from, step] of [[x0, x1 - x0], [y0, y1 - y0]]) {
    if (step === 0) {
      if (from < 0 || from > SIDE) return null;
      continue;
    }
    const [a, b] = [-from / step, (SIDE - from) / step];
    low = Math.max(low, Math.min(a, b));
    high = Math.min(high, Math.max(a, b));
  }
  const part = (f) => [x0 + f * (x1 - x0), y0 + f * (y1 - y0)];
  return low > high ? null : [...part(low), ...part(high)];
}

const way = (from, to) => {
  const begin = ((from + FIELD / 2) % FIELD + FIELD) % FIELD - FIELD / 2;
  return [begin, begin + (((to - from + FIELD / 2) % FIELD + FIELD) % FIELD) - FIELD / 2];
};

// Strokes of units, each with the light of a unit.
export function picturesOf(text) {
  const pictures = [];
  for (const line of text.split('\n')) {
    if (/^picture |^\d+ done |<g\b/.test(line)) pictures.push([]);
    let ends = null, light;
    const path = /M(-?\d+) (-?\d+)l(-?\d+) (-?\d+)" opacity="([.\d]+)"/.exec(line);
    const plain = /^(\d+) (\d+) (\d+) (\d+) (\d+)\r?$/.exec(line);
    if (path) {
      const [x, y, dx, dy] = path.slice(1, 5).map((part) => part / UNIT);
      [ends, light] = [[x, y, x + dx, y + dy], Number(path[5])];
    } else if (plain) {
      const [x0, y0, x1, y1] = plain.slice(1, 5).map((part) => part / UNIT);
      const [x, y] = [way(x0, x1), way(y0, y1)];
      [ends, light] = [[x[0], y[0], x[1], y[1]], 0.25 + 0.05 * plain[5]];
    }
    const seen = ends && clipped(ends);
    if (seen) pictures.at(-1).push([...seen, light]);
  }
  return pictures.filter((picture) => picture.length > 0);
}

export function highPassed(values, rate, hertz) {
  if (hertz === 0) return values;
  const pole = Math.exp(-2 * Math.PI * hertz / rate), made = new Float64Array(values.length);
  for (let k = 0, before = 0, last = 0; k < values.length; k++) {
    last = pole * last + (1 + pole) / 2 * (values[k] - before);
    before = values[k];
    made[k] = last;
  }
  return made;
}

// The weights of the samples around each of the eight places between two of them.
const KERNEL = Array.from({ length: FINE }, (_, part) => (
  Array.from({ length: 2 * TAPS }, (__, tap) => {
    const far = tap - TAPS + 1 - part / FINE, turn = Math.PI * far;
    return (far === 0 ? 1 : Math.sin(turn) / turn) * (0.5 + 0.5 * Math.cos(turn / (TAPS + 1)));
  })));

export function fine(values, from, count) {
  const made = new Float64Array(count * FINE);
  for (let k = 0; k < count; k++) {
    for (let part = 0; part < FINE; part++) {
      let sum = 0;
      for (let tap = 0; tap < 2 * TAPS; tap++) {
        sum += KERNEL[part][tap] * (values[from + k + tap - TAPS + 1] ?? 0);
      }
      made[k * FINE + part] = sum;
    }
  }
  return made;
}

const quantile = (sorted, part) => (
  sorted[Math.min(sorted.length - 1, sorted.length * part | 0)] ?? Infinity);

// What is measured of the beam's places, in units, beside strokes.
export const NAMES = {
  half: 'half of the light is within so many units of a stroke', most: '95 percent of it',
  off: `percent of the light farther than ${OFF} units from each stroke`,
  dark: `percent of the strokes' length without light within ${NEAR} units`,
  uneven: 'by how many percent the light of a unit differs, at the root of the mean square',
  out: 'percent of the time off the screen',
};

// Of each place of the beam how far it is from the nearest stroke, and which that is; and of each
// unit along each stroke whether a place is near.
function nearestStrokes(strokes, xs, ys) {
  const far = new Float64Array(xs.length), owners = new Uint16Array(xs.length);
  const flat = Float64Array.from(strokes.flatMap(([x0, y0, x1, y1]) => (
    [x0, y0, x1 - x0, y1 - y0, (x1 - x0) ** 2 + (y1 - y0) ** 2])));
  const cells = strokes.map((_, s) => (
    new Uint8Array(Math.max(1, Math.ceil(Math.sqrt(flat[5 * s + 4]))))));
  for (let k = 0; k < xs.length; k++) {
    far[k] = Infinity;
    for (let s = 0, at = 0; s < strokes.length; s++, at += 5) {
      const x = xs[k] - flat[at], y = ys[k] - flat[at + 1], dx = flat[at + 2], dy = flat[at + 3];
      const part = Math.min(1, Math.max(0, (x * dx + y * dy) / (flat[at + 4] || 1)));
      const square = (x - part * dx) ** 2 + (y - part * dy) ** 2;
      if (square < far[k]) [far[k], owners[k]] = [square, s];
      if (square >= NEAR ** 2) continue;
      cells[s][Math.min(cells[s].length - 1, part * cells[s].length | 0)] = 1;
    }
  }
  return { far: far.map(Math.sqrt), owners, cells };
}

// How many units of a stroke are dark. Between two places the beam is in between: what they have on
// both sides is lit, too.
function darkUnits(cell) {
  const lit = [...cell.keys()].filter((k) => cell[k]);
  if (lit.length === 0) return cell.length;
  return lit.reduce((dark, at, k) => dark + (k > 0 && at - lit[k - 1] > 8 ? at - lit[k - 1] : 0),
    lit[0] + cell.length - 1 - lit.at(-1));
}

// By how much the light of a unit differs, of strokes that got so much.
function unevenness(strokes, lights) {
  const sizes = strokes.map((s) => (Math.hypot(s[2] - s[0], s[3] - s[1]) || 3) * s[4]);
  const [size, light] = [sizes, lights].map((all) => all.reduce((a, b) => a + b));
  return Math.sqrt(sizes.reduce((square, one, s) => (
    square + one / size * (lights[s] / light / (one / size) - 1) ** 2), 0));
}

export function measured(strokes, xs, ys) {
  const { far, owners, cells } = nearestStrokes(strokes, xs, ys);
  const lights = new Float64Array(strokes.length);
  far.forEach((one, k) => { if (one <= OFF) lights[owners[k]]++; });
  const sorted = far.slice().sort(), units = cells.reduce((sum, cell) => sum + cell.length, 0);
  return {
    half: quantile(sorted, 0.5), most: quantile(sorted, 0.95),
    off: 100 * (1 - far.filter((one) => one <= OFF).length / (far.length || Infinity)),
    dark: 100 * cells.reduce((dark, cell) => dark + darkUnits(cell), 0) / units,
    uneven: 100 * unevenness(strokes, lights),
  };
}

// A grey PNG of the beam's places: a spot of light at each, and what glows together is brighter.
export function pngOf(xs, ys, size = 560, low = -40, high = 1063) {
  const light = new Float64Array(size * size), scale = size / (high - low);
  for (let k = 0; k < xs.length; k++) {
    const px = (xs[k] - low) * scale, py = size - (ys[k] - low) * scale;
    for (let row = Math.floor(py - 2); row <= py + 2; row++) {
      for (let column = Math.floor(px - 2); column <= px + 2; column++) {
        if (row < 0 || column < 0 || row >= size || column >= size) continue;
        light[row * size + column] += Math.exp(
          -((column + 0.5 - px) ** 2 + (row + 0.5 - py) ** 2) / (2 * 0.6 ** 2));
      }
    }
  }
  const lit = light.filter((one) => one > 0.05).sort(), full = quantile(lit, 0.6) || 1;
  const raw = Buffer.alloc(size * (size + 1));
  for (let row = 0; row < size; row++) {
    for (let column = 0; column < size; column++) {
      const level = 1 - Math.exp(-1.6 * light[row * size + column] / full);
      raw[row * (size + 1) + 1 + column] = Math.round(255 * level ** 0.8);
    }
  }
  const chunk = (name, body) => {
    const data = Buffer.concat([Buffer.from(name, 'latin1'), body]), ends = Buffer.alloc(8);
    ends.writeUInt32BE(body.length, 0);
    ends.writeUInt32BE(crc32(data), 4);
    return Buffer.concat([ends.subarray(0, 4), data, ends.subarray(4)]);
  };
  const head = Buffer.from([0, 0, 0, 0, 0, 0, 0, 0, 8, 0, 0, 0, 0]);
  head.writeUInt32BE(size, 0);
  head.writeUInt32BE(size, 4);
  return Buffer.concat([Buffer.from([137, 80, 78, 71, 13, 10, 26, 10]), chunk('IHDR', head),
    chunk('IDAT', deflateSync(raw, { level: 9 })), chunk('IEND', Buffer.alloc(0))]);
}

// What an oscilloscope shows of `count` samples of a sound, in units of the screen: its places.
export function seen({ rate, sides }, from, count, scale, highPass) {
  return sides.map((side) => fine(highPassed(side, rate, highPass), from, count)
    .map((value) => (value / scale + 1) * SIDE / 2));
}

// The numbers of what is seen of one turn of a sound; and the places that are on the screen.
export function turnOf(sound, strokes, from, count, scale, highPass) {
  const sides = seen(sound, from, count, scale, highPass), all = [...sides[0].keys()];
  const isIn = (place) => place > -AROUND && place < SIDE + AROUND;
  const inside = all.filter((k) => isIn(sides[0][k]) && isIn(sides[1][k]));
  const [xs, ys] = sides.map((side) => Float64Array.from(inside, (k) => side[k]));
  return { ...measured(strokes, xs, ys), out: 100 * (1 - xs.length / all.length), xs, ys };
}

function main([path, text, ...words]) {
  const options = { pictures: 60, volume: 80, 'high-pass': 0, from: 0, turns: 0 };
  for (let k = 0; k < words.length; k += 2) options[words[k].slice(2)] = words[k + 1];
  const sound = waveOf(readFileSync(path)), pictures = picturesOf(readFileSync(text, 'utf8'));
  const count = Math.round(sound.rate / options.pictures);
  const turns = Array.from({ length: Number(options.turns) || pictures.length }, (_, k) => {
    const turn = Number(options.from) + k, strokes = pictures[turn % pictures.length];
    return turnOf(sound, strokes, turn * count, count, options.volume / 100,
      Number(options['high-pass']));
  });
  console.log(Object.keys(NAMES).map((name) => {
    const sorted = Float64Array.from(turns, (turn) => turn[name]).sort();
    return `${name} ${quantile(sorted, 0.5).toFixed(2)} ${sorted.at(-1).toFixed(2)}`;
  }).join(' '));
  if (options.png) writeFileSync(options.png, pngOf(turns[0].xs, turns[0].ys));
}

if (process.argv[1] === new URL(import.meta.url).pathname) main(process.argv.slice(2));
