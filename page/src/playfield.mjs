/* The opening: a playfield that moves, as two sketches, of which the second goes on where the first
 * ends. Lengths are units of the screen at the scale 9. */

/* How many frames each of the two sketches has. */
export const SCENE_FRAMES = 20;

/* Rocks: where they begin, how far they go from frame to frame, how large, and which shape. */
const ROCKS = [
  [150, 820, 6, -3, 2, 'boulder'], [840, 850, -5, -5, 2, 'stone'], [190, 230, 4, 6, 2, 'stone'],
  [830, 270, -6, 3, 2, 'boulder'], [520, 905, -3, -2, 1, 'stone'], [960, 560, -5, 2, 1, 'boulder'],
  [90, 540, 7, 1, 1, 'stone'], [600, 130, 3, 2, 1, 'boulder'], [400, 640, -4, 3, 0, 'stone'],
  [660, 690, 5, -6, 0, 'boulder'],
];
const BOULDER = [[-15, 65], [5, 42], [48, 58], [72, 18], [46, -8], [66, -40], [32, -70], [-18, -48],
  [-42, -68], [-70, -22], [-52, 12], [-66, 40]];
const STONE = [[-28, 60], [10, 72], [22, 48], [62, 44], [52, 8], [74, -24], [40, -62], [6, -52],
  [-26, -72], [-68, -34], [-46, -4], [-70, 30]];
const SAUCER = [[-40, 0], [40, 0], [18, -16], [-18, -16], [-40, 0], [-18, 14], [18, 14], [40, 0],
  [18, 14], [10, 28], [-10, 28], [-18, 14]];
const SHIP = [[30, 0], [-26, 19], [-16, 9], [-16, -9], [-26, -19], [30, 0]];
const FLAME = [[-16, 9], [-44, 0], [-16, -9]];

const DIGITS = {
  zero: ['0 2 12', '0 2 12', '2 0 12', '0 -2 12', '0 -2 12', '-2 0 12', '3 0 0'],
  one: ['1 0 0', '0 2 12', '0 2 12', '2 -2 0', '0 -2 0'],
  seven: ['2 0 0', '0 2 12', '0 2 12', '-2 0 12', '3 -2 0', '0 -2 0'],
  nine: ['2 0 0', '0 2 12', '0 2 12', '-2 0 12', '0 -2 12', '2 0 12', '1 -2 0'],
};
const SCORE = ['one', 'nine', 'seven', 'nine', 'zero'];

/* A path as operations, from the middle of a shape, at a local scale that makes a unit `times`
 * steps. The first way is dark. */
function linesOfPath(points, scale, times, intensity, [x, y] = [0, 0]) {
  let from = [x, y];
  return points.map(([px, py], k) => {
    const to = [Math.round(px * times), Math.round(py * times)];
    const line = `vctr ${scale} ${to[0] - from[0]} ${to[1] - from[1]} ${k === 0 ? 0 : intensity}`;
    from = to;
    return line;
  });
}

function closed(points) {
  return [...points, points[0]];
}

/* A path that is turned by an angle. */
function turned(points, angle) {
  const [c, s] = [Math.cos(angle), Math.sin(angle)];
  return points.map(([x, y]) => [x * c - y * s, x * s + y * c]);
}

/* The ship, which turns, with a flame in every other frame, and its shots. */
function shipLines(time) {
  const angle = 0.5 + time * 0.13, [x, y] = [505 + 2 * time, 430 + time];
  const place = `labs ${x} ${y} 0`;
  const lines = [place, ...linesOfPath(turned(SHIP, angle), 9, 1, 15)];
  if (time % 2 === 0) lines.push(place, ...linesOfPath(turned(FLAME, angle), 9, 1, 13));
  for (let shot = 0; shot < 3; shot++) {
    const way = 60 + 110 * shot + 28 * (time % 4);
    const [dx, dy] = [Math.cos(angle), Math.sin(angle)].map((part) => Math.round(way * part));
    lines.push(`labs ${x + dx} ${y + dy} 0`, 'vctr 9 3 3 15');
  }
  return lines;
}

function rockLines(time) {
  return ROCKS.flatMap(([x, y, dx, dy, size, shape]) => [
    `labs ${x + dx * time} ${y + dy * time} ${size}`, `call ${shape}`,
  ]);
}

function shapeLines() {
  const shapes = { boulder: BOULDER, stone: STONE };
  const rocks = Object.entries(shapes).flatMap(([name, points]) => [
    `${name}:`, ...linesOfPath(closed(points), 7, 1, 11), 'return',
  ]);
  const digits = Object.entries(DIGITS)
    .flatMap(([name, ways]) => [`${name}:`, ...ways.map((way) => `svec 4 ${way}`), 'return']);
  return [...rocks, ...digits];
}

/* What each frame ends with: the saucer and all shapes. */
const FRAME_END = [...linesOfPath(SAUCER, 9, 1, 14), 'halt', ...shapeLines()].join('\n');

/* One frame of the playfield, by its time. */
function frameLines(time) {
  return [
    ...shipLines(time), 'labs 60 925 1', ...SCORE.map((digit) => `call ${digit}`),
    ...rockLines(time), `labs ${300 + 12 * time} 745 0`, FRAME_END,
  ];
}

/* The sketch that begins at a time. */
function scene(name, begin) {
  const frames = Array.from({ length: SCENE_FRAMES }, (_, k) => [
    `.frame ${name}${k}`, ...frameLines(begin + k),
  ]);
  return `${frames.flat().join('\n')}\n`;
}

export const SCENES = {
  'playfield, first half': scene('first', 0),
  'playfield, second half': scene('second', SCENE_FRAMES),
};
