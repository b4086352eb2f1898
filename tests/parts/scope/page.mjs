// Whether a module of the page makes the same samples as the tool, and shows what is seen of them.
//
//     node page.mjs TOOL BEAM.mjs PICTURES..
//
// PICTURES are what `dvg play` prints, or SVGs of `dvg`. The last line is 'N passed, M failed'.
import { execFileSync } from 'node:child_process';
import { mkdtempSync, readFileSync, rmSync } from 'node:fs';
import { fine, highPassed, picturesOf, waveOf } from './see.mjs';

const [tool, module, ...paths] = process.argv.slice(2);
const beam = await import(module);
const folder = mkdtempSync('/tmp/scope-page-'), out = `${folder}/out.wav`;
process.on('exit', () => rmSync(folder, { recursive: true }));
// How far apart two samples may be, as one has 24 bits and one single precision; and two behind a
// high-pass.
const ROUNDED = 2 ** -22, NEAR = 1e-4;
let passed = 0, failed = 0;

function expect(what, isGood, found) {
  if (isGood) passed++;
  else {
    failed++;
    console.log(`FAILED: the page: ${what}\n  found ${JSON.stringify(found)}`);
  }
}

// How far apart two sides are at most, or nothing if one is longer.
const apart = (one, other) => (one.length === other.length
  ? one.reduce((far, value, k) => Math.max(far, Math.abs(value - other[k])), 0) : Infinity);

// The strokes of a picture, as the page has them: whole, also where they leave the screen.
function strokesOf(text) {
  const paths = [...text.matchAll(/M(-?\d+) (-?\d+)l(-?\d+) (-?\d+)" opacity="([.\d]+)"/g)];
  if (paths.length === 0) {
    return [...text.matchAll(/^(\d+) (\d+) (\d+) (\d+) (\d+)$/gm)].map((one) => (
      one.slice(1).map(Number)));
  }
  return paths.map((one) => one.slice(1).map(Number)).map(([x, y, dx, dy, light]) => (
    [x, y, x + dx, y + dy, Math.round(20 * light) - 5]));
}

// The tool's samples of the first picture of a text, each turn of which is so long.
function soundOfTool(text, rate, highPass) {
  const words = [out, '--bits', 24, '--seconds', 0, '--rate', rate, '--high-pass', highPass];
  const said = execFileSync(tool, words, { input: text }).toString();
  const scale = Number(/is ([\d.]+) percent/.exec(said)[1]) / 100;
  return { ...waveOf(readFileSync(out)), scale };
}

function comparePicture(name, text, rate, highPass) {
  const strokes = strokesOf(text), { sides, scale } = soundOfTool(text, rate, highPass);
  const made = beam.soundOfStrokes(strokes, Math.round(rate / 60), rate, highPass);
  // The tool makes it smaller where the output could not play it.
  const most = Math.max(...made.map((side) => side.reduce((a, b) => Math.max(a, Math.abs(b)), 0)));
  const size = Math.min(1, 0.98 / most), what = `${name} at ${rate}, ${highPass} Hz`;
  expect(`${what}: its size`, Math.abs(scale - beam.VOLUME * size) < 0.0006, [scale, size]);
  const scaled = made.map((side) => side.map((value) => value * size));
  const far = scaled.map((side, axis) => apart(Float64Array.from(side), sides[axis]));
  expect(`${what}: the samples are the tool's`, Math.max(...far) < ROUNDED, far);
  const turns = scaled.map((side) => Float64Array.from([...side, ...side, ...side]));
  const [left] = scaled, places = beam.finePlaces(left, 8);
  const shown = apart(Float64Array.from(places), fine(turns[0], left.length, left.length));
  expect(`${what}: the preview's places are those that are seen`, shown < 0.04, shown);
  // After a hundred turns the same comes of each.
  const long = Float64Array.from({ length: 100 * left.length }, (_, k) => left[k % left.length]);
  const passedOn = apart(Float64Array.from(beam.passedSide(left, rate, highPass)),
    highPassed(long, rate, highPass).subarray(99 * left.length));
  expect(`${what}: behind a high-pass`, passedOn < (highPass > 1 ? NEAR : 0.01), passedOn);
}

function compareDark() {
  const sides = beam.soundOfStrokes([], 1600, 96000, 0);
  const isOut = sides[0].every((_, k) => (
    Math.max(...sides.map((side) => Math.abs(side[k]))) > 1.1 * beam.VOLUME));
  const means = sides.map((side) => side.reduce((a, b) => a + b, 0) / side.length);
  expect('a dark picture: the beam goes round off the screen', isOut && sides[0].length === 1600
    && means.every((mean) => Math.abs(mean) < 0.002), [isOut, means]);
}

for (const path of paths) {
  const text = readFileSync(path, 'utf8'), [picture] = text.split(/^(?=picture )/m).slice(0, 1);
  if (picturesOf(picture).length !== 1) throw new Error(`${path} has not one picture first`);
  for (const [rate, highPass] of [[44100, 0], [96000, 7.5]]) {
    comparePicture(path, picture, rate, highPass);
  }
}
compareDark();
console.log(`${passed} passed, ${failed} failed`);
