/* The samples of a picture, for an oscilloscope in XY mode: left is x, right is y. These are the
 * rules of ../../examples/tools/scope, which says why they are so: a test compares both, sample by
 * sample. Tested, not proved. */

/* 512ths of a unit of the screen, its side in units, and how many units positions are modulo. */
const BEAM_STEPS = 512, BEAM_SIDE = 1023, BEAM_FIELD = 4096;
/* The length in units whose light a dot has, how far off the beam waits, in halves of the screen,
 * and how near in units two places are one, as a square. */
const DOT_LENGTH = 3, WAIT_AT = 1.2, TOUCHING = 0.0001;
/* Where the beam goes round while the screen is dark: it would burn the screen if it rested. */
const AROUND_SCREEN = [[-1, -1], [1, -1], [1, 1], [-1, 1], [-1, -1]]
  .map((corner) => corner.map((way) => (1 + WAIT_AT * way) * BEAM_SIDE / 2));
/* How much of the full scale a half of the screen is. */
export const VOLUME = 0.8;

/* --- Lines: a begin and an end in units, and the light of a unit --- */

/* Where a stroke begins along an axis, and where it ends by the shorter way. */
function aroundAxis(from, to) {
  const half = BEAM_FIELD / 2;
  const near = (place) => ((place + half) % BEAM_FIELD + BEAM_FIELD) % BEAM_FIELD - half;
  const begin = near(from / BEAM_STEPS);
  return [begin, begin + near(to / BEAM_STEPS - begin)];
}

function betweenPlaces(begin, end, part) {
  return [begin[0] + (end[0] - begin[0]) * part, begin[1] + (end[1] - begin[1]) * part];
}

/* The part of a stroke that is on the screen, as a line; or null. */
export function lineOfStroke([fromX, fromY, toX, toY, z]) {
  const [[x0, x1], [y0, y1]] = [aroundAxis(fromX, toX), aroundAxis(fromY, toY)];
  let low = 0, high = 1;
  for (const [start, way] of [[x0, x1 - x0], [y0, y1 - y0]]) {
    if (way === 0) {
      if (start < 0 || start > BEAM_SIDE) return null;
      continue;
    }
    const [one, other] = [-start / way, (BEAM_SIDE - start) / way];
    low = Math.max(low, Math.min(one, other));
    high = Math.min(high, Math.max(one, other));
  }
  if (low > high) return null;
  const [begin, end] = [low, high].map((part) => betweenPlaces([x0, y0], [x1, y1], part));
  return { begin, end, light: (5 + z) / 20 };
}

/* --- The beam's way along them --- */

/* How far apart two places are, as a square: this rounds in all languages alike. */
function squareBetween(begin, end) {
  const dx = end[0] - begin[0], dy = end[1] - begin[1];
  return dx * dx + dy * dy;
}

/* Adds a chain, lines that go on from one to the next; what goes on where the last ends is of that.
 */
function joinChain(chains, chain) {
  const last = chains.at(-1);
  if (last !== undefined && squareBetween(last.at(-1).end, chain[0].begin) < TOUCHING) {
    last.push(...chain);
  } else chains.push(chain);
}

/* Which end of a chain is nearest to a place: twice the number of the chain, and 1 if it is the
 * last one. */
function nearestEnd(chains, here) {
  let best = Infinity, nearest = 0;
  chains.forEach((chain, k) => {
    for (const [isLast, end] of [chain[0].begin, chain.at(-1).end].entries()) {
      const far = squareBetween(here, end);
      if (far < best) [best, nearest] = [far, 2 * k + isLast];
    }
  });
  return nearest;
}

/* The lines as chains: from the lower left corner always on to the nearest end of one, which may be
 * turned. */
function shortWay(lines) {
  const left = [], way = [];
  for (const line of lines) joinChain(left, [line]);
  for (let here = [0, 0]; left.length > 0;) {
    const nearest = nearestEnd(left, here), [chain] = left.splice(nearest >> 1, 1);
    joinChain(way, nearest % 2 === 0 ? chain
      : chain.reverse().map(({ begin, end, light }) => ({ begin: end, end: begin, light })));
    here = way.at(-1).at(-1).end;
  }
  return way;
}

/* --- Its samples: places in halves of the screen, from its middle --- */

/* How many of so many samples each line gets: one if its share by light is less, or else that
 * share, rounded so that no line is owed more than half a sample. */
function sharesOf(weights, count) {
  const isFew = weights.map(() => false);
  let rest, light, before;
  do {
    before = rest;
    rest = count - isFew.filter((one) => one).length;
    light = weights.reduce((sum, weight, k) => (isFew[k] ? sum : sum + weight), 0);
    weights.forEach((weight, k) => { isFew[k] ||= weight * rest < light; });
  } while (rest !== before);
  let owed = 0;
  return weights.map((weight, k) => {
    owed += isFew[k] ? 1 : weight * rest / light;
    const given = Math.floor(owed + 0.5);
    owed -= given;
    return given;
  });
}

/* The beam's places: the begin of each chain, those of its lines, by their light, and one half way
 * to the next chain. They are `count`, or more if each line needs one. */
function placesOf(way, count) {
  const lines = way.flat(), jumps = 2 * way.length - 1, xs = [], ys = [];
  const weights = lines.map(({ begin, end, light }) => (
    light * (Math.sqrt(squareBetween(begin, end)) || DOT_LENGTH)));
  const given = sharesOf(weights, Math.max(count - jumps, lines.length));
  const put = (begin, end, part) => {
    const [x, y] = betweenPlaces(begin, end, part);
    xs.push(2 * x / BEAM_SIDE - 1);
    ys.push(2 * y / BEAM_SIDE - 1);
  };
  let number = 0, before = null;
  for (const chain of way) {
    const first = chain[0].begin;
    if (before !== null) put(before, first, 0.5);
    put(first, first, 0);
    for (const { begin, end } of chain) {
      const samples = given[number++];
      for (let k = 1; k <= samples; k++) put(begin, end, k / samples);
    }
    before = chain.at(-1).end;
  }
  return [xs, ys];
}

/* The same, and a wait on the far side of the light, with one place half way to it and one half way
 * back: as long as it must be so that the mean of each axis is 0. */
function placesWithWait(way, count) {
  for (let waits = 1; ;) {
    const sides = placesOf(way, count - waits - 2);
    // Both places half way have half of the corner in them.
    const corner = sides.map((side) => (
      -(side.reduce((a, b) => a + b, 0) + (side[0] + side.at(-1)) / 2) / (waits + 1)));
    const far = Math.max(...corner.map(Math.abs));
    if (far <= WAIT_AT) {
      return sides.map((side, axis) => [(corner[axis] + side[0]) / 2, ...side,
        (side.at(-1) + corner[axis]) / 2, ...Array.from({ length: waits }, () => corner[axis])]);
    }
    // A longer wait leaves less light to be balanced.
    const mean = far * (waits + 1) / (count - waits - 1);
    waits = Math.max(waits + 1, Math.floor(count * mean / (mean + WAIT_AT)) - 1);
  }
}

/* The places of strokes; of a dark picture those around the screen. */
function placesOfStrokes(strokes, count) {
  const lines = strokes.map(lineOfStroke).filter((line) => line !== null);
  if (lines.length > 0) return placesWithWait(shortWay(lines), count);
  const ring = AROUND_SCREEN.slice(1).map((end, k) => ({ begin: AROUND_SCREEN[k], end, light: 1 }));
  return placesOf([ring], count);
}

/* What a step from one sample to the next leaves after one more, behind a high-pass. */
const poleOf = (hertz, highPass) => Math.exp(-2 * Math.PI * highPass / hertz);

/* Left and right of a picture: of strokes, in so many samples, of which there are `hertz` in a
 * second. What an output's high-pass of the first order does from `highPass` Hertz on is undone, so
 * a side may be larger than the full scale. */
export function soundOfStrokes(strokes, count, hertz, highPass) {
  const pole = poleOf(hertz, highPass);
  return placesOfStrokes(strokes, count).map((side) => {
    let sum = 0;
    return Float32Array.from(side, (value) => {
      const raised = (value + sum) * 2 / (1 + pole);
      sum += value * (1 - pole);
      return VOLUME * raised;
    });
  });
}

/* --- What an oscilloscope shows of it --- */

/* What that high-pass leaves of a side that is repeated without an end. */
export function passedSide(side, hertz, highPass) {
  if (highPass === 0) return side;
  const pole = poleOf(hertz, highPass), passed = new Float32Array(side.length);
  let last = 0, before = side.at(-1);
  for (let k = 0; k < side.length; k++) {
    passed[k] = last = pole * last + (1 + pole) / 2 * (side[k] - before);
    before = side[k];
  }
  // What an earlier turn leaves.
  let rest = last / (1 - pole ** side.length);
  for (let k = 0; k < side.length; k++) passed[k] += rest *= pole;
  return passed;
}

/* How many weights of samples a place between two of them has on each side. */
const SIDE_TAPS = 8;

/* The weights of the samples around a place that is such a part of the way to the next one. */
function tapsOf(part) {
  return Float32Array.from({ length: 2 * SIDE_TAPS }, (_, tap) => {
    const far = Math.PI * (tap - SIDE_TAPS + 1 - part);
    return (far === 0 ? 1 : Math.sin(far) / far) * (0.5 + 0.5 * Math.cos(far / (SIDE_TAPS + 1)));
  });
}

/* A side of a picture that is repeated, with so many places for each sample, as an output that has
 * nothing above half of the rate makes them. */
export function finePlaces(side, places) {
  const count = side.length, fine = new Float32Array(count * places);
  const round = new Float32Array(count + 2 * SIDE_TAPS);
  round.set(side, SIDE_TAPS - 1);
  round.set(side.subarray(count - SIDE_TAPS + 1), 0);
  round.set(side.subarray(0, SIDE_TAPS + 1), count + SIDE_TAPS - 1);
  for (let part = 0; part < places; part++) {
    const taps = tapsOf(part / places);
    for (let k = 0; k < count; k++) {
      let sum = 0;
      for (let tap = 0; tap < 2 * SIDE_TAPS; tap++) sum += taps[tap] * round[k + tap];
      fine[k * places + part] = sum;
    }
  }
  return fine;
}
