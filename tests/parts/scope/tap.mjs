// What is run in a page before its Scope plays, to hear what comes of it; and how that is looked
// at.

// Keeps each picture that is handed on, and all that is heard, in blocks that have no gap in them.
export const TAP = `(() => {
  const { connect } = AudioNode.prototype, { start } = AudioBufferSourceNode.prototype;
  const both = (buffer) => [0, 1].map((side) => buffer.getChannelData(side).slice());
  window.tapped = { pictures: [], blocks: [], tap: null, isKept: false };
  AudioBufferSourceNode.prototype.start = function (when) {
    tapped.pictures.push(both(this.buffer));
    start.call(this, when);
  };
  AudioNode.prototype.connect = function (to) {
    if (tapped.tap === null) {
      tapped.tap = this.context.createScriptProcessor(16384, 2, 2);
      tapped.tap.onaudioprocess = ({ inputBuffer }) => {
        if (tapped.isKept) tapped.blocks.push(both(inputBuffer));
      };
      connect.call(tapped.tap, to);
    }
    connect.call(this, tapped.tap);
    connect.call(this, to);
  };
})()`;

// Follows each block turn by turn, after the silence before the first picture: how many whole turns
// are in it, how often another picture began, how many samples are of no turn, or silent, and in
// how many turns the first one is another one.
const HEARD = `(() => {
  const { pictures, blocks } = tapped, samples = 16384 * blocks.length;
  const found = { turns: 0, changes: 0, samples, lost: 0, silent: 0, first: 0 };
  const near = (a, b) => Math.abs(a - b) < 1e-4;
  const isAt = (block, at, [left, right], k) => (
    near(block[0][at], left[k]) && near(block[1][at], right[k]));
  const fits = (block, at, picture, from) => {
    for (let k = from; k < picture[0].length && at < block[0].length; k++, at++) {
      if (k > 0 && !isAt(block, at, picture, k)) return false;
    }
    return true;
  };
  const next = (block, at, first) => (
    pictures.findIndex((picture, k) => k >= first && fits(block, at, picture, 0)));
  const begin = (block, at) => {
    for (const [number, picture] of pictures.entries()) {
      for (let from = picture[0].length - 1; from >= 0; from--) {
        const end = at + picture[0].length - from;
        if (fits(block, at, picture, from) && next(block, end, number) >= 0) return [number, end];
      }
    }
    return [0, at];
  };
  const isSilent = (block, at) => block[0][at] === 0 && block[1][at] === 0;
  for (const [turn, block] of blocks.entries()) {
    let at = 0;
    while (turn === 0 && isSilent(block, at)) at++;
    let [number, now] = begin(block, at);
    for (let k = at; k < block[0].length; k++) if (isSilent(block, k)) found.silent++;
    while (now < block[0].length) {
      const then = next(block, now, number);
      if (then < 0) found.lost++;
      else if (then !== number) found.changes++;
      if (then >= 0) found.turns++;
      if (then >= 0 && !isAt(block, now, pictures[then], 0)) found.first++;
      [number, now] = then < 0 ? [number, now + 1] : [then, now + pictures[then][0].length];
    }
  }
  tapped.blocks = [];
  return found;
})()`;

// Listens for some blocks of a third of a second, in one of which the page is busy all the while.
// `page` has value() and until(), which ask it.
export async function listen(page, blocks) {
  await page.value('tapped.isKept = true');
  await page.value('(() => { for (const end = Date.now() + 120; Date.now() < end;); })()');
  await page.until(`tapped.blocks.length >= ${blocks}`);
  await page.value('tapped.isKept = false');
  return page.value(HEARD);
}

// How much of the light of the picture that is played is lit on a tube, in percent, by its id.
export const litOn = (id) => `(() => {
  const tube = document.getElementById('${id}'), [xs, ys] = tapped.pictures.at(-1);
  const { data, width } = tube.getContext('2d').getImageData(0, 0, tube.width, tube.height);
  const pixel = (value) => Math.round((10 + (value / 0.8 + 1) * 511.5) * width / 1044);
  let lit = 0, all = 0;
  for (const [k, x] of xs.entries()) {
    if (Math.max(Math.abs(x), Math.abs(ys[k])) > 0.8) continue;
    const [column, row] = [pixel(x), width - pixel(ys[k])];
    all++;
    for (let near = 0, isLit = false; near < 25 && !isLit; near++) {
      const at = 4 * ((row + near % 5 - 2) * width + column + (near / 5 | 0) - 2);
      isLit = Math.max(data[at], data[at + 1], data[at + 2]) > 100;
      if (isLit) lit++;
    }
  }
  return 100 * lit / all;
})()`;
