// Pixels of the tube beside strokes, for browser.mjs and games.mjs.

// Points along strokes, on a tube that is so wide: 10 units more are on each side of the 1,024.
function pointsOf(strokes, width) {
  const place = (x, y) => [(x / 512 + 10) * width / 1044, width - (y / 512 + 10) * width / 1044];
  return strokes.flatMap(([x0, y0, x1, y1]) => {
    const steps = Math.ceil(Math.hypot(x1 - x0, y1 - y0) / 512) + 1;
    return Array.from({ length: steps + 1 }, (_, k) => (
      place(x0 + (x1 - x0) * k / steps, y0 + (y1 - y0) * k / steps)));
  });
}

// Whether what is lit is what strokes draw: each of their points is, and nothing far from them.
export function isDrawn(strokes, { width, found }) {
  const lit = new Uint8Array(width * width), close = new Uint8Array(width * width);
  for (const at of found) lit[at] = 1;
  const near = (far, [x, y], look) => {
    for (let dy = -far; dy <= far; dy++) for (let dx = -far; dx <= far; dx++) {
      if (look(Math.round(x + dx) + width * Math.round(y + dy))) return true;
    }
    return false;
  };
  const points = pointsOf(strokes, width);
  for (const point of points) near(5, point, (at) => { close[at] = 1; });
  return found.every((at) => close[at] === 1)
    && points.every((point) => near(2, point, (at) => lit[at] === 1));
}

// The bright pixels of an image, by their places.
export function brightOf({ data, width }) {
  const found = [];
  for (let k = 0; k < data.length; k += 4) {
    if (Math.max(data[k], data[k + 1]) >= 140) found.push(k >> 2);
  }
  return { width, found };
}
