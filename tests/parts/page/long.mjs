// A log of 100,000 events, and what is measured while one moves over it, for browser.mjs
// and firefox.mjs: both are expressions in the page.

// Drops such a log on the page.
export const DROP_LONG_LOG = `(() => {
  const hex = (number) => number.toString(16).toUpperCase().padStart(3, '0'), lines = [];
  while (lines.length < 100000) {
    lines.push('started', 'low 000 01', 'fetched 000 E001');
    for (let word = 1; word < 90; word++) {
      const next = word % 2 ? '9064' : '7064';
      lines.push('low ' + hex(word) + ' 64', 'wrote ' + hex(0x402 + 2 * word) + ' 90',
        'fetched ' + hex(word) + ' ' + (word === 89 ? 'B064' : next));
    }
    lines.push('halted');
  }
  const dataTransfer = new DataTransfer();
  dataTransfer.items.add(new File([lines.join('\\n') + '\\n'], 'long.log'));
  document.body.dispatchEvent(new DragEvent('drop', { dataTransfer, bubbles: true,
    cancelable: true }));
  return lines.length;
})()`;

// How long it is from one frame to the next, in milliseconds, sorted: while the rows are dragged
// back from their end, while a wheel turns on, and while an arrow key is held. And what the wheel
// did: by how many events a click at one place shows an earlier moment, and whether another picture
// of the rows was drawn.
export const MOVE_OVER_IT = `(async () => {
  const rows = document.getElementById('rows'), { x, y } = rows.getBoundingClientRect();
  const frames = async (act) => {
    const times = [];
    for (let k = 0, last = performance.now(); k < 120; k++) {
      act(k);
      await new Promise(requestAnimationFrame);
      times.push(performance.now() - last);
      last = performance.now();
    }
    return times.sort((a, b) => a - b);
  };
  const point = (type, at) => rows.dispatchEvent(new PointerEvent(type,
    { clientX: x + at, clientY: y + 30, pointerId: 1, bubbles: true }));
  rows.setPointerCapture = () => {};
  for (let k = 0; k < 6; k++) document.getElementById('zoom-in').click();
  point('pointerdown', 600);
  const drag = await frames((k) => point('pointermove', 600 + 9 * k));
  point('pointerup', 0);
  const clicked = () => {
    point('pointerdown', 100);
    point('pointerup', 100);
    return Number(rows.getAttribute('aria-valuenow'));
  };
  const moment = clicked(), picture = rows.toDataURL();
  const wheel = await frames(() => rows.dispatchEvent(new WheelEvent('wheel',
    { deltaX: -40, cancelable: true, bubbles: true })));
  const drawn = picture !== rows.toDataURL(), moved = moment - clicked();
  const key = await frames(() => rows.dispatchEvent(new KeyboardEvent('keydown',
    { key: 'ArrowLeft', cancelable: true, bubbles: true })));
  return { drag, wheel, key, moved, drawn };
})()`;

// What was measured, in words.
export function movesText(moves) {
  const texts = ['drag', 'wheel', 'key'].map((name) => {
    const [median, most] = [59, 113].map((k) => moves[name][k].toFixed(1));
    return `by ${name} ${median} ms, ${most} or less in 19 of 20`;
  });
  return `over 100,000 events frames come each: ${texts.join('; ')}`;
}
