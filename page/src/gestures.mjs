/* What hands do: keys, wheels, drags and drops, on the rows, the RAM and the page. */
import { byId } from './parts.mjs';

const STEPS = {
  ArrowLeft: -1, ArrowRight: 1, ArrowDown: -1, ArrowUp: 1, PageUp: -100, PageDown: 100,
  Home: -Infinity, End: Infinity,
};

/* On the rows; `stage` tells how many events there are, shows another moment, and draws the rows.
 */
export function listenToRows(rows, stage) {
  const { canvas } = rows;
  canvas.addEventListener('keydown', (event) => {
    if (event.ctrlKey || event.altKey || event.metaKey) return;
    if (event.key === '+' || event.key === '-') stage.zoom(event.key === '+' ? 2 : 0.5);
    else if (event.key in STEPS) stage.walk(STEPS[event.key] * (event.shiftKey ? 10 : 1));
    else return;
    event.preventDefault();
  });
  canvas.addEventListener('wheel', (event) => turnWheel(event, rows, stage), { passive: false });
  listenToDrags(canvas, rows, stage);
}

/* With Ctrl a wheel zooms; sideways, or with Shift, it moves the rows; else it is the page's. */
function turnWheel(event, rows, stage) {
  const { ctrlKey, shiftKey, deltaX, deltaY } = event, aside = deltaX || (shiftKey ? deltaY : 0);
  if (!ctrlKey && aside === 0) return;
  event.preventDefault();
  if (ctrlKey) rows.zoom(deltaY < 0 ? 1.25 : 0.8, rows.eventAt(event.offsetX), stage.length);
  else rows.pan(aside, stage.length);
  stage.drawRows();
}

/* A drag moves the rows; a click shows the moment after the event there. */
function listenToDrags(canvas, rows, stage) {
  let from = null;
  canvas.addEventListener('pointerdown', (event) => {
    from = { x: event.offsetX, first: rows.first, moved: false };
    canvas.setPointerCapture(event.pointerId);
  });
  canvas.addEventListener('pointermove', (event) => {
    if (from === null) return;
    from.moved ||= Math.abs(event.offsetX - from.x) > 4;
    if (!from.moved) return;
    rows.pan(from.x - event.offsetX, stage.length, from.first);
    stage.drawRows();
  });
  canvas.addEventListener('pointerup', (event) => {
    if (from !== null && !from.moved) stage.goTo(rows.eventAt(event.offsetX) + 1);
    from = null;
  });
  canvas.addEventListener('pointercancel', () => { from = null; });
}

const MOVES = { ArrowLeft: [-1, 0], ArrowRight: [1, 0], ArrowUp: [0, -1], ArrowDown: [0, 1] };

/* On the RAM: a word is chosen, and then shown. */
export function listenToMemory(memory, show) {
  const canvas = byId('memory');
  const choose = (word) => {
    memory.chosen = word;
    show();
  };
  canvas.addEventListener('pointermove',
    (event) => choose(memory.wordAt(event.offsetX, event.offsetY) ?? memory.chosen));
  canvas.addEventListener('keydown', (event) => {
    if (!(event.key in MOVES)) return;
    event.preventDefault();
    choose(memory.chosen === null ? 0 : memory.move(memory.chosen, ...MOVES[event.key]));
  });
}

/* Files that are dropped, pasted or chosen: they are opened, as this kind where it isn't null. */
export function listenToFiles(open) {
  const { body } = document;
  document.addEventListener('dragover', (event) => {
    event.preventDefault();
    body.classList.add('dropping');
  });
  document.addEventListener('dragleave', (event) => {
    if (event.relatedTarget === null) body.classList.remove('dropping');
  });
  document.addEventListener('drop', (event) => {
    event.preventDefault();
    body.classList.remove('dropping');
    const files = [...event.dataTransfer.files];
    if (files.length > 0) open(files, null);
  });
  document.addEventListener('paste', (event) => {
    const text = event.clipboardData?.getData('text/plain') ?? '';
    if (text === '' || /^(INPUT|TEXTAREA)$/.test(event.target.tagName)) return;
    event.preventDefault();
    open([new File([text], 'what was pasted')], null);
  });
  for (const [id, kind] of [['open', null], ['open-rom', 'rom'], ['open-game', null],
    ['open-both', null]]) {
    byId(id).addEventListener('change', (event) => {
      const files = [...event.target.files];
      if (files.length > 0) open(files, kind);
      event.target.value = '';
    });
  }
}

/* A canvas that is given a size is empty after that, also where it had that size before. */
function fitCanvas(canvas, width, height) {
  if (canvas.width !== width) canvas.width = width;
  if (canvas.height !== height) canvas.height = height;
}

/* Canvases that get another size, after which `fitted` is called. `data-most` says how many pixels
 * one has across at most. Returns what looks at them. */
export function listenToSizes(canvases, fitted) {
  const fit = () => {
    for (const canvas of canvases) {
      const most = (Number(canvas.dataset.most) || Infinity) / (canvas.clientWidth || 1);
      const ratio = Math.min(2, devicePixelRatio || 1, most);
      fitCanvas(canvas, Math.round(canvas.clientWidth * ratio),
        Math.round(canvas.clientHeight * ratio));
    }
    fitted();
  };
  fit();
  const observer = new ResizeObserver(fit);
  for (const canvas of canvases) observer.observe(canvas);
  return fit;
}
