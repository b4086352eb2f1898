/* The page: what its buttons do, and what it shows. */
import { COMMAND, Engine } from './engine.mjs';
import { Board, MOST_EVENTS } from './board.mjs';
import { bytesOfBase64 } from './hex.mjs';
import { byId, setText, tellBoth } from './parts.mjs';
import { AREA, SIGN, areaOf } from './signs.mjs';
import { playSteps, replay, stepsOf, traceOf } from './traces.mjs';
import { Drawer, marksOf, momentOf } from './moments.mjs';
import { generatorOf, insideRows } from './inside.mjs';
import { besideOf, strokesOfLines, tearCode, tearOf, tearText } from './tears.mjs';
import { Chance, Proportions, reelOf } from './chance.mjs';
import { fragmentOf, linksOut, plainFragment, stateOf } from './links.mjs';
import { Code } from './code.mjs';
import { controlsOf } from './controls.mjs';
import { Drops, whyNotShown } from './drops.mjs';
import { LESSONS, stateOfLesson, withLesson } from './lessons.mjs';
import { TOUR_RATE, TOUR_STEPS, Tour } from './tour.mjs';
import { Screen, drawSmall } from './screen.mjs';
import { Rows } from './rows.mjs';
import { Memory } from './memory.mjs';
import { DraftEditor, RomEditor } from './editors.mjs';
import { listenToFiles, listenToMemory, listenToRows, listenToSizes } from './gestures.mjs';
import { Verdicts, compareWithPlay } from './verdicts.mjs';
import {
  counted, countsText, grouped, instructionText, leftText, momentCode, momentText, pictureText,
  runText, wordCode, wordText,
} from './words.mjs';
import { builtGame } from './eproms.mjs';
import { Play, listenToPlay } from './play.mjs';
import { FIRST_TWICE, Twice, listenToTwice } from './twice.mjs';
import { DRIVER_END, START, labelsOf } from './programs.mjs';
import { linesOfListing } from './twin.mjs';
import { SCENES } from './playfield.mjs';
import { ADVICE, FILES, FRAMES, GAMES, LISTING, WASM } from './built.mjs';

/* What stands in the editors by a name. */
const EXAMPLES = { ...SCENES, ...FRAMES };

/* What a newcomer sees: these frames, after so many events. */
const [FIRST_A, FIRST_B] = Object.keys(SCENES);
const FIRST = { a: FIRST_A, b: FIRST_B }, FIRST_EVENTS = 2600;

/* What leads to the opening of the board, in the part of an address that no browser sends. */
const OPENING_HASH = '#opening';
const LOG_BEFORE = 12, LOG_AFTER = 4;
/* The largest seed. */
const MOST_SEED = 4294967295;
/* How many frames of a sketch are drawn in a second beside its text. */
const PREVIEW_RATE = 12;
/* How many events before and after a torn line are shown. */
const TORN_AROUND = 60;
/* How many events at a time happen until a still shows a tear. */
const STILL_EVENTS = 500;
/* How many pixels an event has in the rows while the tour runs. */
const ROWS_TOUR_SCALE = 0.4;
/* While it runs, how often the log is judged, and texts are shown, in milliseconds. */
const JUDGE_EVERY = 500, TEXTS_EVERY = 100;
/* A frame of the animation makes up for at most so many milliseconds. */
const MOST_PASSED = 200;

let engine, drawer, tube, board, schedule = null, running = false;
/* How many events are to go while it runs. */
let toGo = 0;
/* What shows a concern of its own: the verdicts, the driver's code, files that are opened, and a
 * game, alone or twice. `fitSizes` gives canvases that come into view their size. */
let verdicts, code, drops, play, twice, fitSizes;
/* What is shown: the board, or a recording of what happened elsewhere. */
let shown;
/* When texts were shown, when a frame was, and whose turn it is to be drawn. */
let textsAt = 0, animatedAt = 0, turn = false;
/* The moment that is shown: how many events have happened by then. */
let at = 0;
let lesson = 0;
let editorA, editorB, editorR, screen, rows, memory, colors, tour;
const drawings = new Map(), frameTimes = [];

/* The canvases that are as large as they are shown. */
const FITTED = ['screen', 'rows', 'memory', 'tube', 'past', 'tube-whole', 'rows-whole', 'tube-cut',
  'rows-cut'];

/* --- Beginning anew --- */

function beginAnew(wireCut = board?.wireCut ?? false) {
  board?.free();
  board = new Board(engine, editorR.rom, wireCut, byId('half-count').value === '1');
  board.id = performance.now();
  shown = board;
  schedule = null;
  moveTo(0);
}

function moveTo(moment) {
  at = Math.min(shown.length, Math.max(0, moment));
  rows.follow(at);
}

/* Lets the board be as it was at the moment that is shown. */
function forgetLater() {
  setRunning(false);
  const { entries, wires } = board, end = at;
  beginAnew(false);
  replay({ entries, wires }, board, end);
  moveTo(end);
  changed();
}

function setWire(cut) {
  board.setWire(cut);
  changed();
}

/* --- Events --- */

function happen(event) {
  board.happen(event);
  at = board.length;
}

function reelNow() {
  return reelOf(editorA.frames, editorB.frames);
}

/* Offers the frame of an editor; of a sketch the next one each time. */
function offer(editor) {
  happenOften(() => ({ name: 'offer', draft: editor.next() }));
}

function eventOf(name) {
  if (name !== 'resetall') return { name };
  const byte = byId('byte').value;
  return { name, byte: /^[0-9A-Fa-f]{1,2}$/.test(byte) ? parseInt(byte, 16) : 0 };
}

/* Lets an event happen as often as is asked for. */
function happenOften(next) {
  const times = clamp(byId('times').value, 1, 9999);
  for (let k = 0; k < times; k++) happen(next());
  changed();
}

function clamp(text, least, most) {
  return Math.min(most, Math.max(least, Math.floor(Number(text)) || least));
}

/* --- Schedules by a seed --- */

const SCHEDULES = {
  chance: (seed, reel) => new Chance(seed, reel),
  resets: (seed, reel) => new Chance(seed, reel, true),
  board: (seed, reel) => new Proportions(seed, reel),
  ignored: (seed, reel) => new Proportions(seed, reel, true),
};

function scheduleNow() {
  const how = byId('how').value, seed = clamp(byId('seed').value, 0, MOST_SEED);
  const key = `${how} ${seed}`;
  if (schedule?.key !== key) schedule = { key, made: SCHEDULES[how](seed, reelNow) };
  return schedule;
}

/* Whether a run ends only when somebody stops it. */
function isEndless() {
  return byId('endless').checked && !tour.running;
}

/* What the buttons may do now, and why. */
function controlsNow() {
  return controlsOf({
    isBoard: shown === board, isFull: board.full, isRunning: running, isEndless: isEndless(),
    offerable: [editorA.offerable, editorB.offerable],
    isMoving: [editorA, editorB].some(({ frames }) => frames.length > 1),
    isNewest: at === shown.length, left: running ? toGo : countOfRun(), rate: rateNow(),
    wireCut: board.wireCut, oneHalf: board.oneHalf, how: byId('how').value,
  });
}

function runSome(count, until = Infinity) {
  const { made } = scheduleNow();
  for (let k = 0; k < count && !board.full; k++) {
    happen(made.next(board));
    if (k % 32 === 31 && performance.now() > until) return k + 1;
  }
  return count;
}

function countNow() {
  return clamp(byId('count').value, 1, MOST_EVENTS);
}

function runAtOnce() {
  runSome(countNow());
  changed();
}

/* Runs until the next picture is done. */
function runOnePicture() {
  const before = board.pictures.length;
  for (let k = 0; k < MOST_EVENTS && board.pictures.length === before && !board.full; k++) {
    runSome(1);
  }
  changed();
}

/* How many events happen in a second of the animation. */
function rateNow() {
  return tour.running ? TOUR_RATE : 60 * 2 ** Number(byId('speed').value);
}

/* How many events a run has. */
function countOfRun() {
  if (isEndless()) return Infinity;
  return tour.running ? MOST_EVENTS : countNow();
}

/* Begins anew while it runs, as the board holds no more events: its frames, its halves and its wire
 * stay as they are, and the seed is the next one. */
function beginNext() {
  byId('seed').value = (clamp(byId('seed').value, 0, MOST_SEED) + 1) % (MOST_SEED + 1);
  beginAnew();
  changed();
}

function setRunning(on) {
  running = on && controlsNow().canRun;
  if (running) {
    toGo = countOfRun();
    animatedAt = performance.now();
    requestAnimationFrame(animate);
  } else tour.end();
  changed();
}

/* A frame of the animation: some events, and all that is shown. */
function animate() {
  if (!running) return;
  const begin = performance.now(), passed = Math.min(MOST_PASSED, begin - animatedAt);
  animatedAt = begin;
  const wanted = Math.max(1, Math.round(rateNow() * passed / 1000));
  toGo -= runSome(Math.min(toGo, wanted, tour.running ? tour.room(board) : Infinity), begin + 3);
  rows.follow(at);
  if (begin - verdicts.judgedAt > JUDGE_EVERY) judge();
  show();
  frameTimes.push(performance.now() - begin);
  if (board.full && isEndless()) beginNext();
  if (toGo <= 0 || board.full) setRunning(false);
  else requestAnimationFrame(animate);
  if (tour.running) tour.pass(board);
}

function wantsLessMotion() {
  return matchMedia('(prefers-reduced-motion: reduce)').matches;
}

/* Someone who wants less motion sees where the run leads, and no animation. */
function run() {
  tour.end();
  if (running) setRunning(false);
  else if (!wantsLessMotion()) setRunning(true);
  else {
    if (board.full) beginNext();
    runAtOnce();
  }
}

/* --- Verdicts --- */

/* Shows an event; of one that ends a picture the whole run, too. */
function goToResult(event) {
  goTo(event + 1);
  const picture = shown.pictures.find((one) => one.at === event);
  if (picture === undefined) return;
  rows.showSpan(picture.from, picture.at + 1);
  show();
}

function judge() {
  verdicts.judge(shown, shown === board);
}

function compare() {
  const { same, text } = compareWithPlay(engine, board);
  byId('compared').className = same ? 'good' : 'bad';
  byId('compared').textContent = text;
}

/* The strokes that a draft draws by itself, as a text; of the lines of the ROM and the draft. */
function drawingOf(draft) {
  const key = board.rom.text + draft;
  if (!drawings.has(key)) {
    const trace =
      `${board.rom.text}tick 2\noffer\n${draft}\nend\ntick 1100\nstrobe\nfetch 9999\nfetch 9999\n`;
    drawings.set(key, engine.run(COMMAND.play, trace).output.split('\n').slice(1, -1).join('\n'));
  }
  return drawings.get(key);
}

/* Which of the offered frames a picture is; null of a recording, which has none. */
function nameOf(picture) {
  if (shown !== board) return null;
  const drawn = picture.strokes.map((stroke) => stroke.join(' ')).join('\n');
  for (const [draft, event] of shown.drafts) {
    if (event <= picture.at && drawingOf(draft) === drawn) return nameOfDraft(draft);
  }
  return 'no frame that was offered';
}

function nameOfDraft(draft) {
  return editorA.nameOf(draft) ?? editorB.nameOf(draft)
    ?? `the frame first offered in event ${shown.drafts.get(draft)}`;
}

/* What a picture is made of that is torn, or shows what came early, which is found once; null of
 * another one. */
function tearNow(picture) {
  if (picture === null || !(picture.torn || picture.seen > 0)) return null;
  picture.tear ??= tearOf(engine, shown, picture, drawingOf);
  return picture.tear;
}

/* Whether both frames of a torn picture are of the opening's scene, which begins in editor A and
 * ends in B: from there to A it jumps. */
function isOneScene(picture) {
  const { wanted, draft } = tearNow(picture);
  const isOf = (editor, name) => name?.endsWith(`of ${editor.place.id}`) ?? false;
  return draft !== null && (isOf(editorA, nameOf({ strokes: wanted, at: picture.at }))
    || isOf(editorB, nameOfDraft(draft)));
}

/* --- What is shown --- */

function readColors() {
  const style = getComputedStyle(document.documentElement);
  const of = (name) => style.getPropertyValue(`--${name}`).trim();
  const areas = [];
  areas[AREA.HALF0] = of('half0');
  areas[AREA.HALF1] = of('half1');
  areas[AREA.ZERO] = of('zero');
  areas[AREA.ROM] = of('rom');
  areas[AREA.NONE] = of('none');
  colors = {
    areas, ink: of('ink'), dim: of('dim'), field: of('field'), torn: of('torn'),
    early: of('early'), glows: [null, of('early-glow'), of('torn-glow')], good: of('good'),
    shade: of('shade'),
  };
  for (const one of [play, twice]) if (one !== undefined) one.colors = colors;
}

/* After something has happened or was chosen. */
function changed() {
  rows.follow(at);
  showControls();
  judge();
  byId('compared').textContent = '';
  show();
  showTour();
  showTorn();
  showFrameTime();
}

function show() {
  const moment = momentOf(shown, at);
  showScreen(moment);
  // While it runs, the rows and the RAM are drawn by turns.
  turn = !turn;
  if (!running || turn) rows.draw(shown, at, colors);
  if (!running || !turn) memory.draw(moment, marksOf(shown, at), colors);
  const now = performance.now();
  if (running && now - textsAt < TEXTS_EVERY) return;
  textsAt = now;
  showTexts(moment);
}

function showTexts(moment) {
  showPictureText(moment);
  if (!running) showWord(moment);
  showLog();
  setText(byId('counts'), countsText(shown));
  tellBoth(byId('moment-text'), momentText(shown, at), momentCode(shown, at));
  byId('rows').setAttribute('aria-valuemax', shown.length);
  byId('rows').setAttribute('aria-valuenow', at);
  showControls();
  showInside(moment);
  code.show(shown, at, shown === board);
  showInstruction(moment);
  showTear(running ? null : tornPicture(moment));
  if (!running) byId('rows').setAttribute('aria-valuetext', momentText(shown, at));
}

/* The picture whose tear is told: that of the open run, if it will have one, or the newest. */
function tornPicture({ picture, run: open }) {
  const later = shown.pictures.find(({ from }) => from === open?.from) ?? null;
  return tearNow(later) === null ? picture : later;
}

/* A torn picture: both frames that it is of, and the byte that came in between. With one half, what
 * the same events draw with two, too. */
function showTear(picture) {
  const tear = tearNow(picture);
  byId('tear').hidden = tear === null;
  byId('about').hidden = tear !== null || shown !== board || lesson > 0 || tour.step >= 0;
  if (tear === null) return;
  drawSmall(byId('wanted'), tear.wanted, 0);
  drawSmall(byId('next'), tear.next ?? [], 1);
  const begun = nameOf({ strokes: tear.wanted, at: picture.at }) ?? 'as the run began';
  byId('wanted-text').textContent = `Being drawn: ${begun}`;
  byId('next-text').textContent = tear.draft === null ? 'The memory as the run ended'
    : `Written into it: ${nameOfDraft(tear.draft)}`;
  byId('tear-title').textContent = picture.torn ? 'The tear' : 'What came early, and shows';
  showBeside(picture);
  if (tear.word === null) tellBoth(byId('tear-text'), '', '');
  else tellBoth(byId('tear-text'), tearText(tear, picture), tearCode(tear));
  byId('tear-go').disabled = tear.word === null;
  byId('tear-go').onclick = () => goTo(tear.word.event + 1);
  byId('tear-back').onclick = () => goToResult(picture.at);
}

function showBeside(picture) {
  byId('beside').parentElement.hidden = !shown.oneHalf;
  if (!shown.oneHalf) return;
  picture.beside ??= besideOf(engine, shown, picture);
  drawSmall(byId('beside'), picture.beside.strokes, 0);
  setText(byId('beside-text'),
    `The same events with two halves: ${picture.beside.torn ? 'torn' : 'whole'}`);
}

function showTour() {
  byId('tour').hidden = tour.step < 0;
  if (tour.step < 0) return;
  const { title, text } = TOUR_STEPS[tour.step], number = tour.step + 1;
  setText(byId('tour-title'), `${number} of ${TOUR_STEPS.length}: ${title}`);
  setText(byId('tour-text'), text.replace(/\s+/g, ' '));
  setText(byId('tour-end'), tour.running ? 'Skip the tour' : 'Close');
  byId('tour-again').hidden = tour.running;
}

/* A run that was abandoned stays on the tube as far as it came, in place of the picture before. */
function showScreen({ picture, run: open, left, isOld }) {
  if (picture !== null) picture.id ??= performance.now();
  const seen = left === null ? picture : { id: `left ${left.from}`, strokes: tube.strokesOf(left) };
  const id = `${shown.id} ${open?.from}`;
  const isDim = open !== null || (left === null && isOld);
  screen.draw(seen, open === null ? null : { id, strokes: drawer.strokesOf(open) }, isDim,
    left === null ? tearNow(picture) : null);
}

/* The class of a picture's text. */
function colorOfPicture(picture) {
  if (picture?.torn) return 'bad';
  return picture?.early > 0 ? 'early' : '';
}

function showPictureText({ picture, run: open, left }) {
  const text = byId('picture-text');
  text.className = colorOfPicture(picture);
  const number = picture === null ? 0 : shown.pictures.indexOf(picture) + 1;
  const named = picture === null ? null : nameOf(picture);
  const run = runText(open, drawer.strokesOf(open).length);
  const cut = left === null ? '' : leftText(tube.strokesOf(left).length);
  setText(text, `${pictureText(picture, number, named)} ${cut}${run}`);
}

function showLog() {
  const from = Math.max(0, at - LOG_BEFORE), to = Math.min(shown.length, at + LOG_AFTER);
  const lines = byId('log');
  while (lines.children.length > to - from) lines.lastChild.remove();
  while (lines.children.length < to - from) lines.append(document.createElement('span'));
  for (let k = from; k < to; k++) {
    const { early, text } = shown.entryAt(k), line = lines.children[k - from];
    const seen = shown.signs[k] === SIGN.SEEN, mark = seen ? '   early, and shows' : '   early';
    line.textContent = `${k} ${text}${early ? mark : ''}`;
    const names = [k === at - 1 && 'now', k >= at && 'later', early && (seen ? 'bad' : 'early')];
    line.className = names.filter(Boolean).join(' ');
  }
}

function showInside(moment) {
  const listed = (words) => instructionText(engine, words);
  byId('inside-rows').replaceChildren(...insideRows(shown, moment, listed)
    .flatMap(([name, words, hexadecimal]) => {
      const [term, text] = ['dt', 'dd'].map((tag) => document.createElement(tag));
      term.textContent = name;
      tellBoth(text, words, hexadecimal);
      return [term, text];
    }));
}

/* Marks the line of the instruction of a dump that was read last. */
function showInstruction({ run: open }) {
  if (!shown.verdict) return;
  const done = open === null ? Infinity : generatorOf(open).count;
  let number = 0;
  for (const line of byId('file-lines').children) {
    const isInstruction = /^[0-9A-F]{3} [A-Z]/.test(line.textContent);
    if (isInstruction) number++;
    line.className = isInstruction && number === done ? 'now' : number > done ? 'later' : '';
    if (line.className === 'now') line.scrollIntoView({ block: 'nearest' });
  }
}

function showWord(moment) {
  if (memory.chosen === null) return;
  const word = memory.chosen, marks = [];
  if (moment.run?.beam === word) marks.push('under the beam');
  if (moment.written !== null && moment.written.address >> 1 === word) {
    const which = moment.written.address % 2 ? 'high' : 'low';
    marks.push(`its ${which} byte was written last, in event ${moment.written.event}`);
  }
  tellBoth(byId('word-text'), wordText(moment.ram, word, areaOf(word),
    marks.map((mark) => `; ${mark}`).join('')), `${wordCode(engine, moment.ram, word)}.`);
}

const MOST_TORN_SHOWN = 12;

/* The pictures that are torn, or of which bytes came early, the newest last, each with what it is.
 */
function showTorn() {
  const torn = shown.pictures.map((picture, k) => ({ picture, number: k + 1 }))
    .filter(({ picture }) => picture.torn || picture.early > 0);
  byId('torn-pictures').hidden = torn.length === 0;
  byId('torn-list').replaceChildren(...torn.slice(-MOST_TORN_SHOWN).map(({ picture, number }) => {
    const item = document.createElement('li'), button = document.createElement('button');
    const bytes = counted(picture.early, 'byte'), named = nameOf(picture);
    button.className = colorOfPicture(picture);
    button.textContent = `picture ${number}, event ${picture.at}: ${picture.torn ? 'torn, ' : ''}`
      + `${bytes} early${named === null ? '' : `, ${named}`}`;
    button.onclick = () => goToResult(picture.at);
    item.append(button);
    return item;
  }));
}

/* Shows what the buttons do, and greys those that do nothing now. */
function showControls() {
  const { grey, wire, run: runName, runText: text, ...said } = controlsNow();
  byId('wire').setAttribute('aria-pressed', String(board.wireCut));
  setText(byId('wire'), wire);
  setText(byId('run'), runName);
  byId('run').disabled = grey.run;
  for (const id of ['once', 'one-picture']) byId(id).disabled = grey.once;
  for (const id of ['moment-text', 'verdicts']) {
    byId(id).setAttribute('aria-live', running ? 'off' : 'polite');
  }
  ['offerA', 'offerB'].forEach((id, k) => { byId(id).disabled = grey.offers[k]; });
  for (const button of document.querySelectorAll('[data-event]')) button.disabled = grey.events;
  for (const id of ['wire', 'anew', 'compare', 'half-count']) byId(id).disabled = grey.board;
  setText(byId('thumb-why'), said.why);
  setText(byId('compare-why'), said.compareWhy);
  setText(byId('offers-text'), said.offersText);
  byId('forget').hidden = !said.mayForget;
  setText(byId('run-text'), text);
  setText(byId('how-text'), said.howText);
}

function showFrameTime() {
  const times = frameTimes.splice(0).sort((a, b) => a - b);
  if (times.length < 5) return;
  const of = (part) => times[Math.floor(part * (times.length - 1))].toFixed(1);
  byId('frame-time').textContent =
    `${of(0.5)} ms at the median, and ${of(0.95)} ms or less in 19 of 20 frames`;
}

function goTo(moment) {
  if (running) setRunning(false);
  moveTo(moment);
  changed();
}

/* --- The state as a link --- */

function stateNow() {
  return {
    lesson: lesson || undefined, a: nameOr(editorA.value), b: nameOr(editorB.value),
    rom: editorR.value,
    trace: traceOf(board), at,
    seed: byId('seed').value, count: byId('count').value, how: byId('how').value,
    scale: rows.scale.toFixed(4), first: rows.first.toFixed(1),
    plain: byId('plain').checked ? '1' : undefined,
  };
}

function exampleOr(text) {
  return Object.hasOwn(EXAMPLES, text) ? EXAMPLES[text] : text;
}

/* The name of an example, for its text. */
function nameOr(text) {
  return Object.keys(EXAMPLES).find((name) => EXAMPLES[name] === text) ?? text;
}

/* Where the address leads: to a game, to the tour, or to a state of the board. */
async function loadFragment() {
  try {
    const state = withLesson(await stateOf(location.hash));
    const isTwice = location.hash.length <= 1 || state.both !== undefined;
    const isGame = state.game !== undefined;
    document.body.classList.toggle('embed', state.embed === '1');
    // In a frame there is no room for a question.
    play.mayAsk = state.embed !== '1';
    showView(VIEWS[isTwice ? 'twice' : isGame ? 'game' : 'board']);
    if (isTwice) beginTwice(state);
    else if (isGame) beginGame(state);
    else if (location.hash === OPENING_HASH) showNewcomer();
    else loadState(state);
  } catch (fault) {
    const told = `This link holds no state: ${fault.message}.`;
    showView(VIEWS.board);
    if (board === undefined) loadState(FIRST);
    tell(told, true);
    tellFile('The link', told, true);
  }
}

/* What the body is called while a view is shown. */
const VIEWS = { twice: 'twice', game: 'plays', board: '' };

/* Shows a game twice, or alone, or the board. */
function showView(view) {
  if (running) setRunning(false);
  for (const one of [VIEWS.twice, VIEWS.game]) document.body.classList.toggle(one, one === view);
  play.setShown(view === VIEWS.game);
  twice.setShown(view === VIEWS.twice);
  if (view === VIEWS.twice) byId('asked').after(byId('scope-box'));
  else byId('scope-by-game').append(byId('scope-box'));
  fitSizes();
}

/* The game of a state on both boards, or the first one, unless there is one; with less motion its
 * first tear as a still. */
function beginTwice({ both }) {
  if (twice.game !== null && both === undefined) return;
  const name = both ?? FIRST_TWICE, game = twice.games.find((one) => one.name === name);
  if (game === undefined) throw new Error(`no game is called ${name}`);
  const beam = name === FIRST_TWICE ? 1 : undefined;
  twice.begin(name, game, { beam, isStill: wantsLessMotion() });
}

/* The game of a state; a still of it for someone who wants less motion. */
function beginGame(state) {
  play.openState(state);
  if (wantsLessMotion()) play.beginStill();
}

/* The address tells of a game that is built in which one it is, and what is asked of its board. */
function showAddress() {
  if (!play.isShown || play.number < 0 || document.body.classList.contains('embed')) return;
  const fragment = plainFragment(play.state);
  if (location.hash !== fragment) history.replaceState(null, '', fragment);
}

/* A link to the game; it holds one that was dropped, too. */
async function makeGameLink() {
  const { state } = play;
  const fragment = play.number < 0 ? await fragmentOf(state) : plainFragment(state);
  history.replaceState(null, '', fragment);
  const isCopied = await navigator.clipboard?.writeText(location.href)
    .then(() => true, () => false);
  play.say(`The link, ${fragment.length} characters, stands in the address`
    + `${isCopied ? ', and was copied' : ''}.`);
}

/* Opens files: a game, or else the first of them on the board. */
async function openFiles(files, kind) {
  const read = await Promise.all(files.map(async (file) => (
    { name: file.name, bytes: new Uint8Array(await file.arrayBuffer()) })));
  if (kind === null && await (twice.isShown ? openTwice : openGame)(read)) return;
  await openOnBoard(files[0], kind);
}

async function openOnBoard(file, kind) {
  showBoard();
  await drops.open(file, kind);
}

function showBoard() {
  if (board === undefined) loadState(FIRST);
  showView(VIEWS.board);
}

/* Opens files as a game on both boards, or says why they are none: of what the board shows, which
 * isn't opened, it returns false. */
async function openTwice(read) {
  const { fault, name, game, said } = await play.readGame(read, true);
  const why = fault === '' ? whyNotShown(read[0]) : fault ?? '';
  if (fault === null) twice.begin(name, game, { said, isStill: wantsLessMotion() });
  else if (why !== '') twice.say(fault === '' ? `${read[0].name}. ${why}` : why, true);
  return fault === null || why !== '';
}

/* The run that tore, as a log on the board, with the vector ROM of its game. */
async function openTape() {
  const { log, name, game } = twice;
  history.pushState(null, '', '#');
  showBoard();
  drops.openLog(`of a run of ${name}, its wire cut`, new TextEncoder().encode(log),
    { shapes: game.shapes });
}

/* Opens files as a game, or tells where they were dropped why they are none: a game that is shown
 * stays there. Returns false of what the board shows, which isn't opened. */
async function openGame(read) {
  const fault = await play.openFiles(read), [{ name }] = read;
  if (fault === null) {
    showView(VIEWS.game);
    history.replaceState(null, '', '#');
    return true;
  }
  const isShown = play.isShown && fault === '', why = isShown ? whyNotShown(read[0]) : '';
  const told = why === '' ? fault : `${name}. ${why}`;
  if (told !== '') {
    if (play.isShown) play.say(told, true);
    else tellFile(name, told, true);
  }
  return told !== '';
}

/* The opening at rest; and after that the tour, but for someone who wants less motion. */
function showNewcomer() {
  showOpening();
  if (!wantsLessMotion()) startTour();
}

function showOpening() {
  takeState(FIRST);
  runSome(FIRST_EVENTS);
  rows.showAll(board.length);
  changed();
}

function beginTour() {
  showOpening();
  if (wantsLessMotion()) showStill();
  else startTour();
}

/* The last step of the tour at once, as a still. */
function showStill() {
  showOpening();
  setWire(true);
  tour.jump(board, () => runSome(STILL_EVENTS));
}

function startTour() {
  tour.begin(board);
  rows.scale = ROWS_TOUR_SCALE;
  setRunning(true);
}

/* Ends the tour: the board is as it was at the beginning, or, after its last step, as it is. */
function endTour() {
  if (tour.running) showOpening();
  else {
    tour.end();
    changed();
  }
}

/* The last step of the tour: this picture, and the rows of its run. */
function showLastStep(picture) {
  running = false;
  if (picture === null) tour.end();
  else {
    moveTo(picture.at + 1);
    rows.showSpan(picture.from, picture.at + 1);
  }
  changed();
}

function loadState(state) {
  takeState(state);
  changed();
}

function takeState(state) {
  running = false;
  tour.end();
  byId('file').hidden = true;
  if (state.plain !== undefined) setPlain(state.plain === '1');
  for (const id of ['seed', 'count', 'how']) byId(id).value = state[id] ?? byId(id).value;
  editorA.value = exampleOr(state.a ?? FIRST.a);
  editorB.value = exampleOr(state.b ?? FIRST.b);
  setRom(state.rom ?? '');
  const fault = loadTrace(state.trace ?? '');
  if (fault !== '') tell(`The trace is refused: ${fault}`, true);
  rows.showAll(board.length);
  if (state.scale !== undefined) {
    Object.assign(rows, { scale: Number(state.scale) || 4, first: Number(state.first) || 0 });
  }
  if (state.at !== undefined) moveTo(clamp(state.at, 0, MOST_EVENTS));
  showLesson(clamp(state.lesson ?? 0, 0, LESSONS.length));
}

/* Plays a trace, if `play` takes it, over its ROM. Returns its fault, or ''. */
function loadTrace(text) {
  const fault = engine.run(COMMAND.play, text).error.trim();
  const { rom, steps, oneHalf } = stepsOf(fault === '' ? text : '');
  byId('half-count').value = oneHalf ? '1' : '2';
  if (rom !== '') setRom(rom);
  beginAnew(false);
  playSteps(board, steps);
  moveTo(board.length);
  return fault;
}

function setRom(text) {
  editorR.value = text;
  const good = editorR.check(engine);
  const { bytes } = editorR.rom;
  const none = text === '' ? ', each word an RTSL' : '';
  const bad = good ? '' : ', with a fault, so not used';
  byId('rom-said').textContent = `${bytes.length} bytes${none}${bad}`;
  checkDrafts();
}

function checkDrafts() {
  for (const editor of [editorA, editorB]) editor.check(engine, editorR.rom);
}

/* Takes the ROM that a sketch brings, where it is another one than that of the board. */
function takeRomOf({ ownRom }) {
  if (ownRom === '' || ownRom === editorR.value) return;
  setRunning(false);
  setRom(ownRom);
  beginAnew();
}

async function makeLink() {
  const fragment = await fragmentOf(stateNow());
  history.replaceState(null, '', fragment);
  byId('link-text').hidden = false;
  byId('link-text').value = location.href;
  byId('link-text').select();
  const held = `${counted(board.length, 'event')} in ${fragment.length} characters`;
  tell(`The link holds ${held}. It stands in the address, too.`);
  await navigator.clipboard?.writeText(location.href).catch(() => {});
}

function tell(text, bad = false) {
  byId('said').textContent = text;
  byId('said').className = bad ? 'bad' : '';
}

function save(name, text) {
  const link = document.createElement('a');
  link.href = URL.createObjectURL(new Blob([text], { type: 'text/plain' }));
  link.download = name;
  link.click();
  setTimeout(() => URL.revokeObjectURL(link.href), 1000);
}

/* Saves a text, and says so. */
function saveText(name, text) {
  save(name, text);
  tell(`${name}: ${grouped(text.length)} bytes, where the browser saves files.`);
}

/* How what stands in an editor leaves: the name of the file, and the command that makes it. */
const SAVES = {
  'a sketch': ['frames.sketch', null],
  'a table for ca65': ['frames.inc', COMMAND.layTable],
  'an SVG': ['frames.svg', COMMAND.sketch],
};

function saveAs(editor, what) {
  const [name, command] = SAVES[what], text = editor.textOver(editorR.rom);
  const got = command === null ? { error: '', output: text } : engine.run(command, text);
  if (got.error === '') save(name, got.output);
  tell(got.error === '' ? `${name}: ${got.output.length} bytes.` : got.error.trim(),
    got.error !== '');
}

/* Draws the next frame of each editor beside its text. */
function drawPreviews() {
  for (const editor of [editorA, editorB]) {
    editor.drawNext((lines) => strokesOfLines(drawingOf(lines.join('\n')).split('\n')));
  }
}

/* While the editors are in sight their frames are drawn in turn, as fast as the browser can show
 * them, or at this rate; without motion the first ones. */
function showPreviews() {
  const still = matchMedia('(prefers-reduced-motion: reduce)').matches;
  let isSeen = false, drawnAt = 0;
  const draw = (now) => {
    if (!isSeen) return;
    if (now - drawnAt >= 1000 / PREVIEW_RATE) {
      drawnAt = now;
      drawPreviews();
    }
    if (!still) requestAnimationFrame(draw);
  };
  new IntersectionObserver(([{ isIntersecting }]) => {
    if (isIntersecting) [editorA, editorB].forEach((editor) => editor.see());
    const begins = isIntersecting && !isSeen;
    isSeen = isIntersecting;
    if (begins) requestAnimationFrame(draw);
  }).observe(byId('A'));
}

/* --- Lessons --- */

/* The links to the lessons. That of an open one changes no fragment, and opens it anew. */
function makeLessons() {
  byId('lessons').replaceChildren(...LESSONS.map(({ title }, k) => {
    const item = document.createElement('li'), link = document.createElement('a');
    link.textContent = title;
    link.href = plainFragment(stateOfLesson(k));
    link.addEventListener('click', () => {
      if (link.hash === location.hash) loadFragment();
    });
    item.append(link);
    return item;
  }));
}

/* The examples that aren't drafts: sketches, logs and traces, each opened as a file would be. */
function makeExamples() {
  const list = byId('examples');
  for (const name of Object.keys(FILES)) list.append(new Option(name));
  list.addEventListener('change', () => {
    if (list.value !== '') openFiles([new File([FILES[list.value]], list.value)], null);
    list.value = '';
  });
}

function openLesson(number) {
  location.hash = plainFragment(stateOfLesson(number - 1));
}

/* Shows a lesson, and leads the keys to the rows; or none, of number 0. */
function showLesson(number) {
  lesson = number;
  byId('lesson').hidden = number === 0;
  byId('lesson-back').hidden = number <= 1;
  byId('lesson-on').hidden = number === LESSONS.length;
  document.querySelectorAll('#lessons a').forEach((link, k) => {
    if (k + 1 === number) link.setAttribute('aria-current', 'true');
    else link.removeAttribute('aria-current');
  });
  if (number === 0) return;
  const { title, sentences } = LESSONS[number - 1];
  byId('lesson-title').textContent = `${number}. ${title}`;
  byId('lesson-text').replaceChildren(...sentences
    .map((sentence) => Object.assign(document.createElement('p'), { textContent: sentence })));
  focusRows();
}

/* From now on the keys walk through the rows; the page stays where it is. */
function focusRows() {
  byId('rows').focus({ preventScroll: true });
}

/* --- Files --- */

/* Tells what became of a file in the panel beside the picture, with the board in view. What was
 * told there before is gone. */
function tellFile(title, text, isBad = false) {
  if (shown !== board) backToBoard();
  setRunning(false);
  showFile(title, text, [], isBad);
  byId('lesson').hidden = lesson === 0;
  changed();
  focusRows();
}

function showFile(title, text, lines, isBad = false) {
  byId('file').hidden = false;
  byId('lesson').hidden = true;
  setText(byId('file-title'), title);
  setText(byId('file-text'), text);
  byId('file-text').className = isBad ? 'bad' : '';
  byId('file-lines').replaceChildren(...lines.map((line) => {
    return Object.assign(document.createElement('span'), { textContent: line });
  }));
  byId('file-lines').hidden = lines.length === 0;
  byId('file-close').textContent = shown === board ? 'Close' : 'Back to the board';
  scrollTo({ top: 0 });
}

/* Shows a recording in place of the board, with its own rows and its own verdict. */
function showRecording(recording, title, text, lines) {
  setRunning(false);
  recording.id = performance.now();
  shown = recording;
  showFile(title, text, lines);
  moveTo(shown.length);
  rows.showAll(shown.length);
  changed();
  focusRows();
}

/* Closes what the panel tells of a file. */
function backToBoard() {
  byId('file').hidden = true;
  byId('lesson').hidden = lesson === 0;
  if (shown !== board) {
    shown = board;
    moveTo(board.length);
    rows.showAll(board.length);
  }
  changed();
}

/* An event of a log, with the events around it. */
function showLineOfLog(event) {
  goTo(event + 1);
  rows.showSpan(Math.max(0, event - TORN_AROUND), event + TORN_AROUND);
  show();
}

/* What a file that is opened may ask of the page. */
const DROP_STAGE = {
  tell: tellFile,
  record: showRecording,
  showLine: showLineOfLog,
  loadRom: (text) => {
    setRunning(false);
    showLesson(0);
    setRom(text);
    beginAnew();
    byId('rom-details').open = true;
  },
  loadTrace: (text) => {
    setRunning(false);
    showLesson(0);
    const fault = loadTrace(text);
    rows.showAll(board.length);
    return { fault, count: board.length };
  },
  useDraft: (text) => {
    useDraft(editorA, text);
    if (!editorA.offerable || !editorB.offerable) return false;
    beginAgain();
    runOnePicture();
    return board.pictures.length > 0;
  },
};

/* Puts a draft into an editor, and the ROM that it brings, if it does, into its own. */
function useDraft(editor, text) {
  editor.value = text;
  editor.check(engine, editorR.rom);
  takeRomOf(editor);
  changed();
}

/* --- Listening --- */

function beginAgain() {
  setRunning(false);
  beginAnew();
  changed();
}

function listenToButtons() {
  const on = (id, act) => byId(id).addEventListener('click', act);
  for (const button of document.querySelectorAll('[data-event]')) {
    button.addEventListener('click', () => happenOften(() => eventOf(button.dataset.event)));
  }
  on('offerA', () => offer(editorA));
  on('offerB', () => offer(editorB));
  on('wire', () => setWire(!board.wireCut));
  on('run', run);
  on('once', runAtOnce);
  on('one-picture', runOnePicture);
  on('tour-end', endTour);
  on('tour-again', beginTour);
  on('still', showStill);
  on('lesson-back', () => openLesson(lesson - 1));
  on('lesson-on', () => openLesson(lesson + 1));
  on('anew', beginAgain);
  on('compare', compare);
  on('link', () => makeLink().catch((fault) => tell(`No link: ${fault.message}`, true)));
  on('save-trace', () => saveText('trace.txt', traceOf(board)));
  on('save-log', () => saveText('log.txt', board.log()));
  on('zoom-in', () => { rows.zoom(2, at, shown.length); show(); });
  on('zoom-out', () => { rows.zoom(0.5, at, shown.length); show(); });
  on('zoom-all', () => { rows.showAll(shown.length); show(); });
  on('back', () => goTo(at - 1));
  on('on', () => goTo(at + 1));
  on('picture-back', () => goTo((shown.pictures.findLast((one) => one.at + 1 < at)?.at ?? -1) + 1));
  on('picture-on',
    () => goTo((shown.pictures.find((one) => one.at + 1 > at)?.at ?? shown.length) + 1));
  on('now', () => goTo(shown.length));
  on('forget', forgetLater);
  on('file-close', backToBoard);
  byId('code').addEventListener('toggle', () => code.show(shown, at, shown === board));
  byId('plain').addEventListener('change', () => setPlain(byId('plain').checked));
  byId('half-count').addEventListener('change', beginAgain);
  for (const id of ['seed', 'how']) byId(id).addEventListener('input', () => { schedule = null; });
  for (const id of ['count', 'speed', 'how']) byId(id).addEventListener('input', showControls);
  byId('endless').addEventListener('change', () => {
    toGo = countOfRun();
    showControls();
  });
}

/* With plain words nothing is told in hexadecimal. */
function setPlain(isPlain) {
  byId('plain').checked = isPlain;
  document.body.classList.toggle('plain', isPlain);
}

function listenToHands() {
  const zoom = (factor) => { rows.zoom(factor, at, shown.length); show(); };
  listenToRows(rows, {
    get length() { return shown.length; },
    zoom, goTo, walk: (events) => goTo(at + events), drawRows: () => rows.draw(shown, at, colors),
  });
  listenToMemory(memory, show);
  listenToFiles(openFiles);
  const drawAll = () => {
    if (play?.isShown) play.drawAnew();
    else if (twice?.isShown) twice.show();
    else if (board !== undefined) {
      screen.key = '';
      show();
    }
  };
  fitSizes = listenToSizes(FITTED.map(byId), () => {
    const strips = [play?.strip, twice?.whole.strip, twice?.cut.strip];
    for (const fitted of [rows, memory, ...strips]) fitted?.fit();
    drawAll();
  });
  matchMedia('(prefers-color-scheme: light)').addEventListener('change', () => {
    readColors();
    drawAll();
  });
}

/* The games that are built in, by their names. */
function makePlay() {
  const lines = linesOfListing(LISTING), driver = new Uint8Array(DRIVER_END - START);
  for (const { at, bytes } of lines) if (bytes.length > 0) driver.set(bytes, at - START);
  const games = GAMES.map(({ name, labels = '', ...parts }) => {
    const bytes = Object.fromEntries(Object.entries(parts)
      .map(([part, text]) => [part, bytesOfBase64(text)]));
    return { name, ...builtGame(bytes, driver), labels: labelsOf(labels) };
  });
  const routines = new Map(lines.map(({ at, source }) => [source.split(':')[0], at]));
  play = Object.assign(new Play(engine, games, driver, routines), { colors });
  byId('games').replaceChildren(...games.map(({ name }, k) => {
    const button = Object.assign(document.createElement('button'), { textContent: name });
    button.addEventListener('click', () => {
      play.askNothing();
      play.openBuilt(k);
    });
    return button;
  }));
  play.onChange = showAddress;
  listenToPlay(play);
  byId('game-link').addEventListener('click', makeGameLink);
  makeTwice(games);
}

/* The links out of the page, if the project has an address; and what "accepted" takes, beside both
 * places that say it. */
function makeLinks() {
  const links = linksOut(), line = byId('project-links');
  line.hidden = links.length === 0;
  line.append(...links.map(({ text, address }) => Object.assign(document.createElement('a'),
    { textContent: text, href: address })));
  byId('every-premises').append(byId('premises').lastElementChild.cloneNode(true));
}

function makeTwice(games, driver) {
  twice = Object.assign(new Twice(engine, Object.assign(games, { driver })),
    { colors, scope: play.scope });
  byId('both-game').append(...games.map(({ name }) => new Option(name)));
  byId('both-game').addEventListener('change', () => {
    location.hash = plainFragment({ both: byId('both-game').value });
  });
  byId('these-bytes').addEventListener('click', openTape);
  twice.fit = () => fitSizes();
  listenToTwice(twice);
  play.scope.look = () => (twice.isShown ? twice.strokesOfCut : play.strokesInView);
}

function makeEditors() {
  const names = Object.keys(EXAMPLES);
  const edited = (editor) => {
    editor.check(engine, editorR.rom);
    takeRomOf(editor);
    showControls();
  };
  const known = Object.values(SCENES);
  editorA = new DraftEditor(byId('A'), 'Frame A', () => edited(editorA), known, ADVICE);
  editorB = new DraftEditor(byId('B'), 'Frame B', () => edited(editorB), known, ADVICE);
  editorR = new RomEditor(byId('R'), 'Lines map and rom; a change begins anew', () => {
    setRunning(false);
    setRom(editorR.value);
    beginAnew();
    changed();
  });
  for (const editor of [editorA, editorB]) {
    editor.addPicks('Example', names, (name) => useDraft(editor, EXAMPLES[name]));
    editor.addPicks('Save as', Object.keys(SAVES), (name) => saveAs(editor, name));
  }
}

async function begin() {
  const starting = Engine.ofPacked(WASM);
  screen = new Screen(byId('screen'));
  rows = new Rows(byId('rows'));
  memory = new Memory(byId('memory'));
  tour = new Tour({
    setWire, tearOf: tearNow, isOneScene, showTear: showLastStep,
  });
  readColors();
  makeEditors();
  makeLessons();
  makeExamples();
  listenToHands();
  listenToButtons();
  engine = await starting;
  drawer = new Drawer(engine);
  tube = new Drawer(engine);
  verdicts = new Verdicts(engine, goToResult);
  code = new Code(engine, LISTING);
  drops = new Drops(engine, drawer, DROP_STAGE);
  makePlay();
  makeLinks();
  addEventListener('hashchange', loadFragment);
  // These links change no fragment where there is none.
  for (const link of document.querySelectorAll('a[href="#"]')) {
    link.addEventListener('click', () => {
      if (location.hash === '') loadFragment();
    });
  }
  // This one leads back to a game that there is.
  document.querySelector('.to-game').addEventListener('click', (event) => {
    if (play.arcade === null) return;
    event.preventDefault();
    showView(VIEWS.game);
    showAddress();
  });
  await loadFragment();
  showPreviews();
  document.body.dataset.opened = Math.round(performance.now());
  document.body.dataset.ready = 'yes';
}

begin();
