/* A game on the page: it is judged while it runs. Tested, not proved. */
import { HERTZ } from './arcade.mjs';
import { judgeProgram } from './checker.mjs';
import {
  gameOf, gameOfFields, isOfGame, isSocketOfProgram, lengthFault, romAlone, unzipped, vectorsFault,
} from './eproms.mjs';
import { listenToRows } from './gestures.mjs';
import { base64Of, hex } from './hex.mjs';
import { Drawer } from './moments.mjs';
import { byId, setText } from './parts.mjs';
import { SLOT_CYCLES } from './past.mjs';
import {
  bytesVerdict, everyVerdict, outcomeOf, picturesVerdict, resetsVerdict, runsVerdict, showVerdict,
} from './judged.mjs';
import { Player, listenToPlayer } from './player.mjs';
import { Program, STA, callsOf, hasDriver, isDriver } from './programs.mjs';
import { ROW, SIGN } from './signs.mjs';
import { Strip } from './strip.mjs';
import { BEGINNING, TapedArcade, tearingBeam } from './taped.mjs';
import { redText, tearCode, tearOfGame } from './tears.mjs';
import { areaName, counted } from './words.mjs';

/* How often the texts are shown, in milliseconds. */
const TEXTS_AFTER = 200;
/* With how many frames of the animation the rows are drawn once. */
const ROWS_EVERY = 4;
/* How many seconds of the board go by until what comes of a change is told. */
const ANSWER_AFTER = 3;
/* After how many seconds of a game its picture is a still. */
const STILL_SECONDS = 3;
/* The mistake that a game may have: stores into the vector RAM in place of the calls of a routine
 * of the driver, into these places in turn. */
const MISTAKEN = 'dvg_put', STORES_AT = [0x4004, 0x4404];

/* A program in which the calls of that routine, if it has some, became stores into the list that is
 * drawn. A call is an instruction that may be reached; `routines` are the driver's, by name. */
export function withMistake(program, routines) {
  const changed = program.bytes.slice(), calls = callsOf(program, routines.get(MISTAKEN));
  calls.forEach((at, k) => {
    const to = STORES_AT[k % STORES_AT.length];
    changed.set([STA, to & 0xFF, to >> 8], at - program.low);
  });
  return changed;
}

const OUTCOMES = {
  tears: 'it tears',
  dark: 'it goes dark',
  on: 'it goes on',
  reset: 'it is reset again and again',
};

/* What an instruction does that writes into an area, by the sign of its slot. */
function writingText(sign, area) {
  if (sign === SIGN.FLIP) return 'publishes a half';
  const isEarly = sign === SIGN.EARLY || sign === SIGN.SEEN;
  const shows = sign === SIGN.SEEN ? ', and it shows' : '';
  return `writes ${areaName(area)}${isEarly ? ', which is being drawn' : ''}${shows}`;
}

export class Play extends Player {
  /* `games` are those that are built in, `driver` the driver's bytes, and `routines` where its
   * labels are. */
  constructor(engine, games, driver, routines) {
    super(engine);
    Object.assign(this, { games, driver, routines, program: null, textsAt: 0, guess: null });
    Object.assign(this, { asks: false, drawer: new Drawer(engine) });
    Object.assign(this, { number: -1, turns: 0, mayAsk: true, onChange: () => {} });
    // The moment of the rows that somebody looks at, if so, and the torn picture.
    Object.assign(this, { moment: null, looked: null, colors: null });
    this.strip = new Strip(byId('past'));
  }

  boardOf(program, shapes) { return new TapedArcade(this.engine, program, shapes); }

  /* --- Games --- */

  /* Begins a game that is built in; `isOpening`: coin and start are pressed, too. */
  openBuilt(number, isOpening = false) {
    const { name, ...game } = this.games[number];
    this.begin(name, game, '', number);
    if (isOpening) this.script = [...BEGINNING];
  }

  /* The game that files are of: its name, and what is said of it; or the fault, why there is none
   * among them, and of files that aren't of a game ''. `isWanted` says that a game is shown. */
  async readGame(list, isWanted) {
    const name = list.map((file) => file.name).join(', ');
    const files = await unzipped(list).catch(() => null);
    if (files === null) return { fault: `${name}: it can't be unpacked.` };
    const fault = lengthFault(files) || vectorsFault(files) || (isWanted ? romAlone(files) : '');
    if (fault !== '') return { fault };
    const isGame = [...list, ...files].some(({ bytes }) => isOfGame(bytes))
      || (isWanted && files.some(isSocketOfProgram));
    const game = isGame ? gameOf(files) : null;
    if (game === null) return { fault: '' };
    const shapes = game.hasShapes ? '' : ' Its vector ROM isn\'t among them, so what it calls '
      + 'draws nothing: drop both at once.';
    const sockets = game.missing === '' ? '' : ` ${game.missing} of its sockets aren't among them.`;
    return { fault: null, name, game, said: `${name}.${sockets}${shapes}` };
  }

  /* Begins the game that files are of. Returns the fault, or null. */
  async openFiles(list) {
    const { fault, name, game, said } = await this.readGame(list, this.isShown);
    if (fault !== null) return fault;
    this.askNothing();
    this.begin(name, game, said);
    return null;
  }

  /* Asks nothing of the board that it isn't by itself: so a game that is chosen is a fresh one. */
  askNothing() {
    byId('game-wire').setAttribute('aria-pressed', 'false');
    byId('beam').value = '1';
    byId('strobes-ignored').checked = false;
  }

  /* Says something beside what opens a game: the game that is there goes on. */
  say(text, isBad = false) {
    setText(byId('game-said'), text);
    byId('game-said').className = isBad ? 'bad' : '';
  }

  /* `number` is that of a game that is built in. */
  begin(name, game, said, number = -1) {
    Object.assign(this, { name, game, number, script: [] });
    byId('games').querySelectorAll('button').forEach((button, k) => {
      button.setAttribute('aria-pressed', String(k === number));
    });
    this.say(said);
    byId('mistake').checked = false;
    const changed = withMistake(new Program(game.program), this.routines);
    const isSame = changed.every((byte, k) => byte === game.program[k]);
    byId('mistake').parentElement.hidden = isSame;
    byId('mistake-note').hidden = isSame;
    this.restart();
    byId('tube').focus({ preventScroll: true });
  }

  /* Begins the game anew, as what is asked of it is now. */
  restart() {
    const { program, shapes, labels } = this.game;
    const bytes = byId('mistake').checked ? withMistake(new Program(program), this.routines)
      : program;
    this.insert(bytes, shapes);
    this.program = new Program(bytes, labels);
    this.hasDriver = hasDriver(this.program, this.driver);
    byId('tube-play').hidden = true;
    this.changeBoard('the game began');
    this.judge();
    this.setPaused(false);
  }

  /* --- Links --- */

  /* The game and what is asked of its board, as the fields of a link. One that is built in has its
   * name alone. */
  get state() {
    const { wireCut, slow, ignored } = this.arcade, { program, shapes, labels } = this.game;
    const asked = {
      game: this.name, wire: wireCut ? 'cut' : '', beam: slow > 1 ? String(slow) : '',
      strobes: ignored ? 'ignored' : '', mistake: byId('mistake').checked ? '1' : '',
    };
    if (this.number >= 0) return asked;
    const lines = [...labels].map(([at, label]) => `al ${hex(at, 6)} .${label}`);
    return { ...asked, program: base64Of(program), shapes: base64Of(shapes),
      labels: lines.join('\n') };
  }

  /* Begins what a link holds. */
  openState(state) {
    const number = this.games.findIndex(({ name }) => name === state.game);
    const game = state.program === undefined ? this.games[number] : gameOfFields(state);
    if (game === undefined) throw new Error(`no game is called ${state.game}`);
    byId('game-wire').setAttribute('aria-pressed', String(state.wire === 'cut'));
    byId('beam').value = /^[248]$/.test(state.beam) ? state.beam : '1';
    byId('strobes-ignored').checked = state.strobes === 'ignored';
    if (state.program === undefined) this.openBuilt(number, true);
    else this.begin(state.game, game, `${state.game}, out of a link.`);
    if (state.mistake !== '1') return;
    byId('mistake').checked = true;
    this.restart();
  }

  /* --- What if --- */

  /* Takes what the buttons ask of the board. From now on the verdicts are of what comes, and
   * `since` says since when that is. */
  changeBoard(since = 'the board was changed') {
    const { arcade } = this;
    arcade.wireCut = byId('game-wire').getAttribute('aria-pressed') === 'true';
    arcade.slow = Number(byId('beam').value);
    arcade.ignored = byId('strobes-ignored').checked;
    arcade.countAnew();
    Object.assign(this, { since, guess: null, asks: this.isOther && this.mayAsk });
    setText(byId('game-wire'), arcade.wireCut ? 'Mend the HALT wire' : 'Cut the HALT wire');
    this.showTexts();
    this.onChange();
  }

  /* Whether something is asked of the board that it isn't by itself. */
  get isOther() { return this.arcade.wireCut || this.arcade.slow > 1 || this.arcade.ignored; }

  /* Takes what somebody guesses, or null from who wants no question. */
  takeGuess(guess) {
    Object.assign(this, { guess, asks: false });
    this.showTexts();
  }

  /* What is told of a change: a question, until somebody has taken it, and then the answer. */
  get whatText() {
    const { arcade, guess, asks } = this;
    if (!this.isOther) {
      return 'The game waits for HALT. Change the board: what comes of it?';
    }
    if (asks) return 'What will come of it?';
    const outcome = outcomeOf(arcade.counts), said = guess === null ? ''
      : `You said: ${OUTCOMES[guess]}. `;
    if (arcade.seconds < ANSWER_AFTER) {
      return `${said}${this.isPaused ? 'Press Play, and watch' : 'Watch'} it for ${ANSWER_AFTER} `
        + 'seconds.';
    }
    if (outcome === 'none') return `${said}Nothing has come of it yet: no run has ended.`;
    return `${said}${OUTCOMES[outcome][0].toUpperCase()}${OUTCOMES[outcome].slice(1)}: `
      + this.whyText(outcome);
  }

  /* Why it is so, by what was counted; by no number that changes, as each change is read aloud. */
  whyText(outcome) {
    const { wireCut, counts } = this.arcade;
    if (outcome === 'reset' && counts.pictures + counts.left === 0) {
      return 'nothing writes to the watchdog in time.';
    }
    if (outcome === 'tears') {
      return 'the game wrote the next picture into the one that was being drawn.';
    }
    if (outcome === 'reset') {
      return 'the game waits so long for the beam that it comes too late to the watchdog.';
    }
    if (outcome === 'dark') {
      return 'each strobe that comes while the beam draws starts it anew, so hardly a picture is '
        + 'finished. With strobes ignored, it may tear instead.';
    }
    if (counts.left > 0) {
      return `some runs are abandoned, the first of them run ${counts.firstLeft}, as a strobe came `
        + 'before HALT.';
    }
    if (counts.broke > 0) return 'some runs are broken off, by a fault of the list drawn.';
    if (counts.early > 0) return 'bytes came early, but no picture is torn.';
    if (counts.ignored > 0) return 'strobes that came before HALT were ignored.';
    if (!wireCut) return 'each run came to HALT before the next strobe, as the wire is whole.';
    return `it reads "done" at once, and yet each run came to HALT before the next strobe. ${
      this.beamText}`;
  }

  /* With which beam the game tears; it is looked for once. */
  get beamText() {
    const { game, engine } = this;
    if (game.beam === undefined) game.beam = tearingBeam(engine, game);
    if (game.beam === null) {
      return 'By no beam here does this game tear: its pictures are done before the next one '
        + 'comes.';
    }
    return `It tears with a beam ${game.beam} times as slow, and strobes ignored while it draws.`;
  }

  /* --- The last seconds --- */

  /* A game that goes on shows the newest end of its rows. */
  setPaused(isPaused) {
    if (!isPaused) {
      Object.assign(this, { moment: null, looked: null });
      setText(byId('past-text'), '');
      byId('tube-play').hidden = true;
    }
    super.setPaused(isPaused);
  }

  /* The rows of a game that goes on are drawn with every fourth picture. */
  draw() {
    if (this.moment === null || this.looked !== null) super.draw();
    else this.drawMoment();
    this.turns = this.isPaused ? 0 : (this.turns + 1) % ROWS_EVERY;
    if (this.turns === 0) this.drawStrip();
  }

  drawStrip() {
    const { strip, moment } = this, { past } = this.arcade;
    if (moment === null) strip.showEnd(past.length);
    strip.draw(past, moment ?? past.length, this.colors);
  }

  /* The run that is open at the moment that is looked at, or was the last one before that: the
   * strokes that it has drawn by then, and where the beam is. */
  drawMoment() {
    const { arcade, screen } = this, cycles = (arcade.past.from + this.moment) * SLOT_CYCLES;
    const run = arcade.runAt(cycles), strokes = run === null ? [] : this.strokesOf(run);
    const { wanted, next, wrong } = run?.isTorn ? this.partsOf(run, strokes)
      : { wanted: strokes, next: [], wrong: [] };
    const count = run?.countAt(cycles) ?? 0;
    screen.drawRun({ strokes, wanted, next, wrong: new Set(wrong) }, count);
    byId('tube').dataset.strokes = count;
  }

  /* The strokes of a run; of one that has no picture as far as it came. */
  strokesOf({ began, strokes, words }) {
    return strokes ?? this.drawer.strokesOf({ from: began, words });
  }

  /* What a torn run is made of, by the vector RAM as it began, and as the next one did. */
  partsOf(run, strokes) {
    const { taped, ram } = this.arcade, after = taped[taped.indexOf(run) + 1]?.ram ?? ram;
    run.parts ??= tearOfGame(this.engine, { picture: { strokes }, before: run.ram, after },
      { bytes: this.game.shapes });
    return run.parts;
  }

  /* How much of its run the beam has drawn at the moment that is looked at. */
  get drawnText() {
    const { past } = this.arcade, cycles = (past.from + this.moment) * SLOT_CYCLES;
    const run = this.arcade.runAt(cycles);
    if (run === null) return '';
    return ` ${run.countAt(cycles)} of ${counted(this.strokesOf(run).length, 'line')} are drawn.`;
  }

  /* Lets the game rest, and the rows be looked at: by default at their end. */
  rest() {
    if (!this.isPaused) this.setPaused(true);
    this.moment ??= this.arcade.past.length;
  }

  /* Shows a moment of the rows, and tells what happens then. */
  goTo(moment) {
    this.rest();
    this.looked = null;
    this.moment = Math.min(this.arcade.past.length, Math.max(0, moment));
    this.strip.follow(this.moment);
    this.showMoment(this.momentText);
  }

  /* A moment by so many slots later. */
  walk(slots) { this.goTo((this.moment ?? this.arcade.past.length) + slots); }

  zoom(factor) {
    this.rest();
    this.strip.zoom(factor, this.moment, this.arcade.past.length);
    this.drawStrip();
  }

  showMoment(text) {
    setText(byId('past-text'), text);
    byId('past').setAttribute('aria-valuemax', this.arcade.past.length);
    byId('past').setAttribute('aria-valuenow', this.moment);
    byId('past').setAttribute('aria-valuetext', text);
    this.drawAnew();
  }

  /* What both ends did just before the moment. */
  get momentText() {
    const { past } = this.arcade, slot = this.moment - 1;
    const time = `At ${past.timeOf(this.moment).toFixed(4)} s of the game`;
    if (slot < 0) return `${time} the rows begin: what was before is forgotten.`;
    const [drawn, written] = [ROW.GENERATOR, ROW.DRIVER].map((row) => past.areas[row][slot]);
    const drawing = drawn === 0 ? 'is halted' : `draws ${areaName(drawn)}`;
    const writing = written === 0 ? '' : `; ${this.instructionText(past.writers[slot])} `
      + writingText(past.signs[ROW.DRIVER][slot], written);
    return `${time} the generator ${drawing}${writing}.${this.drawnText}`;
  }

  /* Shows the byte that tore the newest torn picture: in the rows its moment, amid the run, and on
   * the tube the picture, with what isn't of the frame that the run began with in red. */
  showByte() {
    const { past } = this.arcade, { torn } = past;
    if (torn === null) return;
    torn.parts ??= tearOfGame(this.engine, torn, { bytes: this.game.shapes });
    this.rest();
    this.looked = torn;
    this.moment = past.slotAt(torn.byte.at) + 1;
    this.strip.showSpan(past.slotAt(torn.began), past.slotAt(torn.done) + 1);
    this.showMoment(this.byteText(torn));
  }

  byteText({ picture, byte, parts, own }) {
    const { at, readAt, by, isEarly } = byte, later = 1000 * (readAt - at) / HERTZ;
    return `At ${(at / HERTZ).toFixed(4)} s of the game a byte `
      + `${isEarly ? 'came early' : 'was written'}, by ${this.instructionText(by)}. `
      + `${tearCode({ word: byte })} ${later.toFixed(2)} ms later the generator read it: `
      + `there the tear begins. ${redText(parts.wrong, picture)}${this.ownText({ own, byte })}`;
  }

  /* Which store of the game's own came before a tear, if one did. The driver waits for HALT: so
   * with its wire whole that is the cause. */
  ownText({ own, byte }) {
    if (own === null || own.by === byte.by || !this.hasDriver) return '';
    const cause = this.arcade.wireCut ? ''
      : ' The wire is whole, and the driver waits for HALT: that store is the cause.';
    return ` The game itself stored into the vector RAM, by ${this.instructionText(own.by)}, at `
      + `${(own.at / HERTZ).toFixed(4)} s.${cause}`;
  }

  /* The picture that is looked at, or the newest one. */
  get seen() { return this.looked?.picture ?? super.seen; }

  /* Of a torn picture only that is red which is of another frame. */
  tearOf(picture) {
    const { torn } = this.arcade.past;
    if (this.looked !== null) return this.looked.parts;
    if (torn?.picture !== picture) return super.tearOf(picture);
    torn.parts ??= tearOfGame(this.engine, torn, { bytes: this.game.shapes });
    return { wanted: [], next: [], wrong: torn.parts.wrong };
  }

  /* --- In every run --- */

  judge() {
    const judged = judgeProgram(this.engine, this.program, this.game.shapes);
    const every = everyVerdict(judged, this.game);
    showVerdict(byId('every'), every);
    setText(byId('every-lines'), every.lines.join('\n'));
    byId('every').dataset.verdict = judged.verdict;
  }

  /* --- In this run --- */

  showTexts() {
    const { arcade } = this, { counts } = arcade;
    const { first } = counts, firstText = first === null ? '' : this.firstText(first);
    showVerdict(byId('run-moments'), picturesVerdict(counts));
    showVerdict(byId('run-halves'), bytesVerdict(counts, firstText));
    showVerdict(byId('run-left'), runsVerdict(counts));
    const resets = resetsVerdict(counts);
    byId('run-resets').hidden = resets === null;
    if (resets !== null) showVerdict(byId('run-resets'), resets);
    setText(byId('run-counts'), this.countsText());
    byId('show-byte').hidden = counts.torn === 0 || arcade.past.torn === null;
    setText(byId('what-text'), this.whatText);
    byId('guesses').hidden = !this.asks;
    byId('wire-note').hidden = !arcade.wireCut;
  }

  /* An instruction, by its label, or as the driver's, if the game has it. */
  instructionText(at) {
    const by = this.hasDriver && isDriver(at) ? 'the driver, ' : '';
    return `${by}${this.program.where(at)}: ${this.program.at(at)}`;
  }

  /* Which instruction wrote the first early byte. */
  firstText({ at, cycles }) {
    return `, the first by ${this.instructionText(at)}, at ${(cycles / HERTZ).toFixed(2)} s of the `
      + 'game';
  }

  countsText() {
    const { arcade } = this, { pictures, fetched, written } = arcade.counts;
    const { seconds } = arcade, rate = seconds > 0 ? (pictures / seconds).toFixed(1) : '0';
    const others = [`${fetched.toLocaleString('en')} bytes fetched`,
      `${written.toLocaleString('en')} written`];
    if (arcade.fault !== '') others.push(`stopped: ${arcade.fault}`);
    return `${rate} pictures a second, ${seconds.toFixed(1)} s since ${this.since}: `
      + `${others.join(', ')}.`;
  }

  /* The game after its first seconds, at rest, with a large button: for who wants less motion. */
  beginStill() {
    for (let k = 0; k < STILL_SECONDS * 10; k++) this.run(0.1);
    this.setPaused(true);
    this.drawAnew();
    this.showPads();
    this.showTexts();
    byId('tube-play').hidden = false;
  }

  tell(now) {
    if (now - this.textsAt <= TEXTS_AFTER) return;
    this.textsAt = now;
    this.showTexts();
  }
}

/* Keys, touches and buttons of the game, and those of its board. */
export function listenToPlay(play) {
  const on = (id, name, act) => byId(id).addEventListener(name, act);
  listenToPlayer(play);
  on('game-wire', 'click', () => {
    const isCut = byId('game-wire').getAttribute('aria-pressed') === 'true';
    byId('game-wire').setAttribute('aria-pressed', String(!isCut));
    play.changeBoard();
  });
  on('beam', 'change', () => play.changeBoard());
  on('strobes-ignored', 'change', () => play.changeBoard());
  on('mistake', 'change', () => play.restart());
  on('show-byte', 'click', () => play.showByte());
  on('tube-play', 'click', () => play.setPaused(false));
  listenToRows(play.strip, {
    get length() { return play.arcade.past.length; },
    zoom: (factor) => play.zoom(factor), goTo: (moment) => play.goTo(moment),
    walk: (slots) => play.walk(slots),
    drawRows: () => {
      play.rest();
      play.drawStrip();
    },
  });
  for (const button of document.querySelectorAll('[data-guess]')) {
    button.addEventListener('click', () => play.takeGuess(button.dataset.guess || null));
  }
}
