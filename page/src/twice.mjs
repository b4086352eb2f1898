/* The first view: a game on two boards that differ in one wire. Both get the same keys, and the
 * same time. At the first picture that tears both stop, and its run can be shown stroke by stroke.
 * Tested, not proved. */
import { HERTZ } from './arcade.mjs';
import { judgeProgram } from './checker.mjs';
import { Pads } from './gamepads.mjs';
import {
  bytesVerdict, everyVerdict, picturesVerdict, resetsVerdict, showVerdict,
} from './judged.mjs';
import { byId, setText } from './parts.mjs';
import { GAME_KEYS, NO_SOUND, keysText, listenToTouch, showButtonsOf } from './player.mjs';
import { Program, isDriver } from './programs.mjs';
import { Screen } from './screen.mjs';
import { Ears } from './sounds.mjs';
import { Strip } from './strip.mjs';
import { TapedArcade, pressBeginning, tearingBeam } from './taped.mjs';
import { tearCode, tearOfGame } from './tears.mjs';

/* After how many seconds the wire is cut by itself. */
const CUT_AFTER = 3.5;
/* In which parts both boards run while a tear is waited for, in cycles. */
const WATCHED_PART = 1024;
/* How much of a torn picture must be of another one, and how far one of its strokes must be from
 * that in its place, in units of the screen: then eyes see the tear, and both stop there. For how
 * many seconds after the cut that is waited for; after that any stroke will do. */
const CLEAR_PART = 0.25, CLEAR_UNITS = 30, CLEAR_WITHIN = 1.5, STEPS_OF_UNIT = 512;
/* After how many seconds without a tear something is said of it. */
const NO_TEAR_AFTER = 5;
/* How long at most a run is waited for that is open as both stop, in seconds. */
const LONGEST_RUN = 0.4;
/* How long a run takes in slow motion, in milliseconds of the clock. */
const SLOWLY = 6000;
/* For how long after a stop a key isn't taken as a wish to go on, in milliseconds. */
const STARTLED = 900;
/* What a frame of the animation makes up for, how often texts are shown, in milliseconds; and with
 * how many frames the rows are drawn once. */
const MOST_BEHIND = 100, SAID_EVERY = 200, DRAWN_EVERY = 4;
/* How long a picture glows that is the last one, in seconds of the board. */
const AFTERGLOW = 0.5;
/* How many pixels a tube has across at most while it runs, if the screen has more. */
const MOST_ACROSS = 640;
/* What a finger on a picture presses: a game that reads no more than that has no buttons. */
const BY_FINGER = ['fire', 'thrust'];
/* The game of the first view. */
export const FIRST_TWICE = 'Cave';

/* A board with its tube, its rows and its verdict. */
class Side {
  constructor(name) {
    this.section = byId(`side-${name}`);
    this.screen = new Screen(byId(`tube-${name}`));
    this.strip = new Strip(byId(`rows-${name}`));
    [this.verdict, this.reset] = ['.verdict', '.reset'].map((one) => (
      this.section.querySelector(one)));
    this.arcade = null;
  }

  insert(engine, { program, shapes }) {
    this.arcade?.free();
    this.arcade = new TapedArcade(engine, program, shapes);
    this.screen.key = '';
  }

  /* The picture that is on the tube, or none. */
  get seen() {
    const { picture, processor, taped } = this.arcade;
    const done = taped.findLast((run) => run.done !== null)?.done ?? -Infinity;
    return processor.cycles - done > AFTERGLOW * HERTZ ? null : picture;
  }
}

export class Twice {
  constructor(engine, games) {
    Object.assign(this, { engine, games, game: null, isShown: false, phase: '', colors: null });
    Object.assign(this, { turn: 0, saidAt: 0, stoppedAt: 0, tear: null, frames: [], asked: -1 });
    Object.assign(this, { pads: new Pads(), ears: new Ears(byId('both-sound')), fit: () => {} });
    [this.whole, this.cut] = this.sides = [new Side('whole'), new Side('cut')];
    for (const name of ['frame', 'watchPads', 'takeHand']) this[name] = this[name].bind(this);
  }

  /* --- Beginning --- */

  /* Begins a game on both boards; by default with the first beam that makes it tear, and leaves the
   * watchdog of the whole side alone. */
  begin(name, game, { beam, said = '', isStill = false } = {}) {
    Object.assign(this, { name, game, program: new Program(game.program, game.labels) });
    const found = beam ?? tearingBeam(this.engine, game);
    byId('both-beam').value = String(found ?? 1);
    byId('both-ignored').checked = true;
    const isNone = found === null ? ' With none of these beams does it tear within 4 seconds: its '
      + 'pictures are done before the next one comes.' : '';
    this.hasBeam = found !== null;
    this.judge();
    this.beginAnew(isStill);
    this.say(`${said}${isNone}`.trim());
  }

  /* Says something below the buttons, in view: the game that is there goes on. */
  say(text, isBad = false) {
    const said = byId('both-said');
    said.className = isBad ? 'bad' : '';
    setText(said, text);
    if (text !== '') said.scrollIntoView({ block: 'nearest' });
  }

  /* Begins the game anew, as what is asked of both boards is now. */
  beginAnew(isStill = false) {
    for (const side of this.sides) side.insert(this.engine, this.game);
    this.ask();
    Object.assign(this, { until: 0, cutAt: Infinity, cutsItself: true, isPlayed: false });
    Object.assign(this, { isFlown: false, asked: -1 });
    byId('both-game').value = this.name;
    this.setPhase('both');
    byId('first-play').hidden = !isStill;
    if (isStill) this.runToTear();
    else this.go();
  }

  /* Takes what is asked of both boards: all but the wire. */
  ask() {
    for (const { arcade } of this.sides) {
      arcade.slow = Number(byId('both-beam').value);
      arcade.ignored = byId('both-ignored').checked;
    }
    const { slow, ignored } = this.whole.arcade;
    const pace = slow === 1 ? 'at its own pace' : `${slow} times as slow`;
    const comes = ignored ? 'ignored' : 'a new start';
    setText(byId('asked-text'), `Both: ${this.name}, beam ${pace}, strobes amid a picture `
      + `${comes}. Change this`);
  }

  /* The first tear at once, as a still. */
  runToTear() {
    while (this.phase !== 'stopped' && this.time < CUT_AFTER + NO_TEAR_AFTER) this.pass(0.1);
    this.show();
  }

  /* --- Time --- */

  get cycles() { return this.whole.arcade.processor.cycles; }

  get time() { return this.cycles / HERTZ; }

  get isRunning() { return this.phase === 'both' || this.phase === 'cut' || this.phase === 'on'; }

  setShown(isShown) {
    this.isShown = isShown;
    if (isShown) this.go();
    if (this.whole.arcade !== null) this.hush();
  }

  /* What is heard is the board whose wire is whole, while both run, and are in view. */
  hush() {
    const isHeard = this.isShown && this.isRunning && !document.hidden && !this.scope.isOn;
    this.ears.follow(this.whole.arcade, isHeard);
  }

  setLoud(isLoud) {
    if (!this.ears.setLoud(isLoud)) this.say(NO_SOUND);
    this.hush();
  }

  /* While both have stopped, a gamepad goes on by one of its buttons. */
  watchPads() {
    if (!this.isShown || this.phase !== 'stopped' || !this.pads.isThere) return;
    this.pads.take((name, isDown) => this.takeHand(name, isDown, false));
    requestAnimationFrame(this.watchPads);
  }

  /* Tubes that are large have fewer pixels while they run. */
  fitTubes() {
    const most = this.isRunning ? String(MOST_ACROSS) : '';
    const canvases = this.sides.map(({ screen }) => screen.canvas);
    if (canvases.every(({ dataset }) => dataset.most === most)) return;
    for (const { dataset } of canvases) dataset.most = most;
    this.fit();
  }

  /* The buttons that the game reads, for fingers; none where a finger on a picture will do. */
  showPads() {
    const { asked } = this.whole.arcade;
    if (asked.size === this.asked) return;
    this.asked = asked.size;
    const isAll = [...asked].every((name) => BY_FINGER.includes(name));
    showButtonsOf(document.querySelectorAll('[data-both]'), isAll ? new Set() : asked, 'both');
    byId('twice').classList.toggle('has-pads', !isAll);
    setText(byId('both-keys'), keysText(asked));
  }

  setPhase(phase) {
    this.phase = phase;
    byId('twice').classList.toggle('stopped', phase === 'stopped');
    const { wireCut } = this.cut.arcade;
    this.cut.section.classList.toggle('is-cut', wireCut);
    byId('cut-wire').setAttribute('aria-pressed', String(wireCut));
    setText(byId('cut-wire'), wireCut ? 'Mend it' : 'Cut it now');
    setText(byId('fly'), phase === 'on' ? 'Stop at a tear' : 'Fly it yourself');
    this.tellTexts();
    this.fitTubes();
    this.hush();
    if (phase === 'stopped') this.watchPads();
  }

  go() {
    this.last = performance.now();
    if (this.isAnimated || !this.isShown || !this.isRunning) return;
    this.isAnimated = true;
    requestAnimationFrame(this.frame);
  }

  frame() {
    this.isAnimated = this.isShown && this.isRunning;
    if (!this.isAnimated) return;
    const now = performance.now(), passed = Math.min(MOST_BEHIND, now - this.last);
    this.last = now;
    this.pads.take((name, isDown) => this.press(name, isDown));
    this.pass(passed / 1000);
    this.ears.take(this.whole.arcade);
    if (this.isRunning) this.drawLive();
    if (now - this.saidAt > SAID_EVERY) {
      this.saidAt = now;
      this.tellTexts();
      this.showPads();
    }
    this.frames.push(performance.now() - now);
    if (this.frames.length > 600) this.frames.shift();
    requestAnimationFrame(this.frame);
  }

  /* Lets seconds of both boards pass, or fewer, up to a tear that is waited for. */
  pass(seconds) {
    this.until = Math.max(this.until, this.cycles) + seconds * HERTZ;
    while (this.cycles < this.until) {
      const isWatched = this.phase === 'cut';
      this.runTo(isWatched ? Math.min(this.until, this.cycles + WATCHED_PART) : this.until);
      if (this.phase === 'both' && this.cutsItself && this.time >= CUT_AFTER) this.setWire(true);
      if (isWatched && this.isClear(this.cut.arcade.past.torn)) {
        this.stop();
        return;
      }
    }
  }

  /* Both boards come to the same time, but for the rest of an instruction. */
  runTo(cycles) {
    for (const { arcade } of this.sides) {
      if (!this.isPlayed) pressBeginning(arcade);
      arcade.run(cycles - arcade.processor.cycles);
    }
  }

  /* Whether a torn picture shows much of another one; later whether it shows something of it. */
  isClear(torn) {
    if (torn === null || torn.began < this.cutAt || this.tapeOf(torn) === undefined) return false;
    torn.parts ??= this.partsOf(torn);
    const { wrong } = torn.parts, isLate = this.time > this.cutAt / HERTZ + CLEAR_WITHIN;
    const part = wrong.length / torn.picture.strokes.length;
    return isLate ? wrong.length > 0 : part >= CLEAR_PART && leapOf(torn) >= CLEAR_UNITS;
  }

  /* The run of a torn picture; none of one that was long ago. */
  tapeOf(torn) {
    return this.cut.arcade.taped.find(({ began, told }) => began === torn.began && told !== null);
  }

  partsOf(torn) { return tearOfGame(this.engine, torn, { bytes: this.game.shapes }); }

  /* --- The wire --- */

  setWire(isCut) {
    const { arcade } = this.cut;
    arcade.wireCut = isCut;
    arcade.countAnew();
    Object.assign(this, { cutAt: isCut ? this.cycles : Infinity, cutsItself: false });
    this.setPhase(isCut ? 'cut' : 'both');
    this.go();
  }

  /* --- Stopped --- */

  /* Stops both at the torn picture: its run, and that of the whole side which was drawn meanwhile.
   * That is let come to its end. */
  stop() {
    const { whole, cut } = this, torn = cut.arcade.past.torn;
    const right = this.tapeOf(torn);
    const middle = (torn.began + torn.done) / 2, end = this.cycles + LONGEST_RUN * HERTZ;
    let left = whole.arcade.tape;
    if (left.done === null && left.began > middle) left = whole.arcade.taped.at(-2) ?? left;
    while (left.done === null && left === whole.arcade.tape && this.cycles < end) {
      this.runTo(this.cycles + WATCHED_PART);
    }
    this.tear = { torn, left, right, wrong: new Set(torn.parts.wrong) };
    const times = [left.began, right.began, ...left.ends, ...right.ends].sort((a, b) => a - b);
    this.steps = [...times.filter((time, k) => time !== times[k - 1]), Infinity];
    this.stoppedAt = performance.now();
    byId('stroke').max = this.steps.length - 1;
    byId('stroke').value = this.steps.length - 1;
    this.slowlyFrom = null;
    this.setPhase('stopped');
    this.show();
  }

  /* Goes on, by the hands of who looks at it. */
  goOn() {
    byId('first-play').hidden = true;
    this.isPlayed = true;
    this.cutsItself = false;
    for (const { arcade } of this.sides) arcade.inputs.clear();
    this.setPhase(this.cut.arcade.wireCut ? 'on' : 'both');
    this.drawLive(true);
    // From now on the keys are the game's.
    byId('tube-whole').focus({ preventScroll: true });
    this.go();
  }

  /* The run that is shown, or else the last one, as a log. */
  get log() {
    const { taped } = this.cut.arcade;
    return (this.phase === 'stopped' ? this.tear.right : taped.findLast(({ done }) => done !== null)
      ?? taped.at(-1)).log;
  }

  /* Stops at the next tear. */
  stopSoon() {
    this.cutAt = this.cycles;
    this.setPhase('cut');
    this.go();
  }

  /* The run in slow motion, from its beginning on. */
  showSlowly() {
    if (this.slowlyFrom !== null) {
      this.slowlyFrom = null;
      setText(byId('slowly'), 'Slow motion');
      return;
    }
    this.slowlyFrom = performance.now();
    setText(byId('slowly'), 'Stop');
    const { left, right } = this.tear, first = this.steps[0];
    const last = Math.max(left.done ?? right.done, right.done);
    const turn = () => {
      if (this.slowlyFrom === null || this.phase !== 'stopped') return;
      const part = (performance.now() - this.slowlyFrom) / SLOWLY;
      const time = first + part * (last - first);
      const step = this.steps.findIndex((one) => one > time);
      byId('stroke').value = part >= 1 ? this.steps.length - 1 : Math.max(0, step - 1);
      this.showStep();
      if (part >= 1) this.showSlowly();
      else requestAnimationFrame(turn);
    };
    requestAnimationFrame(turn);
  }

  /* --- What is shown --- */

  /* Draws all anew, as on canvases that became empty. */
  show() {
    if (this.phase === '') return;
    for (const { screen } of this.sides) screen.key = '';
    if (this.phase === 'stopped') this.showStep();
    else this.drawLive(true);
    this.tellTexts();
  }

  drawLive(isAll = false) {
    this.turn = (this.turn + 1) % DRAWN_EVERY;
    for (const side of this.sides) {
      const { arcade, screen, strip, seen } = side, { past } = arcade;
      const isKept = seen?.torn && past.torn?.picture === seen;
      if (isKept) past.torn.parts ??= this.partsOf(past.torn);
      screen.draw(seen, null, false, isKept
        ? { wanted: [], next: [], wrong: past.torn.parts.wrong } : null);
      if (!isAll && this.turn !== 0) continue;
      strip.showEnd(past.length);
      strip.draw(past, past.length, this.colors);
    }
  }

  /* Both runs up to a moment of them: the beams, the rows and a text. */
  showStep() {
    const { left, right, torn, wrong } = this.tear, at = Number(byId('stroke').value);
    const time = this.steps[at], isEnd = time === Infinity;
    const from = this.steps[0], to = Math.max(left.done ?? 0, right.done);
    const draws = [
      [this.whole, left, { strokes: left.strokes ?? [], wanted: left.strokes ?? [], next: [],
        wrong: new Set() }],
      [this.cut, right, { ...torn.parts, strokes: right.strokes, wrong }],
    ];
    const counts = draws.map(([side, run, drawn]) => {
      const { past } = side.arcade, count = run.countAt(time);
      side.screen.drawRun(drawn, count);
      side.strip.showSpan(past.slotAt(from), past.slotAt(to) + 1);
      side.strip.draw(past, isEnd ? past.slotAt(to) + 2 : past.slotAt(time) + 1, this.colors);
      return `${count} of ${run.strokes?.length ?? run.ends.length}`;
    });
    const passed = ((isEnd ? to : time) - from) / HERTZ * 1000;
    const text = `${passed.toFixed(1)} ms: left ${counts[0]} lines, right ${counts[1]}`;
    setText(byId('stroke-text'), text);
    byId('stroke').setAttribute('aria-valuetext', text);
  }

  /* The strokes that are on the right tube: an oscilloscope shows that board. */
  get strokesOfCut() {
    if (this.phase !== 'stopped') return this.cut.seen?.strokes ?? [];
    const { right } = this.tear, time = this.steps[Number(byId('stroke').value)];
    return right.strokes.slice(0, right.countAt(time));
  }

  tellTexts() {
    for (const { arcade, verdict, reset } of this.sides) {
      showVerdict(verdict, picturesVerdict(arcade.counts));
      const resets = resetsVerdict(arcade.counts);
      reset.hidden = resets === null;
      if (resets !== null) setText(reset, `${resets.word}${resets.text}`);
    }
    setText(byId('what-happened'), this.happenedText);
  }

  get happenedText() {
    const { phase } = this, { arcade } = this.cut, { counts } = arcade;
    if (arcade.fault !== '') return `Both stopped: ${arcade.fault}.`;
    if (phase === 'stopped') return this.tornText;
    if (phase === 'both' && this.cutsItself) {
      return 'In a few seconds this wire is cut.';
    }
    if (phase === 'both') {
      return 'Mended: each run that begins now is whole again. Cut it once more?';
    }
    if (counts.torn > 0) return `${this.handsText}What is red came from another picture.`;
    if (arcade.seconds < NO_TEAR_AFTER) return 'Cut. It says “done” always, from now on.';
    if (counts.left > counts.pictures) {
      return 'No tear: each strobe starts the beam anew, so hardly a picture is finished.';
    }
    return 'No tear yet: each picture is done before the game writes on.'
      + `${this.hasBeam ? ' A slower beam may tear: open “Change this”, below.' : ''}`;
  }

  /* How it is flown, until somebody does. */
  get handsText() {
    if (this.isFlown) return '';
    return this.name === FIRST_TWICE ? 'Hold Space, or hold a picture, to climb. '
      : 'Arrows, Space and Shift play; 5 is a coin, 1 starts. ';
  }

  get tornText() {
    const { torn, wrong } = this.tear, { length } = torn.picture.strokes;
    return 'The cut wire said “done” too soon: the game wrote its next picture over this one, and '
      + `${wrong.size} of ${length} lines, red, are of that.`;
  }

  /* What is known of the byte that tore the picture. */
  get byteText() {
    if (this.phase !== 'stopped') return '';
    const { byte } = this.tear.torn, later = 1000 * (byte.readAt - byte.at) / HERTZ;
    const by = `${isDriver(byte.by) ? 'the driver, ' : ''}${this.program.where(byte.by)}: `
      + this.program.at(byte.by);
    const bytes = bytesVerdict(this.cut.arcade.counts);
    return `The ring: ${by} wrote there, and ${later.toFixed(2)} ms later the beam's chip read it. `
      + `${tearCode({ word: byte })} ${bytes.word}${bytes.text}`;
  }

  judge() {
    const judged = judgeProgram(this.engine, this.program, this.game.shapes);
    const { color, text, lines } = everyVerdict(judged, this.game);
    const whys = color === 'good' ? [] : lines;
    const strong = Object.assign(document.createElement('strong'),
      { className: color, textContent: 'In every run' });
    const link = Object.assign(document.createElement('a'),
      { href: '#premises', textContent: whys.length > 0 ? 'All of it' : 'What that takes' });
    link.addEventListener('click', (event) => {
      event.preventDefault();
      byId('premises').open = true;
      byId('premises').scrollIntoView({ block: 'nearest' });
      byId('premises').firstElementChild.focus();
    });
    const first = whys.length > 0 ? ` ${whys[0]}.` : '';
    byId('in-each-run').replaceChildren(strong, `${text}${first} `, link);
    byId('both-lines').hidden = whys.length === 0;
    setText(byId('both-lines'), whys.join('\n'));
  }

  /* --- Hands --- */

  press(name, isDown) {
    this.isFlown ||= isDown;
    if (!this.isPlayed && isDown) {
      this.isPlayed = true;
      for (const { arcade } of this.sides) arcade.inputs.clear();
    }
    for (const { arcade } of this.sides) arcade.press(name, isDown);
  }

  releaseAll() { for (const { arcade } of this.sides) arcade?.inputs.clear(); }

  /* A key or a finger that wants to fly: both go on where they have stopped, unless it was at work
   * as they did. Returns false where it is not taken. */
  takeHand(name, isDown, isRepeated) {
    if (this.phase === 'stopped') {
      if (!isDown || isRepeated || performance.now() - this.stoppedAt < STARTLED) return;
      this.goOn();
    }
    this.press(name, isDown);
  }
}

/* How far a stroke of another picture is at most from that which should stand in its place, in
 * units; they are told apart by their numbers. */
function leapOf({ picture: { strokes }, parts: { wanted, wrong } }) {
  const others = new Set(wrong);
  const leaps = strokes.map((stroke, k) => (!others.has(stroke) || wanted[k] === undefined ? 0
    : Math.max(...[0, 1].map((way) => Math.abs(stroke[way] - wanted[k][way])))));
  return Math.max(...leaps) / STEPS_OF_UNIT;
}

/* Buttons, keys and fingers of both boards. */
export function listenToTwice(twice) {
  const on = (id, name, act) => byId(id).addEventListener(name, act);
  on('cut-wire', 'click', () => {
    byId('first-play').hidden = true;
    twice.setWire(!twice.cut.arcade.wireCut);
  });
  on('first-play', 'click', () => twice.goOn());
  on('fly', 'click', () => (twice.phase === 'on' ? twice.stopSoon() : twice.goOn()));
  on('slowly', 'click', () => twice.showSlowly());
  on('stroke', 'input', () => {
    twice.slowlyFrom = null;
    setText(byId('slowly'), 'Slow motion');
    twice.showStep();
  });
  on('why', 'click', () => {
    byId('whys').hidden = !byId('whys').hidden;
    byId('why').setAttribute('aria-expanded', String(!byId('whys').hidden));
    setText(byId('why-byte'), twice.byteText);
    if (!byId('whys').hidden) byId('whys').scrollIntoView({ block: 'nearest' });
  });
  // Who clicks it goes on by the keys of the game.
  on('scope', 'click', ({ detail }) => {
    if (!twice.isShown) return;
    twice.hush();
    if (detail > 0) byId('tube-cut').focus({ preventScroll: true });
  });
  for (const id of ['both-beam', 'both-ignored']) on(id, 'change', () => twice.beginAnew());
  on('both-anew', 'click', () => twice.beginAnew());
  on('both-sound', 'click', () => twice.setLoud(!twice.ears.isLoud));
  listenToFlight(twice);
  addEventListener('blur', () => twice.releaseAll());
}

/* The keys of a game, but where something has the focus that takes them itself; and a finger on a
 * picture, which climbs. */
function listenToFlight(twice) {
  for (const type of ['keydown', 'keyup']) {
    document.addEventListener(type, (event) => {
      const name = GAME_KEYS[event.key], isDown = type === 'keydown';
      const isTaken = event.target.closest?.(
        'button, select, input, textarea, a, summary, label, pre, [role="slider"]');
      if (!twice.isShown || name === undefined) return;
      if (isDown && (isTaken || event.ctrlKey || event.metaKey)) return;
      twice.takeHand(name, isDown, event.repeat);
      if (!isTaken) event.preventDefault();
    });
  }
  for (const canvas of document.querySelectorAll('[data-fly]')) {
    canvas.addEventListener('pointerdown', (event) => {
      canvas.setPointerCapture(event.pointerId);
      twice.takeHand('fire', true, false);
      event.preventDefault();
    });
    for (const type of ['pointerup', 'pointercancel']) {
      canvas.addEventListener(type, () => twice.takeHand('fire', false, false));
    }
  }
  for (const button of document.querySelectorAll('[data-both]')) {
    listenToTouch(button, (isDown) => twice.takeHand(button.dataset.both, isDown, false));
  }
  addEventListener('gamepadconnected', twice.watchPads);
  document.addEventListener('visibilitychange', () => twice.hush());
}
