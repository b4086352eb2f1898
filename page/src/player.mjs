/* A game on its tube: it runs at its own pace, and takes keys, touches and gamepads. Tested, not
 * proved. */
import { Arcade, HERTZ } from './arcade.mjs';
import { Pads } from './gamepads.mjs';
import { byId, setText } from './parts.mjs';
import { Scope, listenToScope } from './scope.mjs';
import { Screen } from './screen.mjs';
import { Ears } from './sounds.mjs';

/* What a frame of the animation makes up for at most, in milliseconds. */
const MOST_LATE = 100;
/* How long a picture stays on the tube that is the last one, in seconds of the board. */
const GLOW = 0.5;
/* Which key is which button. */
export const GAME_KEYS = {
  ArrowLeft: 'left', ArrowRight: 'right', ArrowUp: 'thrust', ' ': 'fire', Shift: 'hyperspace',
  5: 'coin', 1: 'start1', 2: 'start2',
};

export class Player {
  constructor(engine) {
    Object.assign(this, { engine, arcade: null, isShown: false, isPaused: false, script: [] });
    Object.assign(this, { pads: new Pads(), ears: new Ears(byId('sound')), asked: 0 });
    this.scope = new Scope(() => this.strokesInView);
    this.screen = new Screen(byId('tube'));
    this.press = this.press.bind(this);
    this.frame = this.frame.bind(this);
  }

  /* Puts a program and its vector ROM into a board, which begins. */
  insert(program, shapes) {
    this.arcade?.free();
    this.arcade = this.boardOf(program, shapes);
    this.pads.clear();
    this.asked = -1;
  }

  boardOf(program, shapes) { return new Arcade(this.engine, program, shapes); }

  /* --- Time --- */

  setShown(isShown) {
    const begins = isShown && !this.isShown;
    this.isShown = isShown;
    if (begins) this.go();
    this.hush();
  }

  setPaused(isPaused) {
    this.isPaused = isPaused;
    setText(byId('pause'), isPaused ? 'Play' : 'Pause');
    this.go();
    this.hush();
  }

  go() {
    this.last = performance.now();
    if (this.isRunning || this.isPaused || !this.isShown) return;
    this.isRunning = true;
    requestAnimationFrame(this.frame);
  }

  /* A frame of the animation: so much of the board's time as has gone by. */
  frame() {
    this.isRunning = this.isShown && !this.isPaused;
    if (!this.isRunning) return;
    const now = performance.now(), passed = Math.min(MOST_LATE, now - this.last);
    this.last = now;
    this.pads.take(this.press);
    this.run(passed / 1000);
    this.draw();
    this.showPads();
    this.tell(now);
    requestAnimationFrame(this.frame);
  }

  /* Shows texts after a frame, where there are some. */
  tell() {}

  /* Lets seconds of the board pass. */
  run(seconds) {
    const { arcade } = this, before = arcade.number, now = arcade.time;
    for (const [button, from, to] of this.script) arcade.press(button, now >= from && now < to);
    arcade.run(Math.round(seconds * HERTZ));
    if (arcade.number > before) this.seenAt = arcade.processor.cycles;
    this.ears.take(arcade);
  }

  /* --- Sounds --- */

  /* They are off until somebody asks for them. */
  setLoud(isLoud) {
    if (!this.ears.setLoud(isLoud)) setText(byId('game-said'), NO_SOUND);
    this.hush();
  }

  /* They are heard only while the game runs, and is in view; and no picture is played. */
  hush() {
    const { arcade, scope } = this, isInView = this.isShown && !document.hidden;
    this.ears.follow(arcade, !scope.isOn && isInView && !this.isPaused);
  }

  /* --- The picture --- */

  /* Draws it on a canvas that became empty. */
  drawAnew() {
    this.screen.key = '';
    if (this.arcade !== null) this.draw();
  }

  /* The picture that is on the tube: the newest; none where none was finished for long. */
  get seen() {
    const { picture, processor } = this.arcade;
    return picture !== null && processor.cycles - this.seenAt < GLOW * HERTZ ? picture : null;
  }

  /* Its strokes, or null if the tube isn't in view. */
  get strokesInView() { return this.isShown ? this.seen?.strokes ?? [] : null; }

  /* What a torn picture is made of: all of it is red. */
  tearOf({ strokes }) { return { wanted: [], next: [], wrong: strokes }; }

  draw() {
    const { seen } = this;
    this.screen.draw(seen, null, false, seen?.torn ? this.tearOf(seen) : null);
    const count = String(seen?.strokes.length ?? 0), { dataset } = byId('tube');
    if (dataset.strokes !== count) dataset.strokes = count;
  }

  /* --- Hands --- */

  press(name, isDown) {
    this.script = [];
    this.arcade.press(name, isDown);
  }

  /* Shows the buttons that the game has read by now, and tells their keys. */
  showPads() {
    const { asked } = this.arcade;
    if (asked.size === this.asked) return;
    this.asked = asked.size;
    showButtonsOf(document.querySelectorAll('[data-input]'), asked, 'input');
    setText(byId('keys-text'), keysText(asked));
  }

  releaseAll() {
    this.arcade?.inputs.clear();
    this.pads.clear();
  }
}

/* What is told where the browser makes no sound. */
export const NO_SOUND = 'This browser makes no sounds.';
/* The keys of the buttons. */
const KEY_TEXTS = [['left', 'arrows turn'], ['thrust', 'up thrusts'], ['fire', 'Space fires'],
  ['hyperspace', 'Shift jumps'], ['coin', '5 is a coin'], ['start1', '1 starts']];

/* The keys of the buttons that a game reads. */
export function keysText(asked) {
  const keys = KEY_TEXTS.filter(([name]) => asked.has(name)).map(([, text]) => text);
  if (keys.length === 0) return 'This game reads no button.';
  return `Keys: ${keys.join(', ')}. Of a gamepad the stick turns, the lowest button fires.`;
}

/* Shows those buttons that a game reads; each says in its data which one it is. */
export function showButtonsOf(buttons, asked, field) {
  for (const button of buttons) button.hidden = !asked.has(button.dataset[field]);
}

/* Who clicks a button goes on by the keys of the game; who presses it by a key stays there. */
function goOnByKeys(player, { detail, target }) {
  if (detail > 0 && target.closest?.('button')) leadKeysToGame(player);
}

/* So does who chooses from a list, or ticks a box: `isByKey` says whether a key came last. */
function listenToChoices(player) {
  let isByKey = false;
  for (const type of ['keydown', 'pointerdown']) {
    document.addEventListener(type, () => { isByKey = type === 'keydown'; }, true);
  }
  document.addEventListener('change', ({ target }) => {
    if (!isByKey && target.closest?.('#play')) leadKeysToGame(player);
  });
}

function leadKeysToGame(player) {
  if (player.isShown) byId('tube').focus({ preventScroll: true });
}

/* Keys, touches and buttons of a game; `player` has restart(), too. */
export function listenToPlayer(player) {
  const on = (id, act) => byId(id).addEventListener('click', act);
  document.addEventListener('click', (event) => goOnByKeys(player, event));
  listenToChoices(player);
  listenToGameKeys(player);
  for (const button of document.querySelectorAll('[data-input]')) {
    listenToTouch(button, (isDown) => player.press(button.dataset.input, isDown));
  }
  on('restart', () => player.restart());
  on('pause', () => player.setPaused(!player.isPaused));
  on('sound', () => player.setLoud(!player.ears.isLoud));
  listenToScope(player.scope, () => player.hush());
  document.addEventListener('visibilitychange', () => player.hush());
  addEventListener('blur', () => player.releaseAll());
}

/* The keys are the game's, but where something has the focus that takes keys itself. */
function listenToGameKeys(player) {
  for (const [type, isDown] of [['keydown', true], ['keyup', false]]) {
    document.addEventListener(type, (event) => {
      const name = GAME_KEYS[event.key];
      const isTaken = event.target.closest?.(
        'button, select, input, textarea, a, summary, pre, [role="slider"]');
      if (!player.isShown || name === undefined) return;
      // A key that is let go is let go wherever the focus is by then.
      if (isDown && (isTaken || event.ctrlKey || event.metaKey)) return;
      if (isDown || !isTaken) player.press(name, isDown);
      else player.arcade.press(name, false);
      if (!isTaken) event.preventDefault();
    });
  }
}


/* A button is down as long as a finger or a key is on it. */
export function listenToTouch(button, act) {
  const set = (isDown) => (event) => {
    act(isDown);
    button.classList.toggle('down', isDown);
    event.preventDefault();
  };
  button.addEventListener('pointerdown', set(true));
  for (const type of ['pointerup', 'pointercancel', 'pointerleave', 'blur']) {
    button.addEventListener(type, set(false));
  }
  const isPress = (event) => event.key === 'Enter' || event.key === ' ';
  button.addEventListener('keydown', (event) => { if (isPress(event)) set(true)(event); });
  button.addEventListener('keyup', (event) => { if (isPress(event)) set(false)(event); });
}
