/* Which buttons of the game a gamepad holds down. Tested, not proved. */

/* A gamepad's buttons by their numbers, as browsers number them: those of the right hand from the
 * lowest on, then Back and Start, then the cross. */
const PAD_BUTTONS = {
  0: 'fire', 1: 'thrust', 2: 'hyperspace', 3: 'hyperspace', 8: 'coin', 9: 'start1', 12: 'thrust',
  14: 'left', 15: 'right',
};
/* The left stick: which axis, which way, and what that is; and from where on it is that. */
const PAD_STICK = [[0, -1, 'left'], [0, 1, 'right'], [1, -1, 'thrust']], PAD_PUSHED = 0.5;

/* The names of all that gamepads hold; of those that aren't connected a list has null. */
export function heldBy(pads) {
  const held = new Set();
  for (const { axes, buttons } of [...pads].filter((pad) => pad?.connected)) {
    for (const [number, name] of Object.entries(PAD_BUTTONS)) {
      if (buttons[number]?.pressed) held.add(name);
    }
    for (const [axis, way, name] of PAD_STICK) {
      if (axes[axis] * way > PAD_PUSHED) held.add(name);
    }
  }
  return held;
}

/* The gamepads that the browser shows: none where the page that this one is part of forbids it. */
export function padsNow() {
  try {
    return navigator.getGamepads?.() ?? [];
  } catch {
    return [];
  }
}

/* What gamepads press and release from one look to the next. */
export class Pads {
  constructor() { this.held = new Set(); }

  /* Whether a gamepad is there. */
  get isThere() { return [...padsNow()].some((pad) => pad?.connected); }

  take(press) {
    const held = heldBy(padsNow());
    for (const name of held) if (!this.held.has(name)) press(name, true);
    for (const name of this.held) if (!held.has(name)) press(name, false);
    this.held = held;
  }

  clear() { this.held.clear(); }
}
