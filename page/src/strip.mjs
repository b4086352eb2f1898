/* Both rows over time of a game: its last seconds, slot by slot. */
import { HERTZ } from './arcade.mjs';
import { SLOT_CYCLES } from './past.mjs';
import { Rows } from './rows.mjs';
import { ROW, SIGN } from './signs.mjs';

/* How many pixels a millisecond has while the game runs. */
const MILLISECOND_PIXELS = 1;

export class Strip extends Rows {
  /* Shows the newest end of so many slots. */
  showEnd(length) {
    this.scale = MILLISECOND_PIXELS * 1000 * SLOT_CYCLES / HERTZ;
    this.first = Math.max(0, length - this.span);
  }

  markAll(past, from, to) {
    for (let k = from; k < to; k++) {
      const x = Math.floor((k - this.first) * this.scale);
      const end = Math.max(x + 1, Math.floor((k + 1 - this.first) * this.scale));
      for (const row of [ROW.GENERATOR, ROW.DRIVER]) {
        this.mark(row, x, end, past.areas[row][k], past.signs[row][k]);
      }
    }
  }

  drawSigns(past, from, to, colors) {
    for (const row of [ROW.GENERATOR, ROW.DRIVER]) {
      for (let k = from; k < to; k++) {
        const sign = past.signs[row][k], x = (k - this.first) * this.scale;
        const isMark = sign === SIGN.NONE || sign === SIGN.EARLY || sign === SIGN.SEEN;
        if (!isMark) this.drawSign(sign, x, this.tops[row], colors);
      }
    }
  }

  texts() {
    const seconds = this.span * SLOT_CYCLES / HERTZ;
    return ['the generator draws', 'the game writes', `${seconds.toFixed(2)} s across`];
  }
}
