/* What `dvg game` says of a game's bytes: in dvg.wasm is the plain form of the proved check. The
 * names of places, which aren't in the bytes, are added here. Tested, not proved. */
import { COMMAND } from './engine.mjs';

/* The verdicts: the statuses of `dvg game`, and NONE of a game that it doesn't judge. */
export const VERDICT = { GOOD: 0, REFUSED: 1, UNSEEN: 3, NONE: 4 };

/* Where a line names a place of the program: the instruction that it is about, and where that leads
 * or what is beside it. Operands have a $, and addresses that are written or read are no places. */
const PLACE = /^[0-9A-F]{4}(?=:)|(?<=\b(?:at|into) |; )[0-9A-F]{4}\b/g;

/* The verdict of a program over a vector ROM, and lines, the cause first; the first line of what
 * isn't refused is the verdict in words. */
export function judgeProgram(engine, program, shapes) {
  if (program.isDeluxe) {
    return { verdict: VERDICT.NONE, lines: ['nothing is proved of the board of Asteroids Deluxe'] };
  }
  const { status, output } = engine.run(COMMAND.game, Uint8Array.of(...shapes, ...program.bytes));
  const lines = output.trim().split('\n').map((line) => line.replace(/^refused: /, '')
    .replace(PLACE, (at) => program.where(parseInt(at, 16))));
  return { verdict: status, lines };
}
