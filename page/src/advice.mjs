/* What `dvg explain` says of a frame that is refused: what its fault means, and what to do. */
import { COMMAND } from './engine.mjs';

/* The number of the fault that is a loop. */
const LOOP_FAULT = 9;

/* Whether an operation is a jump that leads back. */
function isWayBack(line, number) {
  return line.startsWith('jump ') && Number(line.slice(5)) <= number;
}

/* The number of the jump that leads back in a frame of these lines over a ROM, or -1: it is the
 * first with which, and with those before it, `dvg check` finds a loop. */
function wayBack(engine, rom, lines) {
  return lines.findIndex((line, number) => {
    if (!isWayBack(line, number)) return false;
    const upTo = lines.map((other, k) => (k > number && isWayBack(other, k) ? 'halt' : other));
    return engine.run(COMMAND.check, `${rom}${upTo.join('\n')}\n`).output
      .includes(`fault ${LOOP_FAULT}`);
  });
}

/* Of what readSketch returns, the sentences about the fault of a frame, each after a line end; ''
 * where no frame is refused. `advice` has two sentences for each fault. */
export function adviceOf(engine, { said, frames, rom }, advice) {
  const [, fault] = /: fault ([0-9]+) /.exec(said) ?? [];
  if (fault === undefined) return '';
  const lines = frames.find(({ isGood }) => !isGood)?.lines ?? [];
  const back = Number(fault) === LOOP_FAULT ? wayBack(engine, rom, lines) : -1;
  const isInRom = Number(fault) === LOOP_FAULT && back < 0;
  const [means, cure] = isInRom ? advice.at(-1) : advice[fault - 1];
  const place = back < 0 ? '' : `operation ${back}, ${lines[back]}: `;
  return `\n${place}${means}\ndo: ${cure}`;
}
