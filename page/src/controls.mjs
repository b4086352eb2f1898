/* What the buttons of the board do, which of them are grey, and why: by a state without a page. */
import { HOW_TEXT, ONE_HALF_TEXT, durationText, grouped } from './words.mjs';

/* Why what is grey is so: of a recording, and of a board with as many events as it holds. */
const ELSEWHERE = 'This is a recording: it can be looked at, not run.';
const FULL = '65,536 events are the most: begin anew, or run on and on.';

/* `state` says: whether the board is shown, and not a recording; whether it is full, runs, and runs
 * on and on; of the frames A and B whether each can be offered; whether a frame is of a sketch of
 * several; whether the newest moment is shown; how many events are to go, and how many happen in a
 * second; whether the wire is cut, there is one half alone, and by which schedule it runs. */
export function controlsOf(state) {
  const { isBoard, isFull, isRunning, isEndless, offerable } = state;
  const canRun = isBoard && offerable.every(Boolean) && (!isFull || isEndless);
  const why = whyNoRun(state);
  return {
    canRun, why,
    grey: {
      run: !isRunning && !canRun, once: isRunning || isFull || !canRun,
      events: isFull || !isBoard, board: !isBoard,
      offers: offerable.map((can) => !can || isFull || !isBoard),
    },
    wire: state.wireCut ? 'Mend the HALT wire' : 'Cut the HALT wire',
    run: isRunning ? 'Stop' : 'Run',
    runText: why || (isFull && !isRunning ? FULL : runText(state)),
    howText: (state.oneHalf ? ONE_HALF_TEXT : '') + HOW_TEXT[state.how],
    compareWhy: isBoard ? '' : 'What happened elsewhere has no trace.',
    offersText: offersText(state),
    mayForget: !isRunning && isBoard && !state.isNewest,
  };
}

/* The frame that can't be offered, or undefined. */
function faulty({ offerable }) {
  return ['A', 'B'].find((_, k) => !offerable[k]);
}

/* Why Run is grey, or '' where it isn't. */
function whyNoRun(state) {
  const { isBoard, isFull, isEndless, isRunning } = state, fault = faulty(state);
  if (!isBoard) return ELSEWHERE;
  if (isFull && !isEndless) return FULL;
  return fault && !isRunning ? `Frame ${fault} has a mistake (below). Mend it, then Run.` : '';
}

/* What Run does, and for how long. */
function runText({ isRunning, isEndless, left, rate }) {
  const count = `${grouped(left)} event${left === 1 ? '' : 's'}`;
  if (isRunning) {
    return `${isEndless ? 'On and on' : `${count} to go`}. Stop to use the grey buttons.`;
  }
  if (isEndless) return 'Run: on and on, anew after each 65,536 events.';
  return `Run: ${count}, in ${durationText(left / rate)}.`;
}

/* Why what is grey is so; or what an offer of a sketch is. */
function offersText(state) {
  const fault = faulty(state);
  if (!state.isBoard) return ELSEWHERE;
  if (state.isFull) return FULL;
  if (fault) return `Frame ${fault} has a fault, so it can't be offered.`;
  return state.isMoving ? 'Each offer of a sketch is of its next frame.' : '';
}
