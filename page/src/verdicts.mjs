/* The verdicts by moments and by halves, and of the runs that were abandoned, of what is shown: of
 * the runs that began since the wire was last changed, and small beside that of all. */
import { COMMAND, OPTION } from './engine.mjs';
import { bytesVerdict, noCounts, picturesVerdict, runsVerdict } from './judged.mjs';
import { byId, setText } from './parts.mjs';
import { SIGN } from './signs.mjs';
import { traceOf } from './traces.mjs';
import { counted } from './words.mjs';

/* From which event on the runs began that are judged, and that in words: since the wire was last
 * changed, if it was. */
export function sinceOf({ wires, runs }) {
  const wire = wires.at(-1);
  return wire === undefined || wire.at === 0 ? { at: 0, text: '' }
    : { at: runs.since.at, text: ` since the wire was ${wire.cut ? 'cut' : 'mended'}` };
}

/* What is counted of what is shown, of the runs that began since then; and in `at` which event
 * shows each verdict: a torn picture, or what contradicts, the first early byte, the newest run
 * that was abandoned. */
export function countsOf(shown, since) {
  const { pictures, runs, signs, left, unread = 0 } = shown;
  const isSince = ({ from }) => from >= since.at;
  const now = pictures.filter(isSince), torn = now.filter((one) => one.torn);
  const ended = left.filter((at) => shown.entryAt(at - 1).run >= since.at);
  const struck = ended.filter((at) => signs[at] === SIGN.ANEW);
  const { drew, early, written, first } = since.at === 0 ? runs.all : runs.since;
  const counts = { ...noCounts(), pictures: now.length, judged: now.filter(isJudged).length,
    torn: torn.length, written, early, drew, left: ended.length, struck: struck.length,
    contradictions: runs.contradictions, unread, since: since.text };
  const isContradicted = torn.length === 0 && runs.contradictions > 0;
  return { counts, at: { moments: isContradicted ? runs.contradicts : torn[0]?.at,
    halves: early > 0 ? first : undefined, left: ended.at(-1) } };
}

const isJudged = ({ judged }) => judged;

/* What is said of all runs, where more than those are counted. */
export function sumsOf({ pictures, early }, { torn, early: earlyNow, judged }) {
  const all = pictures.filter(isJudged), tornOfAll = all.filter((one) => one.torn).length;
  return {
    moments: all.length === judged && torn === tornOfAll ? ''
      : `In all ${tornOfAll} of ${all.length} torn.`,
    halves: early === earlyNow ? '' : `In all ${counted(early, 'byte')} early.`, left: '',
  };
}

/* Whether the whole log of a board is what `play --all` writes for the same events, up to a cut
 * wire; and that in words. */
export function compareWithPlay(engine, board) {
  const events = board.beforeCut;
  const got = engine.run(COMMAND.play + OPTION, traceOf(board));
  const here = board.log(events).split('\n'), there = got.output.split('\n');
  const differs = here.slice(0, -1).findIndex((line, k) => line !== there[k]);
  const same = got.status === 0 && differs < 0
    && (events < board.length || here.length === there.length);
  const what = board.oneHalf ? 'the one half' : 'the cut wire';
  const cut = events < board.length ? ` up to ${what}, which no trace has` : '';
  return { same, text: same
    ? `the same${cut}: ${counted(events, 'event')}, ${counted(here.length - 1, 'line')}`
    : got.error.trim() || `another log from line ${differs + 1} on` };
}

export class Verdicts {
  /* `goTo` shows what is at an event. */
  constructor(engine, goTo) {
    Object.assign(this, { engine, goTo, judgedAt: 0, judgedOf: '' });
  }

  /* Judges what is shown, unless it was judged since it changed. Of a dump there are no verdicts,
   * but what `dvg picture` says. */
  judge(shown, isBoard) {
    this.judgedAt = performance.now();
    const key = `${shown.id} ${shown.length} ${shown.wires.length}`;
    if (this.judgedOf === key) return;
    this.judgedOf = key;
    byId('verdicts').hidden = shown.verdict !== undefined;
    const { counts, at } = countsOf(shown, sinceOf(shown)), sums = sumsOf(shown, counts);
    const said = { moments: picturesVerdict(counts), halves: bytesVerdict(counts),
      left: runsVerdict(counts) };
    if (said.moments.word + said.halves.word === '') said.halves.text = '';
    for (const id of Object.keys(said)) this.show(id, said[id], at[id], sums[id]);
    byId('left').parentElement.hidden = counts.left === 0;
    this.showTorn(shown, isBoard);
  }

  show(id, { word, color, text }, at, sum) {
    const [strong] = byId(id).children;
    setText(strong, word);
    strong.className = color;
    if (strong.nextSibling.data !== text) strong.nextSibling.data = text;
    setText(byId(`${id}-sum`), sum);
    byId(`${id}-go`).hidden = at === undefined;
    byId(`${id}-go`).onclick = () => this.goTo(at);
  }

  /* What `dvg torn` says of the log of what is shown. */
  showTorn(shown, isBoard) {
    const got = this.engine.run(COMMAND.torn, shown.tornBytes);
    const [said, seen] = (got.output || got.error).trim().split('\n');
    const line = /^torn at line ([0-9]+)/.exec(said);
    const place = line && isBoard ? ` (event ${shown.eventOfLine(Number(line[1]))})` : '';
    setText(byId('judge'), shown.verdict ? 'dvg picture' : 'dvg torn');
    setText(byId('judged'), shown.verdict ?? (line ? `${said}${place}, ${seen}` : said));
    byId('judged').className = line ? 'early' : { 0: 'good' }[got.status] ?? '';
  }
}
