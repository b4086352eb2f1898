// What can be tested of the page without a browser: dvg.wasm, and the modules of page/src. Called
// by tests/page, with the program's name and what to test:
//
//     node tests/parts/page/node.mjs DVG FOLDER SEEDS EVENTS [TEST..]
//
// FOLDER is for what is thrown away. Where tests are named, they alone are run, up to the first
// failure.
//
// The last line is 'N passed, M failed'.
import { spawnSync } from 'node:child_process';
import { existsSync, mkdirSync, readFileSync, readdirSync, writeFileSync } from 'node:fs';
import { adviceOf } from '../../../page/src/advice.mjs';
import { COMMAND, Engine, OPTION } from '../../../page/src/engine.mjs';
import { Board } from '../../../page/src/board.mjs';
import { AREA, SIGN, areaOf, drawnHalf } from '../../../page/src/signs.mjs';
import { hex } from '../../../page/src/hex.mjs';
import { playSteps, replay, stepsOf, traceOf } from '../../../page/src/traces.mjs';
import { Chance, Proportions, Random, reelOf } from '../../../page/src/chance.mjs';
import { Drawer, momentOf } from '../../../page/src/moments.mjs';
import { fragmentOf, linksOut, plainFragment, stateOf } from '../../../page/src/links.mjs';
import { controlsOf } from '../../../page/src/controls.mjs';
import { kindOf } from '../../../page/src/files.mjs';
import { Drops, whyNotShown } from '../../../page/src/drops.mjs';
import { Recording, boardOfDump } from '../../../page/src/recordings.mjs';
import { logOfBus } from '../../../page/src/buses.mjs';
import { readSketch, romOf } from '../../../page/src/sketches.mjs';
import { SCENES, SCENE_FRAMES } from '../../../page/src/playfield.mjs';
import { besideOf, tearOf } from '../../../page/src/tears.mjs';
import { bytesVerdict, picturesVerdict, runsVerdict } from '../../../page/src/judged.mjs';
import { countsOf, sinceOf, sumsOf } from '../../../page/src/verdicts.mjs';
import { eventText } from '../../../page/src/words.mjs';
import { driverOf, driverText, generatorOf } from '../../../page/src/inside.mjs';
import { Processor } from '../../../page/src/processor.mjs';
import { Twin, bytesOfTable, linesOfListing } from '../../../page/src/twin.mjs';
import { LESSONS, stateOfLesson, withLesson } from '../../../page/src/lessons.mjs';
import { explainedFaults } from '../../../page/advice.mjs';

const [program, work] = process.argv.slice(2, 4),
  [seeds, events] = process.argv.slice(4, 6).map(Number),
  named = process.argv.slice(6);
const top = new URL('../../..', import.meta.url).pathname;
const engine = await Engine.of(readFileSync(`${top}page/dvg.wasm`));
let passed = 0, failed = 0;

function expect(what, wanted, found) {
  if (wanted === found) passed++;
  else {
    failed++;
    const at = [...String(wanted)].findIndex((c, k) => c !== String(found)[k]);
    const near = (text) => JSON.stringify(text.slice(Math.max(0, at - 40), at + 60));
    const [left, right] = [near(String(wanted)), near(String(found))];
    console.log(`FAILED: ${what}\n  wanted ${left}\n  found  ${right}`);
    if (named.length > 0) end();
  }
}

function end() {
  console.log(`${passed} passed, ${failed} failed`);
  process.exit(failed === 0 ? 0 : 1);
}

process.on('uncaughtException', (error) => {
  failed++;
  console.log(`FAILED: ${error.stack}`);
  end();
});

// --- The commands, on tests/cases ---

// The cases of these texts as folders, which tests/unfold writes once.
function unfolded(name, texts, ...options) {
  const folder = `${work}/${name}`;
  if (existsSync(folder)) return folder;
  mkdirSync(folder);
  const files = texts.map((text) => `${top}tests/cases/${text}.md`);
  const { status, stderr } = spawnSync(`${top}tests/unfold`, [...options, folder, ...files]);
  if (status !== 0) throw new Error(`tests/unfold: ${stderr}`);
  return folder;
}

const TEXTS = ['arguments', 'check', 'check_bound', 'list', 'picture', 'picture_all', 'play',
  'play_all', 'play_banked', 'rom', 'torn'];
const SKETCH_TEXTS = ['lay', 'refused_sketches', 'render', 'render_check', 'sketch_faults',
  'sketches'];
const COMMANDS = {
  list: COMMAND.list, rom: COMMAND.rom, picture: COMMAND.picture, check: COMMAND.check,
  play: COMMAND.play, torn: COMMAND.torn, 'picture --all': COMMAND.picture + OPTION,
  'check --bound': COMMAND.check + OPTION, 'play --all': COMMAND.play + OPTION,
  render: COMMAND.sketch, 'render --check': COMMAND.sketch + OPTION, 'lay --rom': COMMAND.layRom,
  'lay --equates': COMMAND.layRom + OPTION, 'lay --table': COMMAND.layTable, game: COMMAND.game,
};
const read = (folder, file) => (existsSync(`${folder}/${file}`) ? readFileSync(`${folder}/${file}`)
  : Buffer.alloc(0));

// The number of the command of a case, or null where the page has none.
function commandOf(folder) {
  const args = read(folder, 'arguments').toString().split('\n').slice(0, -1);
  return COMMANDS[args.join(' ')] ?? null;
}

// Verdicts of `dvg render --check` without the times of pictures, as `check --bound` writes them.
function untimed(verdicts) {
  return verdicts.replace(/, \d+ vectors, .* in the emulator$/gm, '');
}

// What the page's reader of sketches tells of a text: its fault, or what `dvg render --check` says,
// and its frames; and what the page says of a frame that is refused.
function testReader(name, text) {
  const { stdout, stderr, status } = spawnSync(program, ['render', '--check'], { input: text });
  const refused = () => spawnSync(program, ['render'], { input: text }).stderr;
  const wanted = status === 0 ? stdout : stdout.length === 0 ? stderr : refused();
  const { said, good, frames, rom } = readSketch(engine, text);
  expect(`the sketch of ${name}: what is said`, wanted.toString().trim().replace(/^dvg: /gm, ''),
    said);
  expect(`the sketch of ${name}: whether it is good`, status === 0, good);
  const texts = frames.map(({ lines }) => `${rom}${lines.map((line) => `${line}\n`).join('')}`);
  const verdicts = frames.map(({ name: of }, k) => `${of === '' ? '' : `${of}: `}`
    + runProgram(['check', '--bound'], texts[k]));
  const told = untimed(stdout.toString());
  expect(`the sketch of ${name}: each of its frames`, told, verdicts.join(''));
  // A picture of too many words is no fault of the check, of which alone `dvg explain` tells.
  if (/fetches \d+ words, and at most/.test(said)) return;
  const [explained] = /^.*\ndo: .*$/m.exec(runProgram(['explain'], text)) ?? [];
  if (explained !== undefined) expect(`the sketch of ${name}: what is said of its fault`,
    explained, saidOf(text).said);
  if (!good) return;
  const laid = (input) => spawnSync(program, ['lay'], { input, maxBuffer: 1 << 28 }).stdout;
  expect(`the sketch of ${name}: their bytes`, laid(text).toString('hex'),
    Buffer.concat(texts.map(laid)).toString('hex'));
  if (frames.length > 0) expect(`the sketch of ${name}: its ROM`,
    spawnSync(program, ['lay', '--rom'], { input: text }).stdout.toString('hex'),
    spawnSync(program, ['lay', '--rom'], { input: texts[0] }).stdout.toString('hex'));
}

function testCases() {
  let others = 0;
  const cases = unfolded('cases', TEXTS);
  for (const name of readdirSync(cases)) {
    const folder = `${cases}/${name}`;
    const command = commandOf(folder);
    if (command === null) {
      others++;
      continue;
    }
    const got = engine.runBytes(command, read(folder, 'input'));
    const same = Buffer.from(got.output).equals(read(folder, 'output'))
      && Buffer.from(got.error).equals(read(folder, 'error'))
      && got.status === Number(read(folder, 'status').toString());
    expect(`the case ${name}`, true, same);
    if (command === COMMAND.play + OPTION && got.status === 0) testTrace(name,
      read(folder, 'input').toString());
  }
  console.log(`${others} cases of tests/cases are no command of the page: words that ask for`
    + ' nothing, help, --banked');
}

// Each time that a case of a sketch asks `dvg`, what dvg.wasm answers is what the program does, and
// what the page reads in the text is what the program says of it.
function testSketchCases() {
  const cases = unfolded('sketch_cases', SKETCH_TEXTS, '--asked');
  for (const name of readdirSync(cases)) {
    const command = commandOf(`${cases}/${name}`), input = read(`${cases}/${name}`, 'input');
    if (command !== null) {
      const args = read(`${cases}/${name}`, 'arguments').toString().trim().split('\n');
      const wanted = spawnSync(program, args, { input, maxBuffer: 1 << 28 });
      const got = engine.runBytes(command, input);
      expect(`the case ${name}`, true, wanted.status === got.status
        && wanted.stdout.equals(got.output) && wanted.stderr.equals(got.error));
    }
    testReader(name, input);
  }
}

// --- The board that the page makes of a driver and a generator ---

function testTrace(name, text) {
  const { rom, steps } = stepsOf(text);
  const board = new Board(engine, romOf(engine, rom));
  playSteps(board, steps);
  expect(`the page's board on ${name}`, engine.run(COMMAND.play + OPTION, text).output,
    board.log());
  const again = engine.run(COMMAND.play + OPTION, traceOf(board));
  expect(`the page's trace of ${name}`, again.error + again.output, board.log());
  board.free();
}


// --- Schedules by seeds, beside the program ---

function runProgram(args, input) {
  return spawnSync(program, args, { input, maxBuffer: 1 << 28 }).stdout.toString();
}

const example = (name) => readFileSync(`${top}examples/frames/${name}.sketch`, 'utf8');
const linesOf = (text) => readSketch(engine, text).frames[0].lines;
const drafts = [linesOf(example('score')), linesOf(example('rocks'))];
const reel = () => reelOf([{ lines: drafts[0] }], [{ lines: drafts[1] }]);

// The board after this many events of a schedule.
function runBoard(make, count, wireCut = false, rom = '', oneHalf = false) {
  const board = new Board(engine, romOf(engine, rom), wireCut, oneHalf), schedule = make();
  while (board.length < count) board.happen(schedule.next(board));
  return board;
}

const HOWS = {
  'by chance': (seed) => () => new Chance(seed, reel),
  'with resets': (seed) => () => new Chance(seed, reel, true),
  'in proportions': (seed) => () => new Proportions(seed, reel),
  'in proportions, strobes ignored': (seed) => () => new Proportions(seed, reel, true),
};

function testSchedules() {
  let lines = 0, pictures = 0;
  for (const [how, make] of Object.entries(HOWS)) {
    for (let seed = 1; seed <= seeds; seed++) {
      const board = runBoard(make(seed), events), trace = traceOf(board), log = board.log();
      expect(`${how}, seed ${seed}: the program's log`, runProgram(['play', '--all'], trace), log);
      expect(`${how}, seed ${seed}: the program's verdict`, 'not torn',
        runProgram(['torn'], board.tornLog.text).split(':')[0]);
      expect(`${how}, seed ${seed}: no byte is early`, 0, board.early);
      testOneMoment(`${how}, seed ${seed}`, board);
      expect(`${how}, seed ${seed}: no picture is torn`, false,
        board.pictures.some(({ torn }) => torn));
      expect(`${how}, seed ${seed}: all that is read was written`, 0, board.runs.contradictions);
      expect(`${how}, seed ${seed}: pictures come`, true, board.pictures.length > events / 10000);
      testLog(`${how}, seed ${seed}`, trace, log, board);
      lines += log.split('\n').length - 1;
      pictures += board.pictures.length;
      board.free();
    }
  }
  console.log(`schedules: ${4 * seeds} of ${events} events, ${lines} lines, ${pictures} pictures`);
}

// The log for `torn` is the one that examples/tools/log.awk makes, without its remarks.
function testLog(what, trace, log, board) {
  writeFileSync(`${work}/trace`, trace);
  const made = spawnSync('awk', ['-v', `trace=${work}/trace`, '-f', `${top}examples/tools/log.awk`],
    { input: log, maxBuffer: 1 << 28 });
  const wanted = made.stdout.toString().replace(/^#.*\n/gm, '');
  expect(`${what}: the log for torn`, wanted, Buffer.from(board.tornLog.text).toString());
}

// Of each run that halts: whether it is of no one moment, by the definition alone. Where a byte is
// read, the moment lies between its change before that and its change after that.
function tornRuns(text) {
  const told = new Map(), torn = [];
  let run = null;
  const read = (at, address, byte) => {
    run?.reads.push({ at, address });
    told.set(address, byte);
  };
  text.trimEnd().split('\n').forEach((line, at) => {
    const [name, place, value] = line.split(' '), address = parseInt(place, 16);
    const number = parseInt(value, 16);
    if (name === 'wrote') {
      if (told.get(address) !== number) run?.changes.push({ at, address });
      told.set(address, number);
    } else if (name === 'low') read(at, 2 * address, number);
    else if (name === 'fetched') read(at, 2 * address + 1, number >> 8);
    else if (name === 'started') run = { reads: [], changes: [] };
    else if (name === 'halted' && run !== null) {
      torn.push(isOfNoMoment(run));
      run = null;
    } else if (name === 'reset') {
      run = null;
      told.clear();
    }
  });
  return torn;
}

function isOfNoMoment({ reads, changes }) {
  let from = -Infinity, to = Infinity;
  for (const { at, address } of reads) {
    for (const change of changes.filter((one) => one.address === address)) {
      if (change.at < at) from = Math.max(from, change.at);
      else to = Math.min(to, change.at);
    }
  }
  return from >= to;
}

// The judge of moments says of each picture what the definition says.
function testOneMoment(what, board) {
  const ended = board.entries.map(({ text }, at) => ({ text, at }))
    .filter(({ text }) => /^(done|broke)/.test(text));
  const wanted = tornRuns(Buffer.from(board.tornLog.text).toString())
    .filter((_, k) => ended[k].text.startsWith('done'));
  expect(`${what}: which pictures are torn`, wanted.join(),
    board.pictures.map(({ torn }) => torn).join());
}

// The logs of examples/moments: how many pictures are torn, at which lines, and which line reads
// what was not written.
function testMomentLogs() {
  const logs = { torn: [1, 18], comes_back: [1, 19], late: [0], half: [0], whole: [0],
    contradicts: [0, undefined, 16] };
  for (const [name, [torn, tear, line]] of Object.entries(logs)) {
    const log = readFileSync(`${top}examples/moments/${name}.log`);
    const recording = new Recording(name, log, new Drawer(engine));
    const those = recording.pictures.filter((picture) => picture.torn);
    expect(`${name}.log: the torn pictures`, torn, those.length);
    expect(`${name}.log: where`, tear, those.map(({ tornAt }) => (
      recording.entryAt(tornAt).line))[0]);
    const { contradictions, contradicts } = recording.runs;
    expect(`${name}.log: what was not written`, line,
      contradictions > 0 ? recording.entryAt(contradicts).line : undefined);
  }
  const log = readFileSync(`${top}examples/logs/tears.log`);
  const [picture] = new Recording('tears.log', log, new Drawer(engine)).pictures;
  expect('tears.log: early, and not torn, as nothing of it shows', '2 0 false',
    `${picture.early} ${picture.seen} ${picture.torn}`);
}

// Small logs: how many bytes of the run are early, how many show, whether it is torn, and how many
// lines read what was not written.
const RUNS = [
  ['written after it was read', 'low 001 64|wrote 002 C8|fetched 001 A064', '1 0 false 0'],
  ['read after it was written', 'wrote 002 C8|low 001 C8|fetched 001 A0C8', '1 1 false 0'],
  ['written as it was', 'low 001 64|fetched 001 A064|wrote 006 00|low 003 00', '1 0 false 0'],
  ['into the other half', 'wrote 402 C8|low 001 64|fetched 001 A064', '0 0 false 0'],
  ['read, and both written', 'fetched 001 A064|wrote 002 C8|wrote 004 90|fetched 002 3090',
    '2 1 true 0'],
  ['not what was written', 'fetched 001 A0C8', '0 0 false 1'],
];

function testRuns() {
  const frame = ['wrote 000 01', 'wrote 001 E0', 'wrote 002 64', 'wrote 003 A0', 'wrote 004 80',
    'wrote 005 30', 'wrote 006 00', 'wrote 007 B0'];
  const recorded = (lines) => new Recording('a log', Buffer.from(`${lines.join('\n')}\n`),
    new Drawer(engine));
  for (const [what, lines, wanted] of RUNS) {
    const { pictures: [{ early, seen, torn }], runs } = recorded([...frame, 'started',
      'low 000 01', 'fetched 000 E001', ...lines.split('|'), 'halted']);
    expect(`a run: ${what}`, wanted, `${early} ${seen} ${torn} ${runs.contradictions}`);
  }
  const reset = recorded([...frame, 'reset', 'started', 'fetched 000 E201', 'halted']);
  expect('a reset makes void what was told', 0, reset.runs.contradictions);
}

const TORN = /^torn at line ([0-9]+): (.*)\nso far: [0-9]+ runs, .*[0-9]+ writes\n$/;

// With the wire cut, pictures are torn, and `torn` finds the first byte.
function testCutWire() {
  let torn = 0, pictures = 0;
  for (let seed = 1; seed <= seeds; seed++) {
    const board = runBoard(HOWS['by chance'](seed), events, true);
    const said = TORN.exec(runProgram(['torn'], board.tornLog.text));
    const first = board.entries.findIndex((entry) => entry.early);
    testOneMoment(`wire cut, seed ${seed}`, board);
    expect(`wire cut, seed ${seed}: the first early event`, first,
      board.tornLog.eventOf[Number(said?.[1]) - 1]);
    expect(`wire cut, seed ${seed}: the first early byte`, board.entries[first].text,
      said?.[2] ?? '');
    const those = board.pictures.filter((picture) => picture.torn);
    expect(`wire cut, seed ${seed}: pictures are torn`, true, those.length > 0);
    testTornPictures(seed, board, those);
    torn += those.length;
    pictures += board.pictures.length;
    board.free();
  }
  console.log(`wire cut: ${torn} of ${pictures} pictures torn`);
}

// What the page says of the board's proportions with the wire cut: a strobe that begins anew leaves
// runs without an end, and one that is ignored lets pictures be torn.
function testProportions() {
  let torn = 0;
  for (let seed = 1; seed <= seeds; seed++) {
    const anew = runBoard(HOWS['in proportions'](seed), 20000, true);
    expect(`wire cut, in proportions, seed ${seed}: runs are abandoned`, true,
      anew.abandoned > 0 && anew.left.length === anew.abandoned);
    expect(`wire cut, in proportions, seed ${seed}: no picture is torn`, 0,
      anew.pictures.filter(({ early }) => early > 0).length);
    const there = new Recording('a log', anew.tornLog.text, new Drawer(engine));
    const areMarked = ({ left, signs }) => left.every((at) => signs[at] === SIGN.ANEW);
    expect(`wire cut, in proportions, seed ${seed}: where runs begin anew`, 'true true',
      `${areMarked(anew)} ${there.left.length > 0 && areMarked(there)}`);
    const end = anew.left.at(-1), { left } = momentOf(anew, end + 1);
    expect(`seed ${seed}: an abandoned run is told`, true, left !== null && left.words.length > 0);
    const ignored = runBoard(HOWS['in proportions, strobes ignored'](seed), 20000, true);
    expect(`wire cut, strobes ignored, seed ${seed}: none is abandoned`, 0, ignored.abandoned);
    testOneMoment(`strobes ignored, seed ${seed}`, ignored);
    torn += ignored.pictures.filter((picture) => picture.torn).length;
    anew.free();
    ignored.free();
  }
  expect('wire cut, strobes ignored: pictures are torn', true, torn > 0);
  console.log(`wire cut, strobes ignored: ${torn} pictures torn`);
}

// The wire is cut, and mended: what is counted since, beside a count of the entries. Of the runs
// that began since it was mended none is torn, and no byte of them is early.
function testMended() {
  let whole = 0;
  for (const [how, make] of Object.entries(HOWS)) {
    for (let seed = 1; seed <= seeds; seed++) {
      const what = `mended, ${how}, seed ${seed}`;
      const board = new Board(engine, romOf(engine, '')), schedule = make(seed)();
      const run = (count) => {
        for (let k = 0; k < count; k++) board.happen(schedule.next(board));
      };
      run(3000);
      const from = board.open?.at ?? board.length;
      board.setWire(true);
      run(4000);
      testSince(`${what}, cut`, board, from, 'cut');
      board.setWire(false);
      const end = board.length;
      run(events);
      testSince(what, board, end, 'mended');
      expect(`${what}: no byte is early`, 0, board.runs.since.early);
      const since = board.pictures.filter((picture) => picture.from >= end);
      expect(`${what}: no picture is torn`, false, since.some(({ torn }) => torn));
      whole += since.length;
      board.setWire(true);
      board.setWire(false);
      expect(`${what}: cut and mended at once, the counts stay`, end, board.runs.since.at);
      const again = new Board(engine, romOf(engine, ''));
      for (const count of [3500, board.length]) replay(board, again, count);
      expect(`${what}: so it is on another board`, traceOf(board) + board.log(),
        traceOf(again) + again.log());
      again.free();
      board.free();
    }
  }
  console.log(`mended: ${whole} pictures since, each whole`);
}

// The verdicts of a board count the runs that began with this event or later.
function testSince(what, board, from, changed) {
  const since = sinceOf(board), text = ` since the wire was ${changed}`;
  expect(`${what}: since when`, `${from}${text}`, `${since.at}${since.text}`);
  const early = board.entries.filter((entry) => entry.early && entry.run >= from);
  const first = board.entries.findIndex((entry) => entry.early && entry.run >= from);
  expect(`${what}: the early bytes`, `${early.length} ${first}`,
    `${board.runs.since.early} ${board.runs.since.first}`);
  const now = board.pictures.filter((picture) => picture.from >= from);
  const torn = now.filter((picture) => picture.torn);
  const all = board.pictures.filter((picture) => picture.torn);
  const count = `${now.length} picture${now.length === 1 ? '' : 's'}`;
  const each = now.length === 1 ? `Whole: ${count}` : `Whole: each of ${count}`;
  const number = torn.length > 0 ? `Torn: ${torn.length} of ${count}` : each;
  const { counts } = countsOf(board, since), moments = picturesVerdict(counts);
  if (now.length > 0) expect(`${what}: by moments`, `${number}${text}.`,
    `${moments.word}${moments.text}`);
  expect(`${what}: the sum`, now.length === board.pictures.length ? ''
    : `In all ${all.length} of ${board.pictures.length} torn.`, sumsOf(board, counts).moments);
  const drew = board.runs.since.drew > 0 ? 'In time' : '';
  expect(`${what}: by halves`, early.length > 0 ? 'Early' : drew, bytesVerdict(counts).word);
  const left = board.entries.filter(({ text: did, event, run }, k) => (did === 'started'
    || event.name === 'resetgen' || event.name === 'resetall') && k > 0
    && board.entries[k - 1].run >= from);
  const struck = left.filter(({ text: did }) => did === 'started');
  const runs = runsVerdict(counts), isBad = struck.length > 0;
  expect(`${what}: the runs that were abandoned`, left.length === 0 ? 'none'
    : `${left.length} ${struck.length} ${isBad ? 'bad' : ''}`,
  runs.word === 'Abandoned' ? `${counts.left} ${counts.struck} ${runs.color}` : 'none');
}

// How many runs of a log came to their HALT and fetched more than word zero, by the definition
// alone.
function judgedRuns(text) {
  let judged = 0, isOpen = false, isPast = false;
  for (const line of text.trimEnd().split('\n')) {
    if (line === 'started') [isOpen, isPast] = [true, false];
    if (/^(low|fetched) (?!000)/.test(line)) isPast = true;
    if (line === 'halted' && isOpen && isPast) judged++;
    if (line === 'halted' || line === 'reset') isOpen = false;
  }
  return judged;
}

// How many runs of a log the program says that it judged; null where it ends before it has counted.
function judgedBy(said) {
  if (/^(torn at )?line /.test(said)) return null;
  if (/^no run to judge: /.test(said)) return 0;
  return Number(/^whole: .*, ([0-9]+) judged$/m.exec(said)?.[1]);
}

const JUDGED = ['started|low 000 01|fetched 000 E001|halted', 'started|halted', 'halted',
  'started|fetched 000 E001|low 001 64|halted', 'started|fetched 001 A064|halted|halted',
  'started|fetched 001 A064|reset|halted', 'fetched 001 A064|started|halted',
  'started|low 1FF 05|halted|started|fetched 000 E001|halted'];

function testJudged() {
  const logs = JUDGED.map((log) => `${log.replace(/\|/g, '\n')}\n`);
  for (const name of readdirSync(`${top}examples/moments`)) {
    logs.push(readFileSync(`${top}examples/moments/${name}`, 'utf8'));
  }
  for (const log of logs) {
    const recording = new Recording('a log', Buffer.from(log), new Drawer(engine));
    const { counts } = countsOf(recording, sinceOf(recording)), wanted = judgedRuns(log);
    const verdict = picturesVerdict(counts);
    const what = `judged by moments: ${JSON.stringify(log.slice(0, 60))}`;
    expect(what, wanted, recording.pictures.filter(({ judged }) => judged).length);
    expect(`${what}: its colour`, wanted === 0, verdict.color === '');
    const halves = runProgram(['torn'], log).split(/ at | drew |:/)[0];
    const inTime = /^wrote /m.test(log) ? 'In time' : '';
    expect(`${what}: and by halves`, { torn: 'Early', 'not torn': inTime, 'no run': '' }[halves],
      bytesVerdict(counts).word);
    const count = judgedBy(runProgram(['torn', '--moments'], log));
    if (count !== null) expect(`${what}: so says the program`, wanted, count);
  }
}

// With one half alone pictures are torn though the wire is whole: each byte comes into half 0, also
// while that is drawn. What two halves draw by the same events is a frame, and whole.
function testOneHalf() {
  let torn = 0;
  const drawn = drafts.map((lines) => runProgram(['play'],
    `tick 2\noffer\n${lines.join('\n')}\nend\ntick 1100\nstrobe\nfetch 9999\n`)
    .split('\n').slice(1, -1).join('\n'));
  for (const how of ['by chance', 'in proportions, strobes ignored']) {
    for (let seed = 1; seed <= seeds; seed++) {
      const board = runBoard(HOWS[how](seed), 20000, false, '', true);
      const what = `one half, ${how}, seed ${seed}`;
      expect(`${what}: nothing is written into the other`, false,
        board.entries.some(({ wrote }) => wrote >= 0x400));
      expect(`${what}: bytes are early`, true, board.early > 0);
      testOneMoment(what, board);
      const { steps, oneHalf } = stepsOf(traceOf(board));
      const again = new Board(engine, romOf(engine, ''), false, oneHalf);
      playSteps(again, steps);
      expect(`${what}: so it is again, by its trace`, board.log(), again.log());
      for (const picture of board.pictures.filter((one) => one.torn).slice(0, 5)) {
        torn++;
        const beside = besideOf(engine, board, picture);
        expect(`${what}: two halves are whole`, false, beside.torn);
        expect(`${what}: and draw a frame`, true,
          drawn.includes(beside.strokes.map((stroke) => stroke.join(' ')).join('\n')));
      }
      board.free();
      again.free();
    }
  }
  expect('one half: pictures are torn', true, torn > 0);
  console.log(`one half: ${torn} torn pictures, each whole with two`);
}

// A picture that shows no early byte is that of a draft, and of the torn ones some are of none.
function testTornPictures(seed, board, torn) {
  const draw = (lines) => engine.run(COMMAND.play,
    `tick 2\noffer\n${lines.join('\n')}\nend\ntick 999\nstrobe\nfetch 999\n`)
    .output.split('\n').slice(1, -1).join('\n');
  const whole = drafts.map(draw);
  const isWhole =
    ({ strokes }) => whole.includes(strokes.map((stroke) => stroke.join(' ')).join('\n'));
  expect(`wire cut, seed ${seed}: whole pictures are frames`, true,
    board.pictures.every((picture) => picture.seen > 0 || isWhole(picture)));
  expect(`wire cut, seed ${seed}: some torn pictures are no frame`, true,
    torn.some((picture) => !isWhole(picture)));
}

// Of each word, whether a byte written there tears a picture, and of each word zero, whether the
// page draws a half, as `torn` has it.
function testHalves() {
  const tears = (first, word) => engine.run(COMMAND.torn,
    `started\nfetched 000 ${hex(first, 4)}\nwrote ${hex(2 * word, 3)} 00\n`)
    .output.startsWith('torn ');
  for (const [first, half] of [[0xE001, AREA.HALF0], [0xE201, AREA.HALF1]]) {
    for (let word = 0; word < 1024; word++) {
      expect(`${hex(first, 4)}, word ${hex(word, 3)}`, tears(first, word), areaOf(word) === half);
    }
  }
  for (let first = 0; first < 0x10000; first += first >> 12 === 0xE ? 1 : 0x95) {
    const half = drawnHalf(first);
    expect(`word zero is ${hex(first, 4)}`, `${tears(first, 1)} ${tears(first, 0x201)}`,
      `${half === AREA.HALF0} ${half === AREA.HALF1}`);
  }
}

// More events of a kind than a line of a trace can count.
function testLongTrace() {
  const board = new Board(engine, romOf(engine, ''));
  for (let k = 0; k < 25000; k++) board.happen({ name: k < 20000 ? 'tick' : 'fetch' });
  expect('20,000 ticks: the log', runProgram(['play', '--all'], traceOf(board)), board.log());
  board.free();
}

// --- What is said of a frame that is refused ---

// The jump that leads back, if the page names one, and the sentences.
function saidOf(text) {
  const found = adviceOf(engine, readSketch(engine, text), explainedFaults());
  const [, jump, said] = /^\n(?:operation [0-9]+, (.*?): )?([^]*)$/.exec(found) ?? [];
  return { jump, said };
}

// A frame for each fault, with three that loop, and one whose ROM does.
const REFUSED_FRAMES = ['map 2048\n', 'vctr 9 -100 100 7\nhalt\n',
  `labs 0 0 0\n${'vctr 0 0 0 0\n'.repeat(255)}`, 'labs 0 0 0\ncall 9\nhalt\n',
  'labs 512 400 0\nvctr 9 -100 100 7\n', 'labs 0 0 0\ncallrom 7FF\nhalt\n',
  'labs 0 0 0\ncall 1\nhalt\n', 'labs 0 0 0\nreturn\n', 'labs 0 0 0\nvctr 9 1 1 7\njump 1\n',
  'labs 0 0 0\ncall 3\njump 6\njump 5\nhalt\nreturn\njump 6\n',
  'labs 0 0 0\njump 4\nlabs 0 0 0\njump 5\njump 3\njump 2\n',
  'rom 800 E800\nlabs 0 0 0\njumprom 800\n'];

// What is said of each fault is what `dvg explain` says, and it is of the same jump.
function testAdvice() {
  const seen = new Set();
  for (const text of REFUSED_FRAMES) {
    const [line, ...sentences] = runProgram(['explain'], text).trimEnd().split('\n').slice(0, -2);
    const { jump, said } = saidOf(text), what = JSON.stringify(text.slice(0, 60));
    expect(`what is said of ${what}`, sentences.join('\n'), said);
    expect(`the jump that leads back in ${what}`, said.startsWith('this jump')
      ? line.replace(/^line [0-9]+: /, '') : 'none', jump ?? 'none');
    seen.add(said);
  }
  expect('each of the sentences is said', explainedFaults().length, seen.size);
  expect('nothing is said of a good frame', undefined, saidOf('labs 0 0 0\nhalt\n').said);
}

// --- Drafts with names, and ROMs ---

// The examples, and texts in which a name is where one might not look for it.
const NAMES = ['rom: labs 0 0 0\njump rom\n', 'map: labs 0 0 0\nHALT\n', 'a: b: halt\n',
  '_a: labs 0 0 0\nhalt\n', 'labs 0 0 0\ncall add\nhalt\n', 'a:halt\n',
  'labs 0 0 0\ncall 2\nhalt\n', 'Rock: labs 0 0 0\ncall ROCK\n', '.rom\nx: return\n',
  '.frame\n.FRAME A # two\nlabs 1 2 3\nx:\n',
  'labs 0 0 0\njump x\nx:\n', '.rom\na: return\n.frame\nlabs 0 0 0\ncallrom a\nx: jump x\n', '',
  '#', 'map 4096\n', 'rom 800 D000\nlabs 0 0 0\nhalt', '\t labs  1 2 3 \r\nhalt#'];

function testDrafts() {
  const folders = ['frames', '.', 'board', 'first', 'asteroid_game', 'bat'];
  const texts = folders.flatMap((folder) => readdirSync(`${top}examples/${folder}`)
    .filter((name) => name.endsWith('.sketch')).map((name) => `${top}examples/${folder}/${name}`));
  for (const file of texts) testReader(file, readFileSync(file));
  for (const text of NAMES) testReader(JSON.stringify(text), text);
  console.log(`sketches beside the program: ${texts.length} examples and ${NAMES.length} more`);
}

function testRoms() {
  const { rom: shapes, frames: [shape] } = readSketch(engine, example('rom_shapes'));
  for (const text of ['', 'map 2048', 'map 4096\nrom 400 B000 F00A\nrom BFF E400', shapes]) {
    const { bytes } = romOf(engine, text);
    const written = engine.run(COMMAND.rom, bytes).output;
    expect(`the ROM of ${JSON.stringify(text.slice(0, 30))}`, Buffer.from(bytes).toString('hex'),
      Buffer.from(romOf(engine, written).bytes).toString('hex'));
  }
  const frame = () => reelOf([shape], [{ lines: drafts[1] }]);
  const board = runBoard(() => new Chance(7, frame), events, false, shapes);
  expect('a frame that calls the ROM: the log', runProgram(['play', '--all'], traceOf(board)),
    board.log());
  expect('a frame that calls the ROM: pictures', true, board.pictures.length > events / 10000);
  board.free();
}

// --- Moments, links, files, lessons ---

// Each moment's RAM is that of a board that stops there, and its strokes are the first ones.
function testMoments() {
  const board = runBoard(HOWS['with resets'](3), 6000), drawer = new Drawer(engine);
  for (let at = 0; at <= 6000; at += 97) {
    const other = runBoard(HOWS['with resets'](3), at), moment = momentOf(board, at);
    expect(`the RAM after ${at} events`, Buffer.from(other.ram).toString('hex'),
      Buffer.from(moment.ram).toString('hex'));
    expect(`whether a run is open after ${at} events`, other.open?.at ?? -1,
      moment.run?.from ?? -1);
    expect(`the picture after ${at} events`, other.picture, moment.picture?.at ?? -1);
    other.free();
  }
  for (const { at, from, strokes } of board.pictures.slice(0, 6)) {
    for (let k = from + 1; k <= at; k++) {
      const sofar = drawer.strokesOf(momentOf(board, k).run);
      expect(`the strokes after ${k} events`, JSON.stringify(strokes.slice(0, sofar.length)),
        JSON.stringify(sofar));
      if (k === at) expect(`all strokes after ${k} events`, true,
        sofar.length >= strokes.length - 1);
    }
  }
  board.free();
}

async function testLinks() {
  const board = runBoard(HOWS['with resets'](5), events);
  const state = { a: example('score'), b: 'a + b & c # é', trace: traceOf(board), at: '17',
    seed: '5' };
  for (const fragment of [plainFragment(state), await fragmentOf(state)]) {
    expect('a link holds the state', JSON.stringify(state),
      JSON.stringify(await stateOf(fragment)));
  }
  const length = (await fragmentOf(state)).length;
  console.log(`a link of ${events} events has ${length} characters`);
  for (const fragment of ['#z=AAAA', '#z=%garbage']) {
    const broken = await stateOf(fragment).then(() => 'a state', ({ message }) => message);
    expect('a broken link is an error', 'it was cut off, or changed', broken);
  }
  for (const [fragment, wanted] of [['#xyz', '“xyz” is nothing that it knows'],
    ['#game=Rocks&beam=99', 'no beam is 99 times as slow'], ['#beam=8&both=Rocks', 'a state']]) {
    const told = await stateOf(fragment).then(() => 'a state', ({ message }) => message);
    expect(`the link ${fragment}`, wanted, told);
  }
  const [said] = [0, 99].map((lesson) => {
    try { return String(withLesson({ lesson })); } catch ({ message }) { return message; }
  });
  expect('a lesson that there isn\'t', 'there is no lesson 0', said);
  expect('without an address no link leads out', '[]', JSON.stringify(linksOut('')));
  expect('with one all begin there', true, linksOut('https://example.org/').every(
    ({ address }) => address.startsWith('https://example.org/')));
  board.free();
}

function testFiles() {
  const is = (wanted, bytes) => expect(`a file is a ${wanted}`, wanted,
    kindOf(Uint8Array.from(bytes)));
  const text = (words) => Buffer.from(words);
  for (const length of [4096, 6144]) {
    const dump = new Uint8Array(length);
    is('unsure', dump);
    expect('its name tells a dump', 'dump', kindOf(dump, 'ram.dump'));
    is('dump', dump.fill(0xE0, 1, 2));
  }
  expect('words', 'words', kindOf(readFileSync(`${top}examples/stars.words`), 'stars.words'));
  is('list', readFileSync(`${top}examples/stars.list`));
  expect('a source', 'source', kindOf(readFileSync(`${top}examples/cave/game.s`), 'game.s'));
  is('rom', new Uint8Array(2048).fill(0xD0));
  is('unknown', new Uint8Array(100));
  for (const name of ['attract', 'digits', 'rocks', 'rom_shapes', 'score', 'ship']) is('draft',
    text(example(name)));
  for (const name of ['tears.log', 'waits.log']) is('log',
    readFileSync(`${top}examples/logs/${name}`));
  is('log', text('\nlow 000 01\n'));
  is('draft', text('# a sketch\n.frame one\nlabs 0 0 0\nhalt\n'));
  is('draft', text('.rom 900\nship: vctr 7 1 1 1\n'));
  is('trace', text('# a trace\nmap 2048\ntick 2\n'));
  is('romtext', text('map 4096\nrom 800 B000\n'));
  is('unknown', text('something else\n'));
  is('unknown', text('; a game\n  lda #0\n'));
  is('outline', readFileSync(`${top}examples/board/shapes.sketch`));
  is('outline', text('house: 60,0 60,40 @20,0\n'));
  is('outline', text('.frame\nlabs 1 2 3\nintensity=12 @0.5,-3 20,20\nhalt\n'));
  is('judged', text('reset 0.1 6C71\nwrote 001 E0 0.2 6C71\n'));
  is('driven', text('read halted\nwrote 001 E0\nsent\n'));
  is('pictures', new Uint8Array(5 * 2048));
  for (const [bytes, wanted] of [[Buffer.alloc(0), / It is empty\.$/],
    [new Uint8Array(6143), / It has 6,143 bytes, 1 fewer than a program\.$/],
    [new Uint8Array(6145), / It has 6,145 bytes, 1 more than a program\.$/],
    [new Uint8Array(6144), /^This has the 6,144 bytes of a program, or of a dump /],
    [new Uint8Array(5000), /, so it was not opened\.$/],
    [readFileSync(`${top}examples/stars.list`), /^$/]]) {
    const told = whyNotShown({ name: 'a file', bytes });
    expect(`what is told of ${bytes.length} bytes: ${told}`, true, wanted.test(told));
  }
}

// The last two lessons tear: by a cut wire, and by one half alone.
function testLessons() {
  LESSONS.forEach(({ title, sentences, shows, at }, k) => {
    const state = stateOfLesson(k), { rom, steps, oneHalf } = stepsOf(state.trace),
      board = new Board(engine, romOf(engine, rom), false, oneHalf);
    playSteps(board, steps);
    expect(`lesson ${title}: whether there is one half`, k === 6, oneHalf);
    expect(`lesson ${title}: three sentences`, '1 1 1',
      sentences.map((one) => one.match(/[.]( |$)/g).length).join(' '));
    expect(`lesson ${title}: what it shows`, shows, board.linesOf(at - 1)[0]);
    const { picture, run } = momentOf(board, at), open = new Drawer(engine).strokesOf(run);
    expect(`lesson ${title}: something is drawn`, true,
      open.length > 0 || (picture?.strokes.length ?? 0) > 0);
    expect(`lesson ${title}: an old picture is dim`, k === 2, momentOf(board, at).isOld
      && run === null);
    expect(`lesson ${title}: whether a byte is early`, k >= 5, board.early > 0);
    expect(`lesson ${title}: whether a picture is torn`, k >= 5,
      board.pictures.some(({ torn }) => torn));
    for (const [, number] of sentences.join(' ').matchAll(/event ([0-9]+)/g)) testMention(title,
      Number(number), sentences.join(' '), board);
    board.free();
    expect(`lesson ${title}: a link by its number alone`, plainFragment(state),
      plainFragment(withLesson({ lesson: String(k + 1) })));
    expect('which may say which event', '44', withLesson({ lesson: k + 1, at: '44' }).at);
  });
  for (const state of [{}, { lesson: '1', trace: 'tick' }]) {
    expect('others stay as they are', plainFragment(state), plainFragment(withLesson(state)));
  }
}

// With one half alone both rows have the colour of half 0, and what the driver writes is early from
// event 36 on.
function testLessonColors() {
  const { rom, steps, oneHalf } = stepsOf(stateOfLesson(6).trace);
  const board = new Board(engine, romOf(engine, rom), false, oneHalf);
  playSteps(board, steps);
  const moved = board.entries.map(({ text }, event) => ({ text, event }))
    .filter(({ text }) => /^(wrote|low|fetched|done) /.test(text));
  const written = moved.filter(({ text }) => text.startsWith('wrote'));
  expect('one half: nothing is of half 1', '', moved.map(({ text }) => text)
    .filter((text) => !/^(wrote [0-3]|[a-z]+ [01])/.test(text)).join());
  expect('one half: which bytes are early', written.map(({ event }) => event >= 36).join(),
    written.map(({ event }) => board.entryAt(event).early).join());
  board.free();
}

// docs/LESSON.md says of events of the lessons what the page says of them.
function testLessonPage() {
  const page = readFileSync(`${top}docs/LESSON.md`, 'utf8');
  const told = [...page.matchAll(/lesson ([0-9]), event ([0-9]+): ([^.;|]+)/g)];
  expect('docs/LESSON.md tells events', true, told.length > 5);
  for (const [what, lesson, event, words] of told) {
    const { rom, steps, oneHalf } = stepsOf(stateOfLesson(Number(lesson) - 1).trace);
    const board = new Board(engine, romOf(engine, rom), false, oneHalf);
    playSteps(board, steps);
    expect(`docs/LESSON.md: ${what}`, eventText(board.entryAt(Number(event))), words);
    board.free();
  }
}

// What a lesson says of an event, by the word that stands for it.
const MENTIONED = { published: /^wrote 001/, sent: /^sent/, reached: /^started/, redraw: /^sent/,
  flip: /^wrote 001/, writes: /^wrote/ };

function testMention(title, number, text, board) {
  const sentence = text.split(/(?<=[.]) /).find((one) => one.includes(`event ${number}`));
  const entry = board.entries[number]?.text ?? 'nothing';
  const fits = Object.entries(MENTIONED)
    .some(([word, form]) => sentence.toLowerCase().includes(word) && form.test(entry));
  expect(`lesson ${title}: event ${number} is what it says`, true, fits);
}

// --- Recordings: a log, a dump, a bus ---

// Of the log that a board makes, the recording has the same RAM, runs, tears and pictures.
function testRecordings() {
  for (const [how, wireCut] of [['with resets', false], ['by chance', true]]) {
    const board = runBoard(HOWS[how](4), 6000, wireCut), drawer = new Drawer(engine);
    const recording = new Recording('a log', board.tornLog.text, drawer);
    expect(`${how}: the early bytes`, board.early, recording.early);
    expect(`${how}: the runs without an end`, board.abandoned, recording.abandoned);
    const ended = board.entries.map(({ text }, event) => ({ text, event }))
      .filter(({ text }) => /^(done|broke)/.test(text));
    expect(`${how}: the runs that ended`, ended.length, recording.pictures.length);
    ended.forEach(({ text, event }, k) => {
      const picture = board.pictures.find((one) => one.at === event), there = recording.pictures[k];
      if (text.startsWith('done')) expect(`${how}: picture ${k}`,
        JSON.stringify([picture.early, picture.seen, picture.torn, picture.strokes]),
        JSON.stringify([there.early, there.seen, there.torn, there.strokes]));
    });
    for (let at = 1; at <= recording.length; at += 61) {
      const event = board.tornLog.eventOf[at - 1];
      if (board.tornLog.eventOf[at] === event) continue;
      const there = momentOf(board, event + 1), here = momentOf(recording, at);
      expect(`${how}: the moment after line ${at}`, JSON.stringify([there.run?.words,
        there.run?.half, there.run?.beam]), JSON.stringify([here.run?.words, here.run?.half,
        here.run?.beam]));
      if (how === 'by chance') expect(`${how}: the RAM after line ${at}`,
        Buffer.from(there.ram).toString('hex'), Buffer.from(here.ram).toString('hex'));
    }
    board.free();
  }
  const log = readFileSync(`${top}examples/logs/tears.log`);
  const recording = new Recording('tears.log', log, new Drawer(engine));
  const [, line] = /line ([0-9]+)/.exec(engine.run(COMMAND.torn, log).output);
  const entry = recording.entryAt(recording.eventOfLine(Number(line)));
  expect('tears.log: the early line', `${line} true`, `${entry.line} ${entry.early}`);
}

// A dump's run is the one of `dvg picture`.
function testDumps() {
  for (const name of ['ship', 'digits', 'rocks']) {
    const sketch = `${top}examples/frames/${name}.sketch`;
    const bytes = spawnSync(`${top}examples/tools/dump`, [sketch]).stdout;
    const board = boardOfDump(engine, name, new Uint8Array(bytes));
    const output = runProgram(['picture'], bytes).trim().split('\n');
    const strokes = board.pictures[0].strokes.map((stroke) => stroke.join(' '));
    testInside(name, board, bytes);
    expect(`the dump of ${name}`, output.filter((line) => !line.startsWith('picture')).join(),
      strokes.join());
    board.free();
  }
}

// Where each instruction of a dump stood, the scale after it, and how deep the stack is.
function testInside(name, board, bytes) {
  const listed = runProgram(['picture', '--all'], bytes).split('\n')
    .map((line) => /^([0-9A-F]{3}) ([A-Z]+).* at [0-9]+ [0-9]+ ([0-9]+)/.exec(line))
    .filter((parts) => parts !== null);
  let depth = 0;
  for (const [k, [, place, operation, scale]] of listed.slice(0, -1).entries()) {
    depth += { JSRL: 1, RTSL: -1 }[operation] ?? 0;
    let at = 1;
    while (generatorOf(momentOf(board, at).run).count <= k) at++;
    const state = generatorOf(momentOf(board, at).run);
    expect(`the dump of ${name}, instruction ${k}`, `${place} ${scale} ${depth}`,
      `${hex(state.place, 3)} ${state.scale} ${state.stack.length}`);
  }
}

// What the driver did last, in words, is there for each event of it; and so is each event.
function testDriverTexts() {
  const board = runBoard(HOWS['with resets'](6), 6000);
  const told = new Set(board.entries.map((entry) => eventText(entry)));
  expect('each event in words', '', [...told].filter((words) => (
    !/^(the (driver|generator|processor|whole system)|a strobe|no strobe) [a-z]/.test(words)
    || /undefined|no memory/.test(words))).join());
  expect('of many kinds', true, told.size > 15);
  for (const half of ['half 0', 'half 1']) {
    expect(`${half} is published`, true, told.has(`the driver publishes ${half}`));
  }
  const texts = new Set();
  for (let at = 0; at <= 6000; at += 7) texts.add(driverText(driverOf(board, at))[0]);
  expect('the driver in words', true, texts.size >= 6 && !texts.has(undefined));
  board.free();
}

// The log of a table is that of examples/tools/bus.awk: of one whose bytes come early by a mirror,
// and of random ones, with mirrors, other marks and rows that are no access.
function testBuses() {
  const table = 'Time [s],RW,Address,Data\n0.1,W,C000,01\n0.2,W,0x4001,E0\r\n0.3,W,B1FF,00\n'
    + '0.4,R,2002,80\n0.5,W,4402,64\n0.6,R,A002,7f\n0.7,W,3000,0\n0.8,W,C005,11\n0.9,W,zz,1\n';
  const { log, ...others } = logOfBus(table);
  expect('the log of a bus', 'wrote 000 01|wrote 001 E0|started|fetched 000 E001|wrote 402 64|'
    + 'halted|started|fetched 000 E001|wrote 005 11|', log.split('\n').join('|'));
  expect('its verdict', 'torn at line 9: wrote 005 11', runProgram(['torn'], log).split('\n')[0]);
  expect('what isn\'t understood', '{"unread":1,"firstUnread":10}', JSON.stringify(others));
  expect('a table of a bus', 'bus', kindOf(Buffer.from(table)));
  const drawn = new Random(5), of = (...some) => some[drawn.below(some.length)];
  for (let k = 0; k < 200; k++) {
    const text = Array.from({ length: 40 }, () => {
      const at = of(0x2002, 0x2003, 0x3000, 0x31FF, 0x3200, 0x4000, 0x4001, 0x4003, 0x47FF, 0x4800,
        0x7FFC) + of(0, 0x8000, 0, 0x8000, 0x10000);
      const address = of('', '$', '0x') + at.toString(16), mark = of(',', ';', '\t', ' , ');
      return [of('1.5', '"2"', '', 'no'), of('R', 'w', '"Write"', 'X', 'G'), address,
        of('0', '7F', '80', '1ff', 'q')].join(mark) + of('', '\r', ' ');
    }).join('\n');
    const { stdout, stderr } = spawnSync('awk', ['-f', `${top}examples/tools/bus.awk`],
      { input: text });
    const found = logOfBus(text);
    expect(`the log of ${JSON.stringify(text)}`, stdout.toString(), found.log);
    const told = found.unread === 0 ? '' : `bus.awk: rows not understood: ${found.unread}, the `
      + `first in line ${found.firstUnread}\n`;
    expect('and what it doesn\'t understand', told, stderr.toString());
  }
}

// A list that dvg prints, and the words that it is of, become the same frame; one that calls isn't
// drawn; and of a log with its vector ROM the torn strokes are those of the board that it is of.
async function testLists() {
  const used = [], told = [];
  const drops = new Drops(engine, new Drawer(engine), {
    useDraft: (text) => used.push(text) > 0, tell: (name, text) => told.push(text) });
  const open = (name) => drops.open(new File([readFileSync(`${top}examples/${name}`)], name));
  for (const name of ['square.list', 'square.words', 'shape.list']) await open(name);
  const [list, words] = used.map((text) => text.replace(/^#.*\n/, ''));
  expect('a list is a frame', 'labs 512 512 0\nvctr 9 -50 -50 0\nvctr 9 100 0 10\n'
    + 'vctr 9 0 100 10\nvctr 9 -100 0 10\nvctr 9 0 -100 10\nhalt\n', list);
  expect('and so are its words', list, words);
  expect('one that calls isn\'t', true, /can't be drawn alone, for jmpl 001: /.test(told.at(-1)));
}

// --- Sketches, and the tear ---

// Each frame of a sketch is what `check --bound` says of its lines alone.
function testSketches() {
  const rom = '.rom\nship: vctr 7 10 10 12\nreturn\n.frame q\nLABS 500 500 1\ncallrom ship\nhalt\n';
  for (const text of [...Object.values(SCENES), rom, 'labs 1 2 3\nhalt']) {
    const { good, frames, said, rom: own } = readSketch(engine, text);
    expect('a sketch is good', true, good);
    const lines = frames.map(({ name, lines: operations }) => `${name === '' ? '' : `${name}: `}`
      + runProgram(['check', '--bound'], `${own}${operations.join('\n')}\n`).trim());
    expect(`a sketch of ${frames.length}: each frame`, untimed(said), lines.join('\n'));
  }
  expect('the playfield', SCENE_FRAMES, readSketch(engine, Object.values(SCENES)[0]).frames.length);
}

// What the buttons do in each state of the board: what is grey says why.
function testControls() {
  const free = { isBoard: true, isFull: false, isRunning: false, isEndless: false,
    offerable: [true, true], isMoving: false, isNewest: true, left: 20000, rate: 960,
    wireCut: false, oneHalf: false, how: 'chance' };
  const told = (changes) => {
    const { canRun, grey, why, runText, offersText, mayForget, run } = controlsOf(
      { ...free, ...changes });
    const greys = Object.entries(grey).filter(([, one]) => [one].flat().includes(true))
      .map(([name]) => name);
    return [canRun, run, greys.join(' '), why || runText, offersText, mayForget].join('|');
  };
  const full = '65,536 events are the most: begin anew, or run on and on.';
  const elsewhere = 'This is a recording: it can be looked at, not run.';
  for (const [changes, wanted] of [
    [{}, 'true|Run||Run: 20,000 events, in about 21 seconds.||false'],
    [{ isNewest: false, isMoving: true }, 'true|Run||Run: 20,000 events, in about 21 seconds.|'
      + 'Each offer of a sketch is of its next frame.|true'],
    [{ isRunning: true, left: 1 }, 'true|Stop|once|1 event to go. Stop to use the grey buttons.||'
      + 'false'],
    [{ isFull: true }, `false|Run|run once events offers|${full}|${full}|false`],
    [{ isFull: true, isEndless: true }, `true|Run|once events offers|${full}|${full}|false`],
    [{ isBoard: false, isNewest: false },
      `false|Run|run once events board offers|${elsewhere}|${elsewhere}|false`],
    [{ offerable: [true, false] }, 'false|Run|run once offers|Frame B has a mistake (below). Mend '
      + 'it, then Run.|Frame B has a fault, so it can\'t be offered.|false']]) {
    expect(`the buttons where ${JSON.stringify(changes)}`, wanted, told(changes));
  }
}

// Of a torn picture: the strokes that aren't red are of the frame that its run began with.
function testTears() {
  const board = runBoard(HOWS['by chance'](1), 20000, true);
  const drawingOf = (draft) => runProgram(['play'],
    `tick 2\noffer\n${draft}\nend\ntick 1100\nstrobe\nfetch 9999\n`)
    .split('\n').slice(1, -1).join('\n');
  const frames = drafts.map((lines) => drawingOf(lines.join('\n')));
  for (const picture of board.pictures.filter(({ torn, seen }) => torn || seen > 0)) {
    const { wanted, wrong, next, word } = tearOf(engine, board, picture, drawingOf);
    const texts = (strokes) => strokes.map((stroke) => stroke.join(' '));
    expect('the frame of the run is one', true, frames.includes(texts(wanted).join('\n')));
    expect('so is the one written into it', true, frames.includes(texts(next).join('\n')));
    expect('the others are of the first', true, picture.strokes.every((stroke) => (
      wrong.includes(stroke) || texts(wanted).includes(stroke.join(' ')))));
    expect('the byte is told, and it shows', true, board.entries[word.event].early
      && board.signs[word.event] === SIGN.SEEN);
    if (picture.torn) expect('where the tear begins', picture.tornAt, word.read);
    expect('and where it was read', word.address >> 1, board.entries[word.read].fetched);
    expect('it made a difference', true, word.value !== word.before);
  }
  board.free();
}

// --- The driver in its code ---

function refusal(byte) {
  const processor = new Processor({ read: () => byte, write: () => {} });
  try { processor.step(); } catch (fault) { return fault.message; }
  return 'taken';
}

// Beside the board, whatever the schedule, the driver's code does the same, event by event; also
// from any copy on to which it goes back.
function testTwin() {
  const lines = linesOfListing(readFileSync(`${top}page/driver.listing`, 'utf8'));
  const tableOf = (draft) => bytesOfTable(
    engine.run(COMMAND.layTable, `${draft.join('\n')}\n`).output);
  let ticks = 0;
  for (const cut of [false, true]) {
    for (const [how, make] of Object.entries(HOWS)) {
      const board = runBoard(make(7), events < 20000 ? 2500 : events, cut);
      const twin = new Twin(lines, tableOf);
      twin.follow(board, board.length);
      expect(`${how}, cut ${cut}: the code does the same`, null, twin.differs);
      const ram = twin.memory.slice(0x4000, 0x4800);
      expect(`${how}, cut ${cut}: its RAM`, board.ram.join(), ram.join());
      twin.follow(board, board.length >> 1);
      twin.follow(board, board.length);
      expect(`${how}, cut ${cut}: so it does again`, null, twin.differs);
      ticks += board.entries.filter(({ event }) => event.name === 'tick').length;
      board.free();
    }
  }
  console.log(`the driver's code beside the board: ${ticks} ticks`);
  for (const byte of [0x02, 0x80, 0xFF]) {
    expect(`opcode ${byte} is refused`, 'no instruction that the page knows',
      refusal(byte).split(' at ')[0]);
  }
}

const TESTS = [
  testTwin, testSchedules, testCutWire, testMended, testOneHalf, testMomentLogs,
  testJudged, testRuns, testProportions, testHalves, testLongTrace, testAdvice, testDrafts,
  testRoms,
  testMoments, testLinks, testFiles, testRecordings, testDumps, testDriverTexts, testBuses,
  testLists,
  testSketches, testControls, testTears, testLessons, testLessonColors, testLessonPage, testCases,
  testSketchCases,
];
for (const test of TESTS) if (named.length === 0 || named.includes(test.name)) await test();
end();
