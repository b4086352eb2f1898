// What can be tested of the page's games without a browser: the 6502, the board, the judges and the
// checker of page/src, each beside another one. Called by tests/page, with the program's name:
//
//     node tests/parts/page/games.mjs DVG FOLDER SEEDS EVENTS [TEST..]
//
// FOLDER is for what is thrown away. Where tests are named, they alone are run, up to the first
// failure. PROGRAMS says how many programs the checker answers about, changed at random [2000], and
// TRIES how many random states the 6502 has [1000000], by SEED. The last line is 'N passed, M
// failed'.
import { spawnSync } from 'node:child_process';
import { createHash } from 'node:crypto';
import {
  appendFileSync, cpSync, existsSync, mkdirSync, readFileSync, writeFileSync,
} from 'node:fs';
import { Arcade, HERTZ } from '../../../page/src/arcade.mjs';
import { VERDICT, judgeProgram } from '../../../page/src/checker.mjs';
import { COMMAND, Engine, KIND } from '../../../page/src/engine.mjs';
import {
  builtGame, gameOf, isOfGame, lengthFault, romAlone, unzipped, vectorsFault,
} from '../../../page/src/eproms.mjs';
import { heldBy } from '../../../page/src/gamepads.mjs';
import { hex } from '../../../page/src/hex.mjs';
import { fragmentOf, plainFragment, stateOf } from '../../../page/src/links.mjs';
import { withoutOutlines } from '../../../page/src/outlines.mjs';
import { Play, withMistake } from '../../../page/src/play.mjs';
import { KeptArcade, MOST_SLOTS, SLOT_CYCLES } from '../../../page/src/past.mjs';
import { OPCODES } from '../../../page/src/opcodes.mjs';
import { Processor } from '../../../page/src/processor.mjs';
import { DRIVER_END, Program, START, labelsOf } from '../../../page/src/programs.mjs';
import { Screen } from '../../../page/src/screen.mjs';
import { ROW, SIGN, areaOf } from '../../../page/src/signs.mjs';
import {
  everyVerdict, noCounts, outcomeOf, picturesVerdict, resetsVerdict,
} from '../../../page/src/judged.mjs';
import { Latches, SOUND, Speaker } from '../../../page/src/sounds.mjs';
import { Strip } from '../../../page/src/strip.mjs';
import { TapedArcade, beamOf, pressBeginning, tearingBeam } from '../../../page/src/taped.mjs';
import { tearOfGame } from '../../../page/src/tears.mjs';
import { linesOfListing } from '../../../page/src/twin.mjs';
import { packedCave, packedGames } from '../../../page/games.mjs';
import { inModules } from './chromium.mjs';
import { brightOf, isDrawn } from './pixels.mjs';
import { Audio, Image, partsOf, runPage, scriptOf } from './stage.mjs';

const [program, work] = process.argv.slice(2, 4), events = Number(process.argv[5]),
  named = process.argv.slice(6);
const isShort = events < 20000;
const top = new URL('../../..', import.meta.url).pathname;
const engine = await Engine.of(readFileSync(`${top}page/dvg.wasm`));
let passed = 0, failed = 0;

function expect(what, wanted, found) {
  const [left, right] = [wanted, found].map((one) => JSON.stringify(one) ?? 'nothing');
  if (left === right) passed++;
  else {
    failed++;
    console.log(`FAILED: ${what}\n  wanted ${left.slice(0, 300)}\n  found  ${right.slice(0, 300)}`);
    if (named.length > 0) end();
  }
}

function end() {
  console.log(`${passed} passed, ${failed} failed`);
  process.exit(failed === 0 ? 0 : 1);
}

process.on('uncaughtException', (error) => {
  failed++;
  console.log(`FAILED: ${error.stack}`);
  end();
});

const bytesOf = (text) => new Uint8Array(Buffer.from(text, 'base64'));

// The driver's bytes, as the page has them.
function driverOfPage() {
  const lines = linesOfListing(readFileSync(`${top}page/driver.listing`, 'utf8'));
  return Uint8Array.from(lines.flatMap(({ bytes }) => bytes));
}

// Where the driver's labels are.
function routinesOfPage() {
  const lines = linesOfListing(readFileSync(`${top}page/driver.listing`, 'utf8'));
  return new Map(lines.map(({ at, source }) => [source.split(':')[0], at]));
}

// The games that are built in, by the folders of examples/.
const GAMES = new Map(packedGames().map(({ folder, bytes, vectors, shapes }) => [folder,
  builtGame({ bytes: bytesOf(bytes), vectors: bytesOf(vectors), shapes: bytesOf(shapes) },
    driverOfPage())]));

// The game of the first view.
function caveOfPage() {
  const { bytes, vectors, shapes, labels } = packedCave();
  return { ...builtGame({ bytes: bytesOf(bytes), vectors: bytesOf(vectors),
    shapes: bytesOf(shapes) }, driverOfPage()), labels: labelsOf(labels) };
}

// --- The 6502 ---

// How many random states the 6502 has, of which three in five begin with an opcode.
const TRIES = Number(process.env.TRIES || (isShort ? 100000 : 1000000));
const SEED = Number(process.env.SEED || 12345), STEPS_ASKED = [TRIES, SEED].map(String);

// Steps of the page's 6502 from random states, as cpu.c has them: a line after each 10,000.
// Those of sim65 are BRK and RTI alone.
function digestsOfSteps(isSim65 = false) {
  const memory = new Uint8Array(0x10000), lines = [];
  const drawn = numbersFrom(SEED);
  let digest = 0, steps = 0;
  const mix = (value) => { digest = (Math.imul(digest, 31) + value) >>> 0; };
  const cpu = new Processor({
    read: (at) => memory[at],
    write: (at, byte) => { memory[at] = byte; mix(at); mix(byte); },
  });
  for (let at = 0; at < memory.length; at++) memory[at] = drawn();
  for (let k = 1; k <= TRIES; k++) {
    for (const name of ['a', 'x', 'y', 's', 'status']) cpu[name] = drawn() & 0xFF;
    Object.assign(cpu, { pc: drawn() & 0xFFFF, cycles: 0 });
    memory[cpu.pc] = drawn();
    if (isSim65) memory[cpu.pc] &= 0x40;
    if (isSim65 || (OPCODES.get(memory[cpu.pc])?.name ?? 'brk') !== 'brk') {
      if (drawn() % 64 === 0) cpu.interrupt();
      else cpu.step();
      steps++;
      for (const part of ['a', 'x', 'y', 's', 'status', 'pc', 'cycles']) mix(cpu[part]);
    }
    if (k % 10000 === 0) lines.push(`${steps} ${digest}`);
  }
  return lines;
}

// The opcodes are those of the definition in dvg_calls_6502, with BRK, which it hasn't.
// Registers, flags, cycles and writes of random steps, and of NMIs, are those of ../board/cpu.h.
function testSteps() {
  const definition = readFileSync(`${top}crates/dvg_game_words/specs/Processor.antt`, 'utf8');
  const codes = [...definition.matchAll(/\((0x[0-9A-F]{2}), [A-Za-z0-9 ]+\)/g)].map(([, code]) => (
    Number(code)));
  expect('the opcodes', [...codes, 0x00].sort((a, b) => a - b),
    [...OPCODES.keys()].sort((a, b) => a - b));
  const made = spawnSync('gcc', ['-O2', '-o', `${work}/cpu`, `${top}tests/parts/page/cpu.c`]);
  if (made.error) return console.log('skipped: steps of the 6502 of board/cpu.h: gcc is not here');
  const { stdout } = spawnSync(`${work}/cpu`, STEPS_ASKED);
  const lines = digestsOfSteps();
  expect('steps of the 6502', stdout.toString().trim().split('\n'), lines);
  const [steps] = lines.at(-1).split(' ');
  return console.log(`the 6502 beside board/cpu.h: ${steps} steps, with cycles`);
}

// So are those of BRK and RTI beside cc65's sim65, whose source board/install brings.
function testBreakSteps() {
  const source = `${top}build/sim65`;
  const made = spawnSync('gcc', ['-O2', '-w', '-DSIM65', `-I${source}`, '-o', `${work}/sim65`,
    `${top}tests/parts/page/cpu.c`, `${top}tests/parts/board/sim65.c`]);
  if (made.error || !existsSync(`${source}/6502.c`)) {
    return console.log('skipped: BRK beside sim65: its source is not here (board/install sim65)');
  }
  const { stdout } = spawnSync(`${work}/sim65`, STEPS_ASKED);
  const lines = digestsOfSteps(true), [steps] = lines.at(-1).split(' ');
  expect('steps of BRK and RTI', stdout.toString().trim().split('\n'), lines);
  return console.log(`BRK and RTI beside sim65: ${steps} steps, with cycles`);
}

// In decimal mode ADC and SBC are, of each A and each operand, with C clear and set, those of
// decimal_sums.py: what A is then, and N, V, Z and C.
function testDecimal() {
  const { stdout: wanted } = spawnSync('python3', [`${top}tests/decimal_sums.py`],
    { maxBuffer: 1 << 20 });
  const memory = new Uint8Array(0x10000);
  const cpu = new Processor({ read: (at) => memory[at], write: () => {} });
  let at = 0;
  for (const opcode of [0x69, 0xE9]) {
    let differ = 0;
    for (let k = 0; k < 0x20000; k++, at += 2) {
      memory.set([opcode, k & 0xFF]);
      Object.assign(cpu, { pc: 0, a: k >> 8 & 0xFF, status: k >> 16 | 0x08 });
      cpu.step();
      if (cpu.a !== wanted[at] || (cpu.status & 0xC3) !== wanted[at + 1]) differ++;
    }
    expect(`sums by ${hex(opcode, 2)} that differ`, 0, differ);
  }
  expect('all are compared', wanted.length, at);
}

// SED and CLD; and BRK, which goes where an IRQ does, and comes back behind the byte after it.
function testBreak() {
  const arcade = boardOfBytes(0xA2, 0xFF, 0x9A, 0xF8, 0x00, 0xEA, 0xE8, 0xD8, 0x4C, 0x08, 0x68);
  arcade.memory.set([0xF0, 0x7F, 0x00, 0x68, 0x00, 0x70], 0x7FFA);
  arcade.memory.set([0x40], 0x7000);
  const { processor } = arcade, step = () => {
    const before = processor.cycles;
    processor.step();
    return [processor.pc, processor.cycles - before, processor.d, processor.i];
  };
  processor.i = 0;
  for (const [what, wanted] of [['LDX', [0x6802, 2, 0, 0]], ['TXS', [0x6803, 2, 0, 0]],
    ['SED', [0x6804, 2, 1, 0]], ['BRK', [0x7000, 7, 1, 1]]]) expect(what, wanted, step());
  expect('what BRK pushes', [0x68, 0x06, 0xB8], [...arcade.memory.slice(0x1FD, 0x200)].reverse());
  for (const [what, wanted] of [['RTI', [0x6806, 6, 1, 0]], ['INX', [0x6807, 2, 1, 0]],
    ['CLD', [0x6808, 2, 0, 0]]]) expect(what, wanted, step());
  arcade.free();
}

// --- A program with BRK and decimal mode ---

// examples/first with BRK: after each picture it counts in decimal mode where an IRQ goes, and
// keeps which flags and which address were pushed, and that it came back.
const PUSHED = 0x200, KEPT = 6;
const WITH_BREAK = [
  ['WATCHDOG = $3400', `WATCHDOG = $3400\nPUSHED = $${hex(PUSHED, 4)}\nTENS = PUSHED + 3\n`
    + 'BACK = PUSHED + 5'],
  ['        inc frame\n', '        sec\n        brk\n        .byte $A5\n        inc BACK\n'
    + '        inc frame\n'],
  ['irq:    rti', `        rti
irq:    pha
        txa
        pha
        tsx
        lda $0103,x
        sta PUSHED
        lda $0104,x
        sta PUSHED + 1
        lda $0105,x
        sta PUSHED + 2
        sed
        clc
        lda TENS
        adc #$01
        sta TENS
        lda TENS + 1
        adc #$00
        sta TENS + 1
        pla
        tax
        pla
        rti`],
];

// A board that keeps what comes into some bytes of RAM.
class Keeping extends Arcade {
  write(address, byte) {
    if (address >= PUSHED && address < PUSHED + KEPT) (this.kept ??= []).push(byte);
    super.write(address, byte);
  }
}

// It runs, and is judged while it does; in each run it is refused, in words. What it keeps is what
// it keeps in the arcade emulator, byte by byte.
async function testBreakGame() {
  if (!hasTools) return console.log('skipped: a program with BRK: ca65 is not here');
  const { program: bytes, labels, shapes } = made('first', 'break', WITH_BREAK), seconds = 4;
  const { play, parts } = playOnStage();
  await play.openFiles([{ name: 'first.program', bytes },
    { name: 'first.labels', bytes: Buffer.from(labels) }, { name: 'rom', bytes: shapes }]);
  for (let k = 0; k < 60; k++) play.run(1 / 30);
  play.showTexts();
  const told = (id) => verdictOf(parts[id]).replace('/', '');
  expect('its pictures are whole', true, /^Whole: each of [0-9]{2,} pictures/.test(
    told('run-moments')));
  expect('each byte in time', 'In time: each byte.', told('run-halves'));
  expect('in each run', 'Refused: 1 instruction may tear a picture, or lead where this check '
    + 'can\'t follow. Why:', told('every'));
  expect('in words', true, /^[0-9A-F]{4} \(\w+\+[0-9]+\): brk: the checker doesn't take BRK: it /
    .test(parts['every-lines'].textContent));
  const board = new Keeping(engine, bytes, shapes);
  board.run(seconds * HERTZ);
  expect('no fault, no reset, each run finished', ['', 0, 0],
    [board.fault, board.counts.resets, board.counts.left]);
  const [flags, low, high] = board.kept, at = low + 256 * high - 0x6800;
  expect('BRK pushes B, and the address behind the byte after it', [0x37, 0x00, 0xA5],
    [flags & 0x3F, ...bytes.subarray(at - 2, at)]);
  const emulated = hasEmulator ? keptInEmulator(bytes, shapes, seconds) : [];
  const count = Math.min(emulated.length, board.kept.length);
  if (!hasEmulator) console.log('skipped: BRK beside the emulator: it isn\'t here');
  else expect('what it keeps there', emulated.slice(0, count), board.kept.slice(0, count));
  expect('it counts beyond ninety-nine', true, board.kept.length > 100 * KEPT);
  expect('and so it does there', true, !hasEmulator || count > 100 * KEPT);
  board.free();
  return console.log(`a program with BRK beside the emulator: ${count} bytes that it keeps`);
}

// What a program keeps in the arcade emulator.
function keptInEmulator(bytes, shapes, seconds, machine = 'asteroid') {
  const script = `${work}/kept.lua`, folder = `${work}/kept-${machine}`;
  writeFileSync(script, `if dvg_loaded then return end
dvg_loaded = true
local space = manager.machine.devices[":maincpu"].spaces["program"]
local file = assert(io.open("kept", "wb"))
dvg_tap = space:install_write_tap(${PUSHED}, ${PUSHED + KEPT - 1}, "kept", function(_, data)
  file:write(string.char(data & 0xff))
  file:flush()
end)
`);
  runInEmulator(folder, bytes, shapes, String(seconds), script, machine);
  return [...readFileSync(`${folder}/out/kept`)];
}

// --- Asteroids Deluxe ---

// Makes a copy of an example for Asteroids Deluxe, once: its sockets as `make eproms` writes them,
// and its program, its vector ROM and its labels.
function madeForDeluxe(folder, name) {
  const place = `${work}/deluxe/examples/${folder}`;
  if (!existsSync(place)) {
    for (const part of ['board', 'crates/dvg_game_words', `examples/${folder}`]) {
      cpSync(`${top}${part}`, `${work}/deluxe/${part}`, { recursive: true });
    }
    for (const what of ['clean', 'eproms']) {
      spawnSync('make', ['-s', '-C', place, 'MACHINE=astdelux', what],
        { env: { ...process.env, DVG: program } });
    }
  }
  const of = (path) => readFileSync(`${place}/build/${path}`);
  const sockets = ['d1_6000', 'ef1_6800', 'h1_7000', 'j1_7800', 'r2_4800', 'np2_5000']
    .map((one) => ({ name: `${one}.bin`, bytes: new Uint8Array(of(`eproms/${one}.bin`)) }));
  const files = [`${name}.program`, 'rom', `${name}.labels`]
    .map((one) => ({ name: one, bytes: new Uint8Array(of(one)) }));
  return { sockets, files };
}

// Programs for Asteroids Deluxe aren't judged; dropped, they are the same as their sockets, and
// run.
function testDeluxe() {
  if (!hasTools) return console.log('skipped: Asteroids Deluxe: ca65 is not here');
  for (const [folder, name] of [['test_rom', 'test'], ['first', 'first']]) {
    const { sockets, files } = madeForDeluxe(folder, name);
    const game = gameOf(files), what = `${folder} for Deluxe`;
    const judged = judgeProgram(engine, new Program(game.program, game.labels), game.shapes);
    const { word, color, text } = everyVerdict(judged, game);
    expect(`${what}: the verdict`, ['Not judged', '', ': nothing is proved of the board of '
      + 'Asteroids Deluxe.'], [word, color, text]);
    const { program: bytes, shapes, missing } = gameOf(sockets);
    expect(`${what}: its sockets`, [true, true, ''], [missing, ...[[bytes, game.program],
      [shapes, game.shapes]].map((pair) => Buffer.compare(...pair) === 0)].reverse());
    const { length } = gameOf(files.slice(0, 1)).shapes;
    expect(`${what}: without shapes`, [false, 4096], [gameOf(files.slice(0, 1)).hasShapes, length]);
    const arcade = new Arcade(engine, game.program, game.shapes);
    arcade.run(2 * HERTZ);
    const { pictures, torn, early, left, resets } = arcade.counts;
    expect(`${what}: it runs`, ['', true, 0, 0, 0, 0],
      [arcade.fault, pictures > 20, torn, early, left, resets]);
    expect(`${what}: strokes`, true, arcade.picture.strokes.length > 3);
    arcade.free();
  }
  return null;
}

// A program that keeps what it finds in a bank after a write that changes none on this board, and
// then at these places, of which the first is in a bank that changed its place.
const FOUND_AT = [0x0200, 0x2800, 0x2801, 0x2802, 0x2803, 0x2C08, 0x2407, 0x6000, 0x4800, 0x57FF];
function deluxeProgram() {
  const store = (byte, at) => [0xA9, byte, 0x8D, at & 0xFF, at >> 8];
  const keep = (at) => [0xAD, at & 0xFF, at >> 8, 0x8D, (PUSHED + 1) & 0xFF, PUSHED >> 8];
  const code = [0xA2, 0xFF, 0x9A, ...store(3, 0x2C0F), ...store(0, 0x3C04), ...store(0xAA, 0x200),
    ...store(0x55, 0x300), ...store(4, 0x3200), ...keep(0x200), ...store(0x80, 0x3C04),
    ...FOUND_AT.flatMap(keep), 0x8D, 0x00, 0x34];
  const end = 0x6800 + code.length - 3, image = new Uint8Array(8192).fill(0x40);
  image.set([...code, 0x4C, end & 0xFF, end >> 8], 0x800);
  image.set([0xF0, 0x7F, 0x00, 0x68], 8192 - 6);
  return image;
}

// What that program keeps in the arcade emulator, which is asked once.
function foundOnDeluxe(image, shapes) {
  const file = `${work}/found_on_deluxe`;
  if (!existsSync(file)) {
    writeFileSync(file, Uint8Array.from(keptInEmulator(image, shapes, 2, 'astdelux')));
  }
  return [...readFileSync(file)];
}

// Its banks, its switches and its ROM are those of the arcade emulator's board.
function testDeluxeBoard() {
  const image = deluxeProgram(), shapes = Uint8Array.from({ length: 4096 }, (_, k) => k % 251);
  const board = new Keeping(engine, image, shapes);
  board.run(HERTZ / 10);
  expect('the banks, and the ROM', [0xAA, 0xAA, 0x55, 0x40, 0x00, shapes[4095]],
    [...board.kept.slice(0, 3), ...board.kept.slice(-3)]);
  board.free();
  if (!hasEmulator) return console.log('skipped: Deluxe beside the emulator: it isn\'t here');
  expect('what is found in the emulator', foundOnDeluxe(image, shapes), board.kept);
  const random = new Set(), latches = new Latches(true), since = new Set();
  const sounds = soundsOfBoard('deluxe');
  for (const [at, byte] of soundWrites(5000, 5)) {
    latches.write(at, byte, 0);
    if (sounds.has(at)) since[(byte & sounds.get(at).bits) === 0 ? 'delete' : 'add'](at);
    expect(`Deluxe: after ${hex(at, 4)} ${hex(byte, 2)}`, [...since].sort(),
      [...latches.since.keys()].filter((one) => one >= 0x3000).sort());
  }
  for (let k = 0; k < 99; k++) {
    board.processor.cycles += 7;
    random.add(board.read(0x2C0A));
  }
  expect('its random numbers differ', true, random.size > 50);
  return console.log(`Asteroids Deluxe beside the emulator: ${board.kept.length} bytes`);
}

// --- The checker ---

// How many programs are changed at random.
const CASES = Number(process.env.PROGRAMS || (isShort ? 300 : 2000));

const hasTools = spawnSync('ca65', ['--version']).error === undefined;

// The sources of examples/ that aren't called `game`.
const SOURCES = { first: 'first', test_rom: 'test' };

// What `make` makes of a copy of an example with these edits, once for each place: its program, its
// labels as a text, and its vector ROM.
function made(folder, place = folder, edits = []) {
  const path = `${work}/made/${place}`, name = SOURCES[folder] ?? 'game';
  if (!existsSync(path)) {
    cpSync(`${top}examples/${folder}`, path, { recursive: true,
      filter: (file) => !file.endsWith('/build') });
    edit(`${path}/makefile`, '../../board/', `${top}board/`);
    for (const [old, now] of edits) edit(`${path}/${name}.s`, old, now);
  }
  const { status, stderr } = spawnSync('make', ['-s', '-C', path, `build/${name}.program`,
    'build/rom'], { env: { ...process.env, DVG: program } });
  expect(`make of ${place}: ${stderr}`, 0, status);
  const of = (file) => readFileSync(`${path}/build/${file}`);
  return { program: of(`${name}.program`), labels: of(`${name}.labels`).toString(),
    shapes: of('rom') };
}

function edit(file, old, now) {
  const text = readFileSync(file, 'utf8');
  expect(`${file} has ${old}`, true, text.includes(old));
  writeFileSync(file, text.replaceAll(old, () => now));
}

// The games that are built in have the bytes that `make` makes of examples/, and the driver's.
function testBuilt() {
  expect('where the driver ends', DRIVER_END, START + driverOfPage().length);
  if (!hasTools) return console.log('skipped: the bytes of the games: ca65 is not here');
  for (const [folder, game] of [...GAMES, ['cave', caveOfPage()]]) {
    const wanted = made(folder);
    expect(`the program of ${folder}`, true, wanted.program.equals(game.program));
    expect(`the vector ROM of ${folder}`, true, wanted.shapes.equals(game.shapes));
  }
  return null;
}

// The faults of ../games/game_faults.py in copies of examples/bat, made once.
function faultsOfBat() {
  const file = `${work}/faults.json`, source = `${work}/made/fault/game.s`;
  if (!existsSync(file)) {
    const { stdout } = spawnSync('python3', ['-B', '-c', 'import game_faults, json; '
      + 'print(json.dumps(game_faults.FAULTS))'], { cwd: `${top}tests/parts/games` });
    made('bat', 'fault');
    const text = readFileSync(source, 'utf8');
    writeFileSync(file, JSON.stringify(JSON.parse(stdout).map(([what, old, now]) => {
      writeFileSync(source, text);
      edit(source, old, now);
      const { program: bytes, labels, shapes } = made('bat', 'fault');
      return { what, labels, program: bytes.toString('base64'), shapes: shapes.toString('base64') };
    })));
  }
  return JSON.parse(readFileSync(file, 'utf8')).map(({ what, labels, program: bytes, shapes }) => (
    { what, labels: labelsOf(labels), program: bytesOf(bytes), shapes: bytesOf(shapes) }));
}

// What `dvg game` says of a game: `--notes` prints where its instructions are, too.
function saidByProgram({ program: bytes, shapes }, ...words) {
  return spawnSync(program, ['game', ...words], { input: Buffer.concat([shapes, bytes]) });
}

// Games with one to three bytes changed at random, most of them of instructions.
function* changedGames(games) {
  const drawn = numbersFrom(SEED), below = (most) => drawn() % most;
  const places = games.map((game) => [...saidByProgram(game, '--notes').stdout.toString()
    .matchAll(/^note (\w+):/gm)].map(([, at]) => parseInt(at, 16)));
  for (let k = 0; k < CASES; k++) {
    const number = below(games.length), { what, labels, ...game } = games[number];
    const bytes = game.program.slice(), shapes = game.shapes.slice();
    for (let count = below(3); count >= 0; count--) {
      const at = places[number][below(places[number].length)] - START;
      if (below(4) === 0) shapes[below(shapes.length)] = drawn();
      else if (below(32) === 0) bytes[bytes.length - 1 - below(6)] = drawn();
      else bytes[at + below(OPCODES.get(bytes[at])?.size ?? 1)] = drawn();
    }
    yield { what: `${what}, changed ${k}`, labels, program: bytes, shapes };
  }
}

// The labels of places in a line; and of a line that is about an instruction the place that it
// begins with, with its label before it, and that instruction, as they are wanted.
const LABEL = / \(\w+(\+\d+)?\)/g, OF_INSTRUCTION = /^[0-9A-F]{4}( \(.*?\))?: \w{3}\w?( \S+)?: /;
function beginningOf(line, { labels, program: bytes }) {
  const at = parseInt(line, 16), [[before, label]] = [...labels, [0, '']]
    .filter(([one]) => one <= at).sort(([one], [other]) => other - one);
  const far = before === at ? '' : `+${at - before}`;
  return `${hex(at, 4)}${label === '' ? '' : ` (${label}${far})`}: ${
    new Program(bytes).at(at)}: `;
}

// Of each game of the page, of faults and of what was changed at random dvg.wasm says what `dvg
// game` says, byte for byte; and so does the page, with the names of places, and of an instruction
// as the page writes it.
function testChecker() {
  const games = [...GAMES, ['cave', caveOfPage()]].map(([what, game]) => ({ ...game, what }));
  const faults = hasTools ? faultsOfBat() : [], counts = { 0: 0, 1: 0, 3: 0 }, before = new Set();
  if (!hasTools) console.log('skipped: faults of a game: ca65 is not here');
  for (const game of [...games, ...faults, ...changedGames(games)]) {
    const { status, stdout, stderr } = saidByProgram(game), { what } = game;
    const got = engine.runBytes(COMMAND.game, Uint8Array.of(...game.shapes, ...game.program));
    expect(`${what}: the same bytes`, [status, true, true],
      [got.status, stdout.equals(got.output), stderr.equals(got.error)]);
    const judged = judgeProgram(engine, new Program(game.program, game.labels), game.shapes);
    expect(`${what}: the verdict`, status, judged.verdict);
    expect(`${what}: the lines`, stdout.toString().trim().replace(/^refused: /, '').split('\n'),
      judged.lines.map((line) => line.replace(LABEL, '')));
    for (const line of judged.lines.filter((one) => OF_INSTRUCTION.test(one))) {
      expect(`${what}: ${line}`, true, line.startsWith(beginningOf(line, game)));
    }
    const places = judged.lines.join().matchAll(/\b(at|into) [67]\w{3} \(/g);
    for (const [, word] of places) before.add(word);
    counts[status]++;
  }
  if (hasTools) expect('places beside have names', ['at', 'into'], [...before].sort());
  for (const status of [0, 1, 3]) expect(`some have ${status}`, true, counts[status] > 3);
  return console.log(`dvg.wasm beside dvg game: ${games.length} games, ${faults.length} faults, `
    + `${CASES} changed; ${counts[0]} accepted, ${counts[1]} refused, ${counts[3]} unseen`);
}

// --- The board and its judges ---

// What is told to a judge, as lines of a log.
function linesOfTold(kind, at, value) {
  const word = hex(at, 3);
  const line = { [KIND.STARTED]: 'started', [KIND.LOW]: `low ${word} ${hex(value, 2)}`,
    [KIND.WROTE]: `wrote ${word} ${hex(value, 2)}`, [KIND.BROKE]: 'halted' }[kind];
  const lines = [line ?? `fetched ${word} ${hex(value, 4)}`];
  return kind === KIND.DONE ? [...lines, 'halted'] : lines;
}

// A board that keeps its log.
class Logged extends Arcade {
  tell(kind, at = 0, value = 0) {
    (this.log ??= []).push(...linesOfTold(kind, at, value));
    super.tell(kind, at, value);
  }
}

// What is pressed in a run: a button, from which tenth of a second on, and until which.
const PRESSED = [['coin', 5, 6], ['start1', 8, 10], ['thrust', 12, 16], ['fire', 13, 14],
  ['left', 14, 18], ['fire', 16, 17], ['right', 20, 24], ['fire', 21, 22]];

// Runs a game for so many tenths of a second.
function playGame(arcade, tenths) {
  for (let tenth = 0; tenth < tenths; tenth++) {
    for (const [button, from, to] of PRESSED) {
      if (tenth === from || tenth === to) arcade.press(button, tenth === from);
    }
    arcade.run(HERTZ / 10);
  }
  return arcade;
}

function boardOf(folder, changes, kind = Arcade) {
  const { program: bytes, shapes } = GAMES.get(folder);
  return Object.assign(new kind(engine, bytes, shapes), changes);
}

// Which boards are judged: a game, what is asked of its board, and what comes of it.
const BOARDS = [
  ['asteroid_game', {}, 'whole'], ['asteroid_game', { slow: 8 }, 'whole'],
  ['bat', {}, 'whole'], ['bat', { wireCut: true }, 'whole'],
  ['asteroid_game', { wireCut: true }, 'whole'],
  ['asteroid_game', { wireCut: true, slow: 4 }, 'dark'],
  ['asteroid_game', { wireCut: true, slow: 6, ignored: true }, 'early'],
  ['asteroid_game', { wireCut: true, slow: 8, ignored: true }, 'torn'],
  ['test_rom', { wireCut: true }, 'dark'],
  ['test_rom', { wireCut: true, slow: 4, ignored: true }, 'torn'],
];

// What a run came to, by what the board counted.
function cameTo({ torn, early, left, pictures }) {
  if (torn > 0) return 'torn';
  if (left > pictures) return 'dark';
  return early > 0 ? 'early' : 'whole';
}

// Of runs of games, with the wire whole and cut, what the judges say live is what `dvg torn` says
// of their logs.
function testJudges() {
  let lines = 0;
  for (const [folder, changes, wanted] of BOARDS) {
    const arcade = playGame(boardOf(folder, changes, Logged), isShort ? 15 : 25);
    const { counts, log } = arcade, what = `${folder} with ${JSON.stringify(changes)}`;
    const input = `${log.join('\n')}\n`;
    const says = (...words) => spawnSync(program, ['torn', ...words], { input, maxBuffer: 1 << 28 })
      .stdout.toString().split(/[:\n]/)[0].replace(/ at line.*/, '');
    expect(`${what}: what comes of it`, wanted, cameTo(counts));
    expect(`${what}: by halves`, counts.early > 0 ? 'torn' : 'not torn', says());
    if (counts.pictures > 0) {
      expect(`${what}: by moments`, counts.torn > 0 ? 'torn' : 'whole', says('--moments'));
    }
    const isOf = (text) => (line) => line.startsWith(text);
    expect(`${what}: its writes`, log.filter(isOf('wrote')).length, counts.written);
    expect(`${what}: its pictures`, log.filter(isOf('halted')).length, counts.pictures);
    lines += log.length;
    arcade.free();
  }
  console.log(`the judges beside dvg torn: ${BOARDS.length} runs, ${lines} lines`);
}

// --- Its last seconds ---

// A board that keeps its last seconds, and its log with the time of each line in cycles, and with
// the instruction that was at work.
class Timed extends KeptArcade {
  tell(kind, at = 0, value = 0) {
    const isOfGame = kind === KIND.STARTED || kind === KIND.WROTE;
    const cycles = isOfGame ? this.processor.cycles : this.fetchAt, by = this.at;
    this.lines ??= [];
    for (const text of linesOfTold(kind, at, value)) this.lines.push({ text, cycles, by });
    super.tell(kind, at, value);
  }
}

// Of a log with times: its runs; what both rows show in each slot, by its number; and the bytes
// that are read in the lines `torn`, by which runs are mixed.
function rowsOfLog(lines, torn) {
  const slots = new Map(), runs = [], bytes = [], ram = new Uint8Array(2048), changes = new Map();
  let run = null;
  const slotOf = (cycles) => {
    const number = Math.floor(cycles / SLOT_CYCLES);
    if (!slots.has(number)) slots.set(number, { above: 0, below: 0, area: 0, by: -1 });
    return slots.get(number);
  };
  const sign = (slot, row, one) => { slot[row] = Math.max(slot[row], one); };
  const acts = {
    started(slot, cycles) {
      sign(slot, 'above', run === null ? SIGN.START : SIGN.ANEW);
      if (run !== null) run.to = cycles;
      run = { from: cycles, to: Infinity, half: 0, early: 0, isTorn: false };
      runs.push(run);
    },
    halted(slot, cycles) {
      const whole = run.early > 0 ? SIGN.EARLY_DONE : SIGN.DONE;
      sign(slot, 'above', run.isTorn ? SIGN.TORN_DONE : whole);
      run.to = cycles;
      run = null;
    },
    wrote(slot, cycles, place, value, by) {
      const area = areaOf(place >> 1), isEarly = run !== null && run.half === area;
      if (slot.below < SIGN.EARLY) slot.by = by;
      if (isEarly) {
        run.early++;
        sign(slot, 'below', SIGN.EARLY);
      } else if (place === 1) sign(slot, 'below', SIGN.FLIP);
      slot.area = Math.max(slot.area, area);
      if (ram[place] !== value) {
        changes.set(place, { run, slot, byte: { at: cycles, readAt: 0, by, address: place, value,
          before: ram[place], isEarly } });
      }
      ram[place] = value;
    },
    read(place, cycles, isTorn) {
      const change = changes.get(place);
      if (change !== undefined && change.run === run && change.byte.isEarly) {
        sign(change.slot, 'below', SIGN.SEEN);
      }
      if (!isTorn) return;
      run.isTorn = true;
      bytes.push({ ...change?.byte, readAt: cycles });
    },
  };
  lines.forEach(({ text, cycles, by }, k) => {
    const [name, ...parts] = text.split(' '), slot = slotOf(cycles);
    const [place, value] = parts.map((part) => parseInt(part, 16));
    if (name in acts) acts[name](slot, cycles, place, value, by);
    else acts.read(2 * place + Number(name === 'fetched'), cycles, torn.has(k + 1));
    if (name === 'fetched' && run.half === 0) run.half = (value & 0xFFF) < 512 ? 1 : 2;
  });
  return { slots, runs, bytes };
}

// The rows of a board are those that its log says: in each slot within a run the half that it
// draws, and between two runs nothing; where bytes were written and early, and by which
// instruction; and which byte tore the newest torn picture is what `dvg torn` says.
function expectRows(what, { past, lines, processor }) {
  const { stdout } = spawnSync(program, ['torn', '--moments', '--all'],
    { input: lines.map(({ text }) => `${text}\n`).join(''), maxBuffer: 1 << 28 });
  const torn = new Set([...stdout.toString().matchAll(/^torn at line ([0-9]+)/gm)]
    .map(([, line]) => Number(line)));
  const { slots, runs, bytes } = rowsOfLog(lines, torn), halves = [0, 0, 0];
  const none = { above: 0, below: 0, area: 0, by: -1 };
  let differ = 0;
  for (let k = 0; k < past.length; k++) {
    const { above, below, area, by } = slots.get(past.from + k) ?? none;
    const begin = (past.from + k) * SLOT_CYCLES, end = begin + SLOT_CYCLES;
    const within = runs.find(({ from, to }) => from <= begin && end <= to);
    const isApart = runs.every(({ from, to }) => to < begin || from >= end);
    const drawn = past.areas[ROW.GENERATOR][k];
    if (within !== undefined || isApart) halves[drawn]++;
    const isSame = past.signs[ROW.GENERATOR][k] === above && past.signs[ROW.DRIVER][k] === below
      && past.areas[ROW.DRIVER][k] === area && (area === 0 || past.writers[k] === by)
      && (within === undefined || within.half === drawn) && (!isApart || drawn === 0);
    if (!isSame) differ++;
  }
  expect(`${what}: slots that differ`, 0, differ);
  expect(`${what}: both halves are drawn`, true, Math.min(...halves) > 0);
  expect(`${what}: the newest slot`, Math.floor(processor.cycles / SLOT_CYCLES),
    past.from + past.length - 1);
  expect(`${what}: at most so many`, true, past.length <= MOST_SLOTS);
  expect(`${what}: the byte that tore`, bytes.at(-1), past.torn?.byte);
  expect(`${what}: in which run`, runs.findLast(({ isTorn }) => isTorn)?.from, past.torn?.began);
  return past.length;
}

// What the rows of a game show; how long a board remembers; and of which frame strokes are.
function testPast() {
  let slots = 0;
  for (const [folder, changes, tenths] of [['asteroid_game', {}, 15], ['bat', {}, 60],
    ['test_rom', { wireCut: true }, 8],
    ['asteroid_game', { wireCut: true, slow: 6, ignored: true }, 15],
    ['test_rom', { wireCut: true, slow: 4, ignored: true }, 8]]) {
    const arcade = playGame(boardOf(folder, changes, Timed), tenths), { past } = arcade;
    slots += expectRows(`${folder} with ${JSON.stringify(changes)}`, arcade);
    if (past.torn !== null) expectForgotten(arcade);
    arcade.free();
  }
  expectWanted();
  console.log(`the last seconds of boards beside their logs: ${slots} slots`);
}

// In a torn picture the strokes of another frame are dashed, for who sees no colours, and those of
// the first one aren't.
function testTornStrokes() {
  globalThis.ImageData = Image;
  const { tube } = partsOf('<canvas id="tube">').parts, width = 1044;
  const screen = new Screen(Object.assign(tube, { width, height: width }));
  const lineAt = (y) => [100 * 512, y * 512, 900 * 512, y * 512, 15];
  const wanted = [lineAt(300)], wrong = [lineAt(600)];
  screen.draw({ id: 1, strokes: [...wanted, ...wrong], torn: true }, null, false,
    { wanted, next: [], wrong });
  const { data } = tube.image;
  const changes = [300, 600].map((y) => {
    const row = width - 1 - (y + 10), isLit = (x) => data[4 * (row * width + x + 10)] > 120;
    return Array.from({ length: 780 }, (_, k) => isLit(110 + k) !== isLit(111 + k))
      .filter(Boolean).length;
  });
  expect('the first frame\'s stroke is whole', 0, changes[0]);
  expect('the other one\'s has dashes', true, changes[1] > 90 && changes[1] < 130);
}

// The areas of both rows, by chance, in so many slots.
function areasByChance(count) {
  const drawn = numbersFrom(6);
  return [0, 1].map(() => Uint8Array.from({ length: count }, () => drawn() % 3));
}

// Each pixel of the rows has the area of a slot that it shows, and none only where all have none.
function testStrip() {
  const { parts } = partsOf('<canvas id="past">'), strip = new Strip(parts.past), count = 4000;
  const areas = areasByChance(count), signs = areas.map((row) => row.map(() => SIGN.NONE));
  for (const [scale, first] of [[5, 100], [1, 7], [0.25, 0], [0.125, 500]]) {
    Object.assign(strip, { scale, first, early: new Uint8Array(401) });
    strip.columns = areas.map(() => new Uint8Array(401));
    strip.markAll({ areas, signs }, 0, count);
    let differ = 0;
    for (let x = 0; x < 400; x++) {
      const begin = first + (scale < 1 ? Math.ceil(x / scale) : Math.floor(x / scale));
      const end = Math.max(begin + 1, first + Math.ceil((x + 1) / scale));
      areas.forEach((row, k) => {
        const shown = [...row.slice(begin, end)], found = strip.columns[k][x];
        if (!shown.includes(found) || (found === 0 && Math.max(...shown) > 0)) differ++;
      });
    }
    expect(`pixels that differ, by ${scale} for each slot`, 0, differ);
  }
}

// A torn picture has strokes of its first frame; it is forgotten once its run is.
function expectForgotten(arcade) {
  const { torn } = arcade.past, { wanted, wrong } = tearOfGame(engine, torn,
    { bytes: GAMES.get('test_rom').shapes });
  const { strokes } = torn.picture;
  expect('some strokes are of the first frame, and some aren\'t', true, wrong.length > 0
    && wrong.length < strokes.length && wanted.length > 0);
  Object.assign(arcade, { wireCut: false, ignored: false });
  arcade.run(HERTZ / 2);
  expect('a torn picture is kept', true, arcade.past.torn !== null);
  for (let k = 0; k < 50; k++) {
    arcade.lines.length = 0;
    arcade.run(HERTZ / 10);
  }
  expect('but not for ever', null, arcade.past.torn);
}

// All strokes of a whole picture are of the frame that its run began with.
function expectWanted() {
  const arcade = playGame(boardOf('asteroid_game', {}, KeptArcade), 12);
  while (arcade.running) arcade.run(100);
  const { picture, past: { run: { ram: before } }, ram: after } = arcade;
  const { wanted, wrong } = tearOfGame(engine, { picture, before, after },
    { bytes: GAMES.get('asteroid_game').shapes });
  expect('a whole picture is of one frame', [picture.strokes.length, 0],
    [wanted.length, wrong.length]);
  arcade.free();
}

// What is counted after the wire was mended is of the runs that begin then: none is torn, early or
// abandoned, whenever it was.
function testMendedBoard() {
  const arcade = boardOf('test_rom', { wireCut: true, slow: 4, ignored: true });
  arcade.run(HERTZ);
  for (let k = 0; k < 6; k++) {
    Object.assign(arcade, { wireCut: true, ignored: true });
    arcade.run(HERTZ / 3 + 20011 * k);
    expect('it tears while it is cut', true, arcade.counts.torn + arcade.counts.early > 0);
    Object.assign(arcade, { wireCut: false, ignored: false });
    arcade.countAnew();
    arcade.run(HERTZ / 2);
    const { pictures, torn, early, left } = arcade.counts;
    expect('it is whole once it was mended', [0, 0, 0, true], [torn, early, left, pictures > 0]);
  }
  arcade.free();
}

// A new picture each four NMIs, as docs/GAME.md has it: 61.5 in a second.
function testRate() {
  const arcade = playGame(boardOf('asteroid_game', {}), 5);
  arcade.countAnew();
  playGame(arcade, 20);
  const { pictures, left, resets } = arcade.counts;
  expect('pictures in two seconds', Math.round(2 * HERTZ / 6144 / 4), pictures);
  expect('all are finished, and the watchdog is content', [0, 0, ''],
    [left, resets, arcade.fault]);
  expect('strokes are on the screen', true, arcade.picture.strokes.length > 20);
  arcade.free();
}

// The board of a program of a few bytes at 6800, which an NMI leaves at once.
function boardOfBytes(...bytes) {
  const image = new Uint8Array(6144).fill(0x40);
  image.set(bytes);
  image.set([0xF0, 0x7F, 0x00, 0x68], 6144 - 6);
  return new Arcade(engine, image, new Uint8Array(2048));
}

// What a byte of RAM is after some cycles of a program of a few bytes.
function leftAt(at, ...bytes) {
  const arcade = boardOfBytes(...bytes);
  arcade.run(400);
  return arcade.read(at);
}

const STAY = [0x4C, 0x00, 0x68];

// The banks, the watchdog, the NMI, the inputs and the flag.
function testBoard() {
  const stays = (at) => [0x4C, at & 0xFF, at >> 8];
  const swap = [0xA9, 7, 0x8D, 0, 2, 0xA9, 4, 0x8D, 0, 0x32];
  expect('banks change places', 7, leftAt(0x300, ...swap, ...stays(0x680A)));
  const back = [...swap, 0xA9, 0, 0x8D, 0, 0x32];
  expect('and change back', 7, leftAt(0x200, ...back, ...stays(0x680F)));
  const still = boardOfBytes(...STAY);
  still.run(131072 * 3 + 1000);
  expect('the watchdog resets each 131,072 cycles', 3, still.counts.resets);
  const fed = boardOfBytes(0x8D, 0x00, 0x34, ...STAY);
  fed.run(131072 * 3);
  expect('not one that is written', 0, fed.counts.resets);
  const stuck = boardOfBytes(0x02);
  stuck.run(100);
  expect('an opcode that no manual has is told',
    'no instruction that the page knows at 6800: 02', stuck.fault);
  for (const [name, at] of [['fire', 0x2004], ['left', 0x2407], ['coin', 0x2400]]) {
    still.press(name, true);
    const down = still.read(at);
    still.press(name, false);
    expect(`the switch ${name}`, [0xFF, 0x7F], [down, still.read(at)]);
  }
  expect('A15 isn\'t decoded', still.read(0x7FFD), still.read(0xFFFD));
  still.write(0xC005, 0x5A);
  expect('nor is it where it is written', 0x5A, still.read(0x4005));
  const strobed = [0x2FFF, 0x3000, 0x31FF, 0xB1FF, 0x3200].map((at) => {
    const { runs } = still.counts;
    still.write(at, 0);
    return still.counts.runs - runs;
  });
  expect('the strobe has 512 places', [0, 1, 1, 1, 0], strobed);
  expect('which buttons were read', ['fire', 'left', 'coin'], [...still.asked]);
}

// An NMI comes each 6,144 cycles, but not while the self-test switch is closed.
function testNmi() {
  for (const isClosed of [false, true]) {
    const arcade = boardOfBytes(0x8D, 0x00, 0x34, ...STAY);
    arcade.memory.set([0xE6, 0x20, 0x40], 0x7FF0);
    arcade.press('test', isClosed);
    arcade.run(6144 * 50 + 40);
    expect(`NMIs with the switch ${isClosed}`, isClosed ? 0 : 50, arcade.read(0x20));
  }
}

// --- A gamepad ---

// A gamepad with these numbers of buttons down, and its stick there.
function padOf(down, axes = [0, 0]) {
  const buttons = Array.from({ length: 17 }, (_, k) => ({ pressed: down.includes(k) }));
  return { connected: true, buttons, axes };
}

// What a gamepad holds, by the numbers of the standard mapping of the Gamepad API: 0 to 3 are the
// lower, right, left and upper button, 8 and 9 the middle ones, 12 to 15 the cross, up first.
function testGamepads() {
  for (const [down, axes, wanted] of [[[], [0, 0], []], [[0], [0, 0], ['fire']],
    [[1], [0, 0], ['thrust']], [[2], [0, 0], ['hyperspace']], [[3], [0, 0], ['hyperspace']],
    [[8], [0, 0], ['coin']], [[9], [0, 0], ['start1']], [[12], [0, 0], ['thrust']],
    [[13], [0, 0], []], [[14], [0, 0], ['left']], [[15], [0, 0], ['right']],
    [[], [-1, 0], ['left']], [[], [0.9, 0], ['right']], [[], [0.1, -0.2], []],
    [[], [0, -1], ['thrust']], [[], [0, 1], []],
    [[0, 12], [-0.7, -0.7], ['fire', 'left', 'thrust']]]) {
    expect(`a gamepad with ${down} down, at ${axes}`, wanted,
      [...heldBy([padOf(down, axes)])].sort());
  }
  expect('two gamepads, and one that is gone', ['fire', 'left'],
    [...heldBy([padOf([0]), null, padOf([14]), { connected: false }])].sort());
  expect('one with fewer buttons', ['fire'],
    [...heldBy([{ connected: true, buttons: [{ pressed: true }], axes: [] }])]);
}

// --- Sounds ---

// The sounds by their addresses, with their names and the bits that have them on: as
// board/emulator/sounds.lua takes them from board/asteroids.inc for `make sound`, or deluxe.inc.
function soundsOfBoard(names = 'asteroids') {
  const text = readFileSync(`${top}board/${names}.inc`, 'utf8');
  const bits = { THUMP: 0x10, EXPLOSION: 0x3C };
  return new Map([...text.matchAll(/^([A-Z_]+) *= *\$(3[0-9A-F]{3})/gm)]
    .filter(([, name]) => name in bits || name.startsWith('SOUND_'))
    .map(([, name, at]) => [parseInt(at, 16), { name, bits: bits[name] ?? 0x80 }]));
}

// Writes of a game: where, and which byte.
function soundWrites(count, seed) {
  const drawn = numbersFrom(seed), places = [...soundsOfBoard().keys()];
  return Array.from({ length: count }, () => {
    const at = drawn() % 8 === 0 ? 0x3600 + drawn() % 0x900 : places[drawn() % places.length];
    return [at, drawn() % 2 === 0 ? 0 : drawn() & 0xFF];
  });
}

// Which sounds are on after a write, and since when, is what `make sound` says of these.
function testSoundLatches() {
  const sounds = soundsOfBoard(), arcade = boardOfBytes(...STAY), since = new Map();
  expect('the sounds', [...sounds.keys()].sort(), Object.values(SOUND).sort());
  for (const [at, byte] of soundWrites(isShort ? 2000 : 20000, 5)) {
    arcade.run(100);
    arcade.write(0x3400, 0);
    arcade.write(at, byte);
    const bits = sounds.get(at)?.bits ?? 0;
    if (sounds.has(at) && (byte & bits) === 0) since.delete(at);
    else if (sounds.has(at) && !since.has(at)) since.set(at, arcade.processor.cycles / HERTZ);
    expect(`after ${hex(at, 4)} ${hex(byte, 2)}`, [...since].sort(),
      [...arcade.latches.since].sort());
  }
  arcade.run(131072 + 1000);
  expect('a reset by the watchdog ends all', [true, 1, 0],
    [since.size > 0, arcade.counts.resets, arcade.latches.since.size]);
  arcade.free();
}

// The program that writes so, a tenth of a second apart: a wait of 66 times 256 times 9 cycles.
function programOfWrites(writes) {
  const wait = [0xA2, 66, 0xA0, 0, 0x8D, 0x00, 0x34, 0x88, 0xD0, 0xFA, 0xCA, 0xD0, 0xF5, 0x60];
  const stores = writes.flatMap(([at, byte]) => [0xA9, byte, 0x8D, at & 0xFF, at >> 8,
    0x20, 0x00, 0x70]);
  const image = new Uint8Array(6144).fill(0x40), end = 0x6803 + stores.length;
  image.set([0xA2, 0xFF, 0x9A, ...stores, 0x8D, 0x00, 0x34, 0x4C, end & 0xFF, end >> 8]);
  image.set(wait, 0x7000 - 0x6800);
  image.set([0xF0, 0x7F, 0x00, 0x68], 6144 - 6);
  return image;
}

const hasEmulator = spawnSync('sh', ['-c', 'command -v mame || test -x /usr/games/mame'])
  .status === 0;

// Runs a program over a vector ROM in the arcade emulator, for some seconds, with a script.
function runInEmulator(folder, image, shapes, seconds, script, machine = 'asteroid') {
  const board = `${top}board/emulator`;
  mkdirSync(`${folder}/roms`, { recursive: true });
  writeFileSync(`${folder}/program`, image);
  writeFileSync(`${folder}/rom`, shapes);
  spawnSync('python3', [`${board}/prom.py`, `${folder}/prom`]);
  spawnSync(`${board}/roms`, ['program', 'rom', 'prom', `roms/${machine}`], { cwd: folder });
  const { status } = spawnSync(`${board}/run`, [`${folder}/roms`, `${folder}/out`, seconds,
    script], { env: { ...process.env, DVG_BUTTONS: '', DVG_MACHINE: machine } });
  if (status !== 0) throw new Error(`the emulator: ${readFileSync(`${folder}/out/said`, 'utf8')}`);
}

// What `make sound` says is on at the end, of a program in the arcade emulator: each sound and
// since which second.
function soundingInEmulator(image, seconds) {
  const folder = `${work}/sounding`, board = `${top}board/emulator`;
  runInEmulator(folder, image, new Uint8Array(2048), seconds, `${board}/press.lua`);
  const text = readFileSync(`${folder}/out/sounding`, 'utf8');
  return new Map([...text.matchAll(/^(\w+), since ([0-9.]+) s$/gm)].map(([, name, time]) => (
    [name, Number(time)])));
}

// Of a program that writes for some seconds, what is on at the end is what the emulator says.
function testSounding() {
  if (!hasEmulator) return console.log('skipped: sounds beside the emulator: it isn\'t here');
  const image = programOfWrites(soundWrites(25, 11)), sounds = soundsOfBoard();
  const wanted = soundingInEmulator(image, '4');
  const arcade = new Arcade(engine, image, new Uint8Array(2048));
  arcade.run(4 * HERTZ);
  const found = [...arcade.latches.since].map(([at, time]) => [sounds.get(at).name, time]);
  expect('what is on at the end', [...wanted.keys()].sort(), found.map(([name]) => name).sort());
  for (const [name, time] of found) {
    expect(`${name}: since ${wanted.get(name)}, here ${time}`, true,
      Math.abs(time - wanted.get(name)) < 0.15);
  }
  expect('some are on', true, wanted.size > 1);
  arcade.free();
  return console.log(`sounds beside the emulator: ${found.length} on at the end`);
}

// A speaker is loud where a sound is on, and silent where none is, in the order of the writes.
function testSpeaker() {
  globalThis.AudioContext = Audio;
  const speaker = new Speaker(), latches = new Latches(), drawn = numbersFrom(3);
  const level = (at) => speaker.voices.get(at).level.last;
  const asked = [];
  for (const [k, [at, byte]] of soundWrites(2000, 9).entries()) {
    latches.write(at, byte, k);
    speaker.context.currentTime += (drawn() % 100) / 10000;
    for (const one of latches.changes.splice(0)) speaker.take(one.at, one.byte, drawn() % 3 / 50);
    const on = [...speaker.voices.keys()].filter((place) => level(place) > 0);
    expect(`loud after ${hex(at, 4)} ${hex(byte, 2)}`, [...latches.since.keys()]
      .filter((place) => place !== SOUND.SAUCER_LARGE).sort(), on.sort());
    asked.push(speaker.last);
  }
  expect('none is heard before one that was written before', asked,
    [...asked].sort((a, b) => a - b));
  for (const [byte, wanted] of [[0x04, 1 / 15], [0x3C, 1], [0xC3, 0]]) {
    speaker.take(SOUND.EXPLOSION, byte, 0);
    expect(`how loud an explosion of ${hex(byte, 2)} is`, wanted, level(SOUND.EXPLOSION));
  }
  speaker.follow(new Latches(), true);
  expect('with nothing written it is silent', [],
    [...speaker.voices.keys()].filter((place) => level(place) > 0));
}

// A page has no sound until somebody asks for it; it stops and goes on with the game.
async function testSoundButton() {
  Audio.made.length = 0;
  const page = await runPage(pageOf('asteroid_game', 'Rocks'), { AudioContext: Audio });
  const press = (name) => page.parts[name].happen('click');
  page.pass(30);
  expect('no sound at first', [0, undefined], [Audio.made.length,
    page.parts.sound.attributes['aria-pressed']]);
  press('sound');
  page.pass(2);
  expect('it sounds', [1, 'running', 'true'], [Audio.made.length, Audio.made[0].state,
    page.parts.sound.attributes['aria-pressed']]);
  for (const [name, wanted] of [['pause', 'suspended'], ['pause', 'running'],
    ['sound', 'suspended'], ['restart', 'suspended'], ['sound', 'running']]) {
    press(name);
    page.pass(2);
    expect(`after ${name}`, wanted, Audio.made[0].state);
  }
  expect('one speaker is enough', 1, Audio.made.length);
}

// --- A page of a game alone ---

// The page that page/game makes of a game.
function pageOf(folder, title) {
  const { program: bytes, shapes } = GAMES.get(folder), out = `${work}/${folder}.html`;
  const files = [[`${work}/${folder}.program`, bytes], [`${work}/${folder}.rom`, shapes]];
  for (const [name, data] of files) writeFileSync(name, data);
  const { status, stdout, stderr } = spawnSync(`${top}page/game`,
    [...files.map(([name]) => name), title, out]);
  if (status !== 0) throw new Error(`page/game: ${stderr}`);
  const html = readFileSync(out, 'utf8');
  const { status: none, stderr: said } = spawnSync(`${top}page/game`,
    [files[1][0], files[1][0], title, out]);
  expect('another size is refused', [1, true],
    [none, said.toString().includes('bytes; a game for Asteroids has 6144 and 2048, and ')]);
  expect(`${folder}: its size is told`, true,
    stdout.toString().includes(`: ${Buffer.byteLength(html)} bytes: `));
  return html;
}

// A page has the code of modules as it is, without remarks, in the lines of their files: so a fault
// that it reports is told by the line of a file.
function expectModules(script, names) {
  for (const name of names) {
    const lines = readFileSync(`${top}page/src/${name}.mjs`, 'utf8').split('\n');
    const all = script.split('\n');
    let differ = 0, code = 0;
    for (const [k, line] of all.entries()) {
      const place = inModules(`dvg.html:${k + 1}`, script);
      const [, where] = /^([a-z]+\.mjs):([0-9]+)$/.exec(place) ?? [];
      if (where !== `${name}.mjs` || !/^ *[a-z].*[;{]$/.test(line)) continue;
      const number = Number(/[0-9]+$/.exec(place));
      if (/^const \{.*\} = \$/.test(line) || line.startsWith('return { ')) continue;
      code++;
      if (lines[number - 1].replace(/^export /, '') !== line) differ++;
    }
    expect(`${name} is that of the page`, [0, true], [differ, code > 50]);
  }
}

// The page of a game alone holds its bytes, and modules as they are; its policy lets in its own
// script and style. It draws what the board draws, and takes keys and touches.
async function testGamePage() {
  for (const folder of ['bat', 'first']) {
    const html = pageOf(folder, `${folder} <&> more`), script = scriptOf(html);
    const { program: bytes, shapes } = GAMES.get(folder);
    expect('its title', true, html.includes(`<title>${folder} &lt;&amp;&gt; more</title>`));
    for (const text of [script, /<style>([^]*)<\/style>/.exec(html)[1]]) {
      const digest = createHash('sha256').update(text).digest('base64');
      expect('its policy names it', true, html.includes(`'sha256-${digest}'`));
    }
    const [program64, shapes64] = [bytes, shapes].map((data) => Buffer.from(data).toString(
      'base64'));
    expect('its bytes', true,
      script.includes(`const GAME = {"program": "${program64}", "shapes": "${shapes64}"};`));
    expectModules(script, ['processor', 'arcade', 'screen']);
    await playPage(folder, html);
  }
}

// `make page` makes that page, and `make watch` does so again once the game changes, not before.
function testMakePage() {
  if (!hasTools) return console.log('skipped: make page: ca65 is not here');
  for (const folder of ['bat', 'first']) {
    const place = `${work}/made/page_${folder}`, name = SOURCES[folder] ?? 'game';
    made(folder, `page_${folder}`);
    const make = (...words) => {
      const { status, stdout, stderr } = spawnSync('make', ['-s', '-C', place, ...words],
        { env: { ...process.env, DVG: program } });
      expect(`make ${words} of ${folder}: ${stderr}`, 0, status);
      return stdout.toString().includes('build/page.html: ');
    };
    make('page', `TITLE=the ${folder}'s`);
    expect(`the page of ${folder}`, true,
      readFileSync(`${place}/build/page.html`, 'utf8') === pageOf(folder, `the ${folder}'s`));
    expect('nothing has changed', false, make('watch', 'WATCHED=1'));
    appendFileSync(`${place}/${name}.s`, '; a remark\n');
    expect('it was changed', true, make('watch', 'WATCHED=1'));
    expect('no longer', false, make('watch', 'WATCHED=1'));
  }
  return null;
}

// Plays a page, beside a board with the same game and the same presses.
async function playPage(folder, html) {
  const pads = [null], navigator = { getGamepads: () => pads };
  const page = await runPage(html, { navigator }), arcade = boardOf(folder, {});
  const { tube } = page.parts;
  const pass = (count) => {
    page.pass(count);
    for (let k = 0; k < count; k++) arcade.run(Math.round(page.frame * HERTZ / 1000));
    expect(`${folder}: the strokes of the newest picture are lit, and nothing else is`, true,
      isDrawn(arcade.picture.strokes, brightOf(tube.image)));
  };
  pass(100);
  expect(`${folder}: strokes are seen`, true, arcade.picture.strokes.length > 3);
  for (const [type, isDown] of [['keydown', true], ['keyup', false]]) {
    page.keys.happen(type, { key: '1' });
    page.inputs.left.happen(isDown ? 'pointerdown' : 'pointerup');
    for (const name of ['start1', 'left']) arcade.press(name, isDown);
    pass(60);
  }
  for (const down of [[9, 14], [14], [], [15]]) {
    pads[0] = padOf(down);
    for (const [number, name] of [[9, 'start1'], [14, 'left'], [15, 'right']]) {
      arcade.press(name, down.includes(number));
    }
    pass(30);
  }
  page.parts.pause.happen('click');
  const before = tube.painted;
  page.pass(100);
  expect(`${folder}: it pauses`, before, tube.painted);
  expect(`${folder}: no fault is told`, '', page.parts['game-said'].textContent);
  arcade.free();
}

// --- Links ---

// What a link may ask of a board, by its fields, and what that is on the board.
const ASKED = [[{}, [false, 1, false]], [{ wire: 'cut' }, [true, 1, false]],
  [{ beam: '4' }, [false, 4, false]],
  [{ wire: 'cut', beam: '8', strobes: 'ignored' }, [true, 8, true]]];

// The games of the page without a browser: its parts, and the games that are built in.
function playOnStage() {
  const { parts } = partsOf(['page', 'cabinet'].map((name) => (
    readFileSync(`${top}page/src/${name}.html`, 'utf8'))).join(''));
  globalThis.document = { getElementById: (id) => parts[id] };
  parts.beam.value = '1';
  const games = [...GAMES.entries()].map(([name, game]) => ({ name, ...game }));
  return { play: new Play(engine, games, driverOfPage(), routinesOfPage()), parts, games };
}

// A verdict: its word, a slash and its text.
function verdictOf(part) {
  return [part.firstElementChild, part.lastElementChild].map(({ textContent }) => textContent)
    .join('/');
}

// A program that goes on from 6800 after a reset; the NMI only returns.
function programOf(code) {
  const bytes = new Uint8Array(6144).fill(0xFF), rti = 0x7000;
  bytes.set(code);
  bytes[rti - 0x6800] = 0x40;
  bytes.set([rti & 0xFF, rti >> 8, 0x00, 0x68, rti & 0xFF, rti >> 8], bytes.length - 6);
  return bytes;
}
const JMP_SELF = [0x4C, 0x00, 0x68], STROBES = [0x8D, 0x02, 0x40, 0x8D, 0x00, 0x30, 0xA2, 0x00,
  0xA0, 0x00, 0xC8, 0xD0, 0xFD, 0xE8, 0xD0, 0xFA, 0x4C, 0x00, 0x68];

// Plays a program for some seconds; the three verdicts of the run, and their colours.
function judgedOf({ play, parts }, bytes, seconds) {
  play.begin('a program', { program: bytes, shapes: new Uint8Array(2048), labels: new Map() }, '');
  play.run(seconds);
  play.showTexts();
  return ['run-moments', 'run-halves', 'run-left'].map((id) => (
    `${verdictOf(parts[id])} ${parts[id].firstElementChild.className}`));
}

// Nothing is green of a program that never ran one instruction, or that draws no frame: one that
// only waits, and one that stores and strobes, though word zero is no jump.
function testNothingYet() {
  const stage = playOnStage();
  const none = ['/No picture is finished yet. ', '/No run drew a half yet. '];
  const nothing = [...none, '/No run is finished yet. '];
  expect('no opcode', nothing, judgedOf(stage, programOf([0xFF]), 1));
  expect('it stopped', true, /stopped: /.test(stage.parts['run-counts'].textContent));
  expect('a program that waits', nothing, judgedOf(stage, programOf(JMP_SELF), 1));
  const [picture, byte, runs] = judgedOf(stage, programOf(STROBES), 2);
  expect('one without a frame', none, [picture, byte]);
  expect('whose runs break off', true,
    /^Broken off\/: [0-9]+ runs, by a fault of the list drawn\. bad$/.test(runs));
  const { play, parts } = stage;
  parts['game-wire'].setAttribute('aria-pressed', 'true');
  play.begin('a program', { ...play.game, program: programOf(JMP_SELF) }, '');
  play.takeGuess('on');
  play.run(4);
  expect('a program that hangs is reset', 'You said: it goes on. It is reset again and again: '
    + 'nothing writes to the watchdog in time.', play.whatText);
}

// A board that counts its runs by itself, and keeps the numbers of those that a strobe abandoned.
class Numbering extends KeptArcade {
  countAnew() {
    super.countAnew();
    Object.assign(this, { began: 0, abandoned: [] });
  }

  tell(kind, ...more) {
    if (kind === KIND.STARTED) {
      if (this.running && this.began > 0) this.abandoned.push(this.began);
      this.began++;
    }
    super.tell(kind, ...more);
  }
}

// What is asked of a game's board, and what is answered: only what was counted.
const ANSWERS = [
  [{ game: 'board', wire: 'cut', beam: '8' },
    /^It goes on: some runs are abandoned, the first of them run [0-9]+, as a strobe /],
  [{ game: 'board', wire: 'cut', beam: '8', strobes: 'ignored' },
    /^It goes on: strobes that came before HALT were ignored\.$/],
  [{ game: 'asteroid_game', wire: 'cut', beam: '2' },
    /^It goes on: some runs are abandoned, the first of them run [0-9]+, as a strobe /],
  [{ game: 'bat', wire: 'cut', beam: '2' },
    /^It goes on: it reads "done" at once, and yet each run .* By no beam here does this game /],
  [{ game: 'asteroid_game', beam: '2' },
    /^It goes on: each run came to HALT before the next strobe, as the wire is whole\.$/],
  [{ game: 'test_rom', wire: 'cut' }, /^It goes dark: each strobe /],
];

// A question stays until it is taken; then comes the answer, which has the number of the first run
// that was abandoned, if one was.
function testAnswers() {
  const { play, parts } = playOnStage();
  play.boardOf = (bytes, shapes) => new Numbering(engine, bytes, shapes);
  for (const [asked, wanted] of ANSWERS) {
    const what = JSON.stringify(asked);
    play.openState(asked);
    play.run(12);
    play.showTexts();
    expect(`${what}: it is asked`, [false, 'What will come of it?'],
      [parts.guesses.hidden, parts['what-text'].textContent]);
    play.takeGuess(null);
    const said = parts['what-text'].textContent, { abandoned, counts } = play.arcade;
    expect(`${what}: no longer`, true, parts.guesses.hidden);
    expect(`${what}: ${said}`, true, wanted.test(said));
    expect(`${what}: how many runs are abandoned`, abandoned.length, counts.left);
    const number = / run ([0-9]+), as a strobe came before HALT\.$/.exec(said)?.[1];
    if (said.includes('abandoned')) expect('the first one', String(abandoned[0]), number);
    if (abandoned.length > 0) expect('beside its verdict', `Abandoned/: ${abandoned.length} runs, `
      + `as a strobe came before HALT; the first is run ${abandoned[0]}.`,
    verdictOf(parts['run-left']));
  }
  Object.assign(play.arcade.counts, { broke: 1, left: 0, pictures: 9 });
  expect('runs that break off are told', 'It goes on: some runs are broken off, by a fault of the '
    + 'list drawn.', play.whatText);
  play.changeBoard();
  play.takeGuess('tears');
  expect('the answer takes a while', 'You said: it tears. Watch it for 3 seconds.', play.whatText);
}

// At each moment of the rows the tube shows the run that is open then, as far as its strokes have
// been drawn: as many as have an end before it.
function testTubeMoments() {
  globalThis.ImageData = Image;
  const { play, parts } = playOnStage();
  Object.assign(parts.tube, { width: 400, height: 400 });
  play.colors = { areas: [], glows: [] };
  play.openState({ game: 'test_rom', wire: 'cut', beam: '4', strobes: 'ignored' });
  play.run(2);
  const { past, taped } = play.arcade, images = new Set();
  let amid = 0;
  for (let slot = past.length; slot > 0; slot -= 149) {
    play.goTo(slot);
    const cycles = (past.from + slot) * SLOT_CYCLES;
    const run = taped.findLast(({ began }) => began <= cycles);
    const drawn = run === undefined ? 0 : run.ends.filter((end) => end <= cycles).length;
    expect(`the strokes at slot ${slot}`, drawn, parts.tube.dataset.strokes);
    if (drawn > 0 && drawn < run.ends.length) amid++;
    images.add(createHash('sha256').update(parts.tube.image.data).digest('hex'));
  }
  expect('moments amid pictures', true, amid > 20);
  expect('pictures', true, images.size > 20);
}

// A store of the game's own is kept apart from those of the driver, and told beside a tear; with
// the wire whole it is the cause.
function testOwnStore() {
  const { program: bytes, shapes } = caveOfPage(), arcade = new KeptArcade(engine, bytes, shapes);
  const { past, generator } = arcade;
  arcade.run(HERTZ);
  while (!arcade.running || generator.wants().address % 512 < 60) arcade.run(1);
  const before = 2 * (generator.wants().address - 4), after = before + 16;
  arcade.at = 0x6C77;
  for (const place of [before, after]) {
    arcade.write(0xC000 + place, arcade.memory[0x4000 + place] ^ 1);
  }
  while (arcade.running) arcade.run(1);
  expect('which instruction stored', [0x6C77, after], [past.own.by, past.own.place]);
  expect('it tore the picture', 0x6C77, past.torn?.byte.by);
  arcade.free();
  const { play, parts } = playOnStage();
  const torn = { own: { by: 0x6C77, at: HERTZ }, byte: { by: 0x6969 } };
  play.openState({ game: 'bat' });
  expect('it is the cause', true, /by 6C77.*: that store is the cause\.$/.test(play.ownText(torn)));
  parts['game-wire'].setAttribute('aria-pressed', 'true');
  play.changeBoard();
  expect('with the wire cut it may not be', true, /, at 1\.0000 s\.$/.test(play.ownText(torn)));
  expect('none is told where there is none', '', play.ownText({ ...torn, own: null }));
}

// The mistake of a game is where it calls, not where a table has the same bytes.
function testMistake() {
  const { program: bytes } = GAMES.get('bat'), changed = bytes.slice(), routines = routinesOfPage();
  const to = routines.get('dvg_put'), call = [0x20, to & 0xFF, to >> 8], at = 0x1700;
  changed.set(call, at);
  const made = withMistake(new Program(changed), routines);
  expect('a table stays', call, [...made.slice(at, at + 3)]);
  const places = [...made.keys()].filter((k) => made[k] === 0x8D && changed[k] === 0x20);
  expect('three calls became stores', 3, places.length);
  expect('each was one', [true, true, true], places.map((k) => (
    call.every((byte, n) => changed[k + n] === byte))));
}

// What is accepted isn't, where a part of the game is missing.
function testEvery() {
  const good = { verdict: VERDICT.GOOD, lines: ['a line'] };
  expect('all is there', 'Accepted', everyVerdict(good, { hasShapes: true, missing: '' }).word);
  const lacks = everyVerdict(good, { hasShapes: false, missing: 'H2' });
  expect('something is missing', ['Not sure', 'early'], [lacks.word, lacks.color]);
  expect('that is said', true, lacks.text.startsWith(': the vector ROM and H2 of this game is '));
  expect('a watchdog comes first', ['reset', 'tears', 'none', 'dark', 'on'],
    [{ resets: 1 }, { torn: 1, resets: 1 }, {}, { left: 2, pictures: 1 }, { pictures: 2 }].map(
      (counts) => outcomeOf({ ...noCounts(), ...counts })));
}

// A link to a game holds it and what is asked of its board: one that is built in by its name, one
// that was dropped with its bytes and labels.
async function testGameLinks() {
  const { play, parts, games } = playOnStage();
  for (const [asked, wanted] of ASKED) {
    const fragment = plainFragment({ game: 'bat', ...asked });
    play.openState(await stateOf(fragment));
    const { wireCut, slow, ignored } = play.arcade;
    expect(`the board of ${fragment}`, wanted, [wireCut, slow, ignored]);
    expect(`the game of ${fragment}`, games[1].program, play.game.program);
    expect('the same link', fragment, plainFragment(play.state));
  }
  play.openState({ game: 'bat', mistake: '1' });
  expect('with its mistake', 1, Number(parts.every.dataset.verdict));
  const labels = new Map([[0x6C71, 'draw'], [0x7000, 'a_b']]);
  const { program: bytes, shapes } = games[2];
  play.begin('mine, rom', { program: bytes, shapes, labels, missing: '' }, '');
  const fragment = await fragmentOf(play.state), { length } = fragment;
  console.log(`a link of a game that was dropped has ${length} characters`);
  play.openState({ game: 'bat' });
  play.openState(await stateOf(fragment));
  expect('a game that was dropped', ['mine, rom', bytes, shapes, [...labels]],
    [play.name, play.game.program, play.game.shapes, [...play.game.labels]]);
  for (const state of [{ game: 'none' }, { game: 'x', program: 'AAAA', shapes: 'AAAA' }]) {
    const told = await Promise.resolve(state).then((one) => play.openState(one))
      .then(() => 'a game', () => 'an error');
    expect(`a link to ${state.game}`, 'an error', told);
  }
}

// --- Files ---

// What a game is dropped as, by names and by bytes.
async function testGameFiles() {
  const { program: bytes, shapes } = GAMES.get('bat');
  const socket = (name, k) => ({ name, bytes: bytes.slice(2048 * k, 2048 * (k + 1)) });
  const sockets = [socket('035145-04e.ef2', 0), socket('035144-04e.h2', 1),
    socket('035143-02.j2', 2), { name: '035127-02.np3', bytes: shapes }];
  const whole = { name: 'game.program', bytes }, rom = { name: 'rom', bytes: shapes };
  const text = 'al 006C71 .draw\nal 006800 .dvg_reset';
  const labels = { name: 'game.labels', bytes: Buffer.from(text) };
  const zips = zipsOf(sockets);
  const page = { name: 'page.html', bytes: new Uint8Array(Buffer.from(pageOf('bat', 'bat'))) };
  for (const [what, files] of [['a program', [whole, rom]], ['sockets', sockets],
    ['a page', [page]],
    ['others', [rom, whole, labels]], ...zips]) {
    const game = gameOf(await unzipped(files));
    expect(`${what}: its program`, Buffer.from(bytes).toString('hex'),
      Buffer.from(game.program).toString('hex'));
    expect(`${what}: its shapes`, Buffer.from(shapes).toString('hex'),
      Buffer.from(game.shapes).toString('hex'));
    expect(`${what}: nothing is missing`, ['', true], [game.missing, game.hasShapes]);
  }
  const [[, [zip]]] = zips, broken = Uint8Array.from(zip.bytes).fill(0xFF, 80, 90);
  expect('a zip that is broken', 'game.zip: it can\'t be unpacked.',
    await playOnStage().play.openFiles([{ name: 'game.zip', bytes: broken }]));
  expect('labels', [[0x6C71, 'draw']], [...gameOf([whole, labels]).labels]);
  testFaultsOfFiles(whole, rom, sockets);
  expect('a socket alone', 'H2, J2', gameOf([sockets[0]]).missing);
  expect('a vector ROM alone', null, gameOf([rom]));
  for (const [what, file, wanted] of [['a program', bytes, true], ['EF2', sockets[0].bytes, true],
    ['J2', sockets[2].bytes, true], ['a page', page.bytes, true],
    ['dvg.html', readFileSync(`${top}page/dvg.html`), false], ['a vector ROM', shapes, false],
    ['a dump', new Uint8Array(6144), false], ['a text', Buffer.from('labs 0 0 0'), false]]) {
    expect(`${what} is of a game`, wanted, isOfGame(file));
  }
}

// A file that hasn't the length of what it is by its name is named, with both lengths; and so is a
// vector ROM without its program. Files that are of use on the board are none of a game.
function testFaultsOfFiles(whole, rom, sockets) {
  const cut = ({ name, bytes }) => ({ name, bytes: bytes.slice(0, -1) });
  const [ef2, h2, , np3] = sockets, dump = { name: 'h1.dump', bytes: new Uint8Array(4096) };
  const text = { name: 'h2.txt', bytes: Buffer.from('labs 0 0 0') };
  const larger = { name: 'rom', bytes: new Uint8Array(4096) };
  const deluxe = { name: 'game.program', bytes: Uint8Array.from([...whole.bytes.slice(0, 2048),
    ...whole.bytes]) };
  for (const [what, files, wanted] of [
    ['a short socket', [cut(ef2), ...sockets.slice(1)],
      '035145-04e.ef2 has 2,047 bytes: a socket has 2,048.'],
    ['a socket of the shapes', [...sockets.slice(0, 3), cut(np3)],
      '035127-02.np3 has 2,047 bytes: a socket has 2,048.'],
    ['an empty one', [{ ...ef2, bytes: new Uint8Array(0) }, h2, np3],
      '035145-04e.ef2 has 0 bytes: a socket has 2,048.'],
    ['one alone', [cut(h2)], '035144-04e.h2 has 2,047 bytes: a socket has 2,048.'],
    ['a program', [cut(whole), rom],
      'game.program has 6,143 bytes: a program has 6,144, or 8,192 for Asteroids Deluxe.'],
    ['a vector ROM', [whole, cut(rom)],
      'rom has 2,047 bytes: a vector ROM has 2,048, or 4,096 for Asteroids Deluxe.'],
    ['a game', [whole, rom], ''], ['its sockets', sockets, ''], ['a dump alone', [dump], ''],
    ['a text', [text, whole], ''], ['a larger game', [deluxe, larger], ''],
    ['a dump beside a game', [whole, dump], 'h1.dump has 4,096 bytes: a socket has 2,048.']]) {
    expect(`${what}: its length`, wanted, lengthFault(files));
  }
  const random = { name: 'game.program',
    bytes: Uint8Array.from({ length: 6144 }, (_, k) => k * 7) };
  const other = { ...random, name: 'ram' }, leads = [...other.bytes.slice(-6, -2)].map((byte) => (
    byte.toString(16).toUpperCase().padStart(2, '0')));
  const nowhere = ({ name }) => `${name} has the length of a program, but its vectors lead `
    + `nowhere: by its last six bytes an NMI goes to ${leads[1]}${leads[0]}, and a reset to `
    + `${leads[3]}${leads[2]}. Both must be of its own code.`;
  for (const [what, files, wanted] of [['a game', [whole, rom], ''], ['no game', [random],
    nowhere(random)], ['beside a ROM', [other, rom], nowhere(other)],
    ['alone', [other], ''], ['beside NP3', [other, np3], nowhere(other)]]) {
    expect(`${what}: its vectors`, wanted, vectorsFault(files));
  }
  const alone = ({ name }) => `${name} is a vector ROM, the shapes of a game. Its program isn't `
    + 'among them: drop both at once.';
  for (const [what, files, wanted] of [['shapes', [rom], alone(rom)], ['NP3', [np3], alone(np3)],
    ['the larger shapes', [larger], alone(larger)], ['a game', [whole, rom], ''],
    ['H2 and shapes', [h2, np3], ''], ['H2', [h2], ''], ['a dump', [dump], ''],
    ['a text', [text], '']]) {
    expect(`${what}: whether a program is missing`, wanted, romAlone(files));
  }
}

// Sketches with outlines, those of the repository and random ones, become what board/outline.awk
// makes of them, or both refuse them.
function testOutlines() {
  const kept = ['board/letters.sketch', 'examples/board/shapes.sketch',
    'examples/asteroid_game/shapes.sketch', 'examples/bat/shapes.sketch',
    'examples/first/garden.sketch'].map((name) => readFileSync(`${top}${name}`, 'utf8'));
  const drawn = numbersFrom(7), below = (most) => drawn() % most;
  const words = [() => `${below(2000) - 1000},${below(2000) - 1000}`, () => `@${below(99)},-3`,
    () => `${below(90)}.5,${below(90)}.25`, () => '# a remark', () => '\n', () => '\nhalt\n',
    () => '\nship:', () => '\n  ', () => '\nvctr 9 1 2 3\n', () => '\r\n', () => '\t',
    () => '\nrock: ', () => '\n.rom\n', () => '\n.frame\n', () => `intensity=${below(17)}`,
    () => (below(40) === 0 ? '1,' : '3,4'), () => '\n\n'];
  const made = Array.from({ length: isShort ? 20 : 150 }, () => `${Array.from({ length: 12 },
    () => words[below(words.length)]()).join(' ')}\n`);
  let refused = 0;
  for (const input of [...kept, ...made]) {
    const { status, stdout } = spawnSync('awk', ['-f', `${top}board/outline.awk`], { input });
    const { text, fault } = withoutOutlines(input);
    expect(`whether ${JSON.stringify(input)} is refused`, status !== 0, fault !== '');
    if (status === 0) expect(`the vectors of ${input}`, stdout.toString(), text);
    else refused++;
  }
  const count = kept.length + made.length;
  console.log(`outlines beside outline.awk: ${count} sketches, ${refused} refused`);
}

// Numbers by a seed, each below 2 to the power of 32.
function numbersFrom(seed) {
  let state = seed;
  return () => {
    state = (state ^ state << 13) >>> 0;
    state = (state ^ state >>> 17) >>> 0;
    state = (state ^ state << 5) >>> 0;
    return state;
  };
}

// Two zips of files: packed, and as they are.
function zipsOf(files) {
  const folder = `${work}/zipped`;
  mkdirSync(folder, { recursive: true });
  for (const { name, bytes } of files) writeFileSync(`${folder}/${name}`, bytes);
  const script = 'import sys, zipfile; z = zipfile.ZipFile(sys.argv[1], "w", int(sys.argv[2]));'
    + '[z.write(name, "roms/" + name.split("/")[-1]) for name in sys.argv[3:]]; z.close()';
  return ['8', '0'].map((method) => {
    const file = `${work}/game${method}.zip`;
    const { status, stderr } = spawnSync('python3', ['-c', script, file, method,
      ...files.map(({ name }) => `${folder}/${name}`)]);
    if (status !== 0) throw new Error(`zipfile: ${stderr}`);
    return [`a zip by method ${method}`, [{ name: 'game.zip', bytes: readFileSync(file) }]];
  });
}

// A board of the cave, with what is asked of it, after so many seconds.
function caveAfter(seconds, changes) {
  const { program: bytes, shapes } = caveOfPage(), arcade = new TapedArcade(engine, bytes, shapes);
  Object.assign(arcade, { ignored: true }, changes);
  arcade.run(seconds * HERTZ);
  return arcade;
}

// Each run that is taped has a time for each of its strokes, in their order, between its beginning
// and its end; and its log is judged as its picture was.
function testTaped() {
  for (const [folder, game] of [...GAMES, ['cave', caveOfPage()]]) {
    for (const wireCut of [false, true]) {
      const arcade = new TapedArcade(engine, game.program, game.shapes), runs = new Map();
      Object.assign(arcade, { wireCut, ignored: true });
      while (arcade.time < 2) {
        pressBeginning(arcade);
        arcade.run(4096);
        for (const run of arcade.taped) if (run.done !== null) runs.set(run.began, run);
      }
      const what = `${folder}, ${wireCut ? 'cut' : 'whole'}`;
      const isOdd = ({ began, done, ends, strokes }) => ends.length !== strokes.length
        || ends.some((end, k) => end <= (ends[k - 1] ?? began) || end > done);
      expect(`${what}: some runs`, true, runs.size > 30);
      expect(`${what}: runs whose strokes have no time`, 0,
        [...runs.values()].filter(isOdd).length);
      for (const run of [...runs.values()].slice(-3)) {
        const { stdout } = spawnSync(program, ['torn', '--moments'], { input: run.log });
        expect(`${what}: its log`, run.isTorn, /^torn/.test(stdout.toString()));
      }
      const { ends, began, done } = [...runs.values()].at(-1);
      const run = [...runs.values()].at(-1);
      expect(`${what}: none is drawn at first, all at the end`, [0, ends.length],
        [run.countAt(began), run.countAt(done)]);
      arcade.free();
    }
  }
}

// In the first view each picture of the board whose wire is cut is torn, much of it, soon; and the
// whole one, of the same time, is whole, at half of the pace, and never reset.
function testCaveTears() {
  const whole = caveAfter(6, {}), cut = caveAfter(3, {});
  expect('whole', [0, 0, 0], ['torn', 'early', 'resets'].map((name) => whole.counts[name]));
  expect('its pace', true, whole.counts.pictures > 25 * 6);
  cut.wireCut = true;
  cut.countAnew();
  cut.run(3 * HERTZ);
  const { pictures, torn, resets } = cut.counts, { past } = cut;
  expect('cut, each one is torn', [true, pictures, 0], [pictures > 20 * 3, torn, resets]);
  const { wrong } = tearOfGame(engine, past.torn, { bytes: caveOfPage().shapes });
  expect('at least a third of it', true, wrong.length / past.torn.picture.strokes.length > 1 / 3);
  expect('the verdicts', ['Torn', 'Whole', null],
    [picturesVerdict(cut.counts).word, picturesVerdict(whole.counts).word,
      resetsVerdict(cut.counts)]);
  expect('of a board that was reset', 'Reset', resetsVerdict({ resets: 2 }).word);
  expect('nothing is whole of which word zero alone was fetched', '',
    picturesVerdict({ ...noCounts(), pictures: 9 }).word);
  // A board whose beam is so slow that the watchdog comes.
  const slow = caveAfter(2, { slow: 8 });
  expect('and the watchdog does come', true, slow.counts.resets > 5);
  for (const one of [whole, cut, slow]) one.free();
}

// The first beam with which a game tears, while the whole side isn't reset.
function testBeams() {
  for (const [folder, wanted] of [['asteroid_game', 8], ['bat', null], ['test_rom', 1]]) {
    expect(`the beam of ${folder}`, wanted, tearingBeam(engine, GAMES.get(folder)));
  }
  const asked = [];
  beamOf((slow, wireCut) => { asked.push([slow, wireCut]); return true; });
  expect('none that the watchdog resets', [1, 2, 4, 8], [...new Set(asked.map(([slow]) => slow))]);
}

const TESTS = [
  testSteps, testBreakSteps, testDecimal, testBreak, testBreakGame, testBuilt, testChecker,
  testDeluxe, testDeluxeBoard,
  testJudges, testPast, testTornStrokes, testStrip,
  testMendedBoard, testRate, testBoard, testNmi,
  testGamepads, testSoundLatches, testSounding, testSpeaker, testSoundButton, testGamePage,
  testMakePage, testGameLinks, testNothingYet, testAnswers, testGameFiles, testOutlines,
  testTubeMoments, testOwnStore, testMistake, testEvery, testTaped, testCaveTears, testBeams,
];
for (const test of TESTS) if (named.length === 0 || named.includes(test.name)) await test();
end();
