// What the page needs beside its modules, as constants on standard output: the listing of the
// driver, the games, the examples, and what is said of faults. assemble.py adds dvg.wasm.
import { readFileSync, readdirSync } from 'node:fs';
import { explainedFaults } from './advice.mjs';
import { packedCave, packedGames } from './games.mjs';

const page = new URL('.', import.meta.url).pathname;

// The texts of a folder of examples whose names end like this, or all, by their names.
function textsOf(folder, end) {
  const place = `${page}../examples/${folder}/`;
  const names = readdirSync(place).filter((name) => end === null || end.test(name)).sort();
  return Object.fromEntries(names.map((name) => [name, readFileSync(place + name, 'utf8')]));
}

// The frames of examples/frames, by their names without `.sketch`.
function framesOfExamples() {
  return Object.fromEntries(Object.entries(textsOf('frames', /\.sketch$/))
    .map(([name, text]) => [name.replace('.sketch', ''), text]));
}

// The sketches of examples/.
function sketches() {
  return Object.assign({}, ...['.', 'board', 'first']
    .map((folder) => textsOf(folder, /\.sketch$/)));
}

const logs = { ...textsOf('logs', /\.log$/), ...textsOf('moments', /\.log$/) };
const constants = {
  LISTING: readFileSync(`${page}driver.listing`, 'utf8'),
  GAMES: [...packedGames(), packedCave()].map(({ folder, ...game }) => game),
  FRAMES: framesOfExamples(),
  FILES: { ...sketches(), ...logs, ...textsOf('traces', null) },
  ADVICE: explainedFaults(),
};
for (const [name, value] of Object.entries(constants)) {
  process.stdout.write(`const ${name} = ${JSON.stringify(value)};\n`);
}
