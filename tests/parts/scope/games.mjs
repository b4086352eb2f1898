// Prints pictures of a game on the page's board, as `dvg play` does; its buttons are pressed as
// buttons.txt says.
//
//     node games.mjs FOLDER SECONDS EVERY     of a folder of examples/, one of so many pictures
import { readFileSync } from 'node:fs';
import { packedCave, packedGames } from '../../../page/games.mjs';
import { Arcade, HERTZ } from '../../../page/src/arcade.mjs';
import { Engine } from '../../../page/src/engine.mjs';
import { builtGame } from '../../../page/src/eproms.mjs';
import { linesOfListing } from '../../../page/src/twin.mjs';

const [folder, seconds, every] = process.argv.slice(2);
const top = new URL('../../..', import.meta.url).pathname;
const BUTTONS = { coin_left: 'coin', start_1: 'start1', start_2: 'start2' };

function gameOf() {
  const driver = Uint8Array.from(linesOfListing(readFileSync(`${top}page/driver.listing`, 'utf8'))
    .flatMap(({ bytes }) => bytes));
  const games = [...packedGames(), { ...packedCave(), folder: 'cave' }];
  const packed = games.find((game) => game.folder === folder);
  const parts = ['program', 'bytes', 'vectors', 'shapes'].filter((name) => packed[name])
    .map((name) => [name, new Uint8Array(Buffer.from(packed[name], 'base64'))]);
  return builtGame(Object.fromEntries(parts), driver);
}

const { program, shapes } = gameOf();
const arcade = new Arcade(await Engine.of(readFileSync(`${top}page/dvg.wasm`)), program, shapes);
const presses = readFileSync(`${top}examples/${folder}/buttons.txt`, 'utf8').split('\n')
  .filter((line) => /^\d/.test(line)).map((line) => line.split(' '));
for (let number = 0; arcade.time < Number(seconds);) {
  while (presses.length > 0 && Number(presses[0][0]) <= arcade.time) {
    const [, button, way] = presses.shift();
    arcade.press(BUTTONS[button] ?? button, way === 'down');
  }
  arcade.run(HERTZ / 500);
  if (arcade.number === number) continue;
  number = arcade.number;
  if (number % every !== 0) continue;
  console.log(`picture ${number}`);
  for (const stroke of arcade.picture.strokes) console.log(stroke.slice(0, 5).join(' '));
}
