// The games of examples/ that the page runs: their bytes, out of the laws of which it is proved
// that no run of them tears a picture. tests/games and tests/page compare them with what `make`
// makes there.
import { readFileSync } from 'node:fs';

const crates = new URL('../crates/', import.meta.url).pathname;

// The games by the folders of examples/: what the page calls them, and the name of their laws.
const GAMES = {
  asteroid_game: ['Rocks', 'Asteroid'], bat: ['Bat and ball', 'Bat'],
  board: ['It plays itself', 'Rocks'], first: ['A first program', 'First'],
  test_rom: ['The test ROM', 'TestRom'],
};
const FILLER = [0x00, 0xD0];

// The bytes of a list of a definition.
function bytesOf(text, name) {
  const from = text.indexOf(`\n${name} =`), list = text.slice(from, text.indexOf('\n\n', from));
  return Buffer.from([...list.matchAll(/0x(\w\w)\b/g)].map(([, byte]) => parseInt(byte, 16)));
}

// A vector ROM without the filler at its end.
function unfilled(rom) {
  let size = rom.length;
  while (size > 0 && rom[size - 2] === FILLER[0] && rom[size - 1] === FILLER[1]) size -= 2;
  return rom.subarray(0, size);
}

// The game of the first view, examples/cave, whose bytes page/cave wrote: no law speaks of it, but
// `make proof` does. It has labels, too.
export function packedCave() {
  const text = readFileSync(new URL('cave.json', import.meta.url), 'utf8');
  return { folder: 'cave', name: 'Cave', ...JSON.parse(text) };
}

// Each game: its folder, its name on the page, its bytes behind the driver, its vectors, and its
// vector ROM without filler, all in base64.
export function packedGames() {
  return Object.entries(GAMES).map(([folder, [name, law]]) => {
    const text = readFileSync(`${crates}dvg_game_rules/specs/${law}.antt`, 'utf8');
    const content = readFileSync(`${crates}dvg_closed_board/specs/${law}Content.antt`, 'utf8');
    const [bytes, vectors, shapes] = [bytesOf(text, 'bytes'), bytesOf(text, 'vectors'),
      unfilled(bytesOf(content, 'shapes'))].map((data) => data.toString('base64'));
    return { folder, name, bytes, vectors, shapes };
  });
}
