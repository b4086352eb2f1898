/* Links that hold the whole state: its fields as those of a query, in the link's fragment, which no
 * browser sends anywhere. A long one is deflated. */
import { base64Of, bytesOfBase64 } from './hex.mjs';

const MOST_CHARACTERS = 4000000;

/* Where the project's files are, as an address that ends in a slash. Without one, no link out is
 * shown. */
const PROJECT = '';
const PAPERS = { 'The project': '', 'What is proved': 'docs/THEOREM.md',
  'A game of your own': 'docs/GAME.md' };

/* The links out, each with its text and its address. */
export function linksOut(project = PROJECT) {
  if (project === '') return [];
  return Object.entries(PAPERS).map(([text, file]) => ({ text, address: project + file }));
}

/* The fields that a state may have. */
const FIELDS = ['a', 'at', 'b', 'beam', 'both', 'count', 'embed', 'first', 'game', 'how', 'labels',
  'lesson', 'mistake', 'plain', 'program', 'rom', 'scale', 'seed', 'shapes', 'strobes', 'trace',
  'wire'];

/* A state as it is taken; an error where a field of it is none, or a value that there isn't. */
function checked(state) {
  const strange = Object.keys(state).find((name) => !FIELDS.includes(name) && name !== 'opening');
  if (strange !== undefined) throw new Error(`“${strange.slice(0, 40)}” is nothing that it knows`);
  if (!/^[1248]?$/.test(state.beam ?? '')) {
    throw new Error(`no beam is ${state.beam} times as slow`);
  }
  return state;
}

/* The fragment of a state, as it stands. */
export function plainFragment(state) {
  const fields = Object.entries(state).filter(([, value]) => value !== '' && value !== undefined);
  return `#${new URLSearchParams(fields)}`;
}

/* The same, deflated. */
export async function fragmentOf(state) {
  const bytes = await through(new TextEncoder().encode(plainFragment(state).slice(1)),
    new CompressionStream('deflate-raw'));
  return `#z=${base64Of(bytes).replace(/\+/g, '-').replace(/\//g, '_').replace(/=+$/, '')}`;
}

/* The state of a fragment; an error where it is none. */
export async function stateOf(fragment) {
  const text = fragment.replace(/^#/, '');
  if (!text.startsWith('z=')) return checked(Object.fromEntries(new URLSearchParams(text)));
  const plain = await unpacked(text.slice(2).replace(/-/g, '+').replace(/_/g, '/'))
    .catch(() => { throw new Error('it was cut off, or changed'); });
  return checked(Object.fromEntries(new URLSearchParams(new TextDecoder().decode(plain))));
}

async function unpacked(text) {
  return through(bytesOfBase64(text), new DecompressionStream('deflate-raw'));
}

async function through(bytes, transform) {
  const reader = new Blob([bytes]).stream().pipeThrough(transform).getReader();
  const parts = [];
  let length = 0;
  for (let part; !(part = await reader.read()).done;) {
    parts.push(part.value);
    length += part.value.length;
    if (length > MOST_CHARACTERS) throw new Error('a link that is too long');
  }
  const whole = new Uint8Array(length);
  let at = 0;
  for (const part of parts) {
    whole.set(part, at);
    at += part.length;
  }
  return whole;
}
