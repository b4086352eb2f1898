/* What a game is dropped as: its program, its sockets, its vector ROM, its labels, a zip of these,
 * or the page that `make page` wrote; and the games that are built in. */
import { isText, kindOf } from './files.mjs';
import { bytesOfBase64, hex, unpackedBytes } from './hex.mjs';
import { NMI_VECTOR, PROGRAM_END, RESET_VECTOR, START, labelsOf } from './programs.mjs';
import { grouped } from './words.mjs';

const SOCKET_BYTES = 2048, NO_BYTE = 0xFF, SHAPES_END = 0x5800;
/* Asteroids and Asteroids Deluxe: how long a program is, and a vector ROM, and where the sockets of
 * both are, by their names. */
const ASTEROIDS = {
  program: 6144, shapes: 2048, sockets: { ef2: 0x6800, h2: 0x7000, j2: 0x7800, np3: 0x5000 },
};
const DELUXE = {
  program: 8192, shapes: 4096,
  sockets: { d1: 0x6000, ef1: 0x6800, h1: 0x7000, j1: 0x7800, r2: 0x4800, np2: 0x5000 },
};
const PROGRAM_BYTES = [ASTEROIDS.program, DELUXE.program];
const SHAPES_BYTES = [ASTEROIDS.shapes, DELUXE.shapes];
/* Where a program is first looked at: the driver's first bytes. */
const DRIVER_BEGINS = [0xA9, 0x00, 0x85, 0x10, 0xA9, 0x03, 0x85, 0x12];
/* The bytes of a word that `dvg lay --rom` fills a ROM with. */
const FILLER = [0x00, 0xD0];

/* Whether bytes that end at 7FFF have vectors of an NMI and a reset that lead into the program. */
function hasVectors(bytes) {
  const leads = (vector) => {
    const at = bytes.length - (PROGRAM_END - vector), to = bytes[at] + 256 * bytes[at + 1];
    return to >= START && to < NMI_VECTOR;
  };
  return leads(NMI_VECTOR) && leads(RESET_VECTOR);
}

const beginsDriver = (bytes) => DRIVER_BEGINS.every((byte, k) => bytes[k] === byte);
const isZip = (bytes) => bytes[0] === 0x50 && bytes[1] === 0x4B && bytes[2] === 3;

/* The game on a page that `make page` wrote; null of another file. */
function gameOfPage(bytes) {
  if (bytes[0] !== 0x3C) return null;
  const [, fields] = /^const GAME = (\{.*\});$/m.exec(new TextDecoder().decode(bytes)) ?? [];
  return fields === undefined ? null : gameOfFields(JSON.parse(fields));
}

/* Whether a file is a program, or one of its sockets, by its bytes; or a zip, or a page. */
export function isOfGame(bytes) {
  if (isZip(bytes) || gameOfPage(bytes) !== null) return true;
  if (PROGRAM_BYTES.includes(bytes.length)) return hasVectors(bytes);
  return bytes.length === SOCKET_BYTES && (hasVectors(bytes) || beginsDriver(bytes));
}

/* The socket of a board that a file names, or undefined. */
function namedSocket({ name }, { sockets }) {
  const names = Object.keys(sockets).join('|');
  const form = new RegExp(`(?:^|[^a-z0-9])f?(${names})(?:[^a-z0-9]|$)`);
  return sockets[form.exec(name.toLowerCase())?.[1]];
}

/* Whether a file is a socket of a program, by its name. */
export function isSocketOfProgram(file) {
  const places = [ASTEROIDS, DELUXE].map((board) => namedSocket(file, board));
  return file.bytes.length === SOCKET_BYTES && places.some((place) => place >= SHAPES_END);
}

/* What a file is by its name, and which lengths that may have; undefined of another name. */
function partNamed(file) {
  if ([ASTEROIDS, DELUXE].some((board) => namedSocket(file, board) !== undefined)) {
    return ['a socket', SOCKET_BYTES];
  }
  if (/\.program$/.test(file.name)) return ['a program', ...PROGRAM_BYTES];
  return file.name === 'rom' ? ['a vector ROM', ...SHAPES_BYTES] : undefined;
}

/* The first file that hasn't the length of what it is by its name, as a text; or ''. Where there is
 * nothing of a game beside it, it must be of no other use. */
export function lengthFault(files) {
  const isGame = files.some(({ bytes }) => isOfGame(bytes));
  for (const file of files) {
    const { name, bytes } = file, [part, least, most] = partNamed(file) ?? [];
    const isWrong = part !== undefined && ![least, most].includes(bytes.length);
    const isOther = bytes.length > 0 && isText(bytes);
    if (!isWrong || isOther || !(isGame || kindOf(bytes) === 'unknown')) continue;
    const deluxe = most === undefined ? '' : `, or ${grouped(most)} for Asteroids Deluxe`;
    return `${name} has ${grouped(bytes.length)} bytes: ${part} has ${grouped(least)}${deluxe}.`;
  }
  return '';
}

/* Of the files the first that has the length of a program and is none, as its vectors lead nowhere,
 * as a text; or ''. It is called a program, or has the length of none but one, or a vector ROM is
 * beside it. */
export function vectorsFault(files) {
  const hasRom = files.some(({ name, bytes }) => name === 'rom' || namedShapes({ name, bytes }));
  const isMeant = ({ name, bytes }) => /\.program$/.test(name) || bytes.length === DELUXE.program
    || (hasRom && bytes.length === ASTEROIDS.program);
  const file = files.find((one) => PROGRAM_BYTES.includes(one.bytes.length) && isMeant(one)
    && !isText(one.bytes) && !hasVectors(one.bytes));
  if (file === undefined) return '';
  const { name, bytes } = file;
  const [nmi, reset] = [NMI_VECTOR, RESET_VECTOR].map((vector) => {
    const at = bytes.length - (PROGRAM_END - vector);
    return hex(bytes[at] + 256 * bytes[at + 1], 4);
  });
  return `${name} has the length of a program, but its vectors lead nowhere: by its last six bytes `
    + `an NMI goes to ${nmi}, and a reset to ${reset}. Both must be of its own code.`;
}

/* Whether a file is of the shapes, by its socket's name or by its length. */
function namedShapes(file) {
  return [ASTEROIDS, DELUXE].some((board) => namedSocket(file, board) < SHAPES_END)
    || (file.bytes.length === SOCKET_BYTES && kindOf(file.bytes) === 'rom');
}

/* What is missing, as a text, where files are a vector ROM alone; or ''. */
export function romAlone(files) {
  const isRom = ({ name, bytes }) => !isOfGame(bytes) && (kindOf(bytes) === 'rom'
    || (name === 'rom' && SHAPES_BYTES.includes(bytes.length)));
  const isProgram = (file) => isOfGame(file.bytes) || isSocketOfProgram(file);
  const rom = files.find(isRom);
  if (rom === undefined || files.some(isProgram)) return '';
  return `${rom.name} is a vector ROM, the shapes of a game. Its program isn't among them: drop `
    + 'both at once.';
}

/* Which board files are for. */
function boardOf(files) {
  const isFor = (file) => file.bytes.length === DELUXE.program
    || (file.bytes.length === SOCKET_BYTES && namedSocket(file, DELUXE) !== undefined);
  return files.some(isFor) ? DELUXE : ASTEROIDS;
}

/* Where a file of 2,048 bytes is: by its name, or by its bytes. */
function placeOf(file, board) {
  const socket = namedSocket(file, board);
  if (socket !== undefined) return socket;
  if (beginsDriver(file.bytes)) return START;
  return hasVectors(file.bytes) ? PROGRAM_END - SOCKET_BYTES : SHAPES_END - SOCKET_BYTES;
}

/* A vector ROM of so many bytes that begins with these; each other word is a return. */
function vectorRom(bytes, length) {
  return Uint8Array.from({ length }, (_, k) => bytes[k] ?? FILLER[k % 2]);
}

/* The sockets of a program that are missing, as a text. */
function missingText(found, { sockets }) {
  const missing = Object.keys(sockets).filter((name) => (
    sockets[name] >= SHAPES_END && !found.has(sockets[name])));
  return missing.map((name) => name.toUpperCase()).join(', ');
}

/* The game that files are of, each with a name and bytes: its program, its vector ROM, whether it
 * has one, its labels, and the program's sockets that are missing, as a text. Null where there is
 * no program among them. */
export function gameOf(files) {
  const onPage = files.map(({ bytes }) => gameOfPage(bytes)).find((game) => game !== null);
  if (onPage !== undefined) return onPage;
  const board = boardOf(files), found = new Set();
  const program = new Uint8Array(board.program).fill(NO_BYTE);
  const shapes = vectorRom([], board.shapes);
  const put = (bytes, at) => {
    if (at < SHAPES_END) shapes.set(bytes, at - (SHAPES_END - board.shapes));
    else program.set(bytes, at - (PROGRAM_END - board.program));
    for (let part = 0; part < bytes.length; part += SOCKET_BYTES) found.add(at + part);
  };
  let labels = new Map();
  for (const file of files) {
    const { name, bytes } = file;
    if (/labels$/.test(name)) labels = labelsOf(new TextDecoder().decode(bytes));
    else if (bytes.length === SOCKET_BYTES) put(bytes, placeOf(file, board));
    else if (bytes.length === board.program) put(bytes, PROGRAM_END - board.program);
    else if (bytes.length === board.shapes) put(bytes, SHAPES_END - board.shapes);
  }
  if (![...found].some((at) => at >= SHAPES_END)) return null;
  const hasShapes = [...found].some((at) => at < SHAPES_END);
  return { program, shapes, labels, hasShapes, missing: missingText(found, board) };
}

/* The game that a link holds, of the fields that Play writes. */
export function gameOfFields({ program: bytes, shapes: rom, labels: text = '' }) {
  const [program, shapes] = [bytes, rom].map(bytesOfBase64);
  const isOf = (board) => program.length === board.program && shapes.length === board.shapes;
  if (![ASTEROIDS, DELUXE].some(isOf)) throw new Error('a game of other sizes');
  return { program, shapes, labels: labelsOf(text), hasShapes: true, missing: '' };
}

/* The files with the files of each zip among them in its place. */
export async function unzipped(files) {
  const all = await Promise.all(files.map((file) => (isZip(file.bytes) ? filesOfZip(file.bytes)
    : [file])));
  return all.flat();
}

/* The numbers of a zip: where a file of its list has how it is packed, how long it is so, how long
 * its name, what follows that, and where it stands; and where it stands, its names are as long. */
const ZIP_ENTRY = {
  SIGN: 0x02014B50, METHOD: 10, PACKED: 20, NAME: 28, EXTRA: 30, REMARK: 32, AT: 42, BYTES: 46,
};
const ZIP_HEADER = { NAME: 26, EXTRA: 28, BYTES: 30 };
const ZIP_END = { SIGN: 0x06054B50, COUNT: 10, AT: 16, BYTES: 22 };
const DEFLATED = 8;

async function filesOfZip(bytes) {
  const view = new DataView(bytes.buffer, bytes.byteOffset, bytes.length);
  let end = bytes.length - ZIP_END.BYTES;
  while (end > 0 && view.getUint32(end, true) !== ZIP_END.SIGN) end--;
  const files = [];
  let at = end < 0 ? bytes.length : view.getUint32(end + ZIP_END.AT, true);
  while (at + ZIP_ENTRY.BYTES <= bytes.length && view.getUint32(at, true) === ZIP_ENTRY.SIGN) {
    const size = (field) => view.getUint16(at + field, true);
    files.push(await fileOfZip(bytes, view, at));
    at += ZIP_ENTRY.BYTES + size(ZIP_ENTRY.NAME) + size(ZIP_ENTRY.EXTRA) + size(ZIP_ENTRY.REMARK);
  }
  return files;
}

/* The file of an entry, with its name without folders. */
async function fileOfZip(bytes, view, entry) {
  const names = bytes.subarray(entry + ZIP_ENTRY.BYTES,
    entry + ZIP_ENTRY.BYTES + view.getUint16(entry + ZIP_ENTRY.NAME, true));
  const header = view.getUint32(entry + ZIP_ENTRY.AT, true);
  const from = header + ZIP_HEADER.BYTES + view.getUint16(header + ZIP_HEADER.NAME, true)
    + view.getUint16(header + ZIP_HEADER.EXTRA, true);
  const packed = bytes.slice(from, from + view.getUint32(entry + ZIP_ENTRY.PACKED, true));
  const isDeflated = view.getUint16(entry + ZIP_ENTRY.METHOD, true) === DEFLATED;
  return { name: new TextDecoder().decode(names).split('/').at(-1),
    bytes: isDeflated ? await unpackedBytes(packed, 'deflate-raw') : packed };
}

/* A game that is built in, of its bytes behind the driver, its vectors, and the words of its vector
 * ROM that aren't filler; with the driver's bytes. */
export function builtGame({ bytes, vectors, shapes }, driver) {
  const program = new Uint8Array(ASTEROIDS.program).fill(NO_BYTE);
  program.set(driver);
  program.set(bytes, driver.length);
  program.set(vectors, program.length - vectors.length);
  const rom = vectorRom(shapes, ASTEROIDS.shapes);
  return { program, shapes: rom, labels: new Map(), hasShapes: true, missing: '' };
}
