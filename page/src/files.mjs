/* Which kind of file was dropped on the page. */

import { isAccess } from './buses.mjs';

const DUMP_BYTES = [4096, 6144];
const ROM_BYTES = 2048;
/* Word zero of a dump is a jump: its high byte begins with this digit. */
const JUMP = 0xE;
/* A list of at most so many bytes may be a file of words. */
const MOST_WORDS_BYTES = 2046;
/* A table of a bus has an access within so many lines. */
const MOST_HEADER = 20;

/* Lines that make judge writes of a run, and those of a driver alone. */
const JUDGED = /^(picture|room|reset|banks|watchdog|amid|ended) [0-9.]+( |$)/;
const DRIVEN = /^(sent|peek [0-9A-F]+ [0-9A-F]+|read (halted|running))$/;
/* So many bytes of vector RAM make judge keeps of each picture. */
const PICTURE_BYTES = 2048;
/* A line that `dvg list` prints. */
const LISTED = /^[0-9A-F]{3} (LABS|VCTR|SVEC|JSRL|RTSL|JMPL|HALT)\b/;
const ENTRY = /^(started$|low |fetched |halted$|reset$|wrote )/;
const EVENT = /^(offer|redraw|tick|strobe|fetch|resetgen|resetcpu|resetall)( |$)/;
const OUTLINE =
  /^([A-Za-z_]\w*:)?\s*(intensity=\d+\s+)?@?-?\d+(\.\d+)?,-?\d+(\.\d+)?(\s|$)/;
const OPERATION_OR_NAME =
  /^(\.(frame|rom)\b|[A-Za-z_]\w*:|(labs|vctr|svec|call|jump|callrom|jumprom|return|halt)( |$))/i;

/* Whether all bytes are those of a text. */
export function isText(bytes) {
  return bytes.every((byte) => byte > 0 && byte <= 0x7E);
}

/* Whether bytes are a dump: by their name, or as their word zero is a jump. */
function isDump(bytes, name) {
  return DUMP_BYTES.includes(bytes.length)
    && (/\.(dump|bin)$/.test(name) || bytes[1] >> 4 === JUMP);
}

/* A dump or a ROM by its length, a source by its name, and another text by its first line that says
 * anything. A file of 4,096 bytes is a dump, as the larger ROM has its own button; but nothing is
 * guessed as one that could be a program: that is `unsure`. */
export function kindOf(bytes, name = '') {
  if (!isText(bytes)) {
    if (DUMP_BYTES.includes(bytes.length)) return isDump(bytes, name) ? 'dump' : 'unsure';
    if (bytes.length === ROM_BYTES) return 'rom';
    const isWords = bytes.length <= MOST_WORDS_BYTES && bytes.length % 2 === 0;
    if (isWords && name.endsWith('.words')) return 'words';
    return bytes.length % PICTURE_BYTES === 0 ? 'pictures' : 'unknown';
  }
  if (/\.s$/i.test(name)) return 'source';
  const lines = new TextDecoder().decode(bytes).split('\n').map((line) => line.trim());
  const unpassed = lines.filter((line) => line !== '' && !/^(#|map |rom )/.test(line));
  const first = unpassed[0] ?? '';
  if (lines.slice(0, MOST_HEADER).some(isAccess)) return 'bus';
  if (lines.some((line) => JUDGED.test(line))) return 'judged';
  if (lines.some((line) => DRIVEN.test(line))) return 'driven';
  if (ENTRY.test(first)) return 'log';
  if (LISTED.test(first)) return 'list';
  if (EVENT.test(first)) return 'trace';
  if (lines.some((line) => OUTLINE.test(line))) return 'outline';
  if (OPERATION_OR_NAME.test(first)) return 'draft';
  return lines.some((line) => /^(map|rom) /.test(line)) && first === '' ? 'romtext' : 'unknown';
}

/* The bytes of the first lines of a text. */
export function firstLines(bytes, count) {
  let at = 0;
  for (let line = 0; line < count; line++) at = bytes.indexOf(10, at) + 1;
  return bytes.subarray(0, at);
}
