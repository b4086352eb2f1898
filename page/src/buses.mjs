/* A table of what a processor did on its bus, as a logic analyser saves it, made into a log as `dvg
 * torn` reads it, by what the board makes of each address. examples/tools/bus.awk does the same. */
import { hex } from './hex.mjs';
import { AT, PART, partRead, partWritten, placeOf } from './places.mjs';

/* What stands between two columns, a number, and what a row begins with: R or W, and G of what a
 * generator fetched, which is passed over here. */
const MARK = /[ "]*[,;\t][ "]*/, NUMBER = /^(?:0x|\$)?([0-9a-f]+)$/i, KIND = /^[rwg][a-z]*$/i;
const MOST_ADDRESS = 0xFFFF;

/* The access that a row tells: its kind, and then an address and a byte in hexadecimal; or null. */
function accessOf(row) {
  const columns = row.replace(/^[ "]+|[ "\r]+$/g, '').split(MARK);
  for (let k = 0; k + 2 < columns.length; k++) {
    const [address, value] = [1, 2].map((far) => NUMBER.exec(columns[k + far])?.[1]);
    if (!KIND.test(columns[k]) || address === undefined || value === undefined) continue;
    return { kind: columns[k][0].toUpperCase(), address: parseInt(address, 16),
      value: parseInt(value, 16) & 0xFF };
  }
  return null;
}

/* Whether a line is of such a table. */
export function isAccess(line) {
  return accessOf(line) !== null;
}

/* The log, how many rows after the first access weren't understood, and which line is the first of
 * these. A run begins with a write of the strobe, and is taken to fetch word zero at once. It ends
 * where the processor reads the flag of the HALT wire and bit 7 is clear, or its reset vector. */
export function logOfBus(text) {
  const lines = [], word = [0, 0];
  let isOpen = false, isBegun = false, unread = 0, firstUnread = 0;
  const end = (line) => {
    if (isOpen) lines.push(line);
    isOpen = false;
  };
  const write = (address, value) => {
    const part = partWritten(address), place = placeOf(address) - AT.VECTORS;
    if (part === PART.STROBE) {
      lines.push('started', `fetched 000 ${hex(word[1], 2)}${hex(word[0], 2)}`);
      isOpen = true;
    } else if (part === PART.VECTORS) {
      if (place < 2) word[place] = value;
      lines.push(`wrote ${hex(place, 3)} ${hex(value, 2)}`);
    }
  };
  const read = (address, value) => {
    const part = partRead(address);
    if (part === PART.HALT && (value & 0x80) === 0) end('halted');
    else if (part === PART.RESET) end('reset');
  };
  text.split('\n').forEach((row, k) => {
    const access = accessOf(row), isUnderstood = access !== null && access.address <= MOST_ADDRESS;
    isBegun ||= isUnderstood;
    if (!isUnderstood && isBegun && row.trim() !== '' && unread++ === 0) firstUnread = k + 1;
    if (!isUnderstood) return;
    if (access.kind === 'W') write(access.address, access.value);
    else if (access.kind === 'R') read(access.address, access.value);
  });
  return { log: lines.map((line) => `${line}\n`).join(''), unread, firstUnread };
}
