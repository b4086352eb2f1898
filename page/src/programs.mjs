/* A program as its bytes and its labels, and its instructions as they are written. */
import { hex } from './hex.mjs';
import { OPCODES } from './opcodes.mjs';

/* Where a program stands, and the driver in it; Asteroids Deluxe has ROM below that, too. */
export const START = 0x6800, DRIVER_END = 0x6A87, PROGRAM_END = 0x8000;
export const NMI_VECTOR = 0x7FFA, RESET_VECTOR = 0x7FFC;
const LOW = 0x6000;

export const isDriver = (at) => at >= START && at < DRIVER_END;

/* The labels of a program, of the lines that the linker writes: a Map of names by addresses. */
export function labelsOf(text) {
  const labels = new Map();
  for (const [, word, label] of text.matchAll(/^al (\w+) \.(\S+)$/gm)) {
    const at = parseInt(word, 16);
    if (at < LOW || at >= PROGRAM_END || isDriver(at) || /^(__|dvg_)|-/.test(label)) continue;
    if (!labels.has(at)) labels.set(at, label);
  }
  return labels;
}

/* How an instruction without an opcode is read. */
const NO_OPCODE = { name: 'none', mode: '', size: 1 };

/* An instruction of a program; its name is 'none' where there is no opcode. */
class Instruction {
  constructor(program, at) {
    this.opcode = program.byte(at);
    Object.assign(this, OPCODES.get(this.opcode) ?? NO_OPCODE);
    const low = program.byte(at + 1) ?? 0, by = low - 2 * (low & 0x80);
    this.next = at + this.size;
    this.operand = this.size === 3 ? program.word(at + 1) : low;
    if (this.mode === 'rel') this.operand = (this.next + by) & 0xFFFF;
  }

  toString() {
    const isWide = this.size === 3 || this.mode === 'rel';
    const where = `$${hex(this.operand, isWide ? 4 : 2)}`;
    const operand = this.mode.replace('#', '#zp').replace(/zp|abs|rel/, () => where);
    return `${this.name} ${operand}`.trim();
  }
}

export class Program {
  /* `bytes` end at 7FFF. */
  constructor(bytes, labels = new Map()) {
    this.bytes = bytes;
    this.low = PROGRAM_END - bytes.length;
    this.labels = labels;
  }

  /* Whether it is for Asteroids Deluxe, which has more ROM. */
  get isDeluxe() { return this.low < START; }

  /* The byte at an address, or undefined where none is. */
  byte(at) { return this.bytes[at - this.low]; }

  word(at) { return (this.byte(at) ?? 0) + 256 * (this.byte(at + 1) ?? 0); }

  at(address) { return new Instruction(this, address); }

  /* An address as the label before it, and how far it is from there. */
  where(at) {
    const inside = at >= this.low && at < PROGRAM_END;
    const before = inside ? [...this.labels.keys()].filter((one) => one <= at) : [];
    if (before.length === 0) return hex(at, 4);
    const best = Math.max(...before), far = at > best ? `+${at - best}` : '';
    return `${hex(at, 4)} (${this.labels.get(best)}${far})`;
  }
}

/* Whether a program has the driver's bytes in their place. */
export const hasDriver = (program, driver) => driver.every((byte, k) => (
  byte === program.byte(START + k)));

/* Opcodes: a store of A, a call, and the jumps. */
export const STA = 0x8D;
const JSR = 0x20, JMP = 0x4C, ENDS = new Set(['jmp', 'rts', 'rti', 'none']);

/* Where instructions call an address: of those that are reached from the vectors, the driver's left
 * out. */
export function callsOf(program, to) {
  const found = [], left = [NMI_VECTOR, RESET_VECTOR].map((at) => program.word(at));
  const seen = new Set();
  while (left.length > 0) {
    const at = left.pop(), one = program.at(at);
    if (seen.has(at) || isDriver(at)) continue;
    seen.add(at);
    if (one.opcode === JSR && one.operand === to) found.push(at);
    if (one.opcode === JSR || one.opcode === JMP || one.mode === 'rel') left.push(one.operand);
    if (!ENDS.has(one.name)) left.push(one.next);
  }
  return found.sort((a, b) => a - b);
}
