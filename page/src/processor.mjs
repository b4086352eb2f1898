/* The NMOS 6502: its documented instructions, and their cycles. A bus is told each byte that it
 * reads and writes, but for those that an indexed address reads at a wrong page. Tested, not
 * proved. */
import { hex } from './hex.mjs';
import { OPCODES } from './opcodes.mjs';

/* Where the operand stands. */
const PLACES = {
  '#': (cpu) => cpu.skip(),
  zp: (cpu) => cpu.take(),
  'zp,x': (cpu) => (cpu.take() + cpu.x) & 0xFF,
  'zp,y': (cpu) => (cpu.take() + cpu.y) & 0xFF,
  abs: (cpu) => cpu.takeWord(),
  'abs,x': (cpu) => cpu.indexed(cpu.takeWord(), cpu.x),
  'abs,y': (cpu) => cpu.indexed(cpu.takeWord(), cpu.y),
  '(zp,x)': (cpu) => cpu.pointer((cpu.take() + cpu.x) & 0xFF),
  '(zp),y': (cpu) => cpu.indexed(cpu.pointer(cpu.take()), cpu.y),
};

/* What is done with a byte that is read. */
const READS = {
  adc: (cpu, byte) => cpu.add(byte),
  sbc: (cpu, byte) => cpu.subtract(byte),
  and: (cpu, byte) => { cpu.a = cpu.flag(cpu.a & byte); },
  ora: (cpu, byte) => { cpu.a = cpu.flag(cpu.a | byte); },
  eor: (cpu, byte) => { cpu.a = cpu.flag(cpu.a ^ byte); },
  lda: (cpu, byte) => { cpu.a = cpu.flag(byte); },
  ldx: (cpu, byte) => { cpu.x = cpu.flag(byte); },
  ldy: (cpu, byte) => { cpu.y = cpu.flag(byte); },
  cmp: (cpu, byte) => cpu.compare(cpu.a, byte),
  cpx: (cpu, byte) => cpu.compare(cpu.x, byte),
  cpy: (cpu, byte) => cpu.compare(cpu.y, byte),
  bit: (cpu, byte) => cpu.test(byte),
};

/* The register that is written; and from which one into which another is moved. */
const STORES = { sta: 'a', stx: 'x', sty: 'y' };
const MOVES = { tax: 'ax', tay: 'ay', txa: 'xa', tya: 'ya' };

/* What a byte is changed to. It stands in A, where there is no operand. */
const CHANGES = {
  asl: (cpu, byte) => cpu.shiftLeft(byte, 0),
  rol: (cpu, byte) => cpu.shiftLeft(byte, cpu.c),
  lsr: (cpu, byte) => cpu.shiftRight(byte, 0),
  ror: (cpu, byte) => cpu.shiftRight(byte, cpu.c),
  inc: (cpu, byte) => cpu.flag((byte + 1) & 0xFF),
  dec: (cpu, byte) => cpu.flag((byte - 1) & 0xFF),
};

/* The flag that is looked at, and what it is where the branch is taken. */
const BRANCHES = {
  bpl: ['n', 0], bmi: ['n', 1], bvc: ['v', 0], bvs: ['v', 1], bcc: ['c', 0], bcs: ['c', 1],
  bne: ['z', 0], beq: ['z', 1],
};

/* All other instructions. */
const OTHERS = {
  clc: (cpu) => { cpu.c = 0; },
  sec: (cpu) => { cpu.c = 1; },
  cli: (cpu) => { cpu.i = 0; },
  sei: (cpu) => { cpu.i = 1; },
  clv: (cpu) => { cpu.v = 0; },
  cld: (cpu) => { cpu.d = 0; },
  sed: (cpu) => { cpu.d = 1; },
  nop: () => {},
  inx: (cpu) => { cpu.x = cpu.flag((cpu.x + 1) & 0xFF); },
  iny: (cpu) => { cpu.y = cpu.flag((cpu.y + 1) & 0xFF); },
  dex: (cpu) => { cpu.x = cpu.flag((cpu.x - 1) & 0xFF); },
  dey: (cpu) => { cpu.y = cpu.flag((cpu.y - 1) & 0xFF); },
  tsx: (cpu) => { cpu.x = cpu.flag(cpu.s); },
  txs: (cpu) => { cpu.s = cpu.x; },
  pha: (cpu) => cpu.push(cpu.a),
  php: (cpu) => cpu.push(cpu.status | BREAK),
  pla: (cpu) => { cpu.a = cpu.flag(cpu.pull()); },
  plp: (cpu) => { cpu.status = cpu.pull(); },
  jsr: (cpu) => cpu.call(),
  rts: (cpu) => { cpu.pc = (cpu.pullWord() + 1) & 0xFFFF; },
  rti: (cpu) => {
    cpu.status = cpu.pull();
    cpu.pc = cpu.pullWord();
  },
  jmp: (cpu) => { cpu.pc = cpu.takeWord(); },
  brk: (cpu) => {
    cpu.skip();
    cpu.interrupt(IRQ_AT, BREAK);
  },
};

const BREAK = 0x10, UNUSED = 0x20, NMI_AT = 0xFFFA, RESET_AT = 0xFFFC, IRQ_AT = 0xFFFE;

/* How many cycles an instruction takes that reads its operand: another page takes one more. */
const CYCLES = {
  '': 2, '#': 2, rel: 2, zp: 3, 'zp,x': 4, 'zp,y': 4, abs: 4, 'abs,x': 4, 'abs,y': 4,
  '(zp,x)': 6, '(zp),y': 5,
};
const OTHER_CYCLES = {
  pha: 3, php: 3, pla: 4, plp: 4, jsr: 6, rts: 6, rti: 6, jmp: 3, brk: 0,
};
/* So many take an NMI and a BRK. */
const NMI_CYCLES = 7;

function cyclesOf(name, mode) {
  if (mode === '(abs)') return 5;
  if (name in OTHER_CYCLES) return OTHER_CYCLES[name];
  const crosses = /abs,|\),/.test(mode) ? 1 : 0;
  if (name in STORES) return CYCLES[mode] + crosses;
  return name in CHANGES && mode !== '' ? CYCLES[mode] + crosses + 2 : CYCLES[mode];
}

/* What an instruction does on a processor, as a function of that. */
function actionOf({ name, mode }) {
  const place = PLACES[mode];
  if (name in READS) {
    const use = READS[name];
    return (cpu) => {
      use(cpu, cpu.bus.read(place(cpu)));
      cpu.cycles += cpu.crossed;
    };
  }
  if (name in STORES) {
    const register = STORES[name];
    return (cpu) => cpu.bus.write(place(cpu), cpu[register]);
  }
  if (name in CHANGES) return actionOfChange(CHANGES[name], place);
  if (name in BRANCHES) {
    const [flag, taken] = BRANCHES[name];
    return (cpu) => cpu.branch(cpu[flag] === taken);
  }
  if (name in MOVES) {
    const [from, to] = MOVES[name];
    return (cpu) => { cpu[to] = cpu.flag(cpu[from]); };
  }
  return mode === '(abs)' ? (cpu) => cpu.jumpByTable() : OTHERS[name];
}

/* A byte that is changed is written twice: as it was, and as it is then. */
function actionOfChange(change, place) {
  if (place === undefined) return (cpu) => { cpu.a = change(cpu, cpu.a); };
  return (cpu) => {
    const at = place(cpu), byte = cpu.bus.read(at);
    cpu.bus.write(at, byte);
    cpu.bus.write(at, change(cpu, byte));
  };
}

/* By its opcode what an instruction does, and its cycles; nothing where it isn't known. */
const ACTIONS = [], ACTION_CYCLES = [];
for (const [code, one] of OPCODES) {
  ACTIONS[code] = actionOf(one);
  ACTION_CYCLES[code] = cyclesOf(one.name, one.mode);
}

export class Processor {
  /* `bus` has read(address), and write(address, byte). */
  constructor(bus) {
    this.bus = bus;
    Object.assign(this, { a: 0, x: 0, y: 0, s: 0xFF, pc: 0, n: 0, z: 0, c: 0, v: 0, d: 0, i: 0 });
    Object.assign(this, { cycles: 0, crossed: 0 });
  }

  /* One instruction; throws where it doesn't know it, and stays there. */
  step() {
    const at = this.pc, opcode = this.take(), action = ACTIONS[opcode];
    if (action === undefined) {
      this.pc = at;
      throw new Error(`no instruction that the page knows at ${hex(at, 4)}: ${hex(opcode, 2)}`);
    }
    this.crossed = 0;
    this.cycles += ACTION_CYCLES[opcode];
    action(this);
  }

  reset() {
    this.i = 1;
    this.pc = this.word(RESET_AT);
  }

  /* An NMI comes between two instructions; or another vector is taken, with more flags pushed. */
  interrupt(vector = NMI_AT, flags = 0) {
    this.pushWord(this.pc);
    this.push(this.status | flags);
    this.i = 1;
    this.pc = this.word(vector);
    this.cycles += NMI_CYCLES;
  }

  /* The flags as a byte, as an NMI pushes it. */
  get status() {
    const { n, v, d, i, z, c } = this;
    return n << 7 | v << 6 | UNUSED | d << 3 | i << 2 | z << 1 | c;
  }

  set status(byte) {
    const bit = (k) => byte >> k & 1;
    Object.assign(this, { n: bit(7), v: bit(6), d: bit(3), i: bit(2), z: bit(1), c: bit(0) });
  }

  /* The place of the next byte of the program, which is passed. */
  skip() {
    const at = this.pc;
    this.pc = (at + 1) & 0xFFFF;
    return at;
  }

  take() { return this.bus.read(this.skip()); }

  takeWord() { return this.take() | this.take() << 8; }

  word(at) { return this.bus.read(at) | this.bus.read((at + 1) & 0xFFFF) << 8; }

  /* A pointer in the zero page, in which its second byte stands, too. */
  pointer(at) { return this.bus.read(at) | this.bus.read((at + 1) & 0xFF) << 8; }

  indexed(base, index) {
    const at = (base + index) & 0xFFFF;
    this.crossed = (base ^ at) >> 8 === 0 ? 0 : 1;
    return at;
  }

  flag(byte) {
    this.z = byte === 0 ? 1 : 0;
    this.n = byte >> 7;
    return byte;
  }

  push(byte) {
    this.bus.write(0x100 | this.s, byte);
    this.s = (this.s - 1) & 0xFF;
  }

  pull() {
    this.s = (this.s + 1) & 0xFF;
    return this.bus.read(0x100 | this.s);
  }

  pushWord(word) {
    this.push(word >> 8);
    this.push(word & 0xFF);
  }

  pullWord() { return this.pull() | this.pull() << 8; }

  call() {
    const to = this.takeWord();
    this.pushWord((this.pc - 1) & 0xFFFF);
    this.pc = to;
  }

  /* A pointer's second byte is read on the page of its first. */
  jumpByTable() {
    const at = this.takeWord(), next = (at & 0xFF00) | ((at + 1) & 0xFF);
    this.pc = this.bus.read(at) | this.bus.read(next) << 8;
  }

  branch(isTaken) {
    const by = this.take();
    if (!isTaken) return;
    const to = (this.pc + by - 2 * (by & 0x80)) & 0xFFFF;
    this.cycles += (to ^ this.pc) >> 8 === 0 ? 1 : 2;
    this.pc = to;
  }

  test(byte) {
    this.z = (this.a & byte) === 0 ? 1 : 0;
    this.n = byte >> 7;
    this.v = byte >> 6 & 1;
  }

  compare(value, byte) {
    this.c = value >= byte ? 1 : 0;
    this.flag((value - byte) & 0xFF);
  }

  add(byte) {
    if (this.d === 0) this.addBinary(byte);
    else this.addDigits(byte);
  }

  /* N and V are those of the sum before its high digit is mended, and Z that of the binary one. */
  addDigits(byte) {
    const { a, c } = this, low = (a & 0xF) + (byte & 0xF) + c;
    const sum = (a & 0xF0) + (byte & 0xF0) + (low > 9 ? ((low + 6) & 0xF) + 0x10 : low);
    this.n = sum >> 7 & 1;
    this.v = (~(a ^ byte) & (a ^ sum)) >> 7 & 1;
    this.z = ((a + byte + c) & 0xFF) === 0 ? 1 : 0;
    this.c = sum > 0x9F ? 1 : 0;
    this.a = (this.c ? sum + 0x60 : sum) & 0xFF;
  }

  /* In decimal mode the digits are mended, and the flags stay those of the binary difference. */
  subtract(byte) {
    const { a, c, d } = this, low = (a & 0xF) - (byte & 0xF) + c - 1;
    this.addBinary(byte ^ 0xFF);
    if (d === 0) return;
    const high = (a & 0xF0) - (byte & 0xF0) + (low < 0 ? ((low - 6) & 0xF) - 0x10 : low);
    this.a = (high < 0 ? high - 0x60 : high) & 0xFF;
  }

  addBinary(byte) {
    const sum = this.a + byte + this.c;
    this.v = (~(this.a ^ byte) & (this.a ^ sum)) >> 7 & 1;
    this.c = sum >> 8;
    this.a = this.flag(sum & 0xFF);
  }

  shiftLeft(byte, low) {
    this.c = byte >> 7;
    return this.flag((byte << 1 | low) & 0xFF);
  }

  shiftRight(byte, high) {
    this.c = byte & 1;
    return this.flag(byte >> 1 | high << 7);
  }
}
