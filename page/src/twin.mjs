/* The board's driver in 6502 code, run beside the board's own: for each of its events the routine
 * is called that a program would call. Tested, not proved. */
import { hex } from './hex.mjs';
import { Processor } from './processor.mjs';

/* Where the driver finds the hardware, where its table lies here, and where routines return to. */
const PLACE = {
  FLAG: 0x2002, STROBE: 0x3000, RAM: 0x4000, RAM_END: 0x4800, TABLE: 0x8000, RETURN: 0xFFFF,
};
/* A routine takes at most so many instructions. */
const MOST_STEPS = 1000;
/* After so many events a copy of its state is kept. */
const COPY_EVERY = 1024;

/* The lines of a listing: where each stands, its bytes, and its source. */
export function linesOfListing(text) {
  return text.trimEnd().split('\n').map((line) => {
    const [code, source] = line.split('\t'), [at, ...bytes] = code.split(' ');
    return { at: parseInt(at, 16), bytes: bytes.map((byte) => parseInt(byte, 16)), source };
  });
}

/* The words of a frame as bytes, after their number, of a table as `dvg lay --table` writes it. */
export function bytesOfTable(text) {
  const [, count] = /\.word ([0-9]+)$/m.exec(text) ?? [];
  if (count === undefined) return null;
  const words = [...text.matchAll(/\$([0-9A-F]{4})/g)].map(([, word]) => parseInt(word, 16));
  return [Number(count), ...words].flatMap((word) => [word & 0xFF, word >> 8]);
}

export class Twin {
  /* `lines` are those of the listing. `tableOf` gives the table of a draft as bytes, or null. */
  constructor(lines, tableOf) {
    this.tableOf = tableOf;
    this.memory = new Uint8Array(0x10000);
    for (const { at, bytes } of lines) this.memory.set(bytes, at);
    this.routines = new Map(lines.map(({ at, source }) => [source.split(':')[0], at]));
    this.processor = new Processor(this);
    this.call('dvg_reset');
    this.begin();
  }

  begin() {
    this.at = 0;
    this.differs = null;
    this.copies = [this.copy()];
  }

  copy() {
    const { a, x, y, s, pc, n, z, c, v } = this.processor;
    return { memory: this.memory.slice(), registers: { a, x, y, s, pc, n, z, c, v } };
  }

  read(address) {
    if (address === PLACE.FLAG) {
      this.act(this.running ? 'read running' : 'read halted');
      return this.running ? 0x80 : 0;
    }
    if (address >= PLACE.RAM && address < PLACE.RAM_END) this.act('peek');
    return this.memory[address];
  }

  write(address, byte) {
    this.memory[address] = byte;
    if (address === PLACE.STROBE) this.act('sent');
    else if (address >= PLACE.RAM && address < PLACE.RAM_END) {
      this.act(`wrote ${hex(address - PLACE.RAM, 3)} ${hex(byte, 2)}`);
    }
  }

  /* An access of the hardware: what it did, and which instruction did it. */
  act(did) {
    this.did.push(did);
    this.actor = this.ran.at(-1);
  }

  /* Calls a routine; `ran` has then the places of its instructions, in their order. */
  call(name) {
    Object.assign(this, { ran: [], did: [], actor: null });
    const { processor } = this;
    processor.push((PLACE.RETURN - 1) >> 8);
    processor.push((PLACE.RETURN - 1) & 0xFF);
    processor.pc = this.routines.get(name);
    while (processor.pc !== PLACE.RETURN && this.ran.length < MOST_STEPS) {
      this.ran.push(processor.pc);
      processor.step();
    }
    return this.did.join(', ') || (name === 'dvg_tick' ? 'idle' : '');
  }

  /* Lets an event of a board happen here, too: whether this driver did the same. */
  happen({ event, text }) {
    Object.assign(this, { ran: [], actor: null });
    this.running = text === 'read running';
    if (event.name === 'tick') return this.call('dvg_tick') === text;
    if (event.name === 'offer') return this.offer(event.draft, text);
    if (event.name === 'redraw') {
      this.call('dvg_redraw');
      return (this.processor.c === 0) === (text === 'asked');
    }
    if (event.name === 'resetall') this.memory.fill(event.byte, PLACE.RAM, PLACE.RAM_END);
    if (event.name === 'resetcpu' || event.name === 'resetall') this.call('dvg_reset');
    return true;
  }

  /* A frame that is refused has no table, so nothing is called. */
  offer(draft, text) {
    if (text.startsWith('refused')) return true;
    if (text === 'offered') {
      const table = this.tableOf(draft);
      if (table === null) return false;
      this.memory.set(table, PLACE.TABLE);
    }
    Object.assign(this.processor, { a: PLACE.TABLE & 0xFF, x: PLACE.TABLE >> 8 });
    this.call('dvg_offer');
    return (this.processor.c === 0) === (text === 'offered');
  }

  /* Comes to the moment after so many events of a board. From the first event on in which this
   * driver did something else, `differs` tells that event. */
  follow(board, at) {
    if (at < this.at) this.goBack(Math.floor(at / COPY_EVERY));
    while (this.at < at) {
      const good = this.happen(board.entryAt(this.at));
      if (!good) this.differs ??= this.at;
      this.at++;
      if (this.at % COPY_EVERY === 0) this.copies[this.at / COPY_EVERY] = this.copy();
    }
  }

  /* Goes back to a copy, one event before where the event that is wanted stays to be run. */
  goBack(number) {
    const { memory, registers } = this.copies[number];
    this.memory.set(memory);
    Object.assign(this.processor, registers);
    this.copies.length = number + 1;
    this.at = number * COPY_EVERY;
    if (this.differs !== null && this.differs >= this.at) this.differs = null;
    Object.assign(this, { ran: [], actor: null });
  }
}
