/* What an access of the processor reaches on the board of Asteroids or of Asteroids Deluxe, by its
 * address: of a game that runs, and of a table of a bus. */

/* What stands where. A15 isn't decoded: so each place answers 8000 higher, too. */
export const AT = {
  BANKS: 0x200, RAM_END: 0x400, INPUTS: 0x2000, CLOCK: 0x2001, HALT: 0x2002, TEST: 0x2007,
  SWITCHES: 0x2800, SWITCHES_END: 0x2804, POKEY: 0x2C00, INPUTS_END: 0x3000, STROBE: 0x3000,
  OUTPUTS: 0x3200, WATCHDOG: 0x3400, WATCHDOG_END: 0x3600, VECTORS: 0x4000, VECTORS_END: 0x4800,
  SHAPES_END: 0x5800, RESET: 0x7FFC, END: 0x8000,
};

/* The parts that an access may reach. */
export const PART = {
  NONE: 0, RAM: 1, CLOCK: 2, HALT: 3, SWITCHES: 4, INPUT: 5, STROBE: 6, WATCHDOG: 7, OUTPUT: 8,
  VECTORS: 9, RESET: 10,
};

/* An address without A15. */
export const placeOf = (address) => address % AT.END;

/* What a write reaches. The strobe answers in all of 3000 to 31FF. */
export function partWritten(address) {
  const at = placeOf(address);
  if (at < AT.RAM_END) return PART.RAM;
  if (at >= AT.VECTORS) return at < AT.VECTORS_END ? PART.VECTORS : PART.NONE;
  if (at >= AT.STROBE && at < AT.OUTPUTS) return PART.STROBE;
  if (at >= AT.WATCHDOG && at < AT.WATCHDOG_END) return PART.WATCHDOG;
  return at >= AT.POKEY ? PART.OUTPUT : PART.NONE;
}

/* What a read reaches; nothing of memory but its reset vector is told apart. */
export function partRead(address) {
  const at = placeOf(address);
  if (at === AT.HALT) return PART.HALT;
  if (at === AT.CLOCK) return PART.CLOCK;
  if (at >= AT.SWITCHES && at < AT.SWITCHES_END) return PART.SWITCHES;
  if (at >= AT.INPUTS && at < AT.INPUTS_END) return PART.INPUT;
  return at === AT.RESET ? PART.RESET : PART.NONE;
}
