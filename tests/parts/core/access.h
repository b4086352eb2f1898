/* A processor and a memory at random, for the benches of dvg_board and dvg_vectors: it writes,
 * reads and starts, often at the very byte that is fetched. And what the board owes it and the
 * core, which the bench of dvg_machine asks, too. */
#ifndef CORE_ACCESS_H
#define CORE_ACCESS_H

#include "bench.h"

static uint8_t ram[DVG_RAM_BYTES], rom[DVG_LARGE_ROM_BYTES];
static size_t rom_bytes;
static uint32_t access_in_100;

/* What was accessed, and what was served. */
static struct {
    uint64_t writes, reads, looks, at_its_place, rom_bytes;
} bus_counts;

/* What the board owes from the clock before. */
static struct { bool starting, pending, found; uint8_t q; } owed;

/* An address, often at an end of an area. */
static uint32_t any_address()
{
    static const uint32_t ends[] = {0x000, 0x3FF, 0x400, 0x7FF, 0x800, 0xBFF, 0xC00, 0xFFF};
    return once_in(3) ? ends[below(8)] : once_in(8) ? below(0x1000) : below(0x400);
}

/* Words of these opcodes, which lead elsewhere often, and seldom end the run. */
static uint32_t any_word(const uint32_t (&opcodes)[12])
{
    uint32_t opcode = once_in(40) ? 0xB : opcodes[below(12)];
    return opcode << 12 | (opcode == 0xC || opcode == 0xE ? any_address() : random_bits() & 0xFFF);
}

static void set_word(uint8_t *bytes, uint32_t word)
{
    bytes[0] = word & 0xFF;
    bytes[1] = word >> 8;
}

/* Whether the generator's map has the ROM at this word address. */
static bool in_rom(uint32_t at)
{
    return at >= 0xC00 - rom_bytes / 2 && at < 0xC00;
}

/* A new ROM, of either size. */
static void fill_rom(const uint32_t (&opcodes)[12])
{
    rom_bytes = once_in(2) ? DVG_ROM_BYTES : DVG_LARGE_ROM_BYTES;
    for (uint32_t word = 0; word < rom_bytes / 2; word++) {
        set_word(rom + 2 * word, any_word(opcodes));
    }
}

/* Chooses an access of the processor. It seldom starts a run while one is open. */
template <class Circuit>
static void choose_access(Circuit &circuit, bool halted, const uint32_t (&opcodes)[12])
{
    static const uint16_t others[] = {
        0x2002, 0x2002, 0x2002, 0x3000, 0x3000, 0x3001,
        0x2003, 0x3800, 0x4800, 0xA002, 0xB000, 0xC000};
    circuit.access = below(100) < access_in_100;
    circuit.write = below(2);
    circuit.d = once_in(2) ? any_word(opcodes) >> 8 : below(256);
    if (once_in(3)) {
        circuit.a = once_in(20) ? below(0x10000) : others[below(12)];
    } else {
        circuit.a = 0x4000
            + (once_in(2) ? 2 * circuit.at + circuit.high : random_bits()) % DVG_RAM_BYTES;
    }
    if (circuit.access && circuit.write && circuit.a == 0x3000 && !halted && !once_in(16)) {
        circuit.a = 0x2002;
    }
    if (access_in_100 == 0 && halted) {
        circuit.access = circuit.write = 1;             /* nobody else starts it */
        circuit.a = 0x3000;
    }
}

/* The byte of the ROM, where the core is answered with one. */
template <class Circuit> static void answer_rom(Circuit &circuit)
{
    circuit.rom = below(256);
    circuit.eval();
    if (circuit.takes && in_rom(circuit.at)) {
        circuit.rom = rom[2 * (circuit.at - (0xC00 - rom_bytes / 2)) + circuit.high];
        circuit.eval();
        bus_counts.rom_bytes++;
    }
}

/* Whether the core is answered, and what a read found. */
template <class Circuit> static void agree_on_bus(const Circuit &circuit)
{
    agree("takes", circuit.takes, owed.pending && !circuit.reset && !owed.starting);
    if (owed.found) {
        agree("what a read found", circuit.q, owed.q);
    }
}

/* What this clock leaves for the next one. `event` is whether an event moves the core in it. Where
 * nothing answers a read, `q` is what it is without one: the byte that the RAM reads for the
 * core. */
template <class Circuit>
static void perform(const Circuit &circuit, bool halted, bool hold, bool event)
{
    bool on_ram = circuit.access && circuit.a >= 0x4000 && circuit.a < 0x4800;
    bool looks = circuit.access && !circuit.write && circuit.a == 0x2002;
    uint8_t &byte = ram[circuit.a % DVG_RAM_BYTES];
    uint8_t own = ram[(2 * circuit.at + circuit.high) % DVG_RAM_BYTES];
    owed.found = circuit.access && !circuit.write;
    owed.q = looks ? 0x80 * !halted : on_ram ? byte : own;
    owed.starting = circuit.access && circuit.write && circuit.a == 0x3000 && !circuit.reset;
    owed.pending = !halted && !hold && !event && !on_ram;
    bus_counts.looks += looks;
    bus_counts.reads += on_ram && !circuit.write;
    if (on_ram && circuit.write) {
        bus_counts.at_its_place
            += circuit.takes && circuit.a % DVG_RAM_BYTES == 2u * circuit.at + circuit.high;
        bus_counts.writes++;
        byte = circuit.d;
    }
}

#endif
