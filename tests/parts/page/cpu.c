/* Steps of the 6502 of ../board/cpu.h from random states, for the page's 6502 beside it:
 *
 *     cpu TRIES SEED
 *
 * After each 10,000 tries it prints how many steps were done and a digest of all that they left:
 * registers, flags, cycles, and each byte written. games.mjs does the same steps. With
 * SIM65 the 6502 is that of ../board/sim65.c, and the steps are BRK and RTI alone: the other one
 * has no BRK. */
#include <inttypes.h>
#include <stdio.h>
#include <stdlib.h>
#ifdef SIM65
#include "../board/sim65.h"
#else
#include "../board/cpu.h"
#endif

enum { REPORT_EVERY = 10000 };

static uint8_t memory[0x10000];
static uint32_t digest, state;

static uint32_t drawn(void)
{
    state ^= state << 13;
    state ^= state >> 17;
    return state ^= state << 5;
}

static void mix(uint32_t value) { digest = digest * 31 + value; }

uint8_t bus_fetch(uint16_t at) { return memory[at]; }

uint8_t bus_read(uint16_t at, int dummy)
{
    (void)dummy;
    return memory[at];
}

void bus_write(uint16_t at, uint8_t value)
{
    memory[at] = value;
    mix(at);
    mix(value);
}

/* One step, or now and then an NMI, from a random state; nothing where it draws no opcode. */
static int try_step(void)
{
    cpu c = { .cycles = 0 };
    c.a = (uint8_t)drawn();
    c.x = (uint8_t)drawn();
    c.y = (uint8_t)drawn();
    c.s = (uint8_t)drawn();
    c.p = (uint8_t)((drawn() & 0xCF) | UNUSED);
    c.pc = (uint16_t)drawn();
    memory[c.pc] = (uint8_t)drawn();
#ifdef SIM65
    memory[c.pc] &= 0x40;
    c.p |= BREAK;   /* so it keeps P */
#else
    if (opcode_index[memory[c.pc]] < 0) return 0;
#endif
    if (drawn() % 64 == 0) begin_nmi(&c);
    else step(&c);
    mix(c.a);
    mix(c.x);
    mix(c.y);
    mix(c.s);
    mix((uint32_t)(c.p | UNUSED) & ~(uint32_t)BREAK);
    mix(c.pc);
    mix((uint32_t)c.cycles);
    return 1;
}

int main(int count, char **words)
{
    long wanted = count > 2 ? atol(words[1]) : 0, steps = 0;
    if (wanted > 0) state = (uint32_t)strtoul(words[2], NULL, 10);
    ready_opcodes();
    for (int at = 0; at < 0x10000; at++) memory[at] = (uint8_t)drawn();
    for (long tries = 1; tries <= wanted; tries++) {
        steps += try_step();
        if (tries % REPORT_EVERY == 0) printf("%ld %" PRIu32 "\n", steps, digest);
    }
    return 0;
}
