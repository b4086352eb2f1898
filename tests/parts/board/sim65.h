/* Another 6502 for the tests of the driver, with the interface of cpu.h: that of cc65's
 * simulator sim65, an instruction at a time. sim65.c has it, and board/install brings its
 * source. It makes no dummy accesses. */
#include <stdint.h>
#include <string.h>

typedef struct {
    uint8_t a, x, y, s, p;
    uint16_t pc;
    uint64_t cycles;
} cpu;

uint8_t bus_fetch(uint16_t at);
uint8_t bus_read(uint16_t at, int dummy);
void bus_write(uint16_t at, uint8_t value);

enum flag { CARRY = 1, INTERRUPT = 4, BREAK = 16, UNUSED = 32 };

int sim65_step(cpu *c, int nmi);

static int step(cpu *c)
{
    bus_fetch(c->pc);
    return sim65_step(c, 0);
}

static inline void begin_nmi(cpu *c) { sim65_step(c, 1); }

static inline void push(cpu *c, int value)
{
    bus_write((uint16_t)(0x100 | c->s--), (uint8_t)value);
}

static void ready_opcodes(void) {}
