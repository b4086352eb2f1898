/* The 6502 of cc65's simulator sim65, with the interface of sim65.h. It is compiled from the
 * simulator's own source, which stands in the folder that -I names: the program shows no bus. */
#include <setjmp.h>
#include <stdint.h>
#include "6502.c"

typedef struct {
    unsigned char a, x, y, s, p;
    unsigned short pc;
    uint64_t cycles;
} cpu;

unsigned char bus_read(unsigned short at, int dummy);
void bus_write(unsigned short at, unsigned char value);

static jmp_buf refused;

/* What the simulator calls. */

void MemWriteByte(unsigned at, unsigned char value) { bus_write((unsigned short)at, value); }

unsigned char MemReadByte(unsigned at) { return bus_read((unsigned short)at, 0); }

unsigned MemReadWord(unsigned at) { return MemReadByte(at) | (unsigned)MemReadByte(at + 1) << 8; }

unsigned MemReadZPWord(unsigned char at)
{
    return MemReadByte(at) | (unsigned)MemReadByte((unsigned char)(at + 1)) << 8;
}

void ParaVirtHooks(CPURegs *registers) { (void)registers; }

void Warning(const char *format, ...) { (void)format; }

void Error(const char *format, ...)
{
    (void)format;
    longjmp(refused, 1);
}

/* One instruction, or the beginning of an NMI. It answers 0 for an opcode that there isn't. */
int sim65_step(cpu *c, int nmi)
{
    CPURegs registers = { .AC = c->a, .XR = c->x, .YR = c->y, .SR = c->p, .SP = c->s, .PC = c->pc };
    Regs = registers;
    if (setjmp(refused)) return 0;
    if (nmi) NMIRequest();
    c->cycles += ExecuteInsn();
    c->a = (unsigned char)Regs.AC;
    c->x = (unsigned char)Regs.XR;
    c->y = (unsigned char)Regs.YR;
    c->s = (unsigned char)Regs.SP;
    c->p = (unsigned char)Regs.SR;
    c->pc = (unsigned short)Regs.PC;
    return 1;
}
