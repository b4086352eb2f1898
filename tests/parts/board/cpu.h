/* An NMOS 6502 for tests: its documented instructions but BRK, their cycles, and each access of the
 * bus that they make beside the fetch of the instruction. Dummy accesses are made, too: indexed
 * addressing may read a wrong page first, and INC and its like write twice. Decimal sums are those
 * of Bruce Clark, "Decimal Mode" (6502.org, appendix A). Who includes this defines the bus. */
#include <stdint.h>
#include <string.h>

typedef struct {
    uint8_t a, x, y, s, p;
    uint16_t pc;
    uint64_t cycles;
} cpu;

uint8_t bus_fetch(uint16_t at);
uint8_t bus_read(uint16_t at, int dummy);
void bus_write(uint16_t at, uint8_t value);

enum flag {
    CARRY = 1, ZERO = 2, INTERRUPT = 4, DECIMAL = 8, BREAK = 16, UNUSED = 32, OVERFLOW = 64,
    NEGATIVE = 128
};

enum mode { NONE, IMM, ZP, ZPX, ZPY, ABS, ABX, ABY, IZX, IZY, REL, ACC, IND };
enum operation {
    ADC, AND, ASL, BCC, BCS, BEQ, BIT, BMI, BNE, BPL, BVC, BVS, CLC, CLD, CLI, CLV, CMP, CPX, CPY,
    DEC, DEX, DEY, EOR, INC, INX, INY, JMP, JSR, LDA, LDX, LDY, LSR, NOP, ORA, PHA, PHP, PLA, PLP,
    ROL, ROR, RTI, RTS, SBC, SEC, SED, SEI, STA, STX, STY, TAX, TAY, TSX, TXA, TXS, TYA
};

/* An opcode's cycles are those without a page crossed and without a branch taken. */
static const struct { uint8_t opcode, operation, mode, cycles; } opcodes[] = {
    { 0x69, ADC, IMM, 2 }, { 0x65, ADC, ZP, 3 }, { 0x75, ADC, ZPX, 4 }, { 0x6D, ADC, ABS, 4 },
    { 0x7D, ADC, ABX, 4 }, { 0x79, ADC, ABY, 4 }, { 0x61, ADC, IZX, 6 }, { 0x71, ADC, IZY, 5 },
    { 0x29, AND, IMM, 2 }, { 0x25, AND, ZP, 3 }, { 0x35, AND, ZPX, 4 }, { 0x2D, AND, ABS, 4 },
    { 0x3D, AND, ABX, 4 }, { 0x39, AND, ABY, 4 }, { 0x21, AND, IZX, 6 }, { 0x31, AND, IZY, 5 },
    { 0x0A, ASL, ACC, 2 }, { 0x06, ASL, ZP, 5 }, { 0x16, ASL, ZPX, 6 }, { 0x0E, ASL, ABS, 6 },
    { 0x1E, ASL, ABX, 7 }, { 0x90, BCC, REL, 2 }, { 0xB0, BCS, REL, 2 }, { 0xF0, BEQ, REL, 2 },
    { 0x24, BIT, ZP, 3 }, { 0x2C, BIT, ABS, 4 }, { 0x30, BMI, REL, 2 }, { 0xD0, BNE, REL, 2 },
    { 0x10, BPL, REL, 2 }, { 0x50, BVC, REL, 2 }, { 0x70, BVS, REL, 2 }, { 0x18, CLC, NONE, 2 },
    { 0xD8, CLD, NONE, 2 }, { 0x58, CLI, NONE, 2 }, { 0xB8, CLV, NONE, 2 }, { 0xC9, CMP, IMM, 2 },
    { 0xC5, CMP, ZP, 3 }, { 0xD5, CMP, ZPX, 4 }, { 0xCD, CMP, ABS, 4 }, { 0xDD, CMP, ABX, 4 },
    { 0xD9, CMP, ABY, 4 }, { 0xC1, CMP, IZX, 6 }, { 0xD1, CMP, IZY, 5 }, { 0xE0, CPX, IMM, 2 },
    { 0xE4, CPX, ZP, 3 }, { 0xEC, CPX, ABS, 4 }, { 0xC0, CPY, IMM, 2 }, { 0xC4, CPY, ZP, 3 },
    { 0xCC, CPY, ABS, 4 }, { 0xC6, DEC, ZP, 5 }, { 0xD6, DEC, ZPX, 6 }, { 0xCE, DEC, ABS, 6 },
    { 0xDE, DEC, ABX, 7 }, { 0xCA, DEX, NONE, 2 }, { 0x88, DEY, NONE, 2 }, { 0x49, EOR, IMM, 2 },
    { 0x45, EOR, ZP, 3 }, { 0x55, EOR, ZPX, 4 }, { 0x4D, EOR, ABS, 4 }, { 0x5D, EOR, ABX, 4 },
    { 0x59, EOR, ABY, 4 }, { 0x41, EOR, IZX, 6 }, { 0x51, EOR, IZY, 5 }, { 0xE6, INC, ZP, 5 },
    { 0xF6, INC, ZPX, 6 }, { 0xEE, INC, ABS, 6 }, { 0xFE, INC, ABX, 7 }, { 0xE8, INX, NONE, 2 },
    { 0xC8, INY, NONE, 2 }, { 0x4C, JMP, ABS, 3 }, { 0x6C, JMP, IND, 5 }, { 0x20, JSR, ABS, 6 },
    { 0xA9, LDA, IMM, 2 }, { 0xA5, LDA, ZP, 3 }, { 0xB5, LDA, ZPX, 4 }, { 0xAD, LDA, ABS, 4 },
    { 0xBD, LDA, ABX, 4 }, { 0xB9, LDA, ABY, 4 }, { 0xA1, LDA, IZX, 6 }, { 0xB1, LDA, IZY, 5 },
    { 0xA2, LDX, IMM, 2 }, { 0xA6, LDX, ZP, 3 }, { 0xB6, LDX, ZPY, 4 }, { 0xAE, LDX, ABS, 4 },
    { 0xBE, LDX, ABY, 4 }, { 0xA0, LDY, IMM, 2 }, { 0xA4, LDY, ZP, 3 }, { 0xB4, LDY, ZPX, 4 },
    { 0xAC, LDY, ABS, 4 }, { 0xBC, LDY, ABX, 4 }, { 0x4A, LSR, ACC, 2 }, { 0x46, LSR, ZP, 5 },
    { 0x56, LSR, ZPX, 6 }, { 0x4E, LSR, ABS, 6 }, { 0x5E, LSR, ABX, 7 }, { 0xEA, NOP, NONE, 2 },
    { 0x09, ORA, IMM, 2 }, { 0x05, ORA, ZP, 3 }, { 0x15, ORA, ZPX, 4 }, { 0x0D, ORA, ABS, 4 },
    { 0x1D, ORA, ABX, 4 }, { 0x19, ORA, ABY, 4 }, { 0x01, ORA, IZX, 6 }, { 0x11, ORA, IZY, 5 },
    { 0x48, PHA, NONE, 3 }, { 0x08, PHP, NONE, 3 }, { 0x68, PLA, NONE, 4 }, { 0x28, PLP, NONE, 4 },
    { 0x2A, ROL, ACC, 2 }, { 0x26, ROL, ZP, 5 }, { 0x36, ROL, ZPX, 6 }, { 0x2E, ROL, ABS, 6 },
    { 0x3E, ROL, ABX, 7 }, { 0x6A, ROR, ACC, 2 }, { 0x66, ROR, ZP, 5 }, { 0x76, ROR, ZPX, 6 },
    { 0x6E, ROR, ABS, 6 }, { 0x7E, ROR, ABX, 7 }, { 0x40, RTI, NONE, 6 }, { 0x60, RTS, NONE, 6 },
    { 0xE9, SBC, IMM, 2 }, { 0xE5, SBC, ZP, 3 }, { 0xF5, SBC, ZPX, 4 }, { 0xED, SBC, ABS, 4 },
    { 0xFD, SBC, ABX, 4 }, { 0xF9, SBC, ABY, 4 }, { 0xE1, SBC, IZX, 6 }, { 0xF1, SBC, IZY, 5 },
    { 0x38, SEC, NONE, 2 }, { 0xF8, SED, NONE, 2 }, { 0x78, SEI, NONE, 2 }, { 0x85, STA, ZP, 3 },
    { 0x95, STA, ZPX, 4 },
    { 0x8D, STA, ABS, 4 }, { 0x9D, STA, ABX, 5 }, { 0x99, STA, ABY, 5 }, { 0x81, STA, IZX, 6 },
    { 0x91, STA, IZY, 6 }, { 0x86, STX, ZP, 3 }, { 0x96, STX, ZPY, 4 }, { 0x8E, STX, ABS, 4 },
    { 0x84, STY, ZP, 3 }, { 0x94, STY, ZPX, 4 }, { 0x8C, STY, ABS, 4 }, { 0xAA, TAX, NONE, 2 },
    { 0xA8, TAY, NONE, 2 }, { 0xBA, TSX, NONE, 2 }, { 0x8A, TXA, NONE, 2 }, { 0x9A, TXS, NONE, 2 },
    { 0x98, TYA, NONE, 2 },
};

static int opcode_index[256];

static void ready_opcodes(void)
{
    memset(opcode_index, -1, sizeof opcode_index);
    for (unsigned i = 0; i < sizeof opcodes / sizeof opcodes[0]; i++)
        opcode_index[opcodes[i].opcode] = (int)i;
}

/* Whether an opcode writes a byte back to memory: twice, and first as it was. */
static inline int writes_back(uint8_t opcode)
{
    int index = opcode_index[opcode];
    if (index < 0 || opcodes[index].mode == ACC) return 0;
    switch (opcodes[index].operation) {
    case ASL: case ROL: case LSR: case ROR: case INC: case DEC: return 1;
    default: return 0;
    }
}

static uint16_t fetch_word(cpu *c)
{
    uint16_t low = bus_fetch(c->pc++);
    return (uint16_t)(low | bus_fetch(c->pc++) << 8);
}

static uint16_t read_pointer(uint8_t at)
{
    uint16_t low = bus_read(at, 0);
    return (uint16_t)(low | bus_read((uint8_t)(at + 1), 0) << 8);
}

/* An indexed address. A store reads the wrong page always, a load where it crossed one. */
static uint16_t indexed(cpu *c, uint16_t base, uint8_t index, int stores)
{
    uint16_t at = (uint16_t)(base + index);
    int crossed = (base ^ at) >> 8 != 0;
    if (stores || crossed) bus_read((uint16_t)((base & 0xFF00) | (at & 0xFF)), 1);
    if (!stores && crossed) c->cycles++;
    return at;
}

static uint16_t address(cpu *c, enum mode mode, int stores)
{
    switch (mode) {
    case IMM: return c->pc++;
    case ZP: return bus_fetch(c->pc++);
    case ZPX: return (uint8_t)(bus_fetch(c->pc++) + c->x);
    case ZPY: return (uint8_t)(bus_fetch(c->pc++) + c->y);
    case ABS: return fetch_word(c);
    case ABX: return indexed(c, fetch_word(c), c->x, stores);
    case ABY: return indexed(c, fetch_word(c), c->y, stores);
    case IZX: return read_pointer((uint8_t)(bus_fetch(c->pc++) + c->x));
    case IZY: return indexed(c, read_pointer(bus_fetch(c->pc++)), c->y, stores);
    default: return 0;
    }
}

static uint8_t flagged(cpu *c, uint8_t value)
{
    c->p = (uint8_t)((c->p & ~(NEGATIVE | ZERO)) | (value & NEGATIVE) | (value ? 0 : ZERO));
    return value;
}

static void set_flag(cpu *c, int flag, int on)
{
    c->p = (uint8_t)(on ? c->p | flag : c->p & ~flag);
}

static void push(cpu *c, int value) { bus_write((uint16_t)(0x100 | c->s--), (uint8_t)value); }

/* An NMI comes: its vector is read at FFFA. */
static inline void begin_nmi(cpu *c)
{
    push(c, c->pc >> 8);
    push(c, c->pc & 0xFF);
    push(c, (c->p & ~BREAK) | UNUSED);
    c->p |= INTERRUPT;
    c->pc = (uint16_t)(bus_read(0xFFFA, 0) | bus_read(0xFFFB, 0) << 8);
    c->cycles += 7;
}

static uint8_t pull(cpu *c) { return bus_read((uint16_t)(0x100 | ++c->s), 0); }

static void add_carrying(cpu *c, uint8_t value)
{
    unsigned sum = (unsigned)c->a + value + (c->p & CARRY);
    set_flag(c, OVERFLOW, ~(c->a ^ value) & (c->a ^ sum) & 0x80);
    set_flag(c, CARRY, sum > 255);
    c->a = flagged(c, (uint8_t)sum);
}

/* ADC with D set. Z tells of the binary sum; N and V of the digits, of which the upper one isn't
 * mended yet. */
static void add_digits(cpu *c, uint8_t value)
{
    int low = (c->a & 15) + (value & 15) + (c->p & CARRY);
    if (low > 9) low = ((low + 6) & 15) + 16;
    int sum = (c->a & 0xF0) + (value & 0xF0) + low;
    int shown = (int8_t)(c->a & 0xF0) + (int8_t)(value & 0xF0) + low;
    flagged(c, (uint8_t)(c->a + value + (c->p & CARRY)));
    set_flag(c, NEGATIVE, shown & 0x80);
    set_flag(c, OVERFLOW, shown < -128 || shown > 127);
    if (sum >= 0xA0) sum += 0x60;
    set_flag(c, CARRY, sum > 255);
    c->a = (uint8_t)sum;
}

/* SBC with D set. All flags tell of the binary difference. */
static void subtract_digits(cpu *c, uint8_t value)
{
    int low = (c->a & 15) - (value & 15) + (c->p & CARRY) - 1;
    if (low < 0) low = ((low - 6) & 15) - 16;
    int difference = (c->a & 0xF0) - (value & 0xF0) + low;
    if (difference < 0) difference -= 0x60;
    add_carrying(c, (uint8_t)~value);
    c->a = (uint8_t)difference;
}

static void add_byte(cpu *c, uint8_t value)
{
    if (c->p & DECIMAL) add_digits(c, value);
    else add_carrying(c, value);
}

static void subtract_byte(cpu *c, uint8_t value)
{
    if (c->p & DECIMAL) subtract_digits(c, value);
    else add_carrying(c, (uint8_t)~value);
}

static void compare(cpu *c, uint8_t of, uint8_t value)
{
    set_flag(c, CARRY, of >= value);
    flagged(c, (uint8_t)(of - value));
}

static void branch(cpu *c, int taken)
{
    int8_t by = (int8_t)bus_fetch(c->pc++);
    uint16_t to = (uint16_t)(c->pc + by);
    if (!taken) return;
    c->cycles += 1 + ((to ^ c->pc) >> 8 != 0);
    c->pc = to;
}

static uint8_t changed(cpu *c, enum operation operation, uint8_t value)
{
    int carry = c->p & CARRY;
    switch (operation) {
    case ASL: set_flag(c, CARRY, value & 0x80); return flagged(c, (uint8_t)(value << 1));
    case ROL: set_flag(c, CARRY, value & 0x80); return flagged(c, (uint8_t)(value << 1 | carry));
    case LSR: set_flag(c, CARRY, value & 1); return flagged(c, value >> 1);
    case ROR: set_flag(c, CARRY, value & 1); return flagged(c, (uint8_t)(value >> 1 | carry << 7));
    case INC: return flagged(c, (uint8_t)(value + 1));
    default: return flagged(c, (uint8_t)(value - 1));
    }
}

static void change(cpu *c, enum operation operation, enum mode mode)
{
    if (mode == ACC) {
        c->a = changed(c, operation, c->a);
        return;
    }
    uint16_t at = address(c, mode, 1);
    uint8_t old = bus_read(at, 0);
    bus_write(at, old);
    bus_write(at, changed(c, operation, old));
}

/* What an operation does with a byte that it reads. */
static void use(cpu *c, enum operation operation, uint8_t value)
{
    switch (operation) {
    case ADC: add_byte(c, value); break;
    case SBC: subtract_byte(c, value); break;
    case AND: c->a = flagged(c, c->a & value); break;
    case ORA: c->a = flagged(c, c->a | value); break;
    case EOR: c->a = flagged(c, c->a ^ value); break;
    case LDA: c->a = flagged(c, value); break;
    case LDX: c->x = flagged(c, value); break;
    case LDY: c->y = flagged(c, value); break;
    case CMP: compare(c, c->a, value); break;
    case CPX: compare(c, c->x, value); break;
    case CPY: compare(c, c->y, value); break;
    default:
        set_flag(c, ZERO, !(value & c->a));
        c->p = (uint8_t)((c->p & 0x3F) | (value & 0xC0));
    }
}

/* One instruction. It answers 0 for an opcode that isn't among them. */
static int step(cpu *c)
{
    int index = opcode_index[bus_fetch(c->pc++)];
    if (index < 0) return 0;
    enum operation operation = (enum operation)opcodes[index].operation;
    enum mode mode = (enum mode)opcodes[index].mode;
    uint16_t at;
    c->cycles += opcodes[index].cycles;
    switch (operation) {
    case BPL: branch(c, !(c->p & NEGATIVE)); break;
    case BMI: branch(c, c->p & NEGATIVE); break;
    case BVC: branch(c, !(c->p & OVERFLOW)); break;
    case BVS: branch(c, c->p & OVERFLOW); break;
    case BCC: branch(c, !(c->p & CARRY)); break;
    case BCS: branch(c, c->p & CARRY); break;
    case BNE: branch(c, !(c->p & ZERO)); break;
    case BEQ: branch(c, c->p & ZERO); break;
    case CLC: set_flag(c, CARRY, 0); break;
    case SEC: set_flag(c, CARRY, 1); break;
    case CLI: set_flag(c, INTERRUPT, 0); break;
    case SED: set_flag(c, DECIMAL, 1); break;
    case SEI: set_flag(c, INTERRUPT, 1); break;
    case CLV: set_flag(c, OVERFLOW, 0); break;
    case CLD: set_flag(c, DECIMAL, 0); break;
    case NOP: break;
    case TAX: c->x = flagged(c, c->a); break;
    case TAY: c->y = flagged(c, c->a); break;
    case TXA: c->a = flagged(c, c->x); break;
    case TYA: c->a = flagged(c, c->y); break;
    case TSX: c->x = flagged(c, c->s); break;
    case TXS: c->s = c->x; break;
    case INX: c->x = flagged(c, (uint8_t)(c->x + 1)); break;
    case INY: c->y = flagged(c, (uint8_t)(c->y + 1)); break;
    case DEX: c->x = flagged(c, (uint8_t)(c->x - 1)); break;
    case DEY: c->y = flagged(c, (uint8_t)(c->y - 1)); break;
    case PHA: push(c, c->a); break;
    case PHP: push(c, c->p | BREAK | UNUSED); break;
    case PLA: c->a = flagged(c, pull(c)); break;
    case PLP: c->p = (uint8_t)((pull(c) & ~BREAK) | UNUSED); break;
    case JSR:
        at = fetch_word(c);
        push(c, (c->pc - 1) >> 8);
        push(c, c->pc - 1);
        c->pc = at;
        break;
    case RTS:
        at = pull(c);
        c->pc = (uint16_t)((at | pull(c) << 8) + 1);
        break;
    case RTI:
        c->p = (uint8_t)((pull(c) & ~BREAK) | UNUSED);
        at = pull(c);
        c->pc = (uint16_t)(at | pull(c) << 8);
        break;
    case JMP:
        at = fetch_word(c);
        if (mode == IND) {
            uint16_t low = bus_read(at, 0);
            at = (uint16_t)(low | bus_read((uint16_t)((at & 0xFF00) | ((at + 1) & 0xFF)), 0) << 8);
        }
        c->pc = at;
        break;
    case STA: bus_write(address(c, mode, 1), c->a); break;
    case STX: bus_write(address(c, mode, 1), c->x); break;
    case STY: bus_write(address(c, mode, 1), c->y); break;
    case ASL: case ROL: case LSR: case ROR: case INC: case DEC: change(c, operation, mode); break;
    default:
        at = address(c, mode, 0);
        use(c, operation, mode == IMM ? bus_fetch(at) : bus_read(at, 0));
    }
    return 1;
}
