/* What an instruction does with A, X and Y, whether it reads a list by an index, and where segments
 * end: for what is seldom meant so, a value in a register that nothing kept, and a list that is too
 * short. */
#include <stdint.h>
#include <stdio.h>
#include <string.h>

enum { IN_A = 1, IN_X = 2, IN_Y = 4, ALL_REGISTERS = 7, REGISTERS = 3 };
enum { MOST_SEGMENTS = 20 };

/* The segments of a program, as the map of ld65 lists them. */
static struct {
    char name[32];
    unsigned from, last;
} segments[MOST_SEGMENTS];
static int segment_count;

/* What an instruction does, by its opcode: its bytes; the registers by which it counts in memory,
 * whose values it takes, and which it sets; whether it makes the byte that it writes of the one
 * that was there; and whether it reads a byte of a list, at an absolute place and X or Y further.
 */
static struct {
    uint8_t size, index, taken, set, is_change, reads_list;
    enum mode mode;
} kinds[256];

static int size_of(enum mode mode)
{
    switch (mode) {
    case NONE: case ACC: return 1;
    case ABS: case ABX: case ABY: case IND: return 3;
    default: return 2;
    }
}

static int index_of(enum mode mode)
{
    switch (mode) {
    case ZPX: case ABX: case IZX: return IN_X;
    case ZPY: case ABY: case IZY: return IN_Y;
    default: return 0;
    }
}

/* A push keeps a register, and BIT is there for bits 7 and 6. */
static int taken_by(enum operation operation, enum mode mode)
{
    const int index = index_of(mode);
    switch (operation) {
    case ADC: case SBC: case AND: case ORA: case EOR: case CMP: case STA: case TAX: case TAY:
        return index | IN_A;
    case ASL: case LSR: case ROL: case ROR: return mode == ACC ? IN_A : index;
    case CPX: case STX: case INX: case DEX: case TXA: case TXS: return index | IN_X;
    case CPY: case STY: case INY: case DEY: case TYA: return index | IN_Y;
    default: return index;
    }
}

static int set_by(enum operation operation, enum mode mode)
{
    switch (operation) {
    case LDA: case ADC: case SBC: case AND: case ORA: case EOR: case PLA: case TXA: case TYA:
        return IN_A;
    case ASL: case LSR: case ROL: case ROR: return mode == ACC ? IN_A : 0;
    case LDX: case INX: case DEX: case TAX: case TSX: return IN_X;
    case LDY: case INY: case DEY: case TAY: return IN_Y;
    default: return 0;
    }
}

static int is_change(enum operation operation, enum mode mode)
{
    switch (operation) {
    case ASL: case LSR: case ROL: case ROR: case INC: case DEC: return mode != ACC;
    default: return 0;
    }
}

static int reads_list(enum operation operation, enum mode mode)
{
    return (mode == ABX || mode == ABY) && operation != STA && !is_change(operation, mode);
}

static void ready_kinds(void)
{
    for (unsigned i = 0; i < sizeof opcodes / sizeof opcodes[0]; i++) {
        const enum operation operation = (enum operation)opcodes[i].operation;
        const enum mode mode = (enum mode)opcodes[i].mode;
        kinds[opcodes[i].opcode].mode = mode;
        kinds[opcodes[i].opcode].size = (uint8_t)size_of(mode);
        kinds[opcodes[i].opcode].index = (uint8_t)index_of(mode);
        kinds[opcodes[i].opcode].taken = (uint8_t)taken_by(operation, mode);
        kinds[opcodes[i].opcode].set = (uint8_t)set_by(operation, mode);
        kinds[opcodes[i].opcode].is_change = (uint8_t)is_change(operation, mode);
        kinds[opcodes[i].opcode].reads_list = (uint8_t)reads_list(operation, mode);
    }
}

static int read_segments(const char *path)
{
    FILE *file = fopen(path, "r");
    char line[200];
    int is_listed = 0;
    if (!file) return 0;
    while (fgets(line, sizeof line, file)) {
        if (!strncmp(line, "Segment list", 12)) is_listed = 1;
        if (!strncmp(line, "Exports", 7)) break;
        if (is_listed && segment_count < MOST_SEGMENTS)
            segment_count += sscanf(line, "%31s %6x %6x", segments[segment_count].name,
                &segments[segment_count].from, &segments[segment_count].last) == 3;
    }
    fclose(file);
    return 1;
}
