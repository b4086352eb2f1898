/* The definition of the 6502 in crates/dvg_game_words/specs/Processor.antt, clause by clause as a
 * plain program, beside the 6502 of cpu.h: random single steps, all of which must agree. The
 * table of opcodes is the definition's own: tests/board makes opcodes.inc of it.
 *
 *     definition STEPS                   compares this many steps
 *     definition vectors COUNT           prints this many of each opcode by cpu.h, as numbers
 *     definition sim COUNT RECORDS RESULTS
 *                                        writes steps for steps.s, and what they leave
 *     definition sums PROGRAM COUNT FILE
 *                                        has both run the program of sums.s, by instructions,
 *                                        and sim65, where it is built with that: what it shows must
 *                                        be the bytes of FILE, as far as that goes. It ends after
 *                                        COUNT sums with D set, or, if that is 0, with FILE
 */
#include "cpu.h"
#include <stdio.h>
#include <stdlib.h>

enum { PLACES = 65536, NONE_WRITTEN = PLACES };

static const struct { int opcode; const char *instruction; } table[] = {
#include "opcodes.inc"
};
enum { ROWS = sizeof table / sizeof table[0] };

/* The state of the definition; a flag is 0 or 1. */
typedef struct {
    int a, x, y, s, pc, n, z, c, v, d, i;
} state;

static uint8_t theirs[PLACES], ours[PLACES], sims[PLACES];
static int written[8], writes, our_written[8], our_writes;
/* Which of them the bus is. */
static uint8_t *memory = theirs;

uint8_t bus_fetch(uint16_t at) { return memory[at]; }
uint8_t bus_read(uint16_t at, int dummy) { return dummy ? 0 : memory[at]; }
void bus_write(uint16_t at, uint8_t value)
{
    memory[at] = value;
    if (memory == theirs) written[writes++] = at;
}

static void put(int at, int byte)
{
    ours[at] = (uint8_t)byte;
    our_written[our_writes++] = at;
}

static void telling(state *t, int byte)
{
    t->z = byte == 0;
    t->n = byte >= 128;
}

static int *register_named(state *t, char name)
{
    return name == 'A' ? &t->a : name == 'X' ? &t->x : &t->y;
}

static void setting(state *t, char name, int byte)
{
    *register_named(t, name) = byte;
    telling(t, byte);
}

static int is(const char *word, const char *name) { return strcmp(word, name) == 0; }

static int size(const char *mode) { return strncmp(mode, "Absolute", 8) == 0 ? 3 : 2; }

static int pointed(int zp) { return ours[zp] + 256 * ours[(zp + 1) % 256]; }

static int named_address(const state *t, const char *mode)
{
    int first = ours[t->pc + 1], wide = first + 256 * ours[t->pc + 2];
    if (is(mode, "Immediate")) return t->pc + 1;
    if (is(mode, "ZeroPage")) return first;
    if (is(mode, "ZeroPageX")) return (first + t->x) % 256;
    if (is(mode, "ZeroPageY")) return (first + t->y) % 256;
    if (is(mode, "Absolute")) return wide;
    if (is(mode, "AbsoluteX")) return (wide + t->x) % PLACES;
    if (is(mode, "AbsoluteY")) return (wide + t->y) % PLACES;
    if (is(mode, "IndexedIndirect")) return pointed((first + t->x) % 256);
    return (pointed(first) + t->y) % PLACES;
}

static int stack_place(int s) { return 0x100 + s % 256; }

static void changing(state *t, const char *mode, int byte)
{
    put(named_address(t, mode), byte);
    telling(t, byte);
    t->pc += size(mode);
}

static int carried(int low) { return low >= 10 ? 16 + (low + 6) % 16 : low; }
static int borrowed(int low) { return low >= 16 ? low : (low + 10) % 16; }

static int by_digits(int (*ordered)(int), int byte, const state *t)
{
    return 16 * (t->a / 16) + 16 * (byte / 16) + ordered(t->a % 16 + byte % 16 + t->c);
}

static int overflows(int a, int byte, int sum)
{
    return a / 128 == byte / 128 && a / 128 != sum % 256 / 128;
}

static void summing(state *t, int byte)
{
    int binary = t->a + byte + t->c, digits = by_digits(carried, byte, t);
    int sum = t->d ? digits : binary;
    t->n = sum % 256 >= 128;
    t->z = binary % 256 == 0;
    t->c = t->d ? digits >= 160 : binary >= 256;
    t->v = overflows(t->a, byte, sum);
    t->a = (t->d && digits >= 160 ? digits + 96 : sum) % 256;
}

static void subtracting(state *t, int byte)
{
    int binary = t->a + byte + t->c, digits = by_digits(borrowed, byte, t);
    t->n = binary % 256 >= 128;
    t->z = binary % 256 == 0;
    t->c = binary >= 256;
    t->v = overflows(t->a, byte, binary);
    t->a = (t->d ? (binary >= 256 ? digits : digits + 160) : binary) % 256;
}

static void take_byte(state *t, const char *kind, char of, const char *mode)
{
    int byte = ours[named_address(t, mode)];
    t->pc += size(mode);
    if (is(kind, "Load")) setting(t, of, byte);
    else if (is(kind, "And")) setting(t, 'A', t->a & byte);
    else if (is(kind, "Or")) setting(t, 'A', t->a | byte);
    else if (is(kind, "Xor")) setting(t, 'A', t->a ^ byte);
    else if (is(kind, "Add")) summing(t, byte);
    else if (is(kind, "Subtract")) subtracting(t, 255 - byte);
    else if (is(kind, "Compare")) {
        int value = *register_named(t, of);
        telling(t, (value + 256 - byte) % 256);
        t->c = byte <= value;
    } else {
        t->z = (t->a & byte) == 0;
        t->n = byte >= 128;
        t->v = byte % 128 >= 64;
    }
}

/* What a shift makes of a byte, and of C. */
static int shifted(state *t, const char *shift, int old)
{
    int carry = t->c, left = is(shift, "Left") || is(shift, "RotateLeft");
    t->c = left ? old >= 128 : old % 2;
    if (is(shift, "Left")) return 2 * old % 256;
    if (is(shift, "RotateLeft")) return (2 * old + carry) % 256;
    return old / 2 + (is(shift, "RotateRight") ? 128 * carry : 0);
}

static int *flag_named(state *t, char name)
{
    switch (name) {
    case 'N': return &t->n;
    case 'Z': return &t->z;
    case 'C': return &t->c;
    case 'O': return &t->v;
    case 'D': return &t->d;
    default: return &t->i;
    }
}

static void branch_where(state *t, char flag, int when)
{
    int offset = ours[t->pc + 1];
    int back = offset >= 128 ? PLACES - 256 : 0;
    t->pc = *flag_named(t, flag) == when ? (t->pc + 2 + offset + back) % PLACES : t->pc + 2;
}

static int pulled(const state *t, int back) { return ours[stack_place(t->s + back)]; }

static int pulled_word(const state *t, int back)
{
    return pulled(t, back) + 256 * pulled(t, back + 1);
}

/* The flags as a byte; `asked` where an instruction pushes it. */
static int flags_byte(const state *t, int asked)
{
    return 128 * t->n + 64 * t->v + 32 + 16 * asked + 8 * t->d + 4 * t->i + 2 * t->z + t->c;
}

static void set_flags(state *t, int byte)
{
    t->n = byte / 128 % 2;
    t->v = byte / 64 % 2;
    t->d = byte / 8 % 2;
    t->i = byte / 4 % 2;
    t->z = byte / 2 % 2;
    t->c = byte % 2;
}

static void move(state *t, const char *kind)
{
    int low = ours[t->pc + 1], high = ours[t->pc + 2], target = low + 256 * high, back = t->pc + 2;
    if (is(kind, "JumpAt")) t->pc = ours[target] + 256 * ours[(low + 1) % 256 + 256 * high];
    else if (is(kind, "Return")) {
        t->pc = (pulled_word(t, 1) + 1) % PLACES;
        t->s = (t->s + 2) % 256;
    } else if (is(kind, "Resume")) {
        set_flags(t, pulled(t, 1));
        t->pc = pulled_word(t, 2);
        t->s = (t->s + 3) % 256;
    } else {
        t->pc = target;
        if (is(kind, "Jump")) return;
        put(stack_place(t->s), back / 256);
        put(stack_place(t->s + 255), back % 256);
        t->s = (t->s + 254) % 256;
    }
}

/* What has one byte, and moves S or nothing. */
static void stack(state *t, const char *kind)
{
    t->pc += 1;
    if (is(kind, "FromStack")) setting(t, 'X', t->s);
    else if (is(kind, "ToStack")) t->s = t->x;
    else if (is(kind, "PushA") || is(kind, "PushFlags")) {
        put(stack_place(t->s), is(kind, "PushA") ? t->a : flags_byte(t, 1));
        t->s = (t->s + 255) % 256;
    } else if (is(kind, "PullA") || is(kind, "PullFlags")) {
        if (is(kind, "PullA")) setting(t, 'A', pulled(t, 1));
        else set_flags(t, pulled(t, 1));
        t->s = (t->s + 1) % 256;
    }
}

static void interrupted(state *t)
{
    put(stack_place(t->s), t->pc / 256);
    put(stack_place(t->s + 255), t->pc % 256);
    put(stack_place(t->s + 254), flags_byte(t, 0));
    t->s = (t->s + 253) % 256;
    t->i = 1;
    t->pc = ours[0xFFFA] + 256 * ours[0xFFFB];
}

static int is_move(const char *kind)
{
    return is(kind, "Jump") || is(kind, "JumpAt") || is(kind, "Call") || is(kind, "Return") ||
        is(kind, "Resume");
}

/* What an instruction does, by its words in the definition. */
static void does(state *t, const char *instruction)
{
    char kind[32] = "", one[32] = "", two[32] = "";
    sscanf(instruction, "%31s %31s %31s", kind, one, two);
    if (is(kind, "Load") || is(kind, "Compare")) take_byte(t, kind, one[0], two);
    else if (is(kind, "And") || is(kind, "Or") || is(kind, "Xor") || is(kind, "TestBits") ||
        is(kind, "Add") || is(kind, "Subtract"))
        take_byte(t, kind, 'A', one);
    else if (is(kind, "Store")) {
        put(named_address(t, two), *register_named(t, one[0]));
        t->pc += size(two);
    } else if (is(kind, "Transfer")) {
        setting(t, two[0], *register_named(t, one[0]));
        t->pc += 1;
    } else if (is(kind, "Change"))
        changing(t, one, (ours[named_address(t, one)] + atoi(two)) % 256);
    else if (is(kind, "Step")) {
        setting(t, one[0], (*register_named(t, one[0]) + atoi(two)) % 256);
        t->pc += 1;
    } else if (is(kind, "ShiftA")) {
        setting(t, 'A', shifted(t, one, t->a));
        t->pc += 1;
    } else if (is(kind, "ShiftAt"))
        changing(t, two, shifted(t, one, ours[named_address(t, two)]));
    else if (is(kind, "Set")) {
        *flag_named(t, one[0]) = is(two, "true");
        t->pc += 1;
    } else if (is(kind, "Branch")) branch_where(t, one[0], is(two, "true"));
    else if (is_move(kind)) move(t, kind);
    else stack(t, kind);
}

static uint32_t seed = 1979;
static int random_below(int limit)
{
    seed = seed * 1664525u + 1013904223u;
    return (int)((seed >> 8) % (unsigned)limit);
}

/* A byte, more often one at an edge. */
static int some_byte(void)
{
    static const int edges[] = { 0, 1, 0x7F, 0x80, 0xFF, 0xFE, 0xB0, 0xC0 };
    return random_below(2) ? edges[random_below(8)] : random_below(256);
}

static cpu some_cpu(int pc)
{
    static const int flags[] = { NEGATIVE, ZERO, CARRY, OVERFLOW, INTERRUPT, DECIMAL };
    cpu c = { 0, 0, 0, 0, 0, (uint16_t)pc, 0 };
    c.a = (uint8_t)some_byte();
    c.x = (uint8_t)some_byte();
    c.y = (uint8_t)some_byte();
    c.s = (uint8_t)some_byte();
    for (int i = 0; i < 6; i++)
        if (random_below(2)) c.p = (uint8_t)(c.p | flags[i]);
    return c;
}

static state state_of(const cpu *c)
{
    int p = c->p;
    state t = {
        c->a, c->x, c->y, c->s, c->pc,
        !!(p & NEGATIVE), !!(p & ZERO), !!(p & CARRY), !!(p & OVERFLOW),
        !!(p & DECIMAL), !!(p & INTERRUPT)
    };
    return t;
}

/* Steps both, by an NMI in place of a row that isn't there: whether they agree. */
static int step_both(cpu *c, state *t, int row)
{
    writes = our_writes = 0;
    if (row == ROWS) {
        begin_nmi(c);
        interrupted(t);
    } else {
        if (!step(c)) return 0;
        does(t, table[row].instruction);
    }
    state end = state_of(c);
    if (memcmp(&end, t, sizeof end) != 0) return 0;
    for (int i = 0; i < writes; i++)
        if (theirs[written[i]] != ours[written[i]]) return 0;
    for (int i = 0; i < our_writes; i++)
        if (theirs[our_written[i]] != ours[our_written[i]]) return 0;
    return 1;
}

/* Of an opcode, or of an NMI in place of the last row. */
static int compare_step(int row)
{
    int pc = 0x300 + random_below(0x6000);
    for (int i = 0; i < 3; i++)
        theirs[pc + i] = ours[pc + i] =
            (uint8_t)(i || row == ROWS ? some_byte() : table[row].opcode);
    cpu c = some_cpu(pc);
    state t = state_of(&c);
    return step_both(&c, &t, row);
}

static void print_state(const state *t)
{
    printf(" %d %d %d %d %d", t->a, t->x, t->y, t->s, t->pc);
    printf(" %d %d %d %d %d %d", t->n, t->z, t->c, t->v, t->d, t->i);
}

/* A line: the seed of the memory, three bytes, the state before, the state after, two writes. */
static void print_vector(int row)
{
    int memory = random_below(256), pc = 0x300 + random_below(0x6000);
    int first = some_byte(), second = some_byte();
    for (long b = 0; b < PLACES; b++) theirs[b] = (uint8_t)((b * b * 3 + b * 7 + memory) % 256);
    theirs[pc] = (uint8_t)table[row].opcode;
    theirs[pc + 1] = (uint8_t)first;
    theirs[pc + 2] = (uint8_t)second;
    cpu c = some_cpu(pc);
    state before = state_of(&c);
    writes = 0;
    step(&c);
    state after = state_of(&c);
    printf("%d %d %d %d", memory, table[row].opcode, first, second);
    print_state(&before);
    print_state(&after);
    for (int i = 1; i <= 2; i++) {
        int at = writes >= i ? written[writes - i] : NONE_WRITTEN;
        printf(" %d %d", at, at < PLACES ? theirs[at] : 0);
    }
    printf("\n");
}

/* Where steps.s has its cells, and where it runs an instruction. */
enum { INDEXED = 0x7000, ABSOLUTE = 0x7100, BUFFER = 0x7300, POINTER = 0xF0, CELL = 0xF8 };

/* The two bytes after an opcode, so that it names one of those cells with this X and Y; the
 * instruction's size. */
static int operands(const char *instruction, int x, int y, int *first, int *second)
{
    int index = strstr(instruction, "AbsoluteX") ? x : strstr(instruction, "AbsoluteY") ? y : 0;
    *second = (ABSOLUTE - index) / 256;
    *first = some_byte();
    if (strstr(instruction, "Absolute")) return *first = (ABSOLUTE - index) % 256, 3;
    if (strstr(instruction, "Immediate")) return 2;
    if (strstr(instruction, "IndirectIndexed")) return *first = POINTER, 2;
    if (strstr(instruction, "IndexedIndirect")) return *first = (POINTER - x) & 0xFF, 2;
    if (strstr(instruction, "Branch")) return *first = 3, 2;
    if (strstr(instruction, "ZeroPageX")) return *first = (CELL - x) & 0xFF, 2;
    if (strstr(instruction, "ZeroPageY")) return *first = (CELL - y) & 0xFF, 2;
    if (strstr(instruction, "ZeroPage")) return *first = CELL, 2;
    return 1;
}

/* Whether steps.s runs it: it leaves S, and what is behind it, as they are. The sim65 of cc65
 * 2.19 takes ROL abs,X for an instruction of two bytes, and subtracts otherwise with D set. */
static int is_run(const char *instruction)
{
    return !is_move(instruction) && !strstr(instruction, "Push") && !strstr(instruction, "Pull") &&
        !strstr(instruction, "Stack") && !is(instruction, "ShiftAt RotateLeft AbsoluteX");
}

static void write_step(const char *instruction, int opcode, FILE *records, FILE *results)
{
    cpu c = some_cpu(BUFFER);
    if (strstr(instruction, "Subtract")) c.p = (uint8_t)(c.p & ~DECIMAL);
    if (strstr(instruction, "IndexedIndirect")) c.y = 0;
    state t = state_of(&c);
    int first, second, bytes = operands(instruction, t.x, t.y, &first, &second);
    int cells[3] = { some_byte(), some_byte(), some_byte() }, y = t.y;
    uint8_t record[11] = {
        (uint8_t)bytes, (uint8_t)opcode, (uint8_t)first, (uint8_t)second, c.a, c.x, c.y,
        (uint8_t)(c.p | 0x30), (uint8_t)cells[0], (uint8_t)cells[1], (uint8_t)cells[2]
    };
    ours[BUFFER] = (uint8_t)opcode;
    ours[BUFFER + 1] = (uint8_t)first;
    ours[BUFFER + 2] = (uint8_t)second;
    ours[POINTER] = INDEXED % 256;
    ours[POINTER + 1] = INDEXED / 256;
    ours[CELL] = (uint8_t)cells[0];
    ours[INDEXED + y] = (uint8_t)cells[1];
    ours[ABSOLUTE] = (uint8_t)cells[2];
    does(&t, instruction);
    uint8_t result[8] = {
        (uint8_t)t.a, (uint8_t)t.x, (uint8_t)t.y,
        (uint8_t)(flags_byte(&t, 0) & ~UNUSED),
        ours[CELL], ours[INDEXED + y], ours[ABSOLUTE], (uint8_t)(t.pc == BUFFER + 5)
    };
    fwrite(record, 1, sizeof record, records);
    fwrite(result, 1, sizeof result, results);
}

static int write_steps(long count, const char *record_path, const char *result_path)
{
    FILE *records = fopen(record_path, "wb"), *results = fopen(result_path, "wb");
    if (!records || !results) return 1;
    for (long i = 0; i < count; i++)
        if (is_run(table[i % ROWS].instruction)) {
            our_writes = 0;
            write_step(table[i % ROWS].instruction, table[i % ROWS].opcode, records, results);
        }
    return fclose(records) != 0 || fclose(results) != 0;
}

/* --- The program of sums.s --- */

enum { PROGRAM = 0x6800, PROGRAM_BYTES = 0x1800, RESULT = 0x43, FLAGS = 0x44 };

static long sums, subtracted, nmis, instructions, other;

/* Puts the program where a 6502 reads it that decodes A15, and where one does that doesn't. */
static int load(const char *path)
{
    FILE *file = fopen(path, "rb");
    if (!file || fread(theirs + PROGRAM, 1, PROGRAM_BYTES, file) != PROGRAM_BYTES) return 0;
    fclose(file);
    memcpy(theirs + PLACES / 2 + PROGRAM, theirs + PROGRAM, PROGRAM_BYTES);
    memcpy(ours, theirs, PLACES);
    memcpy(sims, theirs, PLACES);
    return 1;
}

#ifdef SIM65
int sim65_step(cpu *c, int nmi);

/* Whether sim65 does what the 6502 of these tests did, all but an SBC with D set: that of cc65 2.19
 * is another one, so it goes on with what the others have. */
static int step_sim65(cpu *sim, const cpu *c, int nmi, int is_subtracted)
{
    const int seen = 0xFF & ~(BREAK | UNUSED);
    memory = sims;
    int is_done = sim65_step(sim, nmi);
    memory = theirs;
    if (is_subtracted) {
        other += sim->a != c->a || (sim->p & seen) != (c->p & seen);
        sim->a = c->a;
        sim->p = c->p | BREAK | UNUSED;
    }
    for (int i = 0; i < writes; i++)
        if (theirs[written[i]] != sims[written[i]]) return 0;
    return is_done && sim->a == c->a && sim->x == c->x && sim->y == c->y && sim->s == c->s &&
        (sim->p & seen) == (c->p & seen) && sim->pc == c->pc;
}
#else
static int step_sim65(cpu *sim, const cpu *c, int nmi, int is_subtracted)
{
    return sim && c && nmi + is_subtracted >= 0;
}
#endif

/* Compares what was shown with the file: 0 where it differs, and -1 where the file has ended. */
static int compare_shown(FILE *file)
{
    for (int i = 0; i < writes; i++) {
        if (written[i] != RESULT && written[i] != FLAGS) continue;
        int wanted = fgetc(file);
        if (wanted == EOF) return -1;
        if (wanted != theirs[written[i]]) return 0;
    }
    return 1;
}

/* An instruction of the program, or now and then an NMI, by all of them. */
static int step_all(cpu *c, state *t, cpu *sim, const int *rows)
{
    int row = random_below(1000) ? rows[theirs[c->pc]] : ROWS;
    const char *instruction = row == ROWS ? "" : row < 0 ? "unknown" : table[row].instruction;
    int subtracts = t->d && strncmp(instruction, "Subtract", 8) == 0;
    sums += subtracts || (t->d && strncmp(instruction, "Add", 3) == 0);
    subtracted += subtracts;
    nmis += row == ROWS;
    instructions++;
    return row >= 0 && step_both(c, t, row) && step_sim65(sim, c, row == ROWS, subtracts);
}

static int run_sums(const char *program, long count, const char *path)
{
    FILE *file = fopen(path, "rb");
    int rows[256], shown = 1;
    memset(rows, -1, sizeof rows);
    for (int row = 0; row < ROWS; row++) rows[table[row].opcode] = row;
    if (!file || !load(program)) return 1;
    cpu c = { .s = 0xFD, .p = UNUSED, .pc = (uint16_t)(theirs[0xFFFC] | theirs[0xFFFD] << 8) };
    cpu sim = c;
    state t = state_of(&c);
    sim.p |= BREAK;
    while (count ? sums < count : shown >= 0) {
        int is_agreed = step_all(&c, &t, &sim, rows);
        if (shown > 0) shown = compare_shown(file);
        if (!is_agreed || shown == 0) {
            printf("after %ld sums they differ, before %04X\n", sums, (unsigned)c.pc);
            return 1;
        }
    }
    printf("%ld sums with D set, %ld of them SBC, among %ld instructions and %ld NMIs",
        sums, subtracted, instructions - nmis, nmis);
    printf("; sim65 subtracted otherwise in %ld\n", other);
    return sums == 0;
}

int main(int argc, char **argv)
{
    ready_opcodes();
    if (argc == 5 && is(argv[1], "sums")) return run_sums(argv[2], atol(argv[3]), argv[4]);
    if (argc == 5) return write_steps(atol(argv[2]), argv[3], argv[4]);
    if (argc == 3) {
        for (int row = 0; row < ROWS; row++)
            for (int i = 0; i < atoi(argv[2]); i++) print_vector(row);
        return 0;
    }
    long steps = argc == 2 ? atol(argv[1]) : 0;
    for (int b = 0; b < PLACES; b++) theirs[b] = ours[b] = (uint8_t)random_below(256);
    for (long i = 0; i < steps; i++)
        if (!compare_step((int)(i % (ROWS + 1)))) {
            printf("step %ld differs: row %ld\n", i, i % (ROWS + 1));
            return 1;
        }
    printf("%ld steps of %d opcodes, NMIs among them\n", steps, ROWS);
    return steps == 0;
}
