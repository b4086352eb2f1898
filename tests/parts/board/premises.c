/* Whether a program keeps to the premises under which docs/BOARD.md speaks of it, as far as a run
 * shows it.
 *
 *     premises DRIVER PROGRAM LABELS EQUATES SECONDS SEED [BUTTONS [MAP [ROM]]]
 *
 * DRIVER has the bytes that are proved, PROGRAM those up to 7FFF, LABELS is ld65's list, EQUATES is
 * build/shapes.equates, BUTTONS a file of buttons (docs/GAME.md) or empty, MAP what ld65 tells of
 * its segments, and ROM the bytes of the vector ROM. The program runs by the 6502 of cpu.h.
 * With SEED 0 its NMIs come as on the board: one each 6,144 cycles, and none amid
 * another one, so that a file of buttons is played as it was recorded. With another seed they come
 * at chance between two instructions, also sooner, and amid another NMI. None comes amid the first
 * cycles after power-on, in which a program can't have set a byte yet, nor while the self-test
 * switch is closed.
 *
 * Prints how much was seen, or the first thing that is against a premise, and the place of the
 * instruction (status 1). Where nothing is, it also warns of calls that did nothing: a dvg_open
 * that was refused, and what was put outside of a frame, or was left out of it; of a scale that
 * dvg_labs doesn't take, and of a place that wasn't set anew; of a value that a routine of the
 * driver left in A, X or Y; of reads of RAM that nothing had written, and beyond the end of a list;
 * of an input whose wrong bits decide; and where no frame was made at all. With a ROM it names in
 * the board's run the places where in each picture nothing is seen of what they put, or a part
 * isn't. With a MAP it ends with the labels of the segment CODE at which nothing ran or was read,
 * and with what follows a branch that was always taken. */
#include <stdarg.h>
#include <stdio.h>
#include <stdlib.h>
#include <string.h>
#include "cpu.h"
#include "labels.h"
#include "misuse.h"
#include "strokes.h"

enum {
    CODE = 0x6800, PROGRAM_BYTES = 0x2000, VARIABLES = 0x10, OPERANDS = 0x1B, OPERANDS_END = 0x1F,
    VARIABLES_END = 0x21, FLAG = 0x2002, STROBE = 0x3000, VECTOR_RAM = 0x4000, MEMORY = 0x8000,
    BEGUN = 8, NMI_CYCLES = 6144, FRAME_CYCLES = 24576, NMI_MOST_CYCLES = 6048, NMI_MOST_TICKS = 53,
    CYCLES_A_SECOND = 1512000, SPARE_STACK = 0x20, HALF_STACK = 0x80,
    INPUTS = 0x2000, CLOCK = 0x2001, TEST = 0x2007, SWITCHES = 0x2800, INPUTS_END = 0x3000,
    ROM = 0x6000, JSR_OPCODE = 0x20, RTI_OPCODE = 0x40, JMP_OPCODE = 0x4C, RTS_OPCODE = 0x60,
    TXS_OPCODE = 0x9A, BNE_OPCODE = 0xD0, BEQ_OPCODE = 0xF0, MOST_CALLS = 3, RAM_END = 0x400,
    VECTORS = 0x7FFA,
    FREE = 0x11, ALL_OPERANDS = 0xF, VECTOR_ROM_END = 0x5800, VECTOR_ROM = 0x1000,
    LISTS = 0x201, WATCHDOG = 0x3400, NOISE_RESET = 0x3E00
};
enum { IDLE = 2, BUILD = 7, WRITING = 0x80 };
enum routine { RESET, RUN, TICKS, TICK, OFFER, REDRAW, OPEN, PUT, PAIR, SET, VECTOR, COPY, CLOSE };

static const char *const names[] = {
    "dvg_reset", "dvg_run", "dvg_ticks", "dvg_tick", "dvg_offer", "dvg_redraw", "dvg_open",
    "dvg_put", "dvg_pair", "dvg_labs", "dvg_vector", "dvg_copy", "dvg_close"
};
enum { ROUTINES = sizeof names / sizeof names[0] };
/* The registers that each takes. */
static const int takes[ROUTINES] = {
    [TICKS] = IN_A, [OFFER] = IN_A | IN_X, [PUT] = IN_A | IN_X, [SET] = IN_A, [VECTOR] = IN_A,
    [COPY] = ALL_REGISTERS
};

/* Who runs: the program, its NMI, or an NMI amid that. */
typedef struct {
    cpu before;                         /* of an NMI: the registers that it has to give back */
    uint64_t since;                     /* and when it came */
    int in_driver;                      /* amid a call of this routine */
    enum routine routine;
    cpu at_entry;
    uint16_t back;                      /* its return address */
    int ticks;                          /* of this NMI */
    int lost;                           /* the registers that the driver left, and nothing set */
    int last;                           /* the program's last instruction */
} context;

/* What is seldom meant so, as calls that did nothing: how many, and of the first one the place, the
 * calls that led there, the last one first, and the time. */
typedef struct {
    const char *what;
    long count;
    int at, calls[MOST_CALLS];
    uint64_t cycles;
} vain;

static vain refused_opens = { .what = "calls of dvg_open were refused, as the driver was busy" };
static vain refused_offers = { .what = "calls of dvg_offer were refused, as the driver was busy" };
static vain refused_redraws = {
    .what = "calls of dvg_redraw were refused, as the driver was busy"
};
static vain vain_puts = { .what = "instructions were put outside of a frame" };
static vain left_out = {
    .what = "instructions were left out, as there is no such vector, or no room"
};
static vain lost_scales = {
    .what = "calls of dvg_labs have bits 3 to 0 of A set: A is 16 times the scale"
};
static vain old_places = {
    .what = "calls of dvg_labs or dvg_vector take bytes of dvg_x or dvg_y from before the last one"
};
static vain misread = {
    .what = "branches by BEQ or BNE look at all bits of a switch: BMI and BPL look at the one that "
        "counts, and AND #SWITCHES_MASK leaves two"
};
static vain mixed_sums = {
    .what = "sums were decimal at one time and binary at another: is a CLD missing?"
};
static vain lost_registers[REGISTERS] = {
    { .what = "uses of A come after a call of the driver or its letters, which keep no register" },
    { .what = "uses of X come after a call of the driver or its letters, which keep no register" },
    { .what = "uses of Y come after a call of the driver or its letters, which keep no register" }
};
static const vain *const warnings[] = {
    &refused_opens, &refused_offers, &refused_redraws, &vain_puts, &left_out, &lost_scales,
    &old_places, &misread, &mixed_sums, &lost_registers[0], &lost_registers[1], &lost_registers[2]
};
static vain blind_reads[RAM_END];       /* of each byte, before anything had written it */
/* Of each instruction that reads a list by an index: whether it also read a byte of it, the reads
 * beyond its end, and by how many bytes the furthest one. */
static struct { int is_inside, most; vain reads; } lists[MEMORY];
static const char *const printer_names[] = { "print", "put_letter", "print_number" };
enum { PRINTERS = sizeof printer_names / sizeof printer_names[0] };
static int printers[PRINTERS];          /* where they stand, or 0 */
static int list_ends[MEMORY];           /* of each label: where its list ends; or 0 */
static uint8_t is_called[MEMORY];       /* a JSR leads there */
static uint16_t ran_from[MEMORY];       /* the instruction before that ran on into this one, or 0 */
static uint8_t was_written[RAM_END], was_counted[RAM_END], was_run[MEMORY];
static int reader[MEMORY];              /* of a byte that was read: the instruction, or 0 */
static uint8_t reads_code[MEMORY];      /* an instruction that reads code, as one that sums a ROM */
static uint8_t sums[MEMORY];             /* of an ADC or SBC: 1 a binary sum, 2 a decimal one */
static uint8_t memory[MEMORY];
static cpu processor;
static context contexts[3], *now = contexts;
static uint64_t run_ends;
static int code_end, has_called, was_reset, ticks_in_main, ticks_in_nmi, instructions;
static int table_from, table_to;        /* the table that is being written */
static int tables, tables_low, tables_high, shapes[1024], shape_count;
static char shape_names[1024][32];
static int instruction;                 /* where it stands that runs, or that comes next */
static int program_from;                /* where the program's ROM begins */
static int last_in_rom;                 /* the last instruction there */
static int begins_anew;                 /* it went to its reset vector, and calls dvg_reset next */
static long calls, nmis, nested, frames_built, frames_offered;
static uint64_t seed;
static int is_boards;                   /* NMIs come as on the board */
static int has_rom;                     /* the vector ROM is there */
static int operands_set;                /* a bit for each byte of dvg_y and dvg_x */
static int input_read = -1;             /* the input that the last instruction read, or -1 */

static int word_at(int at) { return memory[at] | memory[at + 1] << 8; }

static int is_driver(int at) { return at >= CODE && at < code_end; }

static int is_drivers(int i) { return !strncmp(labels[i].name, "dvg_", 4); }

/* Whether a label is the program's own: one local to a macro has a name that ca65 made. */
static int is_own(int i) { return !is_drivers(i) && !strchr(labels[i].name, '-'); }

/* The last label up to an address, in the driver one of its routines; -1 where there is none. */
static int label_before(int at)
{
    int best = -1;
    for (int i = 0; i < label_count; i++) {
        const int found = labels[i].at;
        if (found < ROM || found > at || (best >= 0 && found <= labels[best].at)) continue;
        if (is_driver(at) ? !is_drivers(i) : is_driver(found) || !is_own(i)) continue;
        best = i;
    }
    return best;
}

/* A cheap local label of ca65, as @skip: its name is only known with the label before it. */
static int is_cheap(int i) { return labels[i].name[0] == '@'; }

/* The label to which a cheap local one belongs: the last other one up to its place, or -1. */
static int owner_of(int cheap)
{
    int best = -1;
    for (int i = 0; i < label_count; i++) {
        if (!is_own(i) || is_cheap(i) || is_driver(labels[i].at)) continue;
        if (labels[i].at > labels[cheap].at) continue;
        if (best < 0 || labels[i].at > labels[best].at) best = i;
    }
    return best;
}

/* As `move`, or `move@skip` of a cheap local label. */
static void print_label(int i)
{
    const int owner = is_cheap(i) ? owner_of(i) : -1;
    printf("%s%s", owner >= 0 ? labels[owner].name : "", labels[i].name);
}

/* As `6AF8, picture + 23`. */
static void print_place(int at)
{
    const int i = label_before(at);
    printf("%04X", at);
    if (i < 0) return;
    printf(", ");
    print_label(i);
    if (at > labels[i].at && !is_driver(at)) printf(" + %d", at - labels[i].at);
}

/* The JSR whose return address stands on the stack above s, or 0. */
static int call_above(int s)
{
    const int call = s < 0xFE ? word_at(0x101 + s) - 2 : 0;
    return call < ROM || call >= MEMORY - 6 || memory[call] != JSR_OPCODE ? 0 : call;
}

/* The calls whose return addresses stand on the stack above s, but those of the driver's own; a 0
 * ends them. */
static void find_calls(int s, int *calls)
{
    int count = 0;
    memset(calls, 0, MOST_CALLS * sizeof *calls);
    for (int i = 0; i < MOST_CALLS; i++, s += 2) {
        const int call = call_above(s);
        if (!call) return;
        if (!is_driver(call)) calls[count++] = call;
    }
}

static void print_calls(const int *calls)
{
    for (int i = 0; i < MOST_CALLS && calls[i]; i++) {
        printf(", from ");
        print_place(calls[i]);
    }
}

/* Where a subroutine is both called, and run into by the instruction before it, an RTS may be
 * missing there. `entry` is its first instruction. */
static int is_run_into(int entry) { return is_called[entry] && ran_from[entry]; }

/* The subroutine of a place, or of one of the calls that led there, that is run into; or 0. */
static int run_into(int at, const int *calls)
{
    const int i = label_before(at);
    if (i >= 0 && is_run_into(labels[i].at)) return labels[i].at;
    for (int k = 0; k < MOST_CALLS && calls[k]; k++)
        if (is_run_into(word_at(calls[k] + 1) % MEMORY)) return word_at(calls[k] + 1) % MEMORY;
    return 0;
}

static void print_run_into(int at, const int *calls)
{
    const int entry = run_into(at, calls), i = entry ? label_before(entry) : -1;
    if (i < 0) return;
    printf("; ");
    print_place(ran_from[entry]);
    printf(", runs on into ");
    print_label(i);
    printf(": is an rts missing before it?");
}

static void fail(const char *format, ...)
{
    va_list list;
    int calls[MOST_CALLS];
    va_start(list, format);
    vprintf(format, list);
    va_end(list);
    printf(", by ");
    print_place(instruction);
    find_calls(processor.s, calls);
    if (is_driver(instruction)) print_calls(calls);
    printf(", at %.3f s", (double)processor.cycles / CYCLES_A_SECOND);
    print_run_into(instruction, calls);
    printf("\n");
    exit(1);
}

/* Counts what the instruction at a place does, which calls led to that left this S. */
static void note_at(vain *found, int at, int s, uint64_t cycles)
{
    if (found->count++) return;
    found->at = at;
    find_calls(s, found->calls);
    found->cycles = cycles;
}

/* Counts what the instruction that runs does. */
static void note_here(vain *found) { note_at(found, instruction, processor.s, processor.cycles); }

/* Counts the call of the driver that is at hand. */
static void note(vain *found)
{
    note_at(found, (uint16_t)(now->back - 3), now->at_entry.s + 2, now->at_entry.cycles);
}

/* Of the first one: the place, and the calls that led there. */
static void print_first(const vain *found)
{
    printf(", the first by ");
    print_place(found->at);
    print_calls(found->calls);
    printf(", at %.3f s", (double)found->cycles / CYCLES_A_SECOND);
}

static void warn(const vain *found)
{
    printf("warning: %ld %s", found->count, found->what);
    print_first(found);
    print_run_into(found->at, found->calls);
    printf("\n");
}

static int below(int count)
{
    seed ^= seed << 13;
    seed ^= seed >> 7;
    seed ^= seed << 17;
    return (int)((uint32_t)(seed >> 20) % (uint32_t)count);
}

static int is_nmi(void) { return now != contexts; }

static const char *whose(void) { return is_nmi() ? "the NMI" : "the program"; }

/* --- Buttons --- */

static const struct { char name[16]; int at; } buttons[] = {
    { "hyperspace", 0x2003 }, { "fire", 0x2004 }, { "step", 0x2005 }, { "slam", 0x2006 },
    { "test", TEST }, { "coin_left", 0x2400 }, { "coin_center", 0x2401 },
    { "coin_right", 0x2402 }, { "start_1", 0x2403 }, { "start_2", 0x2404 },
    { "thrust", 0x2405 }, { "right", 0x2406 }, { "left", 0x2407 }
};
typedef struct {
    double time;
    int number, at, is_down;            /* its place in the file, and the address of the button */
} press;

static press presses[4000];
static int press_count, next_press;
static uint8_t closed[INPUTS_END - INPUTS];
/* As the arcade emulator has them at first: two bits of each. */
static const uint8_t switches[4] = { 0xFE, 0xFC, 0xFD, 0xFC };

static int compare_presses(const void *one, const void *other)
{
    const press *a = one, *b = other;
    if (a->time != b->time) return a->time < b->time ? -1 : 1;
    return a->number - b->number;
}

static void read_presses(const char *path)
{
    FILE *file = fopen(path, "r");
    char line[200], name[100], way[10];
    double time;
    if (!file) exit(2);
    while (fgets(line, sizeof line, file) && press_count < 4000) {
        line[strcspn(line, "#")] = 0;
        if (sscanf(line, "%lf %99s %9s", &time, name, way) != 3) continue;
        for (unsigned i = 0; i < sizeof buttons / sizeof buttons[0]; i++) {
            if (strcmp(name, buttons[i].name)) continue;
            press next = { time, press_count, buttons[i].at, !strcmp(way, "down") };
            presses[press_count++] = next;
        }
    }
    fclose(file);
    qsort(presses, (size_t)press_count, sizeof presses[0], compare_presses);
}

/* In the board's run they are taken up as the arcade emulator does, some sixty times a second. */
static void press_buttons(void)
{
    uint64_t until = processor.cycles;
    if (is_boards) until -= until % FRAME_CYCLES;
    while (next_press < press_count &&
           presses[next_press].time * CYCLES_A_SECOND <= (double)until) {
        closed[presses[next_press].at - INPUTS] = (uint8_t)presses[next_press].is_down;
        next_press++;
    }
}

static int read_input(int at)
{
    if (at == CLOCK) return processor.cycles & 0x100 ? 0xFF : 0x7F;
    if (at >= SWITCHES && at < SWITCHES + 4) return switches[at - SWITCHES];
    return closed[at - INPUTS] ? 0xFF : 0x7F;
}

/* --- The bus --- */

static int is_hardware(int at)
{
    return at == FLAG || at == STROBE || (at >= VECTOR_RAM && at < VECTOR_RAM + 0x800);
}

uint8_t bus_fetch(uint16_t at) { return memory[at % MEMORY]; }

/* After dvg_reset has returned, a byte of RAM that is read should have been written. */
static void check_read(int at)
{
    if (was_run[at]) reads_code[instruction % MEMORY] = 1;
    if (!reader[at] || reads_code[reader[at]]) reader[at] = instruction % MEMORY;
    if (at >= RAM_END || was_written[at] || now->in_driver || !was_reset) return;
    note_here(&blind_reads[at]);
}

/* Before the first call a program may test the vector RAM and look at the flag: no run is open. */
uint8_t bus_read(uint16_t at, int dummy)
{
    at %= MEMORY;
    if (!dummy) check_read(at);
    if (is_hardware(at) && !now->in_driver && has_called) fail("%s reads %04X", whose(), at);
    if (at == FLAG) return processor.cycles < run_ends ? 0xFF : 0x7F;
    if (at < INPUTS || at >= INPUTS_END) return memory[at];
    input_read = at;
    return read_input(at);
}

/* A write that isn't the driver's. */
static void check_write(int at)
{
    int is_operand = at >= OPERANDS && at < OPERANDS_END;
    if (is_hardware(at) && (has_called || at == STROBE)) fail("%s writes %04X", whose(), at);
    if (at >= 0x5000) fail("%s writes %04X, which is ROM", whose(), at);
    if (at >= VARIABLES && at < VARIABLES_END && was_reset && !begins_anew &&
        (is_nmi() || !is_operand))
        fail("%s writes the driver's byte %02X", whose(), at);
    if (at >= table_from && at < table_to && memory[VARIABLES] == WRITING)
        fail("%s writes %04X, of the table that is being written", whose(), at);
    if (is_nmi() && at >> 8 == 1 && (at & 0xFF) > now->before.s)
        fail("the NMI writes %04X, which stands on the stack above S", at);
    if (is_operand && !kinds[memory[instruction]].is_change) operands_set |= 1 << (at - OPERANDS);
}

/* What an NMI counts by INC is a clock, which may begin anywhere. */
static void note_write(int at)
{
    was_written[at] = 1;
    if (is_nmi() && (memory[instruction] & 0xE7) == 0xE6) was_counted[at] = 1;
}

void bus_write(uint16_t at, uint8_t value)
{
    at %= MEMORY;
    if (!now->in_driver) check_write(at);
    if (at < RAM_END) note_write(at);
    if (at == STROBE) run_ends = processor.cycles + 500 + (uint64_t)below(30000);
    if (at < RAM_END || (at >= VECTOR_RAM && at < VECTOR_RAM + 0x800)) memory[at] = value;
}

/* --- What is built --- */

/* Ten bits of magnitude and a sign, which zero doesn't have, and no free bit. */
static int is_number(int word) { return !(word & 0x800) && (word & 0x7FF) != 0x400; }

/* The name of the shape that stands at the place of a word, or null. */
static const char *shape_of(int word)
{
    for (int i = 0; i < shape_count; i++)
        if (shapes[i] == (word & 0xFFF)) return shape_names[i];
    return 0;
}

/* The canonical word of a short vector, or a call of a shape. */
static int is_instruction(int word)
{
    if (word >> 12 == 12) return shape_of(word) != 0;
    return word >> 12 == 15 && (word & 0x700) != 0x400 && (word & 7) != 4;
}

static int is_vector(int first, int second)
{
    return first >> 12 < 10 && is_number(first) && is_number(second);
}

static void check_put(int first, int second, int is_pair)
{
    int is_labs = is_pair && first >> 12 == 10;
    if (!instructions && !is_labs) fail("a frame doesn't begin with a LABS, but with %04X", first);
    if (is_pair && !is_labs && !is_vector(first, second))
        fail("no canonical vector: %04X %04X", first, second);
    if (!is_pair && !(first >> 12) && shape_of(first))
        fail("no short vector, nor a call of a shape: %04X is where %s stands, its call is %04X",
            first, shape_of(first), first | 0xC000);
    if (!is_pair && !is_instruction(first))
        fail("no short vector, nor a call of a shape: %04X", first);
    instructions++;
}

static int is_building(void) { return memory[VARIABLES] == BUILD; }

/* --- Calls of the driver --- */

static void check_table(int at)
{
    int words, known = 0;
    if (at < 0x200 || at >= MEMORY - 4) fail("a table at %04X", at);
    words = word_at(at);
    table_from = at;
    table_to = at + 2 * words + 2;
    for (int i = at; i < table_to; i++)
        if (is_hardware(i)) fail("a table at %04X, in the hardware", at);
    for (int i = 0; i < tables; i++)
        known |= at == (memory[tables_low + i] | memory[tables_high + i] << 8);
    if (!known) fail("a table at %04X, where `dvg lay` wrote none", at);
    if (table_to > MEMORY || words < 1 || words > 511)
        fail("a table of %d words at %04X", words, at);
}

static int does_tick(enum routine routine)
{
    return routine == TICK || routine == TICKS || routine == RUN;
}

static int does_put(enum routine routine)
{
    return routine == PUT || routine == PAIR || routine == SET || routine == VECTOR ||
        routine == COPY;
}

/* Whether it takes dvg_y and dvg_x, and leaves something else there. */
static int moves(enum routine routine) { return routine == SET || routine == VECTOR; }

/* What one must do before a call of this routine. */
static void check_call(enum routine routine)
{
    const cpu *c = &processor;
    if ((!was_reset || begins_anew) && (routine != RESET || is_nmi()))
        fail("%s calls %s before dvg_reset has returned", whose(), names[routine]);
    if (now == contexts + 2 && contexts[1].in_driver)
        fail("an NMI amid the ticks of an NMI calls %s", names[routine]);
    if (is_nmi() && !does_tick(routine)) fail("the NMI calls %s", names[routine]);
    if (does_tick(routine)) *(is_nmi() ? &ticks_in_nmi : &ticks_in_main) = 1;
    if (ticks_in_main && ticks_in_nmi) fail("ticks from two places");
    if (routine == OFFER && memory[VARIABLES] == IDLE) check_table(c->a | c->x << 8);
    if (routine == OPEN && is_building()) fail("dvg_open before dvg_close");
    if (routine == COPY) fail("dvg_copy, of which nothing is proved");
    if (!is_building()) return;
    if (routine == PUT) check_put(c->a | c->x << 8, 0, 0);
    if (routine == PAIR) check_put(word_at(OPERANDS), word_at(OPERANDS + 2), 1);
    if (routine == SET) check_put(0xA000, 0, 1);
    if (routine == VECTOR && !instructions++) fail("a frame begins with a vector");
    if (routine == CLOSE && !instructions) fail("a frame with nothing in it is closed");
}

/* Counts the registers of these that the driver left. */
static void note_lost(int taken, void (*note_of)(vain *))
{
    for (int i = 0; i < REGISTERS; i++)
        if (now->lost & taken & 1 << i) note_of(&lost_registers[i]);
    now->lost &= ~taken;
}

static void begin_call(void)
{
    int routine = 0;
    while (routine < ROUTINES && label(names[routine]) != processor.pc) routine++;
    if (routine == ROUTINES) fail("%s jumps to %04X, amid the driver", whose(), processor.pc);
    check_call((enum routine)routine);
    has_called = 1;
    now->in_driver = 1;
    now->routine = (enum routine)routine;
    now->at_entry = processor;
    now->back = (uint16_t)(word_at(0x101 + processor.s) + 1);
    calls++;
    note_lost(takes[routine], note);
    if (does_put(now->routine) && !is_building()) note(&vain_puts);
    if (now->routine == SET && processor.a & 0x0F) note(&lost_scales);
    if (!moves(now->routine)) return;
    if (operands_set != ALL_OPERANDS) note(&old_places);
    operands_set = 0;
}

static void end_call(void)
{
    int is_taken = !(processor.p & CARRY);
    now->in_driver = 0;
    now->lost = ALL_REGISTERS;
    if (processor.s != (uint8_t)(now->at_entry.s + 2) || processor.pc != now->back)
        fail("%s doesn't return to where it was called", names[now->routine]);
    if (now->routine == RESET) {
        was_reset = 1;
        begins_anew = 0;
    }
    if (now->routine == OPEN && is_taken) instructions = put_count = 0;
    if (now->routine == OPEN && !is_taken) note(&refused_opens);
    if (now->routine == OFFER && !is_taken) note(&refused_offers);
    if (now->routine == REDRAW && !is_taken) note(&refused_redraws);
    if (does_put(now->routine) && !is_taken && is_building()) note(&left_out);
    if (does_put(now->routine) && is_taken)
        note_put((uint16_t)(now->back - 3), call_above(processor.s));
    if (now->routine == CLOSE && is_taken && has_rom)
        draw_frame(memory + VECTOR_RAM, memory[FREE] & 2 ? 0x201 : 0x001);
    frames_offered += now->routine == OFFER && is_taken;
    frames_built += now->routine == CLOSE && is_taken;
}

/* --- NMIs --- */

static void take_nmi(void)
{
    int is_nested = is_nmi();
    now++;
    memset(now, 0, sizeof *now);
    now->before = processor;
    now->since = processor.cycles;
    now->in_driver = 1;                 /* the pushes are no one's */
    begin_nmi(&processor);
    now->in_driver = 0;
    nmis++;
    nested += is_nested;
}

/* An NMI is over where S is as it was. One that is itself interrupted takes longer. */
static void end_nmi(int was_interrupted)
{
    const cpu *old = &now->before;
    int lasted = (int)(processor.cycles - now->since);
    if (processor.a != old->a || processor.x != old->x || processor.y != old->y ||
        processor.pc != old->pc || ((processor.p ^ old->p) & ~(BREAK | UNUSED)))
        fail("the NMI doesn't give back the registers");
    if (!was_interrupted && lasted > NMI_MOST_CYCLES) fail("the NMI lasts %d cycles", lasted);
    now--;
}

/* Whether an NMI comes before this instruction. Those of the board go on being counted while the
 * self-test switch keeps them away. */
static int comes(uint64_t *next, int *was_interrupted)
{
    if (closed[TEST - INPUTS]) {
        if (is_boards && processor.cycles >= *next) *next += NMI_CYCLES;
        return 0;
    }
    if (now == contexts + 1 && !is_boards && !below(400)) {
        *was_interrupted = 1;
        return 1;
    }
    if (is_nmi() || processor.cycles < BEGUN) return 0;
    if (processor.cycles < *next && (is_boards || below(5000))) return 0;
    *next = (is_boards ? *next : processor.cycles) + NMI_CYCLES;
    *was_interrupted = 0;
    return 1;
}

/* --- A run --- */

/* The 6502 of cpu.h has no BRK. */
static void check_opcode(int opcode)
{
    if (processor.pc % MEMORY >= program_from) last_in_rom = processor.pc;
    else if (opcode_index[opcode] < 0) {
        instruction = last_in_rom;
        fail("the program is left, and %04X has no opcode: did an RTS take what was pushed?",
            processor.pc);
    }
    if (opcode == 0x00) fail("a BRK");
    if (opcode == TXS_OPCODE && is_nmi())
        fail("the NMI sets S: is it the reset? VECTORS has .word nmi, reset, irq");
    if (opcode == RTI_OPCODE && !is_nmi())
        fail("an RTI of no NMI: is it the reset's? VECTORS has .word nmi, reset, irq");
    if (opcode == RTS_OPCODE && is_nmi() && processor.s == (uint8_t)(now->before.s - 3))
        fail("the NMI ends with RTS, and not with RTI");
    if (opcode_index[opcode] < 0) fail("%02X, which is no opcode of the manual,", opcode);
}

/* Of a switch the other bits aren't known: bit 7 counts, or bits 1 and 0 of those on the board. */
static void check_input(int opcode)
{
    if (input_read >= 0 && (opcode == BEQ_OPCODE || opcode == BNE_OPCODE)) note_here(&misread);
    input_read = -1;
}

/* The address that stands behind an opcode. */
static int operand_of(int at) { return word_at((at + 1) % MEMORY) % MEMORY; }

/* An instruction that sums does so in one way. */
static void check_sum(int opcode)
{
    const int operation = opcodes[opcode_index[opcode]].operation;
    if (operation != ADC && operation != SBC) return;
    sums[instruction] |= processor.p & DECIMAL ? 2 : 1;
    if (sums[instruction] == 3) note_here(&mixed_sums);
}

/* An output that takes any byte. */
static int takes_any(int at) { return at == WATCHDOG || at == NOISE_RESET; }

/* Neither the driver nor what prints letters keeps a register: a program sets one anew before it
 * takes its value. */
static void check_registers(int opcode)
{
    if (now->lost & kinds[opcode].taken &&
        !(kinds[opcode].mode == ABS && takes_any(operand_of(instruction))))
        note_lost(kinds[opcode].taken, note_here);
    now->lost &= ~kinds[opcode].set;
}

/* A read by an index goes no further than the list that stands there. */
static void check_list(int opcode)
{
    const int base = operand_of(instruction);
    const int index = kinds[opcode].index == IN_X ? processor.x : processor.y;
    const int beyond = base + index - list_ends[base] + 1;
    if (!list_ends[base]) return;
    if (beyond <= 0) lists[instruction].is_inside = 1;
    else note_here(&lists[instruction].reads);
    if (beyond > lists[instruction].most) lists[instruction].most = beyond;
}

/* Whether an instruction ends a subroutine, as a JMP to the driver does. */
static int returns(int at)
{
    return memory[at] == RTS_OPCODE || (memory[at] == JMP_OPCODE && is_driver(operand_of(at)));
}

/* Whether a call goes to what prints letters. */
static int prints(int call)
{
    for (int i = 0; i < PRINTERS; i++)
        if (printers[i] && printers[i] == operand_of(call)) return 1;
    return 0;
}

/* How the instruction was come to, and where it leads by a call. What follows a call is come to
 * from there. */
static void note_way(int opcode)
{
    const int last = now->last, at = instruction, before = memory[last];
    if (last && before != JMP_OPCODE && last + kinds[before].size == at)
        ran_from[at] = (uint16_t)last;
    else if (last && returns(last) && memory[at - 3] == JSR_OPCODE) {
        ran_from[at] = (uint16_t)(at - 3);
        if (prints(at - 3)) now->lost = ALL_REGISTERS;
    }
    if (opcode == JSR_OPCODE) is_called[operand_of(at)] = 1;
    now->last = at;
}

/* What the program's own instruction does that is seldom meant so. */
static void check_misuse(int opcode)
{
    instruction %= MEMORY;
    note_way(opcode);
    check_input(opcode);
    check_registers(opcode);
    check_sum(opcode);
    if (kinds[opcode].reads_list) check_list(opcode);
}

/* The program leaves as many bytes to an NMI as `make proof` wants, 32. S begins again at FF where
 * an NMI needs more. */
static void check_stack(void)
{
    if (!is_nmi() && processor.s < SPARE_STACK) fail("the stack grows down to %02X", processor.s);
    if (is_nmi() && now->before.s < HALF_STACK && processor.s >= HALF_STACK)
        fail("the NMI needs more of the stack than there is");
}

static void run_one(void)
{
    int inside = is_driver(processor.pc);
    instruction = processor.pc;
    was_run[instruction % MEMORY] = 1;
    if (!is_nmi() && processor.pc == word_at(MEMORY - 4)) begins_anew = 1;
    press_buttons();
    if (inside && !now->in_driver) begin_call();
    else if (!inside && now->in_driver) end_call();
    if (is_nmi() && processor.pc == label(names[TICK]) && ++now->ticks > NMI_MOST_TICKS)
        fail("more than %d ticks in an NMI", NMI_MOST_TICKS);
    if (was_reset) check_stack();
    check_opcode(memory[processor.pc % MEMORY]);
    if (!now->in_driver) check_misuse(memory[processor.pc % MEMORY]);
    step(&processor);
}

static void run(uint64_t cycles)
{
    uint64_t next = is_boards ? NMI_CYCLES : BEGUN;
    int was_interrupted = 0;
    while (processor.cycles < cycles) {
        if (comes(&next, &was_interrupted)) take_nmi();
        run_one();
        if (is_nmi() && processor.s == now->before.s) end_nmi(was_interrupted);
    }
}

static size_t read_file(const char *path, uint8_t *into, size_t most)
{
    FILE *file = fopen(path, "rb");
    size_t size = file ? fread(into, 1, most, file) : 0;
    if (!size) exit(2);
    fclose(file);
    return size;
}

static void read_shapes(const char *path)
{
    FILE *file = fopen(path, "r");
    char line[200];
    unsigned at;
    if (!file) exit(2);
    while (fgets(line, sizeof line, file) && shape_count < 1024)
        if (sscanf(line, "%31s = $%x", shape_names[shape_count], &at) == 2)
            shapes[shape_count++] = (int)at;
    fclose(file);
}

/* Whether the code stands where it is proved, as the bytes that are proved, and its variables. */
static void check_place(const uint8_t *driver, size_t size)
{
    if (memcmp(memory + CODE, driver, size)) fail("the code from %04X on isn't the driver's", CODE);
    if (label("dvg_phase") != VARIABLES || label("length") != VARIABLES_END - 1)
        fail("the driver's variables stand from %02X on", label("dvg_phase"));
    code_end = CODE + (int)size;
    if (word_at(VECTORS) == word_at(VECTORS + 2))
        fail("the NMI's vector leads to the reset: VECTORS has .word nmi, reset, irq");
}

/* The routines of letters.inc and of parts/score.inc that print, if the program has them. */
static void find_printers(void)
{
    if (find_label("letters_low") < 0) return;
    for (int i = 0; i < PRINTERS; i++)
        if (find_label(printer_names[i]) >= 0) printers[i] = label(printer_names[i]);
}

/* The lists of tables, if the program has some. */
static void find_tables(void)
{
    for (int i = 0; i < label_count; i++) {
        if (!strcmp(labels[i].name, "tables_low")) tables_low = labels[i].at;
        if (!strcmp(labels[i].name, "tables_high")) tables_high = labels[i].at;
    }
    tables = tables_high - tables_low;
}

/* --- What was seen --- */

/* Adds what was counted at another place: the first one of all counts as first. */
static void add(vain *all, const vain *more)
{
    const long count = all->count + more->count;
    if (!all->count || more->cycles < all->cycles) {
        const char *what = all->what;
        *all = *more;
        all->what = what;
    }
    all->count = count;
}

/* Of the byte that was read first. The last label of a byte is the program's own. */
static void tell_blind_reads(void)
{
    vain all = { .what = "reads of bytes that nothing had written" };
    const char *name = 0;
    int byte = 0;
    for (int at = 0; at < RAM_END; at++) {
        if (was_counted[at] || !blind_reads[at].count) continue;
        if (!all.count || blind_reads[at].cycles < all.cycles) byte = at;
        add(&all, &blind_reads[at]);
    }
    if (!all.count) return;
    for (int i = 0; i < label_count; i++)
        if (labels[i].at == byte) name = labels[i].name;
    printf("warning: %ld %s", all.count, all.what);
    print_first(&all);
    printf(", of %04X%s%s\n", byte, name ? ", " : "", name ? name : "");
}

/* From where to where the strokes go, and what the tube shows. */
static void print_strokes(const place_seen *place)
{
    printf("it goes from %ld, %ld to %ld, %ld, and the tube shows 0, %d to %d, %d\n",
        place->low[0] / UNIT, place->low[1] / UNIT, place->high[0] / UNIT, place->high[1] / UNIT,
        TUBE_BOTTOM, TUBE_RIGHT, TUBE_TOP);
}

/* Of a place of whose strokes none is seen, or some in no picture, or all are tiny. */
static void tell_place(const place_seen *place)
{
    const int is_tiny = place->is_bright && !place->scale && place->most >= SHORT_MOVE;
    if (!place->pictures || (place->seen_count && place->off_count < place->pictures && !is_tiny))
        return;
    printf("warning: %s of what ", is_tiny ? "all is of scale 0" : place->seen_count ?
        "a part isn't seen" : "nothing is seen");
    print_place(place->call);
    if (place->around) printf(", from ");
    if (place->around) print_place(place->around);
    printf(" puts, in %s%ld pictures: ", place->seen_count ? "each of " : "", place->pictures);
    if (is_tiny)
        printf("at most %.1f units; A is 16 times the scale, and the intensity\n",
            (double)place->most / UNIT);
    else if (!place->is_bright) printf("all is dark\n");
    else print_strokes(place);
}

/* Where the segment DATA begins, or else the vectors. */
static int data_from(void)
{
    for (int i = 0; i < segment_count; i++)
        if (!strcmp(segments[i].name, "DATA")) return (int)segments[i].from;
    return VECTORS;
}

/* Whether a list may stand there: in the program's ROM, or in pages 2 and 3 of the RAM, but for
 * their first byte, from which parts/score.inc counts to any place of page 2. */
static int may_list(int at)
{
    return (at >= code_end && at < VECTORS) || (at >= LISTS && at < RAM_END);
}

/* Where the list at a label ends: at the next label, or with its segment. */
static int find_list_end(int from)
{
    int end = from < RAM_END ? RAM_END : VECTORS;
    for (int i = 0; i < label_count; i++)
        if (is_own(i) && labels[i].at > from && labels[i].at < end) end = labels[i].at;
    for (int i = 0; i < segment_count; i++) {
        const int behind = (int)segments[i].last + 1;
        if (behind > from && behind < end) end = behind;
    }
    return end;
}

static void find_list_ends(void)
{
    for (int i = 0; i < label_count; i++)
        if (is_own(i) && may_list(labels[i].at))
            list_ends[labels[i].at] = find_list_end(labels[i].at);
}

/* Whether an instruction reads the list at a label as if that had some bytes more. What goes on by
 * more than half of the list takes it and what follows for one. */
static int reads_more(int at, int base)
{
    return lists[at].reads.count && lists[at].is_inside && operand_of(at) == base &&
        lists[at].most <= (list_ends[base] - base) / 2;
}

/* The program's own label of a place. */
static void print_name(int at)
{
    int i = 0;
    while (i < label_count && (labels[i].at != at || !is_own(i))) i++;
    if (i < label_count) print_label(i);
    else printf("what follows");
}

static void tell_short_list(int base)
{
    vain all = { 0 };
    int most = 0;
    for (int at = code_end; at < VECTORS; at++) {
        if (!reads_more(at, base)) continue;
        add(&all, &lists[at].reads);
        if (lists[at].most > most) most = lists[at].most;
    }
    if (!all.count) return;
    printf("warning: %ld reads go beyond the end of ", all.count);
    print_name(base);
    printf(", by up to %d byte%s, into ", most, most > 1 ? "s" : "");
    print_name(list_ends[base]);
    print_first(&all);
    printf("\n");
}

static void tell_short_lists(void)
{
    for (int base = LISTS; base < VECTORS; base++)
        if (list_ends[base]) tell_short_list(base);
}

static int is_branch(int opcode) { return (opcode & 0x1F) == 0x10; }

/* Whether a byte ran, or was read as data, but by what adds up the ROM. */
static int is_used(int at) { return was_run[at] || (reader[at] && !reads_code[reader[at]]); }

/* Where nothing of the program's code ran, in its order: its labels, and what follows a branch that
 * was always taken. */
static void tell_unused(int data)
{
    int count = 0;
    for (int at = code_end; at < data; at++) {
        const int i = label_before(at), is_behind = was_run[at - 2] && is_branch(memory[at - 2]);
        if (is_used(at) || i < 0 || (at > labels[i].at && !is_behind)) continue;
        printf("%s", count++ ? " " : "never run: ");
        print_label(i);
        if (at > labels[i].at) printf("+%d", at - labels[i].at);
    }
    if (count) printf("\n");
}

static void tell_warnings(void)
{
    for (unsigned i = 0; i < sizeof warnings / sizeof warnings[0]; i++)
        if (warnings[i]->count) warn(warnings[i]);
    tell_blind_reads();
    tell_short_lists();
    if (!frames_built && !frames_offered) printf("warning: no frame was built or offered\n");
    for (int i = 0; is_boards && i < place_count; i++) tell_place(&places_seen[i]);
}

int main(int count, char **words)
{
    uint8_t driver[PROGRAM_BYTES], program[PROGRAM_BYTES];
    size_t size;
    if (count < 7 || count > 10) return 64;
    ready_opcodes();
    ready_kinds();
    size = read_file(words[2], program, sizeof program);
    program_from = MEMORY - (int)size;
    memcpy(memory + program_from, program, size);
    read_labels(words[3]);
    if (count > 7 && *words[7]) read_presses(words[7]);
    read_shapes(words[4]);
    if (count > 9) {
        uint8_t rom[VECTOR_ROM];
        has_rom = 1;
        size = read_file(words[9], rom, sizeof rom);
        memcpy(memory + VECTOR_ROM_END - size, rom, size);
    }
    seed = strtoull(words[6], 0, 10);
    is_boards = !seed;
    seed = seed * 0x9E3779B97F4A7C15u + 1;
    check_place(driver, read_file(words[1], driver, sizeof driver));
    find_tables();
    find_printers();
    if (count > 8 && !read_segments(words[8])) return 2;
    find_list_ends();
    for (int i = 0; i < 0x400; i++) memory[i] = (uint8_t)below(256);
    processor.p = UNUSED | INTERRUPT;
    processor.s = 0xFD;
    processor.pc = (uint16_t)word_at(MEMORY - 4);
    run(strtoull(words[5], 0, 10) * CYCLES_A_SECOND);
    printf("%ld calls, %ld NMIs, %ld of them amid an NMI, %ld frames offered and %ld built\n",
        calls, nmis, nested, frames_offered, frames_built);
    tell_warnings();
    if (count > 8) tell_unused(data_from());
    return 0;
}
