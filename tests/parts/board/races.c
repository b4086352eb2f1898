/* Interrupts amid calls of the 6502 driver, before each of their instructions.
 *
 *     races amid PROGRAM LABELS LIVES SEED           ticks of an NMI amid the calls of a program
 *     races traps PROGRAM LABELS                     what happens where a trap isn't kept
 *     races nmi PROGRAM LABELS                       the NMI of a program, amid that very NMI
 *
 * `amid` begins at random states, with tables, frames that are being built, and any bytes of the
 * flag. An NMI that ticks 1, 2 or 4 times comes before each instruction of each call of the main
 * program. What comes out (the driver's bytes, the vector RAM, C, and the accesses of the hardware
 * in their order) must be that of some ticks, the whole call, and the other ticks. `traps` shows
 * the interleavings of docs/BOARD.md that go wrong, each with what a right one does. */
#include <stdarg.h>
#include <stdio.h>
#include <stdlib.h>
#include <string.h>
#ifdef SIM65
#include "sim65.h"
#else
#include "cpu.h"
#endif
#include "labels.h"

enum {
    CODE = 0x6800, VECTOR_RAM = 0x4000, FLAG = 0x2002, STROBE = 0x3000, TABLES = 0x5000,
    RETURN_TO = 0xFFF0, LOW_BYTES = 0x200, RAM_BYTES = 0x800, MOST_ACCESSES = 600, FLAGS = 64,
    NMI_TICKS = 24                      /* of examples/board/game.s */
};
enum { BOOT = 1, FLIP = 4, WAIT = 5, SEND = 6, BUILD = 7 };

/* An access of the hardware: a write, a look at byte 001, a read of the flag, or a call that the
 * traps count, with its C. */
typedef struct {
    int at, byte, writes;
} access;

typedef struct {
    cpu processor;
    uint8_t low[LOW_BYTES], ram[RAM_BYTES], flags[FLAGS];
    int flag_reads, count;
    access log[MOST_ACCESSES];
} world;

static world now;
static uint8_t rest[65536];
static int from_place, to_place, phase_place;
static uint64_t seed = 1979;

static void fail(const char *format, ...)
{
    va_list list;
    va_start(list, format);
    vprintf(format, list);
    printf("\n");
    va_end(list);
    exit(1);
}

static int below(int count)
{
    seed ^= seed << 13;
    seed ^= seed >> 7;
    seed ^= seed << 17;
    return (int)((uint32_t)(seed >> 20) % (uint32_t)count);
}

static int any(void) { return below(256); }

/* --- The bus --- */

static void note(int at, int byte, int writes)
{
    access one = { at, byte, writes };
    if (now.count < MOST_ACCESSES) now.log[now.count++] = one;
}

static uint8_t *cell(uint16_t at)
{
    if (at < LOW_BYTES) return now.low + at;
    if (at >= VECTOR_RAM && at < VECTOR_RAM + RAM_BYTES) return now.ram + at - VECTOR_RAM;
    return rest + at;
}

uint8_t bus_fetch(uint16_t at) { return *cell(at); }

uint8_t bus_read(uint16_t at, int dummy)
{
    if (dummy) return *cell(at);
    if (at == FLAG) {
        uint8_t byte = now.flags[now.flag_reads++ % FLAGS];
        note(at, byte, 0);
        return byte;
    }
    if (at == VECTOR_RAM + 1) note(at, *cell(at), 0);
    return *cell(at);
}

void bus_write(uint16_t at, uint8_t value)
{
    if (at == STROBE || (at >= VECTOR_RAM && at < VECTOR_RAM + RAM_BYTES)) note(at, value, 1);
    if (at < LOW_BYTES || (at >= VECTOR_RAM && at < VECTOR_RAM + RAM_BYTES)) *cell(at) = value;
    else if (at != STROBE) fail("a write of %04X", at);
}

/* --- Calls --- */

typedef void interrupt(void);

/* Runs up to a return to RETURN_TO. The interrupt comes before the instruction of this number, or
 * never, where it is -1. The number of instructions is returned. */
static int run_on(int at, interrupt *comes)
{
    int steps = 0;
    while (now.processor.pc != RETURN_TO) {
        if (steps == at) comes();
        if (!step(&now.processor)) fail("no opcode before %04X", now.processor.pc);
        if (++steps > 100000) fail("a call runs on");
    }
    return steps;
}

static int call_at(const char *name, int a, int x, int y, int at, interrupt *comes)
{
    now.processor.a = (uint8_t)a;
    now.processor.x = (uint8_t)x;
    now.processor.y = (uint8_t)y;
    push(&now.processor, (RETURN_TO - 1) >> 8);
    push(&now.processor, (RETURN_TO - 1) & 0xFF);
    now.processor.pc = (uint16_t)label(name);
    return run_on(at, comes);
}

static int call(const char *name, int a, int x, int y) { return call_at(name, a, x, y, -1, NULL); }

static int carry(void) { return now.processor.p & CARRY; }

static int phase(void) { return now.low[phase_place]; }

/* An NMI whose own code is the call of a routine: it pushes three bytes, and gives back all
 * registers. */
static void interrupt_by(const char *name, int a, int x)
{
    cpu kept = now.processor;
    for (int i = 0; i < 3; i++) push(&now.processor, any());
    call(name, a, x, 0);
    if (strcmp(name, "dvg_ticks")) note(label(name), carry(), 0);
    now.processor = kept;
}

static int nmi_ticks;

static void tick_amid(void)
{
    if (nmi_ticks) interrupt_by("dvg_ticks", nmi_ticks, 0);
}

static void ticks(int count)
{
    nmi_ticks = count;
    tick_amid();
}

/* --- States --- */

static void write_table(int at, int words)
{
    static const uint8_t highs[] = { 0xA0, 0xC4, 0xF1, 0xB0, 0xE0, 0xC0, 0x05 };
    rest[at] = (uint8_t)words;
    rest[at + 1] = (uint8_t)(words >> 8);
    for (int i = 0; i < words; i++) {
        rest[at + 2 + 2 * i] = (uint8_t)any();
        rest[at + 3 + 2 * i] = highs[below(7)];
    }
}

static void boot(int running)
{
    memset(&now, 0, sizeof now);
    now.processor.s = 0xFD;
    now.processor.p = UNUSED | INTERRUPT;
    for (int i = 0; i < RAM_BYTES; i++) now.ram[i] = (uint8_t)any();
    for (int i = from_place; i < to_place; i++) now.low[i] = (uint8_t)any();
    for (int i = 0; i < FLAGS; i++) now.flags[i] = running && below(2) ? 0x80 : 0;
    write_table(TABLES, 1 + below(5));
    write_table(TABLES + 0x100, 127 + below(3));
    call("dvg_reset", 0, 0, 0);
}

static void build_some(void)
{
    static const int counts[] = { 1, 3, 40, 130 };
    for (int i = counts[below(4)]; i > 0; i--) call(below(2) ? "dvg_put" : "dvg_pair", 1, 0xF2, 0);
}

/* Some calls, so that what follows begins at any phase. */
static void live(int most)
{
    for (int i = below(most); i > 0; i--) {
        int kind = below(12);
        if (kind < 7) ticks(kind < 4 ? 1 : 1 + below(30));
        else if (kind == 7) call("dvg_offer", 0, (TABLES >> 8) + below(2), 0);
        else if (kind == 8) call("dvg_redraw", 0, 0, 0);
        else if (kind == 9) call("dvg_open", 0, 0, 0);
        else if (kind == 10) build_some();
        else call("dvg_close", 0, 0, 0);
    }
    now.count = 0;
}

/* Whether two worlds came out the same: but for what dvg_ticks counts by, which no other call
 * looks at. */
static int are_same(const world *one, const world *other)
{
    int left = label("left");
    for (int i = from_place; i < to_place; i++)
        if (i != left && one->low[i] != other->low[i]) return 0;
    return one->count == other->count && !memcmp(one->ram, other->ram, RAM_BYTES) &&
        !((one->processor.p ^ other->processor.p) & CARRY) &&
        !memcmp(one->log, other->log, (size_t)one->count * sizeof *one->log);
}

/* --- Ticks amid the calls of the main program --- */

static const char *const routines[] = {
    "dvg_reset", "dvg_offer", "dvg_open", "dvg_redraw", "dvg_put", "dvg_labs", "dvg_pair",
    "dvg_close", "dvg_copy", "dvg_vector"
};
enum { ROUTINES = sizeof routines / sizeof routines[0] };

static long tried;

/* These ticks, the whole call, and the ticks that are left. */
static world in_turn(const world *start, const char *name, const int *registers, int before)
{
    int all = nmi_ticks;
    now = *start;
    ticks(before);
    call(name, registers[0], registers[1], registers[2]);
    ticks(all - before);
    nmi_ticks = all;
    return now;
}

static void try_amid(const world *start, const char *name, const int *registers)
{
    world whole[5];
    int steps;
    for (int i = 0; i <= nmi_ticks; i++) whole[i] = in_turn(start, name, registers, i);
    now = *start;
    steps = call(name, registers[0], registers[1], registers[2]);
    for (int at = 0; at < steps; at++) {
        int fits = 0;
        now = *start;
        call_at(name, registers[0], registers[1], registers[2], at, tick_amid);
        for (int i = 0; i <= nmi_ticks; i++) fits |= are_same(&now, whole + i);
        if (!fits)
            fail("%s at phase %d, %d ticks before its instruction %d: not as whole calls", name,
                start->low[phase_place], nmi_ticks, at);
        tried++;
    }
}

static void try_lives(int lives)
{
    static world start;
    for (int life = 0; life < lives; life++) {
        boot(1);
        live(60);
        start = now;
        for (int i = 0; i < ROUTINES; i++) {
            const char *name = routines[i];
            int takes_address = !strcmp(name, "dvg_offer") || !strcmp(name, "dvg_copy");
            int registers[3] = { any(), any(), 4 };
            if (takes_address) registers[0] = 0, registers[1] = (TABLES >> 8) + below(2);
            for (nmi_ticks = 1; nmi_ticks <= 4; nmi_ticks *= 2) try_amid(&start, name, registers);
        }
    }
    printf("%ld interleavings of ticks amid calls are as whole calls\n", tried);
}

/* --- The traps --- */

static void reach(int wanted)
{
    boot(0);
    ticks(2);
    call("dvg_offer", 0, TABLES >> 8, 0);
    for (int i = 0; i < 2000 && phase() != wanted; i++) ticks(1);
    if (phase() != wanted) fail("phase %d isn't reached", wanted);
    now.count = 0;
}

/* How many bytes of the next frame are written into this half, while the generator draws there. */
static int torn_bytes(int drawn)
{
    int torn = 0;
    now.count = 0;
    ticks(4);
    call("dvg_offer", 0, TABLES >> 8, 0);
    ticks(20);
    for (int i = 0; i < now.count; i++)
        torn += now.log[i].at >= VECTOR_RAM + 2 && (now.log[i].at - VECTOR_RAM) / 0x400 == drawn;
    return torn;
}

/* An NMI amid the ticks of another NMI, while the generator draws: the flip is done twice, and so
 * nothing waits. */
static void show_nested(void)
{
    static world start;
    int tears = 0, undone = 0, steps, drawn;
    reach(FLIP);
    memset(now.flags, 0x80, FLAGS);
    start = now;
    drawn = now.ram[1] >> 1 & 1;
    ticks(2);
    if (torn_bytes(drawn)) fail("two ticks in turn tear");
    now = start;
    steps = call("dvg_tick", 0, 0, 0);
    for (int at = 0; at < steps; at++) {
        now = start;
        nmi_ticks = 1;
        call_at("dvg_tick", 0, 0, 0, at, tick_amid);
        undone += (now.ram[1] >> 1 & 1) == drawn;
        tears += torn_bytes(drawn) > 0;
    }
    if (!tears || !undone) fail("a tick amid a tick does no harm");
    printf("a tick amid a tick, before each of the %d instructions of the flip: %d tear a picture, "
        "%d undo the flip\n", steps, tears, undone);
}

static int flag_reads(void)
{
    int reads = 0;
    for (int i = 0; i < now.count; i++) reads += now.log[i].at == FLAG;
    return reads;
}

/* What dvg_ticks counts by is one byte: amid itself it goes on for 256 more ticks. */
static void show_count(void)
{
    reach(WAIT);
    memset(now.flags, 0x80, FLAGS);             /* each tick reads the flag */
    nmi_ticks = 5;
    call_at("dvg_ticks", 5, 0, 0, 4, tick_amid);
    if (flag_reads() < 256) fail("dvg_ticks amid dvg_ticks does %d ticks", flag_reads());
    printf("dvg_ticks of 5 amid dvg_ticks of 5: %d ticks\n", flag_reads());
}

/* Ticks from two places: the strobe is never sent, and no offer is taken again. */
static void show_two_places(void)
{
    static world start;
    int stuck = 0, steps;
    reach(WAIT);
    start = now;
    steps = call("dvg_tick", 0, 0, 0);
    for (int at = 0; at < steps; at++) {
        now = start;
        nmi_ticks = 1;
        call_at("dvg_tick", 0, 0, 0, at, tick_amid);
        if (phase() != BUILD) continue;
        now.count = 0;
        call("dvg_run", 0, 0, 0);
        ticks(100);
        call("dvg_offer", 0, TABLES >> 8, 0);
        if (now.count || !carry() || phase() != BUILD) fail("the driver goes on");
        stuck++;
    }
    if (!stuck) fail("ticks from two places do no harm");
    printf("ticks from two places: before %d of %d instructions of the wait the driver is stuck\n",
        stuck, steps);
}

static const char *asked;

static void ask_amid(void) { interrupt_by(asked, 0, TABLES >> 8); }

/* Offers, redraws and dvg_open of an NMI amid a tick of the main program: they are as before or
 * after it, but between the two stores of DVG_SEND, and where the boot has read the flag. */
static void show_offers(void)
{
    static world start, before, after;
    long places = 0, early = 0, late = 0;
    for (int life = 0; life < 300; life++) {
        boot(1);
        live(70);
        start = now;
        for (int i = 1; i < 4; i++) {
            int steps;
            asked = routines[i];
            ask_amid();
            call("dvg_tick", 0, 0, 0);
            before = now;
            now = start;
            steps = call("dvg_tick", 0, 0, 0);
            ask_amid();
            after = now;
            for (int at = 0; at < steps; at++, places++) {
                now = start;
                call_at("dvg_tick", 0, 0, 0, at, ask_amid);
                now.processor.p = before.processor.p = after.processor.p;
                if (are_same(&now, &before) || are_same(&now, &after)) continue;
                early += start.low[phase_place] == SEND;
                late += start.low[phase_place] == BOOT;
                if (start.low[phase_place] != SEND && start.low[phase_place] != BOOT)
                    fail("%s amid a tick at phase %d", asked, start.low[phase_place]);
            }
            now = start;
        }
    }
    if (!early || !late) fail("offers amid a tick do no harm");
    printf("offers amid ticks: of %ld %ld are taken before the strobe, ", places, early);
    printf("%ld refused after the boot\n", late);
}

/* --- The NMI of a program, amid itself --- */

static void take_nmi(int at, interrupt *comes)
{
    cpu kept = now.processor;
    push(&now.processor, RETURN_TO >> 8);
    push(&now.processor, RETURN_TO & 0xFF);
    push(&now.processor, now.processor.p);
    now.processor.pc = (uint16_t)label("nmi");
    run_on(at, comes);
    now.processor.pc = kept.pc;
    if (memcmp(&now.processor.a, &kept.a, 5)) fail("the NMI doesn't give back the registers");
}

static void nmi_amid(void) { take_nmi(-1, NULL); }

/* What the program's NMI takes beside dvg_ticks, with the seven cycles of an interrupt, where the
 * driver is idle. */
static int own_cycles(void)
{
    uint64_t before;
    int all;
    now.low[label("awake")] = 1;
    before = now.processor.cycles;
    take_nmi(-1, NULL);
    all = (int)(now.processor.cycles - before);
    before = now.processor.cycles;
    call("dvg_ticks", NMI_TICKS, 0, 0);
    return 7 + all - (int)(now.processor.cycles - before);
}

/* Amid its own ticks an NMI counts, and does nothing else: what comes out is one NMI, or two. */
static void try_own_nmi(int lives)
{
    static world start, one, two;
    int awake = label("awake"), beats = label("beats");
    for (int life = 0; life < lives; life++) {
        int steps;
        boot(1);
        live(60);
        now.low[awake] = 1;
        now.low[beats] = 0;
        start = now;
        take_nmi(-1, NULL);
        one = now;
        now = start;
        take_nmi(-1, NULL);
        take_nmi(-1, NULL);
        two = now;
        now = start;
        for (int at = 0, more = 1; more; at++, tried++) {
            now = start;
            now.processor.pc = 0;
            take_nmi(at, nmi_amid);
            if (now.low[awake] != 1) fail("the NMI doesn't tick again");
            more = now.low[beats] == 2;
            if (!more && now.low[beats] != 1) fail("%d beats", now.low[beats]);
            if (!are_same(&now, &one) && !are_same(&now, &two))
                fail("an NMI before instruction %d of an NMI: not as one, nor as two", at);
            steps = at;
        }
        if (steps < 20) fail("the NMI has %d instructions", steps);
    }
    printf("%ld interleavings of the program's NMI amid itself do no harm\n", tried);
    boot(0);
    ticks(2);
    printf("the program's NMI: %d cycles but its ticks\n", own_cycles());
}

int main(int count, char **words)
{
    FILE *file;
    if (count < 4) return 64;
    ready_opcodes();
    file = fopen(words[2], "rb");
    if (!file || fread(rest + CODE, 1, 0x1800, file) < 1) return 1;
    fclose(file);
    read_labels(words[3]);
    phase_place = from_place = label("dvg_phase");
    to_place = label("length") + 1;
    if (!strcmp(words[1], "amid") && count == 6) {
        seed = (uint64_t)atol(words[5]) * 2654435761u + 1;
        try_lives(atoi(words[4]));
    } else if (!strcmp(words[1], "nmi")) try_own_nmi(100);
    else {
        show_nested();
        show_count();
        show_two_places();
        show_offers();
    }
    return 0;
}
