/* dvg_machine in Verilator: the driver's bytes, and a program that offers two tables in turn, which
 * call shapes of a ROM of either size, looks into the vector RAM and elsewhere, tells the watchdog,
 * and is interrupted and reset at random.
 *
 *     machine CLOCKS SEED CODE
 *
 * CODE has the driver's bytes, as numbers. A strobe must find the core halted. Each picture must be
 * what the port draws of the vector RAM as it was when byte 001 was written last before the strobe;
 * and what the program reads, what stands there: of the board at 4000 to 47FF, 2002 and 3000, and
 * else of memory, which answers any byte where the board does. The pins of the board are, clock by
 * clock, those of a RAM and the port's generator. The routine of an NMI counts: as many are counted
 * as came since the last reset. A reset in the second clock of a cycle alone does nothing. From one
 * reset to the next `ready` is always high, or high at random, or in one of any 3 to 12 clocks, as
 * for a 6502 at a slower clock: where it is low and a cycle would begin, the processor's pins stay,
 * there is no access, and a reset is taken all the same. Prints what was played, or the first
 * difference (status 1). */
#include "Vdvg_machine.h"
#include "access.h"
#include <cstring>

enum : uint32_t {
    DRIVER = 0x6800, PROGRAM = 0x7000, LOOK = 0x7031, TABLES = 0x7100, LOOKED = 0x0203,
    COUNTER = 0x30, RESET_IN = 20000, MOST_CLOCKS = 10000, SHAPE_WORDS = 16
};

static Vdvg_machine machine;
static uint8_t memory[0x10000], published[DVG_RAM_BYTES], drawing[DVG_RAM_BYTES];
static dvg *port, *core;                /* the picture of a frame; the core, byte by byte */
static bool second, was, resetting;
static uint32_t counted, rose;          /* NMIs: since the last reset, and those to come */
static uint16_t last_at;                /* where the access before was, since the last reset */
static uint8_t looked;                  /* what the program found where it looked last */

/* How `ready` is driven: in SLOW it is high in one clock of `of`, the next one in `left` more. */
static struct {
    enum { ALWAYS, ANY, SLOW } kind;
    uint32_t of, left;
} pace;

/* The processor's pins in a clock in which it waited. */
static struct {
    bool waited, write, sync;
    uint16_t a;
    uint8_t d;
} stays;

static struct {
    uint64_t frames, starts, pictures, strokes, watched, nmis, resets, looks, read, ignored,
        broken, waits, waiting;         /* and clocks of waits; resets that are taken in one */
} counts;

static const uint8_t program[] = {
    0x8D, 0x00, 0x34,                   /* 7000 STA $3400: the watchdog */
    0xA9, 0x00, 0x85, 0x30,             /* 7003 LDA #0, STA $30 */
    0x20, 0x00, 0x68,                   /* 7007 JSR dvg_reset */
    0xA9, 0x00, 0xA2, 0x71,             /* 700A LDA #$00, LDX #$71 */
    0x20, 0x2A, 0x70,                   /* 700E JSR offer */
    0xA9, 0x80, 0xA2, 0x71,             /* 7011 LDA #$80, LDX #$71 */
    0x20, 0x2A, 0x70,                   /* 7015 JSR offer */
    0xAD, 0x01, 0x40, 0x8D, 0x01, 0x02, /* 7018 LDA $4001, STA $0201 */
    0xAD, 0x03, 0x44, 0x8D, 0x02, 0x02, /* 701E LDA $4403, STA $0202 */
    0xEE, 0x00, 0x02,                   /* 7024 INC $0200 */
    0x4C, 0x0A, 0x70,                   /* 7027 JMP 700A */
    0x85, 0x31, 0x86, 0x32,             /* 702A offer: STA $31, STX $32 */
    0x8D, 0x00, 0x34,                   /* 702E STA $3400 */
    0xAD, 0x03, 0x20, 0x8D, 0x03, 0x02, /* 7031 LDA of any address, STA $0203 */
    0xA9, 0x05, 0x20, 0x60, 0x68,       /* 7037 LDA #5, JSR dvg_ticks */
    0xA5, 0x31, 0xA6, 0x32,             /* 703C LDA $31, LDX $32 */
    0x20, 0xFE, 0x68,                   /* 7040 JSR dvg_offer */
    0xB0, 0xEC,                         /* 7043 BCS 7031 */
    0x60,                               /* 7045 RTS */
    0x48, 0x8A, 0x48,                   /* 7046 the NMI: PHA, TXA, PHA */
    0xE6, 0x30, 0xA2, 0x07,             /* 7049 INC $30, LDX #7 */
    0x68, 0xAA, 0x68, 0x40,             /* 704D PLA, TAX, PLA, RTI */
};

/* A table at an address of the program: a LABS, calls of any two shapes, and vectors. Now and then
 * its run breaks: by a return, or by a call where no memory is, or of a shape that calls itself. */
static void put_table(uint32_t at, uint32_t more)
{
    uint32_t first = 0xCC00 - rom_bytes / 2, slots = rom_bytes / 2 / SHAPE_WORDS;
    uint32_t breaks[] = {0xD000, 0xCC00, first};
    uint32_t shape = first + SHAPE_WORDS * (1 + below(slots - 1));
    std::vector<uint32_t> words = {0xA190, 0x0200, shape, 0x9064, 0x7464,
        once_in(4) ? breaks[below(3)] : first + SHAPE_WORDS * (1 + below(slots - 1))};
    while (more--) {
        words.insert(words.end(), {0x9000, 0x7064});
    }
    words.push_back(0xB000);
    set_word(memory + at, words.size());
    for (uint32_t word : words) {
        set_word(memory + (at += 2), word);
    }
}

/* A ROM of either size, which has a shape at each sixteenth word, and tables that call it. */
static void fit_rom()
{
    rom_bytes = once_in(2) ? DVG_ROM_BYTES : DVG_LARGE_ROM_BYTES;
    machine.big = rom_bytes == DVG_LARGE_ROM_BYTES;
    for (uint32_t word = 0; word < rom_bytes / 2; word++) {
        bool ends = word % SHAPE_WORDS == SHAPE_WORDS - 1 || once_in(4);
        set_word(rom + 2 * word, ends ? 0xD000 : 0xF000 | below(0x1000));
    }
    set_word(rom, 0xCC00 - rom_bytes / 2);
    put_table(TABLES, 0);
    put_table(TABLES + 0x80, 1);
}

static void choose_pace()
{
    pace.kind = below(3) == 0 ? pace.ALWAYS : once_in(2) ? pace.ANY : pace.SLOW;
    pace.of = 3 + below(10);
    pace.left = 0;
}

/* Whether the processor may begin a cycle in this clock. */
static bool is_ready()
{
    pace.left = pace.left == 0 ? pace.of - 1 : pace.left - 1;
    return pace.kind == pace.ALWAYS || (pace.kind == pace.ANY ? once_in(3) : pace.left == 0);
}

static void fill_memory(const char *code)
{
    FILE *file = fopen(code, "r");
    uint32_t at = DRIVER;
    for (int byte; file && fscanf(file, "%i", &byte) == 1;) {
        memory[at++] = (uint8_t)byte;
    }
    if (at < DRIVER + 500) {
        exit(2);
    }
    memcpy(memory + PROGRAM, program, sizeof program);
    memory[0xFFFA] = 0x46;
    memory[0xFFFB] = memory[0xFFFD] = PROGRAM >> 8;
}

/* The picture of what is drawn, by the port: all of its run at once. */
static void agree_on_drawing()
{
    dvg_answer answer = dvg_strobe(port);
    do {
        answer = dvg_generator_fetch_from(port, drawing, rom, rom_bytes);
        agree("a run of the port", answer.kind == DVG_BROKE, 0);
    } while (answer.kind != DVG_DONE);
    counts.strokes += agree_on_picture(port);
    shown.clear();
    counts.pictures++;
}

/* Where the program looks next. */
static void choose_look()
{
    static const uint16_t places[] = {
        0x2002, 0x3000, 0x3001, 0x3FFF, 0x4000, 0x47FF, 0x4800, 0xA002, 0xB000, 0xC000};
    uint32_t k = below(4);
    uint32_t at = k == 0 ? 0x2000 + below(8) : k == 1 ? 0x4000 + below(DVG_RAM_BYTES)
        : k == 2 ? places[below(10)] : below(0x10000);
    set_word(memory + LOOK + 1, at);
}

/* A write outside of the vector RAM, and what it tells of. */
static void take_write(uint16_t at)
{
    if (at == 0x201 || at == 0x202) {
        agree("a byte that is read", machine.d, ram[at == 0x201 ? 1 : 0x403]);
        counts.read++;
    } else if (at == LOOKED) {
        agree("a byte that is looked at", machine.d, looked);
        counts.read++;
        choose_look();
    } else if (at == 0x3000) {
        agree("halted, at a strobe", machine.halted, 1);
        memcpy(drawing, published, sizeof ram);
        counts.starts++;
    }
    counts.watched += at == 0x3400;
    if (at < 0x400) {
        memory[at] = machine.d;
    }
}

/* What an access does outside the processor. Returns what memory answers. */
static uint8_t reach(bool resets)
{
    uint16_t at = machine.a;
    bool on_ram = at >= 0x4000 && at < 0x4800, on_board = on_ram || at == 0x2002 || at == 0x3000;
    uint8_t found = below(256);
    if (!machine.access) {
        last_at = resets ? 0 : last_at;
        return found;
    }
    if (machine.write) {
        take_write(at);
        if (at == 0x4001) {
            memcpy(published, ram, sizeof ram);
            counts.frames++;
        }
    } else if (last_at == LOOK + 2) {
        looked = on_board ? owed.q : found;
    } else {
        if (at - LOOK < 3) {
            agree("sync", machine.sync, at == LOOK);
        }
        agree("a reset that is taken", at == 0xFFFC && !resetting, 0);
        agree("an NMI that never rose", at == 0xFFFA && rose == 0, 0);
        rose -= at == 0xFFFA;
        counts.looks += at == 0x2002;
        found = on_board ? found : memory[at];
    }
    last_at = at;
    return found;
}

/* The core's event of this clock. Returns its answer. */
static dvg_answer tell_core(bool resets)
{
    dvg_answer none = {DVG_IDLE, 0, 0, -1};
    if (resets || owed.starting) {
        return resets ? dvg_reset_generator(core) : dvg_strobe(core);
    }
    return owed.pending ? dvg_generator_fetch_from(core, ram, rom, rom_bytes) : none;
}

/* The pins of the board, before the edge. */
static void agree_on_board(bool resets)
{
    dvg_answer wanted = dvg_wants(core);
    agree("halted", machine.halted, wanted.kind == DVG_STILL);
    if (wanted.kind == DVG_WANTED) {
        agree("at", machine.at, wanted.address);
        agree("high", machine.high, wanted.value);
    }
    agree("takes", machine.takes, owed.pending && !resets && !owed.starting);
}

/* The processor's pins are those of the clock before, if it waited in that. */
static void agree_on_wait(bool waits)
{
    if (stays.waited) {
        agree("a, after a wait", machine.a, stays.a);
        agree("write, after a wait", machine.write, stays.write);
        agree("sync, after a wait", machine.sync, stays.sync);
        agree("d, after a wait", machine.write ? machine.d : 0, machine.write ? stays.d : 0);
    }
    stays = {waits, (bool)machine.write, (bool)machine.sync, machine.a, machine.d};
    counts.waits += waits;
}

/* A clock. An NMI is looked at where a cycle ends, and in a reset. */
static void play_clock(bool reset)
{
    machine.reset = reset;
    machine.ready = is_ready();
    machine.nmi = was ? !once_in(20) : once_in(2000);
    machine.hold = !once_in(128);       /* so that the driver has to wait for a picture */
    answer_rom(machine);
    agree("access", machine.access, machine.ready && !second && !reset);
    bool resets = reset && !second;
    agree_on_wait(!machine.ready && !second && !reset);
    counts.waiting += resets && !machine.ready;
    if (second || reset) {
        bool rises = machine.nmi && !was && !resets;
        was = machine.nmi;
        counted += rises;
        counts.nmis += rises;
        rose = resets ? 0 : rose < 2 ? rose + rises : 2;
    }
    agree_on_board(resets);
    dvg_answer answer = tell_core(resets);
    perform(machine, machine.halted, machine.hold, resets || answer.kind != DVG_IDLE);
    second = machine.access;
    uint8_t found = reach(resets);
    edge(machine);
    machine.m = found;
    machine.eval();
    agree("done", machine.done, answer.kind == DVG_DONE);
    agree("fault", machine.fault, dvg_break_of(answer));
    keep_stroke(machine);
    if (machine.done) {
        agree_on_drawing();
    } else if (machine.fault != 0) {
        shown.clear();
        counts.broken++;
    }
}

/* Two clocks at least, in one of which it is taken. The program clears the counter anew. */
static void play_reset()
{
    uint8_t low = memory[COUNTER];
    agree("counted", (uint8_t)(counted - low) <= 1, 1);
    resetting = true;
    for (uint32_t k = 2 + below(3); k > 0; k--) {
        play_clock(true);
    }
    fit_rom();
    choose_pace();
    shown.clear();
    counts.resets++;
    uint64_t begun = clocks;
    while (machine.a != PROGRAM + 7 || !machine.sync || second) {
        agree("clocks after a reset", clocks - begun < MOST_CLOCKS, 1);
        play_clock(false);
    }
    counted = memory[COUNTER];
    resetting = false;
}

int main(int argc, char **argv)
{
    uint64_t seed, wanted = read_arguments(argc, argv, &seed);
    fill_memory(argc > 3 ? argv[3] : "");
    port = new_device();
    core = new_device();
    dvg_open_generator(port);
    dvg_open_generator(core);
    machine.clk = machine.reset = 0;
    fit_rom();
    choose_pace();
    machine.eval();
    resetting = true;                   /* until the program has begun */
    while (clocks < wanted) {
        done_so_far = counts.pictures;
        if (once_in(RESET_IN)) {
            play_reset();
        }
        bool ignored = second && once_in(100);
        counts.ignored += ignored;
        play_clock(ignored);
        resetting = resetting && last_at != PROGRAM + 7;
    }
    printf("%" PRIu64 " clocks, %" PRIu64 " frames, %" PRIu64 " starts, %" PRIu64
           " pictures with %" PRIu64 " strokes, and %" PRIu64 " broken runs agree: %" PRIu64
           " looks at the flag,\n %" PRIu64 " bytes read, %" PRIu64 " NMIs, %" PRIu64
           " resets, and %" PRIu64 " that are ignored, %" PRIu64 " writes at 3400;\n %" PRIu64
           " clocks of waits, and %" PRIu64 " of resets amid one\n",
        clocks, counts.frames, counts.starts, counts.pictures, counts.strokes, counts.broken,
        counts.looks, counts.read, counts.nmis, counts.resets, counts.ignored, counts.watched,
        counts.waits, counts.waiting);
    dvg_free(core);
    dvg_free(port);
    return counts.pictures == 0;
}
