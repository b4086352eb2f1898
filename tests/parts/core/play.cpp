/* dvg_game in Verilator, clock by clock, whatever its pins are. Beside it are the 6502 of
 * ../board/cpu.h, what an Asteroids board answers and keeps, and the port's generator with the time
 * and the motion of paced.h.
 *
 *     play CLOCKS SEED GAME [A15 [LOG]]
 *     play --game CLOCKS SEED GAME BUTTONS
 *
 * GAME has the bytes of a game's ROMs as numbers: 2,048 of the vector ROM, then 6,144 of the
 * program. It is played for a half of the clocks, but 600,000 at least, and random programs for the
 * other half, each for 600,000. Each access of the processor is compared, but for the dummy ones,
 * what a read finds, all pins in each clock, and all RAM at each start of the generator. Ticks, the
 * processor's cycles, resets, inputs and switches come at random; each third program doesn't tell
 * the watchdog. A15 is that of the module [default: 1]. LOG is written for `dvg torn`: what the
 * game's processor writes into the vector RAM, and what the core fetches; then it isn't reset.
 *
 * With --game the game alone is played, by the presses of the file BUTTONS (buttons.h), from
 * each reset anew, without some of the time before the first one: a tick in each fourth clock, and
 * a cycle in each tick, so that 6,048,000 clocks are a second. Resets of one clock to 5,000 come at
 * random, and so do other inputs, in any clock; where no read looks at them, inputs but the
 * self-test's are any. Memory is late for 1 to 20,000 clocks, and then a cycle begins in any clock.
 * All RAM has any bytes at first, and mostly after a reset.
 *
 * Prints what was played, or the first difference (status 1). */
#include "Vdvg_game.h"
#include "Vdvg_game___024root.h"
#include <algorithm>
#include "buttons.h"
#include "paced.h"
extern "C" {
#include "../board/cpu.h"
}

enum : uint32_t {
    PROGRAM = 0x6800, PROGRAM_BYTES = 0x1800, LOW_BYTES = 0x400, SPACE = 4, PERIOD = 512,
    PERIODS_OF_NMI = 12, PERIODS_OF_BITE = 256, CLOCKS_OF_ROM = 600000,
    CLOCKS_OF_SECOND = 6048000, LONGEST_RESET = 5000, SELF_TEST = 0x80
};

/* A reset is taken, amid an instruction or not. */
struct Reset {};

static Vdvg_game game;
static Vdvg_game___024root *const root = game.rootp;
static cpu port;
static Facts facts;
static Words words;
static Timed timed(facts, words);
static uint8_t low[LOW_BYTES], program[PROGRAM_BYTES], played[DVG_ROM_BYTES + PROGRAM_BYTES];
static uint32_t decoded = 0xFFFF;       /* the bits of an address that are looked at */
static FILE *log_file;

static struct {
    uint64_t accesses, nmis, resets, bites, soon, tested, presses, others, late, pulses, single;
} counts;

/* What the board keeps beside memories. */
static struct {
    uint8_t lamps, bank, counters, explosion, thump, sounds;
} latches;

/* Time: clocks since a tick was taken, whether a cycle began since then, the ticks that count since
 * a reset, the periods since a reset or the self-test, and those since the watchdog was told. */
static struct {
    uint32_t clocks, ticks, periods, silence;
    bool worked, bites;
} since = {SPACE, 0, 0, 0, false, false};

/* The processor: whether this is the second clock of a cycle, the access of the first one, what it
 * found, and its NMI. */
static struct {
    bool second, write;
    uint16_t a;
    uint8_t d, found;
    bool was, due;
} bus;

/* How the pins are driven for a while. */
static struct {
    uint32_t shortest, longest, left;
    enum { TICK, ALWAYS, ANY, LATE } ready;
    uint32_t reset_in, longest_reset, resetting, early;
} drive;

/* Memory: for how many clocks it is late yet, and whether a cycle waits for it. */
static struct {
    uint32_t late;
    bool waits;
} memory;

/* Who plays: what the presses so far have closed, the clock in which they began, which comes next,
 * and another input that is turned over, as a bit, for how many clocks yet. */
static struct {
    uint32_t closed;
    uint64_t began;
    size_t next;
    uint32_t other, left;
} hands;

/* --- What the board answers --- */

static bool is_period() { return since.ticks % PERIOD == PERIOD - 1; }

static bool has_nmi() { return since.periods > 0 && since.periods % PERIODS_OF_NMI == 0; }

static uint32_t low_place(uint32_t a) { return a >= 0x200 && latches.bank ? a ^ 0x100 : a; }

static bool is_board(uint32_t a)
{
    return (a >= 0x4000 && a < 0x4800) || a == 0x2002 || a == 0x3000;
}

static uint8_t input_at(uint32_t a)
{
    bool upper = a >= 0x2400;
    bool is_closed = game.held >> (8 * upper + a % 8) & 1;
    if (!upper && (a % 8 == 1 || a % 8 == 2)) {
        is_closed = a % 8 == 1 && since.ticks / (PERIOD / 2) % 2;
    }
    return is_closed ? 0x80 : 0x7F;
}

/* What a read finds of memory, inputs and switches. */
static uint8_t answer_at(uint32_t a)
{
    if (a < LOW_BYTES) {
        return low[low_place(a)];
    }
    if (a >= 0x2000 && a < 0x2800) {
        return input_at(a);
    }
    if (a >= 0x2800 && a < 0x2C00) {
        return 0xFC | (game.switches >> 2 * (a % 4) & 3);
    }
    uint32_t place = a % 0x8000;
    return place >= PROGRAM ? program[place - PROGRAM] : rom[place % DVG_ROM_BYTES];
}

/* A write, but to the generator's board. */
static void take_write(uint32_t a, uint8_t d)
{
    if (a < LOW_BYTES) {
        low[low_place(a)] = d;
    }
    switch (a & 0xFE00) {
    case 0x3200:
        latches.lamps = d & 3;
        latches.bank = d >> 2 & 1;
        latches.counters = d >> 3 & 7;
        break;
    case 0x3600: latches.explosion = d; break;
    case 0x3A00: latches.thump = d & 31; break;
    case 0x3C00:
        if (a % 8 < 6) {
            latches.sounds = (latches.sounds & ~(1 << a % 8)) | d >> 7 << a % 8;
        }
    }
}

/* --- A clock --- */

/* What the board of the generator gets in a clock. */
struct View {
    bool reset, access, write, takes;
    uint32_t a, at, high;
    uint8_t d;
};

/* What stands in the board, and in its core: the gates, GATES, are one module. */
#ifdef GATES
#define BOARD(signal) (root->dvg_game__DOT__vectors__02eboard__02e##signal)
#define CORE(signal) BOARD(core__02e##signal)
#else
#define BOARD(signal) (root->dvg_game__DOT__vectors__DOT__board__DOT__##signal)
#define CORE(signal) BOARD(signal)
#endif

/* Whether a cycle may begin where memory is late now and then: else in a tick. */
static bool is_in_time(bool is_time)
{
    if (memory.late == 0 && once_in(2000)) {
        memory.late = 1 + below(once_in(50) ? 20000 : 12);
        counts.late++;
    }
    bool is_late = memory.late > 0;
    memory.late -= is_late;
    memory.waits = memory.waits || (is_time && (is_late || bus.second));
    return !is_late && (is_time || memory.waits);
}

static void stir_inputs()
{
    if (once_in(3000)) {
        game.held ^= once_in(20) ? SELF_TEST : 1u << below(16) & ~SELF_TEST;
    }
    if (once_in(20000)) {
        game.switches = below(256);
    }
}

/* A read looks at inputs in a cycle's second clock. */
static void press_inputs()
{
    while (hands.next < presses.size() && hands.began + presses[hands.next].clock <= clocks) {
        const Press &press = presses[hands.next++];
        agree("a button of the board", press.button < NAMED, true);
        uint32_t bit = 1u << PLACES[press.button];
        hands.closed = press.is_down ? hands.closed | bit : hands.closed & ~bit;
        counts.presses++;
    }
    if (hands.left == 0 && once_in(600000)) {
        hands.other = 1u << below(16);
        hands.left = 1 + below(once_in(4) ? 2000000 : 3000);
        counts.others++;
    }
    uint32_t other = hands.left > 0 ? hands.other : 0, any = bus.second ? 0 : random_bits();
    hands.left -= hands.left > 0;
    game.held = hands.closed ^ other ^ (any & 0xFFFF & ~SELF_TEST);
    game.switches = any >> 24;
}

static void choose_reset()
{
    if (drive.resetting == 0 && once_in(drive.reset_in)) {
        drive.resetting = 1 + below(drive.longest_reset);
        counts.pulses++;
        counts.single += drive.resetting == 1;
    }
    game.reset = drive.resetting > 0;
    drive.resetting -= drive.resetting > 0;
}

static void choose_pins()
{
    bool is_time = drive.left == 0;
    drive.left = is_time ? drive.shortest - 1 + below(drive.longest - drive.shortest + 1)
        : drive.left - 1;
    bool soon = since.clocks < SPACE && once_in(drive.early);
    counts.soon += soon;
    game.tick = is_time || soon;
    game.ready = drive.ready == drive.ALWAYS || (drive.ready == drive.TICK ? is_time
        : drive.ready == drive.LATE ? is_in_time(is_time) : once_in(3));
    choose_reset();
    presses.empty() ? stir_inputs() : press_inputs();
}

/* Time after this clock. */
static void go_on(bool resets, bool taken, bool tells)
{
    bool counts_now = taken && since.worked, period = counts_now && is_period();
    bool dies = period && since.silence == PERIODS_OF_BITE - 1 && !tells;
    counts.bites += dies;
    since.bites = dies || (since.bites && bus.second);
    since.worked = game.access || (since.worked && !taken);
    since.clocks = taken ? 1 : since.clocks + 1;
    since.ticks = resets ? 0 : since.ticks + counts_now;
    since.periods = resets || (game.held & 0x80) ? 0 : since.periods + period;
    since.silence = resets || tells ? 0 : since.silence + period;
}

/* The processor looks at its NMI where a cycle ends, and in a reset. */
static void look_at_nmi(bool resets)
{
    if (bus.second || resets) {
        bool rises = has_nmi() && !bus.was && !resets;
        counts.nmis += rises;
        bus.due = !resets && (bus.due || rises);
        bus.was = has_nmi();
    }
}

static void agree_on_latches()
{
    agree("lamps", game.lamps, latches.lamps);
    agree("bank", game.bank, latches.bank);
    agree("counters", game.counters, latches.counters);
    agree("explosion", game.explosion, latches.explosion);
    agree("thump", game.thump, latches.thump);
    agree("sounds", game.sounds, latches.sounds);
}

/* All RAM. */
static void agree_on_memories()
{
    for (uint32_t place = 0; place < DVG_RAM_BYTES; place++) {
        agree("a byte of the vector RAM", BOARD(ram)[place], ram[place]);
    }
    for (uint32_t place = 0; place < LOW_BYTES; place++) {
        agree("a byte of the RAM", root->dvg_game__DOT__work[place], low[place]);
    }
}

/* What the read of the clock before found. */
static void agree_on_found()
{
    bus.found = is_board(bus.a) ? owed.q : answer_at(bus.a);
    agree("a byte that is read", root->dvg_game__DOT__din, bus.found);
    counts.tested++;
}

static void log_board(bool resets)
{
    bool takes = owed.pending && !owed.starting && !resets;
    uint32_t at = CORE(at), high = CORE(high);
    const uint8_t *word = at < 0x400 ? ram + 2 * at : rom + 2 * (at - 0x800);
    if (game.done) {
        fputs("halted\n", log_file);
    }
    if (owed.starting && !resets) {
        fputs("started\n", log_file);
    } else if (takes && high) {
        fprintf(log_file, "fetched %03X %02X%02X\n", at, word[1], word[0]);
    } else if (takes) {
        fprintf(log_file, "low %03X %02X\n", at, word[0]);
    }
    if (game.access && game.write && game.a >> 11 == 8) {
        fprintf(log_file, "wrote %03X %02X\n", game.a % DVG_RAM_BYTES, game.d);
    }
}

/* All pins of a clock, and what the read of the clock before found. */
static void agree_on_pins(bool taken, bool restarts, uint32_t area)
{
    agree("taken", game.taken, taken);
    agree("access", game.access, game.ready && !bus.second && !restarts);
    agree("hushes", game.hushes, area == 0x3E00);
    agree_on_latches();
    timed.agree_on(game);
    if (bus.second && !bus.write) {
        agree_on_found();
    }
    if (owed.starting) {
        agree_on_memories();
    }
}

/* The access of a clock, and what it changes. */
static void take_access()
{
    if (game.access && game.write) {
        take_write(game.a, game.d);
    }
    bus.second = game.access;
    if (game.access) {
        bus.write = game.write;
        bus.a = game.a;
        bus.d = game.d;
        memory.waits = false;
        counts.accesses++;
    }
}

/* Returns whether an access is made in it. */
static bool play_clock()
{
    choose_pins();
    game.eval();
    bool restarts = game.reset || since.bites, resets = restarts && !bus.second;
    bool taken = game.tick && since.clocks >= SPACE;
    uint32_t area = game.access && game.write ? game.a & 0xFE00 : 0;
    agree_on_pins(taken, restarts, area);
    if (log_file) {
        log_board(resets);
    }
    look_at_nmi(resets);
    go_on(resets, taken, area == 0x3400);
    timed.clock(View{resets, (bool)game.access, (bool)game.write, (bool)BOARD(takes), game.a,
        CORE(at), CORE(high), game.d}, taken);
    take_access();
    game.clk = 1;                       /* it falls with the pins of the next clock */
    game.eval();
    game.clk = 0;
    clocks++;
    if (resets) {
        latches = {};
        counts.resets++;
        throw Reset();
    }
    return bus.second;
}

/* --- The processor --- */

/* The next cycle makes this access. What a read finds is returned. */
static uint8_t play_cycle(bool write, uint16_t at, uint8_t byte)
{
    while (!play_clock()) {
    }
    agree("write", bus.write, write);
    agree("address", bus.a, at & decoded);
    agree("byte", write ? bus.d : 0, byte);
    play_clock();
    return bus.found;
}

uint8_t bus_fetch(uint16_t at) { return play_cycle(false, at, 0); }

uint8_t bus_read(uint16_t at, int dummy) { return dummy ? 0 : bus_fetch(at); }

/* INC and its like write a byte back first as it was, which is no access of the circuit. */
static bool writes_twice;

void bus_write(uint16_t at, uint8_t value)
{
    if (!writes_twice) {
        play_cycle(true, at, value);
    }
    writes_twice = false;
}

/* What the next opcode does is known by the model before the circuit reads it. */
static uint8_t opcode_at(uint16_t at)
{
    uint32_t a = at & decoded;
    return a >= 0x4000 && a < 0x4800 ? ram[a % DVG_RAM_BYTES] : is_board(a) ? 0 : answer_at(a);
}

static void play_next()
{
    if (bus.due) {
        bus.due = false;
        begin_nmi(&port);
        return;
    }
    writes_twice = writes_back(opcode_at(port.pc));
    uint16_t here = port.pc;
    if (!step(&port)) {
        port.pc = here;                                  /* it is read again */
    }
}

/* After a reset, which may last. */
static void begin_anew()
{
    for (;;) {
        try {
            writes_twice = false;
            uint8_t first = bus_fetch(0xFFFC);
            port.pc = (uint16_t)(first | bus_fetch(0xFFFD) << 8);
            port.s = 0xFD;
            port.p |= INTERRUPT;
            return;
        } catch (const Reset &) {
        }
    }
}

/* --- What is played --- */

/* A game; a random program; and one that doesn't tell the watchdog, up to where that bites. */
enum Kind { GAME, RANDOM, SILENT };

/* Chooses how the pins are driven. */
static void choose_drive(Kind kind)
{
    drive.shortest = drive.longest = SPACE;
    if (kind == RANDOM) {
        drive.shortest += below(9);
        drive.longest = once_in(2) ? drive.shortest : SPACE + 8;
    }
    drive.ready = kind == SILENT ? drive.TICK : once_in(3) ? drive.ANY
        : once_in(2) ? drive.TICK : drive.ALWAYS;
    drive.reset_in = kind == RANDOM ? (once_in(2) ? 20000 : 200000)
        : kind == GAME && !log_file ? 2000000 : UINT32_MAX;
    drive.longest_reset = 4;
    drive.early = kind == RANDOM ? 5 : UINT32_MAX;
}

/* An address where there is something, sometimes in the mirror of bit 15. */
static uint16_t any_place()
{
    static const uint16_t firsts[] = {0x0000, 0x0200, 0x0200, 0x2000, 0x2400, 0x2800, 0x2C00,
        0x3000, 0x3200, 0x3200, 0x3600, 0x3A00, 0x3C00, 0x3E00, 0x4000, 0x4000, 0x4800, 0x6800};
    static const uint16_t sizes[] = {8, 0x200, 0x800};
    uint32_t at = once_in(12) ? below(0x10000)
        : firsts[below(18)] + below(sizes[once_in(4) + once_in(12)]);
    return (uint16_t)(once_in(12) ? at ^ 0x8000 : at);
}

/* An address that isn't the watchdog's or word 000's, nor is with an index. */
static uint16_t silent_place()
{
    for (;;) {
        uint32_t at = any_place(), place = at % 0x8000;
        if (!(place >= 0x3300 && place < 0x3600) && !(place >= 0x3F00 && place < 0x4002)) {
            return (uint16_t)at;
        }
    }
}

/* One instruction, of which a third writes. */
static uint32_t put_instruction(uint32_t place, bool is_silent)
{
    static const uint8_t by_byte[] = {0xA9, 0xA2, 0xA0, 0xA1, 0xB1, 0x69, 0x29, 0xC9, 0x91};
    static const uint8_t alone[] = {0xE8, 0xC8, 0xAA, 0x0A, 0x38, 0x18};
    static const uint8_t by_word[] = {0xAD, 0xAE, 0xAC, 0xBD, 0xB9, 0x2C, 0x6D, 0xCD, 0x8D, 0x8E,
        0x8C, 0x8D, 0xEE, 0x9D, 0x0E};
    uint32_t kind = below(8);
    if (kind == 0) {
        program[place++] = alone[below(6)];
    } else if (kind < 4) {
        program[place++] = by_byte[below(9)];
        program[place++] = below(256);
    } else {
        program[place++] = by_word[below(15)];
        set_word(program + place, is_silent ? silent_place() : any_place());
        place += 2;
    }
    return place;
}

/* A random program: instructions, a strobe, a JMP to the first one, and an NMI's routine. A silent
 * one has the generator jump to word 000 there for ever: so a run is open where the watchdog
 * bites. */
static void fill_program(bool is_silent)
{
    static const uint8_t routine[] = {0xE6, 0x10, 0x40}; /* INC $10, RTI */
    static const uint8_t endless[] = {                   /* E000 into word 000 */
        0xA9, 0x00, 0x8D, 0x00, 0x40, 0xA9, 0xE0, 0x8D, 0x01, 0x40};
    static const uint8_t last[] = {                      /* STA $3000, JMP $6800 */
        0x8D, 0x00, 0x30, 0x4C, 0x00, 0x68};
    static const uint32_t kinds[12] = {0, 1, 2, 3, 0xA, 0xB, 0xC, 0xC, 0xD, 0xE, 0xF, 0xF};
    fill_rom(kinds);
    rom_bytes = DVG_ROM_BYTES;
    uint32_t place = 0;
    while (place < PROGRAM_BYTES - 0x110) {
        place = put_instruction(place, is_silent);
    }
    if (is_silent) {
        memcpy(program + place, endless, sizeof endless);
        place += sizeof endless;
    }
    memcpy(program + place, last, sizeof last);
    memcpy(program + PROGRAM_BYTES - 0x100, routine, sizeof routine);
    set_word(program + PROGRAM_BYTES - 6, 0x7F00);
    set_word(program + PROGRAM_BYTES - 4, PROGRAM);
}

static void fill_game()
{
    rom_bytes = DVG_ROM_BYTES;
    memcpy(rom, played, DVG_ROM_BYTES);
    memcpy(program, played + DVG_ROM_BYTES, PROGRAM_BYTES);
}

/* The ROMs of the circuit are those. All begins anew. */
static void load()
{
    for (uint32_t place = 0; place < DVG_ROM_BYTES + PROGRAM_BYTES; place++) {
        root->dvg_game__DOT__code[place]
            = place < DVG_ROM_BYTES ? rom[place] : program[place - DVG_ROM_BYTES];
    }
    for (uint32_t place = 0; place < DVG_ROM_BYTES; place++) {
        root->dvg_game__DOT__shapes[place] = rom[place];
    }
    drive.resetting = 3;
    try {
        while (true) {
            play_clock();
        }
    } catch (const Reset &) {
        begin_anew();
    }
}

/* All memories hold any bytes. */
static void fill_memories()
{
    for (uint32_t place = 0; place < DVG_RAM_BYTES; place++) {
        BOARD(ram)[place] = ram[place] = below(256);
    }
    for (uint32_t place = 0; place < LOW_BYTES; place++) {
        root->dvg_game__DOT__work[place] = low[place] = below(256);
    }
}

/* A game of so many clocks begins anew: its presses do, of which the first one may come soon, and
 * the next reset is chosen. */
static void begin_game(uint64_t wanted)
{
    hands = {0, clocks - below(presses[0].clock), 0, 0, 0};
    drive.ready = drive.LATE;
    uint32_t seldom = uint32_t(std::min<uint64_t>(wanted / 2, 6 * CLOCKS_OF_SECOND));
    drive.reset_in = once_in(8) ? seldom : once_in(2) ? 20000 : 200000;
    drive.longest_reset = once_in(2) ? 4 : LONGEST_RESET;
    if (!once_in(4)) {
        fill_memories();
    }
}

static void play(Kind kind, uint64_t wanted)
{
    choose_drive(kind);
    kind == GAME ? fill_game() : fill_program(kind == SILENT);
    load();
    bool begins = true;
    for (uint64_t last = clocks + wanted; clocks < last;) {
        if (begins && !presses.empty()) {
            begin_game(wanted);
        }
        try {
            play_next();
            begins = false;
        } catch (const Reset &) {
            begin_anew();
            begins = true;
        }
    }
}

static void read_game(const char *path)
{
    FILE *file = path ? fopen(path, "r") : nullptr;
    size_t count = 0;
    for (int byte; file && count < sizeof played && fscanf(file, "%i", &byte) == 1;) {
        played[count++] = (uint8_t)byte;
    }
    if (count < sizeof played) {
        exit(2);
    }
    fclose(file);
}

static void power_on()
{
    fill_memories();
    game.clk = game.reset = game.tick = game.ready = game.held = 0;
    game.switches = 0;
    port.p = UNUSED;
    game.eval();
}

/* A press comes in any clock of the hundredth of a second from its time on. */
static uint64_t clock_of(double second)
{
    return uint64_t(second * CLOCKS_OF_SECOND) + below(CLOCKS_OF_SECOND / 100);
}

static int play_presses(uint64_t wanted, uint64_t seed)
{
    play(GAME, wanted);
    printf("%.1f seconds of a game, %" PRIu64 " clocks, %" PRIu64 " accesses, %" PRIu64 " NMIs, %"
           PRIu64 " starts, %" PRIu64 " pictures,\n %" PRIu64 " presses and %" PRIu64
           " others, %" PRIu64 " times late, %" PRIu64 " resets, %" PRIu64
           " of one clock, %" PRIu64 " clocks of reset; agree, seed %" PRIu64 "\n",
        double(clocks) / CLOCKS_OF_SECOND, clocks, counts.accesses, counts.nmis, timed.starts,
        timed.halts, counts.presses, counts.others, counts.late, counts.pulses, counts.single,
        counts.resets, seed);
    return timed.halts > 0 ? 0 : 1;
}

/* Random programs, and a game, of which the file LOG gets a log, if there is one. */
static int play_all(uint64_t wanted, uint64_t seed, const char *log)
{
    uint64_t half = wanted / 2;
    for (int number = 1; clocks < half; number++) {
        play(number % 3 ? RANDOM : SILENT, CLOCKS_OF_ROM);
    }
    uint64_t nmis = counts.nmis, bites = counts.bites, halts = timed.halts;
    log_file = log ? fopen(log, "w") : nullptr;
    play(GAME, half < CLOCKS_OF_ROM ? +CLOCKS_OF_ROM : half);
    printf("%" PRIu64 " clocks, %" PRIu64 " accesses, %" PRIu64 " bytes read, %" PRIu64 " NMIs, %"
           PRIu64 " clocks of reset, %" PRIu64 " bites of the watchdog,\n %" PRIu64
           " ticks that come too soon, %" PRIu64 " starts, %" PRIu64 " HALTs, broken runs %" PRIu64
           " %" PRIu64 " %" PRIu64 "; of the game %" PRIu64 " NMIs\n and %" PRIu64
           " pictures; agree, seed %" PRIu64 "\n",
        clocks, counts.accesses, counts.tested, counts.nmis, counts.resets, counts.bites,
        counts.soon, timed.starts, timed.halts, timed.breaks[1], timed.breaks[2], timed.breaks[3],
        counts.nmis - nmis, timed.halts - halts, seed);
    return counts.bites == bites && timed.halts > halts ? 0 : 1;
}

int main(int argc, char **argv)
{
    bool has_presses = argc == 6 && strcmp(argv[1], "--game") == 0;
    uint64_t seed, wanted = read_arguments(argc - has_presses, argv + has_presses, &seed);
    read_game(argc > 3 ? argv[3 + has_presses] : nullptr);
    ready_opcodes();
    power_on();
    if (has_presses) {
        read_buttons(argv[5], clock_of);
        return play_presses(wanted, seed);
    }
    decoded = argc > 4 && !strtoul(argv[4], nullptr, 0) ? 0x7FFF : 0xFFFF;
    return play_all(wanted, seed, argc > 5 ? argv[5] : nullptr);
}
