/* core/top/icebreaker.v whole in Verilator, with the 6502 of ../board/cpu.h in the place of its
 * processor: a program of the board runs on it.
 *
 *     game PROGRAM ROM SECONDS >LOG
 *
 * PROGRAM has the bytes from 6800 to 7FFF; ROM those of the vector ROM, which the circuit reads
 * from rom.hex. An NMI comes 246 times a second of the board's clock. Each access of the processor
 * is a cycle of the bus, also the dummy reads; the cycles of an instruction that are left come
 * after them, as reads of the next instruction. LOG is for `dvg torn`: each byte that the processor
 * writes into the RAM and each one that the core fetches, in the order in which the RAM makes them.
 *
 * Beside it the port's generator is handed the RAM and the ROM. Compared are where each fetch is,
 * each byte of the RAM that the processor reads, and the strokes of each picture; and the pins of
 * the monitor, which show in each tick what the facts of run.h do with the words that were
 * fetched. What was played is printed to standard error, or the first difference to standard output
 * (status 1). */
#include "Vicebreaker.h"
#include "Vicebreaker___024root.h"
#include "screen.h"
extern "C" {
#include "../board/cpu.h"
}

enum : uint32_t { CLOCKS_A_SECOND = 12000000, NMIS_A_SECOND = 246, PROGRAM = 0x6800 };

static Vicebreaker top;
static Vicebreaker___024root *const root = top.rootp;
static cpu processor;
static uint64_t accesses;               /* of the bus, each of one cycle */
static uint8_t low[0x400], program[0x1800], rom[DVG_ROM_BYTES], ram[DVG_RAM_BYTES];
static dvg *port;

static struct {
    uint64_t frames, starts, pictures, differ, strokes, seen, ticks, nmis, looks;
} counts;

#define MACHINE(signal) (root->icebreaker__DOT__machine__DOT__##signal)
#define BOARD(signal) MACHINE(vectors__DOT__board__DOT__##signal)

static uint8_t answer()
{
    return MACHINE(processor__DOT__seen) & 0xFF;
}

static bool is_step() { return MACHINE(processor__DOT__seen) >> 8 & 1; }
static bool is_reset() { return MACHINE(processor__DOT__seen) >> 9 & 1; }

/* --- The monitor --- */

static monitor screen;
static Drawing drawing;
static bool is_whole;                   /* the pins have to show the picture that was drawn */

/* What the pins show in a clock. */
static void watch_pins()
{
    uint32_t x = top.pmod1a | (top.pmod2 & 3) << 8, y = top.pmod1b | (top.pmod2 >> 2 & 3) << 8;
    screen.watch(Shown{x, y, top.pmod2 >> 4u}, MACHINE(tick), !top.red_n);
}

/* At a start: what the pins showed of the picture before. */
static void agree_on_pins()
{
    if (is_whole) {
        counts.ticks += drawing.ticks.size();
        counts.seen++;
        screen.agree_on(drawing.ticks);
    }
    is_whole = false;
    screen.seen.clear();
    drawing.begin();
}

/* --- The generator --- */

static std::vector<dvg_stroke> before;

static bool is_same_picture()
{
    if (before.size() != shown.size()) {
        return false;
    }
    for (size_t number = 0; number < shown.size(); number++) {
        const dvg_stroke &s = shown[number], &t = before[number];
        if (s.x0 != t.x0 || s.y0 != t.y0 || s.x1 != t.x1 || s.y1 != t.y1 || s.z != t.z) {
            return false;
        }
    }
    return true;
}

/* At a HALT the picture is the port's. */
static void end_picture()
{
    puts("halted");
    counts.strokes += agree_on_picture(port);
    counts.differ += !is_same_picture();
    counts.pictures++;
    before = shown;
    is_whole = true;
}

/* The event of the core in this clock, with the port's answer. */
static dvg_answer tell_port()
{
    dvg_answer none = {DVG_IDLE, 0, 0, -1};
    if (BOARD(starting)) {
        puts("started");
        agree_on_pins();
        shown.clear();
        counts.starts++;
        return dvg_strobe(port);
    }
    if (!BOARD(takes)) {
        return none;
    }
    dvg_answer wanted_byte = dvg_wants(port);
    uint32_t at = BOARD(at), high = BOARD(high);
    agree("at", at, wanted_byte.address);
    agree("high", high, wanted_byte.value);
    const uint8_t *word = at < 0x400 ? ram + 2 * at : rom + 2 * (at - 0x800);
    if (high) {
        printf("fetched %03X %02X%02X\n", at, word[1], word[0]);
        drawing.take(word[0] | word[1] << 8);
    } else {
        printf("low %03X %02X\n", at, word[0]);
    }
    return dvg_generator_fetch_from(port, ram, rom, sizeof rom);
}

/* A write of the processor, later than the core's access of the same clock. */
static void perform_write()
{
    if (BOARD(access) && BOARD(write) && BOARD(a) >> 11 == 8) {
        uint32_t place = BOARD(a) % DVG_RAM_BYTES;
        ram[place] = BOARD(d);
        counts.frames += place == 1;
        printf("wrote %03X %02X\n", place, ram[place]);
    }
}

static void clock_once()
{
    dvg_answer of_port = tell_port();
    perform_write();
    edge(top);
    watch_pins();
    if (BOARD(stroke)) {
        shown.push_back(dvg_stroke{BOARD(x0), BOARD(y0), BOARD(x), BOARD(y), BOARD(z)});
    }
    agree("done", BOARD(done), of_port.kind == DVG_DONE);
    agree("fault", BOARD(fault), 0);
    if (BOARD(done)) {
        end_picture();
    }
}

/* --- The processor's bus --- */

/* A cycle with these pins, up to the edge that ends it. What is on the latch then is returned. */
static uint8_t cycle(bool reads, uint16_t at, uint8_t data)
{
    MACHINE(processor__DOT__pins) = (uint32_t)reads << 24 | (uint32_t)at << 8 | data;
    top.eval();
    while (!is_step()) {
        clock_once();
    }
    uint8_t found = answer();
    clock_once();
    accesses++;
    return found;
}

static bool is_board(uint16_t at)
{
    return at == 0x2002 || at >> 11 == 8;
}

static uint8_t own_byte(uint16_t at)
{
    at &= 0x7FFF;
    return at < 0x400 ? low[at] : at >= PROGRAM ? program[at - PROGRAM] : 0x7F;
}

extern "C" uint8_t bus_fetch(uint16_t at) { return bus_read(at, 0); }

extern "C" uint8_t bus_read(uint16_t at, int)
{
    uint8_t found = cycle(true, at, 0);
    if (!is_board(at)) {
        return own_byte(at);
    }
    if (at == 0x2002) {
        counts.looks++;
    } else {
        agree("a byte of the RAM that is read", found, ram[at % DVG_RAM_BYTES]);
    }
    return found;
}

extern "C" void bus_write(uint16_t at, uint8_t value)
{
    cycle(false, at, value);
    if (at < sizeof low) {
        low[at] = value;
    }
}

/* One instruction, or the beginning of an NMI, with all its cycles. */
static void run_once(bool nmi)
{
    uint64_t cycles = processor.cycles, made = accesses;
    if (nmi) {
        begin_nmi(&processor);
        counts.nmis++;
    } else if (!step(&processor)) {
        printf("no opcode before %04X\n", processor.pc);
        exit(1);
    }
    for (cycles = processor.cycles - cycles; accesses - made < cycles;) {
        cycle(true, processor.pc, 0);
    }
}

static void read_file(const char *path, uint8_t *into, size_t bytes)
{
    FILE *file = fopen(path, "rb");
    if (!file || fread(into, 1, bytes, file) != bytes) {
        exit(2);
    }
    fclose(file);
}

static void power_on()
{
    port = new_device();
    dvg_open_generator(port);
    seed_random(1979);
    for (uint8_t &byte : low) {
        byte = random_bits();
    }
    ready_opcodes();
    top.button_n = 1;
    top.clk = 0;
    top.eval();
    while (clocks < 10 || is_reset()) {
        clock_once();
    }
    processor.p = UNUSED | INTERRUPT;
    processor.s = 0xFD;
    processor.pc = own_byte(0xFFFC) | own_byte(0xFFFD) << 8;
}

int main(int count, char **words)
{
    if (count != 4) {
        return 64;
    }
    read_file(words[1], program, sizeof program);
    read_file(words[2], rom, sizeof rom);
    power_on();
    uint64_t last = strtoull(words[3], nullptr, 0) * CLOCKS_A_SECOND;
    for (uint64_t next = clocks; clocks < last;) {
        bool nmi = clocks >= next;
        next += nmi ? CLOCKS_A_SECOND / NMIS_A_SECOND : 0;
        run_once(nmi);
    }
    fprintf(stderr,
        "%" PRIu64 " clocks, %" PRIu64 " cycles of the processor, %" PRIu64 " NMIs, %" PRIu64
        " looks at the flag: %" PRIu64 " frames, %" PRIu64 " pictures equal to the port's, "
        "%" PRIu64 " of them unlike the one before, %" PRIu64 " seen on the pins in %" PRIu64
        " ticks, %" PRIu64 " strokes\n",
        clocks, accesses, counts.nmis, counts.looks, counts.frames, counts.pictures, counts.differ,
        counts.seen, counts.ticks, counts.strokes);
    return 0;
}
