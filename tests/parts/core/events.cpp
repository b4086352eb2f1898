/* dvg_board in Verilator with the driver of the port on its bus, beside the port's world.
 *
 *     events EVENTS SEED
 *
 * The driver's actions are done on the processor's bus, with random waits, holds, foreign reads,
 * and resets also in the clock of a strobe. The world is told the events in the order of the log:
 * in each clock first what the processor looks at, then the generator's event, then what the
 * processor changes. Compared are each answer, each byte read, and each picture. Prints what was
 * played, or the first difference (status 1). */
#include "Vdvg_board.h"
#include "bench.h"

static struct {
    uint64_t frames, writes, looks, peeks, pictures, strokes, rom_bytes, beside_a_write,
        at_its_place;
    uint64_t dropped;
} counts;

static Vdvg_board *board;
static dvg *world, *driver;
static uint8_t ram[DVG_RAM_BYTES], rom[DVG_LARGE_ROM_BYTES];
static size_t rom_bytes;
static uint32_t most_waits, hold_in_100;
static bool starting, ever_sent;

/* Pins of the board in a clock; those that aren't named are 0. */
struct Pins {
    bool reset, hold, access, write;
    uint32_t a, d;
};

static void nothing() {}

/* The ROM's byte on its pin, where the core is answered with one. */
static void answer_rom()
{
    uint32_t first = 0xC00 - (uint32_t)rom_bytes / 2;
    board->rom = below(256);
    board->eval();
    if (board->takes && board->at >= first && board->at < 0xC00) {
        board->rom = rom[2 * (board->at - first) + board->high];
        board->eval();
        counts.rom_bytes++;
    }
}

static dvg_answer tell_world(dvg_answer (*event)(dvg *))
{
    done_so_far++;
    return event(world);
}

/* What the pins say of a byte that the core took while `running`. */
static dvg_kind kind_shown(bool running)
{
    if (!running) {
        return DVG_STILL;
    }
    return board->fault ? DVG_BROKE : board->done ? DVG_DONE : board->high ? DVG_LOW : DVG_FETCHED;
}

static void agree_on_fetch(dvg_answer answer, bool running)
{
    agree("what came of a fetch", kind_shown(running), answer.kind);
    keep_stroke(*board);
    if (answer.kind == DVG_DONE) {
        counts.pictures++;
        counts.strokes += agree_on_picture(world);
    }
}

/* A clock of the board. `looks` tells the world what the processor looks at, `changes` what it
 * changes. */
template <class Looks, class Changes> static void step(Pins pins, Looks looks, Changes changes)
{
    bool starts = starting && !pins.reset, writes = pins.access && pins.write && pins.a >> 11 == 8;
    dvg_answer answer = {DVG_STILL, 0, 0, -1};
    starting = false;
    board->reset = pins.reset;
    board->hold = pins.hold;
    board->access = pins.access;
    board->write = pins.write;
    board->a = pins.a;
    board->d = pins.d;
    answer_rom();
    bool takes = board->takes, running = !board->halted;
    looks();
    if (pins.reset || starts) {
        shown.clear();
    }
    if (pins.reset) {
        dvg_reset_generator(world);
    } else if (starts) {
        agree("a strobe", tell_world(dvg_strobe).kind, DVG_STARTED);
    } else if (takes) {
        uint32_t place = 2u * board->at + board->high;
        counts.beside_a_write += writes;
        counts.at_its_place += writes && pins.a % DVG_RAM_BYTES == place;
        answer = tell_world(dvg_fetch);
        agree("the address of a fetch", running ? board->at : 0, answer.address);
    }
    edge(*board);
    if (starts) {
        agree("started", board->halted, 0);
    }
    if (takes) {
        agree_on_fetch(answer, running);
    }
    changes();
}

static bool any_hold() { return below(100) < hold_in_100; }

/* Clocks without an action of the driver; in some, something else is read. */
static void wait()
{
    for (uint32_t left = most_waits ? below(most_waits) : 0; left; left--) {
        step({false, any_hold(), once_in(8), false, below(0x10000), below(256)}, nothing, nothing);
    }
}

/* The same call of the driver and of the world. */
static void both(dvg_answer (*call)(dvg *))
{
    dvg_answer one = call(driver), two = tell_world(call);
    agree("the answer of both", one.kind, two.kind);
    agree("its address", one.address, two.address);
    agree("its value", one.value, two.value);
    counts.frames += one.kind == DVG_OFFERED;
}

/* One random draft, pushed to a device. */
static void push_draft(dvg *device)
{
    dvg_clear(device);
    dvg_labs(device, below(1024), below(1024), below(3));
    for (uint32_t left = 1 + below(20); left; left--) {
        switch (below(5)) {
        case 0: dvg_labs(device, below(4096), below(4096), below(16)); break;
        case 1:
            dvg_svec(device, 2 + below(4), (int)below(7) - 3, (int)below(7) - 3, below(16));
            break;
        case 2: dvg_call_rom(device, 0x800 + below(1024)); break;
        default:
            dvg_vctr(device, below(10), (int)below(2047) - 1023, (int)below(2047) - 1023,
                below(16));
        }
    }
    dvg_halt(device);
}

static void offer()
{
    uint64_t kept = random_state;
    push_draft(driver);
    random_state = kept;
    push_draft(world);
    both(dvg_offer);
}

/* One action of the driver, done on the bus. It is handed the flag and byte 001 as they stand: what
 * the bus finds must be the same. */
static void tick()
{
    bool halted = board->halted, hold = any_hold(), reset;
    dvg_answer one = dvg_driver_tick(driver, halted, ram[1]);
    auto tell = [&] {
        dvg_answer two = tell_world(dvg_tick);
        agree("a tick", one.kind, two.kind);
        agree("its address", one.address, two.address);
        agree("its value", one.value, two.value);
    };
    switch (one.kind) {
    case DVG_WROTE:
        step({once_in(500), hold, true, true, 0x4000u + one.address, one.value}, nothing, tell);
        ram[one.address] = (uint8_t)one.value;
        counts.writes++;
        break;
    case DVG_SENT:
        reset = once_in(50);                            /* a reset in this clock drops the strobe */
        step({reset, hold, true, true, 0x3000, below(256)}, nothing, tell);
        starting = !reset;
        ever_sent = true;
        counts.dropped += reset;
        break;
    case DVG_READ:
        step({false, hold, true, false, 0x2002, below(256)}, tell, nothing);
        agree("the flag", board->q, halted ? 0x00 : 0x80);
        counts.looks++;
        break;
    case DVG_PEEK:
        step({false, hold, true, false, 0x4001, below(256)}, tell, nothing);
        agree("byte 001", board->q, ram[1]);
        counts.peeks++;
        break;
    default:
        tell();
    }
}

/* What happens beside ticks: the number, below 200, says what. */
static void play_other(uint32_t number)
{
    uint32_t address = below(DVG_RAM_BYTES);
    if (number < 130) {
        offer();
    } else if (number < 140) {
        both(dvg_redraw);
    } else if (number < 170) {
        step({false, false, true, false, 0x4000 + address, 0}, nothing, nothing);
        agree("a byte of the RAM", board->q, ram[address]);
    } else if (number < 185) {
        step({true, once_in(2), once_in(2), false, below(0x10000), below(256)}, nothing, nothing);
        done_so_far++;
    } else if (number < 190) {
        both(dvg_reset_processor);
    } else if (number < 195) {                          /* all is reset, but for the RAM */
        step({true, false, false, false, 0, 0}, nothing, nothing);
        dvg_reset_all(world, ram);
        dvg_reset_processor(driver);
        done_so_far++;
        ever_sent = false;
    } else if (!ever_sent) {
        agree("a strobe that nobody sent", dvg_strobe(world).kind, DVG_NO_STROBE);
    }
}

/* A ROM of shapes, each an SVEC and a return, and a RAM of random bytes, which the processor writes
 * before its driver begins. */
static void open_all(uint64_t seed)
{
    rom_bytes = seed % 2 ? DVG_ROM_BYTES : DVG_LARGE_ROM_BYTES;
    for (size_t byte = 0; byte < rom_bytes; byte += 4) {
        rom[byte] = below(256);
        rom[byte + 1] = 0xF0 | below(16);
        rom[byte + 2] = 0x00;
        rom[byte + 3] = 0xD0;
    }
    world = new_device();
    driver = new_device();
    board->big = rom_bytes == DVG_LARGE_ROM_BYTES;
    board->clk = 0;
    board->eval();
    dvg_open_generator(world);
    for (uint32_t byte = 0; byte < DVG_RAM_BYTES; byte++) {
        ram[byte] = below(256);
        step({true, false, true, true, 0x4000 + byte, ram[byte]}, nothing, nothing);
    }
    dvg_open_driver(driver, rom, rom_bytes);
    dvg_open_world(world, ram, rom, rom_bytes);
}

int main(int argc, char **argv)
{
    uint64_t seed, wanted = read_arguments(argc, argv, &seed);
    board = new Vdvg_board;
    open_all(seed);
    while (done_so_far < wanted) {
        if (once_in(2000)) {
            most_waits = once_in(3) ? 0 : 1u << below(5);
            hold_in_100 = once_in(3) ? 95 : below(60);
        }
        wait();
        uint32_t number = below(7000);
        if (number < 200) {
            play_other(number);
        } else {
            tick();
        }
    }
    printf("%" PRIu64 " events in %" PRIu64 " clocks agree: %" PRIu64 " frames taken, %" PRIu64
           " bytes written, %" PRIu64 " looks at the flag, %" PRIu64 " peeks,\n %" PRIu64
           " pictures with %" PRIu64 " strokes, %" PRIu64 " ROM bytes, %" PRIu64
           " fetches in the clock of a write (%" PRIu64
           " of the byte written), %" PRIu64 " strobes dropped\n",
        done_so_far, clocks, counts.frames, counts.writes, counts.looks, counts.peeks,
        counts.pictures, counts.strokes, counts.rom_bytes, counts.beside_a_write,
        counts.at_its_place, counts.dropped);
    return 0;
}
