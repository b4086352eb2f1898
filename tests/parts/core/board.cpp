/* dvg_board in Verilator with any processor and any memory, beside a RAM and the generator of the
 * port.
 *
 *     board FETCHES SEED
 *
 * The processor writes and reads at random, often the very byte that is fetched. Compared are, in
 * each clock: what a read found, or that it found nothing, whether the core is answered, what it is
 * answered with (the byte as it stands in that clock), each pin of the core, and each picture.
 * Prints what was played, or the first difference (status 1). */
#include "Vdvg_board.h"
#include "access.h"

static struct {
    uint64_t starts, resets, halts, strokes, breaks[4];
} counts;

static const uint32_t opcodes[] = {0, 5, 9, 0xA, 0xC, 0xC, 0xC, 0xD, 0xD, 0xD, 0xE, 0xF};
static uint32_t hold_in_100;
static bool filling;

/* Chooses the pins of a clock. */
static void choose_pins(Vdvg_board &board)
{
    board.reset = once_in(900);
    board.hold = below(100) < hold_in_100;
    choose_access(board, board.halted, opcodes);
}

/* What the pins say before the edge. */
static void agree_before(const Vdvg_board &board, dvg *port)
{
    dvg_answer wanted = dvg_wants(port);
    agree("halted", board.halted, wanted.kind == DVG_STILL);
    if (wanted.kind == DVG_WANTED) {
        agree("at", board.at, wanted.address);
        agree("high", board.high, wanted.value);
    }
    agree_on_bus(board);
}

/* The generator's event of this clock, by the RAM as it stands. Returns its answer. */
static dvg_answer tell_port(const Vdvg_board &board, dvg *port)
{
    dvg_answer none = {DVG_IDLE, 0, 0, -1};
    if (board.reset || owed.starting) {
        shown.clear();
        counts.resets += board.reset && !filling;
        counts.starts += !board.reset;
        return board.reset ? dvg_reset_generator(port) : dvg_strobe(port);
    }
    if (!owed.pending) {
        return none;
    }
    done_so_far++;
    return dvg_generator_fetch_from(port, ram, rom, rom_bytes);
}

static void agree_after(const Vdvg_board &board, dvg *port, dvg_answer answer)
{
    agree("done", board.done, answer.kind == DVG_DONE);
    agree("fault", board.fault, dvg_break_of(answer));
    counts.breaks[board.fault & 3] += board.fault != 0;
    keep_stroke(board);
    if (answer.kind == DVG_DONE) {
        counts.halts++;
        counts.strokes += agree_on_picture(port);
    }
}

static void play_clock(Vdvg_board &board, dvg *port)
{
    answer_rom(board);
    agree_before(board, port);
    dvg_answer answer = tell_port(board, port);
    perform(board, board.halted, board.hold, board.reset || answer.kind != DVG_IDLE);
    edge(board);
    agree_after(board, port, answer);
}

/* A new ROM and a new RAM, which the processor writes byte by byte. */
static void fill(Vdvg_board &board, dvg *port)
{
    static const uint32_t rates[] = {0, 10, 50, 90};
    access_in_100 = rates[below(4)];
    hold_in_100 = rates[below(3)];
    fill_rom(opcodes);
    board.big = rom_bytes == DVG_LARGE_ROM_BYTES;
    filling = board.reset = board.access = board.write = 1;
    for (uint32_t word = 0; word < DVG_RAM_BYTES / 2; word++) {
        uint8_t bytes[2];
        set_word(bytes, any_word(opcodes));
        for (uint32_t high = 0; high < 2; high++) {
            board.a = 0x4000 + 2 * word + high;
            board.d = bytes[high];
            play_clock(board, port);
        }
    }
    filling = false;
}

int main(int argc, char **argv)
{
    uint64_t seed, wanted = read_arguments(argc, argv, &seed);
    Vdvg_board board;
    dvg *port = new_device();
    dvg_open_generator(port);
    board.clk = 0;
    board.eval();
    for (uint64_t clock = 0; done_so_far < wanted; clock++) {
        if (clock % 50000 == 0) {
            fill(board, port);
        }
        choose_pins(board);
        play_clock(board, port);
    }
    printf("%" PRIu64 " fetches in %" PRIu64 " clocks agree: %" PRIu64 " bytes written, %" PRIu64
           " of them the one that is answered, %" PRIu64 " read, %" PRIu64
           " looks at the flag,\n %" PRIu64 " starts, %" PRIu64 " resets, %" PRIu64
           " ROM bytes, %" PRIu64 " HALTs with %" PRIu64
           " strokes, broken runs %" PRIu64 " %" PRIu64 " %" PRIu64 "\n",
        done_so_far, clocks, bus_counts.writes, bus_counts.at_its_place, bus_counts.reads,
        bus_counts.looks, counts.starts, counts.resets, bus_counts.rom_bytes, counts.halts,
        counts.strokes, counts.breaks[1], counts.breaks[2], counts.breaks[3]);
    dvg_free(port);
    return 0;
}
