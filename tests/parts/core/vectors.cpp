/* dvg_vectors in Verilator beside the facts of facts.h, over whole display lists, by the bus
 * of a processor that reads the RAM meanwhile, and after each list in some clocks in which all
 * comes at random (paced.h).
 *
 *     vectors LISTS SEED          so many random lists
 *     vectors --moves DUMP        the list of a dump; prints its moves, as `dvg picture --moves
 *                                 --units` does but for the address, and then its ticks
 *
 * The DACs, the counters and the intensity are compared in each tick of a list, and how many ticks
 * it takes: ticks are 4 to 12 clocks apart. Prints what was played, or the first difference (status
 * 1). */
#include <cstring>
#include "Vdvg_vectors.h"
#include "paced.h"

enum : uint32_t { RANDOM_CLOCKS = 20000 };

static uint8_t memory[2048 + 4096];
static size_t size;

static Vdvg_vectors circuit;
static Drawing drawing;
static uint64_t all_ticks, all_moves;

static uint32_t found = UINT32_MAX;     /* the byte that a read of the clock before is to find */

static void clock_it()
{
    uint32_t first = size > 4096 ? 0x800 : 0x1000, place = 2 * circuit.at + circuit.high;
    circuit.rom = place >= first && place < 0x1800 ? memory[2048 + place - first] : 0xFF;
    circuit.eval();
}

static void access_bus(bool write, uint32_t a, uint8_t d)
{
    circuit.access = 1;
    circuit.write = write;
    circuit.a = a;
    circuit.d = d;
}

static void put(uint32_t a, uint8_t d)
{
    access_bus(true, a, d);
    clock_it();
    edge(circuit);
    circuit.access = circuit.write = 0;
}

/* A tick of so many clocks. The processor may read the RAM in those that leave two for a byte. */
static void play_tick(const Shown &shown, uint32_t count, bool more)
{
    for (uint32_t clock = 0; clock < count; clock++) {
        circuit.access = 0;
        uint32_t wanted = found;
        found = UINT32_MAX;
        if (clock + 3 < count && once_in(3)) {
            uint32_t place = below(2048);
            access_bus(false, 0x4000 + place, 0);
            found = memory[place];
        }
        circuit.tick = clock + 1 == count;
        clock_it();
        if (wanted != UINT32_MAX) {
            agree("q", circuit.q, wanted);
        }
        if (circuit.tick) {
            agree("x", circuit.x, shown.x);
            agree("y", circuit.y, shown.y);
            agree("dac_x", circuit.dac_x, shown.x & 1023);
            agree("dac_y", circuit.dac_y, shown.y & 1023);
            agree("z", circuit.z, shown.z);
            agree("lit", circuit.lit, shown.z != 0);
        }
        agree("halted", circuit.halted, 0);
        edge(circuit);
    }
    circuit.tick = 0;
    clock_it();
    agree("halted after the tick", circuit.halted, !more);
}

/* Plays the memory on the board. The counters go on from the run before. */
static void play_list()
{
    circuit.big = size > 4096;
    for (uint32_t i = 0; i < 2048; i++) {
        put(0x4000 + i, memory[i]);
    }
    put(0x3000, 0);
    clock_it();
    edge(circuit);
    draw_run(drawing, memory, size);
    uint32_t count = 4 + below(9);
    for (size_t tick = 0; tick < drawing.ticks.size(); tick++) {
        play_tick(drawing.ticks[tick], count, tick + 1 < drawing.ticks.size());
    }
    agree("the end, x", circuit.x, drawing.facts.x);
    agree("the end, y", circuit.y, drawing.facts.y);
    agree("fault", circuit.fault, 0);
    all_ticks += drawing.ticks.size();
    all_moves += drawing.moves.size();
}

/* Random lists: eight shapes in ROM and four in RAM, which nest no deeper than two. */
static uint32_t made;

static void put_word(uint32_t word)
{
    memory[made++] = word & 255;
    memory[made++] = word >> 8 & 255;
}

static void put_move()
{
    uint32_t k = below(6);
    if (k == 0) {
        put_word(0xA000 | below(4096));
        put_word((once_in(2) ? 0 : below(16)) << 12 | below(4096));
    } else if (k < 4) {
        put_word(below(10) << 12 | below(4096));
        put_word((once_in(3) ? 0 : below(16)) << 12 | below(4096));
    } else {
        put_word(0xF000 | below(4096));
    }
}

static void put_shape(uint32_t place, uint32_t moves, bool calls)
{
    made = place;
    while (moves--) {
        put_move();
    }
    if (calls) {
        put_word(0xC800 + 32 * below(8));
        put_move();
    }
    put_word(0xD000);
}

static void put_list()
{
    size = once_in(4) ? 6144 : 4096;
    uint32_t rom = 2048 + (size > 4096 ? 2048 : 0);
    for (uint32_t k = 0; k < 8; k++) {
        put_shape(rom + 64 * k, 1 + below(12), false);
    }
    for (uint32_t k = 0; k < 4; k++) {
        put_shape(1600 + 80 * k, 1 + below(6), true);
    }
    made = 0;
    for (uint32_t count = 5 + below(20); count--;) {
        uint32_t k = below(6);
        if (k == 0) {
            put_word((size > 4096 && once_in(2) ? 0xC400 : 0xC800) + 32 * below(8));
        } else if (k == 1) {
            put_word(0xC000 + 800 + 40 * below(4));
        } else if (k == 2) {
            uint32_t to = made / 2 + 1 + below(5);
            put_word(0xE000 | to);
            made = 2 * to;
        } else {
            put_move();
        }
    }
    put_word(0xB000 | below(4096));
}

static int play_dump(const char *name)
{
    FILE *file = fopen(name, "rb");
    size = file ? fread(memory, 1, sizeof memory, file) : 0;
    if (size != 4096 && size != 6144) {
        return 2;
    }
    play_list();
    for (const Move &move : drawing.moves) {
        printf("%u %u %u %u %u\n", move.x0, move.y0, move.x1, move.y1, move.z);
    }
    printf("%zu ticks\n", drawing.ticks.size());
    return 0;
}

int main(int argc, char **argv)
{
    circuit.clk = circuit.tick = circuit.reset = circuit.access = circuit.write = 0;
    circuit.eval();
    if (argc > 2 && !strcmp(argv[1], "--moves")) {
        return play_dump(argv[2]);
    }
    uint64_t seed, lists = read_arguments(argc, argv, &seed);
    Paced<Vdvg_vectors> paced(circuit, drawing.facts, drawing.words);
    for (uint64_t list = 0; list < lists; list++) {
        put_list();
        play_list();
        paced.play(RANDOM_CLOCKS);
    }
    printf("%" PRIu64 " lists, %" PRIu64 " moves, %" PRIu64 " ticks agree, seed %" PRIu64
           "; of all clocks, %" PRIu64 ", those at random have %" PRIu64 " bytes, %" PRIu64
           " taken in a tick,\n %" PRIu64 " starts, %" PRIu64 " clocks of reset, %" PRIu64
           " of both amid a vector, %" PRIu64 " HALTs, broken runs %" PRIu64 " %" PRIu64 " %" PRIu64
           "\n",
        lists, all_moves, all_ticks, seed, clocks, done_so_far, paced.late, paced.starts,
        paced.resets, paced.amid, paced.halts, paced.breaks[1], paced.breaks[2], paced.breaks[3]);
    return 0;
}
