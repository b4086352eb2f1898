/* core/top/icebreaker.v in Verilator with dvg_game: a whole game on cells, which nobody plays.
 *
 *     attract SWITCHES RAM START
 *
 * It runs where program.hex and rom.hex are. SWITCHES is a hexadecimal number, the lowest two bits
 * those of 2800. At the generator's start of the number START, from 1, the vector RAM must have the
 * bytes of the file RAM, all 2,048. Each input closes its bit and no other. A cycle of the
 * processor begins in each fourth clock of the game, whose clock is half of the board's. The lamps
 * are what the game writes. Over the run that begins there, the pulses have the mean that x and y
 * have. Prints what was played, or the first difference (status 1). */
#include "Vicebreaker.h"
#include "Vicebreaker___024root.h"
#include "bench.h"

enum : uint64_t { RAM = 2048, INPUTS = 8, CLOCKS_OF_CYCLE = 8 };

static Vicebreaker top;
static Vicebreaker___024root *const root = top.rootp;
static uint8_t wanted[RAM];

#define MACHINE(signal) (root->icebreaker__DOT__machine__DOT__##signal)
#define GAME(signal) MACHINE(game__DOT__##signal)
#define BOARD(signal) GAME(vectors__DOT__board__DOT__##signal)

/* The bits of `held` that the pins of Pmod 1B close. */
static const unsigned PLACES[INPUTS] = {8, 11, 12, 15, 14, 13, 4, 3};

/* What the game writes for its lamps, where 0 is lit; cycles of the processor; changes of lamps. */
static unsigned lamps = 3;
static uint64_t cycles, changes;

/* Sums of the pulses, and of what they stand for, in clocks of the game. */
static int64_t pulses_x, pulses_y, sum_x, sum_y;

/* A clock of the game, which is two of the board. */
static void clock_once()
{
    agree("the lamps", top.pmod2, (lamps & 1) << 1 | lamps >> 1);
    if (GAME(resets)) {
        lamps = 3;
    } else if (GAME(of_output) && GAME(area) == 1) {
        changes += lamps != (~GAME(d) & 3u);
        lamps = ~GAME(d) & 3;
    }
    cycles += GAME(access);
    sum_x += root->icebreaker__DOT__screen_x;
    sum_y += root->icebreaker__DOT__screen_y;
    edge(top);
    edge(top);
    pulses_x += top.pmod1a & 1;
    pulses_y += top.pmod1a >> 1 & 1;
}

static void check_inputs()
{
    for (unsigned pin = 0; pin < INPUTS; pin++) {
        top.pmod1b = 0xFF ^ 1u << pin;
        for (int wait = 0; wait < 4; wait++) {
            clock_once();
        }
        agree("an input", root->icebreaker__DOT__held, 1u << PLACES[pin]);
    }
    top.pmod1b = 0xFF;
}

/* Plays up to a start, by its number, and its run. */
static void play_start(uint64_t number)
{
    for (uint64_t left = number - BOARD(starting); left > 0; left -= BOARD(starting)) {
        clock_once();
    }
    for (size_t at = 0; at < RAM; at++) {
        agree("a byte of the vector RAM", BOARD(ram)[at], wanted[at]);
    }
    uint64_t began = clocks;
    pulses_x = pulses_y = sum_x = sum_y = 0;
    do {
        clock_once();
    } while (!BOARD(halted));
    printf("start %" PRIu64 " has this RAM, after %" PRIu64 " clocks; its run took %" PRIu64
        " clocks; ", number, began, clocks - began);
    agree("pulses of x", llabs(pulses_x * 1024 - sum_x) < 4096, 1);
    agree("pulses of y", llabs(pulses_y * 1024 - sum_y) < 4096, 1);
}

int main(int count, char **words)
{
    FILE *file = count == 4 ? fopen(words[2], "rb") : nullptr;
    if (!file || fread(wanted, 1, RAM, file) != RAM) {
        return 64;
    }
    fclose(file);
    top.clk = 0;
    top.button_n = 1;
    top.pmod1b = 0xFF;
    top.eval();
    MACHINE(switches) = strtoul(words[1], nullptr, 16);
    check_inputs();
    play_start(strtoull(words[3], nullptr, 0));
    uint64_t most = clocks / CLOCKS_OF_CYCLE;
    agree("cycles of the processor", cycles <= most && cycles + 80 > most, 1);
    printf("%" PRIu64 " cycles of the processor, %" PRIu64 " changes of lamps\n", cycles, changes);
    return 0;
}
