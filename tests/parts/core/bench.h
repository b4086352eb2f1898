/* What the benches of core/ have in common: random numbers, comparison, and the port's answers. */
#ifndef CORE_BENCH_H
#define CORE_BENCH_H

#include "verilated.h"
#include <cinttypes>
#include <cstdio>
#include <cstdlib>
#include <vector>
#include "dvg.h"

/* What is counted: clocks, and what a bench is asked for (fetches or events). */
static uint64_t clocks, done_so_far;

/* Random numbers from one seed: xorshift. */
static uint64_t random_state;
static void seed_random(uint64_t seed) { random_state = seed * 0x9E3779B97F4A7C15ull + 1; }
static uint32_t random_bits()
{
    random_state ^= random_state << 13;
    random_state ^= random_state >> 7;
    random_state ^= random_state << 17;
    return (uint32_t)(random_state >> 16);
}
static uint32_t below(uint32_t count) { return random_bits() % count; }
static bool once_in(uint32_t count) { return below(count) == 0; }

/* Ends the bench with status 1 where the circuit and the port differ. */
static void agree(const char *what, uint64_t circuit, uint64_t port)
{
    if (circuit == port) {
        return;
    }
    printf("clock %" PRIu64 ", number %" PRIu64 ": %s: the circuit %" PRIX64 ", the port %" PRIX64
           "\n",
        clocks, done_so_far, what, circuit, port);
    exit(1);
}

/* The strokes that the circuit's pins showed since the run began. */
static std::vector<dvg_stroke> shown;

/* Keeps the stroke that the pins show, if they do. */
template <class Circuit> static void keep_stroke(const Circuit &circuit)
{
    if (circuit.stroke) {
        shown.push_back(dvg_stroke{circuit.x0, circuit.y0, circuit.x, circuit.y, circuit.z});
    }
}

/* At a HALT: the strokes shown are those of the port's picture. Returns how many. */
static size_t agree_on_picture(dvg *port)
{
    agree("strokes", shown.size(), dvg_strokes(port));
    for (size_t number = 0; number < shown.size(); number++) {
        dvg_stroke stroke = dvg_stroke_at(port, number);
        agree("x0", shown[number].x0, stroke.x0);
        agree("y0", shown[number].y0, stroke.y0);
        agree("x1", shown[number].x1, stroke.x1);
        agree("y1", shown[number].y1, stroke.y1);
        agree("z", shown[number].z, stroke.z);
    }
    return shown.size();
}

/* One edge of the clock. */
template <class Circuit> static void edge(Circuit &circuit)
{
    circuit.clk = 1;
    circuit.eval();
    circuit.clk = 0;
    circuit.eval();
    clocks++;
}

/* The arguments: how many, and the seed. */
static uint64_t read_arguments(int argc, char **argv, uint64_t *seed)
{
    *seed = argc > 2 ? strtoull(argv[2], nullptr, 0) : 1979;
    seed_random(*seed);
    return argc > 1 ? strtoull(argv[1], nullptr, 0) : 1000000;
}

static dvg *new_device()
{
    dvg *device = nullptr;
    if (dvg_new(&device) != 0) {
        exit(2);
    }
    return device;
}

#endif
