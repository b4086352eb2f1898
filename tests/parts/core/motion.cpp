/* dvg_motion in Verilator beside the facts of facts.h, over random vectors and LABS, with a
 * tick in each clock or in one of several.
 *
 *     motion VECTORS SEED
 *
 * Each pin is compared in each clock, and where a vector ends with the rounding of the port's
 * counters. Prints what was played, or the first difference (status 1). */
#include "Vdvg_motion.h"
#include "bench.h"
#include "facts.h"

static struct {
    uint64_t ticks, pulses, placed;
} counts;

static Vdvg_motion circuit;
static Facts facts;

static void agree_on_pins()
{
    agree("going", circuit.going, facts.going());
    agree("x", circuit.x, facts.x);
    agree("y", circuit.y, facts.y);
    agree("dac_x", circuit.dac_x, facts.x & 1023);
    agree("dac_y", circuit.dac_y, facts.y & 1023);
    agree("shown_z", circuit.shown_z, facts.shown());
    agree("lit", circuit.lit, facts.shown() != 0);
}

/* A clock with the pins as they are set: amid a vector its fields may be any. */
static void play_clock(bool tick)
{
    circuit.tick = tick;
    circuit.eval();
    agree_on_pins();
    counts.pulses += tick ? facts.pulse_x() + facts.pulse_y() : 0;
    counts.ticks += tick && facts.going();
    edge(circuit);
    if (tick) {
        facts.tick();
    }
}

static void set_any_pins()
{
    circuit.sum = below(16);
    circuit.dx_sign = below(2);
    circuit.dy_sign = below(2);
    circuit.dx = below(1024);
    circuit.dy = below(1024);
    circuit.z = below(16);
    circuit.to_x = below(4096);
    circuit.to_y = below(4096);
}

static void place()
{
    set_any_pins();
    circuit.places = 1;
    facts.x = circuit.to_x;
    facts.y = circuit.to_y;
    circuit.tick = below(2);
    circuit.eval();
    edge(circuit);
    circuit.places = 0;
    circuit.eval();
    agree_on_pins();
    counts.placed++;
}

/* A magnitude: any one, or one with few bits, or many. */
static uint32_t any_magnitude()
{
    uint32_t one = 1u << below(10);
    return once_in(2) ? below(1024) : once_in(2) ? one : (1024 - one) & 1023;
}

/* By how much a vector moves a counter, by the port's rule: rounded, half a unit upwards. */
static uint32_t rounded(uint32_t magnitude, uint32_t sum)
{
    return sum < 10 ? ((magnitude << sum) + 256) >> 9 : 0;
}

static void play_vector()
{
    Vector vector = {below(16), below(2), below(2), any_magnitude(), any_magnitude(), below(16)};
    uint32_t move_x = rounded(vector.dx, vector.sum), move_y = rounded(vector.dy, vector.sum);
    uint32_t end_x = (vector.dx_sign ? facts.x - move_x : facts.x + move_x) & 0xFFF;
    uint32_t end_y = (vector.dy_sign ? facts.y - move_y : facts.y + move_y) & 0xFFF;
    uint32_t clocks_a_tick = once_in(3) ? 1 + below(4) : 1;
    circuit.sum = vector.sum;
    circuit.dx_sign = vector.dx_sign;
    circuit.dy_sign = vector.dy_sign;
    circuit.dx = vector.dx;
    circuit.dy = vector.dy;
    circuit.z = vector.z;
    circuit.vec = 1;
    circuit.tick = below(2);
    circuit.eval();
    edge(circuit);
    circuit.vec = 0;
    facts.begin(vector);
    do {
        set_any_pins();
        play_clock(once_in(clocks_a_tick));
    } while (facts.going());
    play_clock(once_in(2));
    agree("the end, x", circuit.x, end_x);
    agree("the end, y", circuit.y, end_y);
}

int main(int argc, char **argv)
{
    uint64_t seed, vectors = read_arguments(argc, argv, &seed);
    circuit.clk = circuit.places = circuit.vec = circuit.tick = 0;
    circuit.eval();
    for (done_so_far = 0; done_so_far < vectors; done_so_far++) {
        if (once_in(8)) {
            place();
        }
        play_vector();
    }
    printf("%" PRIu64 " vectors, %" PRIu64 " LABS, %" PRIu64 " ticks, %" PRIu64
           " pulses agree, seed %" PRIu64 "\n",
        vectors, counts.placed, counts.ticks, counts.pulses, seed);
    return 0;
}
