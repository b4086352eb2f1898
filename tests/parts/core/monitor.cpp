/* dvg_monitor in Verilator beside a model that looks back at all that came.
 *
 *     monitor TICKS SEED BLANK LATER CLIPS SPOT
 *
 * The last four are the parameters. Counters move as those of dvg_motion do, stand still for a
 * while, or leap as a LABS has them; they lie on the screen, outside of it, and far outside. All
 * pins are compared in each clock. Prints what was played, or the first difference (status 1). */
#include <deque>
#include "Vdvg_monitor.h"
#include "bench.h"

/* What came in a clock. */
struct Past {
    bool tick, lit, flip_x, flip_y;
    uint32_t x, y, z;
    uint64_t still;                     /* ticks since a clock in which a counter changed */
};

static Vdvg_monitor circuit;
static std::deque<Past> past;           /* the newest one first */
static uint32_t blank_level, later;
static bool clips;
static uint64_t spot, beams, pulses;
static struct { uint64_t lit, out, spots, loads; } counts;

/* What came so many clocks ago. */
static const Past &ago(size_t clocks_ago)
{
    static const Past none = {};
    return clocks_ago < past.size() ? past[clocks_ago] : none;
}

static uint32_t dac_of(uint32_t counter, bool flips)
{
    return flips ? 1023 - counter % 1024 : counter % 1024;
}

static uint32_t dacs(size_t clocks_ago)
{
    const Past &then = ago(clocks_ago);
    bool is_any = clocks_ago < past.size();
    return is_any ? dac_of(then.x, then.flip_x) << 10 | dac_of(then.y, then.flip_y) : 0;
}

/* The intensity that the beam should have for what came. */
static uint32_t beam(const Past &then)
{
    bool is_out = clips && (then.x >= 2048 || then.y >= 2048);
    bool is_spot = spot != 0 && then.still >= spot;
    counts.out += then.lit && is_out;
    counts.spots += then.lit && is_spot;
    return then.lit && !is_out && !is_spot ? then.z : 0;
}

static void compare()
{
    agree("dac_x", circuit.dac_x, dacs(0) >> 10);
    agree("dac_y", circuit.dac_y, dacs(0) & 1023);
    agree("load", circuit.load, dacs(1) != dacs(2));
    agree("the pulses", circuit.pulse, beams / 16 != pulses);
    pulses = beams / 16;
    uint32_t level = beam(ago(later));
    agree("level", circuit.level, level);
    agree("blank", circuit.blank, level == 0 ? blank_level : 1 - blank_level);
    beams += level;
    counts.lit += level != 0;
    counts.loads += circuit.load;
}

/* One clock with these pins. */
static void play(Past now)
{
    bool moves = now.x != ago(0).x || now.y != ago(0).y;
    uint64_t ticks = (moves ? 0 : ago(0).still + ago(0).tick);
    now.still = ticks;
    circuit.tick = now.tick;
    circuit.x = now.x;
    circuit.y = now.y;
    circuit.lit = now.lit;
    circuit.z = now.z;
    circuit.flip_x = now.flip_x;
    circuit.flip_y = now.flip_y;
    past.push_front(now);
    if (past.size() > 16) {
        past.pop_back();
    }
    edge(circuit);
    compare();
}

/* Where the counters go next: a step, a leap, or nowhere. */
static void move(Past &now, bool stands)
{
    if (stands) {
        return;
    }
    if (once_in(200)) {
        uint32_t range = once_in(3) ? 4096 : 1024;
        now.x = below(range);
        now.y = below(range);
    } else {
        now.x = (now.x + below(3) - 1) & 0xFFF;
        now.y = (now.y + below(3) - 1) & 0xFFF;
    }
}

int main(int argc, char **argv)
{
    uint64_t seed, wanted = read_arguments(argc, argv, &seed);
    if (argc != 7) {
        return 64;
    }
    blank_level = atoi(argv[3]);
    later = atoi(argv[4]);
    clips = atoi(argv[5]);
    spot = strtoull(argv[6], nullptr, 0);
    Past now = {};
    circuit.clk = 0;
    circuit.eval();
    bool stands = false;
    for (; done_so_far < wanted; done_so_far++) {
        if (once_in(300)) {
            stands = !stands;
            now.flip_x = once_in(2);
            now.flip_y = once_in(2);
        }
        if (once_in(20)) {
            now.z = below(16);
            now.lit = now.z != 0 && !once_in(4);
        }
        for (uint32_t clock = 3 + below(6); clock > 0; clock--) {
            now.tick = clock == 1;
            play(now);
        }
        move(now, stands);
    }
    printf("%" PRIu64 " ticks, %" PRIu64 " clocks agree: %" PRIu64 " lit, %" PRIu64
           " dark outside, %" PRIu64 " dark as the beam stands, %" PRIu64 " loads\n",
        done_so_far, clocks, counts.lit, counts.out, counts.spots, counts.loads);
    return 0;
}
