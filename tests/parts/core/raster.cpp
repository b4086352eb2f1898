/* core/top/ulx3s.v in Verilator: the light of each pixel, and the syncs, in each clock.
 *
 *     raster GAIN DECAY CLOCKS
 *
 * It runs where frame.hex, rom.hex and dump are; GAIN and DECAY are the parameters of ulx3s.v. In
 * each tick of a run the pixel at which the facts of run.h have the beam gets brighter by
 * 2^GAIN times its intensity. Each pixel fades when it is shown. Where both happen within some
 * clocks, either may come first, so that a pixel has a least and a most light, which mostly are the
 * same. The syncs are those of a monitor of 640 by 480 pixels. Prints what was seen, or the first
 * difference (status 1). */
#include "Vulx3s.h"
#include "Vulx3s___024root.h"
#include "bench.h"
#include "run.h"

enum : uint64_t { COLUMNS = 800, LINES = 525, WIDTH = 512, HEIGHT = 384, LEFT = 64, ABOVE = 48 };
enum : uint64_t { LATEST = 8 };         /* clocks after a tick until its light is there */

static Vulx3s top;
static Vulx3s___024root *const root = top.rootp;
static unsigned gain, decay;
static Drawing drawing;
static uint8_t memory[4096];

struct Light {
    unsigned least, most;
};
static Light pixels[HEIGHT][WIDTH];
static Light levels[4];                 /* what the pin shows in the clocks from two before this */

static struct { uint64_t ticks, lit, runs, both, uneven, bright; } counts;

/* The light that came last: when, where, how much, and what was there before. */
static struct {
    uint64_t clock;
    Light *pixel, before;
    unsigned more;
} last;

static unsigned add(unsigned light, unsigned more)
{
    return light + more > 255 ? 255 : light + more;
}

static unsigned fade(unsigned light)
{
    return decay == 0 || light == 0 ? light : light - (light >> decay) - 1;
}

/* A pixel is shown, and fades. Returns what may be seen of it. */
static Light show(Light &pixel)
{
    Light seen = pixel;
    if (&pixel == last.pixel && clocks - last.clock <= LATEST) {
        unsigned later = add(fade(last.before.most), last.more);
        seen.least = last.before.least;
        pixel.least = fade(pixel.least);
        pixel.most = later > fade(pixel.most) ? later : fade(pixel.most);
        later = add(fade(last.before.least), last.more);
        pixel.least = later < pixel.least ? later : pixel.least;
        counts.both++;
    } else {
        pixel.least = fade(pixel.least);
        pixel.most = fade(pixel.most);
    }
    counts.uneven += seen.least != seen.most;
    counts.bright += seen.least == 255;
    return seen;
}

/* The monitor's clocks: what is read in this one is shown two clocks later. */
static void watch_monitor()
{
    uint64_t column = clocks % COLUMNS, line = clocks / COLUMNS % LINES;
    uint64_t old = (clocks + COLUMNS * LINES - 2) % (COLUMNS * LINES);
    bool hsync = old % COLUMNS - 656 < 96, vsync = old / COLUMNS - 490 < 2;
    if (clocks > 2) {
        unsigned level = root->ulx3s__DOT__level;
        agree("hsync", top.gp >> 12 & 1, !hsync);
        agree("vsync", top.gp >> 13 & 1, !vsync);
        agree("the pins of red", top.gp & 15, level >> 4);
        agree("the pins of green", top.gp >> 4 & 15, level >> 4);
        agree("the pins of blue", top.gp >> 8 & 15, level >> 4);
        Light seen = levels[(clocks - 2) % 4];
        if (level < seen.least || level > seen.most) {
            agree("the light of a pixel", level, seen.least);
        }
    }
    levels[clocks % 4] = Light{0, 0};
    if (column - LEFT < WIDTH && line - ABOVE < HEIGHT) {
        levels[clocks % 4] = show(pixels[line - ABOVE][column - LEFT]);
    }
}

/* The light of a tick. */
static void shine(const Shown &beam)
{
    counts.ticks++;
    uint32_t x = beam.x & 1023, y = beam.y & 1023;
    if (beam.z == 0 || y < 128 || y > 895) {
        return;
    }
    Light &pixel = pixels[(895 - y) / 2][x / 2];
    last = {clocks, &pixel, pixel, beam.z << gain};
    pixel.least = add(pixel.least, last.more);
    pixel.most = add(pixel.most, last.more);
    counts.lit++;
}

/* The ticks of the runs, by the facts. */
static void watch_run()
{
    static size_t next;
    static bool was_open;
    bool is_open = !root->ulx3s__DOT__machine__DOT__halted;
    if (is_open && !was_open) {
        draw_run(drawing, memory, sizeof memory);
        next = 0;
    }
    if (!is_open && was_open) {
        agree("ticks of a run", next, drawing.ticks.size());
        counts.runs++;
    }
    if (is_open && root->ulx3s__DOT__machine__DOT__tick) {
        agree("a tick too many", next < drawing.ticks.size(), true);
        shine(drawing.ticks[next++]);
    }
    was_open = is_open;
}

int main(int argc, char **argv)
{
    if (argc != 4) {
        return 64;
    }
    gain = atoi(argv[1]);
    decay = atoi(argv[2]);
    FILE *file = fopen("dump", "rb");
    if (!file || fread(memory, 1, sizeof memory, file) != sizeof memory) {
        return 2;
    }
    fclose(file);
    top.clk_25mhz = top.fire1 = 0;
    top.eval();
    for (uint64_t most = strtoull(argv[3], nullptr, 0); clocks < most;) {
        watch_monitor();
        watch_run();
        top.clk_25mhz = 1;
        top.eval();
        top.clk_25mhz = 0;
        top.eval();
        clocks++;
    }
    agree("whole runs", counts.runs > 0, true);
    printf("%" PRIu64 " frames, %" PRIu64 " runs, %" PRIu64 " ticks, %" PRIu64
           " of them lit, %" PRIu64 " shown amid a light, %" PRIu64 " shown of two values, %" PRIu64
           " of full light\n",
        clocks / (COLUMNS * LINES), counts.runs, counts.ticks, counts.lit, counts.both,
        counts.uneven, counts.bright);
    return 0;
}
