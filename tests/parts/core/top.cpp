/* core/top/icebreaker.v in Verilator, with both kinds of pins at once: what they show must be the
 * picture.
 *
 *     top FRAMES <MOVES
 *
 * It runs where frame.hex, rom.hex and dump are. MOVES is what `dvg picture --moves --units` prints
 * of that dump. In each frame the pins must show in each tick what the facts of run.h do,
 * whose moves must be those of MOVES. They change after a tick alone, and so many ticks come as
 * the hardware has. The pulses must have the same means: at each time they are as many as the
 * values until then add up to. Where MOVES says that the run broke, the lamp of that must be lit
 * from then on.
 *
 * Then the button is pressed, amid a run where none breaks. The vector that goes is drawn to its
 * end; then the run must be over, the lamp dark, and nothing run until the memory was copied anew,
 * some time after the button was left. The same after power-up. Then a frame must be shown once
 * more. Prints what was seen, or the first difference (status 1). */
#include "Vcore_tops.h"
#include "screen.h"

/* The least time without a run after a reset: ten microseconds for the block RAM, and 2,048 cycles
 * of nine clocks, in which the frame is copied. The most that a frame and a vector take. */
enum : uint64_t {
    LONG_RESET = 120 + 2048 * 9, MOST_CLOCKS = 1000000, LONGEST_VECTOR = 1024 * 8 + 20,
    SCREEN = 1024
};

static Vcore_tops top;
static monitor screen;
static Drawing drawing;
static uint8_t memory[4096];
static bool breaks, was_halted = true;
static bool broke;                      /* a run broke since the last reset */
static size_t run_ticks;                /* of a run */
static uint64_t reset_at;               /* the last clock in which the button was pressed */
static uint64_t lamp_at;                /* from when on the lamp says so */

/* The values of a pin until now, and its pulses, of which each counts as much as the range. */
struct mean {
    const char *what;
    uint64_t range, values, pulses;

    void agree_on(uint64_t value, bool pulse)
    {
        values += value;
        pulses += pulse * range;
        agree(what, values + 2 * range - pulses < 4 * range, true);
    }
};
static mean means[] = {{"the pulses of x", SCREEN, 0, 0}, {"the pulses of y", SCREEN, 0, 0},
    {"the pulses of z", 16, 0, 0}};

/* The memory; and its moves by the facts, which must be the port's. */
static void read_picture()
{
    FILE *file = fopen("dump", "rb");
    if (!file || fread(memory, 1, sizeof memory, file) != sizeof memory) {
        exit(2);
    }
    fclose(file);
    draw_run(drawing, memory, sizeof memory);
    Move port;
    char at[8], end[8];
    for (const Move &move : drawing.moves) {
        int read = scanf("%7s %u %u %u %u %u", at, &port.x0, &port.y0, &port.x1, &port.y1, &port.z);
        agree("numbers of a move", 6, read);
        agree("x0", move.x0, port.x0);
        agree("y0", move.y0, port.y0);
        agree("x1", move.x1, port.x1);
        agree("y1", move.y1, port.y1);
        agree("z", move.z, port.z);
    }
    if (scanf("%7s", end) != 1) {
        exit(2);
    }
    breaks = end[0] == 'b';
    agree("the moves end", end[0] == 'b' || end[0] == 'p', true);
    run_ticks = drawing.ticks.size();
    drawing = Drawing();
}

/* The lamp of a broken run is lit since the run broke, which is before the last tick of it. */
static void agree_on_lamp()
{
    bool may_be = breaks && !top.red_n && screen.seen.size() + 1 >= run_ticks;
    if (!may_be && clocks >= lamp_at) {
        agree("the lamp of a broken run", !top.green_n, broke);
    }
}

/* One clock. Returns whether a run ended in it. */
static bool play_clock()
{
    edge(top);
    screen.watch(Shown{top.x, top.y, top.z}, top.tick, !top.red_n);
    means[0].agree_on(top.x, top.x_pulse);
    means[1].agree_on(top.y, top.y_pulse);
    means[2].agree_on(top.z, top.z_pulse);
    agree("the lamps and low pins with pulses", top.pulses_differ, false);
    bool begins = was_halted && !top.red_n, ends = !was_halted && top.red_n;
    agree("a run too early", begins && clocks - reset_at < LONG_RESET, false);
    broke = broke || (breaks && ends);
    agree_on_lamp();
    was_halted = top.red_n;
    return ends;
}

static void play_clocks(int count)
{
    while (count-- > 0) {
        play_clock();
    }
}

/* Plays some frames, and a little longer. Each ends in time. */
static void play_frames(uint64_t frames)
{
    for (uint64_t last = clocks + frames * MOST_CLOCKS; frames > 0;) {
        agree("a frame in time", clocks < last, true);
        if (play_clock()) {
            draw_run(drawing, memory, sizeof memory);
            screen.agree_on(drawing.ticks);
            frames--;
            done_so_far++;
        }
    }
    play_clocks(20);
}

/* Plays on until a stroke is drawn. */
static void play_into_run()
{
    while (was_halted || top.z == 0) {
        play_clock();
    }
    play_clocks(20);
    agree("a run amid which the button comes", top.red_n, false);
}

/* The button: a run ends, the lamp of a broken one is dark, and while it is pressed nothing runs. A
 * vector that goes is drawn to its end. */
static void press_button()
{
    top.button_n = 0;
    broke = false;
    lamp_at = clocks + 8;
    for (uint64_t later = 0; later < 30000; later++) {
        reset_at = clocks;
        play_clock();
        agree("the button ends the run", later > LONGEST_VECTOR && !top.red_n, false);
    }
    top.button_n = 1;
    screen.seen.clear();
    drawing.facts.x = screen.now.x;
    drawing.facts.y = screen.now.y;
}

int main(int argc, char **argv)
{
    uint64_t frames = argc > 1 ? strtoull(argv[1], nullptr, 0) : 3;
    read_picture();
    top.button_n = 1;
    top.clk = 0;
    top.eval();
    play_frames(frames);
    if (!breaks) {
        play_into_run();
    }
    press_button();
    play_frames(1);
    agree("ticks of 1.512 MHz", screen.ticks * 500 + 1000 - clocks * 63 < 2000, true);
    printf("%zu moves in %zu ticks in each of %" PRIu64 " frames, in %" PRIu64 " clocks\n",
        drawing.moves.size(), drawing.ticks.size(), done_so_far, clocks);
    return 0;
}
