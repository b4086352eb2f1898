/* core/top/mister.v and pocket.v in Verilator, beside ulx3s.v with the same game on one clock.
 *
 *     consoles FRAMES
 *
 * It runs where program.hex and rom.hex are. In each clock of so many frames of the monitor both
 * have the pixel and the syncs of the ULX3S, and its sound: MiSTer's samples are the means of its
 * DAC over 512 clocks, and what the Pocket sends as I2S is one of the last few of these. First each
 * button must close the same input on all three, and a reset begins anew. Then it is coin, start,
 * and fire. Prints what was compared, or the first difference (status 1). */
#include "Vcore_consoles.h"
#include "Vcore_consoles___024root.h"
#include "bench.h"

enum : uint64_t { FRAME = 800 * 525, WINDOW = 512, LAST = 4 };
static const double AUDIO_CLOCKS = 12.288 / 25;

static Vcore_consoles top;
static Vcore_consoles___024root *const root = top.rootp;

#define ULX3S(signal) (root->core_consoles__DOT__ulx3s__DOT__##signal)
#define HELD(name) (root->core_consoles__DOT__##name##__DOT__console__DOT__held)

/* A button: its bits of `btn`, `joystick_0` and `cont1_key`. 0 of `btn` is low while pressed. */
struct Button {
    const char *name;
    unsigned ulx3s, mister, pocket;
};
enum { BUTTONS = 7 };
static const Button COIN = {"coin", 0, 7, 14}, FIRE = {"fire", 1, 4, 4};
static const Button START = {"start", 4, 6, 15};
static const Button EACH[BUTTONS] = {COIN, FIRE, START, {"hyperspace", 2, 5, 5},
    {"thrust", 3, 3, 6}, {"left", 5, 1, 2}, {"right", 6, 0, 3}};

static void press(const Button *button)
{
    top.btn = button ? 1u ^ 1u << button->ulx3s : 1;
    top.joystick_0 = button ? 1u << button->mister : 0;
    top.cont1_key = button ? 1u << button->pocket : 0;
}

/* What both show in each clock. */
static uint64_t lit, pulses;
static bool hsync_was, vsync_was;
static void compare_pictures()
{
    bool shows = ULX3S(shows), hsync = !ULX3S(hsync_n), vsync = !ULX3S(vsync_n);
    unsigned level = shows ? ULX3S(level) : 0;
    agree("VGA_DE", top.de, shows);
    agree("VGA_R", top.red, level);
    agree("VGA_G", top.green, level);
    agree("VGA_B", top.blue, level);
    agree("VGA_HS", top.hs, hsync);
    agree("VGA_VS", top.vs, vsync);
    agree("CE_PIXEL", top.ce_pixel, 1);
    agree("video_de", top.rgb_de, shows);
    agree("video_rgb", top.rgb, level * 0x10101);
    agree("video_hs", top.rgb_hs, hsync && !hsync_was);
    agree("video_vs", top.rgb_vs, vsync && !vsync_was);
    agree("one pulse at a time", top.rgb_vs && top.rgb_hs, 0);
    agree("video_skip", top.rgb_skip, 0);
    hsync_was = hsync;
    vsync_was = vsync;
    lit += level > 0;
    pulses += top.rgb_hs;
}

/* The samples: the sum of what is 0 in silence, over the window so far; the last samples; and how
 * many differ from the one before. */
static int sum;
static int16_t last[LAST], was;
static uint64_t samples, changes;

/* Before an edge. */
static void add_sound()
{
    if (clocks % WINDOW == 0) {
        last[++samples % LAST] = int16_t(sum * 8);
        sum = 0;
    }
    sum += int(ULX3S(sound)) - 7;
}

static void compare_samples()
{
    agree("both channels", top.audio_r, top.audio_l);
    agree("AUDIO_L", uint16_t(top.audio_l), uint16_t(last[samples % LAST]));
    changes += last[samples % LAST] != was;
    was = last[samples % LAST];
}

/* I2S: the word of a channel begins a bit after `lrck` changes. */
static unsigned word, place;
static bool channel;
static uint64_t words_heard;
static void read_word()
{
    bool is_known = place < 64 || samples < LAST;
    for (int16_t sample : last) {
        is_known = is_known || sample == int16_t(word >> 15);
    }
    agree("a word of I2S", is_known && (place < 64 || (word & 0x7FFF) == 0), 1);
    words_heard += place >= 64;
}

static void clock_audio()
{
    top.clk_audio = 1;
    top.eval();
    if (bool(top.lrck) != channel) {
        read_word();
        channel = top.lrck;
        word = place = 0;
    }
    if (place++ % 4 == 2) {
        word = word << 1 | top.dac;
    }
    top.clk_audio = 0;
    top.eval();
}

static double audio_clocks;
static void clock_once()
{
    compare_pictures();
    add_sound();
    edge(top);
    agree("clocks", top.clk_video + top.rgb_clock + top.mclk, 0);
    compare_samples();
    for (audio_clocks += AUDIO_CLOCKS; audio_clocks >= 1; audio_clocks--) {
        clock_audio();
    }
}

static void check_buttons()
{
    for (const Button &button : EACH) {
        press(&button);
        for (int wait = 0; wait < 4; wait++) {
            clock_once();
        }
        agree(button.name, HELD(mister), ULX3S(held));
        agree(button.name, HELD(pocket), ULX3S(held));
        agree("a button is held", __builtin_popcount(ULX3S(held)), 1);
    }
    press(nullptr);
}

int main(int count, char **words)
{
    uint64_t wanted = count > 1 ? strtoull(words[1], nullptr, 0) * FRAME : 0;
    press(nullptr);
    top.eval();
    check_buttons();
    while (clocks < wanted) {
        uint64_t part = clocks * 8 / wanted;
        press(part == 3 ? &COIN : part == 5 ? &START : part == 7 ? &FIRE : nullptr);
        clock_once();
    }
    agree("a picture", lit > 0 && pulses > 0 && words_heard > 0, 1);
    printf("%" PRIu64 " clocks, %" PRIu64 " lit pixels, %" PRIu64 " samples, %" PRIu64
        " of them another one, and %" PRIu64 " words of I2S\n", clocks, lit, samples, changes,
        words_heard);
    return 0;
}
