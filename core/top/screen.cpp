/* What a monitor shows of ulx3s.v, simulated by Verilator: `make screen` runs it.
 *
 *     screen NUMBER >PICTURE
 *
 * It runs where the memories' files are, and reads the pins of J1 alone, or with the macro HDMI the
 * wires of that socket: the monitor's frame of this number, from 1, as a grey PGM of 640 by 480
 * pixels. It gives up where the syncs aren't those of such a monitor: 800 clocks a line with a sync
 * of 96, 525 lines with one of two (status 1). */
#include <cstdint>
#include <cstdio>
#include <cstdlib>
#include <vector>
#include "Vulx3s.h"
#ifdef HDMI
#include "Vulx3s___024root.h"
#endif

enum { WIDTH = 640, HEIGHT = 480, COLUMNS = 800, LINES = 525, HSYNC = 656, ABOVE = 33 };

static Vulx3s board;

struct Pins {
    bool hsync, vsync;
    uint8_t grey;
};

#ifdef HDMI
enum { BLUE, GREEN, RED, WIRES, BITS = 10, SURE = 12 };

/* The characters for control bits: what they say of hsync_n and vsync_n. */
static const unsigned CONTROL[4] = {0x354, 0x0AB, 0x154, 0x2AB};

/* The last ten bits of each wire, the first one below; with which bit of a clock a character ends,
 * once SURE of them in a row were of control; and how many were. */
static unsigned last[WIRES];
static int end = BITS, sure;

/* The control bits that a character says, or 4. */
static unsigned control_of(unsigned character)
{
    unsigned bits = 0;
    while (bits < 4 && CONTROL[bits] != character) {
        bits++;
    }
    return bits;
}

static uint8_t byte_of(unsigned character)
{
    unsigned bits = character >> 9 & 1 ? ~character : character;
    return uint8_t(bits ^ bits << 1 ^ (character >> 8 & 1 ? 0 : 0xFE));
}

static bool is_control()
{
    return control_of(last[BLUE]) < 4 && control_of(last[GREEN]) < 4 && control_of(last[RED]) < 4;
}

static void take_bit(int bit)
{
    for (int wire = 0; wire < WIRES; wire++) {
        last[wire] = last[wire] >> 1 | (board.gpdi_dp >> wire & 1) << 9;
    }
    if (sure < SURE && is_control()) {
        sure = bit == end ? sure + 1 : 1;
        end = bit;
    }
}

/* A pixel clock, in which each wire sends ten bits. */
static Pins clock_once()
{
    Pins pins = {false, false, 0};
    for (int bit = 0; bit < BITS; bit++) {
        board.clk_25mhz = bit < BITS / 2;
        board.rootp->ulx3s__DOT__hdmi__DOT__pll__DOT__fast = bit % 2 == 0;
        board.eval();
        take_bit(bit);
        unsigned control = control_of(last[BLUE]);
        if (bit == end && control < 4) {
            pins = {!(control & 1), !(control >> 1), 0};
        } else if (bit == end) {
            pins.grey = byte_of(last[GREEN]);
        }
    }
    return pins;
}

/* So many pixel clocks, to which nobody listens. */
static void skip(int clocks)
{
    for (board.btn = 1; clocks > 0; clocks--) {
        board.clk_25mhz = 1;
        board.eval();
        board.clk_25mhz = 0;
        board.eval();
    }
}
#else
static Pins clock_once()
{
    board.clk_25mhz = 1;
    board.eval();
    board.clk_25mhz = 0;
    board.eval();
    uint32_t pins = board.gp;
    return Pins{!(pins >> 12 & 1), !(pins >> 13 & 1), uint8_t((pins & 15) * 17)};
}

static void skip(int clocks)
{
    for (board.fire1 = 0; clocks > 0; clocks--) {
        clock_once();
    }
}
#endif

static void give_up(const char *what, int found)
{
    fprintf(stderr, "screen: %s %d\n", what, found);
    exit(1);
}

/* Waits for the clock after a vsync: it is the first one of a line, ABOVE the picture. */
static void find_frame()
{
    bool was_sync = false;
    for (int left = 2 * COLUMNS * LINES; left > 0; left--) {
        bool is_sync = clock_once().vsync;
        if (was_sync && !is_sync) {
            return;
        }
        was_sync = is_sync;
    }
    give_up("clocks without a vsync:", 2 * COLUMNS * LINES);
}

/* The frame from the clock after the one that was found, up to that clock of the next frame. */
static std::vector<uint8_t> read_frame()
{
    std::vector<uint8_t> picture;
    for (int clock = 1; clock <= COLUMNS * LINES; clock++) {
        Pins pins = clock_once();
        int column = clock % COLUMNS, line = clock / COLUMNS % LINES;
        if (pins.hsync != (column >= HSYNC && column < HSYNC + 96)) {
            give_up("a wrong hsync in line", line);
        }
        if (pins.vsync != (line >= LINES - 2)) {
            give_up("a wrong vsync in line", line);
        }
        if (column < WIDTH && line >= ABOVE && line < ABOVE + HEIGHT) {
            picture.push_back(pins.grey);
        } else if (pins.grey != 0) {
            give_up("light outside of the picture in line", line);
        }
    }
    return picture;
}

int main(int count, char **words)
{
    int number = count > 1 ? atoi(words[1]) : 1;
    skip((number - 1) * COLUMNS * LINES);
    find_frame();
    std::vector<uint8_t> picture = read_frame();
    printf("P5\n%d %d\n255\n", WIDTH, HEIGHT);
    fwrite(picture.data(), 1, picture.size(), stdout);
    return 0;
}
