/* core/top/ulx3s.v in Verilator with dvg_game: a whole game on cells, by the board's buttons, on
 * its HDMI socket and on its audio jack.
 *
 *     whole SWITCHES BUTTONS RAMS START.. >WRITES
 *
 * It runs where program.hex and rom.hex are. SWITCHES is a hexadecimal number, the lowest two bits
 * those of 2800. BUTTONS is a file of presses (buttons.h): each comes with the emulator's
 * first frame that isn't before its time; a frame has four NMIs. RAMS has 2,048 bytes for each of
 * the generator's starts, up to the last START or farther: the vector RAM at that start.
 *
 * START.shown is what the monitor shows of the run that begins at the start of that number, from 1:
 * the first frame of the monitor that begins after that run, as a grey PGM of 640 by 480 pixels.
 * With a START of 0 it is what the monitor shows after EARLY frames, whatever the RAM. It is read
 * off the wires of the socket: each of its pixels is the raster's, and the syncs are those of 640
 * by 480 pixels, in each of 800 by 525 characters. WRITES has what changed a latch of sounds, as
 * sound.cpp reads it. What was played is printed to standard error, or at which start how many
 * bytes differ (status 1), and to standard output what else does (status 1). */
#include "Vcore_whole.h"
#include "Vcore_whole___024root.h"
#include <cmath>
#include <string>
#include "buttons.h"
#include "tmds.h"

enum : uint64_t { WIDTH = 640, HEIGHT = 480, COLUMNS = 800, LINES = 525, RAM = 2048 };
enum : uint64_t { EARLY = 10, SILENCE = 7, MILLISECOND = 25000 };
static const double CLOCKS_OF_NMI = 6144 * 3125 / 189.0;
static const double FRAMES_A_SECOND = 12096000 / 4096.0 / 12 / 4, CLOCKS_A_SECOND = 25000000;

static Vcore_whole top;
static Vcore_whole___024root *const root = top.rootp;
static uint8_t level[HEIGHT][WIDTH], picture[HEIGHT][WIDTH];
static std::vector<uint8_t> rams;
static uint64_t starts, alike;          /* of the generator, so far; those with this RAM */

enum { BUTTONS = INPUTS - 1 };
static size_t presses_done;

/* A press comes with the emulator's first frame that isn't before its time. */
static uint64_t clock_of(double second)
{
    return uint64_t(std::ceil(second * FRAMES_A_SECOND) * 4 * CLOCKS_OF_NMI);
}

/* The pins of buttons and switch. The first button's is low while it is pressed. */
static unsigned inputs;
static void set_inputs(unsigned pins)
{
    inputs = pins;
    top.btn = pins & ((1u << BUTTONS) - 1);
    top.sw = pins >> BUTTONS;
}

static void press_buttons()
{
    while (presses_done < presses.size() && presses[presses_done].clock <= clocks) {
        const Press &press = presses[presses_done++];
        agree("a button of the board", press.button < INPUTS, true);
        bool pin = press.is_down != (press.button == 0);
        set_inputs((inputs & ~(1u << press.button)) | unsigned(pin) << press.button);
    }
}

#define ULX3S(signal) (root->core_whole__DOT__ulx3s__DOT__##signal)
#define MACHINE(signal) ULX3S(machine__DOT__##signal)
#define BOARD(signal) MACHINE(game__DOT__vectors__DOT__board__DOT__##signal)

/* What the monitor reads. */
static Receiver receiver;
static bool listens, in_frame;
static uint64_t place;                  /* characters since a frame began */
static uint64_t dark;                   /* characters since a pixel was shown */

/* A character of a frame. */
static void read_place(const Symbol &symbol)
{
    uint64_t column = place % COLUMNS, line = place / COLUMNS % LINES;
    bool shows = column < WIDTH && line < HEIGHT;
    agree("a pixel shows", symbol.shows, shows);
    if (shows) {
        picture[line][column] = symbol.value[GREEN];
        agree("red is as green", symbol.value[RED], symbol.value[GREEN]);
        agree("blue is as green", symbol.value[BLUE], symbol.value[GREEN]);
    } else {
        agree("hsync", symbol.value[BLUE] & 1, column < 656 || column >= 752);
        agree("vsync", symbol.value[BLUE] >> 1, line < 490 || line >= 492);
        agree("other control bits", symbol.value[GREEN] | symbol.value[RED], 0);
    }
    place++;
}

/* A frame begins with the first pixel after lines that show none. */
static void read_symbol(const Symbol &symbol)
{
    in_frame = in_frame || (symbol.shows && dark > COLUMNS);
    dark = symbol.shows ? 0 : dark + 1;
    if (in_frame) {
        read_place(symbol);
    }
}

/* What the game writes for its lamps, where 0 is lit, and for its sounds: LEDs and dvg_sound have
 * it after the next edge. The jack has what dvg_sound makes of it. */
static unsigned lamps = 3, explosion, thump, sounds;
static uint64_t cycles, changes;        /* of the processor; of the lamps */
static uint64_t heard, loud;            /* writes of sounds that change one; clocks of no silence */
static uint64_t due;                    /* by when the jack isn't silent, or 0 */
static uint64_t frames, lit;            /* read off the wires; pixels of them with light */

/* A bit for each sound that is on: an explosion, a thump, and those of 3C00 but for 3C02. */
static unsigned sounds_on()
{
    return (explosion >> 2 & 15 ? 128 : 0) | (thump >> 4 ? 64 : 0) | (sounds & 0x3B);
}

static void watch_game()
{
    unsigned area = MACHINE(game__DOT__area), d = MACHINE(game__DOT__d), a = MACHINE(game__DOT__a);
    bool writes = MACHINE(game__DOT__of_output), resets = MACHINE(game__DOT__resets);
    agree("the lamps", top.led >> 2, (lamps & 1) << 1 | lamps >> 1);
    agree("left", top.audio_l, top.dac);
    agree("right", top.audio_r, top.dac);
    top.explosion = explosion;
    top.thump = thump;
    top.sounds = sounds;
    top.hushes = writes && area == 7;
    unsigned before = sounds_on();
    loud += top.audio_l != SILENCE;
    due = resets || top.audio_l != SILENCE ? 0 : due;
    agree("a sound is heard within a millisecond", due == 0 || clocks < due, 1);
    if (resets) {
        lamps = 3;
        explosion = thump = sounds = 0;
    } else if (writes) {
        unsigned bit = area == 6 && a % 8 < 6 ? 1u << a % 8 : 0;
        changes += area == 1 && lamps != (~d & 3);
        lamps = area == 1 ? ~d & 3 : lamps;
        explosion = area == 3 ? d : explosion;
        thump = area == 5 ? d & 31 : thump;
        sounds = (sounds & ~bit) | (d >> 7 ? bit : 0);
        if (top.explosion != explosion || top.thump != thump || top.sounds != sounds) {
            heard++;
            printf("%.6f %04X %02X\n", double(clocks) / CLOCKS_A_SECOND, a, d);
        }
        due = due == 0 && (sounds_on() & ~before) ? clocks + MILLISECOND : due;
    }
    cycles += MACHINE(game__DOT__access);
}

/* At a start the RAM must have the bytes of RAMS, as far as that goes. */
static void watch_starts()
{
    if (!BOARD(starting) || ++starts * RAM > rams.size()) {
        return;
    }
    unsigned sum = 0;
    for (size_t at = 0; at < RAM; at++) {
        sum += BOARD(ram)[at] != rams[(starts - 1) * RAM + at];
    }
    if (sum > 0) {
        fprintf(stderr, "at start %" PRIu64 " %u bytes differ\n", starts, sum);
        exit(1);
    }
    alike++;
}

/* One clock. While the monitor listens, its wires have five clocks of both edges in it. */
static void clock_once()
{
    uint64_t old = clocks - 2, column = old % COLUMNS, line = old / COLUMNS % LINES;
    if (clocks > 2 && column < WIDTH && line < HEIGHT) {
        level[line][column] = ULX3S(level);
    }
    press_buttons();
    watch_game();
    Symbol symbol;
    for (int half = 0; half < (listens ? 10 : 2); half++) {
        top.clk_25mhz = listens ? half < 5 : half == 0;
        ULX3S(hdmi__DOT__pll__DOT__fast) = listens && half % 2 == 0;
        top.eval();
        if (listens && receiver.take(top.gpdi_dp, symbol)) {
            read_symbol(symbol);
        }
    }
    clocks++;
    watch_starts();
}

/* Reads the next whole frame off the wires, each pixel of which is the raster's. */
static void read_frame()
{
    uint64_t most = clocks + 3 * COLUMNS * LINES, before = lit;
    receiver.calm = receiver.since = 0;
    in_frame = false;
    place = dark = 0;
    for (listens = true; place < COLUMNS * LINES;) {
        clock_once();
        agree("a frame comes", clocks < most, true);
    }
    listens = false;
    for (uint64_t line = 0; line < HEIGHT; line++) {
        for (uint64_t column = 0; column < WIDTH; column++) {
            agree("the light of a pixel", picture[line][column], level[line][column]);
            lit += picture[line][column] > 0;
        }
    }
    agree("a frame has light", lit > before, true);
    frames++;
}

/* Reads the frame that a start shows, and writes it. */
static void show_start(const char *start)
{
    std::string name = std::string(start) + ".shown";
    FILE *file = fopen(name.c_str(), "wb");
    if (!file) {
        exit(64);
    }
    read_frame();
    fprintf(file, "P5\n%u %u\n255\n", unsigned(WIDTH), unsigned(HEIGHT));
    fwrite(picture, 1, sizeof picture, file);
    fclose(file);
}

/* Each button of the board closes its input, and no other. The PLL makes 125 and 25 MHz by an
 * oscillator of 625. */
static void check_pins()
{
    agree("the PLL", ULX3S(hdmi__DOT__pll__DOT__ratios), 25 << 16 | 5 << 8 | 5);
    agree("wifi_gpio0", top.wifi_gpio0, 1);
    for (unsigned button = 0; button < INPUTS; button++) {
        set_inputs(1u ^ 1u << button);
        for (int wait = 0; wait < 4; wait++) {
            clock_once();
        }
        agree(NAMES[button], ULX3S(held), 1u << PLACES[button]);
    }
    set_inputs(1);
}

/* The processor had as many cycles as the arcade's has in this time, 1.512 million a second, but
 * for some in the reset after power-up. */
static void check_pace()
{
    uint64_t wanted_cycles = clocks * 189 / 3125;
    agree("cycles of the processor", cycles <= wanted_cycles && cycles + 30 > wanted_cycles, 1);
    fprintf(stderr, "%" PRIu64 " cycles of the processor, %" PRIu64 " changes of lamps and %" PRIu64
        " of sounds, heard in %" PRIu64 " clocks; ", cycles, changes, heard, loud);
}

/* Plays up to a start, by its number, and its run; or for EARLY frames. */
static void play_start(uint64_t number)
{
    if (number == 0) {
        while (clocks < EARLY * COLUMNS * LINES) {
            clock_once();
        }
        return;
    }
    agree("a start is later than the ones before", number > starts && number * RAM <= rams.size(),
        1);
    while (starts < number) {
        clock_once();
    }
    do {
        clock_once();
    } while (!BOARD(halted));
}

static void read_rams(const char *path)
{
    FILE *file = fopen(path, "rb");
    if (!file) {
        exit(64);
    }
    for (uint8_t byte; fread(&byte, 1, 1, file) == 1;) {
        rams.push_back(byte);
    }
    fclose(file);
}

int main(int count, char **words)
{
    if (count < 5) {
        return 64;
    }
    read_buttons(words[2], clock_of);
    read_rams(words[3]);
    top.clk_25mhz = 0;
    set_inputs(1);
    top.eval();
    MACHINE(switches) = strtoul(words[1], nullptr, 16);
    check_pins();
    for (int word = 4; word < count; word++) {
        play_start(strtoull(words[word], nullptr, 0));
        show_start(words[word]);
    }
    check_pace();
    fprintf(stderr, "%" PRIu64 " frames off the wires, %" PRIu64 " of their pixels lit, are the"
        " raster's, at most %d more of one bit; of %" PRIu64 " starts %" PRIu64 " have this RAM,"
        " after %" PRIu64 " clocks and %zu events of buttons\n", frames, lit, receiver.farthest,
        starts, alike, clocks, presses_done);
    return 0;
}
