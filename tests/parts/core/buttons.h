/* What the buttons of a game do, for the benches of dvg_game: a file of presses, as
 * board/emulator/buttons.lua has it. */
#ifndef CORE_BUTTONS_H
#define CORE_BUTTONS_H

#include <cstdint>
#include <cstdio>
#include <cstdlib>
#include <cstring>
#include <vector>

/* In the order of time. */
struct Press {
    uint64_t clock;
    unsigned button;
    bool is_down;
};
static std::vector<Press> presses;

/* The buttons, and the bits of `held` that they close: first the INPUTS that a ULX3S has, of which
 * the last one is a switch. */
enum { INPUTS = 8, NAMED = 13 };
static const char *const NAMES[NAMED] = {"coin_left", "fire", "hyperspace", "thrust", "start_1",
    "left", "right", "test", "coin_center", "coin_right", "start_2", "slam", "step"};
static const unsigned PLACES[NAMED] = {8, 4, 3, 13, 11, 15, 14, 7, 9, 10, 12, 6, 5};

/* The button of a name, or NAMED if there is none. */
static unsigned button_of(const char *name)
{
    unsigned button = 0;
    while (button < NAMED && strcmp(NAMES[button], name) != 0) {
        button++;
    }
    return button;
}

/* Reads a file of presses, of which each comes in the clock that belongs to its second. */
static void read_buttons(const char *path, uint64_t (*clock_of)(double second))
{
    FILE *file = fopen(path, "r");
    if (!file) {
        exit(64);
    }
    char line[200], name[20], way[20];
    double second;
    while (fgets(line, sizeof line, file)) {
        if (sscanf(line, "%lf %19s %19s", &second, name, way) == 3) {
            presses.push_back({clock_of(second), button_of(name), strcmp(way, "down") == 0});
        }
    }
    fclose(file);
}

#endif
