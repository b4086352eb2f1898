/* A DVG that runs a whole list at once, as emulators have it, for examples/compare/at_once.c: its
 * stack wraps, and the beam stays from run to run. */
#include "mine.h"

#define PLACES 0x1FFFFF /* 4,096 units of 512 */

static int x, y, scale;

static int with_sign(unsigned size, unsigned sign)
{
    return sign ? -(int)size : (int)size;
}

static void move(unsigned own_scale, int dx, int dy, unsigned z)
{
    int x0 = x, y0 = y;
    unsigned sum = (own_scale + (unsigned)scale) & 15;
    if (sum < 10) {
        x = (x + dx * (1 << sum)) & PLACES;
        y = (y + dy * (1 << sum)) & PLACES;
    }
    if (z != 0) {
        drew((uint32_t)x0, (uint32_t)y0, (uint32_t)x, (uint32_t)y, z);
    }
}

static void go_to(unsigned word, unsigned second)
{
    y = (int)(word & 0xFFF) << 9;
    x = (int)(second & 0xFFF) << 9;
    scale = (int)(second >> 12);
}

void own_run(bool power_on)
{
    unsigned at = 0, depth = 0, stack[4] = {0, 0, 0, 0}, word;
    if (power_on) {
        x = y = scale = 0;
    }
    while ((word = own_word(at)) >> 12 != 0xB) {
        at = (at + 1) & 0xFFF;
        if (word >> 12 == 0xA) {
            go_to(word, own_word(at));
            at = (at + 1) & 0xFFF;
        } else if (word >> 12 < 0xA) {
            unsigned second = own_word(at);
            at = (at + 1) & 0xFFF;
            move(word >> 12, with_sign(second & 0x3FF, second & 0x400),
                 with_sign(word & 0x3FF, word & 0x400), second >> 12);
        } else if (word >> 12 == 0xF) {
            move(2 + (word >> 2 & 2) + (word >> 11 & 1), with_sign((word & 3) << 8, word & 4),
                 with_sign(word & 0x300, word & 0x400), word >> 4 & 15);
        } else if (word >> 12 == 0xD) {
            at = stack[--depth & 3];
        } else {
            if (word >> 12 == 0xC) {
                stack[depth++ & 3] = at;
            }
            at = word & 0xFFF;
        }
    }
}
