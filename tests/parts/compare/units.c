/* A DVG as hardware has it, for examples/compare --units: two counters of whole units, which rate
 * multipliers move by pulses. It runs a whole list at once (at_once.c), and its stack wraps. */
#include "mine.h"

static unsigned x, y, scale;

/* How many pulses two multipliers of six bits give for a magnitude in 2 << sum counts: in each
 * count the lowest bit that is 0 selects the bit of the rate that decides. */
static unsigned pulses(unsigned size, unsigned sum)
{
    unsigned count, rate = size << 2, given = 0;
    for (count = 0; count < 2u << sum; count++) {
        unsigned bit = 0;
        while (count >> bit & 1) {
            bit++;
        }
        given += rate >> (11 - bit) & 1;
    }
    return given;
}

static unsigned moved(unsigned place, unsigned size, unsigned is_minus, unsigned sum)
{
    unsigned way = sum < 10 ? pulses(size, sum) : 0;
    return (is_minus ? place - way : place + way) & 0xFFF;
}

static void move(unsigned own_scale, unsigned dx, unsigned dy, unsigned signs, unsigned z)
{
    unsigned x0 = x, y0 = y, sum = (own_scale + scale) & 15;
    x = moved(x, dx, signs & 1, sum);
    y = moved(y, dy, signs & 2, sum);
    if (z != 0) {
        drew(x0, y0, x, y, z);
    }
}

void own_run(bool power_on)
{
    unsigned at = 0, depth = 0, stack[4] = {0, 0, 0, 0}, word, second;
    if (power_on) {
        x = y = scale = 0;
    }
    while ((word = own_word(at)) >> 12 != 0xB) {
        at = (at + 1) & 0xFFF;
        if (word >> 12 <= 0xA) {
            second = own_word(at);
            at = (at + 1) & 0xFFF;
            if (word >> 12 == 0xA) {
                y = word & 0xFFF;
                x = second & 0xFFF;
                scale = second >> 12;
            } else {
                move(word >> 12, second & 0x3FF, word & 0x3FF,
                     (second >> 10 & 1) | (word >> 9 & 2), second >> 12);
            }
        } else if (word >> 12 == 0xF) {
            move(2 + (word >> 2 & 2) + (word >> 11 & 1), (word & 3) << 8, word & 0x300,
                 (word >> 2 & 1) | (word >> 9 & 2), word >> 4 & 15);
        } else if (word >> 12 == 0xD) {
            at = stack[--depth & 3];
        } else {
            if (word >> 12 == 0xC) {
                stack[depth++ & 3] = at;
            }
            at = word & 0xFFF;
        }
    }
}
