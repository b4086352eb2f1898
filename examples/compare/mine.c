/* A DVG of a hundred lines, to start from. Tested beside the port, not proved: put your own in its
 * place. */
#include "mine.h"

#define PLACES 0x1FFFFFu /* 4,096 units of 512 */

static enum mine_state state = MINE_HALTED;
static bool high, second;             /* the high byte is next; a second word is next */
static unsigned address, low, first;  /* the word's address, its low byte, an earlier first word */
static unsigned stack[4], depth;
static uint32_t x, y;
static unsigned global_scale;

void mine_start(bool power_on)
{
    if (power_on) {
        x = y = 0;
        global_scale = 0;
    }
    state = MINE_RUNS;
    high = second = false;
    address = depth = 0;
}

struct mine_wanted mine_wants(void)
{
    struct mine_wanted wanted = {state, address, high};
    return wanted;
}

/* The number of this size, and of this sign: 1 is minus. */
static int with_sign(unsigned size, unsigned sign)
{
    return sign ? -(int)size : (int)size;
}

/* Moves the beam, and draws. Scales 10 to 15 move nothing. */
static void move(unsigned scale, int dx, int dy, unsigned z)
{
    uint32_t x0 = x, y0 = y;
    unsigned sum = (scale + global_scale) & 15;
    if (sum <= 9) {
        x = (x + ((uint32_t)dx << sum)) & PLACES;
        y = (y + ((uint32_t)dy << sum)) & PLACES;
    }
    drew(x0, y0, x, y, z);
}

/* The second word of a labs or a vctr. */
static void second_word(unsigned word)
{
    if (first >> 12 == 0xA) {
        uint32_t x0 = x, y0 = y;
        y = (uint32_t)(first & 0xFFF) << 9;
        x = (uint32_t)(word & 0xFFF) << 9;
        global_scale = word >> 12;
        drew(x0, y0, x, y, 0);
    } else {
        int dx = with_sign(word & 0x3FF, word >> 10 & 1);
        int dy = with_sign(first & 0x3FF, first >> 10 & 1);
        move(first >> 12, dx, dy, word >> 12);
    }
}

/* An svec. */
static void short_vector(unsigned word)
{
    int dx = with_sign((word & 3) * 256, word >> 2 & 1);
    int dy = with_sign((word >> 8 & 3) * 256, word >> 10 & 1);
    move(2 + (word >> 11 & 1) + 2 * (word >> 3 & 1), dx, dy, word >> 4 & 15);
}

/* A first word. Returns the address of the next one. */
static unsigned first_word(unsigned word, unsigned next)
{
    switch (word >> 12) {
    case 0xB:
        state = MINE_HALTED;
        return next;
    case 0xC:
        if (depth == 4) {
            state = MINE_STACK_OVER;
            return next;
        }
        stack[depth++] = next;
        return word & 0xFFF;
    case 0xD:
        if (depth == 0) {
            state = MINE_STACK_UNDER;
            return next;
        }
        return stack[--depth];
    case 0xE:
        return word & 0xFFF;
    case 0xF:
        short_vector(word);
        return next;
    default:
        first = word;
        second = true;
        return next;
    }
}

void mine_byte(int byte)
{
    unsigned word, next = (address + 1) & 0xFFF;
    if (state != MINE_RUNS) {
        return;
    }
    if (byte < 0) {
        state = MINE_HOLE;
        return;
    }
    if (!high) {
        low = (unsigned)byte;
        high = true;
        return;
    }
    word = low | (unsigned)byte << 8;
    high = false;
    if (second) {
        second = false;
        second_word(word);
        address = next;
    } else {
        address = first_word(word, next);
    }
}
