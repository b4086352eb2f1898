/* A receiver of DVI, for what core/dvg_dvi.v sends. The source of its rules is "Digital Visual
 * Interface, Revision 1.0" (DDWG, 1999), chapter 3. It takes a bit of each of four wires at a time,
 * finds where characters begin by those of control, and reads them. */
#ifndef CORE_TMDS_H
#define CORE_TMDS_H

#include "bench.h"

enum { BLUE, GREEN, RED, CLOCK, ENOUGH = 12 };

/* What three characters say: a byte each, or the two control bits of each. */
struct Symbol {
    bool shows;
    unsigned value[3];
};

/* The control characters, by C1 and C0. Bit 0 of a character is sent first. */
static const unsigned CONTROL[4] = {0x354, 0x0AB, 0x154, 0x2AB};

/* Returns the control bits, or 4 of a byte's character. */
static unsigned control_of(unsigned character)
{
    unsigned bits = 0;
    while (bits < 4 && CONTROL[bits] != character) {
        bits++;
    }
    return bits;
}

/* How many more bits are 1 than 0. */
static int excess(unsigned bits, int of)
{
    return 2 * __builtin_popcount(bits) - of;
}

struct Receiver {
    unsigned last[4];                   /* the last ten bits of each wire, the first one below */
    unsigned since;                     /* bits since a character */
    unsigned calm;                      /* characters of control in a row, at first */
    int sum[3], farthest;               /* since the last control: ones less zeros; the most */
    uint64_t bytes, turned;

    /* A character of a byte is the one that the standard chooses. Returns the byte. */
    unsigned read_byte(int wire, unsigned character)
    {
        bool is_turned = character >> 9 & 1, is_sum = character >> 8 & 1;
        unsigned bits = (is_turned ? ~character : character) & 255;
        unsigned byte = (bits ^ bits << 1 ^ (is_sum ? 0 : 0xFE)) & 255;
        int ones = excess(byte, 8), more = excess(bits, 8);
        agree("bit 8", is_sum, ones < 0 || (ones == 0 && byte & 1));
        bool is_even = sum[wire] == 0 || more == 0;
        agree("bit 9", is_turned, is_even ? !is_sum : (sum[wire] > 0) == (more > 0));
        sum[wire] += excess(character, 10);
        farthest = abs(sum[wire]) > farthest ? abs(sum[wire]) : farthest;
        bytes++;
        turned += is_turned;
        return byte;
    }

    /* Whether each wire but the clock's has had a character of control. */
    bool is_control() const
    {
        return control_of(last[0]) < 4 && control_of(last[1]) < 4 && control_of(last[2]) < 4;
    }

    Symbol read_symbol()
    {
        Symbol symbol = {!is_control(), {0, 0, 0}};
        agree("the wire of the clock", last[CLOCK], 0x01F);
        for (int wire = 0; wire < CLOCK; wire++) {
            unsigned bits = control_of(last[wire]);
            agree("a control character amid bytes", bits < 4, !symbol.shows);
            symbol.value[wire] = symbol.shows ? read_byte(wire, last[wire]) : bits;
            sum[wire] = symbol.shows ? sum[wire] : 0;
        }
        return symbol;
    }

    /* Takes a bit of each wire. Returns whether a symbol has come, after ENOUGH of control. */
    bool take(unsigned wires, Symbol &symbol)
    {
        for (int wire = 0; wire <= CLOCK; wire++) {
            last[wire] = last[wire] >> 1 | (wires >> wire & 1) << 9;
        }
        since++;
        if (calm < ENOUGH) {
            if (is_control()) {
                calm = since == 10 ? calm + 1 : 1;
                since = 0;
            }
            return false;
        }
        if (since < 10) {
            return false;
        }
        since = 0;
        symbol = read_symbol();
        return true;
    }
};

#endif
