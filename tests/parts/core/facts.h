/* What the arcade emulator's generator does with a vector, in its facts alone: a model beside which
 * the Verilog of core/ is played, tick by tick. Nothing here is of a schematic. */
#ifndef CORE_FACTS_H
#define CORE_FACTS_H

#include <cstdint>

/* The fields of a vector as its words have them, with the sum of its scale and the global one. */
struct Vector {
    uint32_t sum, dx_sign, dy_sign, dx, dy, z;
};

/* Whether a multiplier of twelve bits gives a pulse in this count: the lowest bit b of the count
 * that is clear lets bit 11 - b of the rate through. */
static uint32_t pulse_at(uint32_t rate, uint32_t count)
{
    for (uint32_t b = 0; b < 12; b++) {
        if (count % (2u << b) == (1u << b) - 1) {
            return rate >> (11 - b) & 1;
        }
    }
    return 0;
}

/* The counters, and the vector that goes. */
class Facts {
public:
    uint32_t x = 0, y = 0;

    void begin(const Vector &to)
    {
        now = to;
        count = 0;
        last = (2u << to.sum) & 0x7FF;
    }
    bool going() const { return count != last; }
    /* A magnitude of ten bits is the upper ten of a rate. */
    uint32_t pulse_x() const { return going() ? pulse_at(now.dx << 2, count) : 0; }
    uint32_t pulse_y() const { return going() ? pulse_at(now.dy << 2, count) : 0; }
    /* The intensity of a lit vector, where neither counter has bit 10; else 0. */
    uint32_t shown() const { return going() && !((x | y) & 0x400) ? now.z : 0; }
    void tick()
    {
        uint32_t step_x = pulse_x(), step_y = pulse_y();
        x = (now.dx_sign ? x - step_x : x + step_x) & 0xFFF;
        y = (now.dy_sign ? y - step_y : y + step_y) & 0xFFF;
        count += going();
    }

private:
    Vector now = {};
    uint32_t count = 0, last = 0;
};

#endif
