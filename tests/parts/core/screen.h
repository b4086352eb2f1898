/* What the pins of core/top show of a run, tick by tick, beside the facts of run.h. */
#ifndef CORE_SCREEN_H
#define CORE_SCREEN_H

#include "bench.h"
#include "run.h"

/* The pins, clock by clock. They show what the board had a clock before, and may change after a
 * tick alone. */
struct monitor {
    std::vector<Shown> seen;            /* what was shown in each tick of the run */
    Shown now;
    bool of_tick, of_run;               /* in the clock before: a tick, and of a run that is open */
    uint64_t ticks;

    /* The pins after an edge; and what the board has in this clock: a tick, and an open run. */
    void watch(const Shown &pins, bool tick, bool is_open)
    {
        bool stands = pins.x == now.x && pins.y == now.y && pins.z == now.z;
        agree("the pins change after a tick alone", stands || was_tick, true);
        if (of_tick && of_run) {
            seen.push_back(pins);
        }
        was_tick = of_tick;
        now = pins;
        of_tick = tick;
        of_run = is_open;
        ticks += tick;
    }

    /* What was seen since the run began is this, dark where a counter has bit 11. Begins anew. */
    void agree_on(const std::vector<Shown> &wanted)
    {
        agree("ticks on the pins", seen.size(), wanted.size());
        for (size_t number = 0; number < wanted.size(); number++) {
            agree("x on the pins", seen[number].x, wanted[number].x & 1023);
            agree("y on the pins", seen[number].y, wanted[number].y & 1023);
            bool is_far = (wanted[number].x | wanted[number].y) & 2048;
            agree("z on the pins", seen[number].z, is_far ? 0 : wanted[number].z);
        }
        seen.clear();
    }

private:
    bool was_tick;                      /* the pins show what came of a tick */
};

#endif
