/* What a DVG of your own has, so that compare.c can run it beside the port. Tested, not proved. */
#ifndef MINE_H
#define MINE_H

#include <stdbool.h>
#include <stdint.h>

#ifdef __cplusplus
extern "C" {
#endif

/* How a generator stands after a byte. */
enum mine_state { MINE_RUNS, MINE_HALTED, MINE_STACK_OVER, MINE_STACK_UNDER, MINE_HOLE };

/* What it wants: a byte of the word at `address`, the high one or the low one, where it runs. */
struct mine_wanted {
    enum mine_state state;
    unsigned address;
    bool high;
};

/* Yours, 1: a start strobe arrives, also amid a run. With `power_on` the power comes before it: the
 * beam is at 0, 0, the scale is 0, and all else is as in a DVG that never ran. Without it, beam and
 * scale are as they were. */
void mine_start(bool power_on);

/* Yours, 2: the byte that it wants, or -1 where no memory answers. */
void mine_byte(int byte);

/* Yours, 3: what it wants now. */
struct mine_wanted mine_wants(void);

/* The kit's: call it for each line or dot that is drawn (z above 0), in the order drawn. Places are
 * in 1/512 of a screen unit, 0 to 2,097,151; with --units in whole ones, 0 to 4,095.
 *
 * With --moves call it also for what isn't seen, with z 0: for each vctr, svec and labs, once its
 * last byte has come and before the next one is wanted. A labs goes from where the beam was to
 * where it puts the beam. Without --moves calls with z 0 are passed over. */
void drew(uint32_t x0, uint32_t y0, uint32_t x1, uint32_t y1, unsigned z);

/* For a DVG that runs a whole list at once, and reads its words itself: at_once.c has yours 1 to 3,
 * and own_run is yours. A start strobe comes; with `power_on` the power comes before it. It returns
 * after a HALT. For each word that it fetches, in order, it asks own_word, which is at_once.c's, by
 * the word's address, 000 to FFF. */
void own_run(bool power_on);
unsigned own_word(unsigned at);

#ifdef __cplusplus
}
#endif

#endif
