/* For a DVG that runs a whole list at once, and reads its words itself: the three functions of
 * mine.h, by own_run, which is yours. `make MINE='at_once.c yours.c'`. Tested, not proved.
 *
 * Where a start strobe comes amid a run, own_run begins anew, and the call of own_word before it
 * never returns. So keep outside of own_run what stays from run to run, as the beam. */
#include "mine.h"
#include <stdlib.h>
#include <ucontext.h>

static ucontext_t kit, own;         /* what goes on where the other one waits */
static char own_stack[1 << 18];
static struct mine_wanted wanted = {MINE_HALTED, 0, false};
static unsigned byte_of_wanted;
static bool with_power;

static void run_own(void)
{
    own_run(with_power);
    wanted.state = MINE_HALTED;
}

/* Lets own_run go on until it wants a byte, or returns. */
static void go_on(void)
{
    if (swapcontext(&kit, &own) != 0) {
        abort();
    }
}

static unsigned own_byte(unsigned at, bool high)
{
    wanted.address = at;
    wanted.high = high;
    if (swapcontext(&own, &kit) != 0) {
        abort();
    }
    return byte_of_wanted;
}

unsigned own_word(unsigned at)
{
    unsigned low = own_byte(at, false);
    return low | own_byte(at, true) << 8;
}

void mine_start(bool power_on)
{
    with_power = power_on;
    wanted.state = MINE_RUNS;
    if (getcontext(&own) != 0) {
        abort();
    }
    own.uc_stack.ss_sp = own_stack;
    own.uc_stack.ss_size = sizeof own_stack;
    own.uc_link = &kit;
    makecontext(&own, run_own, 0);
    go_on();
}

void mine_byte(int byte)
{
    if (byte < 0) {
        wanted.state = MINE_HOLE;
    } else if (wanted.state == MINE_RUNS) {
        byte_of_wanted = (unsigned)byte;
        go_on();
    }
}

struct mine_wanted mine_wants(void)
{
    return wanted;
}
