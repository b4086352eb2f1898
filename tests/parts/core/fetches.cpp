/* dvg_core in Verilator beside the generator of the port, over random memories, with withheld
 * bytes, holes, starts and resets at any time.
 *
 *     fetches FETCHES SEED [wraps]
 *
 * With `wraps` the core has the macro DVG_WRAPS, and the port a stack that wraps. Each pin is
 * compared after each clock. Prints what was played, or the first difference (status 1). */
#include "Vdvg_core.h"
#include "bench.h"

/* How the words of a memory are made. A word that is new at each fetch lets calls nest at random.
 * */
enum Style { ANY_WORD, MOSTLY_VECTORS, MOSTLY_CALLS, NEW_AT_EACH_FETCH };

static struct {
    uint64_t withheld, while_halted, starts, resets, with_another, halts, strokes, breaks[4];
} counts;

static uint16_t memory[4096];
static Style style;
static uint32_t halts_in_100;

static uint32_t any_opcode()
{
    uint32_t k = below(100 + halts_in_100);
    if (k >= 100) {
        return 0xB;
    }
    if (style == MOSTLY_VECTORS) {
        return k < 40 ? below(10) : k < 55 ? 0xF : k < 63 ? 0xA : k < 76 ? 0xC : k < 88 ? 0xD : 0xE;
    }
    return k < 10 ? below(10) : k < 20 ? 0xF : k < 25 ? 0xA : k < 60 ? 0xC : k < 95 ? 0xD : 0xE;
}

static uint16_t any_word()
{
    uint32_t word = random_bits() & 0xFFFF;
    if (style == ANY_WORD) {
        return (uint16_t)word;
    }
    word = (word & 0x0FFF) | any_opcode() << 12;
    if (once_in(8)) {
        word &= 0xFC00;                                  /* a magnitude of zero */
    }
    if (once_in(8)) {
        word |= 0x03FF;                                  /* the largest one */
    }
    return (uint16_t)word;
}

static void fill_memory()
{
    style = (Style)below(4);
    halts_in_100 = 1 + below(style == MOSTLY_VECTORS ? 60 : 10);
    for (uint16_t &word : memory) {
        word = any_word();
    }
}

/* Chooses what happens in a clock: the pins, and in `valid` whether a byte is answered. */
static void choose_pins(Vdvg_core &core)
{
    if (style == NEW_AT_EACH_FETCH && !core.high) {
        memory[core.at] = any_word();
    }
    core.reset = once_in(500);
    core.start = core.halted ? once_in(4) : once_in(700);
    core.valid = !once_in(5);
    if (core.valid) {
        core.hole = once_in(1500);
        core.din = core.high ? memory[core.at] >> 8 : memory[core.at] & 0xFF;
    } else {
        core.hole = below(2);
        core.din = below(256);
    }
}

/* The same event for the port's generator. Returns its answer, DVG_IDLE where there was none. */
static dvg_answer tell_port(dvg *port, const Vdvg_core &core)
{
    dvg_answer none = {DVG_IDLE, 0, 0, -1};
    counts.with_another += core.reset && (core.start || core.valid);
    if (core.reset || core.start) {
        shown.clear();
        counts.resets += core.reset;
        counts.starts += !core.reset;
        return core.reset ? dvg_reset_generator(port) : dvg_strobe(port);
    }
    if (!core.valid) {
        counts.withheld++;
        return none;
    }
    done_so_far += !core.halted;
    counts.while_halted += core.halted;
    return core.hole ? dvg_generator_hole(port) : dvg_generator_fetch(port, core.din);
}

static void agree_before(dvg *port, const Vdvg_core &core)
{
    dvg_answer wanted = dvg_wants(port);
    agree("halted", core.halted, wanted.kind == DVG_STILL);
    if (wanted.kind == DVG_WANTED) {
        agree("at", core.at, wanted.address);
        agree("high", core.high, wanted.value);
    }
}

static void agree_after(dvg *port, const Vdvg_core &core, dvg_answer answer)
{
    agree("done", core.done, answer.kind == DVG_DONE);
    agree("fault", core.fault, dvg_break_of(answer));
    counts.breaks[core.fault & 3] += core.fault != 0;
    if (core.stroke) {
        agree("a stroke only after a word", answer.kind, DVG_FETCHED);
    }
    keep_stroke(core);
    if (answer.kind == DVG_DONE) {
        counts.halts++;
        counts.strokes += agree_on_picture(port);
    }
}

int main(int argc, char **argv)
{
    uint64_t seed, wanted = read_arguments(argc, argv, &seed);
    Vdvg_core core;
    dvg *port = new_device();
    if (argc > 3) {
        dvg_open_wrapping(port);
    } else {
        dvg_open_generator(port);
    }
    core.clk = 0;
    core.eval();
    fill_memory();
    while (done_so_far < wanted) {
        if (once_in(10000)) {
            fill_memory();
        }
        agree_before(port, core);
        choose_pins(core);
        dvg_answer answer = tell_port(port, core);
        edge(core);
        agree_after(port, core, answer);
    }
    printf("%" PRIu64 " fetches in %" PRIu64 " clocks agree: %" PRIu64 " withheld, %" PRIu64
           " answered while halted, %" PRIu64 " starts, %" PRIu64 " resets (%" PRIu64
           " with another pin),\n %" PRIu64 " HALTs with %" PRIu64 " strokes, broken runs %" PRIu64
           " %" PRIu64 " %" PRIu64 "\n",
        done_so_far, clocks, counts.withheld, counts.while_halted, counts.starts, counts.resets,
        counts.with_another, counts.halts, counts.strokes, counts.breaks[1], counts.breaks[2],
        counts.breaks[3]);
    dvg_free(port);
    return 0;
}
