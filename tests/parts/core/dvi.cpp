/* dvg_dvi of core/ in Verilator: what is sent of random pixels and syncs is what a receiver reads.
 *
 *     dvi PIXELS SEED
 *
 * So many pixels are sent with each of four phases of both clocks. Prints what was seen, or the
 * first difference (status 1). */
#include <deque>
#include "Vdvg_dvi.h"
#include "tmds.h"

enum { STEPS = 20, CALM = 40 };         /* of a pixel; pixels before the first one that shows */

static Vdvg_dvi dvi;
static Receiver receiver;
static std::deque<Symbol> sent;
static bool is_read;                    /* a pixel was read that shows */
static bool shows;                      /* what is sent, for how many pixels more */
static unsigned left;
static uint64_t controls, bytes_seen[3][256];
static size_t latest;

/* What is sent next: runs of pixels and of control bits, of random lengths. */
static Symbol choose()
{
    if (left == 0) {
        shows = !shows;
        left = 1 + below(once_in(4) ? 300 : 12);
    }
    left--;
    Symbol symbol = {shows, {below(4), 0, 0}};
    for (int wire = 0; shows && wire < CLOCK; wire++) {
        static unsigned same[3];
        same[wire] = once_in(8) ? below(256) : same[wire];
        symbol.value[wire] = once_in(2) ? same[wire] : below(256);
    }
    return symbol;
}

static void drive(const Symbol &symbol)
{
    dvi.shows = symbol.shows;
    dvi.vsync_n = symbol.shows ? once_in(2) : symbol.value[BLUE] >> 1;
    dvi.hsync_n = symbol.shows ? once_in(2) : symbol.value[BLUE] & 1;
    dvi.blue = symbol.shows ? symbol.value[BLUE] : below(256);
    dvi.green = symbol.shows ? symbol.value[GREEN] : below(256);
    dvi.red = symbol.shows ? symbol.value[RED] : below(256);
}

/* What is read is what was sent, in its order, from the first pixel that shows. */
static void check(const Symbol &symbol)
{
    if (!is_read && !symbol.shows) {
        return;
    }
    while (!is_read && !sent.empty() && !sent.front().shows) {
        sent.pop_front();
    }
    is_read = true;
    latest = sent.size() > latest ? sent.size() : latest;
    agree("more is read than was sent", sent.empty(), false);
    agree("a pixel shows", symbol.shows, sent.front().shows);
    for (int wire = 0; wire < CLOCK; wire++) {
        agree(wire == BLUE ? "blue" : wire == GREEN ? "green" : "red", symbol.value[wire],
            sent.front().value[wire]);
        bytes_seen[wire][symbol.value[wire]] += symbol.shows;
    }
    controls += !symbol.shows;
    sent.pop_front();
}

/* Sends a pixel: its clock rises in the step `phase`, the bits' in each fourth one from 0 on. */
static void send(int phase)
{
    Symbol symbol;
    for (int step = 0; step < STEPS; step++) {
        if (step == phase) {
            sent.push_back(choose());
            drive(sent.back());
        }
        bool rises = step % 4 == 0;
        for (unsigned wires : {dvi.first, dvi.second}) {
            if (rises && receiver.take(wires, symbol)) {
                check(symbol);
            }
        }
        dvi.clk = (step + STEPS - phase) % STEPS < STEPS / 2;
        dvi.clk_bits = step % 4 < 2;
        dvi.eval();
    }
    clocks++;
}

int main(int argc, char **argv)
{
    if (argc != 3) {
        return 64;
    }
    seed_random(strtoull(argv[2], nullptr, 0));
    uint64_t most = strtoull(argv[1], nullptr, 0), bytes = 0, turned = 0;
    int farthest = 0;
    for (int phase = 0; phase < 4; phase++) {
        receiver = Receiver{};
        sent.clear();
        is_read = false;
        shows = false;
        left = CALM;
        for (uint64_t end = clocks + most; clocks < end;) {
            send(phase);
        }
        agree("a pixel was read", is_read, true);
        bytes += receiver.bytes;
        turned += receiver.turned;
        farthest = receiver.farthest > farthest ? receiver.farthest : farthest;
    }
    for (const auto &wire : bytes_seen) {
        for (uint64_t count : wire) {
            agree("each byte came", count > 0, true);
        }
    }
    agree("pixels on the way", latest < 6, true);
    printf("%" PRIu64 " pixels with four phases, %" PRIu64 " bytes, %" PRIu64
           " of them turned around, %" PRIu64
           " of control; at most %d more of one bit; %zu pixels on the way\n",
        clocks, bytes, turned, controls, farthest, latest);
    return 0;
}
