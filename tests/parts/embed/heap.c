/* Refuses each allocation of a device's life in turn, with a heap of its own: what was refused must
 * have changed nothing, the same request must then do what it does, and at the end nothing may be
 * left on the heap.
 *
 * The last line of what is written is 'N passed, M failed', where each life counts; or 'skipped:
 * ..' where the archive asks this heap for nothing.
 */
#include "dvg.h"
#include "refusing.h"

#include <stdio.h>
#include <stdlib.h>
#include <string.h>

/* --- The heap --- */

/* How many blocks were asked for, and which of these is refused. */
static long asked = 0;
static long refused_one = 0;

static bool is_refused(size_t bytes)
{
    (void)bytes;
    return asked++ == refused_one;
}

/* --- A life --- */

/* Whether something of this life is wrong, which is reported once. */
static bool wrong = false;

static void expect(bool holds, const char *what)
{
    if (!holds && !wrong) {
        wrong = true;
        printf("FAILED: allocation %ld is refused: %s\n", refused_one, what);
    }
}

/* An answer, and where there was no memory for it that of the same request again, of which none is
 * refused. What is open must answer this to that request in between, as before. */
#define TWICE(request, same, kind_before)                                                          \
    do {                                                                                           \
        dvg_answer answer = (request);                                                             \
        if (answer.kind == DVG_NO_MEMORY) {                                                        \
            expect((same).kind == (kind_before),                                                   \
                   #request " is refused, and has changed what is open");                          \
            answer = (request);                                                                    \
        }                                                                                          \
        last = answer;                                                                             \
    } while (false)

/* The newest answer of TWICE. */
static dvg_answer last;

static uint8_t rom[DVG_LARGE_ROM_BYTES];
static uint8_t ram[DVG_RAM_BYTES];

/* Adds a frame's operations: this many vectors that are seen. */
static void push_frame(dvg *device, int vectors)
{
    dvg_clear(device);
    dvg_labs(device, 512, 400, 0);
    for (int i = 0; i < vectors; i++) {
        dvg_vctr(device, 9, i - 100, 100 - i, 7);
    }
    expect(dvg_halt(device).value == vectors + 1, "a draft lost an operation");
}

/* Has a frame of this many vectors written and drawn by a world. */
static void draw(dvg *device, int vectors)
{
    push_frame(device, vectors);
    while (dvg_tick(device).kind != DVG_IDLE) {
    }
    TWICE(dvg_offer(device), dvg_tick(device), DVG_IDLE);
    expect(last.kind == DVG_OFFERED, "the frame isn't taken");
    while (dvg_tick(device).kind != DVG_SENT) {
    }
    dvg_strobe(device);
    do {
        uint64_t strokes = dvg_strokes(device);
        TWICE(dvg_fetch(device), dvg_wants(device), DVG_UNKNOWN);
        expect(last.kind == DVG_DONE || dvg_strokes(device) == strokes,
               "a fetch changed the old picture");
    } while (last.kind == DVG_LOW || last.kind == DVG_FETCHED);
    expect(last.kind == DVG_DONE, "the frame isn't drawn");
    expect(dvg_strokes(device) == (uint64_t)vectors, "a stroke is lost");
    expect(dvg_stroke_at(device, (uint64_t)vectors - 1).z == 7, "the last stroke is another");
}

/* A world that draws twice, with a reset between. */
static void use_world(dvg *device)
{
    TWICE(dvg_open_world(device, ram, rom, DVG_ROM_BYTES), dvg_offer(device), DVG_CLOSED);
    expect(last.kind == DVG_OPENED, "no world is open");
    draw(device, 1);
    TWICE(dvg_reset_all(device, ram), dvg_strobe(device), DVG_STARTED);
    expect(last.kind == DVG_CLEARED && dvg_strobe(device).kind == DVG_NO_STROBE,
           "the system isn't reset");
    draw(device, 200);
}

/* What is open goes on in its state, also where memory for that is refused first. */
static void go_back(dvg *device)
{
    static uint8_t bytes[8192], later[8192], now[8192];
    size_t size = dvg_save(device, bytes, sizeof bytes), later_size;
    dvg_answer answer;
    for (int i = 0; i < 8; i++) {
        dvg_fetch(device);
    }
    later_size = dvg_save(device, later, sizeof later);
    answer = dvg_restore(device, bytes, size);
    if (answer.kind == DVG_NO_MEMORY) {
        expect(dvg_save(device, now, sizeof now) == later_size
                   && memcmp(now, later, later_size) == 0,
               "a state is refused memory, and has changed what is open");
        answer = dvg_restore(device, bytes, size);
    }
    expect(answer.kind == DVG_OPENED, "a state isn't restored");
    expect(size > 0 && dvg_save(device, now, sizeof now) == size && memcmp(now, bytes, size) == 0,
           "another state is restored");
}

/* A world that goes back amid a run, while it writes the next frame. */
static void rewind_world(dvg *device)
{
    TWICE(dvg_open_world(device, ram, rom, DVG_ROM_BYTES), dvg_wants(device), DVG_UNKNOWN);
    draw(device, 2);
    while (dvg_redraw(device).kind != DVG_ASKED || dvg_tick(device).kind != DVG_READ
           || dvg_tick(device).kind != DVG_SENT) {
    }
    push_frame(device, 100);
    dvg_strobe(device);
    for (int i = 0; i < 14; i++) {
        TWICE(dvg_fetch(device), dvg_wants(device), DVG_UNKNOWN);
    }
    expect(dvg_offer(device).kind == DVG_OFFERED && dvg_tick(device).kind == DVG_WROTE,
           "the next frame isn't written");
    go_back(device);
}

/* A driver alone, in the place of the world. */
static void use_driver(dvg *device)
{
    TWICE(dvg_open_driver(device, rom, sizeof rom), dvg_strobe(device), DVG_STARTED);
    expect(last.kind == DVG_OPENED && dvg_strokes(device) == 0, "no driver is open");
    for (int i = 0; i < 2; i++) {
        dvg_driver_tick(device, true, 0);
    }
    push_frame(device, 250);
    TWICE(dvg_offer(device), dvg_driver_tick(device, true, 0), DVG_IDLE);
    expect(last.kind == DVG_OFFERED, "the frame isn't taken by the driver alone");
    expect(dvg_driver_tick(device, true, 0).kind == DVG_WROTE, "nothing is written");
}

/* A generator alone, in the place of the driver: LABS, then this VCTR over and over. */
static void use_generator(dvg *device)
{
    static const uint8_t vector[] = {0x64, 0x90, 0x64, 0x74};
    TWICE(dvg_open_generator(device), dvg_redraw(device), DVG_NOTHING_PUBLISHED);
    expect(last.kind == DVG_OPENED, "no generator is open");
    dvg_strobe(device);
    for (int i = 0; i < 400; i++) {
        dvg_answer wanted = dvg_wants(device);
        TWICE(dvg_generator_fetch(device, vector[i % 4]), dvg_wants(device), DVG_WANTED);
        expect(last.kind == (wanted.value == 0 ? DVG_LOW : DVG_FETCHED), "a byte isn't taken");
        expect(last.address == wanted.address, "a byte is taken elsewhere");
    }
    dvg_generator_fetch(device, 0x00);
    expect(dvg_generator_fetch(device, 0xB0).kind == DVG_DONE, "the run isn't done");
    expect(dvg_strokes(device) == 100, "a stroke of the generator alone is lost");
}

/* A judge, in the place of the generator: of a run that is torn, and of one that is whole. */
static void use_judge(dvg *device)
{
    TWICE(dvg_open_judge(device), dvg_wants(device), DVG_STILL);
    expect(last.kind == DVG_OPENED && dvg_strokes(device) == 0, "no judge is open");
    for (int i = 0; i < 2; i++) {
        dvg_judge_started(device);
        dvg_judge_fetched(device, 1, 0x0101);
        expect(dvg_judge_wrote(device, 2, 5).kind == DVG_ONE_MOMENT, "a write tears");
        if (i == 0) {
            dvg_judge_wrote(device, 4, 7);
        }
        expect(dvg_judge_done(device, 2, 0x0107).kind == (i == 0 ? DVG_TORN : DVG_WHOLE),
               "a run is misjudged");
        dvg_judge_wrote(device, 2, 1);
    }
}

/* A device's life in which one allocation is refused. Whether all was as it should be. */
static bool live(void)
{
    dvg *const none = (dvg *)(void *)&nowhere;
    dvg *device = none;
    asked = 0;
    living = 0;
    wrong = false;
    if (dvg_new(&device) != 0) {
        expect(device == none && living == 0, "dvg_new is refused, and wrote or kept something");
        expect(dvg_new(&device) == 0, "dvg_new is refused twice");
    }
    long own = living;
    use_world(device);
    rewind_world(device);
    use_driver(device);
    use_generator(device);
    go_back(device);
    use_judge(device);
    expect(dvg_shut(device).kind == DVG_CLOSED && living == own, "what was open isn't given back");
    use_world(device);
    dvg_free(device);
    expect(living == 0, "blocks are left");
    return !wrong;
}

int main(void)
{
    long passed = 0, failed = 0, refusals;
    memset(rom, 0xD0, sizeof rom);
    refused_one = -1;
    do {
        refusals = refused;
        if (live()) {
            passed++;
        } else {
            failed++;
        }
        refused_one++;
    } while (refused_one == 0 || refused > refusals);
    if (asked == 0) {
        printf("skipped: the archive asks this heap for nothing\n");
        return 0;
    }
    printf("%ld allocations were refused\n", refused);
    printf("%ld passed, %ld failed\n", passed, failed);
    return failed == 0 ? 0 : 1;
}
