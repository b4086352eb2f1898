/* Counts the bytes that a device takes of a heap of its own: what the header says of DVG_HEAP_KB,
 * of strokes, and of the calls that take no memory. A first word is a bound in KB that takes the
 * place of DVG_HEAP_KB.
 *
 * The last line of what is written is 'N passed, M failed'.
 */
#include "dvg.h"
#include "dvg_heap.h"

#include <stdio.h>
#include <stdlib.h>
#include <string.h>

/* --- The heap --- */

/* The bytes that live, the most that ever did since `most` was last set, and how often memory was
 * asked for. Each block begins with its size. */
static size_t living = 0, most = 0;
static long asked = 0;

/* Whether each new block is refused. */
static bool refuses = false;

#define ROOM 16

static unsigned char nowhere;

dvg_block dvg_heap_alloc(size_t bytes, size_t align)
{
    dvg_block got = {false, &nowhere};
    size_t size = bytes == 0 ? align : bytes;
    unsigned char *block = refuses ? NULL : (unsigned char *)malloc(size + ROOM);
    asked++;
    if (block != NULL) {
        memcpy(block, &size, sizeof size);
        living += size;
        most = living > most ? living : most;
        got.ok = true;
        got.block = block + ROOM;
    }
    return got;
}

void dvg_heap_free(void *old)
{
    unsigned char *block = (unsigned char *)old - ROOM;
    size_t size;
    memcpy(&size, block, sizeof size);
    living -= size;
    free(block);
}

dvg_block dvg_heap_realloc(void *old, size_t kept, size_t bytes, size_t align)
{
    dvg_block got = dvg_heap_alloc(bytes, align);
    if (got.ok) {
        memcpy(got.block, old, kept);
        dvg_heap_free(old);
    }
    return got;
}

/* --- What is tried --- */

static int passed = 0, failed = 0;

static void expect(bool holds, const char *what)
{
    if (holds) {
        passed++;
    } else {
        failed++;
        printf("FAILED: %s\n", what);
    }
}

static uint8_t rom[DVG_LARGE_ROM_BYTES];
static uint8_t ram[DVG_RAM_BYTES];

/* Adds the longest draft that is accepted. */
static void push_longest(dvg *device)
{
    dvg_clear(device);
    dvg_labs(device, 0, 0, 0);
    dvg_jump_rom(device, 0x400);
    for (int i = 2; i < 510; i++) {
        dvg_halt(device);
    }
}

/* Lets a world draw its draft. Whether it did. */
static bool draw(dvg *device)
{
    dvg_answer answer;
    do {
        answer = dvg_tick(device);
    } while (answer.kind != DVG_IDLE);
    if (dvg_offer(device).kind != DVG_OFFERED) {
        return false;
    }
    while (dvg_tick(device).kind != DVG_SENT) {
    }
    dvg_strobe(device);
    do {
        answer = dvg_fetch(device);
    } while (answer.kind == DVG_LOW || answer.kind == DVG_FETCHED);
    return answer.kind == DVG_DONE;
}

/* Whether a world that writes the longest draft is saved, and goes on in its state. */
static bool resume(dvg *device)
{
    static uint8_t bytes[DVG_SAVED_WORLD_BYTES];
    push_longest(device);
    while (dvg_tick(device).kind != DVG_IDLE) {
    }
    return dvg_offer(device).kind == DVG_OFFERED
           && dvg_restore(device, bytes, dvg_save(device, bytes, sizeof bytes)).kind == DVG_OPENED;
}

/* All that a device can do, in the order that keeps most of what was open; with few strokes. */
static void test_bound(size_t bound)
{
    dvg *device = NULL;
    bool done = dvg_new(&device) == 0;
    most = living;
    for (int i = 0; i < 2; i++) {
        done = dvg_open_driver(device, rom, sizeof rom).kind == DVG_OPENED && done;
        dvg_driver_tick(device, true, 0);
        dvg_driver_tick(device, true, 0);
        push_longest(device);
        done = dvg_offer(device).kind == DVG_OFFERED && done;
        done = dvg_open_world(device, ram, rom, sizeof rom).kind == DVG_OPENED && done;
        done = draw(device) && done;
        done = dvg_reset_all(device, ram).kind == DVG_CLEARED && done;
        done = draw(device) && done;
        done = resume(device) && done;
        done = dvg_stage_bytes(device, rom, sizeof rom).kind == DVG_STAGED && done;
        done = dvg_stage_bytes(device, ram, sizeof ram).kind == DVG_STAGED && done;
        done = dvg_open_generator(device).kind == DVG_OPENED && done;
        done = dvg_open_judge(device).kind == DVG_OPENED && done;
    }
    expect(done, "what is tried is done");
    printf("a device takes %zu bytes at most\n", most);
    expect(most <= bound, "a device takes no more than the header says");
    /* A bound that is far above what is taken would be none. */
    expect(most > bound / 2, "the header's bound is of some use");
    dvg_free(device);
    expect(living == 0, "nothing is left");
}

/* Strokes take 20 bytes each, and their room doubles. That of a finished run serves the one after
 * the next: so there are two rooms at most. */
static void test_strokes(size_t bound)
{
    static const uint8_t vector[] = {0x64, 0x90, 0x64, 0x74};
    enum { STROKES = 100000 };
    dvg *device = NULL;
    bool done = dvg_new(&device) == 0 && dvg_open_generator(device).kind == DVG_OPENED;
    size_t before = living;
    most = living;
    for (int run = 0; run < 3; run++) {
        dvg_strobe(device);
        for (int i = 0; i < 4 * STROKES; i++) {
            dvg_generator_fetch(device, vector[i % 4]);
        }
        dvg_generator_fetch(device, 0x00);
        done = dvg_generator_fetch(device, 0xB0).kind == DVG_DONE && done;
        expect(living - before >= (size_t)20 * STROKES * (size_t)(run > 0 ? 2 : 1)
                   && living - before <= (size_t)40 * STROKES * (size_t)(run > 0 ? 2 : 1),
               "the strokes of a finished run take 20 to 40 bytes each");
    }
    expect(done && dvg_strokes(device) == STROKES, "the runs are done");
    /* The finished run's room, and while it grows the open run's old and new. */
    expect(most <= bound + (size_t)100 * STROKES,
           "two runs take no more than their room, doubled as it grows");
    dvg_free(device);
    expect(living == 0, "nothing is left of the strokes");
}

/* A run without an end, whose strokes are taken each time that there are a thousand. */
static void test_endless(size_t bound)
{
    static const uint8_t vector[] = {0x64, 0x90, 0x64, 0x74};
    enum { STROKES = 1000, TIMES = 200 };
    dvg *device = NULL;
    uint64_t taken = 0;
    bool done = dvg_new(&device) == 0 && dvg_open_generator(device).kind == DVG_OPENED;
    most = living;
    dvg_strobe(device);
    for (int time = 0; time < TIMES; time++) {
        for (int i = 0; i < 4 * STROKES; i++) {
            dvg_generator_fetch(device, vector[i % 4]);
        }
        taken += dvg_take_strokes(device, NULL, NULL);
    }
    expect(done && taken == STROKES * TIMES, "each stroke is taken");
    expect(most <= bound + (size_t)100 * STROKES, "a run without an end takes no more memory");
    dvg_free(device);
    expect(living == 0, "nothing is left of it");
}

/* Each request that takes no memory is made while all memory is refused. */
#define TAKES_NONE(call, wanted)                                                                   \
    do {                                                                                           \
        long before = asked;                                                                       \
        dvg_answer answer;                                                                         \
        refuses = true;                                                                            \
        answer = (call);                                                                           \
        refuses = false;                                                                           \
        expect(answer.kind == (wanted) && asked == before, #call);                                 \
    } while (false)

static void test_world_without_memory(dvg *device)
{
    static uint8_t seen[DVG_RAM_BYTES];
    dvg_held held;
    dvg_open_world(device, NULL, rom, sizeof rom);
    TAKES_NONE(dvg_tick(device), DVG_PEEK);
    TAKES_NONE(dvg_tick(device), DVG_READ);
    push_longest(device);
    TAKES_NONE(dvg_offer(device), DVG_OFFERED);
    TAKES_NONE(dvg_offer(device), DVG_BUSY);
    while (dvg_tick(device).kind != DVG_SENT) {
    }
    TAKES_NONE(dvg_redraw(device), DVG_ASKED);
    TAKES_NONE(dvg_strobe(device), DVG_STARTED);
    TAKES_NONE(dvg_fetch(device), DVG_LOW);
    TAKES_NONE(dvg_fetch(device), DVG_FETCHED);
    TAKES_NONE(dvg_held_by(device, &held), DVG_HOLDS);
    TAKES_NONE(dvg_ram(device, seen), DVG_BYTE);
    TAKES_NONE(dvg_ask(device, DVG_REQUEST_STATE), DVG_STATE);
    TAKES_NONE(dvg_ask(device, DVG_REQUEST_DRIVER), DVG_DRIVER);
    TAKES_NONE(dvg_ask(device, DVG_REQUEST_OPERATION), DVG_NOTHING);
    TAKES_NONE(dvg_reset_generator(device), DVG_CLEARED);
    TAKES_NONE(dvg_reset_processor(device), DVG_CLEARED);
    dvg_stage_ram(device, ram);
    TAKES_NONE(dvg_ask(device, DVG_REQUEST_RESET_ALL), DVG_CLEARED);
    dvg_tick(device);
    dvg_tick(device);
    dvg_clear(device);
    dvg_labs(device, 0, 0, 0);
    TAKES_NONE(dvg_return(device), DVG_PUSHED);
    TAKES_NONE(dvg_offer(device), DVG_REFUSED);
    TAKES_NONE(dvg_clear(device), DVG_CLEARED);
    TAKES_NONE(dvg_unstage(device), DVG_CLEARED);
}

/* A reset of the whole system that finds no memory for its bytes leaves the world as it was, and
 * nothing staged. */
static void test_reset_without_memory(dvg *device)
{
    dvg_answer answer;
    dvg_open_world(device, NULL, rom, sizeof rom);
    dvg_tick(device);
    dvg_stage_byte(device, 1, 1);
    refuses = true;
    answer = dvg_reset_all(device, ram);
    refuses = false;
    expect(answer.kind == DVG_NO_MEMORY, "a reset of all needs memory for what it stages");
    expect(dvg_tick(device).kind == DVG_READ, "where it is refused, the world is as it was");
    expect(dvg_stage_byte(device, 0, 0).value == 0, "and no byte is staged");
    dvg_stage_byte(device, 1, 1);
    refuses = true;
    answer = dvg_open_world(device, ram, rom, sizeof rom);
    refuses = false;
    expect(answer.kind == DVG_NO_MEMORY && dvg_tick(device).kind == DVG_IDLE,
           "an opening that is refused leaves what was open");
    expect(dvg_stage_byte(device, 0, 0).value == 0, "and no byte staged");
}

static void test_driver_without_memory(dvg *device)
{
    dvg_move move;
    dvg_held held;
    dvg_open_driver(device, rom, sizeof rom);
    TAKES_NONE(dvg_driver_tick(device, true, 0), DVG_PEEK);
    TAKES_NONE(dvg_driver_tick(device, true, 0), DVG_READ);
    push_longest(device);
    TAKES_NONE(dvg_offer(device), DVG_OFFERED);
    TAKES_NONE(dvg_reset_processor(device), DVG_CLEARED);
    TAKES_NONE(dvg_redraw(device), DVG_NOTHING_PUBLISHED);
    TAKES_NONE(dvg_open_generator(device), DVG_OPENED);
    TAKES_NONE(dvg_wants(device), DVG_STILL);
    TAKES_NONE(dvg_strobe(device), DVG_STARTED);
    TAKES_NONE(dvg_generator_fetch(device, 0x01), DVG_LOW);
    TAKES_NONE(dvg_generator_move(device, 0xFF, &move), DVG_MOVES);
    TAKES_NONE(dvg_held_by(device, &held), DVG_HOLDS);
    TAKES_NONE(dvg_return_to(device, 0), DVG_NOTHING);
    TAKES_NONE(dvg_ask(device, DVG_REQUEST_STATE), DVG_STATE);
    TAKES_NONE(dvg_ask(device, DVG_REQUEST_TELL_STATE | 0x100), DVG_CLEARED);
    TAKES_NONE(dvg_ask(device, DVG_REQUEST_TELL_STATE), DVG_CLEARED);
    TAKES_NONE(dvg_generator_fetch(device, 0xE0), DVG_FETCHED);
    TAKES_NONE(dvg_generator_hole(device), DVG_BROKE);
    TAKES_NONE(dvg_shut(device), DVG_CLOSED);
}

/* A number that is no request is unknown, whatever is open. */
static void test_unknown(dvg *device)
{
    expect(dvg_tick(device).kind == DVG_CLOSED, "nothing is open");
    expect(dvg_ask(device, 36).kind == DVG_UNKNOWN, "no request, while nothing is open");
    expect(dvg_ask(device, 0x12FF).kind == DVG_UNKNOWN, "another one");
    dvg_open_generator(device);
    expect(dvg_ask(device, 36).kind == DVG_UNKNOWN, "no request, while a generator is open");
    expect(dvg_ram_byte(device, 0).kind == DVG_UNKNOWN, "a byte of no RAM");
    expect(dvg_offer(device).kind == DVG_UNKNOWN, "an offer to a generator");
}

int main(int count, char **words)
{
    size_t kilobytes = count > 1 ? (size_t)strtoul(words[1], NULL, 10) : DVG_HEAP_KB;
    dvg *device = NULL;
    /* SVECs, and a HALT as the ROM's last word. */
    for (size_t i = 1; i < sizeof rom; i += 2) {
        rom[i] = 0xF0;
    }
    rom[sizeof rom - 1] = 0xB0;
    test_bound(kilobytes * 1024);
    test_strokes(kilobytes * 1024);
    test_endless(kilobytes * 1024);
    if (dvg_new(&device) != 0) {
        return 2;
    }
    test_world_without_memory(device);
    test_reset_without_memory(device);
    test_driver_without_memory(device);
    test_unknown(device);
    dvg_free(device);
    expect(living == 0, "nothing is left at the end");
    printf("%d passed, %d failed\n", passed, failed);
    return failed == 0 ? 0 : 1;
}
