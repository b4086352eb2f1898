/* Saves worlds amid random schedules, restores each by another world over the same ROM, and lets
 * both go on: each answer and stroke must be equal to the end. Then it restores other bytes: those
 * of a saved world with bits changed, or cut, of other versions, over another ROM, and random ones.
 * Each is answered, and where it is refused, the world stays as it was; of version 2 each of these
 * is refused. A strobe under way, a run over another ROM, and a judge after a restore are tried
 * once.
 *
 *   worlds COUNT SEED
 *
 * World number i, from 0, comes from SEED + i alone. It is linked with the archive, and compiled
 * with a sanitizer: then what a device does with memory is watched, too. The last line of what is
 * written is 'N passed, M failed'.
 *
 * With IS_FUZZED it has no main: clang's libFuzzer hands it bytes, which are restored (tests/fuzz).
 */
#include "dvg.h"
#include "chance.h"

#include <inttypes.h>
#include <stdio.h>
#include <stdlib.h>
#include <string.h>

/* The most events before a world is saved, and after. */
#define MOST_BEFORE 900
#define MOST_AFTER 900

static unsigned long passed = 0, failed = 0;
static uint64_t seed = 0;

static void expect(bool holds, const char *what)
{
    if (holds) {
        passed++;
    } else {
        failed++;
        printf("FAILED: %s, of the world of seed %" PRIu64 "\n", what, seed);
    }
}

/* A number from `least` to `most`. */
static int from_to(int least, int most)
{
    return least + (int)below((uint32_t)(most - least + 1));
}

/* --- What happens --- */

static uint8_t rom[DVG_LARGE_ROM_BYTES];

/* Short vectors and returns, so that calls of the ROM may be drawn. */
static void fill_rom(void)
{
    for (size_t at = 0; at < sizeof rom; at += 2) {
        uint32_t word = below(6) == 0 ? 0xD000 : 0xF000 | below(0x1000);
        rom[at] = (uint8_t)(word & 0xFF);
        rom[at + 1] = (uint8_t)(word >> 8);
    }
    rom[sizeof rom - 1] = 0xD0;
}

/* Pushes a draft that may be drawn, mostly. */
static void push_draft(dvg *device)
{
    int count = below(30) == 0 ? 400 : from_to(2, 12);
    dvg_clear(device);
    dvg_labs(device, from_to(0, 4095), from_to(0, 4095), from_to(0, 15));
    for (int i = 1; i < count; i++) {
        switch (below(6)) {
        case 0: dvg_call(device, count + (below(40) == 0)); break;
        case 1: dvg_call_rom(device, from_to(0x800, 0xBFF)); break;
        case 2: dvg_vctr(device, from_to(0, 9), from_to(-1023, 1023), 7, from_to(0, 15)); break;
        default: dvg_svec(device, from_to(2, 5), from_to(-3, 3), 1, from_to(0, 15)); break;
        }
    }
    dvg_halt(device);
    dvg_return(device);
}

/* What happens next, and how often still. */
static dvg_answer (*often)(dvg *) = dvg_tick;
static uint32_t left = 0;

/* Chooses what happens often. */
static void choose(void)
{
    static const uint32_t bursts[] = {1, 3, 40, 200};
    often = below(2) == 0 ? dvg_tick : dvg_fetch;
    left = 1 + below(bursts[below(4)]);
}

/* One event. What is random of it comes from a chance that both worlds have. */
static dvg_answer happen(dvg *device)
{
    static uint8_t ram[DVG_RAM_BYTES];
    switch (left > 0 ? 99 : below(24)) {
    case 0: return dvg_reset_generator(device);
    case 1: return dvg_reset_processor(device);
    case 2: memset(ram, (int)below(256), sizeof ram); return dvg_reset_all(device, ram);
    case 3:
    case 4: return dvg_redraw(device);
    case 5:
    case 6:
    case 7:
    case 8:
    case 9: return dvg_strobe(device);
    case 99: left--; return often(device);
    default: break;
    }
    if (below(2) == 0) {
        choose();
        return often(device);
    }
    push_draft(device);
    return dvg_offer(device);
}

/* --- Two worlds --- */

static bool same_stroke(dvg_stroke one, dvg_stroke other)
{
    return one.x0 == other.x0 && one.y0 == other.y0 && one.x1 == other.x1 && one.y1 == other.y1
           && one.z == other.z;
}

/* Whether the strokes of both are the same. */
static bool same_strokes(dvg *one, dvg *other)
{
    uint64_t count = dvg_strokes(one);
    bool same = dvg_strokes(other) == count;
    for (uint64_t i = 0; i < count && same; i++) {
        same = same_stroke(dvg_stroke_at(one, i), dvg_stroke_at(other, i));
    }
    return same;
}

static bool same_ram(dvg *one, dvg *other)
{
    static uint8_t first[DVG_RAM_BYTES], second[DVG_RAM_BYTES];
    return dvg_ram(one, first).kind == DVG_BYTE && dvg_ram(other, second).kind == DVG_BYTE
           && memcmp(first, second, sizeof first) == 0;
}

/* Whether both go on alike. */
static bool go_on_alike(dvg *one, dvg *other)
{
    bool same = true;
    for (uint32_t events = below(MOST_AFTER); events > 0 && same; events--) {
        uint64_t before = chance;
        uint32_t left_before = left;
        dvg_answer (*often_before)(dvg *) = often;
        dvg_answer first = happen(one), second;
        chance = before;
        left = left_before;
        often = often_before;
        second = happen(other);
        same = first.kind == second.kind && first.address == second.address
               && first.value == second.value
               && (first.kind != DVG_DONE || same_strokes(one, other));
    }
    return same && same_ram(one, other);
}

/* --- Bytes --- */

/* What is saved of a device, in memory that is the caller's to free. */
static uint8_t *save(dvg *device, size_t *size)
{
    uint8_t *bytes;
    *size = dvg_save(device, NULL, 0);
    bytes = malloc(*size);
    if (bytes == NULL) {
        exit(2);
    }
    expect(dvg_save(device, bytes, *size) == *size, "a state is as long as it was told");
    return bytes;
}

/* Restores bytes that may be none. Whether it is answered so, and a refused world is as before. */
static bool is_answered(dvg *device, const uint8_t *bytes, size_t size)
{
    size_t before_size, after_size;
    uint8_t *before = save(device, &before_size), *after;
    dvg_answer answer = dvg_restore(device, bytes, size);
    bool answered = answer.kind == DVG_OPENED || answer.kind == DVG_NO_STATE;
    after = save(device, &after_size);
    if (answer.kind == DVG_NO_STATE) {
        answered = after_size == before_size && memcmp(before, after, after_size) == 0;
    }
    free(before);
    free(after);
    return answered && dvg_stage_byte(device, 0, 0).value == 0;
}

/* Bits of a saved world changed: all behind the RAM and in the head, and some of the RAM. */
static void try_changed(dvg *device, uint8_t *bytes, size_t size)
{
    bool answered = true;
    for (size_t bit = 0; bit < 8 * size; bit += bit / 8 < 8 || bit / 8 > 2055 ? 1 : 97) {
        bytes[bit / 8] ^= (uint8_t)(1 << bit % 8);
        answered = is_answered(device, bytes, size) && answered;
        bytes[bit / 8] ^= (uint8_t)(1 << bit % 8);
    }
    expect(answered, "each changed bit is answered");
    answered = true;
    for (size_t length = 0; length < size; length += 1 + below(7)) {
        answered = answered && dvg_restore(device, bytes, length).kind == DVG_NO_STATE;
    }
    expect(answered, "each beginning of a saved world is refused");
    answered = true;
    for (int version = 0; version < 256; version++) {
        bytes[3] = (uint8_t)version;
        answered = answered
                   && (dvg_restore(device, bytes, size).kind == DVG_OPENED)
                          == (version == DVG_SAVED_VERSION);
    }
    bytes[3] = DVG_SAVED_VERSION;
    expect(answered, "other versions are refused");
}

/* Of version 2 bits changed are broken; over another ROM it is refused for that. */
static void try_broken(dvg *device, const uint8_t *first, size_t first_size)
{
    uint64_t digest = dvg_digest(rom, sizeof rom);
    size_t size = dvg_save_over(device, digest, NULL, 0);
    uint8_t *bytes = malloc(size);
    bool broken = size == first_size + DVG_SAVED_OVER_BYTES;
    if (bytes == NULL) {
        exit(2);
    }
    dvg_save_over(device, digest, bytes, size);
    expect(memcmp(bytes + 8, first + 8, first_size - 8) == 0
               && dvg_saved_number(bytes + size - 16) == digest
               && dvg_saved_number(bytes + size - 8) == dvg_digest(bytes, size - 8),
           "version 2 has the numbers of version 1, the digest, and the sum");
    for (size_t bit = 0; bit < 8 * size; bit += bit / 8 < 8 || bit / 8 > 2055 ? 1 : 97) {
        bytes[bit / 8] ^= (uint8_t)(1 << bit % 8);
        broken = broken
                 && dvg_saved_fault_of(dvg_restore_over(device, digest, bytes, size))
                        == DVG_SAVED_FAULT_BROKEN;
        bytes[bit / 8] ^= (uint8_t)(1 << bit % 8);
    }
    expect(broken, "of version 2 each changed bit is broken");
    expect(dvg_saved_fault_of(dvg_restore_over(device, digest ^ 1, bytes, size))
               == DVG_SAVED_FAULT_OTHER_ROM, "over another ROM it is refused");
    expect(dvg_restore_over(device, digest, bytes, size).kind == DVG_OPENED
               && dvg_restore_over(device, 0, bytes, size).kind == DVG_OPENED
               && dvg_restore_over(device, digest, first, first_size).kind == DVG_OPENED,
           "and not over its own, by no digest, and in version 1");
    free(bytes);
}

/* Random numbers behind a RAM, mostly of kinds that may stand there. */
static void try_random(dvg *device)
{
    static const uint64_t kinds[] = {35, 35, 35, 8, 8, 38};
    static uint8_t bytes[2056 + 8 * 20];
    size_t size = 2056 + 8 * (1 + below(20));
    dvg_saved_put(bytes, size, 0, dvg_saved_head(DVG_SAVED_WORLD, size / 8 - 1));
    for (size_t at = 2056; at < size; at += 8) {
        uint64_t number = (uint64_t)random_word() << 32 | (random_word() & 0xFFFF0000)
                          | below(9) << 8;
        dvg_saved_put(bytes, size, at, number | kinds[below(6)]);
    }
    dvg_saved_put(bytes, size, 2056, 35 | (uint64_t)below(0x1000) << 16);
    if (below(4) != 0) {
        dvg_saved_put(bytes, size, size - 8, 38 | below(8) << 8 | (uint64_t)below(16) << 16);
    }
    expect(is_answered(device, bytes, size), "random bytes are answered");
}

/* --- One world --- */

/* How many strokes are in a saved world. */
static size_t count_strokes(const uint8_t *bytes, size_t size)
{
    size_t count = 0;
    for (size_t at = 2056; at < size; at += 8) {
        count += bytes[at] == DVG_REQUEST_TELL_STATE && bytes[at + 1] == 3;
    }
    return count;
}

static void test_world(dvg *one, dvg *other)
{
    static uint8_t ram[DVG_RAM_BYTES];
    size_t size, again;
    uint8_t *bytes, *copy;
    size_t length = below(2) == 0 ? DVG_ROM_BYTES : DVG_LARGE_ROM_BYTES;
    fill_rom();
    memset(ram, (int)below(256), sizeof ram);
    dvg_open_world(one, NULL, rom + sizeof rom - length, length);
    left = 0;
    for (uint32_t events = below(MOST_BEFORE); events > 0; events--) {
        happen(one);
    }
    dvg_open_world(other, ram, rom + sizeof rom - length, length);
    bytes = save(one, &size);
    expect(dvg_saved_as(bytes, size) == DVG_SAVED_WORLD, "it is a saved world");
    expect(size - 16 * count_strokes(bytes, size) <= DVG_SAVED_WORLD_BYTES,
           "a state is as long as the header says");
    expect(dvg_restore(other, bytes, size).kind == DVG_OPENED, "a saved world is restored");
    copy = save(other, &again);
    expect(again == size && memcmp(bytes, copy, size) == 0, "and saved as the same bytes");
    if (seed % 16 == 0) {
        try_broken(other, bytes, size);
    }
    expect(go_on_alike(one, other), "both go on alike");
    if (seed % 64 == 0) {
        try_changed(other, bytes, size);
    }
    try_random(other);
    free(bytes);
    free(copy);
}

#ifdef IS_FUZZED

/* Restores bytes by a world over a ROM of returns, whatever they are but a generator's. What goes
 * on then, the world in them or the one that was open, is saved, and goes on alike in another
 * device. */
static void try_bytes(dvg *one, dvg *other, const uint8_t *bytes, size_t size)
{
    size_t saved_size, again;
    uint8_t *saved, *copy;
    expect(is_answered(one, bytes, size), "bytes are answered");
    saved = save(one, &saved_size);
    expect(dvg_restore(other, saved, saved_size).kind == DVG_OPENED, "what is saved is restored");
    copy = save(other, &again);
    expect(again == saved_size && memcmp(saved, copy, again) == 0, "and saved as the same bytes");
    expect(go_on_alike(one, other), "both go on alike");
    free(saved);
    free(copy);
}

/* The bytes of a saved world, in memory that is the caller's to free. They are the input, if that
 * begins as a saved state does; the sum is made right, if its highest bit is 0. Else the input is
 * what stands behind the RAM, so that it may grow and shrink, and the RAM has a jump to half 1,
 * short vectors and halts. That is of version 2, over a ROM that isn't named, if its length is
 * odd. */
static uint8_t *bytes_of(const uint8_t *data, size_t *size)
{
    bool is_whole = *size >= 2 && data[0] == 'D' && data[1] == 'V', is_summed = *size % 2 != 0;
    size_t before = is_whole ? 0 : 8 + DVG_RAM_BYTES, held = is_whole ? *size : *size / 8 * 8;
    uint8_t *bytes;
    *size = before + held + (is_whole || !is_summed ? 0 : DVG_SAVED_OVER_BYTES);
    bytes = calloc(*size + (*size == 0), 1);
    if (bytes == NULL) {
        exit(2);
    }
    memcpy(bytes + before, data, held);
    if (!is_whole) {
        for (size_t at = 8; at < before; at += 2) {
            uint32_t word = below(6) == 0 ? 0xB000 : 0xF000 | below(0x1000);
            bytes[at] = (uint8_t)(word & 0xFF);
            bytes[at + 1] = (uint8_t)(word >> 8);
        }
        bytes[8] = 0x01;
        bytes[9] = 0xE2;
        size_t count = *size / 8 - 1;
        dvg_saved_put(bytes, *size, 0, is_summed ? dvg_saved_head_over(DVG_SAVED_WORLD, count)
                                                 : dvg_saved_head(DVG_SAVED_WORLD, count));
    }
    if (*size >= 16 && bytes[3] != DVG_SAVED_VERSION && bytes[*size - 1] < 0x80) {
        dvg_saved_put(bytes, *size, *size - 8, dvg_digest(bytes, *size - 8));
    }
    return bytes;
}

int LLVMFuzzerTestOneInput(const uint8_t *data, size_t size)
{
    dvg *one = NULL, *other = NULL;
    dvg_saved what;
    uint8_t *bytes;
    memset(rom, 0xD0, sizeof rom);
    chance = 1979;
    left = 0;
    bytes = bytes_of(data, &size);
    what = dvg_saved_as(bytes, size);
    if (what == DVG_SAVED_GENERATOR || what == DVG_SAVED_WRAPPING) {
        free(bytes);
        return 0;
    }
    if (dvg_new(&one) != 0 || dvg_new(&other) != 0) {
        exit(2);
    }
    dvg_open_world(one, NULL, rom, DVG_ROM_BYTES);
    dvg_open_world(other, NULL, rom, DVG_ROM_BYTES);
    try_bytes(one, other, bytes, size);
    free(bytes);
    dvg_free(one);
    dvg_free(other);
    if (failed > 0) {
        abort();
    }
    return 0;
}

#else

/* The longest state of a world without strokes, room that is too small, and what is no world. */
static void test_others(dvg *one, dvg *other)
{
    static uint8_t bytes[DVG_SAVED_WORLD_BYTES + 1];
    dvg_open_world(one, NULL, rom, DVG_ROM_BYTES);
    expect(dvg_save(one, bytes, 9) == 2080, "a new world has 2,080 bytes");
    expect(bytes[8] == 0, "and what has no room isn't written");
    dvg_tick(one);
    dvg_tick(one);
    dvg_clear(one);
    dvg_labs(one, 0, 0, 0);
    dvg_call_rom(one, 0x800);
    for (int i = 0; i < 508; i++) {
        dvg_halt(one);
    }
    expect(dvg_offer(one).kind == DVG_OFFERED, "a long frame is offered");
    expect(dvg_save(one, bytes, sizeof bytes) == 2080 + 8 * 510, "and saved with each operation");
    expect(dvg_restore(other, bytes, 2080 + 8 * 510).kind == DVG_NO_STATE && dvg_tick(other).kind
               == DVG_CLOSED, "a world isn't restored where nothing is open");
    dvg_open_generator(other);
    expect(dvg_restore(other, bytes, 2080 + 8 * 510).kind == DVG_NO_STATE
               && dvg_wants(other).kind == DVG_STILL, "nor where a generator is");
    dvg_open_driver(other, rom, DVG_ROM_BYTES);
    expect(dvg_restore(other, bytes, 2080 + 8 * 510).kind == DVG_NO_STATE
               && dvg_save(other, bytes, sizeof bytes) == 0, "nor where a driver is");
    memset(rom, 0xB0, sizeof rom);
    dvg_open_world(other, NULL, rom, DVG_ROM_BYTES);
    expect(dvg_restore(other, bytes, 2080 + 8 * 510).kind == DVG_OPENED, "a ROM of HALTs suits");
    memset(rom, 0xC0, sizeof rom);
    dvg_open_world(other, NULL, rom, DVG_ROM_BYTES);
    expect(dvg_restore(other, bytes, 2080 + 8 * 510).kind == DVG_NO_STATE,
           "a ROM over which the frame is refused doesn't");
}

/* Publishes a frame that calls the ROM, and lets the driver send its strobe. */
static void publish(dvg *device)
{
    while (dvg_tick(device).kind != DVG_IDLE) {
    }
    dvg_clear(device);
    dvg_labs(device, 0, 0, 0);
    dvg_call_rom(device, 0x800);
    dvg_vctr(device, 9, 100, 100, 7);
    dvg_halt(device);
    expect(dvg_offer(device).kind == DVG_OFFERED, "a frame is offered");
    while (dvg_tick(device).kind != DVG_SENT) {
    }
}

/* Fetches up to what is no step of a run. */
static dvg_answer run(dvg *device)
{
    dvg_answer answer = dvg_fetch(device);
    while (answer.kind == DVG_LOW || answer.kind == DVG_FETCHED) {
        answer = dvg_fetch(device);
    }
    return answer;
}

/* Lets a world with a frame come so many steps on, by dvg_run_to_halt and by hand: both end alike,
 * and in the same state. Returns the kind that both end with. */
static dvg_kind run_both(dvg *one, dvg *other, uint32_t most)
{
    static uint8_t bytes[DVG_SAVED_WORLD_BYTES], others[DVG_SAVED_WORLD_BYTES];
    dvg_kind last = DVG_STILL, ended;
    size_t size;
    dvg_open_world(one, NULL, rom, DVG_ROM_BYTES);
    dvg_open_world(other, NULL, rom, DVG_ROM_BYTES);
    while (dvg_tick(one).kind != DVG_IDLE) {
    }
    dvg_clear(one);
    dvg_labs(one, 0, 0, 0);
    dvg_vctr(one, 9, 100, 100, 7);
    dvg_halt(one);
    expect(dvg_offer(one).kind == DVG_OFFERED, "a frame is offered");
    expect(dvg_restore(other, bytes, dvg_save(one, bytes, sizeof bytes)).kind == DVG_OPENED,
           "to both");
    ended = dvg_run_to_halt(one, most).kind;
    for (; most > 0 && last != DVG_DONE; most--) {
        if (dvg_tick(other).kind == DVG_SENT) {
            expect(dvg_strobe(other).kind == DVG_STARTED, "the strobe arrives");
        }
        last = dvg_fetch(other).kind;
    }
    size = dvg_save(one, bytes, sizeof bytes);
    expect(ended == last && dvg_save(other, others, sizeof others) == size
               && memcmp(bytes, others, size) == 0, "a run goes on as by hand");
    return ended;
}

/* A world whose run is brought to its end by one call. */
static void test_run_to_halt(dvg *one, dvg *other)
{
    uint32_t most = 0;
    expect(dvg_shut(one).kind == DVG_CLOSED && dvg_run_to_halt(one, 9).kind == DVG_CLOSED,
           "nothing runs where nothing is open");
    while (most < 99 && run_both(one, other, most) != DVG_DONE) {
        most++;
    }
    /* The run has six words: a jump into the frame, and its five. */
    expect(most >= 12 && most < 99, "a run ends");
    expect(run_both(one, other, 1000) == DVG_DONE && dvg_strokes(one) == 1, "and no other begins");
}

/* A strobe that was sent, and didn't arrive before the save, arrives after the restore; one that
 * arrived before has the frame drawn once more. */
static void test_strobe(dvg *one, dvg *other)
{
    static uint8_t bytes[DVG_SAVED_WORLD_BYTES];
    dvg_open_world(one, NULL, rom, DVG_ROM_BYTES);
    dvg_open_world(other, NULL, rom, DVG_ROM_BYTES);
    expect(!dvg_run_is_open(other) && dvg_strobe(other).kind == DVG_NO_STROBE, "none was sent");
    publish(one);
    expect(dvg_restore(other, bytes, dvg_save(one, bytes, sizeof bytes)).kind == DVG_OPENED,
           "a world goes on in another device");
    expect(!dvg_run_is_open(other) && dvg_strobe(other).kind == DVG_STARTED, "a strobe arrives");
    expect(dvg_run_is_open(other) && run(other).kind == DVG_DONE && dvg_strokes(other) == 1,
           "and its run draws the frame");
    expect(dvg_restore(one, bytes, dvg_save(other, bytes, sizeof bytes)).kind == DVG_OPENED,
           "and back in the first one");
    expect(!dvg_run_is_open(one) && dvg_strobe(one).kind == DVG_STARTED
               && run(one).kind == DVG_DONE && dvg_strokes(one) == 1, "it is drawn once more");
}

/* Nothing compares the ROM: a run that was saved over one opens over another of either size, also
 * where it breaks there. A new run breaks, too. */
static void test_other_rom(dvg *one, dvg *other)
{
    static uint8_t bytes[DVG_SAVED_WORLD_BYTES];
    size_t size;
    memset(rom, 0xD0, sizeof rom);
    dvg_open_world(one, NULL, rom, DVG_ROM_BYTES);
    publish(one);
    dvg_strobe(one);
    dvg_fetch(one);
    size = dvg_save(one, bytes, sizeof bytes);
    /* Points, up to the hole at C00. */
    memset(rom, 0xF0, sizeof rom);
    for (size_t length = DVG_ROM_BYTES; length <= DVG_LARGE_ROM_BYTES; length += DVG_ROM_BYTES) {
        dvg_answer broke;
        dvg_open_world(other, NULL, rom, length);
        expect(dvg_restore(other, bytes, size).kind == DVG_OPENED, "it opens over another ROM");
        broke = run(other);
        expect(broke.kind == DVG_BROKE && broke.address == 0xC00
                   && dvg_break_of(broke) == DVG_BREAK_HOLE, "and breaks there");
        expect(dvg_fetch(other).kind == DVG_STILL && !dvg_run_is_open(other), "so its run is over");
        expect(dvg_strobe(other).kind == DVG_STARTED && run(other).kind == DVG_BROKE,
               "and the next one breaks, too");
    }
    memset(rom, 0xD0, sizeof rom);
}

/* A judge knows nothing of what came before: a run that was open at a restore isn't judged, and the
 * next one is. */
static void test_judging(dvg *world, dvg *judge)
{
    static uint8_t bytes[DVG_SAVED_WORLD_BYTES];
    bool none = true;
    dvg_open_world(world, NULL, rom, DVG_ROM_BYTES);
    publish(world);
    dvg_strobe(world);
    dvg_fetch(world);
    expect(dvg_restore(world, bytes, dvg_save(world, bytes, sizeof bytes)).kind == DVG_OPENED,
           "a world goes on amid a run");
    dvg_open_judge(judge);
    /* Of the 16 bytes of its run one was fetched. */
    for (int bytes_left = 15; bytes_left > 0; bytes_left--) {
        none = dvg_judge_answer(judge, dvg_fetch(world)).kind == DVG_NO_RUN && none;
    }
    expect(none && !dvg_run_is_open(world), "the run that was open isn't judged");
    dvg_judge_answer(judge, dvg_strobe(world));
    for (int bytes_left = 16; bytes_left > 1; bytes_left--) {
        dvg_judge_answer(judge, dvg_fetch(world));
    }
    expect(dvg_judge_answer(judge, dvg_fetch(world)).kind == DVG_WHOLE, "the next one is");
}

int main(int count, char **words)
{
    dvg *one = NULL, *other = NULL;
    if (count != 3) {
        fprintf(stderr, "usage: worlds COUNT SEED\n");
        return 64;
    }
    if (dvg_new(&one) != 0 || dvg_new(&other) != 0) {
        return 2;
    }
    memset(rom, 0xD0, sizeof rom);
    test_others(one, other);
    memset(rom, 0xD0, sizeof rom);
    test_run_to_halt(one, other);
    test_strobe(one, other);
    test_other_rom(one, other);
    test_judging(one, other);
    seed = strtoull(words[2], NULL, 10);
    for (unsigned long worlds = strtoul(words[1], NULL, 10); worlds > 0; worlds--, seed++) {
        chance = seed * 0x9E3779B97F4A7C15u;
        test_world(one, other);
    }
    dvg_free(one);
    dvg_free(other);
    printf("%lu passed, %lu failed\n", passed, failed);
    return failed == 0 ? 0 : 1;
}

#endif
