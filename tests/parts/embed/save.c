/* Saves generators amid random runs, also such as wrap, restores each into another device, and lets
 * both go on: each answer, move and stroke must be equal to the end. Then it restores other bytes:
 * those of a saved state of either version with each bit changed, or cut, of other versions, and
 * random ones. Each is answered, and where it is refused, what was open stays. Of version 2 each
 * changed bit and each beginning is broken.
 *
 *   save COUNT SEED
 *
 * Generator number i, from 0, comes from SEED + i alone. It is linked with the archive, and
 * compiled with a sanitizer: then what a device does with memory is watched, too. The last line of
 * what is written is 'N passed, M failed'.
 *
 * With IS_FUZZED it has no main: clang's libFuzzer hands it bytes, which are restored (tests/fuzz).
 */
#include "dvg.h"
#include "chance.h"

#include <inttypes.h>
#include <stdio.h>
#include <stdlib.h>
#include <string.h>

/* The most bytes that a generator is handed before it is saved, and after. */
#define MOST_BEFORE 400
#define MOST_AFTER 300

static unsigned long passed = 0, failed = 0;
static uint64_t seed = 0;

static void expect(bool holds, const char *what)
{
    if (holds) {
        passed++;
    } else {
        failed++;
        printf("FAILED: %s, of the generator of seed %" PRIu64 "\n", what, seed);
    }
}

/* A memory of 4,096 words: instructions of each kind, of which calls and returns are many. */
static uint8_t memory[8192];

static void fill_memory(void)
{
    static const uint16_t tops[] = {0x0, 0x4, 0x9, 0xA, 0xC, 0xC, 0xD, 0xE, 0xF, 0xF, 0xF};
    for (size_t at = 0; at < sizeof memory; at += 2) {
        uint32_t word = random_word() >> 16 & 0xFFF;
        word |= (uint32_t)(below(60) == 0 ? 0xB : tops[below(11)]) << 12;
        memory[at] = (uint8_t)(word & 0xFF);
        memory[at + 1] = (uint8_t)(word >> 8);
    }
}

/* --- A run --- */

/* How many strokes the open run drew so far. */
static size_t drawn = 0;

/* Hands a generator the byte that it wants, or seldom a hole; begins a run where none is open. */
static dvg_answer go_on(dvg *device, bool hole)
{
    dvg_answer wanted = dvg_wants(device);
    dvg_move move = {0, 0, 0, 0, 0, false, 0};
    uint8_t byte;
    expect(dvg_run_is_open(device) == (wanted.kind == DVG_WANTED), "whether a run is open is told");
    if (wanted.kind != DVG_WANTED) {
        drawn = 0;
        return dvg_strobe(device);
    }
    if (hole) {
        return dvg_generator_hole(device);
    }
    byte = memory[2 * wanted.address + wanted.value];
    if (dvg_generator_move(device, byte, &move).kind == DVG_MOVES && move.z > 0) {
        drawn++;
    }
    return dvg_generator_fetch(device, byte);
}

static bool same_stroke(dvg_stroke one, dvg_stroke other)
{
    return one.x0 == other.x0 && one.y0 == other.y0 && one.x1 == other.x1 && one.y1 == other.y1
           && one.z == other.z;
}

/* Whether the strokes of both are the same. */
static bool same_strokes(dvg *one, dvg *other)
{
    uint64_t count = dvg_strokes(one);
    bool same = dvg_strokes(other) == count;
    for (uint64_t i = 0; i < count && same; i++) {
        same = same_stroke(dvg_stroke_at(one, i), dvg_stroke_at(other, i));
    }
    return same;
}

/* Whether all is the same that can be asked of both, but for the strokes of a finished run. */
static bool stand_alike(dvg *one, dvg *other, uint8_t byte)
{
    bool same = true;
    for (uint64_t request = DVG_REQUEST_MOVE; request <= DVG_REQUEST_RETURN_TO; request++) {
        for (uint64_t i = 0; i < 5; i++) {
            uint64_t asked = request == DVG_REQUEST_RETURN_TO ? request | i << 8
                                                              : request | (uint64_t)byte << 16;
            same = same && dvg_turn(one, asked) == dvg_turn(other, asked);
        }
    }
    return same && dvg_turn(one, DVG_REQUEST_WANTS) == dvg_turn(other, DVG_REQUEST_WANTS);
}

/* Whether both go on alike, run after run. */
static bool go_on_alike(dvg *one, dvg *other)
{
    bool same = true;
    for (uint32_t left = below(MOST_AFTER); left > 0 && same; left--) {
        dvg_answer wanted = dvg_wants(one);
        bool hole = below(200) == 0;
        uint8_t byte = memory[2 * (wanted.address & 0xFFF) + (wanted.value & 1)];
        dvg_answer first, second;
        same = stand_alike(one, other, byte);
        first = go_on(one, hole);
        second = go_on(other, hole);
        same = same && first.kind == second.kind && first.address == second.address
               && first.value == second.value
               && (first.kind != DVG_DONE || same_strokes(one, other));
    }
    return same;
}

/* --- Bytes --- */

/* What is saved of a device, in memory that is the caller's to free. */
static uint8_t *save(dvg *device, size_t *size)
{
    uint8_t *bytes;
    *size = dvg_save(device, NULL, 0);
    bytes = malloc(*size + 1);
    if (bytes == NULL) {
        exit(2);
    }
    bytes[*size] = 0xA5;
    expect(dvg_save(device, bytes, *size) == *size && bytes[*size] == 0xA5,
           "as many bytes are written as there are");
    return bytes;
}

/* Other bytes are answered. Where they are refused, the generator that was open stays, with its
 * answers; what opens can be saved, and restored again. */
static void try_bytes(dvg *device, const uint8_t *bytes, size_t size, bool *answered)
{
    uint64_t wants = dvg_turn(device, DVG_REQUEST_WANTS);
    uint64_t beam = dvg_turn(device, DVG_REQUEST_BEAM);
    dvg_kind kind = dvg_restore(device, bytes, size).kind;
    if (kind == DVG_OPENED) {
        size_t again;
        uint8_t *other = save(device, &again);
        *answered = *answered && dvg_restore(device, other, again).kind == DVG_OPENED;
        free(other);
    } else {
        *answered = *answered && kind == DVG_NO_STATE
                    && dvg_turn(device, DVG_REQUEST_WANTS) == wants
                    && dvg_turn(device, DVG_REQUEST_BEAM) == beam;
    }
}

#ifdef IS_FUZZED

/* The bytes of a saved generator, in memory that is the caller's to free. They are the input, if
 * that begins as a saved state does; the sum is made right, if its highest bit is 0. Else the input
 * is what stands behind the head, so that it may grow and shrink: of a generator whose stack wraps,
 * if its length is odd, and of version 2, if that has bit 1. */
static uint8_t *bytes_of(const uint8_t *data, size_t *size)
{
    bool is_whole = *size >= 2 && data[0] == 'D' && data[1] == 'V', is_summed = *size % 4 >= 2;
    dvg_saved what = *size % 2 == 0 ? DVG_SAVED_GENERATOR : DVG_SAVED_WRAPPING;
    size_t before = is_whole ? 0 : 8, held = is_whole ? *size : *size / 8 * 8;
    uint8_t *bytes;
    *size = before + held + (is_whole || !is_summed ? 0 : DVG_SAVED_OVER_BYTES);
    bytes = calloc(*size + (*size == 0), 1);
    if (bytes == NULL) {
        exit(2);
    }
    memcpy(bytes + before, data, held);
    if (!is_whole) {
        dvg_saved_put(bytes, *size, 0, is_summed ? dvg_saved_head_over(what, *size / 8 - 1)
                                                 : dvg_saved_head(what, *size / 8 - 1));
    }
    if (*size >= 16 && bytes[3] != DVG_SAVED_VERSION && bytes[*size - 1] < 0x80) {
        dvg_saved_put(bytes, *size, *size - 8, dvg_digest(bytes, *size - 8));
    }
    return bytes;
}

/* Restores bytes, whatever they are, where a generator is open. The generator that goes on then is
 * saved, and goes on alike in another device. */
int LLVMFuzzerTestOneInput(const uint8_t *data, size_t size)
{
    dvg *one = NULL, *other = NULL;
    size_t saved_size;
    uint8_t *bytes, *saved;
    bool answered = true;
    if (dvg_new(&one) != 0 || dvg_new(&other) != 0) {
        exit(2);
    }
    chance = 1979;
    fill_memory();
    bytes = bytes_of(data, &size);
    dvg_open_generator(one);
    try_bytes(one, bytes, size, &answered);
    free(bytes);
    expect(answered, "bytes are answered");
    expect(dvg_wants(one).address < sizeof memory / 2, "a word is wanted that there may be");
    saved = save(one, &saved_size);
    expect(dvg_restore(other, saved, saved_size).kind == DVG_OPENED, "what is saved is restored");
    if (failed == 0) {
        expect(go_on_alike(one, other), "both go on alike");
    }
    free(saved);
    dvg_free(one);
    dvg_free(other);
    if (failed > 0) {
        abort();
    }
    return 0;
}

#else

/* Each bit of a saved state changed, each beginning of it, and other versions. */
static void try_changed(dvg *device, uint8_t *bytes, size_t size)
{
    bool answered = true;
    for (size_t bit = 0; bit < 8 * size; bit++) {
        bytes[bit / 8] ^= (uint8_t)(1 << bit % 8);
        try_bytes(device, bytes, size, &answered);
        bytes[bit / 8] ^= (uint8_t)(1 << bit % 8);
    }
    expect(answered, "each changed bit is answered");
    answered = true;
    for (size_t length = 0; length < size; length++) {
        answered = answered && dvg_restore(device, bytes, length).kind == DVG_NO_STATE;
    }
    expect(answered, "each beginning of a saved state is refused");
    answered = true;
    for (int version = 0; version < 256; version++) {
        bytes[3] = (uint8_t)version;
        answered = answered
                   && (dvg_restore(device, bytes, size).kind == DVG_OPENED)
                          == (version == DVG_SAVED_VERSION);
    }
    bytes[3] = DVG_SAVED_VERSION;
    expect(answered, "other versions are refused");
}

/* Of version 2 each changed bit, and each beginning, is broken; another version isn't, if its sum
 * is right. */
static void try_broken(dvg *device)
{
    uint8_t bytes[512];
    size_t size = dvg_save_over(device, 7, bytes, sizeof bytes);
    bool broken = size <= sizeof bytes && dvg_saved_number(bytes + size - 16) == 0;
    for (size_t bit = 0; bit < 8 * size; bit++) {
        bytes[bit / 8] ^= (uint8_t)(1 << bit % 8);
        broken = broken && dvg_saved_as(bytes, size) == DVG_SAVED_NOTHING
                 && dvg_saved_fault_of(dvg_restore(device, bytes, size)) == DVG_SAVED_FAULT_BROKEN;
        bytes[bit / 8] ^= (uint8_t)(1 << bit % 8);
    }
    for (size_t length = 0; length < size; length++) {
        broken = broken
                 && dvg_saved_fault_of(dvg_restore(device, bytes, length))
                        == DVG_SAVED_FAULT_BROKEN;
    }
    expect(broken, "of version 2 each changed bit and each beginning is broken");
    for (int version = 0; version < 256; version++) {
        bytes[3] = (uint8_t)version;
        dvg_saved_put(bytes, size, size - 8, dvg_digest(bytes, size - 8));
        expect(dvg_saved_fault_of(dvg_restore(device, bytes, size))
                   == (version == 2   ? DVG_SAVED_FAULT_NONE
                       : version == 1 ? DVG_SAVED_FAULT_PARTS
                                      : DVG_SAVED_FAULT_OTHER_VERSION),
               "another version whose sum is right is told");
    }
}

/* Random bytes, mostly with the head of a saved state, and with parts. */
static void try_random(dvg *device)
{
    uint8_t bytes[128];
    size_t size = below(sizeof bytes + 1);
    bool answered = true;
    for (size_t at = 0; at < sizeof bytes; at++) {
        bytes[at] = (uint8_t)below(256);
    }
    if (below(8) != 0) {
        size = 8 * (2 + below(14));
        dvg_saved what = below(2) == 0 ? DVG_SAVED_GENERATOR : DVG_SAVED_WRAPPING;
        dvg_saved_put(bytes, size, 0, dvg_saved_head(what, size / 8 - 1));
        for (size_t at = 8; at < size; at += 8) {
            bytes[at] = DVG_REQUEST_TELL_STATE;
            bytes[at + 1] = (uint8_t)(at == 8 ? 0 : below(5));
        }
    }
    try_bytes(device, bytes, size, &answered);
    expect(answered, "random bytes are answered");
}

/* --- One generator --- */

/* Whether the saved state is as long as the header says. */
static bool is_as_long(dvg *device, size_t size)
{
    dvg_held held = {0, 0, 0, false, false, 0, 0};
    bool is_open = dvg_wants(device).kind == DVG_WANTED;
    dvg_held_by(device, &held);
    return size == DVG_SAVED_BYTES - 8 * (size_t)(4 - held.returns) + (is_open ? 16 * drawn : 0);
}

/* In version 2 what is saved of a device has these numbers, too, and more; also where there is less
 * room. It is restored. */
static void is_summed(dvg *device, const uint8_t *first, size_t size)
{
    size_t whole = size + DVG_SAVED_OVER_BYTES, room = below((uint32_t)whole);
    uint8_t *bytes = malloc(whole + 1), *less = malloc(room + 1);
    if (bytes == NULL || less == NULL) {
        exit(2);
    }
    bytes[whole] = less[room] = 0xA5;
    expect(dvg_save_over(device, 7, NULL, 0) == whole
               && dvg_save_over(device, 7, bytes, whole) == whole && bytes[whole] == 0xA5
               && memcmp(bytes + 8, first + 8, size - 8) == 0 && bytes[2] == first[2]
               && dvg_saved_number(bytes + whole - 16) == 0
               && dvg_saved_number(bytes + whole - 8) == dvg_digest(bytes, whole - 8),
           "in version 2 a generator has no ROM, and a sum");
    expect(dvg_save_over(device, 7, less, room) == whole && less[room] == 0xA5
               && dvg_saved_fault_of(dvg_restore(device, less, room)) == DVG_SAVED_FAULT_BROKEN,
           "what has less room is no state");
    expect(dvg_restore_over(device, 8, bytes, whole).kind == DVG_OPENED, "it is restored");
    free(bytes);
    free(less);
}

static void test_generator(dvg *one, dvg *other)
{
    size_t size, again;
    uint8_t *bytes, *copy;
    bool wraps = seed % 3 == 0;
    chance = seed * 0x9E3779B97F4A7C15u;
    fill_memory();
    wraps ? dvg_open_wrapping(one) : dvg_open_generator(one);
    for (uint32_t left = below(MOST_BEFORE); left > 0; left--) {
        go_on(one, below(300) == 0);
    }
    bytes = save(one, &size);
    expect(is_as_long(one, size), "a state is as long as the header says");
    expect(dvg_saved_as(bytes, size) == (wraps ? DVG_SAVED_WRAPPING : DVG_SAVED_GENERATOR),
           "and tells whether the stack wraps");
    expect(dvg_restore(other, bytes, size).kind == DVG_OPENED, "a saved state is restored");
    expect(dvg_strokes(other) == 0, "with no strokes of a finished run");
    is_summed(other, bytes, size);
    copy = save(other, &again);
    expect(again == size && memcmp(bytes, copy, size) == 0, "and saved as the same bytes");
    expect(go_on_alike(one, other), "both go on alike");
    if (seed % 16 == 0 && size < 400) {
        try_changed(other, bytes, size);
        try_broken(other);
    }
    try_random(other);
    free(bytes);
    free(copy);
}

/* --- Strokes that are taken --- */

/* The strokes that were taken of a run, in order, and of how many finished runs any were. */
static dvg_stroke taken[MOST_AFTER];
static uint64_t taken_count = 0;
static unsigned long runs_taken_of = 0;

static void take(void *context, dvg_stroke stroke)
{
    expect(context == taken && taken_count < MOST_AFTER, "strokes are handed out");
    taken[taken_count++ % MOST_AFTER] = stroke;
}

/* Whether what was taken of one and what it drew since is what the other drew. */
static bool drew_alike(dvg *one, dvg *other)
{
    bool same = taken_count + dvg_strokes(one) == dvg_strokes(other);
    for (uint64_t i = 0; i < dvg_strokes(other) && same; i++) {
        same = same_stroke(i < taken_count ? taken[i] : dvg_stroke_at(one, i - taken_count),
                           dvg_stroke_at(other, i));
    }
    runs_taken_of += taken_count > 0;
    return same;
}

/* Two generators go on alike, of which one has its strokes taken now and then. */
static void test_taken(dvg *one, dvg *other)
{
    bool same = true;
    fill_memory();
    seed % 3 == 0 ? dvg_open_wrapping(one) : dvg_open_generator(one);
    seed % 3 == 0 ? dvg_open_wrapping(other) : dvg_open_generator(other);
    for (int left = MOST_AFTER; left > 0 && same; left--) {
        bool hole = below(200) == 0;
        uint64_t before = taken_count;
        dvg_kind kind = go_on(one, hole).kind;
        same = go_on(other, hole).kind == kind && stand_alike(one, other, memory[below(8192)]);
        if (kind == DVG_STARTED) {
            before = taken_count = 0;
        }
        same = same && (kind != DVG_DONE || drew_alike(one, other));
        if (below(9) == 0) {
            same = dvg_take_strokes(one, take, taken) == taken_count - before && same;
        }
    }
    expect(same, "a run goes on whose strokes are taken, and draws the same");
}

/* What is no generator has no state, and a restored one takes the place of what was open. */
static void test_others(dvg *one, dvg *other)
{
    static const uint8_t rom[DVG_ROM_BYTES];
    uint8_t bytes[DVG_SAVED_BYTES] = {0};
    expect(dvg_save(one, bytes, sizeof bytes) == 0, "where nothing is open, there is no state");
    expect(dvg_restore(one, bytes, 0).kind == DVG_NO_STATE, "no bytes are no state");
    expect(dvg_tick(one).kind == DVG_CLOSED, "and nothing opens");
    dvg_open_judge(one);
    expect(dvg_save(one, bytes, sizeof bytes) == 0, "a judge isn't saved");
    dvg_open_world(one, NULL, rom, sizeof rom);
    dvg_open_wrapping(other);
    expect(dvg_save(other, bytes, sizeof bytes) == 56, "one whose stack wraps has 56 bytes");
    bytes[2] = 'G';
    expect(dvg_restore(one, bytes, 56).kind == DVG_OPENED, "four open calls have these, too");
    bytes[2] = 'R';
    dvg_saved_put(bytes, 40, 0, dvg_saved_head(DVG_SAVED_WRAPPING, 4));
    expect(dvg_restore(one, bytes, 40).kind == DVG_NO_STATE, "three registers are too few");
    expect(dvg_take_strokes(other, NULL, NULL) == 0, "without a run there are no strokes to take");
    dvg_open_generator(other);
    expect(dvg_save(other, bytes, sizeof bytes) == 24, "a new generator has 24 bytes");
    expect(dvg_restore(one, bytes, 24).kind == DVG_OPENED, "they are restored where a world is");
    expect(dvg_tick(one).kind == DVG_UNKNOWN && dvg_wants(one).kind == DVG_STILL,
           "and a generator takes its place");
}

/* Chance gives the numbers of its generator from 1979 on: of others hardly anything is tried. */
static void test_chance(void)
{
    static const uint32_t wanted[] = {0xD59015AD, 0xF509DA73, 0xC611C2A4};
    chance = 1979;
    for (size_t i = 0; i < 3; i++) {
        expect(random_word() == wanted[i], "a number of chance");
    }
    chance = 1979;
    expect(below(1000) == 741, "a number of chance below 1,000");
}

int main(int count, char **words)
{
    dvg *one = NULL, *other = NULL;
    if (count != 3) {
        fprintf(stderr, "usage: save COUNT SEED\n");
        return 64;
    }
    if (dvg_new(&one) != 0 || dvg_new(&other) != 0) {
        return 2;
    }
    test_chance();
    test_others(one, other);
    seed = strtoull(words[2], NULL, 10);
    for (unsigned long left = strtoul(words[1], NULL, 10); left > 0; left--, seed++) {
        test_generator(one, other);
        test_taken(one, other);
    }
    expect(runs_taken_of > 0, "strokes are taken of some run that comes to a HALT");
    dvg_free(one);
    dvg_free(other);
    printf("%lu passed, %lu failed\n", passed, failed);
    return failed == 0 ? 0 : 1;
}

#endif
