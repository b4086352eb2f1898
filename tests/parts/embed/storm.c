/* Asks a device random requests, sensible ones and others, and its plain twin the same ones: each
 * answer must be equal.
 *
 *   storm COUNT SEED
 *
 * Storm number i, from 0, comes from SEED + i alone. A storm begins with nothing open, with a
 * world, with a driver, with a generator, with a judge or with a generator whose stack wraps, by
 * turns. The first line of what is
 * written says how often each kind of answer came, and the last is 'N passed, M failed'.
 *
 * With IS_FUZZED it has no main: clang's libFuzzer hands it bytes, and both are asked the numbers
 * that these are (tests/fuzz).
 *
 * It is linked with the archive of the port and with the twin, twin/src/port.rs, and compiled
 * with a sanitizer: then what a device does with memory is watched, too.
 */

/* Here a dvg is a pair, and what the header calls dvg_turn asks both of it. */
#define dvg_turn pair_turn
#include "dvg.h"
#undef dvg_turn

#include <inttypes.h>
#include <stdio.h>
#include <stdlib.h>
#include <string.h>

/* How many blows a storm has: each is some requests. */
#define BLOWS 400

struct dvg {
    void *proved;
    void *plain;
};

uint64_t dvg_turn(void *device, uint64_t request);
uint32_t plain_new(void **out);
uint64_t plain_turn(void *device, uint64_t request);
void plain_free(void *device);

/* How often each kind of answer came, and whether the answers of this storm were equal. */
static unsigned long kinds[256];
static unsigned long requests = 0;
static bool equal = true;

/* Whether these answers to a request are the same. Of a driver that was just reset nothing says
 * which half is the current one, and which is the other. */
static bool are_same(uint64_t request, uint64_t proved, uint64_t plain)
{
    uint64_t halves = (uint64_t)5 << 16;
    bool is_reset = (request & 0xFF) == DVG_REQUEST_DRIVER && (proved & 0xFFFF) == DVG_DRIVER;
    return is_reset ? (proved | halves) == (plain | halves) : proved == plain;
}

/* Asks both of a pair. The answer is that of the first. */
uint64_t pair_turn(dvg *pair, uint64_t request)
{
    uint64_t proved = dvg_turn(pair->proved, request);
    uint64_t plain = plain_turn(pair->plain, request);
    uint64_t code = request & 0xFF;
    requests++;
    if ((code < DVG_REQUEST_STROKES || code > DVG_REQUEST_STROKE_INTENSITY)
        && code != DVG_REQUEST_MOVE_TO && code != DVG_REQUEST_BEAM
        && code != DVG_REQUEST_OPERATION) {
        kinds[proved & 0xFF]++;
    }
    if (!are_same(request, proved, plain) && equal) {
        equal = false;
        printf("FAILED: request %" PRIx64 " is answered %" PRIx64 ", and by the twin %" PRIx64 "\n",
               request, proved, plain);
    }
    return proved;
}

/* --- Chance --- */

/* A linear congruential generator (Knuth's MMIX constants), of which the high bits are used. */
static uint64_t chance = 0;

static uint32_t random_word(void)
{
    chance = chance * 6364136223846793005u + 1442695040888963407u;
    return (uint32_t)(chance >> 32);
}

/* A number below `limit`. */
static int below(int limit)
{
    return (int)(random_word() % (uint32_t)limit);
}

/* A number from `least` to `most`; seldom one just outside, or any at all. */
static int about(int least, int most)
{
    switch (below(200)) {
    case 0: return least - 1;
    case 1: return most + 1;
    case 2: return (int)(random_word() >> 1) * (below(2) == 0 ? 1 : -1);
    default: return least + below(most - least + 1);
    }
}

static uint8_t random_byte(void)
{
    return (uint8_t)below(256);
}

/* --- What a storm is over --- */

/* A memory of 4,096 words, of which a world or a driver gets the RAM and the ROM, and a generator
 * all. */
static uint8_t memory[8192];

/* A random instruction's first word, and its second one. Jumps and calls go anywhere; HALT and RTSL
 * are often. */
static uint32_t random_words(void)
{
    uint32_t words = random_word();
    static const uint16_t tops[] = {0x0, 0x4, 0x9, 0xA, 0xB, 0xC, 0xD, 0xD, 0xE, 0xF, 0xF};
    return (words & 0x0FFFFFFF) | (uint32_t)tops[below(11)] << 28;
}

/* Fills the memory with instructions, and seldom with anything. */
static void fill_memory(void)
{
    for (size_t i = 0; i < sizeof memory; i += 4) {
        uint32_t words = below(16) == 0 ? random_word() : random_words();
        memory[i] = (uint8_t)(words >> 16 & 0xFF);
        memory[i + 1] = (uint8_t)(words >> 24);
        memory[i + 2] = (uint8_t)(words & 0xFF);
        memory[i + 3] = (uint8_t)(words >> 8 & 0xFF);
    }
}

/* Fills the ROM with short vectors and returns, so that calls of it may be drawn. */
static void fill_rom(void)
{
    for (size_t i = 0x800; i < 0x1800; i += 2) {
        uint16_t word = below(6) == 0 ? 0xD000 : (uint16_t)(0xF000 | below(0x1000));
        memory[i] = (uint8_t)(word & 0xFF);
        memory[i + 1] = (uint8_t)(word >> 8);
    }
    memory[0x17FF] = 0xD0;
}

/* --- Requests --- */

/* What was opened last: nothing, a world, a driver, a generator, a judge or a generator whose stack
 * wraps. */
static int opened = 0;

/* Opens something. */
static void open_part(dvg *pair, int part)
{
    dvg_answer answer;
    size_t length = below(2) == 0 ? DVG_ROM_BYTES : DVG_LARGE_ROM_BYTES;
    const uint8_t *rom = memory + 0x1800 - length;
    if (below(12) == 0) {
        length = (size_t)below(7000);
        rom = memory;
    }
    switch (part) {
    case 0: answer = dvg_shut(pair); break;
    case 1:
        answer = dvg_open_world(pair, below(2) == 0 ? NULL : memory + below(6144), rom, length);
        break;
    case 2: answer = dvg_open_driver(pair, rom, length); break;
    case 3: answer = dvg_open_generator(pair); break;
    case 5: answer = dvg_open_wrapping(pair); break;
    default: answer = dvg_open_judge(pair); break;
    }
    if (answer.kind == DVG_OPENED || answer.kind == DVG_CLOSED) {
        opened = part;
    }
}

/* Adds an operation. There are `count` in all. */
static void push_random(dvg *pair, int count)
{
    switch (below(24)) {
    case 0: dvg_labs(pair, about(0, 4095), about(0, 4095), about(0, 15)); break;
    case 1: dvg_call(pair, about(0, count - 1)); break;
    case 2: dvg_jump(pair, about(0, count - 1)); break;
    case 3: dvg_call_rom(pair, about(0x800, 0xBFF)); break;
    case 4: dvg_call_rom(pair, about(0x400, 0xBFF)); break;
    case 5: dvg_jump_rom(pair, about(0x800, 0xFFF)); break;
    case 6: dvg_return(pair); break;
    case 7: dvg_halt(pair); break;
    case 8:
    case 9:
    case 10:
    case 11:
    case 12:
        dvg_vctr(pair, about(0, 9), about(-1023, 1023), about(-1023, 1023), about(0, 15));
        break;
    default: dvg_svec(pair, about(2, 5), about(-3, 3), about(-3, 3), about(0, 15)); break;
    }
}

/* Makes a draft, mostly one that may be drawn, and offers it. */
static void offer_random(dvg *pair)
{
    int count = below(40) == 0 ? 480 + below(60) : 2 + below(20);
    bool wild = below(3) == 0;
    if (below(20) != 0) {
        dvg_clear(pair);
    }
    if (below(30) != 0) {
        dvg_labs(pair, below(4096), below(4096), below(16));
    }
    for (int i = 1; i < count - 2; i++) {
        if (wild) {
            push_random(pair, count);
        } else if (below(8) == 0) {
            dvg_call(pair, count - 1);
        } else {
            dvg_svec(pair, 2 + below(4), below(7) - 3, below(7) - 3, below(16));
        }
    }
    if (below(30) != 0) {
        dvg_halt(pair);
        dvg_return(pair);
    }
    dvg_offer(pair);
}

/* Asks which moves a byte and a hole make, where they end, and what the generator holds. */
static void ask_moves(dvg *pair, uint8_t byte)
{
    dvg_move move;
    dvg_held held;
    dvg_generator_move(pair, byte, &move);
    pair_turn(pair, DVG_REQUEST_MOVE_TO | (uint64_t)byte << 16);
    pair_turn(pair, DVG_REQUEST_MOVE | 0x100 | (uint64_t)byte << 16);
    pair_turn(pair, DVG_REQUEST_MOVE_TO | 0x100);
    if (dvg_held_by(pair, &held).kind == DVG_HOLDS) {
        for (int i = 0; i <= held.returns; i++) {
            dvg_return_to(pair, (uint8_t)i);
        }
    }
    dvg_return_to(pair, random_byte());
}

/* Whether an answer to a fetch says which byte is wanted next, as dvg_wants says it. Only a
 * generator alone does, where its run goes on. */
static void expect_next(dvg_answer answer, dvg_answer wanted)
{
    bool goes_on = answer.kind == DVG_LOW || answer.kind == DVG_FETCHED;
    bool told = wanted.kind == DVG_WANTED && goes_on;
    if (answer.next != (told ? 2 * wanted.address + wanted.value : -1) && equal) {
        equal = false;
        printf("FAILED: next is %d, where %d is wanted, after %s\n", (int)answer.next,
               2 * wanted.address + wanted.value, dvg_kind_text(answer.kind));
    }
}

/* Lets the generator fetch this many times: from the memory, and seldom something else. */
static void fetch_often(dvg *pair, int count)
{
    dvg_answer wanted = dvg_wants(pair);
    for (; count > 0; count--) {
        dvg_answer answer;
        if (below(4) == 0) {
            ask_moves(pair, wanted.kind == DVG_WANTED && below(8) != 0
                                ? memory[2 * wanted.address + wanted.value] : random_byte());
        }
        if (wanted.kind != DVG_WANTED) {
            answer = dvg_fetch(pair);
        } else if (below(500) == 0) {
            answer = dvg_generator_hole(pair);
        } else if (below(100) == 0) {
            answer = dvg_generator_fetch(pair, random_byte());
        } else {
            answer = dvg_generator_fetch(pair, memory[2 * wanted.address + wanted.value]);
        }
        wanted = dvg_wants(pair);
        expect_next(answer, wanted);
    }
}

/* Lets the driver tick this many times. */
static void tick_often(dvg *pair, int count)
{
    bool halted = below(4) != 0;
    uint8_t byte1 = below(3) == 0 ? random_byte() : 0xE2;
    for (; count > 0; count--) {
        dvg_driver_tick(pair, halted, byte1);
    }
}

/* Asks for bytes of the RAM, at addresses that it has and others. */
static void ask_bytes(dvg *pair)
{
    for (int count = below(20); count > 0; count--) {
        dvg_ram_byte(pair, (uint16_t)about(0, 2047));
    }
    pair_turn(pair, (uint64_t)random_word() << 32 | (random_word() << 8) | DVG_REQUEST_BYTE);
}

/* Asks for the strokes, the one after the last, and some that aren't there. */
static void ask_strokes(dvg *pair)
{
    uint64_t count = dvg_strokes(pair);
    for (uint64_t i = 0; i <= count && i < 20; i++) {
        dvg_stroke_at(pair, i);
    }
    dvg_stroke_at(pair, count);
    dvg_stroke_at(pair, (uint64_t)random_word() << 32 | random_word());
}

/* What was saved last in this storm. */
static uint8_t saved[16384];
static size_t saved_size = 0;

/* Restores bytes. What is open then is a generator, or the world that was open. */
static void restore(dvg *pair, const uint8_t *bytes)
{
    if (dvg_restore(pair, bytes, saved_size).kind == DVG_OPENED) {
        opened = dvg_saved_as(bytes, saved_size) == DVG_SAVED_WORLD ? 1 : 3;
    }
}

/* Saves a state, or restores one, as it was saved or with a bit changed. */
static void save_or_restore(dvg *pair)
{
    uint8_t changed[sizeof saved];
    size_t size;
    switch (below(5)) {
    case 0:
    case 1:
        size = dvg_save(pair, saved, sizeof saved);
        saved_size = size > sizeof saved ? 0 : size;
        break;
    case 2:
        restore(pair, saved);
        break;
    case 3:
        memcpy(changed, saved, sizeof saved);
        if (saved_size > 0) {
            size = below(2) == 0 && saved_size > 400 ? saved_size - (size_t)below(400) - 1
                                                     : (size_t)below((int)saved_size);
            changed[size] ^= (uint8_t)(1 << below(8));
        }
        restore(pair, changed);
        break;
    default:
        size = dvg_save(pair, changed, (size_t)below(4096));
        break;
    }
}

/* Has a world go on with a random driver: staged, pushed and told is what was before, or a RAM and
 * a frame that suit. */
static void resume_world(dvg *pair)
{
    uint64_t fields = (uint64_t)below(8) << 8 | (uint64_t)below(16) << 16
                      | (uint64_t)(below(4) == 0 ? random_word() : (uint32_t)below(30)) << 24;
    if (below(4) != 0) {
        dvg_stage_ram(pair, below(2) == 0 ? NULL : memory);
    }
    if (below(2) == 0) {
        dvg_clear(pair);
        dvg_labs(pair, below(4096), below(4096), below(16));
        dvg_vctr(pair, below(10), below(100), below(100), below(16));
        dvg_halt(pair);
    }
    if (below(8) == 0) {
        fields = (uint64_t)random_word() << 32 | (random_word() & 0xFFFFFF00);
    }
    pair_turn(pair, DVG_REQUEST_RESUME_WORLD | fields);
    pair_turn(pair, DVG_REQUEST_DRIVER);
    pair_turn(pair, DVG_REQUEST_OPERATION | (uint64_t)below(4) << 8);
}

/* Tells parts of a state, mostly such as suit, and seldom resumes. */
static void tell_parts(dvg *pair)
{
    for (int count = below(8); count > 0; count--) {
        uint64_t place = (uint64_t)about(0, 0x1FFFFF) << 16 | (uint64_t)about(0, 0x1FFFFF) << 38;
        int kind = below(below(20) == 0 ? 256 : 4);
        uint64_t fields = kind == 0 ? (uint64_t)random_word() << 38
                                          | (uint64_t)about(0, 4095) << 16
                          : kind == 1 ? (uint64_t)about(0, 4095) << 16
                                      : place | (uint64_t)below(16) << 60;
        pair_turn(pair, DVG_REQUEST_TELL_STATE | (uint64_t)kind << 8 | fields);
    }
    uint64_t resume = below(2) == 0 ? DVG_REQUEST_RESUME : DVG_REQUEST_RESUME_WRAPPING;
    if (below(4) == 0 && dvg_ask(pair, resume).kind == DVG_OPENED) {
        opened = 3;
    }
}

/* Stages something, or takes it away. */
static void stage_random(dvg *pair)
{
    switch (below(4)) {
    case 0: dvg_unstage(pair); break;
    case 1: dvg_stage_byte(pair, random_byte(), (uint16_t)random_word()); break;
    case 2: dvg_stage_byte(pair, random_byte(), DVG_RAM_BYTES); break;
    default: dvg_stage_bytes(pair, memory, (size_t)below(100)); break;
    }
    if (below(3) == 0) {
        dvg_ask(pair, DVG_REQUEST_RESET_ALL + (uint64_t)below(8));
    }
}

/* Tells a judge of a few lines, of few bytes: so a run reads and writes the same ones. */
static void tell_lines(dvg *pair, int count)
{
    for (; count > 0; count--) {
        uint16_t word = (uint16_t)(below(40) == 0 ? random_word() : (uint32_t)below(5));
        uint16_t value = (uint16_t)(below(3) + 0x100 * below(3));
        switch (below(16)) {
        case 0: dvg_judge_started(pair); break;
        case 1: dvg_judge_done(pair, word, value); break;
        case 2:
        case 3: dvg_judge_low(pair, word, (uint8_t)value); break;
        case 4:
        case 5:
        case 6: dvg_judge_fetched(pair, word, value); break;
        case 7: dvg_judge_line(pair, (dvg_kind)below(below(4) == 0 ? 256 : 20), word, value); break;
        case 8:
            pair_turn(pair, (uint64_t)(DVG_REQUEST_RESET_GENERATOR + below(3))
                                | (uint64_t)word << 8);
            break;
        default: dvg_judge_wrote(pair, (uint16_t)(2 * word + below(2)), (uint8_t)value); break;
        }
    }
}

/* What mostly happens, by what is open. */
static void blow_as_usual(dvg *pair)
{
    int choice = below(6);
    bool has_driver = opened == 1 || opened == 2;
    if (opened == 4) {
        tell_lines(pair, 1 + below(40));
        return;
    }
    if (choice == 0 || (choice == 1 && opened == 2)) {
        offer_random(pair);
    } else if (choice == 1) {
        dvg_strobe(pair);
    } else if (has_driver && (choice < 4 || opened == 2)) {
        tick_often(pair, 1 + below(below(4) == 0 ? 1100 : 60));
    } else {
        fetch_often(pair, 1 + below(80));
    }
}

/* Some requests. */
static void blow(dvg *pair)
{
    switch (below(64)) {
    case 0: open_part(pair, below(6)); break;
    case 1: dvg_reset_all(pair, below(2) == 0 ? NULL : memory); break;
    case 2: dvg_reset_generator(pair); break;
    case 3: dvg_reset_processor(pair); break;
    case 4: stage_random(pair); break;
    case 5: dvg_offer(pair); break;
    case 6: push_random(pair, 20); break;
    case 7:
    case 8: dvg_redraw(pair); break;
    case 9:
    case 10: ask_strokes(pair); break;
    case 16: ask_bytes(pair); break;
    case 11:
    case 12: pair_turn(pair, (uint64_t)random_word() << 32 | random_word()); break;
    case 13:
        pair_turn(pair, (uint64_t)random_word() << 32 | (random_word() & 0xFFFFFF00)
                            | (uint64_t)below(39));
        break;
    case 14: save_or_restore(pair); break;
    case 15: tell_parts(pair); break;
    case 17: resume_world(pair); break;
    default: blow_as_usual(pair); break;
    }
}

/* Makes both of a pair. Whether there was memory for them. */
static bool make_pair(dvg *pair)
{
    return dvg_new((dvg **)&pair->proved) == 0 && plain_new(&pair->plain) == 0;
}

static void free_pair(dvg *pair)
{
    dvg_free((dvg *)pair->proved);
    plain_free(pair->plain);
}

#ifdef IS_FUZZED

/* The most requests that are asked for one input, and the code of a number that is none: it has the
 * number before it asked again, as often as the byte above says. */
#define MOST_REQUESTS 4096
#define AGAIN 0xFF

/* Asks a pair the numbers that the bytes are, eight each, the low byte first. */
int LLVMFuzzerTestOneInput(const uint8_t *data, size_t size)
{
    dvg pair = {NULL, NULL};
    uint64_t number = 0;
    int left = MOST_REQUESTS;
    equal = true;
    if (!make_pair(&pair)) {
        exit(2);
    }
    for (size_t at = 0; at + 8 <= size && left > 0; at += 8) {
        uint64_t here = dvg_saved_number(data + at);
        int count = (here & 0xFF) == AGAIN ? (int)(here >> 8 & 0xFF) : 1;
        number = (here & 0xFF) == AGAIN ? number : here;
        for (; count > 0 && left > 0; count--, left--) {
            pair_turn(&pair, number);
        }
    }
    free_pair(&pair);
    if (!equal) {
        abort();
    }
    return 0;
}

#else

/* One storm. Whether the answers were equal. */
static bool storm(uint64_t seed)
{
    dvg pair = {NULL, NULL};
    chance = seed * 0x9E3779B97F4A7C15u;
    equal = true;
    opened = 0;
    saved_size = 0;
    fill_memory();
    if (below(4) != 0) {
        fill_rom();
    }
    if (!make_pair(&pair)) {
        printf("FAILED: no device was made\n");
        return false;
    }
    if (seed % 6 != 0) {
        open_part(&pair, (int)(seed % 6));
    }
    for (int i = 0; i < BLOWS && equal; i++) {
        blow(&pair);
    }
    free_pair(&pair);
    if (!equal) {
        printf("  in the storm of seed %" PRIu64 "\n", seed);
    }
    return equal;
}

/* Whether each kind of answer came that can come. */
static bool all_kinds_came(void)
{
    bool all = true;
    for (int kind = DVG_OFFERED; kind <= DVG_DRIVER; kind++) {
        if (kinds[kind] == 0) {
            printf("FAILED: no request was answered %d\n", kind);
            all = false;
        }
    }
    return all;
}

int main(int count, char **words)
{
    unsigned long passed = 0, failed = 0;
    if (count != 3) {
        fprintf(stderr, "usage: storm COUNT SEED\n");
        return 64;
    }
    uint64_t seed = strtoull(words[2], NULL, 10);
    for (unsigned long storms = strtoul(words[1], NULL, 10); storms > 0; storms--, seed++) {
        if (storm(seed)) {
            passed++;
        } else {
            failed++;
        }
    }
    printf("%lu requests;", requests);
    for (int kind = 0; kind < 256; kind++) {
        if (kinds[kind] != 0) {
            printf(" %d: %lu", kind, kinds[kind]);
        }
    }
    printf("\n");
    if (all_kinds_came()) {
        passed++;
    } else {
        failed++;
    }
    printf("%lu passed, %lu failed\n", passed, failed);
    return failed == 0 ? 0 : 1;
}

#endif
