/* Tests the functions of include/dvg.h alone: which numbers each asks for, and how answers are
 * taken apart. The numbers stand here once more, by hand: a field in the wrong place compiles, too.
 *
 * It is linked with nothing. The last line of what is written is 'N passed, M failed'.
 */

/* What the header calls dvg_turn is here. */
#define dvg_turn noted_turn
#include "dvg.h"
#include "dvg_heap.h"

#include <inttypes.h>
#include <limits.h>
#include <stdio.h>
#include <string.h>

/* The most requests of a call. */
#define MOST 2100

/* The requests since the last test, in order, and what each is answered. */
static uint64_t noted[MOST];
static int count = 0;
static uint64_t answers[MOST];

uint64_t noted_turn(dvg *device, uint64_t request)
{
    (void)device;
    if (count == MOST) {
        return DVG_UNKNOWN;
    }
    noted[count] = request;
    return answers[count++];
}

static int passed = 0;
static int failed = 0;

static void expect(bool holds, const char *what)
{
    if (holds) {
        passed++;
    } else {
        failed++;
        printf("FAILED: %s\n", what);
    }
    count = 0;
    memset(answers, 0, sizeof answers);
}

/* Whether a call asked one request, this one. */
static void expect_one(uint64_t request, const char *what)
{
    if (count == 1 && noted[0] != request) {
        printf("  %016" PRIx64 " is asked, and %016" PRIx64 " is wanted\n", noted[0], request);
    }
    expect(count == 1 && noted[0] == request, what);
}

/* The call is made, and must have asked this one request. */
#define ASKS(request, call) ((void)(call), expect_one(request, #call))

/* Whether a call asked an operation of no kind. */
#define REFUSED(call) ((void)(call), expect(count == 1 && (noted[0] & 0xFFFF) == 0xFF08, #call))

static void test_events(dvg *none)
{
    ASKS(0, dvg_offer(none));
    ASKS(1, dvg_redraw(none));
    ASKS(2, dvg_tick(none));
    ASKS(0x000102, dvg_driver_tick(none, true, 0));
    ASKS(0xE20002, dvg_driver_tick(none, false, 0xE2));
    ASKS(0xFF0102, dvg_driver_tick(none, true, 0xFF));
    ASKS(3, dvg_strobe(none));
    ASKS(4, dvg_fetch(none));
    ASKS(0xB00004, dvg_generator_fetch(none, 0xB0));
    ASKS(0x000104, dvg_generator_hole(none));
    ASKS(5, dvg_reset_generator(none));
    ASKS(6, dvg_reset_processor(none));
    ASKS(14, dvg_open_generator(none));
    ASKS(30, dvg_open_wrapping(none));
    ASKS(15, dvg_shut(none));
    ASKS(16, dvg_wants(none));
    ASKS(0x7FF1F, dvg_ram_byte(none, 0x7FF));
    ASKS(0xFFFF1F, dvg_ram_byte(none, 0xFFFF));
}

static void test_judge(dvg *none)
{
    dvg_answer low = {DVG_LOW, 0xABC, 0xEF, -1};
    ASKS(21, dvg_open_judge(none));
    ASKS(0x0A16, dvg_judge_started(none));
    ASKS(0x00A507FF0616, dvg_judge_wrote(none, 0x7FF, 0xA5));
    ASKS(0x00EF0ABC0C16, dvg_judge_low(none, 0xABC, 0xEF));
    ASKS(0x00EF0ABC0C16, dvg_judge_answer(none, low));
    ASKS(0xE2010FFF0D16, dvg_judge_fetched(none, 0xFFF, 0xE201));
    ASKS(0xB00002050E16, dvg_judge_done(none, 0x205, 0xB000));
    ASKS(0xFFFFFFFFFF16, dvg_judge_line(none, (dvg_kind)255, 0xFFFF, 0xFFFF));
    ASKS(7, dvg_judge_reset(none));
}

static void test_operations(dvg *none)
{
    ASKS(9, dvg_clear(none));
    ASKS(0x0064FF9C07090008, dvg_vctr(none, 9, -100, 100, 7));
    ASKS(0xFC0103FF0F000008, dvg_vctr(none, 0, 1023, -1023, 15));
    ASKS(0xFFFD000201050108, dvg_svec(none, 5, 2, -3, 1));
    ASKS(0x0190020000030208, dvg_labs(none, 512, 400, 3));
    ASKS(0x0FFF0000000F0208, dvg_labs(none, 0, 4095, 15));
    ASKS(0x0000FFFF00000308, dvg_call(none, 65535));
    ASKS(0x0000000300000408, dvg_jump(none, 3));
    ASKS(0x0000080000000508, dvg_call_rom(none, 0x800));
    ASKS(0x00000BFF00000608, dvg_jump_rom(none, 0xBFF));
    ASKS(0x0000000000000708, dvg_return(none));
    ASKS(0x0000000000000808, dvg_halt(none));
    /* Fields that fit, and are out of range, go through: the device judges them. */
    ASKS(0x000000000A0A0008 | (uint64_t)1024 << 32, dvg_vctr(none, 10, 1024, 0, 10));
    REFUSED(dvg_vctr(none, 256 + 9, 0, 0, 7));
    REFUSED(dvg_vctr(none, -1, 0, 0, 7));
    REFUSED(dvg_vctr(none, 9, 0x10000, 0, 7));
    REFUSED(dvg_vctr(none, 9, 0, -0x8001, 7));
    REFUSED(dvg_vctr(none, 9, 0, 0, 256));
    REFUSED(dvg_vctr(none, 9, INT_MIN, INT_MAX, 0));
    REFUSED(dvg_svec(none, 2, 0x8000, 0, 7));
    REFUSED(dvg_svec(none, 2, 0, 0, -1));
    REFUSED(dvg_labs(none, -1, 0, 0));
    REFUSED(dvg_labs(none, 0, 0x10000, 0));
    REFUSED(dvg_labs(none, 0, 0, 256));
    REFUSED(dvg_call(none, -1));
    REFUSED(dvg_jump(none, 65536));
    REFUSED(dvg_call_rom(none, 0x10800));
    REFUSED(dvg_jump_rom(none, INT_MIN));
}

/* Has the next this many requests answered by these kinds. */
static void answer(int number, const int *kinds)
{
    for (int i = 0; i < number; i++) {
        answers[i] = (uint64_t)kinds[i];
    }
}

/* Whether these were the requests of the last call, and this the kind of its answer. */
static void expect_all(dvg_answer got, dvg_kind kind, int number, const uint64_t *wanted,
                       const char *what)
{
    expect(got.kind == kind && count == number
               && memcmp(noted, wanted, (size_t)number * sizeof *wanted) == 0,
           what);
}

static void test_staging(dvg *none)
{
    static const uint8_t bytes[] = {7, 7, 7, 0, 9};
    static const uint8_t ram[DVG_RAM_BYTES] = {0};
    static const int staged[] = {DVG_STAGED, DVG_STAGED, DVG_STAGED, DVG_STAGED};
    static const int full[] = {DVG_STAGED, DVG_STAGED, DVG_FULL};
    static const int opened[] = {DVG_CLEARED, DVG_STAGED, DVG_STAGED,
                                 DVG_STAGED,  DVG_OPENED, DVG_CLEARED};
    static const int wrong[] = {DVG_CLEARED, DVG_STAGED, DVG_CLEARED};
    static const int none_left[] = {DVG_CLEARED, DVG_NO_MEMORY, DVG_CLEARED};
    static const int driver[] = {DVG_CLEARED, DVG_STAGED, DVG_STAGED, DVG_WRONG_SIZE, DVG_CLEARED};
    static const int reset[] = {DVG_CLEARED, DVG_STAGED, DVG_STAGED, DVG_CLEARED, DVG_CLEARED};
    static const uint64_t runs[] = {10, 0x307000A, 0x100000A, 0x109000A};
    static const uint64_t world[] = {11, 0x80000000A, 10, 0x80000000A, 12, 11};
    static const uint64_t refused[] = {11, 0x80000000A, 11};
    static const uint64_t driver_alone[] = {11, 10, 0x80000000A, 13, 11};
    static const uint64_t nothing[] = {11, 11};
    static const uint64_t all[] = {11, 10, 0x80000000A, 7, 11};
    static const uint64_t empty[] = {10};
    ASKS(11, dvg_unstage(none));
    ASKS(0xFFFFAB000A, dvg_stage_byte(none, 0xAB, 0xFFFF));
    answer(1, staged);
    expect_all(dvg_stage_bytes(none, NULL, 0), DVG_STAGED, 1, empty,
               "no bytes are staged from a null pointer");
    answer(4, staged);
    expect_all(dvg_stage_bytes(none, bytes, 5), DVG_STAGED, 4, runs,
               "bytes are staged by their runs");
    answer(3, full);
    expect_all(dvg_stage_bytes(none, bytes, 5), DVG_FULL, 3, runs,
               "staging stops where it is refused");
    answer(6, opened);
    expect_all(dvg_open_world(none, NULL, ram, 2048), DVG_OPENED, 6, world,
               "a world is opened by RAM and then ROM");
    answer(3, wrong);
    expect_all(dvg_open_world(none, NULL, NULL, 6145), DVG_WRONG_SIZE, 3, refused,
               "a ROM of another length is not looked at");
    expect_all(dvg_open_driver(none, NULL, 2047), DVG_WRONG_SIZE, 2, nothing,
               "nor is that of a driver");
    answer(3, none_left);
    expect_all(dvg_open_world(none, NULL, ram, 2048), DVG_NO_MEMORY, 3, refused,
               "refused memory ends an opening");
    answer(5, driver);
    expect_all(dvg_open_driver(none, ram, 2048), DVG_WRONG_SIZE, 5, driver_alone,
               "a driver is opened by its ROM");
    answer(5, reset);
    expect_all(dvg_reset_all(none, ram), DVG_CLEARED, 5, all,
               "a reset of the whole system stages its RAM");
}

static void test_answers(dvg *none)
{
    dvg_answer got = dvg_answer_of(0xB000020E00 + DVG_DONE);
    dvg_stroke stroke;
    expect(got.kind == DVG_DONE && got.address == 0x20E && got.value == 0xB000,
           "an answer is taken apart");
    got = dvg_answer_of(0x0106080101);
    expect(got.kind == DVG_REFUSED && dvg_fault_of(got) == DVG_FAULT_OUT_OF_ROM && dvg_in_rom(got)
               && got.address == 0x801,
           "a refusal at a ROM word");
    got = dvg_answer_of(0x0008000301);
    expect(dvg_fault_of(got) == DVG_FAULT_NO_CALLER && !dvg_in_rom(got) && got.address == 3,
           "a refusal at an operation");
    got = dvg_answer_of(0x0003FFF00F);
    expect(dvg_break_of(got) == DVG_BREAK_HOLE && dvg_fault_of(got) == DVG_FAULT_NONE
               && got.address == 0xFFF0,
           "a broken run");
    expect(dvg_break_of(dvg_answer_of(0x0009000001)) == DVG_BREAK_NONE,
           "a refusal is no broken run");
    expect(dvg_answer_of(0xFF).kind == DVG_NO_MEMORY && dvg_answer_of(0xFE).kind == DVG_UNKNOWN,
           "the last kinds");
    got = dvg_answer_of(0x1013572E0129010D);
    expect(got.kind == DVG_FETCHED && got.address == 0x2901 && got.value == 0x2E01
               && got.next == 0x1357,
           "which byte is wanted next");
    expect(dvg_answer_of(0x0013572E0129010D).next == -1 && dvg_answer_of(DVG_STARTED).next == -1,
           "and that none is told");
    expect(dvg_answer_of(0x1000000000000000 | DVG_STARTED).next == 0, "that of word zero");
    answers[0] = 0x123456789;
    expect(dvg_strokes(none) == 0x123456789 && noted[0] == 17, "the number of strokes");
    answers[0] = 0x0003200000040000;
    answers[1] = 0x001FFFFF00000001;
    answers[2] = 15;
    stroke = dvg_stroke_at(none, 0x102);
    expect(stroke.x0 == 0x40000 && stroke.y0 == 0x32000 && stroke.x1 == 1 && stroke.y1 == 0x1FFFFF
               && stroke.z == 15 && count == 3 && noted[0] == 0x10212 && noted[1] == 0x10213
               && noted[2] == 0x10214,
           "a stroke");
    dvg_stroke_at(none, (uint64_t)1 << 56);
    expect(noted[0] == 0xFFFFFFFFFFFFFF12,
           "a stroke of a number above 56 bits is one that isn't there");
}

/* --- Texts --- */

#define TEXT(function, number, wanted)                                                             \
    expect(strcmp(function(number), wanted) == 0, #number " is " wanted)

static void test_kind_texts(void)
{
    TEXT(dvg_kind_text, DVG_OFFERED, "offered");
    TEXT(dvg_kind_text, DVG_REFUSED, "refused");
    TEXT(dvg_kind_text, DVG_BUSY, "busy");
    TEXT(dvg_kind_text, DVG_ASKED, "asked");
    TEXT(dvg_kind_text, DVG_NOTHING_PUBLISHED, "nothing published");
    TEXT(dvg_kind_text, DVG_PEEK, "peek");
    TEXT(dvg_kind_text, DVG_WROTE, "wrote");
    TEXT(dvg_kind_text, DVG_READ, "read");
    TEXT(dvg_kind_text, DVG_SENT, "sent");
    TEXT(dvg_kind_text, DVG_IDLE, "idle");
    TEXT(dvg_kind_text, DVG_STARTED, "started");
    TEXT(dvg_kind_text, DVG_NO_STROBE, "no strobe");
    TEXT(dvg_kind_text, DVG_LOW, "low");
    TEXT(dvg_kind_text, DVG_FETCHED, "fetched");
    TEXT(dvg_kind_text, DVG_DONE, "done");
    TEXT(dvg_kind_text, DVG_BROKE, "broke");
    TEXT(dvg_kind_text, DVG_STILL, "still");
    TEXT(dvg_kind_text, DVG_CLEARED, "cleared");
    TEXT(dvg_kind_text, DVG_PUSHED, "pushed");
    TEXT(dvg_kind_text, DVG_NO_OPERATION, "no operation");
    TEXT(dvg_kind_text, DVG_FULL, "full");
    TEXT(dvg_kind_text, DVG_STAGED, "staged");
    TEXT(dvg_kind_text, DVG_OPENED, "opened");
    TEXT(dvg_kind_text, DVG_WRONG_SIZE, "wrong size");
    TEXT(dvg_kind_text, DVG_CLOSED, "closed");
    TEXT(dvg_kind_text, DVG_WANTED, "wanted");
    TEXT(dvg_kind_text, DVG_NO_RUN, "no run");
    TEXT(dvg_kind_text, DVG_ONE_MOMENT, "one moment");
    TEXT(dvg_kind_text, DVG_NO_MOMENT, "no moment");
    TEXT(dvg_kind_text, DVG_WHOLE, "whole");
    TEXT(dvg_kind_text, DVG_TORN, "torn");
    TEXT(dvg_kind_text, DVG_MOVES, "moves");
    TEXT(dvg_kind_text, DVG_NOTHING, "nothing");
    TEXT(dvg_kind_text, DVG_HOLDS, "holds");
    TEXT(dvg_kind_text, DVG_RETURNS_TO, "returns to");
    TEXT(dvg_kind_text, DVG_STATE, "state");
    TEXT(dvg_kind_text, DVG_NO_STATE, "no state");
    TEXT(dvg_kind_text, DVG_BYTE, "byte");
    TEXT(dvg_kind_text, DVG_DRIVER, "driver");
    TEXT(dvg_kind_text, DVG_UNKNOWN, "unknown");
    TEXT(dvg_kind_text, DVG_NO_MEMORY, "no memory");
}

static void test_other_texts(void)
{
    TEXT(dvg_fault_text, DVG_FAULT_NONE, "none");
    TEXT(dvg_fault_text, DVG_FAULT_EMPTY, "empty");
    TEXT(dvg_fault_text, DVG_FAULT_NO_LABS, "no labs");
    TEXT(dvg_fault_text, DVG_FAULT_TOO_LONG, "too long");
    TEXT(dvg_fault_text, DVG_FAULT_TARGET, "target");
    TEXT(dvg_fault_text, DVG_FAULT_RUNS_OFF, "runs off");
    TEXT(dvg_fault_text, DVG_FAULT_OUT_OF_ROM, "out of rom");
    TEXT(dvg_fault_text, DVG_FAULT_TOO_DEEP, "too deep");
    TEXT(dvg_fault_text, DVG_FAULT_NO_CALLER, "no caller");
    TEXT(dvg_fault_text, DVG_FAULT_LOOPS, "loops");
    TEXT(dvg_break_text, DVG_BREAK_NONE, "none");
    TEXT(dvg_break_text, DVG_BREAK_STACK_OVER, "fifth call");
    TEXT(dvg_break_text, DVG_BREAK_STACK_UNDER, "return without a call");
    TEXT(dvg_break_text, DVG_BREAK_HOLE, "no memory there");
    /* Whatever number a kind of an answer has, it has a text. */
    bool all = true;
    for (uint64_t number = 0; number < 256; number++) {
        const char *text = dvg_kind_text(dvg_answer_of(number).kind);
        bool named = number <= DVG_DRIVER || number >= DVG_UNKNOWN;
        all = all && text != NULL && (strcmp(text, "no kind") == 0) != named;
    }
    expect(all, "each kind has a text, and a number that is none has 'no kind'");
    all = true;
    for (uint64_t number = 0; number < 16; number++) {
        const char *text = dvg_fault_text(dvg_fault_of(dvg_answer_of(number << 24 | DVG_REFUSED)));
        all = all && text != NULL && (strcmp(text, "no fault") == 0) == (number > DVG_FAULT_LOOPS);
    }
    expect(all, "each fault has a text, and a number that is none has 'no fault'");
}

/* --- Moves --- */

static void test_moves(dvg *none)
{
    dvg_move move = {1, 2, 3, 4, 5, false, 6};
    dvg_held held = {1, 2, 3, true, true, 4, 5};
    answers[0] = DVG_NOTHING;
    expect(dvg_generator_move(none, 0xA5, &move).kind == DVG_NOTHING && count == 1
               && noted[0] == 0xA50017 && move.x0 == 1 && move.address == 6,
           "a byte that makes no move is one request, and writes nothing");
    answers[0] = DVG_MOVES | 0xABC00 | (uint64_t)0xF << 24;
    answers[1] = (uint64_t)0x1FFFFE << 32 | 0x1FFFFF;
    answers[2] = (uint64_t)0x1FFFFC << 32 | 0x1FFFFD;
    expect(dvg_generator_move(none, 0xA5, &move).kind == DVG_MOVES && count == 3
               && noted[1] == 25 && noted[2] == 0xA50018 && move.x0 == 0x1FFFFF
               && move.y0 == 0x1FFFFE && move.x1 == 0x1FFFFD && move.y1 == 0x1FFFFC
               && move.z == 15 && !move.placed && move.address == 0xABC,
           "a move is three");
    answers[0] = DVG_MOVES | (uint64_t)0x100 << 24;
    expect(dvg_generator_move(none, 0, &move).kind == DVG_MOVES && move.z == 0 && move.placed,
           "a LABS places the beam");
    answers[0] = DVG_UNKNOWN;
    expect(dvg_held_by(none, &held).kind == DVG_UNKNOWN && count == 1 && noted[0] == 26
               && held.scale == 3,
           "what isn't a generator holds nothing");
    answers[0] = DVG_HOLDS | 0x123400 | (uint64_t)0x43F << 24;
    answers[1] = (uint64_t)7 << 32 | 9;
    expect(dvg_held_by(none, &held).kind == DVG_HOLDS && count == 2 && noted[1] == 25
               && held.x == 9 && held.y == 7 && held.scale == 15 && held.low && held.second
               && held.first == 0x1234 && held.returns == 4,
           "what a generator holds");
    answers[0] = DVG_HOLDS | (uint64_t)0x10 << 24;
    dvg_held_by(none, &held);
    expect(held.scale == 0 && held.low && !held.second && held.returns == 0, "a low byte alone");
    answers[0] = DVG_HOLDS | (uint64_t)0x20 << 24;
    dvg_held_by(none, &held);
    expect(!held.low && held.second, "a first word alone");
    ASKS(0x31B, dvg_return_to(none, 3));
    answers[0] = 0x0FFFFFFFFFFFFF23;
    expect(!dvg_run_is_open(none) && count == 1 && noted[0] == 28, "a run is over");
    answers[0] = 0x1000000000000023;
    expect(dvg_run_is_open(none), "a run is open");
    answers[0] = 0x10000000000000FE;
    expect(!dvg_run_is_open(none), "what has no run");
    expect(dvg_units(0, 255) == 0 && dvg_units(0, 256) == 1 && dvg_units(256, 0) == -1
               && dvg_units(255, 0) == 0 && dvg_units(2097000, 104) == 1
               && dvg_units(104, 2097000) == -1 && dvg_units(0, 768) == 2
               && dvg_units(0, 1023 * 512) == 1023 && dvg_units(1023 * 512, 0) == -1023,
           "a move in whole units, a half away from zero, also over the edge");
}

/* --- A saved state --- */

/* A state of two parts: its fields, and where its beam is. */
static const uint8_t state_bytes[] = {'D', 'V', 'G', 1, 2, 0, 0, 0, 35, 0, 0x34, 0x02, 1, 0xA0,
                                      0xE2, 0x7C, 35, 2, 0x01, 0, 0x80, 0, 0, 0x04};
static const uint64_t state_parts[] = {0x7CE2A00102340023, 0x0400008000010223, DVG_NOTHING};
static const uint64_t state_answers[] = {DVG_UNKNOWN, DVG_HOLDS, 0x7CE2A00102340023,
                                         0x0400008000010223, DVG_NOTHING};

static void test_saving(dvg *none)
{
    uint8_t bytes[sizeof state_bytes + 1] = {0};
    memcpy(answers, state_answers, sizeof state_answers);
    expect(dvg_save(none, NULL, 0) == 24 && count == 5 && noted[0] == 32 && noted[1] == 26
               && noted[2] == 28 && noted[3] == 0x11C && noted[4] == 0x21C,
           "a state of two parts has 24 bytes");
    memcpy(answers, state_answers, sizeof state_answers);
    expect(dvg_save(none, bytes, 24) == 24 && memcmp(bytes, state_bytes, 24) == 0 && bytes[24] == 0,
           "which are these");
    memcpy(answers, state_answers, sizeof state_answers);
    bytes[16] = 0xA5;
    expect(dvg_save(none, bytes, 23) == 24 && bytes[16] == 0xA5, "less room is told");
    memcpy(answers, state_answers, sizeof state_answers);
    answers[1] |= (uint64_t)0x440 << 24;
    expect(dvg_save(none, bytes, 24) == 24 && bytes[2] == 'R', "a stack that wraps is told");
    answers[0] = answers[1] = answers[2] = DVG_UNKNOWN;
    expect(dvg_save(none, bytes, 24) == 0 && count == 3, "what is no generator isn't saved");
}

static void test_restoring(dvg *none)
{
    static const int whole[] = {DVG_CLEARED, DVG_CLEARED, DVG_OPENED};
    static const int no_memory[] = {DVG_CLEARED, DVG_NO_MEMORY, DVG_CLEARED};
    static const int no_state[] = {DVG_CLEARED, DVG_CLEARED, DVG_NO_STATE, DVG_CLEARED};
    uint8_t bytes[sizeof state_bytes];
    uint64_t parts[] = {state_parts[0], state_parts[1], 29, 35};
    memcpy(bytes, state_bytes, sizeof bytes);
    answer(3, whole);
    expect_all(dvg_restore(none, bytes, 24), DVG_OPENED, 3, parts, "a state is told and resumed");
    answer(4, no_state);
    expect_all(dvg_restore(none, bytes, 24), DVG_NO_STATE, 4, parts, "a refused one is forgotten");
    bytes[2] = 'R';
    parts[2] = 34;
    answer(3, whole);
    expect_all(dvg_restore(none, bytes, 24), DVG_OPENED, 3, parts, "a stack that wraps resumes");
    bytes[2] = 'G';
    parts[2] = 35;
    answer(3, no_memory);
    expect_all(dvg_restore(none, bytes, 24), DVG_NO_MEMORY, 3, parts, "as is one without memory");
    answer(3, no_memory);
    bytes[16] = 14;
    parts[1] = 35;
    expect_all(dvg_restore(none, bytes, 24), DVG_NO_STATE, 2, parts, "another request isn't asked");
    bytes[16] = 35;
    for (size_t at = 0; at < 10; at++) {
        bytes[at] ^= 1;
        expect(dvg_restore(none, bytes, 24).kind == DVG_NO_STATE && count == 0, "a changed head");
        bytes[at] ^= 1;
    }
    for (size_t size = 0; size < 24; size++) {
        expect(dvg_restore(none, bytes, size).kind == DVG_NO_STATE && count == 0, "a cut one");
    }
}

/* A world of a RAM of zeros, of one part, with an operation and a driver. */
static const uint64_t world_answers[] = {0x01020A0326, DVG_HOLDS, 0x023, DVG_NOTHING, 0x0808,
                                         DVG_NOTHING};

/* Puts the bytes of that world together. */
static void make_world(uint8_t *bytes)
{
    memset(bytes, 0, 2080);
    memcpy(bytes, "DVW\1\3\1", 6);
    dvg_saved_put(bytes, 2080, 2056, world_answers[2]);
    dvg_saved_put(bytes, 2080, 2064, world_answers[4]);
    dvg_saved_put(bytes, 2080, 2072, world_answers[0]);
}

static void test_saving_worlds(dvg *none)
{
    static const uint64_t asked[] = {32, 26, 28, 0x11C, 33, 0x121};
    static uint8_t bytes[2081], wanted[2081];
    make_world(wanted);
    memcpy(answers, world_answers, sizeof world_answers);
    expect(dvg_save(none, NULL, 0) == 2080 && count == 6
               && memcmp(noted, asked, sizeof asked) == 0,
           "a world of a part and an operation has 2,080 bytes");
    for (int number = 6; number < MOST; number++) {
        answers[number] = DVG_BYTE | (uint64_t)(number == 14 ? 0xA5 : 0) << 24;
    }
    memcpy(answers, world_answers, sizeof world_answers);
    wanted[8 + 7] = 0xA5;
    expect(dvg_save(none, bytes, 2080) == 2080 && count == 6 + 2049 && noted[2054] == 0x7FF1F
               && memcmp(bytes, wanted, 2081) == 0,
           "which are these");
}

static void test_restoring_worlds(dvg *none)
{
    static const uint64_t asked[] = {32, 11, 10, 0x80000000A, 9, 0x23, 0x808, 0x01020A0326, 11, 35};
    static const int whole[] = {DVG_DRIVER, DVG_CLEARED, DVG_STAGED, DVG_STAGED, DVG_CLEARED,
                                DVG_CLEARED, DVG_PUSHED, DVG_OPENED, DVG_CLEARED, DVG_CLEARED};
    static uint8_t bytes[2080];
    int kinds[10];
    make_world(bytes);
    answer(10, whole);
    expect_all(dvg_restore(none, bytes, 2080), DVG_OPENED, 9, asked, "a world is told and resumed");
    memcpy(kinds, whole, sizeof kinds);
    kinds[7] = DVG_UNKNOWN;
    answer(10, kinds);
    expect_all(dvg_restore(none, bytes, 2080), DVG_NO_STATE, 10, asked, "a phase of none");
    kinds[7] = DVG_NO_MEMORY;
    answer(10, kinds);
    expect_all(dvg_restore(none, bytes, 2080), DVG_NO_MEMORY, 10, asked, "no memory is told");
    for (int full = 0; full < 2; full++) {
        memcpy(kinds, whole, sizeof kinds);
        kinds[6] = full ? DVG_FULL : DVG_NO_OPERATION;
        answer(10, kinds);
        expect(dvg_restore(none, bytes, 2080).kind == DVG_NO_STATE && count == 9
                   && noted[7] == 11 && noted[8] == 35,
               "what is no frame isn't resumed");
    }
    kinds[0] = DVG_UNKNOWN;
    answer(1, kinds);
    expect(dvg_restore(none, bytes, 2080).kind == DVG_NO_STATE && count == 2 && noted[1] == 35,
           "nothing is told where no world is open");
    bytes[2072] = 14;
    answer(10, whole);
    expect(dvg_restore(none, bytes, 2080).kind == DVG_NO_STATE && count == 1 && noted[0] == 35,
           "another request isn't asked at the end");
    bytes[2072] = 38;
    bytes[2064] = 14;
    answer(10, whole);
    expect(dvg_restore(none, bytes, 2080).kind == DVG_NO_STATE && count == 8 && noted[6] == 11,
           "nor amid it");
    bytes[2064] = 8;
    for (size_t size = 0; size < 2080; size++) {
        expect(dvg_restore(none, bytes, size).kind == DVG_NO_STATE && count == 0, "a cut world");
    }
}

/* --- A memory, drawn once --- */

static uint64_t noted_number = 0;

static void tell(void *context, dvg_stroke stroke)
{
    noted_number = noted_number * 100 + *(const uint64_t *)context + stroke.z;
}

/* Answers that a generator gives, in their order. */
static void answer_all(int number, const uint64_t *wanted)
{
    memcpy(answers, wanted, (size_t)number * sizeof *wanted);
}

#define WANTS_BYTE(address, high) (DVG_WANTED | (uint64_t)(address) << 8 | (uint64_t)(high) << 24)

/* An answer of a generator alone that wants the byte at this byte address next. */
#define ONWARD(kind, byte) ((kind) | (uint64_t)1 << 60 | (uint64_t)(byte) << 40)

static uint8_t ram[DVG_RAM_BYTES];
static uint8_t rom[DVG_LARGE_ROM_BYTES];

/* Of the byte that is wanted at this address, the request must be this one. */
static void expect_byte(dvg *none, uint64_t wanted, size_t length, uint64_t request,
                        const char *what)
{
    answers[0] = wanted;
    answers[1] = DVG_LOW;
    dvg_answer got = dvg_generator_fetch_from(none, ram, rom, length);
    expect(got.kind == DVG_LOW && count == 2 && noted[0] == 16 && noted[1] == request, what);
}

static void test_fetching(dvg *none)
{
    ram[0] = 0x11;
    ram[2047] = 0x22;
    rom[0] = 0x33;
    rom[1] = 0x44;
    rom[2047] = 0x55;
    rom[4095] = 0x66;
    expect_byte(none, WANTS_BYTE(0x000, 0), 2048, 0x110004, "the first byte of the RAM");
    expect_byte(none, WANTS_BYTE(0x3FF, 1), 2048, 0x220004, "the last byte of the RAM");
    expect_byte(none, WANTS_BYTE(0x400, 0), 2048, 0x000104,
                "no memory after the RAM, with a small ROM");
    expect_byte(none, WANTS_BYTE(0x7FF, 1), 2048, 0x000104, "no memory before a small ROM");
    expect_byte(none, WANTS_BYTE(0x800, 0), 2048, 0x330004, "the first byte of a small ROM");
    expect_byte(none, WANTS_BYTE(0x800, 1), 2048, 0x440004, "its second byte");
    expect_byte(none, WANTS_BYTE(0xBFF, 1), 2048, 0x550004, "the last byte of a small ROM");
    expect_byte(none, WANTS_BYTE(0xC00, 0), 2048, 0x000104, "no memory after a small ROM");
    expect_byte(none, WANTS_BYTE(0x400, 0), 4096, 0x330004, "the first byte of a large ROM");
    expect_byte(none, WANTS_BYTE(0xBFF, 1), 4096, 0x660004, "the last byte of a large ROM");
    expect_byte(none, WANTS_BYTE(0xC00, 0), 4096, 0x000104, "no memory after a large ROM");
    expect_byte(none, WANTS_BYTE(0xFFF, 1), 4096, 0x000104, "nor at the last address");
    expect(dvg_generator_fetch_from(none, ram, rom, 4095).kind == DVG_WRONG_SIZE && count == 0,
           "a ROM of a wrong size asks nothing");
    answers[0] = DVG_STILL;
    expect(dvg_generator_fetch_from(none, ram, rom, 2048).kind == DVG_STILL && count == 1,
           "a halted generator is handed nothing");
}

static void test_drawing(dvg *none)
{
    static const uint64_t done[] = {DVG_OPENED,
                                    ONWARD(DVG_STARTED, 0),
                                    ONWARD(DVG_LOW, 1),
                                    ONWARD(DVG_FETCHED, 2),
                                    ONWARD(DVG_LOW, 3),
                                    DVG_DONE,
                                    2,
                                    1,
                                    2,
                                    7,
                                    3,
                                    4,
                                    8};
    static const uint64_t hole[] = {DVG_OPENED, ONWARD(DVG_STARTED, 0x800),
                                    0x0003040000 | DVG_BROKE};
    static const uint64_t refused[] = {DVG_OPENED, ONWARD(DVG_STARTED, 0), ONWARD(DVG_LOW, 1),
                                       DVG_NO_MEMORY};
    static const uint64_t asked[] = {14, 3,    0x110004, 0x000004, 0x000004, 0x000004, 17,
                                     0x12, 0x13, 0x14,   0x112,    0x113,    0x114};
    uint64_t context = 1;
    dvg_drawn drawn;
    answer_all(13, done);
    noted_number = 0;
    drawn = dvg_draw(none, ram, rom, 2048, 10, tell, &context);
    expect(drawn.last.kind == DVG_DONE && drawn.words == 2 && drawn.strokes == 2
               && noted_number == 809 && count == 13 && memcmp(noted, asked, sizeof asked) == 0,
           "a run is drawn, and its strokes are handed on in order");
    answer_all(13, done);
    noted_number = 0;
    drawn = dvg_draw(none, ram, rom, 2048, 2, NULL, NULL);
    expect(drawn.last.kind == DVG_DONE && drawn.strokes == 2 && noted_number == 0 && count == 7,
           "without a function they are counted");
    answer_all(13, done);
    drawn = dvg_draw(none, ram, rom, 2048, 1, tell, &context);
    expect(drawn.last.kind == DVG_FETCHED && drawn.words == 1 && drawn.strokes == 0 && count == 4,
           "a run is cut off at the cap");
    answer_all(13, done);
    drawn = dvg_draw(none, ram, rom, 2048, 0, tell, &context);
    expect(drawn.last.kind == DVG_STARTED && drawn.words == 0 && count == 2, "and begun at least");
    answer_all(3, hole);
    drawn = dvg_draw(none, ram, rom, 2048, 10, tell, &context);
    expect(drawn.last.kind == DVG_BROKE && drawn.last.address == 0x400 && drawn.words == 0
               && count == 3 && dvg_break_of(drawn.last) == DVG_BREAK_HOLE,
           "a run that breaks");
    answer_all(4, refused);
    drawn = dvg_draw(none, ram, rom, 2048, 10, tell, &context);
    expect(drawn.last.kind == DVG_NO_MEMORY && drawn.words == 0 && drawn.strokes == 0 && count == 4,
           "refused memory ends it");
    drawn = dvg_draw(none, ram, rom, 0, 10, tell, &context);
    expect(drawn.last.kind == DVG_WRONG_SIZE && drawn.words == 0 && drawn.strokes == 0
               && count == 0,
           "no ROM is the wrong size");
}

int main(void)
{
    /* A device that nobody looks into. */
    static char no_device;
    dvg *none = (dvg *)&no_device;
    test_events(none);
    test_judge(none);
    test_operations(none);
    test_staging(none);
    test_answers(none);
    test_kind_texts();
    test_other_texts();
    test_moves(none);
    test_saving(none);
    test_restoring(none);
    test_saving_worlds(none);
    test_restoring_worlds(none);
    test_fetching(none);
    test_drawing(none);
    printf("%d passed, %d failed\n", passed, failed);
    return failed == 0 ? 0 : 1;
}
