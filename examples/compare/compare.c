/* Runs a DVG of your own (mine.c) beside the port of build/libdvg.a, byte by byte, and compares
 * what each wants, how each run ends, and the strokes. Tested, not proved.
 *
 *     compare [BYTES [SEED]]    random memories, until as many bytes were compared; 1,000,000
 *     compare --image FILE..    images: the 2,048 bytes of a RAM, and 2,048 or 4,096 of a ROM; one
 *                               run of each, of 65,536 words at most
 *     compare --units ..        either of them, with strokes in whole units
 *     compare --moves ..        any of them, with each move, also an unseen one, as soon as it is
 *                               made
 *     compare --wrap ..         any of them, beside a generator of the port whose stack wraps
 *     compare --write FILE ..   any of them; the memory that differs, shrunk, becomes an image
 *
 * Without --moves strokes are compared after a HALT. So each run gets one: after some words the kit
 * hands both sides B000 in place of the memory's words. A fifth call, a return without a call and
 * a word without memory break a run of the port, where hardware goes on: the comparison of that
 * run stops there, and its strokes up to there are compared. Where yours goes on there, it is run
 * on alone, and must not stop by the same later: that is a difference, too. With --wrap no call and
 * no return breaks a run. What isn't compared is printed with the verdict. A first difference is
 * shrunk.
 *
 * In whole units the rate multipliers round each move along an axis, a half away from zero, also of
 * a vector that isn't drawn, and a LABS sets the place.
 *
 * Status 0: no difference; 1: a difference, or the run of an image had no end within 65,536 words;
 * 2: memory or a file failed; 64: arguments. */
#include "mine.h"
#include <dvg.h>
#include <errno.h>
#include <stdio.h>
#include <stdlib.h>
#include <string.h>

#define WORDS 4096
#define MOST_RUN 200 /* words of a random run, before it is handed a HALT */
#define MOST_FETCHED (DVG_MOST_WORDS + 4) /* words of any run, with that HALT */
#define MOST_STROKES MOST_FETCHED
#define MOST_STARTS 2 /* start strobes amid runs */
#define HALT 0xB000
#define HOLE (-1)

/* What both sides are run over. */
struct test {
    int32_t words[WORDS];  /* a word each, or HOLE */
    unsigned starts[MOST_STARTS]; /* bytes of each run before the last one, after which a start
                                     strobe comes; 0: there is no such run */
    unsigned most;         /* words of the last run, before a HALT is handed in place of the
                              memory's */
};

/* What came of it. */
struct outcome {
    bool differs;
    char where[200];       /* the first difference, in words */
    unsigned long bytes;   /* bytes that were compared */
    unsigned words;        /* words of the newest run that ended whole */
    unsigned compared;     /* words of the run that were compared: of one that broke, up to there */
    enum dvg_break broke;
    unsigned broke_at;     /* the word address where */
};

/* The words that the newest run fetched, in order: their addresses, and they. */
static unsigned fetched_at[MOST_FETCHED], fetched_word[MOST_FETCHED];

static dvg *port;
static int32_t port_next; /* the byte address that the port wants next; -1 where it is halted */
static dvg_stroke strokes[MOST_STROKES]; /* of mine, in the run that is open */
static unsigned drawn;
static dvg_stroke port_strokes[MOST_STROKES]; /* of the port, in that run */
static unsigned port_drawn;
static uint32_t unit_x, unit_y; /* the port's beam in whole units */
static bool in_units, by_moves, wraps;
static const char *image_name; /* what --write names, or a null pointer */
static uint64_t random_state;
static unsigned long stopped_at_stack, stopped_at_hole, halts;

void drew(uint32_t x0, uint32_t y0, uint32_t x1, uint32_t y1, unsigned z)
{
    dvg_stroke stroke = {x0, y0, x1, y1, (uint8_t)z};
    if (z == 0 && !by_moves) {
        return;
    }
    if (drawn < MOST_STROKES) {
        strokes[drawn] = stroke;
    }
    drawn++;
}

/* A place in whole units after a move of the port along an axis. */
static uint32_t counted(uint32_t place, uint32_t from, uint32_t to)
{
    return (place + (uint32_t)dvg_units(from, to)) & 0xFFF;
}

/* The port's move as a stroke, in the units that are compared. */
static dvg_stroke compared_move(dvg_move move)
{
    dvg_stroke stroke = {move.x0, move.y0, move.x1, move.y1, move.z};
    if (in_units) {
        stroke.x0 = unit_x;
        stroke.y0 = unit_y;
        stroke.x1 = move.placed ? move.x1 / 512 : counted(unit_x, move.x0, move.x1);
        stroke.y1 = move.placed ? move.y1 / 512 : counted(unit_y, move.y0, move.y1);
        unit_x = stroke.x1;
        unit_y = stroke.y1;
    }
    return stroke;
}

/* Notes the move that this byte makes in the port, before it is handed over. */
static void note_move(int byte)
{
    dvg_move move;
    if (byte == HOLE || dvg_generator_move(port, (uint8_t)byte, &move).kind != DVG_MOVES) {
        return;
    }
    dvg_stroke stroke = compared_move(move);
    if (stroke.z == 0 && !by_moves) {
        return;
    }
    if (port_drawn < MOST_STROKES) {
        port_strokes[port_drawn] = stroke;
    }
    port_drawn++;
}

static uint32_t number_below(uint32_t bound)
{
    random_state ^= random_state << 13;
    random_state ^= random_state >> 7;
    random_state ^= random_state << 17;
    return (uint32_t)(random_state >> 24) % bound;
}

static const char *state_text(enum mine_state state)
{
    static const char *const texts[] = {"runs", "halted", "fifth call", "return without a call",
                                        "no memory there"};
    return (unsigned)state < 5 ? texts[state] : "no state";
}

static void write_wanted(char *text, size_t room, enum mine_state state, unsigned address,
                         bool high)
{
    if (state == MINE_RUNS) {
        snprintf(text, room, "wants %03X %s", address, high ? "high" : "low");
    } else {
        snprintf(text, room, "%s", state_text(state));
    }
}

/* Compares what both want. `state` is how the port stands. */
static void compare_wanted(struct outcome *outcome, enum mine_state state)
{
    struct mine_wanted mine = mine_wants();
    unsigned address = (unsigned)port_next / 2;
    bool high = port_next % 2 != 0;
    bool same = mine.state == state;
    if (state > MINE_HALTED && mine.state == MINE_RUNS) {
        return; /* where hardware goes on */
    }
    if (same && state == MINE_RUNS) {
        same = mine.address == address && mine.high == high;
    }
    if (!same) {
        char theirs[40], ours[40];
        write_wanted(theirs, sizeof theirs, state, address, high);
        write_wanted(ours, sizeof ours, mine.state, mine.address, mine.high);
        outcome->differs = true;
        snprintf(outcome->where, sizeof outcome->where, "port: %s; mine: %s", theirs, ours);
    }
}

/* Writes the stroke of this number of a list, or that there is none. */
static void write_stroke(char *text, size_t room, const dvg_stroke *list, unsigned count,
                         unsigned number)
{
    if (number >= count || number >= MOST_STROKES) {
        snprintf(text, room, "none");
    } else {
        dvg_stroke s = list[number];
        snprintf(text, room, "%u %u %u %u %u", s.x0, s.y0, s.x1, s.y1, s.z);
    }
}

static bool is_same(dvg_stroke a, dvg_stroke b)
{
    return a.x0 == b.x0 && a.y0 == b.y0 && a.x1 == b.x1 && a.y1 == b.y1 && a.z == b.z;
}

/* Compares the strokes of the run so far, from this one on; with --moves each move. */
static void compare_strokes(struct outcome *outcome, unsigned number)
{
    for (; number < port_drawn || number < drawn; number++) {
        char theirs[60], ours[60];
        if (number < port_drawn && number < drawn && number < MOST_STROKES
            && is_same(port_strokes[number], strokes[number])) {
            continue;
        }
        write_stroke(theirs, sizeof theirs, port_strokes, port_drawn, number);
        write_stroke(ours, sizeof ours, strokes, drawn, number);
        if (strcmp(theirs, ours) != 0) {
            outcome->differs = true;
            snprintf(outcome->where, sizeof outcome->where, "%s %u\nport: %s\nmine: %s",
                     by_moves ? "move" : "stroke", number, theirs, ours);
            return;
        }
    }
}

/* How a DVG stands that broke so. */
static enum mine_state state_of_break(dvg_break why)
{
    return why == DVG_BREAK_STACK_OVER    ? MINE_STACK_OVER
           : why == DVG_BREAK_STACK_UNDER ? MINE_STACK_UNDER
                                          : MINE_HOLE;
}

/* How the port stands after this answer. */
static enum mine_state state_of(dvg_answer answer)
{
    switch (answer.kind) {
    case DVG_DONE: return MINE_HALTED;
    case DVG_BROKE: return state_of_break(dvg_break_of(answer));
    default: return MINE_RUNS;
    }
}

/* The byte that a test has at an address, or HOLE. */
static int byte_of(const struct test *test, const struct outcome *outcome, unsigned address,
                   bool high)
{
    int32_t word = outcome->words >= test->most ? HALT : test->words[address];
    return word == HOLE ? HOLE : high ? word >> 8 : word & 0xFF;
}

/* Hands both the byte that the port wants. Returns the port's answer. */
static dvg_answer hand_byte(const struct test *test, struct outcome *outcome)
{
    int byte = byte_of(test, outcome, (unsigned)port_next / 2, port_next % 2 != 0);
    unsigned before = port_drawn;
    note_move(byte);
    dvg_answer answer = byte == HOLE ? dvg_generator_hole(port)
                                     : dvg_generator_fetch(port, (uint8_t)byte);
    port_next = answer.next;
    mine_byte(byte);
    outcome->bytes++;
    if (answer.kind == DVG_FETCHED || answer.kind == DVG_DONE) {
        fetched_at[outcome->words] = answer.address;
        fetched_word[outcome->words] = answer.value;
        outcome->words++;
    }
    outcome->broke = dvg_break_of(answer);
    outcome->broke_at = answer.address;
    if (by_moves && outcome->broke == DVG_BREAK_NONE) {
        compare_strokes(outcome, before);
    }
    if (!outcome->differs) {
        compare_wanted(outcome, state_of(answer));
    }
    return answer;
}

/* Runs mine on alone where the port broke and mine goes on, as hardware does: then what broke the
 * port doesn't stop it later. It is handed as many words as a random run has at most, and -1 where
 * no memory answers. */
static void run_on(const struct test *test, struct outcome *outcome)
{
    struct mine_wanted mine = mine_wants();
    unsigned bytes, broke_after = outcome->words;
    for (bytes = 0; bytes < 2 * MOST_RUN && mine.state == MINE_RUNS; bytes++) {
        mine_byte(byte_of(test, outcome, mine.address & (WORDS - 1), mine.high));
        mine = mine_wants();
    }
    if (mine.state == state_of_break(outcome->broke)) {
        outcome->differs = true;
        snprintf(outcome->where, sizeof outcome->where,
                 "port: %s after %u words; mine: goes on there, and %u bytes later: %s",
                 dvg_break_text(outcome->broke), broke_after, bytes, state_text(mine.state));
    }
}

/* Starts both, and hands them `most_bytes` bytes at most, or until the run ends. */
static void run_once(const struct test *test, struct outcome *outcome, bool power_on,
                     unsigned most_bytes)
{
    unsigned byte;
    enum mine_state state = MINE_RUNS;
    port_next = dvg_strobe(port).next;
    mine_start(power_on);
    drawn = port_drawn = 0;
    outcome->words = 0;
    outcome->broke = DVG_BREAK_NONE;
    compare_wanted(outcome, state);
    for (byte = 0; byte < most_bytes && state == MINE_RUNS && !outcome->differs; byte++) {
        state = state_of(hand_byte(test, outcome));
    }
    if (state == MINE_HALTED && !outcome->differs) {
        halts++;
        compare_strokes(outcome, 0);
    }
    if (state > MINE_HALTED && !outcome->differs && mine_wants().state == MINE_RUNS) {
        run_on(test, outcome);
    }
}

/* Has the port begin as after power on. */
static void begin_port(void)
{
    if (wraps) {
        dvg_open_wrapping(port);
    } else {
        dvg_open_generator(port);
    }
    unit_x = unit_y = 0;
}

/* Runs both over a test. A run that breaks is run again with a HALT in place of what broke it. */
static void run(const struct test *test, struct outcome *outcome)
{
    struct test again;
    bool power_on = true;
    unsigned i;
    memset(outcome, 0, sizeof *outcome);
    begin_port();
    for (i = 0; i < MOST_STARTS && !outcome->differs; i++) {
        if (test->starts[i] > 0) {
            run_once(test, outcome, power_on, test->starts[i]);
            power_on = false;
        }
    }
    if (!outcome->differs) {
        run_once(test, outcome, power_on, 2 * test->most + 8);
    }
    outcome->compared = outcome->words;
    if (!outcome->differs && outcome->broke != DVG_BREAK_NONE) {
        struct outcome broken = *outcome;
        *(outcome->broke == DVG_BREAK_HOLE ? &stopped_at_hole : &stopped_at_stack) += 1;
        again = *test;
        again.most = outcome->words;
        begin_port();
        run_once(&again, outcome, true, 2 * again.most + 8);
        outcome->broke = broken.broke;
        outcome->broke_at = broken.broke_at;
        outcome->compared = broken.compared;
    }
}

/* --- Shrinking --- */

static bool still_differs(const struct test *test)
{
    struct outcome outcome;
    run(test, &outcome);
    return outcome.differs;
}

/* Takes a candidate where it still differs. */
static bool take(struct test *test, const struct test *candidate)
{
    if (!still_differs(candidate)) {
        return false;
    }
    *test = *candidate;
    return true;
}

/* Every word that the run didn't fetch becomes a HALT. */
static void take_fetched(struct test *test)
{
    struct outcome outcome;
    struct test candidate = *test;
    unsigned i;
    run(test, &outcome);
    for (i = 0; i < WORDS; i++) {
        candidate.words[i] = HALT;
    }
    for (i = 0; i < outcome.words; i++) {
        candidate.words[fetched_at[i]] = test->words[fetched_at[i]];
    }
    take(test, &candidate);
}

/* What the run fetched, but for its HALT, calls, returns and jumps, stands in a row from 000. */
static void take_row(struct test *test)
{
    struct outcome outcome;
    struct test candidate = *test;
    unsigned i, place = 0;
    bool second = false;
    run(test, &outcome);
    for (i = 0; i < WORDS; i++) {
        candidate.words[i] = HALT;
    }
    for (i = 0; i < outcome.words; i++) {
        unsigned opcode = fetched_word[i] >> 12;
        if ((second || opcode <= 0xA || opcode == 0xF) && place < WORDS) {
            candidate.words[place++] = (int32_t)fetched_word[i];
        }
        second = !second && opcode <= 0xA;
    }
    take(test, &candidate);
}

/* Takes `count` words from word `place` on away. Calls and jumps to what follows go with it. */
static void take_away(struct test *test, unsigned place, unsigned count)
{
    unsigned i;
    memmove(&test->words[place], &test->words[place + count],
            (WORDS - place - count) * sizeof(int32_t));
    for (i = WORDS - count; i < WORDS; i++) {
        test->words[i] = HALT;
    }
    for (i = 0; i < WORDS; i++) {
        int32_t opcode = test->words[i] >> 12;
        if ((opcode == 0xC || opcode == 0xE)
            && (unsigned)(test->words[i] & 0xFFF) >= place + count) {
            test->words[i] -= (int32_t)count;
        }
    }
}

/* Tries one smaller test at a word: without it and the next one, without it, with a HALT there. */
static bool shrink_word(struct test *test, unsigned place)
{
    struct test candidate;
    unsigned count;
    for (count = 2; count > 0; count--) {
        candidate = *test;
        if (place + count <= WORDS) {
            take_away(&candidate, place, count);
            if (take(test, &candidate)) {
                return true;
            }
        }
    }
    candidate = *test;
    candidate.words[place] = HALT;
    return test->words[place] != HALT && take(test, &candidate);
}

/* Clears the bits of a word that the difference doesn't need. */
static bool clear_bits(struct test *test, unsigned place)
{
    bool taken = false;
    unsigned bit;
    for (bit = 0; bit < 16 && test->words[place] > 0 && test->words[place] != HALT; bit++) {
        struct test candidate = *test;
        candidate.words[place] &= ~(1 << bit);
        taken |= candidate.words[place] != test->words[place] && take(test, &candidate);
    }
    return taken;
}

/* The place after the last word that is no HALT. */
static unsigned length_of(const struct test *test)
{
    unsigned length = WORDS;
    while (length > 0 && test->words[length - 1] == HALT) {
        length--;
    }
    return length;
}

/* Takes the shortest run of this number with which it still differs, or none at all. */
static bool shrink_run(struct test *test, unsigned number)
{
    struct test candidate = *test;
    unsigned bytes;
    for (bytes = 0; bytes < test->starts[number]; bytes++) {
        candidate.starts[number] = bytes;
        if (take(test, &candidate)) {
            return true;
        }
    }
    return false;
}

/* One pass of smaller tests. Returns whether one was taken. */
static bool shrink_once(struct test *test)
{
    bool taken = false;
    unsigned place = 0, number;
    for (number = 0; number < MOST_STARTS; number++) {
        taken |= shrink_run(test, number);
    }
    while (place < length_of(test)) {
        if (shrink_word(test, place)) {
            taken = true;
        } else {
            taken |= clear_bits(test, place++);
        }
    }
    return taken;
}

static void shrink(struct test *test)
{
    unsigned pass;
    take_row(test);
    take_fetched(test);
    for (pass = 0; pass < 50 && shrink_once(test); pass++) {
    }
}

/* --- Reports --- */

/* Prints a test that differs, shrunk, and both sides. */
static void report(struct test *test)
{
    struct outcome outcome;
    unsigned i, words = 0;
    shrink(test);
    run(test, &outcome);
    for (i = 0; i < WORDS; i++) {
        words += test->words[i] != HALT;
    }
    printf("differs: a memory of %u words; all others are B000\n", words);
    for (i = 0; i < WORDS; i++) {
        if (test->words[i] == HOLE) {
            printf("%03X no memory\n", i);
        } else if (test->words[i] != HALT) {
            printf("%03X %04X\n", i, (unsigned)test->words[i]);
        }
    }
    for (i = 0; i < MOST_STARTS; i++) {
        if (test->starts[i] > 0) {
            printf("a start strobe arrives after %u bytes of a %s run\n", test->starts[i],
                   i > 0 && test->starts[0] > 0 ? "second" : "first");
        }
    }
    if (outcome.words > test->most) {
        printf("from word %u of the run on, B000 is handed\n", test->most);
    }
    printf("fetched:");
    for (i = 0; i < outcome.words; i++) {
        printf(" %03X:%04X", fetched_at[i], fetched_word[i]);
    }
    printf("\n%s\n", outcome.where);
}

/* A random word: of 16 bits, or one that leads to where memory is. */
static int32_t random_word(bool any)
{
    static const uint16_t opcodes[] = {0xB000, 0xC000, 0xD000, 0xE000, 0xF000, 0xF000, 0xA000};
    uint32_t low = number_below(0x1000);
    uint32_t choice = number_below(14);
    if (any) {
        return (int32_t)number_below(0x10000);
    }
    if (choice >= 7) {
        return (int32_t)(number_below(10) << 12 | low);
    }
    if (opcodes[choice] == 0xC000 || opcodes[choice] == 0xE000) {
        low = number_below(8) ? low & 0x3FF : low;
    }
    return (int32_t)(opcodes[choice] | low);
}

/* Writes a random test: also with holes, with an address that goes on after FFF, and with start
 * strobes that end a run, two in one test of eight. */
static void make_random(struct test *test)
{
    unsigned i;
    bool any = number_below(4) == 0;
    bool holes = number_below(2) == 0;
    for (i = 0; i < WORDS; i++) {
        bool hole = holes && (i >= 0xC00 || (i >= 0x400 && i < 0x800));
        test->words[i] = hole ? HOLE : random_word(any);
    }
    if (number_below(8) == 0) {
        test->words[0] = (int32_t)(0xE000 | (0xFF0 + number_below(16)));
    }
    test->starts[0] = number_below(2) ? 1 + number_below(60) : 0;
    test->starts[1] = number_below(4) == 0 ? 1 + number_below(60) : 0;
    test->most = 1 + number_below(MOST_RUN);
}

/* Reads an image. Returns false where it can't be read, or has another size. */
static bool read_image(struct test *test, const char *name)
{
    uint8_t bytes[DVG_RAM_BYTES + DVG_LARGE_ROM_BYTES + 1];
    FILE *file = fopen(name, "rb");
    size_t length, i;
    if (file == NULL) {
        return false;
    }
    length = fread(bytes, 1, sizeof bytes, file);
    fclose(file);
    if (length != 4096 && length != 6144) {
        return false;
    }
    for (i = 0; i < WORDS; i++) {
        size_t from = i < 0x400 ? 2 * i : 2 * i + length - 0x1800;
        bool there = i < 0x400 || (i < 0xC00 && 2 * i >= 0x1800 - (length - DVG_RAM_BYTES));
        test->words[i] = there ? bytes[from] | bytes[from + 1] << 8 : HOLE;
    }
    memset(test->starts, 0, sizeof test->starts);
    test->most = DVG_MOST_WORDS;
    return true;
}

/* Whether a word from 400 to 7FF lacks memory: then the smaller ROM is behind the RAM. */
static bool lacks_low_rom(const struct test *test)
{
    unsigned i = 0x400;
    while (i < 0x800 && test->words[i] != HOLE) {
        i++;
    }
    return i < 0x800;
}

/* Writes the words of a test as an image of this name. Returns whether it could. */
static bool write_image(const struct test *test, const char *name)
{
    unsigned rom = lacks_low_rom(test) ? 0x800 : 0x400, i;
    FILE *file = fopen(name, "wb");
    if (file == NULL) {
        return false;
    }
    for (i = 0; i < 0xC00; i = i == 0x3FF ? rom : i + 1) {
        int32_t word = test->words[i] == HOLE ? HALT : test->words[i];
        fputc((int)(word & 0xFF), file);
        fputc((int)(word >> 8), file);
    }
    return fclose(file) == 0;
}

/* Writes a test that differs where --write has it, and says whether that shows a difference, too: a
 * run that a strobe ends, and a place that no image has, don't. */
static void write_shrunk(const struct test *test)
{
    static struct test again;
    struct outcome outcome;
    if (image_name == NULL) {
        return;
    }
    if (!write_image(test, image_name) || !read_image(&again, image_name)) {
        fprintf(stderr, "%s: can't be written\n", image_name);
        return;
    }
    run(&again, &outcome);
    printf("%s: %s\n", image_name,
           outcome.differs ? "differs, too: --image" : "doesn't differ: no image shows this");
}

/* Says of an image without a difference how many words were compared, and what wasn't. Returns
 * whether its run has an end. */
static bool is_whole(const struct test *test, const struct outcome *outcome, const char *name)
{
    bool ends = outcome->compared <= test->most;
    printf("%s: no difference in %u words", name, ends ? outcome->compared : test->most);
    if (outcome->broke != DVG_BREAK_NONE) {
        bool wrap_goes_on = outcome->broke != DVG_BREAK_HOLE;
        printf("; not compared: what follows the %s at %03X%s",
               wrap_goes_on ? dvg_break_text(outcome->broke) : "word without memory",
               outcome->broke_at, wrap_goes_on ? ", which --wrap compares" : "");
    }
    if (!ends) {
        printf("; not compared: what follows them: it has no end within %u words", test->most);
    }
    printf("\n");
    return ends;
}

static int compare_images(struct test *test, char **names)
{
    struct outcome outcome;
    bool uncompared = false;
    for (; *names != NULL; names++) {
        if (!read_image(test, *names)) {
            fprintf(stderr, "%s: no image of 4,096 or 6,144 bytes\n", *names);
            return 2;
        }
        run(test, &outcome);
        if (outcome.differs) {
            printf("%s ", *names);
            report(test);
            write_shrunk(test);
            return 1;
        }
        uncompared |= !is_whole(test, &outcome, *names);
    }
    return uncompared;
}

static int compare_random(struct test *test, unsigned long most_bytes, uint64_t seed)
{
    struct outcome outcome;
    unsigned long bytes = 0, tests = 0;
    while (bytes < most_bytes) {
        make_random(test);
        run(test, &outcome);
        bytes += outcome.bytes;
        tests++;
        if (outcome.differs) {
            printf("after %lu bytes of seed %llu, test %lu ", bytes,
                   (unsigned long long)seed, tests);
            report(test);
            write_shrunk(test);
            return 1;
        }
    }
    printf("no difference: %lu bytes, %lu memories, %lu halts\n", bytes, tests, halts);
    printf("not compared: what follows %lu stops at the stack%s, %lu words without memory\n",
           stopped_at_stack, wraps ? "" : ", which --wrap compares", stopped_at_hole);
    return 0;
}

/* Takes the option that the words of a command line begin with. Returns how many words that has. */
static int take_option(char **words)
{
    bool units = strcmp(words[0], "--units") == 0;
    bool moves = strcmp(words[0], "--moves") == 0;
    bool wrap = strcmp(words[0], "--wrap") == 0;
    in_units |= units;
    by_moves |= moves;
    wraps |= wrap;
    if (strcmp(words[0], "--write") == 0 && words[1] != NULL) {
        image_name = words[1];
        return 2;
    }
    return units || moves || wrap;
}

/* The number that this word of the command line is, in digits alone; of any other word 0, and of
 * one that 64 bits don't hold. */
static uint64_t number_of(const char *word)
{
    unsigned long long number;
    errno = 0;
    number = strtoull(word, NULL, 10);
    return word[strspn(word, "0123456789")] == '\0' && errno == 0 ? number : 0;
}

int main(int count, char **arguments)
{
    static struct test test;
    unsigned long bytes;
    uint64_t seed;
    bool images;
    int status, taken;
    for (; count > 1 && (taken = take_option(arguments + 1)) > 0; count -= taken) {
        arguments += taken;
    }
    bytes = count > 1 ? (unsigned long)number_of(arguments[1]) : 1000000;
    images = count > 2 && strcmp(arguments[1], "--image") == 0;
    random_state = count > 2 ? number_of(arguments[2]) : 1;
    if (!images && (count > 3 || bytes == 0 || random_state == 0)) {
        fputs("compare [--units] [--moves] [--wrap] [--write FILE] [BYTES [SEED]], both above 0,"
              " or .. --image FILE..\n", stderr);
        return 64;
    }
    seed = random_state;
    random_state *= 0x9E3779B97F4A7C15u;
    if (dvg_new(&port) != 0) {
        return 2;
    }
    status = images ? compare_images(&test, arguments + 2) : compare_random(&test, bytes, seed);
    dvg_free(port);
    return status;
}
