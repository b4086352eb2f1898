/* Writes runs of the port of build/libdvg.a as files: memories, and what comes of them. Tested, not
 * proved. README.md tells their format.
 *
 *     vectors FOLDER COUNT    the runs 0 to COUNT - 1, the same each time; COUNT up to 99,999 */
#include "dvg.h"
#include <stdio.h>
#include <stdlib.h>
#include <string.h>

#define MOST_RUN 64 /* words: a longer run isn't written */
#define TO_THE_END 0xFFFF
#define MOST_STARTS 4

/* The first runs, by hand: a memory as words with the addresses from which on they stand; after how
 * many bytes a start strobe ends a run, before the last one; and how many bytes of a last run are
 * told that has no end, or 0. */
static const struct {
    const char *memory;
    unsigned starts[MOST_STARTS];
    unsigned endless;
} by_hand[] = {
    /* dots, long and short */
    {"A064 0064 5000 9000 F070 0000 1000 F470 B000", {0}, 0},
    /* a LABS with scale 0, after one with another */
    {"A100 3100 2040 7040 A100 0200 2040 7040 A200 F200 2040 7040 A300 0300 F1F1 B000", {0}, 0},
    /* minus zero, long and short */
    {"A400 0400 5400 7400 9400 F400 F474 FC7C 5000 7400 5400 7000 B000", {0}, 0},
    /* bit 11, which says nothing, and in a LABS does */
    {"A800 0800 5810 7820 5C10 7820 5810 7C20 A7FF 0FFF 4901 2A02 B000", {0}, 0},
    /* sums of scales that are over 9, and those that are over 15 */
    {"A200 5200 4010 7010 5010 7010 6010 7010 A210 F210 1010 7010 9010 7010 A220 A220 4010 7010 "
     "F1F1 FFFF B000", {0}, 0},
    /* each bit of a short vector, alone */
    {"A080 1080 F0F1 F0F2 F1F0 F2F0 F0F5 F5F0 F8F1 F0F9 F8F9 F9F8 F011 F021 F041 F081 F3FB B000",
     {0}, 0},
    /* beyond each edge, with fractions, which a LABS takes away */
    {"A000 0000 9001 7001 9401 7401 9401 7401 AFFF 0FFF 93FF 73FF 0003 7005 AFFF 0FFF 0001 1001 "
     "BFFF", {0}, 0},
    /* calls, returns and jumps: 12 bits of each address, the last call first, low bits of a HALT */
    {"C010 5001 7001 E800 @010 C020 5002 7002 D000 @020 5003 7003 DFFF @800 C900 5004 7004 E00A "
     "@900 F1F1 D123 @00A B5A5", {0}, 0},
    /* a second run begins where the first one ended, with its scale */
    {"5010 7020 5410 0420 A123 2456 3008 7008 B000", {TO_THE_END, TO_THE_END}, 0},
    /* starts amid runs: with four calls open, before a second word, and before a high byte */
    {"C010 @010 C020 @020 C030 @030 C040 @040 5010 7020 5020 7010 D000 @031 D000 @021 D000 "
     "@011 D000 @001 B000", {8, 10, 15}, 0},
    /* sums of 8, 9 and 10, of short vectors, too; the longest moves both ways */
    {"A400 4400 F879 F971 F8F9 A400 7400 F171 F171 FD75 A400 8400 F171 A400 0400 67FF 77FF 63FF "
     "73FF 9800 7002 B000", {0}, 0},
    /* carries of addresses: from 0FF to 100, and of a return address, from 1FF to 200 */
    {"E0FE @0FE 5010 7020 C1FF @101 5030 7000 B000 @1FF C3FE @200 D000 @3FE F1F1 D000", {0}, 0},
    /* the end of the RAM: 400 comes after 3FF, and has no memory */
    {"E3FD @3FD F1F1 A123 2456", {0}, 0},
    /* a jump to itself */
    {"A400 0400 F1F1 E003", {0}, 16},
};

#define BY_HAND (sizeof by_hand / sizeof by_hand[0])

/* A memory of 4,096 words, what was fetched of it, and what ended the run. */
struct vector {
    uint16_t words[4096];
    bool hole[4096];
    unsigned count;
    uint16_t at[MOST_RUN], word[MOST_RUN];
    dvg_answer last;
};

/* What the words of the last run did to the beam: of each that ended such an instruction the move,
 * and the same in whole units. */
static struct {
    bool moves;
    dvg_move move;
    dvg_stroke units;
} made[MOST_RUN];
static uint32_t unit_x, unit_y;

static uint64_t random_state = 1979;

static uint32_t number_below(uint32_t bound)
{
    random_state ^= random_state << 13;
    random_state ^= random_state >> 7;
    random_state ^= random_state << 17;
    return (uint32_t)(random_state >> 24) % bound;
}

/* A word whose opcode is each of the sixteen as often, or with `calls` a call in place of a HALT, a
 * return and a jump. Its target has memory most often. */
static uint16_t random_word(bool calls)
{
    uint32_t drawn = number_below(16);
    uint32_t opcode = calls && drawn >= 0xB && drawn <= 0xE ? 0xC : drawn;
    bool leads = opcode == 0xC || opcode == 0xE;
    uint32_t low = number_below(leads && number_below(8) ? 0x400 : 0x1000);
    return (uint16_t)(opcode << 12 | low);
}

static void make_memory(struct vector *vector, bool calls)
{
    unsigned i;
    for (i = 0; i < 4096; i++) {
        vector->hole[i] = i >= 0xC00 || (i >= 0x400 && i < 0x800);
        vector->words[i] = random_word(calls);
    }
}

/* Writes the memory of a run by hand over another one. */
static void take_by_hand(struct vector *vector, const char *text)
{
    unsigned at = 0;
    char *end;
    for (; *text != '\0'; text = end + strspn(end, " ")) {
        if (*text == '@') {
            at = (unsigned)strtoul(text + 1, &end, 16);
        } else {
            vector->words[at++] = (uint16_t)strtoul(text, &end, 16);
        }
    }
}

/* A place in whole units after a move along an axis. */
static uint32_t counted(uint32_t place, uint32_t from, uint32_t to)
{
    return (place + (uint32_t)dvg_units(from, to)) & 0xFFF;
}

/* Notes the move that the port makes of this byte, if it ends the word of this number. */
static void note_move(dvg *port, unsigned number, uint8_t byte)
{
    dvg_stroke units;
    dvg_move move;
    made[number].moves = dvg_generator_move(port, byte, &move).kind == DVG_MOVES;
    if (!made[number].moves) {
        return;
    }
    units.x0 = unit_x;
    units.y0 = unit_y;
    units.x1 = unit_x = move.placed ? move.x1 / 512 : counted(unit_x, move.x0, move.x1);
    units.y1 = unit_y = move.placed ? move.y1 / 512 : counted(unit_y, move.y0, move.y1);
    units.z = move.z;
    made[number].move = move;
    made[number].units = units;
}

/* Starts a run, and hands it so many bytes at most. From word `most` on a HALT is handed, so that
 * strokes can be asked for. */
static void start(dvg *port, struct vector *vector, unsigned most, unsigned bytes)
{
    vector->count = 0;
    vector->last = dvg_strobe(port);
    for (; vector->count < MOST_RUN && vector->last.next >= 0 && bytes > 0; bytes--) {
        unsigned address = (unsigned)vector->last.next / 2;
        bool high = vector->last.next % 2 != 0;
        uint16_t word = vector->count >= most ? 0xB000 : vector->words[address];
        if (vector->count < most && vector->hole[address]) {
            vector->last = dvg_generator_hole(port);
        } else {
            uint8_t byte = (uint8_t)(high ? word >> 8 : word);
            note_move(port, vector->count, byte);
            vector->last = dvg_generator_fetch(port, byte);
        }
        if (vector->last.kind == DVG_FETCHED || vector->last.kind == DVG_DONE) {
            vector->at[vector->count] = vector->last.address;
            vector->word[vector->count] = vector->last.value;
            vector->count++;
        }
    }
}

/* Power comes on. */
static void begin(dvg *port)
{
    unit_x = unit_y = 0;
    dvg_open_generator(port);
}

/* Runs it from power on. */
static void run(dvg *port, struct vector *vector, unsigned most)
{
    begin(port);
    start(port, vector, most, TO_THE_END);
}

/* Whether the run ended, between two instructions, within the words that are written. */
static bool is_whole(dvg *port, const struct vector *vector)
{
    static struct vector again;
    if (vector->count < 3 || vector->count > MOST_RUN - 4) {
        return false;
    }
    again = *vector;
    run(port, &again, vector->count);
    return vector->last.kind == DVG_DONE
           || (vector->last.kind == DVG_BROKE && again.count == vector->count + 1);
}

/* The words that were fetched, and the one that broke the run, as $readmemh reads them. */
static void write_memory(FILE *file, const struct vector *vector)
{
    unsigned i;
    for (i = 0; i < vector->count; i++) {
        fprintf(file, "@%03X %04X\n", vector->at[i], vector->word[i]);
    }
    if (dvg_break_of(vector->last) == DVG_BREAK_STACK_OVER
        || dvg_break_of(vector->last) == DVG_BREAK_STACK_UNDER) {
        fprintf(file, "@%03X %04X\n", vector->last.address, vector->words[vector->last.address]);
    }
    if (vector->last.kind == DVG_LOW) {
        fprintf(file, "@%03X %04X\n", vector->last.address, vector->words[vector->last.address]);
    }
}

/* What the word of this number did to the beam. */
static void write_move(FILE *file, unsigned number)
{
    dvg_move m = made[number].move;
    dvg_stroke s = made[number].units;
    if (made[number].moves && m.placed) {
        fprintf(file, "place %03X %u %u\n", m.address, m.x1, m.y1);
    } else if (made[number].moves) {
        fprintf(file, "move %03X %u %u %u %u %u\n", m.address, m.x0, m.y0, m.x1, m.y1, m.z);
        fprintf(file, "count %03X %u %u %u %u %u\n", m.address, s.x0, s.y0, s.x1, s.y1, s.z);
    }
}

/* The strokes of so many words in whole units. */
static void write_units(FILE *file, unsigned count)
{
    unsigned i;
    for (i = 0; i < count; i++) {
        dvg_stroke s = made[i].units;
        if (made[i].moves && s.z != 0) {
            fprintf(file, "units %u %u %u %u %u\n", s.x0, s.y0, s.x1, s.y1, s.z);
        }
    }
}

/* The words that were fetched, each with its move. */
static void write_fetched(FILE *file, const struct vector *vector)
{
    unsigned i;
    for (i = 0; i < vector->count; i++) {
        fprintf(file, "fetched %03X %04X\n", vector->at[i], vector->word[i]);
        write_move(file, i);
    }
    if (vector->last.kind == DVG_LOW) {
        fprintf(file, "low %03X %02X\n", vector->last.address, vector->last.value);
    }
}

/* What comes of it: the words fetched, each with its move, how the run ended, the strokes. */
static void write_run(FILE *file, dvg *port, const struct vector *vector)
{
    static struct vector again;
    uint64_t number;
    write_fetched(file, vector);
    if (vector->last.kind == DVG_DONE) {
        fputs("halted\n", file);
    } else {
        fprintf(file, "broke %03X %s\n", vector->last.address,
                dvg_break_text(dvg_break_of(vector->last)));
        again = *vector;
        run(port, &again, vector->count);
    }
    for (number = 0; number < dvg_strokes(port); number++) {
        dvg_stroke s = dvg_stroke_at(port, number);
        if (vector->last.kind == DVG_DONE || again.last.kind == DVG_DONE) {
            fprintf(file, "stroke %u %u %u %u %u\n", s.x0, s.y0, s.x1, s.y1, s.z);
        }
    }
    write_units(file, vector->count);
}

static FILE *open_file(const char *folder, unsigned long number, const char *ending)
{
    char name[1024];
    snprintf(name, sizeof name, "%s/%05lu.%s", folder, number, ending);
    return fopen(name, "w");
}

/* Writes a run by hand, which may have other starts before the last one. */
static void write_by_hand(FILE *memory, FILE *text, dvg *port, struct vector *vector,
                          unsigned long number)
{
    const unsigned *starts = by_hand[number].starts;
    unsigned endless = by_hand[number].endless;
    take_by_hand(vector, by_hand[number].memory);
    begin(port);
    for (; *starts != 0; starts++) {
        start(port, vector, MOST_RUN, *starts);
        write_memory(memory, vector);
        if (vector->last.kind == DVG_DONE) {
            write_run(text, port, vector);
        } else {
            write_fetched(text, vector);
        }
        fputs("started\n", text);
    }
    start(port, vector, MOST_RUN, endless > 0 ? endless : TO_THE_END);
    write_memory(memory, vector);
    if (endless > 0) {
        write_fetched(text, vector);
        fputs("endless\n", text);
    } else {
        write_run(text, port, vector);
    }
}

int main(int count, char **arguments)
{
    static struct vector vector;
    unsigned long number, most = count == 3 ? strtoul(arguments[2], NULL, 10) : 0;
    dvg *port = NULL;
    if (most == 0 || most > 99999) {
        fputs("vectors FOLDER COUNT\n", stderr);
        return 64;
    }
    if (dvg_new(&port) != 0) {
        return 2;
    }
    for (number = 0; number < most; number++) {
        FILE *memory = open_file(arguments[1], number, "hex");
        FILE *text = open_file(arguments[1], number, "run");
        if (memory == NULL || text == NULL) {
            fputs("write failed\n", stderr);
            return 2;
        }
        do {
            make_memory(&vector, number % 8 == 7);
            run(port, &vector, MOST_RUN);
        } while (!is_whole(port, &vector));
        if (number < BY_HAND) {
            write_by_hand(memory, text, port, &vector, number);
        } else {
            run(port, &vector, MOST_RUN);
            write_memory(memory, &vector);
            write_run(text, port, &vector);
        }
        if (fclose(memory) != 0 || fclose(text) != 0) {
            fputs("write failed\n", stderr);
            return 2;
        }
    }
    dvg_free(port);
    return 0;
}
