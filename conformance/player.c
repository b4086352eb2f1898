/* Plays the runs of a folder, as README.md has them, with a DVG of your own that has the functions
 * of examples/compare/mine.h, and says after how many bytes of all runs it differs first. Tested,
 * not proved.
 *
 *     player FOLDER [COUNT]    the runs 0 to COUNT - 1; without COUNT all that are there
 *     player --units ..        with strokes in whole units
 *     player --moves ..        either of them, with each move, also an unseen one
 *
 * Status 0: no difference; 1: a difference; 2: no run can be read; 64: arguments. */
#include "mine.h"
#include <stdio.h>
#include <stdlib.h>
#include <string.h>

#define MOST_DRAWN 128

struct line {
    uint32_t x0, y0, x1, y1;
    unsigned z;
};

static struct line drawn[MOST_DRAWN]; /* each stroke since the start; with --moves each move */
static unsigned count, told, seen;    /* how many; of these the lines of a run told so many moves,
                                         and so many were looked for as strokes */
static bool ended;                    /* whether the run has come to its end */
static unsigned long bytes;
static bool in_units, by_moves, differs;
static char mine_does[100];           /* where it differs, what mine does */

void drew(uint32_t x0, uint32_t y0, uint32_t x1, uint32_t y1, unsigned z)
{
    struct line line = {x0, y0, x1, y1, z};
    if (z == 0 && !by_moves) {
        return;
    }
    if (count < MOST_DRAWN) {
        drawn[count] = line;
    }
    count++;
}

static void start(bool power_on)
{
    count = told = seen = 0;
    ended = false;
    mine_start(power_on);
}

/* Compares what mine wants: a byte at this address, or none where it isn't to run. */
static void compare_wanted(enum mine_state state, unsigned address, bool high)
{
    struct mine_wanted mine = mine_wants();
    bool same = mine.state == state;
    if (same && state == MINE_RUNS) {
        same = mine.address == address && mine.high == high;
    }
    if (!same && !differs) {
        differs = true;
        snprintf(mine_does, sizeof mine_does,
                 mine.state == MINE_RUNS ? "wants %03X %s" : "wants no byte", mine.address,
                 mine.high ? "high" : "low");
    }
}

/* With --moves: compares how many moves mine made. */
static void compare_count(void)
{
    if (by_moves && count != told && !differs) {
        differs = true;
        snprintf(mine_does, sizeof mine_does, "%u moves where there are %u", count, told);
    }
}

/* Compares a line of this number, of which `placed` is the end alone. */
static void compare_line(unsigned number, struct line line, bool placed)
{
    struct line mine = {0, 0, 0, 0, 0};
    bool same = number < count && number < MOST_DRAWN;
    if (same) {
        mine = drawn[number];
        same = mine.x1 == line.x1 && mine.y1 == line.y1;
        same = same && (placed || (mine.x0 == line.x0 && mine.y0 == line.y0 && mine.z == line.z));
    }
    if (!same && !differs) {
        differs = true;
        snprintf(mine_does, sizeof mine_does, number < count ? "%u %u %u %u %u" : "none", mine.x0,
                 mine.y0, mine.x1, mine.y1, mine.z);
    }
}

/* Hands over a byte, which must be the one that is wanted. */
static void hand(unsigned address, bool high, unsigned byte)
{
    compare_wanted(MINE_RUNS, address, high);
    compare_count();
    bytes++;
    mine_byte((int)byte);
}

/* The number of the next stroke of mine. */
static unsigned next_seen(void)
{
    while (seen < count && seen < MOST_DRAWN && drawn[seen].z == 0) {
        seen++;
    }
    return seen++;
}

/* The end of what is told of a run: where that ended, mine has drawn no more. */
static void end(void)
{
    if (ended && next_seen() < count && !differs) {
        differs = true;
        snprintf(mine_does, sizeof mine_does, "%u strokes or more", seen);
    }
}

/* A line of five numbers with this name, and an address before them where it has one. */
static bool reads_line(const char *text, const char *name, bool has_address, struct line *line)
{
    unsigned at;
    size_t length = strlen(name);
    int from = 0;
    if (strncmp(text, name, length) != 0 || text[length] != ' ') {
        return false;
    }
    text += length;
    return (!has_address || sscanf(text, "%x%n", &at, &from) == 1)
           && sscanf(text + from, "%u %u %u %u %u", &line->x0, &line->y0, &line->x1, &line->y1,
                     &line->z) == 5;
}

static void play_line(const char *text)
{
    struct line line = {0, 0, 0, 0, 0};
    unsigned at = 0, word, unit = in_units ? 512 : 1;
    if (sscanf(text, "fetched %x %x", &at, &word) == 2) {
        hand(at, false, word & 0xFF);
        hand(at, true, word >> 8);
    } else if (sscanf(text, "low %x %x", &at, &word) == 2) {
        hand(at, false, word);
    } else if (by_moves && reads_line(text, in_units ? "count" : "move", true, &line)) {
        compare_line(told++, line, false);
    } else if (by_moves && sscanf(text, "place %x %u %u", &at, &line.x1, &line.y1) == 3) {
        line.x1 /= unit;
        line.y1 /= unit;
        compare_line(told++, line, true);
    } else if (reads_line(text, in_units ? "units" : "stroke", false, &line)) {
        compare_line(next_seen(), line, false);
    } else if (sscanf(text, "broke %x", &at) == 1 || strcmp(text, "halted\n") == 0) {
        ended = true;
        compare_wanted(text[0] == 'h' ? MINE_HALTED : MINE_RUNS, at, false);
        compare_count();
    } else if (strcmp(text, "started\n") == 0) {
        end();
        start(false);
    }
}

/* Plays the run of this number up to a difference. Returns whether it could be read. */
static bool play(const char *folder, unsigned long number)
{
    char name[1024], text[200] = "";
    FILE *file;
    unsigned line = 0;
    snprintf(name, sizeof name, "%s/%05lu.run", folder, number);
    file = fopen(name, "r");
    if (file == NULL) {
        return false;
    }
    start(true);
    for (; !differs && fgets(text, sizeof text, file) != NULL; line++) {
        play_line(text);
    }
    end();
    fclose(file);
    if (differs) {
        printf("%05lu.run line %u differs after %lu bytes: %smine: %s\n", number, line, bytes, text,
               mine_does);
    }
    return true;
}

/* Whether this word of the command line is an option, which is taken. */
static bool take_option(const char *word)
{
    bool units = strcmp(word, "--units") == 0, moves = strcmp(word, "--moves") == 0;
    in_units |= units;
    by_moves |= moves;
    return units || moves;
}

int main(int argument_count, char **arguments)
{
    unsigned long number = 0, most;
    for (; argument_count > 1 && take_option(arguments[1]); argument_count--) {
        arguments++;
    }
    if (argument_count != 2 && argument_count != 3) {
        fputs("player [--units] [--moves] FOLDER [COUNT]\n", stderr);
        return 64;
    }
    most = argument_count == 3 ? strtoul(arguments[2], NULL, 10) : 0;
    while (!differs && (argument_count == 2 || number < most) && play(arguments[1], number)) {
        number++;
    }
    if (differs) {
        return 1;
    }
    if (number == 0 || number < most) {
        fprintf(stderr, "%s/%05lu.run can't be read\n", arguments[1], number);
        return 2;
    }
    printf("no difference in %lu runs, %lu bytes\n", number, bytes);
    return 0;
}
