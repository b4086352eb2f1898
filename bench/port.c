/* Compares the archive of the port to C with its plain twin behind the same port, in one process:
 * rounds of each by turns, with the same requests, whose answers must have the same sum. Prints
 * nanoseconds each, and the ratios of the proved one. */
#include "port.h"

#include <stdio.h>
#include <stdlib.h>

/* How many rounds are timed, of each. */
#define ROUNDS 101

/* The names of the rows, and what is wanted of each: a ratio to the twin, and nanoseconds, at most;
 * 0 where nothing is. */
static const struct {
    const char *name;
    double most;
    double nanoseconds;
} rows[PORT_ROWS] = {
    [PORT_TICK] = {"tick, in whole frames", 1.1, 0},
    [PORT_FETCH] = {"fetch of a byte", 1.1, 0},
    [PORT_OFFER] = {"offer of 250 operations", 1.1, 0},
    [PORT_OPEN_WORLD] = {"opening of a world", 0, 10000},
    [PORT_OPEN_DRIVER] = {"opening of a driver alone", 0, 10000},
    [PORT_FIRST_OFFER] = {"opening of a world, first offer", 0, 0},
    [PORT_DRIVER_TICK] = {"tick of a driver alone", 1.1, 0},
    [PORT_GENERATOR_FETCH] = {"byte of a generator alone", 1.1, 0},
    [PORT_PUSH] = {"push of an operation", 0, 0},
    [PORT_STAGE] = {"staging of a byte", 0, 0},
    [PORT_STROKE] = {"stroke that is told", 0, 0},
};

/* Those that are compared. */
enum contender { PROVED, PLAIN, CONTENDERS };

static void (*const round_of[CONTENDERS])(struct port_round *) = {
    [PROVED] = proved_round,
    [PLAIN] = plain_round,
};

/* Nanoseconds each, of a row in each round. */
static double times[CONTENDERS][PORT_ROWS][ROUNDS];

/* Runs a round, and keeps its times. */
static uint64_t run(int contender, int number)
{
    struct port_round took;
    round_of[contender](&took);
    for (int row = 0; row < PORT_ROWS; row++) {
        times[contender][row][number] = took.nanoseconds[row] / (double)took.count[row];
    }
    return took.sum;
}

static int by_size(const void *left, const void *right)
{
    double a = *(const double *)left, b = *(const double *)right;
    return (a > b) - (a < b);
}

/* Prints a wanted number, and answers whether what was found is over it. */
static int print_wanted(double found, double wanted, const char *unit)
{
    if (wanted > 0) {
        printf(" %7.1f%s", wanted, unit);
        return found > wanted;
    }
    printf(" %7s", "");
    return 0;
}

/* Prints a row, of which the times are sorted, and answers how often it is over what is wanted. */
static int print_row(int row)
{
    double middle[CONTENDERS], least[CONTENDERS];
    int over;
    for (int contender = 0; contender < CONTENDERS; contender++) {
        middle[contender] = times[contender][row][ROUNDS / 2];
        least[contender] = times[contender][row][0];
    }
    printf("%-32s %10.2f %10.2f %7.2f %7.2f", rows[row].name, middle[PROVED], middle[PLAIN],
           middle[PROVED] / middle[PLAIN], least[PROVED] / least[PLAIN]);
    if (rows[row].nanoseconds > 0) {
        over = print_wanted(middle[PROVED], rows[row].nanoseconds, " ns");
    } else {
        over = print_wanted(middle[PROVED] / middle[PLAIN], rows[row].most, "");
    }
    printf("\n");
    return over;
}

/* Runs a round of each, whose order changes so that whatever else the machine does meets all alike.
 * Answers whether they answered the same. */
static int run_each(int number)
{
    uint64_t sums[CONTENDERS];
    for (int turn = 0; turn < CONTENDERS; turn++) {
        int contender = (number + turn) % CONTENDERS;
        sums[contender] = run(contender, number);
    }
    return sums[PROVED] == sums[PLAIN];
}

int main(void)
{
    int over = 0;
    run_each(0);
    for (int number = 0; number < ROUNDS; number++) {
        if (!run_each(number)) {
            printf("the answers differ\n");
            return 1;
        }
    }
    printf("Nanoseconds each, by the medians of %d rounds; ", ROUNDS);
    printf("proved / plain of the medians and of the least.\n\n");
    printf("%-32s %10s %10s %7s %7s %7s\n", "row", "proved", "plain", "ratio", "least", "wanted");
    for (int row = 0; row < PORT_ROWS; row++) {
        for (int contender = 0; contender < CONTENDERS; contender++) {
            qsort(times[contender][row], ROUNDS, sizeof times[contender][row][0], by_size);
        }
        over += print_row(row);
    }
    printf("%d over what is wanted\n", over);
    return 0;
}
