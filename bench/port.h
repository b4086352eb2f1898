/* What a round of requests through the port to C takes: what bench/port_round.c fills in, and
 * bench/port.c compares. */
#ifndef PORT_H
#define PORT_H

#include <stdint.h>

/* What is timed. */
enum port_row {
    PORT_TICK,
    PORT_FETCH,
    PORT_OFFER,
    PORT_OPEN_WORLD,
    PORT_OPEN_DRIVER,
    PORT_FIRST_OFFER,
    PORT_DRIVER_TICK,
    PORT_GENERATOR_FETCH,
    PORT_PUSH,
    PORT_STAGE,
    PORT_STROKE,
    PORT_ROWS
};

/* For each row how long all of it took, how often it was done, and a sum over the answers of
 * all. */
struct port_round {
    double nanoseconds[PORT_ROWS];
    uint64_t count[PORT_ROWS];
    uint64_t sum;
};

/* A round by the proved archive, and one by its plain twin. */
void proved_round(struct port_round *round);
void plain_round(struct port_round *round);

#endif
