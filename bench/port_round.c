/* A round of requests through the port to C. It is compiled twice: with ROUND as proved_round, and
 * with ROUND as plain_round and the names of the plain one's three functions in the place of
 * dvg_new, dvg_turn and dvg_free. */
#define _POSIX_C_SOURCE 200809L
#include "dvg.h"
#include "port.h"

#include <stdlib.h>
#include <string.h>
#include <time.h>

/* How many frames a world draws, and a driver and a generator of their own. */
#define FRAMES 100

/* How often each part is opened. */
#define OPENINGS 200

static uint8_t rom[DVG_ROM_BYTES];

static double now(void)
{
    struct timespec time;
    clock_gettime(CLOCK_MONOTONIC, &time);
    return 1e9 * (double)time.tv_sec + (double)time.tv_nsec;
}

/* Counts what was done since a time in this row. */
static void count(struct port_round *round, enum port_row row, double start, uint64_t times)
{
    round->nanoseconds[row] += now() - start;
    round->count[row] += times;
}

/* Ends the program where an answer isn't what it must be. */
static dvg_answer want(dvg_answer answer, dvg_kind kind)
{
    if (answer.kind != kind) {
        abort();
    }
    return answer;
}

/* Adds 250 operations: a LABS, vectors that are seen, and HALT. */
static void push(struct port_round *round, dvg *device)
{
    dvg_clear(device);
    double start = now();
    dvg_labs(device, 512, 400, 3);
    for (int i = 0; i < 248; i++) {
        dvg_vctr(device, i % 10, 4 * i - 500, 500 - 4 * i, 1 + i % 15);
    }
    want(dvg_halt(device), DVG_PUSHED);
    count(round, PORT_PUSH, start, 250);
}

/* Offers the draft. */
static void offer(struct port_round *round, dvg *device)
{
    double start = now();
    want(dvg_offer(device), DVG_OFFERED);
    count(round, PORT_OFFER, start, 1);
}

/* A world draws whole frames: each is offered, written and published by ticks, and fetched. */
static void draw_frames(struct port_round *round, dvg *device)
{
    want(dvg_open_world(device, NULL, rom, sizeof rom), DVG_OPENED);
    dvg_tick(device);
    dvg_tick(device);
    for (int frame = 0; frame < FRAMES; frame++) {
        dvg_answer answer;
        uint64_t times = 0;
        push(round, device);
        offer(round, device);
        double start = now();
        do {
            answer = dvg_tick(device);
            round->sum += answer.value;
            times++;
        } while (answer.kind != DVG_SENT);
        count(round, PORT_TICK, start, times);
        want(dvg_strobe(device), DVG_STARTED);
        times = 0;
        start = now();
        do {
            answer = dvg_fetch(device);
            round->sum += answer.value;
            times++;
        } while (answer.kind != DVG_DONE);
        count(round, PORT_FETCH, start, times);
        times = dvg_strokes(device);
        start = now();
        for (uint64_t i = 0; i < times; i++) {
            round->sum += dvg_stroke_at(device, i).x1;
        }
        count(round, PORT_STROKE, start, times);
    }
}

/* A driver alone writes whole frames into a RAM of the caller's. */
static void write_frames(struct port_round *round, dvg *device, uint8_t *ram)
{
    dvg_open_driver(device, rom, sizeof rom);
    dvg_driver_tick(device, true, ram[1]);
    dvg_driver_tick(device, true, ram[1]);
    for (int frame = 0; frame < FRAMES; frame++) {
        dvg_answer answer;
        uint64_t times = 0;
        push(round, device);
        want(dvg_offer(device), DVG_OFFERED);
        double start = now();
        do {
            answer = dvg_driver_tick(device, true, ram[1]);
            if (answer.kind == DVG_WROTE) {
                ram[answer.address] = (uint8_t)answer.value;
            }
            times++;
        } while (answer.kind != DVG_SENT);
        count(round, PORT_DRIVER_TICK, start, times);
    }
}

/* A generator alone draws what stands in a RAM of the caller's. */
static void fetch_frames(struct port_round *round, dvg *device, const uint8_t *ram)
{
    want(dvg_open_generator(device), DVG_OPENED);
    for (int frame = 0; frame < FRAMES; frame++) {
        uint64_t times = 0;
        dvg_answer answer = want(dvg_strobe(device), DVG_STARTED);
        double start = now();
        while (answer.next >= 0) {
            answer = dvg_generator_fetch(device, ram[answer.next]);
            round->sum += answer.value;
            times++;
        }
        count(round, PORT_GENERATOR_FETCH, start, times);
        want(answer, DVG_DONE);
    }
}

/* Opens a world and a driver often. The bytes are staged before. */
static void open_often(struct port_round *round, dvg *device)
{
    for (int i = 0; i < OPENINGS; i++) {
        dvg_unstage(device);
        want(dvg_stage_byte(device, 0, DVG_RAM_BYTES), DVG_STAGED);
        double start = now();
        want(dvg_stage_bytes(device, rom, sizeof rom), DVG_STAGED);
        count(round, PORT_STAGE, start, sizeof rom);
        start = now();
        want(dvg_ask(device, DVG_REQUEST_OPEN_WORLD), DVG_OPENED);
        count(round, PORT_OPEN_WORLD, start, 1);
        dvg_unstage(device);
        want(dvg_stage_bytes(device, rom, sizeof rom), DVG_STAGED);
        start = now();
        want(dvg_ask(device, DVG_REQUEST_OPEN_DRIVER), DVG_OPENED);
        count(round, PORT_OPEN_DRIVER, start, 1);
    }
}

/* Opens a world and makes it its first offer, often: the draft is checked, though the driver isn't
 * idle yet. */
static void offer_first(struct port_round *round, dvg *device)
{
    dvg_clear(device);
    dvg_labs(device, 512, 400, 0);
    dvg_vctr(device, 9, -100, 100, 7);
    dvg_halt(device);
    dvg_unstage(device);
    want(dvg_stage_byte(device, 0, DVG_RAM_BYTES), DVG_STAGED);
    want(dvg_stage_bytes(device, rom, sizeof rom), DVG_STAGED);
    for (int i = 0; i < OPENINGS; i++) {
        double start = now();
        want(dvg_ask(device, DVG_REQUEST_OPEN_WORLD), DVG_OPENED);
        want(dvg_offer(device), DVG_BUSY);
        count(round, PORT_FIRST_OFFER, start, 1);
    }
}

void ROUND(struct port_round *round)
{
    static uint8_t ram[DVG_RAM_BYTES];
    dvg *device = NULL;
    memset(round, 0, sizeof *round);
    memset(ram, 0, sizeof ram);
    for (size_t i = 1; i < sizeof rom; i += 2) {
        rom[i] = 0xD0;
    }
    if (dvg_new(&device) != 0) {
        abort();
    }
    draw_frames(round, device);
    write_frames(round, device, ram);
    fetch_frames(round, device, ram);
    open_often(round, device);
    offer_first(round, device);
    dvg_free(device);
}
