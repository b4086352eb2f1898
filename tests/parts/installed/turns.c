/* Tests what the library for C has beside its three functions: the version, and dvg_turns beside
 * dvg_turn over random requests. The last line is 'N passed, M failed'. */
#include "dvg.h"

#include <stdio.h>
#include <stdlib.h>
#include <string.h>

enum { MOST = 64, ROUNDS = 20000 };

static int passed;
static int failed;

static void expect(bool holds, const char *what)
{
    if (holds) {
        passed++;
    } else {
        failed++;
        printf("FAILED: %s\n", what);
    }
}

/* A device with a world in it, and a draft of one vector. */
static dvg *make_world(void)
{
    static uint8_t rom[DVG_ROM_BYTES];
    dvg *device = NULL;
    if (dvg_new(&device) != 0 || dvg_open_world(device, NULL, rom, sizeof rom).kind != DVG_OPENED) {
        exit(1);
    }
    dvg_labs(device, 512, 400, 0);
    dvg_vctr(device, 9, -100, 100, 7);
    dvg_halt(device);
    return device;
}

/* A request of a world that is mostly a tick or a fetch, and now and then one for a number. */
static uint64_t random_request(void)
{
    static const uint64_t often[] = {
        DVG_REQUEST_TICK, DVG_REQUEST_FETCH, DVG_REQUEST_FETCH, DVG_REQUEST_STROBE,
    };
    int choice = rand() % 40;
    if (choice < 36) {
        return often[choice % 4];
    }
    return choice < 38 ? DVG_REQUEST_OFFER : (uint64_t)(DVG_REQUEST_STROKES + rand() % 4);
}

/* Whether the same requests, one at a time, have these answers, and only the last one ends them. */
static bool is_the_same(dvg *device, const uint64_t *requests, const uint64_t *answers,
                        size_t asked, size_t count, size_t *dones)
{
    size_t k;
    for (k = 0; k < asked; k++) {
        bool is_done = requests[k] == DVG_REQUEST_FETCH && (answers[k] & 0xFF) == DVG_DONE;
        *dones += is_done;
        if (dvg_turn(device, requests[k]) != answers[k] || is_done != (k + 1 == asked && is_done)) {
            return false;
        }
    }
    return asked == count || (answers[asked - 1] & 0xFF) == DVG_DONE;
}

int main(void)
{
    dvg *one = make_world();
    dvg *many = make_world();
    uint64_t requests[MOST], answers[MOST];
    size_t dones = 0, k;
    int round, same = 0;
    char number[40];
    srand(1979);
    for (round = 0; round < ROUNDS; round++) {
        size_t count = 1 + (size_t)(rand() % MOST), asked;
        for (k = 0; k < count; k++) {
            requests[k] = random_request();
        }
        memcpy(answers, requests, sizeof answers);
        asked = dvg_turns(many, round % 2 == 0 ? requests : answers, answers, count);
        same += is_the_same(one, requests, answers, asked, count, &dones);
    }
    expect(same == ROUNDS, "dvg_turns answers what dvg_turn answers, and stops after a DVG_DONE");
    expect(dones > 1000, "pictures are finished among these");
    expect(dvg_turns(many, requests, answers, 0) == 0, "of no requests none is asked");
    expect(strcmp(dvg_version(), DVG_VERSION) == 0, "the library has the version of its header");
    snprintf(number, sizeof number, "%d.%d.%d", DVG_VERSION_NUMBER / 1000000,
             DVG_VERSION_NUMBER / 1000 % 1000, DVG_VERSION_NUMBER % 1000);
    expect(strcmp(number, DVG_VERSION) == 0, "the number of the version says the same");
    printf("%s\n", dvg_version());
    dvg_free(one);
    dvg_free(many);
    printf("%d passed, %d failed\n", passed, failed);
    return failed != 0;
}
