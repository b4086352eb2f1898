/* Has a device do what takes most of the stack, on a thread with this many KB of stack: as many as
 * the first word says, or the header where that is missing. */
#define _POSIX_C_SOURCE 200809L
#include "dvg.h"

#include <pthread.h>
#include <stdio.h>
#include <stdlib.h>
#include <string.h>

/* --- What is done --- */

static uint8_t rom[DVG_LARGE_ROM_BYTES];

/* Pushes a draft that comes to every word of the ROM. */
static void push_longest(dvg *device)
{
    dvg_clear(device);
    dvg_labs(device, 0, 0, 0);
    dvg_jump_rom(device, 0x400);
    for (int i = 2; i < 510; i++) {
        dvg_halt(device);
    }
}

/* Saves a world that writes the longest draft, and restores it. */
static bool save_world(dvg *device)
{
    static uint8_t bytes[DVG_SAVED_WORLD_BYTES];
    dvg_open_world(device, NULL, rom, sizeof rom);
    dvg_tick(device);
    dvg_tick(device);
    push_longest(device);
    dvg_offer(device);
    return dvg_restore(device, bytes, dvg_save(device, bytes, sizeof bytes)).kind == DVG_OPENED;
}

/* Opens all, and offers the longest draft, one that is refused and one that comes to every word of
 * the ROM. */
static void *use(void *nothing)
{
    dvg *device = NULL;
    bool done;
    if (dvg_new(&device) != 0) {
        return NULL;
    }
    done = dvg_open_generator(device).kind == DVG_OPENED;
    done = dvg_open_judge(device).kind == DVG_OPENED && done;
    done = dvg_judge_started(device).kind == DVG_ONE_MOMENT && done;
    done = dvg_open_world(device, NULL, rom, sizeof rom).kind == DVG_OPENED && done;
    done = dvg_reset_all(device, NULL).kind == DVG_CLEARED && done;
    done = save_world(device) && done;
    dvg_clear(device);
    done = dvg_open_driver(device, rom, sizeof rom).kind == DVG_OPENED && done;
    dvg_driver_tick(device, true, 0);
    dvg_driver_tick(device, true, 0);
    dvg_labs(device, 0, 0, 0);
    dvg_return(device);
    done = dvg_fault_of(dvg_offer(device)) == DVG_FAULT_NO_CALLER && done;
    push_longest(device);
    done = dvg_offer(device).kind == DVG_OFFERED && done;
    done = dvg_draw(device, rom, rom, sizeof rom, 4096, NULL, NULL).words > 0 && done;
    done = dvg_shut(device).kind == DVG_CLOSED && done;
    dvg_free(device);
    return done ? rom : nothing;
}

int main(int count, char **words)
{
    size_t kilobytes = count > 1 ? (size_t)strtoul(words[1], NULL, 10) : 0;
    size_t bytes = 1024 * (kilobytes == 0 ? DVG_STACK_KB : kilobytes);
    pthread_attr_t attributes;
    pthread_t thread;
    void *done = NULL;
    /* SVECs, and a HALT as the ROM's last word. */
    for (size_t i = 1; i < sizeof rom; i += 2) {
        rom[i] = 0xF0;
    }
    rom[sizeof rom - 1] = 0xB0;
    if (pthread_attr_init(&attributes) != 0 || pthread_attr_setstacksize(&attributes, bytes) != 0
        || pthread_create(&thread, &attributes, use, NULL) != 0
        || pthread_join(thread, &done) != 0) {
        printf("no thread with %zu bytes of stack\n", bytes);
        return 2;
    }
    printf("%s\n", done == NULL ? "failed" : "done");
    return done == NULL ? 1 : 0;
}
