/* Draws the first picture: a world over a ROM of returns, one frame of one vector. Prints it as
 * `dvg play` does.
 *
 *   ./lib && cc -O2 -I include examples/embed/first.c build/libdvg.a -o first && ./first
 */
#include "dvg.h"

#include <inttypes.h>
#include <stdio.h>

/* How many events have happened. */
static unsigned long events = 0;

/* Lets the driver tick this many times. */
static void tick(dvg *device, int count)
{
    for (int i = 0; i < count; i++) {
        dvg_tick(device);
        events++;
    }
}

/* Prints the picture that the last event finished. */
static void print_picture(dvg *device)
{
    uint64_t count = dvg_strokes(device);
    printf("picture %lu %" PRIu64 "\n", events - 1, count);
    for (uint64_t i = 0; i < count; i++) {
        dvg_stroke stroke = dvg_stroke_at(device, i);
        printf("%" PRIu32 " %" PRIu32 " ", stroke.x0, stroke.y0);
        printf("%" PRIu32 " %" PRIu32 " %d\n", stroke.x1, stroke.y1, stroke.z);
    }
}

/* Says what an answer is, where it isn't the one that is wanted. Whether it is. */
static bool is_as_wanted(dvg_answer answer, dvg_kind wanted)
{
    if (answer.kind == wanted) {
        return true;
    }
    fprintf(stderr, "first: %s", dvg_kind_text(answer.kind));
    if (answer.kind == DVG_REFUSED) {
        fprintf(stderr, ", %s at %d", dvg_fault_text(dvg_fault_of(answer)), answer.address);
    }
    fprintf(stderr, "\n");
    return false;
}

/* A ROM whose words are all D000, a return; low bytes first. */
static void fill_with_returns(uint8_t rom[DVG_ROM_BYTES])
{
    for (int i = 0; i < DVG_ROM_BYTES; i += 2) {
        rom[i] = 0x00;
        rom[i + 1] = 0xD0;
    }
}

/* Offers the frame, lets the driver write and publish it, and lets the generator draw it. Whether
 * it was drawn. */
static bool draw(dvg *device)
{
    tick(device, 2);
    dvg_labs(device, 512, 400, 0);
    dvg_vctr(device, 9, -100, 100, 7);
    dvg_halt(device);
    if (!is_as_wanted(dvg_offer(device), DVG_OFFERED)) {
        return false;
    }
    events++;
    tick(device, 14);
    dvg_strobe(device);
    events++;
    for (int i = 0; i < 12; i++) {
        dvg_answer answer = dvg_fetch(device);
        events++;
        if (answer.kind == DVG_DONE) {
            print_picture(device);
            return true;
        }
    }
    return false;
}

int main(void)
{
    static uint8_t rom[DVG_ROM_BYTES];
    dvg *device = NULL;
    bool drawn;
    fill_with_returns(rom);
    if (dvg_new(&device) != 0) {
        return 2;
    }
    drawn = is_as_wanted(dvg_open_world(device, NULL, rom, sizeof rom), DVG_OPENED) && draw(device);
    dvg_free(device);
    return drawn ? 0 : 1;
}
