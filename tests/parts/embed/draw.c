/* Draws a dump by dvg_draw, and writes what `dvg picture` writes of it.
 *
 *   draw [WORDS] < DUMP
 *
 * It looks for the end of the run within this many words, or DVG_MOST_WORDS. Each stroke that is
 * handed to the function is compared with that of dvg_stroke_at. Status 0: it was a picture; 1: it
 * was none; 2: memory was refused, or something is wrong.
 */
#include "dvg.h"

#include <inttypes.h>
#include <stdio.h>
#include <stdlib.h>

/* What the function for strokes is handed: where the next one goes, and how many there are. */
struct list {
    dvg_stroke strokes[DVG_MOST_WORDS];
    uint64_t count;
};

static void keep(void *context, dvg_stroke stroke)
{
    struct list *list = (struct list *)context;
    if (list->count < DVG_MOST_WORDS) {
        list->strokes[list->count] = stroke;
    }
    list->count++;
}

/* Writes the strokes of a picture. Whether they are those that the device gives. */
static bool write_picture(dvg *device, dvg_drawn drawn, const struct list *list)
{
    bool same = list->count == drawn.strokes && dvg_strokes(device) == drawn.strokes;
    printf("picture %" PRIu32 " %" PRIu64 "\n", drawn.words, drawn.strokes);
    for (uint64_t i = 0; i < list->count && same; i++) {
        dvg_stroke stroke = list->strokes[i], other = dvg_stroke_at(device, i);
        printf("%" PRIu32 " %" PRIu32 " %" PRIu32 " %" PRIu32 " %d\n", stroke.x0, stroke.y0,
               stroke.x1, stroke.y1, stroke.z);
        same = stroke.x0 == other.x0 && stroke.y0 == other.y0 && stroke.x1 == other.x1
               && stroke.y1 == other.y1 && stroke.z == other.z;
    }
    return same;
}

/* Writes how a run ended. The status. */
static int write_end(dvg *device, dvg_drawn drawn, const struct list *list, uint32_t most)
{
    if (drawn.last.kind == DVG_DONE) {
        return write_picture(device, drawn, list) ? 0 : 2;
    }
    if (list->count != 0 || drawn.strokes != 0) {
        return 2;
    }
    if (drawn.last.kind == DVG_BROKE) {
        printf("broke %03X %d\n", drawn.last.address, (int)dvg_break_of(drawn.last));
        return 1;
    }
    if (drawn.last.kind == (most == 0 ? DVG_STARTED : DVG_FETCHED) && drawn.words == most) {
        printf("endless\n");
        return 1;
    }
    return 2;
}

/* Whether a run ends in the same way, with as many strokes, where no function takes these, and
 * where its second half is a call of its own. */
static bool ends_alike(dvg *device, const uint8_t *dump, size_t length, uint32_t most,
                       dvg_drawn drawn)
{
    const uint8_t *rom = dump + DVG_RAM_BYTES;
    size_t rom_length = length - DVG_RAM_BYTES;
    dvg_drawn half = dvg_draw(device, dump, rom, rom_length, most / 2, NULL, NULL);
    dvg_answer last = half.last;
    if (last.kind == DVG_FETCHED || last.kind == DVG_STARTED) {
        uint32_t left = most - half.words;
        last = dvg_generator_run_to_halt(device, dump, rom, rom_length, left);
        if (left == 0) {
            return last.kind == DVG_WANTED && last.next == -1;
        }
    }
    return last.kind == drawn.last.kind && last.address == drawn.last.address
           && last.value == drawn.last.value && last.next == drawn.last.next
           && (last.kind != DVG_DONE || dvg_strokes(device) == drawn.strokes);
}

int main(int count, char **words)
{
    static uint8_t dump[DVG_MOST_STAGED + 1];
    static struct list list;
    size_t length = fread(dump, 1, sizeof dump, stdin);
    uint32_t most = count > 1 ? (uint32_t)strtoul(words[1], NULL, 10) : DVG_MOST_WORDS;
    dvg *device = NULL;
    dvg_drawn drawn;
    int status;
    if (length < DVG_RAM_BYTES || dvg_new(&device) != 0) {
        return 2;
    }
    drawn = dvg_draw(device, dump, dump + DVG_RAM_BYTES, length - DVG_RAM_BYTES, most, keep, &list);
    if (drawn.last.kind == DVG_WRONG_SIZE) {
        printf("%s\n", dvg_kind_text(drawn.last.kind));
        dvg_free(device);
        return 1;
    }
    status = write_end(device, drawn, &list, most);
    if (!ends_alike(device, dump, length, most, drawn)) {
        status = 2;
    }
    dvg_free(device);
    return status;
}
