/* How an emulator uses a driver alone and a generator alone: the RAM and the ROM are arrays of its
 * own, the driver's writes go into the RAM, and the generator is fed from both. Prints each picture
 * as `dvg play` does, with the step that finished it.
 *
 * To see what a RAM and a ROM draw, without a driver, dvg_draw is enough.
 *
 *   ./lib && cc -O2 -I include examples/embed/emulator.c build/libdvg.a -o emulator && ./emulator
 */
#include "dvg.h"

#include <inttypes.h>
#include <stdio.h>

/* The machine: a driver and a generator, which share a RAM, and a ROM beside it. */
struct machine {
    uint8_t ram[DVG_RAM_BYTES];
    uint8_t rom[DVG_ROM_BYTES];
    dvg *driver;
    dvg *generator;
    int32_t next; /* the byte that the generator wants next, or -1 where it is halted */
};

/* Word 800, the first of the ROM, and what stands there: a subroutine of three vectors. */
#define SHAPE 0x800
static const uint16_t shape_words[] = {0xF9F3, 0xFDF8, 0xF8F7, 0xD000};

/* The driver does one action. */
static dvg_answer tick(struct machine *machine)
{
    dvg_answer did = dvg_driver_tick(machine->driver, machine->next < 0, machine->ram[1]);
    if (did.kind == DVG_WROTE) {
        /* The address is below 2,048, whatever happens. */
        machine->ram[did.address] = (uint8_t)did.value;
    } else if (did.kind == DVG_SENT) {
        machine->next = dvg_strobe(machine->generator).next;
    }
    return did;
}

/* The generator fetches one byte. An emulator with another map of memory hands over the byte at
 * `next` by dvg_generator_fetch, or says dvg_generator_hole. */
static dvg_answer fetch(struct machine *machine)
{
    dvg_answer did = dvg_hand_from(machine->generator, machine->next, machine->ram, machine->rom,
                                   sizeof machine->rom);
    machine->next = did.next;
    return did;
}

/* Offers a frame of the shape at a place. Whether the driver took it. */
static bool offer_shape(dvg *driver, int x, int y)
{
    dvg_clear(driver);
    dvg_labs(driver, x, y, 3);
    dvg_call_rom(driver, SHAPE);
    dvg_vctr(driver, 4, 100, -50, 12);
    dvg_halt(driver);
    return dvg_offer(driver).kind == DVG_OFFERED;
}

/* Prints the picture that this step finished. */
static void print_picture(dvg *generator, int step)
{
    uint64_t count = dvg_strokes(generator);
    printf("picture %d %" PRIu64 "\n", step, count);
    for (uint64_t i = 0; i < count; i++) {
        dvg_stroke stroke = dvg_stroke_at(generator, i);
        printf("%" PRIu32 " %" PRIu32 " ", stroke.x0, stroke.y0);
        printf("%" PRIu32 " %" PRIu32 " %d\n", stroke.x1, stroke.y1, stroke.z);
    }
}

/* Lets the machine run until this many pictures are drawn. A step is an action of the driver and
 * two fetches. */
static bool run(struct machine *machine, int pictures)
{
    int frames = 0;
    for (int step = 0; step < 10000; step++) {
        if (tick(machine).kind == DVG_IDLE && offer_shape(machine->driver, 100 * frames, 400)) {
            frames++;
        }
        for (int i = 0; i < 2; i++) {
            dvg_answer fetched = fetch(machine);
            if (fetched.kind == DVG_BROKE || fetched.kind == DVG_NO_MEMORY) {
                fprintf(stderr, "emulator: %s %s\n", dvg_kind_text(fetched.kind),
                        dvg_break_text(dvg_break_of(fetched)));
                return false;
            }
            if (fetched.kind == DVG_DONE) {
                print_picture(machine->generator, step);
                if (--pictures == 0) {
                    return true;
                }
            }
        }
    }
    return false;
}

/* Puts the words of the shape into the ROM, low bytes first. */
static void fill_rom(uint8_t rom[DVG_ROM_BYTES])
{
    for (size_t i = 0; i < sizeof shape_words / sizeof shape_words[0]; i++) {
        rom[2 * i] = (uint8_t)(shape_words[i] & 0xFF);
        rom[2 * i + 1] = (uint8_t)(shape_words[i] >> 8);
    }
}

/* Opens both ends, and runs. */
static bool start(struct machine *machine)
{
    return dvg_open_driver(machine->driver, machine->rom, sizeof machine->rom).kind == DVG_OPENED
           && dvg_open_generator(machine->generator).kind == DVG_OPENED && run(machine, 3);
}

int main(void)
{
    static struct machine machine;
    bool drawn;
    machine.next = -1;
    fill_rom(machine.rom);
    if (dvg_new(&machine.driver) != 0) {
        return 2;
    }
    if (dvg_new(&machine.generator) != 0) {
        dvg_free(machine.driver);
        return 2;
    }
    drawn = start(&machine);
    dvg_free(machine.generator);
    dvg_free(machine.driver);
    return drawn ? 0 : 1;
}
