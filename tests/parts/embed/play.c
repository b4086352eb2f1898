/* Plays the text of a trace through the port to C, and writes what `dvg play --all` writes of it.
 *
 *   play whole|apart < TRACE
 *
 * `whole` plays it on a world. `apart` plays it on a driver alone and a generator alone, with a RAM
 * and a ROM of this program's own between them; what comes of it must be the same. The trace's text
 * is one without a fault: 1 is the status where this program can't read it, and 2 where memory is
 * refused.
 */
#include "dvg.h"

#include <inttypes.h>
#include <stdio.h>
#include <stdlib.h>
#include <string.h>

/* The longest line that is read, with its end. */
#define MOST_LINE 256

/* The word address after a ROM's last word. */
#define ROM_END 0xC00u

/* What plays: a world, or a driver and a generator with what lies between them. */
struct player {
    bool apart;
    bool open;
    /* The world, or the driver alone. */
    dvg *device;
    /* The generator alone. */
    dvg *generator;
    uint8_t ram[DVG_RAM_BYTES];
    uint8_t rom[DVG_LARGE_ROM_BYTES];
    size_t rom_length;
    /* Whether the driver has sent a strobe since the last reset of the whole system. */
    bool sent;
    /* How many events have happened. */
    unsigned long events;
};

/* Ends the program: the text isn't one that can be played, or memory was refused. */
static void give_up(int status, const char *why)
{
    fprintf(stderr, "play: %s\n", why);
    exit(status);
}

/* --- The two ends apart --- */

/* The driver does one action, on the RAM. */
static dvg_answer tick_apart(struct player *player)
{
    bool halted = dvg_wants(player->generator).kind == DVG_STILL;
    dvg_answer did = dvg_driver_tick(player->device, halted, player->ram[1]);
    if (did.kind == DVG_WROTE) {
        player->ram[did.address] = (uint8_t)did.value;
    } else if (did.kind == DVG_SENT) {
        player->sent = true;
    }
    return did;
}

/* A strobe arrives, if one was sent. */
static dvg_answer strobe_apart(struct player *player)
{
    return player->sent ? dvg_strobe(player->generator) : dvg_answer_of(DVG_NO_STROBE);
}

/* The generator fetches a byte of the RAM or the ROM, or finds a hole. */
static dvg_answer fetch_apart(struct player *player)
{
    dvg_answer wanted = dvg_wants(player->generator);
    size_t at = 2 * (size_t)wanted.address + wanted.value;
    size_t rom = 2 * (size_t)ROM_END - player->rom_length;
    if (wanted.kind != DVG_WANTED) {
        return wanted;
    }
    if (at < DVG_RAM_BYTES) {
        return dvg_generator_fetch(player->generator, player->ram[at]);
    }
    if (at >= rom && at < 2 * ROM_END) {
        return dvg_generator_fetch(player->generator, player->rom[at - rom]);
    }
    return dvg_generator_hole(player->generator);
}

/* Both ends are reset, with this RAM. */
static dvg_answer reset_all_apart(struct player *player, const uint8_t *ram)
{
    memcpy(player->ram, ram, sizeof player->ram);
    player->sent = false;
    dvg_reset_generator(player->generator);
    return dvg_reset_processor(player->device);
}

/* --- What is written --- */

/* Writes the strokes of the run that was just finished. */
static void write_strokes(dvg *device)
{
    uint64_t count = dvg_strokes(device);
    printf(" %" PRIu64 "\n", count);
    for (uint64_t i = 0; i < count; i++) {
        dvg_stroke stroke = dvg_stroke_at(device, i);
        printf("%" PRIu32 " %" PRIu32 " %" PRIu32 " %" PRIu32 " %d\n", stroke.x0, stroke.y0,
               stroke.x1, stroke.y1, stroke.z);
    }
}

/* Writes why a draft was refused. */
static void write_refusal(dvg_answer answer)
{
    dvg_fault fault = dvg_fault_of(answer);
    printf(" refused %d %s", (int)fault, dvg_fault_text(fault));
    if (fault == DVG_FAULT_TARGET || fault == DVG_FAULT_RUNS_OFF) {
        printf(" %d", answer.address);
    } else if (dvg_in_rom(answer)) {
        printf(" word %03X", answer.address);
    } else if (fault >= DVG_FAULT_OUT_OF_ROM && fault <= DVG_FAULT_NO_CALLER) {
        printf(" op %d", answer.address);
    }
    printf("\n");
}

/* Writes what came of the next event. */
static void write_entry(struct player *player, dvg_answer answer)
{
    unsigned address = answer.address, value = answer.value;
    printf("%lu", player->events++);
    switch (answer.kind) {
    case DVG_OFFERED: printf(" offered\n"); break;
    case DVG_REFUSED: write_refusal(answer); break;
    case DVG_BUSY: printf(" busy\n"); break;
    case DVG_ASKED: printf(" asked\n"); break;
    case DVG_NOTHING_PUBLISHED: printf(" nothing published\n"); break;
    case DVG_PEEK: printf(" peek\n"); break;
    case DVG_WROTE: printf(" wrote %03X %02X\n", address, value); break;
    case DVG_READ: printf(value == 1 ? " read halted\n" : " read running\n"); break;
    case DVG_SENT: printf(" sent\n"); break;
    case DVG_IDLE: printf(" idle\n"); break;
    case DVG_STARTED: printf(" started\n"); break;
    case DVG_NO_STROBE: printf(" no strobe\n"); break;
    case DVG_LOW: printf(" low %03X %02X\n", address, value); break;
    case DVG_FETCHED: printf(" fetched %03X %04X\n", address, value); break;
    case DVG_DONE:
        printf(" done %03X %04X", address, value);
        write_strokes(player->apart ? player->generator : player->device);
        break;
    case DVG_BROKE: printf(" broke %03X %d\n", address, (int)dvg_break_of(answer)); break;
    case DVG_STILL: printf(" still\n"); break;
    case DVG_CLEARED: printf(" cleared\n"); break;
    case DVG_NO_MEMORY: give_up(2, "out of memory"); break;
    default: printf(" answer %d\n", (int)answer.kind); break;
    }
}

/* --- Events --- */

/* What can happen this many times in a row. */
enum event { TICK, STROBE, FETCH, REDRAW, RESET_GENERATOR, RESET_PROCESSOR, OFFER };

/* Lets an event happen. */
static dvg_answer happen(struct player *player, enum event event)
{
    dvg *device = player->device;
    switch (event) {
    case TICK: return player->apart ? tick_apart(player) : dvg_tick(device);
    case STROBE: return player->apart ? strobe_apart(player) : dvg_strobe(device);
    case FETCH: return player->apart ? fetch_apart(player) : dvg_fetch(device);
    case REDRAW: return dvg_redraw(device);
    case RESET_GENERATOR: return dvg_reset_generator(player->apart ? player->generator : device);
    case RESET_PROCESSOR: return dvg_reset_processor(device);
    default: return dvg_offer(device);
    }
}

/* Makes a device. */
static dvg *new_device(void)
{
    dvg *device = NULL;
    if (dvg_new(&device) != 0) {
        give_up(2, "out of memory");
    }
    return device;
}

/* Opens what plays, over the ROM that the text gave so far, where it isn't open yet. */
static void open_player(struct player *player)
{
    dvg_answer opened;
    if (player->open) {
        return;
    }
    player->open = true;
    if (player->apart) {
        dvg_open_generator(player->generator);
        opened = dvg_open_driver(player->device, player->rom, player->rom_length);
    } else {
        opened = dvg_open_world(player->device, NULL, player->rom, player->rom_length);
    }
    if (opened.kind != DVG_OPENED) {
        give_up(2, "out of memory");
    }
}

/* Lets an event happen this many times. */
static void happen_often(struct player *player, enum event event, long count)
{
    open_player(player);
    for (; count > 0; count--) {
        write_entry(player, happen(player, event));
    }
}

/* Resets both ends, with a RAM of this byte. */
static void reset_all(struct player *player, uint8_t byte)
{
    uint8_t ram[DVG_RAM_BYTES];
    memset(ram, byte, sizeof ram);
    open_player(player);
    write_entry(player,
                player->apart ? reset_all_apart(player, ram) : dvg_reset_all(player->device, ram));
}

/* --- Lines --- */

/* The ROM has this many bytes, each word a return. */
static void set_rom(struct player *player, size_t length)
{
    player->rom_length = length;
    for (size_t i = 0; i < length; i += 2) {
        player->rom[i] = 0x00;
        player->rom[i + 1] = 0xD0;
    }
}

/* Puts the words of a line into the ROM: after `rom ` come an address and up to eight words. */
static bool read_rom(struct player *player, char *text)
{
    unsigned long word = strtoul(text, &text, 16);
    size_t at = 2 * (size_t)word - (2 * (size_t)ROM_END - player->rom_length);
    for (; *text == ' '; at += 2) {
        word = strtoul(text, &text, 16);
        if (at >= player->rom_length || word > 0xFFFF) {
            return false;
        }
        player->rom[at] = (uint8_t)(word & 0xFF);
        player->rom[at + 1] = (uint8_t)(word >> 8);
    }
    return *text == '\0';
}

/* Whether a line is a name with this many decimal numbers after it, and which. */
static bool is_named(const char *line, const char *name, int count, int *numbers)
{
    size_t length = strlen(name);
    if (strncmp(line, name, length) != 0) {
        return false;
    }
    line += length;
    for (int i = 0; i < count; i++) {
        char *behind;
        if (*line != ' ') {
            return false;
        }
        numbers[i] = (int)strtol(line + 1, &behind, 10);
        line = behind;
    }
    return *line == '\0';
}

/* Adds the operation of a line to the draft. */
static bool read_operation(dvg *device, const char *line)
{
    int n[4];
    dvg_answer pushed;
    if (is_named(line, "vctr", 4, n)) {
        pushed = dvg_vctr(device, n[0], n[1], n[2], n[3]);
    } else if (is_named(line, "svec", 4, n)) {
        pushed = dvg_svec(device, n[0], n[1], n[2], n[3]);
    } else if (is_named(line, "labs", 3, n)) {
        pushed = dvg_labs(device, n[0], n[1], n[2]);
    } else if (is_named(line, "call", 1, n)) {
        pushed = dvg_call(device, n[0]);
    } else if (is_named(line, "jump", 1, n)) {
        pushed = dvg_jump(device, n[0]);
    } else if (strncmp(line, "callrom ", 8) == 0) {
        pushed = dvg_call_rom(device, (int)strtol(line + 8, NULL, 16));
    } else if (strncmp(line, "jumprom ", 8) == 0) {
        pushed = dvg_jump_rom(device, (int)strtol(line + 8, NULL, 16));
    } else if (strcmp(line, "return") == 0) {
        pushed = dvg_return(device);
    } else if (strcmp(line, "halt") == 0) {
        pushed = dvg_halt(device);
    } else {
        return false;
    }
    return pushed.kind == DVG_PUSHED;
}

/* Lets the events of a line happen, or puts its words into the ROM. */
static bool read_line(struct player *player, char *line)
{
    static const char *const names[] = {"tick",   "strobe",   "fetch",
                                        "redraw", "resetgen", "resetcpu"};
    int count;
    for (int i = TICK; i <= RESET_PROCESSOR; i++) {
        if (strcmp(line, names[i]) == 0) {
            happen_often(player, (enum event)i, 1);
            return true;
        }
        if (is_named(line, names[i], 1, &count)) {
            happen_often(player, (enum event)i, count);
            return true;
        }
    }
    if (strncmp(line, "resetall ", 9) == 0) {
        reset_all(player, (uint8_t)(strtoul(line + 9, NULL, 16) & 0xFF));
        return true;
    }
    if (is_named(line, "map", 1, &count)
        && (count == DVG_ROM_BYTES || count == DVG_LARGE_ROM_BYTES)) {
        set_rom(player, (size_t)count);
        return true;
    }
    return strncmp(line, "rom ", 4) == 0 && read_rom(player, line + 4);
}

/* Plays the text on standard input. */
static void play(struct player *player)
{
    char line[MOST_LINE];
    bool offering = false;
    while (fgets(line, sizeof line, stdin) != NULL) {
        line[strcspn(line, "\n")] = '\0';
        if (line[0] == '\0' || line[0] == '#') {
            continue;
        }
        if (offering && strcmp(line, "end") == 0) {
            offering = false;
            happen_often(player, OFFER, 1);
        } else if (offering) {
            if (!read_operation(player->device, line)) {
                give_up(1, line);
            }
        } else if (strcmp(line, "offer") == 0) {
            offering = true;
            dvg_clear(player->device);
        } else if (!read_line(player, line)) {
            give_up(1, line);
        }
    }
}

int main(int count, char **words)
{
    static struct player player;
    if (count != 2 || (strcmp(words[1], "whole") != 0 && strcmp(words[1], "apart") != 0)) {
        fprintf(stderr, "usage: play whole|apart\n");
        return 64;
    }
    player.apart = strcmp(words[1], "apart") == 0;
    player.device = new_device();
    if (player.apart) {
        player.generator = new_device();
    }
    set_rom(&player, DVG_ROM_BYTES);
    play(&player);
    dvg_free(player.device);
    if (player.apart) {
        dvg_free(player.generator);
    }
    return fflush(stdout) == 0 ? 0 : 2;
}
