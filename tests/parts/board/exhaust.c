/* Tries what the course of the 6502 driver hangs on, one by one, without other events:
 *
 *     exhaust PROGRAM LABELS
 *
 * Each number of words, for each half, as a first frame and as a later one, at several alignments
 * of the table; each number of ticks, also where there is nothing to do; each word; each length at
 * each place of what a program builds; each refusal in each phase. It then prints the bytes of each
 * routine, and the fewest and most cycles that were seen, with the JSR and the RTS. A difference
 * ends it with status 1. */
#include <stdio.h>
#include <stdlib.h>
#include "cpu.h"
#include "labels.h"

enum { PEEKED, WROTE, READ, SENT };
enum {
    CODE = 0x6800, TABLE = 0x7100, VECTOR_RAM = 0x4000, HALT_FLAG = 0x2002, STROBE = 0x3000,
    RETURN_TO = 0xFFF0, IDLE = 2, WAIT = 5, BUILD = 7, WRITE = 0x80
};

static uint8_t memory[65536];
static cpu processor;
static int phase_at, publish_at, tick_at, is_halted = 1;
static struct {
    int kind, at, value;
} actions[3000];
static int action_count;

static void fail(const char *what, int a, int b, int c)
{
    printf("%s: %d %d %d\n", what, a, b, c);
    exit(1);
}

/* A number by chance, the same ones on each machine. */
static int any(void)
{
    static uint32_t seed = 1979;
    seed ^= seed << 13;
    seed ^= seed >> 17;
    seed ^= seed << 5;
    return (int)(seed >> 8);
}

static void note(int kind, int at, int value)
{
    if (action_count == 3000) fail("too many actions", 0, 0, 0);
    actions[action_count].kind = kind;
    actions[action_count].at = at;
    actions[action_count++].value = value;
}

uint8_t bus_fetch(uint16_t at) { return memory[at]; }

uint8_t bus_read(uint16_t at, int dummy)
{
    if (at == HALT_FLAG && !dummy) {
        note(READ, 0, is_halted);
        return is_halted ? 0x7F : 0xFF;
    }
    if (at == VECTOR_RAM + 1 && !dummy)
        note(PEEKED, at, 0);
    else if (at >= 0x2000 && at < CODE && !(dummy && at >= VECTOR_RAM + 2))
        fail("a read", at, dummy, 0);
    return memory[at];
}

void bus_write(uint16_t at, uint8_t value)
{
    if (at == STROBE) {
        note(SENT, 0, 0);
        return;
    }
    if (at >= VECTOR_RAM && at < VECTOR_RAM + 0x800) note(WROTE, at - VECTOR_RAM, value);
    else if (at >= 0x200) fail("a write", at, value, 0);
    memory[at] = value;
}

/* --- Cycles --- */

static struct {
    const char *name;
    int least, most;
} costs[40];
static int cost_count;

static void cost(const char *name, int cycles)
{
    int i = 0;
    while (i < cost_count && strcmp(costs[i].name, name)) i++;
    if (i == cost_count) {
        costs[cost_count].name = name;
        costs[cost_count++].least = cycles;
    }
    if (cycles < costs[i].least) costs[i].least = cycles;
    if (cycles > costs[i].most) costs[i].most = cycles;
}

/* Calls a routine, and answers the carry. Its cycles, with those of the JSR, are in `cycles`, and
 * how often it came to dvg_tick in `ticks_done`. */
static int cycles, ticks_done;

static int call(const char *name, int a, int x, int y)
{
    int guard = 0;
    ticks_done = 0;
    processor.a = (uint8_t)a;
    processor.x = (uint8_t)x;
    processor.y = (uint8_t)y;
    processor.s = 0xFD;
    processor.cycles = 6;
    memory[0x1FF] = (RETURN_TO - 1) >> 8;
    memory[0x1FE] = (RETURN_TO - 1) & 0xFF;
    processor.pc = (uint16_t)label(name);
    while (processor.pc != RETURN_TO) {
        ticks_done += processor.pc == tick_at;
        if (step(&processor) && ++guard <= 100000) continue;
        printf("%s doesn't return: it is at %04X\n", name, processor.pc);
        exit(1);
    }
    if (processor.s != 0xFF) fail("the stack", processor.s, 0, 0);
    cycles = (int)processor.cycles;
    return processor.p & CARRY;
}

static void tick(void)
{
    static const char *const names[] = { "peek", "byte", "read", "strobe" };
    int before = action_count;
    call("dvg_tick", any(), any(), any());
    if (action_count > before + 1) fail("actions of a tick", action_count - before, 0, 0);
    if (action_count == before) cost("idle", cycles);
    else if (actions[before].kind == WROTE && actions[before].at < 2) cost("word zero", cycles);
    else cost(names[actions[before].kind], cycles);
}

/* --- What must come --- */

/* A driver that was just booted, so that `half` is free. */
static void boot(int half, int is_first)
{
    memory[VECTOR_RAM + 1] = half ? 0xE0 : 0xE2;
    call("dvg_reset", any(), any(), any());
    cost("dvg_reset", cycles);
    tick();
    tick();
    if (memory[phase_at] != IDLE) fail("the boot", half, is_first, memory[phase_at]);
    if (!is_first) memory[publish_at] = 4;
    action_count = 0;
}

static void expect_write(int i, int at, int value)
{
    if (i >= action_count) fail("a write is missing", i, at, value);
    if (actions[i].kind != WROTE || actions[i].at != at || actions[i].value != value)
        fail("a write", i, actions[i].at, actions[i].value);
}

/* After the bytes of a frame: word zero, a read of the flag, the strobe, and nothing else. */
static void expect_publication(int i, int half, int is_first)
{
    if (is_first) expect_write(i++, 0, 1);
    expect_write(i++, 1, half ? 0xE2 : 0xE0);
    if (action_count != i + 2) fail("actions", action_count, i + 2, half);
    if (actions[i].kind != READ || actions[i + 1].kind != SENT)
        fail("the strobe", i, half, is_first);
}

static int base(int half) { return half ? 0x402 : 2; }

static int is_local(int high)
{
    return high == 0xC0 || high == 0xC1 || high == 0xE0 || high == 0xE1;
}

static void expect_table(int table, int words, int half)
{
    int is_second = 0;
    for (int k = 0; k < words; k++) {
        int low = memory[table + 2 + 2 * k], high = memory[table + 3 + 2 * k];
        int wanted = !is_second && half && is_local(high) ? high + 2 : high;
        expect_write(2 * k, base(half) + 2 * k, low);
        expect_write(2 * k + 1, base(half) + 2 * k + 1, wanted);
        is_second = !is_second && high < 0xB0;
    }
}

/* A byte of a table: each high byte with a meaning of its own comes often. Words C2xx, C3xx, E2xx
 * and E3xx are calls and jumps within half 1, and stand in no table. */
static int random_high(void)
{
    static const int some[] = { 0xC0, 0xC1, 0xE0, 0xE1, 0xC8, 0xE8, 0xC4, 0xD0, 0xF0, 0xA0, 0xB0 };
    int high = any() & 255;
    if (!(any() & 1)) high = some[any() % 11];
    return (high & 0xDE) == 0xC2 ? high - 2 : high;
}

static void fill_table(int table, int words)
{
    memory[table] = (uint8_t)words;
    memory[table + 1] = (uint8_t)(words >> 8);
    for (int k = 0; k < words; k++) {
        memory[table + 2 + 2 * k] = (uint8_t)(any());
        memory[table + 3 + 2 * k] = (uint8_t)random_high();
    }
}

static void offer(int table)
{
    if (call("dvg_offer", table, table >> 8, any())) fail("an offer is refused", table, 0, 0);
    cost("dvg_offer", cycles);
}

static void finish(int bytes_left)
{
    int before = action_count, left;
    call("dvg_run", any(), any(), any());
    left = action_count - before;
    if (memory[phase_at] != IDLE) fail("dvg_run ends in phase", memory[phase_at], 0, 0);
    if (left > 1000) cost("dvg_run a byte", (cycles + bytes_left / 2) / bytes_left);
    if (before == 0 && bytes_left == 1022) cost("dvg_run of 511 words", cycles);
}

/* --- Tables --- */

static long table_count;

static void try_table(int words, int half, int is_first, int align)
{
    int table = TABLE + align, ticks = (words * 7 + align + is_first) % (2 * words + 3);
    if (words == 511 && align % 3 == 0) ticks = 0;
    boot(half, is_first);
    fill_table(table, words);
    offer(table);
    for (int i = 0; i < ticks && memory[phase_at] != IDLE; i++) {
        if (align % 2) tick();
        else call("dvg_ticks", 1, any(), any());
        if (action_count != i + 1) fail("actions after ticks", action_count, i + 1, words);
    }
    finish(2 * words > ticks ? 2 * words - ticks : 1);
    expect_table(table, words, half);
    expect_publication(2 * words, half, is_first);
    table_count++;
}

static void try_tables(void)
{
    for (int words = 1; words <= 511; words++)
        for (int kind = 0; kind < 4; kind++)
            for (int align = words == 511 ? 0 : 253; align < 256; align++)
                try_table(words, kind & 1, kind >> 1, align);
}

/* dvg_ticks does as many ticks as A says, and 256 for 0. */
static void try_ticks(void)
{
    for (int count = 0; count < 256; count++) {
        boot(1, 0);
        fill_table(TABLE, 200);
        offer(TABLE);
        call("dvg_ticks", count, any(), any());
        if (action_count != (count ? count : 256)) fail("dvg_ticks", count, action_count, 0);
    }
    boot(1, 0);
    tick();
    int one = cycles, many;
    call("dvg_ticks", 2, any(), any());
    many = cycles;
    call("dvg_ticks", 1, any(), any());
    cost("dvg_ticks a tick", many - cycles - one);
    cost("dvg_ticks but its ticks", 2 * cycles - many);
}

/* Where there is nothing to do, idle or while a frame is being built, dvg_run returns without a
 * tick. dvg_ticks does each of its ticks, which do nothing, and leaves its count at 0. */
static void try_resting(int phase)
{
    uint8_t kept[0x100];
    int left = label("left");
    boot(phase == BUILD, 0);
    if (phase == BUILD && call("dvg_open", any(), any(), any())) fail("dvg_open", phase, 0, 0);
    memory[left] = 0;
    memcpy(kept, memory, sizeof kept);
    for (int count = -1; count < 256; count++) {
        const char *routine = count < 0 ? "dvg_run" : "dvg_ticks";
        int wanted = count < 0 ? 0 : count == 0 ? 256 : count;
        call(routine, count, any(), any());
        if (memory[left]) fail("dvg_ticks leaves its count", phase, wanted, memory[left]);
        if (ticks_done != wanted) {
            printf("%s in phase %d: %d ticks, not %d\n", routine, phase, ticks_done, wanted);
            exit(1);
        }
        if (action_count || memcmp(kept, memory, sizeof kept)) fail(routine, phase, count, 0);
    }
}

/* Each word, as a first one and as the second one of a LABS, in both halves. */
static void try_word(int word, int is_second, int half, int by_ticks)
{
    static const uint8_t table[] = { 2, 0, 0x12, 0xA0, 0x34, 0xF0 };
    int place = TABLE + 2 + 2 * is_second;
    boot(half, 0);
    memcpy(memory + TABLE, table, sizeof table);
    memory[place] = (uint8_t)word;
    memory[place + 1] = (uint8_t)(word >> 8);
    offer(TABLE);
    for (int i = 0; i < 4 && by_ticks; i++) tick();
    finish(4);
    expect_table(TABLE, 2, half);
    expect_publication(4, half, 0);
}

static long try_words(void)
{
    long count = 0;
    for (int kind = 0; kind < 8; kind++)
        for (int word = 0; word < 65536; word++) {
            if ((word >> 8 & 0xDE) == 0xC2 && !(kind & 1)) continue;
            if (word % 3 && (word & 255) > 3) continue;
            try_word(word, kind & 1, kind >> 1 & 1, kind >> 2);
            count++;
        }
    return count;
}

/* The flag is read while the generator runs, and nothing goes on. */
static void try_waiting(void)
{
    for (int boots = 0; boots < 2; boots++) {
        call("dvg_reset", 0, 0, 0);
        tick();
        if (!boots) {
            boot(0, 1);
            fill_table(TABLE, 1);
            offer(TABLE);
            for (int i = 0; i < 4; i++) tick();
        }
        action_count = 0;
        is_halted = 0;
        for (int i = 0; i < 300; i++) tick();
        is_halted = 1;
        for (int i = 0; i < 300; i++)
            if (actions[i].kind != READ || action_count != 300) fail("waiting", boots, i, 0);
        tick();
        if (memory[phase_at] != (boots ? IDLE : 6))
            fail("after waiting", boots, memory[phase_at], 0);
        tick();
        if (action_count != 302 - boots) fail("actions after waiting", action_count, boots, 0);
    }
}

/* --- What a program builds --- */

static long build_count;

static int put(const char *how, int words, int from)
{
    int x = label("dvg_x"), y = label("dvg_y"), refused;
    if (!strcmp(how, "dvg_put")) refused = call(how, memory[from], memory[from + 1], any());
    else if (!strcmp(how, "dvg_copy")) refused = call(how, from, from >> 8, 2 * words);
    else {
        memcpy(memory + y, memory + from, 2);
        memcpy(memory + x, memory + from + 2, 2);
        memory[x + 1] ^= strcmp(how, "dvg_labs") ? 0 : any() & 0xF0;
        refused = call(how, (memory[from + 3] & 0xF0) | (any() & 15), any(), any());
        if (!strcmp(how, "dvg_labs")) memory[from + 1] = (memory[from + 1] & 15) | 0xA0;
    }
    if (!refused && strcmp(how, "dvg_copy")) cost(how, cycles);
    if (!refused && words == 127) cost("dvg_copy of 254 bytes", cycles);
    return !refused;
}

static void try_put(const char *how, int words, int place, int half)
{
    int from = TABLE + place % 256;
    action_count = 0;
    for (int i = 0; i < 2 * words; i++) memory[from + i] = (uint8_t)(any());
    if (put(how, words, from) != (place + words <= 510)) fail("room", place, words, half);
    if (action_count != (place + words <= 510 ? 2 * words : 0))
        fail("puts", place, words, action_count);
    for (int i = 0; i < action_count; i++)
        expect_write(i, base(half) + 2 * place + i, memory[from + i]);
    if (memory[phase_at] != BUILD) fail("the phase", memory[phase_at], place, words);
    build_count++;
}

static void try_close(int place, int half, int is_first)
{
    action_count = 0;
    tick();
    if (action_count) fail("a tick while building", place, half, 0);
    if (call("dvg_close", any(), any(), any())) fail("dvg_close is refused", place, half, 0);
    cost("dvg_close", cycles);
    finish(1);
    expect_write(0, base(half) + 2 * place, 0);
    expect_write(1, base(half) + 2 * place + 1, 0xB0);
    expect_publication(2, half, is_first);
}

/* At each place, from the same state, each call of each length. */
static void try_building(int half, int is_first)
{
    uint8_t kept[0x200], vectors[0x800];
    boot(half, is_first);
    if (call("dvg_open", any(), any(), any())) fail("dvg_open is refused", half, 0, 0);
    cost("dvg_open", cycles);
    for (int place = 0; place <= 510; place++) {
        memcpy(kept, memory, sizeof kept);
        memcpy(vectors, memory + VECTOR_RAM, sizeof vectors);
        for (int how = 0; how < 131; how++) {
            memcpy(memory, kept, sizeof kept);
            if (how < 128) try_put("dvg_copy", how, place, half);
            else if (how == 128) try_put("dvg_put", 1, place, half);
            else try_put(how == 129 ? "dvg_pair" : "dvg_labs", 2, place, half);
        }
        memcpy(memory, kept, sizeof kept);
        try_close(place, half, is_first);
        memcpy(memory, kept, sizeof kept);
        memcpy(memory + VECTOR_RAM, vectors, sizeof vectors);
        if (place < 510 && call("dvg_put", 0x70, 0xF0, 0)) fail("the next word", place, half, 0);
    }
}

/* --- Vectors --- */

static long vector_count;

/* The words of a vector as a reckoning gives them: how many, or 0, where there is none. */
static int reckon(int dx, int dy, int scale, int intensity, uint8_t *bytes)
{
    int x = abs(dx), y = abs(dy), first, second;
    if (x > 1023 || y > 1023 || scale > 9) return 0;
    if (scale >= 2 && scale <= 5 && x % 256 + y % 256 == 0) {
        first = 15 * 4096 + (scale - 2) % 2 * 2048 + (dy < 0) * 1024 + y + intensity * 16 +
            (scale - 2) / 2 * 8 + (dx < 0) * 4 + x / 256;
        second = 0;
    } else {
        first = scale * 4096 + (dy < 0) * 1024 + y;
        second = intensity * 4096 + (dx < 0) * 1024 + x;
    }
    for (int i = 0; i < 2; i++) {
        bytes[i] = (uint8_t)(first >> 8 * i);
        bytes[2 + i] = (uint8_t)(second >> 8 * i);
    }
    return first >> 12 == 15 ? 1 : 2;
}

/* A move, more often a short one, none, or one at the edge of what is possible. */
static int some_move(void)
{
    static const int edges[] = { 0, 0, 1, 255, 256, 257, 512, 768, 1022, 1023, 1024, 1025, 32767 };
    int move = any() & 1 ? edges[any() % 13] : (any() | any() << 8) & 0x7FF;
    return any() & 1 ? -move : move;
}

static void set_number(const char *name, int value)
{
    memory[label(name)] = (uint8_t)value;
    memory[label(name) + 1] = (uint8_t)(value >> 8);
}

/* Where there is room, and where there is none. */
static void try_vector(int place, int half)
{
    uint8_t bytes[4];
    int dx = some_move(), dy = some_move(), scale = any() & 15, intensity = any() & 15;
    int words = reckon(dx, dy, scale, intensity, bytes), refused;
    int fits = words && place + words <= 510;
    set_number("dvg_x", dx);
    set_number("dvg_y", dy);
    action_count = 0;
    refused = call("dvg_vector", 16 * scale + intensity, any(), any());
    if (refused == fits) fail("a vector", dx, dy, 16 * scale + intensity);
    if (action_count != (fits ? 2 * words : 0)) fail("its bytes", dx, dy, action_count);
    for (int i = 0; i < action_count; i++) expect_write(i, base(half) + 2 * place + i, bytes[i]);
    if (fits) cost(words == 1 ? "dvg_vector of one word" : "dvg_vector of two words", cycles);
    vector_count++;
}

/* A long list of vectors by chance, at some places of both halves. */
static void try_vectors(long count)
{
    static const int places[] = { 0, 1, 126, 127, 254, 255, 300, 507, 508, 509, 510 };
    for (int i = 0; i < 22; i++) {
        uint8_t kept[0x200];
        boot(i & 1, 0);
        call("dvg_open", any(), any(), any());
        for (int place = 0; place < places[i / 2]; place++) call("dvg_put", any(), 0xF0, 0);
        memcpy(kept, memory, sizeof kept);
        for (long k = 0; k < count / 22; k++) {
            memcpy(memory, kept, sizeof kept);
            try_vector(places[i / 2], i & 1);
        }
    }
}

/* --- Refusals: nothing happens, and no byte of the driver changes --- */

static void expect_refusal(const char *name, int phase, int publish)
{
    uint8_t kept[0x100];
    memory[phase_at] = (uint8_t)phase;
    memory[publish_at] = (uint8_t)publish;
    for (int i = phase_at + 1; i < label("dvg_y"); i++)
        if (i != publish_at) memory[i] = (uint8_t)any();
    memcpy(kept, memory, sizeof kept);
    action_count = 0;
    if (!call(name, any(), any(), 2)) fail(name, phase, publish, 0);
    if (action_count || memcmp(kept, memory, (size_t)label("dvg_y"))) fail(name, phase, publish, 1);
}

static void try_refusals(void)
{
    static const char *const routines[] = {
        "dvg_offer", "dvg_open", "dvg_redraw", "dvg_put", "dvg_pair", "dvg_labs", "dvg_copy",
        "dvg_close", "dvg_vector"
    };
    static const int phases[] = { 0, 1, 2, 3, 4, 5, 6, 7, 0x80 };
    for (int i = 0; i < 9; i++)
        for (int k = 0; k < 9; k++)
            for (int publish = 3; publish <= 4; publish++) {
                int right = k < 3 ? IDLE : BUILD;
                if (phases[i] != right || (k == 2 && publish == 3))
                    expect_refusal(routines[k], phases[i], publish);
            }
    boot(0, 0);
    if (call("dvg_redraw", 0, 0, 0) || memory[phase_at] != WAIT) fail("dvg_redraw", 0, 0, 0);
    cost("dvg_redraw", cycles);
    finish(1);
    if (action_count != 2 || actions[0].kind != READ || actions[1].kind != SENT)
        fail("a redraw", 0, 0, 0);
}

/* --- What is printed --- */

static void tell_bytes(int size)
{
    static const char *const routines[] = {
        "dvg_reset", "dvg_run", "dvg_ticks", "dvg_tick", "dvg_offer", "dvg_open", "dvg_redraw",
        "dvg_put", "dvg_labs", "dvg_pair", "dvg_copy", "dvg_close", "dvg_vector"
    };
    for (int i = 0; i < 13; i++) {
        int next = i < 12 ? label(routines[i + 1]) : CODE + size;
        printf("%s: %d bytes\n", routines[i], next - label(routines[i]));
    }
    printf("all: %d bytes\n", size);
}

static void tell_cycles(void)
{
    for (int i = 0; i < cost_count; i++) {
        printf("%s: ", costs[i].name);
        if (costs[i].least != costs[i].most) printf("%d to ", costs[i].least);
        printf("%d cycles\n", costs[i].most);
    }
}

int main(int count, char **words)
{
    long word_count;
    int size;
    FILE *file;
    if (count != 3) return 64;
    ready_opcodes();
    file = fopen(words[1], "rb");
    if (!file) return 1;
    size = (int)fread(memory + CODE, 1, 0x800, file);
    fclose(file);
    read_labels(words[2]);
    phase_at = label("dvg_phase");
    publish_at = label("publish");
    tick_at = label("dvg_tick");
    processor.p = UNUSED | INTERRUPT;
    try_tables();
    try_ticks();
    try_resting(IDLE);
    try_resting(BUILD);
    word_count = try_words();
    try_waiting();
    for (int kind = 0; kind < 4; kind++) try_building(kind & 1, kind >> 1);
    try_vectors(1000000);
    try_refusals();
    tell_bytes(size);
    tell_cycles();
    printf("%ld tables, %ld words, %ld puts, %ld vectors\n", table_count, word_count, build_count,
        vector_count);
    return 0;
}
