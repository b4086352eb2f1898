/* Plays random schedules with the 6502 driver, an instruction at a time, and writes traces for
 * `dvg play --all` with what this must answer:
 *
 *     schedules PROGRAM LABELS DRAFTS ROM ROM_LINES OUT SEED COUNT EVENTS
 *
 * OUT/N.trace and OUT/N.expected hold as many schedules as a trace may have, each after a reset of
 * the whole system. The generator here is one of its own: it has words, a stack and HALT, and
 * counts strokes. Strobes, fetches, resets of either end and NMIs come between any two
 * instructions. In each second schedule the NMI alone ticks; in the others it counts, and changes
 * bytes that aren't the driver's. The 6502 is that of cpu.h, or with -DSIM65 that of
 * sim65.h. What no trace can show is reported here, with status 1: an access that isn't the
 * driver's, a tick with two actions, a stack or a carry that is wrong. */
#include <stdarg.h>
#include <stdio.h>
#include <stdlib.h>
#ifdef SIM65
#include "sim65.h"
#else
#include "cpu.h"
#endif
#include "labels.h"

enum {
    CODE = 0x6800, VECTOR_RAM = 0x4000, HALT_FLAG = 0x2002, STROBE = 0x3000, RETURN_TO = 0xFFF0,
    MOST_EVENTS = 65000, MOST_BYTES = 1000000, PLACES = 0x200, NMI_VECTOR = 0xFFFA,
    NMI_AT = 0x6F00, TICKS_AT = NMI_AT + 8, TICKS_CALLED_AT = NMI_AT + 12, BEATS = 0x30
};

static uint8_t memory[65536], program[0x1800], rom[0x1000];
static int program_size, rom_size, variables_from, variables_to, phase_at, publish_at;
static cpu processor;
static int schedule;

static void fail(const char *format, ...)
{
    va_list list;
    va_start(list, format);
    printf("schedule %d: ", schedule);
    vprintf(format, list);
    printf("\n");
    va_end(list);
    exit(1);
}

/* --- Chance --- */

static uint64_t seed;

static int below(int count)
{
    seed ^= seed << 13;
    seed ^= seed >> 7;
    seed ^= seed << 17;
    return (int)((uint32_t)(seed >> 20) % (uint32_t)count);
}

static uint8_t any_byte(void) { return (uint8_t)below(256); }

/* --- Drafts, each with its words in half 0 --- */

typedef struct {
    int words, operations, buildable;
    uint16_t word[520];
    int at[520], size[520];
    char *text;
} draft;

static draft *drafts;
static int draft_count;

static void read_draft(FILE *file, draft *d)
{
    char line[100], *text;
    size_t length;
    FILE *out = open_memstream(&d->text, &length);
    for (int i = 0; i < d->operations; i++) {
        unsigned first, second;
        if (!fgets(line, sizeof line, file)) exit(1);
        text = strstr(line, "= ") + 2;
        d->size[i] = line[5] == '=' ? 1 : 2;
        d->at[i] = d->words;
        sscanf(line, "%4x %4x", &first, &second);
        d->word[d->words++] = (uint16_t)first;
        if (d->size[i] == 2) d->word[d->words++] = (uint16_t)second;
        fputs(text, out);
    }
    fclose(out);
}

static void read_drafts(const char *path)
{
    FILE *file = fopen(path, "r");
    char line[100];
    if (!file) exit(1);
    drafts = calloc(5000, sizeof *drafts);
    while (fgets(line, sizeof line, file)) {
        draft *d = drafts + draft_count++;
        sscanf(line, "draft %d %d", &d->operations, &d->buildable);
        read_draft(file, d);
    }
    fclose(file);
}

/* --- The events of a schedule, each with what `play --all` must say of it --- */

typedef struct {
    char said[20], entry[40];
    const char *draft;
} event;

static event events[MOST_EVENTS + 5000];
static int event_count, event_bytes, actions;

static void add_at(int place, const char *said, const char *draft_text, const char *entry)
{
    event *e = events + place;
    if (event_count >= MOST_EVENTS) fail("too many events");
    memmove(e + 1, e, (size_t)(event_count - place) * sizeof *e);
    memset(e, 0, sizeof *e);
    snprintf(e->said, sizeof e->said, "%s", said);
    snprintf(e->entry, sizeof e->entry, "%s", entry);
    e->draft = draft_text;
    event_count++;
    event_bytes += 20 + (draft_text ? (int)strlen(draft_text) : 0);
}

static void add(const char *said, const char *entry) { add_at(event_count, said, NULL, entry); }

static void act(const char *entry)
{
    actions++;
    add("tick", entry);
}

/* --- The generator --- */

static struct {
    int open, place, depth, stack[4], has_low, low, second, opcode, strokes;
} generator;
static int strobe_sent;
static long pictures;

static int vector_byte(int at)
{
    int behind = 0x1800 - rom_size;
    if (at < 0x800) return memory[VECTOR_RAM + at];
    if (at >= behind && at < 0x1800) return rom[at - behind];
    fail("the generator fetches byte %X, where nothing is", at);
    return 0;
}

static void strobe(void)
{
    if (strobe_sent) {
        memset(&generator, 0, sizeof generator);
        generator.open = 1;
    }
    add("strobe", strobe_sent ? "started" : "no strobe");
}

static void run_word(int word)
{
    if (generator.second) {
        generator.strokes += generator.opcode < 10 && word >> 12;
        generator.second = 0;
        generator.place++;
        return;
    }
    generator.opcode = word >> 12;
    switch (generator.opcode) {
    case 11:
        generator.open = 0;
        pictures++;
        break;
    case 12:
        if (generator.depth == 4) fail("a fifth call");
        generator.stack[generator.depth++] = generator.place + 1;
        generator.place = word & 0xFFF;
        break;
    case 13:
        if (!generator.depth) fail("a return without a call");
        generator.place = generator.stack[--generator.depth];
        break;
    case 14: generator.place = word & 0xFFF; break;
    case 15:
        generator.strokes += (word >> 4 & 15) != 0;
        generator.place++;
        break;
    default:
        generator.second = 1;
        generator.place++;
    }
}

static void fetch(void)
{
    char entry[40];
    int place = generator.place, byte, word;
    if (!generator.open) {
        add("fetch", "still");
        return;
    }
    byte = vector_byte(2 * place + generator.has_low);
    if (!generator.has_low) {
        generator.has_low = 1;
        generator.low = byte;
        snprintf(entry, sizeof entry, "low %03X %02X", place, byte);
        add("fetch", entry);
        return;
    }
    generator.has_low = 0;
    word = generator.low | byte << 8;
    run_word(word);
    if (generator.open) snprintf(entry, sizeof entry, "fetched %03X %04X", place, word);
    else snprintf(entry, sizeof entry, "done %03X %04X %d", place, word, generator.strokes);
    add("fetch", entry);
}

/* --- The bus --- */

static int in_nmi, guard_place, guard_published;
static int asking, asked_draft; /* the program asks for: 0 nothing, 1 a frame, 2 a redraw */

uint8_t bus_fetch(uint16_t at)
{
    if (at >= CODE && at < CODE + program_size) return memory[at];
    if (in_nmi && at >= NMI_AT && at < NMI_AT + 0x20) return memory[at];
    fail("an instruction at %04X", at);
    return 0;
}

uint8_t bus_read(uint16_t at, int dummy)
{
    if (at == HALT_FLAG && !dummy) {
        act(generator.open ? "read running" : "read halted");
        return generator.open ? 0xFF : 0x7F;
    }
    if (at == VECTOR_RAM + 1 && !dummy) act("peek");
    else if (at >= 0x2000 && at < CODE && !(dummy && at >= VECTOR_RAM + 2))
        fail("a read of %04X", at);
    if (!in_nmi && (at == phase_at || at == publish_at)) {
        guard_place = event_count;
        guard_published = memory[publish_at] == 4;
    }
    return memory[at];
}

static void take(void)
{
    if (asking == 1)
        add_at(event_count, "offer", drafts[asked_draft].text, "offered");
    else
        add("redraw", "asked");
    asking = 0;
}

void bus_write(uint16_t at, uint8_t value)
{
    char entry[40];
    int is_variable = at >= variables_from && at < variables_to;
    if (at == STROBE) {
        strobe_sent = 1;
        act("sent");
        return;
    }
    memory[at] = value;
    if (at >= VECTOR_RAM && at < VECTOR_RAM + 0x800) {
        snprintf(entry, sizeof entry, "wrote %03X %02X", at - VECTOR_RAM, value);
        act(entry);
    } else if (!is_variable && at >> 8 != 1 && !(in_nmi && at == BEATS)) {
        fail("a write of %04X", at);
    }
    if (!in_nmi && at == phase_at && asking) take();
}

/* --- Calls of the driver --- */

static int quiet, in_run, uses_nmi, chance_nmi, chance_generator, chance_reset;
static int cut;                         /* a reset came within a routine */
static int deepest = 0xFF;
static long resets_within, nmis, nmis_amid;

static void nmi(void);

/* What may come between two instructions. It answers 0 where a reset ends the call. */
static int others_act(void)
{
    if (quiet) return 1;
    if (chance_generator && !below(chance_generator)) {
        int count = (1 + below(20)) * (in_run ? 20 : 1);
        if (!below(in_run ? 500 : 6)) strobe();
        else if (!below(400)) {
            generator.open = 0;
            add("resetgen", "cleared");
        } else while (count-- && (generator.open || !in_run)) fetch();
    }
    if (!in_nmi && !below(chance_nmi)) {
        nmis_amid++;
        nmi();
    }
    if (!chance_reset || below(chance_reset)) return 1;
    resets_within++;
    cut = 1;
    return 0;
}

static int call(const char *name, uint8_t a, uint8_t x, uint8_t y)
{
    uint8_t stack = processor.s;
    long steps = 0;
    processor.a = a;
    processor.x = x;
    processor.y = y;
    memory[0x100 | processor.s--] = (RETURN_TO - 1) >> 8;
    memory[0x100 | processor.s--] = (RETURN_TO - 1) & 0xFF;
    processor.pc = (uint16_t)label(name);
    while (processor.pc != RETURN_TO) {
        if (!others_act()) return 0;
        if (!step(&processor)) fail("no opcode before %04X", processor.pc);
        if (++steps > 1000000) fail("%s doesn't end", name);
        if (processor.s < deepest) deepest = processor.s;
    }
    if (processor.s != stack) fail("%s leaves the stack at %02X", name, processor.s);
    return 1;
}

static int call_with_any(const char *name)
{
    return call(name, any_byte(), any_byte(), any_byte());
}

static int carry(void) { return processor.p & CARRY; }

/* Calls a routine that is to be refused, and to do nothing. */
static void call_refused(const char *name, uint8_t y)
{
    int before = event_count, was_quiet = quiet;
    quiet = 1;
    call(name, any_byte(), 0xC0, y);
    if (!carry() || event_count != before) fail("%s isn't refused", name);
    quiet = was_quiet;
}

static int is_idle(void) { return memory[phase_at] == 2; }

static int is_building(void) { return memory[phase_at] == 7; }

/* What came of a tick, where there were so many actions before it: one of them, or none where the
 * driver is idle, which has a line of its own. */
static void note_tick(int before, int was_idle, int was_building)
{
    if (actions - before > 1) fail("%d actions in a tick", actions - before);
    if (actions != before || was_building) return;
    if (!was_idle) fail("a tick does nothing");
    add("tick", "idle");
}

static void one_tick(void)
{
    int was_building = is_building(), was_idle = is_idle(), before = actions;
    if (call_with_any("dvg_tick")) note_tick(before, was_idle, was_building);
}

/* The code of an NMI, which counts, and ticks where it is told to. */
static void write_nmi(void)
{
    static const uint8_t code[] = {
        0x48, 0x8A, 0x48, 0x98, 0x48,   /* pha, txa, pha, tya, pha */
        0xE6, BEATS,                    /* inc BEATS */
        0xA9, 0, 0xF0, 3, 0x20, 0, 0,   /* lda #0, beq *+5, jsr 0 */
        0x68, 0xA8, 0x68, 0xAA, 0x68,   /* pla, tay, pla, tax, pla */
        0x40                            /* rti */
    };
    int ticks = label("dvg_ticks");
    memcpy(memory + NMI_AT, code, sizeof code);
    memory[TICKS_CALLED_AT] = (uint8_t)ticks;
    memory[TICKS_CALLED_AT + 1] = (uint8_t)(ticks >> 8);
    memory[NMI_VECTOR] = NMI_AT & 0xFF;
    memory[NMI_VECTOR + 1] = NMI_AT >> 8;
}

static int are_same_registers(const cpu *one, const cpu *other)
{
    return one->a == other->a && one->x == other->x && one->y == other->y && one->s == other->s &&
        one->pc == other->pc && !((one->p ^ other->p) & ~(BREAK | UNUSED));
}

/* The NMI comes, and its code runs to its end; it leaves other bytes in memory that no call looks
 * at. */
static void nmi(void)
{
    cpu kept = processor;
    int count = !uses_nmi ? 0 : below(3) ? 1 : 1 + below(6);
    int was_building = is_building(), was_idle = is_idle(), before = actions;
    nmis++;
    in_nmi = 1;
    memory[TICKS_AT] = (uint8_t)count;
    begin_nmi(&processor);
    for (int steps = 0; processor.s != kept.s; steps++) {
        if (!step(&processor)) fail("no opcode before %04X", processor.pc);
        if (steps > 2000) fail("an NMI doesn't end");
        if (processor.s < deepest) deepest = processor.s;
    }
    if (!are_same_registers(&processor, &kept)) fail("an NMI doesn't give back the registers");
    in_nmi = 0;
    if (count == 1) note_tick(before, was_idle, was_building);
    memory[BEATS + 1 + below(0x100 - BEATS - 1)] = any_byte();
    memory[0x100 + below(processor.s)] = any_byte();
}

static void run_until_idle(void)
{
    in_run = 1;
    if (call_with_any("dvg_run") && !is_idle()) fail("dvg_run ends in phase %d", memory[phase_at]);
    in_run = 0;
}

/* --- Resets --- */

static void boot_processor(void)
{
    int was_quiet = quiet;
    processor.s = 0xFF;
    cut = asking = 0;
    quiet = 1;
    call_with_any("dvg_reset");
    quiet = was_quiet;
}

static void reset_all(void)
{
    char said[20];
    uint8_t byte = any_byte();
    snprintf(said, sizeof said, "resetall %02X", byte);
    memset(memory + VECTOR_RAM, byte, 0x800);
    for (int i = 0; i < 0x200; i++) memory[i] = any_byte();
    generator.open = 0;
    strobe_sent = 0;
    add(said, "cleared");
    boot_processor();
}

static void reset_processor(void)
{
    add("resetcpu", "cleared");
    boot_processor();
}

static void reset_something(void)
{
    int what = below(3);
    if (what == 0) reset_processor();
    else if (what == 1) {
        generator.open = 0;
        add("resetgen", "cleared");
    } else reset_all();
}

/* --- The main program --- */

static int in_second_place;             /* where the table stands that was taken last */
static long frames;

static void put_words(int at, const uint16_t *words, int count)
{
    for (int k = 0; k < count; k++) {
        memory[at + 2 * k] = (uint8_t)words[k];
        memory[at + 2 * k + 1] = (uint8_t)(words[k] >> 8);
    }
}

/* The driver reads a table until it is idle, so another one stands elsewhere. */
static void offer(int i)
{
    draft *d = drafts + i;
    uint16_t size = (uint16_t)d->words;
    int table = (in_second_place ? 0x7000 : 0x7800) + below(PLACES), was = in_second_place;
    put_words(table, &size, 1);
    put_words(table + 2, d->word, d->words);
    asking = 1;
    asked_draft = i;
    if (!call("dvg_offer", (uint8_t)table, (uint8_t)(table >> 8), any_byte())) return;
    if (carry()) {
        if (!asking) fail("an offer is refused and taken");
        add_at(guard_place, "offer", d->text, "busy");
    } else {
        if (asking) fail("an offer is taken and changes no phase");
        in_second_place = !was;
        frames++;
    }
    asking = 0;
}

static void redraw(void)
{
    asking = 2;
    if (!call_with_any("dvg_redraw")) return;
    if (carry()) {
        if (!asking) fail("a redraw is refused and taken");
        add_at(guard_place, "redraw", NULL, guard_published ? "busy" : "nothing published");
    } else if (asking) fail("a redraw is taken and changes no phase");
    asking = 0;
}

static void set_pair(uint16_t first, uint16_t second)
{
    put_words(label("dvg_y"), &first, 1);
    put_words(label("dvg_x"), &second, 1);
}

/* Copies some operations from the k-th on. It answers how many, or 0 where it was cut. */
static int copy_some(const draft *d, int k)
{
    int last = k, bytes = 0, from = 0x7E00 + below(0xE0);
    while (last < d->operations - 1 && bytes + 2 * d->size[last] <= 254 && (last == k || below(4)))
        bytes += 2 * d->size[last++];
    put_words(from, d->word + d->at[k], bytes / 2);
    if (!call("dvg_copy", (uint8_t)from, (uint8_t)(from >> 8), (uint8_t)bytes)) return 0;
    return last - k;
}

/* Ten bits of magnitude and a sign, as dvg_vector takes them. */
static uint16_t as_number(int word)
{
    return (uint16_t)(word & 0x400 ? -(word & 0x3FF) : word & 0x3FF);
}

/* Puts a vector by its moves, if dvg_vector would not make another word of it. */
static int put_vector(uint16_t first, uint16_t second, int is_short)
{
    int scale = first >> 12, dx = second, dy = first, intensity = second >> 12;
    if (is_short) {
        scale = 2 + (first >> 11 & 1) + (first >> 2 & 2);
        dx = (first & 7) << 8;
        intensity = first >> 4 & 15;
    } else if (scale >= 2 && scale <= 5 && !((first | second) & 0xFF)) {
        return call_with_any("dvg_pair");
    }
    set_pair(as_number(dy & (is_short ? 0x700 : 0x7FF)), as_number(dx));
    return call("dvg_vector", (uint8_t)(16 * scale + intensity), any_byte(), any_byte());
}

/* Puts some operations from the k-th on, by any of the calls that can. */
static int put_some(const draft *d, int k)
{
    uint16_t first = d->word[d->at[k]], second = d->word[d->at[k] + 1];
    int how = below(4), is_short = first >> 12 == 15;
    if (how == 0) return copy_some(d, k);
    if (how == 3 && (is_short || first >> 12 < 10)) {
        set_pair(first, second);
        return put_vector(first, second, is_short);
    }
    if (d->size[k] == 1) return call("dvg_put", (uint8_t)first, (uint8_t)(first >> 8), any_byte());
    if (first >> 12 == 10 && how == 1) {
        set_pair(first & 0xFFF, second & 0xFFF);
        return call("dvg_labs", (uint8_t)(second >> 8 & 0xF0), any_byte(), any_byte());
    }
    set_pair(first, second);
    return call_with_any("dvg_pair");
}

static void put_while_busy(void)
{
    static const char *const routines[] = {
        "dvg_pair", "dvg_put", "dvg_labs", "dvg_copy", "dvg_close", "dvg_vector"
    };
    call_refused(routines[below(6)], (uint8_t)(2 * below(128)));
}

static void build(int i)
{
    draft *d = drafts + i;
    asking = 1;
    asked_draft = i;
    if (!call_with_any("dvg_open")) return;
    if (carry()) {
        add_at(guard_place, "offer", d->text, "busy");
        asking = 0;
        put_while_busy();
        return;
    }
    if (asking) fail("a frame is begun and no phase is changed");
    for (int k = 0; k < d->operations - 1;) {
        int done = put_some(d, k);
        if (!done) return;
        if (carry()) fail("no room for operation %d of a draft of %d words", k, d->words);
        k += done;
        if (!uses_nmi && !below(20)) one_tick();
        if (cut) return;
    }
    if (d->words == 511) call_refused("dvg_put", 0);
    if (!call_with_any("dvg_close")) return;
    if (carry()) fail("dvg_close is refused");
    frames++;
}

static void offer_or_build(void)
{
    int i = below(draft_count);
    if (drafts[i].buildable && below(2)) build(i);
    else offer(i);
}

/* One thing that a program may do, or that may come to it. */
static void do_something(int eager)
{
    int what = below(1000), count = below(40);
    if (what < 6 * eager || (is_idle() && !below(10))) offer_or_build();
    else if (what < 8 * eager) redraw();
    else if (what > 997) reset_something();
    else if (what > 990) strobe();
    else if (what > 960) while (count--) fetch();
    else if (uses_nmi) nmi();
    else if (chance_generator && !below(60)) run_until_idle();
    else if (!below(20)) call("dvg_ticks", (uint8_t)(1 + below(30)), any_byte(), any_byte());
    else one_tick();
    if (cut) {
        if (below(8)) reset_processor();
        else reset_all();
    }
}

static void play_schedule(int most)
{
    int eager = 1 + below(40);
    event_count = event_bytes = 0;
    uses_nmi = schedule & 1;
    chance_nmi = 2 + below(60);
    chance_generator = below(4) ? 3 + below(200) : 0;
    chance_reset = below(3) ? 300 + below(20000) : 0;
    in_run = in_nmi = 0;
    reset_all();
    while (event_count < most && event_bytes < MOST_BYTES - 30000) do_something(eager);
}

/* A sum of the bytes that each schedule leaves: all of page zero, and the vector RAM. */
static uint32_t sum_of_bytes;

static void sum_up(void)
{
    for (int i = 0; i < 0x100; i++) sum_of_bytes = sum_of_bytes * 31 + memory[i];
    for (int i = 0; i < 0x800; i++) sum_of_bytes = sum_of_bytes * 31 + memory[VECTOR_RAM + i];
}

/* --- Files --- */

static FILE *trace, *expected;
static int file_count, file_events, file_bytes;

static void close_files(void)
{
    if (!trace) return;
    fclose(trace);
    fclose(expected);
}

static void open_files(const char *folder, const char *rom_lines)
{
    char path[300], line[200];
    FILE *lines = fopen(rom_lines, "r");
    close_files();
    snprintf(path, sizeof path, "%s/%d.trace", folder, file_count);
    trace = fopen(path, "w");
    snprintf(path, sizeof path, "%s/%d.expected", folder, file_count++);
    expected = fopen(path, "w");
    if (!lines || !trace || !expected) exit(1);
    while (fgets(line, sizeof line, lines)) fputs(line, trace);
    fclose(lines);
    file_events = 0;
    file_bytes = 20000;
}

static void write_schedule(const char *folder, const char *rom_lines)
{
    int fits = file_events + event_count <= MOST_EVENTS && file_bytes + event_bytes <= MOST_BYTES;
    if (!trace || !fits) open_files(folder, rom_lines);
    for (int i = 0; i < event_count; i++) {
        fprintf(trace, "%s\n", events[i].said);
        if (events[i].draft) fprintf(trace, "%send\n", events[i].draft);
        fprintf(expected, "%d %s\n", file_events + i, events[i].entry);
    }
    file_events += event_count;
    file_bytes += event_bytes;
}

static int read_file(const char *path, uint8_t *into, size_t most)
{
    FILE *file = fopen(path, "rb");
    if (!file) exit(1);
    size_t size = fread(into, 1, most, file);
    fclose(file);
    return (int)size;
}

int main(int count, char **words)
{
    long total = 0;
    if (count != 10) return 64;
    ready_opcodes();
    program_size = read_file(words[1], program, sizeof program);
    read_labels(words[2]);
    read_drafts(words[3]);
    rom_size = read_file(words[4], rom, sizeof rom);
    seed = strtoull(words[7], 0, 10) * 0x9E3779B97F4A7C15u + 1;
    phase_at = label("dvg_phase");
    publish_at = label("publish");
    variables_from = label("dvg_phase");
    variables_to = label("length") + 1;
    memcpy(memory + CODE, program, (size_t)program_size);
    write_nmi();
    processor.p = UNUSED | INTERRUPT;
    for (schedule = 0; schedule < atoi(words[8]); schedule++) {
        play_schedule(atoi(words[9]));
        sum_up();
        write_schedule(words[6], words[5]);
        total += event_count;
    }
    close_files();
    printf("%d schedules, %ld events, %ld frames, %ld pictures, %ld resets within a routine, "
           "%ld NMIs, %ld amid a call, sum %08X, %d bytes of stack\n",
           schedule, total, frames, pictures, resets_within, nmis, nmis_amid, sum_of_bytes,
           0xFF - deepest);
    return 0;
}
