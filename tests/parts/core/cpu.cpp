/* dvg_cpu in Verilator beside the 6502 of ../board/cpu.h, over random instructions, with clocks in
 * which nothing is answered, NMIs, and resets at any time.
 *
 *     cpu INSTRUCTIONS SEED
 *     cpu SUMS SEED sums
 *     cpu STARTS SEED program PROGRAM RAMS
 *
 * Each access of an instruction is compared in its order, but for the dummy ones, which the circuit
 * leaves out. Before most instructions A, X, Y and the flags are loaded, and after most they are
 * stored. With `sums` they are ADC and SBC, of any mode, until so many had D set: A and the flags
 * are stored after each, and most others begin with what the one before left, amid what sets D and
 * clears it, pushes and pulls flags, compares and counts. With `program` it is PROGRAM, 6,144 bytes
 * for the board, up to its write of 3000 of that number, from 1. RAMS has 2,048 bytes for each:
 * what 4000 to 47FF are then. No NMI comes, and the self-test switch is closed. Prints what was
 * played, or the first difference (status 1). */
#include "Vdvg_cpu.h"
#include <string>
#include "bench.h"
extern "C" {
#include "../board/cpu.h"
}

enum { PLACES = 65536, RAM = 0x4000, RAM_BYTES = 2048, PROGRAM_BYTES = 0x1800 };
enum { STROBE = 0x3000, SELF_TEST = 0x2007, MIRROR = 0x8000 };

struct Access {
    bool write;
    uint16_t at;
    uint8_t byte;
};

static struct {
    uint64_t instructions, sums, cycles, waits, nmis, unknown, resets, amid, starts;
} counts;

static Vdvg_cpu circuit;
static cpu port;
static uint8_t memory[PLACES], ports[PLACES];
static std::vector<Access> made, wanted;
/* The vector RAM at each strobe of a program, if one is played. */
static std::vector<uint8_t> rams;
/* The instruction writes a byte back, and first as it was. */
static bool changes;
/* `nmi`, when it was looked at last, and whether an NMI is to come. */
static bool was, due;

uint8_t bus_fetch(uint16_t at)
{
    wanted.push_back({false, at, ports[at]});
    return ports[at];
}

uint8_t bus_read(uint16_t at, int dummy) { return dummy ? 0 : bus_fetch(at); }

void bus_write(uint16_t at, uint8_t value)
{
    if (changes && wanted.back().write) {
        wanted.pop_back();
    }
    wanted.push_back({true, at, value});
    ports[at] = value;
}

static void put(uint16_t at, uint8_t byte) { memory[at] = ports[at] = byte; }

/* A byte, more often one at an edge. */
static uint8_t any_byte()
{
    static const uint8_t edges[] = {0, 1, 0x7F, 0x80, 0xFF, 0xFE, 0x40, 0x3F};
    return (uint8_t)(once_in(2) ? edges[below(8)] : below(256));
}

/* A program sends the strobe. */
static void agree_on_ram()
{
    agree("a start", counts.starts * RAM_BYTES < rams.size(), 1);
    const uint8_t *ram = &rams[counts.starts++ * RAM_BYTES];
    done_so_far = counts.starts;
    for (int at = 0; at < RAM_BYTES; at++) {
        agree("a byte of the vector RAM", memory[RAM + at], ram[at]);
    }
}

/* A cycle, after some clocks without one. */
static void play_cycle()
{
    circuit.reset = 0;
    while (once_in(4)) {
        circuit.step = 0;
        circuit.nmi = below(2);
        circuit.din = below(256);
        edge(circuit);
        counts.waits++;
    }
    circuit.step = 1;
    circuit.nmi = was ? !once_in(3) : rams.empty() && once_in(200);
    circuit.din = below(256);
    circuit.eval();
    Access access = {(bool)circuit.write, circuit.at, memory[circuit.at]};
    if (access.write) {
        access.byte = memory[access.at] = circuit.dout;
        if (access.at == STROBE && !rams.empty()) {
            agree_on_ram();
        }
    } else {
        circuit.din = access.byte;
    }
    made.push_back(access);
    due = due || (circuit.nmi && !was);
    was = circuit.nmi;
    edge(circuit);
    counts.cycles++;
}

/* The clock of a reset, in which any other pin may be high. */
static void play_reset()
{
    circuit.reset = 1;
    circuit.step = below(2);
    circuit.nmi = was = once_in(2);
    circuit.din = below(256);
    edge(circuit);
    due = false;
    counts.resets++;
}

/* All accesses since the last call are those of the port. */
static void agree_on_accesses()
{
    agree("accesses", made.size(), wanted.size());
    for (size_t k = 0; k < made.size(); k++) {
        agree("write", made[k].write, wanted[k].write);
        agree("address", made[k].at, wanted[k].at);
        agree("byte", made[k].byte, wanted[k].byte);
        agree("memory", memory[made[k].at], ports[made[k].at]);
    }
    made.clear();
    wanted.clear();
}

/* An NMI that is to come, or an instruction of the memory. */
static void play_next()
{
    bool takes_nmi = due;
    agree("sync", circuit.sync, !takes_nmi);
    if (takes_nmi) {
        due = changes = false;
        begin_nmi(&port);
        counts.nmis++;
    } else {
        changes = writes_back(ports[port.pc]);
        uint16_t here = port.pc;
        if (!step(&port)) {
            port.pc = here;                              /* it is read again */
            counts.unknown++;
        }
    }
    for (size_t k = wanted.size(); k > 0; k--) {
        play_cycle();
    }
    agree_on_accesses();
}

static bool is_sum(uint8_t opcode)
{
    int index = opcode_index[opcode];
    return index >= 0 && (opcodes[index].operation == ADC || opcodes[index].operation == SBC);
}

/* An instruction of these bytes comes next; an NMI that is due comes before it. */
static void play(uint8_t opcode, uint8_t first, uint8_t second)
{
    while (due) {
        play_next();
    }
    put(port.pc, opcode);
    put((uint16_t)(port.pc + 1), first);
    put((uint16_t)(port.pc + 2), second);
    counts.sums += is_sum(opcode) && (port.p & DECIMAL);
    play_next();
    counts.instructions++;
}

static void load_registers()
{
    play(0xA9, any_byte(), 0);                           /* LDA, LDX, LDY */
    play(0xA2, any_byte(), 0);
    play(0xA0, any_byte(), 0);
    put((uint16_t)(0x100 | (uint8_t)(port.s + 1)), any_byte());
    play(0x28, 0, 0);                                    /* PLP */
}

static void store_registers()
{
    play(0x08, 0, 0);                                    /* PHP, STA, STX, STY */
    play(0x85, any_byte(), 0);
    play(0x86, any_byte(), 0);
    play(0x84, any_byte(), 0);
}

/* What a reset leads to: S, I and PC, and nothing else. */
static void begin_anew()
{
    if (rams.empty()) {
        put(0xFFFC, (uint8_t)below(256));
        put(0xFFFD, (uint8_t)(3 + below(0xF0)));
    }
    for (int k = 0; k < 2; k++) {
        play_cycle();
        wanted.push_back({false, (uint16_t)(0xFFFC + k), ports[0xFFFC + k]});
    }
    agree_on_accesses();
    port.s = 0xFD;
    port.p |= INTERRUPT;
    port.pc = (uint16_t)(ports[0xFFFC] | ports[0xFFFD] << 8);
}

/* A reset amid an instruction, which may have changed registers: they are loaded anew. */
static void reset_amid()
{
    for (uint32_t k = below(5); k > 0; k--) {
        play_cycle();
    }
    for (const Access &access : made) {
        put(access.at, memory[access.at]);
    }
    made.clear();
    play_reset();
    begin_anew();
    load_registers();
    counts.amid++;
}

/* No instruction is amid the stack, or ends the memory. */
static void stay_inside()
{
    if (port.pc < 0x300 || port.pc > 0xFF00) {
        play(0x4C, (uint8_t)below(256), (uint8_t)(3 + below(0xF0)));
    }
}

static void play_any()
{
    stay_inside();
    if (!once_in(4)) {
        load_registers();
    }
    if (once_in(5000) || (due && once_in(50))) {
        play_reset();
        begin_anew();
    }
    uint32_t count = sizeof opcodes / sizeof opcodes[0];
    play(once_in(64) ? (uint8_t)below(256) : opcodes[below(count)].opcode, any_byte(), any_byte());
    if (!once_in(4)) {
        store_registers();
    }
    if (once_in(5000)) {
        reset_amid();
    }
}

/* SED and CLD, SEC, CLC and CLV, PHP, PLP and RTI, PHA and PLA, CMP and CPX, INC and DEC, ROL, INX,
 * LDX and LDY. */
static void play_between()
{
    static const uint8_t between[] = {0xF8, 0xD8, 0x38, 0x18, 0xB8, 0x08, 0x28, 0x40, 0x48, 0x68,
        0xC9, 0xDD, 0xE4, 0xE6, 0xDE, 0x26, 0xE8, 0xA2, 0xA0};
    play(between[below(sizeof between)], any_byte(), any_byte());
    stay_inside();
}

static void play_sum()
{
    static const uint8_t modes[] = {0x61, 0x65, 0x69, 0x6D, 0x71, 0x75, 0x79, 0x7D};
    stay_inside();
    while (once_in(2)) {
        play_between();
    }
    if (once_in(8)) {
        load_registers();
    }
    if (!(port.p & DECIMAL) && !once_in(8)) {
        play(0xF8, 0, 0);
    }
    play(modes[below(8)] | once_in(2) << 7, (uint8_t)below(256), any_byte());
    play(0x08, 0, 0);                                    /* PHP, STA */
    play(0x85, any_byte(), 0);
}

static std::vector<uint8_t> read_file(const char *path)
{
    std::vector<uint8_t> bytes;
    FILE *file = fopen(path, "rb");
    for (int byte; file && (byte = fgetc(file)) != EOF;) {
        bytes.push_back((uint8_t)byte);
    }
    return bytes;
}

/* A program of the board, which doesn't decode A15, and what RAM is at its starts. */
static void load_program(const char *path, const char *path_of_rams)
{
    std::vector<uint8_t> program = read_file(path);
    rams = read_file(path_of_rams);
    if (program.size() != PROGRAM_BYTES || rams.empty()) {
        exit(64);
    }
    for (int at = 0; at < PROGRAM_BYTES; at++) {
        put((uint16_t)(MIRROR - PROGRAM_BYTES + at), program[at]);
        put((uint16_t)(2 * MIRROR - PROGRAM_BYTES + at), program[at]);
    }
    put(SELF_TEST, 0xFF);
}

static void play_program(uint64_t starts, uint64_t seed)
{
    while (counts.starts < starts) {
        play_next();
        counts.instructions++;
    }
    printf("%" PRIu64 " instructions of a program, %" PRIu64 " cycles, %" PRIu64 " waits; at %"
           PRIu64 " starts the RAM agrees, seed %" PRIu64 "\n",
        counts.instructions, counts.cycles, counts.waits, counts.starts, seed);
}

int main(int argc, char **argv)
{
    std::string what = argc > 3 ? argv[3] : "";
    bool has_sums = what == "sums";
    uint64_t seed, wanted = read_arguments(argc, argv, &seed);
    ready_opcodes();
    for (int at = 0; at < PLACES; at++) {
        put((uint16_t)at, (uint8_t)below(256));
    }
    if (what == "program" && argc == 6) {
        load_program(argv[4], argv[5]);
    }
    circuit.clk = circuit.reset = circuit.step = circuit.nmi = 0;
    circuit.eval();
    begin_anew();
    if (!rams.empty()) {
        play_program(wanted, seed);
        return 0;
    }
    while ((has_sums ? counts.sums : counts.instructions) < wanted) {
        done_so_far = counts.instructions;
        has_sums ? play_sum() : play_any();
    }
    printf("%" PRIu64 " instructions, %" PRIu64 " of them sums with D set, %" PRIu64
           " cycles, %" PRIu64 " waits, %" PRIu64 " NMIs, %" PRIu64 " unknown opcodes, %" PRIu64
           " resets, %" PRIu64 " of them amid an instruction, agree, seed %" PRIu64 "\n",
        counts.instructions, counts.sums, counts.cycles, counts.waits, counts.nmis, counts.unknown,
        counts.resets, counts.amid, seed);
    return 0;
}
