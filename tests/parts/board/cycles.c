/* Runs a program for sim65 by cpu.h, and prints its cycles and what it answers in A:
 *
 *     cycles PROGRAM
 *
 * The program's head has 12 bytes; it is loaded and begun at 0200, and ends where it jumps to FFF9.
 * Memory holds FF at first, as that of sim65, which doesn't count the last jump. */
#include <stdio.h>
#include "cpu.h"

enum { HEAD = 12, LOADED_AT = 0x200, ENDS_AT = 0xFFF9 };

static uint8_t memory[65536];

uint8_t bus_fetch(uint16_t at) { return memory[at]; }

uint8_t bus_read(uint16_t at, int dummy)
{
    (void)dummy;
    return memory[at];
}

void bus_write(uint16_t at, uint8_t value) { memory[at] = value; }

int main(int count, char **words)
{
    uint64_t cycles = 0;
    cpu processor = { .pc = LOADED_AT, .p = UNUSED | INTERRUPT, .s = 0xFF };
    FILE *file = count == 2 ? fopen(words[1], "rb") : NULL;
    if (!file || fseek(file, HEAD, SEEK_SET)) return 1;
    memset(memory, 0xFF, sizeof memory);
    if (!fread(memory + LOADED_AT, 1, sizeof memory - LOADED_AT, file)) return 1;
    fclose(file);
    ready_opcodes();
    while (processor.pc != ENDS_AT) {
        cycles = processor.cycles;
        if (!step(&processor)) return 1;
    }
    printf("%llu cycles, %d\n", (unsigned long long)cycles, processor.a);
    return 0;
}
