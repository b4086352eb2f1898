/* dvg_sound in Verilator, by what a program wrote to the latches of sounds.
 *
 *     sound SECONDS <WRITES >SAMPLES
 *
 * A line of WRITES is a time in seconds, an address and a byte, the last two hexadecimal. SAMPLES
 * are 48,000 a second, each of 16 bits, the low byte first. The mean of the pins of the DAC must be
 * what they stand for, in each 1/400 of a second (status 1). */
#include "Vdvg_sound.h"
#include "bench.h"

enum : uint32_t { RATE = 48000, TICKS = 1512000, SPAN = RATE / 400 };

static Vdvg_sound sound;

/* What is written next. */
static double time_of_write;
static unsigned address, value;
static bool is_left;

static void read_write() { is_left = scanf("%lf %x %x", &time_of_write, &address, &value) == 3; }

static void make_write()
{
    unsigned bit = 1u << (address & 7);
    sound.hushes = address == 0x3E00;
    switch (address & 0xFE00) {
    case 0x3600: sound.explosion = value; break;
    case 0x3A00: sound.thump = value & 31; break;
    case 0x3C00: sound.sounds = (sound.sounds & ~bit) | (value >> 7 ? bit : 0);
    }
    read_write();
}

int main(int count, char **words)
{
    uint64_t wanted = count > 1 ? strtoull(words[1], nullptr, 0) * RATE : 0;
    int64_t means = 0, pins = 0;
    sound.tick = 1;
    read_write();
    for (uint64_t sample = 0; sample < wanted; sample++) {
        while (clocks * RATE < sample * TICKS) {
            sound.hushes = 0;
            if (is_left && time_of_write * TICKS <= double(clocks)) {
                make_write();
            }
            means += int16_t(sound.level) + 28672;
            edge(sound);
            pins += sound.dac * 4096;
        }
        if (sample % SPAN == 0) {
            int64_t differ = means - pins;
            if (differ < -65536 || differ > 65536) {
                fprintf(stderr, "the DAC differs by %" PRId64 "\n", differ);
                return 1;
            }
        }
        putchar(sound.level & 0xFF);
        putchar(sound.level >> 8 & 0xFF);
    }
    return 0;
}
