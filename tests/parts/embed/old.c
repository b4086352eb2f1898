/* A program as one was built by the header of version 0.9.0. It includes no header of the library:
 * what stands here is what that header put into such a program, five functions and numbers. As long
 * as the library is libdvg.so.0, each later one must do for it what stands here. So nothing here is
 * edited before that number grows. The last line is 'N passed, M failed'. */
#include <inttypes.h>
#include <stddef.h>
#include <stdint.h>
#include <stdio.h>

typedef struct device device;

uint32_t dvg_new(device **out);
uint64_t dvg_turn(device *device, uint64_t request);
size_t dvg_turns(device *device, const uint64_t *requests, uint64_t *answers, size_t count);
void dvg_free(device *device);
const char *dvg_version(void);

/* The bits that such a program takes of an answer: its kind, address and value; these, and which
 * byte is wanted next; or all. */
#define ANSWER UINT64_C(0x000000FFFFFFFFFF)
#define NEXT UINT64_C(0x10FFFFFFFFFFFFFF)
#define WHOLE UINT64_MAX

#define AT(number, bit) ((uint64_t)(number) << (bit))

struct turn {
    uint64_t request;
    uint64_t answer;
    uint64_t mask;
};

/* A world over a RAM of zeros and a ROM of returns comes to rest, refuses an empty draft, and takes
 * one of a LABS, a VCTR and a HALT. */
static const struct turn offered[] = {
    {2, 24, ANSWER},
    {200, 254, ANSWER},
    {10 | AT(2048, 24), 21 | AT(2048, 24), ANSWER},
    {12, 23, ANSWER},
    {10 | AT(0xD0, 16) | AT(2048, 24), 21 | AT(4096, 24), ANSWER},
    {12, 22, ANSWER},
    {11, 17, ANSWER},
    {2, 5, ANSWER},
    {2, 7 | AT(1, 24), ANSWER},
    {2, 9, ANSWER},
    {1, 4, ANSWER},
    {3, 11, ANSWER},
    {4, 16, ANSWER},
    {16, 254, ANSWER},
    {9, 17, ANSWER},
    {0, 1 | AT(1, 24), ANSWER},
    {8 | AT(2, 8) | AT(512, 32) | AT(400, 48), 18, ANSWER},
    {8 | AT(9, 16) | AT(7, 24) | AT(0xFF9C, 32) | AT(100, 48), 18 | AT(1, 24), ANSWER},
    {8 | AT(8, 8), 18 | AT(2, 24), ANSWER},
    {8 | AT(9, 8), 19, ANSWER},
    {0, 0, ANSWER},
};

/* The bytes that it writes then, with their addresses, before it reads the flag and sends a
 * strobe. */
static const struct {
    uint16_t address;
    uint8_t byte;
} written[] = {
    {0x402, 0x90}, {0x403, 0xA1}, {0x404, 0x00}, {0x405, 0x02}, {0x406, 0x64}, {0x407, 0x90},
    {0x408, 0x64}, {0x409, 0x74}, {0x40A, 0x00}, {0x40B, 0xB0}, {0x000, 0x01}, {0x001, 0xE2},
};

#define WRITTEN (sizeof written / sizeof written[0])

/* The words that its generator fetches. */
static const struct {
    uint16_t address;
    uint16_t word;
} fetched[] = {
    {0x000, 0xE201}, {0x201, 0xA190}, {0x202, 0x0200},
    {0x203, 0x9064}, {0x204, 0x7464}, {0x205, 0xB000},
};

#define FETCHED (sizeof fetched / sizeof fetched[0])

/* What it drew, and its RAM; a saved world that did nothing yet, in its place. */
static const struct turn drawn[] = {
    {17, 1, WHOLE},
    {18, 262144 | AT(204800, 32), WHOLE},
    {19, 210944 | AT(256000, 32), WHOLE},
    {20, 7, WHOLE},
    {20 | AT(1, 8), 0, WHOLE},
    {31 | AT(0x402, 8), 37 | AT(0x402, 8) | AT(0x90, 24), ANSWER},
    {31 | AT(2048, 8), 32, ANSWER},
    {25, 210944 | AT(256000, 32), WHOLE},
    {10 | AT(2048, 24), 21 | AT(2048, 24), ANSWER},
    {35, 17, ANSWER},
    {38, 22, ANSWER},
    {11, 17, ANSWER},
    {2, 5, ANSWER},
};

/* A generator alone, and another one that goes on from its state; one whose stack wraps. */
static const struct turn generators[] = {
    {14, 22, ANSWER},
    {16, 16, ANSWER},
    {3, 10 | AT(1, 60), NEXT},
    {16, 25, ANSWER},
    {4 | AT(0x01, 16), 12 | AT(0x01, 24) | AT(1, 40) | AT(1, 60), NEXT},
    {16, 25 | AT(1, 24), ANSWER},
    {28, 35 | AT(1, 48) | AT(3, 60), WHOLE},
    {28 | AT(1, 8), 35 | AT(2, 8), WHOLE},
    {28 | AT(2, 8), 32, ANSWER},
    {15, 24, ANSWER},
    {35 | AT(1, 48) | AT(3, 60), 17, ANSWER},
    {35 | AT(2, 8), 17, ANSWER},
    {29, 22, ANSWER},
    {16, 25 | AT(1, 24), ANSWER},
    {4 | AT(0xA1, 16), 13 | AT(0xA101, 24) | AT(2, 40) | AT(1, 60), NEXT},
    {4, 12 | AT(1, 8) | AT(3, 40) | AT(1, 60), NEXT},
    {23 | AT(0x20, 16), 31 | AT(0x100, 24), ANSWER},
    {24 | AT(0x20, 16), AT(257 * 512, 32), WHOLE},
    {4 | AT(0x20, 16), 13 | AT(1, 8) | AT(0x2000, 24) | AT(4, 40) | AT(1, 60), NEXT},
    {26, 33 | AT(2, 24), ANSWER},
    {4 | AT(1, 8), 15 | AT(2, 8) | AT(3, 24), ANSWER},
    {5, 17, ANSWER},
    {35 | AT(4, 8), 36, ANSWER},
    {30, 22, ANSWER},
    {26, 33 | AT(0x440, 24), ANSWER},
    {27, 34, ANSWER},
    {27 | AT(4, 8), 32, ANSWER},
    {34, 36, ANSWER},
};

/* A judge of a whole run and of a torn one, and a driver alone. */
static const struct turn others[] = {
    {21, 22, ANSWER},
    {22 | AT(10, 8), 27, ANSWER},
    {22 | AT(13, 8) | AT(0xE201, 32), 27, ANSWER},
    {22 | AT(6, 8) | AT(0x402, 16) | AT(0x90, 32), 27, ANSWER},
    {22 | AT(14, 8) | AT(0x201, 16) | AT(0xB090, 32), 29, ANSWER},
    {22 | AT(10, 8), 27, ANSWER},
    {22 | AT(13, 8) | AT(0x001, 16) | AT(0x0101, 32), 27, ANSWER},
    {22 | AT(6, 8) | AT(0x002, 16) | AT(5, 32), 27, ANSWER},
    {22 | AT(6, 8) | AT(0x004, 16) | AT(7, 32), 27, ANSWER},
    {22 | AT(12, 8) | AT(0x002, 16) | AT(7, 32), 28, ANSWER},
    {22 | AT(13, 8) | AT(0x002, 16) | AT(0x0107, 32), 28, ANSWER},
    {22 | AT(14, 8) | AT(0x003, 16) | AT(0xB000, 32), 30, ANSWER},
    {5, 26, ANSWER},
    {10 | AT(0xD0, 16) | AT(2048, 24), 21 | AT(2048, 24), ANSWER},
    {13, 22, ANSWER},
    {11, 17, ANSWER},
    {2 | AT(1, 8) | AT(0xE2, 16), 5, ANSWER},
    {2, 7, ANSWER},
    {2 | AT(1, 8), 7 | AT(1, 24), ANSWER},
    {2 | AT(1, 8), 9, ANSWER},
    {15, 24, ANSWER},
};

static unsigned long passed = 0, failed = 0;

static void expect(uint64_t wanted, uint64_t found, const char *what, size_t number)
{
    if (wanted == found) {
        passed++;
        return;
    }
    failed++;
    printf("FAILED: %s, %lu: %016" PRIx64 " is wanted, not %016" PRIx64 "\n", what,
           (unsigned long)number, wanted, found);
}

static void ask(device *device, const struct turn *turns, size_t count, const char *what)
{
    for (size_t i = 0; i < count; i++) {
        expect(turns[i].answer, dvg_turn(device, turns[i].request) & turns[i].mask, what, i);
    }
}

#define ASK(device, turns) ask(device, turns, sizeof turns / sizeof turns[0], #turns)

/* Lets the world write its frame and send a strobe, and its generator draw it: many requests in one
 * call. */
static void draw(device *device)
{
    uint64_t requests[2 * FETCHED + 8], answers[2 * FETCHED + 8];
    for (size_t i = 0; i < WRITTEN + 2; i++) {
        requests[i] = 2;
    }
    expect(WRITTEN + 2, dvg_turns(device, requests, answers, WRITTEN + 2), "ticks", 0);
    for (size_t i = 0; i < WRITTEN; i++) {
        expect(6 | AT(written[i].address, 8) | AT(written[i].byte, 24), answers[i] & ANSWER,
               "written", i);
    }
    expect(7 | AT(1, 24), answers[WRITTEN] & ANSWER, "the flag", 0);
    expect(8, answers[WRITTEN + 1] & ANSWER, "the strobe", 0);
    expect(10, dvg_turn(device, 3) & ANSWER, "the start", 0);
    for (size_t i = 0; i < 2 * FETCHED + 8; i++) {
        requests[i] = 4;
    }
    expect(2 * FETCHED, dvg_turns(device, requests, answers, 2 * FETCHED + 8), "fetches", 0);
    for (size_t i = 0; i < FETCHED; i++) {
        uint64_t kind = i + 1 < FETCHED ? 13 : 14, address = AT(fetched[i].address, 8);
        expect(12 | address | AT(fetched[i].word & 0xFF, 24), answers[2 * i] & ANSWER, "low", i);
        expect(kind | address | AT(fetched[i].word, 24), answers[2 * i + 1] & ANSWER, "word", i);
    }
}

int main(void)
{
    device *device = NULL;
    dvg_free(device);
    expect(0, dvg_new(&device), "a device is made", 0);
    if (device == NULL) {
        return 1;
    }
    ASK(device, offered);
    draw(device);
    ASK(device, drawn);
    ASK(device, generators);
    ASK(device, others);
    expect(1, dvg_version()[0] != '\0', "a version", 0);
    dvg_free(device);
    printf("%lu passed, %lu failed\n", passed, failed);
    return failed == 0 ? 0 : 1;
}
