/* What docs/C.md and dvg.h say of saved states, in a program of its own: a world is saved with the
 * digest of its ROM, and another one goes on; each reason for which bytes are refused comes, and
 * then the world stays as it was. What a program before version 2 saved is restored. It is linked
 * with the archive. The last line is 'N passed, M failed'. */
#include "dvg.h"

#include <stdio.h>
#include <string.h>

static unsigned long passed = 0, failed = 0;

static void expect(bool holds, const char *what)
{
    if (holds) {
        passed++;
    } else {
        failed++;
        printf("FAILED: %s\n", what);
    }
}

/* A ROM of returns, and a larger one, of calls that lead nowhere. */
static uint8_t returns[DVG_ROM_BYTES], calls[DVG_LARGE_ROM_BYTES];

/* Bytes are refused for this fault, and the world, over a ROM of this digest, stays as it was. */
static void expect_fault(dvg *world, uint64_t rom, const uint8_t *bytes, size_t size,
                         dvg_saved_fault wanted)
{
    static uint8_t before[8192], after[8192];
    size_t length = dvg_save_over(world, rom, before, sizeof before);
    dvg_answer answer = dvg_restore_over(world, rom, bytes, size);
    expect(answer.kind == DVG_NO_STATE && dvg_saved_fault_of(answer) == wanted,
           dvg_saved_fault_text(wanted));
    expect(dvg_save_over(world, rom, after, sizeof after) == length
               && memcmp(before, after, length) == 0,
           "what is refused changes nothing");
}

/* A device, in which a world over this ROM is open, or nothing. */
static dvg *make(const uint8_t *rom, size_t rom_length)
{
    dvg *device = NULL;
    if (dvg_new(&device) != 0) {
        return NULL;
    }
    if (rom != NULL) {
        expect(dvg_open_world(device, NULL, rom, rom_length).kind == DVG_OPENED, "a world opens");
    }
    return device;
}

/* The FNV-1a of texts, as its authors have it; and each fault has a text. */
static void test_digest(void)
{
    expect(dvg_digest(NULL, 0) == UINT64_C(0xCBF29CE484222325), "the digest of no bytes");
    expect(dvg_digest((const uint8_t *)"a", 1) == UINT64_C(0xAF63DC4C8601EC8C), "of a byte");
    expect(dvg_digest((const uint8_t *)"foobar", 6) == UINT64_C(0x85944171F73967E8), "of six");
    for (int fault = DVG_SAVED_FAULT_NONE; fault <= DVG_SAVED_FAULT_PARTS; fault++) {
        expect(strcmp(dvg_saved_fault_text((dvg_saved_fault)fault), "no fault") != 0, "a text");
    }
    expect(strcmp(dvg_saved_fault_text((dvg_saved_fault)99), "no fault") == 0, "and of no fault");
    expect(dvg_saved_fault_of(dvg_answer_of(DVG_NO_MEMORY)) == DVG_SAVED_FAULT_NONE, "no refusal");
}

/* Each fault of a saved world, which is writing a frame. */
static void test_faults(dvg *world, dvg *nothing, uint8_t *bytes, size_t size)
{
    uint64_t digest = dvg_digest(returns, sizeof returns);
    uint64_t other = dvg_digest(calls, sizeof calls);
    dvg *elsewhere = make(calls, sizeof calls), *generator = make(NULL, 0);
    uint8_t little[DVG_SAVED_BYTES + DVG_SAVED_OVER_BYTES];
    for (size_t bit = 0; bit < 8 * size; bit += 7) {
        bytes[bit / 8] ^= (uint8_t)(1 << bit % 8);
        expect_fault(world, digest, bytes, size, DVG_SAVED_FAULT_BROKEN);
        bytes[bit / 8] ^= (uint8_t)(1 << bit % 8);
    }
    expect_fault(world, digest, bytes, size - 8, DVG_SAVED_FAULT_BROKEN);
    expect_fault(world, digest, NULL, 0, DVG_SAVED_FAULT_BROKEN);
    expect_fault(world, digest, (const uint8_t *)"labs 1 1 0\nhalt\n", 16, DVG_SAVED_FAULT_BROKEN);
    expect_fault(nothing, digest, bytes, size, DVG_SAVED_FAULT_OTHER_CLASS);
    expect_fault(elsewhere, other, bytes, size, DVG_SAVED_FAULT_OTHER_ROM);
    /* The frame calls the ROM, which is other there. */
    expect_fault(elsewhere, 0, bytes, size, DVG_SAVED_FAULT_PARTS);
    dvg_open_generator(generator);
    expect(dvg_save_over(generator, digest, little, sizeof little) == 40
               && dvg_saved_number(little + 24) == 0, "a generator's bytes name no ROM");
    expect(dvg_restore_over(nothing, other, little, 40).kind == DVG_OPENED, "so it goes on");
    /* Its last operation, the number behind the one before, is none. */
    bytes[size - 32] = DVG_REQUEST_CLEAR;
    dvg_saved_put(bytes, size, size - 8, dvg_digest(bytes, size - 8));
    expect_fault(world, digest, bytes, size, DVG_SAVED_FAULT_PARTS);
    bytes[size - 32] = DVG_REQUEST_PUSH;
    bytes[3] = 3;
    dvg_saved_put(bytes, size, size - 8, dvg_digest(bytes, size - 8));
    expect_fault(world, digest, bytes, size, DVG_SAVED_FAULT_OTHER_VERSION);
    /* Those of a later version need not be whole numbers. */
    for (uint8_t version = 3; version > 1; version--) {
        little[3] = version;
        dvg_saved_put(little, sizeof little, 35, dvg_digest(little, 35));
        expect_fault(world, digest, little, 43, version == 2 ? DVG_SAVED_FAULT_BROKEN
                                                             : DVG_SAVED_FAULT_OTHER_VERSION);
    }
    dvg_free(elsewhere);
    dvg_free(generator);
}

int main(void)
{
    static uint8_t bytes[DVG_SAVED_WORLD_BYTES + DVG_SAVED_OVER_BYTES], first[sizeof bytes];
    uint64_t digest;
    dvg *world, *later, *nothing = make(NULL, 0);
    size_t size, first_size;
    memset(returns, 0xD0, sizeof returns);
    memset(calls, 0xC8, sizeof calls);
    digest = dvg_digest(returns, sizeof returns);
    world = make(returns, sizeof returns);
    later = make(returns, sizeof returns);
    test_digest();
    while (dvg_tick(world).kind != DVG_IDLE) {
    }
    dvg_labs(world, 512, 400, 0);
    dvg_vctr(world, 9, -100, 100, 7);
    dvg_call_rom(world, 0x800);
    dvg_halt(world);
    expect(dvg_offer(world).kind == DVG_OFFERED && dvg_tick(world).kind == DVG_WROTE, "a frame");
    size = dvg_save_over(world, digest, bytes, sizeof bytes);
    first_size = dvg_save(world, first, sizeof first);
    expect(size == first_size + DVG_SAVED_OVER_BYTES, "version 2 has 16 bytes more");
    expect(dvg_restore_over(later, digest, first, first_size).kind == DVG_OPENED,
           "what an older program saved is restored");
    expect(dvg_restore(later, bytes, size).kind == DVG_OPENED
               && dvg_restore_over(later, digest, bytes, size).kind == DVG_OPENED,
           "and this, too");
    expect(dvg_run_to_halt(later, 1000).kind == DVG_DONE && dvg_strokes(later) == 1, "it goes on");
    test_faults(world, nothing, bytes, size);
    dvg_free(world);
    dvg_free(later);
    dvg_free(nothing);
    printf("%lu passed, %lu failed\n", passed, failed);
    return failed == 0 ? 0 : 1;
}
