/* Hands each call of include/dvg.h a null pointer for a device: dvg_free must do nothing, and each
 * other one must be ended by the header's assert, which says so. So must each call that is handed
 * one for what it reads or writes; where it does neither, it must answer. Each is made in a process
 * of its own.
 *
 *     null                 tests them. The last line is 'N passed, M failed'
 *     null --names         prints the calls that are handed no device
 *
 * It is linked with the archive of ./lib. */
#define _POSIX_C_SOURCE 200809L
#include "dvg.h"

#include <signal.h>
#include <stdio.h>
#include <stdlib.h>
#include <string.h>
#include <sys/wait.h>
#include <unistd.h>

/* Of dvg_turn nothing is said. */
#define CALLS \
    CALL(dvg_ask(NULL, DVG_REQUEST_TICK)) \
    CALL(dvg_stage_byte(NULL, 0, 1)) \
    CALL(dvg_stage_bytes(NULL, bytes, 9)) \
    CALL(dvg_unstage(NULL)) \
    CALL(dvg_stage_ram(NULL, bytes)) \
    CALL(dvg_stage_rom(NULL, bytes, 9)) \
    CALL(dvg_ask_staged(NULL, line, DVG_REQUEST_TICK)) \
    CALL(dvg_open_world(NULL, bytes, bytes, DVG_ROM_BYTES)) \
    CALL(dvg_open_driver(NULL, bytes, DVG_ROM_BYTES)) \
    CALL(dvg_open_generator(NULL)) \
    CALL(dvg_open_wrapping(NULL)) \
    CALL(dvg_open_judge(NULL)) \
    CALL(dvg_shut(NULL)) \
    CALL(dvg_push(NULL, true, 0, 9, 7, 0, 0)) \
    CALL(dvg_clear(NULL)) \
    CALL(dvg_vctr(NULL, 9, 1, 1, 7)) \
    CALL(dvg_svec(NULL, 2, 1, 1, 7)) \
    CALL(dvg_labs(NULL, 0, 0, 0)) \
    CALL(dvg_call(NULL, 0)) \
    CALL(dvg_jump(NULL, 0)) \
    CALL(dvg_call_rom(NULL, 0x800)) \
    CALL(dvg_jump_rom(NULL, 0x800)) \
    CALL(dvg_return(NULL)) \
    CALL(dvg_halt(NULL)) \
    CALL(dvg_offer(NULL)) \
    CALL(dvg_redraw(NULL)) \
    CALL(dvg_tick(NULL)) \
    CALL(dvg_driver_tick(NULL, true, 0)) \
    CALL(dvg_strobe(NULL)) \
    CALL(dvg_fetch(NULL)) \
    CALL(dvg_run_to_halt(NULL, 0)) \
    CALL(dvg_wants(NULL)) \
    CALL(dvg_generator_fetch(NULL, 0)) \
    CALL(dvg_generator_hole(NULL)) \
    CALL(dvg_generator_move(NULL, 0, &move)) \
    CALL(dvg_held_by(NULL, &held)) \
    CALL(dvg_run_is_open(NULL)) \
    CALL(dvg_return_to(NULL, 0)) \
    CALL(dvg_ram_byte(NULL, 0)) \
    CALL(dvg_ram(NULL, ram)) \
    CALL(dvg_reset_generator(NULL)) \
    CALL(dvg_reset_processor(NULL)) \
    CALL(dvg_reset_all(NULL, bytes)) \
    CALL(dvg_save(NULL, ram, sizeof ram)) \
    CALL(dvg_save_answers(NULL, DVG_REQUEST_STATE, DVG_STATE, ram, sizeof ram, 8)) \
    CALL(dvg_save_over(NULL, 0, ram, sizeof ram)) \
    CALL(dvg_restore(NULL, saved, sizeof saved).kind) \
    CALL(dvg_restore_over(NULL, 0, saved, sizeof saved).kind) \
    CALL(dvg_restore_world(NULL, saved_world, sizeof saved_world)) \
    CALL(dvg_tell_saved(NULL, DVG_SAVED_GENERATOR, saved, 8, sizeof saved)) \
    CALL(dvg_judge_line(NULL, DVG_STARTED, 0, 0)) \
    CALL(dvg_judge_answer(NULL, line)) \
    CALL(dvg_judge_started(NULL)) \
    CALL(dvg_judge_wrote(NULL, 0, 0)) \
    CALL(dvg_judge_low(NULL, 0, 0)) \
    CALL(dvg_judge_fetched(NULL, 0, 0)) \
    CALL(dvg_judge_done(NULL, 0, 0)) \
    CALL(dvg_judge_reset(NULL)) \
    CALL(dvg_strokes(NULL)) \
    CALL(dvg_stroke_at(NULL, 0)) \
    CALL(dvg_take_strokes(NULL, NULL, NULL)) \
    CALL(dvg_hand_from(NULL, 0, bytes, bytes, DVG_ROM_BYTES)) \
    CALL(dvg_generator_fetch_from(NULL, bytes, bytes, DVG_ROM_BYTES)) \
    CALL(dvg_go_on(NULL, dvg_answer_of(UINT64_C(1) << 60), bytes, bytes, DVG_ROM_BYTES, &words)) \
    CALL(dvg_generator_run_to_halt(NULL, bytes, bytes, DVG_ROM_BYTES, 9)) \
    CALL(dvg_draw(NULL, bytes, bytes, DVG_ROM_BYTES, 9, NULL, NULL))

/* Null pointers for what a call needs. `device` is one in which a run of a generator is open. */
#define NEEDING \
    CALL(dvg_new(NULL) == 0) \
    CALL(dvg_turns(NULL, numbers, numbers, 3)) \
    CALL(dvg_turns(device, NULL, numbers, 3)) \
    CALL(dvg_turns(device, numbers, NULL, 3)) \
    CALL(dvg_stage_bytes(device, NULL, 9)) \
    CALL(dvg_open_world(device, bytes, NULL, DVG_ROM_BYTES)) \
    CALL(dvg_open_driver(device, NULL, DVG_LARGE_ROM_BYTES)) \
    CALL(dvg_generator_move(device, 0, NULL)) \
    CALL(dvg_held_by(device, NULL)) \
    CALL(dvg_ram(device, NULL)) \
    CALL(dvg_saved_as(NULL, 16)) \
    CALL(dvg_save(device, NULL, 1)) \
    CALL(dvg_save_over(device, 0, NULL, 1)) \
    CALL(dvg_restore(device, NULL, 16).kind) \
    CALL(dvg_restore_over(device, 0, NULL, 16).kind) \
    CALL(dvg_digest(NULL, 1)) \
    CALL(dvg_hand_from(device, 0, NULL, bytes, DVG_ROM_BYTES)) \
    CALL(dvg_hand_from(device, 0x1000, bytes, NULL, DVG_ROM_BYTES)) \
    CALL(dvg_generator_fetch_from(device, NULL, bytes, DVG_ROM_BYTES)) \
    CALL(dvg_go_on(device, line, bytes, bytes, DVG_ROM_BYTES, NULL)) \
    CALL(dvg_generator_run_to_halt(device, NULL, bytes, DVG_ROM_BYTES, 9)) \
    CALL(dvg_draw(device, NULL, bytes, DVG_ROM_BYTES, 9, NULL, NULL))

/* What answers: a null pointer that nothing is read of, and a length that none has. */
static bool answers(dvg *device)
{
    const uint8_t *nowhere = (const uint8_t *)1;
    return dvg_turns(device, NULL, NULL, 0) == 0
           && dvg_stage_bytes(device, NULL, 0).kind == DVG_STAGED
           && dvg_saved_as(NULL, 0) == DVG_SAVED_NOTHING && dvg_save(device, NULL, 0) > 0
           && dvg_restore(device, NULL, 0).kind == DVG_NO_STATE && dvg_digest(NULL, 0) != 0
           && dvg_open_world(device, NULL, NULL, 0).kind == DVG_WRONG_SIZE
           && dvg_open_world(device, NULL, nowhere, 6145).kind == DVG_WRONG_SIZE
           && dvg_open_driver(device, nowhere, (size_t)-1).kind == DVG_WRONG_SIZE
           && dvg_generator_fetch_from(device, nowhere, nowhere, 1).kind == DVG_WRONG_SIZE
           && dvg_generator_run_to_halt(device, nowhere, nowhere, 1, 9).kind == DVG_WRONG_SIZE
           && dvg_draw(device, nowhere, nowhere, 1, 9, NULL, NULL).last.kind == DVG_WRONG_SIZE
           && dvg_wants(device).kind == DVG_WANTED;
}

#define CALL(call) #call,
static const char *const names[] = {CALLS NEEDING};
#undef CALL
#define CALL(call) +1
enum { WITHOUT_DEVICE = 0 CALLS };
#undef CALL

static const uint8_t bytes[DVG_LARGE_ROM_BYTES];
static const uint8_t saved[16] = {'D', 'V', 'G', DVG_SAVED_VERSION, 1, 0, 0, 0, 35};
static const uint8_t saved_world[8] = {DVG_REQUEST_RESUME_WORLD};
static const dvg_answer line = {DVG_STARTED, 0, 0, -1};

/* A device in which a run of a generator is open. */
static dvg *make_device(void)
{
    dvg *device = NULL;
    if (dvg_new(&device) != 0) {
        exit(2);
    }
    dvg_open_generator(device);
    dvg_strobe(device);
    return device;
}

/* Makes the call of this number. */
static void make(int number)
{
    uint64_t numbers[3] = {DVG_REQUEST_WANTS, DVG_REQUEST_WANTS, DVG_REQUEST_WANTS};
    uint8_t ram[DVG_RAM_BYTES];
    dvg *device = make_device();
    dvg_move move;
    dvg_held held;
    uint32_t words = 9;
    int here = 0;
#define CALL(call) \
    if (here++ == number) { \
        (void)(call); \
    }
    CALLS NEEDING
#undef CALL
    dvg_free(device);
}

/* Makes the call in a child. Writes the first bytes of its standard error to `said`, a text of
 * `size` bytes, and returns the status that it ended with. */
static int made_apart(int number, char *said, size_t size)
{
    int ends[2], status = 0;
    ssize_t got;
    size_t length = 0;
    pid_t child;
    if (pipe(ends) != 0 || (child = fork()) < 0) {
        exit(2);
    }
    if (child == 0) {
        dup2(ends[1], 2);
        make(number);
        _exit(0);
    }
    close(ends[1]);
    while (length + 1 < size && (got = read(ends[0], said + length, size - 1 - length)) > 0) {
        length += (size_t)got;
    }
    said[length] = '\0';
    close(ends[0]);
    waitpid(child, &status, 0);
    return status;
}

/* Whether the call is ended by an assert of the header, which says this or that. */
static bool is_ended(int number)
{
    char said[400];
    int status = made_apart(number, said, sizeof said);
    return WIFSIGNALED(status) && WTERMSIG(status) == SIGABRT
           && (strstr(said, "dvg.h was handed no device: dvg_new makes one") != NULL
               || strstr(said, "dvg.h was handed a null pointer for what it needs") != NULL);
}

int main(int count, char **words)
{
    const int calls = (int)(sizeof names / sizeof *names);
    dvg *device = make_device();
    int failed = 0;
    if (count > 1 && strcmp(words[1], "--names") == 0) {
        for (int number = 0; number < WITHOUT_DEVICE; number++) {
            puts(names[number]);
        }
        return 0;
    }
    dvg_free(NULL);
    if (!answers(device)) {
        failed++;
        printf("FAILED: a call that needs no bytes answers otherwise\n");
    }
    dvg_free(device);
    for (int number = 0; number < calls; number++) {
        if (!is_ended(number)) {
            failed++;
            printf("FAILED: %s isn't ended by assert\n", names[number]);
        }
    }
    printf("%d passed, %d failed\n", calls + 2 - failed, failed);
    return failed != 0;
}
