/* What the library for C gives beside its three functions: its version, and many requests in one
 * call; that dvg_free takes a null pointer, and that dvg_new is ended by assert where it gets one.
 * It calls those three, and is tested, not proved. */
#include "dvg.h"

/* ./lib has given the functions that make and free a device these names. Who links this file with
 * an archive in which they are still called dvg_new and dvg_free leaves this part out: there both
 * want a pointer. */
#ifdef DVG_IS_RENAMED
uint32_t dvg_new_device(dvg **out);
void dvg_free_device(dvg *device);

uint32_t dvg_new(dvg **out)
{
    dvg_need(out);
    return dvg_new_device(out);
}

void dvg_free(dvg *device)
{
    if (device != NULL) {
        dvg_free_device(device);
    }
}
#endif

const char *dvg_version(void)
{
    return DVG_VERSION;
}

/* Whether the answer to this request is a number or a place, and has no kind. */
static bool is_number(uint64_t request)
{
    uint64_t code = request & 0xFF;
    return (code >= DVG_REQUEST_STROKES && code <= DVG_REQUEST_STROKE_INTENSITY)
           || code == DVG_REQUEST_MOVE_TO || code == DVG_REQUEST_BEAM;
}

/* Whether nothing may be asked after this answer without a look at it. */
static bool is_last(uint64_t request, uint64_t number)
{
    dvg_kind kind = dvg_answer_of(number).kind;
    return (kind == DVG_DONE || kind == DVG_NO_MEMORY) && !is_number(request);
}

size_t dvg_turns(dvg *device, const uint64_t *requests, uint64_t *answers, size_t count)
{
    size_t asked = 0;
    if (count > 0) {
        dvg_there(device);
        dvg_need(requests);
        dvg_need(answers);
    }
    while (asked < count) {
        uint64_t request = requests[asked];
        uint64_t number = dvg_turn(device, request);
        answers[asked++] = number;
        if (is_last(request, number)) {
            break;
        }
    }
    return asked;
}
