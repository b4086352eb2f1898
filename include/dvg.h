/* Gerbilargent's device, for C99 and C++: both ends of the vector RAM of Atari's Digital Vector
 * Generator, and each end alone. `./lib` builds the archive build/libdvg.a, which is all that is
 * linked beside this header.
 *
 * A device is asked by a number of 64 bits, and answers one (dvg_turn). Each number is a request,
 * in each order, and each has an answer: no request can do harm. The functions below it only put
 * requests together and take answers apart.
 *
 * What opens in a device is one of these:
 *
 *   a world             both ends, over a RAM and a ROM that it holds; it is saved and restored
 *   a driver alone      it is handed the HALT flag and byte 001 of a RAM, and answers what is to
 *                       be written there
 *   a generator alone   it says which byte it wants, is handed that byte, and answers the strokes
 *                       of a whole run; it is saved and restored, and there is one whose stack
 *                       wraps
 *   a judge             it is told the log of any system, a line at a time, and says of each run
 *                       whether it is consistent
 *
 * What the caller owes. Nothing checks these four lines, and nothing else is trusted of a caller:
 *
 *   1. Initialise the pointer before the call: `dvg *device = NULL;`, then `dvg_new(&device)`. Hand
 *      the other functions only a pointer that dvg_new wrote and dvg_free didn't get yet, and touch
 *      what it points to by these functions alone. dvg_free passes a null pointer over, and
 *      dvg_turn looks at nothing, and crashes. Each other call that is handed one, for a device or
 *      for bytes that it needs, is ended by assert, where that is on.
 *   2. Use a device in one call at a time, on any thread: what one thread did to it must be seen
 *      by the next one, as a mutex or a join has it. Never use it in a signal handler, or in the
 *      forked child of a process with threads. No two devices share anything but the heap.
 *   3. Link the C library's malloc, realloc and free: those of glibc, musl, macOS or Windows are
 *      fine. An allocator of your own must align a block to each power of two up to 16 that divides
 *      its size. Or define the three functions of dvg_heap.h.
 *   4. Call with DVG_STACK_KB KB of room on the stack.
 *
 * Proved is what a device answers to one request after the other, whatever they are. So of these
 * lines what is said of threads, 2, is the caller's, as are the others: the proof knows no threads.
 *
 * On the heap a device takes at most DVG_HEAP_KB KB, and besides these what is staged, and 20 bytes
 * for each stroke of the run that is open, of the newest finished one, and of a state that is told.
 * The room for strokes doubles as it grows, and serves the runs after it. Memory is taken by
 * dvg_new, by what stages bytes or opens something, by what restores a state, and by a fetch that
 * completes a stroke; an offer, a tick and a strobe take none, nor does a reset, but for the bytes
 * that dvg_reset_all stages. What was open leaves its memory to what is opened next, until dvg_shut
 * or dvg_free. */
#ifndef DVG_H
#define DVG_H

#include <assert.h>
#include <stdbool.h>
#include <stddef.h>
#include <stdint.h>

#ifdef __cplusplus
extern "C" {
#endif

/* The version of this header, as a text, and as a number for #if: of 1.2.3 it is 1002003.
 * dvg_version answers that of the library. */
#define DVG_VERSION "0.9.0"
#define DVG_VERSION_NUMBER 9000

/* The room on the stack that a call needs at most, in KB of 1,024 bytes. */
#define DVG_STACK_KB 256

/* What a device takes of the heap at most, in KB, besides its strokes and what is staged. */
#define DVG_HEAP_KB 256

/* The bytes of a RAM, of the smaller ROM and of the larger one. */
#define DVG_RAM_BYTES 2048
#define DVG_ROM_BYTES 2048
#define DVG_LARGE_ROM_BYTES 4096

/* The most bytes that can be staged: those of a RAM, and of the larger ROM. */
#define DVG_MOST_STAGED 6144

/* The most operations of a draft. */
#define DVG_MOST_OPERATIONS 511

/* Within how many words `dvg picture` looks for the end of a run: a cap for dvg_draw. */
#define DVG_MOST_WORDS 65536

/* Marks a call whose answer must be looked at: a compiler warns where it isn't. */
#if (defined(__cplusplus) && __cplusplus >= 201703L) \
    || (defined(__STDC_VERSION__) && __STDC_VERSION__ >= 202000L)
#define DVG_MUST_USE [[nodiscard]]
#elif defined(__GNUC__)
#define DVG_MUST_USE __attribute__((__warn_unused_result__))
#else
#define DVG_MUST_USE
#endif

/* Who includes this header gets each call that has a body here as a function of their own. Each is
 * a symbol of both libraries, too, for languages that bind calls by their names: plain/calls.c. */
#ifndef DVG_INLINE
#define DVG_INLINE static inline
#endif

/* A device. Only pointers to it are of use. */
typedef struct dvg dvg;

/* --- What is linked --- */

/* Makes a device in which nothing is open, and writes it to *out. Initialise the pointer before the
 * call:
 *
 *     dvg *device = NULL;
 *     if (dvg_new(&device) != 0) { .. }
 *
 * 0: it did. 2: there was no memory, and *out is as it was. */
DVG_MUST_USE uint32_t dvg_new(dvg **out);

/* One request, and its answer. */
uint64_t dvg_turn(dvg *device, uint64_t request);

/* Frees a device, with all that it has. A null pointer is passed over. */
void dvg_free(dvg *device);

/* Asks `count` requests, in order, and writes the answer of each to `answers`, which has room for
 * as many and may be `requests`. It stops after a DVG_DONE, so that its strokes can be asked for,
 * and after a DVG_NO_MEMORY. Returns how many were asked. */
size_t dvg_turns(dvg *device, const uint64_t *requests, uint64_t *answers, size_t count);

/* The version of the library that is linked, as DVG_VERSION has it. */
const char *dvg_version(void);

/* --- Requests and answers --- */

/* The lowest byte of a request says which it is. Beside each request are what must be open for it,
 * the kinds of its answers, without their DVG_, and its fields, by their bits. Other bits are 0.
 *
 * A request of `any` may always be asked. Each other one is answered DVG_CLOSED while nothing is
 * open, and DVG_UNKNOWN while something else is. `wrapping` is a generator whose stack wraps.
 *
 * Some answers have no kind: a number; a place, with x in bits 0 to 31 and y in bits 32 to 63; and
 * a request, which is the DVG_REQUEST_PUSH of this operation.
 *
 * Requests that take a RAM or a ROM take the staged bytes, those of the RAM first. A world resumes
 * with the staged RAM, the generator that was told, and the draft as the frame that is being
 * written. No request is 36 or 37, which are kinds of answers. */
enum dvg_request {
    DVG_REQUEST_OFFER = 0,              /* world, driver: OFFERED, REFUSED, BUSY */
    DVG_REQUEST_REDRAW = 1,             /* world, driver: ASKED, NOTHING_PUBLISHED, BUSY */
    DVG_REQUEST_TICK = 2,               /* world, driver: PEEK, WROTE, READ, SENT, IDLE; of a
                                           driver: the HALT flag in bit 8, byte 001 in 16 to 23 */
    DVG_REQUEST_STROBE = 3,             /* world, generator, wrapping: STARTED, NO_STROBE */
    DVG_REQUEST_FETCH = 4,              /* world, generator, wrapping: LOW, FETCHED, DONE, BROKE,
                                           STILL, NO_MEMORY; of a generator: a byte in 16 to 23,
                                           or 1 in bit 8: no memory answers */
    DVG_REQUEST_RESET_GENERATOR = 5,    /* world, generator, wrapping, judge: CLEARED, NO_RUN */
    DVG_REQUEST_RESET_PROCESSOR = 6,    /* world, driver, judge: CLEARED, NO_RUN, ONE_MOMENT,
                                           NO_MOMENT */
    DVG_REQUEST_RESET_ALL = 7,          /* world, judge: CLEARED, WRONG_SIZE, NO_RUN */
    DVG_REQUEST_PUSH = 8,               /* any: PUSHED, NO_OPERATION, FULL; the operation's kind
                                           in 8 to 15: 0 VCTR, 1 SVEC, 2 LABS, 3 a call and 4 a
                                           jump in the frame, 5 and 6 the same into the ROM, 7 a
                                           return, 8 HALT; scale in 16 to 23, z in 24 to 31, x in
                                           32 to 47, y in 48 to 63; fields that a kind has no use
                                           for are 0 */
    DVG_REQUEST_CLEAR = 9,              /* any: CLEARED */
    DVG_REQUEST_STAGE = 10,             /* any: STAGED, FULL, NO_MEMORY; a byte in 16 to 23, how
                                           often in 24 to 39 */
    DVG_REQUEST_UNSTAGE = 11,           /* any: CLEARED */
    DVG_REQUEST_OPEN_WORLD = 12,        /* any: OPENED, WRONG_SIZE, NO_MEMORY */
    DVG_REQUEST_OPEN_DRIVER = 13,       /* any: OPENED, WRONG_SIZE, NO_MEMORY */
    DVG_REQUEST_OPEN_GENERATOR = 14,    /* any: OPENED */
    DVG_REQUEST_SHUT = 15,              /* any: CLOSED */
    DVG_REQUEST_WANTS = 16,             /* generator, wrapping: WANTED, STILL */
    DVG_REQUEST_STROKES = 17,           /* any: a number */
    DVG_REQUEST_STROKE_FROM = 18,       /* any: a place; a stroke's number, from 8 on */
    DVG_REQUEST_STROKE_TO = 19,         /* any: a place; the same */
    DVG_REQUEST_STROKE_INTENSITY = 20,  /* any: a number; the same */
    DVG_REQUEST_OPEN_JUDGE = 21,        /* any: OPENED, NO_MEMORY */
    DVG_REQUEST_TELL = 22,              /* judge: NO_RUN, ONE_MOMENT, NO_MOMENT, WHOLE, TORN,
                                           UNKNOWN; a kind in 8 to 15, an address in 16 to 31, a
                                           value in 32 to 47 */
    DVG_REQUEST_MOVE = 23,              /* world, generator, wrapping: MOVES, NOTHING; a byte in
                                           16 to 23, or 1 in bit 8: no memory answers */
    DVG_REQUEST_MOVE_TO = 24,           /* world, generator, wrapping: a place; as MOVE */
    DVG_REQUEST_BEAM = 25,              /* world, generator, wrapping: a place */
    DVG_REQUEST_HOLDS = 26,             /* world, generator, wrapping: HOLDS */
    DVG_REQUEST_RETURN_TO = 27,         /* world, generator, wrapping: RETURNS_TO, NOTHING; its
                                           number in 8 to 15 */
    DVG_REQUEST_STATE = 28,             /* world, generator, wrapping: STATE, NOTHING; a part's
                                           number, from 8 on */
    DVG_REQUEST_RESUME = 29,            /* any: OPENED, NO_STATE */
    DVG_REQUEST_OPEN_WRAPPING = 30,     /* any: OPENED */
    DVG_REQUEST_BYTE = 31,              /* world: BYTE, NOTHING; a byte address, from 8 on */
    DVG_REQUEST_DRIVER = 32,            /* world: DRIVER */
    DVG_REQUEST_OPERATION = 33,         /* world: a request, NOTHING; an operation's number, in
                                           the frame that is being written, from 8 on */
    DVG_REQUEST_RESUME_WRAPPING = 34,   /* any: OPENED, NO_STATE */
    DVG_REQUEST_TELL_STATE = 35,        /* any: CLEARED, NO_STATE, NO_MEMORY, UNKNOWN; a part, as
                                           STATE answers it */
    DVG_REQUEST_RESUME_WORLD = 38       /* world: OPENED, WRONG_SIZE, NO_STATE, NO_MEMORY,
                                           UNKNOWN; the driver, as DRIVER answers it, in 8 to 39 */
};

/* The kind of an answer, with what its address and its value are; both are 0 where nothing is said
 * of them. A word address is 0x000 to 0xFFF, and a byte address 0 to 2,047.
 *
 * A request that is answered with a kind marked = has changed nothing. This is said of one request:
 * a function below that stages bytes and then asks makes several, and says itself what is left
 * after a refusal. */
typedef enum dvg_kind {
    DVG_OFFERED = 0,           /*   the draft was checked, and the driver took its frame */
    DVG_REFUSED = 1,           /* = the check refused the draft; address: where; value: the
                                    fault's number, and 0x100 more where its place is in the
                                    ROM: dvg_fault_of, dvg_in_rom */
    DVG_BUSY = 2,              /* = the driver isn't idle */
    DVG_ASKED = 3,             /*   the driver took the redraw */
    DVG_NOTHING_PUBLISHED = 4, /* = the driver has published no frame since its reset */
    DVG_PEEK = 5,              /*   the driver looked at byte 001 */
    DVG_WROTE = 6,             /*   the driver wrote the byte `value` at this byte address */
    DVG_READ = 7,              /*   the driver read the HALT flag; value: 1 where the generator
                                    is halted, else 0 */
    DVG_SENT = 8,              /*   the driver sent a start strobe */
    DVG_IDLE = 9,              /*   the driver did nothing */
    DVG_STARTED = 10,          /*   a run began at word zero */
    DVG_NO_STROBE = 11,        /* = the strobe had no effect, as the driver has sent none */
    DVG_LOW = 12,              /*   the low byte `value` of the word at this word address was
                                    fetched */
    DVG_FETCHED = 13,          /*   the word `value` at this word address was fetched, and the
                                    run goes on */
    DVG_DONE = 14,             /*   the same, and the word is a HALT: the run's strokes can be
                                    asked for */
    DVG_BROKE = 15,            /*   the fetch at this word address broke the run, which is over:
                                    dvg_break_of */
    DVG_STILL = 16,            /* = no run is open */
    DVG_CLEARED = 17,          /*   it was done */
    DVG_PUSHED = 18,           /*   value: the operation's number in the draft, from 0 */
    DVG_NO_OPERATION = 19,     /* = a field is out of its range */
    DVG_FULL = 20,             /* = the draft has 511 operations, or more than 6,144 bytes
                                    would be staged */
    DVG_STAGED = 21,           /*   value: how many bytes are staged */
    DVG_OPENED = 22,           /*   it is open, in place of what was */
    DVG_WRONG_SIZE = 23,       /* = other than as many bytes are staged as it takes */
    DVG_CLOSED = 24,           /*   nothing is open */
    DVG_WANTED = 25,           /* = a byte of the word at this word address is wanted; value:
                                    1 the high one, 0 the low one */
    DVG_NO_RUN = 26,           /*   a judge was told a line, and no run is open; of this answer
                                    and the next four, value: 1 where the line reads what was
                                    not written, else 0 */
    DVG_ONE_MOMENT = 27,       /*   the same, and the open run is consistent so far */
    DVG_NO_MOMENT = 28,        /*   the same, and the open run is mixed */
    DVG_WHOLE = 29,            /*   the line is the HALT of a consistent run */
    DVG_TORN = 30,             /*   the line is the HALT of a mixed run */
    DVG_MOVES = 31,            /* = the byte makes a move, by the instruction whose first word is
                                    at this word address; value: its intensity, and 0x100 more
                                    where a LABS places the beam: dvg_generator_move */
    DVG_NOTHING = 32,          /* = there is no move, or no such return address, byte or
                                    operation */
    DVG_HOLDS = 33,            /* = what a generator holds: dvg_held_by */
    DVG_RETURNS_TO = 34,       /* = a return address, which is this word address */
    DVG_STATE = 35,            /* = a part of a generator's state: the whole number, asked of
                                    another device, tells it that part: dvg_save */
    DVG_NO_STATE = 36,         /* = the parts of the state that was told don't fit together, or
                                    the frame that it writes is refused over this ROM; or there
                                    is no such part, or it doesn't suit the parts before it */
    DVG_BYTE = 37,             /* = the RAM holds the byte `value` at this byte address */
    DVG_DRIVER = 38,           /* = what a world keeps of its driver: the whole number, asked of
                                    another world, has it go on: dvg_save */
    DVG_UNKNOWN = 254,         /* = there is no such request, whatever is open, or none of
                                    what is open */
    DVG_NO_MEMORY = 255        /* = there was no memory for it */
} dvg_kind;

/* An answer, but for those that are a number, a place, an intensity, a part of a state or an
 * operation. */
typedef struct dvg_answer {
    dvg_kind kind;
    uint16_t address;
    uint16_t value;
    int32_t next;               /* of DVG_STARTED, DVG_LOW and DVG_FETCHED from a generator alone:
                                   the address of the byte that it wants next, 0 to 8,191, which is
                                   twice that of its word, and 1 more for the high one; else -1 */
} dvg_answer;

/* Why the check refuses a draft: the numbers of `dvg check`. The address of the answer is the
 * number of an operation where the fault has a place there, or a word address where dvg_in_rom says
 * so. */
typedef enum dvg_fault {
    DVG_FAULT_NONE = 0,         /* the answer is no refusal */
    DVG_FAULT_EMPTY = 1,        /* no operation */
    DVG_FAULT_NO_LABS = 2,      /* the first operation is no LABS */
    DVG_FAULT_TOO_LONG = 3,     /* more than 511 words */
    DVG_FAULT_TARGET = 4,       /* a call or a jump to no operation; at an operation */
    DVG_FAULT_RUNS_OFF = 5,     /* the last operation leads on; at an operation */
    DVG_FAULT_OUT_OF_ROM = 6,   /* a way out of the ROM; at an operation or a ROM word */
    DVG_FAULT_TOO_DEEP = 7,     /* a fifth open call; at an operation or a ROM word */
    DVG_FAULT_NO_CALLER = 8,    /* a return without a call; at an operation or a ROM word */
    DVG_FAULT_LOOPS = 9         /* steps at one depth lead back to a place */
} dvg_fault;

/* Why a run broke. A world shows one only where it was restored from bytes that no world over its
 * ROM saved. */
typedef enum dvg_break {
    DVG_BREAK_NONE = 0,         /* the answer is no DVG_BROKE */
    DVG_BREAK_STACK_OVER = 1,   /* a fifth call */
    DVG_BREAK_STACK_UNDER = 2,  /* a return without a call */
    DVG_BREAK_HOLE = 3          /* no memory answers */
} dvg_break;

/* A line that was drawn: from x0, y0 to x1, y1, in 1/512 of a screen unit, 0 to 2,097,151 each,
 * with intensity z, 1 to 15. */
typedef struct dvg_stroke {
    uint32_t x0;
    uint32_t y0;
    uint32_t x1;
    uint32_t y1;
    uint8_t z;
} dvg_stroke;

/* What an instruction does to the beam, also where nothing is seen: from x0, y0 to x1, y1, in 1/512
 * of a screen unit, 0 to 2,097,151 each, with intensity z, 0 (blank) to 15. `address` is the word
 * address of the instruction's first word. Where `placed`, a LABS places the beam, and z is 0. */
typedef struct dvg_move {
    uint32_t x0;
    uint32_t y0;
    uint32_t x1;
    uint32_t y1;
    uint8_t z;
    bool placed;
    uint16_t address;
} dvg_move;

/* What a generator holds. In an open run it has `returns` return addresses, 0 to 4, and stands
 * before a high byte where `low`, and before a second word where `second`, after the first word
 * `first`. After a run its return addresses and its first word stay until the next one. */
typedef struct dvg_held {
    uint32_t x;                 /* the beam's position, in 1/512 of a screen unit */
    uint32_t y;
    uint8_t scale;              /* the global scale, 0 to 15 */
    bool low;
    bool second;
    uint16_t first;             /* 0 where not `second` */
    uint8_t returns;
} dvg_held;

/* The answer that a number is: the kind in bits 0 to 7, the address in bits 8 to 23, and the value
 * in bits 24 to 39. Bit 60 says whether a byte is wanted next, and its address stands in bits 40 to
 * 55. Mask what you take of a number: bits that say nothing today may say something one day. */
DVG_INLINE dvg_answer dvg_answer_of(uint64_t number)
{
    dvg_answer answer;
    answer.kind = (dvg_kind)(number & 0xFF);
    answer.address = (uint16_t)(number >> 8 & 0xFFFF);
    answer.value = (uint16_t)(number >> 24 & 0xFFFF);
    answer.next = (number >> 60 & 1) != 0 ? (int32_t)(number >> 40 & 0xFFFF) : -1;
    return answer;
}

/* The device that a call below was handed. A null pointer ends the program by assert, if that is
 * on: NDEBUG turns it off, and then nothing looks. */
DVG_INLINE dvg *dvg_there(dvg *device)
{
    assert(device != NULL && "a call of dvg.h was handed no device: dvg_new makes one");
    return device;
}

/* The same of what a call below reads or writes: of bytes, a move, or what a generator holds. */
DVG_INLINE void dvg_need(const void *place)
{
    assert(place != NULL && "a call of dvg.h was handed a null pointer for what it needs");
    (void)place;
}

/* One request, with its answer taken apart. Of requests for strokes the answer is no such thing. */
DVG_INLINE dvg_answer dvg_ask(dvg *device, uint64_t request)
{
    return dvg_answer_of(dvg_turn(dvg_there(device), request));
}

/* The fault that a draft was refused for. */
DVG_INLINE dvg_fault dvg_fault_of(dvg_answer answer)
{
    return answer.kind == DVG_REFUSED ? (dvg_fault)(answer.value & 0xF) : DVG_FAULT_NONE;
}

/* Whether the place of that fault is a word of the ROM. */
DVG_INLINE bool dvg_in_rom(dvg_answer answer)
{
    return answer.kind == DVG_REFUSED && (answer.value & 0x100) != 0;
}

/* Why a run broke. */
DVG_INLINE dvg_break dvg_break_of(dvg_answer answer)
{
    return answer.kind == DVG_BROKE ? (dvg_break)(answer.value & 0x3) : DVG_BREAK_NONE;
}

/* --- Texts --- */

/* The name of a kind, a fault or a break, in English and lower case, as the program `dvg` has it
 * where it has it. A number that is none has a text, too: none of these answers a null pointer. The
 * texts stay as long as the program runs. */

DVG_INLINE const char *dvg_kind_text(dvg_kind kind)
{
    switch (kind) {
    case DVG_OFFERED: return "offered";
    case DVG_REFUSED: return "refused";
    case DVG_BUSY: return "busy";
    case DVG_ASKED: return "asked";
    case DVG_NOTHING_PUBLISHED: return "nothing published";
    case DVG_PEEK: return "peek";
    case DVG_WROTE: return "wrote";
    case DVG_READ: return "read";
    case DVG_SENT: return "sent";
    case DVG_IDLE: return "idle";
    case DVG_STARTED: return "started";
    case DVG_NO_STROBE: return "no strobe";
    case DVG_LOW: return "low";
    case DVG_FETCHED: return "fetched";
    case DVG_DONE: return "done";
    case DVG_BROKE: return "broke";
    case DVG_STILL: return "still";
    case DVG_CLEARED: return "cleared";
    case DVG_PUSHED: return "pushed";
    case DVG_NO_OPERATION: return "no operation";
    case DVG_FULL: return "full";
    case DVG_STAGED: return "staged";
    case DVG_OPENED: return "opened";
    case DVG_WRONG_SIZE: return "wrong size";
    case DVG_CLOSED: return "closed";
    case DVG_WANTED: return "wanted";
    case DVG_NO_RUN: return "no run";
    case DVG_ONE_MOMENT: return "one moment";
    case DVG_NO_MOMENT: return "no moment";
    case DVG_WHOLE: return "whole";
    case DVG_TORN: return "torn";
    case DVG_MOVES: return "moves";
    case DVG_NOTHING: return "nothing";
    case DVG_HOLDS: return "holds";
    case DVG_RETURNS_TO: return "returns to";
    case DVG_STATE: return "state";
    case DVG_NO_STATE: return "no state";
    case DVG_BYTE: return "byte";
    case DVG_DRIVER: return "driver";
    case DVG_UNKNOWN: return "unknown";
    case DVG_NO_MEMORY: return "no memory";
    }
    return "no kind";
}

DVG_INLINE const char *dvg_fault_text(dvg_fault fault)
{
    switch (fault) {
    case DVG_FAULT_NONE: return "none";
    case DVG_FAULT_EMPTY: return "empty";
    case DVG_FAULT_NO_LABS: return "no labs";
    case DVG_FAULT_TOO_LONG: return "too long";
    case DVG_FAULT_TARGET: return "target";
    case DVG_FAULT_RUNS_OFF: return "runs off";
    case DVG_FAULT_OUT_OF_ROM: return "out of rom";
    case DVG_FAULT_TOO_DEEP: return "too deep";
    case DVG_FAULT_NO_CALLER: return "no caller";
    case DVG_FAULT_LOOPS: return "loops";
    }
    return "no fault";
}

DVG_INLINE const char *dvg_break_text(dvg_break why)
{
    switch (why) {
    case DVG_BREAK_NONE: return "none";
    case DVG_BREAK_STACK_OVER: return "fifth call";
    case DVG_BREAK_STACK_UNDER: return "return without a call";
    case DVG_BREAK_HOLE: return "no memory there";
    }
    return "no break";
}

/* --- Staged bytes --- */

/* Stages a byte this many times, after the bytes that are staged. DVG_STAGED; DVG_FULL;
 * DVG_NO_MEMORY. */
DVG_INLINE dvg_answer dvg_stage_byte(dvg *device, uint8_t byte, uint16_t count)
{
    return dvg_ask(device, DVG_REQUEST_STAGE | (uint64_t)byte << 16 | (uint64_t)count << 24);
}

/* Stages bytes, by one request for each run of equal ones. `bytes` may be null where there are
 * none. DVG_STAGED. DVG_FULL or DVG_NO_MEMORY: what was staged before is still staged, and some of
 * the first of these bytes may be, too. */
DVG_INLINE dvg_answer dvg_stage_bytes(dvg *device, const uint8_t *bytes, size_t count)
{
    dvg_answer answer = dvg_stage_byte(device, 0, 0);
    size_t first = 0;
    if (count > 0) {
        dvg_need(bytes);
    }
    while (first < count && answer.kind == DVG_STAGED) {
        size_t after = first + 1;
        while (after < count && after - first < 0xFFFF && bytes[after] == bytes[first]) {
            after++;
        }
        answer = dvg_stage_byte(device, bytes[first], (uint16_t)(after - first));
        first = after;
    }
    return answer;
}

/* Takes the staged bytes away, with their memory. DVG_CLEARED. */
DVG_INLINE dvg_answer dvg_unstage(dvg *device)
{
    return dvg_ask(device, DVG_REQUEST_UNSTAGE);
}

/* Stages the 2,048 bytes of a RAM, or as many zeros where `ram` is null, in place of what is
 * staged. DVG_STAGED. DVG_NO_MEMORY: what was staged before is gone, and some of the first of these
 * bytes may be staged. */
DVG_INLINE dvg_answer dvg_stage_ram(dvg *device, const uint8_t *ram)
{
    dvg_unstage(device);
    if (ram == NULL) {
        return dvg_stage_byte(device, 0, DVG_RAM_BYTES);
    }
    return dvg_stage_bytes(device, ram, DVG_RAM_BYTES);
}

/* Whether a ROM may have this many bytes. */
DVG_INLINE bool dvg_is_rom_length(size_t length)
{
    return length == DVG_ROM_BYTES || length == DVG_LARGE_ROM_BYTES;
}

/* Stages a ROM after what is staged. As dvg_stage_bytes; DVG_WRONG_SIZE: that is no length of one,
 * and `rom` isn't looked at. */
DVG_INLINE dvg_answer dvg_stage_rom(dvg *device, const uint8_t *rom, size_t rom_length)
{
    if (!dvg_is_rom_length(rom_length)) {
        dvg_there(device);
        return dvg_answer_of(DVG_WRONG_SIZE);
    }
    return dvg_stage_bytes(device, rom, rom_length);
}

/* Asks for this, for which bytes were staged with this answer, and takes them away. */
DVG_INLINE dvg_answer dvg_ask_staged(dvg *device, dvg_answer staged, uint64_t request)
{
    if (staged.kind == DVG_STAGED) {
        staged = dvg_ask(device, request);
    }
    dvg_unstage(device);
    return staged;
}

/* --- Opening and shutting --- */

/* Each opens something in place of what is open, keeps the draft, and forgets the strokes. Where
 * the answer isn't DVG_OPENED, what was open, the draft and the strokes are as they were. The first
 * two stage bytes for it: whatever the answer, no byte is staged then, also none that was before.
 */

/* Opens a world, over a RAM that holds the 2,048 bytes at `ram`, or zeros where that is null, and a
 * ROM of the 2,048 or 4,096 bytes at `rom`. Nothing is copied but here: the caller keeps both.
 * `rom` may be null where the length is 0. DVG_OPENED; DVG_WRONG_SIZE: that is no length of a ROM;
 * DVG_NO_MEMORY. */
DVG_INLINE dvg_answer dvg_open_world(dvg *device, const uint8_t *ram, const uint8_t *rom,
                                     size_t rom_length)
{
    dvg_answer staged = dvg_stage_ram(device, ram);
    if (staged.kind == DVG_STAGED) {
        staged = dvg_stage_rom(device, rom, rom_length);
    }
    return dvg_ask_staged(device, staged, DVG_REQUEST_OPEN_WORLD);
}

/* Opens a driver alone, just reset. Its drafts are checked over a ROM of the 2,048 or 4,096 bytes
 * at `rom`. Answers as dvg_open_world. */
DVG_INLINE dvg_answer dvg_open_driver(dvg *device, const uint8_t *rom, size_t rom_length)
{
    dvg_answer staged;
    dvg_unstage(device);
    staged = dvg_stage_rom(device, rom, rom_length);
    return dvg_ask_staged(device, staged, DVG_REQUEST_OPEN_DRIVER);
}

/* Opens a generator alone, halted, with the beam at 0, 0 and scale 0. DVG_OPENED. */
DVG_INLINE dvg_answer dvg_open_generator(dvg *device)
{
    return dvg_ask(device, DVG_REQUEST_OPEN_GENERATOR);
}

/* Opens a generator alone whose stack wraps, as hardware and emulators go on: a fifth call
 * overwrites the oldest return address, and a return without a call goes to the address that was
 * returned to last, or saved before; at first all four are 000. A start and a reset leave them. So
 * no call and no return breaks a run. All else is as of dvg_open_generator, but dvg_held_by has 4
 * `returns`. DVG_OPENED. */
DVG_INLINE dvg_answer dvg_open_wrapping(dvg *device)
{
    return dvg_ask(device, DVG_REQUEST_OPEN_WRAPPING);
}

/* Opens a judge of moments, which was told nothing. DVG_OPENED; DVG_NO_MEMORY. */
DVG_INLINE dvg_answer dvg_open_judge(dvg *device)
{
    return dvg_ask(device, DVG_REQUEST_OPEN_JUDGE);
}

/* Shuts what is open, and gives its memory back, with the draft, the staged bytes and the strokes:
 * the device is as dvg_new made it. DVG_CLOSED. */
DVG_INLINE dvg_answer dvg_shut(dvg *device)
{
    return dvg_ask(device, DVG_REQUEST_SHUT);
}

/* --- Drafts --- */

/* A device has one draft, whatever is open. An offer hands it to the driver, and it stays as it is:
 * dvg_clear begins the next one. Each of these adds one operation to it: DVG_PUSHED with its
 * number; DVG_NO_OPERATION where a field is out of its range, whatever int it is; DVG_FULL. */

/* An operation by its number and fields. Fields that don't fit into their bits are those of no
 * operation. */
DVG_INLINE dvg_answer dvg_push(dvg *device, bool fits, uint8_t kind, int scale, int z, int x,
                               int y)
{
    bool known = fits && scale >= 0 && scale <= 0xFF && z >= 0 && z <= 0xFF;
    uint64_t request = DVG_REQUEST_PUSH;
    request |= (uint64_t)(known ? kind : 0xFF) << 8;
    request |= (uint64_t)(scale & 0xFF) << 16;
    request |= (uint64_t)(z & 0xFF) << 24;
    request |= (uint64_t)(x & 0xFFFF) << 32;
    request |= (uint64_t)(y & 0xFFFF) << 48;
    return dvg_ask(device, request);
}

/* Whether a number fits into 16 bits, with a sign or without one. */
DVG_INLINE bool dvg_fits_signed(int number)
{
    return number >= -0x8000 && number <= 0x7FFF;
}
DVG_INLINE bool dvg_fits(int number)
{
    return number >= 0 && number <= 0xFFFF;
}

/* Takes the operations of the draft away. DVG_CLEARED. */
DVG_INLINE dvg_answer dvg_clear(dvg *device)
{
    return dvg_ask(device, DVG_REQUEST_CLEAR);
}

/* A VCTR, two words: moves the beam by dx and dy, -1,023 to 1,023, times two to the power of s, in
 * 1/512 of a screen unit, and draws with intensity z, 1 to 15, or nothing, 0. Here s is the sum of
 * this scale, 0 to 9, and the global one, modulo 16; where it is over 9, nothing moves. */
DVG_INLINE dvg_answer dvg_vctr(dvg *device, int scale, int dx, int dy, int z)
{
    return dvg_push(device, dvg_fits_signed(dx) && dvg_fits_signed(dy), 0, scale, z, dx, dy);
}

/* An SVEC, one word: the same, but dx and dy are -3 to 3 and count 256 times as much, and this
 * scale is 2 to 5. */
DVG_INLINE dvg_answer dvg_svec(dvg *device, int scale, int dx, int dy, int z)
{
    return dvg_push(device, dvg_fits_signed(dx) && dvg_fits_signed(dy), 1, scale, z, dx, dy);
}

/* A LABS, two words: puts the beam at x, y, 0 to 4,095 screen units, and sets the global scale, 0
 * to 15. */
DVG_INLINE dvg_answer dvg_labs(dvg *device, int x, int y, int scale)
{
    return dvg_push(device, dvg_fits(x) && dvg_fits(y), 2, scale, 0, x, y);
}

/* A call of, and a jump to, the operation of this number, 0 to 65,535, which may be added later;
 * one word. */
DVG_INLINE dvg_answer dvg_call(dvg *device, int operation)
{
    return dvg_push(device, dvg_fits(operation), 3, 0, 0, operation, 0);
}
DVG_INLINE dvg_answer dvg_jump(dvg *device, int operation)
{
    return dvg_push(device, dvg_fits(operation), 4, 0, 0, operation, 0);
}

/* A call of, and a jump to, a word of the ROM, by its word address, 000 to FFF (hexadecimal); one
 * word. */
DVG_INLINE dvg_answer dvg_call_rom(dvg *device, int address)
{
    return dvg_push(device, dvg_fits(address), 5, 0, 0, address, 0);
}
DVG_INLINE dvg_answer dvg_jump_rom(dvg *device, int address)
{
    return dvg_push(device, dvg_fits(address), 6, 0, 0, address, 0);
}

/* A return from the newest call; one word. */
DVG_INLINE dvg_answer dvg_return(dvg *device)
{
    return dvg_push(device, true, 7, 0, 0, 0, 0);
}

/* The end of the run; one word. */
DVG_INLINE dvg_answer dvg_halt(dvg *device)
{
    return dvg_push(device, true, 8, 0, 0, 0, 0);
}

/* --- Events --- */

/* Each answers DVG_CLOSED where nothing is open, and DVG_UNKNOWN where it is none of what is open.
 * (By dvg_turn, a number that is no request is answered DVG_UNKNOWN also while nothing is open.)
 *
 * A tick and a fetch are one request of a world and of an end alone. So nothing tells these apart:
 * dvg_tick hands a driver alone the flag of a running generator and byte 00, and dvg_fetch hands a
 * generator alone byte 00; a world passes over what dvg_driver_tick, dvg_generator_fetch and
 * dvg_generator_hole hand it.
 *
 * A driver alone beside a generator alone is what a world is, if their caller
 *
 *   - opens the driver over the ROM that the generator reads,
 *   - hands a tick the HALT flag and byte 001 as they are at that moment,
 *   - writes the byte of a DVG_WROTE before the next tick and the next fetch, and no other byte,
 *   - lets a strobe arrive only after a DVG_SENT since the last reset of the whole system, which is
 *     a reset of both, and drops a strobe that was on its way. */

/* Of a world or a driver: offers the draft. DVG_OFFERED; DVG_REFUSED; DVG_BUSY. */
DVG_INLINE dvg_answer dvg_offer(dvg *device)
{
    return dvg_ask(device, DVG_REQUEST_OFFER);
}

/* Of a world or a driver: asks to have the published frame drawn again. DVG_ASKED;
 * DVG_NOTHING_PUBLISHED; DVG_BUSY. */
DVG_INLINE dvg_answer dvg_redraw(dvg *device)
{
    return dvg_ask(device, DVG_REQUEST_REDRAW);
}

/* Of a world: the driver does one action. DVG_PEEK; DVG_WROTE; DVG_READ; DVG_SENT; DVG_IDLE. */
DVG_INLINE dvg_answer dvg_tick(dvg *device)
{
    return dvg_ask(device, DVG_REQUEST_TICK);
}

/* Of a driver: the same, where `halted` is whether the generator is halted, and byte1 byte 001 of
 * the RAM. What DVG_WROTE says is to be written by the caller, before the next tick and the next
 * fetch, and what DVG_SENT says is the caller's to send. */
DVG_INLINE dvg_answer dvg_driver_tick(dvg *device, bool halted, uint8_t byte1)
{
    return dvg_ask(device, DVG_REQUEST_TICK | (uint64_t)halted << 8 | (uint64_t)byte1 << 16);
}

/* Of a world or a generator: a start strobe arrives. DVG_STARTED, also amid a run, which is
 * abandoned with its strokes; of a world also DVG_NO_STROBE. A generator alone says with it, and
 * with the answer to each byte, which byte it wants next, so a run takes one turn a byte. This runs
 * over the 8,192 bytes at `memory` until it halts or breaks, or memory is refused; count the bytes
 * where a list may have no end:
 *
 *     dvg_answer answer = dvg_strobe(device);
 *     while (answer.next >= 0) {
 *         answer = dvg_generator_fetch(device, memory[answer.next]);
 *     }
 */
DVG_INLINE dvg_answer dvg_strobe(dvg *device)
{
    return dvg_ask(device, DVG_REQUEST_STROBE);
}

/* Of a world: the generator fetches a byte, the low byte of a word and then its high byte. DVG_LOW;
 * DVG_FETCHED; DVG_DONE; DVG_STILL; DVG_NO_MEMORY. DVG_BROKE, only after a restore of bytes that no
 * world over this ROM saved: then the run is over. */
DVG_INLINE dvg_answer dvg_fetch(dvg *device)
{
    return dvg_ask(device, DVG_REQUEST_FETCH);
}

/* Of a world: lets it go on until a run ends. Each step is a tick, the strobe that this sent, and a
 * fetch; there are `most` of them at most. Answers the last fetch: DVG_DONE; DVG_BROKE;
 * DVG_NO_MEMORY; of another kind, where no run ended within these steps. */
DVG_INLINE dvg_answer dvg_run_to_halt(dvg *device, uint32_t most)
{
    dvg_answer answer = dvg_answer_of(DVG_STILL);
    dvg_there(device);
    for (; most > 0 && (answer.kind == DVG_STILL || answer.kind == DVG_LOW
                        || answer.kind == DVG_FETCHED); most--) {
        if (dvg_tick(device).kind == DVG_SENT) {
            dvg_strobe(device);
        }
        answer = dvg_fetch(device);
    }
    return answer;
}

/* Of a generator: which byte it wants. DVG_WANTED; DVG_STILL: it is halted, which is the HALT flag.
 * The answer to a strobe, or to the byte before, has said it already. */
DVG_INLINE dvg_answer dvg_wants(dvg *device)
{
    return dvg_ask(device, DVG_REQUEST_WANTS);
}

/* Of a generator: it is handed the byte that it wants. Answers as dvg_fetch, and DVG_BROKE where
 * the byte ends a word that breaks the run. After DVG_NO_MEMORY the same byte is still wanted,
 * though `next` is -1. */
DVG_INLINE dvg_answer dvg_generator_fetch(dvg *device, uint8_t byte)
{
    return dvg_ask(device, DVG_REQUEST_FETCH | (uint64_t)byte << 16);
}

/* Of a generator: no memory answers at the address that it wants. DVG_BROKE; DVG_STILL. */
DVG_INLINE dvg_answer dvg_generator_hole(dvg *device)
{
    return dvg_ask(device, DVG_REQUEST_FETCH | 0x100);
}

/* Of a generator, alone or in a world: which move it would make if it were handed this byte, which
 * isn't handed to it. So ask before dvg_generator_fetch. Writes the move to *move and answers
 * DVG_MOVES, as soon as the byte ends its instruction. DVG_NOTHING: the byte makes no move, as a
 * low byte, a first word, and a HALT, JSRL, RTSL or JMPL don't, or the generator is halted; *move
 * is as it was. */
DVG_INLINE dvg_answer dvg_generator_move(dvg *device, uint8_t byte, dvg_move *move)
{
    dvg_answer answer = dvg_ask(device, DVG_REQUEST_MOVE | (uint64_t)byte << 16);
    uint64_t from, to;
    dvg_need(move);
    if (answer.kind != DVG_MOVES) {
        return answer;
    }
    from = dvg_turn(device, DVG_REQUEST_BEAM);
    to = dvg_turn(device, DVG_REQUEST_MOVE_TO | (uint64_t)byte << 16);
    move->x0 = (uint32_t)(from & 0xFFFFFFFF);
    move->y0 = (uint32_t)(from >> 32);
    move->x1 = (uint32_t)(to & 0xFFFFFFFF);
    move->y1 = (uint32_t)(to >> 32);
    move->z = (uint8_t)(answer.value & 0xF);
    move->placed = (answer.value & 0x100) != 0;
    move->address = answer.address;
    return answer;
}

/* A move along an axis from a position to another, in whole screen units, as rate multipliers round
 * it: a half away from zero. Counters of twelve bits that are loaded by each LABS with x1 / 512 and
 * y1 / 512, and that count these units of each other move, modulo 4,096, have the beam's position
 * in whole units. */
DVG_INLINE int dvg_units(uint32_t from, uint32_t to)
{
    uint32_t ahead = (to - from) & 0x1FFFFF;
    return ahead < 0x100000 ? (int)((ahead + 256) / 512) : -(int)((0x200000 - ahead + 256) / 512);
}

/* Of a generator, alone or in a world: writes what it holds to *held, its beam among that, and
 * answers DVG_HOLDS. */
DVG_INLINE dvg_answer dvg_held_by(dvg *device, dvg_held *held)
{
    dvg_answer answer = dvg_ask(device, DVG_REQUEST_HOLDS);
    uint64_t beam;
    dvg_need(held);
    if (answer.kind != DVG_HOLDS) {
        return answer;
    }
    beam = dvg_turn(device, DVG_REQUEST_BEAM);
    held->x = (uint32_t)(beam & 0xFFFFFFFF);
    held->y = (uint32_t)(beam >> 32);
    held->scale = (uint8_t)(answer.value & 0xF);
    held->low = (answer.value & 0x10) != 0;
    held->second = (answer.value & 0x20) != 0;
    held->first = answer.address;
    held->returns = (uint8_t)(answer.value >> 8 & 0x7);
    return answer;
}

/* Of a generator, alone or in a world: whether a run is open. To ask it is no event. False where
 * neither is open. */
DVG_INLINE bool dvg_run_is_open(dvg *device)
{
    uint64_t fields = dvg_turn(dvg_there(device), DVG_REQUEST_STATE);
    return (fields & 0xFF) == DVG_STATE && (fields >> 60 & 1) != 0;
}

/* Of a generator, alone or in a world: its return address of this number; 0 is the newest one's, to
 * which RTSL leads. DVG_RETURNS_TO; DVG_NOTHING. */
DVG_INLINE dvg_answer dvg_return_to(dvg *device, uint8_t number)
{
    return dvg_ask(device, DVG_REQUEST_RETURN_TO | (uint64_t)number << 8);
}

/* Of a world: the byte that its RAM holds at this byte address. DVG_BYTE; DVG_NOTHING, where the
 * address is above 2,047. */
DVG_INLINE dvg_answer dvg_ram_byte(dvg *device, uint16_t address)
{
    return dvg_ask(device, DVG_REQUEST_BYTE | (uint64_t)address << 8);
}

/* Of a world: writes the 2,048 bytes of its RAM to `ram`, and answers DVG_BYTE. Where no world is
 * open, `ram` is as it was. */
DVG_INLINE dvg_answer dvg_ram(dvg *device, uint8_t *ram)
{
    dvg_answer answer = dvg_ram_byte(device, 0);
    dvg_need(ram);
    for (uint16_t at = 0; answer.kind == DVG_BYTE && at < DVG_RAM_BYTES; at++) {
        answer = dvg_ram_byte(device, at);
        ram[at] = (uint8_t)answer.value;
    }
    return answer;
}

/* Of a world or a generator: a reset of the generator alone, which ends its run. DVG_CLEARED. */
DVG_INLINE dvg_answer dvg_reset_generator(dvg *device)
{
    return dvg_ask(device, DVG_REQUEST_RESET_GENERATOR);
}

/* Of a world or a driver: a reset of the processor alone, which is one of the driver. DVG_CLEARED.
 */
DVG_INLINE dvg_answer dvg_reset_processor(dvg *device)
{
    return dvg_ask(device, DVG_REQUEST_RESET_PROCESSOR);
}

/* Of a world: a reset of the whole system, after which the RAM holds the 2,048 bytes at `ram`, or
 * zeros where that is null. DVG_CLEARED. DVG_NO_MEMORY: the bytes could not be staged, and the
 * world is as it was. Whatever the answer, no byte is staged then, also none that was before. */
DVG_INLINE dvg_answer dvg_reset_all(dvg *device, const uint8_t *ram)
{
    return dvg_ask_staged(device, dvg_stage_ram(device, ram), DVG_REQUEST_RESET_ALL);
}

/* --- A saved state --- */

/* A world, and a generator alone, is saved as bytes, also amid a run, and restored from them: then
 * it goes on as the saved one did. That is proved of the requests which these functions make.
 *
 * Saved of a generator is what the open run drew so far, and no strokes of a finished run. Saved of
 * a world is its RAM, its generator, its driver with the frame that it writes, and whether a strobe
 * is under way. A driver alone and a judge aren't saved.
 *
 * A ROM isn't saved, and a state belongs to its ROM. A device can't be asked for its ROM, so hand
 * the digest of it to dvg_save_over and to dvg_restore_over, which refuses a world of another one:
 *
 *     uint64_t digest = dvg_digest(rom, rom_length);
 *     size_t length = dvg_save_over(world, digest, bytes, sizeof bytes);
 *     dvg_answer answer = dvg_restore_over(world, digest, bytes, length);
 *     if (answer.kind == DVG_NO_STATE) puts(dvg_saved_fault_text(dvg_saved_fault_of(answer)));
 *
 * Where no digest is handed over (0), and by dvg_restore, nothing compares the ROM, nor its size.
 * The frame that is being written is checked over the ROM that is there; the frame in the RAM, and
 * an open run, are not. So over another ROM a world may open, and then draw something else, answer
 * DVG_BROKE, or fetch without end.
 *
 * A strobe is under way from its DVG_SENT to the next reset of the whole system, also after it
 * arrived. Whether it arrived isn't saved. So after a restore let it arrive where no run is open:
 *
 *     if (!dvg_run_is_open(world)) dvg_strobe(world);
 *
 * That is DVG_NO_STROBE where none was sent. Where it had arrived before, the published frame is
 * drawn once more.
 *
 * A judge knows nothing of what came before a restore: a run that was open then is none for it, and
 * isn't judged (DVG_NO_RUN). Tell it the log from the beginning, or begin with the next strobe.
 *
 * The bytes are numbers of 64 bits, the low byte of each first. The low bytes of the first number
 * are 'D', 'V', a letter and the version, 1 or 2; its high 32 bits say how many numbers follow:
 *
 *   'G', a generator alone        its parts
 *   'R', one whose stack wraps    its parts; its four registers are the return addresses
 *   'W', a world                  its RAM (256 numbers: 2,048 bytes, in order), the parts of its
 *                                 generator, the operations of the frame that its driver is
 *                                 writing, if it writes one, and the driver
 *
 * Version 2, which dvg_save_over writes, has two more numbers at its end, which count, too: the
 * digest of the ROM, or 0, which names none, as of a generator alone; and the sum, the digest of
 * all bytes before it. Each later version will end with this sum.
 *
 * A bit that isn't named here is written as 0, and readers ignore it. The parts of a generator, in
 * this order, are told by DVG_REQUEST_TELL_STATE, 35 in bits 7 to 0. Bits 15 to 8 say what a part
 * is; there are two parts for each stroke that an open run has drawn so far:
 *
 *   0, its fields                 31 to 16 the address of the next word, 47 to 32 a first word,
 *                                 55 to 48 a low byte, 59 to 56 the scale, 60 whether a run is
 *                                 open, 61 and 62 whether that byte and that word are there
 *   1, a return address           31 to 16 the address; the oldest comes first
 *   2, where a stroke begins      37 to 16 x, 59 to 38 y, in 1/512 of a screen unit
 *   3, where it ends              the same, and 63 to 60 the intensity
 *   2, where the beam is          as where a stroke begins
 *
 * An operation is the DVG_REQUEST_PUSH that adds it. The driver is the last number but these two,
 * told by DVG_REQUEST_RESUME_WORLD, 38 in bits 7 to 0:
 *
 *   15 to 8                       how far it is: 0 after a reset, 1 it waits for the first time
 *                                 until the generator is halted, 2 idle, 3 it writes a frame, 4 it
 *                                 has written byte 000, 5 it waits until the generator is halted,
 *                                 6 it sends a strobe next
 *   16                            the current half, which byte 001 names; after a reset it isn't
 *                                 known, and doesn't count
 *   17                            whether it has flipped since its reset
 *   18                            the half that the frame is laid out for
 *   19                            whether a strobe is under way
 *   39 to 24                      how many bytes of the frame are still to be written
 *
 * A state is read if the version is 1 or 2, the number of bytes is right, and of version 2 the sum;
 * if all is in this order, and a generator can be in it: addresses are below 4,096, a first word
 * below 0xB000, and places below 2,097,152; there is a low byte only in an open run, and there are
 * four return addresses if the stack wraps. The frame that a driver is writing must be one that the
 * check accepts over the ROM, for the half that isn't the current one, with no more bytes left than
 * it has. A driver has flipped in 5 and 6, and not in 0, 1 and 4. */

/* The version of the bytes that dvg_save writes, and of those that dvg_save_over writes. Both are
 * read by dvg_restore and by dvg_restore_over, and no other one. */
#define DVG_SAVED_VERSION 1
#define DVG_SAVED_OVER_VERSION 2

/* The most bytes of a saved generator and of a saved world, but for strokes: each adds 16. What
 * dvg_save_over writes has 16 more. */
#define DVG_SAVED_BYTES 56
#define DVG_SAVED_WORLD_BYTES 6192
#define DVG_SAVED_OVER_BYTES 16

/* What was saved, by the letter in its bytes. */
typedef enum dvg_saved {
    DVG_SAVED_NOTHING = 0,      /* these are no bytes of a saved state */
    DVG_SAVED_GENERATOR = 'G',
    DVG_SAVED_WRAPPING = 'R',   /* a generator whose stack wraps */
    DVG_SAVED_WORLD = 'W'
} dvg_saved;

/* Why dvg_restore and dvg_restore_over refuse bytes. */
typedef enum dvg_saved_fault {
    DVG_SAVED_FAULT_NONE = 0,   /* the answer is no DVG_NO_STATE of theirs */
    DVG_SAVED_FAULT_BROKEN = 1, /* they are no saved state, or one that was cut or changed */
    DVG_SAVED_FAULT_OTHER_VERSION = 2,
    DVG_SAVED_FAULT_OTHER_CLASS = 3, /* they are of a world, and none is open */
    DVG_SAVED_FAULT_OTHER_ROM = 4, /* they are of a world over another ROM */
    DVG_SAVED_FAULT_PARTS = 5   /* their parts don't fit together, or this ROM refuses the frame
                                   in them */
} dvg_saved_fault;

/* The fault that bytes were refused for, by the answer of dvg_restore or dvg_restore_over. */
DVG_INLINE dvg_saved_fault dvg_saved_fault_of(dvg_answer answer)
{
    return answer.kind == DVG_NO_STATE ? (dvg_saved_fault)(answer.value & 0x7)
                                       : DVG_SAVED_FAULT_NONE;
}

/* The name of a fault, as of those above. */
DVG_INLINE const char *dvg_saved_fault_text(dvg_saved_fault fault)
{
    switch (fault) {
    case DVG_SAVED_FAULT_NONE: return "none";
    case DVG_SAVED_FAULT_BROKEN: return "no saved state, or one that was cut or changed";
    case DVG_SAVED_FAULT_OTHER_VERSION: return "of another version";
    case DVG_SAVED_FAULT_OTHER_CLASS: return "of another class";
    case DVG_SAVED_FAULT_OTHER_ROM: return "of a world over another ROM";
    case DVG_SAVED_FAULT_PARTS: return "its parts don't fit, or this ROM refuses its frame";
    }
    return "no fault";
}

/* The digest of bytes: FNV-1a of 64 bits, by Fowler, Noll and Vo, who gave it to the public domain
 * (http://www.isthe.com/chongo/tech/comp/fnv). By that of the 2,048 or 4,096 bytes of a ROM a saved
 * state names it. Two that differ in a single byte have different ones. It doesn't stop whoever
 * changes bytes on purpose. `bytes` may be null where there are none. */
DVG_INLINE uint64_t dvg_digest(const uint8_t *bytes, size_t size)
{
    uint64_t digest = UINT64_C(0xCBF29CE484222325);
    size_t at;
    if (size > 0) {
        dvg_need(bytes);
    }
    for (at = 0; at < size; at++) {
        digest = (digest ^ bytes[at]) * UINT64_C(0x100000001B3);
    }
    return digest;
}

/* The first number of a saved state of version 1, after which this many come. */
DVG_INLINE uint64_t dvg_saved_head(dvg_saved what, uint64_t count)
{
    return (uint64_t)'D' | (uint64_t)'V' << 8 | (uint64_t)what << 16
           | (uint64_t)DVG_SAVED_VERSION << 24 | count << 32;
}

/* The same of version 2. */
DVG_INLINE uint64_t dvg_saved_head_over(dvg_saved what, uint64_t count)
{
    uint64_t later = DVG_SAVED_OVER_VERSION - DVG_SAVED_VERSION;
    return dvg_saved_head(what, count) + (later << 24);
}

/* Writes a number as 8 bytes, the low byte first, if these end within `size`. */
DVG_INLINE void dvg_saved_put(uint8_t *bytes, size_t size, size_t at, uint64_t number)
{
    size_t i;
    for (i = 0; i < 8 && at + 8 <= size; i++) {
        bytes[at + i] = (uint8_t)(number >> 8 * i & 0xFF);
    }
}

/* The number that 8 bytes are, the low byte first. */
DVG_INLINE uint64_t dvg_saved_number(const uint8_t *bytes)
{
    uint64_t number = 0;
    size_t i;
    for (i = 8; i > 0; i--) {
        number = number << 8 | bytes[i - 1];
    }
    return number;
}

/* Where the parts of the generator begin in a saved state. */
DVG_INLINE size_t dvg_saved_parts(dvg_saved what)
{
    return what == DVG_SAVED_WORLD ? 8 + DVG_RAM_BYTES : 8;
}

/* Where the numbers of a saved state end that both versions have. */
DVG_INLINE size_t dvg_saved_end(const uint8_t *bytes, size_t size)
{
    return bytes[3] == DVG_SAVED_OVER_VERSION ? size - DVG_SAVED_OVER_BYTES : size;
}

/* Why these are no saved state, by their length, their version, and but for version 1 their sum:
 * DVG_SAVED_FAULT_BROKEN; DVG_SAVED_FAULT_OTHER_VERSION; else DVG_SAVED_FAULT_NONE. */
DVG_INLINE dvg_saved_fault dvg_saved_sum_fault(const uint8_t *bytes, size_t size)
{
    if (size < 16 || (uint64_t)size >> 35 != 0) {
        return DVG_SAVED_FAULT_BROKEN;
    }
    dvg_need(bytes);
    if (bytes[0] != 'D' || bytes[1] != 'V') {
        return DVG_SAVED_FAULT_BROKEN;
    }
    if (bytes[3] == DVG_SAVED_VERSION) {
        return DVG_SAVED_FAULT_NONE;
    }
    if (dvg_saved_number(bytes + (size - 8)) != dvg_digest(bytes, size - 8)) {
        return DVG_SAVED_FAULT_BROKEN;
    }
    return bytes[3] == DVG_SAVED_OVER_VERSION ? DVG_SAVED_FAULT_NONE
                                              : DVG_SAVED_FAULT_OTHER_VERSION;
}

/* The same, by their first number, too. Writes to *what of what they are the state, if of any. */
DVG_INLINE dvg_saved_fault dvg_saved_head_fault(const uint8_t *bytes, size_t size,
                                                dvg_saved *what)
{
    dvg_saved_fault fault = dvg_saved_sum_fault(bytes, size);
    uint64_t head;
    *what = DVG_SAVED_NOTHING;
    if (fault != DVG_SAVED_FAULT_NONE) {
        return fault;
    }
    switch (bytes[2]) {
    case 'G': *what = DVG_SAVED_GENERATOR; break;
    case 'R': *what = DVG_SAVED_WRAPPING; break;
    case 'W': *what = DVG_SAVED_WORLD; break;
    default: return DVG_SAVED_FAULT_BROKEN;
    }
    head = bytes[3] == DVG_SAVED_VERSION ? dvg_saved_head(*what, size / 8 - 1)
                                         : dvg_saved_head_over(*what, size / 8 - 1);
    return dvg_saved_number(bytes) == head && size % 8 == 0 && dvg_saved_end(bytes, size) >= 16
               ? DVG_SAVED_FAULT_NONE
               : DVG_SAVED_FAULT_BROKEN;
}

/* Of what these may be the saved state, by their first number, the kind of the first part, and of
 * version 2 their sum. Of another version, which is the byte bytes[3], they are DVG_SAVED_NOTHING.
 */
DVG_INLINE dvg_saved dvg_saved_as(const uint8_t *bytes, size_t size)
{
    dvg_saved what;
    size_t parts;
    if (dvg_saved_head_fault(bytes, size, &what) != DVG_SAVED_FAULT_NONE) {
        return DVG_SAVED_NOTHING;
    }
    parts = dvg_saved_parts(what);
    if (dvg_saved_end(bytes, size) < parts + 8
        || (dvg_saved_number(bytes + parts) & 0xFFFF) != DVG_REQUEST_TELL_STATE) {
        return DVG_SAVED_NOTHING;
    }
    return what;
}

/* Why dvg_restore_over refuses these bytes before it asks the device; DVG_SAVED_FAULT_NONE: it asks
 * it. The digest of the ROM is as there. */
DVG_INLINE dvg_saved_fault dvg_saved_fault_over(uint64_t rom, const uint8_t *bytes, size_t size)
{
    dvg_saved what;
    dvg_saved_fault fault = dvg_saved_head_fault(bytes, size, &what);
    if (fault == DVG_SAVED_FAULT_NONE && what == DVG_SAVED_WORLD
        && bytes[3] == DVG_SAVED_OVER_VERSION && rom != 0) {
        uint64_t named = dvg_saved_number(bytes + (size - 16));
        fault = named == 0 || named == rom ? DVG_SAVED_FAULT_NONE : DVG_SAVED_FAULT_OTHER_ROM;
    }
    if (fault == DVG_SAVED_FAULT_NONE && dvg_saved_as(bytes, size) == DVG_SAVED_NOTHING) {
        fault = DVG_SAVED_FAULT_PARTS;
    }
    return fault;
}

/* Writes the answers to this request, numbered from 0, from byte `at` on, as long as their lowest
 * byte is `code`. Returns where they end. */
DVG_INLINE size_t dvg_save_answers(dvg *device, uint64_t request, uint64_t code, uint8_t *bytes,
                                   size_t size, size_t at)
{
    uint64_t number = 0;
    uint64_t answer = dvg_turn(dvg_there(device), request);
    while ((answer & 0xFF) == code) {
        dvg_saved_put(bytes, size, at, answer);
        at += 8;
        number++;
        answer = dvg_turn(device, request | number << 8);
    }
    return at;
}

/* Of a world or a generator: writes its state in version 1, which programs before dvg_save_over
 * read, to `bytes`, which has room for `size` bytes, and returns how many bytes the state has: at
 * most DVG_SAVED_WORLD_BYTES or DVG_SAVED_BYTES, and 16 for each stroke that the open run drew so
 * far. Where `size` is less, ask again with as much room: what was written is no whole state.
 * `bytes` may be null where `size` is 0. What is saved stays as it is. Returns 0 where nothing is
 * open, or a driver alone or a judge. */
DVG_INLINE size_t dvg_save(dvg *device, uint8_t *bytes, size_t size)
{
    uint64_t driver = dvg_turn(dvg_there(device), DVG_REQUEST_DRIVER);
    bool is_world = (driver & 0xFF) == DVG_DRIVER;
    bool wraps = (dvg_ask(device, DVG_REQUEST_HOLDS).value & 0x40) != 0;
    dvg_saved what = is_world ? DVG_SAVED_WORLD : wraps ? DVG_SAVED_WRAPPING : DVG_SAVED_GENERATOR;
    size_t parts = dvg_saved_parts(what);
    size_t at;
    if (size > 0) {
        dvg_need(bytes);
    }
    at = dvg_save_answers(device, DVG_REQUEST_STATE, DVG_STATE, bytes, size, parts);
    if (at == parts) {
        return 0;
    }
    if (is_world) {
        at = dvg_save_answers(device, DVG_REQUEST_OPERATION, DVG_REQUEST_PUSH, bytes, size, at);
        dvg_saved_put(bytes, size, at, driver);
        at += 8;
    }
    if (is_world && size >= parts) {
        dvg_ram(device, bytes + 8);
    }
    dvg_saved_put(bytes, size, 0, dvg_saved_head(what, at / 8 - 1));
    return at;
}

/* The same in version 2: 16 bytes more, which are a digest and the sum. `rom` is the dvg_digest of
 * the ROM over which the world was opened, or 0, which names none; of a generator it doesn't count,
 * and 0 is written. Use this one, unless who reads the bytes was built before it. */
DVG_INLINE size_t dvg_save_over(dvg *device, uint64_t rom, uint8_t *bytes, size_t size)
{
    size_t end = dvg_save(device, bytes, size);
    size_t whole = end + DVG_SAVED_OVER_BYTES;
    if (end == 0) {
        return 0;
    }
    if (size >= end) {
        dvg_saved what = (dvg_saved)bytes[2];
        dvg_saved_put(bytes, size, 0, dvg_saved_head_over(what, whole / 8 - 1));
        dvg_saved_put(bytes, size, end, what == DVG_SAVED_WORLD ? rom : 0);
    }
    if (size >= whole) {
        dvg_saved_put(bytes, size, end + 8, dvg_digest(bytes, end + 8));
    }
    return whole;
}

/* Tells the numbers from byte `at` to byte `end`: parts of a generator's state, and after them, of
 * a world, operations of the frame that it writes. DVG_NO_MEMORY; DVG_NO_STATE: one doesn't suit;
 * else of another kind. */
DVG_INLINE dvg_answer dvg_tell_saved(dvg *device, dvg_saved what, const uint8_t *bytes,
                                     size_t at, size_t end)
{
    dvg_answer answer = dvg_answer_of(DVG_CLEARED);
    uint64_t code = DVG_REQUEST_TELL_STATE;
    for (; at < end && (answer.kind == DVG_CLEARED || answer.kind == DVG_PUSHED); at += 8) {
        uint64_t number = dvg_saved_number(bytes + at);
        if (what == DVG_SAVED_WORLD && (number & 0xFF) == DVG_REQUEST_PUSH) {
            code = DVG_REQUEST_PUSH;
        }
        answer = dvg_answer_of(DVG_NO_STATE);
        if ((number & 0xFF) == code) {
            answer = dvg_ask(device, number);
        }
    }
    if (answer.kind == DVG_NO_OPERATION || answer.kind == DVG_FULL) {
        answer = dvg_answer_of(DVG_NO_STATE);
    }
    return answer;
}

/* As dvg_restore_over, of bytes that may be the saved state of a world: in version 1, or in version
 * 2 without the digest and the sum. */
DVG_INLINE dvg_answer dvg_restore_world(dvg *device, const uint8_t *bytes, size_t size)
{
    uint64_t driver = dvg_saved_number(bytes + (size - 8));
    dvg_answer staged, told = dvg_answer_of(DVG_NO_STATE);
    if ((driver & 0xFF) != DVG_REQUEST_RESUME_WORLD) {
        return told;
    }
    if (dvg_ask(device, DVG_REQUEST_DRIVER).kind != DVG_DRIVER) {
        told.value = DVG_SAVED_FAULT_OTHER_CLASS;
        return told;
    }
    staged = dvg_stage_ram(device, bytes + 8);
    dvg_clear(device);
    told = dvg_tell_saved(device, DVG_SAVED_WORLD, bytes, 8 + DVG_RAM_BYTES, size - 8);
    if (told.kind == DVG_NO_STATE || told.kind == DVG_NO_MEMORY) {
        staged = told;
    }
    told = dvg_ask_staged(device, staged, driver);
    if (told.kind == DVG_UNKNOWN) {
        told = dvg_answer_of(DVG_NO_STATE);
    }
    return told;
}

/* Restores what these bytes are the saved state of, as dvg_saved_as tells it:
 *
 *   a generator   one opens in place of what is open, also of a world, and goes on as the saved one
 *                 did. Where only a world will do, ask dvg_saved_as before
 *   a world       the world that is open goes on so: open one before, over the same ROM. Its ROM
 *                 and the strokes of its newest finished run stay
 *
 * `rom` is the dvg_digest of the ROM over which the world is open, or 0. The ROM isn't compared if
 * that is 0, or the digest in the bytes, or if they are of version 1. The bytes may be any.
 * DVG_OPENED; DVG_NO_STATE: dvg_saved_fault_of says why; DVG_NO_MEMORY. Where the answer isn't
 * DVG_OPENED, what was open stays as it was. Of version 1 nothing finds out that a byte was changed
 * where another state is saved so.
 *
 * Whatever the answer, what was told of a state by DVG_REQUEST_TELL_STATE may be forgotten. Where a
 * world is open and the bytes are those of one, no byte is staged then, also none that was before,
 * and the draft is the frame in them, or a beginning of it: dvg_clear begins the next one. */
DVG_MUST_USE DVG_INLINE dvg_answer dvg_restore_over(dvg *device, uint64_t rom,
                                                    const uint8_t *bytes, size_t size)
{
    dvg_saved_fault fault = dvg_saved_fault_over(rom, bytes, size);
    dvg_answer answer = dvg_answer_of(DVG_NO_STATE);
    dvg *there = dvg_there(device);
    dvg_saved what;
    if (fault != DVG_SAVED_FAULT_NONE) {
        answer.value = (uint16_t)fault;
        return answer;
    }
    what = (dvg_saved)bytes[2];
    size = dvg_saved_end(bytes, size);
    if (what == DVG_SAVED_WORLD) {
        answer = dvg_restore_world(there, bytes, size);
    } else {
        answer = dvg_tell_saved(there, what, bytes, 8, size);
        if (answer.kind == DVG_CLEARED) {
            answer = dvg_ask(there, what == DVG_SAVED_WRAPPING ? DVG_REQUEST_RESUME_WRAPPING
                                                               : DVG_REQUEST_RESUME);
        }
    }
    if (answer.kind != DVG_OPENED) {
        /* What was told is forgotten, and its memory given back. */
        dvg_ask(there, DVG_REQUEST_TELL_STATE);
    }
    if (answer.kind == DVG_NO_STATE && answer.value == 0) {
        answer.value = DVG_SAVED_FAULT_PARTS;
    }
    return answer;
}

/* The same, where no ROM is named: `rom` is 0. */
DVG_MUST_USE DVG_INLINE dvg_answer dvg_restore(dvg *device, const uint8_t *bytes, size_t size)
{
    return dvg_restore_over(device, 0, bytes, size);
}

/* --- A judge --- */

/* A run of the generator is consistent if there is a moment of it such that no byte which it
 * reads changes between that moment and its reading. A byte changes where one is written that isn't
 * what the log told of it last; of a byte that nothing was told of, each write is a change. A
 * consistent run drew what a run over that moment's memory draws. Else it is mixed, and torn.
 *
 * A judge is told the log of any system, in order, each line when it happens: each write of the
 * vector memory and each fetch. Each of these answers how the newest run stands then: DVG_NO_RUN;
 * DVG_ONE_MOMENT; DVG_NO_MOMENT, from the line on at which no moment is left; and where the line is
 * a HALT, DVG_WHOLE or DVG_TORN. In the value 1 says that the line reads what was not written:
 * another byte than the log told last of it, of the RAM, of the ROM, or of the low byte that was
 * told of this very word. Then something unlogged wrote that byte.
 *
 * Asked of a judge, dvg_reset_generator and dvg_reset_processor say that this reset was done, and
 * answer as these do. The first one also serves where a run ends by a fault. */

/* A line by its kind, with its address and its value, as a world answers an event. A kind that says
 * nothing of memory or of a run is passed over, but for DVG_CLEARED, which doesn't say what was
 * reset: that and what is no kind of an event's answer is DVG_UNKNOWN. */
DVG_INLINE dvg_answer dvg_judge_line(dvg *device, dvg_kind kind, uint16_t address,
                                     uint16_t value)
{
    uint64_t line = (uint64_t)kind | (uint64_t)address << 8 | (uint64_t)value << 24;
    return dvg_ask(device, DVG_REQUEST_TELL | line << 8);
}

/* A line that is the answer of a world or of an end alone to an event. Of a reset ask for the reset
 * instead. */
DVG_INLINE dvg_answer dvg_judge_answer(dvg *device, dvg_answer answer)
{
    return dvg_judge_line(device, answer.kind, answer.address, answer.value);
}

/* A strobe began a run. */
DVG_INLINE dvg_answer dvg_judge_started(dvg *device)
{
    return dvg_judge_line(device, DVG_STARTED, 0, 0);
}

/* A byte was written, at a byte address. Outside the RAM, from 0x800 on, that changes nothing. */
DVG_INLINE dvg_answer dvg_judge_wrote(dvg *device, uint16_t address, uint8_t byte)
{
    return dvg_judge_line(device, DVG_WROTE, address, byte);
}

/* The low byte of the word at a word address was fetched, and its high byte comes later. */
DVG_INLINE dvg_answer dvg_judge_low(dvg *device, uint16_t address, uint8_t byte)
{
    return dvg_judge_line(device, DVG_LOW, address, byte);
}

/* The word at a word address was fetched, or its high byte after dvg_judge_low. The run goes on. */
DVG_INLINE dvg_answer dvg_judge_fetched(dvg *device, uint16_t address, uint16_t word)
{
    return dvg_judge_line(device, DVG_FETCHED, address, word);
}

/* The same, and the word is the HALT that ended the run. */
DVG_INLINE dvg_answer dvg_judge_done(dvg *device, uint16_t address, uint16_t word)
{
    return dvg_judge_line(device, DVG_DONE, address, word);
}

/* The whole system was reset. The run is over, and what was told of memory is void. */
DVG_INLINE dvg_answer dvg_judge_reset(dvg *device)
{
    return dvg_ask(device, DVG_REQUEST_RESET_ALL);
}

/* --- Strokes --- */

/* How many strokes the newest run drew that came to a HALT, since something was opened. */
DVG_INLINE uint64_t dvg_strokes(dvg *device)
{
    return dvg_turn(dvg_there(device), DVG_REQUEST_STROKES);
}

/* The stroke of this number, in the order drawn, from 0. Where there is none, all is 0. */
DVG_INLINE dvg_stroke dvg_stroke_at(dvg *device, uint64_t number)
{
    uint64_t place = number >> 56 == 0 ? number << 8 : UINT64_MAX << 8;
    uint64_t from = dvg_turn(dvg_there(device), DVG_REQUEST_STROKE_FROM | place);
    uint64_t to = dvg_turn(device, DVG_REQUEST_STROKE_TO | place);
    dvg_stroke stroke;
    stroke.x0 = (uint32_t)(from & 0xFFFFFFFF);
    stroke.y0 = (uint32_t)(from >> 32);
    stroke.x1 = (uint32_t)(to & 0xFFFFFFFF);
    stroke.y1 = (uint32_t)(to >> 32);
    stroke.z = (uint8_t)(dvg_turn(device, DVG_REQUEST_STROKE_INTENSITY | place) & 0xFF);
    return stroke;
}

/* What the calls below call for each stroke, in the order drawn. `context` is what was handed to
 * them. It must not use the device. */
typedef void (*dvg_stroke_function)(void *context, dvg_stroke stroke);

/* The stroke of which these two parts of a state tell where it begins and ends. */
DVG_INLINE dvg_stroke dvg_stroke_of(uint64_t begin, uint64_t end)
{
    dvg_stroke stroke;
    stroke.x0 = (uint32_t)(begin >> 16 & 0x3FFFFF);
    stroke.y0 = (uint32_t)(begin >> 38 & 0x3FFFFF);
    stroke.x1 = (uint32_t)(end >> 16 & 0x3FFFFF);
    stroke.y1 = (uint32_t)(end >> 38 & 0x3FFFFF);
    stroke.z = (uint8_t)(end >> 60);
    return stroke;
}

/* Of a generator alone: takes away what its open run drew so far, and hands each stroke to
 * `on_stroke`, unless that is null. The run goes on: where it comes to a HALT, dvg_strokes has what
 * was drawn since. So a run without an end takes no more memory than its strokes between two such
 * calls. The strokes of the newest finished run go, too, and what was told of a state. Returns how
 * many strokes it took. Where they are none, as where no run is open, nothing changes. */
DVG_INLINE uint64_t dvg_take_strokes(dvg *device, dvg_stroke_function on_stroke, void *context)
{
    bool is_world = dvg_ask(device, DVG_REQUEST_DRIVER).kind == DVG_DRIVER;
    bool wraps = (dvg_ask(device, DVG_REQUEST_HOLDS).value & 0x40) != 0;
    uint64_t part = is_world ? (uint64_t)DVG_NOTHING : dvg_turn(device, DVG_REQUEST_STATE);
    uint64_t number, taken = 0;
    for (number = 1; (part & 0xFF) == DVG_STATE; number++) {
        uint64_t after = dvg_turn(device, DVG_REQUEST_STATE | number << 8);
        if ((after & 0xFFFF) == (DVG_STATE | 3 << 8)) {
            if (on_stroke != NULL) {
                on_stroke(context, dvg_stroke_of(part, after));
            }
            taken++;
            number++;
            after = dvg_turn(device, DVG_REQUEST_STATE | number << 8);
        } else {
            dvg_ask(device, part);
        }
        part = after;
    }
    dvg_ask(device, taken == 0 ? DVG_REQUEST_TELL_STATE
                    : wraps    ? DVG_REQUEST_RESUME_WRAPPING
                               : DVG_REQUEST_RESUME);
    return taken;
}

/* --- A memory, drawn once --- */

/* Of a generator: it is handed the byte at `next`, as an answer tells that, of a RAM of 2,048 bytes
 * and a ROM of 2,048 or 4,096, as dvg_generator_fetch_from has them; or a hole, where no memory
 * answers. */
DVG_INLINE dvg_answer dvg_hand_from(dvg *device, int32_t next, const uint8_t *ram,
                                    const uint8_t *rom, size_t rom_length)
{
    size_t byte = (size_t)next;
    dvg_need(ram);
    dvg_need(rom);
    if (byte < DVG_RAM_BYTES) {
        return dvg_generator_fetch(device, ram[byte]);
    }
    if (byte >= 0x1800 - rom_length && byte < 0x1800) {
        return dvg_generator_fetch(device, rom[byte - (0x1800 - rom_length)]);
    }
    return dvg_generator_hole(device);
}

/* Of a generator: it fetches the byte that it wants from this memory, which the caller keeps. Word
 * addresses 0x000 to 0x3FF are those of the 2,048 bytes at `ram`. Those of the ROM end with 0xBFF:
 * they begin at 0x800 where it has 2,048 bytes, and at 0x400 where it has 4,096. Elsewhere no
 * memory answers. Answers as dvg_generator_fetch; DVG_WRONG_SIZE: that is no length of a ROM, and
 * nothing was asked. */
DVG_INLINE dvg_answer dvg_generator_fetch_from(dvg *device, const uint8_t *ram,
                                               const uint8_t *rom, size_t rom_length)
{
    dvg_answer wanted;
    if (!dvg_is_rom_length(rom_length)) {
        return dvg_answer_of(DVG_WRONG_SIZE);
    }
    wanted = dvg_wants(device);
    if (wanted.kind != DVG_WANTED) {
        return wanted;
    }
    return dvg_hand_from(device, 2 * wanted.address + wanted.value, ram, rom, rom_length);
}

/* Of a generator whose newest answer this is: hands it bytes of this memory until its run ends, or
 * *words words were fetched, of which each is taken off. Answers the last fetch, or `answer`. */
DVG_INLINE dvg_answer dvg_go_on(dvg *device, dvg_answer answer, const uint8_t *ram,
                                const uint8_t *rom, size_t rom_length, uint32_t *words)
{
    dvg_need(words);
    while (*words > 0 && answer.next >= 0) {
        answer = dvg_hand_from(device, answer.next, ram, rom, rom_length);
        if (answer.kind == DVG_FETCHED || answer.kind == DVG_DONE) {
            (*words)--;
        }
    }
    return answer;
}

/* Of a generator: lets its open run go on over this memory, as dvg_generator_fetch_from has it,
 * until it ends, at most `most_words` words. Answers the last fetch: DVG_DONE; DVG_BROKE;
 * DVG_NO_MEMORY; DVG_FETCHED, where the run didn't end within these words, and DVG_WANTED, where
 * these are none; or DVG_STILL: no run is open; DVG_WRONG_SIZE, as there. */
DVG_INLINE dvg_answer dvg_generator_run_to_halt(dvg *device, const uint8_t *ram,
                                                const uint8_t *rom, size_t rom_length,
                                                uint32_t most_words)
{
    dvg_answer answer;
    if (!dvg_is_rom_length(rom_length)) {
        return dvg_answer_of(DVG_WRONG_SIZE);
    }
    answer = dvg_wants(device);
    if (answer.kind != DVG_WANTED || most_words == 0) {
        return answer;
    }
    answer.next = 2 * answer.address + answer.value;
    return dvg_go_on(device, answer, ram, rom, rom_length, &most_words);
}

/* How dvg_draw ended. */
typedef struct dvg_drawn {
    dvg_answer last;            /* the last answer: its kind tells how the run ended */
    uint32_t words;             /* how many words were fetched, with that of a HALT, and without
                                   one that broke the run */
    uint64_t strokes;           /* how many strokes were drawn; 0 where there was no HALT */
} dvg_drawn;

/* Starts a generator once over a RAM of 2,048 bytes and a ROM of 2,048 or 4,096, from the beam at
 * 0, 0 and scale 0, and lets it run until it halts, at most `most_words` words: what `dvg picture`
 * does, with DVG_MOST_WORDS. The memory is the caller's, and isn't changed. A generator alone is
 * opened for this in place of what was open, and stays open.
 *
 * The kind of `last` says how it ended:
 *
 *   DVG_DONE         by a HALT. The strokes are handed to `on_stroke`, unless that is null;
 *                    dvg_stroke_at has them, too
 *   DVG_BROKE        the run broke, at last.address: dvg_break_of(last). No stroke is handed out
 *   DVG_FETCHED      neither within `most_words` words, as of an endless list. No stroke is handed
 *                    out
 *   DVG_STARTED      the same, where `most_words` is 0
 *   DVG_NO_MEMORY    there was no memory for a stroke. No stroke is handed out
 *   DVG_WRONG_SIZE   that is no length of a ROM. Nothing was asked, and what was open stays
 */
DVG_INLINE dvg_drawn dvg_draw(dvg *device, const uint8_t *ram, const uint8_t *rom,
                              size_t rom_length, uint32_t most_words,
                              dvg_stroke_function on_stroke, void *context)
{
    dvg_drawn drawn;
    uint32_t left = most_words;
    uint64_t number;
    drawn.words = 0;
    drawn.strokes = 0;
    if (!dvg_is_rom_length(rom_length)) {
        drawn.last = dvg_answer_of(DVG_WRONG_SIZE);
        return drawn;
    }
    dvg_open_generator(device);
    drawn.last = dvg_go_on(device, dvg_strobe(device), ram, rom, rom_length, &left);
    drawn.words = most_words - left;
    if (drawn.last.kind == DVG_DONE) {
        drawn.strokes = dvg_strokes(device);
        for (number = 0; number < drawn.strokes && on_stroke != NULL; number++) {
            on_stroke(context, dvg_stroke_at(device, number));
        }
    }
    return drawn;
}

#ifdef __cplusplus
}
#endif

#endif
