/* What is seen of the frames that a program builds, told by the places that put it.
 *
 * A frame is drawn by the rules of docs/FORMATS.md from the vector RAM, and from the bytes of the
 * vector ROM. A stroke is seen where it isn't dark and a part of it is on the tube. What is put
 * before such a stroke, from the last LABS on, counts as seen, too, as it moved the beam there. A
 * place is a call of the driver, and the call around it: so one subroutine may draw for many. */
#include <stdint.h>
#include <stdlib.h>

enum {
    UNIT = 512, TUBE_BOTTOM = 117, TUBE_TOP = 905, TUBE_RIGHT = 1023, POSITIONS = 4096,
    MOST_PUTS = 512, MOST_PLACES = 1000, MOST_STEPS = 65536, DEEPEST = 4, SHORT_MOVE = 256
};

/* A place, and its strokes. In the picture at hand `puts`, `seen` and `off` are whether it put
 * strokes, whether one is seen, and whether one that isn't dark goes off the tube. */
typedef struct {
    int call, around, puts, seen, off;
    long pictures, seen_count, off_count;
    int is_bright;                      /* whether there are strokes that aren't dark; of these: */
    long low[2], high[2];               /* where they go */
    int scale;                          /* the largest scale of a word */
    long most;                          /* and the largest number of one */
} place_seen;

typedef struct { long at[2]; int scale; } beam;

static place_seen places_seen[MOST_PLACES];
static int place_count;
static int put_by[MOST_PUTS], put_count;    /* the place of each instruction of the frame */

/* An instruction is put into the frame that is being built. */
static void note_put(int call, int around)
{
    int i = 0;
    while (i < place_count && (places_seen[i].call != call || places_seen[i].around != around)) i++;
    if (i == MOST_PLACES) i--;
    if (i == place_count) {
        place_seen new_one = { .call = call, .around = around,
            .low = { POSITIONS * UNIT, POSITIONS * UNIT },
            .high = { -POSITIONS * UNIT, -POSITIONS * UNIT } };
        places_seen[place_count++] = new_one;
    }
    if (put_count < MOST_PUTS) put_by[put_count++] = i;
}

static int is_on_tube(const long *at)
{
    return at[0] >= 0 && at[0] <= TUBE_RIGHT * UNIT && at[1] >= TUBE_BOTTOM * UNIT &&
        at[1] <= TUBE_TOP * UNIT;
}

/* Whether a part of the line is on the tube: what is left of it behind each of the four edges. */
static int meets_tube(const long *from, const long *to)
{
    const long least[2] = { 0, TUBE_BOTTOM * UNIT };
    const long most[2] = { TUBE_RIGHT * UNIT, TUBE_TOP * UNIT };
    double first = 0, last = 1;
    for (int edge = 0; edge < 4; edge++) {
        const int axis = edge / 2, sign = edge % 2 ? 1 : -1;
        const double move = (double)(sign * (to[axis] - from[axis]));
        const double room = (double)(sign * ((sign > 0 ? most : least)[axis] - from[axis]));
        if (move == 0 && room < 0) return 0;
        if (move > 0 && room / move < last) last = room / move;
        if (move < 0 && room / move > first) first = room / move;
    }
    return first <= last;
}

static long larger(long one, long other) { return one > other ? one : other; }

/* A stroke that isn't dark, of an instruction that this place put. */
static void note_stroke(place_seen *place, const long *from, const long *to)
{
    place->is_bright = 1;
    for (int axis = 0; axis < 2; axis++) {
        const long a = from[axis], b = to[axis], low = a < b ? a : b;
        if (low < place->low[axis]) place->low[axis] = low;
        place->high[axis] = larger(place->high[axis], larger(a, b));
    }
    if (!is_on_tube(from) || !is_on_tube(to)) place->off = 1;
}

/* The end of a picture: each place that put something into it is counted once. */
static void end_picture(void)
{
    for (int put = 0; put < put_count; put++) {
        place_seen *place = &places_seen[put_by[put]];
        place->pictures += place->puts;
        place->seen_count += place->puts && place->seen;
        place->off_count += place->off;
        place->puts = place->seen = place->off = 0;
    }
}

static long signed_of(int word) { return word & 0x400 ? -(word & 0x3FF) : word & 0x3FF; }

static long moved_of(int step) { return 256 * (step & 4 ? -(step & 3) : step & 3); }

/* A place of the beam, which begins again behind 4,095: from the middle on it is at the left, or
 * below. */
static long wrapped(long at)
{
    const long all = (long)POSITIONS * UNIT, rest = (at % all + all) % all;
    return rest < all / 2 ? rest : rest - all;
}

/* A run of the generator: where it is, by which instruction of the frame, the first one since the
 * last LABS, and where its calls return to. */
typedef struct {
    const uint8_t *memory;
    int at, put, since, depth, back[DEEPEST];
    beam beam;
} generator;

static int next_word(generator *r)
{
    const uint8_t *low = r->memory + 2 * (r->at++ & 0xFFF);
    return low[0] | low[1] << 8;
}

/* The beam goes on by a vector of two words or of one. */
static void draw_vector(generator *r, int word)
{
    const int is_short = word >> 12 == 15, second = is_short ? 0 : next_word(r);
    const long dy = is_short ? moved_of(word >> 8) : signed_of(word);
    const long dx = is_short ? moved_of(word) : signed_of(second);
    const int local = is_short ? 2 + (word >> 11 & 1) + (word >> 2 & 2) : word >> 12;
    const int scale = (local + r->beam.scale) % 16;
    const int is_bright = is_short ? (word & 0xF0) != 0 : second >> 12 != 0;
    const beam from = { { wrapped(r->beam.at[0]), wrapped(r->beam.at[1]) }, r->beam.scale };
    place_seen *place = &places_seen[put_by[r->put]];
    r->beam = from;
    if (scale < 10) {
        r->beam.at[0] += dx * (1 << scale);
        r->beam.at[1] += dy * (1 << scale);
    }
    if (is_bright || dx || dy) place->puts = 1;
    if (!is_bright) return;
    place->scale = (int)larger(place->scale, local);
    place->most = larger(place->most, larger(labs(dx), labs(dy)));
    note_stroke(place, from.at, r->beam.at);
    if (!meets_tube(from.at, r->beam.at)) return;
    for (; r->since < r->put; r->since++) places_seen[put_by[r->since]].seen = 1;
    place->seen = 1;
}

/* Answers whether the run goes on. */
static int draw_one(generator *r)
{
    const int word = next_word(r), opcode = word >> 12;
    if (opcode < 10 || opcode == 15) draw_vector(r, word);
    if (opcode == 10) {
        const int second = next_word(r);
        r->beam = (beam){ { (long)(second & 0xFFF) * UNIT, (long)(word & 0xFFF) * UNIT },
            second >> 12 };
        r->since = r->put;
    }
    if (opcode == 11 || (opcode == 12 && r->depth == DEEPEST) || (opcode == 13 && !r->depth))
        return 0;
    if (opcode == 12) r->back[r->depth++] = r->at;
    if (opcode == 12 || opcode == 14) r->at = word & 0xFFF;
    if (opcode == 13) r->at = r->back[--r->depth];
    return 1;
}

/* Draws the frame at a word of the vector memory, whose bytes these are. */
static void draw_frame(const uint8_t *vector_memory, int at)
{
    generator r = { .memory = vector_memory, .at = at, .put = -1 };
    for (int steps = 0; steps < MOST_STEPS; steps++) {
        if (!r.depth && ++r.put == put_count) break;
        if (!draw_one(&r)) break;
    }
    end_picture();
}
