/* What the hardware's motion shows of a list, tick by tick: a model of the facts of facts.h,
 * beside which the Verilog of core/ is played. */
#ifndef CORE_RUN_H
#define CORE_RUN_H

#include <vector>
#include "facts.h"

/* What is shown in a tick, and a move. */
struct Shown {
    uint32_t x, y, z;
};
struct Move {
    uint32_t x0, y0, x1, y1, z;
};

/* What words come to, as they are fetched one after the other. */
class Words {
public:
    enum Kind { FIRST, PLACE, VECTOR, CALL, OTHER };
    Vector vector = {};                 /* that of a VECTOR */
    uint32_t x = 0, y = 0;              /* those of a PLACE */
    uint32_t scale = 0;                 /* the global one, which a run leaves to the next one */

    void begin() { has_first = false; }
    Kind take(uint32_t word)
    {
        uint32_t opcode = word >> 12;
        if (has_first) {
            has_first = false;
            return take_second(word);
        }
        if (opcode < 0xB) {
            has_first = true;
            first = word;
            return FIRST;
        }
        if (opcode == 0xF) {
            uint32_t own = 2 + (word >> 2 & 2) + (word >> 11 & 1);
            vector = {(scale + own) & 15, word >> 2 & 1, word >> 10 & 1, (word & 3) << 8,
                word & 0x300, word >> 4 & 15};
            return VECTOR;
        }
        return opcode == 0xC ? CALL : OTHER;
    }

private:
    bool has_first = false;
    uint32_t first = 0;

    Kind take_second(uint32_t second)
    {
        if (first >> 12 == 0xA) {
            x = second & 0xFFF;
            y = first & 0xFFF;
            scale = second >> 12;
            return PLACE;
        }
        vector = {(scale + (first >> 12)) & 15, second >> 10 & 1, first >> 10 & 1, second & 0x3FF,
            first & 0x3FF, second >> 12};
        return VECTOR;
    }
};

/* How many ticks an instruction has of its own. */
static int own_ticks(Words::Kind kind)
{
    return kind == Words::FIRST ? 0 : kind == Words::CALL ? 2 : 1;
}

/* What the words of a run show, tick by tick. The counters are those that the run before left. */
class Drawing {
public:
    std::vector<Shown> ticks;
    std::vector<Move> moves;
    Facts facts;
    Words words;

    /* A start, whose tick clears the address. */
    void begin()
    {
        ticks.clear();
        moves.clear();
        words.begin();
        dark(1);
    }

    /* A tick for each byte of a word; an instruction's own ones; and those of its vector. */
    void take(uint32_t word)
    {
        dark(2);
        Words::Kind kind = words.take(word);
        dark(own_ticks(kind));
        if (kind == Words::PLACE) {
            moves.push_back({facts.x, facts.y, words.x, words.y, 0});
            facts.x = words.x;
            facts.y = words.y;
        } else if (kind == Words::VECTOR) {
            move(words.vector);
        }
    }

private:
    void dark(int count)
    {
        while (count--) {
            ticks.push_back({facts.x, facts.y, 0});
        }
    }
    void move(const Vector &vector)
    {
        Move made = {facts.x, facts.y, 0, 0, vector.z};
        facts.begin(vector);
        while (facts.going()) {
            ticks.push_back({facts.x, facts.y, facts.shown()});
            facts.tick();
        }
        made.x1 = facts.x;
        made.y1 = facts.y;
        moves.push_back(made);
    }
};

/* Draws the run of a memory: 2,048 bytes of RAM, and then 2,048 or 4,096 of ROM. It has no holes,
 * and calls nest no deeper than four. A return without a call ends it, as a HALT does. */
static void draw_run(Drawing &drawing, const uint8_t *memory, size_t size)
{
    uint32_t at = 0, depth = 0, stack[4] = {}, first = size > 4096 ? 0x400 : 0x800;
    drawing.begin();
    for (;;) {
        const uint8_t *byte = memory + 2 * at - (at < 0x400 ? 0 : 2 * first - 2048);
        uint32_t word = byte[0] | byte[1] << 8, opcode = word >> 12;
        drawing.take(word);
        at++;
        if (opcode < 0xB) {
            drawing.take(byte[2] | byte[3] << 8);
            at++;
        } else if (opcode == 0xB || (opcode == 0xD && depth == 0)) {
            return;
        } else if (opcode == 0xC) {
            stack[depth++ & 3] = at;
            at = word & 0xFFF;
        } else if (opcode == 0xD) {
            at = stack[--depth & 3];
        } else if (opcode == 0xE) {
            at = word & 0xFFF;
        }
    }
}

#endif
