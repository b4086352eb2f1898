/* dvg_vectors clock by clock, whatever its pins are: a processor that writes, reads, starts and
 * resets at random, ticks 4 to 12 clocks apart, lists that break, and a ROM of either size. Beside
 * it a RAM, the port's generator, and the time and the motion that core/README.md tells of ("The
 * hardware's motion"), with the facts of facts.h. */
#ifndef CORE_PACED_H
#define CORE_PACED_H

#include "access.h"
#include "run.h"

/* What ticks do: an instruction has some of its own, and then come those of its vector. */
class Pace {
public:
    explicit Pace(Facts &facts) : facts(facts) {}

    bool fetches() const { return is_free; }
    bool rests() const { return own == 0 && !facts.going(); }
    uint32_t shown() const { return own == 0 ? facts.shown() : 0; }

    /* A clock: whether it has a tick, and how many own ticks begin in it; -1 where no byte is taken
     * and no run begins. A byte may be taken from a tick on before which all was over. A tick does
     * nothing for what begins in its own clock. */
    void clock(bool tick, int begins)
    {
        bool was_over = rests();
        if (tick && own == 0) {
            facts.tick();
        }
        if (tick && places) {
            facts.x = to_x;
            facts.y = to_y;
            places = false;
        }
        if (begins >= 0) {
            is_free = false;
            own = begins;
        } else if (tick) {
            is_free = was_over;
            own -= own > 0;
        }
    }

    /* A word was taken: a LABS leads there at the next tick, and a vector begins. */
    void take(Words::Kind kind, const Words &words)
    {
        if (kind == Words::PLACE) {
            places = true;
            to_x = words.x;
            to_y = words.y;
        } else if (kind == Words::VECTOR) {
            facts.begin(words.vector);
        }
    }

private:
    Facts &facts;
    bool is_free = false, places = false;
    int own = 0;
    uint32_t to_x = 0, to_y = 0;
};

/* The generator of a board with its motion: the port's, and its time. The circuit is halted at
 * first, and its counters are those of the facts. */
class Timed {
public:
    uint64_t starts = 0, resets = 0, amid = 0, late = 0, halts = 0, breaks[4] = {};

    Timed(Facts &facts, Words &words) : facts(facts), words(words), pace(facts), port(new_device())
    {
        dvg_open_generator(port);
    }
    ~Timed() { dvg_free(port); }

    bool is_halted() { return dvg_wants(port).kind == DVG_STILL; }
    bool rests() const { return pace.rests(); }
    uint32_t shown() const { return pace.shown(); }

    /* A clock of the board with these pins, and perhaps a tick. */
    template <class Circuit> void clock(const Circuit &circuit, bool tick)
    {
        bool starts_run = owed.starting && !circuit.reset, event = circuit.reset || owed.starting;
        bool halted = is_halted(), hold = !pace.fetches(), takes = owed.pending && !event;
        int begins = -1;
        Words::Kind kind = Words::OTHER;
        last = {DVG_IDLE, 0, 0, -1};
        if (event) {
            resets += circuit.reset;
            starts += starts_run;
            amid += !pace.rests();
            circuit.reset ? dvg_reset_generator(port) : dvg_strobe(port);
            words.begin();
            begins = starts_run ? 1 : -1;
        } else if (takes) {
            late += tick;
            last = dvg_generator_fetch_from(port, ram, rom, rom_bytes);
            begins = take_byte(kind);
        }
        perform(circuit, halted, hold, event || takes);
        pace.clock(tick, begins);
        pace.take(kind, words);
    }

    /* The pins of a clock that tell of the generator and of the beam. */
    template <class Circuit> void agree_on(const Circuit &circuit)
    {
        agree("done", circuit.done, last.kind == DVG_DONE);
        agree("fault", circuit.fault, dvg_break_of(last));
        agree("halted", circuit.halted, is_halted() && pace.rests());
        agree("x", circuit.x, facts.x);
        agree("y", circuit.y, facts.y);
        agree("z", circuit.z, pace.shown());
        agree("lit", circuit.lit, pace.shown() != 0);
    }

    /* The byte that is wanted. */
    template <class Circuit> void agree_on_place(const Circuit &circuit)
    {
        dvg_answer wanted = dvg_wants(port);
        if (wanted.kind == DVG_WANTED) {
            agree("at", circuit.at, wanted.address);
            agree("high", circuit.high, wanted.value);
        }
    }

private:
    Facts &facts;
    Words &words;
    Pace pace;
    dvg *port;
    dvg_answer last = {DVG_IDLE, 0, 0, -1};

    /* Returns how many own ticks the byte leads to. A fifth call has those of a call, and a hole
     * has none. */
    int take_byte(Words::Kind &kind)
    {
        done_so_far++;
        int broke = dvg_break_of(last);
        breaks[broke]++;
        halts += last.kind == DVG_DONE;
        if (last.kind == DVG_BROKE) {
            return broke == DVG_BREAK_STACK_OVER ? 2 : broke == DVG_BREAK_STACK_UNDER ? 1 : 0;
        }
        if (last.kind == DVG_LOW) {
            return 0;
        }
        kind = words.take(last.value);
        return own_ticks(kind);
    }
};

template <class Circuit> class Paced : public Timed {
public:
    Paced(Circuit &circuit, Facts &facts, Words &words)
        : Timed(facts, words), circuit(circuit), facts(facts)
    {
    }

    /* So many clocks over a new memory, and those until all is drawn. */
    void play(uint32_t count)
    {
        static const uint32_t rates[] = {0, 10, 50, 90};
        access_in_100 = rates[below(4)];
        shortest = once_in(2) ? 4 : 4 + below(9);
        longest = once_in(2) ? shortest : 12;
        owed = {};
        fill();
        while (count--) {
            circuit.reset = once_in(900);
            choose_access(circuit, is_halted(), OPCODES);
            if (once_in(is_halted() ? 25 : 300)) {
                circuit.access = circuit.write = 1;
                circuit.a = 0x3000;
            }
            play_clock();
        }
        circuit.access = 0;
        circuit.reset = 1;
        do {
            play_clock();
        } while (!rests() || left > 0);
        circuit.reset = circuit.tick = 0;
    }

private:
    static constexpr uint32_t OPCODES[12] = {0, 1, 2, 0xA, 0xC, 0xC, 0xC, 0xC, 0xD, 0xE, 0xF, 0xF};
    Circuit &circuit;
    Facts &facts;
    uint32_t shortest = 8, longest = 8, left = 0;

    /* A new ROM and a new RAM, which the processor writes byte by byte amid a reset. */
    void fill()
    {
        fill_rom(OPCODES);
        circuit.big = rom_bytes == DVG_LARGE_ROM_BYTES;
        circuit.reset = circuit.access = circuit.write = 1;
        for (uint32_t word = 0; word < DVG_RAM_BYTES / 2; word++) {
            uint8_t bytes[2];
            set_word(bytes, any_word(OPCODES));
            for (uint32_t high = 0; high < 2; high++) {
                circuit.a = 0x4000 + 2 * word + high;
                circuit.d = bytes[high];
                play_clock();
            }
        }
    }

    void play_clock()
    {
        circuit.tick = left == 0;
        left = left == 0 ? shortest - 1 + below(longest - shortest + 1) : left - 1;
        answer_rom(circuit);
        agree_before();
        clock(circuit, circuit.tick);
        edge(circuit);
    }

    /* All pins of a clock. */
    void agree_before()
    {
        agree_on_place(circuit);
        agree_on_bus(circuit);
        agree_on(circuit);
        agree("dac_x", circuit.dac_x, facts.x & 1023);
        agree("dac_y", circuit.dac_y, facts.y & 1023);
        agree("going", circuit.going, facts.going());
    }
};

#endif
