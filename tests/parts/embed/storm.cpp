// Asks objects of include/dvg.hpp random calls, right ones and wrong ones: moves, swaps, objects
// that were moved away, other sizes and bytes, other threads, and memory that is refused. Each call
// must answer, or throw what dvg.hpp says, and all memory must come back.
//
//     storm SECONDS SEED
//
// It goes in rounds until so many seconds are over: round number i, from 0, comes from SEED + i
// alone. It is compiled with sanitizers of addresses and of undefined behaviour. The last line is
// 'N passed, M failed'.
#include <dvg.hpp>
#include <dvg_heap.h>

#include <chrono>
#include <cstdio>
#include <cstdlib>
#include <functional>
#include <random>
#include <thread>
#include <utility>

using gerbilargent::AnyGenerator;
using gerbilargent::Bytes;
using gerbilargent::Device;
using gerbilargent::Driver;
using gerbilargent::Generator;
using gerbilargent::Judge;
using gerbilargent::World;
using gerbilargent::WrappingGenerator;

static long blocks, asked, refused_memory;
static bool refuses;
static char any_byte;

static dvg_block answer(void *block) {
    const dvg_block answered = {block != nullptr, block != nullptr ? block : &any_byte};
    return answered;
}

// Whether this request of memory is refused: each tenth one, where some are.
static bool is_refused() {
    asked++;
    const bool now = refuses && asked % 10 == 0;
    refused_memory += now;
    return now;
}

dvg_block dvg_heap_alloc(std::size_t bytes, std::size_t align) {
    if (is_refused()) {
        return answer(nullptr);
    }
    blocks++;
    return answer(std::malloc(bytes == 0 ? align : bytes));
}

dvg_block dvg_heap_realloc(void *old, std::size_t, std::size_t bytes, std::size_t align) {
    return is_refused() ? answer(nullptr) : answer(std::realloc(old, bytes == 0 ? align : bytes));
}

void dvg_heap_free(void *old) {
    blocks--;
    std::free(old);
}

// What came of the calls.
struct Counts {
    unsigned long calls, no_memory, no_argument, moved_away, right_rams, wrong_rams;
    unsigned long restored, restored_worlds;
};

class Storm {
public:
    Storm(std::uint64_t seed, Counts &counts) : chance_(seed), counts_(counts) {}

    // A random number below a bound.
    unsigned below(unsigned bound) { return static_cast<unsigned>(chance_() % bound); }

    // A whole int, often near what is right.
    int any_int() {
        switch (below(4)) {
        case 0: return static_cast<int>(chance_());
        case 1: return static_cast<int>(below(5000)) - 1100;
        default: return static_cast<int>(below(16));
        }
    }

    Bytes any_bytes() {
        static const std::size_t sizes[] = {0, 1, 2047, 2048, 2048, 4096, 6145, 70000};
        Bytes bytes(sizes[below(8)]);
        for (auto &byte : bytes) {
            byte = static_cast<std::uint8_t>(chance_() >> 5);
        }
        return bytes;
    }

    void blow() {
        counts_.calls++;
        try {
            step();
        } catch (const std::bad_alloc &) {
            counts_.no_memory++;
        } catch (const std::invalid_argument &) {
            counts_.no_argument++;
        } catch (const std::logic_error &) {
            counts_.moved_away++;
        }
    }

private:
    std::mt19937_64 chance_;
    Counts &counts_;
    std::vector<World> worlds_;
    std::vector<Driver> drivers_;
    std::vector<Generator> generators_;
    std::vector<WrappingGenerator> wrapping_;
    std::vector<Judge> judges_;

    Bytes ram() { return Bytes(DVG_RAM_BYTES, static_cast<std::uint8_t>(below(256))); }

    // Makes an object of a kind, or takes one away, or moves one over another.
    template <typename Kind, typename Make>
    void shuffle(std::vector<Kind> &held, Make make) {
        const unsigned choice = below(8);
        if (held.size() < 3 || choice == 0) {
            held.push_back(make());
        } else if (choice < 3) {
            held.erase(held.begin() + below(static_cast<unsigned>(held.size())));
        } else {
            Kind &first = pick(held), &second = pick(held);
            if (choice < 6) {
                std::swap(first, second);
            } else if (&first != &second) {
                first = std::move(second);
            }
        }
    }

    template <typename Kind>
    Kind &pick(std::vector<Kind> &held) {
        return held[below(static_cast<unsigned>(held.size()))];
    }

    // An object of any kind; one with nothing open where there is none of it.
    void with_any(const std::function<void(Device &)> &use) {
        switch (below(6)) {
        case 0: if (!worlds_.empty()) return use(pick(worlds_)); break;
        case 1: if (!drivers_.empty()) return use(pick(drivers_)); break;
        case 2: if (!generators_.empty()) return use(pick(generators_)); break;
        case 3: if (!wrapping_.empty()) return use(pick(wrapping_)); break;
        case 4: if (!judges_.empty()) return use(pick(judges_)); break;
        default: break;
        }
        Device device;
        use(device);
    }

    void make_one() {
        switch (below(5)) {
        case 0: return shuffle(worlds_, [this] {
            return below(2) ? World(ram(), ram()) : World(any_bytes(), any_bytes());
        });
        case 1: return shuffle(drivers_, [this] { return Driver(below(2) ? ram() : any_bytes()); });
        case 2: return shuffle(generators_, [] { return Generator(); });
        case 3: return shuffle(wrapping_, [] { return WrappingGenerator(); });
        default: return shuffle(judges_, [] { return Judge(); });
        }
    }

    void push(Device &d) {
        switch (below(10)) {
        case 0: dvg_vctr(d, any_int(), any_int(), any_int(), any_int()); break;
        case 1: dvg_svec(d, any_int(), any_int(), any_int(), any_int()); break;
        case 2: dvg_labs(d, any_int(), any_int(), any_int()); break;
        case 3: dvg_call(d, any_int()); break;
        case 4: dvg_jump(d, any_int()); break;
        case 5: dvg_call_rom(d, any_int()); break;
        case 6: dvg_jump_rom(d, any_int()); break;
        case 7: dvg_return(d); break;
        case 8: dvg_clear(d); break;
        default: dvg_halt(d); break;
        }
    }

    // A frame, as far as it is taken.
    void draw_frame(Device &d) {
        dvg_clear(d);
        dvg_labs(d, 512, 400, 0);
        dvg_vctr(d, 9, -100, 100, 7);
        dvg_halt(d);
        dvg_offer(d);
        for (unsigned i = 0; i < 40; i++) {
            dvg_tick(d);
        }
        dvg_strobe(d);
        for (unsigned i = 0; i < 40; i++) {
            dvg_fetch(d);
        }
    }

    void event(Device &d) {
        const std::uint8_t byte = static_cast<std::uint8_t>(below(256));
        switch (below(12)) {
        case 0: dvg_offer(d); break;
        case 1: dvg_redraw(d); break;
        case 2: dvg_tick(d); break;
        case 3: dvg_driver_tick(d, below(2) != 0, byte); break;
        case 4: dvg_strobe(d); break;
        case 5: dvg_fetch(d); break;
        case 6: dvg_generator_fetch(d, byte); break;
        case 7: dvg_generator_hole(d); break;
        case 8: dvg_reset_generator(d); break;
        case 9: dvg_reset_processor(d); break;
        case 10: dvg_reset_all(d, below(2) ? ram().data() : nullptr); break;
        default: draw_frame(d); break;
        }
    }

    // A reset of the whole system, after which a world shows the RAM of that.
    void reset_all(World &world) {
        Bytes image = ram();
        for (auto &byte : image) {
            byte = static_cast<std::uint8_t>(chance_() >> 5);
        }
        if (dvg_reset_all(world, image.data()).kind == DVG_CLEARED) {
            world.ram() == image ? counts_.right_rams++ : counts_.wrong_rams++;
        }
        world.held();
    }

    void tell(Device &d) {
        const std::uint16_t address = static_cast<std::uint16_t>(chance_());
        const std::uint16_t word = static_cast<std::uint16_t>(chance_());
        dvg_judge_line(d, static_cast<dvg_kind>(below(256)), address, word);
        dvg_judge_started(d);
        dvg_judge_wrote(d, address, static_cast<std::uint8_t>(word));
        dvg_judge_fetched(d, address, word);
        dvg_judge_done(d, address, word);
    }

    void ask(Device &d) {
        dvg_held held;
        dvg_move move;
        d.strokes();
        dvg_held_by(d, &held);
        dvg_generator_move(d, static_cast<std::uint8_t>(below(256)), &move);
        dvg_return_to(d, static_cast<std::uint8_t>(below(256)));
        dvg_stroke_at(d, below(2) ? chance_() : below(9));
        dvg_units(static_cast<std::uint32_t>(chance_()), static_cast<std::uint32_t>(chance_()));
        const dvg_answer answered = dvg_wants(d);
        dvg_kind_text(answered.kind);
        dvg_fault_text(dvg_fault_of(answered));
        dvg_break_text(dvg_break_of(answered));
    }

    // A memory of one byte or of any: a run of it, by two calls.
    void run_memory(Device &d) {
        const Bytes memory = any_bytes(), rom = below(2) ? ram() : Bytes(4096, 0xD0);
        const Bytes filled = memory.size() < DVG_RAM_BYTES ? ram() : memory;
        const std::size_t length = below(3) ? rom.size() : chance_() % 9000;
        dvg_generator_fetch_from(d, filled.data(), rom.data(), length % (rom.size() + 1));
        dvg_draw(d, filled.data(), rom.data(), rom.size(), below(500), nullptr, nullptr);
    }

    // What is saved of an object, or any bytes.
    Bytes any_saved() {
        switch (below(8)) {
        case 0: return any_bytes();
        case 1: case 2: return pick(generators_).save();
        case 3: return pick(wrapping_).save();
        default: return pick(worlds_).save();
        }
    }

    // A saved state, as it is, changed or cut off, restored by an object of each kind and by any
    // device.
    void save(Device &d) {
        if (generators_.empty() || worlds_.empty() || wrapping_.empty()) {
            return;
        }
        Bytes saved = any_saved();
        if (below(3) == 0 && !saved.empty()) {
            std::uint8_t &byte = saved[below(static_cast<unsigned>(saved.size()))];
            byte = static_cast<std::uint8_t>(byte ^ 1u << below(8));
            if (below(2) == 0 && saved.size() > 8) {
                std::size_t end = saved.size() - 8;
                dvg_saved_put(saved.data(), saved.size(), end, dvg_digest(saved.data(), end));
            }
        }
        if (below(3) == 0) {
            saved.resize(below(static_cast<unsigned>(saved.size() + 1)));
        }
        std::uint8_t little[30];
        dvg_save(d, little, below(31));
        counts_.restored += dvg_restore(d, saved.data(), saved.size()).kind == DVG_OPENED;
        switch (below(4)) {
        case 0: return pick(generators_).restore(saved);
        case 1: return pick(wrapping_).restore(saved);
        case 2: pick(worlds_).restore(saved); counts_.restored_worlds++; return;
        default:
            generators_.push_back(pick(generators_).copy());
            wrapping_.push_back(pick(wrapping_).copy());
        }
    }

    void many(Device &d) {
        std::uint64_t numbers[40];
        for (auto &number : numbers) {
            number = below(2) ? chance_() : chance_() % 40;
        }
        dvg_turns(d, numbers, numbers, below(41));
    }

    void step() {
        switch (below(12)) {
        case 0: case 1: return make_one();
        case 2: case 3: return with_any([this](Device &d) { push(d); });
        case 4: return with_any([this](Device &d) { event(d); });
        case 5: return worlds_.empty() ? make_one() : reset_all(pick(worlds_));
        case 6: return with_any([this](Device &d) { tell(d); });
        case 7: return with_any([this](Device &d) { ask(d); });
        case 8: return with_any([this](Device &d) { run_memory(d); });
        case 9: return with_any([this](Device &d) { save(d); });
        case 10: return with_any([this](Device &d) { many(d); });
        default: return with_any([this](Device &d) {
            Device taken(std::move(d));
            dvg_shut(taken);
            below(2) ? d = std::move(taken) : d;
        });
        }
    }
};

// One round: what one thread makes another one uses, and a third frees.
static bool round_of(std::uint64_t seed, Counts &counts) {
    {
        Storm storm(seed, counts);
        refuses = seed % 2 != 0;
        for (unsigned part = 0; part < 3; part++) {
            std::thread([&] {
                for (unsigned i = 0; i < 300; i++) {
                    storm.blow();
                }
            }).join();
        }
    }
    return blocks == 0;
}

int main(int count, char **words) {
    Counts counts = {};
    const double seconds = count > 1 ? std::atof(words[1]) : 1;
    const std::uint64_t seed = count > 2 ? std::strtoull(words[2], nullptr, 10) : 1979;
    using Clock = std::chrono::steady_clock;
    const auto begin = Clock::now();
    unsigned long passed = 0, failed = 0;
    while (std::chrono::duration<double>(Clock::now() - begin).count() < seconds) {
        const std::uint64_t here = seed + passed + failed;
        try {
            const bool fine = round_of(here, counts);
            fine ? passed++ : failed++;
            if (!fine) {
                std::printf("FAILED: round %lu: %ld blocks are left\n", here, blocks);
            }
        } catch (...) {
            std::printf("FAILED: round %lu throws another thing\n", here);
            failed++;
        }
        blocks = 0;
    }
    if (counts.wrong_rams > 0 || counts.right_rams == 0) {
        std::printf("FAILED: %lu worlds show another RAM, and %lu theirs\n", counts.wrong_rams,
                    counts.right_rams);
        failed++;
    }
    if (counts.restored_worlds == 0 || counts.restored == 0) {
        std::puts("FAILED: no world was restored, or nothing by dvg_restore");
        failed++;
    }
    if (counts.moved_away == 0 || counts.no_argument == 0 || refused_memory == 0) {
        std::puts("FAILED: some refusal never came");
        failed++;
    }
    std::printf("storm: seed %lu, %lu rounds, %lu calls; %lu refused: no memory, %lu: arguments, "
                "%lu: moved away\n", seed, passed + failed, counts.calls, counts.no_memory,
                counts.no_argument, counts.moved_away);
    std::printf("%lu passed, %lu failed\n", passed, failed);
    return failed != 0;
}
