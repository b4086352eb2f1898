/* Gerbilargent's device for C++11 and later: dvg.h with what frees a device, and what throws where
 * none is made. Each event is a call of dvg.h, which is handed the device:
 *
 *     gerbilargent::World world(ram, rom);
 *     dvg_labs(world, 512, 400, 0);
 *     dvg_halt(world);
 *     dvg_answer answer = dvg_tick(world);
 *
 * What dvg.h says of devices and of their callers is said of these, too.
 *
 * Where a program is compiled without exceptions, what would be thrown ends it by abort, and says
 * why. There a program asks dvg_saved_as and dvg_restore_over of bytes that may be any, and looks
 * at the answer. */
#ifndef DVG_HPP
#define DVG_HPP

#include "dvg.h"

#include <cstdint>
#include <cstdio>
#include <cstdlib>
#include <memory>
#include <new>
#include <stdexcept>
#include <string>
#include <vector>

namespace gerbilargent {

/* Bytes aren't restored: fault() says why. */
class BadState : public std::invalid_argument {
public:
    explicit BadState(dvg_saved_fault fault)
        : std::invalid_argument(std::string("restore: ") + dvg_saved_fault_text(fault)),
          fault_(fault) {}
    dvg_saved_fault fault() const noexcept { return fault_; }

private:
    dvg_saved_fault fault_;
};

/* What is thrown, or ends a program without exceptions. */
namespace refusals {
#if defined(__cpp_exceptions) || defined(__EXCEPTIONS) || defined(_CPPUNWIND)
[[noreturn]] inline void no_memory() { throw std::bad_alloc(); }
[[noreturn]] inline void moved_away(const char *why) { throw std::logic_error(why); }
[[noreturn]] inline void bad_argument(const char *why) { throw std::invalid_argument(why); }
[[noreturn]] inline void bad_state(dvg_saved_fault fault) { throw BadState(fault); }
#else
[[noreturn]] inline void bad_argument(const char *why) {
    std::fprintf(stderr, "dvg.hpp: %s\n", why);
    std::abort();
}
[[noreturn]] inline void no_memory() { bad_argument("no memory"); }
[[noreturn]] inline void moved_away(const char *why) { bad_argument(why); }
[[noreturn]] inline void bad_state(dvg_saved_fault fault) {
    std::fprintf(stderr, "dvg.hpp: restore: %s\n", dvg_saved_fault_text(fault));
    std::abort();
}
#endif
} // namespace refusals

/* Bytes of a RAM or a ROM. */
using Bytes = std::vector<std::uint8_t>;

/* A device, in which nothing is open. It moves, isn't copied, and is freed when it goes. What was
 * moved away throws std::logic_error where it is used. */
class Device {
public:
    /* std::bad_alloc where there is no memory. */
    Device() {
        dvg *made = nullptr;
        if (dvg_new(&made) != 0) {
            refusals::no_memory();
        }
        device_.reset(made);
    }

    /* The device for a call of dvg.h. std::logic_error where it was moved away. */
    operator dvg *() const {
        if (!device_) {
            refusals::moved_away("the device was moved away");
        }
        return device_.get();
    }

    /* Whether it wasn't moved away. */
    explicit operator bool() const noexcept { return device_ != nullptr; }

    /* What the newest run drew that came to a HALT, in the order drawn. */
    std::vector<dvg_stroke> strokes() const {
        std::vector<dvg_stroke> drawn(static_cast<std::size_t>(dvg_strokes(*this)));
        for (std::size_t number = 0; number < drawn.size(); ++number) {
            drawn[number] = dvg_stroke_at(*this, number);
        }
        return drawn;
    }

protected:
    /* Throws what an answer is that isn't DVG_OPENED. */
    static void expect_opened(dvg_answer answer) {
        if (answer.kind == DVG_NO_MEMORY) {
            refusals::no_memory();
        }
        if (answer.kind != DVG_OPENED) {
            refusals::bad_argument(dvg_kind_text(answer.kind));
        }
    }

    /* What is open as bytes, over the ROM of this digest: dvg_save_over. */
    Bytes saved(std::uint64_t rom = 0) const {
        Bytes found(dvg_save_over(*this, rom, nullptr, 0));
        dvg_save_over(*this, rom, found.data(), found.size());
        return found;
    }

    /* Restores this of bytes, and nothing else, over the ROM of this digest: dvg_restore_over. */
    void restore_as(dvg_saved what, const Bytes &bytes, std::uint64_t rom = 0) {
        dvg_saved found = DVG_SAVED_NOTHING;
        dvg_saved_head_fault(bytes.data(), bytes.size(), &found);
        if (found != DVG_SAVED_NOTHING && found != what) {
            refusals::bad_state(DVG_SAVED_FAULT_OTHER_CLASS);
        }
        dvg_answer answer = dvg_restore_over(*this, rom, bytes.data(), bytes.size());
        if (answer.kind == DVG_NO_STATE) {
            refusals::bad_state(dvg_saved_fault_of(answer));
        }
        expect_opened(answer);
    }

private:
    struct Free {
        void operator()(dvg *device) const noexcept { dvg_free(device); }
    };
    std::unique_ptr<dvg, Free> device_;
};

/* A world, over a RAM of 2,048 bytes and a ROM of 2,048 or 4,096, which are copied. Of other bytes
 * std::invalid_argument; std::bad_alloc. */
class World : public Device {
public:
    World(const Bytes &ram, const Bytes &rom) : rom_(dvg_digest(rom.data(), rom.size())) {
        if (ram.size() != DVG_RAM_BYTES) {
            refusals::bad_argument("a RAM has 2,048 bytes");
        }
        expect_opened(dvg_open_world(*this, ram.data(), rom.data(), rom.size()));
    }

    /* The 2,048 bytes of its RAM: dvg_ram. */
    Bytes ram() const {
        Bytes found(DVG_RAM_BYTES);
        dvg_ram(*this, found.data());
        return found;
    }

    /* What its generator holds, the beam among that. */
    dvg_held held() const {
        dvg_held found = {};
        dvg_held_by(*this, &found);
        return found;
    }

    /* Its state as bytes, with the digest of its ROM, without that ROM and the strokes of a
     * finished run: dvg_save_over. */
    DVG_MUST_USE Bytes save() const { return saved(rom_); }

    /* Has it go on as the world over the same ROM whose state these bytes are: dvg_restore_over,
     * which leaves another draft. Bytes of version 1 name no ROM, and then none is compared. Of
     * other bytes, a generator's among them, BadState; std::bad_alloc. Then it stays as it was.
     * (dvg_restore itself, handed this world and a generator's bytes, opens that generator in its
     * place.) */
    void restore(const Bytes &bytes) { restore_as(DVG_SAVED_WORLD, bytes, rom_); }

private:
    std::uint64_t rom_;
};

/* A driver alone, whose drafts are checked over a ROM, with what World throws. */
class Driver : public Device {
public:
    explicit Driver(const Bytes &rom) {
        expect_opened(dvg_open_driver(*this, rom.data(), rom.size()));
    }
};

/* What each generator alone has: Generator, and WrappingGenerator. */
class AnyGenerator : public Device {
public:
    /* Whether this byte makes a move, if it is handed over next, and which: dvg_generator_move. */
    DVG_MUST_USE bool move_by(std::uint8_t byte, dvg_move &move) const {
        return dvg_generator_move(*this, byte, &move).kind == DVG_MOVES;
    }

    /* What it holds. */
    dvg_held held() const {
        dvg_held found = {};
        dvg_held_by(*this, &found);
        return found;
    }

    /* Its return addresses, the newest last, to which RTSL leads. */
    std::vector<std::uint16_t> return_addresses() const {
        std::vector<std::uint16_t> found(held().returns);
        for (std::size_t number = 0; number < found.size(); ++number) {
            dvg_answer answer = dvg_return_to(*this, static_cast<std::uint8_t>(number));
            found[found.size() - 1 - number] = answer.address;
        }
        return found;
    }

    /* Its state as bytes: dvg_save_over. */
    DVG_MUST_USE Bytes save() const { return saved(); }

protected:
    AnyGenerator() = default;
};

/* A generator alone. std::bad_alloc. */
class Generator : public AnyGenerator {
public:
    Generator() { expect_opened(dvg_open_generator(*this)); }

    /* Has it go on as the Generator whose state these bytes are: dvg_restore_over. Of other bytes
     * BadState; std::bad_alloc. Then it stays as it was. */
    void restore(const Bytes &bytes) { restore_as(DVG_SAVED_GENERATOR, bytes); }

    /* Another one that goes on as this one does, without the strokes of a finished run.
     * std::bad_alloc. */
    DVG_MUST_USE Generator copy() const {
        Generator other;
        other.restore(save());
        return other;
    }
};

/* A generator alone whose stack wraps: dvg_open_wrapping. std::bad_alloc. */
class WrappingGenerator : public AnyGenerator {
public:
    WrappingGenerator() { expect_opened(dvg_open_wrapping(*this)); }

    /* As those of a Generator, of the bytes and with a copy of a WrappingGenerator. */
    void restore(const Bytes &bytes) { restore_as(DVG_SAVED_WRAPPING, bytes); }
    DVG_MUST_USE WrappingGenerator copy() const {
        WrappingGenerator other;
        other.restore(save());
        return other;
    }
};

/* A judge of moments. std::bad_alloc. */
class Judge : public Device {
public:
    Judge() { expect_opened(dvg_open_judge(*this)); }
};

} // namespace gerbilargent

#endif
