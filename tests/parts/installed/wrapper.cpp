// Tests include/dvg.hpp: what is freed, moved and thrown, and what a world draws. The last line is
// 'N passed, M failed'.
#include <dvg.hpp>

#include <cstdio>
#include <string>
#include <type_traits>
#include <utility>

using gerbilargent::BadState;
using gerbilargent::Bytes;
using gerbilargent::Device;
using gerbilargent::Driver;
using gerbilargent::Generator;
using gerbilargent::Judge;
using gerbilargent::World;
using gerbilargent::WrappingGenerator;

static_assert(!std::is_copy_constructible<World>::value, "a world isn't copied");
static_assert(std::is_nothrow_move_constructible<World>::value, "a world moves");
static_assert(!std::is_convertible<WrappingGenerator &, Generator &>::value,
              "one that wraps is no other one");

static int passed;
static int failed;

static void expect(bool holds, const char *what) {
    if (holds) {
        passed++;
    } else {
        failed++;
        std::printf("FAILED: %s\n", what);
    }
}

// Lets as many events happen as the offered draft takes.
static void draw(World &world) {
    while (dvg_tick(world).kind != DVG_IDLE) {
    }
    dvg_labs(world, 512, 400, 0);
    dvg_vctr(world, 9, -100, 100, 7);
    dvg_halt(world);
    expect(dvg_offer(world).kind == DVG_OFFERED, "a draft is offered");
    while (dvg_tick(world).kind != DVG_SENT) {
    }
    dvg_strobe(world);
    while (dvg_fetch(world).kind != DVG_DONE) {
    }
}

// Hands a word to a generator, and says whether its high byte makes a move, and which.
static bool moves_by(const Generator &generator, unsigned word, dvg_move &move) {
    dvg_move none;
    const bool low = generator.move_by(static_cast<std::uint8_t>(word & 0xFF), none);
    dvg_generator_fetch(generator, static_cast<std::uint8_t>(word & 0xFF));
    const bool high = generator.move_by(static_cast<std::uint8_t>(word >> 8), move);
    dvg_generator_fetch(generator, static_cast<std::uint8_t>(word >> 8));
    return high && !low;
}

// Two calls, a LABS and a short vector: which moves they make, and what is held then.
static void test_moves(const Generator &generator) {
    dvg_move move = {};
    expect(!generator.move_by(0xF0, move), "a halted generator moves nothing");
    dvg_strobe(generator);
    expect(!moves_by(generator, 0xC010, move) && !moves_by(generator, 0xC020, move), "calls");
    expect(!moves_by(generator, 0xA001, move) && moves_by(generator, 0x2003, move), "a LABS");
    expect(move.placed && move.z == 0 && move.x1 == 3 * 512 && move.y1 == 512
               && move.address == 0x20,
           "is a move");
    expect(moves_by(generator, 0xF071, move), "a short vector");
    expect(!move.placed && move.z == 7 && move.x0 == 3 * 512 && move.x1 == 3 * 512 + 4096
               && move.y0 == 512 && move.y1 == 512 && move.address == 0x22,
           "is a move, too");
    const dvg_held held = generator.held();
    expect(held.x == move.x1 && held.y == move.y1 && held.scale == 2 && !held.low && !held.second
               && held.returns == 2,
           "what is held");
    expect(generator.return_addresses() == std::vector<std::uint16_t>({0x001, 0x011}),
           "return addresses, the newest last");
}

// A generator amid a run is saved, and goes on in another one, and in a copy.
static void test_saving(const Generator &generator) {
    dvg_move move = {}, other = {};
    const Bytes saved = generator.save();
    Generator restored;
    restored.restore(saved);
    const Generator copy = restored.copy();
    expect(copy.save() == saved && copy.return_addresses() == generator.return_addresses(),
           "a copy of what was restored is the same");
    moves_by(generator, 0xF0F3, move);
    expect(moves_by(copy, 0xF0F3, other) && other.x0 == move.x0 && other.x1 == move.x1,
           "and goes on as the first");
    expect(generator.save() != saved && restored.save() == saved, "by itself");
}

template <typename Error, typename Make>
static bool throws(Make make) {
    try {
        make();
        return false;
    } catch (const Error &) {
        return true;
    }
}

template <typename Make>
static bool refuses(Make make) {
    return throws<std::invalid_argument>(make);
}

// What std::invalid_argument says.
template <typename Make>
static std::string said(Make make) {
    try {
        make();
        return "nothing";
    } catch (const std::invalid_argument &error) {
        return error.what();
    }
}

// One that wraps is saved and restored, and isn't taken for another one.
static void test_wrapping(Generator &generator) {
    WrappingGenerator wrapping;
    dvg_strobe(wrapping);
    expect(wrapping.held().returns == 4, "a generator whose stack wraps");
    const Bytes saved = wrapping.save();
    expect(wrapping.copy().save() == saved, "its copy is as it is");
    dvg_generator_fetch(wrapping, 0x00);
    wrapping.restore(saved);
    expect(wrapping.save() == saved, "it goes back");
    expect(refuses([&] { generator.restore(saved); }), "its bytes are those of no other one");
    expect(refuses([&] { wrapping.restore(generator.save()); }), "nor the other way round");
}

// Why bytes aren't restored.
template <typename Object>
static dvg_saved_fault fault_of(Object &object, const Bytes &bytes) {
    try {
        object.restore(bytes);
        return DVG_SAVED_FAULT_NONE;
    } catch (const BadState &error) {
        return error.fault();
    }
}

// Saved bytes with the sum of what they are now.
static Bytes summed(Bytes bytes) {
    const std::size_t end = bytes.size() - 8;
    dvg_saved_put(bytes.data(), bytes.size(), end, dvg_digest(bytes.data(), end));
    return bytes;
}

// Each reason for which bytes are refused. The call of C takes a generator's bytes, also where a
// world is open.
static void test_refused(World &world, const Bytes &rom) {
    const Bytes whole = world.save();
    Bytes saved = whole;
    World elsewhere(Bytes(DVG_RAM_BYTES), Bytes(DVG_LARGE_ROM_BYTES));
    Generator generator;
    saved[1000] ^= 1;
    expect(fault_of(world, saved) == DVG_SAVED_FAULT_BROKEN
               && fault_of(world, Bytes(whole.begin(), whole.end() - 8)) == DVG_SAVED_FAULT_BROKEN
               && fault_of(world, Bytes()) == DVG_SAVED_FAULT_BROKEN, "a changed bit, a cut state");
    expect(said([&] { world.restore(saved); })
               == "restore: no saved state, or one that was cut or changed", "which it says");
    saved = whole;
    saved[3] = 3;
    expect(fault_of(world, summed(saved)) == DVG_SAVED_FAULT_OTHER_VERSION, "another version");
    expect(fault_of(world, generator.save()) == DVG_SAVED_FAULT_OTHER_CLASS
               && fault_of(generator, whole) == DVG_SAVED_FAULT_OTHER_CLASS, "another class");
    expect(fault_of(elsewhere, whole) == DVG_SAVED_FAULT_OTHER_ROM, "another ROM");
    saved = whole;
    saved[saved.size() - 23] = 9;
    expect(fault_of(world, summed(saved)) == DVG_SAVED_FAULT_PARTS, "a phase of none");
    Bytes first(dvg_save(world, nullptr, 0));
    dvg_save(world, first.data(), first.size());
    expect(fault_of(world, first) == DVG_SAVED_FAULT_NONE && world.save() == whole,
           "version 1 is read");
    World replaced(Bytes(DVG_RAM_BYTES), rom);
    saved = generator.save();
    expect(dvg_run_is_open(replaced) == false
               && dvg_restore(replaced, saved.data(), saved.size()).kind == DVG_OPENED
               && dvg_tick(replaced).kind == DVG_UNKNOWN, "a generator takes the place of a world");
}

// A world goes back to what was saved amid a frame, and draws it.
static void test_world(const Bytes &ram, const Bytes &rom) {
    World world(ram, rom), other(Bytes(DVG_RAM_BYTES, 7), rom);
    while (dvg_tick(world).kind != DVG_IDLE) {
    }
    dvg_labs(world, 512, 400, 0);
    dvg_vctr(world, 9, -100, 100, 7);
    dvg_halt(world);
    dvg_offer(world);
    dvg_tick(world);
    const Bytes saved = world.save();
    other.restore(saved);
    expect(other.save() == saved && other.ram() == world.ram(), "a world is restored");
    while (dvg_tick(other).kind != DVG_SENT) {
    }
    dvg_strobe(other);
    while (dvg_fetch(other).kind != DVG_DONE) {
    }
    expect(other.strokes().size() == 1, "and goes on");
    const Bytes later = other.save();
    expect(refuses([&] { other.restore(Bytes(saved.begin(), saved.end() - 8)); }), "a cut world");
    expect(refuses([&] { other.restore(Generator().save()); }), "a generator's bytes");
    expect(other.save() == later, "are refused, and change nothing");
    test_refused(world, rom);
}

int main() {
    const Bytes ram(DVG_RAM_BYTES), rom(DVG_ROM_BYTES);
    World first(ram, rom);
    expect(first.strokes().empty(), "a new world has drawn nothing");
    draw(first);
    Judge judge;
    expect(dvg_judge_started(judge).kind == DVG_ONE_MOMENT, "a judge is told a line");
    World world(std::move(first));
    expect(world && !first, "nothing is left where it moved from");
    expect(throws<std::logic_error>([&] { dvg_tick(first); }), "and that isn't used");
    expect(throws<std::logic_error>([&] { first.strokes(); }), "nor asked");
    const std::vector<dvg_stroke> strokes = world.strokes();
    expect(strokes.size() == 1 && strokes[0].x1 == 210944 && strokes[0].z == 7, "its stroke");
    world = World(ram, rom);
    expect(world.strokes().empty(), "another world takes its place");
    Driver driver(rom);
    expect(dvg_driver_tick(driver, true, 0).kind == DVG_PEEK, "a driver");
    Generator generator;
    expect(dvg_wants(generator).kind == DVG_STILL, "a generator");
    test_wrapping(generator);
    test_world(ram, rom);
    test_moves(generator);
    test_saving(generator);
    expect(refuses([&] { generator.restore(Bytes(24)); }), "bytes that are no saved state");
    expect(dvg_tick(Device()).kind == DVG_CLOSED, "a device in which nothing is open");
    expect(refuses([&] { World(Bytes(1), rom); }), "a RAM of one byte");
    expect(refuses([&] { World(ram, Bytes(2049)); }), "a ROM of 2,049 bytes");
    expect(refuses([] { Driver{Bytes{}}; }), "no ROM");
    std::printf("%d passed, %d failed\n", passed, failed);
    return failed != 0;
}
