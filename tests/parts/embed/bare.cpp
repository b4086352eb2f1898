// Uses include/dvg.hpp in a program without exceptions.
//
//     bare                 a world is drawn, saved and restored: status 0
//     bare moved           a world that was moved away is used: the program ends by abort
//     bare bytes           a world is restored of other bytes: the same
#include <dvg.hpp>

#include <cstring>
#include <utility>

using gerbilargent::Bytes;
using gerbilargent::World;

#if defined(__cpp_exceptions)
#error "this is compiled without exceptions"
#endif

int main(int count, char **words) {
    const Bytes zeros(DVG_RAM_BYTES);
    World world(zeros, zeros), later(zeros, zeros);
    while (dvg_tick(world).kind != DVG_IDLE) {
    }
    dvg_labs(world, 512, 400, 0);
    dvg_vctr(world, 9, -100, 100, 7);
    dvg_halt(world);
    if (dvg_offer(world).kind != DVG_OFFERED) {
        return 1;
    }
    Bytes saved = world.save();
    if (count > 1 && std::strcmp(words[1], "moved") == 0) {
        const World other = std::move(world);
        dvg_tick(world);
    }
    saved.resize(count > 1 ? 16 : saved.size());
    later.restore(saved);
    while (dvg_tick(later).kind != DVG_SENT) {
    }
    dvg_strobe(later);
    while (dvg_fetch(later).kind != DVG_DONE) {
    }
    const std::vector<dvg_stroke> strokes = later.strokes();
    return strokes.size() == 1 && strokes[0].x1 == 412 * 512 ? 0 : 1;
}
