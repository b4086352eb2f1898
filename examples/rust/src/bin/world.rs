//! Draws a frame with a world, both ends over a RAM and a ROM that it holds, an event at a time.

use dvg_driver::Action;
use dvg_mem::{Flat, Image, Rom};
use dvg_world::{Entry, World};
use plain_std::alloc::Global;

fn main() {
    // An error is want of memory, or bytes of another number than 2,048 (of a ROM also 4,096).
    let rom = Rom::new(Global, &[0; 2048]).expect("a ROM");
    let ram = Image::new(Global, &[0; 2048]).expect("a RAM");
    let mut world = World::<Flat>::new(Global, rom, &ram).expect("memory");
    while world.tick() != Entry::Acted(Action::Idle) {}
    // Or `Entry::Refused` with a fault, or `Entry::Busy`.
    assert_eq!(
        world.offer(&mine::one_vector().expect("a draft")),
        Entry::Offered
    );
    while world.tick() != Entry::Acted(Action::Sent) {}
    world.strobe();
    loop {
        // An error is want of memory, and then nothing has changed.
        if let Entry::Done(address, _, ()) = world.fetch().expect("memory") {
            println!("done at {address:03X}");
            for stroke in world.picture() {
                println!("{stroke:?}");
            }
            break;
        }
    }
}
