//! Hands a generator alone the bytes of a memory of its own.

use dvg_gen::{Generator, Taken};
use plain_std::alloc::Global;

fn main() {
    // A jump to word 001, a LABS, a VCTR and a HALT.
    let memory = [0xE001_u16, 0xA190, 0x0200, 0x9064, 0x7464, 0xB000];
    let mut generator = Generator::new(Global);
    generator.start();
    while let Some(address) = generator.wants() {
        // The low byte of the word, and then the high one. None where no memory answers.
        let word = memory
            .get(usize::from(address))
            .map(|word| word.to_le_bytes());
        let byte = word.map(|bytes| bytes[usize::from(generator.wants_high())]);
        match generator.take_byte(byte).expect("memory") {
            Taken::Low | Taken::Word => {}
            Taken::Done(strokes) => println!("{:?}", strokes.as_slice()),
            Taken::Broke(fault) => println!("broke at {address:03X}: {fault:?}"),
        }
    }
}
