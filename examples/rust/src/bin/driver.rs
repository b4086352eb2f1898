//! A driver alone beside a generator alone, over a RAM and a ROM of one's own.

use dvg_driver::{Action, Driver};
use dvg_frame::check;
use dvg_gen::{Generator, Taken};
use dvg_mem::Rom;
use plain_std::alloc::Global;

fn main() {
    let (mut ram, rom) = ([0; 2048], [0; 2048]);
    let (mut driver, mut generator) = (Driver::new(), Generator::new(Global));
    let checked_over = Rom::new(Global, &rom).expect("memory");
    // Or the fault that the draft is refused for.
    let frame = check(&mine::one_vector().expect("a draft"), &checked_over).expect("a frame");
    let mut next = Some(frame);
    loop {
        match driver.tick(generator.halted(), ram[1]) {
            // The address is below 2,048.
            Action::Wrote(address, byte) => ram[usize::from(address)] = byte,
            Action::Sent => generator.start(),
            Action::Peek | Action::Read(_) | Action::Idle => {}
        }
        if driver.is_idle()
            && let Some(frame) = next.take()
        {
            driver.offer(frame).expect("an idle driver");
        }
        let Some(address) = generator.wants() else {
            continue;
        };
        let at = 2 * usize::from(address) + usize::from(generator.wants_high());
        // None where no memory answers.
        let byte = ram
            .get(at)
            .or_else(|| rom.get(at.checked_sub(0x1000)?))
            .copied();
        if let Taken::Done(strokes) = generator.take_byte(byte).expect("memory") {
            return println!("{:?}", strokes.as_slice());
        }
    }
}
