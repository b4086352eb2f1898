//! The map of the memory, for the page.
use dvg_mem::{Area, Half, Rom};
use plain_std::alloc::Global;
use std::cell::RefCell;

/// How many word addresses there are.
const WORDS: usize = 4096;

thread_local! {
    static AREAS: RefCell<[u8; WORDS]> = const { RefCell::new([0; WORDS]) };
}

/// The number of an area: 1 half 0, 2 half 1, 3 word zero, 4 the ROM, 5 the word that no frame
/// uses, 6 where no memory answers.
fn number_of(area: Area) -> u8 {
    match area {
        Area::Frame(Half::H0) => 1,
        Area::Frame(Half::H1) => 2,
        Area::Zero => 3,
        Area::Rom => 4,
        Area::Unused => 5,
        Area::Hole => 6,
    }
}

/// Where 4,096 bytes are, a byte for each word address: the number of its area, with a ROM of so
/// many bytes. They are zeros where no ROM has so many.
#[unsafe(no_mangle)]
pub extern "C" fn dvg_map(rom_bytes: usize) -> *const u8 {
    AREAS.with_borrow_mut(|areas| {
        areas.fill(0);
        if let Ok(rom) = Rom::new(Global, &vec![0; rom_bytes]) {
            for (word, area) in (0..).zip(areas.iter_mut()) {
                *area = number_of(rom.area(word));
            }
        }
        areas.as_ptr()
    })
}
