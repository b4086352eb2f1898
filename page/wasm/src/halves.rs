//! The judge of halves, for the page.
use dvg_mem::Half;
use dvg_world::Judge;

/// A judge that stands before the first line of a log.
#[unsafe(no_mangle)]
pub extern "C" fn dvg_halves_new() -> *mut Judge {
    Box::into_raw(Box::new(Judge::new()))
}

/// Frees a judge.
///
/// # Safety
/// The judge comes from `dvg_halves_new`, and wasn't freed.
#[unsafe(no_mangle)]
pub unsafe extern "C" fn dvg_halves_free(judge: *mut Judge) {
    drop(unsafe { Box::from_raw(judge) });
}

/// Takes a line: 0 a run began, 1 the word of this value was fetched at this address, 2 a byte was
/// written at this byte address, else the run ended. Tells whether the line is the write of a byte
/// into the half that is being drawn.
///
/// # Safety
/// The judge comes from `dvg_halves_new`, and wasn't freed.
#[unsafe(no_mangle)]
pub unsafe extern "C" fn dvg_halves_take(
    judge: *mut Judge,
    line: u32,
    address: u16,
    value: u16,
) -> u32 {
    let judge = unsafe { &mut *judge };
    match line {
        0 => judge.started(),
        1 => judge.fetched(address, value),
        2 => return u32::from(judge.wrote(address)),
        _ => judge.halted(),
    }
    0
}

/// The half that a run draws whose word zero is this: 1 half 0, 2 half 1, or 0 where it is none.
#[unsafe(no_mangle)]
pub extern "C" fn dvg_drawn_half(word: u16) -> u32 {
    let mut judge = Judge::new();
    judge.started();
    judge.fetched(0, word);
    if judge.wrote(2 * Half::H0.base()) {
        1
    } else if judge.wrote(2 * Half::H1.base()) {
        2
    } else {
        0
    }
}
