//! Counters of whole units in plain Rust, for the plain twin. They count an instruction's own
//! fields, as hardware does, and know nothing of the exact beam.

/// Where the counters are, in units below 4,096.
#[derive(Clone, Copy)]
pub struct Counters {
    pub x: u32,
    pub y: u32,
}

/// A counter after a vector: by its magnitude in 1/512 of a unit, rounded, a half up, and its sign.
fn counted(from: u32, magnitude: u32, minus: bool) -> u32 {
    let whole = magnitude / 512 + u32::from(magnitude % 512 >= 256);
    let on = if minus { 4096 - whole % 4096 } else { whole };
    (from + on) % 4096
}

impl Counters {
    pub fn new() -> Counters {
        Counters { x: 0, y: 0 }
    }

    /// Counts on by a vector of these magnitudes, each with a sign bit, at an effective scale.
    fn slide(&mut self, scale: u16, dx: (u16, u16), dy: (u16, u16)) {
        let unit = if scale < 10 { 1 << scale } else { 0 };
        self.x = counted(self.x, u32::from(dx.0) * unit, dx.1 != 0);
        self.y = counted(self.y, u32::from(dy.0) * unit, dy.1 != 0);
    }

    /// Does what the instruction of these words does, at a global scale.
    pub fn step(&mut self, global: u8, first: u16, second: u16) {
        let global = u16::from(global);
        match first >> 12 {
            0xA => {
                self.x = u32::from(second & 0xFFF);
                self.y = u32::from(first & 0xFFF);
            }
            local @ 0..=9 => {
                let dx = (second & 0x3FF, second >> 10 & 1);
                let dy = (first & 0x3FF, first >> 10 & 1);
                self.slide((local + global) % 16, dx, dy);
            }
            0xF => {
                let local = 2 + (first >> 11 & 1) + 2 * (first >> 3 & 1);
                let dx = (256 * (first & 3), first >> 2 & 1);
                let dy = (256 * (first >> 8 & 3), first >> 10 & 1);
                self.slide((local + global) % 16, dx, dy);
            }
            _ => {}
        }
    }
}
