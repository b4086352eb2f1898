//! What the proved sources do, written a second time in plain Rust, with nothing proved and nothing
//! taken over: an oracle for tests, and what speeds are compared with.

pub mod counters;
pub mod drafts;
pub mod draw;
pub mod driver;
pub mod explain;
pub mod frames;
pub mod generator;
pub mod judge;
pub mod lines;
pub mod listing;
pub mod made;
pub mod memory;
pub mod moments;
pub mod options;
pub mod picture;
pub mod port;
pub mod rows;
pub mod run;
pub mod shows;
pub mod sketch;
pub mod svg;
pub mod texts;
pub mod times;
pub mod torn;
pub mod traces;
pub mod world;

/// Random schedules and images, and a recount of what came of them, by no module above.
pub mod storm {
    pub mod drafts;
    pub mod pictures;
    pub mod programs;
    pub mod recount;
    pub mod schedules;
    pub mod sketches;
}
