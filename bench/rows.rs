//! The rows of the comparisons.

use crate::inputs::*;

/// One comparison.
pub struct Row {
    pub name: &'static str,
    /// The arguments that the programs are called with.
    pub arguments: &'static [&'static str],
    /// Makes what they read.
    pub input: fn() -> Vec<u8>,
    /// The exit status that they end with.
    pub status: i32,
    /// The arguments of the proved program with which it is compared in place of the plain one.
    pub against_itself: Option<&'static [&'static str]>,
    /// What instructions are counted of; none where they aren't.
    pub unit: Option<Unit>,
}

/// What instructions are counted of, and how many of it there are.
#[derive(Clone, Copy)]
pub struct Unit {
    pub name: &'static str,
    pub count: usize,
    /// Makes what is read while instructions are counted, where that isn't the row's input.
    pub input: Option<fn() -> Vec<u8>>,
}

const fn row(
    name: &'static str,
    arguments: &'static [&'static str],
    input: fn() -> Vec<u8>,
) -> Row {
    Row {
        name,
        arguments,
        input,
        status: 0,
        against_itself: None,
        unit: None,
    }
}

impl Row {
    /// This row, with its unit.
    const fn each(self, name: &'static str, count: usize) -> Row {
        Row {
            unit: Some(Unit {
                name,
                count,
                input: None,
            }),
            ..self
        }
    }

    /// This row, with its unit and another input that has so many of them.
    const fn each_of(self, name: &'static str, count: usize, input: fn() -> Vec<u8>) -> Row {
        Row {
            unit: Some(Unit {
                name,
                count,
                input: Some(input),
            }),
            ..self
        }
    }

    /// This row, whose programs end with the status 1.
    const fn refused(self) -> Row {
        Row { status: 1, ..self }
    }

    /// This row, where the proved program is compared with itself, called with these arguments.
    const fn against_itself(self, arguments: &'static [&'static str]) -> Row {
        Row {
            against_itself: Some(arguments),
            ..self
        }
    }
}

/// What each program does first: it starts and ends. Of the programs of single parts that isn't
/// known, and is little.
pub const START_UP: Row = row("start-up: list, no input", &["list"], Vec::new);

/// What is compared of the program `dvg`.
pub const DVG_ROWS: &[Row] = &[
    START_UP,
    row("list, 8,192 bytes of VCTR", &["list"], || vectors(2048)).each("line", 2048),
    row("list, 8,192 bytes of mixed instructions", &["list"], || {
        instructions(4096)
    })
    .each("word", 4096),
    row(
        "list --at, 8,192 bytes of VCTR",
        &["list", "--at", "201"],
        || vectors(2048),
    )
    .each("line", 2048),
    row("rom, 2,048 random bytes", &["rom"], || random_bytes(2048)).each("word", 1024),
    row("check, 510 operations, 511 words", &["check"], || {
        operations(510)
    })
    .each("operation", 510),
    row("check, 511 operations: too long", &["check"], || {
        operations(511)
    })
    .refused(),
    row(
        "check, 1,024 ROM words at 5 depths",
        &["check"],
        nested_over_rom,
    )
    .each("ROM word", 1024),
    row(
        "check --bound, 510 operations",
        &["check", "--bound"],
        || operations(510),
    ),
    row("torn, a log of 100 MB", &["torn"], || game_log(100_000_000)).each_of(
        "line",
        241_000,
        || game_log(3_250_000),
    ),
    row("torn, 100 MB of comments", &["torn"], || {
        comments(100_000_000)
    })
    .refused()
    .each_of("line", 50_000, || comments(3_200_000)),
];

/// What is compared of the command `picture`.
pub const PICTURE_ROWS: &[Row] = &[
    row("picture, 254 strokes", &["picture"], image_of_a_picture).each("stroke", 254),
    row(
        "picture --all, 254 strokes",
        &["picture", "--all"],
        image_of_a_picture,
    )
    .each("stroke", 254),
    row(
        "picture --svg, 254 strokes",
        &["picture", "--svg"],
        image_of_a_picture,
    )
    .each("stroke", 254),
    row("picture, endless", &["picture"], image_without_end)
        .refused()
        .each("word", 65_536),
    row(
        "picture --all, endless",
        &["picture", "--all"],
        image_without_end,
    )
    .refused()
    .each("word", 65_536),
];

/// What is compared of the commands `render` and `lay`.
pub const SKETCH_ROWS: &[Row] = &[
    row("lay, 50 frames", &["lay"], sketch_of_frames).each("operation", FRAMES * FRAME_OPERATIONS),
    row(
        "lay --table, 50 frames",
        &["lay", "--table"],
        sketch_of_frames,
    )
    .each("operation", FRAMES * FRAME_OPERATIONS),
    row("lay --rom, 1,000 names", &["lay", "--rom"], sketch_of_names).each("name", ROM_NAMES),
    row("render, a frame of 500 vectors", &["render"], || {
        frame_of_vectors(500)
    })
    .each("stroke", 500),
    row("render, 50 frames", &["render"], sketch_of_frames).each("stroke", FRAMES * FRAME_STROKES),
    row(
        "render --check, 50 frames",
        &["render", "--check"],
        sketch_of_frames,
    )
    .each("operation", FRAMES * FRAME_OPERATIONS),
    row("lay, 174,760 names in a frame", &["lay"], names_alone).each("name", 174_760),
    row("lay, 105,000 names in the ROM, and calls", &["lay"], || {
        names_called(105_000)
    })
    .each("name", 105_000),
];

/// What is compared of the command `play`.
pub const PLAY_ROWS: &[Row] = &[
    row("play, 65,536 mixed events", &["play"], mixed_events).each("event", 65_536),
    row(
        "play --all, 65,536 mixed events",
        &["play", "--all"],
        mixed_events,
    )
    .each("event", 65_536),
    row(
        "play --banked, 65,536 mixed events",
        &["play", "--banked"],
        mixed_events,
    ),
    row(
        "proved play --banked / proved play",
        &["play", "--banked"],
        mixed_events,
    )
    .against_itself(&["play"]),
    row("play, 65,536 ticks", &["play"], ticks).each("event", 65_536),
    row("play --all, 65,536 ticks", &["play", "--all"], ticks).each("event", 65_536),
    row("play, 65,536 resets", &["play"], resets).each("event", 65_536),
    row("play, 62 pictures of 254 strokes", &["play"], pictures).each("event", 64_579),
    row(
        "play --all, 62 pictures of 254 strokes",
        &["play", "--all"],
        pictures,
    )
    .each("event", 64_579),
    row(
        "play --svg, 62 pictures of 254 strokes",
        &["play", "--svg"],
        pictures,
    )
    .each("event", 64_579),
    row(
        "play, 1 MiB of offers, 510 operations each",
        &["play"],
        || offers(&operations(510)),
    )
    .each("operation", OFFERED_OPERATIONS),
    row(
        "play --all, 1 MiB of offers, 510 operations each",
        &["play", "--all"],
        || offers(&operations(510)),
    )
    .each("operation", OFFERED_OPERATIONS),
    row(
        "play, 1 MiB of offers, 2 operations each",
        &["play"],
        || offers(SMALLEST),
    )
    .each("offer", SMALLEST_OFFERS),
    row(
        "play --all, 1 MiB of offers, 2 operations each",
        &["play", "--all"],
        || offers(SMALLEST),
    )
    .each("offer", SMALLEST_OFFERS),
];

/// How many operations there are in 1 MiB of offers of 510 each.
const OFFERED_OPERATIONS: usize = 175 * 510;

/// How many offers of the smallest draft have room in 1 MiB.
const SMALLEST_OFFERS: usize = 1_048_576 / (SMALLEST.len() + 10);

/// What is compared of single parts, each of which runs many times in one process and reads
/// nothing.
pub const PART_ROWS: &[Row] = &[
    row("generator, 2,000,000 bytes", &["generator"], Vec::new).each("byte", 2_000_000),
    row(
        "200 checks, 1,024 ROM words at 5 depths",
        &["check"],
        Vec::new,
    )
    .each("check", 200),
    row(
        "200 checks, 2,048 ROM words at 5 depths",
        &["check-large"],
        Vec::new,
    )
    .each("check", 200),
    row(
        "200 checks, 512 ROM words at 5 depths",
        &["check-half"],
        Vec::new,
    )
    .each("check", 200),
    row("200,000 checks, 5 operations", &["check-short"], Vec::new).each("check", 200_000),
    row("driver, 1,000,000 ticks", &["driver"], Vec::new).each("tick", 1_000_000),
    row("100 runs of 65,536 mixed events", &["world"], Vec::new),
    row("400 times first_torn, 65,536 entries", &["judge"], Vec::new),
];
