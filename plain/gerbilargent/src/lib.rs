//! Gerbilargent in one crate: a frame driver for Atari's Digital Vector Generator (DVG), and a
//! model of both ends of the vector RAM. It only names what other crates have; it is `no_std`.
//!
//! This is the plain form: the proved sources without their contracts, tested and not proved.
//!
//! A [`Draft`] is a frame in the making. A [`World`] is both ends over one memory, and has a call
//! for each event; a [`Driver`] and a [`Generator`] are each end alone. A [`Judge`] says which
//! write tears a picture of two halves, and a [`MomentJudge`] whether a picture of any system is
//! torn. [`dump`], [`read`], [`sketch`] and [`steps`] have what is read, a memory and texts, and
//! frames by names. The page of each of these types has an example, and so have [`dump::Dump`],
//! [`read::read_trace`], [`sketch::read_sketch`] and [`steps::draft_of`].
//!
//! A place is in 1/512 of a screen unit, 0 to 2,097,151 along both axes, y upwards; a LABS names
//! whole screen units, 0 to 4,095. An intensity is 0 (nothing is seen) to 15. A word address is 000
//! to FFF (hexadecimal), a byte address of the RAM 0 to 2,047. Words lie in memory with their low
//! byte first.
//!
//! Two features are off unless asked for. `serde` writes and reads what users keep, from operations
//! to entries. `allocator-api2` gives a world the memory of an allocator of yours.
//!
//! ```
//! use gerbilargent::prelude::*;
//!
//! # fn draw() -> Option<()> {
//! let mut draft = Draft::new();
//! let labs = Instr::Labs { x: 512, y: 400, scale: 0 };
//! let vector = Instr::Vctr { scale: 9, dx: -100, dy: 100, z: 7 };
//! draft.push(Op::new(OpKind::Draw(Code::new(labs)?))?).ok()?;
//! draft.push(Op::new(OpKind::Draw(Code::new(vector)?))?).ok()?;
//! draft.push(Op::new(OpKind::Halt)?).ok()?;
//!
//! let rom = Rom::new(Global, &[0; 2048]).ok()?;
//! let ram = Image::new(Global, &[0; 2048]).ok()?;
//! let mut world = World::<Flat>::new(Global, rom, &ram).ok()?;
//! while world.tick() != Entry::Acted(Action::Idle) {}
//! assert_eq!(world.offer(&draft), Entry::Offered);
//! let ended = world.run_to_halt(1000).ok()?; // 1,000 ticks and fetches at most.
//! assert_eq!((ended, world.picture().len()), (Entry::Done(0x205, 0xB000, ()), 1));
//! # Some(())
//! # }
//! # draw().unwrap();
//! ```
#![no_std]

pub use dvg_code::*;
pub use dvg_mem::*;
// What has an example below is named there; the pages of rustdoc show it where no `*` brings it,
// too.
pub use dvg_driver::{Action, DriverFault, DriverState, DriverStateFault, Phase};
pub use dvg_frame::{BadOp, Checked, Checker, Cursor, DraftFull, Frame, FrameFault, MAX_OPS, Op};
pub use dvg_frame::{OpKind, Place, check};
pub use dvg_gen::{Beam, Counters, GenFault, GeneratorRefused, GeneratorState, Move, STACK_DEPTH};
pub use dvg_gen::{GeneratorStateFault, StateFault, Step, Stroke, Taken, WrappingGenerator};
pub use dvg_world::{Desk, Drawn, Entries, Entry, EntryRun, EntryRuns, Event, Logged, MOST_EVENTS};
pub use dvg_world::{OwnEntry, OwnEvent, Picture, Stopped, Trace, TraceEvent, WorldRefused};
pub use dvg_world::{WorldStateFault, draw_trace, first_torn, log_trace, run, run_trace};
pub use plain_std::alloc::Global;

/// The version of this crate, as `"1.2.3"`: that of all crates of the repository, of the header for
/// C and of the module for Python.
pub const VERSION: &str = env!("CARGO_PKG_VERSION");

/// A frame in the making: operations, of which an offer checks the whole.
///
/// ```
/// use gerbilargent::prelude::*;
///
/// # fn made() -> Option<()> {
/// let mut draft = Draft::new();
/// let vector = Instr::Vctr { scale: 9, dx: -100, dy: 100, z: 7 };
/// let operation = Op::new(OpKind::Draw(Code::new(vector)?))?;
/// assert_eq!(draft.push(operation), Ok(0)); // It is operation 0.
/// assert_eq!(draft.push(Op::new(OpKind::Halt)?), Ok(1));
/// assert_eq!(draft.ops().len(), 2);
///
/// let wide = Instr::Vctr { scale: 9, dx: 1024, dy: 0, z: 7 };
/// assert_eq!(Code::new(wide), None); // A field is out of its range.
/// # Some(())
/// # }
/// # made().unwrap();
/// ```
///
#[doc(inline)]
pub use dvg_frame::Draft;

/// Both ends over one memory, with a call for each event.
///
/// ```
/// use gerbilargent::{prelude::*, read::read_draft};
///
/// let draft = read_draft(b"labs 512 400 0\nvctr 9 -100 100 7\nhalt\n")?.draft;
/// let (rom, ram) = (Rom::new(Global, &[0; 2048])?, Image::new(Global, &[0; 2048])?);
/// let mut world = World::<Flat>::new(Global, rom, &ram)?;
/// while world.tick() != Entry::Acted(Action::Idle) {}
/// assert_eq!(world.offer(&draft), Entry::Offered);
/// assert_eq!(world.offer(&draft), Entry::Busy); // It writes the first one.
/// while world.tick() != Entry::Acted(Action::Sent) {}
/// assert_eq!(world.strobe(), Entry::Started);
/// while !matches!(world.fetch()?, Entry::Done(..)) {}
/// let drawn = Stroke { x0: 262144, y0: 204800, x1: 210944, y1: 256000, z: 7 };
/// assert_eq!(world.picture(), [drawn]);
/// # Ok::<(), Box<dyn std::error::Error>>(())
/// ```
///
#[doc(inline)]
pub use dvg_world::World;

/// All that a world keeps but its ROM and its picture: it is saved so, and goes on.
///
/// ```
/// use gerbilargent::{WorldState, prelude::*};
///
/// let (rom, ram) = (Rom::new(Global, &[0; 2048])?, Image::new(Global, &[0; 2048])?);
/// let (digest, other_rom) = (rom.digest(), rom.clone());
/// let mut world = World::<Flat>::new(Global, rom, &ram)?;
/// world.tick();
/// let saved = world.state()?.to_bytes(digest)?; // Those of `dvg_save_over`; a file may have them.
/// let later = world.tick();
///
/// let mut other = World::<Flat>::new(Global, other_rom, &ram)?;
/// let state = WorldState::from_bytes(digest, &saved)?; // Or why not: a `StateFault`.
/// other.resume(state)?; // Or why not, with the state: a `WorldRefused`.
/// assert_eq!(other.tick(), later);
/// # Ok::<(), Box<dyn std::error::Error>>(())
/// ```
///
/// A state belongs to its ROM, which isn't in it. A world can't be asked for its ROM, so you hand
/// its [`Rom::digest`] over. By 0 no ROM is compared: then over another one a run of the world may
/// draw something else, end by `Entry::Broke`, or never end. A strobe that was sent may not have
/// arrived yet: where `world.generator().halted()`, let it arrive.
///
#[doc(inline)]
pub use dvg_world::WorldState;

/// The driver alone, over a RAM of yours.
///
/// ```
/// use gerbilargent::{check, prelude::*, read::read_draft};
///
/// let draft = read_draft(b"labs 512 400 0\nhalt\n")?.draft;
/// let rom = Rom::new(Global, &[0; 2048])?;
/// let mut ram = [0; 2048];
/// let halted = true; // No generator runs here.
/// let mut driver = Driver::new();
/// while driver.tick(halted, ram[1]) != Action::Idle {}
/// driver.offer(check(&draft, &rom)?)?;
/// loop {
///     match driver.tick(halted, ram[1]) {
///         Action::Wrote(at, byte) => ram[usize::from(at)] = byte,
///         Action::Sent => break, // Now a strobe is sent to the generator.
///         _ => {}
///     }
/// }
/// assert_eq!(ram[..2], [0x01, 0xE2]); // Word zero jumps to the frame at 201,
/// assert_eq!(ram[0x402..0x408], [0x90, 0xA1, 0x00, 0x02, 0x00, 0xB0]); // which is this one.
/// # Ok::<(), Box<dyn std::error::Error>>(())
/// ```
///
#[doc(inline)]
pub use dvg_driver::Driver;

/// The generator alone, over a memory of yours.
///
/// ```
/// use gerbilargent::{Step, prelude::*};
///
/// let memory = [0x90, 0xA1, 0x00, 0x02, 0x64, 0x90, 0x64, 0x74, 0x00, 0xB0];
/// let mut generator = Generator::new(Global);
/// generator.start();
/// // 1,000 words at most, as a run may have no end. None where no memory answers.
/// let last = generator.run_to_halt(1000, |at| memory.get(usize::from(at)).copied())?;
/// assert_eq!(last, Some(Step::Done));
/// let drawn = Stroke { x0: 262144, y0: 204800, x1: 210944, y1: 256000, z: 7 };
/// assert_eq!(generator.picture(), [drawn]);
/// # Ok::<(), Box<dyn std::error::Error>>(())
/// ```
///
#[doc(inline)]
pub use dvg_gen::Generator;

/// Judges a log of two halves, line by line.
///
/// ```
/// use gerbilargent::Judge;
///
/// let mut judge = Judge::new();
/// judge.started();
/// judge.fetched(0x000, 0xE201); // The run draws the half at 201.
/// assert!(!judge.wrote(0x002)); // This byte is in the other half,
/// assert!(judge.wrote(0x402)); // and this one tears the picture.
/// ```
///
#[doc(inline)]
pub use dvg_world::Judge;

/// Judges a log of any system, line by line.
///
/// ```
/// use gerbilargent::MomentJudge;
///
/// let mut judge = MomentJudge::new();
/// judge.started();
/// judge.fetched(0x000, 0xE001); // Word 0 is read, and then it changes,
/// judge.wrote(0x000, 0x02);
/// judge.wrote(0x002, 0x90);
/// assert!(!judge.is_torn());
/// judge.low(0x001, 0x90); // and what is read now wasn't there before that.
/// assert!(judge.is_torn());
/// ```
///
#[doc(inline)]
pub use dvg_moment::MomentJudge;

/// Allocators, what they refuse by, and the vector and the box that name theirs. They stand apart,
/// so that `use gerbilargent::*` leaves std's `Vec` and `Box` as they are.
pub mod alloc {
    pub use plain_std::alloc::{AllocError, AllocFailed, Allocator, Box, Global, Vec};

    /// The crate by which an allocator of one's own is written.
    #[cfg(feature = "allocator-api2")]
    pub use plain_std::alloc::allocator_api2;
}

/// The names that a first program needs: `use gerbilargent::prelude::*`.
pub mod prelude {
    pub use crate::{Action, Code, Draft, Driver, Entry, Event, Flat, Generator, Global, Image};
    pub use crate::{Instr, Judge, MomentJudge, Op, OpKind, Rom, Stroke, World};
}

/// What a dump of the vector memory draws.
pub mod dump {
    pub use dvg_dump::{DumpFault, Ending, Follower, LARGE_DUMP_BYTES, MOST_WORDS, Outcome, Ran};
    pub use dvg_dump::{SMALL_DUMP_BYTES, Traced};

    /// A memory that was dumped, and what it draws.
    ///
    /// ```
    /// use gerbilargent::{Global, dump::{Dump, Ending}};
    ///
    /// let mut ram_then_rom = [0; 4096];
    /// let words = [0x90, 0xA1, 0x00, 0x02, 0x64, 0x90, 0x64, 0x74, 0x00, 0xB0];
    /// ram_then_rom[..10].copy_from_slice(&words);
    /// match Dump::new(Global, &ram_then_rom)?.run()? {
    ///     Ending::Finished { words, strokes } => assert_eq!((words, strokes.len()), (5, 1)),
    ///     Ending::Broke { address, fault } => panic!("{fault} at {address:03X}"),
    ///     Ending::Endless => panic!("no end within 65,536 words"),
    /// }
    /// # Ok::<(), Box<dyn std::error::Error>>(())
    /// ```
    ///
    #[doc(inline)]
    pub use dvg_dump::Dump;
}

/// Sketches as texts: drafts with names, and shapes in a ROM.
pub mod sketch {
    pub use dvg_named::{
        Doing, FrameSpan, Head, JoinedFrames, MAX_TOKENS, NamedFrame, RomName, Row,
    };
    pub use dvg_named::{Sketch, Source, read_head, read_row, tokens_of};

    /// Reads a sketch: its frames, and the shapes in its ROM.
    ///
    /// ```
    /// use gerbilargent::{Global, sketch::read_sketch};
    ///
    /// let text = b"labs 512 400 0\ncall rock\nhalt\nrock: vctr 9 -100 100 7\nreturn\n";
    /// let sketch = read_sketch(Global, text)?;
    /// let frames = sketch.frames(Global)?;
    /// assert_eq!((frames.len(), frames[0].ops.len()), (1, 5));
    /// assert_eq!(sketch.rom.len(), 2048); // Its shapes: here there are none.
    /// # Ok::<(), Box<dyn std::error::Error>>(())
    /// ```
    ///
    #[doc(inline)]
    pub use dvg_named::read_sketch;
}

/// Drafts, ROMs and traces as texts.
pub mod read {
    pub use dvg_read::{DraftText, LineFault, MOST_EVENTS, MOST_TEXT_BYTES, RomWords, TextFault};
    pub use dvg_read::{TextLines, TraceText, Unread, digit_of, fill_with_returns, hex, is_passed};
    pub use dvg_read::{put_word, read_draft, read_op_parts, read_rom_parts};

    /// Reads a trace: its events, and its ROM.
    ///
    /// ```
    /// use gerbilargent::{prelude::*, read::read_trace, run_trace};
    ///
    /// let text = b"tick 2\noffer\nlabs 512 400 0\nhalt\nend\ntick 10\nstrobe\nfetch 8\n";
    /// let trace = read_trace(Global, text)?;
    /// let (rom, ram) = (Rom::new(Global, &trace.rom)?, Image::new(Global, &[0; 2048])?);
    /// let entries = run_trace::<Flat>(Global, rom, &ram, &trace.events).map_err(|_| "refused")?;
    /// assert_eq!(entries.len(), 22); // One for each event,
    /// assert!(matches!(entries[21], Entry::Done(0x203, 0xB000, _))); // and the last is a HALT.
    /// # Ok::<(), Box<dyn std::error::Error>>(())
    /// ```
    ///
    #[doc(inline)]
    pub use dvg_read::read_trace;
}

/// Drafts whose operations call each other by name. Its `Step` is one of these; that of the root
/// is what a generator's fetch led to.
pub mod steps {
    pub use dvg_steps::{Step, StepsFault};

    /// Makes a draft of steps that call each other by name.
    ///
    /// ```
    /// use gerbilargent::prelude::*;
    /// use gerbilargent::steps::{Step, draft_of};
    ///
    /// let draw = |instr| Code::new(instr).and_then(|code| Op::new(OpKind::Draw(code)));
    /// let labs = draw(Instr::Labs { x: 512, y: 400, scale: 0 }).ok_or("out of range")?;
    /// let (halt, back) = (Op::new(OpKind::Halt).unwrap(), Op::new(OpKind::Return).unwrap());
    /// let steps = [
    ///     Step::Op(labs), Step::Call("rock"), Step::Op(halt), Step::Name("rock"), Step::Op(back),
    /// ];
    /// let draft = draft_of(&steps)?;
    /// assert_eq!(Some(draft.op(1)), Op::new(OpKind::Call(3)));
    /// # Ok::<(), Box<dyn std::error::Error>>(())
    /// ```
    ///
    #[doc(inline)]
    pub use dvg_steps::draft_of;
}
