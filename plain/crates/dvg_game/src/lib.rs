//! The engine `game` of the program `dvg`: what the checker of games says of a program, and of each
//! instruction that it refuses why, for people.
#![no_std]

extern crate plain_std as std;

mod alone {
//! Why an instruction isn't allowed, whatever comes after it.
use crate::asks::{level_name, tell_bytes};
use crate::instruction::{Instruction, Mode};
use crate::places::{cure_of_any, routine, tell_place};
use dvg_game_check::{Kind, Level, Note, Operand, Register, Slot, Test, kind_of, reached};
use dvg_io::Text;
use std::alloc::Allocator;
use std::fmt::{self, Write};

/// The address of `dvg_copy`.
const COPY: u16 = 0x69C0;

/// Tells why an instruction isn't one that the checker takes.
pub(crate) fn tell_wild<A: Allocator>(
    out: &mut Text<A>,
    i: &Instruction,
    boots: bool,
) -> fmt::Result {
    let opcode = i.opcode;
    match i.mode {
        Mode::Unknown => write!(
            out,
            "{opcode:02X} is no opcode: does the program run on into data, as an RTS or JMP is \
             missing before it? Write JMP for a branch that is always taken, and keep text away \
             from behind a JSR"
        ),
        Mode::Indirect => write!(
            out,
            "a jump by a table leads nobody knows where: compare, and JMP"
        ),
        Mode::IndirectX | Mode::IndirectY => write!(
            out,
            "it stores through a pointer, which may lead anywhere: store by an index, into an \
             array for each field (sta FIELD,x)"
        ),
        _ if opcode == 0 => write!(
            out,
            "the checker doesn't take BRK: it goes where an IRQ does"
        ),
        _ if boots => write!(
            out,
            "the NMI's vector leads there, where S is set as a reset does: VECTORS has .word nmi, \
             reset, irq, in this order"
        ),
        _ => write!(
            out,
            "S is set at a reset alone: LDX #$FF, TXS behind one another, before any call"
        ),
    }
}

// Returns the first address that an instruction may reach and that doesn't pass a test.
fn first_failing(i: &Instruction, place: Operand, test: Test) -> Option<u16> {
    let (from, count) = match place {
        Operand::ZeroPage => (u16::from(i.low), 1),
        Operand::ZeroPageIndexed => (0, 256u16),
        Operand::Absolute => (i.word, 1),
        Operand::AbsoluteIndexed => (i.word, 256),
    };
    for k in 0..count {
        let a = from.wrapping_add(k);
        if !reached(Operand::Absolute, 0, a, test) {
            return Some(a);
        }
    }
    None
}

// Returns the address that a store may reach and of which an author most wants to know, of those
// that don't pass: one of the strobe or of the vector RAM, or else the first.
fn worst_failing(i: &Instruction, place: Operand, test: Test) -> Option<u16> {
    let first = first_failing(i, place, test);
    if let Operand::AbsoluteIndexed = place {
        for k in 0..256u16 {
            let a = i.word.wrapping_add(k);
            let is_worst = matches!(a, 0x3000..=0x31FF | 0x4000..=0x47FF);
            if is_worst && !reached(Operand::Absolute, 0, a, test) {
                return Some(a);
            }
        }
    }
    first
}

// Returns which byte an instruction reads or writes.
fn operand_of(i: &Instruction) -> Option<Operand> {
    match kind_of(i.opcode) {
        Kind::Reads(_, place) | Kind::Stores(place) => Some(place),
        _ => None,
    }
}

/// Tells that an instruction may read the strobe.
pub(crate) fn tell_read<A: Allocator>(out: &mut Text<A>, i: &Instruction) -> fmt::Result {
    if let Some(place) = operand_of(i) {
        if let Some(a) = first_failing(i, place, Test::NoStrobe) {
            return write!(out, "it may read {a:04X}, the strobe");
        }
    }
    write!(out, "it may read the strobe")
}

// Tells what a store may reach, and what to write in its place.
fn tell_reached<A: Allocator>(
    out: &mut Text<A>,
    i: &Instruction,
    level: Level,
    a: u16,
) -> fmt::Result {
    let in_nmi = if matches!(level, Level::Nmi) {
        ", in the NMI"
    } else {
        ""
    };
    let indexed = matches!(
        i.mode,
        Mode::ZeroPageX | Mode::ZeroPageY | Mode::AbsoluteX | Mode::AbsoluteY
    );
    if !indexed {
        write!(out, "it writes {a:04X}, ")?;
        tell_place(out, a)?;
        return write!(out, "{in_nmi}{}", cure_of_any(a));
    }
    write!(out, "by its index it may reach {a:04X}, ")?;
    tell_place(out, a)?;
    if 0x100 <= i.operand() && i.operand() < 0x200 {
        return write!(
            out,
            ": the stack is written by pushes alone; where RAM is cleared, leave out page 1"
        );
    }
    if i.operand() < 0x400 {
        return write!(
            out,
            ": let the array stand from 0200 on, and begin at 0300 or before (.segment \"BSS\")"
        );
    }
    write!(out, "{in_nmi}{}", cure_of_any(a))
}

/// Tells where a store may write that its level may not.
pub(crate) fn tell_store<A: Allocator>(
    out: &mut Text<A>,
    i: &Instruction,
    level: Level,
) -> fmt::Result {
    if let Some(place) = operand_of(i) {
        if let Some(a) = worst_failing(i, place, Test::Writable(level)) {
            return tell_reached(out, i, level, a);
        }
    }
    write!(out, "it may write where code of its level may not")
}

/// Tells that what an instruction calls or jumps to of the driver is no routine of it.
pub(crate) fn tell_entry<A: Allocator>(out: &mut Text<A>, i: &Instruction) -> fmt::Result {
    let to = i.operand();
    if to == COPY {
        return write!(out, "dvg_copy isn't proved: put its words by dvg_put");
    }
    write!(
        out,
        "it goes to {to:04X}, which is no routine that is proved"
    )
}

/// Tells that the NMI calls a routine of the driver.
pub(crate) fn tell_nmi_drives<A: Allocator>(out: &mut Text<A>, i: &Instruction) -> fmt::Result {
    let name = routine(i.operand());
    write!(out, "the NMI calls {name}: let the program call it")
}

/// Tells that a routine is called where a frame may be empty yet.
pub(crate) fn tell_blank<A: Allocator>(out: &mut Text<A>, i: &Instruction) -> fmt::Result {
    let name = routine(i.operand());
    write!(
        out,
        "{name} comes where the frame may be empty yet: begin it with dvg_labs"
    )
}

/// Tells why a return isn't allowed at its level.
pub(crate) fn tell_return_level<A: Allocator>(out: &mut Text<A>, now: &Note) -> fmt::Result {
    match now.level {
        Level::Nmi => write!(out, "it returns from level nmi: the NMI ends with RTI"),
        level => {
            let level = level_name(level);
            write!(out, "it returns from level {level}, where no call is open")
        }
    }
}

/// Tells why a return isn't allowed with these bytes on the stack.
pub(crate) fn tell_return_depth<A: Allocator>(out: &mut Text<A>, now: &Note) -> fmt::Result {
    write!(out, "it returns with ")?;
    tell_bytes(out, now.depth)?;
    write!(out, " more on the stack: pull what was pushed, on each way")?;
    if now.depth == 2 {
        write!(out, "; in place of a jump by two bytes, compare, and JMP")?;
    }
    Ok(())
}

// Whether a slot holds what a register was where the NMI came.
fn is_kept(slot: Slot, register: Register) -> bool {
    match slot {
        Slot::Any => false,
        Slot::Was(was) => was == register,
    }
}

/// Tells which register the NMI doesn't give back.
pub(crate) fn tell_lost<A: Allocator>(out: &mut Text<A>, now: &Note) -> fmt::Result {
    let name = if !is_kept(now.held.a, Register::A) {
        "A"
    } else if !is_kept(now.held.x, Register::X) {
        "X"
    } else {
        "Y"
    };
    write!(
        out,
        "the NMI does not give back {name}: push it first of all, and pull it before RTI"
    )
}

/// Tells why an RTI isn't allowed, at its level, or with these bytes on the stack.
pub(crate) fn tell_finish<A: Allocator>(out: &mut Text<A>, now: &Note) -> fmt::Result {
    if !matches!(now.level, Level::Nmi) {
        let level = level_name(now.level);
        return write!(out, "RTI from level {level}: the NMI alone ends with it");
    }
    write!(out, "RTI with ")?;
    tell_bytes(out, now.depth)?;
    write!(out, " more on the stack: pull what was pushed")
}
}
mod asks {
//! Why an instruction may not lead to a place.
use crate::instruction::Instruction;
use crate::program::{NMI_VECTOR, Program};
use dvg_game_check::{Ask, FIRST, Kind, Level, Note, PLACES};
use dvg_io::Text;
use std::alloc::Allocator;
use std::fmt::{self, Write};

/// Returns the name of a level.
pub(crate) fn level_name(level: Level) -> &'static str {
    match level {
        Level::Main => "main",
        Level::Sub => "sub",
        Level::Nmi => "nmi",
    }
}

/// Tells a number of bytes.
pub(crate) fn tell_bytes<A: Allocator>(out: &mut Text<A>, count: u16) -> fmt::Result {
    if count == 1 {
        return write!(out, "1 byte");
    }
    write!(out, "{count} bytes")
}

/// A way from an instruction to the address `to`: behind itself, or elsewhere.
#[derive(Clone, Copy)]
pub(crate) struct Way {
    pub to: u32,
    pub is_behind: bool,
    /// The level that it leads to, and how many bytes are pushed there.
    pub level: Level,
    pub depth: u16,
}

/// Returns the first JSR to an address, if there is one.
pub(crate) fn call_of(program: &Program<'_>, to: u32) -> Option<u32> {
    for k in 0..PLACES {
        let at = FIRST + k;
        if let Some(step) = program.step(at) {
            if step.calls == Some(to) {
                return Some(at);
            }
        }
    }
    None
}

// Tells what to do where a way of the program or of a subroutine leads to the other level.
fn tell_shared<A: Allocator>(
    out: &mut Text<A>,
    program: &Program<'_>,
    to: u32,
    new: Level,
) -> fmt::Result {
    if matches!(new, Level::Main) {
        return write!(
            out,
            "a subroutine ends with RTS, and doesn't lead into the program's loop"
        );
    }
    match call_of(program, to) {
        Some(at) => write!(
            out,
            "it is called at {at:04X}, and ends with RTS: call it here, too"
        ),
        None => write!(out, "it is in a subroutine, which is called by JSR"),
    }
}

// Tells what to do where a way leads to a place of another level.
fn tell_cure<A: Allocator>(
    out: &mut Text<A>,
    program: &Program<'_>,
    way: &Way,
    new: Level,
) -> fmt::Result {
    let is_nmi = matches!(new, Level::Nmi);
    if way.is_behind && (!is_nmi || way.to == u32::from(program.word(NMI_VECTOR))) {
        let missing = if matches!(way.level, Level::Nmi) {
            "RTI"
        } else {
            "RTS or JMP"
        };
        return write!(out, "is an {missing} missing before it?");
    }
    if is_nmi || matches!(way.level, Level::Nmi) {
        return write!(
            out,
            "the NMI leads there, too: it ends with RTI, and shares no instruction with the program"
        );
    }
    tell_shared(out, program, way.to, new)
}

// Tells of a way to a place of another level.
fn tell_level<A: Allocator>(out: &mut Text<A>, program: &Program<'_>, way: &Way) -> fmt::Result {
    let (to, now) = (way.to, level_name(way.level));
    let Some(new) = program.note(to) else {
        return Ok(());
    };
    let next = level_name(new.level);
    if way.is_behind {
        write!(
            out,
            "it runs on into {to:04X}, which is {next}, not {now}: "
        )?;
    } else {
        write!(out, "it goes on at {to:04X}, which is {next}, not {now}: ")?;
    }
    tell_cure(out, program, way, new.level)
}

// Tells of a way to a place with another depth.
fn tell_depth<A: Allocator>(out: &mut Text<A>, program: &Program<'_>, way: &Way) -> fmt::Result {
    let to = way.to;
    let depth = match program.note(to) {
        Some(new) => new.depth,
        None => 0,
    };
    tell_bytes(out, way.depth)?;
    write!(
        out,
        " on the stack, and at {to:04X} {depth}: push and pull as much on each way"
    )
}

/// Tells what the place at the end of a way asks for that isn't so.
pub(crate) fn tell_ask<A: Allocator>(
    out: &mut Text<A>,
    program: &Program<'_>,
    way: &Way,
    ask: Ask,
) -> fmt::Result {
    let to = way.to;
    match ask {
        Ask::Noted => write!(
            out,
            "it goes on at {to:04X}, where no instruction of the game is known"
        ),
        Ask::Level => tell_level(out, program, way),
        Ask::Depth => tell_depth(out, program, way),
        Ask::Room => write!(
            out,
            "it needs more of the stack than there is: does a subroutine call itself, or a loop \
             push? Let it keep in RAM what it would push"
        ),
        Ask::Fuel => write!(
            out,
            "the NMI may loop, or lasts too long: write each round of a loop for itself"
        ),
        Ask::Awake => write!(
            out,
            "dvg_reset may not have been called, or a byte of 10 to 20 was stored since"
        ),
        Ask::Held => write!(out, "a register is not what it is taken for"),
        Ask::Slots => write!(out, "a byte of the stack is not what it is taken for"),
        Ask::Blank => write!(out, "the frame may be empty"),
        Ask::Ends => write!(out, "its RTS may leave an empty frame"),
    }
}

// Returns how many bytes are pushed behind an instruction.
fn depth_behind(program: &Program<'_>, at: u32, now: &Note) -> u16 {
    match program.kind(at) {
        Kind::Push | Kind::PushFlags => now.depth.saturating_add(1),
        Kind::Pull | Kind::PullFlags => now.depth.saturating_sub(1),
        _ => now.depth,
    }
}

/// Returns the way behind an instruction.
pub(crate) fn way_behind(program: &Program<'_>, i: &Instruction, now: &Note) -> Way {
    Way {
        to: i.next(),
        is_behind: true,
        level: now.level,
        depth: depth_behind(program, i.at, now),
    }
}

/// Returns the way to where an instruction leads.
pub(crate) fn way_there(program: &Program<'_>, i: &Instruction, now: &Note) -> Way {
    let calls = matches!(program.kind(i.at), Kind::Call);
    Way {
        to: u32::from(i.operand()),
        is_behind: false,
        level: if calls { Level::Sub } else { now.level },
        depth: if calls { 0 } else { now.depth },
    }
}
}
mod bringer {
//! Which instruction offers a table, or puts a word.
use crate::program::Program;
use dvg_game_check::{BYTES, FAR, FIRST, PLACES, known_at, value};

/// The routines to which a table is offered, and a word put.
pub(crate) const OFFER: u16 = 0x68FE;

pub(crate) const PUT: u16 = 0x6957;

// Whether A and X are known to be this word at a place, for some Y.
fn brings(rom: &[u8], ways: &[u8], at: u32, word: u16) -> bool {
    if rom.len() != BYTES || ways.len() != PLACES as usize || FIRST + PLACES <= at {
        return false;
    }
    let fact = known_at(rom, ways, FAR, at);
    for y in 0..fact.most {
        if let (Some(a), Some(x)) = (value(rom, fact.a, y), value(rom, fact.x, y)) {
            if u16::from(a) + 256 * u16::from(x) == word {
                return true;
            }
        }
    }
    false
}

/// Returns the first instruction that calls or jumps to a routine, and brings this word to it.
pub(crate) fn bringer(program: &Program<'_>, ways: &[u8], entry: u16, word: u16) -> Option<u32> {
    for k in 0..PLACES {
        let at = FIRST + k;
        if let Some(step) = program.step(at) {
            if step.drives == Some(entry) && brings(program.rom, ways, at, word) {
                return Some(at);
            }
        }
    }
    None
}
}
mod early {
//! Stores that undo `dvg_reset`.
use crate::instruction::Instruction;
use crate::program::{Program, Step};
use crate::search::Search;
use dvg_game_check::{FIRST, Kind, PLACES, Test, kind_of, reached};
use std::alloc::{AllocError, Allocator};

/// The address of `dvg_reset`.
const RESET: u16 = 0x6800;

// Whether an instruction may store a byte of the driver's, but `dvg_y` and `dvg_x`.
fn stores_own(program: &Program<'_>, at: u32) -> bool {
    let i = Instruction::new(program, at);
    match kind_of(i.opcode) {
        Kind::Stores(place) => !reached(place, i.low, i.word, Test::NotOwn),
        _ => false,
    }
}

// Goes on from a place to which the driver may come awake.
fn go_on<A: Allocator + Copy>(
    search: &mut Search<A>,
    step: &Step,
    stores: bool,
) -> Result<(), AllocError> {
    if stores {
        return Ok(());
    }
    if let Some(to) = step.calls {
        search.mark(to)?;
    }
    if let Some(to) = step.to {
        search.mark(to)?;
    }
    if let Some(to) = step.next {
        search.mark(to)?;
    }
    Ok(())
}

/// Returns the first store of a byte of the driver's that comes where `dvg_reset` may have been
/// called, if there is one.
pub(crate) fn undoing<A: Allocator + Copy>(
    alloc: A,
    program: &Program<'_>,
) -> Result<Option<u32>, AllocError> {
    let mut search = Search::new(alloc)?;
    for k in 0..PLACES {
        if let Some(step) = program.step(FIRST + k) {
            if let (Some(RESET), Some(next)) = (step.drives, step.next) {
                search.mark(next)?;
            }
        }
    }
    let mut first = None;
    for _ in 0..PLACES {
        let Some(at) = search.take() else {
            break;
        };
        if let Some(step) = program.step(at) {
            let stores = stores_own(program, at);
            if stores {
                first = match first {
                    Some(old) if old < at => Some(old),
                    _ => Some(at),
                };
            }
            go_on(&mut search, &step, stores)?;
        }
    }
    Ok(first)
}
}
mod engine {
//! The engine `game`.
use crate::telling::tell;
use crate::told::{PlaceLine, Told};
use dvg_code::OutOfMemory;
use dvg_game_check::judge;
use dvg_io::{Engine, StreamFailed, ToolFault, Watched, serve, write_lines, write_whole};
use dvg_mem::{MEMORY_BYTES, Rom};
use dvg_read::{TextFault, Unread};
use std::alloc::Allocator;
use std::io::{Read, Write};

/// How many bytes an input has: the vector ROM's, and then the program's.
pub const GAME_BYTES: usize = 8192;

// Returns the fault of an input that has another number of bytes.
fn size_fault(input: &[u8]) -> TextFault {
    if input.len() > GAME_BYTES {
        TextFault::LongGame
    } else {
        TextFault::GameSize(input.len())
    }
}

// Returns what is found of the program `rom`, beside the vector ROM of these bytes.
fn find_game<A: Allocator + Copy>(
    alloc: A,
    rom: &[u8],
    vectors: &[u8],
    with_notes: bool,
) -> Result<Told<A>, OutOfMemory> {
    let Ok(vectors) = Rom::new(alloc, vectors) else {
        return Err(OutOfMemory);
    };
    let judged = judge(alloc, rom, &vectors)?;
    tell(alloc, rom, &judged, with_notes)
}

// Returns what is found of an input that has as many bytes as it has to.
fn find_in<A: Allocator + Copy>(
    alloc: A,
    input: &[u8],
    with_notes: bool,
) -> Result<Told<A>, OutOfMemory> {
    let (vectors, rom) = input.split_at(MEMORY_BYTES);
    find_game(alloc, rom, vectors, with_notes)
}

// The engine. With `notes` each note is told, too.
struct GameEngine {
    notes: bool,
}

// Writes these lines to `writer`, each by itself.
fn write_places<A: Allocator, W: Write>(
    lines: &[PlaceLine<A>],
    writer: &mut Watched<W>,
) -> Result<(), StreamFailed> {
    for line in lines {
        write_whole(writer, line.bytes.as_slice())?;
    }
    Ok(())
}

// Writes `opening` and these lines to `writer`.
fn write_opened<A: Allocator, W: Write>(
    opening: &[u8],
    lines: &[PlaceLine<A>],
    writer: &mut Watched<W>,
) -> Result<(), StreamFailed> {
    write_whole(writer, opening)?;
    write_places(lines, writer)
}

// Writes `opening`, these lines, and those of `more` to `writer`, each line by itself.
fn write_all_of<A: Allocator, W: Write>(
    opening: &[u8],
    lines: &[PlaceLine<A>],
    more: &[u8],
    writer: &mut Watched<W>,
) -> Result<(), StreamFailed> {
    write_opened(opening, lines, writer)?;
    write_lines(writer, more)
}

// Writes what is told to `writer`, each line by itself.
fn write_told<A: Allocator, W: Write>(
    told: &Told<A>,
    writer: &mut Watched<W>,
) -> Result<(), StreamFailed> {
    let (lines, more) = (told.lines.as_slice(), told.more.as_slice());
    write_all_of(told.opening(), lines, more, writer)
}

impl<A: Allocator + Copy> Engine<A> for GameEngine {
    type Found = Told<A>;

    const MOST: u32 = GAME_BYTES as u32;

    fn find(&self, alloc: A, read: &[u8]) -> Result<Told<A>, Unread> {
        if read.len() != GAME_BYTES {
            return Err(Unread::Text(size_fault(read)));
        }
        match find_in(alloc, read, self.notes) {
            Ok(told) => Ok(told),
            Err(OutOfMemory) => Err(Unread::Memory),
        }
    }

    fn write<W: Write>(&self, told: &Told<A>, writer: &mut Watched<W>) -> Result<(), StreamFailed> {
        write_told(told, writer)
    }
}

/// Reads a game from `reader`: the 2,048 bytes of its vector ROM, and then the 6,144 of its
/// program, from 6800 to 7FFF. Writes to `writer` whether a run of these bytes may tear a picture
/// (the texts are this project's own choice), in a line; and then a line for each instruction that
/// breaks a rule, or of which not all is seen, with its address, the causes first. With `notes` the
/// notes of the program follow. Returns what was told. The faults:
///
/// - `GameSize`: the input has so many bytes, fewer than 8,192.
/// - `LongGame`: it has more, of which no more than 8,193 are taken.
/// - `Reader`, `Writer`: that stream failed. After `Writer` a beginning of the text went out.
/// - `Memory`: an allocation failed.
///
/// Where it stops before it writes, which is at any fault but `Writer`, the writer is as it was.
#[inline(never)]
pub fn game<A: Allocator + Copy, R: Read, W: Write>(
    alloc: A,
    reader: &mut Watched<R>,
    writer: &mut Watched<W>,
    notes: bool,
) -> Result<Told<A>, ToolFault> {
    serve(&GameEngine { notes }, alloc, reader, writer)
}
}
mod hints {
//! Where the cause of a refusal is, if that isn't the instruction that is refused.
use std::prelude::*;

use crate::early::undoing;
use crate::instruction::Instruction;
use crate::places::routine;
use crate::program::{NMI_VECTOR, Program};
use crate::search::{Search, leads_to, led_from};
use dvg_game_check::{Broken, FIRST, Kind, Level, Note, PLACES, Rule};
use dvg_io::Text;
use std::alloc::{AllocError, Allocator};
use std::fmt::{self, Write};

/// The addresses of `dvg_open` and `dvg_labs`.
const OPEN: u16 = 0x6924;

const LABS: u16 = 0x6979;

/// What is known of the causes of a program's refusals.
pub(crate) struct Hints<A: Allocator> {
    /// The NMI's vector leads to what a reset does.
    pub nmi_boots: bool,
    /// The first call that comes before `dvg_reset`, a store that undoes that, and whether the NMI
    /// leads to the call.
    early: Option<u32>,
    undoes: Option<u32>,
    early_in_nmi: bool,
    /// The first call that comes where a frame may be empty, and the subroutines that are called
    /// between `dvg_open` and `dvg_labs`.
    empty: Option<u32>,
    amid: Vec<u32, A>,
    /// The first return that no call is open for, and a JMP that leads there.
    uncalled: Option<u32>,
    jump: Option<u32>,
}

// Returns the first place that breaks a rule.
fn first_of(all: &[Broken], rule: Rule) -> Option<u32> {
    for broken in all {
        if broken.rule == Some(rule) {
            return Some(broken.at);
        }
    }
    None
}

// Whether the NMI's vector leads to LDX #$FF, TXS, as a reset's does.
fn boots_at_nmi(program: &Program<'_>) -> bool {
    let mut at = u32::from(program.word(NMI_VECTOR));
    for _ in 0..32u32 {
        if program.byte(at) == 0xA2 && program.word(at.wrapping_add(1)) == 0x9AFF {
            return true;
        }
        match program.kind(at) {
            Kind::Quiet(_, _) | Kind::Reads(_, _) | Kind::Stores(_) => {
                at = Instruction::new(program, at).next();
            }
            _ => return false,
        }
    }
    false
}

// Adds the subroutine that is called at a place, unless it is there.
fn add<A: Allocator>(list: &mut Vec<u32, A>, sub: u32) -> Result<(), AllocError> {
    for known in list.iter() {
        if *known == sub {
            return Ok(());
        }
    }
    list.push(sub)?;
    Ok(())
}

// Goes on from a place behind `dvg_open`: up to `dvg_labs`, or a call of a subroutine, which is
// added if it may leave the frame empty.
fn go_on<A: Allocator + Copy>(
    program: &Program<'_>,
    search: &mut Search<A>,
    list: &mut Vec<u32, A>,
    at: u32,
) -> Result<(), AllocError> {
    let Some(step) = program.step(at) else {
        return Ok(());
    };
    if step.drives == Some(LABS) {
        return Ok(());
    }
    if let Some(sub) = step.calls {
        let ends_empty = match program.note(sub) {
            Some(note) => note.ends,
            None => false,
        };
        return if ends_empty { add(list, sub) } else { Ok(()) };
    }
    if let Some(to) = step.next {
        search.mark(to)?;
    }
    if let Some(to) = step.to {
        search.mark(to)?;
    }
    Ok(())
}

// Returns the subroutines that are called first between `dvg_open` and `dvg_labs`, and may leave
// the frame empty.
fn called_amid<A: Allocator + Copy>(
    alloc: A,
    program: &Program<'_>,
) -> Result<Vec<u32, A>, AllocError> {
    let mut list = Vec::new(alloc);
    let mut search = Search::new(alloc)?;
    for k in 0..PLACES {
        if let Some(step) = program.step(FIRST + k) {
            if let (Some(OPEN), Some(next)) = (step.drives, step.next) {
                search.mark(next)?;
            }
        }
    }
    for _ in 0..PLACES {
        let Some(at) = search.take() else {
            break;
        };
        go_on(program, &mut search, &mut list, at)?;
    }
    Ok(list)
}

// Returns the first JMP that leads to a marked place, and marks what leads to one.
fn jump_before<A: Allocator + Copy>(
    program: &Program<'_>,
    search: &mut Search<A>,
    to: u32,
) -> Result<Option<u32>, AllocError> {
    for k in 0..PLACES {
        let at = FIRST + k;
        if let Some(step) = program.step(at) {
            if leads_to(&step, to) && !search.is_marked(at) {
                if matches!(step.kind, Kind::Jump) {
                    return Ok(Some(at));
                }
                search.mark(at)?;
            }
        }
    }
    Ok(None)
}

/// How far back a JMP is looked for, in instructions.
const MOST_BACK: u32 = 200;

// Returns a JMP that leads to a place, with no other one between.
fn jump_to<A: Allocator + Copy>(
    alloc: A,
    program: &Program<'_>,
    to: u32,
) -> Result<Option<u32>, AllocError> {
    let mut search = Search::new(alloc)?;
    search.mark(to)?;
    for _ in 0..MOST_BACK {
        let Some(at) = search.take() else {
            break;
        };
        if let Some(jump) = jump_before(program, &mut search, at)? {
            return Ok(Some(jump));
        }
    }
    Ok(None)
}

impl<A: Allocator + Copy> Hints<A> {
    /// Returns what is known of the causes, where all these places of a program are refused.
    pub(crate) fn new(
        alloc: A,
        program: &Program<'_>,
        all: &[Broken],
    ) -> Result<Hints<A>, AllocError> {
        let mut hints = Hints {
            nmi_boots: boots_at_nmi(program),
            early: first_of(all, Rule::Asleep),
            undoes: None,
            early_in_nmi: false,
            empty: first_of(all, Rule::Blank),
            amid: Vec::new(alloc),
            uncalled: first_of(all, Rule::ReturnLevel),
            jump: None,
        };
        if let Some(early) = hints.early {
            hints.undoes = undoing(alloc, program)?;
            let nmi = u32::from(program.word(NMI_VECTOR));
            hints.early_in_nmi = led_from(alloc, program, nmi)?.is_marked(early);
        }
        if hints.empty.is_some() {
            hints.amid = called_amid(alloc, program)?;
        }
        if let Some(uncalled) = hints.uncalled {
            hints.jump = jump_to(alloc, program, uncalled)?;
        }
        Ok(hints)
    }

    /// Tells that a routine is called before `dvg_reset`, and of the first one why.
    pub(crate) fn tell_asleep(&self, out: &mut Text<A>, i: &Instruction) -> fmt::Result {
        let name = routine(i.operand());
        if self.early != Some(i.at) {
            return write!(
                out,
                "{name} comes before dvg_reset, or after a store of a byte of 10 to 20"
            );
        }
        if let Some(at) = self.undoes {
            return write!(
                out,
                "{name} comes before dvg_reset: the store at {at:04X} may be of a byte of 10 to \
                 20, which undoes an earlier one"
            );
        }
        if self.early_in_nmi {
            return write!(out, "{name} comes before dvg_reset; the NMI leads there");
        }
        write!(
            out,
            "{name} comes before dvg_reset, which isn't called first on each way there"
        )
    }

    /// Tells, of the first call where a frame may be empty, which subroutines leave it so.
    pub(crate) fn tell_empty(&self, out: &mut Text<A>, i: &Instruction) -> fmt::Result {
        if self.empty != Some(i.at) {
            return Ok(());
        }
        for sub in self.amid.iter() {
            write!(
                out,
                "; {sub:04X} is called between dvg_open and dvg_labs: call it before dvg_open"
            )?;
        }
        Ok(())
    }

    /// Tells, of the first return that no call is open for, which JMP may be one for a JSR.
    pub(crate) fn tell_uncalled(
        &self,
        out: &mut Text<A>,
        program: &Program<'_>,
        i: &Instruction,
        now: &Note,
    ) -> fmt::Result {
        if self.uncalled != Some(i.at) || matches!(now.level, Level::Nmi) {
            return Ok(());
        }
        let is_jump = matches!(program.kind(i.at), Kind::Jump);
        match (self.jump, is_jump) {
            (None, true) => write!(out, ": is this a JMP for a JSR?"),
            (None, false) => Ok(()),
            (Some(at), true) => write!(
                out,
                ": is this a JMP for a JSR, or the one at {at:04X}, which leads there?"
            ),
            (Some(at), false) => write!(out, ": is the JMP at {at:04X} one for a JSR?"),
        }
    }
}
}
mod instruction {
//! Instructions as they are printed.
use crate::program::Program;
use std::fmt;

/// The names of the 6502's documented opcodes, three letters each; `...` is none.
const NAMES: &[u8; 768] = b"\
    brkora.........oraasl...phporaasl......oraasl...\
    bplora.........oraasl...clcora.........oraasl...\
    jsrand......bitandrol...plpandrol...bitandrol...\
    bmiand.........androl...secand.........androl...\
    rtieor.........eorlsr...phaeorlsr...jmpeorlsr...\
    bvceor.........eorlsr...clieor.........eorlsr...\
    rtsadc.........adcror...plaadcror...jmpadcror...\
    bvsadc.........adcror...seiadc.........adcror...\
    ...sta......stystastx...dey...txa...stystastx...\
    bccsta......stystastx...tyastatxs......sta......\
    ldyldaldx...ldyldaldx...tayldatax...ldyldaldx...\
    bcslda......ldyldaldx...clvldatsx...ldyldaldx...\
    cpycmp......cpycmpdec...inycmpdex...cpycmpdec...\
    bnecmp.........cmpdec...cldcmp.........cmpdec...\
    cpxsbc......cpxsbcinc...inxsbcnop...cpxsbcinc...\
    beqsbc.........sbcinc...sedsbc.........sbcinc...";

/// The modes of the opcodes, a letter each, as `mode_of` reads them.
const MODES: &[u8; 256] = b"\
    .(???zz?.#.??aa?r)???xx?.Y???XX?\
    a(??zzz?.#.?aaa?r)???xx?.Y???XX?\
    .(???zz?.#.?aaa?r)???xx?.Y???XX?\
    .(???zz?.#.?jaa?r)???xx?.Y???XX?\
    ?(??zzz?.?.?aaa?r)??xxy?.Y.??X??\
    #(#?zzz?.#.?aaa?r)??xxy?.Y.?XXY?\
    #(??zzz?.#.?aaa?r)???xx?.Y???XX?\
    #(??zzz?.#.?aaa?r)???xx?.Y???XX?";

/// How an instruction names what it takes.
#[derive(Clone, Copy, PartialEq, Eq, Hash)]
pub(crate) enum Mode {
    Implied,
    Immediate,
    ZeroPage,
    ZeroPageX,
    ZeroPageY,
    Absolute,
    AbsoluteX,
    AbsoluteY,
    IndirectX,
    IndirectY,
    Relative,
    Indirect,
    /// There is no such opcode.
    Unknown,
}

// Returns the mode of a letter.
fn mode_of(letter: u8) -> Mode {
    match letter {
        b'.' => Mode::Implied,
        b'#' => Mode::Immediate,
        b'z' => Mode::ZeroPage,
        b'x' => Mode::ZeroPageX,
        b'y' => Mode::ZeroPageY,
        b'a' => Mode::Absolute,
        b'X' => Mode::AbsoluteX,
        b'Y' => Mode::AbsoluteY,
        b'(' => Mode::IndirectX,
        b')' => Mode::IndirectY,
        b'r' => Mode::Relative,
        b'j' => Mode::Indirect,
        _ => Mode::Unknown,
    }
}

/// An instruction of a program.
#[derive(Clone, Copy)]
pub(crate) struct Instruction {
    pub at: u32,
    pub opcode: u8,
    pub mode: Mode,
    /// The byte behind the opcode, and the word there.
    pub low: u8,
    pub word: u16,
}

impl Instruction {
    /// Returns the instruction at an address of a program.
    pub(crate) fn new(program: &Program<'_>, at: u32) -> Instruction {
        let opcode = program.byte(at);
        Instruction {
            at,
            opcode,
            mode: mode_of(MODES[usize::from(opcode)]),
            low: program.byte(at.wrapping_add(1)),
            word: program.word(at.wrapping_add(1)),
        }
    }

    /// Returns how many bytes it has.
    pub(crate) fn size(&self) -> u32 {
        match self.mode {
            Mode::Implied | Mode::Unknown => 1,
            Mode::Absolute | Mode::AbsoluteX | Mode::AbsoluteY | Mode::Indirect => 3,
            _ => 2,
        }
    }

    /// Returns where a branch leads.
    fn branch(&self) -> u16 {
        let back = if 128 <= self.low { 65280 } else { 0 };
        let to = self.at.wrapping_add(2 + u32::from(self.low) + back) % 65536;
        to as u16
    }

    /// Returns the address that it names, or where it leads.
    pub(crate) fn operand(&self) -> u16 {
        match self.mode {
            Mode::Absolute | Mode::AbsoluteX | Mode::AbsoluteY | Mode::Indirect => self.word,
            Mode::Relative => self.branch(),
            _ => u16::from(self.low),
        }
    }

    /// Returns the address behind it.
    pub(crate) fn next(&self) -> u32 {
        self.at.wrapping_add(self.size())
    }

    /// Writes its name.
    fn write_name(&self, f: &mut fmt::Formatter<'_>) -> fmt::Result {
        if self.mode == Mode::Unknown {
            return write!(f, "none");
        }
        let from = 3 * usize::from(self.opcode);
        for k in 0..3usize {
            write!(f, "{}", char::from(NAMES[from + k]))?;
        }
        Ok(())
    }
}

impl fmt::Display for Instruction {
    fn fmt(&self, f: &mut fmt::Formatter<'_>) -> fmt::Result {
        self.write_name(f)?;
        let (low, word) = (self.low, self.operand());
        match self.mode {
            Mode::Implied | Mode::Unknown => Ok(()),
            Mode::Immediate => write!(f, " #${low:02X}"),
            Mode::ZeroPage => write!(f, " ${low:02X}"),
            Mode::ZeroPageX => write!(f, " ${low:02X},x"),
            Mode::ZeroPageY => write!(f, " ${low:02X},y"),
            Mode::Absolute | Mode::Relative => write!(f, " ${word:04X}"),
            Mode::AbsoluteX => write!(f, " ${word:04X},x"),
            Mode::AbsoluteY => write!(f, " ${word:04X},y"),
            Mode::IndirectX => write!(f, " (${low:02X},x)"),
            Mode::IndirectY => write!(f, " (${low:02X}),y"),
            Mode::Indirect => write!(f, " (${word:04X})"),
        }
    }
}
}
mod notes {
//! The notes of a program, and what it offers and puts, as lines.
use crate::asks::level_name;
use crate::bringer::{OFFER, bringer};
use crate::instruction::Instruction;
use crate::program::Program;
use dvg_game_check::{FIRST, Note, PLACES, Register, Slot};
use dvg_io::Text;
use std::alloc::Allocator;
use std::fmt::{self, Write};

// Returns a letter for what a byte is known to be: what A, X or Y was where the NMI came, or a dot.
fn letter_of(slot: Slot) -> char {
    match slot {
        Slot::Any => '.',
        Slot::Was(Register::A) => 'a',
        Slot::Was(Register::X) => 'x',
        Slot::Was(Register::Y) => 'y',
    }
}

// Tells whether something is so, by a name.
fn tell_flag<A: Allocator>(out: &mut Text<A>, name: &'static str, is: bool) -> fmt::Result {
    if is { write!(out, " {name}") } else { Ok(()) }
}

// Tells a note.
fn tell_note<A: Allocator>(out: &mut Text<A>, note: &Note) -> fmt::Result {
    let (level, depth) = (level_name(note.level), note.depth);
    let (room, fuel) = (note.room, note.fuel);
    write!(out, "{level} depth {depth} room {room} fuel {fuel} held ")?;
    let held = note.held;
    let (a, x, y) = (letter_of(held.a), letter_of(held.x), letter_of(held.y));
    write!(out, "{a}{x}{y} pushed ")?;
    if note.slots.as_slice().is_empty() {
        write!(out, "-")?;
    }
    for slot in note.slots.as_slice() {
        let letter = letter_of(*slot);
        write!(out, "{letter}")?;
    }
    tell_flag(out, "awake", note.awake)?;
    tell_flag(out, "blank", note.blank)?;
    tell_flag(out, "ends", note.ends)?;
    write!(out, "\n")
}

/// Tells the note of each place that has one, in a line, behind its address and its instruction.
pub(crate) fn tell_notes<A: Allocator>(out: &mut Text<A>, program: &Program<'_>) -> fmt::Result {
    for k in 0..PLACES {
        let at = FIRST + k;
        if let Some(note) = program.note(at) {
            let i = Instruction::new(program, at);
            write!(out, "note {at:04X}: {i}: ")?;
            tell_note(out, note)?;
        }
    }
    Ok(())
}

/// Tells each of these words, in a line, and the first instruction that brings it to a routine.
pub(crate) fn tell_brought<A: Allocator>(
    out: &mut Text<A>,
    program: &Program<'_>,
    ways: &[u8],
    entry: u16,
    words: &[u16],
) -> fmt::Result {
    let what = if entry == OFFER { "offered" } else { "put" };
    for word in words {
        let word = *word;
        write!(out, "{what} {word:04X}")?;
        if let Some(at) = bringer(program, ways, entry, word) {
            write!(out, " at {at:04X}")?;
        }
        write!(out, "\n")?;
    }
    Ok(())
}
}
mod order {
//! The places that are refused, the causes first.
use std::prelude::*;

use crate::instruction::Instruction;
use crate::program::Program;
use dvg_game_check::{Ask, Broken, Kind, Level, Rule};
use std::alloc::{AllocError, Allocator};

// Whether an instruction may lead back: in a loop there is one that does.
fn leads_back(program: &Program<'_>, at: u32) -> bool {
    let i = Instruction::new(program, at);
    matches!(program.kind(at), Kind::Branch | Kind::Jump) && u32::from(i.operand()) <= at
}

// Whether another instruction is mostly the cause of this refusal; `has_cause`: one is known.
fn follows(program: &Program<'_>, broken: Broken, has_cause: bool) -> bool {
    match broken.rule {
        Some(Rule::Asleep | Rule::Blank) => true,
        Some(Rule::Next(Ask::Awake) | Rule::Target(Ask::Awake)) => true,
        Some(Rule::Next(Ask::Fuel) | Rule::Target(Ask::Fuel)) => !leads_back(program, broken.at),
        Some(Rule::Next(Ask::Room) | Rule::Target(Ask::Room)) => match program.note(broken.at) {
            Some(now) => has_cause || !matches!(now.level, Level::Sub),
            None => true,
        },
        _ => false,
    }
}

// Whether one of these is a cause by itself.
fn any_cause(program: &Program<'_>, all: &[Broken]) -> bool {
    for broken in all {
        if !follows(program, *broken, true) {
            return true;
        }
    }
    false
}

/// Returns the same places, the likeliest causes first.
pub(crate) fn causes_first<A: Allocator + Copy>(
    alloc: A,
    program: &Program<'_>,
    all: &[Broken],
) -> Result<Vec<Broken, A>, AllocError> {
    let has_cause = any_cause(program, all);
    let mut causes = Vec::new(alloc);
    let mut others: Vec<Broken, A> = Vec::new(alloc);
    for broken in all {
        if follows(program, *broken, has_cause) {
            others.push(*broken)?;
        } else {
            causes.push(*broken)?;
        }
    }
    causes.extend_from_slice(others.as_slice())?;
    Ok(causes)
}
}
mod places {
//! What is at an address that a game must not write, and what to write in place of such a store.
use dvg_io::Text;
use std::alloc::Allocator;
use std::fmt::{self, Write};

/// Tells what is at an address.
pub(crate) fn tell_place<A: Allocator>(out: &mut Text<A>, a: u16) -> fmt::Result {
    match a {
        0x10..=0x20 => write!(out, "the driver's byte {a:02X}"),
        0x100..=0x1FF => write!(out, "the stack"),
        0x2000..=0x2FFF => write!(out, "an input, or the flag"),
        0x3000..=0x31FF => write!(out, "the strobe"),
        0x3200..=0x3FFF => write!(out, "no output that asteroids.inc names"),
        0x4000..=0x47FF => write!(out, "the vector RAM"),
        0x4800..=0x7FFF => write!(out, "ROM"),
        0x8000..=0xFFFF => {
            let mirror = a % 0x8000;
            write!(out, "which the board takes for {mirror:04X}")
        }
        _ => write!(out, "no RAM"),
    }
}

// Returns what to write in place of a store to an address below 8000, behind a colon.
fn cure_of(a: u16) -> &'static str {
    match a {
        0x100..=0x1FF => ": push it, or keep it in page 2",
        0x3200..=0x3FFF => ": an output is written by its name, as WATCHDOG, without an index",
        0x4000..=0x47FF => {
            ": only the driver writes there. Draw by its calls, as dvg_put; if this is a \
             memory test, remove it"
        }
        0x4800..=0x7FFF => ": what changes stands in RAM (.segment \"BSS\")",
        _ => "",
    }
}

/// Returns what to write in place of a store to any address, behind a colon.
pub(crate) fn cure_of_any(a: u16) -> &'static str {
    match a % 0x8000 {
        0x3200..=0x3FFF if 0x8000 <= a => ": write that one, by its name",
        place => cure_of(place),
    }
}

/// The driver's routines that a game may call.
const ROUTINES: [(u16, &str); 12] = [
    (0x6800, "dvg_reset"),
    (0x6809, "dvg_run"),
    (0x6860, "dvg_ticks"),
    (0x686A, "dvg_tick"),
    (0x68FE, "dvg_offer"),
    (0x6924, "dvg_open"),
    (0x6943, "dvg_redraw"),
    (0x6957, "dvg_put"),
    (0x6979, "dvg_labs"),
    (0x6989, "dvg_pair"),
    (0x6A00, "dvg_close"),
    (0x6A17, "dvg_vector"),
];

/// Returns the name of a routine of the driver, or nothing.
pub(crate) fn routine(a: u16) -> &'static str {
    for (at, name) in ROUTINES {
        if at == a {
            return name;
        }
    }
    ""
}
}
mod program {
//! A program that is told of.
use dvg_game_check::{
    BYTES, FIRST, Kind, Note, PLACES, boot, is_driver, kind_of, length_of, target_of,
};

/// Where the program's bytes begin.
const ROM: u32 = 0x6800;

/// The address of the NMI's vector.
pub(crate) const NMI_VECTOR: u32 = 0x7FFA;

/// The address of the reset's vector.
pub(crate) const RESET_VECTOR: u32 = 0x7FFC;

/// Where an instruction leads.
#[derive(Clone, Copy)]
pub(crate) struct Step {
    pub kind: Kind,
    /// Behind itself, and where it branches or jumps to.
    pub next: Option<u32>,
    pub to: Option<u32>,
    /// The subroutine that it calls, or the routine of the driver that it calls or jumps to.
    pub calls: Option<u32>,
    pub drives: Option<u16>,
}

/// The bytes of a program from 6800 to 7FFF, its notes, and where it starts behind TXS.
#[derive(Clone, Copy)]
pub(crate) struct Program<'a> {
    pub rom: &'a [u8],
    pub notes: &'a [Option<Note>],
    pub start: u32,
}

// Returns where a program starts, or 0.
fn start_of(rom: &[u8]) -> u32 {
    if rom.len() != BYTES {
        return 0;
    }
    match boot(rom) {
        Ok(start) => start,
        Err(_) => 0,
    }
}

impl<'a> Program<'a> {
    /// Returns the program of these bytes, with these notes.
    pub(crate) fn new(rom: &'a [u8], notes: &'a [Option<Note>]) -> Program<'a> {
        Program {
            rom,
            notes,
            start: start_of(rom),
        }
    }

    /// Returns the byte at an address, or 0 outside of the program.
    pub(crate) fn byte(&self, at: u32) -> u8 {
        match self.rom.get(at.wrapping_sub(ROM) as usize) {
            Some(byte) => *byte,
            None => 0,
        }
    }

    /// Returns the word at an address, its low byte first.
    pub(crate) fn word(&self, at: u32) -> u16 {
        u16::from(self.byte(at)) + 256 * u16::from(self.byte(at.wrapping_add(1)))
    }

    /// Returns the note of a place, if code is there.
    pub(crate) fn note(&self, at: u32) -> Option<&'a Note> {
        match self.notes.get(at.wrapping_sub(FIRST) as usize) {
            Some(Some(note)) => Some(note),
            _ => None,
        }
    }

    /// Returns the kind of the instruction at an address.
    pub(crate) fn kind(&self, at: u32) -> Kind {
        kind_of(self.byte(at))
    }

    // Returns the routine of the driver that a JSR or a JMP at a place leads to.
    fn driven(&self, at: u32, kind: Kind) -> Option<u16> {
        let word = self.word(at.wrapping_add(1));
        match kind {
            Kind::Call if is_driver(word) => Some(word),
            Kind::Jump if is_driver(word) && word != self.word(RESET_VECTOR) => Some(word),
            _ => None,
        }
    }

    /// Returns where the instruction at an address leads, if code is there.
    pub(crate) fn step(&self, at: u32) -> Option<Step> {
        if self.rom.len() != BYTES || at < FIRST || FIRST + PLACES <= at {
            return None;
        }
        if self.note(at).is_none() {
            return None;
        }
        let kind = self.kind(at);
        let target = target_of(self.rom, at);
        let is_call = matches!(kind, Kind::Call);
        let length = length_of(kind);
        Some(Step {
            kind,
            next: if length == 0 { None } else { Some(at + length) },
            to: if is_call { None } else { target },
            calls: if is_call { target } else { None },
            drives: self.driven(at, kind),
        })
    }
}
}
mod reasons {
//! Which rule an instruction breaks, in words, and what to do.
use crate::alone::{
    tell_blank, tell_entry, tell_finish, tell_lost, tell_nmi_drives, tell_read, tell_return_depth,
    tell_return_level, tell_store, tell_wild,
};
use crate::asks::{call_of, tell_ask, way_behind, way_there};
use crate::hints::Hints;
use crate::instruction::Instruction;
use crate::program::{Program, RESET_VECTOR};
use dvg_game_check::{Ask, Broken, Level, Note, Rule};
use dvg_io::Text;
use std::alloc::Allocator;
use std::fmt::{self, Write};

// Tells a rule whose text doesn't depend on the instruction.
fn tell_plainly<A: Allocator>(out: &mut Text<A>, rule: Rule) -> fmt::Result {
    let text: &'static str = match rule {
        Rule::Pushes => "the stack has no room for it",
        Rule::Pulls => {
            "it takes what was not pushed here: a subroutine ends by RTS alone, and gets the \
             address of a text in A and X"
        }
        Rule::Resets => "the NMI jumps to the reset: let the program look, and jump",
        Rule::EntryRoom => "the stack has no room for the driver",
        Rule::CallRoom => "the stack has no room for the call",
        Rule::CallNmi => "the NMI calls a subroutine: write its instructions there",
        Rule::ReturnBlank => "it returns with an empty frame",
        _ => "it breaks a rule",
    };
    out.add(text.as_bytes())
}

// Tells a rule that an instruction with the note `now` breaks.
fn tell_rule<A: Allocator + Copy>(
    out: &mut Text<A>,
    program: &Program<'_>,
    hints: &Hints<A>,
    i: &Instruction,
    now: &Note,
    rule: Rule,
) -> fmt::Result {
    match rule {
        Rule::Wild => tell_wild(out, i, hints.nmi_boots),
        Rule::Strobe => tell_read(out, i),
        Rule::Writes => tell_store(out, i, now.level),
        Rule::Entry => tell_entry(out, i),
        Rule::EntryNmi => tell_nmi_drives(out, i),
        Rule::Asleep => hints.tell_asleep(out, i),
        Rule::Blank => {
            tell_blank(out, i)?;
            hints.tell_empty(out, i)
        }
        Rule::ReturnLevel => {
            tell_return_level(out, now)?;
            hints.tell_uncalled(out, program, i, now)
        }
        Rule::ReturnDepth => tell_return_depth(out, now),
        Rule::FinishLevel | Rule::FinishDepth => tell_finish(out, now),
        Rule::FinishHeld => tell_lost(out, now),
        Rule::CallRoom if program.note(u32::from(i.operand())).is_none() => {
            tell_ask(out, program, &way_there(program, i, now), Ask::Noted)
        }
        Rule::Next(ask) => tell_ask(out, program, &way_behind(program, i, now), ask),
        Rule::Target(ask) => tell_ask(out, program, &way_there(program, i, now), ask),
        _ => tell_plainly(out, rule),
    }
}

// Tells, of a place of the reset that a JSR leads to, which one calls it.
fn tell_called<A: Allocator>(
    out: &mut Text<A>,
    program: &Program<'_>,
    at: u32,
    now: &Note,
) -> fmt::Result {
    let reset = u32::from(program.word(RESET_VECTOR));
    if at < reset || program.start <= at || !matches!(now.level, Level::Sub) {
        return Ok(());
    }
    match call_of(program, reset) {
        Some(call) => write!(out, "; the reset is called at {call:04X}: jump there"),
        None => Ok(()),
    }
}

/// Tells the instruction at a place, and which rule it breaks.
pub(crate) fn tell_broken<A: Allocator + Copy>(
    out: &mut Text<A>,
    program: &Program<'_>,
    hints: &Hints<A>,
    broken: Broken,
) -> fmt::Result {
    let i = Instruction::new(program, broken.at);
    write!(out, "{i}: ")?;
    match (program.note(broken.at), broken.rule) {
        (Some(now), Some(rule)) => {
            tell_rule(out, program, hints, &i, now, rule)?;
            tell_called(out, program, broken.at, now)
        }
        _ => write!(out, "it breaks a rule"),
    }
}
}
mod search {
//! Which instructions of a program lead where.
use std::prelude::*;

use crate::program::{Program, Step};
use dvg_game_check::{FIRST, PLACES};
use std::alloc::{AllocError, Allocator};

/// Places, each with its mark, and those from which the search still has to go on.
pub(crate) struct Search<A: Allocator> {
    marks: Vec<bool, A>,
    work: Vec<u32, A>,
}

impl<A: Allocator + Copy> Search<A> {
    /// Returns a search with no place marked.
    pub(crate) fn new(alloc: A) -> Result<Search<A>, AllocError> {
        let mut marks = Vec::new(alloc);
        for _ in 0..PLACES {
            marks.push(false)?;
        }
        Ok(Search {
            marks,
            work: Vec::new(alloc),
        })
    }

    /// Whether a place is marked.
    pub(crate) fn is_marked(&self, at: u32) -> bool {
        match self.marks.get(at.wrapping_sub(FIRST) as usize) {
            Some(mark) => *mark,
            None => false,
        }
    }

    /// Marks a place, if it isn't yet, and has the search go on from there.
    pub(crate) fn mark(&mut self, at: u32) -> Result<(), AllocError> {
        if let Some(mark) = self.marks.get_mut(at.wrapping_sub(FIRST) as usize) {
            if !*mark {
                *mark = true;
                self.work.push(at)?;
            }
        }
        Ok(())
    }

    /// Returns a place to go on from.
    pub(crate) fn take(&mut self) -> Option<u32> {
        self.work.pop()
    }
}

/// Whether an instruction leads to an address, but by a call.
pub(crate) fn leads_to(step: &Step, to: u32) -> bool {
    step.next == Some(to) || step.to == Some(to)
}

/// Returns the places that an instruction at `from` leads to, but by calls.
pub(crate) fn led_from<A: Allocator + Copy>(
    alloc: A,
    program: &Program<'_>,
    from: u32,
) -> Result<Search<A>, AllocError> {
    let mut search = Search::new(alloc)?;
    search.mark(from)?;
    for _ in 0..PLACES {
        let Some(at) = search.take() else {
            break;
        };
        if let Some(step) = program.step(at) {
            if let Some(to) = step.next {
                search.mark(to)?;
            }
            if let Some(to) = step.to {
                search.mark(to)?;
            }
        }
    }
    Ok(search)
}
}
mod summary {
//! What is told of a program that isn't refused.
use crate::program::{NMI_VECTOR, Program};
use crate::search::Search;
use dvg_game_check::{FIRST, Kind, PLACES};
use dvg_io::Text;
use std::alloc::{AllocError, Allocator};
use std::fmt::{self, Write};

/// How much there is of a program.
#[derive(Clone, Copy)]
pub(crate) struct Counts {
    /// Instructions behind TXS, and subroutines that are called.
    pub instructions: u32,
    pub subroutines: u32,
    /// Bytes of the stack, at most, and instructions of the NMI.
    pub stack: u32,
    pub fuel: u32,
}

/// Counts what there is of a program.
pub(crate) fn count<A: Allocator + Copy>(
    alloc: A,
    program: &Program<'_>,
) -> Result<Counts, AllocError> {
    let mut counts = Counts {
        instructions: 0,
        subroutines: 0,
        stack: 3,
        fuel: 0,
    };
    let mut called = Search::new(alloc)?;
    let mut last = None;
    for k in 0..PLACES {
        if let Some(step) = program.step(FIRST + k) {
            counts.instructions = counts.instructions.wrapping_add(1);
            if matches!(step.kind, Kind::Finish) {
                last = program.note(FIRST + k);
            }
            if let Some(sub) = step.calls {
                if !called.is_marked(sub) {
                    counts.subroutines = counts.subroutines.wrapping_add(1);
                    called.mark(sub)?;
                }
            }
        }
    }
    if let Some(first) = program.note(program.start) {
        counts.stack = counts.stack.wrapping_add(u32::from(first.room));
    }
    if let Some(nmi) = program.note(u32::from(program.word(NMI_VECTOR))) {
        counts.stack = counts.stack.wrapping_add(u32::from(nmi.room));
        let left = match last {
            Some(note) => note.fuel,
            None => 0,
        };
        counts.fuel = u32::from(nmi.fuel.saturating_sub(left)).wrapping_add(1);
    }
    Ok(counts)
}

/// Tells how much there is of a program, and how many tables and words were looked at.
pub(crate) fn tell_counts<A: Allocator>(
    out: &mut Text<A>,
    counts: Counts,
    tables: usize,
    words: usize,
) -> fmt::Result {
    let (instructions, subroutines) = (counts.instructions, counts.subroutines);
    let (stack, fuel) = (counts.stack, counts.fuel);
    write!(
        out,
        "{instructions} instructions behind TXS, {subroutines} subroutines; at most {stack} bytes \
         of the stack, and {fuel} instructions of the NMI\n"
    )?;
    write!(out, "{tables} tables checked, {words} words checked\n")
}
}
mod telling {
//! What is told of a program that was judged.
use std::prelude::*;

use crate::bringer::{OFFER, PUT};
use crate::hints::Hints;
use crate::notes::{tell_brought, tell_notes};
use crate::order::causes_first;
use crate::program::Program;
use crate::reasons::tell_broken;
use crate::summary::{count, tell_counts};
use crate::told::{PlaceLine, Told};
use crate::unseen::{place_of, tell_unseen};
use crate::vectors::{tell_boot, tell_vectors};
use dvg_code::OutOfMemory;
use dvg_game_check::{Broken, Judged, Note, Refusal, Unseen, Verdict, all_broken};
use dvg_io::Text;
use dvg_print::glyph;
use std::alloc::Allocator;
use std::fmt::{self, Write};

// Returns a line that begins with an address.
fn line_at<A: Allocator>(alloc: A, at: u32, text: &[u8]) -> Result<PlaceLine<A>, OutOfMemory> {
    let head = [
        glyph((at / 4096 % 16) as usize),
        glyph((at / 256 % 16) as usize),
        glyph((at / 16 % 16) as usize),
        glyph((at % 16) as usize),
        b':',
        b' ',
    ];
    let mut bytes = Vec::new(alloc);
    bytes.extend_from_slice(&head)?;
    bytes.extend_from_slice(text)?;
    bytes.push(b'\n')?;
    Ok(PlaceLine { at, bytes })
}

// Returns what was told, or that memory was refused.
fn done(told: fmt::Result) -> Result<(), OutOfMemory> {
    match told {
        Ok(()) => Ok(()),
        Err(_) => Err(OutOfMemory),
    }
}

// Returns a line for each of these places that are refused.
fn lines_of<A: Allocator + Copy>(
    alloc: A,
    program: &Program<'_>,
    hints: &Hints<A>,
    all: &[Broken],
) -> Result<Vec<PlaceLine<A>, A>, OutOfMemory> {
    let mut lines = Vec::new(alloc);
    for broken in all {
        let mut out = Text::new(alloc);
        if tell_broken(&mut out, program, hints, *broken).is_err() {
            return Err(OutOfMemory);
        }
        let text = out.into_bytes();
        lines.push(line_at(alloc, broken.at, text.as_slice())?)?;
    }
    Ok(lines)
}

// What is told beside the verdict: lines of instructions, and what comes after them.
struct Parts<A: Allocator> {
    lines: Vec<PlaceLine<A>, A>,
    more: Vec<u8, A>,
}

// Returns what is told of a program that is accepted.
fn tell_kept<A: Allocator + Copy>(
    alloc: A,
    program: &Program<'_>,
    judged: &Judged<A>,
) -> Result<Parts<A>, OutOfMemory> {
    let mut out = Text::new(alloc);
    let counts = count(alloc, program)?;
    let (tables, words) = (judged.tables.len(), judged.words.len());
    done(tell_counts(&mut out, counts, tables, words))?;
    Ok(Parts {
        lines: Vec::new(alloc),
        more: out.into_bytes(),
    })
}

// Returns the line of an instruction of which not all is seen to be good.
fn unseen_lines<A: Allocator + Copy>(
    alloc: A,
    program: &Program<'_>,
    at: u32,
    why: Unseen,
) -> Result<Vec<PlaceLine<A>, A>, OutOfMemory> {
    let mut out = Text::new(alloc);
    done(tell_unseen(&mut out, program, at, why))?;
    let text = out.into_bytes();
    let mut lines = Vec::new(alloc);
    lines.push(line_at(alloc, at, text.as_slice())?)?;
    Ok(lines)
}

// Returns the line of the instruction of which not all is seen to be good, if one is found.
fn lines_for<A: Allocator + Copy>(
    alloc: A,
    program: &Program<'_>,
    ways: &[u8],
    why: Unseen,
) -> Result<Vec<PlaceLine<A>, A>, OutOfMemory> {
    match place_of(program, ways, why) {
        Some(at) => unseen_lines(alloc, program, at, why),
        None => Ok(Vec::new(alloc)),
    }
}

// Returns what is told of a program of which not all is seen.
fn tell_gaps<A: Allocator + Copy>(
    alloc: A,
    program: &Program<'_>,
    judged: &Judged<A>,
    why: Unseen,
) -> Result<Parts<A>, OutOfMemory> {
    let lines = lines_for(alloc, program, judged.ways.as_slice(), why)?;
    let mut out = Text::new(alloc);
    let counts = count(alloc, program)?;
    let (tables, words) = (judged.tables.len(), judged.words.len());
    done(tell_counts(&mut out, counts, tables, words))?;
    Ok(Parts {
        lines,
        more: out.into_bytes(),
    })
}

// Returns what is told of a program whose reset doesn't come to LDX #$FF and TXS, because of what
// is at an address.
fn tell_unbooted<A: Allocator + Copy>(
    alloc: A,
    program: &Program<'_>,
    at: u32,
) -> Result<Parts<A>, OutOfMemory> {
    let mut out = Text::new(alloc);
    done(tell_boot(&mut out, program, at))?;
    let text = out.into_bytes();
    let mut lines = Vec::new(alloc);
    lines.push(line_at(alloc, at, text.as_slice())?)?;
    Ok(Parts {
        lines,
        more: Vec::new(alloc),
    })
}

// Returns what is told of a program that has not the driver's code.
fn tell_driver<A: Allocator + Copy>(alloc: A) -> Result<Parts<A>, OutOfMemory> {
    let mut out = Text::new(alloc);
    done(write!(
        out,
        "from 6800 on, what stands there isn't the driver's code, as board/driver.s has it; the \
         vector ROM's 2048 bytes come first\n"
    ))?;
    Ok(Parts {
        lines: Vec::new(alloc),
        more: out.into_bytes(),
    })
}

// Returns what is told of a program whose instructions, or vectors, break a rule.
fn tell_rules<A: Allocator + Copy>(
    alloc: A,
    rom: &[u8],
    notes: &[Option<Note>],
) -> Result<Parts<A>, OutOfMemory> {
    let program = Program::new(rom, notes);
    let all = all_broken(alloc, rom, notes)?;
    let ordered = causes_first(alloc, &program, all.as_slice())?;
    let hints = Hints::new(alloc, &program, ordered.as_slice())?;
    let lines = lines_of(alloc, &program, &hints, ordered.as_slice())?;
    let mut out = Text::new(alloc);
    done(tell_vectors(&mut out, &program))?;
    Ok(Parts {
        lines,
        more: out.into_bytes(),
    })
}

// Returns what is told of a program that isn't accepted, for this reason.
fn tell_refused<A: Allocator + Copy>(
    alloc: A,
    rom: &[u8],
    notes: &[Option<Note>],
    why: Refusal,
) -> Result<Parts<A>, OutOfMemory> {
    match why {
        Refusal::Driver => tell_driver(alloc),
        Refusal::Boot(at) => tell_unbooted(alloc, &Program::new(rom, notes), at),
        _ => tell_rules(alloc, rom, notes),
    }
}

// Returns what is told of a program that was judged so.
fn parts_of<A: Allocator + Copy>(
    alloc: A,
    rom: &[u8],
    judged: &Judged<A>,
) -> Result<Parts<A>, OutOfMemory> {
    let notes = judged.notes.as_slice();
    let program = Program::new(rom, notes);
    match judged.verdict {
        Verdict::Keeps(_) => tell_kept(alloc, &program, judged),
        Verdict::Unseen(_, why) => tell_gaps(alloc, &program, judged, why),
        Verdict::Refused(why) => tell_refused(alloc, rom, notes, why),
        Verdict::Unsettled(why) => tell_refused(alloc, rom, notes, why),
    }
}

/// Returns what is told of a program that was judged so, and behind that its notes, if they are
/// wanted.
pub(crate) fn tell<A: Allocator + Copy>(
    alloc: A,
    rom: &[u8],
    judged: &Judged<A>,
    with_notes: bool,
) -> Result<Told<A>, OutOfMemory> {
    let parts = parts_of(alloc, rom, judged)?;
    let mut out = Text::new(alloc);
    done(out.add(parts.more.as_slice()))?;
    if with_notes {
        let program = Program::new(rom, judged.notes.as_slice());
        done(tell_notes(&mut out, &program))?;
        let ways = judged.ways.as_slice();
        done(tell_brought(&mut out, &program, ways, OFFER, judged.tables.as_slice()))?;
        done(tell_brought(&mut out, &program, ways, PUT, judged.words.as_slice()))?;
    }
    Ok(Told {
        verdict: judged.verdict,
        lines: parts.lines,
        more: out.into_bytes(),
    })
}
}
mod told {
//! What is told of a program.
use std::prelude::*;

use dvg_game_check::Verdict;
use std::alloc::{Allocator, Global};

/// What is told of one instruction: a line of text.
#[derive(Debug)]
pub struct PlaceLine<A: Allocator = Global> {
    /// The address of the instruction.
    pub at: u32,
    /// The bytes of the line: the address, and what is wrong there.
    pub bytes: Vec<u8, A>,
}

/// What is told of a program.
#[derive(Debug)]
pub struct Told<A: Allocator = Global> {
    /// What the judge says of it.
    pub verdict: Verdict,
    /// A line for each instruction of which something is told, the causes first.
    pub lines: Vec<PlaceLine<A>, A>,
    /// What is told after these lines.
    pub more: Vec<u8, A>,
}

impl<A: Allocator> Told<A> {
    /// Returns how the text begins.
    pub fn opening(&self) -> &'static [u8] {
        match self.verdict {
            Verdict::Keeps(_) => b"no run of these bytes tears a picture\n",
            Verdict::Unseen(_, _) => {
                b"keeps to the rules, but not all that it offers and puts is seen: \
                it may tear a picture\n"
            }
            Verdict::Refused(_) => b"refused: ",
            Verdict::Unsettled(_) => b"not accepted: ",
        }
    }
}
}
mod unseen {
//! What is told of what isn't seen.
use crate::bringer::{OFFER, PUT, bringer};
use crate::instruction::Instruction;
use crate::program::Program;
use dvg_game_check::{Gap, Unseen};
use dvg_io::Text;
use std::alloc::Allocator;
use std::fmt::{self, Write};

// Returns what an instruction does with what isn't seen.
fn what_of(i: &Instruction) -> &'static str {
    if i.operand() == OFFER {
        "offers"
    } else {
        "puts"
    }
}

// Tells of an instruction why what it offers or puts isn't seen.
fn tell_gap<A: Allocator>(
    out: &mut Text<A>,
    program: &Program<'_>,
    at: u32,
    gap: Gap,
) -> fmt::Result {
    let i = Instruction::new(program, at);
    let what = what_of(&i);
    write!(out, "{i}: ")?;
    match gap {
        Gap::Pair => write!(out, "what dvg_pair puts isn't seen"),
        Gap::Ways => write!(out, "it leads amid a way on which something is known"),
        Gap::Unknown => write!(
            out,
            "what it {what} isn't seen: it is seen where lda LIST,y and ldx LIST,y stand right \
             before the call, and before these cpy #LENGTH and bcs, or and #MASK and tay; or where \
             lda # and ldx # do"
        ),
        Gap::Outside => write!(
            out,
            "what it {what} isn't seen: it is of a list that isn't all in the program's ROM"
        ),
        Gap::Missing(word) => write!(out, "it {what} {word:04X}, which isn't seen to be good"),
    }
}

/// Returns the instruction of which not all that it offers or puts is seen to be good, if one is
/// found.
pub(crate) fn place_of(program: &Program<'_>, ways: &[u8], why: Unseen) -> Option<u32> {
    match why {
        Unseen::At(at, _) => Some(at),
        Unseen::Start => None,
        Unseen::Table(table) => bringer(program, ways, OFFER, table),
        Unseen::Word(word) => bringer(program, ways, PUT, word),
    }
}

/// Tells of an instruction what isn't seen to be good.
pub(crate) fn tell_unseen<A: Allocator>(
    out: &mut Text<A>,
    program: &Program<'_>,
    at: u32,
    why: Unseen,
) -> fmt::Result {
    let i = Instruction::new(program, at);
    match why {
        Unseen::At(_, gap) => tell_gap(out, program, at, gap),
        Unseen::Start => write!(out, "{i}: it is the first one, and follows another one"),
        Unseen::Table(table) => write!(
            out,
            "{i}: it offers {table:04X}, where no table stands that may be drawn: dvg lay --table \
             writes one"
        ),
        Unseen::Word(word) => write!(
            out,
            "{i}: it puts {word:04X}, which is no call of a shape, nor a short vector: dvg_call \
             NAME"
        ),
    }
}
}
mod vectors {
//! What is told of the reset and of the vectors.
use crate::alone::{tell_store, tell_wild};
use crate::asks::level_name;
use crate::instruction::Instruction;
use crate::program::{NMI_VECTOR, Program};
use dvg_game_check::{FIRST, Kind, Level, PLACES, Test, reached};
use dvg_io::Text;
use std::alloc::Allocator;
use std::fmt::{self, Write};

/// The most instructions of the NMI before its RTI, the most bytes that it may push, and those that
/// the program may.
const MOST_FUEL: u16 = 800;

const MOST_ROOM_OF_NMI: u16 = 29;

const MOST_ROOM: u16 = 223;

/// Whether a place is one of the game's code.
fn is_code(at: u32) -> bool {
    FIRST <= at && at < FIRST + PLACES
}

/// Tells why a reset doesn't come to LDX #$FF and TXS, because of what is at this address.
pub(crate) fn tell_boot<A: Allocator>(
    out: &mut Text<A>,
    program: &Program<'_>,
    at: u32,
) -> fmt::Result {
    if !is_code(at) {
        let mirror = at.wrapping_sub(0x8000);
        write!(out, "the reset leads out of the game")?;
        if is_code(mirror) {
            write!(out, ": let its vector be {mirror:04X}")?;
        }
        return Ok(());
    }
    let i = Instruction::new(program, at);
    write!(out, "{i}: ")?;
    match program.kind(at) {
        Kind::Wild => return tell_wild(out, &i, false),
        Kind::Stores(place) if !reached(place, i.low, i.word, Test::Writable(Level::Main)) => {
            return tell_store(out, &i, Level::Main);
        }
        _ => {}
    }
    let is_nmi = matches!(
        program.kind(at),
        Kind::Finish | Kind::Push | Kind::PushFlags
    );
    write!(
        out,
        "a reset begins with LDX #$FF, TXS, after 31 instructions at most; before it come loads \
         and stores alone: "
    )?;
    if is_nmi {
        return write!(out, "VECTORS has .word nmi, reset, irq, in this order");
    }
    write!(out, "let this follow it")
}

// Tells what is wrong with the note of the NMI's first instruction.
fn tell_nmi<A: Allocator>(out: &mut Text<A>, program: &Program<'_>) -> fmt::Result {
    let nmi = u32::from(program.word(NMI_VECTOR));
    let Some(note) = program.note(nmi) else {
        return write!(out, "the vectors: the NMI's vector leads nowhere\n");
    };
    if !matches!(note.level, Level::Nmi) {
        return write!(
            out,
            "the vectors: the NMI's vector leads to {nmi:04X}, where the program comes, too\n"
        );
    }
    if MOST_FUEL < note.fuel {
        let most = MOST_FUEL + 1;
        return write!(
            out,
            "the vectors: the NMI may loop, or does more than {most} instructions\n"
        );
    }
    let room = note.room;
    if MOST_ROOM_OF_NMI < room {
        return write!(
            out,
            "the vectors: the NMI may push {room} bytes: {MOST_ROOM_OF_NMI} are left for it\n"
        );
    }
    Ok(())
}

/// Tells what is wrong with the notes of the first instructions, of the program and of the NMI.
pub(crate) fn tell_vectors<A: Allocator>(out: &mut Text<A>, program: &Program<'_>) -> fmt::Result {
    match program.note(program.start) {
        None => write!(out, "the vectors: no instruction follows TXS\n")?,
        Some(note) if !matches!(note.level, Level::Main) => {
            let level = level_name(note.level);
            write!(
                out,
                "the vectors: the instruction behind TXS is {level}, not main\n"
            )?;
        }
        Some(note) if MOST_ROOM < note.room => {
            write!(
                out,
                "the vectors: the program may push more than {MOST_ROOM} bytes: does a subroutine \
                 call itself?\n"
            )?;
        }
        Some(_) => {}
    }
    tell_nmi(out, program)
}
}

pub use engine::{GAME_BYTES, game};
pub use told::{PlaceLine, Told};
