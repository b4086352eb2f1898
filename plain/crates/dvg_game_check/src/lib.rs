//! The checker of games.
#![no_std]

extern crate plain_std as std;

mod follow {
//! Whether what an instruction leaves is what the note of the next one asks for.
use crate::kind::{Register, Sets};
use crate::note::{Change, Held, Level, Note, Slot};

/// Where a game's code begins, and how many places it has.
pub const FIRST: u32 = 0x6A87;

pub const PLACES: u32 = 5491;

/// Returns whether two levels are the same.
pub fn same_level(one: Level, other: Level) -> bool {
    match one {
        Level::Main => matches!(other, Level::Main),
        Level::Sub => matches!(other, Level::Sub),
        Level::Nmi => matches!(other, Level::Nmi),
    }
}

fn same_register(one: Register, other: Register) -> bool {
    match one {
        Register::A => matches!(other, Register::A),
        Register::X => matches!(other, Register::X),
        Register::Y => matches!(other, Register::Y),
    }
}

// Returns whether a slot is as the first one asks.
fn serves(one: Slot, known: Slot) -> bool {
    match one {
        Slot::Any => true,
        Slot::Was(register) => match known {
            Slot::Any => false,
            Slot::Was(other) => same_register(register, other),
        },
    }
}

/// Returns whether A, X and Y are as the first one asks.
pub fn all_serve(one: Held, known: Held) -> bool {
    serves(one.a, known.a) && (serves(one.x, known.x) && serves(one.y, known.y))
}

/// Returns what a register holds.
pub fn of_held(register: Register, held: Held) -> Slot {
    match register {
        Register::A => held.a,
        Register::X => held.x,
        Register::Y => held.y,
    }
}

/// Returns what A, X and Y hold where a register holds something else.
pub fn holding(register: Register, slot: Slot, held: Held) -> Held {
    match register {
        Register::A => Held {
            a: slot,
            x: held.x,
            y: held.y,
        },
        Register::X => Held {
            a: held.a,
            x: slot,
            y: held.y,
        },
        Register::Y => Held {
            a: held.a,
            x: held.x,
            y: slot,
        },
    }
}

/// Returns what A, X and Y hold where one of them is set.
pub fn set(sets: Sets, held: Held) -> Held {
    match sets {
        Sets::Nothing => held,
        Sets::Only(register) => holding(register, Slot::Any, held),
    }
}

/// Returns the slot that was pushed last.
pub fn newest(slots: &[Slot]) -> Slot {
    if slots.is_empty() {
        Slot::Any
    } else {
        slots[0]
    }
}

// Returns whether slots are as the first ones ask.
pub fn serve(new: &[Slot], known: &[Slot]) -> bool {
    for i in 0..new.len() {
        if known.len() <= i || !serves(new[i], known[i]) {
            return false;
        }
    }
    true
}

// Returns whether slots are as the first ones ask, of which this one was pushed last.
fn serve_pushed(new: &[Slot], top: Slot, known: &[Slot]) -> bool {
    if new.is_empty() {
        return true;
    }
    serves(new[0], top) && serve(&new[1..], known)
}

// Returns whether slots are as the first ones ask, once the newest of them is pulled.
fn serve_pulled(new: &[Slot], known: &[Slot]) -> bool {
    if known.is_empty() {
        return serve(new, known);
    }
    serve(new, &known[1..])
}

pub fn level_after(change: Change, now: &Note) -> Level {
    match change {
        Change::Begins(_) => Level::Sub,
        _ => now.level,
    }
}

pub fn depth_after(change: Change, now: &Note) -> u32 {
    match change {
        Change::Pushes(_) => u32::from(now.depth) + 1,
        Change::Pulls(_) => u32::from(now.depth).saturating_sub(1),
        Change::Begins(_) => 0,
        _ => u32::from(now.depth),
    }
}

pub fn room_after(change: Change, now: &Note) -> u32 {
    match change {
        Change::Pushes(_) => u32::from(now.room).saturating_sub(1),
        Change::Pulls(_) => u32::from(now.room) + 1,
        Change::Begins(_) => u32::from(now.room).saturating_sub(2),
        _ => u32::from(now.room),
    }
}

pub fn awake_after(change: Change, now: &Note) -> bool {
    match change {
        Change::Leaves(awake) | Change::Returns(awake, _) => awake,
        _ => now.awake,
    }
}

pub fn blank_after(change: Change, now: &Note) -> bool {
    match change {
        Change::Returns(_, blank) => blank,
        _ => now.blank,
    }
}

pub fn ends_after(change: Change, now: &Note) -> bool {
    match change {
        Change::Begins(ends) => ends,
        _ => now.ends,
    }
}

pub fn held_after(change: Change, now: &Note) -> Held {
    match change {
        Change::Holds(held) | Change::Pulls(held) => held,
        _ => now.held,
    }
}

pub fn slots_serve(change: Change, now: &Note, new: &Note) -> bool {
    let (asked, known) = (new.slots.as_slice(), now.slots.as_slice());
    match change {
        Change::Pushes(slot) => serve_pushed(asked, slot, known),
        Change::Pulls(_) => serve_pulled(asked, known),
        Change::Begins(_) => serve(asked, &[]),
        _ => serve(asked, known),
    }
}

// Returns whether the second holds if the first one does.
pub fn implies(one: bool, other: bool) -> bool {
    !one || other
}

/// Returns whether what an instruction with the note `now` leaves is what `new` asks for.
pub fn suits(change: Change, now: &Note, new: &Note) -> bool {
    let level = level_after(change, now);
    same_level(new.level, level)
        && (u32::from(new.depth) == depth_after(change, now)
            && (u32::from(new.room) <= room_after(change, now)
                && (implies(same_level(level, Level::Nmi), new.fuel < now.fuel)
                    && (implies(new.awake, awake_after(change, now))
                        && (all_serve(new.held, held_after(change, now))
                            && (slots_serve(change, now, new)
                                && (implies(blank_after(change, now), new.blank)
                                    && implies(new.ends, ends_after(change, now)))))))))
}

/// Returns whether an instruction with the note `now` may lead to this address.
pub fn leads(notes: &[Option<Note>], to: u32, change: Change, now: &Note) -> bool {
    if to < FIRST || FIRST + PLACES <= to {
        return false;
    }
    match &notes[(to - FIRST) as usize] {
        None => false,
        Some(new) => suits(change, now, new),
    }
}
}
mod forced {
//! Whether a program is refused whatever its notes: by what is found of all that are accepted.
use crate::follow::{FIRST, PLACES, all_serve, implies, same_level};
use crate::kind::{Kind, Operand, Sets, kind_of, size};
use crate::note::{Level, Note};
use crate::reach::{Test, reached};
use crate::rules::{UNCHANGED, byte_at, goes_on, is_driver, is_entry, target, word_at};

// Returns whether no code may stand there, or what is found there is of another level or depth.
fn is_barred(notes: &[Option<Note>], to: u32, level: Level, depth: u32) -> bool {
    if to < FIRST || FIRST + PLACES <= to {
        return true;
    }
    match &notes[(to - FIRST) as usize] {
        None => false,
        Some(new) => !(same_level(new.level, level) && u32::from(new.depth) == depth),
    }
}

// Returns whether more bytes are pushed than may be, or the NMI does more instructions.
fn exceeds(now: &Note) -> bool {
    let pushed = u32::from(now.room) + u32::from(now.depth);
    match now.level {
        Level::Nmi => 29 < pushed || 800 < now.fuel,
        Level::Main | Level::Sub => 223 < pushed,
    }
}

// Returns whether the driver may be called there, for all but the room.
fn may_enter(to: u16, now: &Note) -> bool {
    is_entry(to)
        && (!same_level(now.level, Level::Nmi)
            && ((to == 0x6800 || now.awake) && implies(goes_on(to), !now.blank)))
}

// Returns whether no jump like this is fine.
fn jump_forced(notes: &[Option<Note>], word: u16, reset: u16, now: &Note) -> bool {
    if word == reset {
        return same_level(now.level, Level::Nmi);
    }
    if is_driver(word) {
        if !may_enter(word, now) {
            return true;
        }
        return !(same_level(now.level, Level::Sub) && now.depth == 0);
    }
    is_barred(notes, u32::from(word), now.level, u32::from(now.depth))
}

// Returns whether no call like this is fine.
fn call_forced(notes: &[Option<Note>], word: u16, at: u32, now: &Note) -> bool {
    let depth = u32::from(now.depth);
    if is_driver(word) {
        if !may_enter(word, now) {
            return true;
        }
        return is_barred(notes, at + 3, now.level, depth);
    }
    if same_level(now.level, Level::Nmi) {
        return true;
    }
    if is_barred(notes, u32::from(word), Level::Sub, 0) {
        return true;
    }
    is_barred(notes, at + 3, now.level, depth)
}

// Returns whether no branch like this is fine.
fn branch_forced(notes: &[Option<Note>], low: u8, at: u32, now: &Note) -> bool {
    let depth = u32::from(now.depth);
    if is_barred(notes, target(at, low), now.level, depth) {
        return true;
    }
    is_barred(notes, at + 2, now.level, depth)
}

// Returns whether no read like this is fine.
fn read_forced(
    notes: &[Option<Note>],
    sets: Sets,
    place: Operand,
    low: u8,
    word: u16,
    at: u32,
    now: &Note,
) -> bool {
    let _ = sets;
    if !reached(place, low, word, Test::NoStrobe) {
        return true;
    }
    is_barred(
        notes,
        at + u32::from(size(place)),
        now.level,
        u32::from(now.depth),
    )
}

// Returns whether no store like this is fine.
fn store_forced(
    notes: &[Option<Note>],
    place: Operand,
    low: u8,
    word: u16,
    at: u32,
    now: &Note,
) -> bool {
    if !reached(place, low, word, Test::Writable(now.level)) {
        return true;
    }
    is_barred(
        notes,
        at + u32::from(size(place)),
        now.level,
        u32::from(now.depth),
    )
}

// Returns whether an instruction isn't fine, whatever its notes, by its kind and the bytes behind
// its opcode.
fn forced_with(
    kind: Kind,
    notes: &[Option<Note>],
    low: u8,
    word: u16,
    reset: u16,
    at: u32,
    now: &Note,
) -> bool {
    let (level, depth) = (now.level, u32::from(now.depth));
    match kind {
        Kind::Quiet(_, bytes) => is_barred(notes, at + u32::from(bytes), level, depth),
        Kind::Reads(sets, place) => read_forced(notes, sets, place, low, word, at, now),
        Kind::Transfer(_, _) => is_barred(notes, at + 1, level, depth),
        Kind::Stores(place) => store_forced(notes, place, low, word, at, now),
        Kind::Push | Kind::PushFlags => is_barred(notes, at + 1, level, depth + 1),
        Kind::Pull | Kind::PullFlags => depth == 0 || is_barred(notes, at + 1, level, depth - 1),
        Kind::Branch => branch_forced(notes, low, at, now),
        Kind::Jump => jump_forced(notes, word, reset, now),
        Kind::Call => call_forced(notes, word, at, now),
        Kind::Return => !(same_level(level, Level::Sub) && depth == 0),
        Kind::Finish => {
            !(same_level(level, Level::Nmi) && (depth == 0 && all_serve(UNCHANGED, now.held)))
        }
        Kind::Wild => true,
    }
}

// Returns whether nothing that is accepted has a note at a place for which this one was made.
fn note_forced(rom: &[u8], notes: &[Option<Note>], at: u32, now: &Note) -> bool {
    if exceeds(now) {
        return true;
    }
    let kind = kind_of(byte_at(rom, at));
    let low = byte_at(rom, at + 1);
    let word = word_at(rom, at + 1);
    let reset = word_at(rom, 0x7FFC);
    forced_with(kind, notes, low, word, reset, at, now)
}

// Returns whether nothing that is accepted has a note at a place for which one was made.
fn place_forced(rom: &[u8], notes: &[Option<Note>], at: u32) -> bool {
    match &notes[(at - FIRST) as usize] {
        None => false,
        Some(now) => note_forced(rom, notes, at, now),
    }
}

/// Returns whether no notes of a program that starts at `start` are accepted, by what is found of
/// all that are.
pub fn is_forced(rom: &[u8], notes: &[Option<Note>], start: u32) -> bool {
    if is_barred(notes, start, Level::Main, 0) {
        return true;
    }
    if is_barred(notes, u32::from(word_at(rom, 0x7FFA)), Level::Nmi, 0) {
        return true;
    }
    for i in 0..PLACES {
        if place_forced(rom, notes, FIRST + i) {
            return true;
        }
    }
    false
}
}
mod gather {
//! Makes notes of what a program brings. Nothing is promised of them but how many there are: the
//! check refuses what is wrong.
use std::prelude::*;

use crate::follow::{FIRST, PLACES};
use crate::kind::{Kind, kind_of};
use crate::known::{FAR, contains, known_at, value};
use crate::note::Note;
use crate::rules::{byte_at, word_at};
use crate::work::{filled, length_of, number_of, target_of};
use std::alloc::{AllocError, Allocator};

/// More tables, or more words, than any program has.
const MOST: usize = 4096;

/// From where a place is come to.
#[derive(Clone, Copy)]
struct Before {
    /// How many instructions go on there behind themselves, and how many bytes the last one has.
    count: u32,
    size: u32,
    /// It is come to otherwise, too.
    entered: bool,
}

fn enter(places: &mut [Before], at: u32) {
    if let Some(place) = places.get_mut(number_of(at)) {
        place.entered = true;
    }
}

fn is_noted(notes: &[Option<Note>], at: u32) -> bool {
    match notes.get(number_of(at)) {
        Some(Some(_)) => true,
        _ => false,
    }
}

// Returns whether a JSR or a JMP there brings something to the driver.
fn brings(rom: &[u8], at: u32) -> bool {
    let word = word_at(rom, at + 1);
    match kind_of(byte_at(rom, at)) {
        Kind::Jump | Kind::Call => word == 0x68FE || word == 0x6957,
        _ => false,
    }
}

// Returns from where each place is come to.
fn befores<A: Allocator>(
    alloc: A,
    rom: &[u8],
    notes: &[Option<Note>],
    start: u32,
) -> Result<Vec<Before, A>, AllocError> {
    let none = Before {
        count: 0,
        size: 0,
        entered: false,
    };
    let mut places = filled(alloc, none)?;
    enter(&mut places, start);
    enter(&mut places, u32::from(word_at(rom, 0x7FFA)));
    enter(&mut places, u32::from(word_at(rom, 0x7FFC)));
    for i in 0..PLACES {
        let at = FIRST + i;
        if is_noted(notes, at) {
            if let Some(to) = target_of(rom, at) {
                enter(&mut places, to);
            }
            let kind = kind_of(byte_at(rom, at));
            let size = length_of(kind);
            if matches!(kind, Kind::Call) {
                enter(&mut places, at + 3);
            } else if let Some(place) = places.get_mut(number_of(at + size)) {
                if size != 0 {
                    place.count = place.count.saturating_add(1);
                    place.size = size;
                }
            }
        }
    }
    Ok(places)
}

/// Returns how many bytes the instruction has from which alone a place is come to, for the places
/// on straight ways to calls that bring something, and else 0.
pub fn ways<A: Allocator + Copy>(
    alloc: A,
    rom: &[u8],
    notes: &[Option<Note>],
    start: u32,
) -> Result<Vec<u8, A>, AllocError> {
    let places = befores(alloc, rom, notes, start)?;
    let mut found: Vec<u8, A> = filled(alloc, 0)?;
    for i in 0..PLACES {
        let first = FIRST + i;
        if is_noted(notes, first) && brings(rom, first) {
            let mut at = first;
            for _ in 0..FAR {
                if let Some(place) = places.get(number_of(at)) {
                    if place.entered || place.count != 1 || 3 < place.size {
                        break;
                    }
                    if let Some(way) = found.get_mut(number_of(at)) {
                        *way = (place.size % 256) as u8;
                    }
                    at = at.wrapping_sub(place.size);
                }
            }
        }
    }
    let mut ways = Vec::new(alloc);
    for i in 0..PLACES {
        match found.get(i as usize) {
            Some(way) => ways.push(*way)?,
            None => ways.push(0)?,
        }
    }
    Ok(ways)
}

/// Returns the words that A and X may be at the program's calls of a routine.
pub fn brought_to<A: Allocator>(
    alloc: A,
    rom: &[u8],
    notes: &[Option<Note>],
    ways: &[u8],
    entry: u16,
) -> Result<Vec<u16, A>, AllocError> {
    let mut list = Vec::new(alloc);
    for i in 0..PLACES {
        let at = FIRST + i;
        if is_noted(notes, at) && brings(rom, at) && word_at(rom, at + 1) == entry {
            let fact = known_at(rom, ways, FAR, at);
            for y in 0..fact.most {
                if let (Some(a), Some(x)) = (value(rom, fact.a, y), value(rom, fact.x, y)) {
                    let word = u16::from(a) + 256 * u16::from(x);
                    if list.len() < MOST && !contains(&list, word) {
                        list.push(word)?;
                    }
                }
            }
        }
    }
    Ok(list)
}
}
mod judging {
//! The judge of a program.
use std::prelude::*;

use crate::forced::is_forced;
use crate::gather::{brought_to, ways};
use crate::known::{Unseen, brings_gap};
use crate::maker::{make, unnoted};
use crate::note::Note;
use crate::offered::{bad_table, bad_word};
use crate::program::{Refusal, check_notes, check_start};
use dvg_mem::Rom;
use std::alloc::{AllocError, Allocator, Global};

/// What is said of a program that starts at this address.
#[derive(Clone, Copy, Debug)]
pub enum Verdict {
    /// No run of it tears a picture.
    Keeps(u32),
    /// It keeps the rules, but not all that it offers and puts is seen, and accepted.
    Unseen(u32, Unseen),
    /// It is refused, whatever notes of it are tried. Why is said with those that were made.
    Refused(Refusal),
    /// It isn't accepted with the notes that were made. Nothing is said of others.
    Unsettled(Refusal),
}

/// What is said of a program, and of what: nobody has to trust how these were made.
pub struct Judged<A: Allocator = Global> {
    pub verdict: Verdict,
    /// A note for each place from `FIRST` on, if code is there.
    pub notes: Vec<Option<Note>, A>,
    /// For each place, how many bytes the instruction has from which alone it is come to, or 0.
    /// There are none where the program is refused.
    pub ways: Vec<u8, A>,
    /// Where the tables are that it offers, and the words that it puts.
    pub tables: Vec<u16, A>,
    pub words: Vec<u16, A>,
}

// Returns what is to be said of a program that is accepted with these notes.
fn say<B: Allocator>(
    rom: &[u8],
    vectors: &Rom<B>,
    notes: &[Option<Note>],
    ways: &[u8],
    tables: &[u16],
    words: &[u16],
    start: u32,
) -> Verdict {
    match brings_gap(rom, notes, ways, tables, words, start) {
        Some(why) => return Verdict::Unseen(start, why),
        None => {}
    }
    match bad_table(rom, vectors, tables) {
        Some(t) => return Verdict::Unseen(start, Unseen::Table(t)),
        None => {}
    }
    match bad_word(words, vectors) {
        Some(word) => return Verdict::Unseen(start, Unseen::Word(word)),
        None => {}
    }
    Verdict::Keeps(start)
}

// Returns a verdict of which there are no lists.
fn unlisted<A: Allocator + Copy>(
    alloc: A,
    verdict: Verdict,
    notes: Vec<Option<Note>, A>,
) -> Judged<A> {
    Judged {
        verdict,
        notes,
        ways: Vec::new(alloc),
        tables: Vec::new(alloc),
        words: Vec::new(alloc),
    }
}

// Returns what is to be said of a program that isn't accepted with the notes that were made.
fn refuse(rom: &[u8], notes: &[Option<Note>], start: u32, why: Refusal) -> Verdict {
    if is_forced(rom, notes, start) {
        Verdict::Refused(why)
    } else {
        Verdict::Unsettled(why)
    }
}

/// Returns what is to be said of a program, with the vector ROM of its shapes.
pub fn judge<A: Allocator + Copy, B: Allocator>(
    alloc: A,
    rom: &[u8],
    vectors: &Rom<B>,
) -> Result<Judged<A>, AllocError> {
    let start = match check_start(rom) {
        Ok(start) => start,
        Err(why) => return Ok(unlisted(alloc, Verdict::Refused(why), unnoted(alloc)?)),
    };
    let notes = make(alloc, rom, start)?;
    let all = notes.as_slice();
    match check_notes(rom, all, start) {
        Some(why) => {
            let verdict = refuse(rom, all, start, why);
            Ok(unlisted(alloc, verdict, notes))
        }
        None => {
            let ways = ways(alloc, rom, all, start)?;
            let found = ways.as_slice();
            let tables = brought_to(alloc, rom, all, found, 0x68FE)?;
            let words = brought_to(alloc, rom, all, found, 0x6957)?;
            let (offered, put) = (tables.as_slice(), words.as_slice());
            let verdict = say(rom, vectors, all, found, offered, put, start);
            Ok(Judged {
                verdict,
                notes,
                ways,
                tables,
                words,
            })
        }
    }
}
}
mod kind {
//! The kinds of the 6502's instructions.
use Kind::{
    Branch, Call, Finish, Jump, Pull, PullFlags, Push, PushFlags, Quiet, Reads, Return, Stores,
    Transfer, Wild,
};
use Operand::{Absolute, AbsoluteIndexed, ZeroPage, ZeroPageIndexed};
use Register::{A, X, Y};
use Sets::{Nothing, Only};

/// A register.
#[derive(Clone, Copy, Debug, PartialEq, Eq, Hash)]
pub enum Register {
    A,
    X,
    Y,
}

/// Which byte is read or written: zp, zp,X or zp,Y, abs, abs,X or abs,Y.
#[derive(Clone, Copy, Debug, PartialEq, Eq, Hash)]
pub enum Operand {
    ZeroPage,
    ZeroPageIndexed,
    Absolute,
    AbsoluteIndexed,
}

/// Which register is set.
#[derive(Clone, Copy, Debug, PartialEq, Eq, Hash)]
pub enum Sets {
    Nothing,
    Only(Register),
}

/// What an instruction does to PC, S, A, X, Y and memory, whatever it computes and reads.
#[derive(Clone, Copy, Debug, PartialEq, Eq, Hash)]
pub enum Kind {
    /// It has this many bytes, sets flags and this register, and reads in the zero page, through a
    /// pointer, or nothing.
    Quiet(Sets, u8),
    /// The same, and it reads this byte.
    Reads(Sets, Operand),
    /// TAX, TXA, TAY, TYA.
    Transfer(Register, Register),
    /// It writes one byte.
    Stores(Operand),
    Push,
    PushFlags,
    Pull,
    PullFlags,
    Branch,
    Jump,
    Call,
    Return,
    Finish,
    /// It may go anywhere, or write anywhere.
    Wild,
}

/// A letter for the kind of each opcode, 32 to a line.
const KINDS: &[u8; 256] = b"\
    .a...az.FaA..ls.ba...aw.QL...Lv.\
    ca..qaz.HaA.ols.ba...aw.QL...Lv.\
    ta...az.PaA.jls.ba...aw.QL...Lv.\
    ra...az.GaA..ls.ba...aw.QL...Lv.\
    ....zzz.Y.3.sss.b...www.4v...v..\
    yax.yax.2a1.nlm.ba..yax.QLX.NLM.\
    qq..qqz.YqX.oos.bq...qw.QO...Ov.\
    qa..qaz.XaQ.ols.ba...aw.QL...Lv.";

// Returns the kind of a letter.
fn lettered(letter: u8) -> Kind {
    match letter {
        b'a' => Quiet(Only(A), 2),
        b'x' => Quiet(Only(X), 2),
        b'y' => Quiet(Only(Y), 2),
        b'q' => Quiet(Nothing, 2),
        b'A' => Quiet(Only(A), 1),
        b'X' => Quiet(Only(X), 1),
        b'Y' => Quiet(Only(Y), 1),
        b'Q' => Quiet(Nothing, 1),
        b'l' => Reads(Only(A), Absolute),
        b'm' => Reads(Only(X), Absolute),
        b'n' => Reads(Only(Y), Absolute),
        b'o' => Reads(Nothing, Absolute),
        b'L' => Reads(Only(A), AbsoluteIndexed),
        b'M' => Reads(Only(X), AbsoluteIndexed),
        b'N' => Reads(Only(Y), AbsoluteIndexed),
        b'O' => Reads(Nothing, AbsoluteIndexed),
        b'z' => Stores(ZeroPage),
        b'w' => Stores(ZeroPageIndexed),
        b's' => Stores(Absolute),
        b'v' => Stores(AbsoluteIndexed),
        b'1' => Transfer(A, X),
        b'2' => Transfer(A, Y),
        b'3' => Transfer(X, A),
        b'4' => Transfer(Y, A),
        b'P' => Push,
        b'F' => PushFlags,
        b'G' => Pull,
        b'H' => PullFlags,
        b'b' => Branch,
        b'j' => Jump,
        b'c' => Call,
        b'r' => Return,
        b't' => Finish,
        _ => Wild,
    }
}

// Returns the letter of an opcode.
fn letter_of(opcode: u8) -> u8 {
    KINDS[usize::from(opcode)]
}

/// Returns the kind of an opcode.
pub fn kind_of(opcode: u8) -> Kind {
    lettered(letter_of(opcode))
}

/// Returns how many bytes an instruction has that reads or writes this byte.
pub fn size(place: Operand) -> u8 {
    match place {
        ZeroPage | ZeroPageIndexed => 2,
        Absolute | AbsoluteIndexed => 3,
    }
}
}
mod known {
//! What a program brings at its calls of the driver.
use crate::follow::{FIRST, PLACES};
use crate::kind::{Kind, Sets, kind_of, size};
use crate::note::Note;
use crate::rules::{byte_at, is_driver, target, word_at};

/// What a byte is known to be.
#[derive(Clone, Copy, Debug)]
pub enum Known {
    Any,
    Is(u8),
    Under(u16),
    /// What is in the ROM's list at this address, by Y.
    Listed(u16),
    /// The same, with these bits set.
    Masked(u16, u8),
}

/// What A and X hold; what Y is below; and below what it is where C is clear.
#[derive(Clone, Copy, Debug)]
pub struct Fact {
    pub a: Known,
    pub x: Known,
    pub most: u16,
    pub less: u16,
}

const NOTHING: Fact = Fact {
    a: Known::Any,
    x: Known::Any,
    most: 256,
    less: 256,
};

fn with_bits(mask: u8, known: Known) -> Known {
    match known {
        Known::Any | Known::Under(_) => Known::Any,
        Known::Is(n) => Known::Is(n | mask),
        Known::Listed(base) => Known::Masked(base, mask),
        Known::Masked(base, old) => Known::Masked(base, old | mask),
    }
}

fn listed(base: u16, most: u16) -> Known {
    if 0x4800 <= base && u32::from(base) + u32::from(most) <= 0x8000 {
        Known::Listed(base)
    } else {
        Known::Any
    }
}

fn fixed(known: Known) -> Known {
    match known {
        Known::Is(n) => Known::Is(n),
        _ => Known::Any,
    }
}

fn bound(known: Known) -> u16 {
    match known {
        Known::Is(n) => u16::from(n) + 1,
        Known::Under(n) => n,
        _ => 256,
    }
}

fn kept_by(kind: Kind, f: Fact) -> Fact {
    match kind {
        Kind::Quiet(Sets::Nothing, _)
        | Kind::Reads(Sets::Nothing, _)
        | Kind::Stores(_)
        | Kind::Branch => Fact {
            a: f.a,
            x: f.x,
            most: f.most,
            less: 256,
        },
        _ => NOTHING,
    }
}

// Returns what is known behind an instruction with these bytes, where `f` is known before it.
fn next(op: u8, low: u8, word: u16, kind: Kind, f: Fact) -> Fact {
    if op == 0xA9 {
        Fact {
            a: Known::Is(low),
            x: f.x,
            most: f.most,
            less: 256,
        }
    } else if op == 0xA2 {
        Fact {
            a: f.a,
            x: Known::Is(low),
            most: f.most,
            less: 256,
        }
    } else if op == 0xB9 {
        Fact {
            a: listed(word, f.most),
            x: f.x,
            most: f.most,
            less: 256,
        }
    } else if op == 0xBE {
        Fact {
            a: f.a,
            x: listed(word, f.most),
            most: f.most,
            less: 256,
        }
    } else if op == 0x09 {
        Fact {
            a: with_bits(low, f.a),
            x: f.x,
            most: f.most,
            less: 256,
        }
    } else if op == 0x29 {
        Fact {
            a: Known::Under(u16::from(low) + 1),
            x: f.x,
            most: f.most,
            less: 256,
        }
    } else if op == 0xA8 {
        Fact {
            a: fixed(f.a),
            x: fixed(f.x),
            most: bound(f.a),
            less: 256,
        }
    } else if op == 0xAA {
        Fact {
            a: f.a,
            x: f.a,
            most: f.most,
            less: 256,
        }
    } else if op == 0x8A {
        Fact {
            a: f.x,
            x: f.x,
            most: f.most,
            less: 256,
        }
    } else if op == 0xC0 {
        Fact {
            a: f.a,
            x: f.x,
            most: f.most,
            less: u16::from(low),
        }
    } else if op == 0xB0 {
        let most = if f.less <= f.most { f.less } else { f.most };
        Fact {
            a: f.a,
            x: f.x,
            most,
            less: 256,
        }
    } else {
        kept_by(kind, f)
    }
}

// Returns how many bytes the instruction has from which alone a place is come to, or 0.
fn way_at(ways: &[u8], at: u32) -> u8 {
    if at < FIRST || FIRST + PLACES <= at {
        return 0;
    }
    ways[(at - FIRST) as usize]
}

fn is_free(ways: &[u8], at: u32) -> bool {
    way_at(ways, at) == 0
}

fn passes_on(ways: &[u8], at: u32, bytes: u8) -> bool {
    let to = at + u32::from(bytes);
    is_free(ways, to) || (way_at(ways, to) == bytes && !(bytes == 0))
}

// Returns whether each place that an instruction leads to is come to as the notes say.
fn flows(ways: &[u8], at: u32, kind: Kind, low: u8, word: u16) -> bool {
    match kind {
        Kind::Quiet(_, bytes) => passes_on(ways, at, bytes),
        Kind::Reads(_, place) | Kind::Stores(place) => passes_on(ways, at, size(place)),
        Kind::Transfer(_, _) | Kind::Push | Kind::PushFlags | Kind::Pull | Kind::PullFlags => {
            passes_on(ways, at, 1)
        }
        Kind::Branch => is_free(ways, target(at, low)) && passes_on(ways, at, 2),
        Kind::Jump => is_driver(word) || is_free(ways, u32::from(word)),
        Kind::Call => {
            is_free(ways, at + 3) && (is_driver(word) || is_free(ways, u32::from(word)))
        }
        Kind::Return | Kind::Finish => true,
        Kind::Wild => false,
    }
}

// Returns what is known at a place, by so many instructions before it at most.
pub fn known_at(rom: &[u8], ways: &[u8], count: u32, at: u32) -> Fact {
    if count == 0 {
        return NOTHING;
    }
    let bytes = way_at(ways, at);
    if bytes == 0 {
        return NOTHING;
    }
    let before = at - u32::from(bytes);
    let old = known_at(rom, ways, count - 1, before);
    let op = byte_at(rom, before);
    let low = byte_at(rom, before + 1);
    let word = word_at(rom, before + 1);
    next(op, low, word, kind_of(op), old)
}

// Returns what a byte is where Y is this, if that is known and in the program.
#[must_use]
pub fn value(rom: &[u8], known: Known, y: u16) -> Option<u8> {
    match known {
        Known::Any | Known::Under(_) => None,
        Known::Is(n) => Some(n),
        Known::Listed(base) => {
            let at = u32::from(base) + u32::from(y);
            if at < 0x6800 || 0x8000 <= at {
                return None;
            }
            Some(byte_at(rom, at))
        }
        Known::Masked(base, mask) => {
            let at = u32::from(base) + u32::from(y);
            if at < 0x6800 || 0x8000 <= at {
                return None;
            }
            Some(byte_at(rom, at) | mask)
        }
    }
}

// Returns whether a list has a number.
pub fn contains(list: &[u16], n: u16) -> bool {
    for i in 0..list.len() {
        if list[i] == n {
            return true;
        }
    }
    false
}

/// Why what an instruction brings isn't seen to be in the lists.
#[derive(Clone, Copy, Debug, PartialEq, Eq, Hash)]
pub enum Gap {
    /// Where it leads, a place is come to otherwise than is noted.
    Ways,
    /// It calls `dvg_pair`.
    Pair,
    /// A or X may be anything.
    Unknown,
    /// A or X is in a list that isn't all in the program's bytes, or no Y is known for it.
    Outside,
    /// This word, which A and X may be, isn't in the list.
    Missing(u16),
}

// Returns whether it is known what a byte is, for each Y.
fn is_known(known: Known) -> bool {
    match known {
        Known::Any | Known::Under(_) => false,
        Known::Is(_) | Known::Listed(_) | Known::Masked(_, _) => true,
    }
}

// Returns why a list isn't seen to have each word that A and X may be.
fn pairs_gap(rom: &[u8], list: &[u16], fact: Fact) -> Option<Gap> {
    if !is_known(fact.a) {
        return Some(Gap::Unknown);
    }
    if !is_known(fact.x) {
        return Some(Gap::Unknown);
    }
    for y in 0..fact.most {
        let (Some(a), Some(x)) = (value(rom, fact.a, y), value(rom, fact.x, y)) else {
            return Some(Gap::Outside);
        };
        let word = u16::from(a) + 256 * u16::from(x);
        if !contains(list, word) {
            return Some(Gap::Missing(word));
        }
    }
    if fact.most == 0 {
        return Some(Gap::Outside);
    }
    None
}

// Returns why what is brought to a routine of the driver isn't seen to be in these lists.
fn brought_gap(rom: &[u8], tables: &[u16], words: &[u16], fact: Fact, to: u16) -> Option<Gap> {
    if to == 0x68FE {
        pairs_gap(rom, tables, fact)
    } else if to == 0x6957 {
        pairs_gap(rom, words, fact)
    } else if to == 0x6989 {
        Some(Gap::Pair)
    } else {
        None
    }
}

/// How many instructions are looked back at, at most.
pub const FAR: u32 = 12;

fn is_leap(kind: Kind) -> bool {
    match kind {
        Kind::Jump | Kind::Call => true,
        _ => false,
    }
}

// Returns why what an instruction brings isn't seen to be in these lists, or its ways aren't as
// noted.
fn gap_there(rom: &[u8], ways: &[u8], tables: &[u16], words: &[u16], at: u32) -> Option<Gap> {
    let kind = kind_of(byte_at(rom, at));
    let low = byte_at(rom, at + 1);
    let word = word_at(rom, at + 1);
    if !flows(ways, at, kind, low, word) {
        return Some(Gap::Ways);
    }
    if !is_leap(kind) {
        return None;
    }
    let fact = known_at(rom, ways, FAR, at);
    brought_gap(rom, tables, words, fact, word)
}

fn place_gap(
    rom: &[u8],
    notes: &[Option<Note>],
    ways: &[u8],
    tables: &[u16],
    words: &[u16],
    at: u32,
) -> Option<Gap> {
    match &notes[(at - FIRST) as usize] {
        None => None,
        Some(_) => gap_there(rom, ways, tables, words, at),
    }
}

/// Why not all that a program brings is seen, and accepted.
#[derive(Clone, Copy, Debug, PartialEq, Eq, Hash)]
pub enum Unseen {
    /// Its first instruction is noted to be come to from another one alone.
    Start,
    /// What the instruction at this address brings isn't seen to be in the lists.
    At(u32, Gap),
    /// At this address, which is in the list of tables, none is seen that the check accepts.
    Table(u16),
    /// This word, which is in the list of words, isn't seen to be one that may be put.
    Word(u16),
}

/// Returns why not all that a program brings is seen to be in these lists. Where it is, the program
/// calls no `dvg_pair`.
#[must_use]
pub fn brings_gap(
    rom: &[u8],
    notes: &[Option<Note>],
    ways: &[u8],
    tables: &[u16],
    words: &[u16],
    start: u32,
) -> Option<Unseen> {
    for i in 0..PLACES {
        match place_gap(rom, notes, ways, tables, words, FIRST + i) {
            Some(gap) => return Some(Unseen::At(FIRST + i, gap)),
            None => {}
        }
    }
    if !is_free(ways, start) {
        return Some(Unseen::Start);
    }
    None
}
}
mod maker {
//! Makes notes of a program.
use std::prelude::*;

use crate::follow::{FIRST, PLACES, same_level};
use crate::kind::kind_of;
use crate::note::{Level, Note};
use crate::rules::{byte_at, word_at};
use crate::state::{State, after, at_nmi, at_start, is_same, joined, note_of, state_at};
use crate::step::{Needs, Onward, needs_of, step_at};
use crate::work::{Callers, Todo, Work, length_of};
use std::alloc::{AllocError, Allocator};

/// One more byte than the program may push, and one more instruction than the NMI may do.
const TOO_MUCH_ROOM: u16 = 224;

const TOO_MUCH_FUEL: u16 = 801;

// Puts what is found of a place.
fn put(states: &mut [Option<State>], at: u32, state: State) {
    states[(at - FIRST) as usize] = Some(state);
}

// Returns a state of which no needs are known.
fn begun(state: State) -> State {
    let mut new = state;
    new.room = 0;
    new.fuel = 0;
    new.ends = false;
    new
}

// Returns a state that has these needs, too.
fn raised(state: State, needs: Needs) -> State {
    let mut new = state;
    new.room = state.room.max(needs.room.min(TOO_MUCH_ROOM));
    if same_level(state.level, Level::Nmi) {
        new.fuel = state.fuel.max(needs.fuel.min(TOO_MUCH_FUEL));
    }
    new.ends = state.ends || needs.ends;
    new
}

// Returns what is found of a place where one more way leads, unless nothing changes.
fn met(old: Option<State>, new: State) -> Option<State> {
    let Some(known) = old else {
        return Some(begun(new));
    };
    if !same_level(known.level, new.level) || known.depth != new.depth {
        return None;
    }
    let both = joined(known, new);
    if is_same(known, both) {
        return None;
    }
    Some(both)
}

// A way leads to a place, with this known.
fn go<A: Allocator + Copy>(states: &mut [Option<State>], todo: &mut Todo<A>, to: u32, new: State) {
    if to < FIRST || FIRST + PLACES <= to {
        return;
    }
    let Some(found) = met(state_at(states, to), new) else {
        return;
    };
    put(states, to, found);
    todo.ahead.push(to);
    todo.back.push(to);
}

// An instruction goes on there, with this found of it.
fn go_on<A: Allocator + Copy>(
    states: &mut [Option<State>],
    todo: &mut Todo<A>,
    state: State,
    onward: Option<Onward>,
) {
    let Some(one) = onward else {
        return;
    };
    go(states, todo, one.to, after(state, one.change));
}

// Raises what a place needs; whether anything changed.
fn raise(states: &mut [Option<State>], at: u32, needs: Needs) -> bool {
    let Some(old) = state_at(states, at) else {
        return false;
    };
    let new = raised(old, needs);
    if new.room == old.room && new.fuel == old.fuel && new.ends == old.ends {
        return false;
    }
    put(states, at, new);
    true
}

// Puts a place into the work if anything is found of it.
fn wake_at<A: Allocator + Copy>(states: &[Option<State>], work: &mut Work<A>, at: u32) {
    if state_at(states, at).is_some() {
        work.push(at);
    }
}

// Has the needs of those counted again that lead to a place, and the ways of those that call it
// followed.
fn wake<A: Allocator + Copy>(
    rom: &[u8],
    states: &[Option<State>],
    callers: &Callers<A>,
    todo: &mut Todo<A>,
    at: u32,
) {
    if at < FIRST || FIRST + PLACES <= at {
        return;
    }
    for back in 1..4u32 {
        if length_of(kind_of(byte_at(rom, at - back))) == back {
            wake_at(states, &mut todo.back, at - back);
        }
    }
    let mut from = callers.first_of(at);
    for _ in 0..PLACES {
        if from == 0 {
            break;
        }
        wake_at(states, &mut todo.back, from);
        wake_at(states, &mut todo.ahead, from);
        from = callers.next_of(from);
    }
}

// Follows the ways of the instruction at a place.
fn follow<A: Allocator + Copy>(
    rom: &[u8],
    states: &mut [Option<State>],
    todo: &mut Todo<A>,
    at: u32,
) {
    if at < FIRST || FIRST + PLACES <= at {
        return;
    }
    let Some(state) = state_at(states, at) else {
        return;
    };
    let step = step_at(rom, states, at, state);
    go_on(states, todo, state, step.next);
    go_on(states, todo, state, step.to);
}

// Counts what the instruction at a place needs; whether that is more than was known.
fn count(rom: &[u8], states: &mut [Option<State>], at: u32) -> bool {
    if at < FIRST || FIRST + PLACES <= at {
        return false;
    }
    let Some(state) = state_at(states, at) else {
        return false;
    };
    let step = step_at(rom, states, at, state);
    let needs = needs_of(states, step);
    raise(states, at, needs)
}

// Does what is to be done next; whether there was anything.
fn work_on<A: Allocator + Copy>(
    rom: &[u8],
    states: &mut [Option<State>],
    callers: &Callers<A>,
    todo: &mut Todo<A>,
) -> bool {
    if let Some(at) = todo.ahead.pop() {
        follow(rom, states, todo, at);
        return true;
    }
    let Some(at) = todo.back.pop() else {
        return false;
    };
    if count(rom, states, at) {
        wake(rom, states, callers, todo, at);
    }
    true
}

// Returns that nothing is found of any place.
fn nothing_found<A: Allocator>(alloc: A) -> Result<Vec<Option<State>, A>, AllocError> {
    let mut states = Vec::new(alloc);
    for _ in 0..PLACES {
        states.push(None)?;
    }
    Ok(states)
}

/// Returns no note for each place.
pub fn unnoted<A: Allocator>(alloc: A) -> Result<Vec<Option<Note>, A>, AllocError> {
    let mut notes = Vec::new(alloc);
    for _ in 0..PLACES {
        notes.push(None)?;
    }
    Ok(notes)
}

// Returns the note of a place, if anything is found of it.
fn noted_of(found: Option<State>) -> Option<Note> {
    match found {
        Some(state) => Some(note_of(state)),
        None => None,
    }
}

// Returns the notes of all places.
fn notes_of<A: Allocator>(
    alloc: A,
    states: &[Option<State>],
) -> Result<Vec<Option<Note>, A>, AllocError> {
    let mut notes = Vec::new(alloc);
    for i in 0..PLACES {
        notes.push(noted_of(states[i as usize]))?;
    }
    Ok(notes)
}

// Finds all that comes from the start and from the NMI's vector, and returns the notes of it.
fn find_all<A: Allocator + Copy>(
    alloc: A,
    rom: &[u8],
    start: u32,
    states: &mut [Option<State>],
    callers: &Callers<A>,
    todo: &mut Todo<A>,
) -> Result<Vec<Option<Note>, A>, AllocError> {
    let nmi = u32::from(word_at(rom, 0x7FFA));
    go(states, todo, nmi, at_nmi());
    go(states, todo, start, at_start());
    for _ in 0..u64::MAX {
        if !work_on(rom, states, callers, todo) {
            break;
        }
    }
    notes_of(alloc, states)
}

/// Returns notes of a program that starts at `start`: they say no more than any that are accepted.
pub fn make<A: Allocator + Copy>(
    alloc: A,
    rom: &[u8],
    start: u32,
) -> Result<Vec<Option<Note>, A>, AllocError> {
    let callers = Callers::of(alloc, rom)?;
    let mut todo = Todo::new(alloc)?;
    let mut states = nothing_found(alloc)?;
    find_all(alloc, rom, start, &mut states, &callers, &mut todo)
}
}
mod note {
//! Notes of what holds at an instruction.
use crate::kind::Register;
use arrayvec::ArrayVec;

/// How many bytes of the stack a note knows of.
pub const SLOTS: usize = 32;

/// Code of the program, of a subroutine, and of the NMI.
#[derive(Clone, Copy, Debug)]
pub enum Level {
    Main,
    Sub,
    Nmi,
}

/// What a byte is known to be: anything, or what A, X or Y was where the NMI came.
#[derive(Clone, Copy, Debug, PartialEq, Eq, Hash)]
pub enum Slot {
    Any,
    Was(Register),
}

impl Default for Slot {
    fn default() -> Slot {
        Slot::Any
    }
}

/// What A, X and Y hold.
#[derive(Clone, Copy, Debug, PartialEq, Eq, Hash)]
pub struct Held {
    pub a: Slot,
    pub x: Slot,
    pub y: Slot,
}

/// What holds at an instruction.
#[derive(Clone, Debug)]
pub struct Note {
    pub level: Level,
    /// How many bytes were pushed since the level began.
    pub depth: u16,
    /// What A, X and Y hold, and the bytes that were pushed last, the newest first.
    pub held: Held,
    pub slots: ArrayVec<Slot, SLOTS>,
    /// How many bytes it may still push, with all that it calls.
    pub room: u16,
    /// How many instructions the NMI may still do.
    pub fuel: u16,
    /// `dvg_reset` was called.
    pub awake: bool,
    /// A frame may be blank, here and where it returns.
    pub blank: bool,
    pub ends: bool,
}

/// What an instruction changes of what holds.
#[derive(Clone, Copy)]
pub enum Change {
    Same,
    /// What A, X and Y hold.
    Holds(Held),
    /// Whether `dvg_reset` was called.
    Leaves(bool),
    /// It pushes this byte.
    Pushes(Slot),
    /// It pulls a byte, and A, X and Y hold this.
    Pulls(Held),
    /// A call returns, and the driver is awake, and a frame blank, or not.
    Returns(bool, bool),
    /// A subroutine begins. Whether a frame may be blank where it returns.
    Begins(bool),
}
}
mod offered {
//! The check of the tables that a program offers, and of the words that it puts.
use crate::rules::{byte_at, word_at};
use dvg_code::{Code, Instr, decode};
use dvg_frame::{Draft, Frame, Op, OpKind, check};
use dvg_mem::{Half, Rom};
use std::alloc::Allocator;

// Returns whether a number of a sign and two bits has no sign if it is zero.
fn is_plain(sign: u16, n: u16) -> bool {
    sign == 0 || !(n == 0)
}

// Returns whether these are the bytes of a short vector in its canonical spelling.
fn is_short(a: u16, x: u16) -> bool {
    (0xF0 <= x && x < 0x100) && (is_plain(a / 4 % 2, a % 4) && is_plain(x / 4 % 2, x % 4))
}

// Returns the draft that calls a shape.
fn calls_one(shape: u16) -> Option<Draft> {
    let mut draft = Draft::new();
    let labs = Code::new(Instr::Labs {
        x: 0,
        y: 0,
        scale: 0,
    })?;
    let first = Op::new(OpKind::Draw(labs))?;
    let second = Op::new(OpKind::CallRom(shape))?;
    let third = Op::new(OpKind::Halt)?;
    if draft.push(first).is_err() || draft.push(second).is_err() || draft.push(third).is_err() {
        return None;
    }
    Some(draft)
}

// Returns whether the check accepts a draft.
fn is_accepted<A: Allocator>(draft: &Draft, rom: &Rom<A>) -> bool {
    match check(draft, rom) {
        Ok(_) => true,
        Err(_) => false,
    }
}

// Returns whether a shape may be called.
fn shape_fine<A: Allocator>(shape: u16, rom: &Rom<A>) -> bool {
    match calls_one(shape) {
        Some(draft) => is_accepted(&draft, rom),
        None => false,
    }
}

// Returns whether a word may be put.
fn word_fine<A: Allocator>(word: u16, rom: &Rom<A>) -> bool {
    let (a, x) = (word % 256, word / 256);
    if is_short(a, x) {
        return true;
    }
    if x < 0xC0 || 0xD0 <= x {
        return false;
    }
    shape_fine(a + 256 * (x - 0xC0), rom)
}

/// Returns the first of these words that isn't seen to be one that may be put.
#[must_use]
pub fn bad_word<A: Allocator>(words: &[u16], rom: &Rom<A>) -> Option<u16> {
    for i in 0..words.len() {
        if !word_fine(words[i], rom) {
            return Some(words[i]);
        }
    }
    None
}

// Returns a byte of the program, or 0.
fn byte_or_zero(rom: &[u8], a: u32) -> u8 {
    match rom.get(a.wrapping_sub(0x6800) as usize) {
        Some(byte) => *byte,
        None => 0,
    }
}

fn word_or_zero(rom: &[u8], a: u32) -> u16 {
    u16::from(byte_or_zero(rom, a)) + 256 * u16::from(byte_or_zero(rom, a.wrapping_add(1)))
}

// Returns the draft whose table of so many words seems to be at an address. Nothing is promised of
// it.
fn read_draft(rom: &[u8], t: u32, count: u16) -> Option<Draft> {
    let mut numbers = [0xFFFFu16; 512];
    let mut i: u32 = 0;
    for n in 0..count {
        if i < 512 {
            numbers[i as usize] = n;
        }
        let word = word_or_zero(rom, t.wrapping_add(2).wrapping_add(i.wrapping_mul(2)));
        i = i.wrapping_add(if word < 0xB000 { 2 } else { 1 });
    }
    let mut draft = Draft::new();
    let mut i: u32 = 0;
    for _ in 0..count {
        if u32::from(count) <= i {
            break;
        }
        let at = t.wrapping_add(2).wrapping_add(i.wrapping_mul(2));
        let words = [word_or_zero(rom, at), word_or_zero(rom, at.wrapping_add(2))];
        let Ok((code, len)) = decode(&words) else {
            return None;
        };
        let kind = match code.instr() {
            Instr::Halt => OpKind::Halt,
            Instr::Rtsl => OpKind::Return,
            Instr::Jsrl(a) => match number_of(&numbers, a) {
                Some(number) => OpKind::Call(number),
                None => OpKind::CallRom(a),
            },
            Instr::Jmpl(a) => match number_of(&numbers, a) {
                Some(number) => OpKind::Jump(number),
                None => OpKind::JumpRom(a),
            },
            _ => OpKind::Draw(code),
        };
        let op = Op::new(kind)?;
        if draft.push(op).is_err() {
            return None;
        }
        i = i.wrapping_add(if len == 2 { 2 } else { 1 });
    }
    Some(draft)
}

// Returns the number of the operation at a word address of half 0, or `None` for one of the ROM.
fn number_of(numbers: &[u16], a: u16) -> Option<u16> {
    if 0x400 <= a {
        return None;
    }
    match numbers.get(usize::from(a).wrapping_sub(1)) {
        Some(number) => Some(*number),
        None => Some(0xFFFF),
    }
}

// Returns whether an operation names no place of the ROM below 400.
fn names_high(kind: OpKind) -> bool {
    match kind {
        OpKind::CallRom(a) | OpKind::JumpRom(a) => 0x400 <= a,
        _ => true,
    }
}

// Returns whether no operation of a draft does.
fn names_rom(draft: &Draft) -> bool {
    for i in 0..draft.len() {
        let kind = draft.op(i).kind();
        if !names_high(kind) {
            return false;
        }
    }
    true
}

// Returns whether the bytes of a frame's table are at an address.
fn bytes_there(rom: &[u8], at: u32, frame: &Frame) -> bool {
    for k in 0..2 * frame.len_words() {
        if frame.byte(Half::H0, k) != byte_at(rom, at + u32::from(k)) {
            return false;
        }
    }
    true
}

// Returns whether a draft is accepted, and its table of so many words is at an address.
fn is_laid<A: Allocator>(draft: &Draft, vectors: &Rom<A>, rom: &[u8], t: u32, count: u16) -> bool {
    if !names_rom(draft) {
        return false;
    }
    match check(draft, vectors) {
        Err(_) => false,
        Ok(frame) => {
            if frame.len_words() != count {
                return false;
            }
            bytes_there(rom, t + 2, &frame)
        }
    }
}

// Returns whether the table of an accepted draft is at an address.
fn table_fine<A: Allocator>(rom: &[u8], vectors: &Rom<A>, t: u32) -> bool {
    if t < 0x6800 || 0x7FFC < t {
        return false;
    }
    let count = word_at(rom, t);
    if count == 0 || 511 < count || 0x8000 < t + 2 + 2 * u32::from(count) {
        return false;
    }
    match read_draft(rom, t, count) {
        None => false,
        Some(draft) => is_laid(&draft, vectors, rom, t, count),
    }
}

/// Returns the first of these addresses at which no table of an accepted draft is seen.
#[must_use]
pub fn bad_table<A: Allocator>(rom: &[u8], vectors: &Rom<A>, tables: &[u16]) -> Option<u16> {
    for i in 0..tables.len() {
        if !table_fine(rom, vectors, u32::from(tables[i])) {
            return Some(tables[i]);
        }
    }
    None
}
}
mod program {
//! The check of a program, with notes of it.
use crate::follow::{FIRST, PLACES, all_serve, same_level, serve};
use crate::kind::kind_of;
use crate::note::{Level, Note};
use crate::rules::{UNCHANGED, byte_at, bytes_of, fine, may_boot, word_at};

/// LDX #$FF, TXS.
const STACK_SETTING: &[u8; 3] = &[0xA2, 0xFF, 0x9A];

/// Why a program is refused.
#[derive(Clone, Copy, Debug, PartialEq, Eq, Hash)]
pub enum Refusal {
    /// The reset doesn't come to LDX #$FF and TXS, because of what is at this address.
    Boot(u32),
    /// The driver's code isn't at its place.
    Driver,
    /// The note of the first instruction, or that of the NMI's, isn't what it has to be.
    Start,
    Nmi,
    /// The instruction at this address breaks a rule.
    At(u32),
}

// Returns whether the note of the first instruction is fine.
fn starts_fine(notes: &[Option<Note>], start: u32) -> bool {
    if start < FIRST || FIRST + PLACES <= start {
        return false;
    }
    match &notes[(start - FIRST) as usize] {
        None => false,
        Some(now) => {
            same_level(now.level, Level::Main)
                && (now.depth == 0 && (u32::from(now.room) + 32 <= 255 && !now.awake))
        }
    }
}

// Returns whether the note of the NMI's first instruction is fine.
fn interrupts_fine(notes: &[Option<Note>], nmi: u32) -> bool {
    if nmi < FIRST || FIRST + PLACES <= nmi {
        return false;
    }
    match &notes[(nmi - FIRST) as usize] {
        None => false,
        Some(now) => {
            same_level(now.level, Level::Nmi)
                && (now.depth == 0
                    && (u32::from(now.room) + 3 <= 32
                        && (now.fuel <= 800
                            && (!now.awake
                                && (all_serve(now.held, UNCHANGED)
                                    && serve(now.slots.as_slice(), &[]))))))
        }
    }
}

// Returns whether what is at a place is fine.
pub fn fine_place(rom: &[u8], notes: &[Option<Note>], at: u32) -> bool {
    match &notes[(at - FIRST) as usize] {
        None => true,
        Some(now) => fine(rom, notes, at, now),
    }
}

// Returns the first address at which something isn't fine, if there is one.
fn first_bad(rom: &[u8], notes: &[Option<Note>]) -> Option<u32> {
    for i in 0..PLACES {
        if !fine_place(rom, notes, FIRST + i) {
            return Some(FIRST + i);
        }
    }
    None
}

/// Returns whether these bytes are at an address of the program.
pub fn stands(rom: &[u8], at: u32, bytes: &[u8]) -> bool {
    for i in 0..bytes.len() {
        if byte_at(rom, at + i as u32) != bytes[i] {
            return false;
        }
    }
    true
}

/// Returns where a program starts, after its reset's LDX #$FF and TXS, or where what isn't allowed
/// before these is.
pub fn boot(rom: &[u8]) -> Result<u32, u32> {
    let mut at = u32::from(word_at(rom, 0x7FFC));
    for _k in 0..32u32 {
        if at < FIRST || FIRST + PLACES <= at {
            return Err(at);
        }
        if stands(rom, at, STACK_SETTING) {
            return Ok(at + 3);
        }
        let kind = kind_of(byte_at(rom, at));
        if !may_boot(kind, byte_at(rom, at + 1), word_at(rom, at + 1)) {
            return Err(at);
        }
        at += u32::from(bytes_of(kind));
    }
    Err(at)
}

/// The driver's code, from 6800 on.
const DRIVER: &[u8; 647] = &[
    0xA9, 0x00, 0x85, 0x10, 0xA9, 0x03, 0x85, 0x12, 0x60, 0xA5, 0x10, 0x30, 0x0F, 0xC9, 0x02, 0xF0,
    0x0A, 0xC9, 0x07, 0xF0, 0x06, 0x20, 0x6A, 0x68, 0x4C, 0x09, 0x68, 0x60, 0xA4, 0x13, 0x98, 0x4A,
    0xB0, 0xF3, 0xB1, 0x19, 0x91, 0x14, 0xC8, 0xB1, 0x19, 0x06, 0x18, 0xB0, 0x0C, 0xC9, 0xB0, 0x90,
    0x21, 0xAA, 0x29, 0xDC, 0xC9, 0xC0, 0xF0, 0x20, 0x8A, 0x91, 0x14, 0xC8, 0xD0, 0x06, 0xE6, 0x1A,
    0xE6, 0x15, 0xC6, 0x16, 0xC4, 0x17, 0xD0, 0xDA, 0xA5, 0x16, 0xD0, 0xD6, 0xA5, 0x12, 0x85, 0x10,
    0xD0, 0xC3, 0xA2, 0x80, 0x86, 0x18, 0xD0, 0xE1, 0xA5, 0x11, 0x29, 0x02, 0x11, 0x19, 0xD0, 0xD9,
    0x85, 0x1F, 0x20, 0x6A, 0x68, 0xC6, 0x1F, 0xD0, 0xF9, 0x60, 0xA6, 0x10, 0x30, 0x50, 0xF0, 0x1A,
    0xCA, 0xF0, 0x23, 0xCA, 0xF0, 0x13, 0xCA, 0xF0, 0x25, 0xCA, 0xF0, 0x2A, 0xCA, 0xF0, 0x37, 0xCA,
    0xD0, 0x07, 0xA9, 0x02, 0x85, 0x10, 0x8D, 0x00, 0x30, 0x60, 0xAD, 0x01, 0x40, 0x29, 0x02, 0x49,
    0xE2, 0x85, 0x11, 0xE6, 0x10, 0x60, 0x2C, 0x02, 0x20, 0x30, 0xEE, 0xE6, 0x10, 0x60, 0xA9, 0x01,
    0x8D, 0x00, 0x40, 0xE6, 0x10, 0x60, 0xA5, 0x11, 0x8D, 0x01, 0x40, 0x49, 0x02, 0x85, 0x11, 0xA9,
    0x04, 0x85, 0x12, 0xE6, 0x10, 0x60, 0x2C, 0x02, 0x20, 0x30, 0xCE, 0xE6, 0x10, 0x60, 0xA4, 0x13,
    0x98, 0x4A, 0xB1, 0x19, 0x90, 0x1E, 0x06, 0x18, 0xB0, 0x1A, 0xC9, 0xB0, 0x90, 0x0A, 0xAA, 0x29,
    0xDC, 0xC9, 0xC0, 0xF0, 0x09, 0x8A, 0xD0, 0x0C, 0xA2, 0x80, 0x86, 0x18, 0xD0, 0x06, 0xA5, 0x11,
    0x29, 0x02, 0x11, 0x19, 0x91, 0x14, 0xC8, 0x84, 0x13, 0xD0, 0x06, 0xE6, 0x1A, 0xE6, 0x15, 0xC6,
    0x16, 0xC4, 0x17, 0xD0, 0x08, 0xA5, 0x16, 0xD0, 0x04, 0xA5, 0x12, 0x85, 0x10, 0x60, 0xA4, 0x10,
    0xC0, 0x02, 0xD0, 0x51, 0x85, 0x19, 0x86, 0x1A, 0xA0, 0x01, 0xB1, 0x19, 0x85, 0x16, 0x88, 0xB1,
    0x19, 0x0A, 0x26, 0x16, 0x85, 0x17, 0xE6, 0x17, 0xE6, 0x17, 0xD0, 0x02, 0xE6, 0x16, 0x84, 0x18,
    0xA2, 0x80, 0xD0, 0x0C, 0xA4, 0x10, 0xC0, 0x02, 0xD0, 0x2B, 0xA0, 0x00, 0x84, 0x16, 0xA2, 0x07,
    0x84, 0x14, 0xA5, 0x11, 0x29, 0x02, 0x0A, 0x09, 0x40, 0x85, 0x15, 0xA0, 0x02, 0x84, 0x13, 0x86,
    0x10, 0x18, 0x60, 0xA5, 0x10, 0xC9, 0x02, 0xD0, 0x0C, 0xA5, 0x12, 0xC9, 0x04, 0xD0, 0x06, 0xA9,
    0x05, 0x85, 0x10, 0x18, 0x60, 0x38, 0x60, 0xA4, 0x10, 0xC0, 0x07, 0xD0, 0xF8, 0xA4, 0x16, 0xC0,
    0x03, 0xA4, 0x13, 0x90, 0x04, 0xC0, 0xFE, 0xB0, 0x0F, 0x91, 0x14, 0xC8, 0x8A, 0x91, 0x14, 0xC8,
    0x84, 0x13, 0xD0, 0x04, 0xE6, 0x15, 0xE6, 0x16, 0x60, 0x45, 0x1E, 0x29, 0xF0, 0x45, 0x1E, 0x85,
    0x1E, 0xA5, 0x1C, 0x29, 0x0F, 0x09, 0xA0, 0x85, 0x1C, 0xA4, 0x10, 0xC0, 0x07, 0xD0, 0x2F, 0xA4,
    0x16, 0xC0, 0x03, 0xA4, 0x13, 0x90, 0x04, 0xC0, 0xFC, 0xB0, 0xDD, 0xA5, 0x1B, 0x91, 0x14, 0xC8,
    0xA5, 0x1C, 0x91, 0x14, 0xC8, 0xD0, 0x04, 0xE6, 0x15, 0xE6, 0x16, 0xA5, 0x1D, 0x91, 0x14, 0xC8,
    0xA5, 0x1E, 0x91, 0x14, 0xC8, 0x84, 0x13, 0xD0, 0xBF, 0xE6, 0x15, 0xE6, 0x16, 0x60, 0x38, 0x60,
    0x84, 0x20, 0xA4, 0x10, 0xC0, 0x07, 0xD0, 0xF6, 0x85, 0x19, 0x86, 0x1A, 0xA5, 0x20, 0x18, 0x65,
    0x13, 0x85, 0x17, 0xA5, 0x16, 0x69, 0x00, 0xC9, 0x04, 0xB0, 0x9D, 0xA5, 0x19, 0x38, 0xE5, 0x13,
    0x85, 0x19, 0xB0, 0x02, 0xC6, 0x1A, 0xA4, 0x13, 0x4C, 0xF8, 0x69, 0xB1, 0x19, 0x91, 0x14, 0xC8,
    0xD0, 0x06, 0xE6, 0x1A, 0xE6, 0x15, 0xE6, 0x16, 0xC4, 0x17, 0xD0, 0xEF, 0x84, 0x13, 0x18, 0x60,
    0xA4, 0x10, 0xC0, 0x07, 0xD0, 0xB8, 0xA4, 0x13, 0xA9, 0x00, 0x91, 0x14, 0xC8, 0xA9, 0xB0, 0x91,
    0x14, 0xA5, 0x12, 0x85, 0x10, 0x18, 0x60, 0xC9, 0xA0, 0xB0, 0x6A, 0x85, 0x20, 0xA2, 0x02, 0xB5,
    0x1C, 0x10, 0x1A, 0xB5, 0x1B, 0xD0, 0x02, 0xD6, 0x1C, 0xD6, 0x1B, 0xB5, 0x1B, 0x49, 0xFF, 0x95,
    0x1B, 0xB5, 0x1C, 0x49, 0xFF, 0xC9, 0x04, 0xB0, 0x4C, 0x09, 0x04, 0xD0, 0x04, 0xC9, 0x04, 0xB0,
    0x44, 0x95, 0x1C, 0xCA, 0xCA, 0x10, 0xD8, 0xA5, 0x1B, 0x05, 0x1D, 0xD0, 0x23, 0xA5, 0x20, 0xC9,
    0x20, 0x90, 0x1D, 0xC9, 0x60, 0xB0, 0x19, 0x29, 0x10, 0x4A, 0x05, 0x1C, 0x09, 0xF0, 0xAA, 0xA5,
    0x20, 0x0A, 0x0A, 0x0A, 0x0A, 0x05, 0x1E, 0x24, 0x20, 0x50, 0x02, 0x09, 0x08, 0x4C, 0x57, 0x69,
    0xA5, 0x20, 0x29, 0xF0, 0x05, 0x1C, 0x85, 0x1C, 0xA5, 0x20, 0x0A, 0x0A, 0x0A, 0x0A, 0x05, 0x1E,
    0x85, 0x1E, 0x4C, 0x89, 0x69, 0x38, 0x60,
];

// Returns whether the driver's code is at its place.
fn has_driver(rom: &[u8]) -> bool {
    stands(rom, 0x6800, DRIVER)
}

/// Returns why a program that starts there, behind the driver, isn't accepted with these notes.
#[must_use]
pub fn check_notes(rom: &[u8], notes: &[Option<Note>], start: u32) -> Option<Refusal> {
    match first_bad(rom, notes) {
        Some(at) => return Some(Refusal::At(at)),
        None => {}
    }
    if !starts_fine(notes, start) {
        return Some(Refusal::Start);
    }
    if !interrupts_fine(notes, u32::from(word_at(rom, 0x7FFA))) {
        return Some(Refusal::Nmi);
    }
    None
}

/// Returns where a program starts, behind the driver, or why no notes of it are accepted.
pub fn check_start(rom: &[u8]) -> Result<u32, Refusal> {
    if !has_driver(rom) {
        return Err(Refusal::Driver);
    }
    match boot(rom) {
        Ok(start) => Ok(start),
        Err(at) => Err(Refusal::Boot(at)),
    }
}

/// Returns where a program starts that is accepted with these notes, or why it isn't.
pub fn check_rules(rom: &[u8], notes: &[Option<Note>]) -> Result<u32, Refusal> {
    let start = match check_start(rom) {
        Ok(start) => start,
        Err(why) => return Err(why),
    };
    match check_notes(rom, notes, start) {
        Some(why) => Err(why),
        None => Ok(start),
    }
}
}
mod reach {
//! Which addresses an instruction may read or write, and whether it may.
use crate::kind::Operand;
use crate::note::Level;

/// What is asked of each address that an instruction may read or write.
#[derive(Clone, Copy)]
pub enum Test {
    /// No read of it sends the generator's strobe.
    NoStrobe,
    /// Code of this level may write it.
    Writable(Level),
    /// It is none of the driver's bytes but `dvg_y` and `dvg_x`.
    NotOwn,
}

/// Returns whether `dvg_y` and `dvg_x` are there.
pub fn is_operand(a: u16) -> bool {
    0x1B <= a && a < 0x1F
}

/// Returns whether another byte of the driver's is there.
pub fn is_own(a: u16) -> bool {
    (0x10 <= a && a < 0x21) && !is_operand(a)
}

/// Returns whether the generator's strobe is there, or its mirror.
pub fn is_strobe(a: u16) -> bool {
    0x3000 <= a % 0x8000 && a % 0x8000 < 0x3200
}

/// Returns whether an output is there.
pub fn is_output(a: u16) -> bool {
    a == 0x3200
        || (a == 0x3400
            || (a == 0x3600 || (a == 0x3A00 || (a == 0x3E00 || (0x3C00 <= a && a < 0x3C06)))))
}

/// Returns whether the game's RAM or an output is there.
pub fn is_free(a: u16) -> bool {
    a < 0x10 || ((0x21 <= a && a < 0x100) || ((0x200 <= a && a < 0x400) || is_output(a)))
}

/// Returns whether code of this level may write there.
pub fn may_write(level: Level, a: u16) -> bool {
    match level {
        Level::Main => is_free(a) || (is_operand(a) || is_own(a)),
        Level::Sub => is_free(a) || is_operand(a),
        Level::Nmi => is_free(a),
    }
}

/// Returns whether an address passes a test.
pub fn passes(test: Test, a: u16) -> bool {
    match test {
        Test::NoStrobe => !is_strobe(a),
        Test::Writable(level) => may_write(level, a),
        Test::NotOwn => !is_own(a),
    }
}

// Returns whether each of 256 addresses passes a test.
fn all_pass(test: Test, from: u16) -> bool {
    for k in 0..256u32 {
        if !passes(test, ((u32::from(from) + k) % 65536) as u16) {
            return false;
        }
    }
    true
}

/// Returns whether each address passes a test that an instruction with these bytes may reach.
pub fn reached(place: Operand, low: u8, word: u16, test: Test) -> bool {
    match place {
        Operand::ZeroPage => passes(test, u16::from(low)),
        Operand::ZeroPageIndexed => all_pass(test, 0),
        Operand::Absolute => passes(test, word),
        Operand::AbsoluteIndexed => all_pass(test, word),
    }
}
}
mod reason {
//! Which rule an instruction breaks.
use std::prelude::*;

use crate::follow::{
    FIRST, PLACES, all_serve, awake_after, blank_after as blank_left, depth_after, ends_after,
    held_after, holding, implies, level_after, newest, of_held, room_after, same_level, set,
    slots_serve,
};
use crate::kind::{Kind, Operand, Register, Sets, kind_of, size};
use crate::note::{Change, Level, Note, Slot};
use crate::program::fine_place;
use crate::reach::{Test, reached};
use crate::rules::{UNCHANGED, blank_after, byte_at, ends_at, goes_on, is_driver, is_entry, still_awake, target, word_at};
use std::alloc::{AllocError, Allocator};

/// What the note of a place asks of the instructions that lead there.
#[derive(Clone, Copy, Debug, PartialEq, Eq, Hash)]
pub enum Ask {
    /// That there is one: code may be there, and comes there.
    Noted,
    /// Code of the program, of a subroutine, or of the NMI.
    Level,
    /// So many bytes pushed.
    Depth,
    /// Room on the stack.
    Room,
    /// That the NMI ends soon.
    Fuel,
    /// That `dvg_reset` was called.
    Awake,
    /// What A, X and Y hold.
    Held,
    /// Which bytes were pushed.
    Slots,
    /// That a frame may be blank, if it may be.
    Blank,
    Ends,
}

/// A rule that an instruction may break.
#[derive(Clone, Copy, Debug, PartialEq, Eq, Hash)]
pub enum Rule {
    /// It isn't one that the checker knows.
    Wild,
    /// It reads no strobe of the generator.
    Strobe,
    /// It writes where code of its level may.
    Writes,
    /// There is room for what it pushes.
    Pushes,
    /// It pulls no more than was pushed.
    Pulls,
    /// The NMI doesn't jump to the reset.
    Resets,
    /// What it calls of the driver is a routine.
    Entry,
    /// There is room for what the driver pushes.
    EntryRoom,
    /// The NMI doesn't call the driver.
    EntryNmi,
    /// `dvg_reset` was called.
    Asleep,
    /// The frame begins with `dvg_labs`.
    Blank,
    /// There is room for a return address.
    CallRoom,
    /// The NMI calls no subroutine.
    CallNmi,
    /// Only a subroutine returns.
    ReturnLevel,
    /// It returns with nothing of its own on the stack.
    ReturnDepth,
    /// It leaves no frame blank, unless its note says so.
    ReturnBlank,
    /// Only the NMI's routine ends by RTI.
    FinishLevel,
    FinishDepth,
    /// The NMI leaves A, X and Y as they were.
    FinishHeld,
    /// What it leaves is what the note of the place behind it asks for.
    Next(Ask),
    /// Or that of the place where it leads.
    Target(Ask),
}

// Returns what `new` asks for that an instruction with the note `now` doesn't leave.
fn unsuited(change: Change, now: &Note, new: &Note) -> Option<Ask> {
    let level = level_after(change, now);
    if !same_level(new.level, level) {
        return Some(Ask::Level);
    }
    if u32::from(new.depth) != depth_after(change, now) {
        return Some(Ask::Depth);
    }
    if room_after(change, now) < u32::from(new.room) {
        return Some(Ask::Room);
    }
    if !implies(same_level(level, Level::Nmi), new.fuel < now.fuel) {
        return Some(Ask::Fuel);
    }
    if !implies(new.awake, awake_after(change, now)) {
        return Some(Ask::Awake);
    }
    if !all_serve(new.held, held_after(change, now)) {
        return Some(Ask::Held);
    }
    if !slots_serve(change, now, new) {
        return Some(Ask::Slots);
    }
    if !implies(blank_left(change, now), new.blank) {
        return Some(Ask::Blank);
    }
    if !implies(new.ends, ends_after(change, now)) {
        return Some(Ask::Ends);
    }
    None
}

// Returns what is asked for at an address that an instruction with the note `now` doesn't leave.
fn unled(notes: &[Option<Note>], to: u32, change: Change, now: &Note) -> Option<Ask> {
    if to < FIRST || FIRST + PLACES <= to {
        return Some(Ask::Noted);
    }
    match &notes[(to - FIRST) as usize] {
        None => Some(Ask::Noted),
        Some(new) => unsuited(change, now, new),
    }
}

// Returns why an instruction with the note `now` may not call the driver there.
fn entry_why(to: u16, now: &Note) -> Option<Rule> {
    if !is_entry(to) {
        return Some(Rule::Entry);
    }
    if now.room < 4 {
        return Some(Rule::EntryRoom);
    }
    if same_level(now.level, Level::Nmi) {
        return Some(Rule::EntryNmi);
    }
    if !(to == 0x6800 || now.awake) {
        return Some(Rule::Asleep);
    }
    if !implies(goes_on(to), !now.blank) {
        return Some(Rule::Blank);
    }
    None
}

// Returns why a subroutine may not return, where a frame may be blank.
fn return_why(blank: bool, now: &Note) -> Option<Rule> {
    if !same_level(now.level, Level::Sub) {
        return Some(Rule::ReturnLevel);
    }
    if now.depth != 0 {
        return Some(Rule::ReturnDepth);
    }
    if !implies(blank, now.ends) {
        return Some(Rule::ReturnBlank);
    }
    None
}

fn jump_why(notes: &[Option<Note>], word: u16, reset: u16, now: &Note) -> Option<Rule> {
    if word == reset {
        if same_level(now.level, Level::Nmi) {
            return Some(Rule::Resets);
        }
        return None;
    }
    if is_driver(word) {
        match entry_why(word, now) {
            Some(rule) => return Some(rule),
            None => {}
        }
        return return_why(blank_after(word, now.blank), now);
    }
    match unled(notes, u32::from(word), Change::Same, now) {
        Some(ask) => Some(Rule::Target(ask)),
        None => None,
    }
}

fn call_why(notes: &[Option<Note>], word: u16, at: u32, now: &Note) -> Option<Rule> {
    if is_driver(word) {
        match entry_why(word, now) {
            Some(rule) => return Some(rule),
            None => {}
        }
        let awake = word == 0x6800 || now.awake;
        let blank = blank_after(word, now.blank);
        return match unled(notes, at + 3, Change::Returns(awake, blank), now) {
            Some(ask) => Some(Rule::Next(ask)),
            None => None,
        };
    }
    let ends = ends_at(notes, u32::from(word));
    if now.room < 2 {
        return Some(Rule::CallRoom);
    }
    if same_level(now.level, Level::Nmi) {
        return Some(Rule::CallNmi);
    }
    match unled(notes, u32::from(word), Change::Begins(ends), now) {
        Some(ask) => return Some(Rule::Target(ask)),
        None => {}
    }
    match unled(notes, at + 3, Change::Returns(now.awake, ends), now) {
        Some(ask) => Some(Rule::Next(ask)),
        None => None,
    }
}

// Returns which rule an instruction breaks that sets a register.
fn quiet_why(notes: &[Option<Note>], sets: Sets, bytes: u8, at: u32, now: &Note) -> Option<Rule> {
    let held = set(sets, now.held);
    match unled(notes, at + u32::from(bytes), Change::Holds(held), now) {
        Some(ask) => Some(Rule::Next(ask)),
        None => None,
    }
}

// Returns which rule one breaks that reads a byte.
fn read_why(
    notes: &[Option<Note>],
    sets: Sets,
    place: Operand,
    low: u8,
    word: u16,
    at: u32,
    now: &Note,
) -> Option<Rule> {
    if !reached(place, low, word, Test::NoStrobe) {
        return Some(Rule::Strobe);
    }
    let held = set(sets, now.held);
    match unled(notes, at + u32::from(size(place)), Change::Holds(held), now) {
        Some(ask) => Some(Rule::Next(ask)),
        None => None,
    }
}

// Returns which rule a transfer breaks.
fn transfer_why(
    notes: &[Option<Note>],
    from: Register,
    to: Register,
    at: u32,
    now: &Note,
) -> Option<Rule> {
    let held = holding(to, of_held(from, now.held), now.held);
    match unled(notes, at + 1, Change::Holds(held), now) {
        Some(ask) => Some(Rule::Next(ask)),
        None => None,
    }
}

// Returns which rule a store breaks.
fn store_why(
    notes: &[Option<Note>],
    place: Operand,
    low: u8,
    word: u16,
    at: u32,
    now: &Note,
) -> Option<Rule> {
    if !reached(place, low, word, Test::Writable(now.level)) {
        return Some(Rule::Writes);
    }
    let awake = still_awake(now.awake, place, low, word);
    match unled(
        notes,
        at + u32::from(size(place)),
        Change::Leaves(awake),
        now,
    ) {
        Some(ask) => Some(Rule::Next(ask)),
        None => None,
    }
}

// Returns which rule a PHA breaks.
fn push_why(notes: &[Option<Note>], at: u32, now: &Note) -> Option<Rule> {
    if now.room < 1 {
        return Some(Rule::Pushes);
    }
    match unled(notes, at + 1, Change::Pushes(now.held.a), now) {
        Some(ask) => Some(Rule::Next(ask)),
        None => None,
    }
}

// Returns which rule a PHP breaks.
fn push_flags_why(notes: &[Option<Note>], at: u32, now: &Note) -> Option<Rule> {
    if now.room < 1 {
        return Some(Rule::Pushes);
    }
    match unled(notes, at + 1, Change::Pushes(Slot::Any), now) {
        Some(ask) => Some(Rule::Next(ask)),
        None => None,
    }
}

// Returns which rule a PLA breaks.
fn pull_why(notes: &[Option<Note>], at: u32, now: &Note) -> Option<Rule> {
    if now.depth < 1 {
        return Some(Rule::Pulls);
    }
    let held = holding(Register::A, newest(now.slots.as_slice()), now.held);
    match unled(notes, at + 1, Change::Pulls(held), now) {
        Some(ask) => Some(Rule::Next(ask)),
        None => None,
    }
}

// Returns which rule a PLP breaks.
fn pull_flags_why(notes: &[Option<Note>], at: u32, now: &Note) -> Option<Rule> {
    if now.depth < 1 {
        return Some(Rule::Pulls);
    }
    match unled(notes, at + 1, Change::Pulls(now.held), now) {
        Some(ask) => Some(Rule::Next(ask)),
        None => None,
    }
}

// Returns which rule a branch breaks.
fn branch_why(notes: &[Option<Note>], low: u8, at: u32, now: &Note) -> Option<Rule> {
    match unled(notes, target(at, low), Change::Same, now) {
        Some(ask) => return Some(Rule::Target(ask)),
        None => {}
    }
    match unled(notes, at + 2, Change::Same, now) {
        Some(ask) => Some(Rule::Next(ask)),
        None => None,
    }
}

// Returns which rule an RTI breaks.
fn finish_why(now: &Note) -> Option<Rule> {
    if !same_level(now.level, Level::Nmi) {
        return Some(Rule::FinishLevel);
    }
    if now.depth != 0 {
        return Some(Rule::FinishDepth);
    }
    if !all_serve(UNCHANGED, now.held) {
        return Some(Rule::FinishHeld);
    }
    None
}

// Returns which rule an instruction breaks, by its kind and the bytes behind its opcode.
fn why_with(
    kind: Kind,
    notes: &[Option<Note>],
    low: u8,
    word: u16,
    reset: u16,
    at: u32,
    now: &Note,
) -> Option<Rule> {
    match kind {
        Kind::Quiet(sets, bytes) => quiet_why(notes, sets, bytes, at, now),
        Kind::Reads(sets, place) => read_why(notes, sets, place, low, word, at, now),
        Kind::Transfer(from, to) => transfer_why(notes, from, to, at, now),
        Kind::Stores(place) => store_why(notes, place, low, word, at, now),
        Kind::Push => push_why(notes, at, now),
        Kind::PushFlags => push_flags_why(notes, at, now),
        Kind::Pull => pull_why(notes, at, now),
        Kind::PullFlags => pull_flags_why(notes, at, now),
        Kind::Branch => branch_why(notes, low, at, now),
        Kind::Jump => jump_why(notes, word, reset, now),
        Kind::Call => call_why(notes, word, at, now),
        Kind::Return => return_why(now.blank, now),
        Kind::Finish => finish_why(now),
        Kind::Wild => Some(Rule::Wild),
    }
}

// Returns which rule the instruction at a place breaks, whose note is `now`.
fn reason(rom: &[u8], notes: &[Option<Note>], at: u32, now: &Note) -> Option<Rule> {
    let kind = kind_of(byte_at(rom, at));
    let low = byte_at(rom, at + 1);
    let word = word_at(rom, at + 1);
    let reset = word_at(rom, 0x7FFC);
    why_with(kind, notes, low, word, reset, at, now)
}

/// Returns which rule the instruction at a place breaks.
#[must_use]
pub fn why(rom: &[u8], notes: &[Option<Note>], at: u32) -> Option<Rule> {
    match &notes[(at - FIRST) as usize] {
        None => None,
        Some(now) => reason(rom, notes, at, now),
    }
}

/// A place that isn't fine, and which rule is broken there.
#[derive(Clone, Copy, Debug)]
pub struct Broken {
    pub at: u32,
    pub rule: Option<Rule>,
}

/// Returns all places that aren't fine.
pub fn all_broken<A: Allocator>(
    alloc: A,
    rom: &[u8],
    notes: &[Option<Note>],
) -> Result<Vec<Broken, A>, AllocError> {
    let mut all = Vec::new(alloc);
    for i in 0..PLACES {
        let at = FIRST + i;
        if !fine_place(rom, notes, at) {
            let rule = why(rom, notes, at);
            all.push(Broken { at, rule })?;
        }
    }
    Ok(all)
}
}
mod rules {
//! The rules: what is asked of each instruction of a program, and of its reset.
use crate::follow::{
    FIRST, PLACES, all_serve, holding, implies, leads, newest, of_held, same_level, set,
};
use crate::kind::{Kind, Operand, Register, kind_of, size};
use crate::note::{Change, Held, Level, Note, Slot};
use crate::reach::{Test, reached};

/// How many bytes a program has, from 6800 on.
pub const BYTES: usize = 6144;

/// Returns whether the driver's code is there.
pub fn is_driver(a: u16) -> bool {
    0x6800 <= a && a < 0x6A87
}

// Returns whether a routine of the driver begins there.
pub fn is_entry(a: u16) -> bool {
    a == 0x6800
        || (a == 0x6809
            || (a == 0x6860
                || (a == 0x686A
                    || (a == 0x68FE
                        || (a == 0x6924
                            || (a == 0x6943
                                || (a == 0x6957
                                    || (a == 0x6979
                                        || (a == 0x6989 || (a == 0x6A00 || a == 0x6A17))))))))))
}

// Returns whether a routine goes on with a frame, which has to begin with a LABS.
pub fn goes_on(a: u16) -> bool {
    a == 0x6957 || (a == 0x6989 || (a == 0x6A17 || a == 0x6A00))
}

// Returns whether a frame may be blank after a call of a routine.
pub fn blank_after(entry: u16, old: bool) -> bool {
    if entry == 0x6924 {
        true
    } else if entry == 0x6979 || entry == 0x6800 {
        false
    } else {
        old
    }
}

// Returns whether an instruction with the note `now` may call the driver there.
fn enters(to: u16, now: &Note) -> bool {
    is_entry(to)
        && (4 <= now.room
            && (!same_level(now.level, Level::Nmi)
                && ((to == 0x6800 || now.awake) && implies(goes_on(to), !now.blank))))
}

// Returns whether a frame may be blank where the subroutine there returns.
pub fn ends_at(notes: &[Option<Note>], to: u32) -> bool {
    if to < FIRST || FIRST + PLACES <= to {
        return true;
    }
    match &notes[(to - FIRST) as usize] {
        None => true,
        Some(new) => new.ends,
    }
}

fn jumps_fine(notes: &[Option<Note>], word: u16, reset: u16, now: &Note) -> bool {
    if word == reset {
        !same_level(now.level, Level::Nmi)
    } else if is_driver(word) {
        enters(word, now)
            && (same_level(now.level, Level::Sub)
                && (now.depth == 0 && implies(blank_after(word, now.blank), now.ends)))
    } else {
        leads(notes, u32::from(word), Change::Same, now)
    }
}

fn calls_fine(notes: &[Option<Note>], word: u16, at: u32, now: &Note) -> bool {
    if is_driver(word) {
        let awake = word == 0x6800 || now.awake;
        let blank = blank_after(word, now.blank);
        enters(word, now) && leads(notes, at + 3, Change::Returns(awake, blank), now)
    } else {
        let ends = ends_at(notes, u32::from(word));
        2 <= now.room
            && (!same_level(now.level, Level::Nmi)
                && (leads(notes, u32::from(word), Change::Begins(ends), now)
                    && leads(notes, at + 3, Change::Returns(now.awake, ends), now)))
    }
}

// Returns whether a subroutine may return.
fn returns_fine(now: &Note) -> bool {
    same_level(now.level, Level::Sub) && (now.depth == 0 && implies(now.blank, now.ends))
}

// Returns whether the NMI's routine may end.
fn finishes_fine(now: &Note) -> bool {
    same_level(now.level, Level::Nmi) && (now.depth == 0 && all_serve(UNCHANGED, now.held))
}

/// What A, X and Y hold where the NMI comes.
pub const UNCHANGED: Held = Held {
    a: Slot::Was(Register::A),
    x: Slot::Was(Register::X),
    y: Slot::Was(Register::Y),
};

// Returns where a branch leads.
pub fn target(at: u32, low: u8) -> u32 {
    let back = if 128 <= low { 65280 } else { 0 };
    (at + 2 + u32::from(low) + back) % 65536
}

// Returns whether the driver is awake after a store, which may have been to its own bytes.
pub fn still_awake(awake: bool, place: Operand, low: u8, word: u16) -> bool {
    awake && reached(place, low, word, Test::NotOwn)
}

// Returns whether an instruction is fine, by its kind and the bytes behind its opcode.
fn fine_with(
    kind: Kind,
    notes: &[Option<Note>],
    low: u8,
    word: u16,
    reset: u16,
    at: u32,
    now: &Note,
) -> bool {
    match kind {
        Kind::Quiet(sets, bytes) => {
            leads(
                notes,
                at + u32::from(bytes),
                Change::Holds(set(sets, now.held)),
                now,
            )
        }
        Kind::Reads(sets, place) => {
            let next = at + u32::from(size(place));
            reached(place, low, word, Test::NoStrobe)
                && leads(notes, next, Change::Holds(set(sets, now.held)), now)
        }
        Kind::Transfer(from, to) => {
            let held = holding(to, of_held(from, now.held), now.held);
            leads(notes, at + 1, Change::Holds(held), now)
        }
        Kind::Stores(place) => {
            let next = at + u32::from(size(place));
            let awake = still_awake(now.awake, place, low, word);
            reached(place, low, word, Test::Writable(now.level))
                && leads(notes, next, Change::Leaves(awake), now)
        }
        Kind::Push => 1 <= now.room && leads(notes, at + 1, Change::Pushes(now.held.a), now),
        Kind::PushFlags => 1 <= now.room && leads(notes, at + 1, Change::Pushes(Slot::Any), now),
        Kind::Pull => {
            let held = holding(Register::A, newest(now.slots.as_slice()), now.held);
            1 <= now.depth && leads(notes, at + 1, Change::Pulls(held), now)
        }
        Kind::PullFlags => 1 <= now.depth && leads(notes, at + 1, Change::Pulls(now.held), now),
        Kind::Branch => {
            leads(notes, target(at, low), Change::Same, now)
                && leads(notes, at + 2, Change::Same, now)
        }
        Kind::Jump => jumps_fine(notes, word, reset, now),
        Kind::Call => calls_fine(notes, word, at, now),
        Kind::Return => returns_fine(now),
        Kind::Finish => finishes_fine(now),
        Kind::Wild => false,
    }
}

// Returns whether an instruction may come before the reset's TXS.
pub fn may_boot(kind: Kind, low: u8, word: u16) -> bool {
    match kind {
        Kind::Quiet(_, _) => true,
        Kind::Reads(_, place) => reached(place, low, word, Test::NoStrobe),
        Kind::Stores(Operand::AbsoluteIndexed) => false,
        Kind::Stores(place) => reached(place, low, word, Test::Writable(Level::Main)),
        _ => false,
    }
}

// Returns how many bytes such an instruction has.
pub fn bytes_of(kind: Kind) -> u8 {
    match kind {
        Kind::Quiet(_, bytes) => bytes,
        Kind::Reads(_, place) | Kind::Stores(place) => size(place),
        _ => 0,
    }
}

/// Returns a byte of the program.
pub fn byte_at(rom: &[u8], a: u32) -> u8 {
    rom[(a - 0x6800) as usize]
}

/// Returns the word of two bytes of the program.
pub fn word_at(rom: &[u8], a: u32) -> u16 {
    u16::from(byte_at(rom, a)) + 256 * u16::from(byte_at(rom, a + 1))
}

/// Returns whether the instruction there is fine, whose note is `now`.
pub fn fine(rom: &[u8], notes: &[Option<Note>], at: u32, now: &Note) -> bool {
    let kind = kind_of(byte_at(rom, at));
    let low = byte_at(rom, at + 1);
    let word = word_at(rom, at + 1);
    let reset = word_at(rom, 0x7FFC);
    fine_with(kind, notes, low, word, reset, at, now)
}
}
mod state {
//! What is found of a place while notes are made, and what an instruction makes of it.
use crate::follow::{FIRST, PLACES, same_level};
use crate::note::{Change, Held, Level, Note, SLOTS, Slot};
use crate::rules::UNCHANGED;
use arrayvec::ArrayVec;

/// What is found of a place.
#[derive(Clone, Copy)]
pub struct State {
    pub level: Level,
    /// How many bytes were pushed since the level began.
    pub depth: u16,
    pub held: Held,
    /// Of the NMI: the bytes that were pushed, the newest last.
    pub slots: [Slot; SLOTS],
    pub room: u16,
    pub fuel: u16,
    pub awake: bool,
    pub blank: bool,
    pub ends: bool,
}

/// What holds where a level begins with nothing but what A, X and Y hold.
fn begins(level: Level, held: Held) -> State {
    State {
        level,
        depth: 0,
        held,
        slots: [Slot::Any; SLOTS],
        room: 0,
        fuel: 0,
        awake: false,
        blank: false,
        ends: false,
    }
}

/// Returns what holds where the program starts.
pub fn at_start() -> State {
    let any = Held {
        a: Slot::Any,
        x: Slot::Any,
        y: Slot::Any,
    };
    begins(Level::Main, any)
}

/// Returns what holds where the NMI comes.
pub fn at_nmi() -> State {
    begins(Level::Nmi, UNCHANGED)
}

/// Returns what is found of a place, if anything is.
#[must_use]
pub fn state_at(states: &[Option<State>], at: u32) -> Option<State> {
    if at < FIRST || FIRST + PLACES <= at {
        return None;
    }
    states[(at - FIRST) as usize]
}

/// Returns the byte that was pushed last.
pub fn top(state: State) -> Slot {
    let depth = usize::from(state.depth);
    if depth == 0 || SLOTS < depth {
        return Slot::Any;
    }
    state.slots[depth - 1]
}

// Returns what is found behind an instruction that pushes this byte.
fn pushed(state: State, slot: Slot) -> State {
    let depth = usize::from(state.depth);
    let mut new = state;
    new.depth = state.depth.saturating_add(1);
    if depth < SLOTS {
        new.slots[depth] = slot;
    }
    new
}

// Returns what is found behind one that pulls a byte, where A, X and Y hold this.
fn pulled(state: State, held: Held) -> State {
    let mut new = state;
    new.depth = state.depth.saturating_sub(1);
    new.held = held;
    new
}

/// Returns what is found behind an instruction that changes this.
pub fn after(state: State, change: Change) -> State {
    let mut new = state;
    match change {
        Change::Same => new,
        Change::Holds(held) => {
            new.held = held;
            new
        }
        Change::Leaves(awake) => {
            new.awake = awake;
            new
        }
        Change::Pushes(slot) => pushed(state, slot),
        Change::Pulls(held) => pulled(state, held),
        Change::Returns(awake, blank) => {
            new.awake = awake;
            new.blank = blank;
            new
        }
        Change::Begins(_) => {
            new.level = Level::Sub;
            new.depth = 0;
            new
        }
    }
}

// Returns what a byte holds whichever of two ways leads to a place.
fn joined_slot(one: Slot, other: Slot) -> Slot {
    if one == other { one } else { Slot::Any }
}

// Returns what two ways leave on the stack.
fn joined_slots(one: [Slot; SLOTS], other: [Slot; SLOTS]) -> [Slot; SLOTS] {
    let mut joined = one;
    for i in 0..SLOTS {
        joined[i] = joined_slot(one[i], other[i]);
    }
    joined
}

// Returns what A, X and Y hold whichever of two ways leads to a place.
fn joined_held(one: Held, other: Held) -> Held {
    Held {
        a: joined_slot(one.a, other.a),
        x: joined_slot(one.x, other.x),
        y: joined_slot(one.y, other.y),
    }
}

// Returns what two ways leave on the stack, if that is of the NMI.
fn met_slots(old: State, new: State) -> [Slot; SLOTS] {
    if !same_level(old.level, Level::Nmi) {
        return old.slots;
    }
    joined_slots(old.slots, new.slots)
}

/// Returns whether both hold.
pub fn both(one: bool, other: bool) -> bool {
    one && other
}

/// Returns whether one of two holds.
pub fn either(one: bool, other: bool) -> bool {
    one || other
}

/// Returns what holds whichever of two ways leads to a place.
pub fn joined(old: State, new: State) -> State {
    let held = joined_held(old.held, new.held);
    let slots = met_slots(old, new);
    let awake = both(old.awake, new.awake);
    let blank = either(old.blank, new.blank);
    State {
        level: old.level,
        depth: old.depth,
        held,
        slots,
        room: old.room,
        fuel: old.fuel,
        awake,
        blank,
        ends: old.ends,
    }
}

/// Returns whether two ways leave the same but for room, fuel and ends.
pub fn is_same(one: State, other: State) -> bool {
    one.held == other.held
        && one.slots == other.slots
        && one.awake == other.awake
        && one.blank == other.blank
}

// Returns the slots of the NMI's stack, the newest first.
fn slots_of(state: State) -> ArrayVec<Slot, SLOTS> {
    let mut slots: ArrayVec<Slot, SLOTS> = ArrayVec::new();
    let depth = usize::from(state.depth);
    if SLOTS < depth || !same_level(state.level, Level::Nmi) {
        return slots;
    }
    for i in 0..depth {
        slots.push(state.slots[depth - 1 - i]);
    }
    slots
}

/// Returns the note of a place.
pub fn note_of(state: State) -> Note {
    Note {
        level: state.level,
        depth: state.depth,
        held: state.held,
        slots: slots_of(state),
        room: state.room,
        fuel: state.fuel,
        awake: state.awake,
        blank: state.blank,
        ends: state.ends,
    }
}
}
mod step {
//! Where an instruction goes on, and what it needs.
use crate::follow::{holding, of_held, set};
use crate::kind::{Kind, Register, kind_of, size};
use crate::note::{Change, Slot};
use crate::rules::{blank_after, byte_at, is_driver, still_awake, target, word_at};
use crate::state::{State, either, state_at, top};

/// A place where an instruction goes on, and what it changes.
#[derive(Clone, Copy)]
pub struct Onward {
    pub to: u32,
    pub change: Change,
}

/// What an instruction does.
#[derive(Clone, Copy)]
pub struct Step {
    /// It goes on behind itself, and where it branches, jumps or calls to.
    pub next: Option<Onward>,
    pub to: Option<Onward>,
    /// How many bytes the driver pushes that it calls.
    pub room: u16,
    /// It returns, and a frame may be blank.
    pub ends: bool,
}

/// What an instruction needs, by all that comes after it.
#[derive(Clone, Copy)]
pub struct Needs {
    /// How many bytes it may push, with all that it calls.
    pub room: u16,
    /// How many instructions the NMI does behind it.
    pub fuel: u16,
    /// A frame may be blank where it returns.
    pub ends: bool,
}

// Returns the step of an instruction that goes nowhere.
fn nowhere(room: u16, ends: bool) -> Step {
    Step {
        next: None,
        to: None,
        room,
        ends,
    }
}

// Returns the step of one that goes on in one place.
fn straight(to: u32, change: Change, room: u16) -> Step {
    Step {
        next: Some(Onward { to, change }),
        to: None,
        room,
        ends: false,
    }
}

// Returns the step of a jump.
fn jump(word: u16, reset: u16, state: State) -> Step {
    if word == reset {
        return nowhere(0, false);
    }
    if is_driver(word) {
        return nowhere(4, blank_after(word, state.blank));
    }
    straight(u32::from(word), Change::Same, 0)
}

// Returns whether the driver is awake after a call of a routine.
fn woken(entry: u16, awake: bool) -> bool {
    entry == 0x6800 || awake
}

// Returns the step of a call, where a frame may be blank that its subroutine leaves, if `ends`.
fn call(word: u16, at: u32, state: State, ends: bool) -> Step {
    if is_driver(word) {
        let awake = woken(word, state.awake);
        let blank = blank_after(word, state.blank);
        return straight(at + 3, Change::Returns(awake, blank), 4);
    }
    Step {
        next: Some(Onward {
            to: at + 3,
            change: Change::Returns(state.awake, ends),
        }),
        to: Some(Onward {
            to: u32::from(word),
            change: Change::Begins(ends),
        }),
        room: 0,
        ends: false,
    }
}

// Returns the step of a branch.
fn branch(at: u32, low: u8) -> Step {
    Step {
        next: Some(Onward {
            to: at + 2,
            change: Change::Same,
        }),
        to: Some(Onward {
            to: target(at, low),
            change: Change::Same,
        }),
        room: 0,
        ends: false,
    }
}

// Returns what an instruction does, by its kind and the bytes behind its opcode.
fn step_with(kind: Kind, low: u8, word: u16, reset: u16, at: u32, state: State, ends: bool) -> Step {
    let held = state.held;
    match kind {
        Kind::Quiet(sets, bytes) => {
            straight(at + u32::from(bytes), Change::Holds(set(sets, held)), 0)
        }
        Kind::Reads(sets, place) => {
            straight(
                at + u32::from(size(place)),
                Change::Holds(set(sets, held)),
                0,
            )
        }
        Kind::Transfer(from, to) => {
            straight(
                at + 1,
                Change::Holds(holding(to, of_held(from, held), held)),
                0,
            )
        }
        Kind::Stores(place) => {
            let awake = still_awake(state.awake, place, low, word);
            straight(at + u32::from(size(place)), Change::Leaves(awake), 0)
        }
        Kind::Push => straight(at + 1, Change::Pushes(held.a), 0),
        Kind::PushFlags => straight(at + 1, Change::Pushes(Slot::Any), 0),
        Kind::Pull => {
            straight(
                at + 1,
                Change::Pulls(holding(Register::A, top(state), held)),
                0,
            )
        }
        Kind::PullFlags => straight(at + 1, Change::Pulls(held), 0),
        Kind::Branch => branch(at, low),
        Kind::Jump => jump(word, reset, state),
        Kind::Call => call(word, at, state, ends),
        Kind::Return => nowhere(0, state.blank),
        Kind::Finish | Kind::Wild => nowhere(0, false),
    }
}

// Returns whether a frame may be blank where what begins at a place returns.
fn ends_at(states: &[Option<State>], at: u32) -> bool {
    match state_at(states, at) {
        Some(state) => state.ends,
        None => false,
    }
}

/// Returns what the instruction at a place does.
pub fn step_at(rom: &[u8], states: &[Option<State>], at: u32, state: State) -> Step {
    let kind = kind_of(byte_at(rom, at));
    let low = byte_at(rom, at + 1);
    let word = word_at(rom, at + 1);
    let reset = word_at(rom, 0x7FFC);
    let ends = ends_at(states, u32::from(word));
    step_with(kind, low, word, reset, at, state, ends)
}

// Returns how many bytes an instruction may push where so many may be pushed behind it.
fn room_before(change: Change, room: u16) -> u16 {
    match change {
        Change::Pushes(_) => room.saturating_add(1),
        Change::Pulls(_) => room.saturating_sub(1),
        Change::Begins(_) => room.saturating_add(2),
        _ => room,
    }
}

// Returns whether what returns behind an instruction returns from its own subroutine.
fn ends_before(change: Change, ends: bool) -> bool {
    match change {
        Change::Begins(_) => false,
        _ => ends,
    }
}

// Returns what is needed before an instruction that goes on where this is found.
fn needs_before(one: Onward, next: State) -> Needs {
    Needs {
        room: room_before(one.change, next.room),
        fuel: next.fuel.saturating_add(1),
        ends: ends_before(one.change, next.ends),
    }
}

// Returns what is needed where both are.
fn most(one: Needs, other: Needs) -> Needs {
    let ends = either(one.ends, other.ends);
    Needs {
        room: one.room.max(other.room),
        fuel: one.fuel.max(other.fuel),
        ends,
    }
}

// Returns what is needed before it goes on there, too.
fn with_onward(states: &[Option<State>], onward: Option<Onward>, needs: Needs) -> Needs {
    let Some(one) = onward else {
        return needs;
    };
    let Some(next) = state_at(states, one.to) else {
        return needs;
    };
    most(needs, needs_before(one, next))
}

/// Returns what an instruction needs, by what is found where it goes on.
pub fn needs_of(states: &[Option<State>], step: Step) -> Needs {
    let own = Needs {
        room: step.room,
        fuel: 0,
        ends: step.ends,
    };
    with_onward(states, step.to, with_onward(states, step.next, own))
}
}
mod work {
//! The places that are still to be looked at.
use std::prelude::*;

use crate::follow::{FIRST, PLACES};
use crate::kind::{Kind, kind_of, size};
use crate::rules::{byte_at, is_driver, target, word_at};
use std::alloc::{AllocError, Allocator};

/// Returns as many of a value as there are places.
pub fn filled<A: Allocator, T: Copy>(alloc: A, value: T) -> Result<Vec<T, A>, AllocError> {
    let mut all = Vec::new(alloc);
    for _ in 0..PLACES {
        all.push(value)?;
    }
    Ok(all)
}

/// Returns the number of a place, or one that no place has.
pub fn number_of(at: u32) -> usize {
    at.wrapping_sub(FIRST) as usize
}

/// Returns how many bytes an instruction has that goes on behind itself, or 0.
pub fn length_of(kind: Kind) -> u32 {
    match kind {
        Kind::Quiet(_, bytes) => u32::from(bytes),
        Kind::Reads(_, place) | Kind::Stores(place) => u32::from(size(place)),
        Kind::Transfer(_, _) | Kind::Push | Kind::PushFlags | Kind::Pull | Kind::PullFlags => 1,
        Kind::Branch => 2,
        Kind::Call => 3,
        Kind::Jump | Kind::Return | Kind::Finish | Kind::Wild => 0,
    }
}

/// Returns where an instruction branches, jumps or calls to in the program.
#[must_use]
pub fn target_of(rom: &[u8], at: u32) -> Option<u32> {
    let word = word_at(rom, at + 1);
    match kind_of(byte_at(rom, at)) {
        Kind::Branch => Some(target(at, byte_at(rom, at + 1))),
        Kind::Jump => {
            if is_driver(word) || word == word_at(rom, 0x7FFC) {
                return None;
            }
            Some(u32::from(word))
        }
        Kind::Call => {
            if is_driver(word) {
                return None;
            }
            Some(u32::from(word))
        }
        _ => None,
    }
}

// The place of a list, or 0.
fn place_in(list: &[u32], at: u32) -> u32 {
    match list.get(number_of(at)) {
        Some(place) => *place,
        None => 0,
    }
}

fn put_in(list: &mut [u32], at: u32, place: u32) {
    if let Some(known) = list.get_mut(number_of(at)) {
        *known = place;
    }
}

/// From where each place is branched, jumped or called to: a list for each.
pub struct Callers<A: Allocator> {
    first: Vec<u32, A>,
    next: Vec<u32, A>,
}

impl<A: Allocator + Copy> Callers<A> {
    /// Returns the callers of all places of a program.
    pub fn of(alloc: A, rom: &[u8]) -> Result<Callers<A>, AllocError> {
        let mut first = filled(alloc, 0)?;
        let mut next = filled(alloc, 0)?;
        for i in 0..PLACES {
            let from = FIRST + i;
            if let Some(to) = target_of(rom, from) {
                let old = place_in(&first, to);
                put_in(&mut next, from, old);
                put_in(&mut first, to, from);
            }
        }
        Ok(Callers { first, next })
    }

    /// Returns the first caller of a place, or 0.
    pub fn first_of(&self, to: u32) -> u32 {
        place_in(&self.first, to)
    }

    /// Returns the caller behind one, of the same place, or 0.
    pub fn next_of(&self, from: u32) -> u32 {
        place_in(&self.next, from)
    }
}

/// Places that wait to be looked at: the one that came last is the first one.
pub struct Work<A: Allocator> {
    waiting: Vec<bool, A>,
    below: Vec<u32, A>,
    top: u32,
}

impl<A: Allocator + Copy> Work<A> {
    pub fn new(alloc: A) -> Result<Work<A>, AllocError> {
        let waiting = filled(alloc, false)?;
        let below = filled(alloc, 0)?;
        Ok(Work {
            waiting,
            below,
            top: 0,
        })
    }

    /// Puts a place on top, if it isn't waiting already.
    pub fn push(&mut self, at: u32) {
        if let Some(waits) = self.waiting.get_mut(number_of(at)) {
            if *waits {
                return;
            }
            *waits = true;
            put_in(&mut self.below, at, self.top);
            self.top = at;
        }
    }

    /// Takes the place on top.
    pub fn pop(&mut self) -> Option<u32> {
        let at = self.top;
        if at == 0 {
            return None;
        }
        self.top = place_in(&self.below, at);
        if let Some(waits) = self.waiting.get_mut(number_of(at)) {
            *waits = false;
        }
        Some(at)
    }
}

/// The places whose ways are still to be followed, and those whose needs are to be counted again.
pub struct Todo<A: Allocator> {
    pub ahead: Work<A>,
    pub back: Work<A>,
}

impl<A: Allocator + Copy> Todo<A> {
    pub fn new(alloc: A) -> Result<Todo<A>, AllocError> {
        let ahead = Work::new(alloc)?;
        let back = Work::new(alloc)?;
        Ok(Todo { ahead, back })
    }
}
}

pub use follow::{FIRST, PLACES, leads, suits};
pub use judging::{Judged, Verdict, judge};
pub use kind::{Kind, Operand, Register, Sets, kind_of, size};
pub use known::{FAR, Fact, Gap, Known, Unseen, brings_gap, known_at, value};
pub use maker::make;
pub use note::{Change, Held, Level, Note, Slot};
pub use offered::{bad_table, bad_word};
pub use program::{Refusal, boot, check_rules, stands};
pub use reach::{Test, reached};
pub use reason::{Ask, Broken, Rule, all_broken, why};
pub use rules::{BYTES, byte_at, fine, is_driver, word_at};
pub use work::{length_of, target_of};
