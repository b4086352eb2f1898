//! Frames: drafts, their layout, and the check.
//!
//! A draft is a list of operations: instructions that draw, jumps and calls to operations of the
//! draft and to words of the vector ROM, returns and halts. Laid out for a half of the vector RAM
//! it is the concatenation of the canonical words of its operations, from the half's first word on.
//! A frame is a draft that was checked: whatever is drawn of it, its run stays in its words and in
//! the ROM's, never opens more than four calls, and never returns without a call.
//!
//! Drafts and their check are this project's own; the words are those of Atari's DVG documentation
//! and of Margolin's *The Secret Life of Vector Generators*. No call of this crate takes memory.
#![no_std]

extern crate plain_std as std;

mod checked {
//! Checked drafts, where they lie.
use crate::counted::{COUNTS, Counted, words_before_each};
use crate::draft::Draft;
use crate::frame::{Frame, byte_of, word_at};
use crate::op::Op;
use arrayvec::ArrayVec;
use dvg_mem::Half;

/// A draft that was checked, borrowed: its operations lie elsewhere, and none is copied before
/// `to_frame`. All that a frame tells is told by this.
#[derive(Clone, Debug)]
pub struct Checked<'a> {
    ops: &'a [Op],
    words: u16,
    bound: u64,
}

impl<'a> Checked<'a> {
    // Returns the draft of `ops` as a checked one. It has none of the faults 1 to 4, `words` words
    // and the bound `bound`.
    pub(crate) fn of(ops: &'a [Op], words: u16, bound: u64) -> Checked<'a> {
        Checked { ops, words, bound }
    }

    /// Returns its operations, in order.
    pub fn ops(&self) -> &'a [Op] {
        self.ops
    }

    /// Returns the number of words that it has in a half, at most 511.
    pub fn len_words(&self) -> u16 {
        self.words
    }

    /// Returns the number of words that its whole run fetches, from word zero to its HALT. It is
    /// below 2^63. This holds for any run of it that nobody interrupts, over the ROM that it was
    /// checked with.
    pub fn bound(&self) -> u64 {
        self.bound
    }

    /// Returns byte `k` of its words in `half`, the low byte of each word first. Byte 0 stands at
    /// twice the word address of the half's first word. `k` must be below twice the number of
    /// words. The time is linear in the operations; a `Cursor` gives all bytes, each in constant
    /// time.
    pub fn byte(&self, half: Half, k: u16) -> u8 {
        let words_before = words_before_each(self.ops);
        let counted = Counted::of(self.ops, words_before.as_slice());
        byte_of(word_at(&counted, half, k / 2), k)
    }

    /// Returns a frame of the draft, whose operations are copied.
    pub fn to_frame(&self) -> Frame {
        Frame::of(self.to_draft(), self.words, self.bound)
    }

    // Returns the draft, whose operations are copied.
    pub(crate) fn to_draft(&self) -> Draft {
        let mut draft = Draft::new();
        draft.try_extend_from_slice(self.ops).unwrap();
        draft
    }

    // Returns for each operation the number of words before it, and then the number of all words.
    pub(crate) fn words_before_each(&self) -> ArrayVec<u16, COUNTS> {
        words_before_each(self.ops)
    }
}
}
mod checking {
//! The check of drafts: what is drawn from each place, and which pairs of place and depth are
//! reached. Others say flow for `Way`, cost for `Span`, state for `Pair`, resolve for `settle` and
//! explore for `sweep`.
mod bounds {
//! What is drawn from each place, whether a run from it breaks, and whether steps at one depth come
//! to no end.
use crate::checking::chain::Chain;
use crate::checking::look::look;
use crate::checking::pair::{DEEPEST, FIRST, Pair};
use crate::checking::table::{Drawn, Ending, Table};
use crate::checking::way::{Span, Way, span_at};
use crate::op::Op;
use crate::place::Place;
use dvg_mem::Rom;
use std::alloc::Allocator;

// Returns the place that `way` leads on to at its own depth, or `None` where it leads nowhere.
fn onward(way: Way) -> Option<Place> {
    match way {
        Way::Move(next, _) | Way::Jump(next) | Way::Call(_, next) => Some(next),
        Way::Return | Way::Halt => None,
    }
}

// Returns what is drawn from an instruction with the way `way`, which leads nowhere at its own
// depth.
fn last_drawn(way: Way) -> Drawn {
    match way {
        Way::Return => Drawn {
            words: 1,
            end: Ending::Returns,
            returns: true,
            calls: 0,
        },
        _ => Drawn {
            words: 1,
            end: Ending::Halts,
            returns: false,
            calls: 0,
        },
    }
}

// Adds `more` to the words of `rest`. What is drawn is changed where it lies: a copy of it would
// move its padding, too.
fn lengthen(rest: &mut Drawn, more: u64) {
    rest.words = rest.words.saturating_add(more);
}

// Returns what is drawn from a call, where `inside` is drawn from its target, and `rest` from the
// place after it.
fn called(inside: Drawn, rest: Drawn) -> Drawn {
    let calls = rest.calls.max(inside.calls.saturating_add(1));
    let words = inside.words.saturating_add(1);
    match inside.end {
        Ending::Halts => Drawn {
            words,
            end: Ending::Halts,
            returns: rest.returns,
            calls,
        },
        Ending::Returns => Drawn {
            words: words.saturating_add(rest.words),
            end: rest.end,
            returns: rest.returns,
            calls,
        },
    }
}

// Notes `drawn` as what is drawn from `place`, unless `table` has an entry for it, which `drawn`
// becomes then.
#[inline(always)]
fn put_drawn(table: &mut Table, place: Place, drawn: &mut Drawn) {
    match table.at(place) {
        Some(known) => *drawn = known,
        None => table.put(place, *drawn),
    }
}

// Follows the steps at one depth from `start`, up to a place that `table` has an entry for, or from
// which nothing leads on: that one is noted. `chain` gets the places before it. Returns what is
// drawn from that place, or `None` where a pair has a fault, or the steps come to no end.
#[inline(always)]
fn follow<A: Allocator>(
    draft: &[Op],
    rom: &Rom<A>,
    table: &mut Table,
    chain: &mut Chain,
    start: Pair,
) -> Option<Drawn> {
    let mut place = start.place;
    for _step in 0..draft.len() + usize::from(rom.len_words()) + 1 {
        if let Some(known) = table.at(place) {
            return Some(known);
        }
        let pair = Pair {
            place,
            depth: start.depth,
        };
        let Ok(way) = look(draft, rom, pair) else {
            return None;
        };
        match onward(way) {
            Some(next) => {
                chain.push(place);
                place = next;
            }
            None => {
                let mut drawn = last_drawn(way);
                put_drawn(table, place, &mut drawn);
                return Some(drawn);
            }
        }
    }
    None // They come to no end.
}

// Finds what is drawn from the place of `start`, and from each place on the way from it. Notes it
// in `table`, and returns that of `start`. Returns `None` where a pair has a fault, or steps at one
// depth come to no end. The places of other depths stay in `chain`.
fn settle<A: Allocator>(
    draft: &[Op],
    rom: &Rom<A>,
    table: &mut Table,
    chain: &mut Chain,
    start: Pair,
) -> Option<Drawn> {
    let base = chain.len();
    let mut rest = follow(draft, rom, table, chain, start)?;
    while chain.len() > base {
        let place = chain.pop();
        let Some(span) = span_at(draft, rom, place) else {
            unreachable!() // It has no fault.
        };
        match span {
            Span::Over(words) => lengthen(&mut rest, words),
            Span::Into(to) => {
                let inside = Pair {
                    place: to,
                    depth: start.depth + 1,
                };
                let known = match table.at(to) {
                    Some(known) => known,
                    None => settle(draft, rom, table, chain, inside)?,
                };
                rest = called(known, rest);
            }
        }
        put_drawn(table, place, &mut rest);
    }
    Some(rest)
}

/// Returns the number of words that the whole run of `draft` over `rom` fetches, that of word zero
/// included. Returns `None` where a reached pair has a fault, or steps at one depth come to no end.
/// `table` has nothing at first, and `chain` is emptied.
///
/// Each place is gone over once, however many depths it is reached at: what is drawn from it is the
/// same at each, and the table says at which depths no run from it breaks. So the time is linear in
/// the places that are reached. Only a loop takes longer: it is followed for as many steps as there
/// are operations and ROM words.
pub(crate) fn bound_of<A: Allocator>(
    draft: &[Op],
    rom: &Rom<A>,
    table: &mut Table,
    chain: &mut Chain,
) -> Option<u64> {
    chain.clear();
    let first = settle(draft, rom, table, chain, FIRST)?;
    if first.returns || first.calls > DEEPEST {
        return None;
    }
    Some(first.words + 1)
}
}
mod chain {
//! A chain of places, of which each leads on to the next one at its depth.
use crate::checking::pair::{DEEPEST, PLACES, number_of, place_of};
use crate::place::Place;
use arrayvec::ArrayVec;

/// The most places of one depth: one more than there are.
pub(crate) const LONGEST: usize = PLACES + 1;

/// The most places of all depths.
pub(crate) const ROOM: usize = LONGEST * (DEEPEST as usize + 1);

/// Places of which each leads on to the next one at its depth, those of each depth after those of
/// the one before. Each takes two bytes: its number in the order of the places.
#[derive(Clone, Debug)]
pub(crate) struct Chain {
    numbers: ArrayVec<u16, ROOM>,
}

impl Chain {
    // Returns a chain with no place.
    pub(crate) fn new() -> Chain {
        Chain {
            numbers: ArrayVec::new(),
        }
    }

    // Returns the number of places, at most `ROOM`.
    pub(crate) fn len(&self) -> usize {
        self.numbers.len()
    }

    // Removes all places.
    pub(crate) fn clear(&mut self) {
        self.numbers.clear();
    }

    // Adds `place` at the end. There must be room for it.
    pub(crate) fn push(&mut self, place: Place) {
        self.numbers.push(number_of(place) as u16);
    }

    // Removes the last place and returns it. The chain must not be empty.
    pub(crate) fn pop(&mut self) -> Place {
        place_of(self.numbers.pop().unwrap())
    }
}
}
mod checks {
//! The check of a draft.
use crate::checked::Checked;
use crate::checking::bounds::bound_of;
use crate::checking::chain::Chain;
use crate::checking::straight::{Measure, measured};
use crate::checking::sweep::sweep;
use crate::checking::table::Table;
use crate::checking::worklist::Worklist;
use crate::draft::{Draft, MAX_OPS, are_ops};
use crate::fault::FrameFault;
use crate::frame::{Frame, MAX_WORDS};
use crate::op::{Op, OpKind};
use dvg_code::Instr;
use dvg_mem::Rom;
use std::alloc::Allocator;

// Returns whether `kind` draws a LABS.
fn is_labs(kind: OpKind) -> bool {
    match kind {
        OpKind::Draw(code) => matches!(code.instr(), Instr::Labs { .. }),
        _ => false,
    }
}

// Returns whether `kind` names an operation whose number isn't below `count`.
fn names_none(count: usize, kind: OpKind) -> bool {
    match kind {
        OpKind::Call(j) | OpKind::Jump(j) => count <= usize::from(j),
        _ => false,
    }
}

// Returns the number of the first operation that names one which `draft` doesn't have, if there is
// one.
fn first_miss(draft: &[Op]) -> Option<u16> {
    let count = draft.len();
    for i in 0..count {
        if names_none(count, draft[i].kind()) {
            return Some(i as u16);
        }
    }
    None
}

// Returns what `draft` measures, or the first of the faults 1 to 4 that it has.
fn measure_or_fault(draft: &[Op]) -> Result<Measure, FrameFault> {
    let count = draft.len();
    if count == 0 {
        return Err(FrameFault::Empty);
    }
    if !is_labs(draft[0].kind()) {
        return Err(FrameFault::NoLabs);
    }
    // Each operation has a word at least.
    if count > MAX_OPS {
        return Err(FrameFault::TooLong);
    }
    are_ops(draft);
    let measure = measured(draft);
    if measure.words > MAX_WORDS {
        return Err(FrameFault::TooLong);
    }
    // Vectors, LABS and HALT name no operation.
    if measure.is_straight {
        return Ok(measure);
    }
    match first_miss(draft) {
        Some(i) => Err(FrameFault::Target(i)),
        None => Ok(measure),
    }
}

/// The check, with tables of a fixed size that are kept from one check to the next: a check takes
/// time for the operations and for the places that it reaches, and none for the size of the tables,
/// which is about 67 KB. A draft that is refused for a place of its run, or as a run of it comes to
/// no end, takes 38 KB more of the stack, which are laid out for it alone. What a check returns
/// doesn't depend on those before. A caller that checks many drafts should keep one, on the heap.
#[derive(Clone, Debug)]
pub struct Checker {
    table: Table,
    chain: Chain,
}

impl Checker {
    /// Returns a checker, with nothing in its tables.
    pub fn new() -> Checker {
        Checker {
            table: Table::new(),
            chain: Chain::new(),
        }
    }

    /// Checks the draft of the operations `ops` over `rom`. Returns the checked draft, which lies
    /// where `ops` does, where it has no fault, otherwise the fault that is picked: faults 1 to 4
    /// in their order, then that of the first reached pair of place and depth that has one, then
    /// fault 9. Operations come before ROM words, each by number, and of one place the lesser depth
    /// comes first; if several faults hold at that pair, the one of least number is returned (this
    /// project's own choice).
    ///
    /// The pairs begin with operation 0 at depth 0. A vector or a LABS leads to the place after it,
    /// a jump to its target, a call to its target one deeper and to the place after it at its own
    /// depth. A return, a halt and a pair with a fault lead nowhere.
    ///
    /// Each draft has exactly one result over each ROM. The time is linear in the draft's
    /// operations and the places and pairs that are reached. Only a loop takes longer: it is
    /// followed for as many steps as there are places.
    pub fn check<'a, A: Allocator>(
        &mut self,
        ops: &'a [Op],
        rom: &Rom<A>,
    ) -> Result<Checked<'a>, FrameFault> {
        let measure = match measure_or_fault(ops) {
            Ok(measure) => measure,
            Err(fault) => return Err(fault),
        };
        let words = measure.words;
        // Such a draft has no fault. Its run fetches word zero, too.
        if measure.is_straight {
            return Ok(Checked::of(ops, words, u64::from(words) + 1));
        }
        // A ROM has 2,048 or 4,096 bytes, as its type says.
        let _ = rom.len_words();
        match self.bound_or_fault(ops, rom) {
            Ok(bound) => Ok(Checked::of(ops, words, bound)),
            Err(fault) => Err(fault),
        }
    }

    // Returns the bound of `draft` over `rom`, or the fault that is picked. `draft` has none of the
    // faults 1 to 4.
    fn bound_or_fault<A: Allocator>(
        &mut self,
        draft: &[Op],
        rom: &Rom<A>,
    ) -> Result<u64, FrameFault> {
        let bound = bound_of(draft, rom, &mut self.table, &mut self.chain);
        self.table.clear();
        match bound {
            Some(bound) => Ok(bound),
            None => Err(picked(draft, rom)),
        }
    }
}

// Returns the fault that is picked of `draft` over `rom`. The draft has none of the faults 1 to 4,
// but a reached pair has a fault, or steps at one depth come to no end. The list of the pairs is
// laid out for such a draft alone.
#[inline(never)]
fn picked<A: Allocator>(draft: &[Op], rom: &Rom<A>) -> FrameFault {
    let mut reached = Worklist::new();
    match sweep(&mut reached, draft, rom) {
        Some(found) => found.fault,
        None => FrameFault::Loops,
    }
}

/// Returns the frame of `draft` where it has no fault over `rom`, otherwise the fault that is
/// picked, as by a `Checker`, whose tables are laid out on the stack. A caller that checks many
/// drafts should keep one, which saves the time for that.
pub fn check<A: Allocator>(draft: &Draft, rom: &Rom<A>) -> Result<Frame, FrameFault> {
    match Checker::new().check(draft.ops(), rom) {
        Ok(checked) => Ok(checked.to_frame()),
        Err(fault) => Err(fault),
    }
}
}
mod look {
//! What is wrong at a pair of place and depth.
use crate::checking::pair::{DEEPEST, Pair};
use crate::checking::way::{Way, is_outside, way_at};
use crate::fault::FrameFault;
use crate::op::Op;
use crate::place::Place;
use dvg_mem::Rom;
use std::alloc::Allocator;

// Returns the number of the operation at `place`, if it is the last one of `count`.
fn last_op(count: usize, place: Place) -> Option<u16> {
    match place {
        Place::InFrame(i) => {
            if usize::from(i) + 1 == count {
                Some(i)
            } else {
                None
            }
        }
        Place::InRom(_) => None,
    }
}

// Returns the fault of least number at `pair`, over `rom`, if there is one. The draft has `count`
// operations, and `seen` is the way on.
#[inline(always)]
fn fault_at<A: Allocator>(rom: &Rom<A>, count: usize, pair: Pair, seen: Way) -> Option<FrameFault> {
    match seen {
        Way::Move(after, _) => match last_op(count, pair.place) {
            Some(i) => Some(FrameFault::RunsOff(i)),
            None if is_outside(rom, after) => Some(FrameFault::OutOfRom(pair.place)),
            None => None,
        },
        Way::Jump(to) if is_outside(rom, to) => Some(FrameFault::OutOfRom(pair.place)),
        Way::Call(to, after) => match last_op(count, pair.place) {
            Some(i) => Some(FrameFault::RunsOff(i)),
            None if is_outside(rom, to) || is_outside(rom, after) => {
                Some(FrameFault::OutOfRom(pair.place))
            }
            None if pair.depth == DEEPEST => Some(FrameFault::TooDeep(pair.place)),
            None => None,
        },
        Way::Return if pair.depth == 0 => Some(FrameFault::NoCaller(pair.place)),
        Way::Jump(_) | Way::Return | Way::Halt => None,
    }
}

// Returns the way on from `pair`, of `draft` over `rom`, or the fault of least number there.
#[inline(always)]
pub(crate) fn look<A: Allocator>(draft: &[Op], rom: &Rom<A>, pair: Pair) -> Result<Way, FrameFault> {
    match way_at(draft, rom, pair.place) {
        Some(seen) => match fault_at(rom, draft.len(), pair, seen) {
            Some(fault) => Err(fault),
            None => Ok(seen),
        },
        None => Err(FrameFault::OutOfRom(pair.place)),
    }
}
}
mod pair {
//! Places, and pairs of a place and a depth, each by its number.
use crate::draft::MAX_OPS;
use crate::place::Place;
use dvg_gen::STACK_DEPTH;
use dvg_mem::{FIRST_LARGE_ROM_WORD, ROM_END};

/// The most calls that are open at once: the generator's return stack holds four addresses.
pub(crate) const DEEPEST: u8 = STACK_DEPTH as u8;

/// The word address of the first word that a ROM can have.
pub(crate) const ROM_FIRST: u16 = FIRST_LARGE_ROM_WORD;

/// The most words that a ROM can have.
pub(crate) const ROM_WORDS: usize = (ROM_END - ROM_FIRST) as usize;

/// The number of places: each operation and each word that a ROM can have.
pub(crate) const PLACES: usize = MAX_OPS + ROM_WORDS;

/// The number of depths: none to four open calls.
const DEPTHS: u16 = DEEPEST as u16 + 1;

/// The number of pairs: at each place one for each depth.
pub(crate) const PAIRS: usize = PLACES * (DEEPEST as usize + 1);

/// A place, and how many calls are open there.
#[derive(Clone, Copy)]
#[derive(Debug)]
pub(crate) struct Pair {
    pub(crate) place: Place,
    pub(crate) depth: u8,
}

/// The pair at which each run begins.
pub(crate) const FIRST: Pair = Pair {
    place: Place::InFrame(0),
    depth: 0,
};

// Returns the number of `place`, counted in the order of the places: operations, then ROM words.
pub(crate) fn number_of(place: Place) -> usize {
    match place {
        Place::InFrame(i) => usize::from(i),
        Place::InRom(a) => MAX_OPS + usize::from(a) - usize::from(ROM_FIRST),
    }
}

// Returns the place of the number `number`, which has 14 bits, as `number_of` counts them.
pub(crate) fn place_of(number: u16) -> Place {
    let ops = MAX_OPS as u16;
    if number < ops {
        Place::InFrame(number)
    } else {
        Place::InRom(ROM_FIRST + (number - ops))
    }
}

// Returns the number of `pair`, counted in the order in which faults are picked.
pub(crate) fn index_of(pair: Pair) -> usize {
    (usize::from(DEEPEST) + 1) * number_of(pair.place) + usize::from(pair.depth)
}

// Returns the pair of the number `number`, as `index_of` counts them.
pub(crate) fn pair_of(number: u16) -> Pair {
    Pair {
        place: place_of(number / DEPTHS),
        depth: (number % DEPTHS) as u8,
    }
}
}
mod pair_list {
//! Lists of pairs.
use crate::checking::pair::{PAIRS, Pair, index_of, pair_of};
use arrayvec::ArrayVec;

/// A list of at most `PAIRS` pairs. Each takes two bytes: its number in the order in which faults
/// are picked.
#[derive(Clone, Debug)]
pub(crate) struct PairList {
    numbers: ArrayVec<u16, PAIRS>,
}

impl PairList {
    // Returns a list with no pair.
    pub(crate) fn new() -> PairList {
        PairList {
            numbers: ArrayVec::new(),
        }
    }

    // Returns the number of pairs, at most `PAIRS`.
    pub(crate) fn len(&self) -> usize {
        self.numbers.len()
    }

    // Returns the pair at the position `i`, which must be below the number of pairs.
    pub(crate) fn at(&self, i: usize) -> Pair {
        pair_of(self.numbers[i])
    }

    // Adds `pair` at the end. There must be room for it.
    pub(crate) fn push(&mut self, pair: Pair) {
        self.numbers.push(index_of(pair) as u16);
    }
}
}
mod straight {
//! How many words a draft has, and whether it runs straight to its end.
use crate::draft::words_of;
use crate::op::{Op, OpKind};

/// What one pass over a draft tells: how many words it has, and whether it has vectors and LABS
/// alone before its only HALT. Nothing need be noted of the places of such a draft: each is
/// reached once, at depth 0.
#[derive(Clone, Copy)]
pub(crate) struct Measure {
    pub words: u16,
    pub is_straight: bool,
}

// Returns 1 where `kind` is a vector or a LABS, otherwise 0.
fn draws_of(kind: OpKind) -> u16 {
    match kind {
        OpKind::Draw(_) => 1,
        _ => 0,
    }
}

// Returns whether `kind` is a HALT.
fn is_halt(kind: OpKind) -> bool {
    matches!(kind, OpKind::Halt)
}

/// Returns what `draft` measures, which must have 1 to 511 operations. All are looked at, and none
/// is told apart from others by a branch: so a processor takes several at once.
pub(crate) fn measured(draft: &[Op]) -> Measure {
    let mut words = 0;
    let mut draws = 0;
    for op in draft {
        let kind = op.kind();
        words += words_of(kind);
        draws += draws_of(kind);
    }
    let before = draft.len() - 1;
    Measure {
        words,
        is_straight: usize::from(draws) == before && is_halt(draft[before].kind()),
    }
}
}
mod sweep {
//! The sweep over all pairs that a draft's run can come to.
use crate::checking::look::look;
use crate::checking::pair::{FIRST, Pair, index_of};
use crate::checking::way::Way;
use crate::checking::worklist::Worklist;
use crate::fault::FrameFault;
use crate::op::Op;
use dvg_mem::Rom;
use std::alloc::Allocator;

/// A pair that has a fault, and the fault of least number there.
#[derive(Clone, Copy)]
#[derive(Debug)]
pub(crate) struct Found {
    pub(crate) pair: Pair,
    pub(crate) fault: FrameFault,
}

// Adds to `list` the pairs that `way` leads to from the depth `depth`.
fn spread(list: &mut Worklist, way: Way, depth: u8) {
    match way {
        Way::Move(next, _) | Way::Jump(next) => list.add(Pair { place: next, depth }),
        Way::Call(target, after) => {
            let inside = Pair {
                place: target,
                depth: depth + 1,
            };
            let past = Pair {
                place: after,
                depth,
            };
            list.add(inside);
            list.add(past);
        }
        Way::Return | Way::Halt => {}
    }
}

// Returns the one of `best` and `found` whose pair comes first.
fn first_of(best: Option<Found>, found: Found) -> Found {
    match best {
        Some(old) => {
            if index_of(old.pair) < index_of(found.pair) {
                old
            } else {
                found
            }
        }
        None => found,
    }
}

/// Returns the first reached pair that has a fault, of `draft` over `rom`, with the fault of least
/// number there. Returns `None` where there is no such pair. `list` has no pair at first, and the
/// reached ones at the end.
///
/// Each pair is looked at once, when its turn comes in a list without doubles, so the time is
/// linear in the number of reached pairs.
pub(crate) fn sweep<A: Allocator>(list: &mut Worklist, draft: &[Op], rom: &Rom<A>) -> Option<Found> {
    list.add(FIRST);
    let mut best = None;
    let mut done = 0;
    while done < list.len() {
        let pair = list.at(done);
        match look(draft, rom, pair) {
            Ok(way) => spread(list, way, pair.depth),
            Err(fault) => best = Some(first_of(best, Found { pair, fault })),
        }
        done += 1;
    }
    best
}
}
mod table {
//! What is known of each place: what is drawn from it, and at which depths no run from it breaks.
use crate::checking::pair::{PLACES, number_of};
use crate::place::Place;

/// How what is drawn from a place ends.
#[derive(Clone, Copy)]
#[derive(Debug)]
pub(crate) enum Ending {
    Halts,
    Returns,
}

/// What is drawn from a place.
#[derive(Clone, Copy)]
#[derive(Debug)]
pub(crate) struct Drawn {
    /// The number of words that are fetched. It saturates, at a number that no draft without a
    /// fault reaches.
    pub(crate) words: u64,
    /// How it ends.
    pub(crate) end: Ending,
    /// Whether the steps at its own depth come to a return, even where a call on the way halts.
    pub(crate) returns: bool,
    /// The most calls that are open at once, of those that are made on the way.
    pub(crate) calls: u8,
}

/// What was noted of a place, and in which round. Before the first round each place has a note of
/// round 0.
#[derive(Clone, Copy)]
#[derive(Debug)]
pub(crate) struct Note {
    words: u64,
    round: u32,
    end: Ending,
    returns: bool,
    calls: u8,
}

/// The note of a place of which nothing was noted.
const BLANK: Note = Note {
    words: 0,
    round: 0,
    end: Ending::Halts,
    returns: false,
    calls: 0,
};

/// What is known of each place: its note, where that is of the newest round. To forget everything,
/// a new round begins.
#[derive(Clone, Debug)]
pub(crate) struct Table {
    notes: [Note; PLACES],
    round: u32,
}

impl Table {
    // Returns a table in which nothing is known.
    pub(crate) fn new() -> Table {
        Table {
            notes: [BLANK; PLACES],
            round: 1,
        }
    }

    // Returns what is known of `place`.
    pub(crate) fn at(&self, place: Place) -> Option<Drawn> {
        let note = self.notes[number_of(place)];
        if note.round == self.round {
            Some(Drawn {
                words: note.words,
                end: note.end,
                returns: note.returns,
                calls: note.calls,
            })
        } else {
            None
        }
    }

    // Notes `drawn` as what is drawn from `place`.
    pub(crate) fn put(&mut self, place: Place, drawn: Drawn) {
        self.notes[number_of(place)] = Note {
            words: drawn.words,
            round: self.round,
            end: drawn.end,
            returns: drawn.returns,
            calls: drawn.calls,
        };
    }

    // Forgets what is known. The notes are gone over only where the rounds are at their greatest
    // number.
    pub(crate) fn clear(&mut self) {
        if self.round == u32::MAX {
            *self = Table::new();
            return;
        }
        self.round += 1;
    }
}
}
mod way {
//! Where a place leads: the successors of the operation or instruction there.
use crate::draft::words_of;
use crate::op::{Op, OpKind};
use crate::place::Place;
use dvg_mem::{ROM_END, Rom};
use std::alloc::Allocator;

/// Where the instruction at a place leads on: its successors.
#[derive(Clone, Copy)]
pub(crate) enum Way {
    /// Over this many words to the place after it.
    Move(Place, u64),
    /// To a target.
    Jump(Place),
    /// To the subroutine at a target, and from there to the place after it.
    Call(Place, Place),
    /// Back to the newest call.
    Return,
    /// Nowhere: the run ends.
    Halt,
}

/// What is fetched from a place to where it leads on at its own depth.
#[derive(Clone, Copy)]
pub(crate) enum Span {
    /// This many words.
    Over(u64),
    /// A call of the subroutine at a target, and all that is drawn from there.
    Into(Place),
}

// Returns whether `place` is at an address outside `rom`.
pub(crate) fn is_outside<A: Allocator>(rom: &Rom<A>, place: Place) -> bool {
    match place {
        Place::InFrame(_) => false,
        Place::InRom(a) => a < rom.first() || ROM_END <= a,
    }
}

// Returns the way of the operation `kind`, where `after` is the place after it.
#[inline(always)]
fn way_of_op(kind: OpKind, after: Place) -> Way {
    match kind {
        OpKind::Draw(_) => Way::Move(after, u64::from(words_of(kind))),
        OpKind::CallRom(a) => Way::Call(Place::InRom(a), after),
        OpKind::JumpRom(a) => Way::Jump(Place::InRom(a)),
        OpKind::Call(j) => Way::Call(Place::InFrame(j), after),
        OpKind::Jump(j) => Way::Jump(Place::InFrame(j)),
        OpKind::Return => Way::Return,
        OpKind::Halt => Way::Halt,
    }
}

// Returns the span of `way`.
fn span_of(way: Way) -> Span {
    match way {
        Way::Move(_, words) => Span::Over(words),
        Way::Call(to, _) => Span::Into(to),
        Way::Jump(_) | Way::Return | Way::Halt => Span::Over(1),
    }
}

// Returns the span of the operation `kind`.
fn span_of_op(kind: OpKind) -> Span {
    match kind {
        OpKind::CallRom(a) => Span::Into(Place::InRom(a)),
        OpKind::Call(j) => Span::Into(Place::InFrame(j)),
        _ => Span::Over(u64::from(words_of(kind))),
    }
}

// Returns the way on from the word at `a` of `rom`, by its opcode, or `None` where the ROM ends
// within the instruction.
fn rom_way<A: Allocator>(rom: &Rom<A>, a: u16) -> Option<Way> {
    let word = rom.word(a);
    if word < 0xB000 {
        return if a + 1 == ROM_END {
            None
        } else {
            Some(Way::Move(Place::InRom(a + 2), 2))
        };
    }
    let target = Place::InRom(word % 0x1000);
    let after = Place::InRom(a + 1);
    let way = match word >> 12 {
        0xB => Way::Halt,
        0xC => Way::Call(target, after),
        0xD => Way::Return,
        0xE => Way::Jump(target),
        _ => Way::Move(after, 1),
    };
    Some(way)
}

// Returns the way on from `place`, of `draft` over `rom`, or `None` where the ROM ends within the
// instruction there.
#[inline(always)]
pub(crate) fn way_at<A: Allocator>(draft: &[Op], rom: &Rom<A>, place: Place) -> Option<Way> {
    match place {
        Place::InFrame(i) => {
            let op = draft[usize::from(i)];
            let after = Place::InFrame(i + 1);
            Some(way_of_op(op.kind(), after))
        }
        Place::InRom(a) => rom_way(rom, a),
    }
}

// Returns the span of the way on from `place`, of `draft` over `rom`, by fewer branches than
// `way_at` takes. Returns `None` where the ROM ends within the instruction there.
#[inline(always)]
pub(crate) fn span_at<A: Allocator>(draft: &[Op], rom: &Rom<A>, place: Place) -> Option<Span> {
    match place {
        Place::InFrame(i) => Some(span_of_op(draft[usize::from(i)].kind())),
        Place::InRom(a) => Some(span_of(rom_way(rom, a)?)),
    }
}
}
mod worklist {
//! A work list of pairs.
use crate::checking::pair::{PAIRS, Pair, index_of};
use crate::checking::pair_list::PairList;

/// Pairs, each once, in the order in which they came.
#[derive(Clone, Debug)]
pub(crate) struct Worklist {
    marks: [bool; PAIRS],
    pairs: PairList,
}

impl Worklist {
    // Returns a list with no pair.
    pub(crate) fn new() -> Worklist {
        Worklist {
            marks: [false; PAIRS],
            pairs: PairList::new(),
        }
    }

    // Returns the number of pairs.
    pub(crate) fn len(&self) -> usize {
        self.pairs.len()
    }

    // Returns the pair at the position `i`, which must be below the number of pairs.
    pub(crate) fn at(&self, i: usize) -> Pair {
        self.pairs.at(i)
    }

    // Adds `pair` at the end, unless it is there.
    pub(crate) fn add(&mut self, pair: Pair) {
        let i = index_of(pair);
        if !self.marks[i] {
            self.marks[i] = true;
            self.pairs.push(pair);
        }
    }
}
}

pub use checks::{Checker, check};
}
mod counted {
//! Drafts with the places of their operations.
use crate::draft::{MAX_OPS, words_of};
use crate::op::Op;
use arrayvec::ArrayVec;

/// One entry for each operation, and one for their end.
pub(crate) const COUNTS: usize = MAX_OPS + 1;

/// The operations of a draft and a table of how many words stand before each of them, both
/// borrowed, so that the place of an operation is found in constant time.
#[derive(Clone, Debug)]
pub(crate) struct Counted<'a> {
    ops: &'a [Op],
    /// For each operation the number of words before it, and then the number of all words.
    words_before: &'a [u16],
}

impl<'a> Counted<'a> {
    // Returns `ops` with their table `words_before`.
    pub(crate) fn of(ops: &'a [Op], words_before: &'a [u16]) -> Counted<'a> {
        Counted { ops, words_before }
    }

    // Returns the number of operations.
    pub(crate) fn len(&self) -> usize {
        self.ops.len()
    }

    // Returns operation `i`, which must be there.
    pub(crate) fn op(&self, i: usize) -> Op {
        let ops = self.ops;
        ops[i]
    }

    // Returns the number of words that the operations before number `i` have.
    pub(crate) fn words_before(&self, i: usize) -> u16 {
        let words_before = self.words_before;
        words_before[i]
    }
}

// Returns for each of `ops`, which a draft holds, the number of words before it, and then the
// number of all words.
pub(crate) fn words_before_each(ops: &[Op]) -> ArrayVec<u16, COUNTS> {
    let mut words_before = ArrayVec::new();
    put_words_before(&mut words_before, ops);
    words_before
}

// Makes `words_before` the list that `words_before_each` returns of `ops`. It is made where it
// lies, so no room is zeroed and nothing is copied.
pub(crate) fn put_words_before(words_before: &mut ArrayVec<u16, COUNTS>, ops: &[Op]) {
    let mut words = 0;
    words_before.clear();
    words_before.push(words);
    for op in ops {
        words += words_of(op.kind());
        words_before.push(words);
    }
}
}
mod cursor {
//! Cursors: the bytes of a frame, one after the other.
use crate::checked::Checked;
use crate::counted::{COUNTS, Counted, put_words_before};
use crate::draft::Draft;
use crate::frame::{Frame, spelling};
use crate::word_bytes::WordBytes;
use arrayvec::ArrayVec;
use dvg_mem::Half;
use std::iter::FusedIterator;

/// An iterator over the bytes of a checked draft that is laid out for a half, each with its byte
/// address in the RAM: from the low byte of the half's first word on, in rising order.
///
/// A cursor keeps the draft, its place in it, and how many words stand before each operation, so
/// that an item takes constant time.
#[derive(Clone, Debug)]
pub struct Cursor {
    draft: Draft,
    /// For each operation of the draft the number of words before it, and then the number of all
    /// words.
    words_before: ArrayVec<u16, COUNTS>,
    half: Half,
    /// The bytes at hand: those still to come of the operation before number `op`.
    at_hand: WordBytes,
    /// The number of the operation that comes after the bytes at hand.
    op: u16,
    /// The address after the last byte.
    end: u16,
    /// The number of bytes that are still to come.
    left: u16,
}

impl Cursor {
    /// Returns a cursor over the bytes of `frame`, laid out for `half`.
    pub fn new(frame: Frame, half: Half) -> Cursor {
        Cursor::of(&frame.as_checked(), half)
    }

    /// Returns a cursor over the bytes of `checked`, laid out for `half`. The operations are
    /// copied: so a draft that is checked where it lies is copied once, into its cursor.
    pub fn of(checked: &Checked, half: Half) -> Cursor {
        let left = 2 * checked.len_words();
        Cursor {
            draft: checked.to_draft(),
            words_before: checked.words_before_each(),
            half,
            at_hand: WordBytes::new(),
            op: 0,
            end: 2 * half.base() + left,
            left,
        }
    }

    /// Returns a cursor over the last `left` bytes of `checked`, laid out for `half`. So it goes on
    /// as a cursor that gave the bytes before them. `left` must be at most twice the number of
    /// words. The time is linear in the bytes that are passed over.
    pub fn with_left(checked: &Checked, half: Half, left: u16) -> Cursor {
        let mut cursor = Cursor::of(checked, half);
        for _ in 0..cursor.left() - left {
            cursor.next();
        }
        cursor
    }

    /// Begins anew, with the bytes of `checked`, laid out for `half`. The operations are copied
    /// into the memory that the cursor has: the time is linear in them, and in those that it kept.
    pub fn restart(&mut self, checked: &Checked, half: Half) {
        self.draft.clear();
        self.draft.try_extend_from_slice(checked.ops()).unwrap();
        put_words_before(&mut self.words_before, checked.ops());
        self.half = half;
        self.at_hand = WordBytes::new();
        self.op = 0;
        self.left = 2 * checked.len_words();
        self.end = 2 * half.base() + self.left;
    }

    /// Returns the draft whose bytes the cursor gives, and the half that it is laid out for.
    pub fn source(&self) -> (&Draft, Half) {
        (&self.draft, self.half)
    }

    /// Returns the number of items that are still to come.
    pub fn left(&self) -> u16 {
        self.left
    }
}

impl Iterator for Cursor {
    type Item = (u16, u8);

    #[inline(always)]
    fn next(&mut self) -> Option<(u16, u8)> {
        if self.left == 0 {
            return None;
        }
        if self.at_hand.is_empty() {
            self.at_hand = bytes_of(&self.draft, &self.words_before, self.half, self.op);
            self.op += 1;
        }
        let address = self.end - self.left;
        self.left -= 1;
        Some((address, self.at_hand.take()))
    }
}

impl FusedIterator for Cursor {}

// Returns the bytes of operation `op` of `draft`, laid out for `half`. In `words_before` stands how
// many words come before each operation. It isn't inlined: most ticks find a byte at hand.
#[inline(never)]
fn bytes_of(draft: &Draft, words_before: &ArrayVec<u16, COUNTS>, half: Half, op: u16) -> WordBytes {
    let counted = Counted::of(draft.ops(), words_before.as_slice());
    WordBytes::of(spelling(&counted, half, usize::from(op)).as_slice())
}
}
mod draft {
//! Drafts.
use crate::op::{Op, OpKind};
use arrayvec::ArrayVec;
use thiserror::Error;

/// The most operations that a draft holds. One word each is as much as a half of the RAM has.
pub const MAX_OPS: usize = 511;

/// There is no room: a draft has at most 511 operations.
#[derive(Clone, Copy, Debug, PartialEq, Eq, Error, Hash)]
#[error("the draft has its 511 operations already")]
#[cfg_attr(feature = "serde", derive(serde::Serialize, serde::Deserialize))]
pub struct DraftFull;

/// A list of at most 511 operations, numbered from 0.
#[derive(Clone, Debug, PartialEq, Eq, Hash)]
pub struct Draft {
    ops: ArrayVec<Op, MAX_OPS>,
}

impl Draft {
    /// Returns a draft with no operation.
    pub fn new() -> Draft {
        Draft {
            ops: ArrayVec::new(),
        }
    }

    /// Returns the number of operations, at most 511.
    pub fn len(&self) -> usize {
        self.ops.len()
    }

    /// Returns whether there is no operation.
    pub fn is_empty(&self) -> bool {
        self.ops.is_empty()
    }

    /// Adds `op` at the end, and returns its number. Returns `DraftFull` exactly where there are
    /// 511 operations, and then nothing has changed.
    pub fn push(&mut self, op: Op) -> Result<u16, DraftFull> {
        if self.ops.is_full() {
            return Err(DraftFull);
        }
        let number = self.ops.len() as u16;
        self.ops.push(op);
        Ok(number)
    }

    /// Adds `ops` at the end. Returns `DraftFull` exactly where there would be more than 511
    /// operations, and then nothing has changed.
    pub fn try_extend_from_slice(&mut self, ops: &[Op]) -> Result<(), DraftFull> {
        if self.ops.remaining_capacity() < ops.len() {
            return Err(DraftFull);
        }
        are_ops(ops);
        self.ops.try_extend_from_slice(ops).unwrap();
        Ok(())
    }

    /// Returns a draft of the same operations. It is what `clone` returns, which needs no memory
    /// here.
    pub fn copy(&self) -> Draft {
        let mut draft = Draft::new();
        draft.try_extend_from_slice(self.ops()).unwrap();
        draft
    }

    /// Removes all operations.
    pub fn clear(&mut self) {
        self.ops.clear();
    }

    /// Returns operation `i`, which must be below the number of operations.
    pub fn op(&self, i: usize) -> Op {
        self.ops[i]
    }

    /// Returns all operations, in order.
    pub fn ops(&self) -> &[Op] {
        self.ops.as_slice()
    }
}

// For the proof alone: each of `ops` satisfies `IsOp`, as its type says. Nothing is done.
pub(crate) fn are_ops(ops: &[Op]) {
    for op in ops {
        let _ = op.kind();
    }
}

// Returns the number of words of the operation `kind`: 1 or 2.
pub(crate) fn words_of(kind: OpKind) -> u16 {
    match kind {
        OpKind::Draw(code) => code.word_count(),
        _ => 1,
    }
}
}
mod fault {
//! What can be wrong with a draft.
use crate::place::Place;
use thiserror::Error;

/// Why a draft is refused. The faults have the numbers 1 to 9, in this order (this project's own
/// choice).
#[derive(Clone, Copy, Debug, PartialEq, Eq, Error, Hash)]
#[cfg_attr(feature = "serde", derive(serde::Serialize, serde::Deserialize))]
#[cfg_attr(feature = "serde", serde(try_from = "crate::rust::FrameFaultForm"))]
pub enum FrameFault {
    /// 1: there is no operation.
    #[error("there is no operation")]
    Empty,
    /// 2: operation 0 isn't a LABS.
    #[error("operation 0 is no LABS")]
    NoLabs,
    /// 3: there are more than 511 words.
    #[error("there are more than 511 words")]
    TooLong,
    /// 4: this operation names one that the draft doesn't have. It is the least such operation.
    #[error("operation {0} names one that the draft doesn't have")]
    Target(u16),
    /// 5: this operation is the last one, and goes on at the place after it.
    #[error("operation {0} is the last one, and goes on")]
    RunsOff(u16),
    /// 6: this place leads to an address outside the ROM, which is at `Rom::first` to BFF: by a
    /// target, by a second word, or by the place after it.
    #[error("{0} leads to an address outside the ROM")]
    OutOfRom(Place),
    /// 7: at this place there is a call while four are open.
    #[error("{0} calls while four calls are open")]
    TooDeep(Place),
    /// 8: at this place there is a return while no call is open.
    #[error("{0} returns while no call is open")]
    NoCaller(Place),
    /// 9: none of the others holds, and steps at one depth lead from a reached place back to it, so
    /// that its run may come to no end.
    #[error("steps at one depth lead back to a place")]
    Loops,
}

impl FrameFault {
    /// Returns the number of the fault in texts and replies: 1 to 9 (this project's own choice).
    pub fn number(self) -> u8 {
        match self {
            FrameFault::Empty => 1,
            FrameFault::NoLabs => 2,
            FrameFault::TooLong => 3,
            FrameFault::Target(_) => 4,
            FrameFault::RunsOff(_) => 5,
            FrameFault::OutOfRom(_) => 6,
            FrameFault::TooDeep(_) => 7,
            FrameFault::NoCaller(_) => 8,
            FrameFault::Loops => 9,
        }
    }

    /// Returns the place that the fault names, if it names one.
    #[must_use]
    pub fn place(self) -> Option<Place> {
        match self {
            FrameFault::Empty | FrameFault::NoLabs | FrameFault::TooLong | FrameFault::Loops =>
                None,
            FrameFault::Target(i) | FrameFault::RunsOff(i) => Some(Place::InFrame(i)),
            FrameFault::OutOfRom(place)
            | FrameFault::TooDeep(place)
            | FrameFault::NoCaller(place) => Some(place),
        }
    }
}
}
mod frame {
//! Frames: drafts that were checked.
use crate::checked::Checked;
use crate::counted::Counted;
use crate::draft::{Draft, words_of};
use crate::op::OpKind;
use dvg_code::{Code, Instr, Words, encode};
use dvg_mem::Half;

/// The most words that a frame has: those of a half of the RAM.
pub(crate) const MAX_WORDS: u16 = 511;

/// A checked draft that owns its operations. It keeps its number of words and its bound, and no
/// laid words.
#[derive(Clone, Debug)]
pub struct Frame {
    draft: Draft,
    words: u16,
    bound: u64,
}

impl Frame {
    // Returns `draft` as a frame. It has none of the faults 1 to 4, `words` words and the bound
    // `bound`.
    pub(crate) fn of(draft: Draft, words: u16, bound: u64) -> Frame {
        Frame {
            draft,
            words,
            bound,
        }
    }

    /// Returns the frame as a checked draft that lies where the frame does.
    pub fn as_checked(&self) -> Checked<'_> {
        Checked::of(self.draft.ops(), self.words, self.bound)
    }

    /// Returns the number of words that the frame has in a half, at most 511.
    pub fn len_words(&self) -> u16 {
        self.as_checked().len_words()
    }

    /// Returns the number of words that the whole run of the frame fetches, as `Checked::bound`
    /// does.
    pub fn bound(&self) -> u64 {
        self.as_checked().bound()
    }

    /// Returns byte `k` of the frame's words in `half`, as `Checked::byte` does.
    pub fn byte(&self, half: Half, k: u16) -> u8 {
        self.as_checked().byte(half, k)
    }
}

// Returns the byte of `word` that is byte `k` of a list of words: the low one where `k` is even,
// otherwise the high one.
pub(crate) fn byte_of(word: u16, k: u16) -> u8 {
    word.to_le_bytes()[usize::from(k % 2)]
}

// Returns word `n` of the layout of `draft` for `half`.
pub(crate) fn word_at(draft: &Counted, half: Half, n: u16) -> u16 {
    let mut before = 0;
    for i in 0..draft.len() {
        let count = words_of(draft.op(i).kind());
        if n < before + count {
            return spelling(draft, half, i)[usize::from(n - before)];
        }
        before += count;
    }
    unreachable!()
}

// Returns the words of operation `i` of `draft`, laid out for `half`.
pub(crate) fn spelling(draft: &Counted, half: Half, i: usize) -> Words {
    encode(&code_of(draft, half, draft.op(i).kind()))
}

// Returns the instruction of the operation `kind` of `draft`, laid out for `half`.
fn code_of(draft: &Counted, half: Half, kind: OpKind) -> Code {
    match kind {
        OpKind::Draw(code) => code,
        OpKind::CallRom(a) => Code::within(Instr::Jsrl(a)),
        OpKind::JumpRom(a) => Code::within(Instr::Jmpl(a)),
        OpKind::Call(j) => Code::within(Instr::Jsrl(address(draft, half, j))),
        OpKind::Jump(j) => Code::within(Instr::Jmpl(address(draft, half, j))),
        OpKind::Return => Code::within(Instr::Rtsl),
        OpKind::Halt => Code::within(Instr::Halt),
    }
}

// Returns the word address of operation `j` of `draft`, laid out for `half`.
fn address(draft: &Counted, half: Half, j: u16) -> u16 {
    half.base() + draft.words_before(usize::from(j))
}
}
mod op {
//! The operations of a draft.
use dvg_code::{Code, Instr};

/// What an operation does. An operation of the draft is named by its number, counted from 0.
#[derive(Clone, Copy, Debug, PartialEq, Eq, Hash)]
#[cfg_attr(feature = "serde", derive(serde::Serialize, serde::Deserialize))]
pub enum OpKind {
    /// Executes a VCTR, an SVEC or a LABS.
    Draw(Code),
    /// Calls the subroutine at this word address of the ROM.
    CallRom(u16),
    /// Jumps to this word address of the ROM.
    JumpRom(u16),
    /// Calls the subroutine that begins at this operation of the draft.
    Call(u16),
    /// Jumps to this operation of the draft.
    Jump(u16),
    /// Returns from the newest call.
    Return,
    /// Ends the run.
    Halt,
}

/// An operation of a draft.
#[derive(Clone, Copy, Debug, PartialEq, Eq, Hash)]
#[cfg_attr(feature = "serde", derive(serde::Serialize, serde::Deserialize))]
#[cfg_attr(feature = "serde", serde(try_from = "OpKind", into = "OpKind"))]
pub struct Op {
    kind: OpKind,
}

/// A halt.
impl Default for Op {
    fn default() -> Op {
        Op { kind: OpKind::Halt }
    }
}

impl Op {
    /// Returns `kind` as an operation. Returns `None` exactly for a `Draw` of an instruction other
    /// than VCTR, SVEC or LABS, and for a `CallRom` or `JumpRom` whose address is over FFF.
    #[must_use]
    pub fn new(kind: OpKind) -> Option<Op> {
        if is_op(&kind) {
            Some(Op { kind })
        } else {
            None
        }
    }

    /// Returns what the operation does.
    pub fn kind(&self) -> OpKind {
        self.kind
    }
}

// Returns whether a draft may hold `kind`.
fn is_op(kind: &OpKind) -> bool {
    match *kind {
        OpKind::Draw(code) => matches!(
            code.instr(),
            Instr::Vctr { .. } | Instr::Svec { .. } | Instr::Labs { .. }
        ),
        OpKind::CallRom(address) | OpKind::JumpRom(address) => address <= 0xFFF,
        OpKind::Call(_) | OpKind::Jump(_) | OpKind::Return | OpKind::Halt => true,
    }
}
}
mod place {
//! Places of a draft's run.
use std::fmt;

/// Where a draft's run can be.
#[derive(Clone, Copy, Debug, PartialEq, Eq, Hash)]
#[cfg_attr(feature = "serde", derive(serde::Serialize, serde::Deserialize))]
#[cfg_attr(feature = "serde", serde(try_from = "crate::rust::PlaceForm"))]
pub enum Place {
    /// At this operation of the draft.
    InFrame(u16),
    /// At this word address of the ROM.
    InRom(u16),
}

impl fmt::Display for Place {
    fn fmt(&self, f: &mut fmt::Formatter<'_>) -> fmt::Result {
        match self {
            Place::InFrame(op) => write!(f, "operation {op}"),
            Place::InRom(address) => write!(f, "rom word {address:03X}"),
        }
    }
}
}
mod word_bytes {
//! The bytes of words, one after the other.
/// Those bytes of at most two words that are still to come. Each word's low byte comes first.
#[derive(Clone, Debug)]
pub(crate) struct WordBytes {
    /// The lowest byte of this number is the next one.
    number: u32,
    /// How many bytes are still to come.
    count: u16,
}

impl WordBytes {
    // Returns the bytes of no word.
    pub(crate) fn new() -> WordBytes {
        WordBytes {
            number: 0,
            count: 0,
        }
    }

    // Returns the bytes of `words`, which are at most two.
    #[inline(always)]
    pub(crate) fn of(words: &[u16]) -> WordBytes {
        match words {
            [] => WordBytes::new(),
            [word] => WordBytes {
                number: u32::from(*word),
                count: 2,
            },
            [first, second] => WordBytes {
                number: u32::from(*first) + 0x1_0000 * u32::from(*second),
                count: 4,
            },
            _ => unreachable!(), // There are at most two.
        }
    }

    // Returns whether no byte is left.
    #[inline(always)]
    pub(crate) fn is_empty(&self) -> bool {
        self.count == 0
    }

    // Takes the next byte, of which there must be one, and returns it.
    #[inline(always)]
    pub(crate) fn take(&mut self) -> u8 {
        let byte = (self.number % 0x100) as u8;
        self.number /= 0x100;
        self.count -= 1;
        byte
    }
}
}

pub use checked::Checked;
pub use checking::{Checker, check};
pub use cursor::Cursor;
pub use draft::{Draft, DraftFull, MAX_OPS};
pub use fault::FrameFault;
pub use frame::Frame;
pub use op::{Op, OpKind};
pub use place::Place;

#[path = "../rust.rs"]
mod rust;
pub use rust::*;
