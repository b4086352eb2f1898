//! Growths of memory that are refused by their number, in runs of the plain form: each alone, and
//! each with all after it. In proved code such an allocator would need proofs by hand of its raw
//! blocks. The last line is 'N passed, M failed'.
use dvg_code::{Code, Instr};
use dvg_frame::{Draft, Op, OpKind};
use dvg_mem::{Banked, Flat, Image, Rom, Store};
use dvg_world::{Entry, Event, World, run};
use plain_std::alloc::Global;
use plain_std::prelude::Box;
use std::alloc::{GlobalAlloc, Layout, System};
use std::sync::atomic::{AtomicUsize, Ordering::Relaxed};

/// The heap of this program. Growths are counted from 1, and those of `FIRST` to `LAST` are
/// refused.
struct Refusing;

static GROWTHS: AtomicUsize = AtomicUsize::new(0);
static FIRST: AtomicUsize = AtomicUsize::new(usize::MAX);
static LAST: AtomicUsize = AtomicUsize::new(0);

/// Whether the next growth is refused. It is counted.
fn refuses_next() -> bool {
    let growth = GROWTHS.fetch_add(1, Relaxed) + 1;
    FIRST.load(Relaxed) <= growth && growth <= LAST.load(Relaxed)
}

// SAFETY: each call is that of the system's heap, or answers null, which means no memory.
unsafe impl GlobalAlloc for Refusing {
    unsafe fn alloc(&self, layout: Layout) -> *mut u8 {
        if refuses_next() {
            return std::ptr::null_mut();
        }
        unsafe { System.alloc(layout) }
    }

    unsafe fn dealloc(&self, block: *mut u8, layout: Layout) {
        unsafe { System.dealloc(block, layout) }
    }

    unsafe fn realloc(&self, block: *mut u8, layout: Layout, bytes: usize) -> *mut u8 {
        if refuses_next() {
            return std::ptr::null_mut();
        }
        unsafe { System.realloc(block, layout, bytes) }
    }
}

#[global_allocator]
static HEAP: Refusing = Refusing;

/// What is answered while these growths are refused, and whether one of them was asked for.
fn refusing<T>(first: usize, last: usize, what: impl FnOnce() -> T) -> (T, bool) {
    GROWTHS.store(0, Relaxed);
    FIRST.store(first, Relaxed);
    LAST.store(last, Relaxed);
    let answer = what();
    let refused = first <= GROWTHS.load(Relaxed);
    FIRST.store(usize::MAX, Relaxed);
    (answer, refused)
}

/// A frame of one vector.
fn one_vector() -> Option<Draft> {
    let labs = Instr::Labs {
        x: 512,
        y: 400,
        scale: 0,
    };
    let vector = Instr::Vctr {
        scale: 9,
        dx: -100,
        dy: 100,
        z: 7,
    };
    let mut draft = Draft::new();
    draft.push(Op::new(OpKind::Draw(Code::new(labs)?))?).ok()?;
    draft.push(Op::new(OpKind::Draw(Code::new(vector)?))?).ok()?;
    draft.push(Op::new(OpKind::Halt)?).ok()?;
    Some(draft)
}

/// The first picture: two ticks, an offer, fourteen ticks, a strobe, and twelve fetches.
fn first_picture() -> Option<Vec<Event>> {
    let mut events = vec![Event::Tick, Event::Tick];
    events.push(Event::Offer(Box::new(Global, one_vector()?).ok()?));
    events.extend((0..14).map(|_| Event::Tick));
    events.push(Event::Strobe);
    events.extend((0..12).map(|_| Event::Fetch));
    Some(events)
}

fn new_rom() -> Option<Rom> {
    Rom::new(Global, &[0; 2048]).ok()
}

fn new_image() -> Option<Image> {
    Image::new(Global, &[0; 2048]).ok()
}

/// At which events the first picture's runs stop in which growth number 1, 2, .. is refused, until
/// one meets no refusal: each alone, or with all after it. None where a refusal is passed over, or
/// an answer has other entries than those before its event.
fn stops<S: Store<Alloc = Global>>(alone: bool) -> Option<Vec<usize>> {
    let (image, events) = (new_image()?, first_picture()?);
    let whole = run::<S>(Global, new_rom()?, &image, &events).ok()?;
    let mut places = Vec::new();
    for number in 1.. {
        let rom = new_rom()?;
        let last = if alone { number } else { usize::MAX };
        let run = || run::<S>(Global, rom, &image, &events);
        match refusing(number, last, run) {
            (Ok(entries), false) if entries.as_slice() == whole.as_slice() => return Some(places),
            (Err(stopped), true) if stopped.entries.len() == stopped.event => {
                if stopped.entries.as_slice() != &whole.as_slice()[..stopped.event] {
                    return None;
                }
                places.push(stopped.event);
            }
            _ => return None,
        }
    }
    None
}

/// Whether in a world of the first picture no event takes memory but the fetch of the vector's last
/// byte, which can be given again where its memory was refused.
fn fetch_alone_takes_memory() -> Option<bool> {
    let events = first_picture()?;
    let mut world = World::<Flat>::new(Global, new_rom()?, &new_image()?).ok()?;
    let (ran, refused) = refusing(1, usize::MAX, || {
        events[..27].iter().all(|event| world.apply(event).is_ok())
    });
    if !ran || refused {
        return Some(false);
    }
    let (answer, refused) = refusing(1, usize::MAX, || world.fetch().is_err());
    if !answer || !refused {
        return Some(false);
    }
    Some(matches!(world.fetch(), Ok(Entry::Fetched(0x204, 0x7464))))
}

fn main() {
    let (mut passed, mut failed) = (0, 0);
    let mut expect = |name: &str, holds: bool| {
        if holds {
            passed += 1;
        } else {
            failed += 1;
            println!("FAILED: {name}");
        }
    };
    for alone in [true, false] {
        // The growths are the log, the store, the tables of the check, and the first stroke.
        let flat = stops::<Flat>(alone) == Some(vec![0, 0, 0, 27]);
        expect("each growth that is refused stops a run", flat);
        let banked = stops::<Banked>(alone) == Some(vec![0, 0, 0, 0, 27]);
        expect("each growth that is refused stops a run over two banks", banked);
    }
    let fetch = fetch_alone_takes_memory() == Some(true);
    expect("no event but a fetch takes memory", fetch);
    println!("{passed} passed, {failed} failed");
    std::process::exit(i32::from(failed > 0));
}
