//! An allocator of one's own, and what comes where it refuses: each request once, and each with all
//! after it. What is called takes no other memory, and gives all of it back, by the layouts that it
//! took it with. The last line is 'N passed, M failed'.
use std::alloc::{GlobalAlloc, Layout, System};
use std::cell::{Cell, RefCell};
use std::collections::HashMap;
use std::fmt::Debug;
use std::process::ExitCode;
use std::ptr::NonNull;
use std::sync::atomic::{AtomicBool, AtomicUsize, Ordering::Relaxed};

use gerbilargent::alloc::Vec;
use gerbilargent::alloc::allocator_api2::alloc::{AllocError, Allocator, Global};
use gerbilargent::dump::Dump;
use gerbilargent::sketch::read_sketch;
use gerbilargent::read::read_trace;
use gerbilargent::{
    Action, Banked, Code, Draft, Entry, Flat, Generator, Image, Instr, Op, OpKind, Rom, Store,
    Taken, World, WorldState, draw_trace, log_trace,
};

/// Rust's heap, whose requests are counted while `COUNTS` is set.
struct Heap;

static COUNTS: AtomicBool = AtomicBool::new(false);
static REQUESTS: AtomicUsize = AtomicUsize::new(0);

// SAFETY: each call is the system's.
unsafe impl GlobalAlloc for Heap {
    unsafe fn alloc(&self, layout: Layout) -> *mut u8 {
        REQUESTS.fetch_add(usize::from(COUNTS.load(Relaxed)), Relaxed);
        unsafe { System.alloc(layout) }
    }

    unsafe fn dealloc(&self, block: *mut u8, layout: Layout) {
        unsafe { System.dealloc(block, layout) }
    }
}

#[global_allocator]
static HEAP: Heap = Heap;

/// What is answered while requests of Rust's heap are counted, or aren't.
fn counting<T>(counts: bool, what: impl FnOnce() -> T) -> T {
    let counted = COUNTS.swap(counts, Relaxed);
    let answer = what();
    COUNTS.store(counted, Relaxed);
    answer
}

/// An allocator that counts its requests from 1, and refuses those of `first` to `last`.
struct Refusing {
    first: usize,
    last: usize,
    asked: Cell<usize>,
    held: RefCell<HashMap<usize, Layout>>,
    wrong: Cell<bool>,
}

impl Refusing {
    fn new(first: usize, last: usize) -> Refusing {
        let (asked, held, wrong) = (Cell::new(0), RefCell::default(), Cell::new(false));
        Refusing {
            first,
            last,
            asked,
            held,
            wrong,
        }
    }
}

impl Debug for Refusing {
    fn fmt(&self, f: &mut std::fmt::Formatter<'_>) -> std::fmt::Result {
        f.write_str("Refusing")
    }
}

// SAFETY: a block is one of `Global`, and stays until it comes back.
unsafe impl Allocator for Refusing {
    fn allocate(&self, layout: Layout) -> Result<NonNull<[u8]>, AllocError> {
        self.asked.set(self.asked.get() + 1);
        if (self.first..=self.last).contains(&self.asked.get()) {
            return Err(AllocError);
        }
        counting(false, || {
            let block = Global.allocate(layout)?;
            self.held
                .borrow_mut()
                .insert(block.cast::<u8>().as_ptr() as usize, layout);
            Ok(block)
        })
    }

    unsafe fn deallocate(&self, block: NonNull<u8>, layout: Layout) {
        counting(false, || {
            let held = self.held.borrow_mut().remove(&(block.as_ptr() as usize));
            if held != Some(layout) {
                self.wrong.set(true);
            }
            // SAFETY: the caller's.
            unsafe { Global.deallocate(block, layout) }
        });
    }
}

/// What is answered, as a text, or `None` where memory was refused.
fn told<T: Debug, F: Debug>(answer: Result<T, F>) -> Option<String> {
    counting(false, || match answer {
        Ok(it) => Some(format!("{it:?}")),
        Err(fault) => {
            let fault = format!("{fault:?}");
            assert!(fault.contains("Memory"), "{fault}");
            None
        }
    })
}

/// Asks again where memory was refused, once: what is refused has changed nothing.
fn again<T, F>(mut what: impl FnMut() -> Result<T, F>) -> Result<T, F> {
    what().or_else(|_| what())
}

const PICTURE: &[u8] = b"tick 2\noffer\nlabs 512 400 0\nvctr 9 -100 100 7\nvctr 9 5 5 7\nhalt\n\
    end\ntick 16\nstrobe\nfetch 14\nresetall 90\ntick 1\n";
const SKETCH: &[u8] = b"labs 512 400 0\ncall ship\ncall ship\nhalt\nship:\nsvec 5 1 2 7\nreturn\n";

/// A frame of two vectors.
fn two_vectors() -> Option<Draft> {
    let vector = Instr::Vctr {
        scale: 9,
        dx: -100,
        dy: 100,
        z: 7,
    };
    let mut draft = Draft::default();
    for instr in [
        Instr::Labs {
            x: 512,
            y: 400,
            scale: 0,
        },
        vector,
        vector,
    ] {
        draft.push(Op::new(OpKind::Draw(Code::new(instr)?))?).ok()?;
    }
    draft.push(Op::new(OpKind::Halt)?).ok()?;
    Some(draft)
}

/// What a world draws, asked again at each refusal.
fn world<'a, S: Store<Alloc = &'a Refusing>>(alloc: &'a Refusing) -> Option<String> {
    let rom = again(|| Rom::new(alloc, &[0; 2048])).ok()?;
    let ram = again(|| Image::new(alloc, &[0; 2048])).ok()?;
    let mut world = match World::<S>::new(alloc, rom, &ram) {
        Ok(world) => world,
        // The ROM went with it.
        Err(_) => World::<S>::new(alloc, Rom::new(alloc, &[0; 2048]).ok()?, &ram).ok()?,
    };
    while world.tick() != Entry::Acted(Action::Idle) {}
    let offered = two_vectors().map(|draft| world.offer(&draft));
    assert_eq!(offered, Some(Entry::Offered));
    while world.tick() != Entry::Acted(Action::Sent) {}
    world.strobe();
    loop {
        match again(|| world.fetch()) {
            Ok(Entry::Done(..)) => return told(Ok::<_, ()>(world.picture())),
            Ok(_) => {}
            Err(_) => return None,
        }
    }
}

/// The bytes of a world of Rust's heap amid a run that has drawn a vector.
fn saved_bytes() -> std::vec::Vec<u8> {
    let (rom, ram) = (Rom::new(Global, &[0; 2048]), Image::new(Global, &[0; 2048]));
    let mut world = World::<Flat<Global>>::new(Global, rom.unwrap(), &ram.unwrap()).unwrap();
    while world.tick() != Entry::Acted(Action::Idle) {}
    world.offer(&two_vectors().unwrap());
    while world.tick() != Entry::Acted(Action::Sent) {}
    world.strobe();
    while world.generator().strokes().is_empty() {
        world.fetch().unwrap();
    }
    world.state().unwrap().to_bytes(0).unwrap().to_vec()
}

/// A world goes on from bytes, with its memory from here. What reads them asks Rust's heap, too.
fn restored(alloc: &Refusing) -> Option<String> {
    let bytes = counting(false, saved_bytes);
    let state = counting(false, || again(|| WorldState::from_bytes_in(alloc, 0, &bytes))).ok()?;
    let rom = Rom::new(alloc, &[0; 2048]).ok()?;
    let mut world = World::<Flat<&Refusing>>::new(alloc, rom, &state.ram).ok()?;
    assert!(world.resume(state).is_ok());
    loop {
        match again(|| world.fetch()) {
            Ok(Entry::Done(..)) => return told(Ok::<_, ()>(world.picture())),
            Ok(_) => {}
            Err(_) => return None,
        }
    }
}

/// What a generator alone draws of words, asked again at each refusal.
fn generator(alloc: &Refusing) -> Option<String> {
    let mut generator = Generator::new(alloc);
    generator.start();
    for word in [0xA000_u16, 0, 0x9010, 0x7010, 0x9020, 0x7020, 0xB000] {
        for byte in word.to_le_bytes() {
            match again(|| generator.take_byte(Some(byte))) {
                Ok(done @ Taken::Done(_)) => return told(Ok::<_, ()>(done)),
                Ok(_) => {}
                Err(_) => return None,
            }
        }
    }
    None
}

/// What comes of a trace: its log, or its pictures.
fn trace(alloc: &Refusing, draws: bool) -> Option<String> {
    let text = read_trace(alloc, PICTURE);
    let Ok(text) = text else {
        return told(text.map(|_| ()));
    };
    let rom = Rom::new(alloc, &[0; 2048]).ok()?;
    let ram = Image::new(alloc, &[0; 2048]).ok()?;
    if draws {
        let drawn = draw_trace::<Flat<&Refusing>>(alloc, rom, &ram, &text.events);
        return drawn.is_whole.then(|| told(Ok::<_, ()>(&drawn))).flatten();
    }
    let logged = log_trace::<Flat<&Refusing>>(alloc, rom, &ram, &text.events);
    logged
        .is_whole
        .then(|| told(Ok::<_, ()>(&logged)))
        .flatten()
}

/// What a dump draws, and the instructions that it runs.
fn dump(alloc: &Refusing) -> Option<String> {
    let mut bytes = [0; 4096];
    for (k, word) in [0xA000_u16, 0, 0x9010, 0x7010, 0xB000].iter().enumerate() {
        bytes[2 * k..2 * k + 2].copy_from_slice(&word.to_le_bytes());
    }
    let dump = Dump::new(alloc, &bytes);
    let Ok(dump) = dump else {
        return told(dump.map(|_| ()));
    };
    told(dump.run_traced())
}

/// A sketch with names.
fn sketch(alloc: &Refusing) -> Option<String> {
    told(read_sketch(alloc, SKETCH).map(|sketch| sketch.frames.ops.len()))
}

/// A vector that grows, and gives back the room that is left.
fn vector(alloc: &Refusing) -> Option<String> {
    let mut vector = Vec::new(alloc);
    for item in 0..9_u64 {
        if again(|| vector.push(item)).is_err() {
            return None;
        }
    }
    vector.shrink_to_fit();
    again(|| vector.extend_from_slice(&[9])).ok()?;
    told(Ok::<_, ()>(vector))
}

/// What came of a job, with the allocator that it had: its answer, how many requests there were,
/// and whether all memory came back as it went, none of it from Rust's heap.
fn run(job: Job, first: usize, last: usize) -> (Option<String>, usize, bool) {
    let alloc = Refusing::new(first, last);
    REQUESTS.store(0, Relaxed);
    let answer = counting(true, || job(&alloc));
    let is_clean = alloc.held.borrow().is_empty() && !alloc.wrong.get();
    (
        answer,
        alloc.asked.get(),
        is_clean && REQUESTS.load(Relaxed) == 0,
    )
}

type Job = for<'a> fn(&'a Refusing) -> Option<String>;

/// Refuses a job's requests, and counts what comes: passed, failed.
fn refuse(name: &str, job: Job, asks_again: bool) -> (usize, usize) {
    let (wanted, requests, is_clean) = run(job, usize::MAX, 0);
    let mut failed = usize::from(!(is_clean && wanted.is_some() && requests > 0));
    for request in 1..=requests {
        let (answer, _, is_clean) = run(job, request, request);
        let is_right = answer == wanted || !asks_again && answer.is_none();
        failed += usize::from(!(is_right && is_clean));
        let (answer, _, is_clean) = run(job, request, usize::MAX);
        let is_right = answer.is_none() || name == "vector" && answer == wanted;
        failed += usize::from(!(is_right && is_clean));
    }
    println!("{name}: {requests} requests, {failed} failed");
    (2 * requests + 1 - failed, failed)
}

fn main() -> ExitCode {
    let jobs: [(&str, Job, bool); 9] = [
        ("world", |alloc| world::<Flat<&Refusing>>(alloc), true),
        (
            "world of banks",
            |alloc| world::<Banked<&Refusing>>(alloc),
            true,
        ),
        ("restored world", restored, false),
        ("generator", generator, true),
        ("log", |alloc| trace(alloc, false), false),
        ("pictures", |alloc| trace(alloc, true), false),
        ("dump", dump, false),
        ("sketch", sketch, false),
        ("vector", vector, true),
    ];
    let counts = jobs.map(|(name, job, asks_again)| refuse(name, job, asks_again));
    let passed: usize = counts.iter().map(|count| count.0).sum();
    let failed: usize = counts.iter().map(|count| count.1).sum();
    println!("{passed} passed, {failed} failed");
    ExitCode::from(u8::from(failed > 0))
}
