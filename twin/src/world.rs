//! Both ends of the vector RAM in plain Rust, for the plain twins.

use crate::driver::{Action, Driver, State};
use crate::frames::{FrameFault, Op, Rom, check};
use crate::generator::{GenFault, Generator, Stroke, Taken};
use crate::memory::{BYTES, Memory};

/// What can happen.
#[allow(dead_code)]
pub enum Event {
    /// An offer of this many operations, which stand after those of the offers before it.
    Offer(usize),
    Redraw,
    Tick,
    Strobe,
    Fetch,
    ResetGen,
    ResetCpu,
    /// A reset of the whole system with the image of this number.
    ResetAll(u32),
}

/// Events in order, the operations of all offers, and the images of the resets, each once.
#[derive(Default)]
pub struct Trace {
    pub events: Vec<Event>,
    pub ops: Vec<Op>,
    pub images: Vec<Box<[u8; BYTES]>>,
}

/// What an event led to.
#[allow(dead_code)]
pub enum Entry {
    Offered,
    Refused(FrameFault),
    Busy,
    Asked,
    NothingPublished,
    Acted(Action),
    Started,
    NoStrobe,
    Low(u16, u8),
    Fetched(u16, u16),
    Done(u16, u16, Vec<Stroke>),
    Broke(u16, GenFault),
    Still,
    Cleared,
}

/// The driver, the generator, and the memory that they share.
pub struct World<M> {
    rom: Rom,
    ram: M,
    generator: Generator,
    /// The byte that was fetched last.
    last: u8,
    driver: Driver,
    strobed: bool,
}

impl<M: Memory> World<M> {
    pub fn new(rom: Rom, image: &[u8; BYTES]) -> World<M> {
        World {
            rom,
            ram: M::of(image),
            generator: Generator::new(),
            last: 0,
            driver: Driver::new(),
            strobed: false,
        }
    }

    pub fn generator(&self) -> &Generator {
        &self.generator
    }

    #[allow(dead_code)]
    pub fn driver(&self) -> &Driver {
        &self.driver
    }

    /// Whether a strobe is under way.
    #[allow(dead_code)]
    pub fn strobed(&self) -> bool {
        self.strobed
    }

    /// Goes on with this RAM, this generator, the low byte that it fetched last, and a driver in
    /// this state, which writes the frame of this draft. Whether a driver over its ROM can.
    #[allow(dead_code)]
    pub fn resume(
        &mut self,
        image: &[u8; BYTES],
        (generator, last): (Generator, u8),
        (state, ops): (&State, &[Op]),
        strobed: bool,
    ) -> bool {
        let Some(driver) = Driver::resumed(state, ops, &self.rom) else {
            return false;
        };
        self.ram.load(image);
        self.generator = generator;
        self.last = last;
        self.driver = driver;
        self.strobed = strobed;
        true
    }

    /// The byte of the RAM at a byte address.
    pub fn ram_byte(&self, address: usize) -> Option<u8> {
        (address < BYTES).then(|| self.ram.byte(address))
    }

    /// The low or the high byte of a word.
    fn byte(&self, address: u16, high: bool) -> Option<u8> {
        let (k, side) = (usize::from(address), usize::from(high));
        match address {
            0..0x400 => Some(self.ram.byte(2 * k + side)),
            a if self.rom.has(a) => Some(self.rom.word(a).to_le_bytes()[side]),
            _ => None,
        }
    }

    pub fn tick(&mut self) -> Entry {
        let halted = self.generator.wants().is_none();
        let action = self.driver.tick(halted, self.ram.byte(1));
        match action {
            Action::Wrote(address, byte) => self.ram.write(usize::from(address), byte),
            Action::Sent => self.strobed = true,
            _ => {}
        }
        Entry::Acted(action)
    }

    pub fn fetch(&mut self) -> Entry {
        let Some(address) = self.generator.wants() else {
            return Entry::Still;
        };
        let byte = self.byte(address, self.generator.wants_high());
        let taken = self.generator.take_byte(byte);
        let low = std::mem::replace(&mut self.last, byte.unwrap_or(0));
        let word = u16::from_le_bytes([low, self.last]);
        match taken {
            Taken::Low => Entry::Low(address, self.last),
            Taken::Word => Entry::Fetched(address, word),
            Taken::Done(strokes) => Entry::Done(address, word, strokes),
            Taken::Broke(fault) => Entry::Broke(address, fault),
        }
    }

    pub fn offer(&mut self, ops: &[Op]) -> Entry {
        let frame = match check(ops, &self.rom) {
            Err(fault) => return Entry::Refused(fault),
            Ok(frame) => frame,
        };
        if self.driver.offer(frame) {
            Entry::Offered
        } else {
            Entry::Busy
        }
    }

    pub fn redraw(&mut self) -> Entry {
        match self.driver.redraw() {
            None => Entry::NothingPublished,
            Some(true) => Entry::Asked,
            Some(false) => Entry::Busy,
        }
    }

    pub fn strobe(&mut self) -> Entry {
        if !self.strobed {
            return Entry::NoStrobe;
        }
        self.generator.start();
        Entry::Started
    }

    pub fn reset_generator(&mut self) -> Entry {
        self.generator.reset();
        Entry::Cleared
    }

    pub fn reset_processor(&mut self) -> Entry {
        self.driver = Driver::new();
        Entry::Cleared
    }

    pub fn reset_all(&mut self, image: &[u8; BYTES]) -> Entry {
        self.generator.reset();
        self.driver = Driver::new();
        self.strobed = false;
        self.ram.load(image);
        Entry::Cleared
    }

    /// `rest` has the operations of this offer, if it is one, and of all later ones.
    #[allow(dead_code)]
    fn apply(&mut self, event: &Event, rest: &mut &[Op], images: &[Box<[u8; BYTES]>]) -> Entry {
        match event {
            Event::Offer(count) => {
                let (ops, later) = rest.split_at(*count);
                *rest = later;
                self.offer(ops)
            }
            Event::Redraw => self.redraw(),
            Event::Tick => self.tick(),
            Event::Strobe => self.strobe(),
            Event::Fetch => self.fetch(),
            Event::ResetGen => self.reset_generator(),
            Event::ResetCpu => self.reset_processor(),
            Event::ResetAll(number) => self.reset_all(&images[*number as usize]),
        }
    }
}

/// The entries of all events.
#[allow(dead_code)]
pub fn run<M: Memory>(rom: &Rom, image: &[u8; BYTES], trace: &Trace) -> Vec<Entry> {
    let mut world: World<M> = World::new(rom.clone(), image);
    let mut rest = trace.ops.as_slice();
    let mut entries = Vec::with_capacity(trace.events.len());
    for event in &trace.events {
        entries.push(world.apply(event, &mut rest, &trace.images));
    }
    entries
}
