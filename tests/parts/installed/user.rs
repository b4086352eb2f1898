//! A crate of a user that has Gerbilargent by git: what one crate names, and what std has for a
//! vector, a box of errors and `?`.
use std::collections::HashSet;
use std::error::Error;

use gerbilargent::alloc::{AllocError, AllocFailed, Vec};
use gerbilargent::{
    Action, BadCode, BadOp, Checker, Code, CodeFault, Draft, DraftFull, Driver, DriverFault,
    DriverState, DriverStateFault, Entry, Event, Flat, FrameFault, GenFault, Generator,
    GeneratorRefused, GeneratorState, GeneratorStateFault, Global, Image, Instr, Judge, MemFault,
    MomentJudge, Op, OpKind, OutOfMemory, Phase, Place, Rom, StateFault, Step, Stopped, Stroke,
    World, WorldRefused, WorldState, WorldStateFault, WrappingGenerator, check, decode, digest,
    dump, read, steps,
};

/// All names of the crate at once leave std's as they are, and so does the prelude.
mod all_names {
    use gerbilargent::*;
    use std::error::Error;

    pub fn draws_nothing() -> Result<Vec<Box<dyn Error>>, Box<dyn Error>> {
        let mut errors: Vec<Box<dyn Error>> = Vec::new();
        let world = World::<Flat>::new(Global, Rom::new(Global, &[0; 2048])?, &zeros()?)?;
        errors.extend(vec![1, 2].iter().filter(|one| **one > 2).map(|_| Box::from("none")));
        assert!(world.picture().is_empty());
        Ok(errors)
    }

    fn zeros() -> Result<Image, String> {
        use gerbilargent::prelude::*;
        Image::new(Global, &[0; 2048]).map_err(|_| String::from("refused"))
    }
}

/// A frame of one vector. None where a field is out of its range, or the draft is full.
fn one_vector() -> Option<Draft> {
    let labs = Instr::Labs { x: 512, y: 400, scale: 0 };
    let vector = Instr::Vctr { scale: 9, dx: -100, dy: 100, z: 7 };
    let mut draft = Draft::new();
    draft.push(Op::new(OpKind::Draw(Code::new(labs)?))?).ok()?;
    draft.push(Op::new(OpKind::Draw(Code::new(vector)?))?).ok()?;
    draft.push(Op::new(OpKind::Halt)?).ok()?;
    Some(draft)
}

/// What a world draws of it, as a vector of std's.
fn draw() -> Result<std::vec::Vec<Stroke>, Box<dyn Error>> {
    let rom = Rom::new(Global, &[0; 2048])?;
    let ram = Image::new(Global, &[0; 2048])?;
    let mut world = World::<Flat>::new(Global, rom, &ram)?;
    while world.tick() != Entry::Acted(Action::Idle) {}
    world.offer(&one_vector().ok_or("a field is out of its range")?);
    while world.tick() != Entry::Acted(Action::Sent) {}
    let frame = [0x90, 0xA1, 0x00, 0x02, 0x64, 0x90, 0x64, 0x74, 0x00, 0xB0];
    assert_eq!(world.ram()[0x402..0x40C], frame);
    assert_eq!((world.byte(0x001), world.byte(0x403)), (0xE2, 0xA1));
    world.strobe();
    let mut copy = world.clone();
    assert!(format!("{copy:?}").starts_with("World {"));
    assert_eq!(drawn_by(&mut copy)?, drawn_by(&mut world)?);
    assert_eq!((world.beam().x, world.beam().y), (412 * 512, 500 * 512));
    assert_eq!(world.generator().return_addresses().len(), 0);
    assert_eq!((world.tick(), world.tick()), (copy.tick(), copy.tick()));
    world.strobe();
    drawn_by(&mut world)
}

/// What a world's run draws.
fn drawn_by(world: &mut World<Flat>) -> Result<std::vec::Vec<Stroke>, Box<dyn Error>> {
    loop {
        if let Entry::Done(_, _, ()) = world.fetch()? {
            return Ok(world.picture().iter().copied().collect());
        }
    }
}

/// A generator, its state, and a generator whose stack wraps are copied. The copies go on as they
/// do.
fn copy() -> Result<(), Box<dyn Error>> {
    let mut generator = Generator::new(Global);
    let mut wrapping = WrappingGenerator::new(Global);
    generator.start();
    wrapping.start();
    for byte in [0x90, 0xA1, 0x00] {
        generator.feed(Some(byte))?;
        wrapping.feed(Some(byte))?;
    }
    let state = generator.state();
    let mut resumed = Generator::new(Global);
    resumed.resume(&state.clone(), Vec::new(Global))?;
    assert_eq!(format!("{state:?}"), format!("{:?}", resumed.state()));
    let mut copies = (generator.clone(), wrapping.clone());
    for byte in [0x02, 0x64, 0x90, 0x64, 0x74, 0x00, 0xB0] {
        let step = generator.feed(Some(byte))?;
        assert_eq!(step, resumed.feed(Some(byte))?);
        assert_eq!(step, copies.0.feed(Some(byte))?);
        assert_eq!(step, wrapping.feed(Some(byte))?);
        assert_eq!(step, copies.1.feed(Some(byte))?);
    }
    for other in [&resumed, &copies.0, copies.1.generator()] {
        assert_eq!(generator.picture(), other.picture());
    }
    assert_eq!(generator.picture().len(), 1);
    Ok(())
}

/// A world over a ROM of these bytes, all alike.
fn world_over(rom: &[u8]) -> Result<World<Flat>, Box<dyn Error>> {
    Ok(World::new(Global, Rom::new(Global, rom)?, &Image::new(Global, &[0; 2048])?)?)
}

/// A world amid a run is saved in a file. It goes on over its ROM. Over another one of either size
/// it is refused; by bytes that name no ROM it opens, and its run breaks. A judge doesn't judge
/// that run.
fn save() -> Result<(), Box<dyn Error>> {
    let rom = Rom::new(Global, &[0xD0; 2048])?.digest();
    let mut world = world_over(&[0xD0; 2048])?;
    while world.tick() != Entry::Acted(Action::Idle) {}
    let frame = read::read_draft(b"labs 0 0 0\ncallrom 800\nvctr 9 100 100 7\nhalt\n")?.draft;
    assert_eq!(world.offer(&frame), Entry::Offered);
    while world.tick() != Entry::Acted(Action::Sent) {}
    world.strobe();
    world.fetch()?;
    std::fs::write("saved", world.state()?.to_bytes(rom)?)?;
    let bytes = std::fs::read("saved")?;
    refuse(rom, &bytes)?;
    let state = WorldState::from_bytes(rom, &bytes)?;
    for rom in [&[0xF0; 2048][..], &[0xF0; 4096]] {
        let other_rom = Rom::new(Global, rom)?.digest();
        assert_eq!(WorldState::from_bytes(other_rom, &bytes).err(), Some(StateFault::OtherRom));
        let mut other = world_over(rom)?;
        other.resume(state.clone())?;
        let broke = Entry::Broke(0xC00, GenFault::Hole);
        assert_eq!(other.clone().run_to_halt(9999)?, broke);
        assert_eq!(run_of(&mut other)?, broke);
        assert!(other.generator().halted() && other.fetch()? == Entry::Still);
    }
    let (mut later, mut judge) = (world_over(&[0xD0; 2048])?, MomentJudge::new());
    later.resume(state)?;
    while !later.generator().halted() {
        assert!(!judge.take(&Event::Fetch, &later.apply(&Event::Fetch)?) && !judge.is_torn());
    }
    assert_eq!(later.strobe(), Entry::Started); // The frame is drawn once more.
    assert!(matches!(run_of(&mut later)?, Entry::Done(..)));
    assert_eq!(later.picture().len(), 1);
    Ok(())
}

/// Each reason for which the bytes of a saved world aren't restored, but another ROM.
fn refuse(rom: u64, bytes: &[u8]) -> Result<(), Box<dyn Error>> {
    let why = |bytes: &[u8]| WorldState::from_bytes(rom, bytes).err();
    for bit in (0..8 * bytes.len()).step_by(61) {
        let mut changed = bytes.to_vec();
        changed[bit / 8] ^= 1 << (bit % 8);
        assert_eq!(why(&changed), Some(StateFault::Broken));
    }
    for cut in [0, 8, 16, bytes.len() - 8, bytes.len() - 1] {
        assert_eq!(why(&bytes[..cut]), Some(StateFault::Broken));
    }
    assert_eq!(why(b"labs 512 400 0 is no saved state"), Some(StateFault::Broken));
    let (mut later, end) = (bytes.to_vec(), bytes.len() - 8);
    later[3] = 3; // Of another version, whose sum is right.
    let sum = digest(later[..end].iter().copied()).to_le_bytes();
    later[end..].copy_from_slice(&sum);
    assert_eq!(why(&later), Some(StateFault::OtherVersion));
    assert_eq!(StateFault::OtherVersion.to_string(), "they are of another version");
    let generator = Generator::new(Global);
    let of_generator = generator.state().to_bytes(generator.strokes())?;
    assert_eq!(why(&of_generator), Some(StateFault::OtherClass));
    assert_eq!(GeneratorState::from_bytes(bytes).err(), Some(StateFault::OtherClass));
    assert!(GeneratorState::from_bytes(&of_generator)?.0 == generator.state());
    // A frame that is being written, which another ROM refuses: `resume` says so.
    let mut writing = world_over(&[0xD0; 2048])?;
    while writing.tick() != Entry::Acted(Action::Idle) {}
    let frame = read::read_draft(b"labs 0 0 0\ncallrom 800\nhalt\n")?.draft;
    assert_eq!(writing.offer(&frame), Entry::Offered);
    let state = WorldState::from_bytes(rom, &writing.state()?.to_bytes(0)?)?;
    let mut other = world_over(&[0xC8; 2048])?;
    let refused = other.resume(state).err().ok_or("the frame is taken")?;
    // Each word of that ROM is a call of 8C8.
    let fault = FrameFault::TooDeep(Place::InRom(0x8C8));
    assert_eq!(refused.fault, WorldStateFault::Driver(DriverStateFault::Frame(fault)));
    world_over(&[0xD0; 2048])?.resume(refused.state)?; // It has come back whole.
    Ok(())
}

/// What ends a run that is open.
fn run_of(world: &mut World<Flat>) -> Result<Entry<()>, OutOfMemory> {
    loop {
        match world.fetch()? {
            Entry::Low(..) | Entry::Fetched(..) => {}
            entry => return Ok(entry),
        }
    }
}

/// A world goes on to the end of a run as by its events one by one, however many steps it has.
fn run_to_halt() -> Result<(), Box<dyn Error>> {
    let mut world = world_over(&[0; 2048])?;
    assert_eq!(world.run_to_halt(9)?, Entry::Still); // There is nothing to draw.
    let _ = world.offer(&one_vector().ok_or("a field is out of its range")?);
    for most in 0..40 {
        let (mut one, mut other, mut last) = (world.clone(), world.clone(), Entry::Still);
        for _ in 0..most {
            if other.tick() == Entry::Acted(Action::Sent) {
                assert_eq!(other.strobe(), Entry::Started);
            }
            last = other.fetch()?;
            if other.picture().len() == 1 {
                break;
            }
        }
        assert_eq!(one.run_to_halt(most)?, last);
        assert!(one.state()? == other.state()? && one.picture() == other.picture());
    }
    assert_eq!(world.run_to_halt(40)?, Entry::Done(0x205, 0xB000, ()));
    Ok(())
}

/// The words of a picture, as bytes, and of a run without an end: a vector from word 0 on, and a
/// jump back to it.
const ENDING: [u8; 10] = [0x90, 0xA1, 0x00, 0x02, 0x64, 0x90, 0x64, 0x74, 0x00, 0xB0];
const ENDLESS: [u8; 6] = [0x64, 0x90, 0x64, 0x74, 0x00, 0xE0];

/// The strokes of a run without an end are taken out of it, and it goes on as one that keeps them,
/// also where its stack wraps.
fn take_strokes() -> Result<(), Box<dyn Error>> {
    let (mut taking, mut keeping) = (Generator::new(Global), Generator::new(Global));
    let (mut wrapping, mut taken) = (WrappingGenerator::new(Global), std::vec::Vec::new());
    taking.start();
    keeping.start();
    wrapping.start();
    for turn in 0..20 {
        for byte in ENDLESS {
            let step = keeping.feed(Some(byte))?;
            assert!(taking.feed(Some(byte))? == step && wrapping.feed(Some(byte))? == step);
        }
        if turn % 3 == 2 {
            assert_eq!(taking.strokes().len(), 3);
            let drawn = taking.take_strokes();
            assert_eq!(wrapping.take_strokes(), drawn);
            taken.extend(drawn);
        }
        assert!(taking.strokes().len() < 3 && taking.state() == keeping.state());
        assert_eq!(wrapping.generator().strokes(), taking.strokes());
    }
    taken.extend(taking.take_strokes());
    assert!(taken == keeping.strokes() && taken.len() == 20 && !taking.halted());
    Ok(())
}

/// A generator alone goes on to its HALT or its break, and within so many words where it has none:
/// as one that is handed each byte.
fn run_generator_to_halt() -> Result<(), Box<dyn Error>> {
    let ending = |at: u16| ENDING.get(usize::from(at)).copied();
    for most in 0..8 {
        let (mut one, mut wrapping) = (Generator::new(Global), WrappingGenerator::new(Global));
        assert_eq!(one.run_to_halt(most, ending)?, None); // It is halted.
        one.start();
        wrapping.start();
        let step = one.run_to_halt(most, ending)?;
        let wanted = [None, Some(Step::Word), Some(Step::Done)];
        assert_eq!(step, wanted[usize::from(most > 0) + usize::from(most > 4)]);
        assert!(one.halted() == (most > 4) && wrapping.run_to_halt(most, ending)? == step);
        let other = wrapping.generator();
        assert!(one.picture() == other.picture() && one.wants() == other.wants());
    }
    let (mut one, mut fetched) = (Generator::new(Global), 0);
    one.start();
    let step = one.run_to_halt(1000, |at| {
        fetched += 1;
        ENDLESS.get(usize::from(at)).copied()
    })?;
    assert_eq!((step, fetched, one.take_strokes().len()), (Some(Step::Word), 2000, 333));
    one.start();
    let broken = one.run_to_halt(9, |at| [0x64, 0x90].get(usize::from(at)).copied())?;
    assert!(broken == Some(Step::Broke(GenFault::Hole)) && one.halted());
    Ok(())
}

/// What has a text: the operations of a draft, which are read again, instructions and strokes.
fn texts() -> Result<(), Box<dyn Error>> {
    let text = "labs 4095 0 15\nvctr 9 -1023 1023 15\nsvec 5 3 -3 0\ncallrom FFF\njumprom 00A\n\
        call 65535\njump 5\nreturn\nhalt\n";
    let draft: Draft = text.parse::<read::DraftText>()?.into();
    assert!(draft.to_string() == text && draft.op(8).to_string() == "halt");
    let ops = draft.into_iter().copied();
    assert_eq!(ops.clone().collect::<Result<Draft, DraftFull>>()?, draft);
    let many = ops.cycle();
    assert_eq!(many.clone().take(511).collect::<Result<Draft, DraftFull>>()?.len(), 511);
    assert_eq!(many.take(512).collect::<Result<Draft, DraftFull>>(), Err(DraftFull));
    let wrong = "halt\nlabs 1\n".parse::<read::DraftText>().map(Draft::from);
    assert_eq!(wrong, Err(read::TextFault::Syntax(2)));
    let words = [0xAFFF, 0xF000, 0x97FF, 0xF7FF, 0xFA3F, 0xCABC, 0xE00D, 0xD000, 0xB000];
    let (mut rest, mut listed) = (&words[..], std::vec::Vec::new());
    while !rest.is_empty() {
        let (code, count) = decode(rest)?;
        listed.push(code.to_string());
        rest = &rest[count..];
    }
    let wanted = "LABS 0 4095 15,VCTR 9 -1023 -1023 15,SVEC 5 -3 2 3,JSRL ABC,JMPL 00D,RTSL,HALT";
    assert_eq!(listed.join(","), wanted);
    let stroke = Stroke { x0: 2_097_151, y0: 0, x1: 12, y1: 345, z: 15 };
    assert_eq!(stroke.to_string(), "2097151 0 12 345 15");
    Ok(())
}

/// A driver alone is saved amid a frame, and another one goes on.
fn save_driver() -> Result<(), Box<dyn Error>> {
    let (rom, mut checker) = (Rom::new(Global, &[0; 2048])?, Checker::new());
    let (mut driver, mut later) = (Driver::new(), Driver::new());
    while driver.tick(true, 0) != Action::Idle {}
    driver.offer(check(&one_vector().ok_or("a field is out of its range")?, &rom)?)?;
    driver.tick(true, 0);
    later.resume(&driver.state(), &mut checker, &rom)?;
    for _ in 0..20 {
        assert_eq!(driver.tick(true, 0), later.tick(true, 0));
    }
    Ok(())
}

/// What no generator, no driver and no world resumes comes back with the reason, and what was to go
/// on is as it was.
fn refuse_states() -> Result<(), Box<dyn Error>> {
    let drawn = Stroke { x0: 0, y0: 2_097_151, x1: 2_097_151, y1: 0, z: 15 };
    assert!(drawn.is_valid() && Stroke { z: 1, ..drawn }.is_valid());
    let mut wrong = vec![Stroke { z: 0, ..drawn }, Stroke { z: 16, ..drawn }];
    wrong.extend([Stroke { x0: 2_097_152, ..drawn }, Stroke { y0: 2_097_152, ..drawn }]);
    wrong.extend([Stroke { x1: 2_097_152, ..drawn }, Stroke { y1: u32::MAX, ..drawn }]);
    for stroke in wrong {
        assert!(!stroke.is_valid());
        refuse_stroke(&[drawn, stroke, drawn].into_iter().collect())?;
    }
    let (mut generator, mut wrapping) = (Generator::new(Global), WrappingGenerator::new(Global));
    let (good, four) = (generator.state(), wrapping.state());
    let bad = GeneratorState { x: 2_097_152, ..good.clone() };
    let nothing = || Vec::new(Global);
    let fields = Some(GeneratorStateFault::Fields);
    assert_eq!(generator.resume(&bad, nothing()).err().map(|it| it.fault), fields);
    assert_eq!(wrapping.resume(&good, nothing()).err().map(|it| it.fault), fields);
    let bad = GeneratorState { at: 4096, ..four.clone() };
    assert_eq!(wrapping.resume(&bad, nothing()).err().map(|it| it.fault), fields);
    wrapping.resume(&four, nothing())?;
    refuse_drivers()
}

/// Neither kind of generator, nor a world, goes on with these strokes, of which one is none.
fn refuse_stroke(strokes: &Vec<Stroke>) -> Result<(), Box<dyn Error>> {
    let fault = GeneratorStateFault::Stroke;
    let (mut generator, mut wrapping) = (Generator::new(Global), WrappingGenerator::new(Global));
    let (state, four) = (generator.state(), wrapping.state());
    generator.start();
    assert_eq!(state.fault_with(strokes), Some(fault));
    let refused = generator.resume(&state, strokes.clone()).err().ok_or("a stroke is taken")?;
    assert_eq!((refused.fault, &refused.strokes), (fault, strokes));
    assert_eq!(refused.to_string(), "a stroke that no generator draws");
    assert!(!generator.halted());
    let refused = wrapping.resume(&four, refused.strokes).err().ok_or("a stroke is taken")?;
    assert_eq!((refused.fault, &refused.strokes), (fault, strokes));
    let mut world = world_over(&[0; 2048])?;
    let before = WorldState { strokes: refused.strokes, ..world.state()? };
    world.tick();
    let after = world.state()?;
    let refused = world.resume(before.clone()).err().ok_or("a stroke is taken")?;
    assert_eq!(refused.fault, WorldStateFault::Generator(fault));
    let told = "the generator isn't resumed: a stroke that no generator draws";
    assert_eq!(refused.to_string(), told);
    assert!(refused.state == before && world.state()? == after);
    Ok(())
}

/// A driver's state is refused for each reason.
fn refuse_drivers() -> Result<(), Box<dyn Error>> {
    let (rom, mut checker) = (Rom::new(Global, &[0; 2048])?, Checker::new());
    let frame = one_vector().ok_or("a field is out of its range")?;
    let writing = DriverState { phase: Phase::Writing, frame, left: 10, ..Driver::new().state() };
    let mut driver = Driver::new();
    let mut why = |state: &DriverState| driver.resume(state, &mut checker, &rom).err();
    let half = writing.half;
    for (state, fault) in [
        (DriverState { left: 11, ..writing.clone() }, DriverStateFault::Left),
        (DriverState { frame_half: half, left: 99, ..writing.clone() }, DriverStateFault::Half),
        (
            DriverState { frame: Draft::new(), frame_half: half, ..writing.clone() },
            DriverStateFault::Frame(FrameFault::Empty),
        ),
        (DriverState { phase: Phase::Sending, ..writing.clone() }, DriverStateFault::Flipped),
        (
            DriverState { phase: Phase::Booting, flipped: true, ..writing.clone() },
            DriverStateFault::Flipped,
        ),
    ] {
        assert_eq!(why(&state), Some(fault));
    }
    assert_eq!(why(&writing), None);
    Ok(())
}

/// What vectors of the crate have of std's.
fn count() -> Result<usize, Box<dyn Error>> {
    let mut vector: Vec<u32> = (1..4).collect();
    vector.push(4)?;
    vector.extend([5]);
    for item in &mut vector {
        *item *= 2;
    }
    assert!(vector == [2, 4, 6, 8, 10] && vector.clone() == vector && Vec::<u8>::default() == []);
    assert_eq!(Vec::from(vec![2, 4, 6, 8, 10]), vector);
    assert!(AllocFailed(3).to_string() == "out of memory");
    assert_eq!(AsRef::<[u32]>::as_ref(&vector).len(), 5);
    Ok(std::vec::Vec::from(vector).len())
}

/// What `?` hands on.
fn is_error<E: Error + Send + Sync + 'static>() {}

/// What the crates refuse by are errors, all of them.
fn name_errors() {
    is_error::<AllocError>();
    is_error::<AllocFailed<World<Flat>>>();
    is_error::<BadCode>();
    is_error::<BadOp>();
    is_error::<CodeFault>();
    is_error::<DraftFull>();
    is_error::<DriverFault>();
    is_error::<DriverStateFault>();
    is_error::<FrameFault>();
    is_error::<GenFault>();
    is_error::<GeneratorRefused>();
    is_error::<GeneratorStateFault>();
    is_error::<MemFault>();
    is_error::<OutOfMemory>();
    is_error::<StateFault>();
    is_error::<Stopped>();
    is_error::<WorldRefused>();
    is_error::<WorldStateFault>();
    is_error::<dump::DumpFault>();
    is_error::<read::TextFault>();
    is_error::<read::Unread>();
    is_error::<steps::StepsFault>();
}

/// What may go to another thread.
fn is_send<T: Send>() {}

/// What has a default, is converted and is hashed as std's types are.
fn convert() -> Result<(), Box<dyn Error>> {
    name_errors();
    is_send::<World<Flat>>();
    is_send::<(Driver, Generator<Global>, WrappingGenerator<Global>, Judge, MomentJudge)>();
    let _ = (Driver::default(), Judge::default(), MomentJudge::default());
    assert!(Generator::<Global>::default().halted());
    let labs = Instr::Labs { x: 1, y: 2, scale: 3 };
    let op = Op::try_from(OpKind::Draw(Code::try_from(labs)?))?;
    let draft = Draft::try_from([op, Op::default(), op].as_slice())?;
    let kinds: HashSet<OpKind> = draft.into_iter().map(|op| OpKind::from(*op)).collect();
    assert!(kinds.len() == 2 && Draft::default().is_empty());
    let wrong = Code::try_from(Instr::Jmpl(4096)).map_err(|fault| fault.to_string());
    assert_eq!(wrong, Err("a field of the instruction is out of its range".to_owned()));
    let wrong = Op::try_from(OpKind::CallRom(4096)).map_err(|fault| fault.to_string());
    assert_eq!(wrong, Err("no draft may hold this operation".to_owned()));
    assert_eq!(Draft::try_from([op; 512].as_slice()), Err(DraftFull));
    Ok(())
}

fn main() -> Result<(), Box<dyn Error>> {
    convert()?;
    copy()?;
    save()?;
    run_to_halt()?;
    take_strokes()?;
    run_generator_to_halt()?;
    texts()?;
    save_driver()?;
    refuse_states()?;
    assert!(all_names::draws_nothing()?.is_empty());
    println!("{:?} {} {}", draw()?, count()?, gerbilargent::VERSION);
    Ok(())
}
