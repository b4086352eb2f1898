//! What serde writes and reads of the crates: JSON here. The last line is 'N passed, M failed'.
use std::fmt::Debug;
use std::process::ExitCode;

use gerbilargent::alloc::{Box, Vec};
use gerbilargent::{
    Action, Area, Beam, Code, CodeFault, Counters, Draft, DraftFull, DriverFault, DriverState,
    DriverStateFault, Entry, Event, Flat, FrameFault, GenFault, GeneratorState,
    GeneratorStateFault, Global, Half, Image, Instr, Listed, MemFault, Move, Op, OpKind,
    OutOfMemory, Phase, Place, Rom, StateFault, Stroke, World, WorldState, WorldStateFault,
};
use serde::Serialize;
use serde::de::DeserializeOwned;

/// What was expected, and what came.
#[derive(Default)]
struct Counts {
    passed: u32,
    failed: u32,
}

impl Counts {
    fn expect(&mut self, holds: bool, what: &str) {
        self.passed += u32::from(holds);
        self.failed += u32::from(!holds);
        if !holds {
            println!("FAILED: {what}");
        }
    }

    /// A value is written as this text, and the text read as the value.
    fn expect_form<T: Serialize + DeserializeOwned + PartialEq + Debug>(
        &mut self,
        value: T,
        text: &str,
    ) {
        let written = serde_json::to_string(&value).unwrap_or_else(|error| error.to_string());
        self.expect(
            written == text,
            &format!("{value:?} is written as {written}, not {text}"),
        );
        let read = serde_json::from_str::<T>(text);
        self.expect(
            read.as_ref().is_ok_and(|read| *read == value),
            &format!("{text}: {read:?}"),
        );
    }

    /// A text is read, and what was read is written as that text.
    fn expect_form_of<T: Serialize + DeserializeOwned>(&mut self, text: &str) {
        let written = serde_json::from_str::<T>(text).and_then(|read| serde_json::to_string(&read));
        self.expect(
            written.as_deref().is_ok_and(|written| written == text),
            &format!("{text} is read, and written as {written:?}"),
        );
    }

    /// A text is refused, with a message that has these words.
    fn expect_refused<T: DeserializeOwned + Debug>(&mut self, text: &str, why: &str) {
        let read = serde_json::from_str::<T>(text);
        let is_refused = matches!(&read, Err(error) if error.to_string().contains(why));
        self.expect(
            is_refused,
            &format!("{:.60} isn't refused by '{why}': {read:?}", text),
        );
    }
}

/// An operation that draws.
fn draws(instr: Instr) -> Result<Op, std::boxed::Box<dyn std::error::Error>> {
    Ok(Op::try_from(OpKind::Draw(Code::try_from(instr)?))?)
}

/// A draft with an operation of each kind, and its text.
fn draft() -> Result<(Draft, String), std::boxed::Box<dyn std::error::Error>> {
    let mut draft = Draft::default();
    draft.push(draws(Instr::Labs {
        x: 4095,
        y: 0,
        scale: 15,
    })?)?;
    draft.push(draws(Instr::Vctr {
        scale: 9,
        dx: -1023,
        dy: 1023,
        z: 15,
    })?)?;
    draft.push(draws(Instr::Svec {
        scale: 5,
        dx: 3,
        dy: -3,
        z: 0,
    })?)?;
    for kind in [
        OpKind::CallRom(4095),
        OpKind::JumpRom(0),
        OpKind::Call(65535),
        OpKind::Jump(5),
    ] {
        draft.push(Op::try_from(kind)?)?;
    }
    draft.push(Op::try_from(OpKind::Return)?)?;
    draft.push(Op::default())?;
    let text = concat!(
        r#"[{"Draw":{"Labs":{"x":4095,"y":0,"scale":15}}},"#,
        r#"{"Draw":{"Vctr":{"scale":9,"dx":-1023,"dy":1023,"z":15}}},"#,
        r#"{"Draw":{"Svec":{"scale":5,"dx":3,"dy":-3,"z":0}}},"#,
        r#"{"CallRom":4095},{"JumpRom":0},{"Call":65535},{"Jump":5},"Return","Halt"]"#
    );
    Ok((draft, text.to_owned()))
}

/// A list of this many bytes, as a text.
fn list(length: usize) -> String {
    format!("[{}0]", "0,".repeat(length - 1))
}

/// Instructions, operations and drafts.
fn test_drafts(counts: &mut Counts) -> Result<(), std::boxed::Box<dyn std::error::Error>> {
    let (draft, text) = draft()?;
    counts.expect_form(draft, &text);
    for (instr, text) in [
        (Instr::Halt, r#""Halt""#),
        (Instr::Rtsl, r#""Rtsl""#),
        (Instr::Jsrl(4095), r#"{"Jsrl":4095}"#),
        (Instr::Jmpl(0), r#"{"Jmpl":0}"#),
    ] {
        counts.expect_form(instr, text);
        counts.expect_form(Code::try_from(instr)?, text);
    }
    counts.expect_form(Instr::Jmpl(4096), r#"{"Jmpl":4096}"#);
    counts.expect_form(
        Listed::At(3, Code::try_from(Instr::Halt)?),
        r#"{"At":[3,"Halt"]}"#,
    );
    counts.expect_form(Listed::Cut(3), r#"{"Cut":3}"#);
    Ok(())
}

/// Values that a type excludes are refused.
fn test_refused(counts: &mut Counts) {
    let field = "a field of the instruction is out of its range";
    counts.expect_refused::<Code>(r#"{"Jmpl":4096}"#, field);
    counts.expect_refused::<Code>(r#"{"Labs":{"x":4096,"y":0,"scale":0}}"#, field);
    counts.expect_refused::<Code>(r#"{"Vctr":{"scale":9,"dx":0,"dy":-1024,"z":0}}"#, field);
    counts.expect_refused::<Code>(r#"{"Svec":{"scale":1,"dx":0,"dy":0,"z":0}}"#, field);
    counts.expect_refused::<Op>(r#"{"Draw":{"Labs":{"x":0,"y":0,"scale":16}}}"#, field);
    counts.expect_refused::<Op>(r#"{"Draw":"Halt"}"#, "no draft may hold this operation");
    counts.expect_refused::<Op>(r#"{"CallRom":4096}"#, "no draft may hold this operation");
    counts.expect_refused::<Draft>(r#"[{"JumpRom":4096}]"#, "no draft may hold this operation");
    let full = format!("[{}\"Halt\"]", "\"Halt\",".repeat(510));
    let read = serde_json::from_str::<Draft>(&full);
    counts.expect(
        read.is_ok_and(|draft| draft.len() == 511),
        "511 operations are read",
    );
    let over = format!("[\"Halt\",{}", &full[1..]);
    counts.expect_refused::<Draft>(&over, "the draft has its 511 operations already");
    let why = "there are not as many bytes as the memory has";
    for (length, is_image, is_rom) in [
        (1, false, false),
        (2047, false, false),
        (2048, true, true),
        (2049, false, false),
        (4095, false, false),
        (4096, false, true),
        (4097, false, false),
    ] {
        let text = list(length);
        let image = serde_json::from_str::<Image>(&text);
        let rom = serde_json::from_str::<Rom>(&text);
        counts.expect(
            image.is_ok() == is_image,
            &format!("an image of {length} bytes"),
        );
        counts.expect(rom.is_ok() == is_rom, &format!("a ROM of {length} bytes"));
        if !is_rom {
            counts.expect_refused::<Image>(&text, why);
            counts.expect_refused::<Rom>(&text, why);
        }
    }
    test_ranges(counts);
    counts.expect_refused::<Image>("[256]", "invalid value: integer `256`, expected u8");
    counts.expect_refused::<OpKind>(r#""Stop""#, "unknown variant `Stop`");
    counts.expect_refused::<Stroke>(r#"{"x0":1,"y0":2,"x1":3,"y1":4}"#, "missing field `z`");
}

/// A state of a generator, with the last value of each field, and one with one field too large.
fn test_states(counts: &mut Counts) {
    let state = |is_open: bool, at: u16, held: u16, returns: &str, x: u32, scale: u8| {
        format!(r#"{{"is_open":{is_open},"at":{at},"held":{held},"low":255,"#)
            + &format!(r#""return_addresses":{returns},"x":{x},"y":2097151,"scale":{scale}}}"#)
    };
    let four = "[0,1,2,4095]";
    counts.expect_form_of::<GeneratorState>(&state(true, 4095, 45055, four, 2_097_151, 15));
    counts.expect_form_of::<GeneratorState>(concat!(
        r#"{"is_open":false,"at":0,"held":null,"low":null,"#,
        r#""return_addresses":[],"x":0,"y":0,"scale":0}"#
    ));
    for over in [
        state(false, 0, 0, four, 0, 0),
        state(true, 4096, 0, four, 0, 0),
        state(true, 0, 45056, four, 0, 0),
        state(true, 0, 0, "[4096]", 0, 0),
        state(true, 0, 0, four, 2_097_152, 0),
        state(true, 0, 0, four, 0, 16),
    ] {
        counts.expect_refused::<GeneratorState>(&over, "no generator can be in this state");
    }
    let five = state(true, 0, 0, "[0,0,0,0,0]", 0, 0);
    counts.expect_refused::<GeneratorState>(&five, "there are at most four return addresses");
}

/// States of a driver: in each phase, with as many bytes left as its frame has, and one too many.
fn test_driver_states(counts: &mut Counts) {
    let state = |phase: &str, flipped: bool, frame: &str, left: u16| {
        format!(r#"{{"phase":"{phase}","half":"H1","flipped":{flipped},"frame":{frame},"#)
            + &format!(r#""frame_half":"H0","left":{left}}}"#)
    };
    let frame = r#"[{"Draw":{"Labs":{"x":0,"y":0,"scale":0}}},"Halt"]"#;
    let why = "the parts of a driver's state don't fit";
    for phase in ["Start", "Booting", "Flipping"] {
        counts.expect_form_of::<DriverState>(&state(phase, false, "[]", 65535));
        counts.expect_refused::<DriverState>(&state(phase, true, "[]", 0), why);
    }
    for phase in ["Waiting", "Sending"] {
        counts.expect_form_of::<DriverState>(&state(phase, true, frame, 65535));
        counts.expect_refused::<DriverState>(&state(phase, false, frame, 65535), why);
    }
    for flipped in [false, true] {
        counts.expect_form_of::<DriverState>(&state("Resting", flipped, frame, 65535));
    }
    counts.expect_form_of::<DriverState>(&state("Writing", true, frame, 6));
    let over = state("Writing", true, frame, 7);
    counts.expect_refused::<DriverState>(&over, why);
    let drawn = state("Writing", true, frame, 6).replace("H0", "H1");
    counts.expect_refused::<DriverState>(&drawn, why);
    let none = state("Idle", true, frame, 6);
    counts.expect_refused::<DriverState>(&none, "unknown variant `Idle`");
    counts.expect_form(Phase::Writing, r#""Writing""#);
    let first = concat!(
        r#"{"phase":"Start","half":"H0","flipped":false,"frame":[],"#,
        r#""frame_half":"H1","left":0}"#
    );
    counts.expect_form(DriverState::default(), first);
}

/// A world's state is read as it was written, and a world goes on in it.
fn test_world_states(counts: &mut Counts) -> Result<(), std::boxed::Box<dyn std::error::Error>> {
    let world = || -> Result<World<Flat>, std::boxed::Box<dyn std::error::Error>> {
        let rom = Rom::new(Global, &[0; 2048])?;
        Ok(World::new(Global, rom, &Image::new(Global, &[7; 2048])?)?)
    };
    let (mut one, mut other) = (world()?, world()?);
    let mut frame = Draft::new();
    frame.push(draws(Instr::Labs {
        x: 1,
        y: 2,
        scale: 3,
    })?)?;
    frame.push(Op::default())?;
    while one.tick() != Entry::Acted(Action::Idle) {}
    counts.expect(one.offer(&frame) == Entry::Offered, "a frame is offered");
    one.tick();
    let text = serde_json::to_string(&one.state()?)?;
    counts.expect_form(one.state()?, &text);
    counts.expect(
        text.starts_with(r#"{"ram":[7,7,2,7,7,"#)
            && text.ends_with(r#""frame_half":"H0","left":5},"strobe_sent":false}"#),
        &format!("a world's state is written as {text}"),
    );
    let read: WorldState = serde_json::from_str(&text)?;
    counts.expect(other.resume(read).is_ok(), "a world goes on in what was read");
    counts.expect(one.tick() == other.tick(), "as the saved one does");
    counts.expect(one.state()? == other.state()?, "and stays the same");
    let refused = text.replace(r#""left":5"#, r#""left":9"#);
    counts.expect_refused::<WorldState>(&refused, "the parts of a driver's state don't fit");
    Ok(())
}

/// Of each field that has a range, the last value is read, and one too large is refused; the first
/// value, and one too small, where that isn't 0.
fn test_ranges(counts: &mut Counts) {
    let place = "a position is below 2,097,152";
    for at in 0..4 {
        let mut places = ["0"; 4];
        let mut form = |place: &'static str, z: u8| {
            places[at] = place;
            let [x0, y0, x1, y1] = places;
            format!(r#""x0":{x0},"y0":{y0},"x1":{x1},"y1":{y1},"z":{z}"#)
        };
        let (last, over) = (form("2097151", 15), form("2097152", 15));
        counts.expect_form_of::<Stroke>(&format!("{{{last}}}"));
        counts.expect_refused::<Stroke>(&format!("{{{over}}}"), place);
        let rest = r#","placed":false,"address":4095"#;
        counts.expect_form_of::<Move>(&format!("{{{last}{rest}}}"));
        counts.expect_refused::<Move>(&format!("{{{over}{rest}}}"), place);
    }
    let stroke = |z: u8| format!(r#"{{"x0":0,"y0":0,"x1":0,"y1":0,"z":{z}}}"#);
    let made = |z: u8, placed: bool, address: u16| {
        format!(
            r#"{{"x0":0,"y0":0,"x1":0,"y1":0,"z":{z},"placed":{placed},"address":{address}}}"#
        )
    };
    let beam = |x: u32, y: u32, scale: u8| format!(r#"{{"x":{x},"y":{y},"scale":{scale}}}"#);
    let counters = |x: u16, y: u16| format!(r#"{{"x":{x},"y":{y}}}"#);
    counts.expect_form_of::<Stroke>(&stroke(1));
    counts.expect_refused::<Stroke>(&stroke(0), "the intensity of a stroke is 1 to 15");
    counts.expect_refused::<Stroke>(&stroke(16), "the intensity of a stroke is 1 to 15");
    counts.expect_form_of::<Move>(&made(0, true, 0));
    counts.expect_refused::<Move>(&made(16, false, 0), "the intensity of a move is 0 to 15");
    counts.expect_refused::<Move>(&made(1, true, 0), "and of a LABS 0");
    counts.expect_refused::<Move>(&made(0, false, 4096), "a word address is below 4,096");
    counts.expect_form_of::<Beam>(&beam(2_097_151, 2_097_151, 15));
    counts.expect_refused::<Beam>(&beam(2_097_152, 0, 0), place);
    counts.expect_refused::<Beam>(&beam(0, 2_097_152, 0), place);
    counts.expect_refused::<Beam>(&beam(0, 0, 16), "the global scale is 0 to 15");
    counts.expect_form_of::<Counters>(&counters(4095, 4095));
    counts.expect_refused::<Counters>(&counters(4096, 0), "in whole units is below 4,096");
    counts.expect_refused::<Counters>(&counters(0, 4096), "in whole units is below 4,096");
    test_states(counts);
    test_driver_states(counts);
    let of_ram = "a byte address of the RAM is below 2,048";
    counts.expect_form_of::<Action>(r#"{"Wrote":[2047,255]}"#);
    counts.expect_refused::<Action>(r#"{"Wrote":[2048,0]}"#, of_ram);
    counts.expect_refused::<Entry>(r#"{"Acted":{"Wrote":[2048,0]}}"#, of_ram);
    for (form, over) in [
        (r#"{"Low":[4095,255]}"#, r#"{"Low":[4096,0]}"#),
        (r#"{"Fetched":[4095,65535]}"#, r#"{"Fetched":[4096,0]}"#),
        (r#"{"Done":[4095,49151,[]]}"#, r#"{"Done":[4096,45056,[]]}"#),
        (r#"{"Broke":[4095,"Hole"]}"#, r#"{"Broke":[4096,"Hole"]}"#),
        (
            r#"{"Refused":{"OutOfRom":{"InRom":4095}}}"#,
            r#"{"Refused":{"OutOfRom":{"InRom":4096}}}"#,
        ),
    ] {
        counts.expect_form_of::<Entry>(form);
        counts.expect_refused::<Entry>(over, "a word address is below 4,096");
    }
    for word in [45055, 49152] {
        let text = format!(r#"{{"Done":[0,{word},[]]}}"#);
        counts.expect_refused::<Entry>(&text, "the last word of a finished run is a HALT");
    }
    let drew = stroke(16);
    let text = format!(r#"{{"Done":[0,45056,[{drew}]]}}"#);
    counts.expect_refused::<Entry>(&text, "the intensity of a stroke");
    let operation = "the number of an operation is below 511";
    counts.expect_form_of::<Place>(r#"{"InFrame":510}"#);
    counts.expect_refused::<Place>(r#"{"InFrame":511}"#, operation);
    for fault in ["Target", "RunsOff"] {
        counts.expect_form_of::<FrameFault>(&format!(r#"{{"{fault}":510}}"#));
        counts.expect_refused::<FrameFault>(&format!(r#"{{"{fault}":511}}"#), operation);
    }
    for fault in ["OutOfRom", "TooDeep", "NoCaller"] {
        counts.expect_form_of::<FrameFault>(&format!(r#"{{"{fault}":{{"InFrame":510}}}}"#));
        counts.expect_refused::<FrameFault>(
            &format!(r#"{{"{fault}":{{"InFrame":511}}}}"#),
            operation,
        );
    }
}

/// Images and ROMs are the lists of their bytes.
fn test_memories(counts: &mut Counts) -> Result<(), std::boxed::Box<dyn std::error::Error>> {
    let bytes: std::vec::Vec<u8> = (0..4096_u32).map(|k| (k * k / 7) as u8).collect();
    let image = Image::new(Global, &bytes[..2048])?;
    counts.expect_form(image, &serde_json::to_string(&bytes[..2048])?);
    for length in [2048, 4096] {
        let rom = Rom::new(Global, &bytes[..length])?;
        let text = serde_json::to_string(&rom)?;
        counts.expect(
            text == serde_json::to_string(&bytes[..length])?,
            "a ROM is its bytes",
        );
        let read: Rom = serde_json::from_str(&text)?;
        let words = |rom: &Rom| -> std::vec::Vec<u16> {
            (rom.first()..rom.first() + rom.len_words())
                .map(|a| rom.word(a))
                .collect()
        };
        counts.expect(
            words(&read) == words(&rom),
            "a ROM is read as it was written",
        );
    }
    Ok(())
}

/// Events and entries, and what they are made of.
fn test_logs(counts: &mut Counts) -> Result<(), std::boxed::Box<dyn std::error::Error>> {
    let (draft, text) = draft()?;
    let offer: Event = Event::Offer(Box::new(Global, draft)?);
    counts.expect_form(offer, &format!(r#"{{"Offer":{text}}}"#));
    let reset: Event = Event::ResetAll(Image::new(Global, &[7; 2048])?);
    counts.expect_form(
        reset,
        &format!(r#"{{"ResetAll":{}}}"#, list(2048).replace('0', "7")),
    );
    let events = r#"["Redraw","Tick","Strobe","Fetch","ResetGen","ResetCpu"]"#;
    let all: Vec<Event> = [
        Event::Redraw,
        Event::Tick,
        Event::Strobe,
        Event::Fetch,
        Event::ResetGen,
        Event::ResetCpu,
    ]
    .into_iter()
    .collect();
    counts.expect_form(all, events);
    let stroke = Stroke {
        x0: 262144,
        y0: 0,
        x1: 2097151,
        y1: 1,
        z: 15,
    };
    let strokes: Vec<Stroke> = [stroke].into_iter().collect();
    let text = r#"{"Done":[517,45056,[{"x0":262144,"y0":0,"x1":2097151,"y1":1,"z":15}]]}"#;
    counts.expect_form(Entry::Done(0x205, 0xB000, strokes), text);
    let entries: std::vec::Vec<(Entry, &str)> = vec![
        (Entry::Offered, r#""Offered""#),
        (
            Entry::Refused(FrameFault::OutOfRom(Place::InRom(1))),
            r#"{"Refused":{"OutOfRom":{"InRom":1}}}"#,
        ),
        (
            Entry::Refused(FrameFault::Target(9)),
            r#"{"Refused":{"Target":9}}"#,
        ),
        (Entry::Busy, r#""Busy""#),
        (Entry::Asked, r#""Asked""#),
        (Entry::NothingPublished, r#""NothingPublished""#),
        (
            Entry::Acted(Action::Wrote(1, 226)),
            r#"{"Acted":{"Wrote":[1,226]}}"#,
        ),
        (
            Entry::Acted(Action::Read(true)),
            r#"{"Acted":{"Read":true}}"#,
        ),
        (Entry::Acted(Action::Idle), r#"{"Acted":"Idle"}"#),
        (Entry::Started, r#""Started""#),
        (Entry::NoStrobe, r#""NoStrobe""#),
        (Entry::Low(0, 1), r#"{"Low":[0,1]}"#),
        (Entry::Fetched(0, 57857), r#"{"Fetched":[0,57857]}"#),
        (
            Entry::Broke(4095, GenFault::Hole),
            r#"{"Broke":[4095,"Hole"]}"#,
        ),
        (Entry::Still, r#""Still""#),
        (Entry::Cleared, r#""Cleared""#),
    ];
    for (entry, text) in entries {
        counts.expect_form(entry, text);
    }
    Ok(())
}

/// What is small: faults, places, the beam and its moves.
fn test_rest(counts: &mut Counts) {
    counts.expect_form(Beam::place(1, 2, 3), r#"{"x":512,"y":1024,"scale":3}"#);
    let made = Move {
        x0: 1,
        y0: 2,
        x1: 3,
        y1: 4,
        z: 0,
        placed: true,
        address: 6,
    };
    let form = r#"{"x0":1,"y0":2,"x1":3,"y1":4,"z":0,"placed":true,"address":6}"#;
    counts.expect_form(made, form);
    counts.expect_form(Counters { x: 1, y: 2 }, r#"{"x":1,"y":2}"#);
    counts.expect_form(Half::H1, r#""H1""#);
    counts.expect_form(Area::Rom, r#""Rom""#);
    counts.expect_form(Place::InFrame(4), r#"{"InFrame":4}"#);
    counts.expect_form(CodeFault::Cut, r#""Cut""#);
    counts.expect_form(MemFault::Size, r#""Size""#);
    counts.expect_form(DriverFault::NothingPublished, r#""NothingPublished""#);
    counts.expect_form(FrameFault::Loops, r#""Loops""#);
    counts.expect_form(StateFault::OtherRom, r#""OtherRom""#);
    counts.expect_form(
        WorldStateFault::Generator(GeneratorStateFault::Stroke),
        r#"{"Generator":"Stroke"}"#,
    );
    counts.expect_form(
        WorldStateFault::Driver(DriverStateFault::Frame(FrameFault::Target(9))),
        r#"{"Driver":{"Frame":{"Target":9}}}"#,
    );
    counts.expect_refused::<WorldStateFault>(r#"{"Driver":{"Frame":{"Target":511}}}"#, "below 511");
    counts.expect_form(DraftFull, "null");
    counts.expect_form(OutOfMemory, "null");
}

fn main() -> Result<ExitCode, std::boxed::Box<dyn std::error::Error>> {
    let mut counts = Counts::default();
    test_drafts(&mut counts)?;
    test_refused(&mut counts);
    test_memories(&mut counts)?;
    test_world_states(&mut counts)?;
    test_logs(&mut counts)?;
    test_rest(&mut counts);
    println!("{} passed, {} failed", counts.passed, counts.failed);
    Ok(ExitCode::from(u8::from(counts.failed > 0)))
}
