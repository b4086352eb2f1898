//! Random sketches, and mistakes in them.

use crate::storm::drafts::{Op, ROM_END, Random, Rom, drawing, labs, random_draft};
use std::collections::HashSet;

/// The most bytes of a text.
const MOST_TEXT_BYTES: usize = 1_048_576;

/// A random sketch, and what it denotes by the way in which it was made.
pub struct Made {
    pub text: Vec<u8>,
    /// The draft of each frame.
    pub frames: Vec<Vec<Op>>,
    pub equates: Vec<(String, usize)>,
}

/// An operation of a shape in the ROM. Shapes are called by their numbers.
#[derive(Clone, Copy)]
enum ShapeOp {
    Plain(Op),
    Call(usize),
    Jump(usize),
}

impl ShapeOp {
    fn words(self) -> usize {
        match self {
            ShapeOp::Plain(op) => op.words(),
            _ => 1,
        }
    }
}

/// A routine of the ROM with a name.
struct Shape {
    name: String,
    ops: Vec<ShapeOp>,
    /// How deep its own calls go.
    depth: usize,
    halts: bool,
    address: usize,
}

impl Shape {
    fn words(&self) -> usize {
        self.ops.iter().map(|op| op.words()).sum()
    }
}

/// Shapes that stand one after the other, perhaps at an address that is given.
struct RomSection {
    shapes: Vec<usize>,
    address: Option<usize>,
}

/// Random names, of which none is given twice.
struct Names(HashSet<String>);

const STEMS: [&str; 22] = [
    "rock", "ship", "a", "b", "call", "jump", "halt", "return", "labs", "vctr", "svec", "map",
    "rom", "frame", "callrom", "jumprom", "over", "again", "x_", "title", "z9", "bad",
];

impl Names {
    fn new() -> Names {
        Names(HashSet::new())
    }

    fn random(&mut self, random: &mut Random) -> String {
        loop {
            let stem = random.one_of(&STEMS);
            let name = match random.below(24) {
                0..12 => stem.to_owned(),
                12..22 => format!("{stem}{}", random.below(1000)),
                22 => format!("{stem:_<32}"),
                _ => format!("{stem}_{}", random.below(1_000_000)),
            };
            let is_address = name.len() == 3 && u16::from_str_radix(&name, 16).is_ok();
            if !is_address && self.0.insert(name.clone()) {
                return name;
            }
        }
    }
}

/// How freely lines are written.
#[derive(Clone, Copy)]
struct Style {
    noise: usize,
    cr: bool,
}

/// The lines of a sketch as they are written.
struct Writer {
    text: Vec<u8>,
    style: Style,
}

impl Writer {
    fn blanks(&mut self, least: usize, random: &mut Random) {
        let more = if random.below(8) < self.style.noise {
            random.below(4)
        } else {
            0
        };
        for _ in 0..least + more {
            let tab = random.below(8) < self.style.noise;
            self.text.push(if tab { b'\t' } else { b' ' });
        }
    }

    fn comment(&mut self, random: &mut Random) {
        self.text.push(b'#');
        for _ in 0..random.below(12) {
            let byte = random.below(256) as u8;
            self.text.push(if byte == b'\n' { b'#' } else { byte });
        }
    }

    fn end_line(&mut self, random: &mut Random) {
        if random.below(10) < self.style.noise {
            self.blanks(0, random);
            self.comment(random);
        }
        if self.style.cr {
            self.text.push(b'\r');
        }
        self.text.push(b'\n');
    }

    /// Writes a line of these words, and now and then one that says nothing before it.
    fn line(&mut self, words: &str, random: &mut Random) {
        if random.below(16) < self.style.noise {
            self.blanks(0, random);
            self.end_line(random);
        }
        self.blanks(0, random);
        let capitals = random.below(8) < self.style.noise;
        for (number, word) in words.split(' ').enumerate() {
            if number > 0 {
                self.blanks(1, random);
            }
            for byte in word.bytes() {
                let large = capitals && random.once_in(2);
                self.text.push(if large {
                    byte.to_ascii_uppercase()
                } else {
                    byte
                });
            }
        }
        self.blanks(0, random);
        self.end_line(random);
    }

    /// Writes a row: perhaps names, each alone in a line but perhaps the last one, and what it
    /// does.
    fn row(&mut self, names: &[&str], doing: &str, random: &mut Random) {
        let Some((last, before)) = names.split_last() else {
            return self.line(doing, random);
        };
        for name in before {
            self.line(&format!("{name}:"), random);
        }
        if doing.is_empty() || random.once_in(2) {
            self.line(&format!("{last}:"), random);
            if !doing.is_empty() {
                self.line(doing, random);
            }
        } else {
            self.line(&format!("{last}: {doing}"), random);
        }
    }
}

fn random_shape(number: usize, shapes: &[Shape], names: &mut Names, random: &mut Random) -> Shape {
    let mut ops: Vec<ShapeOp> = Vec::new();
    for _ in 0..random.below(5) {
        let op = if random.once_in(9) {
            labs(random)
        } else {
            drawing(random)
        };
        ops.push(ShapeOp::Plain(op));
    }
    let mut shape = Shape {
        name: names.random(random),
        ops,
        depth: 0,
        halts: false,
        address: 0,
    };
    if number > 0 && random.once_in(3) {
        let callee = random.below(number);
        if shapes[callee].depth == 0 && !shapes[callee].halts {
            shape.depth = 1;
            shape.ops.push(ShapeOp::Call(callee));
        }
    }
    let next = random.below(number.max(1));
    match random.below(8) {
        0 if number > 0 => {
            shape.depth = shape.depth.max(shapes[next].depth);
            shape.halts = shapes[next].halts;
            shape.ops.push(ShapeOp::Jump(next));
        }
        1 => {
            shape.halts = true;
            shape.ops.push(ShapeOp::Plain(Op::Halt));
        }
        _ => shape.ops.push(ShapeOp::Plain(Op::Return)),
    }
    shape
}

/// Which words of the ROM are given by lines and by sections.
struct Given {
    first: usize,
    by_lines: [bool; ROM_END],
    by_sections: [bool; ROM_END],
    free: usize,
}

impl Given {
    /// What the lines of a ROM give.
    fn of(rom: &Rom) -> Given {
        let mut given = Given {
            first: usize::from(rom.first()),
            by_lines: [false; ROM_END],
            by_sections: [false; ROM_END],
            free: usize::from(rom.first()),
        };
        for line in rom.text.lines() {
            let words: Vec<&str> = line.split(' ').collect();
            if let ["rom", at, words @ ..] = &words[..]
                && let Ok(at) = usize::from_str_radix(at, 16)
            {
                given.by_lines[at..at + words.len()].fill(true);
                given.free = given.free.max(at + words.len());
            }
        }
        given
    }

    fn take(&mut self, start: usize, size: usize) {
        self.by_sections[start..start + size].fill(true);
        self.free = self.free.max(start + size);
    }

    /// Whether this many words from there on aren't given; those of lines may be laid on.
    fn has_room(&self, start: usize, size: usize, over_lines: bool) -> bool {
        let end = start + size;
        end <= ROM_END
            && !self.by_sections[start..end].contains(&true)
            && (over_lines || !self.by_lines[start..end].contains(&true))
    }

    /// Where a section of this many words may stand: None for the first free word.
    fn place(&self, size: usize, random: &mut Random) -> Option<usize> {
        let any = self.first + random.below(ROM_END - self.first);
        let wanted = match random.below(8) {
            0 => ROM_END - size,
            1 => self.first,
            2..5 => any,
            _ => self.free,
        };
        if wanted == self.free && wanted + size <= ROM_END {
            return random.once_in(4).then_some(wanted);
        }
        let over_lines = random.once_in(12);
        (wanted..ROM_END)
            .chain(self.first..wanted)
            .find(|start| self.has_room(*start, size, over_lines))
    }
}

/// Places shapes in sections, in an order by chance.
fn random_sections(
    shapes: &mut [Shape],
    given: &mut Given,
    random: &mut Random,
) -> Vec<RomSection> {
    let mut order: Vec<usize> = (0..shapes.len()).collect();
    for place in (1..order.len()).rev() {
        order.swap(place, random.below(place + 1));
    }
    let mut sections = Vec::new();
    while !order.is_empty() {
        let rest = order.split_off(order.len().min(1 + random.below(3)));
        let size = order.iter().map(|shape| shapes[*shape].words()).sum();
        let address = given.place(size, random);
        let mut at = address.unwrap_or(given.free);
        given.take(at, size);
        for shape in &order {
            shapes[*shape].address = at;
            at += shapes[*shape].words();
        }
        sections.push(RomSection {
            shapes: std::mem::replace(&mut order, rest),
            address,
        });
    }
    sections
}

/// A sketch in the making.
struct Maker<'a> {
    shapes: Vec<Shape>,
    equates: Vec<(String, usize)>,
    rom_names: Names,
    writer: Writer,
    random: &'a mut Random,
}

impl Maker<'_> {
    fn write_section(&mut self, section: &RomSection) {
        let begin = match section.address {
            Some(address) => format!(".rom {address:03X}"),
            None => String::from(".rom"),
        };
        self.writer.line(&begin, self.random);
        for number in &section.shapes {
            self.write_shape(*number);
        }
        if self.random.once_in(6) {
            let last = section.shapes.last().map(|shape| &self.shapes[*shape]);
            let end = last.map_or(0, |shape| shape.address + shape.words());
            let name = self.rom_names.random(self.random);
            self.writer.row(&[&name], "", self.random);
            self.equates.push((name, end));
        }
    }

    fn write_shape(&mut self, number: usize) {
        let mut at = self.shapes[number].address;
        for (place, op) in self.shapes[number].ops.iter().enumerate() {
            let mut names = Vec::new();
            if place == 0 {
                names.push(self.shapes[number].name.clone());
            }
            if self.random.once_in(8) {
                names.push(self.rom_names.random(self.random));
            }
            for name in &names {
                self.equates.push((name.clone(), at));
            }
            let names: Vec<&str> = names.iter().map(String::as_str).collect();
            let rom = if self.random.once_in(2) { "rom" } else { "" };
            let doing = match op {
                ShapeOp::Plain(op) => op.to_string(),
                ShapeOp::Call(shape) => format!("call{rom} {}", self.shapes[*shape].name),
                ShapeOp::Jump(shape) => format!("jump{rom} {}", self.shapes[*shape].name),
            };
            self.writer.row(&names, &doing, self.random);
            at += op.words();
        }
    }

    /// A target in the ROM: its name where it has one, or its address.
    fn rom_target(&mut self, address: u16) -> String {
        let shape = self
            .shapes
            .iter()
            .find(|shape| shape.address == usize::from(address));
        match shape {
            Some(shape) if !self.random.once_in(4) => shape.name.clone(),
            _ => format!("{address:03X}"),
        }
    }

    /// Writes the rows of a frame. Its operations are called by names, mostly.
    fn write_frame(&mut self, ops: &[Op]) {
        let mut names = Names::new();
        let names: Vec<Vec<String>> = (0..=ops.len())
            .map(|_| {
                let count = [0, 0, 0, 0, 1, 1, 1, 2][self.random.below(8)];
                (0..count).map(|_| names.random(self.random)).collect()
            })
            .collect();
        for (number, op) in ops.iter().enumerate() {
            let mut target = |i: usize| match names.get(i).and_then(|names| names.last()) {
                Some(name) if !self.random.once_in(8) => name.clone(),
                _ => i.to_string(),
            };
            let doing = match op {
                Op::Call(i) => format!("call {}", target(*i)),
                Op::Jump(i) => format!("jump {}", target(*i)),
                Op::CallRom(a) => format!("callrom {}", self.rom_target(*a)),
                Op::JumpRom(a) => format!("jumprom {}", self.rom_target(*a)),
                op => op.to_string(),
            };
            let given: Vec<&str> = names[number].iter().map(String::as_str).collect();
            self.writer.row(&given, &doing, self.random);
        }
        let last: Vec<&str> = names[ops.len()].iter().map(String::as_str).collect();
        if !last.is_empty() {
            self.writer.row(&last, "", self.random);
        }
    }
}

/// The drafts of a sketch, of which some have as many operations as one may have.
fn random_drafts(rom: &Rom, random: &mut Random) -> Vec<Vec<Op>> {
    let count = match random.below(400) {
        0 => 300,
        1..20 => 0,
        20..200 => 1,
        200..380 => 2 + random.below(3),
        _ => 5 + random.below(20),
    };
    let mut drafts: Vec<Vec<Op>> = (0..count).map(|_| random_draft(rom, random)).collect();
    if let Some(draft) = drafts.first_mut()
        && random.once_in(100)
    {
        // Words of a LABS, of short vectors, and of a HALT.
        let size = 506 + random.below(6);
        *draft = vec![labs(random)];
        draft.resize(
            size,
            Op::Svec {
                scale: 2,
                dx: 1,
                dy: -1,
                z: 1,
            },
        );
        draft.push(Op::Halt);
        draft.truncate(511);
    }
    drafts
}

/// A random sketch without fault, of which some frames may be refused.
pub fn random_sketch(seed: u64) -> Made {
    let mut random = Random::new(seed);
    let random = &mut random;
    let mut rom = Rom::random(random);
    let front = rom.text.clone();
    let mut given = Given::of(&rom);
    let mut rom_names = Names::new();
    let mut shapes = Vec::new();
    for number in 0..random.below(6) {
        let shape = random_shape(number, &shapes, &mut rom_names, random);
        shapes.push(shape);
    }
    let sections = random_sections(&mut shapes, &mut given, random);
    for shape in &shapes {
        rom.add_shape(shape.address as u16, shape.depth, shape.halts);
    }
    let drafts = random_drafts(&rom, random);
    let style = Style {
        noise: [0, 0, 1, 2, 4][random.below(5)],
        cr: random.once_in(6),
    };
    let writer = Writer {
        text: Vec::new(),
        style,
    };
    let mut maker = Maker {
        shapes,
        equates: Vec::new(),
        rom_names,
        writer,
        random,
    };
    for line in front.lines() {
        maker.writer.line(line, maker.random);
    }
    let frames = write_all(&mut maker, &sections, drafts);
    Made {
        text: finish(maker.writer.text, maker.random),
        frames,
        equates: maker.equates,
    }
}

/// Writes sections of the ROM and frames, in an order by chance, and answers the frames.
fn write_all(
    maker: &mut Maker,
    sections: &[RomSection],
    drafts: Vec<Vec<Op>>,
) -> Vec<Vec<Op>> {
    let mut frame_names = Names::new();
    let mut frames = Vec::new();
    let mut drafts = drafts.into_iter().peekable();
    let mut sections = sections.iter().peekable();
    if sections.peek().is_none() && drafts.peek().is_none() {
        return vec![Vec::new()];
    }
    let mut at_top = true;
    while sections.peek().is_some() || drafts.peek().is_some() {
        let frame_is_next = sections.peek().is_none() || maker.random.once_in(2);
        if let Some(ops) = drafts.next_if(|_| frame_is_next) {
            let has_name = maker.random.once_in(2);
            let name = has_name.then(|| frame_names.random(maker.random));
            let needs_no_line = at_top && !has_name && !ops.is_empty();
            if !needs_no_line || maker.random.once_in(2) {
                let begin = name.as_ref().map(|name| format!(".frame {name}"));
                let begin = begin.unwrap_or(String::from(".frame"));
                maker.writer.line(&begin, maker.random);
            }
            maker.write_frame(&ops);
            frames.push(ops);
        } else if let Some(section) = sections.next() {
            maker.write_section(section);
        }
        at_top = false;
    }
    frames
}

/// Now and then leaves out the last LF, or fills a text with a comment up to its limit.
fn finish(mut text: Vec<u8>, random: &mut Random) -> Vec<u8> {
    if random.once_in(16) && text.last() == Some(&b'\n') {
        text.pop();
    } else if random.once_in(500) {
        text.resize(MOST_TEXT_BYTES, b'#');
    }
    text
}

/// Lines that are faults of most sketches, or change what most denote.
const LINES: [&str; 36] = [
    "halt",
    "return",
    "jump 0",
    "call 0",
    "call 511",
    "a:",
    "a: halt",
    "rock: rock: halt",
    "call nowhere",
    "jump nowhere",
    "callrom nowhere",
    "jumprom nowhere",
    "callrom bad",
    "callrom 005",
    "jumprom C00",
    "callrom 12",
    ".frame",
    ".frame title",
    ".frame bad",
    ".frame a b",
    ".rom",
    ".rom 800",
    ".rom BFF",
    ".rom C00",
    ".rom C01",
    ".rom 7FF",
    ".rom 400",
    ".rom 3FF",
    ".rom 80",
    "rom 800 D000",
    "map 4096",
    "map 2048",
    "labs 0 0 16",
    "vctr 10 0 0 1",
    "svec 2 4 0 1",
    "labs 01 0 0",
];

fn random_line(random: &mut Random) -> Vec<u8> {
    let line = match random.below(8) {
        0 => format!("{}:", random.one_of(&STEMS)),
        1 => format!("call {}", random.one_of(&STEMS)),
        2 => format!("a{:_<31}: callrom {}", "", random.one_of(&STEMS)),
        3 => format!("a{:_<32}: halt", ""),
        _ => random.one_of(&LINES).to_owned(),
    };
    line.into_bytes()
}

/// A text with a mistake: a line changed, dropped, doubled or moved, a byte changed, or a limit
/// passed.
pub fn with_mistake(text: &[u8], seed: u64) -> Vec<u8> {
    let mut random = Random::new(seed ^ 0x5EED);
    let random = &mut random;
    if text.len() == MOST_TEXT_BYTES {
        return [text, b"#"].concat();
    }
    let mut lines: Vec<Vec<u8>> = text
        .split(|byte| *byte == b'\n')
        .map(<[u8]>::to_vec)
        .collect();
    let place = random.below(lines.len());
    let other = random.below(lines.len());
    match random.below(15) {
        0 => lines[place] = random_line(random),
        1 | 2 => lines.insert(place, random_line(random)),
        3 => drop(lines.remove(place)),
        4 => lines.insert(place, lines[place].clone()),
        5 => lines.swap(place, other),
        10 | 11 => lines.insert(place, lines[other].clone()),
        12 | 13 => lines.insert(place, beginning(&lines, random)),
        6 if random.once_in(4) => {
            let many = vec![b"svec 2 1 1 1".to_vec(); 600];
            lines.splice(place..place, many);
        }
        6 | 7 => {
            let line = &mut lines[place];
            let last = line.len();
            line.insert(random.below(last + 1), random.below(256) as u8);
        }
        _ => change_byte(&mut lines[place], random),
    }
    lines.join(&b'\n')
}

/// A line that begins a section: one of those that are there, or one of the ROM near it.
fn beginning(lines: &[Vec<u8>], random: &mut Random) -> Vec<u8> {
    let begins = |line: &&Vec<u8>| line.contains(&b'.');
    let lines: Vec<_> = lines.iter().filter(begins).collect();
    if lines.is_empty() {
        return b".rom".to_vec();
    }
    let line = lines[random.below(lines.len())];
    let text = String::from_utf8_lossy(line);
    let near = text.split_whitespace().nth(1).and_then(|digits| {
        let address = usize::from_str_radix(digits, 16).ok()?;
        Some(format!(
            ".rom {:03X}",
            (address + random.below(5)).saturating_sub(2)
        ))
    });
    near.map_or(line.clone(), String::into_bytes)
}

fn change_byte(line: &mut Vec<u8>, random: &mut Random) {
    if line.is_empty() {
        return line.push(b':');
    }
    let place = random.below(line.len());
    match random.below(4) {
        0 => drop(line.remove(place)),
        1 => line[place] ^= 1 << random.below(8),
        _ => line[place] = random.one_of(b" \t:#.09afz_-\r\n\0\x80"),
    }
}
